"""Judges: what a printed text has to be, by rules that are none of the program's. Each says what is wrong, or None."""
