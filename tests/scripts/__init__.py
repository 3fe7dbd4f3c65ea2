"""Scripts that are made: small ones by strategies of hypothesis, great ones by a seed."""
