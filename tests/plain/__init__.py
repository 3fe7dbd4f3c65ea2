"""A plain intersection manager, for tests: scripts of versions 1 to 4, written from the pages alone, with nothing kept that the
pages don't speak of. It asks a whole list of entries where the program keeps tables, and it is slow.

    python3 tests/plain replay < SCRIPT
"""
