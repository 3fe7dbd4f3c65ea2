"""What can go wrong by what a user gave; each is told in one line, which says what to do."""


class Trouble(Exception):
    """Something that can't be done; the text says why and what to do."""


class BadWord(Trouble):
    """A word of the command line, or of a file, can't be used."""


class BadHead(Trouble):
    """A layout can't be used for a bridge."""


class NoSumo(Trouble):
    """SUMO isn't there, or ended."""


class ManagerFailed(Trouble):
    """The manager isn't there, ended, or answered something else than what was asked."""
