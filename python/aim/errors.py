"""What keeps a line from being taken. After each of these a session is as it was, and the next line is taken."""


class AimError(Exception):
    """What this package raises."""


class LibraryMissing(AimError):
    """The library for C isn't found, or is of another version."""


class Fault(AimError):
    """The line is at fault; `kind` is the word that a script's `bad line N KIND` has for it."""

    def __init__(self, line: str, kind: str):
        super().__init__(f"{kind}: {line}")
        self.line = line
        self.kind = kind


class Limit(AimError):
    """The line goes past a limit; `kind` is the word that a script's `limit WHICH` has for it."""

    def __init__(self, line: str, kind: str):
        super().__init__(f"limit {kind}: {line}")
        self.line = line
        self.kind = kind


class Full(AimError):
    """No place is left for a further entry, or for a further order: 262,144 were taken."""


class NoMemory(AimError, MemoryError):
    """Memory ran out, which it does up to the line `begin` alone."""


class Ended(AimError):
    """The line `end` was taken before, or the session was closed."""
