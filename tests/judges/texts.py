"""What differs between a text that was printed and the one that is wanted."""


def difference(got, wanted, what="wanted"):
    """The first line that differs, or None. Both are lists of lines."""
    if got == wanted:
        return None
    pairs = zip(got + ["no line"], wanted + ["no line"])
    return next((f"{one!r}, {what} {other!r}" for one, other in pairs if one != other), "another number of lines")


def ran_otherwise(ran, status, output):
    """What differs of a run from the status and the output that are wanted, or None."""
    if ran.status != status:
        return f"status {ran.status}, wanted {status}"
    return difference(ran.output.split(b"\n"), output.split(b"\n"))
