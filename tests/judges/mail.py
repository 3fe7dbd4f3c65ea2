"""The rules of `mail WORKERS`, and a judge that holds what it printed against them.

The journal has to be what one thread answers to the same calls in the same order. Each vehicle's entries have to be its
events, in the script's order, each once. Runs of neighbours have one thread each, so their entries keep the order of the
rounds: with one worker that is the whole journal.
"""
from judges import drives, texts
from scripts.events import rounds_of, script_of


def fault_of(program, script, workers, printed):
    """What is wrong with the text of a run, or None."""
    events, lines = script.events, printed.split("\n")
    if lines[-2:] != [f"end {len(events)}", ""] or len(lines) != len(events) + 2:
        return "the last line, or the count of lines"
    entries = [drives.entry_of(line, place) for place, line in enumerate(lines[:-2])]
    if None in entries:
        return f"{lines[entries.index(None)]} is no entry at its place"
    calls = [(entry.caller, entry.moment, entry.act) for entry in entries]
    length = -(-script.vehicles // workers)
    for first in range(0, script.vehicles, length):
        run = range(first, min(first + length, script.vehicles))
        if [call for call in calls if call[0] in run] != rounds_of(events, run):
            return f"the calls of the run of vehicle {first} are others, or not in the order of its rounds"
    again = program.run("replay", script=script_of(script.head, calls))
    if again.status:
        return f"status {again.status} of the replay of the journal"
    return texts.difference(lines, again.text.split("\n"), "replayed")
