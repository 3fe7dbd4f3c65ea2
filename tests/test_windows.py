"""What the plain manager grants and refuses within windows, beside the program asked for single arrivals in version 3: a window's
start is granted there, the step before it isn't, and a refusal has the reason that the arrival alone would have.

Version 3 has to be able to say so: there is no path of legs, nobody accelerates or gives way, and no lane with lights is quiet.
"""
from dataclasses import replace

from plain import commands
from plain.manager import Manager
from plain.messages import OPERATOR, Confirm, Reject, Stop, act_text
from plain.scripts import ReplayScript
from scripts import wide

SEEDS = range(200)
NO_ID = 4_000_000_000


def head_of(lines):
    """The head as version 3 has it."""
    head = lines[: lines.index("begin") + 1]
    return [" ".join(line.split(" ")[:-1]) if line.startswith("times ") else line.replace("aim 4", "aim 3") for line in head]


def simplified(lines):
    """The script with no gains, no giving way and no quiet lanes."""
    return [simple_line(line) for line in lines if " quiet " not in line]


def simple_line(line):
    words = line.split(" ")
    if words[0] == "policy":
        words[2] = words[2].replace("light-emerg", "light").replace("emerg", "fcfs")
    if len(words) > 3 and words[2] in ("request", "change"):
        words[9 + (words[2] == "change")] = "0"
    return " ".join(words)


class Beside:
    """Serves a script of version 4, and asks the program of version 3 behind all that was granted so far. What was refused isn't
    told to version 3: that would keep a distance, and a time to ask again. So its moments are those that had come by then."""

    def __init__(self, program, lines):
        self.program = program
        self.granted, self.ids, self.asked, self.faults = head_of(lines), {}, 0, []
        self.count = 0
        script = ReplayScript()
        for line in lines:
            script.take(script.read(line.encode()))
            if script.last == "begin":
                self.manager = Manager(script.layout)
            if script.call:
                self.serve(*script.call)

    def serve(self, caller, moment, act):
        entry = commands.serve(self.manager, caller, moment, act)
        is_order = entry.caller == OPERATOR
        if not is_order and act.asks and entry.is_fresh:
            self.ask(entry)
        if is_order:
            self.keep(entry, "stop" if isinstance(act, Stop) else f"switch p{act.policy}")
        elif not is_order and entry.is_fresh and (not act.asks or isinstance(entry.reply, Confirm)):
            self.keep(entry, self.old_text(act, getattr(entry.reply, "start", None)))

    def keep(self, entry, text):
        """Gives that to version 3 too, and notes which id it has there."""
        self.granted.append(f"{entry.caller} {entry.now} {text}")
        self.ids[entry.position] = self.count
        self.count += 1

    def old_text(self, act, start):
        """The message with the ids of version 3, for this start alone."""
        named = act if act.id is None else replace(act, id=self.ids.get(act.id, NO_ID))
        return act_text(named if start is None else replace(named, params=act.params.at(start)))

    def answer(self, entry, start):
        """What version 3 answers for that start."""
        lines = [*self.granted, f"{entry.caller} {entry.now} {self.old_text(entry.act, start)}", "end", ""]
        return self.program.run("replay", script="\n".join(lines)).text.split("\n")[self.count].split(" -> ")[1]

    def ask(self, entry):
        params, reply = entry.act.params, entry.reply
        if isinstance(reply, Confirm):
            trial = f"{reply.start} {reply.early} {reply.late} steady {reply.last}"
            self.expect(entry, reply.start, f"confirm {self.count} {trial}")
            if reply.start > params.arrive:
                self.expect(entry, reply.start - 1, "reject taken ", "reject green ")
        elif isinstance(reply, Reject) and reply.reason[0] in ("taken", "green"):
            self.expect(entry, params.arrive, f"reject {' '.join(map(str, reply.reason))} next {reply.next} ")
            self.expect(entry, params.latest, "reject taken ", "reject green ", "reject far ")

    def expect(self, entry, start, *beginnings):
        self.asked += 1
        answer = self.answer(entry, start)
        if not answer.startswith(beginnings):
            self.faults.append(f"entry {entry.position} at {start}: {answer}, wanted {' or '.join(beginnings)}")


def test_windows_beside_single_arrivals(program, checks):
    asked = 0
    for seed in SEEDS:
        lines = simplified(wide.events(seed, 4))
        if not any(" path " in line for line in lines):
            beside = Beside(program, lines)
            asked += beside.asked
            checks(f"events {seed}", "; ".join(beside.faults))
    checks.same("there are some", True, asked > 200)
