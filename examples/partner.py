"""A simulator's partner: asks `aim replay` event by event, and reads each answer before it goes on.

    python3 examples/partner.py ./aim
    python3 examples/partner.py ./aim --json      asks `aim replay-json`, in JSON lines

Three vehicles come to a small crossing. Each asks for the step in which it would arrive, asks again later where it is
refused, and says when it has crossed. The last line says what the program ended with."""
import json
import subprocess
import sys

HEADER = """aim 1
grid 4000 4 100 0 450 4096
times 1500 25 20 0 0
lanes 2
move 0 straight line 0 1500 4000 1500 40
move 1 straight line 2500 0 2500 4000 40
policy plain fcfs
vehicles 3
begin
"""


class Manager:
    """A running `aim replay`. Each line that it is given is answered by one line, at once."""

    word, header, end = "replay", HEADER, "end"

    def __init__(self, program):
        self.process = subprocess.Popen(
            [program, self.word], stdin=subprocess.PIPE, stdout=subprocess.PIPE, text=True, bufsize=1)
        self.process.stdin.write(self.header)
        self.seqs = {}

    def ask(self, vehicle, step, kind, fields):
        """Sends a message with the vehicle's next number, and gives the reply's members by their names."""
        self.seqs[vehicle] = self.seqs.get(vehicle, 0) + 1
        message = {"kind": kind, "seq": self.seqs[vehicle], **fields}
        self.process.stdin.write(self.event(vehicle, step, message) + "\n")
        answer = self.process.stdout.readline()
        reply = self.reply(answer)
        if reply is None:
            raise RuntimeError(answer or "the program has ended")
        print(answer, end="")
        return reply

    def event(self, vehicle, step, message):
        return " ".join(str(word) for word in (vehicle, step, *message.values()))

    def reply(self, answer):
        if " -> " not in answer:
            return None
        words = answer.rstrip("\n").split(" -> ")[1].split()
        if words[0] == "confirm":
            return {"kind": "confirm", "id": int(words[1]), "last": int(words[6])}
        if words[0] == "reject":
            return {"kind": "reject", "next": int(words[words.index("next") + 1])}
        return {"kind": words[0]}

    def close(self):
        """Ends the script, and gives the last line and the status."""
        self.process.stdin.write(self.end + "\n")
        self.process.stdin.close()
        last = self.process.stdout.read().strip()
        return last, self.process.wait()


class JsonManager(Manager):
    """A running `aim replay-json`: the same in JSON lines, whose members need no order."""

    word = "replay-json"
    header = "".join(json.dumps(line) + "\n" for line in (
        {"form": "aim", "n": 1},
        {"form": "grid", "side": 4000, "n": 4, "spacing": 100, "static": 0, "half": 450, "spans": 4096},
        {"form": "times", "horizon": 1500, "longest": 25, "clearance": 20, "internal": 0, "edge": 0},
        {"form": "lanes", "n": 2},
        {"form": "move", "lane": 0, "turn": "straight", "shape": "line", "x0": 0, "y0": 1500, "x1": 4000, "y1": 1500, "m": 40},
        {"form": "move", "lane": 1, "turn": "straight", "shape": "line", "x0": 2500, "y0": 0, "x1": 2500, "y1": 4000, "m": 40},
        {"form": "policy", "name": "plain", "kind": "fcfs"},
        {"form": "vehicles", "n": 3},
        {"form": "begin"}))
    end = json.dumps({"form": "end"})

    def event(self, vehicle, step, message):
        return json.dumps({"form": "event", "vehicle": vehicle, "moment": step, "message": message})

    def reply(self, answer):
        return json.loads(answer or "{}").get("reply")


def main(program, manager_of):
    manager = manager_of(program)
    # When each vehicle asks next, in which lane it comes, and how far ahead it arrives.
    asks = {0: (0, 0, 10), 1: (0, 1, 10), 2: (2, 0, 12)}
    crossed = {}
    for step in range(100):
        for vehicle, (at, lane, lead) in sorted(asks.items()):
            if at != step:
                continue
            reply = manager.ask(vehicle, step, "request", {
                "lane": lane, "turn": "straight", "arrive": step + lead, "speed": 500, "max": 500, "accel": 0,
                "length": 1000, "width": 700, "class": "car"})
            if reply["kind"] == "confirm":
                crossed[reply["last"] + 1] = (vehicle, reply["id"])
                del asks[vehicle]
            else:
                # It may ask again from the step `next` on.
                asks[vehicle] = (reply["next"], lane, lead)
        if step in crossed:
            vehicle, reservation = crossed.pop(step)
            manager.ask(vehicle, step, "done", {"id": reservation})
    print(*manager.close())


words = sys.argv[1:]
main(next((word for word in words if word != "--json"), "./aim"), JsonManager if "--json" in words else Manager)
