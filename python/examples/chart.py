"""Two vehicles cross one after the other, and the tiles that they hold are drawn, step by step.

    tools/library.sh dist/library
    AIM_LIBRARY=dist/library/lib/libaim.so.1 PYTHONPATH=python python3 python/examples/chart.py
"""

from aim import Confirm, Crossing, Done, Layout, Line, Move, Policy, Request, Session

# Two lanes that meet in one tile of a ground of 4 m.
layout = Layout(
    side=4000, rows=4, lanes=2, policies=[Policy("plain")],
    moves=[Move(0, "straight", Line(0, 1500, 4000, 1500, 40)), Move(1, "straight", Line(2500, 0, 2500, 4000, 40))])


def cross(session, vehicle, lane, step):
    """Asks until the crossing is confirmed."""
    seq = 1
    while True:
        crossing = Crossing(lane, "straight", step + 10, 500, 500, 0, 1000, 700)
        entry = session.say(vehicle, step, Request(seq, crossing))
        print(entry.text)
        if isinstance(entry.reply, Confirm):
            return entry.reply
        seq, step = seq + 1, entry.reply.next


with Session(layout, vehicles=2) as session:
    first = cross(session, 0, 0, 0)
    second = cross(session, 1, 1, 0)
    for step in range(first.start, second.last + 1, 4):
        print(f"step {step}", session.chart(step), sep="\n")
    print(session.say(0, first.last + 1, Done(2, first.id)).text)
    session.end()
