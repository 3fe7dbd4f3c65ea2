"""What carries messages to the manager and answers back; on request some are lost, late, or come twice.

A message's moment is the step at which it reaches the manager. Without faults a message is answered in the step in
which it is sent.
"""

import heapq
import random
from dataclasses import dataclass


@dataclass(frozen=True)
class Faults:
    """The shares of messages and of answers that are lost, late and repeated; `longest` is the most steps too late."""

    lost: float = 0.0
    late: float = 0.0
    repeated: float = 0.0
    longest: int = 50

    @property
    def are_there(self):
        return self.lost > 0 or self.late > 0 or self.repeated > 0


class Mail:
    """Both links of all vehicles."""

    def __init__(self, manager, faults, seed):
        self._manager = manager
        self._faults = faults
        self._chance = random.Random(seed)
        self._waiting = []
        self._number = 0
        self.counts = {"lost": 0, "late": 0, "repeated": 0}

    def post(self, step, driver, seq, message):
        """Sends a driver's message on its way up."""
        for due in self._dues(step):
            self._come(step, due, self._serve, (driver, seq, message))

    def deliver(self, step):
        """Hands over all that is due at a step."""
        while self._waiting and self._waiting[0][0] <= step:
            _, _, hand, what = heapq.heappop(self._waiting)
            hand(step, *what)

    def _dues(self, step):
        """The steps at which a thing sent at `step` comes: none where it is lost, two where it is repeated."""
        if not self._faults.are_there:
            return [step]
        draw = self._chance.random()
        for name in self.counts:
            share = getattr(self._faults, name)
            if draw < share:
                self.counts[name] += 1
                later = step + self._chance.randint(1, self._faults.longest)
                return {"lost": [], "late": [later], "repeated": [step, later]}[name]
            draw -= share
        return [step]

    def _come(self, step, due, hand, what):
        """Hands a thing over now, or keeps it until it is due."""
        if due <= step:
            hand(step, *what)
        else:
            self._number += 1
            heapq.heappush(self._waiting, (due, self._number, hand, what))

    def _serve(self, step, driver, seq, message):
        """Lets the manager answer a message, and sends the answer on its way down."""
        reply = self._manager.ask(f"{driver.number} {step} {message}")
        driver.served(reply)
        for due in self._dues(step):
            self._come(step, due, _hand_over, (driver, seq, reply))


def _hand_over(step, driver, seq, reply):
    driver.got(step, seq, reply)
