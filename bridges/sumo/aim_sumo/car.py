"""A vehicle of a run: where it is, what it plans, and what others may foresee of it."""

import math
from enum import Enum


class State(Enum):
    """What a vehicle is at."""

    FREE = "without a reservation"
    BOUND = "with a reservation, before the line"
    INSIDE = "in the box"
    OUT = "behind the box"
    HUMAN = "driven by a person"


class Car:
    """One vehicle; places are metres along its path, 0 at the line."""

    def __init__(self, name, kind, move, crossing, leader, step):
        vehicle = crossing.vehicle
        self.id = name
        self.kind = kind
        self.move = move
        self.vehicle = vehicle
        self.crossing = crossing
        self.way = crossing.way
        self.leader = leader
        self.driver = None
        self.state = State.HUMAN if kind == "human" else State.FREE
        self.place = -math.inf
        self.speed = 0.0
        self.plan = None
        self.proposal = None
        self.wish = vehicle.road_speed
        self.next = 0
        self.entered = None
        self.refused_at = math.inf
        self.refused_speed = 0
        self.last_reason = ""
        self.drift = 0.0
        self.correction = 0.0
        self._step = step
        self._exit = None

    @property
    def has_plan(self):
        return self.state in (State.BOUND, State.INSIDE)

    @property
    def is_across(self):
        """True where those behind may plan by what is foreseen of it."""
        return self.has_plan or self.state is State.OUT or (self.state is State.HUMAN and self.place > 0)

    @property
    def is_gone(self):
        """True where it is too far behind the box to matter."""
        return self.place > self.way.arc + 60

    def adopt(self, plan):
        """Takes a plan."""
        self.plan = plan
        self.state = State.BOUND
        self._exit = plan.passes(self.way.arc)

    def release(self):
        """Drops the plan before the line."""
        self.plan = None
        self.state = State.FREE

    def foreseen(self, step, now):
        """The place at a later step: by its plan; else it gathers speed behind the box, and keeps it before that."""
        if self.has_plan:
            return self.plan.at(step)
        time = (step - now) * self._step
        if self.state is not State.OUT:
            return self.place + self.speed * time
        gathering = max(0.0, min(time, (self.vehicle.road_speed - self.speed) / self.vehicle.accel))
        return self.place + self.speed * time + self.vehicle.accel * gathering * (time - gathering / 2)

    def foreseen_speed(self, step, now):
        """The true speed at a later step."""
        return (self.foreseen(step + 1, now) - self.foreseen(step, now)) / self._step

    def exit_step(self, now):
        """The step at which the front leaves the box, as it is foreseen."""
        if self.has_plan:
            return self._exit
        if self.place >= self.way.arc:
            return now
        return now + math.ceil((self.way.arc - self.place) / max(self.speed, 0.5) / self._step)
