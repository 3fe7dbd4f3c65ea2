"""Gaps between a plan and other vehicles on the same lanes: before the box, and behind it, where no manager looks."""

EVERY = 0.1
"""A plan is looked at so often; seconds."""


class Gaps:
    """Tells whether a plan keeps the room that vehicles keep to one another."""

    def __init__(self, step):
        self._step = step
        self._stride = max(1, round(EVERY / step))

    def keeps_room(self, car, plan, others, now):
        """True where a plan keeps its room to the car ahead in its lane, and to all on the lane by which it leaves."""
        return self._behind_leader(car, plan, now) and all(self._at_exit(car, plan, other, now) for other in others)

    def _behind_leader(self, car, plan, now):
        """True where the plan stays behind the car ahead: all along a path that they share, else up to the box."""
        leader = car.leader
        if leader is None:
            return True
        shared = leader.move.name == car.move.name
        for step in range(plan.begun, plan.end, self._stride):
            ahead = leader.foreseen(step, now)
            if not shared and ahead > leader.vehicle.length:
                return True
            room = car.vehicle.room(plan.speed_at(step)) - 0.05
            if ahead - leader.vehicle.length - plan.at(step) < room:
                return False
        return True

    def _at_exit(self, car, plan, other, now):
        """True where two cars that leave by one lane keep their room on it, whichever comes first."""
        if other is car or other.move.name == car.move.name:
            return True
        mine, theirs = plan.passes(car.way.arc), other.exit_step(now)
        for step in range(max(mine, theirs), plan.end, self._stride):
            my_place = plan.at(step) - car.way.arc
            their_place = other.foreseen(step, now) - other.way.arc
            if theirs <= mine:
                gap = their_place - other.vehicle.length - my_place
                room = car.vehicle.room(plan.speed_at(step))
            else:
                gap = my_place - car.vehicle.length - their_place
                room = other.vehicle.room(other.foreseen_speed(step, now))
            if gap < room - 0.05:
                return False
        return True
