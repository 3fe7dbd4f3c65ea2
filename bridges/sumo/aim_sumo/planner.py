"""Plans of vehicles: how one reaches the line at a given step and speed, and how it then crosses the box.

Places are metres along the vehicle's own path, negative before the line and 0 at it. Times within a motion are seconds;
steps are the manager's.
"""

import bisect
import math

STANDING = 0.3
"""Below this speed, metres a second, a vehicle counts as standing: it may wait before it starts."""
LONGEST_WAIT = 30.0
SLOWEST_CRUISE = 0.4
GATHERED = 0.98
"""Of the speed that it could gather up to the line a vehicle asks for this share."""


class Motion:
    """Waits, changes its speed to `cruise`, keeps it, and changes to another; the accelerations have a sign."""

    def __init__(self, speed, cruise, first_accel, last_accel, cruise_way, entry_speed, wait):
        self.wait = wait
        self._speed, self._cruise = speed, cruise
        self._first_accel, self._last_accel = first_accel, last_accel
        self._first_time = (cruise - speed) / first_accel
        self._cruise_end = self._first_time + cruise_way / cruise
        self._last_time = (entry_speed - cruise) / last_accel
        self._first_way = (cruise + speed) / 2 * self._first_time
        self._cruise_way = cruise_way

    def way(self, seconds):
        """The metres gone after some seconds."""
        time = seconds - self.wait
        if time <= 0:
            return 0.0
        if time <= self._first_time:
            return self._speed * time + self._first_accel * time * time / 2
        if time <= self._cruise_end:
            return self._first_way + self._cruise * (time - self._first_time)
        last = min(time - self._cruise_end, self._last_time)
        return self._first_way + self._cruise_way + self._cruise * last + self._last_accel * last * last / 2


class Approach:
    """All motions over a distance from one speed to another with one cruising speed in between.

    The time falls where the cruising speed rises, so each arrival from `soonest` to `latest` has one motion.
    """

    def __init__(self, distance, speed, entry_speed, top_speed, accel, brake):
        self._numbers = (distance, speed, entry_speed, accel, brake)
        base = min(max(speed, entry_speed), top_speed)
        self.is_possible = distance > 0 and base > 0 and self._time(base) is not None
        if self.is_possible:
            self._fastest = self._last_possible(base, max(top_speed, base))
            self._slowest = min(self._last_possible(base, SLOWEST_CRUISE), self._fastest)
            self.soonest = self._time(self._fastest)
            self.latest = max(self.soonest, self._time(self._slowest))
            self._latest_rolling = self.latest
            if speed < STANDING:
                self.latest = self.soonest + LONGEST_WAIT

    def _legs(self, cruise):
        """The two changes of speed and the metres between them."""
        distance, speed, entry_speed, accel, brake = self._numbers
        first = accel if cruise >= speed else -brake
        last = accel if entry_speed >= cruise else -brake
        rest = distance - (cruise**2 - speed**2) / (2 * first) - (entry_speed**2 - cruise**2) / (2 * last)
        return first, last, rest

    def _time(self, cruise):
        """The seconds of the motion with that cruising speed; None where the distance is too short for it."""
        _, speed, entry_speed, _, _ = self._numbers
        first, last, rest = self._legs(cruise)
        if rest < -1e-9:
            return None
        return (cruise - speed) / first + max(0.0, rest) / cruise + (entry_speed - cruise) / last

    def _last_possible(self, possible, wanted):
        """The cruising speed nearest to the one wanted, coming from a possible one, whose motion is possible."""
        if self._time(wanted) is not None:
            return wanted
        for _ in range(24):
            middle = (possible + wanted) / 2
            if self._time(middle) is None:
                wanted = middle
            else:
                possible = middle
        return possible

    def motion(self, seconds):
        """The motion that takes so long; None outside soonest to latest."""
        if seconds < self.soonest - 1e-6 or seconds > self.latest + 1e-6:
            return None
        wait = 0.0
        if seconds > self._latest_rolling:
            wait = seconds - self.soonest
            seconds = self.soonest
        slow, fast = self._slowest, self._fastest
        for _ in range(40):
            middle = (slow + fast) / 2
            if self._time(middle) > seconds:
                slow = middle
            else:
                fast = middle
        return self._motion(fast, wait)

    def _motion(self, cruise, wait):
        """The motion with that cruising speed, after a wait."""
        _, speed, entry_speed, _, _ = self._numbers
        first, last, rest = self._legs(cruise)
        return Motion(speed, cruise, first, last, max(0.0, rest), entry_speed, wait)


class Crossing:
    """The ways through the box of one move: the manager's own law of motion, mapped to true places.

    The front is at `speed*k + accel*k*(k-1)/2` counted millimetres after k steps, until the speed reaches the greatest
    one. The law is kept until the rear has left the box; then the vehicle gathers speed for its road. `least` is the
    least counted speed with which the manager has room for the crossing, `hold` how many metres before the line one
    without a reservation stands, so that it can gather that speed, and `width` the millimetres that it declares.
    """

    def __init__(self, way, greatest, vehicle, step, least=1, hold=2.0, width=None):
        self.way = way
        self.greatest = greatest
        self.vehicle = vehicle
        self.least = least
        self.width = width or round(vehicle.width * 1000)
        self._step = step
        self._known = {}
        self.hold = max(hold, self._hold_of(least))

    def _hold_of(self, speed):
        """The metres from which a standing vehicle gathers a counted speed up to the line, and some to spare."""
        true_speed = speed / 1000 / self._step * self.way.entry_ratio
        return (true_speed / GATHERED) ** 2 / (2 * self.vehicle.accel) * 1.05

    def speed_from(self, speed, way):
        """The greatest counted speed that a vehicle has at the line after some metres."""
        reached = math.sqrt(speed**2 + 2 * self.vehicle.accel * way) * GATHERED
        return min(self.greatest, math.floor(reached / self.way.entry_ratio * 1000 * self._step))

    def places(self, speed, accel):
        """The places of the front at the line and in each step after it, up to 60 metres past the box."""
        key = (speed, accel)
        if key not in self._known:
            self._known[key] = self._places(speed, accel)
        return self._known[key]

    def _places(self, speed, accel):
        places = [0.0]
        counted, now = 0, speed
        while places[-1] < self.way.arc + self.vehicle.length:
            counted += now
            now = min(now + accel, self.greatest)
            places.append(self.way.to_arc(counted / 1000))
        true_speed = (places[-1] - places[-2]) / self._step
        while places[-1] < self.way.arc + 60:
            true_speed = min(true_speed + self.vehicle.accel * self._step, self.vehicle.road_speed)
            places.append(places[-1] + true_speed * self._step)
        return places


class Plan:
    """Where a vehicle will be at each step from `begun` on; it is at the line at step `start`.

    Up to the line it is at `place` and then goes by a motion; `after` are its places from the line on. `speed` and
    `accel` are those that it asks with, in counted millimetres a step.
    """

    def __init__(self, begun, start, place, motion, after, speed, accel, step, road_speed):
        self.begun, self.start = begun, start
        self.after = after
        self.speed, self.accel = speed, accel
        self._place, self._motion = place, motion
        self._step, self._road_speed = step, road_speed

    @property
    def end(self):
        """The first step behind the plan."""
        return self.start + len(self.after)

    def at(self, step):
        """The place at a step; behind the plan the road's speed is kept."""
        if step < self.start:
            return self._place + self._motion.way((step - self.begun) * self._step)
        index = step - self.start
        if index < len(self.after):
            return self.after[index]
        return self.after[-1] + (index - len(self.after) + 1) * self._step * self._road_speed

    def speed_at(self, step):
        """The true speed in the step that begins at `step`."""
        return (self.at(step + 1) - self.at(step)) / self._step

    def passes(self, place):
        """The first step at which the front is at a place behind the line, or past it."""
        return self.start + bisect.bisect_left(self.after, place)


def accel_of(metres, step):
    """An acceleration in counted millimetres a step and step, rounded down, but at least 1."""
    return max(1, math.floor(metres * 1000 * step * step + 1e-9))
