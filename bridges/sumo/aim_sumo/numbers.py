"""The numbers by which the manager knows vehicles: each is used again when its vehicle is through.

A number's messages must have rising `seq`, whoever sends them; so the next vehicle goes on where the last one ended.
"""

import heapq

MOST_SPANS = 16_777_216
"""The manager takes no more vehicles times spans of its layout."""


class Numbers:
    """Lends numbers below `count`, the lowest first."""

    def __init__(self, count):
        self.count = count
        self.used = 0
        self._free = []
        self._last_seq = {}

    def lend(self, driver):
        """Gives a driver a number that nobody has; false where there is none."""
        if driver.number is not None:
            return True
        if self._free:
            driver.number = heapq.heappop(self._free)
        elif self.used < self.count:
            driver.number, self.used = self.used, self.used + 1
        else:
            return False
        driver.seq = self._last_seq.get(driver.number, 0)
        return True

    def take_back(self, driver):
        """Takes the number of a driver whose crossing is over, and whose last message is answered."""
        self._last_seq[driver.number] = driver.seq
        heapq.heappush(self._free, driver.number)


def most_vehicles(spans, wanted):
    """How many vehicles a manager is told to expect: as many as are wanted, as far as its layout's spans allow."""
    return max(1, min(wanted, MOST_SPANS // spans))
