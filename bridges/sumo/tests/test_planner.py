import unittest

from aim_sumo.curve import Way
from aim_sumo.layout import Move
from aim_sumo.planner import Approach, Crossing, Plan, accel_of
from aim_sumo.vehicles import Vehicle

LINE = Move(1, "straight", ((0, 7500), (24000, 7500)), 240)
LEFT = Move(0, "left", ((0, 10500), (13500, 10500), (13500, 24000)), 280)


class Approaches(unittest.TestCase):
    def test_soonest_arrivals(self):
        for name, numbers, soonest in (
            ("it rolls on at the road's speed", (100.0, 10.0, 10.0, 10.0, 2.0, 4.0), 10.0),
            ("it speeds up at once", (100.0, 10.0, 14.0, 14.0, 2.0, 4.0), 2 + (100 - 24) / 14),
            ("it brakes as late as it can", (100.0, 14.0, 6.0, 14.0, 2.0, 4.0), (100 - 20) / 14 + 2),
            ("from standstill to the line", (4.0, 0.0, 4.0, 10.0, 2.0, 4.0), 2.0),
        ):
            approach = Approach(*numbers)
            with self.subTest(name):
                self.assertTrue(approach.is_possible)
                self.assertAlmostEqual(approach.soonest, soonest, 3)

    def test_what_cannot_be_reached(self):
        for name, numbers in (
            ("too near to gather the speed", (3.0, 0.0, 4.0, 10.0, 2.0, 4.0)),
            ("too near to brake", (5.0, 14.0, 6.0, 14.0, 2.0, 4.0)),
            ("past the line", (-1.0, 5.0, 5.0, 10.0, 2.0, 4.0)),
        ):
            with self.subTest(name):
                self.assertFalse(Approach(*numbers).is_possible)

    def test_each_arrival_has_one_motion_that_keeps_the_bounds(self):
        for numbers in (
            (100.0, 13.9, 13.9, 13.9, 2.5, 3.0), (80.0, 13.9, 7.0, 13.9, 2.5, 3.0), (30.0, 5.0, 9.0, 12.0, 2.5, 3.0),
            (2.0, 0.0, 3.0, 13.9, 2.5, 3.0), (60.0, 8.0, 12.0, 10.0, 2.5, 3.0),
        ):
            approach = Approach(*numbers)
            for share in range(11):
                time = approach.soonest + share / 10 * (min(approach.latest, approach.soonest + 20) - approach.soonest)
                with self.subTest(numbers=numbers, time=time):
                    self._check_motion(approach.motion(time), time, *numbers)

    def _check_motion(self, motion, time, distance, speed, entry, top, accel, brake):
        step = 0.01
        ways = [motion.way(index * step) for index in range(int(time / step) + 1)]
        speeds = [(there - here) / step for here, there in zip(ways, ways[1:])]
        self.assertAlmostEqual(motion.way(time), distance, 3)
        self.assertGreaterEqual(min(speeds), -1e-6)
        self.assertLessEqual(max(speeds), max(top, speed, entry) + 1e-6)
        self.assertAlmostEqual((distance - motion.way(time - 0.001)) / 0.001, entry, 1)
        for here, there in list(zip(speeds, speeds[1:]))[1:]:
            if motion.wait == 0 or here > speed + 1e-6:
                self.assertLessEqual(there - here, accel * step + 1e-6)
                self.assertGreaterEqual(there - here, -brake * step - 1e-6)

    def test_no_motion_outside_the_arrivals(self):
        approach = Approach(50.0, 10.0, 10.0, 10.0, 2.0, 4.0)
        self.assertIsNone(approach.motion(approach.soonest - 0.01))
        self.assertIsNone(approach.motion(approach.latest + 0.01))

    def test_one_that_stands_may_wait(self):
        motion = Approach(4.0, 0.0, 4.0, 10.0, 2.0, 4.0).motion(12.0)
        for time, way in ((0.0, 0.0), (10.0, 0.0), (11.0, 1.0), (12.0, 4.0)):
            with self.subTest(time):
                self.assertAlmostEqual(motion.way(time), way, 3)


class Crossings(unittest.TestCase):
    def test_the_law_of_motion_on_a_line(self):
        crossing = Crossing(Way(LINE, 100, 4.5), 277, Vehicle(), 0.02)
        for speed, accel in ((277, 0), (200, 0), (62, 1), (150, 2), (276, 5)):
            places = crossing.places(speed, accel)
            counted, now = 0, speed
            for step, place in enumerate(places):
                if counted > 28500:
                    break
                with self.subTest(speed=speed, accel=accel, step=step):
                    self.assertAlmostEqual(place, counted / 1000)
                counted, now = counted + now, min(now + accel, 277)

    def test_the_law_is_mapped_on_a_curve_until_the_rear_is_out(self):
        way = Way(LEFT, 100, 4.5)
        places = Crossing(way, 250, Vehicle(), 0.02).places(250, 0)
        for step, place in enumerate(places):
            if place < way.arc + 4.5:
                self.assertAlmostEqual(place, way.to_arc(0.25 * step))
        self.assertGreaterEqual(places[-1], way.arc + 60)

    def test_accelerations_in_the_manager_s_unit(self):
        for metres, step, expected in ((2.5, 0.02, 1), (5.0, 0.02, 2), (2.5, 0.1, 25), (2.0, 0.02, 1)):
            with self.subTest(metres=metres, step=step):
                self.assertEqual(accel_of(metres, step), expected)


class Plans(unittest.TestCase):
    def test_places_before_at_and_behind_the_line(self):
        motion = Approach(20.0, 10.0, 10.0, 10.0, 2.0, 4.0).motion(2.0)
        plan = Plan(100, 120, -20.0, motion, [0.0, 1.0, 2.0, 4.0], 1000, 0, 0.1, 10.0)
        for step, place in ((100, -20.0), (110, -10.0), (119, -1.0), (120, 0.0), (121, 1.0), (123, 4.0), (125, 6.0)):
            with self.subTest(step):
                self.assertAlmostEqual(plan.at(step), place, 5)
        self.assertEqual([plan.passes(place) for place in (0.5, 1.0, 1.1, 4.0, 9.0)], [121, 121, 122, 123, 124])
        self.assertAlmostEqual(plan.speed_at(110), 10.0, 5)
        self.assertEqual(plan.end, 124)


if __name__ == "__main__":
    unittest.main()
