import pathlib
import tempfile
import unittest
from dataclasses import replace

from aim_sumo import demand, figures, metrics, report
from aim_sumo.car import Car
from aim_sumo.controls import tuning_name
from aim_sumo.curve import Way
from aim_sumo.demand import Arrival, Demand
from aim_sumo.faults import BadWord
from aim_sumo.gaps import Gaps
from aim_sumo.judge import overlap, rectangle
from aim_sumo.layout import Move, read_head
from aim_sumo.lights import Signals
from aim_sumo.planner import Approach, Crossing, Plan
from aim_sumo.proposal import Proposer
from aim_sumo.runs import Options, faults_of
from aim_sumo.vehicles import NAMED, Vehicle, mark

from .places import head

VEHICLE = Vehicle(length=4.0, headway=1.0, gap=2.0, road_speed=10.0, accel=2.5)


class Greens(unittest.TestCase):
    def test_greens_of_a_round(self):
        signals = Signals(read_head(head("tee")), "lights")
        for step, lanes, shown in (
            (0, (), "rrr"), (299, (), "rrr"), (300, (0,), "Grr"), (899, (0,), "Grr"), (900, (0,), "yrr"),
            (1049, (0,), "yrr"), (1050, (), "rrr"), (1350, (2,), "rrG"), (2400, (1,), "rGr"), (3000, (), "rrr"),
            (3300, (0,), "Grr"),
        ):
            with self.subTest(step):
                self.assertEqual(signals.green_lanes(step), lanes)
                self.assertEqual("".join(signals.shown(step, 150)), shown)

    def test_a_switch_begins_a_new_round(self):
        signals = Signals(read_head(head("tee")), "plain")
        signals.switch(5000, "lights")
        signals.switch(5600, "plain")
        for step, lanes, shown in (
            (400, (), "rrr"), (5299, (), "rrr"), (5300, (0,), "Grr"), (5500, (0,), "yrr"), (5600, (), "rrr"),
        ):
            with self.subTest(step):
                self.assertEqual(signals.green_lanes(step), lanes)
                self.assertEqual("".join(signals.shown(step, 150)), shown)

    def test_claims_last_as_long_as_the_clearance(self):
        signals = Signals(read_head(head("tee")), "lights")
        for step, claimed in ((299, False), (300, True), (1049, True), (1349, True), (1350, False)):
            with self.subTest(step):
                self.assertEqual(signals.is_claimed(0, step), claimed)


class Rectangles(unittest.TestCase):
    def test_corners(self):
        for angle, corners in (
            (0, {(9, 20), (11, 20), (11, 16), (9, 16)}),
            (90, {(10, 21), (10, 19), (6, 19), (6, 21)}),
        ):
            with self.subTest(angle):
                found = {(round(x, 6), round(y, 6)) for x, y in rectangle((10, 20), angle, 4, 2)}
                self.assertEqual(found, corners)

    def test_overlaps(self):
        one = rectangle((0, 0), 0, 4, 2)
        for name, front, angle, meets in (
            ("itself", (0, 0), 0, True),
            ("beside it", (2.1, 0), 0, False),
            ("touching borders", (2, 0), 0, False),
            ("just over it", (1.9, 0), 0, True),
            ("behind it", (0, -4.1), 0, False),
            ("across its middle", (3, -2), 90, True),
            ("askew at a corner, apart", (3.64, 3.15), 45, False),
            ("askew at a corner, over it", (3.43, 2.94), 45, True),
        ):
            with self.subTest(name):
                self.assertEqual(overlap(one, rectangle(front, angle, 4, 2)), meets)
                self.assertEqual(overlap(rectangle(front, angle, 4, 2), one), meets)


class Demands(unittest.TestCase):
    def test_rates_share_a_flow_by_sides_and_turns(self):
        for name, expected in (
            ("twelve-lanes", {"0.left": 225, "1.straight": 450, "2.right": 225, "11.right": 225}),
            ("four-way", {"0.left": 225, "0.straight": 450, "3.right": 225}),
            ("tee", {"0.straight": 800, "0.right": 400, "1.left": 600, "1.right": 600, "2.left": 400}),
        ):
            rates = demand.rates(read_head(head(name)), Demand(3600, 1))
            self.assertAlmostEqual(sum(rates.values()), 1.0)
            for move, flow in expected.items():
                with self.subTest(name=name, move=move):
                    self.assertAlmostEqual(rates[move] * 3600, flow)

    def test_shares_of_turns_and_sides(self):
        layout = read_head(head("four-way"))
        wanted = Demand(3600, 1, turns={"straight": 1.0}, sides={"W": 0.75, "E": 0.25})
        self.assertEqual({move: rate * 3600 for move, rate in demand.rates(layout, wanted).items() if rate},
                         {"0.straight": 2700.0, "2.straight": 900.0})
        with self.assertRaises(BadWord):
            demand.rates(read_head(head("tee")), Demand(3600, 1, sides={"N": 1.0}))

    def test_types_go_only_where_they_can_be_driven(self):
        layout = read_head(head("four-way"))
        wanted = Demand(3600, 1, mix={"car": 0.5, "bus": 0.5}, refused=frozenset({("0.right", "bus")}))
        found = demand.arrivals(layout, wanted)
        self.assertEqual({each.vehicle.name for each in found if each.move == "0.right"}, {"car"})
        self.assertEqual({each.vehicle.name for each in found if each.move == "0.left"}, {"car", "bus"})
        buses = sum(each.vehicle.name == "bus" for each in found if each.move != "0.right")
        self.assertAlmostEqual(buses / sum(each.move != "0.right" for each in found), 0.5, delta=0.06)
        with self.assertRaises(BadWord):
            demand.arrivals(layout, Demand(3600, 1, mix={"bus": 1.0}, refused=frozenset({("0.right", "bus")})))

    def test_the_same_seed_gives_the_same_vehicles_whoever_drives_them(self):
        layout = read_head(head("four-way"))
        plain = demand.arrivals(layout, Demand(1800, 1))
        mixed = demand.arrivals(layout, Demand(1800, 1, human=0.3, emergency=0.1))
        self.assertEqual([(each.time, each.move) for each in plain], [(each.time, each.move) for each in mixed])
        self.assertEqual({each.kind for each in plain}, {"car"})
        shares = [sum(1 for each in mixed if each.kind == kind) / len(mixed) for kind in ("human", "emergency")]
        self.assertAlmostEqual(shares[0], 0.3, delta=0.06)
        self.assertAlmostEqual(shares[1], 0.1, delta=0.04)
        self.assertNotEqual(plain, demand.arrivals(layout, Demand(1800, 2)))
        self.assertAlmostEqual(len(plain), 300, delta=60)


LINE = Move(0, "straight", ((0, 4500), (12000, 4500)), 120)
RIGHT = Move(0, "right", ((0, 4500), (4500, 4500), (4500, 0)), 95)
OTHER = Move(1, "right", ((7500, 0), (7500, 4500), (12000, 4500)), 95)


def a_car(move, leader=None, number=0):
    crossing = Crossing(Way(move, 100, VEHICLE.length), 1000, VEHICLE, 0.1)
    return Car(str(number), "car", move, crossing, leader, 0.1)


def plan_of(car, start, speed=10.0):
    """A plan of a car that comes at constant speed from 50 metres and is at the line at a step."""
    motion = Approach(50.0, speed, speed, speed, 2.5, 3.0).motion(50.0 / speed)
    counted = round(speed * 100 / car.way.entry_ratio)
    steps = round(50.0 / speed / 0.1)
    return Plan(start - steps, start, -50.0, motion, car.crossing.places(counted, 0), counted, 0, 0.1, 10.0)


class Rooms(unittest.TestCase):
    def test_room_to_the_one_ahead(self):
        gaps = Gaps(0.1)
        leader = a_car(LINE)
        leader.adopt(plan_of(leader, 100))
        for name, move, start, keeps in (
            ("on the same path, just behind", LINE, 115, False),
            ("on the same path, with its room", LINE, 117, True),
            ("on another path, with its room up to the box", RIGHT, 117, True),
            ("on another path, just behind", RIGHT, 113, False),
        ):
            car = a_car(move, leader)
            with self.subTest(name):
                self.assertEqual(gaps.keeps_room(car, plan_of(car, start), [], 0), keeps)

    def test_room_on_the_lane_by_which_two_leave(self):
        gaps = Gaps(0.1)
        car, other = a_car(LINE), a_car(OTHER, number=1)
        other.adopt(plan_of(other, 100))
        for name, start, keeps in (
            ("well before it", 75, True), ("just before it", 90, False), ("at its side", 96, False),
            ("just behind it", 103, False), ("well behind it", 115, True),
        ):
            with self.subTest(name):
                self.assertEqual(gaps.keeps_room(car, plan_of(car, start), [other], 0), keeps)


class Proposals(unittest.TestCase):
    def setUp(self):
        self.layout = read_head(head("four-way"))
        self.proposer = Proposer(self.layout, Gaps(0.1), 0.1)

    def car(self, place, speed, leader=None):
        car = a_car(LINE, leader)
        car.place, car.speed = place, speed
        return car

    def test_the_earliest_arrival(self):
        for name, place, speed, steps, entry in (
            ("at the road's speed", -50.0, 10.0, 50, 1000),
            ("from the hold point", -2.0, 0.0, 13, 309),
            ("too near", -0.01, 1.0, None, None),
        ):
            proposal = self.proposer.best(self.car(place, speed), [], 7)
            with self.subTest(name):
                if steps is None:
                    self.assertIsNone(proposal)
                else:
                    self.assertEqual((proposal.steps, proposal.plan.speed, proposal.plan.begun), (steps, entry, 7))

    def test_behind_one_that_gathers_speed(self):
        leader = self.car(-20.0, 5.0)
        leader.adopt(self.proposer.best(leader, [], 0).plan)
        follower = self.car(-40.0, 10.0, leader)
        plan = self.proposer.best(follower, [], 0).plan
        self.assertGreater(plan.start, 40)
        for step in range(plan.end):
            room = leader.plan.at(step) - VEHICLE.length - plan.at(step)
            self.assertGreaterEqual(room, VEHICLE.room(plan.speed_at(step)) - 0.06)

    def test_a_rolling_one_does_not_ask_from_below_the_reach_of_a_standing_start(self):
        proposer = Proposer(self.layout, Gaps(0.02), 0.02)
        crossing = Crossing(Way(LINE, 100, VEHICLE.length), 200, VEHICLE, 0.02)
        for place, speed, is_below in (
            (-2.0, 0.0, False), (-1.9, 0.0, False), (-2.1, 0.2, False), (-2.5, 2.5, True), (-6.0, 5.0, False),
            (-50.0, 10.0, False),
        ):
            car = Car("0", "car", LINE, crossing, None, 0.02)
            car.place, car.speed = place, speed
            with self.subTest(place=place, speed=speed):
                reach = proposer.best(car, [], 0).reach
                self.assertEqual(reach < proposer.floor(car), is_below)
                self.assertEqual(proposer.is_standing(car), speed == 0.0)
                if place == -2.0:
                    self.assertEqual(reach, proposer.floor(car))

    def test_where_messages_may_be_late_it_asks_so_much_farther_ahead(self):
        for lateness in (0, 5, 30):
            proposer = Proposer(self.layout, Gaps(0.1), 0.1, lateness)
            car = self.car(-2.0, 0.0)
            proposal = proposer.best(car, [], 0)
            with self.subTest(lateness):
                self.assertTrue(proposer.may_ask(car, proposal))
                self.assertEqual(proposer.until(car, proposal.plan), 0)
                if lateness:
                    self.assertGreaterEqual((proposal.steps - lateness) * proposal.plan.speed, proposer.floor(car))

    def test_a_lane_that_is_locked_is_unlocked_from_below_its_distance(self):
        for refused_at, place, speed, steps, entry in (
            (3000, -2.0, 0.0, 9, 309), (2000, -2.0, 0.0, 6, 309), (1500, -2.0, 0.0, 6, 250),
            (40, -2.0, 0.0, None, None), (9000, -2.0, 0.0, None, None), (float("inf"), -2.0, 0.0, None, None),
            (3000, -4.0, 4.0, None, None), (3000, -2.3, 0.2, None, None),
        ):
            car = self.car(place, speed)
            car.refused_at = refused_at
            proposal = self.proposer.unlocking(car, 7)
            with self.subTest(refused_at=refused_at, place=place):
                self.assertEqual(proposal is None, steps is None)
                if proposal:
                    self.assertEqual((proposal.is_real, proposal.steps, proposal.plan.speed), (False, steps, entry))
                    self.assertLessEqual(proposal.reach, refused_at)
                    self.assertGreater(proposal.steps, self.layout.edge)

    def test_a_plan_for_a_confirmed_arrival(self):
        car = self.car(-50.0, 10.0)
        for start, is_there in ((40, False), (50, True), (80, True)):
            with self.subTest(start):
                plan = self.proposer.at(car, start, 1000, 0, [], 0)
                self.assertEqual(plan is not None, is_there)
                if plan:
                    self.assertAlmostEqual(plan.at(start), 0.0)
                    self.assertAlmostEqual(plan.at(start - 1), -1.0, 1)


class Tellings(unittest.TestCase):
    def test_sums_of_a_run(self):
        kinds = {"0": "car", "1": "car", "2": "human", "3": "car", "4": "car"}
        arrivals = [Arrival(int(name), 0.0, "a", kind) for name, kind in kinds.items()]
        trips = {
            "0": metrics.Trip(40.0, 100.0, 0), "1": metrics.Trip(50.0, 700.0, 2), "2": metrics.Trip(60.0, 200.0, 1),
            "3": metrics.Trip(140.0, None, 2), "4": metrics.Trip(30.0, None, 0),
        }
        late = metrics.delays(trips, arrivals, {"a": 40.0})
        self.assertEqual(late, {"0": 0.0, "1": 10.0, "2": 20.0, "3": 100.0, "4": 0.0})
        found = metrics.summary(trips, late, 600.0, kinds)
        self.assertEqual((found["demand"], found["through"], found["left"]), (5, 2, 2))
        self.assertEqual((found["delay"], found["p95"], found["stops"], found["delay_human"]), (26.0, 100.0, 1.0, 20.0))

    def test_vehicles_that_are_left_are_a_fault_where_nobody_else_was_to_come(self):
        result = {"control": "aim", "left": 3, "demand": 9, "left_why": "3 are people", "replays": True}
        for name, options, last_came, is_fault in (
            ("the run went on long after", Options("aim", end=900.0), 590.0, True),
            ("more were to come", Options("aim", end=300.0), 590.0, False),
            ("the operator had stopped all", Options("aim", end=900.0, stop=30.0), 590.0, False),
            ("the answers were ignored", Options("aim", end=900.0, blind=True), 590.0, False),
        ):
            with self.subTest(name):
                found = faults_of(result, options, last_came)
                self.assertEqual(bool(found), is_fault)
                if found:
                    self.assertIn("3 of 9 vehicles hadn't left by 900 s: 3 are people", found[0])

    def test_a_folder_s_name_tells_the_options(self):
        for options, name in (
            (Options("aim", 1800, 1), "aim-1800-1"),
            (Options("aim", 1800.5, 2, policy="siren", emergency=0.05), "aim-1800.5-2_policy-siren_emergency-0.05"),
            (Options("aim", 600, 1, blind=True, switch=("1=lights", "20=plain")),
             "aim-600-1_switch-1=lights-20=plain_blind"),
            (Options("own", None, 3, routes=("a.rou.xml",)), "own-own-3_routes-a.rou.xml"),
            (Options("own", None, 3, routes=("/there/a.rou.xml",)), "own-own-3_routes-a.rou.xml-9869420e"),
            (Options("own", None, 3, routes=("/here/a.rou.xml",)), "own-own-3_routes-a.rou.xml-6ab95437"),
            (Options("aim", 600, 1, mix={"van": 1.0}, types="0badcafe"), "aim-600-1_mix-van1_types-0badcafe"),
        ):
            with self.subTest(name):
                self.assertEqual(options.name, name)

    def test_types_that_a_user_changed_tell_themselves(self):
        longer = replace(NAMED["bus"], length=18.0)
        self.assertEqual(mark([NAMED["car"], NAMED["bus"]]), "")
        self.assertNotEqual(mark([longer]), "")
        self.assertNotEqual(mark([longer]), mark([replace(longer, brake=1.0)]))
        wanted = Demand(600, 1, mix={"bus": 1.0})
        names = {tuning_name("static", replace(wanted, types={**NAMED, "bus": bus})) for bus in (
            NAMED["bus"], longer, replace(NAMED["bus"], hardest_brake=3.0))}
        self.assertEqual(len(names), 3)

    def test_percentiles(self):
        for values, share, expected in (([], 0.95, 0.0), ([3.0], 0.95, 3.0), (list(range(100)), 0.95, 95)):
            with self.subTest(values=len(values)):
                self.assertEqual(metrics.percentile(values, share), expected)

    def test_intervals_by_student_s_t(self):
        for values, mean, half in (([3.0], 3.0, None), ([1.0, 3.0], 2.0, 12.706), ([1.0, 2.0, 3.0], 2.0, 2.484)):
            with self.subTest(values):
                found = report.interval(values)
                self.assertAlmostEqual(found[0], mean)
                if half is None:
                    self.assertIsNone(found[1])
                else:
                    self.assertAlmostEqual(found[1], half, 2)

    def test_tables_of_results(self):
        results = [
            {"flow": flow, "control": control, "delay": delay, "demand": 10,
             **({"misses": 0} if control == "aim" else {})}
            for flow, control, delay in (
                (600, "static", 15.0), (600, "aim", 0.1), (600, "aim", 0.3), (1800, "aim", 2.0))
        ]
        lines = report.table(results, ["demand", "delay", "misses"]).splitlines()
        self.assertEqual(lines[0], "| veh/h | control | runs | demand | delay s | misses |")
        self.assertEqual(lines[2:], [
            "| 600 | aim | 2 | 10 | 0.2 ± 1.3 | 0 |", "| 600 | static | 1 | 10 | 15.0 |  |",
            "| 1800 | aim | 1 | 10 | 2.0 | 0 |"])
        self.assertEqual(report.pivot(results, "delay").splitlines(), [
            "| veh/h | runs | aim | static |", "|---|---|---|---|", "| 600 | 2 | 0.2 ± 1.3 | 15.0 |",
            "| 1800 | 1 | 2.0 |  |"])
        labelled = [{**result, "label": "rain"} for result in results]
        self.assertEqual(report.table(labelled, ["delay"]).splitlines()[2], "| rain | 600 | aim | 2 | 0.2 ± 1.3 |")
        self.assertEqual(list(report.series(labelled)), ["aim, rain", "static, rain"])
        rows = report.means(results)
        self.assertEqual([(row["flow"], row["control"], row["runs"]) for row in rows],
                         [(600, "aim", 2), (600, "static", 1), (1800, "aim", 1)])
        self.assertAlmostEqual(rows[0]["delay ±"], 1.27, 2)
        self.assertEqual((rows[0]["misses"], rows[1]["delay"], rows[1]["delay ±"]), (0, 15.0, ""))

    def test_rows_that_somebody_wrote_stand_beside_results(self):
        with tempfile.TemporaryDirectory() as folder:
            path = pathlib.Path(folder) / "others.csv"
            path.write_text("label,flow,control,delay\nothers,1800,aim,1.5\nothers,1800,static,20\n", encoding="ascii")
            results = [{"flow": 1800, "control": "aim", "delay": 2.0}, *report.read_results([path])]
        self.assertEqual(report.pivot(results, "delay").splitlines(), [
            "| run | veh/h | runs | aim | static |", "|---|---|---|---|---|", "|  | 1800 | 1 | 2.0 |  |",
            "| others | 1800 | 1 | 1.5 | 20.0 |"])
        self.assertEqual(report.series(results)["aim, others"], [(1800, 1.5, None)])

    def test_figures(self):
        lines = {"aim": [(600, 0.02, None), (1800, 2.0, 0.5)], "static": [(600, 15.0, 3.0)]}
        with tempfile.TemporaryDirectory() as folder:
            for name, begin in (("a.svg", b"<?xml"), ("a.pdf", b"%PDF"), ("a.png", b"\x89PNG")):
                path = pathlib.Path(folder) / name
                figures.draw(path, "A < B", lines)
                made = path.read_bytes()
                self.assertTrue(made.startswith(begin), name)
                figures.draw(path, "A < B", lines)
                self.assertEqual(path.read_bytes(), made, name)
            text = (pathlib.Path(folder) / "a.svg").read_text(encoding="utf-8")
            for words in ("aim", "static", "A &lt; B", "least shown: 0.1"):
                self.assertIn(words, text)
            with self.assertRaises(BadWord):
                figures.draw(pathlib.Path(folder) / "a.txt", "A", lines)


if __name__ == "__main__":
    unittest.main()
