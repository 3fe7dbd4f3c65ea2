"""A minute of SUMO's traffic under each policy, and a run that ignores the answers. Needs SUMO and the manager.

    cd bridges/sumo && python3 -m unittest tests.traffic

AIM_MANAGER names the manager's command; without it, it is the repository's own ./aim.
"""

import json
import math
import os
import subprocess
import unittest
from unittest import mock

from aim_sumo import simulator
from aim_sumo.demand import Arrival, write_routes
from aim_sumo.footprint import Spans, rectangle
from aim_sumo.layout import read_head
from aim_sumo.manager import words_of
from aim_sumo.site import open_site
from aim_sumo.vehicles import NAMED

from .minutes import CLEAN, Minutes
from .places import MANAGER, head


class Traffic(Minutes):
    def test_first_come_first_served(self):
        for layout in ("twelve-lanes", "four-way", "tee"):
            with self.subTest(layout):
                result = self.traffic(layout)
                self.assert_clean(result)
                self.assertLess(result["delay"], 10)

    def test_emergency_vehicles_go_first(self):
        result = self.traffic("twelve-lanes", "--policy", "siren", "--emergency", "0.1")
        self.assert_clean(result)
        self.assertGreater(result["answers"]["reject emergency"], 0)

    def test_lights_for_people_among_automated_vehicles(self):
        result = self.traffic("twelve-lanes", "--policy", "lights", "--human", "0.3")
        self.assert_clean(result)
        self.assertGreater(result["answers"]["reject green"], 0)
        self.assertIn("delay_human", result)
        for key in ("humans on red", "humans beyond the clearance"):
            self.assertEqual(result["counts"].get(key, 0), 0)

    def test_lights_and_emergency_vehicles(self):
        result = self.traffic("twelve-lanes", "--policy", "lights-siren", "--human", "0.3", "--emergency", "0.1")
        self.assert_clean(result)
        self.assertGreater(result["answers"]["reject green"], 0)
        self.assertGreater(result["answers"]["reject emergency"], 0)

    def test_a_switch_in_the_course_of_the_run(self):
        result = self.traffic("twelve-lanes", "--switch", "1=lights")
        self.assert_clean(result)
        self.assertGreater(result["answers"]["reject green"], 0)
        self.assertGreater(result["delay"], 0.5)

    def test_messages_lost_late_and_repeated(self):
        plain = self.traffic("four-way")
        faulty = self.traffic("four-way", "--lost", "0.15", "--late", "0.15", "--repeated", "0.1")
        self.assert_clean(faulty)
        self.assertGreater(faulty["messages"], plain["messages"])

    def test_late_answers_are_changed_or_given_back(self):
        result = self.traffic("twelve-lanes", "--late", "0.6")
        self.assert_clean(result)
        self.assertGreater(result["counts"]["changes"], 0)

    def test_small_errors_of_arrival_stay_within_the_window(self):
        result = self.traffic("twelve-lanes", "--error", "0.1")
        self.assert_clean(result)
        self.assertGreater(result["arrival_error"], 0)

    def test_after_a_stop_nobody_new_enters(self):
        result = self.traffic("twelve-lanes", "--stop", "30", "--end", "100")
        self.assertEqual({key: result[key] for key in CLEAN[:-1]}, dict.fromkeys(CLEAN[:-1], 0))
        self.assertGreater(result["answers"]["emergency-stop"], 0)
        self.assertGreater(result["left"], 0)

    def test_where_spans_are_few_a_number_is_proposed_and_all_leave_all_the_same(self):
        result = self.traffic("few-spans", flow=3600)
        self.assert_clean(result)
        self.assertNotIn("reject bad", result["answers"])
        self.assertIn("SPANS 4096 of C is too few", self.told)
        self.assertIn("write 6400", self.told)

    def test_people_who_never_get_a_green_are_a_fault_with_a_reason(self):
        result = self.traffic("twelve-lanes", "--human", "0.5", "--end", "200", status=1)
        self.assertGreater(result["left"], 5)
        self.assertGreater(result["delay"], 20)
        self.assertIn("vehicles hadn't left by 200 s", self.told)
        self.assertIn("to whom the policy plain never shows a green", self.told)

    def test_numbers_are_used_again(self):
        result = self.traffic("tee", seconds=150)
        self.assert_clean(result)
        self.assertGreater(result["demand"], 60)
        self.assertLess(result["numbers"], result["demand"] / 2)

    def test_few_numbers_are_waited_for(self):
        wide = self.folder / "wide-spans.aim"
        wide.write_text(head("tee").replace(" 8192", " 131072"), encoding="ascii")
        self.command("net", str(wide), str(self.folder / "wide-spans"))
        self.assert_clean(self.traffic("wide-spans"))

    def test_lights_of_a_layout_whose_left_turns_face_each_other_have_no_collisions(self):
        for control in ("actuated", "static"):
            result = self.traffic("four-way", control=control, seconds=120)
            self.assertEqual((result["by_sumo"], result["by_rectangles"], result["left"]), (0, 0, 0))
        self.assertNotIn("priority", open_site(self.folder / "four-way").controls)

    def test_buses_and_trucks_among_cars(self):
        result = self.traffic("twelve-lanes", "--mix", "car=0.7,truck=0.15,bus=0.15", "--widen", flow=2700)
        self.assert_clean(result)
        self.assertIn("bus can't be driven on 2.right", self.told)
        table = (self.folder / "twelve-lanes" / "runs" / result["folder"] / "run.csv").read_text(encoding="utf-8")
        self.assertIn(",bus,", table)

    def test_bodies_are_as_sumo_draws_them(self):
        """The angle of a lone bus on each move is that of the rectangle that is laid on the ground."""
        site = open_site(self.folder / "twelve-lanes")
        bus = NAMED["bus"]
        lone = [Arrival(number, 60.0 * number, name, "car", bus) for number, name in enumerate(site.links)]
        files = {key: self.folder / f"lone.{key}" for key in ("routes", "trips", "log")}
        write_routes(files["routes"], site, lone)
        sumo = simulator.start([*simulator.options(site.net("aim"), files, 0.1, 1), "-r", str(files["routes"])])
        self.addCleanup(sumo.close)
        looked_at, farthest = 0, 0.0
        while sumo.simulation.getMinExpectedNumber():
            sumo.simulationStep()
            for name in sumo.simulation.getDepartedIDList():
                sumo.vehicle.setSpeedMode(name, simulator.SAFE_BUT_NO_WAY)
            for name in sumo.vehicle.getIDList():
                link = site.links[sumo.vehicle.getRouteID(name)]
                lane, place = sumo.vehicle.getLaneID(name), sumo.vehicle.getLanePosition(name)
                if lane in link.via:
                    front = link.via[lane] + place
                elif lane == link.exit_name and place < bus.length:
                    front = link.length + place
                else:
                    continue
                track = link.track
                _, (ux, uy), _, _ = rectangle(track.at(front), track.at(front - bus.length), bus.length, bus.width)
                apart = math.degrees(math.atan2(ux, uy)) - sumo.vehicle.getAngle(name)
                looked_at, farthest = looked_at + 1, max(farthest, abs((apart + 180) % 360 - 180))
        self.assertGreater(looked_at, 200)
        self.assertLess(farthest, 1.0)

    def test_the_manager_has_room_for_just_the_spans_that_are_worked_out(self):
        layout = read_head(head("twelve-lanes"))
        for name, length, width, speed, greatest, accel in (
            ("0.left", 6541, 1800, 62, 250, 1), ("4.straight", 12000, 2500, 90, 277, 0),
            ("2.right", 4501, 1801, 153, 153, 0),
        ):
            move = layout.move(name)
            spans = Spans(layout, move, length, width)
            needed = max(spans.needed(speed), spans.needed(speed, accel, greatest))
            for room, word in ((needed, "confirm"), (needed - 1, "reject bad spans")):
                request = f"request 1 {move.lane} {move.turn} 200 {speed} {greatest} {accel} {length} {width} car"
                text = "\n".join([*layout.head(), "vehicles 1", "begin", f"0 100 {request}", "end"])
                text = text.replace(" 8192", f" {room}")
                done = subprocess.run(words_of(MANAGER), input=text + "\n", capture_output=True, text=True, check=False)
                with self.subTest(name=name, room=room):
                    self.assertIn(f"-> {word}", done.stdout)

    def test_a_run_in_a_window(self):
        """SUMO's program without a window stands for the one with it, which needs a display; both are led alike."""
        with mock.patch.object(simulator, "WINDOW", ("sumo",)), mock.patch.dict(os.environ, {"DISPLAY": "none"}):
            result = self.traffic("tee", "--gui", "--end", "3", flow=3600, seconds=10)
        self.assertGreater(result["left"], 0)
        self.assertEqual([result[key] for key in CLEAN[:-1]], [0, 0, 0, 0])

    def test_a_kept_run_is_checked_again(self):
        run = self.folder / "tee" / "runs" / self.traffic("tee", flow=1200)["folder"]
        words = ("check", str(run), "--manager", MANAGER)
        self.assertEqual(self.command(*words), 0)
        answers = run / "run.answers"
        answers.write_text(answers.read_text(encoding="ascii").replace("confirm", "confirms", 1), encoding="ascii")
        self.assertEqual(self.command(*words), 1)

    def test_sumo_s_own_controls_have_the_same_vehicles_and_tuned_lights(self):
        results = self.folder / "results-of-sumo"
        status = self.command(
            "run", str(self.folder / "tee"), "--control", "actuated,static,priority", "--flow", "900",
            "--seconds", "60", "--results", str(results))
        self.assertEqual(status, 0)
        found = {result["control"]: result for result in map(json.loads, results.read_text().splitlines())}
        self.assertEqual(len({result["demand"] for result in found.values()}), 1)
        for control in ("actuated", "static", "priority"):
            self.assertEqual((found[control]["left"], found[control]["by_sumo"]), (0, 0))
        tried = json.loads((self.folder / "tee" / "tuned" / "static-900-1.0.json").read_text())
        self.assertEqual(min(tried["delays"], key=tried["delays"].get), tried["best"])
        self.assertGreater(len(tried["delays"]), 1)

    def test_the_judges_see_collisions_where_the_answers_are_ignored(self):
        result = self.traffic("twelve-lanes", "--blind", flow=3600)  # its faults are wanted, so the status is 0
        self.assertGreater(result["by_sumo"], 0)
        self.assertGreater(result["by_rectangles"], 0)
        self.assertGreater(result["broken_rules"], 0)


if __name__ == "__main__":
    unittest.main()
