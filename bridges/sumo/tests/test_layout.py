import unittest

from aim_sumo.advice import inner_ends
from aim_sumo.curve import Way
from aim_sumo.faults import BadHead
from aim_sumo.layout import Phase, read_head
from aim_sumo.net import ends_of_moves, has_facing_lefts, roads_of
from aim_sumo.site import greatest_speed

from .places import head


class Heads(unittest.TestCase):
    def test_numbers_of_a_head(self):
        layout = read_head(head("twelve-lanes"))
        self.assertEqual((layout.side, layout.tiles, layout.spacing, layout.spans), (24000, 48, 100, 8192))
        self.assertEqual((layout.horizon, layout.longest, layout.clearance), (3000, 100, 300))
        self.assertEqual((layout.early, layout.late, layout.edge), (2, 2, 5))
        self.assertEqual((layout.lanes, len(layout.moves)), (12, 12))
        self.assertEqual([policy.name for policy in layout.policies], ["plain", "siren", "lights", "lights-siren"])
        self.assertEqual(layout.policy("lights").phases[1], Phase(300, 450, (0, 6)))

    def test_one_window_of_version_1_is_early_and_late(self):
        text = head("tee").replace("aim 3", "aim 1").replace("times 3000 100 300 2 2 5", "times 3000 100 300 4 5")
        layout = read_head(text)
        self.assertEqual((layout.early, layout.late, layout.edge), (4, 4, 5))

    def test_the_named_policy_comes_first_and_all_else_stays(self):
        text = head("four-way")
        layout = read_head(text)
        self.assertEqual(layout.head(), text.splitlines())
        lines = layout.head("lights")
        self.assertEqual(lines[16:22], [
            "policy lights light", "phase 300 600 0", "phase 300 600 1", "phase 300 600 2", "phase 300 600 3",
            "policy plain fcfs"])
        self.assertEqual(sorted(lines), sorted(text.splitlines()))

    def test_paths_that_begin_or_end_inside_the_ground_are_told(self):
        self.assertEqual(inner_ends(read_head(head("tee"))), [])
        text = head("tee").replace("move 0 straight line 0 4500 12000 4500", "move 0 straight line 340 4500 11900 4500")
        self.assertEqual(inner_ends(read_head(text)), [
            "the path of 0.straight begins 340 mm inside the ground: nothing is reserved there for what of a vehicle is "
            "off the path, and no promise speaks of it"])

    def test_heads_that_are_refused(self):
        good = head("tee")
        for name, text in (
            ("an unknown line", good.replace("lanes 3", "roads 3")),
            ("a word too few", good.replace("times 3000 100 300 2 2 5", "times 3000 100")),
            ("no number", good.replace("lanes 3", "lanes three")),
            ("no moves", "\n".join(line for line in good.splitlines() if not line.startswith("move"))),
            ("a curve of two points", good.replace("move 0 straight line", "move 0 straight curve")),
            ("an unknown shape", good.replace("move 0 straight line", "move 0 straight spline")),
            ("no tiles", good.replace("grid 12000 24", "grid 12000 0")),
            ("a lane that isn't there", good.replace("lanes 3", "lanes 2")),
            ("a path to where it begins", good.replace("line 0 4500 12000 4500", "line 0 4500 0 4500")),
        ):
            with self.subTest(name), self.assertRaises(BadHead):
                read_head(text)


class Nets(unittest.TestCase):
    def test_roads_of_twelve_lanes(self):
        roads = roads_of(read_head(head("twelve-lanes")))
        self.assertEqual(sorted(roads), ["in_E", "in_N", "in_S", "in_W", "out_E", "out_N", "out_S", "out_W"])
        self.assertEqual((roads["in_W"].places, roads["in_W"].width), ((-4.5, -7.5, -10.5), 3.0))
        self.assertEqual(roads["out_N"].places, (19.5, 16.5, 13.5))

    def test_links_go_from_lane_to_lane_of_which_the_rightmost_is_the_first(self):
        layout = read_head(head("twelve-lanes"))
        found = ends_of_moves(layout, roads_of(layout))
        for name, entry, exit_road, lane in (
            ("0.left", "in_W", "out_N", 2), ("1.straight", "in_W", "out_E", 1), ("2.right", "in_W", "out_S", 0),
            ("7.straight", "in_E", "out_W", 1), ("11.right", "in_N", "out_W", 0),
        ):
            self.assertEqual(found[name], (entry, lane, exit_road, lane))

    def test_a_lane_with_several_turns_has_one_entry(self):
        layout = read_head(head("four-way"))
        found = [ends for name, ends in ends_of_moves(layout, roads_of(layout)).items() if name.startswith("0.")]
        self.assertEqual({ends[:2] for ends in found}, {("in_W", 0)})
        self.assertEqual([ends[2] for ends in found], ["out_N", "out_E", "out_S"])

    def test_left_turns_that_face_each_other_from_lanes_that_offer_more(self):
        for name, faces in (("twelve-lanes", False), ("four-way", True), ("tee", False)):
            with self.subTest(name):
                self.assertEqual(has_facing_lefts(read_head(head(name))), faces)

    def test_layouts_of_which_no_net_is_made(self):
        good = head("tee")
        for name, old, new in (
            ("a path that begins inside", "line 0 4500 12000 4500", "line 100 4500 12000 4500"),
            ("moves of a lane that begin apart", "curve 0 4500 4500 4500", "curve 0 6500 4500 4500"),
        ):
            layout = read_head(good.replace(old, new))
            with self.subTest(name), self.assertRaises(BadHead):
                ends_of_moves(layout, roads_of(layout))

    def test_greatest_speed_is_the_path_s_and_nowhere_above_the_road_s(self):
        layout = read_head(head("twelve-lanes"))
        ways = {move.name: Way(move, layout.spacing, 4.5) for move in layout.moves}
        for name, path, road, step, expected in (
            ("1.straight", 13.89, 13.89, 0.02, 277),
            ("1.straight", 13.89, 10.0, 0.02, 200),
            ("2.right", 5.9, 13.89, 0.02, 153),
            ("2.right", 5.9, 13.89, 0.1, 767),
            ("0.left", 9.808, 13.89, 0.02, 250),
            ("0.left", 20.0, 13.89, 0.02, 290),
        ):
            with self.subTest(name=name, path=path, road=road, step=step):
                self.assertEqual(greatest_speed(ways[name], path, road, step), expected)


if __name__ == "__main__":
    unittest.main()
