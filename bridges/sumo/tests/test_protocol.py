import pathlib
import sys
import tempfile
import unittest

from aim_sumo.driver import Driver
from aim_sumo.mail import Faults, Mail
from aim_sumo.faults import ManagerFailed
from aim_sumo.manager import Manager, Reply, read_reply, replays
from aim_sumo.numbers import Numbers, most_vehicles
from aim_sumo.rules import active, broken_rule, suspended

CONFIRM = Reply("confirm", reservation=4, start=50, early=2, late=3, is_fast=True, last=80)
STUB = """
import sys
entries = 0
for line in sys.stdin:
    line = line.rstrip("\\n")
    if line[0].isdigit():
        print(f"{entries} {line} -> ANSWER", flush=True)
        entries += 1
print(f"end {entries}")
"""


class Replies(unittest.TestCase):
    def test_each_reply(self):
        for text, reply in (
            ("confirm 4 50 2 3 fast 80", CONFIRM),
            ("confirm 0 13 0 0 steady 23", Reply("confirm", 0, 13, 0, 0, False, 23)),
            ("reject taken 1 2 14 1 next 6 held none", Reply("reject", reason=("taken", "1", "2", "14", "1"), next=6)),
            ("reject distance 3500 next 11 held 7", Reply("reject", reason=("distance", "3500"), next=11, held=7)),
            ("reject no-reservation next 0 held none", Reply("reject", reason=("no-reservation",))),
            ("ack 9", Reply("ack", 9)),
            ("stale 5", Reply("stale", last=5)),
            ("switched 3100", Reply("switched", start=3100)),
            ("emergency-stop", Reply("emergency-stop")),
            ("stopped", Reply("stopped")),
        ):
            with self.subTest(text):
                self.assertEqual(read_reply(text), reply)

    def test_an_unknown_reply(self):
        with self.assertRaises(ManagerFailed):
            read_reply("perhaps 3")


class Partner(unittest.TestCase):
    def setUp(self):
        self._folder = tempfile.TemporaryDirectory()
        self.folder = pathlib.Path(self._folder.name)
        self.addCleanup(self._folder.cleanup)

    def command(self, answer):
        stub = self.folder / "stub.py"
        stub.write_text(STUB.replace("ANSWER", answer), encoding="ascii")
        return f"{sys.executable} {stub}"

    def test_script_and_answers_are_kept_and_replay(self):
        manager = Manager(self.command("ack 7"), ["aim 3"], 2, self.folder)
        self.assertEqual(manager.ask("1 20 cancel 3 7"), Reply("ack", 7))
        manager.close()
        script = (self.folder / "run.script").read_text(encoding="ascii")
        self.assertEqual(script, "aim 3\nvehicles 2\nbegin\n1 20 cancel 3 7\nend\n")
        answers = (self.folder / "run.answers").read_text(encoding="ascii")
        self.assertEqual(answers, "0 1 20 cancel 3 7 -> ack 7\nend 1\n")
        self.assertTrue(replays(self.command("ack 7"), self.folder))
        self.assertFalse(replays(self.command("ack 8"), self.folder))

    def test_a_manager_that_is_not_there_is_a_failure(self):
        manager = Manager(f"{sys.executable} -c pass", ["aim 3"], 2, self.folder)
        self.addCleanup(manager.abandon)
        with self.assertRaises(ManagerFailed):
            manager.ask("1 20 cancel 3 7")

    def test_an_answer_to_something_else_is_a_failure(self):
        command = self.command("ack 7")
        stub = self.folder / "stub.py"
        stub.write_text(stub.read_text(encoding="ascii").replace("{line}", "1 21 cancel 3 7"), encoding="ascii")
        manager = Manager(command, ["aim 3"], 2, self.folder)
        self.addCleanup(manager.abandon)
        with self.assertRaises(ManagerFailed):
            manager.ask("1 20 cancel 3 7")

    def test_a_text_that_is_no_answer_is_a_failure(self):
        manager = Manager(self.command("nothing"), ["aim 3"], 2, self.folder)
        self.addCleanup(manager.abandon)
        with self.assertRaises(ManagerFailed):
            manager.ask("1 20 cancel 3 7")


class Post:
    """A link that keeps what is sent."""

    def __init__(self):
        self.sent = []

    def post(self, step, driver, seq, message):
        self.sent.append((step, seq, message))


class Ear:
    """Keeps the answers that count."""

    def __init__(self):
        self.heard = []

    def answered(self, step, kind, reply):
        self.heard.append((step, kind, reply.kind))


class Drivers(unittest.TestCase):
    def setUp(self):
        self.post, self.ear = Post(), Ear()
        self.driver = Driver(3, self.post, self.ear, 10)

    def test_a_crossing(self):
        driver = self.driver
        driver.request(5, "0 left 50")
        self.assertFalse(driver.may_ask)
        driver.got(6, 1, CONFIRM)
        self.assertTrue(driver.enter(49))
        driver.done(90)
        driver.got(90, 2, Reply("ack", 4))
        self.assertEqual([sent[2] for sent in self.post.sent], ["request 1 0 left 50", "done 2 4"])
        self.assertEqual(self.ear.heard, [(6, "request", "confirm"), (90, "done", "ack")])
        self.assertIsNone(broken_rule(driver.log))

    def test_the_window_decides_who_may_enter(self):
        for step, allowed in ((47, False), (48, True), (53, True), (54, False)):
            driver = Driver(3, self.post, self.ear, 10)
            driver.request(5, "0 left 50")
            driver.got(6, 1, CONFIRM)
            with self.subTest(step):
                self.assertEqual(driver.enter(step), allowed)
                self.assertEqual(broken_rule(driver.log) is None, allowed)

    def test_a_message_without_an_answer_is_sent_again_the_same(self):
        self.driver.request(5, "0 left 50")
        for step in range(6, 26):
            self.driver.again(step)
        self.assertEqual(self.post.sent, [(5, 1, "request 1 0 left 50"), (15, 1, "request 1 0 left 50"),
                                          (25, 1, "request 1 0 left 50")])

    def test_a_request_that_would_come_too_late_is_given_up(self):
        driver = self.driver
        driver.request(5, "0 left 50", until=20)
        for step in range(6, 40):
            driver.again(step)
        self.assertEqual([sent[0] for sent in self.post.sent], [5, 15])
        self.assertTrue(driver.may_ask)
        driver.request(40, "0 left 90")
        driver.got(41, 1, CONFIRM)
        self.assertIsNone(driver.grant)
        self.assertIsNone(broken_rule(driver.log))

    def test_the_answer_to_a_request_that_was_given_up_counts_until_another_is_sent(self):
        driver = self.driver
        driver.request(5, "0 left 50", until=5)
        driver.again(15)
        driver.got(30, 1, CONFIRM)
        self.assertEqual((driver.grant, driver.may_ask, active(driver.log)), (CONFIRM, False, 4))

    def test_a_change_that_would_come_too_late_is_cancelled(self):
        driver = self.driver
        driver.request(5, "0 left 50")
        driver.got(5, 1, CONFIRM)
        driver.change(20, "0 left 70", until=25)
        for step in range(21, 40):
            driver.again(step)
        self.assertEqual([sent[2] for sent in self.post.sent[1:]], ["change 2 4 0 left 70", "cancel 3 4"])
        self.assertFalse(driver.may_ask)
        driver.got(39, 3, Reply("ack", 4))
        self.assertTrue(driver.may_ask)
        self.assertIsNone(broken_rule(driver.log))

    def test_only_the_first_answer_to_the_latest_message_counts(self):
        driver = self.driver
        driver.request(5, "0 left 50")
        driver.got(6, 1, Reply("reject", reason=("taken",), next=9))
        driver.got(7, 1, CONFIRM)
        self.assertIsNone(driver.grant)
        driver.request(9, "0 left 60")
        driver.got(10, 1, CONFIRM)
        self.assertIsNone(driver.grant)
        self.assertEqual(len(self.ear.heard), 1)

    def test_a_change_takes_the_reservation_away_until_it_is_answered(self):
        driver = self.driver
        driver.request(5, "0 left 50")
        driver.got(5, 1, CONFIRM)
        driver.change(20, "0 left 70")
        self.assertEqual(self.post.sent[-1], (20, 2, "change 2 4 0 left 70"))
        self.assertEqual((driver.grant, suspended(driver.log), active(driver.log)), (None, 4, None))
        driver.got(21, 2, Reply("reject", reason=("taken",), next=30, held=4))
        self.assertEqual((driver.grant, active(driver.log)), (None, 4))
        driver.cancel(21, 4)
        self.assertIsNone(broken_rule(driver.log))

    def test_nobody_enters_after_an_emergency_stop(self):
        driver = self.driver
        driver.request(5, "0 left 50")
        driver.got(5, 1, Reply("emergency-stop"))
        self.assertFalse(driver.may_ask)
        self.assertFalse(driver.enter(50))
        self.assertEqual(broken_rule(driver.log), "it enters after an emergency stop")


class Lent(unittest.TestCase):
    def driver(self):
        return Driver(None, Post(), Ear(), 10)

    def through(self, driver, reservation=4):
        """Lets a driver cross; its DONE is acknowledged."""
        driver.request(5, "0 left 50")
        driver.got(6, driver.seq, CONFIRM)
        driver.enter(50)
        driver.done(90)
        driver.got(90, driver.seq, Reply("ack", reservation))

    def test_numbers_are_used_again_with_rising_seq(self):
        numbers = Numbers(2)
        first, second, third, fourth = (self.driver() for _ in range(4))
        self.assertTrue(numbers.lend(first) and numbers.lend(second))
        self.assertEqual((first.number, second.number), (0, 1))
        self.assertFalse(numbers.lend(third))
        self.through(first)
        self.assertTrue(first.is_through)
        numbers.take_back(first)
        self.assertTrue(numbers.lend(third))
        self.assertEqual((third.number, third.seq, numbers.used), (0, 2, 2))
        self.through(third)
        self.assertEqual([text for _, _, text in third.mail.sent], ["request 3 0 left 50", "done 4 4"])
        self.assertIsNone(broken_rule(third.log))
        self.assertFalse(numbers.lend(fourth))

    def test_a_driver_isn_t_through_before_its_done_is_answered(self):
        driver = self.driver()
        Numbers(1).lend(driver)
        driver.request(5, "0 left 50")
        driver.got(6, 1, CONFIRM)
        driver.enter(50)
        driver.done(90)
        self.assertFalse(driver.is_through)

    def test_how_many_vehicles_a_manager_is_told(self):
        for spans, wanted, count in ((8192, 100, 100), (8192, 5000, 2048), (131072, 5000, 128), (1, 5000, 5000)):
            with self.subTest(spans=spans, wanted=wanted):
                self.assertEqual(most_vehicles(spans, wanted), count)


def sent(step, seq, text):
    return ("sent", step, seq, text)


def got(step, seq, reply):
    return ("got", step, seq, reply)


class Rules(unittest.TestCase):
    def test_logs_and_the_rule_that_each_breaks(self):
        ask, yes = sent(5, 1, "request 1 0 left 50"), got(5, 1, CONFIRM)
        enter = ("entered", 50, 4)
        for rule, log in (
            (None, [ask, yes, enter, sent(81, 2, "done 2 4")]),
            (None, [ask, sent(15, 1, "request 1 0 left 50"), yes[:1] + (16,) + yes[2:]]),
            (None, [ask, yes, sent(20, 2, "cancel 2 4"), sent(21, 3, "request 3 0 left 60")]),
            ("the steps fall", [ask, got(4, 1, CONFIRM)]),
            ("a new message has no greater number", [ask, yes, sent(20, 1, "cancel 1 4")]),
            ("a request is sent while a reservation is held", [ask, yes, sent(20, 2, "request 2 0 left 60")]),
            ("a change names a reservation that isn't held", [ask, yes, sent(20, 2, "change 2 9 0 left 60")]),
            ("it enters without a reservation", [ask, enter]),
            ("it enters without a reservation", [ask, yes, sent(20, 2, "cancel 2 4"), enter]),
            ("it enters outside its window", [ask, yes, ("entered", 54, 4)]),
            ("it enters twice", [ask, yes, enter, enter]),
            ("done is sent before the crossing is over", [ask, yes, enter, sent(80, 2, "done 2 4")]),
            ("a cancel is sent inside", [ask, yes, enter, sent(60, 2, "cancel 2 4")]),
        ):
            with self.subTest(rule=rule, log=log):
                self.assertEqual(broken_rule(log), rule)


class Ackers:
    """A manager that acknowledges everything and keeps what it was asked."""

    def __init__(self):
        self.asked = []

    def ask(self, event):
        self.asked.append(event)
        return Reply("ack", 1)


class Mails(unittest.TestCase):
    def answers(self, faults, steps=4):
        """The moments at which the manager is asked, and the steps at which the driver hears of it."""
        manager = Ackers()
        mail = Mail(manager, faults, 1)
        driver = Driver(0, mail, Ear(), 100)
        driver.cancel(1, 9)
        for step in range(1, steps):
            mail.deliver(step)
        return ([int(event.split(" ")[1]) for event in manager.asked],
                [item[1] for item in driver.log if item[0] == "got"])

    def test_fates(self):
        for name, faults, asked, heard in (
            ("no faults", Faults(), [1], [1]),
            ("all lost", Faults(lost=1.0), [], []),
            ("all late by one step", Faults(late=1.0, longest=1), [2], [3]),
            ("all twice", Faults(repeated=1.0, longest=1), [1, 2], [1, 2, 2, 3]),
        ):
            with self.subTest(name):
                self.assertEqual(self.answers(faults), (asked, heard))

    def test_the_same_seed_gives_the_same_fates(self):
        faults = Faults(0.3, 0.3, 0.3, 5)
        self.assertEqual(self.answers(faults, 20), self.answers(faults, 20))


if __name__ == "__main__":
    unittest.main()
