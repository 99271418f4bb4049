"""What is tried again waits longer each time, up to a cap; and it is said once, and then once a minute."""

from __future__ import annotations

import re
import tempfile
import unittest
from datetime import datetime
from pathlib import Path

from keepers import Kept, eventually
from pagelog.keeper.database import Database
from pagelog.keeper.keeping import Keeper
from pagelog.keeper.machine import Action, Decision
from pagelog.keeper.settings import Settings
from pagelog.repeating import Backoff, Repeats
from unittest.mock import Mock


class Waits(unittest.TestCase):
    def test_each_is_twice_as_long_as_the_one_before_up_to_a_cap(self) -> None:
        waits = Backoff(0.05, 1.0)
        self.assertEqual([waits.next() for _ in range(7)], [0.05, 0.1, 0.2, 0.4, 0.8, 1.0, 1.0])
        waits.reset()
        self.assertEqual([waits.next(), waits.next()], [0.05, 0.1])

    def test_none_is_longer_than_the_cap(self) -> None:
        waits = Backoff(2.0, 0.5)
        self.assertEqual([waits.next(), waits.next()], [0.5, 0.5])
        waits.reset()
        self.assertEqual(waits.next(), 0.5)


class Sentences(unittest.TestCase):
    def setUp(self) -> None:
        self.now, self.said = 0.0, list[tuple[str, str]]()
        self.repeats = Repeats(
            lambda *said: self.said.append(said), every=60.0, clock=lambda: self.now
        )

    def test_one_is_said_at_once_and_then_each_minute_with_a_count(self) -> None:
        for second in range(600):
            self.now = float(second)
            for _ in range(10):
                self.repeats.say("shop", f"no room at block {second}")
        self.assertEqual(
            self.said[:2],
            [("shop", "no room at block 0"), ("shop", "no room at block 60 (600 times in 60 s)")],
        )
        self.assertEqual(len(self.said), 10)

    def test_another_subject_and_another_sentence_are_said_for_themselves(self) -> None:
        for said in (("shop", "full"), ("ship", "full"), ("shop", "silent"), ("shop", "full")):
            self.repeats.say(*said)
        self.assertEqual(self.said, [("shop", "full"), ("ship", "full"), ("shop", "silent")])

    def test_what_comes_seldom_is_said_each_time(self) -> None:
        for self.now in (0.0, 60.0, 120.0):
            self.repeats.say("shop", "full")
        self.assertEqual(self.said, 3 * [("shop", "full")])

    def test_what_has_changed_is_said_at_once_and_counted_from_then_on(self) -> None:
        self.repeats.say_now("shop", "follows b at position 1")
        self.repeats.say_now("shop", "nobody has it")
        self.repeats.say_now("shop", "follows b at position 7")
        self.repeats.say("shop", "follows b at position 8")
        self.assertEqual([sentence[-1] for _, sentence in self.said], ["1", "t", "7"])

    def test_no_more_than_so_many_are_remembered(self) -> None:
        for number in range(9000):
            self.repeats.say(f"d{number}", "full")
        self.assertLessEqual(len(self.repeats._said), 4096)


class Decisions(unittest.TestCase):
    def test_one_is_said_where_action_or_reason_changes_and_shown_with_its_detail(self) -> None:
        said: list[str] = []
        shared = Mock(
            settings=Mock(ttl=5.0, succeed=0.5),
            repeats=Repeats(lambda _, sentence: said.append(sentence)),
        )
        database = Database(shared, Mock())
        for position in range(100):
            database._say(Decision(Action.NOTHING, "follows b at position {}", str(position)))
        self.assertEqual(
            (said, str(database.decision)),
            (["follows b at position 0"], "follows b at position 99"),
        )
        database._say(Decision(Action.TAKE, "the heartbeat of b has stalled for {} s", "5.0"))
        database._say(Decision(Action.TAKE, "nobody has it"))
        database._say(Decision(Action.NOTHING, "follows b at position {}", "99"))
        self.assertEqual(
            said[1:],
            [
                "take: the heartbeat of b has stalled for 5.0 s",
                "take: nobody has it",
                "follows b at position 99",
            ],
        )
        self.assertEqual(database.why, "follows b at position 99")


class OfPostgresql(unittest.IsolatedAsyncioTestCase):
    async def test_a_state_that_has_returned_is_said_within_a_minute_and_once(self) -> None:
        folder, said, now = Path(self.enterContext(tempfile.TemporaryDirectory())), list[str](), 0.0
        keeper = Keeper(Settings.of("a", "", "", folder, "", "", {}))
        keeper._repeats = Repeats(lambda _, sentence: said.append(sentence), clock=lambda: now)
        for now, sentence in (
            (0.0, "away"),
            (1.0, "there"),
            (2.0, "away"),
            (30.0, "away"),
            (60.0, "away"),
            (90.0, "away"),
            (300.0, "away"),
        ):
            keeper._say_of_referee(sentence)
        self.assertEqual(said, ["away", "there", "away (3 times in 60 s)"])


class Standbys(Kept):
    def test_one_that_follows_says_no_line_for_each_position(self) -> None:
        with self.keeping.primary() as primary:
            for number in range(1, 21):
                self.commit(primary, str(number), durable=True)
                self.keeping.ring()
                eventually(lambda: number in self.keeping.standbys().values(), "the standby")
        lines = re.findall(r"follows \w at position \d+", self.keeping.said())
        self.assertLessEqual(
            len(lines), 3, self.keeping.said()
        )  # one more each minute, on a slow machine
        self.assertIn("follows", self.keeping.word("list", "--json"))


class NoProgram(Kept):
    keepers = ""
    options = {"ttl": 0.3, "standby": False}

    def test_a_keeper_whose_program_is_not_there_tries_it_more_and_more_seldom(self) -> None:
        self.keeping.start("a", program="/nowhere/pagelog")
        eventually(lambda: self.keeping.row().generation >= 5, "the fifth try")
        times = [
            datetime.fromisoformat(time.replace(",", ".")).timestamp()
            for time in re.findall(r"(?m)^(\S+ \S+) shop: take: ", self.keeping.said())
        ]
        gaps = [later - earlier for earlier, later in zip(times, times[1:])]
        for gap, least in zip(gaps, (0.3, 0.6, 1.2, 2.4)):
            self.assertGreater(gap, 0.9 * least, gaps)
        self.assertEqual(len(re.findall("it could not be filled: ", self.keeping.said())), 1)


if __name__ == "__main__":
    unittest.main()
