"""Whose turn it is to write: the rules of turns, without a keeper, and their lines at one."""

from __future__ import annotations

import unittest
from typing import Any, Callable
from unittest import mock

from keepers import Kept, eventually
from pagelog.keeper.keeping import Keeper
from pagelog.keeper.turns import BEATS, EARLY, GRACE, LATELY, MANY, SLICE, TTL, AllTurns, Turns


class Heard:
    """A connection that keeps what was said."""

    def __init__(self) -> None:
        self.lines: list[str] = []

    def say(self, *words: object) -> None:
        self.lines.append(" ".join(map(str, words)))

    def last(self) -> str:
        return self.lines[-1] if self.lines else ""


class Clock:
    """Graces that end when the test says so."""

    def __init__(self) -> None:
        self.open: list[tuple[float, Callable[[], None]]] = []

    def __call__(self, seconds: float, what: Callable[[], None]) -> Any:
        entry = (seconds, what)
        self.open.append(entry)
        clock = self

        class Handle:
            def cancel(self) -> None:
                if entry in clock.open:
                    clock.open.remove(entry)

        return Handle()

    def end(self) -> None:
        [(_, what)] = self.open
        self.open.clear()
        what()


class Rules(unittest.TestCase):
    def setUp(self) -> None:
        self.clock = Clock()
        self.turns = Turns("shop", 1, self.clock)
        self.a, self.b, self.c = Heard(), Heard(), Heard()

    def ask(self, who: Heard, *, now: bool = False, heartbeat: bool = False) -> None:
        self.turns.ask(who, now=now, heartbeat=heartbeat)  # type: ignore[arg-type]

    def back(self, who: Heard) -> None:
        self.turns.back(who)  # type: ignore[arg-type]

    def test_one_after_the_other(self) -> None:
        for who in (self.a, self.b, self.c):
            self.ask(who)
        self.assertEqual((self.a.lines, self.b.lines, self.c.lines), (["turn shop other"], [], []))
        self.back(self.a)
        self.back(self.a)  # it has none: nobody gets another's
        self.assertEqual((self.b.lines, self.c.lines), (["turn shop other"], []))
        self.back(self.c)  # it waits no more
        self.back(self.b)
        self.ask(self.b)
        self.assertEqual((self.b.last(), self.c.lines), ("turn shop same", []))

    def test_who_asks_for_now_waits_for_nothing(self) -> None:
        self.ask(self.a)
        self.ask(self.b, now=True)
        self.back(self.a)
        self.assertEqual(self.b.lines, ["busy shop"])
        self.ask(self.b, now=True)
        self.assertEqual(self.b.last(), "turn shop other")

    def test_a_turn_ends_with_its_connection(self) -> None:
        for who in (self.a, self.b, self.c):
            self.ask(who)
        self.turns.gone(self.b)  # type: ignore[arg-type]
        self.turns.gone(self.a)  # type: ignore[arg-type]
        self.assertEqual((self.b.lines, self.c.lines), ([], ["turn shop other"]))

    def test_another_has_written_between(self) -> None:
        for who, told in (
            (self.a, "other"),
            (self.a, "same"),
            (self.b, "other"),
            (self.a, "other"),
            (self.a, "same"),
        ):
            self.ask(who)
            self.assertEqual(who.last(), f"turn shop {told}")
            self.back(who)

    def test_the_next_one_is_told_the_epoch_that_was_written_in(self) -> None:
        """By who had the turn; who had it before knows."""
        self.ask(self.a)
        self.ask(self.b)
        self.turns.back(self.b, 5)  # type: ignore[arg-type]  # it waited, and has written in none
        self.ask(self.b)
        self.turns.back(self.a, 7)  # type: ignore[arg-type]
        self.assertEqual(self.b.lines, ["turn shop other epoch=7"])
        self.back(self.b)  # in none
        self.ask(self.b)
        self.assertEqual(self.b.last(), "turn shop same")
        self.ask(self.c)
        self.turns.back(self.b, 8)  # type: ignore[arg-type]
        self.assertEqual(self.c.lines, ["turn shop other epoch=8"])

    def hold(self, who: Heard) -> None:
        self.turns.hold(who)  # type: ignore[arg-type]

    def keep(self, *, heartbeat: bool = False) -> None:
        for _ in range(MANY):
            self.ask(self.a, heartbeat=heartbeat)
            self.assertNotIn("kept", self.a.last())
            self.back(self.a)
        self.ask(self.a, heartbeat=heartbeat)
        self.assertEqual(self.a.last(), "turn shop same kept")

    def test_a_turn_is_kept_until_it_is_wanted(self) -> None:
        self.keep()
        self.ask(self.b)
        self.assertEqual(
            (self.a.last(), self.b.lines, [each for each, _ in self.clock.open]),
            ("wanted shop", [], [GRACE]),
        )
        self.back(self.a)
        self.assertEqual((self.b.lines, self.clock.open), (["turn shop other"], []))

    def test_who_is_silent_loses_a_turn_that_is_kept(self) -> None:
        self.keep()
        self.ask(self.b)
        self.clock.end()
        self.assertEqual(self.b.lines, ["turn shop other"])
        self.back(self.a)  # late
        self.ask(self.c, now=True)
        self.assertEqual(self.c.lines, ["busy shop"])

    def test_who_holds_it_is_waited_for(self) -> None:
        self.keep()
        self.ask(self.b)
        self.turns.hold(self.a)  # type: ignore[arg-type]
        self.assertEqual((self.clock.open, self.b.lines), ([], []))
        self.back(self.a)
        self.assertEqual(self.b.lines, ["turn shop other"])

    def test_an_upgrade_waits_for_a_turn_that_is_kept_and_unused(self) -> None:
        """`busy` is for a holder that is in a transaction. Who has no heartbeat, as clients of 0.1.0, is told so at once."""
        for answer in (self.back, self.hold):
            self.setUp()
            self.keep(heartbeat=True)
            self.ask(self.b, now=True, heartbeat=True)
            self.ask(self.c, now=True)
            self.assertEqual(
                (self.a.last(), self.b.lines, self.c.lines),
                ("wanted shop", ["soon shop"], ["busy shop"]),
            )
            answer(self.a)
            self.assertEqual(
                self.b.lines,
                ["soon shop", "turn shop other" if answer == self.back else "busy shop"],
            )
            self.assertNotIn(self.b if answer == self.hold else self.a, self.turns)
            self.assertEqual(self.clock.open, [])

    def test_of_two_upgrades_that_wait_the_first_has_the_turn(self) -> None:
        self.keep(heartbeat=True)
        for who in (self.b, self.c):
            self.ask(who, now=True, heartbeat=True)
        self.back(self.a)
        self.assertEqual((self.b.last(), self.c.last()), ("turn shop other", "busy shop"))

    def test_an_upgrade_beside_a_turn_in_use_is_told_so_at_once(self) -> None:
        self.keep(heartbeat=True)
        self.ask(self.b, heartbeat=True)
        self.hold(self.a)
        self.ask(self.c, now=True, heartbeat=True)
        self.assertEqual(self.c.lines, ["busy shop"])

    def wait_for(self, beats: int) -> None:
        """So many times a quarter of a ttl."""
        for _ in range(beats):
            [(seconds, _)] = self.clock.open
            self.assertEqual(seconds, TTL / BEATS)
            self.clock.end()

    def have(self, is_kept: bool) -> None:
        """The first has the turn: kept, or in a transaction."""
        if is_kept:
            self.keep(heartbeat=True)
        else:
            self.ask(self.a, heartbeat=True)

    def slice(self, who: Heard) -> None:
        """It asks, as one that writes one transaction after the other."""
        self.turns.ask(who, now=False, heartbeat=True, slices=True)  # type: ignore[arg-type]

    def test_who_writes_one_transaction_after_the_other_has_a_slice(self) -> None:
        """Nobody wants it back while it runs. Then it is wanted, though nobody waits: who has it may be idle."""
        for others_wait in (True, False):
            self.setUp()
            self.slice(self.a)
            self.assertEqual(
                (self.a.lines, [each for each, _ in self.clock.open]),
                (["turn shop other kept slice=10"], [SLICE]),
            )
            if others_wait:
                self.slice(self.b)
                self.ask(self.c, now=True, heartbeat=True)
                self.assertEqual(
                    (len(self.a.lines), self.b.lines, self.c.lines), (1, [], ["soon shop"])
                )
            self.clock.end()
            self.assertEqual((self.a.last(), len(self.clock.open)), ("wanted shop", others_wait))
            self.back(self.a)
            self.assertEqual(self.b.lines, ["turn shop other kept slice=10"] if others_wait else [])

    def test_a_slice_that_is_given_back_is_over(self) -> None:
        self.slice(self.a)
        self.slice(self.b)
        self.back(self.a)
        [(seconds, _)] = self.clock.open
        self.assertEqual((self.b.last(), seconds), ("turn shop other kept slice=10", SLICE))
        self.turns.gone(self.b)  # type: ignore[arg-type]
        self.assertEqual((self.b.last(), self.clock.open), ("turn shop other kept slice=10", []))

    def test_who_has_a_slice_and_stands_still_loses_the_turn(self) -> None:
        self.slice(self.a)
        self.slice(self.b)
        self.clock.end()
        self.wait_for(BEATS)
        self.assertEqual(self.b.last(), "turn shop other kept slice=10")

    def test_who_has_no_heartbeat_or_has_written_last_has_no_slice(self) -> None:
        self.turns.ask(self.a, now=False, slices=True)  # type: ignore[arg-type]
        self.assertEqual(self.a.last(), "turn shop other")
        self.back(self.a)
        self.slice(self.a)
        self.assertEqual((self.a.last(), self.clock.open), ("turn shop same", []))

    def test_a_turn_is_not_taken_from_a_transaction_that_runs(self) -> None:
        """However long that takes: it is asked for a heartbeat, and has one."""
        for is_kept in (True, False):
            self.setUp()
            self.have(is_kept)
            self.ask(self.b, heartbeat=True)
            for _ in range(20):
                self.wait_for(BEATS - 1)
                self.assertEqual((self.a.last(), self.b.lines), ("wanted shop", []))
                self.hold(self.a)
            self.back(self.a)
            self.assertEqual(self.b.lines, ["turn shop other"])

    def test_a_turn_is_not_kept_by_one_that_stands_still(self) -> None:
        """Whether it kept the turn or was in a transaction. What it says later counts for nothing."""
        for is_kept in (True, False):
            self.setUp()
            self.have(is_kept)
            self.ask(self.b, heartbeat=True)
            self.wait_for(BEATS)
            self.assertEqual((self.b.lines, self.clock.open), (["turn shop other"], []))
            self.hold(self.a)
            self.back(self.a)
            self.ask(self.c, now=True, heartbeat=True)
            self.assertEqual(self.c.lines, ["busy shop"])

    def test_a_heartbeat_costs_nothing_while_nobody_waits(self) -> None:
        self.ask(self.a, heartbeat=True)
        self.assertEqual(self.clock.open, [])
        self.ask(self.b, heartbeat=True)
        self.wait_for(1)
        self.back(self.b)
        self.hold(self.a)
        self.assertEqual((self.a.lines, self.clock.open), (["turn shop other", "wanted shop"], []))

    def test_who_has_no_heartbeat_has_its_turn_as_long_as_it_likes(self) -> None:
        """As a client of 0.1.0, unless it keeps the turn."""
        self.ask(self.a)
        self.ask(self.b, heartbeat=True)
        self.assertEqual((self.a.lines, self.clock.open), (["turn shop other"], []))
        self.turns = Turns("shop", 1, self.clock)
        self.a.lines.clear()
        self.keep()
        self.ask(self.b, heartbeat=True)
        self.assertEqual([each for each, _ in self.clock.open], [GRACE])
        self.hold(self.a)
        self.ask(self.c, heartbeat=True)
        self.assertEqual(
            (self.a.lines[-2:], self.clock.open), (["turn shop same kept", "wanted shop"], [])
        )

    def test_who_waits_behind_another_is_waited_for_with_heartbeats_too(self) -> None:
        for who in (self.a, self.b, self.c):
            self.ask(who, heartbeat=True)
        self.back(self.a)
        self.wait_for(BEATS)
        self.assertEqual((self.b.last(), self.c.last()), ("wanted shop", "turn shop other"))

    def test_who_has_others_beside_keeps_nothing(self) -> None:
        for _ in range(MANY + 2):
            self.ask(self.a)
            self.ask(self.b, now=True)
            self.back(self.a)
        self.ask(self.a)
        self.assertNotIn("kept", self.a.last())

    def test_a_generation_that_is_over_ends_all_turns(self) -> None:
        every = AllTurns(self.clock)  # type: ignore[arg-type]
        for who in (self.a, self.b):
            every.take(who, ["turn", "shop"], 1)  # type: ignore[arg-type]
        every.look(lambda name: 2)
        self.assertEqual(self.b.lines, ["elsewhere shop"])
        every.take(self.b, ["turn", "shop"], 2)  # type: ignore[arg-type]
        every.take(self.c, ["turn", "shop", "now"], 2)  # type: ignore[arg-type]
        self.assertEqual(
            (self.b.lines, self.c.lines, [each for each, _ in self.clock.open]),
            (["elsewhere shop"], [], [EARLY]),
        )
        self.clock.end()
        self.assertEqual(self.c.lines, ["busy shop"])
        every.take(self.c, ["turn", "shop", "now"], None)  # type: ignore[arg-type]
        self.assertEqual((self.b.last(), self.c.last()), ("turn shop other", "elsewhere shop"))

    def test_it_is_early_when_a_generation_begins_and_not_when_somebody_asks(self) -> None:
        """Of a keeper that has taken the database: who had the turn at the one before is not known."""
        every = AllTurns(self.clock)  # type: ignore[arg-type]
        every.changed("shop", 7)
        self.assertEqual([each for each, _ in self.clock.open], [EARLY])
        self.clock.end()
        every.changed("shop", 7)
        every.take(self.a, ["turn", "shop", "now"], 7)  # type: ignore[arg-type]
        self.assertEqual((self.a.lines, self.clock.open), (["turn shop other"], []))

    def test_where_nobody_had_the_turn_nobody_is_waited_for(self) -> None:
        """Who had none in the generation before has none to go on with. Where that is not known, or a generation lies between, it is early."""
        every = AllTurns(self.clock)  # type: ignore[arg-type]
        every.changed("shop", 1)
        with mock.patch("pagelog.keeper.turns.time.monotonic") as now:
            now.return_value = 100.0
            for generation in (2, 3):
                every.take(self.a, ["turn", "shop", "now"], generation)  # type: ignore[arg-type]
                self.assertEqual((self.a.lines.pop(), self.clock.open), ("turn shop other", []))
                every.take(self.a, ["back", "shop"], generation)  # type: ignore[arg-type]
                now.return_value += LATELY * TTL
            for generation in (5, 6):  # 4 was another's; in 5 it is still early
                every.changed("shop", generation)
                self.assertEqual([each for each, _ in self.clock.open], [EARLY] * (generation - 4))

    def test_a_turn_that_was_given_back_lately_may_be_waited_for(self) -> None:
        """A commit that it was for may not be durable: who waits for that brings it over, and nobody is before it."""
        every = AllTurns(self.clock)  # type: ignore[arg-type]
        with mock.patch("pagelog.keeper.turns.time.monotonic") as now:
            now.return_value = 100.0
            every.take(self.a, ["turn", "shop"], 1)  # type: ignore[arg-type]
            every.take(self.a, ["back", "shop"], 1)  # type: ignore[arg-type]
            now.return_value += LATELY * TTL - 0.01
            every.take(self.b, ["turn", "shop", "now"], 2)  # type: ignore[arg-type]
            self.assertEqual((self.b.lines, [each for each, _ in self.clock.open]), ([], [EARLY]))
            self.clock.end()
            self.assertEqual(self.b.lines, ["turn shop other"])

    def test_where_the_whole_log_was_brought_over_who_gave_a_turn_back_is_not_waited_for(
        self,
    ) -> None:
        """Nothing lacks there that it could bring. Who has the turn as a generation ends may be amid a transaction all the same."""
        every = AllTurns(self.clock, is_whole=lambda _: True)  # type: ignore[arg-type]
        every.take(self.a, ["turn", "shop"], 1)  # type: ignore[arg-type]
        every.take(self.a, ["back", "shop"], 1)  # type: ignore[arg-type]
        every.take(self.b, ["turn", "shop", "now"], 2)  # type: ignore[arg-type]
        self.assertEqual((self.b.lines, self.clock.open), (["turn shop other"], []))
        every.take(self.a, ["turn", "shop", "now"], 3)  # type: ignore[arg-type]
        self.assertEqual(
            (self.a.lines, [each for each, _ in self.clock.open]), (["turn shop other"], [EARLY])
        )

    def test_it_is_early_while_who_waits_asks_what_became_of_the_generation_before(self) -> None:
        """But not for ever."""
        with mock.patch("pagelog.keeper.turns.time.monotonic") as now:
            now.return_value = 100.0
            every = AllTurns(self.clock)  # type: ignore[arg-type]
            every.take(self.a, ["turn", "shop"], 2)  # type: ignore[arg-type]
            for _ in range(3):
                [first] = self.clock.open
                now.return_value += 0.9
                every.expect("shop", 2)
                [again] = self.clock.open
                self.assertIsNot(first, again)
            now.return_value += 0.9
            every.expect("shop", 2)
            self.assertEqual(
                ([each is again for each in self.clock.open], self.a.lines), ([True], [])
            )
            self.clock.end()
            every.expect("shop", 2)
            self.assertEqual((self.clock.open, self.a.lines), ([], ["turn shop other"]))

    def test_a_question_of_the_generation_before_is_such_a_one(self) -> None:
        """Of one who has proved a token."""
        for generation, may, expected in (
            (1, True, [mock.call("shop", 2)]),
            (1, False, []),
            (2, True, []),
        ):
            keeper, of = mock.Mock(), mock.Mock()
            keeper._named.return_value.row.identity = of.database
            keeper._held.return_value, keeper._may.return_value = 2, may
            Keeper.durable(keeper, mock.Mock(), "shop", generation, 7, of)
            self.assertEqual(keeper._turns.expect.mock_calls, expected)

    def test_who_asks_for_now_while_it_is_early_is_told_at_its_end(self) -> None:
        for is_alone in (True, False):
            self.turns = Turns("shop", 2, self.clock)
            self.a, self.b, self.c = Heard(), Heard(), Heard()
            self.ask(self.a, now=True)
            self.ask(self.b, now=True)
            self.ask(self.c, now=True)
            self.back(self.c)  # it waits no more
            self.assertEqual((self.a.lines, self.b.lines), ([], []))
            if not is_alone:
                self.turns.ask(self.c, now=True, mine=True)  # type: ignore[arg-type]
                self.assertEqual(
                    (self.a.lines, self.b.lines, self.c.lines),
                    (["busy shop"], ["busy shop"], ["turn shop other"]),
                )
            self.clock.end()
            if is_alone:
                self.assertEqual(
                    (self.a.lines, self.b.lines, self.c.lines),
                    (["turn shop other"], ["busy shop"], []),
                )

    def test_who_asks_for_now_while_it_is_early_is_told_that_the_turn_is_kept(self) -> None:
        """By one that may not use it: who was told nothing would take the keeper for gone, and write without a turn."""
        self.turns = Turns("shop", 2, self.clock)
        self.slice(self.b)
        self.ask(self.a, now=True, heartbeat=True)
        self.ask(self.c, now=True)
        self.assertEqual((self.a.lines, self.b.lines, self.c.lines), ([], [], []))
        self.clock.end()
        self.assertEqual(
            (self.a.lines, self.b.lines, self.c.lines),
            (["soon shop"], ["turn shop other kept slice=10"], ["busy shop"]),
        )
        self.back(self.b)
        self.assertEqual(self.a.last(), "turn shop other")

    def test_who_had_the_turn_before_comes_first(self) -> None:
        self.turns = Turns("shop", 2, self.clock)
        self.ask(self.a)
        self.turns.ask(self.b, now=True, mine=True)  # type: ignore[arg-type]
        self.turns.ask(self.c, now=False, mine=True)  # type: ignore[arg-type]
        self.assertEqual((self.a.lines, self.b.lines, self.c.lines), ([], ["turn shop other"], []))
        self.clock.end()
        self.assertEqual(self.a.lines, [])
        self.back(self.b)
        self.assertEqual((self.a.lines, self.c.lines), (["turn shop other"], []))
        self.turns.ask(self.b, now=True, mine=True)  # type: ignore[arg-type]
        self.assertEqual(self.b.last(), "busy shop")


class Lines(Kept):
    keepers = "a"
    options: dict[str, object] = {"standby": False, "ttl": 60.0}
    """So long that no turn ends because the machine stands still."""

    def test_turns_of_a_keeper(self) -> None:
        """Two connections; the end of the first one is the turn of the second."""
        self.keeping.place()
        with self.keeping.line() as second:
            with self.keeping.line() as first:
                for line, words in (
                    (first, "turn shop"),
                    (second, "turn shop now"),
                    (second, "turn shop"),
                ):
                    line.write(words + "\n")
                    line.flush()
                    if words != "turn shop" or line is first:
                        self.assertEqual(
                            line.readline().strip(),
                            "turn shop other" if line is first else "busy shop",
                        )
                for words, told in (("turn blog", "elsewhere blog"), ("nothing", "what nothing")):
                    first.write(words + "\n")
                    first.flush()
                    self.assertEqual(first.readline().strip(), told)
            self.assertEqual(second.readline().strip(), "turn shop other")

    def test_an_epoch_is_told_to_who_knows_keys(self) -> None:
        self.keeping.place()
        for greeting, told in ("hello 2\n", "turn shop other epoch=7"), ("", "turn shop other"):
            with self.keeping.line() as second, self.keeping.line() as first:
                for line, words, answers in (first, "turn shop\n", 1), (
                    second,
                    greeting + "turn shop\nnothing\n",
                    1 + bool(greeting),
                ):
                    line.write(words)
                    line.flush()
                    for _ in range(answers):
                        line.readline()
                first.write("back shop epoch=7 color=red\n")
                first.flush()
                self.assertEqual(second.readline().strip(), told)


class Generations(Kept):
    keepers = "a"
    options: dict[str, object] = {"standby": False}

    def told(self, generation: int) -> str:
        """What is told who asks for the turn at once, in this generation or a later one. Where PostgreSQL has shown that it has begun, its
        keeper may not know yet that it is here."""
        said = ""

        def is_told() -> bool:
            nonlocal said
            self.keeping.place(least=generation)
            with self.keeping.line() as line:
                line.write("turn shop now\n")
                line.flush()
                said = line.readline().strip()
            return said != "elsewhere shop"

        eventually(is_told, "a turn")
        return said

    def test_the_first_one_of_a_generation_who_is_alone_has_the_turn(self) -> None:
        """Who asks for it at once, as SQLite without a busy timeout, and in each generation again."""
        self.keeping.place()  # what begins the first one forgets that a next one was asked for
        for generation in range(2, 5):
            self.keeping.word("rollover", "shop")
            self.assertEqual(self.told(generation), "turn shop other")
