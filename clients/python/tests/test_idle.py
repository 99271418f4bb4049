"""What a look costs where a database is idle, counted by calls and questions; and that whatever is decided by ends that. No process, and no
clock."""

from __future__ import annotations

import json
import sys
from contextlib import contextmanager
from dataclasses import fields, replace
from typing import Any, Callable, Iterator
from unittest.mock import AsyncMock, Mock, patch

from pagelog.keeper import database as database_module
from pagelog.keeper.machine import Facts, Own, Rival, RunKind, Stage, decide, state_of
from pagelog.keeper.reported import Reported
from pagelog.keeper.run import Run
from pagelog.keeper.served import FEW, Access, Served
from pagelog.keeper.shared import Shared
from pagelog.referee.rows import Row
from pagelog.reply import Entries, State
from service import PATIENCE
from test_meanwhile import OF_C, ROW, Meanwhile

CALLS = 65
"""Of a look at an idle database, in Python. Where each decided anew they were 135."""
LOOKS = 100
AUDIT, MEMORY = 1 << 24, 1 << 30
STATE = State(epoch=1, primary=2, hard=5, pending=0, landing=5)
ENTRY: Any = Mock()


class Asked:
    """In place of what looks at a service. Its audit list grows by each question."""

    def __init__(self) -> None:
        self.entries, self.questions, self.answers = 0, 0, True
        self._has_answered = False

    def look_again(self, probe: int, told: Callable[[tuple[State, Entries] | None], None]) -> bool:
        if self._has_answered and self.answers:
            found = self._found(probe)
            told(None if found[1].entries else found)
        return self._has_answered

    async def look(self, probe: int) -> tuple[State, Entries]:
        self._has_answered = True
        return self._found(probe)

    def close(self) -> None:
        pass

    def _found(self, probe: int) -> tuple[State, Entries]:
        self.questions += 1
        self.entries += 2
        return STATE, Entries((ENTRY,) if probe <= self.entries else ())


@contextmanager
def counted() -> Iterator[list[int]]:
    """How many functions of Python are called meanwhile."""
    calls = [0]

    def note(_: object, event: str, __: object) -> None:
        calls[0] += event == "call"

    sys.setprofile(note)
    try:
        yield calls
    finally:
        sys.setprofile(None)


class Idle(Meanwhile):
    """A database that is held here, and that nobody asks for anything."""

    async def asyncSetUp(self) -> None:
        await super().asyncSetUp()
        self.asked: Any = Asked()
        self.reported = Reported()
        self.served = Served("shop", "mine", "", b"", timeout=PATIENCE)
        self.served.hold(3)
        self.served.reach(5, ROW.chain)
        self.served.access = Access.OPEN
        self.served._quick_looker = self.asked
        self.served.process = Mock(Run, is_alive=True, memory=1 << 20, descriptor=0)
        self.database.served = self.served
        self.database.work.begin(ROW, self.served)
        for _ in range(10):
            self.look()
            await self.rest()
        self.assertTrue(self.is_idle)

    def look(self, row: Row = ROW, **what: Any) -> None:
        """A report, and what PostgreSQL has shown then."""
        self.reported.text(self.database, AUDIT, MEMORY, None)
        self.see(replace(row), **what)

    @property
    def is_idle(self) -> bool:
        return self.database.idleness.goes_on

    async def test_a_look_is_one_question_and_few_calls_without_a_task_or_a_decision(self) -> None:
        questions, texts = self.asked.questions, Mock(wraps=json.dumps)
        with patch.object(Shared, "spawn", side_effect=AssertionError("a task was begun")), patch(
            "pagelog.keeper.reported.json.dumps", texts
        ), patch.object(
            database_module, "decide", side_effect=AssertionError("it was decided anew")
        ):
            with counted() as calls:
                for _ in range(LOOKS):
                    self.look()
        self.assertEqual(self.asked.questions - questions, LOOKS)
        self.assertLess(calls[0] / LOOKS, CALLS)
        self.assertLess(texts.call_count, LOOKS)  # its list has grown now and then, which is said
        self.assertEqual(self.served.health.answers, LOOKS + 10)

    async def test_its_list_is_known_as_well_as_where_a_look_has_to_find_it(self) -> None:
        for others in (0, 1, 100):
            for _ in range(LOOKS):
                self.asked.entries += others
                self.look()
                await self.rest()
                self.assertIn(
                    self.asked.entries - self.served.entries, range(2 * (FEW + others)), others
                )

    async def test_its_report_says_what_has_changed(self) -> None:
        self.look()
        before = json.loads(f"{{{self.reported.text(self.database, AUDIT, MEMORY, None)}}}")["shop"]
        assert self.served.process is not None
        self.assertEqual(before["why"], "serves")
        for name, value, change in (
            ("memory", 3, lambda: self.served.process.configure_mock(memory=3 << 20)),
            ("hard", 9, lambda: setattr(self.served.log, "hard", 9)),
            ("leaving", ["r1"], lambda: self.database.leaving.add("r1")),
            ("back", 9, lambda: self.served.be_only_copy(True, 1.0)),
        ):
            change()  # type: ignore[no-untyped-call]
            said = json.loads(f"{{{self.reported.text(self.database, AUDIT, MEMORY, None)}}}")[
                "shop"
            ]
            self.assertEqual(said[name], value, name)
            self.assertNotEqual(said, before, name)

    async def test_one_that_answers_no_look_any_more_is_released(self) -> None:
        self.database.ending.release = AsyncMock(return_value=False)  # type: ignore[method-assign]
        self.asked.answers = False
        self.look()
        await self.rest()
        self.assertEqual(self.database.ending.release.await_count, 0)
        self.database.work._silent = Mock(see=Mock(return_value=PATIENCE))
        for count in (1, 2):
            self.look()
            await self.rest()
            self.assertEqual(self.database.ending.release.await_count, count)

    async def test_what_a_row_shows_is_decided_of_at_once(self) -> None:
        for field in fields(Row):
            value = getattr(ROW, field.name)
            other = {int: 7, bool: not value, bytes: b"d" * 16}.get(type(value), "another")
            self.database.row = replace(ROW, **{field.name: other})
            self.assertFalse(self.is_idle, field.name)
            self.database.row = ROW
            self.assertTrue(self.is_idle, field.name)

    async def test_whatever_is_decided_by_is_decided_by_at_once(self) -> None:
        """Each fact changes what it was, or is none of who holds a database."""
        database, served = self.database, self.served
        front = Mock(tls=Mock(plain=False), away=1.0, place=Mock(return_value=None))
        of_own: dict[str, tuple[object, str, object]] = {
            "run": (served, "run", "another"),
            "kind": (served, "kind", RunKind.STANDBY),
            "generation": (served, "generation", 4),
            "reached": (served.log, "reached", 6),
            "alive": (served.health, "is_broken", True),
            "silent": (served.health, "silent", PATIENCE),
            "share": (served, "_entries", database.shared.settings.program.audit),
            "went_back": (served.lack, "went_back", True),
            "is_open": (served, "access", Access.CLOSED),
            "was_closed": (served, "access", Access.SHUT),
            "is_full": (served.health, "is_full", True),
            "is_apart": (served.lack, "is_apart", True),
            "back_for": (served.lack, "since", 1.0),
            "table_number": (served, "table_number", 2),
            "unreached": (served, "_front", front),
        }
        of_all: dict[str, tuple[object, str, object]] = {
            "row": (database, "is_known", False),
            "own": (database, "served", None),
            "others": (database, "others", (OF_C,)),
            "is_noted": (database, "is_noted", True),
            "ending": (database.shared, "ending", True),
            "successor": (database.succession, "_stage", Stage.MAKING),
        }
        more: tuple[tuple[object, str, object], ...] = (
            (database, "watched", served),
            (database.work, "archiver", None),
            (database.work.archiver, "is_over", True),
            (database, "_acting", Mock(done=Mock(return_value=False))),
        )
        for of, name, value in (*of_own.values(), *of_all.values(), *more):
            before = getattr(of, name)
            setattr(of, name, value)
            self.assertFalse(self.is_idle, name)
            state = state_of(database._known_row, database._own(), database.doing)
            self.assertEqual(database.state, state, name)
            setattr(of, name, before)
            self.assertTrue(self.is_idle, name)
        facts, own = database.facts(), database._own()
        assert own is not None
        for each in fields(Own):
            if each.name not in of_own:
                other = replace(own, **{each.name: {"is_known": False}[each.name]})
                self.assertEqual(decide(replace(facts, own=other)), decide(facts), each.name)
        for each in fields(Facts):
            if each.name not in (*of_all, "me", "ttl", "succeed_at"):  # these three never change
                changed = replace(facts, **{each.name: NOT_A_HOLDERS[each.name]})
                self.assertEqual(decide(changed), decide(facts), each.name)

    async def test_what_was_decided_meanwhile_is_decided_again_where_all_is_as_it_was(self) -> None:
        with patch.object(type(self.database.succession), "is_tended", False):
            self.look(replace(ROW, wanted="c"))
        self.assertIn("waits for its standby", self.database.why)
        self.look()
        self.assertEqual(self.database.why, "serves")

    async def test_whoever_kicks_it_ends_that(self) -> None:
        self.database.kick()
        await self.rest()
        self.assertFalse(self.is_idle)
        self.look()
        self.assertTrue(self.is_idle)

    async def test_what_is_due_later_keeps_a_look_at_it(self) -> None:
        self.database.kick()
        await self.rest()
        succession = self.database.succession
        with patch.object(succession, "_basing", Mock(done=Mock(return_value=False))):
            self.look()
            self.assertFalse(self.is_idle)
        with patch.object(type(succession), "is_tended", False):
            self.look()
            self.assertFalse(self.is_idle)
        self.look()
        self.assertTrue(self.is_idle)
        later = replace(ROW, archived=6)
        self.served.reach(6, ROW.chain)
        self.look(later)
        self.assertFalse(self.is_idle)  # how far PostgreSQL has it is noted after a ttl
        self.database._noted_at = float("-inf")
        self.look(later)
        self.assertTrue(self.is_idle)


NOT_A_HOLDERS: dict[str, object] = {
    "still": PATIENCE,
    "stands_by": True,
    "let_go": 3,
    "failed": 3,
    "rest": PATIENCE,
    "rival": Rival.LIVES,
    "further": "b",
    "settles": True,
    "is_unreached": True,
}
"""Facts of who does not hold it."""


if __name__ == "__main__":
    import unittest

    unittest.main()
