"""What a keeper decides, fact by fact: a table of cases, with no process and no clock; and that it takes what it has decided to take."""

from __future__ import annotations

import asyncio
import unittest
from dataclasses import replace
from itertools import product
from pathlib import Path
from typing import Any, Callable
from unittest.mock import Mock

from pagelog.keeper.database import Database
from pagelog.keeper.machine import (
    PATIENCE,
    Action,
    Facts,
    RunKind,
    Own,
    Rival,
    Stage,
    DatabaseState,
    Stillness,
    decide,
    state_of,
)
from pagelog.keeper.orphans import OrphanFate, FoundOrphan, fate_of
from pagelog.referee.referee import Referee
from pagelog.referee.rows import Row, StandbyRow, TableOf
from pagelog.keeper.run import Seen
from pagelog.keeper.settings import Settings
from pagelog.keeper.shared import Shared

TTL = 4.0
ROW = Row(1, "shop", generation=3, run="r3", holder="b", address="b:1", archived=5000)
OURS = replace(ROW, run="mine", holder="a")
RELEASED = replace(ROW, run=None, holder=None, address=None)
HOLDS = Own("mine", RunKind.HOLDER, generation=3)
STANDBY = Own("s", RunKind.STANDBY, reached=4990)
OF_C = StandbyRow(1, "c", "c:1", "sc", 4990)


class Cases(unittest.TestCase):
    def decide(self, row: Row | None, own: Own | None = None, **facts: object) -> Action:
        decision = decide(Facts("a", TTL, row, own, **facts))  # type: ignore[arg-type]
        self.assertTrue(decision.why)
        return decision.action

    def check(
        self, wanted: Action, row: Row | None, own: Own | None = None, **facts: object
    ) -> None:
        with self.subTest(row=row, own=own, **facts):
            self.assertEqual(self.decide(row, own, **facts), wanted)

    def test_of_a_holder(self) -> None:
        self.check(Action.NOTHING, OURS, HOLDS)
        self.check(Action.RELEASE, OURS, replace(HOLDS, alive=False))
        self.check(Action.RELEASE, replace(OURS, paused=True), replace(HOLDS, alive=False))
        self.check(Action.RELEASE, OURS, replace(HOLDS, silent=TTL))
        self.check(Action.NOTHING, OURS, replace(HOLDS, silent=TTL - 0.1))
        self.check(Action.FILL, replace(OURS, address=None), replace(HOLDS, silent=TTL))
        self.check(Action.FILL, OURS, replace(HOLDS, is_open=False))
        self.check(Action.RELEASE, replace(OURS, address=None), replace(HOLDS, alive=False))
        self.check(Action.CLOSE, OURS, HOLDS, ending=True)
        self.check(Action.CLOSE, OURS, replace(HOLDS, share=0.8))
        self.check(Action.NOTHING, OURS, replace(HOLDS, share=0.79))
        self.check(Action.NOTHING, replace(OURS, paused=True), replace(HOLDS, share=0.9))
        # What was closed, and is not to be closed any more, goes on.
        closed = replace(HOLDS, was_closed=True)
        for goes_on in (OURS, replace(OURS, paused=True), replace(OURS, wanted="c")):
            self.check(Action.FILL, goes_on, closed)
        self.check(Action.CLOSE, OURS, closed, ending=True)
        self.check(Action.CLOSE, replace(OURS, wanted="c"), closed, others=(OF_C,))
        self.check(Action.LOOK_UP, replace(OURS, generation=1), replace(closed, run="before"))

    def test_of_a_holder_whose_service_no_client_reaches(self) -> None:
        """Another keeper may have a front: all is archived, and handed over."""
        self.check(Action.CLOSE, OURS, replace(HOLDS, unreached=TTL))
        self.check(Action.NOTHING, OURS, replace(HOLDS, unreached=TTL / 2))
        self.check(Action.NOTHING, replace(OURS, paused=True), replace(HOLDS, unreached=TTL))
        self.check(Action.NOTHING, RELEASED, is_unreached=True, still=TTL)
        self.check(Action.TAKE, RELEASED, still=TTL)

    def test_what_is_said_of_a_decision(self) -> None:
        for row, said in (
            (OURS, "serves"),
            (replace(OURS, succeed=True), "prepare: a succession was asked for"),
            (RELEASED, "take: nobody has it"),
        ):
            own = HOLDS if row.run else None
            self.assertEqual(str(decide(Facts("a", TTL, row, own))), said)

    def test_of_a_switchover(self) -> None:
        to_c = replace(OURS, wanted="c")
        self.check(Action.NOTHING, to_c, HOLDS)
        self.check(Action.CLOSE, to_c, HOLDS, others=(OF_C,))
        self.check(Action.NOTHING, to_c, HOLDS, others=(replace(OF_C, reached=100),))
        self.check(Action.NOTHING, to_c, HOLDS, others=(replace(OF_C, keeper="d"),))
        self.check(Action.CLOSE, to_c, replace(HOLDS, share=0.8))  # who is wanted may never come
        self.check(
            Action.CLOSE, replace(OURS, wanted="*"), HOLDS, others=(replace(OF_C, keeper="d"),)
        )
        self.check(Action.CANCEL, replace(OURS, wanted="a"), HOLDS)
        self.check(Action.STAND_BY, replace(ROW, wanted="a"))
        self.check(Action.STAND_BY, replace(ROW, wanted="*"))
        self.check(Action.NOTHING, replace(ROW, wanted="c"))
        # Once it is released, who is wanted comes first.
        self.check(Action.TAKE, replace(RELEASED, wanted="a"), others=(OF_C,))
        self.check(Action.NOTHING, replace(RELEASED, wanted="c"), STANDBY)
        self.check(Action.TAKE, replace(RELEASED, wanted="c"), STANDBY, still=TTL)
        self.check(Action.NOTHING, replace(RELEASED, wanted="*"), let_go=3)
        self.check(Action.TAKE, replace(RELEASED, wanted="*"), let_go=3, still=TTL)
        self.check(Action.TAKE, replace(RELEASED, wanted="*"), let_go=2)

    def test_of_a_succession(self) -> None:
        wished = replace(OURS, succeed=True)
        self.check(Action.PREPARE, wished, HOLDS)
        self.check(Action.NOTHING, replace(wished, paused=True), HOLDS)
        self.check(Action.PREPARE, OURS, replace(HOLDS, share=0.5), succeed_at=0.5)
        self.check(Action.NOTHING, OURS, replace(HOLDS, share=0.49), succeed_at=0.5)
        for stage in (Stage.MAKING, Stage.FAILED):
            self.check(
                Action.NOTHING, wished, replace(HOLDS, share=0.6), succeed_at=0.5, successor=stage
            )
        self.check(Action.SUCCEED, OURS, HOLDS, successor=Stage.READY)
        self.check(Action.SUCCEED, OURS, replace(HOLDS, share=0.9), successor=Stage.READY)
        # Nothing waits for the next service where the present one may be full soon, has ended, or is to go elsewhere.
        self.check(
            Action.CLOSE, wished, replace(HOLDS, share=0.8), succeed_at=0.5, successor=Stage.MAKING
        )
        self.check(Action.RELEASE, wished, replace(HOLDS, alive=False), successor=Stage.READY)
        self.check(Action.CLOSE, wished, HOLDS, ending=True, successor=Stage.READY)
        self.check(
            Action.CLOSE, replace(OURS, wanted="c"), HOLDS, others=(OF_C,), successor=Stage.MAKING
        )
        self.check(Action.NOTHING, replace(OURS, paused=True), HOLDS, successor=Stage.READY)
        self.assertIs(state_of(OURS, HOLDS, Action.SUCCEED), DatabaseState.SUCCEEDING)

    def test_of_a_service_that_had_no_memory_for_a_writer(self) -> None:
        full = replace(HOLDS, is_full=True)
        self.check(Action.PREPARE, OURS, full, succeed_at=0.5)
        self.check(Action.NOTHING, OURS, full, succeed_at=1.0)  # a machine that makes none
        self.check(Action.NOTHING, replace(OURS, paused=True), full, succeed_at=0.5)
        for stage in (Stage.MAKING, Stage.FAILED):
            self.check(Action.NOTHING, OURS, full, succeed_at=0.5, successor=stage)
        self.check(Action.SUCCEED, OURS, full, succeed_at=0.5, successor=Stage.READY)
        self.check(Action.RELEASE, OURS, replace(full, alive=False), succeed_at=0.5)

    def test_of_a_released_database(self) -> None:
        self.check(Action.TAKE, RELEASED)
        self.check(Action.TAKE, RELEASED, STANDBY, others=(OF_C,))
        self.check(Action.NOTHING, RELEASED, others=(OF_C,))
        self.check(Action.TAKE, RELEASED, others=(OF_C,), still=TTL / 2)
        self.check(Action.NOTHING, replace(RELEASED, paused=True), STANDBY, still=9 * TTL)
        self.check(Action.NOTHING, RELEASED, ending=True)
        self.check(Action.END, RELEASED, STANDBY, ending=True)
        self.check(Action.TAKE, Row(1, "shop"))
        # Who could not fill it just now leaves room for another.
        self.check(Action.NOTHING, RELEASED, failed=3)
        self.check(Action.TAKE, RELEASED, failed=3, still=TTL)
        self.check(Action.TAKE, RELEASED, failed=2)

    def test_of_another_holder(self) -> None:
        self.check(Action.NOTHING, ROW)
        self.check(Action.STAND_BY, ROW, stands_by=True)
        self.check(Action.NOTHING, replace(ROW, address=None), stands_by=True)
        self.check(Action.NOTHING, ROW, STANDBY, stands_by=True)
        self.check(Action.NOTHING, ROW, still=TTL - 0.1)
        self.check(Action.TAKE, ROW, still=TTL)
        self.check(Action.TAKE, ROW, STANDBY, still=TTL, others=(OF_C,))
        self.check(Action.NOTHING, ROW, still=TTL, others=(OF_C,))
        self.check(Action.TAKE, ROW, still=1.5 * TTL, others=(OF_C,))
        self.check(Action.NOTHING, replace(ROW, paused=True), still=9 * TTL)
        self.check(Action.NOTHING, ROW, still=9 * TTL, ending=True)
        self.check(Action.END, ROW, STANDBY, ending=True)
        self.check(Action.END, ROW, replace(STANDBY, share=0.5))
        self.check(Action.END, ROW, replace(STANDBY, alive=False))
        # One that is noted and is not there: others would count on it.
        self.check(Action.STAND_DOWN, ROW, is_noted=True, ending=True)
        self.check(Action.STAND_DOWN, ROW, is_noted=True, stands_by=True)
        self.check(Action.NOTHING, ROW, STANDBY, is_noted=True)

    def test_of_a_table_that_was_changed(self) -> None:
        ours, theirs, released = (replace(row, table_number=2) for row in (OURS, ROW, RELEASED))
        # Its holder makes the next generation, paused or not, and before any switchover.
        for row in (
            ours,
            replace(ours, paused=True),
            replace(ours, wanted="c"),
            replace(ours, wanted="a", paused=True),
        ):
            self.check(Action.PREPARE, row, HOLDS, others=(OF_C,))
            self.check(Action.SUCCEED, row, HOLDS, successor=Stage.READY)
            for stage in (Stage.MAKING, Stage.FAILED):
                self.check(Action.NOTHING, row, HOLDS, others=(OF_C,), successor=stage)
        self.check(Action.CLOSE, ours, replace(HOLDS, share=0.8))
        self.check(Action.CLOSE, ours, HOLDS, ending=True)
        self.check(Action.RELEASE, ours, replace(HOLDS, alive=False))
        self.check(Action.FILL, replace(ours, address=None), HOLDS)
        self.check(Action.NOTHING, replace(ours, paused=True), replace(HOLDS, table_number=2))
        # A standby stays until the holder has the newest one, or is gone.
        self.check(Action.NOTHING, theirs, STANDBY)
        self.check(Action.END, replace(theirs, run_table=2), STANDBY)
        self.check(Action.NOTHING, replace(theirs, run_table=2), replace(STANDBY, table_number=2))
        self.check(Action.END, theirs, STANDBY, still=TTL)
        self.check(Action.END, released, STANDBY)
        self.check(Action.END, replace(released, paused=True), STANDBY)
        self.check(Action.TAKE, released, replace(STANDBY, table_number=2))
        # What may be the only copy is not ended for it.
        self.check(Action.CONTINUE, released, replace(STANDBY, reached=5001))

    def test_of_a_run_that_is_over(self) -> None:
        for row in (replace(ROW, generation=4), RELEASED, replace(ROW, generation=2), ROW):
            self.check(
                Action.LOOK_UP, row, HOLDS
            )  # also where the number was given twice: the run alone says which it is
        known = replace(HOLDS, is_known=True)
        self.check(Action.END, replace(ROW, generation=4), known)
        self.check(Action.END, RELEASED, known)
        self.check(Action.END, replace(ROW, generation=4), known, ending=True)
        self.check(Action.END, ROW, replace(HOLDS, alive=False))
        for own in (HOLDS, known, STANDBY, replace(HOLDS, is_known=False)):
            self.check(Action.END, replace(RELEASED, dropped=True), own)
        self.check(Action.NOTHING, replace(RELEASED, dropped=True))
        self.check(Action.NOTHING, None, HOLDS)
        self.check(Action.NOTHING, None)

    def test_a_run_that_postgresql_has_lost_continues_where_no_other_is_alive(self) -> None:
        lost = replace(HOLDS, is_known=False)
        released, of_b = replace(RELEASED, generation=2), replace(ROW, generation=2)
        of_ours = replace(
            ROW, holder="a", run="before", generation=2
        )  # as after a succession that PostgreSQL has lost
        self.check(Action.CONTINUE, released, lost)
        self.check(Action.CONTINUE, of_ours, lost, rival=Rival.GONE)
        self.check(Action.CONTINUE, of_b, lost, still=TTL)  # whose holder's heartbeat stalled
        # Others may have more of it.
        self.check(Action.NOTHING, released, lost, settles=True)
        self.check(Action.NOTHING, released, lost, further="c")
        self.check(Action.CONTINUE, released, lost, further="c", still=TTL)
        self.check(Action.NOTHING, RELEASED, further="c")
        self.check(Action.NOTHING, RELEASED, settles=True)
        self.check(Action.TAKE, RELEASED, further="c", still=TTL)
        self.check(Action.NOTHING, replace(released, paused=True), lost)
        self.check(Action.NOTHING, released, replace(lost, silent=TTL))
        # A standby that has more than the archive does as well.
        ahead = replace(STANDBY, reached=5001)
        self.check(Action.CONTINUE, RELEASED, ahead)
        self.check(Action.CONTINUE, ROW, ahead, still=TTL)
        self.check(Action.NOTHING, ROW, ahead)
        self.check(Action.CONTINUE, OURS, ahead, rival=Rival.GONE)

    def test_a_run_that_postgresql_has_lost_is_set_aside_where_another_is_alive(self) -> None:
        lost, of_b = replace(HOLDS, is_known=False), replace(ROW, generation=2)
        self.check(Action.SET_ASIDE, of_b, lost, rival=Rival.LIVES)
        self.check(Action.NOTHING, of_b, lost)
        self.check(Action.SET_ASIDE, of_b, replace(lost, back_for=PATIENCE * TTL))
        self.check(Action.NOTHING, of_b, replace(lost, back_for=PATIENCE * TTL), rival=Rival.SILENT)
        self.check(
            Action.SET_ASIDE, of_b, replace(lost, back_for=4 * PATIENCE * TTL), rival=Rival.SILENT
        )
        # Once another generation has its number, or a later one, its clients may have been told that it is over.
        for row in (ROW, RELEASED, replace(RELEASED, generation=4)):
            self.check(Action.SET_ASIDE, row, lost)
            self.check(Action.SET_ASIDE, row, replace(HOLDS, is_known=True, reached=5001))
        self.check(Action.SET_ASIDE, OURS, replace(lost, run="r"), rival=Rival.LIVES)
        self.check(Action.SET_ASIDE, OURS, replace(STANDBY, reached=5001), rival=Rival.LIVES)
        for row in (ROW, RELEASED):
            self.check(Action.SET_ASIDE, row, replace(lost, is_apart=True))
            self.check(Action.SET_ASIDE, row, lost, ending=True)
        self.check(
            Action.RELEASE, OURS, replace(HOLDS, is_apart=True)
        )  # and it is quarantined, since PostgreSQL went back

    def test_a_database_whose_run_was_lost_is_not_said_to_be_served(self) -> None:
        lost = replace(HOLDS, is_known=False)
        for row in (None, ROW, RELEASED):
            self.assertIs(state_of(row, lost), DatabaseState.WENT_BACK)
        self.assertIs(state_of(ROW, replace(STANDBY, reached=5001)), DatabaseState.WENT_BACK)

    def test_no_service_that_may_be_the_only_copy_of_what_postgresql_has_lost_is_ended(
        self,
    ) -> None:
        full = replace(HOLDS, is_known=True, reached=5001)
        self.check(Action.END, replace(ROW, generation=4, archived=5001), full)
        self.check(Action.END, replace(RELEASED, archived=5001), full)
        # What was seen once stays so, whatever comes into its place.
        self.check(
            Action.SET_ASIDE,
            replace(ROW, generation=9, archived=9000),
            replace(full, went_back=True),
            rival=Rival.LIVES,
        )
        ahead = replace(STANDBY, reached=5001)
        self.check(Action.SET_ASIDE, ROW, replace(ahead, share=0.5))
        self.check(Action.SET_ASIDE, ROW, replace(ahead, silent=TTL))
        # The keeper may end, and leaves it running.
        for row in (None, replace(ROW, generation=2), ROW, RELEASED):
            self.check(Action.SET_ASIDE, row, full, ending=True)
            self.check(Action.SET_ASIDE, row, replace(full, is_known=None), ending=True)
        for row in (None, ROW):
            self.check(Action.END, row, replace(ahead, alive=False))
        self.check(Action.END, replace(RELEASED, dropped=True), replace(full, went_back=True))

    def test_in_no_state_is_such_a_service_ended(self) -> None:
        rows = [
            None,
            *(
                replace(row, generation=generation, archived=archived, wanted=wanted, paused=paused)
                for row in (
                    ROW,
                    RELEASED,
                    replace(ROW, holder="a"),
                    replace(ROW, holder="a", address=None),
                )
                for generation in (2, 3, 4)
                for archived in (0, 5000)
                for wanted in (None, "a", "c", "*")
                for paused in (False, True)
            ),
        ]
        owns = [
            replace(
                own,
                reached=reached,
                went_back=reached < 5001,
                silent=silent,
                share=share,
                is_known=is_known,
            )
            for own in (HOLDS, STANDBY)
            for reached in (5001, 4990)
            for silent in (0.0, TTL)
            for share in (0.0, 0.9)
            for is_known in (None, False, True)
        ]
        allowed = (Action.NOTHING, Action.SET_ASIDE, Action.LOOK_UP, Action.CONTINUE)
        for row, own, ending, still, rival in product(
            rows, owns, (False, True), (0.0, 9 * TTL), Rival
        ):
            done = self.decide(row, own, ending=ending, still=still, rival=rival)
            self.assertIn(done, allowed, (row, own, ending, still))

    def test_of_an_earlier_life(self) -> None:
        self.check(Action.ADOPT, OURS)
        self.check(Action.ADOPT, OURS, still=9 * TTL)
        self.check(
            Action.ADOPT, OURS, ending=True
        )  # what it has is archived before the keeper ends
        self.check(Action.END, OURS, STANDBY)

    def test_a_standby_whose_take_was_in_doubt_finds_itself_the_holder(self) -> None:
        self.check(Action.FILL, replace(OURS, run="s", address=None), STANDBY)
        self.check(Action.FILL, replace(OURS, run="s"), replace(STANDBY, is_open=False))

    def test_states(self) -> None:
        self.assertIs(state_of(ROW, None), DatabaseState.AWAY)
        self.assertIs(state_of(ROW, STANDBY), DatabaseState.STANDBY)
        self.assertIs(state_of(RELEASED, None, Action.TAKE), DatabaseState.TAKING)
        self.assertIs(
            state_of(replace(OURS, address=None), HOLDS, Action.FILL),
            DatabaseState.TAKING,
        )
        self.assertIs(state_of(OURS, HOLDS), DatabaseState.SERVING)
        self.assertIs(state_of(OURS, HOLDS, Action.CLOSE), DatabaseState.CLOSING)


class Clocks(unittest.TestCase):
    def test_a_series_of_looks_that_was_broken_begins_anew(self) -> None:
        still = Stillness(TTL)
        self.assertEqual([still.see("x", now) for now in (10, 11, 12.5, 14)], [0, 1, 2.5, 4])
        self.assertEqual([still.see("y", now) for now in (15, 16)], [0, 1])
        # This process stood still, or PostgreSQL was away: what it sees after that proves nothing.
        self.assertEqual([still.see("y", now) for now in (19, 20)], [0, 1])


class Taken(unittest.TestCase):
    """What a keeper takes is as it was when it decided so, whatever a look shows while it prepares."""

    def taken(
        self, decided: Row, beat: int | None, seen: Row, beat_seen: int
    ) -> tuple[Row, int | None]:
        """The row and the beat under which one is taken that was decided upon so, where a look then shows what is `seen`."""
        session = Mock(referee=Mock(Referee))
        takes: list[tuple[Any, ...]] = []

        async def ask(call: Callable[..., object], *arguments: Any) -> object:
            if call == session.referee.table:
                database.see(seen, beat_seen, (), is_noted=False, began=2.0)
                return TableOf("", b"secret", 1)
            takes.append(arguments)
            return None

        async def decided_and_taken() -> None:
            database.see(decided, beat, (), is_noted=False, began=1.0)
            while shared.tasks:
                await asyncio.gather(*shared.tasks)

        session.ask = ask
        settings = Settings.of("a", "", "", Path("."), "", "", {"standby": False, "ttl": TTL})
        shared = Shared(settings, "life", session, Mock(), Mock(), Mock(), Mock())
        database = Database(shared, decided)
        database._still = Mock(see=Mock(side_effect=[TTL, 0.0]))
        asyncio.run(decided_and_taken())
        [(row, _, with_beat, *_)] = takes
        return row, with_beat

    def test_not_from_a_holder_that_came_meanwhile(self) -> None:
        new = Row(1, "shop")
        self.assertEqual(
            self.taken(new, None, replace(new, generation=1, run="r1", holder="b"), 7), (new, None)
        )

    def test_not_from_a_holder_whose_beat_came_meanwhile(self) -> None:
        self.assertEqual(self.taken(ROW, 7, ROW, 8), (ROW, 7))


class Orphans(unittest.TestCase):
    """What becomes of a service of a previous instance."""

    def test_one_that_had_a_generation_is_not_ended_where_another_database_of_its_name_was_dropped(
        self,
    ) -> None:
        self.assertIs(fate_of(FoundOrphan(Seen(3, 2), was_dropped=True))[0], OrphanFate.SET_ASIDE)
        self.assertIs(
            fate_of(FoundOrphan(Seen(0, 2), was_dropped=True))[0], OrphanFate.END
        )  # a standby's
