"""How a database comes to a keeper while things change: what fills, is adopted or follows goes on, and nothing waits for ever. No clock."""

from __future__ import annotations

import asyncio
import json
import os
import subprocess
import tempfile
import threading
import time
import unittest
from dataclasses import replace
from pathlib import Path
from typing import Any, Iterator
from unittest.mock import AsyncMock, Mock, patch

from pagelog.errors import PagelogError
from pagelog.referee.ahead import ahead
from pagelog.keeper.database import Database
from pagelog.keeper.ending import Ending
from pagelog.keeper.machine import RunKind
from pagelog.referee.referee import Away, Doubt
from pagelog.referee.rows import Kept, TableOf
from pagelog.keeper.run import NotStarted, _facts_of
from pagelog.keeper.served import Access
from pagelog.keeper.settings import Settings
from pagelog.keeper.shared import Shared
from service import PATIENCE
from test_meanwhile import RELEASED, ROW, Meanwhile, service


class Fills(Meanwhile):
    async def test_what_a_look_shows_while_it_is_opened_is_not_undone(self) -> None:
        """It was taken with its place told, so that no statement finds out who has it by now."""
        loop, seen = asyncio.get_running_loop(), replace(
            ROW, run="other", holder="b", generation=4, address="b:1"
        )
        self.database.served = served = service(is_open=False)

        def opened() -> None:
            done = threading.Event()
            loop.call_soon_threadsafe(lambda: (self.see(seen), done.set()))
            done.wait(PATIENCE)
            served.access = Access.OPEN

        served.open = opened
        self.session.ask = AsyncMock(
            side_effect=lambda call, *_: True if call is self.session.referee.knows else None
        )
        with patch.object(Ending, "end", new=AsyncMock(return_value=False)) as end:
            self.see()
            await self.done(lambda: end.await_count)
        self.assertEqual(self.database.row, seen)

    async def test_one_that_failed_tries_again_after_a_ttl_whatever_another_does(self) -> None:
        takes, now = self.failing(), [0.0]
        with patch("pagelog.keeper.database.seconds", lambda: now[0]):
            for now[0], generation, taken in (
                (1.0, 0, [0]),
                (2.0, 2, [0]),
                (3.0 + PATIENCE, 4, [0, 4]),
            ):
                self.see(replace(RELEASED, generation=generation))
                await self.done(lambda: self.database._acting.done())  # type: ignore[union-attr]
                self.assertEqual(takes, taken)

    async def test_one_that_fails_again_after_a_ttl_of_stillness_rests_again(self) -> None:
        takes, now = self.failing(), [0.0]
        with patch("pagelog.keeper.database.seconds", lambda: now[0]):
            self.see(RELEASED)
            await self.done(lambda: self.database._acting.done())  # type: ignore[union-attr]
            for quarter in range(5):  # nobody else does anything
                now[0] = 1 + quarter * PATIENCE / 4
                self.see(replace(RELEASED, generation=1))
                await self.done(lambda: self.database._acting.done())  # type: ignore[union-attr]
        self.assertEqual(takes, [0, 1])

    def failing(self) -> list[int]:
        """Services cannot be started. Returns the generations behind which it takes."""
        takes: list[int] = []

        async def ask(call: object, *of: Any) -> object:
            if call is self.session.referee.take:
                takes.append(of[0].generation)
                next_one = replace(of[0], generation=of[0].generation + 1, run="new", holder="a")
                return next_one if len(takes) < 9 else None
            return replace(RELEASED, generation=self.database.row.generation)

        def made(_: str) -> Mock:
            failing = service(run="new", process=None, reached=0)

            def start(_: object) -> None:
                failing.is_alive = False
                raise NotStarted("no")

            failing.start = start
            return failing

        self.session.ask = ask
        self.enterContext(patch.object(Database, "new_served", new=AsyncMock(side_effect=made)))
        return takes

    async def test_one_that_is_filled_while_postgresql_is_away_goes_on_with_it(self) -> None:
        self.database.served = served = service(reached=0, is_open=False)
        with patch.object(Shared, "fill", new=AsyncMock(side_effect=(Away("gone"), None))) as fill:
            for count in (1, 2):
                self.see(replace(ROW, address=None))
                await self.done(lambda: self.database._acting.done())  # type: ignore[union-attr]
                self.assertEqual(
                    (fill.await_count, self.database.served, served.health.is_broken),
                    (count, served, False),
                )
        self.assertTrue(served.open.called)

    async def test_one_that_is_refused_what_fills_it_while_the_looks_go_through_is_released_after_a_ttl(
        self,
    ) -> None:
        """Its keeper beats, so that nobody else would take the database over."""
        for looks, last in (
            (range(9), 5),
            ((*range(4), *range(90, 99)), 94),
        ):  # by quarters of a ttl; in between it was away
            self.setUp()
            self.database.served = served = service(reached=0, loaded=0, is_open=False)
            type(served).is_alive = property(lambda of: not of.health.is_broken)
            refused, now = Away("too many connections for role"), 0.0
            with patch("pagelog.keeper.database.seconds", lambda: now), patch.object(
                Shared, "fill", new=AsyncMock(side_effect=refused)
            ):
                for look in looks:
                    now = look * PATIENCE / 4
                    self.see(replace(ROW, address=None))
                    await self.done(lambda: self.database._acting.done())  # type: ignore[union-attr]
                    if served.health.is_broken:
                        break
            self.assertEqual((look, self.database._failed_at), (last, now))
            self.assertIn("it could not be filled: too many connections for role", self.said)
            self.session.ask.assert_awaited_with(self.session.referee.release, 1, "mine")

    async def test_one_that_gets_further_is_not_released(self) -> None:
        self.database.served = served = service(reached=0, loaded=0, is_open=False)
        for look in range(20):
            served.loaded = look // 3
            with patch("pagelog.keeper.database.seconds", lambda: look * PATIENCE / 4):
                with patch.object(Shared, "fill", new=AsyncMock(side_effect=Doubt("cut"))):
                    self.see(replace(ROW, address=None))
                    await self.done(lambda: self.database._acting.done())  # type: ignore[union-attr]
        self.assertEqual((self.database.served, served.health.is_broken), (served, False))


class ReadsAhead(unittest.TestCase):
    def pieces(self, count: int, error: Exception | None = None) -> Iterator[list[int]]:
        self.read: list[int] = []
        for number in range(count):
            self.read.append(number)
            yield [number]
        if error is not None:
            raise error

    def test_the_next_piece_is_read_while_one_is_loaded_and_no_other(self) -> None:
        cut, before = Mock(), set(threading.enumerate())
        with ahead(self.pieces(5), cut) as pieces:
            for number, piece in enumerate(pieces):
                self.assertEqual(len(set(threading.enumerate()) - before), 1)
                deadline = time.monotonic() + PATIENCE
                while len(self.read) < min(5, number + 2) and time.monotonic() < deadline:
                    time.sleep(0.001)
                self.assertEqual((piece, self.read), ([number], list(range(min(5, number + 2)))))
        self.assertEqual(set(threading.enumerate()) - before, set())
        self.assertEqual((number, cut.called), (4, False))

    def test_what_fails_comes_behind_what_was_read_before(self) -> None:
        found, cut = [], Mock()
        with self.assertRaisesRegex(Doubt, "cut"), ahead(
            self.pieces(3, Doubt("cut")), cut
        ) as pieces:
            for piece in pieces:
                found += piece
        self.assertEqual((found, cut.called), ([0, 1, 2], False))

    def test_a_read_that_hangs_is_cut_where_a_piece_cannot_be_loaded(self) -> None:
        hangs, was_cut = threading.Event(), threading.Event()

        def read() -> Iterator[list[int]]:
            yield [0]
            hangs.set()
            if was_cut.wait(PATIENCE):
                raise Doubt("what the cut one says is no news")

        with self.assertRaisesRegex(PagelogError, "the service ended"), ahead(
            read(), was_cut.set
        ) as pieces:
            self.assertEqual(next(pieces), [0])
            self.assertTrue(hangs.wait(PATIENCE))
            raise PagelogError("the service ended")
        self.assertTrue(was_cut.is_set())
        self.assertNotIn("ahead_0", [thread.name for thread in threading.enumerate()])


class Adopts(Meanwhile):
    """A process that a previous instance of the keeper has started."""

    def setUp(self) -> None:
        super().setUp()
        folder = Path(self.enterContext(tempfile.TemporaryDirectory()))
        self.shared.settings = Settings.of(
            "a", "", "", folder, "", "", {"standby": False, "ttl": PATIENCE}
        )
        self.process = subprocess.Popen(["sleep", "600"])
        self.addCleanup(self.process.wait)
        self.addCleanup(self.process.kill)
        facts = replace(_facts_of("shop", "mine", self.process.pid), address="127.0.0.1:1")
        (folder / facts.file_name).write_text(json.dumps(vars(facts)))

    async def test_what_postgresql_does_not_answer_leaves_no_descriptor_open(self) -> None:
        answers = {
            self.session.referee.table: TableOf("", b"", 1),
            self.session.referee.kept: Kept(5, b"c" * 16, 3),
        }

        async def ask(call: object, *_: object) -> object:
            if call is away:
                raise Away("gone")
            return answers.get(call)

        self.session.ask = ask
        for away in answers:
            for row in (ROW, replace(ROW, address=None)):
                self.see(row)
                await self.done(lambda: self.database._acting.done())  # type: ignore[union-attr]
                open_before = os.listdir("/proc/self/fd")
                self.see(row)
                await self.done(lambda: self.database._acting.done())  # type: ignore[union-attr]
                self.assertEqual(
                    (self.said[-1], os.listdir("/proc/self/fd")), ("adopt: gone", open_before)
                )

    async def test_one_that_was_taken_over_meanwhile_is_ended_once_a_look_shows_it(self) -> None:
        for left in (
            replace(ROW, run="other", generation=4, holder="b", address="b:1"),
            replace(ROW, run=None, holder=None, address=None),
        ):
            self.setUp()
            answers = {
                self.session.referee.table: TableOf("", b"", 1),
                self.session.referee.knows: True,
            }
            self.session.ask = AsyncMock(
                side_effect=lambda call, *_, answers=answers: answers.get(call)
            )
            self.see()
            await self.done(lambda: self.database._acting.done())  # type: ignore[union-attr]
            self.assertIsNone(self.process.poll())
            self.see(replace(left, paused=True))
            await self.done(lambda: self.process.poll() is not None)

    async def test_one_that_postgresql_knows_no_more_is_not_ended(self) -> None:
        self.session.ask = AsyncMock(
            side_effect=lambda call, *_: TableOf("", b"", 1)
            if call is self.session.referee.table
            else None
        )
        self.see()
        await self.done(lambda: self.database._acting.done())  # type: ignore[union-attr]
        self.see(replace(ROW, run="other", generation=2, archived=4, holder="b", address="b:1"))
        await self.done(lambda: self.database._acting.done())  # type: ignore[union-attr]
        self.assertIsNone(self.process.poll())


class Continues(Meanwhile):
    async def test_one_with_an_older_table_has_the_newest_before_it_holds_the_database_again(
        self,
    ) -> None:
        for number, renewed in ((1, True), (2, False)):
            self.setUp()
            newest, order = TableOf("two", b"s", 2), list[object]()
            self.database.served = served = service(table_number=number)
            served.renew.side_effect = order.append
            served.continues.return_value = ROW.archived, ROW.chain
            self.session.ask = AsyncMock(
                side_effect=lambda call, *_, newest=newest, order=order: newest
                if call is self.session.referee.table
                else order.append(call)
            )
            self.assertFalse(await self.database.beginning.continue_run())
            self.assertEqual(
                order,
                [newest, self.session.referee.continue_run]
                if renewed
                else [self.session.referee.continue_run],
            )


class StandsBy(Meanwhile):
    OTHER = replace(ROW, run="other", holder="b", address="b:1", wanted="a")

    TRIES = ((0.0, 1), (0.24, 1), (0.25, 2), (0.7, 2), (0.75, 3), (1.7, 3), (1.75, 4))
    """At these parts of a ttl it was tried so often: with the next look, and not before, and then more and more seldom."""

    async def test_one_that_could_not_be_started_is_tried_again_with_the_next_look_and_more_and_more_seldom(
        self,
    ) -> None:
        for error in (NotStarted("no"), RuntimeError("can't start new thread")):
            self.setUp()
            made = service(run="new", kind=RunKind.HOLDER, process=None, reached=0)
            made.start.side_effect = error
            with patch.object(Database, "new_served", new=AsyncMock(return_value=made)) as new:
                await self.is_tried(new)

    async def is_tried(self, new: AsyncMock) -> None:
        for at, count in self.TRIES:
            with patch("pagelog.keeper.standing.seconds", lambda: at * PATIENCE):
                self.see(self.OTHER)
                await self.done(lambda: self.database._acting.done())  # type: ignore[union-attr]
            self.assertEqual((new.await_count, self.database.served), (count, None))

    async def test_one_that_cannot_be_filled_is_tried_again_with_the_next_look_and_more_and_more_seldom(
        self,
    ) -> None:
        with patch.object(
            Database,
            "new_served",
            new=AsyncMock(side_effect=lambda _: service(run="new", reached=0)),
        ) as new:
            with patch.object(Shared, "fill", new=AsyncMock(side_effect=PagelogError("broken"))):
                await self.is_tried(new)

    async def test_one_that_lacks_blocks_while_postgresql_is_away_goes_on_with_them(self) -> None:
        for fresh in (
            service(run="new", reached=0),
            service(run="new", kind=RunKind.STANDBY, reached=2, is_noted=True),
        ):
            for away in (Away("gone"), Doubt("cut")):
                self.setUp()
                self.database.served = fresh if fresh.is_noted else None
                with patch.object(Database, "new_served", new=AsyncMock(return_value=fresh)) as new:
                    with patch.object(
                        Shared, "fill", new=AsyncMock(side_effect=(away, None))
                    ) as fill:
                        for count in (1, 2):
                            self.see(self.OTHER, is_noted=fresh.is_noted)
                            await self.done(lambda: self.database._acting.done())  # type: ignore[union-attr]
                            self.assertEqual(
                                (fill.await_count, self.database.served), (count, fresh)
                            )
                self.assertLessEqual(new.await_count, 1)
                fresh.process.end.assert_not_called()

    async def test_one_that_lacks_blocks_that_postgresql_has_lost_since_the_look_is_kept(
        self,
    ) -> None:
        for has_gone_back in (True, False):
            self.setUp()
            self.database.served = served = service(
                run="new", kind=RunKind.STANDBY, reached=2, is_noted=True
            )
            self.session.ask = AsyncMock(
                side_effect=lambda call, *_, gone=has_gone_back: gone
                if call is self.session.referee.lacks
                else None
            )
            with patch.object(
                Shared,
                "fill",
                new=AsyncMock(
                    side_effect=PagelogError("2 of the archived blocks 1 to 2 are missing")
                ),
            ):
                self.see(self.OTHER, is_noted=True)
                await self.done(lambda: self.database._acting.done())  # type: ignore[union-attr]
            self.assertEqual(
                (self.database.served, served.health.is_broken),
                (served, False) if has_gone_back else (None, True),
            )

    async def test_one_whose_note_is_gone_is_noted_again(self) -> None:
        self.database.served = service(run="new", kind=RunKind.STANDBY, is_noted=True)
        self.see(self.OTHER, is_noted=False)
        await self.done(lambda: self.session.ask.await_count)
        self.assertIs(self.session.ask.await_args_list[0].args[0], self.session.referee.stand_by)
