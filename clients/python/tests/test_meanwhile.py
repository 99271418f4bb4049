"""What changes while a keeper waits for something: it does what it has decided, and nothing waits for ever. No process, and no clock."""

from __future__ import annotations

import asyncio
import gc
import socket
import tempfile
import threading
import time
import unittest
from concurrent.futures import ThreadPoolExecutor
from dataclasses import replace
from pathlib import Path
from typing import Any, Callable
from unittest.mock import AsyncMock, Mock, patch

import psycopg

from pagelog.errors import OutOfMemory, Unreachable
from pagelog.keeper import served as served_module
from pagelog.keeper.archiver import RunArchiver, turn_of
from pagelog.keeper.database import Database
from pagelog.keeper.doubts import Doubts, Fenced
from pagelog.referee.fate import Of
from pagelog.keeper.fates import Questions, tell_block, tell_fate
from pagelog.keeper.keeping import Keeper
from pagelog.keeper.lines import Server
from pagelog.keeper.machine import Action, RunKind, Stage
from pagelog.keeper.fast_path import End
from pagelog.keeper.recorder import Recorder, RecorderTurn
from pagelog.referee.referee import Away, Doubt, Referee, Refused
from pagelog.referee.rows import Batch, KeeperRow, Kept, Lines, Look, Row, StandbyRow
from pagelog.keeper.run import Seen
from pagelog.keeper.served import Access, Health, Lack, RunLog, Served
from pagelog.keeper.session import Session
from pagelog.keeper.settings import Settings
from pagelog.keeper.shared import Shared
from pagelog.keeper.succession import Succession
from pagelog.keeper.switch import release
from pagelog.keeper.waits import Waits
from service import PATIENCE

ROW = Row(
    1, "shop", generation=3, run="mine", holder="a", address="a:1", archived=5, chain=b"c" * 16
)
BLOCK = b"a block"
RELEASED = replace(ROW, run=None, holder=None, address=None, generation=0, archived=0)
OF_C = StandbyRow(1, "c", "c:1", "sc", 5)


class Service(Mock):
    """A service that is asked nothing. What becomes known of it its own methods note."""

    def _get_child_mock(self, **of: Any) -> Mock:
        return Mock(**of)

    reached, chain, shift, images, hard, is_open = (
        Served.reached,
        Served.chain,
        Served.shift,
        Served.images,
        Served.hard,
        Served.is_open,
    )
    hold, stand_by, note_standby, reach, fail, lack_memory, be_silent, be_lacked, be_only_copy = (
        Served.hold,
        Served.stand_by,
        Served.note_standby,
        Served.reach,
        Served.fail,
        Served.lack_memory,
        Served.be_silent,
        Served.be_lacked,
        Served.be_only_copy,
    )
    be_apart, begin_again, take_process = (
        Served.be_apart,
        Served.begin_again,
        Served.take_process,
    )


def service(
    *, reached: int = 5, hard: int = 5, is_open: bool = True, is_full: bool = False, **facts: Any
) -> Mock:
    """A service of this keeper that holds the database of `ROW`, as far as these facts say nothing else."""
    known = {
        "database": "shop",
        "run": "mine",
        "kind": RunKind.HOLDER,
        "generation": 3,
        "log": RunLog(reached=reached, chain=b"c" * 16, hard=hard),
        "health": Health(is_full=is_full),
        "lack": Lack(),
        "access": Access.OPEN if is_open else Access.CLOSED,
        "acknowledged": None,
        "entries": 0,
        "is_alive": True,
        "hangs": False,
        "is_noted": False,
        "is_after_release": False,
        "table_number": 1,
        "identity": "",
        "unreached": 0.0,
        **facts,
    }
    made = Service(**known)
    made.share.return_value = 0.0
    made.looked_at_once = AsyncMock(return_value=True)
    if made.process is not None:
        made.process.descriptor = made.process.memory = 0
    return made


class Way:
    """In place of the fast path's of a database: it ends as the test says."""

    def __init__(self, served: Any, lines: object, is_careful: bool) -> None:
        self.lines, self.is_careful, self.why = lines, is_careful, ""
        self.reached, self.done = (served.reached, served.chain), (0, 0)
        self.ended: asyncio.Future[End] = asyncio.get_running_loop().create_future()
        self.take = self.watch = self.kick = self.drop = lambda *_: None

    def stop(self) -> None:
        self.end(End.STOPPED)

    def end(self, end: End) -> None:
        if not self.ended.done():
            self.ended.set_result(end)

    async def run(self) -> End:
        return await self.ended


class Ways:
    """In place of the fast path. `ends` are those of the ways to come; the others end when they are told to."""

    def __init__(self, *ends: End) -> None:
        self.made: list[Way] = []
        self.times: list[float] = []
        self.ends = list(ends)
        self.warm, self.keeps_lines = Mock(), True

    async def way_of(
        self,
        _: Row,
        served: Any,
        told: object,
        lines: object = None,
        *,
        is_careful: bool,
        before: Any,
    ) -> Any:
        self.made.append(Way(served, lines, is_careful))
        self.times.append(time.monotonic())
        if self.ends:
            self.made[-1].end(self.ends.pop(0))
        return self.made[-1]


class Meanwhile(unittest.IsolatedAsyncioTestCase):
    """A database of a keeper whose sessions and fast path are the test's."""

    def setUp(self) -> None:
        self.said: list[str] = []
        self.session = Mock(referee=Mock(Referee), ask=AsyncMock(return_value=None))
        self.doubts = Mock(look_up=AsyncMock(side_effect=Fenced("held no more")))
        self.ways: Any = Ways()
        settings = Settings.of("a", "", "", Path("."), "", "", {"standby": False, "ttl": PATIENCE})
        self.shared = Shared(
            settings,
            "life",
            self.session,
            self.doubts,
            self.ways,
            lambda _, sentence: self.said.append(sentence),
            Mock(),
        )
        self.database = Database(self.shared, ROW)
        self.enterContext(patch.object(Database, "watch"))
        self.looks = 0.0

    async def asyncSetUp(self) -> None:
        asyncio.get_running_loop().set_debug(False)

    async def asyncTearDown(self) -> None:
        for task in self.shared.tasks:
            task.cancel()

    def see(
        self, row: Row = ROW, others: tuple[StandbyRow, ...] = (), *, is_noted: bool = False
    ) -> None:
        """A look has shown this."""
        self.looks += 1
        self.database.see(row, 1, others, is_noted=is_noted, began=self.looks)

    def held(self, **facts: Any) -> Mock:
        """Its service, which is archived."""
        self.database.served = made = service(**facts)
        self.database.work.begin(ROW, made)
        return made

    async def rest(self) -> None:
        """Until nothing goes on any more but what waits for the test."""
        for _ in range(50):
            await asyncio.sleep(0)

    async def done(self, condition: Callable[[], object]) -> None:
        while not condition():
            await asyncio.sleep(0.001)


class Archives(Meanwhile):
    async def test_an_archive_that_is_begun_again_keeps_lines_with_its_blocks(self) -> None:
        recorder = Mock(
            Recorder,
            is_ready=True,
            turn=RecorderTurn(PATIENCE),
            lend=Mock(return_value=Mock()),
            run=AsyncMock(),
        )
        self.shared.trails = Mock(recorder=Mock(return_value=recorder))
        self.ways.ends = [End.NOT_KEPT]
        self.held()
        await self.done(lambda: self.database.work.archiver.is_over)  # type: ignore[union-attr]
        self.see()  # it was told that it is fenced, and is not
        await self.done(lambda: len(self.ways.made) == 2)
        for way in self.ways.made:
            self.assertIsNotNone(way.lines)
        self.assertEqual(self.shared.trails.recorder.call_count, 1)

    async def test_none_is_begun_beside_an_action_that_has_the_one_before(self) -> None:
        self.held().close = Mock(return_value=5)
        before, asked = self.database.work.archiver, list[object]()
        assert before is not None

        async def ask(call: Callable[..., object], *_: object) -> object:
            if call is release:
                before.is_over = True  # it is told that it is fenced, which it is not
                self.see(replace(ROW, wanted="c"), (OF_C,))
                asked.append(self.database.work.archiver)
            return None

        self.session.ask = ask
        self.see(replace(ROW, wanted="c"), (OF_C,))
        await self.done(lambda: asked)
        self.assertEqual(set(asked), {before})

    async def test_who_waits_for_an_archive_that_has_ended_or_whose_service_has_died_is_told(
        self,
    ) -> None:
        for facts, is_over in (({}, True), ({"is_alive": False}, False), ({"hangs": True}, False)):
            archiver = self.archiver(service(**facts))
            archiver.is_over = is_over
            for waits in (archiver.reached(9), archiver.caught_up()):
                waiting = asyncio.create_task(waits)
                await self.rest()
                self.assertTrue(waiting.done(), facts)
                self.assertFalse(await waiting)

    def archiver(self, served: Mock) -> RunArchiver:
        return RunArchiver(ROW, served, Waits("shop"), self.doubts, Mock(), Mock(), self.ways)

    async def tries(self, served: Mock, count: int) -> list[float]:
        """Archives what the service has until there were so many tries, and returns the seconds between them. Somebody rings all the time."""
        archiver = self.archiver(served)
        running = self.shared.spawn(archiver.run(), "an archiver")

        def are_there() -> bool:
            archiver.ring()
            return len(self.ways.made) >= count

        await self.done(are_there)
        running.cancel()
        self.assertEqual([way.is_careful for way in self.ways.made], [False] + [True] * (count - 1))
        times = self.ways.times
        return [later - earlier for earlier, later in zip(times, times[1:count])]

    async def test_a_batch_that_is_refused_is_tried_carefully_and_more_and_more_seldom(
        self,
    ) -> None:
        self.ways.ends = [End.DOUBT] * 4
        self.doubts.look_up = AsyncMock(return_value=Kept(5, ROW.chain, 3))
        gaps = await self.tries(service(hard=6), 5)
        for gap, least in zip(gaps, (0.05, 0.1, 0.2, 0.4)):
            self.assertGreater(gap, 0.9 * least, gaps)

    async def test_a_service_whose_pulls_fail_is_asked_more_and_more_seldom(self) -> None:
        self.ways.ends = [End.SERVICE] * 4
        served = service(hard=6, ask_for_more=Mock(side_effect=Unreachable("no connection")))
        gaps = await self.tries(served, 5)
        for gap, least in zip(gaps, (0.05, 0.1, 0.2, 0.4)):
            self.assertGreater(gap, 0.9 * least, gaps)
        self.assertEqual(served.ask_for_more.call_count, 4)

    async def test_a_service_that_ends_while_nobody_waits_is_asked_for_nothing(self) -> None:
        served = service(ask_for_more=Mock(side_effect=Unreachable("no connection")))
        archiver = self.archiver(served)
        running = self.shared.spawn(archiver.run(), "an archiver")
        await self.done(lambda: self.ways.made)
        self.ways.made[0].done = archiver._rings, archiver._rings
        self.ways.made[0].end(End.SERVICE)
        await self.rest()
        self.assertEqual((served.ask_for_more.called, len(self.ways.made)), (False, 1))
        archiver.ring()
        await self.done(lambda: len(self.ways.made) == 2)
        running.cancel()

    async def test_a_doubt_is_looked_up_again_whatever_is_raised(self) -> None:
        said, kept = list[str](), Kept(6, b"d" * 16, 3)
        session = Mock(ask=AsyncMock(side_effect=[ValueError("odd"), kept]), close=AsyncMock())
        self.assertEqual(await Doubts(session, said.append).look_up(1, "mine"), kept)
        self.assertEqual(
            (said, session.close.await_count), (["nothing is archived: ValueError: odd"], 2)
        )

    async def test_what_postgresql_refuses_the_archive_is_said_once_a_minute_with_a_count(
        self,
    ) -> None:
        said, now, refused = list[str](), [0.0], Refused("PostgreSQL: too many connections")
        kept = Kept(5, b"c" * 16, 3)
        session = Mock(
            ask=AsyncMock(side_effect=[refused, kept, kept, refused, kept]), close=AsyncMock()
        )
        doubts, sentence = (
            Doubts(session, said.append),
            "nothing is archived: PostgreSQL: too many connections",
        )
        doubts._repeats._clock = lambda: now[0]
        with patch("asyncio.sleep", new=AsyncMock()):
            for now[0], lines in (
                (0.0, [sentence]),
                (59.0, [sentence]),
                (60.0, [sentence, f"{sentence} (2 times in 60 s)"]),
            ):
                if now[0] == 59.0:
                    doubts.say("PostgreSQL: too many connections")
                await doubts.look_up(1, "mine")
                self.assertEqual(said, lines)
        self.assertEqual(session.close.await_count, 3)  # nothing is in doubt any more

    async def test_a_service_that_may_be_the_only_copy_stays_so_where_a_look_shows_its_run(
        self,
    ) -> None:
        self.ways.ends = [End.NOT_KEPT]
        self.doubts.look_up = AsyncMock(return_value=Kept(2, b"other", 3))
        served = self.held(has=Mock(return_value=False))
        await self.done(lambda: served.lack.went_back)
        self.see(replace(ROW, archived=2, chain=b"other"))
        self.assertTrue(served.lack.went_back)

    async def test_what_is_to_be_set_aside_is_not_forgotten_where_its_disk_is_full(self) -> None:
        process = Mock(descriptor=0, seen=Seen())
        process.set_aside.side_effect = OSError(28, "no space"), OSError(28, "no space"), None
        with patch("asyncio.sleep", new=AsyncMock()) as waited:
            await self.database.ending.end_process(
                service(process=process, lack=Lack(went_back=True))
            )
        self.assertEqual(
            (process.set_aside.call_count, waited.await_count, self.shared.asides._facts),
            (3, 2, [process.facts]),
        )
        self.assertFalse(process.end.called)


class Names(unittest.IsolatedAsyncioTestCase):
    async def asyncSetUp(self) -> None:
        asyncio.get_running_loop().set_debug(False)

    async def test_a_database_is_found_by_its_name_without_a_look_at_all_others(self) -> None:
        folder = Path(self.enterContext(tempfile.TemporaryDirectory()))
        keeper = Keeper(
            Settings.of("a", "", "", folder, "", "", {"standby": False, "ttl": PATIENCE})
        )
        lines = KeeperRow("b", "life", "b:2", 1)
        rows = tuple(
            replace(
                ROW,
                id=id,
                identity=f"{id}",
                name=f"shop{id}",
                run="other",
                holder="b",
                address=f"b:{id}",
            )
            for id in range(1, 9)
        )
        dropped, again = replace(rows[0], name="shop1!1", dropped=True), replace(
            rows[0], id=9, identity="9", address="b:9"
        )
        for seen, told in ((rows, "b:1"), ((dropped, *rows[1:], again), "b:9"), (rows[1:], None)):
            with patch.object(keeper._session, "ask", AsyncMock(return_value=Look(seen, (lines,)))):
                await keeper._look()
            with patch.object(keeper, "databases", None):
                self.assertEqual(
                    [keeper.where(f"shop{id}")[4] for id in range(2, 9)],
                    [f"b:{id}" for id in range(2, 9)],
                )
                self.assertEqual(
                    keeper.where("shop1")[:1] if told is None else keeper.where("shop1")[4],
                    told or ("unknown",),
                )
        for task in keeper._shared.tasks:
            task.cancel()


class Floods(unittest.IsolatedAsyncioTestCase):
    async def test_a_client_with_very_many_lines_lets_others_have_their_turn(self) -> None:
        asked, many = list[str](), 10_000
        answers = Mock(where=lambda name, _: asked.append(name) or ("nowhere", name))
        server = Server(answers)
        host, _, port = (await server.start("127.0.0.1:0")).rpartition(":")
        loop = asyncio.get_running_loop()
        lines = [
            self.enterContext(socket.create_connection((host, int(port)), PATIENCE))
            for _ in range(2)
        ]
        for line in lines:
            line.setblocking(False)
            await loop.sock_sendall(line, b"where first\n")
            await loop.sock_recv(line, 100)
        asked.clear()
        lines[0].send(b"where many\n" * many)  # both are there before the server reads any of them
        lines[1].send(b"where one\n")
        await loop.sock_recv(lines[1], 100)
        self.assertLess(asked.index("one"), many // 4)
        left = many * len(b"nowhere many\n")
        while left:
            left -= len(await loop.sock_recv(lines[0], 1 << 16))
        await server.stop()


class Asked(Meanwhile):
    """Clients ask very much."""

    async def test_a_look_waits_for_few_of_their_questions(self) -> None:
        session, lines, asked = (
            Session(Mock(Referee, notified=[], me="a"), PATIENCE),
            [Mock() for _ in range(100)],
            list[int](),
        )
        session.referee.fate.side_effect = lambda *_: asked.append(1) or 5  # type: ignore[attr-defined]
        session.referee._ask.side_effect = lambda *_: asked.append(1) or []  # type: ignore[attr-defined]
        for tell in (tell_fate, tell_block):
            asked.clear()
            questions = Questions(session)
            tasks = [asyncio.create_task(tell(questions, line, "shop", 1)) for line in lines]
            await asyncio.sleep(0)
            await session.ask(lambda: None)
            self.assertLess(len(asked), 10)
            with patch("pagelog.keeper.fates._MOST", 50):
                late = Mock()
                await tell(questions, late, "shop", 1)
            late.say.assert_called_once_with("elsewhere", "shop", 1)
            await asyncio.gather(*tasks)
            self.assertEqual({len(line.say.mock_calls) for line in lines}, {1})
            for line in lines:
                line.reset_mock()

    async def test_one_waits_for_no_more_than_some_positions(self) -> None:
        self.held()
        one, other = Mock(), Mock()
        with patch("pagelog.keeper.waits._MOST", 3):
            for line, position in ((one, 9), (one, 8), (one, 7), (one, 6), (other, 9)):
                self.database.wait(line, 3, position)
        one.say.assert_called_once_with("elsewhere", "shop", 3)
        self.database.waits.tell(3, 9)
        self.assertEqual(
            (one.say.call_count, other.say.call_count, len(self.database.waits)), (2, 1, 0)
        )


class Closes(Meanwhile):
    def asks(self, **answers: Any) -> None:
        """What the session answers to these calls, by their names; an error is raised."""

        async def ask(call: Any, *_: object) -> object:
            answer = answers.get(
                getattr(call, "__name__", None) or call._extract_mock_name().rpartition(".")[2]
            )
            if isinstance(answer, Exception):
                raise answer
            return answer() if callable(answer) else answer

        self.session.ask = ask

    async def test_a_table_is_opened_again_where_the_end_of_its_generation_is_not_wanted_any_more(
        self,
    ) -> None:
        for wanted in (replace(ROW, paused=True), ROW):
            self.setUp()
            self.database.served = served = Served("shop", "mine", "", b"", timeout=PATIENCE)
            served.hold(3)
            served.reach(5, ROW.chain)
            served.access = Access.OPEN
            served.process = Mock(descriptor=0, memory=0, is_alive=True)
            served._operator, served._looker = operator, _ = Mock(), Mock()
            operator.fence.return_value.hard = 5
            self.enterContext(patch.object(Served, "_table"))
            self.enterContext(patch.object(Served, "look"))
            self.database.work.begin(ROW, served)
            self.asks(release=Doubt("lost"))
            self.see(replace(ROW, wanted="c"), (OF_C,))
            await self.done(lambda: "close: lost" in self.said)
            self.assertEqual((operator.fence.call_count, operator.set_table.call_count), (1, 0))
            await self.rest()
            self.see(wanted)
            await self.done(lambda: operator.set_table.call_count)
            await self.rest()
            self.assertEqual((served.is_alive, operator.fence.call_count), (True, 1))

    async def test_the_generation_that_was_let_go_is_its_own(self) -> None:
        served = self.held(close=Mock(return_value=5))
        self.asks(
            release=None,
            rehearse_release=lambda: self.see(replace(ROW, run="other", generation=9, holder="b")),
        )
        await self.rest()
        self.see(replace(ROW, wanted="c"), (OF_C,))
        await self.done(lambda: served.close.called and self.database.doing is Action.NOTHING)
        self.assertIn(self.database.let_go, (-1, 3))

    async def test_a_wish_for_another_that_came_meanwhile_is_not_taken_back(self) -> None:
        self.held()
        await self.rest()

        async def ask(call: Callable[..., object], *of: object) -> object:
            return call(*of)

        self.session.ask = ask
        self.see(replace(ROW, wanted="a"))
        await self.done(lambda: self.session.referee.wish.called)
        self.session.referee.wish.assert_called_once_with("shop", None, instead_of="a")


class Successions(Meanwhile):
    def successor(self) -> tuple[Succession, Mock]:
        succession = self.database.succession
        succession._successor = made = service(run="next")
        made.loader.return_value = Mock(__enter__=Mock(), __exit__=Mock(return_value=None))
        succession._referee, succession._stage = Mock(Referee, me="a"), Stage.READY
        succession._referee._ask.return_value = []  # what is rehearsed changes nothing
        return succession, made

    async def test_one_whose_archive_is_not_its_own_any_more_is_given_up(self) -> None:
        served, (succession, made) = self.held(), self.successor()
        archiver = Mock(turn=asyncio.Lock(), caught_up=AsyncMock(), is_over=True)
        self.database.work.archiver = archiver
        self.assertTrue(await succession.switch(archiver))
        self.assertEqual(
            (succession.stage, made.end.call_count, served.close.called), (Stage.FAILED, 1, False)
        )

    async def test_a_service_without_the_memory_for_its_fence_is_ended_in_place_of_it(self) -> None:
        for error, is_broken in ((OutOfMemory("no"), True), (Unreachable("no"), False)):
            self.setUp()
            served, (succession, made) = self.held(is_full=True, timeout=0.02), self.successor()
            archiver = Mock(turn=asyncio.Lock(), caught_up=AsyncMock(), is_over=False, lining=None)
            served.close.side_effect = error
            with patch("pagelog.keeper.succession.turn_of", Mock(return_value=AsyncMock())):
                self.assertTrue(await succession.switch(archiver))
            self.assertEqual(
                (succession.stage, served.health.is_broken, served.open.called),
                (Stage.FAILED, is_broken, not is_broken),
            )

    async def test_what_it_begins_has_the_whole_log_before_it(self) -> None:
        """And says so, or its writers would wait for who gave a turn back."""
        self.held(is_whole=False)
        succession, made = self.successor()
        made.is_whole = False
        made.begin_whole = lambda: Served.begin_whole(made)
        keeper = Mock(Keeper, _named=lambda name: {"shop": self.database}.get(name))
        archiver = Mock(turn=asyncio.Lock(), caught_up=AsyncMock(), is_over=False, lining=None)
        moved = Mock(return_value=(Mock(end=5, images=0, blocks=()), 0.0, ROW))

        async def goes_on(database: Database, successor: Mock, _: Row) -> None:
            self.assertEqual(
                [Keeper._is_whole(keeper, "shop"), Keeper._is_whole(keeper, "other")], [False] * 2
            )
            database.served = successor
            self.assertTrue(Keeper._is_whole(keeper, "shop"))

        with patch("pagelog.keeper.succession.turn_of", Mock(return_value=AsyncMock())):
            with patch.object(Succession, "_moved", moved), patch.object(
                Database, "goes_on", goes_on
            ):
                self.assertTrue(await succession.switch(archiver))
        self.assertIs(self.database.served, made)

    async def test_what_a_writer_says_of_memory_is_taken_of_what_is_held_alone(self) -> None:
        keeper = Mock(
            Keeper, _named=lambda name: {"shop": self.database}.get(name), _may=lambda *_: True
        )
        prepared = self.enterContext(patch.object(Succession, "prepare"))
        Keeper.full(keeper, Mock(), "shop", 3)  # nothing is held
        served = self.held()
        for name, generation in (("other", 3), ("shop", 2), ("shop", 4)):
            Keeper.full(keeper, Mock(), name, generation)
        self.assertIs(served.health.is_full, False)
        for _ in range(2):
            Keeper.full(keeper, Mock(), "shop", 3)
        await self.done(lambda: prepared.called)
        self.assertIn("prepare: its service had no memory for a writer", self.said)

    async def test_whatever_ends_it_the_others_have_their_turn(self) -> None:
        self.held()
        succession = self.database.succession
        with patch.object(
            Succession, "_made", new=AsyncMock(side_effect=RuntimeError("can't start new thread"))
        ):
            succession.prepare()
            await self.done(lambda: succession._task is None or succession._task.done())
        await self.rest()
        self.assertEqual(
            (succession.stage, self.shared.successions.locked()), (Stage.FAILED, False)
        )

    async def test_while_its_database_is_paused_the_others_have_their_turn(self) -> None:
        self.held()
        succession, made = self.successor()
        await self.shared.successions.acquire()
        succession._has_turn = True
        self.see(replace(ROW, paused=True))
        await self.done(lambda: not self.shared.successions.locked())
        self.assertEqual((succession.stage, made.end.call_count), (Stage.NONE, 1))

    async def test_one_that_fails_while_it_is_given_up_takes_nothing_from_the_next(self) -> None:
        self.held()
        succession, made = self.successor()
        ending, ended = asyncio.Event(), threading.Event()
        loop = asyncio.get_running_loop()
        made.end.side_effect = lambda: (loop.call_soon_threadsafe(ending.set), ended.wait(PATIENCE))

        async def fails(_: object) -> None:
            succession._successor = made
            raise Unreachable("no")

        with patch.object(Succession, "_made", new=AsyncMock(side_effect=fails)):
            succession.prepare()
            await ending.wait()
        await succession.give_up()

        async def goes_on(_: object) -> None:
            await asyncio.Event().wait()

        with patch.object(Succession, "_made", new=AsyncMock(side_effect=goes_on)):
            succession.prepare()
            await self.rest()
            task = succession._task
            ended.set()
            await self.done(
                lambda: not any(
                    "_prepare" in repr(each) and each is not task for each in asyncio.all_tasks()
                )
            )
            await self.rest()
            self.assertEqual(
                (succession.stage, self.shared.successions.locked(), succession._task),
                (Stage.MAKING, True, task),
            )


class Trails(Meanwhile):
    async def test_whatever_goes_wrong_with_lines_is_said_and_holds_up_no_block(self) -> None:
        trails = Mock(ttl=PATIENCE, while_few=PATIENCE, thread=ThreadPoolExecutor(1))
        recorder = Recorder(
            trails,
            service(lines_at_once=AsyncMock(return_value=None)),
            Of("one", "run"),
            self.shared.say,
        )
        recorder._say = lambda _, sentence: self.said.append(sentence)
        keeper = recorder._keeper = Mock()
        keeper.list.kept, keeper.step.side_effect = 0, IndexError("list index out of range")
        recorder._operator = Mock(audit=Mock(side_effect=RuntimeError("the connection is in use")))
        self.assertFalse(await recorder.catch_up())
        async with turn_of(recorder) as has_turn:
            self.assertIs(has_turn, recorder)
            self.assertIsNone(recorder.last_lines())
        self.assertEqual(
            [sentence.rpartition(": ")[2] for sentence in self.said],
            ["list index out of range", "the connection is in use"],
        )


class Sessions(unittest.IsolatedAsyncioTestCase):
    async def test_one_who_gives_up_leaves_the_connection_to_nobody_before_its_thread_has_done(
        self,
    ) -> None:
        began, ends = asyncio.Event(), threading.Event()
        loop, referee = asyncio.get_running_loop(), Mock(Referee, notified=[])
        session = Session(referee, PATIENCE)
        asking = asyncio.create_task(
            session.ask(lambda: (loop.call_soon_threadsafe(began.set), ends.wait(PATIENCE)))
        )
        await began.wait()
        asking.cancel()
        await asyncio.wait({asking})
        session._readable()
        self.assertFalse(referee.take_notified.called)
        ends.set()
        self.assertEqual(await session.ask(lambda: 7), 7)
        session._readable()
        self.assertTrue(referee.take_notified.called)

    async def test_one_that_hangs_once_it_has_connected_is_cut_too(self) -> None:
        is_cut, referee = threading.Event(), Mock(Referee, notified=[])
        referee.cut.side_effect = (
            lambda: referee.cut.call_count > 1 and is_cut.set()
        )  # at the first there is no connection yet
        session = Session(referee, 0.01)
        self.assertTrue(await session.ask(is_cut.wait, PATIENCE))

    async def test_one_that_fails_as_its_asker_gives_up_is_not_reported_as_never_retrieved(
        self,
    ) -> None:
        loop, reported = asyncio.get_running_loop(), list[str]()
        loop.set_exception_handler(lambda _, context: reported.append(context["message"]))
        session, work = Session(Mock(Referee, notified=[]), PATIENCE), loop.create_future()
        with patch.object(loop, "run_in_executor", return_value=work):
            asking = asyncio.create_task(session.ask(lambda: 7))
            await asyncio.sleep(0)
        work.set_exception(Away("PostgreSQL: the connection is lost"))
        asking.cancel()
        await asyncio.wait({asking})
        self.assertTrue(asking.cancelled())
        del asking, work
        gc.collect()
        self.assertEqual(reported, [])
        self.assertEqual(await session.ask(lambda: 7), 7)

    async def test_one_that_hangs_when_nobody_waits_for_it_any_more_is_cut(self) -> None:
        is_cut, referee = threading.Event(), Mock(Referee, notified=[])
        referee.cut.side_effect = lambda: referee.cut.call_count > 1 and is_cut.set()
        session = Session(referee, 0.01)
        asking = asyncio.create_task(session.ask(is_cut.wait, PATIENCE))
        await asyncio.sleep(0)
        asking.cancel()
        self.assertEqual(await session.ask(lambda: 7), 7)
        self.assertTrue(is_cut.is_set())


class Connections(unittest.TestCase):
    def test_a_server_that_stands_still_as_a_session_begins_is_cut(self) -> None:
        began, is_cut = threading.Event(), threading.Event()
        connection = Mock(closed=False)

        def hangs(_: str) -> None:
            began.set()
            if not is_cut.wait(PATIENCE):
                raise AssertionError("it was not cut")
            connection.closed = True
            raise psycopg.OperationalError("the connection is lost")

        connection.execute = hangs
        referee = Referee("postgresql://nobody@/none?host=/nowhere")
        with patch("psycopg.connect", return_value=connection), patch(
            "pagelog.referee.referee.shut_down", lambda of: of is connection and is_cut.set()
        ):
            raised: list[BaseException] = []

            def look() -> None:
                try:
                    referee.look()
                except Away as error:
                    raised.append(error)

            thread = threading.Thread(target=look)
            thread.start()
            began.wait(PATIENCE)
            referee.cut()
            thread.join(PATIENCE)
        self.assertEqual(len(raised), 1)


class Starts(unittest.TestCase):
    def test_a_service_has_a_process_once_it_can_be_asked(self) -> None:
        served = Served("shop", "mine", "", b"", timeout=PATIENCE)
        seen: list[object] = []
        with patch.object(
            served_module, "Reader", side_effect=lambda *_: seen.append(served.process)
        ):
            served.serve(Mock(address="127.0.0.1:1"))
        self.assertEqual(seen, [None])
        self.assertIsNotNone(served.process)


if __name__ == "__main__":
    unittest.main()
