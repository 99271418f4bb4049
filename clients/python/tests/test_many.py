"""A keeper of very many databases: its descriptors go beyond those that `select` takes; and errors that nobody expected."""

from __future__ import annotations

import asyncio
import os
import resource
import threading
import unittest
from concurrent.futures import ThreadPoolExecutor
from dataclasses import replace
from typing import Any, Callable, Iterator
from unittest.mock import patch

import psycopg
from psycopg.waiting import Ready, Wait

from keepers import Gate, Keeping, Kept, Tried, Trigger, batch_of, blocks, eventually
from pagelog.keeper import fast_calls
from pagelog.referee import hosts
from pagelog.referee import statements
from pagelog.keeper.doubts import Doubts
from pagelog.keeper.database import Database
from pagelog.keeper.quick import QuickReferee
from pagelog.keeper.fast_plane import FastPlane
from pagelog.keeper.fast_path import End, FastPath
from pagelog.referee.referee import Away, Doubt, Referee, digest
from pagelog.referee.rows import Kept as KeptRow, Row
from pagelog.keeper.run import Program
from pagelog.keeper.served import Served
from pagelog.keeper.session import Session
from postgres import Postgres
from service import IS_LONG, PATIENCE, PROGRAM, WIDE_TABLE
from test_fast_path import Client, Hot
from test_referee import Referees, new_database

DESCRIPTORS = 1100
"""So many are open in the keeper before it begins: more than 170 databases have."""
HOLDS = (
    f"import os, resource, runpy; hard = resource.getrlimit(resource.RLIMIT_NOFILE)[1]; "
    f"resource.setrlimit(resource.RLIMIT_NOFILE, (min(hard, {DESCRIPTORS + 3000}), hard)); "
    f"held = [os.open('/dev/null', os.O_RDONLY) for _ in range({DESCRIPTORS})]; runpy.run_module('pagelog', run_name='__main__')"
)
"""What a keeper of that many is, to Python."""


class ManyDescriptors(Kept):
    keepers = ""

    def setUp(self) -> None:
        self.server = Postgres()
        self.addCleanup(self.server.stop)
        self.options = {"url": self.server.url("many"), "ttl": 3.0}
        referee = Referee(str(self.options["url"]))
        referee.prepare()
        referee.close()
        super().setUp()
        self.keeping.keeper = ("-c", HOLDS)
        self.keeping.start("a", "b")

    def test_its_databases_commit_also_once_postgresql_was_started_again_and_in_the_next_generation(
        self,
    ) -> None:
        with self.keeping.primary() as primary:
            self.commit(primary, "1", durable=True)
            self.server.crash()
            self.server.start()
            self.keeping.referee.close()
            self.commit(primary, "2", durable=True)
            generation = self.keeping.place().generation
            self.keeping.word("rollover", "shop")
            eventually(
                lambda: self.keeping.place(least=generation).generation > generation,
                "the next generation",
            )
            for text in "3456":  # of which the last ones take the fast path, if there is one
                self.commit(primary, text, durable=True)
        self.assertEqual(self.texts(), [b"1", b"2", b"3", b"4", b"5", b"6"])
        for wrong in ("fault of the keeper", "ValueError", "Traceback"):
            self.assertNotIn(wrong, self.keeping.said())


def odd_after_sending(steps: Any, fileno: int, timeout: float | None = None) -> Any:
    """A wait that ends by an error of which nobody thinks, with a statement on its way."""
    next(steps)
    raise ValueError("filedescriptor out of range")


def once_odd(wait: Callable[..., Any]) -> Callable[..., Any]:
    """The first wait is odd, and no other."""
    waits = iter((odd_after_sending,))
    return lambda *arguments, **options: next(waits, wait)(*arguments, **options)


class Unexpected(Referees):
    """An error that is none of PostgreSQL's ends the connection: the next statement has another."""

    def odd(self) -> Any:
        return patch("psycopg.waiting.wait", odd_after_sending)

    def test_the_statement_is_in_doubt_and_the_next_one_has_another_connection(self) -> None:
        kept = self.taken()
        batch = batch_of(self.row, kept, "r1")
        self.assertEqual(self.referee.keep(()), frozenset())
        with self.odd(), self.assertRaisesRegex(
            Doubt, "PostgreSQL: ValueError: filedescriptor out of range"
        ):
            self.referee.keep([batch])
        found = self.referee.kept(self.row.id, "r1")
        assert found is not None
        self.assertIn(found.archived, (0, batch.new))
        if found.archived == 0 and self.referee.keep([batch]) != {self.row.id}:
            found = self.referee.kept(self.row.id, "r1")  # what was sent has come after the look
            assert found is not None
            self.assertEqual(found.archived, batch.new)

    def test_a_connection_that_cannot_be_made_is_none(self) -> None:
        self.referee.close()
        with self.odd(), self.assertRaisesRegex(
            Away, "PostgreSQL: ValueError: filedescriptor out of range"
        ):
            self.referee.kept(self.row.id, "r1")
        self.assertIsNone(self.referee.descriptor)
        self.taken()

    def test_a_doubt_is_looked_up_again_where_the_answer_was_met_by_an_error(self) -> None:
        kept, said = self.taken(), list[str]()
        batch = batch_of(self.row, kept, "r1")
        self.referee.keep([batch])

        async def look_up() -> int:
            doubts = Doubts(Session(Referee(self.url, "one", "life of one"), PATIENCE), said.append)
            with patch("psycopg.waiting.wait", once_odd(psycopg.waiting.wait)):
                return (
                    await asyncio.wait_for(doubts.look_up(self.row.id, "r1"), PATIENCE)
                ).archived

        self.assertEqual(asyncio.run(look_up()), batch.new)
        self.assertEqual(
            said, ["nothing is archived: PostgreSQL: ValueError: filedescriptor out of range"]
        )

    def test_the_fast_path_is_to_be_had_again(self) -> None:
        said: list[str] = []

        async def connect() -> bool:
            plane = FastPlane(
                lambda: QuickReferee(self.url, "one", "life of one"),
                idle=0.0,
                deadline=PATIENCE,
                say=said.append,
            )
            [session, *_] = plane.sessions
            try:
                with patch("pagelog.keeper.quick.Prepared", side_effect=ValueError("odd")):
                    for _ in range(2):
                        plane.warm()
                        while session.is_connecting:
                            await asyncio.sleep(0.001)
                        self.assertIsNone(session.referee.descriptor)
                plane.idle = PATIENCE
                plane.warm()
                while session.is_connecting:
                    await asyncio.sleep(0.001)
                return session.is_lent
            finally:
                await plane.close()

        self.assertTrue(asyncio.run(connect()))
        self.assertEqual(said, ["PostgreSQL: ValueError: odd"] * 2)


class Together(Hot):
    """More databases than one: what of them is due goes into one statement, each batch under its own condition."""

    COUNT = 12

    async def asyncSetUp(self) -> None:
        await super().asyncSetUp()
        self.others: list[Other] = []
        for number in range(1, self.COUNT):
            row = new_database(self.referee, f"d{number}")
            kept = self.referee.take(row, f"r{number}")
            assert kept is not None
            other = Other(
                self,
                replace(
                    row, address="there", run=f"r{number}", generation=kept.generation, holder="one"
                ),
            )
            self.others.append(other)
            self.addCleanup(other.served.end)

    async def all_hot(self) -> tuple[Client, list[Client]]:
        """A client of each, whose line the fast path has."""
        clients = [self.client() for _ in self.others]
        for other, client in zip(self.others, clients):
            while not other.is_hot:
                self.session.not_before = 0.0
                position = other.write()
                self.assertEqual(await client.ask(other.durable(position)), other.durable(position))
                await asyncio.sleep(0.001)
        return await self.hot(), clients

    async def behind(self, first: Client, clients: list[Client], most: int = 3) -> Gate:
        """One has a statement at a gate, and all others wait for the next one, with so many blocks at most."""
        gate = Gate(self.url, "NEW.name = 'shop'")
        first.send(self.durable(self.write()))
        await asyncio.to_thread(gate.somebody_waits)
        for other, client in zip(self.others, clients):
            client.send(other.durable(other.write(1 + len(other.written) % most)))
        await self.until(lambda: self.plane.due == len(self.others), "their pulls")
        return gate

    async def answered(self, first: Client, clients: list[Client]) -> None:
        self.assertEqual(await first.answer(), self.durable(len(self.written)))
        for other, client in zip(self.others, clients):
            self.assertEqual(await client.answer(), other.durable(len(other.written)))


class InOneStatement(Together):
    goes_through_line = True

    async def test_all_that_is_due_is_one_statement_and_one_that_is_fenced_fails_alone(
        self,
    ) -> None:
        await self.one_is_fenced(most=3)

    async def test_all_that_is_due_is_one_statement_also_of_one_block_each(self) -> None:
        await self.one_is_fenced(most=1)

    async def one_is_fenced(self, most: int) -> None:
        first, clients = await self.all_hot()
        threads, sessions = threading.active_count(), self.sessions()
        tried = Tried(self.url, "pagelog keeper one")
        self.addCleanup(tried.close)
        gate = await self.behind(first, clients, most)
        fenced, lost = self.others[4], clients[4]
        self.execute("UPDATE pagelog_log SET generation = 9 WHERE name = %s", fenced.row.name)
        await asyncio.to_thread(gate.open)
        self.assertEqual(await first.answer(), self.durable(len(self.written)))
        for other, client in zip(self.others, clients):
            if other is not fenced:
                self.assertEqual(await client.answer(), other.durable(len(other.written)))
        self.assertLess(
            tried.count(), len(self.others) // 2
        )  # two, and what looks up the one that is fenced
        await self.until(lambda: self.ends == [End.NOT_KEPT], "the end of the one that is fenced")
        self.assertFalse(lost.has_answer())
        self.execute("UPDATE pagelog_log SET generation = 1 WHERE name = %s", fenced.row.name)
        self.assertEqual(await lost.answer(), fenced.durable(len(fenced.written)))
        self.assertLessEqual(threading.active_count(), threads + 1)
        self.assertLessEqual(self.sessions(), sessions)
        for other in self.others:
            other.assert_whole()
        self.assert_whole()

    def sessions(self) -> int:
        with psycopg.connect(self.url) as connection:
            found = connection.execute(
                "SELECT count(*) FROM pg_stat_activity WHERE application_name = 'pagelog keeper one'"
            ).fetchone()
        return int(found[0]) if found else 0

    async def test_one_that_is_refused_is_refused_alone_the_next_time(self) -> None:
        first, clients = await self.all_hot()
        refused, lost = self.others[4], clients[4]
        trigger = Trigger(
            self.url,
            "pagelog_block",
            f"INSERT ON pagelog_block FOR EACH ROW WHEN (NEW.log = {refused.row.id})",
            "RAISE EXCEPTION 'no room'",
        )
        gate = await self.behind(first, clients)
        await asyncio.to_thread(gate.open)
        self.assertEqual(await first.answer(), self.durable(len(self.written)))
        for other, client in zip(self.others, clients):
            if other is not refused:
                self.assertEqual(await client.answer(), other.durable(len(other.written)))
        self.assertFalse(lost.has_answer())
        trigger.close()
        self.assertEqual(await lost.answer(), refused.durable(len(refused.written)))
        for other in self.others:
            other.assert_whole()

    async def test_a_statement_that_is_cut_puts_all_that_is_in_it_in_doubt_and_nothing_else(
        self,
    ) -> None:
        first, clients = await self.all_hot()
        self.line.count_from_now(1 << 40, 1 << 40)
        await self.commit_quickly(first)
        back = (1 << 40) - self.line.left["back"]
        early, look_up = list[bool](), Doubts.look_up

        async def seen(doubts: Doubts, log: int, run: str) -> KeptRow:
            self.line.count_from_now()
            kept = await look_up(doubts, log, run)
            early.extend(
                client.has_answer()
                for other, client in zip(self.others, clients)
                if other.row.id == log
            )
            return kept

        self.enterContext(patch.object(Doubts, "look_up", seen))
        # Before that of many is whole, behind its commit, and in the answer of the one before: then those that are due have another.
        for cut, count in (
            ({"to": 500}, len(self.others)),
            ({"back": back + 8}, len(self.others)),
            ({"back": back - 8}, 1),
        ):
            gate = await self.behind(first, clients)
            self.ends.clear()
            self.line.count_from_now(**cut)
            await asyncio.to_thread(gate.open)
            await self.answered(first, clients)
            self.assertEqual(self.ends, [End.DOUBT] * count)
            self.assertLessEqual(set(early), {False})
            self.line.count_from_now()
            for other, client in zip(self.others, clients):
                await other.hot(client)
            await self.hot(first)
        for other in self.others:
            other.assert_whole()
        self.assert_whole()


class Each(Referees):
    def test_batches_of_one_block_each_are_kept_each_under_its_own_fence(self) -> None:
        rows = [new_database(self.referee, f"each{number}") for number in range(5)]
        taken = [self.referee.take(row, "r") for row in rows]
        self.assertNotIn(None, taken)
        data = blocks(1, len(rows), b"a block ")
        starts = [1 + sum(map(len, data[:at])) for at in range(len(data))]
        generations = [each.generation for each in taken if each is not None]
        runs, olds = ["r"] * len(rows), [0] * len(rows)
        runs[0], olds[1], generations[3] = "another", 4, generations[3] + 1
        found = self.referee._ask(
            statements.KEEP_EACH,
            {
                "chains": b"".join(b"%016d" % number for number in range(len(rows))),
                "logs": [row.id for row in rows],
                "runs": runs,
                "generations": generations,
                "olds": olds,
                "news": [old + 1 for old in olds],
                "crcs": list(range(len(rows))),
                "starts": starts,
                "lengths": list(map(len, data)),
                "bytes": b"".join(data),
            },
        )
        self.assertEqual(sorted(found), [(rows[2].id, 3), (rows[4].id, 5)])
        kept = self.referee._ask(
            "SELECT l.id, l.archived, l.chain, b.lsn, b.crc, b.data FROM pagelog_log l LEFT JOIN pagelog_block b ON b.log = l.id "
            "WHERE l.id = ANY(%s) ORDER BY l.id",
            ([row.id for row in rows],),
        )
        self.assertEqual(
            [tuple(each) for each in kept],
            [
                (row.id, 1, b"%016d" % at, 1, at, data[at])
                if at in (2, 4)
                else (row.id, 0, b"", None, None, None)
                for at, row in enumerate(rows)
            ],
        )


class Locked(Together):
    COUNT = 3

    async def test_a_row_that_is_locked_holds_up_no_other_database_but_once(self) -> None:
        """It is in one statement with the others, which all are in doubt then; after that they go on without it."""
        first, clients = await self.all_hot()
        with psycopg.connect(self.url) as session:
            session.execute("SELECT 1 FROM pagelog_log WHERE name = 'shop' FOR UPDATE")
            first.send(self.durable(self.write()))
            for _ in range(3):
                for other, client in zip(self.others, clients):
                    position = other.write()
                    self.assertEqual(
                        await client.ask(other.durable(position)), other.durable(position)
                    )
            self.assertFalse(first.has_answer())
        self.assertEqual(await first.answer(), self.durable(len(self.written)))
        self.assert_whole()

    async def test_statements_that_take_long_hold_up_no_batch_that_comes_alone(self) -> None:
        first, clients = await self.all_hot()
        with psycopg.connect(self.url) as session:
            session.execute("SELECT 1 FROM pagelog_log WHERE name <> 'shop' FOR UPDATE")
            for count, (other, client) in enumerate(zip(self.others, clients), 1):
                client.send(other.durable(other.write()))
                await self.until(lambda: self.waiting() == count, "its statement")  # noqa: B023
            for _ in range(3):
                await self.commit_quickly(first)
            self.assertEqual(self.ends, [])  # nor did these take so long that they are in doubt
            self.assertEqual([client.has_answer() for client in clients], [False, False])
        for other, client in zip(self.others, clients):
            self.assertEqual(await client.answer(), other.durable(len(other.written)))

    def waiting(self) -> int:
        """How many statements of the keeper wait for a lock."""
        with psycopg.connect(self.url) as connection:
            found = connection.execute(
                "SELECT count(*) FROM pg_stat_activity WHERE application_name = 'pagelog keeper one' AND wait_event_type = 'Lock'"
            ).fetchone()
        return int(found[0]) if found else 0


class Other:
    """One more database of a `Hot`, with a service of its own."""

    def __init__(self, hot: Hot, row: Row) -> None:
        self.test, self.row, self.written = hot, row, list[bytes]()
        self.served = Served(row.name, row.run or "", WIDE_TABLE, b"s" * 16, timeout=PATIENCE)
        self.served.start(Program(PROGRAM, "127.0.0.1", hot.folder, 1_000_000))
        self.served.hold(row.generation)
        self.served.open()
        self.database = Database(hot.shared, row)
        self.database.served = self.served
        hot.keeper.databases[row.identity] = hot.keeper._by_name[row.name] = self.database
        self.database.work.begin(row, self.served)
        self.loader = hot.enterContext(self.served.loader())

    @property
    def way(self) -> FastPath | None:
        return None if self.database.work.archiver is None else self.database.work.archiver._way

    @property
    def is_hot(self) -> bool:
        return self.way is not None and bool(self.way._lent)

    async def hot(self, client: Client) -> None:
        while not self.is_hot:
            self.test.session.not_before = 0.0
            position = self.write()
            self.test.assertEqual(await client.ask(self.durable(position)), self.durable(position))
            await asyncio.sleep(0.001)

    def write(self, count: int = 1) -> int:
        first = len(self.written) + 1
        made = list(blocks(first, count))
        self.loader.load(first, [made])
        self.written += made
        return len(self.written)

    def durable(self, position: int) -> str:
        return f"durable {self.row.name} {self.served.generation} {position}"

    def assert_whole(self) -> None:
        found = [
            block
            for piece in self.test.referee.blocks(self.row.id, 1, len(self.written))
            for block in piece
        ]
        self.test.assertEqual(found, self.written)
        [row] = [row for row in self.test.referee.everything().rows if row.id == self.row.id]
        self.test.assertEqual((row.archived, row.chain), (len(found), digest(b"", found)))


class Waits(unittest.TestCase):
    def test_psycopg_waits_for_no_descriptor_by_select(self) -> None:
        self.assertIsNot(psycopg.waiting.wait, psycopg.waiting.wait_select)

    def test_a_wait_is_told_what_is_ready_and_tries_again_where_its_time_is_over(self) -> None:
        left, right = os.pipe()
        self.addCleanup(os.close, left)
        self.addCleanup(os.close, right)
        told: list[int] = []

        def steps() -> Iterator[int]:
            told.append((yield Wait.W))  # a pipe that nobody writes to can take something
            os.write(right, b"x")
            told.append((yield Wait.RW))
            return 2

        def read() -> Iterator[int]:
            told.append((yield Wait.R))
            return 3

        writes: Callable[[], Any] = steps
        reads: Callable[[], Any] = read
        with ThreadPoolExecutor(1) as thread:
            waits = thread.submit(hosts.wait_by_poll, reads(), left, 0.001)
            self.assertEqual(hosts.wait_by_poll(writes(), right), 2)
            self.assertEqual(waits.result(PATIENCE), 3)
        self.assertEqual(sorted(told), [Ready.R, Ready.W, Ready.W])


@unittest.skipUnless(IS_LONG, "PAGELOG_TEST_LONG is not set")
class FourHundred(Kept):
    """So many services and writers: about half a minute."""

    keepers = ""
    COUNT = 400

    def test_all_commit_and_again_once_postgresql_was_started_again(self) -> None:
        hard = resource.getrlimit(resource.RLIMIT_NOFILE)[1]
        resource.setrlimit(resource.RLIMIT_NOFILE, (hard, hard))
        server = Postgres()
        self.addCleanup(server.stop)
        url = server.url("many")
        referee = Referee(url)
        referee.prepare()
        keeping = self.enterContext(Keeping(url=url, ttl=10.0, standby=False))
        names = [f"d{number}" for number in range(self.COUNT)]
        for name in names:
            self.assertTrue(referee.create(name, keeping.table.read_text(), b"s" * 16))
        referee.close()
        keeping.start("a")
        with ThreadPoolExecutor(32) as threads:
            primaries = list(threads.map(keeping.primary, names))
            for text in ("1", "2"):
                self.assertEqual(
                    set(threads.map(lambda each: self.commit(each, text, durable=True), primaries)),
                    {int(text)},
                )
                if text == "1":
                    server.crash()
                    server.start()
                    keeping.referee.close()
            for each in primaries:
                each.close()
        self.assertNotIn("fault of the keeper", keeping.said())


if __name__ == "__main__":
    unittest.main()
