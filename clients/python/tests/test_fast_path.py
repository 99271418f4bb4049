"""The fast path of a hot database: a thread in C pulls, has PostgreSQL keep, and tells. A real service, PostgreSQL and lines, in one loop."""

from __future__ import annotations

import asyncio
import gc
import os
import random
import resource
import select
import signal
import socket
import subprocess
import tempfile
import threading
import time
import unittest
import zlib
from contextlib import suppress
from dataclasses import replace
from pathlib import Path
from typing import Any, Callable, Iterator
from unittest.mock import Mock, patch

import psycopg

from keepers import Gate, Kept as KeptService, Line, Trigger, blocks, eventually
from pagelog import Block, Put
from pagelog.keeper import fast_calls, fast_plane
from pagelog.referee import statements
from pagelog.keeper.archiver import RunArchiver
from pagelog.keeper.doubts import Doubts
from pagelog.keeper.database import Database
from pagelog.keeper.keeping import Keeper
from pagelog.keeper.loading import Loader
from pagelog.keeper.quick import QuickReferee
from pagelog.keeper.fast_plane import FastPlane, QuickSessionOf
from pagelog.keeper.fast_path import End, FastPath
from pagelog.referee.referee import KeeperError, digest
from pagelog.referee.rows import Kept
from pagelog.keeper.run import Program, Run
from pagelog.keeper.served import Served
from pagelog.keeper.settings import Settings
from pagelog.place import UnknownName
from pagelog.repeating import Backoff
from pagelog.reply import Entry
from pagelog.request import PULL_MAX, Operation, Status
from pagelog.trail import Trail
from pagelog.trail.keeper import DAY, now
from pagelog.trail.question import entries_of
from service import PATIENCE, PROGRAM, SOURCE, WIDE_TABLE, stand_still
from test_referee import Referees

READY = b"Z\0\0\0\5I"
"""What PostgreSQL says last."""


def memory_now() -> int:
    """The address space of this process, in bytes."""
    return int(Path("/proc/self/statm").read_text().split()[0]) * resource.getpagesize()


class Client:
    """A line to the keeper."""

    def __init__(self, lines: str) -> None:
        host, _, port = lines.rpartition(":")
        self.socket = socket.create_connection((host, int(port)), PATIENCE)
        self.socket.setsockopt(socket.IPPROTO_TCP, socket.TCP_NODELAY, 1)
        self.socket.setblocking(False)
        self._left = self._out = b""

    def send(self, *lines: object) -> None:
        self.raw("".join(f"{line}\n" for line in lines).encode())

    def raw(self, data: bytes) -> None:
        self.socket.sendall(data)

    def flood(self, line: str) -> None:
        """Has something to say at any time from now on: of so many lines some are always left to be read."""
        self.socket.setsockopt(socket.SOL_SOCKET, socket.SO_SNDBUF, 1 << 15)
        with suppress(BlockingIOError):
            for _ in range(100):
                self._out = self._out or f"{line}\n".encode() * 100
                self._out = self._out[self.socket.send(self._out) :]

    async def answer(self) -> str:
        """The next line; an empty one where the keeper has ended it."""
        while b"\n" not in self._left:
            data = await asyncio.wait_for(
                asyncio.get_running_loop().sock_recv(self.socket, 4096), PATIENCE
            )
            if not data:
                return ""
            self._left += data
        line, _, self._left = self._left.partition(b"\n")
        return line.decode()

    async def ask(self, line: object) -> str:
        self.send(line)
        return await self.answer()

    def has_answer(self) -> bool:
        with suppress(BlockingIOError):
            self._left += self.socket.recv(4096)
        return b"\n" in self._left


class Hot(Referees, unittest.IsolatedAsyncioTestCase):
    """A database that a keeper holds, with its service and its lines, and all that the keeper does but looks."""

    section: dict[str, Any] = {}
    goes_through_line = stalls = False

    async def asyncSetUp(self) -> None:
        asyncio.get_running_loop().slow_callback_duration = PATIENCE
        asyncio.get_running_loop().set_debug(False)
        self.folder = Path(self.enterContext(tempfile.TemporaryDirectory()))
        self.enterContext(patch("pagelog.keeper.keeping.KeeperFolder"))
        section = {"standby": False, "ttl": PATIENCE, **self.section}
        self.keeper = Keeper(
            Settings.of("one", "127.0.0.1:0", "127.0.0.1", self.folder, PROGRAM, self.url, section)
        )
        self.shared = self.keeper._shared
        if self.goes_through_line:
            self.line = Line(stalls=self.stalls)
            self.addCleanup(self.line.close)
            self.shared.ways = FastPlane(
                lambda: QuickReferee(self.line.url(self.url), "one", "life of one"),
                idle=PATIENCE,
                deadline=PATIENCE,
                most=1,
            )
        kept = self.taken()
        self.served = Served("shop", "r1", WIDE_TABLE, b"s" * 16, timeout=PATIENCE)
        self.served.start(Program(PROGRAM, "127.0.0.1", self.folder, 1_000_000))
        assert self.served.process is not None
        self.pid = self.served.process.facts.pid
        self.served.hold(kept.generation)
        self.served.open()
        self.database = Database(self.shared, replace(self.seen(), address="there"))
        self.database.served = self.served
        self.keeper.databases[self.row.id] = self.keeper._by_name[self.row.name] = self.database
        self.keeper.lines = await self.keeper._server.start("127.0.0.1:0")
        self.ends: list[End] = []
        self.enterContext(patch.object(FastPath, "run", self._noted(FastPath.run)))
        self.written: list[bytes] = []
        self.clients: list[Client] = []
        self.loader: Loader | None = None
        self.begin()
        self.addAsyncCleanup(self.end)

    def begin(self) -> None:
        self.database.work.begin(self.database.row, self.served)

    def _noted(self, run: Callable[[FastPath], Any]) -> Callable[[FastPath], Any]:
        async def noted(way: FastPath) -> End:
            end: End = await run(way)
            self.ends.append(end)
            return end

        return noted

    async def end(self) -> None:
        for client in self.clients:
            client.socket.close()
        process = self.served.process
        await asyncio.wait_for(self.keeper._stop(), PATIENCE)
        if process is not None:
            process.end()
        else:  # it was quarantined, and is nobody's
            os.kill(self.pid, signal.SIGKILL)

    @property
    def archiver(self) -> RunArchiver:
        assert self.database.work.archiver is not None
        return self.database.work.archiver

    @property
    def way(self) -> FastPath:
        assert self.archiver._way is not None
        return self.archiver._way

    @property
    def plane(self) -> FastPlane:
        return self.shared.ways

    @property
    def session(self) -> QuickSessionOf:
        """The first of those that there are, which a single database has."""
        return self.plane.sessions[0]

    @property
    def is_hot(self) -> bool:
        return self.archiver.is_quick

    def client(self) -> Client:
        self.clients.append(Client(self.keeper.lines))
        return self.clients[-1]

    async def until(self, condition: Callable[[], object], what: str = "") -> None:
        deadline = time.monotonic() + PATIENCE
        while not condition():
            self.assertLess(time.monotonic(), deadline, f"it did not come: {what}")
            await asyncio.sleep(0.002)

    def write(self, count: int = 1, what: bytes = b"x", made: list[bytes] | None = None) -> int:
        """Writes blocks to the service, and returns the position of the last one."""
        first = len(self.written) + 1
        made = list(blocks(first, count, what)) if made is None else made
        lsn = first - self.served.shift
        if self.loader is None:
            self.loader = self.enterContext(self.served.loader())
        self.loader.load(
            lsn, [[(lsn + at).to_bytes(8, "big") + block[8:] for at, block in enumerate(made)]]
        )
        self.written += made
        return len(self.written)

    def durable(self, position: int) -> str:
        return f"durable shop {self.served.generation} {position}"

    async def commit(self, client: Client, count: int = 1) -> int:
        position = self.write(count)
        self.assertEqual(await client.ask(self.durable(position)), self.durable(position))
        return position

    async def hot(self, client: Client | None = None) -> Client:
        """Commits until the fast path has the database, and the line of this client."""
        client = client or self.client()
        while not self.is_hot or not self.way._lent:
            self.session.not_before = 0.0  # after a doubt it connects again at once
            await self.commit(client)
            await asyncio.sleep(0.001)
        await self.until(lambda: self.archiver._done >= self.archiver._rings, "the last pull")
        return client

    async def relayed(self, noted: Callable[[bytes], object]) -> None:
        """From now on what the fast path asks its service is noted before it gets there; nothing is answered where that is False."""
        pulling_line = Served.pulling_line

        def relay(ours: socket.socket, real: socket.socket) -> None:
            with ours, real, suppress(OSError):
                while True:
                    for side in select.select([ours, real], [], [])[0]:
                        data = side.recv(1 << 16)
                        if not data or (side is ours and noted(data) is False):
                            return
                        (real if side is ours else ours).sendall(data)

        async def line(served: Served) -> tuple[int, bytes, bytes]:
            descriptor, *asks = await pulling_line(served)
            ours, theirs = socket.socketpair()
            real = socket.socket(fileno=descriptor)
            real.setblocking(True)
            theirs.setblocking(False)
            threading.Thread(target=relay, args=(ours, real), daemon=True).start()
            return theirs.detach(), *asks  # type: ignore[return-value]

        with patch.object(Served, "pulling_line", line):
            await self.next_one()

    async def next_one(self) -> None:
        """Its way ends, and another begins."""
        self.ends.clear()
        self.archiver.leave_way()
        await self.until(lambda: self.ends, "its end")
        await self.until(lambda: self.is_hot or len(self.ends) > 1, "the next one")
        del self.ends[0]

    async def commit_quickly(self, client: Client, count: int = 1) -> int:
        """A commit, by the way that there is."""
        position = await self.commit(client, count)
        self.assert_quick(position)
        return position

    def assert_quick(self, position: int) -> None:
        self.assertEqual(self.way.reached[0], position)

    def assert_whole(self) -> None:
        """The archive has the blocks of the service, under its digest, and no other."""
        with psycopg.connect(self.url) as connection:
            [(archived, chain)] = connection.execute(
                "SELECT archived, chain FROM pagelog_log WHERE id = %s", (self.row.id,)
            ).fetchall()
            rows = connection.execute(
                "SELECT lsn, data FROM pagelog_block WHERE log = %s ORDER BY lsn", (self.row.id,)
            ).fetchall()
        self.assertEqual([lsn for lsn, _ in rows], list(range(1, archived + 1)))
        self.assertEqual([bytes(data) for _, data in rows], self.written[:archived])
        self.assertEqual(bytes(chain), digest(b"", self.written[:archived]))
        self.assertEqual(
            [block for piece in self.referee.blocks(self.row.id, 1, archived) for block in piece],
            self.written[:archived],
        )

    def archived(self) -> int:
        with psycopg.connect(self.url) as connection:
            return int(connection.execute("SELECT archived FROM pagelog_log WHERE id = %s", (self.row.id,)).fetchone()[0])  # type: ignore[index]

    def execute(self, statement: str, *values: object) -> None:
        with psycopg.connect(self.url, autocommit=True) as connection:
            connection.execute(statement, values or None)

    def keep_block(self, lsn: int, block: bytes) -> None:
        """As somebody else would."""
        self.execute(
            "INSERT INTO pagelog_block (log, lsn, crc, data) VALUES (%s, %s, %s, %s)",
            self.row.id,
            lsn,
            zlib.crc32(block),
            block,
        )


class Tells(Hot):
    async def test_it_is_told_once_the_archive_has_it_and_not_before(self) -> None:
        client = await self.hot()
        for count in (1, 3):
            gate = Gate(self.url, "true")
            try:
                position = self.write(count)
                client.send(self.durable(position))
                await asyncio.to_thread(gate.somebody_waits)
                await asyncio.sleep(0.05)
                self.assertFalse(client.has_answer())
            finally:
                await asyncio.to_thread(gate.open)
            self.assertEqual(await client.answer(), self.durable(position))
            self.assert_quick(position)
            self.assertEqual(self.archived(), position)
        self.assertEqual(self.ends, [])
        self.assert_whole()

    async def test_how_far_it_has_acknowledged_is_known_to_the_next_life_of_the_keeper(
        self,
    ) -> None:
        client = await self.hot()
        for _ in range(3):
            position = await self.commit_quickly(client)
            adopted = Run.adopt(self.folder, "shop", "r1")
            assert adopted is not None
            self.assertEqual(adopted.seen.archived, position)
            adopted.leave()

    async def test_any_count_and_size_of_blocks_is_kept_as_the_service_has_it(self) -> None:
        client, chance = await self.hot(), random.Random(1)
        for count in (1, 2, PULL_MAX - 1, PULL_MAX, PULL_MAX + 1, 80, 81, 300, 1024, 1025, 3000):
            await self.commit_quickly(client, count)
        for count in (1, 9, 20):  # of 32 KiB, or nearly so: a batch ends with its bytes
            first = len(self.written) + 1
            made = [
                Block.of(
                    first + at, [Put(page, 0, chance.randbytes(8140)) for page in range(4)]
                ).data
                for at in range(count)
            ]
            self.assertGreater(len(made[0]), 32_500)
            position = self.write(made=made)
            self.assertEqual(await client.ask(self.durable(position)), self.durable(position))
            self.assert_quick(position)
        self.assertEqual(self.ends, [])
        self.assert_whole()

    async def test_what_is_behind_is_archived_though_nobody_waits(self) -> None:
        await self.hot()
        for ends in (True, False):
            if ends:
                await self.next_one()
            position = self.write(5000)
            self.archiver.ring()  # as a look does that finds them
            await self.until(
                lambda: self.is_hot and self.way.reached[0] == position, "what is behind"
            )
            self.assertEqual(self.archived(), position)
        self.assert_whole()

    async def test_who_asks_for_what_is_archived_already_is_told_at_once(self) -> None:
        client, other = await self.hot(), self.client()
        position = await self.commit_quickly(client)
        self.assertEqual(await client.ask(self.durable(1)), self.durable(position))
        self.assertEqual(
            await other.ask(self.durable(position)), self.durable(position)
        )  # of which the keeper's path knows nothing
        self.assertEqual(await other.ask(self.durable(position - 1)), self.durable(position))
        self.assertEqual((self.ends, len(self.way._lent)), ([], 2))
        await self.commit_quickly(other)

    async def test_many_clients_are_told_of_one_batch(self) -> None:
        first = await self.hot()
        clients = [first, *(self.client() for _ in range(20))]
        for _ in range(3):
            position = self.write(3)
            for at, client in enumerate(clients):
                client.send(self.durable(position - at % 3))
            for at, client in enumerate(clients):
                _, _, _, told = (await client.answer()).split()
                self.assertGreaterEqual(int(told), position - at % 3)
        self.assertEqual(self.ends, [])
        self.assertEqual(len(self.way._lent), len(clients))
        self.assert_whole()

    async def test_a_ring_alone_archives_and_one_before_costs_nothing(self) -> None:
        client = await self.hot()
        position = self.write()
        client.send(f"ring shop {self.served.generation}")
        await self.until(lambda: self.way.reached[0] == position, "what was rung for")
        self.assertEqual(await client.ask(self.durable(position)), self.durable(position))
        client.send(
            f"ring shop {self.served.generation}", f"ring shop {self.served.generation}"
        )  # there is nothing
        await self.commit_quickly(client)
        client.send(f"ring shop {self.served.generation}", self.durable(position := self.write()))
        self.assertEqual(await client.answer(), self.durable(position))
        self.assertEqual(self.ends, [])
        self.assertEqual(client.has_answer(), False)

    async def test_a_ring_of_the_keepers_path_archives_too(self) -> None:
        client = self.client()
        position = self.write()
        client.send(f"ring shop {self.served.generation}")
        await self.until(lambda: self.served.reached == position, "what was rung for")
        client.send("ring shop 77", "ring ship 1")  # not held here
        self.assertEqual(await client.ask(self.durable(position)), self.durable(position))

    async def test_what_is_not_there_is_said_and_ends_nothing(self) -> None:
        client, other = await self.hot(), self.client()
        self.assertTrue((await other.ask("hello 2")).startswith("hello 2 nonce="))
        position = await self.commit_quickly(client)
        above = f"above shop {self.served.generation} {position}"
        self.assertEqual(await client.ask(self.durable(position + 1)), above)
        of = f" of={self.database.row.identity}/r1"
        self.assertEqual(await other.ask(self.durable(position + 1) + of), above + of)
        await self.commit_quickly(client)
        self.assertEqual(self.ends, [])

    async def test_who_asks_for_what_is_there_only_after_a_pull_began_is_told_of_the_next(
        self,
    ) -> None:
        """It is not told that it is above what a pull has found that began before it asked."""
        client, other = await self.hot(), self.client()
        position = await self.commit(other)
        for _ in range(200):
            client.send(
                self.durable(position + 1)
            )  # above, or not any more: as the writer is in time
            position = self.write()
            other.send(self.durable(position))
            self.assertEqual(await other.answer(), self.durable(position))
            self.assertIn(
                await client.answer(),
                (f"above shop {self.served.generation} {position - 1}", self.durable(position)),
            )
        self.assertEqual(self.ends, [])
        self.assert_whole()

    async def test_a_position_that_is_no_number_of_64_bits_is_above_too(self) -> None:
        client = await self.hot()
        for position in (1 << 63, 1 << 64, (1 << 64) + 1, 10**30):
            self.assertEqual(
                await client.ask(self.durable(position)),
                f"above shop {self.served.generation} {len(self.written)}",
            )
            await self.hot(client)

    async def test_the_keeper_knows_how_far_it_is(self) -> None:
        client = await self.hot()
        position = await self.commit_quickly(client)
        self.assertEqual(self.keeper.where("shop")[5], position)
        self.assertEqual(
            (self.served.reached, self.served.chain), (position, digest(b"", self.written))
        )
        position = self.write()
        self.assertTrue(await asyncio.wait_for(self.archiver.reached(position), PATIENCE))
        self.assertEqual((self.served.reached, self.ends), (position, []))

    async def test_it_is_given_back_where_nobody_asks(self) -> None:
        self.plane.idle = 0.3
        client = await self.hot()
        await self.until(lambda: self.ends == [End.IDLE], "its end")
        self.assertEqual(
            await client.ask("where nothing"),
            "unknown nothing" if self.keeper.look.keepers else "nowhere nothing",
        )
        before = self.server_process()
        self.plane._close_sessions()  # of which one stays: the next commit waits for no connection
        await self.commit(client)
        self.assertEqual(self.server_process(), before)
        self.assert_whole()

    def server_process(self) -> int:
        connection = self.session.referee._connection
        assert connection is not None
        return connection.info.backend_pid


class Shifted(Hot):
    """The service has positions at other LSNs, and began behind what is archived."""

    def begin(self) -> None:
        made = list(blocks(1, 40))
        for lsn, block in enumerate(made, 1):
            self.keep_block(lsn, block)
        self.execute(
            "UPDATE pagelog_log SET archived = 40, chain = %s WHERE id = %s",
            digest(b"", made),
            self.row.id,
        )
        self.written = made
        self.served.lie(40, 0)
        self.served.reach(40, digest(b"", made))
        super().begin()

    async def test_positions_are_those_of_the_archive(self) -> None:
        client = await self.hot()
        for count in (1, 2, 20, 300):
            await self.commit_quickly(client, count)
        self.assertEqual(
            await client.ask(self.durable(len(self.written) + 1)),
            f"above shop {self.served.generation} {len(self.written)}",
        )
        self.assertEqual(self.ends, [])
        self.assert_whole()


class Lines(Hot):
    async def test_other_words_on_a_lent_line_are_answered_as_before(self) -> None:
        client = await self.hot()
        g = self.served.generation
        for words, answer in (
            ("where nobody", "nowhere nobody"),
            ("turn shop", "turn shop other"),
            ("nonsense", "what nonsense"),
            ("", "what"),
            ("standby shop", "standby shop - - - - -"),
            (f"durable ship {g} 1", "unknown ship"),
            ("block shop 1", None),
            ("\0", "what \0"),
            (f"durable  shop {g}  1 ", None),
            (f"durable shop 0{g} 1", None),
            (f"durable shop {g} 0", None),
            ("x" * 1000, f"what {'x' * 1000}"),
            (f"durable shop {g} 1\r", None),
            ("durable shop 77 1", "elsewhere shop 77"),
        ):
            await self.hot(client)
            found = await client.ask(words)
            self.assertIn(
                found.split()[:1], (["durable"], ["block"])
            ) if answer is None else self.assertEqual(found, answer)
        self.assertEqual(await client.ask("back shop\nwhere nobody"), "nowhere nobody")
        self.assertEqual(set(self.ends) - {End.STOPPED}, set())
        await self.hot(client)
        self.assert_whole()

    async def test_what_is_asked_of_another_run_is_the_keepers(self) -> None:
        """A client that has greeted is told of which run an answer is, the fast path too."""
        client = await self.hot()
        of = f" of={self.database.row.identity}/r1"
        self.assertTrue((await client.ask("hello 2")).startswith("hello 2 nonce="))
        before = len(self.ends)
        while not self.is_hot or not self.way._lent:
            position = self.write()
            self.assertEqual(
                await client.ask(self.durable(position) + of), self.durable(position) + of
            )
            await asyncio.sleep(0.001)
        for _ in range(3):
            position = self.write()
            self.assertEqual(
                await client.ask(self.durable(position) + of), self.durable(position) + of
            )
        self.assert_quick(position)
        self.assertEqual(len(self.ends), before)
        other = f" of={self.database.row.identity}/r2"
        found = await client.ask(self.durable(1) + other)
        self.assertEqual(
            found.split()[:4], ["lost", "shop", str(self.served.generation), "superseded"]
        )
        self.assertTrue(found.endswith(other))

    def others(self) -> list[str]:
        """Another run of the number, and another database of the name, and neither."""
        database = self.database.row.identity
        return [f"of={database}/r2", f"of={'0' * 8}{database[8:]}/r1", f"of={database}"]

    async def test_a_ring_and_a_word_of_memory_of_another_run_do_nothing(self) -> None:
        client, g = self.client(), self.served.generation
        self.write()
        with patch.object(self.database.work, "ring", wraps=self.database.work.ring) as ring:
            client.send(
                *(f"{word} shop {g} {of}" for word in ("ring", "full") for of in self.others())
            )
            self.assertEqual(
                await client.ask("where nobody"), "nowhere nobody"
            )  # which comes behind them
            self.assertEqual((ring.call_count, self.served.health.is_full), (0, False))
            client.send(f"ring shop {g} of={self.database.row.identity}/r1")
            await self.until(lambda: ring.called, "a ring of its own")

    async def test_a_ring_of_another_run_does_nothing_on_the_fast_path(self) -> None:
        for of in self.others():
            client = await self.hot()
            way, position = self.way, self.write()
            client.send(f"ring shop {self.served.generation} {of}")
            await self.until(lambda: not way._lent or way.reached[0] == position, of)  # noqa: B023
            self.assertLess(way.reached[0], position, of)
            client.socket.close()

    async def test_a_number_that_two_runs_had_says_nothing_to_an_older_client(self) -> None:
        client = await self.hot()
        self.database.see(
            replace(self.database.row, doubted=self.served.generation),
            1,
            (),
            is_noted=False,
            began=float("inf"),
        )
        position = self.write()
        self.assertEqual(
            await client.ask(self.durable(position)), f"elsewhere shop {self.served.generation}"
        )
        self.assertTrue((await client.ask("hello 2")).startswith("hello 2 nonce="))
        of = f" of={self.database.row.identity}/r1"
        self.assertEqual(await client.ask(self.durable(position) + of), self.durable(position) + of)

    async def test_lines_that_end_the_connection_do_so(self) -> None:
        g = self.served.generation
        for data in (
            b"x" * 1100,
            b"durable shop x 1\n",
            b"\xff\n",
            f"durable shop {g} x\n".encode(),
            f"durable shop {g} +1\n".encode(),
        ):
            client = await self.hot(self.client())
            client.raw(data)
            self.assertEqual(await client.answer(), "")
            self.clients.remove(client)
            client.socket.close()

    async def test_half_lines_and_several_in_one_piece(self) -> None:
        client = await self.hot()
        g = self.served.generation
        position = self.write()
        for piece in (b"dur", b"able shop ", f"{g} {position}".encode()):
            client.raw(piece)
            await asyncio.sleep(0.02)
        self.assertFalse(client.has_answer())
        client.raw(b"\n")
        self.assertEqual(await client.answer(), self.durable(position))
        self.assert_quick(position)
        position = self.write(2)
        client.send(
            self.durable(position - 1), self.durable(position)
        )  # a second question over one line is the keeper's
        told = [await client.answer()]
        if told[0] != self.durable(position):
            told.append(await client.answer())
        self.assertEqual(told[-1], self.durable(position))
        await self.hot(client)
        client.send(f"ring shop {g}", "where nobody", f"durable shop {g} 1")
        self.assertEqual(await client.answer(), "nowhere nobody")
        self.assertTrue((await client.answer()).startswith(f"durable shop {g} "))
        await self.hot(client)
        client.raw(f"durable shop {g} 1\nwhe".encode())
        self.assertTrue((await client.answer()).startswith(f"durable shop {g} "))
        client.raw(b"re nobody\n")
        self.assertEqual(await client.answer(), "nowhere nobody")
        self.assertNotIn(End.DOUBT, self.ends)

    async def test_a_wait_that_cannot_be_lent_is_answered_beside_it(self) -> None:
        client, other = await self.hot(), self.client()
        position = self.write()
        other.send(self.durable(position), self.durable(position + 5))
        self.assertEqual(await other.answer(), self.durable(position))
        self.assertEqual(await other.answer(), f"above shop {self.served.generation} {position}")
        await self.hot(client)
        for refused in (
            patch("os.dup", side_effect=OSError(24, "too many")),
            patch.object(self.way._library, "way_add", return_value=0),
        ):
            await self.hot(client)
            third = self.client()
            with refused:
                position = self.write()
                self.assertEqual(await third.ask(self.durable(position)), self.durable(position))
                self.assertEqual(
                    await third.ask(self.durable(position + 9)),
                    f"above shop {self.served.generation} {position}",
                )
        await self.hot(client)
        self.assert_whole()

    async def test_what_has_rung_as_it_begins_is_seen_to(self) -> None:
        client, other, is_held, goes_on = (
            await self.hot(),
            self.client(),
            asyncio.Event(),
            asyncio.Event(),
        )
        pulling_line = Served.pulling_line

        async def held(served: Served) -> tuple[int, bytes, bytes]:
            is_held.set()
            await goes_on.wait()
            return await pulling_line(served)

        for rings in (True, False):
            is_held.clear()
            goes_on.clear()
            with patch.object(Served, "pulling_line", held):
                self.archiver.leave_way()
                await asyncio.wait_for(is_held.wait(), PATIENCE)
                position = self.write()
                if rings:
                    client.send(f"ring shop {self.served.generation}")
                else:
                    other.send(
                        self.durable(position), self.durable(position + 5)
                    )  # which cannot be lent
                await self.until(self.archiver._doorbell.is_set, "its ring")
                await asyncio.sleep(0.01)
                goes_on.set()
                await self.until(lambda: self.archived() == position, "the block")
        self.assertEqual(await other.answer(), self.durable(position))
        self.assertEqual(await other.answer(), f"above shop {self.served.generation} {position}")

    async def test_a_client_that_goes_ends_nothing_for_the_others(self) -> None:
        client = await self.hot()
        gone = [self.client() for _ in range(4)]
        while (
            len(self.way._lent) < 5
        ):  # one that was answered from elsewhere is lent with its next question
            for each in gone:
                await self.commit(each)
        gate = Gate(self.url, "true")
        try:
            position = self.write()
            client.send(self.durable(position))
            await asyncio.to_thread(gate.somebody_waits)
            for each in gone[:2]:
                each.send(self.durable(position))
            gone[2].raw(b"durable sh")
            await asyncio.sleep(0.05)
            gone[0].socket.setsockopt(
                socket.SOL_SOCKET, socket.SO_LINGER, b"\1\0\0\0\0\0\0\0"
            )  # it is reset
            for each in gone:
                self.clients.remove(each)
                each.socket.close()
            await self.until(lambda: len(self.way._lent) == 1, "the end of their lines")
        finally:
            await asyncio.to_thread(gate.open)
        self.assertEqual(await client.answer(), self.durable(position))
        await self.until(
            lambda: len(self.keeper._server._open._lines) == 1, "the end of their connections"
        )
        self.assertEqual((self.ends, len(self.database.waits)), ([], 0))
        await self.commit_quickly(client)

    async def test_a_client_that_reads_nothing_holds_up_nobody(self) -> None:
        client, deaf = await self.hot(), self.client()
        deaf.socket.setsockopt(socket.SOL_SOCKET, socket.SO_RCVBUF, 1)
        self.assertTrue(await deaf.ask(self.durable(1)))
        for _ in range(1000):
            with suppress(BlockingIOError):
                deaf.raw((self.durable(1) + "\n").encode() * 100)
            await asyncio.sleep(0)
        await self.commit(client)
        await self.hot(client)
        self.assert_whole()

    async def test_what_else_is_said_to_a_client_that_reads_nothing_is_whole_or_the_last(
        self,
    ) -> None:
        client, deaf = await self.hot(), self.client()
        before = set(self.way._lent.values())
        await self.commit(deaf)
        [line] = set(self.way._lent.values()) - before
        for _ in range(50_000):  # of what is more than two sockets hold
            line.say("wanted", "x" * 500)
        self.assertFalse(line.is_open)
        said = await deaf.answer()
        while said:
            self.assertEqual(said, "wanted " + "x" * 500)
            said = await deaf.answer()
        await self.commit_quickly(client)
        self.assertEqual((set(self.way._lent.values()), self.ends), (before, []))


class Statements(Hot):
    async def test_one_that_is_refused_is_made_again_by_the_keepers_path(self) -> None:
        client = await self.hot()
        trigger = Trigger(
            self.url,
            "pagelog_block",
            "INSERT ON pagelog_block FOR EACH ROW",
            "RAISE EXCEPTION 'no room'",
        )
        position = self.write(2)
        client.send(self.durable(position))
        await self.until(lambda: End.DOUBT in self.ends, "its end")
        await asyncio.sleep(0.1)
        self.assertEqual((client.has_answer(), self.archived()), (False, position - 2))
        trigger.close()
        self.assertEqual(await client.answer(), self.durable(position))
        await self.hot(client)
        self.assert_whole()

    def deferred(self, body: str) -> None:
        """What is done as a statement is committed, behind its result."""
        self.execute(
            f"CREATE OR REPLACE FUNCTION at_commit() RETURNS trigger LANGUAGE plpgsql AS $$ BEGIN {body}; RETURN NULL; END $$; "
            "CREATE CONSTRAINT TRIGGER at_commit AFTER UPDATE ON pagelog_log DEFERRABLE INITIALLY DEFERRED FOR EACH ROW "
            "EXECUTE FUNCTION at_commit()"
        )

    def undeferred(self) -> None:
        self.execute("DROP TRIGGER at_commit ON pagelog_log")

    async def test_a_commit_that_fails_behind_its_result_is_not_told(self) -> None:
        client = await self.hot()
        for count in (1, 2):
            await self.hot(client)
            self.ends.clear()
            self.deferred("RAISE EXCEPTION 'at its commit'")
            position = self.write(count)
            client.send(self.durable(position))
            await self.until(lambda: self.ends == [End.DOUBT], "its end")
            await asyncio.sleep(0.05)
            self.assertEqual((client.has_answer(), self.archived()), (False, position - count))
            self.undeferred()
            self.assertEqual(await client.answer(), self.durable(position))
        await self.hot(client)
        await self.commit_quickly(client)
        self.assert_whole()

    async def test_a_commit_with_a_warning_is_looked_up_before_it_is_told_and_a_notice_is_none(
        self,
    ) -> None:
        client, looked = await self.hot(), list[bool]()
        look_up = Doubts.look_up

        async def seen(doubts: Doubts, log: int, run: str) -> Kept:
            if "WARNING" in level:
                self.undeferred()
            await asyncio.sleep(0.05)
            looked.append(client.has_answer())
            return await look_up(doubts, log, run)

        self.enterContext(patch.object(Doubts, "look_up", seen))
        for level in ("NOTICE", "INFO", "LOG", "WARNING"):
            await self.hot(client)
            self.deferred(f"RAISE {level} 'cancelled'")
            position = self.write()
            self.assertEqual(await client.ask(self.durable(position)), self.durable(position))
            if level != "WARNING":
                self.undeferred()
                self.assertEqual((self.ends, looked), ([], []))
                await self.commit_quickly(client)
        self.assertEqual((self.ends, looked), ([End.DOUBT], [False]))
        self.assert_whole()

    async def test_a_turn_that_is_wanted_waits_until_it_is_known_what_became_of_the_statement(
        self,
    ) -> None:
        client, gate = await self.hot(), Gate(self.url, "true")
        try:
            position = self.write()
            client.send(self.durable(position))
            await asyncio.to_thread(gate.somebody_waits)
            turn = asyncio.create_task(self.archiver.turn.acquire())
            await asyncio.sleep(0.05)
            self.assertEqual((turn.done(), client.has_answer()), (False, False))
        finally:
            await asyncio.to_thread(gate.open)
        await asyncio.wait_for(turn, PATIENCE)
        self.assertEqual(
            (self.ends, self.served.reached, self.archived()), ([End.STOPPED], position, position)
        )
        self.assertEqual(self.served.chain, digest(b"", self.written))
        self.assertEqual(await client.answer(), self.durable(position))
        more = self.write()
        client.send(self.durable(more))
        await asyncio.sleep(0.05)
        self.assertEqual(
            (client.has_answer(), self.archived()), (False, position)
        )  # who has the turn has it alone
        self.archiver.turn.release()
        self.assertEqual(await client.answer(), self.durable(more))
        self.assert_whole()

    async def test_a_turn_that_is_wanted_as_it_begins_is_had(self) -> None:
        client, turns = await self.hot(), list[asyncio.Task[object]]()
        pulling_line = Served.pulling_line

        async def wanted(served: Served) -> tuple[int, bytes, bytes]:
            turns.append(asyncio.create_task(self.archiver.turn.acquire()))
            await asyncio.sleep(0)
            return await pulling_line(served)

        with patch.object(Served, "pulling_line", wanted):
            self.archiver.leave_way()
            await self.until(lambda: turns, "the next one")
        self.assertTrue(await asyncio.wait_for(turns[0], PATIENCE))
        self.assertEqual((self.ends, self.is_hot), ([End.STOPPED] * 2, False))
        self.archiver.turn.release()
        await self.hot(client)

    async def test_what_ends_the_archiver_amid_a_statement_loses_no_answer(self) -> None:
        client, gate = await self.hot(), Gate(self.url, "true")
        try:
            position = self.write()
            client.send(self.durable(position))
            await asyncio.to_thread(gate.somebody_waits)
            way = self.way
            self.database.work.stop()
            await asyncio.sleep(0.05)
            self.assertFalse(client.has_answer())
        finally:
            await asyncio.to_thread(gate.open)
        self.assertEqual(await client.answer(), self.durable(position))
        await self.until(lambda: way._is_over, "its end")
        self.assertEqual(way.last, (position, digest(b"", self.written)))
        self.served.reach(*way.last)
        self.begin()
        await self.hot(client)
        self.assert_whole()


class Ahead(Hot):
    """What comes behind a statement that is on its way."""

    async def asyncSetUp(self) -> None:
        await super().asyncSetUp()
        self.asked: list[int] = []
        """The LSNs that are pulled."""
        self.silent_at: set[int] = set()
        """Where one of these is, the service ends the connection."""

    def noted(self, frame: bytes) -> bool:
        self.asked.append(int.from_bytes(frame[-10:-2], "big"))
        return self.asked[-1] not in self.silent_at

    async def two(self) -> tuple[Client, Client, Gate]:
        """Two clients, for the first of which a statement waits at the gate."""
        client, other = await self.hot(), self.client()
        await self.relayed(self.noted)
        await self.hot(client)
        while len(self.way._lent) < 2:  # both lines are the thread's, and nobody waits elsewhere
            await self.commit(other)
            await asyncio.sleep(0.001)
        await self.until(lambda: self.archiver._done >= self.archiver._rings, "the last pull")
        gate = Gate(self.url, "true")
        client.send(self.durable(self.write()))
        await asyncio.to_thread(gate.somebody_waits)
        self.ends.clear()
        return client, other, gate

    async def pulled(self, other: Client, position: int, count: int = 1) -> None:
        """It waits for the last of so many positions, which are pulled."""
        other.send(self.durable(position))
        await self.until(lambda: position - count + 1 in self.asked, "the next pull")
        self.assertFalse(other.has_answer())

    async def test_it_is_pulled_meanwhile_and_told_after_its_own_statement(self) -> None:
        client, other, gate = await self.two()
        try:
            await self.pulled(other, position := self.write(3), 3)
            self.assertFalse(client.has_answer())
        finally:
            await asyncio.to_thread(gate.open)
        self.assertEqual(await client.answer(), self.durable(position - 3))
        self.assertEqual(await other.answer(), self.durable(position))
        self.assertEqual((self.ends, self.asked.count(position - 2)), ([], 1))
        self.assert_whole()

    async def test_what_a_statement_has_no_room_for_is_pulled_meanwhile(self) -> None:
        """Though nobody says anything more."""
        client = await self.hot()
        await self.relayed(self.noted)
        await self.hot(client)
        gate, position = Gate(self.url, "true"), self.write(1100)
        try:
            client.send(self.durable(position))
            await asyncio.to_thread(gate.somebody_waits)
            await self.until(lambda: position - 1100 + 1024 + 1 in self.asked, "the next pull")
            self.assertFalse(client.has_answer())
        finally:
            await asyncio.to_thread(gate.open)
        self.assertEqual(await client.answer(), self.durable(position))
        self.assertEqual(self.ends[1:], [])
        self.assert_whole()

    async def test_what_is_not_there_is_said_once_the_statement_has_ended(self) -> None:
        client, other, gate = await self.two()
        position = len(self.written)
        try:
            await self.pulled(other, position + 1)
            await asyncio.sleep(0.05)
            self.assertFalse(other.has_answer())
        finally:
            await asyncio.to_thread(gate.open)
        self.assertEqual(await client.answer(), self.durable(position))
        self.assertEqual(await other.answer(), f"above shop {self.served.generation} {position}")
        self.assertEqual(self.ends, [])

    async def test_what_was_pulled_is_pulled_again_where_the_statement_is_in_doubt(self) -> None:
        for cuts in (True, False):
            client, other, gate = await self.two()
            try:
                await self.pulled(other, position := self.write())
                (self.session.referee.cut if cuts else self.archiver.leave_way)()
            finally:
                await asyncio.to_thread(gate.open)
            self.assertEqual(await client.answer(), self.durable(position - 1))
            self.assertEqual(await other.answer(), self.durable(position))
            self.assertEqual(self.ends[0], End.DOUBT if cuts else End.STOPPED)
            self.assert_whole()

    async def test_who_is_to_stop_keeps_nothing_more(self) -> None:
        client, other, gate = await self.two()
        try:
            await self.pulled(other, position := self.write())
            await asyncio.sleep(0.05)  # its reply comes too
            way = self.way
            self.database.work.stop()
            await self.until(lambda: way._stops, "the order")
        finally:
            await asyncio.to_thread(gate.open)
        self.assertEqual(await client.answer(), self.durable(position - 1))
        await self.until(lambda: way._is_over, "its end")
        self.assertEqual(way.last, (position - 1, digest(b"", self.written[: position - 1])))
        self.served.reach(*way.last)
        self.begin()
        self.assertEqual(await other.answer(), self.durable(position))
        self.assert_whole()

    async def test_a_service_that_ends_meanwhile_is_left_once_the_statement_has_ended(self) -> None:
        client, other, gate = await self.two()
        try:
            self.silent_at.add(position := self.write())
            await self.pulled(other, position)
            await asyncio.sleep(0.05)
            self.assertEqual((client.has_answer(), self.ends), (False, []))
        finally:
            await asyncio.to_thread(gate.open)
        self.assertEqual(await client.answer(), self.durable(position - 1))
        self.assertEqual(await other.answer(), self.durable(position))
        self.assertEqual(self.ends[0], End.SERVICE)
        self.assert_whole()


class OneTurn(unittest.TestCase):
    def test_what_is_just_archived_is_not_said_to_be_above(self) -> None:
        """Though the service's answer, that there is nothing behind, is heard before anybody is told."""
        keeper = SOURCE / "pagelog" / "keeper"
        others = [each for each in keeper.glob("fast_path*.c") if each.stem != "fast_path_referee"]
        postgres = subprocess.run(["pg_config", "--includedir"], capture_output=True, text=True)
        with tempfile.TemporaryDirectory() as folder:
            built = Path(folder, "one_turn")
            flags = [
                "-std=c11",
                "-D_GNU_SOURCE",
                "-g",
                "-I",
                str(keeper),
                "-I",
                postgres.stdout.strip(),
            ]
            libraries = ["-lpq", "-lb2", "-lz", "-lcrypto", "-pthread"]
            source = Path(__file__).with_name("one_turn.c")
            subprocess.run(["gcc", *flags, "-o", built, source, *others, *libraries], check=True)
            told = subprocess.run([built], check=True, capture_output=True, text=True).stdout
        self.assertEqual(told, "durable shop 7 1 of=1/r\n")


class Fences(Hot):
    async def ended(self, change: str, *, is_over: bool, is_told: bool = False) -> Client:
        """Something has changed in the archive: nothing of a batch is kept, and nothing is told of it, but that the run is over."""
        client = await self.hot()
        self.was, before = self.archiver, self.rows()
        self.execute(f"UPDATE pagelog_log SET {change}")
        position = self.write()
        client.send(self.durable(position))
        await self.until(lambda: self.ends == [End.NOT_KEPT], "its end")
        await self.until(lambda: self.was.is_over == is_over, "the end of the archiver")
        if is_told:
            self.assertRegex(await client.answer(), "^over shop 1 ")
        elif is_over:
            await asyncio.sleep(0.05)
        if is_over:
            self.assertFalse(client.has_answer())
            self.assertEqual(self.rows(), before)
        return client

    async def test_another_run_has_it(self) -> None:
        await self.ended("run = 'r2'", is_over=True)
        self.assertFalse(self.archiver.is_stuck)
        self.assertEqual(len(self.database.waits), 1)  # the next look shows whom to ask

    async def test_another_generation_has_begun(self) -> None:
        client = await self.hot()
        self.execute("UPDATE pagelog_log SET generation = 9")
        client.send(self.durable(self.write()))
        await self.until(lambda: self.ends == [End.NOT_KEPT], "its end")
        await asyncio.sleep(0.1)
        self.assertFalse(client.has_answer())
        self.execute("UPDATE pagelog_log SET generation = 1")
        self.assertEqual(await client.answer(), self.durable(len(self.written)))

    async def test_the_archive_has_something_else(self) -> None:
        await self.ended(
            "archived = archived - 1, chain = 'otherotherother!'", is_over=True, is_told=True
        )
        self.assertTrue(
            self.was.is_stuck and self.served.lack.went_back
        )  # it was let go of, and its service is quarantined

    async def test_the_archive_went_back(self) -> None:
        client = await self.hot()
        position = await self.commit_quickly(client, 5)
        back = position - 3
        with psycopg.connect(self.url) as connection:
            connection.execute(
                "UPDATE pagelog_log SET archived = %s, chain = %s",
                (back, digest(b"", self.written[:back])),
            )
            connection.execute("DELETE FROM pagelog_block WHERE lsn > %s", (back,))
        position = self.write()
        self.assertEqual(await client.ask(self.durable(position)), self.durable(position))
        self.assertEqual(self.ends[0], End.NOT_KEPT)
        self.assert_whole()

    async def test_the_archive_went_on_with_its_own_blocks(self) -> None:
        client = await self.hot()
        position = self.write(2)
        for lsn, block in zip((position - 1, position), self.written[-2:]):
            self.keep_block(lsn, block)
        self.execute(
            "UPDATE pagelog_log SET archived = %s, chain = %s", position, digest(b"", self.written)
        )
        self.assertEqual(await client.ask(self.durable(position)), self.durable(position))
        await self.hot(client)
        await self.commit_quickly(client)
        self.assertEqual(self.ends, [End.NOT_KEPT])
        self.assert_whole()


class Cut(Hot):
    """Its line to PostgreSQL is cut, and the other ones are not."""

    goes_through_line = True

    async def test_one_that_is_cut_anywhere_is_whole_or_not_at_all_and_told_in_the_end(
        self,
    ) -> None:
        client, early, found = await self.hot(), list[bool](), set[tuple[str, int]]()
        look_up = Doubts.look_up

        async def seen(doubts: Doubts, log: int, run: str) -> Kept:
            self.line.count_from_now()
            kept = await look_up(doubts, log, run)
            early.append(client.has_answer())
            found.add((way, kept.archived - len(self.written)))
            return kept

        self.enterContext(patch.object(Doubts, "look_up", seen))
        self.line.count_from_now(1 << 40, 1 << 40)
        await self.commit_quickly(client)
        to, back = (1 << 40) - self.line.left["to"], (1 << 40) - self.line.left["back"]
        cuts = (
            [("to", at) for at in (0, to // 2, to - 6, to - 1)]
            + [("back", at) for at in range(0, back, 5)]
            + [("back", back - 1)]
        )
        for way, at in cuts:
            self.line.count_from_now()
            await self.hot(client)
            self.ends.clear()
            self.line.count_from_now(**{way: at})
            position = self.write()
            self.assertEqual(await client.ask(self.durable(position)), self.durable(position))
            self.assertEqual((self.ends[0], way, at), (End.DOUBT, way, at))
        self.assertEqual((set(early), found), ({False}, {("to", -1), ("back", 0)}))
        self.assert_whole()


class Stalled(Hot):
    """Its line to PostgreSQL stands still somewhere."""

    goes_through_line = stalls = True

    async def test_what_has_not_come_whole_is_not_told(self) -> None:
        client = await self.hot()
        self.line.count_from_now(1 << 40, 1 << 40)
        await self.commit_quickly(client)
        back = (1 << 40) - self.line.left["back"]
        self.line.count_from_now(back=back - len(READY))  # the result is there
        position = self.write()
        client.send(self.durable(position))
        await self.until(lambda: self.archived() == position, "its commit")
        await asyncio.sleep(0.1)
        self.assertEqual(
            (client.has_answer(), self.way.reached[0], self.ends), (False, position - 1, [])
        )
        self.session.referee.cut()
        self.assertEqual(await client.answer(), self.durable(position))
        self.assertEqual(self.ends, [End.DOUBT])

    async def test_an_end_without_a_result_is_no_commit(self) -> None:
        client, looked = await self.hot(), asyncio.Event()
        look_up = Doubts.look_up

        async def later(doubts: Doubts, log: int, run: str) -> Kept:
            await looked.wait()
            return await look_up(doubts, log, run)

        self.enterContext(patch.object(Doubts, "look_up", later))
        for instead in (READY, b"C\0\0\0\x0dINSERT 0\0" + READY):
            self.line.instead = instead
            self.line.count_from_now(back=0)
            self.ends.clear()
            looked.clear()
            client.send(self.durable(position := self.write()))
            await self.until(lambda: self.ends == [End.DOUBT], "its end")
            await asyncio.sleep(0.05)
            self.assertFalse(client.has_answer())
            looked.set()
            self.line.count_from_now()
            self.assertEqual(await client.answer(), self.durable(position))
            await self.hot(client)
        self.assert_whole()

    async def test_one_that_hangs_is_in_doubt_after_its_time_whatever_lines_say_meanwhile(
        self,
    ) -> None:
        client, other = await self.hot(), self.client()
        self.plane.deadline = 0.5
        await self.next_one()  # with less time
        await self.hot(client)
        await self.commit(other)
        self.ends.clear()
        self.line.count_from_now(to=0)
        client.send(self.durable(position := self.write()))
        while not self.ends:
            other.flood(f"ring shop {self.served.generation}")
            await asyncio.sleep(0)
        self.assertFalse(client.has_answer())
        self.line.count_from_now()
        self.assertEqual(await client.answer(), self.durable(position))
        self.assertEqual(self.ends[0], End.DOUBT)

    async def test_a_connection_that_hangs_as_its_statements_are_prepared_is_cut(self) -> None:
        plane, session = self.plane, self.session
        self.database.work.stop()
        await self.until(lambda: not plane._ways, "its end")

        async def close() -> None:
            plane.library.plane_retract(plane.address, session.key)
            await self.until(lambda: not session.statements, "the end of its connection")

        await self.until(lambda: session.is_lent, "its statements")
        await close()
        self.line.count_from_now(back=1 << 40)
        plane.warm()
        await self.until(lambda: session.is_lent, "its statements")
        back = (1 << 40) - self.line.left["back"]
        await close()
        plane.deadline = 0.05
        while self.line.left["back"]:
            if not session.is_connecting:  # it was cut before it came so far
                self.line.count_from_now(back=back - 1)
                session.not_before, plane.deadline = 0.0, 2 * plane.deadline
                plane.warm()
            await asyncio.sleep(0.001)
        self.line.count_from_now()
        await self.until(lambda: not session.is_connecting, "its end")
        self.assertEqual(session.statements, ())
        plane.deadline = PATIENCE
        self.begin()
        client = await self.hot()  # over the next one
        await self.commit_quickly(client)


_REACHED = "SELECT flushed, standby FROM reached WHERE nextval('asked') > 0"


class Confirming(Hot):
    """It asks how far a standby is; here a table says so."""

    async def asyncSetUp(self) -> None:
        await super().asyncSetUp()
        self.execute("CREATE TABLE IF NOT EXISTS reached (flushed bigint, standby bigint)")
        self.execute("CREATE SEQUENCE IF NOT EXISTS asked")
        self.execute("TRUNCATE reached")
        self.execute("INSERT INTO reached VALUES (100, 100)")
        values = {**fast_plane.VALUES, _REACHED: []}
        del values[statements.REACHED]
        self.plane.confirms, self.plane.values = True, values

    async def kept(self, client: Client) -> int:
        """A commit that the archive has, and a standby has not, as it was asked."""
        self.execute("UPDATE reached SET standby = 99")
        asked, position = self.asked(), self.write()
        client.send(self.durable(position))
        await self.until(lambda: self.archived() == position and self.asked() > asked)
        return position

    def asked(self) -> int:
        """How often it was."""
        with psycopg.connect(self.url) as connection:
            [[last, is_called]] = connection.execute(
                "SELECT last_value, is_called FROM asked"
            ).fetchall()
        return int(last) if is_called else 0


class Confirmed(Confirming):
    async def test_a_standby_is_asked_until_it_has_what_was_flushed_here(self) -> None:
        client = await self.hot()
        position = await self.kept(client)
        self.execute("UPDATE reached SET flushed = 200")  # by others, later
        await asyncio.sleep(0.05)
        self.assertFalse(client.has_answer())
        self.execute("UPDATE reached SET standby = 100")
        self.assertEqual(await client.answer(), self.durable(position))
        self.assert_quick(position)
        self.assertEqual(self.ends, [])
        self.assert_whole()

    async def test_without_one_it_is_in_doubt(self) -> None:
        client = await self.hot()
        self.execute("UPDATE reached SET standby = NULL")
        await self.commit(client)
        self.assertEqual(self.ends, [End.DOUBT])

    async def test_one_that_does_not_come_up_in_time_is_in_doubt(self) -> None:
        self.plane.deadline = 0.5
        client = await self.hot()
        position = await self.kept(client)
        self.assertEqual(await client.answer(), self.durable(position))
        self.assertEqual(self.ends, [End.DOUBT])

    async def test_a_turn_that_is_wanted_waits_until_it_has(self) -> None:
        client = await self.hot()
        position = await self.kept(client)
        turn = asyncio.ensure_future(self.archiver.turn.acquire())
        await asyncio.sleep(0.05)
        self.assertEqual((turn.done(), client.has_answer()), (False, False))
        self.execute("UPDATE reached SET standby = 100")
        await turn
        self.assertEqual((self.ends, self.served.reached), ([End.STOPPED], position))
        self.archiver.turn.release()
        self.assertEqual(await client.answer(), self.durable(position))


class CutAsItIsConfirmed(Confirming):
    """Its line to PostgreSQL is cut, at any time until a standby is known to have it."""

    goes_through_line = True

    async def test_what_is_cut_anywhere_is_told_once_it_was_looked_up(self) -> None:
        client, early = await self.hot(), list[bool]()
        look_up = Doubts.look_up

        async def seen(doubts: Doubts, log: int, run: str) -> Kept:
            self.line.count_from_now()
            early.append(client.has_answer())
            kept = await look_up(doubts, log, run)
            self.assertEqual(kept.archived, len(self.written))
            return kept

        self.enterContext(patch.object(Doubts, "look_up", seen))
        self.line.count_from_now(1 << 40, 1 << 40)
        await self.commit_quickly(client)
        to, back = (1 << 40) - self.line.left["to"], (1 << 40) - self.line.left["back"]
        for way, at in (
            ("to", to - 6),
            ("to", to - 1),
            *(("back", at) for at in range(0, back, 5)),
            ("back", back - 1),
        ):
            await self.hot(client)
            self.ends.clear()
            self.line.count_from_now(**{way: at})
            position = self.write()
            client.send(self.durable(position))
            await self.until(lambda: self.ends, "its end")
            self.assertEqual(
                (self.ends[0], way, at, await client.answer()),
                (End.DOUBT, way, at, self.durable(position)),
            )
            self.assertEqual(set(early), {False}, (way, at))
        self.assert_whole()


class Services(Hot):
    """What a service answers, or does not."""

    def reply(self, kind: int, *fields: bytes) -> bytes:
        body = bytes([kind]) + b"".join(fields)
        return len(body).to_bytes(4, "big") + body

    def blocks_reply(
        self, first: int, made: list[bytes], next: int | None = None, count: int | None = None
    ) -> bytes:
        next = first + len(made) if next is None else next
        return self.reply(
            1,
            next.to_bytes(8, "big"),
            (len(made) if count is None else count).to_bytes(2, "big"),
            *(len(block).to_bytes(4, "big") + block for block in made),
        )

    async def pretended(self, reply: Callable[[int, bytes], bytes | None]) -> tuple[Client, int]:
        """A client of a database whose service answers the pulls of the fast path so, once there is a block at the position."""
        ours, theirs = socket.socketpair()
        theirs.setblocking(False)
        frame = self.served.questions()[0]
        pulling_line = Served.pulling_line

        async def line(served: Served) -> tuple[int, bytes, bytes]:
            return (
                (theirs.detach(), frame, b"")
                if theirs.fileno() >= 0
                else await pulling_line(served)
            )

        def serve() -> None:
            with ours, suppress(OSError):
                while asked := ours.recv(4096):
                    lsn = int.from_bytes(asked[-10:-2], "big")
                    answer = reply(lsn, self.written[lsn - 1] if lsn <= len(self.written) else b"")
                    if answer is None:
                        ours.shutdown(socket.SHUT_RDWR)
                        return
                    ours.sendall(answer)

        threading.Thread(target=serve, daemon=True).start()
        client = await self.hot()
        with patch.object(Served, "pulling_line", line):
            await self.next_one()
        return client, len(self.written)

    async def test_whatever_else_than_new_blocks_it_says_is_left_to_the_keepers_path(self) -> None:
        end = lambda lsn: self.reply(5, b"\3\0\1", (lsn - 1).to_bytes(8, "big"))  # noqa: E731
        replies: dict[str, Callable[[int, bytes], bytes | None]] = {
            "gone": lambda lsn, block: None,
            "another kind": lambda lsn, block: self.reply(0),
            "nothing": lambda lsn, block: b"\0\0\0\0",
            "too long": lambda lsn, block: b"\xff\xff\xff\xff",
            "another rule": lambda lsn, block: self.reply(
                5, b"\3\0\2", (lsn - 1).to_bytes(8, "big")
            ),
            "another section": lambda lsn, block: self.reply(
                5, b"\2\0\1", (lsn - 1).to_bytes(8, "big")
            ),
            "another end": lambda lsn, block: self.reply(
                5, b"\3\0\1", (lsn - 2).to_bytes(8, "big")
            ),
            "a longer denial": lambda lsn, block: self.reply(
                5, b"\3\0\1", (lsn - 1).to_bytes(8, "big"), b"x"
            ),
            "an epoch": lambda lsn, block: self.reply(5, b"\1\0\1", (9).to_bytes(8, "big")),
            "another block": lambda lsn, block: self.blocks_reply(
                lsn, [(lsn + 1).to_bytes(8, "big") + block[8:]]
            ),
            "another next": lambda lsn, block: self.blocks_reply(lsn, [block], lsn),
            "none, and no next": lambda lsn, block: self.blocks_reply(lsn, [], lsn),
            "no memory": lambda lsn, block: self.reply(6),
            "fewer blocks": lambda lsn, block: self.blocks_reply(lsn, [block], count=2),
            "more blocks": lambda lsn, block: self.blocks_reply(lsn, [block, block], lsn + 1, 1),
            "too many": lambda lsn, block: self.blocks_reply(lsn, [block] * 17),
            "a short block": lambda lsn, block: self.blocks_reply(lsn, [block[:7]]),
            "two replies": lambda lsn, block: 2 * self.blocks_reply(lsn, [block]),
        }
        for what, reply in replies.items():
            with self.subTest(what):
                self.ends.clear()
                client, _ = await self.pretended(
                    lambda lsn, block: reply(lsn, block) if block else end(lsn)
                )
                if not self.ends:
                    await self.commit(client)
                await self.until(lambda: self.ends, "its end")
                self.assertEqual(self.ends[0], End.SERVICE)
        self.assert_whole()

    async def test_the_length_of_a_reply_behind_others_takes_no_memory(self) -> None:
        full: list[int] = []

        def reply(lsn: int, block: bytes) -> bytes | None:
            first = lsn if not full else full[-1] + PULL_MAX  # of the pulls that it asks at once
            made = self.written[first - 1 : first - 1 + PULL_MAX]
            if len(made) < PULL_MAX:
                return (
                    self.reply(5, b"\3\0\1", (lsn - 1).to_bytes(8, "big"))
                    if not made
                    else self.blocks_reply(first, made)
                )
            full.append(first)
            return self.blocks_reply(first, made) + (b"\xff\xff\xff\xff" if len(full) > 1 else b"")

        client, _ = await self.pretended(reply)
        most, hard = resource.getrlimit(resource.RLIMIT_AS)
        resource.setrlimit(resource.RLIMIT_AS, (memory_now() + (1 << 30), hard))
        self.addCleanup(resource.setrlimit, resource.RLIMIT_AS, (most, hard))
        position = self.write(2 * PULL_MAX)
        client.send(self.durable(position))
        await self.until(lambda: self.ends, "its end")
        self.assertEqual((self.ends[0], len(full)), (End.SERVICE, 2))
        self.assertEqual(await client.answer(), self.durable(position))
        self.assert_whole()

    async def test_a_reply_that_comes_byte_by_byte_is_taken(self) -> None:
        ours, theirs = socket.socketpair()
        theirs.setblocking(False)
        frame = self.served.questions()[0]

        async def line(_: Served) -> tuple[int, bytes, bytes]:
            return theirs.detach(), frame, b""

        def serve() -> None:
            with ours, suppress(OSError):
                while asked := ours.recv(4096):
                    lsn = int.from_bytes(asked[-10:-2], "big")
                    rest = self.written[lsn - 1 :]
                    answer = (
                        self.blocks_reply(lsn, rest)
                        if rest
                        else self.reply(5, b"\3\0\1", (lsn - 1).to_bytes(8, "big"))
                    )
                    for at in range(len(answer)):
                        ours.sendall(answer[at : at + 1])
                        time.sleep(0.0005)

        threading.Thread(target=serve, daemon=True).start()
        with patch.object(Served, "pulling_line", line):
            client = await self.hot()
        await self.commit_quickly(client, 2)
        self.assert_whole()

    async def test_a_service_that_stands_still_is_waited_for_so_long_and_no_longer(self) -> None:
        assert self.served.process is not None
        self.served.timeout = 0.5
        client, other = await self.hot(), self.client()
        await self.commit(other)
        position = await self.commit(client)
        await self.hot(client)
        self.ends.clear()
        stand_still(self.served.process.facts.pid)
        client.send(self.durable(position + 1))
        while not self.ends:  # lines with something to say lengthen no wait
            other.flood(f"ring shop {self.served.generation}")
            await asyncio.sleep(0)
        self.assertEqual(self.ends, [End.SERVICE])
        self.assertFalse(client.has_answer())
        os.kill(self.served.process.facts.pid, signal.SIGCONT)
        self.assertTrue((await client.answer()).startswith("above shop"))
        await self.hot(client)
        self.assert_whole()

    async def test_a_service_that_dies_ends_it(self) -> None:
        assert self.served.process is not None
        client = await self.hot()
        position = len(self.written)
        os.kill(self.served.process.facts.pid, signal.SIGKILL)
        client.send(self.durable(position + 1))
        await self.until(lambda: self.ends == [End.SERVICE], "its end")
        await self.until(lambda: len(self.database.waits) == 1, "its wait")
        self.assertFalse(client.has_answer())
        self.assertEqual(self.archived(), position)

    async def test_an_epoch_that_begins_between_two_pulls(self) -> None:
        client = await self.hot()
        position = self.write(300)
        for asked, answer in ((position, "durable"), (position + 1, "above")):
            await asyncio.to_thread(self.served.close)  # a fence begins an epoch of its own
            await asyncio.to_thread(self.served.open)
            self.assertEqual(
                await client.ask(self.durable(asked)),
                f"{answer} shop {self.served.generation} {position}",
            )
        self.assertEqual((self.ends, self.way.reached[0]), ([], position))
        self.assert_whole()

    async def test_blocks_without_records_are_filled_in(self) -> None:
        """No pull serves them: a reply goes on behind them, and more than one batch may have none but these."""
        client = await self.hot()
        for pattern in (
            [1, 0, 1, 0],
            [0],
            [0] * 40,
            [0, 1] * 700,
            [1] + [0] * 3000 + [1],
            [0] * 1024,
        ):
            first = len(self.written) + 1
            position = self.write(
                made=[
                    blocks(first + at, 1)[0] if has else Block.of(first + at, []).data
                    for at, has in enumerate(pattern)
                ]
            )
            self.assertEqual(await client.ask(self.durable(position)), self.durable(position))
            self.assert_quick(position)
        first = len(self.written) + 1
        position = self.write(made=[Block.of(first + at, []).data for at in range(3000)])
        self.archiver.ring()
        await self.until(lambda: self.way.reached[0] == position, "what nobody waits for")
        self.assertEqual(self.ends, [])
        self.assert_whole()


class Trails(Hot):
    """Its audit list is kept: with each batch the lines that speak of its blocks, in one statement."""

    section = {"trail": 7}

    async def asyncSetUp(self) -> None:
        self.pieces = 0
        await super().asyncSetUp()

    async def trail(self) -> list[Entry]:
        """All lines that are kept, whose digests were compared, are those of the service."""

        def read() -> list[Entry]:
            with Trail(self.url, "shop") as trail:
                [one] = trail.lists()
                self.assertEqual((one.of, one.ended), (f"{self.database.row.identity}/r1", None))
                pieces = list(trail.pieces(one, 1))
            self.pieces = len(pieces)
            self.assertEqual((pieces[0].first, sum(piece.count for piece in pieces)), (1, one.kept))
            return [entry for piece in pieces for entry in entries_of(piece)]

        found, theirs = await asyncio.to_thread(read), list[Entry]()
        while len(theirs) < len(found):
            theirs += await asyncio.to_thread(self.served._operator.audit, len(theirs) + 1)
        self.assertEqual(found, theirs[: len(found)])
        return found

    async def assert_with_lines(self, position: int) -> None:
        """The block up to there was hardened by a line that is kept."""
        found = await self.trail()
        self.assertGreaterEqual(
            max(entry.a for entry in found if entry.operation is Operation.REPORT), position
        )

    async def test_lines_are_kept_with_their_blocks_and_gone_on_with_by_the_keepers_path(
        self,
    ) -> None:
        client = await self.hot()
        for count in (1, 3, 20, 300):
            await self.assert_with_lines(await self.commit_quickly(client, count))
        for _ in range(2):
            before = self.pieces
            await self.next_one()
            await self.assert_with_lines(await self.commit(client))
            await self.hot(client)
            await self.assert_with_lines(await self.commit_quickly(client))
            self.assertGreater(self.pieces, before)
        self.assertEqual(self.ends, [])
        self.assert_whole()

    def asked(self, count: int) -> None:
        """So many more lines."""
        for _ in range(count // 500):
            self.served._operator._ask_all([Status()] * 500)

    async def test_more_lines_than_one_reply_has_and_more_than_are_asked_for(self) -> None:
        client = await self.hot()
        await asyncio.to_thread(self.asked, 1500)
        await self.assert_with_lines(await self.commit_quickly(client))
        await asyncio.to_thread(self.asked, 9000)
        await self.commit(client)  # which waits for no thread that keeps them
        self.assertEqual(self.ends, [End.LINES])
        await self.hot(client)
        await self.assert_with_lines(await self.commit_quickly(client))

    async def test_lines_are_kept_with_their_blocks_in_an_epoch_that_has_begun(self) -> None:
        client = await self.hot()
        position = self.write(20)
        await asyncio.to_thread(self.served.close)
        await asyncio.to_thread(self.served.open)
        self.assertEqual(await client.ask(self.durable(position)), self.durable(position))
        self.assert_quick(position)
        await self.assert_with_lines(position)
        self.assertEqual(self.ends, [])

    async def test_lines_in_doubt_are_asked_of_the_trail(self) -> None:
        client = await self.hot()
        trigger = Trigger(
            self.url,
            "pagelog_log",
            "UPDATE ON pagelog_log FOR EACH ROW",
            "RAISE WARNING 'cancelled'",
        )
        position = self.write()
        client.send(self.durable(position))
        await self.until(lambda: End.DOUBT in self.ends, "its end")
        trigger.close()
        self.assertEqual(await client.answer(), self.durable(position))
        await self.assert_with_lines(position)
        await self.hot(client)
        await self.assert_with_lines(await self.commit_quickly(client))

    async def test_blocks_go_without_lines_while_a_thread_has_the_list_and_with_them_after_that(
        self,
    ) -> None:
        client, recorder = await self.hot(), self.archiver.recorder
        assert recorder is not None
        recorder.turn._patience = 0.02
        taken = asyncio.create_task(recorder.turn.take())
        await asyncio.sleep(0)
        self.archiver.leave_way()
        await taken
        position = await self.commit(client)
        self.assertIsNone(self.way.lines)
        recorder.turn.leave()
        await self.until(lambda: self.is_hot and self.way.lines is not None, "the next one")
        await self.assert_with_lines(await self.commit(client))
        await self.assert_with_lines(position)

    async def test_once_a_day_it_is_given_back_to_be_pruned(self) -> None:
        client = await self.hot()
        recorder = self.archiver.recorder
        assert recorder is not None
        recorder.look(1 << 40)
        self.assertFalse(recorder._due.is_set())
        await self.commit_quickly(client)
        recorder._pruned -= 1
        recorder.look(1 << 40)
        await self.until(lambda: self.ends == [End.STOPPED], "its end")
        await self.until(lambda: recorder._pruned == now() // DAY, "its day")
        await self.hot(client)
        await self.commit_quickly(client)


class Ends(Hot):
    MANY = 20
    """A connection or a thread that the keeper makes where it first needs it is no leak: one with each of so many is."""
    FEW = 10

    def open(self) -> tuple[int, int]:
        gc.collect()  # what tests before this one have left
        return len(os.listdir("/proc/self/fd")), len(os.listdir("/proc/self/task"))

    async def few_more_are_open_than(self, before: tuple[int, int]) -> None:
        await self.until(
            lambda: all(now < then + self.FEW for now, then in zip(self.open(), before)),
            f"few more than {before} are open",
        )

    async def test_many_of_them_leave_nothing(self) -> None:
        client = await self.hot()
        before, count = self.open(), 0
        while count < 3 * self.MANY:
            way = self.way
            if count % 3 == 0:
                self.archiver._end_way()
            elif count % 3 == 1:
                self.assertTrue((await client.ask(self.durable(1 << 40))).startswith("above"))
                self.archiver.leave_way()
            else:
                async with self.archiver.turn:
                    pass
            await self.until(lambda: way._is_over, "its end")
            self.assertEqual(way._lent, {})
            count += 1
            await self.hot(client)
        await self.few_more_are_open_than(before)
        self.assertLessEqual(set(self.ends), {End.STOPPED})

    async def test_one_that_cannot_begin_leaves_nothing(self) -> None:
        client = await self.hot()
        for refused in (
            patch.object(self.way._library, "way_new", return_value=None),
            patch.object(Served, "pulling_line", side_effect=OSError(111, "refused")),
        ):
            before = self.open()
            self.archiver._pauses = Backoff(0.001, 0.001)
            with refused as call:
                self.archiver.leave_way()
                position = self.write()
                client.send(self.durable(position))
                await self.until(lambda: call.call_count >= self.MANY, "its tries")  # noqa: B023
                self.assertFalse(client.has_answer())
            self.assertEqual(await client.answer(), self.durable(position))
            await self.hot(client)
            await self.few_more_are_open_than(before)

    async def test_a_keeper_that_ends_while_it_is_hot(self) -> None:
        client = await self.hot()
        gate = Gate(self.url, "true")
        try:
            client.send(self.durable(self.write()))
            await asyncio.to_thread(gate.somebody_waits)
            await asyncio.wait_for(self.keeper._stop(), PATIENCE)  # cut off, amid a statement
        finally:
            await asyncio.to_thread(gate.open)
        self.assertEqual(await client.answer(), "")
        assert self.plane._running is not None
        self.assertTrue(self.plane._running.done())


class Without(unittest.TestCase):
    """There is no keeper without the compiled part."""

    def keeper(self, **section: object) -> Keeper:
        with patch("pagelog.keeper.keeping.KeeperFolder"):
            return Keeper(
                Settings.of("one", "", "", Path("."), PROGRAM, "postgresql://nobody@/none", section)
            )

    def test_it_was_not_built_or_has_another_libpq(self) -> None:
        for refused, why in (
            (patch("importlib.util.find_spec", return_value=None), "is not there"),
            (patch.object(fast_calls.pq, "version", return_value=1), "another libpq"),
            (patch.object(fast_calls.pq, "__impl__", "binary"), "the system's libpq"),
            (patch("ctypes.CDLL", side_effect=OSError("damaged")), "cannot be loaded: damaged"),
        ):
            with refused, self.assertRaisesRegex(KeeperError, why):
                self.keeper()

    def test_what_its_statements_are(self) -> None:
        sections: tuple[dict[str, Any], ...] = ({"trail": 7}, {"require_standby": True}, {})
        for section in sections:
            ways = self.keeper(**section)._shared.ways
            self.assertEqual(
                (ways.confirms, len(ways.values)),
                ("require_standby" in section, 5 if "trail" in section else 4),
            )


class Moves(KeptService):
    """Keepers, each a process."""

    options = {"more": 'metrics = "127.0.0.1:0"\n'}

    def test_a_succession_a_switchover_and_the_end_of_a_keeper_amid_its_traffic(self) -> None:
        told, stops = list[bytes](), threading.Event()

        def write() -> None:
            with self.keeping.primary() as primary:
                while not stops.is_set():
                    text = f"{len(told)}"
                    self.commit(primary, text, durable=True)
                    told.append(text.encode())

        writer = threading.Thread(target=write)
        writer.start()
        try:
            for move in ("rollover", "wish", "end", None):
                self.until_it_is_quick()
                count, before = len(told), self.keeping.place().generation
                if move == "rollover":
                    self.keeping.word("rollover", "shop")
                elif move == "wish":
                    self.assertTrue(self.keeping.referee.wish("shop", "*"))
                elif move == "end":
                    self.keeping.kill(self.keeping.row().holder or "", signal.SIGTERM)
                if move is not None:
                    self.keeping.place(least=before + 1)
                eventually(lambda: len(told) > count + 5, "commits")
        finally:
            stops.set()
            writer.join()
        self.assertEqual(self.texts(), told)

    def test_databases_that_commit_at_once_all_take_the_fast_path(self) -> None:
        names, stops = ("shop", "ship", "shed"), threading.Event()
        for name in names[1:]:
            self.assertTrue(
                self.keeping.referee.create(name, self.keeping.table.read_text(), b"s" * 16)
            )
        self.keeping.ring()
        eventually(lambda: all(self.is_known(name) for name in names), "keepers that know them")

        def write(name: str) -> None:
            with self.keeping.primary(name) as primary:
                while not stops.is_set():
                    self.commit(primary, "x", durable=True)

        writers = [threading.Thread(target=write, args=(name,)) for name in names]
        for writer in writers:
            writer.start()
        try:
            eventually(lambda: self.quick() == set(names), "the fast path of each")
        finally:
            stops.set()
            for writer in writers:
                writer.join()

    def is_known(self, name: str) -> bool:
        try:
            return bool(self.keeping.place(name))
        except UnknownName:
            return False

    def quick(self) -> set[str]:
        """The databases that have it, by the metrics of all keepers."""
        found = [self.keeping.metrics(keeper) for keeper in self.keepers]
        return {
            label
            for metrics in found
            for (name, label), value in metrics.items()
            if name == "pagelog_keeper_quick" and value
        }

    def until_it_is_quick(self) -> None:
        """Until the statement of one block, which nobody else makes, was asked from now on."""
        with psycopg.connect(self.keeping.url, autocommit=True) as session:
            [(now,)] = session.execute("SELECT clock_timestamp()").fetchall()
            asked = "SELECT 1 FROM pg_stat_activity WHERE application_name LIKE %s AND query LIKE %s AND query_start > %s"
            values = ("pagelog keeper%", "%FROM fence RETURNING log%", now)
            eventually(
                lambda: session.execute(asked, values).fetchone() is not None, "the fast path"
            )


def load_tests(loader: unittest.TestLoader, *_: object) -> unittest.TestSuite:
    return unittest.TestSuite(loader.loadTestsFromTestCase(case) for case in _cases())


def _cases() -> Iterator[type[unittest.TestCase]]:
    yield from (
        Tells,
        Shifted,
        Lines,
        Statements,
        Ahead,
        OneTurn,
        Fences,
        Cut,
        Stalled,
        Confirmed,
        CutAsItIsConfirmed,
        Services,
        Trails,
        Ends,
        Without,
        Moves,
    )
