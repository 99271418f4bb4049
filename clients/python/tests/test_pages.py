"""Page servers: byte for byte what the service answers, at each position, over deaths at any moment."""

from __future__ import annotations

import json
import os
import random
import resource
import shutil
import signal
import socket
import struct
import subprocess
import sys
import tempfile
import threading
import time
import unittest
from contextlib import ExitStack, closing, suppress
from itertools import accumulate, product
from pathlib import Path
from typing import Any, Iterator, Sequence
from unittest.mock import patch

import pagelog
import pages_program
import psycopg
from click.testing import CliRunner
from keepers import Keeping, eventually
from pagelog import Block, Connection, Credentials, NamedPrimary, Put, Reader, Zero
from pagelog.archive import Archive
from pagelog.console.board import Board
from pagelog.console.source import Source
from pagelog.credentials import load
from pagelog.cli.words import pagelogctl
from pagelog.errors import ConnectionLost, Unreachable
from pagelog.referee.bases import Bases, make_base
from pagelog.images import Replay
from pagelog.referee.referee import BrokenArchive, Doubt, Referee, digest
from pagelog.referee.rows import PagesRow
from pagelog.run_tokens import token_of
from pagelog.pages import following
from pagelog.pages.bell import Told as Word
from pagelog.pages.following import Follower, PageServerSettings
from pagelog.pages.process import OtherChain, PagesProcess, StoreFailed
from pagelog.pages.serving import PageServers
from pagelog.pages.stores import MOST_ASIDE, SetAside, PageStore, asides_in
from pagelog.place import BelowBase
from pagelog.reply import State, decode_reply
from pagelog.request import Role
from pagelog.rules import AboveTheEnd, UnknownPrincipal
from pagelog.objects.settings import StoreSettings
from service import PATIENCE, TABLE, WIDE_TABLE, Service, plain_environment, token
from test_set_back import SetBack

PAGES = (0, 1, 2, 3, 5, 8, 65536, 65537)


def some_block(lsn: int, random: random.Random) -> Block:
    """Small changes mostly, whole pages and zeros among them."""
    records: list[Put | Zero] = []
    for _ in range(random.randint(1, 4)):
        page, kind = random.choice(PAGES), random.random()
        if kind < 0.1:
            records.append(Zero(page))
        elif kind < 0.15:
            records.append(Put(page, 0, random.randbytes(8192)))
        else:
            offset = random.randrange(8000)
            records.append(Put(page, offset, random.randbytes(random.randint(1, 192))))
    return Block.of(
        lsn,
        records[:3]
        if sum(len(getattr(each, "data", b"")) for each in records) > 30000
        else records,
    )


class Log:
    """Blocks in a service, with the digest of all up to each."""

    def __init__(self, count: int, seed: int) -> None:
        self.random = random.Random(seed)
        self.made = [some_block(lsn, self.random) for lsn in range(1, count + 1)]
        self.blocks = [each.data for each in self.made]
        self.chains = [b""]
        for block in self.blocks:
            self.chains.append(digest(self.chains[-1], [block]))

    def page_at(self, page: int, position: int) -> bytes:
        replay = Replay(lambda _: None)
        replay.apply(self.blocks[:position])
        return {number: data for image in replay.images() for number, data in image.pages()}.get(
            page, bytes(8192)
        )


class Paged(unittest.TestCase):
    def setUp(self) -> None:
        self.folder = Path(self.enterContext(tempfile.TemporaryDirectory(prefix="pagelog-pages-")))
        self.running: list[PagesProcess] = []
        self.addCleanup(
            lambda: [each.kill() for each in self.running if each._process.poll() is None]
        )

    def start(
        self, *options: str, table: str = TABLE.read_text(), folder: str = "store"
    ) -> PagesProcess:
        made = pages_program.started(self.folder / folder, *options)
        self.running.append(made)
        made.set_table(table)
        return made

    def reader(self, address: str) -> Reader:
        return self.enterContext(
            closing(Reader(Connection(address, timeout=PATIENCE), Credentials.of(3, token(3))))
        )

    def feed(self, pages: PagesProcess, log: Log, upto: int) -> None:
        """The blocks behind those that it has, in pieces, confirmed at the end of each."""
        at = pages.where.written
        while at < upto:
            end = min(upto, at + log.random.randint(1, 40))
            pages.add(log.blocks[at:end], log.chains[end])
            at = end


class Pages(Paged):
    def test_pages_are_those_of_the_service_over_kills(self) -> None:
        log = Log(600, 1)
        with Service(table=WIDE_TABLE) as served:
            with closing(served.primary()) as primary:
                list(primary.harden(log.made))
            truth, pages = self.reader(served.address), self.start()
            for upto in (1, 64, 65, 200, 333, 480, 600):
                self.feed(pages, log, upto)
                reader = self.reader(pages.address)
                for _ in range(40):
                    page, position = log.random.choice((*PAGES, 4)), log.random.randint(0, upto)
                    self.assertEqual(
                        reader.page(page, position),
                        truth.page(page, position),
                        (page, position, upto),
                    )
                    newer = reader.page(page, position, exact=False)
                    self.assertEqual((newer.at, newer.data), (upto, truth.page(page, upto).data))
                self.assertEqual(
                    [each.data for each in reader.blocks(1, follow=False)], log.blocks[:upto]
                )
                if log.random.random() < 0.5:
                    pages.flush()
                pages.kill()
                pages = self.start()
                self.assertLessEqual(pages.where.confirmed, upto)

    def test_what_is_in_memory_is_right_at_each_position(self) -> None:
        """Pages that take each other's place there, read again and again, before and behind what changes them."""
        log = Log(240, 31)
        pages = self.start("--cache", "1")  # of which 16 whole pages: 0 and 65536 have one place
        for upto in range(20, 241, 20):
            self.feed(pages, log, upto)
            reader = self.reader(pages.address)
            for _ in range(40):
                page, back = log.random.choice(PAGES), log.random.choice((0, 0, 0, 1, 2, 5, 30))
                position = max(0, upto - back)
                self.assertEqual(
                    reader.page(page, position).data, log.page_at(page, position), (page, position)
                )

    def test_another_chain_is_never_served(self) -> None:
        log, other = Log(50, 2), Log(50, 3)
        pages = self.start()
        pages.add(log.blocks[:10], log.chains[10])
        pages.add(log.blocks[10:20])  # not confirmed
        reader = self.reader(pages.address)
        self.assertEqual(reader.status().hard, 10)
        with self.assertRaises(OtherChain):
            pages.add(log.blocks[20:30], other.chains[30])
        pages.end()
        again = self.start()
        self.assertEqual((again.where.confirmed, again.where.written), (10, 20))
        self.assertEqual(self.reader(again.address).page(0, 10).data, log.page_at(0, 10))

    def test_what_is_no_next_block_ends_it(self) -> None:
        log = Log(5, 4)
        for blocks in (log.blocks[1:2], [log.blocks[0][:-1]], [log.blocks[0] + b"\0"], [b""]):
            with self.subTest(blocks=blocks):
                pages = self.start()
                with self.assertRaises(StoreFailed):
                    pages.add(blocks, log.chains[1])
                pages.end()
        self.assertEqual(self.start().where.written, 0)

    def test_begins_with_images_and_forgets(self) -> None:
        log = Log(300, 5)
        replay = Replay(lambda _: None)
        replay.apply(log.blocks[:100])
        images = [each for image in replay.images() for each in image.pages()]
        aborted = self.start()
        for first in range(
            0, 2048, 256
        ):  # of a base that never was whole: so many that they are written
            aborted._tell(
                b"images 7 256\n",
                *(struct.pack(">I", n) + bytes([1]) * 8192 for n in range(first, first + 256)),
            )
        aborted.flush()
        aborted.kill()
        pages = self.start()
        pages.begin(100, log.chains[100], images)
        self.feed(pages, log, 300)
        reader = self.reader(pages.address)
        for page in (*PAGES, 4):
            for position in (100, 101, 150, 300):
                self.assertEqual(
                    reader.page(page, position).data, log.page_at(page, position), (page, position)
                )
        pages.forget(200)
        with self.assertRaises(Exception) as denied:
            reader.page(0, 199)
        self.assertIn("C10", str(denied.exception))
        for position in (200, 250):
            self.assertEqual(reader.page(1, position).data, log.page_at(1, position))

    def test_what_is_forgotten_goes_and_nothing_else_over_a_kill(self) -> None:
        log = Log(300, 11)
        pages, files = self.start(), lambda: list((self.folder / "store").glob("*.sst"))
        for end in range(50, 301, 50):
            pages.add(log.blocks[end - 50 : end], log.chains[end])
            pages.forget(150 if end >= 150 else 0)
            pages.flush()
        eventually(lambda: len(files()) < 4, "that files are merged, without what is forgotten")
        pages.kill()
        pages = self.start()
        self.assertEqual((pages.where.oldest, pages.where.confirmed), (150, 300))
        reader = self.reader(pages.address)
        for page in PAGES:
            for position in (150, 151, 170, 222, 300):
                self.assertEqual(
                    reader.page(page, position).data, log.page_at(page, position), (page, position)
                )

    def test_a_position_is_told_once_it_can_be_read(self) -> None:
        blocks = [
            Block.of(n, [Put(0, 0, b"%08d" % n), Put(n % 50 + 1, 0, bytes(8000))]).data
            for n in range(1, 2001)
        ]
        pages, done, wrong, asked = self.start(), threading.Event(), [], []

        def read(reader: Reader) -> None:
            while not done.is_set():
                found = reader.page(0, 0, exact=False)
                asked.append(found.at)
                if found.at and found.data[:8] != b"%08d" % found.at:
                    wrong.append((found.at, found.data[:8]))

        threads = [
            threading.Thread(target=read, args=(self.reader(pages.address),)) for _ in range(3)
        ]
        for thread in threads:
            thread.start()
        chain = b""
        for at in range(0, len(blocks), 20):
            piece = blocks[at : at + 20]
            chain = digest(chain, piece)
            pages.add(piece, chain)
        done.set()
        for thread in threads:
            thread.join()
        self.assertEqual(wrong, [])
        self.assertGreater(len(set(asked)), 10)

    def test_a_get_waits_for_its_position_and_not_for_ever(self) -> None:
        log = Log(20, 6)
        pages = self.start("--wait", "60000", "--workers", "1")
        self.feed(pages, log, 10)
        reader, found = self.reader(pages.address), []
        thread = threading.Thread(target=lambda: found.append(reader.page(1, 15).data))
        thread.start()
        other = self.reader(pages.address)
        self.assertEqual(
            other.page(1, 10).data, log.page_at(1, 10)
        )  # by the same thread, which one that waits does not hold up
        pages.add(log.blocks[10:15], log.chains[15])
        thread.join(PATIENCE)
        self.assertEqual(found, [log.page_at(1, 15)])
        short = self.start("--wait", "10", folder="short")
        self.feed(short, log, 10)
        with self.assertRaises(AboveTheEnd) as denied:
            self.reader(short.address).page(1, 11)
        self.assertEqual(denied.exception.value, 10)

    def test_requests_are_refused_as_by_the_service(self) -> None:
        log = Log(30, 7)
        table = (
            TABLE.read_text()
            + '\n[[row]]\nverdict = "allow"\nwho = 5\nrole = "secondary"\nop = ["get", "pull"]\nthrough = 12\n'
        )
        with Service(table=table) as served:
            with closing(served.primary()) as primary:
                list(primary.harden(log.made))
            pages = self.start(table=table, *("--wait", "1"))
            self.feed(pages, log, 30)
            with closing(socket.create_connection(self.split(served.address))) as one, closing(
                socket.create_connection(self.split(pages.address))
            ) as two:
                for n in range(3000):
                    body = self.some_request(log.random)
                    replies = [self.asked(each, body) for each in (one, two)]
                    self.assertEqual(*replies, f"{n}: {body.hex()}")

    def test_each_kind_of_row_decides_as_at_the_service(self) -> None:
        """Of each kind one that allows, before one that denies all, and the other way round: each reply says which row it was."""
        log, kinds = Log(30, 17), [*product(("allow", "deny"), *[(False, True)] * 5)]
        pages, met = self.start("--wait", "1"), set[tuple[int, int]]()
        self.feed(pages, log, 30)
        for first in range(0, len(kinds), 16):
            met |= self.met_rows(log, pages, dict(enumerate(kinds[first : first + 16])), first)
        # Behind one that has no condition no other is met.
        alone = {(n, 3) for n, kind in enumerate(kinds) if not any(kind[1:])}
        self.assertEqual(met, {*product(range(len(kinds)), (2, 3))} - alone)
        self.assertEqual(len(met), 126)

    def met_rows(
        self, log: Log, pages: PagesProcess, kinds: dict[int, tuple[Any, ...]], first: int
    ) -> set[tuple[int, int]]:
        """Asks both, the service in a database for each kind, and returns the rows that the page server was seen to decide by."""
        met = set[tuple[int, int]]()
        with Service(table=WIDE_TABLE, dbs=len(kinds)) as served, closing(
            socket.create_connection(self.split(served.address))
        ) as one, closing(socket.create_connection(self.split(pages.address))) as two:
            for db, kind in kinds.items():
                with closing(served.primary(db=db)) as primary:
                    list(primary.harden(log.made))
                with closing(served.operator(db=db)) as operator:
                    operator.set_table(self.table_of(*kind))
                pages.set_table(self.table_of(*kind))
                for who, secret, role, epoch, op, act in self.requests():
                    head = struct.pack(">I16sBIIB", who, secret, role, db, epoch, op)
                    wanted, found = (self.asked(line, head + act) for line in (one, two))
                    self.assertEqual(found, wanted, f"{kind}: {(head + act).hex()}")
                    if found[4] in (1, 2, 4) or found[4:6] == b"\5\3":  # allowed, if not by the log
                        met.add((first + db, 2 if kind[0] == "allow" else 3))
                    elif found[5] == 2:
                        met.add((first + db, int.from_bytes(found[6:8], "big")))
                for who, role, op in product((3, 5), Role, (1, 2, 3, 6, 8, 9, 10, 11)):
                    head = struct.pack(">I16sBIIB", who, bytes.fromhex(token(who)), role, db, 1, op)
                    row = 4 if role is Role.PRIMARY else 5  # there is no primary, and nothing else
                    self.assertEqual(self.asked(two, head), self.denied(1, row, 0))
        return met

    @staticmethod
    def table_of(verdict: str, *has: bool) -> str:
        conditions = (
            "who = 3",
            'role = "secondary"',
            'op = ["get", "pull"]',
            "from = 7\nto = 7",
            "through = 12",
        )
        wanted = "\n".join(condition for condition, is_there in zip(conditions, has) if is_there)
        other = "deny" if verdict == "allow" else "allow"
        rows = f'[[row]]\nverdict = "{verdict}"\n{wanted}\n[[row]]\nverdict = "{other}"\n'
        operators = '\n[[row]]\nverdict = "allow"\nwho = 1\n'  # who may set the next one
        return TABLE.read_text().partition("[[row]]")[0] + operators + rows

    @staticmethod
    def denied(section: int, row: int, value: int) -> bytes:
        return struct.pack(">IBBHQ", 12, 5, section, row, value)

    @staticmethod
    def requests() -> Iterator[tuple[int, bytes, Role, int, int, bytes]]:
        """Of each role each operation that page servers have, inside and outside of what a row may name, exact: who, with which token, in
        which role and epoch, the operation, and what is behind it."""
        acts = [(7, b"")]
        for position in (0, 1, 12, 13, 30, 31):
            acts += [(4, struct.pack(">IQB", page * 65536, position, 1)) for page in (0, 7)]
            acts += [
                (5, struct.pack(">HHQH", *partitions, position, 16))
                for partitions in ((0, 0), (7, 7), (6, 7))
            ]
        for role, (op, act) in product(Role, acts):
            for who in (3, 5):
                yield who, bytes.fromhex(token(who)), role, 1, op, act
            if op == 7:
                for who, secret, epoch in (
                    (3, token(5), 1),
                    (9, token(9), 1),
                    (3, token(3), 0),
                    (3, token(3), 2),
                ):
                    yield who, bytes.fromhex(secret), role, epoch, op, act

    @staticmethod
    def split(address: str) -> tuple[str, int]:
        host, _, port = address.rpartition(":")
        return host, int(port)

    @staticmethod
    def some_request(random: random.Random) -> bytes:
        """A get, a pull or a status of a secondary or a page server, mostly sound."""
        who = random.choice((3, 3, 4, 5, 1, 9))
        secret = bytes.fromhex(token(who if random.random() < 0.95 else 7))
        op = random.choice((4, 4, 5, 7))
        body = struct.pack(
            ">I16sBIIB",
            who,
            secret,
            random.choice((2, 2, 3)),
            0,
            random.choice((1, 1, 1, 1, 0, 2)),
            op,
        )
        partitions = sorted((random.choice((0, 1, 7, 65535)), random.choice((0, 1, 7, 65535))))
        if op == 4:
            page = random.choice((0, 1, 65536, 7 * 65536, 2**32 - 1))
            body += struct.pack(
                ">IQB",
                page,
                random.choice((0, 1, 12, 13, 30, 31, 2**48, 2**48 + 1)),
                random.choice((1, 1, 2)),
            )
        if op == 5:
            body += struct.pack(
                ">HHQH",
                *random.choice((partitions, partitions[::-1])),
                random.choice((0, 1, 12, 13, 30, 31, 2**48 + 1)),
                random.choice((0, 1, 16, 17)),
            )
        cut = random.random()
        return (
            body[: random.randint(0, len(body))]
            if cut < 0.05
            else body + b"x"
            if cut < 0.1
            else body
        )

    @staticmethod
    def asked(line: socket.socket, body: bytes) -> bytes:
        line.sendall(len(body).to_bytes(4, "big") + body)
        found = b""
        while len(found) < 4 or len(found) < 4 + int.from_bytes(found[:4], "big"):
            found += line.recv(65536) or exit("it ended")
        return (
            found[:9] + found[13:21] if found[4] == 4 else found
        )  # of a status: without its primary, and where blocks came from

    def test_nobody_is_answered_without_a_table_and_connections_are_bounded(self) -> None:
        log = Log(5, 8)
        pages = self.start("--connections", "2")
        self.feed(pages, log, 5)
        first, second = self.reader(pages.address), self.reader(pages.address)
        self.assertEqual([first.status().hard, second.status().hard], [5, 5])
        with closing(socket.create_connection(self.split(pages.address))) as third:
            third.settimeout(PATIENCE)
            self.assertEqual(third.recv(1), b"")
        with closing(socket.create_connection(self.split(pages.address))):
            pages.close_doors()
            eventually(lambda: pages.ask().connections == 0, "the end of all connections")

    def test_where_there_is_no_room_who_was_silent_longest_ends_for_who_comes(self) -> None:
        for number in range(3):  # of two threads one has two of the three
            with self.subTest(number=number):
                self.makes_room(number)

    def makes_room(self, number: int) -> None:
        pages = self.start("--connections", "3", "--silent", "1", "--workers", "2")
        self.addCleanup(pages.end)
        with ExitStack() as stack:
            connected = (
                socket.create_connection(self.split(pages.address), PATIENCE) for _ in range(3)
            )
            lines = [stack.enter_context(closing(line)) for line in connected]
            for line in lines:
                self.assertEqual(self.position_told(line), 0)
            silent = lines.pop(number)

            def has_room() -> bool:
                for line in lines:
                    self.assertEqual(self.position_told(line), 0)
                another = socket.create_connection(self.split(pages.address), PATIENCE)
                with closing(another):
                    return self.position_told(another) == 0

            eventually(has_room, "that one ends for who comes")
            self.assertIsNone(self.position_told(silent))
            self.assertEqual([self.position_told(line) for line in lines], [0, 0])
        pages.end()

    @staticmethod
    def position_told(line: socket.socket) -> int | None:
        """The end that a page server tells over a connection; None where it has ended that."""
        body, found = struct.pack(">I16sBIIB", 3, bytes.fromhex(token(3)), 2, 0, 1, 7), b""
        with suppress(ConnectionError):
            line.sendall(len(body).to_bytes(4, "big") + body)
            while len(found) < 4 or len(found) < 4 + int.from_bytes(found[:4], "big"):
                if not (more := line.recv(4096)):
                    return None
                found += more
            state = decode_reply(found[4:])
            assert isinstance(state, State)
            return state.hard
        return None

    def test_silent_connections_leave_its_files_their_descriptors(self) -> None:
        soft, hard = resource.getrlimit(resource.RLIMIT_NOFILE)
        resource.setrlimit(resource.RLIMIT_NOFILE, (256, hard))
        try:
            pages = self.start()
        finally:
            resource.setrlimit(resource.RLIMIT_NOFILE, (soft, hard))
        log = Log(50, 8)
        self.feed(pages, log, 40)
        with ExitStack() as stack:
            for _ in range(300):
                line = socket.create_connection(self.split(pages.address), PATIENCE)
                stack.enter_context(closing(line))
            self.assertEqual(line.recv(1), b"")  # the last one is too much
            eventually(lambda: pages.ask().connections == 128, "that all others are gone")
            pages.flush()
            self.feed(pages, log, 50)
            pages.flush()
            self.assertEqual(pages.ask().written, 50)

    def test_once_a_table_is_set_or_doors_are_closed_nothing_else_is_under_way(self) -> None:
        base = Block.of(1, [Put(0, n, b"x") for n in range(2000)])
        blocks = [base.at(lsn).data for lsn in range(1, 2001)]
        pages = self.start("--workers", "1")
        pages.add(blocks, digest(b"", blocks))
        # Of a partition that no block touches: all blocks are looked through.
        body = struct.pack(">I16sBIIB", 3, bytes.fromhex(token(3)), 2, 0, 1, 5)
        body += struct.pack(">HHQH", 65535, 65535, 1, 16)
        frame, denied = len(body).to_bytes(4, "big") + body, self.denied(1, 1, 0)
        with closing(socket.create_connection(self.split(pages.address), PATIENCE)) as line:
            self.looks(pages, line, frame * 20)
            pages.set_table(TABLE.read_text().replace(token(3), "ab" * 16))
            line.shutdown(socket.SHUT_WR)
            found = self.until_end(line)
        self.assertTrue(found.endswith(denied), found)
        self.assertEqual(
            found.count(denied) * len(denied) + found.count(b"\0\0\0\x0b\1") * 15, len(found)
        )
        for count in (1, 20):  # the last one, and one of many whose replies are sent together
            pages.set_table(TABLE.read_text())
            with closing(socket.create_connection(self.split(pages.address), PATIENCE)) as line:
                self.looks(pages, line, frame * count)
                pages.close_doors()
                closed = self.ticks(pages)
                found = self.until_end(line)
                self.assertLessEqual(self.ticks(pages) - closed, 2, "it looks on")
                self.assertLessEqual(len(found), 15 if count == 1 else 0, found)

    def looks(self, pages: PagesProcess, line: socket.socket, frames: bytes) -> None:
        before = self.ticks(pages)
        line.sendall(frames)
        eventually(lambda: self.ticks(pages) > before + 1, "that it looks")

    @staticmethod
    def until_end(line: socket.socket) -> bytes:
        found = b""
        with suppress(ConnectionResetError):  # not all of it was read there
            while more := line.recv(65536):
                found += more
        return found

    @staticmethod
    def ticks(pages: PagesProcess) -> int:
        """Of a processor, that it has taken."""
        text = Path(f"/proc/{pages.pid}/stat").read_text().rpartition(")")[2].split()
        return int(text[11]) + int(text[12])

    def test_what_is_asked_together_is_read_of_the_disk_together(self) -> None:
        images = {number: random.Random(number).randbytes(8192) for number in range(2000)}
        pages = self.start("--workers", "1", "--readers", "3", "--direct")
        pages.begin(1, b"c" * 16, images.items())
        pages.end()
        pages = self.start("--workers", "1", "--readers", "3", "--direct")
        drawn = random.Random(10).sample(range(100, 2000), 640)
        with closing(socket.create_connection(self.split(pages.address), PATIENCE)) as line:
            before = self.switches(pages, "reader", 3)
            for first in range(0, len(drawn), 64):
                self.ask_together(line, images, drawn[first : first + 64])
            self.assertGreater(self.switches(pages, "reader", 3), before + 60)
            for _ in range(3):  # until all of it is in memory, and that is known
                self.ask_together(line, images, range(64))
            before = self.switches(pages, "reader", 3)
            for _ in range(10):
                self.ask_together(line, images, range(64))
            # Those of memory wake nobody; one that rests wakes twice by itself to let go of what it holds.
            self.assertLess(self.switches(pages, "reader", 3), before + 10)

    def test_threads_that_rest_hold_no_files(self) -> None:
        images = {number: random.Random(number).randbytes(8192) for number in range(1000)}
        blocks = [
            Block.of(lsn, [Put(page, 8000, b"%d" % lsn) for page in range(0, 1000, 5)]).data
            for lsn in range(2, 10)
        ]
        pages = self.start("--workers", "1", "--readers", "2")
        files = lambda: {*(self.folder / "store").glob("*.sst")}  # noqa: E731
        pages.begin(1, b"c" * 16, images.items())
        with closing(socket.create_connection(self.split(pages.address), PATIENCE)) as line:
            for first in range(0, 960, 64):  # the worker and both readers
                self.ask_together(line, images, range(first, first + 64))
            before = files()
            for block in blocks:
                pages.add([block])
                pages.flush()
            eventually(lambda: not before & files(), "that what was merged is deleted")

    def test_threads_that_rest_hold_no_files_where_nothing_is_written(self) -> None:
        """The files of a base become one some time after it has begun."""
        images = {number: random.Random(number).randbytes(8192) for number in range(6000)}
        pages = self.start("--workers", "1", "--readers", "2")
        drawn = random.Random(1).sample(sorted(images), len(images))
        pages.begin(1, b"c" * 16, ((number, images[number]) for number in drawn))
        with closing(socket.create_connection(self.split(pages.address), PATIENCE)) as line:
            for first in range(0, 640, 64):
                self.ask_together(line, images, drawn[first : first + 64])
            files = (self.folder / "store").glob
            eventually(lambda: len([*files("*.sst")]) == 1, "that what was merged is deleted")

    def ask_together(
        self, line: socket.socket, images: dict[int, bytes], numbers: Sequence[int]
    ) -> None:
        frames = [
            struct.pack(">II16sBIIBIQB", 43, 3, bytes.fromhex(token(3)), 2, 0, 1, 4, number, 1, 1)
            for number in numbers
        ]
        line.sendall(b"".join(frames))
        with line.makefile("rb") as replies:
            for number in numbers:
                self.assertEqual(replies.read(13), struct.pack(">IBQ", 8201, 2, 1))
                self.assertEqual(replies.read(8192), images[number])

    @staticmethod
    def switches(pages: PagesProcess, name: str, count: int) -> int:
        """How often so many threads of this name have rested, once all of them do."""
        folder = Path(f"/proc/{pages.pid}/task")

        def tasks() -> list[Path]:
            return [each for each in folder.iterdir() if (each / "comm").read_text() == f"{name}\n"]

        def states() -> list[str]:
            return [(task / "stat").read_text().rpartition(")")[2].split()[0] for task in tasks()]

        eventually(lambda: states() == ["S"] * count, "that all rest")
        texts = [(each / "status").read_text() for each in tasks()]
        return sum(
            int(text.partition("\nvoluntary_ctxt_switches:")[2].split()[0]) for text in texts
        )

    def test_the_program_says_its_version(self) -> None:
        said = subprocess.run(
            [pages_program.program(), "--version"],
            capture_output=True,
            text=True,
            check=True,
            env=plain_environment(),
        ).stdout
        wanted = f"pagelog-pages, version {pagelog.__version__}, from a source tree\n"
        self.assertEqual(said, wanted)

    def test_each_thread_has_as_many_connections_as_the_others(self) -> None:
        pages = self.start("--workers", "4")
        for _ in range(8):
            self.enterContext(closing(socket.create_connection(self.split(pages.address))))
        eventually(lambda: sorted(self.of_each_poll(pages)) == [2, 2, 2, 2], "that they are spread")
        pages.close_doors()
        eventually(lambda: pages.ask().connections == 0, "the end of all connections")
        pages.set_table(TABLE.read_text())
        for _ in range(4):
            self.enterContext(closing(socket.create_connection(self.split(pages.address))))
        eventually(lambda: sorted(self.of_each_poll(pages)) == [1, 1, 1, 1], "that they are spread")

    @staticmethod
    def of_each_poll(pages: PagesProcess) -> list[int]:
        """How many connections each thread listens to, which has a listener too."""
        folder, found = Path(f"/proc/{pages.pid}"), []
        for file in (folder / "fd").iterdir():
            with suppress(OSError):  # closed meanwhile
                if "eventpoll" in os.readlink(file):
                    text = (folder / "fdinfo" / file.name).read_text()
                    watched = [line.split()[1] for line in text.splitlines() if "tfd:" in line]
                    names = [os.readlink(folder / "fd" / each) for each in watched]
                    found.append(sum(name.startswith("socket:") for name in names) - 1)
        return found

    def test_one_that_reads_nothing_and_one_that_is_stopped_hold_up_nobody(self) -> None:
        log = Log(40, 9)
        pages = self.start("--workers", "1")
        self.feed(pages, log, 40)
        body = struct.pack(">I16sBIIBIQB", 3, bytes.fromhex(token(3)), 2, 0, 1, 4, 1, 40, 1)
        with closing(socket.create_connection(self.split(pages.address))) as greedy:
            greedy.setblocking(False)
            frame, sent = len(body).to_bytes(4, "big") + body, 0
            try:
                while sent < 64 << 20:
                    sent += greedy.send(frame * 100)
            except BlockingIOError:
                pass
            self.assertEqual(self.reader(pages.address).page(1, 40).data, log.page_at(1, 40))
        os.kill(pages.pid, signal.SIGSTOP)
        os.kill(pages.pid, signal.SIGCONT)
        self.assertEqual(self.reader(pages.address).page(1, 39).data, log.page_at(1, 39))


class Served(unittest.TestCase):
    """Page servers of a database under a keeper."""

    store: StoreSettings | None = None

    def setUp(self) -> None:
        self.keeping = self.enterContext(self.new_keeping())
        self.keeping.referee.prepare()
        self.assertTrue(
            self.keeping.referee.create("shop", self.keeping.table.read_text(), b"s" * 16)
        )
        self.keeping.start("a")
        self.said: list[str] = []

    def new_keeping(self) -> Keeping:
        return Keeping(ttl=1.0, standby=False)

    @property
    def folder(self) -> Path:
        """Of the stores."""
        return self.keeping.folder / "stores"

    def servers(self) -> PageServers:
        settings = PageServerSettings(
            pages_program.program(),
            self.folder,
            "127.0.0.1",
            "here",
            ("--cache", "8", "--memtable", "1"),
        )
        self.made = made = PageServers(
            settings,
            lambda me: Referee(self.keeping.url, me, store=self.store),
            ["shop"],
            lambda name, said: self.said.append(f"{name}: {said}"),
        )
        self.serving = thread = threading.Thread(target=made.run)
        thread.start()

        def end() -> None:
            made.end()
            thread.join()

        self.addCleanup(end)
        return made

    def entries(self) -> list[tuple[str, str, int]]:
        with psycopg.connect(self.keeping.url, autocommit=True) as session:
            return session.execute(
                "SELECT run, address, position FROM pagelog_pages WHERE log = %s ORDER BY beat DESC",
                (self.keeping.row().id,),
            ).fetchall()

    def reader(self, run: str, address: str) -> Reader:
        credentials = Credentials(3, token_of(bytes.fromhex(token(3)), "shop", run))
        return self.enterContext(
            closing(Reader(Connection(address, timeout=PATIENCE), credentials))
        )

    def follows_to(self, position: int) -> tuple[str, str]:
        def is_there() -> bool:
            found[:] = [each[:2] for each in self.entries() if each[2] >= position]
            return bool(found)

        found: list[tuple[str, str]] = []
        eventually(is_there, f"a page server at {position}: {self.said}")
        return found[0]

    def asides(self) -> list[SetAside]:
        return asides_in(self.folder)

    @staticmethod
    def commit(primary: NamedPrimary, n: int) -> int:
        primary.append(Put(n % 4, 0, b"%08d" % n))
        return primary.commit(durable=True)


class Stored(Served):
    """What is to be followed is in an object store, and there alone."""

    def new_keeping(self) -> Keeping:
        keeping = super().new_keeping()
        self.objects = Path(self.enterContext(tempfile.TemporaryDirectory()))
        keeping.stores(self.objects, seal="4KiB", age="0s", tail="0s")
        self.store = StoreSettings(f"file://{self.objects}")
        return keeping

    def commits(self) -> list[int]:
        """Archives, some before a base and some behind it, until PostgreSQL has nothing of it."""
        with self.keeping.primary() as primary:
            positions = [self.commit(primary, n) for n in range(10)]
            eventually(lambda: self.here()[2] == positions[-1], "objects that end before the base")
            self.keeping.word("rollover", "shop")
            eventually(lambda: self.keeping.row().images > 0, "a base")
            positions += [self.commit(primary, n) for n in range(10, 20)]
        eventually(
            lambda: self.here() == (0, 0, positions[-1]), "all in the store, and there alone"
        )
        return positions

    def here(self) -> tuple[int, int, int]:
        """How many blocks and images PostgreSQL has, and up to where the store has them."""
        [[blocks, images, cut]] = self.keeping.referee._ask(
            "SELECT (SELECT count(*) FROM pagelog_block), (SELECT count(*) FROM pagelog_image WHERE data <> ''), "
            "(SELECT max(cut) FROM pagelog_store)"
        )
        return int(blocks), int(images), int(cut or 0)

    def follows(self, positions: list[int], first: int) -> None:
        """A new page server has the pages of these from number `first` on."""
        self.servers()
        run, address = self.follows_to(positions[-1])
        reader = self.reader(run, address)
        for n, position in list(enumerate(positions))[first:]:
            self.assertEqual(reader.page(n % 4, position).data[:8], b"%08d" % n, position)

    def test_it_begins_with_the_first_block(self) -> None:
        self.follows(self.commits(), 0)

    def test_it_begins_with_the_images_of_a_base(self) -> None:
        positions = self.commits()
        row = self.keeping.row()
        bases = Bases(self.keeping.referee, row.id)
        base = bases.newest(row.archived)
        self.assertGreater(bases.prune(base.position), 0)
        self.follows(positions, sum(position < base.position for position in positions))


class Kept(Served):
    def test_it_follows_over_a_succession_a_kill_and_a_new_table(self) -> None:
        with self.keeping.primary() as primary:
            positions = [self.commit(primary, n) for n in range(10)]
            self.servers()
            run, address = self.follows_to(positions[-1])
            generation = self.keeping.place().generation
            self.keeping.word("rollover", "shop")
            self.keeping.place(least=generation + 1)
            positions += [self.commit(primary, n) for n in range(10, 20)]
            os.kill(self.keeping.pid(), signal.SIGKILL)
            positions += [self.commit(primary, n) for n in range(20, 30)]
        self.assertEqual(self.follows_to(positions[-1]), (run, address))
        reader = self.reader(run, address)
        for n, position in enumerate(positions):
            self.assertEqual(reader.page(n % 4, position).data[:8], b"%08d" % n, position)
        with self.assertRaises(UnknownPrincipal):
            self.reader("another", address).status()
        self.keeping.referee.close()
        row = self.keeping.row()
        text = self.keeping.referee.table(row.id).text.replace(token(3), "ab" * 16)
        self.assertEqual(self.keeping.referee.set_table(row, text, 1), 2)

        def is_barred() -> bool:
            try:
                reader.status()
                return False
            except UnknownPrincipal:
                return True

        eventually(is_barred, "the newest table")

    def test_readers_find_it_and_do_without_it(self) -> None:
        with self.keeping.primary() as primary:
            positions = [self.commit(primary, n) for n in range(10)]
            with self.keeping.reader() as alone:
                self.assertEqual(alone.page(1, positions[1]).data[:8], b"%08d" % 1)
                self.assertEqual(alone._copies.asked_of, 0)  # type: ignore[union-attr]
            self.servers()
            self.follows_to(positions[-1])
            eventually(lambda: self.keeping.place().pages == 1, "that keepers tell of it")
            row = self.keeping.row()
            base = make_base(self.keeping.referee, row.id, row.archived, row.chain)
            with psycopg.connect(self.keeping.url, autocommit=True) as session:
                session.execute(
                    "DELETE FROM pagelog_block WHERE log = %s AND lsn <= %s",
                    (row.id, base.position),
                )
            generation = self.keeping.place().generation
            os.kill(self.keeping.pid(), signal.SIGKILL)
            self.assertEqual(self.keeping.place(least=generation + 1).base, base.position)
            positions += [self.commit(primary, n) for n in range(10, 20)]
        with self.keeping.reader(durable_only=True) as reader, self.keeping.reader(
            pages="only"
        ) as only, self.keeping.reader(pages="never") as never:
            eventually(lambda: only.end() == positions[-1], "all that is durable")
            self.assertEqual(reader.end(), positions[-1])
            for n, position in enumerate(positions):
                for each in (reader, only):
                    self.assertEqual(
                        each.page(n % 4, position).data[:8], b"%08d" % n
                    )  # also from before the generation
            self.assertEqual([each._copies.asked_of > 0 for each in (reader, only)], [True, True])  # type: ignore[union-attr]
            with self.assertRaises(BelowBase):
                never.page(0, positions[0])
            with self.keeping.reader() as fresh:  # which knows of no page server before it has asked the service in vain
                self.assertEqual(fresh.page(0, positions[0]).data[:8], b"%08d" % 0)
            with self.assertRaises(AboveTheEnd):
                only.page(0, positions[-1] + 1)
            [process] = [each[0]._process for each in self.made._running.values()]
            os.kill(process.pid, signal.SIGKILL)  # type: ignore[union-attr]
            self.assertEqual(reader.page(3, positions[-1]).data[:8], b"%08d" % 19)
            self.assertEqual(only.page(3, positions[-1]).data[:8], b"%08d" % 19)
            self.assertEqual(only.end(), positions[-1])

    def test_it_begins_with_a_base_and_is_made_again(self) -> None:
        with self.keeping.primary() as primary:
            for n in range(12):
                position = self.commit(primary, n)
        row = self.keeping.row()
        base = make_base(
            self.keeping.referee,
            row.id,
            position - 2,
            digest(b"", self.keeping.archive()[: position - 2]),
        )
        with psycopg.connect(self.keeping.url, autocommit=True) as session:
            session.execute(
                "DELETE FROM pagelog_block WHERE log = %s AND lsn <= %s", (row.id, base.position)
            )
        servers = self.servers()
        run, address = self.follows_to(position)
        reader = self.reader(run, address)
        for page in range(4):
            self.assertEqual(reader.page(page, position).data[:8], b"%08d" % (8 + page))
        # PostgreSQL goes back by two blocks, and another history goes on there.
        follower = servers._running[row.identity][0]
        with psycopg.connect(self.keeping.url, autocommit=True) as session:
            [[chain]] = session.execute(
                "SELECT chain FROM pagelog_base WHERE log = %s", (row.id,)
            ).fetchall()
            session.execute(
                "UPDATE pagelog_log SET archived = %s, chain = %s WHERE id = %s",
                (base.position, chain, row.id),
            )
        eventually(
            lambda: any("it begins again" in each for each in self.said), "that it begins again"
        )
        eventually(lambda: follower.address not in (None, address), "another one")
        self.assertNotEqual(self.follows_to(base.position)[0], run)
        self.assertEqual(
            [(each.oldest, each.last) for each in self.asides()], [(base.position, position)]
        )

    def test_where_blocks_are_gone_below_a_base_it_begins_with_that(self) -> None:
        """As where PostgreSQL went back, and a service continued that had begun with newer images."""
        runs: list[str] = []

        def follow(position: int) -> str:
            """Until it is there, by a store that was not seen yet; then it ends. Returns what is in its pages."""
            servers, found = self.servers(), list[tuple[str, str]]()

            def is_there() -> bool:
                found[:] = [
                    (run, address)
                    for run, address, end in self.entries()
                    if run not in runs and end == position
                ]
                return bool(found)

            eventually(is_there, f"a page server at {position}: {self.said}")
            runs.append(found[0][0])
            reader = self.reader(*found[0])
            pages = [reader.page(page, position).data[:8].decode() for page in range(4)]
            servers.end()
            self.serving.join()
            return " ".join(pages)

        with self.keeping.primary() as primary:
            positions = [self.commit(primary, n) for n in range(4)]
            self.assertEqual(follow(positions[-1]), "00000000 00000001 00000002 00000003")
            positions += [self.commit(primary, n) for n in range(4, 12)]
        row, blocks = self.keeping.row(), self.keeping.archive()
        for base in (positions[1], positions[9]):
            make_base(self.keeping.referee, row.id, base, digest(b"", blocks[:base]))
        with psycopg.connect(self.keeping.url, autocommit=True) as session:
            session.execute(
                "DELETE FROM pagelog_block WHERE log = %s AND lsn > %s AND lsn <= %s",
                (row.id, positions[4], positions[9]),
            )
        for _ in ("what was followed before", "nothing"):  # is in its folder
            self.assertEqual(follow(positions[-1]), "00000008 00000009 00000010 00000011")
            shutil.rmtree(self.folder)

    def test_of_a_database_that_was_dropped_nobody_is_answered(self) -> None:
        with self.keeping.primary() as primary:
            position = self.commit(primary, 1)
        # By its own look, and not as it is ended by who looks which databases there are.
        self.enterContext(patch("pagelog.pages.serving._NAMES", PATIENCE))
        self.servers()
        run, address = self.follows_to(position)
        reader = self.reader(run, address)
        self.assertEqual(reader.status().hard, position)
        self.keeping.referee.close()
        self.assertTrue(self.keeping.referee.drop("shop"))
        self.assertTrue(
            self.keeping.referee.create("shop", self.keeping.table.read_text(), b"t" * 16)
        )
        eventually(
            lambda: any("no database shop of this identity" in each for each in self.said),
            "that it is gone",
        )
        with self.assertRaises((ConnectionLost, Unreachable)):
            reader.status()
        self.assertIn(
            f"of a database that is gone: store {run} of shop",
            self.keeping.word("pages", "--folder", self.folder, "--list"),
        )


class Begun(Served):
    """PostgreSQL is away as a page server begins."""

    def test_it_begins_once_postgresql_is_there(self) -> None:
        with self.keeping.primary() as primary:
            position = self.commit(primary, 1)
        left, look = [3], following.look

        def failing(*given: Any, **options: Any) -> Any:
            left[0] -= 1
            if left[0] >= 0:
                raise Doubt("PostgreSQL is away")
            return look(*given, **options)

        with patch("pagelog.pages.following.look", failing):
            self.servers()
            run, address = self.follows_to(position)
        self.assertEqual(self.reader(run, address).page(1, position).data[:8], b"%08d" % 1)


class Told(Served):
    """By the keeper, of what is archived: here PostgreSQL is not asked of itself."""

    def setUp(self) -> None:
        super().setUp()
        for name, seconds in (("_SOON", 3600.0), ("_RARELY", 3600.0), ("_LOOK", 3600.0)):
            self.enterContext(patch(f"pagelog.pages.following.{name}", seconds))

    def follower(self) -> Follower:
        return self.made._running[self.keeping.row().identity][0]

    def comes(self, position: int) -> float:
        """How long it takes until it can be read."""
        began = time.monotonic()
        while self.follower()._process.where.confirmed < position:  # type: ignore[union-attr]
            self.assertLess(time.monotonic() - began, PATIENCE, position)
            time.sleep(0.0002)
        return time.monotonic() - began

    def test_each_commit_can_be_read_at_once_over_a_succession_and_a_kill(self) -> None:
        with self.keeping.primary() as primary:
            first = self.commit(primary, 0)
            self.servers()
            run, address = self.follows_to(first)
            eventually(lambda: self.follower()._bell.hears, "the keeper")
            took = [self.comes(self.commit(primary, n)) for n in range(1, 200)]
            generation = self.keeping.place().generation
            self.keeping.word("rollover", "shop")
            self.keeping.place(least=generation + 1)
            self.comes(self.commit(primary, 200))
            os.kill(self.keeping.pid(), signal.SIGKILL)
            self.comes(last := self.commit(primary, 201))
            quick = self.follower()._looks
        self.assertLess(
            sorted(took)[len(took) // 2], 0.9
        )  # a question is answered after 1 s anyhow
        self.assertLess(quick, 20)
        reader = self.reader(run, address)
        for n in range(198, 202):
            self.assertEqual(reader.page(n % 4, last - 201 + n).data[:8], b"%08d" % n)

    def test_what_a_keeper_says_is_taken_where_the_blocks_have_that_digest(self) -> None:
        settings = PageServerSettings(
            pages_program.program(),
            self.folder,
            "127.0.0.1",
            "here",
            ("--cache", "8", "--memtable", "1"),
        )
        self.folder.mkdir()
        with self.keeping.primary() as primary, closing(Referee(self.keeping.url)) as referee:
            first = self.commit(primary, 0)
            follower = Follower(
                settings, referee, "shop", self.keeping.row().identity, lambda *_: None
            )
            follower._begin()
            follower._bell.end()
            self.addCleanup(follower._stop)
            second = self.commit(primary, 1)
            process, row = follower._process, self.keeping.row()
            assert process is not None
            for position, chain, is_taken in (
                (second, b"x" * 16, False),
                (first, b"x" * 16, True),
                (second, row.chain, True),
            ):
                self.assertIs(follower._take(Word(position, chain)), is_taken)
                self.assertEqual(
                    process.ask().confirmed, second if is_taken and position == second else first
                )
            with patch.object(referee, "turn_hosts") as turned:  # an older leader may lack it
                with self.assertRaisesRegex(BrokenArchive, "5 of the archived blocks"):
                    follower._take(Word(second + 5, b"x" * 16))
                turned.assert_called_once()
            self.assertIsNone(referee.descriptor, "another connection comes next")

    def test_it_says_where_it_is_while_it_catches_up(self) -> None:
        settings = PageServerSettings(
            pages_program.program(),
            self.folder,
            "127.0.0.1",
            "here",
            ("--cache", "8", "--memtable", "1"),
        )
        self.folder.mkdir()
        with self.keeping.primary() as primary:
            for n in range(10):
                self.commit(primary, n)
        blocks = self.keeping.archive()
        one_by_one = patch.object(
            Referee,
            "blocks",
            lambda _, log, first, last: ([block] for block in blocks[first - 1 : last]),
        )
        with one_by_one, patch("pagelog.pages.following._LOOK", 0.0), closing(
            Referee(self.keeping.url)
        ) as referee:
            follower = Follower(
                settings, referee, "shop", self.keeping.row().identity, lambda *_: None
            )
            self.addCleanup(follower._stop)
            follower._begin()
            follower._bell.end()
            self.assertGreaterEqual(follower._looks, len(blocks))

    def test_the_line_is_held_back_and_says_of_what(self) -> None:
        with self.keeping.primary() as primary, self.keeping.line() as line:
            position, of = self.commit(primary, 0), f"of={self.keeping.row().identity}"

            def asked(words: str) -> list[str]:
                line.write(f"{words}\n")
                line.flush()
                return line.readline().split()  # type: ignore[no-any-return]

            asked("hello 2")
            chain = self.keeping.row().chain.hex()
            run = f"{of}/{self.keeping.place().run}"
            self.assertEqual(
                asked(f"confirmed shop {position - 1} {of}"),
                ["confirmed", "shop", str(position), chain, run],
            )
            began = time.monotonic()
            line.write(f"confirmed shop {position} {of}\n")
            line.flush()
            with self.keeping.line() as beside:  # another page server's question answers nobody
                beside.write(f"hello 2\nconfirmed shop {position} {of}\n")
                beside.flush()
                self.assertEqual(
                    line.readline().split(), ["confirmed", "shop", str(position), chain, run]
                )
                self.assertGreater(time.monotonic() - began, 0.9)
            other = f"of={'0' * 8}-{'0' * 4}-4{'0' * 3}-8{'0' * 3}-{'0' * 12}"
            self.assertEqual(asked(f"confirmed shop 0 {other}"), ["elsewhere", "shop", "0", other])
            self.assertEqual(asked("confirmed shop 0"), ["elsewhere", "shop", "0"])
            told = ["confirmed", "shop", str(position)]

            def is_at_once() -> bool:
                """The first question is answered as there is a second, which is after a second."""
                line.write(f"confirmed shop {position} {of}\nconfirmed shop {position} {of}\n")
                line.flush()
                began = time.monotonic()
                self.assertEqual(line.readline().split()[:3], told)
                took = time.monotonic() - began
                self.assertEqual(line.readline().split()[:3], told)
                return took < 0.9

            eventually(is_at_once, "an answer before its time")
            line.write(f"confirmed shop {position} {of}\n")
            line.flush()
            after = self.commit(primary, 1)
            self.assertEqual(line.readline().split()[:3], ["confirmed", "shop", str(after)])


class Apart(Served):
    """One of two page servers is a process of its own, on another machine."""

    def apart(self) -> subprocess.Popen[str]:
        words = [
            sys.executable,
            "-m",
            "pagelog",
            "pages",
            "shop",
            "--folder",
            self.keeping.folder / "apart",
            "--program",
            pages_program.program(),
            "--machine",
            "there",
            "--cache",
            "8",
            "--credentials",
            self.keeping.file,
        ]
        process = subprocess.Popen(
            list(map(str, words)),
            stderr=subprocess.DEVNULL,
            text=True,
            env=self.keeping.environment,
        )

        def ended() -> None:
            process.kill()
            process.wait()

        self.addCleanup(ended)
        return process

    def at(self, machine: str) -> PagesRow:
        """The page server there."""
        found: list[PagesRow] = []

        def is_there() -> bool:
            look = self.keeping.referee.everything()
            found[:] = [
                each
                for row in look.rows
                if row.name == "shop"
                for each in look.pages_of(row.id)
                if each.machine == machine and each.table_number
            ]
            return bool(found)

        eventually(is_there, f"a page server at {machine}")
        return found[0]

    def run_word(self, *words: object) -> tuple[int, str]:
        done = CliRunner().invoke(
            pagelogctl, [*map(str, words), "--credentials", str(self.keeping.file)]
        )
        return done.exit_code, done.output


class Still(Apart):
    """One of two hears nothing more of PostgreSQL, and its program goes on answering."""

    def test_who_asks_page_servers_alone_is_led_to_one_that_lives(self) -> None:
        with self.keeping.primary() as primary:
            position, still = self.commit(primary, 1), self.apart()
            eventually(lambda: self.at("there").position >= position, "the first one")
            with self.keeping.reader(pages="only") as reader:
                eventually(lambda: reader.end() == position, "what is durable, there")
                self.servers()
                eventually(lambda: self.at("here").position >= position, "the second one")
                still.send_signal(signal.SIGSTOP)
                position = self.commit(primary, 2)
                eventually(lambda: reader.end() == position, "what is durable since")
                self.assertEqual(reader.page(2, position).data[:8], b"%08d" % 2)


class Tables(Apart):
    def renewed(self, old: str, new: str) -> tuple[int, str]:
        """Principal 3 gets another token, which its readers have then."""
        file = self.keeping.folder / "token"
        file.write_text(new)
        return self.run_word("token", "shop", 3, "--to", file, "--within", 20)

    def is_denied(self, pages: PagesRow, used: str) -> bool:
        credentials = Credentials(3, token_of(bytes.fromhex(used), "shop", pages.run))
        try:
            with closing(
                Reader(Connection(pages.address, timeout=PATIENCE), credentials)
            ) as reader:
                reader.status()
            return False
        except UnknownPrincipal:
            return True

    def test_a_rotated_token_ends_there_before_the_word_returns(self) -> None:
        with self.keeping.primary() as primary:
            self.commit(primary, 1)
        self.servers()
        process, tokens = self.apart(), [token(3), *(f"{n:032x}" for n in range(1, 5))]
        here, there = self.at("here"), self.at("there")
        status, said = self.renewed(*tokens[:2])
        self.assertEqual((status, said.splitlines()[-1]), (0, "table 2 of shop is in force"))
        for pages in (here, there):
            self.assertEqual([self.is_denied(pages, each) for each in tokens[:2]], [True, False])
        process.send_signal(signal.SIGSTOP)  # its program goes on answering
        status, said = self.renewed(*tokens[1:3])
        self.assertEqual(status, 3)
        self.assertIn(
            "table 3 of shop is in force, but at 1 of its page servers:\n"
            f"page server {there.run} at there does not answer",
            said,
        )
        self.assertEqual(
            [self.is_denied(pages, tokens[1]) for pages in (here, there)], [True, False]
        )
        process.send_signal(signal.SIGCONT)
        self.assertEqual(self.run_word("table", "shop"), (0, "table 3 of shop is in force\n"))
        self.assertTrue(self.is_denied(there, tokens[1]))
        process.terminate()
        process.wait()
        self.assertEqual(self.renewed(*tokens[2:4])[0], 0)  # it has ended in order
        process = self.apart()
        eventually(
            lambda: self.at("there").table_number == 4 and not self.at("there").has_ended,
            "it again",
        )
        process.kill()
        self.assertEqual(self.renewed(*tokens[3:5])[0], 3)
        with psycopg.connect(self.keeping.url, autocommit=True) as session:
            session.execute(
                "UPDATE pagelog_pages SET seen = seen - interval '1 minute' WHERE run = %s",
                (there.run,),
            )
        began = time.monotonic()
        self.assertEqual(self.run_word("table", "shop", "--within", 600)[0], 3)
        # One that has been silent for long is not waited for.
        self.assertLess(time.monotonic() - began, 300)
        self.assertEqual(self.run_word("forget", there.run, "--yes")[0], 0)
        self.assertEqual(self.run_word("table", "shop"), (0, "table 5 of shop is in force\n"))


class Gone(Apart):
    """One of two page servers is gone."""

    def new_keeping(self) -> Keeping:
        return Keeping(ttl=1.0, standby=False, more='metrics = "127.0.0.1:0"\n')

    def known(self) -> list[float | None]:
        found = self.keeping.metrics()
        return [
            found.get((f"pagelog_keeper_pages{what}", "shop"))
            for what in ("", "_gone", "_behind", "_aside")
        ]

    def test_it_is_shown_until_it_is_forgotten(self) -> None:
        with self.keeping.primary() as primary:
            position = self.commit(primary, 1)
            self.assertEqual(self.known(), [0, 0, None, 0])
            self.servers()
            left, _ = self.follows_to(position)
            other = self.apart()
            eventually(lambda: self.known() == [2, 0, 0, 0], f"two that live: {self.said}")
            gone = self.at("there").run
            other.terminate()
            eventually(
                lambda: self.known() == [1, 0, 0, 0], "one of them, as the other has ended in order"
            )
            self.assertIn("there ended", self.keeping.word("list", "--wide"))
            other = self.apart()
            eventually(lambda: self.known() == [2, 0, 0, 0], "both")
            other.kill()
            eventually(lambda: self.known() == [1, 1, 0, 0], "one of them")
            for words, why in (
                (("forget", left, "--yes"), "was heard"),
                (("forget", "nobody"), "there is no keeper nobody, and no page server"),
            ):
                status, said = self.run_word(*words)
                self.assertEqual((status, why in said), (1, True), said)
            board, source = Board(), self.enterContext(closing(Source(self.keeping.url)))
            board.take(source.look(), 1.0)
            with psycopg.connect(self.keeping.url, autocommit=True) as session:
                session.execute(
                    "UPDATE pagelog_pages SET seen = seen - interval '1 minute' WHERE log = %s",
                    (self.keeping.row().id,),
                )
            eventually(lambda: not self.at("here").is_gone, "one that is heard again")
            board.take(source.look(), 2.0)
            self.assertIn(
                "its page server at there is not heard of",
                [event.text for _, event in board._events],
            )
            self.assertEqual(
                sorted(each["gone"] for each in board._rows["shop"].fields["pages"]), [False, True]
            )
            kept = self.keeping.word("list", "--wide")
            self.assertIn(f"gone: page server {gone} of shop at there, not heard for ", kept)
            self.assertIn(f"here at {position}", kept)
            self.assertIn("there gone", kept)
            facts = json.loads(self.keeping.word("list", "--json"))["page_servers"]
            self.assertEqual(
                {each["run"]: each["gone"] for each in facts}, {left: False, gone: True}
            )
            self.assertIn(
                f"the entry of page server {gone} of shop",
                self.keeping.word("forget", gone, "--yes"),
            )
            eventually(lambda: self.known() == [1, 0, 0, 0], "that it is forgotten")
            self.apart()  # and it comes back
            eventually(lambda: {each[0] for each in self.entries()} == {left, gone}, "both")


class WentBack(Served):
    """PostgreSQL goes back: what it has lost a page server has still."""

    def archived(self, position: int, chain: bytes) -> None:
        """PostgreSQL has positions up to this one alone, all at once."""
        with psycopg.connect(self.keeping.url, autocommit=True) as session:
            session.execute(
                "UPDATE pagelog_log SET archived = %s, chain = %s WHERE id = %s",
                (position, chain, self.keeping.row().id),
            )

    def goes_back(self, chains: list[bytes], position: int) -> None:
        """PostgreSQL goes back to there, and another store is made."""
        before = self.entries()[0][0]
        self.archived(position, chains[position])
        eventually(
            lambda: [each for each in self.entries() if each[0] != before and each[2] == position]
            != [],
            f"{position}: {self.said}",
        )

    def written(self) -> tuple[list[int], list[bytes]]:
        """Some commits, whose keeper stands still then; and the digests of all blocks up to each."""
        with self.keeping.primary() as primary:
            positions = [self.commit(primary, n) for n in range(12)]
        chains = list(
            accumulate(
                self.keeping.archive(), lambda chain, block: digest(chain, [block]), initial=b""
            )
        )
        self.keeping.kill("a", signal.SIGSTOP)
        return positions, chains

    def ended(self, position: int) -> tuple[str, str]:
        """A page server that has it, and has ended."""
        servers = self.servers()
        found = self.follows_to(position)
        servers.end()
        eventually(
            lambda: not any(thread.is_alive() for _, thread in servers._running.values()), "its end"
        )
        return found

    def test_no_more_are_kept_than_the_bound_and_none_that_is_empty(self) -> None:
        positions, chains = self.written()
        self.servers()
        self.follows_to(positions[-1])
        for position in (*positions[8:3:-1], 0):
            self.goes_back(chains, position)
        self.assertEqual(
            [each.last for each in self.asides()], [positions[6], positions[5], positions[4]]
        )
        self.assertEqual(sum("deleted, as 3 others" in each for each in self.said), 3)
        run = self.entries()[0][0]
        self.archived(positions[-1], chains[-1])  # one that has nothing only follows
        self.assertEqual(self.follows_to(positions[-1])[0], run)
        self.assertEqual(len(self.asides()), MOST_ASIDE)

    def test_what_is_in_memory_alone_is_set_aside_too(self) -> None:
        with self.keeping.primary() as primary, patch(
            "pagelog.pages.following._FLUSH", float("inf")
        ):
            first = self.commit(primary, 0)
            self.servers()
            self.follows_to(first)
            eventually(lambda: self.persisted() == first, "the only time that all goes to the disk")
            positions = [self.commit(primary, n) for n in range(1, 6)]
            self.follows_to(positions[-1])
            chain = digest(b"", self.keeping.archive()[:first])
            self.keeping.kill("a", signal.SIGSTOP)
            self.assertEqual(self.persisted(), first)
            self.archived(first, chain)
            eventually(
                lambda: [each.last for each in self.asides()] == [positions[-1]],
                f"what is quarantined: {self.said}",
            )

    def persisted(self) -> int:
        with psycopg.connect(self.keeping.url, autocommit=True) as session:
            [[found]] = session.execute(
                "SELECT persisted FROM pagelog_pages WHERE log = %s", (self.keeping.row().id,)
            ).fetchall()
            return int(found)

    def test_what_was_cut_off_is_set_aside_the_next_time(self) -> None:
        positions, chains = self.written()
        run, _ = self.ended(positions[-1])
        identity = self.keeping.row().identity
        folder, store = self.folder, PageStore("shop", identity, run)
        (folder / f"{store.stem}.oldest").write_text("0\n")
        PageStore("shop", identity, "1" * 16).save(folder)
        (folder / "aside").mkdir()
        (folder / f"{store.stem}.oldest").rename(
            folder / "aside" / f"{store.stem}.oldest"
        )  # and was killed then
        (folder / PageStore("shop", identity, "2" * 16).stem).mkdir()
        (folder / "aside" / PageStore("shop", identity, "3" * 16).stem).mkdir()
        self.servers()
        wanted = [store.stem], [PageStore("shop", identity, "1" * 16).stem]
        eventually(
            lambda: (self.folders(folder / "aside"), self.folders(folder)) == wanted,
            f"that it alone is quarantined: {self.said}",
        )
        self.assertEqual([(each.run, each.last) for each in self.asides()], [(run, positions[-1])])

    @staticmethod
    def folders(of: Path) -> list[str]:
        return [each.name for each in of.glob("shop.*") if each.is_dir()]

    def test_one_that_was_never_confirmed_is_no_copy_and_answers_nobody(self) -> None:
        positions, chains = self.written()
        run, _ = self.ended(positions[-1])
        row = self.keeping.row()
        make_base(self.keeping.referee, row.id, positions[5], chains[positions[5]])
        with psycopg.connect(self.keeping.url, autocommit=True) as session:
            session.execute(
                "DELETE FROM pagelog_block WHERE log = %s AND lsn <= %s", (row.id, positions[5])
            )
        self.archived(positions[-1], digest(b"", [b"another"]))  # PostgreSQL does not fit itself
        tables: list[int] = []
        set_table = PagesProcess.set_table

        def noted(process: PagesProcess, text: str) -> None:
            tables.append(process.where.confirmed)
            set_table(process, text)

        with patch.object(PagesProcess, "set_table", noted):
            self.servers()
            begun: set[str] = set()

            def goes_on() -> bool:
                begun.update(each[0] for each in self.entries())
                return len(begun) > 4

            eventually(goes_on, f"more and more attempts: {self.said}")
            self.assertEqual(([each.run for each in self.asides()], tables), ([run], []))
            self.assertEqual(sum("begins again" in each for each in self.said), 1)
        self.archived(positions[-1], chains[-1])
        self.follows_to(positions[-1])


class Lost(Served):
    """A server that really is set back, and nobody else who has what it has lost."""

    def new_keeping(self) -> Keeping:
        self.server = SetBack()
        self.addCleanup(self.server.stop)
        return Keeping(ttl=1.0, standby=False, url=self.server.tables)

    def test_what_it_has_is_set_aside_named_and_read(self) -> None:
        with self.keeping.primary() as primary:
            positions = [self.commit(primary, n) for n in range(6)]
            with psycopg.connect(self.keeping.url) as session:
                [[noted]] = session.execute("SELECT max(number) FROM noted").fetchall()
            positions += [self.commit(primary, n) for n in range(6, 12)]
            blocks = self.keeping.archive()
        self.servers()
        old, address = self.follows_to(positions[-1])
        reader = self.reader(old, address)
        self.assertEqual(reader.status().hard, positions[-1])
        pid = self.keeping.pid()
        self.keeping.kill("a")
        os.kill(pid, signal.SIGKILL)
        with psycopg.connect(self.keeping.url) as session:
            [[transaction]] = session.execute(
                "SELECT xid::text FROM noted WHERE number > %s AND what = 'batch' ORDER BY number LIMIT 1",
                (noted,),
            ).fetchall()
        self.keeping.referee.close()
        self.server.set_back(transaction, is_behind=False)
        eventually(lambda: len(self.asides()) == 1, f"what is quarantined: {self.said}")
        with self.assertRaises((ConnectionLost, Unreachable)):
            reader.status()
        run, _ = self.follows_to(positions[5])
        self.assertNotEqual(run, old)
        [aside] = self.asides()
        self.assertEqual((aside.run, aside.oldest, aside.last), (old, 0, positions[-1]))
        said = f"store {old} of shop at here, {aside.path(self.folder)}: positions 0 to {positions[-1]}"
        eventually(lambda: f"quarantined: {said}" in self.keeping.word("list"), "that it is named")
        self.assertIn(said, self.keeping.word("rescue", "shop"))
        self.assertIn(
            said, self.keeping.word("pages", "--folder", self.folder, "--machine", "here", "--list")
        )
        self.is_read(old, positions, blocks)

    def is_read(self, run: str, positions: list[int], blocks: list[bytes]) -> None:
        """All that it has, by the words of docs/PAGES.md."""
        keys, archive = (
            self.keeping.folder / "saved.toml",
            f"sqlite:///{self.keeping.folder / 'saved.db'}",
        )
        words = [
            sys.executable,
            "-m",
            "pagelog",
            "pages",
            "--folder",
            self.folder,
            "--program",
            pages_program.program(),
            "--open",
            run,
            "--keys",
            keys,
        ]
        with subprocess.Popen(
            list(map(str, words)), stdout=subprocess.PIPE, text=True, env=self.keeping.environment
        ) as opened:
            assert opened.stdout is not None
            self.assertIn(f"positions 0 to {positions[-1]} at ", opened.stdout.readline())
            account = load(str(keys)).account(Role.SECONDARY)
            with closing(
                Reader(Connection(account.to, timeout=PATIENCE), account.credentials)
            ) as reader:
                for n, position in enumerate(positions):
                    self.assertEqual(reader.page(n % 4, position).data[:8], b"%08d" % n)
            done = CliRunner().invoke(
                pagelogctl,
                ["archive", "--credentials", str(keys), "--url", archive, "--log", "saved"],
            )
            self.assertEqual(
                (done.exit_code, done.output), (0, f"archived {len(blocks)} of {len(blocks)}\n")
            )
            opened.terminate()
        with Archive(archive, "saved") as saved:
            self.assertEqual([block.data for block in saved.blocks(1)], blocks)


if __name__ == "__main__":
    unittest.main()
