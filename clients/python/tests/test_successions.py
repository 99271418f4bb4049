"""The next generation of a database from images, at the same positions."""

from __future__ import annotations

import os
import re
import resource
import signal
import sqlite3
import threading
from contextlib import closing
from pathlib import Path
from typing import Any, Callable, Iterator
from unittest.mock import patch

import psycopg

import sqlite_named
from cutting import STEPS
from keepers import Gate, Keeping, Kept, eventually
from pagelog import (
    BelowBase,
    Block,
    ConnectionLost,
    Lost,
    NamedPrimary,
    Operator,
    OutOfMemory,
    Primary,
    Put,
    TableRow,
)
from pagelog.connection import Connection
from pagelog.following import NamedAccount
from pagelog.place import Keepers, Place
from postgres import postgres
from service import IS_LONG, PATIENCE, token

CUTTING = Path(__file__).resolve().parent / "cutting.py"
SHORT = """import pathlib, pagelog.reader
from pagelog.errors import OutOfMemory
from pagelog.keeper.archiver import RunArchiver
from pagelog.keeper.fast_plane import FastPlane

def ring(self):
    if not self._is_careful and lacks(self._served.process.address):
        self.leave_way()
    rang(self)

async def way_of(self, row, served, *rest, is_careful, before):
    lacks_it = not is_careful and lacks(served.process.address)
    return None if lacks_it else await way(self, row, served, *rest, is_careful=is_careful, before=before)

def lacks(address):
    return mark.exists() and mark.read_text() == str(address)

def few(self, starts, *rest, most=16, **how):
    if most > 1 and lacks(self.connection.address):
        raise OutOfMemory("the service had no memory for it")
    return span(self, starts, *rest, most=most, **how)

mark, span, way = pathlib.Path({!r}), pagelog.reader.Reader._span_of, FastPlane.way_of
pagelog.reader.Reader._span_of, FastPlane.way_of = few, way_of
rang, RunArchiver.ring = RunArchiver.ring, ring
import pagelog.__main__
"""
"""A keeper that gets no memory for pulls of more than one block of the service whose address is in a file."""
LITTLE = """import pagelog.keeper.served
from pagelog.errors import OutOfMemory

def close(self):
    if refused:
        raise refused.pop()
    return closed(self)

refused = [OutOfMemory("the service had no memory for it") for _ in range(3)]
closed, pagelog.keeper.served.Served.close = pagelog.keeper.served.Served.close, close
import pagelog.__main__
"""
"""A keeper whose service has no memory to be closed, three times."""
PATIENT = f"import pagelog.keeper.keeping; pagelog.keeper.keeping.HELD_BACK = {PATIENCE}; import pagelog.__main__"
"""A keeper that holds answers back for as long as a test waits."""


class Succeeding(Kept):
    keepers = "a"

    def succeed(self, *, waits: bool = True) -> Place:
        """A succession by hand. With `waits` it is over: the service before is ended, too."""
        before = self.keeping.place()
        self.keeping.word("rollover", "shop")
        if not waits:
            return before
        after = self.keeping.place(least=before.generation + 1)
        eventually(
            lambda: not [*self.keeping.folder.glob(f"*/shop.{before.run}.json")],
            "the end of the service before",
        )
        return after


class Writer:
    """Commits in a thread, each third durable, until it is stopped. No commit may fail."""

    def __init__(self, keeping: Keeping, before: int = 0) -> None:
        """`before` is how many commits there are already."""
        self.url, self.primary, self.before = keeping.url, keeping.primary(), before
        self.texts: list[bytes] = []
        self.fault: BaseException | None = None
        self._stops = threading.Event()
        self._thread = threading.Thread(target=self._write)

    def __enter__(self) -> Writer:
        self._thread.start()
        return self

    def stop(self) -> None:
        """What it has committed is durable then."""
        self._stops.set()
        self._thread.join()

    def __exit__(self, *_: object) -> None:
        self.stop()
        self.primary.close()
        if self.fault is not None:
            raise self.fault

    def _write(self) -> None:
        try:
            while not self._stops.is_set():
                self._may_go_on()
                self._commit(durable=len(self.texts) % 3 == 0)
            self._commit(durable=True)
        except BaseException as fault:
            self.fault = fault

    def _may_go_on(self) -> None:
        """Waits, if the next commit has to."""

    def _commit(self, *, durable: bool) -> None:
        number = self.before + len(self.texts) + 1
        text = b"%d" % number
        self.primary.append(Put(0, 0, b"<%s>" % text))
        position = self.primary.commit(durable=durable)
        assert position == number, (position, number)
        self.texts.append(text)

    def has(self, more: int) -> None:
        """Waits until it has committed so many more."""
        wanted = len(self.texts) + more
        eventually(
            lambda: len(self.texts) >= wanted or self.fault is not None, "commits of the writer"
        )


class OneKeeper(Succeeding):
    def test_writers_and_readers_go_on_at_the_same_positions(self) -> None:
        with self.keeping.primary() as primary, self.keeping.reader() as reader, self.keeping.reader(
            durable_only=True
        ) as durable:
            for number in range(1, 41):
                self.commit(primary, f"{number}", durable=number % 10 == 0)
            self.assertEqual(
                (reader.end(), durable.end(), reader.page(0, 7).data[:3]), (40, 40, b"<7>")
            )
            self.assertEqual((self.succeed().base, self.keeping.place().shift), (40, 39))
            self.assertEqual(self.commit(primary, "41"), 41)
            self.assertEqual(self.commit(primary, "42", durable=True), 42)
            self.assertEqual(
                [reader.page(0, at).data[:4] for at in (40, 41, 42)], [b"<40>", b"<41>", b"<42>"]
            )
            self.assertEqual([block.lsn for block in reader.blocks(41, follow=False)], [41, 42])
            self.assertEqual((reader.end(), durable.end(), durable.page(0).at), (42, 42, 42))
            for position in (39, 7):
                with self.assertRaises(BelowBase):
                    reader.page(0, position)
            with self.assertRaises(BelowBase):
                next(reader.blocks(40, follow=False))
            self.succeed()
            self.assertEqual(self.commit(primary, "43", durable=True), 43)
            # What is below the base is not needed any more, neither by a take-over.
            self.assertIn("pruned 40", self.keeping.word("prune", "shop", "--keep", 1, "--yes"))
            os.kill(self.keeping.pid(), signal.SIGKILL)
            self.assertEqual(self.commit(primary, "44", durable=True), 44)
            self.assertEqual(
                (self.keeping.place().base, reader.page(0, 40).data[:4]), (40, b"<40>")
            )

    def test_a_writer_and_a_follower_notice_nothing_of_many_successions(self) -> None:
        seen: list[bytes] = []
        with Writer(self.keeping) as writer, self.keeping.reader() as reader:
            stops = threading.Event()

            def follow() -> None:
                for block in reader.blocks(
                    1, idle=0.01, stop=lambda: stops.is_set() and len(seen) >= len(writer.texts)
                ):
                    seen.append(block.records[0].data.strip(b"<>"))  # type: ignore[union-attr]

            follower = threading.Thread(target=follow)
            follower.start()
            for _ in range(3):
                writer.has(30)
                self.succeed()
            writer.has(30)
            writer.stop()
            stops.set()
            follower.join()
        self.assertEqual((self.texts(), seen), (writer.texts, writer.texts))

    def test_a_page_of_a_transaction_is_read_across_two_successions(self) -> None:
        with self.keeping.primary() as primary, self.keeping.reader() as reader:
            for number in range(1, 6):
                self.commit(primary, f"{number}", durable=True)
            self.succeed()
            self.commit(primary, "6", durable=True)
            position = reader.end()
            self.assertEqual(reader.page(0, position).data[:3], b"<6>")
            self.commit(primary, "7", durable=True)
            for _ in range(2):
                after = self.succeed()
                self.assertEqual(reader.page(0, position).data[:3], b"<6>")
                self.assertEqual(reader.place.run, after.run)  # type: ignore[union-attr]

    def test_a_writer_that_is_told_of_the_end_asks_nothing_of_the_service_before(self) -> None:
        with self.keeping.primary() as primary:
            position = self.commit(primary, "1")
            self.succeed()
            primary.durable(position)  # all of its generation is
            with self.assertNoLogs(
                "pagelog", "INFO"
            ):  # as of a connection to it that is made again
                self.assertEqual(self.commit(primary, "2", durable=True), 2)

    def test_a_transaction_of_many_blocks_at_the_fence_is_written_whole(self) -> None:
        with self.keeping.primary() as primary:
            self.commit(primary, "1", durable=True)
            harden, fenced = Primary.harden, threading.Event()

            def harden_slowly(one: Primary, blocks: object) -> object:
                for lsn in harden(one, blocks):  # type: ignore[arg-type]
                    yield lsn
                    if not fenced.is_set():  # a part of it is in the log
                        fenced.set()
                        self.succeed()

            primary.append(*(Put(1 + at, 0, b"%d" % at * 2000) for at in range(1000)))
            with patch.object(Primary, "harden", harden_slowly):
                position = primary.commit(durable=True)
            self.assertGreater(position, 100)
            with self.keeping.reader() as reader:
                self.assertEqual(
                    [page.data[:4] for page in reader.pages(range(1, 1001))],
                    [(b"%d" % at * 2000)[:4] for at in range(1000)],
                )
            self.assertEqual(len(self.keeping.archive()), position)

    def test_a_commit_in_doubt_across_a_succession_is_there_once(self) -> None:
        with self.keeping.primary() as primary:
            self.commit(primary, "1", durable=True)
            for number in (2, 3):
                # Of the first the block is in the images of the next generation, and the archive is asked; that of the second is pulled.
                with patch.object(Primary, "harden", self.in_doubt(number)):
                    self.assertEqual(self.commit(primary, f"{number}", durable=True), number)
                self.assertEqual(self.keeping.place().base, 2)
            self.assertEqual(self.commit(primary, "4", durable=True), 4)
            self.assertEqual(self.texts(), [b"1", b"2", b"3", b"4"])

    def in_doubt(self, position: int) -> Callable[..., Iterator[int]]:
        """The first reply to a commit is lost, and comes to nothing until there is another generation."""
        harden, cuts = Primary.harden, iter((True,))

        def hardened(one: Primary, blocks: list[Block]) -> Iterator[int]:
            lsns = list(harden(one, blocks))
            if next(cuts, False):
                eventually(
                    lambda: self.keeping.row().archived >= position, "the block in the archive"
                )
                self.succeed()
                raise ConnectionLost("the connection was lost before the reply")
            yield from lsns

        return hardened

    def test_a_commit_in_doubt_whose_position_another_has_is_lost(self) -> None:
        with self.keeping.primary() as one, self.keeping.primary(id=5) as other:
            self.commit(one, "1", durable=True)
            harden, cuts = Primary.harden, iter((True,))

            def hardened(primary: Primary, blocks: list[Block]) -> Iterator[int]:
                if primary.credentials.id == 2 and next(cuts, False):
                    self.commit(other, "other", durable=True)
                    self.succeed()
                    raise ConnectionLost("the connection was lost before the reply")
                yield from harden(primary, blocks)

            with patch.object(Primary, "harden", hardened), self.assertRaises(Lost) as lost:
                self.commit(one, "2")
            self.assertEqual((lost.exception.position, self.texts()), (2, [b"1", b"other"]))
            self.assertEqual(self.keeping.place().base, 2)

    def test_a_where_is_held_back_until_the_next_generation_is_published(self) -> None:
        self.keeping.kill("a")
        self.keeping.keeper = ("-c", PATIENT)
        self.keeping.start("a")
        with self.keeping.primary() as primary:
            self.commit(primary, "1", durable=True)
            gate = Gate(self.keeping.url, "NEW.generation > OLD.generation")
            before = self.succeed(waits=False)
            gate.somebody_waits()
            account = NamedAccount("shop", 1, token(1))
            with Operator(
                Connection(before.address), account.of(before)
            ) as operator, self.assertRaises(TableRow):
                operator.failover(2)  # what is written there now would be lost
            with self.keeping.line() as text:
                print(f"where shop {before.generation + 1}\nwhere shop", file=text, flush=True)
                self.assertEqual(
                    text.readline().split()[2], str(before.generation)
                )  # of the second, which does not wait
                gate.open()
                self.assertEqual(text.readline().split()[2], str(before.generation + 1))
                print(
                    f"where shop {before.generation + 9}", file=text, flush=True
                )  # nobody is about to publish that
                self.assertEqual(text.readline().split()[2], str(before.generation + 1))

    def test_its_blocks_come_from_the_present_service_and_not_from_postgresql(self) -> None:
        with self.keeping.primary() as primary:
            self.commit(primary, "1", durable=True)
            self.succeed()  # behind which there is a base
            for number in range(2, 9):
                self.commit(primary, f"{number}", durable=True)
            before, row = self.keeping.place(), self.keeping.row()
            with psycopg.connect(self.keeping.url) as session:
                block = session.execute(
                    "DELETE FROM pagelog_block WHERE log = %s AND lsn = 5 RETURNING log, lsn, crc, data",
                    (row.id,),
                ).fetchone()
            self.keeping.word("rollover", "shop")
            eventually(
                lambda: self.keeping.place().generation > before.generation
                or "was given up" in self.keeping.said(),
                "an end of it",
            )
            self.assertGreater(self.keeping.place().generation, before.generation)
            self.commit(primary, "9", durable=True)
            with psycopg.connect(self.keeping.url) as session:
                session.execute(
                    "INSERT INTO pagelog_block (log, lsn, crc, data) VALUES (%s, %s, %s, %s)", block
                )
        self.assertEqual(self.texts(), [f"{number}".encode() for number in range(1, 10)])

    def test_a_look_that_began_before_a_switch_does_not_undo_it(self) -> None:
        with self.keeping.primary() as primary:
            self.commit(primary, "1", durable=True)
            before = self.succeed(waits=False)
            eventually(
                lambda: "generation: making" in self.keeping.said(), "the beginning of a succession"
            )
            gate = Gate(self.keeping.url, "true", table="pagelog_keeper")
            gate.somebody_waits()
            eventually(lambda: self.keeping.row().generation > before.generation, "the switch")
            gate.open()
            self.assertEqual(self.commit(primary, "2", durable=True), 2)
            self.assertEqual(self.keeping.place().generation, self.keeping.row().generation)
            self.assertNotIn("went back", self.keeping.said())

    def test_what_nobody_asked_durable_is_in_the_next_generation(self) -> None:
        mark = self.keeping.folder / "made"
        self.keeping.kill("a")
        self.keeping.keeper = (CUTTING, "made", "wait", mark)
        self.keeping.start("a")
        with self.keeping.primary() as primary:
            self.commit(primary, "1", durable=True)
            before = self.succeed(waits=False)
            eventually(mark.exists, "the service of the next generation, which waits")
            gate = Gate(
                self.keeping.url, "NEW.archived > OLD.archived AND NEW.generation = OLD.generation"
            )
            self.commit(primary, "2")
            gate.somebody_waits()
            for number in range(3, 32):
                self.commit(
                    primary, f"{number}"
                )  # none of these was pulled when the present generation is closed
            primary.close()  # and nobody writes them again
            mark.unlink()
            eventually(
                lambda: "is ready" in self.keeping.said(), "the service of the next generation"
            )
            gate.open()
            self.keeping.place(least=before.generation + 1)
            self.assertEqual(
                (self.texts(), self.keeping.row().base),
                ([b"%d" % number for number in range(1, 32)], 31),
            )


class Looked(Writer):
    """Before its list is half full it goes on with looks of the keeper alone, so that it never fills the list between two of them."""

    FREE, AT_ONCE = 375, 12
    """So many commits fill less than half of it, and so many are made between two looks then."""

    def _may_go_on(self) -> None:
        if len(self.texts) > self.FREE and len(self.texts) % self.AT_ONCE == 0:
            beat = self._beat()
            eventually(lambda: self._beat() > beat or self._stops.is_set(), "a look of the keeper")

    def _beat(self) -> int:
        with psycopg.connect(self.url) as session:
            [[beat]] = session.execute(
                "SELECT beat FROM pagelog_keeper WHERE name = 'a'"
            ).fetchall()
            return int(beat)


class Thresholds(Succeeding):
    options = {"audit": 4000, "ttl": 0.8}

    def test_at_half_of_the_list_the_next_generation_is_made(self) -> None:
        with Looked(self.keeping) as writer:
            eventually(
                lambda: "% full" in self.keeping.said() or writer.fault is not None,
                "half of the list",
            )
        made = "(?s)its audit list or its memory is .* begins at position .*, from images at"
        eventually(lambda: re.search(made, self.keeping.said()) is not None, made)
        with Writer(self.keeping, len(writer.texts)) as second:
            second.has(5)
        self.assertEqual(self.texts(), writer.texts + second.texts)


class NoMemory(Succeeding):
    """A service that gets no more memory from its machine, where its keeper knows of no limit."""

    options = {"ttl": 0.8, "more": "memory = 0\n"}

    def fill(self, primary: NamedPrimary, count: int) -> None:
        for _ in range(count):
            primary.append(*(Put(page, 0, b"x" * 8000) for page in range(8)))
            self.sent = primary.commit()

    def limit(self, pid: int, most: int | None = None) -> None:
        """What it has now, or so many bytes."""
        data = Path(f"/proc/{pid}/status").read_text().split("VmData:")[1].split()[0]
        resource.prlimit(
            pid,
            resource.RLIMIT_DATA,
            (1024 * int(data) if most is None else most, resource.RLIM_INFINITY),
        )

    def test_a_writer_goes_on_in_the_next_generation(self) -> None:
        with self.keeping.primary() as primary, patch.object(
            Keepers, "full", autospec=True, side_effect=Keepers.full
        ) as full:
            self.commit(primary, "1", durable=True)
            before = self.keeping.place()
            self.limit(self.keeping.pid())
            while self.keeping.place().generation == before.generation:
                self.fill(primary, 20)
            self.assertGreaterEqual(full.call_count, 1)
            self.assertEqual(self.commit(primary, "2", durable=True), self.sent + 1)
            self.assertIn(
                "shop: prepare: its service had no memory for a writer\n", self.keeping.said()
            )
            eventually(
                lambda: self.keeping.said().endswith("shop: serves\n"), "the end of the succession"
            )
            archived = self.keeping.archive()
            self.assertEqual(
                (len(archived), self.texts()[0], self.texts()[-1]), (self.sent + 1, b"1", b"2")
            )
            # What is told of a generation that is over, or of none, does nothing.
            after, told = self.keeping.row().generation, self.keeping.said()
            with self.keeping.line() as line:
                print(
                    f"full shop {before.generation}\nfull none 1\nfull shop {after + 1}\nwhere shop",
                    file=line,
                    flush=True,
                )
                self.assertEqual(line.readline().split()[:3], ["at", "shop", f"{after}"])
            self.fill(primary, 5)
            self.assertEqual((self.keeping.row().generation, self.keeping.said()), (after, told))

    def test_a_writer_of_sqlite_goes_on_in_the_next_generation(self) -> None:
        with closing(
            sqlite_named.connected(self.keeping.addresses, move=int(1000 * PATIENCE))
        ) as writer:
            writer.execute("create table t(n integer primary key, v blob)")
            before, count = self.keeping.place(), 0
            self.limit(self.keeping.pid())
            while self.keeping.place().generation == before.generation:
                writer.execute("insert into t(v) values(randomblob(100000))")
                count += 1
            writer.execute("insert into t(v) values('more')")
            self.assertEqual(writer.execute("select count(*) from t").fetchone(), (count + 1,))
            self.assertEqual(writer.execute("pragma integrity_check").fetchone(), ("ok",))
            self.assertIn(
                "shop: prepare: its service had no memory for a writer\n", self.keeping.said()
            )

    def test_a_writer_of_sqlite_is_told_where_nothing_follows(self) -> None:
        with closing(sqlite_named.connected(self.keeping.addresses, move=5000)) as writer:
            writer.execute("create table t(v blob)")
            self.keeping.word("pause", "shop")
            eventually(lambda: "serves; paused" in self.keeping.said(), "the pause")
            self.limit(self.keeping.pid())
            with self.assertRaises(sqlite3.OperationalError) as refused:
                while True:
                    writer.execute("insert into t values(randomblob(100000))")
            self.assertIn(
                refused.exception.sqlite_errorname, ("SQLITE_FULL", "SQLITE_IOERR_FSYNC")
            )  # the last one may be there
            self.assertRegex(
                sqlite_named.error_of(writer),
                "the service has no memory left, and no other has followed it in time",
            )
            self.keeping.word("resume", "shop")
            writer.close()
            with closing(
                sqlite_named.connected(self.keeping.addresses, move=int(1000 * PATIENCE))
            ) as other:
                other.execute("insert into t values('more')")

    def test_the_keeper_gets_no_memory_itself(self) -> None:
        """Nobody else says so: clients were refused nothing. What is there is pulled block by block."""
        mark = self.keeping.folder / "short"
        self.keeping.kill("a")
        self.keeping.keeper = ("-c", SHORT.format(str(mark)))
        self.keeping.start("a")
        with self.keeping.primary() as primary, patch.object(
            Keepers, "full", side_effect=AssertionError("a writer was refused")
        ):
            self.commit(primary, "1", durable=True)
            before = self.keeping.place()
            mark.write_text(before.address)
            for number in range(2, 41):
                self.commit(primary, str(number))
            eventually(
                lambda: self.keeping.row().generation > before.generation, "the next generation"
            )
            self.commit(primary, "41", durable=True)
        self.assertEqual(self.texts(), [str(number).encode() for number in range(1, 42)])

    def test_one_that_cannot_be_closed_at_first_is_asked_again(self) -> None:
        """As long as its writers hold what it has: then it has memory for its keeper."""
        self.keeping.kill("a")
        self.keeping.keeper = ("-c", LITTLE)
        self.keeping.start("a")
        with self.keeping.primary() as primary:
            self.commit(primary, "1", durable=True)
            self.succeed()
            self.commit(primary, "2", durable=True)
        self.assertEqual(self.texts(), [b"1", b"2"])
        self.assertNotIn("given up", self.keeping.said())

    def test_one_that_is_paused_is_told_so_in_time_and_may_try_again(self) -> None:
        with self.keeping.primary() as primary:
            self.commit(primary, "1", durable=True)
            before, pid = self.keeping.place(), self.keeping.pid()
            self.keeping.word("pause", "shop")
            eventually(lambda: "serves; paused" in self.keeping.said(), "the pause")
            self.limit(pid)
            primary.keepers.patience = 0.5
            with self.assertRaises(OutOfMemory), patch.object(
                Operator, "failover", side_effect=AssertionError("an epoch of the same generation")
            ):
                while True:
                    self.fill(primary, 20)
            primary.keepers.patience = PATIENCE
            self.keeping.word("resume", "shop")
            position = self.commit(primary, "2", durable=True)
            self.assertGreater(self.keeping.row().generation, before.generation)
            self.assertEqual((len(self.keeping.archive()), self.texts()[-1]), (position, b"2"))

    def test_a_writer_that_begins_where_there_is_no_memory_goes_on(self) -> None:
        with self.keeping.primary() as primary:
            self.commit(primary, "1", durable=True)
            before = self.keeping.place()
        refused = [OutOfMemory("no"), OutOfMemory("no")]

        def failover(of: Operator, *arguments: Any, **options: Any) -> int:
            if str(of.connection.address) == before.address and refused:
                raise refused.pop()
            return begin(of, *arguments, **options)

        begin = Operator.failover
        with patch.object(Operator, "failover", failover), self.keeping.primary() as other:
            self.assertEqual(self.commit(other, "2", durable=True), 2)
            eventually(
                lambda: self.keeping.row().generation > before.generation, "the next generation"
            )
            self.assertEqual(self.commit(other, "3", durable=True), 3)
        self.assertEqual(self.texts(), [b"1", b"2", b"3"])


class GivenUp(Succeeding):
    options = {"ttl": 4.0}

    def test_the_present_generation_goes_on_where_the_next_service_dies_after_the_fence(
        self,
    ) -> None:
        mark = self.keeping.folder / "cut"
        self.keeping.kill("a")
        self.keeping.keeper = (CUTTING, "pulled", "next", mark)
        self.keeping.start("a")
        with Writer(self.keeping) as writer:
            writer.has(5)
            before = self.succeed(waits=False)
            eventually(lambda: "was given up" in self.keeping.said(), "the end of the succession")
            writer.has(5)
            self.assertTrue(mark.exists())
            self.assertEqual(self.keeping.place().generation, before.generation)
        self.assertEqual(self.texts(), writer.texts)


class TwoKeepers(Succeeding):
    keepers = "ab"

    def test_a_standby_that_is_behind_follows_and_has_a_place_of_its_own(self) -> None:
        with self.keeping.primary() as primary, self.keeping.reader(durable_only=True) as reader:
            self.commit(primary, "1", durable=True)
            eventually(lambda: 1 in self.keeping.standbys().values(), "a standby")
            holder = str(self.keeping.row().holder)
            other = "b" if holder == "a" else "a"
            self.keeping.kill(other, signal.SIGSTOP)  # its standby stays where it is
            for number in range(2, 31):
                self.commit(primary, f"{number}", durable=number == 30)
            after = self.succeed()
            self.assertEqual((after.base, self.keeping.row().holder), (30, holder))
            self.commit(primary, "31", durable=True)
            self.keeping.kill(other, signal.SIGCONT)
            eventually(lambda: 31 in self.keeping.standbys().values(), "the rest at the standby")
            eventually(lambda: reader.end() == 31, "the word of the standby")
            self.assertEqual((reader.place.shift, reader.page(0, 7).data[:3]), (0, b"<7>"))  # type: ignore[union-attr]
            os.kill(self.keeping.pid(), signal.SIGKILL)
            self.assertEqual(self.commit(primary, "32", durable=True), 32)
            place = self.keeping.place()
            self.assertEqual((self.keeping.row().holder, place.base, place.shift), (other, 0, 0))
            # A fresh standby begins with the images.
            eventually(
                lambda: any(
                    standby.images == 30 for standby in self.keeping.referee.everything().standbys
                ),
                "a fresh standby",
            )
            self.assertEqual(self.texts(), [b"%d" % number for number in range(1, 33)])


class Cuts(Succeeding):
    """A succession that is cut off at the end of each of its steps: the present generation goes on, or the next has all."""

    keepers = ""
    options = {"ttl": 0.8}

    def cut(self, step: str, deed: str) -> None:
        """A keeper, the present or the next service dies at the end of the step, or the connection to PostgreSQL; then all go on."""
        mark = self.keeping.folder / f"{step}-{deed}"
        self.keeping.keeper = (CUTTING, step, deed, mark)
        self.keeping.start("a")
        self.keeping.keeper = ("-m", "pagelog")
        with Writer(self.keeping, len(self.written)) as writer:
            writer.has(5)
            before = self.succeed(waits=False)
            eventually(mark.exists, "the end of the step")
            if deed == "keeper":
                self.keeping.processes["a"].wait(PATIENCE)
                self.keeping.start("a")
            # What was asked for comes to pass in the end: it is asked for again, or a take-over has begun from images.
            after = self.keeping.place(least=before.generation + 1)
            if (step, deed) == ("filled", "next"):
                self.assertGreater(
                    after.generation,
                    before.generation + 1,
                    "the number of each one that was given up is a gap",
                )
            writer.has(5)
            if (step, deed) == ("switched", "away"):
                self.assertEqual(
                    self.keeping.place().generation,
                    before.generation + 1,
                    "what was switched is found out",
                )
        self.written += writer.texts
        self.assertEqual(self.texts(), self.written, f"{step}: {deed}")
        self.keeping.kill("a", signal.SIGTERM)

    def cut_each(self, deed: str, *steps: str) -> None:
        self.written: list[bytes] = []
        for step in STEPS if IS_LONG else steps:
            self.cut(step, deed)

    def test_the_keeper_dies(self) -> None:
        self.cut_each("keeper", "made", "loaded", "switched")

    def test_the_present_service_dies(self) -> None:
        self.cut_each("present", "fenced", "loaded")

    def test_the_next_service_dies(self) -> None:
        self.cut_each("next", "filled", "loaded")

    def test_a_line_to_postgresql_is_cut(self) -> None:
        self.cut_each("away", "switched")

    def test_postgresql_is_away_between_the_fence_and_the_switch(self) -> None:
        self.keeping.start("a")
        with Writer(self.keeping) as writer:
            writer.has(5)
            gate = Gate(self.keeping.url, "NEW.generation > OLD.generation")
            before = self.succeed(waits=False)
            gate.somebody_waits()
            server = postgres()
            server.crash()
            gate._session.close()
            server.start()
            with psycopg.connect(self.keeping.url, autocommit=True) as connection:
                connection.execute("DROP TRIGGER pagelog_gate ON pagelog_log")
            self.keeping.place(least=before.generation + 1)
            writer.has(5)
        self.assertEqual(self.texts(), writer.texts)
