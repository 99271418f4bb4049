"""Readers beside a service that ask page servers for pages: the nearest, another one once it is silent, and none that has another history."""

from __future__ import annotations

import itertools
import os
import signal
import sqlite3
import tempfile
import threading
import time
import unittest
from contextlib import closing
from pathlib import Path
from types import SimpleNamespace
from typing import Any
from unittest.mock import patch

import psycopg
from keepers import Keeping, eventually
from pages_made import Made
from pagelog import Block, NamedReader, Put, Reader, Zero
from pagelog.referee.referee import digest
from pagelog.page_copies import PagesQuestion
from pagelog.page_tail import Tail
from pagelog.place import Keepers, PageServerPlace, UnknownName
from pagelog.rules import AboveTheEnd
from service import PATIENCE, Port, stand_still, token
from sqlite_named import connected
from test_pages import Served


def descriptors() -> int:
    return len(list(Path("/proc/self/fd").iterdir()))


class Plan(unittest.TestCase):
    def test_nothing_is_laid_over_where_the_blocks_behind_are_not_all_known(self) -> None:
        tail, line = Tail(), SimpleNamespace(position=10, proved=0)
        tail.begin("run")
        made = [Block.of(lsn, [Put(0, 0, b"%d" % lsn)]) for lsn in range(3, 6)]
        tail.add(3, 6, made)
        for position, plan in (
            (4, (4, made[-1])),
            (5, (5, made[-1])),
            (6, (5, made[-1])),
            (7, (None, None)),
        ):
            question = PagesQuestion((0,), position, tail, 0)
            self.assertEqual(question._plan(line), plan, position)  # type: ignore[arg-type]
        line.position = 3
        self.assertEqual(PagesQuestion((0,), 6, tail, 0)._plan(line), (3, made[0]))  # type: ignore[arg-type]
        line.position = 2
        self.assertEqual(PagesQuestion((0,), 6, tail, 0)._plan(line), (None, None))  # type: ignore[arg-type]


class Told(unittest.TestCase):
    def test_keepers_that_know_of_none_are_no_keepers_that_are_silent(self) -> None:
        """Which keeper has answered makes no difference: what is known stays where none has, and is forgotten where one knows of none."""
        none, one = ["pages", "shop"], ["pages", "shop", "10.0.0.1:7600", "run", "9", "2"]
        place = PageServerPlace("10.0.0.1:7600", "run", 9, 2)
        for first, second, told in (
            ([], [], None),
            (["elsewhere", "shop"], [], None),
            (none, [], []),
            ([], none, []),
            (none, ["elsewhere", "shop"], []),
            (none, one, [place]),
            (one, [], [place]),
            ([*one[:2], "no address", *one[3:]], [], []),
            ([*one, "of=another"], [], []),
        ):
            answers = {"10.0.0.1:7500": first, "10.0.0.2:7500": second}
            with closing(Keepers("shop", answers)) as keepers:
                with patch.object(keepers, "_ask", lambda address, *_, **__: answers[address]):
                    self.assertEqual(keepers.page_servers(), told, (first, second))


class Near(Served):
    """A database whose page servers the test feeds."""

    def new_keeping(self) -> Keeping:
        return Keeping(ttl=60.0, standby=False)

    def server(
        self, machine: str, blocks: int | list[bytes] | None = None, delay: float | None = None
    ) -> Made:
        """With so many of the archived blocks, or with these."""
        given = self.keeping.archive() if not isinstance(blocks, list) else blocks
        made = Made(
            self.keeping, machine, given[:blocks] if isinstance(blocks, int) else given, delay
        )
        self.addCleanup(made.end)
        return made


class Reads(Near):
    def setUp(self) -> None:
        super().setUp()
        for name in ("_SILENCE", "_LAST_SILENCE", "_MOST"):  # a slow machine is no silence
            self.enterContext(patch(f"pagelog.page_copies.{name}", PATIENCE))
        self.primary = self.enterContext(self.keeping.primary())
        self.positions = [self.commit(self.primary, n) for n in range(8)]

    def reading(self, **options: object) -> NamedReader:
        reader = self.enterContext(self.keeping.reader(**options))
        gets, get = [0], reader._pages_at

        def counted(*given: object) -> object:
            gets[0] += 1
            return get(*given)  # type: ignore[arg-type]

        reader._pages_at = counted  # type: ignore[method-assign, assignment]
        reader.gets = gets  # type: ignore[attr-defined]
        reader.end()  # it knows its service, and how many page servers there are
        return reader

    def read(self, reader: NamedReader, position: int | None = None) -> list[bytes]:
        return [page.data[:8] for page in reader.pages((0, 1, 2, 3), position)]

    @staticmethod
    def asked_of(reader: NamedReader) -> tuple[int, int]:
        """How often a page server has answered, and how often the service was asked for pages."""
        assert reader._copies is not None
        return reader._copies.asked_of, reader.gets[0]  # type: ignore[attr-defined]

    @staticmethod
    def numbers(*numbers: int) -> list[bytes]:
        return [b"%08d" % n for n in numbers]


class Python(Reads):
    def test_all_pages_come_from_there_and_are_those_of_the_service(self) -> None:
        made = self.server("here")
        reader = self.reading()
        self.assertEqual(self.read(reader), self.numbers(4, 5, 6, 7))
        for n, position in enumerate(self.positions):
            self.assertEqual(reader.page(n % 4, position).data[:8], b"%08d" % n)
            self.assertEqual(reader.page(n % 4, position).at, position)
        self.assertEqual(self.asked_of(reader)[1], 0)
        self.commit(self.primary, 8)
        made.feed(self.keeping.archive())
        self.assertEqual(self.read(reader), self.numbers(8, 5, 6, 7))
        self.assertEqual(self.asked_of(reader)[1], 0)

    def test_what_came_after_is_laid_over_what_one_has_that_lags(self) -> None:
        self.server("here")
        reader = self.reading()
        self.read(reader)
        asked, gets = self.asked_of(reader)
        for n in range(8, 14):
            self.primary.append(Put(n % 4, 0, b"%08d" % n))
            self.primary.commit()  # also what is in one log alone
            self.assertEqual(
                self.read(reader),
                self.numbers(*(m + 4 * (n // 4 - 1) + 4 * (m <= n % 4) for m in range(4))),
            )
        self.primary.append(Zero(2))
        self.primary.commit()
        self.assertEqual(self.read(reader), [*self.numbers(12, 13), bytes(8), *self.numbers(11)])
        self.assertEqual(self.asked_of(reader), (asked + 7, gets))
        for n in range(14, 40):
            self.commit(self.primary, n)
        self.assertEqual(
            self.read(reader), self.numbers(36, 37, 38, 39)
        )  # it is too far behind, and the service is asked
        self.assertEqual(self.asked_of(reader), (asked + 7, gets + 1))

    def test_one_with_another_history_is_refused_at_each_position(self) -> None:
        archive = self.keeping.archive()
        for n, (name, blocks) in enumerate(
            {
                "another block, at the end": [
                    *archive[:-1],
                    Block.of(len(archive), [Put(3, 0, b"another!")]).data,
                ],
                "another one before": [
                    *archive[:4],
                    *(
                        Block.of(lsn, [Put(lsn % 4, 0, b"another!")]).data
                        for lsn in range(5, len(archive) + 1)
                    ),
                ],
                "more of another": [
                    *archive[:-2],
                    *(
                        Block.of(lsn, [Put(lsn % 4, 0, b"another!")]).data
                        for lsn in range(len(archive) - 1, 40)
                    ),
                ],
            }.items()
        ):
            with self.subTest(name):
                made = self.server(f"there{n}", blocks)
                for options in ({}, {"durable_only": True}):
                    reader = self.reading(**options)
                    self.assertEqual(self.read(reader), self.numbers(4, 5, 6, 7))
                    for m, position in enumerate(self.positions):
                        self.assertEqual(reader.page(m % 4, position).data[:8], b"%08d" % m)
                    self.assertEqual(self.asked_of(reader)[0], 0)
                made.end()

    def test_one_that_has_lost_its_disk_proves_it_anew(self) -> None:
        made = self.server("here", delay=0.0)
        reader = self.reading()
        self.read(reader)
        assert reader._copies is not None
        [line] = reader._copies._lines.values()
        self.assertEqual(line.proved, self.positions[-1])
        archive = self.keeping.archive()
        made.lose_disk([*archive[:-1], Block.of(len(archive), [Put(3, 0, b"another!")]).data])
        answers = made.answers

        def is_asked() -> bool:
            self.assertEqual(self.read(reader), self.numbers(4, 5, 6, 7))
            return made.answers > answers

        eventually(is_asked, "that it is asked again")
        self.assertEqual(self.read(reader), self.numbers(4, 5, 6, 7))

    def test_the_nearest_is_asked_by_measured_time(self) -> None:
        far, near = self.server("far", delay=0.0), self.server("near", delay=0.0)
        reader = self.reading()
        for slow, quick in ((far, near), (near, far)):
            slow.toll.delay, quick.toll.delay = 0.1, 0.0  # type: ignore[union-attr]

            def is_left(slow: Made = slow, quick: Made = quick) -> bool:
                before = slow.answers, quick.answers
                for _ in range(10):
                    self.assertEqual(self.read(reader), self.numbers(4, 5, 6, 7))
                return slow.answers == before[0] and quick.answers > before[1]

            eventually(is_left, f"that {quick.machine} is the nearest")

    def test_one_that_is_silent_is_left_and_nothing_stays_of_it(self) -> None:
        still, other = self.server("still", delay=0.0), self.server("other", delay=0.005)
        reader = self.reading()
        assert reader._copies is not None
        self.enterContext(patch("pagelog.page_copies._SILENCE", 0.02))
        # The other one is waited for where the machine is slow, and the service is not asked.
        self.enterContext(patch("pagelog.page_copies._LAST_SILENCE", PATIENCE))
        held = descriptors()

        def is_left() -> bool:
            """The other one has answered, and the service was not asked."""
            lines = {line.place.run: line for line in reader._copies._lines.values()}  # type: ignore[union-attr]
            still.toll.shut = False  # type: ignore[union-attr]
            self.read(reader)
            still.toll.shut = True  # type: ignore[union-attr]
            for line in lines.values():
                line.free = 0.0
            gets, before = self.asked_of(reader)[1], other.answers
            self.assertEqual(self.read(reader), self.numbers(4, 5, 6, 7))
            self.assertFalse(any(line.is_asked for line in lines.values()))
            is_slow = still.run in lines and lines[still.run].pause > 0.0
            return is_slow and other.answers > before and self.asked_of(reader)[1] == gets

        for _ in range(5):
            eventually(is_left, "that the other one is asked, too")
        still.toll.shut = False  # type: ignore[union-attr]
        self.assertLessEqual(descriptors(), held + 12)  # of the ways of this test
        eventually(lambda: still.toll.open <= 1, "that none is left open")  # type: ignore[union-attr]

    def test_where_all_stand_still_the_service_is_asked(self) -> None:
        made = [self.server(machine) for machine in ("one", "two")]
        reader = self.reading()
        self.read(reader)
        self.enterContext(patch("pagelog.page_copies._SILENCE", 0.02))
        self.enterContext(patch("pagelog.page_copies._LAST_SILENCE", 0.1))
        for each in made:
            stand_still(each.process.pid)
        (asked, gets), began = self.asked_of(reader), time.monotonic()
        for n in range(1, 6):
            self.assertEqual(self.read(reader), self.numbers(4, 5, 6, 7))
            self.assertEqual(self.asked_of(reader), (asked, gets + n))
        self.assertLess(time.monotonic() - began, PATIENCE / 2)
        assert reader._copies is not None
        self.assertTrue(
            all(line.pause > 0.0 and line.free > 0.0 for line in reader._copies._lines.values())
        )
        for each in made:
            os.kill(each.process.pid, signal.SIGCONT)

        def is_asked_again() -> bool:
            self.assertEqual(self.read(reader), self.numbers(4, 5, 6, 7))
            return self.asked_of(reader)[0] > asked

        eventually(is_asked_again, "that they are asked again")

    def test_a_child_of_a_fork_uses_no_connection_of_its_parent(self) -> None:
        self.server("here")
        reader = self.reading(pages="only")
        self.assertEqual(self.read(reader, self.positions[-1]), self.numbers(4, 5, 6, 7))
        assert reader._copies is not None
        [line] = reader._copies._lines.values()
        before = line._socket
        if (child := os.fork()) == 0:
            try:
                reader._copies.pages((0,), self.positions[-1])
                os._exit(0 if line._socket is not before else 1)
            finally:
                os._exit(2)
        self.assertEqual(os.waitstatus_to_exitcode(os.waitpid(child, 0)[1]), 0)
        self.assertEqual(self.read(reader, self.positions[-1]), self.numbers(4, 5, 6, 7))


class Succeeded(Reads):
    def new_keeping(self) -> Keeping:
        return Keeping(ttl=1.0, standby=False)

    def test_over_a_succession_it_is_proved_anew(self) -> None:
        made = self.server("here")
        reader = self.reading()
        self.read(reader)
        generation = self.keeping.place().generation
        self.keeping.word("rollover", "shop")
        self.keeping.place(least=generation + 1)
        self.commit(self.primary, 8)
        made.feed(self.keeping.archive())
        asked, gets = self.asked_of(reader)
        eventually(lambda: reader.end() > self.positions[-1], "the next generation")
        self.assertEqual(self.read(reader), self.numbers(8, 5, 6, 7))
        for n, position in enumerate(self.positions):
            self.assertEqual(
                reader.page(n % 4, position).data[:8], b"%08d" % n
            )  # also from below the base
        self.assertEqual(self.asked_of(reader), (asked + 9, gets))


class Unpulled(Reads):
    """The table lets the reader pull nothing."""

    def new_keeping(self) -> Keeping:
        made, folder = super().new_keeping(), Path(self.enterContext(tempfile.TemporaryDirectory()))
        denied = '[[row]]\nverdict = "deny"\nwho = 3\nop = ["pull"]\n'
        head, rows = made.table.read_text().split("[[row]]", 1)
        made.table = folder / "table.toml"
        made.table.write_text(f"{head}{denied}[[row]]{rows}")
        return made

    def test_who_may_pull_nothing_reads_there_what_is_durable(self) -> None:
        self.server("here")
        reader = self.reading()
        self.assertEqual(self.read(reader), self.numbers(4, 5, 6, 7))
        self.assertGreater(self.asked_of(reader)[0], 0)
        with patch.object(reader, "_span_at") as pulled:  # which is asked for once
            self.assertEqual(self.read(reader), self.numbers(4, 5, 6, 7))
        self.assertEqual(pulled.call_count, 0)
        self.primary.append(Put(0, 0, b"%08d" % 8))
        position = self.primary.commit()
        asked = self.asked_of(reader)
        self.assertEqual(reader.page(0, position).data[:8], b"%08d" % 8)
        self.assertEqual(self.asked_of(reader), (asked[0], asked[1] + 1))


class SQLite(Near):
    def setUp(self) -> None:
        super().setUp()
        self.writer = self.enterContext(closing(connected(self.keeping.addresses)))
        self.writer.execute("create table t(n integer primary key)")
        self.writer.execute("create table far(n integer primary key, b)")
        for n in range(12):
            self.writer.execute(
                "insert into far values(?, hex(zeroblob(30000)) || ?)", (n, f"first{n}")
            )
        self.writer.execute("insert into t values(1)")

    def reading(self, **options: object) -> sqlite3.Connection:
        """It keeps next to no pages in memory."""
        made = connected(self.keeping.addresses, id=3, mode="ro", pages=1, **options)
        made.execute("pragma cache_size = 1")
        return self.enterContext(closing(made))

    @staticmethod
    def far(connection: sqlite3.Connection, n: int) -> str:
        return str(
            connection.execute("select substr(b, 60001) from far where n = ?", (n,)).fetchone()[0]
        )

    @staticmethod
    def numbers(connection: sqlite3.Connection) -> list[int]:
        return [number for number, in connection.execute("select n from t order by n")]

    @staticmethod
    def number(connection: sqlite3.Connection, name: str) -> int:
        return int(connection.execute(f"pragma pagelog_{name}").fetchone()[0])

    def copied(self, connection: sqlite3.Connection) -> tuple[int, int]:
        """How many pages came from page servers, and how many from elsewhere."""
        fetched, copied = (
            self.number(connection, name) for name in ("pages_fetched", "pages_copied")
        )
        return copied, fetched - copied

    def position(self) -> int:
        return self.number(self.writer, "position")

    def rewritten(self, n: int, text: str) -> None:
        self.writer.execute("update far set b = hex(zeroblob(30000)) || ? where n = ?", (text, n))

    def others(self) -> list[bytes]:
        """The blocks of another database, which the same was done to."""
        self.assertTrue(
            self.keeping.referee.create("other", self.keeping.table.read_text(), b"o" * 16)
        )
        self.keeping.ring()

        def is_known() -> bool:
            try:
                return self.keeping.place("other").generation > 0
            except UnknownName:
                return False

        eventually(is_known, "the other database")
        with closing(connected(self.keeping.addresses, name="other")) as other:
            other.execute("create table t(n integer primary key)")
            other.execute("create table far(n integer primary key, b)")
            for n in range(12):
                other.execute(
                    "insert into far values(?, hex(zeroblob(30000)) || ?)", (n, f"wrong{n}")
                )
            other.execute("insert into t values(2)")
        return self.keeping.archive("other")

    def comes(self, connection: sqlite3.Connection, wanted: dict[int, str]) -> None:
        """All of that is read, each time; and once from page servers alone: they may be too slow for it on this machine."""

        def is_copied() -> bool:
            for n in [n for n in range(12) if n not in wanted][:5]:
                self.far(connection, n)  # in place of what SQLite has of them
            copied, elsewhere = self.copied(connection)
            for n, text in wanted.items():
                self.assertEqual(self.far(connection, n), text)
            now = self.copied(connection)
            return now[0] >= copied + 4 * len(wanted) and now[1] == elsewhere

        eventually(is_copied, "that all of it is read there")

    def test_pages_come_from_there_and_what_came_after_is_laid_over(self) -> None:
        made = self.server("here")
        for options in ({}, {"durable": 1}):
            reader = self.reading(**options)
            self.comes(reader, {n: f"first{n}" for n in range(8, 12)})
            for n in range(1, 4):
                self.writer.execute(
                    "update far set b = substr(b, 1, 60000) || ? where n = ?", (f"then{n}", n)
                )
                self.assertEqual(self.numbers(reader), [1])  # it follows
                self.comes(reader, {n: f"then{n}", n + 3: f"first{n + 3}"})
            self.comes(reader, {1: "then1", 2: "then2", 3: "then3"})
            self.assertEqual(reader.execute("pragma integrity_check").fetchone()[0], "ok")
            made.feed(self.keeping.archive())
        for word in ("never", "older"):
            other = self.reading(page_servers=word)
            self.assertEqual(self.far(other, 3), "then3")
            self.assertEqual(self.copied(other)[0], 0)

    def test_at_a_position_too(self) -> None:
        first = self.position()
        self.rewritten(1, "later")
        self.server("here")
        self.comes(self.reading(at=first), {1: "first1"})

    def test_a_file_gets_no_help_of_one_that_lags(self) -> None:
        position = self.position()
        self.rewritten(1, "later")
        self.server("here", position)
        reader = self.reading()
        self.assertEqual((self.far(reader, 1), self.far(reader, 2)), ("later", "first2"))
        self.assertEqual(self.copied(reader)[0], 0)

    def test_a_file_refuses_one_of_another_database(self) -> None:
        archive, others = self.keeping.archive(), self.others()
        half = self.position() // 2
        for machine, blocks in {"other": others, "half": [*archive[:half], *others[half:]]}.items():
            with self.subTest(machine):
                self.assertGreaterEqual(len(blocks), self.position())
                made = self.server(machine, blocks)
                reader = self.reading()
                self.assertEqual(
                    [self.far(reader, n) for n in range(12)], [f"first{n}" for n in range(12)]
                )
                self.assertEqual(self.numbers(reader), [1])
                self.assertEqual(self.copied(reader)[0], 0)
                made.end()

    def test_it_is_left_over_a_kill_and_taken_up_again(self) -> None:
        made = self.server("here", delay=0.0)
        reader = self.reading()
        self.comes(reader, {0: "first0"})
        elsewhere = self.copied(reader)[1]
        made.process.kill()
        self.assertEqual(self.far(reader, 1), "first1")
        self.assertGreater(self.copied(reader)[1], elsewhere)
        made.begin_again()
        self.comes(reader, {2: "first2"})

    def test_a_file_has_it_proved_anew_where_its_disk_was_lost(self) -> None:
        others = self.others()
        made = self.server("here", delay=0.0)
        reader = self.reading()
        self.comes(reader, {0: "first0"})
        made.lose_disk(others)
        answers = made.answers

        def is_asked() -> bool:
            self.assertEqual([self.far(reader, n) for n in (1, 2)], ["first1", "first2"])
            return made.answers > answers

        eventually(is_asked, "that it is asked again")
        self.assertEqual([self.far(reader, n) for n in range(12)], [f"first{n}" for n in range(12)])

    def test_the_service_may_die_amid_a_transaction(self) -> None:
        self.server("here")
        reader, wanted = self.reading(move=1000), [f"first{n}" for n in range(12)]

        def is_read() -> bool:
            self.comes(reader, {0: "first0"})
            reader.execute("begin")
            self.assertEqual(self.far(reader, 0), "first0")
            moves, pid = self.number(reader, "moves"), self.keeping.pid()
            self.keeping.kill("a", signal.SIGSTOP)
            os.kill(pid, signal.SIGKILL)
            try:
                self.assertEqual([self.far(reader, n) for n in range(12)], wanted)
                return self.number(reader, "moves") == moves
            except sqlite3.OperationalError:
                return False  # the machine was so slow that the service was asked
            finally:
                self.keeping.kill("a", signal.SIGCONT)
                if reader.in_transaction:
                    reader.execute("rollback")

        eventually(is_read, "all of it, without a service")
        self.writer.execute("insert into t values(2)")
        eventually(lambda: self.numbers(reader) == [1, 2], "what came since")

    def test_a_file_leaves_one_that_says_nothing_and_nothing_stays_of_it(self) -> None:
        still, other = self.server("still", delay=0.0), self.server("other", delay=0.005)
        reader = self.reading()
        rows = itertools.cycle(range(12))

        def is_asked(made: Made) -> bool:
            answers, n = made.answers, next(rows)
            self.assertEqual(self.far(reader, n), f"first{n}")
            return made.answers > answers

        def is_hedged() -> bool:
            questions, before, n = still.toll.questions, self.copied(reader), next(rows)  # type: ignore[union-attr]
            self.assertEqual(self.far(reader, n), f"first{n}")
            now = self.copied(reader)
            is_asked = still.toll.questions > questions  # type: ignore[union-attr]
            return is_asked and now[0] > before[0] and now[1] == before[1]

        for made in (still, other):
            eventually(lambda made=made: is_asked(made), f"that {made.machine} is asked")  # type: ignore[misc]
        held = descriptors()
        for _ in range(2):
            still.toll.shut = False  # type: ignore[union-attr]
            eventually(lambda: is_asked(still), "that it is asked again")
            still.toll.shut = True  # type: ignore[union-attr]
            eventually(is_hedged, "that the other one answers in its place")
        still.toll.shut = False  # type: ignore[union-attr]
        self.assertLessEqual(descriptors(), held + 8)  # of the ways of this test
        reader.close()
        eventually(lambda: still.toll.open + other.toll.open == 0, "that none is left open")  # type: ignore[union-attr]

    def test_a_file_asks_the_service_where_all_are_stopped(self) -> None:
        made = [self.server(machine) for machine in ("one", "two")]
        reader = self.reading()
        self.comes(reader, {0: "first0"})
        copied = self.copied(reader)[0]
        for each in made:
            stand_still(each.process.pid)
        self.assertEqual([self.far(reader, n) for n in range(12)], [f"first{n}" for n in range(12)])
        self.assertEqual(self.copied(reader)[0], copied)
        for each in made:
            os.kill(each.process.pid, signal.SIGCONT)
        self.comes(reader, {1: "first1"})

    def test_a_child_of_a_fork_has_none_of_its_parents(self) -> None:
        self.server("here", delay=0.0)
        reader = self.reading()
        self.assertEqual(self.far(reader, 0), "first0")
        if (child := os.fork()) == 0:
            try:
                with closing(connected(self.keeping.addresses, id=3, mode="ro")) as made:
                    os._exit(0 if self.far(made, 1) == "first1" else 1)
            finally:
                os._exit(2)
        self.assertEqual(os.waitstatus_to_exitcode(os.waitpid(child, 0)[1]), 0)
        self.assertEqual(self.far(reader, 1), "first1")


class Superseded(Near):
    """PostgreSQL goes back, and another run goes on without the one that a reader is in; a page server has the blocks of that still."""

    def setUp(self) -> None:
        super().setUp()
        self.keeping.held.append(Port())
        self.keeping.ports["b"] = self.keeping.held[
            -1
        ].number  # of the keeper that begins the other run
        self.addresses = [f"127.0.0.1:{self.keeping.ports[name]}" for name in "ab"]

    def new_keeping(self) -> Keeping:
        return Keeping(ttl=1.0, standby=False)

    def goes_back(self, position: int) -> None:
        """The run that has more is no more, and its keeper."""
        archive, row, pid = self.keeping.archive(), self.keeping.row(), self.keeping.pid()
        generation = self.keeping.place().generation
        self.keeping.kill("a")
        os.kill(pid, signal.SIGKILL)
        with psycopg.connect(self.keeping.url, autocommit=True) as session:
            session.execute(
                "DELETE FROM pagelog_block WHERE log = %s AND lsn > %s", (row.id, position)
            )
            session.execute(
                "UPDATE pagelog_log SET archived = %s, chain = %s WHERE id = %s",
                (position, digest(b"", archive[:position]), row.id),
            )
        self.keeping.start("b")
        self.keeping.place(least=generation + 1)

    def test_what_was_proved_in_a_run_is_so_in_no_other(self) -> None:
        with self.keeping.primary() as primary:
            positions = [self.commit(primary, n) for n in range(8)]
        made = self.server("here")
        reader = self.enterContext(
            Reader.named(
                "shop",
                keepers=self.addresses,
                principal=3,
                token=token(3),
                patience=PATIENCE,
                timeout=PATIENCE,
            )
        )
        self.assertEqual(
            [page.data[:8] for page in reader.pages((0, 1, 2, 3))],
            [b"%08d" % n for n in (4, 5, 6, 7)],
        )
        assert reader._copies is not None
        self.assertEqual([line.proved for line in reader._copies._lines.values()], positions[-1:])
        self.goes_back(positions[4])
        with self.keeping.primary() as primary:
            for n in range(15, 18):
                position = self.commit(primary, n)
        self.assertEqual(position, positions[-1])
        made.enter()
        self.assertEqual(reader.end(), position)
        self.assertEqual(self.keeping.place().pages, 1)
        self.assertEqual(
            [page.data[:8] for page in reader.pages((0, 1, 2, 3), position)],
            [b"%08d" % n for n in (16, 17, 2, 15)],
        )
        self.assertEqual(reader.page(0, positions[4]).data[:8], b"%08d" % 4)

    def test_a_file_believes_nothing_that_was_proved_in_another_run(self) -> None:
        with closing(connected(self.addresses)) as writer:
            writer.execute("create table far(n integer primary key, b)")
            for n in range(6):
                writer.execute(
                    "insert into far values(?, hex(zeroblob(30000)) || ?)", (n, f"first{n}")
                )
            kept = SQLite.number(writer, "position")
            for n in range(6, 12):
                writer.execute(
                    "insert into far values(?, hex(zeroblob(30000)) || ?)", (n, f"lost{n}")
                )
        made = self.server("here")
        reader = self.enterContext(closing(connected(self.addresses, id=3, mode="ro", pages=1)))
        reader.execute("pragma cache_size = 1")

        def is_copied() -> bool:
            copied = SQLite.number(reader, "pages_copied")
            self.assertEqual([SQLite.far(reader, n) for n in (0, 11)], ["first0", "lost11"])
            return SQLite.number(reader, "pages_copied") >= copied + 8

        eventually(is_copied, "that it is read there")
        self.goes_back(kept)
        with closing(connected(self.addresses)) as writer:
            for n in range(6, 9):
                writer.execute(
                    "insert into far values(?, hex(zeroblob(30000)) || ?)", (n, f"second{n}")
                )
        made.enter()

        def is_there() -> bool:
            try:
                return SQLite.far(reader, 8) == "second8"
            except (sqlite3.OperationalError, TypeError):
                return False  # amid the move, or what was lost is read still

        eventually(is_there, "the run that goes on")
        found = [SQLite.far(reader, n) for n in range(9)]
        self.assertEqual(
            found, [f"first{n}" for n in range(6)] + [f"second{n}" for n in range(6, 9)]
        )
        self.assertEqual(reader.execute("pragma integrity_check").fetchone()[0], "ok")


class Together(Near):
    """Followers of PostgreSQL, deaths of services and page servers, and readers that compare two pages of each transaction."""

    def new_keeping(self) -> Keeping:
        return Keeping(ttl=1.0, standby=False)

    def test_each_look_is_at_one_transaction_over_deaths_of_all(self) -> None:
        servers = self.servers()
        self.wrong: list[object] = []
        ended = threading.Event()
        with self.keeping.primary() as primary:
            primary.append(Put(1, 0, b"%08d" % 0), Put(2, 0, b"%08d" % 0))
            self.follows_to(primary.commit(durable=True))
            eventually(lambda: self.keeping.place().pages == 1, "that keepers tell of it")
            readers = ({}, {"durable_only": True}, {"pages": "only"})
            self.copied = [0] * len(readers)
            threads = [
                threading.Thread(target=self.look, args=(number, options, ended))
                for number, options in enumerate(readers)
            ]
            for thread in threads:
                thread.start()
            try:
                for n in range(1, 400):
                    primary.append(Put(1, 0, b"%08d" % n), Put(2, 0, b"%08d" % n))
                    position = primary.commit(durable=n % 3 == 0)
                    if n % 100 == 50:
                        os.kill(self.keeping.pid(), signal.SIGKILL)
                    if n % 100 == 0:
                        for follower, _ in list(servers._running.values()):
                            if follower._process is not None:
                                os.kill(follower._process.pid, signal.SIGKILL)
                primary.durable(position)
                eventually(
                    lambda: min(self.copied) > 20
                    or not all(map(threading.Thread.is_alive, threads)),
                    "that each reader has pages of a page server",
                )
            finally:
                ended.set()
                for thread in threads:
                    thread.join()
        self.assertEqual(self.wrong, [])
        self.assertGreater(min(self.copied), 20, self.copied)  # else a reader broke off

    def look(self, number: int, options: dict[str, Any], ended: threading.Event) -> None:
        with self.keeping.reader(**options) as reader:
            last = seen = 0
            while not ended.is_set():
                try:
                    end = reader.end()
                    first, second = (page.data[:8] for page in reader.pages((1, 2), end))
                except AboveTheEnd:
                    continue  # it was lost with its service since
                if options and end < last:
                    self.wrong.append(("went back", options, last, end))
                if first != second or (options and int(first) < seen):
                    self.wrong.append((options, end, first, second, seen))
                last, seen = end, int(first)
                assert reader._copies is not None
                self.copied[number] = reader._copies.asked_of


if __name__ == "__main__":
    unittest.main()
