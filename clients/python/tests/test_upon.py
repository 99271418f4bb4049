"""A commit stands upon what it was made upon, or is lost and told so: of what is not durable yet a service's death takes much, and others
write there before."""

from __future__ import annotations

import os
import signal
import sqlite3
import subprocess
import sys
from contextlib import closing
from pathlib import Path

from keepers import eventually
from sqlite_named import connected, error_of, load
from test_identity import Movable

KILLED = """
import os, sys
sys.path.insert(0, sys.argv[1])
from sqlite_named import connected
made, first, count = connected(sys.argv[2].split(","), "normal"), int(sys.argv[3]), int(sys.argv[4])
for number in range(first, first + count):
    made.execute("insert into t values(?)", (number,))
os.kill(os.getpid(), 9)
"""
HELD, LEAP = 1024, 512
"""Blocks that are pulled when a file opens, and that it follows one by one."""


class Upon(Movable):
    keepers = "a"

    def setUp(self) -> None:
        load()
        super().setUp()
        with closing(connected(self.keeping.addresses)) as first:
            first.execute("create table t(n integer primary key)")
            first.execute("insert into t values(1)")

    def enter_and_be_killed(self, first: int, count: int) -> None:
        """Another process commits so many numbers, and ends before they are durable: nobody sends them again."""
        words = [
            str(Path(__file__).parent),
            ",".join(self.keeping.addresses),
            str(first),
            str(count),
        ]
        self.assertEqual(
            subprocess.run([sys.executable, "-B", "-c", KILLED, *words]).returncode, -signal.SIGKILL
        )

    def numbers(self, connection: sqlite3.Connection) -> tuple[int, ...]:
        """How many there are: of what was durable, of who was killed before the loss and after it, and of `mine`."""
        found = connection.execute(
            "select sum(n = 1), sum(n / 100000 = 1), sum(n / 100000 = 2), sum(n = 2) from t"
        ).fetchone()
        return tuple(found)

    def lose(self, mine: sqlite3.Connection, count: int) -> None:
        """The service dies with all that is not durable. Others write as many blocks before `mine` hears of it."""
        generation = self.keeping.place().generation
        os.kill(self.keeping.pid(), signal.SIGKILL)
        self.let_in()
        eventually(
            lambda: self.keeping.row().generation > generation
            and self.keeping.row().address is not None,
            "the next generation",
        )
        self.enter_and_be_killed(200_000, count)
        with self.assertRaisesRegex(sqlite3.OperationalError, "disk I/O error"):
            mine.execute("select * from t").fetchall()
        self.assertIn("another writer has gone on", error_of(mine))
        self.assertEqual(self.numbers(mine), (1, 0, count, 0))
        mine.execute("insert into t values(3)")
        with closing(connected(self.keeping.addresses, id=3, mode="ro")) as reader:
            self.assertEqual(
                (reader.execute("pragma integrity_check").fetchone(), self.numbers(reader)),
                (("ok",), (1, 0, count, 0)),
            )

    def test_of_a_writer_that_came_where_much_was_not_durable(self) -> None:
        self.cut_off()
        self.enter_and_be_killed(100_000, HELD + 6)
        with closing(connected(self.keeping.addresses, "normal")) as mine:
            mine.execute("insert into t values(2)")
            self.lose(mine, HELD + 6)

    def test_of_a_writer_that_has_leapt(self) -> None:
        with closing(connected(self.keeping.addresses, "normal")) as mine:
            self.assertEqual(self.numbers(mine), (1, 0, 0, 0))
            self.cut_off()
            self.enter_and_be_killed(100_000, LEAP + 100)
            mine.execute("insert into t values(2)")
            self.lose(mine, LEAP + 100)

    def test_of_one_whose_log_ends_right_before_what_it_holds(self) -> None:
        with closing(connected(self.keeping.addresses, "normal")) as mine:
            self.assertEqual(self.numbers(mine), (1, 0, 0, 0))
            self.cut_off()
            self.enter_and_be_killed(100_000, LEAP + 100)
            mine.execute("insert into t values(2)")
            self.lose(mine, LEAP + 99)
