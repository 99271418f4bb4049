"""SQLite's readers at page servers: alone, for what is from before a generation's base, and never."""

from __future__ import annotations

import os
import signal
import sqlite3
import unittest
from contextlib import closing

import psycopg
from keepers import Keeping, eventually
from pagelog.referee.bases import make_base
from service import PATIENCE
from sqlite_named import connected, error_of
from test_pages import Apart


class Read(Apart):
    def setUp(self) -> None:
        super().setUp()
        self.writer = self.enterContext(closing(connected(self.keeping.addresses)))
        self.writer.execute("create table t(n integer primary key)")

    def enter(self, *numbers: int) -> int:
        """Returns the position."""
        for number in numbers:
            self.writer.execute("insert into t values(?)", (number,))
        return self.position(self.writer)

    @staticmethod
    def position(connection: sqlite3.Connection) -> int:
        return int(connection.execute("pragma pagelog_position").fetchone()[0])

    def reading(self, **options: object) -> sqlite3.Connection:
        return self.enterContext(
            closing(connected(self.keeping.addresses, id=3, mode="ro", **options))
        )

    @staticmethod
    def numbers(connection: sqlite3.Connection) -> list[int]:
        return [number for number, in connection.execute("select n from t order by n")]

    def superseded(self, *, is_pruned: bool = True) -> int:
        """The next generation begins with images, and the blocks below go. Returns its base."""
        row = self.keeping.row()
        base = make_base(self.keeping.referee, row.id, row.archived, row.chain).position
        if is_pruned:
            with psycopg.connect(self.keeping.url, autocommit=True) as session:
                session.execute(
                    "DELETE FROM pagelog_block WHERE log = %s AND lsn <= %s", (row.id, base)
                )
        generation = self.keeping.place().generation
        os.kill(self.keeping.pid(), signal.SIGKILL)
        self.assertEqual(self.keeping.place(least=generation + 1).base, base)
        return base

    def both(self, position: int) -> None:
        """Two page servers, which have it."""
        self.servers()
        self.apart()
        for machine in ("here", "there"):
            eventually(lambda: self.at(machine).position >= position, f"{machine} at {position}")


class Alone(Read):
    def test_one_that_asks_nobody_else_follows_over_deaths_and_a_succession(self) -> None:
        self.both(self.enter(1, 2, 3))
        reader = self.reading(page_servers="only")
        self.assertEqual(self.numbers(reader), [1, 2, 3])
        pid = self.keeping.pid()
        self.keeping.kill("a", signal.SIGSTOP)
        os.kill(pid, signal.SIGKILL)  # of no service it asks anything
        self.assertEqual(self.numbers(reader), [1, 2, 3])
        self.keeping.kill("a", signal.SIGCONT)
        self.enter(4)
        eventually(lambda: self.numbers(reader) == [1, 2, 3, 4], "what is durable since")
        self.superseded()
        self.enter(5)
        eventually(
            lambda: self.numbers(reader) == [1, 2, 3, 4, 5],
            "what is durable in the next generation",
        )
        for follower, _ in self.made._running.values():
            assert follower._process is not None
            os.kill(follower._process.pid, signal.SIGKILL)
        self.assertEqual(self.numbers(reader), [1, 2, 3, 4, 5])
        self.enter(6)
        eventually(
            lambda: self.numbers(reader) == [1, 2, 3, 4, 5, 6], "what is durable after a death"
        )

    def test_one_that_stands_still_is_left(self) -> None:
        still, position = self.apart(), self.enter(1)
        eventually(lambda: self.at("there").position >= position, "the first one")
        reader = self.reading(page_servers="only")
        self.assertEqual(self.numbers(reader), [1])
        self.servers()
        eventually(lambda: self.at("here").position >= position, "the second one")
        still.send_signal(signal.SIGSTOP)  # its program goes on answering
        self.enter(2)
        eventually(lambda: self.numbers(reader) == [1, 2], "what is durable since")

    def test_of_a_database_that_was_dropped_nothing_is_read(self) -> None:
        position = self.enter(1)
        still = self.apart()
        eventually(lambda: self.at("there").position >= position, "one")
        reader = self.reading(page_servers="only", move=1000)
        self.assertEqual(self.numbers(reader), [1])
        still.send_signal(signal.SIGSTOP)  # its program would go on answering
        self.writer.close()
        self.keeping.referee.close()
        self.assertTrue(self.keeping.referee.drop("shop"))

        def is_told() -> bool:
            try:
                self.numbers(reader)
            except sqlite3.OperationalError:
                return "dropped" in error_of(reader)
            return False

        eventually(is_told, "that it is no more")


class Behind(Read):
    """One of two stands still, and keepers call it alive for a while yet."""

    def new_keeping(self) -> Keeping:
        return Keeping(ttl=60.0, standby=False)

    def told(self) -> set[str]:
        """The runs of those that keepers call alive, who look now."""
        self.keeping.ring()
        with closing(self.keeping.keepers()) as keepers:
            return {each.run for each in keepers.page_servers() or ()}

    def test_nobody_goes_back(self) -> None:
        servers, position = self.servers(), self.enter(1)
        eventually(lambda: self.at("here").position >= position, "the first one")
        eventually(lambda: len(self.told()) == 1, "that it is told")
        reader = self.reading(page_servers="only", move=3000)
        eventually(lambda: self.numbers(reader) == [1], "what it has")
        still = self.apart()
        eventually(lambda: self.at("there").position >= position, "the second one")
        eventually(lambda: len(self.told()) == 2, "that both are told")
        still.send_signal(signal.SIGSTOP)  # its program goes on answering
        position = self.enter(2)
        eventually(lambda: self.numbers(reader) == [1, 2], "all of it, at the first one")
        servers.end()
        for _, thread in list(servers._running.values()):
            thread.join()
        with self.assertRaises(sqlite3.OperationalError):
            self.numbers(reader)
        self.assertIn(self.at("there").run, self.told())
        still.send_signal(signal.SIGCONT)
        eventually(lambda: self.at("there").position >= position, "that it has followed")
        self.assertEqual(self.numbers(reader), [1, 2])


class Older(Read):
    def test_what_is_from_before_the_base_is_read_at_a_page_server(self) -> None:
        self.writer.execute("create table far(b)")
        self.writer.execute(
            "insert into far values(hex(zeroblob(1500000)) || 'end')"
        )  # more than is fetched with the other table
        first = self.enter(1, 2)
        self.both(self.enter(3, 4))
        held = {word: self.reading(page_servers=word) for word in ("older", "never")}
        for connection in held.values():
            connection.execute("begin")
            self.assertEqual(self.numbers(connection), [1, 2, 3, 4])
        self.enter(5)
        base = self.superseded()
        self.assertGreater(base, first)
        self.enter(6)
        self.assertEqual(self.numbers(self.reading(at=first)), [1, 2])
        with self.assertRaises(sqlite3.OperationalError):
            self.numbers(self.reading(at=first, page_servers="never"))
        with self.assertRaises(sqlite3.OperationalError):
            self.far(held["never"])
        self.assertEqual(
            self.far(held["older"]), "end"
        )  # a transaction goes on where its positions are
        self.assertEqual(self.numbers(held["older"]), [1, 2, 3, 4])
        held["older"].execute("commit")
        self.assertEqual(self.numbers(held["older"]), [1, 2, 3, 4, 5, 6])
        self.assertEqual(self.numbers(self.reading()), [1, 2, 3, 4, 5, 6])

    @staticmethod
    def far(connection: sqlite3.Connection) -> str:
        return str(connection.execute("select substr(b, -3) from far").fetchone()[0])

    def test_without_a_page_server_a_transaction_is_over_as_it_was(self) -> None:
        self.writer.execute("create table far(b)")
        self.writer.execute("insert into far values(hex(zeroblob(1500000)) || 'end')")
        with self.assertRaises(sqlite3.Error):
            self.reading(page_servers="some")
        first = self.enter(1)
        held = self.reading()
        held.execute("begin")
        self.assertEqual(self.numbers(held), [1])
        self.enter(2)
        self.superseded()
        with self.assertRaises(sqlite3.OperationalError):
            self.far(held)
        with self.assertRaises(sqlite3.OperationalError):
            self.numbers(self.reading(at=first))
        if held.in_transaction:
            held.execute("rollback")
        self.assertEqual((self.numbers(held), self.far(held)), ([1, 2], "end"))


if __name__ == "__main__":
    unittest.main()
