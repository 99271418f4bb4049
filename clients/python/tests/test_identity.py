"""Which database and which run is meant: a name that is used again, numbers of generations that come again, and older peers."""

from __future__ import annotations

import os
import signal
import sqlite3
import tempfile
import unittest
from contextlib import closing
from dataclasses import replace
from pathlib import Path
from typing import Any, Callable

import psycopg

from keepers import Kept, eventually, new_url
from pagelog import ConnectionLost, NamedPrimary
from pagelog.keeper import numbers
from pagelog.referee.referee import Referee
from pagelog.referee.rows import Row
from pagelog.place import Keepers, Lost, Place, UnknownName
from service import PATIENCE, stand_still
from sqlite_named import connected, enter, error_of


class Numbers(unittest.TestCase):
    """What a keeper makes of the numbers that its looks show."""

    def setUp(self) -> None:
        self.folder = Path(self.enterContext(tempfile.TemporaryDirectory()))
        self.numbers = numbers.Numbers(self.folder)

    def row(self, generation: int, run: str | None = "r", **more: Any) -> Row:
        return Row(
            **{
                "id": 1,
                "name": "shop",
                "generation": generation,
                "run": run,
                "identity": "one",
                "next_generation": generation + 1,
                **more,
            }
        )

    def test_what_postgresql_forgets_is_known(self) -> None:
        self.assertEqual(self.numbers.see([self.row(4)]), [])
        self.assertEqual(self.numbers.least(self.row(4)), 0)
        self.numbers.note("one", 6)  # a take of its own
        self.assertEqual(self.numbers.see([self.row(4)]), [self.row(4)])
        self.assertEqual(
            (
                self.numbers.highest(self.row(4)),
                self.numbers.least(self.row(4)),
                self.numbers.doubted(self.row(4)),
            ),
            (6, 8, 0),
        )
        told = self.row(4, next_generation=8)
        self.assertEqual((self.numbers.see([told]), self.numbers.least(told)), ([], 0))

    def test_a_number_that_two_runs_have_had_is_doubted_once(self) -> None:
        self.numbers.see([self.row(5)])
        self.assertEqual(self.numbers.see([self.row(5, "another")]), [self.row(5, "another")])
        self.assertEqual(self.numbers.doubted(self.row(5, "another")), 5)
        self.assertEqual(self.numbers.see([self.row(5, "another", doubted=5)]), [])
        self.assertEqual(self.numbers.see([self.row(5, None)]), [])  # it was released

    def test_a_later_life_knows_what_was_noted(self) -> None:
        self.numbers.see([self.row(5)])
        self.numbers.save()
        later = numbers.Numbers(self.folder)
        later.begin()
        self.assertEqual(later.see([self.row(3)]), [self.row(3)])
        self.assertEqual(
            (later.highest(self.row(3)), later.doubted(self.row(3))), (5, 5)
        )  # whose 3 that is it cannot know
        for text in ("", "[]", '{"one": "x"}', "nothing"):
            (self.folder / "numbers").write_text(text)
            later = numbers.Numbers(self.folder)
            later.begin()
            self.assertEqual(later.see([self.row(3)]), [])

    def test_a_name_goes_on_above_the_dropped_one(self) -> None:
        dropped, again = self.row(9, None, name="shop!1", dropped=True), Row(
            2, "shop", identity="two"
        )
        self.assertEqual(self.numbers.see([dropped, again]), [again])
        self.assertEqual((self.numbers.least(again), self.numbers.doubted(again)), (11, 9))
        self.assertEqual(self.numbers.see([dropped, replace(again, next_generation=11)]), [])

    def test_a_name_goes_on_above_a_database_that_postgresql_has_lost(self) -> None:
        self.numbers.see([self.row(9, identity="lost")])
        self.numbers.see([])
        again = self.row(2)
        self.assertEqual(self.numbers.see([again]), [again])
        self.assertEqual((self.numbers.least(again), self.numbers.doubted(again)), (11, 9))
        self.assertEqual(self.numbers.see([replace(again, next_generation=11, doubted=9)]), [])


class Going(Kept):
    """Two keepers of one name."""

    def holder(self) -> str:
        eventually(lambda: self.keeping.row().address is not None, "a holder")
        return str(self.keeping.row().holder)

    def fresh(self) -> None:
        """Another database of the name."""
        before = self.keeping.row().identity
        self.keeping.word("drop", "shop", "--force")
        self.assertTrue(
            self.keeping.referee.create("shop", self.keeping.table.read_text(), b"s" * 16)
        )
        self.wait_for_another_than(before)

    def wait_for_another_than(self, database: str | None, name: str = "shop") -> None:
        """Until a keeper tells the place of another database of the name."""

        def is_told() -> bool:
            try:
                place = self.keeping.keepers(name).where()
            except UnknownName:
                return False
            return place is not None and place.database != database

        eventually(is_told, "the place of another database of the name")

    def succeed_beyond(self, place: Place) -> None:
        """The number of the new database's generation is above the old one's, if it was not from the beginning."""
        while (now := self.keeping.place()).generation <= place.generation + 1:
            self.keeping.word("rollover", "shop")
            self.keeping.place(least=now.generation + 1)

    def fill(self, text: str, end: int) -> None:
        """Another writer commits until the position, all of it durable."""
        with self.keeping.primary(id=5) as other:
            while self.commit(other, text) < end:
                pass
            other.durable(other.end)

    def lost(self, primary: NamedPrimary, **how: bool) -> str:
        """A commit is told as lost. Returns the sentence."""
        with self.assertRaises(Lost) as raised:
            self.commit(primary, "mine", **how)
        return str(raised.exception)


class NamesAreUsedAgain(Going):
    """The holder's keeper is dead, and its service lives; the database is dropped, and another one of its name is created."""

    def drop_beside(self) -> None:
        holder = self.holder()
        self.keeping.kill(holder)
        self.fresh()
        self.survivor = "ab".replace(holder, "")

    def test_a_writer_of_a_dropped_database_is_told_nothing_of_another_one(self) -> None:
        primary = self.enterContext(self.keeping.primary())
        for _ in range(20):
            self.commit(primary, "old", durable=True)
        reader = self.enterContext(self.keeping.reader(durable_only=True))
        eventually(lambda: reader.end() == 20, "what is durable")
        self.drop_beside()
        self.fill("new", 30)
        self.assertIn("the database was dropped", self.lost(primary, durable=True))
        self.assertIn("the database was dropped", self.lost(primary))
        with self.assertRaisesRegex(Lost, "dropped"):
            reader.end()
        self.assertEqual(set(self.texts()), {b"new"})

    def test_a_writer_of_sqlite_is_told_nothing_of_another_one(self) -> None:
        old = connected(self.keeping.addresses)
        old.execute("create table t(n integer primary key)")
        for number in range(5):
            old.execute("insert into t values(?)", (number,))
        self.drop_beside()
        enter(self.keeping.addresses, 30)
        with self.assertRaises(sqlite3.OperationalError):
            old.execute("insert into t values(9000)")
        self.assertIn("was dropped", error_of(old))
        with self.assertRaises(sqlite3.Error):
            old.execute("insert into t values(9001)")
        with closing(connected(self.keeping.addresses)) as later:  # of the same process
            self.assertEqual(later.execute("select count(*), max(n) from t").fetchone(), (30, 29))

    def test_a_tail_of_a_dropped_database_is_written_into_no_other(self) -> None:
        primary = self.enterContext(self.keeping.primary())
        for _ in range(3):
            self.commit(primary, "old", durable=True)
        pid, place = self.keeping.pid(), self.keeping.place()
        self.keeping.kill(self.holder())  # nobody archives it
        for _ in range(5):
            self.commit(primary, "tail")
        os.kill(pid, signal.SIGKILL)
        self.fresh()
        self.fill("new", 3)
        self.succeed_beyond(place)
        self.assertIn("the database was dropped", self.lost(primary))
        self.fill("new", 4)
        self.assertEqual(set(self.texts()), {b"new"})

    def test_a_tail_of_sqlite_is_written_into_no_other(self) -> None:
        old = connected(self.keeping.addresses, "normal")
        old.execute("create table t(n integer primary key)")
        old.execute("pragma synchronous = full")
        for number in range(2):
            old.execute("insert into t values(?)", (number,))
        pid, place = self.keeping.pid(), self.keeping.place()
        self.keeping.kill(self.holder())
        old.execute("pragma synchronous = normal")
        for number in range(5):
            old.execute("insert into t values(?)", (1000 + number,))
        os.kill(pid, signal.SIGKILL)
        self.fresh()
        enter(self.keeping.addresses, 2)
        self.succeed_beyond(place)
        with self.assertRaises(sqlite3.OperationalError):
            old.execute("insert into t values(2000)")
        self.assertIn("was dropped", error_of(old))
        with closing(connected(self.keeping.addresses, id=3, mode="ro")) as reader:
            self.assertEqual(reader.execute("select count(*) from t").fetchone(), (2,))
            self.assertEqual(reader.execute("pragma integrity_check").fetchone(), ("ok",))

    def test_who_opens_it_while_nobody_has_it_is_told_that_it_was_dropped(self) -> None:
        primary = self.enterContext(self.keeping.primary())
        self.commit(primary, "old", durable=True)
        self.keeping.word("drop", "shop", "--force")
        self.assertIn("the database was dropped", self.lost(primary, durable=True))

    def test_connections_of_sqlite_are_told_that_it_was_dropped(self) -> None:
        writer = connected(self.keeping.addresses)
        writer.execute("create table t(n integer primary key)")
        reader = connected(self.keeping.addresses, id=3, mode="ro", durable=1)
        self.assertEqual(reader.execute("select count(*) from t").fetchone(), (0,))
        self.keeping.word("drop", "shop", "--force")
        for connection, statement in (
            (writer, "insert into t values(1)"),
            (reader, "select * from t"),
        ):
            with self.assertRaises(sqlite3.Error):
                connection.execute(statement)
            self.assertIn("was dropped", error_of(connection))

    def test_a_copy_opens_under_its_own_name(self) -> None:
        """Its pages have the name, and the database, of what it is a copy of; the copy of a copy too. Under another name neither opens."""
        of = self.keeping.place().of
        with closing(connected(self.keeping.addresses)) as writer:
            writer.execute("create table t(n integer primary key)")
            writer.execute("insert into t values(7)")
            position = int(writer.execute("pragma pagelog_position").fetchone()[0])
        self.keeping.word("restore", "shop", "--at", position, "--as", "copy")
        eventually(lambda: self.keeping.row("copy").address is not None, "its place")
        self.keeping.word("restore", "copy", "--at", position, "--as", "second")
        for name in ("copy", "second"):
            eventually(
                lambda: self.keeping.row(name).address is not None, "its place"
            )  # noqa: B023
            with closing(connected(self.keeping.addresses, id=3, name=name, mode="ro")) as reader:
                self.assertEqual(reader.execute("select n from t").fetchone(), (7,))
                self.assertEqual(reader.execute("pragma pagelog_origin").fetchone(), (of,))
        self.keeping.word("restore", "shop", "--at", position, "--as", "third")
        eventually(lambda: self.keeping.row("third").address is not None, "its place")
        with self.assertRaises(sqlite3.OperationalError):
            connected(self.keeping.addresses, id=3, name="third", file="other", mode="ro")

    def test_a_standby_of_an_earlier_run_is_not_taken_for_the_one_that_is_here(self) -> None:
        """PostgreSQL went back to it."""
        self.holder()
        eventually(lambda: len(self.keeping.standbys()) == 1, "a standby")
        id = self.keeping.row().id

        def noted() -> tuple[str, str]:
            [found] = self.keeping.referee.everything().standbys_of(id)
            return found.run, found.address

        before = noted()
        self.keeping.referee._ask(
            "UPDATE pagelog_standby SET run = 'earlier', address = '127.0.0.1:1' WHERE log = %s RETURNING log",
            (id,),
        )
        eventually(lambda: noted() == before, "the one that is here")

    def test_the_numbers_of_a_name_go_on(self) -> None:
        first = self.keeping.place()
        self.fresh()
        second = self.keeping.place()
        self.assertGreater(second.generation, first.generation)
        self.assertNotEqual(second.database, first.database)
        self.keeping.word("drop", "shop", "--force")
        referee = self.keeping.referee  # as an older version creates it
        referee._ask(
            "WITH made AS (INSERT INTO pagelog_log (name, format, archived, epoch) VALUES ('shop', 3, 0, 1) RETURNING id) "
            "INSERT INTO pagelog_table (log, text, secret) SELECT id, %s, %s FROM made RETURNING log",
            (self.keeping.table.read_text(), b"s" * 16),
        )
        self.wait_for_another_than(second.database)
        self.assertGreater(self.keeping.place().generation, second.generation)

    def test_an_older_client_is_told_no_keys(self) -> None:
        place = self.keeping.place()
        with self.keeping.line(self.holder()) as line:
            for question, count in (
                ("where shop", 10),
                (f"next shop {place.generation}", 10),
                (f"durable shop {place.generation} 0", 4),
            ):
                line.write(f"{question}\n")
                line.flush()
                self.assertEqual(len(line.readline().split()), count)

    def test_what_is_asked_of_another_run_is_answered_at_once(self) -> None:
        place = self.keeping.place()
        database, run, other = place.database, place.run, "0" * 8 + place.database[8:]
        keeper = str(self.holder())
        asked = {
            f"durable shop {place.generation} 0 of={database}/{run}": f"durable shop {place.generation} 0 of={database}/{run}",
            f"durable shop {place.generation} 0 of={database}/another": f"lost shop {place.generation} superseded by={place.generation} "
            f"of={database}/another",
            f"durable shop {place.generation} 0 of={other}/{run}": f"lost shop {place.generation} another by=0 of={other}/{run}",
            f"durable shop {place.generation + 1} 0 of={database}/later": f"elsewhere shop {place.generation + 1} of={database}/later",
            f"turn shop of={database}/another": f"elsewhere shop of={database}/another",
            f"block shop 1 of={other}": f"block shop 1 - of={other}",
            f"turn shop of={database}/{run} color=red": "turn shop other",
        }
        with self.keeping.line(keeper) as line:
            for question, told in {"hello 2": "hello 2", **asked}.items():
                line.write(f"{question}\n")
                line.flush()
                self.assertEqual(line.readline().partition(" nonce=")[0].rstrip(), told)


TTL = float(os.environ.get("PAGELOG_TEST_TTL", "1.5"))
"""A keeper whose looks are more than half of it apart does not learn who stands still."""


class Movable(Going):
    """PostgreSQL can be cut off, and set back."""

    def setUp(self) -> None:
        self.url = new_url()
        self.options = {"url": self.url, "ttl": TTL}  # type: ignore[misc]
        super().setUp()

    def server(self, *statements: str) -> None:
        name = self.name()
        with psycopg.connect(self.url.replace(f"/{name}", "/postgres"), autocommit=True) as session:
            for statement in statements:
                session.execute(statement.format(name=name))

    def name(self) -> str:
        return self.url.partition("?")[0].rpartition("/")[2]

    def cut_off(self) -> None:
        """Nobody may connect to the database, and nobody is."""
        self.server(
            "ALTER DATABASE {name} ALLOW_CONNECTIONS false",
            "SELECT pg_terminate_backend(pid) FROM pg_stat_activity WHERE datname = '{name}'",
        )

    def copy(self) -> None:
        self.keeping.referee.close()
        self.cut_off()
        self.server(
            "CREATE DATABASE {name}_before TEMPLATE {name}",
            "ALTER DATABASE {name} ALLOW_CONNECTIONS true",
        )

    def set_back(self) -> None:
        self.keeping.referee.close()
        self.cut_off()
        self.server("DROP DATABASE {name}", "ALTER DATABASE {name}_before RENAME TO {name}")

    def let_in(self) -> None:
        """Who was cut off may connect again."""
        self.server("ALTER DATABASE {name} ALLOW_CONNECTIONS true")


class NumbersComeAgain(Movable):
    """PostgreSQL is set back, to before a switchover: the generation that had begun is unknown to it, and so is its number."""

    def switch_over(self) -> Place:
        place = self.keeping.place()
        self.keeping.word("switchover", "shop")
        return self.keeping.place(least=place.generation + 1)

    def test_a_writer_comes_over_two_generations_while_postgresql_is_away(self) -> None:
        """Their keeper knows where each has ended, so that nobody waits for PostgreSQL to say that nothing is lost."""
        primary = self.enterContext(self.keeping.primary())
        self.commit(primary, "1", durable=True)
        for _ in range(2):
            place = self.keeping.place()
            self.keeping.word("rollover", "shop")
            self.keeping.place(least=place.generation + 1)
        self.keeping.referee.close()
        self.cut_off()
        self.addCleanup(self.server, "ALTER DATABASE {name} ALLOW_CONNECTIONS true")
        self.assertEqual(self.commit(primary, "2"), 2)
        self.server("ALTER DATABASE {name} ALLOW_CONNECTIONS true")
        primary.durable(2)
        self.assertEqual(self.texts(), [b"1", b"2"])

    def go_back_before_a_switchover(self, write: Callable[[int], object], continues: bool) -> Place:
        """Returns the place of the generation that PostgreSQL has lost, and a writer is in, once that continues, or another has gone on:
        the keeper that would do the other thing stands still meanwhile."""
        before, first = str(self.holder()), self.keeping.row().run
        eventually(lambda: len(self.keeping.standbys()) == 1, "a standby")
        self.copy()
        write(1)
        place = self.switch_over()
        write(2)
        after = str(self.holder())
        self.assertNotEqual(after, before)
        for address in self.keeping.addresses:  # who goes on has seen its number
            with closing(Keepers("shop", [address], PATIENCE)) as keeper:
                keeper.place(place.generation)
        pid = self.keeping.processes[before if continues else after].pid
        stand_still(pid)
        try:
            self.set_back()
            eventually(lambda: self.has_gone_on(first, place, continues), "who goes on")
        finally:
            os.kill(pid, signal.SIGCONT)
        self.all_tell(str(self.keeping.row().run))
        return place

    def all_tell(self, run: str) -> None:
        """Until each keeper tells of this run: one that has not looked since PostgreSQL went back tells of what that has lost."""
        for address in self.keeping.addresses:
            with closing(Keepers("shop", [address], PATIENCE)) as keeper:
                eventually(
                    lambda: keeper.place().run == run, "a word of the other run"
                )  # noqa: B023

    def has_gone_on(self, first: str | None, place: Place, continues: bool) -> bool:
        """Whether the run that PostgreSQL had lost has a later number there, or one serves that is neither this one nor the first, perhaps
        under the same number."""
        row = self.keeping.row()
        if row.address is None or row.run is None:
            return False
        return (
            row.run == place.run and row.generation > place.generation
            if continues
            else row.run not in (first, place.run)
        )

    def test_a_writer_is_told_nothing_of_another_run_of_the_number(self) -> None:
        primary = self.enterContext(self.keeping.primary())
        self.commit(primary, "0", durable=True)
        self.go_back_before_a_switchover(
            lambda number: self.commit(primary, f"gone {number}", durable=True), continues=False
        )
        self.fill("new", 30)
        self.assertIn("PostgreSQL went back", self.lost(primary, durable=True))
        self.assertGreater(self.commit(primary, "after", durable=True), 30)
        texts = (
            self.texts()
        )  # what PostgreSQL has lost may be there: the other keeper's standby may have had it
        self.assertEqual((texts[0], b"mine" in texts, texts[-1]), (b"0", False, b"after"))

    def test_a_writer_whose_run_continues_has_lost_nothing(self) -> None:
        primary = self.enterContext(self.keeping.primary())
        self.commit(primary, "0", durable=True)
        self.go_back_before_a_switchover(
            lambda number: self.commit(primary, f"kept {number}", durable=True), continues=True
        )
        self.assertEqual(self.commit(primary, "after", durable=True), 4)
        self.fill("new", 5)
        self.assertEqual(self.texts(), [b"0", b"kept 1", b"kept 2", b"after", b"new"])

    def sqlite_over(self, continues: bool) -> sqlite3.Connection:
        """A connection whose commits, all durable, PostgreSQL has lost; another process has written since."""
        old = connected(self.keeping.addresses)
        old.execute("create table t(n integer primary key)")
        self.go_back_before_a_switchover(
            lambda number: old.execute("insert into t values(?)", (100 + number,)), continues
        )
        enter(self.keeping.addresses, 20)
        return old

    def rows(self) -> tuple[int, int, int]:
        """The highest, how many there are of the generation that PostgreSQL has lost, and of the other process."""
        with closing(connected(self.keeping.addresses, id=3, mode="ro", durable=1)) as reader:
            [found] = reader.execute("select max(n), sum(n = 102), sum(n < 20) from t")
            return found  # type: ignore[no-any-return]

    def assert_told_once(self, old: sqlite3.Connection) -> None:
        """That PostgreSQL went back; then it goes on behind the other process."""
        with self.assertRaises(sqlite3.OperationalError):
            old.execute("insert into t values(9000)")
        self.assertIn("went back", error_of(old))
        old.execute("insert into t values(9001)")
        highest, _, others = self.rows()
        self.assertEqual((highest, others), (9001, 20))

    def test_a_writer_of_sqlite_is_told_nothing_of_another_run_of_the_number(self) -> None:
        old = self.sqlite_over(continues=False)
        self.assert_told_once(old)

    def give_a_number_twice(self, write: Callable[[int], object]) -> Place:
        """The keeper that goes on was dead while the other one had the generation of this number, so that it gives it again. Returns the
        place of the run that is lost, and a writer is in."""
        before = str(self.holder())
        eventually(lambda: len(self.keeping.standbys()) == 1, "a standby")
        write(1)
        self.copy()
        self.keeping.kill(before)
        place = self.keeping.place(least=self.keeping.row().generation + 1)
        write(2)
        pid = self.keeping.processes[str(self.holder())].pid
        stand_still(pid)
        try:
            self.set_back()
            self.keeping.start(before)
            self.keeping.word("rollover", "shop")
            eventually(
                lambda: (now := self.keeping.row()).generation == place.generation
                and now.address is not None,
                "another run of the number",
            )
        finally:
            os.kill(pid, signal.SIGCONT)
        self.assertNotEqual(self.keeping.row().run, place.run)
        self.all_tell(str(self.keeping.row().run))
        return place

    def test_a_writer_is_told_nothing_of_another_run_whose_number_is_its_own(self) -> None:
        primary = self.enterContext(self.keeping.primary())
        self.give_a_number_twice(lambda number: self.commit(primary, f"{number}", durable=True))
        self.fill("new", 30)
        self.assertIn("PostgreSQL went back", self.lost(primary, durable=True))
        self.commit(primary, "after", durable=True)
        texts = self.texts()
        self.assertEqual(
            (texts[0], b"new" in texts, b"mine" in texts, texts[-1]), (b"1", True, False, b"after")
        )

    def test_a_writer_of_sqlite_is_told_nothing_of_another_run_whose_number_is_its_own(
        self,
    ) -> None:
        old = connected(self.keeping.addresses)
        old.execute("create table t(n integer primary key)")
        self.give_a_number_twice(
            lambda number: old.execute("insert into t values(?)", (100 + number,))
        )
        enter(self.keeping.addresses, 20)
        self.assert_told_once(old)

    def test_a_reader_of_sqlite_takes_no_commit_for_the_lost_one_at_its_position(self) -> None:
        """Of the same writer, which goes on where PostgreSQL went back to."""
        old = connected(self.keeping.addresses)
        old.execute("create table t(n integer primary key)")
        reader, durable = (
            connected(self.keeping.addresses, id=3, mode="ro", **more)
            for more in ({}, {"durable": 1})
        )

        def write(number: int) -> None:
            old.execute("insert into t values(?)", (number,))
            eventually(
                lambda: self.all_of(reader)[-1:] == self.all_of(durable)[-1:] == [number],
                "what was written",
            )

        self.give_a_number_twice(write)
        with self.assertRaises(sqlite3.OperationalError):
            old.execute("insert into t values(9000)")
        old.execute("insert into t values(3)")
        eventually(
            lambda: self.all_of(reader) == self.all_of(durable) == [1, 3], "what came in its place"
        )

    def all_of(self, reader: sqlite3.Connection) -> list[int]:
        return [number for (number,) in reader.execute("select n from t")]

    def test_a_database_is_no_other_whose_number_it_has(self) -> None:
        """PostgreSQL has lost it, and has given the number of its row, and its name too, to another one."""
        self.holder()
        self.copy()
        self.assertTrue(
            self.keeping.referee.create("again", self.keeping.table.read_text(), b"s" * 16)
        )
        self.wait_for_another_than(None, "again")
        primary = self.enterContext(self.keeping.primary("again"))
        for _ in range(5):
            self.commit(primary, "lost", durable=True)
        eventually(lambda: len(self.keeping.standbys("again")) == 1, "a standby")
        id, place, name = self.keeping.row("again").id, self.keeping.place("again"), self.name()
        with closing(Referee(self.url.replace(f"/{name}", f"/{name}_before"))) as before:
            self.assertTrue(before.create("again", self.keeping.table.read_text(), b"s" * 16))
        self.set_back()
        self.assertEqual(self.keeping.row("again").id, id)
        self.wait_for_another_than(place.database, "again")
        self.assertGreater(self.keeping.place("again").generation, place.generation)
        with self.keeping.primary("again", id=5) as other:
            for _ in range(10):
                self.commit(other, "new", durable=True)
        self.assertIn("another", self.lost(primary, durable=True))
        self.assertEqual(self.texts("again"), [b"new"] * 10)

    def test_a_writer_of_sqlite_whose_run_continues_has_lost_nothing(self) -> None:
        old = self.sqlite_over(continues=True)
        old.execute("insert into t values(9001)")
        self.assertEqual(self.rows(), (9001, 1, 20))

    def test_what_was_durable_of_a_lost_run_is_not_so_of_the_next(self) -> None:
        """Its positions come again, and each commit there is durable once PostgreSQL has it."""
        old = connected(self.keeping.addresses, move=2000)
        old.execute("create table t(n integer primary key)")

        def write(number: int) -> None:
            for each in range(20):
                old.execute("insert into t values(?)", (100 * number + each,))

        self.go_back_before_a_switchover(write, continues=False)
        with self.assertRaises(sqlite3.OperationalError):
            old.execute("insert into t values(9000)")
        self.keeping.referee.close()
        self.cut_off()
        self.addCleanup(self.server, "ALTER DATABASE {name} ALLOW_CONNECTIONS true")
        with self.assertRaises(sqlite3.OperationalError):
            old.execute("insert into t values(9001)")

    def test_what_was_durable_of_a_lost_run_is_not_so_of_the_next_in_python(self) -> None:
        primary = self.enterContext(self.keeping.primary())
        self.commit(primary, "0", durable=True)
        self.go_back_before_a_switchover(
            lambda number: [
                self.commit(primary, f"gone {number}", durable=True) for _ in range(20)
            ],
            continues=False,
        )
        self.lost(primary, durable=True)
        self.keeping.referee.close()
        self.cut_off()
        self.addCleanup(self.server, "ALTER DATABASE {name} ALLOW_CONNECTIONS true")
        primary.keepers.patience = 2.0
        with self.assertRaises(ConnectionLost):
            self.commit(primary, "not durable yet", durable=True)


if __name__ == "__main__":
    unittest.main()
