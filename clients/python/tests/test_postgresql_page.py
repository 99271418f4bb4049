"""docs/POSTGRESQL.md: each of its commands as it is printed, against a PostgreSQL and keepers of the test's own, and what it says of them."""

from __future__ import annotations

import json
import os
import pty
import re
import signal
import sqlite3
import subprocess
import sys
import threading
import unittest
from contextlib import closing
from pathlib import Path
from typing import Any, Callable

import psycopg
from keepers import Keeping, eventually
from pagelog import NamedPrimary, Put
from pagelog.referee.bases import make_base
from pagelog.referee.referee import Referee
from pagelog.keeper.run import kept_in
from postgres import Postgres, programs
from service import PATIENCE, TOP
from small_disk import SmallDisks
from sqlite_named import connected

TTL = 1.0
PAGE = (TOP / "docs" / "POSTGRESQL.md").read_text()


def commands() -> dict[str, list[str]]:
    """The blocks of commands of each section, in the order of the page."""
    sections = dict(zip(*[iter(re.split(r"^## (.*)$", PAGE, flags=re.M)[1:])] * 2))
    return {
        heading: re.findall(r"^```sh\n(.*?)^```", text, flags=re.M | re.S)
        for heading, text in sections.items()
    }


class Page(unittest.TestCase):
    def test_each_block_of_it_is_run_below(self) -> None:
        run = {
            "Back it up": 1,
            "Restore it": 2,
            "It was restored": 2,
            "Move to another PostgreSQL": 1,
            "Its disk is full": 1,
        }
        self.assertEqual(
            {heading: len(found) for heading, found in commands().items() if found}, run
        )


class Paged(unittest.TestCase):
    """A server, keepers a and b, and a database; commands are run in a folder that has their keeper.toml."""

    def setUp(self) -> None:
        self.server = self.made()
        self.url = self.of_keepers(self.server)
        self.keeping = self.enterContext(
            Keeping(ttl=TTL, url=self.url, more='metrics = "127.0.0.1:0"\n')
        )
        self.keeping.referee.prepare()
        self.assertTrue(
            self.keeping.referee.create("shop", self.keeping.table.read_text(), b"s" * 16)
        )
        self.row = self.keeping.row()
        self.keeping.file.rename(self.folder / "keeper.toml")
        self.keeping.file = self.folder / "keeper.toml"
        self.environment = {
            **os.environ,
            "PATH": f"{self.folder}:{programs()}:{os.environ['PATH']}",
            "URL": self.url,
            "PYTHONPATH": self.keeping.environment.get("PYTHONPATH", ""),
        }
        self.program("pagelogctl", f'exec {sys.executable} -B -m pagelog "$@"')

    def made(self) -> Postgres:
        server = Postgres()
        self.addCleanup(server.stop)
        return server

    def of_keepers(self, server: Postgres) -> str:
        """The URL of a new database, as of a role that owns it and may nothing else."""
        url = server.url("pagelog")
        with psycopg.connect(url) as session:
            session.execute(
                "CREATE ROLE keeper LOGIN; CREATE ROLE stranger LOGIN; ALTER DATABASE pagelog OWNER TO keeper"
            )
        return url.replace("//pagelog@", "//keeper@")

    @property
    def folder(self) -> Path:
        return self.keeping.folder

    def program(self, name: str, script: str) -> None:
        """What the commands find under this name."""
        file = self.folder / name
        file.write_text(f"#!/bin/sh\n{script}\n")
        file.chmod(0o755)

    def run_printed(self, block: str, answer: str = "", **variables: object) -> str:
        """Runs a block at a terminal where this is typed, and returns what it says. Ends the test where it fails."""
        terminal, side = pty.openpty()
        environment = {
            **self.environment,
            **{name: str(value) for name, value in variables.items()},
            "COLUMNS": "250",
        }
        try:
            os.write(terminal, f"{answer}\n".encode())
            done = subprocess.run(
                ["sh", "-ec", block],
                cwd=self.folder,
                env=environment,
                stdin=side,
                stdout=subprocess.PIPE,
                stderr=subprocess.STDOUT,
                text=True,
                timeout=PATIENCE,
            )
        finally:
            os.close(terminal)
            os.close(side)
        self.assertEqual(done.returncode, 0, f"{block}\n{done.stdout}\n{self.keeping.said()}")
        return done.stdout

    def write(self, *pages: int, name: str = "shop") -> None:
        """A durable commit for each, which changes that page."""
        with self.keeping.primary(name) as primary:
            for page in pages:
                primary.append(Put(page, 0, b"%d" % page))
                primary.commit(durable=True)

    def pages(self, name: str = "shop") -> set[int]:
        """Those of the first ten that were changed."""
        with self.keeping.reader(name) as reader:
            return {
                page for page in range(1, 11) if reader.page(page).data.startswith(b"%d" % page)
            }

    def asides(self) -> list[dict[str, Any]]:
        lines = map(json.loads, self.keeping.word("list", "--json").splitlines())
        return [each for line in lines if line["name"] == "shop" for each in line["set_aside"]]


class Backups(Paged):
    def setUp(self) -> None:
        super().setUp()
        self.keeping.start("a", "b")
        eventually(lambda: len(self.keeping.standbys()) == 1, "a standby")

    def restore(self, block: str) -> None:
        self.keeping.referee.close()
        self.run_printed(block)

    def test_a_dump_that_is_restored_beside_the_keepers_loses_nothing(self) -> None:
        dump, _ = self.backed_up()
        self.write(1, 2, 3)
        self.run_printed(dump)
        self.write(4, 5)
        self.restore(commands()["Restore it"][0])
        self.write(6)
        self.assertEqual(self.pages(), {1, 2, 3, 4, 5, 6})

    def test_what_dead_services_had_is_lost_and_only_that(self) -> None:
        dump, _ = self.backed_up()
        self.write(1, 2, 3)
        self.run_printed(dump)
        self.write(4, 5)
        for name in "ab":
            self.keeping.kill(name)
        self.end_services()
        self.restore(commands()["Restore it"][0])
        self.keeping.start("a", "b")
        eventually(self.is_served, "the database")
        self.assertEqual(self.pages(), {1, 2, 3})

    def test_a_run_that_is_set_aside_is_seen_saved_and_ended(self) -> None:
        dump, _ = self.backed_up()
        self.write(1, 2, 3)
        self.run_printed(dump)
        self.write(4, 5)
        self.assertTrue(
            self.keeping.referee.create("late", self.keeping.table.read_text(), b"l" * 16)
        )
        eventually(lambda: self.keeping.knows("late"), "the later database")
        self.write(8, name="late")
        of_late = str(self.keeping.row("late").holder)
        place = self.keeping.place()
        holder = self.set_aside(lambda: self.write(6))
        self.assertEqual(self.pages(), {1, 2, 3, 6})
        self.assertIn(place.run, self.set_aside_by(holder))
        eventually(lambda: self.counts_asides(holder), "the metric")
        see, save, end = commands()["It was restored"][0].splitlines()
        self.assertIn(f"run {place.run} of keeper {holder}", said := self.run_printed(see))
        self.assertIn(
            "ends at position 5, which is LSN 5: PostgreSQL has it up to 3, and lacks 2 blocks of it",
            said,
        )
        self.assertIn(
            "saved positions up to 5 as database shop-saved, and compared them",
            self.run_printed(save),
        )
        eventually(lambda: self.keeping.knows("shop-saved"), "what was saved")
        self.assertEqual(self.pages("shop-saved"), {1, 2, 3, 4, 5})
        said = self.run_printed(end, "y", RUN=place.run, FOLDER=self.folder / holder)
        self.assertIn("end it [y/N]", said)
        self.assertIn(
            "saved positions up to 5 as database shop-saved2, and compared them\nended process",
            said,
        )
        eventually(lambda: not self.asides() and self.counts_asides(holder), "the end of it")
        self.assertNotIn(place.run, self.set_aside_by(holder))
        self.run_printed(commands()["It was restored"][1], FOLDER=self.folder / of_late)
        eventually(lambda: self.keeping.knows("late-saved"), "what was saved of the later database")
        self.assertEqual(self.pages("late-saved"), {8})

    def set_aside_by(self, keeper: str) -> list[str]:
        """The runs that lie there; one of a standby of the later database may be among them."""
        return [facts.run for facts in kept_in(self.folder / keeper)]

    def counts_asides(self, keeper: str) -> bool:
        count = self.keeping.metrics(keeper)["pagelog_keeper_set_aside", ""]
        return count == len(self.set_aside_by(keeper))

    def test_sqlite_opens_what_was_saved_of_a_run_that_began_with_images(self) -> None:
        dump, _ = self.backed_up()
        with closing(connected(self.keeping.addresses)) as writer:
            writer.execute("CREATE TABLE t (n INTEGER PRIMARY KEY)")
            self.insert(writer, 1, 2, 3)
            generation = self.keeping.place().generation
            self.keeping.word("rollover", "shop")
            self.keeping.place(least=generation + 1)
            self.insert(writer, 4)
            self.run_printed(dump)
            self.insert(writer, 5, 6)
        self.assertGreater(self.keeping.place().shift, 0)

        def write() -> None:
            with closing(connected(self.keeping.addresses)) as other:
                self.insert(other, 7)

        self.set_aside(write)
        end = int(re.findall(r"ends at position (\d+)", self.keeping.word("rescue", "shop"))[0])
        self.run_printed(commands()["It was restored"][0].splitlines()[1])
        eventually(lambda: self.keeping.knows("shop-saved"), "what was saved")
        with closing(
            connected(self.keeping.addresses, name="shop-saved", id=3, mode="ro")
        ) as saved:
            self.assertEqual(
                saved.execute("SELECT n FROM t").fetchall(), [(n,) for n in (1, 2, 3, 4, 5, 6)]
            )
        with self.keeping.reader("shop-saved") as reader:
            self.assertEqual(reader.end(), end)
        with closing(connected(self.keeping.addresses, id=3, mode="ro")) as shop:
            self.assertEqual(
                shop.execute("SELECT n FROM t").fetchall(), [(n,) for n in (1, 2, 3, 4, 7)]
            )

    def insert(self, writer: sqlite3.Connection, *numbers: int) -> None:
        for number in numbers:
            writer.execute("INSERT INTO t VALUES (?)", (number,))

    def set_aside(self, write: Callable[[], None]) -> str:
        """The holder is killed, and its service is not; PostgreSQL is restored, and another keeper takes over, to which is written. Returns
        the keeper that has a service quarantined, once it is back."""
        holder, place = str(self.keeping.row().holder), self.keeping.place()
        other = {"a": "b", "b": "a"}[holder]
        for name in "ab":
            self.keeping.kill(name)
        for pid, _ in self.services(other):
            os.kill(pid, signal.SIGKILL)  # what a standby has would be archived again
        self.restore(commands()["Restore it"][0])
        self.keeping.start(other)
        self.keeping.place(least=place.generation + 1)
        write()
        self.keeping.start(holder)
        eventually(
            lambda: [each["run"] for each in self.asides()] == [place.run], "what is quarantined"
        )
        return holder

    def backed_up(self) -> list[str]:
        return commands()["Back it up"][0].splitlines()

    def services(self, keeper: str) -> list[tuple[int, str]]:
        found = [
            json.loads(file.read_text()) for file in (self.folder / keeper).glob("shop.*.json")
        ]
        return [(each["pid"], each["run"]) for each in found]

    def end_services(self) -> None:
        for keeper in "ab":
            for pid, _ in self.services(keeper):
                os.kill(pid, signal.SIGKILL)

    def is_served(self) -> bool:
        return self.keeping.knows("shop")

    def test_a_folder_that_is_restored_beside_the_keepers_loses_nothing(self) -> None:
        _, backup = self.backed_up()
        copy = self.server.folder / "backup"
        self.write(1, 2, 3)
        self.as_postgres(backup, BACKUP=copy)
        self.write(4, 5)
        self.keeping.referee.close()
        with (copy / "postgresql.conf").open(
            "a"
        ) as file:  # what the test's server is told at its start
            file.write(
                f"unix_socket_directories = '{self.server.folder}'\nlisten_addresses = ''\nfsync = off\n"
            )
        self.as_postgres(commands()["Restore it"][1], BACKUP=copy, PGDATA=self.server.data)
        self.write(6)
        self.assertEqual(self.pages(), {1, 2, 3, 4, 5, 6})

    def as_postgres(self, block: str, **variables: object) -> None:
        """Runs a block as PostgreSQL's user, in its folder."""
        environment = {
            **self.environment,
            "PGHOST": str(self.server.folder),
            "PGUSER": "pagelog",
            **{name: str(value) for name, value in variables.items()},
        }
        with (self.server.folder / "said").open("a+") as said:
            done = self.server.call(
                ["sh", "-ec", block],
                cwd=self.server.folder,
                env=environment,
                stdout=said,
                stderr=said,
            )
            said.seek(0)
            self.assertEqual(done.returncode, 0, said.read())


class Moves(Paged):
    def setUp(self) -> None:
        self.other = self.made()  # first: it ends last
        super().setUp()
        self.new = self.of_keepers(self.other)
        self.keeping.start("a", "b")
        self.program("systemctl", 'echo "$1 $2" > control && read answer < answer')
        for name in ("control", "answer"):
            os.mkfifo(self.folder / name)
        threading.Thread(target=self.obey, daemon=True).start()

    def obey(self) -> None:
        """The keepers of all machines end and begin as systemctl is told."""
        for _ in range(2):
            word, unit = (self.folder / "control").read_text().split()
            self.assertEqual(unit, "pagelog-keeper")
            if word == "start":
                self.keeping.start("a", "b")
            else:
                for name in "ab":
                    self.keeping.kill(name, signal.SIGTERM)
            (self.folder / "answer").write_text("done\n")

    def test_all_of_it_goes_on_at_the_new_one_and_nothing_at_the_old_one(self) -> None:
        [block] = commands()["Move to another PostgreSQL"]
        with self.keeping.primary() as primary, self.keeping.reader() as reader:
            primary.append(Put(1, 0, b"1"))
            self.assertEqual(primary.commit(), 1)  # nobody waits for it
            self.keeping.referee.close()
            self.run_printed(block, NEW=self.new, KEEPERS=self.new)
            self.keeping.url, self.keeping.referee = self.new, Referee(self.new)
            primary.append(Put(2, 0, b"2"))
            self.assertEqual(primary.commit(durable=True), 2)
            eventually(lambda: reader.end() == 2, "the end at a reader")
        self.assertEqual(self.pages(), {1, 2})
        row = self.keeping.row()
        self.assertEqual((row.identity, row.archived), (self.row.identity, 2))
        for url in (self.url, self.new.replace("//keeper@", "//stranger@")):
            with self.assertRaisesRegex(psycopg.OperationalError, "permission denied for database"):
                psycopg.connect(url)


class Disks(Paged):
    def made(self) -> Postgres:
        self.disks = SmallDisks()
        self.addCleanup(self.disks.stop)
        return self.disks

    def test_history_that_is_deleted_has_room_for_what_waits(self) -> None:
        self.keeping.start("a")
        with self.keeping.primary() as primary:
            for _ in range(300):
                self.fill_page(primary)
            primary.commit(durable=True)
            row = self.keeping.row()
            make_base(self.keeping.referee, row.id, row.archived, row.chain)
            with psycopg.connect(
                self.url.replace("//keeper@", "//pagelog@"), autocommit=True
            ) as session:
                for table in ("pagelog_block", "pagelog_image"):
                    session.execute(f"ALTER TABLE {table} SET TABLESPACE small")
                    session.execute(f"VACUUM {table}")  # as PostgreSQL does by itself
            self.disks.fill("tables")
            for _ in range(50):
                self.fill_page(primary)
            last = primary.commit()
            eventually(lambda: "No space left on device" in self.keeping.said(), "the refusal")
            self.assertEqual(primary.durable_end, row.archived)
            kept, prune, vacuum = commands()["Its disk is full"][0].splitlines()
            self.assertRegex(self.run_printed(kept), "entries left")
            self.assertIn(
                f"positions from {row.archived} on are kept", self.run_printed(prune, "y", KEEP=1)
            )
            self.run_printed(vacuum)
            primary.durable(last)
        [size] = re.findall(r"`(SELECT pg_size_pretty.*?)`", PAGE)
        self.assertRegex(self.keeping.referee._ask(size)[0][0], r"^\d+ (kB|MB)$")
        self.assertEqual(self.keeping.row().archived, last)

    def fill_page(self, primary: NamedPrimary) -> None:
        primary.append(Put(1, 0, os.urandom(8192)))


if __name__ == "__main__":
    unittest.main()
