"""What `rescue` shows and saves of a database that PostgreSQL has lost, as one that was restored from a backup which is older than the
database: its table and its secret are with the processes of its services alone."""

from __future__ import annotations

import json
import mmap
import os
import signal
from contextlib import closing
from typing import Any

import psycopg

from keepers import Kept, eventually
from pagelog.connection import Connection
from pagelog.credentials import Credentials
from pagelog.keeper.acknowledged import memory_of
from pagelog.keeper.definition import Definition, Seal
from pagelog.run_tokens import token_of
from pagelog.operator import Operator
from pagelog.rules import TableRow
from service import token
from sqlite_named import connected

TABLES = ("generation", "standby", "table", "base", "image", "block")


class Lost(Kept):
    def setUp(self) -> None:
        super().setUp()
        eventually(lambda: len(self.keeping.standbys()) == 1, "a standby")
        with closing(connected(self.keeping.addresses)) as writer:
            writer.execute("create table t(n integer primary key)")
            writer.execute("insert into t values(7)")
        self.place, self.row = self.keeping.place(), self.keeping.row()
        self.holder = str(self.row.holder)
        [self.other] = {"a", "b"} - {self.holder}
        self.processes = {keeper: self.noted(keeper) for keeper in "ab"}
        for facts in self.processes.values():
            self.addCleanup(
                lambda pid=facts["pid"]: os.path.exists(f"/proc/{pid}")
                and os.kill(pid, signal.SIGKILL)
            )

    def noted(self, keeper: str) -> dict[str, Any]:
        """Of the one service of its folder."""
        [file] = (self.keeping.folder / keeper).glob("shop.*.json")
        found: dict[str, Any] = json.loads(file.read_text())
        return found

    def forget(self) -> None:
        """PostgreSQL has lost the database; of its name there was another one before, which was dropped."""
        with psycopg.connect(self.keeping.url) as session:
            for table in TABLES:
                session.execute(f"DELETE FROM pagelog_{table} WHERE log = %s", (self.row.id,))
            session.execute("DELETE FROM pagelog_log WHERE id = %s", (self.row.id,))
            session.execute(
                "INSERT INTO pagelog_log (id, name, format, archived, epoch, dropped, next_generation) "
                "SELECT n, 'shop!' || n, 3, 0, 1, true, 9 FROM nextval('pagelog_log_id_seq') n"
            )

    def client(self) -> Operator:
        """Principal 1 at the service itself."""
        return Operator(
            Connection(self.place.address),
            Credentials(1, token_of(bytes.fromhex(token(1)), "shop", self.place.run)),
        )

    def asides(self) -> dict[str, dict[str, Any]]:
        """What is said to be quarantined, or still with its keeper, by run."""
        lines = map(json.loads, self.keeping.word("list", "--json").splitlines())
        return {
            each["run"]: each
            for line in lines
            if line["name"] == "shop"
            for each in line["set_aside"]
        }

    def test_a_database_that_postgresql_has_lost_is_shown_saved_and_ended(self) -> None:
        run, folder = self.place.run, self.keeping.folder / self.holder
        self.forget()
        eventually(
            lambda: set(self.asides()) == {each["run"] for each in self.processes.values()},
            "a word of both services",
        )
        self.assertEqual({each["database"] for each in self.asides().values()}, {self.row.identity})
        self.assertIn(
            f"PostgreSQL has lost its database, with the table and the tokens: on the machine of keeper {self.holder} say --folder",
            self.keeping.refused("rescue", "shop", "--run", run),
        )
        self.assertIn(
            "has no such service",
            self.keeping.refused(
                "rescue", "shop", "--run", run, "--folder", self.keeping.folder / self.other
            ),
        )
        # Another one gets the name, with another secret.
        self.assertTrue(
            self.keeping.referee.create("shop", self.keeping.table.read_text(), b"z" * 16)
        )
        eventually(lambda: self.keeping.knows("shop"), "the new database")
        for name in "ab":
            self.keeping.kill(name)
        self.keeping.start("a", "b")
        for facts in self.processes.values():
            os.kill(facts["pid"], 0)
            self.assertIn(
                f"the service of run {facts['run']}, which a previous instance left, is quarantined: PostgreSQL has no such database",
                self.keeping.said(),
            )
        eventually(
            lambda: [each["kept"] for each in self.asides().values()] == [True, True],
            "both quarantined",
        )
        with self.client() as operator, self.assertRaises(TableRow):
            operator.failover(2)  # with which a writer begins: nobody writes to it any more
        self.assertIn(
            "cannot be asked: PostgreSQL has lost its database",
            self.keeping.refused("rescue", "shop"),
        )
        shown = self.keeping.word("rescue", "shop", "--folder", folder)
        self.assertRegex(
            shown,
            rf"run {run} of keeper {self.holder}, .*, quarantined, ends at position (\d+), which is LSN \1: "
            r"PostgreSQL has lost its database, with \1 blocks",
        )
        saved = ("rescue", "shop", "--run", run, "--folder", folder, "--as", "saved")
        self.assertRegex(
            self.keeping.word(*saved),
            r"saved positions up to \d+ as database saved, and compared them",
        )
        eventually(lambda: self.keeping.knows("saved"), "what was saved")
        with closing(
            connected(self.keeping.addresses, id=3, name="saved", file="shop", mode="ro")
        ) as reader:
            self.assertEqual(reader.execute("select n from t").fetchone(), (7,))
        with self.keeping.reader("saved") as python:
            self.assertEqual(python.end(), self.keeping.row("saved").archived)
        ended = self.keeping.word(
            "rescue", "shop", "--run", run, "--as", "saved2", "--end", folder, "--yes"
        )
        self.assertIn(
            "which are saved as database saved2 before\nPostgreSQL has nothing of its database",
            ended,
        )
        self.assertIn(f"ended process {self.processes[self.holder]['pid']}", ended)
        eventually(lambda: run not in self.asides(), "its end")

    def test_one_whose_keeper_runs_is_ended_too(self) -> None:
        run, pid = self.place.run, self.processes[self.holder]["pid"]
        for name in (self.other, self.holder):  # so that nobody takes it over
            self.keeping.kill(name)
        memory = memory_of(pid)
        assert memory is not None
        self.addCleanup(os.close, memory)
        os.ftruncate(memory, mmap.PAGESIZE)  # as an older keeper has started it
        self.keeping.start(self.holder)
        eventually(
            lambda: Definition.noted(memory, Seal.made(self.keeping.folder / self.holder, run))
            is not None,
            "what it remembers",
        )
        self.forget()
        eventually(lambda: run in self.asides(), "a word of it")
        said = self.keeping.word(
            "rescue",
            "shop",
            "--run",
            run,
            "--as",
            "shop",
            "--end",
            self.keeping.folder / self.holder,
            "--yes",
        )
        self.assertIn(f"ended process {pid}", said)
        eventually(
            lambda: run not in self.asides() and not os.path.exists(f"/proc/{pid}"), "its end"
        )
        # What was saved has the name now, and no number of a database that had it before.
        eventually(lambda: self.keeping.knows("shop"), "what was saved")
        self.assertGreaterEqual(self.keeping.place().generation, 10)
