"""docs/TASKS.md: each of its commands as it is printed, against keepers of the test's own, and what it says of them."""

from __future__ import annotations

import os
import re
import signal
import sqlite3
import subprocess
import sys
import tempfile
import unittest
from contextlib import closing
from pathlib import Path

from keepers import end_services, eventually
from postgres import postgres, programs
from service import PATIENCE, PROGRAM, SOURCE, TOP, Port, token
from sqlite_named import C, connected
from test_postgresql_page import Paged

PAGE = (TOP / "docs" / "TASKS.md").read_text()
BLOCKS = re.findall(r"^```sh\n(.*?)^```", PAGE, flags=re.M | re.S)
_, KEEPER, SQL, INSERT, THEN, ROWS, GONE, DROP, *_more = BLOCKS
BACKUP, IMPORT, DELETE, FORGET, CANCEL = _more


class FromNothing(unittest.TestCase):
    """The first block makes a role and a database, which takes root."""

    def test_a_commit_of_sqlite_is_durable_in_a_postgresql_that_had_nothing(self) -> None:
        subprocess.run(["make", "-s", "-C", str(C), "out/pagelog_preload.so"], check=True)
        folder = Path(self.enterContext(tempfile.TemporaryDirectory(prefix="pagelog-tasks-")))
        for name, script in (
            ("pagelog", f'exec {PROGRAM} "$@"'),
            ("pagelogctl", f'exec {sys.executable} -B -m pagelog "$@"'),
        ):
            (folder / name).write_text(f"#!/bin/sh\n{script}\n")
            (folder / name).chmod(0o755)
        environment = {
            **os.environ,
            "PATH": f"{folder}:{programs()}:{os.environ['PATH']}",
            "PYTHONPATH": str(SOURCE),
            "URL": postgres().url("tasks"),
            "PRELOAD": str(C / "out" / "pagelog_preload.so"),
            "TABLE": str(C / "table.toml"),
        }
        port = Port()
        self.addCleanup(port.close)
        commands = (
            KEEPER
            + "echo $! > keeper.pid\n"
            + SQL
            + INSERT
            + INSERT.replace("create table item(name, price); ", "")
            + BACKUP
            + IMPORT.replace(
                "sql shop\n", "sql shop\necho 'select amount from stock;' | sql shop\n", 1
            )
            + "echo 'select count(*) from sqlite_schema, item;' | sql shop\n"
        ).replace("7500", str(port.number))
        with closing(sqlite3.connect(folder / "old.db")) as old:
            old.executescript("create table stock(amount); insert into stock values ('7 loaves');")
        self.addCleanup(end_services, folder)
        try:
            with (folder / "said").open("w+") as said:
                done = subprocess.run(
                    ["sh", "-ec", commands],
                    cwd=folder,
                    env=environment,
                    stdin=subprocess.DEVNULL,
                    stdout=said,
                    stderr=said,
                    timeout=PATIENCE,
                )
                said.seek(0)
                text = said.read()
        finally:
            if (folder / "keeper.pid").exists():
                keeper = int((folder / "keeper.pid").read_text())
                os.kill(keeper, signal.SIGTERM)
                eventually(lambda: not Path(f"/proc/{keeper}").exists(), "the keeper's end")
        self.assertEqual(done.returncode, 0, text)
        self.assertEqual(text.count("bread|3"), 3, text)  # the first sees one, the second two
        self.assertEqual(
            text.splitlines()[-2:], ["7 loaves", "2"], text
        )  # `.restore` took stock away
        with closing(sqlite3.connect(folder / "copy.db")) as copy:
            self.assertEqual(copy.execute("SELECT * FROM item").fetchall(), [("bread", 3)] * 2)


class Tasks(Paged):
    def setUp(self) -> None:
        super().setUp()
        self.keeping.start("a", "b")
        eventually(lambda: len(self.keeping.standbys()) == 1, "a standby")

    def test_a_table_is_had_back_from_a_copy_of_the_past(self) -> None:
        subprocess.run(["make", "-s", "-C", str(C), "out/pagelog_preload.so"], check=True)
        (self.folder / "shop.cred").touch(mode=0o600)
        (self.folder / "shop.cred").write_text(
            f"where {','.join(self.keeping.addresses)}\nid 2\ntoken {token(2)}\nop 1\noptoken {token(1)}\n"
        )
        with closing(connected(self.keeping.addresses)) as shop:
            shop.execute("CREATE TABLE item (name TEXT, price INT)")
            shop.execute("CREATE INDEX item_by_name ON item (name)")
            shop.execute("INSERT INTO item VALUES ('bread', 3), ('milk', 2)")
            shop.execute("INSERT INTO item VALUES ('salt', 1)")
            position = shop.execute("PRAGMA pagelog_position").fetchone()[0]
            shop.execute("DELETE FROM item")
        preload = {"PRELOAD": C / "out" / "pagelog_preload.so"}
        said = self.run_printed(SQL + THEN, WHEN=position, **preload)
        self.assertEqual(said.splitlines()[-1], "3", said)
        self.assertIn(f"shop-then is shop at position {position}, for readers", said)
        self.run_printed(SQL + ROWS, **preload)
        with closing(connected(self.keeping.addresses, mode="ro", id=3)) as shop:
            self.assertEqual(
                shop.execute("SELECT * FROM item").fetchall(),
                [("bread", 3), ("milk", 2), ("salt", 1)],
            )
            self.assertEqual(shop.execute("SELECT * FROM item_now").fetchall(), [])
            names = shop.execute("SELECT name FROM sqlite_master ORDER BY name").fetchall()
            self.assertEqual(names, [("item",), ("item_by_name",), ("item_now",)])
        with closing(connected(self.keeping.addresses)) as shop:
            shop.execute("DROP TABLE item")
        self.run_printed(SQL + GONE, **preload)
        with closing(connected(self.keeping.addresses, mode="ro", id=3)) as shop:
            names = shop.execute("SELECT name FROM sqlite_master ORDER BY name").fetchall()
            self.assertEqual(names, [("item",), ("item_by_name",), ("item_now",)])
            self.assertEqual(
                shop.execute("SELECT * FROM item").fetchall(),
                [("bread", 3), ("milk", 2), ("salt", 1)],
            )
        self.run_printed(DROP, "y")
        self.assertFalse(self.keeping.knows("shop-then"))

    def test_a_database_is_deleted_and_a_switchover_cancelled(self) -> None:
        self.assertTrue(
            self.keeping.referee.create("shop-old", self.keeping.table.read_text(), b"s" * 16)
        )
        self.assertIn("to be deleted: database shop-old", self.run_printed(DELETE, "y"))
        self.assertIsNone(self.keeping.referee.everything().row("shop-old"))
        self.keeping.word("pause", "shop")
        self.keeping.word("switchover", "shop")
        self.assertEqual(
            self.run_printed(CANCEL), "cancelled the switchover of shop to another keeper\n"
        )

    def test_a_keeper_that_is_gone_is_forgotten(self) -> None:
        self.keeping.start("c")
        eventually(lambda: "c" in self.keeping.standbys(), "another standby")
        with self.assertRaisesRegex(AssertionError, "c is alive, at"):
            self.run_printed(FORGET, "y")
        self.keeping.kill("c")
        self.assertIn("to be deleted: the entry of keeper c", said := self.run_printed(FORGET, "y"))
        self.assertIn("with 1 standby", said)
        look = self.keeping.referee.everything()
        self.assertIsNone(look.keeper("c"))
        self.assertNotIn("c", self.keeping.standbys())
        holder = self.keeping.row().holder
        with self.assertRaisesRegex(
            AssertionError, f"{holder} holds shop: another keeper takes over"
        ):
            self.run_printed(FORGET.replace("forget c", f"forget {holder}"), "y")
        self.keeping.start("c")  # comes back in its folder, under its name
        eventually(lambda: "c" in self.keeping.standbys(), "its standby")
