"""Tables of named databases that change, and tokens: what is in force when the subcommand returns, whatever dies meanwhile."""

from __future__ import annotations

import json
import os
import re
import signal
import sqlite3
import subprocess
import sys
import threading
import time
import tomllib
import unittest
from contextlib import closing, suppress
from dataclasses import replace
from pathlib import Path
from tempfile import TemporaryDirectory
from unittest.mock import Mock

import psycopg
from click.testing import CliRunner

from keepers import Gate, Kept, eventually
from pagelog import Connection, Credentials, NamedPrimary, Primary, Reader
from pagelog.cli.table_changes import TableChange
from pagelog.cli.words import pagelogctl
from pagelog.errors import PagelogError, TableError
from pagelog.keeper.keeping import Keeper
from pagelog.keeper.machine import DatabaseState
from pagelog.referee.referee import Away, Doubt, Referee
from pagelog.referee.rows import Look, Row, TableOf, Where
from pagelog.referee.schema import NUMBERS
from pagelog.keeper.served import Served
from pagelog.keeper.settings import Settings
from pagelog.keeper.switch import Switch, begun, may_begin, number, succeed
from pagelog.run_tokens import token_of
from pagelog.place import WrongToken
from pagelog.rules import UnknownPrincipal
from pagelog.table_editing import (
    changed_tokens,
    unused_id,
    with_beside,
    with_token,
    with_tokens_of,
    without_principal,
    without_tokens,
)
from service import PATIENCE, WIDE_TABLE, Service, token
from sqlite_named import connected, error_of
from test_referee import Referees

NEW = "ab" * 16


class Statements(Referees):
    """What a keeper with an older table is refused, whatever it has decided."""

    def change(self, text: str = "another", seen: int = 1) -> int | None:
        return self.referee.set_table(self.seen(), text, seen)

    def test_a_table_is_changed_by_who_knows_the_newest_one(self) -> None:
        row = self.seen()
        self.assertEqual(
            (row.table_number, row.run_table, self.referee.table(row.id).number), (1, 1, 1)
        )
        self.assertEqual(self.change("two"), 2)
        self.assertIsNone(self.change("three"))
        self.assertIsNone(
            self.referee.set_table(
                replace(row, identity="00000000-0000-0000-0000-000000000000"), "three", 2
            )
        )
        self.assertIsNone(self.referee.set_table(replace(row, id=99), "three", 2))
        newest = self.referee.table(row.id)
        self.assertEqual((newest.text, newest.secret, newest.number), ("two", b"s" * 16, 2))
        self.assertEqual(self.change("three", 2), 3)
        self.assertEqual(self.seen().table_number, 3)
        # A keeper that knows a newer one than a PostgreSQL that went back puts it there again, if that is the same database.
        five = TableOf("five", b"s" * 16, 5)
        self.assertFalse(
            self.referee.put_table_back(row.id, "00000000-0000-0000-0000-000000000000", five)
        )
        self.assertTrue(self.referee.put_table_back(row.id, row.identity, five))
        self.assertFalse(self.referee.put_table_back(row.id, row.identity, TableOf("none", b"", 5)))
        newest = self.referee.table(row.id)
        self.assertEqual((newest.text, newest.secret, newest.number), ("five", b"s" * 16, 5))
        self.referee.drop("shop")
        self.assertIsNone(self.referee.set_table(row, "six", 5))

    def test_a_take_needs_the_newest_table(self) -> None:
        self.change()
        self.assertIsNone(self.referee.take(self.seen(), "r1"))
        self.assertIsNotNone(self.referee.take(self.seen(), "r1", table_number=2))
        row = self.seen()
        self.assertEqual((row.run, row.run_table, row.table_number), ("r1", 2, 2))
        # PostgreSQL went back before the change: a run with a newer table than it knows may take.
        self.assertIsNotNone(self.referee.take(self.seen(), "r2", table_number=3))

    def state(self, switch: Switch) -> tuple[Row | None, bool]:
        """What a keeper is told of a switch in doubt."""
        return begun(self.referee, switch), may_begin(self.referee, switch)

    def test_so_does_a_run_that_continues(self) -> None:
        kept = self.taken()
        row = self.seen()
        self.change()
        begin = (row, "r2", None, Where("x:1", 0, 0, kept.chain), 0, (0, b""))
        self.assertIsNone(self.referee.continue_run(*begin))
        self.assertIsNotNone(self.referee.continue_run(*begin, 2))
        self.assertEqual(self.seen().run_table, 2)

    def test_and_a_switch_which_is_given_up_where_it_has_an_older_one(self) -> None:
        kept = self.taken()
        given = number(self.referee, self.row.id, "r1", kept.generation)
        assert given is not None
        switch = Switch(self.row.id, "r1", kept.generation, 0, (), b"", given, "r2", "x:1", 0, 0)
        self.assertEqual(self.state(switch), (None, True))
        self.change()
        self.assertFalse(succeed(self.referee, switch))
        self.assertEqual(
            self.state(switch), (None, False)
        )  # else it would be tried for ever, while nobody writes
        newest = replace(switch, table_number=2)
        self.assertEqual(self.state(newest), (None, True))
        self.assertTrue(succeed(self.referee, newest))
        self.assertEqual(self.state(newest), (self.seen(), False))
        self.assertEqual((self.seen().run, self.seen().run_table), ("r2", 2))

    def test_a_holder_that_stands_still_amid_a_statement_holds_up_no_change(self) -> None:
        self.taken()
        with closing(psycopg.connect(self.url, application_name="pagelog keeper one")) as still:
            still.execute("UPDATE pagelog_log SET archived = archived WHERE name = 'shop'")
            self.assertEqual(
                self.new("two").set_table(replace(self.row, holder="one"), "two", 1), 2
            )
        with closing(psycopg.connect(self.url, application_name="pagelog keeper one")) as still:
            still.execute("UPDATE pagelog_log SET archived = archived WHERE name = 'shop'")
            ended = self.new("three").end_run(replace(self.row, holder="one", run="r1"))
        self.assertEqual(ended and (ended.run, ended.archived), (None, 0))

    def test_a_generation_of_an_older_keeper_has_the_first_table(self) -> None:
        self.change()
        self.assertIsNotNone(self.referee.take(self.seen(), "r1", table_number=2))
        with psycopg.connect(
            self.url, autocommit=True
        ) as session:  # as the statement of 0.1.0 leaves it
            session.execute(
                "UPDATE pagelog_log SET generation = 2, next_generation = 3, run = 'r2' WHERE name = 'shop'"
            )
            session.execute(
                "INSERT INTO pagelog_generation (log, generation, run, holder, base, shift) VALUES (%s, 2, 'r2', 'old', 0, 0)",
                (self.row.id,),
            )
        self.assertEqual((self.seen().run_table, self.seen().table_number), (1, 2))


class Editing(unittest.TestCase):
    """Of the text of a table, whose comments stay."""

    TEXT = """# who
copies = 3
quorum = 2
[[principal]]  # the operator
id = 1
token = "11111111111111111111111111111111"
[[principal]]
id = 2
token = '11111111111111111111111111111111'  # as the first has it

[[row]]
verdict = "deny"
who = 2
op = ["tidy"]
[[row]]
verdict = "allow"  # all
[[row]]
who   = 2  # and this
verdict = "allow"
role = "primary"
"""

    def test_one_token_is_another(self) -> None:
        made = with_token(self.TEXT, 2, NEW)
        self.assertEqual(made, self.TEXT.replace(f"'{'1' * 32}'", f"'{NEW}'"))
        self.assertEqual(changed_tokens(self.TEXT, made), [2])
        self.assertEqual(changed_tokens(self.TEXT, self.TEXT.replace("'", '"')), [])
        self.assertRaises(TableError, with_token, self.TEXT, 3, NEW)

    def test_another_may_do_what_one_may(self) -> None:
        made = with_beside(self.TEXT, 2, unused_id(self.TEXT), NEW)
        for comment in ("# who", "# the operator", "# as the first has it", "# all", "# and this"):
            self.assertIn(comment, made)
        found = tomllib.loads(made)
        self.assertEqual(
            [(one["id"], one["token"][:2]) for one in found["principal"]],
            [(1, "11"), (2, "11"), (3, "ab")],
        )
        self.assertEqual(
            [(row.get("who"), row["verdict"]) for row in found["row"]],
            [(2, "deny"), (3, "deny"), (None, "allow"), (2, "allow"), (3, "allow")],
        )
        self.assertEqual(tomllib.loads(without_principal(made, 3)), tomllib.loads(self.TEXT))
        gone = without_principal(made, 2)
        self.assertEqual([one["id"] for one in tomllib.loads(gone)["principal"]], [1, 3])
        self.assertEqual([row.get("who") for row in tomllib.loads(gone)["row"]], [3, None, 3])

    def test_a_text_of_another_form_is_written_anew(self) -> None:
        text = f'principal = [{{id = 1, token = "{token(1)}"}}, {{id = 2, token = "{token(1)}"}}]\nrow = [{{verdict = "allow", who = 2}}]\n'
        self.assertEqual(tomllib.loads(with_token(text, 2, NEW))["principal"][1]["token"], NEW)
        self.assertEqual(
            [row["who"] for row in tomllib.loads(with_beside(text, 2, 7, NEW))["row"]], [2, 7]
        )
        self.assertEqual(
            tomllib.loads(without_principal(text, 2)), {"principal": [{"id": 1, "token": token(1)}]}
        )

    def test_what_is_shown_has_no_token(self) -> None:
        shown = without_tokens(self.TEXT)
        self.assertEqual(
            (shown.count('"same"') + shown.count("'same'"), "1111" in shown), (2, False)
        )
        self.assertEqual(with_tokens_of(shown, self.TEXT), self.TEXT)
        self.assertEqual(
            changed_tokens(with_tokens_of(shown, with_token(self.TEXT, 1, NEW)), self.TEXT), [1]
        )
        self.assertRaises(TableError, with_tokens_of, shown.replace("id = 2", "id = 5"), self.TEXT)


class AtAService(unittest.TestCase):
    """A table's file is edited, and set by the address of the service."""

    def setUp(self) -> None:
        self.folder = Path(self.enterContext(TemporaryDirectory()))
        self.file = self.folder / "table.toml"
        self.file.write_text(WIDE_TABLE)
        self.service = self.enterContext(Service(table=WIDE_TABLE, dbs=2))
        self.credentials = self.folder / "c.toml"
        self.credentials.touch(mode=0o600)
        self.credentials.write_text(
            f'[operator]\nto = "{self.service.address}"\nid = 1\ntoken = "{token(1)}"\n'
        )

    def ran(self, *words: object, typed: str = "") -> tuple[int, str, str]:
        done = CliRunner(mix_stderr=False).invoke(
            pagelogctl, [*map(str, words), "--credentials", str(self.credentials)], input=typed
        )
        if done.exception is not None and not isinstance(done.exception, SystemExit):
            raise done.exception
        return done.exit_code, done.stdout, done.stderr

    def knows(self, used: str, id: int = 2, db: int = 0) -> bool:
        with Reader(
            Connection(self.service.address, timeout=PATIENCE, attempts=1),
            Credentials.of(id, used),
            db,
        ) as reader:
            try:
                reader.status()
            except UnknownPrincipal:
                return False
        return True

    def test_a_token_is_changed_in_the_file_and_at_the_service(self) -> None:
        status, out, _ = self.ran("token", 2, "--to", "-", "--table", self.file, typed=f"{NEW}\n")
        self.assertEqual((status, out), (0, "set the table of database 0\n"))
        self.assertEqual(self.file.read_text(), with_token(WIDE_TABLE, 2, NEW))
        self.assertEqual(self.file.stat().st_mode & 0o777, 0o600)
        self.assertEqual(
            (self.knows(NEW), self.knows(token(2)), self.knows(token(2), db=1)), (True, False, True)
        )
        self.assertEqual(self.ran("table", "--table", self.file, "--db", 1)[0], 0)
        self.assertEqual((self.knows(NEW, db=1), self.knows(token(2), db=1)), (True, False))

    def test_two_beside_each_other_and_one_revoked(self) -> None:
        out = self.folder / "new.toml"
        self.assertEqual(
            self.ran("token", 2, "--new", "--beside", "--out", out, "--table", self.file)[0], 0
        )
        made = tomllib.loads(out.read_text())
        self.assertEqual((made["id"], out.stat().st_mode & 0o777), (6, 0o600))
        self.assertTrue(self.knows(token(2)) and self.knows(made["token"], 6))
        self.assertEqual(self.ran("token", 2, "--revoke", "--table", self.file)[0], 0)
        self.assertEqual((self.knows(token(2)), self.knows(made["token"], 6)), (False, True))

    def test_what_was_not_set_is_said_and_can_be_set_from_the_file(self) -> None:
        self.service.stop()
        status, _, error = self.ran("token", 2, "--to", "-", "--table", self.file, typed=NEW)
        self.assertEqual(status, 3)
        self.assertIn(f"`table --table {self.file}` sets it", error)
        self.service.start()
        self.credentials.write_text(
            self.credentials.read_text().replace(
                self.credentials.read_text().split('"')[1], self.service.address
            )
        )
        self.assertEqual(self.ran("table", "--table", self.file)[0], 0)
        self.assertTrue(self.knows(NEW))

    def test_a_token_on_the_command_line_is_refused(self) -> None:
        for words in (("--to", NEW), ("--new", "--revoke"), ("--revoke", "--beside"), ()):
            self.assertEqual(self.ran("token", 2, *words, "--table", self.file)[0], 2)
        self.assertEqual(self.ran("token", "shop", 2, "--new", "--table", self.file)[0], 2)
        self.assertEqual(self.ran("token", 9, "--new", "--table", self.file)[0], 1)
        self.assertEqual(self.file.read_text(), WIDE_TABLE)


class Changing(Kept):
    """Two keepers, and words about the table of their database."""

    def ran(self, *words: object, typed: str = "") -> tuple[int, str, str]:
        """Status, output and errors of a subcommand."""
        done = CliRunner(mix_stderr=False).invoke(
            pagelogctl, [*map(str, words), "--credentials", str(self.keeping.file)], input=typed
        )
        if done.exception is not None and not isinstance(done.exception, SystemExit):
            raise done.exception
        return done.exit_code, done.stdout, done.stderr

    def renewed(self, *more: object, id: int = 2) -> tuple[int, str, str]:
        """The principal gets the token NEW."""
        return self.ran("token", "shop", id, "--to", "-", *more, typed=NEW)

    def told(self, run: str, address: str, used: str, id: int = 2) -> str:
        """What a service says to a principal with this token of the table."""
        credentials = Credentials(id, token_of(bytes.fromhex(used), "shop", run))
        try:
            with Reader(Connection(address, timeout=PATIENCE, attempts=1), credentials) as reader:
                reader.status()
            return "known"
        except UnknownPrincipal:
            return "unknown"
        except PagelogError as error:
            return type(error).__name__

    def where_all_are(self) -> list[tuple[str, str]]:
        """Run and address of each service of the database that a keeper has noted, and that runs."""
        found = []
        for file in self.keeping.folder.glob("*/shop.*.json"):
            with suppress(OSError, ValueError):
                facts = json.loads(file.read_text())
                if facts["address"] is not None and Path(f"/proc/{facts['pid']}").exists():
                    found.append((facts["run"], facts["address"]))
        return found

    def only_new_is_known(self, old: str = token(2), new: str = NEW) -> None:
        """At each service that there is."""
        for run, address in self.where_all_are():
            self.assertEqual(
                (self.told(run, address, old), self.told(run, address, new)), ("unknown", "known")
            )


class InForce(Changing):
    def test_when_it_returns_no_service_knows_the_old_token(self) -> None:
        eventually(
            lambda: "b" in self.keeping.standbys() or "a" in self.keeping.standbys(), "a standby"
        )
        with self.keeping.primary() as primary:
            position = self.commit(primary, "before")
            self.assertEqual(
                self.renewed(), (0, "table 2 of shop is in force\n", "table 2 of shop is set\n")
            )
            self.only_new_is_known()
            row = self.keeping.row()
            self.assertEqual((row.table_number, row.run_table), (2, 2))
            began = time.monotonic()
            with self.assertRaisesRegex(WrongToken, "does not list principal 2"):
                self.commit(primary, "after")
            self.assertLess(time.monotonic() - began, 30)
        eventually(lambda: self.keeping.standbys() != {}, "the standby again")
        self.only_new_is_known()
        with self.writer(NEW) as primary:
            self.assertEqual(self.commit(primary, "new", durable=True), position + 1)
        self.assertEqual(self.texts(), [b"before", b"new"])
        # Who takes over has the new one too.
        self.keeping.kill(str(self.keeping.row().holder), signal.SIGKILL)
        eventually(lambda: self.keeping.row().generation > row.generation, "a take-over")
        with self.writer(NEW) as primary:
            self.assertEqual(self.commit(primary, "taken over", durable=True), position + 2)

    def writer(self, used: str, id: int = 2) -> NamedPrimary:
        return Primary.named(
            "shop",
            keepers=self.keeping.addresses,
            principal=id,
            token=used,
            operator=(1, token(1)),
            patience=PATIENCE,
            timeout=PATIENCE,
        )

    def test_the_same_table_is_not_set_again_and_a_faulty_one_never(self) -> None:
        self.assertEqual(
            self.ran("table", "shop", "--table", self.keeping.table),
            (0, "table 1 of shop is in force\n", ""),
        )
        self.keeping.table.write_text(WIDE_TABLE.replace('role = "primary"', 'role = "writer"'))
        status, out, error = self.ran("table", "shop", "--table", self.keeping.table)
        self.assertEqual((status, out), (1, ""))
        self.assertIn("fault 10", error)
        self.assertEqual(self.keeping.row().table_number, 1)
        self.assertEqual(self.ran("table", "nothing")[0], 1)

    def test_what_is_shown_has_no_token_and_can_be_set(self) -> None:
        status, out, _ = self.ran("table", "shop", "--show")
        self.assertEqual((status, out.count('token = "same"')), (0, 5))
        self.assertNotIn(token(2), out)
        self.assertEqual(self.ran("table", "shop", "--show", "--tokens")[1], WIDE_TABLE)
        self.keeping.table.write_text(out)
        self.assertEqual(self.ran("table", "shop", "--diff", self.keeping.table), (0, "", ""))
        self.assertEqual(
            self.ran("table", "shop", "--table", self.keeping.table),
            (0, "table 1 of shop is in force\n", ""),
        )
        self.keeping.table.write_text(out.replace('token = "same"', f'token = "{NEW}"', 1))
        status, out, error = self.ran("table", "shop", "--diff", self.keeping.table)
        self.assertEqual(
            (status, out, error),
            (1, "principal 1\n  shop.toml: a token\n  table.toml: another token\n", ""),
        )

    def test_two_hold_beside_each_other_until_the_first_is_revoked(self) -> None:
        status, out, _ = self.ran("token", "shop", 2, "--new", "--beside")
        self.assertEqual(status, 0)
        id, made = out.splitlines()[:2]
        self.assertEqual(id, "id = 6")
        new = made.removeprefix('token = "').removesuffix('"')
        with self.keeping.primary() as primary:
            self.commit(primary, "by the first", durable=True)
        with self.writer(new, 6) as primary:
            self.commit(primary, "by the second", durable=True)
            self.assertEqual(self.ran("token", "shop", 2, "--revoke")[0], 0)
            self.commit(primary, "by the second", durable=True)
        with self.keeping.primary() as primary, self.assertRaisesRegex(
            WrongToken, "does not list principal 2 "
        ):
            self.commit(primary, "by the first", durable=True)
        self.assertEqual(self.texts(), [b"by the first", b"by the second", b"by the second"])

    def test_an_open_writer_of_sqlite_is_barred_at_once(self) -> None:
        with closing(connected(self.keeping.addresses)) as writer:
            writer.execute("create table t(n)")
            writer.execute("insert into t values(1)")
            self.assertEqual(self.renewed()[0], 0)
            began = time.monotonic()
            with self.assertRaises(sqlite3.Error) as caught:
                writer.execute("insert into t values(2)")
            self.assertLess(time.monotonic() - began, 15)
            self.assertEqual(caught.exception.sqlite_errorname, "SQLITE_PERM")
            self.assertEqual(
                error_of(writer), "denied: the table does not list principal 2 with this token"
            )


class Deaths(Changing):
    """Whatever stands still, is away or dies: what the word has returned of is fenced, and what it has named is ended by who finds it."""

    def holder(self) -> str:
        """The keeper that has it, once the other one follows."""
        eventually(
            lambda: self.keeping.row().address is not None and self.keeping.standbys() != {},
            "a holder, and a standby",
        )
        return str(self.keeping.row().holder)

    def is_in_force(self) -> bool:
        return self.ran("table", "shop", "--within", PATIENCE)[0] == 0

    def asked(self, *words: object, typed: str = "") -> subprocess.Popen[str]:
        """A subcommand, in a process of its own, to which this is typed."""
        command = [
            sys.executable,
            "-B",
            "-m",
            "pagelog",
            *map(str, words),
            "--credentials",
            str(self.keeping.file),
        ]
        process = subprocess.Popen(
            command,
            env=self.keeping.environment,
            stdin=subprocess.PIPE,
            stdout=subprocess.PIPE,
            stderr=subprocess.PIPE,
            text=True,
        )
        self.addCleanup(lambda: (process.kill(), process.communicate()))
        assert process.stdin is not None
        process.stdin.write(typed)
        process.stdin.close()
        process.stdin = None
        return process

    def is_fenced(self, run: str | None) -> None:
        """Nothing of this run becomes durable any more."""
        row = self.keeping.row()
        self.assertNotEqual(row.run, run)
        self.assertTrue(row.run is None or row.run_table == row.table_number)
        self.assertIsNone(self.keeping.referee.kept(row.id, str(run)))

    def test_while_it_is_paused_its_holder_makes_the_next_generation(self) -> None:
        holder = self.holder()
        self.keeping.word("pause", "shop")
        self.assertEqual(self.renewed()[0], 0)
        self.only_new_is_known()
        row = self.keeping.row()
        self.assertEqual(
            (row.holder, row.paused, row.table_number, row.run_table), (holder, True, 2, 2)
        )

    def test_a_holder_that_stands_still_is_fenced_and_ends_its_service_as_it_goes_on(self) -> None:
        holder = self.holder()
        run, place = self.keeping.row().run, self.keeping.place()
        self.keeping.kill(holder, signal.SIGSTOP)
        try:
            status, out, _ = self.renewed()
            self.is_fenced(run)
            self.assertEqual(status, 3)
            self.assertRegex(
                out,
                f"table 2 of shop is in force, but at 1 of its services:\nrun {run} of keeper {holder}, generation [0-9]+: nothing of it becomes",
            )
            self.assertEqual(self.told(str(run), place.address, token(2)), "known")
        finally:
            self.keeping.kill(holder, signal.SIGCONT)
        eventually(self.is_in_force, "the newest table alone")
        self.only_new_is_known()

    def test_one_that_is_paused_and_stands_still_is_fenced_too(self) -> None:
        holder = self.holder()
        run = self.keeping.row().run
        self.keeping.word("pause", "shop")
        self.keeping.kill(holder, signal.SIGSTOP)
        try:
            self.assertEqual(self.renewed()[0], 3)
            self.is_fenced(run)
            self.assertIsNone(self.keeping.row().run)
        finally:
            self.keeping.kill(holder, signal.SIGCONT)
        eventually(self.is_in_force, "the newest table alone")
        self.assertIsNone(self.keeping.row().run)
        self.keeping.word("resume", "shop")
        eventually(lambda: self.keeping.row().address is not None, "a holder")
        self.only_new_is_known()

    def test_a_dead_keeper_s_service_is_named_and_its_next_life_ends_it(self) -> None:
        holder = self.holder()
        run = self.keeping.row().run
        self.keeping.kill(holder, signal.SIGKILL)
        status, out, _ = self.renewed()
        self.is_fenced(run)
        self.assertEqual(status, 3)
        self.assertIn(f"run {run} of keeper {holder}", out)
        self.keeping.start(holder)
        eventually(self.is_in_force, "the newest table alone")
        self.only_new_is_known()

    def test_a_keeper_that_has_ended_is_not_named(self) -> None:
        holder = self.holder()
        self.keeping.kill(holder, signal.SIGTERM)
        self.assertEqual(self.renewed()[0], 0)
        self.only_new_is_known()

    def test_a_standby_whose_keeper_stands_still_is_named(self) -> None:
        other = "ab".replace(self.holder(), "")
        self.keeping.kill(other, signal.SIGSTOP)
        try:
            status, out, _ = self.renewed()
            self.assertEqual(status, 3)
            self.assertRegex(out, f"run [0-9a-f]+ of keeper {other}, a standby")
        finally:
            self.keeping.kill(other, signal.SIGCONT)
        eventually(self.is_in_force, "the newest table alone")
        self.only_new_is_known()

    def test_a_service_that_is_killed_meanwhile(self) -> None:
        self.holder()
        word = self.asked("token", "shop", 2, "--new")
        eventually(lambda: self.keeping.row().table_number == 2, "the number")
        os.kill(self.keeping.pid(), signal.SIGKILL)
        word.communicate()
        self.assertEqual(word.returncode, 0)
        row = self.keeping.row()
        self.assertEqual((row.table_number, row.run is None or row.run_table == 2), (2, True))

    def test_a_word_that_is_killed_at_its_statement_or_behind_it(self) -> None:
        self.holder()
        for number, waits in ((2, True), (3, False)):
            gate = Gate(self.keeping.url, "NEW.table_number <> OLD.table_number") if waits else None
            word = self.asked("token", "shop", 2, "--to", "-", typed=f"{number:032x}")
            if gate is not None:
                gate.somebody_waits()
                word.kill()
                word.wait()
                gate.open()
            else:
                eventually(lambda: self.keeping.row().table_number == number, "the number")
                word.kill()
            eventually(
                lambda: (row := self.keeping.row()).table_number == row.run_table == number,
                "the generation with this table",
            )
            self.assertTrue(self.is_in_force())
            self.only_new_is_known(new=f"{number:032x}")

    def test_a_keeper_that_is_killed_at_each_statement(self) -> None:
        for number, when in enumerate(
            ("NEW.next_generation > OLD.next_generation", "NEW.run IS DISTINCT FROM OLD.run"), 2
        ):
            holder = self.holder()
            gate = Gate(self.keeping.url, when)
            word = self.asked("token", "shop", 2, "--to", "-", typed=f"{number:032x}")
            gate.somebody_waits()
            self.keeping.kill(holder, signal.SIGKILL)
            gate.open()
            self.keeping.start(holder)
            word.wait()
            self.assertIn(word.returncode, (0, 3))
            row = self.keeping.row()
            self.assertTrue(row.run is None or row.run_table == number)
            eventually(self.is_in_force, "the newest table alone")
            self.only_new_is_known(new=f"{number:032x}")

    def test_postgresql_is_away(self) -> None:
        self.holder()
        text = self.keeping.file.read_text()
        self.keeping.file.write_text(
            text.replace(self.keeping.url, "postgresql:///ref?host=/nowhere")
        )
        status, _, error = self.renewed()
        self.keeping.file.write_text(text)
        self.assertEqual((status, self.keeping.row().table_number), (3, 1))
        self.assertIn("Away", error)

    def test_another_change_while_the_next_generation_is_made(self) -> None:
        self.holder()
        row, referee = self.keeping.row(), self.keeping.referee
        self.assertEqual(referee.set_table(row, with_token(WIDE_TABLE, 2, "12" * 16), 1), 2)
        eventually(
            lambda: self.keeping.row().next_generation > row.next_generation,
            "a number of a generation",
        )
        self.assertEqual(self.renewed()[:2], (0, "table 3 of shop is in force\n"))
        self.only_new_is_known("12" * 16)

    def test_what_nobody_makes_in_time_is_ended(self) -> None:
        self.holder()
        run = self.keeping.row().run
        gate = Gate(
            self.keeping.url, "NEW.next_generation > OLD.next_generation AND NEW.run = OLD.run"
        )
        try:
            status, _, error = self.renewed("--within", 1)
            self.assertIn(status, (0, 3))
            self.is_fenced(run)
            self.assertRegex(
                error,
                r"generation [0-9]+ of keeper [ab], which has an older table, was ended at position 0\n",
            )
        finally:
            gate.open()
        eventually(self.is_in_force, "the newest table alone")
        self.only_new_is_known()

    def test_a_postgresql_that_went_back_gets_the_newest_table_again(self) -> None:
        self.holder()
        self.assertEqual(self.renewed()[0], 0)
        row = self.keeping.row()
        with psycopg.connect(self.keeping.url, autocommit=True) as session:
            session.execute(
                "WITH log AS (UPDATE pagelog_log SET table_number = 1 WHERE id = %s) UPDATE pagelog_table SET text = %s WHERE log = %s",
                (row.id, WIDE_TABLE, row.id),
            )
        eventually(lambda: self.keeping.row().table_number == 2, "the number of the newest")
        self.assertEqual(self.keeping.referee.table(row.id).text, with_token(WIDE_TABLE, 2, NEW))

    def test_what_is_set_aside_is_named(self) -> None:
        self.holder()
        with psycopg.connect(self.keeping.url, autocommit=True) as session:
            session.execute(
                "INSERT INTO pagelog_keeper (name, run, lines, report) VALUES ('z', 'z', 'z:1', %s)",
                (
                    '{"set aside": [{"name": "shop", "run": "r0", "address": "z:2", "pid": 1, "kept": true}]}',
                ),
            )
        status, out, _ = self.renewed()
        self.assertEqual(status, 3)
        self.assertIn("run r0 of keeper z, a service that is quarantined", out)
        self.assertIn("`pagelogctl rescue shop` saves and ends it", out)

    def test_nothing_is_durable_by_the_old_token_once_it_has_returned(self) -> None:
        """Of a writer that never stops."""
        self.holder()
        told: list[tuple[float, int]] = []

        def write() -> None:
            with suppress(WrongToken), self.keeping.primary() as primary:
                while True:
                    position = self.commit(primary, "old", durable=True)
                    told.append((time.monotonic(), position))

        thread = threading.Thread(target=write)
        thread.start()
        eventually(lambda: len(told) > 10, "some commits")
        self.assertEqual(self.renewed()[0], 0)
        returned, archived = time.monotonic(), self.keeping.row().archived
        thread.join()
        self.assertLessEqual(max(at for at, _ in told), returned)
        self.assertEqual(
            (self.keeping.row().archived, max(position for _, position in told)),
            (archived, archived),
        )


class OneKeeper(Changing):
    """A keeper that is none but by its statements, and has the database."""

    keepers = ""

    def setUp(self) -> None:
        super().setUp()
        self.referee = Referee(self.keeping.url, "z", "life of z")
        self.addCleanup(self.referee.close)
        self.referee.register("z:1")
        self.assertIsNotNone(self.referee.take(self.keeping.row(), "r0"))

    def test_a_run_whose_keeper_took_it_just_now_and_reports_nothing_is_named(self) -> None:
        status, out, _ = self.renewed()
        self.assertEqual((status, self.keeping.row().run), (3, None))
        self.assertRegex(
            out, "run r0 of keeper z, generation [0-9]+: nothing of it becomes durable"
        )

    def test_it_is_waited_for_until_its_keeper_reports_that_it_has_ended(self) -> None:
        """The keeper is alive, switches, and is a while about to end the service of before."""
        after: list[bool] = []

        def keep() -> None:
            row = self.keeping.row()
            report = json.dumps({NUMBERS: {}, "shop": {"run": "r0", "table": 1}})
            while (
                found := self.referee.look({}, report).row("shop")
            ) is not None and found.table_number == 1:
                time.sleep(0.01)
            given = number(self.referee, row.id, "r0", row.generation)
            assert given is not None
            self.assertTrue(
                succeed(
                    self.referee,
                    Switch(
                        row.id,
                        "r0",
                        row.generation,
                        0,
                        (),
                        b"",
                        given,
                        "r1",
                        "z:2",
                        0,
                        0,
                        table_number=2,
                    ),
                )
            )
            for leaving in (["r0"],) * 30 + ([],):
                time.sleep(0.05)
                after.append(not leaving)
                self.referee.look(
                    {},
                    json.dumps(
                        {NUMBERS: {}, "shop": {"run": "r1", "table": 2, "leaving": leaving}}
                    ),
                )
            while not is_done.is_set():
                time.sleep(0.05)
                self.referee.look()

        is_done, thread = threading.Event(), threading.Thread(target=keep)
        self.referee.look({}, json.dumps({NUMBERS: {}}))
        thread.start()
        try:
            status = self.renewed()[0]
            has_ended = list(after)
        finally:
            is_done.set()
            thread.join()
        self.assertEqual((status, has_ended[-1:]), (0, [True]))

    def test_what_an_old_leader_shows_alone_is_not_believed(self) -> None:
        """Its row is of before a change that only a write finds."""
        row = replace(self.keeping.row(), table_number=1, run=None)
        looks = iter((Look((row,)), Look((replace(row, table_number=2),))))
        referee = Mock(everything=lambda: next(looks), newest_table=Mock(return_value=(2, None)))
        self.assertEqual(TableChange(referee, row, 1.5, 10).carry_out(), [])
        self.assertIsNone(next(looks, None))

    def test_a_postgresql_that_is_away_meanwhile_is_asked_again_until_it_is_late(self) -> None:
        row = replace(self.keeping.row(), table_number=2, run=None)
        for error in (Away("away"), Doubt("doubt")):
            referee = Mock(
                everything=Mock(side_effect=[error, Look((row,))]),
                newest_table=Mock(return_value=(2, None)),
            )
            self.assertEqual(TableChange(referee, row, 1.5, PATIENCE).carry_out(), [])
            self.assertRaises(
                type(error),
                TableChange(Mock(everything=Mock(side_effect=error)), row, 1.5, 0).carry_out,
            )

    def test_nothing_is_changed_while_an_older_keeper_lives(self) -> None:
        def live() -> None:
            while not is_done.is_set():
                self.referee.look({}, "{}")
                time.sleep(0.05)

        is_done, thread = threading.Event(), threading.Thread(target=live)
        thread.start()
        try:
            status, _, error = self.renewed()
        finally:
            is_done.set()
            thread.join()
        self.assertEqual((status, self.keeping.row().table_number), (1, 1))
        self.assertIn(
            "nothing was changed: keeper z is of a version that knows no numbers of tables", error
        )

    def test_a_keeper_reports_what_it_is_about_to_end(self) -> None:
        row = self.keeping.row()
        keeper = Keeper(
            Settings.of("z", "", "", self.keeping.folder, "", self.keeping.url, {"standby": False})
        )
        served = Served("shop", "r1", WIDE_TABLE, b"s" * 16, timeout=1.0, table_number=7)
        served.process = Mock(memory=0)
        for one, leaving, wanted in (
            (None, {"r0"}, ["r0"]),
            (None, set(), None),
            (served, {"r0"}, ["r0"]),
            (served, set(), None),
        ):
            keeper.databases[row.id] = Mock(
                row=replace(row, holder="b"),
                served=one,
                leaving=leaving,
                state=DatabaseState.AWAY,
                decision=None,
                back=None,
            )
            report = json.loads(keeper._report())
            self.assertEqual(report[NUMBERS], {})
            self.assertEqual(report.get("shop", {}).get("leaving"), wanted)
            self.assertEqual(report.get("shop", {}).get("table"), None if one is None else 7)


class Runbook(Changing):
    """What docs/RUNBOOK.md says of tokens, run as it is printed, each block on a new database."""

    options = {"more": "trail = 1\n"}

    def setUp(self) -> None:
        super().setUp()
        programs = self.keeping.folder / "programs"
        programs.mkdir()
        (programs / "pagelogctl").write_text(
            f'#!/bin/sh\nexec {sys.executable} -B -m pagelog "$@"\n'
        )
        (programs / "pagelogctl").chmod(0o755)
        (self.keeping.folder / "keeper.toml").symlink_to(self.keeping.file)
        self.environment = {
            **self.keeping.environment,
            "PATH": f"{programs}:{os.environ['PATH']}",
            "GOOD": "0",
        }

    def run_block(self, block: str) -> str:
        done = subprocess.run(
            ["sh", "-ec", block],
            cwd=self.keeping.folder,
            env=self.environment,
            capture_output=True,
            text=True,
        )
        self.assertEqual(done.returncode, 0, f"{block}{done.stdout}{done.stderr}")
        return done.stdout

    def begin_again(self) -> None:
        run = self.keeping.row().run
        self.keeping.referee.drop("shop")
        self.assertTrue(
            self.keeping.referee.create("shop", self.keeping.table.read_text(), b"s" * 16)
        )
        eventually(
            lambda: (row := self.keeping.row()).address is not None and row.run != run,
            "another database",
        )
        with self.keeping.primary() as primary:
            self.commit(primary, "before", durable=True)

    def made(self, file: str) -> tuple[int, str]:
        found = tomllib.loads((self.keeping.folder / file).read_text())
        return found["id"], found["token"]

    def knows(self, id: int, used: str) -> bool:
        place = self.keeping.place()
        return self.told(place.run, place.address, used, id) == "known"

    def test_its_blocks(self) -> None:
        page = (Path(__file__).resolve().parents[3] / "docs" / "RUNBOOK.md").read_text()
        [section] = re.findall(r"(?ms)^### Tokens$(.*?)^### ", page)
        blocks = re.findall(r"(?ms)^```sh\n(.*?)^```$", section)
        beside, taken_out, another, revoked, compromised = blocks
        self.begin_again()
        self.run_block(beside)
        id, used = self.made("new.toml")
        self.assertEqual((id, self.knows(id, used), self.knows(2, token(2))), (6, True, True))
        self.run_block(taken_out)
        self.assertEqual((self.knows(id, used), self.knows(2, token(2))), (True, False))
        self.begin_again()
        self.run_block(another)
        id, used = self.made("new.toml")
        self.assertEqual((id, self.knows(id, used), self.knows(2, token(2))), (2, True, False))
        self.begin_again()
        self.assertTrue(self.knows(3, token(3)))
        self.run_block(revoked)
        self.assertEqual((self.knows(5, token(5)), self.knows(3, token(3))), (False, True))
        self.begin_again()
        said = self.run_block(compromised)
        for file, id in (("new.toml", 2), ("operator.toml", 1)):
            self.assertEqual((self.made(file)[0], self.knows(id, token(id))), (id, False))
        self.assertRegex(said, "principal 1 .*failover")
        self.assertIn("shop-before is shop at position 0", said)


if __name__ == "__main__":
    unittest.main()
