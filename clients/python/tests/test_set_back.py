"""A PostgreSQL that is set back to before or behind a statement of a keeper's, as an asynchronous standby that leads, or a recovery to a
point in time: what was acknowledged is in the database, or in a service that `rescue` shows and saves, and the database is served again
without a person's help.

Here is a cover of the cases, in which each pair of two choices is once; all of them with PAGELOG_TEST_LONG.
"""

from __future__ import annotations

import itertools
import json
import os
import re
import shutil
import signal
import tempfile
import unittest
from dataclasses import dataclass
from pathlib import Path
from typing import Callable, Iterator

import psycopg
from keepers import Keeping, eventually
from pagelog import Lost, Put
from pagelog.referee.referee import Referee
from pagelog.place import UnknownName
from postgres import FSYNC, PATIENCE, Postgres
from service import IS_LONG

TTL = 1.0
AFTER = 8
"""The page that is changed once PostgreSQL is back."""
OTHER = {"a": "b", "b": "a"}


NOTES = """
CREATE TABLE noted (number serial, xid xid8, what text);
CREATE FUNCTION noted_log() RETURNS trigger LANGUAGE plpgsql AS $$ BEGIN
  INSERT INTO noted (xid, what) VALUES (pg_current_xact_id(), CASE
    WHEN TG_OP = 'INSERT' THEN 'creation'
    WHEN NEW.dropped AND NOT OLD.dropped THEN 'drop'
    WHEN NEW.run IS NULL AND OLD.run IS NOT NULL THEN 'release'
    WHEN NEW.run IS DISTINCT FROM OLD.run AND NEW.holder = OLD.holder AND NEW.base > OLD.base THEN 'switch'
    WHEN NEW.run IS DISTINCT FROM OLD.run THEN 'take'
    WHEN NEW.address IS DISTINCT FROM OLD.address THEN 'place'
    WHEN NEW.next_generation <> OLD.next_generation THEN 'number'
    WHEN NEW.wanted IS DISTINCT FROM OLD.wanted OR NEW.succeed <> OLD.succeed THEN 'request'
    ELSE 'batch' END);
  RETURN NEW; END $$;
CREATE FUNCTION noted_other() RETURNS trigger LANGUAGE plpgsql AS $$ BEGIN
  INSERT INTO noted (xid, what) VALUES (pg_current_xact_id(), TG_ARGV[0]); RETURN NULL; END $$;
CREATE TRIGGER noted AFTER INSERT OR UPDATE ON pagelog_log FOR EACH ROW EXECUTE FUNCTION noted_log();
CREATE TRIGGER noted AFTER INSERT ON pagelog_standby EXECUTE FUNCTION noted_other('standby');
CREATE TRIGGER noted AFTER DELETE ON pagelog_table EXECUTE FUNCTION noted_other('deletion of a table');
CREATE TRIGGER noted AFTER DELETE ON pagelog_block EXECUTE FUNCTION noted_other('deletion of blocks');
"""
"""From then on it is noted which transaction was which statement."""


class SetBack(Postgres):
    """A server that is set back to before or behind one of its transactions: by a copy of its first folder, and its log of writes. It begins
    with the tables of a referee."""

    _first: list[Postgres] = []

    def __init__(self) -> None:
        if not self._first:
            self._first.append(self._prepared())
        self.user = self._first[0].user
        self.folder = Path(tempfile.mkdtemp(prefix="pagelog-postgres-"))
        if self.user:
            shutil.chown(self.folder, self.user)
        self.data = self.folder / "data"
        self._begin_again()
        self.start()

    @staticmethod
    def _prepared() -> Postgres:
        server = Postgres()
        url = server.url("set_back")
        referee = Referee(url)
        referee.prepare()
        referee.close()
        with psycopg.connect(url) as session:
            session.execute(NOTES)
        server.run("pg_ctl", "-D", server.data, "-m", "fast", "-w", "-t", PATIENCE, "stop")
        return server

    @property
    def tables(self) -> str:
        """The URL of the database."""
        return f"postgresql://pagelog@/set_back?host={self.folder}"

    def _begin_again(self) -> None:
        self.call(["cp", "-a", str(self._first[0].data), str(self.data)], check=True)

    def start(self) -> None:
        """It keeps its log of writes, and lets nobody in before a recovery has ended."""
        options = f"-k {self.folder} -c listen_addresses= -c max_connections=30 -c fsync={FSYNC} -c wal_keep_size=4GB -c hot_standby=off"
        self.run(
            "pg_ctl",
            "-D",
            self.data,
            "-o",
            options,
            "-l",
            self.folder / "log",
            "-w",
            "-t",
            PATIENCE,
            "start",
        )

    def set_back(self, transaction: str, *, is_behind: bool) -> None:
        self.crash()
        written = self.folder / "written"
        (self.data / "pg_wal").rename(written)
        shutil.rmtree(self.data)
        self._begin_again()
        with (self.data / "postgresql.auto.conf").open("a") as file:
            file.write(
                f"restore_command = 'cp {written}/%f %p'\nrecovery_target_xid = '{transaction}'\n"
                f"recovery_target_inclusive = {'on' if is_behind else 'off'}\n"
                "recovery_target_action = promote\nrecovery_target_timeline = current\n"
            )
        self.call(["touch", str(self.data / "recovery.signal")], check=True)
        self.start()
        eventually(self._lets_in, "the end of the recovery")

    def _lets_in(self) -> bool:
        try:
            psycopg.connect(self.tables).close()
        except psycopg.OperationalError:
            return False
        return True


@dataclass(frozen=True)
class Case:
    """What is done, and to before or behind which of its statements PostgreSQL is set back then; whether another keeper has a standby, and
    whether all keepers are killed before PostgreSQL is back, and started again."""

    action: str
    statement: str
    is_behind: bool
    standby: bool
    restarted: bool

    @property
    def has_name(self) -> bool:
        """Whether PostgreSQL has a database of the name then."""
        return (
            self.action != "drop"
            or (self.statement, self.is_behind) in _WITH_FIRST
            or self.has_last
        )

    @property
    def has_last(self) -> bool:
        """Whether PostgreSQL has the database to which was written last."""
        is_made = (self.statement, self.is_behind) == ("creation", True) or self.statement in (
            "take",
            "place",
        )
        return self.action != "drop" or is_made

    def __str__(self) -> str:
        where, others = (
            "behind" if self.is_behind else "before",
            "a standby" if self.standby else "no standby",
        )
        return f"{where} the {self.statement} of a {self.action}, {others}{', keepers killed' if self.restarted else ''}"


_WITH_FIRST = {
    ("batch", False): {1, 2, 3},
    ("batch", True): {1, 2, 3, 4},
    ("drop", False): {1, 2, 3, 4, 5},
}
"""Where the database that was dropped is there again, and the pages that it has."""


def cover(cases: list[Case]) -> Iterator[Case]:
    """Some of them: each statement is there, and each two of the other choices stand together at least once."""
    left = {pair for case in cases for pair in _pairs(case)}
    while left:
        best = max(cases, key=lambda case: len(left & _pairs(case)))
        left -= _pairs(best)
        yield best


def _pairs(case: Case) -> set[object]:
    choices = {name: chosen for name, chosen in vars(case).items() if name != "statement"}
    return {case.statement, *itertools.combinations(sorted(choices.items()), 2)}


STATEMENTS = {
    "succession": ("batch", "request", "number", "switch"),
    "switchover": ("batch", "request", "standby", "release", "take"),
    "takeover": ("batch", "take", "place"),
    "release": ("batch", "release", "take", "place"),
    "drop": (
        "batch",
        "drop",
        "deletion of a table",
        "deletion of blocks",
        "creation",
        "take",
        "place",
    ),
}
"""Those that each action makes, in their order. A batch is one before it."""


def _cases() -> Iterator[Case]:
    for action, statements in STATEMENTS.items():
        for statement, behind, standby, restarted in itertools.product(
            statements, *(3 * ((False, True),))
        ):
            is_its_own = action == "drop" or statement not in (
                "standby",
                "place",
            )  # what is made where there is no standby
            if is_its_own or not standby:
                yield Case(action, statement, behind, standby, restarted)


ALL = list(_cases())


class Played:
    """One case: keepers a and b, a writer, and what was acknowledged to it."""

    def __init__(self, keeping: Keeping, server: SetBack, case: Case) -> None:
        self.keeping, self.server, self.case = keeping, server, case
        self.acknowledged: set[int] = set()
        self.running = ["a", "b"]
        self.run, self.pid = "", 0
        """Of the last service."""

    def play(self) -> None:
        keeping, case = self.keeping, self.case
        assert keeping.referee.create("shop", keeping.table.read_text(), b"s" * 16)
        keeping.start("a")
        eventually(self.is_known, "the database")
        keeping.start("b")
        if case.standby:
            eventually(lambda: "b" in keeping.standbys(), "a standby")
        self.write(1, 2, 3)
        before = len(self.noted())
        self.write(4, 5)
        self.act()
        self.write(6, 7)
        self.run, self.pid = keeping.place().run, keeping.pid()
        noted = self.noted()[before:]
        transaction = next(
            (transaction for transaction, what in noted if what == case.statement), None
        )
        assert (
            transaction is not None
        ), f"there is no {case.statement} in {[what for _, what in noted]}"
        self.lose(transaction)

    def noted(self) -> list[tuple[str, str]]:
        """All transactions, by number, with what they are."""
        with psycopg.connect(self.keeping.url) as session:
            return session.execute("SELECT xid::text, what FROM noted ORDER BY number").fetchall()

    def write(self, *pages: int) -> None:
        """A commit for each, which changes that page."""
        with self.keeping.primary() as primary:
            for page in pages:
                primary.append(Put(page, 0, b"it is there"))
                primary.commit(durable=True)
                self.acknowledged.add(page)

    def act(self) -> None:
        """Has it done, and waits until it is."""
        keeping, row = self.keeping, self.keeping.row()
        if self.case.action == "drop":
            keeping.word("drop", "shop", "--yes")
            self.acknowledged.clear()
            assert keeping.referee.create("shop", keeping.table.read_text(), b"t" * 16)
            eventually(
                lambda: self.is_known() and keeping.place().generation > row.generation,
                "the new database",
            )
            return
        if self.case.action == "succession":
            keeping.word("rollover", "shop")
        elif self.case.action == "switchover":
            keeping.word("switchover", "shop", "--to", OTHER[str(row.holder)])
        elif self.case.action == "takeover":
            self.running.remove(str(row.holder))
            pid = keeping.pid()
            keeping.kill(str(row.holder))
            os.kill(pid, signal.SIGKILL)
        else:  # its service is killed, so that the generation is released
            os.kill(keeping.pid(), signal.SIGKILL)
        keeping.place(least=row.generation + 1)

    def is_known(self, name: str = "shop") -> bool:
        try:
            self.keeping.place(name)
        except UnknownName:
            return False
        return True

    def lose(self, transaction: str) -> None:
        keeping, case = self.keeping, self.case
        if case.restarted:
            for name in self.running:
                keeping.kill(name)
        keeping.referee.close()
        self.server.set_back(transaction, is_behind=case.is_behind)
        if case.restarted:
            keeping.start(*self.running)

    # What has to be.

    def pages(self, name: str) -> set[int]:
        """Those of the acknowledged ones that a new reader finds."""
        with self.keeping.reader(name) as reader:
            return {
                page
                for page in self.acknowledged
                if reader.page(page).data.startswith(b"it is there")
            }

    def goes_on(self) -> None:
        """The database is served again: a new writer's commit becomes durable. One that came before that is known may be told that it is
        lost, which is no acknowledgement."""
        eventually(self.is_known, "the database")

        def writes() -> bool:
            try:
                self.write(AFTER)
            except Lost:
                return False
            return True

        eventually(writes, "a commit")

    def lost(self) -> set[int]:
        """What was acknowledged and is not in the database."""
        return self.acknowledged - self.pages("shop")

    def is_kept(self) -> None:
        """The service of a database that PostgreSQL does not have is not ended, its keeper says of it, and `rescue` saves all of it."""
        eventually(
            lambda: self.run in [each["run"] for each in self.asides()],
            "a word of what was quarantined",
        )
        os.kill(self.pid, 0)
        [keeper] = {each["keeper"] for each in self.asides() if each["run"] == self.run}
        self.keeping.word(
            "rescue",
            "shop",
            "--run",
            self.run,
            "--folder",
            self.keeping.folder / keeper,
            "--as",
            "last",
        )
        eventually(lambda: self.is_known("last"), "what was saved")
        assert self.acknowledged - {AFTER} <= self.pages("last"), "acknowledged, and not saved"

    def asides(self) -> list[dict[str, str]]:
        lines = map(json.loads, self.keeping.word("list", "--json").splitlines())
        return [each for line in lines if line["name"] == "shop" for each in line["set_aside"]]

    def rescued(self) -> set[int]:
        """What `rescue` saves of it, and shows before."""
        eventually(lambda: bool(self.asides()), "a word of what was quarantined")
        found: set[int] = set()
        for number, each in enumerate(self.asides()):
            saved = f"saved{number}"
            self.keeping.word("rescue", "shop", "--run", each["run"], "--as", saved)
            eventually(lambda: self.is_known(saved), "what was saved")
            found |= self.pages(saved)
        return found


class Cases(unittest.TestCase):
    def played(self, case: Case) -> None:
        server = SetBack()
        self.addCleanup(server.stop)
        with Keeping(ttl=TTL, standby=case.standby, url=server.tables) as keeping:
            played = Played(keeping, server, case)
            try:
                played.play()
                if case.has_name:
                    played.goes_on()
                if not case.has_last:
                    played.is_kept()
                    played.acknowledged &= {AFTER}
                    played.acknowledged |= _WITH_FIRST.get((case.statement, case.is_behind), set())
                if case.has_name and (lost := played.lost()):
                    self.assertEqual(
                        lost - played.rescued(), set(), "acknowledged, and neither there nor saved"
                    )
                self.assertNotIn("fault of the keeper", keeping.said())
            except BaseException:
                print(f"{case}:\n{keeping.said()}")
                raise


def _test(case: Case) -> Callable[[Cases], None]:
    return lambda cases: cases.played(case)


for _case in ALL if IS_LONG else cover(ALL):
    setattr(Cases, "test_" + re.sub(r"\W+", "_", str(_case)), _test(_case))
