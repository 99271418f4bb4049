"""The databases of archives: their URLs, transactions, locks and forks, servers that go away, and what older versions have made."""

from __future__ import annotations

import ast
import os
import sqlite3
import tempfile
import threading
import time
import unittest
import zlib
from contextlib import ExitStack
from pathlib import Path
from typing import Any, Callable, Iterator
from unittest import mock

import psycopg
from psycopg.conninfo import conninfo_to_dict

from pagelog import Block
from pagelog.archive import Archive, ArchiveError, NoArchive, OtherArchiver
from pagelog.archive.care import drop, logs_of
from pagelog.archive.engine import engine_of
from pagelog.archive.postgres import BoundConnection
from pagelog.archive.session import Engine, statements_of
from pagelog.archive.tables import MOVE
from pagelog.archive.tables import TABLES as OF_ARCHIVE
from pagelog.archive.url import is_in_memory, parsed_url
from pagelog.keeper.recorder import Recorder
from pagelog.trail import OtherKeeper, Start, Trail
from pagelog.trail.statements import TABLES as OF_TRAIL
from postgres import postgres
from service import PATIENCE, SOURCE, put

OLDER = """
CREATE TABLE pagelog_log (id {serial} NOT NULL, name VARCHAR(200) NOT NULL, format INTEGER NOT NULL, archived BIGINT NOT NULL,
  epoch BIGINT NOT NULL, PRIMARY KEY (id), UNIQUE (name));
CREATE TABLE pagelog_block (log INTEGER NOT NULL, lsn BIGINT NOT NULL, crc BIGINT NOT NULL, data {bytes} NOT NULL, PRIMARY KEY (log, lsn),
  FOREIGN KEY(log) REFERENCES pagelog_log (id));
CREATE TABLE pagelog_trail_list (id {serial} NOT NULL, log VARCHAR(200) NOT NULL, run INTEGER NOT NULL, format INTEGER NOT NULL,
  generation BIGINT NOT NULL, start_primary BIGINT, kept BIGINT NOT NULL, seen BIGINT NOT NULL, pruned BIGINT NOT NULL, digest {bytes} NOT NULL,
  ended VARCHAR(100), ended_seen BIGINT, of_run VARCHAR(120), PRIMARY KEY (id), UNIQUE (log, run));
CREATE TABLE pagelog_trail_seal (log VARCHAR(200) NOT NULL, lsn BIGINT NOT NULL, digest {bytes} NOT NULL, PRIMARY KEY (log, lsn));
CREATE TABLE pagelog_trail_piece (list INTEGER NOT NULL, first BIGINT NOT NULL, count INTEGER NOT NULL, seen BIGINT NOT NULL,
  day VARCHAR(10) NOT NULL, "before" {bytes} NOT NULL, digest {bytes} NOT NULL, data {bytes} NOT NULL, PRIMARY KEY (list, first),
  FOREIGN KEY(list) REFERENCES pagelog_trail_list (id));
CREATE INDEX ix_pagelog_trail_piece_day ON pagelog_trail_piece (day);
CREATE TABLE pagelog_trail_text (list INTEGER NOT NULL, digest VARCHAR(64) NOT NULL, line BIGINT NOT NULL, text {bytes} NOT NULL,
  PRIMARY KEY (list, digest, line), FOREIGN KEY(list) REFERENCES pagelog_trail_list (id))
"""
"""What SQLAlchemy 1.4 made of the tables, by which older versions made them."""
FILES = """
SELECT m.name, c.cid, c.name, c.type, c."notnull", c.dflt_value, c.pk FROM sqlite_master m JOIN pragma_table_info(m.name) c
WHERE m.type = 'table' ORDER BY 1, 2
"""
INDEXES = """
SELECT m.name, l.name, l."unique", l.origin, i.seqno, i.name FROM sqlite_master m JOIN pragma_index_list(m.name) l JOIN pragma_index_info(l.name) i
WHERE m.type = 'table' ORDER BY 1, 2, 5
"""
COLUMNS = """
SELECT table_name::text, column_name::text, data_type::text, character_maximum_length::integer, is_nullable::text, column_default::text
FROM information_schema.columns WHERE table_schema = 'public' ORDER BY table_name, ordinal_position
"""
CONSTRAINTS = """
SELECT conrelid::regclass::text, conname::text, pg_get_constraintdef(oid) FROM pg_constraint WHERE connamespace = 'public'::regnamespace ORDER BY 1, 2
"""
WAITS = "SELECT count(*) FROM pg_stat_activity WHERE wait_event_type = 'Lock' AND datname = current_database()"
PID = "SELECT pg_backend_pid()"


def until(is_so: Callable[[], bool]) -> None:
    """Waits until it is."""
    ends = time.monotonic() + PATIENCE
    while not is_so():
        assert time.monotonic() < ends, "it did not come"
        time.sleep(0.005)


class Databases(unittest.TestCase):
    def setUp(self) -> None:
        self.folder = Path(self.enterContext(tempfile.TemporaryDirectory()))
        self.file = f"sqlite:///{self.folder}/archive.db"
        self.server = postgres().url(f"engine{os.getpid()}_{time.monotonic_ns()}")

    def each(self) -> Iterator[str]:
        """The URL of a new database of each kind."""
        for url in (self.file, self.server):
            with self.subTest(url.partition(":")[0]):
                yield url

    def engine(self, url: str) -> Engine:
        found = engine_of(url)
        self.addCleanup(found.close)
        return found

    def archive(self, url: str, log: str = "0") -> Archive:
        return self.enterContext(Archive(url, log, create=True))

    def trail(self, url: str, log: str = "0") -> Trail:
        return self.enterContext(Trail(url, log, create=True))


def blocks(first: int, last: int) -> list[Block]:
    return [Block.of(lsn, [put(lsn, b"x")]) for lsn in range(first, last + 1)]


class Urls(Databases):
    def test_the_forms_of_older_versions_mean_the_same(self) -> None:
        for url, older in (
            (self.file, ("sqlite+pysqlite:",)),
            (self.server, ("postgresql+psycopg2:", "postgresql+psycopg:")),
        ):
            self.archive(url).keep(blocks(1, 3), 1)
            kind = url.partition(":")[0] + ":"
            for each in older:
                with Archive(url.replace(kind, each, 1)) as archive:
                    self.assertEqual(archive.archived, 3)

    def test_a_file_may_be_a_uri(self) -> None:
        self.archive(self.file).keep(blocks(1, 3), 1)
        with Archive(f"sqlite:///file:{self.folder}/archive.db?mode=rw&uri=true") as archive:
            self.assertEqual(archive.archived, 3)
        self.assertRaises(
            NoArchive, Archive, f"sqlite:///file:{self.folder}/none.db?mode=rw&uri=true"
        )

    def test_a_whole_path_a_part_of_one_and_what_is_in_memory(self) -> None:
        self.assertEqual(parsed_url("sqlite:////a/b.db").name, "/a/b.db")  # type: ignore[union-attr]
        self.assertEqual(parsed_url("sqlite:///b%20c.db").name, f"{os.getcwd()}/b%20c.db")  # type: ignore[union-attr]
        for url in (
            "sqlite://",
            "sqlite:///",
            "sqlite:///:memory:",
            "sqlite:///file::memory:?uri=true",
            "sqlite:///file:x?mode=memory&uri=true",
        ):
            self.assertTrue(is_in_memory(url), url)
            self.assertRaisesRegex(ArchiveError, "in memory is gone", engine_of, url)

    def test_what_is_no_url_says_what_to_write(self) -> None:
        for url, said in (
            ("sqlite://host/a.db", "sqlite:///FILE"),
            ("sqlite:///a.db?timeout=20", "sqlite:///FILE"),
            ("mysql://h/x", "'mysql'"),
            ("postgres://h/x", "'postgres'"),
            ("postgresql://u:SECRET@x@h/d", "%40"),
            ("postgresql://u:p@h:SECRET/d", "%3A"),
            ("postgresql://h/d?SECRET=1", "postgresql://USER@HOST/NAME"),
        ):
            with self.assertRaises(ArchiveError) as raised:
                parsed_url(url)
            self.assertIn(said, str(raised.exception))
            self.assertNotIn("SECRET", str(raised.exception))

    def test_a_password_is_not_shown(self) -> None:
        for url, shown in (
            ("postgresql://u:se%40cret@h/d", "postgresql://u:***@h/d"),
            (
                "postgresql://u@h/d?password=secret&sslmode=require",
                "postgresql://u@h/d?password=***&sslmode=require",
            ),
            ("postgresql://u@h:5432/d", "postgresql://u@h:5432/d"),
        ):
            self.assertEqual(parsed_url(url).shown, shown)

    def test_a_silent_host_is_passed_over(self) -> None:
        """At the first of two psycopg gives up, as of a machine that is off, and does not try the other."""
        connect, tried = BoundConnection.connect, []

        def connected(conninfo: str, **options: Any) -> Any:
            tried.append(conninfo_to_dict(conninfo)["host"].partition(",")[0])
            if tried[-1] == "/silent":
                raise psycopg.errors.ConnectionTimeout("connection timeout expired")
            return connect(conninfo, **options)

        self.enterContext(mock.patch.object(BoundConnection, "connect", connected))
        engine = self.engine(self.server.replace("host=", "host=/silent,"))
        self.assertEqual(
            (engine.value("SELECT 1"), tried), (1, ["/silent", str(postgres().folder)])
        )
        with engine.session(), engine.session():
            self.assertEqual(
                tried[2:], [str(postgres().folder)]
            )  # it stays with the one that answers
        self.assertRaises(
            psycopg.errors.ConnectionTimeout,
            self.engine("postgresql://u@/d?host=/silent,/silent").value,
            "SELECT 1",
        )

    def test_no_other_driver_is_asked_for(self) -> None:
        for file in SOURCE.rglob("*.py"):
            for node in ast.walk(ast.parse(file.read_text())):
                names = (
                    [each.name for each in node.names]
                    if isinstance(node, ast.Import)
                    else [getattr(node, "module", None) or ""]
                )
                self.assertFalse(
                    {name.partition(".")[0] for name in names} & {"sqlalchemy", "psycopg2"}, file
                )


class Older(Databases):
    def made(self, url: str) -> Engine:
        """With the tables that an older version has made."""
        engine = self.engine(url)
        with engine.begin() as session:
            for statement in statements_of([OLDER], engine.types):
                session.change(statement)
        return engine

    def test_its_archives_are_read_and_written(self) -> None:
        for url in self.each():
            engine, [one, two] = self.made(url), blocks(1, 2)
            with engine.begin() as session:
                session.change(
                    "INSERT INTO pagelog_log (name, format, archived, epoch) VALUES ('shop', 1, 1, 7)"
                )
                session.change(
                    "INSERT INTO pagelog_block VALUES (1, 1, %(crc)s, %(data)s)",
                    crc=zlib.crc32(one.data),
                    data=one.data,
                )
            with Archive(url, "shop") as archive:
                self.assertEqual(
                    (archive.archived, archive.epoch, list(archive.blocks())), (1, 7, [one])
                )
                archive.keep([two], 9)
                self.assertEqual((list(archive.blocks()), archive.epoch), ([one, two], 9))
            self.assertEqual([(log.name, log.blocks) for log in logs_of(url)], [("shop", 2)])

    def test_its_trails_are_read_and_written(self) -> None:
        for url in self.each():
            engine = self.made(url)
            with engine.begin() as session:
                session.change("ALTER TABLE pagelog_trail_list DROP COLUMN of_run")
                session.change(
                    "INSERT INTO pagelog_trail_list (log, run, format, generation, kept, seen, pruned, digest) VALUES "
                    "('shop', 1, 1, 0, 0, 5, 0, %(digest)s)",
                    digest=bytes(32),
                )
            with Trail(url, "shop") as trail:
                self.assertEqual(
                    [(one.run, one.seen, one.of) for one in trail.lists()], [(1, 5, None)]
                )
            with Trail(url, "shop", create=True) as trail:
                one = trail.keep(trail.lists()[0], bytes(53), 9)
                self.assertEqual(
                    (one.kept, trail.claim(one, "a/b").of, trail.lists()[0].of), (1, "a/b", "a/b")
                )

    def test_new_tables_are_as_the_older_ones(self) -> None:
        older, newer = f"sqlite:///{self.folder}/older.db", f"sqlite:///{self.folder}/newer.db"
        self.compare(older, newer, FILES, INDEXES)
        self.compare(
            self.server,
            postgres().url(f"newer{time.monotonic_ns()}"),
            COLUMNS,
            CONSTRAINTS,
            "SELECT indexdef FROM pg_indexes WHERE " "schemaname = 'public' ORDER BY indexname",
        )

    def compare(self, older: str, newer: str, *questions: str) -> None:
        first, second = self.made(older), self.engine(newer)
        second.make({**OF_ARCHIVE, **OF_TRAIL})
        for question in questions:
            self.assertEqual(second.rows(question), first.rows(question))
            self.assertGreater(len(first.rows(question)), 5)


class Transactions(Databases):
    def test_what_fails_leaves_nothing_and_the_next_one_goes_on(self) -> None:
        for url in self.each():
            archive = self.archive(url)
            for error in (ValueError, KeyboardInterrupt):
                with self.assertRaises(error), archive.engine.begin() as session:
                    session.change("UPDATE pagelog_log SET archived = 77")
                    raise error
                self.assertEqual(archive.archived, 0)
            with self.assertRaises(archive.engine.error), archive.engine.begin() as session:
                session.change("UPDATE pagelog_log SET archived = 77")
                session.change("SELECT nothing FROM nowhere")
            self.assertEqual(archive.keep(blocks(1, 2), 1), 2)

    def test_a_list_is_begun_with_its_texts_or_not_at_all(self) -> None:
        for url in self.each():
            trail = self.trail(url)
            with mock.patch(
                "pagelog.trail.store.hashlib.sha256", side_effect=OSError
            ), self.assertRaises(OSError):
                trail.begin(start=Start(b"x", 2))
            self.assertEqual(trail.lists(), [])

    def test_values_are_bound(self) -> None:
        for url in self.each():
            name = "it's %s %(log)s :log ? $1; DROP TABLE pagelog_log --"
            archive = self.archive(url, name)
            archive.keep(blocks(1, 300), 1)
            self.assertEqual(
                ([log.name for log in logs_of(url)], drop(archive), logs_of(url)), ([name], 300, [])
            )
            with self.assertRaisesRegex(ArchiveError, "a row of the archive is gone"):
                archive.epoch

    def test_texts_of_a_database_without_an_encoding_are_texts(self) -> None:
        name = f"plain{time.monotonic_ns()}"
        postgres().run(
            "createdb",
            "-h",
            postgres().folder,
            "-U",
            "pagelog",
            "-E",
            "SQL_ASCII",
            "-T",
            "template0",
            name,
        )
        url = f"postgresql://pagelog@/{name}?host={postgres().folder}"
        self.archive(url, "Läden")
        trail = self.trail(url, "Läden")
        trail.end(trail.begin(), "über", 1)
        self.assertEqual(
            ([log.name for log in logs_of(url)], trail.lists()[0].ended), (["Läden"], "über")
        )

    def test_who_is_second_keeps_nothing(self) -> None:
        for url in self.each():
            one, two = self.trail(url), self.trail(url)
            begun = one.begin()
            with mock.patch.object(two, "lists", return_value=[]), mock.patch.object(
                two.engine, "value", return_value=0
            ):
                self.assertRaises(OtherKeeper, two.begin)
            one.keep(begun, bytes(53), 1)
            self.assertRaises(OtherKeeper, two.keep, begun, bytes(53), 1)
            one.keep_seal(1, bytes(32))
            self.assertRaises(OtherKeeper, two.keep_seal, 1, bytes(32))

    def test_a_list_of_another_run_is_not_changed(self) -> None:
        """PostgreSQL went back, and has given the number of a row again."""
        for url in self.each():
            trail = self.trail(url)
            old = trail.begin(of="a/1")
            with trail.engine.begin() as session:
                session.change("UPDATE pagelog_trail_list SET of_run = 'a/2'")
            trail.end(old, "over", 1)
            trail.claim(old, "a/3")
            self.assertRaises(OtherKeeper, trail.keep, old, bytes(53), 1)
            self.assertEqual(
                [(one.of, one.ended, one.kept) for one in trail.lists()], [("a/2", None, 0)]
            )

    def test_in_a_file_the_lock_is_had_from_the_beginning(self) -> None:
        """Who reads first and writes then could not wait for the lock any more: SQLite refuses at once what comes behind another's change."""
        engine, began = self.archive(self.file).engine, []
        with engine.begin(), mock.patch("pagelog.archive.sqlite.BUSY_SECONDS", 0):
            with self.assertRaisesRegex(sqlite3.OperationalError, "locked"), engine.begin():
                began.append(1)
            self.assertEqual(
                (began, engine.value("SELECT count(*) FROM pagelog_log")), ([], 1)
            )  # who reads waits for nobody

    def test_in_postgresql_an_archiver_waits_for_another_and_keeps_nothing(self) -> None:
        archive, said = self.archive(self.server), []

        def keep() -> None:
            try:
                archive.keep(blocks(1, 2), 1)
            except OtherArchiver as error:
                said.append(error)

        thread = threading.Thread(target=keep)
        with archive.engine.begin() as session:
            self.assertEqual(session.change(MOVE, log=archive.id, before=0, last=1, epoch=1), 1)
            thread.start()
            until(lambda: archive.engine.value(WAITS) == 1)
        thread.join(PATIENCE)
        self.assertEqual((len(said), archive.archived, archive.bytes()), (1, 1, 0))

    def test_a_file_is_on_the_disk_when_a_commit_returns(self) -> None:
        with self.archive(self.file).engine.session() as session:
            self.assertEqual(
                [
                    session.value(f"PRAGMA {word}")
                    for word in ("synchronous", "journal_mode", "busy_timeout")
                ],
                [2, "wal", 4000],
            )

    def test_a_recorder_asks_for_what_postgresql_knows(self) -> None:
        """Its statement is of this engine too."""
        recorder = Recorder.__new__(Recorder)
        of, served = mock.Mock(database="00000000-0000-0000-0000-000000000001"), mock.Mock(
            database="shop", generation=1, run="r"
        )
        engine = self.engine(self.server)
        with engine.begin() as session:
            session.change("CREATE TABLE pagelog_log (id integer, name text, identity uuid)")
            session.change(
                "CREATE TABLE pagelog_generation (log integer, generation bigint, run text)"
            )
            session.change(
                "INSERT INTO pagelog_log VALUES (1, 'shop', '00000000-0000-0000-0000-000000000001')"
            )
            session.change("INSERT INTO pagelog_generation VALUES (1, 1, 'r')")
        recorder._trails, recorder._served, recorder._of = mock.Mock(engine=engine), served, of
        recorder._check_name()
        served.run = "another"
        self.assertRaises(OtherKeeper, recorder._check_name)


class Sessions(Databases):
    def test_connections_are_used_again_and_are_no_ones_at_once(self) -> None:
        engine = self.engine(self.server)
        for _ in range(2):  # new ones, and then those that are kept
            with engine.session() as one, engine.session() as two:
                pids = {one.value(PID), two.value(PID)}
            self.assertEqual(len(pids), 2)
        self.assertLessEqual({engine.value(PID) for _ in range(5)}, pids)

    def test_after_a_restart_of_postgresql_nobody_is_told(self) -> None:
        archive = self.archive(self.server)
        with archive.engine.session(), archive.engine.session():
            pass
        postgres().crash()
        with self.assertRaises(psycopg.OperationalError):
            archive.archived
        postgres().start()
        self.assertEqual(archive.archived, 0)
        with archive.engine.session(), archive.engine.session():
            pass
        postgres().crash()
        postgres().start()
        self.assertEqual(archive.keep(blocks(1, 2), 1), 2)

    def test_a_session_that_ends_amid_a_transaction_keeps_nothing(self) -> None:
        archive = self.archive(self.server)
        with self.assertRaises(psycopg.OperationalError), archive.engine.begin() as session:
            session.change(MOVE, log=archive.id, before=0, last=9, epoch=1)
            archive.engine.rows("SELECT pg_terminate_backend(%(pid)s)", pid=session.value(PID))
        self.assertEqual((archive.archived, archive.keep(blocks(1, 1), 1)), (0, 1))

    def test_a_statement_that_takes_too_long_is_ended(self) -> None:
        engine = self.engine(self.server)
        self.assertEqual(engine.value("SHOW statement_timeout"), "30s")
        with self.assertRaises(psycopg.errors.QueryCanceled), engine.begin() as session:
            pid = session.value(PID)
            session.change("SET LOCAL statement_timeout = 20")
            session.rows("SELECT pg_sleep(1000)")
        self.assertEqual(engine.value(PID), pid)  # it is rolled back, and used again

    def test_a_forked_process_has_sessions_of_its_own(self) -> None:
        for url in self.each():
            archive = self.archive(url)
            pid = archive.engine.value(PID) if url == self.server else None
            child = os.fork()
            if child == 0:
                os._exit(_goes_on(archive, pid))
            self.assertEqual(os.waitstatus_to_exitcode(os.waitpid(child, 0)[1]), 0)
            self.assertEqual((archive.archived, archive.keep(blocks(3, 4), 1)), (2, 4))
            if pid is not None:
                self.assertEqual(archive.engine.value(PID), pid)


def _goes_on(archive: Archive, pid: int | None) -> int:
    """Keeps blocks in a child. 0 where nothing went wrong, and its session is another one."""
    try:
        with ExitStack() as stack:
            stack.callback(archive.close)
            archive.keep(blocks(1, 2), 1)
            return int(pid is not None and archive.engine.value(PID) == pid)
    except BaseException:
        return 2


if __name__ == "__main__":
    unittest.main()
