"""A service that waits for its restore, and lets nobody else in before."""

from __future__ import annotations

import contextlib
import io
import os
import stat
import subprocess
import tempfile
import threading
import unittest
from pathlib import Path
from typing import IO, Any
from unittest import mock

import pagelog
from pagelog.archive import Archive
from pagelog.archive.archiving import Archiver
from pagelog.audit_list import AuditRoom
from pagelog.comparing import all_blocks
from pagelog.cli.archive_words import ArchiveFollower
from pagelog.cli.options import NOT_YET
from pagelog.fencing import ListGuard
from pagelog.restoring import set_real_table
from pagelog.errors import TableError
from pagelog.tables import TableText
from service import PATIENCE, TABLE, WIDE_TABLE, Service, fill, put, token
from test_archive import words

SIX = "copies = 6\nquorum = 4\n"


def said(process: subprocess.Popen[str]) -> tuple[int, str, str]:
    out, error = process.communicate(timeout=PATIENCE)
    return process.returncode, out, error


class Archived(unittest.TestCase):
    """A service of a hundred blocks, its archive, and the table that waits for its restore."""

    def setUp(self) -> None:
        self.folder = Path(self.enterContext(tempfile.TemporaryDirectory()))
        self.url = f"sqlite:///{self.folder}/archive.db"
        self.service = self.enterContext(Service(table=WIDE_TABLE))
        with self.service.primary() as primary, self.service.reader() as reader, Archive(
            self.url, create=True
        ) as archive:
            fill(primary, 100)
            Archiver(reader, archive).run(follow=False)
        self.waiting, self.keys = self.folder / "waiting.toml", self.folder / "restore.toml"

    def make(self) -> None:
        done = said(
            words(
                "waiting-table",
                self.service.table,
                "--credentials",
                self.service.credentials_file(),
                "--out",
                self.waiting,
                "--keys",
                self.keys,
            )
        )
        self.assertEqual(done, (0, "", ""))

    def start_with_the_waiting_table(self) -> None:
        self.service.words[self.service.words.index("--table") + 1] = str(self.waiting)
        self.service.restart()


class Waiting(Archived):
    def test_an_application_that_goes_on_trying_does_not_disturb_the_restore(self) -> None:
        self.make()
        self.start_with_the_waiting_table()
        done, told = threading.Event(), []

        def application() -> None:
            """Fails over and writes as soon as it is let in, as a framework does that opens again after an error."""
            while not done.is_set():
                try:
                    with self.service.operator() as operator:
                        writer = pagelog.Primary.take_over(
                            self.service.connection(), pagelog.Credentials.of(2, token(2)), operator
                        )
                        writer.append(put(50, b"the application"))
                        told.append(writer.commit())
                        writer.close()
                        return
                except pagelog.PagelogError as error:
                    told.append(type(error))

        thread = threading.Thread(target=application)
        thread.start()
        try:
            while not told:
                done.wait(0.01)
            with self.service.operator() as operator, self.assertRaises(pagelog.UnknownPrincipal):
                operator.status()
            status, out, error = said(
                words(
                    "restore",
                    "--credentials",
                    self.keys,
                    "--url",
                    self.url,
                    "--table",
                    self.service.table,
                )
            )
            thread.join(PATIENCE)
        finally:
            done.set()
        self.assertEqual((status, error), (0, ""))
        self.assertRegex(out, r"^restored 100: 100 blocks and ")
        self.assertEqual((set(told[:-1]), told[-1]), ({pagelog.UnknownPrincipal}, 101))
        # The restore's own tokens are good for nothing any more.
        status, _, error = said(words("status", "--credentials", self.keys))
        self.assertEqual(status, 1)

    def test_the_files_are_private_and_the_tokens_new(self) -> None:
        before = os.umask(0)
        self.addCleanup(os.umask, before)
        self.make()
        for file in (self.waiting, self.keys):
            self.assertEqual(stat.S_IMODE(file.stat().st_mode), 0o600)
            self.assertFalse(any(token(id) in file.read_text() for id in range(1, 6)))
        first = self.waiting.read_text()
        self.make()
        self.assertNotEqual(self.waiting.read_text(), first)

    def test_a_restore_that_is_killed_before_the_table_is_set_may_be_run_again(self) -> None:
        self.make()
        self.start_with_the_waiting_table()
        for table in ((), ("--table", self.service.table)):
            status, _, error = said(
                words("restore", "--credentials", self.keys, "--url", self.url, *table)
            )
            self.assertEqual((status, error), (0, ""))
        self.assertEqual(self.service.operator().status().hard, 100)

    def test_a_table_whose_reply_was_lost_is_set(self) -> None:
        with self.service.operator() as operator:
            real = operator.set_table

            def lose(text: str) -> None:
                real(text)
                operator.credentials = pagelog.Credentials.of(1, "ab" * 16)
                operator._head = None
                operator.set_table = real  # type: ignore[method-assign]
                raise pagelog.InDoubt("the connection was lost")

            operator.set_table = lose  # type: ignore[method-assign, assignment]
            set_real_table(operator, WIDE_TABLE)


class Followers(Archived):
    """What follows a service, and is denied A1 while the next one waits for its restore."""

    def restore(self) -> None:
        status, _, error = said(
            words(
                "restore",
                "--credentials",
                self.keys,
                "--url",
                self.url,
                "--table",
                self.service.table,
            )
        )
        self.assertEqual((status, error), (0, ""))

    def wait_for(self, stream: IO[str] | None, text: str) -> None:
        assert stream is not None
        while text not in (line := stream.readline()):
            self.assertTrue(line, f"it ended, and did not say {text!r}")

    def test_an_archiver_and_readers_of_the_audit_list_wait_for_it(self) -> None:
        self.make()
        file = self.service.credentials_file()
        archives = words("archive", "--follow", "--credentials", file, "--url", self.url)
        audits = words(
            "audit",
            "--follow",
            "--denied",
            "--first",
            "-1",
            "--credentials",
            file,
            PYTHONUNBUFFERED="1",
        )
        records = words(
            "record", "shop", "--follow", "--idle", "0.1", "--credentials", file, "--url", self.url
        )
        self.wait_for(archives.stdout, "archived 100 of 100")
        self.wait_for(records.stdout, "of list 1")
        with self.service.operator() as operator, self.assertRaises(pagelog.OlderEpoch):
            operator.failover(2)
            operator.failover(2, epoch=1)
        self.wait_for(audits.stdout, "OlderEpoch")
        self.start_with_the_waiting_table()
        for process in (archives, audits, records):
            self.wait_for(process.stderr, NOT_YET)
        self.restore()
        with self.service.primary() as primary:
            fill(primary, 7, seed=2)
        self.wait_for(archives.stdout, "archived 107 of 107")
        self.wait_for(audits.stderr, "here its new list begins")
        self.wait_for(records.stdout, "of list 2")
        for process in (archives, audits, records):
            process.terminate()
            status, _, error = said(process)
            self.assertEqual((status, NOT_YET in error), (0, False))
        with self.service.reader() as reader, Archive(self.url) as archive:
            self.assertEqual(list(archive.blocks()), list(all_blocks(reader, 1, 107)))

    def follower(self, archive: Archive, reader: pagelog.Reader, **guard: Any) -> ArchiveFollower:
        archiver = Archiver(reader, archive)
        return ArchiveFollower(
            archiver, 0.1, self.ends, ListGuard(archiver=archiver, **guard) if guard else None
        )

    def ends(self) -> bool:
        self.asked += 1
        return self.asked > 2

    asked = 0

    def test_what_was_seen_and_not_archived_is_lost_with_the_service(self) -> None:
        self.make()
        with self.service.reader() as reader, self.service.operator() as operator, Archive(
            self.url
        ) as archive:
            follower = self.follower(archive, reader, room=AuditRoom(operator))
            with self.service.primary() as primary:
                fill(primary, 5)
            self.assertEqual((reader.status().hard, operator.status().hard), (105, 105))
            self.start_with_the_waiting_table()
            with mock.patch("time.sleep"), contextlib.redirect_stderr(io.StringIO()) as told:
                follower.follow()
                follower.follow()
            self.assertEqual(told.getvalue(), f"pagelogctl: {NOT_YET}\n")
            self.restore()
            follower.follow()
            self.assertEqual((follower.archiver.archived, operator.status().hard), (100, 100))

    def test_a_service_that_is_let_in_and_was_not_restored_is_told(self) -> None:
        self.make()
        with self.service.reader() as reader, Archive(self.url) as archive, mock.patch(
            "time.sleep"
        ):
            follower = self.follower(archive, reader)
            follower.follow()
            self.start_with_the_waiting_table()
            with contextlib.redirect_stderr(io.StringIO()):
                follower.follow()
            self.waiting.write_text(WIDE_TABLE)
            self.service.restart()
            self.assertRaises(pagelog.LogWentBack, follower.follow)

    def test_a_token_that_was_never_right_is_not_waited_for(self) -> None:
        wrong = pagelog.Credentials.of(3, "ab" * 16), pagelog.Credentials.of(1, "ab" * 16)
        with self.service.reader() as reader, self.service.operator() as operator, Archive(
            self.url
        ) as archive:
            guard = {"room": AuditRoom(operator), "fence_at": 1, "table": TableText(WIDE_TABLE)}
            with self.assertRaises(pagelog.UnknownPrincipal):
                operator.credentials = wrong[1]
                self.follower(archive, reader, **guard).follow()
            self.assertEqual((reader.was_let_in, operator.was_let_in), (True, False))
        with self.service.reader() as reader, Archive(self.url) as archive, self.assertRaises(
            pagelog.UnknownPrincipal
        ):
            reader.credentials = wrong[0]
            self.follower(archive, reader).follow()

    def test_an_operator_that_was_let_in_is_not_blind_afterwards(self) -> None:
        self.make()
        with self.service.reader() as reader, self.service.operator() as operator, Archive(
            self.url
        ) as archive:
            guard = ListGuard(AuditRoom(operator), Archiver(reader, archive))
            guard.check()
            self.start_with_the_waiting_table()
            guard.room._next_look = 0.0
            self.assertRaises(pagelog.UnknownPrincipal, guard.check)


class Tables(unittest.TestCase):
    """Tables that are made of others, judged by a service."""

    def test_writes_are_denied_to_all_and_nothing_else_is(self) -> None:
        with Service(
            table=WIDE_TABLE
        ) as service, service.operator() as operator, service.primary() as primary, service.reader() as reader:
            fill(primary, 3)
            operator.set_table(TableText(WIDE_TABLE).without_writes())
            primary.append(put(0, b"no"))
            with self.assertRaises(pagelog.TableRow) as raised:
                primary.commit()
            self.assertEqual(raised.exception.row, 1)
            self.assertEqual((len(reader.pages((1, 2), 3)), reader.status().hard), (2, 3))
            with self.assertRaises(pagelog.TableRow):
                reader.page(7 * 65536, 3)  # the real table's row

    def test_only_two_are_let_in(self) -> None:
        with Service(table=WIDE_TABLE) as service, service.operator() as operator:
            before = operator.count_of_entries()
            operator.set_table(TableText(WIDE_TABLE).only_for(1, 3))
            with service.primary() as primary, self.assertRaises(pagelog.UnknownPrincipal):
                primary.status()
            self.assertEqual(service.reader().status().hard, 0)
            self.assertLess(operator.count_of_entries(before), before + 80)

    def test_what_no_table_can_be_made_of(self) -> None:
        for text in (
            "[[principal",
            "principal = 1\n",
            'row = "x"\n',
            "x = 1\n",
            "",
            "principal = [1]\n",
        ):
            with self.subTest(text), self.assertRaises(TableError):
                TableText(text)
        with self.assertRaisesRegex(TableError, "does not list principal 1 and principal 9"):
            TableText(WIDE_TABLE).only_for(1, 9)
        rows = '[[row]]\nverdict = "allow"\n' * 256
        with self.assertRaisesRegex(TableError, "256 rows"):
            TableText(WIDE_TABLE.partition("[[row]]")[0] + rows).without_writes()
        with self.assertRaises(TableError):
            TableText.read("/dev/null/none")

    def test_copies_and_quorum_are_kept(self) -> None:
        table = TableText(SIX + TABLE.read_text())
        for text in (table.without_writes(), table.only_for(1, 3)):
            made = TableText(text)
            self.assertEqual((made.document["copies"], made.document["quorum"]), (6, 4))
        self.assertEqual(made.principals, [{"id": id, "token": token(id)} for id in (1, 3)])


if __name__ == "__main__":
    unittest.main()
