"""A database all of whose reads are to be audited: page servers answer nobody, and each read is in the audit list of a service."""

from __future__ import annotations

import signal
import subprocess
import sys
import threading
import unittest
from contextlib import closing
from unittest.mock import patch

import pages_program
import psycopg
from keepers import eventually
from pages_made import Made
from pagelog import Connection, Credentials, NamedReader, Operator
from pagelog.errors import ConnectionLost, PagelogError, Unreachable
from pagelog.referee.referee import Referee
from pagelog.referee.rows import PagesRow
from pagelog.keeper.table import token_of
from pagelog.pages.following import Follower, PageServerSettings
from pagelog.pages.process import PagesProcess
from pagelog.pages.reads import audit_reads, let_page_servers_answer
from pagelog.request import Operation
from service import PATIENCE, token
from test_pages import Apart

_LET = "page servers of shop may answer, without an entry for a read\n"
_AUDITED = r"^each read of shop is in the audit list of a service, since 20\d\d-"


class Audited(Apart):
    def gets(self) -> list[tuple[int, int]]:
        """The LSN and the page of each get that was allowed, in the audit list of the service that has the database now."""
        place = self.keeping.place()
        credentials = Credentials(1, token_of(bytes.fromhex(token(1)), "shop", place.run))
        with closing(
            Operator(Connection(place.address, timeout=PATIENCE), credentials)
        ) as operator:
            return [
                (each.a, each.b)
                for each in operator.entries(1)
                if each.operation is Operation.GET and each.principal == 3 and each.is_allowed
            ]

    def answers(self, pages: PagesRow, position: int) -> bool:
        try:
            return self.reader(pages.run, pages.address).page(1, position).at == position
        except (ConnectionLost, Unreachable):
            return False

    def read_at_page_servers(self, reader: NamedReader, position: int) -> None:
        """Until one has answered."""
        assert reader._copies is not None
        before = reader._copies.asked_of

        def is_one() -> bool:
            self.assertEqual(reader.page(1, position).at, position)
            return reader._copies is not None and reader._copies.asked_of > before

        eventually(is_one, "an answer of a page server")

    def test_each_read_is_in_the_list_until_page_servers_may_answer_again(self) -> None:
        with self.keeping.primary() as primary, self.keeping.reader() as reader:
            position = self.commit(primary, 1)
            self.servers()
            self.follows_to(position)
            pages = self.at("here")
            eventually(lambda: self.keeping.place().pages == 1, "that keepers tell of it")
            self.read_at_page_servers(reader, position)
            self.assertEqual(self.run_word("reads", "shop"), (0, _LET))
            status, said = self.run_word("reads", "shop", "--audited")
            self.assertEqual(status, 0, said)
            self.assertRegex(said, _AUDITED + r"\S* [^,]*\n$")
            self.assertFalse(self.answers(pages, position))
            before, asked = len(self.gets()), [(n % 4, position - n % 2) for n in range(20)]
            with self.keeping.reader() as fresh:
                for page, at in asked:
                    self.assertEqual(fresh.page(page, at).at, at)
                for page, at in asked:
                    self.assertEqual(reader.page(page, at).at, at)
            shift = self.keeping.place().shift
            wanted = [(at - shift, page) for page, at in asked]
            self.assertEqual(self.gets()[before:], [*wanted, *wanted])
            self.assertEqual(self.run_word("reads", "shop"), (0, said))
            later = self.commit(primary, 2)
            self.follows_to(later)  # it has it, and nobody is led there
            self.assertEqual(self.keeping.place().pages, 0)
            self.assertFalse(self.answers(pages, position))
            self.assertEqual(self.run_word("reads", "shop", "--unaudited"), (0, _LET))
            eventually(lambda: not self.at("here").has_ended, f"it again: {self.said}")
            eventually(lambda: self.answers(self.at("here"), later), "its answers")
            eventually(lambda: self.keeping.place().pages == 1, "that keepers tell of it")
            self.read_at_page_servers(reader, later)
            self.assertEqual(self.run_word("reads", "shop"), (0, _LET))
        self.assertIn("shop: reads are audited: it follows, and answers nobody", self.said)

    def test_one_that_is_cut_off_is_named(self) -> None:
        with self.keeping.primary() as primary:
            position = self.commit(primary, 1)
        self.servers()
        cut_off = self.apart()
        here, there = self.at("here"), self.at("there")
        cut_off.send_signal(signal.SIGSTOP)  # its program goes on answering
        status, said = self.run_word("reads", "shop", "--audited")
        self.assertEqual(status, 3, said)
        self.assertRegex(said, _AUDITED + r".*, but at 1 of its page servers:\n")
        self.assertIn(
            f"\npage server {there.run} at there, {there.address}, heard ",
            said,
        )
        self.assertIn(" s ago: it may answer until it reaches PostgreSQL, ", said)
        self.assertEqual(
            [self.answers(each, position) for each in (here, there)], [False, True], said
        )
        self.assertEqual(self.run_word("reads", "shop")[0], 3)
        cut_off.send_signal(signal.SIGCONT)
        self.assertEqual(self.run_word("reads", "shop", "--audited")[0], 0)
        self.assertFalse(self.answers(there, position))
        cut_off.kill()
        cut_off.wait()
        self.apart()  # begins again, and answers nobody
        eventually(lambda: self.row_of(there.run).beat > there.beat + 1, "it again")
        self.assertEqual(self.run_word("reads", "shop", "--audited")[0], 0)
        self.assertTrue(self.row_of(there.run).has_ended)

    def row_of(self, run: str) -> PagesRow:
        look = self.keeping.referee.everything()
        return next(each for each in look.pages if each.run == run)

    def test_one_of_an_older_version_is_named_though_it_lives(self) -> None:
        with self.keeping.primary() as primary:
            self.commit(primary, 1)
        older = Made(self.keeping, "old", self.keeping.archive())  # it looks at nothing
        self.addCleanup(older.end)
        status, said = self.run_word("reads", "shop", "--audited", "--within", 1)
        self.assertEqual(status, 3, said)
        self.assertIn(f"page server {older.run} at old, {older.address}", said)

    def test_another_lets_go_meanwhile(self) -> None:
        with self.keeping.primary() as primary:
            self.commit(primary, 1)
        older = Made(self.keeping, "old", self.keeping.archive())
        self.addCleanup(older.end)
        words = ["reads", "shop", "--audited", "--within", "3600"]
        command = [sys.executable, "-m", "pagelog", *words, "--credentials", self.keeping.file]
        with subprocess.Popen(
            list(map(str, command)),
            stderr=subprocess.PIPE,
            text=True,
            env=self.keeping.environment,
        ) as waits:
            eventually(lambda: self.run_word("reads", "shop")[0] == 3, "that it waits")
            self.assertEqual(self.run_word("reads", "shop", "--unaudited"), (0, _LET))
            older.end()
            said = waits.communicate(timeout=PATIENCE)[1]
        self.assertEqual(waits.returncode, 3, said)
        self.assertIn("another has let page servers of shop answer", said)
        self.assertEqual(self.run_word("reads", "shop"), (0, _LET))
        self.assertIn("there is no database ship", self.run_word("reads", "ship")[1])


class Between(Apart):
    """The word comes between what a page server asks and what it does then. It is given step by step here."""

    def setUp(self) -> None:
        super().setUp()
        with self.keeping.primary() as primary:
            self.commit(primary, 1)
        self.folder.mkdir()
        self.tables = 0
        set_table = PagesProcess.set_table

        def counted(process: PagesProcess, text: str) -> None:
            self.tables += 1
            set_table(process, text)

        self.enterContext(patch.object(PagesProcess, "set_table", counted))

    def follower(self) -> Follower:
        settings = PageServerSettings(
            pages_program.program(),
            self.folder,
            "127.0.0.1",
            "here",
            ("--cache", "8", "--memtable", "1"),
        )
        referee = self.enterContext(closing(Referee(self.keeping.url)))
        made = Follower(settings, referee, "shop", self.keeping.row().identity, lambda *_: None)
        self.addCleanup(made._stop)
        self.addCleanup(made._bell.end)
        return made

    def test_what_is_asked_for_after_its_first_look_is_seen(self) -> None:
        follower, fill = self.follower(), Follower._fill

        def between(it: Follower) -> None:
            audit_reads(self.keeping.referee, self.keeping.row())
            fill(it)

        with patch.object(Follower, "_fill", between):
            follower._begin()
        self.assertEqual(self.tables, 0)
        self.assertTrue(self.at_row().has_ended)

    def at_row(self) -> PagesRow:
        [found] = self.keeping.referee.everything().pages_of(self.keeping.row().id)
        return found

    def test_it_asks_once_its_row_says_that_it_may_answer(self) -> None:
        """Its statement has begun, and is not committed: nobody sees what its row will say."""
        follower, row = self.follower(), self.keeping.row()
        audit_reads(self.keeping.referee, row)
        follower._begin()
        self.assertTrue(let_page_servers_answer(self.keeping.referee, row))
        follower._look()
        with psycopg.connect(self.keeping.url) as session:
            session.execute("SELECT 1 FROM pagelog_pages FOR UPDATE")
            faults: list[PagelogError] = []

            def catch_up() -> None:
                try:
                    follower._catch_up()
                except PagelogError as error:
                    faults.append(error)

            thread = threading.Thread(target=catch_up)
            thread.start()
            eventually(lambda: self.waiting() == 1, "that it waits for its row")
            status, said = self.run_word("reads", "shop", "--audited")
            self.assertEqual(status, 0, said)
            session.rollback()
            thread.join(PATIENCE)
        self.assertEqual((faults, self.tables), ([], 0))
        self.assertTrue(self.at_row().has_ended)
        self.assertTrue(let_page_servers_answer(self.keeping.referee, row))
        follower._look()
        follower._catch_up()
        self.assertEqual(self.tables, 1)
        self.assertFalse(self.at_row().has_ended)

    def waiting(self) -> int:
        """Statements that wait for a row of page servers."""
        with psycopg.connect(self.keeping.url, autocommit=True) as session:
            [[count]] = session.execute(
                "SELECT count(*) FROM pg_stat_activity WHERE datname = current_database() AND wait_event_type = 'Lock'"
                " AND query LIKE '%pagelog_pages%' AND pid <> pg_backend_pid()"
            ).fetchall()
            return int(count)


if __name__ == "__main__":
    unittest.main()
