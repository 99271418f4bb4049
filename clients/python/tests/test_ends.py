"""What fills, hangs or is told to end: audit lists, a PostgreSQL that is silent, signals and keys."""

from __future__ import annotations

import contextlib
import io
import json
import os
import pty
import re
import signal
import subprocess
import sys
import threading
import time
import unittest
from unittest import mock

import psycopg

import pagelog
from pagelog import Block
from pagelog.archive import archiving
from pagelog.archive import postgres as archive_postgres
from pagelog.archive import Archive
from pagelog.archive.engine import engine_of
from pagelog.archive.archiving import Archiver
from pagelog.audit_list import AuditFollower, AuditRoom
from pagelog.cli import archive_words
from pagelog.cli.archive_words import ArchiveFollower
from pagelog.fencing import ListGuard
from pagelog.request import Pull, Write
from pagelog.tables import TableText
from postgres import SilentProxy, postgres
from service import PATIENCE, SOURCE, TABLE, Service, all_that_is_drawn, fill, put, stand_still
from test_archive import Folder, words


class Lists(Folder):
    """A writer goes on until it is denied, while an archiver follows."""

    def write_until_denied(
        self, service: Service, told: list[object], archive: Archive | None = None
    ) -> threading.Thread:
        """With an archive it is never far ahead of that, however long the archiver has to wait for a processor."""

        def write() -> None:
            with service.primary() as primary:
                try:
                    while True:
                        primary.append(put(1, b"on and on"))
                        primary.commit()
                        while archive is not None and primary.durable > archive.archived + 50:
                            time.sleep(0.001)
                except pagelog.PagelogError as error:
                    told[:] = [primary.durable, error]

        thread = threading.Thread(target=write, daemon=True)
        thread.start()
        return thread

    def test_a_database_is_fenced_while_all_can_still_be_archived(self) -> None:
        with Service(audit=3000) as small:
            told: list[object] = []
            file = small.credentials_file(audit=3000)
            archiver = words(
                "archive",
                "--follow",
                "--idle",
                "0.05",
                "--credentials",
                file,
                "--url",
                self.url,
                "--fence-at",
                "1200",
                "--table",
                small.table,
            )
            assert archiver.stdout is not None
            self.assertEqual(archiver.stdout.readline(), "archived 0 of 0\n")
            writer = self.write_until_denied(small, told, self.archive())
            out, error = archiver.communicate(timeout=PATIENCE)
            writer.join(PATIENCE)
            self.assertEqual(archiver.returncode, 4, out + error)
            self.assertIn("the database is fenced in epoch 2", error)
            durable, denial = told
            self.assertIsInstance(denial, (pagelog.UnknownPrincipal, pagelog.InDoubt))
            archived = self.archive().archived
            self.assertGreaterEqual(archived, durable)  # type: ignore[operator]
            self.assertEqual(out.splitlines()[-1], f"archived {archived} of {archived}")
            with small.operator() as operator:
                self.assertEqual(operator.status().hard, archived)
                operator.set_table(TABLE.read_text())  # and the operator may open it again

    def test_without_a_fence_the_status_says_which(self) -> None:
        with Service(audit=1500) as small:
            told: list[object] = []
            archiver = words(
                "archive",
                "--follow",
                "--idle",
                "0.05",
                "--credentials",
                small.credentials_file(audit=1500),
                "--url",
                self.url,
            )
            writer = self.write_until_denied(small, told)
            out, error = archiver.communicate(timeout=PATIENCE)
            writer.join(PATIENCE)
        self.assertEqual((archiver.returncode, "AuditListFull" in error), (4, True), out + error)

    def test_what_a_fence_wants(self) -> None:
        out = words(
            "archive",
            "--credentials",
            self.service.credentials_file(),
            "--url",
            self.url,
            "--fence-at",
            "9",
        ).communicate()
        self.assertIn("--fence-at needs --follow, --table FILE, and [operator]", out[1])

    def test_the_backlog_counts_before_the_number_does(self) -> None:
        with self.service.operator() as operator:
            fill(self.primary, 800)
            archiver = Archiver(self.reader, self.archive())
            archiver.reader.status()
            self.assertEqual(archiver.entries_wanted, 50 + 64)
            seconds, warned = [0.0], []
            entries = operator.count_of_entries()
            room = AuditRoom(operator, entries + 5000, clock=lambda: seconds[0])
            guard = ListGuard(
                room,
                archiver,
                fence_at=1,
                table=TableText.read(TABLE),
                warn=warned.append,
                clock=lambda: seconds[0],
            )
            self.assertFalse(guard.check())
            room.limit = operator.count_of_entries() + 120
            seconds[0] = 100.0
            self.assertTrue(guard.check())
            self.assertEqual(guard.fenced, 2)
            self.assertEqual(archiver.run(follow=False), 800)

    def test_what_a_quorum_holds_is_hardened_by_the_fence(self) -> None:
        """A writer's two writes were done, and its report comes too late."""
        with self.service.operator() as operator:
            fill(self.primary, 5)
            for copy in (0, 1):
                self.primary._ask(Write(copy, Block.of(6, [put(1, b"written")])))
            archiver = Archiver(self.reader, self.archive())
            guard = ListGuard(
                AuditRoom(operator, 1000), archiver, fence_at=999, table=TableText.read(TABLE)
            )
            self.assertTrue(guard.check())
            with self.assertRaises(pagelog.UnknownPrincipal):
                self.primary.status()
            self.assertEqual(archiver.run(follow=False), 6)

    def test_an_operator_that_may_not_look_is_said_once(self) -> None:
        with self.service.operator() as operator:
            operator.set_table(
                TABLE.read_text().replace(
                    "[[row]]", '[[row]]\nverdict = "deny"\nwho = 1\nop = ["audit"]\n[[row]]', 1
                )
            )
            archiver, warned = Archiver(self.reader, self.archive()), []
            guard = ListGuard(AuditRoom(operator), archiver, warn=warned.append)
            self.assertEqual([guard.check() for _ in range(3)], [False] * 3)
            self.assertRegex(
                "|".join(warned), r"^it is not known how full the audit list is: denied B1 [^|]*$"
            )
            with self.assertRaises(pagelog.TableRow):
                ListGuard(AuditRoom(operator), archiver, table=TableText.read(TABLE)).check()

    def test_after_a_fence_it_ends_once_all_is_archived(self) -> None:
        """The connection is lost after the fence, before it is known how much is left."""
        guard = mock.Mock(fenced=2)
        archiver = mock.Mock(
            lag=0,
            **{
                "run.side_effect": [pagelog.ConnectionLost("cut"), psycopg.OperationalError("x"), 7]
            },
        )
        with mock.patch("time.sleep"), contextlib.redirect_stderr(io.StringIO()):
            ArchiveFollower(archiver, 0.1, lambda: False, guard).run()
        self.assertEqual([call.kwargs["follow"] for call in archiver.run.mock_calls], [False] * 3)

    def test_it_warns_once_a_minute(self) -> None:
        with self.service.operator() as operator:
            archiver, seconds, warned = Archiver(self.reader, self.archive()), [1000.0], []
            room = AuditRoom(operator, operator.count_of_entries() + 500, clock=lambda: seconds[0])
            guard = ListGuard(room, archiver, warn=warned.append, clock=lambda: seconds[0])
            for _ in range(100):
                self.assertFalse(guard.check())
                seconds[0] += 1.2
            self.assertEqual(len(warned), 2)
            self.assertRegex(
                warned[0],
                r"^the audit list has \d+ entries left of \d+.*; 0 blocks are not archived, which want 64: move the database$",
            )

    def test_blocks_that_come_count_before_the_next_look(self) -> None:
        with self.service.operator() as operator:
            fill(self.primary, 20)
            archiver = Archiver(self.reader, self.archive())
            archiver.run(follow=False)
            room = AuditRoom(operator, operator.count_of_entries() + 6000, clock=lambda: 0.0)
            guard = ListGuard(
                room, archiver, fence_at=3000, table=TableText.read(TABLE), clock=lambda: 0.0
            )
            self.assertFalse(guard.check())
            looked = room.room
            fill(self.primary, 50)
            archiver.run(follow=False)
            self.assertFalse(guard.check())
            self.assertIs(room.room, looked)  # 150 entries of 6,000 are no reason to look
            fill(self.primary, 1000)
            archiver.run(follow=False)
            self.assertTrue(guard.check())

    def test_a_look_at_the_room_is_seldom_while_there_is_much(self) -> None:
        seconds = [0.0]
        with self.service.operator() as operator:
            room = AuditRoom(operator, 1 << 24, clock=lambda: seconds[0])
            room.look()
            seconds[0] = 2.0
            first = room.look()
            count = operator.count_of_entries()
            for at in range(50):
                seconds[0] = 3.0 + at / 2
                self.assertIs(room.look(), first)
            self.assertLess(operator.count_of_entries() - count, 40)
            seconds[0] = 70.0
            self.assertIsNot(room.look(), first)

    def test_a_list_that_is_shorter_than_it_was_is_counted_from_its_beginning(self) -> None:
        with self.service.operator() as operator:
            self.assertIn(
                operator.count_of_entries(5000) - operator.count_of_entries(0), range(-60, 0)
            )


class Rates(Folder):
    """How many entries an archiver takes, in a time that passes as it waits."""

    def entries_of_both(
        self, commits_a_second: float, idle: float, seconds: float
    ) -> tuple[int, int]:
        """Entries of an archiver, and how many commits there were, in so many seconds."""
        passed, committed, due = 0.0, 0, 0.0

        def sleep(wait: float, _: object) -> None:
            nonlocal passed, committed, due
            passed += wait
            while due <= passed:
                self.primary.append(put(0, b"x"))
                self.primary.commit()
                committed, due = committed + 1, due + 1 / commits_a_second

        with self.service.operator() as operator, self.service.reader() as reader, mock.patch.object(
            archiving, "sleep", sleep
        ):
            first = operator.count_of_entries() + 1
            Archiver(reader, self.archive()).run(
                follow=True, idle=idle, stop=lambda: passed >= seconds
            )
            return sum(entry.principal == 3 for entry in operator.entries(first)), committed

    def test_it_takes_fewer_entries_than_the_writers(self) -> None:
        for rate, idle, most in (
            (5, 1.0, 1.2),
            (50, 1.0, 0.3),
            (150, 1.0, 0.15),
            (5, 30.0, 0.15),
            (1, 1.0, 3.0),
        ):
            with self.subTest(rate=rate, idle=idle):
                self.setUp()
                own, commits = self.entries_of_both(rate, idle, 60.0 if idle > 1 else 12.0)
                self.assertGreater(commits, 11)
                self.assertLess(own / commits, most)

    def test_one_line_a_second_at_most(self) -> None:
        seconds, lines = [100.0], []
        follower = ArchiveFollower(mock.Mock(), 0.1, lambda: False)
        with mock.patch.object(
            archive_words.time, "monotonic", lambda: seconds[0]
        ), mock.patch.object(
            archive_words, "_tell", lambda *told: lines.append((seconds[0], *told[:2]))
        ):
            for at in range(1, 401):
                seconds[0] += 0.01
                follower.tell(at, at)
            for _ in range(200):
                seconds[0] += 0.01
                follower.tell(400, 400)
        self.assertEqual(lines[-1][1:], (400, 400))
        self.assertLessEqual(len(lines), 6)
        self.assertEqual(len({line[1:] for line in lines}), len(lines))

    def test_it_says_that_it_runs(self) -> None:
        Archiver(self.reader, self.archive()).run(follow=False)
        process = words(
            "archive",
            "--follow",
            "--credentials",
            self.service.credentials_file(),
            "--url",
            self.url,
        )
        assert process.stdout is not None
        self.assertEqual(process.stdout.readline(), "archived 0 of 0\n")
        process.terminate()
        self.assertEqual((process.wait(PATIENCE), process.communicate()[1]), (0, ""))


class Audits(Folder):
    def test_a_new_list_is_followed_from_its_beginning(self) -> None:
        fill(self.primary, 20)
        file = self.service.credentials_file()
        process = words(
            "audit",
            "--credentials",
            file,
            "--follow",
            "--idle",
            "0.05",
            "--json",
            PYTHONUNBUFFERED="1",
        )
        assert process.stdout is not None
        while json.loads(process.stdout.readline())["number"] < 60:
            pass
        self.service.restart()
        with self.service.primary() as primary:
            fill(primary, 100)  # more entries than there were before
            before, numbers = 60, []
            while len(numbers) < 250:
                entry = json.loads(process.stdout.readline())
                if numbers or entry["number"] <= before:
                    numbers.append(entry["number"])
                before = entry["number"]
        self.assertEqual(numbers, list(range(1, 251)))
        process.terminate()
        _, error = process.communicate(timeout=PATIENCE)
        self.assertEqual(process.returncode, 0)
        self.assertIn("the service was restarted, or moved: here its new list begins", error)

    def test_a_list_with_the_same_entries_is_known_by_the_mark(self) -> None:
        with self.service.operator() as operator:
            follower = AuditFollower(operator)
            follower.step()
            for _ in range(30):
                self.reader.answers([Pull(99)])
            last = follower.step()[-1]
            self.service.restart()
            with self.service.reader() as reader, self.service.operator() as other:
                other.audit(7, 1)
                other.audit(1)
                for _ in range(40):
                    reader.answers([Pull(99)])
            self.assertEqual(operator.audit(last.number, 1), (last,))
            operator.connection.close()
            self.assertEqual(follower.step()[0].number, 1)
            self.assertTrue(follower.is_new_list)

    def test_a_beginning_that_the_list_has_not_reached_is_waited_for(self) -> None:
        with self.service.operator() as operator:
            follower = AuditFollower(operator, 300)
            for _ in range(3):
                self.assertEqual((follower.step(), follower.is_new_list), ((), False))
            self.reader.answers([Pull(99)] * 300)
            self.assertEqual(follower.step()[0].number, 300)

    def test_a_list_that_is_as_long_as_the_old_one_is_known_too(self) -> None:
        with self.service.operator() as operator:
            fill(self.primary, 5)
            follower = AuditFollower(operator)
            seen = len(follower.step())
            self.service.restart()
            with self.service.primary() as primary:
                fill(primary, 40)
            found = follower.step()
            self.assertTrue(follower.is_new_list)
            self.assertEqual(found[0].number, 1)
            self.assertGreater(len(found), seen)


def patient(*arguments: object) -> subprocess.Popen[str]:
    """As `words`, with waits for PostgreSQL that have no end of their own, so that it is the signal that ends them."""
    code = f"from pagelog.archive import postgres as of; of.WAIT_SECONDS = {20 * PATIENCE}; import pagelog.__main__"
    command = [sys.executable, "-B", "-c", code, *map(str, arguments)]
    variables = {**os.environ, "PYTHONPATH": str(SOURCE)}
    return subprocess.Popen(
        command, stdout=subprocess.PIPE, stderr=subprocess.PIPE, text=True, env=variables
    )


class Silence(Folder):
    """A PostgreSQL that takes bytes, answers none, and leaves its connections open."""

    def setUp(self) -> None:
        super().setUp()
        self.url_of_server = postgres().url(f"silent{os.getpid()}{time.monotonic_ns()}")
        self.proxy = self.enterContext(SilentProxy(postgres()))
        self.silent_url = self.proxy.url(self.url_of_server)

    def test_sigterm_ends_an_archiver(self) -> None:
        fill(self.primary, 5)
        file = self.service.credentials_file()
        process = patient(
            "archive", "--follow", "--idle", "0.1", "--credentials", file, "--url", self.silent_url
        )
        assert process.stdout is not None
        self.assertIn("archived 5 of 5", process.stdout.readline())
        self.proxy.is_silent.set()
        fill(self.primary, 5)
        with self.service.operator() as operator:
            pulled = operator.count_of_entries()
            while not any(
                entry.principal == 3
                and entry.operation is pagelog.Operation.PULL
                and entry.is_allowed
                and entry.a == 6
                for entry in operator.entries(1)
            ):
                time.sleep(0.05)
        self.assertGreater(pulled, 0)
        process.send_signal(signal.SIGTERM)
        process.communicate(timeout=PATIENCE)
        self.assertNotEqual(process.returncode, -signal.SIGKILL)
        with Archive(self.url_of_server) as archive:
            self.assertEqual(archive.check().blocks, archive.archived)

    def test_signals_end_what_begins_with_it(self) -> None:
        self.proxy.is_silent.set()
        for line, number in (
            ("archive", signal.SIGTERM),
            ("verify --offline", signal.SIGINT),
            ("restore", signal.SIGTERM),
            ("logs", signal.SIGINT),
            ("mend", signal.SIGTERM),
        ):
            process = patient(
                *line.split(),
                "--credentials",
                self.service.credentials_file(),
                "--url",
                self.silent_url,
            )
            self.wait_until_it_asks(process.pid)
            process.send_signal(number)
            _, error = process.communicate(timeout=PATIENCE)
            self.assertEqual(
                (process.returncode, error.count("\n")), (128 + number, 1), (line, error)
            )

    def test_what_is_cleaned_up_after_a_signal_waits_no_more(self) -> None:
        for ending in (
            "with engine.begin() as session: session.change('create table t (a int)'); asks(); time.sleep(100)",
            "with engine.begin() as session: asks(); session.rows('select pg_sleep(100)')",
            "asks(); time.sleep(100)",
        ):
            self.proxy.is_silent.clear()
            code = (
                "import sys, time; sys.path.insert(0, sys.argv[1]); from pagelog.archive import postgres; from pagelog.archive.engine import engine_of\n"
                f"postgres.WAIT_SECONDS = {20 * PATIENCE}; engine = engine_of(sys.argv[2]); engine.rows('select 1')\n"
                "def asks(): print('asks', flush=True)\n" + ending
            )
            process = subprocess.Popen(
                [sys.executable, "-B", "-c", code, str(SOURCE), self.silent_url],
                stdout=subprocess.PIPE,
                stderr=subprocess.PIPE,
                text=True,
            )
            assert process.stdout is not None
            self.assertEqual(process.stdout.readline(), "asks\n")
            self.proxy.is_silent.set()
            process.send_signal(signal.SIGINT)
            process.communicate(timeout=PATIENCE)

    def wait_until_it_asks(self, process: int) -> None:
        """Until it has a connection to the silent PostgreSQL, on which it waits."""
        while not self.sockets_of(process):
            time.sleep(0.05)

    def sockets_of(self, process: int) -> list[str]:
        """Its descriptors that are sockets."""
        found = []
        for fd in os.listdir(f"/proc/{process}/fd"):
            try:
                found += (
                    [fd] if os.readlink(f"/proc/{process}/fd/{fd}").startswith("socket:") else []
                )
            except OSError:
                pass
        return found

    def test_a_wait_has_an_end_of_its_own(self) -> None:
        with engine_of(self.silent_url).session() as session, mock.patch.object(
            archive_postgres, "WAIT_SECONDS", 0.5
        ):
            self.proxy.is_silent.set()
            with self.assertRaisesRegex(psycopg.OperationalError, "PostgreSQL was silent for 0 s"):
                session.rows("select 1")

    def test_a_signal_that_comes_just_before_a_wait_is_heard_soon(self) -> None:
        waits: list[float | None] = []
        ready = archive_postgres.ready_by_poll
        with mock.patch.object(
            archive_postgres,
            "ready_by_poll",
            lambda fileno, wanted, seconds: (waits.append(seconds), ready(fileno, wanted, seconds))[
                1
            ],
        ):
            with engine_of(self.silent_url).session() as session:
                session.rows("select 1")
        self.assertTrue(
            waits and all(seconds is not None and seconds <= 1 for seconds in waits), waits
        )

    def test_q_ends_top(self) -> None:
        """With an archive that is silent, a service that hangs, and another key typed at once before it."""
        self.proxy.is_silent.set()
        with Service(dbs=2) as service:
            file = service.credentials_file(url=self.silent_url)
            main, other = pty.openpty()
            command = [
                sys.executable,
                "-B",
                "-m",
                "pagelog",
                "top",
                "--credentials",
                str(file),
                "--db",
                "0",
                "--db",
                "1",
                "--interval",
                "30",
            ]
            environment = {**os.environ, "PYTHONPATH": str(SOURCE), "TERM": "xterm"}
            stand_still(service.process.pid)
            process = subprocess.Popen(
                command, stdin=other, stdout=other, stderr=other, env=environment
            )
            os.close(other)
            drawn = ""
            while "NotInTime" not in drawn and "TimedOut" not in drawn:
                drawn += os.read(main, 65536).decode(errors="replace")
            os.write(main, b"xq")
            all_that_is_drawn(main)
            self.assertEqual(process.wait(PATIENCE), 0)
            service.process.send_signal(signal.SIGCONT)
        self.assertTrue(re.search("db 0", drawn))


if __name__ == "__main__":
    unittest.main()
