"""Archivers that follow, as processes of their own: they are killed, cut off and told to end."""

from __future__ import annotations

import contextlib
import io
import random
import signal
import subprocess
import threading
import time
import unittest
from pathlib import Path
from unittest import mock

import psycopg

from pagelog.archive import Archive
from pagelog.cli.archive_words import ArchiveFollower
from pagelog.keeping import Archiver
from postgres import postgres
from service import IS_LONG, PATIENCE, CuttingProxy, Service, fill
from test_archive import Folder, words

KILLS = 100 if IS_LONG else 10
OTHERS = """select count(*) from pg_stat_activity
    where datname = current_database() and backend_type = 'client backend' and pid <> pg_backend_pid()"""


def wait_for_what_was_sent(archive: Archive) -> None:
    """PostgreSQL still does what a process had asked for before it was killed: a COMMIT may come a moment later."""
    deadline = time.monotonic() + PATIENCE
    while archive.shown.startswith("postgresql:") and time.monotonic() < deadline:
        if archive.engine.value(OTHERS) == 0:
            return
        time.sleep(0.01)


class Followers(Folder):
    """`pagelogctl archive --follow` as a process of its own."""

    def follow(self, url: str, file: Path) -> subprocess.Popen[str]:
        return words("archive", "--follow", "--idle", "0.05", "--credentials", file, "--url", url)

    def test_it_follows_and_ends_when_it_is_told(self) -> None:
        file = self.service.credentials_file()
        process = self.follow(self.url, file)
        assert process.stdout is not None and process.stderr is not None
        for count in (5, 70):
            fill(self.primary, count)
            while not process.stdout.readline().startswith(
                f"archived {self.primary.durable} of {self.primary.durable}"
            ):
                self.assertIsNone(process.poll())
        process.send_signal(signal.SIGTERM)
        out, error = process.communicate(timeout=PATIENCE)
        self.assertEqual(
            (process.returncode, out.splitlines()[-1], error), (0, "archived 75 of 75", "")
        )

    def test_killed_at_any_moment_it_is_whole(self) -> None:
        self.kill_again_and_again(self.url, KILLS)

    def test_killed_at_any_moment_it_is_whole_in_postgresql(self) -> None:
        self.kill_again_and_again(postgres().url("killed"), KILLS // 2)

    def kill_again_and_again(self, url: str, kills: int) -> None:
        file, chance = self.service.credentials_file(), random.Random(1)
        archive = self.archive(url)
        done = threading.Event()

        def write() -> None:
            with self.service.primary() as primary:
                while not done.wait(0.05):
                    fill(primary, 25, seed=chance.randrange(1000))

        writer = threading.Thread(target=write)
        writer.start()
        try:
            before, until_told = 0, 1.0
            for at in range(kills):
                while self.reader.status().hard <= before:
                    time.sleep(0.01)  # else its first line may be of nothing new
                began = time.monotonic()
                process = self.follow(url, file)
                assert process.stdout is not None
                is_reported = at % 3 != 2
                if is_reported:
                    self.assertIn("archived ", process.stdout.readline())
                    until_told = time.monotonic() - began
                # Amid a later batch, or before or amid the first.
                time.sleep(chance.random() * (0.15 if is_reported else until_told * 1.1))
                process.kill()
                process.communicate()
                wait_for_what_was_sent(archive)
                sizes = archive.check()
                self.assertEqual(sizes.blocks, archive.archived)
                self.assertGreaterEqual(sizes.blocks, before + is_reported)
                before = sizes.blocks
        finally:
            done.set()
            writer.join()
        Archiver(self.reader, archive).run(follow=False)
        self.assertEqual(list(archive.blocks()), self.everything())

    def test_it_ends_where_the_audit_list_is_full(self) -> None:
        with Service(audit=150) as small, small.primary() as primary:
            fill(primary, 30)
            process = self.follow(self.url, small.credentials_file())
            out, error = process.communicate(timeout=PATIENCE)
        self.assertEqual((process.returncode, "AuditListFull" in error), (4, True))
        self.assertEqual(self.archive().archived, 30)
        self.assertIn("archived 30 of 30", out)

    def test_it_outlives_a_crash_of_postgresql_and_a_cut_line(self) -> None:
        server = postgres()
        url = server.url("crashed")
        with CuttingProxy(self.service.address, least=3000, most=30000) as proxy:
            file = self.service.credentials_file()
            file.write_text(file.read_text().replace(self.service.address, proxy.address))
            process = self.follow(url, file)
            assert process.stdout is not None
            fill(self.primary, 50)
            process.stdout.readline()
            server.crash()
            fill(self.primary, 50)
            server.start()
            while not process.stdout.readline().startswith("archived 100 of 100"):
                self.assertIsNone(process.poll())
            process.terminate()
            process.communicate(timeout=PATIENCE)
        archive = self.archive(url)
        self.assertEqual(list(archive.blocks()), self.everything())
        self.assertEqual((process.returncode, archive.check().blocks), (0, 100))

    def test_it_waits_for_a_lost_archive_alone(self) -> None:
        lost, fault = psycopg.errors.AdminShutdown(
            "server closed the connection"
        ), psycopg.errors.UndefinedTable("the table is not there")
        archiver, said = mock.Mock(**{"resume.side_effect": [lost, fault]}), io.StringIO()
        with contextlib.redirect_stderr(said), mock.patch("time.sleep"):
            follower = ArchiveFollower(archiver, 0, lambda: False)
            follower.follow()
            self.assertRaises(psycopg.errors.UndefinedTable, follower.follow)
        self.assertEqual(
            said.getvalue(), "pagelogctl: archive: server closed the connection; trying again\n"
        )


if __name__ == "__main__":
    unittest.main()
