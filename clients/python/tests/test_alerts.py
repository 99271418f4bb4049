"""The alert rules, each held to its case by promtool, and what a scrape says in these cases."""

from __future__ import annotations

import re
import shutil
import signal
import socket
import subprocess
import tempfile
import threading
import time
import unittest
from pathlib import Path

import pagelog
from pagelog.archive import Archive
from pagelog.cli import watch
from pagelog.cli.side_by_side import NotInTime, Task, look_at_all
from pagelog.cli.watch import Watch
from pagelog.request import Pull
from service import PATIENCE, TOP, Service, fill, put, stand_still
from test_archive import words
from test_looking import scrape

RULES = Path(__file__).resolve().parent.parent / "prometheus"
NO_PROMTOOL = "THE ALERT RULES WERE NOT TESTED, since promtool is not here: apt-get install --no-install-recommends prometheus"


class Rules(unittest.TestCase):
    @unittest.skipUnless(shutil.which("promtool"), NO_PROMTOOL)
    def test_each_alert_fires_in_its_case_and_not_beside_it(self) -> None:
        for arguments in (
            ("test", "rules", "alerts_test.yml"),
            ("check", "rules", "--lint=all", "alerts.yml"),
            ("check", "config", "scrape.yml"),
        ):
            done = subprocess.run(
                ["promtool", *arguments], cwd=RULES, capture_output=True, text=True
            )
            self.assertEqual(done.returncode, 0, done.stdout + done.stderr)

    def test_each_alert_has_a_case(self) -> None:
        alerts = re.findall(r"- alert: (\w+)", (RULES / "alerts.yml").read_text())
        cases = re.findall(
            r"alertname: (\w+)[^{}]*?exp_alerts:\n", (RULES / "alerts_test.yml").read_text()
        )
        self.assertEqual(sorted(set(cases)), sorted(alerts))

    def test_each_alert_names_a_section_of_the_runbook(self) -> None:
        rules = (RULES / "alerts.yml").read_text().split("- alert: ")[1:]
        for rule in rules:
            found = re.search(r"runbook: docs/(\w+).md#(\S+)", rule)
            assert found is not None, rule.split()[0]
            headings = re.findall(
                r"^#+ (.*)$", (TOP / "docs" / f"{found[1]}.md").read_text(), flags=re.M
            )
            anchors = {
                re.sub(r"[^\w -]", "", heading).lower().replace(" ", "-") for heading in headings
            }
            self.assertIn(found[2], anchors, rule.split()[0])


class Scrapes(unittest.TestCase):
    def setUp(self) -> None:
        self.folder = Path(self.enterContext(tempfile.TemporaryDirectory()))
        self.service = self.enterContext(Service(dbs=2, audit=200_000))

    def metrics(self, *more: object, dbs: int = 1) -> str:
        """The address of an exporter, which ends with the test."""
        file = self.service.credentials_file(audit=200_000)
        numbers = [word for db in range(dbs) for word in ("--db", db)]
        process = words(
            "metrics", "--credentials", file, "--listen", "127.0.0.1:0", *numbers, *more
        )
        assert process.stdout is not None
        self.addCleanup(process.communicate)
        self.addCleanup(process.kill)
        self.process = process
        return process.stdout.readline().split()[1]

    def up(self, address: str) -> dict[str, float]:
        """A scrape in which the service has answered: on a busy machine it may take longer than a scrape waits."""
        while (found := scrape(address))['pagelog_up{db="0"}'] == 0:
            time.sleep(0.1)
        return found

    def test_a_service_that_hangs_is_down_within_the_scrape(self) -> None:
        address = self.metrics("--within", "1", dbs=2)
        self.up(address)
        stand_still(self.service.process.pid)
        for _ in range(3):
            found = scrape(address)
            self.assertEqual((found['pagelog_up{db="0"}'], found['pagelog_up{db="1"}']), (0, 0))
        self.service.process.send_signal(signal.SIGCONT)
        self.up(address)

    def test_nothing_has_to_be_up_when_it_begins(self) -> None:
        self.service.stop()
        address = self.metrics("--within", "1", "--url", f"sqlite:///{self.folder}/not-made-yet.db")
        found = scrape(address)
        self.assertEqual((found['pagelog_up{db="0"}'], found['pagelog_archive_up{db="0"}']), (0, 0))
        self.service.start()
        Archive(f"sqlite:///{self.folder}/not-made-yet.db", create=True).close()
        while (found := scrape(address))['pagelog_up{db="0"}'] == 0 or found[
            'pagelog_archive_up{db="0"}'
        ] == 0:
            time.sleep(0.1)
        self.assertEqual(
            (found['pagelog_archived_blocks{db="0"}'], found['pagelog_backlog_entries{db="0"}']),
            (0, 0),
        )

    def test_an_archive_that_is_silent_is_down_and_the_rest_is_served(self) -> None:
        with socket.create_server(("127.0.0.1", 0)) as silent:
            url = f"postgresql://nobody@127.0.0.1:{silent.getsockname()[1]}/archive"
            address = self.metrics("--within", "1", "--url", url)
            for _ in range(3):
                self.assertEqual(self.up(address)['pagelog_archive_up{db="0"}'], 0)
            self.process.send_signal(signal.SIGTERM)
            self.assertEqual(self.process.wait(PATIENCE), 0)

    def test_a_client_that_says_nothing_holds_up_nobody(self) -> None:
        address = self.metrics()
        host, port = address.split(":")
        silent = [self.enterContext(socket.create_connection((host, int(port)))) for _ in range(20)]
        self.assertEqual(scrape(address)['pagelog_up{db="0"}'], 1)
        self.assertEqual(len(silent), 20)

    def test_a_writer_of_this_library_that_is_fenced_is_seen(self) -> None:
        with self.service.primary() as writer, self.service.operator() as operator:
            fill(writer, 3)
            address = self.metrics()
            self.assertEqual(scrape(address)['pagelog_fenced_requests_total{db="0"}'], 0)
            operator.failover(5)
            writer.append(put(0, b"late"))
            for _ in range(50):
                with self.assertRaises(pagelog.PagelogError):
                    writer.commit()
            self.assertGreaterEqual(scrape(address)['pagelog_fenced_requests_total{db="0"}'], 1)

    def test_a_service_that_was_started_anew_is_up_and_counted(self) -> None:
        with self.service.primary() as writer:
            fill(writer, 30)
        address = self.metrics()
        self.assertEqual(scrape(address)['pagelog_log_went_back_total{db="0"}'], 0)
        self.service.restart()
        found = scrape(address)
        self.assertEqual(
            (found['pagelog_up{db="0"}'], found['pagelog_log_went_back_total{db="0"}']), (1, 1)
        )
        self.assertEqual(found['pagelog_hardened_blocks{db="0"}'], 0)


class Watching(unittest.TestCase):
    def test_the_end_of_a_list_that_grows_faster_than_it_is_read(self) -> None:
        before, watch._AUDITS_OF_A_LOOK = watch._AUDITS_OF_A_LOOK, 2
        self.addCleanup(setattr, watch, "_AUDITS_OF_A_LOOK", before)
        with Service() as service, service.reader() as reader, service.operator() as operator:
            watched = Watch(operator)
            watched.look()
            for _ in range(5):
                reader.answers([Pull(99)] * 1000)
            look = watched.look()
            self.assertTrue(look.is_behind)
            # The list has these, and the questions by which its end was found.
            self.assertGreater(look.entries, 5000)
            self.assertLess(look.entries, 5150)
            self.assertGreater(look.uncounted, 2500)
            again = watched.look()
            self.assertFalse(again.is_behind)

    def test_a_database_that_was_moved_is_gone_on_with(self) -> None:
        """The address leads to a service with a higher epoch, a log that is not shorter, and another list."""
        with Service() as service, service.operator() as operator:
            watched = Watch(operator, from_start=True)
            with service.primary() as writer:
                fill(writer, 5)
            watched.look()
            service.restart()
            with service.operator() as other, service.primary() as writer:
                other.failover(2)
                fill(writer, 5)
            look = watched.look()
            self.assertEqual((look.state.epoch, look.state.hard), (2, 5))

    def test_one_that_hangs_does_not_hold_up_the_others(self) -> None:
        goes_on = threading.Event()
        hangs, fast = Task(lambda: goes_on.wait(PATIENCE)), Task(lambda: True)
        for _ in range(2):
            found: dict[str, object] = {}
            while found.get("fast") is not True:  # it would never come if it waited for the other
                found = dict(look_at_all([("hangs", hangs), ("fast", fast)], 0.1))
                self.assertIsInstance(found["hangs"], NotInTime)
        goes_on.set()
        while (
            isinstance(found := look_at_all([("hangs", hangs)], 0.1), dict)
            and found["hangs"] is not True
        ):
            pass


if __name__ == "__main__":
    unittest.main()
