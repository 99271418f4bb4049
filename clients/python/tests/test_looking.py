"""status, top, audit and metrics: what they show of a real service."""

from __future__ import annotations

import fcntl
import json
import os
import pty
import re
import select
import signal
import struct
import subprocess
import sys
import termios
import time
import unittest
import urllib.request
from pathlib import Path

import pagelog

from pagelog.archive import Archive
from pagelog.times import duration
from pagelog.cli.watch import Watch
from pagelog.keeping import Archiver
from pagelog.request import Pull
from service import PATIENCE, SOURCE, Service, all_that_is_drawn, fill
from test_archive import words

HERE = Path(__file__).resolve().parent


def ends(process: subprocess.Popen[str], status: int = 0) -> str:
    """What a word wrote, once it has ended with this status and no word on standard error."""
    out, error = process.communicate(timeout=PATIENCE)
    if process.returncode != status:
        raise AssertionError(f"status {process.returncode}: {out}{error}")
    return out if status == 0 else out + error


class Looks(unittest.TestCase):
    def setUp(self) -> None:
        self.service = self.enterContext(Service(dbs=2, audit=5000))
        self.primary = self.enterContext(self.service.primary())
        self.reader = self.enterContext(self.service.reader())
        self.operator = self.enterContext(self.service.operator())
        self.file = self.service.credentials_file(audit=5000)

    def test_a_watch_counts_each_entry_once(self) -> None:
        seconds = [0.0]
        fill(self.primary, 10)
        watch = Watch(
            self.operator, reader=self.reader, limit=5000, from_start=True, clock=lambda: seconds[0]
        )
        first = watch.look()
        self.assertEqual(
            (first.state.hard, first.blocks_rate, first.full_in, first.is_behind),
            (10, None, None, False),
        )
        self.reader.answers([Pull(99)] * 1500 + [Pull(1)] * 20)
        fill(self.primary, 10)
        with self.service.page_server() as server:
            server.step()
        seconds[0] = 10.0
        look = watch.look()
        self.assertEqual(
            (look.blocks_rate, look.reads_rate, look.denials), (1.0, 2.0, {"C1 AboveTheEnd": 1500})
        )
        self.assertEqual(look.applied, {0: 20})
        entries = list(self.operator.entries(1))
        counted = [entry for entry in entries if entry.number <= look.entries]
        self.assertEqual(sum(look.requests.values()), len(counted))
        for key, count in look.requests.items():
            same = [
                e for e in counted if (e.role.word, e.operation.word, e.rule or "allowed") == key
            ]
            self.assertEqual(len(same), count, key)
        self.assertEqual(look.requests_rate, (look.entries - first.entries - look.own) / 10)
        self.assertIn(
            look.own, (3, 4, 5)
        )  # a status, two audits or three, and what was applied at the look before
        assert look.full_in is not None and look.requests_rate is not None
        self.assertAlmostEqual(look.full_in, (5000 - look.entries) / look.requests_rate)
        self.assertAlmostEqual(look.used, look.entries / 5000)

    def test_a_look_asks_for_partitions_that_were_advanced_since(self) -> None:
        fill(self.primary, 10)
        watch = Watch(self.operator, reader=self.reader, limit=5000, from_start=True)
        with self.service.page_server(partitions=(0, 1, 2, 3)) as server:
            server.step()
        self.assertEqual(watch.look().applied, dict.fromkeys(range(4), 10))
        first, second = watch.look(), watch.look()
        self.assertEqual((second.applied, second.entries - first.entries), (first.applied, 2))

    def test_a_watch_begins_at_the_end(self) -> None:
        self.reader.answers([Pull(99)] * 200)
        watch = Watch(self.operator, limit=5000)
        look = watch.look()
        self.assertEqual(look.denials, {})
        self.assertGreater(look.entries, 200)
        self.assertLess(sum(look.requests.values()), 60)

    def test_a_watch_begins_anew_with_a_new_service(self) -> None:
        self.reader.answers([Pull(99)] * 40)
        watch = Watch(self.operator, limit=5000, from_start=True)
        watch.look()
        self.service.restart()
        with self.assertRaises(pagelog.LogWentBack):
            watch.look()
        self.assertEqual(watch.look().denials, {})

    def test_durations(self) -> None:
        cases = {
            None: "-",
            5: "5 s",
            119: "119 s",
            120: "2.0 min",
            7199: "120.0 min",
            7200: "2.0 h",
            172800: "2.0 d",
        }
        for seconds, text in cases.items():
            self.assertEqual(duration(seconds), text)

    def test_status(self) -> None:
        fill(self.primary, 12)
        out = ends(words("status", "--credentials", self.file, "--db", "0", "--db", "1"))
        one, two = out.splitlines()
        self.assertRegex(
            one,
            r"^db 0: epoch 1, primary 2, 12 blocks hardened; audit list \d+ of 5000 \(\d\.\d%; \[service\] audit\), full in - at \d+\.\d requests a second$",
        )
        self.assertRegex(two, r"^db 1: epoch 1, primary 2, 0 blocks hardened; ")
        fields = json.loads(ends(words("status", "--credentials", self.file, "--json")))
        self.assertEqual(
            (fields["hard"], fields["epoch"], fields["landing"], fields["audit_limit"]),
            (12, 1, 12, 5000),
        )
        self.assertEqual(
            (fields["full_in_seconds"], fields["requests_a_second"], fields["audit_limit_from"]),
            (None, 0.0, "[service] audit"),
        )
        out = ends(words("status", "--credentials", self.file, "--db", "0", "--db", "9"), status=1)
        self.assertIn("db 9: the service has no database of this number", out)
        self.assertIn("db 0: epoch 1", out)

    def test_a_full_audit_list_is_told(self) -> None:
        with self.assertRaises(pagelog.AuditListFull):
            while True:
                self.reader.answers([Pull(99)] * 500)
                self.reader.status()
        out = ends(words("status", "--credentials", self.file), status=4)
        self.assertIn("the audit list is full: this database answers nothing any more", out)

    def test_audit(self) -> None:
        with self.assertRaises(pagelog.AboveTheEnd):
            self.reader.pull(5)
        fill(self.primary, 2, empties=False)
        lines = ends(words("audit", "--credentials", self.file)).splitlines()
        self.assertEqual(
            lines[0],
            (
                "1 pass "
                + lines[0].split()[2]
                + " principal 3 role secondary epoch 1 op pull a 5 b 65535 denied C1 value 0 AboveTheEnd"
            ),
        )
        fields = [
            json.loads(line)
            for line in ends(words("audit", "--credentials", self.file, "--json")).splitlines()
        ]
        self.assertEqual([one["number"] for one in fields], list(range(1, len(fields) + 1)))
        self.assertEqual(
            (fields[0]["denied"], fields[0]["rule"], fields[0]["value"]), ("C1", "AboveTheEnd", 0)
        )
        writes = [(one["a"], one["b"]) for one in fields if one["op"] == "write"]
        self.assertEqual(writes, [(1, 0), (1, 1), (2, 0), (2, 1)])
        self.assertEqual(
            len(ends(words("audit", "--credentials", self.file, "--denied")).splitlines()), 1
        )
        before = len(list(self.operator.entries(1))) + 1  # with the question for them
        last = ends(words("audit", "--credentials", self.file, "--first", "-3")).splitlines()
        self.assertEqual([int(line.split()[0]) for line in last], [before - 2, before - 1, before])
        self.assertEqual(ends(words("audit", "--credentials", self.file, "--first", "0")), "")

    def test_what_cannot_be_done_is_one_line(self) -> None:
        for place in ("127.0.0.1:65536", self.service.address):
            out = ends(words("metrics", "--credentials", self.file, "--listen", place), status=1)
            self.assertRegex(out, rf"\Apagelogctl: {place}: .*\n\Z")
        for line in (
            "status --seconds",
            "audit --follow --idle",
            "top --interval",
            "archive --follow --idle",
        ):
            out = ends(words(*line.split(), "-1", "--credentials", self.file), status=2)
            self.assertNotIn("Traceback", out)

    def test_audit_follows_until_it_is_told(self) -> None:
        process = words(
            "audit",
            "--credentials",
            self.file,
            "--follow",
            "--idle",
            "0.05",
            "--denied",
            "--json",
            PYTHONUNBUFFERED="1",
        )
        assert process.stdout is not None
        for lsn in (4, 5, 6):
            with self.assertRaises(pagelog.AboveTheEnd):
                self.service.reader().pull(lsn)
            self.assertEqual(json.loads(process.stdout.readline())["a"], lsn)
        process.send_signal(signal.SIGTERM)
        self.assertEqual(process.wait(PATIENCE), 0)
        process.communicate()

    def test_metrics(self) -> None:
        fill(self.primary, 30)
        url = f"sqlite:///{self.service.folder}/archive.db"
        with Archive(url, "0", create=True) as archive, self.service.page_server() as server:
            Archiver(self.reader, archive).run(follow=False)
            with Archive(url, "1", create=True):
                pass
            process = words(
                "metrics",
                "--credentials",
                self.file,
                "--listen",
                "127.0.0.1:0",
                "--db",
                "0",
                "--db",
                "1",
                "--url",
                url,
                "--from-start",
            )
            assert process.stdout is not None
            address = process.stdout.readline().split()[1]
            fill(self.primary, 5)
            server.step()
            with self.assertRaises(pagelog.AboveTheEnd):
                self.reader.pull(99)
            found = scrape(address)
            self.assertEqual(found['pagelog_up{db="0"}'], 1)
            self.assertEqual(found['pagelog_hardened_blocks{db="0"}'], 35)
            self.assertEqual(found['pagelog_archived_blocks{db="0"}'], 30)
            self.assertEqual(found['pagelog_hardened_blocks{db="1"}'], 0)
            self.assertEqual(found['pagelog_audit_limit{db="0"}'], 5000)
            self.assertEqual(found['pagelog_applied_lsn{db="0",partition="0"}'], 35)
            self.assertEqual(
                found[
                    'pagelog_requests_total{db="0",operation="write",role="primary",verdict="allowed"}'
                ],
                70,
            )
            self.assertEqual(
                found[
                    'pagelog_requests_total{db="0",operation="pull",role="secondary",verdict="AboveTheEnd"}'
                ],
                1,
            )
            again = scrape(address)
            self.assertGreater(
                again['pagelog_audit_entries{db="0"}'], found['pagelog_audit_entries{db="0"}']
            )
            self.assertNotIn('pagelog_audit_full_in_seconds{db="0"}', found)
            self.assertNotIn(
                'pagelog_audit_full_in_seconds{db="0"}', again
            )  # nobody asked but the exporter
            check_alerts(self, set(name.partition("{")[0] for name in found))
            self.service.stop()
            self.assertEqual(scrape(address)['pagelog_up{db="0"}'], 0)
            self.service.start()
        process.send_signal(signal.SIGTERM)
        self.assertEqual(process.wait(PATIENCE), 0)
        process.communicate()

    def test_top_where_the_output_is_no_terminal(self) -> None:
        fill(self.primary, 30)
        process = words(
            "top",
            "--credentials",
            self.file,
            "--db",
            "0",
            "--db",
            "7",
            "--count",
            "2",
            "--interval",
            "0.2",
            COLUMNS="150",
        )
        out = ends(process)
        self.assertEqual(len(re.findall(r"\b0 +1 +2 +30 ", out)), 2)
        self.assertIn("UnknownDatabase", out)
        self.assertIn("full in", out)

    def test_top_warns_before_the_list_is_full(self) -> None:
        quiet = ends(words("top", "--credentials", self.file, "--count", "1", COLUMNS="150"))
        self.assertNotIn("move the database", quiet)
        self.reader.answers([Pull(99)] * 4600)
        url = f"sqlite:///{self.service.folder}/archive.db"
        Archive(url, create=True).close()
        fill(self.primary, 20)
        out = ends(
            words("top", "--credentials", self.file, "--count", "1", "--url", url, COLUMNS="150")
        )
        self.assertRegex(
            out,
            r"db 0: \d+ entries are left of its audit list; 20 blocks are not archived, which want 2: move the database",
        )
        fields = json.loads(
            ends(words("top", "--credentials", self.file, "--count", "1", "--url", url, "--json"))
        )
        self.assertEqual((fields["db"], fields["hard"], fields["archived"]), (0, 20, 0))

    def test_top_on_a_narrow_terminal_leaves_columns_out(self) -> None:
        fill(self.primary, 30)
        out = ends(words("top", "--credentials", self.file, "--count", "1", COLUMNS="80"))
        self.assertRegex(out, r"db +epoch +primary +hardened +requests +audit list +full in")
        self.assertRegex(out, r"0 +1 +2 +30 ")
        self.assertNotIn("…", out)

    def test_top_on_a_terminal_until_q(self) -> None:
        fill(self.primary, 33)
        with self.service.page_server() as server:
            screen = self.screen_of_top(lambda: (server.step(), self.refused_pull()))
        for words_ in ("hardened", "33", "requests", "C1 AboveTheEnd", "0: 33"):
            self.assertIn(words_, screen)

    def refused_pull(self) -> None:
        with self.assertRaises(pagelog.AboveTheEnd):
            self.reader.pull(99)

    def screen_of_top(self, meanwhile: object) -> str:
        """What `top` drew on a terminal of 150 columns before q was pressed."""
        main, other = pty.openpty()
        fcntl.ioctl(other, termios.TIOCSWINSZ, struct.pack("HHHH", 30, 150, 0, 0))
        command = [
            sys.executable,
            "-B",
            "-m",
            "pagelog",
            "top",
            "--credentials",
            str(self.file),
            "--interval",
            "0.3",
        ]
        environment = {**os.environ, "PYTHONPATH": str(SOURCE), "TERM": "xterm-256color"}
        process = subprocess.Popen(
            command, stdin=other, stdout=other, stderr=other, env=environment
        )
        os.close(other)
        drawn, deadline, has_acted = "", time.monotonic() + PATIENCE, False
        while time.monotonic() < deadline and not ("AboveTheEnd" in drawn and "0: 33" in drawn):
            if select.select([main], [], [], 0.2)[0]:
                drawn += os.read(main, 65536).decode(errors="replace")
            if "hardened" in drawn and not has_acted:
                meanwhile()  # type: ignore[operator]
                has_acted = True
        os.write(main, b"q")
        drawn += all_that_is_drawn(main)
        self.assertEqual(process.wait(PATIENCE), 0)
        return drawn


def scrape(address: str) -> dict[str, float]:
    """The metrics, by name and labels."""
    with urllib.request.urlopen(f"http://{address}/metrics", timeout=PATIENCE) as answer:
        lines = answer.read().decode().splitlines()
    return {
        name: float(value)
        for name, value in (line.rsplit(" ", 1) for line in lines if not line.startswith("#"))
    }


def check_alerts(test: unittest.TestCase, names: set[str], *, of_keeper: bool = False) -> None:
    """Each name of a metric that the example of alerts has is one that is served, by an exporter or by a keeper."""
    text = (HERE.parent / "prometheus" / "alerts.yml").read_text()
    expressions = re.findall(r"^ +expr:(.*?)^ +(?:for|labels):", text, re.MULTILINE | re.DOTALL)
    used = {
        name
        for each in expressions
        for name in re.findall(r"pagelog_\w+", re.sub(r'"[^"]*"', "", each))
    }
    others = {name for name in used if name.startswith("pagelog_pages_")}
    of_page_servers = (HERE.parent / "src" / "pagelog" / "pages" / "metrics.py").read_text()
    test.assertEqual(others - set(re.findall(r"pagelog_pages_\w+", of_page_servers)), set())
    test.assertEqual(
        {name for name in used - others if name.startswith("pagelog_keeper_") == of_keeper} - names,
        set(),
    )


if __name__ == "__main__":
    unittest.main()
