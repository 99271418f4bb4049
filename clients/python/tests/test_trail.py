"""A trail has each line of the audit list once, with the time at which it was seen, and never lines of two lists."""

from __future__ import annotations

import json
import re
import signal
import tempfile
import time
import unittest
from datetime import datetime, timezone
from pathlib import Path
from unittest.mock import patch

import pagelog
from pagelog import Address, Operator
from pagelog.cli.trail_words import _lines
from pagelog.errors import AuditListFull
from pagelog.reply import LINE_SIZE, Entry, encode_entry
from pagelog.request import AUDIT_MAX
from pagelog.trail import OtherKeeper, Start, Trail, TrailKeeper
from pagelog.times import moment
from pagelog.trail.keeper import DAY
from pagelog.trail.question import Question, SeenLine, answer
from pagelog.trail.replay import NotReplayable, replay
from pagelog.trail.texts import TrailError, without_tokens
from postgres import postgres
from service import PATIENCE, TABLE, CuttingProxy, Service, fill
from test_archive import words
from test_looking import ends

START = Start(TABLE.read_bytes(), 2)
MORNING = 1_700_000_000_000_000


class Folder(unittest.TestCase):
    def setUp(self) -> None:
        self.folder = Path(self.enterContext(tempfile.TemporaryDirectory()))
        self.url = f"sqlite:///{self.folder}/archive.db"
        self.service = self.enterContext(Service())
        self.primary = self.enterContext(self.service.primary())
        self.operator = self.enterContext(self.service.operator())
        self.trail = self.enterContext(Trail(self.url, "shop", create=True))

    def kept(self, run: int = 1) -> bytes:
        """The lines of a list, one behind the other."""
        return self.trail.lines(self.trail.lists()[run - 1], 1)

    def asked(self) -> list[Entry]:
        """All entries that the service has when it is asked first."""
        last = self.operator.count_of_entries()
        return [entry for entry in self.operator.entries() if entry.number <= last]

    def check_all_is_kept(self, run: int = 1) -> None:
        kept = self.kept(run)
        self.assertEqual(kept, b"".join(map(encode_entry, self.asked()))[: len(kept)])
        self.assertEqual(len(kept), self.trail.lists()[run - 1].kept * LINE_SIZE)


class Kept(Folder):
    def check_every_store(self, url: str) -> None:
        times = iter([MORNING, MORNING + 5, MORNING - 7 * DAY, *range(MORNING + 6, MORNING + 60)])
        with Trail(url, "shop", create=True) as trail:
            keeper = TrailKeeper(self.operator, trail, clock=lambda: next(times))
            for _ in range(3):
                fill(self.primary, 100)
                keeper.step()
            [one] = trail.lists()
            self.assertEqual(
                [piece.seen for piece in trail.pieces(one)], [MORNING, MORNING + 5, MORNING + 5]
            )
            self.assertEqual(
                trail.lines(one, 1),
                b"".join(map(encode_entry, self.asked()))[: one.kept * LINE_SIZE],
            )
            self.assertGreaterEqual(one.kept, 900)

    def test_lines_are_kept_in_sqlite(self) -> None:
        self.check_every_store(self.url)

    def test_lines_are_kept_in_postgresql(self) -> None:
        self.check_every_store(postgres().url("trail"))

    def test_a_question_brings_1024_lines(self) -> None:
        fill(self.primary, 1500)
        keeper = TrailKeeper(self.operator, self.trail)
        last = keeper.run(follow=False)
        own = [found for found in answer(self.trail, keeper.list, Question(principal=1))]  # type: ignore[arg-type]
        # A question is not in its own reply.
        self.assertEqual([found.entry.a for found in own], [1, 1025, 2049, 3073, 4097][: len(own)])
        self.assertEqual(len(own), last // 1024)

    def test_a_service_that_was_started_anew_has_a_list_of_its_own(self) -> None:
        keeper = TrailKeeper(self.operator, self.trail, start=START)
        fill(self.primary, 30)
        self.operator.failover(2)
        keeper.run(follow=False)
        before = self.kept()
        self.service.restart()
        with self.service.primary() as primary:
            fill(primary, 200, seed=2)  # its list is longer than the old one was
        for each in (keeper, TrailKeeper(self.operator, self.trail)):
            each.run(follow=False)
            one, two = self.trail.lists()
            self.assertEqual((self.kept(1), two.ended), (before, None))
            self.assertIn("restarted", one.ended or "")
            self.check_all_is_kept(2)
        self.assertEqual(self.trail.start(two), Start(without_tokens(START.table), 2))

    def test_a_list_with_a_beginning_like_that_of_the_old_one_is_noticed(self) -> None:
        fill(self.primary, 3)
        keeper = TrailKeeper(self.operator, self.trail)
        keeper.run(follow=False)
        keeper.run(follow=False)
        self.service.restart()
        with self.service.primary() as primary:
            fill(primary, 3)
        keeper.run(follow=False)
        self.assertEqual(len(self.trail.lists()), 2)
        self.check_all_is_kept(2)

    def test_a_list_with_the_same_line_at_the_end_of_the_old_one_is_noticed(self) -> None:
        with Service(
            workers=1
        ) as service, service.operator() as operator, service.primary() as primary:
            keeper = TrailKeeper(operator, self.trail)
            for _ in range(2):
                for _ in range(10):
                    primary.status()
                keeper.step()
            before = self.kept()
            service.restart()
            for _ in range(40):
                primary.status()
            keeper.step()
            self.assertEqual(
                b"".join(map(encode_entry, operator.audit(21, 1))), before[-LINE_SIZE:]
            )
            self.assertEqual((self.kept(1), len(self.trail.lists())), (before, 2))

    def test_a_reply_and_what_is_known_come_from_one_service(self) -> None:
        class Turning(Operator):
            """Once, the address leads to another service for one reply, and back again."""

            elsewhere: str | None = None

            def audit(self, first: int, max: int = AUDIT_MAX) -> tuple[Entry, ...]:
                home, there = self.connection.address, self.elsewhere
                if there is None:
                    return super().audit(first, max)
                self.elsewhere = None
                self.connection.close()
                self.connection.address = Address.parse(there)
                found = super().audit(first, max)
                self.connection.close()
                self.connection.address = home
                return found

        with Service() as other, other.primary() as primary:
            fill(primary, 50, seed=3)
            with Turning(self.service.connection(), self.operator.credentials) as turning:
                keeper = TrailKeeper(turning, self.trail)
                for _ in range(3):
                    fill(self.primary, 5)
                    keeper.step()
                    turning.elsewhere = other.address
        self.assertEqual(len(self.trail.lists()), 1)
        self.check_all_is_kept()

    def test_lines_behind_cuts_are_kept_once(self) -> None:
        fill(self.primary, 300)
        with CuttingProxy(self.service.address, least=20_000, most=80_000) as proxy:
            with Operator(proxy.connection(), self.operator.credentials) as operator:
                keeper = TrailKeeper(operator, self.trail)
                for _ in range(12):
                    fill(self.primary, 60)
                    keeper.run(follow=False)
            self.assertGreater(proxy.cuts, 1)
        self.assertEqual(len(self.trail.lists()), 1)
        self.check_all_is_kept()

    def test_a_second_keeper_is_refused(self) -> None:
        with self.service.operator() as other:
            one, two = TrailKeeper(self.operator, self.trail), TrailKeeper(other, self.trail)
            one.step()
            two.step()
            self.assertRaises(OtherKeeper, one.step)

    def test_another_generation_has_a_list_of_its_own(self) -> None:
        old = TrailKeeper(self.operator, self.trail, generation=3)
        old.step()
        with Service() as service, service.operator() as operator:
            TrailKeeper(operator, self.trail, generation=4).step()
        ends = [(one.generation, (one.ended or "").partition(":")[0]) for one in self.trail.lists()]
        self.assertEqual(ends, [(3, "generation 4 has begun"), (4, "")])
        for zombie in (old, TrailKeeper(self.operator, self.trail, generation=3)):
            self.assertRaises(OtherKeeper, zombie.step)
        self.assertEqual([one.ended for one in self.trail.lists()][1:], [None])

    def test_a_full_list_ends_and_says_so(self) -> None:
        with Service(
            audit=50
        ) as service, service.operator() as operator, service.primary() as primary:
            keeper = TrailKeeper(operator, self.trail)
            keeper.step()
            with self.assertRaises(AuditListFull):
                fill(primary, 50)
            for _ in range(2):
                self.assertRaises(AuditListFull, keeper.step)
        [one] = self.trail.lists()
        self.assertIn("full", one.ended or "")

    def test_days_are_taken_away(self) -> None:
        times = iter([MORNING, MORNING, MORNING + DAY, MORNING + 2 * DAY, MORNING + 3 * DAY])
        keeper = TrailKeeper(self.operator, self.trail, start=START, clock=lambda: next(times))
        for _ in range(3):
            fill(self.primary, 5)
            keeper.step()
        keeper.run(follow=False, keep=2)
        [one] = self.trail.lists()
        pieces = list(self.trail.pieces(one))
        self.assertEqual([piece.seen for piece in pieces], [MORNING + DAY, MORNING + 2 * DAY])
        self.assertEqual((pieces[0].first, one.pruned), (one.pruned + 1, pieces[0].first - 1))
        self.assertRaises(NotReplayable, replay, self.trail, one, None)
        keeper.resume()
        self.assertEqual(self.trail.prune(MORNING + 9 * DAY), pieces[0].count)

    def test_days_that_go_are_said_first(self) -> None:
        first, second = time.time_ns() // 1000 - 3 * DAY, time.time_ns() // 1000 - 2 * DAY
        times = iter([first, first, second])
        keeper = TrailKeeper(self.operator, self.trail, start=START, clock=lambda: next(times))
        for _ in range(2):
            fill(self.primary, 5)
            keeper.step()
        pieces = list(self.trail.pieces(self.trail.lists()[0]))
        file = self.service.credentials_file(url=self.url)
        process = words("record", "shop", "--credentials", file, "--url", self.url, "--keep", "1")
        _, error = process.communicate(timeout=PATIENCE)
        [after] = self.trail.lists()
        today = datetime.now(timezone.utc).strftime("%Y-%m-%d")
        self.assertEqual(
            (process.returncode, after.pruned), (0, pieces[-1].first + pieces[-1].count - 1)
        )
        self.assertRegex(
            error,
            f"^pagelogctl: deletes lines 1 to {after.pruned} of list 1, seen before .*{today} 00:00:00 UTC",
        )

    def test_tokens_are_not_kept(self) -> None:
        keeper = TrailKeeper(self.operator, self.trail, start=START)
        keeper.step()
        keeper.give_table(START.table.replace(b"22222222222222222222222222222222", b"aB" * 16))
        self.trail.close()
        stored = b"".join(file.read_bytes() for file in self.folder.iterdir())
        self.assertIn(b"[[principal]]", stored)
        self.assertEqual(
            [file.stat().st_mode & 0o077 for file in self.folder.iterdir()],
            [0 for _ in self.folder.iterdir()],
        )
        for token in (b"1" * 32, b"2" * 32, b"aB" * 16):
            self.assertNotIn(token, stored)
        escaped = START.table.replace(b"5" * 32, b"5" * 31 + b"\\u0035")
        self.assertRaises(TrailError, keeper.give_table, escaped)
        with_comment = START.table + b"# " + b"5" * 32 + b"\n"
        self.assertEqual(len(without_tokens(with_comment)), len(with_comment))


class Words(Folder):
    def test_what_happened_at_a_time(self) -> None:
        fill(self.primary, 40)
        with self.assertRaises(pagelog.UnlistedPrimary):
            self.operator.failover(9)
        self.operator.failover(5, epoch=1)
        file = self.service.credentials_file(url=self.url)
        out = ends(words("record", "shop", "--credentials", file, "--table", TABLE, "--primary", 2))
        self.assertRegex(out, r"recorded \d+ of list 1\n")
        found = [
            json.loads(line)
            for line in ends(
                words("trail", "shop", "--url", self.url, "--op", "failover", "--json")
            ).splitlines()
        ]
        self.assertEqual([(line["a"], line["allowed"]) for line in found], [(9, False), (5, True)])
        denied = ends(
            words(
                "trail", "shop", "--url", self.url, "--denied", "--principal", 1, "--op", "failover"
            )
        )
        self.assertEqual(len(denied.splitlines()), 1)
        self.assertIn("UnlistedPrimary", denied)
        seen = datetime.fromisoformat(found[0]["seen"])
        self.assertLess(abs(seen.timestamp() - datetime.now(timezone.utc).timestamp()), PATIENCE)
        for since, until, count in (
            ("2020-01-01T00:00", None, 2),
            ("2020-01-01T00:00", "2020-01-02T00:00", 0),
        ):
            options = ["--since", since] + (["--until", until] if until else [])
            self.assertEqual(
                len(
                    ends(
                        words("trail", "shop", "--url", self.url, "--op", "failover", *options)
                    ).splitlines()
                ),
                count,
            )
        counts = [
            json.loads(line)
            for line in ends(
                words("trail", "shop", "--url", self.url, "--summary", "--json")
            ).splitlines()
        ]
        self.assertEqual(sum(line["count"] for line in counts), self.trail.lists()[0].kept)
        self.assertIn(
            {"principal": 1, "rule": "UnlistedPrimary", "count": 1},
            [{key: line[key] for key in ("principal", "rule", "count")} for line in counts],
        )
        self.assertIn(
            "UnlistedPrimary", ends(words("trail", "shop", "--url", self.url, "--summary"))
        )
        self.assertIn("no trail of 'other'", ends(words("trail", "other", "--url", self.url), 1))
        self.assertIn(
            "a time is as", ends(words("trail", "shop", "--url", self.url, "--since", "noon"), 2)
        )

    def test_a_picture_or_the_name_of_what_draws(self) -> None:
        self.operator.failover(2)
        TrailKeeper(self.operator, self.trail, generation=7).run(follow=False)
        picture = self.folder / "shop.svg"
        process = words("trail", "shop", "--url", self.url, "--plot", picture)
        _, error = process.communicate(timeout=PATIENCE)
        try:
            import pygal  # noqa: F401
        except ModuleNotFoundError:
            self.assertEqual(
                (process.returncode, "apt-get install python3-pygal" in error), (1, True)
            )
            return
        self.assertEqual((process.returncode, error), (0, ""))
        drawn = picture.read_text()
        for word in ("requests", "denials", "epoch 2", "generation 7"):
            self.assertIn(word, drawn)

    def test_one_that_is_followed_up_to_a_time_ends_behind_it(self) -> None:
        """Not at once: what was seen before may come into the trail a little later."""
        seen, now, looks = [MORNING], [MORNING / 1e6], list[int]()
        keeper = TrailKeeper(self.operator, self.trail, start=START, clock=lambda: seen[0])
        fill(self.primary, 3)
        keeper.step()
        shown = _lines(
            self.trail, None, Question(until=MORNING + 2_000_000), True, lambda: len(looks) > 9
        )

        def waits(_: float) -> None:
            looks.append(len(looks))
            seen[0], now[0] = MORNING + len(looks) * 1_000_000, MORNING / 1e6 + len(looks) * 2
            keeper.step()

        with patch("pagelog.cli.trail_words.time.sleep", waits), patch(
            "pagelog.cli.trail_words.time.time", lambda: now[0]
        ):
            found = {line.seen for line in shown if isinstance(line, SeenLine)}
        self.assertEqual((found, len(looks)), ({MORNING, MORNING + 1_000_000}, 4))

    def test_a_recorder_that_is_killed_or_told_to_end(self) -> None:
        file = self.service.credentials_file(url=self.url)
        follow = (
            "record",
            "shop",
            "--credentials",
            file,
            "--table",
            TABLE,
            "--primary",
            2,
            "--follow",
            "--idle",
            "0.01",
        )
        for how, status in ((signal.SIGKILL, -signal.SIGKILL), (signal.SIGTERM, 0)):
            fill(self.primary, 200)
            process = words(*follow)
            assert process.stdout is not None
            self.assertIn("recorded", process.stdout.readline())
            fill(self.primary, 200)
            process.send_signal(how)
            process.communicate(timeout=PATIENCE)
            self.assertEqual(process.returncode, status)
            self.check_all_is_kept()
        self.assertEqual(len(self.trail.lists()), 1)

    def test_a_restart_is_shown(self) -> None:
        file = self.service.credentials_file(url=self.url)
        record = ("record", "shop", "--credentials", file)
        fill(self.primary, 9)
        ends(words(*record))
        self.service.restart()
        ends(words(*record))
        shown = ends(words("trail", "shop", "--url", self.url)).splitlines()
        [at] = [
            at
            for at, line in enumerate(shown)
            if re.search(
                r"list 1 ends behind line \d+, seen at .*: the service was restarted", line
            )
        ]
        self.assertTrue(
            all(" list 1: " in line for line in shown[:at])
            and all(" list 2: " in line for line in shown[at + 1 :])
        )
        self.assertIn("give both", ends(words("replay", "shop", "--url", self.url), 1))


class Times(unittest.TestCase):
    def test_a_time_of_day_is_the_last_that_has_passed(self) -> None:
        now = datetime(2026, 11, 28, 1, 0, tzinfo=timezone.utc)
        since = moment("23:50", None, now)
        self.assertEqual(since, datetime(2026, 11, 27, 23, 50, tzinfo=timezone.utc))
        self.assertEqual(
            moment("00:10", since, now), datetime(2026, 11, 28, 0, 10, tzinfo=timezone.utc)
        )
        self.assertEqual(
            moment("00:30:15", None, now), datetime(2026, 11, 28, 0, 30, 15, tzinfo=timezone.utc)
        )
        self.assertEqual(
            moment("2026-01-02T03:04+01:00", None, now),
            datetime(2026, 1, 2, 2, 4, tzinfo=timezone.utc),
        )
        self.assertRaises(ValueError, moment, "noon", None, now)
