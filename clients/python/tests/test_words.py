"""Subcommands that delete say first what goes, and ask; and what restore, list and switchover say of what is not there."""

from __future__ import annotations

import fcntl
import os
import pty
import re
import struct
import subprocess
import sys
import termios
import time
import unittest
from datetime import datetime, timedelta, timezone
from unittest.mock import patch

import psycopg
from click.testing import CliRunner

from keepers import Kept, Trigger, eventually, new_database, new_url
from pagelog.cli.words import WORDS, pagelogctl
from pagelog.referee.bases import make_base
from pagelog.referee.referee import Referee, digest
from service import PATIENCE, SOURCE

INDIA = "Asia/Kolkata"
"""A zone of +05:30, at all times."""
_IN_BOTH = r"\d{4}-\d\d-\d\d \d\d:\d\d:\d\d(?:\.\d{3})?\+05:30 \(\d{4}-\d\d-\d\d \d\d:\d\d:\d\d(?:\.\d{3})? UTC\)"


class Words(Kept):
    keepers = "a"

    def ran(self, *words: object, zone: str = INDIA) -> tuple[int, str, str]:
        """Status, output and errors of a subcommand without a terminal, in a zone."""
        with patch.dict(os.environ, TZ=zone, COLUMNS="80"):
            time.tzset()
            done = CliRunner(mix_stderr=False).invoke(
                pagelogctl, [*map(str, words), "--credentials", str(self.keeping.file)]
            )
        time.tzset()
        if done.exception is not None and not isinstance(done.exception, SystemExit):
            raise done.exception
        return done.exit_code, done.stdout, done.stderr

    def at_terminal(self, *words: object, answer: str = "", columns: int = 80) -> tuple[int, str]:
        """Status and text of a subcommand at a terminal, where this is typed."""
        terminal, side = pty.openpty()
        fcntl.ioctl(side, termios.TIOCSWINSZ, struct.pack("HHHH", 24, columns, 0, 0))
        environment = {**self.keeping.environment, "TZ": INDIA, "TERM": "xterm"}
        environment.pop("COLUMNS", None)
        command = [
            sys.executable,
            "-B",
            "-m",
            "pagelog",
            *map(str, words),
            "--credentials",
            str(self.keeping.file),
        ]
        process = subprocess.Popen(command, env=environment, stdin=side, stdout=side, stderr=side)
        os.close(side)
        os.write(terminal, f"{answer}\n".encode())
        said = b""
        try:
            while some := os.read(terminal, 65536):
                said += some
        except OSError:
            pass  # nobody has the other side any more
        os.close(terminal)
        return process.wait(PATIENCE), re.sub(r"\x1b\[[0-9;]*m", "", said.decode()).replace(
            "\r\n", "\n"
        )


class OlderNames(unittest.TestCase):
    """What had another name in 0.1.0 is read by that for one version, and shown by the new one alone."""

    def test_subcommands_are_read_by_their_older_names_too(self) -> None:
        for older, name in (("kept", "list"), ("succeed", "rollover")):
            by_older, by_name = (
                CliRunner().invoke(pagelogctl, [word, "--help"]) for word in (older, name)
            )
            self.assertEqual((by_older.exit_code, by_name.exit_code), (0, 0))
            self.assertEqual(
                by_older.output, by_name.output.replace(f"ctl {name} [", f"ctl {older} [")
            )
            self.assertNotIn(older, WORDS)
            self.assertNotRegex(
                CliRunner().invoke(pagelogctl, ["--help"]).output, rf"(?m)^  {older} "
            )

    def test_options_of_keep_are_read_by_their_older_names_too(self) -> None:
        words = ["keep", "--name", "a", "--folder", "f", "--credentials", os.devnull]
        no_url = "named databases need PostgreSQL"
        for more, status, said in (
            (("--listen", "h:1", "--service-host", "h"), 1, no_url),
            (("--lines", "h:1", "--serve", "h"), 1, no_url),
            (("--lines=h:1", "--service-host=h"), 1, no_url),
            (("--lines", "h:1"), 2, "Missing option '--service-host'"),
            (("--serve", "h"), 2, "Missing option '--listen'"),
        ):
            with self.subTest(more):
                done = subprocess.run(
                    [sys.executable, "-B", "-m", "pagelog", *words, *more],
                    env={
                        **os.environ,
                        "PYTHONPATH": str(SOURCE),
                        "PAGELOG_ARCHIVE_URL": "sqlite:///none",
                    },
                    capture_output=True,
                    text=True,
                )
                self.assertEqual(done.returncode, status)
                self.assertIn(said, done.stderr)
        help = CliRunner().invoke(pagelogctl, ["keep", "--help"]).output
        self.assertRegex(help, "--listen HOST:PORT")
        self.assertNotRegex(help, "--(lines|serve)\b")


class Archived(Words):
    def setUp(self) -> None:
        """Ten positions, and a base at the seventh. `between` is a time between the fifth and the sixth."""
        super().setUp()
        with self.keeping.primary() as primary:
            for number in range(1, 11):
                self.commit(primary, f"{number}", durable=True)
                if number == 5:
                    self.between = self.clock()
        row = self.keeping.row()
        make_base(self.keeping.referee, row.id, 7, digest(b"", self.keeping.archive()[:7]))

    def clock(self) -> datetime:
        """PostgreSQL's, between two commits: no time is noted of both."""
        with psycopg.connect(self.keeping.url) as connection:
            [[now]] = connection.execute("SELECT clock_timestamp()").fetchall()
        assert isinstance(now, datetime)
        return now

    def count(self, table: str = "pagelog_block") -> int:
        with psycopg.connect(self.keeping.url) as connection:
            [[count]] = connection.execute(
                f"SELECT count(*) FROM {table} t JOIN pagelog_log l ON t.log = l.id WHERE l.name LIKE 'shop%'"
            ).fetchall()
        return int(count)

    def test_prune_without_keep_deletes_nothing(self) -> None:
        for more in ((), ("--yes",)):
            status, out, error = self.ran("prune", "shop", *more)
            self.assertEqual((status, out), (2, ""))
            self.assertRegex(
                error,
                f"nothing was deleted: .*--keep.* shop has positions 0 to 10, from {_IN_BOTH} to {_IN_BOTH}, and 1 base\n",
            )
        self.assertEqual((self.count(), self.count("pagelog_base")), (10, 1))

    def test_prune_says_what_goes_and_asks(self) -> None:
        goes = (
            f"to be deleted: 7 blocks and 0 bases of shop, with positions 0 to 6, from {_IN_BOTH} to {_IN_BOTH}: none of these can be restored "
            f"then\nkept: positions 7 to 10, from {_IN_BOTH} to {_IN_BOTH}\n"
        )
        status, out, error = self.ran("prune", "shop", "--keep", 1)
        self.assertEqual((status, out), (2, ""))
        self.assertRegex(
            error,
            f"^{goes}pagelogctl: nothing was done: there is no terminal to ask at; --yes does it without a question\n$",
        )
        status, said = self.at_terminal("prune", "shop", "--keep", 1, answer="n")
        self.assertEqual((status, self.count()), (1, 10))
        self.assertRegex(said, goes)
        status, said = self.at_terminal("prune", "shop", "--keep", 1, answer="y")
        self.assertEqual((status, self.count()), (0, 3))
        self.assertRegex(said, f"(?s){goes}.*pruned 7 blocks: positions from 7 on are kept\n$")
        self.assertEqual(
            self.ran("prune", "shop", "--keep", 1),
            (0, "pruned 0 blocks: positions from 7 on are kept\n", ""),
        )

    def test_prune_takes_keep_of_the_credentials_also_in_quotes(self) -> None:
        self.keeping.file.write_text(
            self.keeping.file.read_text().replace("[keeper]", 'keep = "1"\n[keeper]')
        )
        status, out, error = self.ran("prune", "shop", "--yes", zone="UTC")
        self.assertEqual((status, out), (0, "pruned 7 blocks: positions from 7 on are kept\n"))
        self.assertRegex(
            error,
            r"^to be deleted: 7 blocks .* positions 0 to 6, from [-0-9]+ [.:0-9]+ UTC to [-0-9]+ [.:0-9]+ UTC: ",
        )

    def test_restore_refuses_what_is_not_there_and_says_what_is(self) -> None:
        has = f"positions 0 to 10, from {_IN_BOTH} to {_IN_BOTH}\n"
        later = (self.clock() + timedelta(days=1)).isoformat()
        for at, why in (
            ("11", f"position 11 of shop is not kept; it has {has}"),
            ("9" * 19, f"position {'9' * 19} of shop is not kept; it has {has}"),
            (
                "2001-02-03T04:05",
                "nothing of shop is kept from 2001-02-03 04:05:00\\+05:30 \\(2001-02-02 22:35:00 UTC\\); it has "
                + has,
            ),
            (later, f"{_IN_BOTH} is later than PostgreSQL's clock; shop has {has}"),
            ("9" * 30, "neither a position nor a time as 14:05"),
            ("0001-01-01", "neither a position nor a time as 14:05"),
            ("9999-12-31T23:59:59-05:00", "neither a position nor a time as 14:05"),
            ("then", "neither a position nor a time as 14:05"),
        ):
            with self.subTest(at=at):
                status, out, error = self.ran("restore", "shop", "--at", at)
                self.assertEqual((status, out), (1, ""))
                self.assertRegex(error, why)
                self.assertNotIn("Traceback", error)
        self.assertEqual(
            [row.name for row in self.keeping.referee.everything().rows if not row.dropped],
            ["shop"],
        )

    def test_restore_takes_a_time_of_this_machine_and_says_it_in_both_zones(self) -> None:
        utc = self.between.astimezone(timezone.utc)
        here = utc + timedelta(hours=5, minutes=30)
        for to, at in (
            ("day", here.replace(tzinfo=None).isoformat()),
            ("hour", here.strftime("%H:%M:%S.%f")),
            ("zone", utc.isoformat()),
        ):
            with self.subTest(at=at):
                status, out, error = self.ran("restore", "shop", "--at", at, "--as", to)
                self.assertEqual((status, error), (0, ""))
                self.assertRegex(
                    out,
                    f"^at {_IN_BOTH} shop was archived up to position 5\n{to} is shop at position 5, for readers\n$",
                )
                self.assertIn(f"at {here:%Y-%m-%d %H:%M:%S}.", out)
                self.assertIn(f" ({utc:%Y-%m-%d %H:%M:%S}.", out)

    def test_restore_takes_back_the_times_that_it_has_said(self) -> None:
        self.ran("prune", "shop", "--keep", 1, "--yes")
        _, _, error = self.ran("restore", "shop", "--at", 3)
        first, _ = re.findall(r"from (\S+ \S+) \(.* to (\S+ \S+) \(", error)[0]
        self.assertIn("for readers", self.ran("restore", "shop", "--at", first)[1])
        self.assertIn(
            "nothing of shop is kept from",
            self.ran("restore", "shop", "--at", self.between.isoformat())[2],
        )

    def test_drop_says_what_goes_and_asks(self) -> None:
        place = self.keeping.place()
        goes = (
            f"to be deleted: database shop, .*with its table\n  positions 0 to 10, from {_IN_BOTH} to {_IN_BOTH}; 1 base\n"
            f"  held by a at {place.address}, generation {place.generation}\n  it has no trail\n"
        )
        status, out, error = self.ran("drop", "shop")
        self.assertEqual((status, out, self.count()), (2, "", 10))
        self.assertRegex(
            error, f"^{goes}pagelogctl: nothing was done: there is no terminal to ask at"
        )
        status, said = self.at_terminal("drop", "shop", answer="n")
        self.assertEqual((status, self.count(), self.keeping.place()), (1, 10, place))
        self.assertRegex(said, goes)
        status, said = self.at_terminal("drop", "shop", answer="y")
        self.assertEqual((status, self.count()), (0, 0))
        self.assertRegex(said, f"(?s){goes}.*dropped shop\n$")

    def test_what_a_broken_drop_has_left_is_counted_and_asked_for(self) -> None:
        row = self.keeping.row()
        with psycopg.connect(self.keeping.url) as connection:
            connection.execute(
                "UPDATE pagelog_log SET dropped = true, name = name || '!' || id, run = NULL, holder = NULL WHERE id = %s",
                (row.id,),
            )
        status, _, error = self.ran("drop", "shop")
        self.assertEqual((status, self.count()), (2, 10))
        self.assertRegex(
            error,
            "^to be deleted: what is left of shop, whose drop was broken off: 10 blocks, [1-9][0-9]* images?, 1 base, 1 table\n",
        )
        self.assertEqual(self.ran("drop", "shop", "--yes")[:2], (0, "dropped shop\n"))
        self.assertEqual(
            (self.count(), *self.ran("drop", "shop", "--yes")),
            (0, 1, "", "pagelogctl: there is no database shop\n"),
        )


class Listed(Words):
    def test_list_is_readable_in_80_columns_and_in_a_pipe(self) -> None:
        name = "n" * 63
        self.keeping.word("create", name, "--table", self.keeping.table)
        eventually(lambda: self.keeping.row(name).address is not None, "its service")
        self.keeping.word("pause", "shop")
        words = ["name", "state", "generation", "holder", "position", "lag", "why"]

        def lines() -> list[str]:
            return self.ran("list")[1].splitlines()

        eventually(
            lambda: any(
                line.startswith("shop ") and line.endswith(" serves; paused") for line in lines()
            ),
            "what is decided of it",
        )
        head, *rows = lines()
        self.assertEqual(head.split(), words)
        cells = {row.split()[0]: re.split("  +", row) for row in rows[:2]}
        generation = str(self.keeping.row().generation)
        self.assertEqual(
            cells["shop"], ["shop", "serving, paused", generation, "a", "0", "0", "serves; paused"]
        )
        self.assertEqual(cells[name][:1] + cells[name][3:6], [name, "a", "0", "0"])
        _, said = self.at_terminal("list")
        self.assertLessEqual(max(map(len, said.splitlines()[1:])), 80)
        self.assertNotIn("…", said)
        for word in (*words, "serving,", "serves; paused", name[:5]):
            self.assertIn(word, said)

    def test_list_has_more_where_it_is_asked_for(self) -> None:
        place = self.keeping.place()
        head, row, *_ = self.ran("list", "--wide")[1].splitlines()
        self.assertEqual(
            re.split("  +", head)[6:-1],
            [
                "place",
                "oldest",
                "base",
                "stored",
                "standbys",
                "pages",
                "entries left",
                "memory left",
            ],
        )
        self.assertIn(f" {place.address} ", row)


class Switched(Words):
    def setUp(self) -> None:
        self.options = {"url": new_url()}  # where no earlier keeper is known
        super().setUp()

    def test_a_switchover_without_another_keeper_is_refused(self) -> None:
        self.keeping.place()
        self.assertEqual(
            self.ran("switchover", "shop"),
            (1, "", "pagelogctl: shop stays with a: there is no other keeper\n"),
        )
        dead = Referee(self.keeping.url, "b", "a life that is over")
        self.addCleanup(dead.close)
        dead.register("127.0.0.1:1")
        for to in ((), ("--to", "b")):
            self.assertEqual(
                self.ran("switchover", "shop", *to),
                (3, "", "pagelogctl: shop stays with a: no heartbeat came in 1.5 s from b\n"),
            )
        self.assertEqual(
            self.ran("switchover", "shop", "--to", "c")[2], "pagelogctl: there is no keeper c\n"
        )
        self.assertEqual(
            self.ran("switchover", "shop", "--to", "a"),
            (0, "a holds shop already: nothing was asked for\n", ""),
        )
        self.assertIsNone(self.keeping.row().wanted)

    def test_a_switchover_is_shown_and_cancelled(self) -> None:
        self.keeping.place()
        self.keeping.start("b")
        self.keeping.word("pause", "shop")
        for to, whom in ((("--to", "b"), "b"), ((), "another keeper")):
            said = (
                f"asked for shop to go to {whom}, which waits until it is resumed: it is paused\n"
            )
            self.assertEqual(self.ran("switchover", "shop", *to), (0, said, ""))
            self.assertIn(f"paused, switchover to {whom}  ", self.ran("list")[1])
            self.assertEqual(
                self.ran("switchover", "shop", "--cancel"),
                (0, f"cancelled the switchover of shop to {whom}\n", ""),
            )
            self.assertEqual(
                self.ran("switchover", "shop", "--cancel"),
                (0, "no switchover of shop is asked for: nothing was cancelled\n", ""),
            )
            self.assertNotIn("switchover", self.ran("list")[1])
        self.assertEqual(self.ran("switchover", "shop", "--cancel", "--to", "b")[0], 2)
        self.assertEqual(self.ran("switchover", "none", "--cancel")[0], 1)
        self.keeping.word("resume", "shop")
        self.assertEqual(self.keeping.row().holder, "a")

    def test_a_switchover_to_a_keeper_that_lives_is_done(self) -> None:
        before = self.keeping.place()
        self.keeping.start("b")
        self.assertEqual(
            self.ran("switchover", "shop"), (0, "asked for shop to go to another keeper\n", "")
        )
        self.assertGreater(
            self.keeping.place(least=before.generation + 1).generation, before.generation
        )
        self.assertEqual((self.keeping.row().holder, self.keeping.row().wanted), ("b", None))


class Refusals(unittest.TestCase):
    """What a subcommand says where PostgreSQL refuses its statement."""

    def setUp(self) -> None:
        self.url = new_url()
        self.referee = Referee(self.url)
        self.addCleanup(self.referee.close)
        new_database(self.referee, "shop")

    def pause(self, url: str) -> tuple[int, str]:
        """Status and errors."""
        with patch.dict(os.environ, PAGELOG_ARCHIVE_URL=url):
            done = CliRunner(mix_stderr=False).invoke(
                pagelogctl, ["pause", "shop", "--credentials", os.devnull]
            )
        return done.exit_code, done.stderr

    def test_what_is_locked_may_be_tried_again(self) -> None:
        with psycopg.connect(self.url) as other:
            other.execute("SELECT FROM pagelog_log FOR UPDATE")
            status, error = self.pause(self.url)
        self.assertEqual(status, 3)
        self.assertRegex(error, "lock timeout: another session has it locked\n$")
        self.assertEqual(self.pause(self.url), (0, ""))

    def test_without_its_tables_somebody_has_to_make_them(self) -> None:
        with psycopg.connect(self.url) as boss:
            boss.execute("DROP TABLE pagelog_log CASCADE")
        status, error = self.pause(self.url)
        self.assertEqual(status, 1)
        self.assertIn("is there a keeper yet", error)

    def test_any_other_refusal_has_its_own_reason(self) -> None:
        trigger = Trigger(
            self.url,
            "pagelog_log",
            "UPDATE ON pagelog_log FOR EACH STATEMENT",
            "RAISE EXCEPTION 'not today'",
        )
        self.addCleanup(trigger.close)
        status, error = self.pause(self.url)
        self.assertEqual((status, error), (1, "pagelogctl: PostgreSQL: not today\n"))


class Identities(unittest.TestCase):
    def test_drop_says_the_identity_if_there_is_one(self) -> None:
        url = new_url()
        referee = Referee(url)
        self.addCleanup(referee.close)
        row = new_database(referee, "shop")
        identity = "0e984725-c51c-4bf4-9960-e1c80e27aba0"
        referee._connected().execute(
            "ALTER TABLE pagelog_log ADD COLUMN IF NOT EXISTS identity text"
        )
        referee._connected().execute(
            "UPDATE pagelog_log SET identity = %s WHERE id = %s", (identity, row.id)
        )
        with patch.dict(os.environ, PAGELOG_ARCHIVE_URL=url):
            done = CliRunner(mix_stderr=False).invoke(
                pagelogctl, ["drop", "shop", "--credentials", os.devnull]
            )
        self.assertEqual(done.exit_code, 2)
        self.assertIn(
            f"database shop, identity {identity}, with its table\n  position 0 alone, at which it is empty; 0 bases\n  held by no keeper\n",
            done.stderr,
        )
