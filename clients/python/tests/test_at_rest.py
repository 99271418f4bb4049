"""Trails and archives where clocks change, pieces are missing or taken away, and names are given again. No service is asked."""

from __future__ import annotations

import os
import signal
import subprocess
import sys
import tempfile
import time
import unittest
import zlib
from dataclasses import dataclass, field
from datetime import datetime, timedelta, timezone
from pathlib import Path
from types import SimpleNamespace
from unittest.mock import patch

from click.testing import CliRunner

from pagelog import Block, Put
from pagelog.archive import Archive
from pagelog.archive.care import drop
from pagelog.archive.archiving import Archiver
from pagelog.cli.options import status_of
from pagelog.cli.trail_words import _times
from pagelog.cli.words import pagelogctl
from pagelog.keeper.recorder import Recorder
from pagelog.referee.referee import Away, Doubt, KeeperError
from pagelog.reply import LINE_SIZE, Entry, encode_entry
from pagelog.request import AUDIT_MAX, Operation, Role
from pagelog.trail import BrokenTrail, Start, Trail, TrailKeeper, TrailList
from pagelog.trail.keeper import DAY
from pagelog.times import moment
from pagelog.trail.question import Question, answer
from pagelog.trail.replay import DENIED_TEXT, Difference, NotReplayable, lines_of, replay
from pagelog.trail.seal import seal, sealed_blocks
from pagelog.trail.statements import NEW_PIECE
from pagelog.trail.store import _PIECES, piece_behind
from pagelog_model.table import read
from service import PATIENCE, SOURCE, TABLE
from test_archive import change, row_of_piece

SUMMER = timezone(timedelta(hours=2))
WINTER = timezone(timedelta(hours=1))
WEST = timezone(-timedelta(hours=5))


class Times(unittest.TestCase):
    """The machine's zone has an hour more from the last Sunday of March to that of October."""

    def setUp(self) -> None:
        before = os.environ.get("TZ")
        self.addCleanup(time.tzset)
        self.addCleanup(
            lambda: os.environ.pop("TZ") if before is None else os.environ.update(TZ=before)
        )
        os.environ["TZ"] = "CET-1CEST,M3.5.0,M10.5.0/3"
        time.tzset()

    def test_a_time_of_another_season_is_by_the_rules_of_then(self) -> None:
        both = [
            int(datetime(2026, month, 1, 14, 5, tzinfo=zone).timestamp() * 1_000_000)
            for month, zone in ((1, WINTER), (7, SUMMER))
        ]
        self.assertEqual(
            _times("2026-01-01T14:05", "2026-07-01T14:05"), tuple(both)
        )  # whenever this is asked
        winter = datetime(2026, 11, 28, 12, 0)
        self.assertEqual(
            moment("2026-07-01T14:05", None, winter), datetime(2026, 7, 1, 14, 5, tzinfo=SUMMER)
        )
        self.assertEqual(
            moment("2026-01-31", None, datetime(2026, 7, 1, 14, 5)),
            datetime(2026, 1, 31, tzinfo=WINTER),
        )
        # The night before was summer still, and it begins again at 02:00.
        changed = datetime(2026, 10, 25, 10, 0)
        self.assertEqual(
            moment("23:00", None, changed), datetime(2026, 10, 24, 23, 0, tzinfo=SUMMER)
        )
        self.assertEqual(
            moment("09:59", None, changed), datetime(2026, 10, 25, 9, 59, tzinfo=WINTER)
        )
        self.assertEqual(
            moment("10:00", moment("23:00", None, changed), changed),
            datetime(2026, 10, 25, 10, 0, tzinfo=WINTER),
        )

    def test_a_time_of_day_in_a_zone_of_its_own_is_the_last_that_has_passed(self) -> None:
        for now, text, wanted in (
            (
                datetime(2026, 11, 28, 23, 30, tzinfo=WEST),
                "04:00Z",
                datetime(2026, 11, 29, 4, tzinfo=timezone.utc),
            ),
            (
                datetime(2026, 11, 29, 1, 0, tzinfo=SUMMER),
                "23:30Z",
                datetime(2026, 11, 27, 23, 30, tzinfo=timezone.utc),
            ),
        ):
            self.assertEqual(moment(text, None, now), wanted)
        since = datetime(2026, 11, 28, 23, 30, tzinfo=WEST)
        self.assertEqual(
            moment("04:31Z", since, since), datetime(2026, 11, 29, 4, 31, tzinfo=timezone.utc)
        )

    def test_digits_are_a_date_and_not_a_time_of_day(self) -> None:
        now = datetime(2026, 11, 28, 12, 0)
        self.assertEqual(moment("20261127", None, now), datetime(2026, 11, 27, tzinfo=WINTER))
        self.assertEqual(moment("11", None, now), datetime(2026, 11, 28, 11, 0, tzinfo=WINTER))
        self.assertRaises(ValueError, moment, "2026-11", None, now)


@dataclass
class Listed:
    """In the place of an operator: a service with an audit list, whose connection may be made again."""

    entries: list[Entry] = field(default_factory=list)
    connects: int = 1

    @property
    def connection(self) -> Listed:
        return self

    @property
    def credentials(self) -> Listed:
        return self

    id = 1

    def more(self, count: int) -> None:
        for _ in range(count):
            self.asked(2, Role.PRIMARY, Operation.STATUS, 0, 0)

    def asked(self, principal: int, role: Role, operation: Operation, a: int, b: int) -> None:
        self.entries.append(
            Entry(len(self.entries) + 1, 1, principal, role, 1, operation, a, b, 0, 0, 0)
        )

    def audit(self, first: int, max: int = AUDIT_MAX) -> tuple[Entry, ...]:
        found = tuple(self.entries[first - 1 : first - 1 + max])
        self.asked(self.id, Role.OPERATOR, Operation.AUDIT, first, max)
        return found

    def forget(self) -> None:
        pass


class Stored(unittest.TestCase):
    def setUp(self) -> None:
        self.folder = Path(self.enterContext(tempfile.TemporaryDirectory()))
        self.url = f"sqlite:///{self.folder}/archive.db"
        self.trail = self.enterContext(Trail(self.url, "shop", create=True))

    def keep(self, times: list[int], count: int = 3) -> TrailList:
        """A piece for each of these times."""
        one, pieces = self.trail.begin(), []
        for at in times:
            numbers = range(one.kept + 1, one.kept + count + 1)
            lines = (
                Entry(number, 1, 2, Role.PRIMARY, 1, Operation.STATUS, 0, 0, 0, 0, 0)
                for number in numbers
            )
            piece, one = piece_behind(one, b"".join(map(encode_entry, lines)), at)
            pieces.append(piece)
        for piece in pieces:
            change(self.trail, NEW_PIECE, **piece)
        change(
            self.trail,
            "UPDATE pagelog_trail_list SET kept = %(kept)s, seen = %(seen)s, digest = %(digest)s",
            kept=one.kept,
            seen=one.seen,
            digest=one.digest,
        )
        return one

    def take_out(self, first: int) -> None:
        self.assertEqual(
            change(
                self.trail, "DELETE FROM pagelog_trail_piece WHERE first = %(first)s", first=first
            ),
            1,
        )


class Long(Stored):
    def test_a_piece_may_have_more_lines_than_a_reply(self) -> None:
        """As the last one of a generation whose lines were behind."""
        service = Listed()
        service.more(2 * AUDIT_MAX + 1)
        recorder = Recorder.__new__(Recorder)
        recorder._operator, recorder._is_over, recorder._keeper = service, False, TrailKeeper(service, self.trail)  # type: ignore[assignment, arg-type]
        recorder._keeper.resume(self.trail.begin())
        lines = recorder.last_lines()
        assert lines is not None
        self.trail.keep(
            self.trail.lists()[0], zlib.decompress(lines.values["data"]), lines.one.seen
        )
        [one] = self.trail.lists()
        self.assertGreater(one.kept, 2 * AUDIT_MAX)
        self.assertEqual(
            [found.entry for found in answer(self.trail, one, Question())],
            service.entries[: one.kept],
        )
        service.connects += 1
        TrailKeeper(service, self.trail).step()  # type: ignore[arg-type]
        self.assertEqual(len(self.trail.lists()), 1)


class Missing(Stored):
    def test_a_piece_that_is_missing_in_a_time_is_found(self) -> None:
        """Pieces of lines 1, 4, 7, 10 and 13, seen at 10 to 50: those of a time are 7 and 10."""
        one = self.keep([10, 20, 30, 40, 50])
        for times, pieces in (
            (dict(since=30, until=50), [7, 10]),
            (dict(since=30), [7, 10, 13]),
            (dict(until=30), [1, 4]),
            (dict(since=60), []),
            (dict(until=10), []),
            (dict(since=11, until=19), []),
        ):
            self.assertEqual([piece.first for piece in self.trail.pieces(one, **times)], pieces)
        for gone, times in (
            (7, dict(since=30, until=50)),
            (7, dict(since=30)),
            (10, dict(since=30, until=50)),
            (4, dict(until=30)),
            (1, dict(until=20)),
            (13, dict(since=60)),
            (13, dict(since=30)),
        ):
            with self.subTest(gone=gone, **times):
                kept = row_of_piece(self.trail, gone)
                self.take_out(gone)
                with self.assertRaises(BrokenTrail) as raised:
                    list(self.trail.pieces(one, **times))
                self.assertEqual(raised.exception.line, gone)
                change(self.trail, NEW_PIECE, **kept)

    def test_a_time_that_was_changed_is_found(self) -> None:
        one = self.keep([10, 20, 30, 40])
        for first, seen, times in (
            (7, 25, dict(since=30)),
            (7, 45, dict(since=30, until=40)),
            (4, 99, dict(until=30)),
        ):
            before = row_of_piece(self.trail, first)["seen"]
            change(
                self.trail,
                "UPDATE pagelog_trail_piece SET seen = %(seen)s WHERE first = %(first)s",
                first=first,
                seen=seen,
            )
            with self.assertRaises(BrokenTrail):
                list(self.trail.pieces(one, **times))
            change(
                self.trail,
                "UPDATE pagelog_trail_piece SET seen = %(seen)s WHERE first = %(first)s",
                first=first,
                seen=before,
            )


class Named(Stored):
    def test_a_list_that_has_another_name_by_now_is_ended_and_no_other(self) -> None:
        old, new = (TrailKeeper(Listed(), self.trail, generation=generation) for generation in (1, 1))  # type: ignore[arg-type]
        old.step()
        change(self.trail, "UPDATE pagelog_trail_list SET log = 'shop!1'")  # as a drop does
        new.step()
        old.end("generation 1 was released: the database was dropped")
        with Trail(self.url, "shop!1") as dropped:
            self.assertEqual(
                [one.ended for one in (*dropped.lists(), *self.trail.lists())],
                ["generation 1 was released: the database was dropped", None],
            )
        new.step()
        self.assertEqual(len(self.trail.lists()), 1)

    def test_the_first_reason_stays(self) -> None:
        one = self.keep([50])
        self.trail.end(one, "one", 40)
        self.trail.end(one, "other", 90)
        [one] = self.trail.lists()
        self.assertEqual((one.ended, one.ended_seen), ("one", 50))


class Texts(Stored):
    """A table is set, and a text of the same length is denied later."""

    def setUp(self) -> None:
        super().setUp()
        self.text = TABLE.read_bytes()
        self.denied = (
            self.text.replace(b"deny", b"dent", 1)
            if b"deny" in self.text
            else self.text.replace(b"allow", b"allot", 1)
        )
        self.code = read(self.denied)
        self.assertIsInstance(self.code, int)
        self.one = self.trail.begin(start=Start(self.text, 2), tables=[self.text])
        lines = ((0, 0, 0), (3, 7, self.code), (3, 7, self.code))
        entries = (
            Entry(number, 1, 1, Role.OPERATOR, 1, Operation.SET_TABLE, len(self.text), 0, *verdict)
            for number, verdict in enumerate(lines, 1)
        )
        self.one = self.trail.keep(self.one, b"".join(map(encode_entry, entries)), 5)

    def test_a_denied_text_need_not_be_one_of_its_length_that_was_set(self) -> None:
        self.assertEqual(replay(self.trail, self.one, None).unchecked, {DENIED_TEXT: 2})
        self.trail.give_table(self.one, self.denied, 3)
        self.assertEqual(replay(self.trail, self.one, None).unchecked, {DENIED_TEXT: 1})

    def test_but_one_that_was_given_for_its_line_is(self) -> None:
        self.trail.give_table(self.one, self.text, 3)
        with self.assertRaises(Difference) as raised:
            replay(self.trail, self.one, None)
        self.assertEqual(raised.exception.line, 3)


class Logs(unittest.TestCase):
    def test_a_log_that_is_archived_again_after_a_drop_is_sealed_anew(self) -> None:
        url = f"sqlite:///{self.enterContext(tempfile.TemporaryDirectory())}/archive.db"
        for what in (b"one", b"two"):
            with Archive(url, "shop", create=True) as archive, Trail(
                url, "shop", create=True
            ) as trail:
                for first in (1, 4):
                    archive.keep(
                        [Block.of(lsn, [Put(0, 0, what)]) for lsn in range(first, first + 3)], 1
                    )
                    seal(trail, archive)
                self.assertEqual(
                    (len(list(sealed_blocks(trail, archive))), sorted(trail.seals())), (6, [3, 6])
                )
                self.assertEqual(drop(archive), 6)
        with Archive(url, "bare", create=True) as archive:
            self.assertEqual(drop(archive), 0)

    def test_a_drop_needs_no_trail(self) -> None:
        url = f"sqlite:///{self.enterContext(tempfile.TemporaryDirectory())}/archive.db"
        with Archive(url, "shop", create=True) as archive:
            archive.keep([Block.of(1)], 1)
            self.assertEqual(drop(archive), 1)


class Ends(Stored):
    """What a word says, and its exit status."""

    def ends(self, status: int, *arguments: object) -> str:
        done = CliRunner().invoke(pagelogctl, [*map(str, arguments)])
        self.assertEqual(
            (done.exit_code, done.exception.__class__),
            (status, SystemExit),
            (done.output, done.exc_info),
        )
        return done.output

    def test_credentials_that_cannot_be_read_are_a_line(self) -> None:
        for word in ("trail", "replay"):
            self.assertIn(
                "none.toml",
                self.ends(
                    1, word, "shop", "--url", self.url, "--credentials", self.folder / "none.toml"
                ),
            )

    def test_a_word_whose_output_is_closed_does_its_work(self) -> None:
        with Archive(self.url, "0", create=True) as archive:
            archive.keep([Block.of(1)], 1)
        command = [
            sys.executable,
            "-B",
            "-m",
            "pagelog",
            "drop",
            "--log",
            "0",
            "--yes",
            "--url",
            self.url,
            "--credentials",
            os.devnull,
        ]
        done = subprocess.run(
            ["sh", "-c", '"$@" >&-', "sh", *command],
            stderr=subprocess.PIPE,
            timeout=PATIENCE,
            env={**os.environ, "PYTHONPATH": str(SOURCE)},
        )
        goes = f"to be deleted: log 0 of {self.url}\n  LSN 1 to 1: 1 block of {len(Block.of(1).data)} bytes, highest epoch 1\n  it has no trail, and so no times\n"
        self.assertEqual((done.returncode, done.stderr.decode()), (0, goes))

    def test_a_picture_that_cannot_be_written_is_a_line(self) -> None:
        self.keep([5])
        module = SimpleNamespace(draw=lambda *_: (self.folder / "none" / "shop.svg").write_text(""))
        with patch.dict(
            "sys.modules", {"pygal": SimpleNamespace(), "pagelog.cli.trail_plot": module}
        ):
            said = self.ends(
                1, "trail", "shop", "--url", self.url, "--plot", self.folder / "none" / "shop.svg"
            )
        self.assertIn("shop.svg: No such file or directory", said)

    def test_an_archive_that_was_told_to_end_amid_it_is_not_done(self) -> None:
        file = self.folder / "c.toml"
        file.write_text(
            "".join(
                f'[{role}]\nto = "127.0.0.1:1"\nid = {id}\ntoken = "{str(id) * 32}"\n'
                for role, id in (("secondary", 3), ("operator", 1))
            )
        )
        file.chmod(0o600)
        for number in (signal.SIGTERM, signal.SIGINT):

            def told(_: object, **__: object) -> int:
                os.kill(os.getpid(), number)
                return 5

            with patch.object(Archiver, "run", told):
                self.assertIn(
                    "archived 0 of 0",
                    self.ends(128 + number, "archive", "--credentials", file, "--url", self.url),
                )
            with patch.object(TrailKeeper, "run", told), patch.object(
                TrailKeeper, "step", lambda _: None
            ):
                self.ends(128 + number, "record", "shop", "--credentials", file, "--url", self.url)

    def test_a_postgresql_that_is_away_or_in_doubt_is_tried_again(self) -> None:
        for kind in (Away, Doubt):
            self.assertEqual(status_of(kind("PostgreSQL: it is silent")), 3)
        self.assertEqual(status_of(KeeperError("there is none")), 1)


class Pruned(Stored):
    def test_what_is_pruned_while_it_is_read_is_no_damage(self) -> None:
        one = self.keep([5] * (_PIECES + 9) + [DAY + 5] * 3)
        stale, reading = self.trail.lists()[0], answer(self.trail, one, Question())
        self.assertEqual(next(reading).entry.number, 1)
        replaying = lines_of(self.trail, one)
        next(iter(replaying))
        self.trail.prune(DAY)
        days = [one.kept - 3 * 3 + 1 + at for at in range(9)]
        for since in (None, 6):
            self.assertEqual(
                [found.entry.number for found in answer(self.trail, stale, Question(since=since))],
                days,
            )
        rest = [found.entry.number for found in reading]
        self.assertEqual((rest[-9:], rest[:-9]), (days, list(range(2, 3 * _PIECES + 1))))
        with self.assertRaisesRegex(NotReplayable, "taken away"):
            list(replaying)
        self.take_out(days[3])
        with self.assertRaises(BrokenTrail):
            list(answer(self.trail, stale, Question()))

    def test_a_keeper_goes_on_over_a_new_connection_once_days_were_taken_away(self) -> None:
        times = iter([5, DAY + 5, DAY + 6, DAY + 7])
        service = Listed()
        keeper = TrailKeeper(service, self.trail, clock=lambda: next(times))  # type: ignore[arg-type]
        ends = iter([False, False, True])
        service.more(3)
        keeper.step()
        service.more(3)
        keeper.run(follow=True, idle=0, keep=1, stop=lambda: next(ends))
        service.connects += 1
        service.more(3)
        keeper.step()
        [one] = self.trail.lists()
        self.assertEqual(
            (one.ended, one.pruned, one.kept * LINE_SIZE),
            (None, 3, len(b"".join(map(encode_entry, service.entries[: one.kept])))),
        )
        self.assertGreater(one.kept, 9)


if __name__ == "__main__":
    unittest.main()
