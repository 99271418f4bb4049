"""A trail is decided again line by line, and what was changed by hand is found."""

from __future__ import annotations

import hashlib
import socket
import sys
import tempfile
import unittest
import zlib
from collections import Counter
from pathlib import Path
from typing import Any, Callable
from unittest import mock

import pagelog
from pagelog import Block, Zero
from pagelog.archive import Archive, DamagedArchive
from pagelog.archive.session import Row
from pagelog.keeping import Archiver, OtherLog
from pagelog.reply import LINE_SIZE
from pagelog.trail import BrokenTrail, Start, Trail, TrailKeeper, TrailList
from pagelog.trail.logs import ArchivedLog
from pagelog.trail.pages import compare_pages
from pagelog.trail.replay import (
    ANNULLED_BLOCK,
    DENIED_TEXT,
    UNARCHIVED_BLOCK,
    Difference,
    NotReplayable,
    TrailReplay,
    Replayed,
    lines_of,
    replay,
)
from pagelog.trail.seal import seal
from pagelog.trail.statements import NEW_PIECE
from pagelog.trail.store import NO_DIGEST
from pagelog_model.bodies import MalformedBody, read_request
from pagelog_model.lines import read_lines
from service import IS_LONG, PATIENCE, TOP, WIDE_TABLE, Service, fill, put
from test_archive import change, row_of_piece, words
from test_looking import ends

sys.path.append(str(TOP / "scripts"))
import tables  # noqa: E402
import trial  # noqa: E402
import wire  # noqa: E402

RANDOM_LINES = 100_000 if IS_LONG else 10_000
# By its first row the block of a write decides.
BY_BLOCKS = WIDE_TABLE.replace(
    "[[row]]", '[[row]]\nverdict = "deny"\nop = ["write"]\nfrom = 4\nto = 4\n[[row]]', 1
)


class Replays(unittest.TestCase):
    """A trail and an archive beside it."""

    def setUp(self) -> None:
        self.folder = Path(self.enterContext(tempfile.TemporaryDirectory()))
        self.url = f"sqlite:///{self.folder}/archive.db"
        self.trail = self.enterContext(Trail(self.url, "shop", create=True))
        self.archive = self.enterContext(Archive(self.url, "shop", create=True))

    def replay(self, **options: Any) -> Replayed:
        return replay(
            self.trail, self.trail.lists()[-1], ArchivedLog(self.trail, self.archive), **options
        )

    def run_sql(self, statement: str, **values: object) -> None:
        change(self.trail, statement, **values)

    def change_piece(self, line: int, **values: object) -> None:
        """The piece with this first line gets these values."""
        for name, value in values.items():
            self.run_sql(
                f"UPDATE pagelog_trail_piece SET {name} = %(value)s WHERE first = %(line)s",
                line=line,
                value=value,
            )

    def change_block(self, lsn: int, data: bytes, crc: int) -> None:
        self.run_sql(
            "UPDATE pagelog_block SET data = %(data)s, crc = %(crc)s WHERE lsn = %(lsn)s",
            lsn=lsn,
            data=data,
            crc=crc,
        )

    def change_texts(self, line: int, text: bytes, digest: str | None = None) -> None:
        self.run_sql(
            "UPDATE pagelog_trail_text SET text = %(text)s, digest = COALESCE(%(digest)s, digest) WHERE line = %(line)s",
            line=line,
            text=text,
            digest=digest,
        )

    def rewrite(self, edit: Callable[[list[bytes]], list[bytes]]) -> None:
        """Writes the last list again with its lines edited, and all digests made again, as one who knows how would."""
        one = self.trail.lists()[-1]
        data = self.trail.lines(one, 1)
        lines = edit([data[at : at + LINE_SIZE] for at in range(0, len(data), LINE_SIZE)])
        self.run_sql("DELETE FROM pagelog_trail_piece WHERE list = %(list)s", list=one.id)
        self.run_sql(
            "UPDATE pagelog_trail_list SET kept = 0, digest = %(digest)s WHERE id = %(list)s",
            list=one.id,
            digest=NO_DIGEST,
        )
        again: TrailList = self.trail.lists()[-1]
        for at in range(0, len(lines), 100):
            again = self.trail.keep(again, b"".join(lines[at : at + 100]), one.seen)

    def check_difference(self, number: int, edit: Callable[[list[bytes]], list[bytes]]) -> str:
        """The replay names this line once the lines were edited. They are put back then."""
        before: list[bytes] = []
        self.rewrite(lambda lines: edit(before.extend(lines) or list(lines)))  # type: ignore[func-returns-value]
        with self.assertRaises(Difference) as raised:
            self.replay()
        self.rewrite(lambda _: before)
        self.assertEqual(raised.exception.line, number)
        return str(raised.exception)


# What the test command asks, and its oracle.


def ask_all(address: str, bodies: list[bytes]) -> list[bytes]:
    """The replies to bodies that are asked over one connection, 64 at a time."""
    host, _, port = address.rpartition(":")
    replies = []
    with socket.create_connection((host, int(port)), PATIENCE) as connection, connection.makefile(
        "rb"
    ) as coming:
        for at in range(0, len(bodies), 64):
            part = bodies[at : at + 64]
            connection.sendall(b"".join(wire.frame(wire.to_database(body, 0)) for body in part))
            replies += [coming.read(int.from_bytes(coming.read(4), "big")) for _ in part]
    return replies


def texts_by_line(database: Any) -> dict[int, bytes]:
    """The text of each set_table that made a line, by the line's number."""
    found: dict[int, bytes] = {}
    line = 0
    for body, reply in zip(database.asked, database.replies):
        try:
            q = read_request(body)
        except MalformedBody:
            continue
        if reply == b"\7" or reply[:4] == b"\5\1\0\1":
            continue
        line += 1
        if q["op"] == wire.SET_TABLE:
            found[line] = q["text"]
    return found


class Random(Replays):
    """A service that was asked random requests, with its trail and archive."""

    def ask(self, count: int, seed: int) -> trial.Trial:
        """What was asked, and what the oracle of the test command says of it."""
        table = tables.START if seed % 3 else tables.SIX_COPIES
        made = trial.Trial(seed, "replay")
        made.open(limit=1_000_000, table=table)
        for _ in range(count):
            trial.random_line(made)
        [database], model = made.databases, made.model
        with Service(
            table=table.text.decode(), workers=1
        ) as service, service.operator() as operator:
            self.assertTrue(ask_all(service.address, database.asked) == database.replies)
            self.keeper = TrailKeeper(operator, self.trail, start=Start(table.text, 2))
            self.keeper.run(follow=False)
        self.texts = texts_by_line(database)
        for line in read_lines(b"".join(model.lines)):
            if line.op == wire.SET_TABLE and line.verdict == (0, 0, 0):
                self.keeper.give_table(self.texts[line.number], line.number)
        blocks = [Block.decode(block.spelled) for block in model.log]
        for at in range(0, len(blocks), 256):
            self.archive.keep(blocks[at : at + 256], model.epoch)
        return made


class Oracle(Random):
    def check(self, count: int, seed: int) -> None:
        """A service, the oracle of the test command and the replay decide random requests likewise."""
        model = self.ask(count, seed).model
        one = self.trail.lists()[-1]
        self.assertEqual(
            self.trail.lines(one, 1)[: len(model.lines) * LINE_SIZE], b"".join(model.lines)
        )
        verdicts = Counter(
            (line.op, line.section, line.row) for line in read_lines(b"".join(model.lines))
        )
        done, hard = self.replay(), len(model.log)
        self.assertEqual(
            (done.lines, done.hard, done.blocks, done.epoch), (one.kept, hard, hard, model.epoch)
        )
        # A denied text was not given.
        self.assertEqual(
            done.unchecked[DENIED_TEXT],
            sum(n for (_, *rule), n in verdicts.items() if rule[0] == 3 and rule[1] == 7),
        )
        self.assertLess(sum(done.unchecked.values()), done.lines / 5)
        for line, text in self.texts.items():
            self.keeper.give_table(text, line)
        self.assertEqual(self.replay().unchecked[DENIED_TEXT], 0)

    def test_random_requests_with_three_copies(self) -> None:
        self.check(RANDOM_LINES, 1)

    def test_random_requests_with_six_copies(self) -> None:
        self.check(RANDOM_LINES // 5, 3)


# What was changed by hand.


class Written(Replays):
    """Two principals write with a table that decides by partitions; tables are set, an epoch annuls, and requests are denied."""

    def setUp(self) -> None:
        super().setUp()
        self.service = self.enterContext(Service(table=BY_BLOCKS))
        primary, reader = self.enterContext(self.service.primary()), self.enterContext(
            self.service.reader()
        )
        operator = self.enterContext(self.service.operator())
        self.keeper = TrailKeeper(operator, self.trail, start=Start(BY_BLOCKS.encode(), 2))
        fill(primary, 60, empties=False)
        with self.assertRaises(pagelog.AboveTheEnd):
            reader.page(0, 61)
        self.text = BY_BLOCKS.replace("from = 4\nto = 4", "from = 5\nto = 6").encode()
        operator.set_table(self.text)
        with self.assertRaises(pagelog.NoTable):
            operator.set_table("nothing")
        for body in (
            wire.write(0, wire.block(61, [(7,)])),
            wire.write(1, wire.block(62, [(65536 * 7,)])),
        ):
            ask_all(self.service.address, [wire.head(2, wire.PRIMARY, wire.WRITE) + body])
        operator.failover(2)
        with self.service.primary() as again:
            fill(again, 20, seed=4, empties=False)
        Archiver(reader, self.archive).run(follow=False)
        self.keeper.run(follow=False)
        self.keeper.give_table(self.text)

    def number_of(self, op: int, **fields: int) -> int:
        """The number of the first line of this operation with these fields."""
        data = self.trail.lines(self.trail.lists()[-1], 1)
        return next(
            line.number
            for line in read_lines(data)
            if line.op == op and all(getattr(line, name) == value for name, value in fields.items())
        )


class Edits(Written):
    """What was changed in it."""

    def test_what_was_kept_is_decided_likewise(self) -> None:
        done = self.replay()
        self.assertEqual((done.hard, done.blocks, done.epoch, done.archived), (80, 80, 2, 80))
        self.assertEqual(done.unchecked, {DENIED_TEXT: 1, ANNULLED_BLOCK: 2})

    def test_a_changed_line_is_found(self) -> None:
        def changed(number: int, at: int, to: bytes) -> Callable[[list[bytes]], list[bytes]]:
            def edit(lines: list[bytes]) -> list[bytes]:
                line = lines[number - 1]
                lines[number - 1] = line[:at] + to + line[at + len(to) :]
                return lines

            return edit

        denied, report, failover = (
            self.number_of(4, section=3),
            self.number_of(3, a=60),
            self.number_of(8),
        )
        allowed, value, copies = bytes(11), (62).to_bytes(8, "big"), (3).to_bytes(8, "big")
        self.assertIn(
            "trail has allowed", self.check_difference(denied, changed(denied, 42, allowed))
        )
        self.assertIn(
            "denied C1 value 60", self.check_difference(denied, changed(denied, 45, value))
        )
        self.check_difference(report, changed(report, 26, value))  # reports more than there is
        self.check_difference(
            failover, changed(failover, 26, copies[:-1] + b"\x09")
        )  # to a principal that is not listed
        # A denial of one whose requests make no line.
        self.check_difference(
            denied,
            lambda lines: changed(denied, 16, (9).to_bytes(4, "big"))(
                changed(denied, 42, b"\2" + bytes(10))(lines)
            ),
        )
        write = self.number_of(1, a=30, b=1)
        self.check_difference(write, changed(write, 34, copies))  # a copy that there is not
        self.check_difference(
            write, changed(write, 16, (9).to_bytes(4, "big"))
        )  # by a principal that the table lacks
        self.check_difference(write, changed(write, 20, b"\x07"))  # in a role that there is not
        self.check_difference(write, changed(write, 0, value))  # with another number
        with self.assertRaises(
            Difference
        ):  # in another copy: what was allowed later lacks a quorum
            self.rewrite(changed(write, 34, bytes(8)))
            self.replay()

    def test_a_changed_order_is_found(self) -> None:
        report = self.number_of(3, a=60)
        writes = [self.number_of(1, a=60, b=copy) for copy in (0, 1)]

        def swapped(one: int, other: int) -> Callable[[list[bytes]], list[bytes]]:
            def edit(lines: list[bytes]) -> list[bytes]:
                first, second = lines[one - 1], lines[other - 1]
                lines[one - 1], lines[other - 1] = first[:8] + second[8:], second[:8] + first[8:]
                return lines

            return edit

        self.check_difference(min(writes[-1], report), swapped(writes[-1], report))
        self.check_difference(5, lambda lines: lines[:4] + [lines[5], lines[4]] + lines[6:])
        self.check_difference(10, lambda lines: lines[:9] + lines[10:])  # a line was taken out
        self.check_difference(10, lambda lines: lines[:9] + lines[8:])  # one is there twice

    def test_an_edit_that_leaves_the_digests_is_found(self) -> None:
        self.rewrite(lambda lines: lines)
        one = self.trail.lists()[-1]
        [piece, *_] = self.trail.pieces(one)
        other = piece.lines[:LINE_SIZE] * piece.count
        for values in (
            {"data": zlib.compress(other)},
            {"data": b"x"},
            {"seen": 5},
            {"count": 3},
            {"digest": bytes(32)},
            {"before": b"x" * 32},
        ):
            kept = row_of_piece(self.trail, 1)
            self.change_piece(1, **values)
            self.assertRaises(BrokenTrail, self.replay)
            self.change_piece(1, **kept)
        self.replay()
        for first in (201, 101, 1):
            kept = row_of_piece(self.trail, first)
            self.run_sql("DELETE FROM pagelog_trail_piece WHERE first = %(first)s", first=first)
            with self.assertRaises(BrokenTrail) as raised:
                list(self.trail.pieces(self.trail.lists()[-1]))
            self.assertEqual(raised.exception.line, first)
            self.run_sql(NEW_PIECE, **kept)

    def test_a_piece_that_is_missing_is_found(self) -> None:
        self.rewrite(lambda lines: lines)
        one = self.trail.lists()[-1]
        again = self.trail.keep(
            one, self.trail.lines(one, one.kept)[-LINE_SIZE:], one.seen
        )  # the number is wrong, and it is not read
        self.run_sql("DELETE FROM pagelog_trail_piece WHERE first = %(first)s", first=again.kept)
        with self.assertRaises(BrokenTrail) as raised:
            list(self.trail.pieces(again))
        self.assertEqual(raised.exception.line, again.kept)

    def test_a_changed_block_is_found(self) -> None:
        seal(self.trail, self.archive)
        [kept] = self.archive.blocks(30, 30)
        outside = Block.of(30, (put(65536 * 4, b"x"),))  # a partition that the table denies

        def store(data: bytes, crc: int) -> None:
            self.change_block(30, data, crc)

        store(outside.data, zlib.crc32(kept.data))
        self.assertRaises(DamagedArchive, self.replay)
        # One who knows how makes the checksum again, and the seal tells.
        like = Block.of(30, (*kept.records, Zero(3)))
        store(like.data, zlib.crc32(like.data))
        with self.assertRaises(DamagedArchive) as raised:
            self.replay()
        self.assertIn("the trail has sealed", str(raised.exception))
        # Without a seal, a block that the table does not let its writer write.
        self.run_sql("DELETE FROM pagelog_trail_seal")
        store(outside.data, zlib.crc32(outside.data))
        with self.assertRaises(Difference) as found:
            self.replay()
        self.assertEqual(found.exception.line, self.number_of(1, a=30))
        self.assertIn("by the archived block 30 it is denied B", str(found.exception))
        store(kept.data, zlib.crc32(kept.data))
        self.replay()

    def test_a_block_at_the_place_of_another_is_found(self) -> None:
        blocks = list(ArchivedLog(self.trail, self.archive).blocks())
        for wrong in (blocks[:30] + blocks[31:], blocks[:30] + [blocks[30][:-1]] + blocks[31:]):
            again = TrailReplay(
                Start(BY_BLOCKS.encode(), 2), iter(wrong), lambda _, __: [self.text]
            )
            with self.assertRaises(Difference) as raised:
                for line in lines_of(self.trail, self.trail.lists()[-1]):
                    again.take(line)
            self.assertIn("it hardens LSN 31", str(raised.exception))

    def test_blocks_that_are_not_archived_are_listed(self) -> None:
        with Archive(self.url, "empty", create=True) as empty:
            done = replay(self.trail, self.trail.lists()[-1], ArchivedLog(self.trail, empty))
        self.assertEqual((done.hard, done.blocks, done.archived), (80, 0, 0))
        self.assertGreater(done.unchecked[UNARCHIVED_BLOCK], 100)

    def test_a_changed_table_is_found(self) -> None:
        one = self.trail.lists()[-1]
        self.trail.set_start(
            one, Start(BY_BLOCKS.replace("from = 4\nto = 4", "from = 2\nto = 2").encode(), 2)
        )
        with self.assertRaises(Difference):
            self.replay()
        self.trail.set_start(one, Start(BY_BLOCKS.encode(), 5))
        with self.assertRaises(Difference) as raised:
            self.replay()
        self.assertIn("denied A4", str(raised.exception))
        self.assertEqual(self.replay(start=Start(BY_BLOCKS.encode(), 2)).hard, 80)
        self.trail.set_start(one, Start(BY_BLOCKS.encode(), 2))
        self.change_texts(0, self.text)
        self.assertRaises(BrokenTrail, self.replay)
        self.trail.set_start(one, Start(BY_BLOCKS.encode(), 2))
        # A table that was set, changed by one who knows how.
        forbids = self.text.replace(b"from = 5\nto = 6", b"from = 0\nto = 2")
        self.change_texts(-1, forbids, hashlib.sha256(forbids).hexdigest())
        with self.assertRaises(Difference):
            self.replay()
        self.run_sql("DELETE FROM pagelog_trail_text WHERE line = -1")
        self.assertRaises(NotReplayable, self.replay)
        self.assertEqual(self.replay(texts=[self.text]).hard, 80)
        with self.assertRaises(NotReplayable):
            self.replay(texts=[self.text, self.text.replace(b"from = 5", b"from = 6")])

    def test_another_service_is_found(self) -> None:
        with self.service.reader() as reader:
            alike = compare_pages(
                ArchivedLog(self.trail, self.archive), reader, 80, count=400, seed=1
            )
            self.assertGreater(alike.alike, 200)
            [kept] = self.archive.blocks(30, 30)
            page = kept.records[0].page
            other = Block.of(30, (*kept.records, put(page, bytes(8000), 190)))
            self.change_block(30, other.data, zlib.crc32(other.data))
            with self.assertRaises(OtherLog) as raised:
                compare_pages(ArchivedLog(self.trail, self.archive), reader, 80, count=400, seed=1)
            self.assertIn(f"page {page} ", str(raised.exception))
            self.assertGreaterEqual(raised.exception.lsn, 30)
        file = self.service.credentials_file(url=self.url)
        self.assertIn(
            "OtherLog: the two logs have different blocks at LSN 30",
            ends(words("replay", "shop", "--url", self.url, "--credentials", file), 1),
        )

    def test_texts_are_looked_up_once(self) -> None:
        asked: list[str] = []
        rows = self.trail.engine.rows

        def counted(statement: str, **values: object) -> list[Row]:
            asked.append(statement)
            return rows(statement, **values)

        self.enterContext(mock.patch.object(self.trail.engine, "rows", counted))
        self.replay()
        before = sum("pagelog_trail_text" in statement for statement in asked)
        with self.service.operator() as operator:
            for _ in range(20):
                self.assertRaises(pagelog.NoTable, operator.set_table, "nothing")
        self.keeper.run(follow=False)
        asked.clear()
        self.assertEqual(self.replay().unchecked[DENIED_TEXT], 21)
        self.assertEqual(sum("pagelog_trail_text" in statement for statement in asked), before)

    def test_memory_is_of_a_window(self) -> None:
        with self.service.primary() as primary, self.service.reader() as reader:
            fill(primary, 150, seed=5, empties=False)
            Archiver(reader, self.archive).run(follow=False)
        self.keeper.run(follow=False)
        again = TrailReplay(
            Start(BY_BLOCKS.encode(), 2),
            ArchivedLog(self.trail, self.archive).blocks(),
            lambda _, __: [self.text],
        )
        for line in lines_of(self.trail, self.trail.lists()[-1]):
            again.take(line)
            held = again._state
            self.assertLessEqual(max(len(again._waiting), len(held.content), len(held.copies)), 64)
        again.end()

    def test_the_words(self) -> None:
        given = self.folder / "set.toml"
        given.write_bytes(self.text)
        file = self.service.credentials_file(url=self.url)
        out = ends(words("replay", "shop", "--url", self.url, "--credentials", file))
        self.assertIn("80 blocks hardened, 80 of them archived", out)
        self.assertIn(
            "not checked: 2 lines, which depend on blocks of annulled writes and offers", out
        )
        self.assertRegex(out, r"80 blocks and \d+ pages of the service are those of the archive")
        self.rewrite(lambda lines: lines[:4] + [lines[5], lines[4]] + lines[6:])
        self.assertIn(
            "Difference: line 5 differs", ends(words("replay", "shop", "--url", self.url), 1)
        )
        self.run_sql("DELETE FROM pagelog_trail_text")
        self.assertIn("NotReplayable", ends(words("replay", "shop", "--url", self.url), 1))
        start = self.folder / "start.toml"
        start.write_text(BY_BLOCKS)
        ends(words("record", "shop", "--credentials", file), 0)
