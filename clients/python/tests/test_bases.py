"""Bases: images in PostgreSQL, from the archive alone; what is pruned below them; and positions that are begun again."""

from __future__ import annotations

import json
import random
import subprocess
import tempfile
import threading
import time
from contextlib import closing
from dataclasses import replace
from pathlib import Path
from typing import Any
from unittest.mock import patch

import psycopg

from keepers import Kept as KeptService
from keepers import blocks, eventually, new_database, new_url
from pagelog import Block, Put, Zero
from pagelog.cli.drop_words import _drop_named
from pagelog.referee.bases import NOTHING, Base, Bases, make_base, transaction
from pagelog.errors import ConnectionLost
from pagelog.keeper.history import begin_again
from pagelog.images import MARK, Image
from pagelog.keeper.loading import Loader
from pagelog.referee.referee import (
    BrokenArchive,
    Doubt,
    KeeperError,
    Pruned,
    Referee,
    Refused,
    digest,
)
from pagelog.referee.rows import Batch, Kept
from pagelog.keeper.run import Program
from pagelog.referee.schema import VERSION, script
from pagelog.keeper.served import Served
from pagelog.keeper.switch import Switch, number, release, succeed
from pagelog.trail import Trail
from pagelog.place import UnknownName
from postgres import programs
from service import PATIENCE, PROGRAM, WIDE_TABLE
from test_images import pages
from test_referee import Referees


class Made(Referees):
    def setUp(self) -> None:
        super().setUp()
        self.kept = self.taken()
        self.blocks: list[bytes] = []
        self.bases = Bases(self.referee, self.row.id)
        self.chance = random.Random(1)

    def keep(self, made: list[bytes]) -> None:
        batch = Batch(
            self.row.id,
            "r1",
            self.kept.generation,
            self.kept.archived,
            digest(self.kept.chain, made),
            tuple(made),
        )
        self.assertEqual(self.referee.keep([batch]), {self.row.id})
        self.kept = Kept(batch.new, batch.chain, self.kept.generation)
        self.blocks += made

    def write(self, count: int, pages: int = 300) -> None:
        """Archives blocks that change pages here and there."""
        self.keep(
            [
                Block.of(
                    self.kept.archived + 1 + at,
                    [Put(self.chance.randrange(pages), self.chance.randrange(8000), b"%d" % at)],
                ).data
                for at in range(count)
            ]
        )

    def base(self, chain: bytes | None = None) -> Base:
        return make_base(
            self.referee,
            self.row.id,
            self.kept.archived,
            self.kept.chain if chain is None else chain,
        )

    def pages_of(self, base: Base) -> dict[int, bytes]:
        return {number: page for image in self.bases.images(base) for number, page in image.pages()}

    def rows(self, table: str = "image") -> list[tuple[int, ...]]:
        column = {"image": "range, base", "block": "lsn", "base": "base", "table": "log"}[table]
        with psycopg.connect(self.url) as connection:
            return connection.execute(
                f"SELECT {column} FROM pagelog_{table} ORDER BY {column}"
            ).fetchall()


class Making(Made):
    def test_a_base_has_all_pages_and_a_later_one_keeps_what_has_changed_alone(self) -> None:
        self.assertEqual((self.base(), self.bases.newest(9)), (NOTHING, NOTHING))
        self.write(500)
        first = self.base()
        self.assertEqual(
            (first.position, first.chain, self.bases.newest(500), self.bases.newest(499)),
            (500, self.kept.chain, first, NOTHING),
        )
        self.assertEqual(
            (self.pages_of(first), first.pages), (pages(self.blocks), len(pages(self.blocks)))
        )
        self.write(20, pages=64)
        self.keep([Block.of(521, [Zero(5), Put(70_000, 0, b"far")]).data])
        second = self.base()
        self.assertEqual(
            self.rows(), [(0, 500), (0, 521), (1, 500), (2, 500), (3, 500), (4, 500), (1093, 521)]
        )
        self.assertEqual(self.pages_of(second), pages(self.blocks))
        self.assertEqual(self.pages_of(first), pages(self.blocks[:500]))
        self.assertEqual((self.base(), self.rows("base")), (second, [(500,), (521,)]))

    def test_images_of_a_base_that_was_given_up_are_no_harm(self) -> None:
        self.write(100)
        first = self.base()
        self.write(50)
        replay_of = Bases(self.referee, self.row.id)
        with psycopg.connect(self.url) as connection:  # made, and its base never was
            other = make_base(self.referee, self.row.id, self.kept.archived, self.kept.chain)
            connection.execute("DELETE FROM pagelog_base WHERE base = %s", (other.position,))
        self.assertEqual(self.bases.newest(150), first)
        self.write(50, pages=10)
        base = self.base()
        self.assertEqual(self.pages_of(base), pages(self.blocks))
        self.assertEqual(
            {number: page for image in replay_of.images(first) for number, page in image.pages()},
            pages(self.blocks[:100]),
        )

    def test_no_base_is_made_of_blocks_that_were_not_archived(self) -> None:
        self.write(30)
        with self.assertRaisesRegex(BrokenArchive, "are not those that were archived"):
            self.base(chain=b"x" * 16)
        self.assertEqual((self.rows("base"), self.rows()), ([], []))

    def test_damage_of_images_is_found(self) -> None:
        self.write(300)
        base = self.base()
        with psycopg.connect(self.url, autocommit=True) as connection:
            connection.execute(
                "UPDATE pagelog_image SET data = set_byte(data, 9, 255) WHERE range = 2"
            )
            with self.assertRaisesRegex(BrokenArchive, "range 2 at position 300 is damaged"):
                self.pages_of(base)
            connection.execute("DELETE FROM pagelog_image WHERE range = 2")
            with self.assertRaisesRegex(BrokenArchive, "images at position 300 are not those"):
                self.pages_of(base)

    def test_a_base_is_laid_where_no_transaction_of_the_vfs_is_under_way(self) -> None:
        def mark(position: int) -> bytes:
            return Block.of(
                position,
                [Put(7, 0, b"p"), Put(0, 0, MARK[-8:] + position.to_bytes(8, "big") + bytes(24))],
            ).data

        self.keep([mark(1), *blocks(2, 1), mark(3), *blocks(4, 3)])
        base = self.base()
        self.assertEqual((base.position, self.pages_of(base)), (3, pages(self.blocks[:3])))
        self.assertEqual(base.chain, digest(b"", self.blocks[:3]))
        self.keep(list(blocks(7, 5)))
        self.assertEqual(self.base(), base)  # no later transaction has ended
        self.keep(
            [Block.of(12, [Put(0, 0, MARK[-8:] + (11).to_bytes(8, "big") + bytes(24))]).data]
        )  # another's mark, carried along
        self.assertEqual(self.base(), base)
        self.keep([mark(13)])
        self.assertEqual(self.base().position, 13)


class OfADatabase(Made):
    """Images have no foreign key: what keeps them looks once, and the keys of the tables around them do the rest."""

    def images(self, count: int = 9) -> list[Image]:
        return [Image(number, 1 << 63, bytes(8192)) for number in range(count)]

    def new_row(self) -> int:
        """A database without any row but its own."""
        with psycopg.connect(self.url) as connection:
            [[log]] = connection.execute(
                "INSERT INTO pagelog_log (name, format, archived, epoch) VALUES ('bare', 3, 0, 1) RETURNING id"
            ).fetchall()
        return int(log)

    def delete(self, log: int) -> None:
        with psycopg.connect(self.url) as connection:
            connection.execute("SET lock_timeout = '100ms'")
            connection.execute("DELETE FROM pagelog_log WHERE id = %s", (log,))

    def test_those_of_none_are_refused(self) -> None:
        with self.assertRaisesRegex(Refused, "no database of number 98"):
            Bases(self.referee, 98).keep_images(1, self.images())
        self.assertEqual(self.rows(), [])

    def test_it_stays_until_they_are_committed(self) -> None:
        log = self.new_row()
        with transaction(self.referee):
            Bases(self.referee, log).keep_images(1, self.images())
            self.assertRaises(psycopg.errors.LockNotAvailable, self.delete, log)
        self.assertEqual(len(self.rows()), 9)

    def test_it_may_be_archived_and_dropped_meanwhile(self) -> None:
        with transaction(self.referee):
            self.bases.keep_images(1, self.images())
            other = self.new("b")
            batch = Batch(self.row.id, "r1", self.kept.generation, 0, b"c", tuple(blocks(1, 2)))
            self.assertEqual(other.keep([batch]), {self.row.id})
        self.assertTrue(self.referee.drop("shop"))
        self.assertEqual(self.rows(), [])

    def test_it_is_not_deleted_while_it_has_a_table(self) -> None:
        self.bases.keep_images(1, self.images())
        with self.assertRaises(psycopg.errors.ForeignKeyViolation):
            self.delete(self.row.id)


class Pruning(Made):
    def test_what_only_older_positions_need_is_pruned(self) -> None:
        for _ in range(3):
            self.write(100)
            self.base()
            self.write(10, pages=10)
        last = self.base()
        self.assertEqual(
            (last.position, [self.bases.oldest_to_keep(keep) for keep in (1, 2, 3, 4, 5)]),
            (330, [330, 320, 210, 100, 0]),
        )
        self.assertEqual(
            [self.bases.oldest_to_keep(keep) for keep in ("1 hours", "0 seconds")], [0, 330]
        )
        self.assertEqual(self.bases.prune(210), 210)
        self.assertEqual(
            (self.rows("block")[0], self.rows("base")), ((211,), [(210,), (320,), (330,)])
        )
        for base in (210, 320, 330):
            self.assertEqual(self.pages_of(self.bases.newest(base)), pages(self.blocks[:base]))
        self.assertEqual((self.bases.prune(330), len(self.rows())), (120, 5))
        self.assertEqual(self.pages_of(last), pages(self.blocks))
        self.write(5)
        self.assertEqual(self.pages_of(self.base()), pages(self.blocks))

    def test_an_image_that_a_kept_base_needs_is_not_pruned_for_a_later_one(self) -> None:
        for page in (70_000, 5, 70_000):
            self.keep(
                [Block.of(self.kept.archived + 1, [Put(page, self.kept.archived, b"x")]).data]
            )
            self.base()
        self.bases.prune(2)
        self.assertEqual(self.rows(), [(0, 2), (1093, 1), (1093, 3)])
        self.assertEqual(self.pages_of(self.bases.newest(2)), pages(self.blocks[:2]))


class Again(Made):
    """A position is begun again while keepers prune."""

    def setUp(self) -> None:
        super().setUp()
        for _ in range(2):
            self.write(100)
            self.base()
        self.other = Referee(self.url)
        self.addCleanup(self.other.close)

    def begin(self, position: int, name: str, before: str) -> bool:
        """Before the first statement that has this word everything below the last base is pruned, by another connection."""
        ask = self.referee._ask

        def meanwhile(statement: str, *values: Any, **options: Any) -> list[Any]:
            if before in statement and not self.is_pruned:
                self.is_pruned = Bases(self.other, self.row.id).prune(200) == 200
            return ask(statement, *values, **options)

        self.is_pruned = False
        self.referee._ask = meanwhile  # type: ignore[method-assign]
        try:
            return begin_again(self.referee, self.row, position, name)
        finally:
            self.referee._ask = ask  # type: ignore[method-assign]

    def check_none_is_begun(self, position: int, before: str) -> None:
        with self.assertRaisesRegex(
            KeeperError, f"position {position} of shop was pruned meanwhile"
        ):
            self.begin(position, "again", before)
        self.assertTrue(self.is_pruned)
        self.assertIsNone(self.referee.everything().row("again"))

    def test_a_position_that_is_pruned_before_it_is_copied_is_not_begun(self) -> None:
        self.check_none_is_begun(150, "INSERT INTO pagelog_log")

    def test_nor_is_one_that_began_with_the_first_block(self) -> None:
        self.check_none_is_begun(99, "INSERT INTO pagelog_log")

    def test_what_is_pruned_while_it_is_looked_at_is_no_damage(self) -> None:
        self.check_none_is_begun(150, "pagelog_image")

    def test_a_position_that_is_kept_is_begun_whatever_is_pruned_below_it(self) -> None:
        self.write(5)
        self.assertTrue(self.begin(203, "again", "INSERT INTO pagelog_log"))
        self.assertFalse(self.begin(203, "again", "never"))
        row = self.referee.everything().row("again")
        assert row is not None
        self.assertEqual((row.archived, row.chain), (203, digest(b"", self.blocks[:203])))
        self.assertEqual([len(piece) for piece in self.referee.blocks(row.id, 201, 203)], [3])


class Dropped(Made):
    def setUp(self) -> None:
        super().setUp()
        self.write(20)
        self.base()
        with Trail(self.url, "shop", create=True) as trail:
            trail.begin(generation=1)

    def left(self) -> list[int]:
        return [len(self.rows(table)) for table in ("base", "image", "block")]

    def lists(self, log: str) -> int:
        with Trail(self.url, log, create=True) as trail:
            return len(trail.lists())

    def cut(self, word: str) -> None:
        """The next statement with this word meets a connection that is lost."""
        ask = self.referee._ask

        def cutting(statement: str, *values: Any, **options: Any) -> list[Any]:
            if word not in statement:
                return ask(statement, *values, **options)
            self.referee._ask = ask  # type: ignore[method-assign]
            raise Doubt("lost")

        self.referee._ask = cutting  # type: ignore[method-assign]

    def test_nothing_of_its_pages_and_of_its_tokens_is_left(self) -> None:
        self.assertEqual(len(self.rows("table")), 1)
        self.assertTrue(self.referee.drop("shop"))
        self.assertEqual((self.rows("table"), self.left()), ([], [0, 0, 0]))
        self.assertFalse(self.referee.drop("shop"))
        with self.assertRaises(Refused):  # which a keeper says, and looks again
            self.referee.table(self.row.id)

    def test_one_that_was_broken_off_is_gone_on_with(self) -> None:
        for word in (
            "DELETE FROM pagelog_table",
            "DELETE FROM pagelog_base",
            "DELETE FROM pagelog_image",
            "DELETE FROM pagelog_block",
        ):
            self.cut(word)
            self.assertRaises(Doubt, _drop_named, self.referee, "shop", True)
            self.assertGreater(self.left()[-1], 0)
            self.assertEqual(
                (self.lists("shop"), self.lists(f"shop!{self.row.id}")), (0, 1)
            )  # by the first statement
        _drop_named(self.referee, "shop", True)
        self.assertEqual(self.left(), [0, 0, 0])
        self.assertRaises(SystemExit, _drop_named, self.referee, "shop", True)

    def test_another_one_of_the_name_stays(self) -> None:
        self.cut("FROM pagelog_base")
        self.assertRaises(Doubt, self.referee.drop, "shop")
        self.row = new_database(self.referee, "shop")
        self.kept = self.taken("r1")
        self.write(3)
        self.referee.drop("other")
        self.assertEqual(self.left()[-1], 23)
        self.assertEqual(self.seen().archived, 3)


class Switches(Made):
    def switch(self, **other: object) -> Switch:
        rest = blocks(self.kept.archived + 1, 2)
        made = Switch(
            self.row.id,
            "r1",
            self.kept.generation,
            self.kept.archived,
            rest,
            digest(self.kept.chain, rest),
            2,
            "r2",
            "x:1",
            -3,
            5,
        )
        return replace(made, **other)  # type: ignore[arg-type]

    def test_a_switch_is_under_the_fence_of_its_run_and_archives_the_rest(self) -> None:
        self.write(5)
        self.assertFalse(
            succeed(self.referee, self.switch())
        )  # a server that went back has not given its number
        self.assertIsNone(number(self.referee, self.row.id, "r9", 1))
        self.assertEqual([number(self.referee, self.row.id, "r1", 1) for _ in range(2)], [2, 3])
        for wrong in (
            self.switch(run="r9"),
            self.switch(generation=9),
            self.switch(old=4),
            self.switch(log=99),
            self.switch(next=4),
        ):
            self.assertFalse(succeed(self.referee, wrong))
        self.assertEqual(
            (self.seen().run, self.seen().archived, len(self.rows("block"))), ("r1", 5, 5)
        )
        begun, seen = succeed(self.referee, self.switch()), self.seen()
        self.assertEqual(begun, seen)
        self.assertEqual(
            (seen.run, seen.generation, seen.address, seen.shift, seen.images),
            ("r2", 2, "x:1", -3, 5),
        )
        self.assertEqual(
            (seen.archived, seen.base, seen.chain), (7, 7, digest(self.kept.chain, blocks(6, 2)))
        )
        self.assertEqual((self.referee.fate("shop", 1), len(self.rows("block"))), (7, 7))
        self.assertFalse(succeed(self.referee, self.switch()))
        # The old run archives nothing any more, and a take of what was seen before it fails.
        late = Batch(self.row.id, "r1", 1, 7, b"", blocks(8, 1))
        self.assertEqual(self.referee.keep([late]), frozenset())

    def test_a_release_archives_the_rest_under_the_fence_of_its_run(self) -> None:
        self.write(5)
        rest = tuple(blocks(6, 2))
        last = Batch(
            self.row.id, "r1", self.kept.generation, 5, digest(self.kept.chain, rest), rest
        )
        for wrong in (replace(last, run="r9"), replace(last, generation=9), replace(last, old=4)):
            self.assertIsNone(release(self.referee, wrong))
        released, seen = release(self.referee, last), self.seen()
        self.assertEqual(released, seen)
        self.assertEqual(
            (seen.run, seen.archived, seen.chain, len(self.rows("block"))), (None, 7, last.chain, 7)
        )


class Fills(Made):
    """A service is filled from the archive, in pieces."""

    def setUp(self) -> None:
        super().setUp()
        self.served = Served("shop", "r1", WIDE_TABLE, b"s" * 16, timeout=PATIENCE)
        self.served.start(
            Program(
                PROGRAM,
                "127.0.0.1",
                Path(self.enterContext(tempfile.TemporaryDirectory())),
                100_000,
            )
        )
        self.addCleanup(self.served.end)
        self.pieces: list[tuple[int, int]] = []
        read = Referee._piece

        def piece(of: Referee, log: int, first: int, last: int) -> list[bytes]:
            self.pieces.append((first, last))
            return read(of, log, first, last)

        self.enterContext(patch.object(Referee, "_piece", piece))
        self.enterContext(patch("pagelog.referee.ahead.PIECE", 16))

    def follow(self) -> None:
        self.served.follow(self.referee, self.row.id, self.kept.archived, self.kept.chain)

    def test_blocks_that_are_small_or_large_come_in_pieces_of_many_or_few(self) -> None:
        self.keep([Block.of(lsn, [Put(0, 0, b"x" * 80)]).data for lsn in range(1, 41)])
        self.keep(
            [
                Block.of(lsn, [Put(page, 0, b"x" * 8000) for page in range(4)]).data
                for lsn in range(41, 61)
            ]
        )
        size = sum(map(len, self.blocks[16:56])) + 1
        with patch("pagelog.referee.ahead._MOST", (40, size)):
            self.follow()
        self.assertEqual(self.pieces, [(1, 16), (17, 56), (57, 60)])
        self.assertEqual(
            (self.served.reached, self.served.pulled(0), self.served.end_of_log()),
            (60, self.blocks, 60),
        )

    def test_no_fill_holds_a_snapshot(self) -> None:
        """A vacuum beside it takes what is deleted meanwhile."""
        self.write(60)
        self.base()
        self.write(20)
        seen: list[Any] = []
        load = Loader.load

        def watched(*values: Any) -> int:
            with psycopg.connect(self.url) as connection:
                seen.extend(
                    connection.execute(
                        "SELECT state FROM pg_stat_activity WHERE state LIKE 'idle in%' AND datname = current_database()"
                    )
                )
            return load(*values)

        with patch.object(Loader, "load", watched):
            self.follow()
        self.assertEqual((seen, self.served.reached, self.served.images), ([], 80, 60))

    def test_one_that_is_overtaken_by_pruning_says_so_and_another_begins_later(self) -> None:
        self.write(60)
        self.base()
        load = Loader.load

        def pruned(*values: Any) -> int:
            if self.kept.archived == 60:
                self.write(40)
                with closing(Referee(self.url)) as other:
                    Bases(other, self.row.id).prune(
                        make_base(other, self.row.id, 100, self.kept.chain).position
                    )
            return load(*values)

        kept = self.kept
        with patch.object(Loader, "load", pruned):
            self.assertRaisesRegex(
                Pruned,
                "base at position 60 was pruned",
                self.served.follow,
                self.referee,
                self.row.id,
                kept.archived,
                kept.chain,
            )
        self.assertRaises(BrokenArchive, self.follow)  # this one has a part of it
        self.assertRaisesRegex(
            Pruned,
            "blocks 61 to 70 were pruned meanwhile",
            list,
            self.referee.blocks(self.row.id, 61, 70),
        )

    def test_a_block_that_is_missing_or_damaged_leaves_what_was_read_before_it(self) -> None:
        self.write(60)
        with psycopg.connect(self.url, autocommit=True) as connection, patch(
            "pagelog.referee.ahead._MOST", (16, 1 << 20)
        ):
            for harm, mend, error in (
                ("SET lsn = 1000", "SET lsn = 40", "1 of the archived blocks 33 to 48 are missing"),
                ("SET crc = crc + 1", "SET crc = crc - 1", "block 40 is not the one that was kept"),
            ):
                connection.execute(f"UPDATE pagelog_block {harm} WHERE lsn = 40")
                self.assertRaisesRegex(BrokenArchive, error, self.follow)
                self.assertEqual(
                    (self.served.reached, self.served.loaded, self.served.end_of_log()), (0, 32, 32)
                )
                connection.execute(f"UPDATE pagelog_block {mend} WHERE lsn IN (40, 1000)")
            right, self.kept = self.kept, replace(self.kept, chain=b"other")
            self.assertRaisesRegex(
                BrokenArchive, "the blocks up to 60 are not those that were archived", self.follow
            )
            self.assertEqual(
                (self.served.reached, self.served.loaded, self.served.end_of_log()), (0, 60, 60)
            )
        self.assertNotIn("ahead_0", [thread.name for thread in threading.enumerate()])

    def test_a_service_that_ends_amid_leaves_no_read_under_way(self) -> None:
        self.write(60)
        began, ended = threading.Event(), threading.Event()
        read = Referee._piece

        def slow(of: Referee, log: int, first: int, last: int) -> list[bytes]:
            if first == 1:
                return read(of, log, first, last)
            began.set()
            since = time.monotonic()
            try:
                return [bytes(of._ask_bounded(f"SELECT pg_sleep({PATIENCE})", ())[0][0])]
            finally:
                if time.monotonic() - since < PATIENCE:
                    ended.set()

        def killed(*_: object) -> None:
            self.assertTrue(began.wait(PATIENCE))
            raise ConnectionLost("the service ended the connection")

        with patch.object(Referee, "_piece", slow), patch.object(Loader, "_move", killed), patch(
            "pagelog.referee.referee.LONGEST", PATIENCE
        ):
            self.assertRaisesRegex(ConnectionLost, "the service ended", self.follow)
        self.assertTrue(ended.is_set())
        self.follow()  # over another connection
        self.assertEqual(self.served.reached, 60)


_KEY = "CONSTRAINT pagelog_image_log_fkey FOREIGN KEY (log) REFERENCES pagelog_log"
_OLDER_IMAGE = "INSERT INTO pagelog_image (log, range, base, pages, crc, data) VALUES (1, %(range)s, 1, int8send(1), 0, '')"
_KEYS = "SELECT conrelid::regclass::text, conname::text FROM pg_constraint WHERE confrelid = 'pagelog_log'::regclass ORDER BY 1"


class Migration(Referees):
    def test_the_tables_of_before_are_taken_on(self) -> None:
        url, old = new_url(), "pagelog_base, pagelog_image"
        with psycopg.connect(url, autocommit=True) as connection:
            connection.execute(
                f"DROP TABLE {old}; ALTER TABLE pagelog_standby DROP COLUMN shift, DROP COLUMN images"
            )
            connection.execute(
                "DROP TABLE pagelog_schema; ALTER TABLE pagelog_log DROP COLUMN identity, DROP COLUMN doubted"
            )
            connection.execute(
                "ALTER TABLE pagelog_log DROP COLUMN images, DROP COLUMN succeed, DROP COLUMN read_only"
            )
            connection.execute(
                "ALTER TABLE pagelog_block DROP COLUMN came; ALTER TABLE pagelog_keeper DROP COLUMN began"
            )
            connection.execute(
                "INSERT INTO pagelog_log (name, format, archived, epoch, chain) VALUES ('shop', 2, 2, 1, 'x')"
            )
            connection.execute(
                "INSERT INTO pagelog_block (log, lsn, crc, data) VALUES (1, 1, 0, 'x')"
            )
        referee = Referee(url)
        self.addCleanup(referee.close)
        referee.prepare()
        referee.prepare()
        row = referee.everything().row("shop")
        assert row is not None
        self.assertEqual(
            (row.archived, row.shift, row.images, row.succeed, row.read_only),
            (2, 0, 0, False, False),
        )
        with psycopg.connect(url, autocommit=True) as connection:
            connection.execute(
                "INSERT INTO pagelog_block (log, lsn, crc, data) VALUES (1, 2, 0, 'x')"
            )
            came = connection.execute(
                "SELECT lsn, came IS NULL FROM pagelog_block ORDER BY lsn"
            ).fetchall()
            connection.execute(script(0))  # each statement may be repeated
        self.assertEqual(came, [(1, True), (2, False)])
        self.assertRegex(row.identity, "^[0-9a-f-]{36}$")

    def test_images_of_before_lose_their_foreign_key_alone(self) -> None:
        """And an older keeper, which knows nothing of it, goes on."""
        url = new_url()
        with psycopg.connect(url, autocommit=True) as connection:
            connection.execute("UPDATE pagelog_schema SET version = 16")
            connection.execute(f"ALTER TABLE pagelog_image ADD {_KEY}")
            connection.execute(
                "INSERT INTO pagelog_log (name, format, archived, epoch) VALUES ('shop', 3, 0, 1)"
            )
            connection.execute(_OLDER_IMAGE, {"range": 0})
            others = connection.execute(_KEYS).fetchall()
            others.remove(("pagelog_image", "pagelog_image_log_fkey"))
            referee = Referee(url)
            self.addCleanup(referee.close)
            referee.prepare()
            self.assertEqual(connection.execute(_KEYS).fetchall(), others)
            connection.execute(_OLDER_IMAGE, {"range": 1})
            [[count]] = connection.execute("SELECT count(*) FROM pagelog_image").fetchall()
        self.assertEqual(count, 2)

    def test_the_script_waits_for_no_long_reader(self) -> None:
        """All commits would wait behind it."""
        url = new_url()
        with psycopg.connect(url) as reader, psycopg.connect(url, autocommit=True) as connection:
            reader.execute("SELECT count(*) FROM pagelog_log")
            connection.execute("SET statement_timeout = '20s'")
            self.assertRaises(psycopg.errors.LockNotAvailable, connection.execute, script(0))

    def test_a_dump_is_restored_over_older_tables_once_they_are_taken_on(self) -> None:
        """As once a dump of before an upgrade was restored: that of after it knows nothing of the foreign key, which is in its way."""
        url = new_url()
        with tempfile.TemporaryDirectory() as folder, closing(Referee(url)) as referee:
            dump = str(Path(folder, "dump"))
            subprocess.run([programs() / "pg_dump", "-Fc", "-d", url, "-f", dump], check=True)
            words = [programs() / "pg_restore", "--clean", "--if-exists", "--single-transaction"]
            words += ["-d", url, dump]
            with psycopg.connect(url) as connection:
                connection.execute("UPDATE pagelog_schema SET version = 16")
                connection.execute(f"ALTER TABLE pagelog_image ADD {_KEY}")
            done = subprocess.run(words, capture_output=True, text=True)
            self.assertIn("cannot drop constraint pagelog_log_pkey", done.stderr)
            referee.prepare()
            subprocess.run(words, check=True)
            self.assertEqual(referee.everything().rows, ())

    def test_a_step_that_the_role_may_not_take(self) -> None:
        """It says what to run. Once that is done the role needs no right to make anything; tables of a later version are no hindrance."""
        url = new_url()
        with psycopg.connect(url, autocommit=True) as connection:
            connection.execute(
                "DROP TABLE pagelog_schema; ALTER TABLE pagelog_log DROP COLUMN identity, DROP COLUMN doubted"
            )
            connection.execute("DROP ROLE IF EXISTS pagelog_limited")
            connection.execute(
                "CREATE ROLE pagelog_limited LOGIN; GRANT SELECT, INSERT, UPDATE, DELETE ON ALL TABLES IN SCHEMA public TO pagelog_limited"
            )
        limited, owner = Referee(url.replace("pagelog@", "pagelog_limited@")), Referee(url)
        self.addCleanup(limited.close)
        self.addCleanup(owner.close)
        for call in (limited.prepare, limited.everything):
            self.assertRaisesRegex(
                Refused,
                f"tables of version 1, and {VERSION} is needed: run `pagelogctl create` or `keep`",
                call,
            )
        owner.prepare()
        with psycopg.connect(url, autocommit=True) as connection:
            connection.execute("INSERT INTO pagelog_schema (version) VALUES (99)")
        limited.prepare()
        self.assertEqual(limited.everything().rows, ())


class Histories(KeptService):
    keepers = "a"

    def is_told(self, name: str) -> bool:
        try:
            return self.keeping.keepers(name).where() is not None
        except UnknownName:
            return False

    def test_any_kept_position_is_begun_again_for_readers(self) -> None:
        with self.keeping.primary() as primary:
            for number in range(1, 11):
                self.commit(primary, f"{number}", durable=True)
                if number == 5:
                    with psycopg.connect(self.keeping.url) as connection:
                        [[time]] = connection.execute("SELECT clock_timestamp()").fetchall()
            row = self.keeping.row()
            make_base(self.keeping.referee, row.id, 7, digest(b"", self.keeping.archive()[:7]))
            self.assertEqual(
                self.keeping.word("restore", "shop", "--at", 8, "--as", "eight"),
                "eight is shop at position 8, for readers\n",
            )
            self.assertIn("shop-5", self.keeping.word("restore", "shop", "--at", time.isoformat()))
            for name, position, base in (("eight", 8, 7), ("shop-5", 5, 0)):
                eventually(lambda: self.is_told(name), "its place")  # noqa: B023
                with self.keeping.reader(name) as reader:
                    self.assertEqual(
                        (reader.end(), reader.page(0).data[:4].strip(b"\0")),
                        (position, b"<%d>" % position),
                    )
                    self.assertEqual(
                        [block.lsn for block in reader.blocks(base + 1, follow=False)],
                        list(range(base + 1, position + 1)),
                    )
                with self.assertRaises(Exception), self.keeping.primary(name) as writer:
                    writer.keepers.patience = 1.0
                    self.commit(writer, "none")
            self.assertIn(
                "pruned 7 blocks: positions from 7 on are kept\n",
                self.keeping.word("prune", "shop", "--keep", 1, "--yes"),
            )
            for at in ("6", time.isoformat(), "11", "then"):
                with self.assertRaisesRegex(AssertionError, "kept|neither a position nor a time"):
                    self.keeping.word("restore", "shop", "--at", at)
            with self.assertRaisesRegex(AssertionError, "there is a database eight"):
                self.keeping.word("restore", "shop", "--at", 9, "--as", "eight")
            kept = [json.loads(line) for line in self.keeping.word("list", "--json").splitlines()]
            facts = {
                each["name"]: (each["oldest"], each["base"], each["archived"], each["read_only"])
                for each in kept
            }
            self.assertEqual(
                facts,
                {"shop": (7, 7, 10, False), "eight": (7, 7, 8, True), "shop-5": (0, 0, 5, True)},
            )
