"""The object store below the archive: runs of blocks that are sealed, put, read back and cut, whatever dies, stands still or goes back."""

from __future__ import annotations

import hashlib
import os
import random
import signal
import subprocess
import sys
import tempfile
import traceback
import unittest
import uuid
from contextlib import suppress
from dataclasses import replace
from datetime import datetime
from pathlib import Path
from typing import Any
from unittest.mock import patch

import psycopg
from click.testing import CliRunner

from pagelog import Block, Put
from pagelog.cli.drop_words import _drop_named
from pagelog.cli.words import pagelogctl
from pagelog.referee.bases import NOTHING, Base, Bases, make_base
from pagelog.keeper.basing import BaseWish
from pagelog.keeper.history import begin_again, extent_of, position_at
from pagelog.keeper.holding import hold, let_go
from pagelog.images import MARK, Replay
from pagelog.referee.referee import (
    Away,
    BrokenArchive,
    BrokenBase,
    Doubt,
    KeeperError,
    Pruned,
    Referee,
    digest,
)
from pagelog.referee.rows import Batch, Kept
from pagelog.referee.schema import _STORE
from pagelog.store import packing
from pagelog.referee import object_statements as tables
from pagelog.store.mover import Mover
from pagelog.store.moving import Moving, Wish, foreign
from pagelog.objects.pack import image_of, read_manifest
from pagelog.store.packing import PackMover
from pagelog.objects.place import Folder, Missing, Store, StoreAway, StoreError, store_of
from pagelog.objects.segment import BrokenObject, SegmentHead, Segment, decode, encode, named
from pagelog.objects.settings import StoreSettings
from pagelog.store.sweeping import sweep
from test_images import pages
from test_referee import Referees

TABLES = ("log", "generation", "block", "store", "object", "gone", "base", "pack", "image")
PACKING = (
    "packed",
    "pack named",
    "before put of a pack",
    "pack put",
    "pack read back",
    "pack kept",
    "pack cut",
    "manifest made",
    "manifest named",
    "before put of a manifest",
    "manifest put",
    "manifest read back",
    "manifest kept",
)
STEPS = ("encoded", "sealed", "before put", "put", "read back", "kept", "cut", "cleared")
SMALL = 20_000
"""Bytes of an object in most tests."""


class Stored(Referees):
    """A database whose blocks go to a folder."""

    def setUp(self) -> None:
        super().setUp()
        self.folder = Path(self.enterContext(tempfile.TemporaryDirectory()))
        self.settings = self.new_settings()
        self.store = store_of(self.settings)
        self.kept = self.taken()
        self.made: list[bytes] = []
        self.chance = random.Random(7)
        self.reader = self.reading()

    def new_settings(self) -> StoreSettings:
        return StoreSettings(f"file://{self.folder}", seal=SMALL, age=0.0, tail=0.0, grace=0.0)

    def reading(self, **more: Any) -> Referee:
        """A referee that knows the store."""
        made = Referee(self.url, store=replace(self.settings, **more))
        self.addCleanup(made.close)
        return made

    def write(self, count: int, run: str = "r1") -> None:
        first = self.kept.archived + 1
        self.keep(
            [
                Block.of(
                    first + at,
                    [
                        Put(
                            self.chance.randrange(200),
                            self.chance.randrange(8000),
                            self.chance.randbytes(90),
                        )
                    ],
                ).data
                for at in range(count)
            ],
            run,
        )

    def keep(self, made: list[bytes], run: str = "r1") -> None:
        batch = Batch(
            self.row.id,
            run,
            self.kept.generation,
            self.kept.archived,
            digest(self.kept.chain, made),
            tuple(made),
        )
        self.assertEqual(self.referee.keep([batch]), {self.row.id})
        self.kept = Kept(batch.new, batch.chain, self.kept.generation)
        self.made += made

    def mover(self, **more: Any) -> Mover:
        options = {key: more.pop(key) for key in ("passing", "level") if key in more}
        return Mover(
            self.reading(),
            self.store,
            self.row.id,
            "shop",
            self.row.identity,
            replace(self.settings, **more),
            **options,
        )

    def move(self, **more: Any) -> Mover:
        """Moves all that there is to move."""
        mover = self.mover(**more)
        while mover.step():
            pass
        return mover

    def in_postgres(self) -> list[int]:
        return self.rows()

    def objects(self) -> list[tuple[Any, ...]]:
        return self.reader._ask(
            "SELECT first, last, key, state FROM pagelog_object WHERE log = %s ORDER BY first",
            (self.row.id,),
        )

    def place(self) -> tuple[int, int]:
        """How far it is moved, and cut."""
        [row] = self.reader._ask(
            "SELECT moved, cut FROM pagelog_store WHERE log = %s", (self.row.id,)
        )
        return row  # type: ignore[no-any-return]

    def strays(self) -> set[str]:
        """Keys that no row knows."""
        rows = self.reader._ask(
            "SELECT key FROM pagelog_gone UNION ALL SELECT key FROM pagelog_pack UNION ALL SELECT manifest FROM pagelog_base"
        )
        known = {row[2] for row in self.objects()} | {key for key, in rows}
        return {key for key, _ in self.store.list("")} - known

    def child(self, at: str, number: int) -> int:
        """A mover as a process, which gets this signal at a point."""
        if pid := os.fork():
            self.addCleanup(end_child, pid)
            return pid
        left = [at]

        def passing(point: str) -> None:
            if [point] == left:
                left.clear()  # only once: it goes on afterwards
                os.kill(os.getpid(), number)

        status = 1
        try:
            self.store = store_of(self.settings)  # with connections of its own
            self.move(passing=passing)
            status = 0
        except BaseException:
            traceback.print_exc()
        finally:
            os._exit(status)

    def standing(self, at: str) -> int:
        """One that stands still there: the next one is begun behind it, so that there is something for each."""
        pid = self.child(at, signal.SIGSTOP)
        self.assertTrue(os.WIFSTOPPED(os.waitpid(pid, os.WUNTRACED)[1]), at)
        return pid

    def note(self) -> None:
        """Notes what PostgreSQL has, for `go_back`."""
        with psycopg.connect(self.url) as connection:
            for table in TABLES:
                connection.execute(f"CREATE TABLE before_{table} AS TABLE pagelog_{table}")
        self.noted = self.kept, list(self.made)

    def go_back(self) -> None:
        """PostgreSQL has what it had, and its sessions go on: nothing tells them."""
        with psycopg.connect(self.url) as connection:
            connection.execute(
                "SET session_replication_role = replica"
            )  # all of it at once, whatever refers to what
            for table in TABLES:
                connection.execute(f"DELETE FROM pagelog_{table}")
            for table in TABLES:
                connection.execute(f"INSERT INTO pagelog_{table} TABLE before_{table}")
        self.kept, self.made = self.noted

    def read(self, log: int | None = None, last: int | None = None) -> list[bytes]:
        """All blocks, by a referee that has read nothing before."""
        reader = self.reading()
        found = [
            block
            for piece in reader.blocks(log or self.row.id, 1, last or self.kept.archived)
            for block in piece
        ]
        reader.close()
        return found

    def check(self, what: str = "") -> None:
        """All positions are read, and have the chain; PostgreSQL has all above the cut, and each object that is said to be kept is there."""
        self.assertEqual(self.read(), self.made, what)
        self.assertEqual(digest(b"", self.read()), self.kept.chain)
        rows, (moved, cut) = self.objects(), self.place()
        self.assertLessEqual(set(range(cut + 1, self.kept.archived + 1)), set(self.in_postgres()))
        at = 0
        for first, last, key, state in rows:
            self.assertEqual((first, state == 2), (at + 1, last <= cut), what)
            at = last
            if state:
                self.assertEqual(
                    decode(self.store.get(key), key).blocks(first, last),
                    self.made[first - 1 : last],
                )
        self.assertEqual(at, moved)


class Objects(unittest.TestCase):
    def setUp(self) -> None:
        self.folder = Path(self.enterContext(tempfile.TemporaryDirectory()))
        blocks = [Block.of(lsn, [Put(0, 0, b"%d" % lsn * 9)]).data for lsn in range(5, 25)]
        head = SegmentHead(uuid.UUID(int=7 << 96), 5, 24, b"b" * 16, digest(b"b" * 16, blocks), 3)
        self.blocks, self.segment = blocks, Segment(
            head, b"".join(blocks), list(map(len, blocks)), [1_000_000 + at for at in range(20)]
        )
        self.sealed = encode(self.segment, "shop.00000007")

    def test_an_object_is_what_its_key_says(self) -> None:
        key, data = self.sealed.key, self.sealed.data
        found = decode(data, key)
        self.assertEqual(
            (found.head, found.blocks(5, 24), list(found.came)),
            (self.segment.head, self.blocks, list(self.segment.came)),
        )
        self.assertEqual(found.blocks(9, 11), self.blocks[4:7])
        self.assertEqual(encode(self.segment, "shop.00000007"), self.sealed)
        said = named(key)
        assert said is not None
        self.assertEqual(
            (said.folder, said.first, said.last, said.generation, said.before),
            ("shop.00000007", 5, 24, 3, b"b" * 16),
        )
        for wrong in (
            data[:-1],
            data[:50],
            b"",
            data[:60] + bytes((data[60] ^ 1,)) + data[61:],
            data + b"x",
        ):
            self.assertRaises(BrokenObject, decode, wrong, key)
        self.assertIsNone(named(key.replace("/blocks/", "/images/")))

    def test_a_head_that_lies_takes_no_memory(self) -> None:
        data = bytearray(self.sealed.data)
        data[72 + 8 : 72 + 16] = (1 << 62).to_bytes(8, "big")  # how many bytes its blocks have
        key = self.sealed.key.replace(
            self.sealed.digest.hex()[:16], hashlib.sha256(data).hexdigest()[:16]
        )
        self.assertRaises(BrokenObject, decode, bytes(data), key)

    def test_a_folder_keeps_five_words(self) -> None:
        store = Folder(self.folder)
        store.put("shop.1/blocks/a", b"one")
        store.put("shop.1/blocks/a", b"one")
        store.put("shop.b.2/blocks/a", b"two!")
        self.assertEqual(
            (store.get("shop.1/blocks/a"), store.get("shop.b.2/blocks/a", 1, 2)), (b"one", b"wo")
        )
        self.assertEqual(list(store.list("shop.1/")), [("shop.1/blocks/a", 3)])
        self.assertEqual(list(store.list("shop.", "shop.1/blocks/a")), [("shop.b.2/blocks/a", 4)])
        self.assertEqual(list(store.older("shop.1/blocks/a")), [])
        store.delete("shop.1/blocks/a")
        store.delete("shop.1/blocks/a")
        self.assertRaises(Missing, store.get, "shop.1/blocks/a")
        for wrong in ("../a", "/a", "", "a//b", ".a", "a/.b"):
            self.assertRaises(StoreError, store.put, wrong, b"")
        self.assertEqual(
            sorted(path.name for path in self.folder.rglob("*") if path.is_file()), ["a"]
        )

    def test_a_folder_that_is_not_mounted_is_away_and_nothing_is_written_in_its_place(self) -> None:
        store = Folder(self.folder / "none")
        for call in (
            lambda: store.put("a", b""),
            lambda: store.get("a"),
            lambda: list(store.list("")),
            lambda: store.delete("a"),
        ):
            self.assertRaises(StoreAway, call)
        self.assertFalse((self.folder / "none").exists())


class Moves(Stored):
    def test_blocks_go_to_the_store_and_are_read_through(self) -> None:
        for count in (300, 200, 7):
            self.write(count)
            self.move()
            self.check()
        self.assertEqual((self.place(), self.in_postgres()), ((507, 507), []))
        self.assertGreater(len(self.objects()), 2)
        piece = self.reader.blocks(self.row.id, 201, 507)
        self.assertEqual([block for each in piece for block in each], self.made[200:])
        self.assertIsNone(self.reader.few_blocks(self.row.id, 500, 507))
        self.write(3)
        self.assertEqual(self.read()[500:], self.made[500:])  # from both
        with self.assertRaisesRegex(
            KeeperError, r"in a store, and the credentials name none: say \[archive\] store"
        ):
            list(self.referee.blocks(self.row.id, 1, 9))

    def test_what_is_young_stays(self) -> None:
        self.write(50)
        self.move(age=3600.0)  # less than an object, and young
        self.assertEqual(self.place(), (0, 0))
        self.write(300)
        self.move(age=3600.0, tail=3600.0)
        moved, cut = self.place()
        self.assertEqual((0 < moved < 350, cut, len(self.in_postgres())), (True, 0, 350))
        self.move(age=3600.0)
        self.assertEqual(self.place(), (moved, moved))
        self.check()

    def test_a_mover_that_has_nothing_to_do_writes_nothing(self) -> None:
        def version() -> str:
            [[xmin]] = self.referee._ask(
                "SELECT xmin::text FROM pagelog_store WHERE log = %s", (self.row.id,)
            )
            return str(xmin)

        self.write(20)
        idle, patient = self.move(), self.move(age=3600.0, seal=1 << 20)
        before = version()
        self.assertFalse(idle.step())
        self.write(1)
        self.assertFalse(patient.step())  # too few, and too young
        self.assertEqual(version(), before)
        self.assertTrue(idle.step())
        self.assertNotEqual(version(), before)
        while idle.step():
            pass
        before = version()
        with patch("pagelog.store.mover.BELIEVED", 0.0):  # the server may have led long ago
            self.assertFalse(idle.step())
        self.assertNotEqual(version(), before)

    def test_another_zstd_makes_other_bytes_which_have_another_key(self) -> None:
        self.write(100)

        class Died(Exception):
            pass

        def die(point: str) -> None:
            if point == "before put":
                raise Died

        with self.assertRaises(Died):
            self.move(passing=die)
        [[_, _, before, state], *_] = self.objects()
        self.move(level=9)
        [[_, _, after, _], *_] = self.objects()
        self.assertEqual((state, before == after), (0, False))
        self.check()
        self.assertEqual(self.reader._ask("SELECT key FROM pagelog_gone"), [(before,)])

    def test_a_history_that_begins_with_a_base_is_moved_from_there(self) -> None:
        self.write(100)
        make_base(self.referee, self.row.id, 100, self.kept.chain)
        Bases(self.referee, self.row.id).prune(100)
        self.write(50)
        self.move()
        self.assertEqual(
            (self.place(), self.in_postgres(), self.objects()[0][0]), ((150, 150), [], 101)
        )
        found = [block for piece in self.reader.blocks(self.row.id, 101, 150) for block in piece]
        self.assertEqual(found, self.made[100:])

    def test_who_may_read_blocks_may_read_objects(self) -> None:
        with psycopg.connect(self.url, autocommit=True) as connection:
            connection.execute("CREATE ROLE looks_at_blocks")
            self.addCleanup(connection.close)
            connection.execute("GRANT SELECT ON pagelog_block TO looks_at_blocks")
            for table in ("store", "object", "gone"):
                connection.execute(f"DROP TABLE pagelog_{table}")
            for statement in _STORE:
                connection.execute(statement)
            may = [
                connection.execute(
                    "SELECT has_table_privilege('looks_at_blocks', %s, %s)",
                    (f"pagelog_{table}", kind),
                ).fetchone()
                for table in ("store", "object", "gone")
                for kind in ("SELECT", "UPDATE")
            ]
            connection.execute("DROP OWNED BY looks_at_blocks")
            connection.execute("DROP ROLE looks_at_blocks")
        self.assertEqual(may, [(True,), (False,)] * 3)

    def test_nothing_is_moved_of_what_is_damaged(self) -> None:
        self.write(40)
        with psycopg.connect(self.url, autocommit=True) as connection:
            connection.execute(
                "UPDATE pagelog_block SET data = set_byte(data, 20, 255) WHERE lsn = 7"
            )
        self.assertRaisesRegex(BrokenArchive, "block 7 is not the one that was kept", self.move)
        self.assertEqual(self.objects(), [])


def ended(pid: int) -> int:
    return os.waitstatus_to_exitcode(os.waitpid(pid, 0)[1])


def end_child(pid: int) -> None:
    """Ends one that a failed test has left; where it has ended, and was waited for, it is nobody's child any more."""
    with suppress(ChildProcessError):
        if os.waitpid(pid, os.WNOHANG) == (0, 0):
            os.kill(pid, signal.SIGKILL)
            os.waitpid(pid, 0)


class Deaths(Stored):
    def test_a_mover_may_be_killed_at_each_step(self) -> None:
        for step in STEPS:
            self.write(250)
            self.assertEqual(ended(self.child(step, signal.SIGKILL)), -signal.SIGKILL, step)
            self.check(step)
        self.move()
        self.check()
        self.assertEqual(
            (self.place()[1], self.in_postgres(), self.strays()), (self.kept.archived, [], set())
        )

    def test_it_may_stand_still_at_each_step_while_another_moves(self) -> None:
        self.write(250)
        standing = {step: self.standing(step) for step in STEPS}
        self.move()
        self.write(250)
        self.check()
        for step, pid in standing.items():
            os.kill(pid, signal.SIGCONT)
            self.assertEqual(ended(pid), 0, step)
            self.check(step)
        self.move()
        self.assertEqual((self.in_postgres(), self.strays()), ([], set()))

    def test_what_another_has_sealed_and_not_cut_is_sealed_once(self) -> None:
        self.write(250)
        standing = self.standing("encoded")
        self.move(tail=3600.0)
        os.kill(standing, signal.SIGCONT)
        self.assertEqual(ended(standing), 0)
        self.check()

    def test_what_another_has_put_and_cut_meanwhile_is_not_missing(self) -> None:
        self.write(50)
        sealing, late = self.mover(), self.mover()
        while not self.objects():
            sealing.step()
        read = late._read

        def meanwhile(*arguments: Any) -> Any:
            self.move()
            return read(*arguments)

        with patch.object(late, "_read", meanwhile):
            self.assertTrue(late.step())
        self.assertEqual(self.in_postgres(), [])
        self.check()

    def test_nothing_is_done_for_a_database_whose_number_is_another_ones(self) -> None:
        self.write(50)
        self.row = replace(self.row, identity=str(uuid.uuid4()))
        self.move()
        self.assertEqual(
            (self.objects(), self.reader._ask("SELECT log FROM pagelog_store")), ([], [])
        )

    def test_what_is_above_the_cut_is_cleared_by_nobody(self) -> None:
        self.write(300)
        mover = self.move(tail=3600.0)
        mover._ask(tables.CLEAR, first=1, last=300)
        self.assertEqual(self.in_postgres(), list(range(1, 301)))

    def test_two_at_once_put_the_same(self) -> None:
        for _ in range(4):
            self.write(400)
            pids = [self.child("never", 0) for _ in range(2)]
            for pid in pids:
                self.assertEqual(ended(pid), 0)
            self.check()
        self.assertEqual((self.in_postgres(), self.strays()), ([], set()))

    def test_a_mover_does_not_believe_what_it_holds_once_postgres_went_back(self) -> None:
        """PostgreSQL is put back while movers stand at each step, and another run archives other blocks at the same positions."""
        self.write(250)
        self.move()
        self.write(30)
        self.note()
        self.write(220)
        standing = [self.standing(step) for step in STEPS]
        self.go_back()
        self.kept = self.taken("r2")
        self.write(220, "r2")
        lost = {key for key, _ in self.store.list("")} - {row[2] for row in self.objects()}
        for pid in standing:
            os.kill(pid, signal.SIGCONT)
        for pid in standing:
            self.assertEqual(ended(pid), 0)
        self.check()
        self.move()
        self.check()
        self.assertEqual(self.in_postgres(), [])
        self.assertLessEqual(
            lost, {key for key, _ in self.store.list("")}
        )  # what PostgreSQL has lost is left alone

    def test_what_the_store_has_and_postgres_does_not_know_is_said(self) -> None:
        self.write(250)
        self.move()
        self.assertEqual(foreign(self.reader, self.store, self.row.identity), (0, 0))
        self.note()
        self.write(250)
        self.move()
        known = self.objects()
        self.go_back()
        objects = len(known) - len(self.objects())
        self.assertEqual(foreign(self.reader, self.store, self.row.identity), (objects, 500))
        reports: list[Any] = []
        moving = Moving(Wish(self.url, "one", self.settings), reports.append)
        self.addCleanup(moving.close)
        while moving.round():
            pass
        report = reports[-1]["shop"]
        self.assertEqual(
            (report["foreign"], report["foreign_end"], report["stored"], report["broken"]),
            (objects, 500, 250, None),
        )
        self.write(300)  # what comes in its place goes beyond it
        while moving.round() or self.place()[1] < 550:
            pass
        moving.round()
        self.assertEqual(reports[-1]["shop"]["foreign"], 0)


def pages_of(bases: Bases, base: Base) -> dict[int, bytes]:
    return {number: page for image in bases.images(base) for number, page in image.pages()}


class WithImages(Stored):
    """A database whose images go to the folder, too."""

    def base(self) -> Base:
        made = make_base(self.reader, self.row.id, self.kept.archived, self.kept.chain)
        self.bases[made.position] = made
        return made

    def setUp(self) -> None:
        super().setUp()
        self.bases: dict[int, Base] = {}

    def here(self) -> list[tuple[int, int]]:
        """The images whose bytes are in PostgreSQL."""
        return self.reader._ask(
            "SELECT range, base FROM pagelog_image WHERE data <> '' AND log = %s ORDER BY range, base",
            (self.row.id,),
        )

    def packs(self) -> list[tuple[Any, ...]]:
        return self.reader._ask(
            "SELECT number, key, digest, state FROM pagelog_pack WHERE log = %s ORDER BY number",
            (self.row.id,),
        )

    def check_images(self, what: str = "") -> None:
        """Each base has its pages, each pack that is said to be kept is there, and each manifest that is names these images."""
        reader = self.reading()
        for base in self.bases.values():
            self.assertEqual(
                pages_of(Bases(reader, self.row.id), base),
                pages(self.made[: base.position]),
                (what, base.position),
            )
        for _, key, digest, state in self.packs():
            if state:
                self.assertEqual(hashlib.sha256(self.store.get(key)).digest(), digest, what)
        reader.close()
        for position, key in self.manifests().items():
            self.assertEqual(self.by_manifest(key), pages(self.made[:position]), what)

    def manifests(self) -> dict[int, str]:
        return dict(
            self.reader._ask(
                "SELECT base, manifest FROM pagelog_base WHERE log = %s AND is_stored ORDER BY base",
                (self.row.id,),
            )
        )

    def by_manifest(self, key: str) -> dict[int, bytes]:
        """The pages of a base by the store alone, as who has no PostgreSQL reads them: each image by a range."""
        found = read_manifest(self.store.get(key), key)
        images = [
            image_of(packed, self.store.get(found.packs[number].key, packed.at, packed.length), key)
            for packed, number in found.images
        ]
        self.assertEqual(sum(image.mask.bit_count() for image in images), found.facts.pages)
        return {number: page for image in images for number, page in image.pages()}


class Images(WithImages):
    def test_images_go_to_packs_and_are_read_by_ranges(self) -> None:
        for count in (300, 40, 5):
            self.write(count)
            self.base()
            self.move()
            self.check_images()
        self.assertEqual(
            (self.here(), self.strays(), {row[3] for row in self.packs()}), ([], set(), {2})
        )
        self.assertEqual(list(self.manifests()), list(self.bases))
        asked: list[tuple[Any, ...]] = []
        get = self.store.get
        with patch(
            "pagelog.objects.place.Folder.get",
            lambda _, key, *part: (asked.append((key, *part)), get(key, *part))[1],
        ):
            reader = self.reading()
            last = self.bases[345]
            image = Bases(reader, self.row.id).image(2, last)
            assert image is not None
            self.assertEqual(
                dict(image.pages()),
                {number: page for number, page in pages(self.made).items() if 128 <= number < 192},
            )
            [(key, _, length)] = asked
            self.assertLess(length, len(get(key)))
            asked.clear()
            self.assertEqual(pages_of(Bases(reader, self.row.id), last), pages(self.made))
            self.assertLessEqual(len(asked), 4)  # those that are beside each other come at once
        with self.assertRaisesRegex(
            KeeperError, r"in a store, and the credentials name none: say \[archive\] store"
        ):
            pages_of(Bases(self.referee, self.row.id), last)

    def test_nothing_is_packed_of_what_is_damaged_or_no_base_names(self) -> None:
        self.write(100)
        self.base()
        self.reader._ask(
            "UPDATE pagelog_image SET data = set_byte(data, 9, 255) WHERE range = 1 RETURNING 1"
        )
        self.assertRaisesRegex(BrokenArchive, "the image of range 1 is damaged", self.move)
        self.reader._ask(
            "UPDATE pagelog_image SET data = set_byte(data, 9, 0) WHERE range = 1 RETURNING 1"
        )
        self.reader._ask("DELETE FROM pagelog_base RETURNING 1")
        self.move()
        garbage = self.here()
        self.assertEqual((self.packs(), len(garbage)), ([], 4))
        self.bases.clear()
        self.write(50)
        self.base()
        self.move()
        self.check_images()
        self.assertEqual(
            (self.here(), len(self.packs())), (garbage, 1)
        )  # and what is behind it does not wait for that

    def test_what_a_pack_was_made_of_is_compared_where_it_is_named(self) -> None:
        self.write(100)
        self.base()

        def change(point: str) -> None:
            if point == "packed" and not self.packs():
                self.reader._ask(
                    "UPDATE pagelog_image SET data = set_byte(data, 9, 7) WHERE range = 1 RETURNING 1"
                )

        self.assertEqual((self.move(passing=change).images.refused, self.packs()), (1, []))
        self.assertRaisesRegex(BrokenArchive, "the image of range 1 is damaged", self.move)

    def test_what_of_it_is_damaged_before_it_was_read_back_is_put_again(self) -> None:
        for number, (at, kind) in enumerate(
            (("pack put", "/images/"), ("manifest put", "/bases/"))
        ):
            self.write(60)
            self.base()
            before = {key for key, _ in self.store.list("")}

            def damage(point: str) -> None:
                if point == at:  # noqa: B023
                    for key in {key for key, _ in self.store.list("")} - before:  # noqa: B023
                        if kind in key:  # noqa: B023
                            self.store.put(key, b"x")

            with self.assertRaisesRegex(StoreError, "does not return what was put"):
                self.move(passing=damage)
            self.assertEqual(len(self.manifests()), number)
            self.move()
            self.check_images(at)
        self.assertEqual((self.here(), len(self.manifests())), ([], 2))

    def test_images_of_a_database_whose_number_is_another_ones_stay(self) -> None:
        self.write(50)
        self.mover().step()  # its row in pagelog_store
        self.base()
        mover = PackMover(
            self.mover()._ask, self.store, uuid.UUID(self.row.identity), lambda _: None, 3
        )
        other = uuid.uuid4()
        ask = mover._ask
        with patch.object(
            mover,
            "_ask",
            lambda statement, **values: ask(
                statement,
                **values,
                **({"identity": str(other)} if statement == tables.PACK else {}),
            ),
        ):
            self.assertFalse(mover.step())
        self.assertEqual(self.packs(), [])

    def test_a_base_that_is_pruned_while_another_is_made_of_it_is_none(self) -> None:
        """Its images are gone before they are read: the pages would be those of nobody."""
        self.write(100)
        first = self.base()
        self.write(100)
        second = self.base()
        self.write(50)
        Bases(self.reader, self.row.id).prune(100)
        rows, other = Bases._rows, Referee(self.url)
        self.addCleanup(other.close)

        reads: list[Any] = []

        def late(of: Bases, *values: Any) -> list[Any]:
            reads.append(values)
            if len(reads) == 2:  # all blocks were read by then
                Bases(other, self.row.id).prune(second.position)
            return rows(of, *values)

        with patch.object(Bases, "_rows", late), patch.object(Bases, "newest", lambda *_: first):
            self.assertRaisesRegex(
                Pruned,
                "base at position 100",
                make_base,
                self.reader,
                self.row.id,
                self.kept.archived,
                self.kept.chain,
            )
        self.assertGreater(len(reads), 2)
        self.assertEqual(
            self.reader._ask("SELECT range FROM pagelog_image WHERE base > %s", (second.position,)),
            [],
        )
        self.assertRaisesRegex(
            Pruned,
            "base at position 100 was pruned meanwhile",
            pages_of,
            Bases(self.reader, self.row.id),
            first,
        )

    def test_another_zstd_makes_other_packs_and_manifests(self) -> None:
        self.write(100)
        self.base()

        class Died(Exception):
            pass

        for at, level in (("before put of a pack", 3), ("before put of a manifest", 9)):

            def die(point: str) -> None:
                if point == at:  # noqa: B023
                    raise Died

            with self.assertRaises(Died):
                self.move(passing=die, level=level)
        self.move()
        self.check_images()
        self.assertEqual(
            (self.here(), len(self.reader._ask("SELECT key FROM pagelog_gone"))), ([], 2)
        )

    def test_what_is_kept_anew_is_packed_anew(self) -> None:
        """As where PostgreSQL went back, and a run goes on that began with images."""
        self.write(100)
        base = self.base()
        self.move()
        replay = Replay(lambda _: None)
        replay.apply(self.made)
        self.reader._ask("UPDATE pagelog_image SET crc = 0 RETURNING 1")
        again = Bases(self.reader, self.row.id).keep_all(100, replay, base.chain)
        self.assertEqual((again, len(self.here())), (base, 4))
        self.move()
        self.check_images()
        [(number, *_)] = self.packs()
        self.assertEqual((self.here(), number > 1), ([], True))

    def test_a_base_that_waits_for_the_store_is_behind(self) -> None:
        self.write(50)
        self.base()

        def behind() -> float:
            [row] = self.reader._ask(tables.HELD, {"me": "one"})
            return float(row[-1])

        self.reader._ask(
            "UPDATE pagelog_base SET came = now() - interval '1000 seconds' RETURNING 1"
        )
        self.assertGreater(behind(), 999)
        self.move()
        self.assertEqual(behind(), 0)

    def test_pruning_takes_packs_and_manifests_that_nothing_names_and_no_others(self) -> None:
        for place in (0, 150, 0):
            self.keep(
                [
                    Block.of(
                        self.kept.archived + 1 + at,
                        [Put(place + at % 9, 0, b"%d" % self.kept.archived)],
                    ).data
                    for at in range(40)
                ]
            )
            self.base()
            self.move()
        first, second, last = self.packs()
        manifests = self.manifests()
        Bases(self.reader, self.row.id).prune(120)
        del self.bases[40], self.bases[80]
        self.assertEqual(
            ([row[0] for row in self.packs()], self.manifests()),
            ([second[0], last[0]], {120: manifests[120]}),
        )
        self.check_images()
        self.assertEqual(sweep(self.reader, self.store, 3600.0), 0)
        self.assertGreater(sweep(self.reader, self.store, 0.0), 3)
        self.assertFalse(
            {first[1], manifests[40], manifests[80]} & {key for key, _ in self.store.list("")}
        )
        self.check_images()
        self.assertTrue(self.reader.drop("shop"))
        sweep(self.reader, self.store, 0.0)
        self.assertEqual(list(self.store.list("")), [])

    def test_an_image_that_is_damaged_is_named_and_an_older_version_found(self) -> None:
        self.write(300)
        base = self.base()
        self.move()
        [[_, key, _, _]] = self.packs()
        file = self.folder / key
        whole = file.read_bytes()
        for data in (
            None,
            whole[: len(whole) // 2],
            whole[:40] + bytes((whole[40] ^ 4,)) + whole[41:],
            b"",
        ):
            file.unlink(missing_ok=True)
            if data is not None:
                file.write_bytes(data)
            with self.assertRaisesRegex(
                BrokenArchive,
                f"images from range 0 on at position 300 cannot be read: the object {key} (is missing|has other)",
            ):
                pages_of(Bases(self.reader, self.row.id), base)
            with patch.object(Folder, "older", lambda _, key: iter([b"other", whole])):
                self.assertEqual(pages_of(Bases(self.reader, self.row.id), base), pages(self.made))
        self.folder.rename(f"{self.folder}.away")
        with self.assertRaisesRegex(
            Away, "images from range 0 on at position 300 are in the store: the store has no folder"
        ):
            pages_of(Bases(self.reader, self.row.id), base)
        Path(f"{self.folder}.away").rename(self.folder)

    def test_where_a_base_cannot_be_read_an_older_one_is_taken_and_it_is_made_anew(self) -> None:
        self.keep([Block.of(1, [Put(600, 0, b"of the first base alone")]).data])
        for count in (299, 300, 300):
            self.write(count)
            self.base()
            self.move()
        first, second, third = self.bases.values()
        keys, manifest = [key for _, key, *_ in self.packs()], self.manifests()[900]
        self.damage(keys[2], third, second)
        self.assertEqual(
            [Bases(self.reader, self.row.id).oldest_to_keep(keep) for keep in (1, 2, "0 seconds")],
            [600, 300, 600],
        )
        (self.folder / keys[2]).write_bytes(self.whole)
        self.reader._ask(
            "UPDATE pagelog_base SET broken = broken - interval '2 hours' WHERE broken IS NOT NULL RETURNING 1"
        )
        for base, older in ((third, second), (second, first), (first, NOTHING)):
            self.damage(keys[0], base, older)
        self.assertEqual(
            make_base(self.reader, self.row.id, 900, self.kept.chain), third
        )  # of all blocks
        reader = Bases(self.reader, self.row.id)
        self.assertEqual((reader.newest(900), reader.oldest_to_keep(1)), (third, 900))
        self.move()
        self.assertEqual(pages_of(reader, third), pages(self.made))
        self.assertNotEqual(self.manifests()[900], manifest)
        self.assertEqual(self.by_manifest(self.manifests()[900]), pages(self.made))
        self.write(10)
        self.assertEqual(pages_of(reader, self.base()), pages(self.made))

    def test_the_next_one_is_made_of_an_older_one_if_need_be(self) -> None:
        """The images that it needs cannot be read, which nobody has noticed yet."""
        for _ in range(2):
            self.write(300)
            self.base()
            self.move()
        (self.folder / self.packs()[1][1]).unlink()
        self.write(60)
        base = self.base()
        self.assertEqual(pages_of(Bases(self.reader, self.row.id), base), pages(self.made))

    def damage(self, key: str, base: Base, older: Base) -> None:
        """This pack."""
        self.whole = (self.folder / key).read_bytes()
        (self.folder / key).write_bytes(b"x")
        reader = Bases(self.reader, self.row.id)
        self.assertEqual(reader.newest(900), base)
        self.assertRaises(BrokenBase, pages_of, reader, base)
        self.assertEqual(reader.newest(900), older)

    def test_where_no_older_base_is_kept_the_newest_is_said_to_be_broken(self) -> None:
        self.write(300)
        base = self.base()
        self.move()
        Bases(self.reader, self.row.id).prune(300)
        for _, key, *_ in self.packs():
            (self.folder / key).unlink()
        self.write(10)
        for _ in range(2):
            self.assertEqual(Bases(self.reader, self.row.id).newest(310), base)
            self.assertRaisesRegex(
                BrokenBase, "is missing", make_base, self.reader, self.row.id, 310, self.kept.chain
            )


class ImageDeaths(WithImages):
    def test_a_mover_may_be_killed_at_each_step_of_images(self) -> None:
        for step in PACKING:
            self.write(30)
            self.base()
            self.assertEqual(ended(self.child(step, signal.SIGKILL)), -signal.SIGKILL, step)
            self.check_images(step)
        self.move()
        self.check()
        self.check_images()
        self.assertEqual(
            (self.here(), self.strays(), list(self.manifests())), ([], set(), list(self.bases))
        )

    def test_it_may_stand_still_at_each_step_of_images_while_another_moves(self) -> None:
        standing = {}
        for step in PACKING:
            self.write(30)
            self.base()
            standing[step] = self.standing(step)
        self.move()
        self.write(30)
        self.base()
        for step, pid in standing.items():
            os.kill(pid, signal.SIGCONT)
            self.assertEqual(ended(pid), 0, step)
            self.check_images(step)
        self.move()
        self.assertEqual((self.here(), self.strays()), ([], set()))
        self.check_images()

    def test_a_pack_that_another_mover_has_cut_meanwhile_is_no_damage(self) -> None:
        self.write(100)
        self.base()
        self.assertEqual(ended(self.child("pack named", signal.SIGKILL)), -signal.SIGKILL)
        real, looked = packing.is_there, list[str]()

        def looks(store: Store, key: str, digest: bytes) -> bool:
            looked.append(key)
            if len(looked) > 1:
                return real(store, key, digest)
            self.move()  # the other one has put, kept and cut it before this one reads its images
            return False

        with patch("pagelog.store.packing.is_there", looks):
            self.move()
        self.assertGreater(len(looked), 1)
        self.check_images()
        self.assertEqual((self.here(), self.strays()), ([], set()))

    def test_two_movers_of_images_at_once(self) -> None:
        for _ in range(3):
            self.write(200)
            self.base()
            for pid in [self.child("never", 0) for _ in range(2)]:
                self.assertEqual(ended(pid), 0)
            self.check_images()
        self.assertEqual((self.here(), self.strays()), ([], set()))

    def test_what_another_mover_has_moved_meanwhile_is_not_missing(self) -> None:
        self.write(100)
        self.move()
        self.write(100)
        mover, came = self.mover(), list[int]()
        read = mover._read

        def meanwhile(*arguments: Any) -> Any:
            self.move()
            came.extend(self.in_postgres())
            return read(*arguments)

        with patch.object(mover, "_read", side_effect=meanwhile) as called:
            self.assertTrue(mover.step())
        self.assertEqual((called.call_count, came), (1, []))
        self.check()

    def test_a_mover_of_images_does_not_believe_what_it_holds_once_postgres_went_back(self) -> None:
        """Other images are made at the same position, while movers stand at each step."""
        self.write(100)
        self.base()
        self.move()
        self.note()
        known = dict(self.bases)
        standing = []
        for step in PACKING:
            self.write(9)
            self.base()
            standing.append(self.standing(step))
        self.move()
        self.go_back()
        self.kept, self.bases = self.taken("r2"), known
        for _ in PACKING:
            self.write(9, "r2")
            self.base()
        lost = {key for key, _ in self.store.list("")}
        for pid in standing:
            os.kill(pid, signal.SIGCONT)
        for pid in standing:
            self.assertEqual(ended(pid), 0)
        self.check_images()
        self.move()
        self.check()
        self.check_images()
        self.assertEqual((self.here(), list(self.manifests())), ([], list(self.bases)))
        self.assertLessEqual(lost, {key for key, _ in self.store.list("")})


class Held(WithImages):
    """A database that is held."""

    def setUp(self) -> None:
        super().setUp()
        for _ in range(2):
            self.write(300)
            self.base()
            self.move()
        self.write(300)
        self.base()

    def all(self) -> dict[str, int]:
        tables = ("base", "image", "pack", "object", "block", "gone", "log")
        return {
            table: self.reader._ask(f"SELECT count(*) FROM pagelog_{table}")[0][0]
            for table in tables
        } | dict(zip(("moved", "cut"), self.place()))

    def row_now(self) -> Any:
        return self.reader.everything().row("shop")

    def test_nothing_of_it_is_pruned_or_dropped(self) -> None:
        before = self.all()
        self.assertIsNotNone(hold(self.reader, self.row_now()))
        self.assertEqual(Bases(self.reader, self.row.id).prune(900), 0)
        self.assertFalse(self.reader.drop("shop"))
        self.assertEqual(self.all(), before)
        self.assertEqual(
            (extent_of(self.reader, self.row_now()).first, self.read()), (0, self.made)
        )
        self.check_images()
        self.assertTrue(let_go(self.reader, self.row_now()))
        self.assertGreater(Bases(self.reader, self.row.id).prune(900), 600)

    def test_one_that_is_held_while_it_is_pruned_keeps_what_it_has_then(self) -> None:
        """Whatever statement of the pruning comes next."""
        word = (
            "WITH free",
            "DELETE FROM pagelog_image",
            "DELETE FROM pagelog_pack",
            "DELETE FROM pagelog_object",
            "UPDATE pagelog_store",
            "DELETE FROM pagelog_block",
        )
        for number, cut in enumerate(word):
            ask, holder, seen = self.reader._ask, self.reading(), []

            def held(statement: str, *values: Any, **options: Any) -> list[Any]:
                if cut in statement and not seen:  # noqa: B023
                    hold(holder, self.row_now())  # noqa: B023
                    seen.append(self.all())  # noqa: B023
                return ask(statement, *values, **options)  # noqa: B023

            with patch.object(self.reader, "_ask", held):
                Bases(self.reader, self.row.id).prune(900)
            self.assertEqual(seen, [self.all()], cut)
            self.assertEqual(len(self.manifests()), 2 if number == 0 else 0)
            let_go(self.reader, self.row_now())
        Bases(self.reader, self.row.id).prune(900)
        self.assertEqual((self.all()["base"], self.all()["block"], self.all()["object"]), (1, 0, 0))

    def test_what_nothing_names_of_it_stays_in_the_store(self) -> None:
        Bases(self.reader, self.row.id).prune(900)
        self.assertGreater(self.all()["gone"], 0)
        self.assertEqual(sweep(self.reader, self.store, 0.0), 0)  # the newest base is not there
        self.move()
        hold(self.reader, self.row_now())
        keys = list(self.store.list(""))
        self.assertEqual(
            (sweep(self.reader, self.store, 0.0), list(self.store.list(""))), (0, keys)
        )
        let_go(self.reader, self.row_now())
        self.assertGreater(sweep(self.reader, self.store, 0.0), 3)

    def test_the_subcommands_say_so(self) -> None:
        file = self.folder.parent / f"{self.folder.name}.toml"
        self.addCleanup(file.unlink)
        file.touch(mode=0o600)
        file.write_text(f'[archive]\nurl = "{self.url}"\n')

        def said(*words: str) -> str:
            return CliRunner().invoke(pagelogctl, [*words, "--credentials", str(file)]).output

        self.assertRegex(
            said("hold", "shop"), "^shop is held since 20.*: positions 0 to 900, from 20"
        )
        self.assertRegex(said("list", "--json"), '"held": true')
        for words in (("prune", "shop", "--keep", "1", "--yes"), ("drop", "shop", "--yes")):
            self.assertRegex(
                said(*words),
                "nothing was deleted: shop is held since 20.*; `pagelogctl hold shop --release` lets go of it",
            )
        self.assertRegex(
            said("hold", "shop", "--release"),
            "shop may be pruned and dropped: it was held since 20",
        )
        self.assertIn("there is no database ship", said("hold", "ship"))
        self.assertRegex(said("prune", "shop", "--keep", "1", "--yes"), "pruned 900 blocks")


MOST = 64 << 20
"""Bytes of memory that a mover, or the making of a base, takes at most, beside what its process has when it begins."""
PEAK = """
import re, sys
def peak():
    return int(re.search(r"VmHWM:\\s+(\\d+)", open("/proc/self/status").read())[1]) << 10
"""
MOVING = """
from pagelog.referee.referee import Referee
from pagelog.store.mover import Mover
from pagelog.store.moving import Wish
from pagelog.objects.place import store_of
wish, before = Wish.read(sys.argv[1]), peak()
mover = Mover(Referee(wish.url, store=wish.store), store_of(wish.store), int(sys.argv[2]), "shop", sys.argv[3], wish.store)
while mover.step():
    pass
print(before, peak())
"""
"""A program that moves all that there is."""


def peak_of(program: str, *words: str) -> int:
    """How much more memory than before it a program had at once."""
    done = subprocess.run(
        [sys.executable, "-c", f"{PEAK}{program}", *words],
        capture_output=True,
        text=True,
        check=True,
        env={**os.environ, "PYTHONPATH": os.pathsep.join(sys.path)},
    )
    before, after = map(int, done.stdout.split()[-2:])
    return after - before


class Memory(WithImages):
    """A mover and the making of a base take memory that does not depend on how much there is: 64 MiB beside what their process has when it
    begins."""

    def test_what_a_mover_and_a_base_take_is_bounded(self) -> None:
        for _ in range(8):
            first = self.kept.archived + 1
            self.keep(
                [
                    Block.of(
                        first + at,
                        [
                            Put(4 * (first + at) + page, 0, self.chance.randbytes(8000))
                            for page in range(4)
                        ],
                    ).data
                    for at in range(256)
                ]
            )
        wish = BaseWish(
            self.url, self.row.id, self.kept.archived, self.kept.chain.hex(), None, self.settings
        )
        program = """
from pagelog.keeper.basing import BaseWish, make
wish, before = BaseWish.read(sys.argv[1]), peak()
make(wish)
print(before, peak())
"""
        taken = {"base": peak_of(program, wish.line)}
        base = self.bases[self.kept.archived] = Bases(self.reader, self.row.id).newest(
            self.kept.archived
        )
        self.assertEqual(base.pages, 8 * 256 * 4)
        settings = replace(self.settings, seal=8 << 20)
        line = Wish(self.url, "one", settings).line
        taken["mover"] = peak_of(MOVING, line, str(self.row.id), self.row.identity)
        self.assertEqual((self.in_postgres(), self.here()), ([], []))
        program = """
from pagelog.referee.bases import Bases
from pagelog.keeper.basing import BaseWish
from pagelog.referee.referee import Referee
wish, before = BaseWish.read(sys.argv[1]), peak()
bases = Bases(Referee(wish.url, store=wish.store), wish.log)
for image in bases.images(bases.newest(wish.archived)):
    pass
print(before, peak())
"""
        taken["images"] = peak_of(program, wish.line)
        first = self.kept.archived + 1
        self.keep(
            [
                Block.of(
                    first + at,
                    [
                        Put(self.chance.randrange(8000), 9, self.chance.randbytes(20))
                        for page in range(4)
                    ],
                ).data
                for at in range(6000)
            ]
        )
        self.base_of_the_store(taken)
        for what, bytes in taken.items():
            self.assertLess(bytes, MOST, taken)
        if os.environ.get("PAGELOG_TEST_SAYS"):
            print({what: f"{bytes >> 20} MiB" for what, bytes in taken.items()})

    def base_of_the_store(self, taken: dict[str, int]) -> None:
        """The next one, of images and blocks that the store alone has."""
        self.move(seal=8 << 20)
        self.assertEqual((self.in_postgres(), self.here()), ([], []))
        wish = BaseWish(
            self.url, self.row.id, self.kept.archived, self.kept.chain.hex(), None, self.settings
        )
        program = """
from pagelog.keeper.basing import BaseWish, make
wish, before = BaseWish.read(sys.argv[1]), peak()
make(wish)
print(before, peak())
"""
        taken["base of the store"] = peak_of(program, wish.line)
        base = Bases(self.reader, self.row.id).newest(self.kept.archived)
        self.assertEqual(base.position, self.kept.archived)
        reader = self.reading()
        self.assertTrue(pages_of(Bases(reader, self.row.id), base) == pages(self.made))


class Damage(Stored):
    def setUp(self) -> None:
        super().setUp()
        self.write(400)
        self.move()
        self.row_of = self.objects()[1]
        self.first, self.last, self.key, _ = self.row_of
        self.file = self.folder / self.key
        self.whole = self.file.read_bytes()

    def changes(self) -> dict[str, bytes | None]:
        whole = self.whole
        return {
            "deleted": None,
            "cut in half": whole[: len(whole) // 2],
            "a bit": whole[:200] + bytes((whole[200] ^ 4,)) + whole[201:],
            "empty": b"",
        }

    def change(self, data: bytes | None) -> None:
        self.file.unlink(missing_ok=True)
        if data is not None:
            self.file.write_bytes(data)

    def test_what_is_damaged_after_the_cut_is_named_and_nothing_else_stops(self) -> None:
        make_base(self.reader, self.row.id, self.kept.archived, self.kept.chain)
        for what, data in self.changes().items():
            self.change(data)
            with self.assertRaisesRegex(
                BrokenArchive,
                f"blocks {self.first} to {self.last} cannot be read: the object {self.key} (is missing|has other)",
            ):
                self.read()
            self.assertEqual(self.reader._piece(self.row.id, 1, 5), self.made[:5], what)
            self.write(60)
            self.move()
            base = Bases(self.reader, self.row.id).newest(self.kept.archived)
            after = [
                block
                for piece in self.reader.blocks(self.row.id, base.position + 1, self.kept.archived)
                for block in piece
            ]
            self.assertEqual(after, self.made[base.position :])  # a takeover reads no more
        self.change(self.whole)
        self.check()

    def test_an_older_version_that_is_right_is_found(self) -> None:
        for data in self.changes().values():
            self.change(data)
            with patch.object(
                Folder,
                "older",
                lambda _, key: iter([b"other", self.whole]) if key == self.key else iter(()),
            ):
                self.assertEqual(self.read(), self.made)

    def test_what_is_damaged_before_it_was_read_back_is_put_again(self) -> None:
        for at in range(4):
            self.write(220)
            before = {key for key, _ in self.store.list("")}

            def damage(point: str) -> None:
                if point == "put":
                    for key in {key for key, _ in self.store.list("")} - before:
                        data = (self.folder / key).read_bytes()
                        self.file, self.whole = self.folder / key, data
                        self.change(list(self.changes().values())[at])

            with self.assertRaisesRegex(StoreError, "does not return what was put"):
                self.move(passing=damage)
            self.move()
            self.check()

    def test_the_store_is_away(self) -> None:
        self.write(220)
        self.folder.rename(f"{self.folder}.away")
        try:
            self.assertRaises(StoreAway, self.move)
            with self.assertRaisesRegex(
                Away,
                f"blocks 1 to {self.objects()[0][1]} are in the store: the store has no folder",
            ):
                self.read()
            self.write(5)
            cut = self.place()[1]
            found = [
                block
                for piece in self.reader.blocks(self.row.id, cut + 1, self.kept.archived)
                for block in piece
            ]
            self.assertEqual(found, self.made[cut:])
        finally:
            Path(f"{self.folder}.away").rename(self.folder)
        self.move()
        self.check()


class Old(Stored):
    """Positions of the past, whose blocks are in objects, in PostgreSQL, or in both."""

    def setUp(self) -> None:
        super().setUp()
        self.times: dict[int, datetime] = {}
        for _ in range(4):
            self.write(150)
            [[self.times[self.kept.archived]]] = self.reader._ask("SELECT clock_timestamp()")
        self.move()
        self.write(25)
        self.border = self.objects()[1][1]

    def row_now(self) -> Any:
        return self.reader.everything().row("shop")


class Past(Old):
    def check_again(self, position: int) -> None:
        name = f"again-{position}"
        self.assertTrue(begin_again(self.reader, self.row_now(), position, name))
        made = self.reader.everything().row(name)
        assert made is not None
        self.assertEqual((made.archived, made.chain), (position, digest(b"", self.made[:position])))
        self.assertEqual(self.read(made.id, position), self.made[:position])

    def test_a_position_is_begun_again_by_rows(self) -> None:
        files = sorted(self.folder.rglob("*"))
        for position in (1, self.border - 1, self.border, self.border + 1, 600, 601, 625):
            self.check_again(position)
        self.assertEqual(sorted(self.folder.rglob("*")), files)
        self.assertEqual(
            len(self.rows()), 25 + 1 + 25
        )  # of the blocks that are in PostgreSQL alone

    def test_with_a_base_between(self) -> None:
        base = make_base(self.reader, self.row.id, 600, digest(b"", self.made[:600]))
        self.assertEqual(base.position, 600)
        self.write(200)
        self.move()
        for position in (600, 601, 700):
            name = f"again-{position}"
            self.assertTrue(begin_again(self.reader, self.row_now(), position, name))
            made = self.reader.everything().row(name)
            assert made is not None
            found = [
                block for piece in self.reading().blocks(made.id, 601, position) for block in piece
            ]
            self.assertEqual(
                (found, made.chain), (self.made[600:position], digest(b"", self.made[:position]))
            )

    def test_a_time_is_looked_for_in_objects_too(self) -> None:
        row = self.row_now()
        self.assertEqual(
            {
                position: position_at(self.reader, row, time)
                for position, time in self.times.items()
            },
            {at: at for at in self.times},
        )
        has = extent_of(self.reader, row)
        self.assertEqual((has.first, has.last), (0, 625))
        assert has.first_came is not None and has.last_came is not None
        self.assertLess(has.first_came, self.times[150])
        self.assertGreater(has.last_came, self.times[600])

    def test_pruning_takes_rows_and_spares_what_another_database_names(self) -> None:
        self.check_again(self.border + 1)
        make_base(self.reader, self.row.id, 625, self.kept.chain)
        pruned = Bases(self.reader, self.row.id).prune(625)
        self.assertGreater(pruned, 600)
        self.assertEqual((self.objects(), self.place()), ([], (625, 625)))
        again = self.reader.everything().row(f"again-{self.border + 1}")
        assert again is not None
        self.assertEqual(sweep(self.reader, self.store, 0.0), 0)  # the base is not there
        self.move()
        own = self.reader._ask(
            "SELECT key FROM pagelog_pack UNION SELECT manifest FROM pagelog_base"
        )
        self.assertEqual(
            sweep(self.reader, self.store, 0.0), 1
        )  # of three objects two are another's still
        self.assertEqual(self.read(again.id, again.archived), self.made[: again.archived])
        self.assertTrue(self.reader.drop(again.name))
        self.assertEqual(sweep(self.reader, self.store, 3600.0), 0)
        self.assertEqual(sweep(self.reader, self.store, 0.0), 3)
        self.assertEqual({(key,) for key, _ in self.store.list("")}, set(own))
        self.assertEqual(self.reader._ask("SELECT key FROM pagelog_gone"), [])

    def test_a_drop_that_is_cut_off_before_its_objects_is_gone_on_with(self) -> None:
        self.move()
        ask = self.reader._ask

        def cut(statement: str, *values: Any, **options: Any) -> list[Any]:
            if "DELETE FROM pagelog_object" in statement:
                raise Doubt("lost")
            return ask(statement, *values, **options)

        with patch.object(self.reader, "_ask", cut):
            self.assertRaises(Doubt, self.reader.drop, "shop")
        with self.assertRaises(SystemExit):
            _drop_named(self.reader, "other", True)
        self.assertGreater(len(self.objects()), 0)
        self.reader._ask("DELETE FROM pagelog_block RETURNING 1")
        _drop_named(self.reader, "shop", True)
        self.assertEqual(self.objects(), [])
        sweep(self.reader, self.store, 0.0)
        self.assertEqual(list(self.store.list("")), [])

    def test_pruning_leaves_what_is_on_its_way(self) -> None:
        self.write(300)
        self.move(tail=3600.0)
        moved, cut = self.place()
        base = make_base(self.reader, self.row.id, self.kept.archived, self.kept.chain)
        Bases(self.reader, self.row.id).prune(base.position)
        self.assertEqual(
            (self.place(), [row[3] for row in self.objects()]),
            ((moved, cut), [1] * len(self.objects())),
        )
        self.write(10)
        self.move()
        self.assertEqual(self.place(), (self.kept.archived, self.kept.archived))

    def test_the_end_of_a_transaction_is_found_in_an_object(self) -> None:
        def mark(position: int) -> bytes:
            return Block.of(
                position,
                [Put(7, 0, b"p"), Put(0, 0, MARK[-8:] + position.to_bytes(8, "big") + bytes(24))],
            ).data

        self.keep([mark(626)])
        self.write(30)
        self.move()
        self.assertEqual(self.in_postgres(), [])
        base = make_base(self.reader, self.row.id, self.kept.archived, self.kept.chain)
        self.assertEqual((base.position, base.chain), (626, digest(b"", self.made[:626])))
        [[came]] = self.reader._ask("SELECT came FROM pagelog_base WHERE base = 626")
        self.assertEqual(came, Bases(self.reader, self.row.id).came(626))
