"""A database is made again from its store alone, once PostgreSQL is lost."""

from __future__ import annotations

import shutil
from typing import Any

from click.testing import CliRunner

from keepers import new_url
from pagelog import Block, Put
from pagelog.block import PAGE_SIZE
from pagelog.cli.words import pagelogctl
from pagelog.referee.bases import Bases, make_base
from pagelog.keeper.branching import branch
from pagelog.referee.fate import Loss, Of
from pagelog.keeper.history import begin_again, extent_of, position_at
from pagelog.images import Replay
from pagelog.referee.referee import KeeperError, Referee, digest
from pagelog.referee.rows import Row
from pagelog.store.histories import NoHistory
from pagelog.store.mover import Mover
from pagelog.objects.pack import read_manifest
from pagelog.store.rescuing import Rescued, rescue
from pagelog.objects.segment import BrokenObject
from pagelog.store.sweeping import sweep
from service import TABLE
from test_images import pages
from test_store import Old, pages_of


class Rescues(Old):
    def setUp(self) -> None:
        super().setUp()
        self.lost = new_url()  # the other PostgreSQL

    def rescued(self, name: str = "shop", **more: Any) -> tuple[Rescued, Referee, Row]:
        referee = Referee(self.lost, "a", "life", store=self.settings)
        self.addCleanup(referee.close)
        done = rescue(self.store, referee, name, TABLE.read_text(), **more)
        row = referee.everything().row(name)
        assert row is not None
        return done, referee, row

    def blocks(self, referee: Referee, row: Row) -> list[bytes]:
        return [block for piece in referee.blocks(row.id, 1, row.archived) for block in piece]

    def test_all_that_was_moved_is_there_and_goes_on(self) -> None:
        done, referee, row = self.rescued()
        self.assertEqual(
            (row.archived, row.chain, row.identity, row.run),
            (600, digest(b"", self.made[:600]), self.row.identity, None),
        )
        self.assertEqual(self.blocks(referee, row), self.made[:600])
        self.assertEqual((done.others, done.generation), ((), 1001))
        assert done.until is not None
        self.assertLess(done.until, self.times[600])
        self.assertEqual(position_at(referee, row, self.times[300]), 300)
        referee.register("a:1")
        kept = referee.take(row, "new")
        assert kept is not None
        self.assertEqual((kept.archived, kept.generation), (600, 1002))
        # A writer of a run that was lost with PostgreSQL is told so, whatever its number.
        for generation in (1, 7, 900):
            self.assertEqual(
                referee.fate_of("shop", generation, Of(row.identity, "r1")).loss, Loss.SUPERSEDED
            )
        self.assertRaisesRegex(KeeperError, "PostgreSQL has a database shop", self.rescued)

    def test_of_two_histories_the_later_one_is_taken_and_the_other_said(self) -> None:
        self.note()
        self.write(200)
        self.move()
        lost = self.kept.archived
        self.go_back()
        self.kept = self.taken("r2")
        self.write(120, "r2")
        self.move()
        done, referee, row = self.rescued()
        self.assertEqual(self.blocks(referee, row), self.made)
        [(parted, other)] = done.others
        self.assertEqual(
            (parted, other.last, other.generation, done.generation), (600, lost, 1, 1002)
        )

    def test_a_branch_is_found_with_what_it_began_with(self) -> None:
        for position in (self.border, self.border + 9):
            name = f"b{position}"
            self.assertTrue(branch(self.reader, self.row_now(), position, name))
            row = self.reader.everything().row(name)
            assert row is not None
            known, self.row, before = self.kept, row, self.made
            taken = self.referee.take(row, "rb")
            assert taken is not None
            self.kept, self.made = taken, self.made[:position]
            self.write(150, "rb")
            mover = Mover(self.reading(), self.store, row.id, name, row.identity, self.settings)
            while mover.step():
                pass
            _, referee, found = self.rescued(name)
            self.assertEqual(
                (self.blocks(referee, found), found.identity), (self.made, row.identity)
            )
            self.kept, self.made, self.row = known, before, self.row_now()

    def test_what_a_branch_began_with_is_not_another_history(self) -> None:
        """Two objects of the folder have its position amid them: one is of a history that PostgreSQL has lost."""
        self.note()
        self.write(120)
        self.move()
        self.go_back()
        self.kept = self.taken("r2")
        self.write(140, "r2")
        self.move()
        for at in (605, 700):
            self.assertTrue(branch(self.reader, self.row_now(), at, f"b{at}"))
            row = self.reader.everything().row(f"b{at}")
            assert row is not None
            taken = self.referee.take(row, "rb")
            assert taken is not None
            known, self.row, before, self.kept, self.made = (
                self.kept,
                row,
                self.made,
                taken,
                self.made[:at],
            )
            self.write(50, "rb")
            mover = Mover(self.reading(), self.store, row.id, row.name, row.identity, self.settings)
            while mover.step():
                pass
            _, referee, found = self.rescued(row.name)
            self.assertEqual(self.blocks(referee, found), self.made)
            self.kept, self.made, self.row = known, before, self.row_now()

    def pages_at(self, referee: Referee, row: Row, base: int) -> dict[int, bytes]:
        found = Bases(referee, row.id).newest(base)
        self.assertEqual(found.position, base)
        return pages_of(Bases(referee, row.id), found)

    def base(self) -> int:
        return make_base(self.reader, self.row.id, self.kept.archived, self.kept.chain).position

    def test_bases_are_there_again(self) -> None:
        first = self.base()
        self.write(60)
        second = self.base()
        self.write(60)
        self.move()
        done, referee, row = self.rescued()
        self.assertEqual((done.bases, done.history.start, row.archived), (2, 0, 745))
        for base in (first, second):
            self.assertEqual(self.pages_at(referee, row, base), pages(self.made[:base]))
        self.assertEqual(make_base(referee, row.id, row.archived, row.chain).position, 745)
        self.assertEqual(self.pages_at(referee, row, 745), pages(self.made))

    def test_pages_that_were_emptied_between_two_bases_are_empty(self) -> None:
        """No manifest names a range without a page; the older base has an image of it."""
        self.keep([Block.of(self.kept.archived + 1, [Put(9000, 0, b"x")]).data], "r1")
        first = self.base()
        emptied = Block.of(self.kept.archived + 1, [Put(9000, 0, bytes(PAGE_SIZE))])
        self.keep([emptied.data], "r1")
        second = self.base()
        self.move()
        _, referee, row = self.rescued()
        for base in (first, second):
            self.assertEqual(self.pages_at(referee, row, base), pages(self.made[:base]))

    def test_one_whose_oldest_blocks_were_pruned_begins_with_a_base(self) -> None:
        for is_behind_all in (False, True):
            position = self.base()
            self.move()
            self.write(0 if is_behind_all else 300)
            self.assertGreater(Bases(self.reader, self.row.id).prune(position), 0)
            self.move()
            sweep(self.reader, self.store, 0.0)
            self.lost = new_url()
            done, referee, row = self.rescued()
            self.assertEqual(
                (done.history.start, done.bases, row.archived, row.chain),
                (position, 1, self.kept.archived, self.kept.chain),
            )
            self.assertEqual(done.history.parts == (), is_behind_all)
            self.assertEqual(self.pages_at(referee, row, position), pages(self.made[:position]))
            found = [
                block
                for piece in referee.blocks(row.id, position + 1, row.archived)
                for block in piece
            ]
            self.assertEqual(found, self.made[position:])
            self.assertEqual(extent_of(referee, row).first, position)
            self.assertTrue(begin_again(referee, row, row.archived, "again"))

    def test_a_base_amid_an_object_begins_what_is_kept(self) -> None:
        self.write(90)
        position = self.base()
        self.write(200)
        self.move()
        self.assertTrue(any(first <= position < last for first, last, *_ in self.objects()))
        Bases(self.reader, self.row.id).prune(position)
        sweep(self.reader, self.store, 0.0)
        done, referee, row = self.rescued()
        self.assertEqual(
            (done.history.start, done.history.parts[0].said.first <= position, row.chain),
            (position, True, self.kept.chain),
        )
        self.assertEqual(self.pages_at(referee, row, position), pages(self.made[:position]))
        found = [
            block for piece in referee.blocks(row.id, position + 1, row.archived) for block in piece
        ]
        self.assertEqual(found, self.made[position:])

    def test_a_base_of_another_history_begins_none(self) -> None:
        """PostgreSQL went back, and the base that it has lost is at a position of today's blocks."""
        self.note()
        self.write(60)
        lost = self.base()
        self.move()
        self.go_back()
        self.kept = self.taken("r2")
        self.write(200, "r2")
        self.move()
        done, referee, row = self.rescued()
        self.assertEqual((done.bases, done.history.start, row.chain), (0, 0, self.kept.chain))
        self.assertTrue(done.history.last > lost)
        self.assertEqual(self.blocks(referee, row), self.made)

    def test_a_manifest_that_is_damaged_is_no_hindrance(self) -> None:
        self.base()
        self.write(20)
        last = self.base()
        self.move()
        [[key]] = self.reader._ask("SELECT manifest FROM pagelog_base WHERE base = %s", (last,))
        self.store.put(key, b"x")
        self.assertEqual(self.rescued()[0].bases, 1)

    def test_of_two_manifests_of_a_position_the_one_is_taken_whose_packs_are_there(self) -> None:
        position = self.base()
        self.move()
        replay = Replay(lambda _: None)
        replay.apply(self.made)
        Bases(self.reader, self.row.id).keep_all(position, replay, self.kept.chain)
        self.move(level=9)
        keys = sorted(key for key, _ in self.store.list("") if "/bases/" in key)
        self.assertEqual(len(keys), 2)
        for pack in read_manifest(self.store.get(keys[0]), keys[0]).packs:
            self.store.delete(pack.key)
        _, referee, row = self.rescued()
        self.assertEqual(self.pages_at(referee, row, position), pages(self.made))

    def test_no_manifest_is_later_than_the_blocks(self) -> None:
        self.write(30)
        self.base()
        self.move(age=3600.0)
        [[manifest]] = self.reader._ask("SELECT manifest FROM pagelog_base")
        self.assertIsNone(manifest)
        self.move()
        [[is_stored]] = self.reader._ask("SELECT is_stored FROM pagelog_base")
        self.assertTrue(is_stored)

    def test_the_subcommand_says_what_is_lost(self) -> None:
        file, table = self.folder / "c.toml", self.folder / "t.toml"
        file.touch(mode=0o600)
        more = (
            f'[store]\nendpoint_url = "{self.settings.endpoint_url}"\n'
            if self.settings.endpoint_url
            else ""
        )
        file.write_text(f'[archive]\nurl = "{self.lost}"\nstore = "{self.settings.url}"\n{more}')
        table.write_text(TABLE.read_text())
        words = [
            "rescue",
            "shop",
            "--from",
            self.settings.url,
            "--table",
            str(table),
            "--credentials",
            str(file),
        ]
        done = CliRunner().invoke(pagelogctl, words)
        self.assertRegex(
            done.output,
            r"shop: positions 1 to 600 in \d+ objects and 0 bases, up to 20\d\d-.*continue above 1001\nlost: what was archived after",
        )
        self.assertIn(
            "PostgreSQL has a database shop", CliRunner().invoke(pagelogctl, words).output
        )
        self.assertEqual(CliRunner().invoke(pagelogctl, words[:4] + words[6:]).exit_code, 2)

    def test_what_is_not_whole_is_refused(self) -> None:
        with self.assertRaisesRegex(NoHistory, "no blocks of sho"):
            self.rescued("sho")
        keys = [row[2] for row in self.objects()]
        for key, what in (
            (keys[0], "no history leads from position 1, or from a base, to 600"),
            (keys[-2], "no history leads"),
        ):
            (self.folder / key).rename(self.folder / "away")
            if key == keys[0]:
                self.assertRaisesRegex(NoHistory, what, self.rescued)
            (self.folder / "away").rename(self.folder / key)
        data = (self.folder / keys[1]).read_bytes()
        (self.folder / keys[1]).write_bytes(data[:20])
        self.assertRaises(BrokenObject, self.rescued)
        referee = Referee(self.lost)
        self.addCleanup(referee.close)
        self.assertEqual(referee.everything().rows, ())  # all or nothing
        (self.folder / keys[1]).write_bytes(data)
        other = self.folder / f"shop.{'0' * 8}" / "blocks"
        shutil.copytree((self.folder / keys[0]).parent, other)
        self.assertRaisesRegex(
            NoHistory,
            "several databases shop: say which by --stored: shop.00000000, shop.",
            self.rescued,
        )
        self.assertEqual(self.rescued(folder=keys[0].partition("/")[0])[2].archived, 600)
