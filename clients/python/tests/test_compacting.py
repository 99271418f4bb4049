"""Packs of which little is needed still are made again, whatever dies, stands still or goes back meanwhile."""

from __future__ import annotations

import os
import signal
from dataclasses import replace
from datetime import datetime, timezone
from typing import Any, Sequence
from unittest.mock import patch

from keepers import new_url
from pagelog import Block, Put
from pagelog.referee.bases import Bases, make_base
from pagelog.keeper.branching import branch
from pagelog.keeper.holding import hold, let_go
from pagelog.images import PAGES, Replay
from pagelog.referee.referee import Referee, digest
from pagelog.referee.rows import Batch, Kept
from pagelog.store import compacting
from pagelog.referee import object_statements as tables
from pagelog.store.mover import Mover
from pagelog.store.moving import Wish
from pagelog.store.packing import PackMover
from pagelog.store.rescuing import rescue
from pagelog.store.sweeping import sweep
from service import TABLE
from test_images import pages
from test_store import MOST, MOVING, WithImages, ended, pages_of, peak_of

POINTS = (
    "compacted",
    "compacted pack named",
    "before put of a pack",
    "pack put",
    "pack read back",
    "pack kept",
    "switched",
    "manifest made",
    "manifest named",
    "before put of a manifest",
    "manifest put",
    "manifest read back",
    "manifest kept",
    "emptied",
)
"""Between two steps, in the order in which they come."""
RANGES = 80
LEFT = (3, 40, 41, 70)
"""Ranges whose images are needed still: of each of the three packs one or two."""


class Sparse(WithImages):
    def setUp(self) -> None:
        super().setUp()
        self.make_sparse()

    def move(self, **more: Any) -> Mover:
        mover = super().move(**more)
        mover._referee.close()  # there are many of them in a test
        return mover

    def touch(self, ranges: Any, run: str = "r1") -> None:
        """Archives a block for each, that changes a page of it."""
        first = self.kept.archived + 1
        made = [Put(PAGES * each + 1, 0, self.chance.randbytes(500)) for each in ranges]
        self.keep([Block.of(first + at, [one]).data for at, one in enumerate(made)], run)

    def make_sparse(self, run: str = "r1", left: Sequence[int] = LEFT) -> None:
        """Three packs at a position, of which these images are needed still, and no base is there."""
        self.touch(range(RANGES), run)
        self.position = self.base().position
        self.move()
        self.touch([each for each in range(RANGES) if each not in left], run)
        base = self.base()
        self.move()
        self.prune(base.position)

    def prune(self, position: int) -> None:
        Bases(self.reader, self.row.id).prune(position)
        self.bases = {at: base for at, base in self.bases.items() if at >= position}

    def row_now(self) -> Any:
        return self.reader.everything().row("shop")

    def in_packs(self) -> dict[int, list[int]]:
        """The ranges that each pack has at the position, as far as they are needed."""
        rows = self.reader._ask(
            "SELECT pack, array_agg(range ORDER BY range) FROM pagelog_image "
            "WHERE log = %s AND base = %s GROUP BY pack ORDER BY pack",
            (self.row.id, self.position),
        )
        return dict(rows)

    def gone(self) -> set[str]:
        return {key for key, in self.reader._ask("SELECT key FROM pagelog_gone")}

    def is_compact(self) -> None:
        """There is one pack of the position, and all is as it was."""
        self.assertEqual(list(self.in_packs().values()), [list(LEFT)])
        self.check_images()
        self.assertEqual((self.here(), self.strays()), ([], set()))


class Compacted(Sparse):
    def test_what_is_left_of_some_packs_goes_into_one_and_they_go(self) -> None:
        old, before = self.in_packs(), {number: key for number, key, *_ in self.packs()}
        manifests = self.manifests()
        self.assertEqual(list(old.values()), [[3], [40, 41], [70]])
        self.move()
        self.is_compact()
        self.assertEqual(list(self.manifests()), list(manifests))
        self.assertLessEqual(
            {before[number] for number in old} | {*manifests.values()}, self.gone()
        )
        [(new, ranges)] = self.in_packs().items()
        sizes = dict(self.reader._ask("SELECT number, size FROM pagelog_pack"))
        self.assertEqual((ranges, new not in before, sizes[new] < 3000), (list(LEFT), True, True))
        sweep(self.reader, self.store, 0.0)
        keys = {key for key, _ in self.store.list("")}
        named = {row[2] for row in self.objects()} | {key for _, key, *_ in self.packs()}
        self.assertEqual(keys, named | {*self.manifests().values()})
        self.is_compact()
        known = self.packs()
        self.move()
        self.assertEqual(self.packs(), known)  # and that is all

    def test_no_pack_has_more_images_than_others_have(self) -> None:
        left = [*range(15), *range(32, 47), *range(64, 71)]
        self.move()
        self.make_sparse(left=left)
        self.move()
        self.assertEqual(list(self.in_packs().values()), [left[:30], left[30:]])
        self.check_images()

    def test_of_what_is_dense_nothing_is_made_anew(self) -> None:
        self.move()
        known = self.packs()
        self.touch(range(0, RANGES, 3))
        self.move()
        self.prune(self.base().position)
        self.move()
        self.assertEqual([row for row in known if row not in self.packs()], [])
        self.check_images()

    def test_what_a_branch_has_too_stays_until_that_is_gone(self) -> None:
        old = self.in_packs()
        self.assertTrue(branch(self.reader, self.row_now(), self.kept.archived, "trial"))
        trial = self.reader.everything().row("trial")
        self.move()
        self.assertEqual(self.in_packs(), old)
        assert trial is not None
        base = self.bases[self.kept.archived]
        self.assertEqual(pages_of(Bases(self.reading(), trial.id), base), pages(self.made))
        self.assertTrue(self.reader.drop("trial"))
        self.move()
        self.is_compact()

    def test_what_is_held_stays_as_it_is(self) -> None:
        old = self.in_packs()
        hold(self.reader, self.row_now())
        self.move()
        self.assertEqual(self.in_packs(), old)
        let_go(self.reader, self.row_now())
        self.move()
        self.is_compact()

    def test_it_is_looked_at_again_once_something_was_pruned(self) -> None:
        mover = self.mover()
        while mover.step():
            pass
        asked: list[str] = []
        ask = mover.images._compactor._ask

        def noted(statement: str, **values: Any) -> list[Any]:
            asked.append(statement)
            return ask(statement, **values)

        with patch.object(mover.images._compactor, "_ask", noted):
            self.assertFalse(mover.step())
            self.assertNotIn(compacting.SPARSE, asked)
            self.make_sparse()
            while mover.step():
                pass
        self.assertIn(compacting.SPARSE, asked)
        self.is_compact()

    def test_a_pack_that_cannot_be_read_is_left(self) -> None:
        old = self.in_packs()
        [[key]] = self.reader._ask("SELECT key FROM pagelog_pack WHERE number = %s", (min(old),))
        whole = self.store.get(key)
        self.store.put(key, b"x")
        self.move()
        self.assertEqual(list(self.in_packs().values()), [[3], [40, 41, 70]])
        self.assertIn(min(old), self.in_packs())
        self.store.put(key, whole)
        self.move()
        self.assertNotIn(min(old), self.in_packs())
        self.check_images()


class Meanwhile(Sparse):
    def move_with(self, **deeds: Any) -> PackMover:
        """Moves all, and does something when it is first at a point."""

        def passing(at: str) -> None:
            if (deed := deeds.pop(at.replace(" ", "_"), None)) is not None:
                deed()

        mover = self.move(passing=passing)
        self.assertEqual(deeds, {})
        return mover.images

    def change(self, old: bytes | None = None) -> bytes:
        """The image of range 3 is another one, or the old one again."""
        [[before]] = self.reader._ask(
            "SELECT digest FROM pagelog_image WHERE range = 3 AND base = %s", (self.position,)
        )
        self.reader._ask(
            "UPDATE pagelog_image SET digest = %s WHERE range = 3 AND base = %s RETURNING 1",
            (old or bytes(16), self.position),
        )
        return bytes(before)

    def test_what_it_was_made_of_is_compared_where_it_is_named(self) -> None:
        known, olds = self.packs(), list[bytes]()
        images = self.move_with(compacted=lambda: olds.append(self.change()))
        self.assertEqual((images.refused, self.packs()), (1, known))
        self.change(olds[0])
        self.move()
        self.is_compact()

    def test_an_image_that_is_another_one_by_then_stays_where_it_is(self) -> None:
        old, olds, seen = self.in_packs(), list[bytes](), list[dict[int, list[int]]]()

        def look() -> None:
            seen.append(self.in_packs())
            self.change(olds[0])

        self.move_with(pack_kept=lambda: olds.append(self.change()), switched=look)
        self.assertEqual(list(seen[0].values()), [[3], [40, 41, 70]])
        self.assertIn(min(old), seen[0])
        self.assertEqual(sorted(sum(self.in_packs().values(), [])), sorted(LEFT))
        self.check_images()

    def test_another_mover_names_the_same_pack_only_once(self) -> None:
        """It has seen none that is open, and looks at the images once one is."""
        other, ask = self.mover().images, self.reader._ask
        self.assertFalse(ask("SELECT 1 FROM pagelog_pack WHERE instead"))
        self.move_with(compacted_pack_named=lambda: self.assertFalse(other._compact()))
        self.is_compact()

    def test_what_was_pruned_meanwhile_is_not_there_again(self) -> None:
        def prune() -> None:
            self.touch((3, 41))
            position = make_base(
                self.reader, self.row.id, self.kept.archived, self.kept.chain
            ).position
            self.bases[position] = Bases(self.reader, self.row.id).newest(position)
            self.prune(position)

        self.move_with(compacted_pack_named=prune)
        self.assertEqual(list(self.in_packs().values()), [[40, 70]])
        self.check_images()
        self.assertEqual((self.here(), self.strays()), ([], set()))

    def test_what_was_kept_anew_meanwhile_is_packed_by_itself(self) -> None:
        replay = Replay(lambda _: None)
        replay.apply(self.made[: self.position])
        chain = digest(b"", self.made[: self.position])
        base = Bases(self.reader, self.row.id)
        self.move_with(pack_kept=lambda: base.keep_all(self.position, replay, chain))
        self.bases = {self.position: base.newest(self.position)}
        self.assertEqual(sum(map(len, self.in_packs().values())), RANGES)
        self.check_images()
        self.assertEqual((self.here(), self.strays()), ([], set()))

    def test_a_pack_that_is_lost_before_its_images_are_in_it_is_made_again(self) -> None:
        def damage() -> None:
            [[key]] = self.reader._ask("SELECT key FROM pagelog_pack WHERE instead")
            self.store.put(key, b"x")

        self.move_with(pack_kept=damage)
        self.is_compact()

    def test_pruning_leaves_what_is_about_to_come(self) -> None:
        self.move_with(pack_kept=lambda: self.prune(self.kept.archived))
        self.assertFalse(self.gone() & {key for _, key, *_ in self.packs()})
        self.is_compact()

    def test_a_manifest_of_packs_that_were_made_anew_meanwhile_is_named_by_nobody(self) -> None:
        """It would be the only one of its base, and name what is about to go."""
        self.touch((5, 6))
        self.base()

        def compact() -> None:
            other = self.mover().images
            self.assertTrue(other._compact())
            for _ in range(2):  # it is put and read back, and then its images are in it
                self.assertTrue(other.step())
            self.assertEqual(list(self.in_packs().values()), [list(LEFT)])

        images = self.move_with(manifest_made=compact)
        self.assertEqual(images.refused, 1)
        sweep(self.reader, self.store, 0.0)
        self.is_compact()
        self.assertEqual(list(self.manifests()), list(self.bases))

    def test_a_base_that_could_not_be_read_waits_for_its_images(self) -> None:
        """They are about to be others: a manifest of what is there now would be the one of the base for good."""
        self.touch((5, 6))
        position = self.base().position
        update = "UPDATE pagelog_base SET broken = %s WHERE base = %s RETURNING 1"
        self.reader._ask(update, (datetime.now(timezone.utc), position))
        self.assertEqual(self.move().images.refused, 0)
        self.assertNotIn(position, self.manifests())
        self.reader._ask(update, (None, position))
        self.move()
        self.assertIn(position, self.manifests())

    def test_a_base_that_is_made_anew_while_its_manifest_is_made_is_not_broken(self) -> None:
        """Other images, as of a run that PostgreSQL went back to."""
        self.made_anew(is_packed=False)

    def test_nor_is_one_whose_images_another_mover_has_packed_meanwhile(self) -> None:
        self.made_anew(is_packed=True)

    def made_anew(self, *, is_packed: bool) -> None:
        self.touch((1, 2))
        position = self.base().position
        others = [*self.made[:-1], Block.of(position, [Put(1, 0, b"another")]).data]
        replay, chain = Replay(lambda _: None), digest(b"", others)
        replay.apply(others)
        bases, mover = Bases(self.reader, self.row.id), self.mover()
        ask, seen = mover.images._ask, list[str]()

        def meanwhile(statement: str, **values: Any) -> list[Any]:
            if statement == tables.OF_BASE and not seen:
                seen.append(statement)
                bases.keep_all(position, replay, chain)
                if is_packed:
                    self.move()
            return ask(statement, **values)

        with patch.object(mover.images, "_ask", meanwhile):
            while mover.step():
                pass
        self.assertEqual(len(seen), 1)
        self.move()
        self.assertEqual(pages_of(bases, bases.newest(position)), pages(others))
        self.assertEqual(self.by_manifest(self.manifests()[position]), pages(others))


class Deaths(Sparse):
    def by_the_store_alone(self) -> None:
        """Whatever nothing names any more is deleted; then PostgreSQL is lost."""
        sweep(self.reader, self.store, 0.0)
        referee = Referee(new_url(), "a", "life", store=self.settings)
        self.addCleanup(referee.close)
        rescue(self.store, referee, "shop", TABLE.read_text())
        row = referee.everything().row("shop")
        assert row is not None
        base = Bases(referee, row.id).newest(row.archived)
        self.assertEqual((row.archived, base.position), (self.kept.archived, max(self.bases)))
        self.assertEqual(pages_of(Bases(referee, row.id), base), pages(self.made))

    def test_a_mover_may_be_killed_at_each_step(self) -> None:
        for number, point in enumerate(POINTS):
            if number:
                self.make_sparse()
            self.assertEqual(ended(self.child(point, signal.SIGKILL)), -signal.SIGKILL, point)
            self.check_images(point)
            self.by_the_store_alone()
            self.check_images(point)
            self.move()
            self.is_compact()

    def test_it_may_stand_still_at_each_step_while_another_moves(self) -> None:
        standing = {}
        for number, point in enumerate(POINTS):
            if number:
                self.make_sparse()
            standing[point] = self.standing(point)
        self.move()
        self.make_sparse()
        for point, pid in standing.items():
            os.kill(pid, signal.SIGCONT)
            self.assertEqual(ended(pid), 0, point)
            self.check_images(point)
        self.move()
        self.is_compact()

    def test_two_at_once(self) -> None:
        for number in range(3):
            if number:
                self.make_sparse()
            for pid in [self.child("never", 0) for _ in range(2)]:
                self.assertEqual(ended(pid), 0)
            self.move()
            self.is_compact()

    def test_a_mover_does_not_believe_what_it_holds_once_postgres_went_back(self) -> None:
        """Other images are made at the same positions, while movers stand at each step."""
        self.move()
        self.note()
        known, standing = dict(self.bases), []
        for point in POINTS:
            self.make_sparse()
            standing.append(self.standing(point))
        self.move()
        self.go_back()
        self.kept, self.bases = self.taken("r2"), known
        lost = {key for key, _ in self.store.list("")}
        for _ in POINTS:
            self.make_sparse("r2")
        for pid in standing:
            os.kill(pid, signal.SIGCONT)
        for pid in standing:
            self.assertEqual(ended(pid), 0)
        self.check_images()
        self.move()
        self.assertEqual(list(self.in_packs().values()), [list(LEFT)])
        self.check_images()
        self.assertEqual(self.here(), [])
        self.assertLessEqual(lost, {key for key, _ in self.store.list("")})


class Memory(WithImages):
    """What a mover takes does not depend on how much there is: of packs of whole images neither."""

    def write_pages(self, numbers: list[int]) -> None:
        """Archives blocks that fill these."""
        first, made = self.kept.archived + 1, list[bytes]()
        for at in range(0, len(numbers), 4):
            puts = [Put(number, 0, self.chance.randbytes(8000)) for number in numbers[at : at + 4]]
            made.append(Block.of(first + at // 4, puts).data)
        for at in range(0, len(made), 256):
            self.keep_some(made[at : at + 256])

    def keep_some(self, made: list[bytes]) -> None:
        kept = self.kept
        chain = digest(kept.chain, made)
        batch = Batch(self.row.id, "r1", kept.generation, kept.archived, chain, tuple(made))
        self.assertEqual(self.referee.keep([batch]), {self.row.id})
        self.kept = Kept(batch.new, batch.chain, kept.generation)

    def test_what_it_takes_for_full_images_is_bounded(self) -> None:
        self.write_pages(list(range(64 * PAGES)))
        make_base(self.reader, self.row.id, self.kept.archived, self.kept.chain)
        self.move(seal=8 << 20)
        self.write_pages([PAGES * each for each in range(64) if each % 32 > 14])
        base = make_base(self.reader, self.row.id, self.kept.archived, self.kept.chain)
        self.move(seal=8 << 20)
        Bases(self.reader, self.row.id).prune(base.position)
        before = self.packs()
        line = Wish(self.url, "one", replace(self.settings, seal=8 << 20)).line
        taken = peak_of(MOVING, line, str(self.row.id), self.row.identity)
        [(number, key, _, _)] = [row for row in self.packs() if row not in before]
        self.assertGreater(len(self.store.get(key)), 14 << 20, number)
        self.assertLess(taken, MOST)
        if os.environ.get("PAGELOG_TEST_SAYS"):
            print(f"compacting: {taken >> 20} MiB")
