"""The log of one generation of a named database, as the archive has it, and the images with which it began."""

from __future__ import annotations

import random
from itertools import repeat
from typing import Iterator

from pagelog.block import PAGE_SIZE
from pagelog.images import PAGES, Image, blocks_of, labelled
from pagelog.referee.bases import NOTHING, Base, Bases
from pagelog.referee.referee import BrokenArchive, Referee, digest
from pagelog.trail.pages import redo
from pagelog.trail.store import TrailList
from pagelog_model.bodies import BlockBody, read_block

IMAGES = 32
"""How many images are compared."""
_GENERATION = """
SELECT g.shift, g.images, l.archived, l.chain,
  COALESCE((SELECT min(n.base) FROM pagelog_generation n WHERE n.log = g.log AND n.generation > g.generation), l.archived),
  COALESCE(LEAST((SELECT min(lsn) FROM pagelog_block WHERE log = g.log), (SELECT min(first) FROM pagelog_object WHERE log = g.log)), l.archived + 1)
FROM pagelog_generation g JOIN pagelog_log l ON l.id = g.log
WHERE g.log = %(log)s AND CASE WHEN %(run)s = '' THEN g.generation = %(generation)s ELSE g.run = %(run)s AND l.identity::text = %(database)s END
"""
"""A list that says of which run it is is looked for by that: its number may be another run's by now."""


class GenerationLog:
    """Of one generation of a named database: the blocks that keepers make of the images with which it began, if it did, and then
    those that are archived of it. A position of the archive is an LSN plus the generation's shift.

    What is read is compared with the digests that the archive has of its images, of the blocks up to each base, and of all.
    """

    @classmethod
    def of(cls, referee: Referee, log: int, one: TrailList) -> GenerationLog | None:
        """That of a list, as `referee` has it in a snapshot; None where nobody was ever told how the generation began, or PostgreSQL has
        lost it."""
        database, _, run = (one.of or "").partition("/")
        found = referee._ask(
            _GENERATION,
            {"log": log, "generation": one.generation, "database": database, "run": run},
        )
        return cls(referee, log, *found[0]) if found and (found[0][1] or not found[0][0]) else None

    def __init__(
        self,
        referee: Referee,
        log: int,
        shift: int,
        images: int,
        archived: int,
        chain: bytes,
        end: int,
        oldest: int,
    ) -> None:
        self._shift, self._end, self._oldest = shift, end, oldest
        self._referee, self._log, self._bases = referee, log, Bases(referee, log)
        base = self._bases.newest(images)
        self.base: Base | None = base if base.position == images else None
        """The base with which it began, unless that is pruned."""
        has_all = self.base is not None and oldest <= images + 1
        self.first = 1 if has_all else min(max(oldest, images + 1), end + 1) - shift
        self.archived, self.made = end - shift, images - shift
        """How many blocks were made of images."""
        rows = referee._ask("SELECT base, chain FROM pagelog_base WHERE log = %s", (log,))
        self._chains = {
            0: b"",
            **{position: bytes(known) for position, known in rows},
            archived: bytes(chain),
        }

    def blocks(self) -> Iterator[bytes | None]:
        """As of any log."""
        if self.first > 1:
            yield from repeat(None, self.first - 1)
        else:
            yield from self._made()
        for position, block in self._archived(max(self.first, self.made + 1) + self._shift):
            yield labelled([block], position - self._shift)[0] if self._shift else block

    def _made(self) -> Iterator[bytes]:
        """The blocks that the images make."""
        if self.base is None or self.base is NOTHING:
            return
        count = 0
        for block in blocks_of(self._bases.images(self.base)):
            count += 1
            if count <= self.made:
                yield labelled([block], count)[0]
        if count != self.made:
            raise BrokenArchive(
                f"the images at position {self.base.position} make {count} blocks, and the generation began with {self.made}"
            )

    def _archived(self, first: int) -> Iterator[tuple[int, bytes]]:
        """Positions and their blocks, to the generation's end. What is behind it is read as far as the next digest that is known."""
        if first > self._end:
            return
        now, compared = self._chains.get(first - 1), first - 1
        last = min(known for known in self._chains if known >= self._end)
        position = first - 1
        for block in (
            block for piece in self._referee.blocks(self._log, first, last) for block in piece
        ):
            position += 1
            now = None if now is None else digest(now, (block,))
            wanted = self._chains.get(position)
            if wanted is not None:
                if now not in (None, wanted):
                    raise BrokenArchive(
                        f"the archived blocks {compared + 1} to {position} are not those that were archived"
                    )
                now, compared = wanted, position
            if position <= self._end:
                yield position, block

    def compare_images(self, count: int = IMAGES, seed: int | None = None) -> int | None:
        """As of any log. It reads the blocks between twice."""
        base = self.base
        older = NOTHING if base is None else self._bases.newest(base.position - 1)
        if base is None or self._oldest > older.position + 1:
            return None
        touched = sorted(
            {page // PAGES for block in self._between(older, base) for page, *_ in block.records}
        )
        drawn = random.Random(seed).sample(touched, min(count, len(touched)))
        images = {number: _pages_of(number, self._bases.image(number, older)) for number in drawn}
        pages = {page: data for of_range in images.values() for page, data in of_range.items()}
        for block in self._between(older, base):
            redo(block, pages)
        for number, of_range in images.items():
            if of_range != _pages_of(number, self._bases.image(number, base)):
                raise BrokenArchive(
                    f"the image of range {number} at position {base.position} is not what the blocks before make"
                )
        return len(images)

    def _between(self, older: Base, base: Base) -> Iterator[BlockBody]:
        for piece in self._referee.blocks(self._log, older.position + 1, base.position):
            yield from map(read_block, piece)


def _pages_of(number: int, image: Image | None) -> dict[int, bytearray]:
    """All pages of a range."""
    found = {page: bytearray(PAGE_SIZE) for page in range(number * PAGES, (number + 1) * PAGES)}
    found.update({page: bytearray(data) for page, data in (() if image is None else image.pages())})
    return found
