"""Whether page servers of a database have the same pages as one another, or as its service: all that may have been written, at a position that
they all have. The digest of the blocks says nothing of the pages that a page server makes of them."""

from __future__ import annotations

import hashlib
from dataclasses import dataclass, field
from typing import Iterator, Sequence

from pagelog.block import HIGHEST_PAGE, PAGE_SIZE, Block
from pagelog.comparing import Progress, no_progress
from pagelog.errors import PagelogError
from pagelog.images import PAGES
from pagelog.reader import Reader
from pagelog.referee.bases import Bases
from pagelog.rules import AboveTheEnd, Denial, Section

_BELOW_THE_OLDEST = (Section.C, 10)
_RANGES = (HIGHEST_PAGE + 1) // PAGES
_PIECE = 4096
_ZEROS = bytes(PAGE_SIZE)


class OtherPage(PagelogError):
    """Two have another page of a number at a position. `number` is the first."""

    def __init__(self, number: int, position: int, why: str) -> None:
        self.number, self.position = number, position
        super().__init__(f"page {number} at position {position}: {why}")


class NoPosition(PagelogError):
    """There is no position that all of them have: one is far behind, or keeps nothing from so far back."""


class PositionGone(NoPosition):
    """One has the position no more that is compared: it was pruned meanwhile, or that one was begun again. The next position may do."""

    may_pass = True


@dataclass(frozen=True)
class Copy:
    """Who has pages of a database at positions `oldest` to `last`, where an LSN is a position less `shift`."""

    name: str
    reader: Reader = field(repr=False)
    oldest: int
    last: int
    shift: int = 0

    def pages(self, numbers: Sequence[int], position: int) -> list[bytes]:
        """These, at a position. Raises `PositionGone`."""
        try:
            return [page.data for page in self.reader.pages(numbers, position - self.shift)]
        except Denial as error:
            if isinstance(error, AboveTheEnd) or (error.section, error.row) == _BELOW_THE_OLDEST:
                raise PositionGone(f"{self.name} has position {position} no more") from error
            raise


@dataclass(frozen=True)
class Compared:
    """So many pages, of those that are not all zeros, are alike. `digest` is of their numbers and bytes, in order: of two with the same pages
    it is the same, whenever and wherever they are compared."""

    position: int
    pages: int
    digest: str
    of: tuple[str, ...]


class Ranges:
    """Ranges of 64 pages, a bit each: 8 MiB, however many there are."""

    def __init__(self) -> None:
        self._bits = bytearray(_RANGES // 8)
        self.count = 0

    def add(self, range: int) -> None:
        """Adds one, if it is not there."""
        at, bit = range // 8, 1 << range % 8
        self.count += not self._bits[at] & bit
        self._bits[at] |= bit

    def __iter__(self) -> Iterator[int]:
        for start in range(0, len(self._bits), _PIECE):
            piece = self._bits[start : start + _PIECE]
            if piece.count(0) < len(piece):
                yield from (
                    8 * (start + at) + bit
                    for at, byte in enumerate(piece)
                    for bit in range(8)
                    if byte >> bit & 1
                )


def written(bases: Bases, position: int) -> Ranges:
    """The ranges of all pages that were ever written up to a position, as far as the archive goes back: those of a base, and of the blocks
    behind it. Raises `Pruned` where that is pruned meanwhile, and `BrokenArchive`."""
    base, found = bases.newest(position), Ranges()
    for number in bases.ranges(base.position):
        found.add(number)
    for piece in bases.pieces(base.position + 1, position):
        for data in piece:
            for record in Block.decode(data).records:
                found.add(record.page // PAGES)
    bases.check_kept(base)
    return found


def position_of_all(copies: Sequence[Copy], most: int) -> int:
    """The newest position that all have, up to this one. Raises `NoPosition`."""
    position = min(most, *(copy.last for copy in copies))
    for copy in copies:
        if position < copy.oldest:
            raise NoPosition(f"{copy.name} has positions from {copy.oldest} on, and not {position}")
    return position


def compare(
    copies: Sequence[Copy],
    ranges: Ranges,
    position: int,
    referee: Copy | None = None,
    told: Progress = no_progress,
) -> Compared:
    """Compares all pages of these ranges. Raises `OtherPage` with the first that differs, and whose is that of the referee, if there is one that
    has the position; and `PositionGone`."""
    first, *others = copies
    digest, pages = hashlib.blake2b(digest_size=16), 0
    for done, number in enumerate(ranges, 1):
        numbers = range(number * PAGES, (number + 1) * PAGES)
        wanted = first.pages(numbers, position)
        for other in others:
            if (found := other.pages(numbers, position)) != wanted:
                page = next(page for page, one, two in zip(numbers, wanted, found) if one != two)
                raise OtherPage(page, position, _difference(copies, page, position, referee))
        for page, data in zip(numbers, wanted):
            if data != _ZEROS:
                digest.update(page.to_bytes(4, "big") + data)
                pages += 1
        told(done, ranges.count)
    return Compared(position, pages, digest.hexdigest(), tuple(copy.name for copy in copies))


def _difference(copies: Sequence[Copy], page: int, position: int, referee: Copy | None) -> str:
    """Who has which page."""
    asked = list(copies)
    if referee is not None and referee.oldest <= position <= referee.last:
        asked.append(referee)
    by_digest: dict[str, list[str]] = {}
    for copy in asked:
        [data] = copy.pages([page], position)
        by_digest.setdefault(hashlib.blake2b(data, digest_size=16).hexdigest(), []).append(
            copy.name
        )
    return "; ".join(
        f"{' and '.join(names)} {'have' if len(names) > 1 else 'has'} {digest}"
        for digest, names in by_digest.items()
    )
