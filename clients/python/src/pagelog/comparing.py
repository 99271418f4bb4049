"""Comparing logs block by block: two services, or a service and an archive."""

from __future__ import annotations

import random
from dataclasses import dataclass
from itertools import islice, takewhile
from typing import Callable, Iterable, Iterator

from pagelog.archive import Archive, ArchiveError
from pagelog.block import HIGHEST_LSN, PAGE_SIZE, Block, carry_out
from pagelog.errors import LogWentBack
from pagelog.reader import Reader, Span
from pagelog.reply import Denied, Page, expect
from pagelog.request import Get
from pagelog.rules import Section

Progress = Callable[[int, int], None]
"""Called with how far a piece of work is, and how far it goes, in LSNs."""
PULLS = 16
"""Pulls of one batch: at most 256 blocks with records, 8 MiB."""
BATCH = 4096
"""The most blocks of one batch, with those without records."""
_SAMPLES = 32


class OtherLog(ArchiveError):
    """The service, or the archive, has another block at an LSN: they are not of one log. `lsn` is the first found."""

    def __init__(self, lsn: int, what: str) -> None:
        self.lsn = lsn
        super().__init__(f"{what} at LSN {lsn}")


def no_progress(_: int, __: int) -> None:
    """Reports nothing."""


def each_block(span: Span) -> Iterator[Block]:
    """Every block of a span of all partitions: an LSN that no pull served is a block without records."""
    served = {block.lsn: block for block in span.blocks}
    return (served.get(lsn) or Block.of(lsn) for lsn in range(span.first, span.last + 1))


def whole(span: Span, most: int = BATCH) -> list[Block]:
    """As `each_block`, as a list of the first `most`: one pull may cover millions of LSNs without records."""
    return list(islice(each_block(span), most))


def all_blocks(reader: Reader, first: int, last: int) -> Iterator[Block]:
    """Every hardened block of a service from LSN `first` to `last`, also those without records.

    Raises `LogWentBack` where the log ends before.
    """
    while first <= last:
        span = reader.span(first, pulls=min(PULLS, 1 + (last - first) // 16))
        if span.last < first:
            raise LogWentBack(f"the log ends at {span.last}, before LSN {last}")
        yield from takewhile(lambda block: block.lsn <= last, each_block(span))
        first = span.last + 1


def compare(
    found: Iterable[Block], wanted: Iterable[Block], *, told: Progress = no_progress, last: int = 0
) -> int:
    """How many blocks two logs have in common, which are equal from their beginnings on. Raises `OtherLog`."""
    count = 0
    for one, other in zip(found, wanted, strict=True):
        if one != other:
            raise OtherLog(one.lsn, "the two logs have different blocks")
        count += 1
        if count % 256 == 0:
            told(one.lsn, last)
    return count


@dataclass(frozen=True)
class Verified:
    """What a comparison looked at: `blocks`, all alike, and `pages`; `denied_pages` more may not be read by this table.

    `archived` is the last LSN that was compared and `hard` the hardened end of the service, which may be above it.
    """

    blocks: int
    pages: int
    denied_pages: int
    archived: int
    hard: int


class SampleReplay:
    """Some pages as the log makes them: those whose numbers come first in an order drawn from a seed."""

    def __init__(self, seed: int, count: int = _SAMPLES) -> None:
        self.pages: dict[int, bytearray] = {}
        self._seed = seed | 1
        self._count = count
        self._last = 1 << 64

    def take(self, block: Block) -> None:
        """Does what the records of the block do to the pages of the sample."""
        for record in block.records:
            page = self._page(record.page)
            if page is not None:
                carry_out(record, page)

    def _page(self, number: int) -> bytearray | None:
        """The page, if it is one of the sample. One that is not at its first record never will be."""
        page = self.pages.get(number)
        if page is None and self._place(number) < self._last:
            page = self.pages[number] = bytearray(PAGE_SIZE)
            if len(self.pages) > self._count:
                del self.pages[max(self.pages, key=self._place)]
            if len(self.pages) == self._count:
                self._last = max(map(self._place, self.pages))
            return self.pages.get(number)
        return page

    def _place(self, number: int) -> int:
        return (number + 1) * self._seed * 0x9E3779B97F4A7C15 % (1 << 64)


def verify(
    archive: Archive,
    reader: Reader,
    *,
    last: int = HIGHEST_LSN,
    seed: int | None = None,
    told: Progress = no_progress,
) -> Verified:
    """Compares all archived blocks, or those up to LSN `last`, with those of a service, and a sample of pages at the last
    of them and half way.

    Raises `OtherLog` with the first LSN that differs, `LogWentBack` where the service has fewer blocks than the
    archive, `BrokenArchive`, and whatever the service refuses a pull with.
    """
    archived, hard = min(last, archive.archived), reader.status().hard
    if hard < archived:
        raise LogWentBack(f"the service has {hard} blocks, and {archived} are archived")
    seed = random.getrandbits(32) if seed is None else seed
    pages = denied = 0
    replay = SampleReplay(seed)

    def replayed() -> Iterator[Block]:
        nonlocal pages, denied
        for block in archive.blocks(1, archived):
            yield block
            replay.take(block)
            if block.lsn in (archived, archived // 2):
                same, refused = _compare_pages(reader, replay, block.lsn)
                pages, denied = pages + same, denied + refused

    count = compare(all_blocks(reader, 1, archived), replayed(), told=told, last=archived)
    return Verified(count, pages, denied, archived, hard)


def _compare_pages(reader: Reader, replay: SampleReplay, lsn: int) -> tuple[int, int]:
    """How many pages of the sample were alike at this LSN, and how many the table does not let this reader get."""
    same = refused = 0
    numbers = sorted(replay.pages)
    for number, reply in zip(numbers, reader.answers([Get(number, lsn) for number in numbers])):
        if isinstance(reply, Denied) and reply.section is Section.B:
            refused += 1
        elif expect(Page, reply).data != replay.pages[number]:
            raise OtherLog(
                lsn, f"page {number} of the service is not what the archived blocks make of it"
            )
        else:
            same += 1
    return same, refused
