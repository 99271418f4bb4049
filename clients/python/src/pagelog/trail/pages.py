"""Pages asked at random: what a service serves, against what the archived blocks make by the reference model."""

from __future__ import annotations

import random
from dataclasses import dataclass
from typing import TYPE_CHECKING, Iterator

from pagelog.block import PAGE_SIZE
from pagelog.keeping import OtherLog
from pagelog.reader import Reader
from pagelog.reply import Denied, Page, expect
from pagelog.request import Get
from pagelog.rules import Section
from pagelog_model.bodies import BlockBody, read_block

if TYPE_CHECKING:
    from pagelog.trail.logs import Log

PAGES = 32


@dataclass(frozen=True)
class Pages:
    """How many pages were alike, and how many the table does not let this reader get."""

    alike: int
    denied: int


def compare_pages(
    log: Log, reader: Reader, hard: int, *, count: int = PAGES, seed: int | None = None
) -> Pages:
    """Compares pages of random records, each at a random LSN from its block's on to `hard`. Raises `OtherLog`.

    It reads the log twice, from LSN 1 to the last of these LSNs. All of it has to be known.
    """
    wanted = _drawn(log, hard, count, random.Random(seed))
    images = {number: bytearray(PAGE_SIZE) for number, _ in wanted}
    alike = denied = 0
    for block in _blocks(log, max((lsn for _, lsn in wanted), default=0)):
        redo(block, images)
        for number, lsn in wanted:
            if lsn != block.lsn:
                continue
            [reply] = reader.answers([Get(number, lsn)])
            if isinstance(reply, Denied) and reply.section is Section.B:
                denied += 1
            elif expect(Page, reply).data != images[number]:
                raise OtherLog(
                    lsn, f"page {number} of the service is not what the archived blocks make of it"
                )
            else:
                alike += 1
    return Pages(alike, denied)


def _blocks(log: Log, last: int) -> Iterator[BlockBody]:
    """The blocks from LSN 1 to this one."""
    for _, data in zip(range(last), log.blocks()):
        assert data is not None
        yield read_block(data)


def _drawn(log: Log, hard: int, count: int, chance: random.Random) -> set[tuple[int, int]]:
    """Pages by their numbers, each with an LSN."""
    firsts = sorted(chance.choices(range(1, hard + 1), k=count) if hard else ())
    found = set()
    for block in _blocks(log, max(firsts, default=0)):
        for _ in range(firsts.count(block.lsn) if block.records else 0):
            found.add((chance.choice(block.records)[0], chance.randint(block.lsn, hard)))
    return found


def redo(block: BlockBody, images: dict[int, bytearray]) -> None:
    """Changes those of these pages that the block has records of."""
    for number in {page for page, *_ in block.records} & images.keys():
        block.redo(number, images[number])
