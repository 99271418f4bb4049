"""What a primary keeps of blocks that are not known to be hardened, and how it looks up whose block the log has."""

from __future__ import annotations

from collections import deque
from dataclasses import dataclass, field
from itertools import islice
from typing import Iterator, Sequence

from pagelog.block import Block, carry_out
from pagelog.errors import InDoubt, Refusal
from pagelog.reader import Reader
from pagelog.reply import Page, Reply
from pagelog.request import COPIES_OF_QUORUM, Get
from pagelog.rules import AboveTheEnd


@dataclass(slots=True)
class Sent:
    """A block that is not known to be hardened: which copies it is in, and whether it may be in others too.

    `copies` has for each copy over which connection, counted from 1, the service said so. `is_anothers`: the service has
    another block at its LSN.
    """

    block: Block
    copies: dict[int, int] = field(default_factory=dict)
    attempts: int = 0
    is_anothers: bool = False

    def came_over(self, connection: int) -> bool:
        """Whether the service that this connection leads to said that a copy has it. Another may be a restored one."""
        return connection in self.copies.values()

    def stands(self, connection: int, quorum: int) -> bool:
        """Whether it is in `quorum` copies of the service that this connection leads to. Another may be a new one."""
        return sum(1 for told in self.copies.values() if told == connection) >= quorum


@dataclass(frozen=True, slots=True)
class Step:
    """What a request was for: a write of this block to a copy, or the report of it and those before it."""

    sent: Sent
    copy: int | None


@dataclass(slots=True)
class SendTurn:
    """What was sent until a reply refused it, or left a doubt, and what came of it."""

    plan: deque[Step] = field(default_factory=deque)
    """What the replies that have not come are for."""
    ended: list[Refusal | int] = field(default_factory=list)
    """Why nothing more is sent, if so."""
    refusals: list[tuple[Refusal, bool]] = field(default_factory=list)
    """Each with whether its request was repeated."""
    reports: list[int] = field(default_factory=list)
    """LSNs of reports that were refused."""
    doubtful: list[int] = field(default_factory=list)
    """LSNs of reports that were done, up to which another's blocks may be in the log."""

    def refuse(self, refusal: Refusal, was_repeated: bool, *, report: int | None = None) -> None:
        """Notes a refusal."""
        self.ended.append(refusal)
        self.refusals.append((refusal, was_repeated))
        if report is not None:
            self.reports.append(report)

    def doubt(self, lsn: int) -> None:
        """Notes a report that was done, where it is not known of whose blocks."""
        self.ended.append(lsn)
        self.doubtful.append(lsn)


def is_in_log(witness: Reader, block: Block) -> bool:
    """Whether the log has this very block at its LSN. A block without records is never served, and so known by its gap."""
    try:
        span = witness.span(block.lsn, pulls=1)
    except AboveTheEnd:
        return False  # it is a log that lacks even what was hardened before it
    if span.last < block.lsn:
        return False
    served = next((found for found in span.blocks if found.lsn == block.lsn), None)
    return block.is_empty if served is None else served == block


def _pages_of(block: Block) -> list[int]:
    return sorted({record.page for record in block.records})


def gets_of(block: Block) -> list[Get]:
    """The pages that the block changes, each as it was before it and as it is after it."""
    return [Get(page, lsn) for page in _pages_of(block) for lsn in (block.lsn - 1, block.lsn)]


def pages_show(block: Block, replies: Sequence[Reply]) -> bool:
    """Whether the block makes of each page before it the page after it, by the replies to `gets_of`. Raises `InDoubt`."""
    pages = []
    for reply in replies:
        if not isinstance(reply, Page):
            raise InDoubt(
                f"LSN {block.lsn} is hardened, and a {type(reply).__name__} does not show whose block it is"
            )
        pages.append(bytearray(reply.data))
    before = dict(zip(_pages_of(block), pages[::2]))
    for record in block.records:
        carry_out(record, before[record.page])
    return list(before.values()) == pages[1::2]


def checked_copies(quorum: int, copies: Sequence[int] | None) -> tuple[int, ...]:
    """The copies that are written, by default the first `quorum`."""
    if quorum not in COPIES_OF_QUORUM:
        raise ValueError("a quorum is 2 or 4")
    chosen = tuple(range(quorum) if copies is None else copies)
    there = COPIES_OF_QUORUM[quorum]
    if (
        len(set(chosen)) != len(chosen)
        or not set(range(there)).issuperset(chosen)
        or len(chosen) < quorum
    ):
        raise ValueError(f"copies are {quorum} to {there} different ones of 0 to {there - 1}")
    return chosen


def groups_of(blocks: Iterator[Block], size: int) -> Iterator[list[Block]]:
    """The blocks in groups of this size; the last one may be smaller."""
    while group := list(islice(blocks, size)):
        yield group
