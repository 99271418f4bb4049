"""The newest blocks of one run: what is laid over older pages, and what shows that a page server has the same history."""

from __future__ import annotations

from collections import deque
from typing import Sequence

from pagelog.block import Block, carry_out
from pagelog.reply import Page

_MOST = 64
"""Blocks that are kept."""


class Tail:
    """Blocks of a run, by their positions, without a gap. A position that has none is that of a block without records."""

    def __init__(self) -> None:
        self.run: str | None = None
        self.last = 0
        """The position up to which they are known."""
        self.is_denied = False
        """Whether the table lets this principal pull none in this run: then nothing can be compared."""
        self._first = 1
        self._blocks: deque[Block] = deque()

    def begin(self, run: str | None) -> None:
        """Forgets all, where this is another run."""
        if run != self.run:
            self.run, self.is_denied = run, False
            self._begin_at(1)

    def add(self, first: int, last: int, blocks: Sequence[Block]) -> None:
        """Adds the blocks of these positions. What was known is forgotten where they do not follow it."""
        if first > self.last + 1:
            self._begin_at(first)
        self._blocks.extend(block for block in blocks if block.lsn > self.last)
        self.last = max(self.last, last)
        while len(self._blocks) > _MOST:
            self._first = self._blocks.popleft().lsn + 1

    def _begin_at(self, first: int) -> None:
        self._first, self.last = first, first - 1
        self._blocks.clear()

    @property
    def is_empty(self) -> bool:
        """Whether no block with records is known."""
        return not self._blocks

    def until(self, position: int) -> Block | None:
        """The newest block with records at a position or before it, as far as blocks are known; None where none is."""
        return next((block for block in reversed(self._blocks) if block.lsn <= position), None)

    def laid(
        self, numbers: Sequence[int], pages: Sequence[bytes], base: int, position: int
    ) -> list[Page]:
        """Pages at a position, of what they are at a base, behind which all blocks are known."""
        found = {number: bytearray(page) for number, page in zip(numbers, pages)}
        for block in self._blocks:
            if base < block.lsn <= position:
                for record in block.records:
                    if (page := found.get(record.page)) is not None:
                        carry_out(record, page)
        return [Page(position, bytes(found[number])) for number in numbers]
