"""Reads the next piece of the archive in a thread while one is loaded: two are in memory at most."""

from __future__ import annotations

from concurrent.futures import Future, ThreadPoolExecutor
from contextlib import contextmanager
from typing import Callable, Iterator, TypeVar

from pagelog.referee.referee import Referee

T = TypeVar("T")
PIECE = 256
"""How many blocks are read at first: 8 MiB at most."""
_MOST = 8192, 4 << 20
"""How many blocks, and about how many bytes, are read at once, when it is known how large they are."""


def pieces_of(referee: Referee, log: int, first: int, last: int) -> Iterator[list[bytes]]:
    """As `Referee.blocks`, in pieces that are as large as they may."""
    count = PIECE
    while first <= last:
        piece = referee._piece(log, first, min(last, first + count - 1))
        yield piece
        first += len(piece)
        count = max(1, min(_MOST[0], _MOST[1] * len(piece) // sum(map(len, piece))))


@contextmanager
def ahead(pieces: Iterator[T], cut: Callable[[], None]) -> Iterator[Iterator[T]]:
    """The same pieces, and what `pieces` raises, behind those that came before. Nothing is read any more at the end of the `with`:
    a read that is under way then, as where a piece could not be worked on, is ended by `cut`."""

    def read() -> T | None:
        return next(pieces, None)

    with ThreadPoolExecutor(1, "ahead") as thread:
        reading: Future[T | None] = thread.submit(read)

        def taken() -> Iterator[T]:
            nonlocal reading
            while (piece := reading.result()) is not None:
                reading = thread.submit(read)
                yield piece

        try:
            yield taken()
        finally:
            if not reading.done():
                cut()
