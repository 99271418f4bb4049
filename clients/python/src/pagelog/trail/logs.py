"""The log of the service that a list of a trail is of, as the archive has it, by the LSNs of that service."""

from __future__ import annotations

from contextlib import contextmanager
from typing import TYPE_CHECKING, Iterator, Protocol

from pagelog.archive import Archive
from pagelog.trail.seal import sealed_blocks
from pagelog.trail.store import Trail, TrailList

if TYPE_CHECKING:
    from pagelog.objects.settings import StoreSettings


class Log(Protocol):
    """A log as an archive has it."""

    first: int
    """The first LSN whose block is known; what was below it is pruned."""
    archived: int
    """The last LSN whose block is archived."""
    made: int
    """How many blocks the service had from the images with which it began."""

    def blocks(self) -> Iterator[bytes | None]:
        """The block of each LSN from 1 to the archived one, checked, or None below the first. Raises `BrokenArchive`."""

    def compare_images(self) -> int | None:
        """How many of the images, at random, are what older ones and the blocks between make; None where those are pruned.

        Raises `BrokenArchive`.
        """


class ArchivedLog:
    """All of an archive, whose seals the trail has."""

    first, made = 1, 0

    def __init__(self, trail: Trail, archive: Archive) -> None:
        self._trail, self._archive, self.archived = trail, archive, archive.archived

    def blocks(self) -> Iterator[bytes | None]:
        """As of any log."""
        return (block.data for block in sealed_blocks(self._trail, self._archive))

    def compare_images(self) -> int | None:
        """It began with none."""
        return 0


@contextmanager
def log_of(
    trail: Trail, archive: Archive, one: TrailList, store: StoreSettings | None = None
) -> Iterator[Log | None]:
    """The log of a list; None where the archive does not say how its service began. `store` has blocks that PostgreSQL has no more."""
    if not archive.is_kept:
        yield ArchivedLog(trail, archive)
        return
    from pagelog.referee.bases import snapshot
    from pagelog.referee.referee import Referee
    from pagelog.trail.generation import GenerationLog

    referee = Referee(trail.url, store=store)
    try:
        with snapshot(referee):
            yield GenerationLog.of(referee, archive.id, one)
    finally:
        referee.close()
