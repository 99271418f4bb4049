"""The fast path of a database of a keeper: a thread in C answers `durable`, pulls, and keeps, while all is as it should be."""

from __future__ import annotations

import asyncio
import ctypes
import os
from enum import IntEnum
from typing import TYPE_CHECKING, Callable

from pagelog.keeper import fast_calls
from pagelog.keeper.fast_calls import DIGEST, Event, List, WayStart
from pagelog.keeper.lines import Line
from pagelog.keeper.served import Served
from pagelog.keeper.waits import Waits
from pagelog.referee.fate import Of
from pagelog.referee.rows import Row

if TYPE_CHECKING:
    from pagelog.keeper.fast_plane import FastPlane
    from pagelog.trail.store import TrailList

_MOST = 1 << 63
"""Positions from here on are of no log."""


class End(IntEnum):
    """Why it has ended, as in fast_path.h."""

    STOPPED = 0
    IDLE = 1
    SERVICE = 2
    NOT_KEPT = 3
    DOUBT = 4
    NO_MEMORY = 5
    LINES = 6

    @property
    def is_known(self) -> bool:
        """Whether it is known what became of all that was asked."""
        return self not in (End.NOT_KEPT, End.DOUBT)


class FastPath:
    """The thread's way of one database: it is on it from the beginning until its end."""

    def __init__(
        self,
        plane: FastPlane,
        key: int,
        row: Row,
        served: Served,
        line: tuple[int, bytes, bytes],
        told: Callable[[], None],
        lines: TrailList | None = None,
        *,
        is_careful: bool = False,
        before: FastPath | None = None,
    ) -> None:
        """`line` is a connection to the service, and a pull and a question for its audit list as frames. `told` is called where there is
        news of it. Behind `lines` of the list those are kept that speak of the blocks. Where it `is_careful` it begins with one block,
        or with what is left of the one `before`. Raises `MemoryError`.
        """
        self._plane, self._library, self._told = plane, plane.library, told
        self._service, pull, audit = line
        self._name, self._generation, self._of = (
            row.name,
            served.generation,
            Of(row.identity, served.run),
        )
        self._noted = served.acknowledged  # as long as the thread may write there
        self._lent: dict[int, Line] = {}
        self._is_over = self._stops = False
        self._ended: asyncio.Future[End] = asyncio.get_running_loop().create_future()
        self.last = served.reached, served.chain
        """How far it came, once it has ended."""
        self._last_done, self._is_left, self._is_given_up = (0, 0), False, False
        self.is_unlined = False
        """Whether it keeps no lines for want of a session by which it could."""
        self.why = ""
        """What PostgreSQL has said of a statement that is in doubt."""
        self.lines = lines
        """How far the list is kept, once it has ended; None where that is not known."""
        start = WayStart(
            key,
            row.name.encode(),
            served.generation,
            f"of={self._of}".encode(),
            served.is_told_by_number,
            str(row.id).encode(),
            served.run.encode(),
            served.reached,
            None if self._noted is None else self._noted.address,
            served.shift,
            (ctypes.c_uint8 * DIGEST)(*served.chain),
            len(served.chain),
            pull,
            len(pull),
            List.from_list(lines),
            audit,
            len(audit),
            is_careful,
            None if before is None or not before._is_left else before._way,
            self._service,
            *(round(1000 * each) for each in (served.timeout, plane.deadline, plane.idle)),
        )
        self._way: int | None = self._library.way_new(plane.address, ctypes.byref(start))
        if self._way is None:
            os.close(self._service)
            raise MemoryError("there is no memory for the fast path")

    @property
    def reached(self) -> tuple[int, bytes]:
        """How far all is archived, and the digest of it."""
        if self._is_over:
            return self.last
        chain, size = (ctypes.c_uint8 * DIGEST)(), ctypes.c_size_t()
        reached = self._library.way_reached(self._way, chain, ctypes.byref(size))
        return int(reached), bytes(chain)[: size.value]

    def take(self, waits: Waits) -> None:
        """Takes the lines of those who wait, where it can."""
        if self._is_over or self._stops:
            return
        for line, positions in waits.now().items():
            if (
                len(positions) == 1
                and positions[0] < _MOST
                and (descriptor := line.lend()) is not None
            ):
                if self._library.way_add(self._way, descriptor, positions[0], line.version > 1):
                    waits.gone(line)
                    self._lent[descriptor] = line
                else:
                    os.close(descriptor)
                    line.take_back(b"")

    def kick(self, number: int) -> None:
        """There may be new blocks, for somebody who waits for them here. The numbers of these rise."""
        if not self._is_over:
            self._library.way_kick(self._way, number)

    @property
    def done(self) -> tuple[int, int]:
        """The highest of them since which a pull has begun whose blocks are archived, and the highest since which one has found nothing."""
        if self._is_over:
            return self._last_done
        nothing = ctypes.c_uint64()
        return int(self._library.way_done(self._way, ctypes.byref(nothing))), nothing.value

    def watch(self, is_watched: bool) -> None:
        """Whether there is news of it whenever something is archived."""
        if not self._is_over:
            self._library.way_watch(self._way, is_watched)

    def stop(self) -> None:
        """Ends it soon: once it is known what became of the statement that is on its way."""
        self._stops = True
        if not self._is_over:
            self._library.way_stop(self._way)

    def line_up(self) -> None:
        """Lines may be kept by the next one: it ends, if it keeps none."""
        if self.is_unlined and self.lines is None:
            self.stop()

    async def run(self) -> End:
        """Returns once it has ended. Where the caller is cancelled, it ends by itself."""
        try:
            return await asyncio.shield(self._ended)
        except asyncio.CancelledError:
            self.stop()
            self.lines = None if not self._is_over else self.lines
            self._is_given_up = True
            self.drop()
            raise

    def drop(self) -> None:
        """What is left of it, as of a batch in doubt, is not tried again."""
        if self._is_left:
            self._library.way_free(self._way)
        self._is_left = False

    def hear(self, event: Event) -> None:
        """What the thread says of it."""
        match event.news:
            case fast_calls.LINE_BACK:
                self._take_back(event.descriptor, event.position, event.text)
            case fast_calls.ARCHIVED:
                self._told()
            case fast_calls.ENDED:
                self.why = event.text.decode(errors="replace")
                self._end(End(event.end))

    def _take_back(self, descriptor: int, position: int, data: bytes) -> None:
        """A line is the keeper's again, and what was asked over it."""
        line = self._lent.pop(descriptor)
        of = f" of={self._of}" if line.version > 1 else ""
        question = (
            f"durable {self._name} {self._generation} {position}{of}\n".encode()
            if position
            else b""
        )
        os.close(descriptor)
        line.take_back(question + data)

    def _end(self, end: End) -> None:
        self.last, self._last_done, self._is_over = self.reached, self.done, True
        if self.lines is not None:  # else nobody waits for its end
            known = List()
            self._library.way_list_of(self._way, ctypes.byref(known))
            self.lines = known.with_lines(self.lines) if end.is_known else None
        os.close(self._service)
        self._is_left = True
        if end.is_known or self._is_given_up:
            self.drop()
        if not self._ended.done():
            self._ended.set_result(end)
