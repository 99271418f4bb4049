"""The audit list of a database: followed from an entry on, and how much room it has left."""

from __future__ import annotations

import secrets
import time
from dataclasses import dataclass
from typing import TYPE_CHECKING, Callable

from pagelog.errors import LogWentBack
from pagelog.reply import Entry
from pagelog.request import Operation

if TYPE_CHECKING:
    from pagelog.operator import Operator

MOST_ENTRIES = 1 << 24
"""The most entries that `serve --audit` lets a list have."""


class AuditFollower:
    """Reads each entry once, from number `first` on, and notices where the service was restarted and has another list."""

    def __init__(self, operator: Operator, first: int = 1, *, marks: bool = True) -> None:
        """With `marks` it knows the list again by a question of its own, which is one entry more. Without, by the last entry
        that it has read, which may be the same in two lists.
        """
        self.operator = operator
        self._marks = marks
        self._mark = 0
        self._marked: Entry | None = None
        self.next = first
        """The number of the next entry."""
        self.is_new_list = False
        """Whether the last step began another list, at its number 1."""
        self._last: Entry | None = None
        self._connects = 0

    def step(self) -> tuple[Entry, ...]:
        """What is new, at most 1,024 entries. Each step is an entry itself, and one more where the list or the connection is
        another.
        """
        self.is_new_list = False
        try:
            self._leave_mark()
            found = self.operator.audit(self.next)
            is_new = self._is_another_list()
        except LogWentBack:
            self.operator.forget()
            found, is_new = (), True
        if is_new:
            self.next, self._mark, self._last, self._marked, self.is_new_list = (
                1,
                0,
                None,
                None,
                True,
            )
            self._leave_mark()
            found = self.operator.audit(1)
        self._connects = self.operator.connection.connects
        for entry in found:
            self.next, self._last = entry.number + 1, entry
            if self._marks and entry.operation is Operation.AUDIT and entry.a == self._mark:
                self._marked = entry
        return found

    def _leave_mark(self) -> None:
        """A question for an entry that never will be, of a number that no one else asks for."""
        if self._marks and not self._mark:
            self._mark = secrets.randbits(62) | 1 << 62
            self.operator.audit(self._mark, 1)

    def _is_another_list(self) -> bool:
        """Whether a service that was connected to again lacks what was read, or has another entry there."""
        known = self._marked or self._last
        if known is None or self._connects == self.operator.connection.connects:
            return False
        return self.operator.audit(known.number, 1) != (known,)


@dataclass(frozen=True)
class Room:
    """How full an audit list is: `entries` of at most `limit`, and how many come a second, None where that is not known."""

    entries: int
    limit: int
    rate: float | None

    @property
    def left(self) -> int:
        """How many more it takes."""
        return max(0, self.limit - self.entries)

    @property
    def full_in(self) -> float | None:
        """In how many seconds it is full at this rate."""
        return self.left / self.rate if self.rate else None


class AuditRoom:
    """Looks how full an audit list is, seldom while there is much room and each second in the end.

    The first look costs some 25 entries, a later one some 10.
    """

    def __init__(
        self,
        operator: Operator,
        limit: int = MOST_ENTRIES,
        *,
        clock: Callable[[], float] = time.monotonic,
    ) -> None:
        self.operator = operator
        self.limit = limit
        self._clock = clock
        self._looked = 0.0
        self._next_look = 0.0
        self.room: Room | None = None

    def look(self, *, is_due: bool = False) -> Room:
        """The room at the last look. One is made if it is time for it, or with `is_due` at once."""
        now = self._clock()
        if self.room is None or is_due or now >= self._next_look:
            before = self.room
            entries = self.operator.count_of_entries(before.entries if before else 0)
            rate = (
                (entries - before.entries) / max(now - self._looked, 1e-9)
                if before and entries >= before.entries
                else None
            )
            self.room, self._looked = Room(entries, self.limit, rate), now
            # Twenty looks in the time that is left, and the second one soon, so that there is a rate.
            full_in = self.room.full_in if before else 1.0
            self._next_look = now + (60.0 if full_in is None else min(60.0, max(1.0, full_in / 20)))
        return self.room
