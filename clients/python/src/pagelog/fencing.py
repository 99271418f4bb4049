"""Fencing a database before its audit list is full, so that what is not archived yet can still be pulled."""

from __future__ import annotations

import time
from typing import Callable

from pagelog.archive.archiving import Archiver
from pagelog.audit_list import AuditRoom, Room
from pagelog.operator import Operator
from pagelog.rules import Denial, UnknownPrincipal
from pagelog.tables import TableText

_NEAR = 0.9
"""From this part of the list on it is warned of."""
_NEAR_SECONDS = 3600.0
_WARNING_SECONDS = 60.0
_ENTRIES_OF_A_BLOCK = 3
"""Of a commit of one block to two copies."""


def fence_for_archiver(operator: Operator, table: TableText, secondary: int) -> int:
    """Lets in only this operator and this secondary from now on, and hardens what writers have in a quorum of copies, by an
    epoch of the operator's. Returns that epoch.
    """
    operator.set_table(table.only_for(operator.credentials.id, secondary))
    return operator.failover(operator.credentials.id)


class ListGuard:
    """Warns while an audit list fills, and with `table` fences the database while there are entries enough for the rest.

    It does so once at most `fence_at` entries are left, or no more than the archiver's backlog wants.
    """

    def __init__(
        self,
        room: AuditRoom,
        archiver: Archiver,
        *,
        fence_at: int = 0,
        table: TableText | None = None,
        warn: Callable[[str], None] = lambda _: None,
        clock: Callable[[], float] = time.monotonic,
    ) -> None:
        self.room = room
        self.archiver = archiver
        self.fence_at = fence_at
        self.table = table
        self.fenced: int | None = None
        """The epoch that the fence began, once there was one."""
        self.is_fencing = False
        """Whether a fence was begun, which may be there though no reply has come."""
        self._warn = warn
        self._clock = clock
        self._warned = -_WARNING_SECONDS
        self._is_blind = False
        self._hard = 0
        """The hardened end at the last look."""

    def check(self) -> bool:
        """Whether the database is fenced, which is done now if it has to be.

        Where the table does not let the operator look, this is said once, and nothing is warned of; with a fence it is raised.
        So is A1 of an operator that was let in before: the service waits for its restore.
        """
        if self.fenced is None and not self._is_blind:
            try:
                room, grown = self._look()
            except Denial as error:
                if self.table is not None or (
                    isinstance(error, UnknownPrincipal) and self.room.operator.was_let_in
                ):
                    raise
                self._is_blind = True
                self._warn(f"it is not known how full the audit list is: {error}")
                return False
            wanted = self.archiver.entries_wanted
            # What comes until the next look counts as gone.
            soon = grown + int(2 * (room.rate or 0.0))
            if self.table is not None and room.left - soon <= max(self.fence_at, wanted):
                self.is_fencing = True
                self.fenced = fence_for_archiver(
                    self.room.operator, self.table, self.archiver.reader.credentials.id
                )
                self._warn(
                    f"the audit list has {room.left} entries left: the database is fenced in epoch {self.fenced}"
                )
            elif self._is_near(room):
                self._warn_of(room, wanted)
        return self.fenced is not None

    def _look(self) -> tuple[Room, int]:
        """The room, and how many entries came since at the least, by the blocks that did. Where they are many it looks again."""
        hard, before = self.archiver.reader.hard_seen, self.room.room
        grown = _ENTRIES_OF_A_BLOCK * max(0, hard - self._hard)
        room = self.room.look(is_due=before is not None and grown > before.left // 20)
        if room is not before:
            self._hard, grown = hard, 0
        return room, grown

    def _is_near(self, room: Room) -> bool:
        return room.entries > _NEAR * room.limit or (
            room.full_in is not None and room.full_in < _NEAR_SECONDS
        )

    def _warn_of(self, room: Room, wanted: int) -> None:
        if self._clock() - self._warned >= _WARNING_SECONDS:
            self._warned = self._clock()
            full_in = "" if room.full_in is None else f", full in {room.full_in:.0f} s"
            self._warn(
                f"the audit list has {room.left} entries left of {room.limit}{full_in}; {self.archiver.lag} blocks are not "
                f"archived, which want {wanted}: move the database"
            )
