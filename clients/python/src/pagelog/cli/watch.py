"""What the audit list shows of a database: rates, denials, and how long the list will last."""

from __future__ import annotations

import time
from collections import Counter, deque
from dataclasses import dataclass
from typing import Callable

from pagelog.audit_list import MOST_ENTRIES, AuditFollower
from pagelog.errors import LogWentBack, PagelogError
from pagelog.operator import Operator
from pagelog.reader import Reader
from pagelog.reply import Entry, State
from pagelog.request import AUDIT_MAX, READS, Operation, Role
from pagelog.rules import Section

_AUDITS_OF_A_LOOK = 64
_MOST_APPLIED = 64
"""Of how many partitions a look asks for the applied LSN, which is a request each."""


@dataclass(frozen=True)
class WatchedLook:
    """A database at a moment. Rates are requests a second of all others, since the look before; None where there was none."""

    state: State
    entries: int
    """How many entries the list has."""
    is_behind: bool
    """Whether some of them were not read: more came since the look before than one look reads."""
    uncounted: int
    """How many were not read since the watch began. No denial or request among them is counted."""
    own: int
    """How many entries since the look before are of the watch itself."""
    limit: int
    blocks_rate: float | None
    reads_rate: float | None
    requests_rate: float | None
    denials: dict[str, int]
    """How often each rule denied, since the watch began."""
    requests: dict[tuple[str, str, str], int]
    """How often each role asked for each operation, by `allowed` or the rule, since the watch began."""
    fenced: int
    """How often a primary was denied for the sake of an epoch that is not its own, since the watch began."""
    applied: dict[int, int]
    """The applied LSN of each partition that was advanced, as far as it was asked for, where a [secondary] may."""

    @property
    def used(self) -> float:
        """How much of the audit list is used, 0 to 1."""
        return min(1.0, self.entries / self.limit)

    @property
    def full_in(self) -> float | None:
        """In how many seconds the list is full at the present rate; None without one."""
        if not self.requests_rate:
            return None
        return max(0, self.limit - self.entries) / self.requests_rate


class Watch:
    """Looks at one database again and again, as its operator, and reads each entry of its audit list once.

    It begins at the end of the list, or with `from_start` at its beginning. A look costs two entries, and one for each
    1,024 that came since, at most 64 of these; where more came it finds the end of the list, by some 20, and goes on there. The
    reader, if there is one, costs one for each partition that was advanced since the look before, at most 64.
    """

    def __init__(
        self,
        operator: Operator,
        *,
        reader: Reader | None = None,
        limit: int = MOST_ENTRIES,
        from_start: bool = False,
        clock: Callable[[], float] = time.monotonic,
    ) -> None:
        self.operator = operator
        self.reader = reader
        self.limit = limit
        self._clock = clock
        self._epoch = 0
        self._begin(1 if from_start else operator.count_of_entries() + 1)

    def _begin(self, first: int) -> None:
        self._follower = AuditFollower(self.operator, first)
        self._denials: Counter[str] = Counter()
        self._requests: Counter[tuple[str, str, str]] = Counter()
        self._reads = self._fenced = self._uncounted = 0
        self._advanced: set[int] = set()
        """Partitions that were advanced since their applied LSN was asked for."""
        self._known: dict[int, int] = {}
        self._before: deque[tuple[float, int, int, int, int]] = deque(maxlen=2)
        self._own = 1  # the mark by which the list is known again

    def look(self) -> WatchedLook:
        """Reads what is new. Raises what the service refuses, as `AuditListFull`.

        `LogWentBack` is raised once where the service was restarted; the next look begins with the new one. A database that
        was moved, whose epoch is higher and whose log is not shorter, is gone on with at once.
        """
        try:
            state = self.operator.status()
            self._own += 1
            is_behind = self._read(state)
        except LogWentBack:
            self._begin(1)
            self.operator.forget()
            if self.reader is not None:
                self.reader.forget()
            raise
        self._epoch = state.epoch
        entries = self._follower.next - 1
        self._before.append((self._clock(), entries, self._reads, state.hard, self._own))
        blocks, reads, requests, own = self._rates()
        return WatchedLook(
            state=state,
            entries=entries,
            is_behind=is_behind,
            uncounted=self._uncounted,
            own=own,
            limit=self.limit,
            blocks_rate=blocks,
            reads_rate=reads,
            requests_rate=requests,
            denials=dict(self._denials),
            requests=dict(self._requests),
            fenced=self._fenced,
            applied=self._applied(),
        )

    def _read(self, state: State) -> bool:
        for _ in range(_AUDITS_OF_A_LOOK):
            found = self._follower.step()
            self._own += 1
            if self._follower.is_new_list:
                if state.epoch <= self._epoch:
                    raise LogWentBack("the audit list is another one: the service was restarted")
                self._begin(found[-1].number + 1 if found else 1)
            for entry in found:
                self._count(entry)
            if len(found) < AUDIT_MAX:
                return False
        self._skip_to_the_end()
        return True

    def _skip_to_the_end(self) -> None:
        """More comes than is read. What is left out is not counted, and the number of entries is right all the same."""
        end = self.operator.count_of_entries(self._follower.next - 1)
        self._uncounted += end - (self._follower.next - 1)
        self._follower.next = end + 1

    def _count(self, entry: Entry) -> None:
        self._requests[entry.role.word, entry.operation.word, entry.rule or "allowed"] += 1
        if not entry.is_allowed:
            self._denials[f"{entry.place} {entry.rule}"] += 1
            self._fenced += (
                entry.role is Role.PRIMARY and entry.section == Section.A and entry.row in (2, 4)
            )
        elif entry.operation in READS:
            self._reads += 1
        elif entry.operation is Operation.ADVANCE:
            self._advanced.add(entry.a)

    def _rates(self) -> tuple[float | None, float | None, float | None, int]:
        if len(self._before) < 2:
            return None, None, None, 0
        (then, entries_then, reads_then, hard_then, own_then), (
            now,
            entries,
            reads,
            hard,
            own,
        ) = self._before
        seconds, mine = max(now - then, 1e-9), own - own_then
        return (
            (hard - hard_then) / seconds,
            (reads - reads_then) / seconds,
            max(0, entries - entries_then - mine) / seconds,
            mine,
        )

    def _applied(self) -> dict[int, int]:
        for partition in sorted(self._advanced)[:_MOST_APPLIED] if self.reader is not None else ():
            assert self.reader is not None
            self._own += 1
            try:
                self._known[partition] = self.reader.applied(partition)
            except PagelogError:
                continue  # it is asked for again
            self._advanced.discard(partition)
        return dict(self._known)
