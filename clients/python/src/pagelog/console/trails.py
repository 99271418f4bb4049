"""What the trails show: denials by rule in the last hour, reads a second, and the failovers that began epochs."""

from __future__ import annotations

from collections import Counter, deque
from dataclasses import dataclass

from pagelog.console.source import PAST, Recorded
from pagelog.run_tokens import KEEPER
from pagelog.reply import Entry
from pagelog.request import READS, Operation
from pagelog.trail.question import entries_of

RECENT = 30.0
"""Seconds over which the rate of reads is taken."""
LATEST = 20
"""How many denials of a database are shown."""


@dataclass(frozen=True)
class SeenDenial:
    """A line that was denied. It was decided at this time or before, in seconds since 1970."""

    at: float
    principal: int
    operation: str
    rule: str


@dataclass(frozen=True)
class SeenFailover:
    """An allowed failover, which began this epoch, as it was seen in the trail."""

    at: float
    name: str
    epoch: int
    primary: int


class TrailCounts:
    """The trail of one database."""

    def __init__(self) -> None:
        self.latest: deque[SeenDenial] = deque(maxlen=LATEST)
        self.is_damaged = False
        self._denials: Counter[tuple[int, str]] = Counter()
        self._reads: deque[tuple[float, int]] = deque()

    def take(self, recorded: Recorded) -> list[SeenFailover]:
        """Counts a piece, and returns the failovers in it. The keepers' own requests are left out."""
        if recorded.piece is None:
            self.is_damaged = True
            return []
        at, reads, failovers = recorded.piece.seen / 1e6, 0, []
        for entry in entries_of(recorded.piece):
            if entry.principal == KEEPER:
                continue
            if not entry.is_allowed:
                self._deny(at, entry)
            elif entry.operation is Operation.FAILOVER:
                failovers.append(SeenFailover(at, recorded.name, entry.epoch + 1, entry.a))
            reads += entry.is_allowed and entry.operation in READS
        self._reads.append((at, reads))
        return failovers

    def _deny(self, at: float, entry: Entry) -> None:
        rule = f"{entry.place} {entry.rule}"
        self._denials[int(at) // 60, rule] += 1
        self.latest.append(SeenDenial(at, entry.principal, entry.operation.word, rule))

    def denials(self, now: float) -> dict[str, int]:
        """How often each rule denied in the last hour, the most frequent first."""
        for key in [key for key in self._denials if key[0] < (now - PAST) // 60]:
            del self._denials[key]
        found: Counter[str] = Counter()
        for (_, rule), count in self._denials.items():
            found[rule] += count
        return dict(found.most_common())

    def reads(self, now: float) -> float | None:
        """Gets and pulls a second, between the times at which the last lines were seen; None where too few were."""
        while len(self._reads) > 2 and self._reads[0][0] < now - RECENT:
            self._reads.popleft()
        if len(self._reads) < 2 or self._reads[-1][0] < now - 2 * RECENT:
            return None
        first, last = self._reads[0][0], self._reads[-1][0]
        return (
            None
            if last <= first
            else sum(reads for at, reads in self._reads if at > first) / (last - first)
        )
