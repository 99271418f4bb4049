"""What looks have shown of one database lately: rates, the lag in seconds, how fast its list fills, and points for plots."""

from __future__ import annotations

from collections import deque
from dataclasses import dataclass
from typing import Callable

RECENT = 10.0
"""Seconds over which a rate is taken."""
EVERY = 5.0
"""Seconds between two points of a plot."""
POINTS = 180
"""How many points are kept: a quarter of an hour."""
LEAST = 20.0
"""Seconds that a fall has to be seen before anything is foretold from it."""


@dataclass(frozen=True)
class Sample:
    """One look at a database: `at` is in seconds since 1970, `memory` in MiB. None where no report says it."""

    at: float
    run: str | None
    archived: int
    hard: int | None = None
    entries_left: int | None = None
    memory: int | None = None

    @property
    def lag(self) -> int | None:
        """Blocks that are hardened and not archived. The report is older than what is archived, and so may be below it."""
        return None if self.hard is None else max(0, self.hard - self.archived)

    @property
    def end(self) -> int:
        """The last position that is known of."""
        return max(self.archived, self.hard or 0)


@dataclass(frozen=True)
class Point:
    """A point of a plot: `commits` are positions a second since the point before."""

    at: float
    lag: int | None
    commits: float
    entries_left: int | None


class SampleHistory:
    """The samples of one database, the last seconds of them all, and older ones every few seconds."""

    def __init__(self) -> None:
        self._recent: deque[Sample] = deque()
        self._sparse: deque[Sample] = deque(maxlen=POINTS + 1)

    def add(self, sample: Sample) -> None:
        """Takes one more look."""
        self._recent.append(sample)
        while self._recent[0].at < sample.at - RECENT and len(self._recent) > 2:
            self._recent.popleft()
        if not self._sparse or sample.at - self._sparse[-1].at >= EVERY - 0.5:
            self._sparse.append(sample)

    @property
    def commits(self) -> float | None:
        """Positions a second; None before the second look."""
        first, last = self._recent[0], self._recent[-1]
        return None if last.at <= first.at else max(0, last.end - first.end) / (last.at - first.at)

    @property
    def lag_seconds(self) -> float | None:
        """For how long the oldest block that is not archived has been seen; 0 where all is, None where nothing is known."""
        last = self._recent[-1]
        if last.lag is None:
            return None
        oldest = next((sample for sample in self._recent if sample.end > last.archived), last)
        return last.at - oldest.at

    def fall(self) -> float | None:
        """Entries of the audit list a second, over the looks at the present run; None where they are too few."""
        return self._fall_of(lambda sample: sample.entries_left)

    def growth(self) -> float | None:
        """MiB a second, likewise."""
        fall = self._fall_of(lambda sample: sample.memory)
        return None if fall is None else -fall

    def _fall_of(self, value_of: Callable[[Sample], int | None]) -> float | None:
        last = self._recent[-1]
        first = next(
            (
                sample
                for sample in self._sparse
                if sample.run == last.run and value_of(sample) is not None
            ),
            None,
        )
        before, now = None if first is None else value_of(first), value_of(last)
        if first is None or before is None or now is None or last.at - first.at < LEAST:
            return None
        return (before - now) / (last.at - first.at)

    def points(self) -> list[Point]:
        """The points of the last quarter of an hour."""
        found = list(self._sparse)
        return [
            Point(
                now.at,
                now.lag,
                max(0, now.end - then.end) / max(now.at - then.at, 1e-3),
                now.entries_left,
            )
            for then, now in zip(found, found[1:])
        ]
