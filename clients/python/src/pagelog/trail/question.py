"""Asks a trail: which lines were seen in a time, and how many there are by minute, principal and rule."""

from __future__ import annotations

from collections import Counter
from dataclasses import dataclass, field
from datetime import datetime, timedelta
from typing import Iterable, Iterator

from pagelog.reply import LINE_SIZE, Entries, Entry, decode_reply, expect
from pagelog.request import AUDIT_MAX, Operation
from pagelog.trail.store import Piece, Trail, TrailList

MINUTE = 60_000_000
"""Of microseconds."""
_ENTRIES = b"\x03"


@dataclass(frozen=True)
class SeenLine:
    """A line, and when it was seen: it was decided by then, and after the line before it."""

    run: int
    seen: int
    entry: Entry


@dataclass(frozen=True)
class Question:
    """Which lines are asked for. Times are in microseconds since 1970, `until` is the first that is not asked for."""

    since: int | None = None
    until: int | None = None
    principal: int | None = None
    operation: Operation | None = None
    is_denied: bool = False

    def takes(self, entry: Entry) -> bool:
        """Whether a line is asked for, whenever it was seen."""
        return (
            (self.principal is None or entry.principal == self.principal)
            and (self.operation is None or entry.operation is self.operation)
            and not (self.is_denied and entry.is_allowed)
        )


def entries_of(piece: Piece) -> tuple[Entry, ...]:
    """The lines of a piece, which has more than a reply where it is the last one of a generation."""
    found: list[Entry] = []
    for at in range(0, len(piece.lines), AUDIT_MAX * LINE_SIZE):
        lines = piece.lines[at : at + AUDIT_MAX * LINE_SIZE]
        found += expect(
            Entries, decode_reply(_ENTRIES + (len(lines) // LINE_SIZE).to_bytes(2, "big") + lines)
        ).entries
    return tuple(found)


def answer(trail: Trail, one: TrailList, question: Question, first: int = 1) -> Iterator[SeenLine]:
    """The lines of a list that are asked for, from number `first` on."""
    for piece in trail.pieces(one, first, since=question.since, until=question.until):
        for entry in entries_of(piece):
            if entry.number >= first and question.takes(entry):
                yield SeenLine(one.run, piece.seen, entry)


def micros(when: datetime) -> int:
    """A time in microseconds since 1970."""
    return (when - datetime.fromtimestamp(0, when.tzinfo)) // timedelta(microseconds=1)


# Counts.


@dataclass
class Summary:
    """Lines counted by the minute in which they were seen, by principal, and by the rule that denied them."""

    counts: Counter[tuple[int, int, str]] = field(default_factory=Counter)
    """By minute, as the time of its beginning, principal and rule, which is empty where they were allowed."""
    epochs: list[tuple[int, int]] = field(default_factory=list)
    """When an allowed failover was seen, and the epoch that began with it."""
    generations: list[tuple[int, int]] = field(default_factory=list)
    """When the first line of a generation was seen, and its number."""

    def take(self, lines: Iterable[SeenLine], generation: int = 0) -> None:
        """Counts these lines too, which are of one list; 0 is no generation."""
        for line in lines:
            entry = line.entry
            if generation and generation not in (number for _, number in self.generations[-1:]):
                self.generations.append((line.seen, generation))
            self.counts[line.seen // MINUTE * MINUTE, entry.principal, entry.rule] += 1
            if entry.operation is Operation.FAILOVER and entry.is_allowed:
                self.epochs.append((line.seen, entry.epoch + 1))

    def by_minute(self) -> dict[int, tuple[int, int]]:
        """How many requests and how many denials were seen in each minute, from the first to the last."""
        found: dict[int, list[int]] = {}
        for (minute, _, rule), count in self.counts.items():
            both = found.setdefault(minute, [0, 0])
            both[0] += count
            both[1] += count if rule else 0
        return {minute: (found[minute][0], found[minute][1]) for minute in sorted(found)}
