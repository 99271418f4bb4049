"""The page servers that are alive, as looks show them, and what clients are told of them."""

from __future__ import annotations

from collections import Counter
from typing import Iterable, Mapping

from pagelog.keeper.lines import Key, of_word
from pagelog.keeper.machine import Stillness
from pagelog.referee.fate import Of
from pagelog.referee.rows import PagesRow, Row

MOST = 8
"""Of one database, those that are told: a line has 1,024 bytes."""
_LEAST = 3.0
"""Seconds for which a heartbeat may stand still at least: a page server has one each second."""


class LivingPages:
    """Of all databases. One that has ended in order is none."""

    def __init__(self, ttl: float) -> None:
        self._patience = max(ttl, _LEAST)
        self._stillness: dict[str, Stillness] = {}
        self._living: Mapping[int, list[PagesRow]] = {}
        self._all: Counter[int] = Counter()
        self._asides: Counter[int] = Counter()
        """How many there are of each database, those that are gone among them, and how many stores they have quarantined."""

    def see(self, rows: Iterable[PagesRow], now: float) -> None:
        """Another look. Those whose heartbeat stands still are not told, and those that are gone forgotten."""
        rows, living = list(rows), dict[int, list[PagesRow]]()
        self._asides = Counter(row.log for row in rows for _ in row.aside)
        rows = [row for row in rows if not row.has_ended]
        self._all = Counter(row.log for row in rows)
        known, self._stillness = self._stillness, {}
        for row in rows:
            stillness = self._stillness[row.run] = known.get(row.run) or Stillness(
                2 * self._patience
            )
            if stillness.see(row.beat, now) < self._patience:
                living.setdefault(row.log, []).append(row)
        self._living = living

    def key(self, row: Row, is_secure: bool) -> tuple[Key, ...]:
        """Of `at`: how many there are for who came by TLS or without, where there are any."""
        count = len(self._told(row, is_secure))
        return (Key(f"pages={min(count, MOST)}"),) if count else ()

    def states(self, row: Row) -> dict[str, int | None]:
        """What the metrics have of a database: how many live and how many are gone, how many blocks the one that is most behind lacks, and
        how many stores are quarantined."""
        living = self._living.get(row.id, ())
        behind = max((max(0, row.archived - each.position) for each in living), default=None)
        return {
            "pages": len(living),
            "pages_gone": self._all[row.id] - len(living),
            "pages_behind": behind,
            "pages_aside": self._asides[row.id],
        }

    def _told(self, row: Row, is_secure: bool) -> list[tuple[str, PagesRow]]:
        """Those that are told to who came by TLS or without, each with its address for that."""
        return [
            (address, each)
            for each in self._living.get(row.id, ())
            if (address := each.told(is_secure)) is not None
        ]

    def words(self, row: Row, of: Of | None, is_secure: bool) -> tuple[object, ...]:
        """The answer to `pages`: of each its address, run, position and oldest position; first those that have most."""
        found = sorted(self._told(row, is_secure), key=lambda told: -told[1].position)[:MOST]
        told = [
            word
            for address, each in found
            for word in (address, each.run, each.position, each.oldest)
        ]
        return (
            "pages",
            row.name,
            *told,
            *of_word(None if of is None else Of(row.identity, of.run)),
        )
