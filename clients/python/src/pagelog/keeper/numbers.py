"""The highest numbers of generations that a keeper knows: of PostgreSQL's own rows as it once saw them, and of its notes in its folder.

Where PostgreSQL went back it has forgotten numbers that it gave; another run must not get one of them again. What a client says
counts for nothing here.
"""

from __future__ import annotations

import json
from contextlib import suppress
from pathlib import Path
from typing import Iterable

from pagelog.referee.rows import Row

_FILE = "numbers"
_GAP = 2
_RUNS = 16
"""Generations of a database whose runs are known."""


class Numbers:
    """Those of one keeper, by the identity of each database."""

    def __init__(self, folder: Path) -> None:
        self._folder = folder
        self._highest: dict[str, int] = {}
        self._runs: dict[str, dict[int, str]] = {}
        """Of the last generations of each: the runs that they are of."""
        self._first: set[tuple[str, int]] = set()
        """Databases and generations whose runs the last look was the first to show."""
        self._of_dropped: dict[str, int] = {}
        """Of the databases that a name had before, dropped or lost by PostgreSQL: one that is created again goes on above them."""
        self._named: dict[str, str] = {}
        """The identity of the last database of each name."""
        self.is_changed = False
        """Whether there are some that are not noted."""

    def begin(self) -> None:
        """Reads the notes of earlier lives of the keeper."""
        with suppress(OSError, ValueError, TypeError, AttributeError):
            for database, number in json.loads((self._folder / _FILE).read_text()).items():
                self.note(str(database), int(number))
        self.is_changed = False

    def note(self, database: str, number: int) -> None:
        """This one was given."""
        if number > self._highest.get(database, 0):
            self._highest[database] = number
            self.is_changed = True

    def see(self, rows: Iterable[Row]) -> list[Row]:
        """Takes what a look has shown. Returns the databases of which PostgreSQL has forgotten numbers, or given one twice."""
        seen = list(rows)
        self._first.clear()
        twice = [row for row in seen if self._is_of_another(row)]
        for row in seen:
            self.note(row.identity, max(row.next_generation - 1, row.generation))
            if row.dropped:
                self._note_gone(row.plain_name, row.identity)
        for row in seen:
            if (
                not row.dropped
                and (before := self._named.get(row.name, row.identity)) != row.identity
            ):
                self._note_gone(row.name, before)
        self._named.update({row.name: row.identity for row in seen if not row.dropped})
        return [
            row
            for row in seen
            if not row.dropped and (row.next_generation <= self.highest(row) or row in twice)
        ]

    def _note_gone(self, name: str, database: str) -> None:
        """This one has the name no more."""
        self._of_dropped[name] = max(self._of_dropped.get(name, 0), self._highest.get(database, 0))

    def _is_of_another(self, row: Row) -> bool:
        """Whether the number of its generation was another run's, and this is not known yet."""
        runs = self._runs.setdefault(row.identity, {})
        if row.run is None or row.dropped:
            return False
        if row.generation not in runs:
            self._first.add((row.identity, row.generation))
        known = runs.setdefault(row.generation, row.run)
        while len(runs) > _RUNS:
            del runs[min(runs)]
        return known != row.run and row.doubted < row.generation

    def doubted(self, row: Row) -> int:
        """The numbers up to which are to be doubted, where PostgreSQL went back: none where this very run had its generation before."""
        is_same = (
            self._runs.get(row.identity, {}).get(row.generation) == row.run
            and (row.identity, row.generation) not in self._first
        )
        is_known = row.generation == 0 or is_same
        return 0 if is_known and self.dropped(row) < row.generation else self.highest(row)

    def highest(self, row: Row) -> int:
        """The highest number that a generation of this database, or of one that had its name before, was given."""
        return max(self._highest.get(row.identity, 0), self.dropped(row))

    def dropped(self, row: Row) -> int:
        """The highest number that a database which had this name before was given."""
        return self._of_dropped.get(row.plain_name, 0)

    def least(self, row: Row) -> int:
        """The lowest number that its next generation may get where PostgreSQL has forgotten some; else 0. There is a gap: to a client of
        version 1 the next number says that its own run has ended there."""
        return self.highest(row) + _GAP if row.next_generation <= self.highest(row) else 0

    def save(self) -> None:
        """Notes them for a later instance. Raises `OSError`."""
        self.is_changed = False
        fresh = self._folder / f"{_FILE}.fresh"
        fresh.write_text(json.dumps(dict(self._highest)))
        fresh.replace(self._folder / _FILE)
