"""The mover of a keeper, as a process of its own: it moves blocks of the databases that the keeper holds, and takes no processor time from
the keeper's answers.

A keeper calls `python -m pagelog.store.moving`, with what is wanted as a line of JSON at its input, which stays open: the process ends with
its keeper. Its output are lines of JSON. It holds nothing and needs no lock: that the holder's keeper runs it only saves work.
"""

from __future__ import annotations

import json
import os
import sys
import threading
import time
from dataclasses import asdict, dataclass, field
from typing import Any, Callable, TextIO

from pagelog.child import LineOfInput
from pagelog.errors import PagelogError
from pagelog.objects.place import Store, StoreAway, store_of
from pagelog.objects.segment import BrokenObject, named
from pagelog.objects.settings import StoreSettings
from pagelog.referee import object_statements as tables
from pagelog.referee.referee import Away, BrokenArchive, Doubt, Referee
from pagelog.repeating import Backoff
from pagelog.store.mover import Mover

LONGEST = 60.0
"""Seconds after which what has failed is tried again in any case."""
TOLD = 5.0
"""Seconds between two reports where nothing has changed but positions."""


@dataclass(frozen=True)
class Wish(LineOfInput):
    """What a keeper asks for: `me` is its name."""

    url: str
    me: str
    store: StoreSettings
    requires_standby: bool = False


@dataclass
class MoverReport:
    """Of one database: up to which position it is in the store, and is there alone; for how many seconds the oldest block waits that is not;
    objects that PostgreSQL does not know, and what is broken."""

    stored: int = 0
    cut: int = 0
    behind: float = 0.0
    failures: int = 0
    foreign: int = 0
    foreign_end: int = 0
    broken: str | None = None
    away: str | None = None
    refused: int = 0


@dataclass
class MovedDatabase:
    """One database, while it is held."""

    mover: Mover
    generation: int = -1
    report: MoverReport = field(default_factory=MoverReport)
    waits: Backoff = field(default_factory=lambda: Backoff(1.0, LONGEST))
    not_before: float = 0.0
    has_more: bool = True


class Moving:
    """All databases of a keeper, in turn. `told` gets a report of all where something has changed."""

    def __init__(
        self, wish: Wish, told: Callable[[dict[str, Any]], None], store: Store | None = None
    ) -> None:
        self._wish, self._told, self._store = wish, told, store
        self._referee = Referee(wish.url, "of a store", requires_standby=wish.requires_standby)
        self._moved: dict[str, MovedDatabase] = {}
        self._last: dict[str, Any] = {}
        self._last_at = 0.0
        self.pause = min(TOLD, max(0.1, wish.store.age / 8))

    def close(self) -> None:
        """Closes its connection."""
        self._referee.close()

    def round(self) -> bool:
        """A step of each database that has something to do. Returns whether one may have more."""
        held = self._referee._ask_bounded(tables.HELD, {"me": self._wish.me})
        for log, name, identity, generation, cut, stored, behind in held:
            one = self._moved.get(identity)
            if one is None:
                one = self._moved[identity] = MovedDatabase(
                    Mover(self._referee, self._opened(), log, name, identity, self._wish.store)
                )
            one.report.stored, one.report.cut, one.report.behind = (
                stored,
                cut,
                round(max(0.0, behind), 1),
            )
            if time.monotonic() >= one.not_before:
                self._step(one, identity, generation)
        for identity in self._moved.keys() - {row[2] for row in held}:
            del self._moved[identity]
        self._tell({row[1]: asdict(self._moved[row[2]].report) for row in held})
        return any(one.has_more for one in self._moved.values())

    def _opened(self) -> Store:
        if self._store is None:
            self._store = store_of(self._wish.store)
        return self._store

    def _step(self, one: MovedDatabase, identity: str, generation: int) -> None:
        report = one.report
        one.has_more = False
        try:
            if one.generation != generation or (
                report.foreign and report.stored >= report.foreign_end
            ):
                report.foreign, report.foreign_end = foreign(
                    self._referee, self._opened(), identity
                )
                one.generation = generation
            one.has_more = one.mover.step()
        except (Away, Doubt):
            raise
        except PagelogError as error:
            report.failures += 1
            report.broken = (
                str(error) if isinstance(error, (BrokenArchive, BrokenObject)) else report.broken
            )
            report.away = (
                str(error) if not isinstance(error, (BrokenArchive, BrokenObject)) else None
            )
            one.not_before = time.monotonic() + one.waits.next()
        else:
            report.broken = report.away = None
            one.waits.reset()
        report.refused = one.mover.done.refused

    def _tell(self, reports: dict[str, Any]) -> None:
        if _fault(reports) != _fault(self._last) or (
            reports != self._last and time.monotonic() - self._last_at >= min(TOLD, self.pause)
        ):
            self._last, self._last_at = json.loads(json.dumps(reports)), time.monotonic()
            self._told(reports)


def _fault(reports: dict[str, Any]) -> dict[str, Any]:
    return {name: (each["broken"], each["away"], each["foreign"]) for name, each in reports.items()}


def foreign(referee: Referee, store: Store, identity: str) -> tuple[int, int]:
    """How many objects of a database are of positions that PostgreSQL has not given to the store, and where the last one ends: what another
    history had, which PostgreSQL has lost."""
    found = referee._ask_bounded(_PLACE, {"identity": identity})
    if not found:
        return 0, 0
    folder, moved = found[0]
    keys = [key for key, _ in store.list(f"{folder}/blocks/", f"{folder}/blocks/{moved + 1:016x}")]
    [[_, now]] = referee._ask_bounded(_PLACE, {"identity": identity}) or [(folder, moved)]
    ends = [said.last for said in map(named, keys) if said is not None and said.first > now]
    return len(ends), max(ends, default=0)


_PLACE = """
UPDATE pagelog_store s SET moved = s.moved FROM pagelog_log l WHERE l.id = s.log AND l.identity = %(identity)s::uuid RETURNING s.folder, s.moved
"""


def _end_with(input: TextIO) -> None:
    """Ends this process once its keeper has ended: each step may be cut anywhere."""
    while input.read(1):
        pass
    os._exit(0)


def main() -> int:
    """Moves until the input ends."""
    wish = Wish.read(sys.stdin.readline())
    threading.Thread(target=_end_with, args=(sys.stdin,), daemon=True).start()
    moving, waits = Moving(
        wish, lambda reports: print(json.dumps({"logs": reports}), flush=True)
    ), Backoff(1.0, LONGEST)
    while True:
        try:
            if moving.round():
                continue
            waits.reset()
            time.sleep(moving.pause)
        except PagelogError as error:
            kind = "away" if isinstance(error, (Away, Doubt, StoreAway)) else "error"
            print(json.dumps({kind: str(error)}), flush=True)
            time.sleep(waits.next())


if __name__ == "__main__":
    sys.exit(main())
