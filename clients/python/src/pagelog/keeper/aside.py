"""Services of which PostgreSQL has lost something. What was quarantined goes on, also without a keeper; each may be the only copy."""

from __future__ import annotations

from dataclasses import dataclass
from pathlib import Path
from typing import Any, Iterable

from pagelog.keeper.run import ProcessFacts, Seen, database_of, is_running, kept_in, seen_of
from pagelog.keeper.runner import RunnerError
from pagelog.referee.rows import ASIDE, Look


@dataclass(frozen=True)
class Aside:
    """One of them. `seen` is what PostgreSQL has had of its run, `is_kept` whether it was quarantined: else its keeper has it still, and
    `database` the identity of what it is of."""

    facts: ProcessFacts
    seen: Seen
    is_kept: bool = True
    database: str = ""

    def report(self) -> dict[str, Any]:
        """As a keeper's report has it."""
        facts = self.facts
        return {
            "name": facts.name,
            "run": facts.run,
            "address": facts.address,
            "pid": facts.pid,
            "shift": facts.shift,
            "images": facts.images,
            "had": self.seen.archived,
            "kept": self.is_kept,
            "database": self.database,
        }


class Asides:
    """Those in the folder of a keeper."""

    def __init__(self, folder: Path) -> None:
        self._folder = folder
        self._facts: list[ProcessFacts] = []
        self._databases: dict[str, str] = {}
        """Of which database each run is."""

    def begin(self) -> None:
        """Those of its previous instances."""
        self._facts = kept_in(self._folder)

    def add(self, facts: ProcessFacts) -> None:
        """Another one."""
        self._facts.append(facts)

    def __len__(self) -> int:
        return len(self._facts)

    def report(self, others: Iterable[Aside] = ()) -> dict[str, list[dict[str, Any]]]:
        """What the keeper says of those that still run, and of `others`, which it has not quarantined."""
        self._facts = [facts for facts in self._facts if is_running(facts)]
        found = [
            *(
                Aside(facts, seen_of(self._folder, facts), database=self._database_of(facts))
                for facts in self._facts
            ),
            *others,
        ]
        return {ASIDE: [each.report() for each in found]} if found else {}

    def _database_of(self, facts: ProcessFacts) -> str:
        """Its process is asked until it has answered."""
        if facts.run not in self._databases:
            try:
                self._databases[facts.run] = database_of(self._folder, facts)
            except RunnerError:
                return ""  # it is asked again
        return self._databases[facts.run]


def asides_of(look: Look) -> list[dict[str, Any]]:
    """What all keepers have said, each as old as its keeper's last look."""
    return [
        {"keeper": keeper.name, **each}
        for keeper in look.keepers
        for each in keeper.report.get(ASIDE, ())
    ]
