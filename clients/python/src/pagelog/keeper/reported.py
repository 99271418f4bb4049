"""What a keeper's report says of each of its databases, as text, which is made again where something of it is another."""

from __future__ import annotations

import json
from typing import TYPE_CHECKING, Any, NamedTuple

from pagelog.keeper.machine import Decision, DatabaseState

if TYPE_CHECKING:
    from pagelog.keeper.database import Database


class ReportedDatabase(NamedTuple):
    """What is said of a database. Of a service it is in the order in which it is said, with memory in MiB."""

    name: str
    state: DatabaseState
    decision: Decision | None
    leaving: tuple[str, ...]
    run: str | None = None
    back: int | None = None
    table: int = 0
    entries_left: int = 0
    memory: int = 0
    memory_left: int | None = None
    hard: int = 0
    stored: int | None = None

    @property
    def text(self) -> str:
        """As a member of an object of JSON."""
        said: dict[str, Any] = {"state": self.state.value, "why": str(self.decision or "")}
        if self.leaving:
            said["leaving"] = sorted(self.leaving)
        if self.run is not None:
            said.update(zip(self._fields[4:], self[4:]))
        return f"{json.dumps(self.name)}: {json.dumps(said)}"


class Reported:
    """Of one database."""

    def __init__(self) -> None:
        self._said: tuple[Any, ...] = ()
        self._text = ""

    def text(self, database: Database, audit: int, limit: int, stored: int | None) -> str:
        """What is said now of it, as a member of an object of JSON. Its memory is measured for that, and for what is decided until the next
        look. `audit` and `limit` are a service's, and `stored` is up to where it is in the store.
        """
        served = database.served
        said: tuple[Any, ...] = (
            database.row.name,
            database.state,
            database.decision,
            tuple(database.leaving),
        )
        if served is not None and served.process is not None:
            memory = served.measure()
            said += (
                served.run,
                database.back,
                served.table_number,
                audit - served.entries,
                memory >> 20,
                max(0, limit - memory) >> 20 if limit else None,
                served.hard,
                stored,
            )
        if said != self._said:
            self._said, self._text = said, ReportedDatabase(*said).text
        return self._text
