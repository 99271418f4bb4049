"""The named databases of `top`: what the referee shows of them, and how fast they grow."""

from __future__ import annotations

import time
from dataclasses import dataclass, field
from typing import Any, Callable, Sequence

from rich.console import Group, RenderableType
from rich.table import Table
from rich.text import Text

from pagelog.cli.keeper_words import facts_of
from pagelog.cli.top import rate
from pagelog.referee.referee import Referee
from pagelog.referee.rows import Look, Row

SILENT = 5.0
"""Seconds after which a holder whose beat stands still is told."""


@dataclass(frozen=True)
class NamedLine:
    """A named database at a moment: what `list` has of it, and what only two looks show."""

    facts: dict[str, Any]
    commits_rate: float | None
    """Blocks that were archived a second since the look before."""
    silent: float | None
    """For how many seconds the beat of its holder has stood still; None without a holder."""

    @property
    def warning(self) -> str:
        """What an operator has to look at, or nothing."""
        name, holder = self.facts["name"], self.facts["holder"]
        if holder is None:
            return "" if self.facts["paused"] else f"{name}: nobody has it"
        if self.silent is not None and self.silent >= SILENT:
            return f"{name}: nothing was heard of its holder {holder} for {self.silent:.0f} s"
        return "" if self.facts["standbys"] else f"{name}: it has no standby"


@dataclass(frozen=True)
class NamedDatabases:
    """All named databases at a moment, or why they are not known."""

    lines: tuple[NamedLine, ...] = ()
    meaning: str = ""
    error: str = ""


@dataclass
class NamedWatch:
    """Looks at the referee again and again."""

    referee: Referee
    clock: Callable[[], float] = time.monotonic
    _before: dict[str, tuple[float, int, int]] = field(default_factory=dict)
    """When a database was looked at before, its id, and its archived position then."""
    _beats: dict[str, tuple[float, str, int]] = field(default_factory=dict)
    """Since when a keeper is seen with this life and this beat."""

    def look(self) -> NamedDatabases:
        """What is there now. Raises as the referee does."""
        found, now = self.referee.everything(), self.clock()
        for keeper in found.keepers:
            _, life, beat = self._beats.get(keeper.name, (now, "", -1))
            if (life, beat) != (keeper.run, keeper.beat):
                self._beats[keeper.name] = (now, keeper.run, keeper.beat)
        return NamedDatabases(
            tuple(self._line(found, row, now) for row in found.rows if not row.dropped),
            found.synchronous.meaning,
        )

    def _line(self, found: Look, row: Row, now: float) -> NamedLine:
        facts = facts_of(found, row)
        before, self._before[row.name] = self._before.get(row.name), (
            now,
            row.id,
            facts["archived"],
        )
        commits = (
            None
            if before is None or before[1] != row.id
            else (facts["archived"] - before[2]) / max(now - before[0], 1e-9)
        )
        since = self._beats.get(row.holder or "")
        return NamedLine(facts, commits, None if since is None else now - since[0])


_COLUMNS = {
    "name": 0,
    "generation": 0,
    "holder": 0,
    "archived": 0,
    "commits": 0,
    "lag": 0,
    "standbys": 110,
    "entries left": 80,
    "memory": 90,
    "memory left": 120,
    "state": 100,
}
"""The columns, and how wide the terminal has to be for each of them to be shown."""


def table_of(named: NamedDatabases, width: int) -> RenderableType:
    """The named databases, for a terminal of `width` columns."""
    if named.error:
        return Text(f"named databases: {named.error}", style="red")
    table = Table(expand=True, box=None, padding=(0, 1), header_style="bold")
    shown = [number for number, least in enumerate(_COLUMNS.values()) if width >= least]
    for number in shown:
        title = list(_COLUMNS)[number]
        table.add_column(
            title,
            justify="left" if title in ("name", "holder", "standbys", "state") else "right",
            no_wrap=True,
        )
    for line in named.lines:
        cells = _cells(line)
        table.add_row(*(cells[number] for number in shown))
    warnings = [Text(line.warning, style="bold red") for line in named.lines if line.warning]
    return Group(table, *warnings, Text(named.meaning, style="dim"))


def _cells(line: NamedLine) -> Sequence[str]:
    facts = line.facts
    standbys = ", ".join(
        f"{keeper} -{max(0, facts['archived'] - reached):,}"
        for keeper, reached in sorted(facts["standbys"].items())
    )
    state = (
        "paused"
        if facts["paused"]
        else f"to {facts['wanted']}"
        if facts["wanted"]
        else facts["state"]
    )
    return [
        facts["name"],
        str(facts["generation"]),
        _shown(facts["holder"]),
        f"{facts['archived']:,}",
        rate(line.commits_rate),
        _shown(facts["lag"]),
        standbys or "-",
        _shown(facts["entries_left"]),
        _shown(facts["memory"], " MiB"),
        _shown(facts["memory_left"], " MiB"),
        _shown(state),
    ]


def _shown(value: object, unit: str = "") -> str:
    return "-" if value is None else f"{value:,}{unit}" if isinstance(value, int) else str(value)


def fields_of(named: NamedDatabases) -> list[dict[str, Any]]:
    """A JSON object for each database; one with the error where they are not known."""
    if named.error:
        return [{"name": None, "time": round(time.time(), 3), "error": named.error}]
    return [
        {
            "time": round(time.time(), 3),
            **line.facts,
            "commits_a_second": line.commits_rate,
            "silent_seconds": line.silent,
        }
        for line in named.lines
    ]
