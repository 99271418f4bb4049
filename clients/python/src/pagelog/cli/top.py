"""The live page of `top`: a table of databases."""

from __future__ import annotations

from dataclasses import dataclass
from typing import Iterable, Mapping

from rich.console import Group, RenderableType
from rich.panel import Panel
from rich.table import Table
from rich.text import Text

from pagelog.times import duration
from pagelog.cli.watch import WatchedLook
from pagelog.request import PULL_MAX


@dataclass(frozen=True)
class TopLine:
    """What is known of one database: a look or an error, and the archived LSN where an archive is watched."""

    database: int
    look: WatchedLook | None
    error: str = ""
    archived: int | None = None


def rate(value: float | None) -> str:
    """A rate as people read it."""
    return (
        "-"
        if value is None
        else f"{value:,.0f}/s"
        if value >= 10 or value == 0
        else f"{value:.1f}/s"
    )


_COLUMNS = {
    "db": 0,
    "epoch": 0,
    "primary": 0,
    "hardened": 0,
    "blocks": 90,
    "reads": 110,
    "requests": 0,
    "applied": 125,
    "archive lag": 100,
    "audit list": 0,
    "full in": 0,
}
"""The columns, and how wide the terminal has to be for each of them to be shown."""


def page(title: str, tables: Iterable[RenderableType], at: str) -> RenderableType:
    """The whole page, of a table of standalone databases, or of named ones, or of both."""
    parts: list[RenderableType] = []
    for table in tables:
        parts += [Text(), table] if parts else [table]
    return Panel(
        Group(*parts),
        title=f"pagelog {title}",
        subtitle=f"{at}   q or Ctrl-C ends",
        title_align="left",
    )


def table_of(lines: Mapping[int, TopLine], width: int = 150) -> RenderableType:
    """The databases of a service, for a terminal of `width` columns."""
    table = Table(expand=True, box=None, padding=(0, 1), header_style="bold")
    shown = [number for number, least in enumerate(_COLUMNS.values()) if width >= least]
    for number in shown:
        title = list(_COLUMNS)[number]
        table.add_column(
            title, justify="left" if title in ("applied", "audit list") else "right", no_wrap=True
        )
    for line in lines.values():
        cells = _cells(line)
        table.add_row(*(cells[number] for number in shown if number < len(cells)))
    errors = [
        Text(f"db {line.database}: {line.error}", style="red")
        for line in lines.values()
        if line.error
    ]
    warnings = [
        Text(words, style="bold red") for line in lines.values() if (words := warning(line))
    ]
    return Group(table, *errors, *warnings, Text(), _denials(lines))


def warning(line: TopLine) -> str:
    """What an operator has to do soon, or nothing."""
    look = line.look
    if look is None or not (look.used > 0.9 or (look.full_in is not None and look.full_in < 3600)):
        return ""
    lag = 0 if line.archived is None else max(0, look.state.hard - line.archived)
    return (
        f"db {line.database}: {max(0, look.limit - look.entries):,} entries are left of its audit list; {lag:,} blocks are not archived, which "
        f"want {-(-lag // PULL_MAX):,}: move the database"
    )


def _cells(line: TopLine) -> list[RenderableType]:
    look = line.look
    if look is None:
        return [str(line.database)]
    applied = ", ".join(
        f"{partition}: {lsn:,}" for partition, lsn in sorted(look.applied.items())[:3]
    )
    lag = "-" if line.archived is None else f"{max(0, look.state.hard - line.archived):,}"
    behind = "+" if look.is_behind else ""
    return [
        str(line.database),
        str(look.state.epoch),
        str(look.state.primary),
        f"{look.state.hard:,}",
        rate(look.blocks_rate),
        rate(look.reads_rate),
        rate(look.requests_rate),
        applied or "-",
        lag,
        _use(look.used, f"{look.entries:,}{behind}"),
        _when(look),
    ]


def _use(used: float, words: str) -> Text:
    full = round(used * 12)
    style = "red" if used > 0.9 else "yellow" if used > 0.7 else "green"
    return Text.assemble(("#" * full, style), ("." * (12 - full), "dim"), f" {used:4.0%} {words}")


def _when(look: WatchedLook) -> Text:
    seconds = look.full_in
    return Text(duration(seconds), style="red" if seconds is not None and seconds < 3600 else "")


def _denials(lines: Mapping[int, TopLine]) -> RenderableType:
    table = Table(box=None, padding=(0, 1), header_style="bold")
    table.add_column("db", justify="right")
    table.add_column("denied by", min_width=24)
    table.add_column("times", justify="right")
    for line in lines.values():
        for rule, count in sorted(
            (line.look.denials if line.look else {}).items(), key=lambda found: -found[1]
        )[:6]:
            table.add_row(str(line.database), rule, f"{count:,}")
    return (
        table if table.row_count else Text("nothing was denied since this page began", style="dim")
    )
