"""Events: what is other at a look than at the one before it, each as a sentence; what is so of many databases is one of them."""

from __future__ import annotations

from collections import Counter
from dataclasses import dataclass
from typing import Any, Iterator, Mapping

from pagelog.console.outlook import ClientState
from pagelog.referee.rows import Row

MOST = 5
"""Of how many databases the same is told one by one."""


@dataclass(frozen=True)
class ConsoleEvent:
    """What happened at a time, in seconds since 1970; of one database, or of all where there is no name.

    `level` is plain, good, warning or bad.
    """

    at: float
    text: str
    name: str | None = None
    level: str = "plain"


@dataclass(frozen=True)
class Known:
    """A database at one look, as far as events speak of it."""

    row: Row
    state: ClientState
    standbys: frozenset[str] = frozenset()
    pages: frozenset[tuple[str, str]] = frozenset()
    """The machines and runs of its page servers that are heard."""
    stores: frozenset[str] = frozenset()
    """Those that they have quarantined."""


@dataclass(frozen=True)
class Change:
    """What is told of one database, and in its place of `#` databases where it is so of many."""

    text: str
    of_many: str
    level: str = "plain"


def of_databases(
    before: Mapping[int, Known], now: Mapping[int, Known], at: float
) -> Iterator[ConsoleEvent]:
    """The events of all databases between two looks."""
    changes = list(_all_changes(before, now))
    counts = Counter((change.of_many, change.level) for _, change in changes)
    for name, change in changes:
        if counts[change.of_many, change.level] <= MOST:
            yield ConsoleEvent(at, change.text, name, change.level)
    for (of_many, level), count in counts.items():
        if count > MOST:
            yield ConsoleEvent(at, of_many.replace("#", f"{count:,}"), None, level)


def _all_changes(
    before: Mapping[int, Known], now: Mapping[int, Known]
) -> Iterator[tuple[str, Change]]:
    for id, known in now.items():
        if id in before:
            yield from ((known.row.name, change) for change in _changes(before[id], known))
        else:
            yield known.row.name, Change("was created", "# databases were created")
    for id in before.keys() - now.keys():
        yield before[id].row.name, Change("was dropped", "# databases were dropped", "warning")


def _changes(before: Known, now: Known) -> Iterator[Change]:
    old, row = before.row, now.row
    if row.generation != old.generation:
        yield _taken(old, row)
    elif row.run is None and old.run is not None:
        text = f"{old.holder} released it at position {row.archived:,}"
        yield Change(text, f"{old.holder} released # databases", "bad")
    elif row.address is not None and row.address != old.address:
        yield Change(
            f"{row.holder} serves it at {row.address}", f"{row.holder} serves # databases", "good"
        )
    if now.state is ClientState.CLOSING and before.state is not ClientState.CLOSING:
        yield Change(f"{row.holder} closes it", f"{row.holder} closes # databases")
    if row.paused is not old.paused:
        word = "paused" if row.paused else "resumed"
        yield Change(
            f"was {word}", f"# databases were {word}", "warning" if row.paused else "plain"
        )
    if row.wanted != old.wanted and row.wanted is not None:
        asked = (
            f"a switchover to {'another keeper' if row.wanted == '*' else row.wanted} was asked for"
        )
        yield Change(asked, f"{asked}, of # databases")
    if row.succeed and not old.succeed:
        yield Change("a succession was asked for", "a succession was asked for, of # databases")
    if row.read_only is not old.read_only:
        word = "may only be read now" if row.read_only else "may be written again"
        yield Change(word, f"# databases {word}", "warning" if row.read_only else "plain")
    for keeper in sorted(now.standbys - before.standbys):
        yield Change(f"{keeper} stands by", f"{keeper} stands by for # databases")
    yield from _of_pages(before, now)


def _of_pages(before: Known, now: Known) -> Iterator[Change]:
    for machine, _ in sorted(now.pages - before.pages):
        yield Change(
            f"its page server at {machine} is there",
            f"page servers at {machine} of # databases are there",
            "good",
        )
    for machine, _ in sorted(before.pages - now.pages):
        yield Change(
            f"its page server at {machine} is not heard of",
            f"page servers at {machine} of # databases are not heard of",
            "warning",
        )
    for run in sorted(now.stores - before.stores):
        text = f"a page server has quarantined store {run}: `pagelogctl rescue` says what it has"
        yield Change(text, "page servers have quarantined stores of # databases", "bad")


def _taken(old: Row, row: Row) -> Change:
    holder = row.holder or "a keeper"
    if holder == old.holder and row.images != old.images:  # a succession, and no loss
        text = f"{holder} continues with generation {row.generation} from position {row.base:,}"
        return Change(text, f"{holder} continues with new generations of # databases")
    whose = f" from {old.holder}" if old.holder not in (None, row.holder) else ""
    serves = ", and serves it" if row.address is not None else ""
    text = taken(holder, row.generation, row.base, f"{whose}{serves}")
    return Change(
        text, f"{holder} took # databases{whose}{serves.replace(' it', ' them')}", "warning"
    )


def taken(holder: str, generation: int, base: int, how: str = "") -> str:
    """That a keeper began a generation."""
    return f"{holder} took it{how}: generation {generation} from position {base:,}"


def of_asides(
    before: Mapping[str, Mapping[str, Any]], now: Mapping[str, Mapping[str, Any]], at: float
) -> Iterator[ConsoleEvent]:
    """The events of runs of which PostgreSQL has lost something, by run, as their keepers say of them."""
    for run, aside in now.items():
        if run in before and before[run]["kept"] == aside["kept"]:
            continue
        how = "is quarantined" if aside["kept"] else "has what PostgreSQL lacks, which went back"
        text = f"run {run} of keeper {aside['keeper']} {how}: `pagelogctl rescue {aside['name']}` says what it has"
        yield ConsoleEvent(at, text, aside["name"], "bad")
    for run in before.keys() - now.keys():
        yield ConsoleEvent(
            at, f"PostgreSQL has all of run {run} again, or it was ended", before[run]["name"]
        )


def of_keepers(
    before: Mapping[str, Any], now: Mapping[str, Any], at: float
) -> Iterator[ConsoleEvent]:
    """The events of keepers; each is there with its run and whether it lives."""
    for name, (run, lives) in now.items():
        if name not in before:
            yield ConsoleEvent(at, f"keeper {name} is there", None, "good")
            continue
        old_run, lived = before[name]
        if run != old_run:
            yield ConsoleEvent(at, f"keeper {name} was restarted")
        if lives is not lived:
            text = (
                f"keeper {name} is up again" if lives else f"the heartbeat of keeper {name} stalled"
            )
            yield ConsoleEvent(at, text, None, "good" if lives else "bad")
