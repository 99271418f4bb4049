"""What is shown: facts of each database by the number of the look at which they changed, events, and whether PostgreSQL answers.

A browser is sent what is newer than the last look that it has; so one that is slow gets less, and costs no more memory.
"""

from __future__ import annotations

import asyncio
import json
from collections import deque
from dataclasses import asdict, dataclass
from datetime import datetime, timezone
from itertools import islice
from typing import Any, Iterable

from pagelog.console.events import ConsoleEvent, Known, of_asides, of_databases, of_keepers, taken
from pagelog.console.history import SampleHistory, Sample
from pagelog.console.outlook import Scene, Spare, ClientState, Use, forecast_of, sentence, state_of
from pagelog.console.source import Generation, SourceLook
from pagelog.console.trails import TrailCounts
from pagelog.keeper.aside import asides_of
from pagelog.keeper.machine import SUCCEED_AT
from pagelog.referee.rows import Look, Row, told

VERSION = 1
"""Of the form of what is sent."""
EVENTS = 500
"""How many events are kept."""
DAY = 86400.0


@dataclass(frozen=True)
class Limits:
    """As the keepers have them: seconds of a ttl, entries of an audit list, MiB that a service may hold, 0 for no limit, and the
    share of either at which the next service is made."""

    ttl: float = 5.0
    audit: int = 1 << 24
    memory: int = 0
    share: float = SUCCEED_AT


@dataclass
class ShownDatabase:
    """The fields of a database, and the number of the look at which they changed last."""

    fields: dict[str, Any]
    changed: int


def iso(at: float) -> str:
    """A time as text, in UTC."""
    return (
        datetime.fromtimestamp(at, timezone.utc)
        .isoformat(timespec="milliseconds")
        .replace("+00:00", "Z")
    )


class Board:
    """Takes looks, and says what they show. For one thread, that of the event loop."""

    def __init__(self, limits: Limits = Limits()) -> None:
        self.limits = limits
        self.number = 0
        """Of the last look, those too that PostgreSQL did not answer."""
        self._at = 0.0
        self._away: tuple[float, str] | None = None
        self._news = asyncio.Event()
        self._rows: dict[str, ShownDatabase] = {}
        self._gone: dict[str, int] = {}
        self._known: dict[int, Known] = {}
        self._keepers: dict[str, tuple[str, bool]] = {}
        self._asides: dict[str, dict[str, Any]] = {}
        """The runs of which PostgreSQL has lost something."""
        self._beats: dict[str, tuple[tuple[str, int], float]] = {}
        self._histories: dict[int, SampleHistory] = {}
        self._generations: dict[int, tuple[Generation, ...]] = {}
        self._trails: dict[str, TrailCounts] = {}
        """By whose they are: a name may be another database's by now."""
        self._events: deque[tuple[int, ConsoleEvent]] = deque(maxlen=EVENTS)
        self._seen: SourceLook | None = None
        self._messages: dict[int, str] = {}

    # Looks.

    def miss(self, why: str, at: float) -> None:
        """PostgreSQL did not answer."""
        self.number += 1
        if self._away is None:
            self._away = (at, why)
            self._say(
                [
                    ConsoleEvent(
                        at, f"PostgreSQL is away: {why.removeprefix('PostgreSQL: ')}", None, "bad"
                    )
                ]
            )
        self._away = (self._away[0], why)
        self._tell()

    def take(self, seen: SourceLook, at: float) -> None:
        """A look at this time."""
        self.number += 1
        events = list(self._back(at))
        living = self._see_beats(seen.look, at)
        keepers = {keeper.name: (keeper.run, keeper.name in living) for keeper in seen.look.keepers}
        known = {row.id: self._known_of(seen.look, row, living) for row in seen.look.rows}
        for gone in self._trails.keys() - set(seen.trails.values()):
            del self._trails[gone]
        for recorded in seen.recorded:
            for failover in self._trails.setdefault(recorded.whose, TrailCounts()).take(recorded):
                text = f"epoch {failover.epoch} began: principal {failover.primary} is its primary"
                events.append(ConsoleEvent(failover.at, text, failover.name))
        if self._seen is None:
            events += _past(seen)
        else:
            events += of_keepers(self._keepers, keepers, at)
            events += of_databases(self._known, known, at)
            if self._seen.look.synchronous.meaning != seen.look.synchronous.meaning:
                events.append(ConsoleEvent(at, seen.look.synchronous.meaning))
        asides = {
            each["run"]: {**each, "kept": each.get("kept", True)} for each in asides_of(seen.look)
        }
        events += of_asides(self._asides, asides, at)
        self._seen, self._known, self._keepers, self._asides, self._at = (
            seen,
            known,
            keepers,
            asides,
            at,
        )
        self._generations.update(seen.generations)
        self._say(events)
        self._show(at, living)
        self._tell()

    def _back(self, at: float) -> Iterable[ConsoleEvent]:
        if self._away is not None:
            yield ConsoleEvent(
                at, f"PostgreSQL is back after {at - self._away[0]:.0f} s", None, "good"
            )
            self._beats.clear()  # no beat could rise meanwhile
        self._away = None

    def _see_beats(self, look: Look, at: float) -> frozenset[str]:
        """The keepers whose heartbeat has not stalled for a ttl."""
        for keeper in look.keepers:
            beat = (keeper.run, keeper.beat)
            if self._beats.get(keeper.name, (None, 0.0))[0] != beat:
                self._beats[keeper.name] = (beat, at)
        return frozenset(
            keeper.name
            for keeper in look.keepers
            if at - self._beats[keeper.name][1] < self.limits.ttl
        )

    def _known_of(self, look: Look, row: Row, living: frozenset[str]) -> Known:
        state = state_of(row, _report(look, row), row.holder not in living)
        pages = look.pages_of(row.id)
        return Known(
            row,
            state,
            frozenset(standby.keeper for standby in look.standbys_of(row.id)),
            frozenset(
                (each.machine, each.run)
                for each in pages
                if not each.is_gone and not each.has_ended
            ),
            frozenset(str(aside["run"]) for each in pages for aside in each.aside),
        )

    def _show(self, at: float, living: frozenset[str]) -> None:
        assert self._seen is not None
        for id in self._histories.keys() - self._known.keys():
            del self._histories[id]
            self._generations.pop(id, None)
        names = {known.row.name for known in self._known.values()}
        for name in self._rows.keys() - names:
            del self._rows[name]
            self._gone[name] = self.number
        for known in self._known.values():
            name, fields = known.row.name, self._fields(self._seen.look, known, at, living)
            if name not in self._rows or self._rows[name].fields != fields:
                self._rows[name] = ShownDatabase(fields, self.number)
            self._gone.pop(name, None)

    def _fields(
        self, look: Look, known: Known, at: float, living: frozenset[str]
    ) -> dict[str, Any]:
        """All that the table has of a database."""
        row, report = known.row, _report(look, known.row)
        history = self._histories.setdefault(row.id, SampleHistory())
        left, held, hard = report.get("entries_left"), report.get("memory"), report.get("hard")
        history.add(Sample(at, row.run, row.archived, hard, left, held))
        audit = max(self.limits.audit, left or 0)
        used, grown = Use(left, audit, history.fall()), Use(
            held, self.limits.memory, history.growth()
        )
        forecast = forecast_of(used, grown, self.limits.share)
        spares = tuple(
            Spare(each.keeper, each.reached, each.keeper in living)
            for each in look.standbys_of(row.id)
        )
        has_asides = any(each["name"] == row.name for each in self._asides.values())
        scene = Scene(
            row,
            known.state,
            spares,
            living,
            forecast,
            report.get("state") == "succeeding",
            has_asides,
        )
        trail, generations = self._trail_of(row), self._generations.get(row.id, ())
        lag = None if hard is None else max(0, hard - row.archived)
        why = {keeper: said for keeper, said in look.decisions_of(row).items() if keeper in living}
        begins = [each.began.timestamp() for each in generations]
        return {
            "name": row.name,
            "state": known.state.value,
            "paused": row.paused,
            "read_only": row.read_only,
            "wanted": row.wanted,
            "holder": row.holder,
            "address": row.address,
            "generation": row.generation,
            "began": iso(begins[-1]) if begins else None,
            "begins": [iso(each) for each in begins if each > at - DAY][-24:],
            "position": row.archived,
            "stored": report.get("stored"),
            "lag": lag,
            "lag_seconds": _short(history.lag_seconds),
            "commits": _short(history.commits),
            "reads": _short(trail.reads(at)) if trail else None,
            "entries_left": left,
            "entries": audit,
            "due": int((1 - self.limits.share) * audit),
            "memory": held,
            "memory_limit": self.limits.memory or None,
            "standbys": [asdict(spare) for spare in spares],
            "pages": [
                {
                    "machine": each.machine,
                    "position": each.position,
                    "gone": each.is_gone or each.has_ended,
                }
                for each in look.pages_of(row.id)
            ],
            "denials": sum(trail.denials(at).values()) if trail else None,
            "why": told(row.holder, why) or None,
            "next": sentence(scene),
            "next_in": _short(forecast.seconds, 2)
            if known.state is ClientState.SERVING and not row.paused
            else None,
        }

    def _trail_of(self, row: Row) -> TrailCounts | None:
        return None if self._seen is None else self._trails.get(self._seen.trails.get(row.id, ""))

    def _say(self, events: Iterable[ConsoleEvent]) -> None:
        self._events.extend(
            (self.number, event) for event in sorted(events, key=lambda event: event.at)
        )

    # Telling.

    def _tell(self) -> None:
        self._messages.clear()
        self._news.set()
        self._news = asyncio.Event()

    async def newer_than(self, number: int) -> None:
        """Waits for a look behind this one."""
        while self.number <= number:
            await self._news.wait()

    def state(self) -> dict[str, Any]:
        """All of it."""
        return {
            **self._head(),
            "databases": [shown.fields for shown in self._rows.values()],
            "events": [_event(event) for _, event in self._events],
        }

    def since(self, number: int) -> str:
        """What is newer than the look of this number, as JSON."""
        if number not in self._messages:
            events = [_event(event) for when, event in self._events if when > number]
            self._messages[number] = json.dumps(
                {
                    **self._head(),
                    "databases": [
                        shown.fields for shown in self._rows.values() if shown.changed > number
                    ],
                    "gone": [name for name, when in self._gone.items() if when > number],
                    "events": events,
                }
            )
        return self._messages[number]

    def _head(self) -> dict[str, Any]:
        look, away = (self._seen.look if self._seen else Look()), self._away
        keepers = [
            {"name": keeper.name, "lines": keeper.lines, "lives": self._keepers[keeper.name][1]}
            for keeper in look.keepers
        ]
        return {
            "version": VERSION,
            "look": self.number,
            "at": iso(self._at),
            "keepers": keepers,
            "set_aside": list(self._asides.values()),
            "postgresql": {
                "answers": away is None and self._seen is not None,
                "is_prepared": self._seen is None or self._seen.is_prepared,
                "away_since": iso(away[0]) if away else None,
                "why": away[1] if away else "",
                "durable": look.synchronous.meaning,
                "is_one_disk": not look.synchronous.names,
                "synchronous_standbys": look.synchronous.count,
            },
        }

    def detail(self, name: str) -> dict[str, Any] | None:
        """What is shown of one database: its generations, plots, denials and events."""
        known = next((known for known in self._known.values() if known.row.name == name), None)
        if known is None:
            return None
        generations, trail = self._generations.get(known.row.id, ()), self._trail_of(known.row)
        points = self._histories[known.row.id].points()
        ends: list[Generation | None] = [*generations[1:], None]
        events = islice(
            (_event(event) for _, event in reversed(self._events) if event.name == name), 20
        )
        return {
            "version": VERSION,
            "at": iso(self._at),
            **self._rows[name].fields,
            "generations": [_generation(one, end) for one, end in zip(generations, ends)],
            "points": [
                [iso(each.at), each.lag, round(each.commits, 2), each.entries_left]
                for each in points
            ],
            "has_trail": known.row.id in self._seen.trails if self._seen else False,
            "rules": trail.denials(self._at) if trail else {},
            "trail_is_damaged": trail is not None and trail.is_damaged,
            "denied": [
                {**asdict(denial), "at": iso(denial.at)} for denial in reversed(trail.latest)
            ]
            if trail
            else [],
            "events": list(events),
        }


def _report(look: Look, row: Row) -> dict[str, Any]:
    """What the holder said of it at its last look."""
    keeper = look.keeper(row.holder)
    return {} if keeper is None else dict(keeper.report.get(row.name, {}))


def _past(seen: SourceLook) -> list[ConsoleEvent]:
    """Events of before the first look: the generations of all databases."""
    names = {row.id: row.name for row in seen.look.rows}
    return [
        ConsoleEvent(
            each.began.timestamp(), taken(each.holder, each.generation, each.base), names[id]
        )
        for id, generations in seen.generations.items()
        for each in generations
    ]


def _event(event: ConsoleEvent) -> dict[str, Any]:
    return {"at": iso(event.at), "name": event.name, "level": event.level, "text": event.text}


def _generation(one: Generation, end: Generation | None) -> dict[str, Any]:
    return {
        "generation": one.generation,
        "holder": one.holder,
        "base": one.base,
        "began": iso(one.began.timestamp()),
        "ended": iso(end.began.timestamp()) if end else None,
        "end": end.base if end else None,
    }


def _short(value: float | None, digits: int = 3) -> float | None:
    """Rounded, so that what hardly changes is not sent again."""
    return None if value is None else float(f"{value:.{digits}g}")
