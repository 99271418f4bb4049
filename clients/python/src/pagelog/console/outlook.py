"""The state of a database in one word, and what will happen next in one sentence. There is no IO here."""

from __future__ import annotations

from dataclasses import dataclass
from enum import Enum
from typing import Any, Mapping

from pagelog.keeper.machine import NEAR
from pagelog.referee.rows import Row
from pagelog.times import duration


class ClientState(str, Enum):
    """What a database is to its clients."""

    SERVING = "serving"
    TAKING = "taking"
    CLOSING = "closing"
    SILENT = "silent"
    NOBODY = "nobody"


@dataclass(frozen=True)
class Spare:
    """A standby: how far it is, and whether its keeper lives."""

    keeper: str
    reached: int
    lives: bool


@dataclass(frozen=True)
class Forecast:
    """In how many seconds the list, or the memory, is as full as a keeper lets it become; None where that is not known."""

    seconds: float | None = None
    by: str = ""
    full_in: float | None = None
    """In how many seconds the list is full where nobody does anything."""
    is_early: bool = False
    """Whether the service was not watched for long enough to say it."""


@dataclass(frozen=True)
class Scene:
    """All that the sentence rests on."""

    row: Row
    state: ClientState
    spares: tuple[Spare, ...] = ()
    living: frozenset[str] = frozenset()
    """The keepers whose beat does not stand still."""
    forecast: Forecast = Forecast()
    is_succeeding: bool = False
    """Whether its holder says that it makes the service of the next generation."""
    has_asides: bool = False
    """Whether a keeper has a run of it of which PostgreSQL has lost something."""


def state_of(row: Row, report: Mapping[str, Any], is_silent: bool) -> ClientState:
    """The state, from the referee's row, what its holder reports of it, and whether the holder's beat stands still."""
    if row.run is None:
        return ClientState.NOBODY
    if is_silent:
        return ClientState.SILENT
    if row.address is None:
        return ClientState.TAKING
    return ClientState.CLOSING if report.get("state") == "closing" else ClientState.SERVING


@dataclass(frozen=True)
class Use:
    """What is left of a list, or held of a memory, of how much; and by how much that falls, or grows, in a second."""

    now: int | None
    limit: int
    speed: float | None

    @property
    def moves(self) -> bool:
        """Whether it is known, and comes nearer to its end."""
        return self.now is not None and self.limit > 0 and self.speed is not None and self.speed > 0


def forecast_of(entries: Use, memory: Use, share: float) -> Forecast:
    """When either is used up to this share, at which the next service is due."""
    due: list[tuple[float, str]] = []
    full = None
    if entries.moves:
        left, fall = entries.now or 0, entries.speed or 1.0
        due.append((max(0.0, left - (1 - share) * entries.limit) / fall, "list"))
        full = left / fall
    if memory.moves:
        due.append(
            (max(0.0, share * memory.limit - (memory.now or 0)) / (memory.speed or 1.0), "memory")
        )
    return (
        Forecast(*min(due), full)
        if due
        else Forecast(is_early=entries.now is not None and entries.speed is None)
    )


def sentence(scene: Scene) -> str:
    """What will happen next, and what is a person's to do."""
    if scene.has_asides:
        return f"PostgreSQL lacks something: `pagelogctl rescue {scene.row.name}` says what. {_next(scene)}"
    return _next(scene)


def _next(scene: Scene) -> str:
    match scene.state:
        case ClientState.NOBODY:
            return _of_nobody(scene)
        case ClientState.SILENT:
            return _of_a_silent_holder(scene)
        case ClientState.TAKING:
            return f"It serves once the service of {scene.row.holder} has all blocks up to {scene.row.base:,}."
        case ClientState.CLOSING:
            return f"{scene.row.holder} archives what is left, and releases it."
    return _of_a_server(scene)


def _of_nobody(scene: Scene) -> str:
    if scene.row.paused:
        return "Nobody takes it until it is resumed."
    if not scene.living:
        return "It waits for a keeper: none is up."
    if scene.row.wanted in scene.living:
        return f"{scene.row.wanted} takes it, as was asked."
    spare = next((spare for spare in scene.spares if spare.lives), None)
    return (
        f"{spare.keeper} takes it, from its standby."
        if spare
        else "A keeper takes it, and fills a fresh service."
    )


def _of_a_silent_holder(scene: Scene) -> str:
    holder, others = scene.row.holder, [
        keeper for keeper in scene.living if keeper != scene.row.holder
    ]
    if scene.row.paused:
        return f"The heartbeat of {holder} stalled; nobody takes it over while it is paused."
    if not others:
        return f"The heartbeat of {holder} stalled, and no other keeper is up."
    spare = next((spare for spare in scene.spares if spare.lives), None)
    return f"The heartbeat of {holder} stalled: {spare.keeper if spare else 'another keeper'} takes it over."


def _of_a_server(scene: Scene) -> str:
    row, forecast = scene.row, scene.forecast
    if row.paused:
        full = (
            f" Its list is full in about {_about(forecast.full_in)}."
            if forecast.full_in is not None
            else ""
        )
        return f"Nobody takes it over or rolls it until it is resumed.{full}"
    if scene.is_succeeding or row.succeed:
        return (
            "A succession is under way: the service of the next generation is made beside this one."
        )
    if row.wanted is not None and forecast.seconds != 0:
        return _of_a_switchover(scene)
    if forecast.seconds is None:
        return (
            "It is too early to foresee its next succession."
            if forecast.is_early
            else "No succession is foreseen."
        )
    when = f"in about {_about(forecast.seconds)}" if forecast.seconds > 0 else "now"
    return f"A succession {when}, by the {forecast.by}."


def _of_a_switchover(scene: Scene) -> str:
    row = scene.row
    to = "another keeper" if row.wanted == "*" else str(row.wanted)
    reached = max(
        (
            spare.reached
            for spare in scene.spares
            if spare.lives and row.wanted in (spare.keeper, "*")
        ),
        default=None,
    )
    if reached is None:
        return f"A switchover to {to} waits for its standby."
    lacks = row.archived - reached
    return (
        f"A switchover to {to} begins."
        if lacks <= NEAR
        else f"A switchover to {to} waits: its standby lacks {lacks:,} blocks."
    )


def _about(seconds: float) -> str:
    return (
        f"{seconds / 60:.0f} min"
        if 120 <= seconds < 7200
        else duration(seconds).replace(".0 ", " ")
    )
