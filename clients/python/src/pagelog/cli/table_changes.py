"""The newest table of a named database: set by one statement, and followed until no keeper that is alive serves an older one."""

from __future__ import annotations

import time
from dataclasses import dataclass
from typing import Any, Callable

import click

from pagelog.cli.heartbeats import Heartbeats, refuse_keepers_without
from pagelog.cli.options import AGAIN, fail
from pagelog.errors import TableError
from pagelog.keeper.aside import asides_of
from pagelog.keeper.table import Form, read_table, table_of_run
from pagelog.referee.referee import Away, Doubt, Referee
from pagelog.referee.rows import Look, Row
from pagelog.referee.schema import CHANNEL, NUMBERS
from pagelog.repeating import Backoff
from pagelog.request import TEXT_SIZE
from pagelog_model.table import Read, read

_UNREPORTED = 3
WITHIN = 300.0
"""Seconds after which a run that still has an older table is ended, though its keeper is alive."""


@dataclass(frozen=True)
class Older:
    """A run with an older table, which a keeper has still, or a page server of this machine. `is_aside`: no keeper ends it."""

    keeper: str
    run: str
    what: str
    is_aside: bool = False
    is_pages: bool = False


def check(text: str) -> None:
    """Raises `TableError` where a service would not take the table: no run could begin with it."""
    read_table(text)
    check_of_service(table_of_run(text, b"", "name", "run", Form.OPEN))


def check_of_service(text: str) -> None:
    """Raises `TableError` where the service would not take this very text."""
    found = read(text.encode())
    if not isinstance(found, Read):
        raise TableError(f"fault {found} of docs/TABLES.md: no service takes this table")
    if len(text.encode()) > TEXT_SIZE:
        raise TableError(f"a table has at most {TEXT_SIZE} bytes")


class TableChange:
    """Of the table of one database, by its name. `within` is for how long its keepers may take."""

    def __init__(self, referee: Referee, row: Row, ttl: float, within: float) -> None:
        self._referee, self._row, self._ttl = referee, row, ttl
        self._beats = Heartbeats(ttl)
        self._ends = time.monotonic() + within
        self._held: dict[str, Older] = {}
        """The runs with an older table that were seen to hold it."""
        self._over: dict[str, tuple[str, int]] = {}
        """Those of them that hold it no more, and what the life and the heartbeat of their keepers were when that was seen first."""

    def set(self, made: Callable[[str], str]) -> int:
        """Makes another table of the newest one, and returns its number; where that is the same, it is not set again. Ends where an
        older keeper lives: it would take the database with any table."""
        newest = self._referee.table(self._row.id)
        text = made(newest.text)
        if text == newest.text:
            return newest.number
        check(text)
        self._refuse_older_keepers()
        refuse_keepers_without(self._referee, self._ttl)
        number = self._referee.set_table(self._row, text, newest.number)
        if number is None:
            fail(
                f"nothing was changed: {self._row.name} was dropped, or another has changed its table just now",
                AGAIN,
            )
        click.echo(f"table {number} of {self._row.name} is set", err=True)
        return number

    def _refuse_older_keepers(self) -> None:
        look, waits = self._look(), Backoff(0.02, 0.5)
        while older := [
            each.name
            for each in look.keepers
            if NUMBERS not in each.report and self._beats.may_be_alive(each.name)
        ]:
            if living := [name for name in older if self._beats.has_moved(name)]:
                fail(
                    f"nothing was changed: keeper {living[0]} is of a version that knows no numbers of tables; upgrade it first"
                )
            self._wait(waits)
            look = self._look()

    def carry_out(self) -> list[Older]:
        """Returns once no keeper that is alive has a run with an older table, no such run holds the database, and no page server that is
        alive has one. The runs that keepers have which are not alive, such page servers, and what is quarantined, are returned.
        """
        waits, has_ended = Backoff(0.05, 1.0), False
        while True:
            try:
                look = self._look()
                row = next(
                    (each for each in look.rows if each.id == self._row.id and not each.dropped),
                    None,
                )
                if row is None:
                    fail(f"{self._row.name} was dropped")
                is_late = time.monotonic() >= self._ends
                older = self._older(look, row)
                if (
                    row.run is not None
                    and row.run in self._held
                    and (is_late or not self._beats.may_be_alive(row.holder))
                ):
                    self._end(row)
                    continue
            except (Away, Doubt) as error:
                if time.monotonic() >= self._ends:
                    raise
                click.echo(f"{error}: trying again", err=True)
                self._wait(waits)
                continue
            left = [each for each in older if not each.is_aside and self._is_awaited(each)]
            is_done = not left or (is_late and has_ended)
            if is_done and self._referee.newest_table(row.id) == (row.table_number, row.run):
                return older  # by a statement that writes: an old leader of PostgreSQL has not heard of a change
            if is_late and not has_ended:
                has_ended, self._ends = (
                    True,
                    time.monotonic() + 2 * self._ttl,
                )  # for what was ended just now
            self._wait(waits)

    def _is_awaited(self, each: Older) -> bool:
        return (
            self._beats.may_answer(each.run)
            if each.is_pages
            else self._beats.may_be_alive(each.keeper)
        )

    def _end(self, row: Row) -> None:
        """Ends the run that holds the database, as it is archived: from now on nothing of it becomes durable."""
        if (ended := self._referee.end_run(row)) is not None:
            paused = (
                "; it is paused: nobody takes it until `pagelogctl resume`" if row.paused else ""
            )
            click.echo(
                f"generation {row.generation} of keeper {row.holder}, which has an older table, was ended at position {ended.archived}{paused}",
                err=True,
            )

    def _look(self) -> Look:
        self._referee._ask(f"SELECT pg_notify('{CHANNEL}', '')")  # all keepers look now
        look = self._referee.everything()
        self._beats.see(look)
        return look

    def _wait(self, waits: Backoff) -> None:
        time.sleep(waits.next())

    def _older(self, look: Look, row: Row) -> list[Older]:
        """The runs with an older table, as PostgreSQL and the keepers' last reports have it."""
        if row.run is not None and row.run_table < row.table_number:
            self._held[row.run] = Older(row.holder or "", row.run, f"generation {row.generation}")
        found = {
            run: each
            for run, each in self._held.items()
            if run == row.run or not self._was_reported_since(look, each)
        }
        for standby in look.standbys_of(row.id):
            if standby.table_number < row.table_number:
                found[standby.run] = Older(standby.keeper, standby.run, "a standby")
        for keeper in look.keepers:
            said: dict[str, Any] = keeper.report.get(row.name, {})
            runs = (
                [said["run"]]
                if said.get("run") is not None and said.get("table", 1) < row.table_number
                else []
            )
            for run in (*runs, *said.get("leaving", ())):
                found.setdefault(run, Older(keeper.name, run, "a service"))
        for aside in asides_of(look):
            if (
                aside["name"] == row.name
                and aside.get("kept", True)
                and not self._has_newest(row, aside["run"])
            ):
                found[aside["run"]] = Older(
                    aside["keeper"], aside["run"], "a service that is quarantined", is_aside=True
                )
        for pages in look.pages_of(row.id):
            if pages.table_number < row.table_number and not pages.has_ended:
                found[pages.run] = Older(pages.machine, pages.run, "a page server", is_pages=True)
        return list(found.values())

    def _was_reported_since(self, look: Look, each: Older) -> bool:
        """Whether its keeper has reported what it has since that run holds the database no more: a report says nothing of what came later.
        The first looks of a new life report nothing."""
        keeper = look.keeper(each.keeper)
        if keeper is None:
            return False
        life, beat = self._over.setdefault(each.run, (keeper.run, keeper.beat))
        return keeper.beat > beat + (0 if keeper.run == life else _UNREPORTED)

    def _has_newest(self, row: Row, run: str) -> bool:
        known = self._referee._ask(
            "SELECT table_number FROM pagelog_generation WHERE log = %s AND run = %s", (row.id, run)
        )
        return bool(known) and known[0][0] >= row.table_number


def say(name: str, number: int, older: list[Older]) -> None:
    """Says what came of it, and ends with the status of that."""
    if not older:
        return click.echo(f"table {number} of {name} is in force")
    services = sum(not each.is_pages for each in older)
    count = " and ".join(
        f"{count} of its {what}"
        for count, what in ((services, "services"), (len(older) - services, "page servers"))
        if count
    )
    click.echo(f"table {number} of {name} is in force, but at {count}:")
    for each in older:
        if each.is_pages:
            click.echo(
                f"page server {each.run} at {each.keeper} does not answer: it takes the table once it is there again; gone for good: "
                f"`pagelogctl forget {each.run}`"
            )
            continue
        how = (
            f"`pagelogctl rescue {name}` saves and ends it"
            if each.is_aside
            else "its keeper does not answer, or cannot end it: it, or the next one of its name in its folder, ends it"
        )
        click.echo(
            f"run {each.run} of keeper {each.keeper}, {each.what}: nothing of it becomes durable; {how}"
        )
    fail("old tokens may be good there still", AGAIN)
