"""top."""

from __future__ import annotations

import json
import time
from contextlib import ExitStack
from functools import partial
from typing import TYPE_CHECKING, Any, Callable, Iterator

import click

from pagelog.cli.looking_words import dbs_option, limit_option, watch_of
from pagelog.cli.options import (
    credentials_option,
    faults,
    json_option,
    stopping,
    timeout,
    url_of,
    url_of_referee,
    url_options,
)
from pagelog.cli.side_by_side import Task, look_at_all
from pagelog.cli.watch import WatchedLook, Watch
from pagelog.credentials import Accounts
from pagelog.repeating import sleep
from pagelog.request import Role

if TYPE_CHECKING:
    from rich.console import Console

    from pagelog.cli.top import TopLine
    from pagelog.cli.top_named import NamedDatabases


@click.command("top")
@credentials_option
@dbs_option
@url_options
@limit_option
@click.option(
    "--named",
    is_flag=True,
    help="Show the named databases of [archive] url; standalone ones too where there is an [operator].",
)
@click.option(
    "--interval",
    default=2.0,
    show_default=True,
    type=click.FloatRange(0),
    metavar="SECONDS",
    help="How often to poll.",
)
@click.option(
    "--from-start",
    is_flag=True,
    help="Read the audit list from its beginning, for all denials there were.",
)
@click.option("--count", default=0, metavar="N", help="End after N polls. [default: never]")
@json_option
@faults
def top_word(
    accounts: Accounts,
    dbs: tuple[int, ...],
    url: str | None,
    log: str | None,
    limit: int | None,
    named: bool,
    interval: float,
    from_start: bool,
    count: int,
    as_json: bool,
) -> None:
    """Watch databases live: epoch, primary, hardened end, rates, denials, the archive's lag and the audit list.

    Needs [operator]; with [secondary] applied LSNs are shown, and with --url the lag of the archive. A poll costs two or
    three entries of the audit list. Databases and archives are polled side by side; one that does not answer within
    two seconds is shown so. Where the output is not a terminal, each poll is printed. q ends.

    With --named those of the keepers are shown: generation, holder, archived position and what it lacks, commits a second,
    standbys, and the entries and memory that are left. That costs no entries.

    \b
    Example:
      pagelogctl top --credentials c.toml --db 0 --db 1 --url sqlite:///db0.db
      pagelogctl top --credentials keeper.toml --named
    """
    from rich.console import Console

    with ExitStack() as stack, stopping() as stop:
        plain = named_looks = None
        if not named or Role.OPERATOR in accounts.of_role:
            archive = url_of(url, accounts) if url or (accounts.archive_url and not named) else None
            archived = (
                {db: Task(partial(archived_of, archive, log or str(db))) for db in dbs}
                if archive
                else {}
            )
            plain = Looks(accounts, dbs, limit, stack, from_start, archived)
        if named:
            named_looks = NamedLooks(url_of_referee(accounts), stack)
        console = Console()
        draw = partial(_drawn, plain, named_looks, None if as_json else console)
        for screen in _screens(draw, interval, count, stop, console, as_json):
            if as_json:
                for fields in screen:
                    click.echo(json.dumps(fields))
            elif not console.is_terminal:
                console.print(screen)


def _drawn(plain: Looks | None, named_looks: NamedLooks | None, console: Console | None) -> Any:
    """What one look finds: a page for the console, or without one objects for JSON."""
    from pagelog.cli import top, top_named

    if named_looks is not None:
        named_looks.begin()
    lines = {} if plain is None else plain.lines()
    named = None if named_looks is None else named_looks.found()
    if console is None:
        return [
            *map(_fields_of, lines.values()),
            *(top_named.fields_of(named) if named is not None else ()),
        ]
    tables = [top.table_of(lines, console.width)] if plain is not None else []
    tables += [top_named.table_of(named, console.width)] if named is not None else []
    return top.page(
        "named databases" if plain is None else plain.address, tables, time.strftime("%H:%M:%S")
    )


class Looks:
    """Looks at databases side by side, for at most two seconds, and less than --timeout."""

    def __init__(
        self,
        accounts: Accounts,
        dbs: tuple[int, ...],
        limit: int | None,
        stack: ExitStack,
        from_start: bool,
        archived: dict[int, Task[int]],
    ) -> None:
        self.address = str(accounts.account(Role.OPERATOR).to)
        self._archived = archived
        self._watches: dict[int, Watch] = {}
        self.seconds = min(2.0, timeout())
        seconds = self.seconds

        def look(db: int) -> WatchedLook:
            if db not in self._watches:
                self._watches[db] = watch_of(
                    accounts, db, limit, stack, seconds, from_start=from_start
                )
            return self._watches[db].look()

        self._tasks = {db: Task(partial(look, db)) for db in dbs}

    def lines(self) -> dict[int, TopLine]:
        """Of each database a look, or why there is none, and its archived LSN where an archive answers."""
        from pagelog.cli.top import TopLine

        tasks: list[tuple[tuple[str, int], Task[Any]]] = [
            (("look", db), task) for db, task in self._tasks.items()
        ]
        found = look_at_all(
            [*tasks, *((("archived", db), task) for db, task in self._archived.items())],
            self.seconds,
        )
        lines: dict[int, TopLine] = {}
        for db in self._tasks:
            look, kept = found["look", db], found.get(("archived", db))
            error = f"{type(look).__name__}: {look}" if isinstance(look, Exception) else ""
            lines[db] = TopLine(
                db,
                look if isinstance(look, WatchedLook) else None,
                error,
                kept if isinstance(kept, int) else None,
            )
        return lines


class NamedLooks:
    """Looks at the referee of named databases, beside those at plain ones, and for as long."""

    def __init__(self, url: str, stack: ExitStack) -> None:
        from pagelog.cli.top_named import NamedWatch
        from pagelog.referee.referee import Referee

        self.seconds = min(2.0, timeout())
        referee = Referee(url, patience=2)
        stack.callback(referee.cut)  # a thread may still wait for it
        self._task = Task(NamedWatch(referee).look)

    def begin(self) -> None:
        """Begins a look, whose end `found` waits for."""
        self._task.begin()

    def found(self) -> NamedDatabases:
        """What the look found, or why it did not in time."""
        from pagelog.cli.top_named import NamedDatabases

        try:
            return self._task.result(time.monotonic() + self.seconds)
        except Exception as error:
            return NamedDatabases(error=f"{type(error).__name__}: {error}")


def archived_of(url: str, log: str) -> int:
    """The archived LSN of a log."""
    from pagelog.archive import Archive

    with Archive(url, log) as archive:
        return archive.archived


def _fields_of(line: TopLine) -> dict[str, object]:
    look = line.look
    fields: dict[str, object] = {
        "db": line.database,
        "time": round(time.time(), 3),
        "archived": line.archived,
    }
    if look is None:
        return fields | {"error": line.error}
    return fields | {
        "epoch": look.state.epoch,
        "primary": look.state.primary,
        "hard": look.state.hard,
        "audit_entries": look.entries,
        "audit_limit": look.limit,
        "full_in_seconds": look.full_in,
        "blocks_a_second": look.blocks_rate,
        "reads_a_second": look.reads_rate,
        "requests_a_second": look.requests_rate,
        "denials": look.denials,
        "applied": look.applied,
    }


def _screens(
    draw: Callable[[], Any],
    interval: float,
    count: int,
    stop: Callable[[], bool],
    console: Any,
    as_json: bool,
) -> Iterator[Any]:
    """Draws again and again; on a terminal in place, until q."""
    from rich.live import Live

    from pagelog.cli.keys import pressed_q, raw_keys

    shown = 0
    with ExitStack() as stack:
        live = None
        if console.is_terminal and not as_json:
            stack.enter_context(raw_keys())
            live = stack.enter_context(Live(console=console, screen=True, auto_refresh=False))
        while not stop():
            screen = draw()
            if live is not None:
                live.update(screen, refresh=True)
            yield screen
            shown += 1
            if count and shown >= count:
                return
            if live is None:
                sleep(interval, stop)
            elif pressed_q(interval):
                return
