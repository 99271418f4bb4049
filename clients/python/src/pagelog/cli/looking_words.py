"""status, and what it has in common with top and metrics."""

from __future__ import annotations

import json
import sys
import time
from contextlib import ExitStack
from typing import Any

import click

from pagelog.audit_list import MOST_ENTRIES
from pagelog.connection import Connection
from pagelog.credentials import Accounts
from pagelog.times import duration
from pagelog.cli.options import (
    AGAIN,
    FAULT,
    LIST_FULL,
    credentials_option,
    faults,
    json_option,
    status_of,
    timeout,
)
from pagelog.cli.watch import WatchedLook, Watch
from pagelog.errors import PagelogError
from pagelog.operator import Operator
from pagelog.reader import Reader
from pagelog.request import Role

dbs_option = click.option(
    "--db",
    "dbs",
    multiple=True,
    default=(0,),
    show_default=True,
    metavar="N",
    type=click.IntRange(0, 15),
    help="The number of a database; may be given more than once.",
)
limit_option = click.option(
    "--audit",
    "limit",
    metavar="N",
    type=click.IntRange(1, MOST_ENTRIES),
    help="How many entries an audit list "
    f"holds, as given to `serve`. [default: audit of [service] in the credentials, or {MOST_ENTRIES}]",
)


def watch_of(
    accounts: Accounts, db: int, limit: int | None, stack: ExitStack, seconds: float, **options: Any
) -> Watch:
    """A watch of one database, with a reader where there is a [secondary], whose requests may take so many seconds."""
    clients: dict[Role, Any] = {}
    for kind in (Operator, Reader):
        if kind is Operator or kind.role in accounts.of_role:
            account = accounts.account(kind.role)
            connection = Connection(
                account.to,
                timeout=seconds,
                attempts=1,
                reply_timeout=2 * seconds,
                trust=account.trust,
            )
            clients[kind.role] = stack.enter_context(kind(connection, account.credentials, db))
    return Watch(
        clients[Role.OPERATOR],
        reader=clients.get(Role.SECONDARY),
        limit=limit or accounts.audit_limit or MOST_ENTRIES,
        **options,
    )


@click.command("status")
@credentials_option
@dbs_option
@limit_option
@json_option
@click.option(
    "--seconds",
    default=0.5,
    show_default=True,
    type=click.FloatRange(0),
    metavar="S",
    help="How long rates are measured.",
)
@faults
def status_word(
    accounts: Accounts, dbs: tuple[int, ...], limit: int | None, as_json: bool, seconds: float
) -> None:
    """Show epoch, primary and hardened end of databases, and when their audit lists are full. Needs [operator].

    The rate is of what others ask. No reply says how long a list may be: the line says what that is known from. Exit status 3
    where a database does not answer, 4 where a list is full, 1 where there is no such database. It costs each some 30
    entries of its audit list, by which the end of the list is found.

    \b
    Example:
      pagelogctl status --credentials c.toml --db 0 --db 1
    """
    statuses = {0}
    known_from = (
        "--audit"
        if limit
        else "[service] audit"
        if accounts.audit_limit
        else "the most there may be: say --audit"
    )
    for db in dbs:
        with ExitStack() as stack:
            try:
                watch = watch_of(accounts, db, limit, stack, timeout())
                watch.look()
                time.sleep(seconds)
                look = watch.look()
            except PagelogError as error:
                statuses.add(status_of(error))
                click.echo(
                    json.dumps({"db": db, "error": f"{type(error).__name__}: {error}"})
                    if as_json
                    else f"db {db}: {error}"
                )
                continue
        click.echo(
            json.dumps(_fields(db, look, known_from))
            if as_json
            else _status_line(db, look, known_from)
        )
    # What a person has to look at goes before what may pass by itself.
    sys.exit(next(status for status in (FAULT, LIST_FULL, AGAIN, 0) if status in statuses))


def _fields(db: int, look: WatchedLook, known_from: str) -> dict[str, object]:
    return {
        "db": db,
        "epoch": look.state.epoch,
        "primary": look.state.primary,
        "hard": look.state.hard,
        "pending": look.state.pending,
        "landing": look.state.landing,
        "audit_entries": look.entries,
        "audit_limit": look.limit,
        "audit_limit_from": known_from,
        "requests_a_second": look.requests_rate,
        "full_in_seconds": look.full_in,
    }


def _status_line(db: int, look: WatchedLook, known_from: str) -> str:
    wrong = (
        "; THE LIST IS LONGER THAN THAT, SO THE LIMIT IS WRONG" if look.entries > look.limit else ""
    )
    return (
        f"db {db}: epoch {look.state.epoch}, primary {look.state.primary}, {look.state.hard} blocks hardened; audit list "
        f"{look.entries} of {look.limit} ({look.used:.1%}; {known_from}), full in {duration(look.full_in)} at "
        f"{look.requests_rate or 0:.1f} requests a second{wrong}"
    )
