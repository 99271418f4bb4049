"""audit."""

from __future__ import annotations

import json
import time
from typing import Callable, Iterator

import click

from pagelog.audit_list import AuditFollower
from pagelog.credentials import Accounts
from pagelog.cli.options import (
    NOT_YET,
    client,
    credentials_option,
    db_option,
    faults,
    json_option,
    stopping,
)
from pagelog.errors import ConnectionLost, OutOfMemory, Unreachable
from pagelog.operator import Operator
from pagelog.reply import Entry
from pagelog.request import AUDIT_MAX
from pagelog.rules import UnknownPrincipal


@click.command("audit")
@credentials_option
@db_option
@click.option(
    "--first",
    default=1,
    show_default=True,
    metavar="N",
    help="The number of the first entry; -N for the last N.",
)
@click.option(
    "--follow", is_flag=True, help="Continue with what comes. Each question is an entry too."
)
@click.option(
    "--idle",
    default=1.0,
    show_default=True,
    type=click.FloatRange(0),
    metavar="SECONDS",
    help="How often to ask for more.",
)
@click.option("--denied", is_flag=True, help="Only what was denied.")
@json_option
@faults
def audit_word(
    accounts: Accounts, db: int, first: int, follow: bool, idle: float, denied: bool, as_json: bool
) -> None:
    """Show the audit list of a database. Needs [operator].

    With --follow it outlives a service that is away, or waits for its restore. Where that was restarted it says so on
    standard error, and continues with entry 1 of the new list. In JSON `read` is the time at which the entry was read, in seconds
    since 1970.

    \b
    Examples:
      pagelogctl audit --credentials c.toml --first -20
      pagelogctl audit --credentials c.toml --follow --denied --json
    """
    with client(Operator, accounts, db) as operator, stopping() as stop:
        last = None
        if first < 1:
            # The questions by which the end is found are entries too.
            last = operator.count_of_entries()
            first = max(1, last + 1 + first)
        found = (
            _followed(operator, first, idle, stop) if follow else operator.entries(first, stop=stop)
        )
        for entry in found:
            if last is not None and entry.number > last and not follow:
                return
            if denied and entry.is_allowed:
                continue
            click.echo(
                json.dumps(entry_fields(entry) | {"read": round(time.time(), 3)})
                if as_json
                else entry_line(entry)
            )
            if stop():
                break
        if not follow:
            stop.end()


def _followed(
    operator: Operator, first: int, idle: float, stop: Callable[[], bool]
) -> Iterator[Entry]:
    """The entries from this one on, whatever becomes of the service meanwhile."""
    follower, is_denied = AuditFollower(operator, first), False
    while not stop():
        try:
            found = follower.step()
        except (ConnectionLost, Unreachable, OutOfMemory) as error:
            click.echo(f"pagelogctl: service: {error}; trying again", err=True)
            time.sleep(1)
            continue
        except UnknownPrincipal:
            if not operator.was_let_in:
                raise
            if not is_denied:
                click.echo(f"pagelogctl: {NOT_YET}", err=True)
            is_denied = True
            time.sleep(1)
            continue
        is_denied = False
        if follower.is_new_list:
            click.echo(
                "pagelogctl: the service was restarted, or moved: here its new list begins",
                err=True,
            )
        yield from found
        if len(found) < AUDIT_MAX:
            time.sleep(idle)


def entry_line(entry: Entry) -> str:
    """An entry in the words of `pagelog ask`, with the name of the rule after them."""
    verdict = (
        "allowed" if entry.is_allowed else f"denied {entry.place} value {entry.value} {entry.rule}"
    )
    return (
        f"{entry.number} pass {entry.in_pass} principal {entry.principal} role {entry.role.word} epoch {entry.epoch} op "
        f"{entry.operation.word} a {entry.a} b {entry.b} {verdict}"
    )


def entry_fields(entry: Entry) -> dict[str, object]:
    """An entry as fields of JSON."""
    fields: dict[str, object] = {
        "number": entry.number,
        "pass": entry.in_pass,
        "principal": entry.principal,
        "role": entry.role.word,
        "epoch": entry.epoch,
        "op": entry.operation.word,
        "a": entry.a,
        "b": entry.b,
        "allowed": entry.is_allowed,
    }
    if not entry.is_allowed:
        fields |= {"denied": entry.place, "rule": entry.rule, "value": entry.value}
    return fields
