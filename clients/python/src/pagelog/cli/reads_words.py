"""reads."""

from __future__ import annotations

import time
from datetime import datetime

import click

from pagelog.cli.heartbeats import Heartbeats, ttl_of
from pagelog.cli.keeper_words import Asked, referee_of, row_in
from pagelog.cli.options import AGAIN, credentials_option, fail, faults
from pagelog.credentials import Accounts
from pagelog.pages.reads import (
    audit_reads,
    audited_since,
    let_page_servers_answer,
    still_audited,
)
from pagelog.referee.referee import Away, Doubt, Referee
from pagelog.referee.rows import PagesRow, Row
from pagelog.repeating import Backoff
from pagelog.times import in_both_zones

_WITHIN = 30.0


@click.command("reads")
@click.argument("name")
@click.option(
    "--audited/--unaudited",
    "wants_audit",
    default=None,
    help="Whether services alone answer, which have an entry for each read, or page servers too, which have none.",
)
@click.option(
    "--within",
    default=_WITHIN,
    show_default=True,
    type=click.FloatRange(0),
    metavar="SECONDS",
    help="How long page servers may take that are alive.",
)
@credentials_option
@faults
def reads_word(accounts: Accounts, name: str, wants_audit: bool | None, within: float) -> None:
    """Have each read of a named database in the audit list of a service, or let page servers answer again; or say which holds.

    With --audited its page servers follow, and answer nobody. It ends once that is so, and names with exit status 3 those that may still
    answer, as they do not reach PostgreSQL, or are of a version of before this word. Readers go to services by themselves, but those that
    ask page servers alone.

    \b
    Examples:
      pagelogctl reads shop --credentials keeper.toml
      pagelogctl reads shop --audited --credentials keeper.toml
      pagelogctl reads shop --unaudited --credentials keeper.toml
    """
    with referee_of(accounts, Asked) as referee:
        row = row_in(referee.everything(), name)
        if wants_audit is False:
            _let(let_page_servers_answer(referee, row), row)
            return click.echo(f"page servers of {name} may answer, without an entry for a read")
        if wants_audit:
            _let(audit_reads(referee, row) is not None, row)
        elif audited_since(referee, row) is None:
            return click.echo(f"page servers of {name} may answer, without an entry for a read")
        _say(row, *Closing(referee, row, ttl_of(accounts), within if wants_audit else 0.0).wait())


class Closing:
    """Of the page servers of a database whose reads are audited."""

    def __init__(self, referee: Referee, row: Row, ttl: float, within: float) -> None:
        self._referee, self._row = referee, row
        self._beats = Heartbeats(ttl)
        self._ends = time.monotonic() + within

    def wait(self) -> tuple[datetime, list[PagesRow]]:
        """Returns once all have said that they answer nobody, but those that have said nothing for some seconds, or nothing of that in time.
        These are returned, and since when reads are audited. Ends where they are not any more."""
        waits = Backoff(0.05, 0.5)
        while True:
            is_late = time.monotonic() >= self._ends
            try:
                look = self._referee.everything()
                self._beats.see(look)
                left = [each for each in look.pages_of(self._row.id) if not each.has_ended]
                is_done = is_late or not any(self._beats.may_answer(each.run) for each in left)
                if is_done:
                    return self._since(), left
            except (Away, Doubt) as error:
                if is_late:
                    raise
                click.echo(f"{error}: trying again", err=True)
            time.sleep(waits.next())

    def _since(self) -> datetime:
        since = still_audited(self._referee, self._row)
        if since is None:
            fail(f"another has let page servers of {self._row.name} answer, or dropped it", AGAIN)
        return since


def _let(is_done: bool, row: Row) -> None:
    if not is_done:
        fail(f"{row.name} was dropped by now")


def _say(row: Row, since: datetime, left: list[PagesRow]) -> None:
    """Says since when, and who may still answer. Ends with the status of that."""
    said = (
        f"each read of {row.name} is in the audit list of a service, since {in_both_zones(since)}"
    )
    if not left:
        return click.echo(said)
    click.echo(f"{said}, but at {len(left)} of its page servers:")
    for each in left:
        click.echo(
            f"page server {each.run} at {each.machine}, {each.address}, heard {each.silent:.0f} s ago: it may answer until it reaches PostgreSQL, "
            f"or is ended, or upgraded where it is of before this word; gone for good: `pagelogctl forget {each.run}`"
        )
    fail("reads there may be in no audit list", AGAIN)
