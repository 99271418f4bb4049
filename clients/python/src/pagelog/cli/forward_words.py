"""store forward: brings a database forward that went back with PostgreSQL, by what its store has."""

from __future__ import annotations

import time
from typing import TYPE_CHECKING

import click

from pagelog.cli.deleting import agree, counted
from pagelog.cli.heartbeats import Heartbeats, ttl_of
from pagelog.cli.keeper_words import Asked, named, referee_of
from pagelog.cli.options import AGAIN, bar, credentials_option, fail, faults, settings_of
from pagelog.credentials import Accounts
from pagelog.keeper.aside import asides_of
from pagelog.keeper.history import extent_of
from pagelog.referee.referee import Referee
from pagelog.referee.rows import Look, Row
from pagelog.referee.schema import CHANNEL
from pagelog.repeating import Backoff
from pagelog.times import in_both_zones

if TYPE_CHECKING:
    from pagelog.store.forwarding import Ahead


@click.command("forward")
@credentials_option
@click.argument("name")
@click.option("--yes", is_flag=True, help="Say what comes, and do not ask.")
@faults
def forward_word(accounts: Accounts, name: str, yes: bool) -> None:
    """Bring a database forward whose PostgreSQL went back, by what the store has behind it: say so before keepers start.

    It reads all that comes, and compares it with the digest that PostgreSQL has; says it in positions and times; and asks. Nothing is
    overwritten: what does not go on from PostgreSQL's last position stays where it is. It is refused while a keeper holds the database, or
    has a service of it, which may have more.

    \b
    Example:
      pagelogctl store forward shop --credentials keeper.toml
    """
    from pagelog.objects.place import store_of
    from pagelog.store.forwarding import bring, found_ahead

    store = store_of(settings_of(accounts))
    with referee_of(accounts, Asked) as referee:
        silent = _silent(referee, named(name), ttl_of(accounts))
        row = _row(referee.everything(), name)
        with bar("compared") as told:
            ahead = found_ahead(store, referee, row, told)
        if ahead is None:
            click.echo(f"the store has nothing of {name} behind position {row.archived}")
            return
        agree(_said(referee, ahead), yes, "bring it forward")
        generation = bring(store, referee, ahead, silent)
    if generation is None:
        fail(f"nothing was done: {name} has changed, or a keeper came to life: say it again", AGAIN)
    click.echo(
        f"{name} goes on from position {ahead.last}, in generations above {generation}; lost is what was archived after that, and of tables of "
        "principals and trails what PostgreSQL has lost"
    )


def _row(look: Look, name: str) -> Row:
    row = look.row(name)
    if row is None or row.dropped:
        fail(f"there is no database {name}: `pagelogctl rescue --from` makes it again")
    return row


def _silent(referee: Referee, name: str, ttl: float) -> dict[str, int]:
    """The keepers that hold the database, or have a service of it, by what they said last, with their beats, once all of them have been
    silent for long. Ends where one of them lives."""
    beats, waits = Heartbeats(ttl), Backoff(0.02, 0.5)
    referee._ask(f"SELECT pg_notify('{CHANNEL}', '')")
    while True:
        look = referee.everything()
        beats.see(look)
        have = _who_has(look, _row(look, name))
        for keeper, what in have.items():
            if beats.has_moved(keeper):
                fail(f"nothing was done: keeper {keeper} lives, and {what}")
        if not any(beats.may_be_alive(keeper) for keeper in have):
            return {each.name: each.beat for each in look.keepers if each.name in have}
        time.sleep(waits.next())


def _who_has(look: Look, row: Row) -> dict[str, str]:
    """By keeper, what it has of a database."""
    found = {
        each["keeper"]: f"has run {each['run']} of it: `pagelogctl rescue {row.name}`"
        for each in asides_of(look)
        if each.get("database") in (row.identity, "", None) and each["name"] == row.name
    }
    if row.run is not None and row.holder is not None:
        found[row.holder] = f"holds {row.name}: stop it"
    return found


def _said(referee: Referee, ahead: Ahead) -> str:
    row = ahead.row
    lines = [
        f"PostgreSQL has {extent_of(referee, row)} of {row.name}",
        f"to be brought: positions {row.archived + 1} to {ahead.last}, from {in_both_zones(ahead.came)} to {in_both_zones(ahead.until)}, in "
        f"{counted(len(ahead.new), 'object')} and {counted(len(ahead.bases), 'base')}",
    ]
    lines += [
        f"left: another history, which parts after position {parted}, and ends at {other.last} in generation {other.generation}"
        for parted, other in ahead.others
    ]
    return "\n".join(lines)
