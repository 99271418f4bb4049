"""switchover."""

from __future__ import annotations

import click

from pagelog.cli.heartbeats import is_alive, ttl_of
from pagelog.cli.keeper_words import Asked, referee_of, row_in
from pagelog.cli.list_words import whom
from pagelog.cli.options import AGAIN, credentials_option, fail, faults
from pagelog.credentials import Accounts
from pagelog.referee.referee import Referee
from pagelog.referee.rows import Look, Row

ANY = "*"
"""The wish for any other keeper."""


@click.command("switchover")
@click.argument("name")
@click.option(
    "--to",
    "keeper",
    default=ANY,
    metavar="K",
    help="The keeper that is to have it. [default: any other]",
)
@click.option(
    "--cancel", is_flag=True, help="Take back a switchover that was asked for and has not begun."
)
@credentials_option
@faults
def switchover_word(accounts: Accounts, name: str, keeper: str, cancel: bool) -> None:
    """Ask for a database to be handed over, with nothing lost. The target makes a standby first, if it has none.

    Refused where no other keeper is alive. `list` shows what was asked for, until it is done or cancelled.

    \b
    Examples:
      pagelogctl switchover shop --to b --credentials keeper.toml
      pagelogctl switchover shop --cancel --credentials keeper.toml
    """
    if cancel and keeper != ANY:
        raise click.UsageError(
            "--cancel takes back what was asked for, whoever was to have it: it has no --to"
        )
    with referee_of(accounts, Asked) as referee:
        look = referee.everything()
        row = row_in(look, name)
        if cancel:
            click.echo(_cancel(referee, row))
        else:
            click.echo(_ask(referee, look, row, keeper, ttl_of(accounts)))


def _cancel(referee: Referee, row: Row) -> str:
    if row.wanted is None:
        return f"no switchover of {row.name} is asked for: nothing was cancelled"
    if not referee.wish(row.name, None, instead_of=row.wanted):
        return f"the switchover of {row.name} to {whom(row.wanted)} is over, or another was asked for: nothing was cancelled"
    return f"cancelled the switchover of {row.name} to {whom(row.wanted)}"


def _ask(referee: Referee, look: Look, row: Row, keeper: str, ttl: float) -> str:
    if keeper != ANY and look.keeper(keeper) is None:
        fail(f"there is no keeper {keeper}")
    if keeper == row.holder:
        return f"{keeper} holds {row.name} already: nothing was asked for"
    others = {
        each.name for each in look.keepers if each.name != row.holder and keeper in (ANY, each.name)
    }
    stays = f"{row.name} stays with {row.holder or 'no keeper'}"
    if not others:
        fail(f"{stays}: there is no other keeper")
    if not is_alive(referee, look, others, ttl):
        fail(f"{stays}: no heartbeat came in {ttl:g} s from {', '.join(sorted(others))}", AGAIN)
    if not referee.wish(row.name, keeper):
        fail(f"there is no database {row.name}")
    return f"asked for {row.name} to go to {whom(keeper)}{', which waits until it is resumed: it is paused' if row.paused else ''}"
