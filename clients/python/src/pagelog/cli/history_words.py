"""rollover, prune, and restore of a named database."""

from __future__ import annotations

from datetime import datetime

import click

from pagelog.cli.deleting import agree, counted, yes_option
from pagelog.cli.heartbeats import refuse_keepers_without
from pagelog.cli.hold_words import refuse_held
from pagelog.cli.keeper_words import named, referee_of, referee_word, row_in
from pagelog.cli.options import WRONG, credentials_option, fail, faults
from pagelog.credentials import Accounts, keep_of
from pagelog.keeper.history import begin_again, below, extent_of, position_at, spans
from pagelog.keeper.switch import wish_for
from pagelog.referee.bases import Bases
from pagelog.referee.referee import Referee
from pagelog.referee.rows import Row
from pagelog.times import FORMS, in_both_zones, moment


@click.command("rollover")
@click.argument("name")
@referee_word
def rollover_word(referee: Referee, name: str) -> None:
    """Ask the holder of a database for its next generation: a fresh service that begins with images of the pages.

    Writers and readers continue at the same positions.

    \b
    Example:
      pagelogctl rollover shop --credentials keeper.toml
    """
    if not wish_for(referee, named(name)):
        fail(f"there is no database {name}")
    click.echo(f"asked for the next generation of {name}")


@click.command("prune")
@click.argument("name")
@click.option(
    "--keep",
    metavar="N|TIME",
    help="How many bases are kept, or from how far back, as 7d. [default: [archive] keep of the credentials]",
)
@yes_option
@credentials_option
@faults
def prune_word(accounts: Accounts, name: str, keep: str | None, yes: bool) -> None:
    """Delete what of the archive of a database only older positions need: the blocks below the oldest base that is kept.

    It says first which positions go, and asks. Without --keep and without [archive] keep nothing is deleted. A keeper whose file
    says [archive] keep does it by itself, after each new base.

    \b
    Example:
      pagelogctl prune shop --keep 7d --credentials keeper.toml
    """
    wanted = accounts.archive_keep if keep is None else keep_of(keep)
    with referee_of(accounts) as referee:
        row = row_in(referee.everything(), name)
        if wanted is None:
            fail(
                f"nothing was deleted: say how much is kept, by --keep 1, --keep 7d or [archive] keep; {name} has {_archive_of(referee, row)}",
                WRONG,
            )
        refuse_held(referee, row)
        position = Bases(referee, row.id).oldest_to_keep(wanted)
        if position == 0:
            click.echo(f"{name} has no base that is old enough: nothing was pruned")
            return
        if goes := _goes(referee, row, position):
            agree(goes, yes)
        click.echo(
            f"pruned {Bases(referee, row.id).prune(position)} blocks: positions from {position} on are kept"
        )


def _archive_of(referee: Referee, row: Row) -> str:
    has = extent_of(referee, row)
    return f"{has}, and {counted(has.bases, 'base')}"


def _goes(referee: Referee, row: Row, position: int) -> str | None:
    """What pruning up to a base takes away, in sentences; None where that is nothing."""
    has, gone = extent_of(referee, row), below(referee, row, position)
    if not gone.blocks and not gone.bases:
        return None
    deleted = f"{counted(gone.blocks, 'block')} and {counted(gone.bases, 'base')} of {row.name}"
    if has.first < position:
        deleted += (
            f", with positions {has.first} to {position - 1}, from {in_both_zones(has.first_came)} to {in_both_zones(gone.until)}: none of "
            "these can be restored then"
        )
    return (
        f"to be deleted: {deleted}\n"
        f"kept: positions {position} to {has.last}, from {in_both_zones(gone.came)} to {in_both_zones(has.last_came)}"
    )


def restore_named(accounts: Accounts, name: str, at: str, to: str | None) -> None:
    """Begins a read-only database with what another one was at a position or a time."""
    when = position_or_time(at)
    with referee_of(accounts) as referee:
        row = row_in(referee.everything(), name)
        position = position_at(referee, row, when)
        made = named(to or f"{name}-{position}")
        if isinstance(when, datetime):
            click.echo(f"at {in_both_zones(when)} {name} was archived up to position {position}")
        refuse_keepers_without(referee)
        if not begin_again(referee, row, position, made):
            fail(f"there is a database {made}, or was one")
        click.echo(f"{made} is {name} at position {position}, for readers")


def position_or_time(at: str) -> int | datetime:
    """What --at says. A time without a zone is one of this machine's."""
    if at.isdecimal() and len(at) < 20:
        return int(at)
    try:
        found = moment(at, None, datetime.now())
        in_both_zones(found)  # at an end of the calendar there is no such time in one of them
        return found
    except (ValueError, OverflowError):
        fail(f"{at!r} is neither a position nor a time as {FORMS}")


def columns_of(referee: Referee) -> dict[int, dict[str, int | None]]:
    """What `list` shows of the archive of each database."""
    return {
        log: {
            "oldest": span.oldest,
            "base": span.base,
            "bases": span.bases,
            "stored": span.stored,
            "held": span.is_held,
        }
        for log, span in spans(referee).items()
    }
