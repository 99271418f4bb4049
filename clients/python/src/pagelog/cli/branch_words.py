"""branch."""

from __future__ import annotations

from datetime import datetime
from pathlib import Path

import click

from pagelog.cli.history_words import position_or_time
from pagelog.cli.keeper_words import named, referee_word, row_in, text_of_table
from pagelog.cli.options import fail
from pagelog.keeper.branching import branch
from pagelog.keeper.history import position_at
from pagelog.referee.referee import Referee
from pagelog.times import in_both_zones


@click.command("branch")
@click.argument("name")
@click.argument("new")
@click.option(
    "--at",
    metavar="POSITION|TIME",
    help="The position, or the last one that was archived by then. [default: the last one]",
)
@click.option(
    "--table",
    metavar="FILE",
    type=click.Path(path_type=Path),
    help="Its table: who may do what. [default: that of NAME]",
)
@referee_word
def branch_word(referee: Referee, name: str, new: str, at: str | None, table: Path | None) -> None:
    """Make a named database that may be written, and begins with what another one is, or was at a position or a time.

    It has an identity, positions and tokens of its own from there on; neither of the two knows what the other does, and pruning or dropping
    one leaves the other whole. SQLite opens it under its own name. Of what is in a store no byte is copied.

    \b
    Examples:
      pagelogctl branch shop shop-trial --credentials keeper.toml
      pagelogctl branch shop shop-yesterday --at 2026-01-31T12:00 --credentials keeper.toml
    """
    made, when = named(new), None if at is None else position_or_time(at)
    text = None if table is None else text_of_table(table, made)
    row = row_in(referee.everything(), name)
    position = row.archived if when is None else position_at(referee, row, when)
    if isinstance(when, datetime):
        click.echo(f"at {in_both_zones(when)} {name} was archived up to position {position}")
    if not branch(referee, row, position, made, text):
        fail(f"there is a database {made}, or was one")
    click.echo(f"{made} is {name} at position {position}, and may be written")
