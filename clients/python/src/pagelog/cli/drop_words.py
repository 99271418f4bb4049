"""drop."""

from __future__ import annotations

from datetime import datetime, timezone

import click
from click.core import ParameterSource

from pagelog.archive import Archive
from pagelog.archive.care import KeptLog, drop, logs_of
from pagelog.cli.deleting import agree, counted, yes_option
from pagelog.cli.hold_words import refuse_held
from pagelog.cli.keeper_words import facts_of, named, referee_of
from pagelog.cli.options import credentials_option, fail, faults, url_of, url_options
from pagelog.credentials import Accounts
from pagelog.keeper.history import extent_of
from pagelog.referee.referee import Referee
from pagelog.referee.rows import Look, Row
from pagelog.times import in_both_zones

_IDENTITY = "SELECT to_jsonb(l) ->> 'identity' FROM pagelog_log l WHERE id = %s"
_LEFT = """
WITH old AS (SELECT id FROM pagelog_log WHERE dropped AND name = %s || '!' || id)
SELECT (SELECT count(*) FROM pagelog_block WHERE log IN (SELECT id FROM old)), (SELECT count(*) FROM pagelog_image WHERE log IN (SELECT id FROM old)),
  (SELECT count(*) FROM pagelog_base WHERE log IN (SELECT id FROM old)), (SELECT count(*) FROM pagelog_table WHERE log IN (SELECT id FROM old)),
  (SELECT count(*) FROM pagelog_object WHERE log IN (SELECT id FROM old)) + (SELECT count(*) FROM pagelog_pack WHERE log IN (SELECT id FROM old))
"""


@click.command("drop")
@credentials_option
@url_options
@click.argument("name", required=False)
@yes_option
@faults
def drop_word(
    accounts: Accounts, url: str | None, log: str | None, name: str | None, yes: bool
) -> None:
    """Remove a named database for good, or with --log and without a NAME a log of an archive. Needs no service.

    It says first what goes: positions or LSNs, their times as far as they are known, who holds it; and asks.

    \b
    Example:
      pagelogctl drop shop --credentials keeper.toml
      pagelogctl drop --url sqlite:///db0.db --log 0
    """
    if name is None:
        _drop_log(accounts, url, log, yes)
    elif (
        log is not None
        or click.get_current_context().get_parameter_source("url") is ParameterSource.COMMANDLINE
    ):
        raise click.UsageError("a NAME is a named database: it has neither --url nor --log")
    else:
        with referee_of(accounts) as referee:
            _drop_named(referee, named(name), yes)


# A named database.


def _drop_named(referee: Referee, name: str, yes: bool) -> None:
    look = referee.everything()
    row = look.row(name)
    if row is not None:
        refuse_held(referee, row)
    agree(
        "to be deleted: "
        + (_left_of(referee, name) if row is None else _named(referee, look, row)),
        yes,
    )
    now = referee.everything().row(name)
    if (now and now.id) != (row and row.id):
        fail(f"nothing was deleted: {name} is {'another database' if now else 'gone'} by now")
    if not referee.drop(name) and row is not None:
        refuse_held(referee, row)
    click.echo(f"dropped {name}")


def _left_of(referee: Referee, name: str) -> str:
    """What is left where a drop was broken off. Ends where that is nothing."""
    [counts] = referee._ask(_LEFT, (name,))
    if not any(counts):
        fail(f"there is no database {name}")
    blocks, images, bases, tables, objects = counts
    left = [
        counted(blocks, "block"),
        counted(images, "image"),
        counted(bases, "base"),
        counted(tables, "table"),
    ]
    left += [counted(objects, "stored object")] if objects else []
    return f"what is left of {name}, whose drop was broken off: {', '.join(left)}"


def _named(referee: Referee, look: Look, row: Row) -> str:
    has, lag = extent_of(referee, row), facts_of(look, row)["lag"]
    [[identity]] = referee._ask(_IDENTITY, (row.id,))
    more = f", and {counted(lag, 'position')} behind them that only its service has" if lag else ""
    return (
        f"database {row.name}{f', identity {identity}' if identity else ''}, with its table\n  {has}{more}; {counted(has.bases, 'base')}\n"
        f"  {_holder(look, row)}\n  {_trail_of(referee, row)}"
    )


def _holder(look: Look, row: Row) -> str:
    standbys = ", ".join(sorted(each.keeper for each in look.standbys_of(row.id)))
    held = (
        f"held by {row.holder} at {row.address or 'no address yet'}, generation {row.generation}"
        if row.holder
        else "held by no keeper"
    )
    return f"{held}; standbys: {standbys}" if standbys else held


def _trail_of(referee: Referee, row: Row) -> str:
    count = 0
    if referee._ask("SELECT to_regclass('pagelog_trail_list') IS NOT NULL") == [(True,)]:
        [[count]] = referee._ask(
            "SELECT count(*) FROM pagelog_trail_list WHERE log = %s", (row.name,)
        )
    return (
        f"its trail of {counted(count, 'list')} is not deleted: it is kept as {row.name}!{row.id}"
        if count
        else "it has no trail"
    )


# A log of an archive.


def _drop_log(accounts: Accounts, url: str | None, log: str | None, yes: bool) -> None:
    if log is None:
        raise click.UsageError("which log? --log NAME; `logs` lists them")
    where = url_of(url, accounts)
    with Archive(where, log) as archive:
        found = next(each for each in logs_of(where) if each.name == log)
        agree(
            f"to be deleted: log {log} of {archive.shown}\n  {_extent(found)}\n  {_trail_beside(where, log)}",
            yes,
        )
        click.echo(f"dropped {drop(archive)} blocks of log {log}")


def _extent(found: KeptLog) -> str:
    lsns = f"LSN 1 to {found.archived}" if found.archived else "no LSN"
    return f"{lsns}: {counted(found.blocks, 'block')} of {found.bytes} bytes, highest epoch {found.epoch}"


def _trail_beside(url: str, log: str) -> str:
    """An archive has no times: its trail has, if there is one."""
    from pagelog.trail.store import NoTrail, Trail

    try:
        with Trail(url, log) as trail:
            lists = trail.lists()
    except NoTrail:
        return "it has no trail, and so no times"
    seen = datetime.fromtimestamp(max(each.seen for each in lists) / 1e6, timezone.utc)
    return f"the seals of its trail; the trail itself is kept: {counted(len(lists), 'list')}, the last line seen at {in_both_zones(seen)}"
