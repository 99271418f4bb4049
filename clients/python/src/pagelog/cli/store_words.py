"""store: checks a store, copies a database in it, brings one forward, and deletes what nothing names any more."""

from __future__ import annotations

import json
import time
from dataclasses import asdict
from functools import partial
from pathlib import Path
from typing import TYPE_CHECKING

import click

from pagelog.cli.deleting import agree, counted, yes_option
from pagelog.cli.forward_words import forward_word
from pagelog.cli.keeper_words import Asked, referee_of, row_in, text_of_table
from pagelog.cli.options import bar, credentials_option, fail, faults, settings_of
from pagelog.credentials import Accounts
from pagelog.times import in_both_zones

if TYPE_CHECKING:
    from pagelog.store.rescuing import Rescued


_KINDS = {"blocks": "object", "images": "pack", "bases": "manifest"}


@click.group("store")
def store_word() -> None:
    """The object store in which blocks of named databases lie, by `store` of [archive].

    \b
    Example:
      pagelogctl store check s3://company-pagelog/prod
    """


store_word.add_command(forward_word)


@store_word.command("check")
@credentials_option
@click.argument("url", required=False)
@faults
def check_word(accounts: Accounts, url: str | None) -> None:
    """Say what a store does: it puts small objects under `pagelog-check`, reads, lists and deletes them.

    \b
    Example:
      pagelogctl store check s3://company-pagelog/prod --credentials keeper.toml
    """
    from pagelog.store.checking import checked

    is_good = True
    for found in checked(settings_of(accounts, url)):
        click.echo(f"{found.what}: {found.said}")
        is_good &= found.is_good
    if not is_good:
        fail("the store does not do what is needed")


@store_word.command("copy")
@credentials_option
@click.argument("name")
@click.option("--to", required=True, metavar="URL", help="The other store.")
@faults
def copy_word(accounts: Accounts, name: str, to: str) -> None:
    """Copy the objects of a database to another store, each compared with its row; what is there already is left. Cut off, run it again.

    \b
    Example:
      pagelogctl store copy shop --to s3://elsewhere/prod --credentials keeper.toml
    """
    from pagelog.store.copying import copy

    with referee_of(accounts) as referee, bar("copied") as told:
        row = row_in(referee.everything(), name)
        done = copy(referee, row.id, settings_of(accounts), settings_of(accounts, to), told)
    click.echo(
        f"copied {counted(done.copied, 'object')}, {done.bytes} bytes; {done.there} were there"
    )


@store_word.command("prune")
@yes_option
@credentials_option
@faults
def prune_word(accounts: Accounts, yes: bool) -> None:
    """Delete the objects that nothing has named for [store] grace: what `prune` and `drop` left. It says first what goes, and asks. It needs a
    key that may delete, which the keepers' need not: that of `profile` of [store], or of AWS_PROFILE where the file names none. What PostgreSQL
    does not know at all, and what is of a database that is held, is left alone.

    \b
    Example: (with a copy of keeper.toml in which `profile` is another)
      pagelogctl store prune --credentials admin.toml
    """
    from pagelog.objects.place import store_of
    from pagelog.referee import object_statements as tables
    from pagelog.store.sweeping import sweep

    settings = settings_of(accounts)
    with referee_of(accounts) as referee:
        goes = [
            f"{counted(count, _KINDS.get(kind, 'object'))} of {folder}, named by nothing since {in_both_zones(since)}"
            for folder, kind, count, since in referee._ask(tables.GOES, {"grace": settings.grace})
        ]
        if goes:
            agree("to be deleted: " + "\n               ".join(goes), yes)
        click.echo(
            f"deleted {counted(sweep(referee, store_of(settings), settings.grace), 'object')}"
        )


def verify_stored(accounts: Accounts, name: str, days: int, as_json: bool) -> None:
    """Reads all objects of a database, or today's, of so many days."""
    from pagelog.store.copying import part_of_day, verify

    is_read = partial(part_of_day, days=days, day=int(time.time() // 86_400))
    with referee_of(accounts) as referee, bar("verified") as told:
        row = row_in(referee.everything(), name)
        done = verify(referee, row.id, settings_of(accounts), told, is_read)
    click.echo(
        json.dumps(asdict(done))
        if as_json
        else f"sound: {counted(done.objects, 'object')}, {counted(done.blocks, 'block')}, "
        f"{counted(done.images, 'image')}"
    )


def rescue_stored(
    accounts: Accounts, name: str, url: str, into: str | None, table: Path, folder: str | None
) -> None:
    """Writes a database into a PostgreSQL that has none of the name."""
    from pagelog.objects.place import store_of
    from pagelog.store.rescuing import rescue

    text = text_of_table(table, name)
    with referee_of(accounts, Asked, into) as referee:
        _say_rescued(
            name, rescue(store_of(settings_of(accounts, url)), referee, name, text, folder)
        )


def _say_rescued(name: str, done: Rescued) -> None:
    history = done.history
    for parted, other in done.others:
        click.echo(
            f"another history parts after position {parted}, and ends at {other.last} in generation {other.generation}: it is left out, and stays "
            "in the store"
        )
    objects = f"{counted(len(history.parts), 'object')} and {counted(done.bases, 'base')}"
    click.echo(
        f"{name}: positions {history.start or 1} to {history.last} in {objects}, up to {in_both_zones(done.until)}; its generations continue "
        f"above {done.generation}\nlost: what was archived after that; its tokens are those of the table"
    )
