"""restore and verify."""

from __future__ import annotations

import json
from dataclasses import asdict

import click

from pagelog.archive import Archive
from pagelog.block import HIGHEST_LSN
from pagelog.comparing import Verified, verify
from pagelog.credentials import Accounts
from pagelog.cli.options import (
    bar,
    client,
    credentials_option,
    db_option,
    faults,
    json_option,
    one_service,
    quorum_of,
    quorum_option,
    url_of,
    url_options,
)
from pagelog.operator import Operator
from pagelog.primary import Primary
from pagelog.reader import Reader
from pagelog.restoring import restore, set_real_table
from pagelog.tables import TableText

last_option = click.option(
    "--last",
    metavar="LSN",
    type=click.IntRange(0, HIGHEST_LSN),
    help="Only the blocks up to this one. [default: all]",
)


@click.command("restore")
@credentials_option
@db_option
@url_options
@quorum_option
@last_option
@click.option(
    "--table",
    metavar="FILE",
    type=click.Path(),
    help="The real table, set at the end: the service was started with the one "
    "that `waiting-table` makes, and lets nobody else in before.",
)
@click.argument("name", required=False)
@click.option(
    "--at",
    metavar="POSITION|TIME",
    help="Of a NAME: the position, or the last one that was archived by then.",
)
@click.option(
    "--as",
    "to",
    metavar="NAME",
    help="Of a NAME: the name of what is begun. [default: NAME-POSITION]",
)
@json_option
@faults
def restore_word(
    accounts: Accounts,
    db: int,
    url: str | None,
    log: str | None,
    quorum: str | None,
    last: int | None,
    table: str | None,
    as_json: bool,
    name: str | None,
    at: str | None,
    to: str | None,
) -> None:
    """Fill a fresh database from an archive, LSN for LSN. Needs [primary], [secondary] and [operator], all at one address.

    With a NAME: begin a database for readers under its keepers, with what the named database was at a position or a time.

    First the database's epoch is raised above all that were archived, so that writers of the time before are denied. Nothing is
    overwritten: a database that has anything but the beginning of the archived log is refused. A restore that was broken off
    continues where it was. In the end all blocks are compared, and a sample of pages. With --last what is above that LSN is left
    out, damaged or not; an archiver refuses the database then, until its log has another name.

    \b
    Examples:
      pagelogctl restore --credentials c.toml --db 0 --url sqlite:///db0.db
      pagelogctl restore --credentials restore.toml --db 0 --table table.toml
      pagelogctl restore shop --at 2026-01-31T12:00:00+00:00 --credentials keeper.toml
    """
    if (name is None) != (at is None) or (to is not None and name is None):
        raise click.UsageError("a NAME has --at, and may have --as")
    if name is not None and at is not None:
        from pagelog.cli.history_words import restore_named

        return restore_named(accounts, name, at, to)
    one_service(accounts, Primary, Reader, "both are of the database that is filled")
    one_service(accounts, Primary, Operator, "both are of the database that is filled")
    real = TableText.read(table) if table else None
    with Archive(url_of(url, accounts), log or str(db)) as archive, client(
        Reader, accounts, db
    ) as reader:
        writes = client(Primary, accounts, db, alone=True, quorum=quorum_of(quorum, accounts))
        with writes as primary, client(Operator, accounts, db) as operator, bar("restored") as told:
            done = restore(
                archive,
                primary,
                reader,
                operator=operator,
                last=HIGHEST_LSN if last is None else last,
                told=told,
            )
            if real is not None:
                set_real_table(operator, real.text)
    _tell(
        done,
        as_json,
        f"restored {done.archived}",
        {"table_set": real is not None, "epoch": operator.epoch},
    )


@click.command("verify")
@credentials_option
@db_option
@url_options
@last_option
@click.argument("name", required=False)
@click.option(
    "--store", "in_store", is_flag=True, help="Of a NAME: read all its objects in the store."
)
@click.option(
    "--days",
    type=click.IntRange(1, 1000),
    metavar="N",
    help="With --store: read as many as come on this day, so that on N days all are read.",
)
@click.option(
    "--pages",
    "of_pages",
    is_flag=True,
    help="Of a NAME: compare its page servers, or one with the service; --last is a position.",
)
@click.option(
    "--offline",
    is_flag=True,
    help="Read the archive alone, and ask no service: every block has to be there and sound.",
)
@json_option
@faults
def verify_word(
    accounts: Accounts,
    db: int,
    url: str | None,
    log: str | None,
    last: int | None,
    name: str | None,
    in_store: bool,
    days: int | None,
    of_pages: bool,
    offline: bool,
    as_json: bool,
) -> None:
    """Compare an archive with a database: all archived blocks, and a sample of pages. Needs [secondary].

    With a NAME and --store: read the objects of a named database in the store, and compare each with what PostgreSQL says of it.
    With a NAME and --pages: compare all pages of its page servers with one another, at the newest position that all have; of one alone with
    the service, where each page is an entry of the audit list.

    Exit status 1 at the first difference, with its LSN; or with its page and position, and who has which.

    \b
    Examples:
      pagelogctl verify --credentials c.toml --db 0 --url sqlite:///db0.db
      pagelogctl verify shop --store --days 30 --credentials keeper.toml
      pagelogctl verify shop --pages --credentials keeper.toml
    """
    if in_store + of_pages != (name is not None):
        raise click.UsageError("a NAME has --store or --pages, and these a NAME")
    if days is not None and not in_store:
        raise click.UsageError("--days is of --store")
    if name is not None and of_pages:
        from pagelog.cli.comparing_words import verify_pages

        return verify_pages(accounts, name, last, as_json)
    if name is not None:
        from pagelog.cli.store_words import verify_stored

        return verify_stored(accounts, name, days or 1, as_json)
    upto = HIGHEST_LSN if last is None else last
    with Archive(url_of(url, accounts), log or str(db)) as archive:
        with bar("read") as told:
            sizes = archive.check(upto, told=told)
        if offline:
            text = f"sound: {sizes.blocks} blocks, {sizes.empty} of them empty, {sizes.bytes} bytes"
            click.echo(json.dumps(asdict(sizes)) if as_json else text)
            return
        with client(Reader, accounts, db) as reader, bar("verified") as told:
            done = verify(archive, reader, last=upto, told=told)
    _tell(done, as_json, f"verified {done.archived} of {done.hard}", {})


def _tell(done: Verified, as_json: bool, words: str, more: dict[str, object]) -> None:
    denied = f" ({done.denied_pages} pages are denied by the table)" if done.denied_pages else ""
    text = f"{words}: {done.blocks} blocks and {done.pages} pages are alike{denied}"
    click.echo(json.dumps(asdict(done) | more) if as_json else text)
