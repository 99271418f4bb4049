"""table."""

from __future__ import annotations

import sys
import tempfile
from pathlib import Path

import click

from pagelog.credentials import Accounts
from pagelog.cli.heartbeats import ttl_of
from pagelog.cli.keeper_words import Asked, referee_of, row_in
from pagelog.cli.options import client, credentials_option, db_option, fail, faults
from pagelog.cli.table_changes import WITHIN, TableChange, check_of_service, say
from pagelog.errors import PagelogError
from pagelog.operator import Operator
from pagelog.table_editing import with_tokens_of, without_tokens

within_option = click.option(
    "--within",
    default=WITHIN,
    show_default=True,
    type=click.FloatRange(0),
    metavar="SECONDS",
    help="How long the keepers may take. Then the run is ended in PostgreSQL: others take the database.",
)


@click.command("table")
@click.argument("name", required=False)
@click.option(
    "--table",
    "file",
    metavar="FILE",
    type=click.Path(path_type=Path),
    help="Put this table in force.",
)
@click.option(
    "--show",
    "shows",
    is_flag=True,
    help="Print the newest table. In place of each token it says `same`.",
)
@click.option("--tokens", is_flag=True, help="With --show: print the tokens too.")
@click.option(
    "--diff",
    metavar="FILE",
    type=click.Path(path_type=Path),
    help="Compare with this table, as `explain --diff` does.",
)
@within_option
@db_option
@credentials_option
@faults
def table_word(
    accounts: Accounts,
    name: str | None,
    file: Path | None,
    shows: bool,
    tokens: bool,
    diff: Path | None,
    within: float,
    db: int,
) -> None:
    """Put another table of a named database in force, show the one that it has, or compare. A principal whose token is `same` keeps
    the one that it has.

    It ends once no keeper and no page server that is alive serves an older table. Its holder makes the next generation, also while it is paused, and
    standbys are made again. From then on nothing is durable by an old token. Exit status 3: a keeper that has a service with an older
    table does not answer; nothing of that becomes durable, and its keeper ends it, or the next one of its name; or a page server does
    not, which may be read by old tokens still. Without an option it waits for the newest table.

    Without a NAME it sets the table of a service by its address, which needs [operator]; --db says which database.

    \b
    Examples:
      pagelogctl table shop --show --credentials keeper.toml
      pagelogctl table shop --diff table.toml --credentials keeper.toml
      pagelogctl table shop --table table.toml --credentials keeper.toml
      pagelogctl table --table table.toml --db 0 --credentials c.toml
    """
    if sum((file is not None, shows, diff is not None)) > 1 or (tokens and not shows):
        raise click.UsageError("--table FILE, --show [--tokens], or --diff FILE")
    if name is None:
        if file is None:
            raise click.UsageError("without a NAME: --table FILE")
        return set_at_service(accounts, db, read_file(file))
    with referee_of(accounts, Asked) as referee:
        row = row_in(referee.everything(), name)
        if shows:
            present = referee.table(row.id).text
            return click.echo(present if tokens else without_tokens(present), nl=False)
        if diff is not None:
            return _compare(referee.table(row.id).text, name, diff)
        text = None if file is None else read_file(file)
        change = TableChange(referee, row, ttl_of(accounts), within)
        number = change.set(
            lambda present: present if text is None else with_tokens_of(text, present)
        )
        say(name, number, change.carry_out())


def read_file(file: Path) -> str:
    """Its text. Ends where it cannot be read."""
    try:
        return file.read_text()
    except (OSError, UnicodeDecodeError) as error:
        fail(f"{file}: {error}")


def set_at_service(accounts: Accounts, db: int, text: str) -> None:
    """Puts a table in force at the service of [operator]."""
    check_of_service(text)
    with client(Operator, accounts, db) as operator:
        operator.set_table(text)
    click.echo(f"set the table of database {db}")


def _compare(present: str, name: str, file: Path) -> None:
    """As `explain --diff`, by a copy of the table that has its name. Ends with the status of that."""
    from pagelog.cli.explain_words import show_differences

    with tempfile.TemporaryDirectory() as folder:
        old, new = Path(folder) / f"{name}.toml", Path(folder) / file.name
        old.touch(mode=0o600)
        old.write_text(present)
        if new == old:
            new = new.with_name(f"new-{file.name}")
        new.touch(mode=0o600)
        new.write_text(with_tokens_of(read_file(file), present))
        try:
            count = show_differences(old, new)
        except PagelogError as error:
            fail(f"{type(error).__name__}: {error}", 2)
    sys.exit(1 if count else 0)
