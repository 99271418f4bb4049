"""grants."""

from __future__ import annotations

import click

from pagelog.cli.options import WRONG, fail
from pagelog.keeper.grants import Roles, grants


@click.command("grants")
@click.option(
    "--creates",
    default=Roles.creates,
    show_default=True,
    metavar="ROLE",
    help="Owns the tables: create, drop, restore, rescue --as.",
)
@click.option(
    "--keeps",
    default=Roles.keeps,
    show_default=True,
    metavar="ROLE",
    help="Of keepers, and of the words that change what they do.",
)
@click.option(
    "--looks",
    default=Roles.looks,
    show_default=True,
    metavar="ROLE",
    help="Of the console and of kept: it sees no token, secret or page.",
)
def grants_word(creates: str, keeps: str, looks: str) -> None:
    """Print what makes the roles by which keepers run with least privilege, and their tables, as SQL.

    A superuser of PostgreSQL runs it in the keepers' database, and again after each upgrade. Nobody else may connect there then.

    \b
    Example:
      pagelogctl grants | psql -v ON_ERROR_STOP=1 -d pagelog
    """
    if (
        len({creates, keeps, looks}) < 3
        or not all((creates, keeps, looks))
        or any("'" in each or "$" in each for each in (creates, keeps, looks))
    ):
        fail(
            "--creates, --keeps and --looks are three roles, whose names have neither ' nor $",
            WRONG,
        )
    click.echo(grants(Roles(creates, keeps, looks)))
