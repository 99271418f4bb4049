"""What subcommands that delete have in common: each says first what goes, and asks."""

from __future__ import annotations

import sys

import click

from pagelog.cli.options import WRONG, fail

yes_option = click.option(
    "--yes", "--force", "yes", is_flag=True, help="Say what is deleted, and do not ask."
)


def agree(what: str, yes: bool, question: str = "delete it") -> None:
    """Says what goes, and returns where that is agreed to. Ends where it is not, and where there is no terminal to ask at."""
    click.echo(what, err=True)
    if yes:
        return
    if not sys.stdin.isatty():
        fail(
            "nothing was done: there is no terminal to ask at; --yes does it without a question",
            WRONG,
        )
    click.confirm(question, abort=True, err=True)


def counted(count: int, what: str) -> str:
    """As `1 base`, `2 bases`."""
    return f"{count} {what}{'s' * (count != 1)}"
