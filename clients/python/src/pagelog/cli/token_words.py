"""token."""

from __future__ import annotations

import re
import secrets
import sys
from pathlib import Path
from typing import Callable

import click

from pagelog.credentials import Accounts
from pagelog.cli.heartbeats import ttl_of
from pagelog.cli.keeper_words import Asked, referee_of, row_in
from pagelog.cli.options import credentials_option, db_option, fail, faults
from pagelog.cli.table_changes import TableChange, check_of_service, say
from pagelog.cli.table_words import read_file, set_at_service, within_option
from pagelog.cli.waiting_words import write_private
from pagelog.table_editing import (
    document_of,
    principal_of,
    unused_id,
    with_beside,
    with_token,
    without_principal,
)

_TOKEN = re.compile(r"[0-9A-Fa-f]{32}")
_FORMS = "token NAME ID, or by the address of a service token ID --table FILE"


@click.command("token")
@click.argument("words", nargs=-1, required=True, metavar="[NAME] ID")
@click.option(
    "--new",
    "is_new",
    is_flag=True,
    help="Make a token. It is printed before it is set, so that it is known whatever happens.",
)
@click.option(
    "--to",
    "source",
    metavar="FILE",
    type=click.Path(path_type=Path),
    help="Take the token of this file; - is standard input. "
    "A token is not for the command line, where others see it.",
)
@click.option(
    "--beside",
    is_flag=True,
    help="Leave the principal as it is, and list another with the token, which may do the same: both hold.",
)
@click.option("--revoke", is_flag=True, help="Take the principal and its rows out of the table.")
@click.option(
    "--out",
    metavar="FILE",
    type=click.Path(path_type=Path),
    help="Write id and token to this file, of mode 600. [default: standard output]",
)
@click.option(
    "--table",
    "file",
    metavar="FILE",
    type=click.Path(path_type=Path),
    help="Without a NAME: the table of the service, which is edited and set.",
)
@within_option
@db_option
@credentials_option
@faults
def token_word(
    accounts: Accounts,
    words: tuple[str, ...],
    is_new: bool,
    source: Path | None,
    beside: bool,
    revoke: bool,
    out: Path | None,
    file: Path | None,
    within: float,
    db: int,
) -> None:
    """Give a principal another token, list one beside it that may do the same, or take it out of the table. Who has the old token is
    denied from then on, as `table` says, with its exit status.

    A principal has one token. So --beside lists another principal, behind each row of the first the same for it: clients go over one
    by one, to its id and its token, and then --revoke takes the first one out.

    \b
    Examples:
      pagelogctl token shop 2 --new --credentials keeper.toml
      pagelogctl token shop 2 --new --beside --out new.toml --credentials keeper.toml
      pagelogctl token shop 2 --revoke --credentials keeper.toml
      pagelogctl token 2 --new --table table.toml --db 0 --credentials c.toml
    """
    name, id = _asked(words)
    if sum((is_new, source is not None, revoke)) != 1 or (revoke and beside):
        raise click.UsageError("--new or --to FILE, each also with --beside, or --revoke")
    if (name is None) != (file is not None):
        raise click.UsageError(_FORMS)
    token = "" if revoke else secrets.token_hex(16) if source is None else _read(source)

    def edited(present: str) -> str:
        if revoke:
            return without_principal(present, id)
        principal_of(document_of(present), id)
        other = unused_id(present) if beside else id
        made = with_beside(present, id, other, token) if beside else with_token(present, id, token)
        if is_new:
            _tell(out, other, token)
        elif beside:
            click.echo(f"id = {other}")
        return made

    if name is None:
        assert file is not None
        return _edit_file(accounts, db, file, edited)
    with referee_of(accounts, Asked) as referee:
        change = TableChange(referee, row_in(referee.everything(), name), ttl_of(accounts), within)
        say(name, change.set(edited), change.carry_out())


def _asked(words: tuple[str, ...]) -> tuple[str | None, int]:
    """The name of a database, if one is given, and the principal's id."""
    if len(words) > 2 or not re.fullmatch(r"[0-9]{1,10}", words[-1]):
        raise click.UsageError(f"{_FORMS}, where ID is a number")
    return (words[0] if len(words) == 2 else None), int(words[-1])


def _read(source: Path) -> str:
    if _TOKEN.fullmatch(str(source)):
        raise click.UsageError(
            "a token is not for the command line, where others see it: name a file, or - for standard input"
        )
    found = (sys.stdin.read() if str(source) == "-" else read_file(source)).strip()
    if not _TOKEN.fullmatch(found):
        fail(f"{source}: a token has 32 hexadecimal digits")
    return found.lower()


def _tell(out: Path | None, id: int, token: str) -> None:
    text = f'id = {id}\ntoken = "{token}"\n'
    if out is None:
        click.echo(text, nl=False)
        sys.stdout.flush()
    else:
        write_private(out, text)


def _edit_file(accounts: Accounts, db: int, file: Path, edited: Callable[[str], str]) -> None:
    """The file first: it is what the service starts with, and what is in it can be set again."""
    text = edited(read_file(file))
    check_of_service(text)
    write_private(file, text)
    click.echo(f"edited {file}; until it is set, `table --table {file}` sets it", err=True)
    set_at_service(accounts, db, text)
