"""waiting-table."""

from __future__ import annotations

import os
import secrets
from pathlib import Path

import click

from pagelog.credentials import Accounts
from pagelog.cli.options import credentials_option, faults, one_service
from pagelog.operator import Operator
from pagelog.primary import Primary
from pagelog.reader import Reader
from pagelog.request import Role
from pagelog.tables import TableText

_ROLES = (Role.OPERATOR, Role.PRIMARY, Role.SECONDARY)


@click.command("waiting-table")
@credentials_option
@click.argument("table", type=click.Path())
@click.option(
    "--out",
    required=True,
    metavar="FILE",
    type=click.Path(),
    help="Where the start table goes, for `pagelog serve --table`.",
)
@click.option(
    "--keys",
    required=True,
    metavar="FILE",
    type=click.Path(),
    help="Where its credentials go, for `restore --credentials`.",
)
@faults
def waiting_table_word(accounts: Accounts, table: str, out: str, keys: str) -> None:
    """Make a start table for a service that waits for its restore, from the real TABLE. Needs [operator], [primary], [secondary].

    It lists the ids of these three with new tokens, which are in the file of --keys and nowhere else. So nobody comes in
    before the restore is done: whoever has a token of the real table is denied A1, which makes no entry of the audit list.
    `restore --table TABLE` sets the real one at its end. Both files have mode 600.

    \b
    Example:
      pagelogctl waiting-table table.toml --credentials c.toml --out waiting.toml --keys restore.toml
      pagelog serve --table waiting.toml ... &
      pagelogctl restore --credentials restore.toml --db 0 --table table.toml
    """
    one_service(accounts, Primary, Reader, "both are of the database that is filled")
    one_service(accounts, Primary, Operator, "both are of the database that is filled")
    ids = {role: accounts.account(role).credentials.id for role in _ROLES}
    tokens = {id: secrets.token_hex(16) for id in ids.values()}
    text = TableText.read(table).waiting(ids, tokens)
    write_private(Path(keys), _credentials(accounts, tokens))
    write_private(Path(out), text)


def _credentials(accounts: Accounts, tokens: dict[int, str]) -> str:
    lines = []
    for role in _ROLES:
        account = accounts.account(role)
        id = account.credentials.id
        lines.append(f'[{role.word}]\nto = "{account.to}"\nid = {id}\ntoken = "{tokens[id]}"\n')
    lines.append(f"[service]\nquorum = {accounts.quorum}\n")
    return "\n".join(lines)


def write_private(file: Path, text: str) -> None:
    """Writes a file of mode 600, whole or not at all."""
    made = file.with_name(f".{file.name}.{os.getpid()}")
    try:
        descriptor = os.open(made, os.O_CREAT | os.O_EXCL | os.O_WRONLY, 0o600)
        with open(descriptor, "w", encoding="utf-8") as opened:
            opened.write(text)
        os.replace(made, file)
    except OSError as error:
        raise click.ClickException(f"{file}: {error.strerror}") from error
