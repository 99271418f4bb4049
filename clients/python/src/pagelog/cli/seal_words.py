"""seal, and what all words do before they write a table of principals that is sealed."""

from __future__ import annotations

import click

from pagelog.cli.heartbeats import refuse_keepers_without
from pagelog.cli.keeper_words import referee_of
from pagelog.cli.options import AGAIN, WRONG, credentials_option, fail, faults
from pagelog.credentials import Accounts
from pagelog.keeper.settings import TTL
from pagelog.referee.sealed import Keys


@click.command("seal")
@click.option(
    "--plain", is_flag=True, help="Write them as they are, as for keepers of an older version."
)
@credentials_option
@faults
def seal_word(accounts: Accounts, plain: bool) -> None:
    """Seal the tables of principals of all databases in PostgreSQL, by the first key of [archive] key_file: a dump gives nobody a token.

    For another key each keeper gets it first as the first line of its file; then this seals all again; then the old line goes. What
    PostgreSQL had before is in its older backups: change those tokens.

    \b
    Example:
      openssl rand -hex 32 > keys
      pagelogctl seal --credentials keeper.toml
    """
    if accounts.key_file is None:
        fail("the credentials have no [archive] key_file", WRONG)
    with referee_of(accounts) as referee:
        referee.keys = Keys(accounts.key_file, is_plain=plain)
        ttl = accounts.keeper.get("ttl", TTL)
        refuse_keepers_without(referee, float(ttl))
        rows = [row for row in referee.everything().rows if not row.dropped]
        changed = [row.name for row in rows if referee.seal(row)]
        for name in changed:
            click.echo(
                f"{name} is {'plain' if plain else f'sealed by key {referee.keys.writes_by}'}"
            )
        if left := [
            row.name for row in rows if referee.table(row.id).key != referee.keys.writes_by
        ]:
            fail(f"{left[0]} was changed meanwhile: say it again", AGAIN)
