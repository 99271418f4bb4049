"""hold."""

from __future__ import annotations

from typing import TYPE_CHECKING

import click

from pagelog.cli.deleting import counted
from pagelog.cli.keeper_words import Asked, referee_of, row_in
from pagelog.cli.options import bar, credentials_option, fail, faults, settings_of
from pagelog.credentials import Accounts
from pagelog.keeper.history import extent_of
from pagelog.keeper.holding import held_since, hold, let_go
from pagelog.referee.referee import Referee
from pagelog.referee.rows import Row
from pagelog.times import in_both_zones

if TYPE_CHECKING:
    from pagelog.store.legal_holds import Holding


@click.command("hold")
@click.argument("name")
@click.option("--release", is_flag=True, help="It may be pruned and dropped again.")
@click.option(
    "--legal",
    is_flag=True,
    help="Its objects in a bucket with object lock get a legal hold too; again for later ones.",
)
@credentials_option
@faults
def hold_word(accounts: Accounts, name: str, release: bool, legal: bool) -> None:
    """Keep all of a database that there is: no keeper and no person prunes or drops anything of it, until --release.

    Objects in a store that nothing names any more stay, too. With --legal no key deletes a version of those that it has now; that, and the
    --release after it, need a key that may put legal holds, which the keepers' may not: that of `profile` of [store], or of AWS_PROFILE where
    the file names none. The trail has its own time ([keeper] trail).
    Keepers of before this word do not know it: upgrade them first.

    \b
    Example: (admin.toml is a copy of keeper.toml in which `profile` is another)
      pagelogctl hold shop --credentials keeper.toml
      pagelogctl hold shop --legal --credentials admin.toml
      pagelogctl hold shop --release --credentials admin.toml
    """
    if legal and release:
        raise click.UsageError("--release takes legal holds off, too")
    with referee_of(accounts, Asked) as referee:
        row = row_in(referee.everything(), name)
        if release:
            _release(accounts, referee, row)
        else:
            _hold(accounts, referee, row, legal)


def _hold(accounts: Accounts, referee: Referee, row: Row, legal: bool) -> None:
    from pagelog.store import legal_holds

    store = _holding(accounts) if legal else None  # refused before anything is done
    since = hold(referee, row)
    if since is None:
        fail(f"{row.name} was dropped by now")
    click.echo(f"{row.name} is held since {in_both_zones(since)}: {extent_of(referee, row)}")
    if store is not None:
        with bar("held") as told:
            count = legal_holds.put_on(referee, row.id, store, lambda done: told(done, done))
        click.echo(f"{counted(count, 'object')} of it in the store have a legal hold")


def _release(accounts: Accounts, referee: Referee, row: Row) -> None:
    from pagelog.store import legal_holds

    since = held_since(referee, row)
    if legal_holds.count_of(referee, row.id):  # first: until they are off it is held
        with bar("released") as told:
            count = legal_holds.take_off(
                referee, row.id, _holding(accounts), lambda done: told(done, done)
            )
        click.echo(f"took {counted(count, 'legal hold')} off")
    if not let_go(referee, row):
        fail(f"{row.name} was dropped by now")
    click.echo(
        f"{row.name} may be pruned and dropped"
        + ("" if since is None else f": it was held since {in_both_zones(since)}")
    )


def _holding(accounts: Accounts) -> Holding:
    from pagelog.objects.place import store_of
    from pagelog.store.legal_holds import holding

    return holding(store_of(settings_of(accounts)))


def refuse_held(referee: Referee, row: Row) -> None:
    """Ends where it is held."""
    if (since := held_since(referee, row)) is not None:
        fail(
            f"nothing was deleted: {row.name} is held since {in_both_zones(since)}; `pagelogctl hold {row.name} --release` lets go of it"
        )
