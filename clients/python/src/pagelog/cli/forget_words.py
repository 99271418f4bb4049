"""forget."""

from __future__ import annotations

import click

from pagelog.cli.deleting import agree, counted, yes_option
from pagelog.cli.heartbeats import is_alive, ttl_of
from pagelog.cli.keeper_words import Asked, referee_of
from pagelog.cli.options import AGAIN, credentials_option, fail, faults
from pagelog.credentials import Accounts
from pagelog.pages.stores import sentence
from pagelog.referee.referee import Referee
from pagelog.referee.rows import ASIDE, KeeperRow, Look, PagesRow

_FORGET = """
WITH gone AS (
  DELETE FROM pagelog_keeper WHERE name = %(name)s AND run = %(run)s AND beat = %(beat)s
    AND NOT EXISTS (SELECT 1 FROM pagelog_log WHERE holder = %(name)s AND NOT dropped) RETURNING name),
stood AS (DELETE FROM pagelog_standby WHERE keeper IN (SELECT name FROM gone))
SELECT name FROM gone
"""
_FORGET_PAGES = "DELETE FROM pagelog_pages WHERE run = %s AND beat = %s RETURNING run"


@click.command("forget")
@click.argument("keeper")
@yes_option
@credentials_option
@faults
def forget_word(accounts: Accounts, keeper: str, yes: bool) -> None:
    """Take a keeper that is gone for good out of the list of keepers, with its standbys; or a page server, by its run.

    Refused while its heartbeat moves, or it holds a database. It says what goes, and asks. Its folder stays as it is: what a keeper of
    this name, or a page server, finds there once it is started again is as before.

    \b
    Examples:
      pagelogctl forget c --credentials keeper.toml
      pagelogctl forget 9f86d081884c7d65 --credentials keeper.toml
    """
    with referee_of(accounts, Asked) as referee:
        look = referee.everything()
        row = look.keeper(keeper)
        pages = next((each for each in look.pages if each.run == keeper), None)
        if row is None and pages is not None:
            return _forget_pages(referee, look, pages, yes)
        if row is None:
            fail(f"there is no keeper {keeper}, and no page server of this run")
        if held := sorted(
            each.name for each in look.rows if each.holder == keeper and not each.dropped
        ):
            fail(
                f"{keeper} holds {', '.join(held)}: another keeper takes over, or `pagelogctl switchover` hands over"
            )
        if is_alive(referee, look, [keeper], ttl_of(accounts)):
            fail(f"{keeper} is alive, at {row.lines}: end it first")
        agree(_goes(look, row), yes)
        if not referee._ask(_FORGET, {"name": row.name, "run": row.run, "beat": row.beat}):
            fail(f"{keeper} is alive again, or holds a database: nothing was deleted", AGAIN)
        click.echo(f"forgot {keeper}")


def _forget_pages(referee: Referee, look: Look, pages: PagesRow, yes: bool) -> None:
    name = next((row.name for row in look.rows if row.id == pages.log), "a database that is gone")
    if not pages.is_gone and not pages.has_ended:
        fail(
            f"page server {pages.run} of {name} was heard {pages.silent:.0f} s ago, at {pages.machine}: end it first, and wait"
        )
    lines = [
        f"to be deleted: the entry of page server {pages.run} of {name}, last at {pages.address or 'no address'} of {pages.machine}",
        *(
            f"its report of {sentence(name, pages.machine, each)}, which is quarantined"
            for each in pages.aside
        ),
    ]
    agree("\n".join(lines), yes)
    if not referee._ask(_FORGET_PAGES, (pages.run, pages.beat)):
        fail("it was heard again: nothing was deleted", AGAIN)
    click.echo(f"forgot page server {pages.run}")


def _goes(look: Look, row: KeeperRow) -> str:
    """What is deleted, for a person."""
    standbys = sum(each.keeper == row.name for each in look.standbys)
    said = f"to be deleted: the entry of keeper {row.name}, last at {row.lines}, with {counted(standbys, 'standby')}"
    asides = row.report.get(ASIDE, ())
    for each in asides:
        said += (
            f"\nits report of run {each['run']} of {each['name']}, which is quarantined: `pagelogctl rescue` does not find it then, until a keeper "
            f"{row.name} is started in its folder"
        )
    return said
