"""archive."""

from __future__ import annotations

import json
import sys
import time
from contextlib import ExitStack
from typing import Callable

import click

from pagelog.archive import Archive
from pagelog.archive.archiving import Archiver
from pagelog.audit_list import MOST_ENTRIES, AuditRoom
from pagelog.client import Client
from pagelog.credentials import Accounts
from pagelog.cli.losses import Losses, warn
from pagelog.cli.options import (
    LIST_FULL,
    NOT_YET,
    bar,
    client,
    credentials_option,
    db_option,
    fail,
    faults,
    json_option,
    stopping,
    url_of,
    url_options,
)
from pagelog.fencing import ListGuard
from pagelog.operator import Operator
from pagelog.reader import Reader
from pagelog.request import Role
from pagelog.tables import TableText


@click.command("archive")
@credentials_option
@db_option
@url_options
@click.option("--follow", is_flag=True, help="Continue with what comes, until SIGTERM or SIGINT.")
@click.option(
    "--idle",
    default=1.0,
    show_default=True,
    type=click.FloatRange(0.01),
    metavar="SECONDS",
    help="How long it waits at most before it asks again; a quarter of it while blocks come.",
)
@click.option(
    "--fence-at",
    metavar="N",
    type=click.IntRange(1),
    help="Fence the database once its audit list has at most N entries left, or "
    "no more than the blocks that are not archived want. Needs [operator] and --table.",
)
@click.option(
    "--table",
    metavar="FILE",
    type=click.Path(),
    help="The table in force, from which the one of the fence is made.",
)
@json_option
@faults
def archive_word(
    accounts: Accounts,
    db: int,
    url: str | None,
    log: str | None,
    follow: bool,
    idle: float,
    fence_at: int | None,
    table: str | None,
    as_json: bool,
) -> None:
    """Keep every hardened block of a database in an archive. Needs [secondary].

    Prints `archived N of H`: all blocks up to LSN N are kept, and H were hardened. Killed at any moment, the archive is
    whole up to its LSN, and the next call continues there. With [operator] it warns while the audit list fills; what is not
    archived when that is full is lost. With --fence-at it fences the database before, archives the rest, and ends with exit
    status 4: only the operator and this archiver are let in then, until the operator sets another table. Denied A1 after it was
    let in, --follow waits: the service was restarted, and is being restored.

    \b
    Examples:
      pagelogctl archive --follow --credentials c.toml --db 0 --url sqlite:///db0.db
      pagelogctl archive --follow --credentials c.toml --fence-at 100000 --table table.toml
    """
    fence = TableText.read(table) if table else None
    if fence_at and (fence is None or Role.OPERATOR not in accounts.of_role or not follow):
        fail("--fence-at needs --follow, --table FILE, and [operator] in the credentials")
    with ExitStack() as stack:
        archive = stack.enter_context(Archive(url_of(url, accounts), log or str(db), create=True))
        reader = stack.enter_context(client(Reader, accounts, db))
        archiver = Archiver(reader, archive)
        guard = None
        if Role.OPERATOR in accounts.of_role and follow:
            room = AuditRoom(
                stack.enter_context(client(Operator, accounts, db)),
                accounts.audit_limit or MOST_ENTRIES,
            )
            guard = ListGuard(
                room,
                archiver,
                fence_at=fence_at or 0,
                table=fence if fence_at else None,
                warn=warn,
            )
        stop = stack.enter_context(stopping())
        if follow:
            ArchiveFollower(archiver, idle, stop, guard, as_json).run()
        else:
            with bar("archived") as told:
                archiver.run(follow=False, told=told, stop=stop)
        _tell(archiver.archived, reader.hard_seen, as_json)
        if not follow:
            stop.end()
    sys.exit(LIST_FULL if guard is not None and guard.fenced is not None else 0)


class ArchiveFollower(Losses):
    """Follows until it is stopped or the database is fenced, however often the service or the archive is lost for a moment."""

    def __init__(
        self,
        archiver: Archiver,
        idle: float,
        stop: Callable[[], bool],
        guard: ListGuard | None = None,
        as_json: bool = False,
    ) -> None:
        super().__init__(self._were_let_in)
        self.archiver = archiver
        self.idle = idle
        self.stop = stop
        self.guard = guard
        self.as_json = as_json
        self._has_all = False
        self._is_denied = False
        """Whether it waits to be let in again."""
        self._told = (-1, -1)
        self._told_at = 0.0

    def run(self) -> None:
        """Archives until it is told to end, or until the database is fenced and all of it is archived."""
        while not self.stop() and not self._has_all:
            self.follow()

    def follow(self) -> None:
        """Follows until it is to end, or until the service or the archive is lost."""
        self.bear(self._follow)

    def _follow(self) -> None:
        self.archiver.resume()
        if not self._is_fenced():
            self.archiver.run(follow=True, idle=self.idle, told=self.tell, stop=self._ends)
        if self._is_fenced():
            self.archiver.run(follow=False, told=self.tell, stop=self.stop)
            self._has_all = True

    def _were_let_in(self) -> bool:
        """Whether all were let in before, by this service or an earlier one; an operator only if it is to fence."""
        fences = self.guard is not None and self.guard.table is not None
        return all(
            client.was_let_in for client in (self._clients() if fences else self._clients()[:1])
        )

    def _clients(self) -> list[Client]:
        return [
            self.archiver.reader,
            *([self.guard.room.operator] if self.guard is not None else []),
        ]

    def be_denied(self) -> None:
        """The service was restarted, which is said once. What was seen of the one before, and not archived, is lost with that."""
        if not self._is_denied:
            warn(NOT_YET)
        self._is_denied = True
        for client in self._clients():
            client.forget()
        self.rest()

    def _is_fenced(self) -> bool:
        return self.guard is not None and self.guard.fenced is not None

    def _ends(self) -> bool:
        return self.stop() or (self.guard is not None and self.guard.check())

    def tell(self, archived: int, hard: int) -> None:
        """At most one line a second, and none where it is the last one again."""
        self._is_denied = False
        self.end()
        if (archived, hard) != self._told and time.monotonic() - self._told_at >= 1:
            self._told, self._told_at = (archived, hard), time.monotonic()
            _tell(archived, hard, self.as_json)


def _tell(archived: int, hard: int, as_json: bool) -> None:
    click.echo(
        json.dumps({"archived": archived, "hard": hard})
        if as_json
        else f"archived {archived} of {hard}"
    )
    sys.stdout.flush()
