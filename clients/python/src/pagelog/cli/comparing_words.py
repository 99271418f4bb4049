"""verify --pages."""

from __future__ import annotations

import json
from contextlib import ExitStack
from dataclasses import asdict

import click

from pagelog.block import HIGHEST_LSN
from pagelog.cli.keeper_words import referee_of, row_in
from pagelog.cli.options import AGAIN, bar, fail, timeout
from pagelog.connection import Connection
from pagelog.credentials import Accounts
from pagelog.keeper.table import keeper_of
from pagelog.pages.comparing import Copy, compare, position_of_all, written
from pagelog.reader import Reader
from pagelog.referee.bases import Bases
from pagelog.referee.rows import Look, PagesRow, Row, TableOf
from pagelog.secure import Trust


def verify_pages(accounts: Accounts, name: str, last: int | None, as_json: bool) -> None:
    """Compares the page servers of a database, or one with the service."""
    with referee_of(accounts) as referee, ExitStack() as stack, bar("compared") as told:
        look = referee.everything()
        row = row_in(look, name)
        asked = _Asked(row, referee.table(row.id), accounts.trust, stack)
        copies = [asked.page_server(each) for each in _living(look, row)]
        if not copies:
            fail(f"{name} has no page server")
        service = asked.service() if row.address is not None else None
        if len(copies) == 1:
            if service is None:
                fail(f"{name} has one page server, and nobody serves it now", AGAIN)
            copies.append(service)
        position = position_of_all(copies, min(row.archived, HIGHEST_LSN if last is None else last))
        done = compare(copies, written(Bases(referee, row.id), position), position, service, told)
    click.echo(
        json.dumps(asdict(done))
        if as_json
        else f"{done.pages} pages at position {position} are alike, digest {done.digest}: "
        f"{', '.join(done.of)}"
    )


def _living(look: Look, row: Row) -> list[PagesRow]:
    """Those to ask. Who is gone is said."""
    found = [each for each in look.pages_of(row.id) if not each.has_ended]
    for each in found:
        if each.is_gone:
            click.echo(f"left out: {_name(each)} is not heard of", err=True)
    return [each for each in found if not each.is_gone]


def _name(pages: PagesRow) -> str:
    return f"page server {pages.run} at {pages.machine}"


class _Asked:
    """Who is asked, as the keepers' principal: its rows allow all of it."""

    def __init__(self, row: Row, table: TableOf, trust: Trust | None, stack: ExitStack) -> None:
        self._row, self._secret, self._trust, self._stack = row, table.secret, trust, stack

    def page_server(self, pages: PagesRow) -> Copy:
        reader = self._reader(_name(pages), pages.told(self._trust is not None), pages.run)
        return Copy(_name(pages), reader, pages.oldest, reader.status().hard)

    def service(self) -> Copy:
        """That of the row, which has an address."""
        row = self._row
        assert row.run is not None
        name = f"service {row.run} at {row.address}"
        return Copy(
            name,
            self._reader(name, row.told(self._trust is not None), row.run),
            row.images,
            row.archived,
            row.shift,
        )

    def _reader(self, name: str, address: str | None, run: str) -> Reader:
        if address is None:
            fail(f"{name} is reached {'without' if self._trust is not None else 'by'} TLS alone")
        connection = Connection(address, timeout=timeout(), attempts=8, trust=self._trust)
        return self._stack.enter_context(
            Reader(connection, keeper_of(self._secret, self._row.name, run))
        )
