"""rescue."""

from __future__ import annotations

from dataclasses import dataclass
from pathlib import Path
from typing import Any

import click

from pagelog.archive import Archive
from pagelog.archive.archiving import Archiver
from pagelog.cli.deleting import agree, counted, yes_option
from pagelog.cli.heartbeats import refuse_keepers_without
from pagelog.cli.keeper_words import Asked, named, referee_of
from pagelog.cli.options import bar, credentials_option, fail, faults, timeout
from pagelog.connection import Connection
from pagelog.credentials import Accounts
from pagelog.errors import PagelogError
from pagelog.keeper.aside import asides_of
from pagelog.keeper.definition import Definition
from pagelog.keeper.history import extent_of
from pagelog.keeper.rescuing import saved_as
from pagelog.keeper.run import ProcessFacts, Run
from pagelog.keeper.served import Served
from pagelog.keeper.table import keeper_of
from pagelog.pages.stores import sentence
from pagelog.reader import Reader
from pagelog.referee.referee import BrokenArchive, KeeperError, Referee
from pagelog.referee.rows import Look, Row
from pagelog.rules import UnknownPrincipal


class Forgotten(PagelogError):
    """PostgreSQL has lost the database, and with it what its service is asked with."""


@dataclass(frozen=True)
class LostRun:
    """A run of which PostgreSQL lacks something, as its keeper says: how far PostgreSQL has its blocks, and where it ends. `row` is the
    database that it is of, as PostgreSQL has it; None where that has lost it."""

    keeper: str
    facts: ProcessFacts
    is_kept: bool
    served: Served
    of: Definition
    row: Row | None
    alike: int
    last: int

    @property
    def lacks(self) -> int:
        """How many of its blocks PostgreSQL has not."""
        return self.last - self.alike

    def __str__(self) -> str:
        """A line for a person."""
        lacks = counted(self.lacks, "block")
        has = (
            "PostgreSQL has it all"
            if not self.lacks
            else f"PostgreSQL has it up to {self.alike}, and lacks {lacks} of it"
        )
        if self.row is None:
            has = f"PostgreSQL has lost its database, with {lacks}"
        how = "quarantined" if self.is_kept else "still with its keeper"
        return (
            f"run {self.facts.run} of keeper {self.keeper}, process {self.facts.pid} at {self.facts.address}, {how}, ends at position {self.last}, "
            f"which is LSN {self.last - self.served.shift}: {has}"
        )


@click.command("rescue")
@click.argument("name")
@click.option(
    "--run",
    metavar="RUN",
    help="The run. [default: the one that has most; to end what nobody else has it must be named]",
)
@click.option(
    "--as",
    "saved",
    metavar="NEW",
    help="Save it as a read-only named database, at the same positions, and compare it.",
)
@click.option(
    "--into",
    metavar="URL",
    help="An archive of its own that gets the log of the service, such as sqlite:///shop.db; with --from the "
    "PostgreSQL. [default: [archive] url]",
)
@click.option(
    "--folder",
    metavar="DIR",
    type=click.Path(path_type=Path),
    help="The folder of its keeper, on that machine: for a database "
    "that PostgreSQL has lost, whose table and tokens the processes of its services remember.",
)
@click.option(
    "--from",
    "store",
    metavar="URL",
    help="PostgreSQL is lost: make the database again from this store.",
)
@click.option(
    "--table",
    metavar="FILE",
    type=click.Path(path_type=Path),
    help="With --from: its table, which no store has.",
)
@click.option(
    "--stored",
    metavar="NAME.ID",
    help="With --from: which database of the name. [default: the one that there is]",
)
@click.option(
    "--end",
    metavar="DIR",
    type=click.Path(path_type=Path),
    help="End its process: on its keeper's machine, with that keeper's folder.",
)
@yes_option
@credentials_option
@faults
def rescue_word(
    accounts: Accounts,
    name: str,
    run: str | None,
    saved: str | None,
    into: str | None,
    folder: Path | None,
    end: Path | None,
    yes: bool,
    store: str | None,
    table: Path | None,
    stored: str | None,
) -> None:
    """Say what each service has that PostgreSQL has lost, the one with most first; save one; and end it, once that is agreed to.

    With --from: where PostgreSQL is lost, write into another one what a store has, and say what is lost. No block is copied.

    Where PostgreSQL went back to before what it had acknowledged, a run continues by itself if no other one is alive. Else its service is
    quarantined: it may be the only copy. What is saved by --as is opened as any database, in SQLite by `file:NEW?..&name=NEW`; --into saves the bare log, for `restore --log RUN`.

    \b
    Example:
      pagelogctl rescue shop --credentials keeper.toml
      pagelogctl rescue shop --as shop-saved --credentials keeper.toml
      pagelogctl rescue shop --run 9f86d081884c7d65 --end services --credentials keeper.toml
      pagelogctl rescue shop --from s3://company-pagelog/prod --table table.toml --credentials keeper.toml
    """
    if (
        (store is None) != (table is None)
        or (stored is not None and store is None)
        or (store is not None and (run or saved or end or folder))
    ):
        raise click.UsageError("--from has a --table, and may have --stored and --into alone")
    if store is not None and table is not None:
        from pagelog.cli.store_words import rescue_stored

        return rescue_stored(accounts, named(name), store, into, table, stored)
    with referee_of(accounts, Asked) as referee:
        _rescue(referee, name, run, saved, into, folder, end, yes)


def _rescue(
    referee: Referee,
    name: str,
    run: str | None,
    saved: str | None,
    into: str | None,
    folder: Path | None,
    end: Path | None,
    yes: bool,
) -> None:
    look = referee.everything()
    stores = [
        sentence(row.name, each.machine, aside)
        for row in look.rows
        if row.plain_name == name
        for each in look.pages_of(row.id)
        for aside in each.aside
    ]
    for said in stores:
        click.echo(f"{said}; `pagelogctl pages --open` there")
    if (
        stores
        and not (run or saved or into or folder or end)
        and not any(each["name"] == name for each in asides_of(look))
    ):
        return
    found = _histories(referee, look, named(name), run, folder or end)
    for each in found:
        click.echo(str(each))
    chosen = found[0]
    if end is not None:
        if chosen.lacks and run is None:
            fail(
                f"nobody else has {counted(chosen.lacks, 'block')} of it: name it, by --run {chosen.facts.run}"
            )
        if chosen.lacks and into is None and saved is None:
            fail(
                f"its {chosen.lacks} blocks would be lost: say --as or --into, or kill process {chosen.facts.pid}"
            )
        agree(_ends(referee, chosen, saved, into), yes, "end it")
    if saved is not None:
        refuse_keepers_without(referee)
        last = saved_as(referee, chosen.of, chosen.served, named(saved))
        click.echo(f"saved positions up to {last} as database {saved}, and compared them")
    if into is not None:
        _save(chosen, into)
    if end is not None:
        _end(end, chosen.facts)


def _histories(
    referee: Referee, look: Look, name: str, run: str | None, folder: Path | None
) -> list[LostRun]:
    """All that keepers say of this database, what has most first. Those that do not answer are said, and left out."""
    known = [
        each for each in asides_of(look) if each["name"] == name and run in (None, each["run"])
    ]
    if not known:
        fail(f"no keeper says that it has a run of {name} which PostgreSQL lacks")
    found, silent = [], None
    for each in known:
        try:
            found.append(_history(referee, look.row(name), each, folder))
        except KeeperError:
            raise
        except PagelogError as error:
            silent = error
            how = "cannot be asked" if isinstance(error, Forgotten) else "does not answer"
            click.echo(f"run {each['run']} of keeper {each['keeper']} {how}: {error}", err=True)
    if not found and silent is not None:
        raise silent
    return sorted(found, key=lambda each: (-each.lacks, -each.last))


def _history(
    referee: Referee, row: Row | None, each: dict[str, Any], folder: Path | None
) -> LostRun:
    if row is not None and each.get("database") not in (None, "", row.identity):
        row = None  # the name is another one's by now
    if row is None:
        lost = "PostgreSQL has lost its database, with the table and the tokens"
        return _history_by(referee, row, each, _remembered(each, folder, lost))
    try:
        return _history_by(referee, row, each, _defined(referee, row))
    except UnknownPrincipal:
        # It was made again from a store, with another secret.
        lost = "PostgreSQL has lost its table and its tokens"
        return _history_by(referee, row, each, _remembered(each, folder, lost))


def _history_by(referee: Referee, row: Row | None, each: dict[str, Any], of: Definition) -> LostRun:
    """By the tokens of this definition."""
    facts = ProcessFacts(each["name"], each["run"], each["pid"], 0, "", each["address"])
    served = Served(facts.name, facts.run, of.text, of.secret, timeout=timeout())
    served.serve(Run(Path(), facts, -1))
    served.lie(each["shift"], each["images"])
    return LostRun(
        each["keeper"],
        facts,
        each.get("kept", True),
        served,
        of,
        row,
        *compared(referee, row, served),
    )


def _defined(referee: Referee, row: Row) -> Definition:
    """The database, as PostgreSQL has it."""
    text, secret, *_ = referee.table(row.id)
    return Definition(row.identity, text, secret, row.ancestor)


def _remembered(each: dict[str, Any], folder: Path | None, lost: str) -> Definition:
    """What the process of a service remembers of its database, which PostgreSQL has lost. Raises `Forgotten`."""
    if folder is None:
        raise Forgotten(
            f"{lost}: on the machine of keeper {each['keeper']} say --folder, and the folder of that"
        )
    process = Run.adopt(folder, each["name"], each["run"])
    if process is None:
        raise Forgotten(
            f"{lost}, and {folder} has no such service: it is on the machine of its keeper, process {each['pid']} there"
        )
    try:
        found = process.definition
    finally:
        process.leave()
    if found is None:
        raise Forgotten(
            f"{lost}, and an older keeper has started process {each['pid']}, which remembers none of it"
        )
    return found


def compared(referee: Referee, row: Row | None, served: Served) -> tuple[int, int]:
    """Up to which position PostgreSQL has the blocks of its log, and where that ends."""
    at, last = served.images, served.end_of_log()
    if row is None:
        return 0, last
    while at < last and (ours := served.pulled(at)):
        known = min(at + len(ours), row.archived)
        try:
            theirs = [block for piece in referee.blocks(row.id, at + 1, known) for block in piece]
        except BrokenArchive:
            return at, last  # it has them no more
        same = next(
            (n for n, both in enumerate(zip(ours, theirs)) if both[0] != both[1]), len(theirs)
        )
        at += same
        if same < len(ours):
            break
    return at, last


def _ends(referee: Referee, history: LostRun, saved: str | None, into: str | None) -> str:
    """What ends with its process."""
    facts, where = (
        history.facts,
        f"database {saved}" if saved is not None else f"log {history.facts.run}",
    )
    lacks = (
        f"; nobody else has its positions {history.alike + 1} to {history.last}, which are saved as {where} before"
        if history.lacks
        else ""
    )
    has = "nothing of its database" if history.row is None else extent_of(referee, history.row)
    return (
        f"to be ended: run {facts.run} of {facts.name}, process {facts.pid} of keeper {history.keeper} at {facts.address}, up to position "
        f"{history.last}{lacks}\nPostgreSQL has {has}"
    )


def _save(history: LostRun, url: str) -> None:
    facts, served = history.facts, history.served
    with Reader(
        Connection(str(facts.address), timeout=timeout()),
        keeper_of(served.secret, facts.name, facts.run),
    ) as reader:
        with Archive(url, facts.run, create=True) as archive, bar("saved") as told:
            archiver = Archiver(reader, archive)
            archiver.run(follow=False, told=told)
    click.echo(f"saved {archiver.archived} blocks as log {facts.run}")


def _end(folder: Path, facts: ProcessFacts) -> None:
    process = Run.adopt(folder, facts.name, facts.run)
    if process is None:
        fail(
            f"{folder} has no such service: it is on the machine of its keeper, process {facts.pid} there"
        )
    process.end()
    click.echo(f"ended process {facts.pid}")
