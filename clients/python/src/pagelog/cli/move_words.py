"""move."""

from __future__ import annotations

import json
from contextlib import ExitStack
from dataclasses import asdict

import click

from pagelog.archive import Archive
from pagelog.archive.archiving import Archiver
from pagelog.audit_list import MOST_ENTRIES
from pagelog.credentials import Accounts, load
from pagelog.cli.options import (
    bar,
    client,
    fail,
    faults,
    json_option,
    one_service,
    quorum_of,
    quorum_option,
    tls_words,
    url_of,
    url_options,
)
from pagelog.moving import Move, Moved
from pagelog.operator import Operator
from pagelog.primary import WINDOW, Primary
from pagelog.reader import Reader
from pagelog.tables import TableText


@click.command("move")
@click.option(
    "--from",
    "source",
    required=True,
    metavar="FILE",
    type=click.Path(),
    help="Credentials of the source: [secondary] and [operator].",
)
@click.option("--from-db", default=0, show_default=True, metavar="N", help="The source's number.")
@click.option(
    "--to",
    "target",
    required=True,
    metavar="FILE",
    type=click.Path(),
    help="Credentials of the target: [primary], [secondary] and [operator].",
)
@click.option("--to-db", default=0, show_default=True, metavar="N", help="The target's number.")
@click.option(
    "--table",
    required=True,
    metavar="FILE",
    type=click.Path(),
    help="The source's table in force. The fence is this one with a "
    "first row by which nobody writes.",
)
@url_options
@click.option(
    "--fence-to",
    metavar="ID",
    type=int,
    help="Who gets the source's last epoch: a principal that its table lists and that "
    "does not write. [default: the operator]",
)
@click.option(
    "--within",
    default=WINDOW,
    show_default=True,
    metavar="BLOCKS",
    help="How near the target has to be before the fence.",
)
@click.option(
    "--patience",
    default=600.0,
    show_default=True,
    type=click.FloatRange(0),
    metavar="SECONDS",
    help="How long it may take to come so near.",
)
@quorum_option
@json_option
@faults
def move_word(
    source: str,
    from_db: int,
    target: str,
    to_db: int,
    table: str,
    url: str | None,
    log: str | None,
    fence_to: int | None,
    within: int,
    patience: float,
    quorum: str | None,
    as_json: bool,
) -> None:
    """Take a database to a fresh one, from the archive and the live log.

    Restore, follow until the two are within a window, a comparison of both logs, the fence, the rest, and its comparison. What
    is hardened is archived all the while; no other archiver may run. From the fence on writers of the source are denied, and
    readers continue. Let the writers go to the target once it has ended. Nothing is fenced where the target's audit list does not
    have room ([service] audit in its file), nor its memory ([service] memory, in bytes), nor where both are one database.

    \b
    Example:
      pagelogctl move --from old.toml --from-db 0 --to new.toml --to-db 1 --table table.toml --url sqlite:///db0.db
    """
    old, new, fence = (
        load(source, words=tls_words()),
        load(target, words=tls_words()),
        TableText.read(table),
    )
    one_service(old, Reader, Operator, "both are of the source")
    one_service(new, Primary, Reader, "both are of the target")
    one_service(new, Primary, Operator, "both are of the target")
    if old.account(Reader.role).to == new.account(Primary.role).to and from_db == to_db:
        fail("source and target are the same database")
    with ExitStack() as stack:
        archive = stack.enter_context(Archive(url_of(url, old), log or str(from_db), create=True))
        move = _move_of(old, from_db, new, to_db, archive, quorum, stack)
        move.table, move.within, move.patience = fence, within, patience
        move.fence_to = move.operator.credentials.id if fence_to is None else fence_to
        done = _run(move, stack.enter_context(bar("moved")))
    _tell(done, as_json)


def _move_of(
    old: Accounts,
    from_db: int,
    new: Accounts,
    to_db: int,
    archive: Archive,
    quorum: str | None,
    stack: ExitStack,
) -> Move:
    reader, operator = (
        stack.enter_context(client(Reader, old, from_db)),
        stack.enter_context(client(Operator, old, from_db)),
    )
    primary = stack.enter_context(
        client(Primary, new, to_db, alone=True, quorum=quorum_of(quorum, new))
    )
    check, target = (
        stack.enter_context(client(Reader, new, to_db)),
        stack.enter_context(client(Operator, new, to_db)),
    )
    return Move(
        Archiver(reader, archive),
        operator,
        primary,
        check,
        operator.credentials.id,
        target=target,
        limit=new.audit_limit or MOST_ENTRIES,
        memory=new.memory,
        source_limit=old.audit_limit or MOST_ENTRIES,
        warn=lambda text: click.echo(f"pagelogctl: source: {text}", err=True),
    )


def _run(move: Move, told: object) -> Moved:
    try:
        return move.run(told)  # type: ignore[arg-type]
    except BaseException:
        if move.may_be_fenced:
            how = "may be fenced" if move.fenced is None else f"was fenced in epoch {move.fenced}"
            click.echo(
                f"pagelogctl: the source {how}, and the move is not done: run it again, or set the source's table again, and let a "
                "writer take it over",
                err=True,
            )
        raise


def _tell(done: Moved, as_json: bool) -> None:
    text = (
        f"moved {done.hard} blocks, alike in both; the source is fenced in epoch {done.epoch}, {done.behind} blocks before its end; "
        f"{done.pause:.2f} s from the fence until writers may begin at the target"
    )
    click.echo(json.dumps(asdict(done)) if as_json else text)
