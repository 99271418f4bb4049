"""Services that a previous instance of this keeper left, and whose runs are no holder's of today. One that holds nothing which PostgreSQL
lacks is ended. Another goes on, as the holder's of a PostgreSQL that went back, or is quarantined: no keeper ends it."""

from __future__ import annotations

from dataclasses import dataclass
from enum import Enum

from pagelog.errors import PagelogError
from pagelog.keeper.definition import Definition
from pagelog.keeper.run import Run, Seen
from pagelog.keeper.served import Served
from pagelog.referee.referee import BrokenArchive, KeeperError, Referee
from pagelog.referee.rows import Look, Origin, Row

_LAST = 16
"""So many of the last blocks are compared with those of the archive: a log that went another way differs in them."""
_NO_DIGEST = b"-"
"""In place of the digest of what came before its images, where PostgreSQL does not have that base: no archive continues it."""


class OrphanFate(Enum):
    """What is to become of a service."""

    END = "ended"
    CONTINUE = "continued"
    SET_ASIDE = "quarantined"


@dataclass(frozen=True)
class FoundOrphan:
    """What is known of a service. `origin` is what PostgreSQL knows of its run, `row` the database of its name that it has today, and
    `seen` what a previous instance has noted. `is_behind` is whether the archive has all of its log, `was_written` whether a client has.
    """

    seen: Seen = Seen()
    origin: Origin | None = None
    row: Row | None = None
    was_dropped: bool = False
    answers: bool = True
    was_written: bool = False
    is_behind: bool = False


def fate_of(found: FoundOrphan) -> tuple[OrphanFate, str]:
    """What is to become of it, and why."""
    origin = found.origin
    if origin is not None and origin.dropped:
        return OrphanFate.END, "its database was dropped"
    if origin is not None and origin.ended is not None:
        if found.seen.archived > origin.ended:
            return (
                OrphanFate.SET_ASIDE,
                f"PostgreSQL went back: it had the run up to position {found.seen.archived}, and now its end is {origin.ended}",
            )
        return OrphanFate.END, "its generation has ended"
    if not found.answers:
        return OrphanFate.SET_ASIDE, "it does not answer, and PostgreSQL does not know its run"
    if found.row is None:
        if (
            found.was_dropped and found.seen.generation == 0 and not found.was_written
        ):  # as a standby's
            return OrphanFate.END, "it held nothing, and its database was dropped"
        return OrphanFate.SET_ASIDE, "PostgreSQL has no such database"
    if found.is_behind and not found.was_written:
        return OrphanFate.END, "it held nothing that PostgreSQL lacks"
    return OrphanFate.CONTINUE, "PostgreSQL does not know its run"


@dataclass(frozen=True)
class Orphan:
    """A service with its fate; `served` is how it is asked, where it goes on, and `database` the identity of the one that it is of."""

    process: Run
    fate: OrphanFate
    why: str
    served: Served | None = None
    database: str = ""


def seen_to(
    referee: Referee, look: Look, process: Run, timeout: float, has_name: bool = True
) -> Orphan:
    """Asks PostgreSQL and the service. `has_name` is whether the keeper that asks is registered. Raises `KeeperError` where PostgreSQL
    does not answer."""
    if process.facts.address is None:
        return Orphan(process, OrphanFate.END, "it did not come to listen")
    name, seen = process.facts.name, process.seen
    origin, row = referee.origin(process.name, has_name=has_name), look.row(name)
    definition = process.definition
    if row is not None and not _is_of(row, name, definition):
        row = None  # the name is another one's by now
    was_dropped = any(each.dropped and _is_of(each, name, definition) for each in look.rows)
    found = FoundOrphan(seen, origin, row, was_dropped)
    if row is None or (origin is not None and (origin.dropped or origin.ended is not None)):
        return Orphan(process, *fate_of(found))
    text, secret, *_ = referee.table(row.id)
    served = Served(
        name,
        process.name,
        text,
        secret,
        timeout=timeout,
        is_read_only=row.read_only,
        identity=row.identity,
        ancestor=row.ancestor,
    )
    shift, images = process.facts.shift, process.facts.images
    chain = referee.chain_of_base(row.id, images) if images else b""
    served.adopt(
        process,
        images,
        _NO_DIGEST if chain is None else chain,
        shift=shift,
        images=images,
        generation=seen.generation,
    )
    try:
        was_written, is_behind = served.was_written(), chain is not None and _is_behind(
            referee, row, served
        )
    except KeeperError:
        raise
    except PagelogError:
        return Orphan(process, *fate_of(FoundOrphan(seen, origin, row, was_dropped, answers=False)))
    fate, why = fate_of(FoundOrphan(seen, origin, row, was_dropped, True, was_written, is_behind))
    return Orphan(process, fate, why, served if fate is OrphanFate.CONTINUE else None, row.identity)


def close_left(process: Run, timeout: float) -> None:
    """Lets nobody write any more to a service that is quarantined: who writes is to find the run that holds the database. One that does not
    remember the secret of its keepers stays as it is."""
    definition = process.definition
    if definition is not None:
        served = Served(
            process.facts.name, process.name, definition.text, definition.secret, timeout=timeout
        )
        served.serve(process)
        served.close()


def _is_of(row: Row, name: str, definition: Definition | None) -> bool:
    """Whether a service of this name is of that database; of one that does not remember it the name decides."""
    return row.plain_name == name if definition is None else row.identity == definition.identity


def _is_behind(referee: Referee, row: Row, served: Served) -> bool:
    """Whether the archive has its log, as far as the last blocks show."""
    end = served.end_of_log()
    if end > row.archived:
        return False
    first = max(end - _LAST, served.images)
    try:
        theirs = [block for piece in referee.blocks(row.id, first + 1, end) for block in piece]
    except BrokenArchive:
        return False
    return not theirs or served.pulled(first)[: end - first] == theirs
