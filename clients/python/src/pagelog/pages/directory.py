"""What PostgreSQL knows of page servers, and what it says to one of its database."""

from __future__ import annotations

from dataclasses import dataclass, field
from typing import Any, Mapping

from pagelog.keeper.history import spans
from pagelog.referee.referee import Referee
from pagelog.referee.ways import address_for, way_of

_LOOK = """
WITH me AS (
  INSERT INTO pagelog_pages (run, log, machine, address, secure, position, persisted, oldest, table_number, aside)
  SELECT %(run)s, id, %(machine)s, %(address)s, %(secure)s, %(position)s, %(persisted)s, %(oldest)s, %(table_number)s, %(aside)s::jsonb FROM pagelog_log
    WHERE identity = %(identity)s::uuid AND NOT dropped
  ON CONFLICT (run) DO UPDATE SET address = excluded.address, secure = excluded.secure, position = excluded.position, persisted = excluded.persisted,
    oldest = excluded.oldest, table_number = excluded.table_number, aside = excluded.aside, beat = pagelog_pages.beat + 1,
    seen = now() RETURNING log)
SELECT l.id, l.archived, l.chain, l.table_number, l.audited IS NOT NULL, k.lines, k.secure, k.run
FROM pagelog_log l JOIN me ON l.id = me.log LEFT JOIN pagelog_keeper k ON k.name = l.holder
"""
_NEWS = "SELECT archived, table_number FROM pagelog_log WHERE id = %s AND identity = %s::uuid"
_WHOLE = """
WITH source AS (SELECT COALESCE((SELECT cut FROM pagelog_store WHERE log = %(log)s), 0) AS cut),
part AS (
  SELECT base, lead(base, 1, %(archived)s::bigint) OVER (ORDER BY base) AS next
  FROM (SELECT 0::bigint AS base UNION SELECT base FROM pagelog_base WHERE log = %(log)s AND base <= %(archived)s) AS each)
SELECT next, EXISTS (SELECT 1 FROM pagelog_base WHERE log = %(log)s AND base = next) FROM part, source
WHERE next - base <> (SELECT count(*) FROM pagelog_block WHERE log = %(log)s AND lsn > GREATEST(base, cut) AND lsn <= next)
  + (SELECT COALESCE(sum(LEAST(last, next, cut) - GREATEST(first, base + 1) + 1), 0) FROM pagelog_object
    WHERE log = %(log)s AND state = 2 AND last > base AND first <= LEAST(next, cut))
ORDER BY next DESC LIMIT 1
"""
"""Where the last part between two bases ends of which blocks are gone, and whether that is a base."""
_END = "UPDATE pagelog_pages SET address = '', seen = now() WHERE run = %s RETURNING run"
_LEAVE = "DELETE FROM pagelog_pages WHERE run = %s OR log IN (SELECT id FROM pagelog_log WHERE dropped) RETURNING run"
_NAMES = (
    "SELECT name, identity::text FROM pagelog_log WHERE NOT dropped AND format = %s ORDER BY name"
)


@dataclass(frozen=True)
class PageServerEntry:
    """A page server, as it says of itself."""

    run: str
    identity: str
    machine: str
    address: str
    """Nothing: it answers nobody."""
    secure: str | None
    """The way to it by TLS, as `ways` reads it."""
    position: int
    persisted: int
    oldest: int
    table_number: int
    aside: str
    """Stores that were quarantined, as JSON."""


@dataclass(frozen=True)
class Archived:
    """Of a database: the archived position, the digest of all blocks up to it, the number of its newest table, and whether all reads are to be
    audited; and who holds it."""

    log: int
    position: int
    chain: bytes = field(repr=False)
    table_number: int
    is_audited: bool
    lines: str | None
    """Where the lines of the keeper that holds it are, for who comes by TLS or without; None where there are none."""


def names(referee: Referee, format: int) -> Mapping[str, str]:
    """The identity of each database, by its name."""
    return dict(referee._ask(_NAMES, (format,)))


def look(referee: Referee, entry: PageServerEntry, *, is_secure: bool = False) -> Archived | None:
    """Enters it, and returns what is archived, by a statement that writes: an old leader of PostgreSQL makes none. None where PostgreSQL has
    no such database, or it was dropped. `is_secure`: the keeper's lines are reached by TLS."""
    found: list[Any] = referee._ask_bounded(_LOOK, vars(entry), binary=False)
    if not found:
        return None
    log, position, chain, table_number, is_audited, lines, secure, run = found[0]
    return Archived(
        log,
        position,
        bytes(chain),
        table_number,
        is_audited,
        None if lines is None else address_for(lines, way_of(secure, run), is_secure=is_secure),
    )


def news(referee: Referee, log: int, identity: str) -> tuple[int, int]:
    """The archived position and the number of the newest table, by a statement that only reads: a hint. Zeros where there is none."""
    found = referee._ask_bounded(_NEWS, (log, identity))
    return (int(found[0][0]), int(found[0][1])) if found else (0, 0)


def oldest_kept(referee: Referee, log: int) -> int:
    """The oldest position that PostgreSQL can give all pages of: that of its oldest base, or 0."""
    return spans(referee)[log].oldest


def whole_from(referee: Referee, log: int, archived: int) -> int | None:
    """The oldest position from which on all is kept up to the archived one: 0, or that of a base. Below it blocks are gone, as by pruning, or
    where PostgreSQL went back and a service continued whose images were newer. None where blocks above the newest base are gone.
    """
    for position, is_base in referee._ask_bounded(_WHOLE, {"log": log, "archived": archived}):
        return int(position) if is_base else None
    return 0


def note_end(referee: Referee, run: str) -> None:
    """It has ended in order: nobody is answered, until it looks again."""
    referee._ask_bounded(_END, (run,))


def leave(referee: Referee, run: str) -> None:
    """It is gone for good; so are the page servers of databases that were dropped."""
    referee._ask_bounded(_LEAVE, (run,))
