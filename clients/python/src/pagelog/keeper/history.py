"""The past of a named database, as far as the archive has it: which positions are kept, and how one of them is begun again."""

from __future__ import annotations

from dataclasses import dataclass
from datetime import datetime
from typing import Any
from uuid import uuid4

import psycopg

from pagelog.keeper.naming import written_name
from pagelog.referee.bases import Bases
from pagelog.referee.referee import KeeperError, Pruned, Referee, Refused, digest
from pagelog.referee.rows import Row
from pagelog.referee.schema import CHANNEL, FORMAT
from pagelog.times import in_both_zones

_SPANS = """
SELECT l.id, CASE WHEN b.first IS NULL OR EXISTS (SELECT 1 FROM pagelog_block WHERE log = l.id AND lsn = 1)
    OR EXISTS (SELECT 1 FROM pagelog_object WHERE log = l.id AND first = 1) THEN 0 ELSE b.first END,
  COALESCE(b.last, 0), COALESCE(b.count, 0), (SELECT COALESCE((SELECT first - 1 FROM pagelog_object WHERE log = l.id AND state = 0
    ORDER BY first LIMIT 1), s.moved) FROM pagelog_store s WHERE s.log = l.id), l.held IS NOT NULL
FROM pagelog_log l LEFT JOIN (SELECT log, min(base) AS first, max(base) AS last, count(*)::integer AS count FROM pagelog_base GROUP BY log) b
  ON b.log = l.id
"""
_SINCE = "SELECT min(lsn) FROM pagelog_block WHERE log = %(log)s AND came > %(time)s"
_TIMES = """
SELECT CASE WHEN %(first)s = 0 THEN (SELECT LEAST(min(began), (SELECT came FROM pagelog_block WHERE log = %(log)s AND lsn = 1),
    (SELECT came FROM pagelog_object WHERE log = %(log)s AND first = 1)) FROM pagelog_generation WHERE log = %(log)s)
  ELSE (SELECT came FROM pagelog_base WHERE log = %(log)s AND base = %(first)s) END,
  COALESCE((SELECT came FROM pagelog_block WHERE log = %(log)s AND lsn = %(last)s),
    (SELECT until FROM pagelog_object WHERE log = %(log)s AND last = %(last)s),
    (SELECT came FROM pagelog_base WHERE log = %(log)s AND base = %(last)s)), clock_timestamp()
"""
_BELOW = """
SELECT %(position)s - LEAST((SELECT min(lsn) FROM pagelog_block WHERE log = %(log)s AND lsn <= %(position)s),
    (SELECT min(first) FROM pagelog_object WHERE log = %(log)s AND last <= %(position)s)) + 1,
  (SELECT count(*) FROM pagelog_base WHERE log = %(log)s AND base < %(position)s),
  (SELECT came FROM pagelog_base WHERE log = %(log)s AND base = %(position)s)
"""
_MAKE = f"""
WITH source AS (
  SELECT GREATEST(%(base)s, LEAST(%(position)s, COALESCE((SELECT cut FROM pagelog_store WHERE log = %(log)s), 0))) AS cut),
named AS (
  SELECT o.*, source.cut FROM source JOIN pagelog_object o ON o.log = %(log)s AND o.state = 2 AND o.last > %(base)s AND o.first <= source.cut),
made AS (
  INSERT INTO pagelog_log (identity, name, format, archived, epoch, chain, read_only, ancestor, next_generation)
  SELECT %(identity)s::uuid, %(name)s::text, {FORMAT}, %(position)s, 1, %(chain)b::bytea, %(read_only)s,
    COALESCE(%(ancestor)s::text, (SELECT COALESCE(ancestor, name) FROM pagelog_log WHERE id = %(log)s)),
    COALESCE((SELECT max(d.next_generation) + 1 FROM pagelog_log d WHERE d.dropped AND d.name = %(name)s::text || '!' || d.id), 1)
  FROM source WHERE (%(base)s = 0 OR EXISTS (SELECT 1 FROM pagelog_base WHERE log = %(log)s AND base = %(base)s))
    AND (SELECT count(*) FROM pagelog_block WHERE log = %(log)s AND lsn > source.cut AND lsn <= %(position)s) = %(position)s - source.cut
    AND (SELECT COALESCE(sum(LEAST(last, cut) - GREATEST(first, %(base)s + 1) + 1), 0) FROM named) = source.cut - %(base)s
  ON CONFLICT (name) DO NOTHING RETURNING id, name, identity),
tabled AS (
  INSERT INTO pagelog_table (log, text, secret, sealed, key)
  SELECT made.id, %(text)s, %(secret)s::bytea, %(sealed)s::bytea, %(key)s::text FROM made),
based AS (
  INSERT INTO pagelog_base (log, base, chain, digest, pages, came)
  SELECT made.id, base, b.chain, digest, pages, came FROM made, pagelog_base b WHERE log = %(log)s AND base = %(base)s),
imaged AS (
  INSERT INTO pagelog_image (log, range, base, pages, crc, data, pack, at, length, digest)
  SELECT made.id, i.range, i.base, i.pages, i.crc, i.data, p.number, CASE WHEN p.number IS NOT NULL THEN i.at END,
    CASE WHEN p.number IS NOT NULL THEN i.length END, CASE WHEN p.number IS NOT NULL THEN i.digest END
  FROM made, (SELECT DISTINCT ON (range) * FROM pagelog_image WHERE log = %(log)s AND base <= %(base)s ORDER BY range, base DESC) i
  LEFT JOIN pagelog_pack p ON p.log = %(log)s AND p.number = i.pack AND p.state = 2 RETURNING pack),
packs AS (SELECT DISTINCT pack AS number FROM imaged WHERE pack IS NOT NULL),
packed AS (
  INSERT INTO pagelog_pack (log, number, key, size, digest, raw, state)
  SELECT made.id, number, key, size, digest, raw, 2 FROM made, packs JOIN pagelog_pack p USING (number) WHERE p.log = %(log)s),
stored AS (
  INSERT INTO pagelog_store (log, folder, moved, cut, chain, packs)
  SELECT made.id, made.name || '.' || substr(made.identity::text, 1, 8), cut, cut, CASE WHEN cut = %(position)s THEN %(chain)b::bytea
    WHEN cut = %(base)s THEN (SELECT chain FROM pagelog_base WHERE log = %(log)s AND base = %(base)s)
    ELSE (SELECT after FROM named WHERE last = cut) END, COALESCE((SELECT max(number) FROM packs), 0)
  FROM made, source WHERE cut > %(base)s OR EXISTS (SELECT 1 FROM packs)),
shared AS (
  INSERT INTO pagelog_object (log, first, last, key, size, digest, raw, raw_digest, after, came, until, state)
  SELECT made.id, GREATEST(first, %(base)s + 1), LEAST(last, cut), key, size, digest, raw, raw_digest, CASE WHEN last <= cut THEN after ELSE %(chain)b::bytea END,
    CASE WHEN first > %(base)s THEN came END, CASE WHEN last <= cut THEN until ELSE %(until)s::timestamptz END, 2 FROM made, named),
copied AS (
  INSERT INTO pagelog_block (log, lsn, crc, data, came)
  SELECT made.id, lsn, crc, data, came FROM made, source, pagelog_block
  WHERE log = %(log)s AND lsn > cut AND lsn <= %(position)s)
SELECT id, pg_notify('{CHANNEL}', '') FROM made
"""
"""Of what the store has its rows are copied, and no byte."""


@dataclass(frozen=True)
class KeptSpan:
    """The positions that are kept are those from `oldest` on. `base` is the newest base, of so many. All up to `stored` is in the store;
    None where there is none. Where it is held nothing is pruned."""

    oldest: int
    base: int
    bases: int
    stored: int | None
    is_held: bool = False


def spans(referee: Referee) -> dict[int, KeptSpan]:
    """Those of all databases, by their ids."""
    return {int(log): KeptSpan(*found) for log, *found in referee._ask(_SPANS)}


@dataclass(frozen=True)
class Extent:
    """What is kept of a database: the positions from `first` to `last`, and by when each of the two was archived; None where nobody
    noted it, as of what is older than the column. `now` is PostgreSQL's clock."""

    first: int
    last: int
    first_came: datetime | None
    last_came: datetime | None
    now: datetime
    bases: int

    def __str__(self) -> str:
        if self.last == 0:
            return "position 0 alone, at which it is empty"
        return f"positions {self.first} to {self.last}, from {in_both_zones(self.first_came)} to {in_both_zones(self.last_came)}"


def extent_of(referee: Referee, row: Row) -> Extent:
    """What is kept of a database."""
    span = spans(referee)[row.id]
    [[first, last, now]] = referee._ask(
        _TIMES, {"log": row.id, "first": span.oldest, "last": row.archived}
    )
    return Extent(span.oldest, row.archived, first, last, now, span.bases)


def position_at(referee: Referee, row: Row, at: int | datetime) -> int:
    """The position that `at` names: itself, or the last one that was archived by this time. Raises `KeeperError` where it is not there."""
    has = extent_of(referee, row)
    if isinstance(at, int):
        position, what = at, f"position {at}"
    else:
        what = in_both_zones(at)
        if at > has.now:
            raise KeeperError(f"{what} is later than PostgreSQL's clock; {row.name} has {has}")
        if has.first_came is not None and at < has.first_came:
            raise KeeperError(f"nothing of {row.name} is kept from {what}; it has {has}")
        position = _last_by(referee, row.id, at, has.last)
    if not has.first <= position <= has.last:
        raise KeeperError(f"{what} of {row.name} is not kept; it has {has}")
    return position


def _last_by(referee: Referee, log: int, time: datetime, last: int) -> int:
    """The last position that was archived by this time."""
    [[since]] = referee._ask(_SINCE, {"log": log, "time": time})
    stored = referee.through.first_since(log, time) if referee.has_stored(log) else None
    return min((each - 1 for each in (since, stored) if each is not None), default=last)


@dataclass(frozen=True)
class Below:
    """What only positions below a base need: so many blocks and older bases. `until` is by when the last position below it was archived,
    and `came` that of the base."""

    blocks: int
    bases: int
    until: datetime | None
    came: datetime | None


def below(referee: Referee, row: Row, position: int) -> Below:
    """What pruning up to this base deletes."""
    [[blocks, bases, came]] = referee._ask(_BELOW, {"log": row.id, "position": position})
    return Below(blocks or 0, bases, Bases(referee, row.id).came(position - 1), came)


def begin_again(referee: Referee, row: Row, position: int, name: str) -> bool:
    """Makes a read-only database of this name from another one as it was at a kept position: its keepers start it.

    All that it needs is copied in one statement. False where there is one of this name. Raises `BrokenArchive`, and `KeeperError` where
    the position is pruned meanwhile.
    """
    try:
        base, chain = _checked(referee, row.id, position)
    except Pruned as error:
        raise _pruned(row, position) from error
    return made_at(
        referee,
        row,
        position,
        name,
        {"base": base, "chain": chain, "read_only": True, "table": None, "secret": None},
    )


def made_at(referee: Referee, row: Row, position: int, name: str, values: dict[str, Any]) -> bool:
    """Makes a database of what another one was at a position, in one statement: `values` are its base, its digest, and what it is to have.
    False where there is one of this name. Raises `KeeperError` where the position is pruned meanwhile.
    """
    until = Bases(referee, row.id).came(position) if position else None
    ancestor = written_name(referee, row, position)
    try:
        identity, kept = str(uuid4()), referee.table(row.id)
        stored = referee.stored(
            identity, values["table"] or kept.text, values["secret"] or kept.secret
        )
        made = referee._ask(
            _MAKE,
            {
                **values,
                "log": row.id,
                "name": name,
                "position": position,
                "until": until,
                "ancestor": ancestor,
                "identity": identity,
                **stored,
            },
        )
    except Refused as error:
        if isinstance(error.__cause__, psycopg.errors.UniqueViolation):
            return False
        raise
    if not made and not referee._ask("SELECT 1 FROM pagelog_log WHERE name = %s", (name,)):
        raise _pruned(row, position)
    return bool(made)


def _pruned(row: Row, position: int) -> KeeperError:
    return KeeperError(f"position {position} of {row.name} was pruned meanwhile")


def _checked(referee: Referee, log: int, position: int) -> tuple[int, bytes]:
    """The base from which a position is begun again, and the digest of all blocks up to it, once each of them is looked at."""
    base = Bases(referee, log).newest(position)
    chain = base.chain
    for piece in referee.blocks(log, base.position + 1, position):
        chain = digest(chain, piece)
    for _ in Bases(referee, log).images(base):
        pass  # each is checked, and in the end all
    return base.position, chain
