"""Brings a database forward whose PostgreSQL went back while its store has more: rows are written, and no block is copied.

What comes is of the same database by its identity, and goes on from PostgreSQL's last position by the digest of all blocks up to there. Each
object is read and compared first. Then all rows are written in one transaction, if the database is as it was seen, with the same run, and
nobody has come to life who holds it or has a service of it.
"""

from __future__ import annotations

import hashlib
import secrets
import uuid
from concurrent.futures import ThreadPoolExecutor
from dataclasses import dataclass, field
from datetime import datetime
from functools import partial
from types import MappingProxyType
from typing import Any, Callable, Iterator, Mapping

import psycopg

from pagelog.objects.pack import Manifest, read_manifest
from pagelog.objects.place import Store
from pagelog.objects.segment import BrokenObject, Segment, decode, folder_of, named
from pagelog.referee.bases import transaction
from pagelog.referee.referee import KeeperError, Referee, digest
from pagelog.referee.rows import ASIDE, Row
from pagelog.referee.schema import CHANNEL
from pagelog.referee.through import fetched, moment_of
from pagelog.store.histories import History, Part, beyond
from pagelog.store.mover import nothing
from pagelog.store.rescuing import GAP, bases_of, digest_within, write_base

_AT_ONCE = 4
"""Objects that are read at once."""
_PLACE = """
UPDATE pagelog_log l SET archived = l.archived WHERE l.id = %(id)s AND l.identity = %(identity)s::uuid
RETURNING (SELECT folder FROM pagelog_store WHERE log = l.id), COALESCE((SELECT cut FROM pagelog_store WHERE log = l.id), 0),
  COALESCE((SELECT min(lsn) FROM pagelog_block WHERE log = l.id), l.archived + 1), COALESCE((SELECT max(base) FROM pagelog_base WHERE log = l.id), 0)
"""
"""Where the objects of a database are, up to where they alone have its blocks, the first block that is here, and the newest base."""
_FENCE = """
UPDATE pagelog_log l SET archived = %(last)s, chain = %(after)s, base = %(last)s, shift = 0, images = 0, generation = %(next)s,
  next_generation = %(next)s + 1, doubted = %(next)s, run = NULL, holder = NULL, address = NULL, secure = NULL, wanted = NULL, succeed = false
WHERE id = %(id)s AND identity = %(identity)s::uuid AND NOT dropped AND generation = %(generation)s AND archived = %(archived)s
  AND chain = %(chain)s AND run IS NOT DISTINCT FROM %(run)s::text
  AND NOT EXISTS (SELECT 1 FROM pagelog_keeper k
    WHERE (k.name = l.holder OR k.report @> jsonb_build_object(%(aside)s::text, jsonb_build_array(jsonb_build_object('database', l.identity::text))))
      AND NOT EXISTS (SELECT 1 FROM unnest(%(silent)s::text[], %(beats)s::bigint[]) AS s(name, beat) WHERE s.name = k.name AND s.beat = k.beat))
RETURNING id
"""
_CUT = """
INSERT INTO pagelog_store AS s (log, folder, moved, cut, chain) VALUES (%(id)s, %(folder)s, %(last)s, %(last)s, %(after)s)
ON CONFLICT (log) DO UPDATE SET moved = excluded.moved, cut = excluded.cut, chain = excluded.chain WHERE s.cut = %(cut)s RETURNING packs
"""
_UNDONE = """
WITH gone AS (DELETE FROM pagelog_object WHERE log = %(id)s AND state < 2 RETURNING key)
INSERT INTO pagelog_gone (key) SELECT key FROM gone WHERE key <> ALL(%(keys)s::text[]) ON CONFLICT (key) DO UPDATE SET since = now() RETURNING key
"""
"""What was on its way to the store has its place in other objects, or in the same, which are there."""
_OBJECT = """
INSERT INTO pagelog_object (log, first, last, key, size, digest, raw, raw_digest, after, came, until, state)
VALUES (%s, %s, %s, %s, %s, %s, %s, %s, %s, %s, %s, 2)
"""
_NOTED = """
WITH unknown AS (UPDATE pagelog_generation SET run = 'lost ' || run WHERE log = %(id)s AND run = %(unknown)s::text)
INSERT INTO pagelog_generation (log, generation, run, holder, base, shift)
VALUES (%(id)s, %(next)s, %(name)s, '', %(end)s, 0) RETURNING pg_notify(%(channel)s, '')
"""
"""Where a run has ended is not known once others have archived behind it: its writers are told that it is lost, as those of these."""


class OtherHistory(KeeperError):
    """The store has more, and it does not go on from what PostgreSQL has."""


@dataclass(frozen=True)
class Brought:
    """An object that was read and compared, with the positions from `first` on that PostgreSQL is to find there."""

    first: int
    last: int
    key: str
    size: int
    digest: bytes = field(repr=False)
    raw: int
    raw_digest: bytes = field(repr=False)
    after: bytes = field(repr=False)
    came: datetime | None
    until: datetime | None

    def row(self, log: int) -> tuple[Any, ...]:
        """As the statement takes it."""
        return (log, *vars(self).values())


@dataclass(frozen=True)
class Ahead:
    """What the store has behind what PostgreSQL has of a database, as it was seen: the first of the objects may begin below that. `others`
    are histories that go on from there too, with the position behind which each parts from the one that is taken; `came` is when the first
    block that PostgreSQL lacks was archived."""

    row: Row
    folder: str
    cut: int
    history: History
    objects: tuple[Brought, ...]
    bases: tuple[str, ...]
    others: tuple[tuple[int, History], ...]
    came: datetime | None

    @property
    def last(self) -> int:
        """Up to which position it goes."""
        return self.history.last

    @property
    def until(self) -> datetime | None:
        """When its latest block was archived."""
        return self.objects[-1].until

    @property
    def is_of_one_run(self) -> bool:
        """Whether the run that PostgreSQL names has archived all of it: no object was sealed in a later generation."""
        return self.row.run is not None and all(
            part.said.generation == self.row.generation for part in self.new
        )

    @property
    def new(self) -> list[Part]:
        """The objects with positions that PostgreSQL lacks."""
        return [part for part in self.history.parts if part.last > self.row.archived]


def found_ahead(
    store: Store, referee: Referee, row: Row, told: Callable[[int, int], None]
) -> Ahead | None:
    """What there is to be brought, compared to the last byte; None where the store has nothing more. Raises `OtherHistory`, `BrokenObject`
    where an object is not what its key says, and `KeeperError` where something between is missing.
    """
    found = referee._ask(_PLACE, {"id": row.id, "identity": row.identity})
    if not found:
        raise KeeperError(f"{row.name} is another database by now")
    folder, cut, oldest, newest = found[0]
    folder = folder or folder_of(row.name, uuid.UUID(row.identity))
    keys = [key for key, _ in store.list(f"{folder}/")]
    within = partial(digest_within, store)
    ways = beyond(keys, row.archived, row.chain, within)
    if not ways:
        _refuse_others(keys, row)
        return None
    history = ways[0]
    parts = [part for part in history.parts if part.last > cut]
    if parts[0].said.first > max(cut + 1, oldest):
        raise KeeperError(
            f"what the store has of {row.name} begins at position {parts[0].said.first}: PostgreSQL would lose those from {max(cut + 1, oldest)} on"
        )
    objects = list[Brought]()
    with ThreadPoolExecutor(_AT_ONCE, "store") as threads:
        for one in threads.map(partial(_compared, store, row.identity, cut), parts):
            objects.append(one)
            told(len(objects), len(parts))
    bases = bases_of(store, folder, history, newest + 1)
    return Ahead(
        row,
        folder,
        cut,
        history,
        tuple(objects),
        tuple(bases),
        tuple((each.parts_from(history), each) for each in ways[1:]),
        _came(store, parts, row.archived + 1),
    )


def _refuse_others(keys: list[str], row: Row) -> None:
    ends = [said.last for said in map(named, keys) if said is not None]
    if max(ends, default=0) > row.archived:
        raise OtherHistory(
            f"the store has blocks of {row.name} up to position {max(ends)}, which do not go on from position {row.archived} of PostgreSQL: it has "
            "archived others since. Nothing of them is deleted: `pagelogctl rescue --from` writes them into an empty PostgreSQL"
        )


def _segment(store: Store, part: Part) -> tuple[bytes, Segment]:
    data = fetched(store, part.key, bytes.fromhex(part.said.digest))
    return data, decode(data, part.key)


def _compared(store: Store, identity: str, cut: int, part: Part) -> Brought:
    data, segment = _segment(store, part)
    head = segment.head
    if str(head.identity) != identity:
        raise BrokenObject(f"{part.key}: it is of another database")
    if digest(head.before, segment.blocks(head.first, head.last)) != head.after:
        raise BrokenObject(f"{part.key}: its blocks are not those that were archived")
    first = max(head.first, cut + 1)
    return Brought(
        first,
        head.last,
        part.key,
        len(data),
        hashlib.sha256(data).digest(),
        segment.size,
        segment.raw_digest,
        head.after,
        moment_of(segment.came[first - head.first]),
        moment_of(max(segment.came)),
    )


def _came(store: Store, parts: list[Part], position: int) -> datetime | None:
    """When a block of these objects was archived."""
    part = next(part for part in parts if part.said.first <= position <= part.last)
    return moment_of(_segment(store, part)[1].came[position - part.said.first])


def bring(
    store: Store,
    referee: Referee,
    ahead: Ahead,
    silent: Mapping[str, int] = MappingProxyType({}),
    passing: Callable[[str], None] = nothing,
) -> int | None:
    """Writes all of it, or nothing. Only those keepers may have said that they hold it, or have a service of it, that are `silent` since they had
    these beats. Returns the number of the generation that stands for those which are lost; None where the database is another by now, or a
    keeper has come to life."""
    row = ahead.row
    generations = [part.said.generation for part in ahead.history.parts]
    number = max(row.next_generation, *generations) + GAP
    values: dict[str, Any] = {
        **{key: getattr(row, key) for key in ("id", "identity", "generation", "archived", "run")},
        "chain": row.chain,
        "folder": ahead.folder,
        "cut": ahead.cut,
        "last": ahead.last,
        "after": ahead.history.after,
        "next": number,
        "silent": list(silent),
        "beats": list(silent.values()),
        "aside": ASIDE,
        "keys": [each.key for each in ahead.objects],
    }
    passing("compared")
    try:
        with transaction(referee):
            if not referee._ask(_FENCE, values):
                raise _Changed
            passing("fenced")
            if not (found := referee._ask(_CUT, values)):
                raise _Changed
            referee._ask(_UNDONE, values)
            with referee._connected().cursor() as cursor:
                cursor.executemany(_OBJECT, [each.row(row.id) for each in ahead.objects])
                passing("objects written")
                _write_bases(store, cursor, ahead, int(found[0][0]))
            referee._ask(_NOTED, {**values, **_ended(ahead)})
            passing("written")
    except _Changed:
        return None
    except psycopg.Error as error:
        raise referee._meaning(error) from error
    passing("brought")
    return number


class _Changed(Exception):
    """Nothing is to be written."""


def _ended(ahead: Ahead) -> dict[str, Any]:
    """What is said of the run that PostgreSQL names: it has ended where it was released, or where this ends, or nobody knows where."""
    row = ahead.row
    return {
        "unknown": None if ahead.is_of_one_run else row.run,
        "end": row.archived if row.run is None else ahead.last,
        "name": f"brought forward {secrets.token_hex(8)}",
        "channel": CHANNEL,
    }


def _write_bases(store: Store, cursor: psycopg.Cursor[Any], ahead: Ahead, packs: int) -> None:
    log = ahead.row.id
    cursor.execute("SELECT key, number FROM pagelog_pack WHERE log = %s", (log,))
    numbers: dict[str, int] = dict(cursor.fetchall())
    for base in _manifests(store, ahead):
        packs = write_base(cursor, log, base, numbers, packs)
    cursor.execute("UPDATE pagelog_store SET packs = %s WHERE log = %s", (packs, log))


def _manifests(store: Store, ahead: Ahead) -> Iterator[Manifest]:
    for key in ahead.bases:
        manifest = read_manifest(store.get(key), key)
        if str(manifest.facts.identity) != ahead.row.identity:
            raise BrokenObject(f"{key}: it is of another database")
        yield manifest
