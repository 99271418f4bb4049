"""Makes a named database again from a store alone, once PostgreSQL is lost: rows are written into another one, and no block is copied."""

from __future__ import annotations

import secrets
import uuid
from concurrent.futures import ThreadPoolExecutor
from dataclasses import dataclass
from datetime import datetime
from functools import partial
from typing import Any, Iterable

import psycopg

from pagelog.objects.pack import Manifest, named_base, read_manifest
from pagelog.objects.place import Missing, Store
from pagelog.objects.segment import (
    HEAD_SIZE,
    BrokenObject,
    SegmentFacts,
    SegmentHead,
    decode,
    head_of,
)
from pagelog.referee.bases import transaction
from pagelog.referee.referee import KeeperError, Referee, digest
from pagelog.referee.schema import CHANNEL, FORMAT
from pagelog.referee.through import fetched, moment_of
from pagelog.store.histories import History, NoHistory, Part, folders_of, histories

GAP = 1000
"""The next generation is so far above each that the store knows: those that were never sealed have numbers, too."""
_AT_ONCE = 16
_LOG = f"""
INSERT INTO pagelog_log (name, format, archived, epoch, chain, generation, next_generation, doubted, identity)
VALUES (%(name)s, {FORMAT}, %(last)s, 1, %(chain)s, %(generation)s, %(generation)s + 1, %(generation)s, %(identity)s::uuid) RETURNING id
"""
_REST = """
WITH tabled AS (
  INSERT INTO pagelog_table (log, text, secret, sealed, key) VALUES (%(log)s, %(text)s, %(secret)s, %(sealed)s::bytea, %(key)s::text)),
noted AS (
  INSERT INTO pagelog_generation (log, generation, run, holder, base, shift) VALUES (%(log)s, %(generation)s, %(run)s, '', %(last)s, 0))
INSERT INTO pagelog_store (log, folder, moved, cut, chain) VALUES (%(log)s, %(folder)s, %(last)s, %(last)s, %(chain)s) RETURNING log
"""
_OBJECT = """
INSERT INTO pagelog_object (log, first, last, key, size, digest, raw, raw_digest, after, came, until, state)
VALUES (%s, %s, %s, %s, %s, %s, %s, %s, %s, %s, %s, 2)
"""
_BASE = "INSERT INTO pagelog_base (log, base, chain, digest, pages, came) VALUES (%s, %s, %s, %s, %s, %s)"
_PACK = "INSERT INTO pagelog_pack (log, number, key, size, digest, raw, state) VALUES (%s, %s, %s, %s, %s, 0, 2)"
_IMAGE = """
INSERT INTO pagelog_image (log, range, base, pages, crc, data, pack, at, length, digest) VALUES (%s, %s, %s, %s, %s, '', %s, %s, %s, %s)
ON CONFLICT DO NOTHING
"""
_EMPTIED = """
INSERT INTO pagelog_image (log, range, base, pages, crc, data)
SELECT %(log)s, range, %(base)s, '\\x0000000000000000', 0, '' FROM (
  SELECT range FROM pagelog_image WHERE log = %(log)s AND base < %(base)s EXCEPT SELECT unnest(%(ranges)s::integer[])) v
ON CONFLICT DO NOTHING
"""
"""A manifest names no range that has no page any more: without a row the image of an older base would be taken for its own."""


@dataclass(frozen=True)
class Rescued:
    """What was found: the history that was taken, of which so many bases, and where others part from it and end. What was archived after `until`
    is lost."""

    history: History
    others: tuple[tuple[int, History], ...]
    until: datetime | None
    generation: int
    bases: int


def found_in(store: Store, name: str, folder: str | None = None) -> tuple[str, list[History]]:
    """The folder of a database, and its histories, the latest first. Raises `NoHistory`, also where there are several databases of the
    name and none was chosen."""
    folders = folders_of(name, (key for key, _ in store.list(f"{name}.")))
    folders = {
        known: [key for key in keys if named_base(key) is None or _is_whole(store, key)]
        for known, keys in folders.items()
    }
    if folder is not None:
        folders = {known: keys for known, keys in folders.items() if known == folder}
    if len(folders) != 1:
        raise NoHistory(
            f"the store has no blocks of {name}"
            if not folders
            else f"the store has several databases {name}: say which by "
            f"--stored: {', '.join(sorted(folders))}"
        )
    [(chosen, keys)] = folders.items()

    def others() -> list[str]:
        return [key for key, _ in store.list("")]

    return chosen, histories(keys, others, partial(digest_within, store))


def _is_whole(store: Store, key: str) -> bool:
    """Whether a manifest can be read: it is no hindrance where it cannot."""
    try:
        read_manifest(store.get(key), key)
    except (Missing, BrokenObject):
        return False
    return True


def _one_each(store: Store, keys: list[str]) -> list[str]:
    """One manifest of each position: where one was made again, as packs could not be read, the one whose packs are there."""
    of: dict[int, list[str]] = {}
    for key in keys:
        of.setdefault(int(key.rpartition("/")[2][:16], 16), []).append(key)
    return [
        next((key for key in some if len(some) > 1 and _has_packs(store, key)), some[-1])
        for _, some in sorted(of.items())
    ]


def _has_packs(store: Store, key: str) -> bool:
    try:
        return all(
            bool(fetched(store, pack.key, pack.digest))
            for pack in read_manifest(store.get(key), key).packs
        )
    except BrokenObject:
        return False


def bases_of(store: Store, folder: str, history: History, first: int) -> list[str]:
    """The keys of the manifests that are of a history, from a position on."""
    within = partial(digest_within, store)
    keys = [
        key
        for key, _ in store.list(f"{folder}/bases/")
        if (base := named_base(key)) is not None
        and first <= base.position <= history.last
        and _is_whole(store, key)
        and history.has(base, within)
    ]
    return _one_each(store, keys)


def digest_within(store: Store, key: str, position: int) -> bytes:
    """The digest of all blocks up to a position that an object has."""
    segment = decode(store.get(key), key)
    return digest(segment.head.before, segment.blocks(segment.head.first, position))


def rescue(
    store: Store, referee: Referee, name: str, table: str, folder: str | None = None
) -> Rescued:
    """Writes its rows, all or none. Raises `NoHistory`, `BrokenObject` where an object is another's, `Missing` where one is gone, and
    `KeeperError` where PostgreSQL has a database of this name."""
    chosen, found = found_in(store, name, folder)
    history = found[0]
    bases = bases_of(store, chosen, history, history.start)
    with ThreadPoolExecutor(_AT_ONCE, "store") as threads:
        heads = list(threads.map(partial(_head, store), history.parts))
    generation = max(each.generation for each in found) + GAP
    referee.prepare()
    identity = str(_identity(store, chosen, heads, bases))
    if referee._ask(
        "SELECT 1 FROM pagelog_log WHERE name = %s OR identity = %s::uuid", (name, identity)
    ):
        raise KeeperError(f"PostgreSQL has a database {name}, or had it")
    values = {
        "name": name,
        "last": history.last,
        "chain": history.after,
        "generation": generation,
        "identity": identity,
        "folder": chosen,
        "run": f"rescued {secrets.token_hex(8)}",
        **referee.stored(identity, table, secrets.token_bytes(16)),
    }
    until = _write(
        referee, values, history, heads, (read_manifest(store.get(key), key) for key in bases)
    )
    return Rescued(
        history,
        tuple((each.parts_from(history), each) for each in found[1:]),
        until,
        generation,
        len(bases),
    )


def _head(store: Store, part: Part) -> tuple[SegmentHead, SegmentFacts]:
    return head_of(store.get(part.key, 0, HEAD_SIZE), part.key)


def _identity(
    store: Store, folder: str, heads: list[tuple[SegmentHead, SegmentFacts]], bases: list[str]
) -> uuid.UUID:
    """The identity of the database, which its own objects have: those of what a branch began with have another."""
    for head, _ in reversed(heads):
        if folder.endswith(f".{str(head.identity)[:8]}"):
            return head.identity
    return read_manifest(store.get(bases[-1]), bases[-1]).facts.identity


def _write(
    referee: Referee,
    values: dict[str, Any],
    history: History,
    heads: list[tuple[SegmentHead, SegmentFacts]],
    bases: Iterable[Manifest],
) -> datetime | None:
    """One transaction: keepers see the database once all is there. Returns when the last block was archived."""
    until = moment_of(heads[-1][1].until) if heads else None
    rows = []
    for part, (head, facts) in zip(history.parts, heads):
        is_whole = part.last == head.last
        rows.append(
            (
                part.said.first,
                part.last,
                part.key,
                0,
                bytes.fromhex(part.said.digest),
                facts.size,
                facts.raw_digest,
                head.after if is_whole else b"",
                moment_of(facts.came),
                moment_of(facts.until) if is_whole else None,
            )
        )
    with transaction(referee):
        [[log]] = referee._ask(_LOG, values)
        referee._ask(_REST, {**values, "log": log})
        try:
            with referee._connected().cursor() as cursor:
                cursor.executemany(_OBJECT, [(log, *row) for row in rows])
                packs, numbers = 0, dict[str, int]()
                for base in bases:
                    packs = write_base(cursor, log, base, numbers, packs)
                    until = until or moment_of(base.facts.came)
                cursor.execute("UPDATE pagelog_store SET packs = %s WHERE log = %s", (packs, log))
        except psycopg.Error as error:
            raise referee._meaning(error) from error
    referee._ask(f"SELECT pg_notify('{CHANNEL}', '')")
    return until


def write_base(
    cursor: psycopg.Cursor[Any], log: int, base: Manifest, numbers: dict[str, int], given: int
) -> int:
    """The rows of a base. `numbers` are those of packs that have one; an image may be one of an earlier base, too. So many numbers were given,
    and are then."""
    facts = base.facts
    cursor.execute(
        _BASE, (log, facts.position, facts.chain, facts.digest, facts.pages, moment_of(facts.came))
    )
    fresh = [pack for pack in base.packs if pack.key not in numbers]
    numbers.update({pack.key: given + number for number, pack in enumerate(fresh, 1)})
    cursor.executemany(
        _PACK, [(log, numbers[pack.key], pack.key, pack.size, pack.digest) for pack in fresh]
    )
    cursor.executemany(
        _IMAGE,
        [
            (
                log,
                each.range,
                each.base,
                each.mask.to_bytes(8, "big"),
                each.crc,
                numbers[base.packs[number].key],
                each.at,
                each.length,
                each.digest,
            )
            for each, number in base.images
        ],
    )
    ranges = [each.range for each, _ in base.images]
    cursor.execute(_EMPTIED, {"log": log, "base": facts.position, "ranges": ranges})
    return given + len(fresh)
