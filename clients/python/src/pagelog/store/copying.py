"""Copies the objects of a database to another store, or compares them where they are."""

from __future__ import annotations

import zlib
from dataclasses import dataclass
from typing import Callable, Iterator

from pagelog.objects.pack import images_in, named_base, read_manifest
from pagelog.objects.place import Missing, Store, store_of
from pagelog.objects.segment import BrokenObject, decode
from pagelog.objects.settings import StoreSettings
from pagelog.referee import object_statements as tables
from pagelog.referee.referee import BrokenArchive, Referee, digest
from pagelog.referee.through import ObjectRow, fetched, is_of

_AT_ONCE = 500


@dataclass
class Copied:
    """How many objects were copied, of so many bytes, and how many were there."""

    copied: int = 0
    there: int = 0
    bytes: int = 0


def objects_of(referee: Referee, log: int) -> Iterator[ObjectRow]:
    """The objects that were read back once, in order."""
    first = 0
    while rows := referee._ask(tables.OF_LOG, {"log": log, "first": first, "count": _AT_ONCE}):
        for key, start, last, _, wanted in rows:
            yield ObjectRow(start, last, key, bytes(wanted))
        first = rows[-1][1]


@dataclass(frozen=True)
class OtherObject:
    """A pack or a manifest, and the SHA-256 of its bytes."""

    key: str
    digest: bytes


def packs_of(referee: Referee, log: int) -> list[OtherObject]:
    """Those that were read back once."""
    return [
        OtherObject(key, bytes(digest))
        for key, digest in referee._ask(tables.PACKS_OF_LOG, {"log": log})
    ]


def copy(
    referee: Referee,
    log: int,
    source: StoreSettings,
    target: StoreSettings,
    told: Callable[[int, int], None],
) -> Copied:
    """Copies those that are not there. Raises `BrokenObject` where one is damaged at its source."""
    of, to, done = store_of(source), store_of(target), Copied()
    rows: list[ObjectRow | OtherObject] = [*objects_of(referee, log), *packs_of(referee, log)]
    for number, row in enumerate(rows, 1):
        if _has(to, row):
            done.there += 1
        else:
            data = fetched(of, row.key, row.digest)
            to.put(row.key, data)
            if not _has(to, row):
                raise BrokenObject(f"the other store does not return what was put: {row.key}")
            done.copied, done.bytes = done.copied + 1, done.bytes + len(data)
        told(number, len(rows))
    return done


def _has(store: Store, row: ObjectRow | OtherObject) -> bool:
    try:
        return is_of(store.get(row.key), row.digest)
    except Missing:
        return False


@dataclass
class VerifiedStore:
    """What was read of the store: so many objects, blocks and images."""

    objects: int = 0
    blocks: int = 0
    images: int = 0


def part_of_day(key: str, days: int, day: int) -> bool:
    """Whether an object is one of those that are read on a day, where all are within so many: about as many on each."""
    return zlib.crc32(key.encode()) % days == day % days


def verify(
    referee: Referee,
    log: int,
    settings: StoreSettings,
    told: Callable[[int, int], None],
    is_read: Callable[[str], bool] = lambda key: True,
) -> VerifiedStore:
    """Reads all objects of a database, or those whose key `is_read`, whole, and compares each with its row, its blocks with the digests between
    them, and its images with what the pack says of each. Raises `BrokenArchive`."""
    store, done = store_of(settings), VerifiedStore()
    rows = [row for row in objects_of(referee, log) if is_read(row.key)]
    others = [other for other in packs_of(referee, log) if is_read(other.key)]
    for number, other in enumerate(others, 1):
        done.objects, done.images = done.objects + 1, done.images + _images_in(store, other)
        told(number, len(others) + len(rows))
    for number, row in enumerate(rows, len(others) + 1):
        try:
            segment = decode(fetched(store, row.key, row.digest), row.key)
            blocks = segment.blocks(segment.head.first, segment.head.last)
        except BrokenObject as error:
            raise BrokenArchive(
                f"the archived blocks {row.first} to {row.last}: {error}"
            ) from error
        if digest(segment.head.before, blocks) != segment.head.after:
            raise BrokenArchive(
                f"the blocks {row.first} to {row.last} of {row.key} are not those that were archived"
            )
        done.objects, done.blocks = done.objects + 1, done.blocks + row.last - row.first + 1
        told(number, len(others) + len(rows))
    return done


def _images_in(store: Store, row: OtherObject) -> int:
    """How many images a pack has, each checked; a manifest is checked, and has none."""
    try:
        data = fetched(store, row.key, row.digest)
        if named_base(row.key) is None:
            return sum(1 for _ in images_in(data, row.key))
        read_manifest(data, row.key)
        return 0
    except BrokenObject as error:
        raise BrokenArchive(f"images: {error}") from error
