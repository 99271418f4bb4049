"""Reads through to the store where PostgreSQL has blocks no more. PostgreSQL is asked first, always: a row that names an object is
committed before the blocks go."""

from __future__ import annotations

import hashlib
from collections import OrderedDict
from concurrent.futures import Future, ThreadPoolExecutor
from dataclasses import dataclass
from datetime import datetime, timedelta, timezone
from typing import TYPE_CHECKING, Any, Callable, Iterable, Iterator, Sequence, TypeVar

from pagelog.images import Image
from pagelog.objects.pack import Packed, image_of, is_packed
from pagelog.objects.place import Missing, Store, StoreAway, StoreError, store_of
from pagelog.objects.segment import BrokenObject, Segment, decode
from pagelog.objects.settings import StoreSettings
from pagelog.referee import object_statements as tables
from pagelog.referee.errors import Away, BrokenArchive, KeeperError

if TYPE_CHECKING:
    from pagelog.referee.referee import Referee

T = TypeVar("T")
KEY_DIGEST = 8
"""So many bytes of its digest a key has."""
AHEAD = 2
"""Objects that are fetched while one is read."""
_BEGAN = datetime(1970, 1, 1, tzinfo=timezone.utc)


@dataclass(frozen=True)
class ObjectRow:
    """The object `key` has the positions from `first` to `last`, and perhaps more; `digest` is the SHA-256 of its bytes."""

    first: int
    last: int
    key: str
    digest: bytes


def fetched(store: Store, key: str, digest: bytes) -> bytes:
    """The bytes of an object that have this digest, of an older version if need be. Raises `BrokenObject`."""
    try:
        data: bytes | None = store.get(key)
    except Missing:
        data = None
    if data is not None and is_of(data, digest):
        return data
    for older in store.older(key):
        if is_of(older, digest):
            return older
    raise BrokenObject(
        f"the object {key} {'is missing' if data is None else 'has other bytes than those that were put'}"
    )


def is_of(data: bytes, digest: bytes) -> bool:
    """Whether bytes have this SHA-256, or one that begins so: of what was rescued only that is known which a key has."""
    return len(digest) >= KEY_DIGEST and hashlib.sha256(data).digest().startswith(digest)


@dataclass(frozen=True)
class InPack:
    """An image, and the key of the pack that has it."""

    packed: Packed
    key: str


class Through:
    """The way of one referee to the store. It is for one thread at a time, as that is."""

    def __init__(self, referee: Referee, settings: StoreSettings | None) -> None:
        self._referee, self._settings = referee, settings
        self._store: Store | None = None
        self._threads: ThreadPoolExecutor | None = None
        self._held: OrderedDict[str, Future[Segment]] = OrderedDict()

    def close(self) -> None:
        """Nothing is fetched any more."""
        if self._threads is not None:
            self._threads.shutdown(wait=False, cancel_futures=True)
        self._threads = None
        self._held.clear()

    def blocks(self, log: int, first: int, last: int) -> list[bytes]:
        """The archived blocks of these positions, from wherever they are. Raises `BrokenArchive`, and `Away` where the store is."""
        found: list[bytes] = []
        while first <= last:
            rows = self._rows(log, first)
            if rows:
                upto = min(last, rows[0].last)
                segment = self._segment(rows)
                try:
                    found += segment.blocks(first, upto)
                except BrokenObject as error:
                    raise BrokenArchive(f"{rows[0].key}: {error}") from error
                first = upto + 1
                continue
            here = self._referee.piece_here(log, first, last)
            if here is not None:
                return found + here
            if not self._rows(log, first):  # else it was cut just now
                raise BrokenArchive(
                    f"of the archived blocks {first} to {last} some are missing, in PostgreSQL and in the store"
                )
        return found

    def has(self, log: int, position: int) -> bool:
        """Whether an object has it."""
        return bool(self._rows(log, position))

    def came(self, log: int, position: int) -> datetime | None:
        """When a block that an object has was archived."""
        rows = self._rows(log, position)
        if not rows:
            return None
        segment = self._segment(rows[:1])
        return moment_of(segment.came[position - segment.head.first])

    def first_since(self, log: int, time: datetime) -> int | None:
        """The first position in the store that was archived after this time."""
        found = self._ask(tables.SINCE, {"log": log, "time": time})
        if not found:
            return None
        row = found[0]
        segment, micros = self._segment([row]), round((time - _BEGAN) / timedelta(microseconds=1))
        return next(
            (
                at
                for at in range(row.first, row.last + 1)
                if segment.came[at - segment.head.first] > micros
            ),
            None,
        )

    def segments(self, log: int, first: int, last: int) -> Iterator[tuple[ObjectRow, Segment]]:
        """The objects that have some of these positions, the last first."""
        for row in self._ask(tables.BEFORE, {"log": log, "first": first, "last": last}):
            yield row, self._segment([row])

    def images(self, rows: Sequence[Sequence[Any]]) -> Callable[[], dict[int, Image]]:
        """Begins to fetch the images of those rows of `Bases` that have a key, those that are beside each other in a pack by one request. What it
        returns waits for them, and raises as `blocks`."""
        store = self._opened("images of pages")
        wanted = [
            InPack(
                Packed(range, base, int.from_bytes(pages, "big"), crc, at, length, bytes(digest)),
                key,
            )
            for range, pages, crc, _, base, key, at, length, digest in rows
            if key is not None
        ]
        runs = runs_of(wanted)
        jobs = [self._pool().submit(_read_images, store, run) for run in runs]

        def taken() -> dict[int, Image]:
            found: dict[int, Image] = {}
            for run, job in zip(runs, jobs):
                images: dict[int, Image] = self._result(
                    job,
                    f"the images from range {run[0].packed.range} on at position {run[0].packed.base}",
                )
                found.update(images)
            return found

        return taken

    def _rows(self, log: int, position: int) -> list[ObjectRow]:
        """The object that has it, and the next ones; nothing where no object has it."""
        rows = self._ask(tables.FIND, {"log": log, "position": position, "count": 1 + AHEAD})
        return rows if rows and rows[0].first <= position else []

    def _ask(self, statement: str, values: dict[str, Any]) -> list[ObjectRow]:
        return [
            ObjectRow(first, last, key, bytes(digest))
            for first, last, key, digest in self._referee._ask_bounded(statement, values)
        ]

    def _segment(self, rows: list[ObjectRow]) -> Segment:
        """That of the first; the others are fetched meanwhile."""
        row = rows[0]
        what = f"the archived blocks {row.first} to {row.last}"
        store = self._opened(what)
        for each in rows:
            if each.key not in self._held:
                self._held[each.key] = self._pool().submit(_read, store, each)
            self._held.move_to_end(each.key)
        while len(self._held) > 1 + AHEAD:
            self._held.popitem(last=False)[1].cancel()
        try:
            return self._result(self._held[row.key], what)
        except BaseException:
            del self._held[row.key]  # asked again it is read again
            raise

    def _result(self, job: Future[T], what: str) -> T:
        try:
            return job.result()
        except StoreAway as error:
            raise Away(f"{what} are in the store: {error}") from error
        except BrokenObject as error:
            raise BrokenArchive(f"{what} cannot be read: {error}") from error
        except StoreError as error:
            raise KeeperError(str(error)) from error

    def _pool(self) -> ThreadPoolExecutor:
        if self._threads is None:
            self._threads = ThreadPoolExecutor(1 + AHEAD, "store")
        return self._threads

    def _opened(self, what: str) -> Store:
        if self._settings is None:
            raise KeeperError(
                f"{what} are in a store, and the credentials name none: say [archive] store"
            )
        if self._store is None:
            try:
                self._store = store_of(self._settings)
            except StoreError as error:
                raise KeeperError(str(error)) from error
        return self._store


def _read(store: Store, row: ObjectRow) -> Segment:
    segment = decode(fetched(store, row.key, row.digest), row.key)
    if not segment.head.first <= row.first <= row.last <= segment.head.last:
        raise BrokenObject(f"the object {row.key} has other positions than its row says")
    return segment


def runs_of(wanted: Iterable[InPack]) -> list[list[InPack]]:
    """Images in packs, those together that are one after the other there."""
    runs = list[list[InPack]]()
    for each in sorted(wanted, key=lambda each: (each.key, each.packed.at)):
        before = runs[-1][-1] if runs else None
        if before is not None and (before.key, before.packed.at + before.packed.length) == (
            each.key,
            each.packed.at,
        ):
            runs[-1].append(each)
        else:
            runs.append([each])
    return runs


def _read_images(store: Store, run: Sequence[InPack]) -> dict[int, Image]:
    """Those of a run. Raises `BrokenObject`."""
    parts = parts_of(store, run)
    return {
        each.packed.range: image_of(each.packed, part, each.key) for each, part in zip(run, parts)
    }


def parts_of(store: Store, run: Sequence[InPack]) -> list[bytes]:
    """The bytes of each image of a run, as they are compressed in the pack, of an older version of
    it if need be. Raises `BrokenObject`."""
    key, first = run[0].key, run[0].packed.at
    end = run[-1].packed.at + run[-1].packed.length
    try:
        data: bytes | None = store.get(key, first, end - first)
    except Missing:
        data = None
    parts = data
    if parts is None or not _are_packed(run, parts):
        parts = next(
            (part for older in store.older(key) if _are_packed(run, part := older[first:end])), None
        )
    if parts is None:
        raise BrokenObject(
            f"the object {key} {'is missing' if data is None else 'has other bytes than those that were put'}"
        )
    return [_part(run, each, parts) for each in run]


def _part(run: Sequence[InPack], each: InPack, parts: bytes) -> bytes:
    at = each.packed.at - run[0].packed.at
    return parts[at : at + each.packed.length]


def _are_packed(run: Sequence[InPack], parts: bytes) -> bool:
    return all(is_packed(each.packed, _part(run, each, parts)) for each in run)


def moment_of(micros: int) -> datetime | None:
    """A time of a segment; None where nobody noted it."""
    return _BEGAN + timedelta(microseconds=micros) if micros else None
