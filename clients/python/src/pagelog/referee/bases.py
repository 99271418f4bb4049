"""The bases of a database: images of its pages at some positions, in PostgreSQL or in packs of the store, and what may be pruned below them.

What is read here is of no one moment: pruning goes on beside it. It takes the row of a base first, and then its images. So who has read
images of a base whose row is there afterwards has read the right ones.
"""

from __future__ import annotations

import hashlib
import zlib
from collections import deque
from contextlib import AbstractContextManager, contextmanager, suppress
from dataclasses import dataclass, field
from datetime import datetime
from typing import Any, Callable, Iterable, Iterator, Sequence

import psycopg
from psycopg.pq import TransactionStatus

from pagelog.images import MARK, Image, Replay
from pagelog.referee.ahead import pieces_of
from pagelog.referee.batches import array_of
from pagelog.referee.referee import (
    BrokenArchive,
    BrokenBase,
    Doubt,
    KeeperError,
    Pruned,
    Referee,
    Refused,
    digest,
)

AT_ONCE, AHEAD = 4, 3
"""Images of one statement, 2 MiB at most, and how many such parts are fetched while one is used."""
_PRUNED_AT_ONCE = 10_000
_HEADS = """
SELECT DISTINCT ON (range) range, pages, crc FROM pagelog_image
WHERE log = %s AND base <= %s AND range > %s ORDER BY range, base DESC LIMIT %s
"""
_NEWEST = """
SELECT i.range, i.pages, i.crc, i.data, i.base, p.key, i.at, i.length, i.digest FROM (
  SELECT DISTINCT ON (range) * FROM pagelog_image WHERE log = %s AND base <= %s AND range > %s ORDER BY range, base DESC LIMIT %s) i
LEFT JOIN pagelog_pack p ON p.log = i.log AND p.number = i.pack AND p.state = 2 ORDER BY i.range
"""
"""The key is that of the pack which alone has the image."""
_KEEP = """
WITH owner AS (SELECT id FROM pagelog_log WHERE id = %(log)s FOR KEY SHARE)
INSERT INTO pagelog_image (log, range, base, pages, crc, data)
SELECT owner.id, v.range, %(base)s, substring(%(masks)b::bytea FROM (8 * v.n - 7)::integer FOR 8), v.crc,
  substring(%(bytes)b::bytea FROM v.start FOR v.length)
FROM owner, unnest(%(ranges)s::integer[], %(crcs)s::bigint[], %(starts)s::integer[], %(lengths)s::integer[])
  WITH ORDINALITY AS v(range, crc, start, length, n)
ON CONFLICT (log, range, base) DO UPDATE SET pages = excluded.pages, crc = excluded.crc, data = excluded.data, pack = NULL, at = NULL, length = NULL,
  digest = NULL RETURNING range
"""
"""No row goes in unless there is the database's, which stays until all are committed. Images have no foreign key: it would ask for each."""
_UNNAME = """
WITH gone AS (
  UPDATE pagelog_base b SET manifest = NULL, manifest_digest = NULL, is_stored = false FROM pagelog_base o
  WHERE b.log = %(log)s AND b.base >= %(position)s AND b.manifest IS NOT NULL AND o.log = b.log AND o.base = b.base RETURNING o.manifest)
INSERT INTO pagelog_gone (key) SELECT manifest FROM gone ON CONFLICT (key) DO UPDATE SET since = now() RETURNING key
"""
_UNDO_BASES = """
WITH gone AS (DELETE FROM pagelog_base WHERE log = %(log)s AND base >= %(position)s RETURNING base, manifest)
INSERT INTO pagelog_gone (key) SELECT manifest FROM gone WHERE manifest IS NOT NULL ON CONFLICT (key) DO UPDATE SET since = now() RETURNING key
"""
# Each statement that prunes has the condition that nobody holds the database. The first takes a lock by it: who holds it then knows what is
# kept; the others only take what nothing needs any more.
_IS_FREE = "EXISTS (SELECT 1 FROM pagelog_log WHERE id = %(log)s AND held IS NULL)"
_PRUNE_BASES = """
WITH free AS (SELECT id FROM pagelog_log WHERE id = %(log)s AND held IS NULL FOR SHARE),
gone AS (DELETE FROM pagelog_base WHERE log IN (SELECT id FROM free) AND base < %(position)s RETURNING base, manifest)
INSERT INTO pagelog_gone (key) SELECT manifest FROM gone WHERE manifest IS NOT NULL ON CONFLICT (key) DO UPDATE SET since = now() RETURNING key
"""
_PRUNE_IMAGES = f"""
DELETE FROM pagelog_image i WHERE log = %(log)s AND base < %(position)s AND {_IS_FREE} AND EXISTS (SELECT 1 FROM pagelog_image j
  WHERE j.log = i.log AND j.range = i.range AND j.base > i.base AND j.base <= %(position)s) RETURNING range
"""
_PRUNE_PACKS = f"""
WITH gone AS (DELETE FROM pagelog_pack p WHERE log = %(log)s AND NOT instead AND {_IS_FREE}
  AND NOT EXISTS (SELECT 1 FROM pagelog_image i WHERE i.log = p.log AND i.pack = p.number) RETURNING key)
INSERT INTO pagelog_gone (key) SELECT DISTINCT key FROM gone ON CONFLICT (key) DO UPDATE SET since = now() RETURNING key
"""
_PRUNE_OBJECTS = f"""
WITH gone AS (DELETE FROM pagelog_object WHERE log = %(log)s AND last <= %(position)s AND state = 2 AND {_IS_FREE} RETURNING key, first, last),
noted AS (INSERT INTO pagelog_gone (key) SELECT DISTINCT key FROM gone ON CONFLICT (key) DO UPDATE SET since = now())
SELECT last - first + 1 FROM gone
"""
_PRUNE_STORE = f"""
UPDATE pagelog_store s SET moved = b.base, cut = b.base, chain = b.chain FROM pagelog_base b
WHERE s.log = %(log)s AND b.log = s.log AND b.base = %(position)s AND s.moved < b.base AND s.cut = s.moved AND {_IS_FREE} RETURNING s.log
"""
_PRUNE_BLOCKS = f"""
DELETE FROM pagelog_block WHERE {_IS_FREE} AND (log, lsn) IN (
  SELECT log, lsn FROM pagelog_block WHERE log = %(log)s AND lsn <= %(upto)s ORDER BY lsn LIMIT {_PRUNED_AT_ONCE}) RETURNING lsn
"""
_MARKED = """
SELECT lsn FROM pagelog_block WHERE log = %s AND lsn BETWEEN %s AND %s
  AND substring(data FROM length(data) - 48 FOR 25) = %b::bytea || int8send(lsn) ORDER BY lsn DESC LIMIT 1
"""


@dataclass(frozen=True)
class Base:
    """The images of all pages at `position` are in the archive. `chain` is the digest of all blocks up to there, `digest` that of
    the images' heads, and `pages` how many are not all zeros."""

    position: int
    chain: bytes = field(repr=False)
    digest: bytes = field(repr=False)
    pages: int


NOTHING = Base(0, b"", b"", 0)
"""The empty database, with which each log begins."""
_BROKEN = "UPDATE pagelog_base SET broken = now() WHERE log = %s AND base = %s AND digest = %s RETURNING base"
_MENDED = "UPDATE pagelog_base SET broken = NULL WHERE log = %s AND base = %s AND digest = %s AND broken IS NOT NULL RETURNING base"
_NEWEST_BASE = """
SELECT base, chain, digest, pages, COALESCE(broken > now() - interval '1 hour', false) FROM pagelog_base WHERE log = %(log)s AND base <= %(upto)s
ORDER BY 5, base DESC LIMIT 1
"""
"""One that could not be read is tried again after a while."""
_FROM_FIRST = """
SELECT 1 WHERE EXISTS (SELECT 1 FROM pagelog_block WHERE log = %(log)s AND lsn = 1) OR EXISTS (SELECT 1 FROM pagelog_object WHERE log = %(log)s AND first = 1)
"""


@contextmanager
def _begun(referee: Referee, begin: str) -> Iterator[None]:
    connection = referee._connected()
    try:
        connection.execute(begin)
        yield
        connection.execute("COMMIT")
    except psycopg.Error as error:
        raise Doubt(f"PostgreSQL: {error}") from error
    finally:
        if connection.info.transaction_status != TransactionStatus.IDLE:
            referee.close()


def snapshot(referee: Referee) -> AbstractContextManager[None]:
    """All that is read within it is of one moment: pruning goes on beside it. Nothing that a vacuum needs goes meanwhile, so no fill is in one."""
    return _begun(referee, "BEGIN ISOLATION LEVEL REPEATABLE READ READ ONLY")


def transaction(referee: Referee) -> AbstractContextManager[None]:
    """All that is asked within it is committed as one, or nothing where it raises."""
    return _begun(referee, "BEGIN")


class Bases:
    """Those of one database. What is read of them is checked."""

    def __init__(self, referee: Referee, log: int) -> None:
        self._referee, self._log = referee, log

    def newest(self, upto: int) -> Base:
        """The newest base at or below a position; not one whose images could not be read within the last hour, where there is another one, or all
        blocks are kept."""
        for base, chain, heads, pages, is_broken in self._referee._ask_bounded(
            _NEWEST_BASE, {"log": self._log, "upto": upto}
        ):
            if not (is_broken and self._referee._ask_bounded(_FROM_FIRST, {"log": self._log})):
                return Base(base, bytes(chain), bytes(heads), pages)
        return NOTHING

    def images(self, base: Base) -> Iterator[Image]:
        """All images of a base, in order. Raises `BrokenBase` where one is damaged, or in the end where they are not all: then `newest` is another
        one for a while; and `Pruned` where the base was pruned meanwhile."""
        if base is NOTHING:
            return
        heads = hashlib.blake2b(digest_size=16)
        try:
            for image in self._all(base.position):
                if image.mask:
                    heads.update(image.head)
                    yield image
            if heads.digest() != base.digest:
                raise BrokenArchive(
                    f"the images at position {base.position} are not those that were kept"
                )
        except BrokenArchive as error:
            raise self._broken(base, error) from error

    def image(self, range: int, base: Base) -> Image | None:
        """The image of one range, if the base is kept still: who is done with them calls `check_kept`. Raises as `images`."""
        try:
            found = (
                []
                if base is NOTHING
                else self._begun(self._rows(base.position, range - 1, 1), base.position)()
            )
        except BrokenArchive as error:
            raise self._broken(base, error) from error
        return found[0] if found and found[0].range == range else None

    def _broken(self, base: Base, error: BrokenArchive) -> BrokenBase:
        self.check_kept(base)
        with suppress(KeeperError):  # as within a snapshot
            self._referee._ask_bounded(_BROKEN, (self._log, base.position, base.digest))
        return BrokenBase(str(error))

    def check_kept(self, base: Base) -> None:
        """Raises `Pruned` unless the base is there still: then what was read of it is right."""
        if base is not NOTHING and not self._referee._ask_bounded(
            "SELECT 1 FROM pagelog_base WHERE log = %s AND base = %s", (self._log, base.position)
        ):
            raise Pruned(f"the base at position {base.position} was pruned meanwhile")

    def _all(self, position: int) -> Iterator[Image]:
        last, begun = -1, deque[Callable[[], list[Image]]]()
        while rows := self._rows(position, last, AT_ONCE):
            last = rows[-1][0]
            begun.append(self._begun(rows, position))
            if len(begun) > AHEAD:
                yield from begun.popleft()()
        while begun:
            yield from begun.popleft()()

    def _rows(self, position: int, last: int, count: int) -> list[Any]:
        return self._referee._ask_bounded(_NEWEST, (self._log, position, last, count), binary=True)

    def _begun(self, rows: Sequence[Any], position: int) -> Callable[[], list[Image]]:
        """Begins to fetch what the store has of these. What it returns waits for it, and checks all."""
        fetched: Callable[[], dict[int, Image]] = dict
        if any(row[5] is not None for row in rows):
            fetched = self._referee.through.images(rows)

        def taken() -> list[Image]:
            found, images = fetched(), []
            for range, pages, crc, data, *_ in rows:
                image = found.get(range) or Image(range, int.from_bytes(pages, "big"), bytes(data))
                if zlib.crc32(image.data) != crc:
                    raise BrokenArchive(
                        f"the image of range {range} at position {position} is damaged"
                    )
                images.append(image)
            return images

        return taken

    def heads(self, position: int) -> Iterator[tuple[int, bytes]]:
        """How many pages each image in force at a position has, and its head, in order; no page is read."""
        for range, pages, crc in self._head_rows(position):
            if mask := int.from_bytes(pages, "big"):
                yield mask.bit_count(), Image.head_of(range, mask, crc)

    def ranges(self, position: int) -> Iterator[int]:
        """The range of each, and of those that have no page any more."""
        return (range for range, _, _ in self._head_rows(position))

    def _head_rows(self, position: int) -> Iterator[Any]:
        last, count = -1, 1 << 16
        while rows := self._referee._ask_bounded(_HEADS, (self._log, position, last, count)):
            yield from rows
            last = rows[-1][0]

    def end_mark(self, first: int, last: int) -> int | None:
        """The last position of these at which a transaction of the VFS ends."""
        found = self._referee._ask(_MARKED, (self._log, first, last, MARK))
        if found:
            return int(found[0][0])
        return (
            self._stored_mark(first, last) if self._referee.has_stored(self._log, first) else None
        )

    def _stored_mark(self, first: int, last: int) -> int | None:
        """The same among what the store has, which is all below what PostgreSQL has."""
        for row, segment in self._referee.through.segments(self._log, first, last):
            for position in range(min(last, row.last), max(first, row.first) - 1, -1):
                if segment.block(position)[-49:-24] == MARK + position.to_bytes(8, "big"):
                    return position
        return None

    # Making one.

    def pieces(self, first: int, last: int) -> Iterator[list[bytes]]:
        """The archived blocks."""
        return pieces_of(self._referee, self._log, first, last)

    def keep_images(self, position: int, images: Iterable[Image]) -> None:
        """Keeps these images, which are not used before there is their base. Where there is it, as one that could not be read, its manifest is
        made again."""
        self._referee._ask_bounded(_UNNAME, {"log": self._log, "position": position})
        some: list[Image] = []
        for image in images:
            some.append(image)
            if len(some) == AT_ONCE:
                self._keep(position, some)
                some = []
        if some:
            self._keep(position, some)

    def _keep(self, position: int, images: Sequence[Image]) -> None:
        starts, at = [], 1
        for image in images:
            starts.append(at)
            at += len(image.data)
        kept = self._referee._ask_bounded(
            _KEEP,
            {
                "log": self._log,
                "base": position,
                "masks": b"".join(image.mask.to_bytes(8, "big") for image in images),
                "ranges": array_of(image.range for image in images),
                "crcs": array_of(zlib.crc32(image.data) for image in images),
                "starts": array_of(starts),
                "lengths": array_of(len(image.data) for image in images),
                "bytes": b"".join(image.data for image in images),
            },
        )
        if not kept:
            raise Refused(f"PostgreSQL has no database of number {self._log}")

    def keep_base(self, position: int, chain: bytes) -> Base:
        """Says that all images at a position are there, unless there is a newer base."""
        heads, pages = hashlib.blake2b(digest_size=16), 0
        for count, head in self.heads(position):
            heads.update(head)
            pages += count
        self._referee._ask_bounded(
            "INSERT INTO pagelog_base (log, base, chain, digest, pages, came) SELECT %s, %s, %s, %s, %s, "
            "COALESCE(%s::timestamptz, now()) WHERE NOT EXISTS "
            "(SELECT 1 FROM pagelog_base WHERE log = %s AND base >= %s) RETURNING base",
            (
                self._log,
                position,
                chain,
                heads.digest(),
                pages,
                self.came(position),
                self._log,
                position,
            ),
        )
        self._referee._ask_bounded(_MENDED, (self._log, position, heads.digest()))
        return Base(position, chain, heads.digest(), pages)

    def came(self, position: int) -> datetime | None:
        """When a block was archived; None where nobody noted it, or it is kept no more."""
        found = self._referee._ask_bounded(
            "SELECT came FROM pagelog_block WHERE log = %s AND lsn = %s", (self._log, position)
        )
        if found:
            return found[0][0]  # type: ignore[no-any-return]
        return (
            self._referee.through.came(self._log, position)
            if self._referee.has_stored(self._log, position)
            else None
        )

    def keep_all(self, position: int, replay: Replay, chain: bytes) -> Base:
        """Keeps a base of these images and no others, whatever older ones have."""
        older = self._referee._ask(
            "SELECT DISTINCT range FROM pagelog_image WHERE log = %s", (self._log,)
        )
        self.keep_images(
            position, (Image(range, 0, b"") for (range,) in older if range not in replay.touched)
        )
        self.keep_images(position, replay.images())
        self._referee._ask(_UNDO_BASES, {"log": self._log, "position": position})
        return self.keep_base(position, chain)

    # Pruning.

    def oldest_to_keep(self, keep: str | int) -> int:
        """The base below which nothing has to be kept: of a number of bases, or of a time as `7 days`. One that could not be read counts for none."""
        if isinstance(keep, int):
            found = self._referee._ask(
                "SELECT base FROM pagelog_base WHERE log = %s AND broken IS NULL ORDER BY base DESC OFFSET %s LIMIT 1",
                (self._log, keep - 1),
            )
        else:
            found = self._referee._ask(
                "SELECT base FROM pagelog_base WHERE log = %s AND broken IS NULL AND came <= now() - %s::interval "
                "ORDER BY base DESC LIMIT 1",
                (self._log, keep),
            )
        return int(found[0][0]) if found else 0

    def prune(self, position: int) -> int:
        """Deletes what only positions below this base need, unless the database is held. Returns how many blocks that were."""
        self._referee._ask(
            _PRUNE_BASES, {"log": self._log, "position": position}
        )  # first: see above
        self._referee._ask(_PRUNE_IMAGES, {"log": self._log, "position": position})
        self._referee._ask(_PRUNE_PACKS, {"log": self._log})
        count = sum(
            int(blocks)
            for blocks, in self._referee._ask(
                _PRUNE_OBJECTS, {"log": self._log, "position": position}
            )
        )
        upto = self._prune_store(position)
        while gone := self._referee._ask(_PRUNE_BLOCKS, {"log": self._log, "upto": upto}):
            count += len(gone)
        return count

    def _prune_store(self, position: int) -> int:
        """What was not sealed up to a base need not go to the store any more. Returns up to where blocks may be deleted: what is on its way
        there stays."""
        self._referee._ask(_PRUNE_STORE, {"log": self._log, "position": position})
        found = self._referee._ask("SELECT cut FROM pagelog_store WHERE log = %s", (self._log,))
        return min(position, int(found[0][0])) if found else position


def make_base(referee: Referee, log: int, archived: int, chain: bytes) -> Base:
    """Makes a base at the last position up to `archived` at which no transaction is under way, from the archive alone.

    `archived` and its digest `chain` are from a statement that wrote. Returns the newest base, which is an older one where no
    later one can be made. Where the images of one cannot be read, it is made of those of an older one. Raises `BrokenArchive`.
    """
    bases, tried = Bases(referee, log), set[Base]()
    while True:
        before = bases.newest(archived)
        try:
            return _made_of(bases, before, archived, chain)
        except BrokenBase:
            if before in tried:
                raise
            tried.add(before)


def _made_of(bases: Bases, before: Base, archived: int, chain: bytes) -> Base:
    """The same, of this base and the blocks after it."""
    first = before.position + 1
    position = bases.end_mark(first, archived)
    if position is None:
        position = before.position if _is_of_the_vfs(bases, before) else archived
    with Replay(lambda range: bases.image(range, before)) as replay:
        now, at_base = before.chain, before.chain
        start = first
        for piece in bases.pieces(first, archived):
            part = piece[: max(0, position + 1 - start)]
            replay.apply(part)
            now = digest(now, part)
            at_base = now if part else at_base
            now = digest(now, piece[len(part) :])
            start += len(piece)
        if now != chain:
            raise BrokenArchive(f"the blocks up to {archived} are not those that were archived")
        bases.check_kept(before)  # now that all of its images that are needed were read
        if position == before.position:
            return before
        bases.keep_images(position, replay.images())
    return bases.keep_base(position, at_base)


def _is_of_the_vfs(bases: Bases, base: Base) -> bool:
    """Whether page 0 has an end mark: a position within a transaction is of no use to such a database."""
    image = bases.image(0, base)
    return image is not None and bool(image.mask & 1) and image.data.startswith(MARK[-8:])
