"""Makes packs again of which little is needed still, as most of their images were pruned: what is left of some goes into one.

The bytes of an image are copied as they are compressed, so that the same images make the same object, whoever puts them together. A
row says first which pack comes instead; it is put and read back as any other, and its images are in the others until then. One
statement then says that they are in it, if each is the same still, and that the manifests which name the others are to be made again.
What has no image any more goes last, and its bytes once nothing has named them for a while.
"""

from __future__ import annotations

import time
import uuid
from dataclasses import dataclass, field
from typing import Any, Sequence

from pagelog.objects.pack import (
    ALONE,
    EACH,
    IN_PACK,
    Pack,
    Packed,
    Packing,
    images_at,
)
from pagelog.objects.place import Store
from pagelog.objects.segment import BrokenObject
from pagelog.referee import object_statements as tables
from pagelog.referee.through import InPack, fetched, parts_of, runs_of
from pagelog.store.asking import Asking

EVERY = 3600.0
"""Seconds after which it is looked at again, whatever the bases are."""
_FREE = """EXISTS (SELECT 1 FROM pagelog_log
    WHERE id = %(log)s AND identity = %(identity)s::uuid AND NOT dropped AND held IS NULL)"""
_BASES = "SELECT min(base), max(base) FROM pagelog_base WHERE log = %(log)s"

SPARSE = f"""
SELECT p.number, i.base, count(*)::integer FROM pagelog_pack p
JOIN pagelog_image i ON i.log = p.log AND i.pack = p.number
WHERE p.log = %(log)s AND p.state = 2 AND {_FREE}
  AND NOT EXISTS (SELECT 1 FROM pagelog_pack o WHERE o.key = p.key AND o.log <> p.log)
GROUP BY p.log, p.number, i.base
HAVING 2 * ({ALONE} + sum(i.length + {EACH})) < p.size ORDER BY i.base, p.number LIMIT {IN_PACK + 1}
"""
"""Packs that would be less than half as large without what is needed no more. What another
database has too stays for that."""
IN_THESE = """
SELECT i.range, i.base, i.pages, i.crc, i.pack, p.key, i.at, i.length, i.digest
FROM pagelog_image i JOIN pagelog_pack p ON p.log = i.log AND p.number = i.pack
WHERE i.log = %(log)s AND i.pack = ANY(%(numbers)s::bigint[]) AND p.state = 2 ORDER BY i.range
"""
COMPACT = f"""
WITH given AS (
  SELECT * FROM unnest(%(ranges)s::integer[], %(numbers)s::bigint[], %(lengths)s::integer[],
    %(digests)s::bytea[]) AS v(range, number, length, digest)),
same AS (
  SELECT count(*) AS count FROM given v
  JOIN pagelog_image i ON i.log = %(log)s AND i.base = %(base)s AND i.range = v.range
  JOIN pagelog_pack p ON p.log = i.log AND p.number = i.pack AND p.state = 2
  WHERE i.pack = v.number AND i.length = v.length AND i.digest = v.digest),
fence AS (
  UPDATE pagelog_store SET packs = packs + 1
  WHERE log = %(log)s AND packs = %(packs)s AND (SELECT count FROM same) = %(count)s AND {_FREE}
    AND NOT EXISTS (SELECT 1 FROM pagelog_pack WHERE log = %(log)s AND instead)
  RETURNING log, packs)
INSERT INTO pagelog_pack (log, number, key, size, digest, raw, instead)
SELECT log, packs, %(key)s, %(size)s, %(digest)s, %(raw)s, true FROM fence RETURNING number
"""
"""A row names the pack that comes instead, if each image is the one that was read: one at a time."""
SWITCH = """
WITH given AS (
  SELECT * FROM unnest(%(ranges)s::integer[], %(ats)s::integer[], %(lengths)s::integer[],
    %(digests)s::bytea[]) AS v(range, at, length, digest)),
fence AS (
  UPDATE pagelog_store SET packs = packs + 1
  WHERE log = %(log)s AND packs = %(packs)s AND EXISTS (SELECT 1 FROM pagelog_pack
    WHERE log = %(log)s AND number = %(number)s AND key = %(key)s AND state = 1 AND instead)
  RETURNING log),
made AS (
  UPDATE pagelog_pack p SET state = 2, instead = false FROM fence
  WHERE p.log = fence.log AND p.number = %(number)s RETURNING p.log, p.number),
moved AS (
  UPDATE pagelog_image i SET pack = made.number, at = v.at FROM made, given v, pagelog_pack p
  WHERE i.log = made.log AND i.base = %(base)s AND i.range = v.range
    AND i.length = v.length AND i.digest = v.digest
    AND p.log = i.log AND p.number = i.pack AND p.state = 2 RETURNING i.range),
gone AS (
  UPDATE pagelog_base b SET manifest = NULL, manifest_digest = NULL, is_stored = false
  FROM pagelog_base o
  WHERE b.log = %(log)s AND b.base >= %(base)s AND b.manifest IS NOT NULL
    AND o.log = b.log AND o.base = b.base
    AND EXISTS (SELECT 1 FROM moved WHERE NOT EXISTS (SELECT 1 FROM pagelog_image j
      WHERE j.log = b.log AND j.range = moved.range AND j.base > %(base)s AND j.base <= b.base))
  RETURNING o.manifest),
noted AS (
  INSERT INTO pagelog_gone (key) SELECT manifest FROM gone
  ON CONFLICT (key) DO UPDATE SET since = now())
SELECT number FROM made
"""
"""Its images are in it from now on, those that are the same still; each manifest that has one of
them is made again. It has a number of the packs, as a manifest has: of two at once one is refused."""
GIVE_UP = """
WITH gone AS (
  DELETE FROM pagelog_pack
  WHERE log = %(log)s AND number = %(number)s AND key = %(key)s AND state = 1 AND instead
  RETURNING key)
INSERT INTO pagelog_gone (key) SELECT key FROM gone
ON CONFLICT (key) DO UPDATE SET since = now() RETURNING key
"""
"""It cannot be read any more, and nothing is in it: it is made again."""
EMPTY = f"""
WITH gone AS (
  DELETE FROM pagelog_pack p WHERE p.log = %(log)s AND p.state = 2 AND {_FREE}
    AND NOT EXISTS (SELECT 1 FROM pagelog_image i WHERE i.log = p.log AND i.pack = p.number)
  RETURNING key)
INSERT INTO pagelog_gone (key) SELECT DISTINCT key FROM gone
ON CONFLICT (key) DO UPDATE SET since = now() RETURNING key
"""
"""Packs that have no image any more."""


@dataclass(frozen=True)
class Anew:
    """A pack at position `base` that comes instead of others: `numbers` is of each of its images
    the pack that has it, and `packs` how many numbers were given when they were read."""

    base: int
    packs: int
    pack: Pack
    data: bytes = field(repr=False)
    images: Sequence[Packed]
    numbers: Sequence[int]
    raw: int

    def name(self, ask: Asking) -> bool:
        """A row says that it is to be put. False where something has changed meanwhile."""
        pack, images = self.pack, self.images
        values: dict[str, Any] = {
            "base": self.base,
            "packs": self.packs,
            "count": len(images),
            "key": pack.key,
            "size": pack.size,
            "digest": pack.digest,
            "raw": self.raw,
            "ranges": [each.range for each in images],
            "numbers": list(self.numbers),
            "lengths": [each.length for each in images],
            "digests": [each.digest for each in images],
        }
        return bool(ask(COMPACT, **values))


class _Unreadable(Exception):
    """An image of a pack is missing or damaged."""

    def __init__(self, number: int) -> None:
        super().__init__(f"pack {number}")
        self.number = number


class Compactor:
    """Of one database."""

    def __init__(self, ask: Asking, store: Store, identity: uuid.UUID) -> None:
        self._ask, self._store, self._identity = ask, store, identity
        self._looked: Any = None
        """The oldest and the newest base when nothing was to be done."""
        self._again = 0.0
        self._unreadable: set[int] = set()
        """Packs that could not be read: who needs their images says so, and they are left as they are."""

    def is_due(self) -> bool:
        """Whether there may be something: there are other bases than when there was nothing, or
        it was long ago."""
        [found] = self._ask(_BASES)
        if found == self._looked and time.monotonic() < self._again:
            return False
        self._looked, self._again = found, 0.0
        return True

    def rest(self) -> None:
        """There is nothing now."""
        self._again = time.monotonic() + EVERY

    def drop_empty(self) -> bool:
        """Deletes the rows of packs that have no image any more. False where there is none."""
        return bool(self._ask(EMPTY))

    def made(self) -> Anew | None:
        """The pack that comes instead of the first ones of which little is needed, made from
        these; None where there are none."""
        place = self._ask(tables.PLACE)
        while place and (chosen := self._chosen()):
            [[folder, packs]] = place
            try:
                return self._made_of(chosen, folder, packs)
            except _Unreadable as error:
                self._unreadable.add(error.number)
        return None

    def _chosen(self) -> list[int]:
        """The packs of one position whose images have room in one."""
        chosen: list[int] = []
        room, position = IN_PACK, None
        for number, base, count in self._ask(SPARSE):
            if number in self._unreadable:
                continue
            if position not in (None, base) or count > room:
                break
            chosen.append(number)
            room, position = room - count, base
        return chosen

    def _made_of(self, chosen: Sequence[int], folder: str, packs: int) -> Anew | None:
        """Raises `_Unreadable`."""
        rows = self._ask(IN_THESE, binary=True, numbers=list(chosen))
        if not rows:
            return None  # pruned meanwhile
        of, wanted = {}, []
        for range, base, pages, crc, number, key, at, length, digest in rows:
            mask = int.from_bytes(pages, "big")
            packed = Packed(range, base, mask, crc, at, length, bytes(digest))
            of[range] = number
            wanted.append(InPack(packed, key))
        read: dict[int, tuple[Packed, bytes]] = {}
        for run in runs_of(wanted):
            try:
                parts = parts_of(self._store, run)
            except BrokenObject as error:
                raise _Unreadable(of[run[0].packed.range]) from error
            read.update({each.packed.range: (each.packed, part) for each, part in zip(run, parts)})
            parts.clear()
        packing = Packing(self._identity, rows[0][1])
        for range in sorted(read):
            packing.take(*read.pop(range))
        images, raw = packing.images, packing.raw
        pack, data = packing.sealed(folder)
        numbers = [of[each.range] for each in images]
        return Anew(rows[0][1], packs, pack, data, images, numbers, raw)

    def switch(self, number: int, key: str, digest: bytes) -> bool:
        """Its images are in the pack that came instead. False where the database is another one's
        by now; where another mover was before, it is to be looked at again."""
        place = self._ask(tables.PLACE)
        if not place:
            return False
        try:
            images = images_at(fetched(self._store, key, digest), key)
        except BrokenObject:
            self._ask(GIVE_UP, number=number, key=key)
            return True
        values: dict[str, Any] = {
            "number": number,
            "key": key,
            "packs": place[0][1],
            "base": images[0].base,
            "ranges": [each.range for each in images],
            "ats": [each.at for each in images],
            "lengths": [each.length for each in images],
            "digests": [each.digest for each in images],
        }
        self._ask(SWITCH, **values)
        return True
