"""Moves the images of one database from PostgreSQL into the store, by the steps of blocks: pack, put, keep, cut; and puts a manifest of each
base whose images are all there.

What a statement names it compares: PostgreSQL's own SHA-256 of each image is that of what is to be put. So a mover that stood still while
PostgreSQL went back names nothing that is not there.
"""

from __future__ import annotations

import hashlib
import uuid
import zlib
from typing import Any, Callable, Iterator

from pagelog.images import Image
from pagelog.objects.pack import IN_PACK, BaseFacts, Pack, Packed, Packing, manifest_of
from pagelog.objects.place import Missing, Store, StoreError
from pagelog.referee import object_statements as tables
from pagelog.referee.referee import BrokenArchive
from pagelog.store.asking import Asking
from pagelog.store.compacting import Compactor

_AT_ONCE = 4
"""Images that are read at once: 2 MiB."""


def is_there(store: Store, key: str, digest: bytes) -> bool:
    """Whether the store returns these bytes."""
    try:
        return hashlib.sha256(store.get(key)).digest() == digest
    except Missing:
        return False


class PackMover:
    """Of one database. `passing` is called with the name of each point between two steps."""

    def __init__(
        self,
        ask: Asking,
        store: Store,
        identity: uuid.UUID,
        passing: Callable[[str], None],
        level: int,
    ) -> None:
        self._ask, self._store, self._identity, self._passing, self._level = (
            ask,
            store,
            identity,
            passing,
            level,
        )
        self._ready: tuple[Pack, bytes] | None = None
        """What was made last: usually it is put next."""
        self._compactor = Compactor(ask, store, identity)
        self.packed = self.kept = self.cut = self.refused = 0

    def step(self) -> bool:
        """Does the next thing that is to be done. False where nothing is."""
        for number, key, digest, state, instead in self._ask(tables.OPEN_PACK):
            if state == 0:
                self._put(number, key, bytes(digest), instead)
            elif instead:
                return self._switch(number, key, bytes(digest))
            else:
                self._cut(number, key)
            return True
        for base, key, digest in self._ask(tables.OPEN_MANIFEST):
            self._put_manifest(base, key, bytes(digest))
            return True
        return self._pack() or self._name_manifest() or self._compact()

    # Packs.

    def _pack(self) -> bool:
        """A row says what is to be put. The images are in PostgreSQL."""
        found = self._ask(tables.UNPACKED)
        place = self._ask(tables.PLACE) if found else []
        if not place:
            return False
        [[base]], [[folder, packs]] = found, place
        packing, raw_digests = Packing(self._identity, base, self._level), []
        for image, crc in self._images(tables.IMAGES, base=base):
            packing.add(image, crc)
            raw_digests.append(hashlib.sha256(image.data).digest())
            if len(raw_digests) == IN_PACK:
                break
        if not raw_digests:
            return False  # pruned meanwhile
        images, raw = packing.images, packing.raw
        pack, data = packing.sealed(folder)
        self._passing("packed")
        named = self._ask(
            tables.PACK,
            base=base,
            packs=packs,
            count=len(images),
            key=pack.key,
            size=pack.size,
            digest=pack.digest,
            raw=raw,
            ranges=[each.range for each in images],
            raw_digests=raw_digests,
            ats=[each.at for each in images],
            lengths=[each.length for each in images],
            digests=[each.digest for each in images],
        )
        self._ready = (pack, data) if named else None
        self.packed, self.refused = self.packed + bool(named), self.refused + (not named)
        self._passing("pack named")
        return bool(named)

    def _images(self, statement: str, **values: Any) -> Iterator[tuple[Image, int]]:
        """Those that are in PostgreSQL, with their checksums, some at once."""
        last = -1
        while rows := self._ask(statement, binary=True, range=last, count=_AT_ONCE, **values):
            last = rows[-1][0]
            for range, pages, crc, data in rows:
                image = Image(range, int.from_bytes(pages, "big"), bytes(data))
                if zlib.crc32(image.data) != crc:
                    raise BrokenArchive(f"the image of range {range} is damaged")
                yield image, crc
            rows.clear()

    def _put(self, number: int, key: str, digest: bytes, instead: bool) -> None:
        ready, self._ready = self._ready, None
        if ready is not None and ready[0].key != key:
            ready = None
        if ready is None and is_there(self._store, key, digest):
            return self._keep(number, key)  # somebody has put it, and died
        if ready is None and (ready := self._made_again(number, key, instead)) is None:
            return
        self._passing("before put of a pack")
        self._store.put(key, ready[1])
        ready = None
        self._passing("pack put")
        if not is_there(self._store, key, digest):
            raise StoreError(f"the store does not return what was put: {key}")
        self._passing("pack read back")
        self._keep(number, key)

    def _made_again(self, number: int, key: str, instead: bool) -> tuple[Pack, bytes] | None:
        """The same pack, which one has named that died. Where it cannot be made again, as other bytes come of it, or images are gone, its
        images are to be packed again."""
        if instead:
            anew = self._compactor.made()
            if anew is not None and anew.pack.key == key:
                return anew.pack, anew.data
        folder, _, named = key.rpartition("/images/")
        packing = Packing(self._identity, int(named[:16], 16), self._level)
        for image, crc in self._images(tables.PACKED, number=number):
            packing.add(image, crc)
        if packing.images:
            pack, data = packing.sealed(folder)
            if pack.key == key:
                return pack, data
        self._ask(tables.TAKE_BACK, number=number, key=key)
        return None

    def _keep(self, number: int, key: str) -> None:
        if self._ask(tables.KEPT_PACK, number=number, key=key):
            self.kept += 1
        else:
            self.refused += 1
        self._passing("pack kept")

    def _cut(self, number: int, key: str) -> None:
        """PostgreSQL has their bytes no more."""
        if self._ask(tables.CUT_PACK, number=number, key=key):
            self.cut += 1
        else:
            self.refused += 1
        self._passing("pack cut")

    # Packs of which little is needed.

    def _compact(self) -> bool:
        """A row names a pack that comes instead of some. What has no image any more goes first."""
        if not self._compactor.is_due():
            return False
        if self._compactor.drop_empty():
            self._passing("emptied")
            return True
        anew = self._compactor.made()
        if anew is None:
            self._compactor.rest()
            return False
        self._passing("compacted")
        named = anew.name(self._ask)
        self._ready = (anew.pack, anew.data) if named else None
        self.refused += not named
        self._passing("compacted pack named")
        return named

    def _switch(self, number: int, key: str, digest: bytes) -> bool:
        is_done = self._compactor.switch(number, key, digest)
        self._passing("switched")
        return is_done

    # Manifests.

    def _name_manifest(self) -> bool:
        """A row says what is to be put, once all images of a base are in the store alone."""
        for (base,) in self._ask(tables.NO_MANIFEST):
            place = self._ask(tables.PLACE)
            if not place:
                return False
            [[folder, packs]] = place
            found = self._manifest(base, folder)
            if found is None:
                return False  # pruned or made again meanwhile
            facts, made = found
            self._passing("manifest made")
            named = self._ask(
                tables.MANIFEST,
                base=base,
                packs=packs,
                key=made[0].key,
                digest=made[0].digest,
                chain=facts.chain,
                heads=facts.digest,
            )
            self._ready = made if named else None
            self.refused += not named
            self._passing("manifest named")
            return bool(named)
        return False

    def _manifest(self, position: int, folder: str) -> tuple[BaseFacts, tuple[Pack, bytes]] | None:
        """That of the base at a position, and what it says of it; None where that is gone, or an image of it is in no pack."""
        rows = self._ask(tables.OF_BASE, binary=True, base=position)
        if not rows:
            return None
        chain, wanted, pages, came, generation = rows[0][:5]
        facts = BaseFacts(
            self._identity, position, bytes(chain), bytes(wanted), pages, generation, came
        )
        heads, packs = hashlib.blake2b(digest_size=16), dict[str, tuple[int, Pack]]()
        images = []
        for *_, range, base, mask_of, crc, at, length, digest, key, pack_digest, size in rows:
            if range is None:
                break  # it has no page
            if key is None:
                return None
            mask = int.from_bytes(mask_of, "big")
            heads.update(Image.head_of(range, mask, crc))
            number, _ = packs.setdefault(key, (len(packs), Pack(key, bytes(pack_digest), size)))
            images.append((Packed(range, base, mask, crc, at, length, bytes(digest)), number))
        if heads.digest() != facts.digest:
            raise BrokenArchive(f"the images at position {position} are not those that were kept")
        named = [pack for _, pack in packs.values()]
        return facts, manifest_of(facts, named, images, folder, self._level)

    def _put_manifest(self, base: int, key: str, digest: bytes) -> None:
        ready, self._ready = self._ready, None
        if (ready is None or ready[0].key != key) and not is_there(self._store, key, digest):
            self._ask(
                tables.NO_MANIFEST_OF, base=base, key=key
            )  # one has named it that died: it is made again
            return
        if ready is not None and ready[0].key == key:
            self._passing("before put of a manifest")
            self._store.put(key, ready[1])
            self._passing("manifest put")
            if not is_there(self._store, key, digest):
                raise StoreError(f"the store does not return what was put: {key}")
            self._passing("manifest read back")
        if not self._ask(tables.KEPT_MANIFEST, base=base, key=key):
            self.refused += 1
        self._passing("manifest kept")
