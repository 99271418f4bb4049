"""A run of blocks as one object: a head that says which it is, and a compressed body with times, lengths and blocks. No IO is here.

    NAME.UID8/blocks/FIRST-LAST.gGEN.BEFORE.AFTER.SHA16.zst

FIRST and LAST are positions, GEN the generation in which it was sealed, BEFORE and AFTER the digests of all blocks below it and with it
(BEFORE is - at position 1), and SHA16 begins the digest of the object's own bytes: other bytes have another key.
"""

from __future__ import annotations

import hashlib
import re
import struct
import uuid
from array import array
from dataclasses import dataclass, field
from itertools import accumulate
from typing import Sequence

try:
    import zstandard
except ImportError as error:
    from pagelog.objects.place import StoreError

    raise StoreError("a store needs zstandard: apt-get install python3-zstandard") from error

from pagelog.errors import PagelogError

MAGIC = b"pagelog1"
LEVEL = 3
"""Of zstd: 8 MiB of SQLite's blocks become 3.65 times smaller, at 300 MB a second."""
_HEAD = struct.Struct(">8s16sQQ16s16sQQ32sqq")
"""Magic, the database's identity, first and last position, digest before and after, generation, bytes of the blocks, their SHA-256, and when
the first and the latest of them was archived."""
HEAD_SIZE = _HEAD.size
_EACH = 12
"""Bytes of the body for the time and the length of each block."""
LARGEST = 96 << 20
"""More bytes of blocks than any object has."""
_KEY = re.compile(
    r"(.+)/blocks/([0-9a-f]{16})-([0-9a-f]{16})\.g(\d{1,19})\.([0-9a-f]{32}|-)\.([0-9a-f]{32})\.([0-9a-f]{16})\.zst"
)


class BrokenObject(PagelogError):
    """An object is not what its key or its row says."""


@dataclass(frozen=True)
class SegmentHead:
    """Which run it is: blocks `first` to `last`. `before` and `after` are the digests of all blocks below them, and with them."""

    identity: uuid.UUID
    first: int
    last: int
    before: bytes
    after: bytes
    generation: int

    @property
    def count(self) -> int:
        """How many blocks it has."""
        return self.last - self.first + 1


@dataclass(frozen=True)
class SegmentFacts:
    """What the head of an object says beside that: the bytes of its blocks, their SHA-256, and when the first and the latest was archived."""

    size: int
    raw_digest: bytes
    came: int
    until: int


@dataclass(frozen=True)
class Named:
    """What a key says. `digest` begins that of the object's bytes."""

    folder: str
    first: int
    last: int
    generation: int
    before: bytes
    after: bytes
    digest: str


class Segment:
    """A run with its blocks, which are one after the other in `body`. `came` has when each was archived, in microseconds since 1970; 0
    where that is not known."""

    def __init__(
        self, head: SegmentHead, body: bytes, lengths: Sequence[int], came: Sequence[int]
    ) -> None:
        self.head, self.body, self.came = head, body, array("q", came)
        self._ends = array("Q", accumulate(lengths))

    @property
    def raw_digest(self) -> bytes:
        """Of the blocks' bytes, as PostgreSQL too can make it."""
        return hashlib.sha256(self.body).digest()

    @property
    def size(self) -> int:
        """Bytes of its blocks."""
        return len(self.body)

    def block(self, position: int) -> bytes:
        """One of them."""
        at = position - self.head.first
        return self.body[self._ends[at - 1] if at else 0 : self._ends[at]]

    def blocks(self, first: int, last: int) -> list[bytes]:
        """Some of them. Raises `BrokenObject` where one is of another position."""
        found = []
        for position in range(first, last + 1):
            block = self.block(position)
            if int.from_bytes(block[:8], "big") != position:
                raise BrokenObject(f"the block in the place of {position} is another's")
            found.append(block)
        return found

    @property
    def lengths(self) -> list[int]:
        """Those of the blocks."""
        return [end - start for start, end in zip((0, *self._ends), self._ends)]


@dataclass(frozen=True)
class SealedSegment:
    """An object that is to be put: its key, its bytes and what a row says of them."""

    key: str
    data: bytes = field(repr=False)
    digest: bytes = field(repr=False)


def folder_of(name: str, identity: uuid.UUID) -> str:
    """Under which the objects of a database are: one that is created again has another."""
    return f"{name}.{str(identity)[:8]}"


def encode(segment: Segment, folder: str, level: int = LEVEL) -> SealedSegment:
    """The object of a run."""
    head, count = segment.head, segment.head.count
    packed = _HEAD.pack(
        MAGIC,
        head.identity.bytes,
        head.first,
        head.last,
        head.before.ljust(16, b"\0"),
        head.after,
        head.generation,
        segment.size,
        segment.raw_digest,
        segment.came[0],
        max(segment.came),
    )
    deltas = struct.pack(
        f">{count}q", *(now - then for then, now in zip((0, *segment.came), segment.came))
    )
    lengths = struct.pack(f">{count}I", *segment.lengths)
    # Piece by piece: what is not compressed yet is in memory once.
    making = zstandard.ZstdCompressor(
        level=level, write_checksum=False, write_content_size=True
    ).compressobj(segment.size + _EACH * count)
    data = b"".join(
        (
            packed,
            making.compress(deltas),
            making.compress(lengths),
            making.compress(segment.body),
            making.flush(),
        )
    )
    digest = hashlib.sha256(data).digest()
    key = (
        f"{folder}/blocks/{head.first:016x}-{head.last:016x}.g{head.generation}.{head.before.hex() or '-'}.{head.after.hex()}."
        f"{digest.hex()[:16]}.zst"
    )
    return SealedSegment(key, data, digest)


def named(key: str) -> Named | None:
    """What a key says; None where it is not one of a run."""
    found = _KEY.fullmatch(key)
    if found is None:
        return None
    folder, first, last, generation, before, after, short = found.groups()
    return Named(
        folder,
        int(first, 16),
        int(last, 16),
        int(generation),
        b"" if before == "-" else bytes.fromhex(before),
        bytes.fromhex(after),
        short,
    )


def decode(data: bytes, key: str) -> Segment:
    """The run of an object, checked by its key, and by itself. Raises `BrokenObject`."""
    said = named(key)
    if said is None or hashlib.sha256(data).hexdigest()[:16] != said.digest:
        raise BrokenObject(f"{key}: its bytes are not those that were put")
    head, facts = head_of(data, key)
    size = facts.size
    try:
        whole = zstandard.ZstdDecompressor().decompress(
            data[_HEAD.size :], max_output_size=size + _EACH * head.count
        )
        deltas, lengths = struct.unpack_from(f">{head.count}q", whole), struct.unpack_from(
            f">{head.count}I", whole, 8 * head.count
        )
    except (zstandard.ZstdError, struct.error) as error:
        raise BrokenObject(f"{key}: {error}") from error
    made = Segment(head, whole[_EACH * head.count :], lengths, tuple(accumulate(deltas)))
    if made.size != size or sum(lengths) != size or made.raw_digest != facts.raw_digest:
        raise BrokenObject(f"{key}: its blocks are not those that were sealed")
    return made


def head_of(data: bytes, key: str) -> tuple[SegmentHead, SegmentFacts]:
    """The head of an object, of which its first `HEAD_SIZE` bytes are enough. Raises `BrokenObject` where it is not the one of this key."""
    said = named(key)
    if said is None or len(data) < _HEAD.size:
        raise BrokenObject(f"{key}: it has no head")
    (
        magic,
        uid,
        first,
        last,
        before,
        after,
        generation,
        size,
        digest,
        came,
        until,
    ) = _HEAD.unpack_from(data)
    if (
        magic != MAGIC
        or (first, last, after, before)
        != (said.first, said.last, said.after, said.before.ljust(16, b"\0"))
        or first > last
    ):
        raise BrokenObject(f"{key}: its head is another's")
    if size > LARGEST or last - first >= LARGEST:
        raise BrokenObject(f"{key}: it is larger than any")
    return SegmentHead(
        uuid.UUID(bytes=uid), first, last, said.before, after, generation
    ), SegmentFacts(size, digest, came, until)
