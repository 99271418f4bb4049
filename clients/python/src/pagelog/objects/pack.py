"""Images as objects: packs, of which each image is read by a range, and the manifest of a base, which says where the image of each range of
pages is. A base can be read by these alone, with no row. No IO is here.

    NAME.UID8/images/BASE.RANGE-RANGE.SHA16.pack
    NAME.UID8/bases/BASE.gGEN.CHAIN.SHA16.base

BASE is the position of the images, RANGE the number of the first and of the last range in it, CHAIN the digest of all blocks up to the base;
GEN and SHA16 are as of blocks.
"""

from __future__ import annotations

import hashlib
import re
import struct
import uuid
from dataclasses import dataclass, field, replace
from typing import Iterable, Iterator, Sequence

import zstandard

from pagelog.block import PAGE_SIZE
from pagelog.images import PAGES, Image
from pagelog.objects.segment import LEVEL, BrokenObject

PACK_MAGIC, BASE_MAGIC = b"pagelog2", b"pagelog3"
IN_PACK = 32
"""Images of a pack: 16 MiB of pages at most."""
_PACK_HEAD = struct.Struct(">8s16sQ")
"""Magic, the database's identity, and the position of its images."""
_IN_PACK = struct.Struct(">IQIII16s")
"""Of an image: range, pages, checksum of its pages, where its bytes are, how many, and how their SHA-256 begins. A pack ends with these, and
with how many there are."""
_COUNT = struct.Struct(">I")
_BASE_HEAD = struct.Struct(">8s16sQ16s16sQQqIIQ")
"""Magic, identity, position, the digest of all blocks up to there, that of the images' heads, pages, generation, when the block of the position
was archived, packs, images, and bytes of the rest."""
_PACK = struct.Struct(">H32sQ")
"""Of a pack of a manifest: the length of its key, which follows, its SHA-256, and its size."""
_IN_BASE = struct.Struct(">IQQIIII16s")
"""Of an image of a manifest: range, position, pages, checksum, number of the pack, and the rest as in a pack."""
ALONE, EACH = _PACK_HEAD.size + _COUNT.size, _IN_PACK.size
"""Bytes of a pack beside its images, and beside each of them."""
DIGEST = 16
"""Bytes of a SHA-256 that say which bytes an image has."""
LARGEST = 256 << 20
"""More bytes than the rest of any manifest has."""
_PACK_KEY = re.compile(
    r"(.+)/images/([0-9a-f]{16})\.([0-9a-f]{8})-([0-9a-f]{8})\.([0-9a-f]{16})\.pack"
)
_BASE_KEY = re.compile(
    r"(.+)/bases/([0-9a-f]{16})\.g(\d{1,19})\.([0-9a-f]{32})\.([0-9a-f]{16})\.base"
)


@dataclass(frozen=True)
class Packed:
    """The image of a range at a position, as it is in a pack: which pages it has, their checksum, and where its bytes are."""

    range: int
    base: int
    mask: int
    crc: int
    at: int
    length: int
    digest: bytes = field(repr=False)


@dataclass(frozen=True)
class Pack:
    """An object of images: its key, its SHA-256 and its size."""

    key: str
    digest: bytes = field(repr=False)
    size: int


class Packing:
    """A pack of a database at a position while it is made: an image that was added is held compressed alone."""

    def __init__(self, identity: uuid.UUID, base: int, level: int = LEVEL) -> None:
        head = _PACK_HEAD.pack(PACK_MAGIC, identity.bytes, base)
        self._parts, self._size, self._base = [head], len(head), base
        self._compressor = zstandard.ZstdCompressor(
            level=level, write_checksum=False, write_content_size=True
        )
        self.images: list[Packed] = []
        self.raw = 0
        """Bytes of its pages."""

    def add(self, image: Image, crc: int) -> None:
        """Behind the others."""
        made = self._compressor.compress(image.data)
        digest = hashlib.sha256(made).digest()[:DIGEST]
        self.take(Packed(image.range, self._base, image.mask, crc, 0, len(made), digest), made)

    def take(self, packed: Packed, made: bytes) -> None:
        """Behind the others, an image whose compressed bytes these are."""
        self.images.append(replace(packed, at=self._size))
        self._parts.append(made)
        self._size += len(made)
        self.raw += packed.mask.bit_count() * PAGE_SIZE

    def sealed(self, folder: str) -> tuple[Pack, bytes]:
        """The object, and its bytes."""
        self._parts += [
            _IN_PACK.pack(each.range, each.mask, each.crc, each.at, each.length, each.digest)
            for each in self.images
        ]
        self._parts.append(_COUNT.pack(len(self.images)))
        data = b"".join(self._parts)
        self._parts.clear()
        digest = hashlib.sha256(data).digest()
        key = f"{folder}/images/{self._base:016x}.{self.images[0].range:08x}-{self.images[-1].range:08x}.{digest.hex()[:16]}.pack"
        return Pack(key, digest, len(data)), data


def image_of(packed: Packed, data: bytes, key: str) -> Image:
    """The image whose bytes these are. Raises `BrokenObject`."""
    if not is_packed(packed, data):
        raise BrokenObject(f"the object {key} has other bytes than those that were put")
    try:
        pages = zstandard.ZstdDecompressor().decompress(data, max_output_size=PAGES * PAGE_SIZE)
    except zstandard.ZstdError as error:
        raise BrokenObject(f"{key}: {error}") from error
    if len(pages) != packed.mask.bit_count() * PAGE_SIZE:
        raise BrokenObject(f"{key}: an image has other pages than its row says")
    return Image(packed.range, packed.mask, pages)


def is_packed(packed: Packed, data: bytes) -> bool:
    """Whether bytes are those of an image."""
    return len(data) == packed.length and hashlib.sha256(data).digest()[:DIGEST] == packed.digest


def images_in(data: bytes, key: str) -> Iterator[Image]:
    """All images of a pack, each checked, and the pack by its key. Raises `BrokenObject`."""
    for each in images_at(data, key):
        yield image_of(each, data[each.at : each.at + each.length], key)


def images_at(data: bytes, key: str) -> list[Packed]:
    """Where each image of a pack is, and the pack checked by its key: at least one. Raises
    `BrokenObject`."""
    said = _PACK_KEY.fullmatch(key)
    if (
        said is None
        or hashlib.sha256(data).hexdigest()[:16] != said[5]
        or len(data) < _PACK_HEAD.size + _COUNT.size
    ):
        raise BrokenObject(f"{key}: its bytes are not those that were put")
    magic, _, base = _PACK_HEAD.unpack_from(data)
    [count] = _COUNT.unpack_from(data, len(data) - _COUNT.size)
    index = len(data) - _COUNT.size - count * _IN_PACK.size
    if magic != PACK_MAGIC or base != int(said[2], 16) or index < _PACK_HEAD.size or not count:
        raise BrokenObject(f"{key}: its head is another's")
    return [
        Packed(range, base, mask, crc, at, length, digest)
        for range, mask, crc, at, length, digest in _IN_PACK.iter_unpack(data[index : -_COUNT.size])
    ]


@dataclass(frozen=True)
class NamedBase:
    """What the key of a manifest says."""

    folder: str
    position: int
    generation: int
    chain: bytes
    digest: str


def named_base(key: str) -> NamedBase | None:
    """What a key says; None where it is not one of a manifest."""
    found = _BASE_KEY.fullmatch(key)
    return (
        None
        if found is None
        else NamedBase(
            found[1], int(found[2], 16), int(found[3]), bytes.fromhex(found[4]), found[5]
        )
    )


@dataclass(frozen=True)
class BaseFacts:
    """What a manifest says of its base: `chain` is the digest of all blocks up to `position`, `digest` that of the images' heads, `pages` how
    many are not all zeros, and `came` when its block was archived, in microseconds since 1970."""

    identity: uuid.UUID
    position: int
    chain: bytes
    digest: bytes
    pages: int
    generation: int
    came: int


@dataclass(frozen=True)
class Manifest:
    """A base by itself: each of `images` with the number of its pack, in the order of ranges."""

    facts: BaseFacts
    packs: Sequence[Pack]
    images: Sequence[tuple[Packed, int]]


def manifest_of(
    facts: BaseFacts,
    packs: Sequence[Pack],
    images: Iterable[tuple[Packed, int]],
    folder: str,
    level: int = LEVEL,
) -> tuple[Pack, bytes]:
    """The object of a manifest, and its bytes."""
    parts = [
        _PACK.pack(len(pack.key.encode()), pack.digest, pack.size) + pack.key.encode()
        for pack in packs
    ]
    count = 0
    for each, number in images:
        parts.append(
            _IN_BASE.pack(
                each.range,
                each.base,
                each.mask,
                each.crc,
                number,
                each.at,
                each.length,
                each.digest,
            )
        )
        count += 1
    rest = b"".join(parts)
    head = _BASE_HEAD.pack(
        BASE_MAGIC,
        facts.identity.bytes,
        facts.position,
        facts.chain,
        facts.digest,
        facts.pages,
        facts.generation,
        facts.came,
        len(packs),
        count,
        len(rest),
    )
    data = head + zstandard.ZstdCompressor(
        level=level, write_checksum=False, write_content_size=True
    ).compress(rest)
    digest = hashlib.sha256(data).digest()
    return (
        Pack(
            f"{folder}/bases/{facts.position:016x}.g{facts.generation}.{facts.chain.hex()}.{digest.hex()[:16]}.base",
            digest,
            len(data),
        ),
        data,
    )


def read_manifest(data: bytes, key: str) -> Manifest:
    """That of an object, checked by its key, and by itself. Raises `BrokenObject`."""
    said = named_base(key)
    if (
        said is None
        or hashlib.sha256(data).hexdigest()[:16] != said.digest
        or len(data) < _BASE_HEAD.size
    ):
        raise BrokenObject(f"{key}: its bytes are not those that were put")
    (
        magic,
        uid,
        position,
        chain,
        digest,
        pages,
        generation,
        came,
        packs,
        images,
        size,
    ) = _BASE_HEAD.unpack_from(data)
    if (
        magic != BASE_MAGIC
        or (position, generation, chain) != (said.position, said.generation, said.chain)
        or size > LARGEST
    ):
        raise BrokenObject(f"{key}: its head is another's")
    try:
        rest = zstandard.ZstdDecompressor().decompress(
            data[_BASE_HEAD.size :], max_output_size=size
        )
        made, at = _packs_in(rest, packs)
        entries = [*_IN_BASE.iter_unpack(rest[at:])]
    except (zstandard.ZstdError, struct.error, UnicodeDecodeError) as error:
        raise BrokenObject(f"{key}: {error}") from error
    if len(rest) != size or len(entries) != images or any(entry[4] >= packs for entry in entries):
        raise BrokenObject(f"{key}: it is not what was put")
    found = [
        (Packed(range, base, mask, crc, start, length, short), number)
        for range, base, mask, crc, number, start, length, short in entries
    ]
    return Manifest(
        BaseFacts(uuid.UUID(bytes=uid), position, chain, digest, pages, generation, came),
        made,
        found,
    )


def _packs_in(rest: bytes, count: int) -> tuple[list[Pack], int]:
    found, at = [], 0
    for _ in range(count):
        length, digest, size = _PACK.unpack_from(rest, at)
        at += _PACK.size + length
        found.append(Pack(rest[at - length : at].decode(), digest, size))
    return found, at
