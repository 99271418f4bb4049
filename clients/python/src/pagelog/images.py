"""Images: the pages at a position, made from older images and the blocks after them, and made into blocks again. No IO is here, but that many
pages are put in a file meanwhile.

An image has the pages of a range that are not all zeros. The images of all ranges at one position are a base: a service that
begins with them has the database as it was there, and needs no block from before.
"""

from __future__ import annotations

import os
import struct
import tempfile
import zlib
from dataclasses import dataclass, field
from typing import Callable, Iterable, Iterator, Mapping

from pagelog.block import (
    BLOCK_SIZE,
    EMPTY_BLOCK_SIZE,
    PAGE_SIZE,
    PAGES_OF_PARTITION,
    PUT_HEAD_SIZE,
    ZERO_SIZE,
    Put,
    encode_record,
)

PAGES = 64
"""Pages of a range."""
MOST = 3072
"""Pages that a replay has in memory: 24 MiB."""
_PUT_KIND = 1
_PUT = struct.Struct(">IHH")
_PAGE = struct.Struct(">I")
_ZEROS = bytes(PAGE_SIZE)
_HOLE = bytes(64)
"""Zeros within a page that are left out of its Puts."""
_LEAST = 64
"""Room in a block for which no Put is cut."""
MARK = bytes((_PUT_KIND, *_PUT.pack(0, 0, 40))) + b"plfile01"
"""How the last record of a block begins that ends a transaction of the VFS. The block's position follows, and 24 bytes more."""


@dataclass(frozen=True)
class Image:
    """The pages of range number `range` whose bits are set in `mask`, one after the other; bit 0 is of the first page."""

    range: int
    mask: int
    data: bytes = field(repr=False)

    @property
    def head(self) -> bytes:
        """What tells one image from another: its range, its pages, and a checksum of them."""
        return self.head_of(self.range, self.mask, zlib.crc32(self.data))

    @staticmethod
    def head_of(range: int, mask: int, crc: int) -> bytes:
        """The head of an image of which these are known."""
        return struct.pack(">IQI", range, mask, crc)

    def pages(self) -> Iterator[tuple[int, bytes]]:
        """Each page with its number."""
        at = 0
        for bit in range(PAGES):
            if self.mask >> bit & 1:
                yield self.range * PAGES + bit, self.data[at : at + PAGE_SIZE]
                at += PAGE_SIZE


class Replay:
    """Pages that blocks change, from one base on: those of the ranges that they touch, `most` of them in memory, and where there are more all
    of them in a file without a name, which ends with the `with`."""

    def __init__(self, image: Callable[[int], Image | None], most: int = MOST) -> None:
        """`image` returns that of a range in the base that it begins from."""
        self._image, self._most = image, most
        self._pages: dict[int, bytearray] = {}
        self.touched: set[int] = set()
        """The ranges of which it has pages."""
        self._spilled: Spilled | None = None

    def __enter__(self) -> Replay:
        return self

    def __exit__(self, *_: object) -> None:
        if self._spilled is not None:
            self._spilled.close()

    def apply(self, blocks: Iterable[bytes]) -> None:
        """Carries out the records of sound blocks, in order."""
        pages = self._pages
        for data in blocks:
            at = 12 + 2 * (data[8] << 8 | data[9])
            end = len(data)
            while at < end:
                if data[at] == _PUT_KIND:
                    page, offset, length = _PUT.unpack_from(data, at + 1)
                    at += PUT_HEAD_SIZE + length
                    target = pages[page] if page in pages else self._page(page)
                    target[offset : offset + length] = data[at - length : at]
                else:
                    [page] = _PAGE.unpack_from(data, at + 1)
                    at += ZERO_SIZE
                    target = pages[page] if page in pages else self._page(page)
                    target[0:PAGE_SIZE] = _ZEROS

    def _page(self, page: int) -> bytearray | SpilledPage:
        """A page that was not touched before, or is in the file."""
        number = page // PAGES
        is_fresh = number not in self.touched
        if is_fresh:
            self.touched.add(number)
            image = self._image(number)
            known = {} if image is None else dict(image.pages())
            if self._spilled is None and len(self._pages) + len(known) >= self._most:
                self._spill()
            if self._spilled is not None:
                self._spilled.write(known)
            else:
                self._pages.update((each, bytearray(data)) for each, data in known.items())
        elif self._spilled is None and len(self._pages) >= self._most:
            self._spill()
        if self._spilled is not None:
            return self._spilled.page(page)
        return self._pages.setdefault(page, bytearray(PAGE_SIZE))

    def _spill(self) -> None:
        self._spilled = Spilled()
        self._spilled.write(self._pages)
        self._pages.clear()

    def images(self) -> Iterator[Image]:
        """Those of the ranges that were touched, in order. Each is let go of as it is returned."""
        for number in sorted(self.touched):
            mask, parts = 0, []
            of_range = self._pages if self._spilled is None else self._spilled.range(number)
            for bit in range(PAGES):
                page = of_range.pop(number * PAGES + bit, _ZEROS)
                if page != _ZEROS:
                    mask |= 1 << bit
                    parts.append(page)
            yield Image(number, mask, b"".join(parts))


class Spilled:
    """Pages in a file: a range of pages has a place, and what was never written there is zeros."""

    def __init__(self) -> None:
        self._file = tempfile.TemporaryFile(buffering=0)
        self._places: dict[int, int] = {}

    def close(self) -> None:
        """It is gone."""
        self._file.close()

    def _at(self, page: int) -> int:
        number, bit = divmod(page, PAGES)
        return (self._places.setdefault(number, len(self._places)) * PAGES + bit) * PAGE_SIZE

    def page(self, page: int) -> SpilledPage:
        """A part of it can be written."""
        return SpilledPage(self._file.fileno(), self._at(page))

    def write(self, pages: Mapping[int, bytes | bytearray]) -> None:
        """Writes these, whole."""
        for page, data in pages.items():
            _write(self._file.fileno(), data, self._at(page))

    def range(self, number: int) -> dict[int, bytearray]:
        """All pages of a range."""
        found = os.pread(self._file.fileno(), PAGES * PAGE_SIZE, self._at(number * PAGES))
        found += bytes(PAGES * PAGE_SIZE - len(found))
        return {
            number * PAGES + bit: bytearray(found[bit * PAGE_SIZE : (bit + 1) * PAGE_SIZE])
            for bit in range(PAGES)
        }


class SpilledPage:
    """A page of the file, which is written as a bytearray is."""

    def __init__(self, descriptor: int, at: int) -> None:
        self._descriptor, self._at = descriptor, at

    def __setitem__(self, part: slice, data: bytes) -> None:
        _write(self._descriptor, data, self._at + part.start)


def _write(descriptor: int, data: bytes | bytearray, at: int) -> None:
    if os.pwrite(descriptor, data, at) != len(data):
        raise OSError("a file of pages could not be written whole")


def blocks_of(images: Iterable[Image]) -> Iterator[bytes]:
    """The blocks that make these pages in a log that begins with them, filled to the brim. Each has 0 in place of its LSN."""
    records: list[bytes] = []
    partitions: list[int] = []
    size = EMPTY_BLOCK_SIZE
    for page, offset, data in _puts(images):
        while data:
            new = (
                []
                if partitions and partitions[-1] == page // PAGES_OF_PARTITION
                else [page // PAGES_OF_PARTITION]
            )
            room = BLOCK_SIZE - size - 2 * len(new) - PUT_HEAD_SIZE
            if records and room < min(len(data), _LEAST):
                yield _block(records, partitions)
                records, partitions, size = [], [], EMPTY_BLOCK_SIZE
                continue
            part, data = data[:room], data[room:]
            records.append(encode_record(Put(page, offset, part)))
            partitions += new
            size += 2 * len(new) + PUT_HEAD_SIZE + len(part)
            offset += len(part)
    if records:
        yield _block(records, partitions)


def _puts(images: Iterable[Image]) -> Iterator[tuple[int, int, bytes]]:
    """Page, offset and bytes of what is not zeros, but for small holes."""
    for image in images:
        for page, data in image.pages():
            at = PAGE_SIZE - len(data.lstrip(b"\0"))
            while at < PAGE_SIZE:
                hole = data.find(_HOLE, at)
                end = PAGE_SIZE if hole < 0 else hole
                yield page, at, data[at:end]
                at = PAGE_SIZE - len(data[end:].lstrip(b"\0"))


def _block(records: list[bytes], partitions: list[int]) -> bytes:
    heads = struct.pack(f">QH{len(partitions)}HH", 0, len(partitions), *partitions, len(records))
    return heads + b"".join(records)


def labelled(blocks: Iterable[bytes], first: int) -> list[bytes]:
    """The blocks with the numbers from `first` on: LSNs of a service, or positions of the archive."""
    return [number.to_bytes(8, "big") + block[8:] for number, block in enumerate(blocks, first)]
