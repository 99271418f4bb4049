"""Blocks of the log, their records, and their bytes."""

from __future__ import annotations

import struct
from dataclasses import dataclass, field
from typing import Iterable, Iterator, Union

from pagelog.faults import (
    BlockEndsInField,
    BlockTooLong,
    BytesAfterRecords,
    EmptyPut,
    LsnOutOfRange,
    PartitionsNotRising,
    PutPastPage,
    UnknownRecordKind,
    WrongAnnotations,
)

PAGE_SIZE = 8192
"""Bytes of a page."""
BLOCK_SIZE = 32768
"""The most bytes of an encoded block."""
HIGHEST_LSN = 1 << 48
"""LSNs are 1 to this one."""
HIGHEST_PAGE = (1 << 32) - 1
"""Pages are 0 to this one."""
PAGES_OF_PARTITION = 65536
"""How many pages a partition has. The partition of a page is its number divided by this."""
HIGHEST_PARTITION = 65535
"""Partitions are 0 to this one."""

_START = struct.Struct(">QH")
_SHORT = struct.Struct(">H")
_PUT = struct.Struct(">BIHH")
_ZERO = struct.Struct(">BI")
_PUT_KIND, _ZERO_KIND = 1, 2
EMPTY_BLOCK_SIZE = 12
"""Bytes of a block without records."""
PUT_HEAD_SIZE = _PUT.size
"""Bytes of a Put besides its data."""
ZERO_SIZE = _ZERO.size
"""Bytes of a Zero."""


@dataclass(frozen=True, slots=True)
class Put:
    """Replaces the bytes of a page from `offset` on by `data`.

    `page` is 0 to 2^32 - 1; `data` is of the type bytes, has at least one and ends at or before byte 8,192 of the page.
    """

    page: int
    offset: int
    data: bytes = field(repr=False)

    @property
    def partition(self) -> int:
        """The partition of the page, 0 to 65,535."""
        return self.page // PAGES_OF_PARTITION


@dataclass(frozen=True, slots=True)
class Zero:
    """Makes all 8,192 bytes of a page zeros. `page` is 0 to 2^32 - 1."""

    page: int

    @property
    def partition(self) -> int:
        """The partition of the page, 0 to 65,535."""
        return self.page // PAGES_OF_PARTITION


Record = Union[Put, Zero]


@dataclass(frozen=True, slots=True)
class Block:
    """A block of the log: its LSN, 1 to 2^48, and its encoded bytes, at most 32,768, which are known to be sound.

    It is made by `Block.of` from records and by `Block.decode` from bytes.
    """

    lsn: int
    data: bytes = field(repr=False)

    @classmethod
    def of(cls, lsn: int, records: Iterable[Record] = ()) -> Block:
        """The block with this LSN and these records.

        Raises `LsnOutOfRange`; then `EmptyPut` or `PutPastPage` for the first faulty Put; then `BlockTooLong`.
        A page or an offset that is not a whole number of its size is a `ValueError`; data of another type than bytes, as a
        bytearray, which may change before it is sent, is a `TypeError`.
        """
        _check_lsn(lsn)
        listed = list(records)
        for record in listed:
            _check_record(record)
        partitions = sorted({record.partition for record in listed})
        if len(listed) > 65535:
            raise BlockTooLong(f"{len(listed)} records")
        try:
            parts = [
                _START.pack(lsn, len(partitions)),
                *map(_SHORT.pack, partitions),
                _SHORT.pack(len(listed)),
            ]
            parts.extend(map(encode_record, listed))
        except struct.error as error:
            raise ValueError(f"an LSN, a page or an offset is no whole number: {error}") from error
        data = b"".join(parts)
        if len(data) > BLOCK_SIZE:
            raise BlockTooLong(f"{len(data)} bytes")
        return cls(lsn, data)

    @classmethod
    def decode(cls, data: bytes) -> Block:
        """The block of these bytes. Raises the first `BlockFault` in the order of docs/FORMATS."""
        if len(data) > BLOCK_SIZE:
            raise BlockTooLong(f"{len(data)} bytes")
        return cls(_check(data), bytes(data))

    def at(self, lsn: int) -> Block:
        """The block with these records at another LSN."""
        return self if lsn == self.lsn else Block(lsn, lsn.to_bytes(8, "big") + self.data[8:])

    @property
    def records(self) -> tuple[Record, ...]:
        """The records, in their order. They are decoded at each call."""
        return tuple(_records(self.data))

    @property
    def partitions(self) -> tuple[int, ...]:
        """The partitions that the records touch, rising."""
        count = _SHORT.unpack_from(self.data, 8)[0]
        return struct.unpack_from(f">{count}H", self.data, 10)

    @property
    def is_empty(self) -> bool:
        """Whether it has no records. No pull serves such a block."""
        return len(self.data) == EMPTY_BLOCK_SIZE


def check_record(record: Record) -> None:
    """Raises for a faulty record what `Block.of` raises for it."""
    _check_record(record)
    try:
        encode_record(record)
    except struct.error as error:
        raise ValueError(f"a page or an offset is no whole number: {error}") from error


def carry_out(record: Record, page: bytearray) -> None:
    """Does to its page what the record says."""
    if isinstance(record, Put):
        page[record.offset : record.offset + len(record.data)] = record.data
    else:
        page[:] = bytes(PAGE_SIZE)


def size_of_record(record: Record) -> int:
    """How many bytes a record has in a block."""
    return PUT_HEAD_SIZE + len(record.data) if isinstance(record, Put) else ZERO_SIZE


def encode_record(record: Record) -> bytes:
    """The bytes of a record as they are in a block. The record is not checked."""
    if isinstance(record, Put):
        return _PUT.pack(_PUT_KIND, record.page, record.offset, len(record.data)) + record.data
    return _ZERO.pack(_ZERO_KIND, record.page)


def _check_lsn(lsn: int) -> None:
    if not 1 <= lsn <= HIGHEST_LSN:
        raise LsnOutOfRange(str(lsn))


def _check_record(record: Record) -> None:
    if not isinstance(record, (Put, Zero)):
        raise TypeError(f"a record is a Put or a Zero, and not {type(record).__name__}")
    if not 0 <= record.page <= HIGHEST_PAGE:
        raise ValueError(f"page {record.page} is not 0 to {HIGHEST_PAGE}")
    if isinstance(record, Put):
        if not 0 <= record.offset <= 65535:
            raise ValueError(f"offset {record.offset} is not 0 to 65535")
        if not isinstance(record.data, bytes):
            raise TypeError(f"the data of a Put is bytes, and not {type(record.data).__name__}")
        if not record.data:
            raise EmptyPut(f"page {record.page}")
        if record.offset + len(record.data) > PAGE_SIZE:
            raise PutPastPage(
                f"page {record.page}, offset {record.offset}, {len(record.data)} bytes"
            )


def _check(data: bytes) -> int:
    """The LSN of sound bytes. Fields are read from the front, and the first fault found is raised."""
    size = len(data)
    if size < 8:
        raise BlockEndsInField()
    lsn = int.from_bytes(data[:8], "big")
    _check_lsn(lsn)
    annotations, at = _check_annotations(data)
    if at + 2 > size:
        raise BlockEndsInField()
    touched = set()
    count, at = _SHORT.unpack_from(data, at)[0], at + 2
    for _ in range(count):
        partition, at = _check_record_at(data, at)
        touched.add(partition)
    if at != size:
        raise BytesAfterRecords()
    if touched != annotations:
        raise WrongAnnotations()
    return int(lsn)


def _check_annotations(data: bytes) -> tuple[set[int], int]:
    """The annotations, and where they end."""
    size, before = len(data), -1
    if size < 10:
        raise BlockEndsInField()
    count, at = _SHORT.unpack_from(data, 8)[0], 10
    found = set()
    for _ in range(count):
        if at + 2 > size:
            raise BlockEndsInField()
        partition = _SHORT.unpack_from(data, at)[0]
        if partition <= before:
            raise PartitionsNotRising(f"{partition} after {before}")
        before, at = partition, at + 2
        found.add(partition)
    return found, at


def _check_record_at(data: bytes, at: int) -> tuple[int, int]:
    """The partition of the record that begins here, and where it ends."""
    size = len(data)
    if at >= size:
        raise BlockEndsInField()
    kind = data[at]
    if kind == _PUT_KIND:
        if at + PUT_HEAD_SIZE > size:
            raise BlockEndsInField()
        _, page, offset, length = _PUT.unpack_from(data, at)
        if length == 0:
            raise EmptyPut(f"page {page}")
        if offset + length > PAGE_SIZE:
            raise PutPastPage(f"page {page}, offset {offset}, {length} bytes")
        end = at + PUT_HEAD_SIZE + length
    elif kind == _ZERO_KIND:
        end = at + ZERO_SIZE
        if end > size:
            raise BlockEndsInField()
        page = _ZERO.unpack_from(data, at)[1]
    else:
        raise UnknownRecordKind(str(kind))
    if end > size:
        raise BlockEndsInField()
    return page >> 16, end


def _records(data: bytes) -> Iterator[Record]:
    """The records of sound bytes."""
    at = 10 + 2 * _SHORT.unpack_from(data, 8)[0]
    count, at = _SHORT.unpack_from(data, at)[0], at + 2
    for _ in range(count):
        if data[at] == _PUT_KIND:
            _, page, offset, length = _PUT.unpack_from(data, at)
            at += PUT_HEAD_SIZE
            yield Put(page, offset, data[at : at + length])
            at += length
        else:
            yield Zero(_ZERO.unpack_from(data, at)[1])
            at += ZERO_SIZE
