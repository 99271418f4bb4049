"""Filling blocks with records."""

from __future__ import annotations

from typing import Sequence

from pagelog.block import BLOCK_SIZE, EMPTY_BLOCK_SIZE, Block, Record, size_of_record

_MOST_RECORDS = 65535


class Packer:
    """Fills a block with records, as many as fit into 32,768 bytes."""

    def __init__(self) -> None:
        self.records: list[Record] = []
        self._partitions: set[int] = set()
        self._size = EMPTY_BLOCK_SIZE

    def add(self, record: Record) -> bool:
        """Adds the record, if it fits."""
        partition = record.partition
        size = self._size + size_of_record(record) + (0 if partition in self._partitions else 2)
        if size > BLOCK_SIZE or len(self.records) == _MOST_RECORDS:
            return False
        self._size = size
        self._partitions.add(partition)
        self.records.append(record)
        return True

    def add_all(self, records: Sequence[Record]) -> bool:
        """Adds the records, if all of them fit; else none."""
        count, partitions, size = len(self.records), set(self._partitions), self._size
        if all(map(self.add, records)):
            return True
        del self.records[count:]
        self._partitions, self._size = partitions, size
        return False


class PackedBlocks:
    """Blocks from an LSN on, as few as the records of some commits fit in."""

    def __init__(self, first: int) -> None:
        self.blocks: list[Block] = []
        self._first = first
        self._packer = Packer()

    def add(self, records: Sequence[Record]) -> int:
        """Adds the records of one commit: where they fit into a block, into one. Returns the LSN of its end."""
        if not self._packer.add_all(records):
            self.close()
            for record in records:
                self._add(record)
        return self._first + len(self.blocks) - (not self._packer.records)

    def _add(self, record: Record) -> None:
        if not self._packer.add(record):
            self.close()
            self._packer.add(record)

    def close(self) -> None:
        """Nothing is added to the last block any more."""
        if self._packer.records:
            self.blocks.append(Block.of(self._first + len(self.blocks), self._packer.records))
        self._packer = Packer()
