"""The care of an archive: which logs it has, blocks that are replaced, and logs that are dropped."""

from __future__ import annotations

import zlib
from dataclasses import dataclass
from typing import Iterator

from pagelog.archive import tables
from pagelog.archive import Archive, DamagedArchive, NoArchive, tables_are_missing
from pagelog.archive.engine import engine_of
from pagelog.archive.url import file_is_missing
from pagelog.block import Block
from pagelog.comparing import OtherLog, Progress, all_blocks, no_progress
from pagelog.reader import Reader

_DROP_SIZE = 4096
_BESIDE = 16


@dataclass(frozen=True)
class KeptLog:
    """A log of an archive: its name, the archived LSN, the highest epoch seen, and how many blocks and bytes are there."""

    name: str
    archived: int
    epoch: int
    blocks: int
    bytes: int


def logs_of(url: str) -> list[KeptLog]:
    """The logs of an archive, by name. The database counts and adds up: no block is read. Raises `NoArchive`."""
    if file_is_missing(url):
        raise NoArchive("there is no archive at this URL")
    engine = engine_of(url)
    try:
        if tables_are_missing(engine):
            raise NoArchive("there is no archive at this URL")
        return [KeptLog(str(name), *map(int, sums)) for name, *sums in engine.rows(tables.SUMS)]
    finally:
        engine.close()


@dataclass(frozen=True)
class Mended:
    """LSNs of the blocks that were replaced, and of those that the service does not have either."""

    mended: list[int]
    left: list[int]


def mend(archive: Archive, reader: Reader, *, told: Progress = no_progress) -> Mended:
    """Replaces blocks that are missing or damaged by those of a service with the same log.

    The nearest sound blocks on both sides of each, up to 16, are compared first: raises `OtherLog` where the service has others.
    """
    hard = reader.status().hard
    mended, left = [], []
    for lsn in damaged(archive, told):
        if lsn > hard:
            left.append(lsn)
            continue
        _compare_beside(archive, reader, lsn, hard)
        [block] = list(all_blocks(reader, lsn, lsn))
        _replace(archive, block)
        mended.append(lsn)
    return Mended(mended, left)


def damaged(archive: Archive, told: Progress = no_progress) -> Iterator[int]:
    """The LSNs up to the archived one whose blocks are missing or damaged. One block at a time is held."""
    lsn, last = 1, archive.archived
    while lsn <= last:
        try:
            for block in archive.blocks(lsn, last):
                lsn = block.lsn + 1
                if lsn % 512 == 0:
                    told(lsn, last)
        except DamagedArchive as broken:
            yield broken.lsn
            lsn = broken.lsn + 1


def _compare_beside(archive: Archive, reader: Reader, lsn: int, hard: int) -> None:
    for near in (
        *range(lsn - 1, max(0, lsn - 1 - _BESIDE), -1),
        *range(lsn + 1, min(archive.archived, hard, lsn + _BESIDE) + 1),
    ):
        try:
            kept = list(archive.blocks(near, near))
        except DamagedArchive:
            continue
        if kept and not kept[0].is_empty and list(all_blocks(reader, near, near)) != kept:
            raise OtherLog(near, "the service has another block than the archive")


def _replace(archive: Archive, block: Block) -> None:
    row = (archive.id, block.lsn, zlib.crc32(block.data), block.data)
    with archive.engine.begin() as session:
        session.change(tables.DROP_BLOCKS, log=archive.id, first=block.lsn, last=block.lsn)
        session.insert(tables.KEEP, [row])


def drop(archive: Archive) -> int:
    """Removes the log with its blocks, some thousands in a transaction, and the seals of these. Returns how many blocks there were.

    Its archived LSN is 0 first, so that a drop that is broken off leaves no log with a hole.
    """
    engine, count = archive.engine, 0
    has_seals = engine.has_table(tables.SEALS)
    with engine.begin() as session:
        session.change(tables.BEGIN_DROP, log=archive.id)
        if has_seals:
            session.change(tables.DROP_SEALS, name=archive.log)
        highest = int(session.value(tables.HIGHEST, log=archive.id))
    for first in range(0, highest + 1, _DROP_SIZE):
        with engine.begin() as session:
            count += session.change(
                tables.DROP_BLOCKS, log=archive.id, first=first, last=first + _DROP_SIZE - 1
            )
    with engine.begin() as session:
        session.change(tables.DROP_LOG, log=archive.id)
    return count
