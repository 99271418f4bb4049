"""Seals of archived blocks: digests that a trail keeps of them, by which a later edit of a block is found.

A line of the audit list does not hold the block that was written. A seal is the digest of all blocks from LSN 1 to its own.
"""

from __future__ import annotations

import hashlib
from typing import Iterator

from pagelog.archive import Archive, DamagedArchive
from pagelog.block import Block
from pagelog.trail.store import NO_DIGEST, Trail

BETWEEN = 1024
"""The most blocks between two seals."""


def digest_behind(before: bytes, block: Block) -> bytes:
    """The digest up to a block, behind the one up to the block before it."""
    return hashlib.sha256(before + block.data).digest()


def seal(trail: Trail, archive: Archive) -> int:
    """Seals what was archived since the last seal, as it is now. Returns the LSN of the last seal. Raises `DamagedArchive`."""
    seals = trail.seals()
    last = max(seals, default=0)
    digest, archived = seals.get(last, NO_DIGEST), archive.archived
    for block in archive.blocks(last + 1, archived):
        digest = digest_behind(digest, block)
        if block.lsn == archived or (block.lsn - last) % BETWEEN == 0:
            trail.keep_seal(block.lsn, digest)
    return max(last, archived)


def sealed_blocks(trail: Trail, archive: Archive) -> Iterator[Block]:
    """The archived blocks, each checked, and with them the seals. Raises `DamagedArchive`."""
    seals, digest, last = trail.seals(), NO_DIGEST, 0
    for block in archive.blocks():
        digest = digest_behind(digest, block)
        if block.lsn in seals:
            if seals[block.lsn] != digest:
                raise DamagedArchive(
                    block.lsn,
                    f"LSN {last + 1} to this one are not the blocks that the trail has sealed",
                )
            last = block.lsn
        yield block
