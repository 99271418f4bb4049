"""Moves runs of blocks of one database from PostgreSQL into the store, by four steps: seal, put, keep, cut; then its images.

Each step is one statement or one request, and begins from what PostgreSQL's rows say. So it may be killed between any two, stand still and
go on, and run twice at once: who comes late changes nothing. What PostgreSQL has of a run is compared with what is to be put by its own
SHA-256, within the statement: a mover that stood still while PostgreSQL went back holds blocks that are none.
"""

from __future__ import annotations

import struct
import time
import uuid
import zlib
from dataclasses import dataclass, field
from typing import Any, Callable, Iterator, Sequence

from pagelog.objects.place import Store, StoreError
from pagelog.objects.segment import (
    LEVEL,
    SegmentHead,
    SealedSegment,
    Segment,
    encode,
    folder_of,
    named,
)
from pagelog.objects.settings import StoreSettings
from pagelog.referee import object_statements as tables
from pagelog.referee.referee import BrokenArchive, Doubt, Referee, digest
from pagelog.referee.through import moment_of
from pagelog.store.packing import PackMover, is_there

BLOCKS = 131_072
"""Blocks of one object at most."""
CLEARED = 300
"""Rows that one statement deletes, so that no commit waits for many."""
BELIEVED = 60.0
"""Seconds for which a server is believed that nothing is to be moved: one that leads no more may say so for ever, but cannot write."""
_READ, _BYTES = 8192, 2 << 20
"""How many blocks are read at once, and how many bytes of them."""
_RUN = f"""
SELECT count(*)::integer, COALESCE(max(lsn), 0), COALESCE(string_agg(data, ''::bytea ORDER BY lsn), ''),
  COALESCE(string_agg(int4send(length(data)) || int8send(crc) || int8send(COALESCE((extract(epoch FROM came) * 1000000)::bigint, 0)),
    ''::bytea ORDER BY lsn), '')
FROM (SELECT *, sum(length(data)) OVER (ORDER BY lsn) AS upto FROM pagelog_block WHERE log = %(log)s AND lsn BETWEEN %(first)s AND %(last)s) b
WHERE upto <= {_BYTES} OR lsn = %(first)s
"""
_ONE = struct.Struct(">IQq")


@dataclass(frozen=True)
class OpenObject:
    """A row of an object that is not the only place of its blocks yet."""

    first: int
    last: int
    key: str
    digest: bytes = field(repr=False)
    raw_digest: bytes = field(repr=False)
    after: bytes = field(repr=False)
    state: int
    is_old: bool
    """Whether it may be cut by its age."""


@dataclass
class MoverTally:
    """What was done, and how often a statement was refused, as somebody else had been there, or PostgreSQL went back."""

    sealed: int = 0
    kept: int = 0
    cut: int = 0
    refused: int = 0
    raw: int = 0
    stored: int = 0


@dataclass
class _Run:
    """Blocks as they are read."""

    parts: list[bytes]
    lengths: list[int]
    came: list[int]
    chain: bytes
    size: int = 0
    is_full: bool = False


def nothing(_: str) -> None:
    """Of a mover that nobody watches."""


class Mover:
    """Of one database, as `log` and identity. `passing` is called with the name of each point between two steps."""

    def __init__(
        self,
        referee: Referee,
        store: Store,
        log: int,
        name: str,
        identity: str,
        settings: StoreSettings,
        *,
        passing: Callable[[str], None] = nothing,
        level: int = LEVEL,
    ) -> None:
        self._referee, self._store, self._log, self._settings = referee, store, log, settings
        self._identity, self._folder = uuid.UUID(identity), folder_of(name, uuid.UUID(identity))
        self._passing, self._level = passing, level
        self._ready: SealedSegment | None = None
        """What was encoded last: usually it is put next."""
        self._each = 1024.0
        """Bytes of a block, about."""
        self._wrote = float("-inf")
        """When a server last showed by a statement that writes how far the database is moved."""
        self.done = MoverTally()
        self.images = PackMover(self._ask, store, self._identity, passing, level)

    def _ask(self, statement: str, *, binary: bool = False, **values: Any) -> list[Any]:
        """The rows of a statement, whose condition is of the state before it: where it is in doubt it may be asked again."""
        values = {"log": self._log, "identity": str(self._identity), **values}
        try:
            return self._referee._ask_bounded(statement, values, binary=binary)
        except Doubt:
            return self._referee._ask_bounded(statement, values, binary=binary)

    def step(self) -> bool:
        """Does the next thing that is to be done. False where nothing is. Raises `StoreError`, and what the referee raises."""
        if self._clear():
            return True
        row = self._open()
        if row is not None and row.state == 0:
            self._put(row)
            return True
        if row is not None and row.is_old:
            return self._cut(row)
        return self._seal() or self.images.step()

    def _open(self) -> OpenObject | None:
        """The object that is next to be put or cut."""
        for first, last, key, wanted, raw_digest, after, state, is_old in self._ask(
            tables.OPEN, tail=self._settings.tail
        ):
            return OpenObject(
                first, last, key, bytes(wanted), bytes(raw_digest), bytes(after), state, is_old
            )
        return None

    # Seal: a row says what is to be put. The blocks are in PostgreSQL.

    def _seal(self) -> bool:
        is_believed = time.monotonic() - self._wrote < BELIEVED
        seen = self._ask(tables.SEEN, age=self._settings.age) if is_believed else []
        if seen and not self._is_due(seen[0]):
            return False  # an idle database's row is not written
        found = self._ask(tables.MOVED, age=self._settings.age)
        self._wrote = time.monotonic()
        if not found:
            return bool(self._ask(tables.BEGIN, folder=self._folder))
        if not self._is_due(found[0]):
            return False
        folder, moved, cut, chain, archived, wanted, generation, is_old = found[0]
        if is_old is None:
            return self._skip(moved, cut)
        try:
            run = self._read(moved + 1, archived, bytes(chain))
        except BrokenArchive:
            if self._has_gone_on(moved):
                return True
            raise
        self._each = run.size / len(run.lengths)
        if not is_old and not run.is_full:
            return False
        last = moved + len(run.lengths)
        if last == archived and run.chain != bytes(wanted):
            raise BrokenArchive(
                f"the blocks {moved + 1} to {archived} are not those that were archived"
            )
        head = SegmentHead(self._identity, moved + 1, last, bytes(chain), run.chain, generation)
        segment = Segment(head, b"".join(run.parts), run.lengths, run.came)
        run.parts.clear()
        sealed = encode(segment, folder, self._level)
        self._passing("encoded")
        is_noted = self._note(segment, sealed)
        self._passing("sealed")
        return is_noted

    def _is_due(self, row: Sequence[Any]) -> bool:
        """Whether there is a block that is old enough, or missing, or probably as many as an object has."""
        _, moved, _, _, archived, _, _, is_old = row
        left = archived - moved
        is_enough = left * self._each >= self._settings.seal or left >= BLOCKS
        return left > 0 and (is_old is not False or is_enough)

    def _has_gone_on(self, moved: int) -> bool:
        """Whether another mover has moved what was to be read, and it was cut, or PostgreSQL went back."""
        found = self._ask(tables.MOVED, age=self._settings.age)
        return not found or found[0][1] != moved

    def _note(self, segment: Segment, sealed: SealedSegment) -> bool:
        """Whether it was sealed: else somebody was before, or PostgreSQL has other blocks by now."""
        head = segment.head
        found = self._ask(
            tables.SEAL,
            first=head.first,
            last=head.last,
            before=head.before,
            after=head.after,
            count=head.count,
            key=sealed.key,
            size=len(sealed.data),
            digest=sealed.digest,
            raw=segment.size,
            raw_digest=segment.raw_digest,
            came=moment_of(segment.came[0]),
            until=moment_of(max(segment.came)),
        )
        if not found:
            self.done.refused += 1
            return False
        self._ready = sealed
        self.done.sealed += 1
        self.done.raw += segment.size
        self.done.stored += len(sealed.data)
        return True

    def _skip(self, moved: int, cut: int) -> bool:
        """The next block is gone. What is kept goes on with a base."""
        if cut == moved and self._ask(tables.SKIP, moved=moved):
            return True
        if cut == moved:
            raise BrokenArchive(f"the archived block {moved + 1} is missing")
        return False  # what is sealed is cut first

    def _read(self, first: int, last: int, chain: bytes) -> _Run:
        """The blocks from one position on, as many as go into an object."""
        run = _Run([], [], [], chain)
        while first <= last and not run.is_full:
            values = {"log": self._log, "first": first, "last": min(last, first + _READ - 1)}
            [[found, until, data, heads]] = self._referee._ask_bounded(_RUN, values, binary=True)
            if found == 0:
                if run.lengths:
                    break  # a gap behind it: what is there is sealed
                raise BrokenArchive(f"the archived block {first} is missing")
            self._take(
                run, first, data, _ONE.iter_unpack(heads), is_whole=until == first + found - 1
            )
            first += found
        return run

    def _take(
        self,
        run: _Run,
        first: int,
        data: bytes,
        heads: Iterator[tuple[Any, ...]],
        *,
        is_whole: bool,
    ) -> None:
        at = start = 0
        for position, (length, crc, came) in enumerate(heads, first):
            block = data[at : at + length]
            if int.from_bytes(block[:8], "big") != position or zlib.crc32(block) != crc:
                if not is_whole:
                    break  # a gap, behind which it is another position's
                raise BrokenArchive(f"the archived block {position} is not the one that was kept")
            if (
                run.size + length > self._settings.seal
                and run.lengths
                or len(run.lengths) == BLOCKS
            ):
                run.is_full = True
                break
            at += length
            run.size += length
            run.lengths.append(length)
            run.came.append(came)
            run.chain = digest(run.chain, (block,))
        run.parts.append(data[start:at])
        if not is_whole:
            if not run.lengths:
                raise BrokenArchive(f"the archived block {first} is missing")
            run.is_full = True

    # Put and keep: the bytes are in the store, and are read back from there.

    def _put(self, row: OpenObject) -> None:
        ready, self._ready = self._ready, None
        if ready is not None and ready.key != row.key:
            ready = None
        if ready is None and self._is_there(row):
            return self._keep(row)  # somebody has put it, and died
        if ready is None and (ready := self._encoded_again(row)) is None:
            return
        self._passing("before put")
        self._store.put(row.key, ready.data)
        ready = None
        self._passing("put")
        if not self._is_there(row):
            raise StoreError(f"the store does not return what was put: {row.key}")
        self._passing("read back")
        self._keep(row)

    def _is_there(self, row: OpenObject) -> bool:
        return is_there(self._store, row.key, row.digest)

    def _encoded_again(self, row: OpenObject) -> SealedSegment | None:
        """The same blocks, which one has sealed that died; None where they get another key, as the zstd here makes other bytes of them, or
        where another mover has put them meanwhile, so that they may have been cut."""
        try:
            return self._encoded_as(row)
        except BrokenArchive:
            found = self._open()
            if found is not None and (found.first, found.state) == (row.first, row.state):
                raise
            return None

    def _encoded_as(self, row: OpenObject) -> SealedSegment | None:
        said = named(row.key)
        if said is None:
            raise BrokenArchive(f"{row.key} is no key of blocks")
        run = self._read(row.first, row.last, said.before)
        segment = Segment(
            SegmentHead(
                self._identity, row.first, row.last, said.before, row.after, said.generation
            ),
            b"".join(run.parts),
            run.lengths,
            run.came,
        )
        if len(run.lengths) != segment.head.count or segment.raw_digest != row.raw_digest:
            raise BrokenArchive(
                f"the archived blocks {row.first} to {row.last} are not those that were sealed"
            )
        sealed = encode(segment, said.folder, self._level)
        if sealed.key == row.key:
            return sealed
        self._ask(
            tables.RENAME,
            first=row.first,
            old=row.key,
            key=sealed.key,
            size=len(sealed.data),
            digest=sealed.digest,
        )
        self._ready = sealed
        return None

    def _keep(self, row: OpenObject) -> None:
        if self._ask(tables.KEPT, first=row.first, key=row.key):
            self.done.kept += 1
        else:
            self.done.refused += 1
        self._passing("kept")

    # Cut: PostgreSQL has it no more.

    def _cut(self, row: OpenObject) -> bool:
        found = self._ask(
            tables.CUT,
            first=row.first,
            last=row.last,
            key=row.key,
            count=row.last - row.first + 1,
            raw_digest=row.raw_digest,
        )
        self._passing("cut")
        if found:
            self.done.cut += 1
            return True
        self.done.refused += 1
        if self._open() == row:
            raise BrokenArchive(
                f"PostgreSQL has other blocks at {row.first} to {row.last} than the object {row.key}, or some are missing"
            )
        return True

    def _clear(self) -> bool:
        """Deletes some of what is at or below the cut."""
        [[first]] = self._ask(tables.LEFT)
        if first is None:
            return False
        self._ask(tables.CLEAR, first=first, last=first + CLEARED - 1)
        self._passing("cleared")
        return True
