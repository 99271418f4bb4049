"""Moving: a database goes to a fresh one while a writer goes on."""

from __future__ import annotations

import secrets
import time
from dataclasses import dataclass, field
from typing import Callable

from pagelog.archive import ArchiveError
from pagelog.archive.archiving import Archiver
from pagelog.audit_list import MOST_ENTRIES, AuditRoom
from pagelog.comparing import PULLS, OtherLog, Progress, all_blocks, compare, no_progress
from pagelog.fencing import ListGuard
from pagelog.operator import Operator
from pagelog.primary import WINDOW, Primary
from pagelog.reader import Reader
from pagelog.request import PULL_MAX, Operation
from pagelog.restoring import EPOCHS_ABOVE, fill, raise_epoch
from pagelog.tables import TableText

_LOOKS = 256
"""Entries of a list for looks at it, statuses, and connections that are made again."""
_STEPS = 8
"""Batches that are archived at most between two groups of blocks that are written."""


class NotFenced(ArchiveError):
    """A move did not come within a window of the source in time, or found it in another epoch than that of its fence."""


class SameDatabase(ArchiveError):
    """Source and target of a move are one database, at two addresses. Nothing was changed."""


class NoRoom(ArchiveError):
    """The target's audit list, or its memory, does not have room for the log. The source was not fenced."""


@dataclass(frozen=True)
class Moved:
    """How a move ended: both logs have `hard` blocks, all alike; the source was fenced `behind` blocks before its end.

    `epoch` is the epoch of the source that nobody writes in, and `pause` the seconds from the fence until writers may begin at
    the target: the rest, and its comparison.
    """

    hard: int
    behind: int
    epoch: int
    pause: float


def is_same_database(one: Operator, other: Operator) -> bool:
    """Whether two operators, perhaps at two addresses, have one audit list: the one finds a question of the other there."""
    mark = secrets.randbits(62) | 1 << 62
    before = one.count_of_entries()
    other.audit(mark, 1)
    return any(
        entry.operation is Operation.AUDIT and entry.a == mark for entry in one.entries(before + 1)
    )


@dataclass
class Move:
    """Takes a database to a fresh one: from the archive and the live log, with a fence before the last blocks.

    `fence_to` is the principal that the source's last epoch belongs to: one that does not write, and that its table
    lists. `within` is how near, in blocks, the target has to be before the fence; `patience` is in seconds.

    `table` is the source's: with it the fence is a table by which nobody writes, which a writer's own failover does not take
    back. `target` is an operator of the target: with it the target's epoch is raised above the source's, and its room is
    computed from `limit`, the entries that its audit list takes, and `memory`, the bytes that it may take. `source_limit` is
    that of the source's list: should that fill before, the source is fenced earlier, while all can still be pulled.
    """

    archiver: Archiver
    operator: Operator
    primary: Primary
    reader: Reader
    fence_to: int
    within: int = WINDOW
    patience: float = 600.0
    table: TableText | None = None
    target: Operator | None = None
    limit: int = MOST_ENTRIES
    memory: int | None = None
    source_limit: int = MOST_ENTRIES
    warn: Callable[[str], None] = lambda _: None
    fenced: int | None = field(default=None, init=False)
    """The epoch of the source that the fence began, once there was one."""
    _is_fencing: bool = field(default=False, init=False)
    _began: float = field(default=0.0, init=False)
    _guard: ListGuard | None = field(default=None, init=False)

    @property
    def may_be_fenced(self) -> bool:
        """Whether the fence was begun. Where that ended by an error or an interrupt, it is there, or a part of it, or it is not."""
        return self._is_fencing or (self._guard is not None and self._guard.is_fencing)

    def run(self, told: Progress = no_progress) -> Moved:
        """Restore, follow, a comparison, the fence, the rest and its comparison. What is hardened is archived all the while.

        Raises `SameDatabase` and `NoRoom` before anything is changed, `NotFenced` where patience ends first, and where the
        source is in another epoch than the fence's in the end, and `OlderEpoch` where it is the target that was fenced.
        What is archived stays so whatever ends it, and it may be run again as long as nobody else wrote to the target.
        """
        if self.target is not None and is_same_database(self.operator, self.target):
            raise SameDatabase("source and target are the same database, at two addresses")
        self.archiver.run(follow=False, told=told)
        self._check_room()
        self._raise_epoch()
        room = AuditRoom(self.operator, self.source_limit)
        self._guard = ListGuard(
            room,
            self.archiver,
            fence_at=self.archiver.archived // PULL_MAX + 4 * _LOOKS,
            table=self.table,
            warn=self.warn,
        )
        fill(self.archiver.archive, self.primary, self.reader, told=self._archiving(told))
        self._try_reader()
        self._follow(told)
        compared = self._compare(1, self.primary.durable, self._archiving(told))
        self._follow(told)
        before = self.primary.durable
        epoch = self._fence()
        self._rest(told)
        self.primary.begin()  # OlderEpoch where the fence was the target's
        hard = self._check(compared, told)
        now = self.archiver.reader.status()
        if now.epoch != epoch:
            raise NotFenced(
                f"the fence began epoch {epoch}, and the source is in epoch {now.epoch}, with primary {now.primary}"
            )
        self._raise_epoch()
        return Moved(hard, hard - before, epoch, time.monotonic() - self._began)

    def _raise_epoch(self) -> None:
        """The target is in an epoch above the source's, by which writers of the source are denied there."""
        epoch = max(self.archiver.archive.epoch, self.fenced or 0)
        if self.target is not None and self.target.status().epoch <= epoch:
            raise_epoch(self.target, self.primary.credentials.id, epoch + EPOCHS_ABOVE)

    def _check_room(self) -> None:
        """Raises `NoRoom` where the target cannot take the log. It is a write for each copy, a report, and a comparison."""
        if self.target is None:
            return
        hard, archive = self.archiver.reader.hard_seen, self.archiver.archive
        there = self.target.status().hard
        blocks = max(0, hard - there)
        wanted = (
            blocks * len(self.primary.copies)
            + blocks // WINDOW
            + hard // PULL_MAX
            + archive.epoch
            + _LOOKS
        )
        has = self.target.count_of_entries()
        if has + wanted > self.limit:
            raise NoRoom(
                f"the target's audit list takes {self.limit} entries and has {has}, and a move of {blocks} blocks wants "
                f"{wanted} more: the source was not fenced"
            )
        bytes_ = archive.bytes()
        memory = 2 * bytes_ + 200 * hard + 210 * (has + wanted)
        if self.memory is not None and memory > self.memory:
            raise NoRoom(
                f"the target may take {self.memory} bytes of memory, and {hard} blocks of {bytes_} bytes with their "
                f"entries take some {memory}: the source was not fenced"
            )

    def _archiving(self, told: Progress) -> Progress:
        """The same report, and between two steps of other work what was hardened meanwhile is archived."""

        def report(done: int, total: int) -> None:
            told(done, total)
            self._archive()

        return report

    def _archive(self) -> None:
        for _ in range(_STEPS):
            if len(self.archiver.step()) < PULLS * PULL_MAX:
                break
        if self._guard is not None and self.fenced is None:
            began = time.monotonic()
            if self._guard.check():
                self.fenced, self._began = self._guard.fenced, began

    def _try_reader(self) -> None:
        """Compares the last blocks, so that a reader that the target refuses ends the move before the fence."""
        self.reader.status()
        last = self.primary.durable
        first = max(1, last - 15)
        compare(all_blocks(self.reader, first, last), self.archiver.archive.blocks(first, last))

    def _follow(self, told: Progress) -> None:
        deadline = time.monotonic() + self.patience
        while self.operator.status().hard - self._pass_on(told) > self.within:
            if time.monotonic() > deadline:
                raise NotFenced(
                    f"not within {self.within} blocks in {self.patience} s; the source was not fenced"
                )

    def _pass_on(self, told: Progress) -> int:
        """Archives a batch, and writes to the target what it lacks. Returns the target's hardened end."""
        self._archive()
        for lsn in self.primary.harden(
            self.archiver.archive.blocks(self.primary.durable + 1, self.archiver.archived)
        ):
            told(lsn, self.archiver.reader.hard_seen)
        return self.primary.durable

    def _fence(self) -> int:
        """Nobody writes at the source from now on. What its writers had in a quorum of copies is hardened."""
        if self.fenced is None:
            self._began, self._is_fencing = time.monotonic(), True
            if self.table is not None:
                self.operator.set_table(self.table.without_writes())
            self.fenced = self.operator.failover(self.fence_to)
        return self.fenced

    def _rest(self, told: Progress) -> None:
        end = self.operator.status().hard
        while (before := self.primary.durable) < end:
            if self._pass_on(told) == before:
                raise OtherLog(before + 1, f"the source has {end} blocks, and nothing more comes")

    def _check(self, compared: int, told: Progress) -> int:
        """Compares what came since the comparison before the fence. Returns the hardened end of both."""
        hard, found = self.operator.status().hard, self.reader.status().hard
        if found != hard:
            raise OtherLog(
                min(found, hard) + 1,
                f"the source has {hard} blocks and the target {found}, and one is missing",
            )
        self._compare(compared + 1, hard, told)
        return hard

    def _compare(self, first: int, last: int, told: Progress) -> int:
        """Compares both logs from LSN `first` to `last`, which it returns."""
        compare(
            all_blocks(self.archiver.reader, first, last),
            all_blocks(self.reader, first, last),
            told=told,
            last=last,
        )
        return last
