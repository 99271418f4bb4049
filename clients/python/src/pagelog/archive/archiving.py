"""Archiving: what is hardened is pulled and kept."""

from __future__ import annotations

from typing import Callable, Sequence

from pagelog.archive import Archive
from pagelog.block import Block
from pagelog.comparing import PULLS, OtherLog, Progress, all_blocks, compare, no_progress, whole
from pagelog.errors import ConnectionLost, LogWentBack
from pagelog.reader import Reader
from pagelog.repeating import Backoff, sleep
from pagelog.request import PULL_MAX

_TRIES = 8
_CHECK_ENTRIES = 64
"""Entries for the looks at the log, with connections that are made again."""


class Archiver:
    """Pulls what is hardened and keeps it.

    The service has to have the log that the archive has. That is looked at before the first batch is kept, and again
    whenever the connection was made again, since the service may have been too. A batch is of one connection, and so of one
    service: where that is lost amid it, what came whole is kept. And over the same connection came the last archived
    block, so that where services come and go, the batches are of one log.
    """

    def __init__(self, reader: Reader, archive: Archive) -> None:
        self.reader = reader
        self.archive = archive
        self.archived = archive.archived
        self._epoch = 0
        """The epoch that the archive knows of."""
        self._checked_connects = 0
        self._same_connects = 0
        reader.compares_logs = False  # it does so itself, with what the archive has
        # What was hardened once is hardened for good: a service with less is another one.
        reader.hard_seen = max(reader.hard_seen, self.archived)

    @property
    def lag(self) -> int:
        """How many blocks were hardened and not archived when the service was asked last."""
        return max(0, self.reader.hard_seen - self.archived)

    @property
    def entries_wanted(self) -> int:
        """How many entries of the audit list it takes to archive what is hardened, with its own looks at the service."""
        return -(-self.lag // PULL_MAX) + _CHECK_ENTRIES

    def step(self) -> list[Block]:
        """Keeps one batch and returns it; nothing where all is archived. It has at most 256 blocks with records, 4,096 in all.

        Raises `OtherLog` or `LogWentBack` where the service has another log, and `OtherArchiver`. Nothing was kept then.
        """
        blocks = self._pulled()
        if not self._is_of_the_log(blocks):
            blocks = self._pulled()
            if not self._is_of_the_log(blocks):
                raise OtherLog(
                    blocks[-1].lsn,
                    "the service has other blocks again than those that it served just before",
                )
        if blocks:
            self.archived = self.archive.keep(blocks, self.reader.epoch)
        elif self._epoch < self.reader.epoch:
            self.archive.note_epoch(self.reader.epoch)
        self._epoch = self.reader.epoch
        return blocks

    def _pulled(self) -> list[Block]:
        """What is new, over a connection over which the last archived block came too."""
        for _ in range(_TRIES):
            if (
                self._same_connects != self.reader.connection.connects
                or not self.reader.connection.is_open
            ):
                behind = self._behind_the_last()
                if behind:
                    return behind
            span = self.reader.span(self.archived + 1, pulls=PULLS)
            if not self.archived:
                self._same_connects = span.connection
            if span.connection == self._same_connects:
                return whole(span)
        raise ConnectionLost(f"no connection lasted for what is behind LSN {self.archived}")

    def _behind_the_last(self) -> list[Block]:
        """The blocks behind the last archived ones, which are pulled again and compared, from one with records on."""
        last = list(self.archive.blocks(max(1, self.archived - 15), self.archived))
        full = [at for at, block in enumerate(last) if not block.is_empty]
        known = last[full[-1] :] if full else last
        if not known:
            return []
        span = self.reader.span(known[0].lsn, pulls=PULLS)
        found = whole(span)
        compare(found[: len(known)], known[: len(found)])
        self._same_connects = span.connection
        return found[len(known) :]

    def _is_of_the_log(self, batch: Sequence[Block]) -> bool:
        """Whether the service of this connection has the log of the archive, which else is raised, and the end of the batch.

        It may lack that where the batch came over an earlier connection, from a service that is gone.
        """
        if self._checked_connects == self.reader.connection.connects:
            return True
        self._check_log()
        end = batch[-16:]
        try:
            compare(all_blocks(self.reader, end[0].lsn, end[-1].lsn) if end else (), end)
        except OtherLog:
            return False
        return True

    def _check_log(self) -> None:
        """Looks at the service after the pulls of a batch. A connection that is made meanwhile is looked at next time."""
        connects = self.reader.connection.connects
        hard = self.reader.status().hard
        if hard < self.archived:
            raise LogWentBack(
                f"the service has {hard} blocks, and {self.archived} are archived: it was restarted"
            )
        for first in {1, max(1, self.archived // 2), max(1, self.archived - 15)}:
            last = min(self.archived, first + 15)
            compare(all_blocks(self.reader, first, last), self.archive.blocks(first, last))
        self._checked_connects = connects

    def resume(self) -> None:
        """Takes up the archived LSN from the archive, after an error that leaves open whether a batch was kept."""
        self.archived = self.archive.archived
        self.reader.hard_seen = max(self.reader.hard_seen, self.archived)
        self._epoch = self._checked_connects = self._same_connects = 0

    def run(
        self,
        *,
        follow: bool,
        idle: float = 1.0,
        told: Progress = no_progress,
        stop: Callable[[], bool] = lambda: False,
    ) -> int:
        """Keeps what is hardened when it begins; with `follow` also what comes, until `stop`.

        While less than a batch comes, it waits before it asks again: a quarter of `idle` seconds after news, and after none
        twice as long as before, up to `idle`. So `idle` says how much may be lost with the service, and how many entries of the
        audit list it takes. `told` is given the archived LSN and the hardened end after each step. Returns the archived LSN.
        """
        waits, end = Backoff(idle / 2, idle), self.reader.status().hard
        if end == self.archived:
            self._check_log()  # no batch may come with which it would be looked at
            self.archive.note_epoch(self.reader.epoch)
        while not stop() and (follow or self.archived < end):
            batch = self.step()
            told(self.archived, self.reader.hard_seen)
            if len(batch) < PULLS * PULL_MAX and (follow or not batch):
                if batch:
                    waits.reset()
                sleep(idle / 4 if batch else waits.next(), stop)
        return self.archived
