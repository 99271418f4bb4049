"""Durable commits of many threads through one writer of a named database.

    group = Group(primary)
    position = group.commit(Put(page=0, offset=0, data=b"hello"))     # in any thread
"""

from __future__ import annotations

import threading
from typing import Sequence

from pagelog.block import Record, check_record
from pagelog.errors import InDoubt, PagelogError, TimedOut
from pagelog.named import NamedPrimary
from pagelog.place import Lost


class Unwritten(PagelogError):
    """The group had ended before it came to this commit. Nothing of it is written."""


_GONE = 1.0
"""Seconds after which who waits looks whether the thread that commits for all is still at it."""


class _Commit:
    """What one thread commits, and what became of it."""

    def __init__(self, records: Sequence[Record]) -> None:
        self.records = records
        self.under_way = threading.Lock()
        """Held by its thread until that has left, however often it is interrupted."""
        self.position = 0
        self.is_settled = False
        self.error: PagelogError | None = None

    def settle(self, error: PagelogError | None = None) -> None:
        """It is durable, or this is to be raised."""
        self.is_settled, self.error = True, error


class Group:
    """Commits that come while one is under way go together into the next: into as few blocks as they fit in, and with one wait for
    the archive. Records of one commit that fit into a block are in one block.

    It ends with the first error. Each thread raises it whose commit is not known to be durable, or `Lost`, or `Unwritten`. Then
    the writer is its caller's again: after `TimedOut` and the like its `commit(durable=True)` goes on with what was begun.
    """

    def __init__(self, primary: NamedPrimary) -> None:
        """Until it has ended nothing else is asked of the primary."""
        self._primary = primary
        self._lock = threading.Lock()
        self._changed = threading.Condition(self._lock)
        self._due: list[_Commit] = []
        self._taken: list[_Commit] = []
        self._leader: _Commit | None = None
        """Whose thread commits what is taken, for all."""
        self._ended: BaseException | None = None

    def commit(self, *records: Record) -> int:
        """Returns the position of its end once the archive has all up to there. Raises as `NamedPrimary.append` for a faulty
        record: then nothing of it is taken. Where its wait is interrupted it may be committed all the same.
        """
        for record in records:
            check_record(record)
        mine = _Commit(records)
        with mine.under_way:
            try:
                self._take_part(mine)
            finally:
                self._leave(mine)
        if mine.error is not None:
            raise mine.error
        return mine.position

    def _take_part(self, mine: _Commit) -> None:
        """Returns once this one is settled, by another thread or by this one, which then commits for all."""
        with self._lock:
            self._due.append(mine)
            while self._leader is not None and not mine.is_settled:
                if (
                    not self._changed.wait(_GONE)
                    and self._leader is not None
                    and not self._leader.under_way.locked()
                ):
                    self._end_lead()  # an interrupt came amid its `_leave`
            if not mine.is_settled:
                self._leader, self._taken, self._due = mine, self._due, []
        if self._leader is mine:
            self._lead(self._taken)

    def _leave(self, mine: _Commit) -> None:
        """This one's thread commits for the others no more."""
        if self._leader is mine:
            with self._lock:
                self._end_lead()

    def _end_lead(self) -> None:
        """What the thread that committed for all has left unsettled is in doubt."""
        for each in self._taken:
            if not each.is_settled:
                self._ended = self._ended or InDoubt(
                    "a thread that committed for all was interrupted"
                )
                each.settle(
                    InDoubt(f"the thread that committed for all was interrupted: {self._ended!r}")
                )
        self._changed.notify_all()
        self._leader = None

    def _lead(self, taken: Sequence[_Commit]) -> None:
        try:
            self._commit(taken)
        except PagelogError as error:
            self._ended = self._ended or error
            self._settle(taken, error)
        except BaseException as error:
            self._ended = error
            raise

    def _commit(self, taken: Sequence[_Commit]) -> None:
        if self._ended is not None:
            raise Unwritten(f"the group has ended: {self._ended}") from self._ended
        for each, position in zip(taken, self._primary.pack([each.records for each in taken])):
            each.position = position
        self._primary.commit(durable=True)
        for each in taken:
            each.settle()

    def _settle(self, taken: Sequence[_Commit], error: PagelogError) -> None:
        """What became of each, where not all went well."""
        for each in taken:
            if each.position == 0:
                each.settle(
                    error
                    if isinstance(error, Unwritten)
                    else Unwritten(f"nothing was written: {error}")
                )
            elif isinstance(error, Lost) and each.position >= error.position:
                each.settle(error.again())
            elif each.position <= self._primary.durable_end:
                each.settle()
            elif isinstance(error, (TimedOut, InDoubt)):
                each.settle(error)
            else:
                error = self._waited(each) or error

    def _waited(self, one: _Commit) -> PagelogError | None:
        """Waits for one that is in the log, as far as the writer knows. Returns what it raises."""
        try:
            self._primary.durable(one.position)
            one.settle()
            return None
        except PagelogError as error:
            one.settle(error)
            return error
