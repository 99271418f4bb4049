"""Keeps the trail of a database: asks for its audit list, 1,024 lines for one entry of it, and keeps what is new."""

from __future__ import annotations

import time
from dataclasses import dataclass
from typing import Callable, Sequence

from pagelog.errors import AuditListFull, ConnectionLost, LogWentBack
from pagelog.operator import Operator
from pagelog.repeating import Backoff, sleep
from pagelog.reply import Entry, encode_entry
from pagelog.request import AUDIT_MAX, Operation
from pagelog.trail.question import entries_of
from pagelog.trail.store import OtherKeeper, Start, Trail, TrailList
from pagelog.trail.texts import TrailError

QUICKEST = 1.0
"""How many seconds a follower waits where there were news."""
DAY = 86_400_000_000
"""Of microseconds."""
_TRIES = 8


@dataclass(frozen=True)
class ListStep:
    """What one question brought: how many lines, and whether they are all of questions by the one who asks."""

    lines: int
    is_own: bool


def now() -> int:
    """The time in microseconds since 1970."""
    return time.time_ns() // 1000


class TrailKeeper:
    """Follows the audit list of a database as its operator.

    The service has to have the list that the trail ends with. That is looked at over each new connection, since the service may
    be a new one too: two kept lines are asked for again, over the connection of the reply. One is of a question by this keeper,
    which has the number that was asked from. Where they are others, so is the list. The old one ends in the trail, and says so;
    what came behind its last line was not seen. A new list begins.

    A keeper of a service with generations gives the number of its own: what was kept of an older one ends likewise. Of a named
    database it gives the database and the run too, `of`: a list of another run is never its own, whatever number that has.
    """

    def __init__(
        self,
        operator: Operator,
        trail: Trail,
        *,
        generation: int = 0,
        of: str | None = None,
        start: Start | None = None,
        tables: Sequence[bytes] = (),
        clock: Callable[[], int] = now,
    ) -> None:
        """`start` is what each list begins from, where that is known: without it none can be replayed. `tables` are texts that may
        be set in any of them."""
        self.operator = operator
        self.trail = trail
        self.generation = generation
        self.of = of
        self.start = start
        self._tables = tables
        self._clock = clock
        self._list: TrailList | None = None
        self._connects = 0

    @property
    def list(self) -> TrailList | None:
        """The list that is followed, or None before the first step."""
        return self._list

    def step(self) -> ListStep:
        """Asks once for what is new, and keeps it. Raises `OtherKeeper`, and what the service refuses, as `AuditListFull`."""
        for _ in range(_TRIES):
            one = self._open_list()
            try:
                found = self.operator.audit(one.kept + 1 if one else 1)
                is_same = self._is_of_the_service(one)
            except LogWentBack:
                is_same = False
            except AuditListFull:
                self._end(one, "the audit list is full: the database decides nothing any more")
                raise
            if is_same:
                one = one or self.trail.begin(
                    generation=self.generation, start=self.start, tables=self._tables, of=self.of
                )
                if one.of is None and self.of is not None:
                    one = self.trail.claim(one, self.of)
                self._list = self.trail.keep(one, b"".join(map(encode_entry, found)), self._clock())
                return ListStep(len(found), all(map(self._is_own, found)))
            if is_same is False:
                self._end(
                    one,
                    "the service was restarted: what it decided behind the last line was not seen",
                )
                self.operator.forget()
        raise ConnectionLost("no connection lasted for what is new")

    def give_table(self, text: bytes, line: int | None = None) -> None:
        """Keeps the text of a table that was set in the followed list, by this line of it if that is known.

        Call it after a step.
        """
        one = self._open_list()
        if one is None:
            raise TrailError("no list is followed")
        self.trail.give_table(one, text, line)

    def end(self, why: str) -> None:
        """The list that is followed gets no more lines, for this reason."""
        self._end(self._open_list(), why)

    def resume(self, one: TrailList | None = None) -> None:
        """Takes up the list from the trail, after an error that leaves open whether lines were kept; or as somebody else has kept
        lines of this service, `one`."""
        self._list = one
        if one is None:
            self._connects = 0

    def _is_own(self, entry: Entry) -> bool:
        return (
            entry.operation is Operation.AUDIT and entry.principal == self.operator.credentials.id
        )

    def _open_list(self) -> TrailList | None:
        """The list that goes on, if there is one."""
        if self._list is not None:
            return self._list
        [*_, last] = [None, *self.trail.lists()]
        if last is not None and (last.generation > self.generation or self._is_anothers(last)):
            raise OtherKeeper(f"generation {last.generation} has a list by now")
        if last is not None and last.ended is None and last.generation < self.generation:
            self._end(
                last,
                f"generation {self.generation} has begun: what was decided behind the last line was not seen",
            )
            return None
        if last is None or last.ended is not None:
            return None
        if self.start is not None and self.trail.start(last) is None:
            self.trail.set_start(last, self.start)
        for text in self._tables:
            self.trail.give_table(last, text)
        self._list = last
        return last

    def _is_anothers(self, last: TrailList) -> bool:
        """Whether a list with the number of this generation is another run's."""
        return (
            last.generation == self.generation
            and None not in (self.of, last.of)
            and last.of != self.of
        )

    def _is_of_the_service(self, one: TrailList | None) -> bool | None:
        """Whether the service of the last reply has this list; None where its connection is gone."""
        connects = self.operator.connection.connects
        if one is not None and one.kept and connects != self._connects:
            for known in self._known(one):
                if self.operator.audit(known.number, 1) != (known,):
                    return None if connects != self.operator.connection.connects else False
        if connects != self.operator.connection.connects:
            return None
        self._connects = connects
        return True

    def _known(self, one: TrailList) -> tuple[Entry, ...]:
        """The last line of the list, and that of this keeper's last question."""
        first = max(1, one.pruned + 1, one.kept - 2 * AUDIT_MAX)
        entries = [entry for piece in self.trail.pieces(one, first) for entry in entries_of(piece)]
        return tuple(filter(self._is_own, entries))[-1:] + (entries[-1],)

    def _end(self, one: TrailList | None, why: str) -> None:
        """It is this very list: by now its name may be that of another database."""
        if one is not None:
            self.trail.end(one, why, self._clock())
        self.resume()

    def run(
        self,
        *,
        follow: bool,
        idle: float = 15.0,
        keep: int | None = None,
        told: Callable[[TrailList], None] = lambda _: None,
        stop: Callable[[], bool] = lambda: False,
        pruning: Callable[[int], None] = lambda _: None,
    ) -> int:
        """Keeps what there is; with `follow` also what comes, until `stop`. Returns the number of the last line.

        Each question is an entry of the list too. It waits where there are fewer entries than a question brings, a second at
        first, and twice as long each time that nothing came but its own entries, up to `idle` seconds. `keep` is how many
        days are kept; `pruning` is called with the time before which the days go, each time before they do.
        """
        waits, pruned = Backoff(2 * QUICKEST, idle), None
        while not stop():
            step, one = self.step(), self._list
            assert one is not None
            if keep is not None and (today := one.seen // DAY) != pruned:
                before = (today - keep + 1) * DAY
                pruning(before)
                self.trail.prune(before)
                pruned = today
            told(one)
            if step.lines < AUDIT_MAX:
                if not follow:
                    break
                if not step.is_own:
                    waits.reset()
                sleep(waits.next() if step.is_own else min(QUICKEST, idle), stop)
        return self._list.kept if self._list else 0
