"""A reader of a named database, which follows it from generation to generation."""

from __future__ import annotations

import time
from typing import Callable, Iterator, Sequence, TypeVar

from pagelog.block import Block
from pagelog.errors import TimedOut
from pagelog.following import GONE, Following
from pagelog.page_copies import PageCopies
from pagelog.page_tail import Tail
from pagelog.place import QUICKEST, SLOWEST, BelowBase, Place
from pagelog.polling import HolderPoll, poll_of
from pagelog.reader import Reader, Span
from pagelog.repeating import Backoff
from pagelog.reply import Page
from pagelog.request import PULL_MAX
from pagelog.rules import AboveTheEnd, Denial, Section, UnknownPrincipal
from pagelog.secure import Trust

Result = TypeVar("Result")
_AT_ONCE = 0.1
"""Seconds for which a reader of what is durable waits until what it sees in the log is."""
_LEAST_PAUSE, _LONGEST_PAUSE = 0.1, 1.0
"""Seconds for which it asks for nothing more, once that was in vain: twice as long each time."""
_BETWEEN = 0.02
"""Seconds between two questions of who reads a standby, where there is nothing new: each of them is a pull of the holder's."""


class NamedReader(Following):
    """Reads a named database, and follows it. Positions take the place of LSNs, in what it returns as well.

    A service that began with images has nothing from below their position: `BelowBase` is raised for it.

    Without `durable_only` it sees what is in the log of the service, which may be lost with it: then a position that was
    read may later have another block. Whether the service is still the holder's, the keepers are asked each second, of all
    readers of the process together. With `durable_only` it sees what is durable, at a standby where there is one, and its
    `end` never falls. docs/KEEPERS.md says how old each may be.

    Where the database has page servers, pages come from the nearest one that has the history of the run that is read, over all
    generations back to the oldest position that is kept, with the newest blocks laid over them, and else from a service, which says what
    is newest; with `pages="never"` from services alone. With `pages="only"` no service is asked: its `end` is that of a page server,
    which is durable.
    """

    def __init__(
        self,
        name: str,
        keepers: Sequence[str],
        principal: int,
        token: str,
        *,
        durable_only: bool = False,
        pages: str = "prefer",
        patience: float = 60.0,
        timeout: float = 10.0,
        trust: Trust | None = None,
    ) -> None:
        super().__init__(
            name, keepers, principal, token, patience=patience, timeout=timeout, trust=trust
        )
        if pages not in ("prefer", "never", "only"):
            raise ValueError('pages is "prefer", "never" or "only"')
        self._only_copies = pages == "only"
        self._copies = (
            None
            if pages == "never"
            else PageCopies(self.keepers, self._account.in_run, trust, is_alone=self._only_copies)
        )
        self._tail = Tail()
        self._page_servers = 0
        self.durable_only = durable_only
        self._reader: Reader | None = None
        self._least = self._durable = self._returned = 0
        self._shunned: str | None = None
        self._addresses, self._known = keepers, 0.0
        self._poll: HolderPoll | None = None
        self._asks_from, self._pauses = 0.0, Backoff(_LEAST_PAUSE, _LONGEST_PAUSE)
        self._holder: Place | None = None
        """Of the standby that is read: who holds the database."""

    def close(self) -> None:
        if self._copies is not None:
            self._copies.close()
        super().close()

    def _leave(self) -> None:
        if self._reader is not None:
            self._reader.close()
        self._reader = None

    @property
    def _run(self) -> str | None:
        return None if self.place is None else self.place.run

    def end(self) -> int:
        """The position up to which it can be read now: of the log, or with `durable_only` what is durable, which never falls. Raises
        `TimedOut` where the keepers name another run than the one that they led to, again and again, or one that lacks what was durable.
        """
        if self._only_copies:
            return self._end_of_copies()
        deadline, waits = time.monotonic() + self.keepers.patience, Backoff(QUICKEST, SLOWEST)
        while True:
            hard = self._hard()
            if not self.durable_only:
                return hard
            is_confirmed = self._is_confirmed(hard)
            if is_confirmed and self._holder is not None:
                hard, is_confirmed = self._followed(hard, self._holder)
            if is_confirmed and min(hard, self._durable) >= self._returned:
                self._returned = min(hard, self._durable)
                return self._returned
            if is_confirmed:
                self._shunned = (
                    self._run
                )  # it has less than another had, or its keeper knows of less
            self._leave()
            if time.monotonic() > deadline:
                lacks = (
                    f"that has position {self._returned}, which was durable"
                    if is_confirmed
                    else f"where {self.keepers.name} is read"
                )
                raise TimedOut(f"no keeper has confirmed in {self.keepers.patience} s {lacks}")
            time.sleep(waits.next())

    def _end_of_copies(self) -> int:
        """What a page server has, which is durable, and no less than before."""
        deadline, waits = time.monotonic() + self.keepers.patience, Backoff(QUICKEST, SLOWEST)
        while True:
            self._find_place()
            assert self._copies is not None
            found = self._copies.end(self._returned)
            if found is not None:
                self._returned = found
                return found
            if time.monotonic() > deadline:
                raise TimedOut(
                    f"no page server of {self.keepers.name} that has position {self._returned}, which was durable, has answered in "
                    f"{self.keepers.patience} s"
                )
            time.sleep(waits.next())

    def _find_place(self) -> None:
        """Which database it is: of another one of the name nothing is read."""
        if self.place is None:
            self.place = self.keepers.place(self._least)
            self.keepers.is_of(self.place)

    def _hard(self) -> int:
        """The end of the log of the service that is read."""
        return self._asked(lambda reader: reader.status().hard + self._shift)

    def _is_confirmed(self, hard: int) -> bool:
        """Whether the run that is read from, whose log ends at `hard`, is the holder's or a standby's still. How far its blocks are the
        archive's is known then: those of a run that is over may be others, and a standby becomes a holder when it takes over.
        """
        assert self.place is not None
        told = [
            place for place in (self.keepers.where(), self.keepers.standby()) if place is not None
        ]
        self._page_servers = max((place.pages for place in told), default=self._page_servers)
        same = [place for place in told if place.run == self.place.run]
        self._durable = max(self._durable, *(place.archived for place in same), 0)
        is_at_holder = any(place.generation > 0 for place in same)
        if is_at_holder:
            self._have_archived(hard)
        self._holder = (
            None
            if is_at_holder or not same
            else next((place for place in told if place.generation > 0), None)
        )
        return bool(same) or not told

    def _followed(self, hard: int, holder: Place) -> tuple[int, bool]:
        """Has the holder's keeper archive what is in its log, and that of the standby, whose log ends at `hard`, follow. Returns where that
        ends then, and whether it is the same standby still."""
        if time.monotonic() < self._asks_from:
            return hard, True
        assert self.place is not None
        standby, ends, known = self.place, time.monotonic() + _AT_ONCE, self._durable
        archived = self.keepers.archived_at_once(holder, known, _AT_ONCE)
        self._durable = max(known, archived or 0)
        if archived is not None and hard < self._durable:
            self.keepers.follow(standby)
        waits = Backoff(QUICKEST, SLOWEST)
        while hard < self._durable and time.monotonic() < ends and self._run == standby.run:
            time.sleep(waits.next())
            hard = self._hard()
        if archived is None or hard < self._durable:
            self._asks_from = time.monotonic() + self._pauses.next()
        else:
            self._pauses.reset()
            self._asks_from = time.monotonic() + (_BETWEEN if archived == known else 0.0)
        return hard, self._run == standby.run

    def _have_archived(self, hard: int) -> None:
        """Has the holder's keeper archive what is in the log, as a commit does that waits until it is durable."""
        if hard <= self._durable or time.monotonic() < self._asks_from:
            return
        assert self.place is not None
        fate = self.keepers.fate_at_once(self.place, hard, _AT_ONCE)
        if fate is not None and not fate.is_lost:
            self._durable = max(self._durable, fate.end)
            self._pauses.reset()
        else:
            self._asks_from = time.monotonic() + self._pauses.next()

    def page(self, number: int, position: int | None = None) -> Page:
        """The page at this position, by default at the end. Raises `AboveTheEnd` and `BelowBase`."""
        return self.pages((number,), position)[0]

    def pages(self, numbers: Sequence[int], position: int | None = None) -> list[Page]:
        """Pages at one position."""
        while True:
            end = self.end() if position is None or self.durable_only else 0
            at, run = end if position is None else position, self._run
            if self.durable_only and at > end:
                raise AboveTheEnd(Section.C, 1, end)
            if (copied := self._copied(numbers, at)) is not None:
                return copied
            try:
                found = self._asked(lambda reader: self._pages_at(reader, numbers, at), at)
            except BelowBase:
                if (copied := self._copied(numbers, at)) is None:
                    raise
                return copied
            if not self.durable_only or run == self._run:
                return found  # else it was read from another run than the one that the end is of

    def _copied(self, numbers: Sequence[int], at: int) -> list[Page] | None:
        """Pages of a page server that has the history of the run that is read; None where none has them and answers soon."""
        if self._copies is None:
            return None
        if self._only_copies:
            return self._copied_at_last(self._copies, numbers, at)
        if self.place is None or not self._has_page_servers(self.place):
            return None
        run, durable = self._run, self._hold_tail(self._copies, self.place, at)
        if run != self._run:
            return None
        return self._copies.pages(numbers, at, self._tail, durable)

    def _has_page_servers(self, place: Place) -> bool:
        """As keepers said last."""
        told = 0 if self._poll is None else self._poll.page_servers
        return max(place.pages, self._page_servers, told) > 0

    def _hold_tail(self, copies: PageCopies, place: Place, at: int) -> int:
        """Pulls the blocks before a position that are lacking, by which page servers are compared with the run, 16 at most. Returns up to
        which position they are believed without: where there are none to be had, up to what is durable as keepers say.
        """
        tail = self._tail
        if tail.run != place.run:
            tail.begin(place.run)
            copies.doubt()
        if at > tail.last and not tail.is_denied:
            first = max(at - PULL_MAX, place.base, tail.last) + 1
            try:
                span = self._asked(lambda reader: self._span_at(reader, first, 1), first - 1)
            except AboveTheEnd:
                return 0  # the service says so
            except Denial:
                tail.is_denied = True
            else:
                if self._run == tail.run:
                    tail.add(first, span.last, span.blocks)
        return max(self._durable, place.archived) if tail.is_denied or tail.is_empty else 0

    def _copied_at_last(self, copies: PageCopies, numbers: Sequence[int], at: int) -> list[Page]:
        """The same, where no service is asked. Raises `AboveTheEnd`, `BelowBase` and `TimedOut`."""
        self._find_place()
        deadline, waits = time.monotonic() + self.keepers.patience, Backoff(QUICKEST, SLOWEST)
        while (found := copies.pages(numbers, at)) is None:
            if at > (end := self._end_of_copies()):
                raise AboveTheEnd(Section.C, 1, end)
            if (oldest := copies.oldest()) is not None and at < oldest:
                raise BelowBase(at, oldest)
            if time.monotonic() > deadline:
                raise TimedOut(
                    f"no page server of {self.keepers.name} that has position {at} has answered in {self.keepers.patience} s"
                )
            time.sleep(waits.next())
        return found

    def blocks(
        self,
        position: int = 1,
        *,
        follow: bool = True,
        idle: float = 0.5,
        stop: Callable[[], bool] = lambda: False,
    ) -> Iterator[Block]:
        """The blocks from this position on, in order, each once, as of a `Reader`."""
        waits = Backoff(QUICKEST, idle)
        while not stop():
            end, run = self.end(), self._run
            if end >= position:
                first = position
                try:
                    span = self._asked(lambda reader: self._span_at(reader, first), first - 1)
                except AboveTheEnd:
                    continue  # it was lost with its service since
                if self.durable_only and run != self._run:
                    continue  # it was read from another run than the one that the end is of
                yield from (block for block in span.blocks if block.lsn <= end)
                position = min(span.last, end) + 1
                waits.reset()
            elif not follow:
                return
            else:
                time.sleep(waits.next())

    @property
    def _shift(self) -> int:
        return 0 if self.place is None else self.place.shift

    def _pages_at(self, reader: Reader, numbers: Sequence[int], position: int) -> list[Page]:
        try:
            found = reader.pages(numbers, position - self._shift)
        except AboveTheEnd as error:
            raise AboveTheEnd(error.section, error.row, error.value + self._shift) from error
        return [Page(page.at + self._shift, page.data) for page in found] if self._shift else found

    def _span_at(self, reader: Reader, first: int, pulls: int = 64) -> Span:
        shift, span = self._shift, reader.span(first - self._shift, pulls=pulls)
        blocks = tuple(block.at(block.lsn + shift) for block in span.blocks)
        return Span(span.first + shift, span.last + shift, blocks, span.connection)

    def _reaching(self, position: int) -> Reader:
        """The reader of a service that has this position. That of a standby may have begun later than the holder's."""
        reader = self._reader or self._opened()
        if self.place is not None and position < self.place.base and self.place.generation == 0:
            self._shunned = self._run
            self._leave()
            reader = self._opened()
        if self.place is not None and position < self.place.base:
            raise BelowBase(position, self.place.base)
        return reader

    def _asked(self, call: Callable[[Reader], Result], position: int | None = None) -> Result:
        """What the call returns, at a service that has the position."""
        self._leave_superseded()
        deadline, waits = time.monotonic() + self.keepers.patience, Backoff(QUICKEST, SLOWEST)
        while True:
            try:
                found = call(
                    (self._reader or self._opened())
                    if position is None
                    else self._reaching(position)
                )
                self._see_accepted(self._run)
                return found
            except GONE as error:
                if isinstance(error, UnknownPrincipal) and self.place is not None:
                    self._see_refused(self.place, f"principal {self._account.id}")
                self._shunned = self._run
                self._leave()
                if time.monotonic() > deadline:
                    raise
            time.sleep(waits.next())

    def _leave_superseded(self) -> None:
        """Leaves a service that is not the holder's any more, once keepers have said so. One that reads what is durable asks by itself."""
        if self._reader is None or self.place is None or self.durable_only:
            return
        if self._poll is None:
            self._poll = poll_of(self.keepers.name, self._addresses, self.place, self._trust)
        later = self._poll.superseding(self.place, self._known)
        if later is not None:
            self._least = later.generation
            self._leave()

    def _opened(self) -> Reader:
        standby = self.keepers.standby() if self.durable_only else None
        if standby is not None and standby.run == self._shunned:
            standby = (
                None  # it did not answer just now: the keepers may have no better word of it yet
            )
        was = self.place
        if standby is not None:
            self.place = standby
        elif was is not None and was.generation == self._least:
            self.place = self.keepers.after(was)
        else:
            self.place = self.keepers.place(self._least)
        self.keepers.is_of(self.place)
        self._least = max(self._least, self.place.generation)
        self._durable, self._known = self.place.archived, time.monotonic()
        self._reader = Reader(self._connection(self.place), self._account.of(self.place))
        return self._reader
