"""The fast path of all databases of a keeper: its thread, and its few sessions of PostgreSQL, which this makes and lends."""

from __future__ import annotations

import asyncio
import ctypes
import os
import time
from concurrent.futures import ThreadPoolExecutor
from typing import TYPE_CHECKING, Callable

from pagelog.keeper import fast_calls

from pagelog.keeper.fast_calls import Event, SessionStart
from pagelog.keeper.fast_path import FastPath
from pagelog.keeper.fast_turns import FastTurns
from pagelog.keeper.quick import Prepared, QuickReferee
from pagelog.keeper.served import Served
from pagelog.referee import statements
from pagelog.referee.referee import KeeperError
from pagelog.referee.refusal import line_of
from pagelog.referee.rows import Row
from pagelog.repeating import Backoff

if TYPE_CHECKING:
    from pagelog.trail.store import TrailList

SESSIONS = 4
"""Of all databases: what is due while they are busy goes together with the next statement."""
_OF_MANY = [
    "chains",
    "logs",
    "runs",
    "generations",
    "olds",
    "news",
    "bytes",
    "owners",
    "lsns",
    "crcs",
    "starts",
    "lengths",
]
_OF_LINES = [
    "line_digest",
    "line_logs",
    "line_lists",
    "line_firsts",
    "line_counts",
    "line_seens",
    "line_days",
    "line_ofs",
    "line_starts",
    "line_lengths",
    "line_before",
    "line_data",
]
VALUES = {
    statements.KEEP: _OF_MANY,
    statements.KEEP_BLOCK: ["new", "chain", "id", "run", "generation", "old", "crc", "bytes"],
    statements.KEEP_EACH: [
        "chains",
        "logs",
        "runs",
        "generations",
        "olds",
        "news",
        "crcs",
        "starts",
        "lengths",
        "bytes",
    ],
    statements.REACHED: [],
}
"""The values of its statements, in the order in which the thread gives them."""
LINES = {statements.KEEP_WITH_LINES: [*_OF_MANY, *_OF_LINES]}
"""The same of keepers that keep trails: only they have the tables."""


class FastPlane:
    """The thread, for any number of databases: each has a way from `way_of` until that ends."""

    def __init__(
        self,
        make: Callable[[], QuickReferee],
        *,
        idle: float,
        deadline: float,
        confirms: bool = False,
        has_trails: bool = False,
        say: Callable[[str], None] = lambda _: None,
        most: int = SESSIONS,
    ) -> None:
        """Without a question for `idle` seconds a database gives its way back, and without a way all sessions but one are closed. `deadline`
        is for a statement, in seconds. If it `confirms`, nothing is told before a synchronous standby is known to have it. Why no session
        is to be had it will `say`. `make` makes each. Raises `KeeperError` where the compiled part is not there.
        """
        self.library = fast_calls.library()
        self.confirms = confirms
        self.values = VALUES | LINES if has_trails else VALUES
        self.idle, self.deadline = idle, deadline
        self._say = say
        self._thread = ThreadPoolExecutor(1, "fast-path")
        self.sessions = [QuickSessionOf(self, key, make()) for key in range(most)]
        self._ways: dict[int, FastPath] = {}
        self._turns: dict[int, FastTurns] = {}
        self._last_key = most
        self._address: int | None = None
        self._running: asyncio.Future[object] | None = None
        self._news: tuple[int, int] = -1, -1
        self._closing: asyncio.TimerHandle | None = None

    @property
    def address(self) -> int:
        """That of the thread's own, once it was begun."""
        assert self._address is not None
        return self._address

    @property
    def due(self) -> int:
        """How many databases have new blocks that wait for a session."""
        return 0 if self._address is None else int(self.library.plane_due(self._address))

    async def way_of(
        self,
        row: Row,
        served: Served,
        told: Callable[[], None],
        lines: TrailList | None = None,
        *,
        is_careful: bool = False,
        before: FastPath | None = None,
    ) -> FastPath | None:
        """One for this database, begun; None where its service takes no connection. `told` is called where there is news of it. Behind `lines`
        of its audit list those are kept that speak of its blocks. Where the last try has failed it `is_careful`, and tries again what is
        left of the one `before`. Who gets one has to `run` it."""
        self.warm()
        try:
            line = await served.pulling_line()
            self._begin()
            self._last_key += 1
            way = self._ways[self._last_key] = FastPath(
                self,
                self._last_key,
                row,
                served,
                line,
                told,
                lines,
                is_careful=is_careful,
                before=before,
            )
        except (MemoryError, OSError):
            return None
        self.connect_more()
        return way

    def turns_of(self, name: str, generation: int, ttl: float) -> FastTurns | None:
        """Those of a database, which the thread gives from now on; None where it cannot."""
        try:
            self._begin()
            self._last_key += 1
            turns = self._turns[self._last_key] = FastTurns(
                self, self._last_key, name, generation, ttl
            )
        except (MemoryError, OSError):
            return None
        return turns

    # Its sessions.

    def warm(self) -> None:
        """Has one connected, beside all else. From then on there is one: the first commit after a rest waits for no connection."""
        self._close_later()
        self._connect(1)

    def connect_more(self) -> None:
        """As many as there are ways. They connect one after the other."""
        self._connect(len(self._ways))

    def _connect(self, count: int) -> None:
        wanted = self.sessions[:count]
        if not any(each.is_connecting for each in self.sessions):
            chosen = next((each for each in wanted if each.may_connect), None)
            if chosen is not None:
                chosen.connect()

    def connected(self, session: QuickSessionOf) -> None:
        """It has its statements: it is lent."""
        keep, keep_block, keep_each, flushed, *more = (each.name for each in session.statements)
        start = SessionStart(
            session.key,
            session.statements[0].connection,
            keep,
            keep_block,
            keep_each,
            more[0] if more else None,
            flushed if self.confirms else None,
        )
        try:
            self._begin()
            session.is_lent = bool(self.library.plane_lend(self.address, ctypes.byref(start)))
        except (MemoryError, OSError) as error:
            self.failed(error)
        if not session.is_lent:
            session.take_back(is_clean=True)
        elif session.keeps_lines:
            for way in self._ways.values():
                way.line_up()
        else:
            asyncio.get_running_loop().call_later(self.idle / 4, self._retract, session)
        self.connect_more()

    @property
    def keeps_lines(self) -> bool:
        """Whether lines can be kept with the blocks, as far as is known."""
        lent = [each for each in self.sessions if each.is_lent]
        return not lent or any(each.keeps_lines for each in lent)

    def _retract(self, session: QuickSessionOf) -> None:
        if session.is_lent and self._address is not None:
            self.library.plane_retract(self.address, session.key)

    def failed(self, error: Exception) -> None:
        """A session was not to be had."""
        if not any(each.is_lent for each in self.sessions):
            self._say(str(error) if isinstance(error, KeeperError) else line_of(error))

    def _close_later(self) -> None:
        if self._closing is not None:
            self._closing.cancel()
        self._closing = asyncio.get_running_loop().call_later(self.idle, self._close_sessions)

    def _close_sessions(self) -> None:
        """Nobody has asked for a way for a while."""
        if self._ways:
            return self._close_later()
        for session in self.sessions[1:]:
            self._retract(session)

    # The thread.

    def _begin(self) -> None:
        """Begins it, if it is not begun. Raises `OSError` or `MemoryError`."""
        if self._address is not None:
            return
        self._news = os.pipe2(os.O_NONBLOCK | os.O_CLOEXEC)
        self._address = self.library.plane_new(self._news[1])
        if self._address is None:
            self._close_news()
            raise MemoryError("there is no memory for the fast path")
        loop = asyncio.get_running_loop()
        loop.add_reader(self._news[0], self._hear)
        self._running = loop.run_in_executor(self._thread, self.library.plane_run, self._address)

    def _hear(self) -> None:
        os.read(self._news[0], 4096)
        self._hear_all()

    def _hear_all(self) -> None:
        event = Event()
        while self.library.plane_next(self._address, ctypes.byref(event)):
            if event.news == fast_calls.SESSION_BACK:
                self.sessions[event.key].take_back(is_clean=not event.end)
                self.connect_more()
            elif event.news == fast_calls.ENDED:
                self._ways.pop(event.key).hear(event)
            elif event.news == fast_calls.WRITERS_ENDED:
                self._turns.pop(event.key).hear(event)
            elif event.key in self._turns:
                self._turns[event.key].hear(event)
            else:
                self._ways[event.key].hear(event)

    def _close_news(self) -> None:
        for descriptor in self._news:
            os.close(descriptor)

    async def close(self) -> None:
        """Cuts off what is under way, and ends the thread."""
        if self._closing is not None:
            self._closing.cancel()
        for session in self.sessions:
            await session.close()
        if self._address is not None and self._running is not None:
            self.library.plane_stop(self._address)
            await asyncio.wait({self._running}, timeout=self.deadline)
            if self._running.done():
                asyncio.get_running_loop().remove_reader(self._news[0])
                self._hear_all()
                self.library.plane_free(self._address)
                self._address = None
                self._close_news()
        self._thread.shutdown(wait=False, cancel_futures=True)


class QuickSessionOf:
    """A session of the thread's: it is connected in a thread, and lent until it comes back."""

    def __init__(self, plane: FastPlane, key: int, referee: QuickReferee) -> None:
        self._plane, self.key, self.referee = plane, key, referee
        self.statements: tuple[Prepared, ...] = ()
        """Of batches, of one block, of one block each, of how far a standby is, and of batches with lines, while it is connected."""
        self.is_lent = self._is_over = False
        self._connecting: asyncio.Future[tuple[Prepared, ...]] | None = None
        self.not_before = 0.0
        self._pauses = Backoff(0.05, plane.idle)
        self._lent_at = float("-inf")

    @property
    def is_connecting(self) -> bool:
        """Whether it may be connected soon."""
        return self._connecting is not None

    @property
    def may_connect(self) -> bool:
        """Whether it can begin to: after a failure not at once again."""
        return (
            not (self._is_over or self.is_lent or self.statements or self.is_connecting)
            and time.monotonic() >= self.not_before
        )

    def connect(self) -> None:
        """Begins to."""
        loop = asyncio.get_running_loop()
        self._connecting = loop.run_in_executor(None, self._prepare)
        self._connecting.add_done_callback(self._connected)
        loop.call_later(self._plane.deadline, self._cut, self._connecting)

    def _cut(self, connecting: asyncio.Future[tuple[Prepared, ...]]) -> None:
        """It hangs; it is cut again where it was connecting, and hangs once it has."""
        if not connecting.done():
            self.referee.cut()
            asyncio.get_running_loop().call_later(self._plane.deadline, self._cut, connecting)

    def _prepare(self) -> tuple[Prepared, ...]:
        """In a thread. Without that of lines where their tables are locked: blocks wait for no trail."""
        made = [
            self.referee.prepare_statement(each) for each in self._plane.values if each not in LINES
        ]
        lined = [self.referee.prepare_if_free(each) for each in self._plane.values if each in LINES]
        return (*made, *(each for each in lined if each is not None))

    @property
    def keeps_lines(self) -> bool:
        """Whether lines can be kept over it, where lines are kept at all."""
        return len(self.statements) == len(self._plane.values)

    def _connected(self, made: asyncio.Future[tuple[Prepared, ...]]) -> None:
        self._connecting = None
        error = None if made.cancelled() else made.exception()
        if made.cancelled() or error is not None or self._is_over:
            self.referee.close()  # what is left in it nobody knows
            self._pause()
            if isinstance(error, Exception):
                self._plane.failed(error)
            return
        self.statements = made.result()
        assert all(
            each.names == names for each, names in zip(self.statements, self._plane.values.values())
        )
        self._lent_at = time.monotonic()
        self._plane.connected(self)

    def take_back(self, *, is_clean: bool) -> None:
        """The thread needs it no more. Where something of a statement may be left in it, the next one tries the second host first."""
        self.is_lent, self.statements = False, ()
        self.referee.close()
        if time.monotonic() - self._lent_at >= self._plane.idle:
            self._pauses.reset()
        if not is_clean:
            self.referee.turn_hosts()
            self._pause()

    def _pause(self) -> None:
        """Tries again, and not at once."""
        pause = self._pauses.next()
        self.not_before = time.monotonic() + pause
        if not self._is_over:
            asyncio.get_running_loop().call_later(pause, self._plane.connect_more)

    async def close(self) -> None:
        """Cuts off what it is at."""
        self._is_over = True
        self.referee.cut()
        if self._connecting is not None:
            await asyncio.wait({self._connecting}, timeout=self._plane.deadline)
