"""The event loop's way to a referee: one statement at a time, in a thread, and cut where it hangs."""

from __future__ import annotations

import asyncio
import os
from concurrent.futures import ThreadPoolExecutor
from typing import Any, Callable, TypeVar

from pagelog.referee.referee import Referee

Result = TypeVar("Result")
_LONGEST = 60.0


class Session:
    """A referee and its turn. A statement that hangs is cut after `deadline` seconds, and each further one later: PostgreSQL
    keeps a process for each that waits for its standby."""

    def __init__(self, referee: Referee, deadline: float) -> None:
        self.referee = referee
        self._shortest = self._deadline = deadline
        self._turn = asyncio.Lock()
        self._thread = ThreadPoolExecutor(1)  # of its own: services that hang hold up no beat
        self.woken = asyncio.Event()
        """Set when a notification has come."""

    async def ask(self, call: Callable[..., Result], *arguments: Any) -> Result:
        """What the call returns or raises; it is a method of the referee."""
        await self._turn.acquire()
        work: asyncio.Future[Result] | None = None
        try:
            work = asyncio.get_running_loop().run_in_executor(self._thread, call, *arguments)
            done, _ = await asyncio.wait({work}, timeout=self._deadline)
            if done:
                self.was_quick()
            while not work.done():  # cut again where it was connecting, and hangs once it has
                self.cut()
                await asyncio.wait({work}, timeout=self._deadline)
            return await work
        finally:
            if work is not None and not work.done():
                self._leave(work)
            else:
                _look_at(work)  # it may have failed as its asker was cancelled
                self._end_turn()

    def _leave(self, work: asyncio.Future[Any]) -> None:
        """Who asked has given up. The thread has the connection until it ends, and is cut where it hangs."""

        loop = asyncio.get_running_loop()
        timers: list[asyncio.TimerHandle] = []

        def hangs() -> None:
            self.cut()
            wait()

        def wait() -> None:
            timers[:] = [loop.call_later(self._deadline, hangs)]

        def ended(_: asyncio.Future[Any]) -> None:
            timers[0].cancel()
            _look_at(work)
            self._end_turn()

        wait()
        work.add_done_callback(ended)

    def _end_turn(self) -> None:
        self._take_notified()
        self._turn.release()

    def was_quick(self) -> None:
        """A statement has come to its end in time."""
        self._deadline = self._shortest

    def cut(self) -> None:
        """Ends the statement that hangs."""
        self._deadline = min(_LONGEST, 2 * self._deadline)
        self.referee.cut()

    def _take_notified(self) -> None:
        """A notification may come with the reply of a statement. Then nothing is left at the socket to wake anyone."""
        if self.referee.notified:
            self.referee.notified = False
            self.woken.set()

    async def rest(self, seconds: float) -> None:
        """Waits so long, or until a notification comes."""
        loop, descriptor = asyncio.get_running_loop(), _copy_of(self.referee.descriptor)
        if descriptor is not None:
            loop.add_reader(descriptor, self._readable)
        try:
            await asyncio.wait_for(self.woken.wait(), seconds)
        except asyncio.TimeoutError:
            pass
        finally:
            if descriptor is not None:
                loop.remove_reader(descriptor)
                os.close(descriptor)
        self.woken.clear()

    def _readable(self) -> None:
        if not self._turn.locked():  # else it is the reply of a statement
            self.referee.take_notified()
            self._take_notified()
            self.woken.set()

    async def close(self) -> None:
        """Closes the connection, if no statement is being asked."""
        async with self._turn:
            self.referee.close()


def _look_at(work: asyncio.Future[Any] | None) -> None:
    """What it failed by is told to nobody, and not reported as never retrieved."""
    if work is not None and not work.cancelled():
        work.exception()


def _copy_of(descriptor: int | None) -> int | None:
    """One that stays while it is watched: a statement may close its connection, and another socket get the number."""
    try:
        return None if descriptor is None else os.dup(descriptor)
    except OSError:
        return None
