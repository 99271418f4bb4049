"""Sees to a keeper's front in its event loop: that it begins, is looked at with each look and at once where it has died, and ends."""

from __future__ import annotations

import asyncio
import os
from pathlib import Path
from typing import Any, Callable, Coroutine

from pagelog.errors import PagelogError
from pagelog.keeper.front import Front, Tls
from pagelog.keeper.fronted import FrontedLine
from pagelog.keeper.haproxy import LINES
from pagelog.keeper.lines import Server
from pagelog.keeper.run import has_services
from pagelog.keeper.unix import private_socket
from pagelog.referee.ways import Way


class FrontCare:
    """Of one keeper. `say` takes what comes again and again, and `spawn` makes a task."""

    def __init__(
        self,
        tls: Tls,
        folder: Path,
        say: Callable[[str], None],
        spawn: Callable[[Coroutine[Any, Any, None], str], asyncio.Task[None]],
    ) -> None:
        self.front = Front(tls, folder, say)
        self._folder, self._say, self._spawn = folder, say, spawn
        self._has_begun = False
        self._tending: asyncio.Task[None] | None = None
        self._watched: int | None = None
        """A descriptor of its own of the front's process: the other one is closed by threads."""
        self._watched_process: object = None

    async def begin(self, server: Server) -> None:
        """Hears the lines that come through the front, and has that begin. What fails is tried again with each look. Raises `OSError`."""
        self._has_begun = True
        await server.start_behind(private_socket(self._folder, LINES), FrontedLine)
        await self._done(self.front.begin)

    def secure_lines(self, life: str) -> str | None:
        """Where the keeper's lines are reached by TLS, as its column has it."""
        lines = self.front.lines
        return None if lines is None else Way(lines, not self.front.tls.plain).text(life)

    def look(self) -> None:
        """Looks at it, unless that is being done."""
        if not self._has_begun:
            return
        if self._tending is None or self._tending.done():
            self._tending = self._spawn(self._done(self.front.tend), "the front")

    async def stop(self) -> None:
        """Ends it where no service is left that it leads to; else the keeper's next instance adopts it. One that has not begun has found the
        folder to be another's."""
        if not self._has_begun:
            return
        self._leave_watched()
        if self._tending is not None:
            await asyncio.wait({self._tending})
        is_needed = await asyncio.to_thread(has_services, self._folder) and not self.front.is_idle
        await asyncio.to_thread(self.front.leave if is_needed else self.front.end)

    async def _done(self, call: Callable[[], None]) -> None:
        try:
            await asyncio.to_thread(call)
        except PagelogError as error:
            self._say(str(error))
        self._watch()

    def _watch(self) -> None:
        """Its end is noticed at once."""
        process = self.front.process
        if process is self._watched_process:
            return
        self._leave_watched()
        self._watched_process = process
        if process is not None:
            try:
                self._watched = os.dup(process.descriptor)
            except OSError:
                return  # the next look shows that it has ended
            asyncio.get_running_loop().add_reader(self._watched, self._has_died)

    def _has_died(self) -> None:
        self._leave_watched()
        self.look()

    def _leave_watched(self) -> None:
        if self._watched is not None:
            asyncio.get_running_loop().remove_reader(self._watched)
            os.close(self._watched)
        self._watched = None
