"""Looks at a service in the event loop, where all is as it should be: one that hangs takes no thread, and holds up no other look."""

from __future__ import annotations

import asyncio
import time
from typing import Callable, NamedTuple, Sequence

from pagelog.client import FIRST_EPOCH, reported_epoch
from pagelog.connection import Address
from pagelog.credentials import Credentials
from pagelog.errors import Fault, PagelogError, TimedOut
from pagelog.matching import mismatch
from pagelog.reply import Entries, Reply, State, decode_reply
from pagelog.request import Act, Audit, Head, Request, Role, Status
from pagelog.service_protocol import ServiceProtocol, framed

_SILENT = 0.25
"""Seconds after which the next address of a host is tried beside one that is silent."""


class LastLook(NamedTuple):
    """A look that was answered: what was asked, for which entry, and the answer, as it came and as it is."""

    probe: int
    frames: bytes
    bodies: list[bytes]
    found: tuple[State, Entries]


class Looker:
    """A connection for one look at a time. Whatever else than its state comes back, it says that it does not know: an `Operator` asks
    again then, and finds out why."""

    def __init__(self, address: str, credentials: Credentials, timeout: float) -> None:
        self._address, self._credentials, self._timeout = (
            Address.parse(address),
            credentials,
            timeout,
        )
        self._line: _LookerLine | None = None
        self._last: LastLook | None = None
        self._asked_again: float | None = None
        """Since when the answer to `look_again` is waited for."""
        self._epoch = FIRST_EPOCH
        """The highest one that it was told of. In one process epochs only rise."""

    async def look(self, probe: int) -> tuple[State, Entries] | None:
        """Its state, and this entry of its audit list, if there is one; None where that is not known. Raises `TimedOut`.

        Where another epoch has begun, as with each generation that of its writer, it asks again in that.
        """
        acts: tuple[Act, Act] = (Status(), Audit(probe, 1))
        self._last = None
        replies = await self._replies(acts)
        told = max((reported_epoch(reply) or 0 for reply in replies), default=0)
        if told > self._epoch:
            self._epoch = told
            replies = await self._replies(acts)
        match replies:
            case [State() as state, Entries() as entries]:
                fits = not any(
                    mismatch(act, self._epoch, reply) for act, reply in zip(acts, replies)
                )
                if fits and self._line is not None:
                    self._last = LastLook(
                        probe, self._frames(acts), self._line.bodies, (state, entries)
                    )
                return (state, entries) if fits else None
        return None

    def look_again(self, probe: int, told: Callable[[tuple[State, Entries] | None], None]) -> bool:
        """The same where it may have the answer that it had the last time, as an idle service has: no task waits for it. `told` is called
        once with that, or with None where it has another. False where `look` has to ask: also where nothing comes within its time.
        """
        last, line = self._last, self._line
        if self._asked_again is not None:
            is_late = time.monotonic() - self._asked_again >= self._timeout
            if is_late:
                self.close()
            return not is_late
        if last is None or line is None or last.found[1].entries or not line.is_open:
            return False
        if last.probe != probe:  # of another entry that is not there the answer is the same
            frames = self._frames((Status(), Audit(probe, 1)))
            last = self._last = last._replace(probe=probe, frames=frames)
        expected, found = last.bodies, last.found

        def answered(bodies: list[bytes]) -> None:
            if line is self._line:
                self._asked_again = None
                told(found if bodies == expected else None)

        self._asked_again = time.monotonic()
        line.ask_then(last.frames, len(expected), answered)
        return True

    def close(self) -> None:
        """Closes the connection. The next look makes another."""
        if self._line is not None:
            self._line.close()
        self._line = self._last = self._asked_again = None

    async def _replies(self, acts: Sequence[Act]) -> list[Reply]:
        """What comes back; nothing where that is not whole."""
        is_whole = False
        try:
            async with asyncio.timeout(self._timeout):
                replies = [decode_reply(body) for body in await self._bodies(acts)]
            is_whole = True
            return replies
        except TimeoutError as error:
            raise TimedOut(f"{self._address}: nothing came in {self._timeout} s") from error
        except (OSError, Fault):
            return []
        finally:
            if not is_whole:
                self.close()  # its replies would be taken for those of the next look

    async def _bodies(self, acts: Sequence[Act]) -> list[bytes]:
        if self._line is None:
            host, port, loop = self._address.host, self._address.port, asyncio.get_running_loop()
            _, self._line = await loop.create_connection(
                _LookerLine, host, port, happy_eyeballs_delay=_SILENT
            )
        return await self._line.ask(self._frames(acts), len(acts))

    def _frames(self, acts: Sequence[Act]) -> bytes:
        head = Head(self._credentials.id, self._credentials.token, Role.OPERATOR, 0, self._epoch)
        return b"".join(framed(Request(head, act).encode()) for act in acts)


class _LookerLine(asyncio.Protocol):
    """One connection."""

    def __init__(self) -> None:
        self._transport: asyncio.Transport | None = None
        self._protocol = ServiceProtocol()
        self.bodies: list[bytes] = []
        """Those of the last replies."""
        self._answered: Callable[[list[bytes]], None] | None = None

    @property
    def is_open(self) -> bool:
        """Whether the service has not ended it."""
        return self._transport is not None

    async def ask(self, frames: bytes, count: int) -> list[bytes]:
        """The bodies of so many replies. Raises `OSError`."""
        if self._transport is None:
            raise ConnectionError("the service ended the connection")
        answered: asyncio.Future[list[bytes]] = asyncio.get_running_loop().create_future()
        self.ask_then(
            frames, count, lambda bodies: None if answered.done() else answered.set_result(bodies)
        )
        if len(bodies := await answered) < count:
            raise ConnectionError("the service ended the connection")
        return bodies

    def ask_then(self, frames: bytes, count: int, answered: Callable[[list[bytes]], None]) -> None:
        """Calls this once with the bodies of so many replies, or with fewer where the connection ends before."""
        assert self._transport is not None
        self.bodies, self._answered = [], answered
        self._protocol.ask(frames, count)
        self._transport.write(self._protocol.taken())

    def close(self) -> None:
        """Ends it."""
        if self._transport is not None:
            self._transport.abort()

    def connection_made(self, transport: asyncio.BaseTransport) -> None:
        """Called by the loop."""
        assert isinstance(transport, asyncio.Transport)
        self._transport = transport

    def connection_lost(self, error: Exception | None) -> None:
        """Called by the loop: the service has ended it, or `close`."""
        self._transport = None
        self._say([])

    def data_received(self, data: bytes) -> None:
        """Called by the loop. What nobody has asked for ends it."""
        self._protocol.receive(data)
        try:
            self.bodies.extend(self._protocol.bodies())
        except PagelogError:
            self.close()
        else:
            if not self._protocol.awaited:
                self._say(self.bodies)

    def _say(self, bodies: list[bytes]) -> None:
        answered, self._answered = self._answered, None
        if answered is not None:
            answered(bodies)
