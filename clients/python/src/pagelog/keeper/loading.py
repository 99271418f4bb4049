"""Fills a service with blocks of the archive: frames are made of bytes, with no object for each, and many are in flight."""

from __future__ import annotations

import select
from typing import Iterable, Iterator, Sequence

from pagelog.closing import Closable
from pagelog.connection import Address
from pagelog.credentials import Credentials
from pagelog.dialing import dial
from pagelog.errors import ConnectionLost, PagelogError, TimedOut, UnexpectedReply, Unreachable
from pagelog.reply import decode_reply, refusal_of
from pagelog.request import QUORUM, Head, Operation, Role
from pagelog.service_protocol import ServiceProtocol, frame_head, framed

GROUP = 64
"""Blocks with one report after them: the window."""
EPOCH = 1
"""A service that is being filled is in its first epoch."""
_DONE = b"\0"
"""A reply."""
_MOST_UNSENT = 1 << 20


class Loader(Closable):
    """A connection over which the keeper writes blocks, as the primary of the first epoch."""

    def __init__(
        self, address: str, credentials: Credentials, *, quorum: int = QUORUM, timeout: float = 10.0
    ) -> None:
        """Raises `Unreachable`."""
        self._prefix = Head(credentials.id, credentials.token, Role.PRIMARY, 0, EPOCH).prefix
        self._copies = range(quorum)
        self._timeout = timeout
        self._protocol = ServiceProtocol()
        place = Address.parse(address)
        try:
            self._socket = dial(place.host, place.port, timeout)
        except OSError as error:
            raise Unreachable(f"{address}: {error}") from error
        self._socket.setblocking(False)

    def close(self) -> None:
        """Closes the connection."""
        self._socket.close()

    def load(self, first: int, pieces: Iterable[Sequence[bytes]]) -> int:
        """Writes and hardens blocks that have the LSNs from `first` on. Returns the LSN of the last.

        Raises the `Refusal` of a reply, `ConnectionLost` and `TimedOut`. Where `pieces` raises, those that it has given are hardened.
        """
        lsn = first - 1
        for piece in self._given(pieces):
            for at in range(0, len(piece), GROUP):
                group = piece[at : at + GROUP]
                lsn += len(group)
                self._add(group, lsn)
                self._move(_MOST_UNSENT)
        self._settle()
        return lsn

    def _given(self, pieces: Iterable[Sequence[bytes]]) -> Iterator[Sequence[bytes]]:
        try:
            yield from pieces
        except PagelogError:
            self._settle()
            raise

    def _settle(self) -> None:
        while self._protocol.awaited:
            self._move(0)

    def _add(self, group: Sequence[bytes], last: int) -> None:
        heads = [self._prefix + bytes((Operation.WRITE, copy)) for copy in self._copies]
        size = len(heads[0])
        parts = [
            part
            for block in group
            for head in heads
            for part in (frame_head(size + len(block)), head, block)
        ]
        report = self._prefix + bytes((Operation.REPORT,)) + last.to_bytes(8, "big")
        self._protocol.ask(b"".join((*parts, framed(report))), len(group) * len(heads) + 1)

    def _move(self, most: int) -> None:
        """Sends and receives until at most so many bytes are unsent; with 0 until something has come, too."""
        unsent = self._protocol.unsent
        while len(unsent) > most or (most == 0 and self._protocol.awaited):
            poll = select.poll()
            poll.register(self._socket, select.POLLIN | (select.POLLOUT if unsent else 0))
            ready = poll.poll(self._timeout * 1000)
            if not ready:
                raise TimedOut(f"nothing came in {self._timeout} s")
            try:
                if unsent:
                    del unsent[: self._socket.send(unsent)]
                if ready[0][1] & ~select.POLLOUT:
                    self._take(self._socket.recv(1 << 18))
            except BlockingIOError:
                continue
            except OSError as error:
                raise ConnectionLost(str(error)) from error

    def _take(self, data: bytes) -> None:
        if not data:
            raise ConnectionLost("the service ended the connection")
        self._protocol.receive(data)
        self._protocol.pass_over(framed(_DONE))
        for body in self._protocol.bodies():
            if body != _DONE:
                refusal = refusal_of(decode_reply(body))
                raise refusal or UnexpectedReply("a reply to a write that is not Done")
