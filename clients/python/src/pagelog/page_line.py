"""One page server, as one of several that have the same pages: asked and read without waiting."""

from __future__ import annotations

import errno
import os
import select
import socket
import time
from typing import Any, Sequence

from pagelog.block import BLOCK_SIZE, PAGE_SIZE
from pagelog.connection import Address
from pagelog.credentials import Credentials
from pagelog.place import PageServerPlace
from pagelog.reply import Reply, decode_reply
from pagelog.request import Act, Head, Request, Role, Status
from pagelog.secure import Secured, Trust
from pagelog.service_protocol import ServiceProtocol, framed

_RECEIVE_SIZE = 65536
_MEASURED = 10.0
"""Seconds for which it counts how near it was."""
_LONGEST = max(9 + PAGE_SIZE, 11 + 4 + BLOCK_SIZE)
"""Bytes of the longest reply to what is asked."""


class PageLine:
    """Not for several threads at once."""

    def __init__(
        self, place: PageServerPlace, credentials: Credentials, trust: Trust | None
    ) -> None:
        self.place = place
        self.position = place.position
        """The newest that it has told."""
        self.proved = 0
        """Up to this position its history is known to be the reader's, as long as the connection lasts: after a crash it may go on from
        less."""
        self.usual = 0.0
        """Seconds that its first bytes usually take; 0 where that is not known."""
        self.free = 0.0
        """Until when it is not asked."""
        self.pause = 0.0
        """Seconds that that was."""
        self.asked: Any = None
        """What its replies are judged by."""
        self._head = Head(credentials.id, credentials.token, Role.SECONDARY, 0, 1)
        self._address, self._trust = Address.parse(place.address), trust
        self._socket: socket.socket | None = None
        self._tried = 0
        self._is_connecting = False
        self._shaking = 0
        self._protocol = ServiceProtocol(_LONGEST)
        self._replies: list[Reply] = []
        self._began, self._is_timed = 0.0, False

    def usual_of_late(self, now: float) -> float:
        """As `usual`, which is not known any more of one that was not asked for a while."""
        return self.usual if now - self._began < _MEASURED else 0.0

    @property
    def is_asked(self) -> bool:
        """Whether replies are awaited."""
        return self._protocol.awaited > 0

    @property
    def is_heard(self) -> bool:
        """Whether it is connected, and so alive."""
        return not (self._is_connecting or self._shaking)

    @property
    def replies(self) -> Sequence[Reply] | None:
        """The replies to the status and what was asked besides; None where some have not come."""
        return None if self.is_asked else self._replies

    def open(self) -> None:
        """Begins to connect, where it is not connected or was left. Raises `OSError`."""
        if self._socket is not None and self._has_ended():
            self.close()
        self._is_timed = self._socket is not None
        if self._socket is None:
            self.proved = 0
            self._connect()

    def ask(self, acts: Sequence[Act]) -> None:
        """Asks for the status, and this, of one that is open."""
        for act in (Status(), *acts):
            self._protocol.ask(framed(Request(self._head, act).encode()))
        self._replies = []
        now = time.monotonic()
        self.usual, self._began = self.usual_of_late(now), now

    def fileno(self) -> int:
        """Its socket."""
        assert self._socket is not None
        return self._socket.fileno()

    @property
    def events(self) -> int:
        """What is waited for of its socket."""
        if self._shaking:
            return self._shaking
        return select.POLLOUT if self._is_connecting or self._protocol.unsent else select.POLLIN

    def go_on(self) -> None:
        """Sends and reads what goes at once, of one that is ready. Raises `OSError`, or a `Fault` for what is no reply."""
        assert self._socket is not None
        if self._is_connecting:
            self._end_connect()
        if self._shaking:
            assert isinstance(self._socket, Secured)
            self._shaking = self._socket.shake()
        if self._shaking:
            return
        try:
            if unsent := self._protocol.unsent:
                del unsent[: self._socket.send(unsent)]
            else:
                self._take(self._socket.recv(_RECEIVE_SIZE))
        except (BlockingIOError, InterruptedError):
            pass

    def leave(self) -> None:
        """Nothing is awaited any more. The connection stays only where all has come."""
        if self.replies is None:
            self.close()
        self.asked, self._replies = None, []

    def close(self) -> None:
        """Closes the connection."""
        left, self._socket = self._socket, None
        self._is_connecting, self._shaking = False, 0
        self._protocol = ServiceProtocol(_LONGEST)
        if left is not None:
            left.close()

    def _has_ended(self) -> bool:
        """Also where something has come that nobody has asked for."""
        assert self._socket is not None
        try:
            self._socket.recv(1)
        except (BlockingIOError, InterruptedError):
            return not self._protocol.is_settled
        except OSError:
            pass
        return True

    def _connect(self) -> None:
        """To the next address of its host: one that was silent is not tried again before the others."""
        found = socket.getaddrinfo(self._address.host, self._address.port, type=socket.SOCK_STREAM)
        family, kind, protocol, _, address = found[self._tried % len(found)]
        self._tried += 1
        self._socket = socket.socket(family, kind, protocol)
        self._socket.setblocking(False)
        self._socket.setsockopt(socket.IPPROTO_TCP, socket.TCP_NODELAY, 1)
        self._is_connecting = True
        if (error := self._socket.connect_ex(address)) not in (0, errno.EINPROGRESS):
            raise OSError(error, os.strerror(error))

    def _end_connect(self) -> None:
        assert self._socket is not None
        if error := self._socket.getsockopt(socket.SOL_SOCKET, socket.SO_ERROR):
            raise OSError(error, os.strerror(error))
        self._is_connecting, self._tried = False, self._tried - 1
        if self._trust is not None:
            self._socket = self._trust.begin(self._socket, self._address.host)
            self._shaking = select.POLLOUT

    def _take(self, data: bytes) -> None:
        if not data:
            raise ConnectionError("the page server ended the connection")
        if self._is_timed:
            self._is_timed = False
            took = time.monotonic() - self._began
            self.usual = (3 * self.usual + took) / 4 if self.usual else took
        self._protocol.receive(data)
        self._replies.extend(map(decode_reply, self._protocol.bodies()))
