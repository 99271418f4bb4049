"""A connection to a service: one socket, many requests in flight, replies in the order of the requests."""

from __future__ import annotations

import logging
import os
import select
import socket
import threading
import time
from collections import deque
from contextlib import suppress
from dataclasses import dataclass
from itertools import islice
from typing import Callable, Generator, Iterable, NamedTuple

from pagelog.closing import Closable
from pagelog.dialing import dial
from pagelog.errors import ConnectionLost, InDoubt, PagelogError, TimedOut, Unreachable
from pagelog.repeating import Backoff
from pagelog.reply import Reply, decode_reply
from pagelog.request import Request
from pagelog.secure import Trust
from pagelog.service_protocol import ServiceProtocol, framed

_RECEIVE_SIZE = 1 << 18
_logger = logging.getLogger("pagelog")


@dataclass(frozen=True)
class Address:
    """Where a service listens."""

    host: str
    port: int

    @classmethod
    def parse(cls, text: str) -> Address:
        """The address of a text as `127.0.0.1:7400` or `[::1]:7400`. Raises `ValueError`."""
        host, colon, port = text.rpartition(":")
        if not colon or not host or not port.isdecimal() or not 1 <= int(port) <= 65535:
            raise ValueError(f"{text!r} is no address of the form HOST:PORT")
        return cls(host.strip("[]"), int(port))

    def __str__(self) -> str:
        return f"[{self.host}]:{self.port}" if ":" in self.host else f"{self.host}:{self.port}"


class Answer(NamedTuple):
    """A reply, and whether its request had been sent over an earlier connection too."""

    reply: Reply
    repeated: bool


class _Waiting:
    """A request whose reply has not come."""

    __slots__ = ("request", "frame", "sent")

    def __init__(self, request: Request) -> None:
        self.request = request
        self.frame = framed(request.encode())
        self.sent = 0


class Connection(Closable):
    """A connection that is made when it is needed, and again when it is lost.

    Where it is lost with requests in flight, those without a reply are sent again over a new one, in the same order,
    if all of them may be: a write, an offer or a report that is repeated changes nothing. Else `InDoubt` is raised. Half
    as many are then in flight at first, so that a line that is cut again and again still lets some through.

    `timeout` is in seconds: the longest wait for a connection, and the longest without a byte in either direction.
    `attempts` is how often in a row, 1 or more, a connection is tried before `Unreachable` or `ConnectionLost`; a
    reply that came begins the count again. `pause` is the wait in seconds before the second attempt, doubled for each
    further one up to a second. `reply_timeout` is the longest wait for one whole reply, however many bytes come meanwhile;
    by default it is six times `timeout`, and at least a minute. With `trust` it is by TLS: the service has to show that it is the host of
    the address.

    The service never closes an idle connection, and counts it, so close it, or use it in a `with`. It is for one thread at a
    time; `close` of another thread ends a request with `ConnectionLost`. It is for one process: a child that a fork makes may
    not use a connection that its parent has used (`RuntimeError`). The logger `pagelog` reports each connection that is made
    again, and each wait before one.
    """

    def __init__(
        self,
        address: Address | str,
        *,
        timeout: float = 10.0,
        attempts: int = 5,
        pause: float = 0.05,
        reply_timeout: float | None = None,
        trust: Trust | None = None,
    ) -> None:
        self.trust = trust
        self.address = Address.parse(address) if isinstance(address, str) else address
        self.timeout = timeout
        self.reply_timeout = max(60.0, 6 * timeout) if reply_timeout is None else reply_timeout
        self.attempts = max(1, attempts)
        self.pause = pause
        self.connects = 0
        """How many connections were made so far. A service may have been restarted where it has grown."""
        self.when_sent: Callable[[], None] | None = None
        """Called where all requests are on their way, before their replies are waited for. It raises nothing."""
        self._socket: socket.socket | None = None
        self._poll = select.poll()
        self._protocol = ServiceProtocol()
        self._failures, self._waits = 0, Backoff(pause, 1.0)
        self._in_use = False
        self._thread = 0
        self._is_closed_by_other = False
        self._process = os.getpid()
        self._waiting: deque[_Waiting] = deque()
        self._most = 64

    @property
    def is_open(self) -> bool:
        """Whether there is a connection, as far as it was used last. The next request makes one where there is none."""
        return self._socket is not None

    def close(self) -> None:
        """Closes the socket. The next request connects again. A request of another thread ends with `ConnectionLost`."""
        if self._in_use and self._thread != threading.get_ident() and self._process == os.getpid():
            self._is_closed_by_other = True
            self._wake()
            return
        left, self._socket = self._socket, None
        if left is not None:
            left.close()
        self._protocol = ServiceProtocol()

    def _wake(self) -> None:
        """Ends the wait of the thread that uses the socket."""
        if self._socket is not None:
            with suppress(OSError):  # it has ended already
                self._socket.shutdown(socket.SHUT_RDWR)

    def ask(self, request: Request) -> Reply:
        """The reply to one request. Raises as `exchange` does."""
        [reply] = self.exchange((request,), in_flight=1)
        return reply

    def exchange(
        self, requests: Iterable[Request], in_flight: int = 64, over: int | None = None
    ) -> Generator[Reply, None, None]:
        """The replies to the requests, in order, with at most `in_flight` requests in flight.

        The next request is taken from `requests` when there is room for it. An iterator that is left before its end
        closes the connection, since replies would still come. With `over`, the number of a connection as `connects` counts
        them, all replies are of the one service that it leads to: where it is lost no other is made, and the replies end.

        Raises `Unreachable`, `ConnectionLost`, `TimedOut`, `InDoubt`, and a `Fault` for a reply that is none; a
        `ValueError` where `in_flight` is below 1.
        """
        for answer in self.answers(requests, in_flight, over):
            yield answer.reply

    def answers(
        self, requests: Iterable[Request], in_flight: int = 64, over: int | None = None
    ) -> Generator[Answer, None, None]:
        """As `exchange`, and says of each reply whether its request was repeated."""
        if in_flight < 1:
            raise ValueError(f"{in_flight} requests in flight: at least 1 is")
        self._check_process()
        source = map(_Waiting, requests)
        if self._in_use:
            raise RuntimeError(
                "the connection is in use: end the exchange that was begun on it first"
            )
        self._in_use, self._thread, self._is_closed_by_other, self._most = (
            True,
            threading.get_ident(),
            False,
            in_flight,
        )
        try:
            self._leave_replies()  # of one that was interrupted as it ended
            while over is None or (over == self.connects and self.is_open):
                self._waiting.extend(islice(source, in_flight - len(self._waiting)))
                if not self._waiting:
                    return
                reply = self._first_reply(in_flight, over is not None)
                if reply is None:
                    return
                yield Answer(reply, self._waiting.popleft().sent > 1)
        finally:
            self._in_use = False
            self._leave_replies()

    def _leave_replies(self) -> None:
        """Closes a connection over which a reply may come that nobody waits for any more."""
        if self._waiting or not self._protocol.is_settled:
            self._waiting.clear()
            self.close()

    def _check_process(self) -> None:
        """A child that a fork made would read replies to its parent."""
        if self._process != os.getpid():
            if self.connects:
                raise RuntimeError(
                    f"the connection was made in process {self._process}: make another one in this process"
                )
            self._process = os.getpid()

    def _first_reply(self, in_flight: int, stays: bool) -> Reply | None:
        """The reply to the first that waits, over as many connections as it takes; None where it stays on one that is lost."""
        while True:
            try:
                if self._socket is None:
                    self._end_in_doubt(self._was_closed())  # as by who takes the replies
                    self._connect()
                self._send_waiting()
                reply = decode_reply(self._body())
            except (ConnectionLost, Unreachable) as error:
                self.close()
                self._most = max(1, self._most // 2)
                self._end_in_doubt(error)
                self._check_closed(error)
                if stays and not isinstance(error, TimedOut):
                    return None
                self._give_up_or_wait(error)
            else:
                if self._failures:
                    self._count_again()
                self._most = min(in_flight, self._most * 2)
                return reply

    def _send_waiting(self) -> None:
        """Puts as many of those that wait on their way as may be in flight."""
        upto, protocol = min(self._most, len(self._waiting)), self._protocol
        if protocol.awaited < upto:
            for asked in islice(self._waiting, protocol.awaited, upto):
                asked.sent += 1
                protocol.ask(asked.frame)

    def _end_in_doubt(self, error: PagelogError) -> None:
        for asked in self._waiting:
            if asked.sent and not asked.request.act.repeatable:
                self._count_again()
                raise InDoubt(
                    f"{asked.request.act.operation.word} may have been done: {error}"
                ) from error

    def _was_closed(self) -> ConnectionLost:
        return ConnectionLost(f"{self.address}: the connection was closed meanwhile")

    def _count_again(self) -> None:
        self._failures = 0
        self._waits.reset()

    def _give_up_or_wait(self, error: PagelogError) -> None:
        self._failures += 1
        if self._failures >= self.attempts or isinstance(error, TimedOut):
            self._count_again()
            raise error
        wait = self._waits.next()
        again = sum(1 for asked in self._waiting if asked.sent)
        _logger.info(
            "%s; connecting again in %.3f s, attempt %d of %d, and %d requests are sent again",
            error,
            wait,
            self._failures + 1,
            self.attempts,
            again,
        )
        time.sleep(wait)

    def _connect(self) -> None:
        self._check_closed()
        try:
            made = dial(self.address.host, self.address.port, self.timeout, self.trust)
        except (
            OSError,
            UnicodeError,
        ) as error:  # UnicodeError: the host is no name that can be looked up
            raise Unreachable(f"{self.address}: {error}") from error
        made.setsockopt(socket.IPPROTO_TCP, socket.TCP_NODELAY, 1)
        made.setblocking(False)
        self._poll = select.poll()
        self._socket = made
        self._check_closed()  # before, it had no socket to wake this thread by
        self.connects += 1
        if self.connects > 1:
            _logger.info("%s: connected again, for the %d. time", self.address, self.connects)

    def _check_closed(self, cause: PagelogError | None = None) -> None:
        if self._is_closed_by_other:
            raise ConnectionLost(f"{self.address}: another thread closed the connection") from cause

    def _body(self) -> bytes:
        """The body of the next frame. What is to be sent is sent meanwhile, so that neither side waits for the other."""
        deadline = time.monotonic() + self.reply_timeout
        while True:
            body = self._protocol.body()
            if body is not None:
                return body
            left = deadline - time.monotonic()
            if left <= 0:
                raise TimedOut(f"{self.address}: no whole reply came in {self.reply_timeout} s")
            self._move(left)

    def _move(self, left: float) -> None:
        """Waits until bytes can go or have come, for as long as there is left, and moves them. Raises `TimedOut` or `ConnectionLost`."""
        assert self._socket is not None
        try:
            self._send()
            self._poll.register(
                self._socket, select.POLLIN | (select.POLLOUT if self._protocol.unsent else 0)
            )
            ready = self._poll.poll(1000 * min(self.timeout, left))
            if ready and ready[0][1] & ~select.POLLOUT:
                data = self._socket.recv(_RECEIVE_SIZE)
                if not data:
                    raise ConnectionLost(f"{self.address}: the service ended the connection")
                self._protocol.receive(data)
        except (BlockingIOError, InterruptedError):
            return
        except OSError as error:
            raise ConnectionLost(f"{self.address}: {error}") from error
        if not ready and left >= self.timeout:
            raise TimedOut(f"{self.address}: nothing came in {self.timeout} s")

    def _send(self) -> None:
        """Sends as much as goes at once of what is to be sent."""
        unsent = self._protocol.unsent
        if unsent and self._socket is not None:
            try:
                del unsent[: self._socket.send(unsent)]
            except BlockingIOError:
                return
            if not unsent and self.when_sent is not None:
                self.when_sent()
