"""The client's side of the service's protocol, without IO: requests become bytes to send, and bytes that came become bodies of replies.

A driver, which blocks, polls or is of an event loop, sends `unsent`, gives what it has received to `receive`, and takes bodies.
A frame is the length of its body, as 4 bytes, and the body. Replies come in the order of their requests.
"""

from __future__ import annotations

import struct
from typing import Iterator

from pagelog.errors import UnexpectedReply
from pagelog.faults import FrameFault

REPLY_SIZE = 1 << 20
"""The most bytes of a reply's body."""
_LENGTH = struct.Struct(">I")
_HEAD_SIZE = _LENGTH.size


def frame_head(length: int) -> bytes:
    """What goes before a body of this length."""
    return _LENGTH.pack(length)


def framed(body: bytes) -> bytes:
    """The frame of a request."""
    return _LENGTH.pack(len(body)) + body


class ServiceProtocol:
    """What one connection owes: bytes of requests that are to be sent, and replies that are to come. A new connection has a new one."""

    __slots__ = ("unsent", "awaited", "_came", "_longest")

    def __init__(self, longest: int = REPLY_SIZE) -> None:
        """`longest` is that of a body."""
        self.unsent = bytearray()
        """What is to be sent. A driver removes what it has sent."""
        self.awaited = 0
        """How many replies have not come."""
        self._came = bytearray()
        self._longest = longest

    @property
    def is_settled(self) -> bool:
        """Whether all is sent, and all replies came, and nothing else."""
        return not (self.awaited or self.unsent or self._came)

    def ask(self, frames: bytes, count: int = 1) -> None:
        """Puts the frames of so many requests on their way."""
        self.unsent += frames
        self.awaited += count

    def taken(self) -> bytes:
        """All that is to be sent, for a driver that sends it whole."""
        taken = bytes(self.unsent)
        self.unsent.clear()
        return taken

    def receive(self, data: bytes) -> None:
        """Takes what has come."""
        self._came += data

    def body(self) -> bytes | None:
        """That of the next reply; None where it has not come whole.

        Raises `FrameFault` as soon as its length is known to be too long, and `UnexpectedReply` where nothing is awaited and something came.
        """
        came = self._came
        if not self.awaited:
            if came:
                raise UnexpectedReply("nobody has asked for that")
            return None
        if len(came) < _HEAD_SIZE:
            return None
        (length,) = _LENGTH.unpack_from(came)
        if length > self._longest:
            raise FrameFault(length)
        end = _HEAD_SIZE + length
        if len(came) < end:
            return None
        body = bytes(came[_HEAD_SIZE:end])
        del came[:end]
        self.awaited -= 1
        return body

    def bodies(self) -> Iterator[bytes]:
        """Those of all replies that have come whole. Raises as `body`."""
        return iter(self.body, None)

    def pass_over(self, frame: bytes) -> None:
        """Takes all replies that have come whole at once, where each is this frame, and no more of them than are awaited."""
        count = len(self._came) // len(frame)
        if count <= self.awaited and self._came.startswith(frame * count):
            del self._came[: count * len(frame)]
            self.awaited -= count
