"""The line protocol of keepers: text, one line each way, of at most 1,024 bytes. docs/LINES.md has the words: who asks what, what is
answered, and what an older peer makes of it.

A client says its version first (`hello`). To one that has said none no `key=value` is told, which it would not know. A question
carries the database and the run that it is about as `of=DATABASE/RUN`; one of an older client has none.
"""

from __future__ import annotations

import asyncio
import errno
import logging
import os
import resource
import secrets
import socket
import time
from contextlib import suppress
from itertools import islice
from typing import Any, Callable, Protocol

from pagelog.keeper.proving import Asker, Proof
from pagelog.place import parted
from pagelog.referee.fate import Of

VERSION = 2
"""Of the lines. Version 1 has no greeting, and no keys."""
LONGEST = 1024
MOST = 1 << 16
"""Connections at most, however many descriptors there may be."""
_AT_ONCE = 64
"""Lines of one client that are answered before others have their turn."""
_TRIED = 64
"""Connections that are looked at for one that is idle, when another comes."""
_SAID_AGAIN = 60.0
"""Seconds after which it is logged again that there is no descriptor."""
_FULL = (errno.EMFILE, errno.ENFILE, errno.ENOBUFS, errno.ENOMEM)
_log = logging.getLogger("pagelog.keeper")


def most_lines() -> int:
    """Half of the descriptors that this process may have: the services, PostgreSQL and the files have the rest."""
    limit = resource.getrlimit(resource.RLIMIT_NOFILE)[0]
    return MOST if limit == resource.RLIM_INFINITY else min(MOST, max(1, limit // 2))


class OpenLines:
    """The connections, first those of which nothing was heard for the longest time."""

    def __init__(self, awaits: Callable[[Line], bool]) -> None:
        """`awaits` says whether a client has something, or waits for something."""
        self._awaits = awaits
        self._lines: dict[Line, None] = {}
        self.plain_ever = 0
        """How many have come without TLS."""

    def add(self, line: Line) -> None:
        """Another one, in place of an idle one where there are too many. Where none is found, it is closed itself."""
        if len(self._lines) >= most_lines() and not self.drop_idle():
            line.close()
        self._lines[line] = None
        self.plain_ever += not line.is_secure

    def heard(self, line: Line) -> None:
        """It is not idle now."""
        if line in self._lines:
            del self._lines[line]
            self._lines[line] = None

    def gone(self, line: Line) -> None:
        """It has ended."""
        self._lines.pop(line, None)

    def drop_idle(self) -> bool:
        """Closes the one that is idle longest, has nothing and awaits nothing. False where none is found."""
        for line in list(islice(self._lines, _TRIED)):
            if not line.is_lent and not self._awaits(line):
                self.gone(line)
                line.close()
                return True
            self.heard(line)
        return False

    @property
    def plain(self) -> int:
        """How many came without TLS."""
        return sum(not line.is_secure for line in self._lines)

    def close(self) -> None:
        """Ends them all."""
        for line in list(self._lines):
            line.close()


class Key(str):
    """A word `key=value` of an answer, behind those that have their place. Who does not know the key passes over it."""


def of_word(of: Of | None) -> tuple[Key, ...]:
    """The word that says of which database and run an answer is; none where the question did not say so."""
    return () if of is None else (Key(f"of={of}"),)


class Line(asyncio.Protocol):
    """One connection of a client. Its lines are answered in the order in which they come; nothing is read of a client that does not read."""

    is_secure = False
    """Whether it came by TLS."""
    client: str | None = None
    """The name in the client's certificate."""

    def __init__(self, answers: Answers, open: OpenLines) -> None:
        self._answers, self._open = answers, open
        self._transport: asyncio.Transport | None = None
        self._left = b""
        self._is_full = self._is_lent = self._is_behind = False
        self.nonce = secrets.token_hex(16)
        """What the client proves something with, over this connection alone."""
        self.proof: Proof | None = None
        """What it has said last to prove it."""
        self.asker: Asker = None
        """Who that is, as it was judged last."""
        self.may_ring = False
        """Whether who reads it in place of this may take a `ring` from it."""
        self.version = 1
        """Of the client, as it has said."""

    def connection_made(self, transport: asyncio.BaseTransport) -> None:
        assert isinstance(transport, asyncio.Transport)
        self._transport = transport
        self._open.add(self)

    def connection_lost(self, error: Exception | None) -> None:
        self._transport = None
        self._open.gone(self)
        self._answers.gone(self)

    def data_received(self, data: bytes) -> None:
        self._open.heard(self)
        self._left += data
        self._hear()

    def eof_received(self) -> None:
        if self._left and not self._is_full:
            self._answer(self._left)

    def pause_writing(self) -> None:
        self._is_full = True
        self._read_or_not()

    def resume_writing(self) -> None:
        self._is_full = False
        self._hear()

    def _read_or_not(self) -> None:
        """Reads on, unless there is something to be done or waited for before."""
        if self._transport is None:
            return
        if self._is_full or self._is_lent or self._is_behind:
            self._transport.pause_reading()
        else:
            self._transport.resume_reading()

    def _hear(self) -> None:
        """Answers some lines, and the next ones once others had their turn."""
        for _ in range(_AT_ONCE):
            if not self._has_line:
                break
            line, _, self._left = self._left.partition(b"\n")
            self._answer(line)
        if self._has_line and not self._is_behind:
            asyncio.get_running_loop().call_soon(self._hear_on)
        self._is_behind = self._has_line
        if len(self._left) > LONGEST and not (self._is_full or self._is_lent or self._is_behind):
            self.close()
        self._read_or_not()

    def _hear_on(self) -> None:
        self._is_behind = False
        self._hear()

    @property
    def _has_line(self) -> bool:
        """Whether a whole line can be answered now."""
        return (
            self.is_open
            and not self._is_full
            and not self._is_lent
            and b"\n" in self._left[: LONGEST + 1]
        )

    def _answer(self, line: bytes) -> None:
        try:
            answer(self._answers, self, line.decode().split())
        except ValueError:
            self.close()  # it is no text, or a number is none

    @property
    def is_open(self) -> bool:
        """Whether it is not known to be gone."""
        return self._transport is not None and not self._transport.is_closing()

    @property
    def is_lent(self) -> bool:
        """Whether another reads it."""
        return self._is_lent

    def say(self, *words: object) -> None:
        """Writes a line, to an older client without its keys. To one who is gone nothing is written. One that is lent, and takes not all of
        it, is ended: what the other says would come in between."""
        transport = self._transport
        if transport is None or transport.is_closing():
            return
        told = (word for word in words if self.version > 1 or not isinstance(word, Key))
        transport.write(" ".join(map(str, told)).encode() + b"\n")
        if self._is_lent and transport.get_write_buffer_size():
            with suppress(OSError):  # the client is gone
                transport.get_extra_info("socket").shutdown(socket.SHUT_RDWR)
            transport.abort()

    def close(self) -> None:
        """Ends it, once what was written is sent."""
        if self._transport is not None:
            self._transport.close()

    def lend(self, *, rings: bool = True) -> int | None:
        """A descriptor of its socket, for one who reads it in place of this, and closes it; until `take_back`. None where something is left
        to be read or written, or may not be done, or there is no descriptor to be had. `rings`: that one takes a `ring` from it.
        """
        transport = self._transport if self.may_ring or not rings else None
        if (
            transport is None
            or transport.is_closing()
            or self._is_lent
            or self._is_full
            or self._left
            or transport.get_write_buffer_size()
        ):
            return None
        try:
            descriptor = os.dup(transport.get_extra_info("socket").fileno())
        except OSError:
            return None
        self._is_lent = True
        self._read_or_not()
        return descriptor

    def take_back(self, data: bytes) -> None:
        """Reads it again, after what was read meanwhile, and not answered."""
        self._is_lent, self._left = False, data + self._left
        self._hear()


class Answers(Protocol):
    """Who answers the lines."""

    @property
    def wants_certificates(self) -> bool:
        """Whether who comes by TLS needs a certificate of the database that is asked of."""

    def identity_of(self, name: str) -> str | None:
        """That of the database of this name; None where there is none, or it is not known yet."""

    def where(self, name: str, is_secure: bool) -> tuple[object, ...]:
        """The words of the answer to `where`, for who came by TLS or without."""

    def where_next(self, line: Line, name: str, least: int) -> None:
        """Writes the answer to `where` once this generation or a later one is published, or nobody here is about to."""

    def next_place(self, line: Line, name: str, least: int) -> None:
        """Writes the answer to `next` once there is a place of this generation or a later one, or after a while."""

    def standby(self, name: str, is_secure: bool) -> tuple[object, ...]:
        """The words of the answer to `standby`."""

    def pages(self, name: str, of: Of | None, is_secure: bool) -> tuple[object, ...]:
        """The words of the answer to `pages`."""

    def durable(self, line: Line, name: str, generation: int, position: int, of: Of | None) -> None:
        """Writes the answer to `durable` once there is one."""

    def confirmed(self, line: Line, name: str, position: int, of: Of | None) -> None:
        """Writes the answer to `confirmed` once more than this position is archived, or after a while."""

    def ring(self, line: Line, name: str, generation: int, of: Of | None) -> None:
        """There will be new blocks."""

    def full(self, line: Line, name: str, generation: int, of: Of | None) -> None:
        """A service had no memory for a writer."""

    def block(self, line: Line, name: str, position: int, of: Of | None) -> None:
        """Writes the answer to `block`."""

    def turn(self, line: Line, words: list[str], of: Of | None, epoch: int | None) -> None:
        """Answers the lines of turns, at once or later. `epoch`: in which who gives one back has written."""

    def awaits(self, line: Line) -> bool:
        """Whether the client has a turn, or waits for an answer."""

    def gone(self, line: Line) -> None:
        """The client is gone, and waits for nothing."""


def _number(text: str) -> int:
    """Raises `ValueError`. Python's `int` would take a sign, underscores, and digits of other scripts."""
    if not (text.isascii() and text.isdigit()):
        raise ValueError(f"{text!r} is no number")
    return int(text)


def answer(answers: Answers, line: Line, words: list[str]) -> None:
    """Answers a line. Raises `ValueError` where a number is none, or `of` is no database and run."""
    asked, keys = parted(words)
    of = Of.read(keys["of"]) if "of" in keys else None
    match asked:
        case ["hello", version]:
            line.version = _number(version)
            line.say("hello", VERSION, Key(f"nonce={line.nonce}"))
        case ["prove", name, principal, code] if of is not None:
            line.proof = Proof(name, _number(principal), code, of)
        case ["where", name]:
            line.say(*answers.where(name, line.is_secure))
        case ["where", name, least]:
            answers.where_next(line, name, _number(least))
        case ["next", name, least]:
            answers.next_place(line, name, _number(least))
        case ["standby", name]:
            line.say(*answers.standby(name, line.is_secure))
        case ["pages", name]:
            line.say(*answers.pages(name, of, line.is_secure))
        case ["durable", name, generation, position]:
            answers.durable(line, name, _number(generation), _number(position), of)
        case ["confirmed", name, position]:
            answers.confirmed(line, name, _number(position), of)
        case ["ring", name, generation]:
            answers.ring(line, name, _number(generation), of)
        case ["full", name, generation]:
            answers.full(line, name, _number(generation), of)
        case ["block", name, position]:
            answers.block(line, name, _number(position), of)
        case ["turn" | "back" | "hold", _, *_]:
            answers.turn(line, asked, of, _number(keys["epoch"]) if "epoch" in keys else None)
        case _:
            line.say("what", *asked[:1])


class Server:
    """Listens, and hands each line to who answers."""

    def __init__(self, answers: Answers) -> None:
        self._answers = answers
        self._server: asyncio.base_events.Server | None = None
        self._behind: asyncio.base_events.Server | None = None
        self._open = OpenLines(answers.awaits)
        self._said_at = float("-inf")
        """When it was logged that there is no descriptor."""

    async def start(self, address: str) -> str:
        """Listens at HOST:PORT, where port 0 is any free one. Returns the address."""
        host, _, port = address.rpartition(":")
        loop = asyncio.get_running_loop()
        loop.set_exception_handler(self._hear_of_fault)
        self._server = await loop.create_server(
            lambda: Line(self._answers, self._open), host.strip("[]"), int(port)
        )
        return f"{host}:{self._server.sockets[0].getsockname()[1]}"

    async def start_behind(
        self, listener: socket.socket, line: Callable[[Answers, OpenLines], Line]
    ) -> None:
        """Hears the lines that come through the keeper's front: it alone reaches this socket. Each is made by `line`."""
        loop = asyncio.get_running_loop()
        loop.set_exception_handler(self._hear_of_fault)
        self._behind = await loop.create_unix_server(
            lambda: line(self._answers, self._open), sock=listener
        )

    async def stop(self) -> None:
        """Ends all connections."""
        for server in (self._server, self._behind):
            if server is not None:
                server.close()
        self._open.close()

    @property
    def plain(self) -> tuple[int, int]:
        """How many connections that came without TLS are open, and how many have come."""
        return self._open.plain, self._open.plain_ever

    def _hear_of_fault(self, loop: asyncio.AbstractEventLoop, context: dict[str, Any]) -> None:
        """Where no connection can be accepted, some that are idle go. The loop tries again each second, and would log a traceback each time."""
        error = context.get("exception")
        if "socket" not in context or not isinstance(error, OSError) or error.errno not in _FULL:
            return loop.default_exception_handler(context)
        count = sum(self._open.drop_idle() for _ in range(_AT_ONCE))
        if time.monotonic() - self._said_at >= _SAID_AGAIN:
            self._said_at = time.monotonic()
            _log.warning(
                "the lines: nobody can connect: %s; %d idle connections were closed",
                error.strerror,
                count,
            )
