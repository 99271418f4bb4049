"""A doorbell: the keeper that holds a database says at once that more of it is archived. Where none is heard PostgreSQL is asked again and
again."""

from __future__ import annotations

import socket
import threading
from contextlib import suppress
from typing import Callable, NamedTuple

from pagelog.connection import Address
from pagelog.dialing import dial
from pagelog.repeating import Backoff
from pagelog.secure import Trust

_SOON, _RARELY = 0.1, 5.0
"""Seconds between two attempts, at first and at most."""
_ANSWER = 3.0
"""Seconds for which an answer is waited for: a keeper holds one back for a second."""
_LONGEST = 1024


class Told(NamedTuple):
    """What a keeper says: all up to this position is archived, and has this digest."""

    position: int
    chain: bytes


class Bell:
    """Of one database, with a thread of its own from the first `lead` on."""

    def __init__(
        self, name: str, identity: str, ring: Callable[[], None], trust: Trust | None = None
    ) -> None:
        """`ring` is called in its thread, once there is something to take. With `trust` the keeper is asked by TLS."""
        self._name, self._identity, self._ring, self._trust = name, identity, ring, trust
        self._address: str | None = None
        self._position = 0
        self._told: Told | None = None
        self._line: socket.socket | None = None
        self._led, self._ends = threading.Event(), threading.Event()
        self._thread: threading.Thread | None = None
        self.hears = False
        """Whether a keeper answers now."""

    def lead(self, address: str | None, position: int) -> None:
        """From now on it asks the keeper whose lines are there, for more than this position; None: there is none."""
        self._address, self._position = address, position
        self._led.set()
        if self._thread is None and address is not None:
            self._thread = threading.Thread(
                target=self._run, name=f"bell of {self._name}", daemon=True
            )
            self._thread.start()

    def taken(self) -> Told | None:
        """What was told last and not taken yet."""
        told, self._told = self._told, None
        return told

    def end(self) -> None:
        """Ends it, at once."""
        self._ends.set()
        self._led.set()
        if (line := self._line) is not None:
            with suppress(OSError):
                line.shutdown(socket.SHUT_RDWR)
        if self._thread is not None:
            self._thread.join(_ANSWER)

    def _run(self) -> None:
        waits = Backoff(_SOON, _RARELY)
        while not self._ends.is_set():
            self._led.clear()
            if (address := self._address) is None:
                self._led.wait()
                continue
            with suppress(OSError, ValueError):
                self._hear_at(address, waits)
            self.hears = False
            self._ends.wait(waits.next())

    def _hear_at(self, address: str, waits: Backoff) -> None:
        """Returns once that keeper says nothing more. Raises `OSError` and `ValueError`."""
        place = Address.parse(address)
        with dial(place.host, place.port, _ANSWER, self._trust) as line:
            line.setsockopt(socket.IPPROTO_TCP, socket.TCP_NODELAY, 1)
            self._line = line
            with line.makefile("rwb") as text:
                text.write(b"hello 2\n")
                text.flush()
                text.readline(_LONGEST)
                while not self._ends.is_set() and self._address == address:
                    text.write(
                        f"confirmed {self._name} {self._position} of={self._identity}\n".encode()
                    )
                    text.flush()
                    if not self._understands(text.readline(_LONGEST).decode().split()):
                        return
                    self.hears = True
                    waits.reset()

    def _understands(self, words: list[str]) -> bool:
        """Takes an answer. False: it is none, as of a keeper that holds the database no more. Raises `ValueError`."""
        if (
            len(words) < 5
            or words[:2] != ["confirmed", self._name]
            or not words[4].startswith(f"of={self._identity}/")
        ):
            return False
        told = Told(int(words[2]), b"" if words[3] == "-" else bytes.fromhex(words[3]))
        if told.position > self._position:
            self._position, self._told = told.position, told
            self._ring()
        return True
