"""Relays before keepers, each at the address that clients are told: a fault happens at the very message that it is armed for."""

from __future__ import annotations

import asyncio
import threading
from contextlib import suppress
from dataclasses import dataclass, field
from typing import Callable

from keepers import Keeping

PUBLIC, OWN = "127.0.0.1", "127.0.0.2"
TO, BACK = "to", "back"
"""From a client to a keeper, and from it."""


class Relayed(Keeping):
    """Keepers that clients reach by relays."""

    lines_host = OWN

    @property
    def addresses(self) -> list[str]:
        return [f"{PUBLIC}:{self.ports[name]}" for name in self.processes]


@dataclass
class Armed:
    """A fault, and the message that it waits for."""

    way: str
    word: str
    is_before: bool
    """It happens before this message has gone on, else right after it."""
    act: Callable[[], None]
    happened: threading.Event = field(default_factory=threading.Event)

    def happen(self) -> None:
        """Once, whoever comes first."""
        if not self.happened.is_set():
            self.act()
            self.happened.set()


class Relays:
    """They run in a thread of their own."""

    def __init__(self) -> None:
        self._loop = asyncio.new_event_loop()
        self._armed: Armed | None = None
        self.hand_overs = 0
        """How often the turn went from one writer to another."""
        self._ways: set[asyncio.Task[None]] = set()
        threading.Thread(target=self._loop.run_forever, daemon=True).start()

    def before(self, port: int) -> None:
        """Relays what comes to this port."""

        async def listen() -> None:
            await asyncio.start_server(lambda *ends: self._relay(port, *ends), PUBLIC, port)

        asyncio.run_coroutine_threadsafe(listen(), self._loop).result()

    def meet(self, armed: Armed, patience: float) -> bool:
        """Has a fault happen at its message. Where none has come in time it happens nevertheless. Returns whether it was met."""
        self._armed = armed
        is_met = armed.happened.wait(patience)
        self._armed = None
        if not is_met:
            self._loop.call_soon_threadsafe(armed.happen)
            armed.happened.wait()
        return is_met

    async def _relay(
        self, port: int, reader: asyncio.StreamReader, writer: asyncio.StreamWriter
    ) -> None:
        try:
            far_reader, far_writer = await asyncio.open_connection(OWN, port)
        except OSError:  # nobody is there, or not any more
            writer.close()
            return
        for way, source, sink, other in (
            (TO, reader, far_writer, writer),
            (BACK, far_reader, writer, far_writer),
        ):
            task = self._loop.create_task(self._carry(way, source, sink, other))
            self._ways.add(task)
            task.add_done_callback(self._ways.discard)

    async def _carry(
        self,
        way: str,
        source: asyncio.StreamReader,
        sink: asyncio.StreamWriter,
        other: asyncio.StreamWriter,
    ) -> None:
        """Carries whole lines one way, until either end is closed."""
        with suppress(OSError, asyncio.IncompleteReadError, asyncio.LimitOverrunError):
            while True:
                line = await source.readuntil(b"\n")
                armed = self._armed
                word = line.partition(b" ")[0].strip().decode(errors="replace")
                self.hand_overs += way == BACK and word == "turn" and b" other" in line
                is_it = armed is not None and (armed.way, armed.word) == (way, word)
                if armed is not None and is_it and armed.is_before:
                    armed.happen()
                # What keepers say of their own addresses leads to relays.
                sink.write(line.replace(OWN.encode(), PUBLIC.encode()) if way == BACK else line)
                await sink.drain()
                if armed is not None and is_it:
                    armed.happen()
        for end in (sink, other):
            with suppress(OSError):
                end.close()
