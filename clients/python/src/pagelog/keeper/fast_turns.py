"""The turns of a database, as `turns.Turns` has them, given by the thread of the fast path: it reads the lines of those who write, so that
no hand-over waits for Python. What else is said over such a line is answered here."""

from __future__ import annotations

import ctypes
import os
from enum import IntEnum, IntFlag
from typing import TYPE_CHECKING

from pagelog.keeper import fast_calls
from pagelog.keeper.fast_calls import Event, WritersOrder, WritersStart
from pagelog.keeper.lines import Key, Line

if TYPE_CHECKING:
    from pagelog.keeper.fast_plane import FastPlane
    from pagelog.referee.fate import Of

_MOST_EPOCH = (1 << 32) - 1


class How(IntFlag):
    """How a turn is asked for, as in fast_path.h."""

    NOW = 1
    MINE = 2
    HEARTBEAT = 4
    SLICES = 8


class _Word(IntEnum):
    """What the thread is told, as in fast_path.h."""

    TURN = 0
    BACK = 1
    HOLD = 2
    GONE = 3
    EXPECT = 4
    NEXT = 5
    END = 6


class FastTurns:
    """Of one database, in one generation after the other. Who has the turn is known to the thread alone."""

    def __init__(self, plane: FastPlane, key: int, name: str, generation: int, ttl: float) -> None:
        """Raises `MemoryError`."""
        self.name, self.generation = name, generation
        self._library = plane.library
        self._numbers: dict[Line, int] = {}
        self._lines: dict[int, Line] = {}
        self._last_number = 0
        self._lent: dict[int, int] = {}
        """The descriptors of the lines that the thread reads."""
        self._has: set[Line] = set()
        """Of the others those that have the turn, or wait for it, as far as is known."""
        self._heard = 0
        self._is_over = False
        start = WritersStart(key, name.encode(), generation, round(1000 * ttl))
        self._writers: int | None = self._library.writers_new(plane.address, ctypes.byref(start))
        if self._writers is None:
            raise MemoryError("there is no memory for turns")

    def __contains__(self, line: Line) -> bool:
        return line in self._has or self._numbers.get(line) in self._lent

    # What it is told.

    def take(self, line: Line, words: list[str], epoch: int | None, of: Of | None) -> None:
        """Does what a line says, and has the thread read it from now on, if it can."""
        match words:
            case ["turn", _, *how]:
                self._ask(line, how, of)
            case ["back", _]:
                is_known = epoch is not None and epoch <= _MOST_EPOCH
                self._has.discard(line)
                self._do(_Word.BACK, line, epoch=epoch if is_known and epoch is not None else -1)
            case ["hold", _]:
                self._do(_Word.HOLD, line)

    def next(self, generation: int, *, is_whole: bool = False) -> FastTurns:
        """Ends the turns of this generation, and begins those of a later one, which this keeper has too, as `turns.Turns` does."""
        self.generation = generation
        self._do(_Word.NEXT, how=int(is_whole), generation=generation)
        return self

    def expect(self) -> None:
        """Somebody has asked what became of the generation before."""
        self._do(_Word.EXPECT)

    def gone(self, line: Line) -> None:
        """The connection is gone, and with it its turn."""
        number = self._numbers.get(line)
        if number is None:
            return
        self._do(_Word.GONE, line)
        self._has.discard(line)
        if number not in self._lent:
            self._forget(line)

    def end(self) -> None:
        """The generation is over, and so is each turn."""
        self._do(_Word.END)

    def _ask(self, line: Line, how: list[str], of: Of | None) -> None:
        wanted = sum(each for each in How if each.name is not None and each.name.lower() in how)
        asker = 0 if line.asker is None else line.asker[1] + 1
        descriptor = line.lend(rings=False) if of is not None and line.version > 1 else None
        number = self._number_of(line)
        if descriptor is not None:
            self._lent[number] = descriptor
        self._has.add(line)
        is_done = self._do(_Word.TURN, line, asker=asker, how=wanted, descriptor=descriptor, of=of)
        if not is_done:
            self._has.discard(line)
            self._take_back(number, b"")
            line.say("elsewhere", self.name)

    def _number_of(self, line: Line) -> int:
        number = self._numbers.get(line)
        if number is None:
            number = self._last_number = self._last_number + 1
            self._numbers[line], self._lines[number] = number, line
        return number

    def _forget(self, line: Line) -> None:
        del self._lines[self._numbers.pop(line)]

    def _do(
        self,
        word: _Word,
        line: Line | None = None,
        *,
        asker: int = 0,
        how: int = 0,
        epoch: int = -1,
        generation: int = 0,
        descriptor: int | None = None,
        of: Of | None = None,
    ) -> bool:
        """False where it cannot be done any more."""
        number = 0 if line is None else self._numbers.get(line, 0)
        order = WritersOrder(
            word,
            number,
            asker,
            how,
            epoch,
            generation,
            -1 if descriptor is None else descriptor,
            f"of={of}".encode(),
            self._heard,
        )
        return not self._is_over and bool(
            self._library.writers_do(self._writers, ctypes.byref(order))
        )

    # What the thread says.

    def hear(self, event: Event) -> None:
        """Does what the thread leaves to the keeper."""
        match event.news:
            case fast_calls.WRITER_SAID:
                self._heard += 1
                self._say(self._lines.get(event.position), event.text.decode().split())
            case fast_calls.WRITER_BACK:
                line = self._lines[event.position]
                (self._has.add if event.end else self._has.discard)(line)
                self._take_back(event.position, event.text)
            case fast_calls.WRITERS_ENDED:
                self._is_over = True
                for number in list(self._lent):
                    self._take_back(number, b"")

    def _say(self, line: Line | None, words: list[str]) -> None:
        """An empty text says that the turn is another's by now."""
        if line is None:
            return
        if words[:1] not in (["turn"], ["wanted"], ["soon"]):
            self._has.discard(line)
        if words:
            line.say(*(Key(word) if "=" in word else word for word in words))

    def _take_back(self, number: int, data: bytes) -> None:
        descriptor = self._lent.pop(number, None)
        line = self._lines[number]
        if descriptor is not None:
            os.close(descriptor)
            line.take_back(data)
        if not line.is_open and line in self._numbers:
            self.gone(line)
