"""Who waits for more of a database to be archived, whatever that is: page servers, which take it then. They ask for no archiving."""

from __future__ import annotations

import asyncio
from dataclasses import dataclass, field
from typing import Callable

from pagelog.keeper.lines import Line, of_word
from pagelog.referee.fate import Of

HELD = 1.0
"""For how many seconds an answer may be held back."""
MOST = 1_000
"""Of one database, connections that may wait: who is one more is answered at once."""


@dataclass(eq=False)
class _WaitingConfirmation:
    line: Line
    position: int
    of: Of
    timer: asyncio.TimerHandle = field(init=False)


class Confirmations:
    """The questions of one database that have no answer yet, one of each connection; as long as it is held here."""

    def __init__(self, name: str) -> None:
        self._name = name
        self._waiting: dict[Line, _WaitingConfirmation] = {}
        self._now = 0, b""
        """The archived position, and the digest of all blocks up to it, as it was told last."""
        self.watch: Callable[[bool], None] = lambda _: None
        """Called once somebody waits, and once nobody does any more."""

    def __len__(self) -> int:
        return len(self._waiting)

    def __contains__(self, line: Line) -> bool:
        return line in self._waiting

    def ask(self, line: Line, position: int, of: Of, reached: int, chain: bytes) -> None:
        """Answers once more than `position` is archived, or after a while with what there is; now it is `reached`. A question of the same
        connection that still waits is answered first. The answer says what it is `of`."""
        self.tell(reached, chain)
        if line in self._waiting:
            self._give_up(self._waiting[line])
        waiting = _WaitingConfirmation(line, position, of)
        if reached > position or len(self._waiting) >= MOST:
            return self._say(waiting)
        waiting.timer = asyncio.get_running_loop().call_later(HELD, self._give_up, waiting)
        self._waiting[line] = waiting
        if len(self._waiting) == 1:
            self.watch(True)

    def tell(self, reached: int, chain: bytes) -> None:
        """All up to `reached` is archived, and has this digest."""
        self._now = reached, chain
        for waiting in [each for each in self._waiting.values() if reached > each.position]:
            self._leave(waiting)
            self._say(waiting)

    def end(self) -> None:
        """It is held here no more."""
        for waiting in list(self._waiting.values()):
            self._leave(waiting)
            waiting.line.say("elsewhere", self._name, waiting.position, *of_word(waiting.of))

    def gone(self, line: Line) -> None:
        """Nobody waits over this connection any more."""
        if line in self._waiting:
            self._leave(self._waiting[line])

    def _give_up(self, waiting: _WaitingConfirmation) -> None:
        self._leave(waiting)
        self._say(waiting)

    def _say(self, waiting: _WaitingConfirmation) -> None:
        reached, chain = self._now
        waiting.line.say("confirmed", self._name, reached, chain.hex() or "-", *of_word(waiting.of))

    def _leave(self, waiting: _WaitingConfirmation) -> None:
        waiting.timer.cancel()
        del self._waiting[waiting.line]
        if not self._waiting:
            self.watch(False)
