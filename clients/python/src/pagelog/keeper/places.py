"""Who waits for the place of a database: told as soon as there is one, so that clients need not ask again and again."""

from __future__ import annotations

import asyncio
from dataclasses import dataclass, field
from typing import Callable

from pagelog.keeper.lines import Line
from pagelog.keeper.quota import Quota

HELD = 1.0
"""For how many seconds an answer may be held back."""
EACH, ALL = 1_000, 20_000
"""For how many databases one connection may wait, and for how many all of them: who asks for more is answered at once."""


@dataclass(eq=False)
class _WaitingPlace:
    line: Line
    name: str
    least: int
    timer: asyncio.TimerHandle = field(init=False)


class Places:
    """The questions for a place of some generation or a later one that have no answer yet: one of each name for each connection."""

    def __init__(self, where: Callable[[str, bool], tuple[object, ...]]) -> None:
        """`where` has the words of the answer as it is now."""
        self._where = where
        self._of_name: dict[str, dict[Line, _WaitingPlace]] = {}
        self._of_line: dict[Line, dict[str, _WaitingPlace]] = {}
        self._quota = Quota(EACH, ALL)

    def __contains__(self, line: Line) -> bool:
        """Whether anything is waited for over this connection."""
        return line in self._of_line

    def ask(self, line: Line, name: str, least: int) -> None:
        """Answers at once where there is such a place, or no such database; else once there is, or with what there is in the end. A
        question for the same name that still waits is answered first, with what there is."""
        if (before := self._of_line.get(line, {}).get(name)) is not None:
            self._give_up(before)
        words = self._where(name, line.is_secure)
        if words[0] == "unknown" or _is_of(words, least) or not self._quota.acquire(line):
            line.say(*words)
            return
        waiting = _WaitingPlace(line, name, least)
        waiting.timer = asyncio.get_running_loop().call_later(HELD, self._give_up, waiting)
        self._of_name.setdefault(name, {})[line] = waiting
        self._of_line.setdefault(line, {})[name] = waiting

    def changed(self, name: str) -> None:
        """There may be another place now."""
        if name in self._of_name:
            words = {is_secure: self._where(name, is_secure) for is_secure in (False, True)}
            for waiting in list(self._of_name[name].values()):
                if _is_of(words[waiting.line.is_secure], waiting.least):
                    self._leave(waiting)
                    waiting.line.say(*words[waiting.line.is_secure])

    def gone(self, line: Line) -> None:
        """Nobody waits over it any more."""
        for waiting in list(self._of_line.get(line, {}).values()):
            self._leave(waiting)

    def _give_up(self, waiting: _WaitingPlace) -> None:
        self._leave(waiting)
        waiting.line.say(*self._where(waiting.name, waiting.line.is_secure))

    def _leave(self, waiting: _WaitingPlace) -> None:
        waiting.timer.cancel()
        self._quota.release(waiting.line)
        of_name, of_line = self._of_name[waiting.name], self._of_line[waiting.line]
        del of_name[waiting.line], of_line[waiting.name]
        if not of_name:
            del self._of_name[waiting.name]
        if not of_line:
            del self._of_line[waiting.line]


def _is_of(words: tuple[object, ...], least: int) -> bool:
    """Whether the answer is a place of this generation or a later one."""
    return words[0] == "at" and int(str(words[2])) >= least
