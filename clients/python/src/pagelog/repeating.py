"""What is tried again and again: how long it waits in between, and how often it is said."""

from __future__ import annotations

import re
import time
from typing import Callable

EVERY = 60.0
"""Seconds after which what goes on is said again."""
_MOST = 4096
"""Kinds of sentences that are remembered: the oldest goes first."""
_NUMBER = re.compile(r"\d+")
_STEP = 0.2
"""Seconds after which one who waits sees that it is to stop."""


class Backoff:
    """The waits of a repetition, in seconds: each is twice as long as the one before, up to a cap."""

    def __init__(self, first: float, cap: float) -> None:
        self._first, self._cap = first, cap
        self._next = min(first, cap)

    def next(self) -> float:
        """How long to wait now."""
        wait, self._next = self._next, min(self._cap, 2 * self._next)
        return wait

    def reset(self) -> None:
        """It went well: the next wait is the first again."""
        self._next = min(self._first, self._cap)


class Repeats:
    """What comes again and again is said at once, and then once a minute, with how often it came meanwhile. Sentences of one subject that
    differ by numbers alone, as by a position, are one."""

    def __init__(
        self,
        say: Callable[[str, str], None],
        *,
        every: float = EVERY,
        clock: Callable[[], float] = time.monotonic,
    ) -> None:
        self._say, self._every, self._clock = say, every, clock
        self._said: dict[tuple[str, str], tuple[float, int]] = {}
        """When each was said last, and how often it came since."""

    def say(self, subject: str, sentence: str) -> None:
        """Says it, or counts it."""
        self.try_to_say(subject, sentence)

    def try_to_say(self, subject: str, sentence: str) -> bool:
        """As `say`: whether it was said."""
        kind, now = (subject, _NUMBER.sub("0", sentence)), self._clock()
        last, count = self._said.get(kind, (None, 0))
        if last is not None and now - last < self._every:
            self._said[kind] = last, count + 1
            return False
        more = f" ({count + 1} times in {now - last:.0f} s)" if last is not None and count else ""
        self._tell(kind, f"{sentence}{more}", now)
        return True

    def say_now(self, subject: str, sentence: str) -> None:
        """Says it in any case, as what has changed."""
        self._tell((subject, _NUMBER.sub("0", sentence)), sentence, self._clock())

    def _tell(self, kind: tuple[str, str], sentence: str, now: float) -> None:
        self._said.pop(kind, None)
        self._said[kind] = now, 0
        if len(self._said) > _MOST:
            del self._said[next(iter(self._said))]
        self._say(kind[0], sentence)


def sleep(seconds: float, stop: Callable[[], bool]) -> None:
    """Waits so long, and less where it is to stop."""
    deadline = time.monotonic() + seconds
    while (left := deadline - time.monotonic()) > 0 and not stop():
        time.sleep(min(left, _STEP))
