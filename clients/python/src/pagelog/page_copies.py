"""The page servers of a named database, as one reader asks them: the nearest first, another one beside it once that is silent."""

from __future__ import annotations

import os
import select
import time
from enum import Enum
from typing import Callable, Sequence, Union

from pagelog.block import Block
from pagelog.credentials import Credentials
from pagelog.errors import PagelogError
from pagelog.page_line import PageLine
from pagelog.page_tail import Tail
from pagelog.place import Keepers, PageServerPlace
from pagelog.reply import Blocks, Denied, Page, Reply, State
from pagelog.request import Act, Get, Pull
from pagelog.rules import Section
from pagelog.secure import Trust

_SILENCE = 0.02
"""Seconds without a byte after which another one is asked, too."""
_LAST_SILENCE = 0.1
"""The same, where all were asked: then nobody is waited for."""
_MOST = 1.0
"""Seconds of a question in all."""
_EACH = 1.0
"""Seconds for which it is not asked again which there are."""
_BEHIND = 0.005, 0.2
"""Seconds for which one that has too little is not asked, the first and the longest: twice as long each time."""
_LEFT_OUT = 0.1, 5.0
"""The same of one that has not answered, was silent, or has another history."""
_AT_ONCE = 64
"""Pages of one question."""


class CopyVerdict(Enum):
    """What an answer is worth."""

    RIGHT = 0
    AGAIN = 1
    """It has said how far it is, and can be asked by that."""
    BEHIND = 2
    """It lags, or keeps no more from so far back."""
    WRONG = 3


def _of_denial(reply: Reply) -> CopyVerdict:
    is_out_of_range = isinstance(reply, Denied) and reply.section is Section.C
    return CopyVerdict.BEHIND if is_out_of_range else CopyVerdict.WRONG


class EndQuestion:
    """How far it is: no less than `least`."""

    def __init__(self, least: int) -> None:
        self._least = least
        self.found = 0

    def acts(self, line: PageLine) -> list[Act]:
        """What one is asked for, behind the status."""
        return []

    def judge(self, line: PageLine, replies: Sequence[Reply]) -> CopyVerdict:
        """What an answer is worth. `found` is it, where it is right."""
        self.found = line.position
        return CopyVerdict.RIGHT if line.position >= self._least else CopyVerdict.BEHIND


class PagesQuestion:
    """Pages at a position.

    A page server is believed where its block at a position that is asked for is the very one of the run that is read: so is all
    before. What comes after is laid over. Where there is no such block, up to what is `durable`, as keepers say; that is 0 where none is
    believed for it. With no `tail` all are believed.
    """

    def __init__(
        self, numbers: Sequence[int], position: int, tail: Tail | None, durable: int
    ) -> None:
        self._numbers, self._position, self._tail, self._durable = numbers, position, tail, durable
        self.found: list[Page] = []

    def acts(self, line: PageLine) -> list[Act]:
        """What one is asked for, behind the status: nothing where it is to say first how far it is."""
        line.asked = base, proof = self._plan(line)
        gets: list[Act] = (
            [Get(number, base) for number in self._numbers] if base is not None else []
        )
        return gets if proof is None else [Pull(proof.lsn, 1), *gets]

    def _plan(self, line: PageLine) -> tuple[int | None, Block | None]:
        """The position at which pages are asked for, and the block that is compared; None for none."""
        if self._tail is None or self._position <= max(line.proved, self._durable):
            return self._position, None
        block = self._tail.until(line.position)
        if block is None or block.lsn < self._position > self._tail.last:
            return None, None
        return min(self._position, block.lsn), block if block.lsn > line.proved else None

    def judge(self, line: PageLine, replies: Sequence[Reply]) -> CopyVerdict:
        """As of another question."""
        base, proof = line.asked
        if base is None:
            return CopyVerdict.BEHIND if self._plan(line)[0] is None else CopyVerdict.AGAIN
        pages = replies
        if proof is not None:
            if not isinstance(replies[0], Blocks):
                return _of_denial(replies[0])
            if replies[0].blocks != (proof,):
                return CopyVerdict.WRONG
            pages, line.proved = replies[1:], proof.lsn
        found = [reply.data for reply in pages if isinstance(reply, Page) and reply.at == base]
        if len(found) < len(pages):
            return _of_denial(
                next(reply for reply in pages if not isinstance(reply, Page) or reply.at != base)
            )
        self.found = (self._tail or Tail()).laid(self._numbers, found, base, self._position)
        return CopyVerdict.RIGHT


Question = Union[EndQuestion, PagesQuestion]


class _Round:
    """One question, put to some one after the other until one has answered right."""

    def __init__(self, question: Question, lines: Sequence[PageLine]) -> None:
        self._question = question
        self._heard = now = time.monotonic()
        self._left = sorted(
            lines, key=lambda line: line.usual_of_late(now)
        )  # one whose time is not known is asked once
        self._asked: list[PageLine] = []

    def run(self) -> bool:
        """Whether one has."""
        ends = time.monotonic() + _MOST
        try:
            while (now := time.monotonic()) < ends:
                is_any = any(line.is_asked for line in self._asked)
                end = self._heard + (_SILENCE if self._left else _LAST_SILENCE)
                if not is_any or now >= end:
                    if self._ask_next():
                        end = self._heard + _SILENCE
                    elif not is_any or now >= end:
                        return False
                if self._wait(end - now):
                    return True
            return False
        finally:
            for line in self._asked:
                if line.is_asked:  # it was too slow, and nothing is left of the question
                    _leave_out(line)

    def _ask_next(self) -> bool:
        while self._left:
            line = self._left.pop(0)
            self._asked.append(line)
            if self._ask(line):
                return True
        return False

    def _ask(self, line: PageLine) -> bool:
        try:
            line.open()
        except (OSError, UnicodeError):
            _leave_out(line)
            return False
        line.ask(self._question.acts(line))
        self._heard = time.monotonic()
        return True

    def _wait(self, seconds: float) -> bool:
        """Waits for so long at most. Returns whether one has answered right."""
        poll, lines = select.poll(), {}
        for line in self._asked:
            if line.is_asked:
                poll.register(line, line.events)
                lines[line.fileno()] = line
        if not lines:
            return False
        for descriptor, _ in poll.poll(1000 * max(0.0, seconds)):
            if self._go_on(lines[descriptor]):
                return True
        return False

    def _go_on(self, line: PageLine) -> bool:
        try:
            line.go_on()
        except (OSError, PagelogError):
            _leave_out(line)
            return False
        if line.is_heard:
            self._heard = time.monotonic()
        if (replies := line.replies) is None:
            return False
        verdict = self._judge(line, replies)
        line.leave()
        if verdict is CopyVerdict.AGAIN and self._ask(line):
            return False
        if verdict is CopyVerdict.RIGHT:
            line.pause = 0.0
        elif verdict is CopyVerdict.BEHIND:
            _pass_over(line, *_BEHIND)
        elif verdict is CopyVerdict.WRONG:
            _leave_out(line)
        return verdict is CopyVerdict.RIGHT

    def _judge(self, line: PageLine, replies: Sequence[Reply]) -> CopyVerdict:
        status = replies[0]
        if not isinstance(status, State):
            return CopyVerdict.WRONG
        line.position = status.hard
        return self._question.judge(line, replies[1:])


def _pass_over(line: PageLine, least: float, most: float) -> None:
    """Does not ask it for a while, longer each time."""
    line.pause = min(most, max(least, 2 * line.pause))
    line.free = time.monotonic() + line.pause


def _leave_out(line: PageLine) -> None:
    line.close()
    line.leave()
    _pass_over(line, *_LEFT_OUT)


class PageCopies:
    """Not for several threads at once."""

    def __init__(
        self,
        keepers: Keepers,
        credentials: Callable[[str], Credentials],
        trust: Trust | None = None,
        *,
        is_alone: bool = False,
    ) -> None:
        """`credentials` are those in a run. With `trust` all of them are reached by TLS. Where they are alone, and no service is asked for
        what they do not answer, one that has failed is asked all the same."""
        self._keepers, self._credentials, self._trust = keepers, credentials, trust
        self._is_alone = is_alone
        self._lines: dict[str, PageLine] = {}
        self._asked = float("-inf")
        self._process = os.getpid()
        self.asked_of = 0
        """How often a page server has answered."""

    def close(self) -> None:
        """Closes all connections."""
        for line in self._lines.values():
            line.close()

    def doubt(self) -> None:
        """Another run is read from now on: what was proved is so no more."""
        for line in self._lines.values():
            line.proved = 0

    def pages(
        self, numbers: Sequence[int], position: int, tail: Tail | None = None, durable: int = 0
    ) -> list[Page] | None:
        """Pages at a position; None where no page server has it and answers soon. As `PagesQuestion`."""
        found: list[Page] = []
        for first in range(0, len(numbers), _AT_ONCE):
            question = PagesQuestion(numbers[first : first + _AT_ONCE], position, tail, durable)
            if not self._ask(question, lambda place: place.oldest <= position):
                return None
            found += question.found
        return found

    def end(self, least: int = 0) -> int | None:
        """Up to which position one can be read; None where none answers that has `least`. Keepers are asked each second which are alive: one
        that hears nothing of PostgreSQL any more goes on answering what it has."""
        self._ask_again()
        question = EndQuestion(least)
        return question.found if self._ask(question, lambda place: True) else None

    def oldest(self) -> int | None:
        """The oldest position that any of them has, as keepers said last; None where there is none."""
        return min((line.place.oldest for line in self._lines.values()), default=None)

    def _ask(self, question: Question, suits: Callable[[PageServerPlace], bool]) -> bool:
        """Whether one has answered, of those that are known, or else of those that keepers tell now."""
        if os.getpid() != self._process:
            self.close()  # a child that a fork made would read replies to its parent
            self._process = os.getpid()
        is_done = self._round(question, suits) or (
            self._ask_again() and self._round(question, suits)
        )
        self.asked_of += is_done
        return is_done

    def _round(self, question: Question, suits: Callable[[PageServerPlace], bool]) -> bool:
        now = time.monotonic()
        wanted = [line for line in self._lines.values() if suits(line.place)]
        sound = [line for line in wanted if line.free <= now]
        return _Round(question, sound or (wanted if self._is_alone else [])).run()

    def _ask_again(self) -> bool:
        """Asks keepers which there are, if that was not done just now. Where none answers those that are known stay."""
        if time.monotonic() - self._asked < _EACH:
            return False
        self._asked = time.monotonic()
        if (told := self._keepers.page_servers()) is None:
            return False
        for key in self._lines.keys() - {place.run for place in told}:
            self._lines.pop(key).close()
        for place in told:
            known = self._lines.get(place.run)
            if known is not None and known.place.address == place.address:
                known.place = place
                continue
            if known is not None:
                known.close()
            self._lines[place.run] = PageLine(place, self._credentials(place.run), self._trust)
        return True
