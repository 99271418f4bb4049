"""Whose turn it is to write a database. Turns keep writers from getting into each other's way, and no more: what is written is kept
whole by epochs, whoever has the turn.

    turn NAME         turn NAME same|other [kept]: the turn is this connection's, until `back` or the connection's end. `same`: the
                      turn before was its own, so that nobody has written since
                      elsewhere NAME: another keeper has the database
    turn NAME now     the same, or busy NAME: another has it, and nothing waits, but for what is said of `mine` and `heartbeat`
    turn NAME .. mine by who had the turn when its generation ended, maybe amid a transaction: at the begin of the next one it comes
                      before all others, who wait for it a little, also those that say `now`
    turn NAME .. heartbeat
                      by who answers each `wanted NAME` at once: with `hold` where its transaction runs, else with `back`. Where another
                      keeps the turn, and may not use it, `now` is told soon NAME, and the rest as soon as that is known
    turn NAME .. slices
                      by who writes one transaction after the other, and waits for none until it is durable. Where another has written since
                      its last turn it is told turn NAME other kept slice=MS, and may write for so long without a word
    back NAME         the turn is given back, or not waited for any more. There is no answer
    back NAME epoch=E the same of who has written in this epoch. The next one is told so: `turn NAME other epoch=E`. It may begin the next
                      epoch, and read what was written, by one message to the service, which refuses it where that is not so
    hold NAME         the turn is in use. There is no answer

Who has had many turns in a row may keep the last one and write on without a word. It is told `wanted NAME` once another asks, and gives
it back when its transaction ends; if it says nothing it does nothing, and the turn goes on after a grace.

Who has a `heartbeat` is told `wanted` each quarter of a ttl while others wait, whether it keeps the turn or not. Its transaction may take
as long as it likes; if nothing is heard of it for a ttl it is gone or stands still, and the turn goes on.
"""

from __future__ import annotations

import asyncio
import time
from collections import deque
from typing import TYPE_CHECKING, Callable, Iterable

from pagelog.keeper.lines import Key, Line

if TYPE_CHECKING:
    from pagelog.keeper.fast_turns import FastTurns
    from pagelog.referee.fate import Of

MANY = 16
"""Turns in a row that nobody else has asked for, after which the next one is kept."""
GRACE = 1.0
"""For how many seconds a turn that is kept, and was wanted back, is waited for in silence."""
TTL = 3.0
"""Where a keeper says no other."""
MOST_WAITING = 1_000
"""Connections of one principal that wait for the turn, or of all that have proved none: the next one is told `elsewhere`."""
BEATS = 4
"""Heartbeats in a ttl that are asked of who has the turn while others wait."""
SLICE = 0.01
"""For how many seconds a slice lasts. Then it is wanted back, whoever waits, since who has it may have nothing to write."""
EARLY = 1.0
"""For how many seconds after a generation has begun who had the turn in the one before is waited for, if it is not known that nobody had.
Meanwhile those who wait until a commit is durable bring the next generation what it lacks of them, and nobody writes in its place."""
MOST_EARLY = 4.0
"""For how many seconds at most, while some of them ask what became of the generation before."""
LATELY = 4
"""For how many ttls a turn that was given back counts as one that somebody has: a commit that it was for may not be durable yet, and it takes
a while until it is seen that a service stands still."""


class Turns:
    """Of one database, in one generation. These are the rules; the thread of the fast path has them too (fast_path_turns.c), and gives the
    turns wherever it can."""

    def __init__(
        self,
        name: str,
        generation: int,
        after: Callable[..., asyncio.TimerHandle] | None = None,
        *,
        was_idle: bool = False,
        ttl: float = TTL,
    ) -> None:
        """`was_idle`: nobody had the turn when the generation before ended."""
        self.name, self.generation, self._ttl = name, generation, ttl
        self._after = after or (lambda *what: asyncio.get_running_loop().call_later(*what))
        self._waiting: deque[Line] = deque()
        self._holder: Line | None = None
        self._last: Line | None = None
        self._given_back = float("-inf")
        """When a turn was given back last."""
        self._epoch: int | None = None
        """The epoch that was written in last, as who gave the turn back has said."""
        self._in_a_row = 0
        self._is_kept = False
        """The turn is kept, and may not be in use."""
        self._slice: asyncio.TimerHandle | None = None
        """The end of a slice that runs."""
        self._has_heartbeat = False
        self._unheard = 0
        """Heartbeats that were asked for since the last one."""
        self._grace: asyncio.TimerHandle | None = None
        self._hurried: set[Line] = set()
        """Of those who wait: who asked for the turn at once, and waits only while it is early, or while the turn may not be in use."""
        self._beating: set[Line] = set()
        """Who has a heartbeat."""
        self._slicing: set[Line] = set()
        """Who has one, and takes slices."""
        self._is_early = generation > 1 and not was_idle
        self._early: asyncio.TimerHandle | None = None
        """The end of that time."""
        self._latest = time.monotonic() + MOST_EARLY - EARLY
        if self._is_early:
            self._early = self._after(EARLY, self._begin)

    def __contains__(self, line: Line) -> bool:
        return line is self._holder or line in self._waiting

    def next(self, generation: int, *, is_whole: bool = False) -> Turns:
        """Ends the turns of this generation, and begins those of a later one, which this keeper has too. `is_whole`: it begins with all that
        was in the log of this one, so that nobody who gave a turn back has to bring anything."""
        is_awaited = not is_whole and time.monotonic() < self._given_back + LATELY * self._ttl
        is_used = self._holder is not None or is_awaited
        was_idle = generation == self.generation + 1 and not is_used and not self._is_early
        self.end()
        turns = Turns(self.name, generation, self._after, was_idle=was_idle, ttl=self._ttl)
        turns._given_back = self._given_back
        return turns

    def take(self, line: Line, words: list[str], epoch: int | None, of: Of | None = None) -> None:
        """Does what a line says. `epoch` is what it says of itself; of which run all is that it says, nobody asks here."""
        match words:
            case ["turn", _, *how]:
                self.ask(
                    line,
                    now="now" in how,
                    mine="mine" in how,
                    heartbeat="heartbeat" in how,
                    slices="slices" in how,
                )
            case ["back", _]:
                self.back(line, epoch)
            case ["hold", _]:
                self.hold(line)

    def ask(
        self,
        line: Line,
        *,
        now: bool,
        mine: bool = False,
        heartbeat: bool = False,
        slices: bool = False,
    ) -> None:
        """Gives the turn to who asks, at once or later."""
        (self._beating.add if heartbeat else self._beating.discard)(line)
        (self._slicing.add if heartbeat and slices else self._slicing.discard)(line)
        if line is self._holder:
            self._pass_on()  # it has lost count of it
        is_first = mine and self._is_early
        self._is_early = self._is_early and not mine
        if self._holder is None and not self._is_early and (is_first or not self._waiting):
            self._give(line)
            self._refuse_hurried()
            return
        self._in_a_row = 0
        is_soon = now and heartbeat and self._is_kept
        if now and not self._is_early and not is_soon:
            line.say("busy", self.name)
        elif self._has_many(line):
            line.say("elsewhere", self.name)
        else:
            self._wait(line, now)
        if is_soon:
            line.say("soon", self.name)
        self._want_back()

    def _has_many(self, line: Line) -> bool:
        """Whether as many wait as one principal may have wait, and all are its own."""
        return (
            len(self._waiting) >= MOST_WAITING
            and line not in self._waiting
            and (sum(each.asker == line.asker for each in self._waiting) >= MOST_WAITING)
        )

    def _wait(self, line: Line, now: bool) -> None:
        (self._hurried.add if now else self._hurried.discard)(line)
        if line not in self._waiting:
            self._waiting.append(line)

    def _refuse_hurried(self) -> None:
        """It is early no more, and the turn is in use: who asked for it at once, and has not been given it, waits no longer."""
        for line in self._hurried:
            self._waiting.remove(line)
            line.say("busy", self.name)
        self._hurried.clear()

    def _tell_hurried(self) -> None:
        """It is early no more, and another keeps the turn, and may not use it: who has asked for it at once hears that now."""
        for line in list(self._hurried):
            if line in self._beating:
                line.say("soon", self.name)
            else:
                self._waiting.remove(line)
                self._hurried.discard(line)
                line.say("busy", self.name)

    def back(self, line: Line, epoch: int | None = None) -> None:
        """Who has the turn gives it back; who waits for it waits no more."""
        if line in self._waiting:
            self._waiting.remove(line)
            self._hurried.discard(line)
        if line is self._holder:
            self._given_back = time.monotonic()
            self._epoch = self._epoch if epoch is None else epoch
            self._pass_on()

    def hold(self, line: Line) -> None:
        """The turn is in use: it is waited for, however long that takes."""
        if line is not self._holder:
            return
        self._is_kept, self._unheard = False, 0
        if not self._is_early:
            self._refuse_hurried()
        if not self._has_heartbeat or not self._waiting:
            self._stop_grace()

    def expect(self) -> None:
        """Somebody has asked what became of the generation before, and brings what that has not archived. It is early for so much longer."""
        if self._early is not None and self._is_early and time.monotonic() < self._latest:
            self._early.cancel()
            self._early = self._after(EARLY, self._begin)

    def gone(self, line: Line) -> None:
        """The connection is gone, and with it its turn."""
        self.back(line)
        self._beating.discard(line)
        self._slicing.discard(line)
        if line is self._last:
            self._last = None

    def end(self) -> None:
        """The generation is over, and so is each turn."""
        self._let_go()
        for line in self._waiting:
            line.say("elsewhere", self.name)
        self._waiting.clear()
        self._hurried.clear()
        self._beating.clear()
        self._slicing.clear()

    def _begin(self) -> None:
        """Who had the turn before has come by now, or had no transaction."""
        self._is_early = False
        self._next()
        self._tell_hurried()

    def _next(self) -> None:
        if self._is_early:
            return
        if self._holder is None and self._waiting:
            line = self._waiting.popleft()
            self._hurried.discard(line)
            self._give(line)
        if not self._is_kept:
            self._refuse_hurried()
        if self._waiting:
            self._want_back()

    def _give(self, line: Line) -> None:
        is_same = line is self._last
        self._in_a_row = self._in_a_row + 1 if is_same else 0
        self._holder = self._last = line
        has_slice = line in self._slicing and not is_same
        self._is_kept = has_slice or (self._in_a_row >= MANY and not self._waiting)
        self._has_heartbeat = line in self._beating
        if has_slice:
            self._slice = self._after(SLICE, self._end_slice)
        keys = [] if is_same or self._epoch is None else [Key(f"epoch={self._epoch}")]
        keys += [Key(f"slice={1000 * SLICE:.0f}")] if has_slice else []
        line.say(
            "turn",
            self.name,
            "same" if is_same else "other",
            *(["kept"] if self._is_kept else []),
            *keys,
        )

    def _end_slice(self) -> None:
        """Who has nothing to write gives the turn back, though nobody waits: it may be long until it is asked."""
        self._slice = None
        if self._holder is not None and not self._waiting:
            self._holder.say("wanted", self.name)
            return
        self._want_back()

    def _let_go(self) -> None:
        self._stop_grace()
        if self._slice is not None:
            self._slice.cancel()
        self._slice = None
        self._holder, self._is_kept, self._unheard = None, False, 0

    def _want_back(self) -> None:
        if self._holder is None or self._grace is not None or self._slice is not None:
            return
        if self._is_kept:
            self._holder.say("wanted", self.name)
        if self._has_heartbeat:
            self._await_heartbeat()
        elif self._is_kept:
            self._grace = self._after(GRACE, self._pass_on)

    def _await_heartbeat(self) -> None:
        self._unheard += 1
        self._grace = self._after(self._ttl / BEATS, self._beat)

    def _beat(self) -> None:
        """Asks who has the turn for a heartbeat, unless nothing was heard of it for a ttl: then it has the turn no more."""
        if self._holder is None or self._unheard >= BEATS:
            self._pass_on()
            return
        self._holder.say("wanted", self.name)
        self._await_heartbeat()

    def _pass_on(self) -> None:
        self._let_go()
        self._next()

    def _stop_grace(self) -> None:
        if self._grace is not None:
            self._grace.cancel()
        self._grace = None


class AllTurns:
    """Of the databases that a keeper holds."""

    def __init__(
        self,
        after: Callable[..., asyncio.TimerHandle] | None = None,
        *,
        ttl: float = TTL,
        fast: Callable[[str, int, float], FastTurns | None] = lambda *_: None,
        is_whole: Callable[[str], bool] = lambda _: False,
    ) -> None:
        """`fast` has the thread give those of a database from a generation on, with this ttl; None where it cannot. `is_whole` says whether
        the generation that is held began with all that was in the log of the one before."""
        self._after, self._ttl, self._fast, self._is_whole = after, ttl, fast, is_whole
        self._turns: dict[str, Turns | FastTurns] = {}

    def take(
        self,
        line: Line,
        words: list[str],
        generation: int | None,
        epoch: int | None = None,
        of: Of | None = None,
    ) -> None:
        """Does what a line asks. `generation` is the one that is held here, or None; `epoch` and `of` what it says of itself."""
        word, name = words[:2]
        turns = self.changed(name, generation)
        if turns is not None:
            turns.take(line, words, epoch, of)
        elif word == "turn":
            line.say("elsewhere", name)

    def changed(self, name: str, generation: int | None) -> Turns | FastTurns | None:
        """The turns of the generation that is held here, which begin as soon as it is known."""
        turns = self._turns.get(name)
        if generation is None:
            if turns is not None:
                self._turns.pop(name).end()
            return None
        if turns is None:
            turns = self._turns[name] = self._begun(name, generation)
        elif turns.generation != generation:
            turns = self._turns[name] = turns.next(generation, is_whole=self._is_whole(name))
        return turns

    def _begun(self, name: str, generation: int) -> Turns | FastTurns:
        fast = self._fast(name, generation, self._ttl)
        return fast if fast is not None else Turns(name, generation, self._after, ttl=self._ttl)

    def expect(self, name: str, generation: int) -> None:
        """In this generation, which is held here, somebody asks for what became of another."""
        turns = self.changed(name, generation)
        if turns is not None:
            turns.expect()

    def look(self, generation_of: Callable[[str], int | None], names: Iterable[str] = ()) -> None:
        """Ends the turns of generations that are over, and begins those of what has these names."""
        for name in {*self._turns, *names}:
            self.changed(name, generation_of(name))

    def __contains__(self, line: Line) -> bool:
        """Whether it has a turn, or waits for one."""
        return any(line in turns for turns in self._turns.values())

    def gone(self, line: Line) -> None:
        """A client is gone."""
        for turns in self._turns.values():
            turns.gone(line)
