"""Archives what a service hardens, while it is held: by the fast path, which this begins, and sees to what that leaves to it."""

from __future__ import annotations

import asyncio
import time
from contextlib import asynccontextmanager
from dataclasses import dataclass
from typing import TYPE_CHECKING, AsyncIterator, Callable, Literal, Sequence

from pagelog.errors import AuditListFull, PagelogError, TurnsSpent
from pagelog.keeper.doubts import Doubts, Fenced
from pagelog.keeper.fast_path import End, FastPath
from pagelog.keeper.fast_plane import FastPlane
from pagelog.keeper.lines import Line
from pagelog.keeper.served import Served
from pagelog.keeper.waits import Waits
from pagelog.referee.referee import digest
from pagelog.referee.rows import Batch, Kept, Lines, Row
from pagelog.repeating import Backoff

if TYPE_CHECKING:
    from pagelog.keeper.recorder import Recorder
    from pagelog.trail.store import TrailList

_LONGEST = 5.0
"""Seconds after which it is tried again in any case: PostgreSQL may have room again."""


@dataclass(frozen=True)
class _Waited:
    """Those who waited here before a ring, which has this number."""

    number: int
    waits: dict[Line, list[int]]


class RunArchiver:
    """Of one run. The line `durable` is its doorbell: it polls nothing.

    `changed` is called where there is something to decide. What is archived is told to those who wait once it is committed.
    """

    def __init__(
        self,
        row: Row,
        served: Served,
        waits: Waits,
        doubts: Doubts,
        say: Callable[[str, str], None],
        changed: Callable[[], None],
        ways: FastPlane,
    ) -> None:
        self._row, self._served, self._waits, self._doubts = row, served, waits, doubts
        waits.confirmations.watch = self._watch
        self._say, self._changed = say, changed
        self._doorbell, self._advanced, self._heard = (
            asyncio.Event(),
            asyncio.Event(),
            asyncio.Event(),
        )
        self.turn = Turn(self._end_way)
        """Held from the first pull of the fast path until it is known what became of its last batch."""
        self._ways = ways
        self._way: FastPath | None = None
        self._rings = self._done = 0
        """How often it was rung, and the last of these rings since which a pull was archived, or has found nothing."""
        self._waited: list[_Waited] = []
        """Those whose lines the fast path has not, since the rings that are not done."""
        self._is_careful = False
        """Whether the last try has failed: the next one is of one block."""
        self._before: FastPath | None = None
        """One whose last batch was not kept: it is tried again, and the service is asked for nothing."""
        self._pauses, self._not_before = Backoff(0.05, _LONGEST), 0.0
        """How long it waits after a try that failed, and until when."""
        self._was_full = served.health.is_full
        self.recorder: Recorder | None = None
        """Who keeps the lines of its audit list, if they are kept."""
        self._is_suspect = False
        """Whether PostgreSQL may have gone back, which is looked up next."""
        self.is_over = False
        self.is_stuck = False
        """Whether it has ended for good: the archive has something else than the service."""

    @property
    def lining(self) -> Recorder | None:
        """The recorder, once it keeps lines with the blocks."""
        return self.recorder if self.recorder is not None and self.recorder.is_ready else None

    @property
    def may_begin_again(self) -> bool:
        """Whether it has ended, and another may be begun: it was told that it is fenced, and a look shows that it is not."""
        return self.is_over and not self.is_stuck

    @property
    def is_quick(self) -> bool:
        """Whether the fast path has it now."""
        return self._way is not None

    def ring(self) -> None:
        """There is something to archive, or somebody who waits."""
        self._rings += 1
        self._doorbell.set()
        if self._way is not None:
            self._ask(self._way)

    def _ask(self, way: FastPath) -> None:
        """Has it look for new blocks, and lends it the lines of those who wait."""
        way.take(self._waits)
        if len(self._waits):
            self._waited.append(_Waited(self._rings, self._waits.now()))
        way.kick(self._rings)

    def stir(self) -> None:
        """Wakes who waits in `reached`, to look again."""
        self._advanced.set()
        self._heard.set()

    async def reached(self, end: int) -> bool:
        """Returns once all up to `end` is archived; False where it never will be, or the service hangs."""
        self.refresh()
        while self._served.reached < end:
            if not self._goes_on:
                return False  # also where it was so before: nobody would wake this any more
            self._advanced.clear()
            self.ring()
            await self._advanced.wait()
        return True

    async def caught_up(self) -> bool:
        """Returns once that is archived which was hardened when it was called, or 1,024 blocks of it; False as of `reached`."""
        self.ring()
        number = self._rings
        while self._done < number:
            if not self._goes_on:
                return False
            self._heard.clear()
            await self._heard.wait()
        return True

    @property
    def _goes_on(self) -> bool:
        return not self.is_over and self._served.is_alive and not self._served.hangs

    async def run(self) -> None:
        """Goes on until the run holds the database no more, or its service is of no use."""
        try:
            await self._run()
        finally:
            self.is_over = True
            self._forget()
            self.stir()
        self._changed()

    async def _run(self) -> None:
        self.ring()
        while True:
            await self._doorbell.wait()
            if (left := self._not_before - time.monotonic()) > 0:
                await asyncio.sleep(left)  # whoever rings meanwhile
            if self.recorder is not None:
                await self.recorder.first_try()
            async with self.turn:
                if not self.turn.is_wanted and not await self._gone_on():
                    return

    async def _gone_on(self) -> bool:
        """Finds out what is suspected, or archives by the fast path until that ends. False where nothing more can be. The turn is the caller's."""
        if not self._is_suspect:
            return await self._archived()
        self._is_suspect = False
        return await self._looked_up("")

    async def _archived(self) -> bool:
        """Archives by the fast path until that ends. False where nothing more can be. The turn is the caller's."""
        self._doorbell.clear()
        async with turn_of(self.lining if self._ways.keeps_lines else None) as recorder:
            lines = None if recorder is None else await self._lent(recorder)
            if recorder is not None and lines is not None:
                return await self._archived_with(recorder, lines)
        way, end = await self._went(None)  # whoever has the list meanwhile
        return await self._ended(way, end)

    async def _archived_with(self, recorder: Recorder, lines: TrailList) -> bool:
        """As `_archived`, with lines. The recorder's turn is the caller's too."""
        found: TrailList | None = None
        try:
            way, end = await self._went(lines)
            found = lines if way is None else way.lines
        finally:  # before a thread asks how far the list is
            recorder.take_back(found)
        if end is End.LINES:
            await recorder.catch_up_soon()
        return await self._ended(way, end)

    async def _lent(self, recorder: Recorder) -> TrailList | None:
        """The list, with whose lines the blocks are kept. A thread finds out how far it is where that is not known."""
        lines = recorder.lend(self._end_way)
        if lines is None:
            await recorder.catch_up_soon()
            lines = recorder.lend(self._end_way)
        return lines

    def line_up(self) -> None:
        """The recorder may keep lines with the blocks from now on: what goes without them ends, and the next one has them."""
        may = self.lining is not None and self.lining.may_lend
        if self._way is not None and self._way.lines is None and may:
            self._end_way()

    async def _went(self, lines: TrailList | None) -> tuple[FastPath | None, End]:
        """Begins the fast path, and returns once it has ended."""
        way = await self._ways.way_of(
            self._row,
            self._served,
            self._hear_way,
            lines,
            is_careful=self._is_careful,
            before=self._before,
        )
        if way is None:
            return None, End.SERVICE
        self._forget()
        self._way = way
        way.is_unlined = self.lining is not None and not self._ways.keeps_lines
        way.watch(len(self._waits.confirmations) > 0)
        self._ask(way)
        if self.turn.is_wanted:
            way.stop()
        self.line_up()
        before = self._served.reached
        try:
            end = await way.run()
        finally:
            self._way = None
            self._waited.clear()
        self._take(way)
        done, _ = way.done
        if self._served.reached > before or done > self._done:
            self._is_careful = False
            self._pauses.reset()
        self._done = max(self._done, done)
        self._heard.set()
        return way, end

    def _forget(self) -> None:
        """What PostgreSQL has not kept is not tried again as it was."""
        if self._before is not None:
            self._before.drop()
        self._before = None

    async def _ended(self, way: FastPath | None, end: End) -> bool:
        """Sees to what the fast path has left. False where the run holds the database no more, or the service is of no use."""
        is_asked = self._done < self._rings or len(self._waits) > 0
        if is_asked or self._served.hard > self._served.reached or end is End.STOPPED:
            self._doorbell.set()  # also for a client's ring, which the fast path alone has heard
        else:
            self._doorbell.clear()
        match end:
            case End.DOUBT | End.NOT_KEPT if way is not None:
                self._before = way
                return await self._looked_up(way.why)
            case End.SERVICE if self._doorbell.is_set():
                return await self._asked_why()
            case End.NO_MEMORY:
                self._try_again()
            case End.LINES:
                self.ring()
        return True

    async def _asked_why(self) -> bool:
        """The fast path has not got from the service what it has asked for: why, that is found out beside it. False where it is of no use."""
        try:
            await asyncio.to_thread(self._served.ask_for_more)
        except (AuditListFull, TurnsSpent):
            self._served.fail()
            return False
        except PagelogError as error:
            self._say(self._row.name, f"a pull failed: {error}")
        if (
            self._served.health.is_full and not self._was_full
        ):  # another follows it, as where it had none for a writer
            self._was_full = True
            self._changed()
        self._try_again()
        return True

    def _try_again(self) -> None:
        """Carefully, and not at once."""
        self._is_careful = True
        self._not_before = time.monotonic() + self._pauses.next()
        self.ring()

    async def _looked_up(self, why: str) -> bool:
        """Finds out what became of a batch. False where the run holds the database no more, or the archive has something else."""
        before = self._served.reached
        if why:
            self._doubts.say(f"PostgreSQL: {why}")
        try:
            kept = await self._doubts.look_up(self._row.id, self._served.run)
        except Fenced:
            return False  # the next look shows by whom
        goes_on = await self._entered(kept)
        if goes_on and self._served.reached == before:
            self._try_again()
        else:
            self._forget()
            self._pauses.reset()
        return goes_on

    async def _entered(self, kept: Kept) -> bool:
        """Takes what is archived of the run. False where the archive has something else."""
        served = self._served
        try:
            is_known = (kept.archived, kept.chain) == (served.reached, served.chain)
            # Else it is the batch, or one that a previous instance of this keeper had sent has come late, or PostgreSQL went back.
            has = is_known or await asyncio.to_thread(served.has, kept.archived, kept.chain)
        except PagelogError:
            self.ring()
            return True  # the next pull shows why
        if not has:
            self._say(
                self._row.name,
                f"the archive went back, to position {kept.archived}, and has other blocks there: the service is quarantined",
            )
            self.is_stuck = True
            served.be_lacked(True)
            served.be_apart(True)
            return False
        if kept.archived < served.reached:
            self._say(
                self._row.name,
                f"the archive went back, to position {kept.archived}: what the service has after it is archived again",
            )
        served.reach(kept.archived, kept.chain)
        self._tell()
        if served.hard > served.reached or len(self._waits):
            self.ring()
        return True

    def _tell(self) -> None:
        """Tells those who wait here how far all is archived."""
        served = self._served
        self._advanced.set()
        self._waits.tell(served.generation, served.reached)
        self._waits.confirmations.tell(served.reached, served.chain)

    # What the fast path says.

    def _watch(self, is_watched: bool) -> None:
        """Whether somebody waits for what is archived, whatever that is."""
        if self._way is not None:
            self._way.watch(is_watched)

    def suspect(self) -> None:
        """A look has shown less of the run than one before: what PostgreSQL has is looked up, though nobody writes."""
        self._is_suspect = True
        self._doorbell.set()
        self._end_way()

    def leave_way(self) -> None:
        """It ends, and begins again with what is known by then."""
        self._end_way()

    def _end_way(self) -> None:
        """Somebody else wants the turn."""
        if self._way is not None:
            self._way.stop()

    def _hear_way(self) -> None:
        """There is news of it: rings are done."""
        if self._way is None:
            return
        self._take(self._way)
        self._done, nothing_since = self._way.done
        served, waited = self._served, self._waited
        self._waited = [each for each in waited if each.number > self._done]
        for each in waited:
            if each.number <= nothing_since:
                self._waits.tell_above(each.waits, served.generation, served.reached)
        self._heard.set()
        if len(self._waits) and not self._waited:
            self.ring()

    def refresh(self) -> None:
        """How far the fast path has come is known from now on."""
        if self._way is not None:
            self._take(self._way)

    def _take(self, way: FastPath) -> None:
        served = self._served
        reached, chain = way.reached
        if reached > served.reached:
            served.reach(reached, chain)
            self._tell()

    # The end of the run's log.

    async def rest(self, end: int, recorder: Recorder | None) -> Batch | None:
        """What is not archived of a log that ends there; None where that is much, or cannot be pulled. Both turns are the caller's."""
        served = self._served
        try:
            blocks = (
                await asyncio.to_thread(served.pulled, served.reached)
                if served.reached < end
                else []
            )
        except PagelogError:
            return None
        if served.reached + len(blocks) != end:
            return None
        lines = (
            await asyncio.to_thread(recorder.last_lines)
            if blocks and recorder is not None
            else None
        )
        return self._batch_of(blocks, lines)

    def _batch_of(self, blocks: Sequence[bytes], lines: Lines | None) -> Batch:
        served = self._served
        return Batch(
            self._row.id,
            served.run,
            served.generation,
            served.reached,
            digest(served.chain, blocks),
            tuple(blocks),
            lines,
        )

    def settle(self, lines: Lines | None, *, is_kept: bool) -> None:
        """Whether lines are kept that a statement had with their blocks is known."""
        if lines is not None and self.recorder is not None:
            self.recorder.settle(lines, is_kept=is_kept)


class Turn(asyncio.Lock):
    """A lock whose holder is told that another waits for it."""

    def __init__(self, wanted: Callable[[], None]) -> None:
        super().__init__()
        self._wanted = wanted
        self._waiting = 0

    @property
    def is_wanted(self) -> bool:
        """Whether another waits for it."""
        return self._waiting > 0

    async def acquire(self) -> Literal[True]:
        """As of any lock."""
        self._waiting += 1
        try:
            if self.locked():
                self._wanted()
            return await super().acquire()
        finally:
            self._waiting -= 1


@asynccontextmanager
async def turn_of(recorder: Recorder | None) -> AsyncIterator[Recorder | None]:
    """The recorder, from when lines are asked for until it is known whether they are kept; None where there is none, or where its turn
    does not come soon."""
    if recorder is None or not await recorder.take_turn():
        yield None
        return
    try:
        yield recorder
    finally:
        recorder.turn.leave()
