"""Keeps the audit lists of the services that a keeper holds: with each batch of blocks the lines that speak of them, in its
statement; and what else there is beside, in a thread with a connection to PostgreSQL of its own."""

from __future__ import annotations

import asyncio
import time
from concurrent.futures import Executor, ThreadPoolExecutor
from typing import Any, Callable, TypeVar

from pagelog.archive.engine import engine_of
from pagelog.errors import AuditListFull
from pagelog.keeper.served import Served
from pagelog.libpq import plain_url
from pagelog.referee.fate import Of
from pagelog.referee.refusal import line_of
from pagelog.referee.rows import Lines
from pagelog.reply import Entry, encode_entry
from pagelog.request import AUDIT_MAX
from pagelog.run_tokens import KEEPER
from pagelog.trail.keeper import DAY, TrailKeeper, now
from pagelog.trail.store import OtherKeeper, Start, Trail, TrailList, piece_behind

FEW = 64
"""So many new lines are kept at once, and fewer after a while: each question is an entry of the list itself."""
_TTLS = 3
_PATIENCE = 1 / 8
"""For so much of a ttl blocks wait for lines that a thread has to see to."""
_IS_OF_THE_NAME = """
SELECT 1 FROM pagelog_generation g JOIN pagelog_log l ON l.id = g.log
WHERE l.name = %(name)s AND l.identity = %(database)s::uuid AND g.generation = %(generation)s AND g.run = %(run)s
"""
_STEPS = 4
"""How many questions one database asks before another has its turn."""


_Result = TypeVar("_Result")


class RecorderTurn:
    """Held from when lines are asked for until it is known whether they are kept, and by a thread until it has done."""

    def __init__(self, patience: float, freed: Callable[[], None] = lambda: None) -> None:
        """`freed` is called once it was left."""
        self._freed = freed
        self._lock = asyncio.Lock()
        self._patience = patience
        self._work: asyncio.Future[Any] | None = None
        self._is_late = False

    async def take(self) -> None:
        """Waits for it. It has to be left."""
        await self._lock.acquire()

    async def take_soon(self) -> bool:
        """Whether it was to be had soon. One that was not is not waited for again before it was left."""
        if self._is_late:
            return False
        try:
            async with asyncio.timeout(
                self._patience
            ):  # also where it is free: another may be before it
                await self._lock.acquire()
        except TimeoutError:
            self._is_late = True
        return not self._is_late

    @property
    def is_free(self) -> bool:
        """Whether nobody has it."""
        return not self._lock.locked()

    @property
    def is_at_work(self) -> bool:
        """Whether a thread has not done yet what it was given."""
        return self._work is not None and not self._work.done()

    def leave(self) -> None:
        """It is free, once a thread has done that was not waited for."""
        if not self.is_at_work:
            self._is_late = False
            self._lock.release()
            self._freed()
        elif self._work is not None:
            self._work.add_done_callback(lambda _: self.leave())

    async def spend(
        self, thread: Executor, work: Callable[[], _Result], *, is_short: bool = False
    ) -> _Result | None:
        """What this returns in the thread, in the caller's turn; None where it `is_short` and has not done soon."""
        made = asyncio.get_running_loop().run_in_executor(thread, work)
        self._work = made
        await asyncio.wait({made}, timeout=self._patience if is_short else None)
        return made.result() if made.done() else None


class Trails:
    """The trails of all databases of a keeper."""

    def __init__(self, url: str, days: int, ttl: float) -> None:
        """Lines are kept for so many days; a few new ones after three ttl."""
        self.ttl, self.while_few = ttl, _TTLS * ttl
        self.url, self.days = plain_url(url), days
        self.engine = engine_of(self.url)
        self.thread = ThreadPoolExecutor(1)

    def recorder(
        self,
        served: Served,
        of: Of,
        say: Callable[[str, str], None],
        freed: Callable[[], None],
        *,
        is_waited_for: bool,
    ) -> Recorder:
        """Of one run, which this keeper holds. `freed` is called where it may keep lines with blocks again."""
        return Recorder(self, served, of, say, freed, is_waited_for)

    def trail(self, name: str, of: Of) -> Trail:
        """That of a database."""
        return Trail(self.url, name, create=True, engine=self.engine, database=of.database)

    def close(self) -> None:
        """Ends the thread once it has done what it is at."""
        self.thread.shutdown(wait=False, cancel_futures=True)
        self.engine.close()


class Recorder:
    """The trail of one run. What it cannot do it says, and tries again later: no batch needs it to be kept, and the end of a run that is
    closed waits for it no longer than a ttl. Where it `is_waited_for` the first blocks wait for it too, and not long.
    """

    def __init__(
        self,
        trails: Trails,
        served: Served,
        of: Of,
        say: Callable[[str, str], None],
        freed: Callable[[], None] = lambda: None,
        is_waited_for: bool = False,
    ) -> None:
        self._trails, self._served, self._of, self._say = trails, served, of, say
        self._operator = served.operator()  # it connects once it asks
        self._due = asyncio.Event()
        self._due.set()
        self.turn = RecorderTurn(_PATIENCE * trails.ttl, freed)
        self._keeper: TrailKeeper | None = None
        self._kept, self._last, self._pruned = 0, float("-inf"), 0
        self._said = ""
        self._is_over = self._met_other = self._is_without = False
        self._wanted: Callable[[], None] | None = None
        """How the list is asked back from one who keeps its lines in place of this."""
        self._tried_first = asyncio.Event()
        self._waited_until = time.monotonic() + (_PATIENCE * trails.ttl if is_waited_for else 0)
        self.is_ready = False
        """Whether it has kept all that there was once: from then on lines are kept with the blocks."""

    def look(self, entries: int) -> None:
        """The list is known to have so many entries."""
        if self._wanted is not None:
            if now() // DAY != self._pruned:
                self._due.set()
                self._wanted()
        elif entries - self._kept > FEW or time.monotonic() - self._last >= self._trails.while_few:
            self._due.set()

    async def run(self) -> None:
        """Keeps what is new as often as `look` says, until the list is another keeper's, or full. A list that is begun ends the one before:
        where another keeper is about to end that, it has a ttl for it."""
        ends, was_said = time.monotonic() + self._trails.ttl, False
        while (
            self._served.is_after_release
            and time.monotonic() < ends
            and await self._call(self._is_open)
        ):
            if not was_said:
                self._say(
                    self._served.database,
                    "its audit list is kept once the one before has ended, or after a ttl",
                )
            was_said = True
            await asyncio.sleep(self._trails.ttl / 64)
        while not self._is_over:
            await self._due.wait()
            self._due.clear()
            await self.catch_up()
            self._tried_first.set()

    async def first_try(self) -> None:
        """Returns once it has kept what there was, or has tried to; where it is waited for, and no longer than that."""
        if not self._tried_first.is_set() and (left := self._waited_until - time.monotonic()) > 0:
            try:
                async with asyncio.timeout(left):
                    await self._tried_first.wait()
            except TimeoutError:
                self._tried_first.set()
                self._say_without()

    async def catch_up(self) -> bool:
        """Keeps all that the list has. False where that is not to be had now."""
        while not self._is_over:
            is_all = await self._call(self._keep)
            if is_all is not None:
                return is_all
        return False

    async def catch_up_soon(self) -> None:
        """A thread keeps what there is, as after a doubt, or where there are very many lines. Where it cannot, or that takes long, it is said:
        blocks wait for no trail. The turn is the caller's."""
        if not self._is_over:
            is_all = await self.turn.spend(self._trails.thread, self._keep, is_short=True)
            if is_all is None:
                self._due.set()
                self._say_without()

    @property
    def may_lend(self) -> bool:
        """Whether nobody has the list, and it is known how far it is."""
        return self.turn.is_free and self._known is not None

    @property
    def _known(self) -> TrailList | None:
        """The list, if it is known how far it is, and no thread is at it."""
        is_known = not (self._is_over or self._keeper is None or self.turn.is_at_work)
        return self._keeper.list if self._keeper is not None and is_known else None

    def last_lines(self) -> Lines | None:
        """The lines that come behind the kept ones, of a list that grows no more, to be kept with the blocks that they speak of: in a
        thread of the caller's, who has the turn. None where it cannot be done."""
        one = None if self._is_over or self._keeper is None else self._keeper.list
        if one is None:
            return None
        found: list[Entry] = []
        try:
            while len(found) % AUDIT_MAX == 0 and (
                more := self._operator.audit(one.kept + 1 + len(found))
            ):
                found += more
        except Exception as error:
            self._tell(error)
            return None
        return (
            Lines(*piece_behind(one, b"".join(map(encode_entry, found)), now())) if found else None
        )

    def settle(self, lines: Lines, *, is_kept: bool) -> None:
        """Whether these lines are kept is known; where it is not, the trail is asked next time. The turn is the caller's."""
        if self._keeper is not None:
            self._keeper.resume(lines.one if is_kept else None)
        self._kept = lines.one.kept if is_kept else 0
        self._is_without = self._is_without and not is_kept

    def lend(self, wanted: Callable[[], None]) -> TrailList | None:
        """The list, for one who keeps its lines with the blocks in place of this, until `take_back`; None where that cannot be. `wanted` is
        called once it is needed here, as once a day to prune. The turn is the caller's until then.
        """
        one = self._known
        self._wanted = None if one is None else wanted
        return one

    def take_back(self, one: TrailList | None) -> None:
        """The list as it is by now; where that is not known, the trail is asked next time."""
        self._wanted = None
        if self._keeper is not None:
            self._keeper.resume(one)
        self._kept = 0 if one is None else one.kept
        self._is_without = self._is_without and one is None

    async def end(self, why: str) -> None:
        """The list gets no more lines, for this reason."""
        await self._call(lambda: self._tried(lambda: self._opened().end(why)))
        self._is_over = True

    async def take_turn(self) -> bool:
        """Whether it is the caller's turn, who has to leave it; where that does not come soon it is said."""
        is_had = await self.turn.take_soon()
        if not is_had:
            self._say_without()
        return is_had

    def _say_without(self) -> None:
        if not self._is_without:
            self._say(
                self._served.database,
                "blocks are archived without their lines: its audit list is not kept yet",
            )
        self._is_without = True

    async def _call(self, work: Callable[[], bool | None]) -> bool | None:
        if self._wanted is not None:
            self._wanted()
        await self.turn.take()
        try:
            return await self.turn.spend(self._trails.thread, work)
        finally:
            self.turn.leave()

    # In the thread.

    def _keep(self) -> bool | None:
        """Some steps. Returns whether all is kept, or None where there may be more."""
        self._last, lines = time.monotonic(), AUDIT_MAX

        def steps() -> None:
            nonlocal lines
            keeper = self._opened()
            for _ in range(_STEPS):
                lines = keeper.step().lines
                self._kept = keeper.list.kept if keeper.list is not None else 0
                if lines < AUDIT_MAX:
                    return self._prune(keeper)

        is_done = self._tried(steps)
        self.is_ready = self.is_ready or (is_done and lines < AUDIT_MAX)
        return is_done and (lines < AUDIT_MAX or None)

    def _is_open(self) -> bool:
        """Whether the list before has not ended."""
        lists: list[TrailList] = []
        self._tried(
            lambda: lists.extend(self._trails.trail(self._served.database, self._of).lists())
        )
        return any(one.ended is None for one in lists)

    def _tried(self, work: Callable[[], None]) -> bool:
        """Whether it was done. What went wrong is said once."""
        try:
            work()
            self._said, self._met_other = "", False
            return True
        except Exception as error:  # whatever it is: blocks wait for no trail
            is_other = isinstance(
                error, OtherKeeper
            )  # or it was this one, by a statement in doubt that came late
            self._is_over = isinstance(error, AuditListFull) or (is_other and self._met_other)
            self._met_other = is_other
            self._tell(error)
            if self._keeper is not None:
                self._keeper.resume()
        return False

    def _tell(self, error: Exception) -> None:
        sentence = f"its audit list was not kept: {line_of(error)}"
        if sentence != self._said:
            self._say(self._served.database, sentence)
        self._said = sentence

    def _opened(self) -> TrailKeeper:
        if self._keeper is None:
            served = self._served
            trail, tables = self._trails.trail(served.database, self._of), served.texts()
            self._keeper = TrailKeeper(
                self._operator,
                trail,
                generation=served.generation,
                of=str(self._of),
                start=Start(tables[0], KEEPER),
                tables=tables,
            )
        if self._keeper.list is None:
            self._check_name()
        return self._keeper

    def _check_name(self) -> None:
        """No list is begun of a run that PostgreSQL does not know, or under a name that is another database's by now. Raises `OtherKeeper`."""
        served = self._served
        known = {
            "name": served.database,
            "database": self._of.database,
            "generation": served.generation,
            "run": served.run,
        }
        if not self._trails.engine.rows(_IS_OF_THE_NAME, **known):
            raise OtherKeeper(
                f"generation {served.generation} of {served.database} is not that of run {served.run}"
            )

    def _prune(self, keeper: TrailKeeper) -> None:
        today = now() // DAY
        if today != self._pruned:
            keeper.trail.prune((today - self._trails.days + 1) * DAY)
            self._pruned = today
