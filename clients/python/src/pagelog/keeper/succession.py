"""The next generation of a database, which its holder makes beside the present one: from images, and then the blocks after them.

What fails before the fence costs nothing. What fails between the fence and the switch opens the present generation again where its
service lives, and else is a takeover. What comes after the switch is the next generation's.
"""

from __future__ import annotations

import asyncio
import time
from dataclasses import replace
from functools import partial
from typing import TYPE_CHECKING, Callable, Sequence, TypeVar

from pagelog.errors import OutOfMemory, PagelogError
from pagelog.keeper.archiver import RunArchiver, turn_of
from pagelog.keeper.basing import SMALL, BaseWish, made_of
from pagelog.keeper.loading import Loader
from pagelog.keeper.machine import Stage
from pagelog.keeper.run import new_run
from pagelog.keeper.served import Served, seconds
from pagelog.keeper.shared import LONGEST_REST
from pagelog.keeper.switch import Switch, begun, may_begin, number, rehearse, succeed
from pagelog.referee.referee import Away, BrokenArchive, Doubt, Referee, Refused, digest
from pagelog.referee.rows import Row
from pagelog.repeating import Backoff

if TYPE_CHECKING:
    from pagelog.keeper.database import Database
    from pagelog.keeper.recorder import Recorder

Result = TypeVar("Result")
HURRY_AT = 0.65
"""The share of the audit list, or of the memory, from which on the next generation waits for nothing."""
NEAR = 256
"""How many archived blocks the next service may lack when the present one is closed."""
_LITTLE, _ROUNDS = 64, 4
"""Blocks that the switch may well archive by itself, and how often it is tried that there are no more."""
MANY = 1 << 16
"""Blocks after a base from which on a newer one is made in any case; more where the base has more than half as many pages."""


class Succession:
    """Of one database, while this keeper holds it."""

    def __init__(self, database: Database) -> None:
        self._database, self._shared = database, database.shared
        self._successor: Served | None = None
        self._stage, self._failed_at, self._rest = Stage.NONE, 0.0, 0.0
        ttl = database.shared.settings.ttl
        self._rests = Backoff(ttl, max(LONGEST_REST, ttl))
        self._task: asyncio.Task[None] | None = None
        self._basing: asyncio.Task[None] | None = None
        self._referee: Referee | None = None
        """A connection of its own: nobody waits for another's statement while the database stands still."""
        self._number = 0
        """Of the next generation: given once, before anything is made for it."""
        self._has_turn, self._base_turn = False, asyncio.Lock()
        self.base = self._pages = self._tried = 0
        """The newest base of the archive as far as it is known here, how many pages it has, and where one was tried last."""

    @property
    def stage(self) -> Stage:
        """How far the next service is. A failure is forgotten after a ttl, and later where it comes again."""
        if self._stage is Stage.FAILED and seconds() - self._failed_at >= self._rest:
            self._stage = Stage.NONE
        return self._stage

    # The base.

    def tend(self) -> None:
        """Makes a base where there are many blocks after the last one: each takeover has to load them."""
        if self._stage is Stage.NONE and self._lacks_base and not self._is_basing:
            served, name = self._database.own, self._database.row.name
            self._basing = self._shared.spawn(self._tended(served), name)

    @property
    def is_tended(self) -> bool:
        """Whether a base is neither made nor wanted."""
        return not self._is_basing and not self._lacks_base

    @property
    def _is_basing(self) -> bool:
        return self._basing is not None and not self._basing.done()

    @property
    def _lacks_base(self) -> bool:
        """Whether there are many blocks after the last one, or after those of which one was tried."""
        store, served = self._shared.settings.store, self._database.own
        few = self._few(MANY * (1 if store is None else store.bases))
        many = max(few, few // MANY * 2 * self._pages)
        return served.reached - max(self.base, served.images, self._tried) >= many

    async def _tended(self, served: Served) -> None:
        try:
            async with self._base_turn:
                await self._make_base(served)
        except PagelogError as error:
            self._say_again(str(error))
            await asyncio.sleep(self._rests.next())

    def _few(self, blocks: int) -> int:
        """So many blocks, or what a short audit list has room for."""
        return min(blocks, self._shared.settings.program.audit // 16)

    async def _make_base(self, served: Served) -> None:
        settings, row, began = self._shared.settings, self._database.row, seconds()
        self._tried = served.reached
        wish = BaseWish(
            settings.url, row.id, served.reached, served.chain.hex(), settings.keep, settings.store
        )
        made = await made_of(wish, served.reached - max(self.base, served.images))
        self.base, self._pages = made.position, made.pages
        pruned = f", and {made.pruned} blocks were pruned" if made.pruned else ""
        self._say(
            f"a base of {made.pages} pages was made at position {made.position} in {seconds() - began:.1f} s{pruned}"
        )

    # Before the fence.

    def prepare(self) -> None:
        """Begins to make the next service, beside all else."""
        self._stage = Stage.MAKING
        self._task = self._shared.spawn(self._prepare(), self._database.row.name)

    async def _prepare(self) -> None:
        try:
            await self._shared.successions.acquire()  # one at a time: each is a second copy in the machine's memory
            self._has_turn = True
            await self._made(self._database.own)
            self._stage = Stage.READY
        except Exception as error:  # whatever it is: others wait for the turn
            await self._fail(error)
        self._database.kick()

    async def _made(self, served: Served) -> None:
        """A service with the images of a base, and the blocks after it but for the last few. The base is a ttl old by then, so that
        who reads at a position of the last ttl can go on in the next generation; but not where the present service may soon be full.
        """
        settings, began = self._shared.settings, seconds()
        self._referee = Referee(
            settings.url,
            settings.name,
            self._shared.life,
            requires_standby=settings.require_standby,
            store=settings.store,
        )
        row = self._database.row
        given = await self._ask(
            number, row.id, served.run, served.generation, self._shared.numbers.least(row)
        )
        if given is None:
            raise Refused("the database is another's")
        self._number = given
        async with self._base_turn:
            if served.reached - self.base > self._few(SMALL) or (self.base == 0 and served.reached):
                await self._make_base(served)
        successor = await self._database.new_served(new_run())
        starting = asyncio.ensure_future(asyncio.to_thread(successor.start, settings.program))
        try:
            await asyncio.shield(starting)
        except asyncio.CancelledError:
            starting.add_done_callback(lambda _: successor.end())
            raise
        self._successor = successor
        while True:
            await self._follow(served)
            left = began + settings.ttl - seconds()
            if served.reached - successor.reached <= NEAR:
                if (
                    left <= 0
                    or served.health.is_full
                    or served.share(settings.program.audit, settings.memory) >= HURRY_AT
                ):
                    return
                await asyncio.sleep(min(left, settings.ttl / 16))

    async def _ask(self, call: Callable[..., Result], *arguments: object) -> Result:
        """What the call returns or raises, over the succession's own connection. A statement that hangs is cut."""
        assert self._referee is not None
        hangs = asyncio.get_running_loop().call_later(self._shared.settings.ttl, self._referee.cut)
        try:
            return await asyncio.to_thread(call, self._referee, *arguments)
        finally:
            hangs.cancel()

    async def _follow(self, served: Served) -> None:
        """Loads what is archived by now."""
        successor = self._successor
        assert successor is not None and self._referee is not None
        if not successor.is_alive:
            raise BrokenArchive("the service of the next generation ended")
        reached, chain = served.reached, served.chain
        try:
            await asyncio.to_thread(self._bring, served, successor, reached, chain)
        except PagelogError as error:
            self._say_again(f"the next service is filled from PostgreSQL: {error}")
            await asyncio.to_thread(
                successor.follow, self._referee, self._database.row.id, reached, chain
            )

    def _bring(self, served: Served, successor: Served, reached: int, chain: bytes) -> None:
        """Loads what is archived from the present service, which has it: PostgreSQL is asked for the images alone. In a thread."""
        assert self._referee is not None
        successor.begin(self._referee, self._database.row.id, reached)
        if successor.reached < reached:
            successor.fill(served.logged(successor.loaded, reached), reached, chain)
        successor.weigh()

    async def give_up(self) -> None:
        """Ends what was made. The present generation is as it was."""
        for each in (self._task, self._basing):
            if each is not None and each is not asyncio.current_task() and not each.done():
                each.cancel()
                await asyncio.wait({each})
        successor, self._successor = self._successor, None
        if successor is not None:
            await asyncio.to_thread(successor.end)
        self._end()

    def _end(self) -> None:
        if self._referee is not None:
            self._referee.close()
        self._referee, self._stage = None, Stage.NONE
        if self._has_turn:
            self._has_turn = False
            self._shared.successions.release()

    async def _fail(self, error: Exception) -> None:
        self._say_again(f"the succession was given up: {error}")
        await self.give_up()
        self._stage, self._failed_at, self._rest = Stage.FAILED, seconds(), self._rests.next()

    def _say(self, sentence: str) -> None:
        self._shared.say(self._database.row.name, sentence)

    def _say_again(self, sentence: str) -> None:
        self._shared.repeats.say(self._database.row.name, sentence)

    # From the fence to the switch.

    async def switch(self, archiver: RunArchiver) -> bool:
        """Closes the present generation, and begins the next. Returns whether there are new facts to decide from."""
        served, successor = self._database.own, self._successor
        assert successor is not None
        try:
            if successor.table_number < self._database.row.table_number:
                raise Refused("the table was changed meanwhile")
            await self._follow(served)
            await asyncio.to_thread(successor.open)  # nobody knows where it is, nor has its tokens
            await self._ask(rehearse)
            with successor.loader() as loader:
                if not await self._near(served, archiver):
                    raise Refused("the database is another's, or its archive went back")
                async with archiver.turn:  # what it has sent is archived, and no other batch is pulled
                    return await self._switch(served, successor, loader, archiver)
        except PagelogError as error:
            await self._fail(error)
            return True

    async def _near(self, served: Served, archiver: RunArchiver) -> bool:
        """Archives until little is left for the switch. False where the archive is not this run's any more."""
        for _ in range(_ROUNDS):
            before = served.reached
            await archiver.caught_up()
            if archiver.is_over:
                return False
            await self._follow(served)
            if served.reached - before <= _LITTLE:
                break
        return True

    async def _switch(
        self, served: Served, successor: Served, loader: Loader, archiver: RunArchiver
    ) -> bool:
        began = seconds()
        try:
            async with turn_of(archiver.lining) as recorder:
                switch, closed, row = await self._ask(
                    self._moved, served, successor, loader, recorder
                )
                row = row or await self._switched(switch)
                archiver.settle(switch.lines, is_kept=row is not None)
        except PagelogError as error:
            await self._fail(error)
            await self._open_again(served)
            return True
        if row is None:
            await self._fail(Refused("the database is another's, or its archive continued"))
            await self._open_again(served)
            return True
        self._say(
            f"generation {switch.next} begins at position {switch.end}, from images at {switch.images}: closed in "
            f"{1000 * (closed - began):.1f} ms, switched in {1000 * (seconds() - closed):.1f} ms, with {len(switch.blocks)} blocks of "
            f"generation {switch.generation}"
        )
        self._successor = None
        self._rests.reset()
        successor.begin_whole()
        try:
            await self._database.goes_on(successor, row)
        finally:
            self._end()
        return True

    def _moved(
        self,
        referee: Referee,
        served: Served,
        successor: Served,
        loader: Loader,
        recorder: Recorder | None,
    ) -> tuple[Switch, float, Row | None]:
        """From the fence to the switch, in a thread, with no step of the event loop between. Returns what was asked, when, and
        the row where the next generation has begun for certain."""
        switch = _closed(self._database.row.id, self._number, served, successor, loader)
        if recorder is not None and switch.blocks:
            switch = replace(switch, lines=recorder.last_lines())
        closed = seconds()
        try:
            return switch, closed, succeed(referee, switch)
        except (Away, Doubt, Refused) as error:
            self._say(f"the switch: {error}")
            return switch, closed, None

    async def _switched(self, switch: Switch) -> Row | None:
        """The row where the next generation has begun after all, or begins now; else it never will. Nobody may write until it is known."""
        waits = Backoff(0.05, 1.0)
        while True:
            try:
                row = await self._ask(begun, switch)
                if row is not None or not await self._ask(may_begin, switch):
                    return row
                if (row := await self._ask(succeed, switch)) is not None:
                    return row
            except (Away, Doubt, Refused) as error:
                self._say_again(f"the switch: {error}")
            await asyncio.sleep(waits.next())

    async def _open_again(self, served: Served) -> None:
        """The present generation goes on, if its service lives."""
        if served.health.is_broken:
            return
        try:
            await asyncio.to_thread(served.open)
        except PagelogError as error:
            self._say(f"it could not be opened again: {error}")
            served.fail()


def patiently(served: Served, call: Callable[[], Result]) -> Result:
    """What the call returns. A service that has no memory is asked again for half a ttl: its writers leave it, and what they held is free.
    Raises `OutOfMemory` then."""
    deadline, waits = seconds() + served.timeout / 2, Backoff(0.01, 0.1)
    while True:
        try:
            return call()
        except OutOfMemory:
            if seconds() > deadline:
                raise
        time.sleep(waits.next())


def _closed(log: int, number: int, served: Served, successor: Served, loader: Loader) -> Switch:
    """Fences the present generation, and brings over what its log has beyond the next one's."""
    try:
        end = patiently(served, served.close)
    except OutOfMemory:
        served.fail()  # it can be fenced by its end alone, after which another is filled in its place
        raise
    blocks = _pulled(served, successor.reached, end)
    known = served.reached - successor.reached
    if digest(successor.chain, blocks[:known]) != served.chain:
        raise BrokenArchive(
            f"the service has other blocks up to {served.reached} than those that are archived"
        )
    rest = tuple(blocks[known:])
    chain = digest(served.chain, rest)
    successor.load(loader, [blocks], end, chain)
    if not successor.is_alive:
        raise Refused(
            "the next service has ended"
        )  # where there is nothing to load, nothing else has shown it
    where = successor.where
    assert where.address is not None
    return Switch(
        log=log,
        run=served.run,
        generation=served.generation,
        old=served.reached,
        blocks=rest,
        chain=chain,
        next=number,
        next_run=successor.run,
        address=where.address,
        shift=successor.shift,
        images=successor.images,
        table_number=successor.table_number,
        secure=where.secure,
    )


def _pulled(served: Served, position: int, end: int) -> list[bytes]:
    """The blocks behind a position up to the end of a log that is closed."""
    blocks: list[bytes] = []
    while position + len(blocks) < end:
        piece: Sequence[bytes] = patiently(served, partial(served.pulled, position + len(blocks)))
        if not piece:
            raise BrokenArchive(
                f"the log of {served.database} ends at {position + len(blocks)} in place of {end}"
            )
        blocks += piece
    return blocks[: end - position]
