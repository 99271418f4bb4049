"""How a database comes to this keeper: it is taken, and its service filled; or a service of a previous instance is adopted."""

from __future__ import annotations

import asyncio
from typing import TYPE_CHECKING

from pagelog.errors import PagelogError
from pagelog.images import Replay
from pagelog.keeper.machine import Stillness
from pagelog.keeper.run import Run, new_run
from pagelog.keeper.served import Served
from pagelog.referee.bases import Bases, transaction
from pagelog.referee.referee import PIECE, Away, Doubt, Referee, Refused
from pagelog.referee.rows import Row, Where

if TYPE_CHECKING:
    from pagelog.keeper.database import Database


def continued_from_images(
    referee: Referee,
    served: Served,
    row: Row,
    beat: int | None,
    least: int,
    start: tuple[int, bytes],
) -> Row | None:
    """As `continue_run` of the referee, with the images that the service began with as a base: all of it, or nothing."""
    replay = Replay(lambda _: None)
    for blocks in served.began_with():
        replay.apply(blocks)
    with transaction(referee):
        taken = referee.continue_run(
            row, served.run, beat, served.where, least, start, served.table_number
        )
        if taken is not None:
            Bases(referee, row.id).keep_all(start[0], replay, start[1])
    return taken


class Beginning:
    """Of one database. What says so returns whether there are new facts to decide from."""

    def __init__(self, database: Database) -> None:
        self._database, self._shared = database, database.shared
        self._stuck_at: tuple[str, int] | None = None
        """Run and end of the service that could not be filled any further when that was tried last, as PostgreSQL was away for it."""
        self._stuck = Stillness(database.shared.settings.ttl)
        self._stuck_for = 0.0
        """For how many seconds that is so while the looks go through: then it is not away."""

    def see(self, now: float) -> None:
        """A look has gone through."""
        self._stuck_for = self._stuck.see(self._stuck_at, now)

    async def take(self) -> bool:
        """Makes this keeper the holder; its standby is published with that, if it has all that is archived."""
        database = self._database
        row, beat = (
            database.row,
            database.beat,
        )  # as it was decided: a look that comes meanwhile may show a holder that is alive
        served = database.served or await database.new_served(new_run())
        try:
            where = await self._ready(served, row)
        except (Away, Doubt, Refused):
            raise
        except PagelogError as error:
            return await database.standing.give_up(served, error)
        taken = await self._shared.ask(
            self._shared.referee.take,
            row,
            served.run,
            beat,
            where,
            self._shared.numbers.least(row),
            served.table_number,
        )
        if taken is None:
            return False
        self._shared.numbers.note(row.identity, taken.generation)
        self._shared.session.woken.set()  # the next look reports its run
        served.hold(taken.generation)
        if row.run is None and row.generation not in (0, database.let_go):
            served.follow_release()
        database.served = served
        database.has_changed(taken)
        return True

    async def _ready(self, served: Served, row: Row) -> Where:
        """Where a standby is, once it has all that is archived, so that its place can be told as it is taken; nowhere where it lacks
        much, or is not there yet."""
        if served.process is None or row.archived - served.reached > PIECE:
            return Where()
        await self._database.filled(served, row.archived, row.chain)
        await asyncio.to_thread(served.check, row.archived, row.chain)
        return served.where

    async def fill(self) -> bool:
        """Fills the service of the generation that was taken, opens it, and publishes where it is."""
        database = self._database
        served, row = database.own, database.row
        served.hold(row.generation)
        is_fresh = served.process is None
        try:
            if is_fresh:
                await asyncio.to_thread(served.start, self._shared.settings.program)
            database.watch(served)
            # Else its place was told as it was taken, or PostgreSQL has lost its address alone, and the archiver finds out what else.
            if row.address is None and not served.is_open:
                await database.filled(served, row.base, row.chain)
                await asyncio.to_thread(served.check, row.base, row.chain)
            await asyncio.to_thread(served.open)
            served.note_place()
        except PagelogError as error:
            is_away = isinstance(error, (Away, Doubt))
            if is_away and not self._is_stuck(served):
                raise  # it goes on from there
            self._shared.repeats.say(row.name, f"it could not be filled: {error}")
            served.fail()
            if is_fresh or is_away:  # else it was a standby, and a fresh one may do better
                database.has_failed()
            return True
        self._stuck_at = None
        database.has_filled()
        if database.work.archiver is None:
            database.work.begin(
                database.row, served
            )  # first: whether the address is published may be in doubt
        database.note_seen()  # before anybody writes there
        told = None
        if row.address is None:
            told = await self._shared.ask(
                self._shared.referee.publish, row.id, served.run, served.where
            )
            if told is None:
                return False
        if not database.holds:
            return True  # a look has shown meanwhile that another has it
        if told is not None:
            database.has_changed(told)
        self._shared.changed(row.name)
        return True

    async def continue_run(self) -> bool:
        """Makes this keeper the holder again with the service that is here, of which PostgreSQL has lost a part: that is archived again."""
        database = self._database
        served, row = database.own, database.row
        beat = (
            None if row.holder == self._shared.settings.name else database.beat
        )  # its own rises with each look
        is_before = (row.generation, row.run) == database.before
        try:
            newest = await self._shared.ask(self._shared.referee.table, row.id)
            if served.table_number < newest.number:
                await asyncio.to_thread(served.renew, newest)
            start = await asyncio.to_thread(
                served.continues, row.archived, row.chain, is_before=is_before
            )
        except (Away, Doubt, Refused):
            raise
        except PagelogError as error:
            self._say(f"the service does not answer its keeper: {error}")
            return False
        served.be_apart(start is None)
        if start is None:
            return True
        least = max(served.generation + 1, self._shared.numbers.least(row))
        taken = await self._continued(served, row, beat, least, start)
        if taken is None:
            return False  # the next look shows by whom
        self._shared.numbers.note(row.identity, taken.generation)
        database.work.stop()  # what was archived of it before is known no more
        served.begin_again(taken.generation, taken.archived, taken.chain)
        database.has_changed(taken)
        return await self.fill()

    async def _continued(
        self, served: Served, row: Row, beat: int | None, least: int, start: tuple[int, bytes]
    ) -> Row | None:
        """Where it starts behind what is archived, its images are kept with the statement, as the base from which the archive goes on."""
        if start[0] == row.archived:
            return await self._shared.ask(self._shared.referee.continue_run, row, served.run, beat, served.where, least, start, served.table_number)  # type: ignore[no-any-return]
        settings = self._shared.settings
        referee = Referee(
            settings.url,
            settings.name,
            self._shared.life,
            requires_standby=settings.require_standby,
            store=settings.store,
        )
        try:
            return await asyncio.to_thread(
                continued_from_images, referee, served, row, beat, least, start
            )
        finally:
            referee.close()

    def _is_stuck(self, served: Served) -> bool:
        """Whether PostgreSQL has refused it for a ttl what it is to be filled with, and nothing to the looks: while this keeper beats,
        nobody else would take the database over."""
        at = served.run, served.loaded
        if at != self._stuck_at:
            self._stuck_at, self._stuck_for = at, 0.0
        return self._stuck_for >= self._shared.settings.ttl

    async def adopt(self) -> bool:
        """Takes the service of a previous instance of this keeper for its own, or releases the generation where that has ended."""
        database = self._database
        row, settings = database.row, self._shared.settings
        assert row.run is not None
        served, kept = await database.new_served(row.run), await self._shared.ask(
            self._shared.referee.kept, row.id, row.run
        )
        process = await asyncio.to_thread(
            Run.adopt, settings.program.folder, row.name, row.run
        )  # last: it opens a descriptor
        shift, images, is_open = row.shift, row.images, False
        if process is not None and row.address is None:
            if not await self._is_lost(served, process):
                await self._put_away(served, process)
                process = None
            else:  # PostgreSQL has lost where it is, and where positions are there
                shift, images, is_open = process.facts.shift, process.facts.images, True
        if process is None:
            database.let_go = row.generation
            released = await self._shared.ask(self._shared.referee.release, row.id, row.run)
            if released is not None:  # else the next look shows whose it is
                database.has_changed(released)
            return released is not None
        archived, chain = (row.archived, row.chain) if kept is None else (kept.archived, kept.chain)
        served.adopt(
            process,
            archived,
            chain,
            shift=shift,
            images=images,
            generation=row.generation,
            table_number=row.run_table,
            is_open=is_open,
        )
        await database.lead(served)
        database.served = served
        database.watch(served)
        if kept is None:
            return (
                False  # it holds the database no more: what is to become of it the next look shows
            )
        await asyncio.to_thread(served.remember)  # where an older keeper has started it
        try:
            await asyncio.to_thread(served.open)  # it may have been closed in its previous instance
        except PagelogError as error:
            self._shared.say(row.name, f"it could not be adopted: {error}")
            served.fail()
            return True
        database.work.begin(database.row, served)
        return True

    async def _is_lost(self, served: Served, process: Run) -> bool:
        """Whether clients have been let into a service that PostgreSQL says nobody was told of: it went back."""
        served.serve(process)
        try:
            return await asyncio.to_thread(served.was_written)
        except PagelogError as error:
            self._say(f"the service does not answer its keeper: {error}")
            served.be_lacked(process.seen.generation > 0)  # which had it: it may be the only copy
            return False

    async def _put_away(self, served: Served, process: Run) -> None:
        """Ends a service that was filled in a previous instance, and that no client has written to."""
        self._database.watch(served)
        await self._database.ending.end_process(served)

    def _say(self, sentence: str) -> None:
        self._shared.say(self._database.row.name, sentence)
