"""How a database leaves this keeper: its generation is closed and released, or its service is ended alone."""

from __future__ import annotations

import asyncio
from typing import TYPE_CHECKING

from pagelog.errors import PagelogError
from pagelog.keeper.archiver import RunArchiver, turn_of
from pagelog.keeper.lines import of_word
from pagelog.keeper.machine import Action, RunKind
from pagelog.keeper.run import Run, Seen
from pagelog.keeper.served import Served
from pagelog.keeper.switch import rehearse_release, release
from pagelog.referee.rows import Row

if TYPE_CHECKING:
    from pagelog.keeper.database import Database
    from pagelog.keeper.recorder import Recorder


class Ending:
    """Of one database. What says so returns whether there are new facts to decide from."""

    def __init__(self, database: Database) -> None:
        self._database, self._shared = database, database.shared

    async def close(self) -> bool:
        """Fence, the rest into the archive, release: nothing is lost, not even what nobody has asked durable."""
        database = self._database
        served = database.own
        await database.work.catch_up(served.hard)  # less is left for when nobody may write
        await self._shared.ask(rehearse_release, self._shared.referee)
        try:
            await database.succession.give_up()
            end = await asyncio.to_thread(served.close)
        except PagelogError as error:
            self._shared.repeats.say(database.row.name, f"its table could not be closed: {error}")
            return False
        archiver = database.work.archiver
        if archiver is None:
            return False
        recorder = database.work.recorder
        async with archiver.turn:
            row = await self._release_at(archiver, end)
            if row is not None:
                database.work.stop_archiving()  # at once: its recorder has the rest to keep
        if row is not None:
            return await self._released(row, recorder)
        return await archiver.reached(end) and database.holds and await self.release()

    async def _release_at(self, archiver: RunArchiver, end: int) -> Row | None:
        """Ends the generation with the rest of its log in the archive, and its lines in the trail. None where that was not to be done."""
        async with turn_of(archiver.lining) as recorder:
            last = await archiver.rest(end, recorder)
            if last is None:
                return None
            self._database.let_go = last.generation  # first: whether it is released may be in doubt
            row: Row | None = None
            try:
                row = await self._shared.ask(release, self._shared.referee, last)
            finally:
                archiver.settle(last.lines, is_kept=row is not None)
        return row

    async def release(self) -> bool:
        """Ends the generation as it is archived. Returns whether to go on."""
        database = self._database
        served, row, recorder = database.own, database.row, database.work.recorder
        await database.succession.give_up()
        if not served.is_alive or database.doing is Action.RELEASE:
            await self._ended(served)
        database.let_go = row.generation
        released = await self._shared.ask(self._shared.referee.release, row.id, served.run)
        return released is not None and await self._released(released, recorder)

    async def _released(self, row: Row, recorder: Recorder | None) -> bool:
        """The generation has ended, and its row is this. Returns whether to go on."""
        database = self._database
        served, archived = database.own, row.archived
        database.served = None
        database.has_ended(served.run, archived)
        database.has_changed(row)
        database.still_for = 0.0  # that was of the row before
        for line in database.waits.taken():
            line.say("over", row.name, row.generation, archived, *of_word(database.of(served)))
        if database.doing is Action.CLOSE:
            await database.work.recorded(recorder)
        await self._ended(served)
        if recorder is not None:
            await recorder.end(f"generation {row.generation} was released: {database.why}")
        return not self._shared.ending

    async def end(self) -> bool:
        """Ends the service, of a generation that is over or of a standby."""
        database = self._database
        served = database.served
        if served is None:
            return False
        database.served = None
        await database.succession.give_up()
        await self._ended(served)
        for line in database.waits.taken():
            of = database.of(served) if line.version > 1 else None
            self._shared.spawn(
                self._shared.tell_fate(line, database.row.name, served.generation, of),
                database.row.name,
            )
        return await database.standing.stand_down() if served.kind is RunKind.STANDBY else True

    async def _ended(self, served: Served) -> None:
        """Its process is killed, once, unless it may be the only copy of something, and there is no work on it any more."""
        self._database.work.stop()
        await self.end_process(served)

    async def end_process(self, served: Served) -> None:
        """Kills its process, once, unless it may be the only copy of something: that is quarantined."""
        process = served.take_process()
        served.fail()
        self._database.leaving.add(served.run)
        try:
            await self._end_process(served, process)
        finally:
            self._database.leaving.discard(served.run)

    async def _end_process(self, served: Served, process: Run | None) -> None:
        if process is None:
            return
        asyncio.get_running_loop().remove_reader(process.descriptor)
        await asyncio.to_thread(served.lead_away)
        if not served.lack.went_back:
            if not await asyncio.to_thread(process.end):
                self._say(f"process {process.facts.pid} was killed, and does not end")
            return
        self._say(
            f"the service of run {served.run}, process {process.facts.pid} at {process.address}, may be the only copy of its log: "
            "it is quarantined"
        )
        await self._close(served)
        while not await self._is_set_aside(process, served):
            await asyncio.sleep(self._shared.settings.ttl)
        self._shared.asides.add(process.facts)

    async def _close(self, served: Served) -> None:
        """Nobody writes any more to what is quarantined: who writes is to find the run that holds the database."""
        try:
            await asyncio.to_thread(served.close)
        except PagelogError as error:
            self._say(
                f"the service that is quarantined could not be closed, so that clients may still write to it: {error}"
            )

    async def _is_set_aside(self, process: Run, served: Served) -> bool:
        """Whether that is noted: what is not noted is ended by the next instance of this keeper."""
        try:
            await asyncio.to_thread(
                process.note_seen,
                Seen(served.generation, max(served.reached, process.seen.archived)),
            )
            await asyncio.to_thread(process.set_aside, served.shift, served.images)
        except OSError as error:
            self._shared.repeats.say(
                self._database.row.name, f"it could not be noted that it is quarantined: {error}"
            )
            return False
        return True

    def _say(self, sentence: str) -> None:
        self._shared.say(self._database.row.name, sentence)
