"""A standby of a database that another keeper holds: a service that follows the archive."""

from __future__ import annotations

import asyncio
from typing import TYPE_CHECKING

from pagelog.errors import PagelogError
from pagelog.keeper.machine import RunKind, Stage
from pagelog.keeper.run import new_run
from pagelog.keeper.served import Served, seconds
from pagelog.keeper.shared import LONGEST_REST
from pagelog.referee.referee import Away, Doubt
from pagelog.referee.rows import Row
from pagelog.repeating import Backoff

if TYPE_CHECKING:
    from pagelog.keeper.database import Database


class Standing:
    """Of one database. Each returns whether there are new facts to decide from."""

    def __init__(self, database: Database) -> None:
        self._database, self._shared = database, database.shared
        ttl = database.shared.settings.ttl
        self._not_before, self._rests = 0.0, Backoff(ttl / 4, max(LONGEST_REST, ttl))
        """When a standby may be started again after one that could not be used."""

    async def stand_by(self) -> bool:
        """Starts a service and has it follow the archive."""
        database = self._database
        if seconds() < self._not_before:
            return False
        self._not_before = seconds() + self._rests.next()
        served = await database.new_served(new_run())
        served.stand_by()
        try:
            await asyncio.to_thread(served.start, self._shared.settings.program)
        except PagelogError as error:
            self._say(f"the standby was given up: {error}")
            return False
        database.served = (
            served  # not before: one that could not be started would be followed in vain
        )
        database.watch(served)
        await self._catch_up(served)
        return False

    async def _catch_up(self, served: Served) -> bool:
        """Has a standby follow the archive. One that cannot is given up, but not as PostgreSQL is away: it goes on from there."""
        database = self._database
        try:
            await database.filled(served, database.row.archived, database.row.chain)
        except (Away, Doubt):
            raise
        except PagelogError as error:
            if not await self._shared.ask(
                self._shared.referee.lacks, database.row
            ):  # else it may be the only copy: the next look shows that
                await self.give_up(served, error)
            return False  # the next look has another made
        if not served.is_noted:
            await self._note_standby(served)
        self._rests.reset()
        self._not_before = 0.0
        return True

    async def _note_standby(self, served: Served) -> None:
        where = served.where
        place = (
            where.address,
            served.run,
            served.reached,
            served.shift,
            served.images,
            served.table_number,
            where.secure,
        )
        await self._shared.ask(self._shared.referee.stand_by, self._database.row.id, *place)
        served.note_standby(True)
        self._database.is_noted = True
        served.note_place()
        await self._shared.ask(
            self._shared.referee.take, Row(0, ""), ""
        )  # changes nothing, and is quicker the next time

    async def stand_down(self) -> bool:
        """No standby of this keeper is noted any more."""
        await self._shared.ask(self._shared.referee.stand_down, self._database.row.id)
        self._database.is_noted = False
        return True

    async def follow(self) -> bool:
        """A standby follows the archive, as far as a look has shown it, and never more."""
        database = self._database
        is_asked_for = (
            database.served is not None and database.served.table_number < database.row.table_number
        )
        if (
            database.row.paused
            and not is_asked_for
            and database.succession.stage in (Stage.MAKING, Stage.READY)
        ):
            await database.succession.give_up()  # others wait for its turn, and a pause may last
        served = database.served if database.is_known else None
        if served is None or served.kind is not RunKind.STANDBY:
            return False
        lacks = served.reached < database.row.archived
        if (lacks or not served.is_noted) and await self._catch_up(served) and lacks:
            served.be_lacked(False)  # what it had is archived again
        return False

    async def give_up(self, served: Served, error: PagelogError) -> bool:
        """Ends a standby that cannot follow."""
        self._say(f"the standby was given up: {error}")
        if seconds() >= self._not_before:
            self._not_before = seconds() + self._rests.next()
        served.fail()
        return await self._database.ending.end()

    def _say(self, sentence: str) -> None:
        self._shared.repeats.say(self._database.row.name, sentence)
