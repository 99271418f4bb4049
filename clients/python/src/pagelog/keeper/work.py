"""What goes on beside the actions on a database: looks at its service and, while that is held, archiving and recording."""

from __future__ import annotations

import asyncio
from functools import partial
from typing import TYPE_CHECKING, Callable

from pagelog.errors import AuditListFull, PagelogError, TurnsSpent
from pagelog.keeper.archiver import RunArchiver
from pagelog.keeper.machine import Stillness
from pagelog.keeper.served import Served, seconds
from pagelog.keeper.shared import Shared
from pagelog.keeper.waits import Waits
from pagelog.referee.fate import Of
from pagelog.referee.rows import Row

if TYPE_CHECKING:
    from pagelog.keeper.recorder import Recorder


class Work:
    """Of one database. `kick` is called where there is something to decide."""

    def __init__(self, shared: Shared, row: Row, waits: Waits, kick: Callable[[], None]) -> None:
        self._shared, self._name, self._identity, self._waits, self._kick = (
            shared,
            row.name,
            row.identity,
            waits,
            kick,
        )
        self._silent = Stillness(shared.settings.ttl)
        self._looking: asyncio.Task[None] | None = None
        self._archiving: asyncio.Task[None] | None = None
        self._recording: asyncio.Task[None] | None = None
        self._served: Served | None = None
        self.archiver: RunArchiver | None = None
        self.recorder: Recorder | None = None

    def see(self, served: Served) -> None:
        """Whether a service that was started still answers is asked with each look."""
        self._served = served
        self.refresh()
        served.be_silent(self._silent.see((served.run, served.health.answers), seconds()))
        if self.archiver is not None and served.hangs:
            self.archiver.stir()
        if not self._is_looking and not served.look_again(partial(self._looked_again, served)):
            self._looking = self._shared.spawn(self._look(served), self._name)

    @property
    def _is_looking(self) -> bool:
        return self._looking is not None and not self._looking.done()

    def _looked_again(self, served: Served, is_as_before: bool) -> None:
        """It has answered as the last time, or otherwise: then it is asked by a task."""
        if is_as_before:
            self._note_look(served)
        elif served is self._served and not self._is_looking:
            self._looking = self._shared.spawn(self._look(served), self._name)

    async def _look(self, served: Served) -> None:
        try:
            if not await served.looked_at_once():
                await asyncio.to_thread(served.look)
        except (AuditListFull, TurnsSpent):
            served.fail()
            self._kick()
        except PagelogError as error:
            if served is self._served:
                self._shared.repeats.say(
                    self._name, f"the service does not answer its keeper: {error}"
                )
        self._note_look(served)

    def _note_look(self, served: Served) -> None:
        if self.recorder is not None and served is self._served:
            self.recorder.look(served.entries)
        if served.hard > served.reached and served is self._served:
            self.ring()

    def begin(self, row: Row, served: Served, *, records: bool = True) -> None:
        """From now on it is held: archived, and recorded, unless `record` is called later."""
        self._served = served
        self.archiver = RunArchiver(
            row,
            served,
            self._waits,
            self._shared.doubts,
            self._shared.repeats.say,
            self._news,
            self._shared.ways,
        )
        self.archiver.recorder = self.recorder  # which goes on where the archiver is begun again
        self._archiving = self._shared.spawn(self.archiver.run(), self._name)
        if records:
            self.record(served, is_first=not served.is_after_release)

    def record(self, served: Served, *, is_first: bool = False) -> None:
        """From now on its audit list is kept, if lists are, and if it is held still. It ends the list that the trail has open. Blocks
        wait for its first lines where they come behind a generation that nobody closed."""
        if self._shared.trails is not None and self.recorder is None and served is self._served:
            of = Of(self._identity, served.run)
            self.recorder = self._shared.trails.recorder(
                served, of, self._shared.repeats.say, self._line_up, is_waited_for=is_first
            )
            if self.archiver is not None:
                self.archiver.recorder = self.recorder
            self._recording = self._shared.spawn(self.recorder.run(), self._name)

    def _line_up(self) -> None:
        """Lines may be kept with the blocks from now on."""
        if self.archiver is not None:
            self.archiver.line_up()

    def _news(self) -> None:
        self._shared.session.woken.set()
        self._kick()

    @property
    def is_quick(self) -> bool:
        """Whether its durable commits take the fast path."""
        return self.archiver is not None and self.archiver.is_quick

    def leave_fast_path(self) -> None:
        """Its present way ends; the next one knows what is known by then."""
        if self.archiver is not None:
            self.archiver.leave_way()

    def suspect(self) -> None:
        """PostgreSQL may have gone back."""
        if self.archiver is not None:
            self.archiver.suspect()

    def ring(self) -> None:
        """There is something to archive, or somebody who waits."""
        if self.archiver is not None:
            self.archiver.ring()

    def refresh(self) -> None:
        """How far it is archived is known from now on."""
        if self.archiver is not None:
            self.archiver.refresh()

    def stir(self) -> None:
        """The service has died, which who waits for its archive has to know."""
        if self.archiver is not None:
            self.archiver.stir()

    async def catch_up(self, end: int, longest: float | None = None) -> None:
        """Archives up to this position, if that takes no longer than a look, or so many seconds."""
        if self.archiver is not None:
            reached = asyncio.ensure_future(self.archiver.reached(end))
            await asyncio.wait(
                {reached}, timeout=self._shared.settings.ttl / 4 if longest is None else longest
            )
            reached.cancel()

    async def recorded(self, recorder: Recorder | None) -> None:
        """What the audit list has is kept too, if that can be had soon."""
        if recorder is not None:
            await asyncio.wait(
                {asyncio.create_task(recorder.catch_up())}, timeout=self._shared.settings.ttl
            )

    def stop_archiving(self) -> None:
        """Nothing more of it can be archived."""
        if self._archiving is not None:
            self._archiving.cancel()

    def stop(self) -> None:
        """Nothing is done any more with the service."""
        for task in (self._archiving, self._looking, self._recording):
            if task is not None:
                task.cancel()
        if self._served is not None:
            self._served.stop_looks()
        self.archiver = (
            self._archiving
        ) = self._looking = self.recorder = self._recording = self._served = None
