"""What the databases of a keeper share."""

from __future__ import annotations

import asyncio
from dataclasses import dataclass, field
from functools import partial
from typing import TYPE_CHECKING, Any, Callable, Coroutine

from pagelog.keeper.aside import Asides
from pagelog.keeper.doubts import Doubts
from pagelog.keeper.fast_plane import FastPlane
from pagelog.keeper.fates import EACH_BLOCK, Questions, tell_block, tell_fate
from pagelog.keeper.front import Front
from pagelog.keeper.lines import Line, of_word
from pagelog.keeper.numbers import Numbers
from pagelog.keeper.proving import Proving
from pagelog.keeper.served import Served
from pagelog.keeper.session import Session
from pagelog.keeper.settings import Settings
from pagelog.referee.fate import Of
from pagelog.referee.referee import PIECE, Referee
from pagelog.repeating import Repeats

if TYPE_CHECKING:
    from pagelog.keeper.database import Database
    from pagelog.keeper.recorder import Trails

LONGEST_REST = 60.0
"""Seconds after which a keeper tries again in any case what it has failed at, as to start a service."""


@dataclass
class Shared:
    """A keeper's settings, its life, its ways to the referee, and its tasks. `say` logs a sentence of a database, and
    `changed` says that its place may be another."""

    settings: Settings
    life: str
    session: Session
    doubts: Doubts
    ways: FastPlane
    say: Callable[[str, str], None]
    changed: Callable[[str], None]
    trails: Trails | None = None
    front: Front | None = None
    """What leads clients to the services by TLS."""
    ending: bool = False
    tasks: set[asyncio.Task[None]] = field(default_factory=set)
    successions: asyncio.Semaphore = field(default_factory=lambda: asyncio.Semaphore(1))

    def __post_init__(self) -> None:
        self.repeats = Repeats(self.say)
        """What comes again and again is said by it."""
        self.asides = Asides(self.settings.program.folder)
        self.questions = Questions(self.session)
        self.numbers = Numbers(self.settings.program.folder)
        self.block_questions = Questions(self.session, EACH_BLOCK)
        """A queue of their own: nobody who asks for blocks keeps a writer from what became of its commits."""
        self.proving = Proving(
            self.settings.unproved, partial(self.ask, self.referee.table), self.spawn
        )

    @property
    def referee(self) -> Referee:
        """That of the keeper's looks."""
        return self.session.referee

    async def ask(self, call: Callable[..., Any], *arguments: Any) -> Any:
        """What the call returns or raises, which asks the referee."""
        return await self.session.ask(call, *arguments)

    async def fill(self, served: Served, log: int, archived: int, chain: bytes) -> None:
        """Fills it up to this position. Where much is missing, over a connection to the archive of its own."""
        if archived <= served.reached:
            return
        if 0 < served.loaded and archived <= served.loaded + PIECE:
            piece = await self.session.ask(
                self.session.referee.few_blocks, log, served.loaded + 1, archived
            )
            if piece is not None:  # else the store has some: the looks do not wait for that
                return await asyncio.to_thread(served.fill, [piece], archived, chain)
        referee = Referee(
            self.settings.url, self.settings.name, self.life, store=self.settings.store
        )
        try:
            await asyncio.to_thread(served.follow, referee, log, archived, chain)
        finally:
            referee.close()

    async def tell_fate(
        self,
        line: Line,
        name: str,
        generation: int,
        of: Of | None,
        database: Database | None = None,
    ) -> None:
        """Says what became of a generation that is not this keeper's. `database` is the one that is asked for, where it is known here: of
        another one nobody can prove anything."""
        if not await self._refuses(line, database, name, of):
            await tell_fate(
                self.questions,
                line,
                name,
                generation,
                of,
                line.asker if database is not None else None,
            )

    async def tell_block(
        self, line: Line, name: str, position: int, of: Of | None, database: Database | None = None
    ) -> None:
        """Says which block the archive has."""
        if not await self._refuses(line, database, name, of):
            await tell_block(
                self.block_questions,
                line,
                name,
                position,
                of,
                line.asker if database is not None else None,
            )

    async def _refuses(
        self, line: Line, database: Database | None, name: str, of: Of | None
    ) -> bool:
        """Whether who asks is told that it has to prove who it is."""
        why = None if database is None else await self.proving.settled_refusal(line, database)
        if why is not None:
            line.say("denied", name, why.value, *of_word(of))
        return why is not None

    def spawn(self, work: Coroutine[Any, Any, None], what: str) -> asyncio.Task[None]:
        """A task whose end by an error is said: a database that nobody keeps would be the result."""
        task = asyncio.create_task(work)
        self.tasks.add(task)

        def ended(_: asyncio.Task[None]) -> None:
            self.tasks.discard(task)
            if not task.cancelled() and (error := task.exception()) is not None:
                self.repeats.say(what, f"fault of the keeper: {type(error).__name__}: {error}")

        task.add_done_callback(ended)
        return task
