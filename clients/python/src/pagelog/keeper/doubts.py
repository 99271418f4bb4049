"""What became of batches of which that is not known: it is looked up by a statement that writes, for as long as that takes."""

from __future__ import annotations

import asyncio
from typing import Callable

from pagelog.keeper.session import Session
from pagelog.referee.referee import KeeperError, OneDisk
from pagelog.referee.refusal import line_of
from pagelog.referee.rows import Kept
from pagelog.repeating import Backoff, Repeats


def _nothing(_: str) -> None:
    """Says nothing."""


class Fenced(KeeperError):
    """The run holds its database no more. Nothing of the batch is archived."""


class Doubts:
    """Of all databases of a keeper, over a connection that is there while something is in doubt."""

    def __init__(self, session: Session, say: Callable[[str], None] = _nothing) -> None:
        """What PostgreSQL refuses is said, once a minute."""
        self._session = session
        self._repeats = Repeats(lambda _, sentence: say(sentence))
        self._count = 0

    async def look_up(self, log: int, run: str) -> Kept:
        """What is archived of a run, after a batch that is in doubt, or was not kept. Raises `Fenced`."""
        self._count += 1
        try:
            found = await self._found(log, run)
        finally:
            self._count -= 1
        if not self._count:
            await self._session.close()
        if found is None:
            raise Fenced("the run holds its database no more")
        return found

    async def _found(self, log: int, run: str) -> Kept | None:
        waits = Backoff(0.05, 1.0)
        while True:
            try:
                return await self._session.ask(self._session.referee.kept, log, run)
            except (
                Exception
            ) as error:  # also what nobody expected: a part of a statement may be left
                if not isinstance(error, KeeperError):
                    await self._session.close()
                if not isinstance(error, OneDisk):  # which is said with the looks
                    self.say(str(error) if isinstance(error, KeeperError) else line_of(error))
            await asyncio.sleep(waits.next())

    def say(self, sentence: str) -> None:
        """Why nothing is archived."""
        self._repeats.say("", f"nothing is archived: {sentence}")
