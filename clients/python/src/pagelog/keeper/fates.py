"""What is told of a database: what PostgreSQL knows of a block or a generation, and that the next generation is there."""

from __future__ import annotations

import asyncio
import hashlib
from contextlib import contextmanager, suppress
from typing import Any, Callable, Iterator

from pagelog.keeper.lines import Key, Line, of_word
from pagelog.keeper.proving import Asker
from pagelog.keeper.quota import Quota
from pagelog.keeper.session import Session
from pagelog.referee import statements
from pagelog.referee.fate import Fate, Of
from pagelog.referee.referee import Away, BrokenArchive, Doubt, KeeperError, Referee, Refused


_AT_ONCE, _MOST = 4, 10_000
"""How many questions of clients are asked at once, and how many may wait."""
_BESIDE = 2
"""How many of them read from the store at once."""
EACH_FATE, EACH_BLOCK = 100, 4
"""How many of them one connection may have under way: what became of a generation, and which block the archive has."""
EACH_ASKER = 1_000
"""How many one principal may have, over all its connections, and how many all together that nobody knows."""


class Moves:
    """Wakes those who wait for something to be done about a database."""

    def __init__(self) -> None:
        self._done = asyncio.Event()

    def tell(self) -> None:
        """Something was done."""
        self._done.set()
        self._done = asyncio.Event()

    async def wait(self, longest: float) -> None:
        """Until something is done, or so many seconds."""
        with suppress(asyncio.TimeoutError):
            await asyncio.wait_for(self._done.wait(), longest)


class Questions:
    """What clients ask PostgreSQL over the connection of the looks: a few at a time, since a beat that waited for many would stand still."""

    def __init__(self, session: Session, each: int = EACH_FATE) -> None:
        """`each` is how many one connection may have under way."""
        self.referee = session.referee
        self._session, self._turns, self._quota = (
            session,
            asyncio.Semaphore(_AT_ONCE),
            Quota(each, _MOST),
        )
        self._askers = Quota(EACH_ASKER, _MOST)
        self._beside = asyncio.Semaphore(_BESIDE)

    def __contains__(self, line: Line) -> bool:
        """Whether anything is asked over this connection."""
        return line in self._quota

    async def ask(self, line: Line, asker: Asker, call: Callable[..., Any], *arguments: Any) -> Any:
        """What the call returns or raises, which asks the referee. Raises `Away` where very many wait, or many of this connection, or of
        this asker."""
        with self._place(line, asker):
            async with self._turns:
                return await self._session.ask(call, *arguments)

    async def ask_beside(
        self, line: Line, asker: Asker, call: Callable[..., Any], *arguments: Any
    ) -> Any:
        """The same of a call that asks nothing over the connection of the looks, and may take long."""
        with self._place(line, asker):
            async with self._beside:
                return await asyncio.to_thread(call, *arguments)

    @contextmanager
    def _place(self, line: Line, asker: Asker) -> Iterator[None]:
        if len(self._quota) >= _MOST or not self._quota.acquire(line):
            raise Away("too many questions of clients wait for PostgreSQL")
        try:
            if not self._askers.acquire(asker):
                raise Away("too many questions of one principal wait for PostgreSQL")
            try:
                yield
            finally:
                self._askers.release(asker)
        finally:
            self._quota.release(line)


async def tell_fate(
    questions: Questions,
    line: Line,
    name: str,
    generation: int,
    of: Of | None = None,
    asker: Asker = None,
) -> None:
    """What became of a generation that is not this keeper's: by a statement that writes, as its end is final."""
    try:
        fate = await questions.ask(line, asker, _fate, questions.referee, name, generation, of)
    except (Away, Doubt, Refused):
        fate = Fate()
    said = of_word(of)
    if fate.loss is not None:
        line.say("lost", name, generation, fate.loss.value, Key(f"by={fate.by}"), *said)
    elif fate.end is None:
        line.say("elsewhere", name, generation, *said)
    else:
        line.say("over", name, generation, fate.end, *said)


def _fate(referee: Referee, name: str, generation: int, of: Of | None) -> Fate:
    """An older client says a number alone, which is enough where one run has had it."""
    return (
        Fate(end=referee.fate(name, generation))
        if of is None
        else referee.fate_of(name, generation, of)
    )


async def tell_block(
    questions: Questions,
    line: Line,
    name: str,
    position: int,
    of: Of | None = None,
    asker: Asker = None,
) -> None:
    """Says which block the archive has at a position; `elsewhere` where PostgreSQL does not answer, or the client asks too much at once."""
    try:
        found = await questions.ask(line, asker, _block, questions.referee, name, position, of)
        if isinstance(found, int):
            found = await questions.ask_beside(
                line, asker, _stored_block, questions.referee.another(), found, position
            )
    except BrokenArchive:
        found = None
    except KeeperError:
        return line.say("elsewhere", name, position, *of_word(of))
    line.say("block", name, position, found or "-", *of_word(of))


def _block(referee: Referee, name: str, position: int, of: Of | None) -> str | int | None:
    """By a statement that writes: a server that was cut off may have another block there. The id of the database where the store has it."""
    database = None if of is None else of.database
    found = referee._ask(
        statements.BLOCK,
        {"me": referee.me, "name": name, "database": database, "position": position},
    )
    if found:
        return str(found[0][0])
    stored = referee._ask(
        statements.STORED_BLOCK, {"name": name, "database": database, "position": position}
    )
    return int(stored[0][0]) if stored else None


def _stored_block(referee: Referee, log: int, position: int) -> str:
    try:
        return hashlib.sha256(referee._piece(log, position, position)[0]).hexdigest()
    finally:
        referee.close()
