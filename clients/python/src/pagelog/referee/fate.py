"""Of which run of which database something is asked, and what became of that run, by what PostgreSQL has of both."""

from __future__ import annotations

import re
from dataclasses import dataclass
from enum import Enum
from typing import Any, Sequence

_DATABASE = re.compile(r"[0-9a-f]{8}(-[0-9a-f]{4}){3}-[0-9a-f]{12}")
_RUN = re.compile(r"[!-~]{1,79}")


@dataclass(frozen=True)
class Of:
    """A database and one run of it. As a word it is DATABASE/RUN; of no run in particular it is DATABASE."""

    database: str
    run: str = ""

    def __str__(self) -> str:
        return f"{self.database}/{self.run}" if self.run else self.database

    @classmethod
    def read(cls, word: str) -> Of:
        """Of the word. Raises `ValueError`."""
        database, _, run = word.partition("/")
        if _DATABASE.fullmatch(database) is None or (run and _RUN.fullmatch(run) is None):
            raise ValueError(f"no database and run: {word}")
        return cls(database, run)


class Loss(Enum):
    """Why nothing more of a run will ever be durable, nor may be taken for durable by its number."""

    DROPPED = "dropped"
    ANOTHER = "another"
    SUPERSEDED = "superseded"


@dataclass(frozen=True)
class Fate:
    """What became of a run: all up to `end` is durable, and nothing above it ever will be; or it is lost, `by` the generation that
    supersedes it. Of one that may go on there is neither."""

    end: int | None = None
    loss: Loss | None = None
    by: int = 0


@dataclass(frozen=True)
class FateRow:
    """A database as the statement returns it: `run` is the one that is asked for, if it is known, or else the one that has its number, and
    `end` where that ended."""

    database: Any
    dropped: bool
    generation: int
    run: str | None
    end: int | None


def fate_of_rows(rows: Sequence[FateRow], generation: int, of: Of) -> Fate:
    """The fate of a run, from the row of its database and from the one that has the name."""
    own = next((row for row in rows if str(row.database) == of.database), None)
    if own is None:
        return Fate(loss=Loss.ANOTHER) if rows else Fate()
    if own.dropped:
        return Fate(loss=Loss.DROPPED)
    if own.run == of.run:
        return Fate(end=own.end)
    # PostgreSQL went back, and has lost this run. Once another has its number, or a later one, no keeper continues it.
    return Fate(loss=Loss.SUPERSEDED, by=own.generation) if own.generation >= generation else Fate()
