"""Looks at PostgreSQL over one connection that may not write. It is for one thread; each look has an end."""

from __future__ import annotations

import threading
import time
import zlib
from dataclasses import dataclass, field
from datetime import datetime
from typing import Any, Iterable, Mapping

import psycopg
from psycopg.conninfo import make_conninfo
from psycopg.rows import dict_row

from pagelog.archive.url import without_password
from pagelog.console import statements
from pagelog.errors import PagelogError
from pagelog.libpq import count_of_hosts, turn_hosts
from pagelog.referee.hosts import shut_down
from pagelog.referee.referee import options_of
from pagelog.referee.rows import KeeperRow, Look, PagesRow, Row, StandbyRow, Synchronous
from pagelog.reply import LINE_SIZE
from pagelog.trail.store import FORMAT, Piece

GENERATIONS = 50
"""How many generations of a database are shown, the last ones."""
PIECES = 32
"""How many pieces of trails a look reads, at most 1,024 lines each. What is left comes with the next one."""
PAST = 3600
"""Seconds: denials are counted from so long ago on."""
LONGEST = 8.0
"""Seconds after which a look is cut, as from a server that stands still."""
_OPTIONS = {
    "connect_timeout": 3,
    "target_session_attrs": "primary",
    "application_name": "pagelog console",
    "keepalives_idle": 5,
    "keepalives_interval": 2,
    "keepalives_count": 3,
    "options": f"-c statement_timeout={int(LONGEST * 1000)} -c lock_timeout=3s",
}
_NO_TABLES = (psycopg.errors.UndefinedTable, psycopg.errors.UndefinedColumn)


class NoLook(PagelogError):
    """PostgreSQL is away, silent, or refuses. The message is one line, without a password."""


@dataclass(frozen=True)
class Generation:
    """When a generation of a database began, where, and at which position."""

    generation: int
    holder: str
    base: int
    began: datetime


@dataclass(frozen=True)
class Recorded:
    """A piece of the trail of a database; None where it is damaged. `whose` tells it from another database that has had the name."""

    name: str
    piece: Piece | None
    whose: str = ""


@dataclass(frozen=True)
class SourceLook:
    """One look. `generations` has those databases whose generation is another than at the look before."""

    look: Look
    generations: Mapping[int, tuple[Generation, ...]] = field(default_factory=dict)
    recorded: tuple[Recorded, ...] = ()
    trails: Mapping[int, str] = field(default_factory=dict)
    """The databases that have a trail, by their ids: whose that is."""
    is_prepared: bool = True
    """False where PostgreSQL has no tables of keepers yet."""


class Source:
    """Looks again and again. What a look has returned of generations and trails, a later one does not return again."""

    def __init__(self, url: str) -> None:
        self._url = url
        self._options: dict[str, Any] = {**_OPTIONS, **options_of(url)}
        self._connection: psycopg.Connection[dict[str, Any]] | None = None
        self._generations: dict[int, tuple[int, str | None]] = {}
        """Of each database the generation and the run of the last look."""
        self._next: dict[tuple[int, str | None], int] = {}
        """For each list of a trail, by its row and the run that it is of, the number of the line that comes next."""

    def close(self) -> None:
        """Closes the connection. The next look makes another."""
        if self._connection is not None:
            self._connection.close()
        self._connection = None

    def look(self) -> SourceLook:
        """A look. Raises `NoLook`."""
        hangs = threading.Timer(LONGEST, lambda: shut_down(self._connection))
        hangs.daemon = True
        hangs.start()
        try:
            return self._look()
        except _NO_TABLES:
            return SourceLook(Look(), is_prepared=False)
        except (psycopg.Error, OSError) as error:
            self._generations = {}  # the next look returns them again
            if not isinstance(error, psycopg.errors.InsufficientPrivilege):
                self.close()
            raise NoLook(f"PostgreSQL: {self._line(error)}") from error
        finally:
            hangs.cancel()

    def _line(self, error: Exception) -> str:
        text = (str(error).strip() or type(error).__name__).splitlines()[0]
        return without_password(text, self._url)

    def _ask(self, statement: str, values: Mapping[str, Any] | None = None) -> list[dict[str, Any]]:
        return self._connected().execute(statement, values).fetchall()

    def _connected(self) -> psycopg.Connection[dict[str, Any]]:
        left = count_of_hosts(self._options)
        while self._connection is None or self._connection.closed:
            try:
                self._connection = psycopg.connect(
                    make_conninfo(**self._options), autocommit=True, row_factory=dict_row
                )
                self._connection.execute("SET default_transaction_read_only = on")
            except psycopg.Error:
                self.close()
                turn_hosts(self._options)
                if (left := left - 1) == 0:
                    raise
        return self._connection

    def _look(self) -> SourceLook:
        [found] = self._ask(statements.LOOK)
        pages = self._ask(statements.PAGES) if found["has_pages"] else ()
        look = Look(
            tuple(Row(**row) for row in found["databases"]),
            tuple(KeeperRow(**row) for row in found["keepers"]),
            tuple(StandbyRow(**row) for row in found["standbys"]),
            Synchronous(found["names"], found["standbys_of_postgresql"]),
            tuple(PagesRow(**row) for row in pages),
        )
        generations = self._new_generations(look.rows)
        if not found["has_trail"]:
            return SourceLook(look, generations)
        lists = self._ask(
            statements.LISTS if found["has_runs"] else statements.LISTS_BY_NAME, {"format": FORMAT}
        )
        return SourceLook(
            look,
            generations,
            tuple(self._new_pieces(lists)),
            {row["log"]: row["whose"] for row in lists},
        )

    def _new_generations(self, rows: Iterable[Row]) -> dict[int, tuple[Generation, ...]]:
        now = {row.id: (row.generation, row.run) for row in rows}
        changed = [id for id, run in now.items() if self._generations.get(id) != run]
        found: dict[int, list[Generation]] = {}
        if changed:
            for row in self._ask(statements.GENERATIONS, {"logs": changed, "most": GENERATIONS}):
                found.setdefault(row.pop("log"), []).append(Generation(**row))
        self._generations = now
        return {id: tuple(generations) for id, generations in found.items()}

    def _new_pieces(self, lists: list[dict[str, Any]]) -> Iterable[Recorded]:
        """The pieces that have come, in the order in which they were seen."""
        keys = {row["id"]: (row["id"], row["of_run"]) for row in lists}
        of = {row["id"]: row for row in lists}
        due = [id for id, row in of.items() if row["kept"] >= self._next.get(keys[id], 1)]
        if not due:
            return
        values = {
            "lists": due,
            "firsts": [self._next.get(keys[id], 1) for id in due],
            "most": PIECES,
            "since": int((time.time() - PAST) * 1e6),
        }
        rows = self._ask(statements.PIECES, values)
        for row in rows:
            self._next[keys[row["list"]]] = row["first"] + row["count"]
            yield Recorded(of[row["list"]]["name"], _piece_of(row), of[row["list"]]["whose"])
        if len(rows) < PIECES:
            for id, row in of.items():  # the rest is older
                self._next[keys[id]] = max(row["kept"] + 1, self._next.get(keys[id], 1))


def _piece_of(row: Mapping[str, Any]) -> Piece | None:
    try:
        lines = zlib.decompress(bytes(row["data"]))
    except zlib.error:
        return None
    return (
        Piece(row["first"], row["seen"], lines) if len(lines) == row["count"] * LINE_SIZE else None
    )
