"""An archive in PostgreSQL, by psycopg. No wait is without an end, and a signal ends each at once."""

from __future__ import annotations

import os
import time
from contextlib import contextmanager
from functools import cache
from typing import Any, Iterator, Sequence, TypeVar

import psycopg
from psycopg.abc import PQGen
from psycopg.conninfo import make_conninfo
from psycopg.pq import TransactionStatus

from pagelog.archive.session import BulkInsert, Engine, Row, SqlSession
from pagelog.archive.url import PostgresUrl
from pagelog.libpq import count_of_hosts, ready_by_poll, turn_hosts

CONNECT_SECONDS = 5
"""How long a connection may take."""
STATEMENT_SECONDS = 30.0
"""How long a statement may take, as PostgreSQL counts it."""
WAIT_SECONDS = STATEMENT_SECONDS
"""The same as the one who waits counts it, where nothing comes."""
_HEARD_SECONDS = 1.0
"""How long a wait may go on after a signal that came just before it, which Python hears once the wait is over."""
_OPTIONS = {
    "connect_timeout": CONNECT_SECONDS,
    "keepalives": 1,
    "keepalives_idle": 10,
    "keepalives_interval": 5,
    "keepalives_count": 3,
    "tcp_user_timeout": 20000,
    "application_name": "pagelog",
    "options": f"-c statement_timeout={int(STATEMENT_SECONDS * 1000)}",
    "client_encoding": "UTF8",  # else psycopg has bytes for the texts of a database that says of none what it is
}
_Result = TypeVar("_Result")


class BoundConnection(psycopg.Connection[Row]):
    """A connection whose waits have ends. psycopg's own have none, and one that a signal ends waits for a cancel, and then again."""

    def wait(self, gen: PQGen[_Result], timeout: float | None = None) -> _Result:
        """Does what psycopg asks for in steps, each of which may wait for PostgreSQL."""
        ends = time.monotonic() + WAIT_SECONDS
        try:
            wanted = next(gen)
            while True:
                left = ends - time.monotonic()
                ready = ready_by_poll(self.pgconn.socket, wanted, min(left, _HEARD_SECONDS))
                if ready is not None:
                    wanted = gen.send(ready)
                elif left <= _HEARD_SECONDS:
                    raise psycopg.OperationalError(
                        f"PostgreSQL was silent for {WAIT_SECONDS:.0f} s"
                    )
        except StopIteration as end:
            result: _Result = end.value
            return result


class PostgresEngine(Engine):
    """Connections that nobody has are kept for the next one, who sees first whether PostgreSQL still answers."""

    error = psycopg.Error
    integrity_error = psycopg.IntegrityError
    table_is_there = "SELECT to_regclass(%(table)s) IS NOT NULL"
    column_is_there = "SELECT count(*) > 0 FROM pg_attribute WHERE attrelid = to_regclass(%(table)s) AND attname = %(column)s AND NOT attisdropped"
    types = {"serial": "SERIAL", "bytes": "BYTEA"}

    def __init__(self, url: PostgresUrl) -> None:
        """Connects to nothing yet. What the URL itself says goes before."""
        self._options: dict[str, Any] = {**_OPTIONS, **url.options}
        self._idle: list[BoundConnection] = []
        self._process = os.getpid()
        self._anothers: list[BoundConnection] = []
        """Those of the process of which this one was forked: to close one would end that one's session."""

    @contextmanager
    def session(self) -> Iterator[SqlSession]:
        """A connection of which it is not certain that nothing is left open is closed, which waits for nobody."""
        connection, is_free = self._taken(), False
        try:
            yield PostgresSession(connection)
            is_free = True
        except Exception:
            is_free = _is_rolled_back(connection)
            raise
        finally:
            if is_free:
                self._own_idle().append(connection)
            else:
                connection.close()

    def _taken(self) -> BoundConnection:
        """One that answers, or a new one."""
        idle = self._own_idle()
        while idle:
            try:
                connection = idle.pop()
            except IndexError:
                break  # another thread has it
            if _answers(connection):
                return connection
        return self._connected()

    def _own_idle(self) -> list[BoundConnection]:
        if self._process != os.getpid():
            self._anothers, self._idle, self._process = self._idle, [], os.getpid()
        return self._idle

    def _connected(self) -> BoundConnection:
        """A new connection, to the first host that can be reached."""
        left = count_of_hosts(self._options)
        while True:
            try:
                made = BoundConnection.connect(
                    make_conninfo(**self._options), autocommit=True, prepare_threshold=None
                )
                assert isinstance(made, BoundConnection)
                return made
            except psycopg.OperationalError:
                turn_hosts(self._options)
                if (left := left - 1) == 0:
                    raise

    def close(self) -> None:
        """As of any database."""
        idle = self._own_idle()
        while idle:
            idle.pop().close()


class PostgresSession(SqlSession):
    """A connection of psycopg."""

    def __init__(self, connection: psycopg.Connection[Row]) -> None:
        self._connection = connection

    def rows(self, statement: str, **values: object) -> list[Row]:
        """As of any database."""
        return self._connection.execute(statement, values or None, binary=True).fetchall()

    def change(self, statement: str, **values: object) -> int:
        """As of any database."""
        return self._connection.execute(statement, values or None).rowcount

    def insert(self, into: BulkInsert, rows: Sequence[Sequence[object]]) -> None:
        """As one statement, with an array for each column: a fifth of the time that one for each row takes."""
        if rows:
            self._connection.execute(
                _insertion(into.table, tuple(into.types.items())),
                [list(column) for column in zip(*rows)],
            )


def _answers(connection: BoundConnection) -> bool:
    """Whether PostgreSQL still answers over this connection, which else is closed: it may have been restarted."""
    is_sound = False
    try:
        connection.execute("SELECT 1")
        is_sound = True
    except psycopg.Error:
        pass
    finally:
        if not is_sound:
            connection.close()
    return is_sound


def _is_rolled_back(connection: BoundConnection) -> bool:
    """Whether nothing is left open on a connection, after an error."""
    if connection.info.transaction_status in (TransactionStatus.INTRANS, TransactionStatus.INERROR):
        try:
            connection.execute("ROLLBACK")
        except psycopg.Error:
            return False
    return connection.info.transaction_status is TransactionStatus.IDLE


@cache
def _insertion(table: str, types: tuple[tuple[str, str], ...]) -> str:
    arrays = ", ".join(f"%b::{kind}[]" for _, kind in types)
    return f"INSERT INTO {table} ({', '.join(name for name, _ in types)}) SELECT * FROM unnest({arrays})"
