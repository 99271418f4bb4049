"""A connection to PostgreSQL that keeps batches: its statements can be prepared for another who asks them."""

from __future__ import annotations

import hashlib
import re

import psycopg
from psycopg import pq

from pagelog.referee.referee import Referee

_VALUE = re.compile(r"%\((\w+)\)([sb])")


class Prepared:
    """A statement that is prepared once on a connection."""

    def __init__(self, connection: psycopg.Connection[object], statement: str) -> None:
        """It waits for the server. `statement` is as psycopg has it: %(name)s is a text, a number or an array, %(name)b bytes."""
        self.name = f"pagelog {hashlib.sha256(statement.encode()).hexdigest()}"[:63].encode()
        """Its name on the connection."""
        self._connection = connection
        self.names: list[str] = []
        """Those of its values, in their order."""
        result = connection.pgconn.prepare(self.name, _VALUE.sub(self._number, statement).encode())
        if result.status != pq.ExecStatus.COMMAND_OK:
            raise psycopg.errors.error_from_result(result)

    @property
    def connection(self) -> int | None:
        """The address of libpq's connection."""
        address: int | None = getattr(
            self._connection.pgconn, "pgconn_ptr"
        )  # which the protocol of psycopg's types lacks
        return address

    def _number(self, found: re.Match[str]) -> str:
        name = found[1]
        if name not in self.names:
            self.names.append(name)
        return f"${self.names.index(name) + 1}"


class QuickReferee(Referee):
    """A referee for statements of arrays: to plan one takes longer than to carry it out."""

    def _connect(self) -> None:
        super()._connect()
        assert self._connection is not None
        self._connection.execute("SET plan_cache_mode = force_generic_plan")
        # Of the few rows of a statement each is found by its key, however many a table has, or was thought to have.
        self._connection.execute("SET enable_seqscan = off")

    def prepare_if_free(self, statement: str) -> Prepared | None:
        """As `prepare_statement`; None where a table of it is locked, as a trail's may be for long."""
        connection = self._connected()
        try:
            connection.execute("SET lock_timeout = '100ms'")
            try:
                return Prepared(connection, statement)
            except psycopg.errors.LockNotAvailable:
                return None
            finally:
                connection.execute("RESET lock_timeout")
        except Exception as error:
            raise self._meaning(error) from error

    def prepare_statement(self, statement: str) -> Prepared:
        """The statement, prepared on the connection. Raises `Away`, `Refused` or `Doubt`."""
        connection = self._connected()
        try:
            return Prepared(connection, statement)
        except Exception as error:
            raise self._meaning(error) from error
