"""An archive in a file of SQLite, by the standard library: for who has one machine, and no PostgreSQL."""

from __future__ import annotations

import os
import re
import sqlite3
from contextlib import closing, contextmanager, suppress
from functools import cache
from pathlib import Path
from typing import Iterator, Sequence

from pagelog.archive.session import BulkInsert, Engine, Row, SqlSession
from pagelog.archive.url import ArchiveError, SqliteUrl

BUSY_SECONDS = 4.0
"""How long a statement waits for another process."""


class SqliteEngine(Engine):
    """Each `with` has a connection of its own: SQLite's must not be carried into a forked process."""

    error = sqlite3.Error
    integrity_error = sqlite3.IntegrityError
    begins = "BEGIN IMMEDIATE"
    """It has the write lock from there on, for which it waits: one that reads first could not wait for it later."""
    table_is_there = "SELECT count(*) > 0 FROM pragma_table_info(%(table)s)"
    column_is_there = f"{table_is_there} WHERE name = %(column)s"
    types = {"serial": "INTEGER", "bytes": "BLOB"}

    def __init__(self, url: SqliteUrl) -> None:
        """Makes the file where it is not there. Raises `ArchiveError` for a database in memory."""
        self._url = url
        if url.file is None:
            raise ArchiveError(
                "an archive in memory is gone when this ends: name a file, as sqlite:///FILE"
            )
        _make_private(url.file)

    @contextmanager
    def session(self) -> Iterator[SqlSession]:
        """What is left open by an error is rolled back as its connection is closed."""
        with closing(
            sqlite3.connect(
                self._url.name, timeout=BUSY_SECONDS, isolation_level=None, uri=self._url.is_uri
            )
        ) as connection:
            connection.text_factory = _text
            # A commit is on the disk before it returns, and readers do not wait for the archiver.
            connection.execute("PRAGMA journal_mode=WAL")
            connection.execute("PRAGMA synchronous=FULL")
            yield SqliteSession(connection)

    def close(self) -> None:
        """There is no connection that nobody has."""


class SqliteSession(SqlSession):
    """A connection of sqlite3."""

    def __init__(self, connection: sqlite3.Connection) -> None:
        self._connection = connection

    def rows(self, statement: str, **values: object) -> list[Row]:
        """As of any database."""
        return self._connection.execute(_named(statement), values).fetchall()

    def change(self, statement: str, **values: object) -> int:
        """As of any database."""
        return self._connection.execute(_named(statement), values).rowcount

    def insert(self, into: BulkInsert, rows: Sequence[Sequence[object]]) -> None:
        """As of any database."""
        self._connection.executemany(_insertion(into.table, tuple(into.types)), rows)


def _make_private(file: Path) -> None:
    """Makes the file with mode 600 where it is not there: it will have all that the service holds."""
    if file.parent.is_dir():
        with suppress(OSError):  # it is there, or it cannot be made, which SQLite reports
            os.close(os.open(file, os.O_CREAT | os.O_EXCL | os.O_WRONLY, 0o600))


def _text(data: bytes) -> str:
    """A text as it is read. One that is none was something else, before a bit was wrong."""
    return data.decode(errors="replace")


@cache
def _named(statement: str) -> str:
    """The statement with its places as SQLite has them."""
    return re.sub(r"%\((\w+)\)s", r":\1", statement)


@cache
def _insertion(table: str, columns: tuple[str, ...]) -> str:
    return f"INSERT INTO {table} ({', '.join(columns)}) VALUES ({', '.join('?' for _ in columns)})"
