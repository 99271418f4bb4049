"""What an archive asks of its database, whichever it is.

A statement is a constant, and each value that comes from outside is bound: its place is written %(name)s. All that is changed
together is changed in `Engine.begin`; a statement that reads is one of its own.
"""

from __future__ import annotations

from abc import ABC, abstractmethod
from contextlib import AbstractContextManager, contextmanager
from dataclasses import dataclass
from typing import Any, ClassVar, Iterator, Mapping, Sequence

from pagelog.archive.url import ArchiveError

Row = tuple[Any, ...]


@dataclass(frozen=True)
class BulkInsert:
    """Rows that are inserted at once: their table, and its columns with their types in PostgreSQL, which has them as arrays."""

    table: str
    types: Mapping[str, str]


class SqlSession(ABC):
    """One connection, for as long as a `with` lasts."""

    @abstractmethod
    def rows(self, statement: str, **values: object) -> list[Row]:
        """The rows of a statement."""

    @abstractmethod
    def change(self, statement: str, **values: object) -> int:
        """How many rows a statement has changed."""

    @abstractmethod
    def insert(self, into: BulkInsert, rows: Sequence[Sequence[object]]) -> None:
        """Inserts all of them."""

    def value(self, statement: str, **values: object) -> Any:
        """The one value of a statement that has one row. Raises `ArchiveError` where that is gone."""
        for [value] in self.rows(statement, **values):
            return value
        raise ArchiveError(
            "a row of the archive is gone: another program has taken it away meanwhile"
        )


class Engine(ABC):
    """How a database is reached. Threads may share one, and a process goes on with it that was forked between two statements."""

    error: ClassVar[type[Exception]]
    """Whatever the database, or the way there, has raised."""
    integrity_error: ClassVar[type[Exception]]
    """One of these: a row is there already."""
    begins: ClassVar[str] = "BEGIN"
    """The statement that begins a transaction."""
    table_is_there: ClassVar[str]
    column_is_there: ClassVar[str]
    """The statements that say so of a %(table)s, and of its %(column)s."""
    types: ClassVar[Mapping[str, str]]
    """What `{serial}` and `{bytes}` are in a statement that makes a table."""

    @abstractmethod
    def session(self) -> AbstractContextManager[SqlSession]:
        """A connection on which each statement is committed by itself."""

    @contextmanager
    def begin(self) -> Iterator[SqlSession]:
        """One on which all are one transaction: committed at the end of the `with`, and none of them where that is left by an error."""
        with self.session() as session:
            session.change(self.begins)
            yield session
            session.change("COMMIT")

    @abstractmethod
    def close(self) -> None:
        """Closes the connections that nobody has."""

    def rows(self, statement: str, **values: object) -> list[Row]:
        """The rows of one statement that reads."""
        with self.session() as session:
            return session.rows(statement, **values)

    def value(self, statement: str, **values: object) -> Any:
        """The one value of one statement that reads."""
        with self.session() as session:
            return session.value(statement, **values)

    def has_table(self, table: str) -> bool:
        """Whether there is a table of this name."""
        return bool(self.value(self.table_is_there, table=table))

    def has_column(self, table: str, column: str) -> bool:
        """Whether there is such a table, and it has the column."""
        return bool(self.value(self.column_is_there, table=table, column=column))

    def make(self, tables: Mapping[str, str]) -> None:
        """Makes those tables that are not there, by the statements that they have here, in one transaction. Where another does so at the
        same time, the error of the database is raised."""
        missing = [script for table, script in tables.items() if not self.has_table(table)]
        if missing:
            with self.begin() as session:
                for statement in statements_of(missing, self.types):
                    session.change(statement)


def statements_of(scripts: Sequence[str], types: Mapping[str, str]) -> list[str]:
    """The statements of scripts, in the words of a database."""
    worded = (script.format(**types) for script in scripts)
    return [
        " ".join(each.split()) for script in worded for each in script.split(";") if each.strip()
    ]


def bytes_of(value: object) -> bytes:
    """A value that is bytes. Raises `TypeError`: where a bit is wrong, SQLite has a text or a number in the place of bytes."""
    if not isinstance(value, bytes):
        raise TypeError(f"{type(value).__name__} is not bytes")
    return value
