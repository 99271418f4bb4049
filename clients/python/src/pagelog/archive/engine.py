"""How an archive's database is reached, by its URL."""

from __future__ import annotations

from pagelog.archive.session import Engine
from pagelog.archive.sqlite import SqliteEngine
from pagelog.archive.url import SqliteUrl, parsed_url


def engine_of(url: str) -> Engine:
    """The engine of an archive, whose waits have ends. Raises `ArchiveError`."""
    parsed = parsed_url(url)
    if isinstance(parsed, SqliteUrl):
        return SqliteEngine(parsed)
    from pagelog.archive.postgres import PostgresEngine  # whose archive is a file needs no psycopg

    return PostgresEngine(parsed)
