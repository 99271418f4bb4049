"""The URL of an archive: a file of SQLite, or a database of PostgreSQL."""

from __future__ import annotations

import os
import re
from dataclasses import dataclass
from pathlib import Path
from typing import Any
from urllib.parse import parse_qsl, unquote

from pagelog.errors import PagelogError

_NONE = (
    "the URL of the archive is none: it is as sqlite:///FILE or postgresql://USER@HOST/NAME, and @, : and / of a password are "
    "written %40, %3A and %2F"
)


class ArchiveError(PagelogError):
    """Something is wrong with an archive, or with what it is to be used for."""


@dataclass(frozen=True)
class SqliteUrl:
    """A file of SQLite. `name` is what SQLite opens: a path, or a URI that begins with `file:`."""

    text: str
    name: str

    @property
    def is_uri(self) -> bool:
        """Whether SQLite reads the name as a URI."""
        return self.name.startswith("file:")

    @property
    def file(self) -> Path | None:
        """The file; None for a database in memory, which ends with its process."""
        path, _, query = self.name.removeprefix("file:").partition("?")
        if path.startswith(":memory:") or (self.is_uri and ("mode", "memory") in parse_qsl(query)):
            return None
        return Path(unquote(path)) if self.is_uri else Path(self.name)

    @property
    def password(self) -> None:
        """It has none."""

    @property
    def shown(self) -> str:
        """The URL, for people."""
        return self.text


@dataclass(frozen=True)
class PostgresUrl:
    """A database of PostgreSQL, by libpq's names."""

    text: str
    options: dict[str, Any]

    @property
    def password(self) -> str | None:
        """The password, if it says one."""
        return self.options.get("password")

    @property
    def shown(self) -> str:
        """The URL without its password, for people."""
        shown = re.sub(r"(//[^:/?@]*:)[^/?@]*@", r"\1***@", self.text)
        return re.sub(r"([?&]password=)[^&]*", r"\1***", shown)


ArchiveUrl = SqliteUrl | PostgresUrl


def parsed_url(url: str) -> ArchiveUrl:
    """The URL of an archive. Raises `ArchiveError`, which does not show it: it may have a password."""
    if not isinstance(url, str):
        raise ArchiveError("the URL of the archive is no text")
    scheme, mark, rest = url.partition("://")
    if not mark or not re.fullmatch(r"\w+(\+\w+)?", scheme):
        raise ArchiveError(_NONE)
    kind = scheme.partition("+")[0]  # behind it stood a driver, of which older versions had several
    if kind == "sqlite":
        return _of_sqlite(url, rest)
    if kind == "postgresql":
        return _of_postgresql(url)
    raise ArchiveError(f"an archive is of SQLite or PostgreSQL, and not of {kind!r}")


def _of_sqlite(url: str, rest: str) -> SqliteUrl:
    if rest and not rest.startswith("/"):
        raise ArchiveError(
            "the URL of an archive in SQLite is as sqlite:///FILE, and for a whole path sqlite:////FOLDER/FILE"
        )
    name, _, query = rest.removeprefix("/").partition("?")
    if name.startswith("file:"):
        kept = [word for word in query.split("&") if word and not word.startswith("uri=")]
        return SqliteUrl(url, "?".join([name, "&".join(kept)]) if kept else name)
    if query:
        raise ArchiveError(
            "the URL of an archive in SQLite names a file and no more: sqlite:///FILE, or sqlite:///file:FILE?WORDS&uri=true"
        )
    return SqliteUrl(url, os.path.abspath(name) if name and name != ":memory:" else ":memory:")


def _of_postgresql(url: str) -> PostgresUrl:
    from pagelog.libpq import (
        UnreadableUrl,
        options_of_url,
    )  # whose archive is a file needs no psycopg

    try:
        return PostgresUrl(url, options_of_url(url))
    except UnreadableUrl:
        raise ArchiveError(_NONE) from None


def is_in_memory(url: str) -> bool:
    """Whether it is a database of SQLite that ends with its process. Raises `ArchiveError` for a URL that is none."""
    parsed = parsed_url(url)
    return isinstance(parsed, SqliteUrl) and parsed.file is None


def file_is_missing(url: str) -> bool:
    """Whether it is a file of SQLite that is not there. To look into it would make it."""
    parsed = parsed_url(url)
    return isinstance(parsed, SqliteUrl) and parsed.file is not None and not parsed.file.exists()


def without_password(text: str, url: str | None) -> str:
    """The text of an error without the password of the URL, should it quote it."""
    try:
        password = parsed_url(url).password if url else None
    except ArchiveError:
        return text
    return text.replace(password, "***") if password else text
