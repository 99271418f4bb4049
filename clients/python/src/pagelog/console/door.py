"""Who may look: anybody on this machine, or whoever has the token. The token is in no URL, no log and no cookie."""

from __future__ import annotations

import hashlib
import hmac
import os
import secrets
import stat
import time
from pathlib import Path
from typing import Callable

from aiohttp import web

from pagelog.errors import CredentialsError

COOKIE = "pagelog_console"
LASTS = 12 * 3600
"""Seconds for which a login is good."""
_NUMBER = 16
"""Digits of the number of a login."""
LEAST = 16
"""The fewest characters of a token."""
_LOCAL_NAMES = ("localhost", "127.0.0.1", "[::1]")


def read_token(file: Path) -> str:
    """The token in the first line of a file that nobody else may read. Raises `CredentialsError`."""
    try:
        with file.open(encoding="ascii") as opened:
            told = os.fstat(opened.fileno())
            if stat.S_ISREG(told.st_mode) and told.st_mode & 0o077:
                raise CredentialsError(f"others may read {file}: chmod 600 {file}")
            token = opened.readline().strip()
    except (OSError, UnicodeDecodeError) as error:
        raise CredentialsError(
            f"{file}: {error.strerror if isinstance(error, OSError) else 'it is no text'}"
        ) from error
    if len(token) < LEAST or not token.isprintable() or " " in token:
        raise CredentialsError(f"{file}: a token has {LEAST} characters or more, and no space")
    return token


class Door:
    """With a token it lets in who has it, or a cookie that was given for it. Without one it lets in whose URL names this machine:
    a page of another site could else read all, by a name of its own that leads here."""

    def __init__(
        self, token: str | None, host: str = "", clock: Callable[[], float] = time.time
    ) -> None:
        self._token = None if token is None else token.encode()
        self._hosts = {*_LOCAL_NAMES, host}
        self._clock = clock
        self._key = secrets.token_bytes(32)
        """Of this process: with it all logins end."""
        self._ended: dict[str, int] = {}
        """The cookies that were logged out, and when each would have ended by itself."""

    @property
    def wants_token(self) -> bool:
        """Whether there is a token."""
        return self._token is not None

    def lets_in(self, request: web.Request) -> bool:
        """Whether this request may be answered."""
        if self._token is None:
            return _host_of(request.headers.get("Host", "")) in self._hosts
        kind, _, given = request.headers.get("Authorization", "").partition(" ")
        if kind.lower() == "bearer" and self.is_token(given.strip()):
            return True
        return self._is_good(request.cookies.get(COOKIE, ""))

    def is_token(self, given: str) -> bool:
        """Compares in a time that does not depend on where they differ."""
        return self._token is not None and hmac.compare_digest(
            given.encode("utf-8", "surrogatepass"), self._token
        )

    def cookie(self) -> str:
        """A value that is good until a time, which it has in it."""
        until, number = str(int(self._clock()) + LASTS), secrets.token_hex(_NUMBER // 2)
        return f"{until}.{number}{self._seal(until, number)}"

    def end(self, cookie: str) -> None:
        """Logs out: this cookie is good no more."""
        if self._is_good(cookie):
            now = self._clock()
            self._ended = {each: until for each, until in self._ended.items() if until > now}
            self._ended[cookie] = int(cookie.partition(".")[0])

    def _is_good(self, cookie: str) -> bool:
        until, _, rest = cookie.partition(".")
        number, seal = rest[:_NUMBER], rest[_NUMBER:]
        is_sealed = hmac.compare_digest(
            seal.encode("utf-8", "surrogatepass"), self._seal(until, number).encode()
        )
        return (
            is_sealed
            and until.isdecimal()
            and int(until) > self._clock()
            and cookie not in self._ended
        )

    def _seal(self, until: str, number: str) -> str:
        assert self._token is not None
        said = f"pagelog console until {until}, login {number}".encode("utf-8", "surrogatepass")
        return hmac.new(self._key + self._token, said, hashlib.sha256).hexdigest()


def _host_of(header: str) -> str:
    """The host of a header, without its port: `[::1]:7480` is `[::1]`."""
    name, colon, port = header.rpartition(":")
    return (name if colon and port.isdecimal() else header).lower()
