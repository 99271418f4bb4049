"""Tables of principals as PostgreSQL has them: sealed by a key of the keepers' own file, so that a dump of it gives nobody a token.

The file has a key a line, 64 hexadecimal digits: by the first one is written, and any of them reads. So one key follows another: each
keeper gets the next one as a first line, `pagelogctl seal` seals all again, and the old line goes. What is sealed is of one database, whose
identity is its associated data: in the row of another one it is nothing.
"""

from __future__ import annotations

import hashlib
import json
import os
import re
import secrets
import stat
from dataclasses import dataclass
from pathlib import Path
from typing import Any

from pagelog.errors import CredentialsError, PagelogError

KEYS = "keys of tables"
"""In the report of each keeper: the ids of the keys that it has. No name of a database has a space."""
INSTEAD = "# This table is sealed: keepers read it by [archive] key_file.\n"
"""What has its place in the column that older keepers read: to them it is no table."""
_KEY = re.compile(r"[0-9a-f]{64}")
_NONCE = 12


class NoKey(PagelogError):
    """The table is sealed, and this process has not the key, or it was sealed for another database."""


@dataclass(frozen=True)
class Stored:
    """The columns of a table of principals. Where `key` is None they are plain."""

    text: str
    secret: bytes
    sealed: bytes | None = None
    key: str | None = None


def id_of(key: bytes) -> str:
    """What a key is called where everybody reads it."""
    return hashlib.sha256(b"pagelog key " + key).hexdigest()[:16]


class Keys:
    """The keys of a file, which is read again once it has changed. Without a file there is none, and what is written is plain."""

    def __init__(self, file: Path | None = None, *, is_plain: bool = False) -> None:
        """`is_plain`: what is written is so all the same."""
        self._file, self._is_plain = file, is_plain
        self._seen: tuple[int, int] | None = None
        self._keys: dict[str, bytes] = {}

    @property
    def ids(self) -> list[str]:
        """Those that are there, first the one by which is written. Raises `CredentialsError`."""
        return list(self._read())

    @property
    def writes_by(self) -> str | None:
        """That one; None where what is written is plain. Raises `CredentialsError`."""
        return None if self._is_plain else next(iter(self._read()), None)

    def store(self, identity: str, text: str, secret: bytes) -> Stored:
        """What is written of the table of the database of this identity. Raises `CredentialsError`."""
        if (id := self.writes_by) is None:
            return Stored(text, secret)
        key = self._keys[id]
        nonce = secrets.token_bytes(_NONCE)
        plain = json.dumps({"text": text, "secret": secret.hex()}).encode()
        return Stored(
            INSTEAD, b"", nonce + _cipher(key).encrypt(nonce, plain, _associated(identity)), id
        )

    def open(self, identity: str, stored: Stored) -> tuple[str, bytes]:
        """The text and the secret. Raises `NoKey`, and `CredentialsError`."""
        if stored.sealed is None or stored.key is None:
            return stored.text, stored.secret
        if (key := self._read().get(stored.key)) is None:
            where = (
                "no [archive] key_file is named"
                if self._file is None
                else f"{self._file} has it not"
            )
            raise NoKey(f"the table is sealed by key {stored.key}, and {where}")
        from cryptography.exceptions import InvalidTag

        try:
            plain = _cipher(key).decrypt(
                stored.sealed[:_NONCE], stored.sealed[_NONCE:], _associated(identity)
            )
        except (InvalidTag, ValueError) as error:
            raise NoKey(
                f"the table is not what was sealed by key {stored.key} for this database"
            ) from error
        found = json.loads(plain)
        return str(found["text"]), bytes.fromhex(found["secret"])

    def _read(self) -> dict[str, bytes]:
        if self._file is None:
            return {}
        try:
            with self._file.open("rb") as opened:
                told = os.fstat(opened.fileno())
                if self._seen != (told.st_mtime_ns, told.st_ino):
                    self._keys = _keys_of(self._file, told, opened.read().decode("ascii"))
                    self._seen = told.st_mtime_ns, told.st_ino
        except OSError as error:
            raise CredentialsError(f"[archive] key_file: {self._file}: {error.strerror}") from error
        except UnicodeDecodeError as error:
            raise CredentialsError(
                f"[archive] key_file: {self._file}: a key is 64 hexadecimal digits a line"
            ) from error
        return self._keys


def _keys_of(file: Path, told: os.stat_result, text: str) -> dict[str, bytes]:
    if stat.S_ISREG(told.st_mode) and told.st_mode & 0o077:
        raise CredentialsError(
            f"[archive] key_file: others may read {file.name}: chmod 600 {file.name}"
        )
    lines = [line.strip() for line in text.splitlines() if line.strip()]
    if not lines or not all(_KEY.fullmatch(line) for line in lines):
        raise CredentialsError(
            f"[archive] key_file: {file}: a key is 64 hexadecimal digits a line, as of `openssl rand -hex 32`"
        )
    return {id_of(key): key for key in map(bytes.fromhex, lines)}


def _associated(identity: str) -> bytes:
    return f"pagelog table {identity}".encode()


def _cipher(key: bytes) -> Any:
    try:
        from cryptography.hazmat.primitives.ciphers.aead import AESGCM
    except ImportError as error:
        raise CredentialsError(
            "[archive] key_file needs python3-cryptography: apt-get install python3-cryptography"
        ) from error
    return AESGCM(key)
