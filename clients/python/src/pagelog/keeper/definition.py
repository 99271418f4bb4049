"""What PostgreSQL alone has of a database, and has lost where it went back to before that was created: the table with its tokens, and the
secret of the keepers. It stands in the memory that the process of a service has open, behind the number of acknowledged.py: so it lives as
long as what it is of, and is on no disk. It is sealed by a key of the keeper's folder, for this run alone: the process can neither read it
nor put another in its place. `rescue` takes it from there."""

from __future__ import annotations

import json
import mmap
import os
import secrets
import struct
from contextlib import suppress
from dataclasses import dataclass, field
from pathlib import Path
from threading import Lock
from typing import Any

from cryptography.exceptions import InvalidTag
from cryptography.hazmat.primitives.ciphers.aead import AESGCM

_FIRST, _ROOM = mmap.PAGESIZE, 1 << 24
"""Where the first of two places begins, and how far the second is behind it. What is not written takes no memory."""
_HEAD = struct.Struct(">QL")
_FILE, _making = "memory.key", Lock()
"""Of a keeper's folder. One keeper at a time has that, with many threads."""
_KEY, _NONCE = 32, 12
"""Bytes."""


@dataclass(frozen=True)
class Seal:
    """Of one run: AES-256-GCM by this key, bound to the run and to a number."""

    key: bytes = field(repr=False)
    run: str

    @classmethod
    def found(cls, folder: Path, run: str) -> Seal | None:
        """By the key of a keeper's folder; None where it has none. Raises `OSError`."""
        with suppress(FileNotFoundError):
            key = (folder / _FILE).read_bytes()
            return (
                cls(key, run) if len(key) == _KEY else None
            )  # a machine that died has left an empty one
        return None

    @classmethod
    def made(cls, folder: Path, run: str) -> Seal:
        """By that key, which is made where there is none. Raises `OSError`."""
        if (known := cls.found(folder, run)) is not None:
            return known
        with _making:
            if cls.found(folder, run) is None:
                fresh = folder / f"{_FILE}.new"
                fresh.unlink(missing_ok=True)
                with open(fresh, "xb", opener=private) as opened:
                    opened.write(secrets.token_bytes(_KEY))
                fresh.replace(folder / _FILE)
        found = cls.found(folder, run)
        assert found is not None
        return found

    def closed(self, count: int, plain: bytes) -> bytes:
        """What is written in place of it, as the one of this number."""
        nonce = secrets.token_bytes(_NONCE)
        return nonce + AESGCM(self.key).encrypt(nonce, plain, self._bound_to(count))

    def opened(self, count: int, data: bytes) -> bytes | None:
        """What was closed as the one of this number; None of anything else."""
        with suppress(InvalidTag, ValueError):
            return AESGCM(self.key).decrypt(data[:_NONCE], data[_NONCE:], self._bound_to(count))
        return None

    def _bound_to(self, count: int) -> bytes:
        return f"{self.run} {count}".encode()


@dataclass(frozen=True)
class Definition:
    """Of a database: its identity, its newest table, the secret of its keepers, and of a copy the name of what it was made of."""

    identity: str
    text: str = field(repr=False)
    secret: bytes = field(repr=False)
    ancestor: str | None = None

    def note(self, memory: int, seal: Seal) -> None:
        """Writes it beside the one before, which stays in force until this one is there whole. Raises `OSError`."""
        count = max((count for count, _ in _found(memory, seal)), default=0) + 1
        data = seal.closed(count, json.dumps({**vars(self), "secret": self.secret.hex()}).encode())
        if _HEAD.size + len(data) > _ROOM:
            raise OSError("the table is too long")
        place = _FIRST + count % 2 * _ROOM
        os.pwrite(memory, data, place + _HEAD.size)
        os.pwrite(memory, _HEAD.pack(count, len(data)), place)

    @classmethod
    def noted(cls, memory: int, seal: Seal) -> Definition | None:
        """The newest one; None where there is none, as an older keeper notes none."""
        newest = max(_found(memory, seal), key=lambda each: each[0], default=None)
        if newest is None:
            return None
        found: dict[str, Any] = json.loads(newest[1])
        return cls(
            found["identity"], found["text"], bytes.fromhex(found["secret"]), found["ancestor"]
        )


def _found(memory: int, seal: Seal) -> list[tuple[int, bytes]]:
    """Those that are whole, each with its number."""
    found = []
    for place in (_FIRST, _FIRST + _ROOM):
        head = os.pread(memory, _HEAD.size, place)
        if len(head) < _HEAD.size:
            continue
        count, length = _HEAD.unpack(head)
        data = os.pread(memory, min(length, _ROOM), place + _HEAD.size)
        if count and len(data) == length and (plain := seal.opened(count, data)) is not None:
            found.append((count, plain))
    return found


def private(path: str, flags: int) -> int:
    """An opener. A service of another user has the descriptor, and may open what it is of once more."""
    return os.open(path, flags, 0o600)
