"""One `pagelog-pages`: a program in C (clients/pages) that keeps the pages of a database on the disk, and answers for them."""

from __future__ import annotations

import os
import struct
import subprocess
from contextlib import suppress
from dataclasses import dataclass
from pathlib import Path
from typing import Iterable, Sequence

from pagelog.errors import PagelogError
from pagelog.pages.table import lines_of
from pagelog.referee.ways import NOWHERE, Way

_LENGTH = struct.Struct(">I")
IMAGES_AT_ONCE = 256
"""Images of one command: 2 MiB."""
BYTES_AT_ONCE = 8 << 20
"""Bytes of the blocks of one command."""


class StoreFailed(PagelogError):
    """The page server's process has ended, or its disk failed. What it has on the disk is as it was a moment before."""


class OtherChain(PagelogError):
    """The blocks that it was given are not those of the archive: what it has above the confirmed position counts for nothing."""


@dataclass(frozen=True)
class ServedBounds:
    """Pages are served up to `confirmed`, blocks are there up to `written`, a crash leaves what is up to `persisted`, and positions from
    `oldest` on are kept. `damage` says why something could not be read."""

    confirmed: int
    written: int
    persisted: int
    oldest: int
    connections: int
    damage: str = ""


@dataclass(frozen=True)
class Serving:
    """By TLS it shows the certificate of a file, with its key; with `clients` to those alone who have a certificate of these authorities for
    the database. `is_only`: and there is no other way to it."""

    file: Path
    clients: Path | None = None
    is_only: bool = False

    def listen(self, host: str) -> str:
        """Where it listens without TLS."""
        return NOWHERE if self.is_only else f"{host}:0"

    def options(self, host: str, identity: str) -> tuple[str, ...]:
        """Of a page server of the database of this identity."""
        wanted = (
            () if self.clients is None else ("--clients", str(self.clients), "--identity", identity)
        )
        return ("--secure", f"{host}:0", "--tls", str(self.file), *wanted)


class PagesProcess:
    """Starts it, tells it what to keep, and ends it. Not for several threads at once."""

    def __init__(self, program: Path, folder: Path, listen: str, *options: str) -> None:
        command = [str(program), "--folder", str(folder), "--listen", listen, *options]
        nothing: dict[str, str] = {}  # of the variables of who starts it
        self._process = subprocess.Popen(
            command, stdin=subprocess.PIPE, stdout=subprocess.PIPE, env=nothing, cwd="/"
        )
        assert self._process.stdin is not None and self._process.stdout is not None
        self._to, self._from = self._process.stdin, self._process.stdout
        try:
            self.address, self.secure = self._addresses(*self._line("listening").split())
            self.where = self._read_where()
        except StoreFailed:
            self.kill()
            raise

    def _addresses(self, address: str, secure: str | None = None) -> tuple[str, Way | None]:
        """Where it listens, and the way to it by TLS."""
        if secure is None:
            return address, None
        is_only = address == NOWHERE
        return secure if is_only else address, Way(secure, is_only)

    @property
    def pid(self) -> int:
        """Of the process."""
        return self._process.pid

    def set_table(self, text: str) -> None:
        """From now on the table of this text decides, `pagelog.pages.table` made it. Nobody is answered before the first one."""
        self._tell("".join(lines_of(text)).encode())

    def close_doors(self) -> None:
        """All connections end, and nobody is answered before the next table."""
        self._tell(b"closed\n")

    def begin(self, position: int, chain: bytes, images: Iterable[tuple[int, bytes]]) -> None:
        """Begins an empty store with the pages at a position; those that are not given are zeros."""
        some: list[bytes] = []
        for page, data in images:
            some.append(_LENGTH.pack(page) + data)
            if len(some) == IMAGES_AT_ONCE:
                self._tell(b"images %d %d\n" % (position, len(some)), *some)
                some = []
        self._tell(b"images %d %d\n" % (position, len(some)), *some)
        self._tell(b"begin %d %s\n" % (position, _hex(chain)))

    def add(self, blocks: Sequence[bytes], chain: bytes | None = None) -> None:
        """Writes the next blocks. With a chain, that of the archive at the last of them, all that is written is confirmed by it.

        Raises `OtherChain` where it is another.
        """
        *first, last = pieces(blocks)
        for piece in first:
            self._add(piece, b"")
        self._add(last, chain or b"")

    def _add(self, blocks: Sequence[bytes], chain: bytes) -> None:
        parts = [part for block in blocks for part in (_LENGTH.pack(len(block)), block)]
        self._tell(b"blocks %d %d %s\n" % (len(blocks), sum(map(len, parts)), _hex(chain)), *parts)

    def forget(self, oldest: int) -> None:
        """What only positions below this one need is forgotten."""
        self._tell(b"forget %d\n" % oldest)

    def flush(self) -> None:
        """Brings what is in memory to the disk."""
        self._tell(b"flush\n")

    def ask(self) -> ServedBounds:
        """Where it is now."""
        self._tell(b"where\n")
        return self.where

    def end(self) -> None:
        """Ends it in order: all of it is on the disk."""
        with suppress(OSError):  # it has ended by itself
            self._to.close()
        self._process.wait()
        self._from.close()

    def put_away(self) -> None:
        """From now on nobody is answered; what it has in memory alone goes to the disk, and it ends."""
        with suppress(StoreFailed):  # it is ending by itself, in the same order
            self.close_doors()
        self.end()

    def kill(self) -> None:
        """Ends it as it is."""
        self._process.kill()
        self.end()

    def _tell(self, command: bytes, *parts: bytes) -> None:
        try:
            self._to.write(command)
            for part in parts:
                self._to.write(part)
            self._to.flush()
        except OSError as error:
            raise StoreFailed(
                f"the page server has ended: {os.strerror(error.errno or 0)}"
            ) from error
        self.where = self._read_where()

    def _line(self, wanted: str) -> str:
        line = self._from.readline().decode()
        word, _, rest = line.rstrip("\n").partition(" ")
        if word == "amiss":
            raise OtherChain(
                "the blocks are not those of the archive"
            ) if rest == "another chain" else StoreFailed(rest)
        if word != wanted:
            raise StoreFailed(f"the page server has ended, with {line!r}")
        return rest

    def _read_where(self) -> ServedBounds:
        *numbers, rest = self._line("at").split(" ", 4)
        connections, _, damage = rest.partition(" ")
        confirmed, written, persisted, oldest = map(int, numbers)
        return ServedBounds(confirmed, written, persisted, oldest, int(connections), damage)


def pieces(blocks: Sequence[bytes]) -> list[list[bytes]]:
    """Blocks of one command each: 8 MiB, and a block more."""
    found, size = [list[bytes]()], 0
    for block in blocks:
        if size >= BYTES_AT_ONCE:
            found.append([])
            size = 0
        found[-1].append(block)
        size += len(block)
    return found


def is_rot(why: str) -> bool:
    """Whether a disk has given back what was not written, or nothing."""
    return "Corruption" in why or "Input/output error" in why


def _hex(chain: bytes) -> bytes:
    return chain.hex().encode() or b"-"
