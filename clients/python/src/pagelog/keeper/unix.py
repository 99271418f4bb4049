"""Sockets of this machine, by their paths."""

from __future__ import annotations

import os
import socket
from array import array
from contextlib import contextmanager
from pathlib import Path
from typing import Iterator

LONGEST, MOST = 1 << 16, 4
"""Bytes and descriptors of a message."""
_NUMBER = array("i")


@contextmanager
def near(folder: Path, name: str) -> Iterator[str]:
    """A path of a socket in a folder whose own path may be too long for one."""
    descriptor = os.open(folder, os.O_PATH | os.O_DIRECTORY)
    try:
        yield f"/proc/self/fd/{descriptor}/{name}"
    finally:
        os.close(descriptor)


def private_socket(folder: Path, name: str) -> socket.socket:
    """One that this user alone can connect to, in place of an earlier one. Raises `OSError`."""
    return _listening(folder, name, 0o600, socket.SOCK_STREAM)


def public_socket(folder: Path, name: str) -> socket.socket:
    """One that every user of this machine can connect to, in place of an earlier one; each message is whole. Raises `OSError`."""
    return _listening(folder, name, 0o666, socket.SOCK_SEQPACKET)


def _listening(folder: Path, name: str, mode: int, kind: socket.SocketKind) -> socket.socket:
    (folder / name).unlink(missing_ok=True)
    made = socket.socket(socket.AF_UNIX, kind)
    try:
        with near(folder, name) as path:
            made.bind(path)
        (folder / name).chmod(mode)  # before it listens
        made.listen()
    except BaseException:
        made.close()
        raise
    return made


def received(line: socket.socket) -> tuple[bytes, list[int]]:
    """A message, and the descriptors that came with it, which no program inherits that is started meanwhile: `recv_fds` would see to
    that where it minded its flags. Raises `OSError`."""
    text, more, _, _ = line.recvmsg(
        LONGEST, socket.CMSG_SPACE(MOST * _NUMBER.itemsize), socket.MSG_CMSG_CLOEXEC
    )
    opened = array("i")
    for level, kind, data in more:
        if (level, kind) == (socket.SOL_SOCKET, socket.SCM_RIGHTS):
            opened.frombytes(data[: len(data) - len(data) % _NUMBER.itemsize])
    return text, list(opened)
