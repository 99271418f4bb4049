"""The compiled part of the fast path, as fast_path.h has it."""

from __future__ import annotations

import ctypes
import importlib.util
from dataclasses import replace
from typing import TYPE_CHECKING

from psycopg import pq

from pagelog.referee.referee import KeeperError

if TYPE_CHECKING:
    from pagelog.trail.store import TrailList

DIGEST, SHA, LINE = 16, 32, 1024
LINE_BACK, ARCHIVED, ENDED, SESSION_BACK, WRITER_BACK, WRITER_SAID, WRITERS_ENDED = range(7)
"""What is said of a way, of a session, or of the writers of a database."""


class List(ctypes.Structure):
    """An audit list, as far as its lines are kept."""

    kept: int
    seen: int

    _fields_ = [
        ("id", ctypes.c_char_p),
        ("of", ctypes.c_char_p),
        ("kept", ctypes.c_uint64),
        ("seen", ctypes.c_uint64),
        ("digest", ctypes.c_uint8 * SHA),
    ]

    @classmethod
    def from_list(cls, one: TrailList | None) -> List:
        """That of a trail."""
        if one is None:
            return cls()
        return cls(
            str(one.id).encode(),
            str(one.of).encode(),
            one.kept,
            one.seen,
            (ctypes.c_uint8 * SHA)(*one.digest),
        )

    def with_lines(self, one: TrailList) -> TrailList:
        """It, as it is with the lines that are kept by now."""
        return replace(one, kept=int(self.kept), seen=int(self.seen), digest=bytes(self.digest))


class WayStart(ctypes.Structure):
    """A database."""

    _fields_ = [
        ("key", ctypes.c_uint64),
        ("name", ctypes.c_char_p),
        ("generation", ctypes.c_uint64),
        ("of", ctypes.c_char_p),
        ("takes_unnamed", ctypes.c_int),
        ("log", ctypes.c_char_p),
        ("run", ctypes.c_char_p),
        ("reached", ctypes.c_uint64),
        ("noted", ctypes.c_void_p),
        ("shift", ctypes.c_uint64),
        ("chain", ctypes.c_uint8 * DIGEST),
        ("chain_len", ctypes.c_size_t),
        ("pull", ctypes.c_char_p),
        ("pull_len", ctypes.c_size_t),
        ("list", List),
        ("audit", ctypes.c_char_p),
        ("audit_len", ctypes.c_size_t),
        ("is_careful", ctypes.c_int),
        ("before", ctypes.c_void_p),
        ("service", ctypes.c_int),
        ("service_ms", ctypes.c_int),
        ("referee_ms", ctypes.c_int),
        ("idle_ms", ctypes.c_int),
    ]


class SessionStart(ctypes.Structure):
    """A connection to PostgreSQL."""

    _fields_ = [
        ("key", ctypes.c_uint64),
        ("connection", ctypes.c_void_p),
        ("keep", ctypes.c_char_p),
        ("keep_block", ctypes.c_char_p),
        ("keep_each", ctypes.c_char_p),
        ("keep_lines", ctypes.c_char_p),
        ("flushed", ctypes.c_char_p),
    ]


class WritersStart(ctypes.Structure):
    """The writers of a database."""

    _fields_ = [
        ("key", ctypes.c_uint64),
        ("name", ctypes.c_char_p),
        ("generation", ctypes.c_uint64),
        ("ttl_ms", ctypes.c_int),
    ]


class WritersOrder(ctypes.Structure):
    """What they are to do."""

    _fields_ = [
        ("word", ctypes.c_int),
        ("line", ctypes.c_uint64),
        ("asker", ctypes.c_uint64),
        ("how", ctypes.c_int),
        ("epoch", ctypes.c_int64),
        ("generation", ctypes.c_uint64),
        ("descriptor", ctypes.c_int),
        ("of", ctypes.c_char_p),
        ("heard", ctypes.c_uint64),
    ]


class Event(ctypes.Structure):
    """What is said."""

    key: int
    news: int
    end: int
    descriptor: int
    position: int
    len: int

    _fields_ = [
        ("key", ctypes.c_uint64),
        ("news", ctypes.c_int),
        ("end", ctypes.c_int),
        ("descriptor", ctypes.c_int),
        ("position", ctypes.c_uint64),
        ("len", ctypes.c_size_t),
        ("data", ctypes.c_char * LINE),
    ]

    @property
    def text(self) -> bytes:
        """What was read of a line, and not answered; it may have zeros."""
        return ctypes.string_at(ctypes.addressof(self) + Event.data.offset, self.len)


def library() -> ctypes.CDLL:
    """The compiled part. Raises `KeeperError` where it was not built, or has another libpq than psycopg, whose connections it takes."""
    found = importlib.util.find_spec("pagelog.keeper._fast_path")
    if found is None or found.origin is None:
        raise KeeperError(
            "the compiled part of a keeper is not there: Debian's package has it; from source clients/python/setup.py builds it"
        )
    if pq.__impl__ == "binary":
        raise KeeperError(
            "a keeper needs psycopg with the system's libpq, which its binary has not"
        )
    try:
        made = ctypes.CDLL(found.origin)
    except OSError as error:
        raise KeeperError(f"the compiled part of a keeper cannot be loaded: {error}") from error
    if made.PQlibVersion() != pq.version():
        raise KeeperError("the compiled part of a keeper has another libpq than psycopg")
    for maker in (made.plane_new, made.way_new, made.writers_new):
        maker.restype = ctypes.c_void_p
    made.way_reached.restype = made.way_done.restype = ctypes.c_uint64
    made.plane_due.restype = ctypes.c_size_t
    plane = way = writers = ctypes.c_void_p
    for name, kinds in (
        ("plane_new", [ctypes.c_int]),
        ("plane_run", [plane]),
        ("plane_stop", [plane]),
        ("plane_free", [plane]),
        ("plane_due", [plane]),
        ("plane_lend", [plane, ctypes.POINTER(SessionStart)]),
        ("plane_retract", [plane, ctypes.c_uint64]),
        ("plane_next", [plane, ctypes.POINTER(Event)]),
        ("way_new", [plane, ctypes.POINTER(WayStart)]),
        ("way_add", [way, ctypes.c_int, ctypes.c_uint64, ctypes.c_int]),
        ("way_kick", [way, ctypes.c_uint64]),
        ("way_done", [way, ctypes.POINTER(ctypes.c_uint64)]),
        ("way_stop", [way]),
        ("way_free", [way]),
        ("way_watch", [way, ctypes.c_int]),
        ("way_list_of", [way, ctypes.POINTER(List)]),
        ("writers_new", [plane, ctypes.POINTER(WritersStart)]),
        ("writers_do", [writers, ctypes.POINTER(WritersOrder)]),
        ("way_reached", [way, ctypes.c_uint8 * DIGEST, ctypes.POINTER(ctypes.c_size_t)]),
    ):
        getattr(made, name).argtypes = kinds
    return made
