"""Databases of SQLite over the service, for the tests of the VFS and the processes that they start."""

import os
import sqlite3
import sys

from service import CLIENT

EXTENSION = os.environ.get("PAGELOG_EXTENSION") or str(
    CLIENT / "out" / "checked" / "pagelog_vfs.so"
)
TOKENS = {n: f"{0x11 * n:02x}" * 16 for n in range(1, 10)}


def load():
    connection = sqlite3.connect(":memory:")
    connection.enable_load_extension(True)
    connection.load_extension(EXTENSION)
    connection.close()


def uri(address, principal=2, operator=1, name="test", **more):
    """Of a writer with an operator, of one without where it is None, of a reader with mode="ro"."""
    parts = {
        "vfs": "pagelog",
        "to": address,
        "id": principal,
        "token": TOKENS[principal],
        "timeout": 300000,
        "patience": 10000,
    }
    if operator and "mode" not in more and "at" not in more:
        parts.update(op=operator, optoken=TOKENS[operator])
    parts.update(more)
    return f"file:{name}?" + "&".join(
        f"{key}={value}" for key, value in parts.items() if value is not None
    )


def connect(address, principal=2, operator=1, **more):
    timeout = more.pop("busy", 300.0)  # a wait for the service ends with it too
    return sqlite3.connect(
        uri(address, principal, operator, **more),
        uri=True,
        isolation_level=None,
        timeout=timeout,
        check_same_thread=False,
    )


class Connection(sqlite3.Connection):
    """One that may be referred to without being held."""


def named(keeper, principal=2, **more):
    """A connection to the database of a stub, which closes it before it ends itself: a close waits for the archive."""
    connection = sqlite_of(keeper.address, more.pop("name", keeper.name), principal, **more)
    keeper.clients.add(connection)
    return connection


def sqlite_of(keepers, database, principal, **more):
    """A connection to a database that keepers know by name."""
    timeout = more.pop("busy", 300.0)
    return sqlite3.connect(
        uri_of(keepers, database, principal, **more),
        uri=True,
        isolation_level=None,
        timeout=timeout,
        check_same_thread=False,
        factory=Connection,
    )


def uri_of(keepers, database, principal, **more):
    parts = {
        "vfs": "pagelog",
        "where": keepers,
        "name": database,
        "id": principal,
        "token": TOKENS[principal],
        "timeout": 300000,
        "move": 300000,
    }
    if "mode" not in more and "at" not in more:
        parts.update(op=1, optoken=TOKENS[1])
    file = more.pop("file", "test")
    parts.update(more)
    return f"file:{file}?" + "&".join(f"{key}={value}" for key, value in parts.items())


def numbers(connection, *names):
    """What pragmas of this VFS report."""
    return tuple(int(one(connection, f"pragma pagelog_{name}")) for name in names)


def reader(address, principal=3, **more):
    return connect(address, principal, None, mode="ro", **more)


def one(connection, text, *values):
    return connection.execute(text, values).fetchone()[0]


def code_of(action):
    """The name of the error that an action gives, as SQLITE_READONLY, or None."""
    try:
        action()
    except sqlite3.Error as error:
        is_full_list = (
            getattr(error, "sqlite_errorcode", 0) == 13 + 256
        )  # an extended code of this VFS, unknown to Python
        return (
            "SQLITE_FULL_LIST"
            if is_full_list
            else getattr(error, "sqlite_errorname", type(error).__name__)
        )
    return None


load()
sys.stdout.reconfigure(line_buffering=True)
