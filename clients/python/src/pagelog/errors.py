"""What can go wrong, as exceptions: one tree below `PagelogError`.

    PagelogError
        Unreachable            nobody answers at the address
        ConnectionLost         the connection ended, and what was asked may not be asked again
            TimedOut           no byte came or went for as long as the connection waits
        InDoubt                it is not known whether a change was made
        LogWentBack            the service has less than was seen of it: it was restarted
        UnexpectedReply        a reply of a kind that does not answer the request
        HoldsSqlite            the pages are those of a SQLite database, which is not to be overwritten
        TableError             a text is no table, or none can be made from it
        CredentialsError       credentials are missing, malformed, or others may read their file
        Fault                  bytes, or values for bytes, that are not in the format
            BlockFault         of a block, 9 of them
            RequestFault       of a request's body
            ReplyFault         of a reply's body
            FrameFault         of a frame
        Refusal                the service answered, and not with what was asked for
            Denial             a row of the written order denies it: a class for each rule
            OutOfMemory, AuditListFull, TurnsSpent, UnknownDatabase, MalformedRequest
"""

from __future__ import annotations

from typing import ClassVar

__all__ = [
    "PagelogError",
    "Unreachable",
    "ConnectionLost",
    "TimedOut",
    "InDoubt",
    "LogWentBack",
    "UnexpectedReply",
    "HoldsSqlite",
    "CredentialsError",
    "TableError",
    "Refusal",
    "OutOfMemory",
    "AuditListFull",
    "TurnsSpent",
    "UnknownDatabase",
]


class PagelogError(Exception):
    """Whatever this package raises of its own."""

    may_pass: ClassVar[bool] = False
    """Whether the archive's database may be there again when it is tried later."""


class Unreachable(PagelogError):
    """Nobody accepts connections at the address. Nothing was asked; it may be tried again later."""


class ConnectionLost(PagelogError):
    """The connection ended before all replies came. The next request connects again."""


class TimedOut(ConnectionLost):
    """No byte came or went for the connection's time-out.

    A service that is stopped, or whose machine is gone, looks like this: the system accepts, and nobody answers.
    """


class InDoubt(PagelogError):
    """The connection was lost after a request that must not be sent twice, or an epoch ended before its reply.

    Whether the change was made has to be looked up: in the audit list, or by pulling the block.
    """


class LogWentBack(PagelogError):
    """The service has fewer hardened blocks, or an older epoch, than it had: it was restarted and is another log."""


class UnexpectedReply(PagelogError):
    """A reply of a kind that does not answer the request: whatever listens there is not a pagelog service."""


class HoldsSqlite(PagelogError):
    """The pages are those of a SQLite database, and this writer was not asked to overwrite it. Nothing was written.

    `lsn` is that of its last transaction, and `name` is the one that it was given, or empty.
    """

    def __init__(self, lsn: int, name: str) -> None:
        called = f" {name!r}" if name else ""
        super().__init__(
            f"page 0 ends the SQLite database{called} at LSN {lsn}, which these records would destroy: nothing was "
            "written. Use another database, or say overwrite_sqlite=True"
        )
        self.lsn, self.name = lsn, name


class CredentialsError(PagelogError):
    """Credentials are missing or malformed, or their file may be read by others."""


class TableError(PagelogError):
    """A text is no table, or none can be made from it."""


class Refusal(PagelogError):
    """The service answered, and not with what was asked for. Its state is as before, but for the audit list."""


class OutOfMemory(Refusal):
    """NoMemory: the service had no memory for the request. Nothing was changed; it may be asked again."""


class AuditListFull(Refusal):
    """AuditFull: the audit list has as many entries as it may. The database answers nothing any more, to nobody."""


class TurnsSpent(Refusal):
    """Spent: the database has answered as many requests as a desk has turns, 2^62."""


class UnknownDatabase(Refusal):
    """NoDatabase: the service has no database of this number."""


class Fault(PagelogError):
    """Bytes that are not in the format, or values that have no bytes. `code` is the number of docs/FORMATS."""

    code: ClassVar[int] = 0


def first_line(text: str | None) -> str:
    """The first line of a docstring, as the text of an error."""
    return (text or "").strip().splitlines()[0].rstrip(".")
