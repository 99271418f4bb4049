"""What a writer and a reader of a named database have in common: keepers, a principal, and where the database was last."""

from __future__ import annotations

import time
from typing import Sequence

from pagelog.closing import Closable
from pagelog.connection import Connection
from pagelog.credentials import Credentials
from pagelog.errors import (
    AuditListFull,
    ConnectionLost,
    InDoubt,
    LogWentBack,
    TurnsSpent,
    Unreachable,
)
from pagelog.place import Keepers, Place, WrongToken
from pagelog.rules import UnknownPrincipal
from pagelog.run_tokens import proof_of, token_of
from pagelog.secure import Trust

GONE = (
    ConnectionLost,
    Unreachable,
    UnknownPrincipal,
    LogWentBack,
    AuditListFull,
    TurnsSpent,
    InDoubt,
)
"""What is raised where the service is gone, or is another run's: the keepers know where the database is now."""
AGAIN = 0.001
"""Seconds before a lost connection is tried once more. Where that is refused the service has ended, and the keepers are asked."""
CONFIRM = 0.3
"""Seconds for which a service says that it does not know the principal before that is told."""


class NamedAccount:
    """A principal of the table of a named database, and its credentials in each run."""

    def __init__(self, name: str, id: int, token: str) -> None:
        self.id = id
        self._name = name
        self._credentials = Credentials.of(id, token)

    def of(self, place: Place) -> Credentials:
        """Those at this place."""
        return self.in_run(place.run)

    def in_run(self, run: str) -> Credentials:
        """Those in a run."""
        return Credentials(self._credentials.id, token_of(self._credentials.token, self._name, run))

    def prove(self, nonce: str, of: str) -> tuple[object, ...]:
        """The words that prove to a keeper which has said this nonce that a client has the token."""
        return (
            "prove",
            self._name,
            self.id,
            proof_of(self._credentials.token, nonce, self._name, self.id, of),
            f"of={of}",
        )


class Following(Closable):
    """One who follows a named database. `patience` is for a place or an answer of the keepers, `timeout` for a reply of the
    service, in seconds. `trust` is of both."""

    def __init__(
        self,
        name: str,
        keepers: Sequence[str],
        principal: int,
        token: str,
        *,
        patience: float = 60.0,
        timeout: float = 10.0,
        trust: Trust | None = None,
    ) -> None:
        self._account = NamedAccount(name, principal, token)
        self.keepers = Keepers(name, keepers, patience, trust, self._account.prove)
        self._trust = trust
        self.keepers.opens = True
        self.place: Place | None = None
        self._timeout = timeout
        self._accepted: str | None = None
        """The run that has answered last: it knows the principal."""
        self._refused: dict[str, float] = {}
        """Runs that have said that they do not, and since when: since one has answered last."""

    def _see_accepted(self, run: str | None) -> None:
        """This run has answered."""
        self._accepted = run
        self._refused.clear()

    def _see_refused(self, place: Place, who: str) -> None:
        """The service says that it knows no such principal. It may be another's that has the address of one that is gone, which its keeper
        does not know at once. Raises `WrongToken` where this run has never answered, and its keepers have named it all the while.
        """
        if place.run == self._accepted:
            return
        now = time.monotonic()
        if now - self._refused.setdefault(place.run, now) >= CONFIRM:
            raise WrongToken(f"the table does not list {who} with this token")

    def close(self) -> None:
        """Closes all connections. A later call opens them again; a writer that is closed writes nothing of its tail again."""
        self.keepers.close()
        self._leave()

    def _leave(self) -> None:
        """Closes the connections to the service."""
        raise NotImplementedError

    def _connection(self, place: Place, attempts: int = 1) -> Connection:
        return Connection(
            place.address, timeout=self._timeout, attempts=attempts, pause=AGAIN, trust=self._trust
        )
