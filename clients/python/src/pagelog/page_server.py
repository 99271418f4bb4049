"""A page server: raises the applied LSNs of partitions as blocks come."""

from __future__ import annotations

import time
from typing import Callable, Sequence

from pagelog.client import Client
from pagelog.connection import Connection
from pagelog.credentials import Credentials
from pagelog.errors import InDoubt
from pagelog.reader import QUICKEST
from pagelog.repeating import Backoff
from pagelog.reply import Done, expect
from pagelog.request import STEPS_MAX, Advance, Role


_MOST_LSNS = 1 << 20
"""By how many LSNs a step advances at most, whatever a status says."""


class PageServer(Client):
    """Keeps partitions applied up to the hardened end, so that gets that are not exact find their pages there.

    It begins without knowing how far a partition is applied, and takes it to be 0: advances that are too many do no
    harm, since none goes above the hardened end. So it does where the connection was made again, since the service may
    have been too, and restored.
    """

    role = Role.PAGE_SERVER

    def __init__(
        self,
        connection: Connection,
        credentials: Credentials,
        database: int = 0,
        partitions: Sequence[int] = (0,),
    ) -> None:
        super().__init__(connection, credentials, database)
        self.partitions = tuple(partitions)
        self.applied = 0
        """All partitions are applied at least so far."""
        self._connects = 0

    def step(self) -> int:
        """Advances all partitions to the hardened end, by at most 2^20 LSNs. Returns by how many it did, 0 if not at all.

        It costs one request where there is nothing to do, and one more for each 1,024 LSNs of each partition.
        """
        hard = self.status().hard
        if self._connects != self.connection.connects:
            self.applied, self._connects = 0, self.connection.connects
        moved = min(hard - self.applied, _MOST_LSNS)
        if moved:
            acts = [
                Advance(partition, steps)
                for partition in self.partitions
                for steps in _steps(moved)
            ]
            try:
                for reply in self._ask_all(acts):
                    expect(Done, reply)
            except InDoubt:
                # How many were done is not known. All of them are asked for again by the next step.
                return 0
        self.applied += moved
        return moved

    def forget(self) -> None:
        """Takes the service to be a new one, of which nothing was seen, and whose partitions are not applied."""
        super().forget()
        self.applied = 0

    def run(self, *, idle: float = 0.5, stop: Callable[[], bool] = lambda: False) -> None:
        """Advances as blocks come, until `stop` says so, and sleeps, at most `idle` seconds, while none do."""
        waits = Backoff(QUICKEST, idle)
        while not stop():
            if self.step():
                waits.reset()
            else:
                time.sleep(waits.next())


def _steps(moved: int) -> list[int]:
    """`moved` LSNs in steps of at most 1,024."""
    return [min(STEPS_MAX, moved - done) for done in range(0, moved, STEPS_MAX)]
