"""Whether a look has anything to do about a database that its keeper holds: not where all that it decides by is as it was.

What the clock alone may change ends that, and so does whoever has news of it. So a hundred that are idle cost a look no more than a
question to each service.
"""

from __future__ import annotations

from typing import TYPE_CHECKING

from pagelog.keeper.machine import ROLL_AT, Stage

if TYPE_CHECKING:
    from pagelog.keeper.database import Database


class Idleness:
    """Of one database."""

    def __init__(self, database: Database) -> None:
        self._database, settings = database, database.shared.settings
        self._ttl, self._audit, self._memory = settings.ttl, settings.program.audit, settings.memory
        self._full_at = min(settings.succeed or 1.0, ROLL_AT)
        """The least share of its list or its memory at which something is to be done."""
        self._basis: tuple[object, ...] | None = None

    def begin(self) -> None:
        """A look has found nothing to do, and nothing that is due later."""
        self._basis = self._now()

    def end(self) -> None:
        """There is news of it."""
        self._basis = None

    @property
    def goes_on(self) -> bool:
        """Whether all is as it was then."""
        return self._basis is not None and self._basis == self._now()

    def _now(self) -> tuple[object, ...] | None:
        """All that is decided by of who holds the database; None where it is another's, or the clock alone may change what is decided."""
        database = self._database
        served, archiver = database.served, database.work.archiver
        if served is None or archiver is None or archiver.is_over or database.is_at_it:
            return None
        health, lack, log = served.health, served.lack, served.log
        may_change = (
            health.silent >= self._ttl
            or health.is_full
            or lack.since is not None
            or served.unreached > 0
            or served.share(self._audit, self._memory) >= self._full_at
            or database.succession.stage is not Stage.NONE
        )
        if may_change or not database.holds:
            return None
        return (
            database.row,
            database.others,
            database.is_noted,
            database.is_known,
            database.shared.ending,
            archiver,
            served,
            database.watched,
            served.kind,
            served.generation,
            served.access,
            served.table_number,
            served.secure,
            health.is_broken,
            lack.went_back,
            lack.is_apart,
            log.reached,
            log.chain,
        )
