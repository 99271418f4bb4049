"""A database all of whose reads are to be audited: page servers answer nobody, and readers go to services, each of which has a list of decisions."""

from __future__ import annotations

from datetime import datetime

from pagelog.referee.referee import Referee
from pagelog.referee.rows import Row

_SINCE = "SELECT audited FROM pagelog_log WHERE id = %s"
_AUDIT = "UPDATE pagelog_log SET audited = COALESCE(audited, now()) WHERE id = %s AND identity = %s::uuid AND NOT dropped RETURNING audited"
_STILL = "UPDATE pagelog_log SET audited = audited WHERE id = %s AND audited IS NOT NULL AND NOT dropped RETURNING audited"
_LET_GO = "UPDATE pagelog_log SET audited = NULL WHERE id = %s AND identity = %s::uuid AND NOT dropped RETURNING id"


def audited_since(referee: Referee, row: Row) -> datetime | None:
    """Since when; None where it is not."""
    found = referee._ask(_SINCE, (row.id,))
    return found[0][0] if found else None


def audit_reads(referee: Referee, row: Row) -> datetime | None:
    """From the commit of this on a page server that looks answers nobody. Returns since when that is so; None where the database was dropped."""
    found = referee._ask(_AUDIT, (row.id, row.identity))
    return found[0][0] if found else None


def still_audited(referee: Referee, row: Row) -> datetime | None:
    """Since when, by a statement that writes: an old leader of PostgreSQL has not heard of what page servers say. None where it is not."""
    found = referee._ask(_STILL, (row.id,))
    return found[0][0] if found else None


def let_page_servers_answer(referee: Referee, row: Row) -> bool:
    """They may answer again. False where the database was dropped."""
    return bool(referee._ask(_LET_GO, (row.id, row.identity)))
