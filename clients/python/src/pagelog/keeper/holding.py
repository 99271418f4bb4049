"""A database that is held: nothing of it is pruned or dropped, whoever asks for that, until a person lets go of it."""

from __future__ import annotations

from datetime import datetime

from pagelog.referee.referee import Referee
from pagelog.referee.rows import Row

_HELD = "SELECT held FROM pagelog_log WHERE id = %s"
_HOLD = "UPDATE pagelog_log SET held = COALESCE(held, now()) WHERE id = %s AND identity = %s::uuid AND NOT dropped RETURNING held"
_LET_GO = "UPDATE pagelog_log SET held = NULL WHERE id = %s AND identity = %s::uuid AND NOT dropped RETURNING id"


def held_since(referee: Referee, row: Row) -> datetime | None:
    """Since when; None where it is not."""
    found = referee._ask(_HELD, (row.id,))
    return found[0][0] if found else None


def hold(referee: Referee, row: Row) -> datetime | None:
    """From the commit of this on nothing of it goes. Returns since when that is so; None where it was dropped."""
    found = referee._ask(_HOLD, (row.id, row.identity))
    return found[0][0] if found else None


def let_go(referee: Referee, row: Row) -> bool:
    """It may be pruned and dropped again. False where it was dropped."""
    return bool(referee._ask(_LET_GO, (row.id, row.identity)))
