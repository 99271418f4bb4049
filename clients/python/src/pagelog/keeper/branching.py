"""A branch: a named database of its own that may be written, and begins with what another one was at a kept position."""

from __future__ import annotations

import secrets

from pagelog.keeper.history import made_at
from pagelog.referee.bases import Bases
from pagelog.referee.referee import Referee, digest
from pagelog.referee.rows import Row

_KNOWN = """
SELECT base, chain FROM pagelog_base WHERE log = %(log)s AND base <= %(position)s
UNION ALL (SELECT last, after FROM pagelog_object WHERE log = %(log)s AND last <= %(position)s ORDER BY last DESC LIMIT 1)
ORDER BY 1 DESC LIMIT 1
"""


def branch(referee: Referee, row: Row, position: int, name: str, table: str | None = None) -> bool:
    """Makes it, with an identity and a secret of its own, and another table if one is given. False where there is one of this name.

    What the store has is shared, row by row, and not read: a row for each range of 64 pages, some 7 us. Raises
    `KeeperError` where the position is pruned meanwhile.
    """
    values = {
        "base": Bases(referee, row.id).newest(position).position,
        "chain": chain_at(referee, row, position),
        "read_only": False,
        "table": table,
        "secret": secrets.token_bytes(16),
    }
    return made_at(referee, row, position, name, values)


def chain_at(referee: Referee, row: Row, position: int) -> bytes:
    """The digest of all blocks up to a position, from the next digest below it that is known."""
    if position == row.archived:
        return row.chain
    found = referee._ask(_KNOWN, {"log": row.id, "position": position})
    known, chain = (int(found[0][0]), bytes(found[0][1])) if found else (0, b"")
    for piece in referee.blocks(row.id, known + 1, position):
        chain = digest(chain, piece)
    return chain
