"""Deletes objects that nothing names any more, by a key that keepers need not have: only those that a row of pagelog_gone names, a while
after that. What no row names at all is left alone: it may be what PostgreSQL has lost."""

from __future__ import annotations

from pagelog.objects.place import Store
from pagelog.referee import object_statements as tables
from pagelog.referee.referee import Referee

_AT_ONCE = 500


def sweep(referee: Referee, store: Store, grace: float) -> int:
    """Deletes the objects that nothing has named for so many seconds. Returns how many. Cut off, it is begun again."""
    count, after = 0, ""
    while keys := referee._ask(tables.GONE, {"grace": grace, "after": after, "count": _AT_ONCE}):
        for (key,) in keys:
            store.delete(key)
            count += len(referee._ask(tables.FORGET, {"key": key}))
        after = keys[-1][0]
    referee._ask(tables.NAMED_AGAIN)
    return count
