"""How much clients may have under way at a keeper: each connection or principal, and all of them together."""

from __future__ import annotations

from typing import Hashable


class Quota:
    """Counts what is under way, by who has it under way."""

    def __init__(self, each: int, all: int) -> None:
        """At most `each` for each, and `all` for all of them together."""
        self._each, self._all = each, all
        self._of: dict[Hashable, int] = {}
        self._count = 0

    def acquire(self, who: Hashable) -> bool:
        """Counts one more. False where that would be too many: then nothing is counted."""
        count = self._of.get(who, 0)
        if count >= self._each or self._count >= self._all:
            return False
        self._of[who] = count + 1
        self._count += 1
        return True

    def release(self, who: Hashable) -> None:
        """Counts one less, of what was acquired."""
        self._count -= 1
        self._of[who] -= 1
        if not self._of[who]:
            del self._of[who]

    def __len__(self) -> int:
        return self._count

    def __contains__(self, who: Hashable) -> bool:
        """Whether this one has anything under way."""
        return who in self._of
