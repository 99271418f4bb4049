"""How a service, and the lines of a keeper, are reached by TLS: as the columns `secure` have it, and as it is told."""

from __future__ import annotations

from typing import NamedTuple

NOWHERE = "-"
"""In place of an address, while there is none: what has no other way has none at all then."""
_ONLY = "only"


class Way(NamedTuple):
    """An address whose front speaks TLS. `is_only`: there is no other way."""

    address: str
    is_only: bool = False

    def text(self, run: str) -> str:
        """That of the column. It names the run, or the keeper's life: an older keeper that makes another does not know the column."""
        return " ".join((run, self.address, *((_ONLY,) if self.is_only else ())))


def way_of(text: str | None, run: str | None) -> Way | None:
    """The way to this run that a column has; None where it has none, or one of another run."""
    named, *rest = (text or "").split() or [""]
    return Way(rest[0], _ONLY in rest[1:]) if rest and run is not None and named == run else None


def address_for(address: str | None, way: Way | None, *, is_secure: bool) -> str | None:
    """The address that is told over lines that are secure, or are not: who comes by TLS is led to no place without it, and who comes
    without it to none that has nothing else."""
    if is_secure:
        return (
            way.address
            if way is not None and way.address != NOWHERE and address is not None
            else None
        )
    return None if way is not None and way.is_only else address
