"""How what moves images asks PostgreSQL."""

from __future__ import annotations

from typing import Any, Protocol


class Asking(Protocol):
    """A statement of one database, which may be asked again where it is in doubt."""

    def __call__(self, statement: str, *, binary: bool = False, **values: Any) -> list[Any]:
        """Its rows."""
