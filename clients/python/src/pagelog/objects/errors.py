"""What can go wrong with a store."""

from __future__ import annotations

from pagelog.errors import PagelogError


class StoreError(PagelogError):
    """The store refuses something, or is not as it has to be."""


class StoreAway(StoreError):
    """The store cannot be reached, or does not answer now."""

    may_pass = True


class Missing(StoreError):
    """The store has no object of this key."""


class Taken(StoreError):
    """The store has an object of this key already, and does not write it again."""
