"""What can go wrong with a keeper, and with what the referee knows."""

from __future__ import annotations

from pagelog.errors import PagelogError


class KeeperError(PagelogError):
    """Something is wrong with a keeper, or with what the referee knows."""


class Away(KeeperError):
    """PostgreSQL cannot be reached. Nothing was asked."""

    may_pass = True


class Refused(KeeperError):
    """PostgreSQL refused the statement, as for want of room on its disk. Nothing was changed."""


class Sealed(Refused):
    """A table of principals cannot be read here, or not be written: this process has not the key."""


class Doubt(KeeperError):
    """It is not known whether the statement was committed and replicated. Another statement that writes finds out."""

    may_pass = True


class OneDisk(Doubt):
    """A synchronous standby is required, and PostgreSQL has none: what was committed may be on one disk alone."""


class Superseded(KeeperError):
    """Another keeper has this keeper's name by now."""


class NameInUse(KeeperError):
    """A keeper that lives has the name."""


class BrokenArchive(KeeperError):
    """A block of the archive is missing or damaged; or all of them together are not those that were archived."""


class BrokenBase(BrokenArchive):
    """Images of a base are missing or damaged: an older base may do."""


class Pruned(BrokenArchive):
    """What was read was pruned meanwhile: who needs it begins again with a newer base."""
