"""A torture by TLS: its clients have whom they trust of their environment, as the VFS of SQLite does by itself."""

from __future__ import annotations

import functools
import os
from pathlib import Path

from pagelog.secure import Trust

VARIABLE = "PAGELOG_SSLROOTCERT"


@functools.cache
def trust() -> Trust | None:
    """Whom this process trusts; None where it is to speak no TLS."""
    return Trust(os.environ[VARIABLE]) if VARIABLE in os.environ else None


def authority() -> Path | None:
    """The folder of the CA that is trusted, with what it has signed; None where nobody is to speak TLS."""
    return Path(os.environ[VARIABLE]).parent if VARIABLE in os.environ else None


def environment() -> dict[str, str]:
    """What tells other programs whom to trust."""
    return {name: value for name, value in os.environ.items() if name == VARIABLE}
