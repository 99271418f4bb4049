"""Connects to a host, which may have several addresses."""

from __future__ import annotations

import socket
import time
from typing import TYPE_CHECKING

if TYPE_CHECKING:
    from pagelog.secure import Trust

_LEAST = 0.01
"""Seconds that the last address has in any case."""


def dial(host: str, port: int, timeout: float, trust: Trust | None = None) -> socket.socket:
    """A socket that leads to one of the host's addresses, tried in their order for `timeout` seconds in all: one that is silent leaves the
    others their share. With `trust` by TLS, where each has to show that it is this host. Raises `OSError`, a `TimeoutError` where one was
    silent, or a `UnicodeError` for a host that is no name."""
    ends = time.monotonic() + timeout
    found = socket.getaddrinfo(host, port, type=socket.SOCK_STREAM)
    failed: OSError = OSError(f"{host} has no address")
    for tried, (family, kind, protocol, _, address) in enumerate(found):
        try:
            share = time.monotonic() + max(_LEAST, (ends - time.monotonic()) / (len(found) - tried))
            made = _connected(family, kind, protocol, address, share - time.monotonic())
            if trust is not None:
                made = trust.wrap(made, host, max(_LEAST, share - time.monotonic()))
        except OSError as error:
            failed = failed if isinstance(failed, TimeoutError) else error
        else:
            made.settimeout(timeout)
            return made
    raise failed


def _connected(
    family: int, kind: int, protocol: int, address: object, timeout: float
) -> socket.socket:
    made = socket.socket(family, kind, protocol)
    try:
        made.settimeout(timeout)
        made.connect(address)  # type: ignore[arg-type]
    except BaseException:
        made.close()
        raise
    return made
