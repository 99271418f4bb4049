"""systemd's notification socket."""

from __future__ import annotations

import os
import socket
from contextlib import suppress


def notify(state: str) -> None:
    """Says this, as `READY=1` or `WATCHDOG=1`, to systemd where it has started us; else nothing happens. It waits for nobody."""
    address = os.environ.get("NOTIFY_SOCKET")
    if not address:
        return
    with socket.socket(socket.AF_UNIX, socket.SOCK_DGRAM) as line:
        line.setblocking(False)
        with suppress(OSError):  # systemd restarts, and asks nobody
            line.sendto(state.encode(), "\0" + address[1:] if address.startswith("@") else address)
