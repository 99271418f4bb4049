"""A keeper whose public sockets are tapped: `tapped.py FOLDER keep ..` keeps all that goes over them in FOLDER, either way.

A relay has each address of 127.0.0.1 that the keeper is to listen at, and the keeper, or its front, the same port of 127.0.0.2. A service
that is told to listen at 127.0.0.2 is told to clients by an address of a relay, too.
"""

from __future__ import annotations

import itertools
import socket
import sys
import threading
from contextlib import suppress
from dataclasses import replace
from pathlib import Path
from typing import Any, Callable
from unittest.mock import patch

sys.path.insert(0, str(Path(__file__).resolve().parent.parent / "src"))

from pagelog.referee.rows import Where  # noqa: E402
from pagelog.keeper.served import Served  # noqa: E402

PUBLIC, OWN = "127.0.0.1", "127.0.0.2"
_bind = socket.socket.bind


class Tap:
    """Relays, each with an address that is told. Of each connection there is a file for each direction: what is cut in two is found, too."""

    def __init__(self, folder: Path) -> None:
        self._folder, self._numbers = folder, itertools.count()
        self._known: dict[str, str] = {}
        self._lock = threading.Lock()

    def listen(self, port: int, host: str, to: int = 0) -> int:
        """Relays what comes to a public port, where 0 is any free one, to a port of this host, by default the same. Returns the public one."""
        made = socket.socket()
        made.setsockopt(socket.SOL_SOCKET, socket.SO_REUSEADDR, 1)
        _bind(made, (PUBLIC, port))
        number = int(made.getsockname()[1])
        made.listen(socket.SOMAXCONN)
        threading.Thread(
            target=self._accept, args=(made, (host, to or number)), daemon=True
        ).start()
        return number

    def before(self, address: str) -> str:
        """The public address that leads to this one."""
        with self._lock:
            if address not in self._known:
                host, _, port = address.rpartition(":")
                self._known[address] = f"{PUBLIC}:{self.listen(0, host, int(port))}"
            return self._known[address]

    def _accept(self, listener: socket.socket, to: tuple[str, int]) -> None:
        while True:
            client, _ = listener.accept()
            try:
                target = socket.create_connection(to)
            except OSError:  # nobody is there, or not any more
                client.close()
                continue
            name = self._folder / f"{threading.get_native_id()}.{next(self._numbers)}"
            for source, sink, way in ((client, target, "to"), (target, client, "back")):
                source.setsockopt(socket.IPPROTO_TCP, socket.TCP_NODELAY, 1)
                file = name.with_name(f"{to[1]}.{name.name}.{way}")
                threading.Thread(target=self._carry, args=(source, sink, file), daemon=True).start()

    def _carry(self, source: socket.socket, sink: socket.socket, file: Path) -> None:
        with file.open("wb", buffering=0) as kept, suppress(OSError):
            while data := source.recv(1 << 16):
                kept.write(data)
                sink.sendall(data)
        for end in (source, sink):
            with suppress(OSError):
                end.shutdown(socket.SHUT_RDWR)


def tap(folder: Path) -> None:
    """Has all that this process binds at the public address, and the places of its services, go through relays."""
    made, where = Tap(folder), Served.where.fget
    assert where is not None

    def bind(self: socket.socket, address: Any) -> None:
        if self.family == socket.AF_INET and address[0] == PUBLIC:
            address = OWN, made.listen(address[1], OWN)
        _bind(self, address)

    def told(served: Served) -> Where:
        found = where(served)
        assert found.address is not None
        is_own = found.address.startswith(f"{OWN}:")
        return replace(found, address=made.before(found.address)) if is_own else found

    told_as: Callable[[Served], Where] = told
    patch.object(socket.socket, "bind", bind).start()
    patch.object(Served, "where", property(told_as)).start()


if __name__ == "__main__":
    from pagelog.command import main

    tap(Path(sys.argv[1]))
    sys.argv[1:2] = []
    main()
