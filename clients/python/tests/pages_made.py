"""Page servers that a test feeds by itself: the program, with the history that the test gives it, in the directory of the keepers; and the
way to one, which counts what is read there, and holds it up."""

from __future__ import annotations

import secrets
import select
import socket
import threading
import time
from contextlib import suppress
from typing import Sequence

import pages_program
import psycopg
from keepers import Keeping, eventually
from pagelog import Address
from pagelog.referee.referee import digest
from pagelog.pages.process import PagesProcess
from pagelog.pages.table import table_of_pages
from service import PATIENCE, accept_each

_BEAT = 0.5
"""Seconds."""


class Toll:
    """A way to a page server. What comes back is held up for `delay` seconds each time, and while it is `shut` nothing goes on."""

    def __init__(self, address: str, delay: float = 0.0) -> None:
        self.target = Address.parse(address)
        self.delay = delay
        self.shut = False
        self.answers = 0
        """How often something came back."""
        self.questions = 0
        """The same of what was sent to it."""
        self.open = 0
        """Connections that there are."""
        self._listener = socket.create_server(("127.0.0.1", 0))
        self.address = f"127.0.0.1:{self._listener.getsockname()[1]}"
        accept_each(self._listener, self._serve)

    def close(self) -> None:
        self._listener.close()

    def _serve(self, client: socket.socket) -> None:
        self.open += 1
        try:
            with client, socket.create_connection(
                (self.target.host, self.target.port), PATIENCE
            ) as server:
                self._pass(client, server)
        except OSError:
            pass
        finally:
            self.open -= 1

    def _pass(self, client: socket.socket, server: socket.socket) -> None:
        while True:
            for side in select.select([client, server], [], [])[0]:
                data = side.recv(65536)
                self.questions += side is client and bool(data)
                if side is server and data:
                    time.sleep(self.delay)
                    self.answers += 1
                while self.shut and data:
                    time.sleep(0.001)
                    if select.select([client], [], [], 0)[0] and not client.recv(
                        1, socket.MSG_PEEK
                    ):
                        return
                if not data:
                    return
                (server if side is client else client).sendall(data)


class Made:
    """A page server of `shop`, at a machine, with these blocks. It looks at nothing, and keepers take it to be alive."""

    def __init__(
        self, keeping: Keeping, machine: str, blocks: Sequence[bytes], delay: float | None = None
    ) -> None:
        self.keeping, self.machine, self.run = keeping, machine, secrets.token_hex(8)
        self._blocks = list(blocks)
        self._ended = threading.Event()
        self._beats = threading.Thread(target=self._beat)
        self.folder = keeping.folder / f"made-{machine}"
        self.folder.mkdir()
        self.process = self._started()
        self.toll = None if delay is None else Toll(self.process.address, delay)
        self.enter()
        self._beats.start()

    def _started(self) -> PagesProcess:
        made = pages_program.started(self.folder / "store", "--wait", "100")
        if made.where.written < len(self._blocks):
            made.add(self._blocks[made.where.written :], digest(b"", self._blocks))
        table = self.keeping.referee.table(self.keeping.row().id)
        made.set_table(table_of_pages(table.text, table.secret, "shop", self.run))
        return made

    @property
    def address(self) -> str:
        return self.process.address if self.toll is None else self.toll.address

    @property
    def answers(self) -> int:
        assert self.toll is not None
        return self.toll.answers

    def feed(self, blocks: Sequence[bytes]) -> None:
        """All blocks of its history, from the first on."""
        more, self._blocks = blocks[len(self._blocks) :], list(blocks)
        if more:
            self.process.add(more, digest(b"", blocks))

    def begin_again(self) -> None:
        """After it was killed; where there is a way to it at the same address."""
        self.process = self._started()
        if self.toll is not None:
            self.toll.target = Address.parse(self.process.address)
        self.enter()

    def lose_disk(self, blocks: Sequence[bytes]) -> None:
        """It is killed, and begins again with these blocks, as if all of its run were they."""
        self.process.kill()
        (self.folder / "store").rename(self.folder / f"lost{len(list(self.folder.iterdir()))}")
        self._blocks = list(blocks)
        self.begin_again()

    def _beat(self) -> None:
        while not self._ended.wait(_BEAT):
            with suppress(psycopg.OperationalError), psycopg.connect(
                self.keeping.url, autocommit=True
            ) as session:
                session.execute(
                    "UPDATE pagelog_pages SET beat = beat + 1 WHERE run = %s", (self.run,)
                )

    def enter(self) -> None:
        """Puts it into the directory as it is, and has keepers look."""
        entry = (
            self.run,
            self.keeping.row().id,
            self.machine,
            self.address,
            self.process.where.confirmed,
        )
        with psycopg.connect(self.keeping.url, autocommit=True) as session:
            session.execute(
                "INSERT INTO pagelog_pages (run, log, machine, address, position, persisted, oldest, table_number)"
                " VALUES (%s, %s, %s, %s, %s, 0, 0, 1)"
                " ON CONFLICT (run) DO UPDATE SET address = excluded.address, position = excluded.position, beat = pagelog_pages.beat + 1",
                entry,
            )
        self.keeping.ring()

        def is_told() -> bool:
            keepers = self.keeping.keepers()
            try:
                return any(
                    (each.run, each.address) == (self.run, self.address)
                    for each in keepers.page_servers() or ()
                )
            finally:
                keepers.close()

        eventually(is_told, f"{self.machine} in the directory")

    def end(self) -> None:
        self._ended.set()
        self._beats.join()
        if self.process._process.poll() is None:
            self.process.kill()
        if self.toll is not None:
            self.toll.close()
