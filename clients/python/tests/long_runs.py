"""What the soak and the torture of keepers have in common: clients in processes of their own, and an end that leaves nothing behind."""

from __future__ import annotations

import faulthandler
import os
import signal
import subprocess
import sys
import threading
import time
from pathlib import Path
from typing import Callable, Mapping, Sequence

from keepers import Keeping
from pagelog import Block
from torture_processes import end_of, signals_kept, tell_who_ends

STOP = "stop"
"""The file with which clients end."""
_ENDED = "ended"
"""How files begin that say who has ended a client."""
Client = Callable[[Path, str, "list[str]", float], None]
"""A client: the folder of its books, who it is, the addresses of the keepers, and a number."""


class LongRun:
    """Keepers, and clients that write down what they are told."""

    def __init__(self, file: str, keeping: Keeping) -> None:
        """`file` is the program of the clients."""
        self.file, self.keeping = file, keeping
        self.clients: list[subprocess.Popen[bytes]] = []

    def run(self) -> int:
        """Goes on for its time. Returns the exit status."""
        raise NotImplementedError

    def client(self, what: str, who: object, number: float) -> subprocess.Popen[bytes]:
        """Starts one."""
        words = [
            sys.executable,
            "-B",
            self.file,
            what,
            self.keeping.folder,
            who,
            ",".join(self.keeping.addresses),
            number,
        ]
        with signals_kept():
            self.clients.append(subprocess.Popen(list(map(str, words))))
        return self.clients[-1]

    def ended(self, client: subprocess.Popen[bytes], patience: float) -> int:
        """The status of a client that has to end now. One that does not says what it is at, and so do the keepers."""
        try:
            return client.wait(patience)
        except subprocess.TimeoutExpired:
            for process in (client, *self.keeping.processes.values()):
                process.send_signal(signal.SIGUSR1)
            time.sleep(1)
            client.kill()
            return client.wait()

    def faults(self, statuses: Sequence[int]) -> list[str]:
        """What went wrong beside all else: clients that failed, and keepers."""
        found = [f"a client {end_of(status)}" for status in statuses if status != 0]
        found += [
            f"{file.name.partition('.')[2]} was ended by a signal{file.read_text()}"
            for file in self.keeping.folder.glob(f"{_ENDED}.*")
        ]
        return found + [
            line for line in self.keeping.said().splitlines() if "fault of the keeper" in line
        ]

    def whole(self) -> int:
        """`run`, whatever becomes of it, and `stop`."""
        try:
            return self.run()
        finally:
            if os.environ.get("PAGELOG_TEST_SAYS"):
                print(self.keeping.said())
            self.stop()

    def stop(self) -> None:
        """Ends all that was started."""
        (self.keeping.folder / STOP).touch()
        self.keeping.__exit__()


def _fail(error: threading.ExceptHookArgs) -> None:
    """A client fails with each of its threads."""
    threading.__excepthook__(error)
    os._exit(1)


def is_client(words: Sequence[str], clients: Mapping[str, Client]) -> bool:
    """Whether the program was called for a client of its own process, which has come to its end then."""
    if not words or words[0] not in clients:
        return False
    tell_who_ends(Path(words[1]) / f"{_ENDED}.{words[0]}{words[2]}")
    faulthandler.register(signal.SIGUSR1)
    threading.excepthook = _fail
    clients[words[0]](Path(words[1]), words[2], words[3].split(","), float(words[4]))
    return True


def texts_of(block: Block) -> list[str]:
    """What was committed with a block: a text of each commit."""
    return [record.data.decode().rstrip(".") for record in block.records]  # type: ignore[union-attr]


def text_of(block: Block) -> str:
    """The last of them."""
    return texts_of(block)[-1]
