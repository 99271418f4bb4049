"""What the tests use: the real program, started on a free port, and a proxy that cuts connections."""

from __future__ import annotations

import inspect
import os
import random
import resource
import select
import shutil
import signal
import socket
import subprocess
import sys
import tempfile
import threading
import time
from pathlib import Path
from types import FrameType
from typing import Callable
from unittest.mock import patch

HERE = Path(__file__).resolve().parent
TOP = HERE.parent.parent.parent
SOURCE = HERE.parent / "src"
sys.path.insert(0, str(SOURCE))

import pagelog  # noqa: E402

PROGRAM = os.environ.get("PAGELOG") or str(TOP / "crates" / "pagelog" / "out" / "pagelog")
TABLE = TOP / "crates" / "pagelog" / "data" / "t0.toml"
PATIENCE = float(os.environ.get("PAGELOG_TEST_PATIENCE", "300"))
"""How many seconds a test waits for what has to come: on a machine with much else to do anything may take its time."""
# What is compiled once is found by each process of the tests: a keeper that compiles all that it imports begins three times as late.
os.environ.pop("PYTHONDONTWRITEBYTECODE", None)
os.environ.setdefault("PYTHONPYCACHEPREFIX", str(HERE.parent / "out" / "bytecode"))
IS_LONG = os.environ.get("PAGELOG_TEST_LONG") == "1"


def plain_environment(**more: str) -> dict[str, str]:
    """That of this process, but for what is loaded before all else, as by scripts/slow: a program with sanitizers wants theirs there."""
    return {name: value for name, value in os.environ.items() if name != "LD_PRELOAD"} | more


# The start table with rights that a restore, a move and a new primary need: principal 2 is a secondary as well.
WIDE_TABLE = TABLE.read_text() + '\n[[row]]\nverdict = "allow"\nwho = 2\nrole = "secondary"\n'


def token(principal: int) -> str:
    return str(principal) * 32


def stand_still(pid: int) -> None:
    """Stops a process by SIGSTOP. Returns once all its threads stand: on a busy machine one may run on for a while."""
    os.kill(pid, signal.SIGSTOP)
    while not all(_stands(task) for task in Path(f"/proc/{pid}/task").iterdir()):
        time.sleep(0.001)


def _stands(task: Path) -> bool:
    try:
        return (task / "stat").read_text().rpartition(")")[2].split()[0] in "TtZX"
    except OSError:
        return True  # it has ended


class Port:
    """A port of this machine that is given to nobody else while it is open, nor as the near end of a connection: a program that is told
    to may listen at it, again and again, and between its lives connections are refused."""

    def __init__(self) -> None:
        self._socket = socket.socket()
        self._socket.setsockopt(
            socket.SOL_SOCKET, socket.SO_REUSEADDR, 1
        )  # as a program that listens does
        self._socket.bind(("127.0.0.1", 0))
        self.number = int(self._socket.getsockname()[1])
        self.address = f"127.0.0.1:{self.number}"

    def close(self) -> None:
        self._socket.close()


class Service:
    """A running `serve`. It ends with the `with`, or with `stop`; its port is held until then, or as long as there is this object."""

    def __init__(
        self,
        *,
        table: str | None = None,
        dbs: int = 1,
        workers: int = 12,
        audit: int = 1_000_000,
        connections: int = 4_000_000_000,
        primary: int = 2,
    ) -> None:
        self.port = Port()
        self.folder = Path(tempfile.mkdtemp(prefix="pagelog-test-"))
        self.table = TABLE
        if table is not None:
            self.table = self.folder / "table.toml"
            self.table.write_text(table)
        words = [
            PROGRAM,
            "serve",
            "--listen",
            self.port.address,
            "--table",
            self.table,
            "--primary",
            primary,
            "--dbs",
            dbs,
            "--workers",
            workers,
            "--connections",
            connections,
            "--audit",
            audit,
        ]
        self.words = [str(word) for word in words]
        self.start()

    def start(self) -> None:
        self.process = subprocess.Popen(
            self.words, stdout=subprocess.PIPE, stderr=subprocess.STDOUT, text=True
        )
        assert self.process.stdout is not None
        line = self.process.stdout.readline()
        if not line.startswith("listening "):
            raise AssertionError(f"the service did not start: {line!r}")
        self.address = line.split()[1]

    def restart(self) -> None:
        """A new service, which knows nothing, at the same address."""
        self.stop()
        self.start()

    def stop(self) -> None:
        self.process.kill()
        self.process.wait()
        assert self.process.stdout is not None
        self.process.stdout.close()

    def __enter__(self) -> Service:
        return self

    def __exit__(self, *_: object) -> None:
        self.stop()
        self.port.close()
        shutil.rmtree(self.folder, ignore_errors=True)

    def limit_memory(self, more: int) -> None:
        """From now on it gets at most `more` further bytes of memory that may be written."""
        text = Path(f"/proc/{self.process.pid}/status").read_text()
        most = 1024 * int(text.split("VmData:")[1].split()[0]) + more
        resource.prlimit(self.process.pid, resource.RLIMIT_DATA, (most, resource.RLIM_INFINITY))

    def unlimit_memory(self) -> None:
        resource.prlimit(
            self.process.pid, resource.RLIMIT_DATA, (resource.RLIM_INFINITY, resource.RLIM_INFINITY)
        )

    # Clients of it.

    def primary(self, id: int = 2, db: int = 0, **options: object) -> pagelog.Primary:
        return pagelog.Primary(self.connection(), pagelog.Credentials.of(id, token(id)), db, **options)  # type: ignore[arg-type]

    def reader(self, id: int = 3, db: int = 0) -> pagelog.Reader:
        return pagelog.Reader(self.connection(), pagelog.Credentials.of(id, token(id)), db)

    def operator(self, db: int = 0) -> pagelog.Operator:
        return pagelog.Operator(self.connection(), pagelog.Credentials.of(1, token(1)), db)

    def page_server(self, db: int = 0, partitions: tuple[int, ...] = (0,)) -> pagelog.PageServer:
        return pagelog.PageServer(
            self.connection(), pagelog.Credentials.of(4, token(4)), db, partitions
        )

    def connection(self, attempts: int = 20) -> pagelog.Connection:
        return pagelog.Connection(self.address, timeout=PATIENCE, attempts=attempts, pause=0.01)

    def credentials_file(
        self,
        *,
        name: str = "credentials.toml",
        url: str | None = None,
        audit: int | None = None,
        **elsewhere: str,
    ) -> Path:
        """A file with a section for each role, at this service, or at the address that `elsewhere` has for it."""
        ids = {"primary": 2, "secondary": 3, "page_server": 4, "operator": 1}
        text = "".join(
            f'[{role}]\nto = "{elsewhere.get(role, self.address)}"\nid = {id}\ntoken = "{token(id)}"\n'
            for role, id in ids.items()
        )
        text += f'[archive]\nurl = "{url}"\n' if url else ""
        text += f"[service]\naudit = {audit}\n" if audit else ""
        file = self.folder / name
        file.touch(mode=0o600)
        file.write_text(text)
        return file


def put(page: int, text: bytes, offset: int = 0) -> pagelog.Put:
    return pagelog.Put(page, offset, text)


def fill(primary: pagelog.Primary, count: int, *, seed: int = 1, empties: bool = True) -> None:
    """Writes `count` blocks of a few records each, some of them large, and some without records."""
    chance = random.Random(seed)

    def transactions():  # type: ignore[no-untyped-def]
        for _ in range(count):
            if empties and chance.random() < 0.1:
                yield ()
                continue
            size = 8000 if chance.random() < 0.02 else chance.randrange(1, 120)
            records = [
                put(
                    chance.randrange(40) + 65536 * chance.randrange(3),
                    chance.randbytes(size),
                    chance.randrange(190),
                )
                for _ in range(chance.randrange(1, 4))
            ]
            yield records + ([pagelog.Zero(chance.randrange(40))] if chance.random() < 0.1 else [])

    for _ in primary.stream(transactions()):
        pass


def interrupted(call: Callable[[], object], file: str, at: int) -> bool:
    """Calls with an interrupt at the place of this number, from 1, of those in a file of the package where Python lets the handler
    of a signal run: as a function begins, and as one of C ends. Returns whether it came so far."""
    left, name = at, str(SOURCE / "pagelog" / file)

    def look(frame: FrameType, event: str, _: object) -> None:
        nonlocal left
        is_place = event in ("c_return", "c_exception") or (
            event == "call" and not frame.f_code.co_flags & inspect.CO_GENERATOR
        )
        if is_place and frame.f_code.co_filename == name:
            left -= 1
            if left == 0:
                raise KeyboardInterrupt

    with patch.object(
        sys, "unraisablehook"
    ):  # what ends a generator that nobody has any more is told of there
        sys.setprofile(look)
        try:
            call()
        except KeyboardInterrupt:
            pass
        finally:
            sys.setprofile(None)
    return left <= 0


def all_that_is_drawn(main: int) -> str:
    """What is written to a terminal until its last process ends. A terminal that nobody reads would stop it."""
    drawn = b""
    try:
        while part := os.read(main, 65536):
            drawn += part
    except OSError:
        pass  # the other end is closed
    os.close(main)
    return drawn.decode(errors="replace")


def accept_each(listener: socket.socket, serve: Callable[[socket.socket], None]) -> None:
    """Serves each connection in a thread of its own, until the listener is closed.

    It does not wait in `accept`: a close does not end that, and a stop of the process begins it again, at whatever has the descriptor then.
    """
    listener.setblocking(False)
    poll = select.poll()
    poll.register(listener, select.POLLIN)

    def accept() -> None:
        while True:
            poll.poll(50)
            try:
                client, _ = listener.accept()
            except BlockingIOError:
                continue
            except OSError:
                return
            threading.Thread(target=serve, args=(client,), daemon=True).start()

    threading.Thread(target=accept, daemon=True).start()


def silent_address(sockets: list[socket.socket]) -> tuple[str, int]:
    """Where a connect is not answered, as of a machine that is gone, as long as these sockets are open: the queue is full."""
    listener = socket.socket()
    listener.bind(("127.0.0.1", 0))
    listener.listen(0)
    sockets.append(listener)
    for _ in range(4):
        sockets.append(socket.socket())
        sockets[-1].setblocking(False)
        sockets[-1].connect_ex(listener.getsockname())
    return "127.0.0.1", int(listener.getsockname()[1])


class CuttingProxy:
    """Passes bytes on to a service, and cuts each connection after a number of bytes, drawn from a seed."""

    def __init__(self, address: str, *, least: int = 50, most: int = 5000, seed: int = 1) -> None:
        self.target = pagelog.Address.parse(address)
        self.least, self.most = least, most
        self.chance = random.Random(seed)
        self.cuts = 0
        self.is_cutting = True
        self.listener = socket.create_server(("127.0.0.1", 0))
        self.address = f"127.0.0.1:{self.listener.getsockname()[1]}"
        accept_each(self.listener, self._serve)

    def __enter__(self) -> CuttingProxy:
        return self

    def __exit__(self, *_: object) -> None:
        self.listener.close()

    def _serve(self, client: socket.socket) -> None:
        left = self.chance.randrange(self.least, self.most) if self.is_cutting else 1 << 60
        try:
            server = socket.create_connection((self.target.host, self.target.port), PATIENCE)
        except OSError:
            client.close()
            return
        try:
            while left > 0:
                ready, _, _ = select.select([client, server], [], [])
                for side in ready:
                    data = side.recv(min(left, 65536))
                    if not data:
                        return
                    (server if side is client else client).sendall(data)
                    left -= len(data)
                    if left <= 0:
                        break
            self.cuts += 1
        except (OSError, ValueError):
            pass
        finally:
            client.close()
            server.close()

    def connection(self, **options: object) -> pagelog.Connection:
        return pagelog.Connection(self.address, timeout=PATIENCE, attempts=60, pause=0.001, **options)  # type: ignore[arg-type]


class TurningProxy(CuttingProxy):
    """Each of its connections leads to one of two services, drawn from the seed."""

    def __init__(self, one: str, other: str, **options: int) -> None:
        self.both = (one, other)
        super().__init__(one, **options)

    def _serve(self, client: socket.socket) -> None:
        self.target = pagelog.Address.parse(self.chance.choice(self.both))
        super()._serve(client)
