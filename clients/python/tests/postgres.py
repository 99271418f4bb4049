"""A PostgreSQL of the tests' own, in a folder of its own, which ends with them."""

from __future__ import annotations

import atexit
import functools
import os
import shutil
import socket
import subprocess
import tempfile
import threading
from pathlib import Path
from typing import Any

from service import accept_each

PATIENCE = 300
"""How many seconds a start or an end may take. What pg_ctl waits by itself, 60, is little on a machine with much else to do."""
FSYNC = os.environ.get("PAGELOG_TEST_FSYNC", "on")
"""`off` in the tests, where a server is killed and its machine is not: then no test waits for a disk."""
CLUSTER = "PAGELOG_TEST_CLUSTER"
"""The name in the environment of a folder with what initdb has made: to make that takes ten times as long as to copy it."""
USER = "postgres" if os.getuid() == 0 else None
"""As whom PostgreSQL runs: not as root."""
_started: list["Postgres"] = []


def programs() -> Path:
    """The folder of PostgreSQL's programs: the newest beside `psql`, or that of `initdb`."""
    known = shutil.which("psql")
    tops = {Path(known).parent.parent, Path(known).resolve().parents[2]} if known else set()
    folders = [
        folder for top in tops for folder in sorted(top.glob("lib/postgresql/*/bin"), reverse=True)
    ]
    initdb = shutil.which("initdb")
    folders += [Path(initdb).resolve().parent] if initdb else []
    for folder in folders:
        if (folder / "initdb").exists():
            return folder
    raise AssertionError("there is no PostgreSQL: apt-get install postgresql")


class Postgres:
    """A running server with a socket of its own."""

    def __init__(self) -> None:
        self.folder = Path(tempfile.mkdtemp(prefix="pagelog-postgres-"))
        self.user = USER
        if self.user:
            shutil.chown(self.folder, self.user)
        self.data = self.folder / "data"
        self.make()
        self.start()
        atexit.register(self.stop)

    def make(self) -> None:
        """Makes its folder: a copy of the one that initdb has made for this run."""
        self.call(["cp", "-a", str(_cluster()), str(self.data)], check=True)

    def run(self, program: str, *arguments: object) -> None:
        with (self.folder / "said").open("a+") as said:
            done = self.call(
                [str(programs() / program), *map(str, arguments)],
                cwd=self.folder,
                stdout=said,
                stderr=said,
            )
            if done.returncode != 0:
                said.seek(0)
                raise AssertionError(f"{program} failed: {said.read()}")

    def call(self, words: list[str], **how: Any) -> subprocess.CompletedProcess[bytes]:
        """Runs it, as a user who is not root."""
        return _run(words, **how)

    def start(self) -> None:
        options = f"-k {self.folder} -c listen_addresses= -c max_connections=30 -c fsync={FSYNC}"
        self.run(
            "pg_ctl",
            "-D",
            self.data,
            "-o",
            options,
            "-l",
            self.folder / "log",
            "-w",
            "-t",
            PATIENCE,
            "start",
        )

    def crash(self) -> None:
        """Ends it at once, without a checkpoint."""
        self.run("pg_ctl", "-D", self.data, "-m", "immediate", "-w", "-t", PATIENCE, "stop")

    def stop(self) -> None:
        if self.folder.exists():
            try:
                self.crash()
            except AssertionError:
                pass
            shutil.rmtree(self.folder, ignore_errors=True)

    def url(self, name: str) -> str:
        """The URL of a new database of this name."""
        self.run("createdb", "-h", self.folder, "-U", "pagelog", name)
        return f"postgresql://pagelog@/{name}?host={self.folder}"


def _run(words: list[str], **how: Any) -> subprocess.CompletedProcess[bytes]:
    groups: dict[str, Any] = {"group": USER, "extra_groups": []} if USER else {}
    return subprocess.run(words, user=USER, **groups, **how)


def initdb(data: Path, *more: object) -> list[str]:
    """The words that make a cluster there."""
    words = (
        programs() / "initdb",
        "-D",
        data,
        "-U",
        "pagelog",
        "-A",
        "trust",
        "--no-sync",
        "-E",
        "UTF8",
        "--locale=C",
        *more,
    )
    return list(map(str, words))


@functools.cache
def _cluster() -> Path:
    """The folder of which copies are made: that of the environment, or one of this process."""
    return Path(os.environ[CLUSTER]) if CLUSTER in os.environ else make_cluster()


def make_cluster() -> Path:
    """A folder that initdb has made, until this process ends."""
    folder = Path(tempfile.mkdtemp(prefix="pagelog-cluster-"))
    atexit.register(shutil.rmtree, folder, ignore_errors=True)
    if USER:
        shutil.chown(folder, USER)
    done = _run(
        initdb(folder / "data"), cwd=folder, stdout=subprocess.PIPE, stderr=subprocess.STDOUT
    )
    if done.returncode != 0:
        raise AssertionError(f"initdb failed: {done.stdout.decode()}")
    return folder / "data"


def postgres() -> Postgres:
    """The one server of this run, started when it is first asked for."""
    if not _started:
        _started.append(Postgres())
    return _started[0]


class SilentProxy:
    """Passes on what goes to a PostgreSQL and comes from it, until it is told to be silent: its connections stay open then."""

    def __init__(self, server: Postgres) -> None:
        self.folder = Path(tempfile.mkdtemp(prefix="pagelog-silent-"))
        self.server = server
        self.is_silent = threading.Event()
        self.listener = socket.socket(socket.AF_UNIX)
        self.listener.bind(str(self.folder / ".s.PGSQL.5432"))
        self.listener.listen()
        accept_each(self.listener, self._serve)

    def __enter__(self) -> SilentProxy:
        return self

    def __exit__(self, *_: object) -> None:
        self.listener.close()
        shutil.rmtree(self.folder, ignore_errors=True)

    def url(self, of_server: str) -> str:
        """The URL by which a database of the server is reached through this."""
        return of_server.replace(str(self.server.folder), str(self.folder))

    def _serve(self, client: socket.socket) -> None:
        server = socket.socket(socket.AF_UNIX)
        server.connect(str(self.server.folder / ".s.PGSQL.5432"))
        threading.Thread(target=self._pass_on, args=(client, server), daemon=True).start()
        self._pass_on(server, client)

    def _pass_on(self, source: socket.socket, target: socket.socket) -> None:
        try:
            while data := source.recv(65536):
                if self.is_silent.is_set():
                    continue
                target.sendall(data)
        except OSError:
            pass
        if not self.is_silent.is_set():
            target.close()
