"""Keepers whose services run as another user, by a runner: users of numbers that nobody else has."""

from __future__ import annotations

import os
import pickle
import shutil
import socket
import subprocess
import sys
import time
from pathlib import Path
from typing import Any, Callable

from keepers import Keeping, end_services, eventually
from pagelog.keeper.runner import Runner
from postgres import postgres
from service import PATIENCE, SOURCE

SERVICES, KEEPERS = 64_001, 64_002
CAN = os.geteuid() == 0
WHY_NOT = "only root can be several users"


def of_user(number: int) -> dict[str, Any]:
    """As `Popen` has it."""
    return {"user": number, "group": number, "extra_groups": []}


def as_user(number: int, call: Callable[[], Any]) -> Any:
    """What the call returns in a process of this user, or raises."""
    here, there = os.pipe()
    child = os.fork()
    if child == 0:
        try:
            os.setgroups([])
            os.setresgid(number, number, number)
            os.setresuid(number, number, number)
            try:
                result = True, call()
            except BaseException as error:
                result = False, error
            os.write(there, pickle.dumps(result))
        finally:
            os._exit(0)
    os.close(there)
    with open(here, "rb") as pipe:
        text = pipe.read()
    os.waitpid(child, 0)
    is_good, found = pickle.loads(text)
    if not is_good:
        raise found
    return found


class RunnerOf:
    """A runner's process, for keepers of the other user, and its socket."""

    def __init__(self, folder: Path, user: int = SERVICES, friend: int = KEEPERS) -> None:
        self.folder, self._user, self._friend = folder, user, friend
        folder.mkdir(mode=0o755)
        os.chown(folder, user, user)
        self.socket = folder / "socket"
        self.process: subprocess.Popen[bytes] | None = None

    def begin(
        self, environment: dict[str, str] | None = None, listener: socket.socket | None = None
    ) -> None:
        """Starts its process, with a socket that was made for it, as systemd does, or with none."""
        words = [
            sys.executable,
            "-m",
            "pagelog",
            "runner",
            "--for",
            str(self._friend),
            "--socket",
            str(self.socket),
        ]
        given = [] if listener is None else [listener.fileno()]
        if given:
            words = [
                "sh",
                "-c",
                'LISTEN_FDS=1 LISTEN_PID=$$; export LISTEN_FDS LISTEN_PID; exec "$@" 3<&"$0"',
                str(*given),
                *words,
            ]
        self.process = subprocess.Popen(
            words,
            stdout=subprocess.DEVNULL,
            env={**os.environ, "PYTHONPATH": str(SOURCE), **(environment or {})},
            pass_fds=given,
            **of_user(self._user),
        )

    def start(
        self, environment: dict[str, str] | None = None, listener: socket.socket | None = None
    ) -> None:
        """Begins it, and waits until it answers."""
        self.begin(environment, listener)
        try:
            eventually(self._answers, "a runner")
        except BaseException:
            self.kill()
            raise

    def _answers(self) -> bool:
        assert self.process is not None and self.process.poll() is None
        try:
            Runner(self.socket)._reply(b'{"who": 1}', (), time.monotonic() + PATIENCE)
        except (OSError, EOFError):
            return False
        return True

    def children(self) -> list[int]:
        """The processes that it has started, and that have not ended."""
        assert self.process is not None
        return [
            int(each)
            for each in Path(f"/proc/{self.process.pid}/task/{self.process.pid}/children")
            .read_text()
            .split()
        ]

    def kill(self) -> None:
        """Its end by force."""
        assert self.process is not None
        self.process.kill()
        self.process.wait()


class Apart(Keeping):
    """Keepers of one user, and services of another."""

    def __init__(self, **options: Any) -> None:
        postgres().folder.chmod(0o711)
        super().__init__(**options)
        self.folder.chmod(0o711)
        os.chown(self.file, KEEPERS, KEEPERS)
        self.runner = RunnerOf(self.folder / "runner")
        self.runner.start()
        self.words, self.user = ("--runner", self.runner.socket), of_user(KEEPERS)

    def launch(self, *names: str, **how: Any) -> None:
        for name in names:
            (self.folder / name).mkdir(mode=0o700, exist_ok=True)
            os.chown(self.folder / name, KEEPERS, KEEPERS)
        super().launch(*names, **how)

    def __exit__(self, *_: object) -> None:
        names = list(self.processes)
        super().__exit__()
        self.runner.kill()
        for name in names:
            end_services(self.folder / name)
        shutil.rmtree(self.folder, ignore_errors=True)
