"""Services that run as another user than their keeper. A process of that user, `pagelogctl runner`, starts and ends them as it is told,
and has no right besides: so nothing of a keeper's reaches them, and no keeper needs the right to become somebody else.

A request is one message over a connection of its own, and so is its reply. Descriptors go with them.
"""

from __future__ import annotations

import json
import os
import select
import signal
import socket
import subprocess
import time
from contextlib import suppress
from dataclasses import dataclass
from pathlib import Path
from typing import IO, Any, Sequence, cast

from pagelog.errors import PagelogError
from pagelog.keeper.unix import near, received
from pagelog.repeating import Backoff

PATIENCE = 5.0
"""Seconds for which it is waited for, also while it is started again."""


class RunnerError(PagelogError):
    """The runner is not there, or does not do what it is told."""


class Hired:
    """A process that a runner has started; as far as it goes, what `subprocess.Popen` is of an own one."""

    def __init__(self, runner: Runner, pid: int, descriptor: int, stdin: int, stdout: int) -> None:
        self._runner, self.pid, self.descriptor = runner, pid, descriptor
        """The descriptor is a pidfd."""
        self.stdin = cast(IO[bytes], os.fdopen(stdin, "wb"))
        self.stdout = cast(IO[bytes], os.fdopen(stdout, "rb"))
        self.returncode: int | None = None

    @property
    def has_ended(self) -> bool:
        """Whether it has: then nothing in /proc is its own any more."""
        poll = select.poll()
        poll.register(self.descriptor, select.POLLIN)
        return bool(poll.poll(0))

    def kill(self) -> None:
        """Ends it. Raises `RunnerError`."""
        self._runner.end(self.descriptor)

    def wait(self, timeout: float | None = None) -> int:
        """Waits for its end; its status is its runner's. Raises `TimeoutExpired`."""
        poll = select.poll()
        poll.register(self.descriptor, select.POLLIN)
        if timeout is not None and not poll.poll(1000 * timeout):
            raise subprocess.TimeoutExpired(str(self.pid), timeout)
        poll.poll()
        return self.returncode or 0


@dataclass(frozen=True)
class Runner:
    """The one that listens at this socket."""

    path: Path

    def check(self) -> None:
        """Raises `RunnerError` unless it is there, as another user, and this process sees the processes of that."""
        found, _ = self._asked({"who": True})
        if found["user"] == os.geteuid():
            raise RunnerError(
                f"the runner at {self.path} runs as this very user: services would have all that their keeper may read"
            )
        self._see(found["pid"])

    def start(self, words: Sequence[str], errors: int, memory: int) -> Hired:
        """Starts a process with these descriptors, and no other but its own input and output. Raises `RunnerError`."""
        found, (descriptor, stdin, stdout) = self._asked(
            {"start": list(words)}, errors, memory, wants=3
        )
        made = Hired(self, found["pid"], descriptor, stdin, stdout)
        try:
            if self._see(made.pid) == os.geteuid():
                raise RunnerError(
                    f"the runner at {self.path} has started a service as this very user"
                )
        except RunnerError:
            has_ended = made.has_ended
            with suppress(RunnerError):
                made.kill()
            made.stdin.close()  # without a table it ends
            made.stdout.close()
            os.close(descriptor)
            if has_ended:
                raise RunnerError("it ended at once") from None
            raise
        return made

    def end(self, process: int) -> None:
        """Kills the process of this pidfd. Raises `RunnerError`."""
        self._asked({"end": True}, process)

    def memory_of(self, pid: int, process: int) -> int | None:
        """The descriptor that `acknowledged.memory_of` has of a process that may be ended by now. Raises `RunnerError`."""
        _, found = self._asked({"memory": pid}, process)
        return found[0] if found else None

    def _see(self, pid: int) -> int:
        try:
            return os.stat(f"/proc/{pid}").st_uid
        except OSError as error:
            raise RunnerError(
                f"processes of the runner at {self.path} are hidden from this one, as by ProtectProc= or hidepid: {error}"
            ) from error

    def _asked(
        self, request: dict[str, Any], *descriptors: int, wants: int | None = None
    ) -> tuple[dict[str, Any], list[int]]:
        """Asks again while nobody answers: what was begun by a request whose reply was lost has no table, and ends."""
        deadline, waits = time.monotonic() + PATIENCE, Backoff(0.02, 0.5)
        while True:
            try:
                found, opened = self._reply(json.dumps(request).encode(), descriptors, deadline)
            except (OSError, EOFError) as error:
                if time.monotonic() >= deadline:
                    raise RunnerError(
                        f"no runner of services answers at {self.path}: {error}"
                    ) from error
                time.sleep(waits.next())
                continue
            if "error" not in found and (wants is None or len(opened) == wants):
                return found, opened
            for each in opened:
                os.close(each)
            raise RunnerError(
                f"the runner at {self.path}: {found.get('error', 'it has no descriptor left')}"
            )

    def _reply(
        self, request: bytes, descriptors: Sequence[int], deadline: float
    ) -> tuple[dict[str, Any], list[int]]:
        with socket.socket(socket.AF_UNIX, socket.SOCK_SEQPACKET) as line, near(
            self.path.parent, self.path.name
        ) as path:
            line.settimeout(max(0.01, deadline - time.monotonic()))
            line.connect(path)
            socket.send_fds(line, [request], descriptors)
            text, opened = received(line)
            if not text:
                raise EOFError("it has closed the connection")
            return json.loads(text), opened


def is_allowed(pid: int) -> bool:
    """Whether this process may do to that one what its runner may, as root may, and a keeper of before to services of its own user."""
    try:
        return os.geteuid() in (0, os.stat(f"/proc/{pid}").st_uid)
    except OSError:
        return False


def kill(process: int, runner: Runner | None) -> None:
    """Kills the process of this pidfd, by its runner where that alone may. Raises `RunnerError`, and `OSError`."""
    try:
        signal.pidfd_send_signal(process, signal.SIGKILL)
    except PermissionError:
        if runner is None:
            raise
        runner.end(process)
