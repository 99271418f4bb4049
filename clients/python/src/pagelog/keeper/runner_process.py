"""The process of a runner: it starts services as its own user, and ends them, for who may ask it. It knows of no keeper, and nothing of
what it starts ends with it."""

from __future__ import annotations

import json
import os
import select
import signal
import socket
import struct
import subprocess
from collections import OrderedDict
from contextlib import suppress
from pathlib import Path
from typing import Any, Sequence

from pagelog.keeper.acknowledged import memory_of
from pagelog.keeper.run import environment, is_readable
from pagelog.keeper.unix import public_socket, received

_CONNECTIONS = 64
"""That may wait for their reply, or have asked nothing yet: the one that came first goes first."""
_FIRST = 3
"""The descriptor of the socket that systemd has made."""


def listener(path: Path | None) -> socket.socket | None:
    """The socket that systemd has made; else one at this path, that every user can connect to. None where there is neither. Raises
    `OSError`."""
    if os.environ.get("LISTEN_PID") == str(os.getpid()) and os.environ.get("LISTEN_FDS") == "1":
        os.set_inheritable(_FIRST, False)
        return socket.socket(fileno=_FIRST)
    return None if path is None else public_socket(path.parent, path.name)


class RunnerProcess:
    """Answers the users of these numbers."""

    def __init__(self, listener: socket.socket, users: set[int]) -> None:
        self._listener, self._users = listener, users
        self._poll = select.poll()
        self._lines: OrderedDict[int, socket.socket] = OrderedDict()
        self._children: dict[int, subprocess.Popen[bytes]] = {}
        """By their pidfds."""
        listener.setblocking(False)
        self._poll.register(listener, select.POLLIN)

    def serve(self) -> None:
        """Until it is killed."""
        while True:
            self.step()

    def step(self) -> None:
        """Waits for something, and does it."""
        for descriptor, _ in self._poll.poll():
            if descriptor == self._listener.fileno():
                self._accept()
            elif (line := self._lines.pop(descriptor, None)) is not None:
                self._poll.unregister(descriptor)
                with line, suppress(
                    Exception
                ):  # whoever sends that gets no reply, and all others do
                    self._answer(line)
            elif (child := self._children.pop(descriptor, None)) is not None:
                self._poll.unregister(descriptor)
                os.close(descriptor)
                child.wait()

    def _accept(self) -> None:
        try:
            line, _ = self._listener.accept()
        except OSError:
            return  # it has left again, or there is no descriptor for it: then it waits
        line.setblocking(False)
        if len(self._lines) == _CONNECTIONS:
            descriptor, first = self._lines.popitem(last=False)
            self._poll.unregister(descriptor)
            first.close()
        self._lines[line.fileno()] = line
        self._poll.register(line, select.POLLIN)

    def _answer(self, line: socket.socket) -> None:
        text, opened = received(line)
        try:
            _, user, _ = struct.unpack(
                "3i", line.getsockopt(socket.SOL_SOCKET, socket.SO_PEERCRED, 12)
            )
            if user not in self._users:
                return _reply(
                    line, {"error": f"user {user} may not ask it: it runs services --for others"}
                )
            request = json.loads(text)
            try:
                self._do(line, request, opened)
            except OSError as error:
                _reply(line, {"error": str(error)})
        finally:
            for each in opened:
                os.close(each)

    def _do(self, line: socket.socket, request: dict[str, Any], opened: list[int]) -> None:
        if "who" in request:
            _reply(line, {"user": os.geteuid(), "pid": os.getpid()})
        elif "start" in request:
            self._start(line, request["start"], *opened)
        elif "end" in request:
            with suppress(ProcessLookupError):
                signal.pidfd_send_signal(opened[0], signal.SIGKILL)
            _reply(line, {})
        elif "memory" in request:
            self._show_memory(line, request["memory"], opened[0])

    def _start(self, line: socket.socket, words: list[str], errors: int, memory: int) -> None:
        """Its input is a pipe of this user, since a service opens it by its path."""
        child = subprocess.Popen(
            words,
            stdin=subprocess.PIPE,
            stdout=subprocess.PIPE,
            stderr=errors,
            start_new_session=True,
            cwd="/",
            env=environment(),
            pass_fds=(memory,),
        )
        assert child.stdin is not None and child.stdout is not None
        with child.stdin, child.stdout:
            try:
                descriptor = os.pidfd_open(child.pid)
            except OSError:
                child.kill()
                child.wait()
                raise
            self._children[descriptor] = child
            self._poll.register(descriptor, select.POLLIN)
            _reply(
                line, {"pid": child.pid}, descriptor, child.stdin.fileno(), child.stdout.fileno()
            )

    def _show_memory(self, line: socket.socket, pid: int, process: int) -> None:
        memory = memory_of(pid)
        try:
            has_ended = is_readable(process, 0)  # then its number may be another process's by now
            _reply(line, {}, *([] if memory is None or has_ended else [memory]))
        finally:
            if memory is not None:
                os.close(memory)


def _reply(line: socket.socket, reply: dict[str, Any], *descriptors: int) -> None:
    socket.send_fds(line, [json.dumps(reply).encode()], descriptors)


def users_of(names: Sequence[str]) -> set[int]:
    """The numbers of these users, and root's. Raises `KeyError`."""
    import pwd

    return {0, *(int(name) if name.isdecimal() else pwd.getpwnam(name).pw_uid for name in names)}
