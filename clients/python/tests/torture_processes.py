"""The processes of a torture: in a space of their own, where nobody else's meet them, and what each was ended by is told.

Called with a program it is the first process of such a space: it takes the ends of all whose parents are gone.
"""

from __future__ import annotations

import ctypes
import os
import random
import signal
import socket
import stat
import subprocess
import sys
import tempfile
import threading
from contextlib import contextmanager
from pathlib import Path
from typing import Iterator

ENDING = (signal.SIGTERM, signal.SIGHUP, signal.SIGQUIT)
"""Signals by which somebody may end a client, and that it can be told of."""
MOUNTS = "PAGELOG_TORTURE_MOUNTS"
"""In the environment where what is mounted ends with the space of processes."""
DATABASE = "postgres"
"""The program whose processes end each other, by signals too."""
LOOKS = "ldconfig"
"""What Python asks for the names of libraries: it ends by SIGPIPE where who asked was killed."""
PIDFD_GETFD = 438
"""The number of this call of Linux, which Python does not have."""
_OWN = "setpriv --pdeathsig KILL unshare --mount --propagation private --pid --fork --mount-proc --kill-child"


def in_own_space(words: list[str]) -> list[str]:
    """The words that call a program in a space of its own, with its own mounts, for root; for others these words themselves."""
    own = _OWN.split()
    with tempfile.TemporaryDirectory() as folder:
        mount = [*own, "mount", "-t", "tmpfs", "tmpfs", folder]
        try:
            if os.getuid() != 0 or subprocess.run(mount, capture_output=True).returncode != 0:
                return words
        except FileNotFoundError:
            return words  # this system has other tools
    return [*own, "env", f"{MOUNTS}=1", sys.executable, str(Path(__file__).resolve()), *words]


def is_in_own_space() -> bool:
    return MOUNTS in os.environ


def end_of(status: int) -> str:
    """An exit status as Python has it, in words."""
    return f"was ended by {signal.Signals(-status).name}" if status < 0 else f"ended with {status}"


def is_expected(name: str, status: int) -> bool:
    """Whether a torture does that itself: all that it kills it kills by SIGKILL."""
    is_left = (name, -status) == (LOOKS, signal.SIGPIPE)
    return status >= 0 or -status == signal.SIGKILL or name == DATABASE or is_left


# The first process.


def first(words: list[str]) -> int:
    """Runs a program. Returns its exit status, or 1 where a process that nobody waited for was ended by a signal that no torture sends."""
    program, strange = os.posix_spawnp(words[0], words, os.environ), 0
    while True:
        ended = os.waitid(os.P_ALL, 0, os.WEXITED | os.WNOWAIT)
        assert ended is not None
        name = _name_of(ended.si_pid)
        status = os.waitstatus_to_exitcode(os.waitpid(ended.si_pid, 0)[1])
        if ended.si_pid == program:
            return (status if status >= 0 else 128 - status) or strange
        if not is_expected(name, status):
            print(f"violation: {name}, process {ended.si_pid}, {end_of(status)}", flush=True)
            strange = 1


def _name_of(pid: int) -> str:
    """Of a process, also of one that has ended."""
    try:
        return Path(f"/proc/{pid}/comm").read_text().strip()
    except OSError:
        return "a process that is gone"


# Connections.


def lines_of(pid: int) -> Iterator[socket.socket]:
    """Copies of the connections that another process has; none where that is not allowed, or it has ended."""
    library = ctypes.CDLL(None)
    try:
        process = os.pidfd_open(pid)
    except OSError:
        return
    try:
        for file in os.listdir(f"/proc/{pid}/fd"):
            copy = library.syscall(PIDFD_GETFD, process, int(file), 0)
            if copy >= 0 and not stat.S_ISSOCK(os.fstat(copy).st_mode):
                os.close(copy)
            elif copy >= 0:
                with socket.socket(fileno=copy) as line:
                    yield line
    except FileNotFoundError:
        pass
    finally:
        os.close(process)


def shut(line: socket.socket) -> bool:
    """Cuts a connection to a named end. Returns whether it is one: neither a listener, nor a pair within the process."""
    try:
        if not line.getpeername():
            return False
        line.shutdown(socket.SHUT_RDWR)
        return True
    except OSError:
        return False


def shut_some(pid: int, chance: random.Random) -> int:
    """Cuts some connections of a process, or all. Returns how many."""
    share = chance.choice([0.3, 1.0])
    return sum(shut(line) for line in lines_of(pid) if chance.random() < share)


# Clients.


@contextmanager
def signals_kept() -> Iterator[None]:
    """Who is begun meanwhile gets these signals once it takes them, by `tell_who_ends`."""
    before = signal.pthread_sigmask(signal.SIG_BLOCK, ENDING)
    try:
        yield
    finally:
        signal.pthread_sigmask(signal.SIG_SETMASK, before)


def tell_who_ends(file: Path) -> None:
    """If a signal ends this process the file says who sent it, which no parent can find out. For before other threads begin."""
    signal.pthread_sigmask(signal.SIG_BLOCK, ENDING)
    os.register_at_fork(after_in_child=lambda: signal.pthread_sigmask(signal.SIG_UNBLOCK, ENDING))
    threading.Thread(target=_wait_for_end, args=(file,), daemon=True).start()


def _wait_for_end(file: Path) -> None:
    came = signal.sigwaitinfo(ENDING)
    file.write_text(f", which {_sender(came.si_pid)} sent")
    signal.pthread_sigmask(signal.SIG_UNBLOCK, ENDING)
    signal.pthread_kill(threading.get_ident(), came.si_signo)


def _sender(pid: int) -> str:
    """A process of no space that is seen here has the number 0."""
    return f"{_name_of(pid)}, process {pid}," if pid else "somebody outside of the torture"


def end_told(status: int, file: Path) -> str:
    """How a client ended, and who ended it if its file says so."""
    if not file.exists():
        return end_of(status)
    sender = file.read_text()
    file.unlink()  # another client of its name comes
    return end_of(status) + sender


if __name__ == "__main__":
    sys.exit(first(sys.argv[1:]))
