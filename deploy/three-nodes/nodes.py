"""Three machines on one: each has namespaces of its own for network, processes and mounts, and a link to one bridge."""

from __future__ import annotations

import os
import signal
import subprocess
import sys
import time
from pathlib import Path

HERE = Path(__file__).resolve().parent
BRIDGE, OWN_ADDRESS = "bridge", "10.77.0.254"
ADDRESSES = {"a": "10.77.0.1", "b": "10.77.0.2", "c": "10.77.0.3"}
PAGES = ("a", "b")
"""Those with a page server."""


def ip(*words: object) -> str:
    """What the command `ip` prints."""
    return subprocess.run(
        ["ip", *map(str, words)], check=True, capture_output=True, text=True
    ).stdout


def make_bridge() -> None:
    """The network of the machines; the clients are at its own address."""
    ip("link", "set", "lo", "up")
    ip("link", "add", BRIDGE, "type", "bridge")
    ip("address", "add", f"{OWN_ADDRESS}/24", "dev", BRIDGE)
    ip("link", "set", BRIDGE, "up")


class Node:
    """A machine: etcd, Patroni with PostgreSQL, a keeper and its services; perhaps a page server."""

    def __init__(self, name: str, folder: Path) -> None:
        self.name, self.address, self.folder = name, ADDRESSES[name], folder
        self.port = f"port-{name}"
        self._first: subprocess.Popen[bytes] | None = None
        ip("netns", "add", name)
        ip("link", "add", self.port, "type", "veth", "peer", "name", "eth0", "netns", name)
        ip("link", "set", self.port, "master", BRIDGE, "up")
        ip("-n", name, "address", "add", f"{self.address}/24", "dev", "eth0")
        ip("-n", name, "link", "set", "eth0", "up")

    def start(self) -> None:
        """Switches it on, with its link."""
        self.join()
        words = [
            "ip",
            "netns",
            "exec",
            self.name,
            "unshare",
            "--mount",
            "--pid",
            "--fork",
            "--kill-child",
            "--mount-proc",
            sys.executable,
            "-B",
            HERE / "boot.py",
            self.folder,
            *(["pagelog-pages"] if self.name in PAGES else []),
        ]
        with (self.folder / "boot.log").open("a") as log:
            self._first = subprocess.Popen(
                list(map(str, words)), stdin=subprocess.DEVNULL, stdout=log, stderr=log
            )

    def kill(self) -> None:
        """Its power goes: its link first, so that nobody is told, and then all of its processes at once."""
        self.cut()
        self.signal(signal.SIGKILL)
        if self._first is not None:
            self._first.wait()
        while self.processes():
            time.sleep(0.01)

    def cut(self) -> None:
        """Its link carries nothing any more. Its processes go on."""
        ip("link", "set", self.port, "down")

    def join(self) -> None:
        """Its link carries again."""
        ip("link", "set", self.port, "up")

    def stop(self) -> None:
        """All of its processes stand still."""
        while any(not is_still(pid) for pid in self.processes()):
            self.signal(signal.SIGSTOP)
            time.sleep(0.01)

    def go_on(self) -> None:
        """All of its processes go on."""
        self.signal(signal.SIGCONT)

    def processes(self) -> list[int]:
        return [int(word) for word in ip("netns", "pids", self.name).split()]

    def signal(self, number: signal.Signals) -> None:
        for pid in self.processes():
            try:
                os.kill(pid, number)
            except ProcessLookupError:
                pass  # it has ended meanwhile


def is_still(pid: int) -> bool:
    """Whether a process is stopped, or is none any more."""
    try:
        return Path(f"/proc/{pid}/stat").read_text().rpartition(")")[2].split()[0] in "TZX"
    except OSError:
        return True
