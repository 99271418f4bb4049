"""The page servers of a machine: one for each database, all in one folder."""

from __future__ import annotations

import fcntl
import os
import threading
from contextlib import suppress
from pathlib import Path
from typing import Callable, Collection

from pagelog.errors import PagelogError
from pagelog.pages.directory import names
from pagelog.pages.following import Follower, PageServerSettings
from pagelog.pages.process import ServedBounds
from pagelog.referee.referee import KeeperError, Referee
from pagelog.referee.schema import FORMAT
from pagelog.repeating import Repeats

_NAMES = 5.0
"""Seconds after which it looks for databases that were created or dropped."""
_END = 60.0


class FolderInUse(PagelogError):
    """Another process has the folder."""


class PageServers:
    """Begins and ends followers as databases come and go, until it is told to end."""

    def __init__(
        self,
        settings: PageServerSettings,
        referee: Callable[[str], Referee],
        wanted: Collection[str],
        say: Callable[[str, str], None],
    ) -> None:
        """`referee` makes one, of who is called so. `wanted` are the names of databases; none: all there are."""
        self._settings, self._referee, self._wanted = settings, referee, frozenset(wanted)
        self._say, self._repeats = say, Repeats(say)
        self._ends = threading.Event()
        self._running: dict[str, tuple[Follower, threading.Thread]] = {}

    def end(self) -> None:
        """It ends soon. For a signal too."""
        self._ends.set()

    def states(self) -> dict[str, ServedBounds]:
        """Where those are that answer, by database."""
        found = {follower.name: follower.where for follower, _ in [*self._running.values()]}
        return {name: where for name, where in found.items() if where is not None}

    def damages(self) -> dict[str, int]:
        """How many stores of each database were found damaged."""
        return {follower.name: follower.damages for follower, _ in [*self._running.values()]}

    def run(self) -> None:
        """Serves until the end."""
        with _held(self._settings.folder):
            referee = self._referee(f"pages of {self._settings.machine}")
            while not self._ends.is_set():
                try:
                    self._see(referee)
                except KeeperError as error:
                    self._repeats.say(
                        "pages", f"PostgreSQL does not say which databases there are: {error}"
                    )
                self._ends.wait(_NAMES)
            referee.close()
            for follower, _ in self._running.values():
                follower.end()
            for _, thread in self._running.values():
                thread.join(_END)

    def _see(self, referee: Referee) -> None:
        found = {
            identity: name
            for name, identity in names(referee, FORMAT).items()
            if not self._wanted or name in self._wanted
        }
        for identity, name in found.items():
            if identity not in self._running or not self._running[identity][1].is_alive():
                self._begin(name, identity)
        for identity in self._running.keys() - found.keys():
            self._running[identity][0].end()
        for missing in self._wanted - set(found.values()):
            self._repeats.say(missing, "there is no database of this name")

    def _begin(self, name: str, identity: str) -> None:
        follower = Follower(
            self._settings, self._referee(f"pages of {name}"), name, identity, self._say
        )
        thread = threading.Thread(target=follower.run, name=name, daemon=True)
        self._running[identity] = follower, thread
        thread.start()


class _held:
    """The folder, for one process at a time."""

    def __init__(self, folder: Path) -> None:
        folder.mkdir(mode=0o700, parents=True, exist_ok=True)
        self._descriptor = os.open(folder / "lock", os.O_CREAT | os.O_RDWR | os.O_CLOEXEC, 0o600)
        self._folder = folder

    def __enter__(self) -> None:
        try:
            fcntl.flock(self._descriptor, fcntl.LOCK_EX | fcntl.LOCK_NB)
        except OSError as error:
            os.close(self._descriptor)
            raise FolderInUse(f"another process serves pages from {self._folder}") from error

    def __exit__(self, *_: object) -> None:
        with suppress(OSError):
            os.close(self._descriptor)
