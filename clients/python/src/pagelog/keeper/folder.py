"""The folder of a keeper's files, which one keeper at a time has."""

from __future__ import annotations

import fcntl
import os
from contextlib import suppress
from pathlib import Path

_MOST = 16
"""Lives that are noted, where none comes to have the name."""


class KeeperFolder:
    """A folder that is locked while this process runs. The lock ends with the process, however that ends; its services have none."""

    def __init__(self, path: Path, name: str) -> None:
        """`name` is the keeper's. The folder is made if it is not there."""
        path.mkdir(parents=True, exist_ok=True, mode=0o700)
        self.path, self._name = path, name
        self._note, self._lives = path / "keeper", path / "lives"
        self._descriptor = os.open(path, os.O_RDONLY | os.O_DIRECTORY)
        told = os.fstat(self._descriptor)
        boot = Path("/proc/sys/kernel/random/boot_id").read_text().strip()
        self._here = f"{boot}:{told.st_dev}:{told.st_ino}"
        """This very folder, since the machine was started: a copy of it, or of the machine, is another."""
        self._is_taken = False

    def take(self) -> bool:
        """Takes it, and notes the keeper's name in it. False where another process has it."""
        try:
            fcntl.flock(self._descriptor, fcntl.LOCK_EX | fcntl.LOCK_NB)
        except BlockingIOError:
            return False
        if not self._is_taken:
            self._note.write_text(self._name)
            self._is_taken = True
        return True

    @property
    def owner(self) -> str:
        """The name of the keeper that took it last; nothing where it has left it."""
        try:
            return self._note.read_text()
        except OSError:
            return ""

    @property
    def lives(self) -> tuple[str, ...]:
        """The lives of keepers that began in this very folder, of which one may still have the name. Who has the folder knows that they
        are over."""
        try:
            here, *lives = self._lives.read_text().split()
        except (OSError, ValueError):
            return ()
        return tuple(lives) if here == self._here else ()

    def note(self, life: str) -> None:
        """Notes a life that is about to take the name, beside the earlier ones: whether it has it may be in doubt."""
        if life not in self.lives:
            self._write((*self.lives[1 - _MOST :], life))

    def settle(self, life: str) -> None:
        """Notes the life that has the name, and no other."""
        self._write((life,))

    def _write(self, lives: tuple[str, ...]) -> None:
        fresh = self._lives.with_name("lives~")
        with suppress(OSError):  # as on a full disk: then the next instance waits for a ttl
            fresh.write_text(" ".join((self._here, *lives)))
            fresh.replace(self._lives)

    def leave(self) -> None:
        """Leaves it to the next one."""
        if self._is_taken:
            self._note.unlink(missing_ok=True)
        os.close(self._descriptor)
