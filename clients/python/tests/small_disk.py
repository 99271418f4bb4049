"""A PostgreSQL on disks that are full when a test says so."""

from __future__ import annotations

import atexit
import shutil
import subprocess
import unittest
from pathlib import Path
from typing import Any

from postgres import PATIENCE, Postgres, initdb

SIZE = 64 << 20


class SmallDisks(Postgres):
    """A server whose log of writes has a disk of its own, as has the tablespace `small`: both in memory, and in a mount namespace, which
    ends with the server and this process. Raises `SkipTest` where none can be made."""

    def __init__(self) -> None:
        self.holder: subprocess.Popen[str] | None = None
        super().__init__()
        self.run("createdb", "-h", self.folder, "-U", "pagelog", "kept")
        self.run(
            "psql",
            "-h",
            self.folder,
            "-U",
            "pagelog",
            "-d",
            "kept",
            "-c",
            f"CREATE TABLESPACE small LOCATION '{self.folder}/tables'",
        )

    @property
    def kept(self) -> str:
        """The URL of its database."""
        return f"postgresql://pagelog@/kept?host={self.folder}"

    def make(self) -> None:
        self._mount()
        self.call(
            initdb(self.data, "-X", self.folder / "log-of-writes", "--wal-segsize=1"),
            cwd=self.folder,
            stdout=subprocess.DEVNULL,
            check=True,
        )

    def call(self, words: list[str], **how: Any) -> subprocess.CompletedProcess[bytes]:
        assert self.holder is not None
        user = ["setpriv", f"--reuid={self.user}", f"--regid={self.user}", "--clear-groups"]
        return subprocess.run(
            ["nsenter", f"--target={self.holder.pid}", "--mount", *user, *words], **how
        )

    def _mount(self) -> None:
        if self.user is None:
            raise unittest.SkipTest("a small disk is for root to make")
        disks = [self.folder / name for name in ("log-of-writes", "tables")]
        for disk in disks:
            disk.mkdir()
        mounts = "".join(
            f"mount -t tmpfs -o size={SIZE},mode=700,uid={self.user},gid={self.user} tmpfs {disk} && "
            for disk in disks
        )
        self.holder = subprocess.Popen(
            [
                "unshare",
                "--mount",
                "--propagation",
                "private",
                "sh",
                "-c",
                mounts + "echo made && exec cat",
            ],
            stdin=subprocess.PIPE,
            stdout=subprocess.PIPE,
            stderr=subprocess.PIPE,
            text=True,
        )
        assert self.holder.stdout is not None and self.holder.stderr is not None
        if self.holder.stdout.readline() != "made\n":
            why = self.holder.stderr.read().strip().replace(str(self.folder), "..")
            self._release()
            shutil.rmtree(self.folder)
            raise unittest.SkipTest(f"no small disk can be made: {why}")
        atexit.register(self._release)

    def _release(self) -> None:
        if self.holder is not None:
            self.holder.communicate()

    def start(self) -> None:
        """It makes no checkpoint by itself, with which it would use what it has of its disk again, and stays down where it had to end."""
        options = (
            f"-k {self.folder} -c listen_addresses= -c max_connections=30 -c fsync=off -c restart_after_crash=off -c min_wal_size=2MB "
            "-c max_wal_size=1GB -c checkpoint_timeout=1h"
        )
        super().run(
            "pg_ctl",
            "-D",
            self.data,
            "-o",
            options,
            "-l",
            self.folder / "log",
            "-w",
            "-t",
            PATIENCE,
            "start",
        )

    def fill(self, disk: str) -> None:
        """Nothing more goes to this disk."""
        with self._rest(disk).open("wb", buffering=0) as file:
            try:
                while True:
                    file.write(bytes(1 << 16))
            except OSError:
                pass

    def free(self, disk: str) -> None:
        """There is room again."""
        self._rest(disk).unlink()

    def _rest(self, disk: str) -> Path:
        assert self.holder is not None
        return Path(f"/proc/{self.holder.pid}/root{self.folder}/{disk}/rest")

    @property
    def is_up(self) -> bool:
        return (self.data / "postmaster.pid").exists()

    def said(self) -> str:
        return (self.folder / "log").read_text(errors="replace")
