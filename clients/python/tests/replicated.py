"""Two servers of PostgreSQL: one leads, the other is its synchronous standby, and takes its place when it is killed. With certificates they
are reached by TLS, and verified."""

from __future__ import annotations

import os
import shutil
import signal
import tempfile
import time
from pathlib import Path
from typing import Callable

from postgres import FSYNC, PATIENCE, Postgres
from service import Port

DATABASE = "kept"
"""Its sessions are those of keepers and of whoever asks them, and of who checks them."""


def _lives(process: str) -> bool:
    try:
        return Path(f"/proc/{process}/stat").read_text().rpartition(")")[2].split()[0] not in "ZX"
    except OSError:
        return False


class Server(Postgres):
    """A server of its own folder, made by initdb, or from another server."""

    connections = 60

    def __init__(self, leader: Server | None = None, *, certificates: Path | None = None) -> None:
        """`certificates`: the folder of a CA and of what it has signed. Who comes by TLS finds the server at a port of this machine."""
        self.certificates = certificates if leader is None else leader.certificates
        self.port = None if self.certificates is None else Port()
        if leader is None:
            super().__init__()
            return
        self.folder = Path(tempfile.mkdtemp(prefix="pagelog-postgres-"))
        self.user = leader.user
        if self.user:
            shutil.chown(self.folder, self.user)
        self.data = self.folder / "data"
        self.run(
            "pg_basebackup",
            "-h",
            leader.folder,
            "-U",
            "pagelog",
            "-D",
            self.data,
            "-R",
            "-X",
            "stream",
            "-c",
            "fast",
            "--no-sync",
        )
        self.start()

    def start(self) -> None:
        options = (
            f"-k {self.folder} -c max_connections={self.connections} -c wal_level=replica -c max_wal_senders=8 -c hot_standby=on "
            f"-c fsync={FSYNC} {self._listens()}"
        )
        self.run(
            "pg_ctl",
            "-D",
            self.data,
            "-o",
            options,
            "-l",
            self.folder / "log",
            "-w",
            "-t",
            PATIENCE,
            "start",
        )

    def _listens(self) -> str:
        """Where, and by which certificate; then each session is in its log, with what it came by."""
        if self.port is None:
            return "-c listen_addresses="
        assert self.certificates is not None
        for name, file in (("server.crt", "good.pem"), ("server.key", "good.key")):
            if not (own := self.data / name).exists():
                shutil.copy(self.certificates / file, own)
                own.chmod(0o600)
                if self.user:
                    shutil.chown(own, self.user)
        (self.folder / ".s.PGSQL.5432").unlink(missing_ok=True)
        (self.folder / ".s.PGSQL.5432").symlink_to(f".s.PGSQL.{self.port.number}")
        return (
            f"-c listen_addresses=127.0.0.1 -p {self.port.number} -c ssl=on -c log_connections=on"
        )

    def sessions(self) -> list[str]:
        """What its log says of those of the database."""
        log = self.folder / "log"
        lines = log.read_text(errors="replace").splitlines() if log.exists() else []
        return [
            line
            for line in lines
            if f"connection authorized: user=pagelog database={DATABASE}" in line
        ]

    def kill(self) -> list[str]:
        """Its first process is killed; the others end by themselves, and are returned."""
        first = int((self.data / "postmaster.pid").read_text().split()[0])
        others = Path(f"/proc/{first}/task/{first}/children").read_text().split()
        os.kill(first, signal.SIGKILL)
        return others

    def setting(self, name: str, value: str) -> None:
        """Sets it for good, without a wait for the standby."""
        self.run(
            "psql",
            "-h",
            self.folder,
            "-U",
            "pagelog",
            "-d",
            "postgres",
            "-c",
            "SET synchronous_commit = local",
            "-c",
            f"ALTER SYSTEM SET {name} = '{value}'",
            "-c",
            "SELECT pg_reload_conf()",
        )


def url_of(*servers: Server) -> str:
    """Of the database, at whichever of them leads."""
    if servers[0].port is None:
        return f"postgresql://pagelog@/{DATABASE}?host={','.join(str(server.folder) for server in servers)}"
    assert servers[0].certificates is not None
    hosts = ",".join(f"localhost:{server.port.number}" for server in servers if server.port)
    ca = servers[0].certificates / "ca.pem"
    return f"postgresql://pagelog@{hosts}/{DATABASE}?sslmode=verify-full&sslrootcert={ca}"


class Sessions:
    """Those of the database, of all servers that there were: each one came by TLS, where there are certificates."""

    def __init__(self) -> None:
        self.secured = 0
        self.plain: list[str] = []

    def add(self, server: Server) -> None:
        """Those of a server whose log nobody adds to any more."""
        for line in server.sessions() if server.port else ():
            is_secured = " SSL enabled" in line
            self.secured += is_secured
            self.plain += [] if is_secured else [line]

    def violations(self) -> list[str]:
        none = [] if self.secured else ["no session of PostgreSQL came by TLS"]
        return none + [f"a session without TLS: {line}" for line in self.plain]

    def told(self) -> list[str]:
        """The same, and says how many there were."""
        print(f"PostgreSQL: {self.secured} sessions by TLS, {len(self.plain)} without")
        return self.violations()


class Pair:
    """The leader and its standby. The URL names both, and whoever leads is found."""

    def __init__(self, *, certificates: Path | None = None) -> None:
        self.leader = Server(certificates=certificates)
        self.leader.url(DATABASE)
        self.standby = Server(self.leader)
        self.leader.setting("synchronous_standby_names", "*")
        self.sessions = Sessions()
        self.url = url_of(self.leader, self.standby)
        """Folders and ports keep their names, so that a server made anew is found under an old one's."""

    @property
    def servers(self) -> list[Server]:
        """The leader, then its standby."""
        return [self.leader, self.standby]

    def fail_over(self) -> None:
        """The leader is killed, its standby leads, and a new standby is made in the old one's place."""
        self.lead(self.leader.kill())

    def lead(self, others: list[str]) -> None:
        """The standby leads, of a leader that was killed. `others` are what is left of that one's processes."""
        old = self._promote()
        self._replace(old, Server(self.leader), others)

    def fail_over_beside(self, meanwhile: Callable[[], None]) -> None:
        """The standby leads, and has a standby; the leader goes on beside it, and is killed after what is done meanwhile."""
        old = self._promote()
        fresh = Server(self.leader)
        try:
            meanwhile()
        finally:
            self._replace(old, fresh, old.kill())

    def _promote(self) -> Server:
        """Returns who led before."""
        old = self.leader
        self.standby.run("pg_ctl", "-D", self.standby.data, "-w", "-t", PATIENCE, "promote")
        self.standby.setting("synchronous_standby_names", "*")
        self.leader = self.standby
        return old

    def _replace(self, old: Server, fresh: Server, others: list[str]) -> None:
        """A standby comes to where one was that is dead."""
        while any(map(_lives, others)):
            time.sleep(0.01)  # what they still write would be in the way
        self.sessions.add(old)
        shutil.rmtree(old.folder, ignore_errors=True)
        fresh.crash()
        fresh.folder.rename(old.folder)
        fresh.folder, fresh.data = old.folder, old.folder / "data"
        if fresh.port is not None:
            fresh.port.close()
            fresh.port = old.port
        fresh.start()
        self.standby = fresh

    def plain_sessions(self) -> list[str]:
        """What came without TLS, or that nothing came by it; nothing where there are no certificates. Called once, in the end."""
        for server in self.servers:
            self.sessions.add(server)
        return self.sessions.told() if self.leader.port else []

    def stop(self) -> None:
        for server in (self.leader, self.standby):
            server.stop()
