"""What the torture of administration sets up: a PostgreSQL of one kind, keepers, and subcommands that are cut off at a statement."""

from __future__ import annotations

import fcntl
import json
import os
import random
import shutil
import signal
import subprocess
import sys
import tempfile
import time
from collections import Counter
from pathlib import Path
from typing import Any, Callable, Mapping, Sequence

import click
import psycopg
from click.testing import CliRunner

from pagelog.cli.words import pagelogctl
from by_tls import VARIABLE, authority
from pagelog.keeper.front import end_fronts
from fast_library import build
from replicated import DATABASE, Pair, Server, Sessions, url_of
from service import PATIENCE, PROGRAM, SOURCE, Port, token
from torture_notes import now
from torture_processes import end_of, is_expected

TTL = 1.5
KINDS = ("alone", "standbys", "asynchronous", "synchronous")
"""PostgreSQL alone, with keepers without and with standbys; PostgreSQL with a standby, asynchronous or synchronous."""


class Loss:
    """What PostgreSQL lost: what it acknowledged after `kept` and before `over` may be gone, and nothing else."""

    def __init__(self, kept: float, over: float) -> None:
        self.kept, self.over = kept, over

    def excuses(self, began: float, ended: float) -> bool:
        """Whether something that was acknowledged in this time may be gone."""
        return ended >= self.kept and began <= self.over


class Lone(Server):
    """One server, which is set back to a copy of its folder."""

    def __init__(self) -> None:
        super().__init__(certificates=authority())
        self.leader = self
        self.setting("max_wal_size", "64MB")
        Server.url(self, DATABASE)
        self.copy = Path(
            tempfile.mkdtemp(prefix="pagelog-copy-", dir=os.environ.get("PAGELOG_TORTURE_COPIES"))
        )

    @property
    def kept_url(self) -> str:
        return url_of(self)

    def plain_sessions(self) -> list[str]:
        """What came without TLS, as those of a pair."""
        sessions = Sessions()
        sessions.add(self)
        return sessions.told() if self.port else []

    def remember(self) -> float:
        """Copies the folder. Returns a time before: what was acknowledged until then is in the copy."""
        at = now()
        self.crash()
        shutil.rmtree(self.copy)
        subprocess.run(["cp", "-a", self.data, self.copy], check=True)
        self.start()
        return at

    def go_back(self, kept: float) -> Loss:
        self.crash()
        shutil.rmtree(self.data)
        subprocess.run(["cp", "-a", self.copy, self.data], check=True)
        self.start()
        return Loss(kept, now())

    def restart(self) -> None:
        self.crash()
        self.start()

    def revive(self) -> None:
        """Starts it where it had to end, as on a full disk."""
        self.restart()

    def crash(self) -> None:
        if (self.data / "postmaster.pid").exists():
            try:
                super().crash()
            except AssertionError:
                (self.data / "postmaster.pid").unlink(missing_ok=True)  # it had ended

    def stop(self) -> None:
        super().stop()
        shutil.rmtree(self.copy, ignore_errors=True)


class Two(Pair):
    """A leader and a standby; whoever leads is killed, and the other takes its place."""

    def __init__(self, *, synchronous: bool) -> None:
        self.synchronous = synchronous
        super().__init__(certificates=authority())
        if not synchronous:
            self.leader.setting("synchronous_standby_names", "")

    @property
    def kept_url(self) -> str:
        return self.url

    def _promote(self) -> Server:
        old = super()._promote()
        if not self.synchronous:
            self.leader.setting("synchronous_standby_names", "")
        return old

    def remember(self) -> float:
        """An asynchronous standby has all that was acknowledged until the time that is returned, and gets no more."""
        if self.synchronous:
            return now()
        at = now()
        end = _ask(self.leader, "SELECT pg_current_wal_lsn()")
        while _ask(self.standby, f"SELECT pg_last_wal_receive_lsn() >= '{end}'") != "t":
            time.sleep(0.05)
        self.standby.setting("primary_conninfo", "")
        return at

    def go_back(self, kept: float) -> Loss | None:
        """The standby leads. If it lacks something, the old leader continues beside it for a while."""
        if self.synchronous:
            self.fail_over()
            return None
        self.fail_over_beside(lambda: time.sleep(TTL))
        return Loss(kept, now())

    def restart(self) -> None:
        self.leader.crash()
        self.leader.start()


def _ask(server: Server, statement: str) -> str:
    done = server.call(
        [
            shutil.which("psql") or "psql",
            "-h",
            str(server.folder),
            "-U",
            "pagelog",
            "-d",
            "postgres",
            "-XAtqc",
            statement,
        ],
        stdout=subprocess.PIPE,
        stderr=subprocess.DEVNULL,
        cwd=server.folder,
    )
    return str(done.stdout.decode().strip())


def postgres_of(kind: str) -> Lone | Two:
    return Two(synchronous=kind == "synchronous") if kind in KINDS[2:] else Lone()


class Keepers:
    """Keepers of one referee, as processes; names and folders are their own, and one may be started once more from a copy of its file."""

    def __init__(self, folder: Path, url: str, kind: str, *, trail: bool) -> None:
        self.folder, self.ports = folder, {name: Port() for name in ("a", "b", "copy")}
        self.processes: dict[str, subprocess.Popen[bytes]] = {}
        self.died: list[str] = []
        """Keepers that were ended by signals that no torture sends."""
        self.file = folder / "keeper.toml"
        self.file.touch(mode=0o600)
        self.file.write_text(
            f'[archive]\nurl = "{url}"\n[keeper]\nttl = {TTL}\nstandby = {str(kind != "alone").lower()}\naudit = 400000\n'
            f'trail = {int(trail)}\nrequire_standby = {str(kind == "synchronous").lower()}\n'
        )
        self.table = folder / "table.toml"
        self.table.write_text(
            "".join(f'[[principal]]\nid = {id}\ntoken = "{token(id)}"\n' for id in (1, 2, 3))
            + '[[row]]\nverdict = "allow"\n'
        )
        self.secure: dict[str, Port] = {}
        """Where they are reached, where clients speak TLS."""
        if VARIABLE in os.environ:
            self.secure = {name: Port() for name in self.ports}
        build()

    @property
    def addresses(self) -> list[str]:
        return [port.address for port in (self.secure or self.ports).values()]

    def file_of(self, name: str) -> Path:
        """The credentials of a keeper, with its TLS."""
        if not self.secure:
            return self.file
        file, pair = self.folder / f"{name}.toml", Path(os.environ[VARIABLE]).with_name("good.both")
        file.touch(mode=0o600)
        file.write_text(
            f'{self.file.read_text()}tls = "{pair}"\ntls_lines = "{self.secure[name].address}"\ntls_ports = 64\nplain = false\n'
        )
        return file

    def start(self, name: str, *, called: str | None = None) -> subprocess.Popen[bytes]:
        """`called`: the name of another keeper, whose file is copied."""
        words = [
            sys.executable,
            "-m",
            "pagelog",
            "keep",
            "--name",
            called or name,
            "--listen",
            self.ports[name].address,
            "--service-host",
            "127.0.0.1",
            "--folder",
            self.disk / name,
            "--program",
            PROGRAM,
            "--credentials",
            self.file_of(name),
        ]
        with (self.folder / f"{name}.log").open("a") as log:
            self.processes[name] = subprocess.Popen(
                list(map(str, words)), stdout=subprocess.DEVNULL, stderr=log, env=environment()
            )
        return self.processes[name]

    @property
    def disk(self) -> Path:
        """Where their folders are, on a disk of its own where one can be mounted."""
        return self.folder / "disk"

    def start_what_ended(self) -> None:
        for name in ("a", "b"):
            process = self.processes.get(name)
            if process is None or process.poll() is not None:
                self._look_at_end(name, process)
                self.start(name)

    def _look_at_end(self, name: str, process: subprocess.Popen[bytes] | None) -> None:
        if process is not None and not is_expected("keeper", process.returncode):
            self.died.append(f"keeper {name} {end_of(process.returncode)}")

    def kill(self, name: str, number: int = signal.SIGKILL) -> None:
        process = self.processes.get(name)
        if process is not None:
            process.send_signal(number)
            if number == signal.SIGKILL:
                process.wait()

    def services(self, name: str = "*") -> list[int]:
        """The processes that were noted, of a database or of all."""
        found = []
        for file in self.disk.glob(f"*/{name}.*.json"):
            try:
                pid = int(json.loads(file.read_text())["pid"])
                if b"serve" in Path(f"/proc/{pid}/cmdline").read_bytes():
                    found.append(pid)
            except (OSError, ValueError, KeyError):
                pass  # it has ended, or was noted just now
        return found

    def stop(self) -> None:
        for process in self.processes.values():
            process.send_signal(signal.SIGCONT)
            process.kill()
            process.wait()
        for pid in self.services():
            send(pid, signal.SIGKILL)
        for folder in self.disk.glob("*"):
            end_fronts(folder)
        for port in (*self.ports.values(), *self.secure.values()):
            port.close()


def environment() -> dict[str, str]:
    return {**os.environ, "PYTHONPATH": str(SOURCE)}


def send(pid: int, number: int) -> None:
    try:
        os.kill(pid, number)
    except ProcessLookupError:
        pass


# Subcommands.


def load_subcommands() -> None:
    """So that each process of one has what it needs."""
    context = click.Context(pagelogctl)
    for name in {*SUBCOMMANDS, "list"} - {"cancel"}:
        assert pagelogctl.get_command(context, name) is not None


class Called:
    """A subcommand in a process of its own, which was loaded before, so that it is at its work soon."""

    def __init__(self, words: list[str], said: Path, cut: tuple[int, bool] | None = None) -> None:
        """`cut`: it is killed at the statement of this number, and whether before it is sent or behind its answer."""
        self.words, self.said, self.began = words, said, now()
        self.ended = self.began
        self.status: int | None = None
        if (pid := os.fork()) == 0:
            _run(words, said, cut)
        self.pid = pid

    def wait(self, patience: float = PATIENCE) -> int | None:
        """Its exit status; a negative one is that of a signal. One that does not end in time is killed."""
        deadline = now() + patience
        while self.status is None:
            pid, status = os.waitpid(self.pid, os.WNOHANG)
            if pid:
                self.status, self.ended = os.waitstatus_to_exitcode(status), now()
            elif now() > deadline:
                send(self.pid, signal.SIGKILL)
            else:
                time.sleep(0.01)
        return self.status

    @property
    def text(self) -> str:
        return self.said.read_text(errors="replace") if self.said.exists() else ""


def _run(words: list[str], said: Path, cut: tuple[int, bool] | None) -> None:
    status = 70
    try:
        if cut is not None:
            _cut_at(*cut)
        done = CliRunner().invoke(pagelogctl, words)
        more = (
            ""
            if done.exception is None or isinstance(done.exception, SystemExit)
            else repr(done.exception)
        )
        said.write_text(done.output + more)
        status = done.exit_code
    finally:
        os._exit(status)


def _cut_at(number: int, behind: bool) -> None:
    """Kills this process at the driver's statement of this number, from 1."""
    left = [number]

    def cutting(original: Callable[..., Any]) -> Callable[..., Any]:
        def execute(*arguments: Any, **options: Any) -> Any:
            left[0] -= 1
            if not left[0] and not behind:
                os.kill(os.getpid(), signal.SIGKILL)
            found = original(*arguments, **options)
            if not left[0]:
                os.kill(os.getpid(), signal.SIGKILL)
            return found

        return execute

    setattr(psycopg.Connection, "execute", cutting(psycopg.Connection.execute))


# Counts.

SUBCOMMANDS = (
    "create",
    "drop",
    "prune",
    "keep",
    "rescue",
    "restore",
    "rollover",
    "switchover",
    "cancel",
    "pause",
    "resume",
)
DEATHS = ("none", "subcommand", "keeper", "service", "postgresql", "set back")


OPENS = {"drop": "create", "pause": "resume"}
"""What is possible only after another subcommand."""
ENOUGH = 30
"""How often each subcommand is to meet each death, by the kind of standby."""


class Counts:
    """How often each subcommand has met each death, by the kind of standby."""

    def __init__(self, known: Mapping[str, int] = {}) -> None:
        self.of = Counter(known)

    def add(self, subcommand: str, death: str, kind: str, times: int = 1) -> None:
        self.of[f"{subcommand}/{death}/{kind}"] += times

    def get(self, subcommand: str, death: str, kind: str) -> int:
        return self.of[f"{subcommand}/{death}/{kind}"]

    def rarest_death(self, possible: list[list[str]], kind: str, chance: random.Random) -> str:
        """The one that those have met least often which are possible now, for each database."""

        def met(death: str) -> float:
            return sum(min(self._least(each, death, kind) for each in some) for some in possible)

        return min(DEATHS, key=lambda death: (met(death), chance.random()))

    def rarest(self, subcommands: list[str], death: str, kind: str, chance: random.Random) -> str:
        return min(subcommands, key=lambda each: (self._least(each, death, kind), chance.random()))

    def _least(self, subcommand: str, death: str, kind: str) -> float:
        """How often it has come, or, in the mean of all deaths, what only it makes possible."""
        own, opens = self.get(subcommand, death, kind), OPENS.get(subcommand)
        if opens is None:
            return own
        return min(own, sum(self.get(opens, each, kind) for each in DEATHS) / len(DEATHS))

    def rarest_kind(self, kinds: Sequence[str]) -> str:
        """The one that lacks most."""

        def lacks(kind: str) -> int:
            cells = [self.get(each, death, kind) for each in SUBCOMMANDS for death in DEATHS]
            return sum(max(0, ENOUGH - count) for count in cells)

        return min(kinds, key=lambda kind: (-lacks(kind), self._sum(kind)))

    def _sum(self, kind: str) -> int:
        return sum(count for key, count in self.of.items() if key.endswith("/" + kind))

    def table(self) -> str:
        """A row for each subcommand and kind, a column for each death."""
        lines = [f"{'':12}{'':14}" + "".join(f"{death:>12}" for death in DEATHS)]
        for subcommand in SUBCOMMANDS:
            for kind in KINDS:
                counts = [self.get(subcommand, death, kind) for death in DEATHS]
                if any(counts):
                    lines.append(
                        f"{subcommand:12}{kind:14}" + "".join(f"{count:12}" for count in counts)
                    )
        return "\n".join(lines)


class Carried:
    """Counts in a file, to which several runs may add at the same time."""

    def __init__(self, file: Path) -> None:
        self.file = file
        file.touch()

    def known(self) -> Counts:
        return self.add(Counts())

    def add(self, some: Counts) -> Counts:
        """Returns the sums."""
        with self.file.open("r+") as held:
            fcntl.flock(held, fcntl.LOCK_EX)
            sums = Counts(Counter(json.loads(held.read() or "{}")) + some.of)
            held.seek(0)
            held.truncate()
            json.dump(sums.of, held)
            return sums
