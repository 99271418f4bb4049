"""A machine of the trial, as its first process: it sees its own /etc and its own state, and runs the units as systemd would.

Called by nodes.py in namespaces of its own for mounts, processes and network, with the machine's folder, and units that not all have.
"""

from __future__ import annotations

import os
import re
import shutil
import subprocess
import sys
import time
from dataclasses import dataclass
from pathlib import Path

UNITS = ("etcd", "patroni", "pagelog-runner", "pagelog-keeper")
OWNERS = {"etcd": "etcd", "postgresql": "postgres"}
PROGRAMS = {key: os.environ[key] for key in ("PATH", "PYTHONPATH")}
"""Where a unit finds programs; it gets nothing else of the environment of the trial."""
ETC, RUN = Path("/etc"), Path("/run")
STATE = Path(
    subprocess.run(
        ["systemd-path", "system-state-private"], check=True, capture_output=True, text=True
    ).stdout.strip()
)


def run(*words: object) -> None:
    subprocess.run(list(map(str, words)), check=True, stdout=subprocess.DEVNULL)


def mount(folder: Path) -> None:
    """The machine's own files lie over those of /etc, and hide all state and sockets of the real machine."""
    for name in ("work", "state"):
        (folder / name).mkdir(exist_ok=True)
    run(
        "mount",
        "-t",
        "overlay",
        "overlay",
        "-o",
        f"lowerdir={ETC},upperdir={folder}/etc,workdir={folder}/work",
        ETC,
    )
    run("mount", "--bind", folder / "state", STATE)
    run("mount", "-t", "tmpfs", "-o", "mode=755", "tmpfs", RUN)
    run("ip", "link", "set", "lo", "up")
    for user in ("pagelog", "pagelog-run"):  # they are there at the second start
        subprocess.run(["useradd", "--system", "--no-create-home", user], stderr=subprocess.DEVNULL)
    shutil.chown(ETC / "pagelog" / "keeper.toml", "pagelog")
    shutil.chown(ETC / "patroni" / "server.key", "postgres")
    for name, owner in OWNERS.items():
        own_folder(STATE / name, owner)
    own_folder(RUN / "postgresql", "postgres")
    own_folder(
        RUN / "pagelog-runner", "pagelog-run"
    )  # it makes its socket there, as no systemd does
    (RUN / "pagelog-runner").chmod(0o755)


def own_folder(folder: Path, owner: str) -> None:
    folder.mkdir(mode=0o700, exist_ok=True)
    shutil.chown(folder, owner, owner)


@dataclass
class Unit:
    """What the trial needs of a unit: its directives, those of Debian's file and those that were put over them."""

    name: str
    directives: dict[str, list[str]]

    @classmethod
    def read(cls, name: str) -> Unit:
        own, debian = ETC / "systemd/system", Path("/lib/systemd/system")
        first = next(
            folder / f"{name}.service"
            for folder in (own, debian)
            if (folder / f"{name}.service").is_file()
        )
        found: dict[str, list[str]] = {}
        for file in (first, *sorted((own / f"{name}.service.d").glob("*.conf"))):
            for key, value in re.findall(
                r"^(\w+)=(.*)$", file.read_text().replace("\\\n", " "), flags=re.M
            ):
                found.setdefault(key, []).append(value)
        return cls(name, found)

    def last(self, key: str, default: str = "") -> str:
        return self.directives.get(key, [default])[-1]

    def specified(self, text: str) -> str:
        """The text with its specifiers in place."""
        known = {"%E": ETC, "%S": STATE, "%t": RUN, "%H": os.uname().nodename, "%p": self.name}
        return re.sub(r"%\w", lambda found: str(known[found[0]]), text)

    def environment(self) -> dict[str, str]:
        """Environment=, then what its files have."""
        lines = self.directives.get("Environment", [])
        for file in self.directives.get("EnvironmentFile", []):
            place = Path(self.specified(file.removeprefix("-")))
            lines = lines + (
                place.read_text().splitlines() if place.exists() or not file.startswith("-") else []
            )
        return {
            key: self.specified(value)
            for key, value in re.findall(r"^(\w+)=(.*)$", "\n".join(lines), flags=re.M)
        }

    def start(self, log: Path) -> int:
        """The process that runs it now."""
        user, own = self.last("User", "root"), self.environment()
        if self.last("StateDirectory"):
            own_folder(STATE / self.last("StateDirectory"), user)
        folder = self.specified(self.last("WorkingDirectory", "/"))
        line = re.sub(
            r"\$(?:\{(\w+)\}|(\w+))",
            lambda found: own[found[1] or found[2]],
            self.specified(self.last("ExecStart")),
        )
        words = [
            "env",
            "--chdir",
            folder,
            "setpriv",
            "--reuid",
            user,
            "--regid",
            user,
            "--init-groups",
            *line.split(),
        ]
        # No Popen, which may take its exit status before `main` does.
        return os.posix_spawnp(
            "env",
            words,
            PROGRAMS | own,
            file_actions=[
                (os.POSIX_SPAWN_OPEN, 0, os.devnull, os.O_RDONLY, 0),
                (os.POSIX_SPAWN_OPEN, 1, log, os.O_WRONLY | os.O_CREAT | os.O_APPEND, 0o644),
                (os.POSIX_SPAWN_DUP2, 1, 2),
            ],
        )

    def is_restarted(self, status: int) -> bool:
        """Whether systemd would start it again, now that its process has ended so."""
        how, code = self.last("Restart", "no"), os.waitstatus_to_exitcode(status)
        if str(code) in self.last("RestartPreventExitStatus").split():
            return False
        return (
            how == "always"
            or (how == "on-failure" and code != 0)
            or (how == "on-abnormal" and code < 0)
        )


def main(folder: Path, more: list[str]) -> None:
    mount(folder)
    units = [Unit.read(name) for name in (*UNITS, *more)]
    running = {unit.start(folder / f"{unit.name}.log"): unit for unit in units}
    while True:
        try:
            pid, status = os.wait()  # of whatever lost its parent, too
        except ChildProcessError:
            sys.exit("no unit runs any more")
        unit = running.pop(pid, None)
        if unit is not None and unit.is_restarted(status):
            time.sleep(float(unit.last("RestartSec", "0.1")))
            running[unit.start(folder / f"{unit.name}.log")] = unit


if __name__ == "__main__":
    main(Path(sys.argv[1]), sys.argv[2:])
