"""Looks at the files that `configure` writes, without a start: systemd, the keeper and Patroni have to take them.

Usage: python3 -B deploy/three-nodes/check.py
"""

from __future__ import annotations

import re
import shutil
import subprocess
import sys
import tempfile
import tomllib
from pathlib import Path

HERE = Path(__file__).resolve().parent
TOP = HERE.parent.parent
sys.path.insert(0, str(TOP / "clients" / "python" / "src"))

import yaml  # noqa: E402

from pagelog.credentials import load  # noqa: E402
from pagelog.referee.hosts import unverified  # noqa: E402
from pagelog.referee.referee import options_of  # noqa: E402
from pagelog.keeper.settings import Settings  # noqa: E402

ADDRESSES = {"a": "10.77.0.1", "b": "10.77.0.2", "c": "10.77.0.3"}
MACHINES = tuple(f"{name}={address}" for name, address in ADDRESSES.items())


def faults_of_units(units: Path, folder: Path) -> list[str]:
    """What systemd has to say of them. Where a program is not installed, another one of its name stands for it."""
    shutil.copytree(units, folder)
    for unit in (
        "pagelog-keeper.service",
        "pagelog-runner.service",
        "pagelog-runner.socket",
        "pagelog-pages.service",
    ):
        shutil.copy(TOP / "packaging" / "units" / unit, folder)
    for name in ("patroni", "etcd"):
        debian = Path("/lib/systemd/system") / f"{name}.service"
        (folder / f"{name}.service").write_text(
            debian.read_text() if debian.exists() else "[Service]\nExecStart=/bin/true\n"
        )
    for unit in folder.glob("*.service"):
        unit.write_text(
            re.sub(r"^ExecStart=\S+", "ExecStart=/bin/true", unit.read_text(), flags=re.M)
        )
    names = sorted(unit.name for unit in folder.glob("*.service"))
    told = subprocess.run(
        ["systemd-analyze", "verify", "--man=no", *names],
        cwd=folder,
        env={"SYSTEMD_UNIT_PATH": f"{folder}:"},
        capture_output=True,
        text=True,
    )
    return [
        line for line in told.stderr.splitlines() if str(folder) in line or told.returncode != 0
    ]


def faults_of_machine(etc: Path) -> list[str]:
    """What is wrong with the files of one machine."""
    found = []
    account = load(str(etc / "pagelog" / "keeper.toml"))
    settings = Settings.of("a", "", "", etc, "pagelog", str(account.archive_url), account.keeper)
    dynamic = yaml.safe_load((etc / "patroni" / "config.yml").read_text())["bootstrap"]["dcs"]
    if not (
        settings.require_standby
        and dynamic["synchronous_mode"]
        and dynamic["synchronous_mode_strict"]
    ):
        found.append("a commit may be durable on one disk alone")
    if unverified(options_of(str(account.archive_url))):
        found.append("a keeper believes any PostgreSQL")
    chain = subprocess.run(
        [
            "openssl",
            "verify",
            "-CAfile",
            etc / "patroni" / "ca.pem",
            "-purpose",
            "sslserver",
            "-verify_ip",
            ADDRESSES[etc.parent.name],
            etc / "patroni" / "server.crt",
        ],
        capture_output=True,
        text=True,
    )
    if chain.returncode or (etc / "patroni" / "server.key").stat().st_mode & 0o077:
        found.append(f"its PostgreSQL has no certificate of its own: {chain.stderr}")
    if dynamic["ttl"] < dynamic["loop_wait"] + 2 * dynamic["retry_timeout"]:
        found.append("ttl is below loop_wait + 2 * retry_timeout")
    return found


def main() -> int:
    with tempfile.TemporaryDirectory() as temporary:
        out = Path(temporary) / "machines"
        subprocess.run(
            [sys.executable, "-B", HERE / "configure", "--programs", "programs", out, *MACHINES],
            check=True,
            stdout=subprocess.DEVNULL,
        )
        faults = [fault for name in ADDRESSES for fault in faults_of_machine(out / name / "etc")]
        faults += faults_of_units(
            out / "a" / "etc" / "systemd" / "system", Path(temporary) / "units"
        )
    for fault in faults:
        print(fault)
    print(f"three-nodes: {len(faults)} faults")
    return 1 if faults else 0


if __name__ == "__main__":
    sys.exit(main())
