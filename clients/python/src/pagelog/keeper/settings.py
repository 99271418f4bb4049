"""What a keeper is told: its options, and the section [keeper] of the credentials file."""

from __future__ import annotations

import os
import re
from dataclasses import dataclass, field
from pathlib import Path
from typing import Any, Mapping

from pagelog.errors import CredentialsError
from pagelog.keeper.front import PORTS, Tls
from pagelog.keeper.machine import ROLL_AT, SUCCEED_AT
from pagelog.keeper.run import Program
from pagelog.keeper.runner import Runner
from pagelog.objects.settings import StoreSettings
from pagelog.referee.sealed import Keys

MEMORY = os.sysconf("SC_PAGE_SIZE") * os.sysconf("SC_PHYS_PAGES") // 4
"""Bytes that a service may hold where nothing else is said: a quarter of the machine's."""
TTL = 5.0
"""Seconds for which a holder's beat has to stand still before another keeper may try."""


@dataclass(frozen=True)
class Settings:
    """`ttl` is in seconds, `memory` in bytes: what a service may hold; 0 for no limit. `succeed` is the share of it, or of the audit
    list, at which the next generation is made; 0: never. `keep` is what of the archive is kept: so many bases, or a time as
    `7 days`; None: all. `standby`: keeps standbys of all that other keepers hold. `require_standby`: nothing is durable that a
    synchronous standby of PostgreSQL has not. `metrics` and `console` are where it serves its metrics and its page, as HOST:PORT;
    `console_token` is the file with what a browser has to give. `unproved`: clients that prove no principal are answered all the same, as
    those of before do."""

    name: str
    lines: str
    program: Program
    url: str
    ttl: float = TTL
    standby: bool = True
    memory: int = MEMORY
    metrics: str | None = None
    console: str | None = None
    console_token: Path | None = None
    require_standby: bool = False
    trail: int = 0
    """For how many days audit lists are kept; 0 for none."""
    succeed: float = SUCCEED_AT
    keep: str | int | None = None
    unproved: bool = True
    keys: Keys = field(default_factory=Keys)
    """By which tables of principals are sealed."""
    store: StoreSettings | None = None
    """Where blocks go that PostgreSQL need not have any more; None: all stay there."""
    tls: Tls | None = None
    """How clients reach its lines and services by TLS; None: not at all."""

    @classmethod
    def of(
        cls,
        name: str,
        lines: str,
        serve: str,
        folder: Path,
        program: str,
        url: str,
        section: Mapping[str, Any],
        keep: str | int | None = None,
        key_file: Path | None = None,
        store: StoreSettings | None = None,
        runner: Path | None = None,
    ) -> Settings:
        """From the options and the section. Raises `CredentialsError` for what the section may not have."""
        kinds: dict[str, type | tuple[type, ...]] = {
            "ttl": (int, float),
            "standby": bool,
            "memory": int,
            "audit": int,
            "metrics": str,
            "require_standby": bool,
            "console": str,
            "console_token": str,
            "trail": int,
            "succeed": (int, float),
            "unproved": bool,
            "tls": str,
            "tls_lines": str,
            "tls_clients": str,
            "tls_ports": (str, int),
            "plain": bool,
        }
        for key, value in section.items():
            if key not in kinds:
                raise CredentialsError(f"[keeper] has no {key}: it has {', '.join(kinds)}")
            if not isinstance(value, kinds[key]) or (
                isinstance(value, bool) and kinds[key] is not bool
            ):
                raise CredentialsError(f"[keeper]: {key} is {value!r}")
        ttl, audit, share = (
            float(section.get("ttl", TTL)),
            section.get("audit", 1 << 24),
            float(section.get("succeed", SUCCEED_AT)),
        )
        if (
            ttl <= 0
            or not 1 <= audit <= 1 << 24
            or section.get("memory", 0) < 0
            or section.get("trail", 0) < 0
            or not 0 <= share < ROLL_AT
        ):
            raise CredentialsError(
                f"[keeper]: ttl is above 0, audit 1 to 16777216, memory and trail not below 0, succeed 0 to below {ROLL_AT}"
            )
        token = section.get("console_token")
        tls = _tls_of(serve, section)
        inner = serve if tls is None or tls.plain else "127.0.0.1"
        return cls(
            name=name,
            lines=lines,
            program=Program(
                program, inner, folder, audit, runner=None if runner is None else Runner(runner)
            ),
            url=url,
            ttl=ttl,
            standby=section.get("standby", True),
            memory=section.get("memory", MEMORY),
            metrics=section.get("metrics"),
            console=section.get("console"),
            console_token=None if token is None else Path(token),
            require_standby=section.get("require_standby", False),
            trail=section.get("trail", 0),
            succeed=share,
            keep=keep,
            unproved=section.get("unproved", True),
            keys=Keys(key_file),
            store=store,
            tls=tls,
        )


def _tls_of(serve: str, section: Mapping[str, Any]) -> Tls | None:
    """What the section says of TLS. Raises `CredentialsError`."""
    file, lines, ports = (
        section.get("tls"),
        section.get("tls_lines"),
        section.get("tls_ports", PORTS),
    )
    if file is None:
        if others := [
            key for key in ("tls_lines", "tls_clients", "tls_ports", "plain") if key in section
        ]:
            raise CredentialsError(
                f"[keeper] has {others[0]} without tls, the file with certificate and key"
            )
        return None
    if lines is None or not re.fullmatch(r"\S+:[1-9]\d{0,4}", lines):
        raise CredentialsError(
            "[keeper]: tls_lines is HOST:PORT, where clients reach the lines by TLS"
        )
    if not _are_ports(ports):
        raise CredentialsError(
            "[keeper]: tls_ports is FIRST-LAST, or how many of the system's ports, 1 to 16384"
        )
    clients = section.get("tls_clients")
    return Tls(
        Path(file),
        serve,
        lines,
        None if clients is None else Path(clients),
        section.get("plain", True),
        ports,
    )


def _are_ports(ports: str | int) -> bool:
    if isinstance(ports, int):
        return 1 <= ports <= 16384
    found = re.fullmatch(r"([1-9]\d{0,4})-([1-9]\d{0,4})", ports)
    return found is not None and int(found[1]) <= int(found[2]) <= 65535
