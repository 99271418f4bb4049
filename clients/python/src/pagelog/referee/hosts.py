"""What a keeper's connection to PostgreSQL needs that psycopg has not: a wait for any descriptor, hosts that encrypt, and an end that is
no cancel."""

from __future__ import annotations

import ipaddress
import os
import socket
from typing import Any, Mapping, TypeVar

import psycopg
from psycopg import waiting
from psycopg.abc import PQGen

from pagelog.libpq import ready_by_poll

Result = TypeVar("Result")


def wait_by_poll(gen: PQGen[Result], fileno: int, timeout: float | None = None) -> Result:
    """As psycopg's `wait_select`, which takes no descriptor from 1,024 on: a keeper of 170 databases has as many."""
    try:
        wanted = next(gen)
        while True:
            if ready := ready_by_poll(fileno, wanted, timeout):
                wanted = gen.send(ready)
    except StopIteration as end:
        result: Result = end.value
        return result


if (
    waiting.wait is waiting.wait_select
):  # else its compiled part waits, or a newer one of it, by `poll` as well
    waiting.wait = wait_by_poll


def is_loopback(host: str) -> bool:
    """Whether nobody of another machine reaches this host."""
    try:
        return ipaddress.ip_address(host.strip("[]")).is_loopback
    except ValueError:
        return host == "localhost"


def unverified(options: Mapping[str, Any]) -> list[str]:
    """The hosts of other machines to which a connection with these options is not encrypted for certain, or not to the right one. It may
    ask DNS."""
    if (options.get("sslmode") or os.environ.get("PGSSLMODE")) == "verify-full":
        return []
    hosts = str(
        options.get("host") or options.get("hostaddr") or os.environ.get("PGHOST") or ""
    ).split(",")
    return [host for host in hosts if not _is_own(host)]


def _is_own(host: str) -> bool:
    """Whether it is a socket, or an address of this machine."""
    if not host or host.startswith(("/", "@")) or is_loopback(host):
        return True
    try:
        found = socket.getaddrinfo(host, 0, type=socket.SOCK_STREAM)
        for family, kind, _, _, address in found:
            with socket.socket(family, kind) as tried:
                tried.bind(address)  # as no other machine's can be
    except OSError:
        return False
    return True


def shut_down(connection: psycopg.Connection[Any] | None) -> None:
    """Ends what another thread waits for over this connection, if it has not ended."""
    try:
        if connection is not None and not connection.closed:
            with socket.socket(fileno=os.dup(connection.fileno())) as line:
                line.shutdown(socket.SHUT_RDWR)
    except (OSError, psycopg.Error):
        pass  # it is gone already
