"""What a connection to PostgreSQL needs that psycopg has not: a URL whose password no error shows, hosts in turn, and a wait with an end."""

from __future__ import annotations

import re
import select
from typing import Any

import psycopg
from psycopg.conninfo import conninfo_to_dict
from psycopg.waiting import Ready, Wait

_EVENTS = {Wait.R: select.POLLIN, Wait.W: select.POLLOUT, Wait.RW: select.POLLIN | select.POLLOUT}


class UnreadableUrl(ValueError):
    """A URL cannot be read. Nothing of it is in the text: a part may be one of the password."""


def plain_url(url: str) -> str:
    """The URL without the driver that older versions took, as `postgresql+psycopg2://`."""
    return re.sub(r"^postgresql\+\w+:", "postgresql:", url)


def options_of_url(url: str) -> dict[str, Any]:
    """What a URL says, by libpq's names. Raises `UnreadableUrl`."""
    try:
        options: dict[str, Any] = conninfo_to_dict(plain_url(url))
    except psycopg.Error:
        raise UnreadableUrl from None
    host = re.sub(r"(^|,)@/", r"\1/", str(options.get("host", "")))  # a socket without a file
    if re.search(r"[@#?\s]", host) or re.search(r"[^0-9,]", str(options.get("port", ""))):
        raise UnreadableUrl
    return options


def count_of_hosts(options: dict[str, Any]) -> int:
    """How many hosts they name."""
    return 1 + str(options.get("host") or "").count(",")


def turn_hosts(options: dict[str, Any]) -> None:
    """The second host comes first from now on. psycopg gives up at one that is silent, as of a machine that is off."""
    for key in ("host", "port", "hostaddr"):
        first, comma, rest = str(options.get(key) or "").partition(",")
        if comma:
            options[key] = f"{rest},{first}"


def ready_by_poll(fileno: int, wanted: Wait, seconds: float | None) -> Ready | None:
    """What a descriptor is ready for, as psycopg's generators ask; None where it is for nothing within this time. `select`, by which
    psycopg's own Python waits, takes no descriptor from 1,024 on."""
    poll = select.poll()
    poll.register(fileno, _EVENTS[wanted])
    found = poll.poll(None if seconds is None else max(0.0, 1000 * seconds))
    if not found:
        return None
    event = found[0][1]
    return Ready(
        (Ready.R if event & ~select.POLLOUT else 0) | (Ready.W if event & ~select.POLLIN else 0)
    )
