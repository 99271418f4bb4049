"""console, and the same page of a keeper."""

from __future__ import annotations

import asyncio
import ssl
from pathlib import Path
from typing import TYPE_CHECKING

import click

from pagelog.credentials import Accounts
from pagelog.cli.options import (
    context_of_file,
    credentials_option,
    fail,
    faults,
    tls_option,
    url_of_referee,
)
from pagelog.keeper.machine import ROLL_AT, SUCCEED_AT

if TYPE_CHECKING:
    from pagelog.console.door import Door
    from pagelog.keeper.settings import Settings


@click.command("console")
@credentials_option
@click.option(
    "--listen",
    default="127.0.0.1:7480",
    show_default=True,
    metavar="HOST:PORT",
    help="Where browsers reach it.",
)
@click.option(
    "--token-file",
    metavar="FILE",
    type=click.Path(path_type=Path),
    help="A file of mode 600 whose first line has the "
    "token that a browser has to give. Needed where HOST is not of this machine alone.",
)
@tls_option
@faults
def console_word(
    accounts: Accounts, listen: str, token_file: Path | None, tls: Path | None
) -> None:
    """Serve a page that shows named databases live. Needs [archive] url, of a role that may read; it writes nothing.

    It prints `listening HOST:PORT`. PostgreSQL is polled once a second while a browser follows, else every five seconds.
    What the keepers' [keeper] says of ttl, audit, memory and succeed is to be in the credentials too: by it successions are foretold.
    A keeper whose [keeper] has `console` serves the same page.

    \b
    Example:
      pagelogctl console --listen 127.0.0.1:7480 --credentials keeper.toml
    """
    from pagelog.console.board import Limits
    from pagelog.console.running import run
    from pagelog.console.source import Source

    host, port, door = _place_of(listen, token_file, "--listen", "--token-file")
    keeper = accounts.keeper
    limits = Limits(
        float(keeper.get("ttl", Limits.ttl)),
        keeper.get("audit", Limits.audit),
        keeper.get("memory", 0) >> 20,
        float(keeper.get("succeed", SUCCEED_AT)) or ROLL_AT,
    )
    source = Source(url_of_referee(accounts))
    try:
        asyncio.run(
            run(
                source,
                limits,
                door,
                host.strip("[]"),
                port,
                lambda bound: click.echo(f"listening {host}:{bound}"),
                context=context_of_file(tls),
            )
        )
    except (
        OSError,
        UnicodeError,
    ) as error:  # UnicodeError: the host is no name that can be looked up
        fail(f"--listen: {listen}: {getattr(error, 'strerror', None) or error}")


def begin_console(settings: Settings, context: ssl.SSLContext | None = None) -> str:
    """Serves the page of a keeper beside its work, by its own settings, and by TLS where there is a context. Returns the address."""
    from pagelog.console.board import Limits
    from pagelog.console.running import begin
    from pagelog.console.source import Source

    assert settings.console is not None
    host, port, door = _place_of(
        settings.console, settings.console_token, "[keeper] console", "console_token"
    )
    limits = Limits(
        settings.ttl, settings.program.audit, settings.memory >> 20, settings.succeed or ROLL_AT
    )
    try:
        return (
            f"{host}:{begin(Source(settings.url), limits, door, host.strip('[]'), port, context)}"
        )
    except (OSError, UnicodeError) as error:
        fail(f"[keeper] console: {settings.console}: {getattr(error, 'strerror', None) or error}")


def _place_of(
    listen: str, token_file: Path | None, option: str, token_option: str
) -> tuple[str, int, Door]:
    """Where to listen, and who is let in."""
    from pagelog.console.door import Door, read_token
    from pagelog.referee.hosts import is_loopback

    host, colon, port = listen.rpartition(":")
    if not colon or not host or not port.isdecimal() or int(port) > 65535:
        raise click.UsageError(f"{option}: {listen!r} is no address of the form HOST:PORT")
    if token_file is None and not is_loopback(host):
        raise click.UsageError(f"{option}: others reach {host}: say {token_option} too")
    return host, int(port), Door(read_token(token_file) if token_file else None, host)
