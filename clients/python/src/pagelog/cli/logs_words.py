"""logs and mend: what an archive has, and the care of it."""

from __future__ import annotations

import json
import sys
from dataclasses import asdict

import click

from pagelog.archive import Archive
from pagelog.archive.care import logs_of, mend
from pagelog.credentials import Accounts
from pagelog.cli.options import (
    FAULT,
    bar,
    client,
    credentials_option,
    db_option,
    faults,
    json_option,
    url_of,
    url_options,
)
from pagelog.reader import Reader


@click.command("logs")
@credentials_option
@url_options
@json_option
@faults
def logs_word(accounts: Accounts, url: str | None, log: str | None, as_json: bool) -> None:
    """List the logs of an archive: name, archived LSN, highest epoch, blocks and their bytes. Needs no service.

    \b
    Example:
      pagelogctl logs --url sqlite:///db0.db
    """
    for one in logs_of(url_of(url, accounts)):
        if log is None or one.name == log:
            fields = asdict(one)
            click.echo(
                json.dumps(fields)
                if as_json
                else f"log {one.name}: archived {one.archived}, epoch {one.epoch}, {one.blocks} "
                f"blocks, {one.bytes} bytes"
            )


@click.command("mend")
@credentials_option
@db_option
@url_options
@json_option
@faults
def mend_word(accounts: Accounts, db: int, url: str | None, log: str | None, as_json: bool) -> None:
    """Replace blocks of an archive that are missing or damaged by those of a service that has them. Needs [secondary].

    The service has to have the log of the archive: the whole blocks beside each are compared first. Exit status 1 where a
    block is left that the service does not have either.

    \b
    Example:
      pagelogctl mend --credentials c.toml --db 0 --url sqlite:///db0.db
    """
    with Archive(url_of(url, accounts), log or str(db)) as archive, client(
        Reader, accounts, db
    ) as reader, bar("read") as told:
        done = mend(archive, reader, told=told)
    if as_json:
        click.echo(json.dumps({"mended": done.mended, "left": done.left}))
    else:
        click.echo(
            f"mended {len(done.mended)} blocks{_lsns(done.mended)}; {len(done.left)} are left damaged{_lsns(done.left)}"
        )
    sys.exit(FAULT if done.left else 0)


def _lsns(lsns: list[int]) -> str:
    return (
        ": LSN " + ", ".join(map(str, lsns[:20])) + (" .." if len(lsns) > 20 else "")
        if lsns
        else ""
    )
