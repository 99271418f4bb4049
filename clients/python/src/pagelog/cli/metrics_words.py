"""metrics."""

from __future__ import annotations

import time
from contextlib import ExitStack
from functools import partial
from pathlib import Path

import click

from pagelog.credentials import Accounts
from pagelog.cli.looking_words import dbs_option, limit_option, watch_of
from pagelog.cli.options import (
    context_of_file,
    credentials_option,
    fail,
    faults,
    stopping,
    tls_option,
    url_of,
    url_options,
)
from pagelog.cli.watch import Watch


@click.command("metrics")
@credentials_option
@dbs_option
@url_options
@limit_option
@click.option(
    "--listen",
    default="127.0.0.1:9464",
    show_default=True,
    metavar="ADDRESS",
    help="Where Prometheus asks, as HOST:PORT or " "[IPV6]:PORT; port 0 takes a free one.",
)
@tls_option
@click.option(
    "--within",
    default=4.0,
    show_default=True,
    type=click.FloatRange(0.1),
    metavar="SECONDS",
    help="How long a scrape may take. It has to be below Prometheus' scrape_timeout.",
)
@click.option("--from-start", is_flag=True, help="Count the audit list from its beginning.")
@faults
def metrics_word(
    accounts: Accounts,
    dbs: tuple[int, ...],
    url: str | None,
    log: str | None,
    limit: int | None,
    listen: str,
    within: float,
    from_start: bool,
    tls: Path | None,
) -> None:
    """Serve metrics for Prometheus, until SIGTERM or SIGINT. Needs [operator], and holds a connection for each database.

    Prints `listening ADDRESS`. With [secondary] applied LSNs are among them, by a second connection, with --url the
    archived LSN. Nothing has to be up when it begins: a database or an archive that does not answer within the time of a
    scrape has `pagelog_up` or `pagelog_archive_up` 0. clients/python/prometheus has an example of a scrape, alert rules and
    their tests.

    \b
    Example:
      pagelogctl metrics --credentials c.toml --db 0 --listen 127.0.0.1:9464
    """
    from pagelog.archive.url import parsed_url
    from pagelog.cli.metrics import DatabaseCollector, serve
    from pagelog.cli.top_words import archived_of

    host, _, port = listen.rpartition(":")
    if not host or not port.isdecimal() or int(port) > 65535:
        fail(f"{listen}: this is no address of the form HOST:PORT")
    with ExitStack() as stack, stopping() as stop:
        archive = url_of(url, accounts) if url or accounts.archive_url else None
        if archive is not None:
            parsed_url(archive)

        def watch(db: int) -> Watch:
            return watch_of(accounts, db, limit, stack, within / 2, from_start=from_start)

        archived = (
            {db: partial(archived_of, archive, log or str(db)) for db in dbs} if archive else {}
        )
        collector = DatabaseCollector({db: partial(watch, db) for db in dbs}, archived, within)
        try:
            bound = serve(collector, host.strip("[]"), int(port), context_of_file(tls))
        except OSError as error:
            fail(f"{listen}: {error}")
        click.echo(f"listening {host}:{bound}")
        while not stop():
            time.sleep(0.1)
