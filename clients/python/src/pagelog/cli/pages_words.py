"""pages."""

from __future__ import annotations

import logging
import secrets
import signal
import socket
import sys
import threading
from dataclasses import replace
from pathlib import Path
from shutil import which
from typing import TYPE_CHECKING, Any, Mapping

import click

from pagelog.cli.keeper_words import named
from pagelog.cli.options import credentials_option, fail, faults, url_of_referee
from pagelog.cli.waiting_words import write_private
from pagelog.credentials import Accounts
from pagelog.pages.following import PageServerSettings
from pagelog.pages.process import Serving
from pagelog.pages.stores import asides_in, not_aside_in, sentence
from pagelog.referee.hosts import is_loopback

if TYPE_CHECKING:
    from pagelog.pages.serving import PageServers

_TABLE = """
[[principal]]
id = 3
token = "{token}"
[[row]]
verdict = "allow"
role = "secondary"
"""
_ACCOUNT = '[secondary]\nto = "{address}"\nid = 3\ntoken = "{token}"\n'


@click.command("pages")
@click.argument("names", nargs=-1)
@click.option(
    "--folder",
    required=True,
    type=click.Path(path_type=Path),
    help="Where the stores are; they are made again where they are lost.",
)
@click.option(
    "--listen",
    "host",
    default="127.0.0.1",
    show_default=True,
    metavar="HOST",
    help="Where page servers listen, each at a port of its own.",
)
@click.option(
    "--program",
    default="pagelog-pages",
    show_default=True,
    type=click.Path(path_type=Path),
    help="The program of clients/pages.",
)
@click.option(
    "--machine", default=None, help="How `list` calls this machine. [default: its host name]"
)
@click.option(
    "--cache",
    default=256,
    show_default=True,
    metavar="MIB",
    type=click.IntRange(1),
    help="Memory of each database for what is read.",
)
@click.option(
    "--direct",
    is_flag=True,
    help="Reads pass by the system's cache: for stores that are larger than memory.",
)
@click.option(
    "--metrics",
    metavar="HOST:PORT",
    help="Where Prometheus asks; others than this machine by TLS, where [keeper] has a certificate.",
)
@click.option(
    "--list",
    "lists",
    is_flag=True,
    help="Print which stores there are, and what those have that were quarantined, and end.",
)
@click.option(
    "--open",
    "run",
    metavar="RUN",
    help="Serve one that is not in use, read-only, to who has the file of --keys.",
)
@click.option(
    "--keys",
    metavar="FILE",
    type=click.Path(path_type=Path),
    help="With --open: where a new credentials file for it goes.",
)
@credentials_option
@faults
def pages_word(
    accounts: Accounts,
    names: tuple[str, ...],
    folder: Path,
    host: str,
    program: Path,
    machine: str | None,
    cache: int,
    direct: bool,
    metrics: str | None,
    lists: bool,
    run: str | None,
    keys: Path | None,
) -> None:
    """Keep copies of named databases on this machine's disk, and answer readers: of these NAMES, or of all there are, until SIGTERM or SIGINT.

    A copy has each position that PostgreSQL keeps, up to what is archived. It promises nothing: a store that is lost is made again. Where
    PostgreSQL went back, the store is quarantined: with --open it is read as a service is, by any word that needs [secondary] alone.

    With tls, tls_clients and plain of [keeper] it serves by TLS as a keeper does; with sslrootcert it asks keepers by TLS.

    \b
    Examples:
      pagelogctl pages --folder stores --listen 10.0.0.4 --credentials keeper.toml
      pagelogctl pages --folder stores --open 9f86d081884c7d65 --keys saved.toml
    """
    from pagelog.pages.serving import FolderInUse, PageServers
    from pagelog.referee.referee import Referee
    from pagelog.referee.sealed import Keys

    if (run is None) != (keys is None) or (lists and run is not None):
        raise click.UsageError("--list, or --open RUN with --keys FILE")
    machine, folder = machine or socket.gethostname(), folder.resolve()
    if lists:
        for aside in asides_in(folder):
            click.echo(
                f"quarantined: {sentence(aside.name, machine, aside.report(folder))}; {aside.why}"
            )
        for store in not_aside_in(folder):
            click.echo(
                f"in use, or of a database that is gone: store {store.run} of {store.name} at {machine}, {store.folder(folder)}"
            )
        return
    if (found := which(program)) is None:
        fail(
            f"there is no program {program}: it is built in clients/pages, and in the package pagelog-pages"
        )
    options = ("--cache", str(cache), *(("--direct",) if direct else ()))
    settings = PageServerSettings(
        Path(found).resolve(),
        folder,
        host,
        machine,
        options,
        _serving(accounts.keeper, host),
        accounts.trust,
    )
    if run is not None and keys is not None:
        return _open(settings, run, keys)
    logging.basicConfig(stream=sys.stderr, format="%(message)s", level=logging.INFO)
    log = logging.getLogger("pagelog.pages")
    url, sealing = url_of_referee(accounts), Keys(accounts.key_file)
    servers = PageServers(
        settings,
        lambda me: Referee(url, me, keys=sealing, store=accounts.store),
        [named(name) for name in names],
        lambda name, said: log.info("%s: %s", name, said),
    )
    for number in (signal.SIGTERM, signal.SIGINT):
        signal.signal(number, lambda *_: servers.end())
    if metrics is not None:
        log.info("metrics at %s", _serve_metrics(servers, settings.serving, metrics))
    try:
        servers.run()
    except FolderInUse as error:
        fail(str(error))


def _serving(section: Mapping[str, Any], host: str) -> Serving | None:
    """What [keeper] says of TLS. Ends where that cannot be."""
    from pagelog.keeper.certificate import Authorities, Pair

    file, clients, plain = (
        section.get("tls"),
        section.get("tls_clients"),
        section.get("plain", True),
    )
    if file is None:
        if clients is not None or plain is not True:
            fail("[keeper] has tls_clients or plain without tls, the file with certificate and key")
        return None
    if (
        not isinstance(file, str)
        or not isinstance(clients, str | None)
        or not isinstance(plain, bool)
    ):
        fail("[keeper]: tls and tls_clients are paths, and plain is true or false")
    if not Pair.read(Path(file)).is_for(host):
        fail(f"[keeper] tls: {file} is not for {host}, which nobody would believe")
    if clients is not None:
        Authorities.read(Path(clients))
    return Serving(
        Path(file).absolute(), None if clients is None else Path(clients).absolute(), not plain
    )


def _serve_metrics(servers: PageServers, serving: Serving | None, listen: str) -> str:
    """Returns where."""
    from pagelog.cli.metrics import serve
    from pagelog.keeper.certificate import ShownFile
    from pagelog.pages.metrics import PagesCollector

    file, (host, _, port) = None if serving is None else serving.file, listen.rpartition(":")
    context = None if file is None or is_loopback(host) else ShownFile(file).context
    try:
        bound = serve(
            PagesCollector(servers.states, servers.damages, file),
            host.strip("[]"),
            int(port),
            context,
        )
    except (OSError, ValueError) as error:
        fail(f"--metrics: {listen}: {error}")
    return f"{host}:{bound}"


def _open(settings: PageServerSettings, run: str, keys: Path) -> None:
    """Serves a store, by a token that is in this file alone, until a signal; by TLS alone where it may."""
    folder, serving = settings.folder, settings.serving
    known = {each.run: (each.folder(folder), each.identity) for each in not_aside_in(folder)}
    known |= {each.run: (each.path(folder), each.identity) for each in asides_in(folder)}
    if run not in known:
        fail(f"{folder} has no store {run}: --list says which there are")
    ends, token = threading.Event(), secrets.token_hex(16)
    for number in (signal.SIGTERM, signal.SIGINT):
        signal.signal(number, lambda *_: ends.set())
    only = None if serving is None else replace(serving, is_only=True)
    process = replace(settings, serving=only).start(*known[run])
    try:
        process.set_table(_TABLE.format(token=token))
        write_private(keys, _ACCOUNT.format(address=process.address, token=token))
        click.echo(
            f"positions {process.where.oldest} to {process.where.confirmed} at {process.address}"
        )
        ends.wait()
    finally:
        process.end()
