"""keep, create, pause, resume and where; and what the words of named databases have in common."""

from __future__ import annotations

import asyncio
import faulthandler
import functools
import logging
import secrets
import signal
import ssl
import sys
import threading
from contextlib import contextmanager
from pathlib import Path
from typing import TYPE_CHECKING, Any, Callable, Iterator, Mapping, NoReturn, Sequence

import click
import psycopg

from pagelog.cli.options import AGAIN, credentials_option, fail, faults, url_of_referee
from pagelog.credentials import Accounts
from pagelog.keeper.settings import Settings
from pagelog.keeper.table import Form, read_table, table_of_run
from pagelog.referee.hosts import is_loopback
from pagelog.referee.referee import LONGEST, NAME, Away, Doubt, Referee, Refused, Sealed
from pagelog.referee.rows import Look, Row
from pagelog.referee.sealed import Keys

if TYPE_CHECKING:
    from pagelog.keeper.keeping import Keeper


def named(name: str) -> str:
    """The name, if it is one."""
    if NAME.fullmatch(name) is None:
        fail(f"{name!r} is no name: letters, digits, dots, dashes and underscores, at most 63")
    return name


def row_in(look: Look, name: str) -> Row:
    """The database of this name. Ends where there is none."""
    row = look.row(named(name))
    if row is None:
        fail(f"there is no database {name}")
    return row


def referee_word(word: Callable[..., Any]) -> Callable[..., Any]:
    """--credentials FILE, as a referee."""

    @credentials_option
    @faults
    @functools.wraps(word)
    def run(accounts: Accounts, **options: Any) -> Any:
        with referee_of(accounts, Asked) as referee:
            return word(referee, **options)

    return run


class Asked(Referee):
    """For a person, who asks for little: a statement that hangs is cut."""

    def _ask(
        self,
        statement: str,
        values: Mapping[str, Any] | Sequence[Any] = (),
        *,
        binary: bool = False,
    ) -> list[Any]:
        done = threading.Event()

        def cut() -> None:
            while not done.wait(LONGEST):  # again where it was connecting, and hangs once it has
                self.cut()

        threading.Thread(target=cut, daemon=True).start()
        try:
            return super()._ask(statement, values, binary=binary)
        finally:
            done.set()


@contextmanager
def referee_of(
    accounts: Accounts, kind: type[Referee] = Referee, url: str | None = None
) -> Iterator[Referee]:
    """The referee, or that of another URL. A fault of it is a line, and the exit status that the archive's database has for the like."""
    referee = kind(
        url or url_of_referee(accounts), keys=Keys(accounts.key_file), store=accounts.store
    )
    try:
        yield referee
    except (Away, Doubt) as error:
        fail(f"{type(error).__name__}: {error}", AGAIN)
    except Sealed as error:
        fail(str(error))
    except Refused as error:
        _fail_refused(error)
    finally:
        referee.close()


def _fail_refused(error: Refused) -> NoReturn:
    """With what may be done."""
    if isinstance(error.__cause__, psycopg.errors.LockNotAvailable):
        fail(f"{error}: another session has it locked", AGAIN)
    if isinstance(error.__cause__, psycopg.errors.UndefinedTable):
        fail(f"{error}: is there a keeper yet, or a `pagelogctl create`?")
    fail(str(error))


class Renamed(click.Option):
    """An option that is read by its name in 0.1.0 too, for one version more; no help shows that."""

    def __init__(self, *names: Any, older: str, **attributes: Any) -> None:
        super().__init__(*names, **attributes)
        self.older = older

    def add_to_parser(self, parser: click.OptionParser, ctx: click.Context) -> None:
        """Both names."""
        super().add_to_parser(parser, ctx)
        parser.add_option(obj=self, opts=[self.older], dest=self.name)


@click.command("keep")
@credentials_option
@click.option("--name", required=True, metavar="K", help="This keeper's name, which no other has.")
@click.option(
    "--listen",
    "lines",
    cls=Renamed,
    older="--lines",
    required=True,
    metavar="HOST:PORT",
    help="Where clients and other keepers reach it.",
)
@click.option(
    "--service-host",
    "serve",
    cls=Renamed,
    older="--serve",
    required=True,
    metavar="HOST",
    help="Where its services listen, at ports that the system gives.",
)
@click.option(
    "--folder",
    required=True,
    metavar="DIR",
    type=click.Path(path_type=Path),
    help="For the files of its services.",
)
@click.option(
    "--program",
    default="pagelog",
    show_default=True,
    metavar="PAGELOG",
    envvar="PAGELOG",
    help="The service.",
)
@click.option(
    "--runner",
    metavar="SOCKET",
    type=click.Path(path_type=Path),
    help="Services run as the user of the `pagelogctl runner` there.",
)
@click.option(
    "--console",
    metavar="HOST:PORT",
    help="Serve the page of `pagelogctl console` too, by this keeper's thresholds.",
)
@click.option(
    "--require-standby",
    is_flag=True,
    help="Nothing is durable that a synchronous standby of PostgreSQL has not.",
)
@faults
def keep_word(
    accounts: Accounts,
    name: str,
    lines: str,
    serve: str,
    folder: Path,
    program: str,
    runner: Path | None,
    console: str | None,
    require_standby: bool,
) -> None:
    """Keep named databases, with PostgreSQL as the referee. Needs [archive] url; [keeper] may have ttl, standby, audit, memory,
    succeed, trail, metrics, console, console_token (the file with the token of a page that others reach), require_standby, and for TLS
    (docs/SECURITY.md) tls, tls_lines, tls_clients, tls_ports and plain.

    It prints `listening HOST:PORT`, and logs each decision with its reason. SIGTERM hands over what it holds; a second one
    ends it at once, and its services stay up until its next instance adopts them. Exit status 3: another keeper has its name. A name whose
    keeper is up is refused; one whose heartbeat has stalled for a ttl is taken over, in the same folder of a keeper that ended at once.

    \b
    Example:
      pagelogctl keep --name a --listen 10.0.0.1:7500 --service-host 10.0.0.1 --folder services --credentials keeper.toml
    """
    from pagelog.keeper.keeping import Keeper

    faulthandler.register(signal.SIGUSR1)  # says what each thread is at
    logging.basicConfig(level=logging.INFO, stream=sys.stderr, format="%(asctime)s %(message)s")
    said = {"require_standby": require_standby or None, "console": console}
    section = {
        **accounts.keeper,
        **{key: value for key, value in said.items() if value is not None},
    }
    settings = Settings.of(
        name=named(name),
        lines=lines,
        serve=serve,
        folder=folder,
        program=program,
        url=url_of_referee(accounts),
        section=section,
        keep=accounts.archive_keep,
        key_file=accounts.key_file,
        store=accounts.store,
        runner=runner,
    )
    settings.keys.ids  # what is wrong with the file is said at once
    if settings.program.runner is not None:
        settings.program.runner.check()
    keeper = Keeper(settings)
    if settings.metrics is not None:
        _serve_metrics(keeper, settings.metrics)
    if settings.console is not None:
        from pagelog.cli.console_words import begin_console

        logging.getLogger("pagelog.keeper").info(
            "console at %s", begin_console(settings, _context_for(keeper, settings.console))
        )
    sys.exit(asyncio.run(keeper.run()))


def _context_for(keeper: Keeper, listen: str) -> ssl.SSLContext | None:
    """Who comes from another machine comes by TLS, where the keeper has a certificate."""
    return (
        None
        if keeper.shown is None or is_loopback(listen.rpartition(":")[0])
        else keeper.shown.context
    )


def _serve_metrics(keeper: Keeper, listen: str) -> None:
    from pagelog.cli.metrics import serve
    from pagelog.keeper.metrics import KeeperCollector

    host, _, port = listen.rpartition(":")
    try:
        bound = serve(
            KeeperCollector(keeper.states, keeper.itself),
            host.strip("[]"),
            int(port),
            _context_for(keeper, listen),
        )
    except (OSError, ValueError) as error:
        fail(f"[keeper] metrics: {listen}: {error}")
    logging.getLogger("pagelog.keeper").info("metrics at %s:%d", host, bound)


@click.command("create")
@click.argument("name")
@click.option(
    "--table",
    required=True,
    metavar="FILE",
    type=click.Path(path_type=Path),
    help="Its table: who may do what.",
)
@referee_word
def create_word(referee: Referee, name: str, table: Path) -> None:
    """Make a named database with this table. Its keepers start it.

    The table is kept by the referee. Each run gets tokens that are made from those of the table, and rows of its keeper.

    \b
    Example:
      pagelogctl create shop --table table.toml --credentials keeper.toml
    """
    text = text_of_table(table, named(name))
    referee.prepare()
    from pagelog.cli.heartbeats import refuse_keepers_without

    refuse_keepers_without(referee)
    if not referee.create(name, text, secrets.token_bytes(16)):
        fail(f"there is a database {name}, or was one")
    click.echo(f"created {name}")
    if not referee.keep_strangers_out():
        click.echo(
            "every role may connect to the referee's database, and wake keepers: REVOKE CONNECT ON DATABASE .. FROM PUBLIC, "
            "and grant it to those of the keepers and of the console",
            err=True,
        )


def text_of_table(table: Path, name: str) -> str:
    """The text of a table for a named database, if it is one."""
    try:
        text = table.read_text()
    except (OSError, UnicodeDecodeError) as error:
        fail(f"{table}: {error}")
    read_table(text)
    table_of_run(text, b"", name, "", Form.OPEN)
    return text


def _paused(referee: Referee, name: str | None, paused: bool) -> None:
    count = referee.pause(None if name is None else named(name), paused)
    if name is not None and count == 0:
        fail(f"there is no database {name}")
    click.echo(f"{'paused' if paused else 'resumed'} {name or f'{count} databases'}")


@click.command("pause")
@click.argument("name", required=False)
@referee_word
def pause_word(referee: Referee, name: str | None) -> None:
    """From now on keepers take nothing over, of this database or of all; who holds it continues.

    \b
    Example:
      pagelogctl pause shop --credentials keeper.toml
    """
    _paused(referee, name, True)


@click.command("resume")
@click.argument("name", required=False)
@referee_word
def resume_word(referee: Referee, name: str | None) -> None:
    """End a pause.

    \b
    Example:
      pagelogctl resume --credentials keeper.toml
    """
    _paused(referee, name, False)


def facts_of(look: Look, row: Row) -> dict[str, Any]:
    """What a look has of a database. What its service says of itself is as old as the holder's last look."""
    keeper = look.keeper(row.holder)
    report = {} if keeper is None else keeper.report.get(row.name, {})
    standbys = {standby.keeper: standby.reached for standby in look.standbys_of(row.id)}
    hard = report.get("hard")
    return {
        "name": row.name,
        "generation": row.generation,
        "holder": row.holder,
        "place": row.address,
        "archived": row.archived,
        "lag": None if hard is None else max(0, hard - row.archived),
        "images": row.images,
        "standbys": standbys,
        "entries_left": report.get("entries_left"),
        "memory": report.get("memory"),
        "memory_left": report.get("memory_left"),
        "state": report.get("state"),
        "why": look.decisions_of(row),
        "wanted": row.wanted,
        "succeed": row.succeed,
        "read_only": row.read_only,
        "paused": row.paused,
        "synchronous_standbys": look.synchronous.count,
        "identity": row.identity,
        "secure": row.told(True),
        "page_servers": [
            {
                "run": each.run,
                "machine": each.machine,
                "address": each.address,
                "position": each.position,
                "oldest": each.oldest,
                "silent": round(each.silent, 1),
                "gone": each.is_gone,
                "set_aside": list(each.aside),
            }
            for each in look.pages_of(row.id)
        ],
    }


@click.command("where")
@click.argument("name")
@referee_word
def where_word(referee: Referee, name: str) -> None:
    """Print the address of a named database. Exit status 1 where nobody serves it.

    \b
    Example:
      pagelogctl where shop --credentials keeper.toml
    """
    row = referee.everything().row(named(name))
    if row is None or row.address is None:
        fail(f"there is no database {name}" if row is None else f"nobody serves {name} now")
    click.echo(row.address)
