"""What the words have in common: credentials, the archive's URL, progress, and how a fault is reported."""

from __future__ import annotations

import functools
import os
import signal
import sqlite3
import ssl
import sys
import time
from contextlib import contextmanager
from dataclasses import replace
from pathlib import Path
from types import FrameType
from typing import TYPE_CHECKING, Any, Callable, Iterator, NoReturn, TypeVar

import click
from click.core import ParameterSource

from pagelog.client import Client
from pagelog.connection import Connection
from pagelog.credentials import FILE_VARIABLE, Accounts, load
from pagelog.errors import (
    AuditListFull,
    ConnectionLost,
    CredentialsError,
    InDoubt,
    OutOfMemory,
    PagelogError,
    Unreachable,
)
from pagelog.rules import BelowQuorum, NoSuchCopy
from pagelog.secure import WORDS
from pagelog.times import duration

if TYPE_CHECKING:
    from pagelog.objects.settings import StoreSettings

Word = TypeVar("Word", bound=Callable[..., Any])
Kind = TypeVar("Kind", bound=Client)
URL_VARIABLE = "PAGELOG_ARCHIVE_URL"
"""The variable of the environment that has the archive's URL, with a password if need be."""


FAULT, WRONG, AGAIN, LIST_FULL = 1, 2, 3, 4
"""Exit statuses, beside 0 for done: a person has to look; wrong arguments, or one that is missing; it may be tried again later as it
is; the audit list is full, or so near to it that the database was fenced.
"""
NOT_YET = "service: denied A1, though let in before: it waits for its restore, or the table has another token; trying again"
DEFAULT_TIMEOUT = 10.0
_STEP_SECONDS = 4.0
_LINE_SECONDS = 60.0
_urls: list[str] = []
"""The archive's URL that this program uses, for its errors."""


def status_of(error: PagelogError) -> int:
    """The exit status of a fault."""
    if isinstance(error, AuditListFull):
        return LIST_FULL
    return (
        AGAIN
        if error.may_pass or isinstance(error, (Unreachable, ConnectionLost, InDoubt, OutOfMemory))
        else FAULT
    )


def hint_of(error: PagelogError) -> str:
    """Which option a denial speaks of."""
    if isinstance(error, BelowQuorum):
        return "; where the table says copies = 6, say --quorum 4"
    return (
        "; where the table says copies = 3, say --quorum 2" if isinstance(error, NoSuchCopy) else ""
    )


def is_of_the_archive(error: Exception) -> bool:
    """Whether the archive's database raised it."""
    return isinstance(error, sqlite3.Error) or type(error).__module__.partition(".")[0] == "psycopg"


def is_lost_archive(error: Exception) -> bool:
    """Whether the archive's database is away for a moment, or busy."""
    return any(kind.__name__ == "OperationalError" for kind in type(error).__mro__)


def fail(text: str, status: int = FAULT) -> NoReturn:
    """Ends with this line and this status."""
    click.echo(f"pagelogctl: {text}", err=True)
    sys.exit(status)


json_option = click.option("--json", "as_json", is_flag=True, help="One JSON object a line.")
tls_option = click.option(
    "--tls",
    metavar="FILE",
    type=click.Path(path_type=Path),
    help="Speak TLS, with the certificate and the key of this "
    "file; another one in its place is taken without a restart.",
)


def context_of_file(file: Path | None) -> ssl.SSLContext | None:
    """What serves by a file with a certificate and its key. Raises `PagelogError`."""
    if file is None:
        return None
    from pagelog.keeper.certificate import ShownFile

    return ShownFile(file).context


def credentials_option(word: Word) -> Word:
    """--credentials FILE, as `accounts`."""

    def read(_: click.Context, __: click.Parameter, value: str | None) -> Accounts:
        try:
            return load(value, words=tls_words())
        except PagelogError as error:
            fail(str(error))

    return click.option(
        "--credentials",
        "accounts",
        metavar="FILE",
        type=click.Path(),
        envvar=FILE_VARIABLE,
        callback=read,
        help=f"The TOML file with a section for each role: to, id, token. Mode 600. [env: {FILE_VARIABLE}]",
    )(word)


db_option = click.option(
    "--db",
    default=0,
    show_default=True,
    metavar="N",
    type=click.IntRange(0, (1 << 32) - 1),
    help="The number of the database.",
)


def url_options(word: Word) -> Word:
    """--url URL and --log NAME."""
    word = click.option(
        "--log",
        metavar="NAME",
        help="The log's name in the archive. [default: the number of the database]",
    )(word)
    return click.option(
        "--url",
        metavar="URL",
        envvar=URL_VARIABLE,
        callback=_url,
        help=f"Where the archive is, as sqlite:///FILE or postgresql://HOST/NAME. A password comes from the environment, the "
        f"credentials file ([archive] url) or PostgreSQL's own files. [env: {URL_VARIABLE}]",
    )(word)


def _url(context: click.Context, parameter: click.Parameter, value: str | None) -> str | None:
    if value and context.get_parameter_source(parameter.name or "") is ParameterSource.COMMANDLINE:
        _, _, rest = value.partition("://")
        if ":" in (rest or value).rpartition("@")[0] or "password=" in value:
            raise click.UsageError(
                f"a password is not for the command line, where others see it: put the URL into {URL_VARIABLE}"
            )
    return value


def url_of(url: str | None, accounts: Accounts) -> str:
    """The archive's URL: the option's, the file's, or the default. Ends where it is of a database in memory."""
    from pagelog.archive import DEFAULT_URL
    from pagelog.archive.url import is_in_memory

    found = url or accounts.archive_url or DEFAULT_URL
    _urls.append(found)
    if is_in_memory(found):
        fail("an archive in memory is gone when this ends: name a file, as sqlite:///FILE")
    return found


quorum_option = click.option(
    "--quorum",
    type=click.Choice(["2", "4"]),
    help="How many copies have to hold a block before the database that is "
    "filled hardens it, as its table says. [default: quorum of [service] in its credentials, or 2]",
)


def quorum_of(quorum: str | None, accounts: Accounts) -> int:
    """The option's quorum, or the file's."""
    return accounts.quorum if quorum is None else int(quorum)


def client(kind: type[Kind], accounts: Accounts, db: int, **options: Any) -> Kind:
    """A client of this kind, from its section of the credentials."""
    account = accounts.account(kind.role)
    connection = Connection(account.to, timeout=timeout(), attempts=8, trust=account.trust)
    return kind(connection, account.credentials, db, **options)


def tls_words() -> dict[str, str]:
    """What --sslmode and the like of `pagelogctl` say."""
    context = click.get_current_context(silent=True)
    found = context.find_root().params if context else {}
    return {word: found[word] for word in WORDS if found.get(word) is not None}


def timeout() -> float:
    """What --timeout of `pagelogctl` says."""
    context = click.get_current_context(silent=True)
    found = context.find_root().params.get("timeout") if context else None
    return float(found) if found else DEFAULT_TIMEOUT


def one_service(accounts: Accounts, one: type[Client], other: type[Client], what: str) -> None:
    """Ends where the sections of these two have different addresses: what is asked of one would not be done at the other."""
    first, second = accounts.account(one.role).to, accounts.account(other.role).to
    if first != second:
        fail(
            f"[{one.role.word}] is at {first} and [{other.role.word}] at {second}: {what}, which has one address"
        )


def faults(word: Word) -> Word:
    """A fault is one line on standard error, and the exit status that it has in `statuses`."""

    @functools.wraps(word)
    def run(*arguments: Any, **options: Any) -> Any:
        signal.signal(signal.SIGTERM, _end)
        try:
            return word(*arguments, **options)
        except PagelogError as error:
            fail(f"{type(error).__name__}: {error}{hint_of(error)}", status_of(error))
        except ModuleNotFoundError as error:
            from pagelog.command import LACKS

            fail(f"this needs {error.name}: {LACKS}")
        except BrokenPipeError:
            os.dup2(os.open(os.devnull, os.O_WRONLY), sys.stdout.fileno())
            sys.exit(FAULT)
        except Ended as ended:
            fail(str(ended), 128 + signal.SIGTERM)
        except KeyboardInterrupt:
            fail("interrupted", 128 + signal.SIGINT)  # click would say 1
        except Exception as error:
            if not is_of_the_archive(error):
                raise
            fail(f"archive: {first_line_of(error)}", AGAIN if is_lost_archive(error) else FAULT)

    return run  # type: ignore[return-value]


def first_line_of(error: Exception) -> str:
    """What a database says, without the password that the archive's URL may have."""
    from pagelog.archive.url import without_password

    lines = str(error).splitlines() or [type(error).__name__]
    return without_password(lines[0], _urls[-1] if _urls else None)


@contextmanager
def bar(what: str) -> Iterator[Callable[[int, int], None]]:
    """Progress on standard error: a bar with the time left where that is a terminal, and else a line each minute."""
    if not sys.stderr.isatty():
        yield _Lines(what).tell
        return
    from rich.console import Console
    from rich.progress import (
        BarColumn,
        MofNCompleteColumn,
        Progress,
        TextColumn,
        TimeRemainingColumn,
    )

    columns = (
        TextColumn("{task.description}"),
        BarColumn(),
        MofNCompleteColumn(),
        TimeRemainingColumn(),
    )
    with Progress(*columns, console=Console(stderr=True), transient=True) as progress:
        task, last = progress.add_task(what, total=None), 0

        def tell(done: int, total: int) -> None:
            nonlocal last
            if done < last:
                progress.reset(task)  # the next step of the work, which has its own time left
            last = done
            progress.update(task, completed=done, total=max(total, done))

        yield tell


class _Lines:
    """Progress where nobody looks at a terminal."""

    def __init__(self, what: str) -> None:
        self.what = what
        self.began = self.told = time.monotonic()
        self.last = 0

    def tell(self, done: int, total: int) -> None:
        """A line each minute. Where it begins from the front again, it is the next step of the work."""
        now = time.monotonic()
        if done < self.last:
            self.began = now
        self.last = done
        if now - self.told >= _LINE_SECONDS:
            self.told = now
            left = (
                f", {duration((total - done) * (now - self.began) / done)} left"
                if 0 < done < total
                else ""
            )
            click.echo(f"pagelogctl: {self.what} {done} of {total}{left}", err=True)


class Stop:
    """Whether SIGTERM or SIGINT has come: `came` has them."""

    def __init__(self) -> None:
        self.came: list[int] = []

    def __call__(self) -> bool:
        return bool(self.came)

    def end(self) -> None:
        """Ends with the status of the signal, if one has come: what was asked for is not done."""
        if self.came:
            sys.exit(128 + self.came[0])


@contextmanager
def stopping() -> Iterator[Stop]:
    """Says whether SIGTERM or SIGINT has come, so that a piece of work ends between two steps.

    Where a step takes longer than four seconds after that, as where something is silent, `Ended` ends it.
    """
    stop = Stop()
    came = stop.came

    def take(number: int, _: FrameType | None) -> None:
        if came and number == signal.SIGINT:
            raise KeyboardInterrupt
        came.append(number)
        signal.setitimer(signal.ITIMER_REAL, _STEP_SECONDS)

    def give_up(_: int, __: FrameType | None) -> None:
        raise Ended("ended during a step, since something was silent; what was kept is whole")

    handlers = {signal.SIGTERM: take, signal.SIGINT: take, signal.SIGALRM: give_up}
    before = {number: signal.signal(number, handler) for number, handler in handlers.items()}
    try:
        yield stop
    finally:
        signal.setitimer(signal.ITIMER_REAL, 0)
        for number, handler in before.items():
            signal.signal(number, handler)


class Ended(BaseException):
    """A signal ends the program during a step."""


def _end(_: int, __: FrameType | None) -> None:
    raise Ended("ended by SIGTERM")


def url_of_referee(accounts: Accounts) -> str:
    """The URL of the referee's PostgreSQL. Ends where there is none."""
    url = os.environ.get(URL_VARIABLE) or accounts.archive_url
    if not url or not url.startswith("postgresql"):
        fail(
            "named databases need PostgreSQL: put its url into the section [archive] of the credentials"
        )
    return url


def settings_of(accounts: Accounts, url: str | None = None) -> StoreSettings:
    """Those of the file, or of another place with the same options."""
    from pagelog.objects.settings import StoreSettings, check_url

    if url is None:
        if accounts.store is None:
            fail("the credentials name no store: put `store` into the section [archive]")
        return accounts.store
    try:
        check_url(url)
    except CredentialsError:
        fail(f"{url!r} is no store: file:///FOLDER or s3://BUCKET/PREFIX")
    return StoreSettings(url) if accounts.store is None else replace(accounts.store, url=url)
