"""record, trail and replay."""

from __future__ import annotations

import json
import sys
import time
from contextlib import ExitStack, nullcontext, suppress
from datetime import datetime
from itertools import islice
from pathlib import Path
from typing import Any, Callable, Iterator

import click

from pagelog.archive import Archive, NoArchive
from pagelog.block import Block
from pagelog.connection import Connection
from pagelog.credentials import FILE_VARIABLE, Accounts, load
from pagelog.cli.audit_words import entry_fields, entry_line
from pagelog.cli.export_words import export_lists, folder_of
from pagelog.cli.losses import Losses
from pagelog.cli.options import (
    URL_VARIABLE,
    _url,
    bar,
    client,
    credentials_option,
    db_option,
    fail,
    faults,
    json_option,
    stopping,
    timeout,
    tls_words,
    url_of,
)
from pagelog.errors import PagelogError
from pagelog.following import NamedAccount
from pagelog.keeping import all_blocks, compare
from pagelog.operator import Operator
from pagelog.place import Keepers
from pagelog.reader import Reader
from pagelog.request import Operation, Role
from pagelog.trail.keeper import TrailKeeper
from pagelog.trail.logs import Log, log_of
from pagelog.trail.pages import compare_pages
from pagelog.times import FORMS, in_both_zones, moment
from pagelog.trail.question import Question, SeenLine, Summary, answer, micros
from pagelog.trail.replay import Replayed, replay
from pagelog.trail.seal import seal
from pagelog.trail.store import NoTrail, Start, Trail, TrailList

url_option = click.option(
    "--url",
    metavar="URL",
    envvar=URL_VARIABLE,
    callback=_url,
    help=f"Where the trail is, and the archive beside it, as sqlite:///FILE or postgresql://HOST/NAME. [env: {URL_VARIABLE}]",
)
start_table_option = click.option(
    "--table",
    metavar="FILE",
    type=click.Path(exists=True, dir_okay=False, path_type=Path),
    help="The table that the database began with. It goes with --primary.",
)
start_primary_option = click.option(
    "--primary", metavar="N", type=click.IntRange(0, (1 << 32) - 1), help="The first primary."
)
texts_option = click.option(
    "--set-table",
    "texts",
    metavar="FILE",
    multiple=True,
    type=click.Path(exists=True, dir_okay=False, path_type=Path),
    help="A table that was set later; may be given more than once.",
)
list_option = click.option(
    "--list",
    "run",
    metavar="N",
    type=click.IntRange(1),
    help="Only the N-th list of the trail. A service that "
    "was restarted began a new one. [default: all]",
)


_LATE = 5.0
"""For how many seconds after its time a line may still come into a trail that is followed."""


def start_of(table: Path | None, primary: int | None) -> Start | None:
    """What a database began from, as the two options say it."""
    if (table is None) != (primary is None):
        raise click.UsageError("--table and --primary go together")
    return Start(table.read_bytes(), primary) if table is not None and primary is not None else None


def chosen(trail: Trail, run: int | None) -> list[TrailList]:
    """The lists that --list chooses."""
    lists = trail.lists()
    found = [one for one in lists if run in (None, one.run)]
    if run is not None and not found:
        raise NoTrail(f"the trail of {trail.log!r} has {len(lists)} lists")
    return found


# Keeping.


@click.command("record")
@click.argument("name")
@credentials_option
@db_option
@url_option
@start_table_option
@start_primary_option
@texts_option
@click.option("--follow", is_flag=True, help="Continue with what comes, until SIGTERM or SIGINT.")
@click.option(
    "--idle",
    default=15.0,
    show_default=True,
    type=click.FloatRange(0),
    metavar="SECONDS",
    help="The longest wait before the service is asked again. Each question is an entry of the audit list too.",
)
@click.option(
    "--keep",
    metavar="DAYS",
    type=click.IntRange(1),
    help="Delete what was seen on earlier days, and say which lines, "
    "without asking. A list without its beginning cannot be replayed. [default: keep all]",
)
@faults
def record_word(
    name: str,
    accounts: Accounts,
    db: int,
    url: str | None,
    table: Path | None,
    primary: int | None,
    texts: tuple[Path, ...],
    follow: bool,
    idle: float,
    keep: int | None,
) -> None:
    """Keep the audit list of a database as a trail, beside its archive. Needs [operator].

    Each line is kept with the time at which it was seen. Prints `recorded N of list L`: lines 1 to N are kept. A service that was
    restarted begins a new list; the old one says how it ended. With --table and --primary the trail can be replayed.

    \b
    Example:
      pagelogctl record shop --follow --credentials c.toml --db 0 --url sqlite:///db0.db --table t0.toml --primary 2
    """
    start = start_of(table, primary)
    with Trail(url_of(url, accounts), name, create=True) as trail, client(
        Operator, accounts, db
    ) as operator:
        keeper = TrailKeeper(operator, trail, start=start)
        tell = _Told(trail, lambda: keeper.operator.was_let_in)
        try:
            with stopping() as stop:
                keeper.step()
                for text in texts:
                    keeper.give_table(text.read_bytes())
                if not follow:
                    keeper.run(follow=False, keep=keep, told=tell, stop=stop, pruning=tell.pruning)

                def goes_on() -> None:
                    keeper.resume()
                    keeper.run(
                        follow=True,
                        idle=idle,
                        keep=keep,
                        told=tell,
                        stop=stop,
                        pruning=tell.pruning,
                    )

                while follow and not stop():
                    tell.bear(goes_on)
            _seal(trail)
        finally:
            for one in trail.lists()[-1:]:
                _say_recorded(one)
        if not follow:
            stop.end()


class _Told(Losses):
    """Says how far the trail is and seals what was archived, once a minute, and when a new list begins; and why it waits, once a minute."""

    def __init__(self, trail: Trail, was_let_in: Callable[[], bool]) -> None:
        super().__init__(was_let_in)
        self._trail = trail
        self._run, self._last = 0, 0.0

    def pruning(self, before: int) -> None:
        """Says which lines go, before they do. It does not ask: --keep says so each time, also where nobody is at a terminal."""
        for one, last in self._trail.older(before):
            click.echo(
                f"pagelogctl: deletes lines {one.pruned + 1} to {last} of list {one.run}, seen before {in_both_zones(_time(before))}",
                err=True,
            )

    def __call__(self, one: TrailList) -> None:
        self.end()
        if one.run != self._run or time.monotonic() - self._last >= 60:
            _seal(self._trail)
            _say_recorded(one)
            self._run, self._last = one.run, time.monotonic()


def _seal(trail: Trail) -> None:
    """Seals what the archive beside the trail has, if there is one."""
    with suppress(NoArchive), Archive(trail.url, trail.log) as archive:
        seal(trail, archive)


def _say_recorded(one: TrailList) -> None:
    click.echo(
        f"recorded {one.kept} of list {one.run}"
        + (f", which ended: {one.ended}" if one.ended else "")
    )


# Asking.


def _accounts(_: click.Context, __: click.Parameter, value: str | None) -> Accounts | None:
    try:
        return load(value, words=tls_words()) if value else None
    except PagelogError as error:
        fail(str(error))


@click.command("trail")
@click.argument("name")
@click.option(
    "--credentials",
    "accounts",
    metavar="FILE",
    callback=_accounts,
    help="Where [archive] has the url, as a keeper's file.",
)
@url_option
@list_option
@click.option(
    "--since",
    metavar="TIME",
    help="From when on, as 14:00, 14:00:30 or 2026-11-28T14:00. A time of day is the last that has passed.",
)
@click.option(
    "--until", metavar="TIME", help="Up to when. A time of day is the first behind --since."
)
@click.option(
    "--principal",
    metavar="N",
    type=click.IntRange(0, (1 << 32) - 1),
    help="Only requests of this principal.",
)
@click.option(
    "--op",
    metavar="WORD",
    type=click.Choice([operation.word for operation in Operation]),
    help="Only this operation, as failover.",
)
@click.option("--denied", is_flag=True, help="Only what was denied.")
@click.option("--summary", is_flag=True, help="Count the lines by minute, principal and rule.")
@click.option(
    "--plot",
    metavar="FILE",
    type=click.Path(dir_okay=False),
    help="Draw requests and denials by minute, and epochs, as SVG. Needs python3-pygal.",
)
@json_option
@click.option(
    "--follow", is_flag=True, help="Continue with what is recorded, up to the time of --until."
)
@click.option(
    "--export",
    "folder",
    metavar="FOLDER",
    type=click.Path(path_type=Path),
    help="Write all lines into a new folder, for the program pagelog-verify.",
)
@start_table_option
@start_primary_option
@texts_option
@faults
def trail_word(
    name: str,
    accounts: Accounts | None,
    url: str | None,
    run: int | None,
    since: str | None,
    until: str | None,
    principal: int | None,
    op: str | None,
    denied: bool,
    summary: bool,
    plot: str | None,
    as_json: bool,
    follow: bool,
    folder: Path | None,
    table: Path | None,
    primary: int | None,
    texts: tuple[Path, ...],
) -> None:
    """Show what was decided in some time, from a trail that `record` or a keeper keeps. It asks no service.

    The time of a line is when it was seen: it was decided by then, and after the line before it was. With --export all lines
    are written with the archived blocks, for pagelog-verify, which says whether they are of a database.

    \b
    Examples:
      pagelogctl trail shop --since 14:00 --until 14:10 --denied
      pagelogctl trail shop --credentials keeper.toml --since 14:00 --summary
      pagelogctl trail shop --op failover --json
      pagelogctl trail shop --since 14:00 --plot shop.svg
      pagelogctl trail shop --credentials keeper.toml --export shop-trail
    """
    if folder is not None:
        shown = since, until, principal is not None, op, denied, summary, plot, as_json, follow
        made, start = folder_of(folder, shown), start_of(table, primary)
        _export(name, url, accounts, run, made, start, texts)
        return
    question = Question(*_times(since, until), principal, _operation(op), denied)
    if plot is not None:
        _need_pygal()
    with Trail(url_of(url, accounts or Accounts({})), name) as trail, stopping() as stop:
        if summary or plot is not None:
            counted = Summary()
            for one in chosen(trail, run):
                counted.take(answer(trail, one, question), one.generation)
            if plot is not None:
                from pagelog.cli.trail_plot import draw

                try:
                    draw(counted, f"Trail of {name}", plot)
                except OSError as error:
                    fail(f"{plot}: {error.strerror}")
            if summary:
                _show_summary(counted, as_json)
            return
        for found in _lines(trail, run, question, follow, stop):
            click.echo(_json(found) if as_json else _words(found))


def _export(
    name: str,
    url: str | None,
    accounts: Accounts | None,
    run: int | None,
    folder: Path,
    start: Start | None,
    texts: tuple[Path, ...],
) -> None:
    """Writes the lists that are chosen into the folder."""
    where = url_of(url, accounts or Accounts({}))
    with ExitStack() as stack:
        trail = stack.enter_context(Trail(where, name))
        archive, store = _archive(where, name, stack), None if accounts is None else accounts.store
        known = [text.read_bytes() for text in texts]
        export_lists(trail, chosen(trail, run), archive, store, folder, start, known)


def _times(since: str | None, until: str | None) -> tuple[int | None, int | None]:
    now = datetime.now()
    try:
        first = moment(since, None, now) if since else None
        last = moment(until, first, now) if until else None
    except ValueError as error:
        raise click.UsageError(f"a time is as {FORMS}: {error}")
    return (micros(first) if first else None), (micros(last) if last else None)


def _operation(word: str | None) -> Operation | None:
    return next((operation for operation in Operation if operation.word == word), None)


def _need_pygal() -> None:
    try:
        import pygal  # noqa: F401
    except ModuleNotFoundError as error:
        fail(f"--plot needs {error.name}: apt-get install python3-pygal")


def _lines(
    trail: Trail, run: int | None, question: Question, follow: bool, stop: Callable[[], bool]
) -> Iterator[SeenLine | TrailList]:
    """The lines that are asked for, and each list behind its last line, if that is in the time."""
    following = {(one.id, one.of): 1 for one in chosen(trail, run)}
    is_ended: set[tuple[int, str | None]] = set()
    while not stop():
        is_last = not follow or (
            question.until is not None and 1e6 * (time.time() - _LATE) >= question.until
        )
        for one in chosen(trail, run):
            key = one.id, one.of
            yield from answer(trail, one, question, following.get(key, 1))
            following[key] = one.kept + 1
            if one.ended is not None and key not in is_ended and _is_in_time(one, question):
                is_ended.add(key)
                yield one
        if is_last:
            return
        time.sleep(0.5)


def _is_in_time(one: TrailList, question: Question) -> bool:
    ended = one.ended_seen or one.seen
    return (question.since is None or ended >= question.since) and (
        question.until is None or one.seen < question.until
    )


def _time(seen: int) -> datetime:
    return datetime.fromtimestamp(seen / 1e6).astimezone()


def _words(found: SeenLine | TrailList) -> str:
    if isinstance(found, TrailList):
        of = f" of generation {found.generation}" if found.generation else ""
        return (
            f"{_clock(found.ended_seen or found.seen)} list {found.run}{of} ends behind line {found.kept}{_run_of(found)}, seen at {_clock(found.seen)}: "
            f"{found.ended}"
        )
    return f"{_clock(found.seen)} list {found.run}: {entry_line(found.entry)}"


def _run_of(one: TrailList) -> str:
    return "" if one.of is None else f" of run {one.of.partition('/')[2]}"


def _clock(seen: int) -> str:
    return _time(seen).strftime("%Y-%m-%d %H:%M:%S.") + f"{seen // 1000 % 1000:03}"


def _json(found: SeenLine | TrailList) -> str:
    if isinstance(found, TrailList):
        fields: dict[str, Any] = {
            "seen": _time(found.ended_seen or found.seen).isoformat(),
            "list": found.run,
            "generation": found.generation,
            "of": found.of,
            "ended": found.ended,
            "last": found.kept,
            "last_seen": _time(found.seen).isoformat(),
        }
        return json.dumps(fields)
    return json.dumps(
        {"seen": _time(found.seen).isoformat(), "list": found.run, **entry_fields(found.entry)}
    )


def _show_summary(counted: Summary, as_json: bool) -> None:
    rows = [
        (_time(minute), principal, rule or "allowed", count)
        for (minute, principal, rule), count in sorted(counted.counts.items())
    ]
    if as_json:
        for when, principal, rule, count in rows:
            click.echo(
                json.dumps(
                    {
                        "minute": when.isoformat(),
                        "principal": principal,
                        "rule": rule,
                        "count": count,
                    }
                )
            )
        return
    from rich.console import Console
    from rich.table import Table

    table = Table("minute, as seen", "principal", "verdict", "lines")
    for when, principal, rule, count in rows:
        table.add_row(
            when.strftime("%Y-%m-%d %H:%M"),
            str(principal),
            rule,
            str(count),
            style="red" if rule != "allowed" else None,
        )
    Console().print(table)


# Replaying.


@click.command("replay")
@click.argument("name")
@url_option
@list_option
@start_table_option
@start_primary_option
@texts_option
@click.option(
    "--credentials",
    "accounts",
    metavar="FILE",
    callback=_accounts,
    help="With its [secondary], the blocks of the service are compared "
    "too, and pages at random; of a named database it has `to` of a keeper's lines. [archive] may have the url. "
    f"{FILE_VARIABLE} is not taken here.",
)
@db_option
@faults
def replay_word(
    name: str,
    url: str | None,
    run: int | None,
    table: Path | None,
    primary: int | None,
    texts: tuple[Path, ...],
    accounts: Accounts | None,
    db: int,
) -> None:
    """Decide every line of a trail again by the rules alone, from the start table and the archived blocks.

    The rules are those of the reference model, which shares no code with the service. Each line has to have the same verdict, section,
    row and value. The first that differs is named, and the exit status is 1. What no line holds is listed as not checked: the
    block of a denied or annulled write, and the text of a denied table. Where a service began with images, its first blocks are
    made of these again, and some images of what was archived before them.

    \b
    Examples:
      pagelogctl replay shop --url sqlite:///db0.db --table t0.toml --primary 2
      pagelogctl replay shop --credentials keeper.toml
    """
    start, more = start_of(table, primary), [text.read_bytes() for text in texts]
    where = url_of(url, accounts or Accounts({}))
    with ExitStack() as stack:
        trail = stack.enter_context(Trail(where, name))
        archive, store = _archive(where, name, stack), None if accounts is None else accounts.store
        for one in chosen(trail, run):
            with nullcontext() if archive is None else log_of(trail, archive, one, store) as log:
                with bar(f"list {one.run}") as told:
                    done = replay(trail, one, log, start=start, texts=more, told=told)
                _say_replayed(one, done, is_last=one == trail.lists()[-1])
                if log is not None and log.made:
                    _compare_images(log)
                if (
                    accounts is not None
                    and Role.SECONDARY in accounts.of_role
                    and archive is not None
                    and log is not None
                    and one.ended is None
                ):
                    _compare(
                        log, _reader(accounts, db, archive, one), min(done.hard, done.archived)
                    )


def _archive(url: str, name: str, stack: ExitStack) -> Archive | None:
    try:
        return stack.enter_context(Archive(url, name, is_read=True))
    except NoArchive as error:
        click.echo(f"pagelogctl: {error}: no block is compared", err=True)
        return None


def _compare_images(log: Log) -> None:
    alike = log.compare_images()
    if alike is None:
        click.echo("  not checked: what the images are made of, which is pruned")
    else:
        click.echo(
            f"  blocks 1 to {log.made} are made of images; {alike} of these are compared with the blocks before"
        )


def _reader(accounts: Accounts, db: int, archive: Archive, one: TrailList) -> Reader | None:
    """A reader of the service of a list. That of a named database is where the keepers say, if it is of this generation still."""
    if not archive.is_kept:
        return client(Reader, accounts, db)
    account = accounts.account(Role.SECONDARY)
    place = Keepers(archive.log, [str(account.to)], timeout(), account.trust).place()
    if place.generation != one.generation or one.of not in (None, place.of):
        return None
    run = NamedAccount(archive.log, account.credentials.id, account.credentials.token.hex()).of(
        place
    )
    return Reader(
        Connection(place.address, timeout=timeout(), attempts=8, trust=account.trust), run
    )


def _compare(log: Log, reader: Reader | None, last: int) -> None:
    """The service has the blocks of the archive, and makes pages of them."""
    if reader is None or log.first > 1:
        click.echo(
            "  not checked: the service's own blocks: "
            + ("it has another generation" if reader is None else "the first are pruned")
        )
        return
    with reader:
        wanted = (Block.decode(data) for data in islice(log.blocks(), last) if data is not None)
        blocks = compare(all_blocks(reader, 1, last), wanted)
        pages = compare_pages(log, reader, last)
    click.echo(
        f"{blocks} blocks and {pages.alike} pages of the service are those of the archive; {pages.denied} more pages are denied "
        "by the table"
    )


def _say_replayed(one: TrailList, done: Replayed, *, is_last: bool) -> None:
    click.echo(
        f"list {one.run}: {done.lines} lines are decided likewise; epoch {done.epoch}, {done.hard} blocks hardened, "
        f"{done.blocks} of them archived, which fit; digest {one.digest.hex()[:16]}"
    )
    for what, count in sorted(done.unchecked.items()):
        click.echo(f"  not checked: {count} lines, which depend on {what}")
    if done.first > 1:
        click.echo(
            f"  not checked: blocks 1 to {done.first - 1} are pruned, or made of images that are"
        )
    if done.archived > done.hard and (is_last or one.generation):
        click.echo(
            f"  not checked: blocks {done.hard + 1} to {done.archived} are archived, and the trail ends before they were hardened"
        )
    if done.hard > done.archived:
        click.echo(
            f"  not checked: blocks {done.archived + 1} to {done.hard} are hardened by the trail, and not archived"
        )
    if one.ended:
        click.echo(f"  the list ended: {one.ended}")
    sys.stdout.flush()
