"""trail --export."""

from __future__ import annotations

from contextlib import AbstractContextManager, nullcontext
from pathlib import Path
from typing import Any, Iterable, Sequence

import click

from pagelog.archive import Archive
from pagelog.cli.options import bar, fail
from pagelog.objects.settings import StoreSettings
from pagelog.trail.export import Exported, export
from pagelog.trail.logs import Log, log_of
from pagelog.trail.store import Start, Trail, TrailList


def folder_of(folder: Path, others: Iterable[Any]) -> Path:
    """The folder of --export, which goes with none of these options."""
    if any(others):
        raise click.UsageError(
            "--export goes with --list, --table, --primary and --set-table alone: it writes all lines"
        )
    return folder


def export_lists(
    trail: Trail,
    lists: Sequence[TrailList],
    archive: Archive | None,
    store: StoreSettings | None,
    folder: Path,
    start: Start | None,
    texts: Iterable[bytes],
) -> None:
    """Writes the lists into the folder, and says what was written, and what not."""

    def log(one: TrailList) -> AbstractContextManager[Log | None]:
        return nullcontext() if archive is None else log_of(trail, archive, one, store)

    try:
        with bar("export") as told:
            done = export(trail, lists, log, folder, start=start, texts=texts, told=told)
    except OSError as error:
        fail(f"{error.filename or folder}: {error.strerror}")
    for one, written in zip(lists, done):
        _say_exported(one, written)


def _say_exported(one: TrailList, written: Exported) -> None:
    click.echo(
        f"list {one.run}: wrote {written.lines} lines, {written.blocks} blocks and {written.texts} texts of tables, for\n"
        f"  pagelog-verify --table {written.table} --primary {written.primary} --trail {written.trail}"
    )
    if written.unarchived is not None:
        click.echo(
            f"  not written: lines {written.lines + 1} to {one.kept}; the first of them hardens block {written.unarchived}, which is "
            "not archived"
        )
    if written.differs is not None:
        click.echo(f"  the reference model decides line {written.differs} otherwise")
