"""Writes lists of a trail as files for the program pagelog-verify. docs/FORMATS.md has their form."""

from __future__ import annotations

import errno
import os
import shutil
from contextlib import AbstractContextManager, contextmanager
from dataclasses import dataclass, replace
from pathlib import Path
from typing import BinaryIO, Callable, Iterable, Iterator, Sequence

from pagelog.objects.place import sync_folder
from pagelog.reply import Kind
from pagelog.request import AUDIT_MAX
from pagelog.trail.logs import Log
from pagelog.trail.replay import ListBeginning, Difference, TrailReplay, Told, beginning, lines_of
from pagelog.trail.store import Start, Trail, TrailList
from pagelog.trail.texts import TrailError
from pagelog_model import wire
from pagelog_model.lines import ModelLine
from pagelog_model.rules import ALLOWED, Verdict

Logs = Callable[[TrailList], AbstractContextManager[Log | None]]
"""The log of a list, which is open as long as it is read."""

_LINES, _BLOCK, _TEXT = b"\0", b"\1", b"\2"
"""What a line of the file begins with."""


class NotExportable(TrailError):
    """The blocks of a list are pruned, so that no database can be shown to have its lines."""


class _Unarchived(Exception):
    """A line hardens a block that is not archived."""


@dataclass(frozen=True)
class Exported:
    """What was written of a list: its first table, its first primary, and its lines 1 to `lines` with so many blocks and texts.

    The next line hardens LSN `unarchived`, which is not archived; None if all lines are written. The reference model decides line `differs`
    otherwise, if there is one.
    """

    run: int
    table: Path
    primary: int
    trail: Path
    lines: int
    blocks: int
    texts: int
    unarchived: int | None
    differs: int | None


def export(
    trail: Trail,
    lists: Sequence[TrailList],
    logs: Logs,
    folder: Path,
    *,
    start: Start | None = None,
    texts: Iterable[bytes] = (),
    told: Told = lambda _, __: None,
) -> list[Exported]:
    """Writes each list into a folder that is not there yet. It is there when all is written, or not at all.

    Raises `NotExportable`, and what `replay` does, but for `Difference`. Memory: what a replay holds, a number for each epoch, and for
    each line that brings a text.
    """
    _check_free(folder)
    made = folder.with_name(f".{folder.name}.{os.getpid()}")
    made.mkdir()
    try:
        done = []
        for one in lists:
            begun = beginning(trail, one, start, texts)
            with logs(one) as log:
                done.append(_List(trail, one, begun, log, made, told).write())
        sync_folder(made)
        _check_free(folder)
        made.rename(folder)
        sync_folder(folder.parent)
    finally:
        shutil.rmtree(made, ignore_errors=True)
    return [
        replace(each, table=folder / each.table.name, trail=folder / each.trail.name)
        for each in done
    ]


class _List:
    """A list that is written."""

    def __init__(
        self,
        trail: Trail,
        one: TrailList,
        begun: ListBeginning,
        log: Log | None,
        folder: Path,
        told: Told,
    ) -> None:
        self._trail, self._one, self._begun, self._log = trail, one, begun, log
        self._table = folder / f"list-{one.run}.toml"
        self._file = folder / f"list-{one.run}.trail"
        self._told = told

    def write(self) -> Exported:
        """Writes its blocks, each as it is hardened, then texts, and then lines, with the number of what each brings."""
        with _new_file(self._table) as out:
            out.write(self._begun.start.table)
        with _new_file(self._file) as out:
            followed = _Follower(self._begun, self._log, out)
            last = followed.follow(self._lines(), self._one.kept)
            for text in followed.texts:
                _put(out, _TEXT, text)
            for brings, lines in _alike(self._lines(), last, followed.brings):
                _put(out, _LINES, brings.to_bytes(8, "big"), _entries(lines))
        return Exported(
            self._one.run,
            self._table,
            self._begun.start.primary,
            self._file,
            last,
            followed.blocks,
            len(followed.texts),
            followed.blocks + 1 if last < self._one.kept else None,
            followed.differs,
        )

    def _lines(self) -> Iterator[ModelLine]:
        for count, line in enumerate(lines_of(self._trail, self._one), 1):
            if count % 4096 == 0:
                self._told(count, self._one.kept)
            yield line


class _Follower(TrailReplay):
    """Decides the lines, and writes each block as it is hardened: the first block of the file has LSN 1, and so on.

    `texts` are those that lines brought. From a line that is decided otherwise on it follows no more.
    """

    def __init__(self, begun: ListBeginning, log: Log | None, out: BinaryIO) -> None:
        self._archived = iter(()) if log is None else log.blocks()
        self._out = out
        self.blocks = 0
        self.texts: dict[bytes, int] = {}
        self.differs: int | None = None
        self._brought: dict[int, int] = {}
        self._ends: list[tuple[int, int]] = []
        super().__init__(begun.start, self._as_written(), begun.texts, begun.given)

    def follow(self, lines: Iterator[ModelLine], count: int) -> int:
        """Returns the last line that can be written, of so many."""
        last = 0
        try:
            for line in lines:
                self.take(line)
                last = self._line
        except _Unarchived:
            pass
        except Difference as error:
            self.differs, last = error.line, count
        self._ends.append((last, self.blocks))
        for _ in self._archived:
            pass  # the digests of what is behind are of the blocks before, too
        return last

    def brings(self, number: int, line: ModelLine) -> int:
        """The number of what a line brings, or 0. Lines have to be asked for in their order."""
        while len(self._ends) > 1 and self._ends[0][0] < number:
            del self._ends[0]
        if line.op in (wire.WRITE, wire.OFFER) and line.verdict == ALLOWED:
            return line.a if line.a <= self._ends[0][1] else 0
        text = self._brought.get(number, 0)
        return self.blocks + text if text else 0

    def _as_written(self) -> Iterator[bytes]:
        """The archived blocks, each written as it is taken."""
        for data in self._archived:
            if data is None:
                raise NotExportable(
                    "its first blocks are pruned, or made of images that are, so that its lines cannot be verified"
                )
            _put(self._out, _BLOCK, data)
            self.blocks += 1
            yield data
        raise _Unarchived

    def _text(self, line: ModelLine, found: list[Verdict]) -> bytes | None:
        text = super()._text(line, found)
        if text is not None:
            self._brought[self._line] = self.texts.setdefault(text, len(self.texts) + 1)
        return text

    def _annul(self) -> None:
        """An epoch ends."""
        super()._annul()
        self._ends.append((self._line, self.blocks))


def _alike(
    lines: Iterator[ModelLine], last: int, brings: Callable[[int, ModelLine], int]
) -> Iterator[tuple[int, list[ModelLine]]]:
    """The lines up to the last one, as many at once as bring the same, with its number."""
    number, some = 0, list[ModelLine]()
    for count, line in enumerate(lines, 1):
        if count > last:
            break
        brought = brings(count, line)
        if some and (brought != number or len(some) == AUDIT_MAX):
            yield number, some
            some = []
        number = brought
        some.append(line)
    if some:
        yield number, some


def _entries(lines: list[ModelLine]) -> bytes:
    """The body of the reply that has these lines."""
    return (
        bytes([Kind.ENTRIES])
        + len(lines).to_bytes(2, "big")
        + b"".join((line.spelled for line in lines))
    )


def _check_free(folder: Path) -> None:
    if os.path.lexists(folder):
        raise FileExistsError(errno.EEXIST, "it is there already", str(folder))


def _put(out: BinaryIO, *parts: bytes) -> None:
    """A line of hexadecimal text."""
    out.write(b"".join(parts).hex().encode() + b"\n")


@contextmanager
def _new_file(path: Path) -> Iterator[BinaryIO]:
    """A file that is not there yet, and is on the disk behind it."""
    with path.open("xb", buffering=1 << 20) as out:
        yield out
        out.flush()
        os.fsync(out.fileno())
