"""An archive: the hardened blocks of a log, by LSN, in SQLite or PostgreSQL, which a URL says.

One archive can keep many logs, each under a name. Of each it has every block from LSN 1 to the *archived LSN*, also those
without records, which no pull serves. A batch of blocks and the archived LSN are one transaction, so whatever ends the
archiver, all blocks up to the archived LSN are there, and none twice.
"""

from __future__ import annotations

import time
import zlib
from dataclasses import dataclass
from typing import Callable, Iterator, Sequence

from pagelog.archive import tables
from pagelog.archive.engine import engine_of
from pagelog.archive.session import Engine, Row, SqlSession, bytes_of
from pagelog.archive.url import ArchiveError as ArchiveError, file_is_missing, parsed_url
from pagelog.block import HIGHEST_LSN, Block
from pagelog.closing import Closable
from pagelog.faults import BlockFault

DEFAULT_URL = "sqlite:///pagelog-archive.db"
"""Where an archive is kept if nothing else is said: one file of SQLite in the folder that one is in."""
FORMAT = 1
"""The number of the tables' form, which each log of an archive carries."""
KEPT_FORMATS = (2, 3)
"""Those of a named database, which its keepers write, and which may only be read here."""
_READ_SIZE = 512
_TRIES = 5


class NoArchive(ArchiveError):
    """There is no log of this name in the archive, or no archive at the URL."""


class OtherArchiver(ArchiveError):
    """Another archiver has moved the archived LSN meanwhile. Nothing of the batch was kept."""


class DamagedArchive(ArchiveError):
    """A block of the archive is missing, or is not the one that was kept. `lsn` is its LSN."""

    def __init__(self, lsn: int, what: str) -> None:
        self.lsn = lsn
        super().__init__(f"the archive is broken at LSN {lsn}: {what}")


@dataclass(frozen=True)
class Sizes:
    """How much an archive has of a log: `blocks`, of which `empty` have no records, and their `bytes`."""

    blocks: int
    empty: int
    bytes: int


class Archive(Closable):
    """The archive of one log. A database error is an exception of psycopg or sqlite3, and then nothing of a batch was kept."""

    def __init__(
        self, url: str, log: str = "0", *, create: bool = False, is_read: bool = False
    ) -> None:
        """Opens the archive of the log of this name; with `create` makes what is not there. Raises `NoArchive`.

        With `is_read` the log may be a named database: who says so keeps nothing.
        """
        self.log = log
        self.is_kept = False
        """Whether it is of a named database, which has generations."""
        self._formats = (FORMAT, *KEPT_FORMATS) if is_read else (FORMAT,)
        if not create and file_is_missing(url):
            raise NoArchive("there is no archive at this URL")
        self.shown = parsed_url(url).shown
        """The URL without its password."""
        self.engine = engine_of(url)
        try:
            self.id = self._make() if create else self._find(False)
        except UnicodeDecodeError as error:  # SQLite quotes the damage
            self.close()
            raise ArchiveError(
                "the archive's tables cannot be read: its file is damaged"
            ) from error
        except BaseException:
            self.close()
            raise

    def close(self) -> None:
        """Closes all connections to the database."""
        self.engine.close()

    def _make(self) -> int:
        """Makes what is not there. Where another does so at the same time, it is looked for again."""
        for _ in range(_TRIES):
            try:
                self.engine.make(tables.TABLES)
                return self._find(True)
            except self.engine.error:
                time.sleep(0.05)
        self.engine.make(tables.TABLES)
        return self._find(True)

    def _find(self, create: bool) -> int:
        try:
            found = self._made() if create else self._log(self.engine)
        except self.engine.error as error:
            if create or not tables_are_missing(self.engine):
                raise
            raise NoArchive("there is no archive at this URL") from error
        if found is None:
            raise NoArchive(
                f"the archive has no log {self.log!r}: it has {', '.join(self._names()) or 'none'}"
            )
        id, form = found
        self.is_kept = form in KEPT_FORMATS
        if form not in self._formats:
            raise ArchiveError(f"the log has format {form}, and this program reads {FORMAT}")
        return int(id)

    def _made(self) -> Row | None:
        """The log, which is made where it is not there."""
        if found := self._log(self.engine):
            return found
        with self.engine.begin() as session:
            session.change(tables.NEW_LOG, name=self.log, format=FORMAT)
            return self._log(session)

    def _log(self, asked: Engine | SqlSession) -> Row | None:
        return next(iter(asked.rows(tables.LOG, name=self.log)), None)

    def _names(self) -> list[str]:
        return [repr(name) for [name] in self.engine.rows(tables.NAMES)]

    @property
    def archived(self) -> int:
        """The archived LSN: every block from 1 to it is kept. 0 at the beginning."""
        archived = self.engine.value(tables.ARCHIVED, log=self.id)
        if not isinstance(archived, int):
            raise ArchiveError(
                f"the archived LSN is {archived!r}, which is no number: the archive is damaged"
            )
        return archived

    @property
    def epoch(self) -> int:
        """The highest epoch that an archiver has seen, 0 at the beginning. A restored service has to be above it."""
        epoch = self.engine.value(tables.EPOCH, log=self.id)
        if not isinstance(epoch, int):
            raise ArchiveError(
                f"the epoch is {epoch!r}, which is no number: the archive is damaged"
            )
        return epoch

    def note_epoch(self, epoch: int) -> None:
        """Keeps an epoch that was seen, if it is higher than those before."""
        with self.engine.begin() as session:
            session.change(tables.NOTE_EPOCH, log=self.id, epoch=epoch)

    def keep(self, blocks: Sequence[Block], epoch: int) -> int:
        """Keeps a batch, which has every LSN from the archived one on, in one transaction. Returns the archived LSN.

        Raises `OtherArchiver` where the archive has moved on meanwhile, and `ValueError` where an LSN is left out.
        """
        if not blocks:
            return self.archived
        first, last = blocks[0].lsn, blocks[-1].lsn
        if [block.lsn for block in blocks] != list(range(first, last + 1)):
            raise ValueError(f"the batch does not have every LSN from {first} to {last}")
        rows = [(self.id, block.lsn, zlib.crc32(block.data), block.data) for block in blocks]
        with self.engine.begin() as session:
            if (
                session.change(tables.MOVE, log=self.id, before=first - 1, last=last, epoch=epoch)
                != 1
            ):
                raise OtherArchiver(f"the archived LSN is not {first - 1} any more")
            session.insert(tables.KEEP, rows)
        return last

    def blocks(self, first: int = 1, last: int = HIGHEST_LSN) -> Iterator[Block]:
        """The blocks from LSN `first` to `last`, both included, or to the archived LSN, each of them checked.

        Raises `DamagedArchive` for the first that is missing or damaged.
        """
        last = min(last, self.archived)
        while first <= last:
            upto = min(last, first + _READ_SIZE - 1)
            yield from self._read(first, upto)
            first = upto + 1

    def _read(self, first: int, last: int) -> Iterator[Block]:
        batch, wanted = {"log": self.id, "first": first, "last": last}, range(first, last + 1)
        rows = self.engine.rows(tables.BLOCKS, **batch)
        found = (
            wanted
            if len(rows) == len(wanted)
            else [lsn for [lsn] in self.engine.rows(tables.LSNS, **batch)]
        )
        for lsn, at, (crc, data) in zip(wanted, found, rows):
            if at != lsn:
                raise DamagedArchive(lsn, "it is missing")
            yield _block(lsn, crc, data)
        if len(rows) < len(wanted):
            raise DamagedArchive(first + len(rows), "it is missing")

    def bytes(self) -> int:
        """How many bytes the blocks have. The database adds them up."""
        return int(self.engine.value(tables.SIZE, log=self.id))

    def check(
        self, last: int = HIGHEST_LSN, *, told: Callable[[int, int], None] = lambda _, __: None
    ) -> Sizes:
        """Reads every block, or those up to LSN `last`, and counts them. Raises `DamagedArchive`."""
        blocks, empty, size, end = 0, 0, 0, min(last, self.archived)
        for block in self.blocks(1, end):
            blocks, empty, size = blocks + 1, empty + block.is_empty, size + len(block.data)
            if blocks % _READ_SIZE == 0:
                told(blocks, end)
        if last >= self.archived:
            self._check_above()
        return Sizes(blocks, empty, size)

    def _check_above(self) -> None:
        lsn = self.engine.value(tables.FIRST_ABOVE, log=self.id)
        if lsn is not None:
            raise DamagedArchive(lsn, "a block is kept above the archived LSN")


def _block(lsn: int, crc: object, value: object) -> Block:
    try:
        data = bytes_of(value)
    except TypeError as error:
        raise DamagedArchive(lsn, "it is no bytes") from error
    if zlib.crc32(data) != crc:
        raise DamagedArchive(lsn, "its bytes are not those that were kept")
    try:
        block = Block.decode(data)
    except BlockFault as fault:
        raise DamagedArchive(lsn, str(fault)) from fault
    if block.lsn != lsn:
        raise DamagedArchive(lsn, f"the block there says that it has LSN {block.lsn}")
    return block


def tables_are_missing(engine: Engine) -> bool:
    """Whether the database has no archive."""
    try:
        return not engine.has_table(tables.LOGS)
    except engine.error:
        return False
