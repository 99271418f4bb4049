"""A trail in SQLite or PostgreSQL, beside the archive of the same log.

A trail has *lists*: one for each audit list that was followed, since a service that is restarted begins a new one. A list
has *pieces*: the lines that one reply brought, with the one time at which they were seen. A piece and the number of the last
line are one transaction, so whatever ends the keeper, all lines up to that number are there, and none twice.

Each piece has a digest of itself and of the digest of the piece before it, by which damage and edits are found.
"""

from __future__ import annotations

import hashlib
import struct
import time
import zlib
from dataclasses import dataclass, replace
from datetime import datetime, timezone
from typing import Any, Callable, Iterator, Sequence

from pagelog.archive.engine import engine_of
from pagelog.archive.session import Engine, Row, bytes_of
from pagelog.archive.url import SqliteUrl, file_is_missing, parsed_url
from pagelog.closing import Closable
from pagelog.reply import LINE_SIZE
from pagelog.trail import statements
from pagelog.trail.texts import TrailError, without_tokens

FORMAT = 1
"""The number of the tables' form, which each list carries."""
NO_DIGEST = bytes(32)
"""What stands before the first piece of a list."""
_PIECES = 64
_NO_ROWS = (TypeError, ValueError)
"""What is raised where a bit is wrong, by which SQLite has a text or a number in the place of bytes, or a text in that of a number."""
_HEAD = struct.Struct(">QIQ")

_START, _ANY = 0, -1


class NoTrail(TrailError):
    """There is no trail of this name, or none at the URL."""


class OtherKeeper(TrailError):
    """Another keeper has added lines meanwhile. Nothing of the reply was kept."""


class BrokenTrail(TrailError):
    """A piece of the trail is missing, or is not the one that was kept. `line` is the number of its first line."""

    def __init__(self, line: int, what: str) -> None:
        self.line = line
        super().__init__(f"the trail is broken at line {line}: {what}")


@dataclass(frozen=True)
class Start:
    """What a database began from: the text of its first table, and its first primary."""

    table: bytes
    primary: int


@dataclass(frozen=True)
class TrailList:
    """One audit list, as far as it was seen: lines 1 to `kept`, of which the first `pruned` were taken away.

    `run` counts the lists of the log from 1. `seen` is when the last line was seen. `ended` says in words why the list got no
    more lines, and is None where it may. `of` is the database and the run that it is of, as DATABASE/RUN; None where it is of no
    named database, or an older keeper began it.
    """

    id: int
    run: int
    generation: int
    kept: int
    seen: int
    pruned: int
    digest: bytes
    ended: str | None
    ended_seen: int | None
    of: str | None = None


@dataclass(frozen=True)
class Piece:
    """Lines that were seen at one time: `count` of them, 53 bytes each, from number `first` on."""

    first: int
    seen: int
    lines: bytes

    @property
    def count(self) -> int:
        return len(self.lines) // LINE_SIZE


@dataclass(frozen=True)
class PieceRow:
    """A piece as it is kept. Raises one of `_NO_ROWS` where a column is of another type."""

    first: int
    count: int
    seen: int
    before: bytes
    digest: bytes
    data: bytes

    @classmethod
    def of(cls, row: Row) -> PieceRow:
        """That of a row."""
        first, count, seen, before, digest, data = row
        return cls(
            int(first), int(count), int(seen), bytes_of(before), bytes_of(digest), bytes_of(data)
        )

    def piece(self) -> Piece:
        """Its lines, which are those that were kept. Raises `BrokenTrail`."""
        try:
            lines = zlib.decompress(self.data)
            is_whole = len(lines) == self.count * LINE_SIZE
            is_kept = (
                is_whole and digest_of(self.before, self.first, self.seen, lines) == self.digest
            )
        except (zlib.error, struct.error) as error:
            raise BrokenTrail(self.first, "its bytes are not those that were kept") from error
        if not is_kept:
            raise BrokenTrail(self.first, "its lines are not those that were kept")
        return Piece(self.first, self.seen, lines)


def digest_of(before: bytes, first: int, seen: int, lines: bytes) -> bytes:
    """The digest of a piece behind the one with the digest `before`."""
    return hashlib.sha256(
        before + _HEAD.pack(first, len(lines) // LINE_SIZE, seen) + lines
    ).digest()


def piece_behind(one: TrailList, lines: bytes, seen: int) -> tuple[dict[str, Any], TrailList]:
    """The row of a piece with these lines, which come behind the last one of a list, and the list as it is with them. They are seen
    at this time or at that of the last line, whichever is later."""
    seen = max(seen, one.seen)
    first, count = one.kept + 1, len(lines) // LINE_SIZE
    digest = digest_of(one.digest, first, seen, lines)
    piece = {
        "list": one.id,
        "first": first,
        "count": count,
        "seen": seen,
        "day": day_of(seen),
        "before": one.digest,
        "digest": digest,
        "data": zlib.compress(lines, 1),
    }
    return piece, replace(one, kept=one.kept + count, seen=seen, digest=digest)


def day_of(seen: int) -> str:
    """The day of a time, in UTC, as 2026-11-28. Times are in microseconds since 1970."""
    return datetime.fromtimestamp(seen / 1e6, timezone.utc).strftime("%Y-%m-%d")


class Trail(Closable):
    """The trail of one log. A database error is an exception of psycopg or sqlite3, and then nothing of a reply was kept."""

    def __init__(
        self,
        url: str,
        log: str = "0",
        *,
        create: bool = False,
        engine: Engine | None = None,
        database: str | None = None,
    ) -> None:
        """Opens the trail of the log of this name; with `create` makes what is not there. Raises `NoTrail`.

        `engine` is one of this URL that trails share. None of them closes it. `database` is the identity of a named database, by
        default of the one that has the name.
        """
        self.url = url
        self.log = log
        self._is_shared = engine is not None
        self._has_runs = True
        if not create and file_is_missing(url):
            raise NoTrail("there is no archive at this URL")
        self.engine = engine or engine_of(url)
        try:
            self.database = database or self._identity()
            if create:
                _make(self.engine)
            elif not self._is_there() or not self.lists():
                raise NoTrail(f"there is no trail of {log!r} at this URL")
        except BaseException:
            self.close()
            raise

    def close(self) -> None:
        """Closes all connections to the database, if they are its own."""
        if not self._is_shared:
            self.engine.close()

    def _identity(self) -> str | None:
        """That of the named database that has the name of the log, if it is one, and if the role may see that."""
        if isinstance(parsed_url(self.url), SqliteUrl):
            return None
        found = (
            self.engine.rows(statements.IDENTITY, log=self.log)
            if self.engine.value(statements.MAY_LOOK)
            else []
        )
        return None if not found or found[0][0] is None else str(found[0][0])

    def _is_there(self) -> bool:
        """Whether there are trails. Those of an older version say of no list whose it is."""
        if not self.engine.has_table(statements.LISTS):
            return False
        self._has_runs = self.engine.has_column(statements.LISTS, statements.OF_RUN)
        return True

    # Lists.

    def lists(self) -> list[TrailList]:
        """The lists of this log, in the order in which they began. Of a named database those are left out that are of another one."""
        try:
            return [_list(row) for row in self._rows_of_lists()]
        except _NO_ROWS as error:
            raise TrailError("the trail's tables cannot be read: they are damaged") from error

    def _rows_of_lists(self) -> list[Row]:
        if not self._has_runs:
            rows = self.engine.rows(statements.LISTS_OF_OLDER, log=self.log)
        elif self.database is None:
            rows = self.engine.rows(statements.LISTS_OF_LOG, log=self.log)
        else:
            rows = self.engine.rows(
                statements.LISTS_OF_DATABASE, log=self.log, of=f"{self.database}/%"
            )
        if rows and rows[-1][0] != FORMAT:
            raise TrailError(f"the trail has format {rows[-1][0]}, and this program reads {FORMAT}")
        return rows

    def begin(
        self,
        *,
        generation: int = 0,
        start: Start | None = None,
        tables: Sequence[bytes] = (),
        of: str | None = None,
    ) -> TrailList:
        """Begins a list without lines, which may set these tables, in one transaction. The one before it has to have ended. `of` is
        the database and the run, of a named database."""
        before = self.lists()
        if before and before[-1].ended is None:
            raise TrailError(f"list {before[-1].run} has not ended")
        number = (
            int(self.engine.value(statements.LAST_RUN, log=self.log)) + 1
        )  # of whichever database
        values = {
            "log": self.log,
            "run": number,
            "format": FORMAT,
            "generation": generation,
            "of": of,
            "digest": NO_DIGEST,
            "seen": before[-1].seen if before else 0,
            "primary": None if start is None else start.primary,
        }
        texts = ([(start.table, _START)] if start is not None else []) + [
            (text, _ANY) for text in dict.fromkeys(tables)
        ]
        try:
            with self.engine.begin() as session:
                id = session.value(statements.NEW_LIST, **values)
                for text, line in texts:
                    session.change(statements.NEW_TEXT, **_text(id, text, line))
        except self.engine.integrity_error as error:
            raise OtherKeeper(f"another keeper has begun list {number}") from error
        return self.lists()[-1]

    def claim(self, one: TrailList, of: str) -> TrailList:
        """An older keeper began this list, and its lines are those of this run: says so."""
        with self.engine.begin() as session:
            session.change(statements.CLAIM, **_whose(one), kept=one.kept, claimed=of)
        return replace(one, of=of)

    def end(self, one: TrailList, why: str, seen: int) -> None:
        """The list gets no more lines, for this reason. One that has ended keeps its own."""
        with self.engine.begin() as session:
            session.change(statements.END, **_whose(one), why=why, seen=seen)

    # Tables.

    def set_start(self, one: TrailList, start: Start) -> None:
        """Says what the database of this list began from. Tokens are not kept."""
        with self.engine.begin() as session:
            session.change(statements.SET_PRIMARY, list=one.id, primary=start.primary)
            session.change(statements.DROP_TEXTS, list=one.id, line=_START)
            session.change(statements.NEW_TEXT, **_text(one.id, start.table, _START))

    def start(self, one: TrailList) -> Start | None:
        """What the database of this list began from, if that was said."""
        primary = self.engine.value(statements.PRIMARY, list=one.id)
        texts = self._texts(one, _START)
        return Start(texts[0], primary) if texts and primary is not None else None

    def give_table(self, one: TrailList, text: bytes, line: int | None = None) -> None:
        """Keeps the text of a table that was set, but for its tokens: by this line of the list, or by one whose length it has."""
        values = _text(one.id, text, _ANY if line is None else line)
        with self.engine.begin() as session:
            if not session.rows(
                statements.HAS_TEXT, **{name: values[name] for name in ("list", "line", "digest")}
            ):
                session.change(statements.NEW_TEXT, **values)

    def texts_for(self, one: TrailList) -> tuple[Callable[[int, int], list[bytes]], set[int]]:
        """The texts that a line may have set, by its number and length: the one that was given for it, or all of its length. And the
        lines for which one was given.

        What is there now is looked up once: a statement takes as long as a hundred lines do.
        """
        given = {
            line for [line] in self.engine.rows(statements.LINES_OF_TEXTS, list=one.id, line=_START)
        }
        of_any = self._texts(one, _ANY)

        def texts(line: int, length: int) -> list[bytes]:
            return (
                self._texts(one, line)
                if line in given
                else [text for text in of_any if len(text) == length]
            )

        return texts, given

    def _texts(self, one: TrailList, line: int) -> list[bytes]:
        rows = self.engine.rows(statements.TEXTS, list=one.id, line=line)
        for digest, text in rows:
            if hashlib.sha256(bytes_of(text)).hexdigest() != digest:
                raise BrokenTrail(max(line, 0), "the text of a table is not the one that was kept")
        return [text for _, text in rows]

    # Lines.

    def keep(self, one: TrailList, lines: bytes, seen: int) -> TrailList:
        """Keeps the lines after the last one of the list, in one transaction, as seen at this time or at that of the last one,
        whichever is later. Returns the list as it is then. Raises `OtherKeeper`.
        """
        if not lines:
            return one
        piece, after = piece_behind(one, lines, seen)
        moved = {"before": one.kept, "kept": after.kept, "seen": after.seen, "digest": after.digest}
        with self.engine.begin() as session:
            if session.change(statements.MOVE, **_whose(one), **moved) != 1:
                raise OtherKeeper(f"list {one.run} does not end at line {one.kept} any more")
            session.change(statements.NEW_PIECE, **piece)
        return after

    def pieces(
        self, one: TrailList, first: int = 1, *, since: int | None = None, until: int | None = None
    ) -> Iterator[Piece]:
        """The pieces of a list that end at line `first` or behind it, of this time if one is given, each of them checked, and the one
        before them too. Those that are pruned meanwhile are left out.

        Raises `BrokenTrail` for the first that is missing or damaged.
        """
        last: PieceRow | None = None
        at = self._first_piece(one, first, since)
        while rows := self._rows(one, at):
            for row in rows:
                self._check_place(one, row, last, at == 0 and row.first > first)
                piece = row.piece()
                if until is not None and piece.seen >= until:
                    return
                if since is None or piece.seen >= since:
                    yield piece
                last = row
            at = rows[-1].first + 1
            if len(rows) < _PIECES:
                break
        if last is None and one.kept > one.pruned and first <= one.kept:
            raise BrokenTrail(one.pruned + 1, "it is missing")
        if last is not None and last.digest != one.digest:
            raise BrokenTrail(last.first + last.count, "what is behind it is missing")

    def _rows(self, one: TrailList, at: int) -> list[PieceRow]:
        """Some rows of a list's pieces, from this number on."""
        rows = self.engine.rows(
            statements.PIECES, list=one.id, first=at, last=one.kept, count=_PIECES
        )
        try:
            return [PieceRow.of(row) for row in rows]
        except _NO_ROWS as error:
            raise BrokenTrail(max(at, 1), "it cannot be read") from error

    def _check_place(
        self, one: TrailList, row: PieceRow, last: PieceRow | None, is_late: bool
    ) -> None:
        """Raises where a piece is missing before this one, which comes behind `last` or is the first, and was not pruned meanwhile."""
        if last is None and (not is_late or row.first <= one.pruned + 1):
            return
        if last is not None and row.first == last.first + last.count and row.before == last.digest:
            return
        pruned = int(self.engine.value(statements.PRUNED, list=one.id))
        wanted = one.pruned + 1 if last is None else last.first + last.count
        if not wanted < row.first <= pruned + 1:
            raise BrokenTrail(
                wanted, "it is missing" if last is None else "the next piece is not behind it"
            )

    def _first_piece(self, one: TrailList, line: int, since: int | None) -> int:
        """The first number of the piece that this line is in, or of the last one that was seen before this time if that is later."""
        first = int(self.engine.value(statements.FIRST_TO, list=one.id, line=line))
        return (
            first
            if since is None
            else max(
                first, int(self.engine.value(statements.FIRST_BEFORE, list=one.id, seen=since))
            )
        )

    def lines(self, one: TrailList, first: int) -> bytes:
        """The bytes of the lines from number `first` on, without the pruned ones."""
        found = b""
        for piece in self.pieces(one, first):
            found += piece.lines[max(0, first - piece.first) * LINE_SIZE :]
        return found

    # Seals.

    def seals(self) -> dict[int, bytes]:
        """The digests of the archived blocks of this log, from LSN 1 to each of these."""
        return {
            lsn: bytes_of(digest)
            for lsn, digest in self.engine.rows(statements.SEALS, log=self.log)
        }

    def keep_seal(self, lsn: int, digest: bytes) -> None:
        """Keeps the digest up to an LSN. Raises `OtherKeeper` where there is one."""
        try:
            with self.engine.begin() as session:
                session.change(statements.NEW_SEAL, log=self.log, lsn=lsn, digest=digest)
        except self.engine.integrity_error as error:
            raise OtherKeeper(f"another keeper has sealed LSN {lsn}") from error

    # Pruning.

    def older(self, before: int) -> list[tuple[TrailList, int]]:
        """Each list that has pieces of days before that of this time, and the last line of these. The last piece of a list stays."""
        found = []
        for one in self.lists():
            last = self.engine.value(
                statements.LAST_OLDER, list=one.id, day=day_of(before), kept=one.kept
            )
            if last is not None:
                found.append((one, int(last)))
        return found

    def prune(self, before: int) -> int:
        """Takes away the pieces of all days before that of this time, but the last piece of a list. Returns how many lines went.

        A list without its beginning cannot be replayed.
        """
        gone = 0
        for one, last in self.older(before):
            with self.engine.begin() as session:
                session.change(statements.DROP_PIECES, list=one.id, last=last)
                session.change(statements.SET_PRUNED, list=one.id, last=last)
            gone += last - one.pruned
        return gone


def _list(row: Row) -> TrailList:
    _, id, run, generation, kept, seen, pruned, digest, ended, ended_seen, of = row
    return TrailList(
        id=id,
        run=run,
        generation=generation,
        kept=kept,
        seen=seen,
        pruned=pruned,
        digest=bytes_of(digest),
        ended=ended,
        ended_seen=ended_seen,
        of=of,
    )


def _whose(one: TrailList) -> dict[str, object]:
    """That a row is this list's, as the statements that change one ask it."""
    return {"list": one.id, "of": one.of or ""}


def _text(id: int, text: bytes, line: int) -> dict[str, Any]:
    hidden = without_tokens(text)
    return {"list": id, "line": line, "digest": hashlib.sha256(hidden).hexdigest(), "text": hidden}


def _make(engine: Engine) -> None:
    """Makes what is not there. Where another does so at the same time, it is looked for again."""
    try:
        _make_all(engine)
    except engine.error:
        time.sleep(0.1)
        _make_all(engine)


def _make_all(engine: Engine) -> None:
    engine.make(statements.TABLES)
    if not engine.has_column(statements.LISTS, statements.OF_RUN):  # an older version has made it
        with engine.begin() as session:
            session.change(statements.ADD_OF_RUN)
