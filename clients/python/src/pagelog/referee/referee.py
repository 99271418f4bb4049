"""The referee: every statement that keepers make of PostgreSQL.

Each is one statement that is committed by itself, so that a keeper which stands still between two never holds a lock. What
a keeper acts upon comes from a statement that writes: its commit waits for the synchronous standby, and so for all that it
has read. A plain SELECT would believe a primary that was cut off, or came back without its standby.
"""

from __future__ import annotations

import hashlib
import re
import threading
import time
import zlib
from typing import TYPE_CHECKING, Any, Iterable, Iterator, Mapping, Sequence
from uuid import uuid4

import psycopg
from psycopg.conninfo import make_conninfo

from pagelog.errors import CredentialsError
from pagelog.libpq import UnreadableUrl, count_of_hosts, options_of_url, turn_hosts
from pagelog.referee import statements
from pagelog.referee.batches import array_of, statement_of, values_of
from pagelog.referee.errors import KeeperError as KeeperError
from pagelog.referee.errors import Away as Away
from pagelog.referee.errors import Refused as Refused
from pagelog.referee.errors import Sealed as Sealed
from pagelog.referee.errors import Doubt as Doubt
from pagelog.referee.errors import OneDisk as OneDisk
from pagelog.referee.errors import Superseded as Superseded
from pagelog.referee.errors import NameInUse as NameInUse
from pagelog.referee.errors import BrokenArchive as BrokenArchive
from pagelog.referee.errors import BrokenBase as BrokenBase
from pagelog.referee.errors import Pruned as Pruned
from pagelog.referee.fate import Fate, FateRow, Of, fate_of_rows
from pagelog.referee.hosts import shut_down
from pagelog.referee.refusal import is_refusal, line_of
from pagelog.referee.rows import (
    Batch,
    Kept,
    Look,
    NamedLife,
    Origin,
    Row,
    TableOf,
    Where,
    look_of,
    row_of,
)
from pagelog.referee.schema import CHANNEL, FORMAT, FOUND, NUMBERED, VERSION, script
from pagelog.referee.sealed import Keys, NoKey, Stored

if TYPE_CHECKING:
    from pagelog.objects.settings import StoreSettings
    from pagelog.referee.through import Through

PIECE = 2048
"""How many blocks are read from the archive at once."""
LONGEST = 60.0
"""Seconds after which a read of one piece is cut, as from a server that stands still."""
NAME = re.compile(r"[A-Za-z0-9_][A-Za-z0-9_.-]{0,62}")
"""What a name of a database or a keeper may be."""


def digest(chain: bytes, blocks: Iterable[bytes]) -> bytes:
    """The digest of the blocks behind those that `chain` is the digest of; of no blocks at all it is empty."""
    for block in blocks:
        chain = hashlib.blake2b(chain + block, digest_size=16).digest()
    return chain


def options_of(url: str) -> dict[str, Any]:
    """What a URL says, by libpq's names. Raises `KeeperError`, in whose text nothing of it is: a part may be one of the password."""
    try:
        return options_of_url(url)
    except UnreadableUrl:
        raise KeeperError(
            "the url of PostgreSQL cannot be read: in a password write % as %25, @ as %40, # as %23, / as %2F, : as %3A, "
            "? as %3F"
        ) from None


class Referee:
    """One connection to PostgreSQL, made when it is needed. It is for one thread at a time, but for `cut`."""

    def __init__(
        self,
        url: str,
        me: str = "",
        run: str = "",
        *,
        patience: int = 5,
        listens: bool = False,
        requires_standby: bool = False,
        keys: Keys = Keys(),
        store: StoreSettings | None = None,
    ) -> None:
        """`me` and `run` are the name of the keeper and of its present life. `patience` is for a connect, in seconds. By `keys` tables of
        principals are sealed.

        With `listens` the notifications of releases and wishes come, too. With `requires_standby` a statement raises `OneDisk`
        unless a synchronous standby has flushed it. `store` is where blocks are that PostgreSQL has no more.
        """
        self.me = me
        self.run = run
        self._url, self._options = url, options_of(url)
        self._patience = patience
        self._listens = listens
        self._requires_standby = requires_standby
        self.keys = keys
        self._store = store
        self._through: Through | None = None
        self._lines, self._beat = "", -1
        """What was registered, and the last beat that is known of this life."""
        self._connection: psycopg.Connection[Any] | None = None
        self._warnings: list[str] = []
        self.notified = False
        """Whether a notification has come. What it says is not read: whoever may connect to the database can send one."""

    # The connection.

    def close(self) -> None:
        """Closes the connection. The next statement makes another."""
        if self._connection is not None:
            self._connection.close()
        self._connection = None
        if self._through is not None:
            self._through.close()

    def cut(self) -> None:
        """Ends a statement that hangs in another thread: its connection is shut down. A cancel would let a commit pass."""
        shut_down(self._connection)

    def turn_hosts(self) -> None:
        """The next connection tries the second host first. An old primary that still runs would be taken again and again."""
        turn_hosts(self._options)

    @property
    def descriptor(self) -> int | None:
        """The socket, which can be read where a notification has come; None without a connection."""
        connection = self._connection
        return None if connection is None or connection.closed else connection.fileno()

    @property
    def _hosts(self) -> int:
        """How many there are."""
        return count_of_hosts(self._options)

    def _connected(self) -> psycopg.Connection[Any]:
        left = self._hosts
        while self._connection is None or self._connection.closed:
            try:
                self._connect()
            except (
                Exception
            ) as error:  # also what nobody expected: a half-made connection is of no use
                self.close()
                self.turn_hosts()  # psycopg gives up at a host that is silent, as of a machine that is off
                if (left := left - 1) == 0:
                    raise Away(f"PostgreSQL: {line_of(error)}") from error
        return self._connection

    def _connect(self) -> None:
        words: dict[str, Any] = {
            "connect_timeout": self._patience,
            "target_session_attrs": "read-write",
            "keepalives_idle": 5,
            "keepalives_interval": 2,
            "keepalives_count": 3,
            "options": "-c lock_timeout=3s",
            "application_name": _session_name(self.me),
            **self._options,
        }
        made = self._connection = psycopg.connect(
            make_conninfo(**words), autocommit=True
        )  # from here on it can be cut
        made.add_notice_handler(self._take_notice)
        made.pgconn.notify_handler = (
            self._take_notification
        )  # psycopg's own would raise where the text cannot be decoded
        made.execute(statements.WAITS_FOR_STANDBY)
        if self._listens:
            made.execute(f"LISTEN {CHANNEL}")

    def take_notified(self) -> None:
        """Takes the notifications that have come without a statement, and waits for nothing."""
        if self._connection is not None:
            try:
                self._connection.pgconn.consume_input()
            except psycopg.Error:
                return  # the next statement says so
            while self._connection.pgconn.notifies() is not None:
                self.notified = True

    def _take_notification(self, _: object) -> None:
        self.notified = True

    def _take_notice(self, notice: psycopg.errors.Diagnostic) -> None:
        """A commit whose wait for the standby was cancelled succeeds, with a warning."""
        if notice.severity_nonlocalized not in ("NOTICE", "INFO", "LOG", "DEBUG"):
            self._warnings.append(str(notice.message_primary))

    def _ask(
        self,
        statement: str,
        values: Mapping[str, Any] | Sequence[Any] = (),
        *,
        binary: bool = False,
    ) -> list[Any]:
        """The rows of one statement that is committed by itself. Raises `Away`, `Refused` or `Doubt`."""
        connection = self._connected()
        self._warnings.clear()
        try:
            rows = connection.execute(statement, values or None, binary=binary).fetchall()
        except Exception as error:
            raise self._meaning(error) from error
        self._check_warnings()
        if self._requires_standby and rows:  # else nothing was changed
            self._confirm(connection)
        return rows

    def _ask_bounded(
        self, statement: str, values: Mapping[str, Any] | Sequence[Any], *, binary: bool = False
    ) -> list[Any]:
        """As `_ask`, for a thread that nobody else cuts."""
        hangs = threading.Timer(LONGEST, self.cut)
        hangs.start()
        try:
            return self._ask(statement, values, binary=binary)
        finally:
            hangs.cancel()

    def _meaning(self, error: Exception) -> Refused | Doubt:
        """What is to be raised for an error. After a doubt, or a lock that is not to be had, the next statement has another connection:
        of an error that nobody expected it may have a part of the statement still."""
        refuses = (
            isinstance(error, psycopg.Error) and is_refusal(error) and self.descriptor is not None
        )
        if not refuses or isinstance(error, psycopg.errors.LockNotAvailable):
            # An old primary that goes on without its standby holds the locks of what waits for that, for ever.
            self.close()
            self.turn_hosts()
        text = f"PostgreSQL: {line_of(error)}"
        return Refused(text) if refuses else Doubt(text)

    def _check_warnings(self) -> None:
        if self._warnings:
            raise Doubt(f"PostgreSQL: {self._warnings[0]}")

    def _confirm(self, connection: psycopg.Connection[Any]) -> None:
        """Returns once a synchronous standby has all that is flushed here. A commit alone does not say so: it waits for none where
        `synchronous_standby_names` is empty, and stops to wait, without a warning, where that becomes empty.
        """
        wanted: int | None = None
        while True:
            try:
                [[flushed, reached]] = connection.execute(statements.REACHED).fetchall()
            except Exception as error:
                self.close()
                self.turn_hosts()
                raise Doubt(f"PostgreSQL: {line_of(error)}") from error
            if reached is None:
                raise OneDisk(
                    "nothing becomes durable: a synchronous standby is required, and this role sees none in PostgreSQL"
                )
            wanted = flushed if wanted is None else wanted
            if reached >= wanted:
                return
            time.sleep(0.002)  # it is connected, and has not reported yet

    # What is there.

    def prepare(self) -> None:
        """Brings the tables to this version, step by step. Where they have it, or a later one, no lock is taken, nor is a right to make
        any needed."""
        version = self._version()
        if version >= VERSION:
            return
        try:
            self._connected().execute(script(version))
        except KeeperError:
            raise
        except Exception as error:
            self.close()
            may = not isinstance(error, psycopg.errors.InsufficientPrivilege)
            raise Refused(
                f"PostgreSQL: {line_of(error)}"
                if may
                else f"{_older_tables(version)}; {line_of(error)}"
            ) from error

    def _version(self) -> int:
        """That of the tables; 0 where there are none."""
        [[version]] = self._ask(FOUND)
        return int(version if version >= 0 else self._ask(NUMBERED)[0][0])

    def claim(
        self, lines: str, over: Sequence[str] = (), seen: NamedLife | None = None
    ) -> NamedLife | None:
        """Takes the keeper's name for this life of it: where nobody has it, or a life that is `over` or this one, or one that is as it
        was `seen`. Else returns who has it."""
        values = {
            "me": self.me,
            "run": self.run,
            "lines": lines,
            "over": [*over, self.run],
            "seen_run": None if seen is None else seen.run,
            "seen_beat": None if seen is None else seen.beat,
        }
        if found := self._ask(statements.CLAIM, values):
            self._lines, self._beat = lines, found[0][0]
            return None
        return next(
            (NamedLife(*row) for row in self._ask(statements.NAMED, {"me": self.me})),
            NamedLife("", "", -1),
        )

    def register(self, lines: str, most: int = (1 << 63) - 1) -> None:
        """Takes the keeper's name for this life of it, from one whose beat is at most that. An earlier one that still runs finds itself
        superseded."""
        found = self._ask(
            "INSERT INTO pagelog_keeper (name, run, lines) VALUES (%s, %s, %s) ON CONFLICT (name) DO UPDATE "
            "SET run = excluded.run, lines = excluded.lines, beat = pagelog_keeper.beat + 1 "
            "WHERE pagelog_keeper.beat <= %s RETURNING beat",
            (self.me, self.run, lines, most),
        )
        self._lines, self._beat = lines, found[0][0] if found else self._beat

    def look(
        self, reached: Mapping[int, int] = {}, report: str | None = None, secure: str | None = None
    ) -> Look:
        """Raises the own beat, says how far the own standbys are, and `secure` of the own lines, and returns all there is.

        Raises `Superseded` where another keeper has the name by now: a later instance's beat is above all of this one. An old primary that
        goes on knows a previous instance at most, or none, and says so at once, since it has nothing to wait for: another host is asked.
        Where all know no more, PostgreSQL went back, and the name is taken again.
        """
        values = {
            "me": self.me,
            "run": self.run,
            "report": report,
            "secure": secure,
            "logs": array_of(reached),
            "reached": array_of(reached.values()),
        }
        for _ in range(self._hosts):
            for beat, *found in self._ask(statements.LOOK, {**values, "beat": self._beat}):
                if beat is None:
                    raise Superseded(f"another keeper has the name {self.me}")
                self._beat = beat
                return look_of(*found)
            self.close()
            self.turn_hosts()
        self.register(self._lines, self._beat)
        raise Doubt(
            f"PostgreSQL does not know this instance of keeper {self.me}: it went back, and this keeper is registered again"
        )

    def everything(self) -> Look:
        """What a look returns, for who is no keeper."""
        try:
            [[_, *found]] = self._ask(statements.EVERYTHING)
        except Refused as error:
            if isinstance(
                error.__cause__, (psycopg.errors.UndefinedColumn, psycopg.errors.UndefinedTable)
            ):
                raise Refused(_older_tables(self._version())) from error
            raise
        return look_of(*found)

    def table(self, log: int) -> TableOf:
        """The newest table of a database, with its number."""
        found = self._table_row(log)
        if found is None:
            raise Refused(f"the referee has no table of database {log}: it was dropped")
        identity, number, text, secret, sealed, key = found
        stored = Stored(str(text), bytes(secret), None if sealed is None else bytes(sealed), key)
        try:
            return TableOf(*self.keys.open(str(identity), stored), int(number), key)
        except (NoKey, CredentialsError) as error:
            raise Sealed(str(error)) from error

    def _table_row(self, log: int) -> Sequence[Any] | None:
        return next(iter(self._ask(statements.TABLE, (log,))), None)

    def stored(self, identity: str, text: str, secret: bytes) -> dict[str, Any]:
        """The columns of a table of principals, as they are written. Raises `Sealed`."""
        try:
            return vars(self.keys.store(identity, text, secret))
        except CredentialsError as error:
            raise Sealed(str(error)) from error

    def seal(self, row: Row) -> bool:
        """Writes the newest table of a database again, by the first key. False where it is sealed by that already, or was changed."""
        table = self.table(row.id)
        stored = self.stored(row.identity, table.text, table.secret)
        values = {
            "id": row.id,
            "identity": row.identity,
            "number": table.number,
            "seen_key": table.key,
            **stored,
        }
        return stored["key"] != table.key and bool(self._ask(statements.SEAL, values))

    # Who holds a database.

    def take(
        self,
        seen: Row,
        run: str,
        beat: int | None = None,
        where: Where = Where(),
        least: int = 0,
        table_number: int = 1,
    ) -> Row | None:
        """Makes this keeper the holder, in a new generation of this run, if all is as it was seen, and no newer table than that of this
        number was set. The number of the generation is `least` or above.

        `beat` is that of the holder, as it was seen. `where` publishes a service that has all that was seen to be archived. Returns
        the row with it; None where it has changed.
        """
        values = {
            "id": seen.id,
            "generation": seen.generation,
            "archived": seen.archived,
            "seen_run": seen.run,
            "run": run,
            "me": self.me,
            "beat": beat,
            "least": least,
            "table_number": table_number,
            **vars(where),
        }
        try:
            return self._row(statements.TAKE, values)
        except Refused as error:
            if isinstance(error.__cause__, psycopg.errors.LockNotAvailable):
                self._end_sessions(seen.holder)
            raise

    def _row(self, statement: str, values: Mapping[str, Any]) -> Row | None:
        """The row of a database as this statement, which changes it, has left it; None where it has changed none."""
        return row_of(self._ask(statement, values))

    def held(self, log: int, run: str) -> Row | None:
        """The row of a database that this run holds, by a write; None where it holds it no more."""
        return self._row(statements.HELD, {"id": log, "run": run})

    def knows(self, log: int, run: str) -> bool | None:
        """Whether PostgreSQL knows a run as a generation of this database. None where it does not know this life of the keeper, as an old
        leader does not."""
        found = self._ask(
            statements.KNOWS, {"me": self.me, "life": self.run, "id": log, "run": run}
        )
        return bool(found[0][0]) if found else None

    def origin(self, run: str, *, has_name: bool = True) -> Origin | None:
        """What PostgreSQL knows of a run, which is no holder's of today; nothing where it does not know this life of the keeper, if that
        `has_name`."""
        found = self._ask(
            statements.ORIGIN, {"me": self.me, "life": self.run, "run": run, "has_name": has_name}
        )
        return (
            Origin(
                int(found[0][0]),
                bool(found[0][1]),
                None if found[0][2] is None else int(found[0][2]),
            )
            if found
            else None
        )

    def chain_of_base(self, log: int, base: int) -> bytes | None:
        """The digest of all blocks up to a base, if PostgreSQL has that."""
        found = self._ask(
            "SELECT chain FROM pagelog_base WHERE log = %s AND base = %s", (log, base)
        )
        return bytes(found[0][0]) if found else None

    def continue_run(
        self,
        seen: Row,
        run: str,
        beat: int | None,
        where: Where,
        least: int,
        start: tuple[int, bytes],
        table_number: int = 1,
    ) -> Row | None:
        """As `take`, with a service that has more than is archived, and is archived again from `start` on, a position with its digest.
        Its generation is `least` at least."""
        values = {
            "id": seen.id,
            "generation": seen.generation,
            "archived": seen.archived,
            "chain": seen.chain,
            "seen_run": seen.run,
            "run": run,
            "me": self.me,
            "beat": beat,
            "least": least,
            "address": where.address,
            "shift": where.shift,
            "secure": where.secure,
            "images": where.images,
            "start": start[0],
            "start_chain": start[1],
            "table_number": table_number,
        }
        return self._row(statements.CONTINUE, values)

    def _end_sessions(self, keeper: str | None) -> None:
        """Ends the sessions of a keeper that stands still with a row locked, as between the two last messages of a statement."""
        if keeper is not None and keeper != self.me:
            self._ask(
                "SELECT pg_terminate_backend(pid) FROM pg_stat_activity WHERE application_name = %s AND usename = current_user "
                "AND datname = current_database()",
                (_session_name(keeper),),
            )

    def raise_numbers(self, database: str, highest: int, doubted: int) -> None:
        """PostgreSQL went back: the next generation gets a number above the highest, and those up to `doubted` may be of two runs."""
        self._ask(
            "UPDATE pagelog_log SET next_generation = GREATEST(next_generation, %s + 2), doubted = GREATEST(doubted, %s) "
            "WHERE identity = %s::uuid RETURNING id",
            (highest, doubted, database),
        )

    def publish(self, log: int, run: str, where: Where) -> Row | None:
        """Tells everyone where it is. Returns the row with it; None where the run holds the database no more."""
        return self._row(statements.PUBLISH, {"id": log, "run": run, **vars(where)})

    def release(self, log: int, run: str) -> Row | None:
        """Ends the generation of this run: nothing more is archived of it. Returns the row with it, or None."""
        return self._row(statements.END_RUN, {"id": log, "run": run})

    # The archive.

    def keep(self, batches: Sequence[Batch]) -> frozenset[int]:
        """Archives the batches whose run still holds its database, at the archived position that they follow.

        Returns the ids of the databases whose batch is kept, whole; of the others nothing is.
        """
        found = frozenset(
            int(row[0]) for row in self._ask(statement_of(batches), values_of(batches))
        )
        self.turn_unless(found, batches)
        return found

    def turn_unless(self, kept: frozenset[int], batches: Sequence[Batch]) -> None:
        """Unless all are kept the next statement has another connection. An old primary that goes on has not heard of a run that began
        after it: it keeps nothing of it, and says so at once, since it has nothing to wait for."""
        if len(kept) < len(batches):
            self.close()
            self.turn_hosts()

    def kept(self, log: int, run: str) -> Kept | None:
        """What is archived of a run, after a batch in doubt or one that was not kept: it waits for one that still runs.

        None where the run holds the database no more. Also that is said by a write: an old primary that goes on has not heard of a run
        that began after it.
        """
        found = self._ask(
            "UPDATE pagelog_log SET archived = archived WHERE id = %s RETURNING archived, chain, generation, run",
            (log,),
        )
        return (
            Kept(found[0][0], bytes(found[0][1]), found[0][2])
            if found and found[0][3] == run
            else None
        )

    def lacks(self, row: Row) -> bool:
        """Whether PostgreSQL has no more what a look has shown of a database: it went back meanwhile."""
        found = self._ask(
            "SELECT archived, chain FROM pagelog_log WHERE id = %s AND identity = %s::uuid AND NOT dropped",
            (row.id, row.identity),
        )
        return not found or not (
            found[0][0] > row.archived
            or (found[0][0], bytes(found[0][1])) == (row.archived, row.chain)
        )

    def fate(self, name: str, generation: int) -> int | None:
        """The position at which a generation ended. All up to it is durable, and nothing above it will ever be.

        None while it has not ended, and where the referee has no such generation.
        """
        found = self._ask(statements.FATE, {"me": self.me, "name": name, "generation": generation})
        return None if not found or found[0][0] is None else int(found[0][0])

    def fate_of(self, name: str, generation: int, of: Of) -> Fate:
        """The same of this very run of this very database, also where that has the name no more."""
        values = {
            "me": self.me,
            "name": name,
            "generation": generation,
            "database": of.database,
            "run": of.run,
        }
        return fate_of_rows(
            [FateRow(*row) for row in self._ask(statements.FATE_OF, values)], generation, of
        )

    def blocks(self, log: int, first: int, last: int) -> Iterator[list[bytes]]:
        """The archived blocks from `first` to `last`, in pieces, each block checked. Raises `BrokenArchive`.

        `last` is at most an archived position that a statement which wrote has returned.
        """
        for start in range(first, last + 1, PIECE):
            yield self._piece(log, start, min(last, start + PIECE - 1))

    def few_blocks(self, log: int, first: int, last: int) -> list[bytes] | None:
        """The same, at most `PIECE`, for one whom another cuts: a take waits for no thread that would have to be begun for that. None where
        the store has some of them."""
        rows = self._ask(statements.PIECE, (log, first, last), binary=True)
        if rows[0][0] <= last - first and self._ask(statements.STORED, (log, first)):
            return None
        return _checked(rows, first, last)

    def _piece(self, log: int, first: int, last: int) -> list[bytes]:
        rows = self._ask_bounded(statements.PIECE, (log, first, last), binary=True)
        try:
            if rows[0][0] <= last - first and self.has_stored(log, first):
                return self.through.blocks(log, first, last)
            return _checked(rows, first, last)
        except BrokenArchive as error:
            if self._ask_bounded(statements.PRUNED, {"log": log, "first": first}):
                raise Pruned(
                    f"the archived blocks {first} to {last} were pruned meanwhile"
                ) from error
            raise

    def piece_here(self, log: int, first: int, last: int) -> list[bytes] | None:
        """What PostgreSQL has of these blocks; None where it has not all of them."""
        rows = self._ask_bounded(statements.PIECE, (log, first, last), binary=True)
        return _checked(rows, first, last) if rows[0][0] > last - first else None

    def has_stored(self, log: int, position: int = 0) -> bool:
        """Whether the store has blocks from this position on that PostgreSQL may have no more."""
        return bool(self._ask_bounded(statements.STORED, (log, position)))

    def another(self) -> Referee:
        """One with a connection of its own, which reads what this does."""
        return Referee(self._url, self.me, self.run, patience=self._patience, store=self._store)

    @property
    def through(self) -> Through:
        """What this reads of the store."""
        if self._through is None:
            from pagelog.referee.through import Through  # which needs zstd

            self._through = Through(self, self._store)
        return self._through

    # Standbys.

    def stand_by(
        self,
        log: int,
        address: str,
        run: str,
        reached: int,
        shift: int = 0,
        images: int = 0,
        table_number: int = 1,
        secure: str | None = None,
    ) -> None:
        """Says where this keeper has a standby, where positions are there, and which table it has."""
        self._ask(
            "INSERT INTO pagelog_standby (log, keeper, address, run, reached, shift, images, table_number, secure) "
            "VALUES (%s, %s, %s, %s, %s, %s, %s, %s, %s) "
            "ON CONFLICT (log, keeper) DO UPDATE SET address = excluded.address, run = excluded.run, reached = excluded.reached, "
            "shift = excluded.shift, images = excluded.images, table_number = excluded.table_number, secure = excluded.secure "
            "RETURNING log",
            (log, self.me, address, run, reached, shift, images, table_number, secure),
        )

    def stand_down(self, log: int) -> None:
        """Says that this keeper has no standby any more."""
        self._ask(
            "DELETE FROM pagelog_standby WHERE log = %s AND keeper = %s RETURNING log",
            (log, self.me),
        )

    # What a person asks for.

    def create(self, name: str, table: str, secret: bytes) -> bool:
        """A new named database with this table. False where there is one of this name. Its generations go on above those of the dropped
        ones of its name, behind a gap: a number is never given twice, and to a client of version 1 the next one says that its own run has
        ended there."""
        identity = str(uuid4())
        return bool(
            self._ask(
                statements.CREATE,
                {"name": name, "identity": identity, **self.stored(identity, table, secret)},
            )
        )

    def keep_strangers_out(self) -> bool:
        """Takes from PUBLIC the right to connect to the database: who has it can send notifications. False where this role may not, or
        where another one has anything there, and may need that right."""
        [[is_open, may, are_others]] = self._ask(statements.STRANGERS)
        if not is_open or not may or are_others:
            return not is_open
        [[name]] = self._ask("SELECT quote_ident(current_database())")
        try:
            self._connected().execute(f"REVOKE CONNECT ON DATABASE {name} FROM PUBLIC")
        except psycopg.Error as error:
            raise self._meaning(error) from error
        return True

    def drop(self, name: str) -> bool:
        """Ends a named database for good: its keeper ends its service, and its table, blocks and images are deleted. One that was broken
        off is gone on with. False where there is nothing of it.

        Its row stays, under a name that no database can have, so that a keeper which held it knows; under that name its trail is kept.
        """
        has_trail = self._ask("SELECT to_regclass('pagelog_trail_list') IS NOT NULL") == [(True,)]
        dropped = bool(
            self._ask(statements.DROP_WITH_TRAIL if has_trail else statements.DROP, {"name": name})
        )
        old = "SELECT id FROM pagelog_log WHERE dropped AND name = %s || '!' || id"
        gone = sum(
            len(self._ask(f"DELETE FROM {table} WHERE log IN ({old}) RETURNING log", (name,)))
            for table in ("pagelog_table", "pagelog_store")
        )
        for table, key in (
            ("pagelog_base", "manifest"),
            ("pagelog_object", "key"),
            ("pagelog_pack", "key"),
        ):  # behind what a seal needs
            gone += len(
                self._ask(statements.DROP_OBJECTS.format(table=table, key=key, old=old), (name,))
            )
        for table, key, count in (
            ("pagelog_image", "log, range, base", 1000),
            ("pagelog_block", "log, lsn", 10_000),
        ):
            some = f"SELECT {key} FROM {table} WHERE log IN ({old}) LIMIT {count}"
            while found := self._ask(
                f"DELETE FROM {table} WHERE ({key}) IN ({some}) RETURNING log", (name,)
            ):
                gone += len(found)
        return dropped or gone > 0

    def set_table(self, row: Row, text: str, seen: int) -> int | None:
        """Gives a database another table, and returns its number; None where that of number `seen` is not the newest any more."""
        if self._table_row(row.id) is None:
            return None
        stored = self.stored(row.identity, text, self.table(row.id).secret)
        found = self._ask_past(
            row.holder,
            statements.SET_TABLE,
            {"id": row.id, "identity": row.identity, "seen": seen, **stored},
        )
        return int(found[0][0]) if found else None

    def end_run(self, row: Row) -> Row | None:
        """As `release`, for a person: also where the holder stands still amid a statement."""
        return row_of(
            self._ask_past(row.holder, statements.END_RUN, {"id": row.id, "run": row.run})
        )

    def newest_table(self, log: int) -> tuple[int, str | None] | None:
        """The number of the newest table, and the run that holds the database, by a statement that writes."""
        found = self._ask(
            "UPDATE pagelog_log SET table_number = table_number WHERE id = %s AND NOT dropped RETURNING table_number, run",
            (log,),
        )
        return (int(found[0][0]), found[0][1]) if found else None

    def _ask_past(self, holder: str | None, statement: str, values: Mapping[str, Any]) -> list[Any]:
        """The rows of a statement. Where a keeper stands still with the row locked, as between the two last messages of a statement, its
        sessions are ended."""
        try:
            return self._ask(statement, values)
        except Refused as error:
            if not isinstance(error.__cause__, psycopg.errors.LockNotAvailable):
                raise
        self._end_sessions(holder)
        return self._ask(statement, values)

    def put_table_back(self, log: int, identity: str, table: TableOf) -> bool:
        """PostgreSQL went back, and has an older table than this. Returns whether it had."""
        values = {
            "id": log,
            "identity": identity,
            "number": table.number,
            **self.stored(identity, table.text, table.secret),
        }
        return bool(self._ask(statements.PUT_TABLE_BACK, values))

    def pause(self, name: str | None, paused: bool) -> int:
        """Keepers take nothing over while it is paused. Without a name it is for all. Returns how many there are."""
        found = self._ask(
            "WITH told AS (UPDATE pagelog_log SET paused = %s WHERE format = %s AND NOT dropped AND name = COALESCE(%s, name) "
            f"RETURNING id) SELECT id, pg_notify('{CHANNEL}', '') FROM told",
            (paused, FORMAT, name),
        )
        return len(found)

    def wish(self, name: str, keeper: str | None, *, instead_of: str | None = None) -> bool:
        """Asks for a switchover to a keeper, or with `*` to any other; None takes the wish back. `instead_of` leaves a wish for another
        as it is. False without that name, or where it was left."""
        return bool(
            self._ask(
                "WITH told AS (UPDATE pagelog_log SET wanted = %s WHERE name = %s AND format = %s AND NOT dropped "
                "AND wanted IS NOT DISTINCT FROM COALESCE(%s::text, wanted) RETURNING id) "
                f"SELECT id, pg_notify('{CHANNEL}', '') FROM told",
                (keeper, name, FORMAT, instead_of),
            )
        )


def _older_tables(version: int) -> str:
    return (
        f"PostgreSQL has the tables of version {version}, and {VERSION} is needed: run `pagelogctl create` or `keep` of this version once "
        "as the role that owns them"
    )


def _session_name(keeper: str) -> str:
    return f"pagelog keeper {keeper}"[:63]


def _checked(rows: Sequence[Sequence[Any]], first: int, last: int) -> list[bytes]:
    """The blocks of a piece. Raises `BrokenArchive`."""
    [[count, data, heads]] = rows
    if count != last - first + 1:
        raise BrokenArchive(
            f"{last - first + 1 - count} of the archived blocks {first} to {last} are missing"
        )
    blocks, at = [], 0
    for number, lsn in enumerate(range(first, last + 1)):
        length, crc = (
            int.from_bytes(heads[12 * number : 12 * number + 4], "big"),
            heads[12 * number + 4 : 12 * number + 12],
        )
        block = data[at : at + length]
        if int.from_bytes(block[:8], "big") != lsn or zlib.crc32(block) != int.from_bytes(
            crc, "big"
        ):
            raise BrokenArchive(f"the archived block {lsn} is not the one that was kept")
        blocks.append(block)
        at += length
    return blocks
