"""A service that this keeper has, and what is asked of it, in threads: filled, followed, pulled, opened, closed."""

from __future__ import annotations

import asyncio
import socket
import time
from contextlib import suppress
from dataclasses import dataclass, field
from enum import Enum
from itertools import islice
from typing import Callable, Iterable, Iterator, Sequence

from pagelog.block import Block
from pagelog.connection import Address, Connection
from pagelog.images import blocks_of, labelled
from pagelog.keeper.acknowledged import Acknowledged
from pagelog.keeper.definition import Definition
from pagelog.keeper.front import Front
from pagelog.keeper.haproxy import FrontError
from pagelog.keeper.loading import EPOCH, GROUP, Loader
from pagelog.keeper.looker import Looker
from pagelog.keeper.machine import RunKind
from pagelog.keeper.run import NotStarted, Program, Run
from pagelog.keeper.runner import RunnerError
from pagelog.keeper.table import Form, keeper_of, quorum_of, table_of_run
from pagelog.operator import Operator
from pagelog.reader import Reader, Span
from pagelog.referee.ahead import ahead, pieces_of
from pagelog.referee.bases import NOTHING, Bases
from pagelog.referee.referee import BrokenArchive, Referee, digest
from pagelog.referee.rows import TableOf, Where
from pagelog.referee.ways import NOWHERE, Way
from pagelog.reply import Entries, State, expect
from pagelog.request import AUDIT_MAX, Act, Audit, Head, Pull, Request, Role, Status
from pagelog.run_tokens import KEEPER
from pagelog.service_protocol import framed

FEW = 16
"""So many entries of an audit list a look may not have seen yet."""
_OWN = 2
"""Those that a look adds: each of its questions is one."""
_ROOM = 3 * _OWN
"""Those that are there uncounted at most, where a look has found more and asked again."""
PULLS = 64
"""Pulls of one batch: 1,024 blocks at most, 32 MiB."""


class Access(Enum):
    """Who may write to a service: nobody yet, clients, or nobody any more, where that may be in doubt."""

    CLOSED = "closed"
    OPEN = "open"
    SHUT = "shut"


@dataclass
class RunLog:
    """The log of a run. `reached` and `chain` are of the blocks that it was filled with, or that are archived of it, and `hard` is its end.
    All positions are the archive's: an LSN of the service is a position less `shift`."""

    shift: int = 0
    images: int = 0
    """The position whose images it began with; 0: with the first block."""
    reached: int = 0
    chain: bytes = field(default=b"", repr=False)
    hard: int = 0


@dataclass
class Health:
    """How a service is."""

    answers: int = 0
    """How many looks it has answered."""
    silent: float = 0.0
    """For how many seconds it has answered none, in an unbroken series of the keeper's looks."""
    begun: int = 0
    """Bytes of memory that it held when it was filled, or opened."""
    held: int = 0
    """Those that it held when they were last measured: once in a look, and all that is decided until the next one rests on it."""
    is_full: bool = False
    """Whether it had no memory for a writer, as that has said, or for a pull of its keeper."""
    is_broken: bool = False
    """Whether it refuses its keeper for good."""


@dataclass
class Lack:
    """What PostgreSQL is known to lack of a run."""

    went_back: bool = False
    """Whether it was seen to lack what it once had: the service may be the only copy."""
    since: float | None = None
    """Since when that has been known."""
    is_apart: bool = False
    """Whether the archive is known to have something else than the log."""


class Served:
    """The service of one run of a database: its log, its health, what PostgreSQL lacks of it, and who may write to it, which its methods
    alone change. All blocks and positions here are the archive's. One thread at a time calls each of its methods; `look`, `pulled` and
    the others may run side by side, and what is done `at_once` is the event loop's."""

    def __init__(
        self,
        name: str,
        run: str,
        text: str,
        secret: bytes,
        *,
        timeout: float,
        is_read_only: bool = False,
        table_number: int = 1,
        identity: str = "",
        ancestor: str | None = None,
        front: Front | None = None,
    ) -> None:
        """`table_number` is that of the table that it is started with; of a run of which nothing is known the first. `identity` is of the
        database, and of a copy `ancestor` is the name of what it was made of. `front` is its keeper's.
        """
        self.database = name
        self.run = run
        self.kind = RunKind.HOLDER
        self.generation = 0
        self.acknowledged: Acknowledged | None = None
        """Where it is noted how far it was acknowledged."""
        self.log, self.health, self.lack, self.access = RunLog(), Health(), Lack(), Access.CLOSED
        self.is_told_by_number = True
        """Whether no other run was given the number of its generation, so that older clients, who name no run, can be answered."""
        self.is_after_release = False
        """Whether another keeper has released the generation before: it may be ending its audit list still."""
        self.is_whole = False
        """Whether its log began with all that was in the log of the generation before."""
        self._is_read_only = is_read_only
        self.is_noted = False
        """Whether the referee is known to have noted it as a standby."""
        self.process: Run | None = None
        self._quick_looker: Looker | None = None
        self._text, self._secret = text, secret
        self.table_number, self.identity, self.ancestor = table_number, identity, ancestor
        self._front = front
        self.timeout = timeout
        """Seconds for which an answer is waited for."""
        self._entries, self._step, self._own = 0, FEW, 0
        """So many entries there are, and those that looks have added since; and where the next look asks for one, behind them."""
        self._ahead: tuple[int, bytes] | None = None
        """How far it was loaded, and the digest of that, where it is loaded, or the archive went away meanwhile."""
        self._has_part = False
        """Whether it has a part of the images that it was to begin with."""
        self._began = (0, b"")
        """A position at which its log begins, and the digest of all blocks up to there."""

    @property
    def is_alive(self) -> bool:
        """Whether there is no reason to end it: it runs, or was not started yet."""
        return not self.health.is_broken and (self.process is None or self.process.is_alive)

    @property
    def secret(self) -> bytes:
        """The secret of the database's keepers."""
        return self._secret

    @property
    def where(self) -> Where:
        """Where clients find it, and what is there."""
        assert self.process is not None
        return Where(self.process.address, self.shift, self.images, self.chain, self.secure)

    @property
    def secure(self) -> str | None:
        """The way to it by TLS, as the column has it."""
        if self._front is None:
            return None
        place, is_only = self._front.place(self.run), not self._front.tls.plain
        return (
            Way(place or NOWHERE, is_only).text(self.run) if place is not None or is_only else None
        )

    @property
    def hangs(self) -> bool:
        """Whether it has answered no look for as long as it may."""
        return self.health.silent >= self.timeout

    @property
    def is_open(self) -> bool:
        """Whether clients have been let in."""
        return self.access is not Access.CLOSED

    @property
    def reached(self) -> int:
        """Up to where it was filled, or is archived."""
        return self.log.reached

    @property
    def chain(self) -> bytes:
        """The digest of all blocks up to there."""
        return self.log.chain

    @property
    def shift(self) -> int:
        """What a position here is above an LSN of the service."""
        return self.log.shift

    @property
    def images(self) -> int:
        """The position whose images it began with."""
        return self.log.images

    @property
    def hard(self) -> int:
        """The end of its log."""
        return self.log.hard

    # What becomes known of it.

    def hold(self, generation: int) -> None:
        """It is the service of this generation."""
        self.kind, self.generation = RunKind.HOLDER, generation

    def follow_release(self) -> None:
        """Another keeper has released the generation before."""
        self.is_after_release = True

    def stand_by(self) -> None:
        """It is a standby's."""
        self.kind = RunKind.STANDBY

    def note_standby(self, is_noted: bool) -> None:
        """The referee has noted it as a standby, or has lost that."""
        self.is_noted = is_noted

    def doubt_number(self) -> None:
        """Another run was given the number of its generation."""
        self.is_told_by_number = False

    def reach(self, position: int, chain: bytes) -> None:
        """Up to there it was filled, or is archived."""
        self.log.chain, self.log.hard = chain, max(self.log.hard, position)
        self.log.reached = position
        if self.acknowledged is not None:
            self.acknowledged.note(position)  # before it is acknowledged

    def begin_whole(self) -> None:
        """Its log has all that was in the log of the generation before."""
        self.is_whole = True

    def lie(self, shift: int, images: int) -> None:
        """So positions are in it."""
        self.log.shift, self.log.images = shift, images

    def fail(self) -> None:
        """It is of no use any more."""
        self.health.is_broken = True

    def lack_memory(self) -> None:
        """A writer had none there."""
        self.health.is_full = True

    def be_silent(self, seconds: float) -> None:
        """For so long it has answered no look."""
        self.health.silent = seconds

    def weigh(self) -> None:
        """Notes how much memory it has begun with, once."""
        self.health.begun = self.health.begun or (
            0 if self.process is None else self.process.memory
        )

    def be_lacked(self, went_back: bool) -> None:
        """Whether PostgreSQL lacks what it once had of it."""
        self.lack.went_back = went_back

    def be_only_copy(self, is_only: bool, now: float) -> None:
        """Whether it may be that of something, which is known from now on, if it was not before."""
        self.lack.since = (self.lack.since or now) if is_only else None

    def be_apart(self, is_apart: bool) -> None:
        """Whether the archive has something else than its log."""
        self.lack.is_apart = is_apart

    def begin_again(self, generation: int, start: int, chain: bytes) -> None:
        """It holds the database again, in this generation, and is archived from there on."""
        self.hold(generation)
        self.lack.went_back, self.lack.since = False, None
        self.reach(start, chain)

    def take_process(self) -> Run | None:
        """Its process, which is the caller's from now on."""
        process, self.process = self.process, None
        return process

    def take_front(self, front: Front | None) -> None:
        """Its keeper's, of a service that was found."""
        self._front = front

    # Its beginning and its end.

    def start(self, program: Program) -> None:
        """Starts it, closed. Raises `NotStarted`."""
        self.serve(Run.start(program, self.database, self.run, self._table(Form.READING)))
        self.remember()

        try:
            self.lead()
        except FrontError as error:
            self.end()
            self.process = None
            raise NotStarted(f"{self.database}: nobody would reach the service: {error}") from error

    def remember(self) -> None:
        """Has its process remember of which database it is, for `rescue`. Want of memory, or of a runner, is no reason to end it."""
        if self.process is not None and self.identity:
            with suppress(OSError, RunnerError):
                self.process.remember(
                    Definition(self.identity, self._text, self._secret, self.ancestor)
                )

    def lead(self) -> None:
        """Has its keeper's front lead to it, if there is one. Raises `FrontError` where that is the only way to it, and does not now: it
        will as soon as it can."""
        if self._front is None or self.process is None:
            return
        try:
            self._front.serve(self.run, self.process.address, self.identity)
        except FrontError:
            if not self._front.tls.plain:
                raise

    @property
    def unreached(self) -> float:
        """For how many seconds no client has reached it, as its only way is a front that is not there."""
        return 0.0 if self._front is None or self._front.tls.plain else self._front.away

    def lead_away(self) -> None:
        """Nobody comes to it any more through the front."""
        if self._front is not None:
            self._front.drop(self.run)

    def serve(self, process: Run) -> None:
        """Takes this process for its own."""
        credentials = keeper_of(self._secret, self.database, self.run)
        self._operator = Operator(self._connection(process), credentials)
        self._looker = Operator(self._connection(process), credentials)
        self._quick_looker = Looker(process.address, credentials, self.timeout)
        self._reader = Reader(self._connection(process), credentials)
        self.acknowledged = process.acknowledged
        self.process = process  # last: from now on the event loop asks it

    def end(self) -> None:
        """Kills it, and removes what is noted of it."""
        self.lead_away()
        if self.process is not None:
            self.process.end()

    def operator(self) -> Operator:
        """A keeper's operator over a connection of its own, for another thread."""
        assert self.process is not None
        return Operator(
            self._connection(self.process), keeper_of(self._secret, self.database, self.run)
        )

    def texts(self) -> tuple[bytes, bytes]:
        """The tables of this run: closed, as it begins, and open."""
        return self._table(Form.READING).encode(), self._table(Form.OPEN).encode()

    def _connection(self, process: Run) -> Connection:
        return Connection(process.address, timeout=self.timeout, attempts=2)

    def _table(self, form: Form) -> str:
        return table_of_run(self._text, self._secret, self.database, self.run, form)

    # Filling.

    def follow(self, referee: Referee, log: int, archived: int, wanted: bytes) -> None:
        """Fills it with what it lacks of the archive, up to a position that a statement which wrote has returned.

        `wanted` is the digest that it has returned. Raises `BrokenArchive` where the blocks have another: they are read without a
        write, and a server that was cut off may have others. Nobody reads what is above `reached` meanwhile. A service that has
        nothing begins with the images of the newest base. Where the archive goes away meanwhile, the next call goes on from there.
        A piece is read while the one before is loaded. Nothing is held against pruning: where that comes first, it raises `Pruned`.
        """
        if archived <= self.reached:
            return
        is_fresh = self.loaded == 0
        with self.loader() as loader:
            if is_fresh:
                self._begin(Bases(referee, log), archived, loader)
            with ahead(pieces_of(referee, log, self.loaded + 1, archived), referee.cut) as pieces:
                self.load(loader, pieces, archived, wanted)
        if is_fresh:
            self.weigh()

    def begin(self, referee: Referee, log: int, archived: int) -> None:
        """Begins with the images of the newest base, if it has nothing yet."""
        if self.loaded == 0:
            with self.loader() as loader:
                self._begin(Bases(referee, log), archived, loader)

    def fill(self, pieces: Iterable[Sequence[bytes]], archived: int, wanted: bytes) -> None:
        """As `follow`, with these blocks of the archive, behind those that it has."""
        with self.loader() as loader:
            self.load(loader, pieces, archived, wanted)

    def loader(self) -> Loader:
        """A connection that fills it. Raises `Unreachable`."""
        assert self.process is not None
        credentials = keeper_of(self._secret, self.database, self.run)
        return Loader(
            self.process.address, credentials, quorum=quorum_of(self._text), timeout=self.timeout
        )

    def _begin(self, bases: Bases, archived: int, loader: Loader) -> None:
        """With the images of the newest base. Its last block of them then has the base's position."""
        if self._has_part:
            raise BrokenArchive(
                f"{self.database}: the service has a part of the images that it was to begin with"
            )
        base = bases.newest(archived)
        if base is not NOTHING:
            self._has_part = True
            last = loader.load(1, _pieces(blocks_of(bases.images(base))))
            self._has_part = False
            self.lie(base.position - last, base.position)
            self.reach(base.position, base.chain)
            self._began = self.reached, self.chain

    @property
    def loaded(self) -> int:
        """How far it was loaded. What is above `reached` was not compared with what is archived."""
        return self._ahead[0] if self._ahead is not None else self.reached

    def load(
        self, loader: Loader, pieces: Iterable[Sequence[bytes]], archived: int, wanted: bytes
    ) -> None:
        """Loads the blocks behind `loaded`, up to a position at which they have the digest that is wanted."""
        at, chain = self._ahead or (self.reached, self.chain)

        def with_lsns() -> Iterator[Sequence[bytes]]:
            nonlocal chain, at
            for piece in pieces:
                yield labelled(piece, at + 1 - self.shift) if self.shift else piece
                at, chain = at + len(piece), digest(chain, piece)
                self._ahead = at, chain

        loader.load(at + 1 - self.shift, with_lsns())
        if (at, chain) != (archived, wanted):
            raise BrokenArchive(
                f"{self.database}: the blocks up to {archived} are not those that were archived"
            )
        self.reach(archived, chain)
        self._ahead = None

    def check(self, archived: int, chain: bytes) -> None:
        """Raises `BrokenArchive` where it does not have exactly what is archived."""
        if (self.reached, self.chain) != (archived, chain):
            raise BrokenArchive(
                f"{self.database}: the service was filled with other blocks than the {archived} that are archived"
            )
        hard = self.end_of_log()
        if hard != archived:
            raise BrokenArchive(
                f"{self.database}: the service has {hard} blocks where {archived} are archived"
            )

    def adopt(
        self,
        process: Run,
        reached: int,
        chain: bytes,
        *,
        shift: int,
        images: int,
        generation: int,
        table_number: int = 1,
        is_open: bool = False,
    ) -> None:
        """Takes a process that a previous instance of the keeper has started; so much is archived of it."""
        self.serve(process)
        self.hold(generation)
        self.table_number = table_number
        self.access = Access.OPEN if is_open else self.access
        self.lie(shift, images)
        self.reach(reached, chain)
        self._began = (reached, chain) if images else (0, b"")

    def note_place(self) -> None:
        """Notes where positions are in it, for a later instance of the keeper. A full disk is no reason to end it."""
        if self.process is not None:
            with suppress(OSError):
                self.process.note_place(self.shift, self.images)

    def has(self, archived: int, chain: bytes) -> bool:
        """Whether its log has exactly what is archived, up to this position."""
        at, found = self._began if archived < self.reached else (self.reached, self.chain)
        while at < archived and (blocks := self.pulled(at)[: archived - at]):
            at, found = at + len(blocks), digest(found, blocks)
        return (at, found) == (archived, chain)

    def continues(
        self, archived: int, chain: bytes, *, is_before: bool
    ) -> tuple[int, bytes] | None:
        """From where it has to be archived again, a position with its digest: from what is archived, if it has exactly that. Where it began
        with images of a later position, which the archive lacks, it is these, if the archive is known to be of what was before.
        None where the archive has something else."""
        if archived < self._began[0]:
            return self._began if is_before and self.images == self._began[0] else None
        return (archived, chain) if self.has(archived, chain) else None

    def end_of_log(self) -> int:
        """The position of its last hardened block."""
        self.log.hard = self._operator.status().hard + self.shift
        return self.hard

    def was_written(self) -> bool:
        """Whether a client has: each begins with an epoch of its own."""
        try:
            return self._operator.status().epoch > EPOCH
        finally:
            self._operator.connection.close()

    def open(self) -> None:
        """From now on its table is that of the database, or lets clients read alone."""
        self._operator.set_table(self._table(Form.READING if self._is_read_only else Form.OPEN))
        self._operator.connection.close()  # it is asked again at its end: until then it has the connection of looks
        self.access = Access.OPEN
        self.weigh()

    @property
    def table(self) -> TableOf:
        """The database's table, as it was read for this run."""
        return TableOf(self._text, self._secret, self.table_number)

    def renew(self, newest: TableOf) -> None:
        """Gives it the newest table, closed: from now on it knows no older token."""
        self._text = newest.text
        self._shut()
        self._operator.set_table(self._table(Form.READING))
        self.table_number = newest.number
        self.remember()

    def close(self) -> int:
        """Lets nobody write any more, and returns the position of its end."""
        self._shut()
        self.log.hard = self._operator.fence(self._table(Form.READING), KEEPER).hard + self.shift
        return self.hard

    def _shut(self) -> None:
        """Before it is asked: whether it was done may be in doubt."""
        if self.is_open:
            self.access = Access.SHUT

    # Looking.

    async def looked_at_once(self) -> bool:
        """As `look`, without a thread; False where `look` has to see to it. Raises `TimedOut`."""
        while (
            self._quick_looker is not None
            and (found := await self._quick_looker.look(self._probe)) is not None
        ):
            if not self._has_more(*found):
                return True
        return False

    def look_again(self, told: Callable[[bool], None]) -> bool:
        """As `looked_at_once`, where it may answer as it did the last time: `told` is called once with whether it has. False where that
        is not to be had so."""
        return self._quick_looker is not None and self._quick_looker.look_again(
            self._probe, lambda found: told(found is not None and not self._has_more(*found))
        )

    def look(self) -> None:
        """Asks for its end, and how many entries its audit list has at least: two entries, and more where the list has grown."""
        has_more = True
        while has_more:
            state, entries = self._looker._ask_all((Status(), Audit(self._probe, 1)))
            has_more = self._has_more(expect(State, state), expect(Entries, entries))

    @property
    def _probe(self) -> int:
        return self._entries + self._step

    def _has_more(self, state: State, entries: Entries) -> bool:
        """Takes an answer. Whether the list may have many more entries than are known."""
        self.log.hard = state.hard + self.shift
        has_more = bool(entries.entries)
        if has_more:
            self._entries, self._own = self._probe, 0
        else:
            self.health.answers += 1
            self._own += _OWN
        self._step = 2 * self._step if has_more else max(FEW, self._step // 2)
        if self._own + _ROOM >= self._step:  # what looks alone have added no look has to find
            self._entries, self._own = self._entries + self._own, 0
        return has_more

    def stop_looks(self) -> None:
        """Nobody looks at it any more."""
        if self._quick_looker is not None:
            self._quick_looker.close()

    def measure(self) -> int:
        """How many bytes of memory it holds."""
        self.health.held = 0 if self.process is None else self.process.memory
        return self.health.held

    def share(self, audit: int, memory: int) -> float:
        """How full its audit list or its memory is, the greater of the two: 0 to 1.

        Where it began with much, it is the growth since then that counts: a fresh service would hold as much again. Twice of
        what it began with counts as half.
        """
        held, begun = self.health.held if memory else 0, self.health.begun
        grown = (held / begun - 1) / 2 if begun else 1.0
        return max(self._entries / audit, min(held / memory, grown) if held else 0.0)

    @property
    def entries(self) -> int:
        """How many entries its audit list is known to have."""
        return self._entries

    # Pulling.

    async def pulling_line(self) -> tuple[int, bytes, bytes]:
        """A descriptor of a connection of its own to the service, which does not block, and a pull and a question for lines as frames, which
        end with the LSN or the number of a line, and how many. Raises `OSError`."""
        assert self.process is not None
        address = Address.parse(self.process.address)
        made = await _connected(address, self.timeout)
        return made.detach(), *self.questions()

    def questions(self) -> tuple[bytes, bytes]:
        """A pull, and a question for lines of the audit list, as frames."""
        credentials = self._reader.credentials
        asked: tuple[tuple[Role, Act], ...] = (
            (Role.SECONDARY, Pull(1)),
            (Role.OPERATOR, Audit(1, AUDIT_MAX)),
        )
        pull, audit = (
            Request(
                Head(credentials.id, credentials.token, role, 0, self._reader.epoch), act
            ).encode()
            for role, act in asked
        )
        return framed(pull), framed(audit)

    def ask_for_more(self) -> None:
        """Asks for the next blocks, and leaves them: what stands against that is raised, or known then."""
        try:
            self._reader.span(self.reached + 1 - self.shift, pulls=1)
        finally:
            self.health.is_full |= self._reader.has_lacked_memory

    def began_with(self) -> Iterator[list[bytes]]:
        """The blocks that make the images with which it began, as they are there."""
        at, last = 0, self.images - self.shift
        while at < last:
            span = self._reader.span(at + 1, pulls=PULLS)
            found = [block.data for block in span.blocks if block.lsn <= last]
            yield found
            at = min(span.last, last)

    def pulled(self, position: int) -> list[bytes]:
        """The next blocks behind this position, at most 1,024."""
        try:
            span = self._reader.span(position + 1 - self.shift, pulls=PULLS)
        finally:
            self.health.is_full |= self._reader.has_lacked_memory
        self.log.hard = max(self.hard, span.last + self.shift)
        return self._blocks_of(span)

    def logged(self, position: int, end: int) -> Iterator[list[bytes]]:
        """The blocks of its log behind a position, up to another one, over a connection of their own: nobody waits for them."""
        assert self.process is not None
        with Reader(
            self._connection(self.process), keeper_of(self._secret, self.database, self.run)
        ) as reader:
            while position < end:
                blocks = self._blocks_of(reader.span(position + 1 - self.shift, pulls=PULLS))[
                    : end - position
                ]
                if not blocks:
                    raise BrokenArchive(
                        f"the log of {self.database} ends at {position} in place of {end}"
                    )
                yield blocks
                position += len(blocks)

    def _blocks_of(self, span: Span) -> list[bytes]:
        """Those of the archive. A block without records is served by no pull."""
        found = {block.lsn: block.data for block in span.blocks}
        blocks = [found.get(lsn) or Block.of(lsn).data for lsn in range(span.first, span.last + 1)]
        return labelled(blocks, span.first + self.shift) if self.shift else blocks


def _pieces(blocks: Iterator[bytes]) -> Iterator[list[bytes]]:
    """Groups of them, with the LSNs from 1 on."""
    first = 1
    while piece := labelled(islice(blocks, GROUP), first):
        yield piece
        first += len(piece)


async def _connected(address: Address, timeout: float) -> socket.socket:
    """A connection that does not block, made within so many seconds. Raises `OSError`."""
    loop, error = asyncio.get_running_loop(), OSError(f"{address}: no address is found")
    async with asyncio.timeout(timeout):
        for family, kind, _, _, where in await loop.getaddrinfo(
            address.host, address.port, type=socket.SOCK_STREAM
        ):
            made = socket.socket(family, kind)
            try:
                made.setblocking(False)
                made.setsockopt(socket.IPPROTO_TCP, socket.TCP_NODELAY, 1)
                await loop.sock_connect(made, where)
                return made
            except OSError as failed:
                made.close()
                error = failed
            except BaseException:
                made.close()
                raise
    raise error


def seconds() -> float:
    """The keeper's own clock, which stands still for nobody else."""
    return time.monotonic()
