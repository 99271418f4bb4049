"""A primary: appends records, writes blocks to the copies, and hardens them."""

from __future__ import annotations

import logging
from collections import deque
from contextlib import closing
from itertools import chain, takewhile
from typing import TYPE_CHECKING, Iterable, Iterator, Sequence

from pagelog.block import Block, Record, check_record
from pagelog.client import PageClient, reported_epoch
from pagelog.connection import Answer, Connection
from pagelog.credentials import Credentials
from pagelog.end_mark import sqlite_in
from pagelog.errors import (
    ConnectionLost,
    InDoubt,
    LogWentBack,
    PagelogError,
    Refusal,
    UnexpectedReply,
)
from pagelog.in_flight import (
    Sent,
    Step,
    SendTurn,
    checked_copies,
    gets_of,
    groups_of,
    is_in_log,
    pages_show,
)
from pagelog.operator import Operator
from pagelog.packing import Packer
from pagelog.reader import Reader
from pagelog.reply import Done, State, expect, refusal_of
from pagelog.request import COPIES_OF_QUORUM, QUORUM, Report, Request, Role, Status, Write
from pagelog.rules import (
    AboveTheWindow,
    BelowQuorum,
    HardenedAlready,
    NewerEpoch,
    NoRowMatches,
    OlderEpoch,
    OtherContent,
    OtherPrimary,
    Section,
    TableRow,
    UnknownPrincipal,
)
from pagelog.secure import Trust

if TYPE_CHECKING:
    from pagelog.named import NamedPrimary

WINDOW = 64
"""How many LSNs above the hardened end may be written."""
_logger = logging.getLogger("pagelog")


class Primary(PageClient):
    """Writes the log of a database, in one epoch.

    Records are appended to a block, and a commit writes the blocks to the copies and hardens them: it returns the LSN
    at which they are in the log of the service, which a failover does not take away. The service keeps it in memory.

    Once it has begun, `OlderEpoch`, `OtherPrimary` and `UnknownPrincipal` end it: each later append or commit raises the
    same. One that has not begun begins with a later call, once a failover has named it. After any other exception
    `commit` may be called again; it sends the same blocks once more, which changes nothing for those that are there.

    An epoch belongs to a principal and not to a process. Two processes that write as one principal in one epoch mix
    their blocks, so begin with `take_over`, unless nobody else has the credentials. Where a connection is lost, its
    writes without a reply are repeated. Where the log has their LSN meanwhile, whose block that is has to be looked up,
    since the new connection may lead to a service that was restored: by a `witness` that may pull, or by gets of the pages
    that the block changes, where nobody else writes in the epoch (`alone`), or the service had said that it has it.
    Without either, or where the table denies the pull, it is `InDoubt`.

    No reply says how many copies there are and what their quorum is: three and two, unless the table that was in force
    when the epoch began says `copies = 6` and `quorum = 4`. Say `quorum=4` then. Where that is wrong the first commit
    is denied: `NoSuchCopy` for a quorum that is too large (what was hardened all the same is `durable`), `BelowQuorum`
    for one that is too small. A commit that succeeded has shown that it is right. Where a failover comes before the
    first one has, what was in some copies is looked up by the witness; without a witness it is `InDoubt`.

    The first commit to a log that is not empty gets page 0 before it sends anything: `HoldsSqlite` where that is of a SQLite
    database, unless `overwrite_sqlite` is set, or the table denies the get.
    """

    role = Role.PRIMARY

    def __init__(
        self,
        connection: Connection,
        credentials: Credentials,
        database: int = 0,
        *,
        epoch: int | None = None,
        alone: bool = False,
        quorum: int = QUORUM,
        copies: Sequence[int] | None = None,
        witness: Reader | None = None,
        overwrite_sqlite: bool = False,
    ) -> None:
        """`epoch` is the one to write in, by default that of the first request. `alone` says that nobody else does.

        `quorum` is 2 or 4. `copies` are those that are written, by default the first `quorum`. They are at
        least `quorum`, of 0 to 2 with quorum 2 and of 0 to 5 with quorum 4; a `ValueError` otherwise.
        """
        super().__init__(connection, credentials, database)
        self.quorum = quorum
        self.copies = checked_copies(quorum, copies)
        self.witness = witness
        self.overwrite_sqlite = overwrite_sqlite
        """Whether it may write pages of a SQLite database, or has seen that there is none."""
        self.durable = 0
        """The LSN up to which the log is known to be hardened."""
        self._alone = alone
        self._is_fixed = epoch is not None
        self._has_begun = False
        self._is_quorum_shown = False
        self._ended: Refusal | None = None
        self._packer = Packer()
        self._unhardened: deque[Sent] = deque()
        if epoch is not None:
            self.epoch = epoch

    @classmethod
    def take_over(
        cls,
        connection: Connection,
        credentials: Credentials,
        operator: Operator,
        *,
        quorum: int = QUORUM,
        copies: Sequence[int] | None = None,
        witness: Reader | None = None,
        overwrite_sqlite: bool = False,
    ) -> Primary:
        """The primary of a new epoch, which the operator begins for it. Whoever wrote before is denied from then on."""
        checked_copies(quorum, copies)
        epoch = operator.failover(credentials.id)
        made = cls(
            connection,
            credentials,
            operator.database,
            epoch=epoch,
            alone=True,
            quorum=quorum,
            copies=copies,
            witness=witness,
            overwrite_sqlite=overwrite_sqlite,
        )
        made.begin()
        return made

    @classmethod
    def named(
        cls,
        name: str,
        *,
        keepers: Sequence[str],
        principal: int,
        token: str,
        operator: tuple[int, str],
        quorum: int = QUORUM,
        patience: float = 60.0,
        timeout: float = 10.0,
        overwrite_sqlite: bool = False,
        trust: Trust | None = None,
    ) -> NamedPrimary:
        """The writer of a named database, which its keepers have somewhere, as `host:port`; `operator` is an id and a token."""
        from pagelog.named import NamedPrimary

        return NamedPrimary(
            name,
            keepers,
            principal,
            token,
            operator,
            quorum=quorum,
            patience=patience,
            timeout=timeout,
            overwrite_sqlite=overwrite_sqlite,
            trust=trust,
        )

    def begin(self) -> State:
        """Learns the epoch and the end of the log, once; append and commit do it by themselves.

        Raises `OtherPrimary` where another principal is the primary, and `OlderEpoch` where the given epoch is over.
        """
        self._check_ended()
        state = expect(State, self._ask(Status()))
        if not self._has_begun:
            self.durable, self._has_begun, self._is_fixed = state.hard, True, True
        return state

    def drop(self) -> State:
        """Drops what is not known to be hardened, and goes on at the end that the log has now, in the same epoch.

        It is for one who writes blocks that have their LSNs: where a block was written before, another at its LSN is denied
        `OtherContent` in this epoch.
        """
        state = self.begin()
        self._unhardened.clear()
        self._packer = Packer()
        self.durable = state.hard
        return state

    # Appending.

    @property
    def next_lsn(self) -> int:
        """The LSN of the block that the next record goes to, or of the one after it where it is full."""
        return self._unhardened[-1].block.lsn + 1 if self._unhardened else self.durable + 1

    def append(self, *records: Record) -> int:
        """Puts records into the open block, and into further ones where it is full. Returns the LSN of the last.

        Nothing is sent before `commit`. Raises `EmptyPut` or `PutPastPage`, a `ValueError` or a `TypeError` for a faulty
        record, which is not taken; those before it are.
        """
        self._prepare()
        for record in records:
            check_record(record)
            if not self._packer.add(record):
                self._close_block()
                self._packer.add(record)
        return self.next_lsn

    def commit(self) -> int:
        """Writes what was appended, and returns the LSN up to which the log of the service is hardened.

        Up to 64 blocks are written with one report after them. More than 64 are hardened group by group, so a reader
        can see a part of them.
        """
        self._prepare()
        self._close_block()
        if not self._unhardened:
            return self.durable
        self._hardened(self.durable)  # what an interrupt has left of the commit before
        left = [sent.block for sent in self._unhardened]
        for _ in self._harden(
            (left[at : at + WINDOW] for at in range(0, len(left), WINDOW)), 2 * WINDOW
        ):
            pass
        return self.durable

    def stream(
        self, transactions: Iterable[Sequence[Record]], *, in_flight: int = 64
    ) -> Iterator[int]:
        """Commits each transaction as a block of its own, with `in_flight` requests in flight at most, and yields its LSN
        once it is hardened.

        A request is made for each copy, and one more. Raises `BlockTooLong` for one that does not fit into a block:
        those before it were sent. What was appended before is committed first.
        """
        self.commit()
        return self._harden(([block] for block in self._blocks_of(transactions)), in_flight)

    def harden(
        self, blocks: Iterable[Block], *, group: int = WINDOW, in_flight: int = 2 * WINDOW
    ) -> Iterator[int]:
        """Writes blocks that have their LSNs, which follow on the log's end, with a report after each `group`, 1 to 64.

        Yields the LSN of each group's last block once it is hardened. A `ValueError` for an LSN that is not the next, and
        for another `group`.
        """
        if not 1 <= group <= WINDOW:
            raise ValueError(f"a group is 1 to {WINDOW} blocks")
        self.commit()
        return self._harden(groups_of(self._in_order(blocks), group), in_flight)

    def _prepare(self) -> None:
        self._check_ended()
        if not self._has_begun:
            self.begin()

    def _check_ended(self) -> None:
        if self._ended is not None:
            raise self._ended

    def _close_block(self) -> None:
        if self._packer.records:
            sent, following = Sent(Block.of(self.next_lsn, self._packer.records)), Packer()
            # No call is between these, and so no interrupt: the records would be committed twice.
            self._unhardened += (sent,)
            self._packer = following

    def _blocks_of(self, transactions: Iterable[Sequence[Record]]) -> Iterator[Block]:
        for records in transactions:
            yield Block.of(self.next_lsn, records)

    def _in_order(self, blocks: Iterable[Block]) -> Iterator[Block]:
        following = self.next_lsn
        for block in blocks:
            if block.lsn != following:
                raise ValueError(f"LSN {block.lsn} where {following} is the next")
            following += 1
            yield block

    # Hardening.

    def _harden(self, groups: Iterable[Sequence[Block]], in_flight: int) -> Iterator[int]:
        """Writes and reports group by group, and yields the LSN of each group's end when the service has said so."""
        self._check_sqlite()
        left, tries = iter(groups), 0
        while True:
            before, turn = self.durable, SendTurn()
            yield from self._take_turn(left, in_flight, turn)
            if turn.refusals:
                yield from self._end_turn(turn, left)
                return
            if not turn.ended:
                return
            error = self._look_up(turn.doubtful[-1]) if turn.doubtful else None
            yield from (lsn for lsn in turn.doubtful if lsn <= self.durable)
            if error is not None:
                raise error
            again = [lsn for lsn in turn.doubtful if lsn > self.durable]
            tries = tries + 1 if again and self.durable == before else 0
            if tries > self.connection.attempts:
                raise ConnectionLost(
                    f"no connection lasted until LSN {self.durable + 1} was looked up"
                )
            left = chain(self._groups_to(again), left)

    def _check_sqlite(self) -> None:
        """Looks once, before its first block is sent, that it destroys no database of SQLite."""
        if self.overwrite_sqlite:
            return
        try:
            found = sqlite_in(self.page(0, self.durable).data) if self.durable else None
        except (TableRow, NoRowMatches):
            found = None  # the table does not let it look
        except (OtherPrimary, UnknownPrincipal) as error:
            self._ended = error
            raise
        if found is not None:
            raise found
        self.overwrite_sqlite = True

    def _take_turn(
        self, left: Iterator[Sequence[Block]], in_flight: int, turn: SendTurn
    ) -> Iterator[int]:
        """Sends groups until there are none, or until a reply is a refusal, or leaves a doubt. What is in flight then is
        read, so that it is known which copies each block is in.
        """
        for answer in self.connection.answers(
            self._requests(left, turn.plan, turn.ended), in_flight
        ):
            step, connection = turn.plan.popleft(), self.connection.connects
            refusal = self._refusal(answer)
            if step.copy is not None:
                self._note_write(step.sent, step.copy, refusal, answer.repeated, turn)
            elif refusal is not None:
                turn.refuse(refusal, answer.repeated, report=step.sent.block.lsn)
            elif turn.doubtful or not self._are_ours(step.sent.block.lsn, connection):
                turn.doubt(step.sent.block.lsn)
            else:
                self._is_quorum_shown |= self.quorum == QUORUM
                yield self._hardened(step.sent.block.lsn)

    def _note_write(
        self, sent: Sent, copy: int, refusal: Refusal | None, repeated: bool, turn: SendTurn
    ) -> None:
        """That a repeated write finds its LSN hardened is no refusal: whose block it is is looked up."""
        connection = self.connection.connects
        if refusal is None:
            sent.copies[copy] = connection
            # Only with a quorum of 4 there is such a copy.
            self._is_quorum_shown |= copy >= COPIES_OF_QUORUM[QUORUM]
            return
        is_hardened, is_repeated = (
            isinstance(refusal, HardenedAlready),
            repeated or sent.attempts > 1,
        )
        if is_hardened and is_repeated and not sent.is_anothers:
            if not sent.came_over(connection):
                turn.ended.append(refusal)
            return
        turn.refuse(refusal, repeated)
        if isinstance(refusal, OtherContent) or (is_hardened and not sent.came_over(connection)):
            sent.is_anothers = True
            sent.copies.clear()

    def _end_turn(self, turn: SendTurn, left: Iterator[Sequence[Block]]) -> Iterator[int]:
        error = self._settle(*turn.refusals[0])
        yield from (lsn for lsn in turn.reports if lsn <= self.durable)
        if error is None and next(left, None) is not None:
            error = turn.refusals[0][0]  # what was sent is in the log, and the rest was not sent
        if error is not None:
            raise error

    def _requests(
        self, groups: Iterable[Sequence[Block]], plan: deque[Step], ended: Sequence[object]
    ) -> Iterator[Request]:
        """A write for each block and copy, and a report for each group, until `ended` has something."""
        known = {sent.block.lsn: sent for sent in self._unhardened}
        left = iter(groups)
        while not ended and (group := next(left, None)) is not None:
            sending = [known.get(block.lsn) or self._new(block) for block in group]
            for sent in sending:
                sent.attempts += 1
                for copy in self.copies:
                    plan.append(Step(sent, copy))
                    yield self._request(Write(copy, sent.block))
            plan.append(Step(sending[-1], None))
            yield self._request(Report(sending[-1].block.lsn))

    def _new(self, block: Block) -> Sent:
        sent = Sent(block)
        self._unhardened.append(sent)
        return sent

    def _are_ours(self, lsn: int, connection: int) -> bool:
        """Whether the service of this connection took each block up to this LSN. A report hardens another's too."""
        return all(
            sent.came_over(connection)
            for sent in takewhile(lambda sent: sent.block.lsn <= lsn, self._unhardened)
        )

    def _hardened(self, lsn: int) -> int:
        self.durable = max(self.durable, lsn)
        while self._unhardened and self._unhardened[0].block.lsn <= self.durable:
            self._unhardened.popleft()
        return lsn

    def _refusal(self, answer: Answer) -> Refusal | None:
        """Why a write or a report was not done, if it was not."""
        if isinstance(answer.reply, Done):
            return None
        refusal = refusal_of(answer.reply)
        if refusal is None:
            self.connection.close()
            raise UnexpectedReply(f"a {type(answer.reply).__name__} to a write or a report")
        return refusal

    def _groups_to(self, ends: Iterable[int]) -> list[list[Block]]:
        """What is not known to be hardened, in groups that end at these LSNs."""
        groups, first = [], self.durable + 1
        for end in ends:
            groups.append(
                [sent.block for sent in self._unhardened if first <= sent.block.lsn <= end]
            )
            first = end + 1
        return groups

    def _look_up(self, last: int) -> Exception | None:
        """Looks whose the blocks up to LSN `last` are in the log of the service that there is a connection to. All of them are
        hardened there. Ends where the connection is lost. Returns what is to be raised: `HardenedAlready` for the first block of
        another, or why it cannot look, as `InDoubt`.
        """
        try:
            return self._look_up_each(last)
        except PagelogError as error:
            return error

    def _look_up_each(self, last: int) -> Exception | None:
        connection = self.connection.connects
        for sent in list(takewhile(lambda sent: sent.block.lsn <= last, self._unhardened)):
            is_ours = sent.came_over(connection) or self._is_ours(sent, connection)
            if is_ours is None:
                break
            _logger.info(
                "LSN %d, whose connection was lost, is %s",
                sent.block.lsn,
                "ours" if is_ours else "another's",
            )
            if not is_ours:
                sent.is_anothers = True
                sent.copies.clear()
                return HardenedAlready(Section.C, 2, sent.block.lsn)
            self._hardened(sent.block.lsn)
        return None

    def _is_ours(self, sent: Sent, connection: int) -> bool | None:
        """Whether the hardened block of this LSN is the one we sent; None where the connection was lost.

        Another connection may lead to another service, which was restored, and where another writes in an epoch of the same
        number. So neither an epoch of one's own nor what was said over an earlier connection is enough.
        """
        if self.witness is not None:
            return self._is_seen(self.witness, sent)
        if not self._alone and not sent.copies:
            raise InDoubt(
                f"LSN {sent.block.lsn} is hardened, and the connection was lost before the reply"
            )
        asked = gets_of(sent.block)
        with closing(
            self.connection.exchange(map(self._request, asked), 64, connection)
        ) as exchange:
            replies = list(exchange)
        if len(replies) < len(asked) or any(reported_epoch(reply) is not None for reply in replies):
            return None
        return pages_show(sent.block, replies)

    @staticmethod
    def _is_seen(witness: Reader, sent: Sent) -> bool:
        """Whether the log has this very block. That the table lets the witness look at nothing says nothing of the block."""
        try:
            return is_in_log(witness, sent.block)
        except (TableRow, NoRowMatches) as error:
            raise InDoubt(
                f"whether LSN {sent.block.lsn} is ours is not known: the table lets nobody look who would tell"
            ) from error

    def _settle(self, refusal: Refusal, was_repeated: bool) -> Exception | None:
        """What is to be raised; None where all that was sent is in the log all the same."""
        if isinstance(refusal, (AboveTheWindow, BelowQuorum)) and refusal.value < self.durable:
            return LogWentBack(
                f"{refusal.value} blocks where {self.durable} were seen: the service was restarted"
            )
        if isinstance(refusal, NewerEpoch):
            return LogWentBack(
                f"epoch {refusal.value} where {self.epoch} was seen: the service was restarted"
            )
        if isinstance(refusal, (OlderEpoch, OtherPrimary, UnknownPrincipal)):
            self._ended = refusal
        if not isinstance(refusal, OlderEpoch):
            return refusal
        return self._count_what_the_failover_kept(refusal, was_repeated)

    def _count_what_the_failover_kept(
        self, refusal: OlderEpoch, was_repeated: bool
    ) -> Exception | None:
        """A failover hardens what was in a quorum of copies. What became of a write without a reply only the log shows."""
        connection = self.connection.connects
        while (
            self._is_quorum_shown
            and self._unhardened
            and self._unhardened[0].stands(connection, self.quorum)
        ):
            self._hardened(self._unhardened[0].block.lsn)
        doubtful = self.quorum if self._is_quorum_shown else QUORUM
        if any(
            was_repeated or sent.attempts > 1 or len(sent.copies) >= doubtful
            for sent in self._unhardened
        ):
            if self.witness is None:
                lsn = self._unhardened[0].block.lsn
                return InDoubt(
                    f"epoch {self.epoch} ended, and whether LSN {lsn} is in the log was not reported"
                )
            try:
                while self._unhardened and self._is_seen(self.witness, self._unhardened[0]):
                    self._hardened(self._unhardened[0].block.lsn)
            except InDoubt as doubt:
                return doubt
        return refusal if self._unhardened else None

    def _take_over(self, epoch: int) -> None:
        """A primary does not take over an epoch after the one that it began in."""
        if self._is_fixed and epoch >= self.epoch:
            self._ended = OlderEpoch(Section.A, 2, epoch)
            raise self._ended
        super()._take_over(epoch)
