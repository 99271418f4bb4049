"""A writer of a named database, which follows it from generation to generation.

    primary = Primary.named("shop", keepers=["10.0.0.1:7500"], principal=2, token=.., operator=(1, ..))
    primary.append(Put(page=0, offset=0, data=b"hello"))
    position = primary.commit(durable=True)

A position is what an LSN is to one service, and stands for the same block in all generations.
"""

from __future__ import annotations

import hashlib
import time
from typing import NoReturn, Sequence

from pagelog.block import Block, Record, check_record
from pagelog.client import FIRST_EPOCH
from pagelog.credentials import Credentials
from pagelog.errors import InDoubt, OutOfMemory, PagelogError, TimedOut
from pagelog.following import GONE, Following, NamedAccount
from pagelog.operator import Operator
from pagelog.packing import PackedBlocks
from pagelog.place import QUICKEST, SLOWEST, Dropped, GenerationFate, Lost, Place
from pagelog.primary import Primary
from pagelog.reader import Reader
from pagelog.repeating import Backoff
from pagelog.request import PULL_MAX, QUORUM
from pagelog.rules import (
    Denial,
    NoRowMatches,
    OlderEpoch,
    OtherPrimary,
    TableRow,
    UnknownPrincipal,
    UnlistedPrimary,
)
from pagelog.run_tokens import KEEPER
from pagelog.secure import SecurityError, Trust

TAIL = 16 << 20
"""The most bytes of blocks that are kept because they are not known to be durable. Then a commit waits for the archive."""
PULLS = 64
"""Of one comparison: 1,024 blocks at most."""
_DENIED = (OlderEpoch, OtherPrimary, TableRow, NoRowMatches)


class _NotToBeKnown(InDoubt):
    """The table lets the writer not look at its own blocks, so that no further try helps."""


class NamedPrimary(Following):
    """Writes a named database, in an epoch of its own in each generation.

    `commit` returns a position once the blocks are in the log of the service; a death of that service may still take them,
    until they are durable. They are kept here meanwhile, and written again into the next generation, at the same positions,
    if nobody else has written there: so what a living writer has committed survives the service. `Lost` is raised where
    another has gone on. A denial as `OlderEpoch` is raised where another writer has begun an epoch, as of any `Primary`. After
    an epoch of a keeper, which closes the generation, it begins again.

    A first call raises `NoKeeper`, `UnknownName`, `WrongToken` or a denial as `TableRow` at once where that is what bars it; it may be
    called again.

    It begins with a failover to itself, for which it needs an operator. Where its table lets it pull as a secondary, it finds
    out by itself what became of a commit that was cut off; else that may be `InDoubt`. It is for one thread at a time.
    """

    def __init__(
        self,
        name: str,
        keepers: Sequence[str],
        principal: int,
        token: str,
        operator: tuple[int, str],
        *,
        quorum: int = QUORUM,
        patience: float = 60.0,
        timeout: float = 10.0,
        overwrite_sqlite: bool = False,
        trust: Trust | None = None,
    ) -> None:
        """`patience` is for a place or an answer of the keepers, `timeout` for a reply of the service, in seconds. With `trust` all of
        them are reached by TLS."""
        super().__init__(
            name, keepers, principal, token, patience=patience, timeout=timeout, trust=trust
        )
        self.end = 0
        """The position of the last block of the log, as far as this writer knows."""
        self.durable_end = 0
        """The position up to which the database is known to be durable."""
        self._operator, self._quorum = NamedAccount(name, *operator), quorum
        self._overwrite_sqlite = overwrite_sqlite
        """Whether it may write pages of a SQLite database, or has written, and so seen that there is none."""
        self._primary: Primary | None = None
        self._epoch: int | None = None
        self._may_have_begun = True
        """Whether the newest epoch may be of a failover of its own whose reply was lost."""
        """The epoch that this writer has begun last, in the generation of its place; None once something was lost."""
        self._told = 0
        """The highest position that a commit has returned, if it is not known to be lost."""
        self._ended: PagelogError | None = None
        self._over: int | None = None
        """The generation of its place, once the keepers have said that it is over."""
        self._records: list[Record] = []
        self._insecure = ""
        """What was wrong with TLS of the service that was tried last."""
        self._is_urgent = False
        """Whether the archive is waited for once the blocks are in the log: then it is told of them before."""
        self._tail: list[Block] = []
        """Blocks above `durable_end` up to `end`, and those of a commit that is under way."""

    def _leave(self) -> None:
        if self._primary is not None:
            self._primary.close()
            if self._primary.witness is not None:
                self._primary.witness.close()
        self._primary = None

    # Writing.

    def append(self, *records: Record) -> None:
        """Puts records into the commit that is open. Raises as `Primary.append` for a faulty one, which is not taken."""
        for record in records:
            check_record(record)
            self._records.append(record)

    def commit(self, *, durable: bool = False) -> int:
        """Writes what was appended, and returns the position of its end; with `durable` once the archive has it.

        Raises `Lost` where another writer has gone on before it, or before an earlier commit that was not durable: nothing of
        either is in the database. After `TimedOut` and the like it may be called again, and goes on.
        """
        try:
            self._begin()
        except Lost:
            self._records = []
            raise
        self._pack([self._records])
        self._records = []
        self._is_urgent = durable
        position = self._last  # the log may go on behind it, by another writer
        self._write_all()
        self._told = position
        if durable or sum(len(block.data) for block in self._tail) > TAIL:
            self.durable(position)
        return position

    def durable(self, position: int) -> None:
        """Returns once the archive has all up to the position, which a commit has returned.

        Raises `Lost` where it never will: that is final, and so is a return.
        """
        if isinstance(self._ended, Dropped):
            raise self._ended
        if position > self._last and self._ended is not None:
            raise Lost(self._last + 1)
        if position > self._last:
            raise ValueError(f"position {position} was not committed: the end is {self._last}")
        while position > self.durable_end:
            if self._ended is None:
                self._write_all()
            assert self.place is not None
            fate = self._fate(self.place, position)
            self._is_durable(fate.end)
            if fate.is_over:
                self._over = self.place.generation
                self._leave()  # the next commit asks nothing of a service that is about to end
                if position > fate.end:
                    self._go_on(fate)

    def _go_on(self, fate: GenerationFate) -> None:
        """Its generation is over, before all was durable. A writer that has ended writes nothing of that again: it is lost, unless its run
        continues."""
        if self._ended is None:
            self._move()
        elif fate.continues is None:
            raise Lost(fate.end + 1)
        else:
            self.place = fate.continues

    def pack(self, commits: Sequence[Sequence[Record]]) -> list[int]:
        """Makes blocks of the records of some commits, which `commit` writes then. Those of one that fit into a block are in one. Returns
        the position of each one's end. Raises where no epoch can be begun: then nothing is taken.
        """
        self._begin()
        return self._pack(commits)

    def _begin(self) -> None:
        """Begins an epoch, if it has none. Raises what has ended it: where that shows that another writer has one, it has ended then."""
        while self._ended is None and (self._primary is None or self._is_behind_another()):
            if self._primary is None:
                self._move()
            else:
                self.durable(self._last)  # the next block does not follow on it
        if self._ended is not None:
            raise self._ended

    def _is_behind_another(self) -> bool:
        """Whether another writer has gone on behind its last block."""
        return bool(self._tail) and self._last < self.end

    @property
    def _last(self) -> int:
        """The position of the last block that it has, or else of the log."""
        return self._tail[-1].lsn if self._tail else self.end

    def _pack(self, commits: Sequence[Sequence[Record]]) -> list[int]:
        packed = PackedBlocks(self._last + 1)
        ends = [packed.add(records) for records in commits]
        packed.close()
        self._tail += packed.blocks
        return ends

    def _write_all(self) -> None:
        """Writes what is above the end, wherever the database is by then."""
        while self._tail and self._tail[-1].lsn > self.end:
            self._write()

    def _write(self) -> None:
        """Writes the blocks above the end, here or in the next generation."""
        if self._primary is None:
            if self._ended is not None:
                return self._end_for(self._ended)  # it was fenced as it began
            self._move()
            return
        assert self.place is not None
        shift = self.place.shift
        try:
            self._primary.commit()  # what a call that raised has left on its way
            self.end = max(self.end, self._primary.durable + shift)
            for lsn in self._primary.harden(
                [block.at(block.lsn - shift) for block in self._tail if block.lsn > self.end]
            ):
                self.end = max(self.end, lsn + shift)
                self._overwrite_sqlite = True
        except OutOfMemory as error:
            self._make_room(error)
        except (*GONE, *_DENIED) as error:
            if isinstance(error, OlderEpoch):
                self.end = max(
                    self.end, self._primary.durable + shift
                )  # a failover keeps what was in a quorum of copies
            self._move(error)

    def _make_room(self, error: OutOfMemory) -> None:
        """Has the next generation begun, and goes on in it. Raises the error where there is none in time; later it may be tried again."""
        assert self.place is not None
        place, over = self.place, self._over
        self.keepers.full(place)
        self._over = place.generation
        try:
            self._move(error)
        finally:
            if self.place is place:
                self._over = over

    def _ring(self) -> None:
        if self._is_urgent and self.place is not None:
            self.keepers.ring(self.place)

    # Moving.

    def _move(self, error: PagelogError | None = None) -> None:
        """Begins an epoch where the database is now, and brings the tail along. After a generation that is over the next is waited for.

        `error` is what it is for: it is raised where another writer is the cause.
        """
        try:
            self._move_on(error)
        except Dropped as gone:
            self._is_gone(gone)
            raise

    def _move_on(self, error: PagelogError | None) -> None:
        before = -1 if self.place is None else self.place.generation
        deadline, waits = time.monotonic() + self.keepers.patience, Backoff(QUICKEST, SLOWEST)
        denial = error if isinstance(error, _DENIED) else None
        newest, may_stay = before, denial is None
        self._may_have_begun = denial is None
        while True:
            place = self.keepers.place() if self.place is None else self.keepers.after(self.place)
            is_next = place.generation > before
            is_here = self.place is None or place.run == self.place.run
            if denial is not None and is_here and not is_next and self._is_anothers(place):
                self._leave()
                return self._end_for(denial)
            # Where its keeper has closed it, the next generation comes; if it does not, the keeper was killed, and its next instance opens it.
            may_begin = is_next or (may_stay and before != self._over)
            if may_begin and not self._is_of_another_run(place):
                if self._is_settled(place):
                    return
                if self._may_have_begun:
                    denial = None  # the newest epoch may be its own, whose reply was lost
            may_stay = True
            if time.monotonic() > deadline:
                if error is not None and not isinstance(error, _DENIED):
                    raise error
                raise TimedOut(
                    f"in {self.keepers.patience} s no generation of {self.keepers.name} could be used{self._insecure}"
                ) from error
            # Another keeper may have seen the take, and told of it, before the one that took has let anybody in.
            self.keepers.wait_for(
                place.generation + 1, waits.next(), place if place.generation > newest else None
            )
            newest = max(newest, place.generation)

    def _is_of_another_run(self, place: Place) -> bool:
        """Whether another run has the number of this writer's generation: PostgreSQL went back. Raises `Lost` where it went on with that."""
        if (
            self.place is None
            or place.generation != self.place.generation
            or place.run == self.place.run
        ):
            return False
        self._fate(self.place, 0)
        return True

    def _count_at(self, place: Place) -> None:
        """What of the blocks above the end is in the log, though no reply has said so, or in the images that it began with."""
        try:
            if self._lost_below(place) is not None:
                return
            with Reader(self._connection(place), self._account.of(place)) as witness:
                for block in [block for block in self._tail if block.lsn > self.end]:
                    if block.lsn > witness.status().hard + place.shift or not self._is_there(
                        place, witness, block
                    ):
                        break
                    self.end = block.lsn
        except PagelogError as doubt:
            raise InDoubt(
                f"another writer has gone on, and what is in the log above position {self.end} is not known"
            ) from doubt

    def _end_for(self, error: PagelogError) -> None:
        """Another writer has begun an epoch: what is not in the log now never will be, and this writer writes no more.

        Raises the error, unless all that was to be written is in the log; `Lost` where a commit had returned.
        """
        self._ended = error
        was_cut = bool(self._tail) and self._tail[-1].lsn > self.end
        self._tail = [block for block in self._tail if block.lsn <= self.end]
        if self.end < self._told:
            raise Lost(self.end + 1) from error
        if was_cut:
            raise error

    def _is_anothers(self, place: Place) -> bool:
        """Whether another client's failover is what denied; it may have been the keeper, who closes the generation. A service that is
        being killed is not asked: it would be silent until all its memory is freed.
        """
        if self.keepers.has_left(place):
            return False
        try:
            with Operator(self._connection(place), self._operator.of(place)) as operator:
                return operator.status().primary != KEEPER
        except PagelogError:
            return False

    def _is_settled(self, place: Place) -> bool:
        """Whether this writer has begun an epoch at the place. What became of the tail is settled then."""
        self._leave()
        credentials = self._account.of(place)
        witness = Reader(self._connection(place, 2), credentials)
        primary = None
        try:
            is_next = self.place is not None and place.generation > self.place.generation
            known = 0
            if is_next:
                self._take_kept(place)
            if not is_next or not self._is_first(place, credentials):
                # Looked at before, so that a writer which has lost something fences nobody.
                hard = self._hard(witness) if self._tail and is_next else None
                if hard is not None:
                    known = hard + place.shift
                    self._settle_tail(place, witness, 0, known)
                self._begin_epoch(place, credentials)
            primary = self._begun(place, credentials, witness)
            self._settle_tail(place, witness, known, primary.durable + place.shift)
            self._see_accepted(place.run)
            self.end, self.place, self._primary = primary.durable + place.shift, place, primary
            self.keepers.is_of(place)
        except _NotToBeKnown:
            raise
        except (OlderEpoch, OtherPrimary) as error:
            if not self._is_anothers(place):
                return False
            self._ended = error
            self._count_at(place)
            self._end_for(error)
            return True
        except GONE as error:
            if isinstance(error, UnknownPrincipal):
                self._see_refused(
                    place, f"principal {self._account.id} or operator {self._operator.id}"
                )
            self._insecure = f": {error}" if isinstance(error.__cause__, SecurityError) else ""
            return False
        except UnlistedPrimary:
            self._see_refused(place, f"principal {self._account.id}")
            return False
        except (TableRow, NoRowMatches) as error:
            if self._is_barred(place, witness, error):
                raise
            return False
        except OutOfMemory:
            if primary is not None:
                raise  # of its epoch: the next call looks again what became of the tail
            self.keepers.full(place)
            return False
        finally:
            if (
                self._primary is None
            ):  # whatever has ended it, nothing is written before what became of the tail is settled
                for client in (primary, witness):
                    if client is not None:
                        client.close()
        self._is_durable(place.archived)
        return True

    def _is_barred(self, place: Place, witness: Reader, error: Denial) -> bool:
        """Whether a row of the database's own denies it. Of a run that its keeper closes, or has not opened yet, the second row denies all
        writers, and the fourth all operators."""
        if error.row not in (2, 4):
            return True
        try:
            return witness.status().primary != KEEPER and not self.keepers.has_left(place)
        except PagelogError:
            return False

    def _hard(self, witness: Reader) -> int | None:
        """The end of the log; None where the table does not let this principal look."""
        try:
            return witness.status().hard
        except (TableRow, NoRowMatches):
            return None

    def _take_kept(self, place: Place) -> None:
        """What the generation that it comes from had of this writer's blocks is durable, up to where that generation ended."""
        assert self.place is not None
        if place.run == self.place.run:
            return  # it continues, as PostgreSQL went back: its log is the same, and is archived again
        end = (
            place.kept
            if place.after == self.place.run
            else self._fate(self.place, self.end, place.lines).end
        )
        if end < self.durable_end:
            lost = self._forget_from(end + 1)
            raise Lost(lost, "PostgreSQL went back, and has lost what was durable")
        if self._tail and self._tail[0].lsn <= self.end:
            self._is_durable(end)
        if self._tail and end < self._tail[0].lsn - 1:  # others' blocks, upon which its own stand
            self._lose_from(place, end + 1, end)

    def _fate(self, place: Place, position: int, lines: str | None = None) -> GenerationFate:
        """What became of a position. Raises `Lost` where PostgreSQL went on without this run, and `Dropped`."""
        try:
            fate = self.keepers.fate(place, position, lines)
        except Dropped as error:
            self._is_gone(error)
            raise
        if fate.is_lost:
            raise Lost(self._forget_from(self.durable_end + 1), fate.why)
        return fate

    def _forget_from(self, lost: int) -> int:
        """Returns the position."""
        self._forget()
        return lost

    def _is_gone(self, error: Dropped) -> None:
        """This writer writes no more."""
        self._forget()
        self._ended = error

    def _forget(self) -> None:
        """Nothing of what it knew of the log is true any more. It writes nothing of it again."""
        self._tail, self.place, self._epoch, self._over = [], None, None, None
        self.end = self._told = self.durable_end
        self._leave()

    def _is_first(self, place: Place, credentials: Credentials) -> bool:
        """Whether it has begun the epoch after the keeper's own, of a writer that has lost nothing: then nobody has written there."""
        if any(block.lsn <= self.end for block in self._tail):
            return False
        try:
            with Operator(self._connection(place, 2), self._operator.of(place)) as operator:
                self._epoch = operator.failover(credentials.id, epoch=FIRST_EPOCH)
            return True
        except OlderEpoch:
            return False

    def _begin_epoch(self, place: Place, credentials: Credentials) -> None:
        """Begins an epoch. In the generation that it was in, it follows on the epoch that this writer has begun last: another writer
        that came since is not fenced."""
        known = (
            self._epoch
            if self.place is not None and self.place.generation == place.generation
            else None
        )
        with Operator(self._connection(place, 2), self._operator.of(place)) as operator:
            while True:
                try:
                    self._epoch = operator.failover(credentials.id, epoch=known)
                    self._may_have_begun = True
                    break
                except InDoubt:
                    self._may_have_begun = True
                    raise
                except OlderEpoch as error:
                    primary = operator.status().primary
                    may_be_own = primary == credentials.id and self._may_have_begun
                    if primary != KEEPER and not may_be_own:
                        raise
                    known = error.epoch

    def _begun(self, place: Place, credentials: Credentials, witness: Reader) -> Primary:
        """The primary of the epoch that was begun, if it is that still: a writer without one begins none in another's way."""
        primary = Primary(
            self._connection(place, 2),
            credentials,
            epoch=self._epoch,
            alone=True,
            quorum=self._quorum,
            witness=witness,
            overwrite_sqlite=self._overwrite_sqlite,
        )
        primary.connection.when_sent = self._ring
        try:
            primary.begin()
        except BaseException:
            primary.close()
            raise
        return primary

    def _settle_tail(self, place: Place, witness: Reader, known: int, hard: int) -> None:
        """Compares what the log has of the tail above what is `known`. The rest is to be written again, if the log ends where it begins.

        Raises `Lost` for the first block of it that is not there and never will be.
        """
        if self.place is None:
            self.durable_end = min(hard, place.archived)
        lost = self._lost_below(place)
        if lost is None:
            lost = self._first_other(
                place, witness, [block for block in self._tail if known < block.lsn <= hard]
            )
        if lost is None and self._tail and hard < self._tail[0].lsn - 1:
            lost = hard + 1  # what it was made upon is missing
        if lost is not None:
            self._lose_from(place, lost, hard)

    def _lose_from(self, place: Place, lost: int, hard: int) -> NoReturn:
        """What it has committed from a position on is not in the log, which ends at `hard` there. Raises `Lost`."""
        self._tail = [block for block in self._tail if block.lsn < lost]  # it is not durable yet
        self.end, self.place, self._epoch = hard, place, None
        self.keepers.is_of(place)
        self._told = min(self._told, lost - 1)
        self.durable_end = min(self.durable_end, lost - 1)
        self._leave()
        raise Lost(lost)

    def _lost_below(self, place: Place) -> int | None:
        """Drops what of the tail is in the images that the service began with: no block of them can be pulled there, and the archive
        is asked. Returns the first position of this writer's that is lost."""
        for block in [block for block in self._tail if block.lsn <= place.base]:
            digest = self.keepers.block(block.lsn)
            if digest is None:
                raise _NotToBeKnown(
                    f"whether position {block.lsn} is this writer's is not known: the archive has its block no more"
                )
            if digest != hashlib.sha256(block.data).hexdigest():
                return block.lsn
            self.end = max(self.end, block.lsn)
            self._is_durable(block.lsn)
        return None

    def _is_there(self, place: Place, witness: Reader, block: Block) -> bool:
        """Whether the log has this very block at its position."""
        return self._first_other(place, witness, [block]) is None

    def _first_other(self, place: Place, witness: Reader, blocks: Sequence[Block]) -> int | None:
        """The first position of these blocks, which have no gap, at which the log has another one. Many are pulled at once."""
        at = 0
        while at < len(blocks):
            try:
                span = witness.span(
                    blocks[at].lsn - place.shift,
                    pulls=min(PULLS, -(-(len(blocks) - at) // PULL_MAX)),
                )
            except (TableRow, NoRowMatches) as error:
                raise _NotToBeKnown(
                    f"whether position {blocks[at].lsn} is this writer's is not known: its table lets it pull nothing"
                ) from error
            found = {served.lsn: served for served in span.blocks}
            for block in blocks[at : at + max(1, span.last + 1 - span.first)]:
                lsn = block.lsn - place.shift
                if found.get(lsn, Block.of(lsn)) != block.at(lsn):
                    return block.lsn
                at += 1
        return None

    def _is_durable(self, end: int) -> None:
        self.durable_end = max(self.durable_end, min(end, self.end))
        self._tail = [block for block in self._tail if block.lsn > self.durable_end]
