"""A reader: pages and blocks of the hardened log, as a secondary."""

from __future__ import annotations

import logging
import time
from dataclasses import dataclass
from typing import TYPE_CHECKING, Callable, Iterator, Sequence

from pagelog.block import Block
from pagelog.client import ALL_PARTITIONS, PageClient, reported_epoch
from pagelog.errors import ConnectionLost, LogWentBack, OutOfMemory, TimedOut
from pagelog.repeating import Backoff
from pagelog.reply import Blocks, Denied, NoMemory, Reply, expect, refusal_of
from pagelog.request import PULL_MAX, Act, Pull, Role
from pagelog.rules import AboveTheEnd, Section
from pagelog.secure import Trust

if TYPE_CHECKING:
    from pagelog.named_reader import NamedReader

_logger = logging.getLogger("pagelog")
QUICKEST = 0.005
"""The first wait, in seconds, of one who follows and finds nothing new. It is doubled from then on."""


@dataclass(frozen=True, slots=True)
class Span:
    """Blocks that were pulled, and the LSNs that they cover: `first` to `last`, which is below `first` if none.

    An LSN of the span that no block of it has is a block that touches none of the partitions asked for. Where all
    partitions were asked for it is a block without records. All came over one connection, whose number is `connection`.
    """

    first: int
    last: int
    blocks: tuple[Block, ...]
    connection: int = 0


class Reader(PageClient):
    """Reads the hardened log of a database, as a secondary. A failover does not disturb it.

    Whenever the connection was made again, a block that it has pulled is pulled again and compared, before any other reply is
    believed: `LogWentBack` where the service has another log, as after a restore that lacks what was seen. A reader that has
    pulled no block compares none.
    """

    role = Role.SECONDARY
    compares_logs = True
    """Whether it does so. One that compares more by itself, as an archiver, takes this upon itself."""
    _seen: tuple[Block, tuple[int, int]] | None = None
    """The last block that was pulled, and of which partitions."""
    _seen_over = 0
    """Over which connection that, or one equal to it, has come."""
    _at_once: int | None = None
    """How many pulls of a span are in flight together, where a line that was cut let no more through."""
    _most = PULL_MAX
    """How many blocks the first pull of a span asks for: fewer where the line is cut before they have come."""
    _whole = 0
    """How many blocks have come since over the connection that there is."""
    has_lacked_memory = False
    """Whether the service had no memory for one of its pulls."""

    @classmethod
    def named(
        cls,
        name: str,
        *,
        keepers: Sequence[str],
        principal: int,
        token: str,
        durable_only: bool = False,
        pages: str = "prefer",
        patience: float = 60.0,
        timeout: float = 10.0,
        trust: Trust | None = None,
    ) -> NamedReader:
        """The reader of a named database, which its keepers have somewhere; with `durable_only` of what cannot be lost. `pages` is whether
        page servers are asked: "prefer", "never" or "only"."""
        from pagelog.named_reader import NamedReader

        return NamedReader(
            name,
            keepers,
            principal,
            token,
            durable_only=durable_only,
            pages=pages,
            patience=patience,
            timeout=timeout,
            trust=trust,
        )

    def answers(self, acts: Sequence[Act]) -> list[Reply]:
        """The replies to gets, pulls and statuses that are asked together. None is turned into an exception."""
        return self._ask_all(acts)

    def forget(self) -> None:
        """Takes the service to be a new one, of which nothing was seen."""
        super().forget()
        self._seen = None

    def _ask_all(
        self, acts: Sequence[Act], in_flight: int = 64, over: int | None = None
    ) -> list[Reply]:
        """As every client, and compares a block where the connection is another than before."""
        for _ in range(max(2, self.connection.attempts)):
            replies = super()._ask_all(acts, in_flight, over)
            if self._is_log_that_was_seen():
                return replies
            if over is not None:
                return []
        raise ConnectionLost(
            "no connection lasted until the log was compared with what was seen of it"
        )

    def _is_log_that_was_seen(self) -> bool:
        """Whether the service of this connection has the block that was seen; False where the connection was lost again.

        Raises `LogWentBack` where it has not. Where the table does not let it look any more there is nothing to compare.
        """
        connects = self.connection.connects
        if self._seen is None or connects == self._seen_over or not self.compares_logs:
            return True
        block, partitions = self._seen
        for reply in self.connection.exchange(
            (self._request(Pull(block.lsn, 1, *partitions)),), 1, connects
        ):
            if reported_epoch(reply) is not None:
                return False
            is_above = isinstance(reply, Denied) and (reply.section, reply.row) == (Section.C, 1)
            if is_above or (isinstance(reply, Blocks) and reply.blocks != (block,)):
                raise LogWentBack(
                    f"the block at LSN {block.lsn} is not the one that was seen: the service has another log"
                )
            if not isinstance(reply, NoMemory):  # then it is compared with the next request
                self._seen_over = connects
            return True
        return False

    def _remember(self, blocks: Sequence[Block], partitions: tuple[int, int]) -> None:
        if blocks:
            self._seen, self._seen_over = (blocks[-1], partitions), self.connection.connects

    def applied(self, partition: int) -> int:
        """The applied LSN of a partition, 0 where no page server has advanced it."""
        return self.page(partition * 65536, 0, exact=False).at

    def pull(
        self, lsn: int, *, max: int = PULL_MAX, partitions: tuple[int, int] = ALL_PARTITIONS
    ) -> Blocks:
        """One pull: at most `max` blocks, 1 to 16, from this LSN on that touch one of the partitions, both included.

        Raises `AboveTheEnd` where the LSN is above the hardened end.
        """
        blocks = expect(Blocks, self._ask(Pull(lsn, max, *partitions)))
        self._saw_hard_at_least(blocks.next - 1)
        self._remember(blocks.blocks, partitions)
        return blocks

    def span(
        self, lsn: int, *, pulls: int = 64, partitions: tuple[int, int] = ALL_PARTITIONS
    ) -> Span:
        """All that is hardened from this LSN on, as far as `pulls` pulls (1 or more) reach, all in flight together.

        A span that ends below its beginning says that nothing new is hardened. What a later pull of it is refused for is
        left to the next span: this one ends before. So it does where the connection is lost: a span is of one service, and
        what came whole is not pulled again. Where no reply of a pull comes whole, or the service has no memory for it, it asks
        for fewer blocks. Raises `LogWentBack` where the log has become shorter than it was.
        """
        first = self._first_of(lsn, partitions)
        over = first.connection
        if pulls > 1 and len(first.blocks) == PULL_MAX and self.hard_seen <= first.last:
            self.status()
        if pulls == 1 or self.hard_seen <= first.last or self._most < PULL_MAX:
            return first
        # Each serves at least the blocks of the sixteen LSNs from its own on, so that the next may begin after them.
        starts = range(
            first.last + 1,
            min(first.last + 1 + PULL_MAX * (pulls - 1), self.hard_seen + 1),
            PULL_MAX,
        )
        starts = starts[: self._at_once]
        rest = self._span_of(starts, partitions, behind=first, over=over)
        return Span(lsn, rest.last, first.blocks + rest.blocks, over)

    def _first_of(self, lsn: int, partitions: tuple[int, int]) -> Span:
        """The span of one pull, of half as many blocks where no connection lasts until its reply has come, or no memory is there for it."""
        while True:
            connects = self.connection.connects
            try:
                span = self._span_of((lsn,), partitions, most=self._most)
            except (ConnectionLost, OutOfMemory) as error:
                self.has_lacked_memory |= isinstance(error, OutOfMemory)
                if self._most == 1 or isinstance(error, TimedOut):
                    raise
                self._most, self._whole = self._most // 2, 0
                continue
            self._whole = (
                self._whole + len(span.blocks) if connects == self.connection.connects else 0
            )
            if self._whole > 4 * PULL_MAX:
                self._most = PULL_MAX
            return span

    def _span_of(
        self,
        starts: Sequence[int],
        partitions: tuple[int, int],
        *,
        behind: Span | None = None,
        over: int | None = None,
        most: int = PULL_MAX,
    ) -> Span:
        blocks: list[Block] = []
        last = starts[0] - 1
        replies = self._ask_all([Pull(start, most, *partitions) for start in starts], 64, over)
        if len(replies) < len(starts):
            self._at_once = max(1, len(replies))
        elif over is not None and self._at_once is not None:
            self._at_once = 2 * self._at_once if self._at_once < 64 else None
        for start, reply in zip(starts, replies):
            if self._is_at_end(reply, start):
                break
            if start > last + 1:
                break  # a row of the table ended below when the pull before was served, and does not now
            if (blocks or behind) and refusal_of(reply) is not None:
                break  # rows of a table may end at an LSN, and memory may run out; what was served is not lost
            pulled = expect(Blocks, reply)
            blocks.extend(block for block in pulled.blocks if block.lsn > last)
            last = max(last, pulled.next - 1)
            self._saw_hard_at_least(last)
        self._remember(blocks, partitions)
        return Span(starts[0], last, tuple(blocks), self.connection.connects)

    def _is_at_end(self, reply: Reply, lsn: int) -> bool:
        """Whether the reply to a pull says that nothing from its LSN on is hardened. Then the log ends just below it."""
        if not isinstance(reply, Denied) or (reply.section, reply.row) != (Section.C, 1):
            return False
        if reply.value < self.hard_seen:
            raise LogWentBack(
                f"{reply.value} blocks where {self.hard_seen} were seen: the service was restarted"
            )
        if reply.value < lsn - 1:
            raise AboveTheEnd(reply.section, reply.row, reply.value)
        return True

    def _saw_hard_at_least(self, hard: int) -> None:
        self.hard_seen = max(self.hard_seen, hard)

    def blocks(
        self,
        lsn: int = 1,
        *,
        follow: bool = True,
        partitions: tuple[int, int] = ALL_PARTITIONS,
        idle: float = 0.5,
        stop: Callable[[], bool] = lambda: False,
    ) -> Iterator[Block]:
        """The hardened blocks from this LSN on, in order, each once.

        With `follow` it goes on for ever, or until `stop` says so: at the end of the log it waits, at most `idle`
        seconds, and asks again. Each such question makes an entry in the audit list. Without, it ends at the end that
        the log has when it gets there. A block without records is never served, so LSNs may be missing.
        """
        for span in self.spans(lsn, follow=follow, partitions=partitions, idle=idle, stop=stop):
            yield from span.blocks

    def spans(
        self,
        lsn: int = 1,
        *,
        follow: bool = True,
        pulls: int = 64,
        partitions: tuple[int, int] = ALL_PARTITIONS,
        idle: float = 0.5,
        stop: Callable[[], bool] = lambda: False,
    ) -> Iterator[Span]:
        """As `blocks`, span by span. Each begins where the one before it ended, so they leave no LSN out."""
        waits = Backoff(QUICKEST, idle)
        while not stop():
            span = self.span(lsn, pulls=pulls, partitions=partitions)
            if span.last >= lsn:
                lsn = span.last + 1
                waits.reset()
                yield span
            elif not follow:
                return
            else:
                wait = waits.next()
                _logger.debug(
                    "nothing is hardened from LSN %d on; asking again in %.3f s", lsn, wait
                )
                time.sleep(wait)
