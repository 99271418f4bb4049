"""What the four kinds of client have in common: a connection, credentials, a database, and the epoch."""

from __future__ import annotations

from contextlib import closing
from typing import Any, Self, Sequence

from pagelog.block import HIGHEST_PARTITION
from pagelog.closing import Closable
from pagelog.connection import Address, Connection
from pagelog.credentials import Account, Credentials
from pagelog.errors import LogWentBack, UnexpectedReply
from pagelog.matching import mismatch
from pagelog.reply import Denied, Page, Reply, State, expect, refusal_of
from pagelog.request import Act, Get, Head, Request, Role, Status
from pagelog.rules import Section
from pagelog.secure import Trust

FIRST_EPOCH = 1
ALL_PARTITIONS = (0, HIGHEST_PARTITION)
MOST_EPOCHS = 64
"""In how many epochs one after the other a call asks again. A service whose epoch is another each time is none."""


def reported_epoch(reply: Reply) -> int | None:
    """The current epoch, where the reply denies for the sake of another."""
    if isinstance(reply, Denied) and reply.section is Section.A and reply.row in (2, 3):
        return reply.value
    return None


def lets_in(reply: Reply) -> bool:
    """Whether the reply shows that the table lists the principal: it is no refusal, or a denial by another rule than A1."""
    if isinstance(reply, Denied):
        return (reply.section, reply.row) != (Section.A, 1)
    return refusal_of(reply) is None


class Client(Closable):
    """Asks as one principal, in one role, of one database.

    It takes over the epoch that a denial A2 or A3 reports, and asks again; a primary does not, see `Primary`. The epoch
    and the hardened end of one log only rise: where either is below what was seen, `LogWentBack` is raised.

    Every call raises what the connection raises, and a `Refusal` for a reply that refuses.
    """

    role: Role

    def __init__(self, connection: Connection, credentials: Credentials, database: int = 0) -> None:
        self.connection = connection
        self.credentials = credentials
        self.database = database
        self.epoch = FIRST_EPOCH
        self.hard_seen = 0
        """The highest hardened end that a reply reported."""
        self.was_let_in = False
        """Whether a reply to anything but a write or a failover has shown that the table lists this principal, or once did."""
        self._head: Head | None = None

    @classmethod
    def open(
        cls,
        account: Account,
        database: int = 0,
        *,
        timeout: float = 10.0,
        **options: Any,
    ) -> Self:
        """A client over a connection of its own. The options are those of the class, as `quorum` of a primary."""
        return cls(
            Connection(account.to, timeout=timeout, trust=account.trust),
            account.credentials,
            database,
            **options,
        )

    @classmethod
    def at(
        cls,
        address: Address | str,
        id: int,
        token: str,
        database: int = 0,
        *,
        trust: Trust | None = None,
        **options: Any,
    ) -> Self:
        """A client of the service at an address as `127.0.0.1:7400`; the token has 32 hexadecimal digits.

        The options are those of the class, as `quorum` of a primary.
        """
        return cls(Connection(address, trust=trust), Credentials.of(id, token), database, **options)

    def close(self) -> None:
        """Closes the connection. A later call opens it again."""
        self.connection.close()

    def status(self) -> State:
        """Epoch, primary and hardened end."""
        state = expect(State, self._ask(Status()))
        self._saw_hard(state.hard)
        return state

    def forget(self) -> None:
        """Takes the service to be a new one, of which nothing was seen."""
        self.epoch, self.hard_seen = FIRST_EPOCH, 0

    # The epoch.

    def _request(self, act: Act) -> Request:
        head = self._head
        if head is None or head.epoch != self.epoch:
            head = Head(
                self.credentials.id, self.credentials.token, self.role, self.database, self.epoch
            )
            self._head = head
        return Request(head, act)

    def _take_over(self, epoch: int) -> None:
        """The epoch is this one now. Epochs of one log only rise."""
        if epoch < self.epoch:
            raise LogWentBack(
                f"epoch {epoch} where {self.epoch} was seen: the service was restarted"
            )
        self.epoch = epoch

    def _saw_hard(self, hard: int) -> None:
        if hard < self.hard_seen:
            raise LogWentBack(
                f"{hard} blocks where {self.hard_seen} were seen: the service was restarted"
            )
        self.hard_seen = hard

    # Asking.

    def _ask(self, act: Act) -> Reply:
        [reply] = self._ask_all((act,))
        return reply

    def _ask_all(
        self, acts: Sequence[Act], in_flight: int = 64, over: int | None = None
    ) -> list[Reply]:
        """The replies, in order. Those that were denied for an older epoch are asked again in the one that was reported.

        With `over` they are fewer where that connection was lost: those that came over it.
        """
        replies: list[Reply | None] = [None] * len(acts)
        for _ in range(MOST_EPOCHS):
            left = [at for at, reply in enumerate(replies) if reply is None]
            if not left:
                return [reply for reply in replies if reply is not None]
            epoch, came = self._ask_once(acts, left, replies, in_flight, over)
            if epoch is not None:
                self._adopt(epoch)
            elif came < len(left):
                return [reply for reply in replies[: left[came]] if reply is not None]
        raise UnexpectedReply(f"{MOST_EPOCHS} epochs ended while it was asked")

    def _ask_once(
        self,
        acts: Sequence[Act],
        left: Sequence[int],
        replies: list[Reply | None],
        in_flight: int,
        over: int | None,
    ) -> tuple[int | None, int]:
        """Asks those that are left, and puts their replies into `replies`. Returns the epoch of the last denial for the sake
        of another, and how many replies came.
        """
        epoch, came = None, 0
        asked = (self._request(acts[at]) for at in left)
        with closing(self.connection.exchange(asked, in_flight, over)) as exchange:
            for reply, at in zip(exchange, left):
                told, came = reported_epoch(reply), came + 1
                self.was_let_in = self.was_let_in or lets_in(reply)
                if told is None:
                    self._check_answers(acts[at], reply)
                    replies[at] = reply
                else:
                    epoch = told
        return epoch, came

    def _check_answers(self, act: Act, reply: Reply) -> None:
        """A reply that does not answer its request does not come from the service."""
        fault = mismatch(act, self.epoch, reply)
        if fault is not None:
            self.connection.close()
            raise UnexpectedReply(fault)

    def _adopt(self, epoch: int) -> None:
        if epoch == self.epoch:
            raise UnexpectedReply(f"a denial for the sake of epoch {epoch}, in which it was asked")
        self._take_over(epoch)


class PageClient(Client):
    """A client whose role has the operation get."""

    def page(self, number: int, lsn: int, *, exact: bool = True) -> Page:
        """The page at this LSN, 0 to the hardened end; with `exact=False` at a later one, `at`, if it is applied so far.

        Raises `AboveTheEnd`, whose value is the hardened end.
        """
        return self.pages((number,), lsn, exact=exact)[0]

    def pages(self, numbers: Sequence[int], lsn: int, *, exact: bool = True) -> list[Page]:
        """Pages at one LSN, asked for together."""
        return [
            expect(Page, reply)
            for reply in self._ask_all([Get(number, lsn, exact) for number in numbers])
        ]
