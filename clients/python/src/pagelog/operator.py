"""An operator: failovers, tables and the audit list."""

from __future__ import annotations

import time
from typing import Callable, Iterator

from pagelog.audit_list import AuditFollower
from pagelog.client import MOST_EPOCHS, Client, reported_epoch
from pagelog.errors import UnexpectedReply
from pagelog.reply import Done, Entries, Entry, State, expect
from pagelog.request import (
    AUDIT_MAX,
    Act,
    Audit,
    Failover,
    Head,
    Request,
    Role,
    SetTable,
    Status,
    Tidy,
)


class Operator(Client):
    """Names the primary, sets the table and reads the audit list, as an operator."""

    role = Role.OPERATOR

    def failover(self, to: int, *, epoch: int | None = None) -> int:
        """Ends the epoch and makes principal `to` the primary of the next one, whose number it returns.

        Without `epoch` the current one is ended, whichever it is. With it that very one: raises `OlderEpoch` where it
        is over already. Raises `UnlistedPrimary`, `LastEpoch`, and `InDoubt` where the connection was lost before the reply.
        """
        ended = self.status().epoch if epoch is None else epoch
        for _ in range(MOST_EPOCHS):
            reply = self.connection.ask(self._request_in(ended, Failover(to)))
            told = reported_epoch(reply)
            if told is not None:
                self._take_over(told)
            if told is None or epoch is not None or told == ended:
                expect(Done, reply)
                self.epoch = ended + 1
                return self.epoch
            ended = told  # another failover came between
        raise UnexpectedReply(f"{MOST_EPOCHS} epochs ended while it was asked")

    def set_table(self, text: str | bytes) -> None:
        """Puts this table in force from the next request on. Raises `NoTable`, whose `fault` says what is wrong."""
        expect(Done, self._ask(SetTable(text.encode() if isinstance(text, str) else text)))

    def fence(self, text: str | bytes, to: int) -> State:
        """Puts this table in force and makes `to` the primary, in one exchange, and returns the state then.

        The table goes first, so that nobody whom it denies undoes the failover. Raises as `set_table` and `failover`.
        """
        table = SetTable(text.encode() if isinstance(text, str) else text)
        for _ in range(MOST_EPOCHS):
            epoch = self.epoch
            asked = (
                self._request(table),
                self._request(Failover(to)),
                self._request_in(epoch + 1, Status()),
            )
            done, fenced, state = self.connection.exchange(asked)
            told = reported_epoch(done)
            if told is None:
                expect(Done, done)
                expect(Done, fenced)
                self.epoch = epoch + 1
                return expect(State, state)
            self._adopt(told)
        raise UnexpectedReply(f"{MOST_EPOCHS} epochs ended while it was asked")

    def _request_in(self, epoch: int, act: Act) -> Request:
        return Request(
            Head(self.credentials.id, self.credentials.token, self.role, self.database, epoch), act
        )

    def tidy(self) -> None:
        """Moves all but the 64 newest blocks to the segments, where they take less memory."""
        expect(Done, self._ask(Tidy()))

    def audit(self, first: int, max: int = AUDIT_MAX) -> tuple[Entry, ...]:
        """The entries from number `first` on, at most `max`, 1 to 1,024; none where there are none yet."""
        return expect(Entries, self._ask(Audit(first, max))).entries

    def count_of_entries(self, least: int = 0) -> int:
        """How many entries the audit list had before this call, which costs some 25 entries itself: found by halves.

        It has `least` of them, which is known from before: the call costs the fewer, the less was added. What others ask
        meanwhile may be counted too.
        """
        epoch = self.epoch
        self.status()
        own = 1 if epoch == self.epoch else 2

        def has(number: int) -> bool:
            nonlocal own
            found = self.audit(number + own, 1)
            own += 1
            return bool(found)

        # A database that was moved has another list, which may be shorter.
        low, step = (least if least == 0 or has(least) else 0), 1
        while has(low + step):
            low, step = low + step, step * 4
        high = low + step
        while high - low > 1:
            middle = (low + high) // 2
            low, high = (middle, high) if has(middle) else (low, middle)
        return low

    def entries(
        self,
        first: int = 1,
        *,
        follow: bool = False,
        idle: float = 1.0,
        stop: Callable[[], bool] = lambda: False,
        renewed: Callable[[], None] = lambda: None,
    ) -> Iterator[Entry]:
        """The entries from number `first` on. With `follow` it waits for more, asking each `idle` seconds.

        Each question is an entry itself. One who follows does not take its own questions for news: it waits where
        there are fewer entries than one question can bring. Where the service was restarted, it calls `renewed`, and goes
        on with number 1 of the new list.
        """
        follower = AuditFollower(self, first, marks=follow)
        while not stop():
            found = follower.step()
            if follower.is_new_list:
                renewed()
            yield from found
            if len(found) < AUDIT_MAX:
                if not follow:
                    return
                time.sleep(idle)
