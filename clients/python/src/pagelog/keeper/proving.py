"""What clients prove over their lines: that they have the token of a principal of the newest table of a database.

    hello 2           hello 2 nonce=NONCE, which no other connection ever has
    prove NAME PRINCIPAL PROOF of=DATABASE/RUN

`table.proof_of` says what PROOF is. A connection proves once: what it asks then of this database is judged by the newest table each
time, so that a token which is none any more proves nothing from the next look on.
"""

from __future__ import annotations

import asyncio
import hmac
from collections import Counter
from dataclasses import dataclass
from enum import Enum
from typing import TYPE_CHECKING, Any, Callable, Coroutine, Mapping

from pagelog.errors import PagelogError
from pagelog.keeper.table import tokens_of
from pagelog.run_tokens import proof_of

if TYPE_CHECKING:
    from pagelog.keeper.database import Database
    from pagelog.keeper.lines import Line
    from pagelog.referee.fate import Of
    from pagelog.referee.rows import TableOf

Asker = tuple[str, int] | None
"""Who asks: a principal of the database of this identity. None: nobody knows who."""


@dataclass(frozen=True)
class Proof:
    """What a client has said. Whether it proves anything is judged by the newest table."""

    name: str
    principal: int
    code: str
    of: Of


class Verdict(Enum):
    """Of who asks. As a word it is the reason of a refusal."""

    PROVED = "proved"
    UNPROVED = "unproved"
    """Nothing was said of this database."""
    WRONG = "principal"
    """It is the proof of no principal of the newest table."""
    NOT_KNOWN = "table"
    """The newest table could not be read yet."""


class Proving:
    """Judges what was proved. `allows`: who has proved nothing is answered all the same. `unproved` counts its lines, by the database."""

    def __init__(
        self,
        allows: bool,
        read: Callable[[int], Coroutine[Any, Any, TableOf]],
        spawn: Callable[..., asyncio.Task[None]],
    ) -> None:
        """`read` reads the newest table of a database, and `spawn` begins a task for it."""
        self.unproved = Counter[str]()
        self._allows, self._read, self._spawn = allows, read, spawn
        self._tables: dict[str, tuple[int, Mapping[int, bytes]]] = {}
        """The number and the tokens of the newest table that is known of each database, by its identity."""
        self._reading: dict[str, asyncio.Task[None]] = {}

    def judge(self, line: Line, database: Database) -> Verdict:
        """By the newest table, as far as it is known here."""
        row, proof = database.row, line.proof
        if proof is None or (proof.name, proof.of.database) != (row.name, row.identity):
            return Verdict.UNPROVED
        tokens = self._newest(database)
        if tokens is None:
            return Verdict.NOT_KNOWN
        if (token := tokens.get(proof.principal)) is None:
            return Verdict.WRONG
        wanted = proof_of(token, line.nonce, row.name, proof.principal, str(proof.of))
        return (
            Verdict.PROVED
            if hmac.compare_digest(proof.code.encode(), wanted.encode())
            else Verdict.WRONG
        )

    def refusal(self, line: Line, database: Database) -> Verdict | None:
        """Why what costs or tells is refused; None where it may be asked. From then on the line knows who asks."""
        verdict = self.judge(line, database)
        line.asker = (
            (database.row.identity, line.proof.principal)
            if verdict is Verdict.PROVED and line.proof is not None
            else None
        )
        if verdict is Verdict.NOT_KNOWN:
            self.read(database)
        elif verdict is not Verdict.PROVED:
            self.unproved[database.row.name] += 1
        return None if verdict is Verdict.PROVED or self._allows else verdict

    async def settled_refusal(self, line: Line, database: Database) -> Verdict | None:
        """The same, once the newest table was read, for who has to ask PostgreSQL anyway."""
        if self.judge(line, database) is Verdict.NOT_KNOWN:
            await asyncio.shield(self.read(database))
        return self.refusal(line, database)

    def see(self, database: Database) -> None:
        """A look has shown it. Where others may prove something by its table, that is not to be an older one."""
        known = self._tables.get(database.row.identity)
        if known is not None and known[0] > _number_of(database):
            del self._tables[
                database.row.identity
            ]  # PostgreSQL went back: another table may get this number
        elif known is not None and self._newest(database) is None:
            self.read(database)

    def read(self, database: Database) -> asyncio.Task[None]:
        """The task that reads the newest table: one of each database, however many ask."""
        identity = database.row.identity
        if (task := self._reading.get(identity)) is None:
            task = self._reading[identity] = self._spawn(
                self._read_table(database), database.row.name
            )
            task.add_done_callback(lambda _: self._reading.pop(identity))
        return task

    async def _read_table(self, database: Database) -> None:
        identity = database.row.identity
        try:
            found = await self._read(database.row.id)
        except PagelogError:
            return  # who asked has proved nothing until it is tried again
        self._tables[identity] = found.number, tokens_of(found.text)

    def _newest(self, database: Database) -> Mapping[int, bytes] | None:
        identity, number, served = database.row.identity, _number_of(database), database.served
        known = self._tables.get(identity)
        if known is not None and known[0] == number:
            return known[1]
        if served is None or (served.identity, served.table_number) != (identity, number):
            return None
        found = self._tables[identity] = number, tokens_of(served.table.text)
        return found[1]


def _number_of(database: Database) -> int:
    """That of the newest table: a service may have one that no look has shown yet."""
    row, served = database.row, database.served
    return max(
        row.table_number,
        served.table_number if served is not None and served.identity == row.identity else 0,
    )
