"""Requests and their bytes: who asks, of which database, in which epoch, and for what."""

from __future__ import annotations

from dataclasses import dataclass, field, fields
from enum import IntEnum
from typing import ClassVar, Union, get_args

from pagelog.block import HIGHEST_LSN, HIGHEST_PAGE, HIGHEST_PARTITION, Block
from pagelog.faults import ArgumentOutOfRange

TEXT_SIZE = 65506
"""The most bytes of the text of a set_table."""
PULL_MAX = 16
"""The most blocks of a pull."""
AUDIT_MAX = 1024
"""The most lines of an audit."""
STEPS_MAX = 1024
"""The most blocks of an advance."""
COPIES_OF_QUORUM = {2: 3, 4: 6}
"""How many copies there are, by the quorum: a block has to be in a quorum of them before it is hardened."""
QUORUM = 2
"""The quorum where a table says nothing else."""
HIGHEST_EPOCH = (1 << 32) - 1
"""Epochs are 1 to this one."""


class Role(IntEnum):
    """As what a principal asks; the number is that of the wire."""

    PRIMARY = 1
    SECONDARY = 2
    PAGE_SERVER = 3
    OPERATOR = 4

    @property
    def word(self) -> str:
        """Its word in the text of a table."""
        return self.name.lower()


class Operation(IntEnum):
    """What is asked for; the number is that of the wire."""

    WRITE = 1
    OFFER = 2
    REPORT = 3
    GET = 4
    PULL = 5
    ADVANCE = 6
    STATUS = 7
    FAILOVER = 8
    SET_TABLE = 9
    AUDIT = 10
    TIDY = 11

    @property
    def word(self) -> str:
        """Its word in the text of a table."""
        return self.name.lower()


READS = (Operation.GET, Operation.PULL)
"""What reads the log or pages."""


def _number(name: str, value: int, least: int, most: int, size: int) -> bytes:
    if not isinstance(value, int):
        raise TypeError(f"{name} is a whole number, and not {type(value).__name__}")
    if not least <= value <= most:
        raise ArgumentOutOfRange(f"{name} {value} is not {least} to {most}")
    return value.to_bytes(size, "big")


class _Act:
    __slots__ = ()
    repeatable: ClassVar[bool] = True

    def arguments(self) -> bytes:
        """Its bytes after the head: none."""
        return b""


@dataclass(frozen=True, slots=True)
class Write(_Act):
    """Puts a block into a copy: 0 to 2, or to 5 with a table of six. May be repeated: it changes nothing then."""

    copy: int
    block: Block
    operation: ClassVar[Operation] = Operation.WRITE
    roles: ClassVar[tuple[Role, ...]] = (Role.PRIMARY,)

    def arguments(self) -> bytes:
        """Its bytes after the head. Raises `ArgumentOutOfRange` where the copy is not 0 to 255."""
        return _number("copy", self.copy, 0, 255, 1) + self.block.data


@dataclass(frozen=True, slots=True)
class Offer(_Act):
    """Puts a block into the pending area, which counts for no quorum. May be repeated."""

    block: Block
    operation: ClassVar[Operation] = Operation.OFFER
    roles: ClassVar[tuple[Role, ...]] = (Role.PRIMARY,)

    def arguments(self) -> bytes:
        """Its bytes after the head."""
        return self.block.data


@dataclass(frozen=True, slots=True)
class Report(_Act):
    """Hardens all blocks up to `lsn`, 0 to 2^48. May be repeated."""

    lsn: int
    operation: ClassVar[Operation] = Operation.REPORT
    roles: ClassVar[tuple[Role, ...]] = (Role.PRIMARY,)

    def arguments(self) -> bytes:
        """Its bytes after the head. Raises `ArgumentOutOfRange`."""
        return _number("LSN", self.lsn, 0, HIGHEST_LSN, 8)


@dataclass(frozen=True, slots=True)
class Get(_Act):
    """A page, 0 to 2^32 - 1, at `lsn`, 0 to 2^48: exactly there, or as far as its partition is applied above it."""

    page: int
    lsn: int
    exact: bool = True
    operation: ClassVar[Operation] = Operation.GET
    roles: ClassVar[tuple[Role, ...]] = (Role.SECONDARY, Role.PRIMARY)

    def arguments(self) -> bytes:
        """Its bytes after the head. Raises `ArgumentOutOfRange`."""
        exact = bytes([1 if self.exact else 0])
        return (
            _number("page", self.page, 0, HIGHEST_PAGE, 4)
            + _number("LSN", self.lsn, 0, HIGHEST_LSN, 8)
            + exact
        )


@dataclass(frozen=True, slots=True)
class Pull(_Act):
    """The first `max` (1 to 16) hardened blocks from `lsn` (1 to 2^48) on that touch a partition from `lo` to `hi`."""

    lsn: int
    max: int = PULL_MAX
    lo: int = 0
    hi: int = HIGHEST_PARTITION
    operation: ClassVar[Operation] = Operation.PULL
    roles: ClassVar[tuple[Role, ...]] = (Role.SECONDARY, Role.PAGE_SERVER)

    def arguments(self) -> bytes:
        """Its bytes after the head. Raises `ArgumentOutOfRange`."""
        hi = _number("hi", self.hi, 0, HIGHEST_PARTITION, 2)
        lo = _number("lo", self.lo, 0, self.hi, 2)
        return (
            lo
            + hi
            + _number("LSN", self.lsn, 1, HIGHEST_LSN, 8)
            + _number("max", self.max, 1, PULL_MAX, 2)
        )


@dataclass(frozen=True, slots=True)
class Advance(_Act):
    """Raises the applied LSN of a partition by `steps`, 1 to 1,024. A repetition would raise it once more."""

    partition: int
    steps: int
    operation: ClassVar[Operation] = Operation.ADVANCE
    roles: ClassVar[tuple[Role, ...]] = (Role.PAGE_SERVER,)
    repeatable: ClassVar[bool] = False

    def arguments(self) -> bytes:
        """Its bytes after the head. Raises `ArgumentOutOfRange`."""
        partition = _number("partition", self.partition, 0, HIGHEST_PARTITION, 2)
        return partition + _number("steps", self.steps, 1, STEPS_MAX, 2)


@dataclass(frozen=True, slots=True)
class Status(_Act):
    """Epoch, primary and hardened end."""

    operation: ClassVar[Operation] = Operation.STATUS
    roles: ClassVar[tuple[Role, ...]] = (
        Role.OPERATOR,
        Role.PRIMARY,
        Role.SECONDARY,
        Role.PAGE_SERVER,
    )


@dataclass(frozen=True, slots=True)
class Failover(_Act):
    """Ends the epoch, and makes a principal the primary of the next. A repetition would end the next one too."""

    principal: int
    operation: ClassVar[Operation] = Operation.FAILOVER
    roles: ClassVar[tuple[Role, ...]] = (Role.OPERATOR,)
    repeatable: ClassVar[bool] = False

    def arguments(self) -> bytes:
        """Its bytes after the head. Raises `ArgumentOutOfRange`."""
        return _number("principal", self.principal, 0, HIGHEST_EPOCH, 4)


@dataclass(frozen=True, slots=True)
class SetTable(_Act):
    """Puts a table in force; its text has at most 65,506 bytes. Not repeated: another one may have come between.

    The text has the tokens of all principals, and is in no debug text.
    """

    text: bytes = field(repr=False)
    operation: ClassVar[Operation] = Operation.SET_TABLE
    roles: ClassVar[tuple[Role, ...]] = (Role.OPERATOR,)
    repeatable: ClassVar[bool] = False

    def arguments(self) -> bytes:
        """Its bytes after the head. Raises `ArgumentOutOfRange`."""
        if len(self.text) > TEXT_SIZE:
            raise ArgumentOutOfRange(f"a text of {len(self.text)} bytes, above {TEXT_SIZE}")
        return self.text


@dataclass(frozen=True, slots=True)
class Audit(_Act):
    """The lines `first` (from 1) to `first + max - 1` of the audit list; `max` is 1 to 1,024."""

    first: int
    max: int = AUDIT_MAX
    operation: ClassVar[Operation] = Operation.AUDIT
    roles: ClassVar[tuple[Role, ...]] = (Role.OPERATOR,)

    def arguments(self) -> bytes:
        """Its bytes after the head. Raises `ArgumentOutOfRange`."""
        return _number("first", self.first, 1, (1 << 64) - 1, 8) + _number(
            "max", self.max, 1, AUDIT_MAX, 2
        )


@dataclass(frozen=True, slots=True)
class Tidy(_Act):
    """Moves hardened blocks to the segments, where they take less memory. May be repeated."""

    operation: ClassVar[Operation] = Operation.TIDY
    roles: ClassVar[tuple[Role, ...]] = (Role.OPERATOR,)


Act = Union[Write, Offer, Report, Get, Pull, Advance, Status, Failover, SetTable, Audit, Tidy]
"""What is asked for. Of the roles that have it, the first is the one that mostly asks for it."""
ACTS: dict[Operation, type[Act]] = {act.operation: act for act in get_args(Act)}
"""The class of each operation."""
WITHOUT_ARGUMENTS: dict[Operation, Act] = {
    act.operation: act() for act in get_args(Act) if not fields(act)
}
"""The act of each operation that has no arguments."""


@dataclass(frozen=True)
class Head:
    """Who asks, as what, of which database and in which epoch. The token has 16 bytes and is in no debug text."""

    principal: int
    token: bytes = field(repr=False)
    role: Role
    database: int
    epoch: int
    prefix: bytes = field(init=False, repr=False, compare=False)

    def __post_init__(self) -> None:
        if len(self.token) != 16:
            raise ArgumentOutOfRange(f"a token of {len(self.token)} bytes")
        principal = _number("principal", self.principal, 0, HIGHEST_EPOCH, 4)
        database = _number("database", self.database, 0, HIGHEST_EPOCH, 4)
        epoch = _number("epoch", self.epoch, 0, HIGHEST_EPOCH, 4)
        object.__setattr__(
            self, "prefix", principal + self.token + bytes([Role(self.role)]) + database + epoch
        )


@dataclass(frozen=True, slots=True)
class Request:
    """A request: its head, and what it asks for."""

    head: Head
    act: Act

    def encode(self) -> bytes:
        """Its body, 30 to 65,536 bytes. Raises `ArgumentOutOfRange`."""
        return self.head.prefix + bytes((self.act.operation,)) + self.act.arguments()
