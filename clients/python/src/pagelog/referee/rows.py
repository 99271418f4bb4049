"""What the referee knows, as a look returns it."""

from __future__ import annotations

from dataclasses import dataclass, field
from typing import TYPE_CHECKING, Any, Mapping, NamedTuple, Sequence

from pagelog.referee.ways import address_for, way_of

if TYPE_CHECKING:
    from pagelog.trail.store import TrailList

ASIDE = "set aside"
"""Under which a keeper's report has the services that it quarantined; no name of a database has a space."""


@dataclass(frozen=True)
class Row:
    """A named database. `run` is None where it was released, `address` where its service may not be used yet.

    `base` was the archived position when the generation began. The service of the address has positions at LSNs less its
    `shift`, and began with the images at position `images`; 0: with the first block.
    """

    id: int
    name: str
    generation: int = 0
    run: str | None = None
    holder: str | None = None
    address: str | None = None
    archived: int = 0
    base: int = 0
    shift: int = 0
    images: int = 0
    chain: bytes = field(default=b"", repr=False)
    wanted: str | None = None
    succeed: bool = False
    read_only: bool = False
    paused: bool = False
    dropped: bool = False
    identity: str = ""
    """What no other database ever has, also one of the same name."""
    next_generation: int = 1
    ancestor: str | None = None
    """Of a copy the name of the database that it was made of, which SQLite has written into its pages."""
    doubted: int = 0
    """The numbers of generations up to it may have been given to two runs, as PostgreSQL went back."""
    table_number: int = 1
    """That of its newest table."""
    run_table: int = 1
    """That of the table that its run was started with."""
    copied: int = 0
    """The position that it began with, as a copy: up to there its pages are those of others."""
    secure: str | None = None
    """The way to its run by TLS, as `ways` reads it."""

    def told(self, is_secure: bool) -> str | None:
        """Its address, as it is told to who came by TLS or without."""
        return address_for(self.address, way_of(self.secure, self.run), is_secure=is_secure)

    @property
    def plain_name(self) -> str:
        """The name that it has, or had until it was dropped."""
        return self.name.removesuffix(f"!{self.id}")

    @classmethod
    def of(cls, found: Mapping[str, Any]) -> Row:
        """As statements return it: its chain is hexadecimal."""
        fields: dict[str, Any] = {**found, "chain": bytes.fromhex(found["chain"])}
        return cls(**fields)


@dataclass(frozen=True)
class Where:
    """Where a service is, where positions are there, and the digest of what it has; of none where that is not to be told yet."""

    address: str | None = None
    shift: int | None = None
    images: int | None = None
    chain: bytes | None = field(default=None, repr=False)
    secure: str | None = None
    """The way to it by TLS, as the column has it."""


class TableOf(NamedTuple):
    """The text of the newest table of a database, the secret of its keepers, and the number of the table."""

    text: str
    secret: bytes
    number: int
    key: str | None = None
    """The id of the key by which it is sealed in PostgreSQL; None: it is plain there."""


@dataclass(frozen=True)
class KeeperRow:
    """A keeper: its `beat` rises with each of its looks, and `lines` is the address of its lines."""

    name: str
    run: str
    lines: str
    beat: int
    report: Mapping[str, Any] = field(default_factory=dict)
    secure: str | None = None
    """The way to its lines by TLS, as `ways` reads it."""

    def told(self, is_secure: bool) -> str | None:
        """Where its lines are, as it is told to who came by TLS or without."""
        return address_for(self.lines, way_of(self.secure, self.run), is_secure=is_secure)


@dataclass(frozen=True)
class NamedLife:
    """The life of a keeper that has a name, and when it took that, by PostgreSQL's clock; an older program does not say when."""

    run: str
    lines: str
    beat: int
    began: str | None = None

    def __str__(self) -> str:
        """As a newcomer is told."""
        return f"the keeper at {self.lines} has it" + (f" since {self.began}" if self.began else "")


@dataclass(frozen=True)
class StandbyRow:
    """A standby of a keeper, which has the archive's blocks up to `reached`."""

    log: int
    keeper: str
    address: str
    run: str
    reached: int
    shift: int = 0
    images: int = 0
    table_number: int = 1
    """That of the table that its service was started with."""
    secure: str | None = None
    """The way to it by TLS, as `ways` reads it."""

    def told(self, is_secure: bool) -> str | None:
        """Its address, as it is told to who came by TLS or without."""
        return address_for(self.address, way_of(self.secure, self.run), is_secure=is_secure)


@dataclass(frozen=True)
class PagesRow:
    """A page server of a database, on this machine: it has pages from position `oldest` to `position`. One that has ended in order has no
    address."""

    run: str
    log: int
    machine: str
    address: str
    position: int
    oldest: int
    table_number: int
    """That of the table that decides there."""
    beat: int
    aside: tuple[Mapping[str, Any], ...] = ()
    """Stores of the same database that were quarantined there: of each its run, the positions `oldest` to `last`, and its folder."""
    silent: float = 0.0
    """For how many seconds it has not been heard, by PostgreSQL's clock."""
    secure: str | None = None
    """The way to it by TLS, as `ways` reads it."""

    def told(self, is_secure: bool) -> str | None:
        """Its address, as it is told to who came by TLS or without."""
        return address_for(self.address, way_of(self.secure, self.run), is_secure=is_secure)

    @property
    def is_gone(self) -> bool:
        """Whether it has not been heard for so long that it is not alive, or cannot reach PostgreSQL: it is heard each second."""
        return self.silent > 10.0 and not self.has_ended

    @property
    def has_ended(self) -> bool:
        """Whether it has ended in order, so that nobody is answered there."""
        return not self.address


@dataclass(frozen=True)
class Synchronous:
    """PostgreSQL's synchronous standbys: `names` is its setting, and `count` are connected; None where the role may not see that."""

    names: str = ""
    count: int | None = 0

    @property
    def meaning(self) -> str:
        """What durable means now."""
        if not self.names:
            return "durable means one disk: PostgreSQL has no synchronous standby"
        if self.count is None:
            return "PostgreSQL has synchronous_standby_names, but this role may not see its standbys: grant it pg_read_all_stats"
        if self.count == 0:
            return "nothing becomes durable: PostgreSQL waits for a synchronous standby"
        return f"durable means another disk too: PostgreSQL has {self.count} synchronous standby{'s' * (self.count > 1)}"


@dataclass(frozen=True)
class Look:
    """All of it at one moment, confirmed by a statement that wrote."""

    rows: tuple[Row, ...] = ()
    keepers: tuple[KeeperRow, ...] = ()
    standbys: tuple[StandbyRow, ...] = ()
    synchronous: Synchronous = Synchronous()
    pages: tuple[PagesRow, ...] = ()

    def row(self, name: str) -> Row | None:
        """The database of this name, if it was not dropped."""
        return next((row for row in self.rows if row.name == name and not row.dropped), None)

    def keeper(self, name: str | None) -> KeeperRow | None:
        """The keeper of this name."""
        return next((keeper for keeper in self.keepers if keeper.name == name), None)

    def decisions_of(self, row: Row) -> dict[str, str]:
        """What each keeper has decided of a database, and why, as its last report says; an older keeper reports none."""
        return {
            keeper.name: found["why"]
            for keeper in self.keepers
            if "why" in (found := keeper.report.get(row.name, {}))
        }

    def pages_of(self, log: int) -> tuple[PagesRow, ...]:
        """The page servers of a database, those that have gone among them."""
        return tuple(each for each in self.pages if each.log == log)

    def standbys_of(self, log: int) -> tuple[StandbyRow, ...]:
        """The standbys of a database."""
        return tuple(standby for standby in self.standbys if standby.log == log)


@dataclass(frozen=True)
class Lines:
    """A piece of the trail: lines of a run's audit list behind those that are kept, as the columns of its row, and the list with it."""

    values: Mapping[str, Any] = field(repr=False)
    one: TrailList


@dataclass(frozen=True)
class Batch:
    """Blocks that follow on position `old` in the archive of a run; `chain` is the digest with them. Where its audit list is kept,
    `lines` speak of them, and are kept in the same statement."""

    log: int
    run: str
    generation: int
    old: int
    chain: bytes = field(repr=False)
    blocks: tuple[bytes, ...] = field(repr=False)
    lines: Lines | None = None

    @property
    def new(self) -> int:
        """The archived position once it is kept."""
        return self.old + len(self.blocks)


@dataclass(frozen=True)
class Origin:
    """Of a run that PostgreSQL knows: its database, whether that was dropped, and where its generation ended, if it has."""

    log: int
    dropped: bool
    ended: int | None


@dataclass(frozen=True)
class Kept:
    """The archived position of a run, and the digest of all blocks up to it. `is_told` is of a batch whose own statement said so."""

    archived: int
    chain: bytes = field(repr=False)
    generation: int = 0
    is_told: bool = field(default=False, compare=False)


def told(holder: str | None, why: Mapping[str, str]) -> str:
    """What was decided of a database, by keeper, for a person: what its holder says, or all where it has none."""
    return (
        why.get(holder, "")
        if holder is not None
        else "; ".join(f"{keeper} says: {why[keeper]}" for keeper in sorted(why))
    )


def row_of(found: Sequence[Sequence[Any]]) -> Row | None:
    """That which a statement has returned, if it has changed one."""
    return Row.of(found[0][0]) if found else None


def look_of(
    keepers: list[Any],
    rows: list[Any],
    standbys: list[Any],
    names: str,
    count: int | None,
    pages: list[Any],
) -> Look:
    """From the columns of the statement."""
    return Look(
        tuple(map(Row.of, rows)),
        tuple(KeeperRow(**found) for found in keepers),
        tuple(StandbyRow(**found) for found in standbys),
        Synchronous(names, count),
        tuple(PagesRow(**found) for found in pages),
    )
