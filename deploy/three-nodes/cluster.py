"""What the trial sees of the three machines: who leads PostgreSQL, which keeper holds the database, and whether all are well."""

from __future__ import annotations

import json
import time
import tomllib
import urllib.request
from dataclasses import dataclass
from pathlib import Path
from typing import Callable, Iterable

import psycopg
from pagelog.referee.referee import KeeperError, Referee, digest
from pagelog.libpq import plain_url
from pagelog.referee.rows import Look, Row
from pagelog.place import Keepers

from clients import NAME
from nodes import ADDRESSES, PAGES

PATIENCE = 300.0
"""Seconds for what has to come: on a machine with much else to do anything may take its time."""
NEAR = 1 << 20
"""Bytes of PostgreSQL's log that a server which follows may lack."""
ONE_BLOCK = "%INSERT INTO pagelog_block (log, lsn, crc, data) SELECT id,%"
"""As KEEP_BLOCK of the keeper's statements."""
KEEPERS = [f"{address}:7500" for address in ADDRESSES.values()]


def eventually(condition: Callable[[], bool], what: str) -> None:
    """Waits for what has to come."""
    deadline = time.monotonic() + PATIENCE
    while not condition():
        if time.monotonic() > deadline:
            raise SystemExit(f"trial: in {PATIENCE:.0f} s it did not come: {what}")
        time.sleep(0.1)


def soon(condition: Callable[[], bool]) -> bool:
    """Whether it comes within some seconds."""
    deadline = time.monotonic() + 5
    while time.monotonic() < deadline:
        if condition():
            return True
        time.sleep(0.2)
    return False


def asked(address: str, path: str) -> dict[str, object]:
    """The JSON that a machine answers; nothing where it does not."""
    try:
        with urllib.request.urlopen(f"http://{address}{path}", timeout=2) as reply:
            return dict(json.load(reply))
    except (OSError, ValueError):
        return {}


@dataclass(frozen=True)
class Server:
    """One of PostgreSQL, as Patroni shows it. `lag` is what it lacks, in bytes; None where that is unknown."""

    role: str
    timeline: int
    lag: int | None


def server_of(member: dict[str, object]) -> Server:
    lag = member.get("lag", 0)
    return Server(
        str(member["role"]),
        int(str(member.get("timeline", 0))),
        lag if isinstance(lag, int) else None,
    )


class Cluster:
    def __init__(self, keeper_file: Path) -> None:
        self._url = tomllib.loads(keeper_file.read_text())["archive"]["url"]
        self._referee = Referee(self._url)

    # PostgreSQL.

    def servers(self, names: Iterable[str] = ADDRESSES) -> dict[str, Server]:
        """The servers that run, by the first of these machines that answers."""
        for name in names:
            members = asked(f"{ADDRESSES[name]}:8008", "/cluster").get("members")
            if isinstance(members, list):
                return {
                    member["name"]: server_of(member)
                    for member in members
                    if member["state"] == "running"
                }
        return {}

    def leader(self, names: Iterable[str] = ADDRESSES) -> str | None:
        return next(
            (name for name, server in self.servers(names).items() if server.role == "leader"), None
        )

    # Keepers.

    def row(self) -> Row | None:
        """The database as the referee has it; None where PostgreSQL cannot say now."""
        look = self._look()
        return None if look is None else look.row(NAME)

    def _look(self) -> Look | None:
        """All that the referee has; None where PostgreSQL cannot say now."""
        try:
            return self._referee.everything()
        except KeeperError:
            self._referee.close()
            return None

    def has_fast_path(self) -> bool:
        """Whether a session asks now, or has asked last, for what the fast path alone asks: to keep one block."""
        try:
            with psycopg.connect(
                plain_url(self._url), target_session_attrs="read-write"
            ) as connection:
                found = connection.execute(
                    "SELECT count(*) FROM pg_stat_activity WHERE query LIKE %s AND pid <> pg_backend_pid()",
                    (ONE_BLOCK,),
                )
                return found.fetchall() != [(0,)]
        except psycopg.Error:
            return False

    def generation(self) -> int:
        """Of the place that the keepers name; 0 where nobody serves it now."""
        keepers = Keepers(NAME, KEEPERS)
        try:
            place = keepers.where()
        finally:
            keepers.close()
        return 0 if place is None else place.generation

    def holder(self) -> str:
        found: list[str] = []

        def is_held() -> bool:
            row = self.row()
            found[:] = (
                [row.holder]
                if row is not None and row.holder is not None and row.address is not None
                else []
            )
            return bool(found)

        eventually(is_held, "a holder")
        return found[0]

    def switch_over(self, to: str) -> None:
        """Has the database handed over to the keeper of this machine."""
        self._referee.wish(NAME, to)
        eventually(lambda: self.holder() == to, f"a switchover to {to}")

    # All of it.

    def is_well(self) -> bool:
        """Whether each machine has an etcd with a quorum, a server of PostgreSQL that leads or follows, and a keeper that follows, and
        those that have a page server one that follows."""
        etcds = [
            asked(f"{address}:2379", "/health").get("health") == "true"
            for address in ADDRESSES.values()
        ]
        return (
            all(etcds)
            and all(self._servers_follow(name) for name in ADDRESSES)
            and self._keepers_follow()
            and self._page_servers_follow()
        )

    def _servers_follow(self, name: str) -> bool:
        """Whether two servers follow the third, by what Patroni of this machine says: one that was cut off has another timeline."""
        servers = self.servers([name]).values()
        return (
            sorted(server.role for server in servers) == ["leader", "replica", "sync_standby"]
            and len({server.timeline for server in servers}) == 1
            and all(server.lag is not None and server.lag < NEAR for server in servers)
        )

    def _keepers_follow(self) -> bool:
        """Whether the two keepers that do not hold the database have what is archived now."""
        row = self.row()
        if row is None or row.holder is None:
            return False
        log, wanted, others = row.id, row.archived, set(ADDRESSES) - {row.holder}

        def follow() -> bool:
            look = self._look()
            standbys = () if look is None else look.standbys_of(log)
            return {each.keeper for each in standbys if each.reached >= wanted} >= others

        return soon(follow)

    def _page_servers_follow(self) -> bool:
        """Whether all page servers get what is archived now."""
        row = self.row()

        def follow() -> bool:
            look = self._look()
            assert row is not None
            alive = () if look is None else look.pages_of(row.id)
            return len([each for each in alive if each.position >= row.archived]) == len(PAGES)

        return row is not None and soon(follow)

    def archive(self) -> list[bytes]:
        """All blocks of the database, in order; they have been compared with the digest of them."""
        row = self.row()
        assert row is not None
        found = [
            block for piece in self._referee.blocks(row.id, 1, row.archived) for block in piece
        ]
        if digest(b"", found) != row.chain:
            raise SystemExit("trial: the digest of the archived blocks is another one")
        return found
