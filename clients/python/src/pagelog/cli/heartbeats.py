"""Whether a keeper lives, for who is none: its heartbeat rises with each of its polls; and whether it could read what is sealed."""

from __future__ import annotations

import time
from typing import Collection

from pagelog.cli.options import fail
from pagelog.credentials import Accounts
from pagelog.keeper.machine import PATIENCE
from pagelog.keeper.settings import TTL
from pagelog.referee.referee import Referee
from pagelog.referee.rows import Look
from pagelog.referee.schema import CHANNEL
from pagelog.referee.sealed import KEYS
from pagelog.repeating import Backoff

_PAGES = 3.0
"""Seconds for which the heartbeat of a page server may stand still at least: it has one each second."""


def is_alive(referee: Referee, look: Look, keepers: Collection[str], patience: float) -> bool:
    """Whether the heartbeat of one of these rises. All are asked for one, and have it at each of their polls anyway."""
    before = {each.name: (each.run, each.beat) for each in look.keepers}
    referee._ask(f"SELECT pg_notify('{CHANNEL}', '')")
    deadline, waits = time.monotonic() + patience, Backoff(0.02, 0.5)
    while True:
        now = referee.everything()
        if any(
            (each.run, each.beat) != before.get(each.name)
            for each in now.keepers
            if each.name in keepers
        ):
            return True
        if time.monotonic() >= deadline:
            return False
        time.sleep(waits.next())


def ttl_of(accounts: Accounts) -> float:
    """How long a heartbeat may stand still. The keepers' own file says it; another file may."""
    ttl = accounts.keeper.get("ttl", TTL)
    return float(ttl) if isinstance(ttl, (int, float)) and ttl > 0 else TTL


class Heartbeats:
    """Which keepers are alive, by one's own clock: those whose heartbeat has moved within a ttl and a half."""

    def __init__(self, ttl: float) -> None:
        self._ttl = ttl
        self._seen: dict[str, tuple[object, float]] = {}
        self._moved: set[str] = set()
        self._pages: dict[str, tuple[int, float]] = {}

    def see(self, look: Look) -> None:
        """Takes what was looked up."""
        now = time.monotonic()
        for keeper in look.keepers:
            before = self._seen.get(keeper.name)
            if before is None or before[0] != (keeper.run, keeper.beat):
                self._seen[keeper.name] = (keeper.run, keeper.beat), now
                if before is not None:
                    self._moved.add(keeper.name)
        for each in look.pages:
            if each.run not in self._pages or self._pages[each.run][0] != each.beat:
                # of one that has been silent for long it is known without a wait
                self._pages[each.run] = (
                    each.beat,
                    float("-inf") if each.is_gone and each.run not in self._pages else now,
                )

    def has_moved(self, keeper: str) -> bool:
        """Whether it was seen to move."""
        return keeper in self._moved

    def may_be_alive(self, keeper: str | None) -> bool:
        """Whether it has moved lately, or was not watched for so long."""
        seen = self._seen.get(keeper or "")
        return seen is not None and time.monotonic() - seen[1] < PATIENCE * self._ttl

    def may_answer(self, run: str) -> bool:
        """The same of a page server."""
        return time.monotonic() - self._pages[run][1] < max(PATIENCE * self._ttl, _PAGES)


def refuse_keepers_without(referee: Referee, ttl: float = TTL) -> None:
    """Ends where a keeper that lives has not the key by which this process would write: it could not serve the database."""
    key, beats, waits = referee.keys.writes_by, Heartbeats(ttl), Backoff(0.02, 0.5)
    while key is not None:
        look = referee.everything()
        beats.see(look)
        without = [
            each.name
            for each in look.keepers
            if key not in each.report.get(KEYS, {}).get("ids", ()) and beats.may_be_alive(each.name)
        ]
        if not without:
            return
        if living := [name for name in without if beats.has_moved(name)]:
            fail(
                f"nothing was done: keeper {living[0]} has not key {key}, by which tables are sealed: its [archive] key_file is to have it, "
                "and it is to be of this version"
            )
        time.sleep(waits.next())
