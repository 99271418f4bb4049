"""Makes a base: a small one in a thread, a larger one in a process of its own. That has all changed pages in its memory, gives it
back as it ends, and takes no processor time from the keeper's answers.

A keeper calls `python -m pagelog.keeper.basing`, with what is wanted as JSON at its input, so that no password is among its
arguments. Its one line of output is JSON.
"""

from __future__ import annotations

import asyncio
import json
import sys
from dataclasses import asdict, dataclass

from pagelog.child import LineOfInput, child
from pagelog.errors import PagelogError
from pagelog.objects.settings import StoreSettings
from pagelog.referee.bases import Bases, make_base
from pagelog.referee.referee import KeeperError, Referee

SMALL = 4096
"""Blocks after the last base that are replayed in a thread, and for which a succession makes no newer one."""


@dataclass(frozen=True)
class BaseWish(LineOfInput):
    """A base of a database at or below an archived position, whose digest is `chain`. `keep` is what is not pruned; None: nothing is."""

    url: str
    log: int
    archived: int
    chain: str
    keep: str | int | None
    store: StoreSettings | None = None


@dataclass(frozen=True)
class Made:
    """The newest base, how many pages it has, and how many blocks were pruned."""

    position: int
    pages: int
    pruned: int = 0


class NoBase(KeeperError):
    """The process that makes a base has failed."""


def make(wish: BaseWish) -> Made:
    """Makes it here."""
    referee = Referee(wish.url, "of a base", store=wish.store)
    try:
        base = make_base(referee, wish.log, wish.archived, bytes.fromhex(wish.chain))
        bases, pruned = Bases(referee, wish.log), 0
        if wish.keep is not None:
            pruned = bases.prune(bases.oldest_to_keep(wish.keep))
        return Made(base.position, base.pages, pruned)
    finally:
        referee.close()


async def made_of(wish: BaseWish, blocks: int) -> Made:
    """Makes it, of so many blocks after the last base. Raises `KeeperError`."""
    if blocks <= SMALL:
        return await asyncio.to_thread(make, wish)
    async with child("pagelog.keeper.basing") as process:
        said, _ = await process.communicate(wish.line.encode())
    try:
        found = json.loads(said)
    except ValueError:
        raise NoBase(
            f"no base was made: the process ended with status {process.returncode}"
        ) from None
    if "error" in found:
        raise NoBase(f"no base was made: {found['error']}")
    return Made(**found)


def main() -> int:
    """Does it."""
    try:
        found: dict[str, object] = asdict(make(BaseWish.read(sys.stdin.read())))
    except PagelogError as error:
        found = {"error": str(error)}
    print(json.dumps(found))
    return 1 if "error" in found else 0


if __name__ == "__main__":
    sys.exit(main())
