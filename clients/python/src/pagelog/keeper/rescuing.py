"""Saves what a service has and PostgreSQL has lost as a named database of its own: read-only, at the same positions. Nothing is seen of
it before all of it is there and was read again."""

from __future__ import annotations

import secrets
from uuid import uuid4

import psycopg

from pagelog.images import Replay
from pagelog.keeper.definition import Definition
from pagelog.keeper.served import Served
from pagelog.referee.bases import NOTHING, Base, Bases
from pagelog.referee.referee import BrokenArchive, KeeperError, Referee, Refused, digest
from pagelog.referee.rows import Batch
from pagelog.referee.schema import CHANNEL, FORMAT

_MAKE = f"""
WITH made AS (
  INSERT INTO pagelog_log (identity, id, name, format, archived, epoch, chain, read_only, dropped, run, ancestor)
  SELECT %(identity)s::uuid, n, %(name)s || '!' || n, {FORMAT}, 0, 1, ''::bytea, true, true, %(run)s, %(ancestor)s
  FROM nextval(pg_get_serial_sequence('pagelog_log', 'id')) n RETURNING id)
INSERT INTO pagelog_table (log, text, secret, sealed, key)
SELECT made.id, %(text)s, %(secret)s::bytea, %(sealed)s::bytea, %(key)s::text FROM made RETURNING log
"""
_BASED = "UPDATE pagelog_log SET archived = %(base)s, chain = %(chain)b::bytea WHERE id = %(id)s AND run = %(run)s RETURNING id"
_SHOW = f"""
WITH shown AS (
  UPDATE pagelog_log SET name = %(name)s, dropped = false, run = NULL WHERE id = %(id)s AND run = %(run)s RETURNING id)
SELECT id, pg_notify('{CHANNEL}', '') FROM shown
"""


def saved_as(referee: Referee, of: Definition, served: Served, name: str) -> int:
    """Makes a database of this name of all that the service has, with the table of what it is `of`, and returns the position at which that
    ends.

    Raises `KeeperError` where there is one of this name, or what was saved is not what the service has. What was begun then goes with
    `drop`, as what a drop has left.
    """
    if referee._ask("SELECT 1 FROM pagelog_log WHERE name = %s", (name,)):
        raise KeeperError(f"there is a database {name}")
    run = f"rescue {secrets.token_hex(8)}"
    ancestor, identity = served.database if of.ancestor is None else of.ancestor, str(uuid4())
    [[log]] = referee._ask(
        _MAKE,
        {
            "name": name,
            "run": run,
            "ancestor": ancestor,
            "identity": identity,
            **referee.stored(identity, of.text, of.secret),
        },
    )
    end = served.end_of_log()
    base = _base(referee, served, log, run)
    chain = _blocks(referee, served, Batch(log, run, 0, base.position, base.chain, ()), end)
    _compare(referee, log, base, end, chain)
    try:
        shown = referee._ask(_SHOW, {"id": log, "run": run, "name": name})
    except Refused as error:
        if isinstance(error.__cause__, psycopg.errors.UniqueViolation):
            raise KeeperError(f"there is a database {name} by now") from error
        raise
    if not shown:
        raise KeeperError(f"{name} was dropped meanwhile")
    return end


def _base(referee: Referee, served: Served, log: int, run: str) -> Base:
    """The images that the service began with, as a base of their own."""
    if not served.images:
        return NOTHING
    replay, chain = Replay(lambda _: None), b""
    for blocks in served.began_with():
        replay.apply(blocks)
        chain = digest(chain, blocks)
    bases = Bases(referee, log)
    referee._ask(_BASED, {"id": log, "run": run, "base": served.images, "chain": chain})
    bases.keep_images(served.images, replay.images())
    return bases.keep_base(served.images, chain)


def _blocks(referee: Referee, served: Served, last: Batch, end: int) -> bytes:
    """Keeps the blocks behind this batch. Returns the digest of all."""
    at, chain = last.old, last.chain
    while at < end:
        blocks = served.pulled(at)[: end - at]
        if not blocks:
            raise BrokenArchive(f"the service has no block at position {at + 1}")
        chain = digest(chain, blocks)
        if not referee.keep([Batch(last.log, last.run, 0, at, chain, tuple(blocks))]):
            raise KeeperError("it was dropped meanwhile")
        at += len(blocks)
    return chain


def _compare(referee: Referee, log: int, base: Base, end: int, chain: bytes) -> None:
    """Reads all of it again. Raises `BrokenArchive` where that is not what the service has."""
    for _ in Bases(referee, log).images(base):
        pass  # each is checked, and in the end all
    found = base.chain
    for piece in referee.blocks(log, base.position + 1, end):
        found = digest(found, piece)
    if found != chain:
        raise BrokenArchive("what was saved is not what the service has")
