"""Reads request bodies and blocks."""

from __future__ import annotations

from typing import Any, Iterable, Optional

from pagelog_model import wire
from pagelog_model.wire import LAST_LSN, OPS, ROLES, partition_of

Request = dict[str, Any]
"""A request by the names of its fields."""


class MalformedBody(Exception):
    """The bytes spell no request, by this code."""

    def __init__(self, code: int) -> None:
        super().__init__(code)
        self.code = code


class BlockBody:
    """A block that was read: its LSN, its bytes, and its records (page, offset, bytes) or (page,)."""

    def __init__(self, spelled: bytes, lsn: int, records: list[Any]) -> None:
        self.spelled, self.lsn, self.records = spelled, lsn, records
        self.touched = {partition_of(page) for page, *_ in records}

    def redo(self, page: int, image: bytearray) -> None:
        """Changes the image of a page as the records of that page say."""
        for changed, *put in self.records:
            if changed == page and put:
                image[put[0] : put[0] + len(put[1])] = put[1]
            elif changed == page:
                image[:] = bytes(wire.PAGE_BYTES)


class UnknownBlock:
    """A block of which only the LSN is known, as a line of the audit list has it."""

    spelled, touched = None, None

    def __init__(self, lsn: int) -> None:
        self.lsn = lsn


class BodyReader:
    """Takes fields from the front; where the bytes end inside one, that is this fault."""

    def __init__(self, data: bytes, fault: int) -> None:
        self.data, self.at, self.fault = data, 0, fault

    def take(self, size: int) -> bytes:
        if self.at + size > len(self.data):
            raise MalformedBody(self.fault)
        self.at += size
        return self.data[self.at - size : self.at]

    def number(self, size: int) -> int:
        return int.from_bytes(self.take(size), "big")

    def left(self) -> int:
        return len(self.data) - self.at


def read_block(data: bytes) -> BlockBody:
    """A block's faults are 6 more than the codes of the block format."""
    if len(data) > wire.LONGEST_BLOCK:
        raise MalformedBody(15)
    fields = BodyReader(data, 7)
    lsn = fields.number(8)
    if not 1 <= lsn <= LAST_LSN:
        raise MalformedBody(8)
    annotations: list[int] = []
    for _ in range(fields.number(2)):
        annotations.append(fields.number(2))
        if annotations[-2:] != sorted(set(annotations[-2:])):
            raise MalformedBody(9)
    block = BlockBody(data, lsn, [read_record(fields) for _ in range(fields.number(2))])
    if fields.left():
        raise MalformedBody(13)
    if annotations != sorted(block.touched):
        raise MalformedBody(14)
    return block


def read_record(fields: BodyReader) -> tuple[Any, ...]:
    """A Put as (page, offset, bytes), a Zero as (page,)."""
    kind = fields.number(1)
    if kind == 2:
        return (fields.number(4),)
    if kind != 1:
        raise MalformedBody(10)
    page, offset, length = fields.number(4), fields.number(2), fields.number(2)
    if length == 0:
        raise MalformedBody(11)
    if offset + length > wire.PAGE_BYTES:
        raise MalformedBody(12)
    return page, offset, fields.take(length)


def read_request(body: bytes) -> Request:
    """The request that a body spells, as a dictionary."""
    if len(body) < 30:
        raise MalformedBody(1)
    fields = BodyReader(body, 4)
    q = {
        "who": fields.number(4),
        "token": fields.take(16),
        "role": fields.number(1),
        "database": fields.number(4),
        "epoch": fields.number(4),
        "op": fields.number(1),
    }
    if q["role"] not in ROLES:
        raise MalformedBody(2)
    if q["op"] not in OPS:
        raise MalformedBody(3)
    in_range = read_arguments(q, fields)
    if fields.left():
        raise MalformedBody(5)
    if not in_range:
        raise MalformedBody(6)
    return q


def read_arguments(q: Request, fields: BodyReader) -> bool:
    """Adds the arguments of the operation, and says whether they are in their ranges."""
    op = q["op"]
    if op in (wire.WRITE, wire.OFFER):
        if op == wire.WRITE:
            q["copy"] = fields.number(1)
        q["block"] = read_block(fields.take(fields.left()))
    elif op == wire.REPORT:
        q["lsn"] = fields.number(8)
        return bool(q["lsn"] <= LAST_LSN)
    elif op == wire.GET:
        q.update(page=fields.number(4), lsn=fields.number(8), exact=fields.number(1))
        return bool(q["lsn"] <= LAST_LSN and q["exact"] <= 1)
    elif op == wire.PULL:
        q.update(
            lo=fields.number(2), hi=fields.number(2), lsn=fields.number(8), most=fields.number(2)
        )
        return bool(
            q["lo"] <= q["hi"] and 1 <= q["lsn"] <= LAST_LSN and 1 <= q["most"] <= wire.MOST_PULLED
        )
    elif op == wire.ADVANCE:
        q.update(partition=fields.number(2), steps=fields.number(2))
        return bool(1 <= q["steps"] <= wire.MOST_STEPS)
    elif op == wire.FAILOVER:
        q["primary"] = fields.number(4)
    elif op == wire.SET_TABLE:
        q["text"] = fields.take(fields.left())
        return len(q["text"]) <= wire.LONGEST_TEXT
    elif op == wire.AUDIT:
        q.update(first=fields.number(8), most=fields.number(2))
        return bool(1 <= q["first"] and 1 <= q["most"] <= wire.MOST_LINES)
    return True


def named(q: Request) -> Optional[Iterable[int]]:
    """The partitions that a request names, or None where its block is not known."""
    op = q["op"]
    if op in (wire.WRITE, wire.OFFER):
        touched: Optional[set[int]] = q["block"].touched
        return touched
    if op == wire.GET:
        return [partition_of(q["page"])]
    if op == wire.PULL:
        return range(q["lo"], q["hi"] + 1)
    return [q["partition"]] if op == wire.ADVANCE else ()


def lsn_of(q: Request) -> Optional[int]:
    """The LSN that a request names, or None."""
    return q["block"].lsn if "block" in q else q.get("lsn")


def numbers(q: Request) -> tuple[int, int]:
    """The two numbers that the line of a request has."""
    op = q["op"]
    if op in (wire.WRITE, wire.OFFER):
        return q["block"].lsn, q.get("copy", 0)
    if op == wire.REPORT:
        return q["lsn"], 0
    if op == wire.GET:
        return q["lsn"], q["page"]
    if op == wire.PULL:
        return q["lsn"], q["lo"] * 65536 + q["hi"]
    if op == wire.ADVANCE:
        return q["partition"], q["steps"]
    if op == wire.FAILOVER:
        return q["primary"], 0
    if op == wire.SET_TABLE:
        return len(q["text"]), 0
    return (q["first"], q["most"]) if op == wire.AUDIT else (0, 0)
