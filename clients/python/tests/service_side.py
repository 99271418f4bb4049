"""The service's side of the wire, in Python: requests are read, and replies are written. The library does neither."""

from __future__ import annotations

import struct
from typing import Callable

from pagelog.block import Block
from pagelog.faults import (
    ArgumentOutOfRange,
    BlockFault,
    BodyEndsInArgument,
    BodyTooShort,
    BytesAfterArguments,
    FaultyBlock,
    UnknownOperation,
    UnknownRole,
)
from pagelog.reply import Blocks, Denied, Entries, Malformed, Page, Reply, State, encode_entry
from pagelog.request import (
    WITHOUT_ARGUMENTS,
    Act,
    Advance,
    Audit,
    Failover,
    Get,
    Head,
    Offer,
    Operation,
    Pull,
    Report,
    Request,
    Role,
    SetTable,
    Write,
)

HEAD_SIZE = 30
"""Bytes of a body before its arguments."""
_U16 = struct.Struct(">H")
_U32 = struct.Struct(">I")
_U64 = struct.Struct(">Q")
_STATE = struct.Struct(">IIQQQ")
_DENIED = struct.Struct(">BHQ")


def encode_reply(reply: Reply) -> bytes:
    """The body of a reply."""
    return bytes([reply.kind]) + _fields(reply)


def _fields(reply: Reply) -> bytes:
    if isinstance(reply, Blocks):
        parts = [_U64.pack(reply.next), _U16.pack(len(reply.blocks))]
        for block in reply.blocks:
            parts += (_U32.pack(len(block.data)), block.data)
        return b"".join(parts)
    if isinstance(reply, Page):
        return _U64.pack(reply.at) + reply.data
    if isinstance(reply, Entries):
        return _U16.pack(len(reply.entries)) + b"".join(map(encode_entry, reply.entries))
    if isinstance(reply, State):
        return _STATE.pack(reply.epoch, reply.primary, reply.hard, reply.pending, reply.landing)
    if isinstance(reply, Denied):
        return _DENIED.pack(reply.section, reply.row, reply.value)
    if isinstance(reply, Malformed):
        return bytes([reply.code])
    return b""


_HEAD = struct.Struct(">I16sBIIB")
_ROLES = frozenset(Role)
_OPERATIONS = frozenset(Operation)


def decode_request(body: bytes) -> Request:
    """The request of a body. Raises the `RequestFault` of the least code that applies."""
    if len(body) < HEAD_SIZE:
        raise BodyTooShort(f"{len(body)} bytes")
    principal, token, role, database, epoch, operation = _HEAD.unpack_from(body)
    if role not in _ROLES:
        raise UnknownRole(str(role))
    if operation not in _OPERATIONS:
        raise UnknownOperation(str(operation))
    act = _decode_act(Operation(operation), body[HEAD_SIZE:])
    return Request(Head(principal, token, Role(role), database, epoch), act)


def _decode_act(operation: Operation, rest: bytes) -> Act:
    if operation is Operation.WRITE:
        if not rest:
            raise BodyEndsInArgument()
        return Write(rest[0], _decode_block(rest[1:]))
    if operation is Operation.OFFER:
        return Offer(_decode_block(rest))
    if operation is Operation.SET_TABLE:
        return _in_range(SetTable(rest))
    return _in_range(_decode_numbers(operation, rest))


def _decode_block(data: bytes) -> Block:
    try:
        return Block.decode(data)
    except BlockFault as fault:
        raise FaultyBlock(fault.code + 6) from fault


def _get_of(page: int, lsn: int, exact: int) -> Get:
    if exact > 1:
        raise ArgumentOutOfRange(f"exact {exact}")
    return Get(page, lsn, exact == 1)


def _pull_of(lo: int, hi: int, lsn: int, most: int) -> Pull:
    return Pull(lsn, most, lo, hi)


_OF_NUMBERS: dict[Operation, tuple[struct.Struct, Callable[..., Act]]] = {
    Operation.REPORT: (struct.Struct(">Q"), Report),
    Operation.GET: (struct.Struct(">IQB"), _get_of),
    Operation.PULL: (struct.Struct(">HHQH"), _pull_of),
    Operation.ADVANCE: (struct.Struct(">HH"), Advance),
    Operation.FAILOVER: (struct.Struct(">I"), Failover),
    Operation.AUDIT: (struct.Struct(">QH"), Audit),
    **{operation: (struct.Struct(""), type(act)) for operation, act in WITHOUT_ARGUMENTS.items()},
}
"""The numbers after the head, and what makes the act of them."""


def _decode_numbers(operation: Operation, rest: bytes) -> Act:
    numbers, made = _OF_NUMBERS[operation]
    if len(rest) < numbers.size:
        raise BodyEndsInArgument()
    if len(rest) > numbers.size:
        raise BytesAfterArguments()
    return made(*numbers.unpack(rest))


def _in_range(act: Act) -> Act:
    """The act, whose numbers are tested by writing them."""
    act.arguments()
    return act
