"""The lines of docs/FORMATS' vectors: their fields as the library's values, and back."""

from __future__ import annotations

import dataclasses
from typing import Any

from pagelog import reply as replies
from pagelog.block import Block, Put, Record, Zero
from pagelog.reply import Entry, Reply
from pagelog.request import ACTS, Act, Failover, Head, Operation, Request, Role
from pagelog.rules import Section


def fields_of_block(block: Block) -> dict[str, Any]:
    def fields_of_record(record: Record) -> dict[str, Any]:
        if isinstance(record, Zero):
            return {"kind": "zero", "page": record.page}
        return {
            "kind": "put",
            "page": record.page,
            "offset": record.offset,
            "bytes": record.data.hex(),
        }

    return {
        "lsn": block.lsn,
        "partitions": list(block.partitions),
        "records": list(map(fields_of_record, block.records)),
    }


def block_of_fields(fields: dict[str, Any]) -> Block:
    def record_of_fields(one: dict[str, Any]) -> Record:
        return (
            Zero(one["page"])
            if one["kind"] == "zero"
            else Put(one["page"], one["offset"], bytes.fromhex(one["bytes"]))
        )

    return Block.of(fields["lsn"], map(record_of_fields, fields["records"]))


def fields_of_request(request: Request) -> dict[str, Any]:
    head, act = request.head, request.act
    fields = {
        "principal": head.principal,
        "token": head.token.hex(),
        "role": head.role.word,
        "database": head.database,
        "epoch": head.epoch,
        "op": act.operation.word,
    }
    return fields | {
        name: spelled(getattr(act, argument)) for argument, name in names(type(act)).items()
    }


def request_of_fields(fields: dict[str, Any]) -> Request:
    role, kind = Role[fields["role"].upper()], ACTS[Operation[fields["op"].upper()]]
    head = Head(
        fields["principal"],
        bytes.fromhex(fields["token"]),
        role,
        fields["database"],
        fields["epoch"],
    )
    return Request(
        head, kind(**{argument: read(name, fields[name]) for argument, name in names(kind).items()})
    )


def names(kind: type[Act]) -> dict[str, str]:
    """The arguments of an act of this class, each with its name in the vectors."""
    return {
        one.name: "primary" if kind is Failover else one.name for one in dataclasses.fields(kind)
    }


def spelled(value: Any) -> Any:
    """The value of an argument as the vectors have it."""
    if isinstance(value, Block):
        return value.data.hex()
    return value.hex() if isinstance(value, bytes) else int(value)


def read(name: str, value: Any) -> Any:
    """The value of an argument that the vectors have under this name."""
    if name == "block":
        return Block.decode(bytes.fromhex(value))
    if name == "text":
        return bytes.fromhex(value)
    return bool(value) if name == "exact" else value


WORDS = {
    replies.Done: "done",
    replies.NoMemory: "no_memory",
    replies.AuditFull: "audit_full",
    replies.Spent: "spent",
    replies.NoDatabase: "no_database",
}


def fields_of_reply(reply: Reply) -> dict[str, Any]:
    if isinstance(reply, replies.Blocks):
        return {
            "reply": "blocks",
            "next": reply.next,
            "blocks": [block.data.hex() for block in reply.blocks],
        }
    if isinstance(reply, replies.Page):
        return {"reply": "page", "at": reply.at, "bytes": reply.data.hex()}
    if isinstance(reply, replies.Entries):
        return {"reply": "entries", "entries": list(map(fields_of_entry, reply.entries))}
    if isinstance(reply, replies.State):
        return {
            "reply": "status",
            "epoch": reply.epoch,
            "primary": reply.primary,
            "hard": reply.hard,
            "pending": reply.pending,
            "landing": reply.landing,
        }
    if isinstance(reply, replies.Denied):
        return {
            "reply": "denied",
            "section": int(reply.section),
            "row": reply.row,
            "value": reply.value,
        }
    if isinstance(reply, replies.Malformed):
        return {"reply": "malformed", "code": reply.code}
    return {"reply": WORDS[type(reply)]}


def fields_of_entry(entry: Entry) -> dict[str, Any]:
    return {
        "number": entry.number,
        "pass": entry.in_pass,
        "principal": entry.principal,
        "role": entry.role.word,
        "epoch": entry.epoch,
        "op": entry.operation.word,
        "a": entry.a,
        "b": entry.b,
        "section": entry.section,
        "row": entry.row,
        "value": entry.value,
    }


def entry_of_fields(one: dict[str, Any]) -> Entry:
    return Entry(
        one["number"],
        one["pass"],
        one["principal"],
        Role[one["role"].upper()],
        one["epoch"],
        Operation[one["op"].upper()],
        one["a"],
        one["b"],
        one["section"],
        one["row"],
        one["value"],
    )


def reply_of_fields(fields: dict[str, Any]) -> Reply:
    word = fields["reply"]
    if word == "blocks":
        return replies.Blocks(
            fields["next"], tuple(Block.decode(bytes.fromhex(block)) for block in fields["blocks"])
        )
    if word == "page":
        return replies.Page(fields["at"], bytes.fromhex(fields["bytes"]))
    if word == "entries":
        return replies.Entries(tuple(map(entry_of_fields, fields["entries"])))
    if word == "status":
        return replies.State(
            fields["epoch"], fields["primary"], fields["hard"], fields["pending"], fields["landing"]
        )
    if word == "denied":
        return replies.Denied(Section(fields["section"]), fields["row"], fields["value"])
    if word == "malformed":
        return replies.Malformed(fields["code"])
    return {word: kind for kind, word in WORDS.items()}[word]()  # type: ignore[no-any-return]
