"""Blocks, requests, replies and frames as fields by name, as the vectors of docs/FORMATS.md have them, and as bytes.

Bytes are texts of hexadecimal digits, and roles, operations and kinds of replies their words. What reads a request or a
block is the model's, what writes it is wire.py; both ways of a reply and a frame are here.
"""

import wire
from model import OPS, ROLES, MalformedBody, BodyReader, read_block, read_request
from wire import frame, number

REPLIES = [
    "done",
    "blocks",
    "page",
    "entries",
    "status",
    "denied",
    "no_memory",
    "audit_full",
    "spent",
    "no_database",
    "malformed",
]
LINE = {
    "number": 8,
    "pass": 8,
    "principal": 4,
    "role": 1,
    "epoch": 4,
    "op": 1,
    "a": 8,
    "b": 8,
    "section": 1,
    "row": 2,
    "value": 8,
}
STATUS = {"epoch": 4, "primary": 4, "hard": 8, "pending": 8, "landing": 8}
DENIED = {"section": 1, "row": 2, "value": 8}
WORDS = {"role": ROLES, "op": OPS}
MOST_BLOCKS, MOST_LINES = 16, 1024


def numbered(words, word):
    """The number of a word."""
    return next(at for at, other in words.items() if other == word)


# Blocks.


def block_bytes(fields):
    records = []
    for record in fields["records"]:
        is_put = record["kind"] == "put"
        records.append(
            (record["page"], record["offset"], bytes.fromhex(record["bytes"]))
            if is_put
            else (record["page"],)
        )
    return wire.block(fields["lsn"], records)


def block_fields(data):
    block = read_block(data)
    records = []
    for page, *put in block.records:
        what = {"offset": put[0], "bytes": put[1].hex()} if put else {}
        records.append({"kind": "put" if put else "zero", "page": page, **what})
    return {"lsn": block.lsn, "partitions": sorted(block.touched), "records": records}


# Requests. The fields of an operation after those of the head, in the order of the wire; the others have none.

ARGUMENTS = {
    "write": ("copy", "block"),
    "offer": ("block",),
    "report": ("lsn",),
    "get": ("page", "lsn", "exact"),
    "pull": ("lo", "hi", "lsn", "max"),
    "advance": ("partition", "steps"),
    "failover": ("primary",),
    "set_table": ("text",),
    "audit": ("first", "max"),
}


def request_bytes(fields):
    op = numbered(OPS, fields["op"])
    arguments = [fields[name] for name in ARGUMENTS.get(fields["op"], ())]
    arguments = [bytes.fromhex(part) if isinstance(part, str) else part for part in arguments]
    head = wire.head(
        fields["principal"],
        numbered(ROLES, fields["role"]),
        op,
        fields["epoch"],
        fields["database"],
        bytes.fromhex(fields["token"]),
    )
    return head + (b"" if op in wire.WITHOUT_ARGUMENTS else wire.WRITERS[op](*arguments))


def request_fields(data):
    q = read_request(data)
    op = OPS[q["op"]]
    fields = {
        "principal": q["who"],
        "token": q["token"].hex(),
        "role": ROLES[q["role"]],
        "database": q["database"],
        "epoch": q["epoch"],
        "op": op,
    }
    for name in ARGUMENTS.get(op, ()):
        part = q["most" if name == "max" else name]
        fields[name] = (
            part.spelled.hex() if name == "block" else part.hex() if name == "text" else part
        )
    return fields


# Replies. A fault is one of the codes of a reply's body.


def packed(sizes, fields):
    return b"".join(
        number(numbered(WORDS[name], fields[name]) if name in WORDS else fields[name], size)
        for name, size in sizes.items()
    )


def unpacked(sizes, reader):
    return {
        name: WORDS[name][reader.number(size)] if name in WORDS else reader.number(size)
        for name, size in sizes.items()
    }


def reply_bytes(fields):
    kind = fields["reply"]
    out = bytes([REPLIES.index(kind)])
    if kind == "blocks":
        blocks = [bytes.fromhex(block) for block in fields["blocks"]]
        return (
            out + number(fields["next"], 8) + number(len(blocks), 2) + b"".join(map(frame, blocks))
        )
    if kind == "page":
        return out + number(fields["at"], 8) + bytes.fromhex(fields["bytes"])
    if kind == "entries":
        return (
            out
            + number(len(fields["entries"]), 2)
            + b"".join(packed(LINE, line) for line in fields["entries"])
        )
    if kind in ("status", "denied"):
        return out + packed(STATUS if kind == "status" else DENIED, fields)
    return out + (number(fields["code"], 1) if kind == "malformed" else b"")


def reply_fields(data):
    if not data:
        raise MalformedBody(1)
    reader = BodyReader(data, 4)
    kind = reader.number(1)
    if kind >= len(REPLIES):
        raise MalformedBody(3)
    fields = {"reply": REPLIES[kind]}
    if kind == 1:
        fields["next"] = reader.number(8)
        fields["blocks"] = [
            read_block(reader.take(reader.number(4))).spelled.hex()
            for _ in range(count(reader, MOST_BLOCKS))
        ]
    elif kind == 2:
        fields.update(at=reader.number(8), bytes=reader.take(wire.PAGE_BYTES).hex())
    elif kind == 3:
        fields["entries"] = [unpacked(LINE, reader) for _ in range(count(reader, MOST_LINES))]
    elif kind in (4, 5):
        fields.update(unpacked(STATUS if kind == 4 else DENIED, reader))
    elif kind == 10:
        fields["code"] = reader.number(1)
    if reader.left():
        raise MalformedBody(5)
    return fields


def count(reader, most):
    found = reader.number(2)
    if found > most:
        raise MalformedBody(6)
    return found


# Frames.


def frame_bytes(fields):
    return frame(bytes.fromhex(fields["body"]))


def frame_fields(data):
    reader = BodyReader(data, 4)
    body = reader.take(reader.number(4))
    if reader.left():
        raise MalformedBody(5)
    return {"body": body.hex()}


WRITE = {"block": block_bytes, "request": request_bytes, "reply": reply_bytes, "frame": frame_bytes}
READ = {
    "block": block_fields,
    "request": request_fields,
    "reply": reply_fields,
    "frame": frame_fields,
}
