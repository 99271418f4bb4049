"""The vectors of docs/FORMATS.md: what the client spells and reads is what the page says, by the names that it has there."""

import json
import pathlib
import re
import shutil
import socket
import struct
import subprocess
import tempfile
import threading

from binding import (
    AUDIT_FULL,
    DENIED,
    DONE,
    FENCED,
    LOST,
    MALFORMED,
    NO_MEMORY,
    AuditLine,
    Blocks,
    Log,
    Reply,
    Request,
    blocks_of,
    byref,
    c_void_p,
    ctypes,
    decode,
    encode,
    lib,
    records_of,
    exact_buffer,
)
from check import run, same, true
from service import CLIENT, ROOT, Service, exactly, plain_environment, wire


def numbers_of(enum):
    """The words of an enum of pagelog.h, each with its number."""
    listed = re.search(
        rf"^enum {enum} \{{(.*?)\}};", (CLIENT / "pagelog.h").read_text(), flags=re.S | re.M
    )[1]
    found, number = {}, -1
    for word, given in re.findall(r"PAGELOG_(\w+)(?: = (\d+))?", listed):
        number = int(given) if given else number + 1
        found[word.lower()] = number
    return found


ROLES, OPERATIONS = numbers_of("pagelog_role"), numbers_of("pagelog_operation")
KINDS = [
    "done",
    "blocks",
    "page",
    "entries",
    "status",
    "denied",
    "no_memory",
    "audit_full",
    "spent",
    "no_database",
    "malformed",
]


def vectors(kind):
    """The lines of a kind, as (name, bytes, fields); each kind has some."""
    page = (ROOT / "docs" / "FORMATS.md").read_text()
    blocks = re.findall(r"^```vectors\n(.*?)^```$", page, flags=re.S | re.M)
    same("blocks of vectors", 1, len(blocks))
    lines = [line.split(" ", 3) for line in blocks[0].splitlines()]
    true(
        "kinds",
        all(
            len(parts) == 4 and parts[0] in ("block", "request", "reply", "frame")
            for parts in lines
        ),
    )
    found = [
        (name, bytes.fromhex(text), json.loads(fields))
        for of, name, text, fields in lines
        if of == kind
    ]
    true(f"there are lines of {kind}", found)
    return found


def fault_of(block):
    kept = exact_buffer(block)
    return lib.pagelog_block_fault(ctypes.cast(kept, ctypes.c_char_p), len(block))


def record(fields):
    return (fields["page"],) + (
        (fields["offset"], bytes.fromhex(fields["bytes"])) if fields["kind"] == "put" else ()
    )


def test_blocks():
    for name, data, fields in vectors("block"):
        records = [record(part) for part in fields["records"]]
        same(f"{name}: no fault", 0, fault_of(data))
        same(f"{name}: read", (fields["lsn"], records), records_of(data))
        same(
            f"{name}: partitions",
            fields["partitions"],
            sorted({page >> 16 for page, *_ in records}),
        )
        for length in range(len(data)):
            true(f"{name}: cut after {length}", fault_of(data[:length]) in (1, 8))
        same(f"{name}: too long", 7, fault_of(data + b"\0"))
        if not records:
            continue
        blocks = Blocks(fields["lsn"])
        for page, *put in records:
            same("add", DONE, blocks.put(page, *put) if put else blocks.zero(page))
        blocks.end()
        same(f"{name}: built", [data], blocks.all())


def request_of(fields):
    known = {"principal", "token", "role", "database", "epoch", "op"}
    names = {"primary": "to", "first": "lsn", "block": None, "text": None}
    made = Request(
        principal=fields["principal"],
        role=ROLES[fields["role"]],
        database=fields["database"],
        epoch=fields["epoch"],
        operation=OPERATIONS[fields["op"]],
    )
    made.token[:] = bytes.fromhex(fields["token"])
    for name, value in fields.items():
        target = names.get(name, name)
        if name in known:
            continue
        if target is not None:
            setattr(made, target, value)
            continue
        data = bytes.fromhex(value)
        made.kept = exact_buffer(data)
        made.bytes, made.length = ctypes.cast(made.kept, c_void_p), len(data)
    return made


def test_requests():
    operations = set()
    for name, data, fields in vectors("request"):
        same(name, data.hex(), encode(request_of(fields)).hex())
        operations.add(fields["op"])
    same("each operation has a line", set(OPERATIONS), operations)


def line_of(data):
    line = AuditLine()
    lib.pagelog_read_audit_line(data, byref(line))
    words = {number: word for word, number in ROLES.items()}, {
        number: word for word, number in OPERATIONS.items()
    }
    return {
        "number": line.number,
        "pass": line.pass_,
        "principal": line.principal,
        "role": words[0][line.role],
        "epoch": line.epoch,
        "op": words[1][line.operation],
        "a": line.a,
        "b": line.b,
        "section": line.section,
        "row": line.row,
        "value": line.value,
    }


def fields_of(reply):
    kind, data = KINDS[reply.kind], reply.data()
    found = {"reply": kind}
    if kind == "blocks":
        found.update(next=reply.next, blocks=[block.hex() for block in blocks_of(reply)])
    if kind == "page":
        found.update(at=reply.at, bytes=data.hex())
    if kind == "entries":
        found.update(entries=[line_of(data[at : at + 53]) for at in range(0, len(data), 53)])
    for name in {
        "status": ("epoch", "primary", "hard", "pending", "landing"),
        "denied": ("section", "row", "value"),
        "malformed": ("code",),
    }.get(kind, ()):
        found[name] = getattr(reply, name)
    return found


def test_replies():
    kinds = set()
    for name, data, fields in vectors("reply"):
        fault, reply = decode(data)
        same(f"{name}: no fault", 0, fault)
        same(name, fields, fields_of(reply))
        for length in list(range(min(len(data), 300))) + [len(data) - 1]:
            true(f"{name}: cut after {length}", decode(data[:length])[0] in (1, 4))
        same(f"{name}: too long", 5, decode(data + b"\0")[0])
        kinds.add(fields["reply"])
    same("each kind has a line", set(KINDS), kinds)


def test_faults_of_replies():
    page = b"\2" + bytes(8) + bytes(8192)
    line = struct.pack(">QQIBIBQQBHQ", 1, 1, 2, 1, 0, 7, 0, 0, 1, 2, 1)
    entries = lambda *changes: b"\3\0\1" + b"".join(
        line[:at] + value + line[at + len(value) :] for at, value in changes
    )
    blocks = (
        lambda block, length=None: b"\1"
        + bytes(8)
        + b"\0\1"
        + struct.pack(">I", length or len(block))
        + block
    )
    cases = [
        (b"", 1),
        (b"\x0b", 3),
        (b"\xff", 3),
        (b"\5\0", 6),
        (b"\5\4", 6),
        (b"\5\1\0\2", 4),
        (b"\x0a\0", 6),
        (b"\x0a\x10", 6),
        (b"\x0a", 4),
        (b"\0\0", 5),
        (page, 0),
        (page + b"\0", 5),
        (page[:-1], 4),
        (entries((20, b"\1")), 0),
        (entries((20, b"\0")), 2),
        (entries((20, b"\5")), 2),
        (entries((25, b"\0")), 3),
        *((entries((25, bytes([operation]))), 0) for operation in wire.OPS),
        (entries((25, bytes([wire.NO_OPERATION]))), 3),
        (entries((42, b"\4")), 6),
        (entries((42, b"\0")), 6),
        (b"\3\4\1", 6),
        (b"\3\4\0", 4),
        (b"\1" + bytes(8) + b"\0\x11", 6),
        (b"\1" + bytes(8) + b"\0\x10", 4),
        (blocks(wire.block(1, [(0, 0, b"a")])), 0),
        (blocks(wire.block(0, [])), 8),
        (blocks(wire.block(1, []), 32769), 15),
        (blocks(wire.block(1, [])[:-1]), 7),
        (blocks(wire.block(1, [(0, 0, b"")])), 11),
        (blocks(wire.block(1, [(0, 8191, b"ab")])), 12),
        (blocks(wire.block(1, [(0, 0, b"a")])[:-1] + b"ab"), 13),
        (blocks(wire.number(1, 8) + b"\0\2\0\1\0\1\0\0"), 9),
        (blocks(wire.number(1, 8) + b"\0\1\0\1\0\0"), 14),
        (blocks(wire.number(1, 8) + b"\0\0\0\1\3"), 10),
    ]
    for body, fault in cases:
        same(body[:20].hex(), fault, decode(body)[0])


# The operation that a reply is an answer to, where it is none to a report, and what the client makes of a reply: of a denial
# by the epoch, FENCED.
ASKED = {"blocks": "pull", "page": "get", "entries": "audit", "status": "status"}
MADE = {
    "denied": FENCED,
    "no_memory": NO_MEMORY,
    "audit_full": AUDIT_FULL,
    "spent": DENIED,
    "no_database": DENIED,
    "malformed": MALFORMED,
}


def test_frames():
    """What a connection carries, at a socket of this test's own: a frame of each operation and of each kind of reply."""
    requests = {data: fields for _, data, fields in vectors("request")}
    replies = {data: fields for _, data, fields in vectors("reply")}
    of_operation = {fields["op"]: fields for fields in requests.values()}
    listener, framed = socket.create_server(("127.0.0.1", 0)), set()
    address = "127.0.0.1:%d" % listener.getsockname()[1]
    for name, data, fields in vectors("frame"):
        body = bytes.fromhex(fields["body"])
        true(f"{name}: its body has a line", body in requests or body in replies)
        kind = replies[body]["reply"] if body in replies else None
        asked = of_operation[ASKED.get(kind, "report")] if kind else requests[body]
        framed.add(("reply", kind) if kind else ("request", asked["op"]))
        seen = []

        def answer():
            client, _ = listener.accept()
            length = struct.unpack(">I", exactly(client, 4))[0]
            seen.append(struct.pack(">I", length) + exactly(client, length))
            client.sendall(data if kind else b"\0\0\0\1\6")
            client.close()

        thread = threading.Thread(target=answer)
        thread.start()
        with Log(address, 2) as log:
            if kind == "status":
                asked = {**asked, "epoch": replies[body]["epoch"]}
            if kind in ("blocks", "entries"):
                asked = {**asked, "lsn" if kind == "blocks" else "first": 1, "max": 16}
            same("send", DONE, log.send(request_of(asked), whole=True))
            outcome, reply = log.receive()
            if kind:
                same(name, (MADE.get(kind, DONE), replies[body]), (outcome, fields_of(reply)))
        thread.join()
        if not kind:
            same(name, data.hex(), seen[0].hex())
    wanted = {("request", operation) for operation in OPERATIONS} | {
        ("reply", kind) for kind in KINDS
    }
    same("each operation and each kind has a frame", wanted, framed)


def answered(data, reply_ms):
    """What the client makes of a peer that answers its request with these bytes, and then is silent."""
    listener, is_over = socket.create_server(("127.0.0.1", 0)), threading.Event()

    def answer():
        client, _ = listener.accept()
        exactly(client, struct.unpack(">I", exactly(client, 4))[0])
        client.sendall(data)
        is_over.wait(120)
        client.close()

    thread = threading.Thread(target=answer)
    thread.start()
    with Log("127.0.0.1:%d" % listener.getsockname()[1], 2, reply_ms=reply_ms) as log:
        outcome, _ = log.ask(2, OPERATIONS["status"])
    is_over.set()
    thread.join()
    return outcome


def test_frames_that_are_none():
    """A length above that of any reply is refused at once; a frame that is cut is waited for, and no longer than said."""
    same("too long", MALFORMED, answered(struct.pack(">I", 1048577), 60000))
    same("far too long", MALFORMED, answered(b"\xff" * 4 + bytes(100), 60000))
    same("the longest", LOST, answered(struct.pack(">I", 1048576) + bytes(100), 200))
    same("cut", LOST, answered(struct.pack(">I", 33) + bytes(32), 200))
    same("no reply", MALFORMED, answered(struct.pack(">I", 1) + b"\x0b", 60000))
    same("a reply to something else", MALFORMED, answered(struct.pack(">I", 1) + b"\0", 60000))


def test_the_lines_of_the_page():
    """The lines of C in docs/CLIENT.md do what the page says."""
    page = (ROOT / "docs" / "CLIENT.md").read_text()
    lines = re.search(r"^```c\n(.*?)^```$", page, flags=re.S | re.M).group(1)
    true("ten lines and some", len(lines.splitlines()) <= 12)
    same("its address", 1, lines.count('"127.0.0.1:7405"'))
    program = (
        '#include "pagelog.h"\n#include <stdio.h>\n#include <string.h>\nint main(int count, char **words) {\n'
        + lines.replace('"127.0.0.1:7405"', "words[count - 1]")
        + "pagelog_blocks_free(blocks);\npagelog_free(log);\nreturn 0;\n}\n"
    )
    folder = pathlib.Path(tempfile.mkdtemp())
    source, built = folder / "lines.c", folder / "lines"
    source.write_text(program)
    sources = [source for source in CLIENT.glob("*.c") if "vfs" not in source.name]
    subprocess.run(
        [
            "gcc",
            "-std=c11",
            "-D_GNU_SOURCE",
            "-Wall",
            "-Wextra",
            "-Werror",
            "-fsanitize=address,undefined",
            "-I",
            CLIENT,
            "-o",
            built,
            source,
            *sources,
            "-lssl",
            "-lcrypto",
        ],
        check=True,
        env=plain_environment(),
    )
    with Service() as service:
        for wanted in (1, 2):
            said = subprocess.run(
                [built, service.address], capture_output=True, text=True, env=plain_environment()
            )
            same("output", (f"done, the log ends at {wanted}\n", ""), (said.stdout, said.stderr))
    shutil.rmtree(folder)


if __name__ == "__main__":
    run("vectors", globals())
