"""Blocks, requests and replies: bytes to values and back, against the trial of scripts/trial.py, docs/FORMATS and each fault."""

from __future__ import annotations

import json
import re
import sys
import unittest
from typing import Any, Iterator

import vectors
from service import TOP, token
from service_side import decode_request, encode_reply

from pagelog import faults
from pagelog.block import Block, Put, Zero
from pagelog.errors import Fault
from pagelog.reply import (
    AuditFull,
    Blocks,
    Denied,
    Done,
    Entries,
    Entry,
    Malformed,
    NoDatabase,
    NoMemory,
    Page,
    Reply,
    Spent,
    State,
    decode_reply,
    encode_entry,
    expect,
)
from pagelog.request import (
    ACTS,
    WITHOUT_ARGUMENTS,
    Act,
    Advance,
    Audit,
    Failover,
    Get,
    Head,
    Offer,
    Operation,
    Pull,
    Report,
    Request,
    Role,
    SetTable,
    Write,
)
from pagelog.rules import Section
from pagelog.service_protocol import ServiceProtocol, framed

sys.path.insert(0, str(TOP / "scripts"))
import trial  # noqa: E402

FORMATS = (TOP / "docs" / "FORMATS.md").read_text()
TOKEN = bytes.fromhex(token(2))
AA = Block.of(1, [Put(0, 0, b"\xaa")])


def hexadecimal(text: str) -> bytes:
    return bytes.fromhex(text.replace(" ", ""))


class Trial(unittest.TestCase):
    @classmethod
    def setUpClass(cls) -> None:
        cls.databases = trial.parts().databases

    def lines(self) -> Iterator[tuple[str, bytes, bytes]]:
        """Each body of the trial, with its place and the model's reply."""
        for database in self.databases:
            for number, (asked, told) in enumerate(
                zip(database.asked, database.replies, strict=True), 1
            ):
                yield f"{database.name}, {number}", asked, told

    def test_its_requests_are_read_and_written_as_the_service_reads_them(self) -> None:
        seen = set()
        for place, asked, told in self.lines():
            with self.subTest(place):
                if told[:1] == b"\x0a":
                    with self.assertRaises(faults.RequestFault) as raised:
                        decode_request(asked)
                    self.assertEqual(raised.exception.code, told[1])
                    seen.add(told[1])
                else:
                    request = decode_request(asked)
                    self.assertEqual(request.encode(), asked)
                    seen.add(type(request.act))
        self.assertEqual(seen, {*ACTS.values(), *range(1, 16)})

    def test_its_replies_are_read_and_written(self) -> None:
        seen = set()
        for place, _, told in self.lines():
            with self.subTest(place):
                reply = decode_reply(told)
                self.assertEqual(encode_reply(reply), told)
                seen.add(type(reply))
        self.assertEqual(seen, {Done, Blocks, Page, Entries, State, Denied, AuditFull, Malformed})

    def test_its_blocks_are_built_again_from_their_records(self) -> None:
        count = 0
        for place, asked, told in self.lines():
            if told[:1] == b"\x0a":
                continue
            act = decode_request(asked).act
            if isinstance(act, (Write, Offer)):
                built = Block.of(act.block.lsn, act.block.records)
                self.assertEqual(built, act.block, place)
                self.assertEqual(
                    list(built.partitions), sorted({record.partition for record in built.records})
                )
                count += 1
        self.assertGreater(count, 1000)


class Formats(unittest.TestCase):
    def test_the_stored_run(self) -> None:
        section = FORMATS.split("## The stored run")[1].split("\n## ")[0]
        bodies = [
            hexadecimal(line)
            for line in (TOP / "crates" / "pagelog" / "stdin").read_text().splitlines()
        ]
        writer, reader = Head(2, TOKEN, Role.PRIMARY, 0, 1), Head(
            3, bytes.fromhex(token(3)), Role.SECONDARY, 0, 1
        )
        asked = [
            Request(writer, Write(0, AA)),
            Request(writer, Write(1, AA)),
            Request(writer, Report(1)),
            Request(reader, Pull(1)),
        ]
        self.assertEqual([request.encode() for request in asked], bodies)
        self.assertEqual([decode_request(body) for body in bodies], asked)
        last = hexadecimal(re.findall(r"^`(01 [0-9a-f ]+)`", section, flags=re.M)[0])
        self.assertEqual(decode_reply(last), Blocks(2, (AA,)))

    def test_the_line_of_the_audit_list(self) -> None:
        text = re.findall(
            r"^`([0-9a-f ]+)`$", FORMATS.split("## Line of the audit list")[1], flags=re.M
        )[0]
        entry = Entry(1, 1, 2, Role.PRIMARY, 0, Operation.STATUS, 0, 0, 1, 2, 1)
        self.assertEqual(encode_entry(entry), hexadecimal(text))
        self.assertEqual((entry.place, entry.rule, entry.is_allowed), ("A2", "OlderEpoch", False))

    def test_the_vectors(self) -> None:
        lines = "".join(
            re.findall(r"^```vectors\n(.*?)^```", FORMATS, flags=re.S | re.M)
        ).splitlines()
        whose, framed = {}, set()
        for line in lines:
            kind, name, digits, text = line.split(" ", 3)
            fields = json.loads(text)
            if kind != "frame":
                whose[digits] = kind, fields.get("op") or fields.get("reply")
            with self.subTest(f"{kind} {name}"):
                if kind == "frame":
                    framed.add(whose[fields["body"]])
                    self.check_frame(
                        bytes.fromhex(digits),
                        bytes.fromhex(fields["body"]),
                        whose[fields["body"]][0],
                    )
                else:
                    self.check_vector(kind, bytes.fromhex(digits), fields)
        wanted = {("request", operation.word) for operation in Operation} | {
            ("reply", word) for word in vectors.WORDS.values()
        }
        wanted |= {
            ("reply", word)
            for word in ("blocks", "page", "entries", "status", "denied", "malformed")
        }
        self.assertEqual(set(whose.values()), wanted | {("block", None)})
        self.assertEqual(framed, wanted)

    def check_vector(self, kind: str, data: bytes, fields: dict[str, object]) -> None:
        """Both directions of one line: its bytes and its fields say the same."""
        if kind == "block":
            self.assertEqual(vectors.block_of_fields(fields).data, data)
            self.assertEqual(vectors.fields_of_block(Block.decode(data)), fields)
        elif kind == "request":
            self.assertEqual(vectors.request_of_fields(fields).encode(), data)
            self.assertEqual(vectors.fields_of_request(decode_request(data)), fields)
        elif kind == "reply":
            self.assertEqual(encode_reply(vectors.reply_of_fields(fields)), data)
            self.assertEqual(vectors.fields_of_reply(decode_reply(data)), fields)
        else:
            self.fail(f"a line of kind {kind}")

    def check_frame(self, data: bytes, body: bytes, kind: str) -> None:
        """The protocol takes the body out of the frame, however its bytes come, and puts a request's body into one."""
        for cut in range(len(data) + 1):
            protocol = ServiceProtocol()
            protocol.ask(b"")
            protocol.receive(data[:cut])
            self.assertEqual(protocol.body(), body if cut == len(data) else None)
            if cut < len(data):
                protocol.receive(data[cut:])
                self.assertEqual(protocol.body(), body)
        if kind == "request":
            self.assertEqual(framed(decode_request(body).encode()), data)


class Replies(unittest.TestCase):
    KINDS: tuple[Reply, ...] = (
        Done(),
        Blocks(9, (AA, Block.of(8))),
        Page(7, bytes(8192)),
        Entries(()),
        State(1, 2, 3, 4, 5),
        Denied(Section.C, 6, 1),
        NoMemory(),
        AuditFull(),
        Spent(),
        NoDatabase(),
        Malformed(15),
    )

    def test_each_kind_both_ways(self) -> None:
        for kind, reply in enumerate(self.KINDS):
            self.assertEqual(encode_reply(reply)[0], kind)
            self.assertEqual(decode_reply(encode_reply(reply)), reply)

    def test_each_fault(self) -> None:
        line = hexadecimal(
            "0000000000000001 0000000000000001 00000002 01 00000000 07 0000000000000000 0000000000000000 00 0000 0000000000000000"
        )
        entries = (
            lambda *lines: b"\x03" + len(lines).to_bytes(2, "big") + b"".join(lines)
        )  # noqa: E731
        at = lambda place, byte: line[:place] + bytes([byte]) + line[place + 1 :]  # noqa: E731
        blocks = (
            lambda count, rest: b"\x01" + bytes(8) + count.to_bytes(2, "big") + rest
        )  # noqa: E731
        cases = [
            ("nothing", b"", faults.EmptyReply, 1),
            ("a kind above 10", b"\x0b", faults.UnknownReply, 3),
            ("bytes behind Done", b"\x00\x00", faults.BytesAfterReply, 5),
            (
                "bytes behind a Status",
                encode_reply(self.KINDS[4]) + b"\0",
                faults.BytesAfterReply,
                5,
            ),
            ("half a Status", encode_reply(self.KINDS[4])[:-1], faults.ReplyEndsInField, 4),
            ("half a Page", b"\x02" + bytes(8199), faults.ReplyEndsInField, 4),
            ("17 blocks", blocks(17, b""), faults.FieldOutOfRange, 6),
            ("a block that is not there", blocks(1, b""), faults.ReplyEndsInField, 4),
            (
                "a block that is cut",
                blocks(1, b"\0\0\0\x0c" + bytes(11)),
                faults.ReplyEndsInField,
                4,
            ),
            (
                "a block of LSN 0",
                blocks(1, b"\0\0\0\x0c" + bytes(12)),
                faults.FaultyBlockInReply,
                8,
            ),
            ("a block that is too long", blocks(1, b"\0\0\x80\x01"), faults.FaultyBlockInReply, 15),
            ("1,025 lines", b"\x03\x04\x01", faults.FieldOutOfRange, 6),
            ("a line that is cut", entries(line)[:-1], faults.ReplyEndsInField, 4),
            ("a role of a cut line", entries(at(20, 5)[:21]), faults.UnknownRoleOfLine, 2),
            (
                "an operation of a cut line",
                entries(at(25, max(Operation) + 1)[:26]),
                faults.UnknownReply,
                3,
            ),
            ("role 0", entries(at(20, 0)), faults.UnknownRoleOfLine, 2),
            (
                "an operation that there is not",
                entries(at(25, max(Operation) + 1)),
                faults.UnknownReply,
                3,
            ),
            ("section 4 of a line", entries(at(42, 4)), faults.FieldOutOfRange, 6),
            ("a row without a section", entries(at(44, 1)), faults.FieldOutOfRange, 6),
            ("section 0 of a denial", b"\x05\x00" + bytes(10), faults.FieldOutOfRange, 6),
            ("section 4 of a denial", b"\x05\x04", faults.FieldOutOfRange, 6),
            ("code 0", b"\x0a\x00", faults.FieldOutOfRange, 6),
            ("code 16", b"\x0a\x10", faults.FieldOutOfRange, 6),
        ]
        for name, body, kind, code in cases:
            with self.subTest(name), self.assertRaises(kind) as raised:
                decode_reply(body)
            self.assertEqual(raised.exception.code, code, name)

    def test_a_faulty_line_comes_before_a_cut_one(self) -> None:
        good = encode_entry(Entry(1, 1, 2, Role.PRIMARY, 0, Operation.STATUS, 0, 0, 0, 0, 0))
        bad = good[:20] + b"\x09" + good[21:]
        with self.assertRaises(faults.UnknownRoleOfLine):
            decode_reply(b"\x03\x00\x02" + bad)


class Blocks_(unittest.TestCase):
    LSN = bytes(7) + b"\x01"

    def test_each_fault_of_bytes(self) -> None:
        lsn = self.LSN
        cases = [
            ("nothing", b"", faults.BlockEndsInField),
            ("LSN 0", bytes(8), faults.LsnOutOfRange),
            ("an LSN above 2^48", b"\x00\x01" + bytes(5) + b"\x01", faults.LsnOutOfRange),
            (
                "partitions that fall",
                lsn + hexadecimal("0002 0001 0001"),
                faults.PartitionsNotRising,
            ),
            ("a kind 3", lsn + hexadecimal("0000 0001 03"), faults.UnknownRecordKind),
            (
                "a Put of nothing",
                lsn + hexadecimal("0001 0000 0001 01 00000000 2000 0000"),
                faults.EmptyPut,
            ),
            (
                "a Put past its page",
                lsn + hexadecimal("0001 0000 0001 01 00000000 2000 0001"),
                faults.PutPastPage,
            ),
            ("a byte more", lsn + hexadecimal("0000 0000 00"), faults.BytesAfterRecords),
            (
                "an annotation too many",
                lsn + hexadecimal("0001 0000 0000"),
                faults.WrongAnnotations,
            ),
            (
                "an annotation too few",
                lsn + hexadecimal("0000 0001 02 00000000"),
                faults.WrongAnnotations,
            ),
            ("32,769 bytes", lsn + bytes(32761), faults.BlockTooLong),
        ]
        for name, data, kind in cases:
            with self.subTest(name), self.assertRaises(kind) as raised:
                Block.decode(data)
            body = Head(2, TOKEN, Role.PRIMARY, 0, 1).prefix + b"\x02" + data
            with self.subTest(name + " in an offer"), self.assertRaises(
                faults.FaultyBlock
            ) as in_request:
                decode_request(body)
            self.assertEqual(
                (in_request.exception.code, in_request.exception.block_fault),
                (raised.exception.code + 6, kind),
            )

    def test_each_cut_of_a_block_ends_inside_a_field(self) -> None:
        data = Block.of(5, [Put(70000, 3, b"abc"), Zero(2), Zero(200000)]).data
        for size in range(len(data)):
            with self.subTest(size), self.assertRaises(faults.BlockEndsInField):
                Block.decode(data[:size])

    def test_each_fault_of_records(self) -> None:
        for records, kind in (
            ([Put(0, 0, b"")], faults.EmptyPut),
            ([Put(0, 8192, b"a")], faults.PutPastPage),
            ([Zero(0)] * 6552, faults.BlockTooLong),
            ([Zero(0)] * 65536, faults.BlockTooLong),
            ([Zero(1 << 32)], ValueError),
            ([Put(0, -1, b"a")], ValueError),
        ):
            with self.assertRaises(kind):
                Block.of(1, records)
        for lsn in (0, (1 << 48) + 1):
            with self.assertRaises(faults.LsnOutOfRange):
                Block.of(lsn)
        self.assertEqual(len(Block.of(1 << 48, [Zero(0)] * 6550).data), 14 + 6550 * 5)


class Requests(unittest.TestCase):
    def test_the_operations_are_those_of_the_model(self) -> None:
        """Their numbers and words, the roles that have them, and which have no arguments."""
        self.assertEqual(
            {int(operation): operation.word for operation in Operation}, trial.wire.OPS
        )
        self.assertEqual(
            {int(operation): sorted(act.roles) for operation, act in ACTS.items()},
            {number: trial.wire.roles_of(number) for number in trial.wire.OPS},
        )
        self.assertEqual(list(WITHOUT_ARGUMENTS), trial.wire.WITHOUT_ARGUMENTS)

    def test_arguments_out_of_range(self) -> None:
        head = Head(2, TOKEN, Role.PRIMARY, 0, 1)
        acts: list[Act] = [
            Write(256, AA),
            Report((1 << 48) + 1),
            Report(-1),
            Get(1 << 32, 0),
            Get(0, (1 << 48) + 1),
            Pull(0),
            Pull(1, 17),
            Pull(1, 0),
            Pull(1, 1, 2, 1),
            Pull(1, 1, 0, 65536),
            Advance(65536, 1),
            Advance(0, 0),
            Advance(0, 1025),
            Failover(1 << 32),
            SetTable(bytes(65507)),
            Audit(0),
            Audit(1, 0),
            Audit(1, 1025),
        ]
        for act in acts:
            with self.subTest(act=act), self.assertRaises(faults.ArgumentOutOfRange):
                Request(head, act).encode()
        others: list[Any] = [
            Write(1.0, AA),
            Report(1.5),
            Get(1.5, 0),
            Get(0, "1"),
            Pull(1.0),
            Pull(1, 2.0),
            Advance(0, 1.0),
            Failover(2.0),
            Audit(None),
        ]
        for act in others:
            with self.subTest(act=act), self.assertRaises(TypeError):
                Request(head, act).encode()
        for principal, database, epoch in (
            (-1, 0, 0),
            (1 << 32, 0, 0),
            (0, 1 << 32, 0),
            (0, 0, 1 << 32),
        ):
            with self.assertRaises(faults.ArgumentOutOfRange):
                Head(principal, TOKEN, Role.PRIMARY, database, epoch)
        with self.assertRaises(faults.ArgumentOutOfRange):
            Head(2, b"short", Role.PRIMARY, 0, 1)

    def test_no_text_shows_a_token(self) -> None:
        request = Request(Head(2, TOKEN, Role.PRIMARY, 0, 1), Write(0, AA))
        self.assertNotIn("2222", repr(request))
        self.assertNotIn(repr(TOKEN)[2:-1], repr(request))

    def test_a_fault_has_its_code_and_its_words(self) -> None:
        for code in range(1, 16):
            fault = faults.request_fault(code)
            self.assertIsInstance(fault, Fault)
            self.assertEqual(fault.code, code)
            self.assertIn(f"request fault {code}: ", str(fault))
        with self.assertRaises(faults.MalformedRequest) as raised:
            expect(Done, Malformed(14))
        self.assertEqual((raised.exception.code, raised.exception.fault.code), (14, 14))
        self.assertIn("annotations", str(raised.exception))

    def test_a_frame_that_is_too_long_is_refused(self) -> None:
        protocol = ServiceProtocol()
        protocol.ask(b"")
        protocol.receive(b"\x00\x10\x00\x01")
        with self.assertRaises(faults.FrameFault):
            protocol.body()


if __name__ == "__main__":
    unittest.main()
