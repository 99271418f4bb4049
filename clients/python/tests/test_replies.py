"""Every reply, every rule and every fault that the real service answers with, as the exception that it becomes.

Three replies cannot be had from a service in a test: Spent and the rule LastEpoch come after 2^62 and 2^32 requests; their
bytes are read in test_bytes.
"""

from __future__ import annotations

import unittest
from dataclasses import dataclass
from typing import Callable

import pagelog
from pagelog import Block, Credentials, Primary, Put, Reader, faults, rules
from pagelog.connection import Connection
from pagelog.reply import Denied, Done, Malformed, NoMemory, Page, Reply, expect
from pagelog.request import (
    Audit,
    Get,
    Head,
    Offer,
    Pull,
    Report,
    Request,
    Role,
    SetTable,
    Status,
    Tidy,
    Write,
)
from service import Service, put, token
from service_side import decode_request

LSN_1 = Block.of(1, [Put(0, 0, b"a")])


@dataclass(frozen=True)
class RawAct:
    operation: pagelog.Operation = pagelog.Operation.STATUS
    repeatable: bool = True


@dataclass(frozen=True)
class Raw:
    """A body that the library would not write."""

    body: bytes
    act: RawAct = RawAct()

    def encode(self) -> bytes:
        return self.body


class EachReply(unittest.TestCase):
    def setUp(self) -> None:
        self.service = self.enterContext(Service(audit=1000))
        self.connection = self.enterContext(Connection(self.service.address))

    def ask(
        self,
        act: object,
        *,
        id: int = 2,
        role: Role = Role.PRIMARY,
        db: int = 0,
        epoch: int = 1,
        key: int | None = None,
    ) -> Reply:
        head = Head(id, bytes.fromhex(token(key or id)), role, db, epoch)
        return self.connection.ask(Request(head, act))  # type: ignore[arg-type]

    def denied(
        self, kind: type[rules.Denial], place: str, value: int, act: object, **head: object
    ) -> rules.Denial:
        with self.assertRaises(kind) as raised:
            expect(Done, self.ask(act, **head))  # type: ignore[arg-type]
        denial = raised.exception
        self.assertEqual(
            (f"{denial.section.name}{denial.row}", denial.value, denial.rule),
            (place, value, kind.__name__),
        )
        self.assertIn(place, str(denial))
        return denial

    def test_each_rule(self) -> None:
        two = Block.of(2, [Put(0, 0, b"b")])
        self.denied(rules.UnknownPrincipal, "A1", 0, Status(), key=3)
        self.denied(rules.OlderEpoch, "A2", 1, Status(), epoch=0)
        self.denied(rules.NewerEpoch, "A3", 1, Status(), epoch=2)
        self.denied(rules.OtherPrimary, "A4", 0, Status(), id=5)
        self.denied(rules.RoleLacksOperation, "A5", 0, Tidy())
        self.denied(rules.TableRow, "B3", 0, Get(7 * 65536, 0), id=3, role=Role.SECONDARY)
        self.denied(rules.NoRowMatches, "B0", 0, Status(), id=2, role=Role.SECONDARY)
        self.denied(rules.AboveTheEnd, "C1", 0, Pull(1), id=3, role=Role.SECONDARY)
        self.denied(rules.AboveTheWindow, "C3", 0, Offer(Block.of(65)))
        self.denied(rules.NoSuchCopy, "C5", 0, Write(3, LSN_1))
        self.denied(rules.BelowQuorum, "C6", 0, Report(1))
        for copy in (0, 2):
            self.assertEqual(self.ask(Write(copy, LSN_1)), Done())
        self.denied(rules.OtherContent, "C4", 0, Write(0, Block.of(1)))
        self.assertEqual(self.ask(Report(1)), Done())
        self.denied(rules.HardenedAlready, "C2", 1, Write(0, LSN_1))
        self.assertEqual(self.ask(Offer(two)), Done())
        no_table = self.denied(rules.NoTable, "C7", 3, SetTable(b""), id=1, role=Role.OPERATOR)
        self.assertIs(no_table.fault, rules.TableFault.COUNT_OF_PRINCIPALS)  # type: ignore[attr-defined]
        self.denied(
            rules.UnlistedPrimary, "C8", 0, pagelog.request.Failover(99), id=1, role=Role.OPERATOR
        )

    def test_each_fault_of_a_body(self) -> None:
        head = Head(2, bytes.fromhex(token(2)), Role.PRIMARY, 0, 1).prefix
        lsn = bytes(7) + b"\x01"
        bodies = {
            1: head,
            2: head[:20] + b"\x05" + head[21:] + b"\x07",
            3: head + b"\x0c",
            4: head + b"\x01",
            5: head + b"\x07\x00",
            6: head + b"\x03" + b"\xff" * 8,
            7: head + b"\x02",
            8: head + b"\x02" + bytes(8),
            9: head + b"\x02" + lsn + bytes.fromhex("000200010001"),
            10: head + b"\x02" + lsn + bytes.fromhex("0000000103"),
            11: head + b"\x02" + lsn + bytes.fromhex("000100000001010000000000000000"),
            12: head + b"\x02" + lsn + bytes.fromhex("000100000001010000000020000001"),
            13: head + b"\x02" + lsn + bytes(5),
            14: head + b"\x02" + lsn + bytes.fromhex("000100000000"),
            15: head + b"\x02" + lsn + bytes(32761),
        }
        replies = list(self.connection.exchange(Raw(body) for body in bodies.values()))  # type: ignore[misc]
        self.assertEqual(replies, [Malformed(code) for code in bodies])
        for code, body in bodies.items():
            with self.subTest(code), self.assertRaises(faults.RequestFault) as raised:
                decode_request(body)
            self.assertEqual(raised.exception.code, code)
            with self.assertRaises(faults.MalformedRequest) as refused:
                expect(Done, Malformed(code))
            self.assertIs(type(refused.exception.fault), type(raised.exception))

    def test_no_database(self) -> None:
        with self.assertRaises(pagelog.UnknownDatabase):
            expect(Done, self.ask(Status(), db=1))
        with self.assertRaises(pagelog.UnknownDatabase):
            self.service.reader(db=7).status()

    def test_audit_list_full(self) -> None:
        with self.service.operator() as operator:
            asked = [Status()] * 998
            list(
                self.connection.exchange(
                    Request(Head(3, bytes.fromhex(token(3)), Role.SECONDARY, 0, 1), act)
                    for act in asked
                )
            )
            self.assertEqual(len(operator.audit(1)), 998)
            self.assertEqual(operator.status().epoch, 1)
            for asks in (
                operator.status,
                lambda: operator.failover(5),
                lambda: self.service.reader().pull(1),
            ):
                with self.assertRaises(pagelog.AuditListFull):
                    asks()

    def test_a_reply_of_another_kind_is_unexpected(self) -> None:
        with self.assertRaises(pagelog.UnexpectedReply):
            expect(Done, self.ask(Audit(1), id=1, role=Role.OPERATOR))

    def test_each_table_fault(self) -> None:
        good = '[[principal]]\nid = 1\ntoken = "' + token(1) + '"\n'
        row = '[[row]]\nverdict = "allow"\nwho = 1\nrole = "operator"\n'
        texts = {
            1: "[[principal]",
            2: "other = 1\n",
            3: "",
            4: good + row * 257,
            5: "[[principal]]\nid = 1\n",
            6: good.replace("1\n", "-1\n", 1),
            7: good.replace("11", "1g"),
            8: good + good,
            9: good + "[[row]]\n",
            10: good + row.replace("allow", "permit"),
            11: good + row.replace("who = 1", "who = 2"),
            12: good,
        }
        with self.service.operator() as operator:
            for code, text in texts.items():
                with self.subTest(code), self.assertRaises(pagelog.NoTable) as raised:
                    operator.set_table(text)
                self.assertEqual(
                    (raised.exception.value, raised.exception.fault), (code, rules.TableFault(code))
                )
            operator.set_table(good + row)
            self.assertEqual(operator.status().hard, 0)
            with self.assertRaises(pagelog.UnknownPrincipal):
                self.service.reader().status()


ENDED = (pagelog.OutOfMemory, pagelog.ConnectionLost, pagelog.Unreachable)
"""How a service whose memory is used up may answer: NoMemory, or an end of the connection."""


class OutOfMemory(unittest.TestCase):
    """A request that was answered NoMemory changed nothing, and one whose connection ended either all or nothing.

    Both may be asked again.
    """

    def test_no_memory_changes_nothing_and_may_be_repeated(self) -> None:
        self.with_a_service(self.goes_on_when_there_is_memory_again)

    def test_what_was_answered_no_memory_left_no_trace(self) -> None:
        self.with_a_service(self.leaves_no_trace)

    def with_a_service(self, runs: Callable[[Service], None]) -> None:
        for _ in range(6):
            with Service() as service:
                try:
                    runs(service)
                except ENDED:
                    if service.process.poll() is None:
                        raise
                    # A build with a sanitizer may be ended by that, where the sanitizer itself gets no memory.
                    assert service.process.stdout is not None
                    self.assertIn("Sanitizer", service.process.stdout.read())
                else:
                    return
        self.fail("the sanitizer of this build ended the service each time")

    def goes_on_when_there_is_memory_again(self, service: Service) -> None:
        with Primary(
            service.connection(1), Credentials.of(2, token(2)), alone=True
        ) as primary, service.reader() as reader:
            # Each of twenty pages as it was at twenty LSNs: more versions than the memory that is left has room for.
            list(primary.stream([put(at % 20, b"first")] for at in range(400)))
            service.limit_memory(1 << 20)
            with Reader(
                service.connection(1), Credentials.of(3, token(3))
            ) as other, self.assertRaises(ENDED):
                for at in range(4000):
                    other.page(at % 20, 400 - at // 10)
            with self.assertRaises(ENDED):
                # Far more than the memory that is left.
                list(
                    primary.stream(
                        [put(20 + page, at.to_bytes(2, "big") * 4000) for page in range(3)]
                        for at in range(401, 4400)
                    )
                )
            if service.process.poll() is not None:
                raise pagelog.ConnectionLost("the service has ended")
            before = primary.durable
            service.unlimit_memory()
            self.assertGreater(primary.commit(), before)
            blocks = list(reader.blocks(1, follow=False))
            self.assertEqual([block.lsn for block in blocks], list(range(1, primary.durable + 1)))
            self.assertEqual(
                [int.from_bytes(block.records[0].data[:2], "big") for block in blocks[400:]],  # type: ignore[union-attr]
                list(range(401, primary.durable + 1)),
            )
            self.assertEqual(reader.status().hard, primary.durable)
            self.assertEqual({page.data[:5] for page in reader.pages(range(20), 400)}, {b"first"})

    def leaves_no_trace(self, service: Service) -> None:
        """Where an LSN has no block, any may be written there; where it has one, no other may."""
        head = Head(2, bytes.fromhex(token(2)), Role.PRIMARY, 0, 1)
        with service.connection(1) as connection, service.primary() as primary:
            list(primary.stream([put(0, b"first")] for _ in range(20)))
            end = primary.durable
            service.limit_memory(0)
            replies: dict[int, Reply | None] = {}
            with self.assertRaises(ENDED):
                for page in range(2000):
                    expect(Page, connection.ask(Request(head, Get(page, end))))
            for lsn in range(end + 1, end + 65):
                # A small request finds memory to be read and none to be carried out; a large one is not even read.
                block = Block.of(
                    lsn, [Put(page, 0, bytes(100 if lsn < end + 30 else 8000)) for page in range(4)]
                )
                try:
                    replies[lsn] = connection.ask(Request(head, Write(0, block)))
                except ENDED:
                    replies[lsn] = None
            self.assertNotEqual(set(replies.values()), {Done()})
            service.unlimit_memory()
            stands = Denied(pagelog.Section.C, 4, 0)
            for lsn, reply in replies.items():
                other = connection.ask(
                    Request(head, Write(0, Block.of(lsn, [Put(0, 0, b"another")])))
                )
                wanted = {Done(): {stands}, NoMemory(): {Done()}, None: {stands, Done()}}[reply]
                self.assertIn(other, wanted, (lsn, reply))


if __name__ == "__main__":
    unittest.main()
