"""One socket with many requests in flight: order, cuts, time-outs, doubts, and what is left behind."""

from __future__ import annotations

import itertools
import signal
import socket
import threading
import time
import unittest
from contextlib import closing
from typing import Callable
from unittest import mock

import pagelog
from pagelog import Address, Block, Connection, Put, dialing
from pagelog.reply import Done, Page, State
from pagelog.request import Failover, Get, Head, Report, Request, Role, Status, Write
from service import PATIENCE, CuttingProxy, Port, Service, interrupted, put, stand_still, token

PRIMARY = Head(2, bytes.fromhex(token(2)), Role.PRIMARY, 0, 1)
SECONDARY = Head(3, bytes.fromhex(token(3)), Role.SECONDARY, 0, 1)
OPERATOR = Head(1, bytes.fromhex(token(1)), Role.OPERATOR, 0, 1)


def hardened(connection: Connection, count: int) -> None:
    """Blocks that each write their LSN to page 0."""
    asked = []
    for lsn in range(1, count + 1):
        block = Block.of(lsn, [Put(0, 0, lsn.to_bytes(8, "big"))])
        asked += [
            Request(PRIMARY, Write(0, block)),
            Request(PRIMARY, Write(1, block)),
            Request(PRIMARY, Report(lsn)),
        ]
    assert set(connection.exchange(asked)) == {Done()}


class InOrder(unittest.TestCase):
    def setUp(self) -> None:
        self.service = self.enterContext(Service())
        self.connection = self.enterContext(self.service.connection())

    def gets(self, count: int) -> list[Request]:
        return [Request(SECONDARY, Get(0, lsn)) for lsn in range(1, count + 1)]

    def test_replies_come_in_the_order_of_the_requests(self) -> None:
        hardened(self.connection, 100)
        pages = list(self.connection.exchange(self.gets(100)))
        self.assertEqual(
            [int.from_bytes(page.data[:8], "big") for page in pages if isinstance(page, Page)],
            list(range(1, 101)),
        )

    def test_no_more_than_asked_for_are_in_flight(self) -> None:
        hardened(self.connection, 30)
        taken = 0

        def counted():  # type: ignore[no-untyped-def]
            nonlocal taken
            for request in self.gets(30):
                taken += 1
                yield request

        for count, _ in enumerate(self.connection.exchange(counted(), in_flight=7)):
            self.assertLessEqual(taken - count, 7)
        self.assertEqual(taken, 30)

    def test_an_exchange_that_is_left_takes_its_replies_with_it(self) -> None:
        hardened(self.connection, 50)
        replies = self.connection.exchange(self.gets(50))
        self.assertEqual(next(replies).data[:8], (1).to_bytes(8, "big"))  # type: ignore[union-attr]
        replies.close()  # type: ignore[attr-defined]
        self.assertIsInstance(self.connection.ask(Request(SECONDARY, Status())), State)
        self.assertEqual(self.connection.connects, 2)

    def test_a_second_exchange_before_the_end_of_the_first_is_refused(self) -> None:
        replies = self.connection.exchange([Request(PRIMARY, Status())] * 2)
        next(replies)
        with self.assertRaises(RuntimeError):
            self.connection.ask(Request(PRIMARY, Status()))
        self.assertIsInstance(next(replies), State)

    def test_large_requests_and_large_replies_do_not_wait_for_each_other(self) -> None:
        hardened(self.connection, 1)
        block = Block.of(2, [Put(page, 0, b"x" * 8000) for page in range(4)])
        mixed = [Request(SECONDARY, Get(0, 1)), Request(PRIMARY, Write(0, block))] * 40
        replies = list(self.connection.exchange(mixed, in_flight=1000))
        self.assertEqual([type(reply) for reply in replies], [Page, Done] * 40)
        self.assertEqual(self.connection.connects, 1)


class Cuts(unittest.TestCase):
    def test_what_may_be_repeated_survives_cuts_at_any_byte(self) -> None:
        """A witness pulls small blocks; without one whole pages have to come through."""
        for least, most, has_witness, count in ((30, 1500, True, 200), (9000, 30000, False, 400)):
            with Service() as service, CuttingProxy(
                service.address, least=least, most=most
            ) as proxy, proxy.connection() as connection:
                witness = (
                    self.enterContext(
                        pagelog.Reader(proxy.connection(), pagelog.Credentials.of(3, token(3)))
                    )
                    if has_witness
                    else None
                )
                primary = pagelog.Primary(
                    connection, pagelog.Credentials.of(2, token(2)), alone=True, witness=witness
                )
                lsns = list(
                    primary.stream([put(0, lsn.to_bytes(8, "big"))] for lsn in range(1, count + 1))
                )
                self.assertEqual(lsns, list(range(1, count + 1)))
                self.assertGreater(proxy.cuts, 4)
                with service.reader() as reader:
                    blocks = list(reader.blocks(1, follow=False))
                self.assertEqual([int.from_bytes(block.records[0].data, "big") for block in blocks], lsns)  # type: ignore[union-attr]

    def test_reads_survive_cuts_and_stay_in_order(self) -> None:
        with Service() as service, service.connection() as direct:
            hardened(direct, 60)
            with CuttingProxy(
                service.address, least=9000, most=60000, seed=3
            ) as proxy, proxy.connection() as connection:
                pages = connection.exchange(
                    Request(SECONDARY, Get(0, 1 + at % 60)) for at in range(120)
                )
                self.assertEqual(
                    [int.from_bytes(page.data[:8], "big") for page in pages],  # type: ignore[union-attr]
                    [1 + at % 60 for at in range(120)],
                )
                self.assertGreater(proxy.cuts, 5)

    def test_an_exchange_over_one_connection_ends_where_that_is_lost(self) -> None:
        with Service() as service, service.connection() as direct:
            hardened(direct, 60)
            asked = [Request(SECONDARY, Get(0, lsn)) for lsn in range(1, 61)]
            with CuttingProxy(
                service.address, least=100_000, most=100_001
            ) as proxy, proxy.connection() as connection:
                pages = [
                    next(iter(connection.exchange(asked[:1]))),
                    *connection.exchange(asked[1:], over=1),
                ]
                self.assertEqual(
                    [int.from_bytes(page.data[:8], "big") for page in pages],  # type: ignore[union-attr]
                    list(range(1, len(pages) + 1)),
                )
                self.assertIn(len(pages), (11, 12))
                self.assertEqual(
                    (list(connection.exchange(asked, over=1)), connection.connects), ([], 1)
                )
                self.assertEqual(
                    (len(list(connection.exchange(asked[:2]))), connection.connects), (2, 2)
                )
                self.assertEqual(
                    (list(connection.exchange(asked, over=1)), connection.connects), ([], 2)
                )
                self.assertEqual(
                    (len(list(connection.exchange(asked[:2], over=2))), connection.connects), (2, 2)
                )

    def test_a_failover_whose_reply_is_lost_is_in_doubt_and_not_repeated(self) -> None:
        with Service() as service, service.operator() as direct:
            for size in (20, 40):  # cut in the request, and after it in the reply
                before = direct.status().epoch
                with CuttingProxy(
                    service.address, least=size, most=size + 1
                ) as proxy, proxy.connection() as connection:
                    head = Head(1, OPERATOR.token, Role.OPERATOR, 0, before)
                    with self.assertRaises(pagelog.InDoubt):
                        connection.ask(Request(head, Failover(2)))
                    self.assertEqual(connection.connects, 1)
                deadline = time.monotonic() + PATIENCE
                while (
                    size == 40 and direct.status().epoch == before and time.monotonic() < deadline
                ):
                    time.sleep(0.01)
                self.assertEqual(direct.status().epoch, before + (size == 40))

    def test_failovers_in_flight_are_in_doubt_where_who_takes_the_replies_closes_the_connection(
        self,
    ) -> None:
        with Service() as service, service.connection() as connection:
            heads = [Head(1, OPERATOR.token, Role.OPERATOR, 0, epoch) for epoch in (1, 2, 3)]
            for act, left, connects in ((Status(), 2, 2), (Failover(2), 0, 2)):
                replies = connection.exchange([Request(head, act) for head in heads])
                next(replies)
                connection.close()
                if left:
                    self.assertEqual(len(list(replies)), left)
                else:
                    self.assertRaises(pagelog.InDoubt, next, replies)
                self.assertEqual(connection.connects, connects)

    def test_a_service_that_comes_back_is_found_again(self) -> None:
        with Service() as service, service.connection() as connection:
            self.assertIsInstance(connection.ask(Request(PRIMARY, Status())), State)
            service.stop()
            timer = threading.Timer(0.3, service.start)
            timer.start()
            self.addCleanup(timer.join)
            connection.attempts = 1000
            self.assertIsInstance(connection.ask(Request(PRIMARY, Status())), State)
            timer.join()
            # A service that is ending may still take a connection, and drop it.
            self.assertGreaterEqual(connection.connects, 2)


class Interrupted(unittest.TestCase):
    """An interrupt wherever one may come: no request gets the reply to another, and the connection is of use."""

    def interrupt_anywhere(
        self, calls: Callable[[Connection, Callable[[], Request]], object]
    ) -> None:
        with Service() as service, service.connection() as connection:
            hardened(connection, 20)
            lsns = itertools.cycle(range(1, 21))

            def request() -> Request:
                return Request(SECONDARY, Get(0, next(lsns)))

            for file in ("connection.py", "service_protocol.py"):
                at = 0
                while interrupted(lambda: calls(connection, request), file, at := at + 1):
                    asked = request()
                    reply = connection.ask(asked)
                    assert isinstance(asked.act, Get) and isinstance(reply, Page)
                    found = int.from_bytes(reply.data[:8], "big")
                    self.assertEqual((file, at, found), (file, at, asked.act.lsn))
                self.assertGreater(at, 10)

    def test_one_that_asks(self) -> None:
        self.interrupt_anywhere(lambda connection, request: connection.ask(request()))

    def test_one_that_connects_and_asks(self) -> None:
        def calls(connection: Connection, request: Callable[[], Request]) -> None:
            connection.close()
            connection.ask(request())

        self.interrupt_anywhere(calls)

    def test_one_that_leaves_replies(self) -> None:
        def calls(connection: Connection, request: Callable[[], Request]) -> None:
            with closing(connection.exchange([request() for _ in range(4)])) as replies:
                next(replies)

        self.interrupt_anywhere(calls)


class Refused(unittest.TestCase):
    def test_nobody_listens(self) -> None:
        port = Port()
        self.addCleanup(port.close)
        slept, own, sleep = list[float](), threading.get_ident(), time.sleep

        def noted(seconds: float) -> None:
            if threading.get_ident() == own:
                slept.append(seconds)
            else:
                sleep(seconds)  # of a thread that a test before this one has left

        with mock.patch("pagelog.connection.time.sleep", noted), self.assertRaises(
            pagelog.Unreachable
        ):
            Connection(Address("127.0.0.1", port.number), attempts=3, pause=0.05).ask(
                Request(PRIMARY, Status())
            )
        self.assertEqual(slept, [0.05, 0.1])

    def test_a_service_that_is_silent(self) -> None:
        """It is stopped amid its work, and goes on later. Its one worker then answers both connections."""
        with Service(workers=1) as service, service.connection() as first:
            first.ask(Request(PRIMARY, Status()))
            with Connection(service.address, timeout=0.3) as second:
                stand_still(service.process.pid)
                try:
                    with self.assertRaises(pagelog.TimedOut) as raised:
                        second.ask(Request(PRIMARY, Status()))
                    self.assertIn("nothing came", str(raised.exception))
                finally:
                    service.process.send_signal(signal.SIGCONT)
                second.timeout = PATIENCE
                self.assertIsInstance(second.ask(Request(PRIMARY, Status())), State)
                self.assertIsInstance(first.ask(Request(PRIMARY, Status())), State)

    def test_an_address_of_a_host_that_is_silent_leaves_the_others_their_share_of_the_time(
        self,
    ) -> None:
        listener = self.enterContext(socket.create_server(("127.0.0.1", 0)))
        live, now, shares = listener.getsockname(), [0.0], list[float]()
        made = dialing._connected

        def connected(
            family: int, kind: int, protocol: int, address: object, timeout: float
        ) -> socket.socket:
            shares.append(timeout)
            if address == live:
                return made(family, kind, protocol, address, PATIENCE)
            now[0] += timeout if address == "silent" else 0.1
            raise TimeoutError if address == "silent" else ConnectionRefusedError

        for addresses, wanted in (
            (("silent", live), [3.0, 3.0]),
            (("refused", "silent", live), [2.0, 2.95, 2.95]),
            (("silent", "refused"), [3.0, 3.0]),
        ):
            found = [(socket.AF_INET, socket.SOCK_STREAM, 0, "", address) for address in addresses]
            shares.clear()
            with mock.patch("socket.getaddrinfo", return_value=found), mock.patch(
                "pagelog.dialing._connected", connected
            ), mock.patch("pagelog.dialing.time.monotonic", lambda: now[0]):
                if live in addresses:
                    dialing.dial("host", 1, 6.0).close()
                else:
                    self.assertRaises(TimeoutError, dialing.dial, "host", 1, 6.0)
            self.assertEqual([round(share, 6) for share in shares], wanted)

    def test_a_host_that_is_no_name(self) -> None:
        for host in ("a" * 64, "a..b"):
            with Connection(Address(host, 7400), attempts=1) as connection, self.assertRaises(
                pagelog.Unreachable
            ):
                connection.ask(Request(PRIMARY, Status()))

    def test_a_service_that_ends_its_connections(self) -> None:
        with Service(connections=1) as service, Connection(
            service.address, attempts=2, pause=0.01
        ) as connection:
            connection.ask(Request(PRIMARY, Status()))
            connection.close()
            service.process.wait(PATIENCE)
            with self.assertRaises(pagelog.Unreachable):
                connection.ask(Request(PRIMARY, Status()))

    def test_an_answer_that_is_no_reply(self) -> None:
        for words, kind in (
            (b"SSH-2.0-OpenSSH_9.2\r\n", pagelog.FrameFault),
            (b"\0\0\0\x01\x0b", pagelog.ReplyFault),
        ):
            with socket.create_server(("127.0.0.1", 0)) as listener:
                threading.Thread(target=answer_once, args=(listener, words), daemon=True).start()
                with Connection(
                    Address("127.0.0.1", listener.getsockname()[1]), attempts=1
                ) as connection:
                    with self.assertRaises(kind):
                        connection.ask(Request(PRIMARY, Status()))

    def test_a_denial_for_an_epoch_that_is_the_current_one_is_not_asked_again_for_ever(
        self,
    ) -> None:
        for row in (2, 3):
            with socket.create_server(("127.0.0.1", 0)) as listener:
                words = bytes.fromhex(f"0000000c 05 01 {row:04x} 0000000000000001")
                threading.Thread(
                    target=answer_once, args=(listener, words * 2), daemon=True
                ).start()
                with pagelog.Reader.at(
                    f"127.0.0.1:{listener.getsockname()[1]}", 3, token(3)
                ) as reader:
                    with self.assertRaises(pagelog.UnexpectedReply):
                        reader.status()

    def test_addresses(self) -> None:
        self.assertEqual(Address.parse("127.0.0.1:7400"), Address("127.0.0.1", 7400))
        self.assertEqual(str(Address.parse("[::1]:7400")), "[::1]:7400")
        for text in ("", "7400", "host:", ":7400", "host:0", "host:65536", "host:x"):
            with self.subTest(text), self.assertRaises(ValueError):
                Address.parse(text)


def answer_once(listener: socket.socket, words: bytes) -> None:
    client, _ = listener.accept()
    client.recv(100)
    client.sendall(words)
    time.sleep(0.2)
    client.close()


if __name__ == "__main__":
    unittest.main()
