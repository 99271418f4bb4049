"""The service's protocol without IO, and what its drivers make of peers that send it in pieces, or more than was asked for."""

from __future__ import annotations

import socket
import time
import unittest
from typing import Sequence

from pagelog.block import Block
from pagelog.connection import Connection
from pagelog.credentials import Credentials
from pagelog.errors import UnexpectedReply
from pagelog.faults import FrameFault
from pagelog.keeper.loading import Loader
from pagelog.reply import Denied, Done, State
from pagelog.request import Head, Request, Role, Status
from pagelog.rules import OlderEpoch, Section
from pagelog.service_protocol import REPLY_SIZE, ServiceProtocol, framed
from service import accept_each, token
from service_side import encode_reply

BODIES = [b"", b"a", b"bc" * 300, b"\0\0\0\1\0"]
DONE = framed(encode_reply(Done()))


def asked(count: int, data: bytes = b"", longest: int = REPLY_SIZE) -> ServiceProtocol:
    """One over which so many requests have gone, and this has come."""
    made = ServiceProtocol(longest)
    made.ask(b"x" * count, count)
    made.unsent.clear()
    made.receive(data)
    return made


class Requests(unittest.TestCase):
    def test_a_frame_is_the_length_and_the_body(self) -> None:
        self.assertEqual(framed(b""), bytes(4))
        self.assertEqual(framed(b"x" * 258), b"\0\0\1\2" + b"x" * 258)

    def test_what_is_asked_is_to_be_sent_in_order_and_awaited(self) -> None:
        protocol = ServiceProtocol()
        protocol.ask(framed(b"a"))
        protocol.ask(framed(b"b") + framed(b"c"), 2)
        self.assertEqual((protocol.awaited, protocol.is_settled), (3, False))
        del protocol.unsent[:5]
        self.assertEqual(protocol.taken(), framed(b"b") + framed(b"c"))
        self.assertEqual((protocol.taken(), protocol.is_settled), (b"", False))


class Replies(unittest.TestCase):
    def test_replies_come_cut_anywhere(self) -> None:
        data = b"".join(map(framed, BODIES))
        for cut in range(len(data) + 1):
            protocol = asked(len(BODIES), data[:cut])
            found = list(protocol.bodies())
            whole = sum(cut >= len(b"".join(map(framed, BODIES[:upto]))) for upto in range(1, 5))
            self.assertEqual((found, protocol.awaited), (BODIES[:whole], len(BODIES) - whole))
            protocol.receive(data[cut:])
            self.assertEqual(found + list(protocol.bodies()), BODIES)
            self.assertTrue(protocol.is_settled)

    def test_replies_come_byte_by_byte(self) -> None:
        protocol, found = asked(len(BODIES)), list[bytes]()
        for byte in b"".join(map(framed, BODIES)):
            protocol.receive(bytes((byte,)))
            found += protocol.bodies()
        self.assertEqual(found, BODIES)

    def test_nothing_is_no_reply(self) -> None:
        for protocol in (ServiceProtocol(), asked(1), asked(1, bytes(3))):
            protocol.receive(b"")
            self.assertIsNone(protocol.body())

    def test_one_that_is_too_long_is_refused_before_its_body_comes(self) -> None:
        for length, longest in ((REPLY_SIZE + 1, REPLY_SIZE), ((1 << 32) - 1, REPLY_SIZE), (9, 8)):
            with self.assertRaises(FrameFault):
                asked(1, length.to_bytes(4, "big"), longest).body()
        self.assertIsNone(asked(1, REPLY_SIZE.to_bytes(4, "big")).body())
        self.assertEqual(asked(1, framed(b"x" * REPLY_SIZE)).body(), b"x" * REPLY_SIZE)

    def test_more_than_was_asked_for_is_a_fault_from_its_first_byte(self) -> None:
        for count, more in ((0, b"\0"), (1, b"\0"), (2, framed(b"d"))):
            protocol = asked(count, framed(b"c") * count + more)
            for _ in range(count):
                self.assertEqual(protocol.body(), b"c")
            with self.assertRaises(UnexpectedReply):
                protocol.body()
            self.assertFalse(protocol.is_settled)

    def test_those_that_are_alike_are_passed_over_at_once(self) -> None:
        for data, passed in (
            (b"", 0),
            (DONE * 7 + DONE[:3], 7),
            (DONE * 8, 8),
            (DONE * 9, 0),
            (DONE * 2 + framed(b"d"), 0),
        ):
            protocol = asked(8, data)
            protocol.pass_over(DONE)
            self.assertEqual(protocol.awaited, 8 - passed)

    def test_what_is_left_is_not_copied_for_each(self) -> None:
        def seconds(count: int) -> float:
            protocol = asked(count, DONE * count)
            began = time.process_time()
            for _ in protocol.bodies():
                pass
            return time.process_time() - began

        few = min(seconds(12_500) for _ in range(5))
        self.assertLess(min(seconds(200_000) for _ in range(3)), 48 * few)


class Drivers(unittest.TestCase):
    def peer(self, pieces: Sequence[bytes]) -> str:
        """The address of one that sends this in each connection once it was asked, piece by piece."""
        listener = self.enterContext(socket.create_server(("127.0.0.1", 0)))

        def answer(client: socket.socket) -> None:
            with client:
                client.setsockopt(socket.IPPROTO_TCP, socket.TCP_NODELAY, 1)
                client.recv(1 << 16)
                for piece in pieces:
                    client.sendall(piece)
                    time.sleep(0.01)
                while client.recv(1 << 16):
                    pass

        accept_each(listener, answer)
        return f"127.0.0.1:{listener.getsockname()[1]}"

    def test_a_connection_over_which_more_came_is_not_used_again(self) -> None:
        request = Request(Head(3, bytes(16), Role.SECONDARY, 0, 1), Status())
        state = State(1, 2, 3, 4, 5)
        for more, connects in ((b"", 1), (b"\0", 2), (DONE, 2)):
            with Connection(self.peer([framed(encode_reply(state)) + more])) as connection:
                self.assertEqual(connection.ask(request), state)
                self.assertEqual(connection.is_open, connects == 1)

    def test_a_loader_raises_the_first_refusal_however_it_comes(self) -> None:
        refusal = framed(encode_reply(Denied(Section.A, 2, 7)))
        blocks = [Block.of(lsn).data for lsn in (1, 2)]
        for size in (len(refusal), 6, 1):
            pieces = [refusal[at : at + size] for at in range(0, len(refusal), size)]
            address = self.peer([DONE * 2, *pieces])
            with Loader(address, Credentials.of(2, token(2))) as loader:
                with self.assertRaises(OlderEpoch):
                    loader.load(1, [blocks])

    def test_a_loader_takes_no_more_replies_than_it_has_asked_for(self) -> None:
        address = self.peer([DONE * 9])
        with Loader(address, Credentials.of(2, token(2))) as loader:
            with self.assertRaises(UnexpectedReply):
                loader.load(1, [[Block.of(1).data]])


if __name__ == "__main__":
    unittest.main()
