"""Peers that are no service, and what each call does about them: it ends, with bounds in tries, memory and time."""

from __future__ import annotations

import os
import socket
import tempfile
import threading
import tracemalloc
import unittest
from pathlib import Path
from typing import Any, Callable, Iterable
from unittest.mock import Mock, patch

import pagelog
from pagelog import Block, Connection, Put
from pagelog.archive import Archive
from pagelog.archive.archiving import Archiver
from pagelog.dialing import dial
from pagelog.reply import Blocks, Denied, Done, Entries, Entry, Page, Reply, State
from pagelog.request import (
    Audit,
    Head,
    Operation,
    Pull,
    Request,
    Role,
    Status,
    Write,
)
from service import PATIENCE, Service, accept_each, put, token
from service_side import decode_request, encode_reply

Answer = Callable[[Request], "Reply | bytes | None"]


class Peer:
    """Answers each request with what a function says: a reply, the bytes of a frame, or nothing."""

    def __init__(self, answer: Answer) -> None:
        self.answer = answer
        self.asked = 0
        self.listener = socket.create_server(("127.0.0.1", 0))
        self.address = f"127.0.0.1:{self.listener.getsockname()[1]}"
        accept_each(self.listener, self._serve)

    def __enter__(self) -> Peer:
        return self

    def __exit__(self, *_: object) -> None:
        self.listener.close()

    def _serve(self, client: socket.socket) -> None:
        with client, client.makefile("rb") as frames:
            try:
                while len(head := frames.read(4)) == 4:
                    self.asked += 1
                    found = self.answer(decode_request(frames.read(int.from_bytes(head, "big"))))
                    if found is None:
                        continue
                    body = found if isinstance(found, bytes) else encode_reply(found)
                    client.sendall(
                        body if isinstance(found, bytes) else len(body).to_bytes(4, "big") + body
                    )
            except OSError:
                pass

    def reader(self, **options: object) -> pagelog.Reader:
        return pagelog.Reader(Connection(self.address, **options), pagelog.Credentials.of(3, token(3)))  # type: ignore[arg-type]


def rising() -> Answer:
    epochs = iter(range(2, 1 << 32))
    return lambda _: Denied(pagelog.Section.A, 2, next(epochs))


class Hostile(unittest.TestCase):
    def peer(self, answer: Answer) -> Peer:
        return self.enterContext(Peer(answer))

    def test_epochs_that_rise_for_ever(self) -> None:
        peer = self.peer(rising())
        operator = self.enterContext(pagelog.Operator.at(peer.address, 1, token(1)))
        reader = self.enterContext(peer.reader())
        for asks in (
            operator.status,
            lambda: operator.failover(2, epoch=None),
            lambda: reader.span(1),
            reader.status,
        ):
            before = peer.asked
            with self.assertRaises(pagelog.UnexpectedReply):
                asks()
            self.assertLessEqual(peer.asked - before, 130)

    def test_a_reply_that_comes_byte_by_byte(self) -> None:
        """The time for a whole reply is over, though a byte came each time within the time-out for silence."""
        goes_on = threading.Event()
        self.addCleanup(goes_on.set)

        def bytes_of(client: socket.socket) -> None:
            client.recv(100)
            client.sendall((1 << 20).to_bytes(4, "big"))
            while not goes_on.wait(0.05):
                try:
                    client.sendall(b"x")
                except OSError:
                    return

        with socket.create_server(("127.0.0.1", 0)) as listener:
            threading.Thread(target=lambda: bytes_of(listener.accept()[0]), daemon=True).start()
            address = f"127.0.0.1:{listener.getsockname()[1]}"
            with Connection(address, timeout=PATIENCE, reply_timeout=0.4) as connection:
                reader = pagelog.Reader(connection, pagelog.Credentials.of(3, token(3)))
                with self.assertRaisesRegex(pagelog.TimedOut, "no whole reply came in 0.4 s"):
                    reader.status()

    def test_a_peer_that_reads_no_more_until_its_replies_are_taken(self) -> None:
        """Neither side waits for the other, however small what the system keeps between them."""
        block, count = Block.of(1, [Put(page, 0, b"x" * 8000) for page in range(4)]), 400
        asked = [Request(Head(2, bytes(16), Role.PRIMARY, 0, 1), Write(0, block))] * count

        def serve(client: socket.socket) -> None:
            head = client.recv(4, socket.MSG_WAITALL)
            client.recv(int.from_bytes(head, "big"), socket.MSG_WAITALL)
            page = encode_reply(Page(1, bytes(8192)))
            client.sendall(count * (len(page).to_bytes(4, "big") + page))
            while client.recv(65536):
                pass

        with socket.create_server(("127.0.0.1", 0)) as listener:
            for side in (socket.SO_RCVBUF, socket.SO_SNDBUF):
                listener.setsockopt(socket.SOL_SOCKET, side, 1 << 16)
            accept_each(listener, serve)
            with Connection(
                f"127.0.0.1:{listener.getsockname()[1]}", timeout=PATIENCE, reply_timeout=PATIENCE
            ) as connection:
                self.assertEqual(sum(1 for _ in connection.exchange(asked, in_flight=count)), count)

    def test_a_peer_that_is_silent_for_less_than_the_time_out(self) -> None:
        """The time for a whole reply is over before that for silence."""
        with self.peer(lambda _: None).reader(timeout=PATIENCE, reply_timeout=0.1) as reader:
            with self.assertRaisesRegex(pagelog.TimedOut, "no whole reply came in 0.1 s"):
                reader.status()

    def test_a_status_of_a_log_of_two_to_the_forty(self) -> None:
        peer = self.peer(
            lambda request: State(1, 2, 1 << 40, 0, 0)
            if isinstance(request.act, Status)
            else Done()
        )
        with pagelog.PageServer.at(peer.address, 4, token(4)) as server:
            tracemalloc.start()
            self.assertEqual(server.step(), 1 << 20)
            most = tracemalloc.get_traced_memory()[1]
            tracemalloc.stop()
            self.assertLess(most, 20 << 20)
            self.assertEqual((peer.asked, server.applied), (1 + 1024, 1 << 20))

    def test_a_pull_of_millions_of_blocks_without_records(self) -> None:
        peer = self.peer(
            lambda request: Blocks((1 << 26) + 1, ())
            if isinstance(request.act, Pull)
            else State(1, 2, 1 << 26, 0, 0)
        )
        folder = Path(self.enterContext(tempfile.TemporaryDirectory()))
        with peer.reader() as reader, Archive(
            f"sqlite:///{folder}/archive.db", create=True
        ) as archive:
            archiver = Archiver(reader, archive)
            tracemalloc.start()
            self.assertEqual(len(archiver.step()), 4096)
            self.assertEqual(archiver.archived, 4096)
            most = tracemalloc.get_traced_memory()[1]
            tracemalloc.stop()
            self.assertLess(most, 64 << 20)

    def test_a_reply_that_does_not_answer_its_request_closes_the_connection(self) -> None:
        page, block = bytes(8192), Block.of(5, [Put(0, 0, b"x")])
        entry = Entry(9, 1, 1, Role.OPERATOR, 1, Operation.STATUS, 0, 0, 0, 0, 0)
        cases: list[tuple[Reply, Callable[[pagelog.Reader], object]]] = [
            (State(7, 2, 3, 0, 0), lambda reader: reader.status()),
            (Page(77, page), lambda reader: reader.page(0, 5)),
            (Page(4, page), lambda reader: reader.page(0, 5, exact=False)),
            (Blocks(6, (block,)), lambda reader: reader.pull(6)),
            (Blocks(5, (block,)), lambda reader: reader.pull(1)),
            (Blocks(7, (block, block)), lambda reader: reader.pull(1)),
            (Blocks(7, (block, Block.of(6))), lambda reader: reader.pull(1, max=1)),
            (Blocks(3, ()), lambda reader: reader.span(3)),
            (Entries((entry,)), lambda reader: reader.answers([Audit(8)])),
            (Entries((entry, entry)), lambda reader: reader.answers([Audit(9)])),
            (Entries((entry,) * 2), lambda reader: reader.answers([Audit(9, 1)])),
        ]
        for reply, asks in cases:
            with self.subTest(reply), self.peer(lambda _, reply=reply: reply).reader() as reader:
                with self.assertRaises(pagelog.UnexpectedReply):
                    asks(reader)
                self.assertFalse(reader.connection.is_open)
                with self.assertRaises(pagelog.UnexpectedReply):
                    asks(reader)
                self.assertEqual(reader.connection.connects, 2)
        good: Iterable[tuple[Reply, Callable[[pagelog.Reader], object]]] = (
            (Page(5, page), lambda reader: reader.page(0, 5)),
            (Page(9, page), lambda reader: reader.page(0, 5, exact=False)),
            (Blocks(6, (block,)), lambda reader: reader.pull(5)),
            (State(1, 2, 3, 0, 0), lambda reader: reader.status()),
        )
        for reply, asks in good:
            with self.subTest(reply), self.peer(lambda _, reply=reply: reply).reader() as reader:
                asks(reader)
                self.assertTrue(reader.connection.is_open)

    def test_a_fault_of_a_table_that_there_is_not(self) -> None:
        for value, fault in (
            (99, None),
            (12, pagelog.TableFault.NOBODY_MAY_SET_THE_TABLE),
            (0, None),
        ):
            self.assertIs(pagelog.NoTable(pagelog.Section.C, 7, value).fault, fault)


class OtherThreadsAndProcesses(unittest.TestCase):
    def test_a_close_of_another_thread_ends_the_request(self) -> None:
        asked = threading.Event()

        def silent(_: Request) -> None:
            asked.set()

        with Peer(silent) as peer, peer.reader(timeout=PATIENCE) as reader:
            ended: list[BaseException] = []

            def ask() -> None:
                try:
                    reader.status()
                except BaseException as error:
                    ended.append(error)

            thread = threading.Thread(target=ask)
            thread.start()
            self.assertTrue(asked.wait(PATIENCE))
            reader.close()
            thread.join(PATIENCE)
            self.assertEqual([type(error) for error in ended], [pagelog.ConnectionLost])
            self.assertIn("another thread closed the connection", str(ended[0]))
            self.assertEqual(peer.asked, 1)
            peer.answer = lambda _: State(1, 2, 3, 0, 0)
            self.assertEqual(reader.status().hard, 3)

    def test_a_close_of_another_thread_ends_a_request_that_is_not_sent_yet(self) -> None:
        """It comes while a connection is being made, or waited for."""
        with Peer(lambda _: State(1, 2, 3, 0, 0)) as peer, peer.reader() as reader:

            def close(*_: object) -> None:
                thread = threading.Thread(target=reader.close)
                thread.start()
                thread.join()

            def late(*arguments: Any) -> socket.socket:
                close()
                return made(*arguments)

            made = dial
            with patch("pagelog.connection.dial", late), self.assertRaisesRegex(
                pagelog.ConnectionLost, "another thread"
            ):
                reader.status()
            refused = Mock(side_effect=ConnectionRefusedError)
            with patch("pagelog.connection.dial", refused), patch(
                "pagelog.connection.time.sleep", close
            ):
                self.assertRaisesRegex(pagelog.ConnectionLost, "another thread", reader.status)
            self.assertEqual((refused.call_count, peer.asked), (1, 0))
            self.assertEqual(reader.status().hard, 3)

    def test_a_child_does_not_use_the_connection_of_its_parent(self) -> None:
        with Service() as service, service.primary() as primary:
            primary.append(put(0, b"of the parent"))
            primary.commit()
            child = os.fork()
            if child == 0:
                status = 1
                try:
                    primary.status()
                except RuntimeError:
                    with pagelog.Reader.at(service.address, 3, token(3)) as reader:
                        status = 0 if reader.status().hard == 1 else 2
                finally:
                    os._exit(status)
            self.assertEqual(os.waitstatus_to_exitcode(os.waitpid(child, 0)[1]), 0)
            primary.append(put(0, b"still"))
            self.assertEqual(primary.commit(), 2)

    def test_no_token_is_in_a_debug_text(self) -> None:
        text = f'[[principal]]\nid = 1\ntoken = "{token(1)}"\n'
        head = pagelog.request.Head(1, bytes.fromhex(token(1)), Role.OPERATOR, 0, 1)
        shown = repr(Request(head, pagelog.request.SetTable(text.encode())))
        self.assertNotIn(token(1), shown)
        self.assertIn("SetTable", shown)

    def test_the_logger_reports_a_connection_that_is_made_again(self) -> None:
        with Service() as service, service.reader() as reader:
            reader.status()
            service.restart()
            with self.assertLogs("pagelog", "INFO") as logs:
                reader.status()
            self.assertRegex(
                "\n".join(logs.output), "connecting again in .*\n.*connected again, for the 2. time"
            )


if __name__ == "__main__":
    unittest.main()
