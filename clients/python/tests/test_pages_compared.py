"""`verify NAME --pages`: page servers beside one another, and beside the service."""

from __future__ import annotations

import hashlib
import json
import socket
import threading
import unittest
import unittest.mock
from collections import deque
from contextlib import suppress

import psycopg
from keepers import eventually
from pagelog import Put
from pagelog.block import HIGHEST_PAGE
from pagelog.referee.bases import make_base
from pagelog.pages.comparing import Ranges
from pagelog.request import Operation
from test_pages import Apart

FAR = 64 * 64 * 70 + 5
"""A page of another range than the first ones."""


class Liar:
    """Stands before a page server, as one that lies under a right digest: of one page it answers another byte, from a position on."""

    def __init__(self, address: str) -> None:
        host, _, port = address.rpartition(":")
        self._to = host, int(port)
        self.page, self.since, self.asked = -1, 0, 0
        self._listener = socket.create_server(("127.0.0.1", 0))
        self.address = f"127.0.0.1:{self._listener.getsockname()[1]}"
        self._open: list[socket.socket] = [self._listener]
        threading.Thread(target=self._accept, daemon=True).start()

    def close(self) -> None:
        for each in self._open:
            with suppress(OSError):
                each.shutdown(socket.SHUT_RDWR)
            each.close()

    def _accept(self) -> None:
        with suppress(OSError):
            while True:
                client, _ = self._listener.accept()
                server, lied = socket.create_connection(self._to), deque[bool]()
                self._open += [client, server]
                for way in ((client, server, lied, True), (server, client, lied, False)):
                    threading.Thread(target=self._pass, args=way, daemon=True).start()

    def _pass(
        self, source: socket.socket, target: socket.socket, lied: deque[bool], asks: bool
    ) -> None:
        with suppress(OSError), source.makefile("rb") as frames:
            while len(head := frames.read(4)) == 4:
                body = bytearray(frames.read(int.from_bytes(head, "big")))
                if asks:
                    lied.append(self._is_of(body))
                elif lied.popleft():
                    body[-1] ^= 1
                target.sendall(head + body)
        for each in (source, target):
            with suppress(OSError):
                each.shutdown(socket.SHUT_RDWR)

    def _is_of(self, body: bytes) -> bool:
        if len(body) < 42 or body[29] != Operation.GET:
            return False
        self.asked += 1
        return (
            int.from_bytes(body[30:34], "big") == self.page
            and int.from_bytes(body[34:42], "big") >= self.since
        )


class Compared(Apart):
    def setUp(self) -> None:
        super().setUp()
        with self.keeping.primary() as primary:
            for n in range(8):
                self.commit(primary, n)
            row = self.keeping.row()
            self.base = make_base(self.keeping.referee, row.id, row.archived, row.chain).position
            primary.append(Put(FAR, 8000, b"far"))
            primary.commit()
            primary.append(Put(1, 0, b"%08d" % 99))
            self.position = primary.commit(durable=True)
        with psycopg.connect(self.keeping.url, autocommit=True) as session:
            session.execute(
                "DELETE FROM pagelog_block WHERE log = %s AND lsn <= %s", (row.id, self.base)
            )

    def lying(self) -> Liar:
        """Before the page server of this process, which is entered with that address from now on."""
        self.servers()
        self.follows_to(self.position)
        [follower] = [each for each, _ in self.made._running.values()]
        assert follower._process is not None
        made = Liar(follower._process.address)
        self.addCleanup(made.close)
        follower._process.address = made.address
        eventually(lambda: self.at("here").address == made.address, "that address")
        return made

    def digest_of(self, far: bytes, second: bytes) -> str:
        """Of all pages."""
        found = hashlib.blake2b(digest_size=16)
        for page, at, data in (
            (0, 0, b"%08d" % 4),
            (1, 0, second),
            (2, 0, b"%08d" % 6),
            (3, 0, b"%08d" % 7),
            (FAR, 8000, far),
        ):
            if data:
                found.update(
                    page.to_bytes(4, "big") + bytes(at) + data + bytes(8192 - at - len(data))
                )
        return found.hexdigest()

    def both(self) -> Liar:
        liar = self.lying()
        self.apart()
        eventually(lambda: self.at("there").position >= self.position, "the other one")
        return liar

    def verified(self, *words: object) -> tuple[int, str]:
        return self.run_word("verify", "shop", "--pages", *words)

    def test_two_are_alike_or_the_page_that_differs_is_named(self) -> None:
        liar = self.both()
        here, there = (
            f"page server {self.at('here').run} at here",
            f"page server {self.at('there').run} at there",
        )
        status, said = self.verified("--json")
        self.assertEqual(status, 0, said)
        found = json.loads(said)
        self.assertEqual(
            (found["position"], found["pages"], found["digest"]),
            (self.position, 5, self.digest_of(b"far", b"%08d" % 99)),
        )
        self.assertEqual(sorted(found["of"]), sorted((here, there)))
        for page in (2, FAR, 1):  # of the base alone, of the blocks behind it, and of both
            liar.page = page
            status, said = self.verified()
            self.assertEqual(
                (status, f"OtherPage: page {page} at position {self.position}: " in said),
                (1, True),
                said,
            )
            self.assertRegex(said, rf"{there} and service \w+ at \S+ have [0-9a-f]{{32}}")
            self.assertRegex(said, rf"{here} has [0-9a-f]{{32}}")
        liar.page = 40  # which nobody ever wrote, of a range that somebody wrote to
        self.assertIn(f"OtherPage: page 40 at position {self.position}: ", self.verified()[1])
        liar.page, liar.since = 1, self.position
        status, said = self.verified("--last", self.position - 1)
        self.assertEqual(
            (status, said.startswith(f"5 pages at position {self.position - 1} are alike, ")),
            (0, True),
            said,
        )
        self.assertEqual(self.verified("--last", self.base)[0], 0)
        status, said = self.verified("--last", self.base - 1)
        self.assertEqual(
            (status, f"positions from {self.base} on, and not {self.base - 1}" in said),
            (1, True),
            said,
        )

    def test_one_is_compared_with_the_service(self) -> None:
        status, said = self.verified()
        self.assertEqual((status, said), (1, "pagelogctl: shop has no page server\n"))
        liar = self.lying()
        status, said = self.verified()
        self.assertEqual(
            (status, said.startswith(f"5 pages at position {self.position} are alike, ")),
            (0, True),
            said,
        )
        self.assertRegex(
            said,
            rf": page server {self.at('here').run} at here, service {self.keeping.row().run} at \S+\n",
        )
        liar.page, asked = FAR, liar.asked
        status, said = self.verified()
        self.assertEqual(
            (status, f"OtherPage: page {FAR} at position {self.position}: " in said),
            (1, True),
            said,
        )
        self.assertGreaterEqual(liar.asked - asked, 128)  # two ranges
        self.keeping.kill("a")  # its service goes on
        self.assertEqual(self.verified()[0], 1)
        liar.close()
        self.assertEqual(self.verified()[0], 3)

    def test_what_is_forgotten_meanwhile_may_be_compared_later(self) -> None:
        self.both()
        [process] = [each._process for each, _ in self.made._running.values()]
        assert process is not None
        words = iter((lambda: process.forget(self.position), lambda: None))
        from pagelog.pages import comparing

        position_of_all = comparing.position_of_all

        def forgets(*given: object) -> int:
            found = position_of_all(*given)  # type: ignore[arg-type]
            next(words)()
            return found

        with unittest.mock.patch("pagelog.cli.comparing_words.position_of_all", forgets):
            status, said = self.verified("--last", self.position - 1)
        self.assertEqual(
            (
                status,
                f"PositionGone: page server {self.at('here').run} at here has position {self.position - 1} no more"
                in said,
            ),
            (3, True),
            said,
        )


class OfAllPages(unittest.TestCase):
    def test_ranges_have_a_bit_each(self) -> None:
        made, highest = Ranges(), HIGHEST_PAGE // 64
        for number in (highest, 5, 0, 4096 * 8, 5, 4096 * 8 - 1, highest - 1):
            made.add(number)
        self.assertEqual(
            (list(made), made.count), ([0, 5, 4096 * 8 - 1, 4096 * 8, highest - 1, highest], 6)
        )
        self.assertEqual(len(made._bits), 8 << 20)


if __name__ == "__main__":
    unittest.main()
