"""Looks at services: one that hangs or fills is seen, and holds up neither the looks at others nor the beat."""

from __future__ import annotations

import asyncio
import os
import signal
import socket
import tempfile
import unittest
from concurrent.futures import ThreadPoolExecutor
from pathlib import Path
from typing import Any
from unittest.mock import AsyncMock, Mock, patch

from pagelog import Address, Connection, Primary, Put
from pagelog.errors import AuditListFull, TimedOut
from pagelog.keeper.looker import Looker
from pagelog.referee.rows import Row
from pagelog.keeper.run import Program, Run
from pagelog.keeper.served import FEW, Served
from pagelog.keeper.session import Session
from pagelog.keeper.table import keeper_of
from pagelog.reply import Entries, State
from pagelog.run_tokens import token_of
from pagelog.service_protocol import framed
from pagelog.keeper.waits import Waits
from pagelog.keeper.work import Work
from service import PATIENCE, PROGRAM, WIDE_TABLE, accept_each, silent_address, stand_still, token
from service_side import encode_reply

SECRET = b"s" * 16


def without_threads() -> Any:
    return patch.object(asyncio, "to_thread", side_effect=AssertionError("a thread was asked"))


class Looks(unittest.IsolatedAsyncioTestCase):
    def setUp(self) -> None:
        self.folder = Path(self.enterContext(tempfile.TemporaryDirectory()))
        self.tasks: list[asyncio.Task[None]] = []
        self.said: list[str] = []

    def served(self, audit: int = 100_000, timeout: float = PATIENCE) -> Served:
        """A service that runs."""
        made = Served("shop", f"r{audit}", WIDE_TABLE, SECRET, timeout=timeout)
        made.start(Program(PROGRAM, "127.0.0.1", self.folder, audit))
        self.addCleanup(made.end)
        made.open()
        return made

    def at(self, listener: socket.socket, timeout: float = PATIENCE) -> Served:
        """A service that is whatever listens there."""
        made = Served("shop", "r", WIDE_TABLE, SECRET, timeout=timeout)
        made.serve(
            Mock(Run, address=f"127.0.0.1:{listener.getsockname()[1]}", is_alive=True, memory=0)
        )
        return made

    def listener(self) -> socket.socket:
        """It takes connections, and says nothing."""
        made = self.enterContext(socket.create_server(("127.0.0.1", 0)))
        self.addCleanup(made.close)
        return made

    def writer(self, served: Served) -> Primary:
        """Who has begun an epoch."""
        operator = served.operator()
        self.addCleanup(operator.close)
        assert served.process is not None
        operator.failover(2)
        made = Primary.at(
            served.process.address, 2, token_of(bytes.fromhex(token(2)), "shop", served.run).hex()
        )
        self.addCleanup(made.close)
        return made

    def work(self, served: Served) -> Work:
        def spawn(work: Any, _: str) -> asyncio.Task[None]:
            self.tasks.append(asyncio.create_task(work))
            return self.tasks[-1]

        shared = Mock(
            settings=Mock(ttl=PATIENCE),
            spawn=spawn,
            say=lambda _, sentence: self.said.append(sentence),
        )
        return Work(shared, Row(1, "shop", identity="one"), Waits("shop"), Mock())

    async def asyncSetUp(self) -> None:
        asyncio.get_running_loop().set_debug(False)

    async def asyncTearDown(self) -> None:
        for task in self.tasks:
            task.cancel()
        await asyncio.gather(*self.tasks, return_exceptions=True)

    async def until(self, condition: Any) -> None:
        while not condition():
            await asyncio.sleep(0.001)

    async def test_its_end_and_its_list_are_seen_without_a_thread_in_whatever_epoch(self) -> None:
        served = self.served()
        with without_threads():
            self.assertTrue(await served.looked_at_once())
        writer = await asyncio.to_thread(self.writer, served)
        for count in (1, 100):
            for _ in range(count):
                writer.append(Put(0, 0, b"x"))
                await asyncio.to_thread(writer.commit)
            with without_threads():
                self.assertTrue(await served.looked_at_once())
        self.assertEqual((served.hard, served.health.answers), (101, 3))
        for _ in range(20):
            self.assertTrue(await served.looked_at_once())
        operator = served.operator()
        self.addCleanup(operator.close)
        self.assertIn(operator.count_of_entries() - served.entries, range(2 * FEW))
        self.assertGreater(served.entries, 300)
        self.assertGreater(served.share(1000, 0), 0.3)

    async def test_a_list_that_is_full_and_a_service_that_is_gone_are_left_to_a_thread(
        self,
    ) -> None:
        served = self.served(audit=100)
        with self.assertRaises(AuditListFull):
            while await served.looked_at_once():
                pass
            served.look()
        assert served.process is not None
        os.kill(served.process.facts.pid, signal.SIGKILL)
        await self.until(lambda: not served.is_alive)
        self.assertFalse(await served.looked_at_once())

    async def test_what_is_no_answer_is_left_to_a_thread(self) -> None:
        answer_and_more = (
            framed(encode_reply(State(1, 2, 3, 4, 5))) + framed(encode_reply(Entries(()))) + b"\0"
        )
        for reply in (
            b"",
            b"\0\0\0\1",
            b"\0\0\0\1\xff\0\0\0\1\xff",
            b"\xff" * 9,
            b"\0\0\0\0" * 3,
            answer_and_more,
        ):
            listener = self.listener()

            def answer(client: socket.socket, reply: bytes = reply) -> None:
                with client:
                    client.recv(1 << 16)
                    client.sendall(reply)

            accept_each(listener, answer)
            self.assertFalse(await self.at(listener).looked_at_once(), reply)

    async def test_one_that_hangs_is_silent_and_its_late_answer_is_nobody_s(self) -> None:
        served = self.served(timeout=PATIENCE)
        assert served.process is not None and served.process.facts.address is not None
        pid, credentials = served.process.facts.pid, keeper_of(SECRET, "shop", served.run)
        looker = Looker(served.process.facts.address, credentials, PATIENCE)
        self.addCleanup(looker.close)
        self.assertIsNotNone(await looker.look(1))
        stand_still(pid)
        looker._timeout = 0.2
        for _ in range(2):
            with self.assertRaises(TimedOut):
                await looker.look(1)
        os.kill(pid, signal.SIGCONT)
        looker._timeout = PATIENCE
        found = await looker.look(FEW * 100)
        assert found is not None
        self.assertEqual(found[1].entries, ())  # else it is the answer to the look before

    async def test_an_idle_one_is_looked_at_without_a_task_until_it_says_something_else(
        self,
    ) -> None:
        open_before = len(os.listdir("/proc/self/fd"))
        served = self.served()
        work = self.work(served)
        assert served._quick_looker is not None
        made = self.enterContext(
            patch.object(served._quick_looker, "_frames", wraps=served._quick_looker._frames)
        )
        for count in range(1, 41):
            work.see(served)
            await self.until(lambda: served.health.answers == count)  # noqa: B023
            if count == 5:
                self.assertEqual(len(self.tasks), 1)
        # Only where its list has as many new entries of others as are looked for.
        self.assertLessEqual(len(self.tasks), 2)
        self.assertLess(made.call_count, 20)  # only where another entry is asked for
        # Its process, and the connection of looks.
        self.assertEqual(len(os.listdir("/proc/self/fd")) - open_before, 2)
        writer, tasks = await asyncio.to_thread(self.writer, served), len(self.tasks)
        writer.append(Put(0, 0, b"x"))
        await asyncio.to_thread(writer.commit)
        work.see(served)
        await asyncio.wait_for(self.until(lambda: served.hard == 1), PATIENCE)
        self.assertEqual(len(self.tasks), tasks + 1)

    async def test_an_idle_one_that_hangs_or_dies_is_left_to_a_task(self) -> None:
        served = self.served()
        work, looker = self.work(served), served._quick_looker
        assert served.process is not None and looker is not None
        pid = served.process.facts.pid
        for tasks, signals in ((1, (signal.SIGSTOP, signal.SIGCONT)), (2, (signal.SIGKILL,))):
            before = served.health.answers
            for count in (1, 2):
                work.see(served)
                await self.until(lambda: served.health.answers == before + count)  # noqa: B023
            self.assertEqual(len(self.tasks), tasks)
            looker._timeout = 0.2
            os.kill(pid, signals[0])
            await asyncio.wait_for(
                self.until(lambda: (work.see(served), len(self.tasks) > tasks)[1]),  # noqa: B023
                PATIENCE,
            )
            looker._timeout = PATIENCE
            for each in signals[1:]:
                os.kill(pid, each)
            await asyncio.gather(*self.tasks, return_exceptions=True)

    async def test_an_address_of_its_host_that_is_silent_is_no_silence_of_its_own(self) -> None:
        served, sockets = self.served(), list[socket.socket]()
        self.addCleanup(lambda: [each.close() for each in sockets])
        assert served.process is not None and served._quick_looker is not None
        addresses = silent_address(sockets), (
            "127.0.0.1",
            int(served.process.address.rpartition(":")[2]),
        )
        found = [(socket.AF_INET, socket.SOCK_STREAM, 6, "", address) for address in addresses]
        with patch.object(
            asyncio.get_running_loop(), "getaddrinfo", AsyncMock(return_value=found)
        ), without_threads():
            served._quick_looker._address = Address("host", 1)
            self.assertTrue(await served.looked_at_once())
        served.stop_looks()

    async def test_services_that_hang_hold_up_no_other_look_and_no_beat(self) -> None:
        asyncio.get_running_loop().set_default_executor(ThreadPoolExecutor(2))
        hang = [self.at(self.listener()) for _ in range(6)]
        works = [self.work(served) for served in hang]
        served = self.served()
        work, session = self.work(served), Session(Mock(notified=[]), PATIENCE)
        for count in range(1, 4):
            for each, of in zip(works, hang):
                each.see(of)
            work.see(served)
            await asyncio.wait_for(self.until(lambda: served.health.answers == count), PATIENCE)
            self.assertEqual(await session.ask(lambda: count), count)
        self.assertEqual(([of.health.answers for of in hang], self.said), ([0] * len(hang), []))

    async def test_memory_is_measured_with_each_look_and_decides_until_the_next(self) -> None:
        served = self.served()
        self.assertEqual(served.share(1 << 24, 1 << 10), 0.0)
        begun = served.measure()
        self.assertGreater(begun, 1 << 20)
        served.health.begun = begun // 4
        self.assertGreater(served.share(1 << 24, 2 * begun), 0.4)
        self.assertEqual(served.share(1 << 24, 0), 0.0)


if __name__ == "__main__":
    unittest.main()
