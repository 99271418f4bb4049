"""Readers, page servers and operators."""

from __future__ import annotations

import re
import subprocess
import sys
import textwrap
import threading
import time
import unittest

import pagelog
from pagelog import Operation, Put, Role
from pagelog.reply import Denied
from pagelog.request import WITHOUT_ARGUMENTS, Get, Pull
from pagelog.tables import TableText
from service import PATIENCE, SOURCE, WIDE_TABLE, Service, fill, put


class Reading(unittest.TestCase):
    def setUp(self) -> None:
        self.service = self.enterContext(Service())
        self.primary = self.enterContext(self.service.primary())
        self.reader = self.enterContext(self.service.reader())

    def test_pages(self) -> None:
        for lsn in range(1, 6):
            self.primary.append(put(lsn, bytes([lsn])), put(1, bytes([lsn]), 100))
            self.primary.commit()
        self.assertEqual(
            [page.data[:1] for page in self.reader.pages(range(1, 6), 3)],
            [b"\x01", b"\x02", b"\x03", b"\0", b"\0"],
        )
        self.assertEqual(self.reader.page(1, 4).data[100:101], b"\x04")
        with self.assertRaises(pagelog.AboveTheEnd) as raised:
            self.reader.page(1, 6)
        self.assertEqual(raised.exception.value, 5)
        with self.assertRaises(pagelog.TableRow):
            self.reader.page(7 * 65536, 5)
        replies = self.reader.answers([Get(1, 5), Pull(9), Get(1, 1)])
        self.assertIsInstance(replies[1], Denied)

    def test_all_blocks_once_whatever_the_gaps(self) -> None:
        fill(self.primary, 500)
        blocks = list(self.reader.blocks(1, follow=False))
        one_by_one = [
            block
            for lsn in range(1, 501)
            for block in self.reader.pull(lsn, max=1).blocks
            if block.lsn == lsn
        ]
        self.assertEqual(blocks, one_by_one)
        self.assertLess(len(blocks), 500)
        for pulls in (1, 2, 5):
            spans = list(self.reader.spans(1, follow=False, pulls=pulls))
            self.assertEqual([block for span in spans for block in span.blocks], blocks)
            self.assertEqual([(spans[0].first, spans[-1].last)], [(1, 500)])
            for before, behind in zip(spans, spans[1:]):
                self.assertEqual(behind.first, before.last + 1)

    def test_a_span_has_its_pulls_in_flight_together(self) -> None:
        list(self.primary.stream([put(0, b"x")] for _ in range(300)))
        with self.service.operator() as operator:
            for pulls, wanted in ((1, 16), (4, 64), (64, 300)):
                reader = self.enterContext(self.service.reader())
                self.assertEqual(reader.span(1, pulls=pulls).last, wanted)
                before = operator.count_of_entries()
                span = reader.span(1, pulls=pulls)
                self.assertEqual((span.last, len(span.blocks)), (wanted, wanted))
                entries = list(operator.entries(before + 1))
                self.assertEqual(
                    sum(entry.operation is Operation.PULL for entry in entries), -(-wanted // 16)
                )

    def test_a_log_that_went_back_to_where_it_goes_on_is_noticed(self) -> None:
        list(self.primary.stream([put(0, b"x")] for _ in range(100)))
        span = self.reader.span(1, pulls=2)
        self.assertEqual((span.last, self.reader.hard_seen), (32, 100))
        self.service.restart()
        with self.service.primary() as primary:
            list(primary.harden(span.blocks))
        with self.assertRaises(pagelog.LogWentBack):
            self.reader.span(33)

    def test_a_peer_that_never_goes_on_is_told(self) -> None:
        """Whoever answers so is no service, and what waits for more would wait for ever."""
        list(self.primary.stream([put(0, b"x")] for _ in range(3)))
        self.reader.status()
        self.reader.connection.exchange = lambda requests, *_: (  # type: ignore[method-assign]
            pagelog.reply.Blocks(request.act.lsn, ()) for request in requests
        )  # type: ignore[union-attr]
        for asks in (
            lambda: self.reader.span(1),
            lambda: list(self.reader.blocks(1, follow=False)),
        ):
            with self.assertRaises(pagelog.UnexpectedReply):
                asks()

    def test_partitions(self) -> None:
        fill(self.primary, 200, seed=2)
        all_blocks = list(self.reader.blocks(1, follow=False))
        of_one = list(self.reader.blocks(1, follow=False, partitions=(1, 1)))
        self.assertEqual(of_one, [block for block in all_blocks if 1 in block.partitions])

    def test_an_end_of_blocks_that_nobody_is_served_is_reached(self) -> None:
        list(self.primary.stream([[], [], [put(0, b"x")], [], []]))
        span = self.reader.span(1)
        self.assertEqual((span.first, span.last, [block.lsn for block in span.blocks]), (1, 5, [3]))
        self.assertEqual(self.reader.span(6).last, 5)
        with self.assertRaises(pagelog.AboveTheEnd):
            self.service.reader().span(8)

    def test_following_waits_at_the_end_and_behind_an_empty_pull(self) -> None:
        """Blocks of another partition make the pulls empty; the iterator goes on after them."""
        found: list[int] = []
        done = threading.Event()
        reader = self.enterContext(self.service.reader())

        def follow() -> None:
            for block in reader.blocks(1, partitions=(1, 1), idle=0.02, stop=done.is_set):
                found.append(block.lsn)

        thread = threading.Thread(target=follow)
        thread.start()
        wanted = []
        for round in range(5):
            for _ in range(3):
                self.primary.append(put(0, b"other"))
                self.primary.commit()
                time.sleep(0.02)
            self.primary.append(put(65536, b"this"))
            wanted.append(self.primary.commit())
            deadline = time.monotonic() + PATIENCE
            while found != wanted and time.monotonic() < deadline:
                time.sleep(0.005)
            self.assertEqual(found, wanted, round)
        done.set()
        thread.join(PATIENCE)
        self.assertFalse(thread.is_alive())

    def test_following_costs_little_while_nothing_comes(self) -> None:
        done = time.monotonic() + 1.0
        self.assertEqual(
            list(self.reader.blocks(1, idle=0.25, stop=lambda: time.monotonic() > done)), []
        )
        with self.service.operator() as operator:
            self.assertIn(len(operator.audit(1)), range(1, 14))

    def test_a_failover_does_not_disturb_it(self) -> None:
        with self.service.operator() as operator:
            for epoch in range(2, 6):
                with self.service.primary() as primary:
                    primary.append(put(0, b"x"))
                    lsn = primary.commit()
                operator.failover(2)
                self.assertEqual(
                    [block.lsn for block in self.reader.blocks(lsn, follow=False)], [lsn]
                )
                self.assertEqual(self.reader.status().epoch, epoch)


class Pages(unittest.TestCase):
    def test_the_lines_of_the_readme_and_of_the_package_run(self) -> None:
        readme = (SOURCE.parent / "README.md").read_text()
        lines = re.findall(r"^```python\n(.*?)^```", readme, flags=re.S | re.M)[0]
        docstring = textwrap.dedent(
            (pagelog.__doc__ or "").split("\n\n", 1)[1].split("\n\n`Primary`")[0]
        )
        self.assertEqual(docstring.strip(), lines.strip())
        with Service() as service:
            code = lines.replace("127.0.0.1:7403", service.address)
            done = subprocess.run(
                [sys.executable, "-B", "-c", code],
                env={"PYTHONPATH": str(SOURCE)},
                capture_output=True,
                text=True,
            )
        self.assertEqual((done.stdout, done.stderr), ("b'hello'\n1 (Put(page=0, offset=0),)\n", ""))


class PageServers(unittest.TestCase):
    def test_it_advances_as_blocks_come_and_sleeps_while_none_do(self) -> None:
        with Service() as service, service.primary() as primary, service.reader() as reader, service.operator() as operator:
            server = self.enterContext(service.page_server(partitions=(0, 2)))
            self.assertEqual(server.step(), 0)
            list(primary.stream([Put(0, 0, bytes([at % 256]))] for at in range(1100)))
            self.assertEqual((reader.applied(0), server.step(), server.step()), (0, 1100, 0))
            self.assertEqual(
                (reader.applied(0), reader.applied(1), reader.applied(2)), (1100, 0, 1100)
            )
            self.assertEqual(reader.page(0, 5, exact=False).at, 1100)
            steps = [
                (entry.a, entry.b)
                for entry in operator.entries(1)
                if entry.operation == Operation.ADVANCE
            ]
            self.assertEqual(steps, [(0, 1024), (0, 76), (2, 1024), (2, 76)])
            before, began = operator.count_of_entries(), time.monotonic()
            done = threading.Event()
            thread = threading.Thread(target=server.run, kwargs={"idle": 0.2, "stop": done.is_set})
            thread.start()
            time.sleep(0.8)
            self.assertLess(
                operator.count_of_entries() - before, 50 + 2 * (time.monotonic() - began) / 0.2
            )
            primary.append(put(0, b"new"))
            lsn = primary.commit()
            deadline = time.monotonic() + PATIENCE
            while reader.applied(0) < lsn and time.monotonic() < deadline:
                time.sleep(0.02)
            done.set()
            thread.join(PATIENCE)
            self.assertEqual(reader.applied(0), lsn)

    def test_a_new_one_finds_what_an_old_one_did(self) -> None:
        with Service() as service, service.primary() as primary, service.page_server() as first, service.page_server() as second:
            list(primary.stream([Put(0, 0, b"x")] for _ in range(20)))
            self.assertEqual((first.step(), second.step()), (20, 20))
            with service.operator() as operator:
                operator.failover(2)
            self.assertEqual(second.step(), 0)

    def test_it_begins_anew_with_a_service_that_was_restarted_and_filled_again(self) -> None:
        with Service() as service, service.page_server() as server, service.reader() as reader:
            for more in (0, 5):
                with service.primary() as primary:
                    list(primary.stream([Put(0, 0, b"x")] for _ in range(10 + more)))
                server.step()
                reader.forget()
                self.assertEqual((server.applied, reader.applied(0)), (10 + more, 10 + more))
                service.restart()
            server.forget()
            self.assertEqual((server.step(), server.applied), (0, 0))


class Operators(unittest.TestCase):
    def test_failovers(self) -> None:
        with Service() as service, service.operator() as operator, service.operator() as second:
            self.assertEqual(
                (operator.failover(5), operator.failover(2), second.failover(5)), (2, 3, 4)
            )
            with self.assertRaises(pagelog.OlderEpoch) as raised:
                operator.failover(2, epoch=3)
            self.assertEqual((raised.exception.epoch, operator.epoch), (4, 4))
            with self.assertRaises(pagelog.NewerEpoch):
                operator.failover(2, epoch=9)
            self.assertEqual(operator.status().epoch, 4)
            with self.assertRaises(pagelog.UnlistedPrimary):
                operator.failover(9)

    def test_a_failover_of_the_current_epoch_goes_on_where_another_came_first(self) -> None:
        with Service() as service, service.operator() as operator, service.operator() as second:
            ask = operator.connection.ask

            def after_another(request):  # type: ignore[no-untyped-def]
                operator.connection.ask = ask  # type: ignore[method-assign]
                self.assertEqual(second.failover(5), 2)
                return ask(request)

            operator.connection.ask = after_another  # type: ignore[method-assign]
            self.assertEqual((operator.failover(2), operator.status().primary), (3, 2))

    def test_a_fence_lets_nobody_write_also_where_a_failover_comes_between(self) -> None:
        closed = TableText(WIDE_TABLE).without_writes()
        with Service(
            table=WIDE_TABLE
        ) as service, service.operator() as operator, service.operator() as second:
            self.assertEqual(operator.status().epoch, 1)
            with service.primary(5) as writer:
                self.assertEqual(second.failover(5), 2)
                fill(writer, 3)
                state = operator.fence(closed, 2)
                self.assertEqual(
                    (state.epoch, state.primary, state.hard, operator.epoch), (3, 2, 3, 3)
                )
                writer.append(put(0, b"x"))
                with self.assertRaises((pagelog.OlderEpoch, pagelog.TableRow)):
                    writer.commit()
            with self.assertRaises(pagelog.NoTable):
                operator.fence("no table", 2)
            self.assertEqual(operator.status().epoch, 4)  # each is done or not by itself

    def test_the_audit_list(self) -> None:
        with Service() as service, service.operator() as operator, service.primary() as primary:
            self.assertEqual(operator.count_of_entries(), 0)
            primary.append(put(70000, b"x"))
            primary.commit()
            for operation in (
                one for one, act in WITHOUT_ARGUMENTS.items() if Role.OPERATOR in act.roles
            ):
                getattr(operator, operation.word)()
            with self.assertRaises(pagelog.BelowQuorum):
                pagelog.reply.expect(pagelog.reply.Done, primary._ask(pagelog.request.Report(9)))
            entries = list(operator.entries(1))
            self.assertEqual([entry.number for entry in entries], list(range(1, len(entries) + 1)))
            last = entries[-1]
            self.assertEqual(
                (last.operation, last.place, last.rule, last.value, last.a),
                (Operation.REPORT, "C6", "BelowQuorum", 1, 9),
            )
            write = next(entry for entry in entries if entry.operation is Operation.WRITE)
            self.assertEqual(
                (write.a, write.b, write.principal, write.is_allowed, write.place),
                (1, 0, 2, True, ""),
            )

    def test_its_length_is_found(self) -> None:
        with Service() as service, service.operator() as operator, service.reader() as reader:
            for more in (0, 1, 2, 1100):
                reader.answers([Pull(9)] * more)
                before = len(list(operator.entries(1))) + 1  # with the last question for them
                self.assertEqual(operator.count_of_entries(), before)
                self.assertLess(len(list(operator.entries(1))) - before, 40)
        with Service() as service, service.operator() as operator, service.operator() as second:
            operator.failover(2)
            self.assertEqual(second.count_of_entries(), 2)

    def test_following_the_audit_list(self) -> None:
        with Service() as service, service.operator() as operator, service.reader() as reader:
            reader.answers([Pull(9)] * 1500)
            done = threading.Event()
            found: list[int] = []
            pulls: list[int] = []
            for entry in operator.entries(1, follow=True, idle=0.02, stop=done.is_set):
                found.append(entry.number)
                pulls += [entry.number] if entry.operation is Operation.PULL else []
                if len(pulls) == 1500 and found[-1] == pulls[-1]:
                    reader.answers([Pull(9)] * 3)
                if len(pulls) == 1503:
                    done.set()
            self.assertEqual(found, list(range(1, len(found) + 1)))
            self.assertEqual(len(pulls), 1503)


if __name__ == "__main__":
    unittest.main()
