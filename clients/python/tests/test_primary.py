"""A primary: commits, windows, and epochs that end."""

from __future__ import annotations

import unittest

import pagelog
from pagelog import Block, Zero, faults
from pagelog.primary import Primary
from pagelog.request import Report, Write
from service import TABLE, WIDE_TABLE, Service, interrupted, put, token


class Commits(unittest.TestCase):
    def setUp(self) -> None:
        self.service = self.enterContext(Service())
        self.primary = self.enterContext(self.service.primary())
        self.reader = self.enterContext(self.service.reader())

    def test_a_commit_is_in_the_log_at_its_lsn(self) -> None:
        self.assertEqual(self.primary.commit(), 0)
        self.assertEqual(self.primary.append(put(3, b"one"), put(3, b"two", 100)), 1)
        self.assertEqual(self.reader.status().hard, 0)
        self.assertEqual(self.primary.commit(), 1)
        page = self.reader.page(3, 1)
        self.assertEqual((page.at, page.data[:3], page.data[100:103]), (1, b"one", b"two"))
        self.primary.append(Zero(3))
        self.assertEqual(self.primary.commit(), 2)
        self.assertEqual(self.primary.commit(), 2)
        self.assertEqual(self.reader.page(3, 2).data, bytes(8192))
        self.assertEqual(self.primary.page(3, 1).data[:3], b"one")

    def test_records_fill_blocks_to_the_brim(self) -> None:
        # A block of Puts of 8,180 bytes on one page has room for four: 14 + 4 * 8,189 = 32,770 is two bytes too many.
        self.assertEqual(
            self.primary.append(*[put(0, bytes([at]) * 8179) for at in range(1, 9)]), 2
        )
        self.assertEqual(self.primary.commit(), 2)
        blocks = list(self.reader.blocks(1, follow=False))
        self.assertEqual(
            [(block.lsn, len(block.records), len(block.data)) for block in blocks],
            [(1, 4, 32766), (2, 4, 32766)],
        )
        self.primary.append(*[put(0, bytes([at]) * 8180) for at in range(1, 5)])
        self.assertEqual(self.primary.commit(), 4)
        self.primary.append(*[Zero(at * 65536) for at in range(4684)])
        self.assertEqual(self.primary.commit(), 6)
        self.assertEqual(
            [len(block.records) for block in self.reader.blocks(5, follow=False)], [4679, 5]
        )

    def test_more_than_a_window_is_hardened_group_by_group(self) -> None:
        self.primary.append(*[put(at, bytes([at % 256]) * 8179) for at in range(4 * 70)])
        self.assertEqual(self.primary.commit(), 70)
        self.assertEqual(self.reader.status().hard, 70)
        self.assertEqual(self.reader.page(279, 70).data[:1], bytes([279 % 256]))

    def test_a_faulty_record_is_not_taken(self) -> None:
        for record, kind in (
            (put(0, b""), faults.EmptyPut),
            (put(0, b"ab", 8191), faults.PutPastPage),
            (Zero(-1), ValueError),
        ):
            with self.assertRaises(kind):
                self.primary.append(record)
        for record in (put(0, b"x", 1.5), Zero(1.5)):  # type: ignore[arg-type]
            with self.assertRaises(ValueError):
                self.primary.append(record)
        for data in (bytearray(b"may change"), memoryview(b"twolongs").cast("I"), "text", None):
            with self.assertRaises(TypeError):
                self.primary.append(put(0, data))  # type: ignore[arg-type]
        for record in (b"text", None, [put(0, b"in a list")]):
            with self.assertRaises(TypeError):
                self.primary.append(record)  # type: ignore[arg-type]
        self.primary.append(put(0, b"good"))
        self.assertEqual(self.primary.commit(), 1)

    def test_a_stream_tells_each_lsn(self) -> None:
        self.primary.append(put(0, b"before"))
        lsns = list(self.primary.stream([put(at % 5, b"x")] if at % 3 else [] for at in range(150)))
        self.assertEqual(lsns, list(range(2, 152)))
        self.assertEqual(self.primary.append(put(0, b"behind")), 152)
        self.assertEqual(self.primary.commit(), 152)

    def test_a_transaction_that_is_too_long_ends_a_stream_and_not_the_primary(self) -> None:
        long = [put(at, b"x" * 8179) for at in range(5)]
        with self.assertRaises(faults.BlockTooLong):
            list(self.primary.stream([[put(0, b"a")], [put(0, b"b")], long]))
        self.assertEqual(self.primary.commit(), 2)
        self.assertEqual(self.reader.status().hard, 2)

    def test_blocks_with_lsns_of_their_own(self) -> None:
        blocks = [Block.of(lsn, [put(0, bytes([lsn]))] if lsn % 4 else []) for lsn in range(1, 131)]
        self.assertEqual(list(self.primary.harden(blocks)), [64, 128, 130])
        with self.assertRaises(ValueError):
            list(self.primary.harden([Block.of(132)]))
        self.assertEqual(
            [block.lsn for block in self.reader.blocks(1, follow=False)],
            [lsn for lsn in range(1, 131) if lsn % 4],
        )

    def test_none_in_flight_and_none_in_a_group_are_refused(self) -> None:
        blocks = [Block.of(1, [Zero(1)])]
        for most in (0, -1):
            with self.assertRaises(ValueError):
                list(self.primary.stream([[put(0, b"x")]], in_flight=most))
        for group in (0, 65):
            with self.assertRaises(ValueError):
                list(self.primary.harden(blocks, group=group))
        self.assertEqual(list(self.primary.harden(blocks)), [1])

    def test_all_three_copies(self) -> None:
        with self.service.primary(copies=(2, 0, 1)) as three:
            three.append(put(0, b"thrice"))
            self.assertEqual(three.commit(), 1)
        with self.service.operator() as operator:
            writes = [
                entry.b for entry in operator.audit(1) if entry.operation == pagelog.Operation.WRITE
            ]
        self.assertEqual(writes, [2, 0, 1])

    def test_which_copies_there_are(self) -> None:
        for options in (
            {"copies": (0,)},
            {"copies": (0, 0)},
            {"copies": (0, 3)},
            {"quorum": 3},
            {"quorum": 4, "copies": (0, 1, 2)},
            {"quorum": 4, "copies": (0, 1, 2, 6)},
            {"quorum": 4, "copies": (0, 1, 2, 2)},
        ):
            with self.subTest(options), self.assertRaises(ValueError):
                self.service.primary(**options)  # type: ignore[arg-type]
        for options, copies in (
            ({}, (0, 1)),
            ({"quorum": 4}, (0, 1, 2, 3)),
            ({"quorum": 4, "copies": range(1, 6)}, (1, 2, 3, 4, 5)),
        ):
            self.assertEqual(self.service.primary(**options).copies, copies)  # type: ignore[arg-type]

    def test_a_quorum_that_is_too_large_is_told(self) -> None:
        """There is no copy 3 of three. The report that was on its way hardens the block all the same."""
        with self.service.primary(quorum=4) as primary:
            primary.append(put(0, b"a"))
            with self.assertRaises(pagelog.NoSuchCopy):
                primary.commit()
            self.assertEqual((primary.durable, self.reader.status().hard), (1, 1))
            self.assertFalse(primary._is_quorum_shown)


def end_mark(lsn: int, name: bytes = b"shop") -> bytes:
    """Page 0 as SQLite's VFS leaves it: magic, LSN, size, session, transaction, and the name."""
    return (
        b"plfile01"
        + b"".join(number.to_bytes(8, "big") for number in (lsn, 8192, 7, 1))
        + bytes((len(name),))
        + name
    )


class OverSqlite(unittest.TestCase):
    """A database whose page 0 has the end mark of SQLite's VFS."""

    def setUp(self) -> None:
        self.service = self.enterContext(Service())
        self.operator = self.enterContext(self.service.operator())
        with self.service.primary() as sqlite:
            sqlite.append(put(1, b"SQLite format 3"), put(0, end_mark(1)))
            sqlite.commit()

    def requests(self) -> list[str]:
        """What principal 2 has asked so far."""
        return [
            entry.operation.name
            for entry in self.operator.entries(follow=False)
            if entry.principal == 2
        ]

    def test_nothing_is_written_unless_asked(self) -> None:
        ways = (
            lambda primary: (primary.append(put(5, b"x")), primary.commit()),
            lambda primary: list(primary.stream([[put(5, b"x")]])),
            lambda primary: list(primary.harden([Block.of(2, [put(5, b"x")])])),
        )
        for way in ways:
            with self.service.primary() as primary:
                for _ in range(2):
                    with self.assertRaisesRegex(
                        pagelog.HoldsSqlite,
                        "SQLite database 'shop' at LSN 1.*overwrite_sqlite=True",
                    ) as raised:
                        way(primary)
                        primary.commit()
                    self.assertEqual((raised.exception.lsn, raised.exception.name), (1, "shop"))
        taking = self.service.connection(), pagelog.Credentials.of(2, token(2)), self.operator
        with Primary.take_over(*taking) as primary, self.assertRaises(pagelog.HoldsSqlite):
            primary.append(put(0, b"hello"))
            primary.commit()
        self.assertEqual(self.operator.status().hard, 1)
        with Primary.take_over(*taking, overwrite_sqlite=True) as primary:
            primary.append(put(0, b"hello"))
            self.assertEqual(primary.commit(), 2)

    def test_it_costs_one_get_of_a_writer_and_none_of_an_empty_log(self) -> None:
        commit = ["WRITE", "WRITE", "REPORT"]
        self.assertEqual(self.requests(), ["STATUS", *commit])
        with self.service.primary(overwrite_sqlite=True) as primary:
            primary.append(put(0, b"not any more"))
            primary.commit()
        self.assertEqual(self.requests()[4:], ["STATUS", *commit])
        with self.service.primary() as primary:
            for number in range(3):
                primary.append(put(0, b"hello"))
                primary.commit()
            list(primary.stream([[put(1, b"x")]]))
        self.assertEqual(self.requests()[8:], ["STATUS", "GET", *4 * commit])

    def test_where_the_table_denies_the_look_it_writes(self) -> None:
        deny = '[[row]]\nverdict = "deny"\nwho = 2\nop = ["get"]\n\n'
        self.operator.set_table(TABLE.read_text().replace("[[row]]", deny + "[[row]]", 1))
        with self.service.primary() as primary:
            primary.append(put(0, b"hello"))
            self.assertEqual(primary.commit(), 2)


class Interrupted(unittest.TestCase):
    def test_an_interrupt_anywhere_leaves_each_commit_once(self) -> None:
        with Service() as service, service.reader() as reader:
            for file in ("primary.py", "in_flight.py", "packing.py"):
                with service.primary(alone=True) as primary:
                    at, first = 0, primary.commit() + 1
                    came = True
                    while came:
                        at += 1
                        primary.append(put(0, f"{at}".encode()))
                        came = interrupted(primary.commit, file, at)
                        self.assertEqual(primary.commit(), first + at - 1, (file, at))
                    texts = [record.data for block in reader.blocks(first, follow=False) for record in block.records]  # type: ignore[union-attr]
                    self.assertEqual(texts, [f"{number}".encode() for number in range(1, at + 1)])


class Epochs(unittest.TestCase):
    def setUp(self) -> None:
        self.service = self.enterContext(Service())
        self.operator = self.enterContext(self.service.operator())
        self.primary = self.enterContext(self.service.primary())
        self.reader = self.enterContext(self.service.reader())

    def test_a_failover_ends_a_primary(self) -> None:
        self.primary.append(put(0, b"kept"))
        self.primary.commit()
        self.assertEqual(self.operator.failover(5), 2)
        self.primary.append(put(0, b"lost"))
        for asks in (
            self.primary.commit,
            self.primary.commit,
            lambda: self.primary.append(put(0, b"more")),
            self.primary.begin,
        ):
            with self.assertRaises(pagelog.OlderEpoch) as raised:
                asks()
            self.assertEqual(raised.exception.epoch, 2)
        self.assertEqual(self.reader.status().hard, 1)

    def test_another_principal_is_not_the_primary(self) -> None:
        other = self.enterContext(self.service.primary(5))
        for _ in range(2):
            with self.assertRaises(pagelog.OtherPrimary):
                other.append(put(0, b"x"))
        self.operator.failover(5)
        self.assertEqual(self.enterContext(self.service.primary(5)).commit(), 0)

    def test_it_learns_the_epoch_once(self) -> None:
        for _ in range(3):
            self.operator.failover(2)
        self.primary.append(put(0, b"x"))
        self.assertEqual((self.primary.commit(), self.primary.epoch), (1, 4))
        self.operator.failover(2)
        with self.assertRaises(pagelog.OlderEpoch):
            self.primary.status()

    def test_an_epoch_that_was_given_is_not_changed(self) -> None:
        self.operator.failover(2)
        with self.service.primary(epoch=1) as old, self.assertRaises(pagelog.OlderEpoch):
            old.begin()

    def test_taking_over_fences_the_one_before(self) -> None:
        self.primary.append(put(0, b"a"))
        self.primary.commit()
        connection = self.enterContext(self.service.connection())
        second = Primary.take_over(connection, pagelog.Credentials.of(2, token(2)), self.operator)
        second.append(put(0, b"b"))
        self.assertEqual((second.commit(), second.epoch), (2, 2))
        self.primary.append(put(0, b"c"))
        with self.assertRaises(pagelog.OlderEpoch):
            self.primary.commit()

    def test_two_who_write_in_one_epoch_meet(self) -> None:
        with self.service.primary() as second:
            self.primary.append(put(0, b"first"))
            second.append(put(0, b"second"))
            self.primary.commit()
            with self.assertRaises(pagelog.HardenedAlready):
                second.commit()

    def test_what_a_report_hardens_of_another_is_not_taken_for_ones_own(self) -> None:
        """Another process of the principal has written LSN 1 to two copies: the report of LSN 1 is Done, and hardens that."""
        for is_hardened in (False, True):
            with Service(
                table=WIDE_TABLE
            ) as service, service.primary() as first, service.primary() as second, service.reader() as reader:
                second.begin()
                for copy in (0, 1):
                    first._ask(Write(copy, Block.of(1, [put(0, b"first")])))
                if is_hardened:
                    first._ask(Report(1))
                lsns = []
                with self.assertRaises(
                    pagelog.HardenedAlready if is_hardened else pagelog.OtherContent
                ):
                    for lsn in second.stream([[put(0, b"second")], [put(0, b"third")]]):
                        lsns.append(lsn)
                self.assertEqual((lsns, reader.page(0, 1).data[:5]), ([], b"first"))
                for _ in range(2):
                    with self.assertRaises(pagelog.HardenedAlready):
                        second.commit()

    def test_what_stands_in_two_copies_is_kept_by_the_failover(self) -> None:
        """The failover comes between the writes of a commit and its report: the commit succeeds, the next one ends."""
        requests = self.primary._requests

        def with_a_failover(*arguments):  # type: ignore[no-untyped-def]
            for request in requests(*arguments):
                if isinstance(request.act, Report):
                    self.assertEqual(count_of_writes(self.operator), 4)
                    self.operator.failover(5)
                yield request

        self.primary.append(put(0, b"before"))
        self.primary.commit()
        self.primary._requests = with_a_failover  # type: ignore[method-assign]
        self.primary.append(put(0, b"kept"))
        self.primary._prepare()
        self.primary._close_block()
        lsns = list(
            self.primary._harden([[sent.block for sent in self.primary._unhardened]], in_flight=1)
        )
        self.assertEqual(lsns, [2])
        self.assertEqual(self.reader.page(0, 2).data[:4], b"kept")
        with self.assertRaises(pagelog.OlderEpoch):
            self.primary.append(put(0, b"no"))

    def test_a_stream_of_which_a_part_was_not_sent_does_not_end_as_if_it_were(self) -> None:
        """The failover keeps all that was sent. What comes after it was not sent, and is not in the log."""
        requests = self.primary._requests

        def with_a_failover(*arguments):  # type: ignore[no-untyped-def]
            for request in requests(*arguments):
                if isinstance(request.act, Report) and request.act.lsn == 3:
                    self.operator.failover(5)
                yield request

        self.primary._requests = with_a_failover  # type: ignore[method-assign]
        lsns = []
        with self.assertRaises(pagelog.OlderEpoch):
            for lsn in self.primary.stream(
                ([put(0, bytes([at]))] for at in range(1, 9)), in_flight=1
            ):
                lsns.append(lsn)
        self.assertEqual((lsns, self.primary.durable, self.reader.status().hard), ([1, 2, 3], 3, 3))

    def test_before_a_commit_has_shown_the_quorum_the_log_is_asked(self) -> None:
        """Whatever quorum the primary was given: a block in two or three copies may be in the log, or not."""
        for options in ({}, {"copies": (0, 1, 2)}, {"quorum": 4}):
            for witness in (None, self.reader):
                with Service(table=WIDE_TABLE) as service, service.operator() as operator:
                    reader = self.enterContext(service.reader()) if witness else None
                    with service.primary(witness=reader, **options) as primary:  # type: ignore[arg-type]
                        self.fail_over_before_the_third_copy(primary, operator)
                        primary.append(put(0, b"kept"))
                        primary._prepare()
                        primary._close_block()
                        harden = primary._harden(
                            [[sent.block for sent in primary._unhardened]], in_flight=1
                        )
                        if reader is None:
                            with self.assertRaises(pagelog.InDoubt):
                                list(harden)
                        else:
                            list(harden)
                            self.assertEqual(primary.durable, 1)

    def fail_over_before_the_third_copy(self, primary: Primary, operator: pagelog.Operator) -> None:
        """The epoch ends as soon as a block is in the copies 0 and 1."""
        requests = primary._requests

        def with_a_failover(*arguments):  # type: ignore[no-untyped-def]
            for at, request in enumerate(requests(*arguments)):
                if at == 2:
                    operator.failover(5)
                yield request

        primary._requests = with_a_failover  # type: ignore[method-assign]

    def test_what_stands_in_one_copy_is_not(self) -> None:
        requests = self.primary._requests

        def with_a_failover(*arguments):  # type: ignore[no-untyped-def]
            for request in requests(*arguments):
                if isinstance(request.act, Write) and request.act.copy == 1:
                    self.operator.failover(5)
                yield request

        self.primary._requests = with_a_failover  # type: ignore[method-assign]
        self.primary.append(put(0, b"lost"))
        self.primary._prepare()
        self.primary._close_block()
        with self.assertRaises(pagelog.OlderEpoch):
            list(
                self.primary._harden(
                    [[sent.block for sent in self.primary._unhardened]], in_flight=1
                )
            )
        self.assertEqual((self.primary.durable, self.reader.status().hard), (0, 0))

    def test_a_service_that_was_started_anew(self) -> None:
        for count in (3, 70):
            with Service() as service, service.primary() as primary, service.reader() as reader, service.operator() as operator:
                list(primary.stream([put(0, b"x")] for _ in range(count)))
                self.assertEqual((reader.status().hard, operator.failover(2)), (count, 2))
                fresh = service.primary()
                self.assertEqual(fresh.append(put(0, b"y")), count + 1)
                service.restart()
                for asks in (
                    fresh.commit,
                    reader.status,
                    lambda: reader.span(count + 1),
                    operator.status,
                ):
                    with self.assertRaises(pagelog.LogWentBack):
                        asks()
                fresh.close()

    def test_a_primary_of_the_first_epoch_notices_it_too(self) -> None:
        for count in (3, 70):
            with Service() as service, service.primary() as primary:
                list(primary.stream([put(0, b"x")] for _ in range(count)))
                primary.append(put(0, b"y"))
                service.restart()
                with self.assertRaises(pagelog.LogWentBack):
                    primary.commit()


def count_of_writes(operator: pagelog.Operator) -> int:
    """How many writes the audit list has."""
    return sum(
        1
        for entry in operator.audit(1)
        if entry.operation == pagelog.Operation.WRITE and entry.is_allowed
    )


if __name__ == "__main__":
    unittest.main()
