"""What is reported of blocks whose replies were lost."""

from __future__ import annotations

import unittest
from collections import deque
from contextlib import closing

import pagelog
from pagelog import Block, Put, rules
from pagelog.primary import Primary
from service import WIDE_TABLE, CuttingProxy, Service, put, token


class Doubts(unittest.TestCase):
    """The connection is cut after the writes, and what happened to them is found out."""

    def setUp(self) -> None:
        self.service = self.enterContext(Service(table=WIDE_TABLE))
        self.operator = self.enterContext(self.service.operator())
        self.proxy = self.enterContext(
            CuttingProxy(self.service.address, least=10**9, most=2 * 10**9)
        )
        self.credentials = pagelog.Credentials.of(2, token(2))

    def primary(self, **options: object) -> Primary:
        made = Primary(self.proxy.connection(), self.credentials, **options)  # type: ignore[arg-type]
        self.enterContext(made)
        made.begin()
        return made

    def lose_replies(self, primary: Primary) -> None:
        """The requests of the next commit reach the service, and none of their replies comes back."""
        primary._prepare()
        primary._close_block()
        primary._check_sqlite()  # before it sends
        body = [sent.block for sent in primary._unhardened]
        with self.service.connection() as other:
            requests = list(primary._requests([body], deque(), []))
            for sent in primary._unhardened:
                sent.attempts = 1
            list(other.exchange(requests))

    def test_alone_in_its_epoch_it_knows_its_own_blocks(self) -> None:
        primary = self.primary(alone=True)
        primary.append(put(0, b"mine"))
        self.lose_replies(primary)
        self.assertEqual(primary.commit(), 1)

    def test_a_witness_tells_whose_block_it_is(self) -> None:
        with self.service.reader() as witness:
            primary = self.primary(witness=witness)
            primary.append(put(0, b"mine"))
            self.lose_replies(primary)
            self.assertEqual(primary.commit(), 1)
            other = self.primary(witness=witness)
            other.append(put(0, b"other"))
            primary.append(put(0, b"first"))
            primary.commit()
            other._prepare()
            other._close_block()
            other._unhardened[0].attempts = 1
            with self.assertRaises(pagelog.HardenedAlready):
                other.commit()

    def test_without_either_it_is_in_doubt(self) -> None:
        primary = self.primary()
        primary.append(put(0, b"mine"))
        self.lose_replies(primary)
        with self.assertRaises(pagelog.InDoubt):
            primary.commit()

    def test_an_epoch_that_ended_meanwhile(self) -> None:
        with self.service.reader() as witness:
            for options, kind in (({}, pagelog.InDoubt), ({"witness": witness}, None)):
                primary = self.primary(**options)
                primary.append(put(0, b"mine"))
                self.lose_replies(primary)
                self.operator.failover(2)
                if kind is None:
                    self.assertEqual(primary.commit(), self.operator.status().hard)
                else:
                    with self.assertRaises(kind):
                        primary.commit()

    def test_a_witness_that_may_not_look_leaves_it_in_doubt(self) -> None:
        credentials = pagelog.Credentials.of(5, token(5))
        with closing(pagelog.Reader(self.service.connection(), credentials)) as witness:
            for ends in (False, True):
                primary = self.primary(witness=witness)
                primary.append(put(0, b"mine"))
                self.lose_replies(primary)
                if ends:
                    self.operator.failover(2)
                with self.assertRaises(pagelog.InDoubt):
                    primary.commit()

    def test_a_block_without_records_is_known_by_its_gap(self) -> None:
        with self.service.reader() as witness:
            primary = self.primary(witness=witness)
            list(primary.stream([[put(0, b"a")], [], [put(0, b"b")]]))
            list(primary.harden([Block.of(4)]))
            self.assertTrue(pagelog.in_flight.is_in_log(witness, Block.of(2)))
            self.assertTrue(pagelog.in_flight.is_in_log(witness, Block.of(4)))
            self.assertFalse(pagelog.in_flight.is_in_log(witness, Block.of(5)))
            self.assertFalse(pagelog.in_flight.is_in_log(witness, Block.of(3)))
            self.assertTrue(pagelog.in_flight.is_in_log(witness, Block.of(3, [Put(0, 0, b"b")])))

    def test_a_stream_over_a_connection_that_is_cut_loses_nothing(self) -> None:
        with CuttingProxy(
            self.service.address, least=100, most=3000, seed=5
        ) as proxy, self.service.reader() as witness:
            primary = Primary(proxy.connection(), self.credentials, witness=witness)
            told = []
            try:
                for lsn in primary.stream([put(0, at.to_bytes(8, "big"))] for at in range(1, 401)):
                    told.append(lsn)
                    if lsn == 250:
                        self.operator.failover(5)
            except pagelog.OlderEpoch:
                pass
            self.assertGreater(proxy.cuts, 10)
            self.assertEqual(told, list(range(1, primary.durable + 1)))
            self.assertGreaterEqual(primary.durable, 250)
            with self.service.reader() as reader:
                blocks = list(reader.blocks(1, follow=False))
            self.assertEqual([int.from_bytes(block.records[0].data, "big") for block in blocks], told)  # type: ignore[union-attr]
            self.assertIsInstance(primary._ended, rules.OlderEpoch)


if __name__ == "__main__":
    unittest.main()
