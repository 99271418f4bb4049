"""A service that was restarted and restored: what its old writers and readers are told."""

from __future__ import annotations

import tempfile
import unittest
from pathlib import Path

import pagelog
from pagelog import Block, Primary, Put
from pagelog.archive import Archive
from pagelog.archive.archiving import Archiver
from pagelog.request import Report, Write
from pagelog.restoring import EPOCHS_ABOVE, raise_epoch, restore
from service import WIDE_TABLE, Service, put, token

CREDENTIALS = pagelog.Credentials.of(2, token(2))


class Restarts(unittest.TestCase):
    """Ten blocks are archived, and the service is restarted at its address and restored."""

    def setUp(self) -> None:
        self.folder = Path(self.enterContext(tempfile.TemporaryDirectory()))
        self.archive = self.enterContext(
            Archive(f"sqlite:///{self.folder}/archive.db", create=True)
        )
        self.service = self.enterContext(Service(table=WIDE_TABLE))

    def take_over(self, **options: object) -> Primary:
        """A writer in an epoch of its own."""
        made = self.enterContext(Primary.take_over(self.service.connection(), CREDENTIALS, self.service.operator(), **options))  # type: ignore[arg-type]
        return made

    def ten_blocks(self, primary: Primary) -> None:
        for at in range(10):
            primary.append(put(2, b"block %d" % at))
            primary.commit()
        with self.service.reader() as reader:
            Archiver(reader, self.archive).run(follow=False)

    def lose(self, primary: Primary, *, replies_to_writes: bool = False) -> None:
        """A commit whose replies do not come, as those of a service that has stopped; the block is nowhere afterwards."""
        primary.append(put(2, b"the commit in doubt"))
        primary._close_block()
        [sent] = primary._unhardened
        sent.attempts = 1
        if replies_to_writes:
            sent.copies.update({0: primary.connection.connects, 1: primary.connection.connects})

    def restored(self, *, raises: bool) -> None:
        """A new service at the address, filled from the archive."""
        self.service.restart()
        with self.service.primary(
            alone=True
        ) as primary, self.service.reader() as reader, self.service.operator() as operator:
            restore(self.archive, primary, reader, operator=operator if raises else None)

    def test_a_commit_that_is_not_in_the_log_is_not_acknowledged(self) -> None:
        """The new service is in an epoch of the same number, in which another has written at the LSN in doubt."""
        for has_replies in (False, True):
            for has_witness in (False, True):
                with self.subTest(has_replies=has_replies, has_witness=has_witness):
                    self.setUp()
                    old = self.take_over(
                        witness=self.enterContext(self.service.reader()) if has_witness else None
                    )
                    self.ten_blocks(old)
                    self.lose(old, replies_to_writes=has_replies)
                    self.restored(raises=False)
                    new = self.take_over()
                    new.append(put(2, b"of the new writer"))
                    self.assertEqual((new.commit(), new.epoch), (11, old.epoch))
                    for _ in range(2):
                        with self.assertRaises(pagelog.HardenedAlready):
                            old.commit()
                    with self.assertRaises(pagelog.HardenedAlready):
                        list(old.stream([[put(2, b"goes on")]]))
                    self.assertEqual(
                        self.enterContext(self.service.reader()).page(2, 11).data[:6], b"of the"
                    )

    def test_a_report_over_another_connection_says_nothing_of_whose_blocks(self) -> None:
        """The writes were answered, the line was cut, and the report is done of a service that has another's block."""
        old = self.take_over()
        self.ten_blocks(old)
        self.lose(old, replies_to_writes=True)
        self.restored(raises=False)
        new = self.take_over()
        list(new.stream([[put(2, b"of the new writer")]]))
        # What is sent again is the report alone.
        old._requests = lambda groups, plan, ended: (  # type: ignore[method-assign, assignment]
            (
                plan.append(pagelog.in_flight.Step(old._unhardened[0], None)),
                old._request(Report(group[-1].lsn)),
            )[1]
            for group in groups
        )
        with self.assertRaises(pagelog.HardenedAlready):
            old.commit()

    def test_what_is_in_the_log_is_acknowledged_over_another_connection(self) -> None:
        """The same service: the block that the log has is the one that was sent."""
        for records in (
            [put(2, b"mine")],
            [put(7, b"x" * 100), pagelog.Zero(2), put(2, b"y", 9)],
            [],
        ):
            primary = self.take_over()
            primary._prepare()
            list(primary.stream([[put(2, b"before")]]))
            block = Block.of(primary.next_lsn, records)
            with self.service.connection() as other:
                asked = [*(Write(copy, block) for copy in (0, 1)), Report(block.lsn)]
                list(other.exchange(primary._request(act) for act in asked))
            primary._new(block).attempts = 1
            primary.connection.close()
            self.assertEqual(primary.commit(), block.lsn)

    def test_pages_that_may_not_be_read_leave_a_doubt(self) -> None:
        text = '[[row]]\nverdict = "deny"\nrole = "primary"\nop = ["get"]\n'
        with self.service.operator() as operator:
            operator.set_table(WIDE_TABLE.replace("[[row]]", text + "[[row]]", 1))
        old = self.take_over()
        self.ten_blocks(old)
        self.lose(old)
        self.restored(raises=False)
        with self.service.operator() as operator:
            operator.set_table(WIDE_TABLE.replace("[[row]]", text + "[[row]]", 1))
        list(self.take_over().stream([[put(2, b"of the new writer")]]))
        with self.assertRaises(pagelog.InDoubt):
            old.commit()

    def test_a_restore_fences_the_old_writers(self) -> None:
        old = self.take_over()
        self.ten_blocks(old)
        idle = self.take_over(witness=None)
        self.ten_blocks_seen_by_the_archive(idle)
        self.restored(raises=True)
        with self.service.operator() as operator:
            self.assertGreaterEqual(operator.status().epoch, self.archive.epoch + EPOCHS_ABOVE)
            self.assertEqual(operator.status().primary, 2)
        for writer in (old, idle):
            writer._unhardened.clear()
            writer._ended = None
            writer.append(put(2, b"goes on"))
            # Where it had sent the block over the connection that was lost, it cannot know more without a witness.
            with self.assertRaises((pagelog.OlderEpoch, pagelog.InDoubt)):
                writer.commit()
            with self.assertRaises(pagelog.OlderEpoch):
                writer.append(put(2, b"no more"))

    def ten_blocks_seen_by_the_archive(self, writer: Primary) -> None:
        with self.service.reader() as reader:
            Archiver(reader, self.archive).run(follow=False)
        self.assertEqual(self.archive.epoch, writer.epoch)

    def test_a_witness_of_a_shorter_log_says_that_the_block_is_not_there(self) -> None:
        """Three blocks behind the archived ones are lost, and the fourth was in doubt."""
        for witness in (self.enterContext(self.service.reader()), None):
            with self.subTest(witness=witness):
                self.service.restart()
                if witness is not None:
                    witness.forget()
                old = self.take_over(witness=witness)
                list(old.stream([[put(2, b"lost")]] * 3))
                self.lose(old)
                self.service.restart()
                self.service.operator().failover(2)
                self.service.operator().failover(2)
                with self.assertRaises(pagelog.OlderEpoch if witness else pagelog.InDoubt):
                    old.commit()

    def test_the_archive_keeps_an_epoch_without_a_block(self) -> None:
        self.ten_blocks(self.take_over())
        with self.service.reader() as reader:
            archiver = Archiver(reader, self.archive)
            self.service.operator().failover(5)
            self.assertEqual(archiver.step(), [])
            self.assertEqual(self.archive.epoch, 3)
            self.archive.keep([Block.of(11)], 2)
            self.assertEqual(self.archive.epoch, 3)

    def test_a_restore_that_is_run_again_begins_no_more_epochs(self) -> None:
        self.ten_blocks(self.take_over())
        self.restored(raises=True)
        with self.service.operator() as operator:
            epoch = operator.status().epoch
            self.assertEqual(raise_epoch(operator, 2, self.archive.epoch + EPOCHS_ABOVE), epoch)
            self.assertEqual(raise_epoch(operator, 5, 1), epoch + 1)
            self.assertEqual(operator.status().primary, 5)

    def test_a_reader_that_saw_what_is_lost_is_told(self) -> None:
        """LSN 11 is not archived; the restored service has another block there, and one more."""
        writer = self.take_over()
        self.ten_blocks(writer)
        list(writer.stream([[put(2, b"lost")]]))
        for asks in (
            lambda reader: reader.page(2, 11),
            lambda reader: next(reader.blocks(12)),
            lambda reader: reader.pull(12),
            lambda reader: reader.status(),
        ):
            reader = self.enterContext(self.service.reader())
            self.assertEqual(len(list(reader.blocks(1, follow=False))), 11)
            reader.asks = asks  # type: ignore[attr-defined]
            self.readers = [*getattr(self, "readers", []), reader]
        self.restored(raises=True)
        with self.service.primary() as new:
            list(new.stream([[put(2, b"another")], [put(2, b"and more")]]))
        for reader in self.readers:
            for _ in range(2):
                with self.assertRaises(pagelog.LogWentBack):
                    reader.asks(reader)  # type: ignore[attr-defined]
            reader.forget()
            self.assertEqual(reader.page(2, 11).data[:7], b"another")

    def test_a_reader_that_saw_less_goes_on(self) -> None:
        writer = self.take_over()
        self.ten_blocks(writer)
        reader = self.enterContext(self.service.reader())
        self.assertEqual(len(list(reader.blocks(1, follow=False))), 10)
        self.restored(raises=True)
        with self.service.primary() as new:
            list(new.stream([[Put(2, 0, b"more")]]))
        self.assertEqual([block.lsn for block in reader.blocks(11, follow=False)], [11])


if __name__ == "__main__":
    unittest.main()
