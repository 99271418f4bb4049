"""Restore and verify: two services that have one log, LSN for LSN."""

from __future__ import annotations

import contextlib
import io
import os
import pty
import signal
import subprocess
import sys
import tempfile
import time
import unittest
import zlib
from pathlib import Path
from typing import Iterable, Iterator
from unittest import mock

import pagelog
from pagelog import Block, Operation, Put
from pagelog.archive import Archive, DamagedArchive
from pagelog.cli import options
from pagelog.keeping import Archiver, OtherLog, OtherService, all_blocks, restore, verify
from postgres import postgres
from service import PATIENCE, SOURCE, TABLE, Service, all_that_is_drawn, fill, put, token
from test_archive import change, words


class Pair(unittest.TestCase):
    """A source with a log, its archive, and a fresh target."""

    def setUp(self) -> None:
        self.folder = Path(self.enterContext(tempfile.TemporaryDirectory()))
        self.url = f"sqlite:///{self.folder}/archive.db"
        self.source = self.enterContext(Service())
        self.target = self.enterContext(Service())
        self.primary = self.enterContext(self.source.primary())
        self.reader = self.enterContext(self.source.reader())
        self.archive = self.enterContext(Archive(self.url, create=True))

    def archived(self, count: int, *, seed: int = 1) -> None:
        fill(self.primary, count, seed=seed)
        with self.source.reader() as reader:
            Archiver(reader, self.archive).run(follow=False)

    def restore(self, archive: Archive | None = None) -> pagelog.keeping.Verified:
        with self.target.primary(alone=True) as primary, self.target.reader() as reader:
            return restore(archive or self.archive, primary, reader)

    def same_logs(self, count: int) -> None:
        with self.source.reader() as one, self.target.reader() as other:
            self.assertEqual((one.status().hard, other.status().hard), (count, count))
            self.assertEqual(list(all_blocks(one, 1, count)), list(all_blocks(other, 1, count)))


class Restoring(Pair):
    def test_lsn_for_lsn_in_windows(self) -> None:
        self.archived(300)
        done = self.restore()
        self.assertEqual(
            (done.blocks, done.archived, done.hard, done.denied_pages), (300, 300, 300, 0)
        )
        self.assertGreater(done.pages, 40)
        self.same_logs(300)
        with self.target.operator() as operator:
            entries = [
                entry for entry in operator.entries(1) if entry.operation is Operation.REPORT
            ]
        self.assertEqual([entry.a for entry in entries], [64, 128, 192, 256, 300])

    def test_from_postgresql(self) -> None:
        fill(self.primary, 100, seed=5)
        with Archive(postgres().url("restored"), create=True) as archive:
            Archiver(self.reader, archive).run(follow=False)
            self.assertEqual(self.restore(archive).blocks, 100)
        self.same_logs(100)

    def test_of_nothing(self) -> None:
        self.assertEqual(self.restore().blocks, 0)

    def test_what_was_broken_off_goes_on(self) -> None:
        self.archived(200)
        with self.target.primary() as primary, self.target.connection() as connection:
            list(primary.harden(self.archive.blocks(1, 70)))
            # And a part of the next window is in one copy, without a report.
            head = pagelog.request.Head(2, bytes.fromhex(token(2)), pagelog.Role.PRIMARY, 0, 1)
            writes = [
                pagelog.request.Request(head, pagelog.request.Write(0, block))
                for block in self.archive.blocks(71, 90)
            ]
            self.assertEqual(set(connection.exchange(writes)), {pagelog.reply.Done()})
        self.assertEqual(self.restore().blocks, 200)
        self.assertEqual(self.restore().blocks, 200)
        self.same_logs(200)

    def test_a_database_of_sqlite_goes_on_too(self) -> None:
        """What a restore that was broken off has written has an end mark."""
        self.primary.append(put(0, b"plfile01" + (1).to_bytes(8, "big") + bytes(24)))
        self.primary.commit()
        self.archived(3)
        with self.target.primary(alone=True) as primary, self.target.reader() as reader:
            self.assertEqual(restore(self.archive, primary, reader, last=1).hard, 1)
        self.assertEqual(self.restore().hard, 4)
        self.same_logs(4)

    def test_nothing_is_overwritten(self) -> None:
        self.archived(40)
        for count in (3, 60):
            with Service() as other:
                with other.primary() as primary, other.reader() as reader:
                    fill(primary, count, seed=9)
                    with self.assertRaises(OtherLog):
                        restore(self.archive, primary, reader)
                    self.assertEqual(reader.status().hard, count)

    def test_what_a_killed_restore_had_on_its_way_may_come_late(self) -> None:
        """The service goes on with the requests of a restore that was killed, while the next one looks and writes."""
        self.archived(300)
        for name, parts in (("harden", [(1, 70), (71, 130)]), ("status", [(1, 70)])):
            with Service() as fresh, fresh.primary(
                alone=True
            ) as primary, fresh.reader() as reader, fresh.primary() as killed:
                asked = reader if name == "status" else primary
                late = iter(parts)

                def comes_late(*arguments: object, ask: object = getattr(asked, name)) -> object:
                    if lsns := next(late, None):
                        list(killed.harden(self.archive.blocks(*lsns)))
                    return ask(*arguments)  # type: ignore[operator]

                setattr(asked, name, comes_late)
                self.assertEqual(restore(self.archive, primary, reader).blocks, 300)

    def test_a_reader_of_another_service_is_told_before_anything_is_written(self) -> None:
        self.archived(40)
        for count in (0, 3):
            with Service() as other, other.primary(alone=True) as primary, other.reader() as reader:
                fill(primary, count, seed=9)
                with self.assertRaisesRegex(
                    OtherService, f"has {count} blocks in epoch 1, and the reader's 40 in epoch 1"
                ):
                    restore(self.archive, primary, self.reader)
                self.assertEqual(reader.status().hard, count)

    def test_a_table_that_denies_the_comparison_is_told_before_anything_is_written(self) -> None:
        self.archived(40)
        with self.target.operator() as operator:
            operator.set_table(
                TABLE.read_text().replace(
                    "[[row]]", '[[row]]\nverdict = "deny"\nwho = 3\nop = ["pull"]\n[[row]]', 1
                )
            )
        with self.assertRaises(pagelog.rules.TableRow):
            self.restore()
        with self.target.reader() as reader:
            self.assertEqual(reader.status().hard, 0)

    def test_a_broken_archive_is_not_restored(self) -> None:
        self.archived(100)
        change(self.archive, "DELETE FROM pagelog_block WHERE lsn = 77")
        with self.assertRaises(DamagedArchive):
            self.restore()
        with self.target.reader() as reader:
            self.assertEqual(reader.status().hard, 0)

    def test_while_the_archive_grows(self) -> None:
        self.archived(40)
        with self.target.primary(alone=True) as primary, self.target.reader() as reader:
            harden = primary.harden

            def archives_more(blocks: Iterable[Block]) -> Iterator[int]:
                yield from harden(blocks)
                self.archived(10, seed=4)

            primary.harden = archives_more  # type: ignore[method-assign, assignment]
            done = restore(self.archive, primary, reader)
        self.assertEqual((done.blocks, done.hard, self.archive.archived), (40, 40, 50))

    def test_a_loss_of_the_service_is_no_loss_of_what_was_archived(self) -> None:
        self.archived(120)
        before = list(self.archive.blocks())
        fill(self.primary, 5, seed=8)
        self.source.restart()
        with self.source.primary(alone=True) as primary, self.source.reader() as reader:
            self.assertEqual(reader.status().hard, 0)
            restore(self.archive, primary, reader)
            self.assertEqual(list(all_blocks(reader, 1, 120)), before)
            fill(primary, 10, seed=3)
            Archiver(reader, self.archive).run(follow=False)
        self.assertEqual((self.archive.archived, self.archive.check().blocks), (130, 130))

    def test_a_table_that_denies_pages_is_told(self) -> None:
        list(
            self.primary.stream(
                [[Put(7 * 65536 + at, 0, b"x"), Put(at, 0, b"y")] for at in range(10)]
            )
        )
        with self.source.reader() as reader:
            Archiver(reader, self.archive).run(follow=False)
        done = self.restore()
        self.assertEqual((done.pages, done.denied_pages), (15, 15))


class Verifying(Pair):
    def damage(self, lsn: int, records: list[Put]) -> None:
        """The archive gets another block at this LSN, as sound as the one before."""
        data = Block.of(lsn, records).data
        change(
            self.archive,
            "UPDATE pagelog_block SET data = %(data)s, crc = %(crc)s WHERE lsn = %(lsn)s",
            lsn=lsn,
            data=data,
            crc=zlib.crc32(data),
        )

    def test_alike(self) -> None:
        self.archived(80)
        fill(self.primary, 7, seed=6)
        with self.source.reader() as reader:
            done = verify(self.archive, reader)
        self.assertEqual((done.blocks, done.archived, done.hard), (80, 80, 87))

    def test_while_the_archive_grows(self) -> None:
        self.archived(30)
        with self.source.reader() as reader:
            status = reader.status

            def archives_more() -> pagelog.State:
                state = status()
                self.archived(10, seed=4)
                return state

            reader.status = archives_more  # type: ignore[method-assign]
            done = verify(self.archive, reader)
        self.assertEqual((done.blocks, done.hard, self.archive.archived), (30, 30, 40))

    def test_each_block_is_compared(self) -> None:
        self.archived(40)
        good = {block.lsn: block for block in self.archive.blocks()}
        for lsn in (1, 17, 40):
            self.damage(lsn, [put(39, b"another")])
            with self.assertRaises(OtherLog) as raised, self.source.reader() as reader:
                verify(self.archive, reader)
            self.assertEqual(raised.exception.lsn, lsn)
            self.damage(lsn, list(good[lsn].records))  # type: ignore[arg-type]

    def test_pages_are_compared(self) -> None:
        """A replay that is wrong is noticed: the sampled pages of the service are those of the log."""
        self.archived(40)
        taken = pagelog.comparing.SampleReplay.take

        def skips_some(replay: object, block: Block) -> None:
            if block.lsn % 3:
                taken(replay, block)  # type: ignore[arg-type]

        pagelog.comparing.SampleReplay.take = skips_some  # type: ignore[method-assign, assignment]
        self.addCleanup(setattr, pagelog.comparing.SampleReplay, "take", taken)
        with self.assertRaisesRegex(OtherLog, "page"), self.source.reader() as reader:
            verify(self.archive, reader, seed=1)

    def test_a_page_that_is_not_answered_is_not_denied(self) -> None:
        """Only a row of the table says that a page may not be read."""
        self.archived(40)
        for reply, error in (
            (pagelog.reply.NoMemory(), pagelog.OutOfMemory),
            (pagelog.reply.AuditFull(), pagelog.AuditListFull),
        ):
            with self.source.reader() as reader, self.assertRaises(error):
                reader.answers = lambda acts, reply=reply: [reply for _ in acts]  # type: ignore[method-assign, misc]
                verify(self.archive, reader)

    def test_a_service_with_less(self) -> None:
        self.archived(40)
        with self.assertRaises(pagelog.LogWentBack), self.target.reader() as reader:
            verify(self.archive, reader)

    def test_the_sample_is_replayed_from_the_first_record(self) -> None:
        replay = pagelog.comparing.SampleReplay(seed=12345, count=8)
        plain: dict[int, bytearray] = {}
        for lsn in range(1, 300):
            records = [
                Put(lsn * 7 % 100, lsn % 9, bytes([lsn % 256]) * 3),
                Put(lsn * 13 % 31, 0, b"z"),
            ]
            records += [pagelog.Zero(lsn * 3 % 100)] if lsn % 5 == 0 else []  # type: ignore[list-item]
            block = Block.of(lsn, records)
            replay.take(block)
            for record in block.records:
                page = plain.setdefault(record.page, bytearray(8192))
                if isinstance(record, Put):
                    page[record.offset : record.offset + len(record.data)] = record.data
                else:
                    page[:] = bytes(8192)
        self.assertEqual(len(replay.pages), 8)
        self.assertEqual(replay.pages, {number: plain[number] for number in replay.pages})


class Words(Pair):
    def test_restore_and_verify(self) -> None:
        self.archived(70)
        here, there = self.source.credentials_file(), self.target.credentials_file()
        cases = [
            (("verify", "--credentials", here), 0, "verified 70 of 70: 70 blocks and "),
            (
                ("verify", "--credentials", there),
                1,
                "LogWentBack: the service has 0 blocks, and 70 are archived",
            ),
            (("restore", "--credentials", there), 0, "restored 70: 70 blocks and "),
            (("verify", "--credentials", there), 0, "verified 70 of 70: 70 blocks and "),
            (("verify", "--offline"), 0, "sound: 70 blocks, "),
            (
                ("restore", "--credentials", there, "--db", "5"),
                1,
                "NoArchive: the archive has no log '5': it has '0'",
            ),
            (("restore", "--credentials", there, "--db", "5", "--log", "0"), 1, "UnknownDatabase"),
        ]
        for arguments, status, text in cases:
            process = words(*arguments, "--url", self.url)
            out, error = process.communicate(timeout=PATIENCE)
            self.assertEqual(process.returncode, status, (arguments, out, error))
            self.assertIn(text, error if status else out, arguments)
            self.assertEqual(out if status else error, "", arguments)

    def test_sections_of_two_services_are_refused(self) -> None:
        """[secondary] is left from the file of the source, which has the archive's log: it is not what is filled."""
        self.archived(70)
        old, new = self.source.credentials_file(name="old.toml"), self.target.credentials_file(
            secondary=self.source.address
        )
        cases = [
            (
                ("restore", "--credentials", new),
                f"[primary] is at {self.target.address} and [secondary] at {self.source.address}: ",
            ),
            (
                ("move", "--from", old, "--to", new, "--table", TABLE),
                f"[primary] is at {self.target.address} and [secondary] at {self.source.address}: ",
            ),
            (
                ("move", "--from", new, "--to", old, "--table", TABLE),
                f"[secondary] is at {self.source.address} and [operator] at {self.target.address}: ",
            ),
        ]
        for arguments, text in cases:
            process = words(*arguments, "--url", self.url)
            out, error = process.communicate(timeout=PATIENCE)
            self.assertEqual((process.returncode, out), (1, ""), arguments)
            self.assertIn(text, error, arguments)
        with self.target.reader() as reader:
            self.assertEqual((reader.status().hard, self.reader.status().epoch), (0, 1))

    def test_a_progress_bar_on_a_terminal(self) -> None:
        self.archived(300)
        main, other = pty.openpty()
        command = [
            sys.executable,
            "-B",
            "-m",
            "pagelog",
            "restore",
            "--url",
            self.url,
            "--credentials",
            str(self.target.credentials_file()),
        ]
        environment = {**os.environ, "PYTHONPATH": str(SOURCE), "TERM": "xterm"}
        process = subprocess.Popen(
            command, stdout=subprocess.PIPE, stderr=other, text=True, env=environment
        )
        os.close(other)
        drawn = all_that_is_drawn(main)
        out, _ = process.communicate()
        self.assertEqual(process.returncode, 0)
        self.assertRegex(drawn, r"restored .*/300")
        self.assertRegex(out, r"^restored 300: 300 blocks and \d+ pages are alike\n$")

    def test_a_line_each_minute_where_there_is_no_terminal(self) -> None:
        seconds, said = [0.0], io.StringIO()
        with mock.patch.object(
            options.time, "monotonic", lambda: seconds[0]
        ), contextlib.redirect_stderr(said):
            with options.bar("restored") as told:
                for step in (100, 200):
                    for done in range(step):
                        seconds[0] += 1.0
                        told(done + 1, step)
        lines = said.getvalue().splitlines()
        self.assertEqual(lines[0], "pagelogctl: restored 60 of 100, 40 s left")
        self.assertEqual(lines[1], "pagelogctl: restored 20 of 200, 2.9 min left")
        self.assertEqual(len(lines), 5)

    def test_a_restore_that_is_killed_goes_on(self) -> None:
        self.archived(400)
        file = self.target.credentials_file()
        with self.target.reader() as reader:
            for _ in range(2):
                process = words("restore", "--credentials", file, "--url", self.url)
                before = reader.status().hard
                while reader.status().hard == before and process.poll() is None:
                    time.sleep(0.01)
                process.send_signal(signal.SIGKILL)
                process.communicate()
            process = words("restore", "--credentials", file, "--url", self.url)
            out, error = process.communicate(timeout=PATIENCE)
            self.assertEqual((process.returncode, error), (0, ""))
        self.same_logs(400)

    def test_an_archive_of_another_format_is_refused(self) -> None:
        change(self.archive, "UPDATE pagelog_log SET format = 2")
        process = words("verify", "--offline", "--url", self.url)
        _, error = process.communicate(timeout=PATIENCE)
        self.assertEqual((process.returncode, "format 2" in error), (1, True))


if __name__ == "__main__":
    unittest.main()
