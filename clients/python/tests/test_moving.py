"""Moves: a database goes to another service while a writer goes on."""

from __future__ import annotations

import dataclasses
import threading
import time
import unittest
from unittest.mock import patch

import pagelog
from pagelog import Block, Put
from pagelog.archive import Archive
from pagelog.comparing import no_progress
from pagelog.cli.move_words import _run
from pagelog.keeping import Archiver, Move, NoRoom, NotFenced, OtherLog, SameDatabase, all_blocks
from pagelog.moving import is_same_database
from pagelog.tables import TableText
from service import PATIENCE, TABLE, Service, fill, put, token
from test_archive import words
from test_restore import Pair


class Movers(Pair):
    def mover(self, *, knows_target: bool = False, **options: object) -> Move:
        """A move from the source to the target, which has the target's operator where it is to know that."""
        archiver = Archiver(self.enterContext(self.source.reader()), self.archive)
        operator, target = self.enterContext(self.source.operator()), self.enterContext(
            self.target.primary(alone=True)
        )
        check = self.enterContext(self.target.reader())
        options |= {"target": self.enterContext(self.target.operator())} if knows_target else {}
        return Move(archiver, operator, target, check, 1, **options)  # type: ignore[arg-type]

    def target_takes_a_write(self, lsn: int) -> None:
        with self.target.primary() as primary:
            primary.append(put(1, b"on"))
            self.assertEqual(primary.commit(), lsn)


class Moving(Movers):
    def write_until_denied(self, ended: list[object], pause: float = 0.0) -> None:
        try:
            with self.source.primary() as primary:
                while True:
                    primary.append(put(1, b"while it moves"))
                    ended[:] = [primary.commit()]
                    time.sleep(pause)
        except pagelog.PagelogError as error:
            ended.append(error)

    def test_with_a_writer_that_goes_on(self) -> None:
        fill(self.primary, 200)
        ended: list[object] = []
        writer = threading.Thread(target=self.write_until_denied, args=(ended, 0.002))
        writer.start()
        while (
            not ended
        ):  # where it has committed nothing before the fence, it never is denied as this epoch's primary
            time.sleep(0.002)
        done = self.mover().run()
        writer.join(PATIENCE)
        last, error = ended
        self.assertIsInstance(error, pagelog.OlderEpoch)
        # All that was acknowledged is in the target; the one in flight may be.
        self.assertIn(done.hard, (last, last + 1))  # type: ignore[operator]
        self.assertGreaterEqual(done.behind, 0)
        self.assertEqual(done.epoch, 2)
        self.same_logs(done.hard)
        self.assertEqual(self.archive.archived, done.hard)
        with self.source.operator() as operator:
            self.assertEqual((operator.status().epoch, operator.status().primary), (2, 1))
        self.target_takes_a_write(done.hard + 1)

    def test_to_another_number_of_the_same_service(self) -> None:
        with Service(dbs=2) as service:
            with service.primary() as primary:
                fill(primary, 50)
            done = self.words_move(service, service, to_db=1)
            self.assertRegex(
                done,
                r"^moved 50 blocks, alike in both; the source is fenced in epoch 2, 0 blocks before its end; ",
            )
            with service.reader(db=1) as reader, service.reader() as source:
                self.assertEqual(list(all_blocks(reader, 1, 50)), list(all_blocks(source, 1, 50)))

    def words_move(self, source: Service, target: Service, *, to_db: int = 0) -> str:
        old, new = source.credentials_file(name="old.toml"), target.credentials_file(
            name="new.toml"
        )
        process = words(
            "move",
            "--from",
            old,
            "--to",
            new,
            "--to-db",
            to_db,
            "--table",
            source.table,
            "--url",
            self.url,
        )
        out, error = process.communicate(timeout=PATIENCE)
        self.assertEqual((process.returncode, error), (0, ""))
        return out

    def test_before_the_audit_list_is_full(self) -> None:
        """A small audit list fills while a writer goes on; the move is done before, and the writer goes on elsewhere."""
        with Service(audit=30000) as small:
            self.source = small
            ended: list[object] = []
            writer = threading.Thread(target=self.write_until_denied, args=(ended, 0.005))
            writer.start()
            with small.operator() as operator:
                while operator.status().hard < 300:
                    time.sleep(0.05)
                done = self.mover().run()
                writer.join(PATIENCE)
                used = operator.count_of_entries()
            self.assertLess(used, 30000)
            # Each of 300 blocks at least had three requests, and the move had some.
            self.assertGreater(used, 900)
            self.assertIsInstance(ended[1], pagelog.OlderEpoch)
            self.same_logs(done.hard)
            self.target_takes_a_write(done.hard + 1)

    def test_where_the_audit_list_is_full_already_the_archive_is_left(self) -> None:
        with Service(audit=400) as small:
            with small.primary() as primary:
                fill(primary, 60)
            with small.reader() as reader:
                Archiver(reader, self.archive).run(follow=False)
                with self.assertRaises(pagelog.AuditListFull):
                    while True:
                        reader.status()
            self.source = small
            with self.assertRaises(pagelog.AuditListFull):
                self.mover().run()
            self.assertEqual(self.restore().blocks, 60)

    def test_a_source_that_is_never_near_is_not_fenced(self) -> None:
        fill(self.primary, 10)
        move = self.mover(within=-1, patience=0.2)
        with self.assertRaises(NotFenced):
            move.run()
        self.assertEqual(self.reader.status().epoch, 1)
        move.within = 64
        self.assertEqual(move.run().hard, 10)

    def test_a_target_that_is_not_fresh_is_refused_before_the_fence(self) -> None:
        fill(self.primary, 10)
        with self.target.primary() as primary:
            fill(primary, 2, seed=77)
        with self.assertRaises(OtherLog):
            self.mover().run()
        self.assertEqual(self.reader.status().epoch, 1)

    def test_a_target_that_is_not_to_be_read_is_refused_before_the_fence(self) -> None:
        fill(self.primary, 10)
        move = self.mover()
        move.reader = self.enterContext(pagelog.Reader.at(self.target.address, 3, token(9)))
        with self.assertRaises(pagelog.rules.UnknownPrincipal):
            move.run()
        self.assertEqual(self.reader.status().epoch, 1)

    def test_a_failover_after_the_fence_is_told(self) -> None:
        """A writer takes the source over while the logs are compared, and what it writes is not in the target."""
        fill(self.primary, 10)
        move = self.mover()
        check = move._check

        def a_writer_comes(compared: int, told: pagelog.keeping.Progress) -> int:
            hard = check(compared, told)
            with self.source.operator() as operator:
                writer = pagelog.Primary.take_over(
                    self.source.connection(), pagelog.Credentials.of(2, token(2)), operator
                )
            list(writer.stream([[put(1, b"after the fence")]]))
            writer.close()
            return hard

        move._check = a_writer_comes  # type: ignore[method-assign]
        with self.assertRaisesRegex(NotFenced, "epoch 3, with primary 2"):
            move.run()
        move._check = check  # type: ignore[method-assign]
        self.assertEqual(self.mover().run().hard, 11)
        self.same_logs(11)

    def test_a_fence_of_another_service_is_told(self) -> None:
        """The operator's address is that of another, which is fenced, and the source's writer goes on."""
        fill(self.primary, 10)
        with Service() as other, other.primary() as primary:
            fill(primary, 10)
            for service, error in ((other, NotFenced), (self.target, pagelog.OlderEpoch)):
                move = self.mover()
                move.operator = self.enterContext(service.operator())
                with self.assertRaises(error):
                    move.run()

    def test_a_source_that_is_the_target_is_told(self) -> None:
        fill(self.primary, 10)
        self.target = self.source
        with self.assertRaises(pagelog.OlderEpoch):
            self.mover().run()

    def write_without_report(self, block: Block) -> None:
        head = pagelog.request.Head(2, bytes.fromhex(token(2)), pagelog.Role.PRIMARY, 0, 1)
        with self.source.connection() as connection:
            list(
                connection.exchange(
                    [
                        pagelog.request.Request(head, pagelog.request.Write(copy, block))
                        for copy in (0, 1)
                    ]
                )
            )

    def test_what_the_fence_hardens_is_counted(self) -> None:
        fill(self.primary, 10)
        for lsn in (11, 12):
            self.write_without_report(Block.of(lsn, [put(1, b"x")]))
        done = self.mover().run()
        self.assertEqual((done.hard, done.behind), (12, 2))
        self.same_logs(12)

    def test_an_end_after_the_fence_is_told(self) -> None:
        """The source's last block is of a partition that the target's table denies."""
        fill(self.primary, 10, empties=False)
        old, new = self.source.credentials_file(name="old.toml"), self.target.credentials_file(
            name="new.toml"
        )
        self.write_without_report(Block.of(11, [Put(7 * 65536, 0, b"hardened by the fence")]))
        with self.target.operator() as operator:
            denies = '[[row]]\nverdict = "deny"\nwho = 2\nop = ["write"]\nfrom = 7\nto = 7\n'
            operator.set_table(TABLE.read_text().replace("[[row]]", denies + "[[row]]", 1))
        process = words("move", "--from", old, "--to", new, "--table", TABLE, "--url", self.url)
        _, error = process.communicate(timeout=PATIENCE)
        self.assertEqual(process.returncode, 1)
        self.assertIn(
            "the source was fenced in epoch 2, and the move is not done: run it again", error
        )

    def test_an_end_amid_the_fence_is_told(self) -> None:
        """Its table is in place, and no reply comes to its failover: nobody may write at the source, and nobody would know why."""
        fill(self.primary, 10)
        move = self.mover(table=TableText.read(TABLE))
        for error in (pagelog.InDoubt("the reply was lost"), KeyboardInterrupt()):
            with patch.object(move.operator, "failover", side_effect=error), patch(
                "click.echo"
            ) as said, self.assertRaises(type(error)):
                _run(move, no_progress)
            self.assertIn(
                "the source may be fenced, and the move is not done: run it again",
                str(said.call_args),
            )
            with self.assertRaises(pagelog.Denial):
                fill(self.primary, 1)
        self.assertEqual(_run(move, no_progress).hard, 10)

    def test_an_end_amid_an_earlier_fence_is_told(self) -> None:
        fill(self.primary, 10)
        move = self.mover(table=TableText.read(TABLE), source_limit=100)
        with patch(
            "pagelog.fencing.fence_for_archiver", side_effect=pagelog.InDoubt("the reply was lost")
        ), patch("click.echo") as said:
            self.assertRaises(pagelog.InDoubt, _run, move, no_progress)
        self.assertIn("the source may be fenced", str(said.call_args))

    def test_the_check_finds_a_difference(self) -> None:
        fill(self.primary, 30)
        move = self.mover()
        move.run()
        with self.target.primary() as primary:
            primary.append(put(0, b"more"))
            primary.commit()
        with self.assertRaises(OtherLog):
            move._check(0, lambda _, __: None)


class Rooms(Movers):
    """What a move finds out before it changes anything, and what it does while it goes on."""

    def mover(self, **options: object) -> Move:  # type: ignore[override]
        return super().mover(knows_target=True, **options)

    def test_a_target_without_room_for_the_entries_is_refused_before_the_fence(self) -> None:
        fill(self.primary, 300)
        with self.assertRaisesRegex(
            NoRoom, "takes 600 entries and has .*: the source was not fenced"
        ):
            self.mover(limit=600).run()
        with self.target.reader() as reader:
            self.assertEqual((self.reader.status().epoch, reader.status().hard), (1, 0))
        self.assertEqual(self.mover(limit=2000).run().hard, 300)

    def test_a_target_without_room_in_memory_is_refused_before_the_fence(self) -> None:
        fill(self.primary, 30)
        with self.assertRaisesRegex(NoRoom, "may take 10000 bytes of memory, and 30 blocks"):
            self.mover(memory=10_000).run()
        self.assertEqual(self.reader.status().epoch, 1)

    def test_one_database_at_two_addresses_is_known(self) -> None:
        fill(self.primary, 10)
        self.target = self.source
        move = self.mover()
        move.target = pagelog.Operator.at(
            self.source.address.replace("127.0.0.1", "localhost"), 1, token(1)
        )
        self.addCleanup(move.target.close)
        with self.assertRaises(SameDatabase):
            move.run()
        self.assertEqual(self.reader.status().epoch, 1)
        with Service(dbs=2) as service:
            self.assertFalse(is_same_database(service.operator(), service.operator(db=1)))

    def test_a_fence_by_a_table_holds_against_a_writer_that_takes_over(self) -> None:
        """It takes the epoch, and is denied its write. Readers go on."""
        fill(self.primary, 50)
        move = self.mover(table=TableText.read(TABLE))
        self.assertEqual(move.run().hard, 50)
        with self.source.operator() as operator:
            writer = pagelog.Primary.take_over(
                self.source.connection(), pagelog.Credentials.of(2, token(2)), operator
            )
            writer.append(put(1, b"after the fence"))
            with self.assertRaises(pagelog.TableRow):
                writer.commit()
        self.assertEqual(self.reader.status().hard, 50)
        self.assertEqual(
            len(list(self.reader.blocks(1, follow=False))),
            len(list(self.target.reader().blocks(1, follow=False))),
        )
        self.same_logs(50)

    def test_the_target_is_in_an_epoch_above_the_source(self) -> None:
        for _ in range(3):
            self.source.operator().failover(2)
        with self.source.primary() as primary:
            fill(primary, 20)
        done = self.mover().run()
        self.assertGreater(self.target.operator().status().epoch, done.epoch)
        with self.target.primary(epoch=done.epoch) as old, self.assertRaises(pagelog.OlderEpoch):
            old.begin()

    def test_what_is_committed_while_it_fills_is_archived_before_it_ends(self) -> None:
        """After each group that the target gets, all that the source has hardened by then is archived."""
        fill(self.primary, 700)
        move, lags = self.mover(), []
        step = move.archiver.step

        def commit_and_step() -> list[Block]:
            if len(lags) < 40 and not move.fenced:
                fill(self.primary, 3, seed=len(lags))
            return step()

        archive = move._archive

        def archive_and_look() -> None:
            archive()
            lags.append(self.primary.durable - self.archive.archived)

        move.archiver.step = commit_and_step  # type: ignore[method-assign]
        move._archive = archive_and_look  # type: ignore[method-assign]
        done = move.run()
        self.assertGreater(len(lags), 15)
        self.assertEqual(max(lags), 0)
        self.same_logs(done.hard)

    def test_the_comparison_comes_before_the_fence(self) -> None:
        """What is compared after it is what came since, and the pause counts it."""
        fill(self.primary, 400)
        move, compared = self.mover(), []
        compare = move._compare

        def note(first: int, last: int, told: pagelog.keeping.Progress) -> int:
            compared.append((first, last, move.fenced))
            if move.fenced is not None:
                time.sleep(0.05)
            return compare(first, last, told)

        move._compare = note  # type: ignore[method-assign]
        done = move.run()
        self.assertEqual(compared, [(1, 400, None), (401, 400, done.epoch)])
        self.assertGreaterEqual(done.pause, 0.05)
        self.assertEqual(dataclasses.asdict(done).keys(), {"hard", "behind", "epoch", "pause"})

    def test_a_source_whose_list_would_fill_is_fenced_earlier(self) -> None:
        """Nothing that was acknowledged is lost, though the list is too short for the writer."""
        with Service(audit=3200) as small:
            self.source = small
            with small.primary() as primary:
                fill(primary, 500)
                move = self.mover(table=TableText.read(TABLE), source_limit=3200)
                step = move.archiver.step

                def commit_and_step() -> list[Block]:
                    if move.fenced is None:
                        try:
                            list(primary.stream([[put(1, b"x")] for _ in range(100)]))
                        except pagelog.PagelogError:
                            pass
                    return step()

                move.archiver.step = commit_and_step  # type: ignore[method-assign]
                done = move.run()
                self.assertGreaterEqual(done.hard, primary.durable)
            self.assertEqual(self.archive.archived, done.hard)
            with Archive(self.url) as archive:
                self.assertEqual(
                    list(archive.blocks()), list(all_blocks(self.target.reader(), 1, done.hard))
                )


if __name__ == "__main__":
    unittest.main()
