"""Trails that keepers keep: each generation's audit list, as far as it was seen, decided again by the rules."""

from __future__ import annotations

import hashlib
import json
import os
import signal
import zlib
from concurrent.futures import ThreadPoolExecutor
from dataclasses import replace
from types import SimpleNamespace

import psycopg
from click.testing import CliRunner

from keepers import Gate, Trigger, batch_of, eventually, new_database
from keepers import Kept as KeptService
from pagelog import Block
from pagelog.cli.words import pagelogctl
from pagelog.referee.bases import Bases, make_base
from pagelog.referee.fate import Of
from pagelog.keeper.recorder import Recorder, Trails
from pagelog.referee.rows import Batch, Kept, Lines, Row
from pagelog.keeper.switch import Switch, number, release, succeed
from pagelog.reply import LINE_SIZE
from pagelog.trail import OtherKeeper, Trail, TrailKeeper
from pagelog.trail.replay import lines_of
from pagelog.trail.store import piece_behind
from pagelog_model import wire
from pagelog_model.rules import ALLOWED
from service import TABLE, put, token
from test_at_rest import Listed
from test_referee import Referees


class Trailed(KeptService):
    options = {"more": "trail = 3\n"}

    def lists(self) -> list[tuple[int, str | None]]:
        """The generation of each list, and why it ended."""
        with Trail(self.keeping.url, "shop", create=True) as trail:
            return [(one.generation, one.ended) for one in trail.lists()]

    def replay(self, run: int | None = None) -> str:
        return self.keeping.word("replay", "shop", *([] if run is None else ["--list", run]))

    def refused(self, run: int) -> str:
        """What is said of a list that is not decided likewise."""
        done = CliRunner().invoke(
            pagelogctl,
            ["replay", "shop", "--list", str(run), "--credentials", str(self.keeping.file)],
        )
        self.assertEqual(done.exit_code, 1, done.output)
        return done.output

    def run_sql(self, statement: str, *values: object) -> None:
        with psycopg.connect(self.keeping.url) as session:
            self.assertEqual(session.execute(statement, values).rowcount, 1)

    def store_block(self, data: bytes) -> None:
        """Puts this block into the archive, with its checksum."""
        self.run_sql(
            "UPDATE pagelog_block SET data = %s, crc = %s WHERE log = %s AND lsn = %s",
            data,
            zlib.crc32(data),
            self.keeping.row().id,
            int.from_bytes(data[:8], "big"),
        )

    def replayed(self) -> list[str]:
        return [line for line in self.replay().splitlines() if line.startswith("list")]

    def last_reported(self) -> int:
        """Up to which LSN blocks are hardened by the last list."""
        with Trail(self.keeping.url, "shop", create=True) as trail:
            [*_, one] = [None, *trail.lists()]
            if one is None or one.generation != self.keeping.row().generation:
                return 0
            return max(
                (
                    line.a
                    for line in lines_of(trail, one)
                    if line.op == wire.REPORT and line.verdict == ALLOWED
                ),
                default=0,
            )

    def check_durable_has_lines(self) -> None:
        """The last list has the line by which the last archived block was hardened, as PostgreSQL has both now."""
        row = self.keeping.row()
        self.assertGreaterEqual(self.last_reported(), row.archived - row.shift)


class Statement(Referees):
    """Blocks and the lines that speak of them, in one statement."""

    def batch(self, run: str, row: Row, trail: Trail, count: int) -> Batch:
        """Some blocks of a run, and so many lines behind those of the last list."""
        kept = self.referee.kept(row.id, run)
        assert kept is not None
        one = trail.lists()[-1]
        lines = b"".join(
            number.to_bytes(8, "big") + os.urandom(LINE_SIZE - 8)
            for number in range(one.kept + 1, one.kept + count + 1)
        )
        return replace(batch_of(row, kept, run), lines=Lines(*piece_behind(one, lines, 5)))

    def test_lines_are_kept_with_their_blocks_or_not_at_all(self) -> None:
        self.taken()
        other = new_database(self.referee, "other")
        self.referee.take(other, "r1")
        with Trail(self.url, self.row.name, create=True) as trail, Trail(
            self.url, "other", create=True
        ) as second:
            one, two = trail.begin(generation=1, of=f"{self.row.identity}/r1"), second.begin(
                generation=1, of=f"{other.identity}/r1"
            )
            good = self.batch("r1", self.row, trail, 3)
            assert good.lines is not None
            for wrong in (
                replace(good, run="r2"),
                replace(good, generation=9),
                replace(good, old=1),
            ):
                self.assertEqual(self.referee.keep([wrong]), frozenset())
                self.assertEqual(trail.lists(), [one])
            both = [
                good,
                replace(
                    batch_of(other, Kept(0, b"", 1), "r1"),
                    lines=self.batch("r1", other, second, 400).lines,
                ),
            ]
            self.assertEqual(self.referee.keep(both), {self.row.id, other.id})
            for batch, log in zip(both, (trail, second)):
                assert batch.lines is not None
                self.assertEqual(log.lists(), [batch.lines.one])
                [piece] = log.pieces(batch.lines.one)  # each is checked
                self.assertEqual(
                    (piece.first, piece.seen, piece.count), (1, 5, batch.lines.values["count"])
                )
            # Blocks wait for no trail: lines that come behind others than the list has, and a list that has ended.
            stale = replace(self.batch("r1", self.row, trail, 3), lines=good.lines)
            self.assertEqual(self.referee.keep([stale]), {self.row.id})
            late = self.batch("r1", self.row, trail, 3)
            second.end(second.lists()[-1], "it was enough", 6)
            trail.end(trail.lists()[-1], "it was enough", 6)
            self.assertEqual(self.referee.keep([late]), {self.row.id})
            self.assertEqual((trail.lists()[-1].kept, two.kept), (3, 0))

    def test_lines_of_a_run_come_into_no_list_of_another(self) -> None:
        """PostgreSQL went back, and has given the number of the list's row to another one."""
        self.taken()
        other = new_database(self.referee, "other")
        self.referee.take(other, "r1")
        with Trail(self.url, self.row.name, create=True) as trail, Trail(
            self.url, "other", create=True
        ) as second:
            second.begin(generation=1, of=f"{other.identity}/r1")
            lines = self.batch("r1", other, second, 3).lines
            assert lines is not None
            for of in (f"{self.row.identity}/r1", f"{other.identity}/r2", None):
                kept = self.referee.kept(self.row.id, "r1")
                assert kept is not None
                lost = replace(lines.one, of=of, kept=0)
                self.assertEqual(
                    self.referee.keep(
                        [replace(batch_of(self.row, kept, "r1"), lines=Lines(lines.values, lost))]
                    ),
                    {self.row.id},
                )
                self.assertRaises(OtherKeeper, second.keep, lost, b"x" * LINE_SIZE, 5)
                second.end(lost, "it is over", 6)
            [found] = second.lists()
            self.assertEqual((found.kept, found.ended), (0, None))

    def test_the_last_blocks_of_a_generation_bring_their_lines(self) -> None:
        with Trail(self.url, self.row.name, create=True) as trail:
            for run, end in (("r1", self.succeeded), ("r2", self.released)):
                if run == "r1":
                    self.taken(run)
                trail.begin(generation=self.seen().generation, of=f"{self.row.identity}/{run}")
                last = self.batch(run, self.seen(), trail, 3)
                assert last.lines is not None
                for wrong in (
                    replace(last, run="r9"),
                    replace(last, generation=9),
                    replace(last, old=99),
                ):
                    self.assertFalse(end(wrong))
                    self.assertEqual((trail.lists()[-1].kept, self.seen().archived), (0, last.old))
                self.assertTrue(end(last))
                self.assertEqual(
                    (trail.lists()[-1], self.seen().archived), (last.lines.one, last.new)
                )
                [piece] = trail.pieces(last.lines.one)
                self.assertEqual((piece.first, piece.count), (1, 3))
                trail.end(trail.lists()[-1], "it was enough", 6)

    def test_a_recorder_leaves_a_name_that_was_given_again(self) -> None:
        """Its database was dropped while it stood still, in doubt about its list, and another one of the name has begun."""
        trails = Trails(self.url, 3, 9.0)
        self.addCleanup(trails.close)
        self.taken("r1")
        self.assertIsNotNone(self.referee.release(self.row.id, "r1"))
        old = self.recorder(trails, "r2")
        self.assertTrue(old._keep())
        assert old._keeper is not None
        old._keeper.resume()
        self.assertTrue(self.referee.drop("shop"))
        self.row = new_database(self.referee, "shop")
        new = self.recorder(trails, "r3")
        self.assertTrue(new._keep())
        self.assertFalse(old._keep())
        old._tried(lambda: old._opened().end("it is over"))
        self.assertTrue(new._keep())
        with Trail(self.url, "shop") as trail, Trail(
            self.url, f"shop!{self.row.id - 1}"
        ) as dropped:
            self.assertEqual(
                [(one.generation, one.ended) for one in trail.lists()],
                [(self.seen().generation, None)],
            )
            self.assertEqual([one.generation for one in dropped.lists()], [2])
        self.assertRegex(self.said[-1], "generation 2 of shop is not that of run r2")

    def test_a_list_under_the_name_of_another_database_is_not_read_as_its_own(self) -> None:
        """It was begun as its database was dropped."""
        self.assertTrue(self.referee.drop("shop"))
        row = new_database(self.referee, "shop")
        with Trail(self.url, "shop", create=True, database=self.row.identity) as late:
            one = late.keep(
                late.begin(generation=1, of=f"{self.row.identity}/r1"), b"x" * LINE_SIZE, 5
            )
        with Trail(self.url, "shop", create=True) as trail:
            self.assertEqual(trail.lists(), [])
            two = trail.begin(generation=1, of=f"{row.identity}/r2")
            self.assertEqual(trail.lists(), [two])
        with Trail(self.url, f"shop!{self.row.id}") as dropped, Trail(self.url, "shop") as trail:
            self.assertEqual((dropped.lists(), trail.lists()), ([one], [two]))

    def test_a_list_of_another_run_of_the_number_is_not_its_own(self) -> None:
        self.taken("r1")
        with Trail(self.url, "shop", create=True) as trail:
            TrailKeeper(Listed(), trail, generation=1, of=f"{self.row.identity}/r1").step()  # type: ignore[arg-type]
            other = TrailKeeper(Listed(), trail, generation=1, of=f"{self.row.identity}/r2")  # type: ignore[arg-type]
            self.assertRaisesRegex(OtherKeeper, "generation 1 has a list by now", other.step)
            [one] = trail.lists()
            self.assertEqual((one.of, one.ended), (f"{self.row.identity}/r1", None))

    def test_a_list_of_an_older_keeper_is_gone_on_with(self) -> None:
        """It says of no run: that its lines are those of this one is looked at. Tables without the column are read too."""
        service = Listed()
        self.taken("r1")
        with Trail(self.url, "shop", create=True) as trail:
            older = TrailKeeper(service, trail, generation=1)  # type: ignore[arg-type]
            older.step()
            older.step()
            self.assertEqual([(one.of, one.kept) for one in trail.lists()], [(None, 1)])
        with psycopg.connect(self.url, autocommit=True) as session:
            session.execute("ALTER TABLE pagelog_trail_list DROP COLUMN of_run")
            with Trail(self.url, "shop") as trail:
                self.assertEqual([(one.generation, one.of) for one in trail.lists()], [(1, None)])
            session.execute("DELETE FROM pagelog_schema WHERE version > 3")
            self.referee.prepare()
            session.execute("SELECT of_run FROM pagelog_trail_list")
        with Trail(self.url, "shop", create=True) as trail:
            TrailKeeper(service, trail, generation=1, of=f"{self.row.identity}/r1").step()  # type: ignore[arg-type]
            [one] = trail.lists()
            self.assertEqual((one.of, one.ended, one.kept), (f"{self.row.identity}/r1", None, 2))

    def recorder(self, trails: Trails, run: str) -> Recorder:
        """Of a run that takes the database."""
        kept = self.taken(run)
        served = SimpleNamespace(
            database="shop",
            run=run,
            generation=kept.generation,
            operator=Listed,
            texts=lambda: [TABLE.read_bytes()],
        )
        self.said: list[str] = []
        of = Of(self.seen().identity, run)
        return Recorder(trails, served, of, lambda _, sentence: self.said.append(sentence))  # type: ignore[arg-type]

    def succeeded(self, last: Batch) -> bool:
        following = number(self.referee, last.log, "r1", self.seen().generation)
        assert following is not None
        switch = Switch(
            last.log,
            last.run,
            last.generation,
            last.old,
            last.blocks,
            last.chain,
            following,
            "r2",
            "x:1",
            0,
            0,
            last.lines,
        )
        return succeed(self.referee, switch) is not None

    def released(self, last: Batch) -> bool:
        return release(self.referee, last) is not None


class Durable(Trailed):
    """What is durable has its lines, at once: they are of the same statement."""

    keepers = "a"
    options = {"ttl": 600.0, "more": "trail = 3\n"}
    """For an eighth of it blocks wait for lines that a thread has to see to."""

    def setUp(self) -> None:
        super().setUp()
        self.primary = self.enterContext(self.keeping.primary())
        eventually(
            lambda: all(self.has_lines_at_once() for _ in range(3)), "a list that was caught up"
        )
        self.end = self.keeping.row().archived

    def has_lines_at_once(self) -> bool:
        """Whether the next durable block has its lines."""
        return self.commit(self.primary, "first", durable=True) <= self.last_reported()

    def test_one_block_and_many_at_once(self) -> None:
        for number in range(4):
            self.assertTrue(self.has_lines_at_once())
        for number in range(3000):
            self.commit(self.primary, f"{number}")
        self.primary.commit(durable=True)
        self.check_durable_has_lines()

    def test_a_keeper_that_is_killed_while_it_waits_for_the_statement(self) -> None:
        gate = Gate(self.keeping.url, "NEW.archived > OLD.archived AND OLD.name = 'shop'")
        with ThreadPoolExecutor(1) as writer:
            waiting = writer.submit(self.commit, self.primary, "next", durable=True)
            gate.somebody_waits()
            self.check_durable_has_lines()
            self.keeping.kill("a")
            gate.open()
            eventually(
                lambda: self.keeping.row().archived == self.end + 1,
                "the commit of a keeper that is gone",
            )
            self.check_durable_has_lines()
            self.keeping.start("a")  # it adopts the service, and goes on with its list
            self.assertEqual(waiting.result(), self.end + 1)
        eventually(self.has_lines_at_once, "a list that was caught up again")
        [line] = self.replayed()
        self.assertRegex(line, r"(\d+) blocks hardened, \1 of them archived, which fit")

    def test_statements_that_are_refused_or_in_doubt(self) -> None:
        session = self.enterContext(psycopg.connect(self.keeping.url, autocommit=True))
        session.execute("CREATE SEQUENCE pagelog_tries")
        self.addCleanup(session.execute, "DROP SEQUENCE pagelog_tries")

        def tries() -> int:
            [[count]] = session.execute("SELECT last_value FROM pagelog_tries").fetchall()
            return int(count)

        for number, level in enumerate(("EXCEPTION", "WARNING", "EXCEPTION"), self.end + 1):
            body, before = f"PERFORM nextval('pagelog_tries'); RAISE {level} 'no room'", tries()
            trigger = Trigger(
                self.keeping.url,
                "pagelog_log",
                "UPDATE ON pagelog_log FOR EACH ROW WHEN (NEW.archived > OLD.archived)",
                body,
            )
            with ThreadPoolExecutor(1) as writer:
                waiting = writer.submit(self.commit, self.primary, f"{number}", durable=True)
                eventually(
                    lambda: tries() > before + 1 or self.keeping.row().archived == number,
                    "a statement",
                )
                trigger.close()
                self.assertEqual(waiting.result(), number)
            self.check_durable_has_lines()
        self.assertNotIn("was not kept", self.keeping.said())


class Locked(Trailed):
    keepers = "a"
    options = {"ttl": 4.0, "more": "trail = 3\n"}

    def waiting(self) -> tuple[int, object] | None:
        """The session of a trail's thread that waits for a lock, and since when its statement is under way."""
        with psycopg.connect(self.keeping.url) as session:
            found = session.execute(
                "SELECT pid, query_start FROM pg_stat_activity WHERE application_name = 'pagelog' AND wait_event_type = 'Lock'"
            )
            return found.fetchone()

    def test_blocks_wait_for_no_trail_whose_tables_are_locked(self) -> None:
        with self.keeping.primary() as primary, psycopg.connect(
            self.keeping.url
        ) as session, ThreadPoolExecutor(1) as writer:
            self.commit(primary, "1", durable=True)
            eventually(lambda: self.lists() and self.last_reported() > 0, "the list")
            session.execute(
                "LOCK pagelog_trail_piece IN ACCESS EXCLUSIVE MODE"
            )  # as VACUUM FULL and ALTER do
            committed = writer.submit(
                lambda: [self.commit(primary, f"{number}", durable=True) for number in range(2, 5)]
            )
            eventually(lambda: self.waiting() is not None, "a thread that waits for the table")
            before = self.waiting()
            self.assertEqual(committed.result(), [2, 3, 4])
            self.assertEqual(self.waiting(), before)
            self.assertEqual(self.keeping.said().count("archived without their lines"), 1)
            session.rollback()
            eventually(lambda: self.last_reported() == 4, "the lines")


class TwoKeepers(Trailed):
    options = {**Trailed.options, "ttl": 5.0}
    """On a busy machine a service may be silent for longer than the others' ttl; then it would have one generation more."""

    def has_list_of(self, generation: int) -> bool:
        return generation in (of for of, _ in self.lists())

    def lists_with_a_failover(self) -> set[int]:
        shown = self.keeping.word("trail", "shop", "--op", "failover", "--json").splitlines()
        return {json.loads(line)["list"] for line in shown}

    def test_each_generation_has_its_list_to_its_end_or_says_where_it_breaks_off(self) -> None:
        with self.keeping.primary() as primary:
            for number in range(1, 41):
                self.commit(primary, f"{number}", durable=number % 10 == 0)
            eventually(lambda: len(self.keeping.standbys()) == 1, "a standby")
            one = self.keeping.place().generation
            self.keeping.word("switchover", "shop", "--to", *self.keeping.standbys())
            two = self.keeping.place(least=one + 1).generation
            self.assertEqual(self.commit(primary, "41", durable=True), 41)
            eventually(lambda: self.has_list_of(two), "the list of the second generation")
            self.keeping.kill(self.keeping.row().holder or "")  # its list breaks off
            three = self.keeping.place(least=two + 1).generation
            self.assertEqual(self.commit(primary, "42", durable=True), 42)
            eventually(lambda: self.has_list_of(three), "the list of the third generation")
        (_, first), (_, second), (_, third) = self.lists()
        self.assertEqual([generation for generation, _ in self.lists()], [one, two, three])
        self.assertRegex(
            first or "", f"generation {one} was released: a switchover to . was asked for"
        )
        self.assertEqual(
            second,
            f"generation {three} has begun: what was decided behind the last line was not seen",
        )
        self.assertIsNone(third)
        # Nothing that was durable is without its lines where a generation was closed.
        self.assertIn("40 blocks hardened, 40 of them archived, which fit", self.replayed()[0])
        self.assertEqual(
            [line.split(":")[0] for line in self.replayed()], ["list 1", "list 2", "list 3"]
        )
        eventually(
            lambda: self.lists_with_a_failover() == {1, 2, 3},
            "the failover of the third generation",
        )
        self.assertIn(
            f"list 1 of generation {one} ends behind line",
            self.keeping.word("trail", "shop", "--op", "failover"),
        )
        # Another block, with a checksum of its own: the digest behind the end of the first list is of it too.
        self.store_block(Block.of(10, [put(0, b"<other>")]).data)
        self.assertIn(
            "BrokenArchive: the archived blocks 1 to 42 are not those that were archived",
            self.refused(1),
        )


class Released(Trailed):
    options = {"ttl": 120.0, "more": "trail = 3\n"}

    def test_who_takes_over_leaves_the_one_before_time_to_end_its_list(self) -> None:
        with self.keeping.primary() as primary:
            self.commit(primary, "1", durable=True)
            eventually(lambda: len(self.lists()) == 1, "the list")

            def is_followed() -> bool:
                self.keeping.ring()
                return 1 in self.keeping.standbys().values()

            eventually(is_followed, "a standby with all of it")
            one = self.keeping.place().generation
            # The end of the first list, which comes after the release, takes long.
            gate = Gate(
                self.keeping.url,
                "NEW.ended IS NOT NULL AND OLD.ended IS NULL",
                "pagelog_trail_list",
            )
            self.keeping.referee.wish("shop", "*")
            gate.somebody_waits()
            two = self.keeping.place(least=one + 1).generation
            self.assertEqual(self.commit(primary, "2", durable=True), 2)
            eventually(
                lambda: "is kept once the one before has ended" in self.keeping.said(),
                "the word that it waits",
            )
            self.assertEqual(self.lists(), [(one, None)])
            gate.open()
            eventually(lambda: len(self.lists()) == 2, "the list of the next generation")
            (_, first), (generation, _) = self.lists()
            self.assertRegex(
                first or "", f"generation {one} was released: a switchover to . was asked for"
            )
            self.assertEqual(generation, two)


class OneKeeper(Trailed):
    keepers = "a"

    def test_a_succession_ends_a_list_that_is_whole(self) -> None:
        with self.keeping.primary() as primary:
            for number in range(1, 21):
                self.commit(primary, f"{number}", durable=number % 10 == 0)
            before = self.keeping.place().generation
            self.keeping.word("rollover", "shop")
            after = self.keeping.place(least=before + 1).generation
            self.assertEqual(self.commit(primary, "21", durable=True), 21)
            eventually(
                lambda: len(self.lists()) == 2 and self.lists()[0][1] is not None, "both lists"
            )
        self.assertEqual(
            self.lists()[0],
            (before, f"generation {after} has begun: the service of the next generation is ready"),
        )
        self.assertIn("20 blocks hardened, 20 of them archived, which fit", self.replayed()[0])

    def test_a_service_that_is_killed_and_a_keeper_that_adopts(self) -> None:
        with self.keeping.primary() as primary:
            self.commit(primary, "1", durable=True)
            eventually(lambda: len(self.lists()) == 1, "the list")
            self.keeping.kill("a")
            self.keeping.start("a")
            self.commit(primary, "2", durable=True)
            [(before, _)] = self.lists()
            os.kill(self.keeping.pid(), signal.SIGKILL)
            after = self.keeping.place(least=before + 1).generation
            eventually(lambda: len(self.lists()) == 2, "the list of the next generation")
        (first, why), (second, _) = self.lists()
        self.assertEqual(
            (first, why, second),
            (before, f"generation {before} was released: the service ended", after),
        )
        self.assertEqual([line.split(":")[0] for line in self.replayed()], ["list 1", "list 2"])
        id = self.keeping.row().id
        self.keeping.word("drop", "shop", "--force")
        self.assertEqual(
            self.lists(), []
        )  # so that a new database of this name has a trail of its own
        with Trail(self.keeping.url, f"shop!{id}") as trail:
            self.assertEqual([one.generation for one in trail.lists()][:2], [first, second])


class FirstLines(Trailed):
    keepers = "a"
    options = {"ttl": 1200.0, "more": "trail = 3\n"}

    def beat(self) -> int:
        keeper = self.keeping.referee.everything().keeper("a")
        assert keeper is not None
        return keeper.beat

    def looks(self, count: int) -> None:
        """Waits for so many looks of the keeper, each of which rings its archiver."""
        for least in range(self.beat() + 1, self.beat() + count + 1):
            self.keeping.ring()
            eventually(lambda: self.beat() >= least, "a look")

    def test_what_is_durable_first_in_a_generation_that_takes_over_has_its_lines(self) -> None:
        with self.keeping.primary() as primary, ThreadPoolExecutor(1) as writer:
            end = self.commit(primary, "1", durable=True)
            eventually(lambda: len(self.lists()) == 1, "the list")
            lock = Gate(self.keeping.url, "false")  # which nothing waits for yet
            trigger = Trigger(
                self.keeping.url,
                "pagelog_trail_list",
                "INSERT ON pagelog_trail_list FOR EACH ROW",
                "PERFORM pg_advisory_xact_lock_shared(42)",
            )
            self.addCleanup(trigger.close)
            os.kill(self.keeping.pid(), signal.SIGKILL)
            waiting = writer.submit(self.commit, primary, "2", durable=True)
            lock.somebody_waits()
            with self.keeping.reader() as reader:
                eventually(
                    lambda: reader.end() > end, "the block in the service of the next generation"
                )
            self.looks(3)
            self.assertEqual(self.keeping.row().archived, end)
            lock.open()
            self.assertEqual(waiting.result(), end + 1)
            self.check_durable_has_lines()


class OfImages(Trailed):
    """A generation that began with images at position 20, of three ranges, and has five more blocks."""

    keepers = "a"

    def setUp(self) -> None:
        super().setUp()
        self.primary = self.enterContext(self.keeping.primary())
        self.write(20)
        self.succeed()
        self.write(5)
        self.blocks_of(2, 6)

    def write(self, count: int) -> None:
        for at in range(count):
            self.primary.append(put(70 * (at % 3), b"<%d>" % at, at))
            self.primary.commit(durable=True)

    def succeed(self) -> None:
        before = self.keeping.place().generation
        self.keeping.word("rollover", "shop")
        self.keeping.place(least=before + 1)

    def blocks_of(self, run: int, count: int) -> str:
        """What is said of this list once the trail has so many blocks of it, each of which the archive has."""
        wanted = f"{count} blocks hardened, {count} of them archived, which fit"
        eventually(lambda: len(self.lists()) >= run and wanted in self.replay(run), wanted)
        return self.replay(run)

    # What was changed by hand.

    def store_image(self, data: bytes, *, crc: bool = False, heads: bool = False) -> None:
        """Puts other bytes into range 1, with the digests made again, as one who knows how would."""
        id = self.keeping.row().id
        self.run_sql("UPDATE pagelog_image SET data = %s WHERE log = %s AND range = 1", data, id)
        if crc:
            self.run_sql(
                "UPDATE pagelog_image SET crc = %s WHERE log = %s AND range = 1",
                zlib.crc32(data),
                id,
            )
        if heads:
            digest = hashlib.blake2b(digest_size=16)
            for _, head in Bases(self.keeping.referee, id).heads(20):
                digest.update(head)
            self.run_sql("UPDATE pagelog_base SET digest = %s WHERE log = %s", digest.digest(), id)

    def test_a_byte_of_an_image_that_was_changed_is_found(self) -> None:
        said = self.replay(2)
        self.assertIn(
            "blocks 1 to 1 are made of images; 3 of these are compared with the blocks before", said
        )
        self.assertNotIn("not checked", said)
        bases = Bases(self.keeping.referee, self.keeping.row().id)
        image = bases.image(1, bases.newest(20))
        assert image is not None
        data = image.data
        for number, byte in enumerate(data):
            if byte and chr(byte).isdigit():
                changed = bytes((*data[:number], byte ^ 1, *data[number + 1 :]))
        self.store_image(changed)
        self.assertIn("BrokenBase: the image of range 1 at position 20 is damaged", self.refused(2))
        self.store_image(changed, crc=True)
        self.assertIn(
            "BrokenBase: the images at position 20 are not those that were kept", self.refused(2)
        )
        self.store_image(changed, crc=True, heads=True)
        self.assertIn(
            "BrokenArchive: the image of range 1 at position 20 is not what the blocks before make",
            self.refused(2),
        )
        self.store_image(data, crc=True, heads=True)
        self.run_sql(
            "UPDATE pagelog_generation SET shift = shift - 1 WHERE log = %s AND images = 20",
            self.keeping.row().id,
        )
        self.assertIn(
            "BrokenArchive: the images at position 20 make 1 blocks, and the generation began with 2",
            self.refused(2),
        )

    def test_a_record_of_a_block_that_was_changed_is_found(self) -> None:
        was, other = self.keeping.archive()[21], Block.of(22, [put(70, b"<other>")]).data
        self.run_sql(
            "UPDATE pagelog_block SET data = %s WHERE log = %s AND lsn = 22",
            other,
            self.keeping.row().id,
        )
        self.assertIn(
            "BrokenArchive: the archived block 22 is not the one that was kept", self.refused(2)
        )
        self.store_block(other)
        self.assertIn(
            "BrokenArchive: the archived blocks 21 to 25 are not those that were archived",
            self.refused(2),
        )
        self.store_block(was)
        self.replay()

    def test_the_service_has_the_blocks_and_the_pages(self) -> None:
        with self.keeping.file.open("a") as file:
            file.write(
                f'[secondary]\nto = "{self.keeping.addresses[0]}"\nid = 3\ntoken = "{token(3)}"\n'
            )
        self.assertRegex(
            self.replay(), r"6 blocks and \d+ pages of the service are those of the archive; 0 more"
        )

    def test_a_takeover_begins_with_the_newest_base(self) -> None:
        row = self.keeping.row()
        self.assertEqual(
            make_base(self.keeping.referee, row.id, row.archived, row.chain).position, 25
        )
        os.kill(self.keeping.pid(), signal.SIGKILL)
        self.write(2)
        said = self.blocks_of(3, 3)
        self.assertIn(
            "blocks 1 to 1 are made of images; 3 of these are compared with the blocks before", said
        )
        # Without what was before the images, and then without these.
        self.assertEqual(Bases(self.keeping.referee, row.id).prune(25), 25)
        self.assertIn("not checked: what the images are made of, which is pruned", self.replay(3))
        said = self.replay(1)
        self.assertIn("20 blocks hardened, 0 of them archived", said)
        self.assertIn("not checked: blocks 1 to 20 are pruned", said)
        row = self.keeping.row()
        make_base(self.keeping.referee, row.id, row.archived, row.chain)
        Bases(self.keeping.referee, row.id).prune(27)
        self.write(1)
        eventually(
            lambda: "4 blocks hardened, 1 of them archived" in self.replay(3), "the last block"
        )
        self.assertIn(
            "not checked: blocks 1 to 3 are pruned, or made of images that are", self.replay(3)
        )
