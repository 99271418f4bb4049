"""One writer of an archive: whatever is cut, stands still or comes late, a batch is kept under the fence of its run."""

from __future__ import annotations

import threading
import unittest
from dataclasses import replace
from unittest.mock import patch

import psycopg

from keepers import Line, Replying, batch_of, blocks, eventually, new_database, new_url
from pagelog.referee import statements
from pagelog.referee.bases import transaction
from pagelog.referee.referee import Away, BrokenArchive, Doubt, Referee, Refused, Superseded, digest
from pagelog.referee.rows import Batch, Kept, Row, Where
from pagelog.keeper.switch import Switch, begun, number, succeed
from postgres import SilentProxy, postgres
from service import PATIENCE


class Referees(unittest.TestCase):
    def setUp(self) -> None:
        self.url = new_url()
        self.referee = self.new("one")
        self.row = new_database(self.referee, "shop")

    def new(self, me: str, url: str | None = None) -> Referee:
        made = Referee(url or self.url, me, f"life of {me}")
        self.addCleanup(made.close)
        made.register(f"{me}:1")
        return made

    def seen(self, referee: Referee | None = None) -> Row:
        row = (referee or self.referee).look().row("shop")
        assert row is not None
        return row

    def taken(self, run: str = "r1", referee: Referee | None = None) -> Kept:
        taken = (referee or self.referee).take(self.seen(referee), run)
        assert taken is not None
        return Kept(taken.archived, taken.chain, taken.generation)

    def everything(self) -> list[bytes]:
        archived = self.seen().archived
        return [block for piece in self.referee.blocks(self.row.id, 1, archived) for block in piece]

    def rows(self) -> list[int]:
        with psycopg.connect(self.url) as connection:
            return [
                lsn for lsn, in connection.execute("SELECT lsn FROM pagelog_block ORDER BY lsn")
            ]


class Fences(Referees):
    def kept_by_both(self, batch: Batch) -> frozenset[int]:
        """What is kept of it by itself, and then beside one of no database."""
        return self.referee.keep([batch]) | self.referee.keep([batch, replace(batch, log=98)])

    def test_a_batch_is_kept_under_run_generation_and_archived_position(self) -> None:
        kept = self.taken()
        self.assertEqual((kept.archived, kept.generation, kept.chain), (0, 1, b""))
        batch = batch_of(self.row, kept, "r1")
        for wrong in (
            replace(batch, run="r2"),
            replace(batch, generation=2),
            replace(batch, old=1),
            replace(batch, log=99),
        ):
            self.assertEqual(self.kept_by_both(wrong), frozenset())
        self.assertEqual((self.rows(), self.seen().archived), ([], 0))
        self.assertEqual(self.referee.keep([batch]), {self.row.id})
        self.assertEqual(self.kept_by_both(batch), frozenset())
        seen = self.seen()
        self.assertEqual(
            (seen.archived, seen.chain, self.everything()), (3, batch.chain, list(batch.blocks))
        )
        self.assertEqual(seen.chain, digest(b"", blocks(1, 3)))

    def test_it_is_known_whether_it_has_what_a_look_has_shown(self) -> None:
        kept = self.taken()
        self.referee.keep([batch_of(self.row, kept, "r1")])
        shown = self.seen()
        self.assertFalse(self.referee.lacks(shown))
        self.assertFalse(
            self.referee.lacks(replace(shown, archived=1, chain=b"of 1"))
        )  # it has gone on since
        for other in (
            replace(shown, archived=4),
            replace(shown, chain=b"other"),
            replace(shown, identity="0" * 32),
            replace(shown, id=99),
        ):
            self.assertTrue(self.referee.lacks(other))

    def test_after_a_take_the_old_run_keeps_nothing(self) -> None:
        kept = self.taken()
        other = self.new("two")
        self.assertEqual(self.taken("r2", other).generation, 2)
        self.assertEqual(self.kept_by_both(batch_of(self.row, kept, "r1")), frozenset())
        self.assertIsNone(self.referee.kept(self.row.id, "r1"))
        self.assertFalse(self.referee.publish(self.row.id, "r1", Where("x:1", 0, 0)))
        self.assertIsNone(self.referee.release(self.row.id, "r1"))
        self.assertTrue(other.publish(self.row.id, "r2", Where("y:1", 0, 0)))
        self.assertEqual((self.seen().address, self.seen().holder, self.rows()), ("y:1", "two", []))

    def test_without_the_run_in_its_condition_a_batch_of_an_old_run_is_kept(self) -> None:
        # The fence taken out, so that the test above is known to see it. The generation is that of a take that was lost.
        kept = self.taken()
        self.taken("r2", self.new("two"))
        for name, run in (("KEEP", "l.run = due.run AND l.generation = due.generation AND"),):
            whole = getattr(statements, name)
            planted = whole.replace(run, "")
            self.assertNotEqual(planted, whole)
            batch = batch_of(self.row, kept, "r1")
            with patch.object(statements, name, planted):
                self.assertEqual(self.kept_by_both(batch), {self.row.id})
            kept = Kept(batch.new, batch.chain, kept.generation)

    def test_of_eight_takes_of_one_look_one_wins(self) -> None:
        seen, start = self.seen(), threading.Barrier(8)
        won: list[int] = []

        def take(number: int) -> None:
            referee = self.new(f"k{number}")
            start.wait()
            if referee.take(seen, f"run {number}") is not None:
                won.append(number)

        threads = [threading.Thread(target=take, args=(number,)) for number in range(8)]
        for thread in threads:
            thread.start()
        for thread in threads:
            thread.join()
        self.assertEqual(len(won), 1)
        self.assertEqual((self.seen().generation, self.seen().run), (1, f"run {won[0]}"))

    def test_a_take_is_of_what_was_seen(self) -> None:
        kept, before = self.taken(), self.seen()
        self.referee.keep([batch_of(self.row, kept, "r1")])
        other = self.new("two")
        self.assertIsNone(other.take(before, "r2"))
        self.assertIsNone(other.take(replace(self.seen(), run="r9"), "r2"))
        self.assertIsNone(other.take(replace(self.seen(), generation=0), "r2"))
        # The holder's beat has risen since.
        look = other.look()
        beat = next(keeper.beat for keeper in look.keepers if keeper.name == "one")
        seen = self.seen()
        self.assertIsNone(other.take(seen, "r2", beat))
        taken = other.take(seen, "r2", beat + 1)
        assert taken is not None
        self.assertEqual((taken.archived, taken.chain, taken.generation), (3, seen.chain, 2))

    def test_a_statement_that_changes_a_row_returns_it_as_the_next_look_shows_it(self) -> None:
        self.of_a_copy()
        where = Where("x:1", 5, 2, b"c", "a way")
        for change in (
            lambda seen: self.referee.take(seen, "r1", table_number=2),
            lambda seen: self.referee.publish(seen.id, "r1", where),
            lambda seen: succeed(self.referee, self.switch(seen)),
            lambda seen: self.referee.held(seen.id, "r2"),
            lambda seen: self.referee.continue_run(seen, "r3", None, where, 7, (5, b"e"), 2),
            lambda seen: self.referee.release(seen.id, "r3"),
            lambda seen: self.referee.take(seen, "r4", None, replace(where, chain=b"e"), 0, 2),
        ):
            self.assertEqual(change(self.seen()), self.seen())
        self.assertEqual((self.seen().copied, self.seen().run_table), (3, 2))

    def of_a_copy(self) -> None:
        """Its row is as a copy's that has had another table since."""
        with psycopg.connect(self.url) as connection:
            connection.execute(
                "UPDATE pagelog_log SET archived = 3, chain = 'c', ancestor = 'old', table_number = 2"
            )

    def switch(self, seen: Row) -> Switch:
        """To run `r2`, with a block."""
        following = number(self.referee, seen.id, "r1", seen.generation)
        assert following is not None
        rest, end = blocks(seen.archived + 1, 1), (b"d", following, "r2", "y:1", -3, 2, None, 2)
        return Switch(seen.id, "r1", seen.generation, seen.archived, rest, *end)

    def test_so_does_one_that_finds_the_row_of_a_switch_that_still_runs(self) -> None:
        self.of_a_copy()
        self.referee.take(self.seen(), "r1", table_number=2)
        other, switch, found = self.new("two"), self.switch(self.seen()), list[Row | None]()
        thread = threading.Thread(target=lambda: found.append(begun(self.referee, switch)))
        waits = "SELECT FROM pg_stat_activity WHERE wait_event_type = 'Lock' AND datname = current_database()"
        with psycopg.connect(self.url, autocommit=True) as boss, transaction(other):
            self.assertIsNotNone(succeed(other, switch))
            thread.start()
            eventually(lambda: boss.execute(waits).rowcount == 1)
        thread.join()
        self.assertEqual(found, [self.seen()])
        self.assertEqual(self.seen().run_table, 2)

    def test_a_take_tells_the_place_of_a_service_that_has_all_that_is_archived(self) -> None:
        batch = batch_of(self.row, self.taken(), "r1")
        self.referee.keep([batch])
        other, seen = self.new("two"), self.seen()
        for chain in (b"", b"x" * 16):
            self.assertIsNone(other.take(seen, "r2", None, Where("y:1", 5, 2, chain)))
        taken = other.take(seen, "r2", None, Where("y:1", 5, 2, batch.chain))
        assert taken is not None
        self.assertEqual((taken.archived, taken.chain, taken.generation), (3, batch.chain, 2))
        seen = self.seen()
        self.assertEqual(
            (seen.run, seen.holder, seen.address, seen.shift, seen.images, seen.base),
            ("r2", "two", "y:1", 5, 2, 3),
        )
        self.taken("r3")
        self.assertIsNone(self.seen().address)
        with psycopg.connect(self.url) as connection:
            found = connection.execute(
                "SELECT shift, images FROM pagelog_generation ORDER BY generation"
            ).fetchall()
        self.assertEqual(found, [(0, 0), (5, 2), (5, 0)])

    def test_a_release_says_where_it_was(self) -> None:
        """Keepers of version 0.1 act on what it notifies."""
        told = list[str]()
        with psycopg.connect(self.url, autocommit=True) as session:
            session.add_notify_handler(lambda notify: told.append(notify.payload))
            session.execute("LISTEN pagelog_keeper")
            kept = self.taken()
            made = batch_of(self.seen(), kept, "r1")
            self.referee.keep([made])
            self.referee.release(self.seen().id, "r1")
            session.execute("SELECT 1")
        self.assertEqual(told[-1:], [f"shop {kept.generation} {made.new} {made.chain.hex()}"])

    def test_a_wish_that_is_taken_back_is_no_other_one(self) -> None:
        self.assertFalse(self.referee.wish("none", "a"))
        for wish in ("a", "*"):
            self.assertTrue(self.referee.wish("shop", wish))
            self.assertEqual(
                (self.referee.wish("shop", None, instead_of="b"), self.seen().wanted), (False, wish)
            )
            self.assertEqual(
                (self.referee.wish("shop", None, instead_of=wish), self.seen().wanted), (True, None)
            )
        self.assertEqual(
            (self.referee.wish("shop", None, instead_of="b"), self.referee.wish("shop", None)),
            (False, True),
        )

    def test_numbers_are_given_once_and_a_paused_database_is_taken_by_nobody(self) -> None:
        self.taken("r1")
        self.referee.release(self.row.id, "r1")
        with psycopg.connect(self.url) as connection:
            connection.execute("UPDATE pagelog_log SET next_generation = 7")
        self.assertEqual(self.taken("r2").generation, 7)
        self.assertEqual(self.referee.pause("shop", True), 1)
        self.assertIsNone(self.referee.take(self.seen(), "r3"))
        self.assertEqual((self.referee.pause(None, False), self.taken("r3").generation), (1, 8))

    def test_the_numbers_of_a_dropped_name_are_not_given_again(self) -> None:
        self.assertEqual([self.taken(run).generation for run in ("r1", "r2")], [1, 2])
        before = self.seen().identity
        self.referee.drop("shop")
        again = new_database(self.referee, "shop")
        self.assertNotEqual(again.identity, before)
        kept = self.referee.take(again, "r3")
        self.assertEqual(
            kept and kept.generation, 4
        )  # to a client of version 1, 3 would say that 2 has ended there

    def test_a_server_that_went_back_gives_numbers_above_what_is_known(self) -> None:
        self.assertEqual(self.taken("r1").generation, 1)
        self.referee.release(self.row.id, "r1")
        kept = self.referee.take(self.seen(), "r2", least=9)
        self.assertEqual(kept and kept.generation, 9)
        self.assertEqual(number(self.referee, self.row.id, "r2", 9, 20), 20)
        self.referee.raise_numbers(self.seen().identity, 30, 9)
        self.assertEqual((self.seen().next_generation, self.seen().doubted), (32, 9))
        self.assertIsNone(self.referee.fate("shop", 1))

    def test_many_databases_in_one_statement_each_under_its_own_condition(self) -> None:
        rows = [self.row, *(new_database(self.referee, f"other{number}") for number in range(4))]
        seen = {row.id: row for row in self.referee.look().rows}
        kept = [self.referee.take(seen[row.id], f"run {row.id}") for row in rows]
        batches = [
            batch_of(row, one, f"run {row.id}", 2 + at)
            for at, (row, one) in enumerate(zip(rows, kept))
            if one
        ]
        batches[2] = replace(batches[2], run="another")
        self.assertEqual(self.referee.keep(batches), {row.id for row in rows} - {rows[2].id})
        for row in self.referee.look().rows:
            batch = next(batch for batch in batches if batch.log == row.id)
            found = [
                block for piece in self.referee.blocks(row.id, 1, row.archived) for block in piece
            ]
            self.assertEqual(
                (found, row.chain),
                ([], b"") if row.id == rows[2].id else (list(batch.blocks), batch.chain),
            )


class Fates(Referees):
    def test_a_generation_ends_where_the_next_one_began(self) -> None:
        other = self.new("two")
        first = self.taken("r1")
        self.referee.keep([batch_of(self.row, first, "r1", 5)])
        self.assertIsNone(other.fate("shop", 1))
        self.referee.release(self.row.id, "r1")
        self.assertEqual((other.fate("shop", 1), self.referee.fate("shop", 1)), (5, 5))
        second = self.taken("r2", other)
        other.keep([batch_of(self.row, second, "r2", 2)])
        third = self.taken("r3")
        self.assertEqual([self.referee.fate("shop", number) for number in (1, 2, 3)], [5, 7, None])
        self.assertEqual(
            (third.archived, other.fate("shop", 9), other.fate("none", 1)), (7, None, None)
        )

    def test_a_twin_of_a_name_ends_the_first(self) -> None:
        twin = Referee(self.url, "one", "a later instance")
        self.addCleanup(twin.close)
        twin.register("one:2")
        with self.assertRaises(Superseded):
            self.referee.look()
        self.assertEqual([keeper.lines for keeper in twin.look().keepers], ["one:2"])

    def life(self) -> tuple[object, ...] | None:
        """Which life of the keeper is noted."""
        with psycopg.connect(self.url) as session:
            return session.execute(
                "SELECT run, beat FROM pagelog_keeper WHERE name = 'one'"
            ).fetchone()

    def put_back(self, statement: str) -> None:
        with psycopg.connect(self.url) as session:
            session.execute(statement)

    def test_a_keeper_that_postgresql_does_not_know_any_more_takes_its_name_again(self) -> None:
        for _ in range(5):
            self.referee.look()
        earlier = (
            "UPDATE pagelog_keeper SET run = 'a previous instance', beat = 3 WHERE name = 'one'"
        )
        for statement, beat in ((earlier, 4), ("DELETE FROM pagelog_keeper WHERE name = 'one'", 0)):
            self.put_back(statement)
            with self.assertRaisesRegex(Doubt, "it went back, and this keeper is registered again"):
                self.referee.look()
            self.assertEqual(self.life(), (self.referee.run, beat))
            found = self.referee.look().keeper("one")
            self.assertEqual(
                (found and found.lines, self.life()), ("one:1", (self.referee.run, beat + 1))
            )

    def test_a_twin_that_comes_amid_a_look_keeps_the_name(self) -> None:
        raised: list[BaseException] = []

        def look() -> None:
            try:
                self.referee.look()
            except Doubt as error:
                raised.append(error)

        looks = threading.Thread(target=look)
        with psycopg.connect(self.url) as session, psycopg.connect(
            self.url, autocommit=True
        ) as other:
            session.execute(
                "UPDATE pagelog_keeper SET run = 'a later instance', beat = beat + 1 WHERE name = 'one'"
            )
            looks.start()
            waits = "SELECT 1 FROM pg_stat_activity WHERE wait_event_type = 'Lock' AND application_name = 'pagelog keeper one'"
            eventually(lambda: other.execute(waits).fetchone() is not None, "a look that waits")
        looks.join(PATIENCE)
        self.assertEqual(
            ([type(error) for error in raised], self.life()), ([Doubt], ("a later instance", 1))
        )
        self.assertRaises(Superseded, self.referee.look)

    def test_standbys_are_seen_by_all(self) -> None:
        self.referee.stand_by(self.row.id, "z:1", "s1", 4)
        self.referee.look({self.row.id: 9})
        [found] = self.new("two").look().standbys_of(self.row.id)
        self.assertEqual(
            (found.keeper, found.address, found.run, found.reached), ("one", "z:1", "s1", 9)
        )
        self.taken("s1")
        self.assertEqual(self.referee.look().standbys, ())

    def test_a_dropped_database_is_gone_and_its_name_free(self) -> None:
        kept = self.taken()
        self.referee.keep([batch_of(self.row, kept, "r1", 30)])
        self.assertTrue(self.referee.drop("shop"))
        self.assertFalse(self.referee.drop("shop"))
        self.assertEqual((self.rows(), self.referee.look().row("shop")), ([], None))
        self.assertEqual([row.dropped for row in self.referee.look().rows], [True])
        self.assertEqual(
            self.referee.keep([batch_of(self.row, Kept(30, b"", 1), "r1")]), frozenset()
        )
        self.assertTrue(self.referee.create("shop", "", b""))
        self.assertFalse(self.referee.create("shop", "", b""))

    def test_damage_in_the_archive_is_found(self) -> None:
        kept = self.taken()
        self.referee.keep([batch_of(self.row, kept, "r1", 9)])
        self.assertEqual(self.everything(), list(blocks(1, 9)))
        with psycopg.connect(self.url) as connection:
            connection.execute(
                "UPDATE pagelog_block SET data = set_byte(data, 20, 255) WHERE lsn = 4"
            )
        with self.assertRaisesRegex(BrokenArchive, "block 4 is not"):
            self.everything()
        with psycopg.connect(self.url) as connection:
            connection.execute("DELETE FROM pagelog_block WHERE lsn IN (4, 6)")
        with self.assertRaisesRegex(BrokenArchive, "2 of the archived blocks 1 to 9"):
            self.everything()


class Lines(Referees):
    """The line to PostgreSQL is cut, or stands still, at each point of a batch."""

    def lengths(self) -> tuple[int, int]:
        """How many bytes a batch is in either direction."""
        line = Line()
        self.addCleanup(line.close)
        referee = self.new("measured", line.url(self.url))
        far = 1 << 40
        line.count_from_now(far, far)
        with patch.object(
            referee, "turn_unless"
        ):  # which closes the connection, with five bytes more
            referee.keep([batch_of(self.row, Kept(0, b"", 99), "nobody")])
        return far - line.left["to"], far - line.left["back"]

    def cut(self, **at: int) -> int:
        """The batch of a run is cut at this byte. Returns the archived position after it."""
        run = f"run {at}"
        kept = self.taken(run)
        line = Line()
        referee = self.new("cut", line.url(self.url))
        line.count_from_now(**at)
        batch = batch_of(self.row, kept, run)
        with self.assertRaises(Doubt):
            referee.keep([batch])
        line.count_from_now()
        told = referee.kept(self.row.id, run)
        assert told is not None
        self.assertIn(
            (told.archived, told.chain), ((kept.archived, kept.chain), (batch.new, batch.chain))
        )
        self.assertEqual(self.rows(), list(range(1, told.archived + 1)))
        referee.close()
        line.close()
        return told.archived - kept.archived

    def test_a_batch_that_is_cut_anywhere_is_whole_or_not_at_all(self) -> None:
        to, back = self.lengths()
        ends = {self.cut(to=at) for at in (*range(0, to - 12, 97), *range(to - 12, to))}
        self.assertEqual(ends, {0})
        self.assertEqual({self.cut(back=at) for at in range(0, back, 5)}, {3})

    def test_a_batch_that_stands_still_anywhere_holds_up_no_take(self) -> None:
        to, _ = self.lengths()
        other = self.new("two")
        for at in (0, to // 2, to - 6, to - 5, to - 1):
            run = f"run {at}"
            kept = self.taken(run)
            line = Line(stalls=True)
            referee = self.new("stands still", line.url(self.url))
            referee.take(self.seen(), run)
            kept = replace(kept, generation=kept.generation + 1)
            line.count_from_now(to=at)
            batch = batch_of(self.row, kept, run)
            thread = threading.Thread(
                target=lambda: self.assertRaises(Doubt, referee.keep, [batch])
            )
            thread.start()
            while line.left["to"] > 0:
                pass
            taken = None
            while taken is None:
                try:
                    taken = other.take(self.seen(other), f"next {at}")
                except Refused as error:
                    # The statement is carried out and its last message is missing: its lock ends with its session.
                    self.assertIn("lock timeout", str(error))
            self.assertEqual(taken.archived, kept.archived)
            referee.cut()
            thread.join()
            line.close()

    def test_a_keeper_of_its_name_of_another_database_there_keeps_its_session(self) -> None:
        with psycopg.connect(
            new_url(), application_name="pagelog keeper one"
        ) as another, self.assertRaises(Doubt):
            self.new("two")._end_sessions("one")
            self.assertEqual(another.execute("SELECT 7").fetchone(), (7,))
            while True:
                self.referee.look()

    def test_a_server_that_ends_a_session_amid_a_batch_may_have_committed_it(self) -> None:
        for severity, state in (("PANIC", "53100"), ("FATAL", "25P03"), ("ERROR", "40003")):
            kept, line = self.taken(f"run {state}"), Replying(severity, state)
            referee = self.new("told", line.url(self.url))
            line.count_from_now(back=0)
            batch = batch_of(self.row, kept, f"run {state}")
            with self.assertRaises(Doubt):
                referee.keep([batch])
            self.assertEqual(
                self.referee.kept(self.row.id, batch.run),
                Kept(batch.new, batch.chain, batch.generation),
            )
            line.close()

    def test_away(self) -> None:
        with self.assertRaises(Away):
            Referee("postgresql://nobody@/none?host=/nowhere").look()

    def test_hosts_are_turned_after_a_wait_that_was_cut(self) -> None:
        referee = Referee("postgresql://pagelog@/x?host=/a,/b,/c&port=1,2,3")
        referee.turn_hosts()
        self.assertEqual(
            (referee._options["host"], referee._options["port"]), ("/b,/c,/a", "2,3,1")
        )

    def test_a_silent_host_hides_none_behind_it(self) -> None:
        with SilentProxy(postgres()) as silent:
            silent.is_silent.set()
            found = Referee(self.url.replace("host=", f"connect_timeout=1&host={silent.folder},"))
            self.addCleanup(found.close)
            self.assertIsNotNone(found.everything().row("shop"))


class Replication(Referees):
    """PostgreSQL waits for a synchronous standby that is not there."""

    def setUp(self) -> None:
        super().setUp()
        self.kept = self.taken()
        self.boss = psycopg.connect(self.url, autocommit=True)
        self.addCleanup(self.boss.close)

    def wait_for(self, names: str) -> None:
        self.boss.execute("SET synchronous_commit = local")
        self.boss.execute(f"ALTER SYSTEM SET synchronous_standby_names = '{names}'")
        self.boss.execute("SELECT pg_reload_conf()")
        while self.boss.execute(
            "SELECT current_setting('synchronous_standby_names')"
        ).fetchone() != (names,):
            pass
        while names and not self.makes_wait():
            pass

    def makes_wait(self) -> bool:
        """Whether a commit of another session waits for a standby: PostgreSQL's checkpointer decides when that begins."""
        with psycopg.connect(
            self.boss.info.dsn, password=self.boss.info.password or None, autocommit=True
        ) as probe:
            pid = probe.info.backend_pid
            thread = threading.Thread(
                target=probe.execute,
                args=("CREATE TABLE IF NOT EXISTS probe AS SELECT 1; DROP TABLE probe",),
            )
            thread.start()
            waits = False
            while thread.is_alive() and not waits:
                found = self.boss.execute(
                    "SELECT wait_event FROM pg_stat_activity WHERE pid = %s", (pid,)
                ).fetchone()
                waits = found == ("SyncRep",)
            self.boss.execute("SELECT pg_cancel_backend(%s)", (pid,))
            thread.join()
            return waits

    def waiting(self, thread: threading.Thread) -> int:
        """The process of a session that waits for the standby, as that of the thread has to."""
        while True:
            self.assertTrue(thread.is_alive(), "it did not wait for the standby")
            found = self.boss.execute(
                "SELECT pid FROM pg_stat_activity WHERE wait_event = 'SyncRep'"
            ).fetchone()
            if found is not None:
                return int(found[0])

    def cancelled(self, referee: Referee) -> list[object]:
        """What became of a batch whose commit is cancelled while it waits for the standby."""
        self.addCleanup(self.wait_for, "")
        self.wait_for("nobody")
        told: list[object] = []

        def keep() -> None:
            try:
                told.append(referee.keep([batch_of(self.row, self.kept, "r1")]))
            except Doubt as doubt:
                told.append(doubt)

        thread = threading.Thread(target=keep)
        thread.start()
        self.boss.execute("SELECT pg_cancel_backend(%s)", (self.waiting(thread),))
        thread.join()
        return told

    def test_a_cancelled_commit_is_in_doubt_until_the_standby_has_it(self) -> None:
        [told] = self.cancelled(self.referee)
        self.assertIsInstance(told, Doubt)
        self.assertIn("canceling wait for synchronous replication", str(told))
        # A plain SELECT believes it; the statement that writes waits, as long as no standby has it.
        self.assertEqual(self.rows(), [1, 2, 3])
        found: list[Kept | None] = []
        thread = threading.Thread(target=lambda: found.append(self.referee.kept(self.row.id, "r1")))
        thread.start()
        self.waiting(thread)
        self.assertEqual(found, [])
        self.wait_for("")
        thread.join()
        self.assertEqual([kept.archived for kept in found if kept], [3])

    def test_without_a_look_at_warnings_a_cancelled_commit_would_be_believed(self) -> None:
        self.referee._take_notice = lambda _: None  # type: ignore[method-assign]
        self.referee.close()
        self.assertEqual(self.cancelled(self.referee), [frozenset({self.row.id})])

    def test_a_look_waits_for_the_standby_and_a_plain_select_does_not(self) -> None:
        self.addCleanup(self.wait_for, "")
        self.wait_for("nobody")
        seen: list[object] = []
        thread = threading.Thread(target=lambda: seen.append(self.referee.look()))
        thread.start()
        self.waiting(thread)
        self.assertEqual((seen, self.referee.me), ([], "one"))
        # Who is no keeper only shows what there is: it writes nothing, and does not wait.
        stranger = Referee(self.url)
        self.assertIsNotNone(stranger.everything().row("shop"))
        stranger.close()
        self.wait_for("")
        thread.join()
        self.assertEqual(len(seen), 1)

    def test_a_statement_that_hangs_is_cut(self) -> None:
        self.addCleanup(self.wait_for, "")
        self.wait_for("nobody")
        told: list[object] = []

        def keep() -> None:
            try:
                self.referee.keep([batch_of(self.row, self.kept, "r1")])
            except Doubt as doubt:
                told.append(doubt)

        thread = threading.Thread(target=keep)
        thread.start()
        self.waiting(thread)
        self.referee.cut()
        thread.join()
        self.assertEqual(len(told), 1)

    def test_a_session_that_is_ended_is_in_doubt_and_the_next_statement_has_another(self) -> None:
        self.boss.execute(
            "SELECT pg_terminate_backend(pid) FROM pg_stat_activity WHERE application_name = 'pagelog keeper one'"
        )
        with self.assertRaises(Doubt):
            while True:
                self.referee.look()
        self.assertEqual(self.seen().run, "r1")
