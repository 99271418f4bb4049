"""PostgreSQL went back while the store has more: a database that nobody holds is brought forward, and nothing is overwritten."""

from __future__ import annotations

import os
import shutil
import signal
import tempfile
import traceback
import unittest
from dataclasses import replace
from pathlib import Path
from typing import Any, Callable

from click.testing import CliRunner
from psycopg.types.json import Jsonb

from keepers import Keeping, eventually, put
from pagelog.cli.words import pagelogctl
from pagelog.keeper.aside import ASIDE
from pagelog.referee.bases import Bases, make_base
from pagelog.keeper.branching import branch
from pagelog.referee.fate import Loss, Of
from pagelog.referee.referee import KeeperError, Referee, digest
from pagelog.store.forwarding import Ahead, OtherHistory, bring, found_ahead
from pagelog.store.mover import nothing
from pagelog.store.moving import foreign
from pagelog.objects.place import store_of
from pagelog.objects.segment import BrokenObject, Segment, decode, encode
from postgres import Postgres
from test_images import pages
from test_rescues import Old
from test_store import TABLES, end_child, ended, pages_of

STEPS = ("compared", "fenced", "objects written", "written", "brought")


class Forward(Old):
    """PostgreSQL is put back to position 625, of which 600 are in the store, and that has all up to 925."""

    def setUp(self) -> None:
        super().setUp()
        self.note()
        self.write(300)

    def go_back(self) -> None:
        """All that was archived is in the store before."""
        self.move()
        self.all, self.end = list(self.made), self.kept
        super().go_back()

    def forget(self) -> None:
        """What was noted: something else is to be noted."""
        for table in TABLES:
            self.referee._connected().execute(f"DROP TABLE before_{table}")

    def released(self, run: str = "r1") -> None:
        released = self.referee.release(self.row.id, run)
        self.assertEqual(released and released.archived, self.kept.archived)

    def ahead(self) -> Ahead | None:
        return found_ahead(self.store, self.reader, self.row_now(), lambda done, of: None)

    def bring(self, passing: Callable[[str], None] = nothing) -> int | None:
        """The keeper of this test has been silent since its last look."""
        ahead = self.ahead()
        assert ahead is not None
        return bring(self.store, self.reader, ahead, self.silent(), passing)

    def silent(self) -> dict[str, int]:
        return {each.name: each.beat for each in self.reader.everything().keepers}

    def check_brought(self) -> None:
        """All of it is there, and is read; and it goes on."""
        row = self.row_now()
        self.assertEqual(
            (row.archived, row.chain, row.run, row.holder, row.address),
            (self.end.archived, self.end.chain, None, None, None),
        )
        self.made, self.kept = self.all, self.end
        self.check()
        self.assertEqual(self.place(), (row.archived, row.archived))
        self.kept = self.taken("new")
        self.write(150, "new")
        self.move()
        self.check()
        self.assertEqual(self.in_postgres(), [])
        self.assertEqual(foreign(self.reader, self.store, self.row.identity), (0, 0))

    def fate(self, run: str, generation: int) -> tuple[int | None, Loss | None]:
        found = self.referee.fate_of("shop", generation, Of(self.row.identity, run))
        return found.end, found.loss

    def test_all_that_the_store_has_is_there_again_and_it_goes_on(self) -> None:
        self.go_back()
        self.assertEqual(foreign(self.reader, self.store, self.row.identity)[1], 925)
        ahead = self.ahead()
        assert ahead is not None
        self.assertEqual((ahead.last, ahead.cut, ahead.others, ahead.bases), (925, 600, (), ()))
        assert ahead.came is not None and ahead.until is not None
        self.assertTrue(self.times[600] < ahead.came <= ahead.until)
        self.assertEqual(self.bring(), 1002)
        self.assertEqual(self.fate("r1", 1), (925, None))  # no other has archived any of it
        self.check_brought()
        self.assertEqual(self.kept.generation, 1003)
        self.assertEqual(self.fate("r1", 1), (925, None))
        self.assertIsNone(self.ahead())

    def test_a_run_that_was_followed_by_others_has_no_end_that_is_known(self) -> None:
        self.released()
        self.kept = self.taken("r2")
        self.write(90, "r2")
        self.go_back()
        self.bring()
        for run, generation in (("r1", 1), ("r2", 2), ("r9", 700)):
            self.assertEqual(self.fate(run, generation), (None, Loss.SUPERSEDED), run)
        self.assertIsNone(self.referee.origin("r1", has_name=False))
        self.check_brought()

    def test_a_run_that_was_released_has_ended_there(self) -> None:
        self.go_back()
        self.released()
        self.bring()
        self.assertEqual(self.fate("r1", 1), (625, None))
        self.check_brought()
        self.assertEqual(self.fate("r1", 1), (625, None))

    def test_it_may_die_at_each_step(self) -> None:
        self.go_back()
        for step in STEPS:
            before = self.row_now(), self.objects(), self.place()
            self.assertEqual(ended(self.bringing(step, signal.SIGKILL)), -signal.SIGKILL, step)
            now = self.row_now(), self.objects(), self.place()
            self.assertEqual(now == before, step != "brought", step)
        self.assertIsNone(self.ahead())
        self.check_brought()

    def bringing(self, at: str, number: int) -> int:
        """As a process, which gets this signal at a point."""
        if pid := os.fork():
            self.addCleanup(end_child, pid)
            return pid
        try:
            self.reader, self.store = self.reading(), store_of(self.settings)

            def passing(point: str) -> None:
                if point == at:
                    os.kill(os.getpid(), number)

            self.bring(passing)
        except BaseException:
            traceback.print_exc()
        finally:
            os._exit(0)

    def test_of_two_at_once_one_brings_it(self) -> None:
        self.go_back()
        ahead = self.ahead()
        assert ahead is not None
        self.assertEqual(bring(self.store, self.reader, ahead, self.silent()), 1002)
        self.assertIsNone(bring(self.store, self.reader, ahead, self.silent()))
        self.check_brought()

    def test_what_has_changed_meanwhile_is_left_alone(self) -> None:
        self.go_back()
        ahead = self.ahead()
        assert ahead is not None
        others = {
            "identity": "00000000-0000-4000-8000-000000000000",
            "generation": 7,
            "archived": 624,
            "chain": b"other",
            "run": "r2",
        }
        for key, value in others.items():
            seen = replace(ahead, row=replace(ahead.row, **{key: value}))
            self.assertIsNone(bring(self.store, self.reader, seen, self.silent()), key)
        self.assertIsNone(bring(self.store, self.reader, replace(ahead, cut=1), self.silent()))
        self.assertEqual((self.row_now(), self.place()), (ahead.row, (600, 600)))
        self.write(1)
        self.assertIsNone(bring(self.store, self.reader, ahead, self.silent()))
        self.assertEqual(self.row_now().archived, 626)

    def test_nothing_is_brought_beside_a_holder_or_a_service(self) -> None:
        self.go_back()
        ahead = self.ahead()
        assert ahead is not None
        self.assertIsNone(bring(self.store, self.reader, ahead, {}))
        silent = self.silent()
        self.referee.look()
        self.assertIsNone(bring(self.store, self.reader, ahead, silent))
        self.released()
        other = self.new("two")
        report = {ASIDE: [{"name": "shop", "database": self.row.identity}]}
        other._ask(
            "UPDATE pagelog_keeper SET report = report || %s WHERE name = 'two' RETURNING 1",
            (Jsonb(report),),
        )
        ahead = self.ahead()
        assert ahead is not None
        self.assertIsNone(bring(self.store, self.reader, ahead, {}))
        self.assertEqual(self.row_now().archived, 625)
        self.assertIsNotNone(bring(self.store, self.reader, ahead, {"two": self.silent()["two"]}))
        self.check_brought()

    def test_what_has_another_history_is_left_where_it_is(self) -> None:
        self.go_back()
        self.write(5)
        keys = set(self.store.list(""))
        self.assertRaisesRegex(
            OtherHistory, "up to position 925, which do not go on from position 630", self.ahead
        )
        self.kept, self.made = self.noted
        self.assertEqual(set(self.store.list("")), keys)

    def test_of_two_histories_the_later_one_is_brought_and_the_other_said(self) -> None:
        self.go_back()
        lost = self.all
        self.referee.raise_numbers(self.row.identity, 5, 5)
        self.kept = self.taken("r2")
        self.write(200, "r2")
        self.go_back()
        ahead = self.ahead()
        assert ahead is not None
        [(parted, other)] = ahead.others
        self.assertEqual((ahead.last, parted, other.last), (825, 600, len(lost)))
        self.bring()
        self.check_brought()

    def test_an_object_that_was_changed_is_refused(self) -> None:
        self.move()
        for first, last, key, _ in self.objects():
            if last <= 625:
                continue
            with self.subTest(first=first):
                good = self.store.get(key)
                self.store.put(key, good[:-1] + bytes([good[-1] ^ 1]))
                self.go_back()
                self.assertRaises(BrokenObject, self.ahead)
                self.assertEqual(self.row_now().archived, 625)
                self.store.put(key, good)
                self.made, self.kept = self.all, self.end
        self.go_back()
        self.bring()
        self.check_brought()

    def test_blocks_that_are_not_what_the_key_says_are_refused(self) -> None:
        self.go_back()
        *_, key = sorted(key for key, _ in self.store.list("shop"))
        segment = decode(self.store.get(key), key)
        head = replace(segment.head, after=b"other blocks....")
        other = Segment(head, segment.body, segment.lengths, segment.came)
        sealed = encode(other, key.partition("/")[0])
        self.store.delete(key)
        self.store.put(sealed.key, sealed.data)
        self.assertRaisesRegex(BrokenObject, "not those that were archived", self.ahead)

    def test_objects_of_another_database_are_refused(self) -> None:
        """A folder that another database of the name has written into, with the same blocks."""
        self.go_back()
        self.referee._ask(
            "UPDATE pagelog_log SET identity = overlay(identity::text placing 'ffff' from 33)::uuid RETURNING 1"
        )
        self.assertRaisesRegex(BrokenObject, "it is of another database", self.ahead)

    def test_what_was_on_its_way_is_in_the_store(self) -> None:
        """PostgreSQL is put back to where one object was read back, and another was sealed alone."""
        self.move()
        self.settings = replace(self.settings, tail=3600.0)
        self.write(120)
        self.move()
        self.write(120)
        self.assertEqual(ended(self.child("sealed", signal.SIGKILL)), -signal.SIGKILL)
        self.assertEqual({row[3] for row in self.objects()}, {0, 1, 2})
        self.settings = replace(self.settings, tail=0.0)
        self.forget()
        self.note()
        self.write(300)
        self.go_back()
        self.bring()
        self.assertEqual({row[3] for row in self.objects()}, {2})
        self.check_brought()
        self.assertEqual(self.strays(), set())

    def test_what_postgresql_alone_has_is_not_given_up(self) -> None:
        """The store's oldest objects were pruned, and PostgreSQL went back to before it had a store."""
        self.go_back()
        for key in [row[2] for row in self.objects()][:2]:
            self.store.delete(key)
        for table in ("object", "store"):
            self.referee._ask(f"DELETE FROM pagelog_{table} RETURNING 1")
        self.put_blocks(self.all[:625])
        self.assertRaisesRegex(KeeperError, "PostgreSQL would lose those from 1 on", self.ahead)

    def test_bases_come_with_their_images(self) -> None:
        before = make_base(self.reader, self.row.id, self.kept.archived, self.kept.chain).position
        self.write(150)
        last = make_base(self.reader, self.row.id, self.kept.archived, self.kept.chain).position
        self.write(30)
        self.go_back()
        ahead = self.ahead()
        assert ahead is not None
        self.assertEqual(len(ahead.bases), 2)
        self.bring()
        for base in (before, last):
            found = Bases(self.reading(), self.row.id)
            self.assertEqual(found.newest(base).position, base)
            self.assertEqual(pages_of(found, found.newest(base)), pages(self.all[:base]))
        self.check_brought()

    def test_a_database_that_had_nothing_in_the_store(self) -> None:
        """PostgreSQL went back to before the first object, and before the first block."""
        self.move()
        for archived in (625, 0):
            self.go_back()
            for table in ("object", "store"):
                self.referee._ask(f"DELETE FROM pagelog_{table} RETURNING 1")
            blocks = self.all[:archived]
            self.put_blocks(blocks)
            self.bring()
            row = self.row_now()
            self.assertEqual((row.archived, row.chain), (925, self.end.chain))
            self.assertEqual(self.read(last=925), self.all)
            self.made, self.kept = self.all, self.end

    def put_blocks(self, blocks: list[bytes]) -> None:
        """PostgreSQL has these, and no other."""
        self.referee._ask("DELETE FROM pagelog_block RETURNING 1")
        self.referee._ask(
            "UPDATE pagelog_log SET archived = 0, chain = '' WHERE id = %s RETURNING 1",
            (self.row.id,),
        )
        self.kept, self.made = replace(self.noted[0], archived=0, chain=b""), []
        if blocks:
            self.keep(list(blocks))


class Whole(unittest.TestCase):
    """Keepers, and a PostgreSQL whose folder is put back as it was."""

    def setUp(self) -> None:
        self.folder = Path(self.enterContext(tempfile.TemporaryDirectory()))
        self.server = Postgres()
        self.addCleanup(self.server.stop)
        url = self.server.url("shop")
        self.keeping = self.enterContext(Keeping(url=url, ttl=1.0, standby=False))
        self.keeping.stores(self.folder, seal="4KiB", age="0s", tail="0s")
        self.keeping.word("create", "shop", "--table", self.keeping.table)

    def put_back(self) -> None:
        """PostgreSQL stops, has what it had, and starts."""
        self.server.crash()
        shutil.rmtree(self.server.data)
        self.server.call(["cp", "-a", str(self.server.folder / "before"), str(self.server.data)])
        self.server.start()
        self.keeping.referee.close()

    def copy(self) -> None:
        self.server.run("pg_ctl", "-D", self.server.data, "-m", "fast", "-w", "stop")
        self.server.call(["cp", "-a", str(self.server.data), str(self.server.folder / "before")])
        self.server.start()
        self.keeping.referee.close()

    def write(self, numbers: range) -> int:
        with self.keeping.primary() as primary:
            for number in numbers:
                primary.append(put(number, b"<%d>" % number + bytes(300)))
                end = primary.commit(durable=True)
        return end

    def lose(self) -> None:
        """The keeper and its services die, all at once."""
        pid = self.keeping.pid()
        self.keeping.kill("a")
        os.kill(pid, signal.SIGKILL)

    def stored(self) -> int:
        found = self.keeping.referee._ask("SELECT cut FROM pagelog_store")
        return int(found[0][0]) if found else 0

    def forward(self, *words: str) -> Any:
        keeping = self.keeping
        said = ["store", "forward", "shop", "--credentials", str(keeping.file), *words]
        return CliRunner().invoke(pagelogctl, said)


class Lost(Whole):
    def test_a_database_goes_on_with_what_its_store_has(self) -> None:
        self.keeping.start("a")
        first = self.write(range(20))
        self.copy()
        end = self.write(range(20, 60))
        eventually(lambda: self.stored() >= end, "all in the store")
        self.lose()
        self.put_back()
        self.assertLess(self.keeping.row().archived, end)
        self.check_words(first, end)
        self.keeping.start("a")
        with self.keeping.reader() as reader:
            for number in (0, 19, 20, 59):
                text = b"<%d>" % number
                self.assertEqual(reader.page(number).data[: len(text)], text)
        self.assertGreater(self.write(range(60, 65)), end)
        self.assertIn("sound: ", self.keeping.word("verify", "shop", "--store"))

    def check_words(self, first: int, end: int) -> None:
        asked = self.forward()
        self.assertEqual(asked.exit_code, 2)
        self.assertRegex(asked.output, rf"PostgreSQL has positions 0 to {first}, from 20.* of shop")
        time = r"20\d\d-\d\d-\d\d [0-9:.]+"
        self.assertRegex(
            asked.output,
            rf"to be brought: positions {first + 1} to {end}, from {time}.* to {time}.*, in \d+ objects and \d bases?\n",
        )
        self.assertEqual(self.keeping.row().archived, first)
        done = self.forward("--yes")
        self.assertEqual(done.exit_code, 0, done.output)
        self.assertIn(f"shop goes on from position {end}, in generations above 100", done.output)
        self.assertEqual(self.keeping.row().archived, end)
        self.assertIn(f"nothing of shop behind position {end}", self.forward().output)
        self.assertIn("there is no database shop2", self.refused("shop2"))

    def refused(self, name: str) -> str:
        words = ["store", "forward", name, "--credentials", str(self.keeping.file)]
        return CliRunner().invoke(pagelogctl, words).output


class Living(Whole):
    def test_a_service_that_lives_has_more_than_the_store(self) -> None:
        """It is not brought forward beside it: its keeper goes on with all that it has."""
        self.keeping.start("a")
        self.write(range(20))
        self.copy()
        end = self.write(range(20, 60))
        eventually(lambda: self.stored() >= end, "all in the store")
        self.put_back()
        text = self.keeping.file.read_text()
        patient = self.folder / "patient.toml"
        patient.touch(mode=0o600)
        patient.write_text(text.replace("ttl = 1.0", "ttl = 3600.0"))  # however slow the machine is
        self.assertNotEqual(patient.read_text(), text)
        said = self.forward("--yes", "--credentials", str(patient)).output
        self.assertIn("nothing was done: keeper a lives, and holds shop: stop it", said)
        last = self.write(range(60, 61))
        self.assertGreater(last, end)
        eventually(lambda: self.keeping.row().archived >= last, "all of it again")
        self.assertGreater(len(self.keeping.archive()), end)
