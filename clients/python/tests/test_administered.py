"""The check of the torture of administration: each violation is seen, and what is excused is none; its cells, and how its processes end."""

from __future__ import annotations

import json
import os
import random
import signal
import subprocess
import sys
import tempfile
import threading
import unittest
from pathlib import Path
from typing import Any, Callable

from service import HERE
from torture_check import BOUND, Check, Drop, Past
from torture_notes import GENESIS, Job, entry, link
from torture_processes import end_told, in_own_space, signals_kept
from torture_rig import DEATHS, ENOUGH, KINDS, SUBCOMMANDS, Carried, Counts, Loss

LATE = 10 + BOUND + 1


class Administered(unittest.TestCase):
    def setUp(self) -> None:
        self.folder = Path(self.enterContext(tempfile.TemporaryDirectory()))
        self.past = Past()

    def note(self, who: str, what: str, at: float, **facts: Any) -> None:
        with (self.folder / f"{who}.notes").open("a") as notes:
            notes.write(json.dumps({"what": what, "noted": at, **facts}) + "\n")

    def commit(
        self, number: int, at: float, *, life: str = "x", what: str = "acknowledged"
    ) -> dict[str, Any]:
        """A writer's link to the chain of s1, whose numbers are those of its commits."""
        before = GENESIS
        for each in range(1, number):
            before = link(before, life, "w", each)
        one = {
            "name": "s1",
            "life": life,
            "seq": number,
            "before": before,
            "sum": link(before, life, "w", number),
        }
        self.note("w", "try", at, number=number, links=[one])
        self.note("w", what, at + 0.1, number=number, links=[one], began=at, durable=True)
        return one

    def look(
        self, at: float, one: dict[str, Any], who: str = "s1.final-durable", kind: str = "durable"
    ) -> None:
        self.note(
            who,
            "look",
            at + 0.1,
            kind=kind,
            name="s1",
            opened=1,
            process=1,
            life=one["life"],
            seq=one["seq"],
            sum=one["sum"],
            began=at,
        )

    def violations(self) -> list[str]:
        return Check(self.folder, self.past).violations()

    def assert_one(self, what: str) -> None:
        found = self.violations()
        self.assertTrue(found and all(what in each for each in found), found)

    def test_all_is_there(self) -> None:
        self.commit(1, 9)
        self.look(LATE, self.commit(2, 10))
        self.assertEqual(self.violations(), [])

    def test_a_lost_commit(self) -> None:
        first = self.commit(1, 9)
        self.commit(2, 10)
        self.look(11, first)
        self.assert_one("lost or stale: number 2")

    def test_what_postgresql_lost_is_excused_and_nothing_before_or_after(self) -> None:
        first = self.commit(1, 5)
        self.commit(2, 10)
        self.look(11, first)
        for loss, is_excused in ((Loss(9, 12), True), (Loss(1, 4), False), (Loss(11, 12), False)):
            with self.subTest(loss=vars(loss)):
                self.past.losses = [loss]
                self.assertEqual(self.violations() == [], is_excused)

    def test_a_life_that_is_gone(self) -> None:
        self.commit(1, 9)
        self.look(12, self.commit(1, 11, life="y"))
        self.assert_one("whose life is gone")
        self.past.drops = [Drop("s1", 10, 10.5, True)]
        self.assertEqual(self.violations(), [])
        self.past.lose(
            Loss(8, 10.9), copied=9.5, back=10.8
        )  # which undoes the drop, and excuses what came after the copy alone
        self.assertEqual(self.violations(), [])
        self.past.losses = [Loss(9.6, 10.9)]
        self.assert_one("whose life is gone")

    def test_a_position_that_moved(self) -> None:
        self.past.drops.append(Drop("s1", 20, 21, True))
        for at, lives, is_excused in (
            (19, "xx", False),
            (22, "xx", False),
            (22, "xy", True),
            (21 + BOUND + 1, "xy", False),
        ):
            with self.subTest(at=at, lives=lives):
                self.note(
                    "s1.readers-at",
                    "moved",
                    at + 0.1,
                    name="s1",
                    began=at,
                    lives=[*lives],
                    position=7,
                    seqs=[2, 1],
                )
                self.assert_one(
                    "moved: position 7 has link 1 of life"
                ) if not is_excused else self.assertEqual(self.violations(), [])
                (self.folder / "s1.readers-at.notes").unlink()

    def test_acknowledged_after_a_drop(self) -> None:
        self.commit(1, 9)
        self.past.drops = [Drop("s1", 10, 11, True)]
        self.commit(2, 12)
        self.assert_one("acknowledged after its database was dropped: number 2")

    def test_invented(self) -> None:
        one = self.commit(1, 9)
        self.look(11, {**one, "seq": 2, "sum": link(one["sum"], "x", "w", 2)})
        self.assertIn("invented", " ".join(self.violations()))

    def test_refused_and_yet_there(self) -> None:
        self.look(11, self.commit(1, 9, what="refused"))
        self.assert_one("refused, and yet there")

    def test_what_a_drop_took_is_there_for_a_while_still(self) -> None:
        one = self.commit(1, 10, what="lost")
        self.look(12, one)
        for drop, is_excused in (
            (Drop("s1", 10.05, 11, True), True),
            (Drop("s2", 10.05, 11, True), False),
            (Drop("s1", 9, 9.9, True), False),
            (Drop("s1", 12.5, 13, True), False),
        ):
            with self.subTest(drop=vars(drop)):
                self.past.drops = [drop]
                self.assertEqual(self.violations() == [], is_excused)
        self.past.drops = [Drop("s1", 10.05, 11, True)]
        self.look(11 + BOUND + 1, one)
        self.assert_one("refused, and yet there")

    def test_what_a_drop_takes_was_there_before(self) -> None:
        one = self.commit(1, 10, what="lost")  # which is told at 10.1
        self.look(10.02, one)
        for drop, is_excused in (
            (Drop("s1", 10.05, 11, True), True),
            (Drop("s2", 10.05, 11, True), False),
            (Drop("s1", 10.5, 11, True), False),
            (Drop("s1", 9, 9.9, True), False),
        ):
            with self.subTest(drop=vars(drop)):
                self.past.drops = [drop]
                self.assertEqual(self.violations() == [], is_excused)

    def test_lost_by_what_postgresql_has_lost_itself(self) -> None:
        """As by a drop that it said, and then it went back to before that."""
        self.look(LATE, self.commit(1, 9, what="lost"))
        self.assert_one("refused, and yet there")
        self.past.losses.append(Loss(9.5, 10))
        self.past.bound = 0.0
        self.assert_one("refused, and yet there")
        self.past.losses.append(Loss(8, 9.2))
        self.assertEqual(self.violations(), [])

    def test_refused_by_the_last_of_two_databases(self) -> None:
        one = self.commit(1, 9, what="failed")
        self.note("v", "try", 9, number=1, links=[{**one, "sum": "another"}, one])
        self.note("v", "refused", 9.1, number=1)
        self.look(11, one)
        self.assert_one("refused, and yet there")

    def test_refused_by_the_last_of_two_databases_and_not_changed_back(self) -> None:
        one = self.commit(1, 9, what="failed")
        self.note("v", "try", 9, number=1, links=[one, {**one, "name": "s2"}])
        self.note("v", "refused", 9.1, number=1)
        self.look(11, one)
        self.assertEqual(self.violations(), [])

    def test_a_reader_that_goes_back(self) -> None:
        first, second = self.commit(1, 5), self.commit(2, 10)
        self.look(11, second, "r")
        self.look(12, first, "r")
        self.assert_one("went back")
        self.past.losses = [Loss(9, 11.5)]
        self.assertEqual(self.violations(), [])

    def test_half_of_a_transaction_to_two_databases_is_changed_back(self) -> None:
        first, second = self.commit(1, 5), self.commit(2, 10, what="failed")
        self.look(11, second, "r")
        self.look(12, first, "r")
        self.assert_one("went back")
        self.note("w", "try", 9, number=2, links=[second, {**second, "name": "s2"}])
        self.assertEqual(self.violations(), [])

    def test_half_of_a_transaction_that_made_a_life_is_changed_back(self) -> None:
        first = self.commit(1, 10, what="failed")
        self.look(11, first, "r")
        self.look(12, {**first, "life": "", "seq": 0, "sum": GENESIS}, "r")
        self.assert_one("went back")
        self.note("w", "try", 9, number=1, links=[first, {**first, "name": "s2"}])
        self.assertEqual(self.violations(), [])

    def test_another_connection_of_a_process_that_was_opened_before(self) -> None:
        first, second = self.commit(1, 5), self.commit(2, 10)
        self.look(9, first, "r-a")
        self.look(11, second, "r-b")
        self.look(12, first, "r-a")
        self.assertEqual(self.violations(), [])
        self.look(13, first, "r-c")
        self.assert_one("r-c went back")

    def test_a_reader_that_is_stale(self) -> None:
        first = self.commit(1, 5)
        self.commit(2, 10)
        self.look(LATE - 2, first, "r", "plain")
        self.assertEqual(self.violations(), [])
        self.look(LATE, first, "r", "plain")
        self.assert_one("lost or stale: number 2")

    def test_a_reader_that_stays_at_an_old_life(self) -> None:
        old = self.commit(1, 5)
        self.past.drops = [Drop("s1", 6, 7, True)]
        new = self.commit(1, 10, life="y")
        self.look(LATE, new)
        self.assertEqual(self.violations(), [])
        self.look(LATE, old, "r", "plain")
        self.assert_one("stale: r")

    def test_pages(self) -> None:
        links = [{"name": "p1", "life": "x"}]
        for number in (1, 2):
            self.note("p1.w-0", "try", 9, number=number, links=links)
            self.note(
                "p1.w-0", "acknowledged", 10, number=number, links=links, began=9, durable=True
            )
        facts = {
            "kind": "durable",
            "name": "p1",
            "opened": 1,
            "life": "x",
            "end": 2,
            "writer": "p1.w-0",
            "first": 0,
            "began": 11,
        }
        self.note("p1.final-durable", "look", 11, bits=hex(0b110), **facts)
        self.assertEqual(self.violations(), [])
        self.note("p1.final-durable", "look", 12, bits=hex(0b010), **{**facts, "began": 12})
        self.assertEqual(
            sorted(each.split(":")[0].split(" {")[0] for each in self.violations()),
            ["lost or stale", "p1.final-durable went back"],
        )
        self.note("p1.final-durable", "look", 13, bits=hex(0b1110), **{**facts, "began": 13})
        self.assertIn("invented: [3]", " ".join(self.violations()))

    def test_a_line_of_a_client_that_was_killed(self) -> None:
        self.look(11, self.commit(1, 9))
        with (self.folder / "w.notes").open("a") as notes:
            notes.write('{"what": "acknow')
        self.assertEqual(self.violations(), [])

    def test_entries_differ_by_life_writer_and_number(self) -> None:
        self.assertEqual(
            len(
                {
                    entry(*each)
                    for each in (("x", "w", 1), ("y", "w", 1), ("x", "v", 1), ("x", "w", 2))
                }
            ),
            4,
        )


class Draws(unittest.TestCase):
    def test_no_session_of_a_client_draws_what_the_one_before_drew(self) -> None:
        def drawn() -> list[float]:
            job = Job(Path("/nowhere"), [], "p1", "p1.writes-0", 13)
            return [next(job.until_over(0)).random() for _ in range(3)]

        self.assertEqual(len(set(drawn())), 3)
        self.assertEqual(drawn(), drawn())


class Cells(unittest.TestCase):
    """Which subcommand meets which death next, and counts that go on over runs."""

    def setUp(self) -> None:
        self.chance = random.Random(1)
        self.counts = Counts()
        for subcommand in SUBCOMMANDS:
            for death in DEATHS:
                self.counts.add(subcommand, death, "alone", 5)

    def test_the_cell_that_has_come_least_often_is_next(self) -> None:
        self.counts.add("prune", "keeper", "alone", -1)
        possible = [["prune", "rollover"], ["resume"]]
        self.assertEqual(self.counts.rarest_death(possible, "alone", self.chance), "keeper")
        self.assertEqual(self.counts.rarest(possible[0], "keeper", "alone", self.chance), "prune")

    def test_a_death_is_of_no_use_where_what_lacks_it_is_not_possible(self) -> None:
        self.counts.add("create", "keeper", "alone", -3)
        self.counts.add("prune", "service", "alone", -1)
        self.assertEqual(self.counts.rarest_death([["prune"]] * 5, "alone", self.chance), "service")

    def test_what_only_another_subcommand_makes_possible_makes_that_one_rare(self) -> None:
        for death in DEATHS:
            self.counts.add("create", death, "alone", -2)
        self.counts.add("prune", "service", "alone", -1)
        some = ["prune", "drop", "pause"]
        self.assertEqual(self.counts.rarest(some, "service", "alone", self.chance), "drop")

    def test_the_kind_that_lacks_most_is_next(self) -> None:
        for kind in KINDS:
            for subcommand in SUBCOMMANDS:
                for death in DEATHS:
                    self.counts.add(subcommand, death, kind, ENOUGH)
        self.counts.add("prune", "none", "asynchronous", 1 - ENOUGH)
        self.assertEqual(self.counts.rarest_kind(KINDS), "asynchronous")

    def test_runs_side_by_side_add_to_one_file(self) -> None:
        folder = Path(self.enterContext(tempfile.TemporaryDirectory()))
        one = Counts({"prune/none/alone": 1})

        def add() -> None:
            for _ in range(50):
                Carried(folder / "counts").add(one)

        threads = [threading.Thread(target=add) for _ in range(4)]
        for thread in threads:
            thread.start()
        for thread in threads:
            thread.join()
        self.assertEqual(Carried(folder / "counts").known().get("prune", "none", "alone"), 200)


TELLING = """
import os, signal, sys
from pathlib import Path
from torture_processes import tell_who_ends
tell_who_ends(Path(sys.argv[1]))
child = os.fork()
if not child:
    os.kill(os.getpid(), signal.SIGTERM)  # of a child nothing is told, and it ends
print("child", os.WTERMSIG(os.waitpid(child, 0)[1]), flush=True)
sys.stdin.read()
"""

ORPHAN = """
import os, sys
here, there = os.pipe()
if os.fork() == 0:
    parent = os.getpid()
    if os.fork() == 0:
        while os.getppid() == parent:
            pass
        os.write(there, b"%d" % os.getpid())
        os.kill(os.getpid(), int(sys.argv[1]))
    os._exit(0)
orphan = os.read(here, 9).decode()
while os.path.exists("/proc/" + orphan):
    pass
"""


class Ends(unittest.TestCase):
    """What processes were ended by."""

    def setUp(self) -> None:
        self.file = Path(self.enterContext(tempfile.TemporaryDirectory())) / "end"
        self.telling = [sys.executable, "-c", TELLING, str(self.file)]

    def run_until_it_is_ended(self, words: list[str], end: Callable[[int], None]) -> int:
        """`end` gets the number of what was called."""
        with subprocess.Popen(
            words, cwd=HERE, stdin=subprocess.PIPE, stdout=subprocess.PIPE, text=True
        ) as called:
            assert called.stdout is not None
            self.assertEqual(called.stdout.readline().split(), ["child", str(signal.SIGTERM.value)])
            end(called.pid)
            return called.wait()

    def test_a_client_says_who_has_ended_it(self) -> None:
        status = self.run_until_it_is_ended(self.telling, lambda pid: os.kill(pid, signal.SIGTERM))
        told = end_told(status, self.file)
        self.assertRegex(told, rf"was ended by SIGTERM, which \S+, process {os.getpid()}, sent")
        self.assertEqual(end_told(status, self.file), "was ended by SIGTERM")

    def test_also_who_has_ended_one_that_had_just_begun(self) -> None:
        with signals_kept():
            called = subprocess.Popen(
                self.telling, cwd=HERE, stdin=subprocess.PIPE, stdout=subprocess.DEVNULL
            )
        with called:
            called.terminate()
            self.assertIn("sent", end_told(called.wait(), self.file))

    @unittest.skipUnless(os.geteuid() == 0, "only root can have a space of processes")
    def test_who_is_in_no_space_of_a_torture_has_no_name_there(self) -> None:
        def end(_: int) -> None:
            named = [each for each in Path("/proc").glob("[0-9]*") if _calls(each, self.telling)]
            os.kill(min(int(each.name) for each in named), signal.SIGTERM)

        self.assertEqual(
            self.run_until_it_is_ended(in_own_space(self.telling), end), 128 + signal.SIGTERM
        )
        self.assertEqual(self.file.read_text(), ", which somebody outside of the torture sent")

    @unittest.skipUnless(os.geteuid() == 0, "only root can have a space of processes")
    def test_an_orphan_that_is_ended_by_a_strange_signal_is_a_violation(self) -> None:
        for number, found in ((signal.SIGSEGV, 1), (signal.SIGKILL, 0)):
            words = [sys.executable, "-c", ORPHAN, str(number.value)]
            done = subprocess.run(in_own_space(words), stdout=subprocess.PIPE, text=True)
            self.assertEqual((done.returncode, done.stdout.count("violation: ")), (found, found))


def _calls(process: Path, words: list[str]) -> bool:
    """Whether it was called by these words alone."""
    try:
        return (process / "cmdline").read_text().split("\0")[:-1] == words
    except OSError:
        return False  # it has ended


if __name__ == "__main__":
    unittest.main()
