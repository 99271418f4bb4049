"""Attacks on the keepers and their clients: doubts, hangs and interrupts at the points where they hurt most."""

from __future__ import annotations

import asyncio
import fcntl
import os
import resource
import signal
import socket
import subprocess
import sys
import tempfile
import threading
import time
import unittest
from concurrent.futures import ThreadPoolExecutor
from dataclasses import replace
from pathlib import Path
from unittest.mock import Mock, patch

import psycopg
from click.testing import CliRunner

from keepers import (
    Gate,
    Kept,
    Keeping,
    Line,
    Trigger,
    batch_of,
    blocks,
    eventually,
    new_database,
    new_url,
)
from pagelog import Connection, ConnectionLost, OlderEpoch, OtherPrimary, Primary, Reader
from pagelog.cli.words import pagelogctl
from pagelog.referee import referee as referee_module
from pagelog.referee.bases import Base, Bases
from pagelog.keeper.doubts import Doubts, Fenced
from pagelog.referee.referee import Doubt, Referee, digest
from pagelog.referee.rows import Batch, Kept as KeptBatch
from pagelog.keeper.run import ProcessFacts, Run
from pagelog.keeper.session import Session
from pagelog.keeper.shared import Shared
from pagelog.keeper.table import keeper_of
from pagelog.run_tokens import KEEPER
from pagelog.place import GenerationFate, Keepers, Place
from pagelog.reply import State
from service import PATIENCE, PROGRAM, SOURCE, accept_each, stand_still
from test_referee import Referees


class Statements(Kept):
    """Statements of a keeper that are in doubt, or refused, once."""

    keepers = "a"

    def test_a_place_whose_publication_was_in_doubt_is_archived(self) -> None:
        with self.keeping.primary() as primary:
            self.commit(primary, "1", durable=True)
            # It is committed, and PostgreSQL warns, as where its wait for the standby was cancelled.
            trigger = Trigger(
                self.keeping.url,
                "pagelog_log",
                "UPDATE ON pagelog_log FOR EACH ROW WHEN (NEW.address IS NOT NULL AND "
                "OLD.address IS NULL)",
                "RAISE WARNING 'cancelled'",
            )
            self.addCleanup(trigger.close)
            os.kill(self.keeping.pid(), signal.SIGKILL)
            self.assertEqual(self.commit(primary, "2", durable=True), 2)
            self.assertIn("cancelled", self.keeping.said())
            self.keeping.kill("a", signal.SIGTERM)
            self.assertEqual(self.texts(), [b"1", b"2"])

    def test_what_an_earlier_life_archives_late_stops_nothing(self) -> None:
        with self.keeping.primary() as primary:
            self.commit(primary, "1", durable=True)
            place = self.keeping.place()
            self.keeping.kill("a", signal.SIGSTOP)
            self.commit(primary, "2")
            self.commit(primary, "3")
            # A batch that a previous instance had sent arrives once the position has been read: the next batch does not fit.
            row = self.keeping.row()
            with Reader(
                Connection(place.address), keeper_of(b"s" * 16, "shop", place.run)
            ) as reader:
                late = (reader.pull(2, max=1).blocks[0].data,)
            batch = Batch(row.id, place.run, row.generation, 1, digest(row.chain, late), late)
            self.assertEqual(self.keeping.referee.keep([batch]), {row.id})
            self.keeping.kill("a", signal.SIGCONT)
            primary.durable(3)
            self.assertEqual(self.commit(primary, "4", durable=True), 4)
            self.assertEqual(
                (self.texts(), self.keeping.place().generation),
                ([b"1", b"2", b"3", b"4"], place.generation),
            )

    def test_a_writer_that_is_fenced_as_it_begins_fences_nobody(self) -> None:
        with self.keeping.primary() as one, self.keeping.primary(id=5) as other:
            self.commit(one, "1", durable=True)
            one._leave()
            place = self.keeping.place()
            os.kill(self.keeping.pid(), signal.SIGKILL)
            self.keeping.place(least=place.generation + 1)
            begin, cuts = Primary.begin, iter((True,))

            def begin_late(primary: Primary) -> State:
                if primary.credentials.id == 2 and next(cuts, False):
                    other._move()
                return begin(primary)

            with patch.object(Primary, "begin", begin_late), self.assertRaises(
                (OlderEpoch, OtherPrimary)
            ):
                self.commit(one, "3")
            self.assertEqual(self.commit(other, "2", durable=True), 2)
            self.assertEqual(self.texts(), [b"1", b"2"])


class Standbys(Kept):
    def beat(self, name: str) -> int:
        return next(
            keeper.beat
            for keeper in self.keeping.referee.everything().keepers
            if keeper.name == name
        )

    def test_a_standby_that_could_not_be_noted_is_noted_later(self) -> None:
        eventually(lambda: len(self.keeping.standbys()) == 1, "a standby")
        [name] = self.keeping.standbys()
        trigger = Trigger(
            self.keeping.url,
            "pagelog_standby",
            "INSERT ON pagelog_standby FOR EACH ROW",
            "RAISE EXCEPTION 'no room'",
        )
        self.addCleanup(trigger.close)
        [note] = self.keeping.folder.glob(f"{name}/shop.*.json")
        os.kill(int(note.read_text().partition('"pid": ')[2].partition(",")[0]), signal.SIGKILL)
        eventually(lambda: "no room" in self.keeping.said(), "the refusal")
        trigger.close()
        eventually(lambda: len(self.keeping.standbys()) == 1, "the standby")

    def test_a_service_that_hangs_while_it_is_closed_is_ended(self) -> None:
        with self.keeping.primary() as primary:
            self.commit(primary, "1", durable=True)
            eventually(lambda: len(self.keeping.standbys()) == 1, "a standby")
            gate = Gate(self.keeping.url, "NEW.archived > OLD.archived")
            pid, before = self.keeping.pid(), self.keeping.place()
            holder = next(
                name
                for name, port in self.keeping.ports.items()
                if before.lines.endswith(f":{port}")
            )
            self.commit(primary, "2")
            gate.somebody_waits()
            self.commit(primary, "3")  # it is pulled once the batch at the gate is kept
            self.keeping.processes[holder].send_signal(signal.SIGTERM)
            eventually(lambda: "the keeper ends" in self.keeping.said(), "the end of the keeper")
            with Reader(
                Connection(before.address), keeper_of(b"s" * 16, "shop", before.run)
            ) as reader:
                eventually(lambda: reader.status().primary == KEEPER, "the closed table")
            looks = self.beat(holder)
            eventually(lambda: self.beat(holder) > looks + 1, "the wait for the rest")
            stand_still(pid)
            gate.open()
            self.assertEqual(self.keeping.processes[holder].wait(PATIENCE), 0)
            self.assertEqual(self.commit(primary, "4", durable=True), 4)
            self.assertEqual(self.texts(), [b"1", b"2", b"3", b"4"])

    def test_writers_go_on_where_a_switchover_is_taken_back_once_its_release_was_refused(
        self,
    ) -> None:
        with self.keeping.primary() as primary:
            self.commit(primary, "1", durable=True)
            eventually(lambda: len(self.keeping.standbys()) == 1, "a standby")
            before = self.keeping.place()
            trigger = Trigger(
                self.keeping.url,
                "pagelog_log",
                "UPDATE ON pagelog_log FOR EACH ROW WHEN (NEW.run IS NULL AND OLD.run IS NOT NULL)",
                "RAISE EXCEPTION 'no room'",
            )
            self.addCleanup(trigger.close)
            self.keeping.word("switchover", "shop")
            eventually(lambda: "close: PostgreSQL: no room" in self.keeping.said(), "the refusal")
            self.keeping.referee.wish("shop", None)
            self.assertEqual(self.commit(primary, "2", durable=True), 2)
            self.assertEqual(self.keeping.place().run, before.run)

    def test_a_durable_page_is_of_the_run_that_its_end_is_of(self) -> None:
        with self.keeping.primary() as primary, self.keeping.primary(id=5) as other:
            self.commit(primary, "1", durable=True)
            eventually(lambda: len(self.keeping.standbys()) == 1, "a standby")
            place = self.keeping.place()
            holder = next(
                name
                for name, port in self.keeping.ports.items()
                if place.lines.endswith(f":{port}")
            )
            self.keeping.kill(holder)
            self.assertEqual(self.commit(primary, "orphan"), 2)
            self.keeping.place(least=place.generation + 1)
            self.assertEqual(self.commit(other, "2", durable=True), 2)
            with self.keeping.reader(durable_only=True) as reader:
                eventually(lambda: reader.end() == 2, "the end")
                opened, stale = reader._opened, Reader(
                    Connection(place.address), reader._account.of(place)
                )
                self.addCleanup(stale.close)
                cuts = iter((True,))

                def cut(*_: object) -> None:
                    raise ConnectionLost("cut")

                def reopened() -> Reader:
                    if not next(cuts, False):
                        return opened()
                    reader._reader, reader.place = (
                        stale,
                        place,
                    )  # a keeper that is cut off names the old place
                    return stale

                reader._reader.pages, reader._opened = cut, reopened  # type: ignore
                self.assertEqual(reader.page(0).data[:3], b"<2>")


class BadProgram(unittest.TestCase):
    def test_a_keeper_whose_program_is_broken_takes_once_in_a_ttl_and_leaves_room_for_another(
        self,
    ) -> None:
        with Keeping(ttl=1.0, standby=False, url=new_url()) as keeping:
            keeping.referee.create("shop", keeping.table.read_text(), b"s" * 16)
            began = time.monotonic()
            keeping.start("a", program="/bin/false")

            def beat() -> int:
                return next(
                    keeper.beat
                    for keeper in keeping.referee.everything().keepers
                    if keeper.name == "a"
                )

            first = beat()
            eventually(lambda: beat() > first + 12, "looks of three ttl")
            self.assertLessEqual(
                keeping.row().generation, 1 + (time.monotonic() - began) / keeping.ttl
            )
            keeping.start("b")
            eventually(
                lambda: keeping.row().holder == "b" and keeping.row().address is not None,
                "the keeper that can",
            )


class Interrupted(unittest.TestCase):
    """A keeper that answers each question when it is told to."""

    def setUp(self) -> None:
        self.listener = socket.create_server(("127.0.0.1", 0))
        self.addCleanup(self.listener.close)
        self.asked: list[str] = []
        self.late = threading.Event()
        accept_each(self.listener, self.answer)
        self.keepers = Keepers("shop", [f"127.0.0.1:{self.listener.getsockname()[1]}"], PATIENCE)
        self.addCleanup(self.keepers.close)

    def answer(self, line: socket.socket) -> None:
        with line, line.makefile("r") as text:
            try:
                for asked in text:
                    self.asked.append(asked)
                    words = asked.split()
                    if words[2:3] == ["1"]:
                        self.late.wait(PATIENCE)
                    answers = {"1": "over shop 1 5", "2": "durable shop 2 7"}
                    told = (
                        "hello 2"
                        if words[0] == "hello"
                        else answers.get(words[2] if len(words) > 2 else "", "nowhere shop")
                    )
                    line.sendall(" ".join((told, *words[4:], "\n")).encode())
            except OSError:
                pass

    def place(self, generation: int) -> Place:
        return Place(
            generation,
            "r",
            "127.0.0.1:1",
            0,
            self.keepers._addresses[0],
            0,
            0,
            0,
            "11111111-2222-4333-8444-555555555555",
        )

    def test_an_answer_to_a_question_that_was_interrupted_is_not_taken_for_another(self) -> None:
        def interrupt(*_: object) -> None:
            raise KeyboardInterrupt

        before = signal.signal(signal.SIGUSR2, interrupt)
        self.addCleanup(signal.signal, signal.SIGUSR2, before)

        def when_asked() -> None:
            eventually(lambda: len(self.asked) > 1, "the question behind the greeting")
            os.kill(os.getpid(), signal.SIGUSR2)

        threading.Thread(target=when_asked).start()
        with self.assertRaises(KeyboardInterrupt):
            self.keepers.fate(self.place(1), 6)
        self.late.set()
        self.assertEqual(self.keepers.fate(self.place(2), 7), GenerationFate(7, False))

    def test_a_child_has_lines_of_its_own(self) -> None:
        self.keepers.where()
        [line] = self.keepers._lines.values()
        child = os.fork()
        if child == 0:
            try:
                self.keepers.where()
                os._exit(
                    0 if self.keepers._lines and line not in self.keepers._lines.values() else 1
                )
            finally:
                os._exit(2)
        self.assertEqual(os.waitstatus_to_exitcode(os.waitpid(child, 0)[1]), 0)


class ManyFiles(unittest.TestCase):
    def test_a_process_is_watched_where_a_thousand_files_are_open(self) -> None:
        soft, hard = resource.getrlimit(resource.RLIMIT_NOFILE)
        resource.setrlimit(resource.RLIMIT_NOFILE, (max(soft, min(hard, 3000)), hard))
        self.addCleanup(resource.setrlimit, resource.RLIMIT_NOFILE, (soft, hard))
        child = subprocess.Popen(["sleep", "1000"])
        opened = os.pidfd_open(child.pid)
        high = fcntl.fcntl(opened, fcntl.F_DUPFD_CLOEXEC, 2000)
        os.close(opened)
        with tempfile.TemporaryDirectory() as folder:
            run = Run(Path(folder), ProcessFacts("shop", "r", child.pid, 0, ""), high, child)
            self.assertTrue(run.is_alive)
            run.end()
        self.assertEqual(child.poll(), -signal.SIGKILL)


class Lookups(Referees):
    def test_what_a_take_lacks_is_read_without_another_thread(self) -> None:
        batch = batch_of(self.row, self.taken(), "r1")
        self.referee.keep([batch])
        shared, served = Shared(
            Mock(), "", Session(self.referee, PATIENCE), Mock(), Mock(), print, print
        ), Mock(reached=1, loaded=1)
        with patch(
            "pagelog.referee.referee.threading.Timer", side_effect=AssertionError("a thread")
        ):
            asyncio.run(shared.fill(served, self.row.id, 3, batch.chain))
        served.fill.assert_called_once_with([list(blocks(2, 2))], 3, batch.chain)

    def test_a_batch_of_a_run_that_is_over_is_fenced(self) -> None:
        kept = self.taken()

        async def look_up() -> KeptBatch:
            doubts = Doubts(Session(self.referee, PATIENCE))
            with self.assertRaises(Fenced):
                await doubts.look_up(self.row.id, "over")
            return await doubts.look_up(self.row.id, "r1")

        found = asyncio.run(look_up())
        self.assertEqual((found.archived, found.generation), (0, kept.generation))
        self.assertIsNone(self.referee.descriptor)  # nothing is in doubt any more


class Away(unittest.TestCase):
    def test_a_read_of_blocks_that_hangs_is_cut(self) -> None:
        url, longest = new_url(), referee_module.LONGEST
        line = Line(stalls=True)
        self.addCleanup(line.close)
        referee = Referee(line.url(url), "one")
        self.addCleanup(referee.close)
        row = new_database(referee, "shop")
        bases = Bases(referee, row.id)
        referee_module.LONGEST = 0.2
        self.addCleanup(setattr, referee_module, "LONGEST", longest)
        for read in (
            lambda: list(referee.blocks(row.id, 1, 3)),
            lambda: bases.newest(3),
            lambda: list(bases.images(Base(3, b"", b"", 1))),
        ):
            line.count_from_now()
            referee.everything()
            line.count_from_now(to=0)
            with self.assertRaises(Doubt):
                read()

    def test_a_word_of_a_person_that_hangs_is_cut(self) -> None:
        url, connected, cut, line = new_url(), Referee._connected, Referee.cut, Line(stalls=True)
        self.addCleanup(line.close)
        file = Path(self.enterContext(tempfile.TemporaryDirectory())) / "keeper.toml"
        file.touch(mode=0o600)
        file.write_text(f'[archive]\nurl = "{line.url(url)}"\n')

        def stands_still(referee: Referee) -> psycopg.Connection[tuple[object, ...]]:
            made = connected(referee)
            line.count_from_now(to=0)
            return made

        def cuts_what_hangs(referee: Referee) -> None:
            if line.left["to"] == 0:  # and nothing that is slow before
                cut(referee)

        for word in (
            ("list",),
            ("where", "shop"),
            ("pause", "shop"),
            ("switchover", "shop"),
            ("rollover", "shop"),
        ):
            line.count_from_now()
            with patch.object(Referee, "_connected", stands_still), patch.object(
                Referee, "cut", cuts_what_hangs
            ), patch("pagelog.cli.keeper_words.LONGEST", 0.1):
                done = CliRunner().invoke(pagelogctl, [*word, "--credentials", str(file)])
            self.assertEqual(
                (word, done.exit_code, done.output.partition(":")[2][:18]),
                (word, 3, " Doubt: PostgreSQL"),
                done.exception,
            )

    def test_services_that_hang_hold_up_no_statement(self) -> None:
        hangs, referee = threading.Event(), Referee("postgresql://127.0.0.1:1/none")

        async def ask() -> int:
            loop = asyncio.get_running_loop()
            loop.set_default_executor(ThreadPoolExecutor(1))
            looking = loop.run_in_executor(None, hangs.wait)
            try:
                return await asyncio.wait_for(
                    Session(referee, PATIENCE).ask(lambda: 1), PATIENCE / 2
                )
            finally:
                hangs.set()
                await looking

        self.assertEqual(asyncio.run(ask()), 1)

    def test_a_keeper_that_never_reached_postgresql_ends_when_it_is_told_to(self) -> None:
        with tempfile.TemporaryDirectory() as folder:
            file, log = Path(folder) / "keeper.toml", Path(folder) / "log"
            file.touch(mode=0o600)
            file.write_text('[archive]\nurl = "postgresql://127.0.0.1:1/none"\n')
            words = [
                sys.executable,
                "-m",
                "pagelog",
                "keep",
                "--name",
                "a",
                "--listen",
                "127.0.0.1:0",
                "--service-host",
                "127.0.0.1",
                "--folder",
                folder + "/a",
                "--program",
                PROGRAM,
                "--credentials",
                str(file),
            ]
            with log.open("w") as errors:
                process = subprocess.Popen(
                    words,
                    stdout=subprocess.DEVNULL,
                    stderr=errors,
                    env={**os.environ, "PYTHONPATH": str(SOURCE)},
                )
            self.addCleanup(process.kill)
            eventually(lambda: "PostgreSQL" in log.read_text(), "a try")
            process.send_signal(signal.SIGTERM)
            self.assertEqual(process.wait(PATIENCE), 0)
