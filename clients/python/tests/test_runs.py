"""A run of a service: its tokens serve it alone, its process is known again, and another process is not taken for it."""

from __future__ import annotations

import asyncio
import errno
import itertools
import json
import mmap
import os
import signal
import socket
import subprocess
import sys
import tempfile
import tomllib
import unittest
from dataclasses import replace
from pathlib import Path
from types import FrameType
from typing import Any, Iterator
from unittest.mock import patch

from keepers import blocks, end_services, eventually, services
from pagelog import (
    Connection,
    Credentials,
    HardenedAlready,
    OlderEpoch,
    Operator,
    OtherPrimary,
    Primary,
    Put,
    Reader,
    TableRow,
    UnknownPrincipal,
)
from pagelog.errors import TableError
from pagelog.keeper.archiver import RunArchiver
from pagelog.keeper.doubts import Doubts
from pagelog.keeper.acknowledged import memory_of, new_memory
from pagelog.keeper.definition import Definition, Seal
from pagelog.keeper.loading import Loader
from pagelog.referee.referee import Away, BrokenArchive, digest
from pagelog.referee.rows import Row, TableOf
from pagelog.keeper import run as run_module
from pagelog.keeper.run import (
    NotStarted,
    Program,
    Run,
    Seen,
    _facts_of,
    is_there,
    new_run,
    orphans_of,
)
from pagelog.keeper.served import Served
from pagelog.keeper.succession import _closed
from pagelog.keeper.table import (
    Form,
    keeper_of,
    quorum_of,
    read_table,
    table_of_run,
)
from pagelog.run_tokens import KEEPER, token_of
from pagelog.keeper.waits import Waits
from service import PATIENCE, PROGRAM, TABLE, WIDE_TABLE, Port, token

SECRET = b"s" * 16
TABLE_TEXT = TABLE.read_text()


class Opens:
    """The names of the files of a folder that are opened meanwhile. A hook of Python's stays for good."""

    def __init__(self, folder: Path) -> None:
        self.names: list[str] = []
        self._folder, self._is_on = str(folder), False
        sys.addaudithook(self._hear)

    def __enter__(self) -> Opens:
        self._is_on = True
        return self

    def __exit__(self, *_: object) -> None:
        self._is_on = False

    def _hear(self, event: str, arguments: tuple[object, ...]) -> None:
        if self._is_on and event == "open" and str(arguments[0]).startswith(f"{self._folder}/"):
            self.names.append(Path(str(arguments[0])).name)


class Tables(unittest.TestCase):
    def test_a_run_has_tokens_of_its_own(self) -> None:
        found = tomllib.loads(table_of_run(TABLE.read_text(), SECRET, "shop", "r1", Form.OPEN))
        tokens = {each["id"]: each["token"] for each in found["principal"]}
        self.assertEqual(tokens[2], token_of(bytes.fromhex(token(2)), "shop", "r1").hex())
        self.assertEqual(tokens[KEEPER], keeper_of(SECRET, "shop", "r1").token.hex())
        others = [
            table_of_run(TABLE.read_text(), SECRET, *of, Form.OPEN)
            for of in (("shop", "r2"), ("ship", "r1"))
        ]
        for each in tokens.values():
            self.assertNotIn(each, token(2) + "".join(others))

    def test_rows_and_counts_are_kept_behind_those_of_the_keeper(self) -> None:
        text = "copies = 6\nquorum = 4\n" + TABLE.read_text()
        found, given = tomllib.loads(
            table_of_run(text, SECRET, "shop", "r", Form.READING)
        ), tomllib.loads(text)
        self.assertEqual((found["copies"], found["quorum"], quorum_of(text)), (6, 4, 4))
        self.assertEqual(found["row"][0], {"verdict": "allow", "who": KEEPER})
        self.assertEqual(
            [row["role"] for row in found["row"][1:4]], ["primary", "page_server", "operator"]
        )
        self.assertEqual(found["row"][4:], given["row"])

    def test_what_is_no_table_is_refused(self) -> None:
        principal = f'[[principal]]\nid = 7\ntoken = "{token(7)}"\n'
        for text in (
            "",
            "x",
            "a = 1",
            principal + "[x]\n",
            "[[principal]]\nid = 1\n",
            principal.replace("7\n", f"{KEEPER}\n", 1),
            principal + "[[row]]\nverdict = 1979-05-27\n",
            principal + "[[row]]\nwho = inf\n",
            principal + "[[row]]\nop = [nan]\n",
            principal + "[[row]]\nwho = {}\n",
            "row = [7]\n" + principal,
            "principal = [7]\n",
            "copies = 1979-05-27\n" + principal,
            "a = " + "[" * 5000,
            principal * 64,
            principal + '[[row]]\nverdict = "allow"\n' * 253,
            "quorum = 3\n" + principal,
        ):
            with self.assertRaises(TableError):
                quorum_of(text)
        read_table(principal + '[[row]]\nverdict = "allow"\n' * 252)


class Runs(unittest.TestCase):
    def setUp(self) -> None:
        self.folder = Path(self.enterContext(tempfile.TemporaryDirectory()))
        self.program = Program(PROGRAM, "127.0.0.1", self.folder, 1_000_000)

    def start(
        self, form: Form = Form.OPEN, listen: str | None = None, run: str | None = None
    ) -> Run:
        run = run or new_run()
        if listen is None:
            port = Port()
            self.addCleanup(port.close)
            listen = port.address
        started = Run.start(
            self.program,
            "shop",
            run,
            table_of_run(WIDE_TABLE, SECRET, "shop", run, form),
            listen=listen,
        )
        self.addCleanup(self.kill, started)
        return started

    def kill(self, run: Run) -> None:
        """Ends its process, whatever the test has made of what is noted of it."""
        assert run._child is not None
        run._child.kill()
        run._child.wait()

    def test_a_service_inherits_no_secret_of_its_keeper(self) -> None:
        with patch.dict(
            os.environ,
            PAGELOG_ARCHIVE_URL="postgresql://keeper:secret@/",
            PGPASSWORD="secret",
            PAGELOG_OPERATOR_TOKEN=token(1),
        ):
            with (self.folder / "keeper.toml").open("w") as _, socket.socket():
                run = self.start()
        opened = {
            os.readlink(each).partition(" ")[0]
            for each in Path(f"/proc/{run.facts.pid}/fd").iterdir()
        }
        files = {each for each in opened if each.startswith("/") and not each.startswith("/dev/")}
        self.assertEqual(
            files, {f"{self.folder}/shop.{run.name}.said", "/memfd:pagelog-acknowledged"}
        )
        inherited = Path(f"/proc/{run.facts.pid}/environ").read_bytes()
        self.assertEqual(
            {pair.partition(b"=")[0] for pair in filter(None, inherited.split(b"\0"))}
            - {b"PATH", b"LANG", b"TZ"},
            set(),
        )
        self.assertIn(b"PATH=", inherited)

    def client(self, kind: type, run: Run, id: int) -> object:
        return kind(
            Connection(run.address),
            Credentials(id, token_of(bytes.fromhex(token(id)), "shop", run.name)),
        )

    def keeper(self, kind: type, run: Run) -> object:
        return kind(Connection(run.address), keeper_of(SECRET, "shop", run.name))

    def test_a_client_at_the_port_of_a_later_run_is_denied(self) -> None:
        first = self.start()
        old = Primary.take_over(
            Connection(first.address),
            Credentials(2, token_of(bytes.fromhex(token(2)), "shop", first.name)),
            self.client(Operator, first, 1),
        )
        old.append(Put(0, 0, b"x"))
        self.assertEqual((old.commit(), old.epoch), (1, 2))
        first.end()
        second = self.start(listen=first.address)
        with Loader(second.address, keeper_of(SECRET, "shop", second.name)) as loader:
            loader.load(1, [blocks(1, 1)])
        self.client(Operator, second, 1).failover(
            2
        )  # the same epoch and primary as before, at the same address
        old.append(Put(0, 0, b"y"))
        with self.assertRaises(UnknownPrincipal):
            old.commit()
        self.assertEqual(self.client(Reader, second, 3).status().hard, 1)

    def test_with_the_tokens_of_the_table_the_old_client_would_write_on(self) -> None:
        # The precaution taken out, so that the test above is known to see it.
        first = self.start(run="same")
        old = Primary.take_over(
            Connection(first.address),
            Credentials(2, token_of(bytes.fromhex(token(2)), "shop", "same")),
            self.client(Operator, first, 1),
        )
        old.append(Put(0, 0, b"x"))
        old.commit()
        first.end()
        second = self.start(listen=first.address, run="same")
        with Loader(second.address, keeper_of(SECRET, "shop", "same")) as loader:
            loader.load(1, [blocks(1, 1)])
        self.client(Operator, second, 1).failover(2)
        old.append(Put(0, 0, b"y"))
        self.assertEqual(old.commit(), 2)

    def test_the_forms_of_a_table(self) -> None:
        run = self.start(Form.READING)
        operator = self.keeper(Operator, run)
        for kind, id in ((Primary, 2), (Operator, 1)):
            with self.assertRaises((TableRow, OtherPrimary)):
                self.client(kind, run, id).status()
        self.assertEqual(self.client(Reader, run, 3).status().hard, 0)
        operator.set_table(table_of_run(WIDE_TABLE, SECRET, "shop", run.name, Form.OPEN))
        self.client(Operator, run, 1).failover(2)
        self.assertEqual(self.client(Primary, run, 2).begin().hard, 0)
        with self.assertRaises(TableRow):
            self.client(Operator, run, 1).set_table(TABLE.read_text())

    def test_a_service_that_is_closed_cannot_be_opened_again_by_a_client(self) -> None:
        served = Served("shop", "r", WIDE_TABLE, SECRET, timeout=PATIENCE)
        served.start(self.program)
        self.addCleanup(served.end)
        served.open()
        run = served.process
        assert run is not None
        operator = self.client(Operator, run, 1)
        writer = Primary.take_over(
            Connection(run.address), self.client(Primary, run, 2).credentials, operator
        )
        writer.append(Put(0, 0, b"x"))
        self.assertEqual((writer.commit(), served.close()), (1, 1))
        with self.assertRaises(TableRow):
            operator.failover(2)
        writer.append(Put(0, 0, b"y"))
        with self.assertRaises((OlderEpoch, TableRow)):
            writer.commit()
        served.look()
        self.assertEqual((served.hard, served.health.answers), (1, 1))
        self.assertEqual([len(served.pulled(0)), served.pulled(1)], [1, []])

    def test_what_was_not_archived_when_a_service_was_closed_is_brought_to_the_next_one(
        self,
    ) -> None:
        known = blocks(1, 2)
        present, following = (
            Served("shop", run, WIDE_TABLE, SECRET, timeout=PATIENCE) for run in ("r1", "r2")
        )
        for each in (present, following):
            each.start(self.program)
            self.addCleanup(each.end)
            each.fill([known], 2, digest(b"", known))
        present.open()
        assert present.process is not None
        writer = Primary.take_over(
            Connection(present.process.address),
            self.client(Primary, present.process, 2).credentials,
            self.client(Operator, present.process, 1),
        )
        for _ in range(3):
            writer.append(Put(0, 0, b"x"))
            writer.commit()
        with following.loader() as loader:
            switch = _closed(7, 4, present, following, loader)
        self.assertEqual(
            (switch.log, switch.next, switch.old, switch.end, switch.next_run), (7, 4, 2, 5, "r2")
        )
        self.assertEqual((following.pulled(0), following.reached), ([*known, *switch.blocks], 5))
        self.assertEqual(digest(b"", [*known, *switch.blocks]), switch.chain)
        # The same of a release.
        archiver = RunArchiver(Row(7, "shop"), present, Waits("shop"), Doubts(None), print, int, None)  # type: ignore[arg-type]
        last = asyncio.run(archiver.rest(5, None))
        assert last is not None
        self.assertEqual((last.old, last.blocks, last.chain), (2, switch.blocks, switch.chain))
        self.assertIsNone(asyncio.run(archiver.rest(6, None)))

    def test_one_that_is_filled_goes_on_where_the_archive_went_away(self) -> None:
        known = blocks(1, 200)
        served = Served("shop", "r", WIDE_TABLE, SECRET, timeout=PATIENCE)
        served.start(self.program)
        self.addCleanup(served.end)

        def broken() -> Iterator[list[bytes]]:
            yield known[served.loaded : served.loaded + 70]
            raise Away("PostgreSQL is gone")

        for loaded in (70, 140):
            with self.assertRaises(Away):
                served.fill(broken(), 200, digest(b"", known))
            self.assertEqual(
                (served.loaded, served.reached, served.chain, served.end_of_log()),
                (loaded, 0, b"", loaded),
            )
        with self.assertRaises(BrokenArchive):
            served.check(0, b"")  # what it has beyond was compared with nothing yet
        served.fill([known[140:]], 200, digest(b"", known))
        served.check(200, digest(b"", known))
        self.assertEqual(served.pulled(0), list(known))

    def test_what_an_older_keeper_does_not_know_of_a_process_stays_noted(self) -> None:
        run = self.start()
        file = self.folder / f"shop.{run.name}.json"
        file.write_text(
            json.dumps({**json.loads(file.read_text()), "place": {"of": "a later keeper"}})
        )
        adopted = Run.adopt(self.folder, "shop", run.name)
        assert adopted is not None
        adopted.set_aside(3, 4)
        facts = json.loads(file.read_text())
        self.assertEqual(
            (facts["place"], facts["kept"], facts["shift"]), ({"of": "a later keeper"}, True, 3)
        )

    def test_a_service_is_adopted_by_a_later_keeper(self) -> None:
        run = self.start()
        facts = json.loads((self.folder / f"shop.{run.name}.json").read_text())
        self.assertEqual((facts["pid"], facts["address"]), (run.facts.pid, run.address))
        self.assertEqual(sorted(file.suffix for file in self.folder.iterdir()), [".json", ".said"])
        adopted = Run.adopt(self.folder, "shop", run.name)
        assert adopted is not None
        self.assertEqual((adopted.facts, adopted.is_alive), (run.facts, True))
        self.assertGreater(adopted.memory, 1 << 20)
        self.assertIsNone(Run.adopt(self.folder, "shop", "another"))
        self.assertIsNone(Run.adopt(self.folder, "ship", run.name))
        os.kill(run.facts.pid, signal.SIGKILL)
        adopted.end()
        run.leave()
        self.assertIsNone(Run.adopt(self.folder, "shop", run.name))
        self.assertEqual(list(self.folder.iterdir()), [])

    def test_how_far_it_was_acknowledged_is_known_to_a_later_keeper(self) -> None:
        run = self.start()
        assert run.acknowledged is not None
        for position in (7, 5):
            run.acknowledged.note(position)
        adopted = Run.adopt(self.folder, "shop", run.name)
        assert adopted is not None
        self.assertEqual(adopted.seen, Seen(0, 7))
        adopted.note_seen(Seen(3, 6))
        self.assertEqual(adopted.seen, Seen(3, 7))
        self.assertIsNone(
            Run(self.folder, run.facts, -1).acknowledged
        )  # of a process that is not known to be this one
        os.kill(run.facts.pid, signal.SIGKILL)
        adopted.end()
        run.leave()
        self.assertEqual(run.acknowledged.position, 7)

    def test_its_memory_is_found_though_it_closes_other_descriptors_meanwhile(self) -> None:
        run, listdir = self.start(), os.listdir
        self.addCleanup(run.end)
        with patch(
            "pagelog.keeper.acknowledged.os.listdir", lambda folder: ["-1", *listdir(folder)]
        ):
            memory = memory_of(run.facts.pid)
        assert memory is not None
        os.close(memory)

    def test_its_process_remembers_its_database_and_the_newest_table(self) -> None:
        served = Served(
            "shop", "r", WIDE_TABLE, SECRET, timeout=PATIENCE, identity="i", ancestor="ship"
        )
        served.start(self.program)
        self.addCleanup(served.end)
        adopted = Run.adopt(self.folder, "shop", "r")
        assert adopted is not None and served.acknowledged is not None
        self.addCleanup(adopted.leave)
        served.reach(7, b"")
        for text in (WIDE_TABLE, *(f"# {number}\n{WIDE_TABLE}" for number in range(2, 5))):
            self.assertEqual(adopted.definition, Definition("i", text, SECRET, "ship"))
            served.renew(
                TableOf(
                    f"# {served.table_number + 1}\n{WIDE_TABLE}", SECRET, served.table_number + 1
                )
            )
        # One that was broken off leaves the one before.
        whole = adopted.definition
        with patch("os.pwrite", lambda memory, data, place: os.pwritev(memory, [data[:9]], place)):
            served.renew(TableOf(f"# of more bytes\n{WIDE_TABLE}", SECRET, 9))
        self.assertEqual((adopted.definition, adopted.seen.archived), (whole, 7))

    def test_what_it_remembers_is_sealed_for_its_run_by_its_keepers_folder(self) -> None:
        memory, other = new_memory(), new_memory()
        for each in (memory, other):
            self.addCleanup(os.close, each)
        (self.folder / "memory.key").touch()  # as a machine has left it that died
        self.assertIsNone(Seal.found(self.folder, "r"))
        seal, made = Seal.made(self.folder, "r"), Definition("i", WIDE_TABLE, SECRET)
        self.assertEqual(os.stat(self.folder / "memory.key").st_mode & 0o777, 0o600)
        made.note(memory, seal)
        made.note(other, seal)
        there = os.pread(memory, 1 << 25, 0)
        self.assertEqual(
            [
                each
                for each in (
                    SECRET,
                    SECRET.hex().encode(),
                    token(2).encode(),
                    bytes.fromhex(token(2)),
                )
                if each in there
            ],
            [],
        )
        self.assertFalse(there == os.pread(other, 1 << 25, 0))  # of 16 MiB
        self.assertEqual(Definition.noted(memory, Seal.made(self.folder, "r")), made)
        self.assertIsNone(Definition.noted(memory, Seal.made(self.folder, "another")))
        with tempfile.TemporaryDirectory() as folder:
            self.assertIsNone(Definition.noted(memory, Seal.made(Path(folder), "r")))
        first = mmap.PAGESIZE + (1 << 24)
        for at in (
            7,
            12,
            12 + 12,
            len(there) - first - 1,
        ):  # its number, its nonce, what is hidden, its tag
            os.pwrite(other, there, 0)
            os.pwrite(other, bytes([there[first + at] ^ 2]), first + at)
            self.assertIsNone(Definition.noted(other, seal), at)
        os.pwrite(other, there, 0)
        self.assertEqual(Definition.noted(other, seal), made)

    def test_an_adoption_reads_its_own_note_alone_and_opens_no_other_process(self) -> None:
        run = self.start()
        for number in range(50):  # as of other databases that run: each of this very process
            facts = replace(_facts_of(f"other{number}", "r", os.getpid()), address="127.0.0.1:1")
            (self.folder / facts.file_name).write_text(json.dumps(vars(facts)))
        with patch("os.pidfd_open", wraps=os.pidfd_open) as opened, Opens(self.folder) as opens:
            adopted = Run.adopt(self.folder, "shop", run.name)
        assert adopted is not None
        self.assertEqual(
            ([each.args for each in opened.call_args_list], opens.names),
            ([(run.facts.pid,)], [run.facts.file_name]),
        )
        adopted.end()
        run.leave()

    def test_a_service_takes_one_descriptor_of_its_keeper(self) -> None:
        before = len(os.listdir("/proc/self/fd"))
        run = self.start(listen="127.0.0.1:0")
        self.assertEqual(len(os.listdir("/proc/self/fd")), before + 1)
        run.leave()
        self.assertEqual(len(os.listdir("/proc/self/fd")), before)

    def test_one_that_does_not_end_is_waited_for_no_longer_than_a_while(self) -> None:
        """As one that waits for a disk. Its keeper goes on, and its next instance ends it."""
        run, open_before = self.start(), len(os.listdir("/proc/self/fd"))
        with patch("signal.pidfd_send_signal"), patch("pagelog.keeper.run._END", 0.01):
            self.assertFalse(run.end())
        self.assertLess(len(os.listdir("/proc/self/fd")), open_before)
        self.assertTrue((self.folder / run.facts.file_name).exists())
        self.assertEqual(self.left(set()), ["shop"])
        self.assertEqual(list(self.folder.iterdir()), [])

    def test_nor_is_one_that_did_not_come_to_listen(self) -> None:
        script, kill = self.folder / "program", subprocess.Popen.kill
        script.write_text("#!/bin/sh\nexec sleep 600\n")
        script.chmod(0o700)
        with patch.object(
            subprocess.Popen, "kill", lambda child: self.addCleanup(kill, child)
        ), patch("pagelog.keeper.run._END", 0.01):
            with self.assertRaisesRegex(NotStarted, "it said nothing"):
                Run.start(replace(self.program, path=str(script), patience=0.01), "shop", "r", "")

    def left(self, wanted: set[str]) -> list[str]:
        """The databases of the services that are left, which are ended."""
        found = orphans_of(self.folder, wanted)
        for each in found:
            each.end()
        return [each.facts.name for each in found]

    def later(self, run: Run) -> subprocess.Popen[bytes]:
        """A process that was started later than the run, by the system's clock of 10 ms: a number is not used again so soon."""
        while True:
            other = subprocess.Popen(["sleep", "600"])
            self.addCleanup(other.wait)
            self.addCleanup(other.kill)
            if _facts_of("shop", run.name, other.pid).started > run.facts.started:
                return other

    def test_another_process_with_its_number_is_not_adopted_and_not_ended(self) -> None:
        run = self.start()
        other = self.later(run)
        file = self.folder / run.facts.file_name
        for facts in (
            replace(run.facts, pid=other.pid),
            replace(run.facts, started=1),
            replace(run.facts, boot="x"),
        ):
            file.write_text(json.dumps(vars(facts)))
            self.assertIsNone(Run.adopt(self.folder, "shop", run.name))
            file.write_text(json.dumps(vars(facts)))
            self.assertEqual(self.left(set()), [])
        self.assertEqual((other.poll(), run.is_alive), (None, True))
        run.end()

    def test_orphans_are_ended_and_wanted_runs_are_not(self) -> None:
        runs = [self.start() for _ in range(3)]
        self.assertEqual(self.left({runs[1].name}), ["shop", "shop"])
        self.assertEqual([run.is_alive for run in runs], [False, True, False])
        for run in runs:
            run.end()

    def test_what_a_keeper_left_that_was_killed_while_it_started_a_service_is_removed(self) -> None:
        run = self.start()
        file = self.folder / run.facts.file_name
        file.write_text(
            json.dumps({**vars(run.facts), "address": None})
        )  # it does not listen yet: nobody could adopt it
        for name in ("ship.r.said", "ship.r.json.new"):
            (self.folder / name).touch()
        self.assertEqual(self.left({run.name}), ["shop"])
        self.assertEqual((run.is_alive, list(self.folder.iterdir())), (False, []))

    def started(self, run: str, at: int) -> int:
        """Starts it in a process that is killed before this line of what it does. Returns how that has ended."""
        lines, (here, there) = itertools.count(1), socket.socketpair()
        start = subprocess.Popen

        def traced(frame: FrameType, event: str, _: object) -> Any:
            if frame.f_code.co_filename != run_module.__file__:
                return None
            if event == "line" and next(lines) == at:
                os.kill(os.getpid(), signal.SIGKILL)
            return traced

        def held(*words: Any, **how: Any) -> subprocess.Popen[bytes]:
            made = start(*words, **how)
            assert made.stdout is not None
            socket.send_fds(
                there, [b"x"], [made.stdout.fileno()]
            )  # as where it had said where it listens before the kill
            return made

        keeper = os.fork()
        if keeper == 0:
            try:
                with patch("subprocess.Popen", held):
                    sys.settrace(traced)
                    Run.start(
                        self.program,
                        "shop",
                        run,
                        table_of_run(WIDE_TABLE, SECRET, "shop", run, Form.OPEN),
                    )
                os._exit(0)
            finally:
                os._exit(1)
        there.close()
        with here:
            for descriptor in socket.recv_fds(here, 1, 1)[1]:
                self.addCleanup(os.close, descriptor)
        return os.waitstatus_to_exitcode(os.waitpid(keeper, 0)[1])

    def test_wherever_a_keeper_is_killed_as_it_starts_a_service_that_can_be_adopted_or_ends(
        self,
    ) -> None:
        self.addCleanup(end_services, self.folder)
        status, kinds = -signal.SIGKILL, set()
        for at in itertools.count(1):
            run = new_run()
            status = self.started(run, at)
            ended = self.left({run})
            adopted = Run.adopt(self.folder, "shop", run)
            kept = [] if adopted is None else [adopted.facts.pid]
            eventually(
                lambda: services(self.folder) == kept,
                f"the end of a service whose keeper was killed before line {at}",
            )
            kinds.add((bool(ended), bool(kept)))
            if adopted is not None:
                adopted.end()
            self.assertEqual(list(self.folder.iterdir()), [])
            if status != -signal.SIGKILL:
                break
        self.assertEqual((status, kinds), (0, {(False, False), (True, False), (False, True)}))

    def test_a_service_that_does_not_start_leaves_nothing(self) -> None:
        before = os.listdir("/proc/self/fd")
        with self.assertRaisesRegex(NotStarted, "fault: table"):
            Run.start(self.program, "shop", "r", "nonsense")
        with self.assertRaises(NotStarted):
            Run.start(replace(self.program, path="/nowhere"), "shop", "r", "")
        self.assertEqual((list(self.folder.iterdir()), os.listdir("/proc/self/fd")), ([], before))

    def test_a_service_that_cannot_be_watched_any_more_is_ended(self) -> None:
        children, start, no_more = (
            list[subprocess.Popen[bytes]](),
            subprocess.Popen,
            OSError(errno.EMFILE, "too many open files"),
        )

        def started(*words: Any, **how: Any) -> subprocess.Popen[bytes]:
            children.append(start(*words, **how))
            return children[-1]

        with patch("subprocess.Popen", started), patch(
            "os.pidfd_open", side_effect=no_more
        ), patch.object(Path, "read_text", side_effect=no_more):
            with self.assertRaisesRegex(NotStarted, "too many open files"):
                Run.start(
                    self.program,
                    "shop",
                    "r",
                    table_of_run(TABLE_TEXT, SECRET, "shop", "r", Form.OPEN),
                )
        self.assertEqual(
            ([child.poll() for child in children], list(self.folder.iterdir())),
            ([-signal.SIGKILL], []),
        )

    def test_a_service_is_filled_with_the_bytes_of_the_archive(self) -> None:
        run = self.start(Form.READING)
        wanted = blocks(1, 200)
        with Loader(run.address, keeper_of(SECRET, "shop", run.name)) as loader:
            self.assertEqual(loader.load(1, [wanted[:130], wanted[130:131]]), 131)
            self.assertEqual(loader.load(132, [wanted[131:]]), 200)
            found = [block.data for block in self.keeper(Reader, run).blocks(1, follow=False)]
            self.assertEqual(found, list(wanted))
            with self.assertRaises(HardenedAlready):
                loader.load(5, [wanted[4:6]])
