"""Services that run as another user than their keeper: what reaches them, who may ask for one, and that keepers end and adopt them."""

from __future__ import annotations

import itertools
import os
import signal
import subprocess
import sys
import tempfile
import time
import traceback
import unittest
from dataclasses import replace
from pathlib import Path
from types import FrameType
from typing import Any
from unittest.mock import patch

from apart import CAN, KEEPERS, SERVICES, WHY_NOT, Apart, RunnerOf, as_user, of_user
from keepers import Kept, end_services, eventually, services
from pagelog.keeper import run as run_module
from pagelog.keeper import runner as runner_module
from pagelog.keeper.acknowledged import memory_of
from pagelog.keeper.definition import Definition
from pagelog.keeper.run import NotStarted, Program, Run, Seen, new_run, orphans_of
from pagelog.keeper.runner import Runner, RunnerError
from pagelog.keeper.table import Form, table_of_run
from pagelog.keeper.unix import public_socket
from service import PATIENCE, PROGRAM, WIDE_TABLE

SECRET = b"s" * 16


def status_of(pid: int) -> dict[str, str]:
    """What /proc has of a process, by its words."""
    return dict(
        line.split(":\t", 1)
        for line in Path(f"/proc/{pid}/status").read_text().splitlines()
        if ":\t" in line
    )


def can_read(user: int, path: Path) -> bool:
    """Whether a process of this user can read something there."""
    return (
        subprocess.run(
            ["sh", "-c", 'test -d "$1" && ls "$1" || cat "$1"', "sh", path],
            capture_output=True,
            **of_user(user),
        ).returncode
        == 0
    )


@unittest.skipUnless(CAN, WHY_NOT)
class Runs(unittest.TestCase):
    """Of one run, without a keeper."""

    def setUp(self) -> None:
        top = Path(self.enterContext(tempfile.TemporaryDirectory()))
        top.chmod(0o711)
        self.folder = top / "keeper"
        self.folder.mkdir(mode=0o700)
        os.chown(self.folder, KEEPERS, KEEPERS)
        self.addCleanup(end_services, self.folder)
        self.runner = RunnerOf(top / "runner")
        self.addCleanup(lambda: self.runner.kill())
        self.runner.start(
            {"PGPASSWORD": "secret", "PAGELOG_ARCHIVE_URL": "postgresql://runner:secret@/"}
        )
        self.program = Program(
            PROGRAM, "127.0.0.1", self.folder, 1_000_000, runner=Runner(self.runner.socket)
        )

    def start(self, run: str = "r", **how: Any) -> int:
        """Starts one as the keepers' user, who is gone then. Its process."""
        table = table_of_run(WIDE_TABLE, SECRET, "shop", run, Form.OPEN)
        return int(
            as_user(
                KEEPERS,
                lambda: Run.start(replace(self.program, **how), "shop", run, table).facts.pid,
            )
        )

    def adopted(self, what: Any) -> Any:
        """What the keepers' user finds of it."""

        def call() -> Any:
            found = Run.adopt(self.folder, "shop", "r")
            return None if found is None else what(found)

        return as_user(KEEPERS, call)

    def test_it_is_another_users_and_has_no_right_no_variable_and_no_descriptor_besides(
        self,
    ) -> None:
        pid = self.start()
        told = status_of(pid)
        self.assertEqual(
            (told["Uid"], told["Gid"], told["Groups"].strip()),
            ("\t".join([str(SERVICES)] * 4), "\t".join([str(SERVICES)] * 4), ""),
        )
        self.assertEqual(
            {told[name].strip("0") for name in ("CapInh", "CapPrm", "CapEff", "CapAmb")}, {""}
        )
        self.assertEqual(told["NoNewPrivs"], "0")  # the unit's
        inherited = Path(f"/proc/{pid}/environ").read_bytes()
        self.assertEqual(
            {pair.partition(b"=")[0] for pair in filter(None, inherited.split(b"\0"))}
            - {b"PATH", b"LANG", b"TZ"},
            set(),
        )
        opened = {os.readlink(each).partition(" ")[0] for each in Path(f"/proc/{pid}/fd").iterdir()}
        self.assertEqual(
            {each for each in opened if each.startswith("/") and not each.startswith("/dev/")},
            {f"{self.folder}/shop.r.said", "/memfd:pagelog-acknowledged"},
        )
        for path in (self.folder, self.folder / "shop.r.json", Path(f"/proc/{pid}/fd/2")):
            self.assertFalse(can_read(SERVICES, path), path)

    def test_a_later_keeper_adopts_it_with_what_its_memory_has_and_ends_it(self) -> None:
        pid = self.start()

        def first(found: Run) -> None:
            assert found.acknowledged is not None
            found.acknowledged.note(7)
            found.remember(Definition("i", "a table with a token", SECRET))

        self.adopted(first)
        memory = memory_of(pid)
        assert memory is not None
        self.addCleanup(os.close, memory)
        there = os.pread(memory, 1 << 25, 0)
        self.assertEqual(
            [each for each in (SECRET, SECRET.hex().encode(), b"token", b'"i"') if each in there],
            [],
        )
        self.assertEqual(
            [
                can_read(SERVICES, self.folder / "memory.key"),
                can_read(KEEPERS, self.folder / "memory.key"),
            ],
            [False, True],
        )
        self.assertEqual(
            self.adopted(
                lambda found: (
                    found.facts.pid,
                    found.seen,
                    found.definition,
                    found.memory > 1 << 20,
                )
            ),
            (pid, Seen(0, 7), Definition("i", "a table with a token", SECRET), True),
        )
        self.assertTrue(self.adopted(lambda found: found.end()))
        self.assertFalse(Path(f"/proc/{pid}").exists())
        self.assertEqual([each.name for each in self.folder.iterdir()], ["memory.key"])

    def test_no_descriptor_of_it_is_inherited_by_what_its_keeper_starts(self) -> None:
        def started() -> list[bool]:
            null = os.open(os.devnull, os.O_RDWR)
            hired = self.program.runner.start(["sleep", "60"], null, null)  # type: ignore[union-attr]
            found = [
                os.get_inheritable(each)
                for each in (hired.descriptor, hired.stdin.fileno(), hired.stdout.fileno())
            ]
            hired.kill()
            return found

        self.assertEqual(as_user(KEEPERS, started), [False] * 3)

    def test_it_lives_on_without_its_runner_whose_next_life_ends_it(self) -> None:
        pid = self.start()
        self.runner.kill()
        with patch.object(runner_module, "PATIENCE", 0.1), patch.object(run_module, "_END", 0.01):
            self.assertFalse(as_user(KEEPERS, lambda: orphans_of(self.folder, set())[0].end()))
            with self.assertRaisesRegex(RunnerError, "no runner of services answers"):
                self.adopted(lambda found: found.facts.pid)
        self.assertEqual([pid], services(self.folder))
        self.runner.start()
        self.assertEqual(self.adopted(lambda found: found.facts.pid), pid)
        self.assertEqual(
            as_user(KEEPERS, lambda: [each.end() for each in orphans_of(self.folder, set())]),
            [True],
        )
        self.assertEqual(services(self.folder), [])

    def test_it_is_waited_for_while_it_is_started_again(self) -> None:
        self.runner.kill()
        self.runner.begin()
        as_user(KEEPERS, Runner(self.runner.socket).check)

    def test_one_that_was_ended_leaves_no_zombie_and_no_descriptor(self) -> None:
        def opened() -> list[str]:  # but for connections, which come and go
            found = [os.readlink(each) for each in Path(f"/proc/{self.runner.process.pid}/fd").iterdir()]  # type: ignore[union-attr]
            return sorted(each for each in found if not each.startswith("socket:"))

        before = opened()
        pid = self.start()
        self.adopted(lambda found: found.end())
        eventually(
            lambda: not Path(f"/proc/{pid}").exists() and opened() == before,
            "what a runner has of a service that was ended",
        )

    def test_nobody_else_may_ask_the_runner(self) -> None:
        pid = self.start()
        for user in (SERVICES, 64_003):
            for ask in (
                lambda: Runner(self.runner.socket).check(),
                lambda: Runner(self.runner.socket).end(os.pidfd_open(pid)),
                lambda: Runner(self.runner.socket).memory_of(pid, os.pidfd_open(pid)),
            ):
                with self.assertRaisesRegex(RunnerError, f"user {user} may not ask it"):
                    as_user(user, ask)
        self.assertEqual(services(self.folder), [pid])

    def test_one_whose_socket_systemd_has_made_for_the_keepers_user_alone(self) -> None:
        self.runner.kill()
        with public_socket(self.runner.folder, "socket") as listener:
            os.chown(self.runner.socket, KEEPERS, KEEPERS)
            self.runner.socket.chmod(0o600)
            self.runner.start(listener=listener)
        pid = self.start()
        self.assertEqual(services(self.folder), [pid])
        with self.assertRaisesRegex(RunnerError, "Permission denied"):
            as_user(64_003, lambda: Runner(self.runner.socket).check())

    def test_whoever_sends_anything_else_holds_up_nobody(self) -> None:
        def odd() -> None:
            runner = Runner(self.runner.socket)
            for text in (
                b"x",
                b"7",
                b"[]",
                b"[" * 20_000,
                b'{"start": 7}',
                b'{"start": []}',
                b'{"end": 1}',
                b'{"memory": "x"}',
                b'{"nothing": 1}',
            ):
                try:
                    runner._reply(text, (), time.monotonic() + PATIENCE)
                except (OSError, EOFError):
                    pass

        as_user(KEEPERS, odd)
        self.start()

    def test_what_cannot_be_started_is_said(self) -> None:
        with self.assertRaisesRegex(NotStarted, "No such file or directory: '/no-such-program'"):
            self.start(path="/no-such-program")
        script = self.runner.folder.parent / "program"
        script.write_text("#!/bin/sh\necho it has no luck >&2\n")
        script.chmod(0o755)
        for _ in range(5):  # it may have ended before its keeper has seen it, or not
            with self.assertRaisesRegex(NotStarted, "it has no luck"):
                self.start(path=str(script))
        self.assertEqual(as_user(KEEPERS, lambda: list(self.folder.iterdir())), [])

    def test_a_runner_of_the_keepers_own_user_is_none(self) -> None:
        own = RunnerOf(self.runner.folder.parent / "own", user=KEEPERS)
        self.addCleanup(own.kill)
        own.start()
        self.addCleanup(lambda: [os.kill(each, signal.SIGKILL) for each in own.children()])
        null = os.open(os.devnull, os.O_RDWR)
        self.addCleanup(os.close, null)
        for call in (
            lambda: Runner(own.socket).check(),
            lambda: Runner(own.socket).start(["sleep", "600"], null, null),
        ):
            with self.assertRaisesRegex(RunnerError, "as this very user"):
                as_user(KEEPERS, call)
        eventually(lambda: not own.children(), "the end of what it has started")

    def test_wherever_its_keeper_is_killed_as_it_starts_it_can_be_adopted_or_ends(self) -> None:
        status, kinds = -signal.SIGKILL, set()
        for at in itertools.count(1):
            run = new_run()
            status = self.killed_at(run, at)
            self.assertIn(status, (0, -signal.SIGKILL))
            ended = as_user(
                KEEPERS, lambda: [each.end() for each in orphans_of(self.folder, {run})]
            )
            adopted = as_user(
                KEEPERS,
                lambda: None
                if (found := Run.adopt(self.folder, "shop", run)) is None
                else found.facts.pid,
            )
            kept = [] if adopted is None else [adopted]
            eventually(
                lambda: services(self.folder) == kept,
                f"the end of a service whose keeper was killed before line {at}",
            )
            kinds.add((bool(ended), bool(kept)))
            end_services(self.folder)
            if status == 0:
                break
        self.assertEqual(kinds, {(False, False), (True, False), (False, True)})

    def killed_at(self, run: str, at: int) -> int:
        """Starts it in a process of the keepers' that is killed before this line of what it does. How that has ended."""
        lines = itertools.count(1)

        def traced(frame: FrameType, event: str, _: object) -> Any:
            if frame.f_code.co_filename not in (run_module.__file__, runner_module.__file__):
                return None
            if event == "line" and next(lines) == at:
                os.kill(os.getpid(), signal.SIGKILL)
            return traced

        keeper = os.fork()
        if keeper == 0:
            try:
                os.setresgid(KEEPERS, KEEPERS, KEEPERS)
                os.setresuid(KEEPERS, KEEPERS, KEEPERS)
                sys.settrace(traced)
                Run.start(
                    self.program,
                    "shop",
                    run,
                    table_of_run(WIDE_TABLE, SECRET, "shop", run, Form.OPEN),
                )
                os._exit(0)
            except BaseException:
                traceback.print_exc()
            finally:
                os._exit(1)
        return os.waitstatus_to_exitcode(os.waitpid(keeper, 0)[1])


@unittest.skipUnless(CAN, WHY_NOT)
class Services(Kept):
    """Under keepers."""

    keepers = "a"

    def setUp(self) -> None:
        with patch("keepers.Keeping", Apart):
            super().setUp()
        self.apart: Apart = self.keeping  # type: ignore[assignment]

    def test_a_keeper_that_is_killed_adopts_its_services_and_one_that_ends_ends_them(self) -> None:
        primary = self.keeping.primary()
        self.addCleanup(primary.close)
        self.commit(primary, "first", durable=True)
        pid = self.keeping.pid()
        self.keeping.kill("a")
        self.keeping.start("a")
        self.commit(primary, "second", durable=True)
        self.assertEqual(
            (self.keeping.pid(), status_of(pid)["Uid"].split()[0]), (pid, str(SERVICES))
        )
        self.assertEqual(self.row_generation(), 1)
        self.keeping.word("rollover", "shop")
        eventually(
            lambda: self.row_generation() > 1
            and services(self.keeping.folder / "a") == [self.keeping.pid()],
            "the end of the first one",
        )
        self.commit(primary, "third", durable=True)
        os.kill(self.keeping.pid(), signal.SIGKILL)  # and another is filled, by the same runner
        self.commit(primary, "fourth", durable=True)
        self.keeping.kill("a", signal.SIGTERM)
        self.assertEqual(services(self.keeping.folder / "a"), [])
        self.assertEqual(self.texts(), [b"first", b"second", b"third", b"fourth"])

    def row_generation(self) -> int:
        return self.keeping.row().generation

    def test_a_service_can_read_nothing_of_its_keepers(self) -> None:
        key = self.keeping.folder / "a" / "tls.key"
        key.touch(mode=0o600)
        os.chown(key, KEEPERS, KEEPERS)
        self.keeping.pid()
        keeper = self.keeping.processes["a"].pid
        for path in (
            self.keeping.file,
            self.keeping.folder / "a",
            key,
            *(self.keeping.folder / "a").glob("*"),
            *(Path(f"/proc/{keeper}/{name}") for name in ("environ", "fd", "mem", "maps")),
        ):
            self.assertFalse(can_read(SERVICES, path), path)
        self.assertTrue(can_read(KEEPERS, self.keeping.file))

    def test_without_its_runner_a_keeper_does_not_begin(self) -> None:
        self.keeping.kill("a", signal.SIGTERM)
        self.apart.runner.kill()
        self.keeping.launch("a")
        self.assertEqual(self.keeping.processes["a"].wait(), 1)
        self.assertIn("no runner of services answers at", self.keeping.said())
        self.assertEqual(services(self.keeping.folder / "a"), [])

    def test_a_runner_that_was_killed_is_found_again(self) -> None:
        pid = self.keeping.pid()
        self.apart.runner.kill()
        os.kill(pid, signal.SIGKILL)
        eventually(
            lambda: "no runner of services answers" in self.keeping.said(), "a keeper that says so"
        )
        self.apart.runner.start()
        primary = self.keeping.primary()
        self.addCleanup(primary.close)
        self.commit(primary, "once more", durable=True)
        self.assertEqual(status_of(self.keeping.pid())["Uid"].split()[0], str(SERVICES))
