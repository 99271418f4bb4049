"""Faults of the torture of administration: deaths that meet subcommands, and others that go on beside them."""

from __future__ import annotations

import os
import resource
import signal
import subprocess
import tempfile
import threading
import time
from collections import Counter
from contextlib import contextmanager
from pathlib import Path
from typing import TYPE_CHECKING, Callable, Iterator

from service import stand_still
from torture_notes import now
from torture_processes import is_in_own_space, shut_some
from torture_rig import TTL, Lone, Two, postgres_of, send

if TYPE_CHECKING:
    from administration import Segment

DISK, KEEPERS_DISK, PAGES_DISK = 400 << 20, 24 << 20, 256 << 20


def mount(folder: Path, size: int, mode: str = "755") -> bool:
    """A small disk there, in memory. Returns whether this process may make one."""
    if not is_in_own_space():
        return False
    folder.mkdir(exist_ok=True)
    subprocess.run(
        ["mount", "-t", "tmpfs", "-o", f"size={size},mode={mode}", "tmpfs", folder], check=True
    )
    return True


def fill(disk: Path) -> Path:
    """Takes all its room, with the file that it returns."""
    rest = disk / "rest"
    with rest.open("wb", buffering=0) as file:
        try:
            while True:
                file.write(bytes(1 << 16))
        except OSError:
            pass
    return rest


class Strike:
    """A death: what is done while the subcommands of a round are under way, and after them."""

    def __init__(
        self, meanwhile: Callable[[], None] = lambda: None, after: Callable[[], None] = lambda: None
    ) -> None:
        self.meanwhile, self.after = meanwhile, after


class Faults:
    def __init__(self, segment: Segment) -> None:
        self.segment, self.chance = segment, segment.chance
        self.done: Counter[str] = Counter()
        self.mounted: list[Path] = []
        for name, size in (("disk", KEEPERS_DISK), ("pages", PAGES_DISK)):
            (segment.folder / name).mkdir()
            self._mount(segment.folder / name, size)

    def said(self) -> str:
        return ", ".join(f"{name} {count}" for name, count in self.done.most_common()) or "none"

    # Small disks.

    def _mount(self, folder: Path, size: int, mode: str = "755") -> bool:
        is_there = mount(folder, size, mode)
        self.mounted += [folder] * is_there
        return is_there

    def stop(self) -> None:
        for folder in self.mounted:
            subprocess.run(["umount", "-l", folder], check=False)

    def made_postgres(self) -> Lone | Two:
        """On a small disk, where it is one server and one can be mounted. Copies of its folder are elsewhere."""
        folder = self.segment.folder / "postgres"
        os.environ["PAGELOG_TORTURE_COPIES"] = str(self.segment.folder)
        known = tempfile.tempdir
        if self.segment.kind in ("alone", "standbys") and self._mount(folder, DISK, "777"):
            tempfile.tempdir = str(folder)
            self.segment.folder.chmod(0o755)
        try:
            return postgres_of(self.segment.kind)
        finally:
            tempfile.tempdir = known

    # Deaths.

    def death(self, name: str) -> Strike:
        segment = self.segment
        if name == "keeper":
            return Strike(self._kill_keeper)
        if name == "service":
            return Strike(self._kill_services)
        if name == "subcommand":
            return Strike(lambda: segment.keepers.kill("copy"))
        if name == "postgresql":
            return Strike(segment.postgres.restart)
        return self._set_back() if name == "set back" else Strike()

    def _kill_keeper(self) -> None:
        """It is started again soon, or after a takeover; now and then both are killed."""
        names = self.chance.choice([["a"], ["b"], ["a", "b"]])
        for name in names:
            self.segment.keepers.kill(name)
        time.sleep(self.chance.choice([0, 2 * TTL]))
        self.segment.keepers.start_what_ended()

    def _kill_services(self) -> None:
        for pid in self.segment.keepers.services():
            if self.chance.random() < 0.7:
                send(pid, signal.SIGKILL)

    def _set_back(self) -> Strike:
        """To a copy from before the subcommands, or from amid them."""
        segment, kept = self.segment, [0.0, 0.0]

        def remember() -> None:
            kept[:] = segment.postgres.remember(), now()

        def go_back() -> None:
            time.sleep(self.chance.uniform(0, 2 * TTL))
            began = now()
            loss = segment.postgres.go_back(kept[0])
            if loss is not None:
                segment.past.lose(loss, kept[1], began)
                segment.log(
                    f"PostgreSQL went back from {began:.2f} to {kept[0]:.2f}, until {loss.over:.2f}"
                )

        if self.chance.random() < 0.5:
            remember()
            return Strike(after=go_back)
        return Strike(remember, go_back)

    # Keepers with a copied configuration.

    def copied_keeper(self) -> None:
        """A keeper of a name that another has; it ends with the round's next keeper's start, or by itself."""
        keepers = self.segment.keepers
        keepers.kill("copy")
        keepers.start("copy", called=self.chance.choice("ab"))

    # What goes on beside deaths.

    @contextmanager
    def some(self, death: str) -> Iterator[None]:
        """One of them, the one that has come least often, or none. A PostgreSQL that is restarted has room."""
        kinds: dict[str, Callable[[], Callable[[], None]]] = {
            "memory of a service": self._little_memory,
            "descriptors of a keeper": self._few_descriptors,
            "a keeper stands": self._keeper_stands,
            "a service stands": self._service_stands,
            "a client is killed": self._client_is_killed,
        }
        folder, pages = self.segment.folder, self.segment.pages
        if self.mounted:
            kinds["the keepers' disk is full"] = lambda: self._fill(folder / "disk")
        if pages is not None:
            kinds["a page server is killed"] = self._page_server_is_killed
            kinds["a page server stands"] = self._page_server_stands
            kinds["lines of a page server are cut"] = self._page_servers_lines
        if pages is not None and self.mounted:
            kinds["the page servers' disk is full"] = lambda: self._fill(folder / "pages")
        if folder / "postgres" in self.mounted and death not in ("postgresql", "set back"):
            kinds["PostgreSQL's disk is full"] = lambda: self._fill(folder / "postgres")
        if self.chance.random() < 0.5:
            yield
            return
        name = min(kinds, key=lambda name: (self.done[name], self.chance.random()))
        self.done[name] += 1
        self.segment.log(f"beside: {name}")
        end = kinds[name]()
        try:
            yield
        finally:
            end()

    def _some_service(self) -> int | None:
        found = self.segment.keepers.services()
        return self.chance.choice(found) if found else None

    def _little_memory(self) -> Callable[[], None]:
        pid = self._some_service()
        return (
            self._limit(pid, resource.RLIMIT_AS, 1024 * _status(pid, "VmSize"))
            if pid
            else lambda: None
        )

    def _few_descriptors(self) -> Callable[[], None]:
        pid = self.segment.keepers.processes[self.chance.choice("ab")].pid
        try:
            return self._limit(pid, resource.RLIMIT_NOFILE, len(os.listdir(f"/proc/{pid}/fd")) + 2)
        except OSError:
            return lambda: None

    def _limit(self, pid: int, what: int, most: int) -> Callable[[], None]:
        def limit(most: int) -> None:
            try:
                hard = resource.prlimit(pid, what)[1]
                resource.prlimit(
                    pid,
                    what,
                    (most if hard == resource.RLIM_INFINITY or 0 <= most <= hard else hard, hard),
                )
            except (OSError, ValueError):
                pass  # it has ended

        try:
            before = resource.prlimit(pid, what)[0]
        except OSError:
            return lambda: None
        limit(most)
        return lambda: limit(before)

    def _keeper_stands(self) -> Callable[[], None]:
        process = self.segment.keepers.processes[self.chance.choice("ab")]
        return self._stand(process.pid)

    def _service_stands(self) -> Callable[[], None]:
        pid = self._some_service()
        return self._stand(pid) if pid else lambda: None

    def _page_server_is_killed(self) -> Callable[[], None]:
        """A program, or who feeds it."""
        assert self.segment.pages is not None
        self.segment.pages.kill()
        return lambda: None

    def _page_server_stands(self) -> Callable[[], None]:
        """A program, who feeds it, or both."""
        assert self.segment.pages is not None
        ends = [self._stand(pid) for pid in self.segment.pages.hold()]

        def go_on() -> None:
            for end in ends:
                end()

        return go_on

    def _stand(self, pid: int) -> Callable[[], None]:
        try:
            stand_still(pid)
        except OSError:
            return lambda: None
        return lambda: send(pid, signal.SIGCONT)

    def _client_is_killed(self) -> Callable[[], None]:
        from administration import READERS, WRITERS

        kind, who, other = self.chance.choice((*WRITERS, *READERS))
        self.segment.clients[who].kill()
        self.segment.clients[who].wait()

        def again() -> None:
            self.segment.start_client(kind, who, other)

        return again

    def _page_servers_lines(self) -> Callable[[], None]:
        """They are cut at its end: to readers, to keepers, or to PostgreSQL. Nobody is told."""
        assert self.segment.pages is not None
        for pid in self.segment.pages.hold():
            shut_some(pid, self.chance)
        return lambda: None

    def _fill(self, disk: Path) -> Callable[[], None]:
        rest = fill(disk)

        def free() -> None:
            rest.unlink(missing_ok=True)
            if disk.name == "postgres":
                assert isinstance(self.segment.postgres, Lone)
                self.segment.postgres.revive()

        return free


def _status(pid: int, what: str) -> int:
    """Of /proc/PID/status, in KiB."""
    try:
        return int(Path(f"/proc/{pid}/status").read_text().split(what + ":")[1].split()[0])
    except (OSError, IndexError):
        return 1 << 30


# How slow the machine is.


class Slowness:
    """How much longer a little work takes than its processor time, in a thread of its own: on a busy machine bounds are longer by that."""

    def __init__(self) -> None:
        self._worst, self._seen = 1.0, [1.0]
        threading.Thread(target=self._measure, daemon=True).start()

    def _measure(self) -> None:
        while True:
            began, spent = time.monotonic(), time.thread_time()
            while time.thread_time() - spent < 0.02:
                pass
            self._seen.append((time.monotonic() - began) / 0.02)
            time.sleep(0.2)

    def begin(self) -> None:
        self._seen = [1.0]

    def mean(self) -> float:
        """Since it was begun."""
        return max(1.0, sum(self._seen) / len(self._seen))

    def end(self) -> float:
        """The mean since it was begun."""
        mean = self.mean()
        self._worst = max(self._worst, mean)
        return mean

    def worst(self) -> float:
        return self._worst


def slowness() -> Slowness:
    return Slowness()
