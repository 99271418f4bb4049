"""One process of a service: how it is started, what is noted of it so that a later keeper can adopt it, how it ends."""

from __future__ import annotations

import json
import os
import secrets
import select
import subprocess
from contextlib import contextmanager, suppress
from dataclasses import dataclass, field, fields, replace
from pathlib import Path
from typing import Any, Iterator, Mapping

from pagelog.errors import PagelogError
from pagelog.keeper.acknowledged import Acknowledged, acknowledged_of, memory_of, new_memory
from pagelog.keeper.definition import Definition, Seal, private
from pagelog.keeper.runner import Hired, Runner, RunnerError, is_allowed, kill
from pagelog.run_tokens import KEEPER

WORKERS = 4
"""Threads of a service."""
FRONT = "~front"
"""In what is noted of the front of a keeper, in place of a database's name: no database has it. A keeper that knows of no fronts ends it, as
a service that did not come to listen."""
_END = 10.0
_PAGE = os.sysconf("SC_PAGE_SIZE")
"""For how many seconds the end of a process that was killed is waited for."""


Child = subprocess.Popen[bytes] | Hired
"""A process that this one has started, or has had started."""


class NotStarted(PagelogError):
    """The service did not begin to listen."""


@dataclass(frozen=True)
class Program:
    """How services are started: the program, the host that they listen at, the folder of their files, the audit list, and by whom: a
    runner, or None for the keeper itself, as its own user."""

    path: str
    host: str
    folder: Path
    audit: int = 1 << 24
    patience: float = 60.0
    runner: Runner | None = None


@dataclass(frozen=True)
class ProcessFacts:
    """What is noted of a process. Another process may have its number later; `started` and `boot` tell them apart."""

    name: str
    run: str
    pid: int
    started: int
    boot: str
    address: str | None = None
    kept: bool = False
    """Whether it may be the only copy of something, so that no keeper ends it; it has positions as its run had them."""
    shift: int = 0
    images: int = 0
    runner: str | None = None
    """The socket of the runner that started it, as another user's process; None of one of the keeper's own user."""
    others: Mapping[str, Any] = field(default_factory=dict)
    """What a later keeper has noted, and this one does not know: it is kept."""

    @classmethod
    def read(cls, text: str) -> ProcessFacts:
        """Of the text of its file. Raises `ValueError` or `TypeError`."""
        found = json.loads(text)
        known = {each.name for each in fields(cls)} - {"others"}
        return cls(
            **{key: found[key] for key in found if key in known},
            others={key: found[key] for key in found if key not in known},
        )

    @property
    def text(self) -> str:
        """That of its file. 0.1.0 takes none with a fact that it does not know, and could not end a process of another user."""
        known = {
            key: value
            for key, value in vars(self).items()
            if key != "others" and (key != "runner" or value is not None)
        }
        return json.dumps({**self.others, **known})

    @property
    def file_name(self) -> str:
        """The name of its file."""
        return _file_of(self.name, self.run, "json")


@dataclass(frozen=True)
class Seen:
    """What PostgreSQL has had of a run: the number of its generation, and up to where it was archived, or somewhat less."""

    generation: int = 0
    archived: int = 0


def new_run() -> str:
    """A name of a run that no other has."""
    return secrets.token_hex(8)


class Run:
    """A running service, that this keeper started or adopted. It outlives its keeper."""

    def __init__(
        self,
        folder: Path,
        facts: ProcessFacts,
        descriptor: int,
        child: Child | None = None,
        acknowledged: Acknowledged | None = None,
    ) -> None:
        self.folder = folder
        self.facts = facts
        self.descriptor = descriptor
        """A pidfd, which can be read once the process has ended."""
        self._child = child
        self._acknowledged = acknowledged

    @property
    def acknowledged(self) -> Acknowledged | None:
        """Up to where it was acknowledged as archived; None of a process that an older keeper has started. Raises `RunnerError`."""
        if self._acknowledged is None and self.descriptor >= 0:
            with self._memory() as memory:
                self._acknowledged = acknowledged_of(memory)
        return self._acknowledged

    @property
    def _runner(self) -> Runner | None:
        return None if self.facts.runner is None else Runner(Path(self.facts.runner))

    @contextmanager
    def _memory(self) -> Iterator[int | None]:
        """A descriptor of the memory that its keepers share with it; None of a process that has none, or has ended. Raises `RunnerError`."""
        pid, runner = self.facts.pid, self._runner
        memory = (
            memory_of(pid)
            if runner is None or is_allowed(pid)
            else runner.memory_of(pid, self.descriptor)
        )
        try:
            yield memory if self.is_alive else None  # else its number may be another process's by now
        finally:
            if memory is not None:
                os.close(memory)

    def remember(self, definition: Definition) -> None:
        """Has the process remember of which database it is, for `rescue`. Raises `OSError`, and `RunnerError`."""
        with self._memory() as memory:
            if memory is not None:
                definition.note(memory, Seal.made(self.folder, self.name))

    @property
    def definition(self) -> Definition | None:
        """What it remembers so; None of a process that an older keeper has started. Raises `RunnerError`."""
        with self._memory() as memory:
            seal = Seal.found(self.folder, self.name)
            return None if memory is None or seal is None else Definition.noted(memory, seal)

    @property
    def name(self) -> str:
        """The run's name."""
        return self.facts.run

    @property
    def address(self) -> str:
        """Where it listens."""
        assert self.facts.address is not None
        return self.facts.address

    @classmethod
    def start(
        cls, program: Program, name: str, run: str, table: str, *, listen: str | None = None
    ) -> Run:
        """Starts a service with this table, and waits until it listens. Raises `NotStarted`.

        It waits for its table until it is noted, and ends where its keeper is killed before: nobody would know of it.
        """
        said = said_in(program.folder, name, run)
        words = [
            program.path,
            "serve",
            "--listen",
            listen or f"{program.host}:0",
            "--table",
            "/dev/stdin",
            "--primary",
            str(KEEPER),
            "--dbs",
            "1",
            "--workers",
            str(WORKERS),
            "--connections",
            str((1 << 32) - 1),
            "--audit",
            str(program.audit),
            "--idle-polls",
            "0",
        ]
        child = None
        descriptor = None
        try:
            child, acknowledged = _started(words, said, program.runner)
            descriptor = child.descriptor if isinstance(child, Hired) else os.pidfd_open(child.pid)
            facts = replace(
                _facts_of(name, run, child.pid),
                runner=None if program.runner is None else str(program.runner.path),
            )
            made = cls(program.folder, facts, descriptor, child, acknowledged)
            made._note()
            _give(child, table)
            made._note(address=_address(child, program.patience))
            return made
        except (OSError, NotStarted, RunnerError) as error:
            if child is not None:
                with suppress(subprocess.TimeoutExpired, RunnerError):
                    child.kill()
                    child.wait(_END)
                for line in (child.stdin, child.stdout):
                    if line is not None:
                        line.close()
            if descriptor is not None:
                os.close(descriptor)
            why = text_of(said)
            _forget(program.folder, name, run)
            raise NotStarted(f"{name}: the service did not start: {why or error}") from error

    @classmethod
    def of_front(cls, folder: Path, run: str, child: subprocess.Popen[bytes]) -> Run:
        """That of a front, which waits until it is noted. Raises `OSError`, and then it is ended."""
        descriptor = None
        try:
            descriptor = os.pidfd_open(child.pid)
            made = cls(folder, _facts_of(FRONT, run, child.pid), descriptor, child)
            made._note()
        except OSError:
            child.kill()
            child.communicate()
            if descriptor is not None:
                os.close(descriptor)
            raise
        return made

    @classmethod
    def adopt(cls, folder: Path, name: str, run: str) -> Run | None:
        """The service of this run, if its process is still there. No other note is read: a keeper has thousands. Raises `RunnerError`
        where it cannot be known up to where it was acknowledged."""
        found = _noted_in(folder / _file_of(name, run, "json"))
        if found is None:
            return None
        facts, descriptor = found
        try:
            if (facts.name, facts.run) == (name, run) and facts.address is not None:
                made = cls(folder, facts, descriptor)
                made.acknowledged  # now: who asks later may be one who waits for nobody
                return made
        except RunnerError:
            os.close(descriptor)
            raise
        os.close(descriptor)
        return None

    def set_aside(self, shift: int, images: int) -> None:
        """Leaves the process to whoever knows what to do with it: also the next instance of the keeper does not end it."""
        self._note(kept=True, shift=shift, images=images)
        self.leave()

    def note_place(self, shift: int, images: int) -> None:
        """Notes where positions are there, for a later instance of the keeper."""
        if (self.facts.shift, self.facts.images) != (shift, images):
            self._note(shift=shift, images=images)

    def note_seen(self, seen: Seen) -> None:
        """Notes what PostgreSQL has had of it, in a file of its own: 0.1.0 takes no note with a fact that it does not know."""
        file = self.folder / _file_of(self.facts.name, self.facts.run, "seen")
        fresh = file.with_name(file.name + ".new")
        fresh.write_text(json.dumps(vars(seen)))
        fresh.replace(file)

    @property
    def seen(self) -> Seen:
        """What was noted so last, and exactly up to where it was acknowledged; nothing where neither can be read."""
        seen, acknowledged = seen_of(self.folder, self.facts), self.acknowledged
        return (
            seen
            if acknowledged is None
            else replace(seen, archived=max(seen.archived, acknowledged.position))
        )

    def _note(self, **facts: Any) -> None:
        self.facts = replace(self.facts, **facts)
        file = self.folder / self.facts.file_name
        fresh = file.with_name(file.name + ".new")
        fresh.write_text(self.facts.text)
        fresh.replace(file)

    @property
    def is_alive(self) -> bool:
        """Whether the process has not ended."""
        return not is_readable(self.descriptor, 0)

    @property
    def memory(self) -> int:
        """Bytes of the machine's memory that it holds; 0 where it has ended."""
        try:
            descriptor = os.open(f"/proc/{self.facts.pid}/statm", os.O_RDONLY | os.O_CLOEXEC)
            try:
                return int(os.read(descriptor, 256).split()[1]) * _PAGE
            finally:
                os.close(descriptor)
        except (OSError, IndexError, ValueError):
            return 0

    def end(self) -> bool:
        """Kills the process, waits for its end, and removes its files. It keeps nothing that would have to be saved.

        False where it has not ended after a while, as one that waits for a disk or was frozen, or whose runner is away: its file stays
        for the keeper's next instance.
        """
        with suppress(ProcessLookupError, RunnerError):
            kill(self.descriptor, self._runner)
        has_ended = is_readable(self.descriptor, _END)
        self.leave()
        if has_ended:
            _forget(self.folder, self.facts.name, self.facts.run)
        return has_ended

    def leave(self) -> None:
        """Takes notice of a process that has ended, and closes its descriptors. One that runs goes on."""
        if self._child is not None:
            if not self.is_alive:
                self._child.wait()
            self._child.returncode = self._child.returncode or 0
        os.close(self.descriptor)


def _started(words: list[str], said: Path, runner: Runner | None) -> tuple[Child, Acknowledged]:
    """The process, which has the number open that says up to where it was acknowledged."""
    memory = new_memory()
    try:
        acknowledged = Acknowledged(memory)
        with open(said, "wb", opener=private) as errors:
            if runner is not None:
                return runner.start(words, errors.fileno(), memory), acknowledged
            return (
                subprocess.Popen(
                    words,
                    stdin=subprocess.PIPE,
                    stdout=subprocess.PIPE,
                    stderr=errors,
                    start_new_session=True,
                    env=environment(),
                    pass_fds=(memory,),
                ),
                acknowledged,
            )
    finally:
        os.close(memory)


def environment() -> dict[str, str]:
    """What a service inherits: it needs nothing, and the keeper's own may have the password of PostgreSQL. The program is found by PATH,
    and may be a script."""
    return {
        name: value
        for name in ("PATH", "LANG", "TZ")
        if (value := os.environ.get(name)) is not None
    }


def has_services(folder: Path) -> bool:
    """Whether a service that is noted in this folder still runs."""
    found = [descriptor for _, descriptor in _noted(folder)]
    for descriptor in found:
        os.close(descriptor)
    return bool(found)


def kept_in(folder: Path) -> list[ProcessFacts]:
    """What is noted of the services of this folder that run and that no keeper ends."""
    found = list(_noted(folder))
    for _, descriptor in found:
        os.close(descriptor)
    return [facts for facts, _ in found if facts.kept]


def database_of(folder: Path, facts: ProcessFacts) -> str:
    """The identity of the database of a service that is noted and runs; nothing where its process does not remember it."""
    process = Run.adopt(folder, facts.name, facts.run)
    if process is None:
        return ""
    try:
        return "" if (found := process.definition) is None else found.identity
    finally:
        process.leave()


def seen_of(folder: Path, facts: ProcessFacts) -> Seen:
    """What PostgreSQL has had of a run, as its keeper noted it last; nothing where that cannot be read."""
    try:
        found = json.loads((folder / _file_of(facts.name, facts.run, "seen")).read_text())
        return Seen(int(found["generation"]), int(found["archived"]))
    except (OSError, ValueError, KeyError, TypeError):
        return Seen()


def is_running(facts: ProcessFacts) -> bool:
    """Whether the very process that was noted still runs."""
    descriptor = _opened(facts)
    if descriptor is not None:
        os.close(descriptor)
    return descriptor is not None


def services_of(folder: Path) -> list[ProcessFacts]:
    """What is noted of the services of this folder that run and listen, also of those that were quarantined."""
    found = list(_noted(folder))
    for _, descriptor in found:
        os.close(descriptor)
    return [facts for facts, _ in found if facts.address is not None]


def fronts_of(folder: Path) -> list[Run]:
    """The fronts of this folder that run."""
    found = map(_noted_in, sorted(folder.glob(f"{FRONT}.*.json")))
    return [Run(folder, *each) for each in found if each is not None]


def said_in(folder: Path, name: str, run: str) -> Path:
    """The file of what a process says is wrong."""
    return folder / _file_of(name, run, "said")


def orphans_of(folder: Path, wanted: set[str]) -> list[Run]:
    """The services of this folder that run, whose runs are not among those, or that did not come to listen, but none that was quarantined.
    What a keeper that was killed has left besides is removed."""
    found = []
    for facts, descriptor in _noted(folder):
        if facts.kept or (facts.run in wanted and facts.address is not None):
            os.close(descriptor)
        else:
            found.append(Run(folder, facts, descriptor))
    left = [
        file
        for end in ("said", "seen")
        for file in folder.glob(f"*.{end}")
        if not file.with_suffix(".json").exists()
    ]
    for file in (*left, *folder.glob("*.new")):
        file.unlink(missing_ok=True)
    return found


def is_there(folder: Path, name: str, run: str) -> bool:
    """Whether the service of this run is noted in this folder, and still runs."""
    found = _noted_in(folder / _file_of(name, run, "json"))
    if found is not None:
        os.close(found[1])
    return found is not None and found[0].run == run


def _noted(folder: Path) -> Iterator[tuple[ProcessFacts, int]]:
    """The services that are noted and still run, each with a pidfd. Notes of others are removed."""
    for file in sorted(folder.glob("*.json")):
        if not file.name.startswith(FRONT) and (found := _noted_in(file)) is not None:
            yield found


def _noted_in(file: Path) -> tuple[ProcessFacts, int] | None:
    """The service that is noted in this file and still runs, with a pidfd. A note of another is removed."""
    try:
        facts = ProcessFacts.read(file.read_text())
    except (OSError, ValueError, TypeError):
        return None
    descriptor = _opened(facts)
    if descriptor is None:
        _forget(file.parent, facts.name, facts.run)
        return None
    return facts, descriptor


def _opened(facts: ProcessFacts) -> int | None:
    """A pidfd of the very process that was noted, if it still runs."""
    try:
        descriptor = os.pidfd_open(facts.pid)
    except OSError:
        return None
    try:
        now = _facts_of(facts.name, facts.run, facts.pid)
        if (now.started, now.boot) == (facts.started, facts.boot) and not is_readable(
            descriptor, 0
        ):
            return descriptor
    except (OSError, ValueError, IndexError):
        pass
    os.close(descriptor)
    return None


def _facts_of(name: str, run: str, pid: int) -> ProcessFacts:
    """The facts of a process that runs. Its name, in parentheses, may have spaces."""
    fields = Path(f"/proc/{pid}/stat").read_text().rpartition(")")[2].split()
    return ProcessFacts(
        name, run, pid, int(fields[19]), Path("/proc/sys/kernel/random/boot_id").read_text().strip()
    )


def is_readable(descriptor: int, patience: float) -> bool:
    """Whether it can be read, as a pidfd once its process has ended. Waits for it, in seconds. A `select` would fail where a thousand files are open."""
    poll = select.poll()
    poll.register(descriptor, select.POLLIN)
    return bool(poll.poll(1000 * patience))


def _give(child: Child, table: str) -> None:
    """A pipe has room for the longest table, so that this waits for nobody."""
    assert child.stdin is not None
    with child.stdin as line:
        line.write(table.encode())


def _address(child: Child, patience: float) -> str:
    """What it says, which is all that it ever says there. So the descriptor is closed."""
    assert child.stdout is not None
    with child.stdout as line:
        if not is_readable(line.fileno(), patience):
            raise NotStarted(f"it said nothing in {patience} s")
        words = line.readline().decode(errors="replace").split()
    if len(words) != 2 or words[0] != "listening":
        raise NotStarted("it ended")
    return words[1]


def text_of(file: Path) -> str:
    """What it has, if it can be read: where no file can be opened any more it cannot."""
    try:
        return file.read_text(errors="replace").strip()
    except OSError:
        return ""


def _forget(folder: Path, name: str, run: str) -> None:
    for end in ("json", "said", "seen"):
        (folder / _file_of(name, run, end)).unlink(missing_ok=True)


def _file_of(name: str, run: str, end: str) -> str:
    return f"{name}.{run}.{end}"
