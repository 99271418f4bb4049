"""The torture of administration, see clients/python/torture; called with `client` it is a client of its own process, with `segment` one
PostgreSQL with its keepers and databases for some seconds."""

from __future__ import annotations

import json
import os
import random
import shutil
import signal
import subprocess
import sys
import tempfile
import threading
import time
from contextlib import ExitStack
from pathlib import Path
from typing import Any

HERE = Path(__file__).resolve().parent
sys.path[:0] = [str(HERE), str(HERE.parent / "src")]

import pages_program  # noqa: E402
import torture_pages  # noqa: E402
import torture_sqlite  # noqa: E402
from by_tls import VARIABLE  # noqa: E402
from secured import Certificates  # noqa: E402
from service import PATIENCE  # noqa: E402
from torture_check import BOUND, Check, Drop, Past, Restored  # noqa: E402
from torture_copies import MACHINES, Servers  # noqa: E402
from torture_faults import Faults, slowness  # noqa: E402
from torture_notes import STOP, Job, fail_loudly, notes_of, now  # noqa: E402
from torture_processes import end_told, in_own_space, signals_kept, tell_who_ends  # noqa: E402
from torture_rig import (
    KINDS,
    SUBCOMMANDS,
    Called,
    Carried,
    Counts,
    Keepers,
    environment,
    load_subcommands,
)  # noqa: E402

NAMES = ("s1", "s2", "s3", "p1", "p2")
WRITERS = (
    ("full", "s1.full", ""),
    ("normal", "s1.normal", ""),
    ("behind", "s2.behind", ""),
    ("pool", "s2.pool", ""),
    ("forks", "s2.forks", ""),
    ("attached", "s3.attached", "s1"),
    ("writes", "p1.writes-0", ""),
    ("writes", "p1.writes-1", ""),
    ("groups", "p2.groups-0", ""),
)
READERS = (
    ("readers", "s1.readers", ""),
    ("readers", "s2.readers", ""),
    ("readers", "s3.readers", ""),
    ("page_readers", "p1.readers", "p1.writes-0 p1.writes-1"),
    ("page_readers", "p2.readers", "p2.groups-0"),
)
PAGED = ("p1", "p2")
"""Those of Python's clients have page servers."""
BY_TLS, COUNTS = "--tls", "--counts"
CLIENTS = torture_sqlite.KINDS | torture_pages.KINDS
OPERATORS = 2
"""Of each database: what they do they do at the same time."""
QUIET = 25.0
"""Seconds of rounds between two times at which all is healed, and each writer has to go on."""


class Segment:
    """Databases of one PostgreSQL, administered while clients use them."""

    def __init__(self, kind: str, seconds: float, seed: int, counts: Counts, folder: Path) -> None:
        self.kind, self.seconds, self.seed, self.counts, self.folder = (
            kind,
            seconds,
            seed,
            counts,
            folder,
        )
        self.chance = random.Random(f"{seed} {kind}")
        self.past = Past()
        self.clients: dict[str, subprocess.Popen[bytes]] = {}
        self.offsets: dict[Path, int] = {}
        self.called = 0
        self.copies: list[str] = []
        self.stuck: list[str] = []
        self.longest = 0.0

    def run(self) -> list[str]:
        """Returns violations."""
        with ExitStack() as stack:
            self.faults = Faults(self)
            stack.callback(self.faults.stop)
            self.postgres = self.faults.made_postgres()
            stack.callback(self.postgres.stop)
            self.keepers = Keepers(
                self.folder, self.postgres.kept_url, self.kind, trail=self.chance.random() < 0.5
            )
            stack.callback(self.keepers.stop)
            self.pages = self._made_pages()
            if self.pages is not None:
                stack.callback(self.pages.stop)
            stack.callback(self._kill_clients)
            self._begin()
            began, slow = now(), slowness()
            while now() < began + self.seconds:
                quiet = now()
                while now() - began < self.seconds and now() - quiet < QUIET:
                    self.round()
                self.wait_until_all_continue(slow)
            self._end()
            self.plain = self.postgres.plain_sessions()
        self.past.bound = BOUND * slow.worst()
        self.check = Check(self.folder, self.past)
        return self.stuck + self.keepers.died + self.check.violations() + self.plain

    def _begin(self) -> None:
        self.keepers.start_what_ended()
        for name in NAMES:
            self.call("create", name, "--table", self.keepers.table).wait()
        deadline = now() + PATIENCE
        while not all(
            facts.get("state") == "serving" for facts in (self.kept() or {"": {}}).values()
        ):
            assert now() < deadline, "no keeper serves"
        if self.pages is not None:
            self.pages.start()
        for kind, who, other in (*WRITERS, *READERS):
            self.start_client(kind, who, other)

    def _made_pages(self) -> Servers | None:
        """Two page servers, where their program is built."""
        if torture_pages.PAGE_SERVERS not in os.environ:
            return None
        return Servers(
            self.folder / "pages",
            self.folder,
            self.keepers.file_of("a"),
            PAGED,
            environment(),
            self.chance,
        )

    def start_what_ended(self) -> None:
        """Keepers and page servers."""
        self.keepers.start_what_ended()
        if self.pages is not None:
            self.pages.start()

    def start_client(self, kind: str, who: str, other: str) -> subprocess.Popen[bytes]:
        job = Job(self.folder, self.keepers.addresses, who.partition(".")[0], who, self.seed, other)
        with signals_kept():
            self.clients[who] = subprocess.Popen(
                [sys.executable, __file__, "client", kind, *job.words()]
            )
        return self.clients[who]

    def _kill_clients(self) -> None:
        for client in self.clients.values():
            client.send_signal(signal.SIGCONT)
            client.kill()
            client.wait()

    # Subcommands.

    def call(self, *words: object, cut: tuple[int, bool] | None = None) -> Called:
        self.called += 1
        return Called(
            [*map(str, words), "--credentials", str(self.keepers.file)],
            self.folder / f"said.{self.called}",
            cut,
        )

    def kept(self) -> dict[str, dict[str, Any]] | None:
        """What the product says of its databases, if it says anything; only what is done next is drawn from it."""
        called = self.call("list", "--json")
        if called.wait() != 0:
            return None
        lines = map(json.loads, called.text.splitlines())
        return {
            line["name"]: line for line in lines if "generation" in line
        }  # others were dropped, and have a run quarantined

    def words_of(self, subcommand: str, name: str, facts: dict[str, Any]) -> list[object]:
        at = max(1, int(facts.get("archived") or 1) - self.chance.randrange(5))
        copy = f"{name}-{self.called}"
        words: dict[str, list[object]] = {
            "create": [name, "--table", self.keepers.table],
            "drop": [name, "--yes"],
            "prune": [name, "--keep", "1", "--yes"],
            "rescue": self._rescue(name, facts.get("set_aside", []), copy),
            "restore": [name, "--at", at, "--as", copy],
            "cancel": [name, "--cancel"],
        }
        return words.get(subcommand, [name])

    def _rescue(self, name: str, asides: list[dict[str, Any]], copy: str) -> list[object]:
        """Looks, saves the run that has most, or saves one and ends it."""
        if not asides or self.chance.random() < 0.3:
            return [name] if self.chance.random() < 0.5 else [name, "--as", copy]
        aside = self.chance.choice(asides)
        return [
            name,
            "--run",
            aside["run"],
            "--as",
            copy,
            "--end",
            self.keepers.disk / aside["keeper"],
            "--yes",
        ]

    def possible(self, name: str, facts: dict[str, Any] | None) -> list[str]:
        if facts is None:
            return ["create"]
        if facts.get("paused"):
            return ["resume"]
        return [each for each in SUBCOMMANDS if each not in ("create", "resume")]

    # A round: subcommands for each database at the same time, and one death for all.

    def round(self) -> None:
        kept = self.kept() or {}
        possible = [self.possible(name, kept.get(name)) for name in NAMES]
        death = self.counts.rarest_death(possible, self.kind, self.chance)
        with self.faults.some(death):
            strike = self.faults.death(death)
            calls = [
                (name, self.begin(name, death, kept.get(name)))
                for name in self.chance.sample(NAMES * OPERATORS, len(NAMES) * OPERATORS)
            ]
            time.sleep(self.chance.uniform(0, 0.3))
            strike.meanwhile()
            for name, (subcommand, called) in calls:
                self.finish(name, subcommand, called, death)
            strike.after()
        self.start_what_ended()

    def begin(
        self, name: str, death: str, facts: dict[str, Any] | None
    ) -> tuple[str, Called | None]:
        subcommand = self.counts.rarest(self.possible(name, facts), death, self.kind, self.chance)
        self.counts.add(subcommand, death, self.kind)  # the next database has another
        if subcommand == "keep":
            self.faults.copied_keeper()
            return subcommand, None
        if subcommand == "cancel":
            self.call("switchover", name).wait()
        cut = (
            (self.chance.randrange(1, 6), self.chance.random() < 0.5)
            if death == "subcommand"
            else None
        )
        word = "switchover" if subcommand == "cancel" else subcommand
        return subcommand, self.call(word, *self.words_of(subcommand, name, facts or {}), cut=cut)

    def finish(self, name: str, subcommand: str, called: Called | None, death: str) -> None:
        status = None if called is None else called.wait(60)
        if death == "subcommand" and status is not None and status >= 0:  # it met none
            self.counts.add(subcommand, death, self.kind, -1)
            self.counts.add(subcommand, "none", self.kind)
        if called is None:
            return
        if subcommand == "drop" and status != 2:
            self.past.drops.append(Drop(name, called.began, called.ended, status == 0))
        if "--as" in called.words:
            self._add_copy(name, called)
        self.log(
            f"{subcommand} {name} ({death}): {status} {called.text.strip().splitlines()[-1:] or ''}"
        )

    def _add_copy(self, name: str, called: Called) -> None:
        """A copy is looked at, and then dropped, when all is healed. One whose subcommand was cut off may be there too."""
        words = called.words
        copy = str(words[words.index("--as") + 1])
        self.copies.append(copy)
        if called.status == 0 and "--at" in words:
            self.past.restored.append(
                Restored(copy, name, int(words[words.index("--at") + 1]), called.began)
            )

    def log(self, line: str) -> None:
        with (self.folder / "log").open("a") as log:
            log.write(f"{now():.2f} {line}\n")

    # All is healed, and each writer continues.

    def heal(self) -> None:
        self.keepers.kill("copy")
        self.start_what_ended()
        deadline = now() + PATIENCE
        while (kept := self.kept()) is None:
            assert now() < deadline, "PostgreSQL is down"
            time.sleep(0.1)
        for name, facts in kept.items():
            if facts.get("paused"):
                self.call("resume", name).wait()
            if facts.get("wanted"):
                self.call("switchover", name, "--cancel").wait()
        for name in NAMES:
            if name not in kept:
                self.call("create", name, "--table", self.keepers.table).wait()
        self._look_at_copies()

    def _look_at_copies(self) -> None:
        """Those that PostgreSQL has not lost since."""
        there = {
            restored.copy
            for restored in self.past.restored
            if not self.past.lost(restored.began, now())
        }
        for copy in self.copies:
            if copy in there and copy.startswith("s"):
                reader = self.start_client("final", f"{copy}.final", "")
                if reader.wait(PATIENCE) != 0:
                    self.stuck.append(f"nobody can look at {copy}")
            self.call("drop", copy, "--yes").wait()
        self.copies.clear()

    def wait_until_all_continue(self, slow: Any) -> None:
        self.heal()
        healed, waiting = now(), {who for _, who, _ in WRITERS}
        slow.begin()
        while waiting and now() < healed + max(PATIENCE, BOUND * slow.mean()):
            self._start_clients_that_ended()
            waiting -= {who for who in waiting if self._has_committed(who, healed)}
            time.sleep(0.05)
        took, bound = now() - healed, BOUND * slow.end()
        self.longest = max(self.longest, took)
        self.log(
            f"all continue after {took:.1f} s, bound {bound:.1f} s"
            if not waiting
            else f"stuck: {sorted(waiting)}"
        )
        if waiting or took > bound:
            self.stuck.append(
                f"stuck: {sorted(waiting) or 'a writer'}, {took:.1f} s after the last fault, bound {bound:.1f} s"
            )

    def _start_clients_that_ended(self) -> None:
        """Nobody here has ended them, and none ends by itself."""
        for kind, who, other in (*WRITERS, *READERS):
            if (status := self.clients[who].poll()) is not None:
                self.stuck.append(f"{who} {end_told(status, self._end_of(who))}")
                self.start_client(kind, who, other)

    def _end_of(self, who: str) -> Path:
        """The file that says who has ended a client."""
        return self.folder / f"{who}.ended"

    def _has_committed(self, who: str, since: float) -> bool:
        for file in self.folder.glob(f"{who}*.notes"):
            notes, self.offsets[file] = notes_of(file, self.offsets.get(file, 0))
            if any(note["what"] == "acknowledged" and note["began"] > since for note in notes):
                return True
        return False

    def _end(self) -> None:
        """Clients end, and new readers look at all that there is."""
        (self.folder / STOP).touch()
        for who, client in self.clients.items():
            try:
                status = client.wait(PATIENCE)
            except subprocess.TimeoutExpired:
                self.stuck.append(f"{who} does not end")
                continue
            if status != 0:
                self.stuck.append(f"{who} {end_told(status, self._end_of(who))}")
        for name in NAMES:
            kind = "final" if name.startswith("s") else "page_final"
            writers = " ".join(who for _, who, _ in WRITERS if who.startswith(name))
            if (
                self.start_client(
                    kind, f"{name}.final", writers if kind == "page_final" else ""
                ).wait(PATIENCE)
                != 0
            ):
                self.stuck.append(f"nobody can look at {name} in the end")
        for name in PAGED if self.pages is not None else ():
            self._compare_pages(name)

    def _compare_pages(self, name: str) -> None:
        """Both page servers have all that is archived, and the same pages."""
        deadline = now() + PATIENCE
        while not self._have_all(facts := (self.kept() or {}).get(name, {})):
            if now() > deadline:
                return self.stuck.append(
                    f"page servers of {name} lack something: {facts.get('archived')}, {facts.get('page_servers')}"
                )
            time.sleep(0.5)
        called = self.call(
            "verify", name, "--pages", *(("--last", facts["archived"]) if facts else ())
        )
        if called.wait() != 0:
            self.stuck.append(f"page servers of {name}: {called.text}")
        self.log(f"{name}: {called.text.strip()}")

    @staticmethod
    def _have_all(facts: dict[str, Any]) -> bool:
        known = {
            each["machine"]
            for each in facts.get("page_servers", ())
            if each["address"] and each["position"] == facts["archived"]
        }
        return known == set(MACHINES)


# Segments, one after the other or side by side.


def segment(words: list[str]) -> int:
    """Prints its violations, and adds what it counted to its file."""
    kind, seconds, seed, carried = words[0], float(words[1]), int(words[2]), Carried(Path(words[3]))
    folder = Path(tempfile.mkdtemp(prefix="pagelog-administered-"))
    load_subcommands()
    before = carried.known()
    one = Segment(kind, seconds, seed, Counts(before.of), folder)
    violations = one.run()
    for violation in violations[:20]:
        print(f"violation: {violation[:400]}")
    counts = one.check.counts()
    carried.add(Counts(one.counts.of - before.of))
    print(
        f"{kind}, seed {seed}: {', '.join(f'{what} {count}' for what, count in counts.most_common())}; "
        f"PostgreSQL went back {len(one.past.losses)} times, {len(one.past.drops)} drops; others: {one.faults.said()}; "
        f"all continue within {one.longest:.1f} s; {len(violations)} violations",
        flush=True,
    )
    if violations or os.environ.get("PAGELOG_TORTURE_KEEPS"):
        print(f"notes and logs are in {folder}")
    else:
        shutil.rmtree(folder, ignore_errors=True)
    return 1 if violations or not counts["acknowledged durable"] else 0


def segments(seconds: float, seed: int, kinds: list[str], carried: Carried) -> int:
    """The kind that lacks most is next."""
    torture_sqlite.build()
    if (
        subprocess.run(
            ["gcc", "-fsyntax-only", "-xc", "-include", "rocksdb/c.h", os.devnull],
            stderr=subprocess.DEVNULL,
        ).returncode
        == 0
    ):
        pages_program.program()
        os.environ[torture_pages.PAGE_SERVERS] = "1"
    began, worst, number, first = now(), 0, 0, carried.known()
    each = max(20.0, min(300.0, seconds / len(kinds) - 10))
    while now() - began < seconds or number < len(kinds):
        known = carried.known()
        words = [sys.executable, __file__, "segment", known.rarest_kind(kinds)]
        words += [str(each), str(seed + number), str(carried.file)]
        worst = max(worst, abs(subprocess.run(in_own_space(words)).returncode))
        if carried.known().of == known.of:
            print("a segment has come to nothing", flush=True)
            break
        number += 1
    counts = carried.known()
    print(counts.table())
    print(
        f"administration: {(counts.of - first.of).total()} subcommands in {number} segments of {each:.0f} s: "
        f"{'FAILED' if worst else 'no violation'}"
    )
    return 1 if worst else 0


def main(words: list[str]) -> int:
    os.environ.setdefault("PAGELOG_TEST_FSYNC", "off")
    if words[:1] == ["client"]:
        threading.excepthook = fail_loudly
        job = Job.of(words[2:])
        tell_who_ends(job.folder / f"{job.who}.ended")
        if words[1] in torture_sqlite.KINDS:
            torture_sqlite.load()
        CLIENTS[words[1]](job)
        return 0
    if words[:1] == ["segment"]:
        return segment(words[1:])
    if BY_TLS in words:
        os.environ[VARIABLE] = str(Certificates().ca)
    kinds = [word for word in KINDS if word in words] or list(KINDS)
    numbers = [word for word in words if word not in (*KINDS, BY_TLS)]
    with tempfile.TemporaryDirectory() as folder:
        file = Path(folder) / "counts"
        if COUNTS in numbers:
            at = numbers.index(COUNTS)
            _, file = numbers.pop(at), Path(numbers.pop(at)).absolute()
        return segments(
            float(numbers[0]) if numbers else 120.0,
            int(numbers[1]) if len(numbers) > 1 else 1,
            kinds,
            Carried(file),
        )


if __name__ == "__main__":
    sys.exit(main(sys.argv[1:]))
