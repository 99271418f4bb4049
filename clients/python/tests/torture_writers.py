"""The torture of writers, see clients/python/torture; called with `full` or `normal` it is a writer, in a process of its own."""

from __future__ import annotations

import json
import os
import random
import signal
import sqlite3
import subprocess
import sys
import time
from collections import Counter
from contextlib import suppress
from pathlib import Path
from typing import Any, Callable, Iterator

HERE = Path(__file__).resolve().parent
sys.path[:0] = [str(HERE), str(HERE.parent / "src")]

from keepers import eventually  # noqa: E402
from long_runs import STOP, LongRun, is_client  # noqa: E402
from pagelog import PagelogError  # noqa: E402
from service import PATIENCE, stand_still  # noqa: E402
from sqlite_named import connected, error_of, load  # noqa: E402
from torture_lines import BACK, TO, Armed, Relayed, Relays  # noqa: E402
from torture_processes import in_own_space, is_in_own_space  # noqa: E402

TTL = 1.5
NAME = "shop"
EACH = 16
"""Writers of each kind."""
LEVELS = {"full": "FULL", "normal": "NORMAL"}
REST = 3 * TTL + 5
"""For how many seconds after the last fault a writer may have no commit acknowledged."""
ROUND = 20
"""Faults between two rests."""
MOVE = 30.0
"""How long a call waits for a service and for its keeper, in seconds: what a program has by default."""
NOTHING_THERE = ("SQLITE_BUSY", "SQLITE_BUSY_SNAPSHOT")
"""After these nothing of the transaction is there, and a program begins it again."""
MESSAGES = (
    (TO, "turn"),
    (BACK, "turn"),
    (TO, "back"),
    (BACK, "wanted"),
    (TO, "hold"),
    (BACK, "soon"),
    (BACK, "busy"),
    (TO, "durable"),
    (BACK, "durable"),
    (BACK, "over"),
    (TO, "where"),
    (BACK, "at"),
)
"""Of a hand-over, and of what comes behind it."""
MEETS = 1.5
"""For how many seconds a fault waits for its message."""
AGAIN = 0.4
"""How often another fault comes right behind one, while what that one did is being mended."""


class Books:
    """A line of JSON for each thing that a writer was told. All times are of CLOCK_MONOTONIC."""

    def __init__(self, file: Path) -> None:
        self._file = file.open("a", buffering=1)

    def __call__(self, what: str, **facts: object) -> None:
        self._file.write(json.dumps({"what": what, "at": time.monotonic(), **facts}) + "\n")


class Writer:
    """A process that counts visits: each transaction notes one, and adds it to a counter."""

    def __init__(self, folder: Path, who: str, addresses: list[str], kind: str) -> None:
        self.who, self.addresses, self.kind = who, addresses, kind
        self.note = Books(folder / f"writer.{who}")
        self.chance = random.Random(who)
        self.connection: sqlite3.Connection | None = None
        self.open: list[int] = []
        """Numbers that were acknowledged, and may be lost yet: all of the last ones with NORMAL."""
        self.stage = ""

    def visit(self, number: int) -> None:
        """One transaction, begun again until it is there."""
        while True:
            began = time.monotonic()
            try:
                if self.connection is None:
                    self.stage = "open"
                    self.connection = self._opened()
                self._try(self.connection, number)
                took = time.monotonic() - began
                self.note("acknowledged", number=number, took=took, **self._place())
                self.open.append(number)
                return
            except sqlite3.Error as error:
                if not self._is_to_begin_again(error, number, time.monotonic() - began):
                    return

    def _opened(self) -> sqlite3.Connection:
        return connected(self.addresses, LEVELS[self.kind], name=NAME, move=int(1000 * MOVE))

    def _try(self, connection: sqlite3.Connection, number: int) -> None:
        self.stage = "begin"
        is_upgrade = self.chance.random() < 0.2
        connection.execute("begin" if is_upgrade else "begin immediate")
        self.stage = "work"
        if is_upgrade:
            connection.execute("select visits from counter").fetchone()
        connection.execute("update counter set visits = visits + 1")
        connection.execute("insert into visit values (?, ?)", (self.who, number))
        self.stage = "commit"
        connection.execute("commit")

    def _is_to_begin_again(self, error: sqlite3.Error, number: int, took: float) -> bool:
        """Notes an error, and finds out what a program that has met it may."""
        code = getattr(error, "sqlite_errorname", type(error).__name__)
        facts = self._facts(error)
        with suppress(sqlite3.Error):
            if self.connection is not None and self.connection.in_transaction:
                self.connection.execute("rollback")
        self.note("failed", number=number, stage=self.stage, code=code, took=took, **facts)
        if code in NOTHING_THERE:
            return True
        if code != "SQLITE_IOERR_FSYNC":
            self.close()
        return self._is_lost(number)

    def _facts(self, error: sqlite3.Error) -> dict[str, Any]:
        facts: dict[str, Any] = {
            "message": str(error),
            "extended": getattr(error, "sqlite_errorcode", 0),
        }
        if self.connection is not None:
            facts["is_in"] = self.connection.in_transaction
            with suppress(sqlite3.Error, TypeError):
                facts["why"] = error_of(self.connection)
            facts |= self._place("durable", "losses", "resent", "moves")
        return facts

    def _place(self, *more: str) -> dict[str, int]:
        """Where the connection is, and more that it reports."""
        found: dict[str, int] = {}
        for name in ("generation", "position", *more):
            with suppress(sqlite3.Error, TypeError):
                assert self.connection is not None
                [text] = self.connection.execute(f"pragma pagelog_{name}").fetchone()
                found[name] = int(text)
        return found

    def _is_lost(self, number: int) -> bool:
        """Reads what is there: whether this one has to be begun again, and which of those before it are lost."""
        there = self._numbers(min([*self.open, number]))
        if lost := [each for each in self.open if each not in there]:
            self.note("lost", numbers=lost)
        self.open = [each for each in self.open if each in there]
        if number in there:
            self.note("found", number=number)
            self.open.append(number)
        return number not in there

    def _numbers(self, first: int) -> set[int]:
        while True:
            try:
                if self.connection is None:
                    self.stage = "open"
                    self.connection = self._opened()
                self.stage = "look"
                found = self.connection.execute(
                    "select number from visit where who = ? and number >= ?", (self.who, first)
                ).fetchall()
                return {number for [number] in found}
            except sqlite3.Error as error:
                facts = self._facts(error)
                code = getattr(error, "sqlite_errorname", type(error).__name__)
                self.note("failed", number=first, stage=self.stage, code=code, **facts)
                if code not in (*NOTHING_THERE, "SQLITE_IOERR_FSYNC"):
                    self.close()

    def settle(self) -> None:
        """What is durable is not looked for again."""
        if self.connection is None or len(self.open) < 50:
            return
        try:
            [position], [durable] = (
                self.connection.execute(f"pragma pagelog_{name}").fetchone()
                for name in ("position", "durable")
            )
        except (sqlite3.Error, TypeError):
            return
        if int(durable) >= int(position):
            self.open = self.open[-1:]

    def close(self) -> None:
        if self.connection is not None:
            self.connection.close()
        self.connection = None


def write(kind: str) -> Callable[[Path, str, list[str], float], None]:
    def work(folder: Path, who: str, addresses: list[str], _: float) -> None:
        load()
        writer, number = Writer(folder, who, addresses, kind), 0
        while not (folder / STOP).exists():
            number += 1
            writer.visit(number)
            writer.settle()
            time.sleep(writer.chance.choice([0, 0, 0.001, 0.05, 0.3]))
            if writer.chance.random() < 0.01:
                writer.close()
        # A close waits until all is durable, and tells nobody what is lost by then: a commit does.
        number += 1
        writer.connection and writer.connection.execute("pragma synchronous = full")
        writer.visit(number)
        writer.close()
        writer.note("end")

    return work


class Torture(LongRun):
    def __init__(self, seconds: float, seed: int) -> None:
        super().__init__(__file__, Relayed(ttl=TTL, more="unproved = false\n"))
        self.seconds, self.chance = seconds, random.Random(seed)
        self.done: Counter[str] = Counter()
        self.relays = Relays()
        self.note = Books(self.keeping.folder / "faults")
        self.rests: list[tuple[float, float]] = []
        """When each time without faults began and ended."""
        self.acts: list[tuple[int, Callable[[], None], Callable[[], None]]] = [
            (3, self.kill_service, self.nothing),
            (2, self.stop_service, self.let_go),
            (3, self.kill_keeper, self.start_keeper),
            (2, self.stop_keeper, self.let_go),
            (1, self.kill_machine, self.start_keeper),
            (1, self.stop_machine, self.let_go),
            (1, self.stop_writer, self.let_go),
        ]
        self.met: list[str] = []
        self.stopped: list[int] = []

    # Faults: each is done within a message, and is over by a second call.

    def aim(self) -> None:
        """Notes whom a fault will meet."""
        row = self.keeping.row(NAME)
        self.holder = row.holder if row.holder in self.keeping.processes else "a"
        self.keeper = self.keeping.processes[self.holder].pid
        found = list(self.keeping.folder.glob(f"*/{NAME}.{row.run}.json"))
        try:
            self.service = int(json.loads(found[0].read_text())["pid"]) if found else None
        except (OSError, ValueError):
            self.service = None

    def send(self, pid: int | None, number: int) -> None:
        if pid is not None:
            with suppress(ProcessLookupError):
                os.kill(pid, number)

    def nothing(self) -> None:
        pass

    def kill_service(self) -> None:
        self.send(self.service, signal.SIGKILL)

    def kill_keeper(self) -> None:
        self.send(self.keeper, signal.SIGKILL)

    def kill_machine(self) -> None:
        self.kill_keeper()
        self.kill_service()

    def start_keeper(self) -> None:
        """At once, or once another has taken over."""
        self.keeping.processes[self.holder].wait()
        time.sleep(self.chance.choice([0, 2.5 * TTL]))
        self.keeping.start(self.holder)

    def hold(self, pid: int | None) -> None:
        if pid is not None:
            self.send(pid, signal.SIGSTOP)
            self.stopped.append(pid)

    def stop_service(self) -> None:
        self.hold(self.service)

    def stop_keeper(self) -> None:
        self.hold(self.keeper)

    def stop_machine(self) -> None:
        self.stop_keeper()
        self.stop_service()

    def stop_writer(self) -> None:
        self.hold(self.chance.choice(self.clients).pid)

    def let_go(self) -> None:
        """For longer than a ttl, or for less."""
        time.sleep(TTL * self.chance.choice([0.3, 1.2, 2.5]))
        for pid in self.stopped:
            self.send(pid, signal.SIGCONT)
        self.stopped.clear()

    def plan(self) -> None:
        """A generation that nobody has to die for."""
        word = self.chance.choice(["rollover", "switchover"])
        try:
            self.keeping.word(word, NAME)
        except AssertionError:
            word += " refused"  # nobody is ready to take it
        self.done[word] += 1
        self.note("fault", act=word)

    def fault(self) -> None:
        """One, at a message."""
        if self.chance.random() < 0.2:
            return self.plan()
        [(_, act, over)] = self.chance.choices(self.acts, [weight for weight, _, _ in self.acts])
        way, word = self.chance.choice(MESSAGES)
        is_before = self.chance.random() < 0.5
        self.aim()
        is_met = self.relays.meet(Armed(way, word, is_before, act), MEETS)
        side = "before" if is_before else "after"
        at = f"{side} {word}, {way}" if is_met else "at no message"
        self.met += [f"{act.__name__} {at}"]
        self.note("fault", act=act.__name__, message=at, holder=self.holder)
        over()
        self.note("over", act=act.__name__)
        self.done[act.__name__] += 1

    # The run.

    def rest(self) -> None:
        """No faults: each writer has to commit."""
        began = time.monotonic()
        self.note("rest")
        time.sleep(REST + 1)
        self.rests.append((began, time.monotonic()))

    def prepare(self) -> None:
        keeping = self.keeping
        keeping.word("create", NAME, "--table", keeping.table)
        keeping.start("a", "b")
        for name in keeping.processes:
            self.relays.before(keeping.ports[name])
        keeping.place(NAME)
        load()
        connection = connected(keeping.addresses, name=NAME)
        connection.executescript(
            "create table counter(visits); insert into counter values (0);"
            "create table visit(who, number); create index visits on visit(who, number)"
        )
        connection.close()

    def run(self) -> int:
        self.prepare()
        writers = [self.client(kind, f"{kind}{n}", 0.0) for kind in LEVELS for n in range(EACH)]
        files = [self.keeping.folder / f"writer.{kind}{n}" for kind in LEVELS for n in range(EACH)]
        eventually(lambda: all(f.exists() and f.stat().st_size for f in files), "the writers")
        began = time.monotonic()
        while time.monotonic() - began < self.seconds:
            for _ in range(ROUND):
                self.fault()
                if self.chance.random() >= AGAIN:
                    time.sleep(self.chance.uniform(0.1, 2 * TTL))
            self.rest()
            alive = sum(writer.poll() is None for writer in writers)
            load_now = os.getloadavg()[0]
            print(
                f"{time.monotonic() - began:6.1f} s: {sum(self.done.values())} faults, {alive} writers, load {load_now:.1f}",
                flush=True,
            )
        dead = [f"a writer has ended: {each.poll()}" for each in writers if each.poll() is not None]
        (self.keeping.folder / STOP).touch()
        return self.report(dead + self.faults([self.ended(each, PATIENCE) for each in writers]))

    def report(self, violations: list[str]) -> int:
        check = Check(self.keeping, self.rests)
        violations += check.violations()
        for violation in violations[:40]:
            print(f"violation: {violation}")
        for name, count in self.done.most_common():
            print(f"{name}: {count}")
        print("met: " + ", ".join(f"{n} {c}" for n, c in Counter(self.met).most_common()))
        for line in check.told():
            print(line)
        print(
            f"writers: {check.count('acknowledged')} commits, {self.keeping.row(NAME).generation} generations, "
            f"{self.relays.hand_overs} hand-overs, {sum(self.done.values())} faults, {len(violations)} violations"
        )
        return 1 if violations or not check.count("acknowledged") else 0


class Check:
    """Knows nothing but the books of the writers, and what a new reader finds."""

    def __init__(self, keeping: Relayed, rests: list[tuple[float, float]]) -> None:
        self.keeping, self.rests = keeping, rests
        self.faults = [json.loads(line) for line in (keeping.folder / "faults").open()]
        self.books = {
            file.name.partition(".")[2]: [json.loads(line) for line in file.open()]
            for file in sorted(keeping.folder.glob("writer.*"))
        }

    def count(self, what: str) -> int:
        return sum(line["what"] == what for lines in self.books.values() for line in lines)

    def violations(self) -> list[str]:
        return [*self._rows(), *self._stuck()]

    def _rows(self) -> Iterator[str]:
        """Each visit is there that was acknowledged, unless its loss was told, and once."""
        connection = connected(self.keeping.addresses, name=NAME, id=3, mode="ro", durable=1)
        rows = Counter(connection.execute("select who, number from visit").fetchall())
        [visits] = connection.execute("select visits from counter").fetchone()
        [whole] = connection.execute("pragma integrity_check").fetchone()
        print(f"{visits} visits, {rows.total()} rows, {whole}")
        if (visits, whole) != (rows.total(), "ok"):
            yield f"{visits} visits, {rows.total()} rows, {whole}"
        for (who, number), times in rows.items():
            if times > 1:
                yield f"visit {number} of {who} is there {times} times"
        for who, lines in self.books.items():
            there = {number for name, number in rows if name == who}
            told = {
                n
                for line in lines
                if line["what"] in ("acknowledged", "found")
                for n in [line["number"]]
            }
            lost = {n for line in lines if line["what"] == "lost" for n in line["numbers"]}
            yield from (f"visit {n} of {who} is lost" for n in sorted(told - lost - there))
            yield from (f"visit {n} of {who} is there, and was told as lost" for n in lost & there)
            yield from (f"visit {n} of {who} is there, and was not told" for n in there - told)
            if who.startswith("full") and lost:
                yield f"{who} lost {sorted(lost)}, which waited for PostgreSQL"
            if lines[-1]["what"] != "end":
                yield f"{who} came to no end: {lines[-1]}"

    def _stuck(self) -> Iterator[str]:
        for began, ended in self.rests:
            for who, lines in self.books.items():
                first = next(
                    (l["at"] for l in lines if l["what"] == "acknowledged" and l["at"] > began),
                    float("inf"),
                )
                if first > began + REST:
                    yield f"{who} had no commit for {min(first, ended) - began:.1f} s after the last fault"

    def told(self) -> Iterator[str]:
        """Each kind of error, how often, and one in full with the faults before it."""
        kinds: Counter[tuple[str, ...]] = Counter()
        seen: dict[tuple[str, ...], str] = {}
        for who, lines in self.books.items():
            for line in lines:
                if line["what"] != "failed":
                    continue
                kind = (who.rstrip("0123456789"), line["stage"], line["code"], line.get("why", ""))
                kinds[kind] += 1
                before = [
                    f"{line['at'] - f['at']:.1f} s before: {f['act']} {f.get('message', f['what'])}"
                    for f in self.faults
                    if f["what"] in ("fault", "over") and 0 <= line["at"] - f["at"] < 20
                ]
                seen.setdefault(kind, f"{who} {line}; {'; '.join(before)}")
        for kind, count in kinds.most_common():
            yield f"{count} x {' | '.join(kind)}"
            if kind[2] not in ("SQLITE_BUSY",):
                yield f"    as {seen[kind]}"


def main(words: list[str]) -> int:
    if is_client(words, {kind: write(kind) for kind in LEVELS}):
        return 0
    called = [sys.executable, __file__, *words]
    if not is_in_own_space() and (own := in_own_space(called)) != called:
        return subprocess.run(own).returncode
    seconds = float(words[0]) if words else 120.0
    return Torture(seconds, int(words[1]) if len(words) > 1 else 1).whole()


if __name__ == "__main__":
    sys.exit(main(sys.argv[1:]))
