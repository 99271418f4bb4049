"""The torture of databases of real keepers: each has a writer or two and some readers, each a process, while services and keepers are
killed and stand still, databases change hands and generations, and PostgreSQL is restarted. After each event readers look at all of
it. What was acknowledged is in the end compared with the ledger.

Usage: kept.py SECONDS [--level full|normal] [--seed N] [--databases N] [--until N] [--tls]     (so many acknowledged transactions; nobody is
reached but by TLS)
"""

import argparse
import json
import os
import pathlib
import random
import signal
import subprocess
import sys
import time
from collections import Counter

HERE = pathlib.Path(__file__).resolve().parent
sys.path[:0] = [str(HERE.parents[1] / "python" / "tests"), str(HERE.parents[1] / "python" / "src")]
sys.dont_write_bytecode = True

from keepers import Keeping  # noqa: E402
from postgres import postgres  # noqa: E402
from secured import SecureAlone  # noqa: E402

PATIENCE = 600
SHOWN_EACH = 60  # seconds
LOSSES = "SQLITE_IOERR_FSYNC", "1034"


class Client:
    """A process of kept_client.py, or the program in C; its lines go to a file."""

    def __init__(self, keeping, database, number, kind, principal, level, *more):
        self.kind, self.level, self.lines = kind, level, []
        path = keeping.folder / f"{database}.client{number}"
        environment = {**os.environ, "PYTHONDONTWRITEBYTECODE": "1"}
        addresses = ",".join(keeping.addresses)
        words = [
            sys.executable,
            "-B",
            str(HERE / "kept_client.py"),
            kind,
            addresses,
            database,
            str(principal),
            level,
            *more,
        ]
        if kind == "teller":
            uri = (
                f"file:test?where={addresses}&name={database}&id={principal}&token={str(principal) * 32}&op=1&optoken={'1' * 32}"
                "&check=50&move=300000"
            )
            words = [str(HERE.parent / "out" / "teller"), uri, level]
        self.process = subprocess.Popen(
            words,
            stdin=subprocess.PIPE,
            stdout=path.open("w"),
            stderr=subprocess.STDOUT,
            text=True,
            env=environment,
        )
        self.file, self.rest = path.open(), ""

    def read_on(self):
        """Takes the whole lines that it has said since."""
        *lines, self.rest = (self.rest + self.file.read()).split("\n")
        for line in lines:
            try:
                self.lines.append(json.loads(line))
            except ValueError:
                raise AssertionError(
                    f"{self.kind} {self.level}: {line} {self.rest} {self.file.read()[:2000]}"
                ) from None
        return self.lines

    def ask(self):
        """Has a reader look at all of the database."""
        try:
            self.process.stdin.write("look\n")
            self.process.stdin.flush()
        except BrokenPipeError:
            pass  # it has ended, and its end says how

    def end(self):
        """Has it end; its lines. It has to end well."""
        try:
            self.process.stdin.close()
        except BrokenPipeError:
            pass
        self.process.wait(PATIENCE)
        assert (
            self.process.returncode == 0
        ), f"{self.kind} {self.level}: {self.process.returncode} {self.read_on()[-3:]} {self.rest}"
        return self.read_on()

    def done(self):
        return sum("done" in line for line in self.read_on())


class Database:
    """One that is tortured: its writers, who take turns, and its readers."""

    def __init__(self, keeping, number, level):
        self.keeping, self.name, self.level = keeping, f"shop{number}", level
        keeping.referee.create(self.name, (HERE.parent / "table.toml").read_text(), b"s" * 16)
        self.writers, self.readers = [], []

    def begin(self, writers, readers, *more):
        self.keeping.place(self.name)
        Client(self.keeping, self.name, 0, "prepare", 2, self.level).end()
        self.writers = [
            Client(self.keeping, self.name, 1 + number, kind, 2, self.level)
            for number, kind in enumerate(writers)
        ]
        self.readers = [
            Client(self.keeping, self.name, 10 + number, "read", 3, what, *more)
            for number, what in enumerate(readers)
        ]

    def done(self):
        return sum(writer.done() for writer in self.writers)

    def ask(self):
        for reader in self.readers:
            reader.ask()

    def service(self):
        row = self.keeping.row(self.name)
        files = list(self.keeping.folder.glob(f"*/{self.name}.{row.run}.json"))
        try:
            return int(json.loads(files[0].read_text())["pid"]) if files else None
        except (OSError, ValueError):
            return None

    def compare(self):
        """Ends its clients. What was acknowledged is in the ledger. With synchronous=normal, where writers take turns, one may have lost
        what another has gone on without, and was told so."""
        ended = [writer.end() for writer in self.writers]
        lines = [line for each in ended for line in each]
        looks = [line for reader in self.readers for line in reader.end() if "end" in line]
        told = Counter(line["told"] for line in lines if "told" in line)
        highest = max((line["done"] for line in lines if "done" in line), default=0)
        last = Client(self.keeping, self.name, 99, "ledger", 3, "durable", str(highest))
        found = {line["number"]: line["hash"] for line in last.end() if "number" in line}
        lost, excused = [], 0
        for each in ended:
            losses = [
                at
                for at, line in enumerate(each)
                if line.get("told") in LOSSES and self.level == "normal" and len(ended) > 1
            ]
            for at, line in enumerate(each):
                if "done" in line and found.get(line["done"]) != line["hash"]:
                    excused += bool(losses and at < losses[-1])
                    lost += [] if losses and at < losses[-1] else [line["done"]]
        count = sum("done" in line for line in lines)
        ends = [line for line in lines if "end" in line]
        print(
            f"kept: {self.name}, {self.level}: {count} acknowledged, {len(lost)} lost {lost[:5]}, {excused} more of which it was told, told {dict(told)}; the longest "
            f"statement {max(end['longest'] for end in ends):.2f} s, {sum(end['moves'] for end in ends)} moves, "
            f"{sum(end['resent'] for end in ends)} blocks sent again; "
            f"{sum(look['looks'] for look in looks)} looks, {sum(look['wholes'] for look in looks)} of all of it, "
            f"{sum(look['backwards'] for look in looks)} went back, told {dict(sum((Counter(look['told']) for look in looks), Counter()))}"
        )
        for line in {line["told"]: line for line in reversed(lines) if "told" in line}.values():
            print("kept:   ", line)  # the first of each kind
        return count, len(lost)


class Torture:
    def __init__(self, seconds, level, seed, databases, until, by_tls=False):
        self.seconds, self.chance, self.level, self.count, self.until = (
            seconds,
            random.Random(seed),
            level,
            databases,
            until,
        )
        kind = SecureAlone if by_tls else Keeping
        self.keeping = kind(ttl=1.5, more="unproved = false\n")
        self.happened = Counter()

    def signal(self, pid, number):
        try:
            if pid is not None:
                os.kill(pid, number)
        except ProcessLookupError:
            pass

    def stand_still(self, *pids, seconds=None):
        for pid in pids:
            self.signal(pid, signal.SIGSTOP)
        time.sleep(seconds or self.chance.choice((0.3, 1.0, 2.5, 4.0)))
        for pid in pids:
            self.signal(pid, signal.SIGCONT)

    # What happens.

    def kill_service(self, database):
        self.signal(database.service(), signal.SIGKILL)

    def stop_service(self, database):
        self.stand_still(database.service())

    def kill_keeper(self, _):
        name = self.chance.choice(list(self.keeping.processes))
        self.keeping.kill(name)
        time.sleep(self.chance.choice((0.0, 3.0)))
        self.keeping.start(name)

    def stop_keeper(self, _):
        self.stand_still(self.chance.choice(list(self.keeping.processes.values())).pid)

    def stop_both(self, database):
        """The service and its keeper, as a machine that stands still: a zombie for a while."""
        keeper = self.keeping.processes.get(self.keeping.row(database.name).holder or "", None)
        self.stand_still(database.service(), getattr(keeper, "pid", None), seconds=4.0)

    def switch_over(self, database):
        self.keeping.word("switchover", database.name)

    def succeed(self, database):
        self.keeping.word("rollover", database.name)

    def restart_postgresql(self, _):
        postgres().crash()
        time.sleep(self.chance.choice((0.0, 1.0)))
        postgres().start()

    def happens(self, databases):
        events = [
            self.kill_service,
            self.kill_service,
            self.switch_over,
            self.switch_over,
            self.succeed,
            self.succeed,
            self.succeed,
            self.stop_service,
            self.kill_keeper,
            self.stop_keeper,
            self.stop_both,
            self.restart_postgresql,
        ]
        began = shown = time.monotonic()
        while time.monotonic() < began + self.seconds and all(
            writer.process.poll() is None for each in databases for writer in each.writers
        ):
            time.sleep(self.chance.uniform(0.5, 4.0))
            event, database = self.chance.choice(events), self.chance.choice(databases)
            self.happened[event.__name__] += 1
            try:
                event(database)
            except AssertionError:
                if event not in (
                    self.switch_over,
                    self.succeed,
                ):  # they wait for nobody, and PostgreSQL may be away
                    raise
                self.happened[f"{event.__name__} refused"] += 1
            database.ask()
            done = sum(each.done() for each in databases)
            if time.monotonic() > shown + SHOWN_EACH:
                shown = time.monotonic()
                print(
                    f"kept: after {shown - began:.0f} s {done} acknowledged, {sum(self.happened.values())} events",
                    flush=True,
                )
            if self.until and done >= self.until:
                break

    # The whole.

    def run(self):
        with self.keeping as keeping:
            databases = [Database(keeping, number, self.level) for number in range(self.count)]
            keeping.start("a", "b", "c")
            for number, database in enumerate(databases):
                if self.count == 1:
                    database.begin(("write", "teller"), ("plain", "plain", "durable", "plain"))
                else:
                    database.begin(
                        ("write", "teller") if number == 0 else ("teller",),
                        ("plain", "durable"),
                        "many",
                    )
            try:
                self.happens(databases)
                ends = [database.compare() for database in databases]
            except BaseException:
                print(keeping.said()[-8000:])
                raise
            print(f"kept: {dict(self.happened)}")
            print(
                f"kept: {self.level}: {sum(done for done, _ in ends)} acknowledged, {sum(lost for _, lost in ends)} lost, load {os.getloadavg()[0]:.0f}"
            )
            assert not any(lost for _, lost in ends), "acknowledged transactions are lost"


def main():
    parser = argparse.ArgumentParser()
    parser.add_argument("seconds", type=float)
    parser.add_argument("--level", choices=("full", "normal"), default="full")
    parser.add_argument("--seed", type=int, default=1)
    parser.add_argument("--databases", type=int, default=1)
    parser.add_argument("--until", type=int, default=0)
    parser.add_argument("--tls", action="store_true")
    words = parser.parse_args()
    Torture(words.seconds, words.level, words.seed, words.databases, words.until, words.tls).run()


if __name__ == "__main__":
    main()
