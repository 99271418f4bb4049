"""Times SQLite over databases of keepers, for bench/sqlite.py --keepers: what a COMMIT takes with synchronous=full beside stock SQLite
in WAL with synchronous=full on the same disk and beside a commit of PostgreSQL's own; what it takes with normal beside a database of the
same keepers that is reached by its address, and beside a service that nobody archives; and the longest that a statement took at a
succession, a switchover and a takeover.

All is measured in turns, round after round, by the same statement, an insert of one row of a hundred bytes. PostgreSQL is the one of
the keepers, in the folder of TMPDIR."""

import os
import pathlib
import signal
import sqlite3
import statistics
import sys
import threading
import time

ROOT = pathlib.Path(__file__).resolve().parent.parent
sys.path[:0] = [
    str(ROOT / "clients" / "python" / "tests"),
    str(ROOT / "clients" / "python" / "src"),
]
TABLE = "create table if not exists t(id integer primary key, text text)"
INSERT = "insert into t(text) values ('{}')".format("x" * 100)
ROUNDS, COMMITS, TIMES = 30, 20, 5


def seconds_of(execute, count):
    since = time.perf_counter()
    for _ in range(count):
        execute(INSERT)
    return (time.perf_counter() - since) / count


def in_turns(systems, count):
    """What a commit takes, in seconds, of each system and in each round."""
    found = {name: [] for name in systems}
    for _ in range(ROUNDS):
        for name, execute in systems.items():
            found[name].append(seconds_of(execute, count))
    return found


def show(found, beside):
    for name, taken in found.items():
        shares = [one / other for one, other in zip(taken, found[beside])]
        low, _, high = statistics.quantiles(shares, method="inclusive")
        print(
            f"{name:32} {1000 * statistics.median(taken):8.3f} ms a commit, {statistics.median(shares):.2f} of {beside} "
            f"({low:.2f} to {high:.2f})"
        )


class Writer:
    """Commits without a pause, in a thread, and notes when each began and how long it took."""

    def __init__(self, execute):
        self.execute, self.taken, self.is_on = execute, [], True
        self.thread = threading.Thread(target=self.write)
        self.thread.start()

    def write(self):
        while self.is_on:
            since = time.perf_counter()
            self.execute(INSERT)
            self.taken.append((since, time.perf_counter() - since))

    def longest_since(self, since):
        return max(took for began, took in self.taken if began + took >= since)

    def end(self):
        self.is_on = False
        self.thread.join()


def events_of(keeping, name):
    """What happens to a database. A takeover follows the death of its keeper and its service together."""

    def take_over():
        holder, pid = keeping.row(name).holder, keeping.pid(name)
        keeping.kill(holder)
        os.kill(pid, signal.SIGKILL)
        return holder

    return {
        "a succession": lambda: keeping.word("rollover", name),
        "a switchover": lambda: keeping.word("switchover", name),
        "a death of the service": lambda: os.kill(keeping.pid(name), signal.SIGKILL),
        "a takeover": take_over,
    }


def measure_events(keeping, name, level, opened):
    """The longest statement at each event, once a standby is there that may take over."""
    from keepers import eventually

    for what, event in events_of(keeping, name).items():
        longest = []
        for _ in range(TIMES):
            eventually(lambda: keeping.standbys(name), "a standby")
            connection = opened()
            connection.execute(f"pragma synchronous = {level}")
            writer = Writer(connection.execute)
            time.sleep(0.5)
            generation, since = keeping.place(name).generation, time.perf_counter()
            dead = event()
            keeping.place(name, generation + 1)
            count = len(writer.taken)
            eventually(lambda: len(writer.taken) > count + 5, "more commits")
            writer.end()
            longest.append(writer.longest_since(since))
            if what == "a takeover":
                keeping.start(dead)
            connection.close()
        print(
            f"{what:24} synchronous={level:7} the longest statement {1000 * statistics.median(longest):6.0f} ms, "
            f"{1000 * max(longest):.0f} at most of {TIMES}"
        )


def measure(work, service):
    """`work` is a folder on the disk of stock SQLite's file."""
    import psycopg
    from database import TOKENS, connect, sqlite_of
    from keepers import Keeping
    from stub_keeper import token_of

    with Keeping(ttl=1.5) as keeping:
        for name in ("full", "normal", "direct"):
            keeping.referee.create(
                name, (ROOT / "clients" / "c" / "table.toml").read_text(), b"s" * 16
            )
        keeping.start("a", "b")
        addresses = ",".join(keeping.addresses)

        def opened(name, level):
            connection = sqlite_of(addresses, name, 2, check=50)
            connection.execute(f"pragma synchronous = {level}")
            connection.execute(TABLE)
            return connection

        for name in ("full", "normal"):
            keeping.place(name)
        place = keeping.place("direct")
        keys = {
            word: token_of(bytes.fromhex(TOKENS[number]), "direct", place.run).hex()
            for word, number in (("token", 2), ("optoken", 1))
        }
        plain = sqlite3.connect(work / "keepers.db", isolation_level=None)
        plain.execute("pragma journal_mode = wal")
        plain.execute("pragma synchronous = full")
        plain.execute(TABLE)
        postgresql = psycopg.connect(keeping.url, autocommit=True)
        postgresql.execute(TABLE.replace("integer primary key", "serial primary key"))
        full, normal = opened("full", "full"), opened("normal", "normal")
        direct, alone = connect(place.address, check=50, **keys), connect(service.address, check=50)
        for each in (direct, alone):
            each.execute(TABLE)
        print(f"commits of one row, load {os.getloadavg()[0]:.1f}")
        show(
            in_turns(
                {
                    "keepers, synchronous=full": full.execute,
                    "stock SQLite, WAL, full": plain.execute,
                    "PostgreSQL": postgresql.execute,
                },
                COMMITS,
            ),
            "stock SQLite, WAL, full",
        )
        show(
            in_turns(
                {
                    "keepers, synchronous=normal": normal.execute,
                    "to=, of the same keepers": direct.execute,
                    "to=, a service alone": alone.execute,
                },
                10 * COMMITS,
            ),
            "to=, of the same keepers",
        )
        postgresql.execute("drop table t")
        postgresql.close()
        for each in (full, normal, direct):
            each.close()
        for level in ("full", "normal"):
            measure_events(keeping, "full", level, lambda: opened("full", "full"))
        print(f"load at the end {os.getloadavg()[0]:.1f}")
