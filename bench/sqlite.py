"""Times SQLite over the service beside stock SQLite in WAL, with synchronous=full and off, on a file.

Usage: python3 bench/sqlite.py [SHARE | --short | --keepers | --pairs] [--idle-polls N] [--note BUILD]     (1; a tenth of the work with
0.1; --short is 0.3, a minute or two; --keepers is what bench/sqlite_keepers.py says, --pairs what bench/sqlite_pairs.py does, and nothing
else; --note writes what README says of it: bench/figures.py)

The service is crates/pagelog/out/pagelog, or the program that PAGELOG names; where --idle-polls is given, it is given that
option. The client is built by `make -C clients/c`.
Everything is measured in this one run, by the same statements, in this one process, round after round in turns: a table with
a text of a hundred bytes and an index on a random number. Plain SQLite has its file in bench/work. Beside each rate is its
share of that of stock SQLite in WAL with synchronous=off. Both are medians of all rounds; who comes first in a round is drawn.

    inserts     transactions of one row a second
    updates     transactions that change one number
    thousands   transactions of 1,000 rows a second
    warm        point reads a second, each a transaction of its own, of pages that were read before
    in one      the same within one transaction
    cold        point reads a second within one transaction, by a connection that has just been opened
    scan        pages a second of a scan of the table by such a connection

`check 0` asks the service at the beginning of each transaction whether the epoch goes on, `check 50` where the last answer
is older than 50 ms. Their commits wait for the service. `unwaited` is as `check 50`, with synchronous=off and async_commits=64, so that
its commits wait for nothing, as those of stock SQLite with synchronous=off do. A follower is a reader; its lag is from the
moment that a commit was acknowledged to the end of the transaction in which the follower saw it, asked again and again. The
service keeps its log in memory, and synchronous=full waits for a disk: the two promises are not equal.

After it come what a transaction sends, what an insert takes of this process' time and of its processor time where its wait
looks for the reply first and where it sleeps at once, and speedtest1 of SQLite's sources, if SPEEDTEST1 names the
program, as built by

    apt-get source sqlite3 && gcc -O2 -o speedtest1 sqlite3-*/test/speedtest1.c -lsqlite3

Last comes a table: what this client aims at, what it is measured at in this run, and the half of the rounds around that.
On a busy machine `chrt -r 5 python3 bench/sqlite.py` has it run before others, the services too: without that the rates show who
was given a processor.
"""

import argparse
import os
import pathlib
import random
import shutil
import statistics
import subprocess
import sys
import time

ROOT = pathlib.Path(__file__).resolve().parent.parent
CLIENT = ROOT / "clients" / "c"
WORK = ROOT / "bench" / "work" / "sqlite"
UPDATE = "update t set value = value + 1 where id = 1"
ROUNDS = 20
# How many there are in all rounds together, where the share is 1.
COLUMNS = {
    "inserts": 8000,
    "updates": 8000,
    "thousands": 40,
    "warm": 40000,
    "in one": 80000,
    "cold": 40000,
    "scan": 10,
}
WRITES = ("inserts", "updates", "thousands")
LOADS = "import sqlite3; sqlite3.Connection.enable_load_extension"


def words():
    parser = argparse.ArgumentParser()
    parser.add_argument(
        "share",
        nargs="?",
        type=float,
        default=1.0,
        metavar="SHARE",
        help="of the work of a whole run",
    )
    parser.add_argument("--short", action="store_true", help="0.3 of it")
    parser.add_argument("--keepers", action="store_true", help="databases of keepers")
    parser.add_argument(
        "--pairs",
        action="store_true",
        help="what keepers cost a commit that does not wait for the archive",
    )
    parser.add_argument(
        "--idle-polls",
        type=int,
        metavar="N",
        help="the option of pagelog serve, which has a default",
    )
    parser.add_argument(
        "--note", metavar="BUILD", help="write bench/figures.toml, of a program that is so called"
    )
    return parser.parse_args()


SHARE, IDLE_POLLS = 0.3 if words().short else words().share, words().idle_polls


def python_that_loads():
    """Not every build of Python lets SQLite load extensions: one on the path that does."""
    for folder in os.get_exec_path():
        program = os.path.join(folder, "python3")
        if (
            os.access(program, os.X_OK)
            and not subprocess.run([program, "-c", LOADS], capture_output=True).returncode
        ):
            return program
    sys.exit(
        "no python3 on the path has an sqlite3 that loads extensions: apt-get install -y python3"
    )


import sqlite3  # noqa: E402

if not hasattr(sqlite3.Connection, "enable_load_extension"):
    program = python_that_loads()
    os.execv(program, [program, "-B"] + sys.argv)

os.environ["PAGELOG_EXTENSION"] = str(CLIENT / "pagelog_vfs.so")
sys.path.insert(0, str(CLIENT / "tests"))
sys.dont_write_bytecode = True


def count(most):
    return max(int(most * SHARE), 20)


def rate(number, action):
    start = time.perf_counter()
    action(number)
    return number / (time.perf_counter() - start)


class Work:
    """The statements, over connections that `opened` gives."""

    def __init__(self, opened):
        self.opened, self.numbers = opened, random.Random(1)
        self.connection = opened()
        self.connection.executescript(
            "create table t(id integer primary key, number int, value int, text text);"
            "create index by_number on t(number);"
        )
        self.rows = 0

    def insert(self):
        self.rows += 1
        self.connection.execute(
            "insert into t(number, value, text) values (?, 0, ?)",
            (self.numbers.randrange(1 << 40), "x" * 100),
        )

    def inserts(self, number):
        for _ in range(number):
            self.insert()

    def thousands(self, number):
        for _ in range(number):
            self.connection.execute("begin")
            for _ in range(1000):
                self.insert()
            self.connection.execute("commit")

    def updates(self, number):
        for _ in range(number):
            self.connection.execute(UPDATE)

    def reads(self, connection, number):
        for _ in range(number):
            connection.execute(
                "select text from t where id = ?", (self.numbers.randrange(self.rows) + 1,)
            ).fetchone()

    def within_one(self, connection, number):
        connection.execute("begin")
        self.reads(connection, number)
        connection.execute("commit")


class System:
    """A database, how it is opened to be written and to be read, and its rates: of each column one for each round."""

    def __init__(self, name, opened, work=None, shares=False, columns=tuple(COLUMNS)):
        self.name, self.opened, self.shares, self.columns = name, opened, shares, columns
        self.work, self.writes = work or Work(opened), work is None
        self.rates = {column: [] for column in COLUMNS}
        self.warm = None

    def once(self, column, number):
        """One round of a column: how many a second, or None where this is a reader, or has no such column."""
        if column not in self.columns:
            return None
        if column in WRITES:
            return rate(number, getattr(self.work, column)) if self.writes else None
        if column in ("warm", "in one"):
            if not self.warm:
                self.warm = self.opened()
                self.work.within_one(self.warm, count(20000))
            return rate(
                number,
                lambda many: (self.work.reads if column == "warm" else self.work.within_one)(
                    self.warm, many
                ),
            )
        if self.shares:  # connections of a writer share their pages, so that none of them is cold
            return None
        connection = self.opened()
        if column == "cold":
            found = rate(number, lambda many: self.work.within_one(connection, many))
        else:
            pages = connection.execute("pragma page_count").fetchone()[0]
            found = rate(
                pages, lambda _: connection.execute("select total(length(text)) from t").fetchone()
            )
        connection.close()
        return found


def measure(systems):
    """Each column in ROUNDS rounds, and in each round of every system, so that what else the machine does falls on all."""
    for column, most in COLUMNS.items():
        for number in range(ROUNDS):
            for system in random.Random(number).sample(systems, len(systems)):
                found = system.once(
                    column, max(int(most * SHARE / ROUNDS), 1 if column == "thousands" else 10)
                )
                if found:
                    system.rates[column].append(found)


def plain(synchronous):
    path = WORK / f"{synchronous}.db"

    def opened():
        connection = sqlite3.connect(path, isolation_level=None)
        connection.execute("pragma journal_mode = wal")
        connection.execute(f"pragma synchronous = {synchronous}")
        return connection

    return System(f"plain, WAL, {synchronous}", opened)


def shares(system, other, column):
    """What its rates are of another's, round by round."""
    return [one / plain for one, plain in zip(system.rates[column], other.rates[column])]


def show(systems):
    """The rates, and beside them what they are of those of stock SQLite with synchronous=off: the medians of all rounds."""
    print(f"{'a second':20}" + "".join(f"{column:>17}" for column in COLUMNS))
    for system in systems:
        cells = []
        for column in COLUMNS:
            rates = system.rates[column]
            share = statistics.median(shares(system, systems[-1], column)) if rates else 0
            cells.append(f"{statistics.median(rates):>11,.0f} {share:>5.2f}" if rates else " " * 17)
        print(f"{system.name:20}" + "".join(cells))


class Aims:
    """The table of what is aimed at and what was measured."""

    def __init__(self):
        self.lines = []

    def add(self, what, values, least=None, most=None, digits=2):
        """The median of the values, of which there may be one, is at least or at most so much."""
        middle = statistics.median(values)
        low, _, high = (
            statistics.quantiles(values, method="inclusive") if len(values) > 1 else [middle] * 3
        )
        is_met = middle >= least if most is None else middle <= most
        aim = f"at least {least:,}" if most is None else f"at most {most:,}"
        around = f"{low:,.{digits}f} to {high:,.{digits}f}" if len(values) > 1 else ""
        self.lines.append(
            (what, aim, f"{middle:,.{digits}f}", around, "met" if is_met else "missed")
        )

    def lacks(self, what, why):
        self.lines.append((what, "", "", "", why))

    def show(self):
        lines = [("aim", "wanted", "measured", "half of the rounds", ""), *self.lines]
        widths = [max(len(line[i]) for line in lines) for i in range(5)]
        for line in lines:
            print("  ".join(text.ljust(width) for text, width in zip(line, widths)).rstrip())


def add_rates(aims, systems):
    """The aims that are of rates."""
    _, trusted, unwaited, follower, _, plain_off = systems
    for column, what, least in (
        ("inserts", "one-row inserts", 0.5),
        ("thousands", "transactions of 1,000 rows", 1),
    ):
        aims.add(
            f"{what}, a COMMIT waits: share of WAL, off",
            shares(trusted, plain_off, column),
            least=least,
        )
        aims.add(
            f"{what}, nobody waits: share of WAL, off",
            shares(unwaited, plain_off, column),
            least=least,
        )
    for who, system in (("a writer", trusted), ("a follower", follower)):
        times = [1 / share for share in shares(system, plain_off, "warm")]
        aims.add(f"warm reads, check=50, {who}: time beside WAL, off", times, most=1.2)
    aims.add("cold reads of a follower, a second", follower.rates["cold"], least=12000, digits=0)
    aims.add(
        "cold reads of a follower: share of WAL, off",
        shares(follower, plain_off, "cold"),
        least=0.5,
    )


def cost(work, name, statement):
    """What a transaction of this statement sends: the bytes and the round trips of each of fifty."""
    told = lambda what: int(work.connection.execute(f"pragma pagelog_{what}").fetchone()[0])
    sent = {what: [] for what in ("bytes_sent", "requests", "round_trips", "blocks_written")}
    for _ in range(50):
        before = {what: told(what) for what in sent}
        work.connection.execute(statement)
        for what, values in sent.items():
            values.append(told(what) - before[what])
    middle = {what: statistics.median(values) for what, values in sent.items()}
    print(
        f"{name}: {middle['bytes_sent']:,.0f} bytes sent, {middle['blocks_written']:.0f} blocks, "
        f"{middle['requests']:.0f} requests, {middle['round_trips']:.0f} round trips"
    )
    return sent["bytes_sent"], sent["round_trips"]


def waits(work):
    """What an insert takes, in microseconds, with each way of waiting."""
    number, ways = count(2000), {"looks for 50 us": 50, "sleeps at once": 0}
    found = {way: [] for way in ways}
    for _ in range(ROUNDS):
        for way, spin in ways.items():
            work.connection.execute(f"pragma pagelog_spin = {spin}").fetchone()
            start, used = time.perf_counter(), time.process_time()
            work.inserts(number // ROUNDS)
            taken = time.perf_counter() - start, time.process_time() - used
            found[way].append([1e6 * seconds / (number // ROUNDS) for seconds in taken])
    for way, taken in found.items():
        whole, used = (statistics.median(column) for column in zip(*taken))
        print(
            f"an insert whose wait {way}: {whole:.0f} us, {used:.0f} us of the client's processor"
        )


def lag(work, follower):
    """Milliseconds from acknowledgement to sight, sorted."""
    found = []
    for _ in range(count(200)):
        work.insert()
        start = time.perf_counter()
        while follower.execute("select count(*) from t").fetchone()[0] < work.rows:
            pass
        found.append((time.perf_counter() - start) * 1000)
    return sorted(found)


def speedtest(program, opened):
    """Seconds of speedtest1, over the service and on a file, in turns: those over the service beside WAL, off."""
    size, found = str(max(int(20 * SHARE), 2)), {}
    subprocess.run(["make", "-s", "-C", CLIENT, "out/pagelog_preload.so"], check=True)
    preload = {"LD_PRELOAD": str(CLIENT / "out" / "pagelog_preload.so")}
    for _ in range(5):
        with opened() as service:
            runs = [
                ("pagelog", ["--vfs", "pagelog", service.uri], preload),
                ("WAL, full", ["--journal", "wal", WORK / "speed_full.db"], {}),
                ("WAL, off", ["--journal", "wal", "--nosync", WORK / "speed_off.db"], {}),
            ]
            for name, words, more in runs:
                for old in WORK.glob("speed_*"):
                    old.unlink()
                start = time.perf_counter()
                ran = subprocess.run(
                    [program, "--size", size, *words],
                    capture_output=True,
                    text=True,
                    env={**os.environ, **more},
                )
                if ran.returncode:
                    sys.exit(f"speedtest1: {ran.stdout[-300:]}{ran.stderr[-300:]}")
                found.setdefault(name, []).append(time.perf_counter() - start)
    for name, seconds in found.items():
        beside = [one / other for one, other in zip(seconds, found["WAL, off"])]
        print(
            f"speedtest1, size {size}, {name}: {statistics.median(seconds):.2f} s, {min(seconds):.2f} at best, "
            f"{statistics.median(beside):.2f} of WAL, off"
        )
    return [one / other for one, other in zip(found["pagelog"], found["WAL, off"])]


def systems_of(first, second, third):
    """The systems that are compared, with three services: stock SQLite with synchronous=off is the last one."""
    from database import connect, reader

    def opened_unwaited():
        connection = connect(third.address, check=50, async_commits=64)
        connection.execute("pragma synchronous = off")
        return connection

    checked = System("pagelog, check 0", lambda: connect(first.address), shares=True)
    trusted = System("pagelog, check 50", lambda: connect(second.address, check=50), shares=True)
    unwaited = System("pagelog, unwaited", opened_unwaited, shares=True, columns=WRITES)
    follower = System("a follower", lambda: reader(second.address, check=50), trusted.work)
    return [checked, trusted, unwaited, follower, plain("full"), plain("off")]


def note_figures(systems):
    sys.path.insert(0, str(ROOT / "bench"))
    import figures

    _, service, _, follower, synced, stock = systems
    named = {"service": service, "follower": follower, "synced": synced, "stock": stock}
    figures.note(words().note, os.cpu_count(), os.getloadavg()[0], named)


def measure_writer(aims, work, follower):
    """What its transactions cost, and how soon a follower sees them."""
    sent, trips = cost(work, "an update of one number", UPDATE)
    aims.add("an update of one number: bytes sent", sent, most=303, digits=0)
    aims.add("an update of one number: round trips", trips, most=1, digits=0)
    cost(
        work,
        "an insert of one row",
        "insert into t(number, value, text) values (random(), 0, hex(randomblob(50)))",
    )
    work.rows = work.connection.execute("select count(*) from t").fetchone()[0]
    waits(work)
    lags = lag(work, follower)
    most = lags[-len(lags) // 100]
    print(
        f"lag of a follower: median {statistics.median(lags):.2f} ms, 99 of 100 within {most:.2f} ms, most {lags[-1]:.2f} ms"
    )
    aims.add("lag of a follower, ms", lags, most=10)
    aims.add("lag of a follower, ms: 99 of 100 within", [most], most=10)


def measure_speedtest(aims):
    from database import uri
    from service import Service

    def opened():
        service = Service(idle_polls=IDLE_POLLS)
        service.uri = uri(service.address, check=50)
        return service

    program, what = os.environ.get("SPEEDTEST1"), "speedtest1: time beside WAL, off"
    if program:
        aims.add(what, speedtest(program, opened), most=1.1)
    else:
        aims.lacks(what, "not run: SPEEDTEST1 names no program")


def measure_keepers():
    import database  # noqa: F401
    import stub_keeper  # noqa: F401
    from service import Service

    del sys.modules["service"]  # the tests of the keepers have one of their own
    if words().pairs:
        import sqlite_pairs

        return sqlite_pairs.measure()
    import sqlite_keepers

    with Service(idle_polls=0) as service:  # as keepers start theirs
        sqlite_keepers.measure(WORK, service)


def main():
    subprocess.run(["make", "-s", "-C", CLIENT], check=True)
    from database import reader
    from service import PROGRAM, Service

    aims = Aims()
    shutil.rmtree(WORK, ignore_errors=True)
    WORK.mkdir(parents=True)
    if words().keepers or words().pairs:
        return measure_keepers()
    print(
        f"{os.cpu_count()} processors, load {os.getloadavg()[0]:.1f}, SQLite {sqlite3.sqlite_version}, share {SHARE}, "
        f"{'default' if IDLE_POLLS is None else IDLE_POLLS} idle polls, {ROUNDS} rounds"
    )
    with (
        Service(idle_polls=IDLE_POLLS) as first,
        Service(idle_polls=IDLE_POLLS) as second,
        Service(idle_polls=IDLE_POLLS) as third,
    ):
        systems = systems_of(first, second, third)
        measure(systems)
        show(systems)
        if words().note:
            note_figures(systems)
        add_rates(aims, systems)
        measure_writer(aims, systems[1].work, reader(second.address))
    measure_speedtest(aims)
    aims.show()
    print(f"load at the end {os.getloadavg()[0]:.1f}, service {pathlib.Path(PROGRAM).name}")
    shutil.rmtree(WORK, ignore_errors=True)


if __name__ == "__main__":
    main()
