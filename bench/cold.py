"""Times reads by key, at random, by an SQLite reader that has read nothing yet, beside stock SQLite's that has not either.

Usage: python3 bench/cold.py [--rounds N] [--reads N] [--idle-polls N] [--named ROWS] [ROWS ..]
(20; 2,000; 0, as keepers start theirs; 240,000, 0 for none; 48,000 240,000 600,000)

The service is crates/pagelog/out/pagelog, or the program that PAGELOG names. The client is built by `make -C clients/c`. The table is
that of bench/sqlite.py: a text of a hundred bytes, and an index on a random number. Each round has each reader, in an order that is
drawn, open a connection, and read so many rows by keys that are drawn, the same for all, within one transaction. Plain SQLite's file
is in WAL, in the system's cache and not in SQLite's; ours is in the service's memory, and the reader (mode=ro, check=50) has nothing of it
(keep=0), or, "again", the pages that its process kept when it closed such a reader. Then come the rates of a scan. Beside them are shares
of stock SQLite's, round by round: the median, and the half of the rounds around it; how many pages were fetched, by how many round trips,
and what that took of the processor of who served them (in its ticks of 10 ms, so it is coarse).

Then the same of a database of keepers: in its first generation, after a rollover, whose run begins with images, and at a page server.
These need what clients/python/test needs, and `make -C clients/pages`."""

import argparse
import contextlib
import os
import pathlib
import random
import shutil
import sqlite3
import statistics
import subprocess
import sys
import time

ROOT = pathlib.Path(__file__).resolve().parent.parent
CLIENT = ROOT / "clients" / "c"
WORK = ROOT / "bench" / "work" / "cold"
GROUP = 1000  # rows of a transaction that fills the table
READ = "select text from t where id = ?"
SCAN = "select total(length(text)) from t"


def words():
    parser = argparse.ArgumentParser()
    parser.add_argument(
        "rows", nargs="*", type=int, default=[48_000, 240_000, 600_000], metavar="ROWS"
    )
    parser.add_argument("--rounds", type=int, default=20)
    parser.add_argument("--reads", type=int, default=2000)
    parser.add_argument("--named", type=int, default=240_000, metavar="ROWS")
    parser.add_argument(
        "--idle-polls", type=int, default=0, metavar="N", help="the option of pagelog serve"
    )
    return parser.parse_args()


def fill(connection, rows):
    numbers = random.Random(1)
    connection.execute("create table t(id integer primary key, number int, value int, text text)")
    connection.execute("create index by_number on t(number)")
    for _ in range(rows // GROUP):
        connection.execute("begin")
        values = ((numbers.randrange(1 << 40), "x" * 100) for _ in range(GROUP))
        connection.executemany("insert into t(number, value, text) values (?, 0, ?)", values)
        connection.execute("commit")


def read(connection, keys):
    """How many rows a second."""
    began = time.perf_counter()
    connection.execute("begin")
    for key in keys:
        connection.execute(READ, (key,)).fetchone()
    connection.execute("commit")
    return len(keys) / (time.perf_counter() - began)


def scan(connection, rows):
    began = time.perf_counter()
    connection.execute(SCAN).fetchone()
    return rows / (time.perf_counter() - began)


def fill_process(opened):
    """Has the process keep all pages."""
    connection = opened()
    for text in (SCAN, "select count(*) from t indexed by by_number"):
        connection.execute(text).fetchone()
    connection.close()


def seconds_of(process):
    """Of the processor."""
    words = pathlib.Path(f"/proc/{process}/stat").read_text().rsplit(")", 1)[1].split()
    return (int(words[11]) + int(words[12])) / os.sysconf("SC_CLK_TCK")


def halves(values):
    low, middle, high = statistics.quantiles(values, method="inclusive")
    return f"{middle:.2f} ({low:.2f} to {high:.2f})"


def stock(rows):
    """The path of such a database of stock SQLite."""
    path = WORK / f"{rows}.db"
    if not path.exists():
        plain = sqlite3.connect(path, isolation_level=None)
        plain.execute("pragma journal_mode = wal")
        plain.execute("pragma synchronous = off")
        fill(plain, rows)
        plain.close()
    return path


def compare(what, opened, rows, given, pid):
    """Prints the rates of readers: "ours", "plain" and maybe "again"; `pid` is who serves "ours"."""
    from database import numbers

    rates = {how: {name: [] for name in opened} for how in ("by key", "scan")}
    costs, spent = [], 0.0
    for number in range(given.rounds):
        drawn = random.Random(number)
        keys = [drawn.randrange(rows) + 1 for _ in range(given.reads)]
        for name in drawn.sample(sorted(opened), len(opened)):
            connection = opened[name]()
            before = seconds_of(pid)
            rates["by key"][name].append(read(connection, keys))
            if name == "ours":
                spent += seconds_of(pid) - before
                costs.append(numbers(connection, "pages_fetched", "round_trips"))
            connection.close()
        for name in drawn.sample(sorted(opened), len(opened)):
            connection = opened[name]()
            rates["scan"][name].append(scan(connection, rows))
            connection.close()
    fetched, trips = (statistics.median(column) for column in zip(*costs))
    print(what)
    for how, of in rates.items():
        print(f"  {how}: plain {statistics.median(of['plain']):,.0f} a second")
        for name in sorted(set(opened) - {"plain"}, reverse=True):
            share = halves([one / other for one, other in zip(of[name], of["plain"])])
            print(f"    {name}: {statistics.median(of[name]):,.0f} a second: {share}")
    each = spent / sum(pages for pages, _ in costs)
    print(
        f"  by key: {fetched:,.0f} pages fetched in {trips:,.0f} round trips, "
        f"{1e6 * each:.1f} us of who serves them each",
        flush=True,
    )


def measure(rows, given):
    from database import connect, reader
    from service import Service

    path = stock(rows)
    with Service(idle_polls=given.idle_polls) as service:
        writer = connect(service.address, check=50)
        fill(writer, rows)
        pages = writer.execute("pragma page_count").fetchone()[0]
        opened = {
            "ours": lambda: reader(service.address, check=50, keep=0),
            "again": lambda: reader(service.address, check=50),
            "plain": lambda: sqlite3.connect(path, isolation_level=None),
        }
        fill_process(opened["again"])
        compare(f"{rows:,} rows, {pages:,} pages:", opened, rows, given, service.process.pid)
        writer.close()


@contextlib.contextmanager
def page_server(keeping, position):
    """The process id of one that has all up to there, and of which keepers tell readers."""
    from keepers import eventually

    words = ["-m", "pagelog", "pages", "shop", "--folder", keeping.folder / "pages", "--program"]
    words += [ROOT / "clients" / "pages" / "out" / "pagelog-pages", "--machine", "there"]
    words += ["--cache", 256, "--credentials", keeping.file]
    process = subprocess.Popen(
        [sys.executable, *map(str, words)], stderr=subprocess.DEVNULL, env=keeping.environment
    )

    def is_there():
        look = keeping.referee.everything()
        found = [each for row in look.rows for each in look.pages_of(row.id)]
        return any(each.table_number and each.position >= position for each in found)

    eventually(is_there, "a page server")
    tasks = pathlib.Path(f"/proc/{process.pid}/task").iterdir()
    (child,) = (int(word) for task in tasks for word in (task / "children").read_text().split())
    try:
        yield child
    finally:
        process.terminate()
        process.wait()


def measure_named(rows, given):
    """Of a database of keepers."""
    from database import numbers, sqlite_of

    del sys.modules["service"]  # the tests of the keepers have one of their own
    tests = ROOT / "clients" / "python"
    sys.path[:0] = [str(tests / "tests"), str(tests / "src")]
    from keepers import Keeping, eventually

    path = stock(rows)
    with Keeping(ttl=1.5, audit=1 << 24) as keeping:
        table = (ROOT / "clients" / "c" / "table.toml").read_text()
        keeping.referee.create("shop", table, b"s" * 16)
        keeping.start("a")
        addresses = ",".join(keeping.addresses)

        def opened(**more):
            ours = lambda: sqlite_of(addresses, "shop", 3, mode="ro", check=50, keep=0, **more)
            return {"ours": ours, "plain": lambda: sqlite3.connect(path, isolation_level=None)}

        writer = sqlite_of(addresses, "shop", 2, check=50)
        writer.execute("pragma synchronous = normal")
        fill(writer, rows)
        writer.execute("pragma synchronous = full")
        writer.execute("update t set value = 1 where id = 1")
        generation = keeping.place("shop").generation
        told = f"{rows:,} rows of keepers,"
        compare(f"{told} the first generation:", opened(), rows, given, keeping.pid("shop"))
        keeping.word("rollover", "shop")
        keeping.place("shop", generation + 1)
        writer.execute("update t set value = 2 where id = 1")
        compare(f"{told} after a rollover:", opened(), rows, given, keeping.pid("shop"))
        (position,) = numbers(writer, "position")
        with page_server(keeping, position) as pid:

            def is_told():
                reader = opened()["ours"]()
                reader.execute(READ, (1,)).fetchone()
                (copied,) = numbers(reader, "pages_copied")
                reader.close()
                return copied > 0

            eventually(is_told, "that it is told")
            compare(f"{told} beside a page server:", opened(), rows, given, pid)
        writer.close()


def main():
    given = words()
    os.environ["PAGELOG_EXTENSION"] = str(CLIENT / "pagelog_vfs.so")
    sys.path.insert(0, str(CLIENT / "tests"))
    sys.dont_write_bytecode = True
    subprocess.run(["make", "-s", "-C", CLIENT], check=True)
    from service import PROGRAM

    shutil.rmtree(WORK, ignore_errors=True)
    WORK.mkdir(parents=True)
    print(
        f"{os.cpu_count()} processors, load {os.getloadavg()[0]:.1f}, {pathlib.Path(PROGRAM).name}, {given.reads} reads, {given.rounds} rounds, "
        f"{given.idle_polls} idle polls"
    )
    for rows in given.rows:
        measure(rows, given)
    if given.named:
        measure_named(given.named, given)
    print(f"load at the end {os.getloadavg()[0]:.1f}")
    shutil.rmtree(WORK, ignore_errors=True)


if __name__ == "__main__":
    main()
