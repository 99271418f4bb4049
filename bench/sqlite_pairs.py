"""Decides whether a COMMIT with synchronous=normal through keepers costs more than one to the same service by its address, for
bench/sqlite.py --pairs.

Two databases of the same keepers; one is written through them, the other by the address of its service. Short turns of both follow one
another, and who comes first in a pair is drawn. Half of the pairs are taken with the databases changed over, so that neither service is
the better one for both. What counts is the median of the ratios of pairs, with a confidence interval of 95 in 100 by the bootstrap.

What the client does for a commit is counted as well, by valgrind and strace if they are there: its instructions and its system calls
are the difference of two runs of other lengths, both of which sleep at once (spin=0)."""

import os
import pathlib
import random
import re
import statistics
import subprocess
import sys
import tempfile
import time

ROOT = pathlib.Path(__file__).resolve().parent.parent
TABLE = "create table if not exists t(id integer primary key, text text)"
INSERT = "insert into t(text) values ('{}')".format("x" * 100)
PAIRS, COMMITS, DRAWS = 3000, 20, 2000
NAMES = "one", "other"
FEW, MANY = 300, 800


def seconds_of(execute, count):
    since = time.perf_counter()
    for _ in range(count):
        execute(INSERT)
    return time.perf_counter() - since


def ratios(named, direct, pairs):
    """What a turn through keepers takes of one by the address, pair by pair."""
    found, chance = [], random.Random(1)
    for _ in range(pairs):
        taken, systems = {}, [named, direct]
        for execute in chance.sample(systems, 2):
            taken[execute] = seconds_of(execute, COMMITS)
        found.append(taken[named] / taken[direct])
    return found


def interval(values):
    """The median, and within what it is in 95 of 100 draws."""
    chance = random.Random(1)
    drawn = sorted(statistics.median(chance.choices(values, k=len(values))) for _ in range(DRAWS))
    return statistics.median(values), drawn[DRAWS // 40], drawn[-DRAWS // 40]


def keys_of(place, name):
    from database import TOKENS
    from stub_keeper import token_of

    return {
        word: token_of(bytes.fromhex(TOKENS[number]), name, place.run).hex()
        for word, number in (("token", 2), ("optoken", 1))
    }


def opened(keeping, named_one, direct_one):
    """A connection through the keepers, and one by the address of a service."""
    from database import connect, sqlite_of

    place = keeping.place(direct_one)
    named = sqlite_of(",".join(keeping.addresses), named_one, 2, check=50)
    direct = connect(place.address, check=50, **keys_of(place, direct_one))
    for each in (named, direct):
        each.execute("pragma synchronous = normal")
        each.execute(TABLE)
        seconds_of(each.execute, 100)
    return named, direct


# ---- What the client does ----

WRITES = """
import sys
sys.path.insert(0, {tests!r})
from database import sqlite3
uri, count = sys.argv[1], int(sys.argv[2])
connection = sqlite3.connect(uri, uri=True, isolation_level=None)
connection.execute("pragma synchronous = normal")
for _ in range(count):
    connection.execute({insert!r})
connection.close()
"""


def instructions(words):
    with tempfile.NamedTemporaryFile() as file:
        ran = subprocess.run(
            ["valgrind", "--tool=callgrind", f"--callgrind-out-file={file.name}", *words],
            capture_output=True,
            text=True,
        )
    return {"instructions": int(re.search(r"Collected : (\d+)", ran.stderr)[1])}


def system_calls(words):
    with tempfile.NamedTemporaryFile("r") as file:
        subprocess.run(["strace", "-f", "-c", "-o", file.name, *words], check=True)
        rows = [line.split() for line in file]
    return {
        row[-1]: int(row[3])
        for row in rows
        if len(row) >= 5 and row[0][0].isdigit() and row[-1] != "total"
    }


def counted(uri):
    """What one commit takes: the difference of two runs."""
    script = WRITES.format(tests=str(ROOT / "clients" / "c" / "tests"), insert=INSERT)
    found = {}
    for count in (instructions, system_calls):
        few, many = (
            count([sys.executable, "-B", "-c", script, uri, str(number)]) for number in (FEW, MANY)
        )
        found.update({name: (many[name] - few.get(name, 0)) / (MANY - FEW) for name in many})
    return {name: number for name, number in found.items() if number >= 0.05}


def count_costs(keeping):
    from database import uri, uri_of

    named, direct = NAMES
    place = keeping.place(direct)
    uris = {
        "through keepers": uri_of(",".join(keeping.addresses), named, 2, check=50, spin=0),
        "by the address": uri(place.address, check=50, spin=0, **keys_of(place, direct)),
    }
    for what, each in uris.items():
        print(
            f"a commit {what}: "
            + ", ".join(f"{name} {number:,.2f}" for name, number in sorted(counted(each).items()))
        )


def measure():
    sys.path[:0] = [
        str(ROOT / "clients" / "python" / "tests"),
        str(ROOT / "clients" / "python" / "src"),
    ]
    from keepers import Keeping

    with Keeping(ttl=10.0, standby=False) as keeping:
        for name in NAMES:
            keeping.referee.create(
                name, (ROOT / "clients" / "c" / "table.toml").read_text(), b"s" * 16
            )
        keeping.start("a")
        for name in NAMES:
            keeping.place(name)
        print(f"load {os.getloadavg()[0]:.1f}, pairs of {COMMITS} commits each")
        found = []
        for pair in (NAMES, NAMES[::-1]):
            named, direct = opened(keeping, *pair)
            found.append(ratios(named.execute, direct.execute, PAIRS // 2))
            named.close(), direct.close()
        for what, values in zip(
            ("first half", "databases changed over", "all"), (*found, sum(found, []))
        ):
            middle, low, high = interval(values)
            print(
                f"normal through keepers, of by the address, {what}: {middle:.3f} ({low:.3f} to {high:.3f}, {len(values)} pairs)"
            )
        count_costs(keeping)
        print(f"load at the end {os.getloadavg()[0]:.1f}")
