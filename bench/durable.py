"""Times how soon a reader of what is durable sees a commit that its writer did not wait for, over keepers.

Usage: python3 bench/durable.py [--commits N] [--pause MS]     (300; 20)

The service is crates/pagelog/out/pagelog, or the program that PAGELOG names; needs what clients/python/test needs. A writer with
synchronous=normal commits a row, and pauses; a reader (mode=ro, durable=1), in a thread of its own, looks for the newest row without a
pause. Printed is the time from the end of the COMMIT to the end of the statement that showed it: the median, nine of ten, the most."""

import argparse
import os
import pathlib
import statistics
import sys
import threading
import time

ROOT = pathlib.Path(__file__).resolve().parent.parent
CLIENT = ROOT / "clients" / "c"


def words():
    parser = argparse.ArgumentParser()
    parser.add_argument("--commits", type=int, default=300)
    parser.add_argument("--pause", type=float, default=20, metavar="MS")
    return parser.parse_args()


def watch(reader, last, seen):
    """Notes when each row was there."""
    while len(seen) < last:
        (newest,) = reader.execute("select max(id) from t").fetchone()
        seen += [time.perf_counter()] * ((newest or 0) - len(seen))


def measure(given):
    from database import load, sqlite_of

    load()
    del sys.modules["service"]  # the tests of the keepers have one of their own
    tests = ROOT / "clients" / "python"
    sys.path[:0] = [str(tests / "tests"), str(tests / "src")]
    from keepers import Keeping

    with Keeping(ttl=1.5) as keeping:
        keeping.referee.create("shop", (CLIENT / "table.toml").read_text(), b"s" * 16)
        keeping.start("a")
        keeping.place("shop")
        addresses = ",".join(keeping.addresses)
        writer = sqlite_of(addresses, "shop", 2)
        writer.execute("create table t(id integer primary key, text text)")
        writer.execute("pragma synchronous = normal")
        reader = sqlite_of(addresses, "shop", 3, mode="ro", durable=1)
        told, seen = [], []
        thread = threading.Thread(target=watch, args=(reader, given.commits, seen))
        thread.start()
        for _ in range(given.commits):
            writer.execute("insert into t(text) values ('x')")
            told.append(time.perf_counter())
            time.sleep(given.pause / 1000)
        thread.join()
        reader.close()
        writer.close()
    took = sorted(1000 * (at - since) for at, since in zip(seen, told))
    print(
        f"a durable reader, of a commit with NORMAL: {statistics.median(took):.1f} ms, nine of ten within "
        f"{took[9 * len(took) // 10]:.1f}, the most {took[-1]:.1f}; load {os.getloadavg()[0]:.1f}"
    )


def main():
    given = words()
    os.environ["PAGELOG_EXTENSION"] = str(CLIENT / "pagelog_vfs.so")
    sys.path.insert(0, str(CLIENT / "tests"))
    sys.dont_write_bytecode = True
    measure(given)


if __name__ == "__main__":
    main()
