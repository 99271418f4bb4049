"""The pause of a writer at full speed across planned successions, by the size of what is live; a figure, and no test.

Usage: PAGELOG=.. python3 -B clients/python/tests/pauses.py [MIB [SUCCESSIONS]]
"""

from __future__ import annotations

import gc
import json
import os
import random
import re
import sys
import time
from pathlib import Path

HERE = Path(__file__).resolve().parent
sys.path[:0] = [str(HERE), str(HERE.parent / "src")]

import psycopg  # noqa: E402

from keepers import Keeping, new_url  # noqa: E402
from long_runs import STOP, LongRun, is_client  # noqa: E402
from pagelog import Primary, Put  # noqa: E402
from service import PATIENCE, token  # noqa: E402
from soak import percentiles  # noqa: E402

WAYS = {"durable": True, "not durable": False}


def write(folder: Path, way: str, addresses: list[str], _: float) -> None:
    """One writer in a process of its own, which is waited for with every commit, or with none.

    A pause is what it lacks between two acknowledgements: of its first commit in a generation, or of the last one in the
    generation before, which may have waited for the switch; the longer of the two.
    """
    gc.freeze()  # what these tests import, a writer does not
    primary = Primary.named(
        "shop",
        keepers=addresses,
        principal=2,
        token=token(2),
        operator=(1, token(1)),
        patience=PATIENCE,
        timeout=PATIENCE,
    )
    pauses, commits = [], []
    generation, last, before = 0, time.monotonic(), 0.0
    while not (folder / STOP).exists():
        primary.append(Put(0, 0, os.urandom(100)))
        primary.commit(durable=WAYS[way])
        now = time.monotonic()
        took, reached = now - last, primary.place.generation  # type: ignore[union-attr]
        (commits if reached == generation else pauses).append(
            took if reached == generation else max(took, before)
        )
        last, before, generation = now, took, reached
    (folder / "writer").write_text(json.dumps([commits, pauses[1:]]))


def probe(folder: Path, url: str, _: list[str], __: float) -> None:
    """What a commit of PostgreSQL's takes meanwhile, by itself."""
    gc.freeze()
    commits = []
    with psycopg.connect(url, autocommit=True) as connection:
        connection.execute("CREATE TABLE IF NOT EXISTS probe (n integer)")
        while not (folder / STOP).exists():
            began = time.monotonic()
            connection.execute("INSERT INTO probe VALUES (1)")
            commits.append(time.monotonic() - began)
            time.sleep(0.02)
    (folder / "probe").write_text(json.dumps(commits))


class Pauses(LongRun):
    """So many successions with a writer that waits for each commit, and as many with one that does not."""

    def __init__(self, mib: int, successions: int) -> None:
        super().__init__(__file__, Keeping(ttl=1.0, standby=False, audit=1 << 24, url=new_url()))
        self.mib, self.successions = mib, successions

    def fill(self) -> None:
        """Full pages of bytes that no compression would make less."""
        chance, began = random.Random(1), time.monotonic()
        with self.keeping.primary() as primary:
            for page in range(1, self.mib * 128 + 1):
                primary.append(Put(page, 0, chance.randbytes(8192)))
                if page % 512 == 0:
                    primary.commit(durable=page % 2048 == 0)
            primary.commit(durable=True)
        print(f"{self.mib} MiB filled in {time.monotonic() - began:.1f} s", flush=True)

    def measure(self, way: str) -> None:
        keeping, folder = self.keeping, self.keeping.folder
        (folder / STOP).unlink(missing_ok=True)
        clients = [self.client("write", way, 0), self.client("probe", keeping.url, 0)]
        for _ in range(self.successions):
            before = keeping.place()
            keeping.word("rollover", "shop")
            keeping.place(least=before.generation + 1)
            time.sleep(0.3)
        (folder / STOP).touch()
        if any([self.ended(client, 60) for client in clients]):
            sys.exit("a client failed")
        commits, pauses = map(sorted, json.loads((folder / "writer").read_text()))
        probed = sorted(json.loads((folder / "probe").read_text()))
        print(
            f"{way}: the pause, ms: {percentiles(pauses)}; a commit of PostgreSQL's, ms: {percentiles(probed)}; "
            f"a commit, ms: {percentiles(commits)}; load {os.getloadavg()[0]:.0f}",
            flush=True,
        )

    def run(self) -> int:
        self.keeping.word("create", "shop", "--table", self.keeping.table)
        self.keeping.start("a")
        self.fill()
        for way in WAYS:
            self.measure(way)
        said = self.keeping.said()
        for what in ("closed", "switched"):
            print(
                f"{what}, ms: {percentiles(sorted(float(took) / 1000 for took in re.findall(f'{what} in ([0-9.]+) ms', said)))}"
            )
        print(re.findall("a base of .*", said)[0])
        return 0


if __name__ == "__main__":
    if not is_client(sys.argv[1:], {"write": write, "probe": probe}):
        sys.exit(Pauses(*map(int, sys.argv[1:] or [10, 20])).whole())
