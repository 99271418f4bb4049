"""How large PostgreSQL becomes beside a store, see clients/python/bounded; called with `write` it is the writer, a process of its own."""

from __future__ import annotations

import json
import os
import random
import shutil
import sys
import tempfile
import time
from contextlib import suppress
from pathlib import Path
from typing import Any

HERE = Path(__file__).resolve().parent
sys.path[:0] = [str(HERE), str(HERE.parent / "src")]

import psycopg  # noqa: E402

from keepers import Keeping, new_url  # noqa: E402
from long_runs import STOP, LongRun, is_client  # noqa: E402
from pagelog import Primary, Put  # noqa: E402
from pagelog.referee.bases import Bases  # noqa: E402
from pagelog.referee.referee import digest  # noqa: E402
from service import PATIENCE, token  # noqa: E402
from soak import bars, memory_of, picture  # noqa: E402

TTL = 2.0
PAGES = 2000
TOGETHER = 50
"""Commits of which the last is durable."""
MOST = 64.0
"""MiB that blocks and images may have in PostgreSQL, whatever the time."""
_SIZES = """
SELECT pg_total_relation_size('pagelog_block') + pg_total_relation_size('pagelog_image'),
  COALESCE((SELECT sum(pg_total_relation_size(oid)) FROM pg_class WHERE relname LIKE 'pagelog_trail_%' AND relkind = 'r'), 0),
  (SELECT count(*) FROM pagelog_block), (SELECT count(*) FROM pagelog_image WHERE data <> '')
"""


def write(folder: Path, name: str, addresses: list[str], rate: float) -> None:
    """Small commits at this rate, as far as the machine goes, until there is a file `stop`; then it says how many were durable."""
    primary = Primary.named(
        name,
        keepers=addresses,
        principal=2,
        token=token(2),
        operator=(1, token(1)),
        patience=120.0,
        timeout=4 * TTL,
    )
    began, number, end, chance = time.monotonic(), 0, 0, random.Random(1)
    while not (folder / STOP).exists():
        for _ in range(TOGETHER):
            number += 1
            primary.append(Put(number * 7919 % PAGES, number % 100 * 80, chance.randbytes(70)))
            end = primary.commit(durable=number % TOGETHER == 0)
        time.sleep(max(0.0, began + number / rate - time.monotonic()))
    (folder / "written").write_text(
        json.dumps({"commits": number, "end": end, "seconds": time.monotonic() - began})
    )


def processor_of(pid: int) -> float:
    """Seconds that a process has taken of processors."""
    with suppress(OSError, IndexError):
        fields = Path(f"/proc/{pid}/stat").read_text().rpartition(")")[2].split()
        return (int(fields[11]) + int(fields[12])) / os.sysconf("SC_CLK_TCK")
    return 0.0


class Bounded(LongRun):
    def __init__(self, seconds: float, rate: float, age: float, picture: str) -> None:
        self.seconds, self.rate, self.picture = seconds, rate, picture
        self.folder = Path(tempfile.mkdtemp(prefix="pagelog-bounded-"))
        super().__init__(
            __file__,
            Keeping(ttl=TTL, audit=1 << 24, url=new_url(), standby=False, more="trail = 1\n"),
        )
        self.keeping.stores(self.folder, age=f"{age:.0f}s", tail=f"{age:.0f}s")
        text = self.keeping.file.read_text()
        self.keeping.file.write_text(text.replace("[keeper]", "keep = 3\n[keeper]"))
        self.taken: list[tuple[int, float, float]] = []
        """The process of the mover, when it was looked at, and what it had taken of processors."""
        self.curves: dict[str, list[float]] = {
            "blocks and images in PostgreSQL, MiB": [],
            "trail in PostgreSQL, MiB": [],
            "blocks there": [],
            "images there": [],
            "objects, MiB": [],
            "memory of the mover, MiB": [],
        }

    def stop(self) -> None:
        super().stop()
        shutil.rmtree(self.folder, ignore_errors=True)

    def run(self) -> int:
        keeping = self.keeping
        keeping.word("create", "shop", "--table", keeping.table)
        keeping.start("a")
        keeping.place("shop")
        writer = self.client("write", "shop", self.rate)
        ends, loads = time.monotonic() + self.seconds, []
        with psycopg.connect(keeping.url, autocommit=True) as probe:
            while time.monotonic() < ends and writer.poll() is None:
                self.measure(probe)
                loads.append(os.getloadavg()[0])
                time.sleep(1.0)
        (keeping.folder / STOP).touch()
        found = self.faults([self.ended(writer, PATIENCE)])
        written = json.loads((keeping.folder / "written").read_text())
        return self.report(found + self.violations(written["end"]), written, loads)

    def measure(self, probe: psycopg.Connection[Any]) -> None:
        [[size, trail, blocks, images]] = probe.execute(_SIZES).fetchall()
        objects = sum(
            file.stat().st_size
            for file in self.folder.rglob("*")
            if file.is_file() and not file.name.startswith(".")
        )
        mover = self.mover()
        self.taken.append((mover, time.monotonic(), processor_of(mover)))
        points = (
            size / 2**20,
            float(trail) / 2**20,
            blocks,
            images,
            objects / 2**20,
            memory_of(mover) / 2**20,
        )
        for curve, point in zip(self.curves.values(), points):
            curve.append(float(point))

    def mover(self) -> int:
        """The process of the keeper's mover; 0 where there is none."""
        for process in Path("/proc").glob("[0-9]*"):
            with suppress(OSError):
                words = (process / "cmdline").read_bytes()
                if b"pagelog.store.moving" in words and self._is_ours(process):
                    return int(process.name)
        return 0

    def share(self) -> str:
        """What the mover took of a processor, since it has begun to work."""
        process = self.taken[-1][0]
        some = [each for each in self.taken if each[0] == process and process][10:]
        if len(some) < 2:
            return "no share of a processor is known"
        (_, began, before), (_, ended, after) = some[0], some[-1]
        share = (after - before) / (ended - began)
        return f"the mover took {share:.3f} of a processor over {ended - began:.0f} s"

    def _is_ours(self, process: Path) -> bool:
        parent = int((process / "stat").read_text().rpartition(")")[2].split()[1])
        return parent in {keeper.pid for keeper in self.keeping.processes.values()}

    def violations(self, end: int) -> list[str]:
        """All blocks from the newest base on have the digest that PostgreSQL knows, and the base its images."""
        referee = self.keeping.referee
        row = self.keeping.row("shop")
        found = (
            [] if row.archived >= end else [f"{end} was durable, and {row.archived} is archived"]
        )
        base = Bases(referee, row.id).newest(row.archived)
        for _ in Bases(referee, row.id).images(base):
            pass  # each is checked, and in the end all
        chain = base.chain
        for piece in referee.blocks(row.id, base.position + 1, row.archived):
            chain = digest(chain, piece)
        if chain != row.chain:
            found.append("the archive has other blocks")
        return found

    def report(self, violations: list[str], written: dict[str, Any], loads: list[float]) -> int:
        sizes = self.curves["blocks and images in PostgreSQL, MiB"]
        if max(sizes) > MOST:
            violations.append(f"blocks and images became {max(sizes):.1f} MiB")
        for violation in violations:
            print(f"violation: {violation}")
        for what, curve in self.curves.items():
            print(f"{what:38} {bars(curve)}  at most {max(curve):.1f}, in the end {curve[-1]:.1f}")
        if self.picture:
            Path(self.picture).write_text(picture(self.curves, self.seconds))
        print(self.share())
        print(
            f"bounded: {written['commits']} commits in {written['seconds']:.0f} s, {written['commits'] / written['seconds']:.0f} a second, "
            f"load {min(loads):.0f} to {max(loads):.0f}, {len(violations)} violations"
        )
        return 1 if violations else 0


def main(words: list[str]) -> int:
    if is_client(words, {"write": write}):
        return 0
    numbers = [float(word) for word in words[:3]]
    seconds, rate, age = numbers + [3600.0, 1000.0, 10.0][len(numbers) :]
    return Bounded(seconds, rate, age, "".join(words[3:4])).whole()


if __name__ == "__main__":
    sys.exit(main(sys.argv[1:]))
