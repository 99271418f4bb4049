"""The soak of named databases, see clients/python/soak; called with `write` or `read` it is a client of its own process."""

from __future__ import annotations

import json
import os
import random
import re
import shutil
import signal
import sys
import tempfile
import time
from collections import Counter
from pathlib import Path
from typing import Any, Callable

HERE = Path(__file__).resolve().parent
sys.path[:0] = [str(HERE), str(HERE.parent / "src")]

import psycopg  # noqa: E402

from by_tls import trust  # noqa: E402
from keepers import Keeping, new_url  # noqa: E402
from long_runs import STOP, LongRun, is_client, text_of  # noqa: E402
from pagelog import BelowBase, Block, PagelogError, Primary, Put, Reader  # noqa: E402
from pagelog.referee.bases import Bases  # noqa: E402
from pagelog.referee.referee import digest  # noqa: E402
from pagelog.keeper.run import fronts_of  # noqa: E402
from replicated import DATABASE, Server, Sessions, url_of  # noqa: E402
from secured import Certificates, SecureAlone  # noqa: E402
from service import PATIENCE, token  # noqa: E402

TTL = 1.0
LIST = 8000
"""Entries of an audit list: a succession comes every few seconds."""
NAMES = ("shop", "ship")
PAGES, CELL = 400, 64
STORE, BY_TLS = "--store", "--tls"
BARS = "▁▂▃▄▅▆▇█"


# Clients, each a process with books of its own.


def cell_of(text: str) -> tuple[int, int]:
    """Where a commit is written: page and offset, at random but always the same for the same commit."""
    chance = random.Random(text)
    return chance.randrange(PAGES), CELL * chance.randrange(8192 // CELL)


def write(folder: Path, name: str, addresses: list[str], rate: float) -> None:
    """Commits one block after the other until there is a file `stop`, each fourth of them durable, and notes each, and each pause."""
    books = (folder / f"writer-{name}").open("a", buffering=1)

    def note(what: str, **facts: object) -> None:
        books.write(json.dumps({"what": what, **facts}) + "\n")

    primary = Primary.named(
        name,
        keepers=addresses,
        principal=2,
        token=token(2),
        operator=(1, token(1)),
        patience=120.0,
        timeout=4 * TTL,
        trust=trust(),
    )
    number, generation, last, open_commits = 0, 0, time.monotonic(), {}
    while not (stops := (folder / STOP).exists()) or open_commits:
        due = time.monotonic() + 1 / rate
        if not stops:
            number += 1
            text = f"{name} {number}"
            page, offset = cell_of(text)
            primary.append(Put(page, offset, text.encode().ljust(CELL, b".")))
            note("try", text=text)
        position = primary.commit(durable=stops or number % 4 == 0)
        now = time.monotonic()
        if primary.place.generation != generation:  # type: ignore[union-attr]
            note("pause", before=generation, generation=primary.place.generation, seconds=now - last)  # type: ignore[union-attr]
            generation = primary.place.generation  # type: ignore[union-attr]
        last = now
        if not stops:
            open_commits[position] = text
        for each in [each for each in open_commits if each <= primary.durable_end]:
            note("durable", text=open_commits.pop(each), position=each)
        time.sleep(max(0.0, due - time.monotonic()))
    note("end")


def read(folder: Path, name: str, addresses: list[str], _: float) -> None:
    """Follows what is durable, and notes each block. What became older than the images while it was away it leaves out."""
    books = (folder / f"reader-{name}").open("a", buffering=1)
    reader = Reader.named(
        name,
        keepers=addresses,
        principal=3,
        token=token(3),
        durable_only=True,
        patience=120.0,
        timeout=4 * TTL,
        trust=trust(),
    )
    position = 1
    while not (folder / STOP).exists():
        try:
            for block in reader.blocks(position, idle=0.1, stop=(folder / STOP).exists):
                books.write(
                    json.dumps({"what": "read", "position": block.lsn, "text": text_of(block)})
                    + "\n"
                )
                position = block.lsn + 1
        except BelowBase as below:
            position = below.base + 1
            books.write(json.dumps({"what": "skipped", "position": position}) + "\n")
        except PagelogError as error:
            books.write(
                json.dumps({"what": "ended", "why": f"{type(error).__name__}: {error}"}) + "\n"
            )
            reader.close()


# The run.


class Soak(LongRun):
    def __init__(
        self,
        seconds: float,
        seed: int,
        rate: float = 150.0,
        *,
        least: int = 0,
        audit: int = LIST,
        picture: str = "",
        store: bool = False,
        by_tls: bool = False,
    ) -> None:
        """It goes on for so many seconds, and until there were at least so many successions. `picture` is the file of one. With `store` blocks
        and images go to one after a second, and what nothing names any more is deleted there. `by_tls` nobody is reached otherwise, and
        fronts are killed, too."""
        self.picture = picture
        self.seconds, self.chance, self.rate, self.least, self.audit = (
            seconds,
            random.Random(seed),
            rate,
            least,
            audit,
        )
        more = "trail = 1\n" * store
        kind, self.server = (SecureAlone, _secured_server()) if by_tls else (Keeping, None)
        url = new_url() if self.server is None else url_of(self.server)
        super().__init__(__file__, kind(ttl=TTL, audit=audit, url=url, more=more))
        self.folder = Path(tempfile.mkdtemp(prefix="pagelog-soak-")) if store else None
        if self.folder is not None:
            self.keeping.stores(self.folder, seal="64KiB", age="1s", tail="1s", grace="20s")
        self.keeping.file.write_text(
            self.keeping.file.read_text().replace("[keeper]", "keep = 2\n[keeper]")
        )
        self.kills: Counter[str] = Counter()
        self.curves: dict[str, list[float]] = {
            "memory of services, MiB": [],
            "memory of keepers, MiB": [],
            "archive, MiB": [],
            "archived blocks that are kept": [],
            "entries left, least": [],
        }
        self.commits: list[float] = []
        self.deeds: list[Callable[[], None]] = [self.kill_service, self.kill_keeper, self.kill_next]
        self.deeds += [self.kill_front] if by_tls else []

    # Kills.

    def notes(self, name: str) -> dict[str, int]:
        """The services of a database, by their runs."""
        found = {}
        for file in self.keeping.folder.glob(f"*/{name}.*.json"):
            try:
                facts = json.loads(file.read_text())
                found[str(facts["run"])] = int(facts["pid"])
            except (OSError, ValueError):
                continue
        return found

    def kill(self, pid: int | None) -> None:
        try:
            if pid is not None:
                os.kill(pid, signal.SIGKILL)
        except ProcessLookupError:
            pass

    def kill_service(self) -> None:
        name = self.chance.choice(NAMES)
        self.kill(self.notes(name).get(str(self.keeping.row(name).run)))

    def kill_next(self) -> None:
        """Any service that serves nobody: the next one, or a standby."""
        name = self.chance.choice(NAMES)
        others = [pid for run, pid in self.notes(name).items() if run != self.keeping.row(name).run]
        self.kill(self.chance.choice(others) if others else None)

    def kill_keeper(self) -> None:
        name = self.chance.choice(list(self.keeping.processes))
        self.keeping.kill(name)
        self.keeping.start(name)

    def kill_front(self) -> None:
        for front in fronts_of(
            self.keeping.folder / self.chance.choice(list(self.keeping.processes))
        ):
            front.leave()
            self.kill(front.facts.pid)

    # Measuring.

    def measure(self, probe: psycopg.Connection[Any]) -> None:
        """One point of each curve, and a commit of PostgreSQL's."""
        began = time.monotonic()
        probe.execute("INSERT INTO probe VALUES (1)")
        self.commits.append(time.monotonic() - began)
        [[count, size]] = probe.execute(
            "SELECT count(*), COALESCE(sum(length(data)), 0) FROM pagelog_block"
        ).fetchall()
        [[images]] = probe.execute(
            "SELECT COALESCE(sum(length(data)), 0) FROM pagelog_image"
        ).fetchall()
        services = sum(memory_of(pid) for name in NAMES for pid in self.notes(name).values())
        keepers = sum(memory_of(process.pid) for process in self.keeping.processes.values())
        reports = [
            keeper.report[name].get("entries_left", self.audit)
            for keeper in self.keeping.referee.everything().keepers
            for name in NAMES
            if name in keeper.report  # what is quarantined has a list there
        ]
        points = (
            services / 2**20,
            keepers / 2**20,
            (float(size) + float(images)) / 2**20,
            count,
            min(reports, default=self.audit),
        )
        for curve, point in zip(self.curves.values(), points):
            curve.append(float(point))

    def stop(self) -> None:
        super().stop()
        if self.folder is not None:
            shutil.rmtree(self.folder, ignore_errors=True)
        if self.server is not None:
            self.server.stop()

    def run(self) -> int:
        keeping = self.keeping
        for name in NAMES:
            keeping.word("create", name, "--table", keeping.table)
        keeping.start("a", "b")
        for name in NAMES:
            keeping.place(name)
        clients = [
            self.client(what, name, self.rate) for name in NAMES for what in ("write", "read")
        ]
        ends, before, due = time.monotonic() + self.seconds, 0, time.monotonic() + 30
        with psycopg.connect(keeping.url, autocommit=True) as probe:
            probe.execute("CREATE TABLE IF NOT EXISTS probe (n integer)")
            while time.monotonic() < ends or self.successions() < self.least:
                self.measure(probe)
                if (
                    self.successions() > before or time.monotonic() >= due
                ):  # a death begins a list again
                    fault = self.chance.choice(self.deeds)
                    self.kills[fault.__name__] += 1
                    fault()
                    if self.folder is not None:
                        keeping.word("store", "prune", "--yes")
                    before, due = (
                        self.successions() + self.chance.randrange(3),
                        time.monotonic() + 30,
                    )
                time.sleep(0.5)
        (keeping.folder / STOP).touch()
        violations = self.faults([self.ended(client, PATIENCE) for client in clients])
        for name in NAMES:
            violations += self.violations(name)
        return self.report(violations + self.unbounded() + self.plain_sessions())

    # What has to hold.

    def plain_sessions(self) -> list[str]:
        """Those of PostgreSQL that came without TLS, where nobody is to."""
        if self.server is None:
            return []
        sessions = Sessions()
        sessions.add(self.server)
        return sessions.told()

    def books(self, who: str) -> list[dict[str, Any]]:
        return [json.loads(line) for line in (self.keeping.folder / who).read_text().splitlines()]

    def violations(self, name: str) -> list[str]:
        """Each commit is at its position, once: where the reader saw it, in the blocks that are kept, and in the pages."""
        durable = {
            line["position"]: line["text"]
            for line in self.books(f"writer-{name}")
            if line["what"] == "durable"
        }
        found = [
            f"{name}: position {position} is not that of {text}"
            for position, text in durable.items()
            if text != f"{name} {position}"
        ]
        for line in self.books(f"reader-{name}"):
            if line["what"] == "read" and line["text"] != f"{name} {line['position']}":
                found.append(f"{name}: read {line}")
        row = self.keeping.row(name)
        if sorted(durable) != list(range(1, row.archived + 1)):
            found.append(
                f"{name}: {len(durable)} commits were durable, and {row.archived} are archived"
            )
        base = Bases(self.keeping.referee, row.id).newest(row.archived)
        kept = [
            block
            for piece in self.keeping.referee.blocks(row.id, base.position + 1, row.archived)
            for block in piece
        ]
        if digest(base.chain, kept) != row.chain:
            found.append(f"{name}: the archive has other blocks")
        found += [
            f"{name}: {block} is archived"
            for block in map(Block.decode, kept)
            if text_of(block) != f"{name} {block.lsn}"
        ]
        if self.folder is not None:
            print(f"{name}: {self.keeping.word('verify', name, '--store').strip()}")
        return found + self.wrong_cells(name, row.archived)

    def wrong_cells(self, name: str, count: int) -> list[str]:
        wanted = {cell_of(f"{name} {number}"): f"{name} {number}" for number in range(1, count + 1)}
        with self.keeping.reader(name) as reader:
            pages = reader.pages(range(PAGES))
            reader.end()
        texts = {
            cell: pages[cell[0]].data[cell[1] : cell[1] + CELL].decode().rstrip(".")
            for cell in wanted
        }
        return [
            f"{name}: {cell} has {texts[cell]!r} and not {text!r}"
            for cell, text in wanted.items()
            if texts[cell] != text
        ]

    def unbounded(self) -> list[str]:
        """Which curves go on rising, where all of them had the time to come to rest."""
        found = []
        for what, curve in list(self.curves.items())[:4]:
            third = len(curve) // 3
            middle, end = max(curve[third : 2 * third], default=0.0), max(
                curve[2 * third :], default=0.0
            )
            if self.successions() >= 30 and end > 1.5 * middle:
                found.append(f"{what} rose from {middle:.0f} to {end:.0f}")
        return found

    # What is said of it.

    def successions(self) -> int:
        return len(re.findall("begins at position .*, from images", self.keeping.said()))

    def pauses(self) -> list[float]:
        """Of the writers, in planned successions."""
        planned = set(
            re.findall(
                r" (\w+): generation (\d+) begins at position \d+, from images.* blocks of generation (\d+)",
                self.keeping.said(),
            )
        )
        lines = [
            (name, line)
            for name in NAMES
            for line in self.books(f"writer-{name}")
            if line["what"] == "pause"
        ]
        return sorted(
            line["seconds"]
            for name, line in lines
            if (name, str(line["generation"]), str(line["before"])) in planned
        )

    def report(self, violations: list[str]) -> int:
        for violation in violations[:20]:
            print(f"violation: {violation}")
        said = self.keeping.said()
        successions, pauses = self.successions(), self.pauses()
        for what, curve in self.curves.items():
            print(
                f"{what:32} {bars(curve)}  {min(curve):.0f} to {max(curve):.0f}, in the end {curve[-1]:.0f}"
            )
        if self.picture:
            Path(self.picture).write_text(picture(self.curves, self.seconds))
        print(
            f"a writer's pause, ms: {percentiles(pauses)}; a commit of PostgreSQL's, ms: {percentiles(sorted(self.commits))}"
        )
        print("kills: " + ", ".join(f"{name} {count}" for name, count in self.kills.most_common()))
        archived = sum(self.keeping.row(name).archived for name in NAMES)
        print(
            f"soak: {archived} durable commits over {sum(self.keeping.row(name).generation for name in NAMES)} generations, "
            f"{successions} successions, {len(re.findall('a base of', said))} bases, {len(violations)} violations"
        )
        return 1 if violations or not successions or not archived else 0


def _secured_server() -> Server:
    """A PostgreSQL that is reached by verify-full."""
    made = Server(certificates=Certificates().folder)
    made.url(DATABASE)
    return made


def memory_of(pid: int) -> int:
    """Bytes that a process holds."""
    try:
        return int(Path(f"/proc/{pid}/statm").read_text().split()[1]) * os.sysconf("SC_PAGE_SIZE")
    except (OSError, IndexError):
        return 0


def bars(curve: list[float], width: int = 60) -> str:
    """The greatest value of each part, as a bar."""
    parts = [
        curve[at * len(curve) // width : (at + 1) * len(curve) // width] for at in range(width)
    ]
    return "".join(
        BARS[round((len(BARS) - 1) * max(part) / (max(curve) or 1))] for part in parts if part
    )


def picture(curves: dict[str, list[float]], seconds: float) -> str:
    """The curves as SVG, one below the other; of each part the greatest value."""
    width, height, gap, parts = 560, 56, 34, 280
    lines = [
        f'<svg xmlns="http://www.w3.org/2000/svg" viewBox="0 0 {width + 20} {len(curves) * (height + gap) + 10}" '
        'font-family="sans-serif" font-size="12">',
        '<rect width="100%" height="100%" fill="#fff"/>',
    ]
    for row, (what, curve) in enumerate(curves.items()):
        top, most = row * (height + gap) + 22, max(curve) or 1
        tops = [
            max(curve[at * len(curve) // parts : (at + 1) * len(curve) // parts], default=0.0)
            for at in range(parts)
        ]
        points = " ".join(
            f"{10 + at * width // parts},{top + height - height * value / most:.0f}"
            for at, value in enumerate(tops)
        )
        lines += [
            f'<text x="10" y="{top - 6}">{what}: at most {most:,.0f}, in {seconds:,.0f} s</text>',
            f'<path d="M10 {top}v{height}h{width}" fill="none" stroke="#999"/>',
            f'<polyline points="{points}" fill="none" stroke="#06c"/>',
        ]
    return "\n".join([*lines, "</svg>"]) + "\n"


def percentiles(values: list[float]) -> str:
    if not values:
        return "none"
    found = {
        word: values[min(len(values) - 1, int(len(values) * part))]
        for word, part in (("p50", 0.5), ("p90", 0.9), ("p99", 0.99))
    }
    return (
        ", ".join(
            f"{word} {1000 * value:.1f}" for word, value in {**found, "most": values[-1]}.items()
        )
        + f" ({len(values)})"
    )


def main(words: list[str]) -> int:
    if is_client(words, {"write": write, "read": read}):
        return 0
    store, by_tls = STORE in words, BY_TLS in words
    words = [word for word in words if word not in (STORE, BY_TLS)]
    numbers = [float(word) for word in words[:3]]
    soak = Soak(
        *(numbers[:1] or [60.0]),
        int(numbers[1]) if len(numbers) > 1 else 1,
        *numbers[2:3],
        audit=int(words[3]) if len(words) > 3 else LIST,
        picture="".join(words[4:5]),
        store=store,
        by_tls=by_tls,
    )
    return soak.whole()


if __name__ == "__main__":
    sys.exit(main(sys.argv[1:]))
