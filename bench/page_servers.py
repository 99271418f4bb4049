"""Page servers beside the service's own gets, all in one run; what they take; and how soon they have what is durable.

Usage: python3 -B bench/page_servers.py [PART ..] [SHARE]     (gets, large, following, readable; 1: less of all with 0.1)

The service is crates/pagelog/out/pagelog, or the program that PAGELOG names; the page server that of `make -C clients/pages`. Servers have
processors 0 and 1, clients 2 and 3. Both have the same blocks, ten records in each page, and are asked in turn, by bench/frames.c.

- gets: of drawn pages, one at a time on 1, 8 and 64 connections, and 64 together on one: rates, and shares of the service's, round by
  round: the median, and the half of the rounds around it. Then two page servers, each on a processor of its own, beside one, of what
  is newest, of which they may answer more than two clients can ask, and at drawn positions.
- large: 8 GiB of pages with 512 MiB of cache, which is full, and O_DIRECT: gets of pages that are not in it, beside reads of 8 KiB of the
  same files, by bench/reads.c, on the same processors: the median time of one of one client and of 8, and of many in flight, shared by
  them; memory after each page was read.
- following: how many blocks are taken in a second, and how soon it answers again after a SIGKILL amid that.
- readable: under keepers, from when a commit is told to be durable until a get at its position is answered.
"""

import contextlib
import os
import pathlib
import random
import signal
import statistics
import subprocess
import sys
import tempfile
import time

WANTED = [word for word in sys.argv[1:] if word.isalpha()]
sys.argv[1:] = [word for word in sys.argv[1:] if not word.isalpha()]  # serving reads the rest

import kept  # noqa: E402
import rounds  # noqa: E402
import serving  # noqa: E402
from serving import ROOT, SHARE, TABLE, Service, about, build_frames, get, wire  # noqa: E402
from pagelog import Connection, Reader  # noqa: E402
from pagelog.referee.referee import digest  # noqa: E402
from pagelog.pages.process import PagesProcess  # noqa: E402
from pagelog.rules import AboveTheEnd  # noqa: E402

PAGES = ROOT / "clients" / "pages" / "out" / "pagelog-pages"
SERVERS, CLIENTS = {0, 1}, "2,3"
ROUNDS = max(3, round(15 * SHARE))
REPLY = 4 + 1 + 8 + 8192
NUMBERS, RECORDS = 4000, 10
LAST = NUMBERS * RECORDS
LARGE = round((1 << 20) * SHARE)
DENIED = '[[row]]\nverdict = "deny"\nwho = 3\nop = ["get"]\nfrom = 7\nto = 7\n'
ALLOWED = TABLE.read_text().replace(DENIED, "")


def block(lsn):
    """A hundred bytes at one of ten places of a page."""
    number = lsn * 7919 % NUMBERS
    return wire.block(lsn, [(number, lsn // NUMBERS * 800, bytes([lsn % 251]) * 100)])


def spelled(page, position):
    """A get at this very position."""
    return get(page, position, 1)


@contextlib.contextmanager
def page_server(folder, *options, processors=SERVERS):
    """One whose threads run on these processors alone."""
    before = os.sched_getaffinity(0)
    os.sched_setaffinity(0, processors)
    try:
        made = PagesProcess(PAGES, pathlib.Path(folder), "127.0.0.1:0", *options)
    finally:
        os.sched_setaffinity(0, before)
    made.port = int(made.address.rpartition(":")[2])
    made.set_table(ALLOWED)
    try:
        yield made
    finally:
        made.end()


# Gets, by turns.


def asked(frames, port, words):
    """What the client says, on its own processors."""
    command = ["taskset", "-c", CLIENTS, frames, *words[:1], port, *words[1:]]
    done = subprocess.run(list(map(str, command)), capture_output=True, text=True, check=True)
    return done.stdout.split()


class Asking:
    """Files with requests for pages that are drawn."""

    def __init__(self, folder, frames):
        self.folder, self.frames, chance = pathlib.Path(folder), frames, random.Random(1)
        drawn = [spelled(chance.randrange(NUMBERS), LAST) for _ in range(4096)]
        self.each, self.together = self.folder / "each", self.folder / "together"
        self.earlier = self.folder / "earlier"
        earlier = (spelled(chance.randrange(NUMBERS), chance.randrange(LAST)) for _ in drawn)
        self.earlier.write_bytes(b"".join(earlier))
        self.each.write_bytes(b"".join(drawn))
        self.together.write_bytes(b"".join(drawn[:64]))

    def one_at_a_time(self, port, connections, count):
        """A second, of all connections; what takes a start of the client is a hundredth."""
        began = time.perf_counter()
        asked(self.frames, port, ["delays", count, "get", connections, self.each])
        return connections * count / (time.perf_counter() - began)

    def in_flight(self, port, count):
        """A second, of 64 that are sent together."""
        words = ["ask", 1, 1, count, 64 * REPLY, self.together]
        return 64 * count / float(asked(self.frames, port, words)[0])


def gets(folder):
    """The service and a page server; then two beside one."""
    asking = Asking(folder, build_frames(folder))
    blocks = [block(lsn) for lsn in range(1, LAST + 1)]
    table = pathlib.Path(folder, "table.toml")
    table.write_text(ALLOWED)
    serving.TABLE = table
    before = os.sched_getaffinity(0)
    os.sched_setaffinity(0, SERVERS)
    service = Service(4)
    os.sched_setaffinity(0, before)
    with service, page_server(pathlib.Path(folder, "near")) as pages:
        service.harden(LAST, block)
        pages.add(blocks, digest(b"", blocks))
        shapes = {
            f"{connections} connections": lambda port, c=connections, n=count: asking.one_at_a_time(
                port, c, round(n * SHARE)
            )
            for connections, count in ((1, 4000), (8, 1500), (64, 300))
        } | {"64 in flight": lambda port: asking.in_flight(port, round(400 * SHARE))}
        ports = {"service": service.port, "page server": pages.port}
        for what, run in shapes.items():
            found = rounds.in_turn(ROUNDS, ports, lambda case: run(ports[case]))
            share = rounds.ratio(found["page server"], found["service"])
            rates = ", ".join(f"{case} {statistics.median(found[case]):,.0f}" for case in ports)
            print(f"gets a second, {what}: {rates}; share {share}; {load()}", flush=True)
    two(folder, asking, blocks)


def two(folder, asking, blocks):
    """Two clients, at one page server or at two, each of which has one processor."""
    with page_server(pathlib.Path(folder, "one"), processors={0}) as one, page_server(
        pathlib.Path(folder, "two"), processors={1}
    ) as other:
        for each in (one, other):
            each.add(blocks, digest(b"", blocks))
        for what, file, count in (
            ("newest", asking.each, 12_000),
            ("at drawn positions", asking.earlier, 6_000),
        ):
            two_beside_one(what, file, count, asking.frames, one.port, other.port)


def two_beside_one(what, file, count, frames, one, other):
    run = lambda servers: both(frames, file, count, one, (one, other)[servers - 1])  # noqa: E731
    found = rounds.in_turn(ROUNDS, (1, 2), run)
    print(
        f"two copies beside one, 8 connections each, {what}: {rounds.ratio(found[2], found[1])}, one "
        f"{statistics.median(found[1]):,.0f} gets a second; {load()}",
        flush=True,
    )


def both(frames, file, each, *ports):
    """A second, of two clients at once."""
    count, began = round(each * SHARE), time.perf_counter()
    clients = [
        subprocess.Popen(
            list(
                map(
                    str,
                    (
                        "taskset",
                        "-c",
                        at,
                        frames,
                        "delays",
                        port,
                        count,
                        "get",
                        8,
                        file,
                    ),
                )
            ),
            stdout=subprocess.DEVNULL,
        )
        for at, port in zip((2, 3), ports)
    ]
    assert [client.wait() for client in clients] == [0, 0]
    return 16 * count / (time.perf_counter() - began)


def load():
    return f"load {os.getloadavg()[0]:.0f}"


# A database that is larger than the cache.


def large(folder):
    """Half of each page is such that nothing compresses it."""
    store, chance = pathlib.Path(folder, "large"), random.Random(2)
    began = time.perf_counter()
    with page_server(store, "--cache", "512", "--direct") as pages:
        pages.begin(1, b"c" * 16, ((n, chance.randbytes(4096) + bytes(4096)) for n in range(LARGE)))
        took = time.perf_counter() - began
        print(f"{LARGE:,} pages taken in: {took:.0f} s; {load()}", flush=True)
    files = [file for file in store.rglob("*.sst") if file.stat().st_size > 1 << 20]
    size = sum(file.stat().st_size for file in files)
    with page_server(store, "--cache", "512", "--direct") as pages:
        print(f"opened with {resident(pages.pid)} MiB; {size >> 20} MiB on the disk", flush=True)
        cold = Cold(pathlib.Path(folder), pages.port, files)
        cold.read(range(LARGE // 2))  # so the cache is full
        for shape in (Cold.alone, Cold.eight, Cold.together):
            found = rounds.in_turn(ROUNDS, ("pages", "files"), lambda case: shape(cold, case))
            print(
                f"cold reads, {shape.__doc__}: {statistics.median(found['pages']):.0f} us, of 8 KiB of its files "
                f"{statistics.median(found['files']):.0f}; {rounds.ratio(found['pages'], found['files'])}; {load()}",
                flush=True,
            )
        again = [cold.alone("memory") for _ in range(ROUNDS)]
        print(f"the same once more, from memory, one at a time: {statistics.median(again):.0f} us")
        cold.read(range(LARGE))
        print(f"memory after each page was read: {resident(pages.pid)} MiB; {load()}", flush=True)


class Cold:
    """Reads of pages that were not read before, of the second half, and of places in the files."""

    def __init__(self, folder, port, files):
        self.folder, self.port, self.files = folder, port, files
        self.frames = build_frames(folder)
        self.reads = serving.build(folder, "reads")
        self.each = round(64 * 64 * min(1, 8 * SHARE)) // 64 * 64
        numbers = list(range(LARGE // 2, LARGE))
        random.Random(3).shuffle(numbers)
        self.numbers = iter(numbers)

    def alone(self, case):
        """one at a time"""
        if case == "files":
            return self.of_files(1)[1]
        if case == "pages":
            self.file("alone", self.each // 4)
        words = ["delays", self.each // 4, "get", 1, self.folder / "alone"]
        return float(asked(self.frames, self.port, words)[3])

    def eight(self, case):
        """one at a time on each of 8 connections"""
        if case == "files":
            return self.of_files(8)[1]
        words = ["delays", self.each // 8]
        for n in range(8):
            words += ["get", 1, self.file(f"eight{n}", self.each // 4)]  # some are quicker
        return statistics.median(map(float, asked(self.frames, self.port, words)[3::7]))

    def together(self, case):
        """64 and more in flight on one connection, of all of them each"""
        if case == "files":
            return 1e6 / self.of_files(64)[0]
        return 1e6 * self.read(next(self.numbers) for _ in range(self.each // 4)) / (self.each // 4)

    def read(self, numbers):
        """In flight, as far as the connection takes it."""
        drawn, took = list(numbers), 0
        for first in range(0, len(drawn), 4096):
            some = drawn[first : first + 4096]
            file = self.folder / "some"
            file.write_bytes(b"".join(spelled(number, 1) for number in some))
            words = ["ask", 1, 1, 1, len(some) * REPLY, file]
            took += float(asked(self.frames, self.port, words)[0])
        return took

    def file(self, name, count):
        """With requests for the next pages."""
        file = self.folder / name
        file.write_bytes(b"".join(spelled(next(self.numbers), 1) for _ in range(count)))
        return file

    def of_files(self, threads):
        """How many reads a second, and us of each, with what the page server's threads may have."""
        processors = ",".join(map(str, SERVERS))
        command = [
            "taskset",
            "-c",
            processors,
            self.reads,
            threads,
            self.each // threads,
            *self.files,
        ]
        done = subprocess.run(list(map(str, command)), capture_output=True, text=True, check=True)
        return [float(word) for word in done.stdout.split()]


def resident(pid):
    lines = pathlib.Path(f"/proc/{pid}/status").read_text().splitlines()
    return next(int(line.split()[1]) >> 10 for line in lines if line.startswith("VmRSS"))


# Following.


def following(folder):
    """Blocks of one page each, over 100,000; then deaths."""
    store, count = pathlib.Path(folder, "followed"), round(400_000 * SHARE)
    blocks = [
        wire.block(lsn, [(lsn * 7919 % 100_000, lsn % 80 * 100, bytes([lsn % 251]) * 100)])
        for lsn in range(1, count + 1)
    ]
    chain, rates, starts = b"", [], []
    with contextlib.ExitStack() as stack:
        pages = stack.enter_context(page_server(store))
        for first in range(0, count, 8192):
            some = blocks[first : first + 8192]
            chain = digest(chain, some)
            began = time.perf_counter()
            pages.add(some, chain)
            rates.append(len(some) / (time.perf_counter() - began))
        taken = kept.processor_seconds(pages.pid)
        print(
            f"blocks followed a second: {statistics.median(rates):,.0f}, {min(rates):,.0f} at least; "
            f"{1e6 * taken / count:.1f} us of a processor each; {load()}",
            flush=True,
        )
        pages.kill()
    for _ in range(10):
        began = time.perf_counter()
        made = PagesProcess(PAGES, store, "127.0.0.1:0")
        starts.append(time.perf_counter() - began)
        some = blocks[made.where.written : made.where.written + 4096]
        if some:
            made.add(some)
        os.kill(made.pid, signal.SIGKILL)
        made.end()
    print(
        f"up again after SIGKILL: {1000 * statistics.median(starts):.0f} ms, {1000 * max(starts):.0f} at most; {load()}",
        flush=True,
    )


# Under keepers.


def readable(folder):
    """From when a commit is durable until a page server answers at its position."""
    server = kept.Alone()
    with kept.keeping(server, standby=False) as keeping, keeping.primary() as primary:
        words = [
            "-m",
            "pagelog",
            "pages",
            "--program",
            PAGES,
            "--folder",
            pathlib.Path(folder, "stores"),
        ]
        words += ["--credentials", keeping.file]
        follower = subprocess.Popen(
            [sys.executable, *map(str, words)],
            stderr=subprocess.DEVNULL,
            env={**os.environ, "PYTHONPATH": str(ROOT / "clients" / "python" / "src")},
        )
        try:
            with keeping.reader(pages="only") as named:
                kept.eventually(lambda: bool(named.keepers.page_servers()), "a page server")
                [place] = named.keepers.page_servers()
                account = named._account.in_run(place.run)
            with Reader(Connection(place.address), account) as reader:
                times = [one(primary, reader) for _ in range(max(100, round(1000 * SHARE)))]
        finally:
            follower.send_signal(signal.SIGTERM)
            follower.wait()
    server.stop()
    print(
        f"durable to readable: p50 {kept.at(50, times):.1f} ms, p99 {kept.at(99, times):.1f}, of {len(times)} commits one after the other; "
        f"{load()}",
        flush=True,
    )


def one(primary, reader):
    primary.append(kept.RECORD)
    position = primary.commit(durable=True)
    began = time.perf_counter()
    while True:
        with contextlib.suppress(AboveTheEnd):  # it has waited for as long as a get may
            reader.page(0, position)
            return time.perf_counter() - began


PARTS = {"gets": gets, "large": large, "following": following, "readable": readable}


def main():
    print(f"{about()}; servers on 0 and 1, clients on {CLIENTS}", flush=True)
    work = ROOT / "bench" / "work"
    work.mkdir(exist_ok=True)
    with tempfile.TemporaryDirectory(dir=work) as folder:
        for name in WANTED or PARTS:
            PARTS[name](folder)


if __name__ == "__main__":
    main()
