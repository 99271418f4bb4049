"""Named databases with an object store: what a mover costs, and what is read from far away. Needs Debian's packages of
clients/python/test, and boto3.

Usage: python3 -B bench/store.py [--share SHARE] [--far MS MB] [PART ..]
(parts: restore, commits, branch; by default all. `clients/python/bounded` says what a mover takes at a rate of commits.)

- restore: SQLite's blocks are moved, with their bytes before and after; then a service is filled with them from PostgreSQL and
  from a server of S3 that is 30 ms away, there and back, by 50 MB a second in all, by turns.
- commits: durable ones, one after the other, with and without a mover that works off many blocks of the same database, by turns.
- branch: of a database of 10 MiB and of 10 GiB whose blocks and images are in the store, by turns: its rows are as many and as large, and the
  store is empty, as nothing of it is read. Beside it the same rows of images are inserted into a table that has a primary key alone: what
  is to be copied takes so long.
"""

import argparse
import asyncio
import contextlib
import functools
import os
import pathlib
import random
import statistics
import subprocess
import sys
import tempfile
import threading
import time

import kept
import service
from keepers import Keeping
from pagelog import Block, Put
from pagelog.keeper.branching import branch
from pagelog.referee.referee import Referee
from pagelog.keeper.run import Program
from pagelog.keeper.served import Served
from pagelog.store.moving import Wish
from pagelog.store.mover import Mover
from pagelog.objects.place import store_of
from pagelog.store.rescuing import rescue
from pagelog.objects.settings import StoreSettings
from sqlite_named import connected

KEYS = {
    "AWS_ACCESS_KEY_ID": "key",
    "AWS_SECRET_ACCESS_KEY": "secret",
    "AWS_DEFAULT_REGION": "us-east-1",
    "AWS_CONFIG_FILE": "/dev/null",
    "AWS_SHARED_CREDENTIALS_FILE": "/dev/null",
    "AWS_EC2_METADATA_DISABLED": "true",
}
PIECE = 65536
STATES = ("ordered", "paid", "shipped", "returned")
_OBJECTS = """
INSERT INTO pagelog_object (log, first, last, key, size, digest, raw, raw_digest, after, came, until, state)
SELECT %(log)s, 5000 * n + 1, 5000 * (n + 1), %(folder)s || '/blocks/' || lpad(to_hex(5000 * n + 1), 16, '0') || '-' ||
    lpad(to_hex(5000 * (n + 1)), 16, '0') || '.g1.' || md5(n::text) || '.' || md5((n + 1)::text) || '.' || left(md5('o' || n), 16) || '.zst',
  2300000, sha256(n::text::bytea), 8388608, sha256(n::text::bytea), decode(md5((n + 1)::text), 'hex'), now(), now(), 2
FROM generate_series(0, %(objects)s - 1) n RETURNING 1
"""
_IMAGES = """
WITH packed AS (
  INSERT INTO pagelog_pack (log, number, key, size, digest, raw, state)
  SELECT %(log)s, n, %(folder)s || '/images/' || lpad(to_hex(%(base)s::bigint), 16, '0') || '.' || lpad(to_hex(32 * n - 32), 8, '0') || '-' ||
    lpad(to_hex(32 * n - 1), 8, '0') || '.' || left(md5('p' || n), 16) || '.pack', 6000000, sha256(n::text::bytea), 16777216, 2
  FROM generate_series(1, (%(images)s + 31) / 32) n),
based AS (
  INSERT INTO pagelog_base (log, base, chain, digest, pages, came) VALUES (%(log)s, %(base)s, '', '', 64 * %(images)s, now()))
INSERT INTO pagelog_image (log, range, base, pages, crc, data, pack, at, length, digest)
SELECT %(log)s, n, %(base)s, '\\xffffffffffffffff', 0, '', n / 32 + 1, 190000 * (n %% 32) + 32, 190000, decode(md5(n::text), 'hex')
FROM generate_series(0, %(images)s - 1) n RETURNING 1
"""
_REST = """
WITH stored AS (
  INSERT INTO pagelog_store (log, folder, moved, cut) VALUES (%(log)s, %(folder)s, %(last)s, %(last)s)),
newest AS (INSERT INTO pagelog_block (log, lsn, crc, data) VALUES (%(log)s, %(last)s + 1, 0, ''))
UPDATE pagelog_log SET archived = %(last)s + 1 WHERE id = %(log)s RETURNING 1
"""
_WRITTEN = "SELECT pg_current_wal_insert_lsn() - '0/0'::pg_lsn"
_BARE = "CREATE TABLE bare (LIKE pagelog_image, PRIMARY KEY (log, range, base))"
_COPIED = """
INSERT INTO bare SELECT %(turn)s, range, base, pages, crc, data, pack, at, length, digest FROM pagelog_image WHERE log = %(log)s
"""
_COPY = "bare copy of the rows of its images"
SIZES = (("10 MiB", 2, 1, 20), ("10 GiB", 1280, 482, 20_480))
"""Objects, those behind the newest base, which is made after twice as many blocks as there are pages, and images."""


# A server of S3, and a long way to it, each a process of its own.


def serve_s3():
    """The tests' server, until its input ends."""
    from s3_stub import S3

    with S3() as server:
        print(server.url, flush=True)
        sys.stdin.read()


class Way:
    """To a port, with so many seconds there and back, and so many bytes a second in all."""

    def __init__(self, port, seconds, rate):
        self.port, self.seconds, self.rate, self.free = port, seconds, rate, 0.0

    async def serve(self, reader, writer):
        await asyncio.sleep(self.seconds)  # its connect
        there, back = await asyncio.open_connection("127.0.0.1", self.port)
        await asyncio.gather(self.go(reader, back), self.go(there, writer))

    async def go(self, reader, writer):
        due = asyncio.Queue(1000)

        async def give():
            with contextlib.suppress(OSError):
                while (found := await due.get())[1]:
                    await asyncio.sleep(max(0.0, found[0] - time.monotonic()))
                    writer.write(found[1])
                    await writer.drain()
            writer.close()

        giving = asyncio.create_task(give())
        with contextlib.suppress(OSError):
            while data := await reader.read(PIECE):
                now = time.monotonic()
                self.free = max(self.free, now) + len(data) / self.rate
                await due.put((self.free + self.seconds / 2, data))
                await asyncio.sleep(max(0.0, self.free - now))
        await due.put((0.0, b""))
        await giving


async def serve_way(words):
    way = Way(int(words[0]), float(words[1]) / 1000, float(words[2]) * 1e6)
    server = await asyncio.start_server(way.serve, "127.0.0.1", 0)
    print(f"http://127.0.0.1:{server.sockets[0].getsockname()[1]}", flush=True)
    threading.Thread(target=lambda: (sys.stdin.read(), os._exit(0)), daemon=True).start()
    await asyncio.Event().wait()


@contextlib.contextmanager
def beside(*words):
    """This program as a process, and its first line."""
    command = [sys.executable, "-B", __file__, *map(str, words)]
    process = subprocess.Popen(command, stdin=subprocess.PIPE, stdout=subprocess.PIPE, text=True)
    try:
        yield process.stdout.readline().strip()
    finally:
        process.stdin.close()
        process.wait()
        process.stdout.close()


# Parts.


def orders(keeping, count):
    """A writer of SQLite enters so many orders, each in a transaction."""
    chance = random.Random(1)
    letters = "abcdefghijklmnopqrstuvwxyz"
    words = ["".join(chance.choices(letters, k=chance.randrange(2, 11))) for _ in range(4000)]
    with contextlib.closing(connected(keeping.addresses, "normal")) as writer:
        writer.execute(
            "create table o(id integer primary key, customer int, at text, state text, note text)"
        )
        writer.execute("create index of_customer on o(customer)")
        for number in range(count):
            customer, at = chance.randrange(5000), f"2026-01-31 12:{number % 60:02}"
            note, state = " ".join(chance.choices(words, k=12)), chance.choice(STATES)
            writer.execute(
                "insert into o values(?, ?, ?, ?, ?)", (number, customer, at, state, note)
            )
        writer.execute("pragma synchronous = full")
        writer.execute("insert into o values(-1, 0, '', '', '')")


def moved(referee, row, settings):
    """Moves all of it, and leaves it in PostgreSQL too."""
    mover = Mover(referee, store_of(settings), row.id, row.name, row.identity, settings)
    while mover.step():
        pass


def restore(server, share, far):
    """See above."""
    count = round(100_000 * share)
    with contextlib.ExitStack() as stack:
        keeping = stack.enter_context(kept.keeping(server, standby=False))
        orders(keeping, count)
        row = keeping.referee.everything().row(kept.NAME)
        direct = stack.enter_context(beside("--s3"))
        way = stack.enter_context(beside("--way", direct.rpartition(":")[2], *far))
        near = StoreSettings("s3://b/x", endpoint_url=direct, age=0.0, tail=1e6)
        moved(keeping.referee, row, near)
        [[blocks, raw, size]] = keeping.referee._ask(
            "SELECT sum(last - first + 1)::int, sum(raw)::int8, sum(size)::int8 FROM pagelog_object"
        )
        print(
            f"{blocks:,} blocks of SQLite: {raw / blocks:.0f} bytes each, in the store "
            f"{size / blocks:.0f}, {raw / size:.2f} times less"
        )
        settings = StoreSettings("s3://b/x", endpoint_url=way)
        other = stack.enter_context(
            contextlib.closing(Referee(server.new_url(), "bench", "life", store=settings))
        )
        rescue(store_of(near), other, row.name, keeping.table.read_text())
        compare(keeping.referee, other, row, blocks)


def compare(here, there, row, count):
    """A service is filled from either, by turns."""
    rates = {"PostgreSQL": [], "the store": []}
    with tempfile.TemporaryDirectory() as folder:
        for number in range(3):
            for what, referee in (("PostgreSQL", here), ("the store", there)):
                log = referee.everything().row(row.name).id
                run = f"{what[-5:]}{number}"
                served = Served(
                    row.name, run, service.WIDE_TABLE, b"s" * 16, timeout=service.PATIENCE
                )
                served.start(Program(os.environ["PAGELOG"], "127.0.0.1", pathlib.Path(folder)))
                began = time.perf_counter()
                served.follow(referee, log, row.archived, row.chain)
                rates[what].append(count / (time.perf_counter() - began))
                served.end()
                referee.close()  # what it has fetched ahead is gone with it
    shares = [far / near for near, far in zip(*rates.values())]
    print(
        f"restore of {count:,} blocks, blocks a second: "
        + "; ".join(
            f"{what} {', '.join(f'{each:,.0f}' for each in some)}" for what, some in rates.items()
        )
        + f"; the store's share {', '.join(f'{share:.2f}' for share in shares)}; "
        f"load {os.getloadavg()[0]:.1f}"
    )


def commits(server, share, far):
    """See above."""
    times = {"without": [], "with": []}
    with kept.keeping(server, standby=False) as keeping, keeping.primary() as primary:
        folder = keeping.folder / "objects"
        folder.mkdir()
        settings = StoreSettings(f"file://{folder}", age=0.0, tail=0.0)
        wish = Wish(keeping.url, "a", settings).line
        for turn in range(max(2, round(6 * share))):
            for what in times:
                backlog(primary)
                times[what].append(durable(primary, keeping, wish if what == "with" else None))
    for what, some in times.items():
        all_of = [each for turn in some for each in turn]
        print(
            f"durable commits {what} a mover at work: p50 {kept.at(50, all_of):.2f} ms, p99 "
            f"{kept.at(99, all_of):.2f} ({', '.join(f'{kept.at(99, turn):.1f}' for turn in some)}), "
            f"{len(all_of)} of them; load {os.getloadavg()[0]:.1f}"
        )


def backlog(primary):
    """Blocks of 1.5 KB that a mover has some seconds to do with."""
    chance = random.Random(2)
    noise = chance.randbytes(700)
    for _ in range(60):
        first = primary.end + 1
        primary._tail += [
            Block.of(lsn, (Put(lsn % 4000, 0, b"%d" % lsn + noise + bytes(800)),))
            for lsn in range(first, first + 1000)
        ]
        primary.commit()
    primary.append(kept.RECORD)
    primary.commit(durable=True)


def durable(primary, keeping, wish, seconds=4.0):
    """How long each of the durable commits took, for so many seconds, or as long as the mover that `wish` calls has something to do."""
    mover = None
    if wish is not None:
        command = [sys.executable, "-m", "pagelog.store.moving"]
        mover = subprocess.Popen(
            command,
            stdin=subprocess.PIPE,
            stdout=subprocess.PIPE,
            text=True,
            env={**os.environ, "PYTHONPATH": str(service.SOURCE)},
        )
        mover.stdin.write(f"{wish}\n")
        mover.stdin.flush()
        mover.stdout.readline()  # it is at work
    times, ends = [], time.perf_counter() + seconds
    while time.perf_counter() < ends:
        primary.append(kept.RECORD)
        times += kept.timed(lambda: primary.commit(durable=True), 1)
    if mover is not None:
        [[left]] = keeping.referee._ask("SELECT count(*) FROM pagelog_block")
        print(f"left to be moved: {left} blocks", file=sys.stderr)
        mover.kill()
        mover.wait()
        mover.stdin.close()
        mover.stdout.close()
    return times


def branch_of(server, share, far):
    """See above."""
    with tempfile.TemporaryDirectory() as folder:
        settings = StoreSettings(f"file://{folder}")
        referee = Referee(server.new_url(), "bench", "life", store=settings)
        with contextlib.closing(referee):
            referee.prepare()
            rows = {}
            for number, (size, *of) in enumerate(SIZES):
                rows[size] = made_of(referee, f"of-{number}", *of)
            referee._connected().execute(_BARE)
            referee._connected().execute("VACUUM ANALYZE")
            spent = {f"branch of {size}": [] for size in rows} | {_COPY: []}
            for turn in range(max(3, round(15 * share))):
                for size, row in rows.items():
                    work = functools.partial(begin, referee, row, f"{row.name}-{turn}")
                    spent[f"branch of {size}"].append(spent_by(referee, work))
                values = {"turn": turn, "log": rows[size].id}  # the largest one
                work = functools.partial(referee._connected().execute, _COPIED, values)
                spent[_COPY].append(spent_by(referee, work))
            for what, some in spent.items():
                print(said_of(what, *zip(*some)))


def begin(referee, row, name):
    assert branch(referee, row, row.archived, name)


def spent_by(referee, work):
    """Its milliseconds, those of a processor that PostgreSQL took for it, and its bytes of WAL."""
    pids = [referee._connected().info.backend_pid]
    [[wal]], used, began = referee._ask(_WRITTEN), kept.processor_ms(pids), time.perf_counter()
    work()
    took = 1000 * (time.perf_counter() - began)
    used = kept.processor_ms(pids) - used
    return took, used, referee._ask(_WRITTEN)[0][0] - wal


def said_of(what, times, used, written):
    return (
        f"{what}: {statistics.median(times):.0f} ms, {min(times):.0f} to {max(times):.0f}, of {len(times)} in turns; of a processor "
        f"{statistics.median(used):.0f}; {statistics.median(written) / 1024:,.0f} KiB of WAL; load {os.getloadavg()[0]:.1f}"
    )


def made_of(referee, name, objects, behind, images):
    """A database whose rows are as those of one of that size."""
    referee.create(name, service.WIDE_TABLE, b"s" * 16)
    row = referee.everything().row(name)
    base, folder = 5000 * (objects - behind), f"{name}.{row.identity[:8]}"
    values = {"log": row.id, "objects": objects, "images": images, "last": 5000 * objects}
    values |= {"base": base, "folder": folder}
    referee._ask(_OBJECTS, values)
    referee._ask(_REST, values)
    referee._ask(_IMAGES, values)
    return referee.everything().row(name)


PARTS = {"restore": restore, "commits": commits, "branch": branch_of}


class Server(kept.Alone):
    """One PostgreSQL, with a database for each who asks."""

    kind = Keeping

    def new_url(self):
        name = f"other{len(os.listdir(self.leader.folder))}{time.monotonic_ns()}"
        self.leader.url(name)
        return f"postgresql://pagelog@/{name}?host={self.leader.folder}"


def main():
    if sys.argv[1:2] == ["--s3"]:
        return serve_s3()
    if sys.argv[1:2] == ["--way"]:
        return asyncio.run(serve_way(sys.argv[2:]))
    parser = argparse.ArgumentParser()
    parser.add_argument("parts", nargs="*", metavar="PART", help=", ".join(PARTS))
    parser.add_argument("--share", type=float, default=1.0, help="of the work of a whole run")
    parser.add_argument("--far", nargs=2, type=float, default=(30, 50), metavar=("MS", "MB"))
    words = parser.parse_args()
    os.environ.update(KEYS)
    server = Server()
    try:
        print(f"load {os.getloadavg()[0]:.1f} of {os.cpu_count()} processors", flush=True)
        for name in words.parts or PARTS:
            PARTS[name](server, words.share, words.far)
    finally:
        server.stop()


if __name__ == "__main__":
    main()
