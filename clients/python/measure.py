"""Measures the library and the archive, each beside a bare loop of the same requests or statements.

Usage: python3 -B clients/python/measure.py [BLOCKS]     (3000; PAGELOG names another program than the one built here)
       python3 -B clients/python/measure.py memory      what the service's memory grows by, as the system counts it

Every figure is the best of three rounds, of wall time; `client` is the processor time that this program took for one, in
microseconds, which hardly depends on the service. The bare loop has its frames made beforehand and looks at no reply but
to count them; for an archive it runs the same statements on sqlite3 or psycopg, with the blocks in a list.
"""

from __future__ import annotations

import sqlite3
import socket
import sys
import tempfile
import time
import zlib
from pathlib import Path
from typing import Callable, Iterable, Sequence

HERE = Path(__file__).resolve().parent
sys.path[:0] = [str(HERE / "src"), str(HERE / "tests")]

import psycopg  # noqa: E402
from postgres import postgres  # noqa: E402
from service import Service, token  # noqa: E402

from pagelog import Block, Put  # noqa: E402
from pagelog.archive import Archive  # noqa: E402
from pagelog.keeping import Archiver, fill  # noqa: E402
from pagelog.request import Act, Get, Head, Pull, Report, Request, Role, Write  # noqa: E402

BLOCKS = int(sys.argv[1]) if sys.argv[1:2] and sys.argv[1].isdecimal() else 3000
BATCH = 256
PRIMARY = Head(2, bytes.fromhex(token(2)), Role.PRIMARY, 0, 1)
READER = Head(3, bytes.fromhex(token(3)), Role.SECONDARY, 0, 1)
INSERT = "insert into block (log, lsn, crc, data) values (1, {0}, {0}, {0})"


def block(lsn: int) -> Block:
    return Block.of(lsn, [Put(lsn % 100, 0, bytes(100))])


def best(work: Callable[[], int], rounds: int = 3) -> tuple[float, float]:
    """Units a second, and microseconds of this program's processor time for a unit."""
    found = []
    for _ in range(rounds):
        began, spent = time.perf_counter(), time.process_time()
        count = work()
        found.append(
            (count / (time.perf_counter() - began), (time.process_time() - spent) / count * 1e6)
        )
    return max(found)[0], min(client for _, client in found)


def line(what: str, ours: tuple[float, float], bare: tuple[float, float] | None) -> None:
    beside = f"{bare[0]:10,.0f} {bare[1]:8.1f} {ours[0] / bare[0]:6.0%}" if bare else ""
    print(f"{what:46} {ours[0]:10,.0f} {ours[1]:8.1f} {beside}", flush=True)


# Requests.


def frames(head: Head, acts: Iterable[Act]) -> list[bytes]:
    bodies = (Request(head, act).encode() for act in acts)
    return [len(body).to_bytes(4, "big") + body for body in bodies]


def bare(address: str, asked: Sequence[bytes], in_flight: int = 64) -> int:
    """Sends the frames with at most `in_flight` of them in flight, and counts the frames that come back."""
    host, port = address.rsplit(":", 1)
    with socket.create_connection((host, int(port))) as connection:
        connection.setsockopt(socket.IPPROTO_TCP, socket.TCP_NODELAY, 1)
        data, sent, came = bytearray(), 0, 0
        while came < len(asked):
            if sent < len(asked) and sent - came < in_flight:
                upto = min(len(asked), came + in_flight)
                connection.sendall(b"".join(asked[sent:upto]))
                sent = upto
            data += connection.recv(1 << 18)
            at = 0
            while at + 4 <= len(data) and (
                end := at + 4 + int.from_bytes(data[at : at + 4], "big")
            ) <= len(data):
                at, came = end, came + 1
            del data[:at]
    return len(asked)


def commits(lsns: Iterable[int]) -> list[Act]:
    acts: list[Act] = []
    for lsn in lsns:
        acts += [Write(0, block(lsn)), Write(1, block(lsn)), Report(lsn)]
    return acts


def appends(service: Service) -> None:
    with service.primary() as primary:
        ours = best(
            lambda: sum(
                1 for _ in primary.stream([Put(at % 100, 0, bytes(100))] for at in range(BLOCKS))
            )
        )
    end = primary.durable
    rounds = iter(
        [
            frames(PRIMARY, commits(range(end + at * BLOCKS + 1, end + (at + 1) * BLOCKS + 1)))
            for at in range(3)
        ]
    )
    beside = best(lambda: bare(service.address, next(rounds)) // 3)
    line("appends: 2 writes, 1 report, 64 in flight", ours, beside)
    one = best(lambda: one_by_one(service))
    line("commits one by one, 3 requests each", one, None)


def one_by_one(service: Service) -> int:
    with service.primary() as primary:
        for _ in range(BLOCKS // 10):
            primary.append(Put(0, 0, bytes(100)))
            primary.commit()
    return BLOCKS // 10


def reads(service: Service) -> None:
    for what, acts in (
        (
            "pulls of 16 blocks, 64 in flight",
            [Pull(1 + at * 16 % BLOCKS) for at in range(BLOCKS // 4)],
        ),
        ("pulls of one block, 64 in flight", [Pull(1 + at % BLOCKS, 1) for at in range(BLOCKS)]),
        ("gets of a page, 64 in flight", [Get(at % 100, BLOCKS) for at in range(BLOCKS // 4)]),
    ):
        with service.reader() as reader:
            ours = best(lambda: len(reader.answers(acts)))
        asked = frames(READER, acts)
        line(what, ours, best(lambda: bare(service.address, asked)))


# Archives.


def archive(service: Service, name: str, url: str, beside: Callable[[list[Block]], int]) -> None:
    with service.reader() as reader:
        blocks = [block for block in reader.blocks(1, follow=False)][: BLOCKS * 3]
        logs = iter(range(10))

        def keep() -> int:
            with Archive(url, f"log {next(logs)}", create=True) as archive:
                return Archiver(reader, archive).run(follow=False)

        line(f"archive: {name}, pulled and kept", best(keep), None)

        def keep_only() -> int:
            with Archive(url, f"log {next(logs)}", create=True) as archive:
                for at in range(0, len(blocks), BATCH):
                    archive.keep(blocks[at : at + BATCH], 1)
            return len(blocks)

        def read() -> int:
            with Archive(url, "log 0") as archive:
                return sum(1 for _ in archive.blocks())

        line(f"archive: {name}, kept", best(keep_only), best(lambda: beside(blocks)))
        line(f"archive: {name}, read and checked", best(read), None)

    def write() -> int:
        with Service(audit=16_777_216) as fresh, fresh.primary(
            alone=True
        ) as primary, fresh.reader() as check:
            with Archive(url, "log 0") as archive:
                began[0], began[1] = time.perf_counter(), time.process_time()
                count = fill(archive, primary, check)
                began[2:] = [time.perf_counter() - began[0], time.process_time() - began[1]]
        return count

    def write_bare() -> int:
        acts: list[Act] = []
        for at in range(0, len(blocks), 64):
            acts += [Write(copy, block) for block in blocks[at : at + 64] for copy in (0, 1)]
            acts.append(Report(blocks[min(at + 63, len(blocks) - 1)].lsn))
        asked = frames(PRIMARY, acts)
        with Service(audit=16_777_216) as fresh:
            began[0], began[1] = time.perf_counter(), time.process_time()
            bare(fresh.address, asked, 128)
            began[2:] = [time.perf_counter() - began[0], time.process_time() - began[1]]
        return len(blocks)

    began = [0.0, 0.0, 0.0, 0.0]
    found = []
    for work in (write, write_bare):
        counts = [(work() / began[2], began[3] / len(blocks) * 1e6) for _ in range(2)]
        found.append((max(counts)[0], min(client for _, client in counts)))
    line(f"restore: {name}", found[0], found[1])


def in_sqlite(folder: str) -> Callable[[list[Block]], int]:
    def keep(blocks: list[Block]) -> int:
        file = Path(folder) / f"bare-{time.monotonic_ns()}.db"
        connection = sqlite3.connect(file)
        connection.execute("pragma journal_mode=wal")
        connection.execute("pragma synchronous=full")
        return statements(connection, connection.cursor(), blocks, "?")

    return keep


def in_postgres(url: str) -> Callable[[list[Block]], int]:
    def keep(blocks: list[Block]) -> int:
        connection = psycopg.connect(url)
        cursor = connection.cursor()
        cursor.execute("drop table if exists block; drop table if exists log")
        return statements(connection, cursor, blocks, "%s")

    return keep


def statements(connection: object, cursor: object, blocks: list[Block], mark: str) -> int:
    run, commit = cursor.execute, connection.commit  # type: ignore[attr-defined]
    run("create table log (id integer primary key, archived bigint)")
    run(
        f"create table block (log integer, lsn bigint, crc bigint, data {'blob' if mark == '?' else 'bytea'}, primary key (log, lsn))"
    )
    run("insert into log values (1, 0)")
    commit()
    for at in range(0, len(blocks), BATCH):
        batch = blocks[at : at + BATCH]
        run(
            f"update log set archived = {batch[-1].lsn} where id = 1 and archived = {batch[0].lsn - 1}"
        )
        rows = [(block.lsn, zlib.crc32(block.data), block.data) for block in batch]
        if mark == "?":
            cursor.executemany(INSERT.format(mark), rows)  # type: ignore[attr-defined]
        else:
            run(
                "insert into block (log, lsn, crc, data) select 1, * from unnest(%b::bigint[], %b::bigint[], %b::bytea[])",
                [*map(list, zip(*rows))],
            )
        commit()
    connection.close()  # type: ignore[attr-defined]
    return len(blocks)


# Memory.


def resident(service: Service) -> int:
    """What the service holds of the machine's memory, in bytes."""
    text = Path(f"/proc/{service.process.pid}/status").read_text()
    return 1024 * int(text.split("VmRSS:")[1].split()[0])


def grows(what: str, service: Service, count: int, work: Callable[[], object], of: str) -> None:
    before = resident(service)
    work()
    grown = resident(service) - before
    print(f"{what:52} {count:8,} {grown:12,} bytes, {grown / count:10,.1f} a {of}", flush=True)


def memory() -> None:
    with Service(audit=16_777_216, workers=64) as service:
        print(f"{'fresh, 1 database, 64 workers':52} {'':8} {resident(service):12,} bytes")
        open_ones: list[socket.socket] = []
        host, port = service.address.rsplit(":", 1)
        status = frames(READER, [Pull(1)])[0]

        def connect() -> None:
            for _ in range(50):
                open_ones.append(socket.create_connection((host, int(port))))
                open_ones[-1].sendall(status)
                open_ones[-1].recv(100)

        grows("connections that asked once", service, 50, connect, "connection")
        for one in open_ones:
            one.close()
        denied = frames(READER, [Pull(1)] * 8192)
        grows(
            "denied pulls: audit entries alone",
            service,
            8192,
            lambda: bare(service.address, denied),
            "entry",
        )
        denied *= 4
        grows(
            "denied pulls: audit entries alone",
            service,
            32768,
            lambda: bare(service.address, denied),
            "entry",
        )
    for size, count in ((100, 12000), (4000, 2000)):
        with Service(audit=16_777_216) as service, service.primary() as primary:
            acts: list[Act] = []
            for at in range(0, count, 64):
                blocks = [
                    Block.of(lsn, [Put(lsn % 100, 0, bytes(size))])
                    for lsn in range(at + 1, min(at + 64, count) + 1)
                ]
                acts += [Write(copy, block) for block in blocks for copy in (0, 1)] + [
                    Report(blocks[-1].lsn)
                ]
            asked = frames(PRIMARY, acts)
            grows(
                f"blocks of {14 + 9 + size} bytes, with 2 entries each",
                service,
                count,
                lambda: bare(service.address, asked),
                "block",
            )
            pages = frames(READER, [Get(page, count) for page in range(100)])
            grows(
                "gets of 100 pages for the first time",
                service,
                100,
                lambda: bare(service.address, pages),
                "page",
            )
            again = frames(
                READER,
                [Get(page % 100, lsn) for page, lsn in enumerate(range(count - 1000, count))],
            )
            grows(
                "gets of 1,000 versions of them",
                service,
                1000,
                lambda: bare(service.address, again),
                "version",
            )
            primary.close()


def main() -> None:
    if sys.argv[1:] == ["memory"]:
        memory()
        return
    print(f"{'':46} {'a second':>10} {'client':>8} {'bare':>10} {'client':>8}")
    with Service(audit=16_777_216) as service, tempfile.TemporaryDirectory() as folder:
        appends(service)
        reads(service)
    with Service(
        audit=16_777_216
    ) as service, tempfile.TemporaryDirectory() as folder, service.primary() as primary:
        for _ in primary.stream([Put(at % 100, 0, bytes(100))] for at in range(BLOCKS)):
            pass
        archive(service, "SQLite", f"sqlite:///{folder}/archive.db", in_sqlite(folder))
        archive(
            service, "PostgreSQL", postgres().url("measured"), in_postgres(postgres().url("bare"))
        )


if __name__ == "__main__":
    main()
