"""Named databases under keepers, beside PostgreSQL's own commits and plain archiving: needs Debian's packages of clients/python/test.

Usage: python3 -B bench/kept.py [--share SHARE] [--alone] [--tls] [--blocks N [--pages P]] [PART ..]
(parts: commits, loop, many, archiving, kills, restore, switchover, idle; by default all)
"""

import argparse
import contextlib
import ctypes
import json
import os
import pathlib
import select
import signal
import socket
import statistics
import subprocess
import sys
import tempfile
import threading
import time
from collections import Counter

import programs

CLIENT = programs.ROOT / "clients" / "python"
os.environ["PAGELOG"] = str(programs.pagelog().resolve())
sys.path[:0] = [str(CLIENT / "tests"), str(CLIENT / "src")]

import psycopg  # noqa: E402

import service  # noqa: E402
from by_tls import trust  # noqa: E402
from keepers import Keeping, eventually, token  # noqa: E402
from pagelog import Block, Group, Primary, Put  # noqa: E402
from pagelog.dialing import dial  # noqa: E402
from pagelog.referee.ahead import pieces_of  # noqa: E402
from pagelog.referee.referee import Referee, digest  # noqa: E402
from pagelog.referee.rows import Batch  # noqa: E402
from pagelog.keeper.run import Program  # noqa: E402
from pagelog.keeper.served import Served  # noqa: E402
from pagelog.request import Head, Report, Request, Role, Write  # noqa: E402
from replicated import Pair, Server  # noqa: E402
from secured import SecureAlone  # noqa: E402

NAME = "shop"
KINDS = Keeping, SecureAlone
TTL = 2.0
WRITERS = 64
RECORD = Put(0, 0, b"x" * 80)
TICKS = os.sysconf("SC_CLK_TCK")


def processor_seconds(pid):
    """What a process has taken of processors."""
    fields = pathlib.Path(f"/proc/{pid}/stat").read_text().rpartition(")")[2].split()
    return (int(fields[11]) + int(fields[12])) / TICKS


def all_below(pid):
    """A process, and all that it and its have started."""
    found = [pid]
    for task in pathlib.Path(f"/proc/{pid}/task").iterdir():
        for child in (task / "children").read_text().split():
            found += all_below(int(child))
    return found


def processor_ms(pids):
    """What the threads that these processes have now have taken of processors, in milliseconds: exact also of what takes little."""
    return sum(
        int((task / "schedstat").read_text().split()[0]) / 1e6
        for pid in pids
        for task in pathlib.Path(f"/proc/{pid}/task").iterdir()
    )


def at(share, times):
    """The percentile of some times, in milliseconds."""
    return 1000 * statistics.quantiles(times, n=1000, method="inclusive")[round(10 * share) - 1]


def timed(work, count):
    """How long each of so many calls took."""
    times = []
    for _ in range(count):
        began = time.perf_counter()
        work()
        times.append(time.perf_counter() - began)
    return times


def put_on(processor, pid):
    """Has a process, its threads, and all that it has started run on this processor alone, and all that they will start."""
    for task in pathlib.Path(f"/proc/{pid}/task").iterdir():
        os.sched_setaffinity(int(task.name), {processor})
        for child in (task / "children").read_text().split():
            put_on(processor, int(child))


@contextlib.contextmanager
def apart(pair, keeper):
    """The client, a keeper with its service, and each PostgreSQL have a processor of their own, as on machines of their own."""
    everywhere = os.sched_getaffinity(0)
    servers = [
        int((server.data / "postmaster.pid").read_text().split()[0]) for server in pair.servers
    ]
    for processor, pid in zip(sorted(everywhere), (keeper, *servers)):
        put_on(processor, pid)
    os.sched_setaffinity(0, {max(everywhere)})
    try:
        yield
    finally:
        os.sched_setaffinity(0, everywhere)


@contextlib.contextmanager
def keeping(pair, names="a", **options):
    """Keepers of a new database, which somebody serves."""
    with pair.kind(ttl=TTL, url=pair.url, audit=1 << 24, **options) as made:
        made.referee.prepare()
        made.referee.create(NAME, made.table.read_text(), b"s" * 16)
        made.start(*names)
        made.place()
        yield made


def fill(primary, count, pages=1):
    """Commits so many blocks, a thousand with each request: a commit by itself would make a few large ones of their records."""
    while count > 0:
        first, some = primary.end + 1, min(1000, count)
        primary._tail += blocks(first, some, pages)
        primary.commit()
        count -= some


def blocks(first, count, pages=1):
    """Small blocks, each of one page of so many."""
    return [
        Block.of(lsn, (Put(lsn % pages, 0, RECORD.data),)) for lsn in range(first, first + count)
    ]


class Alone:
    """One PostgreSQL, without a standby, in the place of a pair."""

    kind = Keeping

    def __init__(self):
        self.leader = Server()
        self.leader.url("kept")
        self.servers = [self.leader]
        self.url = f"postgresql://pagelog@/kept?host={self.leader.folder}"

    def stop(self):
        self.leader.stop()


# A commit.


class PlainCommits:
    """One-row INSERTs of a block's bytes in the same PostgreSQL, with a keeper's settings of a connection."""

    def __init__(self, url):
        self.session = psycopg.connect(url + "&target_session_attrs=read-write", autocommit=True)
        self.session.execute(
            "CREATE TABLE IF NOT EXISTS plain (id serial PRIMARY KEY, data bytea NOT NULL)"
        )
        self.data = Block.of(1, (RECORD,)).data

    def commit(self):
        self.session.execute("INSERT INTO plain (data) VALUES (%b)", (self.data,))


def commits(pair, share):
    """With a processor for each part, if there are four, and on all processors."""
    if len(os.sched_getaffinity(0)) >= 4:
        print("client, keeper and each PostgreSQL have a processor of their own:")
        writers(pair, share, is_apart=True)
        print("all share the processors:")
    writers(pair, share, is_apart=False)


def writers(pair, share, is_apart):
    """One writer and PostgreSQL in turn, commit by commit, so that all find the disk, the processors and their caches alike; one
    writer alone; and 64 writers."""
    count = max(100, round(1000 * share))
    plain = PlainCommits(pair.url)
    with keeping(
        pair, standby=False
    ) as kept, kept.primary() as primary, contextlib.ExitStack() as placed:
        pid = kept.processes["a"].pid
        if is_apart:
            placed.enter_context(apart(pair, pid))

        def commit(durable):
            primary.append(RECORD)
            return primary.commit(durable=durable)

        timed(lambda: commit(True), 10), timed(plain.commit, 10)
        times = {"PostgreSQL": [], "durable": [], "trip": []}
        for _ in range(count):
            times["PostgreSQL"] += timed(plain.commit, 1)
            times["durable"] += timed(lambda: commit(True), 1)
            times["trip"] += timed(lambda: commit(False), 1)
            primary.durable(primary.end)
        keeper, client = processor_seconds(pid), time.process_time()
        alone = timed(lambda: commit(True), count)
        keeper, client = processor_seconds(pid) - keeper, time.process_time() - client
        ours, theirs, trip = (at(50, times[what]) for what in ("durable", "PostgreSQL", "trip"))
        for what in ("PostgreSQL", "durable"):
            print(
                f"commit of one block, {what}: p50 {at(50, times[what]):.2f} ms, p99 {at(99, times[what]):.2f} ms"
            )
        print(
            f"durable of PostgreSQL's p50: {ours / theirs:.2f}; without a round trip of {trip:.2f} ms {(ours - trip) / theirs:.2f}; "
            f"of its p99 {at(99, times['durable']) / at(99, times['PostgreSQL']):.2f}"
        )
        print(
            f"of a processor a durable commit takes {1e3 * keeper / count:.2f} ms of the keeper's and "
            f"{1e3 * client / count:.2f} of the client's"
        )
        many_writers(kept, primary, 1 / statistics.mean(alone), max(3, round(20 * share)))


def many_writers(kept, primary, one, count):
    """Threads of one process share a writer, as a group; then as many commits wait at a time, each over a line of its own."""
    group = Group(primary)
    for what, (rate, times) in (
        ("in a group", rate_of_threads(lambda: group.commit(RECORD), 5 * count)),
        ("each with a line", rate_of_lines(primary, count)),
    ):
        print(
            f"{WRITERS} writers {what}: {rate:,.0f} durable commits a second, {rate / one:.1f} times one writer's {one:,.0f}; "
            f"p50 {at(50, times):.2f} ms, p99 {at(99, times):.2f} ms"
        )


def line_to(place):
    """A line to the keeper of a place."""
    host, _, port = place.lines.rpartition(":")
    made = dial(host, int(port), service.PATIENCE, trust())
    made.setsockopt(socket.IPPROTO_TCP, socket.TCP_NODELAY, 1)
    return made


def rate_of_lines(primary, count):
    """How many commits a second all lines have answered, and how long each took. One thread has them all: 64 would measure the lock of
    the interpreter."""
    place, times, poll, began = primary.place, [], select.poll(), {}
    lines = [line_to(place) for _ in range(WRITERS)]
    by_number = {line.fileno(): line for line in lines}

    def commit(line):
        began[line] = time.perf_counter()
        primary.append(RECORD)
        line.sendall(f"durable {NAME} {place.generation} {primary.commit()}\n".encode())

    for line in lines:
        poll.register(line, select.POLLIN)
    start = time.perf_counter()
    for line in lines:
        commit(line)
    left = WRITERS * (count - 1)
    while len(times) < WRITERS * count:
        for number, _ in poll.poll():
            assert by_number[number].recv(100).startswith(b"durable ")
            times.append(time.perf_counter() - began[by_number[number]])
            if left > 0:
                left -= 1
                commit(by_number[number])
    took = time.perf_counter() - start
    for line in lines:
        line.close()
    primary.durable(primary.end)
    return len(times) / took, times


def rate_of_threads(commit, count):
    """How many commits a second all threads make, and how long each took."""
    times = []
    threads = [
        threading.Thread(target=lambda: times.extend(timed(commit, count))) for _ in range(WRITERS)
    ]
    began = time.perf_counter()
    for thread in threads:
        thread.start()
    for thread in threads:
        thread.join()
    assert len(times) == WRITERS * count, "a writer broke off"
    return len(times) / (time.perf_counter() - began), times


def loop(pair, share):
    """One writer and PostgreSQL, each some hundred commits one directly after the other: by turns all find cold caches, and a hop is hidden."""
    count, rounds, plain = max(50, round(300 * share)), 7, PlainCommits(pair.url)
    ours, theirs, trips = [], [], []
    with keeping(pair, standby=False) as kept, kept.primary() as primary:
        pid = kept.processes["a"].pid

        def commit(durable):
            primary.append(RECORD)
            return primary.commit(durable=durable)

        timed(lambda: commit(True), 50), timed(plain.commit, 50)
        spent = 0.0
        for _ in range(rounds):
            before = processor_seconds(pid)
            ours.append(statistics.median(timed(lambda: commit(True), count)))
            spent += processor_seconds(pid) - before
            theirs.append(statistics.median(timed(plain.commit, count)))
            trips.append(statistics.median(timed(lambda: commit(False), count)))
            primary.durable(primary.end)
    shares = sorted(one / other for one, other in zip(ours, theirs))
    print(
        f"one writer in a loop, medians of {rounds} rounds of {count}: durable {1e3 * statistics.median(ours):.3f} ms, PostgreSQL "
        f"{1e3 * statistics.median(theirs):.3f}, a trip {1e3 * statistics.median(trips):.3f}; durable of PostgreSQL's {statistics.median(shares):.2f} "
        f"({shares[0]:.2f} to {shares[-1]:.2f}); {1e3 * spent / rounds / count:.3f} ms of the keeper's processor a commit; "
        f"load {os.getloadavg()[0]:.1f}"
    )


# Many databases.

PROCESSES = 4
MOST_TIMES = 1 << 20


class Writer(ctypes.Structure):
    """One of kept_writers.c: a database, over a connection to its service and a line to its keeper, or a session of PostgreSQL."""

    _fields_ = [
        ("connection", ctypes.c_void_p),
        ("data", ctypes.c_char_p),
        ("data_len", ctypes.c_size_t),
        ("service", ctypes.c_int),
        ("line", ctypes.c_int),
        ("frames", ctypes.POINTER(ctypes.c_char)),
        ("frames_len", ctypes.c_size_t),
        ("places", ctypes.c_size_t * 4),
        ("question", ctypes.c_char_p),
        ("lsn", ctypes.c_uint64),
        ("shift", ctypes.c_uint64),
        ("got", ctypes.c_size_t),
        ("asks_keeper", ctypes.c_int),
        ("began", ctypes.c_double),
    ]


def frames_at(primary, lsn):
    """A commit of one block: two writes and a report."""
    account = primary.credentials
    head = Head(account.id, account.token, Role.PRIMARY, primary.database, primary.epoch)
    block = Block.of(lsn, (RECORD,))
    bodies = [
        Request(head, act).encode() for act in (Write(0, block), Write(1, block), Report(lsn))
    ]
    return b"".join(len(body).to_bytes(4, "big") + body for body in bodies)


def database_writer(name, options):
    """That of a database, and what has to stay as long as it writes."""
    named = Primary.named(
        name,
        keepers=options["keepers"],
        principal=2,
        token=token(2),
        operator=(1, token(1)),
        patience=service.PATIENCE,
    )
    named.append(RECORD)
    named.commit(durable=True)
    place, primary = named.place, named._primary
    lsn, line = primary.durable, line_to(place)
    mark = (1 << 48) - 1  # the only one of its bytes in the frames
    marked, sought = frames_at(primary, mark), mark.to_bytes(8, "big")
    places = [at for at in range(len(marked)) if marked.startswith(sought, at)]
    assert len(places) == 3
    frames = ctypes.create_string_buffer(marked, len(marked))
    made = Writer(
        service=primary.connection._socket.fileno(),
        line=line.fileno(),
        frames=frames,
        frames_len=len(marked),
        places=(ctypes.c_size_t * 4)(*places),
        question=f"durable {name} {place.generation} ".encode(),
        lsn=lsn,
        shift=place.shift,
    )
    return made, (named, line, frames)


def session_writer(url, number):
    """That of a session, and what has to stay."""
    session = psycopg.connect(url + "&target_session_attrs=read-write", autocommit=True)
    session.execute(
        f"CREATE TABLE IF NOT EXISTS plain{number} (id serial PRIMARY KEY, data bytea NOT NULL)"
    )
    session.pgconn.prepare(b"put", f"INSERT INTO plain{number} (data) VALUES ($1)".encode())
    session.pgconn.nonblocking = 1
    data = Block.of(1, (RECORD,)).data
    return Writer(connection=session.pgconn.pgconn_ptr, data=data, data_len=len(data)), session


def library():
    """kept_writers.c, compiled."""
    folder = programs.ROOT / "bench" / "work"
    folder.mkdir(exist_ok=True)
    made = folder / "kept_writers.so"
    include = subprocess.run(
        ["pg_config", "--includedir"], check=True, capture_output=True, text=True
    ).stdout.strip()
    source = programs.ROOT / "bench" / "kept_writers.c"
    subprocess.run(
        [*"gcc -shared -fPIC -O2 -Wall -Wextra -Werror -I".split(), include, source]
        + ["-o", made, "-lpq"],
        check=True,
    )
    return made


def writers_of_one_process(words):
    """`kept.py --writers JSON`: told a line, it commits so long, and says how many and how long they took."""
    made = [database_writer(name, words) for name in words["names"]] + [
        session_writer(words["url"], number) for number in words["numbers"]
    ]
    writers = (Writer * len(made))(*(each for each, _ in made))
    commit_for = ctypes.CDLL(words["library"]).commit_for
    commit_for.restype = ctypes.c_size_t
    commit_for.argtypes = [
        ctypes.POINTER(Writer),
        ctypes.c_size_t,
        ctypes.c_double,
        ctypes.POINTER(ctypes.c_double),
        ctypes.c_size_t,
    ]
    times = (ctypes.c_double * MOST_TIMES)()
    print("ready", flush=True)
    for line in sys.stdin:
        count = commit_for(writers, len(made), float(line), times, MOST_TIMES)
        took = times[:count]
        print(json.dumps([count, statistics.median(took), at(99, took) / 1000]), flush=True)


class Writers:
    """Processes that write, each for a share of the databases or of the sessions."""

    def __init__(self, stack, words):
        self.processes = []
        for each in words:
            command = [sys.executable, "-B", __file__, "--writers", json.dumps(each)]
            process = subprocess.Popen(
                command, stdin=subprocess.PIPE, stdout=subprocess.PIPE, text=True
            )
            stack.callback(process.wait)
            stack.callback(process.stdin.close)
            self.processes.append(process)
        for process in self.processes:
            assert process.stdout.readline() == "ready\n", "a writer broke off"

    def rate(self, seconds):
        """Commits a second, the medians of a commit, and the greatest p99."""
        for process in self.processes:
            process.stdin.write(f"{seconds}\n")
            process.stdin.flush()
        told = [json.loads(process.stdout.readline()) for process in self.processes]
        return (
            sum(count for count, _, _ in told) / seconds,
            statistics.median(each for _, each, _ in told),
            max(each for _, _, each in told),
        )


def many(pair, share):
    """Ten and a hundred databases with a writer each, beside as many sessions of PostgreSQL, by turns."""
    if pair.kind is SecureAlone:
        return print("many: its clients speak no TLS")
    for count in (10, 100):
        for trail in (0, 7):
            many_of(pair, count, trail, max(1.0, 4 * share))


def each_ms(parts, work):
    """What the work gives, and what it took of processors: by these parts, pids by name."""
    before = {name: processor_ms(pids) for name, pids in parts.items()}
    given = work()
    return given, {name: processor_ms(pids) - before[name] for name, pids in parts.items()}


def shown(spent, made):
    """What was taken of processors a commit, by parts."""
    each = ", ".join(f"{name} {taken / made:.3f}" for name, taken in spent.items())
    return f"{sum(spent.values()) / made:.3f} ms of processors a commit: {each}"


def many_of(pair, count, trail, seconds):
    names = [f"{'trail' if trail else 'many'}{number}of{count}" for number in range(count)]
    options = {"more": f"trail = {trail}\n"} if trail else {}
    with contextlib.ExitStack() as stack:
        kept = stack.enter_context(
            pair.kind(ttl=5.0, url=pair.url, audit=1 << 24, standby=False, **options)
        )
        kept.referee.prepare()
        for name in names:
            kept.referee.create(name, kept.table.read_text(), b"s" * 16)
        kept.start("a")
        built = {"library": str(library())}
        shares = [list(range(first, count, PROCESSES)) for first in range(min(PROCESSES, count))]
        ours = Writers(
            stack,
            [
                {"names": [names[at] for at in some], "numbers": [], "keepers": kept.addresses}
                | built
                for some in shares
            ],
        )
        theirs = Writers(
            stack, [{"names": [], "numbers": some, "url": pair.url} | built for some in shares]
        )
        ours.rate(0.5), theirs.rate(0.5)
        pid, rounds, made, spent = kept.processes["a"].pid, [], [0.0, 0.0], [Counter(), Counter()]
        threads, descriptors = len(os.listdir(f"/proc/{pid}/task")), len(
            os.listdir(f"/proc/{pid}/fd")
        )
        servers = [
            int((server.data / "postmaster.pid").read_text().split()[0]) for server in pair.servers
        ]
        of_both = {"PostgreSQL": [each for server in servers for each in all_below(server)]}
        of_ours = {"services": all_below(pid)[1:], "keeper": [pid]}
        parts = (
            {"clients": [each.pid for each in ours.processes]} | of_ours | of_both,
            {"clients": [each.pid for each in theirs.processes]} | of_both,
        )
        for _ in range(5):
            told = [
                each_ms(part, lambda: some.rate(seconds))  # noqa: B023
                for part, some in zip(parts, (ours, theirs))
            ]
            for who, (rate, taken) in enumerate(told):
                made[who] += rate[0] * seconds
                spent[who].update(taken)
            rounds.append([rate for rate, _ in told])
        kept.kill("a", signal.SIGKILL)
    shares = sorted(mine[0] / other[0] for mine, other in rounds)
    print(
        f"{count} databases{' with a trail' if trail else ''}, a writer each, {len(rounds)} rounds of {seconds:.0f} s: "
        f"{statistics.median(mine[0] for mine, _ in rounds):,.0f} durable commits a second, PostgreSQL {statistics.median(other[0] for _, other in rounds):,.0f}: "
        f"{statistics.median(shares):.2f} ({shares[0]:.2f} to {shares[-1]:.2f}); p50 {1e3 * statistics.median(mine[1] for mine, _ in rounds):.2f} and "
        f"{1e3 * statistics.median(other[1] for _, other in rounds):.2f} ms; {shown(spent[0], made[0])}; PostgreSQL's own {shown(spent[1], made[1])}; "
        f"{threads} threads, {descriptors} descriptors; load {os.getloadavg()[0]:.1f}",
        flush=True,
    )


# Archiving.


def archiving(pair, share):
    """What is behind is archived by a keeper, and by `pagelogctl archive`."""
    count = round(60_000 * share)
    with keeping(pair, standby=False) as kept, kept.primary() as primary:
        primary.append(RECORD)
        primary.commit(durable=True)
        pid = kept.processes["a"].pid
        kept.kill("a", signal.SIGSTOP)
        fill(primary, count)
        spent, began = processor_seconds(pid), time.perf_counter()
        kept.kill("a", signal.SIGCONT)
        primary.durable(primary.end)
        took, spent = time.perf_counter() - began, processor_seconds(pid) - spent
    rate, each = count / took, 1e6 * spent / count
    print(
        f"archiving {count:,} blocks behind, keeper: {rate:,.0f} blocks a second, {each:.1f} us of a processor a block, "
        f"{spent / took:.2f} of a processor"
    )
    plain_rate, plain_each = plainly_archived(pair, count)
    print(
        f"the same by `pagelogctl archive`: {plain_rate:,.0f} blocks a second, {plain_each:.1f} us of a processor a block; "
        f"the keeper has {rate / plain_rate:.1f} times its rate, with {each / plain_each:.2f} of its processor time"
    )


def plainly_archived(pair, count):
    """Blocks a second, and microseconds of a processor a block; what the word takes with nothing to archive is not counted."""
    url = pair.url.replace("/kept", "/plainly")
    pair.leader.run("createdb", "-h", pair.leader.folder, "-U", "pagelog", "plainly")
    with service.Service() as served, served.primary() as primary:
        words = [
            sys.executable,
            "-m",
            "pagelog",
            "archive",
            "--credentials",
            served.credentials_file(),
            "--url",
            url,
        ]

        def run():
            began = time.perf_counter()
            process = subprocess.Popen(
                list(map(str, words)),
                env={
                    **os.environ,
                    "PYTHONPATH": str(CLIENT / "src"),
                    "PGTARGETSESSIONATTRS": "read-write",
                },
                stdout=subprocess.DEVNULL,
            )
            _, status, usage = os.wait4(process.pid, 0)
            assert status == 0, "pagelogctl archive failed"
            return time.perf_counter() - began, usage.ru_utime + usage.ru_stime

        primary.begin()
        nothing = run()
        for first in range(1, count + 1, 1000):
            list(
                primary.harden(
                    [Block.of(lsn, (RECORD,)) for lsn in range(first, min(count, first + 999) + 1)]
                )
            )
        took, spent = (whole - start for whole, start in zip(run(), nothing))
    return count / took, 1e6 * spent / count


# What goes on where something ends.


def kills(pair, share):
    """From the SIGKILL of a service to the next durable commit of a writer that lives."""
    for count in (pair.blocks,) if pair.blocks else (round(10_000 * share), round(100_000 * share)):
        for standby in (True, False):
            with keeping(
                pair, "ab" if standby else "a", standby=standby
            ) as kept, kept.primary() as primary:
                fill(primary, count, pair.pages)
                primary.durable(primary.end)
                if standby:
                    eventually(
                        lambda: count in kept.standbys().values(), "a standby with all of it"
                    )
                took = []
                for number in range(1, 4):
                    if standby:
                        eventually(
                            lambda: primary.end in kept.standbys().values(),
                            "a standby with all of it",
                        )
                    os.kill(kept.pid(), signal.SIGKILL)
                    primary.append(RECORD)
                    took += timed(lambda: primary.commit(durable=True), 1)
            print(
                f"SIGKILL of a service of {count:,} blocks over {pair.pages:,} pages, {'a' if standby else 'no'} standby: durable again after "
                f"{', '.join(f'{each:.2f}' for each in took)} s, where the ttl is {TTL} s; load {os.getloadavg()[0]:.1f}"
            )


def restore(pair, share):
    """A service is filled from position 1, with no base: the archive is read alone, a service is loaded alone, and both at once."""
    count, rates = pair.blocks or round(300_000 * share), {"read": [], "loaded": [], "both": []}
    with contextlib.closing(
        Referee(pair.url, "bench", "life")
    ) as referee, tempfile.TemporaryDirectory() as folder:
        referee.prepare()
        row, chain = archived(referee, "restored", count, pair.pages)
        for number in range(3):
            began = time.perf_counter()
            pieces = list(pieces_of(referee, row.id, 1, count))
            rates["read"].append(count / (time.perf_counter() - began))
            for what in ("loaded", "both"):
                served = Served(
                    row.name,
                    f"{what}{number}",
                    service.WIDE_TABLE,
                    b"s" * 16,
                    timeout=service.PATIENCE,
                )
                served.start(Program(os.environ["PAGELOG"], "127.0.0.1", pathlib.Path(folder)))
                began = time.perf_counter()
                if what == "both":
                    served.follow(referee, row.id, count, chain)
                else:
                    served.fill(pieces, count, chain)
                rates[what].append(count / (time.perf_counter() - began))
                served.end()
        referee.drop(row.name)
    print(
        f"restore of {count:,} blocks from position 1, blocks a second: "
        + "; ".join(
            f"{what} {statistics.median(some):,.0f} ({', '.join(f'{each:,.0f}' for each in some)})"
            for what, some in rates.items()
        )
        + f"; load {os.getloadavg()[0]:.1f}"
    )


def archived(referee, name, count, pages):
    """A database with so many archived blocks, and their digest."""
    referee.create(name, service.WIDE_TABLE, b"s" * 16)
    row, at, chain = referee.everything().row(name), 0, b""
    generation = referee.take(row, "run").generation
    while at < count:
        some = tuple(block.data for block in blocks(at + 1, min(4096, count - at), pages))
        chain = digest(chain, some)
        assert referee.keep([Batch(row.id, "run", generation, at, chain, some)])
        at += len(some)
    return row, chain


def switchover(pair, share):
    """The longest commit of a writer while its database goes to the other keeper, and PostgreSQL's own commit in between."""
    plain, own = PlainCommits(pair.url), []
    with keeping(pair, "ab", standby=True) as kept, kept.primary() as primary:
        fill(primary, round(10_000 * share))
        primary.durable(primary.end)
        for durable in (False, True):
            longest, usual = [], []
            for _ in range(max(3, round(15 * share))):
                eventually(
                    lambda: primary.end in kept.standbys().values(), "a standby with all of it"
                )
                own += timed(plain.commit, 20)
                times = commits_until_elsewhere(kept, primary, durable)
                longest.append(1000 * max(times))
                usual += times
            print(
                f"switchover, commits {'durable' if durable else 'not durable'}: the longest took {at(50, longest) / 1000:.0f} ms at the median, "
                f"{max(longest):.0f} at worst, of {len(longest)}: {', '.join(f'{each:.0f}' for each in sorted(longest))}; p50 of all commits "
                f"{at(50, usual):.2f} ms, of PostgreSQL's own {at(50, own):.2f}, load {os.getloadavg()[0]:.1f}"
            )


def commits_until_elsewhere(kept, primary, durable):
    """How long each commit takes, until the database is at another keeper."""

    def commit():
        primary.append(RECORD)
        primary.commit(durable=durable)

    before, times = primary.place.generation, []
    kept.referee.wish(NAME, "*")
    while primary.place.generation == before:
        times += timed(commit, 1)
    primary.durable(primary.end)
    return times


def idle(pair, share):
    """What a keeper of many idle databases takes, with a ttl of 5 s."""
    count, period = round(100 * share), 15.0
    with pair.kind(ttl=5.0, url=pair.url, standby=False) as kept:
        kept.referee.prepare()
        for number in range(count):
            kept.referee.create(f"idle{number}", kept.table.read_text(), b"s" * 16)
        kept.start("a")
        eventually(
            lambda: all(row.address for row in kept.referee.everything().rows if not row.dropped),
            "all of them",
        )
        pid = kept.processes["a"].pid
        time.sleep(2 * kept.ttl)  # the connection that archives is closed by then
        spent = processor_seconds(pid)
        time.sleep(period)
        spent = processor_seconds(pid) - spent
        with psycopg.connect(pair.url + "&target_session_attrs=read-write") as session:
            [sessions] = session.execute(
                "SELECT count(*) FROM pg_stat_activity WHERE application_name = 'pagelog keeper a'"
            ).fetchone()
    print(
        f"{count} idle databases: {100 * spent / period:.1f} % of a processor, {sessions} connections to PostgreSQL"
    )


PARTS = {
    "commits": commits,
    "loop": loop,
    "many": many,
    "archiving": archiving,
    "kills": kills,
    "restore": restore,
    "switchover": switchover,
    "idle": idle,
}


def main():
    if sys.argv[1:2] == ["--writers"]:
        return writers_of_one_process(json.loads(sys.argv[2]))
    parser = argparse.ArgumentParser()
    parser.add_argument("parts", nargs="*", metavar="PART", help=", ".join(PARTS))
    parser.add_argument("--share", type=float, default=1.0, help="of the work of a whole run")
    parser.add_argument(
        "--blocks",
        type=int,
        default=0,
        help="of kills and restore, as 1000000 [default: 10,000 and 100,000; 300,000]",
    )
    parser.add_argument("--pages", type=int, default=1, help="that these blocks change, by turns")
    parser.add_argument("--tls", action="store_true", help="nobody is reached but by TLS")
    parser.add_argument("--alone", action="store_true", help="one PostgreSQL, without a standby")
    words = parser.parse_args()
    unknown = set(words.parts) - set(PARTS)
    if unknown:
        parser.error(f"there is no part {', '.join(unknown)}")
    Server.connections = 200  # for the sessions of `many`
    pair = Alone() if words.alone else Pair()
    pair.blocks, pair.pages, pair.kind = words.blocks, words.pages, KINDS[words.tls]
    try:
        print(
            f"PostgreSQL {'without' if words.alone else 'with'} a synchronous standby on this machine{', clients by TLS' * words.tls}; "
            f"load {os.getloadavg()[0]:.1f} of {os.cpu_count()} processors"
        )
        for name in words.parts or PARTS:
            PARTS[name](pair, words.share)
        print(f"load {os.getloadavg()[0]:.1f}")
    finally:
        pair.stop()


if __name__ == "__main__":
    main()
