"""Times `pagelog serve` over the loopback, beside a bare echo of the same frames and, where it is installed, redis-server.

Usage: python3 bench/serve.py [SHARE] [--idle-polls N]     (1; a tenth of the requests with 0.1, but for those in flight)

For each of a 100-byte write (the same block again and again), a report, a pull of one block and a get of a page, round trips a
second of services of 2, 4 and 64 workers: at 1, 8 and 64 connections with one request each at a time; at 64 of 1,000 and of
10,000 connections, of which the others asked once and are silent since (fewer where the limit of open files is lower); and
with 64 requests in flight on one connection, in rounds of 20,000 whatever the share is. All are asked by the same client,
bench/frames.c, and so is the echo, which has a thread for each connection and answers each frame by one as long as the
service's, in a write of its own. Beside it is, with requests in flight, an echo that gathers what it answers as the service
does: it reads and writes whole batches and looks at nothing; and for writes a program in C that does what the rules ask of a
write and no more, in a line of its own. Writes are asked in two more ways with 64 in flight, since a block that was just read is
not read again: of 64 blocks in turn, and of 32 blocks, each to two copies. Redis is asked for XADD of 100 bytes, XRANGE of one
entry and GET of 8,192 bytes.

Each number is the best of 25 rounds, in each of which all are asked in turn: where the machine is shared with others
some rounds are disturbed, and a long one is rarely spared. After each other server's number comes what the service's best
round is of its best, and the median of what the service's round is of the other's. After them come the processor time that
the service took for a request, over all rounds, and the most memory that it held until then, which grows with its audit list.
With silent connections there follow what the best round is of the one with 64 connections alone, and the memory that the
service holds for each silent one. A server that does not serve that many has no number.

Last come the delays of one request at a time on 64 connections, in microseconds: the 50th, 99th and 99.9th percentile and the
longest, alone and beside silent connections; and those of each kind of request under the mixed load of bench/mixed.py.

The service is crates/pagelog/out/pagelog, which scripts/pagelog proves and builds, or the program that PAGELOG names. Where
--idle-polls is given, it is given that option.

Where etcd is installed, a client in Python asks the service and one node of etcd, which syncs nothing to its disk, one
request at a time on one connection: a 100-byte write beside a put, and a pull of one block beside a range of one key.
"""

import base64
import contextlib
import http.client
import json
import os
import pathlib
import resource
import shutil
import socket
import statistics
import subprocess
import tempfile
import time

import mixed
import rounds
from serving import SHARE, about, build_frames, port_of, primary, reader, wire, words_of_service

ROUNDS = 25
WORKERS = (2, 4, 64)
# Connections that ask, all connections, requests in flight on each, and requests of each connection in a round.
SHAPES = (
    (1, 1, 1, 4000),
    (8, 8, 1, 2000),
    (64, 64, 1, 400),
    (64, 1000, 1, 400),
    (64, 10000, 1, 400),
    (1, 1, 64, 20000),
)
# How many descriptors a server and a client have beside their connections.
OTHERS = 100
TICKS = os.sysconf("SC_CLK_TCK")


def hundred_bytes(lsn):
    return wire.block(lsn, [(0, 0, bytes(100))])


# What is asked before the timed requests: one hardened block, and a table of one row for each role.
SETUP = [primary(wire.WRITE, wire.write(copy, hundred_bytes(1))) for copy in (0, 1)] + [
    primary(wire.REPORT, wire.report(1))
]

# The name, the request, the bytes of its reply, and what redis is asked beside it.
CASES = (
    (
        "100-byte write",
        primary(wire.WRITE, wire.write(0, hundred_bytes(2))),
        5,
        ["XADD", "s", "MAXLEN", "~", "10000", "*", "f", "v" * 100],
    ),
    ("report", primary(wire.REPORT, wire.report(1)), 5, None),
    (
        "pull of one block",
        reader(wire.PULL, wire.pull(0, 65535, 1, 1)),
        4 + 1 + 8 + 2 + 4 + len(hundred_bytes(1)),
        ["XRANGE", "s", "-", "+", "COUNT", "1"],
    ),
    ("get of a page", reader(wire.GET, wire.get(0, 1, 1)), 4 + 1 + 8 + 8192, ["GET", "page"]),
)

# Writes that are sent together, again and again: their name, and the copy and the LSN of each.
STREAMS = (
    ("64 blocks in turn", [(0, lsn) for lsn in range(2, 66)]),
    ("32, to two copies", [(copy, lsn) for lsn in range(2, 34) for copy in (0, 1)]),
)


class Running:
    """A server that is ended with this program's leave alone."""

    def __init__(self, words, port=None):
        self.process = subprocess.Popen(
            [str(word) for word in words],
            stdout=subprocess.PIPE,
            stderr=subprocess.DEVNULL,
            text=True,
        )
        self.port = port

    def seconds(self):
        """The processor time that it took."""
        parts = open(f"/proc/{self.process.pid}/stat").read().rsplit(")", 1)[1].split()
        return (int(parts[11]) + int(parts[12])) / TICKS

    def memory(self, which):
        """The memory that it holds (VmRSS), or the most that it held (VmHWM), in KiB."""
        for line in open(f"/proc/{self.process.pid}/status"):
            if line.startswith(f"{which}:"):
                return int(line.split()[1])

    def end(self):
        self.process.terminate()
        self.process.wait()


def service(workers):
    running = Running(words_of_service(workers))
    running.port = port_of(running.process)
    for request in SETUP:
        assert first_bytes(running.port, request) == b"\0\0\0\1\0"
    return running


def frames(*words):
    running = Running([FRAMES, *words])
    running.port = int(running.process.stdout.readline())
    return running


def echo(reply, *how):
    return frames("echo", reply - 4, *how)


def redis():
    port = free_port()
    running = Running(
        ["redis-server", "--port", port, "--bind", "127.0.0.1", "--save", "", "--appendonly", "no"],
        port,
    )
    for _ in range(100):
        try:
            first_bytes(port, spelled(["SET", "page", "p" * 8192]))
            first_bytes(port, spelled(["XADD", "s", "*", "f", "v" * 100]))
            return running
        except ConnectionRefusedError:
            time.sleep(0.05)
    raise SystemExit("redis-server does not answer")


def spelled(words):
    """A command as redis reads it."""
    return f"*{len(words)}\r\n".encode() + b"".join(
        f"${len(word)}\r\n{word}\r\n".encode() for word in words
    )


def first_bytes(port, request):
    """What is replied within a fifth of a second."""
    with socket.create_connection(("127.0.0.1", port)) as client:
        client.sendall(request)
        client.settimeout(0.2)
        data = b""
        try:
            while part := client.recv(1 << 16):
                data += part
        except TimeoutError:
            pass
        return data


@contextlib.contextmanager
def written(request):
    """A file with the bytes of a request, for the client."""
    with tempfile.NamedTemporaryFile() as file:
        file.write(request)
        file.flush()
        yield file.name


def client(*words):
    """What the client prints."""
    done = subprocess.run([FRAMES, *map(str, words)], stdout=subprocess.PIPE, text=True, check=True)
    return done.stdout.split()


def seconds(port, shape, request, reply):
    """How long it takes until all round trips are done."""
    connections, flight, count = shape
    with written(request) as file:
        return float(client("ask", port, connections, flight, count, reply, file)[0])


def delays(port, count, request):
    """The 50th, 99th and 99.9th percentile and the longest of the delays on 64 connections, which have `count` replies each."""
    with written(request) as file:
        return client("delays", port, count, "all", 64, file)[3:]


@contextlib.contextmanager
def silent(port, count, request, reply):
    """Has `count` connections ask once, and keeps them. Whether the server served all of them."""
    with written(request) as file:
        words = [str(word) for word in (FRAMES, "silent", port, count, reply, file)]
        holder = subprocess.Popen(
            words,
            stdin=subprocess.PIPE,
            stdout=subprocess.PIPE,
            stderr=subprocess.DEVNULL,
            text=True,
        )
        try:
            yield bool(holder.stdout.readline())
        finally:
            holder.stdin.close()
            holder.wait()


class Asked:
    """A server, what it is asked, and the bytes or line feeds of its reply."""

    def __init__(self, name, server, request, reply):
        self.name, self.server, self.request, self.reply = name, server, request, reply

    def seconds(self, shape):
        return seconds(self.server.port, shape, self.request, self.reply)


def beside(own, other):
    """The best of the other's rates, what of it our best is, and the median of what ours are of the other's."""
    if not own or not other:
        return f"{'':9} {'':6} {'':6}"
    middle = statistics.median(ours / theirs for ours, theirs in zip(own, other))
    return f"{max(other):9,.0f} {max(own) / max(other):6.2f} {middle:6.2f}"


class Case:
    """A request, and the servers that are asked for it."""

    def __init__(self, case, other, stack):
        self.name, self.request, reply, command = case
        self.services = {
            workers: self.started(stack, f"{workers} workers", service(workers), reply)
            for workers in WORKERS
        }
        self.bare = self.started(stack, "echo", echo(reply), reply)
        self.gathering = self.started(stack, "gathered", echo(reply, "gather"), reply)
        self.rules = (
            self.started(stack, "rules", frames("rules"), reply)
            if self.name == CASES[0][0]
            else None
        )
        self.other = None
        if other and command:
            wanted = (
                "+2" if command[0] == "XADD" else len(first_bytes(other.port, spelled(command)))
            )
            self.other = Asked("redis", other, spelled(command), wanted)
        length = len(first_bytes(self.services[WORKERS[0]].server.port, self.request))
        assert length == reply, f"{self.name}: a reply of {length} bytes"
        # The best rate of each service with 64 connections alone, and the lines of delays.
        self.alone, self.lines = {}, []

    def started(self, stack, name, server, reply):
        stack.callback(server.end)
        return Asked(name, server, self.request, reply)

    def shape(self, speaking, connections, flight, count):
        """A line for each service."""
        # Rounds of 800 requests in flight gave the service 0.52 of the echo's writes, and rounds of 20,000 gave it 0.43.
        count = count if flight > 1 else max(1, int(count * SHARE))
        quiet = min(connections, resource.getrlimit(resource.RLIMIT_NOFILE)[0] - OTHERS) - speaking
        others = self.bare, *((self.gathering, self.rules) if flight > 1 else ()), self.other
        asked = [*self.services.values(), *filter(None, others)]
        before = {each: each.server.memory("VmRSS") for each in asked}
        with contextlib.ExitStack() as stack:
            served = [
                each
                for each in asked
                if not quiet
                or stack.enter_context(silent(each.server.port, quiet, each.request, each.reply))
            ]
            kept = {
                each: (each.server.memory("VmRSS") - before[each]) / quiet if quiet else None
                for each in served
            }
            spent = {each: each.server.seconds() for each in served}
            took = rounds.in_turn(
                ROUNDS, served, lambda each: each.seconds((speaking, flight, count))
            )
            spent = {
                each: (each.server.seconds() - spent[each]) / (ROUNDS * speaking * count)
                for each in served
            }
            rates = {
                each: [speaking * count / time for time in times] for each, times in took.items()
            }
            if speaking == 64:
                self.time_delays(
                    [each for each in served if each is not self.other], speaking + quiet, count
                )
        for workers, each in self.services.items():
            self.line(workers, each, speaking, speaking + quiet, flight, rates, spent, kept)
        if self.rules in rates:
            shares = ", ".join(
                f"{workers} workers {beside(rates[each], rates[self.rules]).split(maxsplit=1)[1]}"
                for workers, each in self.services.items()
            )
            print(
                f"{self.name:18} of the rules in C, at {max(rates[self.rules]):,.0f}, best and median: {shares}",
                flush=True,
            )

    def stream(self, name, writes):
        """A line for each service, of these writes sent together."""
        request = b"".join(
            primary(wire.WRITE, wire.write(copy, hundred_bytes(lsn))) for copy, lsn in writes
        )
        asked = [*self.services.values(), self.gathering, self.rules]
        turns = SHAPES[-1][-1] // len(writes)
        took = rounds.in_turn(
            ROUNDS,
            asked,
            lambda each: seconds(
                each.server.port, (1, 1, turns), request, each.reply * len(writes)
            ),
        )
        rates = {
            each: [turns * len(writes) / time for time in times] for each, times in took.items()
        }
        for workers, each in self.services.items():
            others = " ".join(
                f"{other.name} {beside(rates[each], rates[other])}"
                for other in (self.gathering, self.rules)
            )
            print(
                f"{name:18}  1 of      1 x {len(writes):2} {workers:7} {max(rates[each]):9,.0f}   {others}",
                flush=True,
            )

    def line(self, workers, each, speaking, connections, flight, rates, spent, kept):
        head = f"{self.name:18} {speaking:2} of {connections:6,} x {flight:2} {workers:7}"
        own = rates.get(each)
        if not own:
            print(f"{head}   it does not serve this many", flush=True)
            return
        if connections == speaking == 64:
            self.alone[workers] = max(own)
        others = " ".join(
            beside(own, rates.get(other)) for other in (self.bare, self.gathering, self.other)
        )
        cost = f"{spent[each] * 1e6:8.2f} {each.server.memory('VmHWM') / 1024:8.1f}"
        tail = (
            f" {max(own) / self.alone[workers]:8.2f} {kept[each]:8.1f}"
            if connections > speaking
            else ""
        )
        print(f"{head} {max(own):9,.0f} {others} {cost}{tail}", flush=True)

    def time_delays(self, asked, connections, count):
        for each in asked:
            cells = "".join(f"{cell:>10}" for cell in delays(each.server.port, count, each.request))
            self.lines.append(f"{self.name:18} 64 of {connections:6,} {each.name:>12}{cells}")


def free_port():
    with socket.socket() as free:
        free.bind(("127.0.0.1", 0))
        return free.getsockname()[1]


def etcd(work):
    client, peer = (f"http://127.0.0.1:{free_port()}" for _ in range(2))
    running = Running(
        [
            "etcd",
            "--data-dir",
            pathlib.Path(work) / "etcd",
            "--log-level",
            "fatal",
            "--unsafe-no-fsync",
            "--listen-client-urls",
            client,
            "--advertise-client-urls",
            client,
            "--listen-peer-urls",
            peer,
            "--initial-advertise-peer-urls",
            peer,
            "--initial-cluster",
            f"default={peer}",
        ],
        int(client.rsplit(":", 1)[1]),
    )
    for _ in range(100):
        try:
            with socket.create_connection(("127.0.0.1", running.port)):
                return running
        except ConnectionRefusedError:
            time.sleep(0.1)
    raise SystemExit("etcd does not answer")


def rate_by_python(count, ask):
    """Round trips a second, the best of five rounds."""
    best = None
    for _ in range(5):
        start = time.perf_counter()
        for _ in range(count):
            ask()
        best = min(best or 1e9, time.perf_counter() - start)
    return count / best


def beside_etcd(work):
    count = max(1, int(2000 * SHARE))
    store, ours = etcd(work), service(64)
    connection = http.client.HTTPConnection("127.0.0.1", store.port)
    key = base64.b64encode(b"key").decode()

    def posted(path, words):
        connection.request("POST", path, json.dumps(words), {"Content-Type": "application/json"})
        return connection.getresponse().read()

    try:
        value = base64.b64encode(b"v" * 100).decode()
        asked = (
            ("100-byte write", lambda: posted("/v3/kv/put", {"key": key, "value": value})),
            ("pull of one block", lambda: posted("/v3/kv/range", {"key": key})),
        )
        print(f"\n{'':18} {'':9} {'pagelog':>9} {'etcd':>9} {'ratio':>6}   (a client in Python)")
        with socket.create_connection(("127.0.0.1", ours.port)) as client:
            for name, theirs in asked:
                _, request, reply, _ = next(case for case in CASES if case[0] == name)

                def ask(request=request, reply=reply):
                    client.sendall(request)
                    left = reply
                    while left:
                        left -= len(client.recv(left))

                own, other = rate_by_python(count, ask), rate_by_python(count, theirs)
                print(
                    f"{name:18} {1:4} x {1:2} {own:9,.0f} {other:9,.0f} {own / other:6.2f}",
                    flush=True,
                )
    finally:
        connection.close()
        ours.end()
        store.end()


def raise_limit():
    """As many open files as the system allows, for this program and those that it starts."""
    _, most = resource.getrlimit(resource.RLIMIT_NOFILE)
    resource.setrlimit(resource.RLIMIT_NOFILE, (most, most))


def main():
    raise_limit()
    heads = " ".join(
        f"{head:>9} {'best':>6} {'median':>6}" for head in ("echo", "gathered", "redis")
    )
    print(about())
    tail = " ".join(f"{head:>8}" for head in ("us each", "MiB", "of alone", "KiB each"))
    print(f"{'':18} {'connections':17} {'workers':>7} {'pagelog':>9} {heads} {tail}")
    lines = []
    with contextlib.ExitStack() as stack:
        other = redis() if shutil.which("redis-server") else None
        if other:
            stack.callback(other.end)
        for case in CASES:
            with contextlib.ExitStack() as started:
                asked = Case(case, other, started)
                for shape in SHAPES:
                    asked.shape(*shape)
                for stream in STREAMS if asked.rules else ():
                    asked.stream(*stream)
                lines += asked.lines
    print(
        f"\n{'':31} {'':12}"
        + "".join(f"{head:>10}" for head in ("50th", "99th", "99.9th", "longest"))
        + "   (us)"
    )
    print("\n".join(lines), flush=True)


with tempfile.TemporaryDirectory() as work:
    FRAMES = build_frames(work)
    main()
    print()
    mixed.measure(FRAMES, work, WORKERS)
    if shutil.which("etcd"):
        beside_etcd(work)
