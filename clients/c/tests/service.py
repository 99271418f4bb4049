"""A running `pagelog serve`, its operator, and proxies in front of it that cut, hold or watch what passes."""

import contextlib
import os
import pathlib
import random
import select
import signal
import socket
import struct
import subprocess
import sys
import tempfile
import threading
import time

HERE = pathlib.Path(__file__).resolve().parent
CLIENT = HERE.parent
ROOT = CLIENT.parent.parent
TABLE = CLIENT / "table.toml"
SIX_COPIES = "copies = 6\nquorum = 4\n\n" + TABLE.read_text()
START_TABLE = ROOT / "crates" / "pagelog" / "data" / "t0.toml"
PROGRAM = os.environ.get("PAGELOG") or str(ROOT / "crates" / "pagelog" / "out" / "pagelog")
# An address of this process alone: a port of it that is free for a while stays free.
HOST = f"127.{1 + os.getpid() // 65536 % 254}.{os.getpid() // 256 % 256}.{os.getpid() % 256}"

sys.path.insert(0, str(ROOT / "scripts"))
sys.dont_write_bytecode = True
import wire  # noqa: E402


def plain_environment(**more):
    """That of this process, but for the sanitizers' library, which is for the client alone."""
    kept = {
        name: value
        for name, value in os.environ.items()
        if name not in ("LD_PRELOAD", "ASAN_OPTIONS")
    }
    return {**kept, **more}


# What a service is to load, as the delays of scripts/slow.
PRELOADED = {"LD_PRELOAD": text} if (text := os.environ.get("PAGELOG_TEST_PRELOAD")) else {}


def others_sleep():
    """Whether no other thread of this process runs."""
    own = threading.get_native_id()
    tasks = [task for task in pathlib.Path("/proc/self/task").iterdir() if int(task.name) != own]
    try:
        return all(
            (task / "stat").read_text().rpartition(")")[2].split()[0] == "S" for task in tasks
        )
    except OSError:
        return False  # one has just ended


def let_others_sleep():
    """The sanitizers' allocator of gcc 12 knows no fork: where another thread is in it, as one that ends, a child would wait for that thread
    for ever. So a fork waits until all others sleep, as they do in the end: but for one that looks for its reply awake.
    """
    deadline = time.monotonic() + 5
    while not others_sleep() and time.monotonic() < deadline:
        time.sleep(0.0002)


if "asan" in os.environ.get("LD_PRELOAD", ""):
    os.register_at_fork(before=let_others_sleep)


class Service:
    """Ends with the block that it is used in."""

    def __init__(
        self,
        table=TABLE,
        primary=2,
        dbs=1,
        workers=16,
        connections=4294967295,
        audit=16777216,
        listen=None,
        prefix=(),
        quiet=False,
        text=None,
        idle_polls=None,
    ):
        """`text` is that of the table, in place of a file."""
        words = [
            "serve",
            "--listen",
            listen or f"{HOST}:0",
            "--primary",
            primary,
            "--dbs",
            dbs,
            "--workers",
            workers,
            "--connections",
            connections,
            "--audit",
            audit,
        ]
        if idle_polls is not None:
            words += ["--idle-polls", idle_polls]
        # The service has read its table once it listens.
        with tempfile.NamedTemporaryFile("w", suffix=".toml") as file:
            if text is not None:
                file.write(text), file.flush()
                table = file.name
            words = list(prefix) + [PROGRAM] + [str(word) for word in [*words, "--table", table]]
            self.process = subprocess.Popen(
                words,
                stdout=subprocess.PIPE,
                text=True,
                env=plain_environment(**PRELOADED),
                stderr=subprocess.DEVNULL if quiet else None,
            )
            line = self.process.stdout.readline().split()
        if len(line) != 2 or line[0] != "listening":
            raise RuntimeError(f"the service did not start: {line}")
        self.address = line[1]

    def __enter__(self):
        return self

    def __exit__(self, *_):
        self.end()

    def end(self):
        self.process.kill()
        self.process.wait()
        self.process.stdout.close()

    def operator(self, database=0):
        return Asker(self.address, 1, wire.OPERATOR, database)


def starts_with(text):
    """Whether the service knows what a table of this text says."""
    try:
        Service(text=text, quiet=True).end()
    except RuntimeError:
        return False
    return True


class Asker:
    """Plain requests, one at a time, in a hand of this test's own, so that no error of the client hides in it."""

    def __init__(self, address, principal, role, database=0, epoch=1):
        host, port = address.rsplit(":", 1)
        self.socket = socket.create_connection((host, int(port)), 20)
        self.principal, self.role, self.database, self.epoch = principal, role, database, epoch

    def close(self):
        self.socket.close()

    def __enter__(self):
        return self

    def __exit__(self, *_):
        self.close()

    def once(self, op, rest=b"", epoch=None):
        body = (
            wire.head(
                self.principal, self.role, op, self.epoch if epoch is None else epoch, self.database
            )
            + rest
        )
        return self.carry(framed(body))[4:]

    def carry(self, frame):
        """Another's frame, carried out over this connection: the frame of its reply."""
        return exchange(self.socket, frame)

    def ask(self, op, rest=b""):
        """The reply, in the epoch that is current."""
        while True:
            reply = self.once(op, rest)
            if reply[:4] not in (b"\5\1\0\2", b"\5\1\0\3"):
                return reply
            self.epoch = struct.unpack(">Q", reply[4:])[0]

    def status(self):
        """Epoch, primary, hard."""
        reply = self.ask(wire.STATUS)
        assert reply[0] == 4, reply
        return struct.unpack(">IIQ", reply[1:17])

    def failover(self, to):
        """A failover that happened; the epoch that it began."""
        self.status()
        while self.ask(wire.FAILOVER, wire.failover(to)) != b"\0":
            pass
        self.epoch += 1
        return self.epoch

    def set_table(self, text):
        assert self.ask(wire.SET_TABLE, text.encode()) == b"\0"

    def page(self, page, lsn):
        reply = self.ask(wire.GET, wire.get(page, lsn, 1))
        assert reply[0] == 2, reply
        return reply[9:]

    def blocks(self, lsn=1):
        """All blocks from an LSN on."""
        found = []
        while True:
            reply = self.ask(wire.PULL, wire.pull(0, 65535, lsn, 16))
            if reply[0] != 1:
                return found
            lsn, count = struct.unpack(">QH", reply[1:11])
            at = 11
            for _ in range(count):
                (length,) = struct.unpack(">I", reply[at : at + 4])
                found.append(reply[at + 4 : at + 4 + length])
                at += 4 + length
            if count < 16:
                return found


def exactly(client, count):
    parts = bytearray()
    while len(parts) < count:
        part = client.recv(count - len(parts))
        if not part:
            raise ConnectionError(f"{len(parts)} bytes of {count}")
        parts += part
    return bytes(parts)


class Answer(bytes):
    """What a proxy's rule returns to answer a request itself: the body of a reply."""


class Proxy:
    """Carries bytes between clients and a service.

    A plan says for each connection after how many bytes, of both directions together, it is cut.

    A rule, `between`, is called with each whole frame of a request, once the service has answered all frames before it. What
    it returns is carried in the frame's place; an Answer is given to the client in the service's place; at None the connection
    is cut, and the replies to what came from the client together with this frame are lost.

    A second rule beside it, `holds`, is called once the service has answered all frames that have come. While it is true the
    replies stay here: they go to the client together with later ones."""

    def __init__(self, address, plan=None, between=None, holds=lambda: False):
        host, port = address.rsplit(":", 1)
        self.target = host, int(port)
        self.plan, self.between, self.holds = plan, between, holds
        self.listener = socket.create_server((HOST, 0), backlog=64)
        self.address = "%s:%d" % self.listener.getsockname()
        self.cuts = self.accepted = 0
        self.carried = []
        self.is_on = True
        self.thread = threading.Thread(target=self.accept, daemon=True)
        self.thread.start()

    def __enter__(self):
        return self

    def __exit__(self, *_):
        self.is_on = False
        with contextlib.suppress(OSError):
            self.go_away()

    def go_away(self):
        """From now on each connect is refused."""
        self.listener.shutdown(socket.SHUT_RDWR)
        self.listener.close()

    def come_back(self):
        host, port = self.address.rsplit(":", 1)
        self.listener = socket.create_server((host, int(port)), backlog=64)
        threading.Thread(target=self.accept, daemon=True).start()

    def cut(self):
        """Ends each connection that is carried now."""
        for end in self.carried:
            with contextlib.suppress(OSError):
                end.shutdown(socket.SHUT_RDWR)
        self.carried = []

    def accept(self):
        listener = self.listener
        while self.is_on:
            try:
                client, _ = listener.accept()
            except OSError:
                return
            self.accepted += 1
            threading.Thread(target=self.carry, args=(client,), daemon=True).start()

    def carry(self, client):
        try:
            server = socket.create_connection(self.target, 20)
        except OSError:
            client.close()
            return
        self.carried += [client, server]
        for end in (client, server):
            end.setsockopt(socket.IPPROTO_TCP, socket.TCP_NODELAY, 1)
        try:
            if self.between:
                self.carry_frames(client, server)
            else:
                self.carry_bytes(client, server, self.plan() if self.plan else None)
        except OSError:
            pass
        for end in (client, server):
            end.close()

    def carry_bytes(self, client, server, left):
        while self.is_on:
            for source in select.select([client, server], [], [], 1.0)[0]:
                target = server if source is client else client
                data = source.recv(65536)
                if not data:
                    return
                if left is not None and len(data) >= left:
                    target.sendall(data[:left])
                    self.cuts += 1
                    for end in (client, server):
                        end.setsockopt(socket.SOL_SOCKET, socket.SO_LINGER, struct.pack("ii", 1, 0))
                    return
                if left is not None:
                    left -= len(data)
                target.sendall(data)

    def carry_frames(self, client, server):
        pending, replies = b"", []
        while self.is_on:
            data = client.recv(65536)
            if not data:
                return
            pending += data
            while len(pending) >= 4 and len(pending) >= 4 + int.from_bytes(pending[:4], "big"):
                length = 4 + int.from_bytes(pending[:4], "big")
                frame, pending = pending[:length], pending[length:]
                carried = self.between(frame)
                if carried is None:
                    self.cuts += 1
                    return
                replies.append(
                    framed(carried) if isinstance(carried, Answer) else exchange(server, carried)
                )
            if not self.holds():
                client.sendall(b"".join(replies))
                replies = []


class Peer:
    """A proxy's rule: each request is answered with `body`, or carried out where that is None."""

    def __init__(self):
        self.body = None

    def __call__(self, frame):
        return frame if self.body is None else Answer(self.body)


def failing_over(service, operation, count, to=5):
    """A proxy's rule: before the `count`-th request of an operation the epoch ends, by an operator's failover."""
    left = [count]

    def between(frame):
        if frame[33] == operation:
            left[0] -= 1
            if left[0] == 0:
                with service.operator() as operator:
                    operator.failover(to)
        return frame

    return between


def framed(body):
    return struct.pack(">I", len(body)) + body


def exchange(server, frame):
    """Sends a frame, and returns the frame that answers it."""
    server.sendall(frame)
    head = exactly(server, 4)
    return head + exactly(server, int.from_bytes(head, "big"))


def random_plan(seed, least, most):
    """Cuts each connection after a random number of bytes."""
    numbers = random.Random(seed)
    return lambda: numbers.randrange(least, most)


@contextlib.contextmanager
def stopped(service):
    """A service that answers nothing for a while, each thread of which has stopped."""
    service.process.send_signal(signal.SIGSTOP)
    threads = pathlib.Path(f"/proc/{service.process.pid}/task")
    while any(") T" not in (thread / "stat").read_text() for thread in threads.iterdir()):
        time.sleep(0.01)
    try:
        yield
    finally:
        service.process.send_signal(signal.SIGCONT)
