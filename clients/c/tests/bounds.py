"""Peers that lie without end: each call ends, by its tries, its memory and its time. A proxy answers in the service's place, and what
it is asked is counted. Where a bound is taken out the peer ends the call after many more requests, and the test fails."""

import resource
import socket
import threading
import time

from binding import (
    DENIED,
    DONE,
    FENCED,
    IN_DOUBT,
    LOST,
    MALFORMED,
    SECONDARY,
    File,
    Log,
    blocks_of,
    numbered,
)
from check import run, same, true
from service import Answer, Proxy, Service, exactly, framed, wire
from wire_replies import denial

MANY = 3000
FAR = 1 << 40
MAGIC = b"plfile01"


def status(frame, end):
    """The body of a Status in the epoch that was asked in."""
    return b"\4" + frame[29:33] + wire.number(2, 4) + wire.number(end, 8) + bytes(16)


def mark(lsn, size, session=bytes(8)):
    return MAGIC + wire.number(lsn, 8) + wire.number(size, 8) + session + wire.number(1, 8)


def page(lsn, start=b""):
    return b"\2" + wire.number(lsn, 8) + start.ljust(8192, b"\0")


def blocks(first, count, records):
    return (
        b"\1"
        + wire.number(first + count, 8)
        + wire.number(count, 2)
        + b"".join(wire.frame(wire.block(lsn, records(lsn))) for lsn in range(first, first + count))
    )


class Liar:
    """A proxy's rule: a log that ends at `end`, with the newest end mark at `lsn` and a file of `size` bytes, and blocks without a mark
    behind it. After MANY requests of an operation it is denied."""

    def __init__(self, end, size=8192, lsn=1, records=lambda lsn: [(1, 0, b"a")], most=MANY):
        self.end, self.size, self.lsn, self.records, self.most = end, size, lsn, records, most
        self.seen, self.pages = {}, []

    def __call__(self, frame):
        operation = frame[33]
        self.seen[operation] = self.seen.get(operation, 0) + 1
        if self.seen[operation] > self.most:
            return Answer(denial("B0"))
        if operation == wire.STATUS:
            return Answer(status(frame, self.end))
        if operation == wire.GET:
            number, lsn = int.from_bytes(frame[34:38], "big"), int.from_bytes(frame[38:46], "big")
            self.pages.append(number)
            return Answer(page(lsn, self.mark(lsn) if number == 0 else b""))
        if operation == wire.PULL:
            first, most = int.from_bytes(frame[38:46], "big"), int.from_bytes(frame[46:48], "big")
            return Answer(blocks(first, most, self.records))
        return Answer(b"\0")

    def mark(self, lsn):
        return mark(self.lsn, self.size)


class Rising:
    """A proxy's rule: each request is denied, in an epoch that is one higher. After MANY of them there is no such database."""

    def __init__(self, pause=0.0):
        self.seen, self.pause, self.is_on = 0, pause, True

    def __call__(self, frame):
        if not self.is_on:
            return frame
        self.seen += 1
        time.sleep(self.pause)
        return Answer(denial("A2", 100 + self.seen) if self.seen <= MANY else b"\x09")


EACH_CALL = [
    ("status", lambda log: log.status(SECONDARY)[0]),
    ("get", lambda log: log.get(SECONDARY, 1, [1])[0]),
    ("pull", lambda log: log.pull(1)[0]),
    ("take over", lambda log: log.take_over()),
    ("join", lambda log: log.join()),
]


def test_epochs_that_rise_for_ever():
    """64 of them are gone after while there is patience, and two without any."""
    with Service() as service:
        for what, call in EACH_CALL:
            rule = Rising()
            with Proxy(service.address, between=rule) as proxy, Log(
                proxy.address, 2, patience_ms=600000
            ) as log:
                same(what, (FENCED, 65), (call(log), rule.seen))
            rule = Rising(pause=0.05)
            with Proxy(service.address, between=rule) as proxy, Log(
                proxy.address, 2, patience_ms=1
            ) as log:
                same(f"{what}, without patience", (FENCED, 3), (call(log), rule.seen))


def test_epochs_that_rise_while_the_history_is_compared():
    """After a reconnect: by 64 tries, or by the time of one reply."""
    for pause, reply_ms, least, most in ((0, 600000, 2, 64), (0.25, 1000, 1, 10)):
        rule = Rising(pause)
        rule.is_on = False
        with Service() as service, Proxy(service.address, between=rule) as proxy, Log(
            proxy.address, 2, reply_ms=reply_ms, patience_ms=1
        ) as log:
            same("take over", DONE, log.take_over())
            same("append", DONE, log.append(numbered(1, 1)))
            log.disconnect()
            rule.is_on = True
            same("status", LOST, log.status()[0])
            true(f"{rule.seen} tries", least <= rule.seen <= most)


class Drip:
    """A server that answers each request by a byte every 50 milliseconds, up to the last one."""

    def __init__(self, body):
        self.body, self.listener = body, socket.create_server(("127.0.0.1", 0))
        self.address = "%s:%d" % self.listener.getsockname()
        threading.Thread(target=self.serve, daemon=True).start()

    def __enter__(self):
        return self

    def __exit__(self, *_):
        self.listener.shutdown(socket.SHUT_RDWR)  # a close does not end an `accept`
        self.listener.close()

    def serve(self):
        while True:
            try:
                client, _ = self.listener.accept()
                with client:
                    while True:
                        frame = exactly(client, int.from_bytes(exactly(client, 4), "big"))
                        for byte in framed(self.body(b"\0\0\0\0" + frame)):
                            time.sleep(0.05)
                            client.sendall(bytes([byte]))
            except ConnectionError:
                continue
            except OSError:
                return


def test_a_reply_that_comes_by_a_byte():
    """8,205 bytes in seven minutes are no reply where 500 milliseconds are given; five come in time."""
    for what, body, reply_ms, outcome in (
        ("a page", lambda frame: page(1), 500, LOST),
        ("a refusal", lambda frame: b"\7", 300000, "audit list full"),
    ):
        with Drip(body) as peer, Log(peer.address, 3, reply_ms=reply_ms, patience_ms=1) as log:
            same(what, outcome, log.status(SECONDARY)[0])


def test_replies_that_nobody_asked_for_fill_no_memory():
    """A peer sends without end, and the first reply is a refusal: who looks for replies again and again keeps 16 MiB or so."""
    with socket.create_server(("127.0.0.1", 0)) as listener, Log(
        "%s:%d" % listener.getsockname(), 2, patience_ms=1
    ) as log:

        def serve():
            client, _ = listener.accept()
            with client:
                frame = lambda: b"\0\0\0\0" + exactly(
                    client, int.from_bytes(exactly(client, 4), "big")
                )
                frame()
                client.sendall(framed(b"\0"))
                client.sendall(framed(status(frame(), 0)))
                frame()
                try:
                    for _ in range(200):
                        client.sendall((1 << 20) * b"\xff")
                except ConnectionError:
                    pass

        thread = threading.Thread(target=serve)
        thread.start()
        same("take over", DONE, log.take_over())
        made = numbered(1, 1)
        true("sent", log.append_unwaited(made))
        received, quiet = log.counts.bytes_received, 0
        while quiet < 20:
            true("it is due or has not come", log.is_due() or log.counts.bytes_received == received)
            quiet = quiet + 1 if log.counts.bytes_received == received and received > 1000 else 0
            received = log.counts.bytes_received
            time.sleep(0.01)
        true(f"{received} bytes", received < 80 << 20)
        true("not done", log.append(made) in (MALFORMED, IN_DOUBT))
        log.disconnect()
        thread.join()


def test_a_follower_behind_a_log_without_end():
    """It takes the mark at the end that a Status has, and pulls nothing more, or what was there before it was asked."""
    for end, most in ((FAR, 1), (500, 33)):
        rule = Liar(1)
        with Service() as service, Proxy(service.address, between=rule) as proxy, File(
            proxy.address, 3, reads_only=True
        ) as file:
            same("open", DONE, file.open())
            rule.end = end
            same("begin", DONE, file.begin())
            true(f"{end} blocks: {rule.seen}", rule.seen[wire.PULL] <= most)


def test_a_pull_that_covers_many_lsns_without_a_block():
    """It is one pull."""
    rule, seen = Liar(1), []

    def between(frame):
        if frame[33] != wire.PULL:
            return rule(frame)
        seen.append(frame)
        first = int.from_bytes(frame[38:46], "big")
        return (
            Answer(b"\1" + wire.number(first + (1 << 26), 8) + b"\0\0")
            if len(seen) < MANY
            else None
        )

    with Service() as service, Proxy(service.address, between=between) as proxy, File(
        proxy.address, 3, reads_only=True, patience_ms=1
    ) as file, Log(proxy.address, 3, patience_ms=1) as log:
        same("open", DONE, file.open())
        rule.end = FAR
        same("begin", (DONE, 1), (file.begin(), len(seen)))
        outcome, reply = log.pull(1)
        same("pull", (DONE, [], 2), (outcome, blocks_of(reply), len(seen)))


def test_a_mark_of_a_huge_size():
    """It is refused where a log up to it cannot have so many pages, by a reader and by a writer; nothing is read or written."""
    for reads_only in (True, False):
        rule = Liar(1, size=8192 * ((1 << 32) - 1))
        with Service() as service, Proxy(service.address, between=rule) as proxy, File(
            proxy.address,
            3,
            reads_only=reads_only,
            operator=None if reads_only else 1,
            patience_ms=1,
        ) as file:
            same("open", MALFORMED, file.open())
            same("nothing more", (1, 0), (rule.seen[wire.GET], rule.seen.get(wire.WRITE, 0)))


def opened(rule, outcome=DONE):
    """A writer opens over a rule, and repairs what is behind the mark."""
    with Service() as service, Proxy(service.address, between=rule) as proxy, File(
        proxy.address, 2, operator=1, patience_ms=1
    ) as file:
        same("open", outcome, file.open())
        return file.state.repairs


def test_a_repair_of_blocks_without_end():
    """The file has three pages, which are compared; no block is pulled."""
    rule = Liar(FAR, size=3 * 8192)
    same("repairs", 1, opened(rule))
    same("pulls, pages", (0, {0, 1, 2, 3}), (rule.seen.get(wire.PULL, 0), set(rule.pages)))


def test_a_repair_of_many_pages():
    """Of a file of 2^27 pages 96,000 are touched, which are compared; or 1,152,000, or more blocks than are pulled, and all pages are
    compared, without a list of them. The peer denies it after 200 gets."""
    zeros = lambda lsn: [(1000 + 6000 * (lsn - 30000) + i,) for i in range(6000)]
    before = resource.getrusage(resource.RUSAGE_SELF).ru_maxrss
    for behind, first in ((16, 7000), (192, 1), (FAR, 1)):
        rule = Liar(30000 + behind, size=8192 << 27, lsn=30000, records=zeros, most=200)
        opened(rule, DENIED)
        same(f"{behind} blocks", first, next(number for number in rule.pages if number))
    grown = resource.getrusage(resource.RUSAGE_SELF).ru_maxrss - before
    true(f"{grown} KiB", grown < 400 << 10)


class Torn(Liar):
    """Its writer's commit is in doubt, its end mark is in the log, and its other blocks are not. Then each LSN has a mark of its session."""

    def __init__(self):
        super().__init__(0)
        self.session, self.is_cut = bytes(8), False

    def __call__(self, frame):
        if frame[33] == wire.WRITE and MAGIC in frame:
            self.session, self.is_cut = frame[frame.index(MAGIC) + 24 :][:8], True
            self.lsn = int.from_bytes(frame[frame.index(MAGIC) + 8 :][:8], "big")
        return (
            None
            if self.is_cut and frame[33] in (wire.WRITE, wire.REPORT)
            else super().__call__(frame)
        )

    def mark(self, lsn):
        if lsn == 0:
            return b""
        return mark(lsn if self.end == FAR else self.lsn, 3 * 8192, self.session)


def test_marks_of_a_torn_commit_without_end():
    """A writer looks for the last whole transaction, and gives up after 1,024 marks of its own."""
    rule = Torn()
    with Service() as service, Proxy(service.address, between=rule) as proxy, File(
        proxy.address, 2, operator=1, patience_ms=200
    ) as file:
        same("open", DONE, file.open())
        same("begin", DONE, file.begin())
        same("write", DONE, file.write(0, bytes(range(1, 251)) * 400))
        outcome = file.commit()
        same(f"commit: {file.words}", IN_DOUBT, outcome)
        rule.end = FAR
        before = rule.seen[wire.GET]
        same("begin", MALFORMED, file.begin())
        same("gets", True, 1024 <= rule.seen[wire.GET] - before <= 1100)


if __name__ == "__main__":
    run("bounds", globals())
