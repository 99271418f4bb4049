"""The wire, call by call, against the real service."""

import contextlib
import ctypes
import os
import random
import socket
import stat
import threading
import time

from binding import (
    CONFLICT,
    DENIED,
    DONE,
    FENCED,
    IN_DOUBT,
    LOST,
    MALFORMED,
    AUDIT_FULL,
    NO_SPIN,
    OPERATOR,
    PAGE_SERVER,
    PRIMARY,
    SECONDARY,
    Blocks,
    Log,
    blocks_of,
    encode,
    numbered,
    records_of,
    request,
    token,
)
from check import run, same, true
from service import Proxy, Service, START_TABLE, TABLE, failing_over, stopped, wire


def block_of(lsn, *records):
    return wire.block(lsn, list(records))


def test_requests_are_spelled_as_the_scripts_spell_them():
    cases = [
        (request(1, wire.WRITE, b"abc", copy=2), wire.PRIMARY, wire.WRITE, wire.write(2, b"abc")),
        (request(1, wire.OFFER, b"abc"), wire.PRIMARY, wire.OFFER, b"abc"),
        (request(1, wire.REPORT, lsn=1 << 48), wire.PRIMARY, wire.REPORT, wire.report(1 << 48)),
        (
            request(2, wire.GET, page=4294967295, lsn=7, exact=1),
            2,
            wire.GET,
            wire.get(4294967295, 7, 1),
        ),
        (
            request(2, wire.PULL, lo=1, hi=65535, lsn=9, max=16),
            2,
            wire.PULL,
            wire.pull(1, 65535, 9, 16),
        ),
        (request(3, wire.ADVANCE, partition=5, steps=1024), 3, wire.ADVANCE, wire.advance(5, 1024)),
        (request(4, wire.FAILOVER, to=7), 4, wire.FAILOVER, wire.failover(7)),
        (request(4, wire.SET_TABLE, b""), 4, wire.SET_TABLE, b""),
        (request(4, wire.AUDIT, lsn=1, max=1024), 4, wire.AUDIT, wire.audit(1, 1024)),
        *(
            (request(role, op), role, op, b"")
            for op in wire.WITHOUT_ARGUMENTS
            for role in wire.roles_of(op)
        ),
    ]
    same("each operation", set(wire.OPS), {op for _, _, op, _ in cases})
    for made, role, op, rest in cases:
        made.principal, made.epoch, made.database = 3, 9, 2
        made.token[:] = token(3)[:]
        same(f"operation {op}", wire.head(3, role, op, 9, 2) + rest, encode(made))
    wrong = [
        request(0, 7),
        request(5, 7),
        request(1, 0),
        request(1, wire.NO_OPERATION),
        request(1, 3, lsn=(1 << 48) + 1),
        request(2, 5, lo=2, hi=1, lsn=1, max=1),
        request(2, 5, lsn=0, max=1),
        request(2, 5, lsn=1, max=17),
        request(3, 6, steps=0),
        request(3, 6, steps=1025),
        request(4, 10, lsn=0, max=1),
        request(4, 10, lsn=1, max=1025),
        request(1, 4, exact=2),
        request(4, 9, b"x" * 65507),
    ]
    for made in wrong:
        same(f"out of range {made.operation}", b"", encode(made))


def test_each_operation_is_answered():
    table = TABLE.read_text() + '\n[[row]]\nverdict = "allow"\nwho = 3\nrole = "page_server"\n'
    with Service() as service, service.operator() as operator, Log(service.address, 2) as log, Log(
        service.address, 3
    ) as reader:
        operator.set_table(table)
        same("join", DONE, log.join())
        same("epoch", 1, log.writing_epoch)
        block = block_of(1, (0, 0, b"abc"), (65536, 8191, b"z"))
        for copy in (0, 2):
            same("write", DONE, log.ask(PRIMARY, wire.WRITE, block, copy=copy)[0])
        same("offer", DONE, log.ask(PRIMARY, wire.OFFER, block)[0])
        same("report", DONE, log.ask(PRIMARY, wire.REPORT, lsn=1)[0])
        outcome, status = log.status()
        same(
            "status",
            (DONE, 1, 2, 1, 1, 0),
            (outcome, status.epoch, status.primary, status.hard, status.pending, status.landing),
        )
        outcome, pages = reader.get(SECONDARY, 1, [0, 65536, 5])
        same(
            "pages",
            (DONE, b"abc" + bytes(8189), bytes(8191) + b"z", bytes(8192)),
            (outcome, *pages),
        )
        outcome, pulled = reader.pull(1)
        same("pull", (DONE, 2, [block]), (outcome, pulled.next, blocks_of(pulled)))
        outcome, pulled = reader.pull(2)
        same("pull at the end", (DONE, 2, 0), (outcome, pulled.next, pulled.count))
        same("advance", DONE, reader.ask(PAGE_SERVER, wire.ADVANCE, partition=1, steps=4)[0])
        outcome, page = reader.ask(SECONDARY, wire.GET, page=65536, lsn=0, exact=0)
        same("not exact", (DONE, 1), (outcome, page.at))
        with Log(service.address, 1) as admin:
            same("status of an operator", DONE, admin.status(OPERATOR)[0])
            for op in wire.WITHOUT_ARGUMENTS:
                same(f"operation {op}", DONE, admin.ask(OPERATOR, op)[0])
            outcome, entries = admin.ask(OPERATOR, wire.AUDIT, lsn=2, max=3)
            same("audit", (DONE, 3, 159), (outcome, entries.count, entries.length))
            same("set_table", DONE, admin.ask(OPERATOR, wire.SET_TABLE, TABLE.read_bytes())[0])
            same("failover", DONE, admin.ask(OPERATOR, wire.FAILOVER, to=5)[0])


def test_denials_have_their_outcomes():
    with Service() as service, Log(service.address, 2) as log, Log(
        service.address, 3
    ) as reader, Log(service.address, 1) as admin:
        same("join", DONE, log.join())
        reader.status(SECONDARY), admin.status(OPERATOR)
        one, other = block_of(1, (0, 0, b"a")), block_of(1, (0, 0, b"b"))
        write = lambda made, lsn=1, **more: log.ask(PRIMARY, wire.WRITE, made, **more)[0]
        same("write", DONE, write(one))
        same("C6", (CONFLICT, ("C6", 0)), (log.ask(PRIMARY, wire.REPORT, lsn=1)[0], log.row))
        same("C4", (CONFLICT, ("C4", 0)), (write(other, copy=1), log.row))
        same("C3", (CONFLICT, ("C3", 0)), (write(block_of(65, (0, 0, b"a"))), log.row))
        same("C5", (DENIED, ("C5", 0)), (write(one, copy=3), log.row))
        same("write", DONE, write(one, copy=1))
        same("report", DONE, log.ask(PRIMARY, wire.REPORT, lsn=1)[0])
        same("C2", (CONFLICT, ("C2", 1)), (write(one), log.row))
        same("C1", (DENIED, ("C1", 1)), (reader.get(SECONDARY, 2, [0])[0], reader.row))
        same("words", "denied: denied C1, value 1", reader.words)
        same("A5", (DENIED, ("A5", 0)), (reader.ask(SECONDARY, wire.TIDY)[0], reader.row))
        same("B0", (DENIED, ("B0", 0)), (reader.ask(PAGE_SERVER, wire.STATUS)[0], reader.row))
        same("C7", (DENIED, ("C7", 1)), (admin.ask(OPERATOR, wire.SET_TABLE, b"\0")[0], admin.row))
        same("C8", (DENIED, ("C8", 0)), (admin.ask(OPERATOR, wire.FAILOVER, to=99)[0], admin.row))
        with Log(service.address, 2, key=token(9)) as unknown:
            same("A1", (DENIED, ("A1", 0)), (unknown.status()[0], unknown.row))
        with Log(service.address, 2, database=1) as nowhere:
            same(
                "no database", (DENIED, "denied: no database"), (nowhere.status()[0], nowhere.words)
            )
        same("malformed", MALFORMED, write(b"\0" * 12))
        same("its words", "malformed: fault 8 of the request", log.words)
        same("failover", DONE, admin.ask(OPERATOR, wire.FAILOVER, to=5)[0])
        same("A2", (FENCED, ("A2", 2)), (log.status()[0], log.row))
        same("epochs", (2, 1), (log.epoch, log.writing_epoch))
        same("A4", (FENCED, ("A4", 0)), (log.join(), log.row))
        same("a secondary takes it over", (DONE, 2), (reader.status(SECONDARY)[0], reader.epoch))


def test_replies_come_in_order():
    """A thousand requests of four kinds in flight: each reply is that of its own request."""
    with Service() as service, Log(service.address, 2) as log:
        same("join", DONE, log.join())
        same("append", DONE, log.append(numbered(1, 60)))
        numbers, wanted = random.Random(1), []
        for _ in range(1000):
            lsn = numbers.randrange(1, 61)
            kind = numbers.randrange(4)
            if kind == 0:
                log.send(request(PRIMARY, wire.GET, page=0, lsn=lsn, exact=1))
            elif kind == 1:
                log.send(request(SECONDARY, wire.PULL, hi=65535, lsn=lsn, max=1))
            elif kind == 2:
                log.send(request(PRIMARY, wire.STATUS))
            else:
                log.send(request(PRIMARY, wire.WRITE, block_of(61, (0, 0, b"x")), copy=3))
            wanted.append((kind, lsn))
        same("in flight", 1000, log.in_flight())
        for kind, lsn in wanted:
            outcome, reply = log.receive()
            same("kind", [2, 1, 4, 5][kind], reply.kind)
            if kind == 0:
                same("page", (lsn, lsn.to_bytes(8, "big")), (reply.at, reply.data()[:8]))
            if kind == 1:
                same("block", lsn, records_of(blocks_of(reply)[0])[0])
        same("nothing in flight", (MALFORMED, 0), (log.receive()[0], log.in_flight()))
        for _ in range(1024):
            same("send", DONE, log.send(request(PRIMARY, wire.STATUS)))
        same("one too many", MALFORMED, log.send(request(PRIMARY, wire.STATUS)))
        for _ in range(1024):
            same("receive", DONE, log.receive()[0])


def test_big_requests_and_big_replies_pass_each_other():
    """More is in flight in both directions than the sockets hold: neither side may wait for the other for ever."""
    with Service() as service, Log(service.address, 2) as log, service.operator() as operator:
        same("join", DONE, log.join())
        blocks = Blocks(1)
        for page in range(60):
            same("put", DONE, blocks.put(page, 0, bytes([page + 1]) * 8192))
        blocks.end()
        same("append", DONE, log.append(blocks))
        big = block_of(log.end + 1, *[(page, 0, b"y" * 8000) for page in range(4)])
        for i in range(25):
            log.send(request(SECONDARY, wire.PULL, hi=65535, lsn=1, max=8))
            for _ in range(5):
                log.send(request(PRIMARY, wire.WRITE, big, copy=i % 3))
        kinds = [log.receive()[1].kind for _ in range(150)]
        same("kinds", [1, 0, 0, 0, 0, 0] * 25, kinds)


def test_blocks_are_cut_where_they_are_full():
    numbers = random.Random(2)
    for _ in range(30):
        blocks, wanted = Blocks(5), {}
        for _ in range(numbers.randrange(1, 60)):
            page = numbers.choice([0, 1, 2, 65536, 65537, 131072 + numbers.randrange(3) * 65536])
            offset = numbers.randrange(8192)
            data = numbers.randbytes(numbers.randrange(1, 8193 - offset))
            bytes_of_page = wanted.setdefault(page, bytearray(8192))
            if numbers.random() < 0.1:
                same("zero", DONE, blocks.zero(page))
                bytes_of_page[:] = bytes(8192)
            same("put", DONE, blocks.put(page, offset, data))
            bytes_of_page[offset : offset + len(data)] = data
        blocks.end()
        found = {}
        all_blocks = blocks.all()
        for i, block in enumerate(all_blocks):
            lsn, records = records_of(block)
            same("lsn", 5 + i, lsn)
            same("spelling", wire.block(lsn, records), block)
            true("full", len(block) > 32768 - 80 or i == len(all_blocks) - 1)
            for page, *put in records:
                at = found.setdefault(page, bytearray(8192))
                at[:] = (
                    bytes(8192) if not put else at[: put[0]] + put[1] + at[put[0] + len(put[1]) :]
                )
        same("pages", wanted, found)
    same("ranges", [MALFORMED] * 2, [blocks.put(0, 0, b""), blocks.put(0, 1, bytes(8192))])


def test_blocks_that_are_dropped():
    """Those after them stay, and the one that is being filled, whatever partitions it touches."""
    numbers = random.Random(4)
    for _ in range(30):
        blocks, whole, dropped = Blocks(5), Blocks(5), 0
        for _ in range(numbers.randrange(1, 80)):
            page, data = numbers.choice([1, 2, 65536, 200000]), numbers.randbytes(
                numbers.randrange(1, 2000)
            )
            same("put", [DONE] * 2, [made.put(page, 7, data) for made in (blocks, whole)])
            if numbers.random() < 0.1:
                same("end", [DONE] * 2, [made.end() for made in (blocks, whole)])
            if numbers.random() < 0.2:
                count = numbers.randrange(len(blocks.all()) + 1)
                blocks.drop(count)
                dropped += count
        same("end", [DONE] * 2, [made.end() for made in (blocks, whole)])
        same("blocks", whole.all()[dropped:], blocks.all())


def test_differences_make_the_new_page():
    numbers = random.Random(3)
    for _ in range(200):
        old = bytearray(numbers.randbytes(8192) if numbers.random() < 0.5 else bytes(8192))
        new = bytearray(old)
        for _ in range(numbers.choice([0, 1, 3, 40])):
            at = numbers.randrange(8192)
            piece = numbers.randbytes(numbers.randrange(1, 30))[: 8192 - at]
            new[at : at + len(piece)] = piece
        blocks = Blocks(1)
        same("difference", DONE, blocks.difference(7, bytes(old), bytes(new)))
        blocks.end()
        puts = [record for block in blocks.all() for record in records_of(block)[1]]
        for page, offset, data in puts:
            old[offset : offset + len(data)] = data
            true("ends differ", data)
        same("page", new, old)
        for (_, offset, data), (_, after, _) in zip(puts, puts[1:]):
            true("a gap that is worth a head", after - offset - len(data) > 9)


def test_appends_are_in_the_log():
    """One block, a window, more than a window, in two copies and in three: just these blocks, and one round trip for 64."""
    with Service() as service, Log(service.address, 2) as log, Log(service.address, 3) as reader:
        same("take over", DONE, log.take_over())
        wanted = []
        for count, copies in ((1, 2), (1, 3), (2, 2), (64, 2), (64, 3), (65, 2), (200, 3)):
            blocks = numbered(log.end + 1, count, size=700)
            wanted += blocks.all()
            before = log.counts
            same("append", DONE, log.append(blocks, copies))
            after = log.counts
            same("end", len(wanted), log.end)
            same("round trips", -(-count // 64), after.round_trips - before.round_trips)
            same("requests", count * copies + -(-count // 64), after.requests - before.requests)
        found, lsn = [], 1
        while len(found) < len(wanted):
            outcome, pulled = reader.pull(lsn)
            same("pull", DONE, outcome)
            found += blocks_of(pulled)
            lsn = pulled.next
        same("log", wanted, found)
        same("a wrong LSN", MALFORMED, log.append(numbered(log.end + 2, 1)))
        same("one copy", MALFORMED, log.append(numbered(log.end + 1, 1), 1))
        same("no blocks", DONE, log.append(Blocks(log.end + 1)))


class Seen:
    """A rule for a proxy: it counts the writes that pass, and cuts the connection at one of them."""

    def __init__(self, cut=None):
        self.writes, self.cut = 0, cut

    def __call__(self, frame):
        if frame[33] != wire.WRITE:
            return frame
        self.writes += 1
        return None if self.writes == self.cut else frame

    def wait(self, writes):
        end = time.monotonic() + 60
        while self.writes < writes and time.monotonic() < end:
            time.sleep(0.001)
        same("writes", writes, self.writes)


def blocks_ahead(log, seen, first, count, early):
    """Blocks that are made one by one, and sent ahead at each number in `early`; those writes have come to the proxy."""
    blocks, before = Blocks(first), seen.writes
    for number in range(1, count + 1):
        same("put", DONE, blocks.put(number, 0, b"%d" % number))
        blocks.end()
        if number in early:
            log.append_ahead(blocks)
            seen.wait(before + 2 * min(number, 64))
    return blocks


def test_blocks_that_are_sent_ahead():
    """Their writes come to the service before the append, which sends the others: each once, and all in one round trip."""
    seen, wanted = Seen(), []
    with Service() as service, Log(service.address, 3) as reader, Proxy(
        service.address, between=seen
    ) as proxy, Log(proxy.address, 2) as log:
        same("take over", DONE, log.take_over())
        for count, early in ((1, [1]), (3, [1, 2]), (3, [2]), (70, [5, 64, 66]), (2, [])):
            before, trips = seen.writes, log.counts.round_trips
            blocks = blocks_ahead(log, seen, log.end + 1, count, early)
            same("append", (DONE, len(wanted) + count), (log.append(blocks), log.end))
            wanted += blocks.all()
            same("writes", 2 * count, seen.writes - before)
            same("round trips", -(-count // 64), log.counts.round_trips - trips)
        found = []
        while len(found) < len(wanted):
            found += blocks_of(reader.pull(len(found) + 1)[1])
        same("log", wanted, found)


def make_small(address):
    """The sockets of this process that are connected to an address hold little from now on."""
    host, port = address.rsplit(":", 1)
    for number in map(int, os.listdir("/proc/self/fd")):
        try:
            if not stat.S_ISSOCK(os.fstat(number).st_mode):
                continue
            with socket.socket(fileno=os.dup(number)) as end:
                if end.getpeername() == (host, int(port)):
                    end.setsockopt(socket.SOL_SOCKET, socket.SO_SNDBUF, 65536)
        except OSError:
            pass


def test_blocks_ahead_that_do_not_all_go_at_once():
    """The service reads nothing before all were sent ahead, and the sockets do not hold them."""
    may_go = threading.Event()

    def held(frame):
        if frame[33] == wire.WRITE:
            may_go.wait(60)
        return frame

    with Service() as service, Log(service.address, 3) as reader, Proxy(
        service.address, between=held
    ) as proxy, Log(proxy.address, 2) as log:
        same("take over", DONE, log.take_over())
        make_small(proxy.address)
        before, numbers, blocks = log.counts.bytes_sent, random.Random(5), Blocks(1)
        for number in range(40):
            for page in range(4):
                same("put", DONE, blocks.put(page, 0, numbers.randbytes(8000)))
            blocks.end()
            log.append_ahead(blocks)
        same("blocks", (40, 80), (len(blocks.all()), log.in_flight()))
        true(
            "not all of them went", log.counts.bytes_sent - before < 2 * sum(map(len, blocks.all()))
        )
        may_go.set()
        same("append", (DONE, 40), (log.append(blocks), log.end))
        found = []
        while len(found) < 40:
            found += blocks_of(reader.pull(len(found) + 1)[1])
        same("log", blocks.all(), found)


def test_blocks_ahead_that_are_given_up():
    """Nothing else is asked meanwhile, and afterwards nothing is appended before an epoch of its own."""
    seen = Seen()
    with Service() as service, Proxy(service.address, between=seen) as proxy, Log(
        proxy.address, 2
    ) as log:
        same("take over", DONE, log.take_over())
        blocks = blocks_ahead(log, seen, 1, 2, [2])
        same("in flight", (4, MALFORMED), (log.in_flight(), log.status()[0]))
        same("another number of copies", MALFORMED, log.append(blocks, 3))
        log.disconnect()
        same("given up", (0, CONFLICT), (log.in_flight(), log.append(blocks)))
        log.append_ahead(blocks)
        same("not once more", (0, 4), (log.in_flight(), seen.writes))
        same("take over", DONE, log.take_over())
        same("append", DONE, log.append(numbered(log.end + 1, 1)))


def test_blocks_ahead_whose_connection_is_lost():
    for cut in range(1, 5):
        seen = Seen(cut)
        with Service() as service, Log(service.address, 3) as reader, Proxy(
            service.address, between=seen
        ) as proxy, Log(proxy.address, 2) as log:
            same("take over", DONE, log.take_over())
            blocks = Blocks(1)
            for page in range(3):
                same("put", DONE, blocks.put(page, 0, b"%d" % page))
                blocks.end()
                log.append_ahead(blocks)
                if page == 1:
                    seen.wait(cut)
            same("append", (DONE, 3), (log.append(blocks), log.end))
            same("log", blocks.all(), blocks_of(reader.pull(1)[1]))
            same("cuts", 1, proxy.cuts)


def test_blocks_ahead_of_an_epoch_that_ends():
    """The failover hardens the block that was sent ahead; the last block is not in the log."""
    seen = Seen()

    def ends_at_the_third(frame):
        if seen(frame) and frame[33] == wire.WRITE and seen.writes == 3:
            operator.failover(5)
        return frame

    with Service() as service, service.operator() as operator, Log(
        service.address, 3
    ) as reader, Proxy(service.address, between=ends_at_the_third) as proxy, Log(
        proxy.address, 2
    ) as log:
        same("take over", DONE, log.take_over())
        blocks = blocks_ahead(log, seen, 1, 1, [1])
        same("put", DONE, blocks.put(9, 0, b"last"))
        blocks.end()
        same("fenced", (FENCED, "A2"), (log.append(blocks), log.row[0]))
        same("log", blocks.all()[:1], blocks_of(reader.pull(1)[1]))


def pulled(reader, count):
    """The first `count` blocks of the log, once they are there."""
    found = []
    while len(found) < count:
        found += blocks_of(reader.pull(len(found) + 1)[1])
    return found


def add_block(blocks, page):
    same("put", DONE, blocks.put(page, 0, b"%d" % page))
    blocks.end()


def test_appends_that_nobody_waits_for():
    """They come into the log by themselves, one after the other; the append after them asks nothing twice, and waits once."""
    seen, wanted = Seen(), []
    with Service() as service, Log(service.address, 3) as reader, Proxy(
        service.address, between=seen
    ) as proxy, Log(proxy.address, 2) as log:
        same("take over", DONE, log.take_over())
        for count in (1, 5, 64):
            blocks, before, trips = Blocks(log.end + 1), seen.writes, log.counts.round_trips
            for page in range(count):
                add_block(blocks, page)
                true("sent", log.append_unwaited(blocks))
            same(
                "in the log, and nobody asked",
                wanted + blocks.all(),
                pulled(reader, len(wanted) + count),
            )
            while log.in_flight() > 0:
                same("all is well", False, log.is_due())
            true("all have come", log.is_answered())
            same("once more", (True, 0), (log.append_unwaited(blocks), log.in_flight()))
            wanted += blocks.all()
            same("append", (DONE, len(wanted)), (log.append(blocks), log.end))
            same("writes", 2 * count, seen.writes - before)
            same("round trips", 0, log.counts.round_trips - trips)
        blocks = numbered(log.end + 1, 65)
        same("more than a window", (False, 0), (log.append_unwaited(blocks), log.in_flight()))
        same("append", DONE, log.append(blocks))
        blocks = Blocks(log.end + 1)
        add_block(blocks, 1)
        true("sent", log.append_unwaited(blocks))
        same(
            "nothing else meanwhile",
            (MALFORMED, MALFORMED),
            (log.append(blocks, 3), log.status()[0]),
        )
        add_block(blocks, 2)
        log.append_ahead(blocks)
        add_block(blocks, 3)
        same("a report in the midst", (DONE, len(wanted) + 68), (log.append(blocks), log.end))
        log.disconnect()
        blocks = numbered(log.end + 1, 1)
        same("no connection", (False, DONE), (log.append_unwaited(blocks), log.append(blocks)))


def test_appends_that_nobody_waits_for_and_lost_connections():
    """Cut at each of their requests, the replies before it read or not: the append puts all of them into the log, once each."""
    for cut in range(1, 10):
        for reads in (False, True):
            left = [None]

            def between(frame):
                if left[0] is None or frame[33] not in (wire.WRITE, wire.REPORT):
                    return frame
                left[0] -= 1
                return None if left[0] == 0 else frame

            with Service() as service, Log(service.address, 3) as reader, Proxy(
                service.address, between=between
            ) as proxy, Log(proxy.address, 2) as log:
                same("take over", DONE, log.take_over())
                left[0], blocks = cut, Blocks(1)
                for page in range(3):
                    add_block(blocks, page)
                    log.append_unwaited(blocks)
                    while reads and log.in_flight() > 0 and not log.is_due():
                        pass
                same(f"append, cut at {cut}", (DONE, 3), (log.append(blocks), log.end))
                same("log", blocks.all(), pulled(reader, 3))
                same("cuts", 1, proxy.cuts)


def test_appends_that_nobody_waits_for_and_an_epoch_that_ends():
    """Before any one of their requests. What was in two copies is in the log, as the append reports, and what was not is not."""
    for ends in range(1, 11):
        left = [None]

        def between(frame):
            if left[0] is not None:
                left[0] -= 1
                if left[0] == 0:
                    operator.failover(5)
            return frame

        with Service() as service, service.operator() as operator, Log(
            service.address, 3
        ) as reader, Proxy(service.address, between=between) as proxy, Log(proxy.address, 2) as log:
            same("take over", DONE, log.take_over())
            left[0], blocks = ends, Blocks(1)
            for page in range(3):
                add_block(blocks, page)
                true("sent", log.append_unwaited(blocks))
            if ends < 10:
                while not log.is_due():
                    same("a refusal is no answer", False, log.is_answered())
            kept = min((ends - 1) // 3 + (ends % 3 == 0), 3)
            wanted = (DONE, 3) if kept == 3 else (FENCED, "A2")
            outcome = log.append(blocks)
            same(
                f"append, over before request {ends}",
                wanted,
                (outcome, log.end if outcome == DONE else log.row[0]),
            )
            if ends == 10:
                operator.failover(5)
            same("log", blocks.all()[:kept], blocks_of(reader.pull(1)[1]))


class Asked:
    """A rule for a proxy: it keeps the operation of each request, and cuts the connection at one of them."""

    def __init__(self):
        self.operations, self.cut = [], None

    def __call__(self, frame):
        self.operations.append(frame[33])
        return None if frame[33] == self.cut else frame


def appended(log, how):
    """A block that is appended in some way."""
    blocks = numbered(log.end + 1, 1)
    if how == "ahead":
        log.append_ahead(blocks)
    if how in ("unwaited", "looked for"):
        true("sent", log.append_unwaited(blocks))
    while how == "looked for" and not log.is_answered():
        same("all is well", False, log.is_due())
    return log.append(blocks)


def test_tidying_up():
    """It asks two things, or one where there is no operator. Whatever comes next has the reply to its own request, and the log
    and its end are as before."""
    asked = Asked()
    calls = [
        ("status", lambda log: log.status()[0]),
        ("gets", lambda log: log.get(PRIMARY, log.end, [0] * 70)[0]),
        ("pull", lambda log: log.pull(1, 1)[0]),
        ("take over", lambda log: log.take_over()),
    ]
    calls += [
        (how, lambda log, how=how: appended(log, how))
        for how in ("at once", "ahead", "unwaited", "looked for")
    ]
    with Service() as service, service.operator() as operator, Log(
        service.address, 3
    ) as reader, Proxy(service.address, between=asked) as proxy, Log(proxy.address, 2) as log:
        same("take over", DONE, log.take_over())
        same("append", DONE, log.append(numbered(1, 5)))
        for what, call in calls:
            for who in (1, None):
                before, requests, end = len(asked.operations), log.counts.requests, log.end
                log.tidy_up(who)
                same(
                    f"before {what}",
                    (0, requests + (2 if who else 1)),
                    (log.in_flight(), log.counts.requests),
                )
                same(what, (DONE, 0), (call(log), log.in_flight()))
                same(f"{what}: replies", log.counts.requests, log.counts.replies)
                same(
                    f"{what}: asked",
                    [wire.REPORT, wire.TIDY][: 2 if who else 1],
                    asked.operations[before : before + (2 if who else 1)],
                )
                same(
                    f"{what}: end",
                    end + (what in ("at once", "ahead", "unwaited", "looked for")),
                    log.end,
                )
        same("log", numbered(1, log.end).all()[5:], pulled(reader, log.end)[5:])
        same("none was refused", 0, log.refused.kind)
        operator.status()
        same("tidied", len(calls), sum(line[25] == wire.TIDY for line in lines_of(operator)))
        trips = log.counts.round_trips
        log.tidy_up()
        log.disconnect()
        same("no wait for it", trips, log.counts.round_trips)


def lines_of(operator):
    """The lines of the audit list."""
    found = []
    while True:
        reply = operator.ask(wire.AUDIT, wire.audit(len(found) + 1, 1024))
        lines = [reply[at : at + 53] for at in range(3, len(reply), 53)]
        found += lines
        if len(lines) < 1024:
            return found


def test_where_nothing_is_tidied():
    """Without a connection, before a writer has an epoch, while something is in flight, and after an append that was given up."""
    with Service() as service, Log(service.address, 2) as log, Log(service.address, 3) as reader:
        log.tidy_up()
        same("not connected", 0, log.counts.requests)
        same("join", DONE, log.join())
        same("status", DONE, reader.status(SECONDARY)[0])
        before = reader.counts.requests
        reader.tidy_up()
        same("a reader", before, reader.counts.requests)
        same("send", DONE, log.send(request(PRIMARY, wire.STATUS)))
        before = log.counts.requests
        log.tidy_up()
        same("in flight", (before, 1), (log.counts.requests, log.in_flight()))
        same("its reply", (DONE, 4), (lambda outcome, reply: (outcome, reply.kind))(*log.receive()))
        log.tidy_up()
        log.tidy_up()
        same("once", before + 2, log.counts.requests)
        blocks = numbered(1, 2)
        log.append_ahead(blocks)
        before = log.counts.requests
        log.tidy_up()
        same("blocks ahead", (before, 4), (log.counts.requests, log.in_flight()))
        log.disconnect()
        same("given up", CONFLICT, log.append(blocks))
        same("status", DONE, log.status()[0])
        before = log.counts.requests
        log.tidy_up()
        same("stuck", before, log.counts.requests)


def test_tidying_up_and_lost_connections():
    """Cut at the report or the tidy: the next append is done, and each block is in the log once."""
    for cut in (wire.REPORT, wire.TIDY):
        for how in ("at once", "ahead", "unwaited"):
            asked = Asked()
            with Service() as service, Log(service.address, 3) as reader, Proxy(
                service.address, between=asked
            ) as proxy, Log(proxy.address, 2) as log:
                same("take over", DONE, log.take_over())
                same("append", DONE, log.append(numbered(1, 3)))
                asked.cut = cut
                log.tidy_up()
                while proxy.cuts == 0:
                    time.sleep(0.001)
                asked.cut = None
                blocks = numbered(4, 1)
                if how == "ahead":
                    log.append_ahead(blocks)
                if how == "unwaited":
                    log.append_unwaited(blocks)
                same(f"append {how}", (DONE, 4), (log.append(blocks), log.end))
                same("log", numbered(1, 4).all(), blocks_of(reader.pull(1)[1]))


def test_tidying_up_after_the_epoch():
    """It ends before the report or before the tidy: the next append learns of it, and nothing comes into the log."""
    for operation, count in ((wire.REPORT, 2), (wire.TIDY, 1)):
        with Service() as service, Log(service.address, 3) as reader, Proxy(
            service.address, between=failing_over(service, operation, count)
        ) as proxy, Log(proxy.address, 2) as log:
            same("take over", DONE, log.take_over())
            same("append", DONE, log.append(numbered(1, 3)))
            log.tidy_up()
            same("fenced", (FENCED, ("A2", 3)), (log.append(numbered(4, 1)), log.row))
            same("epochs", (2, 3), (log.writing_epoch, log.epoch))
            same("log", 3, len(blocks_of(reader.pull(1)[1])))


def test_an_old_writer_is_fenced():
    with Service() as service, Log(service.address, 2) as old, Log(
        service.address, 5
    ) as new, service.operator() as operator:
        same("old", DONE, old.take_over())
        same("append", DONE, old.append(numbered(1, 3)))
        same("new", DONE, new.take_over())
        same("its end", 3, new.end)
        same("fenced", (FENCED, ("A2", 3)), (old.append(numbered(4, 2)), old.row))
        same("nothing", 3, operator.status()[2])
        same("append", DONE, new.append(numbered(4, 2)))
        same("still fenced", FENCED, old.append(numbered(4, 1)))
        same("not asked for", FENCED, old.take_over(expected=2))
        same("asked for", DONE, old.take_over())
        same("append", DONE, old.append(numbered(6, 1)))
        same("end", 6, operator.status()[2])


def test_a_failover_that_was_lost_takes_nobody_elses_epoch():
    """Its reply is lost, or it is not even sent, and then another writer begins the epoch after: that one keeps it. What the
    lost one has begun itself is taken over."""
    for who, is_sent, is_carried in (
        (5, False, False),
        (2, False, False),
        (5, True, False),
        (5, True, True),
        (None, True, True),
    ):
        with Service() as service, service.operator() as operator:
            is_cut = [False]

            def between(frame):
                if not is_cut[0]:
                    return frame
                is_cut[0] = False
                proxy.go_away()
                if is_carried:
                    operator.carry(frame)
                return None

            with Proxy(service.address, between=between) as proxy, Log(
                proxy.address, 2, patience_ms=100
            ) as old, Log(service.address, who or 5) as new:
                same(
                    "old",
                    (DONE, DONE, 2),
                    (old.take_over(), old.append(numbered(1, 1)), old.writing_epoch),
                )
                if is_sent:
                    is_cut[0] = True
                else:
                    old.disconnect()
                    proxy.go_away()
                same("away", LOST, old.take_over(expected=2))
                if who:
                    same("new", (DONE, DONE), (new.take_over(), new.append(numbered(2, 1))))
                proxy.come_back()
                before = operator.status()[0]
                if who:
                    same(
                        f"after {who, is_sent, is_carried}",
                        (FENCED, before),
                        (old.take_over(expected=2), operator.status()[0]),
                    )
                    same("new goes on", DONE, new.append(numbered(3, 1)))
                else:
                    same(
                        "its own",
                        (DONE, DONE),
                        (old.take_over(expected=2), old.append(numbered(2, 1))),
                    )


def test_blocks_in_two_copies_are_in_the_log_when_their_report_is_denied():
    for copies in (2, 3):
        with Service() as service, Proxy(
            service.address, between=failing_over(service, wire.REPORT, 1, 5)
        ) as proxy, Log(proxy.address, 2) as log, Log(service.address, 3) as reader:
            same("take over", DONE, log.take_over())
            blocks = numbered(1, 3)
            same("in the log", (DONE, 3), (log.append(blocks, copies), log.end))
            same("log", blocks.all(), blocks_of(reader.pull(1)[1]))
            same("then fenced", (FENCED, ("A2", 3)), (log.append(numbered(4, 1)), log.row))


def test_a_block_in_one_copy_is_never_in_the_log():
    """The epoch ends before each of the writes of three blocks in turn."""
    for write in range(1, 7):
        with Service() as service, Log(service.address, 3) as reader:
            with Proxy(
                service.address, between=failing_over(service, wire.WRITE, write, 5)
            ) as proxy, Log(proxy.address, 2) as log:
                same("take over", DONE, log.take_over())
                blocks = numbered(1, 3)
                same("fenced", (FENCED, ("A2", 3)), (log.append(blocks), log.row))
            same("log", blocks.all()[: (write - 1) // 2], blocks_of(reader.pull(1)[1]))


def test_lost_replies_are_made_up_for_by_a_look():
    """The connection is lost after 0 to 7 of the requests of three blocks, and then the epoch ends: what was carried before in
    two copies is in the log, and nothing else; the client knows it by a look in the new epoch."""
    for carried in range(0, 8):
        with Service() as service, Log(service.address, 3) as reader:
            left, is_over = [carried], [False]

            def between(frame):
                if is_over[0] or frame[33] not in (wire.WRITE, wire.REPORT):
                    return frame
                left[0] -= 1
                if left[0] >= 0:
                    return frame
                with service.operator() as operator:
                    operator.failover(5)
                is_over[0] = True
                return None

            blocks = numbered(1, 3)
            with Proxy(service.address, between=between) as proxy, Log(proxy.address, 2) as log:
                same("take over", DONE, log.take_over())
                outcome = log.append(blocks)
                in_log = blocks_of(reader.pull(1)[1])
                same("log", blocks.all()[: carried // 2], in_log)
                if carried < 7:
                    same(f"after {carried}", DONE if carried == 6 else FENCED, outcome)


def test_a_lost_report_is_repeated():
    """The connection is lost at the report, once before it was carried and once after it: all blocks are in the log, and
    the log ends where the client says."""
    for is_carried in (False, True):
        with Service() as service, service.operator() as operator, Log(
            service.address, 3
        ) as reader:
            lost = [False]

            def between(frame):
                if frame[33] != wire.REPORT or lost[0]:
                    return frame
                lost[0] = True
                if is_carried:
                    operator.carry(frame)
                return None

            with Proxy(service.address, between=between) as proxy, Log(proxy.address, 2) as log:
                same("take over", DONE, log.take_over())
                for first in (1, 9):
                    blocks = numbered(first, 8)
                    same("append", DONE, log.append(blocks))
                    same("end", (first + 7, first + 7), (log.end, operator.status()[2]))
                    same("log", blocks.all(), blocks_of(reader.pull(first)[1]))
                true("was lost", proxy.cuts == 1)


def test_a_report_that_is_not_allowed_leaves_doubt():
    denied = TABLE.read_text().replace(
        "[[row]]", '[[row]]\nverdict = "deny"\nwho = 2\nop = ["report"]\n\n[[row]]', 1
    )
    with Service() as service, service.operator() as operator, Log(service.address, 2) as log:
        same("take over", DONE, log.take_over())
        operator.set_table(denied)
        same("in doubt", (IN_DOUBT, ("B1", 0)), (log.append(numbered(1, 1)), log.row))
        same("stuck", CONFLICT, log.append(numbered(1, 1)))
        same("not yet", 0, operator.status()[2])
        operator.set_table(TABLE.read_text())
        same("take over", DONE, log.take_over(expected=log.writing_epoch))
        same("the failover hardened it", 1, log.end)
        same("append", DONE, log.append(numbered(2, 1)))


def test_another_writer_of_the_epoch_is_a_conflict():
    with Service() as service, Log(service.address, 2) as one, Log(service.address, 2) as two, Log(
        service.address, 2
    ) as third:
        for log in (one, two, third):
            same("join", DONE, log.join())
        write = block_of(1, (3, 0, b"other"))
        same("its write", DONE, one.ask(PRIMARY, wire.WRITE, write, copy=1)[0])
        same("C4", (CONFLICT, ("C4", 0)), (two.append(numbered(1, 1)), two.row))
        same("its write", DONE, one.ask(PRIMARY, wire.WRITE, write, copy=0)[0])
        same("report", DONE, one.ask(PRIMARY, wire.REPORT, lsn=1)[0])
        same("C2", (CONFLICT, ("C2", 1)), (third.append(numbered(1, 1)), third.row))
        same("what is there", (DONE, 1), (third.status()[0], third.end))
        same("append", DONE, third.append(numbered(2, 1)))


def test_an_append_after_the_same_blocks_is_done():
    """What an earlier connection left behind is hardened by the same append: C2 for blocks that are its own."""
    with Service() as service, Log(service.address, 2) as log, Log(service.address, 2) as other:
        same("take over", DONE, log.take_over())
        other.status(SECONDARY)
        same("join", DONE, other.join())
        blocks = numbered(1, 5)
        same("append", DONE, log.append(blocks))
        same("the same again", MALFORMED, log.append(blocks))
        late = numbered(6, 4)

        def between(frame):
            if frame[33] == wire.WRITE:
                for block in late.all():
                    for copy in (0, 1):
                        other.ask(PRIMARY, wire.WRITE, block, copy=copy)
                other.ask(PRIMARY, wire.REPORT, lsn=9)
            return frame

        with Proxy(service.address, between=between) as proxy, Log(proxy.address, 2) as third:
            third.status(SECONDARY)
            same("join", DONE, third.join())
            same("done", (DONE, 9), (third.append(late), third.end))


def test_a_full_audit_list():
    with Service(audit=40) as service, Log(service.address, 2) as log:
        same("take over", DONE, log.take_over())
        outcomes = [log.append(numbered(log.end + 1, 1)) for _ in range(20)]
        true("first done", outcomes[0] == DONE)
        true(
            "then full",
            AUDIT_FULL in outcomes
            and set(outcomes[outcomes.index(AUDIT_FULL) :]) <= {AUDIT_FULL, CONFLICT},
        )
        same("status", AUDIT_FULL, log.status()[0])


def test_a_service_that_was_restarted():
    with Service() as service:
        address = service.address
        with Log(address, 2) as log, Log(address, 3) as reader:
            same("take over", DONE, log.take_over())
            same("append", DONE, log.append(numbered(1, 3)))
            same("pull", 4, reader.pull(1)[1].next)
            service.end()
            with Service(listen=address):
                same("writer", (FENCED, True), (log.append(numbered(4, 1)), log.is_restarted))
                same("reader", (FENCED, True), (reader.pull(4)[0], reader.is_restarted))
                true("words", "restarted" in reader.words)
                same("for good", FENCED, reader.status(SECONDARY)[0])


def test_a_service_that_was_restarted_in_the_same_epoch():
    """Nothing but the end of the log, which is lower than before, shows it."""
    with Service() as service:
        address = service.address
        with Log(address, 2) as log, Log(address, 3) as reader, Log(address, 4) as other:
            same("join", DONE, log.join())
            same("append", DONE, log.append(numbered(1, 3)))
            same("readers", (4, DONE), (reader.pull(1)[1].next, other.status(SECONDARY)[0]))
            service.end()
            with Service(listen=address):
                same("pull", (FENCED, True), (reader.pull(4)[0], reader.is_restarted))
                same("status", (FENCED, True), (other.status(SECONDARY)[0], other.is_restarted))
                same("append", (FENCED, True), (log.append(numbered(4, 1)), log.is_restarted))


def test_every_wait_ends():
    """A wait that did not end would end the whole part, by the time that it may take."""
    with Service(workers=1) as service, Log(service.address, 2) as holder:
        same("holder", DONE, holder.join())
        with Log(service.address, 3, reply_ms=200, patience_ms=300) as log:
            with stopped(service):
                start = time.monotonic()
                same("a service that is silent", LOST, log.status(SECONDARY)[0])
                true("no sooner than reply_ms", time.monotonic() - start >= 0.2)
        with Log(service.address, 3) as log:
            same(
                "one worker, two connections",
                (DONE, DONE),
                (log.status(SECONDARY)[0], holder.status(PRIMARY)[0]),
            )
    with Log("127.0.0.1:1", 2, patience_ms=100) as log:
        same(
            "nobody",
            (LOST, LOST, LOST),
            (log.status(SECONDARY)[0], log.take_over(), log.pull(1)[0]),
        )
    for address in ("nonsense", "", "::::", "[::1", "127.0.0.1:no"):
        with Log(address, 2, patience_ms=1) as log:
            same(f"address {address}", LOST, log.status(SECONDARY)[0])
    listener = socket.create_server(("127.0.0.1", 0))
    dripping = threading.Event()

    def drip():
        client, _ = listener.accept()
        try:
            client.sendall(b"\0\0\x20\x09\2")  # the begin of a page
            while not dripping.wait(0.05):
                client.sendall(b"\0")
        except OSError:
            pass
        client.close()

    thread = threading.Thread(target=drip, daemon=True)
    thread.start()
    with Log("127.0.0.1:%d" % listener.getsockname()[1], 2, reply_ms=400, patience_ms=1) as log:
        same("a reply that drips", LOST, log.ask(SECONDARY, wire.STATUS)[0])
    dripping.set()
    thread.join()


@contextlib.contextmanager
def begins_to_answer():
    """A peer that gives each request the first byte of a reply, and no more: its address."""
    listener, clients = socket.create_server(("127.0.0.1", 0), backlog=64), []

    def answer():
        with contextlib.suppress(OSError):
            while True:
                clients.append(listener.accept()[0])
                clients[-1].recv(65536)
                clients[-1].sendall(b"\0")

    thread = threading.Thread(target=answer, daemon=True)
    thread.start()
    yield "127.0.0.1:%d" % listener.getsockname()[1]
    listener.shutdown(socket.SHUT_RDWR)
    thread.join()
    listener.close()


def test_no_wait_is_shorter_than_asked():
    """At whatever part of a millisecond it begins: for a reply whose first byte has come, and for somebody to answer."""
    with begins_to_answer() as address:
        waits = [(address, {"reply_ms": 3, "patience_ms": 1})] * 40 + [
            ("127.0.0.1:1", {"patience_ms": ms}) for ms in range(1, 41)
        ]
        for address, options in waits:
            with Log(address, 2, **options) as log:
                start = time.monotonic_ns()
                same("nobody answers", LOST, log.status(SECONDARY)[0])
                took = (time.monotonic_ns() - start) / 1e6
                true(f"{took} ms, of {options}", took >= max(options.values()))


def test_waits_that_look_for_their_reply():
    """Replies that come soon are found awake, later ones asleep, and on one processor all of them."""
    all_of_them = os.sched_getaffinity(0)
    between = lambda frame: time.sleep(0.02) or frame
    with Service() as service, Proxy(service.address, between=between) as slow, Log(
        service.address, 2
    ) as near, Log(slow.address, 2, spin_us=15000) as far, Log(
        service.address, 2, spin_us=NO_SPIN
    ) as sleeper:
        same("sleeps", 0, sleeper.spin)
        for log in (near, far, sleeper):
            same("join", DONE, log.join())
        for _ in range(50):
            same("near", DONE, near.status()[0])
            same("sleeper", DONE, sleeper.status()[0])
        before = time.thread_time()
        for _ in range(60):
            same("far", DONE, far.status()[0])
        true("a wait that is long sleeps", time.thread_time() - before < 0.5)
        try:
            os.sched_setaffinity(0, {min(all_of_them)})
            near.set_spin(100)
            same("one processor", 0, near.spin)
            same("asleep", DONE, near.status()[0])
        finally:
            os.sched_setaffinity(0, all_of_them)
        near.set_spin(100)
        same("several", 100 if len(all_of_them) > 1 else 0, near.spin)
        same("awake", DONE, near.status()[0])


def test_a_wait_for_many_replies_looks_for_the_last_ones():
    """They come some eight at a time, soon after each other. To look for all of them would take a processor all the time. Its processor
    time is looked at with each frame, so that it does not matter how long the last ones take."""
    clock, seen = time.pthread_getcpuclockid(threading.get_ident()), []

    def between(frame):
        seen.append((time.monotonic(), time.clock_gettime(clock)))
        time.sleep(0.002)
        return frame

    with Service() as service, Proxy(service.address, between=between) as slow, Log(
        slow.address, 2, spin_us=1000000
    ) as log:
        same("join", DONE, log.join())
        for _ in range(3):
            blocks = numbered(log.end + 1, 40, 8000)
            seen.clear()
            same("append", (DONE, 81), (log.append(blocks), len(seen)))
            took, used = (last - first for first, last in zip(seen[10], seen[70]))
            true(f"it sleeps first: {used} of {took}", used < took / 2)


def test_a_joined_writer_without_the_role_of_a_secondary():
    """Under the start table nobody may look: a lost reply to a report is made up for by an epoch of one's own."""
    with Service(table=START_TABLE) as service:
        lost = [True]

        def between(frame):
            if frame[33] == wire.REPORT and lost[0]:
                lost[0] = False
                return None
            return frame

        with Proxy(service.address, between=between) as proxy, Log(proxy.address, 2) as log:
            same("take over", DONE, log.take_over())
            same("append", (DONE, 2), (log.append(numbered(1, 2)), log.end))
            true("was cut", proxy.cuts == 1)


def test_whose_block_it_is_where_nobody_may_look():
    """Under the start table another process of this principal joins the epoch that a writer has begun, and puts blocks at the
    LSNs of its own, whose connection is lost before any of them has come. By the pages they are seen to be another's. It is in
    doubt; where the last block was not sent, it is not in the log."""
    for count, others, wanted in ((1, 1, IN_DOUBT), (70, 64, CONFLICT), (70, 70, CONFLICT)):
        is_cut = [False]
        with Service(table=START_TABLE) as service, Log(service.address, 3) as reader, Log(
            service.address, 2
        ) as other:

            def between(frame):
                if not is_cut[0]:
                    return frame
                is_cut[0] = False
                same(
                    "the other",
                    (DONE, DONE),
                    (other.join(), other.append(numbered(1, others, page=7))),
                )
                return None

            with Proxy(service.address, between=between) as proxy, Log(proxy.address, 2) as log:
                same("take over", DONE, log.take_over())
                is_cut[0] = True
                same(
                    f"{count} blocks", (wanted, wanted), (log.append(numbered(1, count)), log.words)
                )
                same("the log", numbered(1, others, page=7).all(), pulled(reader, others))
                same("no more in this epoch", CONFLICT, log.append(numbered(log.end + 1, 1)))
                same("take over", (DONE, others), (log.take_over(), log.end))


def test_a_lost_report_where_nobody_may_look():
    """It was carried out. The append looks at the pages that its blocks touch, and is done."""
    for is_answered in (False, True):
        is_cut = [False]
        with Service(table=START_TABLE) as service, service.operator() as operator, Log(
            service.address, 3
        ) as reader:

            def between(frame):
                if not is_cut[0] or frame[33] != wire.REPORT:
                    return frame
                is_cut[0] = False
                operator.carry(frame)
                return None

            with Proxy(service.address, between=between) as proxy, Log(proxy.address, 2) as log:
                same("take over", DONE, log.take_over())
                is_cut[0], blocks = True, numbered(1, 3)
                if is_answered:
                    log.append_ahead(blocks)
                while is_answered and log.in_flight() > 0:
                    same("all is well", False, log.is_due())
                same(f"{is_answered}", (DONE, 1), (log.append(blocks), proxy.cuts))
                same("log", blocks.all(), pulled(reader, 3))
                same("take over", (DONE, 3), (log.take_over(), log.end))


if __name__ == "__main__":
    # The model has a thread for each connection, so that no client waits for a worker.
    run("wire calls", globals(), not_with_the_model=["test_every_wait_ends"])
