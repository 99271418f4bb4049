"""Parts of scripts/hostile: clients that break off, send anything, send without end, or do not read."""

import collections
import random
import select
import socket
import threading

import wire
from clients import PATIENCE, asked, read_reply, same
from hostile_service import (
    DENIED_A1,
    DONE,
    EMPTY,
    NO_REQUEST,
    STATUS,
    WRITE,
    Serve,
    at_most,
    grows,
    sent_and_closed,
    until,
)
from wire import frame

# How many replies a flood may get while another client waits for one. Sockets hold some hundred thousand of them, and on a busy
# machine that client hears of it late.
MOST_REPLIES = 20000000
# The replies of pages are 8 KiB long. A turn writes four times those that may wait together, and a connection has two turns in a
# round at most.
PAGES_OF_A_ROUND = 2 * 4 * 32
# How many blocks a client sends together: the system takes them without waiting.
BLOCKS = 10
GET = wire.head(3, wire.SECONDARY, wire.GET) + wire.get(0, 0, 1)


def cut_anywhere():
    """A frame after a whole one, cut at each byte."""
    data = frame(WRITE)
    service = Serve(len(data) + 2, 2)
    honest = service.connect()
    for cut in range(len(data) + 1):
        wanted = [DONE] * (2 if cut == len(data) else 1)
        same(f"cut at {cut}", wanted, sent_and_closed(service, data + data[:cut]))
        same("the honest client's", EMPTY, asked(honest, STATUS))
    honest.close()
    service.ends(len(data) + 2, len(data) - 1)


def lengths():
    """Each length at and past the limit, and none."""
    service = Serve(6, 2)
    honest = service.connect()
    same("length 0", [NO_REQUEST, NO_REQUEST], sent_and_closed(service, frame(b"") * 2))
    most = bytes(20) + b"\1" + bytes(8) + b"\7" + bytes(65536 - 30)
    same("length 65,536", [b"\x0a\x05"], sent_and_closed(service, frame(most)))
    same("length 65,536, cut", [], sent_and_closed(service, frame(most)[:-1]))
    for length in (65537, 2**32 - 1):
        same(
            f"length {length}",
            [DONE],
            sent_and_closed(service, frame(WRITE) + wire.number(length, 4) + most),
        )
        same("the honest client's", EMPTY, asked(honest, STATUS))
    honest.close()
    service.ends(6, 3)


def random_bytes(count):
    """Bytes at random, and bodies at random in frames that are right."""
    chance = random.Random(7)
    service = Serve(2 * count + 1, 4)
    honest = service.connect()
    for turn in range(count):
        data = chance.randbytes(chance.randrange(1, 4096))
        # Such a length is above the limit in all but one of 65,536 cases, and this seed has none of them.
        same(f"random bytes {turn}", [], sent_and_closed(service, data))
        bodies = [chance.randbytes(chance.randrange(0, 90)) for _ in range(chance.randrange(1, 9))]
        replies = sent_and_closed(service, b"".join(map(frame, bodies)))
        same(f"replies to random bodies {turn}", len(bodies), len(replies))
        for reply in replies:
            if reply[:1] != b"\x0a" and reply != DENIED_A1:
                raise SystemExit(f"random body {turn}: replied {reply.hex()}")
        same("the honest client's", EMPTY, asked(honest, STATUS))
    honest.close()
    service.ends(2 * count + 1, count)


def closes_its_side():
    """A client that sends 1,000 requests and closes its sending side before it reads: it gets all replies, short and long ones."""
    service = Serve(2, 1)
    for what, body, size, count in (
        ("statuses", STATUS, len(EMPTY), 1000),
        ("pages", GET, wire.PAGE_BYTES + 9, 500),
    ):
        replies = sent_and_closed(service, frame(body) * count)
        same(what, {size: count}, collections.Counter(map(len, replies)))
    service.ends(2, 0)


def takes_all_it_can(honest, deaf, data):
    """Sends this again and again until the service takes no more, though another client has its replies. How many bytes it took."""
    deaf.setblocking(False)
    sent, stalled = 0, 0
    while stalled < 20 and sent < 64 << 20:
        try:
            sent += deaf.send(data)
            stalled = 0
        except BlockingIOError:
            stalled += 1
            for _ in range(20):
                same("the honest client's", EMPTY, asked(honest, STATUS))
    return sent


def never_reads():
    """A client that asks for pages and takes none: the one worker does not wait for it, and the others go on."""
    service = Serve(2, 1)
    honest, deaf = service.connect(), service.connect()
    sent = takes_all_it_can(honest, deaf, frame(GET) * 1000)
    for turn in range(2000):
        if turn == 1000:
            held = service.memory()
        same("the honest client's", EMPTY, asked(honest, STATUS))
    told = grows("a client that never reads", held, service.memory(), 1024)
    deaf.close()
    honest.close()
    service.ends(2, 1)
    return f"{sent} bytes were taken of it; {told}"


def reads_late(count):
    """A client that asks for more pages than sockets hold, and reads none until another one has had many replies: it gets all."""
    service = Serve(2, 1)
    honest, late = service.connect(), service.connect()
    late.sendall(frame(GET) * count + frame(STATUS))
    for _ in range(200):
        same("the honest client's", EMPTY, asked(honest, STATUS))
    for number in range(count):
        same(f"reply {number + 1} of {count}", wire.PAGE_BYTES + 9, len(read_reply(late)))
    same("after all of them", EMPTY, read_reply(late))
    late.close()
    honest.close()
    service.ends(2, 0)


class Flood:
    """A client that sends a request again and again, many at once, and takes the replies at the same time, until it is stopped."""

    lot = 10000

    def __init__(self, client, body, reply):
        self.client, self.request, self.reply = client, frame(body), frame(reply)
        self.sent, self.taken, self.is_over, self.faults = 0, 0, threading.Event(), []
        self.threads = [
            threading.Thread(target=self.tries, args=(work,), daemon=True)
            for work in (self.sends, self.takes)
        ]
        for thread in self.threads:
            thread.start()

    def tries(self, work):
        try:
            work()
        except OSError as fault:
            self.faults.append(f"a flood: {fault!r}")

    def sends(self):
        many = self.request * self.lot
        while not self.is_over.is_set() and self.may_send():
            self.client.sendall(many)
            self.sent += self.lot
        self.client.shutdown(socket.SHUT_WR)

    def may_send(self):
        return True

    def takes(self):
        """Each reply is the same; of the last one there may be a beginning."""
        many, begun = self.reply * self.lot, 0
        while part := self.client.recv(len(many) - len(self.reply)):
            if part != many[begun : begun + len(part)]:
                self.faults.append(
                    f"a flood: reply {self.taken + 1} or one after it is another one"
                )
                return self.is_over.set()
            whole, begun = divmod(begun + len(part), len(self.reply))
            self.taken += whole

    def stops(self):
        """It ends once all its replies have come, or none comes any more. Returns how many these are."""
        self.is_over.set()
        for thread in self.threads:
            thread.join()
        if self.faults:
            raise SystemExit(self.faults[0])
        same("replies to a flood", self.sent, self.taken)
        self.client.close()
        return self.taken


def asked_in_flood(honest, flooding):
    """The honest client has its reply before the flood has had MOST_REPLIES; how many these were."""
    before = flooding.taken
    honest.sendall(frame(STATUS))
    while not select.select([honest], [], [], 0.1)[0]:
        if flooding.faults:
            raise SystemExit(flooding.faults[0])
        at_most(
            "replies to a flood while the honest client waits",
            MOST_REPLIES,
            flooding.taken - before,
        )
    same("the honest client's", EMPTY, read_reply(honest))
    return flooding.taken - before


def flood(count):
    """A client that sends without end, and takes what it is replied: another one of the one worker has its turns."""
    service = Serve(2, 1)
    honest, flooding = service.connect(), Flood(service.connect(), b"", NO_REQUEST)
    most = max(asked_in_flood(honest, flooding) for _ in range(count))
    replies = flooding.stops()
    honest.close()
    service.ends(2, 0)
    return f"{replies:,} replies to it, {most:,} at most while the honest client waited for one of {count}"


class PageFlood(Flood):
    """A flood of gets of page 0, as far as it is applied: how many replies in a row had the same LSN, but for the last one."""

    lot = 200

    def __init__(self, client):
        self.runs, self.moved = {}, threading.Event()
        super().__init__(
            client,
            wire.head(3, wire.SECONDARY, wire.GET) + wire.get(0, 0, 0),
            bytes(wire.PAGE_BYTES + 9),
        )

    def may_send(self):
        """Whether it goes on, once the service has no more to answer than what it reads three times. It ends before the audit list
        of the service is full."""
        while self.sent - self.taken > 3 * 1394 and not self.faults:
            self.moved.wait(PATIENCE)
            self.moved.clear()
        return self.sent < 50000

    def takes(self):
        size, data, lsn, run = len(self.reply), b"", 0, 0
        while part := self.client.recv(1 << 20):
            data += part
            whole = len(data) - len(data) % size
            for at in range(0, whole, size):
                found = int.from_bytes(data[at + 5 : at + 13], "big")
                if found != lsn:
                    self.runs[lsn] = run
                    lsn, run = found, 0
                run += 1
            data = data[whole:]
            self.taken += whole // size
            self.moved.set()


def block_is_applied(lsn):
    """The frames that write a block of 8,000 bytes to page 0, harden it and apply it: a turn reads four of these at most."""
    block = wire.block(lsn, [(0, 0, bytes(8000))])
    bodies = [wire.head(2, wire.PRIMARY, wire.WRITE) + wire.write(copy, block) for copy in (0, 1)]
    bodies.append(wire.head(2, wire.PRIMARY, wire.REPORT) + wire.report(lsn))
    bodies.append(wire.head(4, wire.PAGE_SERVER, wire.ADVANCE) + wire.advance(0, 1))
    return b"".join(map(frame, bodies))


def blocks_are_applied(client, first):
    """BLOCKS of these blocks from this LSN on, which the system takes at once, and their replies."""
    client.sendall(b"".join(map(block_is_applied, range(first, first + BLOCKS))))
    for number in range(4 * BLOCKS):
        same(f"reply {number + 1} of {4 * BLOCKS} beside a flood of gets", DONE, read_reply(client))


def flood_of_pages(count):
    """The same flood, of gets of a page that another client of the one worker changes in each of its turns. How many gets in a row
    have the same page shows how many a turn answers: those that it read are 1,394."""
    service = Serve(2, 1)
    honest, flooding = service.connect(), PageFlood(service.connect())
    honest.setsockopt(socket.SOL_SOCKET, socket.SO_SNDBUF, 1 << 22)
    until("a reply to a flood of gets", lambda: flooding.taken)
    lsn, runs = 1, []
    while len(runs) < count:
        blocks_are_applied(honest, lsn)
        lsn += BLOCKS
        # What comes after the last block of those that were sent together says when the next ones were sent.
        runs = [run for at, run in list(flooding.runs.items()) if at % BLOCKS]
        if not all(thread.is_alive() for thread in flooding.threads):
            raise SystemExit(f"a flood of gets saw {len(runs)} changes of a page only, of {lsn}")
    replies, most = flooding.stops(), max(runs)
    honest.close()
    service.ends(2, 0)
    at_most(
        "replies to a flood of gets between two turns of the honest client",
        4 * PAGES_OF_A_ROUND,
        most,
    )
    return f"{replies:,} replies to it, {most} at most between two turns of the honest client"
