"""Pages that are asked for before they are read: by the wire, by a file, and by SQLite beside a writer, where lines are cut, and where a
service stands still. What is read is what would be read without."""

import contextlib
import ctypes
import random
import socket
import struct
import threading
from ctypes import (
    CFUNCTYPE,
    POINTER,
    c_bool,
    c_char_p,
    c_size_t,
    c_uint,
    c_uint32,
    c_uint64,
    c_void_p,
)

from binding import (
    DONE,
    FENCED,
    LOST,
    MALFORMED,
    PRIMARY,
    SECONDARY,
    Blocks,
    File,
    Log,
    declare,
    lib,
    name,
)
from check import LONG, run, same, true
from database import code_of, connect, numbers, one, reader
from service import HOST, Proxy, Service, exactly, framed, random_plan, wire

PAGE = 8192
PAGES = 100
Take = CFUNCTYPE(None, c_void_p, c_uint64, c_uint32, c_void_p)
declare(
    "pagelog_get_ahead", c_uint, c_void_p, c_uint, c_uint64, POINTER(c_uint32), c_size_t, c_char_p
)
declare("pagelog_set_taker", None, c_void_p, Take, c_void_p)
declare("pagelog_is_ahead", c_bool, c_void_p, c_uint64, c_uint32)
declare("pagelog_count_ahead", c_size_t, c_void_p)


class Gate:
    """Carries frames between clients and a service. Requests and replies pass as long as `hold` leaves some; what is held stays here."""

    def __init__(self, address):
        host, port = address.rsplit(":", 1)
        self.target = host, int(port)
        self.listener = socket.create_server((HOST, 0), backlog=64)
        self.address = "%s:%d" % self.listener.getsockname()
        self.changed = threading.Condition()
        self.left = {"requests": None, "replies": None}  # None: all pass
        self.spoil = lambda frame: frame  # each reply
        self.ends, self.asked = [], []
        threading.Thread(target=self._accept, daemon=True).start()

    def __enter__(self):
        return self

    def __exit__(self, *_):
        with contextlib.suppress(OSError):
            self.listener.shutdown(socket.SHUT_RDWR)
        self.listener.close()
        self.hold()
        self.cut()

    def hold(self, **left):
        """Lets so many requests or replies pass from now on, and without a word all of them."""
        with self.changed:
            self.left = {"requests": None, "replies": None, **left}
            self.changed.notify_all()

    def cut(self):
        for end in self.ends:
            with contextlib.suppress(OSError):
                end.shutdown(socket.SHUT_RDWR)
        self.ends = []

    def _accept(self):
        with contextlib.suppress(OSError):
            while True:
                client, _ = self.listener.accept()
                server = socket.create_connection(self.target, 20)
                self.ends += [client, server]
                for end in (client, server):
                    end.setsockopt(socket.IPPROTO_TCP, socket.TCP_NODELAY, 1)
                for way, source, target in (
                    ("requests", client, server),
                    ("replies", server, client),
                ):
                    threading.Thread(
                        target=self._carry, args=(way, source, target), daemon=True
                    ).start()

    def _may_pass(self, way):
        with self.changed:
            self.changed.wait_for(lambda: self.left[way] != 0)
            if self.left[way]:
                self.left[way] -= 1

    def _carry(self, way, source, target):
        try:
            while True:
                head = exactly(source, 4)
                frame = head + exactly(source, int.from_bytes(head, "big"))
                if way == "requests":
                    self.asked.append(frame)
                self._may_pass(way)
                target.sendall(self.spoil(frame) if way == "replies" else frame)
        except OSError:
            for end in (source, target):
                with contextlib.suppress(OSError):
                    end.shutdown(socket.SHUT_RDWR)


def page_of(number):
    """The bytes of a page, as `filled` has written them."""
    return (b"%d" % number).ljust(PAGE, b"\0")


class Ahead(Log):
    """It notes what it is given."""

    def __init__(self, *arguments, **more):
        super().__init__(*arguments, **more)
        self.taken = []
        self.take = Take(
            lambda _, lsn, page, data: self.taken.append((lsn, page, ctypes.string_at(data, PAGE)))
        )
        lib.pagelog_set_taker(self.made, self.take, None)

    def get_ahead(self, lsn, pages, role=SECONDARY):
        out = ctypes.create_string_buffer(PAGE)
        outcome = name(
            lib.pagelog_get_ahead(
                self.made, role, lsn, (c_uint32 * len(pages))(*pages), len(pages), out
            )
        )
        return outcome, out.raw

    @property
    def ahead(self):
        return lib.pagelog_count_ahead(self.made)

    def took(self, what, pages, lsn=PAGES):
        """What it was given since the last look."""
        same(what, [(lsn, page, page_of(page)) for page in pages], self.taken)
        self.taken.clear()


@contextlib.contextmanager
def filled(principal=3, **how):
    """A service with so many pages in its log, one a block, a gate to it, and an object that has asked there."""
    with Service() as service, Log(service.address, 2) as writer, Gate(
        service.address
    ) as gate, Ahead(gate.address, principal, **how) as log:
        blocks = Blocks(1)
        for page in range(1, PAGES + 1):
            blocks.put(page, 0, b"%d" % page)
            blocks.end()
        same("written", (DONE, DONE), (writer.take_over(), writer.append(blocks)))
        same("status", DONE, log.status(SECONDARY)[0])
        yield service, gate, log


# ---- The wire ----


def test_pages_ahead_come_to_who_takes_them():
    """Within whatever call reads their replies, each as it is at the LSN that was asked."""
    with filled() as (_, _, log):
        for what, call in {
            "a status": lambda: log.status(SECONDARY)[0],
            "a pull": lambda: log.pull(3)[0],
            "a get": lambda: log.get(SECONDARY, PAGES, [7])[0],
            "one ahead": lambda: log.get_ahead(PAGES, [9])[0],
            "no page": lambda: {True: DONE}[log.get(SECONDARY, PAGES + 1, [1])[0] != DONE],
        }.items():
            before = log.counts.requests
            same(f"{what}: the first", (DONE, page_of(50)), log.get_ahead(PAGES, [50, 1, 2, 90]))
            same(f"{what}: requests", 4, log.counts.requests - before)
            same(
                f"{what}: in flight, and on their way",
                (0, 3),
                (log.in_flight(), log.ahead + len(log.taken)),
            )
            same(what, DONE, call())
            log.took(what, [1, 2, 90])
            same(f"{what}: on their way", 0, log.ahead)
        same("the first", (DONE, page_of(38)), log.get_ahead(40, [38, 39, 40, 41]))
        same("older ones", DONE, log.status(SECONDARY)[0])
        same(
            "as they were",
            [(40, 39, page_of(39)), (40, 40, page_of(40)), (40, 41, bytes(PAGE))],
            log.taken,
        )


def test_a_page_that_is_on_its_way_is_not_asked_for_again():
    with filled(reply_ms=20000, patience_ms=1) as (_, gate, log):
        gate.hold(replies=1)
        same("the first", (DONE, page_of(2)), log.get_ahead(PAGES, [2, 3, 4, 5]))
        same(
            "on their way",
            [True] * 3,
            [lib.pagelog_is_ahead(log.made, PAGES, page) for page in (3, 4, 5)],
        )
        same(
            "not so",
            [False] * 3,
            [
                lib.pagelog_is_ahead(log.made, *each)
                for each in ((PAGES, 2), (PAGES, 6), (PAGES - 1, 5))
            ],
        )
        asked = log.counts.requests
        gate.hold(replies=2)
        same("one of them", (DONE, page_of(4)), log.get_ahead(PAGES, [4]))
        same("what came before it", [3], [page for _, page, _ in log.taken])
        same("the other is", (1, asked), (log.ahead, log.counts.requests))


def test_a_page_that_was_refused_ahead_is_asked_for_again():
    """By an epoch that was over when the service had the question."""
    with filled() as (service, gate, log):
        gate.hold(requests=1)
        same("the first", (DONE, page_of(2)), log.get_ahead(PAGES, [2, 3, 4, 5]))
        with service.operator() as operator:
            operator.failover(5)
        gate.hold()
        same("one of them", (DONE, page_of(4)), log.get_ahead(PAGES, [4]))
        same("and the rest", DONE, log.status(SECONDARY)[0])
        same("nothing of what was refused", [], log.taken)


def test_a_page_that_a_writer_asked_for_is_asked_for_again_by_who_follows():
    """By then the epoch is known that has denied it."""
    with filled(2) as (service, gate, log):
        same("an epoch", DONE, log.take_over())
        gate.hold(requests=1)
        same("the first", (DONE, page_of(2)), log.get_ahead(PAGES, [2, 3, 4, 5], PRIMARY))
        with service.operator() as operator:
            operator.failover(5)
        gate.hold()
        same("its epoch is over", FENCED, log.get_ahead(PAGES, [3], PRIMARY)[0])
        same("as one that follows", (DONE, page_of(4)), log.get_ahead(PAGES, [4]))


def test_pages_ahead_go_with_their_connection():
    with filled() as (_, gate, log):
        for wanted in (8, 50):
            gate.hold(replies=3)
            same("the first", (DONE, page_of(1)), log.get_ahead(PAGES, [1, *range(4, 12)]))
            gate.hold(requests=0, replies=0)
            gate.cut()
            gate.hold()
            same("another", (DONE, page_of(wanted)), log.get_ahead(PAGES, [wanted, 70, 71]))
            true(
                f"what had come: {[page for _, page, _ in log.taken]}",
                all(
                    (PAGES, page, page_of(page)) == (lsn, page, data) and page in (4, 5)
                    for lsn, page, data in log.taken
                ),
            )
            same("nothing is on its way", 0, log.ahead)
            log.taken.clear()


def test_a_service_that_stands_still_is_left():
    with filled(reply_ms=2000, patience_ms=1) as (_, gate, log):
        gate.hold(replies=1)
        same("the first", (DONE, page_of(1)), log.get_ahead(PAGES, [1, *range(4, 12)]))
        same("one of them", LOST, log.get_ahead(PAGES, [8])[0])
        gate.hold(replies=0)
        same("another", LOST, log.get_ahead(PAGES, [50, 51])[0])
        gate.hold()
        same("once it goes on", (DONE, page_of(8)), log.get_ahead(PAGES, [8]))


def test_no_page_of_a_liar_is_taken():
    """A reply to a page ahead that is none, or is at another LSN; and the same of who waits."""

    def at_another(frame):
        return frame[:5] + struct.pack(">Q", PAGES + 1) + frame[13:]

    for what, lie in {
        "a status": framed(b"\4" + bytes(32)),
        "done": framed(b"\0"),
        "at another LSN": at_another,
    }.items():
        for wanted in ([9], [4]):
            with filled() as (_, gate, log):
                gate.hold(replies=1)
                same("the first", (DONE, page_of(1)), log.get_ahead(PAGES, [1, 3, 4, 5]))
                gate.spoil = lie if callable(lie) else lambda frame, lie=lie: lie
                gate.hold()
                same(f"{what}, {wanted}", MALFORMED, log.get_ahead(PAGES, wanted)[0])
                gate.spoil = lambda frame: frame
                same("nothing is on its way", (0, []), (log.ahead, log.taken))
                same("asked again", (DONE, page_of(4)), log.get_ahead(PAGES, [4]))


def test_an_append_beside_pages_that_are_on_their_way():
    """With its replies behind theirs: waited for, ahead, and with nobody who waits."""

    def unwaited(log, blocks):
        same("on its way", True, log.append_unwaited(blocks))
        while not log.is_answered():
            same("no refusal", False, log.is_due())
        return log.append(blocks)

    def ahead(log, blocks):
        log.append_ahead(blocks)
        return log.append(blocks)

    for append in (Log.append, ahead, unwaited):
        with filled(principal=2) as (_, gate, log):
            same("take over", DONE, log.take_over())
            gate.hold(replies=1)
            same("the first", (DONE, page_of(1)), log.get_ahead(PAGES, [1, *range(3, 60)], PRIMARY))
            blocks = Blocks(PAGES + 1)
            blocks.put(7, 0, b"more")
            blocks.end()
            gate.hold()
            same("append", (DONE, PAGES + 1), (append(log, blocks), log.end))
            log.took("before", range(3, 60))


# ---- A file ----


@contextlib.contextmanager
def file_of(count, **how):
    """A file of so many pages, each with its number, as a writer of an epoch of its own has it who has read nothing yet."""
    with Service() as service, Gate(service.address) as gate:
        with File(gate.address, 2, operator=1) as writer:
            same("begun", (DONE, DONE), (writer.open(), writer.begin()))
            writer.write(0, b"".join(page_of(number) for number in range(1, count + 1)))
            same("commit", DONE, writer.commit())
        with File(gate.address, 2, operator=1, check_ms=3600000, **how) as file:
            same("begun", (DONE, DONE), (file.open(), file.begin()))
            yield gate, file


def number_at(file, page):
    outcome, data = file.read((page - 1) * PAGE, PAGE)
    return outcome, data.rstrip(b"\0")


def some_on_their_way(gate, file):
    """Pages 5 to 7 are on their way, and come once the gate is open."""
    for page in (1, 2, 3):
        same("a page", (DONE, b"%d" % page), number_at(file, page))
    same("none is", 0, file.state.wire.requests - file.state.wire.replies)
    gate.hold(replies=1)
    same("a page", (DONE, b"4"), number_at(file, 4))
    same("three are", 3, file.state.wire.requests - file.state.wire.replies)


def test_a_page_that_comes_after_a_commit_is_none_of_that():
    """It is asked for again, at the LSN of the commit, which nobody has waited for."""
    with file_of(60, unwaited=8) as (gate, file):
        some_on_their_way(gate, file)
        same("write", DONE, file.write(0, b"new"))
        same("commit", DONE, file.commit())
        same("on its way", 1, file.state.on_their_way)
        gate.hold()
        same("another page", (DONE, b"50"), number_at(file, 50))
        same(
            "all",
            [(DONE, b"new")] + [(DONE, b"%d" % page) for page in range(2, 61)],
            [number_at(file, page) for page in range(1, 61)],
        )
        asked = {frame[34:46] for frame in gate.asked if frame[33] == wire.GET}
        for page in (5, 6, 7):
            lsns = {each[4:] for each in asked if each[:4] == struct.pack(">I", page)}
            same(f"LSNs that page {page} was asked at", 2, len(lsns))


def test_a_page_that_comes_when_the_file_is_shorter_is_not_in_it():
    with file_of(60) as (gate, file):
        some_on_their_way(gate, file)
        same("resize", DONE, file.resize(4 * PAGE))
        gate.hold()
        same("commit", DONE, file.commit())
        same("longer", (DONE, DONE, DONE), (file.begin(), file.resize(10 * PAGE), file.commit()))
        same("begin", DONE, file.begin())
        same("zeros", [(DONE, b"")] * 6, [number_at(file, page) for page in range(5, 11)])


def test_a_page_that_is_written_before_it_comes():
    """A transaction sees what it has written, and after it was undone what is there."""
    with file_of(60) as (gate, file):
        some_on_their_way(gate, file)
        same("write", DONE, file.write(5 * PAGE, b"new".ljust(PAGE, b"\0")))
        gate.hold()
        same(
            "read",
            [(DONE, b"5"), (DONE, b"7"), (DONE, b"new")],
            [number_at(file, page) for page in (5, 7, 6)],
        )
        file.undo()
        same("undone", (DONE, b"6"), number_at(file, 6))


# ---- SQLite ----


def stamps(connection, numbers, keys, many):
    """A transaction that reads rows in any order: the stamps that it has seen."""
    connection.execute("begin")
    try:
        found = {
            one(connection, "select stamp from t where a = ? and length(b) = 3000", key)
            for key in numbers.choices(keys, k=many)
        }
        return found | (
            {one(connection, "select max(stamp) + min(stamp) from t") // 2}
            if numbers.random() < 0.2
            else set()
        )
    finally:
        with contextlib.suppress(Exception):
            connection.execute("commit")


def test_readers_beside_a_writer():
    """Each of its transactions gives all rows another stamp: a reader's transaction sees one alone, whatever was on its way, and where
    lines are cut. Some readers have room for few pages."""
    rounds = 300 if LONG else 30
    with Service() as service, Proxy(service.address, random_plan(7, 200000, 3000000)) as proxy:
        writer = connect(service.address)
        writer.execute("create table t(a integer primary key, stamp, b)")
        writer.execute("begin")
        for key in range(300):
            writer.execute("insert into t values (?, 0, hex(randomblob(1500)))", (key,))
        writer.execute("commit")
        seen, random_numbers = 0, random.Random(3)
        readers = [reader(proxy.address, pages=pages, timeout=20000) for pages in (4096, 64, 16)]
        for stamp in range(1, rounds + 1):
            for connection in readers:
                many = random_numbers.choice([1, 5, 100])
                found = stamps(connection, random_numbers, range(300), many)
                same("one stamp", {stamp - 1}, found)
                seen += many
            writer.execute("update t set stamp = ?", (stamp,))
            if random_numbers.random() < 0.3:  # cold again
                readers[0].close()
                readers[0] = reader(proxy.address, timeout=20000)
        for each in (*readers, writer):
            each.close()
        true(f"{proxy.cuts} cuts", proxy.cuts > 0)
    return f"{seen} rows, {proxy.cuts} cuts"


def test_a_scan_waits_for_few_pages():
    """They come while what came before is looked at."""
    with Service() as service:
        writer = connect(service.address)
        writer.execute("create table t(a integer primary key, b)")
        writer.execute("begin")
        for key in range(1200):
            writer.execute("insert into t values (?, hex(randomblob(2000)))", (key,))
        writer.execute("commit")
        for pages in (4096, 256):
            connection = reader(service.address, pages=pages)
            same("all", 1200 * 4000, one(connection, "select sum(length(b)) from t"))
            trips, fetched = numbers(connection, "round_trips", "pages_fetched")
            true(f"{trips} round trips for {fetched} pages", 550 < fetched < 800 and trips < 120)
            connection.close()
        writer.close()


def test_a_reader_by_key_asks_for_what_its_tree_refers_to():
    """And for nothing of an index, which is as large: that lies among its pages."""
    with Service() as service:
        writer = connect(service.address)
        writer.execute("create table t(a integer primary key, b)")
        writer.execute("create index i on t(b)")
        for first in range(0, 2000, 100):
            writer.execute("begin")
            for key in range(first, first + 100):
                writer.execute("insert into t values (?, hex(randomblob(800)))", (key,))
            writer.execute("commit")
        connection, keys = reader(service.address), list(range(2000))
        random.Random(5).shuffle(keys)
        connection.execute("begin")
        for key in keys:
            same("a row", 1600, one(connection, "select length(b) from t where a = ?", key))
        connection.execute("commit")
        trips, fetched = numbers(connection, "round_trips", "pages_fetched")
        true(f"{trips} round trips for {fetched} pages", 400 <= fetched < 430 and trips < 60)
        true("the index", one(connection, "pragma page_count") > 800)
        connection.close()
        writer.close()


def test_a_reader_of_one_key_asks_for_few_pages():
    """Of a database of some 1,500, in which it reads first: twice as many with each page on the way to it."""
    with Service() as service:
        writer = connect(service.address)
        writer.execute("create table t(a integer primary key, b)")
        for first in range(0, 3000, 500):
            writer.execute("begin")
            for key in range(first, first + 500):
                writer.execute("insert into t values (?, zeroblob(4000))", (key,))
            writer.execute("commit")
        true("large", one(writer, "pragma page_count") > 1400)
        for key in (7, 1500, 2990):
            with Gate(
                service.address
            ) as gate:  # each its own: what one asks for ahead may still be on its way
                connection = reader(gate.address, keep=0)
                same("a row", 4000, one(connection, "select length(b) from t where a = ?", key))
                gets = sum(frame[33] == wire.GET for frame in list(gate.asked))
                true(f"{gets} gets", gets <= 1 + 2 + 4 + 8)
                connection.close()
        writer.close()


def test_a_reader_of_a_service_that_stands_still():
    """It fails in time, and reads on once that answers."""
    with Service() as service, Gate(service.address) as gate:
        writer = connect(service.address)
        writer.execute("create table t(a integer primary key, b)")
        writer.execute("begin")
        for key in range(400):
            writer.execute("insert into t values (?, hex(randomblob(2000)))", (key,))
        writer.execute("commit")
        connection = reader(gate.address, timeout=2000, patience=1)
        connection.execute("begin")
        for key in range(20):
            one(connection, "select length(b) from t where a = ?", key)
        gate.hold(replies=5)
        same(
            "it stands still",
            "SQLITE_IOERR",
            code_of(lambda: one(connection, "select sum(length(b)) from t")),
        )
        gate.hold()
        with contextlib.suppress(Exception):
            connection.execute("rollback")
        same("all", 400 * 4000, one(connection, "select sum(length(b)) from t"))
        connection.close()
        writer.close()


if __name__ == "__main__":
    run(
        "ahead",
        dict(globals()),
        (
            "test_readers_beside_a_writer",
            "test_a_scan_waits_for_few_pages",
            "test_a_reader_by_key_asks_for_what_its_tree_refers_to",
            "test_a_reader_of_one_key_asks_for_few_pages",
        ),
    )
