"""SQLite over a named database in many orders of deaths, successions, lost replies, other writers and a PostgreSQL that goes back, all in
this process: what its writers were told holds in the end, and what its readers saw was whole.

Services are the reference model, keepers the stub of these tests. A seed draws what happens at each request of a client."""

import contextlib
import random
import socket
import socketserver
import sqlite3
import sys
import threading
from unittest import mock

import stub_keeper
from check import LONG, run, same, true
from database import named, one
from generations import opened_in
from service import HOST, wire
from stub_keeper import Generation, StubKeeper

from model import MalformedBody, Model, read_request
from table_text import Texts

SEEDS = 5_000 if LONG else 100
EVENTS, TRANSACTIONS = 8, 10
SIZES = (10, 10, 200, 3000, 9000, 40_000)
LEVELS = (("full", {}), ("normal", {}), ("off", {"async_commits": 8}))
IN_DOUBT = {"SQLITE_IOERR_FSYNC"}
NOT_THERE = {"SQLITE_BUSY", "SQLITE_BUSY_SNAPSHOT", "SQLITE_READONLY", "SQLITE_IOERR"}
TEXTS = Texts()


class Connection(socketserver.StreamRequestHandler):
    disable_nagle_algorithm = True

    def handle(self):
        self.server.sockets.append(self.connection)
        with contextlib.suppress(OSError):
            while len(head := self.rfile.read(4)) == 4:
                body = self.rfile.read(int.from_bytes(head, "big"))
                reply = self.server.reply(body)
                self.wfile.write(len(reply).to_bytes(4, "big") + reply)


class Modelled(socketserver.ThreadingTCPServer):
    """A service in this process, by the model. Its death is that of each connection."""

    daemon_threads, block_on_close = True, False

    def __init__(self, text, primary):
        super().__init__((HOST, 0), Connection)
        self.model = Model(TEXTS, TEXTS[text.encode()], primary, 1 << 24)
        self.lock, self.sockets, self.is_dead = threading.Lock(), [], False
        self.address = "%s:%d" % self.server_address
        threading.Thread(target=self.serve_forever, args=(0.02,), daemon=True).start()

    def reply(self, body):
        with self.lock:
            if self.is_dead:
                raise ConnectionError
            try:
                return self.model.answer(read_request(body), 1)[1]
            except MalformedBody as fault:
                return bytes([10, fault.code])

    def end(self):
        with self.lock:
            was_dead, self.is_dead = self.is_dead, True
        if not was_dead:
            threading.Thread(target=self.shutdown, daemon=True).start()
            self.socket.close()
        for each in self.sockets:
            with contextlib.suppress(OSError):
                each.shutdown(socket.SHUT_RDWR)


class World(StubKeeper):
    """Generations of one database, what is archived of them, and what happens."""

    def __init__(self, seed):
        super().__init__()
        self.chance = random.Random(seed)
        self.left, self.others, self.happened = 0, 0, []
        self.floor = self.had = 0
        """PostgreSQL never goes back to before this position; and how much it had before it did."""
        self.often = self.chance.choice([0.03, 0.1, 0.3])
        self.told, self.superseded, self.excused = Told(), set(), set()
        self.rule, self.busy = self.at_request, threading.local()

    # What happens.

    def at_request(self, frame):
        """Before the service has it. None: it is lost, or its reply is."""
        if not self.draws():
            return frame
        event = self.chance.choice(
            [self.cut, self.lose_reply, self.die, self.succeed_somehow, self.come, self.come]
            + [self.cut_lines, self.archive_some, self.go_back, self.supersede]
        )
        self.happened.append(f"{event.__name__} at {frame[33]}")
        with self.happening():
            return event(frame) if event in (self.cut, self.lose_reply) else event() or frame

    def draws(self):
        """Whether something happens now: nothing within another event."""
        is_drawn = (
            self.left > 0
            and not getattr(self.busy, "is_so", False)
            and self.chance.random() < self.often
        )
        self.left -= is_drawn
        return is_drawn

    @contextlib.contextmanager
    def happening(self):
        self.busy.is_so = True
        try:
            yield
        finally:
            self.busy.is_so = False

    def cut(self, _):
        """The connection, and what was on its way to the service."""

    def lose_reply(self, frame):
        """The service has the request, and its reply is lost."""
        with contextlib.suppress(OSError), self.now.asker(wire.PRIMARY) as asker:
            asker.carry(frame)

    def die(self, **how):
        """The service, which may be the only one that has what PostgreSQL has lost: then not before that is archived again."""
        is_behind = len(self.archive) < self.had
        super().die(lost=0 if is_behind else self.chance.choice([0, 0, 1, 2, 64]), **how)

    def succeed_somehow(self):
        self.succeed(images=self.chance.random() < 0.6, empty=self.chance.choice([0, 0, 3, 200]))

    def come(self):
        """Another writer, who takes over. It knows no keepers, so that its LSNs are positions."""
        if self.now.shift:
            return
        with contextlib.suppress(sqlite3.Error):  # it is refused by a service that was closed
            with contextlib.closing(opened_in(self.now)) as connection:
                self.others += 1
                connection.execute("insert into t values (?, 0, ?)", (-self.others, b"other"))

    def archive_some(self):
        with self.changed:
            blocks = self.now.blocks(len(self.archive))
            self.archive += blocks[: self.chance.randint(0, len(blocks))]

    def go_back(self):
        """PostgreSQL does; the run continues, and is archived again."""
        with self.changed:
            least = max(self.floor, self.now.base)  # what its images stand for it has still
            self.had = max(self.had, len(self.archive))
            if len(self.archive) > least:
                del self.archive[self.chance.randint(least, len(self.archive)) :]

    def supersede(self):
        """PostgreSQL goes back, and another run begins from what it has: the one that has more is lost."""
        with self.changed:
            least = max(self.floor, self.now.base)
            if len(self.archive) < least:
                return
            del self.archive[self.chance.randint(least, len(self.archive)) :]
            self.superseded.add(self.now.run)
            self.excused |= self.told.durable  # as PostgreSQL has lost it itself
            self.had = 0
            new = Generation(self, self.now.number + 1)
            new.fill(self.archive)
            if self.chance.random() < 0.5:
                self.now.end()
            self.switch(new)
            del self.ends[new.number - 1]

    # Lines.

    def answer(self, words):
        match words:
            case ["durable", name, generation, _, of] if of.rpartition("/")[2] in self.superseded:
                by = f"by={self.now.number}"
                return "lost", name, generation, "superseded", by, of
        return super().answer(words)

    def durable(self, name, generation, position):
        with self.changed:
            if self.draws():
                event = self.chance.choice([self.die, self.succeed_somehow, self.cut_lines])
                self.happened.append(f"durable: {event.__name__}")
                with self.happening():
                    event()
            return super().durable(name, generation, position)


class Told:
    """What a writer was told of its transactions, by their numbers."""

    def __init__(self):
        self.done, self.durable, self.never, self.begun = [], set(), set(), 0

    def lost(self):
        """Some of those that are not known to be durable, up to the last."""
        self.done = []

    def settled(self):
        self.durable.update(self.done)
        self.done = []


def write(world, connection, told, level):
    """One transaction of some rows. It notes what it is told."""
    number = told.begun = told.begun + 1
    count, size = world.chance.randint(1, 3), world.chance.choice(SIZES)
    reads_first, lost_runs = world.chance.random() < 0.3, len(world.superseded)
    try:
        connection.execute("begin" if reads_first else "begin immediate")
        if reads_first:
            connection.execute("select count(*) from t").fetchone()
        for part in range(count):
            data = world.chance.randbytes(size)
            connection.execute("insert into t values (?, ?, ?)", (number, count - part, data))
        connection.execute("commit")
    except sqlite3.Error as error:
        name = error.sqlite_errorname
        true(f"{name}: {error}", name in IN_DOUBT | NOT_THERE)
        if connection.in_transaction:
            with contextlib.suppress(sqlite3.Error):
                connection.execute("rollback")
        if name in IN_DOUBT:
            told.lost()
        else:
            told.never.add(number)
        return
    told.done.append(number)
    if len(world.superseded) > lost_runs:
        world.excused.add(number)  # PostgreSQL may have had it, and lost it, before this was told
    if level == "full":
        told.settled()


def look(reader, told):
    """What a reader sees is whole transactions."""
    try:
        found = reader.execute("select n, part, length(data) from t order by rowid").fetchall()
    except sqlite3.Error as error:
        name = error.sqlite_errorname
        return true(f"a reader: {name}: {error}", name in IN_DOUBT | NOT_THERE)
    look_at(found, told)


def look_at(found, told):
    """Each transaction is there once, and whole, and those of the writer are in their order."""
    mine = [(number, part, size) for number, part, size in found if number > 0]
    numbers = [number for number, _, _ in mine]
    same("in order", sorted(numbers), numbers)
    for number in set(numbers):
        parts = [part for each, part, _ in mine if each == number]
        same(f"transaction {number}", list(range(len(parts), 0, -1)), parts)
    same("refused, and there", set(), told.never.intersection(numbers))


def play(seed):
    """A world, and what became of it."""
    level, options = LEVELS[seed % len(LEVELS)]
    with mock.patch.object(stub_keeper, "Service", Modelled), World(seed) as world:
        told = world.told
        writer = named(world, move=60_000, **options)
        writer.execute("create table t(n, part, data)")
        world.archive_now()
        world.floor = len(world.archive)
        writer.execute(f"pragma synchronous = {level}")
        reader = named(world, 3, mode="ro")
        world.left = EVENTS
        try:
            for _ in range(TRANSACTIONS):
                write(world, writer, told, level)
                if world.chance.random() < 0.4:
                    look(reader, told)
            finish(world, writer, told)
        except Exception as error:
            why = [one(each, "pragma pagelog_error") for each in (writer, reader)]
            raise AssertionError(f"{level}, after {world.happened}: {error} {why}") from error
    return len(told.durable), len(told.never), len(world.happened)


def finish(world, writer, told):
    """Nothing happens any more: the writer is told of all, and what is there in the end is that."""
    world.left = 0
    writer.execute("pragma synchronous = full")
    before = told.begun
    while not told.durable.issuperset(range(told.begun, told.begun + 1)) or told.begun == before:
        write(world, writer, told, "full")
        true("it goes on", told.begun < before + 9)
    world.archive_now()
    with contextlib.closing(named(world, 3, mode="ro")) as last:
        found = last.execute("select n, part, length(data) from t order by rowid").fetchall()
        same("whole", "ok", one(last, "pragma integrity_check"))
    look_at(found, told)
    lacking = told.durable.difference(number for number, _, _ in found)
    same("durable, and not there", set(), lacking - world.excused)


def seeds():
    """All, or the one of --seed=N."""
    given = [int(word.removeprefix("--seed=")) for word in sys.argv if word.startswith("--seed=")]
    return given or range(SEEDS)


def test_what_writers_are_told_holds_in_every_order():
    counts = [0, 0, 0]
    for seed in seeds():
        try:
            counts = [sum(pair) for pair in zip(counts, play(seed))]
        except Exception as error:
            raise AssertionError(f"seed {seed}: {error!r}") from error
    return f"{counts[0]} durable, {counts[1]} refused, {counts[2]} events"


if __name__ == "__main__":
    run("orders", globals())
