"""SQLite over the service, in several processes: torn transactions, failovers, killed writers, cut connections."""

import contextlib
import pathlib
import random
import signal
import subprocess
import sys
import tempfile
import time

from check import LONG, run, same, true
from database import connect, one, reader
from service import Proxy, Service, random_plan

PROCESS = pathlib.Path(__file__).resolve().parent / "process.py"
ROW = (
    "create table row(id integer primary key autoincrement, name text unique, epoch int, body blob)"
)


class Started:
    """A process of process.py, whose lines go to a file, so that it never waits for this one to read them."""

    def __init__(self, *words):
        self.said = tempfile.TemporaryFile("w+")
        self.process = subprocess.Popen(
            [sys.executable, "-B", str(PROCESS)] + [str(word) for word in words],
            stdin=subprocess.PIPE,
            stdout=self.said,
            stderr=subprocess.STDOUT,
        )

    def lines(self):
        """The whole lines that it has written so far. The file is opened again, since a place in it would be the writer's too."""
        with open(f"/proc/self/fd/{self.said.fileno()}") as said:
            return [line.rstrip("\n") for line in said.readlines() if line.endswith("\n")]

    def count(self, *words):
        return sum(line.partition(" ")[0] in words for line in self.lines())

    def kill(self):
        self.process.send_signal(signal.SIGKILL)
        self.process.wait()
        self.process.stdin.close()
        return self.lines()

    def finish(self):
        """Its lines, once it was told to end, and has ended by itself."""
        with contextlib.suppress(BrokenPipeError):
            self.process.stdin.close()
        status = self.process.wait()
        same(f"exit status, {self.lines()[-3:]}", 0, status)
        return self.lines()


def wait_until(holds, processes):
    """Until it holds, or one of the processes has ended, which is reported when it is finished."""
    while not holds() and all(process.process.poll() is None for process in processes):
        time.sleep(0.02)


def counted(processes, *words):
    return sum(process.count(*words) for process in processes)


class Said:
    """What writers said of their rows."""

    def __init__(self):
        self.done, self.refused, self.doubt, self.tried, self.codes = (
            set(),
            set(),
            set(),
            set(),
            set(),
        )

    def read(self, lines):
        for line in lines:
            word, _, rest = line.partition(" ")
            name = rest.split(" ")[0]
            if word == "tries":
                self.tried.add(name)
            elif word in ("done", "refused", "doubt"):
                getattr(self, word).add(name)
                self.codes.update(rest.split(" ")[1:])
            else:
                true(f"a line that is none of a writer's: {line}", word in ("epoch", "end"))

    def compare(self, address):
        """Against the database, as a new reader sees it; how many rows there are."""
        connection = reader(address)
        same("integrity", "ok", one(connection, "pragma integrity_check"))
        rows = connection.execute("select name, epoch from row order by id").fetchall()
        names = {name for name, _ in rows}
        same("acknowledged, and lost", set(), self.done - names)
        same("refused, and there", set(), self.refused & names)
        same("there, and nobody tried", set(), names - self.tried)
        epochs = [epoch for _, epoch in rows]
        same("one writer after the other", sorted(epochs), epochs)
        return len(rows)


class SaidUnwaited:
    """What writers said of rows whose commits nobody waited for: for each epoch, in their order."""

    def __init__(self):
        self.done, self.codes = {}, set()

    def read(self, lines):
        epoch = None
        for line in lines:
            word, _, rest = line.partition(" ")
            if word == "epoch":
                epoch = int(rest)
            elif word == "tries":
                self.done.setdefault(epoch, []).append(rest)
            elif word in ("refused", "doubt"):
                self.codes.add(rest.split(" ")[1])

    def compare(self, address):
        """Of each epoch the first ones are there, up to some commit, and none after it. How many of how many."""
        connection, there = reader(address), {}
        same("integrity", "ok", one(connection, "pragma integrity_check"))
        epochs = []
        for name, epoch in connection.execute("select name, epoch from row order by id"):
            there.setdefault(epoch, []).append(name)
            epochs.append(epoch)
        same("one writer after the other", sorted(epochs), epochs)
        for epoch, names in there.items():
            same(
                "in their order, and none in between is lacking",
                self.done.get(epoch, [])[: len(names)],
                names,
            )
        return len(epochs), sum(len(names) for names in self.done.values())


def test_no_reader_sees_a_torn_transaction():
    return "; ".join(look_for_torn_transactions(unwaited) for unwaited in (0, 64))


def look_for_torn_transactions(unwaited):
    wanted = 3000 if LONG else 100
    with Service() as service:
        connection = connect(service.address)
        connection.executescript(
            "create table account(id integer primary key, money int, note blob); create table moment(number int);"
            "insert into moment values (0);"
            "with recursive g(v) as (select 0 union all select v + 1 from g where v < 199)"
            "insert into account select v, 1000, randomblob(100) from g;"
        )
        connection.close()
        writer = Started("accounts", service.address, unwaited)
        lookers = [Started("looks", service.address) for _ in range(2)]
        wait_until(
            lambda: writer.count("moment") >= wanted
            and all(looker.count("look") >= wanted for looker in lookers),
            [writer, *lookers],
        )
        said = [looker.finish() for looker in lookers]
        acknowledged = int(writer.kill()[-1].split()[1])
        there = one(reader(service.address), "select number from moment")
        true("the last commit is there", acknowledged - unwaited <= there <= acknowledged + 1)
        moments = [len(set(lines)) for lines in said]
        true("readers saw it move", all(count > 1 for count in moments))
        return (
            f"{acknowledged} transactions, readers looked {[len(lines) for lines in said]} times "
            f"and saw {moments} states"
        )


def test_failovers():
    """Two writers that both want to write all the time, and an operator that moves the epoch between them."""
    wanted, refused = (3000, 300) if LONG else (100, 10)
    with Service() as service:
        connect(service.address).execute(ROW)
        writers = [
            Started("rows", service.address, principal, principal, 2300000) for principal in (2, 5)
        ]
        numbers, failovers = random.Random(7), 0
        with service.operator() as operator:
            while (
                counted(writers, "done") < wanted or counted(writers, "refused", "doubt") < refused
            ):
                before, more = counted(writers, "done"), numbers.randrange(8)
                wait_until(lambda: counted(writers, "done") >= before + more, writers)
                time.sleep(numbers.random() * 0.05)
                operator.failover(numbers.choice([2, 5]))
                failovers += 1
                true("both go on", all(writer.process.poll() is None for writer in writers))
        said = Said()
        for writer in writers:
            said.read(writer.finish())
        rows = said.compare(service.address)
        true(
            f"codes {said.codes}",
            said.codes <= {"SQLITE_READONLY", "SQLITE_IOERR_FSYNC", "SQLITE_IOERR"},
        )
        return (
            f"{failovers} failovers beside those of the writers: {len(said.done)} acknowledged, "
            f"{len(said.refused)} refused, {len(said.doubt)} in doubt, {rows} rows"
        )


def test_killed_writers():
    rounds = 100 if LONG else 6
    with Service(workers=64) as service:
        connect(service.address).execute(ROW)
        said, numbers = Said(), random.Random(8)
        for i in range(rounds):
            writer = Started("rows", service.address, 2, 1000 + i, 2300000)
            wanted = numbers.randrange(1, 20)
            wait_until(lambda: writer.count("done") >= wanted, [writer])
            time.sleep(numbers.random() * 0.05)
            said.read(writer.kill())
        rows = said.compare(service.address)
        true("each had some done", len(said.done) >= rounds)
        with service.operator() as operator:
            hard = operator.status()[2]
        return f"{rounds} killed: {len(said.done)} acknowledged, {rows} rows in {hard} blocks"


def test_unwaited_writers_are_killed_and_fenced():
    """Of what each of them committed and nobody waited for, the first transactions are there, and no later one without them."""
    rounds = 100 if LONG else 8
    with Service(workers=64) as service, Proxy(
        service.address, plan=random_plan(11, 3000, 400000)
    ) as proxy, service.operator() as operator:
        connect(service.address).execute(ROW)
        said, numbers = SaidUnwaited(), random.Random(12)
        for i in range(rounds):
            writer = Started(
                "rows", proxy.address if i % 2 else service.address, 2, 1000 + i, 300000, 64
            )
            wanted = numbers.randrange(5, 60)
            wait_until(lambda: writer.count("done") >= wanted, [writer])
            if i % 4 > 1:
                operator.failover(2)
                wait_until(lambda: writer.count("doubt", "refused") > 0, [writer])
            said.read(writer.kill())
        operator.failover(5)
        there, done = said.compare(service.address)
        true(f"codes {said.codes}", said.codes <= {"SQLITE_READONLY", "SQLITE_IOERR_FSYNC"})
        return f"{rounds} killed or fenced: {there} rows of {done} that nobody waited for"


def test_cut_connections():
    """Each connection is cut after a random number of bytes; no commit fails by it."""
    wanted = 1500 if LONG else 60
    with Service(workers=64) as service, Proxy(
        service.address, plan=random_plan(9, 3000, 400000)
    ) as proxy:
        connect(service.address).execute(ROW)
        writer = Started("rows", proxy.address, 2, 1, 300000)
        wait_until(lambda: writer.count("done") >= wanted and proxy.cuts >= 10, [writer])
        said = Said()
        said.read(writer.finish())
        rows = said.compare(service.address)
        same("in doubt or refused", set(), said.doubt | said.refused)
        return f"{proxy.cuts} cuts: {len(said.done)} acknowledged, {rows} rows"


def test_failovers_and_cuts_at_once():
    wanted = 1500 if LONG else 60
    with Service(workers=64) as service, Proxy(
        service.address, plan=random_plan(10, 3000, 200000)
    ) as proxy:
        connect(service.address).execute(ROW)
        writers = [
            Started("rows", proxy.address, principal, principal, 300000) for principal in (2, 5)
        ]
        wait_until(
            lambda: counted(writers, "done") >= wanted
            and counted(writers, "refused", "doubt") >= 3
            and proxy.cuts >= 10,
            writers,
        )
        said = Said()
        for writer in writers:
            said.read(writer.finish())
        rows = said.compare(service.address)
        return (
            f"{proxy.cuts} cuts and failovers: {len(said.done)} acknowledged, {len(said.refused)} refused, "
            f"{len(said.doubt)} in doubt, {rows} rows"
        )


def test_two_writers_of_one_principal():
    """Two processes that write as one principal: each open begins an epoch, so that they never share one."""
    wanted, refused = (2000, 200) if LONG else (60, 10)
    with Service() as service:
        connect(service.address).execute(ROW)
        writers = [Started("rows", service.address, 2, seed, 100000) for seed in (1, 2)]
        wait_until(
            lambda: counted(writers, "done") >= wanted and counted(writers, "refused") >= refused,
            writers,
        )
        said = Said()
        for writer in writers:
            said.read(writer.finish())
        rows = said.compare(service.address)
        return f"{len(said.done)} acknowledged, {len(said.refused)} refused, {rows} rows"


def test_the_lag_of_a_follower():
    """How long after a commit was acknowledged a reader's next transaction may still not see it: not at all."""
    with Service() as service:
        writer, follower = connect(service.address, check=1000), reader(service.address)
        writer.execute("create table t(a)")
        longest = 0.0
        for i in range(100):
            writer.execute("insert into t values (?)", (i,))
            start_of_look = time.monotonic()
            same("seen at once", i + 1, one(follower, "select count(*) from t"))
            longest = max(longest, time.monotonic() - start_of_look)
        return f"a look takes {longest * 1000:.1f} ms at most"


if __name__ == "__main__":
    run("vfs processes", globals())
