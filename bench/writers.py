"""Times several processes that write one table, each a transaction after the other (begin immediate, an insert of a hundred bytes, commit):
SQLite over a database of keepers (check=50), with synchronous=full and normal, beside PostgreSQL by psycopg, MariaDB by mysqlclient where both
are installed (python3-mysqldb, mariadb-server), and stock SQLite in WAL, in one run and in turns. Of each it prints the commits a second, what a commit takes, the least and most commits of a process, and the load.

Usage: python3 -B bench/writers.py [--accounts] [--seconds S] [--rounds N] [PROCESSES ..]     (1.5 seconds, 3 rounds; 1, 2 and 8 processes)

With --accounts a transaction is one as of TPC-B: three updates, of an account, a teller and the branch, a select of the balance, and an insert
into the history, each commit waits for the disk, or for PostgreSQL, and each rate is compared with that of stock SQLite.

The service is crates/pagelog/out/pagelog, or the program that PAGELOG names. PostgreSQL is the one of the keepers, with fsync, on the disk of
TMPDIR, where stock SQLite's file is too; what an fdatasync of 8 KiB takes there is printed first."""

import argparse
import contextlib
import multiprocessing
import os
import pathlib
import random
import shutil
import sqlite3
import statistics
import subprocess
import sys
import tempfile
import time

ROOT = pathlib.Path(__file__).resolve().parent.parent
os.environ.setdefault("PAGELOG", str(ROOT / "crates" / "pagelog" / "out" / "pagelog"))
os.environ.setdefault("PAGELOG_EXTENSION", str(ROOT / "clients" / "c" / "pagelog_vfs.so"))
sys.path[:0] = [str(ROOT / "clients" / "c" / "tests"), str(ROOT / "clients" / "python" / "src")]
TABLE = "create table w(id {}, who integer, text text)"
TEXT = "x" * 100
ACCOUNTS, TELLERS, MOST = 10_000, 10, 5_000
STOCK = "stock SQLite, WAL, full"


class Inserts:
    """A row of a hundred bytes."""

    is_full_alone = False

    def make(self, connection, system):
        connection.execute(TABLE.format(system.key))

    def write(self, connection, mark, who, chance):
        connection.execute(f"insert into w(who, text) values ({mark}, {mark})", (who, TEXT))


class Accounts:
    """One branch, as each writer of TPC-B has it to do with."""

    is_full_alone = True

    def make(self, connection, system):
        for name, more in (("accounts", ", teller integer"), ("tellers", ""), ("branches", "")):
            connection.execute(
                f"create table {name}(id integer primary key, balance integer{more}, filler char(80))"
            )
        connection.execute(
            "create table history(teller integer, branch integer, account integer, delta integer, filler char(22))"
        )
        mark = system.mark
        connection.execute("begin")
        for account in range(1, ACCOUNTS + 1):
            connection.execute(
                f"insert into accounts values ({mark}, 0, {mark}, {mark})",
                (account, 1 + account % TELLERS, TEXT[:80]),
            )
        for name, count in (("tellers", TELLERS), ("branches", 1)):
            for number in range(1, count + 1):
                connection.execute(
                    f"insert into {name} values ({mark}, 0, {mark})", (number, TEXT[:80])
                )
        connection.execute("commit")

    def write(self, connection, mark, who, chance):
        account, teller = chance.randint(1, ACCOUNTS), chance.randint(1, TELLERS)
        delta = chance.randint(-MOST, MOST)
        update = f"update {{}} set balance = balance + {mark} where id = {mark}"
        connection.execute(update.format("accounts"), (delta, account))
        connection.execute(f"select balance from accounts where id = {mark}", (account,)).fetchone()
        connection.execute(update.format("tellers"), (delta, teller))
        connection.execute(update.format("branches"), (delta, 1))
        connection.execute(
            f"insert into history values ({mark}, 1, {mark}, {mark}, {mark})",
            (teller, account, delta, TEXT[:22]),
        )


class System:
    """What is written to: how a process opens it, how its transactions begin, its mark for a value, and what each of them does."""

    def __init__(self, name, opened, load, begin="begin immediate", mark="?"):
        self.name, self.opened, self.begin, self.mark, self.load = name, opened, begin, mark, load
        self.rounds = []

    @property
    def key(self):
        """The type of a number that it gives to each row."""
        if self.mark == "?":
            return "integer primary key"
        return (
            "bigint auto_increment primary key" if "Maria" in self.name else "bigserial primary key"
        )

    def write(self, who, seconds, start, told):
        """A process: how long each commit took. An error ends its transaction, and is counted."""
        connection, taken, errors, chance = self.opened(), [], 0, random.Random(who)
        start.wait()
        end = time.perf_counter() + seconds
        while (since := time.perf_counter()) < end:
            try:
                connection.execute(self.begin)
                self.load.write(connection, self.mark, who, chance)
                connection.execute("commit")
                taken.append(time.perf_counter() - since)
            except Exception as error:  # noqa: BLE001
                errors += 1
                sys.stderr.write(f"{self.name}: {error!r}\n")
                with contextlib.suppress(Exception):
                    connection.execute("rollback")
        told.put((taken, errors))
        connection.close()

    def round(self, processes, seconds):
        context = multiprocessing.get_context("fork")
        start, told = context.Event(), context.Queue()
        made = [
            context.Process(target=self.write, args=(who, seconds, start, told))
            for who in range(processes)
        ]
        for each in made:
            each.start()
        time.sleep(0.4)
        start.set()
        said = [told.get(timeout=300) for _ in made]
        for each in made:
            each.join()
        self.rounds.append((said, seconds))

    def rate(self):
        """Transactions a second, of the rounds that are not shown yet."""
        rates = [sum(len(one) for one, _ in said) / seconds for said, seconds in self.rounds]
        return statistics.median(rates) if rates else 0

    def show(self, processes):
        rates, least, most, errors = [], [], [], 0
        taken = sorted(each for said, _ in self.rounds for one, _ in said for each in one)
        for said, seconds in self.rounds:
            counts = [len(one) for one, _ in said]
            rates.append(sum(counts) / seconds)
            least.append(min(counts))
            most.append(max(counts))
            errors += sum(count for _, count in said)
        at = [
            1000 * taken[min(len(taken) - 1, int(len(taken) * share))] for share in (0.5, 0.99, 1)
        ]
        print(
            f"{processes} processes, {self.name:28} {statistics.median(rates):8.0f} a second; {at[0]:6.2f}, {at[1]:7.2f}, {at[2]:7.1f} ms "
            f"(half, 99 in 100, longest); of a process {statistics.median(least):.0f} to {statistics.median(most):.0f}; {errors} errors",
            flush=True,
        )
        self.rounds = []


class Cursors:
    """A connection of MySQLdb, which executes by itself as the others do."""

    def __init__(self, connection):
        self._connection = connection

    def execute(self, text, values=None):
        cursor = self._connection.cursor()
        cursor.execute(text, values)
        return cursor

    def close(self):
        self._connection.close()


@contextlib.contextmanager
def mariadb(folder):
    """A server of its own, as it comes: each commit waits for the disk. Yields who opens a connection; None where it is not installed."""
    try:
        import MySQLdb
    except ImportError:
        MySQLdb = None  # noqa: N806
    if MySQLdb is None or not shutil.which("mariadbd"):
        yield None
        return
    data, socket = folder / "mariadb", folder / "mariadb.socket"
    data.mkdir()
    if os.getuid() == 0:
        folder.chmod(0o777)  # the server runs as its own user
        shutil.chown(data, "mysql")
    user = ["--user=mysql"] if os.getuid() == 0 else []
    subprocess.run(
        ["mariadb-install-db", *user, f"--datadir={data}", "--skip-test-db"]
        + ["--auth-root-authentication-method=normal"],
        check=True,
        stdout=subprocess.DEVNULL,
        stderr=subprocess.DEVNULL,
    )
    server = subprocess.Popen(
        ["mariadbd", "--no-defaults", *user, f"--datadir={data}", f"--socket={socket}"]
        + ["--skip-networking", f"--pid-file={data}/pid"],
        stdout=subprocess.DEVNULL,
        stderr=subprocess.DEVNULL,
    )

    def opened(**more):
        connection = MySQLdb.connect(unix_socket=str(socket), user="root", **more)
        connection.autocommit(True)
        return Cursors(connection)

    try:
        for _ in range(300):
            with contextlib.suppress(MySQLdb.Error):
                opened().execute("create database bench")
                break
            time.sleep(0.1)
        yield lambda: opened(db="bench")
    finally:
        server.terminate()
        server.wait()


def fdatasync_ms(folder):
    taken = []
    with tempfile.TemporaryFile(dir=folder) as file:
        for _ in range(50):
            os.pwrite(file.fileno(), os.urandom(8192), 0)
            since = time.perf_counter()
            os.fdatasync(file.fileno())
            taken.append(time.perf_counter() - since)
    return 1000 * statistics.median(taken)


def plain(path, level):
    connection = sqlite3.connect(path, isolation_level=None, timeout=60)
    connection.execute("pragma journal_mode = wal")
    connection.execute(f"pragma synchronous = {level}")
    return connection


@contextlib.contextmanager
def systems(folder, load):
    from database import sqlite_of

    del sys.modules["service"]  # the tests of the keepers have one of their own
    sys.path.insert(0, str(ROOT / "clients" / "python" / "tests"))
    import postgres
    import psycopg
    from keepers import Keeping

    run = postgres.Postgres.run
    postgres.Postgres.run = lambda server, program, *words: run(
        server,
        program,
        *(str(word).replace("max_connections=30", "max_connections=200") for word in words),
    )

    def kept(name, level):
        connection = sqlite_of(addresses, name, 2, busy=60, check=50)
        connection.execute(f"pragma synchronous = {level}")
        return connection

    levels = ("full",) if load.is_full_alone else ("full", "normal")
    with Keeping(ttl=3.0) as keeping, mariadb(folder) as maria:
        for name in levels:
            keeping.referee.create(
                name, (ROOT / "clients" / "c" / "table.toml").read_text(), b"s" * 16
            )
        keeping.start("a")
        addresses = ",".join(keeping.addresses)
        made = []
        for name in levels:
            keeping.place(name)
            made.append(
                System(f"keepers, synchronous={name}", lambda name=name: kept(name, name), load)
            )
        postgresql = lambda: psycopg.connect(keeping.url, autocommit=True)  # noqa: E731
        made.append(System("PostgreSQL", postgresql, load, "begin", "%s"))
        if maria:
            made.append(System("MariaDB", maria, load, "begin", "%s"))
        for level in levels:
            made.append(
                System(
                    f"stock SQLite, WAL, {level}",
                    lambda level=level: plain(folder / f"{level}.db", level),
                    load,
                )
            )
        for each in made:
            connection = each.opened()
            load.make(connection, each)
            connection.close()
        yield made


def main():
    words = argparse.ArgumentParser(
        description=__doc__, formatter_class=argparse.RawDescriptionHelpFormatter
    )
    words.add_argument("--seconds", type=float, default=1.5)
    words.add_argument("--rounds", type=int, default=3)
    words.add_argument("--only", default="", help="systems whose names have this alone")
    words.add_argument("--accounts", action="store_true", help="transactions as of TPC-B")
    words.add_argument("processes", nargs="*", type=int, default=[1, 2, 8])
    asked = words.parse_args()
    load = Accounts() if asked.accounts else Inserts()
    with tempfile.TemporaryDirectory() as folder, systems(pathlib.Path(folder), load) as made:
        print(
            f"fdatasync of 8 KiB: {fdatasync_ms(folder):.2f} ms; {os.cpu_count()} processors; load {os.getloadavg()[0]:.1f}"
        )
        for processes in asked.processes or [1, 2, 8]:
            before = os.getloadavg()[0]
            for _ in range(asked.rounds):
                for each in made:
                    if asked.only in each.name:
                        each.round(processes, asked.seconds)
            print(f"load {before:.1f} before, {os.getloadavg()[0]:.1f} after:")
            stock = next((each.rate() for each in made if each.name == STOCK), 0)
            if asked.accounts and stock:
                ratios = [f"{each.name} {each.rate() / stock:.2f}" for each in made if each.rounds]
                print(f"of the rate of {STOCK}: {'; '.join(ratios)}")
            for each in made:
                if asked.only in each.name:
                    each.show(processes)


if __name__ == "__main__":
    main()
