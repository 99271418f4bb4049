"""SQLite over the service, in one process: statements, locks, settings, errors."""

import os
import random
import re
import sqlite3
import subprocess
import sys
import tempfile
import threading
import time

from check import LONG, MODEL, run, same, true
from database import EXTENSION, TOKENS, code_of, connect, one, reader, uri
from service import (
    CLIENT,
    Answer,
    Asker,
    Peer,
    Proxy,
    START_TABLE,
    TABLE,
    Service,
    failing_over,
    plain_environment,
    wire,
)

COUNT = 40000 if LONG else 300 if MODEL else 10000


def mixed(numbers, count):
    """Statements of many kinds, each list a transaction; some fail, some are rolled back."""
    yield [
        "create table account(id integer primary key, money int, note text)",
        "create table blob(id integer primary key, data blob)",
        "create index by_note on account(note)",
        "insert into account select value, 1000, 'n' || value from generate(200)",
    ]
    for i in range(count):
        kind, a, b = numbers.random(), numbers.randrange(200), numbers.randrange(200)
        if kind < 0.5:
            yield [
                f"update account set money = money - {a} where id = {a}",
                f"update account set money = money + {a} where id = {b}",
            ]
        elif kind < 0.65:
            yield [
                f"insert into blob(data) values (x'{numbers.randbytes(numbers.randrange(3000)).hex()}')"
            ]
        elif kind < 0.75:
            yield [f"delete from blob where id % 37 = {a % 37}"]
        elif kind < 0.82:
            yield [
                f"update account set note = 'x{a}' where id = {b}",
                "savepoint s",
                f"insert into blob(data) values ('{a}')",
                "rollback to s",
                "release s",
            ]
        elif kind < 0.88:
            yield [f"update account set note = 'lost' where id < {b}", "rollback"]
        elif kind < 0.93:
            yield [
                f"update account set note = 'kept' where id = {b}",
                "insert into account values (1, 1, 'twice')",
            ]
        elif kind < 0.995:
            yield [f"update account set note = note || '{a}' where id % 7 = {a % 7}"]
        else:
            yield [
                f"insert into blob(data) select randomized({a}, value) from generate({numbers.randrange(2200 if LONG else 700)})"
            ]
        if i == count // 2:
            yield ["vacuum"]


def unwaiting(address, **more):
    """A writer that waits for no commit."""
    connection = connect(address, async_commits=64, **more)
    connection.execute("pragma synchronous = off")
    return connection


def prepare(connection):
    """Functions in place of what a plain list of statements lacks."""
    connection.create_function(
        "randomized", 2, lambda a, b: random.Random(a * 1000003 + b).randbytes(700)
    )


def play(connection, transactions):
    for statements in transactions:
        if statements != ["vacuum"]:
            connection.execute("begin")
        for statement in statements:
            try:
                connection.execute(statement)
            except sqlite3.IntegrityError:
                pass
        if connection.in_transaction:
            connection.execute("commit")


def generated(statements):
    """The statements with `generate(N)` spelled out."""
    spelled = (
        "(with recursive g(value) as (select 0 union all select value + 1 from g where value + 1 < \\1) "
        "select value from g)"
    )
    return [re.sub(r"generate\((\d+)\)", spelled, statement) for statement in statements]


def test_mixed_transactions_beside_plain_sqlite():
    """Once each of them waits, and once nobody does."""
    transactions = [generated(statements) for statements in mixed(random.Random(1), COUNT)]
    with Service(dbs=2) as service:
        ours, plain = connect(service.address, check=20), sqlite3.connect(
            ":memory:", isolation_level=None
        )
        unwaited = unwaiting(service.address, check=20, db=1)
        for connection in (ours, unwaited, plain):
            prepare(connection)
            play(connection, transactions)
        wanted = list(plain.iterdump())
        for database, connection in enumerate((ours, unwaited)):
            same("integrity", "ok", one(connection, "pragma integrity_check"))
            same("dump", wanted, list(connection.iterdump()))
            connection.execute("pragma pagelog_async_commits = 0")
            with_reader = reader(service.address, db=database)
            same("integrity of a reader", "ok", one(with_reader, "pragma integrity_check"))
            same("dump of a reader", wanted, list(with_reader.iterdump()))
        same("none was lost", "0", one(unwaited, "pragma pagelog_losses"))
        return f"{len(transactions)} mixed transactions, twice"


def test_page_sizes():
    for size in (512, 1024, 4096, 8192, 16384, 65536):
        with Service() as service:
            connection = connect(service.address, check=1000)
            connection.execute(f"pragma page_size = {size}")
            connection.execute("create table t(a, b)")
            connection.execute("insert into t select 1, randomblob(5000)")
            for _ in range(4):
                connection.execute("insert into t select a + 1, randomblob(3000) from t")
            connection.execute("delete from t where rowid % 3 = 0")
            connection.execute("vacuum")
            same(
                "size",
                (size, "ok"),
                (one(connection, "pragma page_size"), one(connection, "pragma integrity_check")),
            )
            follower = reader(service.address)
            same(
                "reader",
                (size, "ok"),
                (one(follower, "pragma page_size"), one(follower, "pragma integrity_check")),
            )
            same(
                "rows",
                one(connection, "select total(length(b)) from t"),
                one(follower, "select total(length(b)) from t"),
            )
    with Service() as service:
        connection = connect(service.address)
        connection.execute("create table t(a)")
        same("the page size that SQLite takes by itself", 8192, one(connection, "pragma page_size"))


def test_database_that_was_copied_from_wal():
    """Its first page says that it has a WAL. There is none here."""
    with Service() as service, tempfile.TemporaryDirectory() as folder:
        plain = sqlite3.connect(os.path.join(folder, "plain.db"), isolation_level=None)
        same("a WAL", "wal", one(plain, "pragma journal_mode = wal"))
        plain.execute("create table t(a)")
        plain.execute("insert into t values (1)")
        connection = connect(service.address)
        plain.backup(connection)
        for number, opened in ((2, connection), (3, connect(service.address))):
            opened.execute("insert into t values (?)", (number,))
            same("rows", number, one(opened, "select count(*) from t"))
            same("no WAL", "delete", one(opened, "pragma journal_mode"))
        same("a reader's rows", 6, one(reader(service.address), "select sum(a) from t"))
        plain.close()


def test_journal_and_locking_modes():
    with Service() as service:
        connection = connect(service.address)
        connection.execute("create table t(a)")
        same("no WAL", "delete", one(connection, "pragma journal_mode = wal"))
        for i, mode in enumerate(("truncate", "persist", "memory", "off", "delete")):
            same("mode", mode, one(connection, f"pragma journal_mode = {mode}"))
            for synchronous in ("off", "full"):
                connection.execute(f"pragma synchronous = {synchronous}")
                before = int(one(connection, "pragma pagelog_commits"))
                connection.execute("insert into t values (?)", (i,))
                same("a commit", before + 1, int(one(connection, "pragma pagelog_commits")))
        same("rows", 10, one(reader(service.address), "select count(*) from t"))
        same("exclusive", "exclusive", one(connection, "pragma locking_mode = exclusive"))
        connection.execute("insert into t values (1)")
        connection.execute("insert into t values (2)")
        same("no WAL either", "delete", one(connection, "pragma journal_mode = wal"))
        same("what is no locking mode", "exclusive", one(connection, "pragma locking_mode = other"))
        same("another mode", "memory", one(connection, "pragma journal_mode = memory"))
        same("which stays", "memory", one(connection, "pragma journal_mode = WAL"))
        connection.execute("delete from t where rowid = 12")
        connection.execute("insert into t values (2)")
        same("rows", 12, one(reader(service.address), "select count(*) from t"))


def test_a_follower_of_a_writer_that_keeps_the_lock():
    """Its commits do not raise the change counter of the database. A follower that has pages in SQLite's own cache sees each of
    them nevertheless, and no mixture."""
    with Service() as service:
        writer, follower = connect(service.address), reader(service.address)
        same("exclusive", "exclusive", one(writer, "pragma locking_mode = exclusive"))
        writer.execute("create table account(id integer primary key, money int, pad blob)")
        writer.execute(
            "with recursive g(v) as (select 1 union all select v + 1 from g where v < 50)"
            "insert into account select v, 100, zeroblob(5000) from g"
        )
        for number in range(1, 21):
            same("before", 101 - number, one(follower, "select money from account where id = 1"))
            version = one(follower, "pragma data_version")
            writer.execute(
                f"update account set money = case id when 1 then money - 1 else money + 1 end where id in (1, {2 * number})"
            )
            same(
                "after",
                (100 - number, 5000),
                (
                    one(follower, "select money from account where id = 1"),
                    one(follower, "select sum(money) from account"),
                ),
            )
            true("another version", one(follower, "pragma data_version") != version)


def test_connections_of_one_process_lock():
    with Service() as service:
        first, second = connect(service.address, busy=0), connect(service.address, busy=0)
        first.execute("create table t(a)")
        same("one epoch", one(first, "pragma pagelog_epoch"), one(second, "pragma pagelog_epoch"))
        first.execute("begin immediate")
        first.execute("insert into t values (1)")
        same("busy", "SQLITE_BUSY", code_of(lambda: second.execute("begin immediate")))
        same("others read", 0, one(second, "select count(*) from t"))
        second.execute("begin")
        one(second, "select count(*) from t")
        same("a commit waits for readers", "SQLITE_BUSY", code_of(lambda: first.execute("commit")))
        same(
            "who comes now waits too",
            "SQLITE_BUSY",
            code_of(lambda: connect(service.address, busy=0).execute("select * from t").fetchall()),
        )
        second.execute("commit")
        first.execute("commit")
        same("seen", 1, one(second, "select count(*) from t"))


def test_threads_of_one_process():
    wanted, errors, counts = 2000 if LONG else 150, [], [0, 0]
    with Service() as service:
        connect(service.address).executescript(
            "create table account(id integer primary key, money int);"
            "insert into account values (1, 500), (2, 500);"
        )
        start = connect(service.address)

        def write():
            connection = connect(service.address, check=5, busy=600)
            for _ in range(wanted):
                connection.execute("begin immediate")
                connection.execute("update account set money = money - 1 where id = 1")
                connection.execute("update account set money = money + 1 where id = 2")
                connection.execute("commit")
                counts[0] += 1

        def read():
            connection = connect(service.address, check=5, busy=600)
            while counts[0] < 2 * wanted and not errors or counts[1] < 20:
                if one(connection, "select sum(money) from account") != 1000:
                    errors.append("torn")
                counts[1] += 1

        def guarded(action):
            try:
                action()
            except Exception as error:  # noqa: BLE001
                errors.append(error)

        threads = [
            threading.Thread(target=guarded, args=(action,))
            for action in (write, write, read, read)
        ]
        for thread in threads:
            thread.start()
        for thread in threads:
            thread.join()
        same("errors", [], errors)
        moved = one(start, "select money from account where id = 2") - 500
        same("each commit is there", (2 * wanted, 2 * wanted), (counts[0], moved))


def test_a_second_writer_fences_the_first():
    """In another process, as it were: as another principal, so that no lock of this process is shared."""
    with Service() as service:
        old = connect(service.address, 2)
        old.executescript("create table t(a); insert into t values (1);")
        old.execute("begin immediate")
        old.execute("insert into t values (2)")
        new = connect(service.address, 5)
        new.execute("insert into t values (3)")
        same("fenced", "SQLITE_READONLY", code_of(lambda: old.execute("commit")))
        same("rolled back", False, old.in_transaction)
        true("why", "denied A2" in one(old, "pragma pagelog_error"))
        same("role", "fenced", one(old, "pragma pagelog_role"))
        same("it reads on", [(1,), (3,)], old.execute("select a from t").fetchall())
        new.execute("insert into t values (4)")
        same("and follows", 3, one(old, "select count(*) from t"))
        same(
            "and does not write",
            "SQLITE_READONLY",
            code_of(lambda: old.execute("insert into t values (5)")),
        )
        same(
            "why", "fenced: epoch 2 is over, the current one is 3", one(old, "pragma pagelog_error")
        )
        same("no row of it", [(1,), (3,), (4,)], new.execute("select a from t").fetchall())
        old.close()
        again = connect(service.address, 2)
        again.execute("insert into t values (6)")
        same(
            "unless it opens again",
            "SQLITE_READONLY",
            code_of(lambda: new.execute("insert into t values (7)")),
        )


def number_of(connection, name):
    return int(one(connection, f"pragma pagelog_{name}"))


def test_commits_that_nobody_waits_for():
    """Only where both are said: `unwaited` and synchronous=off. Who closes waits."""
    with Service() as service:
        connection = connect(service.address, check=3600000, async_commits=30)
        connection.execute("create table t(a)")
        for synchronous, unwaited, least, most in (
            ("full", 30, 100, 100),
            ("normal", 30, 100, 100),
            ("off", 0, 100, 100),
            ("off", 30, 0, 10),
        ):
            connection.execute(f"pragma synchronous = {synchronous}")
            same(
                "unwaited",
                str(unwaited),
                one(connection, f"pragma pagelog_async_commits = {unwaited}"),
            )
            before = number_of(connection, "round_trips")
            for number in range(100):
                connection.execute("insert into t values (?)", (number,))
            trips = number_of(connection, "round_trips") - before
            true(f"{trips} round trips, {synchronous}, {unwaited}", least <= trips <= most)
        true("on their way", 0 < number_of(connection, "on_their_way") <= 30)
        connection.execute("pragma synchronous = full")
        connection.execute("insert into t values (1)")
        same("waited for", 0, number_of(connection, "on_their_way"))
        same("rows", 401, one(reader(service.address), "select count(*) from t"))
        connection.close()
        with Proxy(service.address, between=lambda frame: time.sleep(0.05) or frame) as proxy:
            slow = unwaiting(proxy.address, check=3600000)
            slow.execute("insert into t values (1)")
            slow.close()
            same("closed", 402, one(reader(service.address), "select count(*) from t"))


def test_a_commit_waits_at_the_limit():
    """The proxy holds all replies back until the report of a 31st commit has come. So 30 commits wait for nothing, and the
    next one cannot find its replies there: it has to wait. Without the limit it would not; the window has room for 64.
    """
    limit, reports = 30, [0]

    def between(frame):
        reports[0] += frame[33] == wire.REPORT
        return frame

    with Service() as service:
        first = connect(service.address)
        first.execute("create table t(a)")
        first.close()
        with Proxy(
            service.address, between=between, holds=lambda: reports[0] % (limit + 1) > 0
        ) as proxy:
            connection = connect(
                proxy.address, check=3600000, async_commits=limit, timeout=60000, patience=1000
            )
            connection.execute("pragma synchronous = off")
            same("no row yet", 0, one(connection, "select count(*) from t"))
            before = number_of(connection, "round_trips")
            for number in range(1, 3 * (limit + 1) + 1):
                connection.execute("insert into t values (?)", (number,))
                same(
                    f"on their way after {number}",
                    number % (limit + 1),
                    number_of(connection, "on_their_way"),
                )
            same("round trips", 3, number_of(connection, "round_trips") - before)
            same("rows", number, one(reader(service.address), "select count(*) from t"))
            connection.close()


def test_a_cache_of_lost_commits_is_not_believed():
    """Another writer's transaction has the change counter of the one that was lost. The error comes once."""
    with Service() as service:
        old, other = (unwaiting(service.address, check=3600000) for _ in range(2))
        old.executescript("create table t(a); insert into t values (1);")
        old.execute("pragma pagelog_async_commits = 64")
        for connection in (old, other):
            same("in the cache of both", [(1,)], connection.execute("select a from t").fetchall())
        new = connect(service.address, 5)
        new.execute("select a from t").fetchall()
        old.execute("insert into t values (2)")
        new.execute("insert into t values (3)")
        while code_of(lambda: old.execute("select a from t").fetchall()) != "SQLITE_IOERR_FSYNC":
            pass
        true("why", "nobody waited for" in one(old, "pragma pagelog_error"))
        old.execute("pragma pagelog_check = 0")
        for connection in (old, other, old):
            same("what is there", [(1,), (3,)], connection.execute("select a from t").fetchall())
            same("integrity", "ok", one(connection, "pragma integrity_check"))
        same("fenced", "SQLITE_READONLY", code_of(lambda: old.execute("insert into t values (4)")))


def test_lost_commits_and_a_connection_that_comes_after():
    """Who has learned of the loss has not begun again: another one opens the database all the same. Where somebody has not ended
    a transaction that reads, it waits for that."""
    may_pass = threading.Event()
    between = lambda frame: may_pass.wait() and frame
    for is_reading in (False, True):
        may_pass.set()
        with Service() as service, service.operator() as operator, Proxy(
            service.address, between=between
        ) as proxy:
            old, looker = (unwaiting(proxy.address, check=3600000) for _ in range(2))
            old.executescript(
                "pragma page_size = 4096; create table t(a); insert into t values (1);"
            )
            old.execute("pragma pagelog_async_commits = 64")
            operator.failover(2)
            may_pass.clear()
            old.execute("insert into t values (2)")
            if is_reading:
                looker.execute("begin")
                same("what nobody waited for", 2, one(looker, "select count(*) from t"))
            may_pass.set()
            same(
                "reported",
                "SQLITE_IOERR_FSYNC",
                code_of(lambda: old.execute("pragma pagelog_async_commits = 0")),
            )
            new = connect(proxy.address, busy=0.1)
            if is_reading:
                same("waits", "SQLITE_BUSY", code_of(lambda: one(new, "select count(*) from t")))
                looker.rollback()
            same("what is there", [(1,)], new.execute("select a from t").fetchall())
            same("its pages", 4096, one(new, "pragma page_size"))
            same("all", [(1,)], old.execute("select a from t").fetchall())
            same(
                "it has taken over", None, code_of(lambda: new.execute("insert into t values (3)"))
            )


def test_commits_that_are_lost_while_a_connection_closes():
    """The connection that is left tells it, once; not so where it was told before."""
    for is_told in (False, True):
        with Service() as service, service.operator() as operator:
            closing, left = (unwaiting(service.address, check=3600000) for _ in range(2))
            left.executescript("create table t(a); insert into t values (1);")
            left.execute("pragma pagelog_async_commits = 64")
            operator.failover(2)
            left.execute("insert into t values (2)")
            if is_told:
                same(
                    "told",
                    "SQLITE_IOERR_FSYNC",
                    code_of(lambda: left.execute("pragma pagelog_async_commits = 0")),
                )
            closing.close()
            if not is_told:
                same(
                    "told by the next",
                    "SQLITE_IOERR_FSYNC",
                    code_of(lambda: one(left, "select count(*) from t")),
                )
            same(
                "what is there",
                (1, "1"),
                (one(left, "select count(*) from t"), one(left, "pragma pagelog_losses")),
            )


def test_commits_that_are_lost_while_the_file_is_made_shorter():
    """That is done once a COMMIT has come to its end, and what is lost meanwhile is told by the next statement, once."""
    for write in range(1, 15):
        with Service() as service:
            rule, told = [None], []
            between = lambda frame: rule[0](frame) if rule[0] else frame
            with Proxy(service.address, between=between) as proxy:
                connection = unwaiting(proxy.address, check=3600000)
                connection.executescript(
                    "pragma auto_vacuum = full; create table t(a); create table u(a);"
                )
                connection.execute("insert into t values (zeroblob(100000))")
                connection.execute("pragma pagelog_async_commits = 1")
                rule[0] = failing_over(service, wire.WRITE, write, to=2)
                for text in (
                    "insert into u values (1)",
                    "insert into u values (2)",
                    "delete from t",
                    "select count(*) from t",
                    "select a from u",
                ):
                    told.append(code_of(lambda: connection.execute(text).fetchall()))
                told.append(
                    code_of(
                        lambda: connection.execute("pragma pagelog_async_commits = 0").fetchall()
                    )
                )
                there = (
                    one(connection, "select count(*) from t"),
                    one(connection, "select count(*) from u"),
                )
                same(
                    f"before write {write}, lost",
                    there != (0, 2) or number_of(connection, "losses") > 0,
                    "SQLITE_IOERR_FSYNC" in told,
                )
                true(f"once: {told}", told.count("SQLITE_IOERR_FSYNC") <= 1)
                connection.close()


def test_lost_commits_and_a_transaction_that_reads():
    """A connection that reads when another one learns of the loss gets an error for pages that it has not read yet, and none of
    another moment. Nobody begins to read before it has ended."""
    may_pass = threading.Event()
    may_pass.set()
    between = lambda frame: may_pass.wait() and frame
    with Service() as service, service.operator() as operator, Proxy(
        service.address, between=between
    ) as proxy:
        writer, looker = (unwaiting(proxy.address, check=3600000, busy=0.1) for _ in range(2))
        looker.execute("pragma cache_size = 1")
        writer.execute("create table t(a integer primary key, b)")
        writer.execute(
            "with recursive g(v) as (select 1 union all select v + 1 from g where v < 300)"
            "insert into t select v, zeroblob(3000) from g"
        )
        writer.execute("pragma pagelog_async_commits = 64")
        operator.failover(2)
        may_pass.clear()
        writer.execute("update t set b = randomblob(3000)")
        looker.execute("begin")
        rows = looker.execute("select a, b from t")
        true("what nobody waited for", rows.fetchone()[1] != bytes(3000))
        may_pass.set()
        same(
            "reported",
            "SQLITE_IOERR_FSYNC",
            code_of(lambda: writer.execute("pragma pagelog_async_commits = 0")),
        )
        same("nobody begins", "SQLITE_BUSY", code_of(lambda: one(writer, "select count(*) from t")))
        same("torn", "SQLITE_IOERR_FSYNC", code_of(rows.fetchall))
        if looker.in_transaction:
            looker.rollback()
        for connection in (looker, writer):
            same(
                "as it was",
                (300, "ok"),
                (
                    one(connection, "select count(*) from t where b = zeroblob(3000)"),
                    one(connection, "pragma integrity_check"),
                ),
            )
        same(
            "fenced",
            "SQLITE_READONLY",
            code_of(lambda: writer.execute("insert into t values (1000, 1)")),
        )


def test_a_reader_keeps_its_snapshot_and_the_past_stays():
    with Service() as service:
        writer = connect(service.address)
        writer.execute("create table t(a)")
        lsns = []
        for i in range(20):
            writer.execute("insert into t values (?)", (i,))
            lsns.append(int(one(writer, "pragma pagelog_lsn")))
        follower = reader(service.address)
        follower.execute("begin")
        same("now", 20, one(follower, "select count(*) from t"))
        writer.execute("delete from t")
        same("still", 20, one(follower, "select count(*) from t"))
        follower.execute("commit")
        same("then", 0, one(follower, "select count(*) from t"))
        for i in (0, 7, 19):
            same(
                "past",
                i + 1,
                one(connect(service.address, 4, None, at=lsns[i]), "select count(*) from t"),
            )
        same(
            "a reader writes nothing",
            "SQLITE_READONLY",
            code_of(lambda: follower.execute("insert into t values (1)")),
        )


def test_settings():
    with Service(dbs=2) as service:
        folder = tempfile.mkdtemp()
        path = os.path.join(folder, "credentials")
        with open(path, "w") as file:
            file.write(f"id 2\ntoken {TOKENS[2]}\nop 1\noptoken {TOKENS[1]}\n")
        plain = f"file:test?vfs=pagelog&to={service.address}"
        opened = lambda text: sqlite3.connect(text, uri=True, isolation_level=None)
        for mode in (0o640, 0o604, 0o620):
            os.chmod(path, mode)
            same(
                "others may read it",
                "SQLITE_PERM",
                code_of(lambda: opened(f"{plain}&credentials={path}")),
            )
        os.chmod(path, 0o600)
        opened(f"{plain}&credentials={path}").execute("create table t(a)")
        same("no token", "SQLITE_MISUSE", code_of(lambda: opened(plain)))
        os.environ.update(PAGELOG_ID="3", PAGELOG_TOKEN=TOKENS[3])
        same("of the environment", 0, one(opened(f"{plain}&mode=ro"), "select count(*) from t"))
        del os.environ["PAGELOG_ID"], os.environ["PAGELOG_TOKEN"]
        os.remove(path), os.rmdir(folder)
        other = connect(service.address, db=1)
        same("another database", 0, one(other, "select count(*) from sqlite_schema"))
        for text, code in (
            ("id=9", "SQLITE_MISUSE"),
            ("id=3&token=zz", "SQLITE_MISUSE"),
            (f"id=3&token={TOKENS[3]}&db=x", "SQLITE_MISUSE"),
            (f"id=3&token={TOKENS[3]}&copies=1", "SQLITE_MISUSE"),
            (f"id=3&token={TOKENS[3]}&copies=4", "SQLITE_MISUSE"),
            (f"id=3&token={TOKENS[3]}&copies=6&quorum=2", "SQLITE_MISUSE"),
            (f"id=3&token={TOKENS[3]}&quorum=4", "SQLITE_MISUSE"),
            (f"id=3&token={TOKENS[3]}&written=1", "SQLITE_MISUSE"),
            (f"id=3&token={TOKENS[3]}&written=4", "SQLITE_MISUSE"),
            (f"id=3&token={TOKENS[3]}&copies=6&written=3", "SQLITE_MISUSE"),
            (f"id=3&token={TOKENS[3]}&op=1", "SQLITE_MISUSE"),
            (f"id=3&token={TOKENS[3]}&mode=ro&spin=x", "SQLITE_MISUSE"),
            (f"id=3&token={TOKENS[3]}&mode=ro&pages=x", "SQLITE_MISUSE"),
            (f"id=3&token={TOKENS[3]}&async_commits=65", "SQLITE_MISUSE"),
            (f"id=3&token={TOKENS[4]}&mode=ro", "SQLITE_PERM"),
            (f"id=3&token={TOKENS[3]}&mode=ro&db=2", "SQLITE_PERM"),
            (f"id=3&token={TOKENS[3]}", "SQLITE_READONLY"),
            (f"id=3&token={TOKENS[3]}&mode=ro&to=127.0.0.1:1&timeout=50", "SQLITE_CANTOPEN"),
        ):
            address = "" if "&to=" in text else f"&to={service.address}"
            same(text, code, code_of(lambda: opened(f"file:test?vfs=pagelog&{text}{address}")))
        joined = connect(service.address, 2, None)
        joined.execute("insert into t values (1)")
        same(
            "a writer without an operator",
            1,
            one(reader(service.address), "select count(*) from t"),
        )
        same(
            "SQLite's own parameter",
            1,
            one(reader(service.address, cache="shared"), "select count(*) from t"),
        )


def test_pages_in_memory():
    """How many pages a connection keeps, by its parameter `pages`: few, or as many as it read."""
    with Service() as service:
        writer = connect(service.address)
        writer.execute("create table t(a)")
        writer.execute(
            "insert into t select zeroblob(8000) from (select 1 from pragma_function_list limit 100)"
        )
        for few in (16, 64, None):
            connection = reader(service.address, pages=few)
            connection.execute("pragma cache_size = 10")
            same(
                f"rows, pages={few}",
                100,
                one(connection, "select count(*) from t where a is not null"),
            )
            kept = number_of(connection, "cached_pages")
            true(f"pages={few}: {kept} are kept", kept <= few if few else kept > 100)


def test_pragmas():
    with Service() as service:
        connection = connect(service.address)
        connection.execute("create table t(a)")
        same(
            "numbers",
            ["1", "1", "1", "2", "2", "1", "0", "0"],
            [
                one(connection, f"pragma pagelog_{name}")
                for name in (
                    "lsn",
                    "end",
                    "transaction",
                    "epoch",
                    "writing_epoch",
                    "commits",
                    "repairs",
                    "check",
                )
            ],
        )
        same("role", "writer", one(connection, "pragma pagelog_role"))
        same("check", "50", one(connection, "pragma pagelog_check = 50"))
        same("sleeps", "0", one(connection, "pragma pagelog_spin = 0"))
        if len(os.sched_getaffinity(0)) > 1:
            same("looks", "70", one(connection, "pragma pagelog_spin = 70"))
            same(
                "looks, of the URI",
                "30",
                one(reader(service.address, spin=30), "pragma pagelog_spin"),
            )
        same("sleeps, of the URI", "0", one(reader(service.address, spin=0), "pragma pagelog_spin"))
        true(
            "all",
            one(connection, "pragma pagelog").startswith(
                "writer lsn 1 end 1 transaction 1 size 16384 epoch 2"
            ),
        )
        same(
            "another's",
            "pagelog",
            one(reader(service.address), "pragma pagelog_role").replace("reader", "pagelog"),
        )
        same("none", "SQLITE_ERROR", code_of(lambda: connection.execute("pragma pagelog_nothing")))


def test_several_databases_in_one_statement():
    with Service(dbs=2) as service:
        connection = connect(service.address)
        connection.execute("attach ? as other", (uri(service.address, db=1),))
        connection.execute("attach ':memory:' as plain")
        for name in ("main", "other", "plain"):
            connection.execute(f"create table {name}.t(a)")
        connection.execute("begin")
        for name in ("main", "other", "plain"):
            connection.execute(f"insert into {name}.t values (1)")
        connection.execute("commit")
        for db in (0, 1):
            same("each", 1, one(reader(service.address, db=db), "select count(*) from t"))


def test_a_commit_to_two_databases_that_the_second_one_refuses():
    """It is an error, and in none of them: the first one is changed back. What the connection reads while it keeps the lock is
    what is there, and so is what it builds upon."""
    for mode in ("delete", "persist"):
        for refusal in ("another writer", "the table"):
            with Service(dbs=2) as service, service.operator(1) as operator:
                connection = connect(service.address)
                connection.execute("attach ? as other", (uri(service.address, db=1),))
                for name in ("main", "other"):
                    connection.execute(f"pragma {name}.journal_mode = {mode}")
                    connection.execute(f"create table {name}.{name}_t(a)")
                    connection.execute(f"insert into {name}_t values (0), (1)")
                reads = connection.execute("select a from other_t")
                same("it keeps the lock", (0,), reads.fetchone())
                connection.execute("begin")
                for name in ("main", "other"):
                    connection.execute(f"insert into {name}_t values (2)")
                if refusal == "another writer":
                    operator.failover(5)
                else:
                    operator.set_table(
                        "".join(
                            TABLE.read_text().split(
                                '[[row]]\nverdict = "allow"\nwho = 2\nrole = "primary"\n'
                            )
                        )
                    )
                wanted = "SQLITE_READONLY" if refusal == "another writer" else "SQLITE_PERM"
                same(f"{refusal}, {mode}", wanted, code_of(lambda: connection.execute("commit")))
                operator.set_table(TABLE.read_text())
                for db, name in enumerate(("main", "other")):
                    for who in (connection, reader(service.address, db=db)):
                        same(
                            f"rows of {name}",
                            [(0,), (1,)],
                            who.execute(f"select a from {name}_t").fetchall(),
                        )
                        same("integrity", "ok", one(who, "pragma integrity_check"))
                for db, name in enumerate(
                    ("main", "other")[: 1 if refusal == "another writer" else 2]
                ):
                    connection.execute(f"insert into {name}_t values (3)")
                    rows = (
                        reader(service.address, db=db).execute(f"select a from {name}_t").fetchall()
                    )
                    same("and on", [(0,), (1,), (3,)], rows)
                reads.close()
                connection.close()


def test_requests_that_are_denied_for_a_while():
    """A COMMIT and its rollback may both be denied: no half of it comes into a later one, and no half of it is read, also by a
    connection that keeps the lock, which goes on once it has given that back."""
    for seed in range(32):
        numbers, is_on = random.Random(seed), [False]
        between = (
            lambda frame: Answer(b"\5\2" + bytes(10))
            if is_on[0] and numbers.random() < 0.15
            else frame
        )
        with Service() as service, Proxy(service.address, between=between) as proxy:
            connection = connect(proxy.address, pages=16)
            connection.executescript(
                "pragma page_size = 4096; create table t(a integer primary key, b);"
            )
            ends = ["commit"]
            if seed >= 16:
                connection.execute("pragma locking_mode = exclusive")
                connection.execute(
                    f"pragma journal_mode = {numbers.choice(['delete', 'memory', 'persist', 'truncate'])}"
                )
                connection.execute(f"pragma cache_size = {numbers.choice([2, 10, 2000])}")
                ends = ["commit", "rollback"]
            is_on[0], there, codes = True, [], set()
            for number in range(1, 61):
                size, factor = numbers.choice([10, 9000, 60000]), number % 3
                texts = [f"insert into t values ({number}, randomblob({size}))"]
                if factor > 0:
                    texts = [
                        "begin",
                        *texts,
                        f"update t set b = randomblob({size // 3}) where a % 3 = {factor}",
                        numbers.choice(ends),
                    ]
                failed = [
                    code
                    for code in (code_of(lambda: connection.execute(text)) for text in texts)
                    if code
                ]
                there += [] if failed or texts[-1] == "rollback" else [number]
                codes.update(failed)
                if connection.in_transaction:
                    code_of(connection.rollback)
            is_on[0] = False
            other = reader(service.address)
            same(f"seed {seed}", "ok", one(other, "pragma integrity_check"))
            same("rows", set(), set(there) - {row for row, in other.execute("select a from t")})
            true(f"codes: {codes}", "SQLITE_CORRUPT" not in codes)
            connection.execute("pragma locking_mode = normal")
            code_of(lambda: one(connection, "select count(*) from t"))
            connection.execute("insert into t values (61, zeroblob(60000))")
            same(
                "and on",
                other.execute("select a from t").fetchall(),
                connection.execute("select a from t").fetchall(),
            )
            same("all of it", "ok", one(connection, "pragma integrity_check"))


class CutsAfterTheCommit:
    """A proxy's rule: while it is armed, a get after a report is refused, or its connection is cut and the service away."""

    def __init__(self, goes_away):
        self.goes_away, self.is_armed, self.is_reported, self.count = goes_away, False, False, 0

    def __call__(self, frame):
        self.is_reported = self.is_armed and (self.is_reported or frame[33] == wire.REPORT)
        if not self.is_reported or frame[33] != wire.GET:
            return frame
        self.is_armed, self.count = False, self.count + 1
        if not self.goes_away:
            return Answer(b"\5\2" + bytes(10))
        self.proxy.go_away()
        return None


def test_a_file_that_is_made_shorter_after_its_commit():
    """With pages of 4,096 bytes it may end within a page of the file, which has to be fetched for that. Where it cannot be, the
    COMMIT is no error: it is in the log. The file stays longer."""
    for goes_away in (False, True):
        for locking, journal in (("normal", "delete"), ("exclusive", "persist")):
            rule = CutsAfterTheCommit(goes_away)
            with Service() as service, Proxy(service.address, between=rule) as rule.proxy:
                writer = connect(rule.proxy.address, pages=1, check=3600000, patience=100)
                writer.executescript(
                    "pragma page_size = 4096; pragma auto_vacuum = incremental; pragma cache_size = 5;"
                    "create table t(a integer primary key, b); create table u(a integer primary key, b);"
                    f"pragma locking_mode = {locking}; pragma journal_mode = {journal};"
                )
                for table in "tu":
                    writer.executemany(
                        f"insert into {table} values (?, zeroblob(4000))",
                        [(a,) for a in range(100)],
                    )
                writer.execute("delete from u")
                same("other pages in memory", 400000, one(writer, "select sum(length(b)) from t"))
                pages, size = one(writer, "pragma page_count"), number_of(writer, "size")
                writer.execute("begin")
                writer.execute("insert into u values (1, 'small')")
                writer.execute("pragma incremental_vacuum(1)").fetchall()
                rule.is_armed = True
                same(
                    f"{goes_away, locking}: commit",
                    (None, 1),
                    (code_of(lambda: writer.execute("commit")), rule.count),
                )
                same(
                    "as long as it was",
                    (pages - 1, size),
                    (one(writer, "pragma page_count"), number_of(writer, "size")),
                )
                if goes_away:
                    rule.proxy.come_back()
                other = reader(service.address)
                for number in (1, 2, 3):
                    for connection in (writer, other):
                        same("rows", number, one(connection, "select count(*) from u"))
                        same("integrity", "ok", one(connection, "pragma integrity_check"))
                    same(
                        "pages",
                        (pages - number, size // 4096 - number * (number > 1)),
                        (one(other, "pragma page_count"), number_of(other, "size") // 4096),
                    )
                    writer.execute("insert into u values (?, 'small')", (number + 1,))
                    writer.execute("pragma incremental_vacuum(1)").fetchall()


def test_a_journal_that_persists_has_no_end_of_a_name_from_before():
    """SQLite finds the name of a super-journal in a journal by eight bytes. Where those are in a page that an older transaction
    has left in the journal, a COMMIT to two databases that the second one refuses is in none of them all the same.
    """
    magic = bytes.fromhex("d9d505f920a163d7")
    for shift in range(8):
        with Service(dbs=2) as service:
            connection = connect(service.address)
            connection.execute("attach ? as other", (uri(service.address, db=1),))
            for name in ("main", "other"):
                connection.execute(f"pragma {name}.journal_mode = persist")
                connection.execute(f"create table {name}.{name}_t(a)")
                connection.execute(f"insert into {name}_t values (0), (1)")
            connection.execute("create table large(b)")
            connection.execute(
                "insert into large values (?)", (shift * b"x" + 30000 * magic + (8 - shift) * b"x",)
            )
            reads = [connection.execute(f"select a from {name}_t") for name in ("main", "other")]
            same("it keeps the journals", [(0,), (0,)], [cursor.fetchone() for cursor in reads])
            connection.execute("update large set b = zeroblob(240008)")
            connection.execute("begin")
            for name in ("main", "other"):
                connection.execute(f"insert into {name}_t values (2)")
            connect(service.address, 5, db=1).close()
            same("refused", "SQLITE_READONLY", code_of(lambda: connection.execute("commit")))
            for db, name in enumerate(("main", "other")):
                same(
                    name,
                    [(0,), (1,)],
                    reader(service.address, db=db).execute(f"select a from {name}_t").fetchall(),
                )


def test_a_plain_file_that_is_attached():
    """A crash in the midst of a COMMIT to it and to others would leave it half written, where the database of the service is
    `main`: its super-journal is gone with the process. So there is no such COMMIT, unless the plain file has no journal. It is
    known as a plain file whatever its name."""
    with Service(dbs=2) as service, tempfile.TemporaryDirectory() as folder:
        path = os.path.join(folder, "plain.db")

        def insert(connection):
            connection.execute("begin")
            for name in ("service", "plain"):
                connection.execute(f"insert into {name}_t values (1)")
            connection.execute("commit")

        def rows(connection):
            return tuple(
                one(connection, f"select count(*) from {name}_t") for name in ("service", "plain")
            )

        plain = sqlite3.connect(path, isolation_level=None, uri=True)
        plain.execute("create table plain_t(a)")
        plain.execute("attach ? as service", (uri(service.address),))
        plain.execute("create table service.service_t(a)")
        insert(plain)
        same("the plain file first", (1, 1), rows(plain))
        plain.close()
        connection = connect(service.address, db=1, name=path)
        connection.executescript("create table service_t(a); insert into service_t values (1);")
        connection.close()
        for db, name in enumerate(("test", path)):
            connection = connect(service.address, db=db, name=name)
            connection.execute("attach ? as plain", (f"file:{path}?vfs=unix",))
            for mode in ("delete", "truncate", "persist"):
                same("mode", mode, one(connection, f"pragma plain.journal_mode = {mode}"))
                same(mode, "SQLITE_CANTOPEN", code_of(lambda: insert(connection)))
                true("why", "plain file" in one(connection, "pragma pagelog_error"))
                same("rolled back", (False, (1, 1)), (connection.in_transaction, rows(connection)))
            connection.close()
        connection = connect(service.address)
        connection.execute("attach ? as plain", (f"file:{path}?vfs=unix",))
        for name in ("service", "plain"):
            connection.execute(f"insert into {name}_t values (1)")
        same("one after the other", (2, 2), rows(connection))
        same("mode", "wal", one(connection, "pragma plain.journal_mode = wal"))
        insert(connection)
        same("without a journal", (3, 3), rows(connection))
        connection.close()


def test_at_the_limits():
    with Service(audit=300) as service:
        connection = connect(service.address, check=1000)
        connection.execute("create table t(a)")
        follower = reader(service.address, stale=1)
        same("a row", 0, one(follower, "select count(*) from t"))
        code = None
        while code is None:
            code = code_of(lambda: connection.execute("insert into t values (1)"))
        same("audit list full", "SQLITE_FULL_LIST", code)
        same("why", "audit list full", one(connection, "pragma pagelog_error"))
        same("a new reader", "SQLITE_FULL_LIST", code_of(lambda: reader(service.address)))
        same(
            "the snapshot of a reader that may be stale",
            (0, "1"),
            (one(follower, "select count(*) from t"), one(follower, "pragma pagelog_stale")),
        )
    with Service() as service:
        connection, follower = connect(service.address, patience=200), reader(
            service.address, patience=200
        )
        connection.executescript("create table t(a); insert into t values (1);")
        same("a row", 1, one(follower, "select count(*) from t"))
        follower.execute("begin")
        one(follower, "select count(*) from t")
        service.end()
        same("within its transaction", 1, one(follower, "select count(*) from t"))
        follower.execute("commit")
        same("not there", "SQLITE_IOERR", code_of(lambda: one(follower, "select count(*) from t")))
        same(
            "nor for a writer",
            "SQLITE_IOERR",
            code_of(lambda: connection.execute("insert into t values (2)")),
        )
        with Service(listen=service.address):
            for other in (connection, follower):
                same(
                    "restarted",
                    "SQLITE_IOERR",
                    code_of(lambda: one(other, "select count(*) from t")),
                )
                true("why", "restarted" in one(other, "pragma pagelog_error"))


def test_a_commit_in_doubt():
    """The service goes away after the writes of a commit, before its report or after it. The error says that it is in
    doubt; the next transaction sees what became of it, as every other reader does."""
    found = set()
    for is_carried in (False, True):
        with Service() as service, service.operator() as operator:
            is_armed, is_away = [False], [False]

            def between(frame):
                if is_armed[0] and frame[33] == wire.REPORT:
                    is_away[0] = True
                    if is_carried:
                        operator.carry(frame)
                return None if is_away[0] else frame

            with Proxy(service.address, between=between) as proxy:
                writer = connect(proxy.address, patience=300, check=3600000)
                writer.executescript("create table t(a); insert into t values (1);")
                is_armed[0] = True
                same(
                    "in doubt",
                    "SQLITE_IOERR_FSYNC",
                    code_of(lambda: writer.execute("insert into t values (2)")),
                )
                same(
                    "not there",
                    "SQLITE_CANTOPEN",
                    code_of(lambda: connect(proxy.address, 5, patience=50)),
                )
                is_armed[0] = is_away[0] = False
                rows = writer.execute("select a from t").fetchall()
                same(
                    "as a reader sees it",
                    rows,
                    reader(service.address).execute("select a from t").fetchall(),
                )
                writer.execute("insert into t values (3)")
                same(
                    "and on",
                    rows + [(3,)],
                    reader(service.address).execute("select a from t").fetchall(),
                )
                found.add((is_carried, len(rows)))
                writer.close()
    true(f"a report that was carried out is a commit: {found}", (True, 2) in found)


def test_another_writer_between_a_commit_in_doubt_and_its_failover():
    """The connection is cut after the writes of a commit, and until the writer's own failover is lost too. Another writer of its
    principal begins an epoch meanwhile and commits. The first one begins the next epoch, in which its commit is found to be in the
    log, and goes on from what the other has committed."""
    for check, unwaited in ((0, 0), (3600000, 0), (3600000, 64)):
        with Service() as service:
            is_away, failovers = [False], [0]

            def between(frame):
                if not is_away[0] or frame[33] in (
                    wire.WRITE,
                    wire.GET,
                ):  # a get shows after a connect that the log is the same
                    return frame
                failovers[0] += frame[33] == wire.FAILOVER
                if frame[33] == wire.FAILOVER and failovers[0] == 1:
                    other = connect(service.address)
                    other.execute("insert into t select a + 1000, 'other' from t")
                    other.close()
                is_away[0] = failovers[0] < 2
                return None if is_away[0] else frame

            with Proxy(service.address, between=between) as proxy:
                writer = connect(proxy.address, patience=6000, check=check, async_commits=unwaited)
                writer.execute("create table t(a integer primary key, b)")
                writer.execute("create index i on t(b)")
                writer.execute(
                    "with recursive g(v) as (select 1 union all select v + 1 from g where v < 90)"
                    "insert into t select v, 'x' || v from g"
                )
                if unwaited:
                    writer.execute("pragma synchronous = off")
                writer.execute("begin immediate")
                writer.execute("insert into t values (200, 'first')")
                is_away[0] = True
                writer.execute("commit")
                if unwaited:
                    same("waited for", "64", one(writer, "pragma pagelog_async_commits = 64"))
                same("two failovers", (2, 4), (failovers[0], number_of(writer, "writing_epoch")))
                writer.execute("insert into t values (201, 'next')")
                writer.execute("pragma pagelog_async_commits = 0")
                for connection in (writer, reader(service.address)):
                    same("integrity", "ok", one(connection, "pragma integrity_check"))
                    same(
                        "rows",
                        (183, 91, 1, 1),
                        tuple(
                            one(connection, f"select count(*) from t {which}")
                            for which in (
                                "",
                                "where b = 'other'",
                                "where b = 'first'",
                                "where b = 'next'",
                            )
                        ),
                    )
                writer.close()


def test_a_commit_in_doubt_of_a_writer_that_keeps_the_lock():
    """It is in the log. The writer does not see it while it keeps the lock, and cannot commit; once it has let go it sees the
    commit, and builds on it."""
    with Service() as service, service.operator() as operator:
        is_armed, is_away = [False], [False]

        def between(frame):
            if is_armed[0] and frame[33] == wire.REPORT:
                is_away[0] = True
                operator.carry(frame)
            return None if is_away[0] else frame

        with Proxy(service.address, between=between) as proxy:
            writer = connect(proxy.address, patience=300, check=3600000)
            writer.executescript(
                "create table t(a); pragma locking_mode = exclusive; insert into t values (1);"
            )
            is_armed[0] = True
            same(
                "in doubt",
                "SQLITE_IOERR_FSYNC",
                code_of(lambda: writer.execute("insert into t values (2)")),
            )
            is_armed[0] = is_away[0] = False
            same(
                "no commit",
                "SQLITE_PROTOCOL",
                code_of(lambda: writer.execute("insert into t values (3)")),
            )
            same("lets go", "normal", one(writer, "pragma locking_mode = normal"))
            same("after this statement", [(1,)], writer.execute("select a from t").fetchall())
            writer.execute("insert into t values (4)")
            for connection in (writer, reader(service.address)):
                same("rows", [(1,), (2,), (4,)], connection.execute("select a from t").fetchall())
            writer.close()


def test_replies_of_a_service_at_its_end():
    """Its turns are spent, its memory or its audit list is full: each is an error of its own to a reader and to a writer, and
    a reader's snapshot stays readable."""
    for body, name, words in (
        (b"\x08", "SQLITE_FULL", "denied: spent"),
        (b"\x06", "SQLITE_FULL", "no memory"),
        (b"\x07", "SQLITE_FULL_LIST", "audit list full"),
        (b"\x09", "SQLITE_PERM", "denied: no database"),
        (
            b"\x05\x02\0\0" + bytes(8),
            "SQLITE_PERM",
            "denied: denied B0, value 0: no row of the table matches",
        ),
    ):
        is_over = [False]
        with Service() as service, Proxy(
            service.address, between=lambda frame: Answer(body) if is_over[0] else frame
        ) as proxy:
            writer, follower = connect(proxy.address, patience=200), reader(
                proxy.address, patience=200
            )
            writer.executescript("create table t(a); insert into t values (1);")
            follower.execute("begin")
            same("a row", 1, one(follower, "select count(*) from t"))
            writer.execute("begin immediate")
            writer.execute("insert into t values (2)")
            is_over[0] = True
            same(f"a commit, {words}", name, code_of(lambda: writer.execute("commit")))
            same("why", words, one(writer, "pragma pagelog_error"))
            same("a snapshot", 1, one(follower, "select count(*) from t"))
            follower.execute("commit")
            same(
                f"a reader, {words}", name, code_of(lambda: one(follower, "select count(*) from t"))
            )
            same("why", words, one(follower, "pragma pagelog_error"))
            same(
                f"who comes now, {words}",
                name,
                code_of(lambda: reader(proxy.address, patience=200)),
            )
            is_over[0] = False
            same("a row", 1, one(follower, "select count(*) from t"))


def write_as_another(address, lsn, *records, copies=(0, 1), database=0):
    """Another session of principal 2 writes a block in the current epoch, and reports it where two copies have it."""
    block = wire.block(lsn, list(records))
    with Asker(address, 2, wire.PRIMARY, database) as other:
        for copy in copies:
            same("its write", b"\0", other.ask(wire.WRITE, wire.write(copy, block)))
        if len(copies) > 1:
            same("its report", b"\0", other.ask(wire.REPORT, wire.report(lsn)))


def mark(lsn, size=0, magic=b"plfile01"):
    """An end mark: magic, LSN, the size of the file, the session, the number of the transaction."""
    return magic + b"".join(wire.number(value, 8) for value in (lsn, size, 1, 1))


def test_a_database_of_something_else_is_not_opened():
    """Page 0 has no end mark, or one that cannot be its own. Nobody may open the database, and nothing is written to it."""
    cases = [
        ("a text", b"something else"),
        ("another magic number", mark(1, magic=b"plfile02")),
        ("an LSN of 0", mark(0)),
        ("an LSN above its own", mark(2)),
        ("a size above the largest", mark(1, 4294967295 * 8192 + 1)),
        ("something after zeros", bytes(8191) + b"x"),
    ]
    with Service(dbs=1 + len(cases)) as service:
        for db, (what, page) in enumerate(cases, 1):
            write_as_another(service.address, 1, (0, 0, page), database=db)
            for who, opened in (
                ("reader", lambda: reader(service.address, db=db)),
                ("reader of the past", lambda: connect(service.address, 4, None, at=1, db=db)),
                ("writer", lambda: connect(service.address, db=db)),
                ("writer without an operator", lambda: connect(service.address, 2, None, db=db)),
            ):
                same(f"{what}, {who}", "SQLITE_NOTADB", code_of(opened))
            with service.operator(db) as operator:
                same(f"{what}: blocks", 1, operator.status()[2])
        write_as_another(service.address, 1, (0, 0, mark(1)))
        same(
            "an end mark of its own",
            0,
            one(connect(service.address), "select count(*) from sqlite_schema"),
        )


def test_another_session_in_the_epoch_is_a_protocol_error():
    """It takes the next LSN, in one copy and then in the log. Nothing of the transaction that meets it is in the database; what
    the other session wrote is undone, as it has no end mark."""
    with Service() as service:
        insert = lambda value: code_of(lambda: writer.execute("insert into t values (?)", (value,)))
        rows = lambda connection: connection.execute("select a from t").fetchall()
        writer = connect(service.address, check=3600000)
        writer.executescript("create table t(a); insert into t values (1);")
        write_as_another(
            service.address, number_of(writer, "end") + 1, (2, 100, b"other"), copies=(1,)
        )
        for _ in range(2):
            same("in one copy", "SQLITE_PROTOCOL", insert(2))
            same("why", "conflict: denied C4, value 0", one(writer, "pragma pagelog_error"))
            same("rows", [(1,)], rows(writer))
        writer.close()
        writer = connect(service.address, check=3600000)
        same("in an epoch of its own", None, insert(3))
        lsn = number_of(writer, "end") + 1
        write_as_another(service.address, lsn, (2, 100, b"other"))
        same("in the log", "SQLITE_PROTOCOL", insert(4))
        same("why", f"conflict: denied C2, value {lsn}", one(writer, "pragma pagelog_error"))
        same("rows of a reader meanwhile", [(1,), (3,)], rows(reader(service.address)))
        same("rows", [(1,), (3,)], rows(writer))
        same("undone", 1, number_of(writer, "repairs"))
        same("and on", None, insert(5))
        for connection in (writer, reader(service.address)):
            same("rows at the end", [(1,), (3,), (5,)], rows(connection))
            same("integrity", "ok", one(connection, "pragma integrity_check"))


def test_a_repair_that_is_cut_off():
    """Another session left half a transaction in the epoch, and the service goes away while the writer undoes it. Once it is
    there again the writer begins another epoch, and goes on."""
    for operation, count in ((wire.GET, 1), (wire.WRITE, 1), (wire.WRITE, 2), (wire.REPORT, 1)):
        is_armed, left = [False], [count]

        def between(frame):
            left[0] -= is_armed[0] and frame[33] == operation
            return frame if left[0] > 0 else None

        with Service() as service, Proxy(service.address, between=between) as proxy:
            writer = connect(proxy.address, patience=200)
            writer.executescript("create table t(a); insert into t values (1);")
            write_as_another(service.address, number_of(writer, "end") + 1, (2, 100, b"other"))
            is_armed[0] = True
            true(
                "cut off",
                code_of(lambda: one(writer, "select count(*) from t"))
                in ("SQLITE_IOERR", "SQLITE_IOERR_FSYNC"),
            )
            is_armed[0], left[0] = False, count
            same(
                f"on, after request {count} of {operation}",
                None,
                code_of(lambda: writer.execute("insert into t values (2)")),
            )
            for connection in (writer, reader(service.address)):
                same("rows", [(1,), (2,)], connection.execute("select a from t").fetchall())
                same("integrity", "ok", one(connection, "pragma integrity_check"))


# What no service replies to a request of this client: a body, and what the client says of it.
NONSENSE = (
    ("no byte", b"", "malformed"),
    ("an unknown kind", b"\x0b", "malformed"),
    ("a byte too many", b"\6\0", "malformed"),
    ("half a page", b"\2" + bytes(4104), "malformed"),
    ("no section", b"\5\4\0\1" + bytes(8), "malformed"),
    ("a fault that no request has", b"\x0a\x10", "malformed"),
    ("a fault of the request", b"\x0a\x06", "malformed: fault 6 of the request"),
)


def test_a_peer_that_is_no_service_is_a_protocol_error():
    """From a COMMIT on, which is in doubt then, all that is asked is answered with nonsense. Once the service answers again
    both connections go on."""
    peer, rows, select = Peer(), [], "select a from t"
    with Service() as service, Proxy(service.address, between=peer) as proxy:
        writer, follower = connect(proxy.address, patience=200), reader(proxy.address, patience=200)
        writer.execute("create table t(a)")
        for number, (what, nonsense, words) in enumerate(NONSENSE):
            writer.execute("insert into t values (?)", (number,))
            rows.append((number,))
            follower.execute("begin")
            same(f"before {what}", rows, follower.execute(select).fetchall())
            writer.execute("begin immediate")
            writer.execute("insert into t values (-1)")
            peer.body = nonsense
            same(
                f"{what}: a commit", "SQLITE_IOERR_FSYNC", code_of(lambda: writer.execute("commit"))
            )
            same(f"{what}: why", "in doubt", one(writer, "pragma pagelog_error").split(":")[0])
            same(f"{what}: a snapshot", rows, follower.execute(select).fetchall())
            follower.execute("commit")
            for who, connection in (("a reader", follower), ("a writer", writer)):
                same(
                    f"{what}: {who}",
                    "SQLITE_PROTOCOL",
                    code_of(lambda: connection.execute(select).fetchall()),
                )
                same("why", words, one(connection, "pragma pagelog_error"))
            for who, opened in (
                ("a new reader", lambda: reader(proxy.address, patience=200)),
                ("a new writer", lambda: connect(proxy.address, 5, patience=200)),
            ):
                same(f"{what}: {who}", "SQLITE_PROTOCOL", code_of(opened))
            peer.body = None
            for connection in (writer, follower):
                same(f"after {what}", rows, connection.execute(select).fetchall())


def test_a_commit_whose_report_meets_a_failover_is_done():
    """An operator ends the epoch just before the report of a COMMIT, whose blocks are in two copies: so they are in the log.
    The next transaction is refused."""
    for check in (0, 3600000):
        for to in (2, 5):
            with Service() as service, Proxy(
                service.address, between=failing_over(service, wire.REPORT, 2, to)
            ) as proxy:
                writer = connect(proxy.address, check=check)
                writer.execute("create table t(a, b)")
                same(
                    "done",
                    None,
                    code_of(lambda: writer.execute("insert into t values (1, randomblob(100000))")),
                )
                same(
                    "in an epoch that is over",
                    (2, 3),
                    (number_of(writer, "writing_epoch"), number_of(writer, "epoch")),
                )
                new = reader(service.address)
                same(
                    "a new reader",
                    [(1, 100000)],
                    new.execute("select a, length(b) from t").fetchall(),
                )
                same("integrity", "ok", one(new, "pragma integrity_check"))
                same(
                    "the next one",
                    "SQLITE_READONLY",
                    code_of(lambda: writer.execute("insert into t values (2, 2)")),
                )
                for connection in (new, writer):
                    same(
                        "rows",
                        [(1, 100000)],
                        connection.execute("select a, length(b) from t").fetchall(),
                    )


def test_no_memory():
    """A service with little memory: it says so, and what was committed before is there."""
    prefix = ["prlimit", "--as=200000000"]
    try:
        service = Service(prefix=prefix, quiet=True)
    except RuntimeError:
        return "no memory: not tried, this build does not start with so little"
    with service:
        connection = connect(service.address, check=3600000, patience=1000)
        connection.execute("create table t(a)")
        rows, code = 0, None
        while code is None and rows < 4000:
            code = code_of(lambda: connection.execute("insert into t values (randomblob(300000))"))
            rows += code is None
        words = one(connection, "pragma pagelog_error")
        true(
            f"an error of the right kind, and not {code}, {words}",
            code in ("SQLITE_FULL", "SQLITE_IOERR_FSYNC")
            and words in ("no memory", "in doubt: no memory"),
        )
        return f"no memory: {code} after {rows} rows"


def test_a_writer_under_the_start_table():
    """No principal but an operator has two roles there: no look, no following, and still no lie."""
    with Service(table=START_TABLE) as service:
        connection = connect(service.address)
        connection.executescript("create table t(a); insert into t values (1);")
        other = connect(service.address, 5)
        other.execute("insert into t values (2)")
        same(
            "fenced",
            "SQLITE_READONLY",
            code_of(
                lambda: (
                    connection.execute("pragma pagelog_check = 3600000"),
                    connection.execute("insert into t values (3)"),
                )
            ),
        )
        same(
            "and may not follow",
            "SQLITE_PERM",
            code_of(lambda: one(connection, "select count(*) from t")),
        )
        same("rows", 2, one(other, "select count(*) from t"))


def test_another_session_in_the_epoch_of_a_writer_that_may_not_look():
    """Under the start table a writer cannot see whose block is at the LSN of its own. It has not sent that one before, so it is
    another's: no commit is reported that is not in the log."""
    for unwaited in (0, 64):
        with Service(table=START_TABLE) as service:
            writer = connect(service.address, check=3600000, async_commits=unwaited)
            writer.executescript(
                "create table t(a); insert into t values (1); pragma synchronous = off;"
            )
            lsn = number_of(writer, "end") + 1
            write_as_another(service.address, lsn, (2, 100, b"other"))
            code = code_of(lambda: writer.execute("insert into t values (2)"))
            if unwaited:
                same("not known yet", None, code)
                code = code_of(lambda: one(writer, "pragma pagelog_async_commits = 0"))
            same("another's", "SQLITE_IOERR_FSYNC" if unwaited else "SQLITE_PROTOCOL", code)
            if not unwaited:
                same(
                    "why", f"conflict: denied C2, value {lsn}", one(writer, "pragma pagelog_error")
                )
            writer.execute("insert into t values (3)")
            writer.execute("pragma pagelog_async_commits = 0")
            for connection in (writer, reader(service.address)):
                same("rows", [(1,), (3,)], connection.execute("select a from t").fetchall())
                same("integrity", "ok", one(connection, "pragma integrity_check"))


def test_a_lost_connection_where_another_session_has_joined_the_epoch():
    """Under the start table, and the other commits at the LSN of this writer's own commit before it has come. That is not
    reported done, and both writers' rows go on from what is in the log, with an epoch more. A lost reply is made up for by a look
    at the pages."""
    for is_own in (False, True):
        is_cut = [False]
        with Service(table=START_TABLE) as service, service.operator() as operator:

            def between(frame):
                if not is_cut[0] or (is_own and frame[33] != wire.REPORT):
                    return frame
                is_cut[0] = False
                if is_own:
                    operator.carry(frame)
                else:
                    other.execute("insert into t values (20)")
                return None

            with Proxy(service.address, between=between) as proxy:
                writer = connect(proxy.address, check=3600000)
                writer.executescript(
                    "create table t(a); create table u(b); insert into t values (1);"
                )
                other, epoch = connect(service.address, operator=None, check=3600000), number_of(
                    writer, "epoch"
                )
                same("all pages in memory", 1, one(other, "select count(*) from t"))
                is_cut[0] = True
                several = "begin; insert into t values (2); insert into u values (randomblob(200000)); commit"
                same(
                    "cut",
                    None if is_own else "SQLITE_IOERR",
                    code_of(lambda: writer.executescript(several)),
                )
                if writer.in_transaction:
                    writer.execute("rollback")
                same(
                    "an epoch more",
                    (1, epoch + (not is_own)),
                    (proxy.cuts, number_of(writer, "epoch")),
                )
                writer.execute("insert into t values (3)")
                for connection in (writer, reader(service.address)):
                    same(
                        "rows",
                        [(1,), (2,) if is_own else (20,), (3,)],
                        connection.execute("select a from t").fetchall(),
                    )
                    same("large rows", is_own, one(connection, "select count(*) from u"))
                    same("integrity", "ok", one(connection, "pragma integrity_check"))
                same(
                    "fenced, or it has not read what came",
                    "SQLITE_PROTOCOL" if is_own else "SQLITE_READONLY",
                    code_of(lambda: other.execute("insert into t values (21)")),
                )


def test_another_session_in_the_epoch_and_a_commit_of_several_blocks():
    """The other has joined the epoch, and its commit has the LSN of the first block of this writer's, whose other blocks come
    into the log: it is not whole, so it is in doubt, and what has come of it is undone."""
    for table in (TABLE, START_TABLE):
        for unwaited in (0, 64):
            with Service(table=table) as service, Proxy(service.address) as proxy:
                writer = connect(service.address, check=3600000, async_commits=unwaited)
                writer.executescript(
                    "create table t(a integer primary key, b); insert into t values (1, 'x');"
                )
                other = connect(proxy.address, operator=None)
                other.execute("insert into t values (20, 'y')")
                writer.execute(f"pragma synchronous = {'off' if unwaited else 'full'}")
                codes = [
                    code_of(
                        lambda: writer.execute(
                            "insert into t values (2, ?)", (random.Random(1).randbytes(200000),)
                        )
                    ),
                    code_of(lambda: one(writer, "pragma pagelog_async_commits = 0")),
                ]
                same("in doubt", ["SQLITE_IOERR_FSYNC"], [code for code in codes if code])
                true("at once, where it is waited for", unwaited or codes[0])
                if not unwaited:
                    same(
                        "why",
                        "in doubt: another session of this epoch has put a block in the place of one of these",
                        one(writer, "pragma pagelog_error"),
                    )
                writer.execute("insert into t values (4, 'z')")
                writer.execute(
                    "pragma pagelog_async_commits = 0"
                )  # where it told an error it has changed nothing
                for connection in (writer, reader(service.address)):
                    same(
                        "rows",
                        [(1,), (4,), (20,)],
                        connection.execute("select a from t").fetchall(),
                    )
                    same("integrity", "ok", one(connection, "pragma integrity_check"))


def test_the_shell():
    with Service() as service:
        text = (
            f".load {EXTENSION}\n.open '{uri(service.address)}'\ncreate table t(a, b);\n"
            "insert into t values (1, 'one'), (2, 'two');\nselect group_concat(b, ' ') from t;\n"
            f".open '{uri(service.address, 3, None, mode='ro')}'\nselect count(*) from t;\npragma integrity_check;\n"
        )
        preload = {"LD_PRELOAD": os.environ["LD_PRELOAD"]} if "LD_PRELOAD" in os.environ else {}
        shell = subprocess.run(
            ["sqlite3"],
            input=text,
            capture_output=True,
            text=True,
            timeout=60,
            env=plain_environment(ASAN_OPTIONS="detect_leaks=0", **preload),
        )
        same("shell", ("one two\n2\nok\n", ""), (shell.stdout, shell.stderr))


def test_programs_that_cannot_be_changed():
    """The library that is loaded before them writes nothing, and they may still configure SQLite, as its shell does."""
    library = CLIENT / "out" / "pagelog_preload.so"
    subprocess.run(
        ["make", "-s", "-C", CLIENT, library.relative_to(CLIENT)],
        check=True,
        env=plain_environment(),
    )
    python = "import sqlite3, sys; print(*sqlite3.connect(sys.argv[1], uri=True).execute(sys.argv[2]).fetchone())"
    with Service() as service:
        connect(service.address).execute("create table t(a)").execute("insert into t values (7)")
        where = uri(service.address, 3, None, mode="ro")
        for words in (["sqlite3"], ["sqlite3", "-vfs", "pagelog"], [sys.executable, "-c", python]):
            ran = subprocess.run(
                [*words, where, "select a from t"],
                capture_output=True,
                text=True,
                timeout=60,
                env=plain_environment(LD_PRELOAD=str(library)),
            )
            same(words, (0, "7\n", ""), (ran.returncode, ran.stdout, ran.stderr))


def test_a_linked_program_gives_its_memory_back():
    with Service() as service:
        ran = subprocess.run(
            [CLIENT / "out" / "checked" / "statements", service.address],
            capture_output=True,
            text=True,
            env=plain_environment(),
        )
        same(
            "statements", (0, "0 failures\n", ""), (ran.returncode, ran.stdout, ran.stderr[-2000:])
        )


def test_speedtest1():
    """Of SQLite's sources, where SPEEDTEST1 names the program: what it reads is what it reads of stock SQLite."""
    program = os.environ.get("SPEEDTEST1")
    if not program:
        return "speedtest1 not run: SPEEDTEST1 names no program"
    subprocess.run(
        ["make", "-s", "-C", CLIENT, "out/pagelog_preload.so"], check=True, env=plain_environment()
    )
    with Service() as service:
        hashes = []
        for words, more in (
            (
                ["--vfs", "pagelog", uri(service.address, check=50)],
                {"LD_PRELOAD": str(CLIENT / "out" / "pagelog_preload.so")},
            ),
            ([":memory:"], {}),
        ):
            ran = subprocess.run(
                [program, "--size", "20" if LONG else "2", "--verify", *words],
                capture_output=True,
                text=True,
                env=plain_environment(**more),
            )
            hashes += [line for line in ran.stdout.splitlines() if "Hash" in line]
        same("two hashes", 2, len(hashes))
        same("verification hash", hashes[1], hashes[0])
        return "speedtest1 reads the same"


if __name__ == "__main__":
    # The model never lacks memory, and takes long to start, and to carry much out.
    run(
        "vfs",
        globals(),
        not_with_the_model=[
            "test_page_sizes",
            "test_at_the_limits",
            "test_a_commit_in_doubt",
            "test_replies_of_a_service_at_its_end",
            "test_no_memory",
            "test_speedtest1",
        ],
    )
