"""SQLite over the service in processes that fork: what a child inherits is refused, and what it opens is its own."""

import concurrent.futures
import multiprocessing
import os
import sqlite3
import threading

import binding
from check import LONG, run, same, true
from database import code_of, connect, one, reader, uri
from service import Proxy, Service

ROUNDS, ROWS = (20, 200) if LONG else (3, 30)
TABLE = "create table t(who, number, body, primary key(who, number))"


def fork(action):
    """Runs an action in a child; what returns its value, or the exception that it ended with, once it has ended."""
    reads, writes = os.pipe()
    child = os.fork()
    if child == 0:
        try:
            found = action()
        except BaseException as error:  # noqa: BLE001
            found = repr(error)
        os.write(writes, repr(found).encode())
        os._exit(0)
    os.close(writes)

    def wait():
        with open(reads) as said:
            text = said.read()
        same("exit status", 0, os.waitpid(child, 0)[1])
        return eval(text)  # noqa: S307

    return wait


def in_child(action):
    return fork(action)()


def insert_rows(address, who, rows=ROWS):
    """Inserts rows over a connection of this process' own, which it opens again once another process writes, and tries the same
    row again. The numbers of those that were acknowledged, and the codes of the others."""
    done, codes, connection = [], set(), None
    for number in [number for number in range(rows) for _ in range(8)]:
        try:
            if number in done:
                continue
            if connection is None:
                connection = connect(address, check=1000)
            connection.execute("insert into t values (?, ?, randomblob(1000))", (who, number))
            one(connection, "select count(*) from t where length(body) = 1000")
            done.append(number)
        except sqlite3.Error as error:
            codes.add(error.sqlite_errorname)
            if error.sqlite_errorname == "SQLITE_READONLY" and connection is not None:
                connection.close()
                connection = None
    return done, codes


def compare(address, said):
    """What children said of their rows with what is there."""
    connection = reader(address)
    same("integrity", "ok", one(connection, "pragma integrity_check"))
    there = set(connection.execute("select who, number from t not indexed"))
    acknowledged = {(who, number) for who, (done, _) in enumerate(said) for number in done}
    same("acknowledged, and lost", set(), acknowledged - there)
    codes = set().union(*(codes for _, codes in said))
    true(f"codes {codes}", codes <= {"SQLITE_READONLY", "SQLITE_IOERR_FSYNC"})
    return len(acknowledged)


def test_a_connection_that_a_child_opens_is_its_own():
    """It begins an epoch of its own, by which the parent is fenced, and connects by itself."""
    with Service() as service:
        parent = connect(service.address, check=3600000)
        parent.execute("create table t(a)")

        def child():
            own = connect(service.address, check=3600000)
            own.execute("insert into t values (1)")
            return one(own, "pragma pagelog_writing_epoch"), one(own, "pragma pagelog_connects")

        epoch = one(parent, "pragma pagelog_writing_epoch")
        same("in a child", (str(int(epoch) + 1), "1"), in_child(child))
        same(
            "the parent",
            "SQLITE_READONLY",
            code_of(lambda: parent.execute("insert into t values (2)")),
        )
        parent.execute("pragma pagelog_check = 0")
        same("which reads on", [(1,)], parent.execute("select a from t").fetchall())


def test_children_that_read_and_write():
    """The parent keeps the connection by which it has made the table, and does not use it meanwhile."""
    counts = []
    for count in (2, 4):
        for _ in range(ROUNDS):
            with Service() as service:
                parent = connect(service.address, check=1000)
                parent.execute(TABLE)
                children = [
                    fork(lambda who=who: insert_rows(service.address, who)) for who in range(count)
                ]
                counts.append(compare(service.address, [wait() for wait in children]))
                parent.close()
    true("each had rows", min(counts) > 0)
    return f"{sum(counts)} rows of children"


def test_a_child_that_ends_leaves_the_parent_alone():
    """Its inherited connection is closed without a byte to the service, also where commits of the parent are on their way."""
    for unwaited in (0, 64):
        frames = [0]

        def between(frame):
            frames[0] += 1
            return frame

        with Service() as service, Proxy(service.address, between=between) as proxy:
            parent = connect(proxy.address, async_commits=unwaited, check=3600000)
            parent.execute("create table t(a)")
            parent.execute(f"pragma synchronous = {'off' if unwaited else 'full'}")
            for number in range(10):
                for _ in range(5):
                    parent.execute("insert into t values (?)", (number,))
                before = frames[0]
                same("closed", None, in_child(lambda: code_of(parent.close)))
                if not unwaited:
                    same("nothing was sent", before, frames[0])
            parent.execute("pragma pagelog_async_commits = 0")
            same(
                "the parent's connection",
                ("1", "0", "2"),
                tuple(
                    one(parent, f"pragma pagelog_{name}")
                    for name in ("connects", "losses", "writing_epoch")
                ),
            )
            same("rows", 50, one(reader(service.address), "select count(*) from t"))


def test_an_inherited_connection_refuses():
    """Before a transaction and within one; the parent's is not disturbed."""
    with Service() as service:
        parent = connect(service.address, check=3600000)
        parent.execute("create table t(a)")

        def use():
            texts = (
                "select * from t",
                "insert into t values (9)",
                "begin immediate",
                "pragma pagelog_lsn",
                "pragma pagelog_async_commits = 1",
            )
            return [code_of(lambda: parent.execute(text).fetchall()) for text in texts]

        same("outside of a transaction", ["SQLITE_MISUSE"] * 5, in_child(use))
        parent.execute("begin immediate")
        parent.execute("insert into t values (1)")

        def commit():
            codes = code_of(lambda: parent.execute("commit")), code_of(parent.rollback)
            parent.close()
            return codes

        code, _ = in_child(commit)
        true(f"within one: {code}", code in ("SQLITE_MISUSE", "SQLITE_IOERR"))
        parent.execute("commit")
        same("rows", [(1,)], reader(service.address).execute("select a from t").fetchall())


def test_a_fork_while_another_thread_waits_for_the_service():
    """What that thread uses cannot even be closed in the child, where SQLite's own lock of it is taken for good. The child opens
    a connection of its own, as which it writes."""
    waits, goes_on = threading.Event(), threading.Event()
    goes_on.set()

    def between(frame):
        waits.set()
        goes_on.wait(60)
        return frame

    with Service() as service, Proxy(service.address, between=between) as proxy:
        parent = connect(proxy.address)
        parent.execute("create table t(a)")
        goes_on.clear(), waits.clear()
        codes = []
        thread = threading.Thread(
            target=lambda: codes.append(code_of(lambda: parent.execute("insert into t values (1)")))
        )
        thread.start()
        waits.wait()

        def child():
            own = connect(service.address)
            own.execute("insert into t values (2)")
            return one(own, "select count(*) from t")

        same("in a child", 1, in_child(child))
        goes_on.set()
        thread.join()
        same("the parent is fenced", ["SQLITE_READONLY"], codes)
        same("and reads on", [(2,)], parent.execute("select a from t").fetchall())


def test_a_transaction_that_a_child_inherits_while_another_thread_waits():
    """The other thread's connection shares the database, whose lock it has. The child ends the transaction, and closes."""
    waits, goes_on = threading.Event(), threading.Event()
    goes_on.set()

    def between(frame):
        waits.set()
        goes_on.wait(60)
        return frame

    with Service() as service, Proxy(service.address, between=between) as proxy:
        parent, other = connect(proxy.address, pages=1, check=3600000), connect(
            proxy.address, check=3600000
        )
        parent.execute("create table t(a integer primary key, b)")
        parent.executemany(
            "insert into t values (?, randomblob(7000))", [(number,) for number in range(40)]
        )
        other.execute("pragma cache_size = 2")
        parent.execute("begin immediate")
        parent.execute("update t set b = 'changed' where a = 1")
        waits.clear(), goes_on.clear()
        thread = threading.Thread(
            target=lambda: one(other, "select count(b) from t where b is not null")
        )
        thread.start()
        waits.wait()
        same("in a child", None, in_child(lambda: code_of(parent.close)))
        goes_on.set()
        thread.join()
        parent.execute("commit")
        same(
            "in the parent",
            1,
            one(reader(service.address), "select count(*) from t where b = 'changed'"),
        )


def test_a_child_of_a_child():
    with Service() as service:
        first = connect(service.address, check=3600000)
        first.execute(TABLE)

        def child():
            second = connect(service.address, check=3600000)

            def grandchild():
                codes = [
                    code_of(lambda: one(connection, "select count(*) from t"))
                    for connection in (first, second)
                ]
                return codes, insert_rows(service.address, 1, 5)[0]

            return in_child(grandchild), code_of(
                lambda: second.execute("insert into t values (0, 0, 0)")
            )

        found, code = in_child(child)
        same("in a grandchild", (["SQLITE_MISUSE"] * 2, list(range(5))), found)
        same("which fences the child", "SQLITE_READONLY", code)


def test_a_pool_of_processes():
    """As that of Python's standard library, whose processes fork."""
    with Service() as service:
        parent = connect(service.address, check=1000)
        parent.execute(TABLE)
        context = multiprocessing.get_context("fork")
        with concurrent.futures.ProcessPoolExecutor(4, mp_context=context) as pool:
            said = list(pool.map(insert_rows, [service.address] * 4, range(4)))
        return f"{compare(service.address, said)} rows of a pool"


def test_an_object_of_the_wire_is_its_process_own():
    """In a child it sends nothing, and says why."""
    with Service() as service, binding.Log(service.address, 2) as log:
        same("take over", binding.DONE, log.take_over())

        def child():
            found = log.status()[0], log.append(binding.numbered(1, 1)), log.words
            binding.lib.pagelog_free(log.made)
            return found

        wanted = (
            binding.MALFORMED,
            binding.MALFORMED,
            "malformed: made before a fork, by another process",
        )
        same("in a child", wanted, in_child(child))
        same(
            "in the parent",
            (binding.DONE, 1),
            (log.append(binding.numbered(1, 1)), log.counts.connects),
        )


if __name__ == "__main__":
    run("vfs forks", globals())
