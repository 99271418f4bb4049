"""A service that is killed and started again from an archive that lagged, beside clients that were connected to the old one. The
new log is as long again, and its epoch as high. No client may mix the two histories."""

import contextlib

from binding import DENIED, DONE, FENCED, SECONDARY, File, Log, numbered
from check import run, same, true
from database import code_of, connect, one, reader
from service import Asker, Proxy, START_TABLE, TABLE, Service, wire
from vfs_forks import in_child


def restore(address, blocks):
    """Puts blocks into the empty log of a service, as principal 2 in its first epoch."""
    with Asker(address, 2, wire.PRIMARY) as writer:
        for block in blocks:
            for copy in (0, 1):
                same("write", b"\0", writer.ask(wire.WRITE, wire.write(copy, block)))
            same(
                "report",
                b"\0",
                writer.ask(wire.REPORT, wire.report(int.from_bytes(block[:8], "big"))),
            )


def blocks_of(address):
    with Asker(address, 3, wire.SECONDARY) as asker:
        return asker.blocks()


@contextlib.contextmanager
def restarted(old, proxy, kept, table=TABLE):
    """The service dies. Another one has the first blocks of its log, and is reached in its place."""
    blocks = blocks_of(old.address)[:kept]
    old.end()
    with Service(table=table) as new:
        restore(new.address, blocks)
        host, port = new.address.rsplit(":", 1)
        proxy.target = host, int(port)
        proxy.cut()
        yield new


def fill(connection, who, count):
    for number in range(count):
        connection.execute("insert into t values (?, hex(randomblob(100)))", (f"{who}{number}",))


def rows(connection):
    return {name for name, in connection.execute("select name from t not indexed")}


@contextlib.contextmanager
def lost_history(after):
    """A writer and a follower that have read all of a log, the last 30 commits of which are in no archive. Another process has
    written after the restart, `after` commits more than the log had. Both, the proxy, and what a new reader finds.
    """
    with Service() as old, Proxy(old.address) as proxy:
        writer = connect(proxy.address, patience=2000)
        writer.execute("create table t(name, body)")
        writer.execute("create index i on t(name)")
        fill(writer, "old", 20)
        kept = int(one(writer, "pragma pagelog_end"))
        fill(writer, "lost", 30)
        follower = reader(proxy.address, patience=2000)
        for connection in (writer, follower):
            same(
                "all of it",
                (50, "ok"),
                (len(rows(connection)), one(connection, "pragma integrity_check")),
            )
        with restarted(old, proxy, kept) as new:
            in_child(lambda: fill(connect(new.address), "new", 30 + after))
            yield writer, follower, lambda: reader(proxy.address)


def test_pages_that_a_follower_has_left_are_of_the_old_history():
    for after in (0, 10, -10):
        with lost_history(after) as (_, follower, opened):
            follower.close()
            found = rows(opened())
            same(
                "old, lost, new",
                (20, 0, 30 + after),
                tuple(
                    sum(name.startswith(who) for name in found) for who in ("old", "lost", "new")
                ),
            )


def test_a_follower_that_was_idle():
    for after in (0, 10):
        with lost_history(after) as (_, follower, opened):
            for _ in range(2):
                same("refused", "SQLITE_IOERR", code_of(lambda: rows(follower)))
                true("why", "restarted" in one(follower, "pragma pagelog_error"))
            same("a new reader", "ok", one(opened(), "pragma integrity_check"))


def test_a_writer_that_was_idle():
    """By a statement that reads, and by one that writes, without a look at its epoch before."""
    for after, check in ((0, 0), (0, 3600000), (10, 3600000)):
        with lost_history(after) as (writer, _, opened):
            writer.execute(f"pragma pagelog_check = {check}")
            code = code_of(lambda: writer.execute("insert into t values ('after', 'x')"))
            true(f"refused: {code}", code in ("SQLITE_IOERR", "SQLITE_IOERR_FSYNC"))
            same("and reads nothing", "SQLITE_IOERR", code_of(lambda: rows(writer)))
            new = opened()
            same(
                "a new reader",
                ("ok", 50 + after),
                (one(new, "pragma integrity_check"), len(rows(new))),
            )


def test_pages_of_another_history_are_not_read():
    """Of a transaction that began before the restart, and of the past at an LSN."""
    with Service() as old, Proxy(old.address) as proxy, File(
        proxy.address, 2, operator=1, patience_ms=2000
    ) as writer:
        same("open", DONE, writer.open())
        for number in range(30):
            same(
                "commit",
                (DONE, DONE, DONE),
                (writer.begin(), writer.write(8192 * number, b"%d" % number), writer.commit()),
            )
        with File(proxy.address, 3, reads_only=True) as follower, File(
            proxy.address, 4, reads_only=True, at=25
        ) as past:
            same("open", (DONE, DONE), (follower.open(), past.open()))
            same("begin", (DONE, DONE), (follower.begin(), past.begin()))
            with restarted(old, proxy, 20) as new, File(new.address, 2, operator=1) as other:
                same("open", DONE, other.open())
                for number in range(20):
                    same(
                        "commit",
                        (DONE, DONE, DONE),
                        (other.begin(), other.write(8192 * number, b"other"), other.commit()),
                    )
                for file in (follower, past):
                    same("read", FENCED, file.read(0, 8192 * 20)[0])
                    true("why", "restarted" in file.words)


def test_the_wire_compares_what_it_saw_last():
    """After appends and after pulls; a service that has the same log is gone on with."""
    for is_same in (False, True):
        with Service() as old, Proxy(old.address) as proxy, Log(proxy.address, 2) as writer, Log(
            proxy.address, 3
        ) as looker:
            same("take over", DONE, writer.take_over())
            same("append", DONE, writer.append(numbered(1, 10)))
            same("pull", (DONE, 10), ((found := looker.pull(1))[0], found[1].count))
            with restarted(old, proxy, 10 if is_same else 5) as new, Log(new.address, 2) as other:
                same("the same epoch", (DONE, 2), (other.take_over(), other.epoch))
                if not is_same:
                    same("another history", DONE, other.append(numbered(6, 5, page=7)))
                wanted = DONE if is_same else FENCED
                same("pull", (wanted, not is_same), (looker.pull(10)[0], looker.is_restarted))
                same(
                    "append",
                    (wanted, not is_same),
                    (writer.append(numbered(11, 1)), writer.is_restarted),
                )
                same("the log", 11 if is_same else 10, len(blocks_of(new.address)))


def test_who_may_get_no_page_compares_the_block():
    """A table that allows it pulls alone."""
    table = TABLE.read_text().replace(
        'who = 3\nrole = "secondary"', 'who = 3\nrole = "secondary"\nop = ["pull", "status"]'
    )
    for is_same in (False, True):
        with Service(text=table) as old, Proxy(old.address) as proxy, Log(
            proxy.address, 3
        ) as looker:
            restore(old.address, numbered(1, 10).all())
            same(
                "pull, and no get",
                (DONE, DENIED),
                (looker.pull(1)[0], looker.get(SECONDARY, 1, [0])[0]),
            )
            old.end()
            with Service(text=table) as new:
                restore(
                    new.address,
                    numbered(1, 10).all()
                    if is_same
                    else [wire.block(lsn, [(0, 0, 24 * b"x")]) for lsn in range(1, 11)],
                )
                host, port = new.address.rsplit(":", 1)
                proxy.target = host, int(port)
                proxy.cut()
                same(
                    "pull",
                    (DONE if is_same else FENCED, not is_same),
                    (looker.pull(10)[0], looker.is_restarted),
                )


def test_a_write_that_the_old_service_took_is_no_proof():
    """The writes of an append were Done, and its report was lost together with the service. The new one has all that was in the log,
    and then another writer's block, which comes before this writer looks how far the log goes, or right after. The append is not
    done, whether its principal may pull or not; nor is one that nobody waited for."""
    for table in (TABLE, START_TABLE):
        for is_unwaited, is_late in ((False, False), (True, False), (False, True), (True, True)):
            is_cut, comes = [False], [None]

            def between(frame):
                if comes[0] and frame[33] in (wire.WRITE, wire.REPORT):
                    comes.pop()()
                    comes.append(None)
                return None if is_cut[0] and frame[33] == wire.REPORT else frame

            with Service(table=table) as old, Proxy(old.address, between=between) as proxy, Log(
                proxy.address, 2, patience_ms=2000
            ) as writer:
                same("take over", DONE, writer.take_over())
                same("append", DONE, writer.append(numbered(1, 3)))
                is_cut[0], blocks = True, numbered(4, 1)
                if is_unwaited:
                    writer.append_unwaited(blocks)
                else:
                    writer.append_ahead(blocks)
                    while writer.in_flight() > 0:
                        same("the writes are done", False, writer.is_due())
                with restarted(old, proxy, 3, table) as new, Log(new.address, 2) as other:
                    same("the same epoch", (DONE, 2), (other.take_over(), other.epoch))
                    others = lambda: same("another's", DONE, other.append(numbered(4, 1, page=7)))
                    if is_late:
                        comes[0] = others
                    else:
                        others()
                    is_cut[0] = False
                    outcome = writer.append(blocks)
                    true(f"{is_unwaited}, {is_late}, not done: {outcome}", outcome != DONE)
                    same("the log", numbered(4, 1, page=7).all(), blocks_of(new.address)[3:])


if __name__ == "__main__":
    run("restarts", globals())
