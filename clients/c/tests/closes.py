"""What a close of a connection waits for: with synchronous=normal the archive, as a COMMIT with full does. With a stub of a keeper."""

import contextlib
import threading
import time

from check import run, same, true
from database import code_of, named, numbers, one
from generations import fill, overtaking, rows, silent, until
from stub_keeper import StubKeeper
from vfs_forks import in_child


def writer(keeper, level="normal", **how):
    """A connection with one row that the archive has, and one that it has not."""
    connection = named(keeper, **how)
    connection.execute("create table t(a, b)")
    fill(connection, 1)
    connection.execute(f"pragma synchronous = {level}")
    keeper.is_archiving = False
    fill(connection, 1, first=1)
    return connection


def questions(keeper):
    """A list that gets the position of each question for what is durable."""
    asked, durable = [], keeper.durable

    def noted(name, generation, position):
        asked.append(position)
        return durable(name, generation, position)

    keeper.durable = noted
    return asked


@contextlib.contextmanager
def closing(keeper, connection):
    """Amid a close, which has asked the keeper; it has ended afterwards."""
    asked = questions(keeper)
    thread = threading.Thread(target=connection.close, daemon=True)
    thread.start()
    until(lambda: asked or not thread.is_alive(), "a keeper is asked")
    true("the close waits", thread.is_alive())
    yield thread
    thread.join(60)
    true("it is closed", not thread.is_alive())


def ended_in_time(connection):
    since = time.monotonic()
    connection.close()
    true("it ended", time.monotonic() - since < 100)


def test_a_close_waits_for_the_archive():
    with StubKeeper() as keeper:
        connection = writer(keeper)
        (position,) = numbers(connection, "position")
        with closing(keeper, connection):
            same("not yet", True, len(keeper.archive) < position)
            keeper.is_archiving = True
        same("it is durable", position, len(keeper.archive))
        keeper.die(lost=0)
        same("it is there", [0, 1], rows(named(keeper, 3, mode="ro")))


def test_a_close_sends_again_what_a_service_has_lost():
    """The keeper says that the generation is over, and the next one lacks it."""
    for how in ({"lost": 1}, {"lost": 1, "others": lambda new: None}):
        with StubKeeper() as keeper:
            connection = writer(keeper)
            (position,) = numbers(connection, "position")
            with closing(keeper, connection):
                keeper.die(**how)
                same("it was lost", position - 1, len(keeper.archive))
                keeper.is_archiving = True
            same("it is durable", position, len(keeper.archive))
            reading = named(keeper, 3, mode="ro")
            same(
                "it is there",
                ([0, 1], "ok"),
                (rows(reading), one(reading, "pragma integrity_check")),
            )


def test_a_close_goes_on_in_the_next_generation():
    """All of it is there, at other LSNs."""
    with StubKeeper() as keeper:
        connection = writer(keeper)
        with closing(keeper, connection):
            keeper.succeed(empty=200)
        same("it is there", [0, 1], rows(named(keeper, 3, mode="ro")))


def test_what_a_close_has_lost_is_told_by_another_connection():
    """Once: another writer was first in the next generation."""
    with StubKeeper() as keeper:
        connection, beside = writer(keeper), named(keeper)
        with closing(keeper, connection):
            keeper.die(lost=1, others=overtaking)
            keeper.is_archiving = True
        same("told", "SQLITE_IOERR_FSYNC", code_of(lambda: rows(beside)))
        same("then", ([0, 100], "ok"), (rows(beside), one(beside, "pragma integrity_check")))


def test_a_close_ends_in_time():
    """By `move`, and by the busy handler; with a keeper that says nothing of it, or nothing at all, and one that is gone."""
    for how in ({"move": 300}, {"busy": 1.2}):
        with StubKeeper() as keeper:
            ended_in_time(writer(keeper, **how))
        with StubKeeper() as keeper, silent() as quiet:
            connection = writer(keeper, **how)
            keeper.cut_lines()
            keeper.server.socket.close()  # its threads are left, and ask nobody
            keeper.is_published, keeper.rule = False, lambda frame: None
            keeper.now.proxy.cut()
            ended_in_time(connection)


def test_a_close_lets_nobody_in_amid_a_transaction():
    """Of another connection, which has the database for itself."""
    with StubKeeper() as keeper:
        connection, other, reading = writer(keeper), named(keeper), named(keeper, busy=0)
        with closing(keeper, connection):
            other.execute("begin exclusive")
            same("refused", "SQLITE_BUSY", code_of(lambda: rows(reading)))
            other.execute("rollback")
            same("then", [0, 1], rows(reading))
            keeper.is_archiving = True


def test_who_has_nothing_to_wait_for_asks_nobody():
    """It has committed nothing, or nothing that is not durable; or it does not care."""
    with StubKeeper() as keeper:
        connection = writer(keeper, "off", move=300)
        asked, reading, rolls_back = (
            questions(keeper),
            named(keeper, 3, mode="ro"),
            named(keeper, move=300),
        )
        rolls_back.execute("pragma synchronous = normal")
        rolls_back.execute("pragma cache_size = 2")
        rolls_back.execute("begin immediate")
        fill(rolls_back, 9, size=20000)
        rolls_back.execute("rollback")
        for each in (reading, rolls_back, connection):
            rows(each)
            each.close()
        same("a reader, a rollback, off", [], asked)
        keeper.is_archiving = True
        connection = named(keeper)
        connection.execute("pragma synchronous = normal")
        fill(connection, 1, first=2)
        connection.execute("pragma synchronous = full")
        fill(connection, 1, first=3)
        same("full", 1, len(asked))
        connection.close()
        same("all of it is durable", 1, len(asked))


def test_a_child_closes_at_once():
    """What its parent has committed is the parent's."""
    with StubKeeper() as keeper:
        connection, asked = writer(keeper), questions(keeper)
        in_child(connection.close)
        same("asked", [], asked)
        same("it is there", [0, 1], rows(connection))
        keeper.is_archiving = True


if __name__ == "__main__":
    run("closes", dict(globals()))
