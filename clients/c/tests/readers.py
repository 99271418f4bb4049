"""How old what a connection reads may be: of a run that was superseded though its service lives, and of what is durable. The keeper is
a stub of these tests."""

import contextlib
import random
import time
from functools import partial

from check import run, same, true
from database import code_of, connect, named, numbers, one, reader, sqlite_of
from generations import fill, rows, silent, until
from service import Service
from stub_keeper import StubKeeper
from vfs_forks import in_child

READERS = 8
ROWS = 2000
EACH = 1.0  # seconds between two questions of a process
IDLE = 2.1  # after so many without a read the next one waits for an answer


@contextlib.contextmanager
def superseded_by(**options):
    """A keeper, another one that stands still, and what supersedes a run whose service lives."""
    with StubKeeper() as keeper, silent() as quiet:
        addresses = f"{quiet},{keeper.address}"
        writer = named(keeper)
        writer.execute("create table t(a, b)")
        fill(writer, 2)
        reader = sqlite_of(addresses, "shop", **options)
        keeper.clients.add(reader)
        same("at first", [0, 1], rows(reader))

        def supersede(first):
            """The first row comes into the log of the run that is over, too; the second one does not."""
            keeper.switch(keeper.next(images=False))
            fill(writer, 2, first=first)

        yield keeper, reader, supersede
        writer.close()


def test_a_connection_leaves_a_run_that_was_superseded():
    for name, options in {
        "a reader": {"principal": 3, "mode": "ro"},
        "one that asks seldom": {"principal": 3, "mode": "ro", "check": 5000},
        "a writer that only reads": {"principal": 2},
    }.items():
        with superseded_by(**options) as (keeper, reader, supersede):
            supersede(9)
            until(
                lambda: rows(reader) == [0, 1, 9, 10],
                f"{name}: what is committed in the next generation",
            )
            same(f"{name}: generation", (2,), numbers(reader, "generation"))
            true(f"{name}: its service lives", keeper.old[0].asker(2).__enter__().status()[2] >= 3)


def test_a_reader_that_was_idle_asks_before_it_reads():
    """A keeper may be slow to answer, once or twice."""
    with superseded_by(principal=3, mode="ro") as (_, reader, supersede):
        wanted, seen = [0, 1], []
        while seen[-1:] != [True]:
            true("at once", len(seen) < 5)
            supersede(len(wanted))
            wanted += [len(wanted), len(wanted) + 1]
            time.sleep(IDLE)
            seen.append(rows(reader) == wanted)


def test_keepers_are_asked_for_all_connections_of_a_process_together():
    with StubKeeper() as keeper:
        writer = named(keeper)
        writer.execute("create table t(a, b)")
        readers = [named(keeper, 3, mode="ro") for _ in range(READERS)]
        same("all", [[]] * READERS, [rows(reader) for reader in readers])
        asked, since = keeper.asked, time.monotonic()
        while time.monotonic() - since < 3 * EACH:
            same("all", [[]] * READERS, [rows(reader) for reader in readers])
        true(
            "asked", 0 < keeper.asked - asked <= (time.monotonic() - since) / EACH + 2
        )  # one of them a greeting


def test_a_durable_reader_has_what_it_sees_archived():
    """Beside a writer that waits for nothing, and a keeper that archives what it is asked for alone."""
    with StubKeeper() as keeper:
        writer, reader = named(keeper), named(keeper, 3, mode="ro", durable=1)
        writer.execute("create table t(a, b)")
        writer.execute("pragma synchronous = off")
        for count in range(1, 11):
            fill(writer, 1, first=count)
            until(lambda: rows(reader) == list(range(1, count + 1)), "what was committed")
        fill(writer, 1, first=11)
        keeper.is_archiving = False
        same("and nothing else", list(range(1, 11)), rows(reader))
        keeper.is_archiving = True


def test_a_later_durable_reader_sees_what_an_earlier_one_saw():
    """The keeper that it asks knows less, and the holder's stands still."""
    with StubKeeper() as keeper, silent() as quiet:
        asked = keeper.address
        writer = named(keeper)
        writer.execute("create table t(a, b)")
        fill(writer, 5)
        reader = sqlite_of(asked, "shop", 3, mode="ro", durable=1)
        same("the first", list(range(5)), rows(reader))
        answer = keeper.answer

        def knows_less(words):
            said = [*answer(words)]
            if words[0] == "where":
                said[5], said[6] = 2, quiet
            return tuple(said)

        keeper.answer = knows_less
        later = sqlite_of(asked, "shop", 3, mode="ro", durable=1)
        same("a later one", list(range(5)), rows(later))
        keeper.answer = answer
        for each in (later, reader, writer):
            each.close()


# ---- Pages that are in no cache ----


@contextlib.contextmanager
def cold(**options):
    """A connection that has read nothing yet of a database of some 500 pages, and the keys of its rows in any order."""
    with Service() as service:
        writer = connect(service.address)
        writer.execute("create table t(a integer primary key, b)")
        writer.execute("begin")
        fill(writer, ROWS, size=2000)
        writer.execute("commit")
        keys = list(range(ROWS))
        random.Random(1).shuffle(keys)
        connection = reader(service.address, **options)
        connection.execute("begin")
        one(connection, "select count(*) from sqlite_schema")
        yield connection, keys
        connection.close()
        writer.close()


def look(connection, key):
    same("a row", key, one(connection, "select a from t where a = ? and length(b) = 2000", key))


def test_a_database_that_has_room_in_memory_is_fetched_many_pages_at_a_time():
    with cold() as (connection, keys):
        for key in keys:
            look(connection, key)
        trips, pages = numbers(connection, "round_trips", "pages_fetched")
        true(f"{trips} round trips for {pages} pages", 400 < pages and trips < pages / 5)


def test_of_one_that_has_not_each_read_fetches_what_it_reads():
    with cold(pages=64) as (connection, keys):
        trips, pages = numbers(connection, "round_trips", "pages_fetched")
        for key in keys[:500]:
            look(connection, key)
        trips, pages = (
            now - before
            for now, before in zip(
                numbers(connection, "round_trips", "pages_fetched"), (trips, pages)
            )
        )
        true(f"{trips} round trips for {pages} pages", trips > 100 and pages < 1.3 * trips)


def test_nor_does_one_fetch_more_that_reads_now_and_then():
    with cold() as (connection, keys):
        trips, pages = numbers(connection, "round_trips", "pages_fetched")
        for key in keys[:50]:
            since = time.monotonic()
            look(connection, key)
            time.sleep(2 * (time.monotonic() - since))
        trips, pages = (
            now - before
            for now, before in zip(
                numbers(connection, "round_trips", "pages_fetched"), (trips, pages)
            )
        )
        true(f"{trips} round trips for {pages} pages", trips > 30 and pages < 1.5 * trips)


# ---- Pages that the process keeps ----

WIDE = 40  # rows, each of which has a page


@contextlib.contextmanager
def wide():
    """A service, a writer that keeps nothing, and a function that adds a row."""
    with Service() as service:
        writer = connect(service.address, keep=0)
        writer.execute("create table t(a integer primary key, b)")
        fill(writer, WIDE, size=8000)
        yield service, lambda number: fill(writer, 1, size=8000, first=number)
        writer.close()


def read_once(opened):
    """What a connection reads that is opened for it, and how many pages it has fetched."""
    connection = opened()
    found = rows(connection), one(connection, "pragma integrity_check")
    (fetched,) = numbers(connection, "pages_fetched")
    connection.close()
    return found, fetched


def reads(what, opened, count, fetches):
    found, fetched = read_once(opened)
    same(what, (list(range(count)), "ok"), found)
    true(f"{what}: {fetched} pages", (fetched > WIDE / 2) == fetches)


def test_the_next_connection_goes_on_with_the_pages_of_the_last():
    """At once, and after commits of another; but for another principal, and one that keeps none."""
    with wide() as (service, add):
        for name, check in (("a reader", 0), ("one that asks seldom", 60000)):
            opened = partial(reader, service.address, check=check)
            reads(f"{name}, first", opened, WIDE, check == 0)
            reads(f"{name}, again", opened, WIDE, False)
        for count in range(WIDE, WIDE + 6, 2):
            add(count)
            reads("after a commit", partial(reader, service.address), count + 1, False)
            add(count + 1)
            reads("so", partial(reader, service.address, check=60000), count + 2, False)
        reads("of its own", partial(reader, service.address, principal=4), WIDE + 6, True)
        same(
            "in a child",
            None,
            in_child(lambda: reads("there", partial(reader, service.address), WIDE + 6, False)),
        )
        reads("none", partial(reader, service.address, keep=0), WIDE + 6, True)
        reads("beside it", partial(reader, service.address), WIDE + 6, False)
        for fetches in (True, False):  # it begins an epoch each time
            reads("a writer", partial(connect, service.address, 5), WIDE + 6, fetches)


def test_a_process_keeps_the_pages_of_four_databases():
    with contextlib.ExitStack() as held:
        addresses = [held.enter_context(wide())[0].address for _ in range(5)]
        for address in addresses:
            reads("first", partial(reader, address), WIDE, True)
        for number in (4, 3, 2, 1):
            reads(f"database {number}", partial(reader, addresses[number]), WIDE, False)
        reads("the first of five", partial(reader, addresses[0]), WIDE, True)


def test_pages_of_a_named_database_outlive_its_service_and_lost_ones_do_not():
    """A row that is lost with its service was in what was kept; another writer has one in its place."""
    for more in ({"principal": 3, "mode": "ro"}, {"principal": 5}):
        with StubKeeper() as keeper:
            writer = named(keeper, keep=0)
            writer.execute("create table t(a integer primary key, b)")
            writer.execute("pragma synchronous = normal")
            fill(writer, WIDE, size=8000)
            opened = partial(sqlite_of, keeper.address, "shop", **more)
            reads("first", opened, WIDE, True)
            for event in (
                keeper.succeed,
                partial(keeper.succeed, images=False, empty=0),
                keeper.die,
            ):
                reads("again", opened, WIDE, False)
                event()
                reads("in the next generation", opened, WIDE, False)
            fill(writer, 2, size=8000, first=WIDE)
            reads("what will be lost", opened, WIDE + 2, more["principal"] != 3)
            keeper.die(lost=2)
            in_child(lambda: fill(named(keeper, keep=0), 2, size=8000, first=100))
            found, _ = read_once(opened)
            same("what is there", ([*range(WIDE), 100, 101], "ok"), found)
            same("told", "SQLITE_IOERR_FSYNC", code_of(lambda: rows(writer)))
            writer.close()


if __name__ == "__main__":
    run("readers", dict(globals()), tuple(name for name in globals() if name.startswith("test_")))
