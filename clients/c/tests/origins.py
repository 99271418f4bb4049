"""For which database and run a mark was made: what a writer says of it, what older ones say, and what a client makes of marks of others.
The keeper is a stub of these tests."""

import contextlib
import hashlib
import hmac
import os
import sqlite3
import tempfile

from binding import DATABASE
from check import run, same, true
from database import code_of, named, one
from generations import fill, rows
from service import wire
from stub_keeper import KEEPER, StubKeeper

OTHER = "00000000-0000-4000-8000-00000000000f"
PLACE = 296  # of an origin in page 0, behind a name of any length
IMAGE = 256  # transactions after which page 0 is written as a whole


def origin(connection):
    return one(connection, "pragma pagelog_origin")


def page_of(generation):
    with generation.asker(wire.SECONDARY) as asker:
        return asker.page(0, asker.status()[2])


def entered(generation, of=None, seed=None, made_for=None):
    """A transaction at the end of a generation, as one of another writer: of an older one where it does not say for which database and run.
    Its session is made for that, or for another. Its position."""
    with generation.asker(wire.SECONDARY) as asker:
        _, primary, end = asker.status()
        page = asker.page(0, end)
    if primary != KEEPER:
        with generation.asker(wire.OPERATOR) as operator:
            operator.failover(KEEPER)
    seed, text = seed or os.urandom(16), (of or "").encode()
    session = hmac.new(seed, (made_for or of or "").encode(), hashlib.sha256).digest()[:8]
    position = (end + 1 + generation.shift).to_bytes(8, "big")
    mark = (
        page[:8]
        + position
        + page[16:24]
        + session
        + (int.from_bytes(page[32:40], "big") + 1).to_bytes(8, "big")
    )
    says = [(0, PLACE, seed + bytes([len(text)]) + text)] if of else []
    generation.fill([wire.block(1, [*says, (0, 0, mark)])[8:]])
    return end + 1 + generation.shift


@contextlib.contextmanager
def told():
    """What is said on standard error meanwhile."""
    with tempfile.TemporaryFile() as file:
        before, said = os.dup(2), []
        os.dup2(file.fileno(), 2)
        try:
            yield said
        finally:
            os.dup2(before, 2)
            os.close(before)
            file.seek(0)
            said += file.read().decode().splitlines()


def test_a_mark_says_for_which_database_and_run():
    with StubKeeper() as keeper:
        connection, other, reader = named(keeper), named(keeper, 5), named(keeper, 3, mode="ro")
        same("of nothing", "", origin(connection))
        connection.execute("create table t(a, b)")
        fill(connection, 3)
        same("of this run", f"{DATABASE}/run1", origin(connection))
        before = page_of(keeper.now)
        fill(other, 1, first=3)
        fill(connection, 1, first=4)
        same(
            "of this run, after another session",
            (f"{DATABASE}/run1", 5),
            (origin(connection), len(rows(reader))),
        )
        keeper.succeed()
        same(
            "of the run before",
            ([0, 1, 2, 3, 4], f"{DATABASE}/run1"),
            (rows(reader), origin(reader)),
        )
        fill(connection, 1, first=5)
        same(
            "of the next run",
            ([0, 1, 2, 3, 4, 5], f"{DATABASE}/run2"),
            (rows(reader), origin(reader)),
        )
        true("no mark is one of another run", before[24:32] != page_of(keeper.now)[24:32])
        connection.execute("pragma synchronous = normal")
        fill(connection, IMAGE, first=6)
        same("once page 0 was written as a whole", f"{DATABASE}/run2", origin(connection))


def test_a_mark_that_does_not_say_it_is_read_and_gone_on_from():
    """As of an older client, which leaves what another has said."""
    with StubKeeper() as keeper:
        connection = named(keeper)
        connection.execute("create table t(a, b)")
        connection.close()
        keeper.die(others=entered)
        connection, reader = named(keeper), named(keeper, 3, mode="ro")
        same("it does not say", ("", [], ""), (origin(connection), rows(reader), origin(reader)))
        fill(connection, 1)
        same("then", ([0], f"{DATABASE}/run2"), (rows(reader), origin(reader)))


def refused(keeper, action):
    """That a mark of another database is there."""
    same("of another database", "SQLITE_CANTOPEN", code_of(action))


def test_a_mark_of_another_database_is_refused():
    """Who opens it, and who is there already, each time."""
    why = (
        f"malformed: page 0 was written for the database {OTHER}, and not for this one, {DATABASE}"
    )
    with StubKeeper() as keeper:
        connection, reader = named(keeper), named(keeper, 3, mode="ro")
        connection.execute("create table t(a, b)")
        fill(connection, 2)
        same("before", [0, 1], rows(reader))
        reader.execute("pragma pagelog_check = 0")
        connection.close()
        entered(keeper.now, f"{OTHER}/run1")
        for _ in range(2):
            refused(keeper, lambda: rows(reader))
            same("why", why, one(reader, "pragma pagelog_error"))
        for principal, more in (2, {}), (3, {"mode": "ro"}):
            try:
                named(keeper, principal, **more)
                raise AssertionError("it was opened")
            except sqlite3.Error as error:
                same(
                    "an open",
                    ("SQLITE_CANTOPEN", f"pagelog: {why}"),
                    (error.sqlite_errorname, str(error)),
                )


def test_an_origin_that_is_known_is_known_by_all_of_it():
    """A session of another text than it was made for says nothing, as one of an older client."""
    with StubKeeper() as keeper:
        connection, reader = named(keeper), named(keeper, 3, mode="ro")
        connection.execute("create table t(a, b)")
        reader.execute("pragma pagelog_check = 0")
        same("before", [], rows(reader))
        connection.close()
        seed, own = os.urandom(16), f"{DATABASE}/run1"
        for more in {"seed": seed}, {}, {"seed": seed}, {}:
            entered(keeper.now, own, **more)
            same("of this database", ([], own), (rows(reader), origin(reader)))
        entered(keeper.now, f"{OTHER}/run1", seed, own)
        same("it does not say", ([], ""), (rows(reader), origin(reader)))
        entered(keeper.now, f"{OTHER}/run1", seed)
        refused(keeper, lambda: rows(reader))


def test_a_copy_has_the_marks_of_what_it_was_copied_from():
    """Up to the position at which it was copied, whatever name they have; and its own from its first commit on."""
    with StubKeeper() as keeper:
        connection = named(keeper)
        connection.execute("create table t(a, b)")
        fill(connection, 2)
        connection.close()
        keeper.copy(OTHER)
        refused(keeper, lambda: named(keeper))
        keeper.more = (f"copied={len(keeper.archive)}",)
        copy, reader = named(keeper, file="shop"), named(keeper, 3, mode="ro", file="shop")
        same(
            "it opens under its own name",
            ([0, 1], f"{DATABASE}/run1"),
            (rows(reader), origin(reader)),
        )
        fill(copy, 1, first=2)
        same("its own", ([0, 1, 2], f"{OTHER}/run2"), (rows(reader), origin(reader)))
        same("its name", b"\4shop", page_of(keeper.now)[40:45])
        refused(keeper, lambda: named(keeper))


def test_a_mark_of_a_run_that_explains_nothing_is_said_once():
    """It is above what the run before has left, and of neither this run nor that one."""
    with StubKeeper() as keeper:
        named(keeper).execute("create table t(a, b)")
        keeper.die()
        for run_of, more, wanted in (
            ("run2", ("after=run1",), 0),
            ("run0", (), 0),
            ("run1", ("after=run1",), 0),
            ("run0", ("after=run1",), 1),
        ):
            keeper.more = more
            entered(keeper.now, f"{DATABASE}/{run_of}")
            with told() as said:
                reader = named(keeper, 3, mode="ro", errors="stderr")
                same(
                    "it is read",
                    ([], [], f"{DATABASE}/{run_of}"),
                    (rows(reader), rows(reader), origin(reader)),
                )
            same(run_of, wanted, sum("was made for run" in line for line in said))
        keeper.succeed()
        with told() as said:
            same("it is read", [], rows(named(keeper, 3, mode="ro", errors="stderr")))
        same("of what the run before has left", [], said)


if __name__ == "__main__":
    run("origins", dict(globals()))
