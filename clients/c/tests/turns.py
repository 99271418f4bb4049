"""Turns to write a named database, of several processes, with a stub of a keeper: given back, waited for, kept, lost, and from one
generation to the next."""

import contextlib
import os
import pathlib
import signal
import socket
import threading
import time

from check import run, same, true
from database import code_of, named, numbers, one, uri_of
from generations import at_the_takeover, fill, opened_in, overtaking, rows, until
from service import wire
from stub_keeper import Generation, StubKeeper
from vfs_forks import fork, in_child

from pagelog.keeper import turns  # its folder is where stub_keeper.py has found it


def begins(keeper, **how):
    """What another process is told that begins to write, and ends at once."""
    return in_child(lambda: code_of(lambda: named(keeper, **how).execute("begin immediate")))


def amid_a_transaction(keeper):
    """A connection that has the turn, and has written row 0."""
    connection = named(keeper)
    connection.execute("create table t(a, b)")
    connection.execute("begin immediate")
    fill(connection, 1)
    return connection


def waits_for_a_turn(keeper):
    """Another process waits, writes row 1, and reads all rows. Returns what waits for its end."""
    waits = fork(lambda: (fill(waiting := named(keeper, busy=60), 1, first=1), rows(waiting)))
    until(lambda: keeper.turns._waiting, "another waits")
    return waits


def until_it_begins(keeper):
    while begins(keeper, busy=0):
        pass


def test_a_turn_is_given_back():
    with StubKeeper() as keeper:
        connection = named(keeper)
        connection.execute("create table t(a, b)")
        for count in (1, 30):  # the last ones of many are kept
            fill(connection, count)
            for end in ("commit", "rollback"):
                connection.execute("begin immediate")
                fill(connection, 1)
                same("while it is held", "SQLITE_BUSY", begins(keeper, busy=0))
                connection.execute(end)
                same(end, None, begins(keeper, busy=60))


def test_a_turn_is_given_back_where_a_begin_fails():
    with StubKeeper() as keeper:
        connection, other, told = amid_a_transaction(keeper), named(keeper, 5, move=300), []
        thread = threading.Thread(
            target=lambda: told.append(code_of(lambda: other.execute("begin immediate")))
        )
        thread.start()
        until(lambda: keeper.turns._waiting, "another waits")
        keeper.rule = (
            lambda frame: None if int.from_bytes(frame[4:8], "big") == 5 else frame
        )  # its principal
        connection.execute("commit")
        thread.join()
        same("told", ["SQLITE_IOERR"], told)
        keeper.rule = None
        same("it was given back", None, begins(keeper, busy=60))


def test_a_turn_is_waited_for():
    with StubKeeper() as keeper:
        connection = amid_a_transaction(keeper)
        waits = waits_for_a_turn(keeper)
        connection.execute("commit")
        same("both", (None, [0, 1]), waits())


def test_a_turn_ends_with_its_process():
    """Though a child of that lives on, which has inherited the connection."""
    with StubKeeper() as keeper:
        named(keeper).execute("create table t(a, b)")
        reads, writes = os.pipe()

        def leaves_a_child():
            connection = named(keeper)
            connection.execute("begin immediate")
            if os.fork() == 0:
                os.close(writes)
                os.read(reads, 1)  # until the test is over
                os._exit(0)
            os._exit(code_of(lambda: fill(connection, 1)) is not None)

        if (child := os.fork()) == 0:
            leaves_a_child()
        same("it wrote", 0, os.waitpid(child, 0)[1])
        until_it_begins(keeper)
        os.close(writes)
        os.close(reads)


def test_a_child_has_no_turn():
    """What it closes gives nothing back."""
    with StubKeeper() as keeper:
        connection = named(keeper)
        connection.execute("create table t(a, b)")
        connection.execute("begin immediate")
        in_child(lambda: connection.close())
        same("it is held", "SQLITE_BUSY", begins(keeper, busy=0))
        fill(connection, 1)
        connection.execute("commit")
        same("it is there", [0], rows(named(keeper, 3, mode="ro")))


@contextlib.contextmanager
def for_ever(name, seconds=3600):
    """A time of the keeper's that does not end, or so soon: the first turn of a generation is for who had the last one of the one before
    (EARLY), or a turn that is wanted back is waited for (GRACE), until the test ends that."""
    before = getattr(turns, name)
    setattr(turns, name, seconds)
    try:
        yield
    finally:
        setattr(turns, name, before)


def test_who_is_amid_a_transaction_is_first_in_the_next_generation():
    """Who waits for the turn asks for it there again, wherever it was when the generation ended."""
    for event in (StubKeeper.succeed, StubKeeper.die):
        with for_ever("EARLY"), StubKeeper() as keeper:
            connection = amid_a_transaction(keeper)
            waits = waits_for_a_turn(keeper)
            event(keeper)
            until(lambda: keeper.turns._waiting, "it waits in the next generation")
            connection.execute("commit")
            with keeper.changed:
                keeper.turns._begin()
            same("both", (None, [0, 1]), waits())


def test_who_has_committed_in_the_next_generation_is_the_one_who_had_the_turn():
    """Its transaction began in the one before, and nobody else has had the turn meanwhile: it says so at its next begin."""
    for event in (StubKeeper.succeed, StubKeeper.die):
        with for_ever("EARLY"), StubKeeper() as keeper:
            connection, other = amid_a_transaction(keeper), named(keeper, 5, busy=60)
            event(keeper)
            connection.execute("commit")
            connection.execute("pragma busy_timeout = 5000")
            connection.execute("begin immediate")
            fill(connection, 1, first=1)
            connection.execute("commit")
            fill(other, 1, first=2)
            same("all of it", [0, 1, 2], rows(connection))


def test_who_had_the_turn_long_ago_is_not_the_one_who_had_it():
    """It has committed in the generation after that, and asks for nothing there."""
    with for_ever("EARLY"), StubKeeper() as keeper:
        connection = amid_a_transaction(keeper)
        keeper.succeed()
        connection.execute("commit")
        keeper.succeed()
        thread = threading.Thread(target=lambda: fill(connection, 1, first=1))
        connection.execute("pragma busy_timeout = 60000")
        thread.start()
        until(lambda: keeper.turns._waiting, "it waits for who had it last")
        with keeper.changed:
            keeper.turns._begin()
        thread.join()
        same("all of it", [0, 1], rows(connection))


def test_a_writer_that_is_alone_goes_on_at_once():
    """It has kept the turn, and says so in the next generation, where others would be waited for."""
    with for_ever("EARLY"), StubKeeper() as keeper:
        connection = named(keeper, busy=60)
        connection.execute("create table t(a, b)")
        fill(connection, 30)
        true("it is kept", keeper.turns._holder)
        keeper.succeed()
        fill(connection, 1, first=30)
        same("all of it", list(range(31)), rows(connection))


def test_the_first_write_of_a_generation_by_one_who_is_alone_and_waits_for_nobody():
    """Without a busy timeout, in a generation after which nobody had the turn, and in one of which that is not known."""
    with StubKeeper() as keeper:
        connection = named(keeper, busy=0)
        connection.execute("create table t(a, b)")
        for number, event in enumerate(
            (
                lambda: keeper.succeed(),
                lambda: keeper.die(),
                lambda: (keeper.succeed(), forget(keeper)),
            )
        ):
            event()
            same("the first write", None, code_of(lambda: fill(connection, 1, first=number)))
        same("all of it", [0, 1, 2], rows(connection))


def test_a_keeper_that_lives_may_take_longer_than_a_second_in_a_generation_that_begins():
    """It waits for who wrote last, who has asked for nothing, and answers nobody else meanwhile; one that is late is no other."""
    with for_ever("EARLY", 1.5), StubKeeper() as keeper:
        connection = named(keeper, busy=0)
        connection.execute("create table t(a, b)")
        keeper.succeed()
        same("the first write", None, code_of(lambda: fill(connection, 1)))
        same("it has its turn", [0], rows(connection))


def forget(keeper):
    """As if another keeper had had the generation before."""
    with keeper.changed:
        keeper.turns = turns.Turns(keeper.name, keeper.now.number, keeper.after)


def test_a_turn_of_a_generation_that_is_over_is_not_waited_for():
    """Though nobody says so over its line, as where a machine is gone."""
    with for_ever("EARLY"), StubKeeper() as keeper:
        connection = amid_a_transaction(keeper)
        waits = waits_for_a_turn(keeper)
        keeper.turns.end = lambda: None
        keeper.die()
        connection.execute("commit")
        with keeper.changed:
            keeper.turns._begin()
        same("both", (None, [0, 1]), waits())


def test_turns_of_a_keeper_that_is_gone():
    """Who waits for the turn waits a while for the next keeper, and who has it goes on. The while is three seconds: if the machine
    takes longer, a failover is held up for as long."""
    with StubKeeper() as keeper:
        connection = named(keeper, move=2000)
        connection.execute("create table t(a, b)")
        connection.execute("pragma synchronous = normal")

        def wait():
            waiting = named(keeper, busy=60)
            waiting.execute("pragma synchronous = normal")
            fill(waiting, 1, first=1)
            return rows(waiting)

        connection.execute("begin immediate")
        fill(connection, 1)
        waits = fork(wait)
        until(lambda: keeper.turns._waiting, "another waits")
        asked, is_done = [], threading.Event()

        def rule(frame):
            asked.append(frame)
            return frame if frame[33] != wire.FAILOVER or is_done.wait(60) else None

        keeper.rule = rule
        keeper.turns.gone = lambda line: None  # it gives no turn any more
        keeper.server.socket.shutdown(socket.SHUT_RDWR)
        keeper.cut_lines()
        until(lambda: len(asked) > 8, "it begins again and again")
        connection.execute("commit")
        is_done.set()
        same("both", [0, 1], waits())


def test_a_keeper_that_dies_again_and_again_is_waited_for_each_time():
    """While it lives it has who asks wait: three seconds after the first time are none in which no keeper has answered."""
    with StubKeeper() as keeper:
        connection = amid_a_transaction(keeper)
        before = len(keeper.lines)
        waits = waits_for_a_turn(keeper)
        for _ in range(5):
            until(lambda: keeper.turns._waiting, "it waits")
            for each in keeper.lines[before:]:
                with contextlib.suppress(OSError):
                    each.shutdown(socket.SHUT_RDWR)
            until(lambda: not keeper.turns._waiting, "its line has ended")
        until(lambda: keeper.turns._waiting, "it waits again")
        same("nobody has written meanwhile", None, code_of(lambda: connection.execute("commit")))
        same("both", (None, [0, 1]), waits())


def test_who_had_the_turn_before_another_wrote_without_one_is_not_the_one_who_had_it():
    """No keeper has answered for a while, and both write on. In the next generation it waits as others do, so that they bring what they
    have written."""
    for writes in (False, True):
        with StubKeeper() as keeper:
            connection, heard, turn = keep_the_turn(keeper, busy=60), [], keeper.turn
            count = len(rows(connection))

            def ends(line, words):
                raise OSError("the line ends")

            keeper.turn = ends
            keeper.cut_lines()
            time.sleep(0.05)  # what was looked after a moment ago is used without a look
            if writes:
                other = opened_in(keeper.now)
                fill(other, 1, first=100)
                other.close()
            fill(connection, 1, first=200)

            def noted(line, words):
                heard.append(words)
                turn(line, words)

            keeper.turn = noted
            keeper.succeed()
            fill(connection, 1, first=201)
            same("all of it", count + 2 + writes, len(rows(connection)))
            [words, *_] = [words for words in heard if words[0] == "turn"]
            same(f"it says that it had it: {not writes}", not writes, "mine" in words)


def test_who_writes_without_a_turn_writes_nothing_into_a_generation_that_is_over():
    """Though its service lives: before that it asks whether another is there. A transaction that has read goes on there."""
    for is_upgrade in (False, True):
        with StubKeeper() as keeper:
            connection = keep_the_turn(keeper, busy=60)

            def ends(line, words):
                raise OSError("the line ends")

            connection.execute("begin" if is_upgrade else "select 1")
            same("before", 30, len(rows(connection)))
            keeper.turn = ends
            keeper.cut_lines()
            time.sleep(0.05)  # what was looked after a moment ago is used without a look
            keeper.archive_now()
            old, before = keeper.now, end_of(keeper)
            keeper.switch(keeper.next(images=False))
            fill(connection, 1, first=200)
            if is_upgrade:
                connection.execute("commit")
            with old.asker(wire.SECONDARY) as asker:
                same(f"{is_upgrade=}: the one that is over", before, asker.status()[2])
            same("it is in the next one", 31, len(rows(connection)))


def test_a_keeper_that_knows_less_and_answers_first():
    """Others are waited for, where another generation may be there: a reader comes there, and who writes without a turn writes there."""
    with StubKeeper() as keeper, StubKeeper() as other:
        knows, old = [], keeper.now

        def known(words):
            return knows[0] if knows else StubKeeper.answer(keeper, words)

        other.answer = (
            lambda words: known(words) if words[0] == "where" else StubKeeper.answer(other, words)
        )
        keeper.address = f"{other.address},{keeper.address}"
        connection, reader = keep_the_turn(keeper, busy=5), named(keeper, 3, mode="ro")
        keeper.archive_now()
        knows.append(StubKeeper.answer(keeper, ["where", keeper.name]))
        answer = keeper.answer

        def late(words):
            if words[0] == "where":
                time.sleep(0.05)
            return answer(words)

        def ends(line, words):
            raise OSError("the line ends")

        keeper.answer, keeper.turn = late, ends
        keeper.cut_lines()
        time.sleep(0.05)  # what was looked after a moment ago is used without a look
        before = end_of(keeper)
        keeper.switch(keeper.next(images=False))
        fill(connection, 1, first=200)
        with old.asker(wire.SECONDARY) as asker:
            same("the one that is over", before, asker.status()[2])
        until(lambda: len(rows(reader)) == 31, "it reads in the next one")


def lose_the_run(keeper, connection):
    """Of what it commits PostgreSQL goes back to before, and no turn is given any more. Returns the generation that goes on without it."""
    connection.execute("pragma synchronous = full")
    kept = list(keeper.archive)
    fill(connection, 1, first=100)
    answer, old = keeper.answer, keeper.now

    def ends(line, words):
        raise OSError("the line ends")

    def superseded(words):
        if words[0] != "durable" or words[-1] != keeper.of(old.run):
            return answer(words)
        return "lost", *words[1:3], "superseded", f"by={keeper.now.number}", words[-1]

    keeper.turn, keeper.answer = ends, superseded
    keeper.cut_lines()
    time.sleep(0.05)  # what was looked after a moment ago is used without a look
    keeper.archive = kept
    new = Generation(keeper, old.number + 1)
    new.fill(kept)
    return new


def test_who_writes_without_a_turn_is_told_that_its_run_is_lost():
    """PostgreSQL went back, and has gone on without what it has committed. Its write says so once, and the next one goes on there."""
    for is_upgrade in (False, True):
        with StubKeeper() as keeper:
            connection = keep_the_turn(keeper, busy=5)
            new = lose_the_run(keeper, connection)
            if is_upgrade:
                connection.execute("begin")
                same("before", 31, len(rows(connection)))
            keeper.switch(new)
            code = code_of(lambda: fill(connection, 1, first=200))
            same(f"{is_upgrade=}: it is told", "SQLITE_IOERR_FSYNC", code)
            true("why", "went back" in one(connection, "pragma pagelog_error"))
            if connection.in_transaction:
                connection.execute("rollback")
            fill(connection, 1, first=201)
            same("it goes on", 31, len(rows(connection)))


def test_who_has_the_later_generation_is_asked_what_is_lost():
    """Another that was named first may know less, as here, or be silent: then each write would be busy, or wait for it."""
    with StubKeeper() as keeper, StubKeeper() as other:

        def knows_less(words):
            if words[0] == "durable":
                return "durable", *words[1:]
            return StubKeeper.answer(keeper, words)

        other.answer, keeper.address = knows_less, f"{other.address},{keeper.address}"
        connection = keep_the_turn(keeper, busy=5)
        keeper.switch(lose_the_run(keeper, connection))
        code = code_of(lambda: fill(connection, 1, first=200))
        same("it is told", "SQLITE_IOERR_FSYNC", code)
        fill(connection, 1, first=201)
        same("it goes on", 31, len(rows(connection)))


def test_an_upgrade_that_comes_to_no_other_generation_in_time_is_busy():
    """And goes on with its transaction: nothing is lost, and the turn may come."""
    with StubKeeper() as keeper:
        true("another has written", not begins(keeper))
        connection = named(keeper, busy=60, move=300)
        connection.execute("begin")
        connection.execute("select * from sqlite_master").fetchall()
        turn = keeper.turn

        def waits(line, words):
            if words[0] == "turn":
                line.say("soon", keeper.name)

        keeper.turn = waits
        keeper.archive_now()
        keeper.switch(keeper.next(images=False))
        keeper.rule = lambda frame: None
        code = code_of(lambda: connection.execute("create table t(a, b)"))
        same("told", ("SQLITE_BUSY", True), (code, connection.in_transaction))
        keeper.rule, keeper.turn = None, turn
        connection.execute("create table t(a, b)")
        connection.execute("commit")


@contextlib.contextmanager
def signals_for_ever(each=0.05):
    """They interrupt each call of the system that waits."""
    before = signal.signal(signal.SIGALRM, lambda *_: None)
    signal.setitimer(signal.ITIMER_REAL, each, each)
    try:
        yield
    finally:
        signal.setitimer(signal.ITIMER_REAL, 0)
        signal.signal(signal.SIGALRM, before)


@contextlib.contextmanager
def no_connect():
    """An address at which no connection comes about, and none is refused: there is no room for one more."""
    with socket.create_server(
        ("127.0.0.1", 0), backlog=0
    ) as listener, contextlib.ExitStack() as waiting:
        for _ in range(4):
            each = waiting.enter_context(socket.socket())
            each.setblocking(False)
            each.connect_ex(listener.getsockname())
        yield "%s:%d" % listener.getsockname()


def test_a_turn_that_nobody_can_be_asked_for():
    """Who writes goes on without one in the end, whatever signals come meanwhile."""
    with StubKeeper() as keeper, no_connect() as lines:
        answer = keeper.answer
        keeper.answer = (
            lambda words: (*told[:6], lines, *told[7:])
            if (told := answer(words))[0] == "at"
            else told
        )
        connection = named(keeper)
        connection.execute("pragma synchronous = off")
        with signals_for_ever():
            since = time.monotonic()
            connection.execute("create table t(a, b)")
            true("it ended", time.monotonic() - since < 60)
        fill(connection, 1)
        same("it is there", [0], rows(named(keeper, 3, mode="ro")))


def test_a_question_to_keepers_goes_on_after_a_signal():
    """Of a program whose signals come more often than the answers of keepers."""
    with StubKeeper() as keeper:
        named(keeper).execute("create table t(a, b)")
        keeper.archive_now()
        answer = keeper.answer

        def slow(words):
            time.sleep(0.1)
            return answer(words)

        keeper.answer = slow
        with signals_for_ever(0.02):
            reader = named(keeper, 3, mode="ro", move=5000)
        same("it reads", [], rows(reader))


def test_who_has_the_turn_reads_what_was_written():
    """However long ago it has asked whether its epoch goes on. A turn that was its own before costs no request."""
    with StubKeeper() as keeper:
        connection = named(keeper, check=3600000)
        connection.execute("create table t(a, b)")
        fill(connection, 1)
        for number in range(5):
            connection.execute("update t set a = a + 1")
            in_child(lambda: code_of(lambda: named(keeper).execute("update t set a = a + 1")))
            connection.execute("begin immediate")
            connection.execute("update t set a = a + 1")
            connection.execute("commit")
        same("no update is lost", 15, one(connection, "select a from t"))
        before = numbers(connection, "epoch", "round_trips")
        for number in range(5):
            connection.execute("update t set a = a + 1")
        same(
            "alone",
            (0, 5),
            tuple(
                now - then for now, then in zip(numbers(connection, "epoch", "round_trips"), before)
            ),
        )


class Quarters:
    """The quarters of a ttl of a stub's turns, each of which ends when the test says so."""

    def __init__(self, keeper):
        self.keeper, self.hear, self.heard = keeper, keeper.turns.hold, 0
        keeper.turns.hold = self.hold
        keeper.turns._after = lambda seconds, action: self
        keeper.turns._ttl = 3600

    def cancel(self):
        pass

    def hold(self, line):
        self.hear(line)
        self.heard += 1

    def end(self, count=1):
        for _ in range(count):
            with self.keeper.changed:
                self.keeper.turns._beat()


def keep_the_turn(keeper, **how):
    """A connection that keeps its turn, and is idle."""
    connection = named(keeper, **how)
    connection.execute("create table t(a, b)")
    fill(connection, 30)
    true("it is kept", keeper.turns._is_kept)
    return connection


def upgrade(keeper, number, **how):
    """A transaction that reads first, and then writes a row."""
    connection = named(keeper, **how)
    connection.execute("begin")
    found = len(rows(connection))
    fill(connection, 1, first=number)
    connection.execute("commit")
    return found


def test_a_turn_that_is_in_use_is_not_passed_on():
    """Whether it was kept or not. Its holder is amid a transaction, and calls nothing: a heartbeat says that it lives."""
    for is_kept in (True, False):
        with StubKeeper() as keeper:
            quarters = Quarters(keeper)
            connection = keep_the_turn(keeper) if is_kept else amid_a_transaction(keeper)
            if is_kept:
                connection.execute("begin immediate")
            holder, count = keeper.turns._holder, len(rows(connection))
            waits = (
                waits_for_a_turn(keeper)
                if not is_kept
                else fork(
                    lambda: (fill(waiting := named(keeper, busy=60), 1, first=count), rows(waiting))
                )
            )
            until(lambda: keeper.turns._waiting and not keeper.turns._hurried, "another waits")
            for _ in range(3 * turns.BEATS):
                before = quarters.heard
                quarters.end()
                until(lambda: quarters.heard > before, "it is heard")
            true("it has it still", keeper.turns._holder is holder)
            connection.execute("commit")
            same("both", (None, list(range(count + 1))), waits())


def test_a_turn_that_is_kept_and_unused_comes_back_at_once():
    """Its owner is idle. An upgrade waits for it, of which SQLite asks no busy handler; and so does one without a busy handler."""
    for number, (busy, first) in enumerate(((60, "read"), (0, "read"), (60, "write"))):
        with StubKeeper() as keeper:
            Quarters(keeper)
            connection = keep_the_turn(keeper)
            if first == "read":
                same(
                    f"read by another, {busy}", 30, in_child(lambda: upgrade(keeper, 30, busy=busy))
                )
            else:
                same("begun by another", None, begins(keeper, busy=busy))
            same("all of it", 30 + (first == "read"), len(rows(connection)))


def test_a_turn_that_is_kept_ends_with_the_last_close():
    """Also where the thread of heartbeats waits for a word of the keeper: the next open of this process would wait for a ttl."""
    with StubKeeper() as keeper:
        for _ in range(3):
            connection = named(keeper)
            connection.execute("create table if not exists t(a, b)")
            fill(connection, 30)
            true("it is kept", keeper.turns._is_kept)
            time.sleep(0.15)  # the thread sleeps by then, and not by the clock
            connection.close()
            until(lambda: keeper.turns._holder is None, "it is free")


def test_an_upgrade_waits_for_a_keeper_that_does_not_answer():
    """SQLite asks no busy handler for it: the VFS does."""
    with StubKeeper() as keeper:
        named(keeper).execute("create table t(a, b)")
        asked, turn = [], keeper.turn

        def is_cut_once(line, words):
            if words[0] == "turn" and not asked:
                asked.append(words)
                keeper.cut_lines()
            else:
                turn(line, words)

        keeper.turn = is_cut_once
        for busy, told in (0, "SQLITE_BUSY"), (60, None):
            asked.clear()
            same(
                f"busy {busy}",
                told,
                in_child(lambda: code_of(lambda: upgrade(keeper, 0, busy=busy))),
            )  # noqa: B023


def test_an_upgrade_goes_on_in_the_generation_that_comes_meanwhile():
    """What it has read is there too; where that is not so it is told so, and begins again."""
    for event in (StubKeeper.succeed, StubKeeper.die):
        with StubKeeper() as keeper:
            connection = named(keeper)
            connection.execute("create table t(a, b)")
            fill(connection, 3)
            turn = keeper.turn

            def comes_first(line, words, keeper=keeper, event=event, turn=turn):
                if words[0] == "turn" and keeper.now.number == 1:
                    event(keeper)
                    keeper.cut_lines()
                else:
                    turn(line, words)

            keeper.turn = comes_first
            same("what it has read", 3, in_child(lambda: upgrade(keeper, 3, busy=60)))  # noqa: B023
            same("the generation", 2, keeper.now.number)
            keeper.turn = turn
            same("all of it", list(range(4)), rows(connection))


def test_an_upgrade_beside_a_transaction_is_busy():
    with StubKeeper() as keeper:
        Quarters(keeper)
        connection = keep_the_turn(keeper)
        connection.execute("begin immediate")
        fill(connection, 1, first=30)
        told = in_child(lambda: [code_of(lambda: upgrade(keeper, 31, busy=60)) for _ in range(2)])
        same("told", ["SQLITE_BUSY"] * 2, told)
        connection.execute("commit")
        same("it wrote", list(range(31)), rows(connection))
        same("and so does the other", 31, in_child(lambda: upgrade(keeper, 31, busy=60)))


def test_a_turn_is_not_kept_by_one_that_stands_still():
    """In a transaction, or while it keeps the turn. Once it goes on its transaction is refused, as where another has written."""
    for is_kept in (True, False):
        with StubKeeper() as keeper:
            quarters = Quarters(keeper)
            reads, writes = os.pipe()

            def stands_still():
                connection = named(keeper)
                connection.execute("create table t(a, b)")
                fill(connection, 30 if is_kept else 0)
                if not is_kept:
                    connection.execute("begin immediate")
                    fill(connection, 1)
                os.kill(os.getpid(), signal.SIGSTOP)
                return (
                    code_of(lambda: connection.execute("commit"))
                    if not is_kept
                    else upgrade(keeper, 31, busy=60)
                )

            waits = fork(
                lambda: (os.write(writes, os.getpid().to_bytes(4, "big")), stands_still())[1]
            )
            stopped = int.from_bytes(os.read(reads, 4), "big")
            os.waitpid(stopped, os.WUNTRACED)
            other = fork(lambda: code_of(lambda: fill(named(keeper, busy=60), 1, first=30)))
            until(lambda: keeper.turns._waiting, "another waits")
            quarters.end(turns.BEATS)
            same("another writes", None, other())
            os.kill(stopped, signal.SIGCONT)
            same("told", 31 if is_kept else "SQLITE_BUSY_SNAPSHOT", waits())
            same(
                "what is there",
                list(range(32)) if is_kept else [30],
                rows(named(keeper, 3, mode="ro")),
            )
            os.close(reads)
            os.close(writes)


def events():
    """How many connections of this process have waited for its write lock: each has an event."""
    links = (pathlib.Path("/proc/self/fd") / name for name in os.listdir("/proc/self/fd"))
    found = 0
    for link in links:
        with contextlib.suppress(OSError):
            found += "eventfd" in os.readlink(link)
    return found


def test_threads_write_in_the_order_of_asking():
    """Who has written asks again behind those who wait."""
    with StubKeeper() as keeper:
        connection = amid_a_transaction(keeper)
        before, threads = events(), []
        for number in range(1, 6):
            other = named(keeper, busy=60)
            threads.append(threading.Thread(target=fill, args=(other, 1), kwargs={"first": number}))
            threads[-1].start()
            until(lambda: events() == before + number, "it waits")
        connection.execute("commit")
        fill(connection, 1, first=6)
        for thread in threads:
            thread.join()
        same(
            "in this order",
            list(range(7)),
            [number for number, in connection.execute("select a from t order by rowid")],
        )


def test_a_thread_that_waits_no_more_is_in_nobodys_way():
    with StubKeeper() as keeper:
        connection, told = amid_a_transaction(keeper), []
        impatient, patient = named(keeper, busy=0.2), named(keeper, busy=60)
        before = events()
        threads = [
            threading.Thread(
                target=lambda each=each, number=number: told.append(
                    (number, code_of(lambda: fill(each, 1, first=number)))
                )
            )
            for number, each in enumerate((impatient, patient), 1)
        ]
        for number, thread in enumerate(threads, 1):
            thread.start()
            until(lambda: events() == before + number, "it waits")
        threads[0].join()
        connection.execute("commit")
        threads[1].join()
        same("told", [(1, "SQLITE_BUSY"), (2, None)], told)
        same("it reads", [0, 2], rows(impatient))


def test_a_turn_that_is_kept_is_lost_with_its_line():
    """Another writes then, and nobody is told an error."""
    with StubKeeper() as keeper:
        connection = named(keeper, check=3600000)
        connection.execute("create table t(a, b)")
        fill(connection, 30)
        true("it is kept", keeper.turns._holder)
        keeper.cut_lines()
        until_it_begins(keeper)
        in_child(lambda: fill(named(keeper), 1, first=30))
        connection.execute("begin immediate")
        fill(connection, 1, first=31)
        connection.execute("commit")
        same("both", list(range(32)), rows(connection))


# ---- A turn goes on before what was written with it is durable ----


def end_of(keeper):
    """How many blocks the service's log has."""
    with keeper.now.asker(wire.SECONDARY) as asker:
        return asker.status()[2]


def archive_one(keeper):
    with keeper.changed:
        keeper.archive += keeper.now.blocks(len(keeper.archive))[:1]
        keeper.changed.notify_all()


def waits_for_the_archive(keeper, count, first=0):
    """So many processes, each of which commits a row upon the one before it while nothing is archived. Returns what waits for their ends."""
    ends, keeper.is_archiving = [], False
    for number in range(first, first + count):
        before = end_of(keeper)
        ends.append(fork(lambda: code_of(lambda: fill(named(keeper, busy=60), 1, first=number))))
        until(lambda: end_of(keeper) > before, f"row {number} is in the log")
    return ends


def test_a_turn_is_kept_until_the_service_has_the_commit():
    with StubKeeper() as keeper:
        connection, told = amid_a_transaction(keeper), []

        def rule(frame):
            if frame[33] == wire.WRITE:
                keeper.rule = None
                told.append(begins(keeper, busy=0))
            return frame

        keeper.rule = rule
        connection.execute("commit")
        same("meanwhile, and then", (["SQLITE_BUSY"], None), (told, begins(keeper, busy=60)))


def test_the_next_commit_does_not_wait_until_the_last_one_is_durable():
    """They are durable one after the other, and so they are told; and a reader of what is durable sees no second one before the first."""
    with StubKeeper() as keeper:
        connection = named(keeper)
        connection.execute("create table t(a, b)")
        before = len(keeper.archive)
        ends = waits_for_the_archive(keeper, 4)
        same("nothing of it is archived", before, len(keeper.archive))
        reader = named(keeper, 3, mode="ro", durable=1)
        for number, end in enumerate(ends):
            same("a reader of what is durable", list(range(number)), rows(reader))
            archive_one(keeper)
            same("told", None, end())
        same(
            "all of them",
            (list(range(4)), "ok"),
            (rows(reader), one(connection, "pragma integrity_check")),
        )
        keeper.is_archiving = True


def asked_by(keeper, principals=(1, 5)):
    """What these ask of the service from now on: the operations, in their order."""
    asked = []

    def rule(frame):
        if int.from_bytes(frame[4:8], "big") in principals:
            asked.append(frame[33])
        return frame

    keeper.rule = rule
    return asked


def test_who_is_given_the_turn_begins_by_one_message():
    """It is told the epoch that was written in last. Its next transaction waits for the turn before it asks the service anything."""
    with StubKeeper() as keeper:
        connection, other = named(keeper), named(keeper, 5, busy=60)
        connection.execute("create table t(a, b)")
        for is_foreseen in (False, True):
            connection.execute("begin immediate")
            fill(connection, 1, first=2 * is_foreseen)
            asked, before = asked_by(keeper), keeper.proofs[:]
            thread = threading.Thread(target=lambda: other.execute("begin immediate"))
            thread.start()
            until(lambda: keeper.turns._waiting, "it waits")
            if is_foreseen:
                same("it has asked nothing", ([], before), (asked, keeper.proofs))
            asked = asked_by(keeper)
            connection.execute("commit")
            thread.join()
            same("asked", [wire.FAILOVER, wire.STATUS, wire.PULL], asked)
            fill(other, 1, first=2 * is_foreseen + 1)
            other.execute("commit")
            same(
                "asked",
                [wire.WRITE, wire.WRITE, wire.REPORT],
                [each for each in asked[3:] if each != wire.GET],
            )
        same(
            "in this order",
            [0, 1, 2, 3],
            [number for number, in connection.execute("select a from t order by rowid")],
        )


def test_who_has_met_another_asks_before_it_reads_for_some_turns():
    """Another that has the turn by then is waited for: it is not told that it is busy, and does not sleep for a moment."""
    with StubKeeper() as keeper:
        connection, other = named(keeper, busy=60), named(keeper, 5, busy=60)
        connection.execute("create table t(a, b)")
        for number, each in enumerate((connection, other, connection)):
            fill(each, 1, first=number)
        asked = heard(keeper, "turn")
        fill(connection, 5, first=3)
        same("at once", [False] * 5, ["now" in words for words in asked])
        fill(connection, 60, first=8)
        same("all of it", list(range(68)), rows(other))


def test_a_transaction_that_reads_waits_for_no_turn():
    """Though this process had to wait for its last ones."""
    with StubKeeper() as keeper:
        connection, other, asked = named(keeper), named(keeper, 5, busy=10), []
        connection.execute("create table t(a, b)")
        connection.execute("begin immediate")
        fill(connection, 1)
        thread = threading.Thread(target=lambda: fill(other, 1, first=1))
        thread.start()
        until(lambda: keeper.turns._waiting, "it waits")
        connection.execute("commit")
        thread.join()
        connection.execute("begin immediate")
        turn, keeper.turn = keeper.turn, lambda line, words: asked.append(words)
        same("it reads, and asks for none", ([0, 1], []), (rows(other), asked))
        keeper.turn = turn
        connection.execute("rollback")


def test_an_epoch_that_is_another_one_by_now():
    """The keeper says one that is over, or has not come; or another begins one who has no turn. Nothing is lost by that."""
    for told in (1, 99, None):
        with StubKeeper() as keeper:
            connection, other = named(keeper), named(keeper, 5, busy=60)
            connection.execute("create table t(a, b)")
            connection.execute("begin immediate")
            fill(connection, 1)
            thread = threading.Thread(target=lambda: fill(other, 1, first=1), daemon=True)
            thread.start()
            until(lambda: keeper.turns._waiting, "it waits")
            if told is None:
                keeper.rule = at_the_takeover(
                    keeper, lambda: fill(opened_in(keeper.now), 1, first=100)
                )
            else:
                back = keeper.turns.back
                keeper.turns.back = lambda line, _=None, back=back, told=told: back(line, told)
            connection.execute("commit")
            thread.join(30)
            true(f"{told}: it writes", not thread.is_alive())
            wanted = [0, 1] if told else [0, 1, 100]
            same(
                f"{told}",
                (wanted, wanted, "ok"),
                (rows(connection), rows(other), one(other, "pragma integrity_check")),
            )


def test_who_is_given_the_turn_reads_more_than_one_message_brings():
    with StubKeeper() as keeper:
        connection, other = named(keeper), named(keeper, 5, busy=60)
        connection.execute("create table t(a, b)")
        connection.execute("begin immediate")
        fill(connection, 500, size=4000)
        thread = threading.Thread(target=lambda: fill(other, 1, first=500))
        thread.start()
        until(lambda: keeper.turns._waiting, "it waits")
        before = end_of(keeper)
        connection.execute("commit")
        thread.join()
        true("so many blocks", end_of(keeper) > before + 16)
        same(
            "all of it",
            (list(range(501)), "ok"),
            (rows(connection), one(other, "pragma integrity_check")),
        )


@contextlib.contextmanager
def slices_of(seconds):
    before = turns.SLICE
    turns.SLICE = seconds
    try:
        yield
    finally:
        turns.SLICE = before


def heard(keeper, word):
    """The lines with this word that clients say from now on."""
    turn, said = keeper.turn, []

    def hear(line, words):
        if words[0] == word:
            said.append(words)
        turn(line, words)

    keeper.turn = hear
    return said


def in_a_loop(connection, level, first, count, ends=lambda: False):
    """Writes one row after the other; how many."""
    connection.execute(f"pragma synchronous = {level}")
    for number in range(count):
        fill(connection, 1, first=first + number)
        if ends():
            break
    return number + 1


def loops(keeper, level, count):
    """Two processes write so many rows each, side by side."""
    ends = [
        fork(lambda: in_a_loop(named(keeper, busy=60), level, first, count)) for first in (0, count)
    ]
    return [end() for end in ends]


def test_who_writes_one_transaction_after_the_other_has_a_slice_of_time():
    """Within it nothing is said to the keeper: many commits fit into one, however slow the machine is. A commit that waits until it is
    durable keeps nobody waiting: it asks for none."""
    for level, count in ("normal", 300), ("full", 40):
        with slices_of(1.0), StubKeeper() as keeper:
            reader = named(keeper)
            reader.execute("create table t(a, b)")
            asked = heard(keeper, "turn")
            same("commits", [count] * 2, loops(keeper, level, count))
            sliced = sum("slices" in words for words in asked)
            true(
                f"{level}: {len(asked)} times asked, {sliced} for slices",
                sliced == 0 if level == "full" else len(asked) < count and sliced,
            )
            same(
                "all of them",
                (list(range(2 * count)), "ok"),
                (rows(reader), one(reader, "pragma integrity_check")),
            )


def test_a_slice_of_one_that_writes_no_more_comes_back():
    with slices_of(0.05), StubKeeper() as keeper:
        connection, other, count = named(keeper, busy=60), named(keeper, 5, busy=60), 0
        connection.execute("create table t(a, b)")

        def has_slice():
            return keeper.turns._slice is not None

        thread = threading.Thread(target=in_a_loop, args=(other, "normal", 10000, 10000, has_slice))
        thread.start()
        while thread.is_alive():
            count += in_a_loop(connection, "normal", count, 1)
        since = time.monotonic()
        count += in_a_loop(connection, "normal", count, 50)
        true(f"it goes on: {time.monotonic() - since:.1f} s", time.monotonic() - since < 20)
        same(
            "all of them",
            list(range(count)),
            [number for number in rows(connection) if number < 10000],
        )


def test_what_waits_for_the_archive_is_sent_again_in_its_order():
    """Where the service dies with one of three, or all of them; whoever of the three comes first."""
    for lost in (1, 2, 3):
        with StubKeeper() as keeper:
            connection = named(keeper)
            connection.execute("create table t(a, b)")
            ends = waits_for_the_archive(keeper, 3)
            keeper.die(lost=lost)
            keeper.is_archiving = True
            same(f"{lost} lost: told", [None] * 3, [end() for end in ends])
            found = [number for number, in connection.execute("select a from t order by rowid")]
            same(
                "in their order",
                (list(range(3)), "ok"),
                (found, one(connection, "pragma integrity_check")),
            )


def test_what_was_written_upon_a_commit_is_lost_with_it():
    """Another has written in its place, in the next generation."""
    with StubKeeper() as keeper:
        connection = named(keeper)
        connection.execute("create table t(a, b)")
        ends = waits_for_the_archive(keeper, 3)
        keeper.die(lost=2, others=overtaking)
        keeper.is_archiving = True
        same("told", [None, "SQLITE_IOERR_FSYNC", "SQLITE_IOERR_FSYNC"], [end() for end in ends])
        same(
            "what is there",
            ([0, 100], "ok"),
            (rows(connection), one(connection, "pragma integrity_check")),
        )


def test_who_has_not_read_what_waits_for_the_archive_does_not_write_in_its_place():
    """It was given the turn as the service died: in the next generation it waits, until who wrote last has sent that again."""
    with for_ever("EARLY"), StubKeeper() as keeper:
        connection, told, may_answer = amid_a_transaction(keeper), [], threading.Event()
        durable, keeper.is_archiving = keeper.durable, False

        def held(*words):
            while keeper.now.number > 1 and not may_answer.is_set():
                keeper.changed.wait(0.02)
            return durable(*words)

        keeper.durable = held
        waits = waits_for_a_turn(keeper)
        keeper.rule = (
            lambda frame: frame
            if keeper.turns._waiting or end_of(keeper) < 2
            else keeper.die(lost=1)
        )
        thread = threading.Thread(
            target=lambda: told.append(code_of(lambda: connection.execute("commit")))
        )
        thread.start()
        until(
            lambda: keeper.now.number > 1 and keeper.turns._waiting,
            "it waits in the next generation",
        )
        keeper.rule, keeper.is_archiving = None, True
        may_answer.set()
        thread.join()
        same("told", [None], told)
        with keeper.changed:
            keeper.turns._begin()
        same("both", (None, [0, 1]), waits())


def test_a_turn_that_may_be_written_on_with_is_kept_until_the_commit_is_durable():
    """The lock is kept; a commit to several databases may be rolled back in one; and a file becomes shorter after its commit."""

    def keeps_the_lock(connection, _):
        connection.execute("pragma locking_mode = exclusive")
        fill(connection, 1)

    def writes_to_two(connection, other):
        connection.execute("attach ? as stock", (uri_of(other.address, "stock", 2),))
        connection.execute("create table stock.u(a, b)")
        connection.execute("begin immediate")
        fill(connection, 1)
        connection.execute("insert into stock.u values (1, 1)")

    def becomes_shorter(connection, _):
        fill(connection, 30, size=3000)
        connection.execute("delete from t")

    for prepare, text in (
        (keeps_the_lock, "insert into t values (1, 1)"),
        (writes_to_two, "commit"),
        (becomes_shorter, "vacuum"),
    ):
        with StubKeeper() as keeper, StubKeeper("stock") as other:
            connection = named(keeper)
            connection.execute("create table t(a, b)")
            prepare(connection, other)
            before, keeper.is_archiving = end_of(keeper), False
            thread = threading.Thread(target=lambda: connection.execute(text))
            thread.start()
            until(lambda: end_of(keeper) > before, "it is in the log")
            time.sleep(0.1)
            same(prepare.__name__, "SQLITE_BUSY", begins(keeper, busy=0))
            keeper.is_archiving = True
            thread.join()
            connection.close()


if __name__ == "__main__":
    run("turns", dict(globals()))
