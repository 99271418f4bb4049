"""Writers of several processes that take turns, at real keepers: two and eight forked processes, each with a hundred requests of three
statements, as a web server's workers have them. No error, and no update is lost. Where no keeper has answered for a while others write
without a turn: a request that is SQLITE_BUSY_SNAPSHOT then is begun again, as nothing of it is there.

Usage: kept_turns.py [REQUESTS] [LEVEL] [faults] [PROCESSES ..]     (while services are killed, and the database changes hands and
generations; so many processes, such as sixteen)
"""

import json
import os
import signal
import sqlite3
import sys
import threading
import time
from collections import Counter

from database import one, sqlite_of

del sys.modules["service"]  # the tests of the keepers have one of their own
import kept  # noqa: E402
from keepers import Keeping  # noqa: E402

NAME = "shop"
BETWEEN = 25  # commits between two faults


def request(connection, who, number):
    """What a request does: counts a visit, notes it, and looks at the count."""
    connection.execute("begin immediate")
    connection.execute("update counter set visits = visits + 1")
    connection.execute("insert into visit values (?, ?)", (who, number))
    found = one(connection, "select visits from counter")
    connection.execute("commit")
    return found


def worker(addresses, who, requests, level):
    """Opens for each request, as a web framework does, or once."""
    seen, connection = [], None
    for number in range(requests):
        if connection is None or who % 2:
            connection = sqlite_of(addresses, NAME, 2, busy=120)
            connection.execute(f"pragma synchronous = {level}")
        seen.append(request_again(connection, who, number))
    return seen


def request_again(connection, who, number):
    """Until it is there. What ends a worker it tells with all that is known of it."""
    since = time.monotonic()
    while True:
        try:
            return request(connection, who, number)
        except sqlite3.Error as error:
            why = one(connection, "pragma pagelog_error")
            if connection.in_transaction:
                connection.execute("rollback")
            if getattr(error, "sqlite_errorname", "") != "SQLITE_BUSY_SNAPSHOT":
                error.add_note(
                    f"{why}, in request {number}, after {time.monotonic() - since:.1f} s, at {time.monotonic():.1f}"
                )
                raise


def in_child(action):
    reading, writing = os.pipe()
    if (child := os.fork()) == 0:
        try:
            said = json.dumps(action())
        except BaseException as error:  # noqa: BLE001
            notes = " ".join(getattr(error, "__notes__", ()))
            said = json.dumps(f"{getattr(error, 'sqlite_errorname', '')} {error!r} {notes}")
        os.write(writing, said.encode())
        os._exit(0)
    os.close(writing)

    def ended():
        with os.fdopen(reading) as file:
            said = json.loads(file.read() or '"it died"')
        os.waitpid(child, 0)
        return said

    return ended


class Faults:
    """What happens to the database while its writers work: one after the other, each once they have gone on for some commits."""

    def __init__(self, keeping):
        self.keeping, self.happened, self.times = keeping, Counter(), []

    def happen(self, is_over):
        events = [self.die, self.succeed, self.switch_over, self.take_over]
        while not is_over():
            event = events[self.happened.total() % len(events)]
            generation, archived = (
                self.keeping.place(NAME).generation,
                self.keeping.row(NAME).archived,
            )
            while not is_over() and not (
                self.keeping.row(NAME).archived >= archived + BETWEEN
                and self.keeping.standbys(NAME)
            ):
                time.sleep(0.01)
            if is_over():
                return
            self.times.append(f"{event.__name__} at {time.monotonic():.1f}")
            try:
                event()
                self.keeping.place(NAME, generation + 1)
                self.happened[event.__name__] += 1
            except AssertionError:
                self.happened[f"{event.__name__} refused"] += 1  # nobody is ready to take it

    def die(self):
        os.kill(self.keeping.pid(NAME), signal.SIGKILL)

    def succeed(self):
        self.keeping.word("rollover", NAME)

    def switch_over(self):
        self.keeping.word("switchover", NAME)

    def take_over(self):
        """Of a keeper that is killed with its service."""
        holder, pid = self.keeping.row(NAME).holder, self.keeping.pid(NAME)
        self.keeping.kill(holder)
        os.kill(pid, signal.SIGKILL)
        self.keeping.start(holder)


def look(keeping, what, said, requests, took):
    """No error, and each visit was counted once."""
    addresses, count = ",".join(keeping.addresses), len(said)
    errors = [each for each in said if isinstance(each, str)]
    reader = sqlite_of(addresses, NAME, 3, mode="ro")
    visits, rows = one(reader, "select visits from counter"), one(
        reader, "select count(*) from visit"
    )
    print(
        f"turns: {what}: {count} processes, {requests} requests each: {count * requests / took:.0f} a second, errors {errors}, "
        f"{visits} visits, {rows} rows, {one(reader, 'pragma integrity_check')}"
    )
    assert not errors and (visits, rows) == (count * requests, count * requests), keeping.said()[
        -3000:
    ]
    seen = sorted(number for each in said for number in each)
    assert seen == list(range(1, count * requests + 1)), "an update was lost"
    clean = sqlite_of(addresses, NAME, 2)
    clean.execute("update counter set visits = 0")
    clean.execute("delete from visit")
    clean.close()


def main(requests, level, with_faults, counts):
    with Keeping(ttl=1.5 if with_faults else 3.0, more="unproved = false\n") as keeping:
        keeping.referee.create(NAME, (kept.HERE.parent / "table.toml").read_text(), b"s" * 16)
        keeping.start("a", "b")
        addresses = ",".join(keeping.addresses)
        keeping.place(NAME)
        first = sqlite_of(addresses, NAME, 2)
        first.execute("create table counter(visits)")
        first.execute("insert into counter values (0)")
        first.execute("create table visit(who, number)")
        first.close()
        for count in counts or ((2, 8) if with_faults else (1, 2, 8)):
            since = time.monotonic()
            ends = [
                in_child(lambda who=who: worker(addresses, who, requests, level))
                for who in range(count)
            ]
            said, faults = [], Faults(keeping)
            waits = threading.Thread(target=lambda: said.extend(end() for end in ends))
            waits.start()
            if with_faults:
                faults.happen(lambda: not waits.is_alive())
                print(f"turns: {dict(faults.happened)}")
            waits.join()
            if any(isinstance(each, str) for each in said):
                print(f"turns: {faults.times}")
            look(
                keeping,
                f"{level}, faults" if with_faults else level,
                said,
                requests,
                time.monotonic() - since,
            )


if __name__ == "__main__":
    more = sys.argv[3:]
    main(
        int((sys.argv[1:] or [100])[0]),
        (sys.argv[2:] or ["full"])[0],
        more[:1] == ["faults"],
        [int(each) for each in more if each != "faults"],
    )
