"""A client of the torture (kept.py), in a process of its own: it goes on until its standard input ends, and says in lines of JSON what
it was told. A reader that gets a line looks at all of the database.

Usage: kept_client.py prepare|write|read|ledger KEEPERS NAME PRINCIPAL LEVEL [many|LEAST]
(of many databases it reads now and then; the ledger is read once it has this number)

A writer moves money between two tables, and enters each transfer into a ledger, the rows of which have a hash of the row before.
"""

import json
import random
import sqlite3
import sys
import threading
import time

from database import code_of, numbers, one, sqlite_of
from kept_rules import ACCOUNTS, TOTAL, hash_of

BETWEEN_COMMITS = 0.003  # seconds: else the archive is far behind, and nothing is handed over

is_over, is_asked = threading.Event(), threading.Event()


def listen():
    for _ in sys.stdin:
        is_asked.set()
    is_over.set()


def say(**what):
    print(json.dumps(what))


class Timed:
    """The longest time that a statement took."""

    def __init__(self, connection):
        self.connection, self.longest = connection, 0.0

    def __call__(self, text, *values):
        since = time.monotonic()
        try:
            return self.connection.execute(text, values)
        finally:
            self.longest = max(self.longest, time.monotonic() - since)


def prepare(connection):
    connection.execute("begin immediate")
    connection.execute("create table if not exists account(id integer primary key, money)")
    connection.execute("create table if not exists saving(id integer primary key, money)")
    connection.execute("create table if not exists ledger(number integer primary key, text, hash)")
    if one(connection, "select count(*) from account") == 0:
        for number in range(ACCOUNTS):
            connection.execute(
                "insert into account values (?, ?)", (number, TOTAL // ACCOUNTS // 2)
            )
            connection.execute("insert into saving values (?, ?)", (number, TOTAL // ACCOUNTS // 2))
    connection.execute("commit")


def transfer(execute, number, chance):
    """One transaction; it says `done` once it was acknowledged."""
    execute("begin immediate")
    for _ in range(chance.choice((1, 1, 1, 1, 5, 40))):
        amount, one_side, other = chance.randrange(1, 100), *chance.sample(("account", "saving"), 2)
        execute(
            f"update {one_side} set money = money - ? where id = ?",
            amount,
            chance.randrange(ACCOUNTS),
        )
        execute(
            f"update {other} set money = money + ? where id = ?", amount, chance.randrange(ACCOUNTS)
        )
    last = execute("select number, hash from ledger order by number desc limit 1").fetchone() or (
        0,
        "",
    )
    text = f"{number} " + "." * chance.choice((10, 10, 10, 200, 3000))
    execute("insert into ledger values (?, ?, ?)", last[0] + 1, text, hash_of(last[1], text))
    execute("commit")
    return last[0] + 1, text


def write(connection, seed, level):
    """The last transaction waits until all of them are durable."""
    chance, execute, count, is_last = random.Random(seed), Timed(connection), 0, False
    while not is_last:
        count += 1
        is_last = is_over.is_set()
        if is_last:
            connection.execute("pragma synchronous = full")
        elif level == "normal":
            time.sleep(BETWEEN_COMMITS)
        try:
            number, text = transfer(execute, count, chance)
            say(done=number, hash=hash_of("", text))
        except sqlite3.Error as error:
            say(
                told=getattr(error, "sqlite_errorname", str(error)),
                why=one(connection, "pragma pagelog_error"),
            )
            if connection.in_transaction:
                code_of(lambda: connection.execute("rollback"))
            is_last = False
    moves, resent = numbers(connection, "moves", "resent")
    say(end=True, longest=execute.longest, resent=resent, moves=moves)


def look(connection, is_whole):
    """What a transaction sees: how far the ledger goes. The invariants hold."""
    connection.execute("begin")
    try:
        money = one(
            connection, "select (select sum(money) from account) + (select sum(money) from saving)"
        )
        rows = connection.execute(
            "select number, text, hash from ledger order by number desc limit ?",
            (-1 if is_whole else 30,),
        ).fetchall()
        rows.reverse()
        if money != TOTAL:
            sys.exit(f"torn: {money} in all")
        for before, row in zip(rows, rows[1:]):
            if row[0] != before[0] + 1 or row[2] != hash_of(before[2], row[1]):
                sys.exit(f"torn: row {row[0]} of the ledger")
        if (
            is_whole
            and (found := one(connection, "pragma integrity_check")) != "ok"
            and "unable to get the page" not in found
        ):
            sys.exit(f"torn: {found}")
        return rows[-1][0] if rows else 0
    finally:
        if connection.in_transaction:
            code_of(lambda: connection.execute("commit"))


def read(connection, is_durable, is_alone):
    looks = wholes = last = backwards = 0
    told = {}
    while not is_over.is_set():
        is_whole = is_asked.is_set()
        is_asked.clear()
        time.sleep(0.02 if is_alone else 0.5)
        try:
            number = look(connection, is_whole)
        except sqlite3.Error as error:
            name = getattr(error, "sqlite_errorname", str(error))
            told[name] = told.get(name, 0) + 1
            if is_whole:
                is_asked.set()
            continue
        if number < last and is_durable:
            sys.exit(f"backwards: {number} after {last}, though it was durable")
        backwards += number < last
        looks, wholes, last = looks + 1, wholes + is_whole, number
    say(end=True, looks=looks, wholes=wholes, backwards=backwards, told=told)


def ledger(connection, least):
    """A durable reader may see what was acknowledged a look later. What it does not see in a minute is lost."""
    until = time.monotonic() + 60
    while (
        one(connection, "select coalesce(max(number), 0) from ledger") < least
        and time.monotonic() < until
    ):
        time.sleep(0.05)
    for number, text in connection.execute("select number, text from ledger order by number"):
        say(number=number, hash=hash_of("", text))
    look(connection, True)


if __name__ == "__main__":
    threading.Thread(target=listen, daemon=True).start()
    kind, keepers, name, principal, level, *many = sys.argv[1:]
    more = {"pages": 64} if kind == "read" else {}
    if kind in ("write", "prepare"):
        connection = sqlite_of(keepers, name, int(principal), check=50)
        connection.execute(f"pragma synchronous = {level}")
        prepare(connection)
        if kind == "write":
            write(connection, int(principal), level)
    else:
        connection = sqlite_of(
            keepers, name, int(principal), mode="ro", durable=1 if level == "durable" else 0, **more
        )
        connection.execute("pragma cache_size = 20")
        if kind == "ledger":
            ledger(connection, int(many[0]))
            sys.exit()
        while not is_over.is_set() and code_of(
            lambda: one(connection, "select count(*) from ledger")
        ):
            time.sleep(0.05)
        read(connection, level == "durable", not many)
