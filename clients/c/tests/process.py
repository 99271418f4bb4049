"""A writer or a reader in a process of its own, for the tests of the VFS. Each goes on until its standard input ends.

Usage: process.py accounts ADDRESS [UNWAITED]   moves money; a line for each commit
       process.py looks ADDRESS                 reads the accounts again and again; a line for each look, or why not
       process.py rows ADDRESS PRINCIPAL SEED BIG [UNWAITED]
                                                inserts rows, and says of each what SQLite said of its COMMIT; opens again
                                                once it is fenced

With UNWAITED that is set, and synchronous is off.
"""

import random
import sqlite3
import sys
import threading
import time

from database import connect, one, reader

PATIENCE = 600000
is_over = threading.Event()


def wait_for_the_end():
    sys.stdin.read()
    is_over.set()


def writer(address, principal=2, unwaited=0, **more):
    connection = connect(address, principal, async_commits=unwaited, **more)
    if unwaited:
        connection.execute("pragma synchronous = off")
    return connection


def accounts(address, unwaited=0):
    connection, numbers = writer(
        address, unwaited=unwaited, check=1000 if unwaited else 0
    ), random.Random(1)
    while not is_over.is_set():
        connection.execute("begin immediate")
        for _ in range(numbers.choice([1, 2, 30, 300])):
            amount = numbers.randrange(1, 100)
            from_, to = numbers.randrange(200), numbers.randrange(200)
            connection.execute("update account set money = money - ? where id = ?", (amount, from_))
            connection.execute(
                "update account set money = money + ?, note = randomblob(300) where id = ?",
                (amount, to),
            )
        connection.execute("update moment set number = number + 1")
        connection.execute("commit")
        print("moment", one(connection, "select number from moment"))


def looks(address):
    connection, looked, last = reader(address), 0, 0
    while not is_over.is_set():
        connection.execute("begin")
        money, moment = one(connection, "select sum(money) from account"), one(
            connection, "select number from moment"
        )
        again = one(connection, "select sum(money) from account")
        if looked % 20 == 0 and one(connection, "pragma integrity_check") != "ok":
            sys.exit("torn: integrity_check")
        connection.execute("commit")
        if money != 200000 or again != money:
            sys.exit(f"torn: {money} and {again} at {moment}")
        if moment < last:
            sys.exit(f"backwards: {moment} after {last}")
        looked, last = looked + 1, moment
        print("look", moment)


def insert_row(connection, name, epoch, body):
    connection.execute("begin immediate")
    connection.execute("insert into row(name, epoch, body) values (?, ?, ?)", (name, epoch, body))
    print(f"tries {name}")
    connection.execute("commit")
    print(f"done {name}")


def rows(address, principal, seed, big, unwaited=0):
    numbers, connection, count, epoch = random.Random(seed), None, 0, 0
    while not is_over.is_set():
        name = f"{seed}-{count}"
        try:
            if connection is None:
                connection = writer(address, principal, unwaited, check=1000, patience=PATIENCE)
                epoch = int(one(connection, "pragma pagelog_writing_epoch"))
                print(f"epoch {epoch}")
            count += 1
            insert_row(
                connection,
                name,
                epoch,
                numbers.randbytes(big if numbers.random() < 0.1 else numbers.randrange(2000)),
            )
        except sqlite3.Error as error:
            if connection is not None:
                code = error.sqlite_errorname
                print(f"{'doubt' if code == 'SQLITE_IOERR_FSYNC' else 'refused'} {name} {code}")
                connection.close()
            connection = None
            time.sleep(numbers.random() * 0.1)
    print("end")


if __name__ == "__main__":
    threading.Thread(target=wait_for_the_end, daemon=True).start()
    kind, address, *words = sys.argv[1:]
    if kind == "looks":
        looks(address)
    else:
        (accounts if kind == "accounts" else rows)(address, *(int(word) for word in words))
