"""SQLite's clients of the torture of administration: each writer adds links to a chain, with parts on pages of their own."""

from __future__ import annotations

import os
import sqlite3
import subprocess
import threading
import time
import uuid
from typing import Callable

from service import TOP, token
from torture_notes import GENESIS, Job, Notes, link, now

SOURCES = TOP / "clients" / "c"
LIBRARY = TOP / "clients" / "python" / "out" / "pagelog_vfs.so"
"""Made here, since the tests of clients/c make theirs in their folder at the same time."""
PARTS, COPIES = 16, 60
"""How many parts there are, and how often each repeats the sum of its link, so that it fills much of a page."""
SCHEMA = """CREATE TABLE life(text TEXT);
CREATE TABLE led(seq INTEGER PRIMARY KEY, who TEXT, number INT, sum TEXT);
CREATE TABLE part(id INTEGER PRIMARY KEY, seq INT, text TEXT);
CREATE TABLE account(id INTEGER PRIMARY KEY, balance INT)"""
REFUSED = ("SQLITE_BUSY", "SQLITE_BUSY_SNAPSHOT")
"""After these nothing of the transaction is there, once it is rolled back."""
WHOLE = 20
"""Every so many looks of a reader see all, and ask for integrity_check."""


class Torn(Exception):
    """A transaction was shown what no transaction has left."""


def build() -> None:
    LIBRARY.parent.mkdir(exist_ok=True)
    made = LIBRARY.with_suffix(f".{os.getpid()}")
    words = [
        "gcc",
        "-std=c11",
        "-D_GNU_SOURCE",
        "-fPIC",
        "-O2",
        "-g",
        "-fvisibility=hidden",
        "-shared",
        "-o",
        made,
        *sorted(SOURCES.glob("pagelog*.c")),
        "-lssl",
        "-lcrypto",
    ]
    subprocess.run(list(map(str, words)), check=True)
    made.replace(LIBRARY)


def load() -> None:
    loader = sqlite3.connect(":memory:")
    loader.enable_load_extension(True)
    loader.load_extension(str(LIBRARY))
    loader.close()


def uri(job: Job, name: str, **settings: object) -> str:
    """With `reads` as a reader, else as one that may write."""
    reads = settings.pop("reads", False)
    id = 3 if reads else 2
    may_write = {} if reads else {"op": 1, "optoken": token(1)}
    file = settings.pop("file", name)
    words = {
        "vfs": "pagelog",
        "where": ",".join(job.addresses),
        "name": name,
        "id": id,
        "token": token(id),
        "move": 8000,
        **may_write,
        **settings,
    }
    return f"file:{file}?{'&'.join(f'{word}={value}' for word, value in words.items())}"


def connect(job: Job, name: str, **settings: object) -> sqlite3.Connection:
    return sqlite3.connect(
        uri(job, name, **settings),
        uri=True,
        isolation_level=None,
        timeout=5,
        check_same_thread=False,
    )


def name_of(error: sqlite3.Error) -> str:
    return getattr(error, "sqlite_errorname", type(error).__name__)


class Writer:
    """One connection, made again after errors, whose transactions each add a link to the chain of a database, or of two."""

    def __init__(self, job: Job, who: str, level: str, **settings: object) -> None:
        self.job, self.level, self.settings = job, level, settings
        self.notes = Notes(job.folder, who)
        self.number, self.errors = self.notes.last, 0
        self.schemas = ("main", "other") if job.other else ("main",)
        self.connection: sqlite3.Connection | None = None

    def step(self, level: str | None = None) -> None:
        """Tries one transaction, and notes what became of it."""
        self.number += 1
        self.stage, links = "open", {}
        level = level or self.level
        began = now()
        try:
            connection = self.connection = self.connection or self._opened()
            self._set(connection, level)
            self.stage = "begin"
            connection.execute("BEGIN IMMEDIATE" if self.number % 4 else "BEGIN")
            self.stage = "work"
            links = {schema: self._add(connection, schema) for schema in self.schemas}
            self.notes("try", number=self.number, links=list(links.values()))
            self.stage, began = "commit", now()
            connection.execute("COMMIT")
            self.notes(
                "acknowledged",
                number=self.number,
                links=list(links.values()),
                began=began,
                durable=level == "FULL",
                **self._position(),
            )
            self.errors = 0
        except sqlite3.Error as error:
            self._fail(error, began)

    def _position(self) -> dict[str, int]:
        """Of a commit to one database that waited for PostgreSQL."""
        if self.job.other or self.connection is None:
            return {}
        try:
            return {
                "position": int(self.connection.execute("PRAGMA pagelog_position").fetchone()[0])
            }
        except sqlite3.Error:
            return {}

    def _opened(self) -> sqlite3.Connection:
        connection = connect(self.job, self.job.name, **self.settings)
        if self.job.other:
            connection.execute(
                "ATTACH ? AS other", (uri(self.job, self.job.other, **self.settings),)
            )
        return connection

    def _set(self, connection: sqlite3.Connection, level: str) -> None:
        for schema in self.schemas:
            connection.execute(f"PRAGMA {schema}.synchronous = {level}")

    def _add(self, connection: sqlite3.Connection, schema: str) -> dict[str, object]:
        """Adds a link, whose part takes the place of an older one, and moves something from one account to another."""
        if not connection.execute(
            f"SELECT 1 FROM {schema}.sqlite_master WHERE name = 'life'"
        ).fetchone():
            self._begin_life(connection, schema)
        [life] = connection.execute(f"SELECT text FROM {schema}.life").fetchone()
        seq, before = connection.execute(
            f"SELECT seq, sum FROM {schema}.led ORDER BY seq DESC LIMIT 1"
        ).fetchone() or (0, GENESIS)
        sum = link(before, life, self.notes.who, self.number)
        connection.execute(
            f"INSERT INTO {schema}.led VALUES (?, ?, ?, ?)",
            (seq + 1, self.notes.who, self.number, sum),
        )
        connection.execute(
            f"INSERT OR REPLACE INTO {schema}.part VALUES (?, ?, ?)",
            ((seq + 1) % PARTS, seq + 1, sum * COPIES),
        )
        connection.execute(
            f"UPDATE {schema}.account SET balance = balance - 1 WHERE id = ?", (self.number % 20,)
        )
        connection.execute(
            f"UPDATE {schema}.account SET balance = balance + 1 WHERE id = ?",
            (self.number * 7 % 20,),
        )
        name = self.job.name if schema == "main" else self.job.other
        return {"name": name, "life": life, "seq": seq + 1, "before": before, "sum": sum}

    def _begin_life(self, connection: sqlite3.Connection, schema: str) -> None:
        for statement in SCHEMA.split(";"):
            connection.execute(statement.replace("TABLE ", f"TABLE {schema}."))
        connection.execute(f"INSERT INTO {schema}.life VALUES (?)", (uuid.uuid4().hex[:12],))
        connection.executemany(
            f"INSERT INTO {schema}.account VALUES (?, 0)", [(id,) for id in range(20)]
        )

    def _fail(self, error: sqlite3.Error, began: float) -> None:
        code = name_of(error)
        refused = self.stage == "commit" and code in REFUSED
        self.notes(
            "refused" if refused else "failed",
            number=self.number,
            stage=self.stage,
            error=code,
            why=str(error)[:80],
            took=round(now() - began, 2),
        )
        self.errors += 1
        try:
            if self.connection is not None and self.connection.in_transaction:
                self.connection.execute("ROLLBACK")
        except sqlite3.Error:
            self.errors += 3
        if self.errors > 2 or code not in (*REFUSED, "SQLITE_IOERR_FSYNC"):
            self.close()
            time.sleep(0.1)

    def close(self) -> None:
        if self.connection is not None:
            try:
                self.connection.close()
            except sqlite3.Error as error:
                self.notes("failed", number=self.number, stage="close", error=name_of(error))
        self.connection, self.errors = None, 0


def full(job: Job) -> None:
    """Each commit waits for PostgreSQL."""
    writer = Writer(job, job.who, "FULL")
    for _ in job.until_over(0.1):
        writer.step()
    writer.close()


def normal(job: Job) -> None:
    """Most commits do not, and one in ten does, so that those before it have to be there with it."""
    writer = Writer(job, job.who, "NORMAL")
    for chance in job.until_over(0.05):
        writer.step("FULL" if chance.random() < 0.1 else None)
    writer.close()


def behind(job: Job) -> None:
    """Asynchronous commits."""
    writer = Writer(job, job.who, "OFF", async_commits=16)
    for chance in job.until_over(0.06):
        writer.step("FULL" if chance.random() < 0.1 else None)
    writer.close()


def pool(job: Job) -> None:
    """Threads that share two connections."""
    free = [Writer(job, f"{job.who}-{number}", "FULL") for number in range(2)]
    guard = threading.Lock()

    def work() -> None:
        for _ in job.until_over(0.05):
            with guard:
                writer = free.pop() if free else None
            if writer is not None:
                writer.step()
                with guard:
                    free.append(writer)

    together([work] * 3)


def forks(job: Job) -> None:
    """A process with a connection forks children, which have their own."""
    parent = Writer(job, f"{job.who}-0", "FULL")
    children = 0
    for chance in job.until_over(0.1):
        parent.step()
        if chance.random() < 0.2:
            children += 1
            if (child := os.fork()) == 0:
                _be_child(job, parent, f"{job.who}-{children}")
            if os.waitpid(child, 0)[1]:
                parent.notes("violation", text="a child has failed")


def _be_child(job: Job, parent: Writer, who: str) -> None:
    """Ends its process. What it inherited is SQLITE_MISUSE."""
    try:
        mine = Writer(job, who, "FULL")
        if parent.connection is not None:
            try:
                parent.connection.execute("SELECT count(*) FROM led").fetchone()
                mine.notes("violation", text="a connection of the parent is of use in a child")
            except sqlite3.Error:
                pass
        for _ in range(3):
            mine.step()
        mine.close()
    except BaseException:
        os._exit(1)
    os._exit(0)


def attached(job: Job) -> None:
    """A transaction adds to two databases; it is atomic in each."""
    writer = Writer(job, job.who, "FULL")
    for _ in job.until_over(0.1):
        writer.step()
    writer.close()


# Readers.


class Chain:
    """What a reader has verified of a database, so that its next look begins there."""

    def __init__(self) -> None:
        self.life, self.seq, self.sum = "", 0, GENESIS

    def look(self, connection: sqlite3.Connection, *, whole: bool) -> None:
        """In one transaction. Raises `Torn`."""
        connection.execute("BEGIN")
        try:
            if not connection.execute("SELECT 1 FROM sqlite_master WHERE name = 'life'").fetchone():
                self.life, self.seq, self.sum = "", 0, GENESIS
                return
            [life] = connection.execute("SELECT text FROM life").fetchone()
            known = connection.execute("SELECT sum FROM led WHERE seq = ?", (self.seq,)).fetchone()
            if whole or life != self.life or known != (self.sum,):
                self.life, self.seq, self.sum = life, 0, GENESIS
            self._follow(connection)
            self._look_at_parts(connection)
            if whole:
                self._check(connection)
        finally:
            if connection.in_transaction:
                connection.execute("ROLLBACK")

    def _follow(self, connection: sqlite3.Connection) -> None:
        for seq, who, number, sum in connection.execute(
            "SELECT * FROM led WHERE seq > ? ORDER BY seq", (self.seq,)
        ).fetchall():
            if seq != self.seq + 1 or sum != link(self.sum, self.life, who, number):
                raise Torn(f"link {seq} of {who} does not follow link {self.seq}")
            self.seq, self.sum = seq, sum

    def _look_at_parts(self, connection: sqlite3.Connection) -> None:
        found = connection.execute(
            "SELECT p.seq, p.text = replace(hex(zeroblob(?)), '00', l.sum) FROM part p JOIN led l ON l.seq = p.seq",
            (COPIES,),
        ).fetchall()
        expected = set(range(max(1, self.seq - PARTS + 1), self.seq + 1))
        if {seq for seq, _ in found} != expected or not all(same for _, same in found):
            raise Torn(f"parts {found} at link {self.seq}")
        if connection.execute("SELECT sum(balance), count(*) FROM account").fetchone() != (0, 20):
            raise Torn(f"the accounts at link {self.seq}")

    def _check(self, connection: sqlite3.Connection) -> None:
        [said] = connection.execute("PRAGMA integrity_check").fetchone()
        if said != "ok" and "unable to get the page" not in said:
            raise Torn(f"integrity_check: {said[:200]}")


class Looker:
    """A reader of one kind, whose connection is made again after errors, and now and then without one."""

    def __init__(self, job: Job, kind: str, notes: Notes | None = None, **settings: object) -> None:
        self.job, self.kind, self.settings = job, kind, settings
        self.notes = notes or Notes(job.folder, f"{job.who}-{kind}")
        self.connection: sqlite3.Connection | None = None
        self.chain, self.opened, self.looks = Chain(), 0, 0

    def step(self, *, whole: bool = False) -> bool:
        """Looks once, and notes what it was shown. Returns whether it was shown anything."""
        began = now()
        self.looks += 1
        try:
            if self.connection is None:
                self.connection, self.opened = (
                    connect(self.job, self.job.name, reads=True, **self.settings),
                    self.opened + 1,
                )
            self.chain.look(self.connection, whole=whole or self.looks % WHOLE == 0)
            self.notes(
                "look",
                kind=self.kind,
                name=self.job.name,
                opened=self.opened,
                life=self.chain.life,
                seq=self.chain.seq,
                sum=self.chain.sum,
                began=began,
            )
            return True
        except sqlite3.Error as error:
            self.notes("failed", stage="look", error=name_of(error), took=round(now() - began, 2))
        except Torn as torn:
            self.notes(
                "violation", text=f"torn for a {self.kind} reader of {self.job.name}: {torn}"
            )
        self.close()
        return False

    def position(self) -> int:
        assert self.connection is not None
        return int(self.connection.execute("PRAGMA pagelog_position").fetchone()[0])

    def close(self) -> None:
        if self.connection is not None:
            self.connection.close()
        self.connection, self.chain = None, Chain()


def _look_on(job: Job, kind: str, **settings: object) -> Callable[[], None]:
    def work() -> None:
        looker = Looker(job, kind, None, **settings)
        for chance in job.until_over(0.25):
            if not looker.step():
                time.sleep(0.2)
            elif chance.random() < 0.01:
                looker.close()

    return work


def _look_back(job: Job) -> Callable[[], None]:
    """At positions where a durable reader has been."""

    def work() -> None:
        looker = Looker(job, "durable", Notes(job.folder, f"{job.who}-at"), mode="ro", durable=1)
        for _ in job.until_over(0.5):
            began = now()
            if looker.step():
                try:
                    position = looker.position()
                except sqlite3.Error:
                    continue
                if not position:
                    continue
                then = Looker(job, "at", looker.notes, at=position)
                if then.step() and (then.chain.life, then.chain.seq, then.chain.sum) != (
                    looker.chain.life,
                    looker.chain.seq,
                    looker.chain.sum,
                ):
                    lives = [looker.chain.life, then.chain.life]
                    looker.notes(
                        "moved",
                        name=job.name,
                        began=began,
                        lives=lives,
                        position=position,
                        seqs=[looker.chain.seq, then.chain.seq],
                    )
                then.close()

    return work


def readers(job: Job) -> None:
    """Plain ones, durable ones, and those of a position."""
    together(
        [
            _look_on(job, "plain", mode="ro"),
            _look_on(job, "durable", mode="ro", durable=1),
            _look_back(job),
        ]
    )


def final(job: Job) -> None:
    """One durable look at all."""
    looker = Looker(job, "durable", mode="ro", durable=1)
    while not looker.step(whole=True):
        time.sleep(0.2)


def together(works: list[Callable[[], None]]) -> None:
    threads = [threading.Thread(target=work) for work in works]
    for thread in threads:
        thread.start()
    for thread in threads:
        thread.join()


KINDS: dict[str, Callable[[Job], None]] = {
    "full": full,
    "normal": normal,
    "behind": behind,
    "pool": pool,
    "forks": forks,
    "attached": attached,
    "readers": readers,
    "final": final,
}
