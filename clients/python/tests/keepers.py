"""What the tests of keepers use: a referee of PostgreSQL's, and a line to it that is cut or stands still at a given byte."""

from __future__ import annotations

import itertools
import json
import os
import re
import select
import shutil
import signal
import socket
import subprocess
import sys
import tempfile
import threading
import time
import unittest
import urllib.request
from contextlib import contextmanager, suppress
from pathlib import Path
from typing import Any, Callable, Iterator

import psycopg
from click.testing import CliRunner
from prometheus_client.parser import text_string_to_metric_families

from pagelog import Block, NamedPrimary, NamedReader, Primary, Put, Reader
from pagelog.cli.words import pagelogctl
from pagelog.referee.referee import KeeperError, Referee, digest
from pagelog.referee.rows import Batch, Row
from pagelog.keeper.run import orphans_of
from pagelog.place import Keepers, Place, UnknownName
from pagelog.objects.settings import StoreSettings
from postgres import postgres
from fast_library import build
from service import PATIENCE, PROGRAM, SOURCE, TABLE, WIDE_TABLE, Port, put, stand_still, token

_numbers = itertools.count(1)
_shared: list[str] = []


def new_url() -> str:
    """The URL of a new database with the referee's tables."""
    url = postgres().url(f"keepers{next(_numbers)}")
    referee = Referee(url)
    referee.prepare()
    referee.close()
    return url


def shared_url() -> str:
    """The URL of the referee that the keepers of this run share, one test after the other."""
    if not _shared:
        _shared.append(new_url())
    return _shared[0]


def blocks(first: int, count: int, what: bytes = b"x") -> tuple[bytes, ...]:
    return tuple(
        Block.of(lsn, [Put(0, 0, what + b"%d" % lsn)]).data for lsn in range(first, first + count)
    )


def batch_of(row: Row, kept: Kept, run: str, count: int = 3, what: bytes = b"x") -> Batch:
    made = blocks(kept.archived + 1, count, what)
    return Batch(row.id, run, kept.generation, kept.archived, digest(kept.chain, made), made)


def new_database(referee: Referee, name: str) -> Row:
    assert referee.create(name, TABLE.read_text(), b"s" * 16)
    row = referee.everything().row(name)
    assert row is not None
    return row


class Line:
    """A way to the server's socket on which each connection goes `bytes` bytes to it and `back` bytes back, and then is cut,
    or with `stalls` stands still."""

    def __init__(self, bytes: int = 1 << 60, back: int = 1 << 60, *, stalls: bool = False) -> None:
        self.left = {"to": bytes, "back": back}
        self.stalls = stalls
        self.instead = b""
        """What comes back in place of the first bytes that are cut off."""
        self.folder = Path(tempfile.mkdtemp(prefix="pagelog-line-"))
        self.listener = socket.socket(socket.AF_UNIX)
        self.listener.bind(str(self.folder / ".s.PGSQL.5432"))
        self.listener.listen()
        self.open: list[socket.socket] = []
        threading.Thread(target=self._accept, daemon=True).start()

    def url(self, url: str) -> str:
        return url.partition("?")[0] + f"?host={self.folder}"

    def count_from_now(self, to: int = 1 << 60, back: int = 1 << 60) -> None:
        self.left.update(to=to, back=back)

    def close(self) -> None:
        self.listener.shutdown(socket.SHUT_RDWR)  # a close does not end an `accept`
        for each in (self.listener, *self.open):
            each.close()
        (self.folder / ".s.PGSQL.5432").unlink(missing_ok=True)
        self.folder.rmdir()

    def _accept(self) -> None:
        while True:
            try:
                client, _ = self.listener.accept()
            except OSError:
                return
            server = socket.socket(socket.AF_UNIX)
            server.connect(str(postgres().folder / ".s.PGSQL.5432"))
            self.open += [client, server]
            threading.Thread(target=self._pass, args=(client, server), daemon=True).start()

    def _pass(self, client: socket.socket, server: socket.socket) -> None:
        try:
            while True:
                for side in select.select([client, server], [], [])[0]:
                    data = side.recv(65536)
                    way = "to" if side is client else "back"
                    part = data[: self.left[way]]
                    self.left[way] -= len(part)
                    (server if side is client else client).sendall(part)
                    if not data or len(part) < len(data):
                        if data and self.stalls:
                            client.sendall(self.instead)
                            return  # both stay open, and nothing passes
                        client.close()
                        server.close()
                        return
        except (OSError, ValueError):
            client.close()
            server.close()


class Replying(Line):
    """A line on which, instead of what is cut off, an error comes back, and both ends stay open."""

    def __init__(self, severity: str, state: str) -> None:
        super().__init__(stalls=True)
        fields = b"".join(
            kind + text.encode() + b"\0"
            for kind, text in ((b"S", severity), (b"V", severity), (b"C", state), (b"M", "told"))
        )
        self.instead = b"E" + (len(fields) + 5).to_bytes(4, "big") + fields + b"\0" + b"Z\0\0\0\5I"


class Keeping:
    """Keepers of one referee, as processes, and the clients of their database. All of it ends with the `with`."""

    lines_host = "127.0.0.1"
    """Where keepers listen."""

    def __init__(
        self,
        *,
        ttl: float = 1.5,
        standby: bool = True,
        audit: int = 1_000_000,
        url: str | None = None,
        more: str = "",
    ) -> None:
        self.url = url or shared_url()
        self.environment = {**os.environ, "PYTHONPATH": str(SOURCE)}
        self.listens = "--listen", "--service-host"
        """What `keep` of this environment calls where it listens, and where its services do."""
        self.referee = Referee(self.url)
        self.folder = Path(tempfile.mkdtemp(prefix="pagelog-keeping-"))
        self.ttl = ttl
        self.file = self.folder / "credentials.toml"
        self.file.touch(mode=0o600)
        self.file.write_text(
            f'[archive]\nurl = "{self.url}"\n[keeper]\nttl = {ttl}\nstandby = {"true" if standby else "false"}\n'
            f"audit = {audit}\n{more}"
        )
        self.table = self.folder / "table.toml"
        self.table.write_text(WIDE_TABLE)
        self.keeper: tuple[object, ...] = ("-m", "pagelog")
        """How a keeper is called, as arguments of Python."""
        self.names: dict[str, str] = {}
        """Keepers whose name is another one's, with a folder and a port of their own."""
        self.processes: dict[str, subprocess.Popen[str]] = {}
        self.ports = dict.fromkeys("abcd", 0)
        self.held: list[Port] = []
        self.host = "127.0.0.1"
        """Where services are reached."""
        self.words: tuple[object, ...] = ()
        """More of a keeper's arguments."""
        self.user: dict[str, Any] = {}
        """As whom keepers run, as `Popen` has it."""

    def stores(self, folder: Path, **section: str) -> None:
        """Its keepers have a store in this folder, with a section [store], and so has its own referee. Before they are started."""
        url = f"file://{folder}"
        lines = "".join(f'{key} = "{value}"\n' for key, value in section.items())
        text = self.file.read_text().replace("[keeper]", f'store = "{url}"\n[keeper]')
        self.file.write_text(f"{text}[store]\n{lines}")
        self.referee.close()
        self.referee = Referee(self.url, store=StoreSettings.of(url, section))

    def __enter__(self) -> Keeping:
        return self

    def __exit__(self, *_: object) -> None:
        for process in self.processes.values():
            process.kill()
            process.wait()
            assert process.stdout is not None
            process.stdout.close()
        for port in self.held:
            port.close()
        for name in self.processes:
            end_left(self.folder / name)
        end_services(self.folder)  # also those that are quarantined, which no keeper ends
        self.referee.close()
        self.referee.prepare()  # older keepers may have left older tables
        for row in self.referee.everything().rows:
            if not row.dropped:
                self.referee.drop(row.name)
        self.referee._ask(
            "DELETE FROM pagelog_keeper RETURNING name"
        )  # the next test has keepers of these names in other folders
        self.referee.close()
        if os.environ.get("PAGELOG_TEST_SAYS"):
            print(self.said())
        shutil.rmtree(self.folder, ignore_errors=True)

    def said(self) -> str:
        return "\n".join(
            f"--- {file.stem}\n{file.read_text()}" for file in sorted(self.folder.glob("*.log"))
        )

    def word(self, *words: object) -> str:
        """What a word of pagelogctl prints."""
        done = CliRunner().invoke(pagelogctl, [*map(str, words), "--credentials", str(self.file)])
        if done.exit_code != 0:
            raise AssertionError(f"{words}: {done.exit_code}: {done.output}")
        return done.output

    def refused(self, *words: object) -> str:
        """What such a word says that is refused."""
        try:
            said = self.word(*words)
        except AssertionError as error:
            return str(error)
        raise AssertionError(f"{words} was not refused: {said}")

    def knows(self, name: str = "shop") -> bool:
        """Whether a keeper says where it is."""
        try:
            self.place(name)
        except UnknownName:
            return False
        return True

    def start(self, *names: str, program: str = PROGRAM) -> None:
        """Starts keepers, and waits until they listen."""
        self.launch(*names, program=program)
        for name in names:
            line = self.processes[name].stdout.readline()  # type: ignore[union-attr]
            assert line.startswith("listening"), self.said()
            assert line.split()[1] == self.lines_of(name)

    def launch(self, *names: str, program: str = PROGRAM) -> None:
        build()
        for name in names:
            if self.ports[name] == 0:
                self.held.append(Port())
                self.ports[name] = self.held[
                    -1
                ].number  # which it has again when it is started again
            words = [
                sys.executable,
                *self.keeper,
                "keep",
                "--name",
                self.names.get(name, name),
                self.listens[0],
                f"{self.lines_host}:{self.ports[name]}",
                self.listens[1],
                self.host,
                "--folder",
                self.folder / name,
                "--program",
                program,
                "--credentials",
                self.file_of(name),
                *self.words,
            ]
            with (self.folder / f"{name}.log").open("a") as log:
                self.processes[name] = subprocess.Popen(
                    list(map(str, words)),
                    stdout=subprocess.PIPE,
                    stderr=log,
                    text=True,
                    env=self.environment,
                    **self.user,
                )

    def lines_of(self, name: str) -> str:
        """Where a keeper says that it listens."""
        return f"{self.lines_host}:{self.ports[name]}"

    def file_of(self, name: str) -> Path:
        """The credentials of a keeper."""
        return self.file

    def kill(self, name: str, number: int = signal.SIGKILL) -> None:
        process = self.processes[name]
        if number == signal.SIGSTOP:
            return stand_still(process.pid)
        process.send_signal(number)
        if number in (signal.SIGKILL, signal.SIGTERM):
            process.wait()

    @property
    def addresses(self) -> list[str]:
        return [f"127.0.0.1:{self.ports[name]}" for name in self.processes]

    def keepers(self, name: str = "shop") -> Keepers:
        return Keepers(name, self.addresses, PATIENCE)

    def place(self, name: str = "shop", least: int = 0) -> Place:
        keepers = self.keepers(name)
        try:
            return keepers.place(least)
        finally:
            keepers.close()

    def pid(self, name: str = "shop") -> int:
        """The process of the service that has the database now."""
        found: list[int] = []

        def is_noted() -> (
            bool
        ):  # a place may be told of a service that was killed just now, and what is noted of it may be gone
            try:
                found[:] = [
                    json.loads(file.read_text())["pid"]
                    for file in self.folder.glob(f"*/{name}.{self.place(name).run}.json")
                ]
            except FileNotFoundError:
                return False
            return len(found) == 1

        eventually(is_noted, "what is noted of a service")
        return found[0]

    def ring(self) -> None:
        """Has all keepers look now, however long their ttl is."""
        with psycopg.connect(
            self.url, autocommit=True, target_session_attrs="read-write"
        ) as session:
            session.execute("NOTIFY pagelog_keeper")

    @contextmanager
    def line(self, name: str = "a") -> Iterator[Any]:
        """A connection to the lines of a keeper, as text."""
        with socket.create_connection(
            ("127.0.0.1", self.ports[name]), PATIENCE
        ) as line, line.makefile("rw") as text:
            yield text

    def metrics(self, keeper: str = "*") -> dict[tuple[str, str], float]:
        """Those of a keeper, or of the one that there is, by name and the value of the last label: the database or its state."""
        [file] = self.folder.glob(f"{keeper}.log")
        address = re.findall(r"metrics at (\S+)", file.read_text())[-1]
        with urllib.request.urlopen(f"http://{address}/metrics", timeout=PATIENCE) as reply:
            families = text_string_to_metric_families(reply.read().decode())
            return {
                (sample.name, ["", *sample.labels.values()][-1]): sample.value
                for family in families
                for sample in family.samples
            }

    def row(self, name: str = "shop") -> Row:
        """What the referee shows of it."""
        try:
            row = self.referee.everything().row(name)
        except KeeperError:
            self.referee.close()  # its server may have been killed
            row = self.referee.everything().row(name)
        assert row is not None
        return row

    def standbys(self, name: str = "shop") -> dict[str, int]:
        """How far each keeper's standby is."""
        look = self.referee.everything()
        row = look.row(name)
        return (
            {}
            if row is None
            else {standby.keeper: standby.reached for standby in look.standbys_of(row.id)}
        )

    def primary(self, name: str = "shop", id: int = 2, **options: Any) -> NamedPrimary:
        options = {
            "keepers": self.addresses,
            "patience": PATIENCE,
            "timeout": PATIENCE,
            **options,
        }
        return Primary.named(name, principal=id, token=token(id), operator=(1, token(1)), **options)

    def reader(self, name: str = "shop", **options: Any) -> NamedReader:
        options = {
            "keepers": self.addresses,
            "patience": PATIENCE,
            "timeout": PATIENCE,
            **options,
        }
        return Reader.named(name, principal=3, token=token(3), **options)

    def archive(self, name: str = "shop") -> list[bytes]:
        """All archived blocks; the digest of them has been compared."""
        row = self.row(name)
        found = [block for piece in self.referee.blocks(row.id, 1, row.archived) for block in piece]
        assert digest(b"", found) == row.chain
        return found


def services(folder: Path) -> list[int]:
    """The processes of the services of a keeper's folder, noted or not: what is wrong each of them says to a file there."""
    found = []
    for process in Path("/proc").glob("[0-9]*"):
        try:
            found += (
                [int(process.name)]
                if os.readlink(process / "fd" / "2").startswith(f"{folder}/")
                else []
            )
        except OSError:
            pass  # it has ended, or is another's
    return found


def end_services(folder: Path) -> None:
    """Ends them all."""
    for process in services(folder):
        with suppress(ProcessLookupError):  # it ends by itself
            os.kill(process, signal.SIGKILL)


def end_left(folder: Path) -> None:
    """Ends the services of a keeper that is gone."""
    for left in orphans_of(folder, set()):
        left.end()


def eventually(condition: Callable[[], bool], what: str = "") -> None:
    """Waits for what has to come."""
    deadline = time.monotonic() + PATIENCE
    while not condition():
        assert time.monotonic() < deadline, f"it did not come: {what}"
        time.sleep(0.02)


class Kept(unittest.TestCase):
    keepers = "ab"
    options: dict[str, object] = {}

    def setUp(self) -> None:
        self.keeping = self.enterContext(Keeping(**self.options))  # type: ignore[arg-type]
        self.addCleanup(self.say_if_failed)
        self.assertTrue(
            self.keeping.referee.create("shop", self.keeping.table.read_text(), b"s" * 16)
        )
        self.keeping.start(*self.keepers)

    def say_if_failed(self) -> None:
        """What the keepers said, where the test has failed. While it is cleaned up its outcome is a success: its result has the failure."""
        result = self._outcome.result  # type: ignore[attr-defined]
        if any(
            test is self or getattr(test, "test_case", None) is self
            for test, _ in result.failures + result.errors
        ):
            print(self.keeping.said())

    def texts(self, name: str = "shop") -> list[bytes]:
        """The text of each archived block, in order."""
        return [Block.decode(block).records[-1].data.strip(b"<>") for block in self.keeping.archive(name)]  # type: ignore[union-attr]

    def commit(self, primary: object, text: str, **how: bool) -> int:
        primary.append(put(0, f"<{text}>".encode()))  # type: ignore[attr-defined]
        return primary.commit(**how)  # type: ignore[attr-defined,no-any-return]


class Gate:
    """Statements of the referee wait at it, once they have changed a row so; another session's commit is held up thus."""

    def __init__(self, url: str, when: str, table: str = "pagelog_log", lock: int = 42) -> None:
        self._table, self._lock = table, lock
        self._session = psycopg.connect(url, autocommit=True)
        self._session.execute(f"SELECT pg_advisory_lock({lock})")
        self._session.execute(
            f"CREATE OR REPLACE FUNCTION pagelog_gate_{lock}() RETURNS trigger LANGUAGE plpgsql AS "
            f"$$ BEGIN PERFORM pg_advisory_xact_lock_shared({lock}); RETURN NEW; END $$"
        )
        self._session.execute(
            f"CREATE TRIGGER pagelog_gate BEFORE UPDATE ON {table} FOR EACH ROW WHEN ({when}) "
            f"EXECUTE FUNCTION pagelog_gate_{lock}()"
        )

    def somebody_waits(self) -> None:
        waits = f"SELECT 1 FROM pg_locks WHERE locktype = 'advisory' AND objid = {self._lock} AND NOT granted"
        eventually(
            lambda: self._session.execute(waits).fetchone() is not None, "a statement at the gate"
        )

    def open(self) -> None:
        self._session.execute("SELECT pg_advisory_unlock_all()")
        while True:
            try:
                self._session.execute("SET lock_timeout = '50ms'")
                self._session.execute(f"DROP TRIGGER IF EXISTS pagelog_gate ON {self._table}")
                break
            except psycopg.errors.LockNotAvailable:
                continue
        self._session.close()


class Trigger:
    """Each statement that changes a row so runs this, until it is closed."""

    def __init__(self, url: str, table: str, when: str, body: str) -> None:
        self._session, self._table = psycopg.connect(url, autocommit=True), table
        self._session.execute(
            f"CREATE OR REPLACE FUNCTION pagelog_attack() RETURNS trigger LANGUAGE plpgsql AS $$ BEGIN {body}; RETURN NEW; END $$"
        )
        self._session.execute(
            f"CREATE TRIGGER pagelog_attack BEFORE {when} EXECUTE FUNCTION pagelog_attack()"
        )

    def close(self) -> None:
        if not self._session.closed:
            self._session.execute(f"DROP TRIGGER pagelog_attack ON {self._table}")
            self._session.close()


class Tried(Trigger):
    """Counts the statements of a session that would change an archive, whether or not they do."""

    def __init__(self, url: str, session: str) -> None:
        with psycopg.connect(url, autocommit=True) as boss:
            boss.execute("CREATE SEQUENCE IF NOT EXISTS pagelog_tried")
            boss.execute("ALTER SEQUENCE pagelog_tried RESTART")
        super().__init__(
            url,
            "pagelog_log",
            "UPDATE ON pagelog_log FOR EACH STATEMENT",
            f"IF current_setting('application_name') = '{session}' THEN PERFORM nextval('pagelog_tried'); END IF",
        )

    def count(self) -> int:
        [count] = self._session.execute(
            "SELECT CASE WHEN is_called THEN last_value ELSE 0 END FROM pagelog_tried"
        ).fetchone() or [0]
        return int(count)
