"""What the tests of the console use: one that runs, what it says, and the tables of a referee that are filled by hand."""

from __future__ import annotations

import json
import os
import re
import shutil
import signal
import subprocess
import sys
import tempfile
import time
from contextlib import contextmanager
from http.client import HTTPConnection, HTTPResponse
from pathlib import Path
from typing import Any, Callable, Iterator
from urllib.parse import quote

import psycopg

from keepers import Keeping, new_url
from pagelog.referee.schema import FORMAT
from service import PATIENCE, SOURCE

HOSTILE = "<img src=x onerror=alert(1)> \"'&</script>/../{x}"
"""A name that no word makes, as a row may have it."""


class Rows:
    """A referee's tables with one keeper, and databases that it serves, as many as are asked for."""

    def __init__(self, count: int, *more: str, has_reports: bool = True) -> None:
        self.url = new_url()
        self.session = psycopg.connect(self.url, autocommit=True)
        names = [*(f"db{number:03}" for number in range(1, count + 1)), *more]
        report = {
            name: {
                "state": "serving",
                "entries_left": 16_000_000 - at,
                "memory": 3,
                "hard": 100 + at,
            }
            for at, name in enumerate(names)
            if has_reports
        }
        self.session.execute(
            "INSERT INTO pagelog_keeper (name, run, lines, beat, report) VALUES ('a', 'life', '127.0.0.1:1', 1, %s)",
            (json.dumps(report),),
        )
        with self.session.cursor() as cursor:
            cursor.executemany(
                "INSERT INTO pagelog_log (name, format, archived, epoch, generation, next_generation, run, holder, address) "
                f"VALUES (%s, {FORMAT}, 100, 1, 1, 2, 'run', 'a', '127.0.0.1:2')",
                [(name,) for name in names],
            )
        self.session.execute(
            "INSERT INTO pagelog_generation (log, generation, run, holder, base, shift) "
            "SELECT id, 1, 'run', 'a', 0, 0 FROM pagelog_log"
        )

    def __enter__(self) -> Rows:
        return self

    def __exit__(self, *_: object) -> None:
        self.session.close()


class Page:
    """What a console serves at a port of this machine."""

    def __init__(self, port: int) -> None:
        self.port = port

    @property
    def url(self) -> str:
        return f"http://127.0.0.1:{self.port}/"

    def ask(
        self, path: str, method: str = "GET", body: str | None = None, **headers: str
    ) -> tuple[HTTPResponse, str]:
        """A reply and its body."""
        connection = HTTPConnection("127.0.0.1", self.port, timeout=PATIENCE)
        try:
            connection.request(
                method,
                path,
                body,
                {name.replace("_", "-"): value for name, value in headers.items()},
            )
            reply = connection.getresponse()
            return reply, reply.read().decode()
        finally:
            connection.close()

    def json(self, path: str, **headers: str) -> Any:
        reply, body = self.ask(path, **headers)
        assert reply.status == 200, (reply.status, body)
        return json.loads(body)

    def state(self) -> Any:
        return self.json("/api/state")

    def detail(self, name: str) -> Any:
        return self.json(f"/api/databases/{quote(name, safe='')}")

    @contextmanager
    def follow(self, **headers: str) -> Iterator[Follower]:
        """The events, from one connection."""
        connection = HTTPConnection("127.0.0.1", self.port, timeout=PATIENCE)
        try:
            connection.request("GET", "/api/events", headers=headers)
            yield Follower(connection.getresponse())
        finally:
            connection.close()


def page_of(keeping: Keeping) -> Page:
    """That of its one keeper."""
    [port] = re.findall(r"console at 127\.0\.0\.1:(\d+)", keeping.said())
    return Page(int(port))


class Console(Page):
    """A running `pagelogctl console`, which ends with the `with`."""

    def __init__(
        self, url: str, *, ttl: float = 600, more: str = "", token: str | None = None
    ) -> None:
        self.folder = Path(tempfile.mkdtemp(prefix="pagelog-console-"))
        file = self._private(
            "credentials.toml", f'[archive]\nurl = "{url}"\n[keeper]\nttl = {ttl}\n{more}'
        )
        words: list[object] = [
            sys.executable,
            "-m",
            "pagelog",
            "console",
            "--listen",
            "127.0.0.1:0",
            "--credentials",
            file,
        ]
        words += ["--token-file", self._private("token", token + "\n")] if token else []
        self.log = (self.folder / "log").open("w+")
        environment = {**os.environ, "PYTHONPATH": str(SOURCE), "PYTHONDONTWRITEBYTECODE": "1"}
        self.process = subprocess.Popen(
            list(map(str, words)),
            stdout=subprocess.PIPE,
            stderr=self.log,
            text=True,
            env=environment,
        )
        assert self.process.stdout is not None
        line = self.process.stdout.readline()
        assert line.startswith("listening 127.0.0.1:"), self.said()
        super().__init__(int(line.rpartition(":")[2]))

    def _private(self, name: str, text: str) -> Path:
        file = self.folder / name
        file.touch(mode=0o600)
        file.write_text(text)
        return file

    def __enter__(self) -> Console:
        return self

    def __exit__(self, *_: object) -> None:
        self.end(signal.SIGKILL)
        self.log.close()
        shutil.rmtree(self.folder)

    def end(self, number: int = signal.SIGTERM) -> int:
        if self.process.stdout is not None and not self.process.stdout.closed:
            self.process.send_signal(number)
            self.process.wait()
            self.process.stdout.close()
        return int(self.process.returncode)

    def said(self) -> str:
        """What it has written on standard error."""
        return (self.folder / "log").read_text()


class Follower:
    """What a browser has that follows: the databases and the events, as the looks brought them."""

    def __init__(self, reply: HTTPResponse) -> None:
        assert (
            reply.status == 200 and reply.getheader("Content-Type") == "text/event-stream"
        ), reply.status
        self._reply = reply
        self.databases: dict[str, Any] = {}
        self.events: list[Any] = []
        self.head: Any = None

    def look(self) -> Any:
        """Waits for the next look."""
        fields: dict[str, str] = {}
        while (line := self._reply.readline().decode()) != "\n":
            assert line, "the events have ended"
            name, _, value = line.rstrip("\n").partition(": ")
            fields[name] = value
        assert fields["event"] == "look", fields
        self.head = look = json.loads(fields["data"])
        assert int(fields["id"]) == look["look"]
        for name in look["gone"]:
            self.databases.pop(name, None)
        self.databases.update({database["name"]: database for database in look["databases"]})
        self.events += look["events"]
        return look

    def until(self, condition: Callable[[], object]) -> Any:
        """Follows until something is so."""
        deadline = time.monotonic() + PATIENCE
        look = self.look()
        while not condition():
            assert (
                time.monotonic() < deadline
            ), f"it did not come: {self.head}, {self.databases}, {self.said()}"
            look = self.look()
        return look

    def said(self) -> list[str]:
        """The events as texts."""
        return [f"{event['name'] or ''}: {event['text']}" for event in self.events]
