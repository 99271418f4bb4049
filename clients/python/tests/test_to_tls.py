"""The steps of docs/SECURITY.md from plain to TLS, and back, beneath writers of 0.1.0, of this version and of SQLite, which never rest."""

from __future__ import annotations

import os
import signal
import sqlite3
import threading
import time
import unittest
from contextlib import closing, contextmanager
from pathlib import Path
from typing import Any, Callable, Iterator

from keepers import Kept, eventually
from pagelog import Block, PagelogError, Put
from pagelog.secure import Trust
from postgres import postgres
from secured import Secured
from service import PATIENCE
from sqlite_named import connected
from test_mixed import MixedKeeping, OldWriter
from torture_faults import Slowness

REST = 0.02
"""Seconds between two commits of a writer."""
TTL = 10.0
"""So long that a busy machine loses nobody: a keeper that does not hand over is seen."""
BEGUN = "begun"
Commit = Callable[[str], None]


class Stepping(MixedKeeping, Secured):
    """Keepers of both versions, with fronts or without."""

    has_tls = False

    def file_of(self, name: str) -> Path:
        return super().file_of(name) if self.has_tls else self.file

    def lines_of(self, name: str) -> str:
        return super().lines_of(name) if self.has_tls else f"127.0.0.1:{self.ports[name]}"

    def step(self, *, is_old: bool = False, has_tls: bool = False, also: str = "") -> None:
        """Each keeper is restarted with this, one after the other: it hands over, and the next one waits until it listens."""
        for name in list(self.processes):
            self.has_tls, self.also = has_tls, also
            self.replace(name, is_old=is_old)
            before = self.beats()
            eventually(lambda: self.have_looked_since(before), "both keepers")

    def beats(self) -> dict[str, int]:
        return {keeper.name: keeper.beat for keeper in self.referee.everything().keepers}

    def have_looked_since(self, before: dict[str, int]) -> bool:
        """Both keepers, which do at once where they are told to."""
        self.ring()
        now = self.beats()
        return before.keys() == now.keys() and all(now[name] > before[name] for name in now)


class Writing(threading.Thread):
    """Commits one text after the other, each durable, and notes what was acknowledged, and how long that took."""

    def __init__(self, name: str, open: Callable[[], Any]) -> None:
        """`open` is a context of what commits a text, or raises."""
        super().__init__(daemon=True)
        self.who, self.open = name, open
        self.acknowledged: list[str] = []
        self.failed: list[str] = []
        self.longest = 0.0
        self._ends, self._changed = False, False
        self.start()

    def run(self) -> None:
        while not self._ends:
            self._changed = False
            try:
                with self.open() as commit:
                    while not self._ends and not self._changed:
                        self._commit(commit)
            except (PagelogError, sqlite3.Error) as error:
                self.failed.append(f"{type(error).__name__}: {error}")
                self._ends = True

    def _commit(self, commit: Commit) -> None:
        text, began = f"{self.who} {len(self.acknowledged) + 1}", time.monotonic()
        commit(text)
        self.longest = max(self.longest, time.monotonic() - began)
        self.acknowledged.append(text)
        time.sleep(REST)

    def goes_on(self) -> None:
        before = len(self.acknowledged)
        eventually(lambda: len(self.acknowledged) > before + 2 or bool(self.failed), self.who)

    def opens(self, open: Callable[[], Any]) -> None:
        """From the next commit on it writes over other connections."""
        self.open, self._changed = open, True
        eventually(lambda: not self._changed or bool(self.failed), f"{self.who}, otherwise")
        self.goes_on()

    def end(self) -> None:
        self._ends = True
        self.join(PATIENCE)


class Steps(unittest.TestCase):
    def setUp(self) -> None:
        url = postgres().url(f"steps{os.getpid()}")
        self.keeping = self.enterContext(Stepping(url=url, ttl=TTL))
        self.addCleanup(lambda: Kept.say_if_failed(self))  # type: ignore[arg-type]
        self.keeping.old_word("create", "shop", "--table", self.keeping.table)
        with self.keeping.older():
            self.keeping.start("a", "b")
        self.writers: list[Writing] = []
        self.trust = Trust(self.keeping.certificates.ca)

    def writing(self, name: str, open: Callable[[], Any]) -> Writing:
        made = Writing(name, open)
        self.writers.append(made)
        self.addCleanup(made.end)
        made.goes_on()
        return made

    # Who commits.

    @contextmanager
    def older(self) -> Iterator[Commit]:
        with closing(OldWriter(self.keeping.addresses)) as writer:

            def commit(text: str) -> None:
                if not (said := writer.commit(text)).isdecimal():
                    raise PagelogError(said)

            commit(BEGUN)  # its process has to begin
            yield commit

    @contextmanager
    def plain(self, **options: Any) -> Iterator[Commit]:
        with self.keeping.primary("notes", **options) as writer:

            def commit(text: str) -> None:
                writer.append(Put(0, 0, f"<{text}>".encode()))
                writer.commit(durable=True)

            yield commit

    def by_tls(self) -> Any:
        return self.plain(keepers=self.keeping.secure_addresses, trust=self.trust)

    @contextmanager
    def lite(self, **words: Any) -> Iterator[Commit]:
        addresses = self.keeping.secure_addresses if words else self.keeping.addresses
        with closing(connected(addresses, name="lite", **words)) as writer:
            writer.execute("create table if not exists t(x)")
            yield lambda text: writer.execute("insert into t values(?)", (text,)) and None

    def lite_by_tls(self) -> Any:
        return self.lite(sslrootcert=self.keeping.certificates.ca)

    # The steps.

    def go_on(self, *writers: Writing) -> None:
        for each in writers:
            each.goes_on()
            self.assertEqual(each.failed, [], each.who)

    def test_nothing_is_lost_on_the_way_nor_on_the_way_back(self) -> None:
        keeping, slow = self.keeping, Slowness()
        older = self.writing("shop", self.older)
        keeping.step()  # 1
        for name in ("notes", "lite"):
            keeping.word("create", name, "--table", keeping.table)
            eventually(lambda: keeping.knows(name), name)  # noqa: B023
        notes, lite = self.writing("notes", self.plain), self.writing("lite", self.lite)
        self.go_on(*self.writers)
        keeping.step(has_tls=True)  # 2
        self.go_on(*self.writers)
        notes.opens(self.by_tls), lite.opens(self.lite_by_tls)  # 3
        self.go_on(*self.writers)
        older.end()
        keeping.step(has_tls=True, also="plain = false")  # 4
        self.go_on(notes, lite)
        with self.assertRaises(ConnectionRefusedError):
            keeping.line("a").__enter__()
        keeping.step(has_tls=True)  # back to 3
        again = self.writing("shop", self.older)
        self.go_on(notes, lite, again)
        notes.opens(self.plain), lite.opens(self.lite)  # back to 2
        keeping.step()  # back to 1
        self.go_on(notes, lite, again)
        notes.end(), lite.end()
        with closing(connected(keeping.addresses, id=3, name="lite", mode="ro")) as reader:
            rows = [text for text, in reader.execute("select x from t order by rowid")]
        keeping.step(is_old=True)
        again.goes_on()
        again.end()
        self.assertEqual({each.who: each.failed for each in self.writers if each.failed}, {})
        if os.environ.get("PAGELOG_TEST_TIMES"):
            for each in self.writers:
                print(f"{each.who}: {len(each.acknowledged)} commits, longest {each.longest:.2f} s")
        self.assertNotIn("has stalled", keeping.said(), "each keeper hands over")
        self.assertLess(max(each.longest for each in self.writers), TTL * slow.mean())
        self.assertEqual(self.texts("shop"), older.acknowledged + again.acknowledged)
        self.assertEqual(self.texts("notes"), notes.acknowledged)
        self.assertEqual(rows, lite.acknowledged)

    def texts(self, name: str) -> list[str]:
        """What is archived."""
        blocks = map(Block.decode, self.keeping.archive(name))
        texts = [block.records[-1].data.decode().strip("<>") for block in blocks]  # type: ignore[union-attr]
        return [text for text in texts if text != BEGUN]


if __name__ == "__main__":
    unittest.main()
