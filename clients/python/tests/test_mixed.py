"""Keepers and clients of 0.1.0 beside those of this version, through an upgrade one keeper after the other, and back.

The older ones are taken from the repository's history.
"""

from __future__ import annotations

import io
import os
import signal
import sqlite3
import subprocess
import sys
import tarfile
import tempfile
import unittest
from contextlib import closing, contextmanager
from pathlib import Path
from typing import Iterator

import psycopg
from click.testing import CliRunner

from keepers import Keeping, eventually
from pagelog import Block
from pagelog.cli.words import pagelogctl
from pagelog.place import OlderKeepers
from pagelog.trail import Trail
from postgres import postgres
from service import SOURCE, put, token
from sqlite_named import connected, enter

OLD = "62c82100"
"""The commit of 0.1.0."""
REPOSITORY = Path(__file__).resolve().parents[3]
_folders: list[tempfile.TemporaryDirectory[str]] = []

WRITER = """
import sys
import pagelog
addresses, token, operator = sys.argv[1:]
writer = pagelog.Primary.named("shop", keepers=addresses.split(","), principal=2, token=token, operator=(1, operator), patience=30.0)
for line in sys.stdin:
    writer.append(pagelog.Put(0, 0, f"<{line.strip()}>".encode()))
    try:
        print(writer.commit(durable=True), flush=True)
    except pagelog.PagelogError as error:
        print(type(error).__name__, flush=True)
"""


def old() -> Path:
    """The clients of 0.1.0."""
    if not _folders:
        _folders.append(tempfile.TemporaryDirectory(prefix="pagelog-old-"))
        packed = subprocess.run(
            ["git", "-C", str(REPOSITORY), "archive", OLD, "clients/python/src", "clients/c"],
            check=True,
            stdout=subprocess.PIPE,
        )
        with tarfile.open(fileobj=io.BytesIO(packed.stdout)) as files:
            files.extractall(_folders[0].name)
    return Path(_folders[0].name) / "clients"


class OldWriter:
    """A writer of 0.1.0, in a process of its own."""

    def __init__(self, addresses: list[str]) -> None:
        environment = {**os.environ, "PYTHONPATH": str(old() / "python" / "src")}
        self.process = subprocess.Popen(
            [sys.executable, "-B", "-c", WRITER, ",".join(addresses), token(2), token(1)],
            text=True,
            stdin=subprocess.PIPE,
            stdout=subprocess.PIPE,
            env=environment,
        )

    def commit(self, text: str) -> str:
        """A durable commit: its position, or the error's name."""
        assert self.process.stdin is not None and self.process.stdout is not None
        print(text, file=self.process.stdin, flush=True)
        return self.process.stdout.readline().strip()

    def close(self) -> None:
        self.process.kill()
        self.process.communicate()


class MixedKeeping(Keeping):
    """Keepers of both versions. A keeper is of the one that was chosen last."""

    @contextmanager
    def older(self) -> Iterator[None]:
        before, listens = dict(self.environment), self.listens
        self.listens = "--lines", "--serve"
        self.environment.update(
            PYTHONPATH=str(old() / "python" / "src"), PYTHONPYCACHEPREFIX=str(old() / "bytecode")
        )
        try:
            yield
        finally:
            self.environment.update(before)
            self.listens = listens

    def old_word(self, *words: object) -> None:
        with self.older():
            subprocess.run(
                [
                    sys.executable,
                    "-B",
                    "-m",
                    "pagelog",
                    *map(str, words),
                    "--credentials",
                    str(self.file),
                ],
                check=True,
                env=self.environment,
                stdout=subprocess.DEVNULL,
            )

    def replace(self, name: str, *, is_old: bool) -> None:
        """The keeper hands over, and another one of its name begins."""
        self.kill(name, signal.SIGTERM)
        if is_old:
            with self.older():
                self.start(name)
        else:
            self.start(name)


class Beside(unittest.TestCase):
    """Two keepers, older ones at first."""

    options: dict[str, str] = {}
    keepers: tuple[str, ...] = ("a", "b")

    def setUp(self) -> None:
        url = postgres().url(f"mixed{os.getpid()}_{self.id().rpartition('.')[2][:20]}")
        self.keeping = self.enterContext(MixedKeeping(url=url, **self.options))  # type: ignore[arg-type]
        self.addCleanup(lambda: None if self._outcome.success else print(self.keeping.said()))  # type: ignore[attr-defined]
        self.keeping.old_word("create", "shop", "--table", self.keeping.table)
        with self.keeping.older():
            self.keeping.start(*self.keepers)

    def texts(self) -> list[bytes]:
        return [Block.decode(block).records[-1].data.strip(b"<>") for block in self.keeping.archive()]  # type: ignore[union-attr]

    def begin_again(self, is_old: bool) -> None:
        """The next life of keeper a, of this version or of 0.1.0."""
        self.keeping.kill("a")
        if is_old:
            with self.keeping.older():
                self.keeping.start("a")
        else:
            self.keeping.start("a")

    def held(self) -> tuple[str | None, str | None]:
        """The holder and the run that is published, in tables of any version."""
        with psycopg.connect(self.keeping.url) as session:
            found = session.execute(
                "SELECT holder, run FROM pagelog_log WHERE name = 'shop' AND address IS NOT NULL"
            ).fetchone()
            return (None, None) if found is None else (found[0], found[1])

    def version(self) -> int:
        with psycopg.connect(self.keeping.url) as session:
            found = session.execute("SELECT to_regclass('pagelog_schema') IS NOT NULL").fetchone()
            return 2 if found == (True,) else 1

    def refused(self) -> None:
        """Keepers of version 1 alone cannot say which database of the name they have."""
        with self.keeping.primary(id=5) as primary, self.assertRaisesRegex(
            OlderKeepers, "upgraded before their clients"
        ):
            primary.append(put(0, b"<refused>"))
            primary.commit()
        with self.assertRaises(sqlite3.OperationalError):
            connected(self.keeping.addresses, id=3, mode="ro")


class Mixed(Beside):
    def test_an_upgrade_and_the_way_back(self) -> None:
        keeping, texts = self.keeping, list[bytes]()

        def commit_by_old() -> None:
            with closing(OldWriter(keeping.addresses)) as writer:
                for _ in range(2):
                    texts.append(b"old")
                    self.assertEqual(writer.commit("old"), str(len(texts)))

        commit_by_old()
        self.assertEqual(self.version(), 1)
        self.refused()
        for name, is_old in (("a", False), ("b", False), ("a", True), ("b", True)):
            with closing(OldWriter(keeping.addresses)) as writer:
                texts.append(b"across")
                self.assertEqual(writer.commit("across"), str(len(texts)))
                keeping.replace(name, is_old=is_old)
                texts.append(b"across")
                self.assertEqual(writer.commit("across"), str(len(texts)))
            self.assertEqual(self.version(), 2)
            commit_by_old()
            if (name, is_old) != ("b", True):
                with keeping.primary(id=5) as primary:
                    for _ in range(2):
                        texts.append(b"new")
                        primary.append(put(0, b"<new>"))
                        self.assertEqual(primary.commit(durable=True), len(texts))
        self.refused()
        self.assertEqual(self.texts(), texts)

    def test_a_service_is_adopted_in_both_directions(self) -> None:
        """By the next instance of its keeper, of another version: nobody takes over, and what is not archived is there."""
        keeping = self.keeping
        keeping.kill("b")
        with closing(OldWriter(keeping.addresses)) as writer:
            self.assertEqual(writer.commit("1"), "1")
        for number, is_old in enumerate((False, True, False), 2):
            eventually(lambda: self.held()[0] == "a", "its place")
            before = self.held()
            self.begin_again(is_old)
            with closing(OldWriter(keeping.addresses)) as writer:
                self.assertEqual(writer.commit(str(number)), str(number))
            self.assertEqual(self.held(), before)

    def test_an_older_client_is_told_nothing_of_another_database_of_the_name(self) -> None:
        keeping = self.keeping
        for name in "ab":
            keeping.replace(name, is_old=False)
        writer = OldWriter(keeping.addresses)
        self.addCleanup(writer.close)
        for number in range(1, 4):
            self.assertEqual(writer.commit("old"), str(number))
        keeping.kill(str(keeping.row().holder))
        run = keeping.row().run
        keeping.word("drop", "shop", "--force")
        self.assertTrue(keeping.referee.create("shop", keeping.table.read_text(), b"s" * 16))
        eventually(
            lambda: keeping.row().address is not None and keeping.row().run != run,
            "the place of another one",
        )
        with keeping.primary(id=5) as primary:
            for _ in range(10):
                primary.append(put(0, b"<new>"))
                primary.commit(durable=True)
        self.assertFalse(writer.commit("old").isdecimal())
        self.assertEqual(set(self.texts()), {b"new"})

    def test_a_table_is_changed_once_all_keepers_know_of_numbers(self) -> None:
        keeping = self.keeping
        keeping.replace("a", is_old=False)
        words = ["token", "shop", "5", "--new", "--credentials", str(keeping.file)]
        done = CliRunner(mix_stderr=False).invoke(pagelogctl, words)
        self.assertEqual(done.exit_code, 1)
        self.assertIn(
            "nothing was changed: keeper b is of a version that knows no numbers of tables",
            done.stderr,
        )
        self.assertEqual(keeping.row().table_number, 1)
        keeping.replace("b", is_old=False)
        done = CliRunner(mix_stderr=False).invoke(pagelogctl, words)
        self.assertEqual((done.exit_code, keeping.row().table_number), (0, 2))
        with closing(OldWriter(keeping.addresses)) as writer:
            self.assertEqual(writer.commit("old"), "1")

    def test_sqlite_of_the_older_version_and_of_this_one(self) -> None:
        keeping = self.keeping
        keeping.replace("a", is_old=False)
        enter(keeping.addresses, 5)
        enter(keeping.addresses, 5, 5, old() / "c")
        keeping.replace("b", is_old=False)
        enter(keeping.addresses, 5, 10, old() / "c")
        with closing(connected(keeping.addresses, id=3, mode="ro")) as reader:
            self.assertEqual(
                reader.execute("pragma pagelog_origin").fetchone(), ("",)
            )  # an older client does not say it
            enter(keeping.addresses, 5, 15)
            self.assertEqual(reader.execute("select count(*), max(n) from t").fetchone(), (20, 19))
            self.assertEqual(
                reader.execute("pragma pagelog_origin").fetchone(), (keeping.place().of,)
            )
        enter(keeping.addresses, 5, 20, old() / "c")


class Trailed(Beside):
    options = {"more": "trail = 3\n"}
    keepers = ("a",)

    def lists(self) -> list[tuple[int, str | None, str | None]]:
        """The generation of each list, the run that it says it is of, and why it ended."""
        with Trail(self.keeping.url, "shop", create=True) as trail:
            return [
                (one.generation, one.of and one.of.partition("/")[2], one.ended)
                for one in trail.lists()
            ]

    def test_a_list_is_gone_on_with_in_both_directions(self) -> None:
        keeping = self.keeping
        eventually(lambda: self.held()[0] == "a", "its place")
        run = self.held()[1]
        with closing(OldWriter(keeping.addresses)) as writer:
            self.assertEqual(writer.commit("1"), "1")
            for number, (is_old, of) in enumerate(((False, run), (True, run), (False, run)), 2):
                before = self.lists()
                self.begin_again(is_old)
                self.assertEqual(writer.commit(str(number)), str(number))
                eventually(
                    lambda: self.lists() == [(1, of, None)], f"the list of {before}"
                )  # noqa: B023
        eventually(
            lambda: "4 blocks hardened, 4 of them archived, which fit"
            in keeping.word("replay", "shop"),
            "all of its lines",
        )


if __name__ == "__main__":
    unittest.main()
