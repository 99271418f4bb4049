"""Bits that rot in the files of a page server: no other page is answered than the service's, and the store is made again, or its fault named."""

from __future__ import annotations

import random
import shutil
import unittest
from contextlib import closing, suppress
from pathlib import Path
from unittest.mock import patch

import psycopg
from keepers import eventually
from pagelog import Connection, Credentials, Reader
from pagelog.errors import ConnectionLost, Unreachable
from pagelog.referee.referee import digest
from pagelog.pages.following import Follower, PageServerSettings
from pagelog.pages.metrics import PagesCollector
from pagelog.pages.process import PagesProcess, StoreFailed
from pagelog.rules import UnknownPrincipal
from service import PATIENCE, WIDE_TABLE, Service, token
from test_pages import PAGES, Log, Paged, Served, some_block

_LAST = 600
_APART = 2048
"""Bytes between two of a file that rot, at most: each block of rows has some."""


def rot(file: Path, random: random.Random, apart: int = _APART, within: int = 1 << 40) -> None:
    """A bit here and there, in the file as it is: of each stretch of so many bytes one of the first ones."""
    with file.open("r+b") as held:
        data = bytearray(held.read())
        for at in range(0, len(data), apart):
            place = min(len(data) - 1, at + random.randrange(min(apart, within)))
            data[place] ^= 1 << random.randrange(8)
        held.seek(0)
        held.write(data)


class Rotten(Paged):
    """A store by itself, beside the service."""

    def setUp(self) -> None:
        super().setUp()
        self.log = Log(_LAST, 41)
        served = self.enterContext(Service(table=WIDE_TABLE))
        with closing(served.primary()) as primary:
            list(primary.harden(self.log.made))
        self.truth = self.reader(served.address)
        pages = self.start(folder="sound")
        for end in range(100, _LAST + 1, 100):
            self.feed(pages, self.log, end)
            pages.flush()
        pages.end()

    def copied(self, name: str) -> Path:
        shutil.copytree(self.folder / "sound", self.folder / name)
        return self.folder / name

    def asks(self, pages: PagesProcess, count: int) -> int:
        """Pages at positions, those of the service where there is an answer. Returns how many answers there are."""
        connection, answers = Connection(pages.address, timeout=PATIENCE, attempts=1), 0
        reader = self.enterContext(closing(Reader(connection, Credentials.of(3, token(3)))))
        for _ in range(count):
            page = self.log.random.choice(PAGES)
            position = self.log.random.randint(0, pages.where.confirmed)
            try:
                found = reader.page(page, position)
            except (ConnectionLost, Unreachable):
                continue
            self.assertEqual(found, self.truth.page(page, position), (page, position))
            answers += 1
        return answers

    def test_no_other_page_is_answered_while_it_runs(self) -> None:
        failed = 0
        for n in range(3):
            folder = self.copied(f"running{n}")
            pages = self.start("--cache", "1", folder=folder.name)
            self.assertEqual(pages.ask().damage, "")
            answered = self.asks(pages, n)
            self.assertEqual(answered, n)
            for file in folder.glob("*.sst"):
                rot(file, self.log.random)
            failed += 30 - self.asks(pages, 30)
            damage = pages.ask().damage
            self.assertIn("Corruption: ", damage)
            self.assertNotIn("\n", damage)
            self.asks(pages, 5)
            self.assertEqual(pages.ask().damage, damage, "the first")
            pages.kill()
        self.assertGreater(failed, 60)

    def test_no_other_page_is_answered_after_it_was_stopped(self) -> None:
        """One bit, or some, in one of its files, of each kind."""
        named, opened, answers = 0, 0, 0
        for n in range(20):
            folder = self.copied(f"stopped{n}")
            files = sorted(file for file in folder.iterdir() if file.stat().st_size)
            file = self.log.random.choice(files)
            rot(file, self.log.random, self.log.random.choice((_APART, 1 << 40)))
            try:
                pages = self.start(folder=folder.name)
            except StoreFailed as error:
                self.assertRegex(
                    str(error), "Corruption|No such file|Invalid argument|IO error", file.name
                )
                named += 1
                continue
            self.assertLessEqual(pages.where.confirmed, _LAST)
            opened += 1
            answers += self.asks(pages, 10)
            pages.kill()
            shutil.rmtree(folder)
        self.assertGreater(named, 3)
        self.assertGreater(opened, 3)
        self.assertGreater(answers, 30)

    def test_what_is_merged_is_read_with_its_sums(self) -> None:
        folder = self.copied("merged")
        pages = self.start(folder=folder.name)
        for file in folder.glob("*.sst"):
            rot(file, self.log.random)
        blocks, chain = self.log.blocks, self.log.chains[-1]
        with self.assertRaisesRegex(StoreFailed, "Corruption: "):
            for _ in range(20):  # in the end files are merged
                block = some_block(len(blocks) + 1, self.log.random).data
                chain = digest(chain, [block])
                blocks = [*blocks, block]
                pages.add([block], chain)
                pages.flush()


class Again(Served):
    """Under a keeper, which has all that rots."""

    def setUp(self) -> None:
        super().setUp()
        self.enterContext(patch("pagelog.pages.following._FLUSH", 0.0))
        with self.keeping.primary() as primary:
            self.positions = [self.commit(primary, n) for n in range(12)]

    def store_of(self, run: str) -> Path:
        [found] = self.folder.glob(f"*.{run}")
        return found

    def all_on_the_disk(self) -> tuple[str, str]:
        """Begins a page server. Its run and address, once nothing is in its memory alone."""
        self.servers()
        found = self.follows_to(self.positions[-1])

        def is_there() -> bool:
            with psycopg.connect(self.keeping.url, autocommit=True) as session:
                [[persisted]] = session.execute(
                    "SELECT persisted FROM pagelog_pages WHERE log = %s", (self.keeping.row().id,)
                ).fetchall()
                return bool(persisted == self.positions[-1])

        eventually(is_there, "that all is on the disk")
        return found

    def rots(self, run: str, kind: str = "*.sst", apart: int = 64, within: int = 64) -> None:
        for file in self.store_of(run).glob(kind):
            rot(file, random.Random(7), apart, within)

    def damages(self) -> float:
        """As its metrics have it."""
        collector = PagesCollector(self.made.states, self.made.damages, None)
        return sum(
            sample.value
            for metric in collector.collect()
            for sample in metric.samples
            if sample.name == "pagelog_pages_damaged" and sample.labels == {"name": "shop"}
        )

    def said_once(self, what: str) -> None:
        found = [each for each in self.said if what in each]
        self.assertEqual(len(found), 1, self.said)
        self.assertIn("Corruption: ", found[0])

    def is_made_again(self, run: str) -> None:
        """And has all; nothing else is left of it."""
        position = self.positions[-1]
        eventually(
            lambda: [each for each in self.entries() if each[0] != run and each[2] == position]
            != [],
            f"another: {self.said}",
        )
        [(fresh, address, _)] = self.entries()
        reader = self.reader(fresh, address)

        def is_right() -> bool:
            with suppress(ConnectionLost, Unreachable):
                for n, position in enumerate(self.positions):
                    self.assertEqual(reader.page(n % 4, position).data[:8], b"%08d" % n)
                return True
            return False  # it has no table yet

        eventually(is_right, "all of its pages")
        self.assertEqual(([*self.folder.glob(f"*.{run}*")], self.asides()), ([], []))
        self.said_once("its store is damaged, and made again")
        self.assertEqual(self.damages(), 1)

    def test_it_is_made_again_and_nobody_is_given_another_page(self) -> None:
        run, address = self.all_on_the_disk()
        self.assertEqual(self.damages(), 0)
        self.rots(run)
        reader, failed = self.reader(run, address), 0
        with self.keeping.reader() as led:
            for n, position in enumerate(self.positions):
                try:
                    self.assertEqual(reader.page(n % 4, position).data[:8], b"%08d" % n)
                except (ConnectionLost, Unreachable, UnknownPrincipal):
                    failed += 1
                self.assertEqual(led.page(n % 4, position).data[:8], b"%08d" % n)
        self.assertGreater(failed, 0)
        self.is_made_again(run)

    def test_it_is_made_again_where_its_files_cannot_be_merged(self) -> None:
        run, _ = self.all_on_the_disk()
        self.rots(run, apart=1 << 40, within=16)  # so that it can be opened
        # Of one that takes nothing more it is not seen in the end of what it has taken.
        never = patch.object(Follower, "_see_damage", lambda _: None)
        with never, self.keeping.primary() as primary:

            def is_said() -> bool:
                """A file comes with each."""
                self.positions.append(self.commit(primary, len(self.positions)))
                return any("made again" in each for each in self.said)

            eventually(is_said, f"that files are merged: {self.said}")
        self.is_made_again(run)

    def test_one_that_cannot_be_opened_is_named_until_it_is_moved_away(self) -> None:
        run, _ = self.all_on_the_disk()
        self.made.end()
        self.serving.join()
        self.rots(run, "MANIFEST-*")
        attempts, start = list[Path](), PageServerSettings.start

        def counted(settings: PageServerSettings, store: Path, identity: str) -> PagesProcess:
            attempts.append(store)
            return start(settings, store, identity)

        with patch.object(PageServerSettings, "start", counted):
            self.servers()
            eventually(lambda: len(attempts) > 3, "that it tries again and again")
            store = self.store_of(run)
            self.said_once(
                f"it waits: {store} cannot be opened, and another is made once it is moved"
            )
            self.assertEqual(self.damages(), 1)
            store.rename(self.folder / "kept")
            eventually(lambda: "shop" in self.made.states(), f"another: {self.said}")
            self.assertEqual(self.follows_to(self.positions[-1])[0], run)
        self.said_once("cannot be opened")
        self.assertEqual([each for each in self.said if "made again" in each], [])


if __name__ == "__main__":
    unittest.main()
