"""What a wiretap hears at each public socket of a keeper and of a page server: of clients in Python and of SQLite, through a succession."""

from __future__ import annotations

import tempfile
import threading
import unittest
from contextlib import closing
from pathlib import Path
from unittest.mock import patch

import pages_program
import tapped
from keepers import Keeping, eventually
from pagelog import Put
from pagelog.referee.referee import Referee
from pagelog.keeper.table import token_of
from pagelog.referee.ways import Way
from pagelog.pages.following import PageServerSettings
from pagelog.pages.process import PagesProcess, Serving
from pagelog.pages.serving import PageServers
from pagelog.secure import Trust
from secured import Secured
from service import token
from sqlite_named import connected

NAMES = "shop", "lite"
PAGE, ROW = b"words of a page that nobody may see", "a row that nobody may see"
WORDS = b"where shop", b"durable shop", b"where lite", b"pages lite", b"prove lite"


class Life(unittest.TestCase):
    """An hour of two databases' lives in small: opened, written, read, durable, through a succession, and read at a page server."""

    def lived(self, keeping: Keeping, trust: Trust | None) -> tuple[bytes, set[bytes]]:
        """All that the wiretap has heard, and the tokens of each run."""
        self.keeping, self.trust = keeping, trust
        self.addCleanup(lambda: None if self._outcome.success else print(keeping.said()))  # type: ignore[attr-defined]
        self.heard = Path(self.enterContext(tempfile.TemporaryDirectory(prefix="pagelog-tap-")))
        keeping.keeper = ("-B", Path(tapped.__file__), self.heard)
        for name in NAMES:
            self.assertTrue(keeping.referee.create(name, keeping.table.read_text(), b"s" * 16))
        keeping.start("a")
        self.addresses = (
            keeping.secure_addresses if isinstance(keeping, Secured) else keeping.addresses
        )
        self.runs: set[tuple[str, str]] = set()
        self.write(1)
        for name in NAMES:
            before = keeping.row(name).generation
            keeping.word("rollover", name)
            eventually(
                lambda: keeping.row(name).generation > before  # noqa: B023
                and keeping.row(name).address is not None,  # noqa: B023
                "the next generation",
            )
        self.write(2)
        self.read_copies()
        tokens = {bytes.fromhex(token(id)) for id in (1, 2, 3)}
        tokens |= {
            token_of(bytes.fromhex(token(id)), name, run)
            for name, run in self.runs
            for id in (1, 2, 3)
        }
        tokens |= {token_of(b"s" * 16, name, run) for name, run in self.runs}
        files = [file for file in self.heard.iterdir() if file.stat().st_size]
        ports = {file.name.partition(".")[0] for file in files}
        self.assertGreaterEqual(len(ports), 7, "lines, four runs, two page servers")
        return b"\n".join(file.read_bytes() for file in files), tokens

    @property
    def by(self) -> dict[str, object]:
        """For SQLite."""
        return {} if self.trust is None else {"sslrootcert": self.keeping.certificates.ca}  # type: ignore[attr-defined]

    def write(self, number: int) -> None:
        with self.keeping.primary(keepers=self.addresses, trust=self.trust) as writer:
            writer.append(Put(number, 0, PAGE))
            position = writer.commit(durable=True)
        with self.keeping.reader(
            keepers=self.addresses, trust=self.trust, durable_only=True
        ) as reader:
            self.assertEqual(reader.page(number, position).data[: len(PAGE)], PAGE)
        with closing(connected(self.addresses, name="lite", **self.by)) as writer:
            writer.execute("create table if not exists t(n, x)")
            writer.execute("insert into t values(?, ?)", (number, ROW))
        with closing(connected(self.addresses, id=3, name="lite", mode="ro", **self.by)) as reader:
            self.assertEqual(
                reader.execute("select x from t where n = ?", (number,)).fetchall(), [(ROW,)]
            )
        for name in NAMES:
            self.runs.add((name, str(self.keeping.row(name).run)))

    def read_copies(self) -> None:
        """At a page server alone."""
        tap, addresses = tapped.Tap(self.heard), PagesProcess._addresses

        def told(self: PagesProcess, *found: str) -> tuple[str, Way | None]:
            address, way = addresses(self, *found)
            by = None if way is None else Way(tap.before(way.address), way.is_only)
            return (tap.before(address) if by is None or not by.is_only else by.address), by

        self.enterContext(patch.object(PagesProcess, "_addresses", told))
        serving = None if self.trust is None else Serving(self.keeping.pair, None, True)  # type: ignore[attr-defined]
        settings = PageServerSettings(
            pages_program.program(),
            self.keeping.folder / "stores",
            "127.0.0.1",
            "here",
            ("--cache", "8", "--memtable", "1"),
            serving,
            self.trust,
        )
        made = PageServers(
            settings, lambda me: Referee(self.keeping.url, me), NAMES, lambda *_: None
        )
        thread = threading.Thread(target=made.run)
        thread.start()
        try:
            with self.keeping.reader(
                keepers=self.addresses, trust=self.trust, pages="only"
            ) as reader:
                self.assertEqual(reader.page(2, reader.end()).data[: len(PAGE)], PAGE)
            with closing(
                connected(
                    self.addresses, id=3, name="lite", mode="ro", page_servers="only", **self.by
                )
            ) as lite:
                self.assertEqual(lite.execute("select x from t").fetchall(), [(ROW,)] * 2)
            look = self.keeping.referee.everything()
            for name in NAMES:
                row = look.row(name)
                assert row is not None
                self.runs |= {(name, each.run) for each in look.pages_of(row.id)}
        finally:
            made.end()
            thread.join()


class Heard(Life):
    def test_by_tls_no_token_and_no_page_is_heard(self) -> None:
        with Secured(standby=False, also="plain = false") as keeping:
            heard, tokens = self.lived(keeping, Trust(keeping.certificates.ca))
            self.assertEqual(self.found(heard, tokens), set())
            self.assertGreater(heard.count(b"\x16\x03\x01"), 8, "handshakes")
            self.assertGreater(len(heard), 50_000)

    def test_without_it_both_are(self) -> None:
        """So that the wiretap is one: at lines, services and page servers, of both kinds of clients."""
        with Keeping(standby=False) as keeping:
            keeping.host = tapped.OWN
            heard, tokens = self.lived(keeping, None)
            wanted = {PAGE, ROW.encode(), *WORDS}
            found = self.found(heard, tokens)
            self.assertEqual(wanted - found, set())
            for name, run in self.runs:
                reads = token_of(bytes.fromhex(token(3)), name, run)
                self.assertIn(reads, found, f"{name} in {run}")

    def found(self, heard: bytes, tokens: set[bytes]) -> set[bytes]:
        secrets = {PAGE, ROW.encode(), *WORDS, *tokens, *(each.hex().encode() for each in tokens)}
        return {each for each in secrets if each in heard}


if __name__ == "__main__":
    unittest.main()
