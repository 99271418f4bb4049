"""Tables of principals that are sealed in PostgreSQL: nobody gets a token of a dump, and who has not the key says so."""

from __future__ import annotations

import os
import re
import secrets
import subprocess
import tempfile
import unittest
from pathlib import Path

import psycopg
from click.testing import CliRunner

from keepers import Keeping, eventually, new_url
from pagelog import NamedPrimary
from pagelog.cli.words import pagelogctl
from pagelog.errors import CredentialsError, TableError
from pagelog.referee.referee import Referee, Sealed
from pagelog.referee.sealed import INSTEAD, Keys, NoKey, Stored, id_of
from pagelog.keeper.table import read_table
from postgres import programs
from service import PATIENCE, WIDE_TABLE, put, token
from torture_secrets import Secrets, Sought

ONE, OTHER = "00000000-0000-4000-8000-000000000001", "00000000-0000-4000-8000-000000000002"


def new_key() -> str:
    return secrets.token_hex(32)


class Stores(unittest.TestCase):
    def setUp(self) -> None:
        self.file = Path(self.enterContext(tempfile.TemporaryDirectory())) / "keys"

    def write(self, *lines: str, mode: int = 0o600) -> Keys:
        fresh = self.file.with_name("new")
        fresh.write_text("\n".join(lines) + "\n")
        fresh.chmod(mode)
        fresh.replace(self.file)
        return Keys(self.file)

    def test_it_is_read_by_its_key_for_its_database_and_as_it_was(self) -> None:
        keys = self.write(new_key())
        stored = keys.store(ONE, "text", b"secret")
        self.assertEqual((stored.text, stored.secret, stored.key), (INSTEAD, b"", keys.ids[0]))
        self.assertEqual(keys.open(ONE, stored), ("text", b"secret"))
        self.assertNotEqual(stored.sealed, keys.store(ONE, "text", b"secret").sealed)
        assert stored.sealed is not None
        with self.assertRaises(TableError):
            read_table(stored.text)  # an older keeper takes it for no table
        for identity, sealed in (
            (OTHER, stored.sealed),
            *((ONE, _turned(stored.sealed, at)) for at in (0, 12, len(stored.sealed) - 1)),
            (ONE, b""),
        ):
            with self.assertRaisesRegex(NoKey, "is not what was sealed"):
                keys.open(identity, Stored(INSTEAD, b"", sealed, stored.key))
        with self.assertRaisesRegex(NoKey, "no .archive. key_file is named"):
            Keys().open(ONE, stored)
        with self.assertRaisesRegex(NoKey, "has it not"):
            self.write(new_key()).open(ONE, stored)
        self.assertEqual(Keys().store(ONE, "text", b"secret"), Stored("text", b"secret"))

    def test_one_key_follows_another_and_the_file_is_read_again(self) -> None:
        first, second = new_key(), new_key()
        keys = self.write(first)
        before = keys.store(ONE, "text", b"")
        self.write(second, first)
        after = keys.store(ONE, "text", b"")
        self.assertEqual(
            [before.key, after.key], [id_of(bytes.fromhex(key)) for key in (first, second)]
        )
        self.assertEqual(keys.open(ONE, before), keys.open(ONE, after))
        self.write(second)
        self.assertEqual(keys.open(ONE, after), ("text", b""))
        with self.assertRaises(NoKey):
            keys.open(ONE, before)

    def test_a_file_that_is_none_is_refused(self) -> None:
        for lines, mode, why in (
            ((new_key(),), 0o640, "others may read"),
            ((), 0o600, "64 hexadecimal"),
            ((new_key()[1:],), 0o600, "64 hexadecimal"),
            (("ü" * 64,), 0o600, "64 hexadecimal"),
        ):
            with self.subTest(why), self.assertRaisesRegex(CredentialsError, why):
                self.write(*lines, mode=mode).ids
        self.file.unlink()
        with self.assertRaisesRegex(CredentialsError, "No such file"):
            Keys(self.file).ids


def _turned(sealed: bytes, at: int) -> bytes:
    return sealed[:at] + bytes([sealed[at] ^ 1]) + sealed[at + 1 :]


class Seeking(unittest.TestCase):
    def test_a_secret_is_found_in_both_forms_at_each_place_and_only_whole(self) -> None:
        some = [new_key()[:32], new_key()]
        sought = Sought(some)
        for secret in some:
            for form in (secret.encode(), bytes.fromhex(secret)):
                for before in range(20):
                    for after in range(10):
                        there = b"x" * before + form + b"y" * after
                        self.assertEqual(sought.in_text(there), [secret])
                self.assertEqual(sought.in_text(b"x" + form[:-1] + b"z"), [])
        self.assertEqual(sought.in_text(b""), [])


class Kept(unittest.TestCase):
    def setUp(self) -> None:
        self.keeping = self.enterContext(Keeping(ttl=1.0, url=new_url()))
        self.plain = self.keeping.folder / "plain.toml"
        self.plain.touch(mode=0o600)
        self.plain.write_text(self.keeping.file.read_text())
        self.secrets = Secrets(self.keeping)
        self.keys, self.first, self.second = (
            self.secrets.keys,
            self.secrets.keys.read_text().strip(),
            new_key(),
        )

    def write(self, *lines: str) -> None:
        self.keys.touch(mode=0o600)
        self.keys.write_text("\n".join(lines) + "\n")

    def failed(self, *words: object) -> str:
        done = CliRunner().invoke(
            pagelogctl, [*map(str, words), "--credentials", str(self.keeping.file)]
        )
        self.assertNotEqual(done.exit_code, 0, done.output)
        return done.output

    def primary(self, token: str) -> NamedPrimary:
        return NamedPrimary(
            "shop",
            self.keeping.addresses,
            2,
            token,
            (1, "11" * 16),
            patience=PATIENCE,
            timeout=PATIENCE,
        )

    def commit(self, token: str, text: str) -> None:
        with self.primary(token) as primary:
            primary.append(put(0, text.encode()))
            primary.commit(durable=True)

    def dump(self) -> str:
        """All that PostgreSQL has, as a dump shows it."""
        environment = {**os.environ, "PATH": f"{programs()}:{os.environ['PATH']}"}
        return subprocess.run(
            ["pg_dump", "-d", self.keeping.url],
            check=True,
            capture_output=True,
            text=True,
            env=environment,
        ).stdout

    def looks_for(self, *found: str) -> list[str]:
        """Which of these a dump has."""
        dump = self.dump()
        return [each for each in found if each in dump]

    def secret(self) -> str:
        referee = Referee(self.keeping.url, keys=Keys(self.keys))
        self.addCleanup(referee.close)
        return referee.table(self.keeping.row().id).secret.hex()

    def test_a_dump_has_no_token_and_one_key_follows_another(self) -> None:
        keeping = self.keeping
        keeping.word("create", "shop", "--table", keeping.table)
        keeping.start("a", "b")
        self.commit(token(2), "1")
        eventually(lambda: keeping.standbys() != {}, "a standby")
        keeping.word("switchover", "shop")
        self.commit(token(2), "2")
        out = keeping.folder / "new.toml"
        keeping.word("token", "shop", 2, "--new", "--out", out)
        [new] = re.findall(r'token = "(\w+)"', out.read_text())
        self.commit(new, "3")
        keeping.word("restore", "shop", "--at", 2, "--as", "copy")
        eventually(lambda: keeping.row("copy").address is not None, "a service of the copy")
        tokens = (new, self.secret(), *re.findall(r'token = "(\w+)"', WIDE_TABLE))
        self.assertEqual(self.looks_for(*tokens), [])
        out.unlink()
        self.assertEqual(self.secrets.found(), [])
        self.assertGreater(self.secrets.count, 2 + 2 * 4 + 2 * 4)
        self.write(self.second, self.first)
        eventually(
            lambda: [
                name
                for name in "ab"
                if id_of(bytes.fromhex(self.second)) in str(self.reports()[name])
            ]
            == ["a", "b"],
            "the new key",
        )
        self.assertIn("copy is sealed by key", keeping.word("seal"))
        self.assertEqual(keeping.word("seal"), "")
        self.write(self.second)
        keeping.word("rollover", "shop")
        self.commit(new, "4")
        self.assertEqual(
            (self.looks_for(*tokens), self.looks_for(id_of(bytes.fromhex(self.first)))), ([], [])
        )
        self.assertIn("shop is plain", keeping.word("seal", "--plain"))
        self.assertEqual(self.looks_for(new), [new])
        self.assertEqual(
            {each for each in self.secrets.found() if "token of principal 2 of shop" in each},
            {"the token of principal 2 of shop is in a row of pagelog_table"},
        )

    def reports(self) -> dict[str, object]:
        return {each.name: each.report for each in self.keeping.referee.everything().keepers}

    def test_a_keeper_without_the_key_says_so_and_nothing_is_sealed_while_it_lives(self) -> None:
        keeping = self.keeping
        keeping.word("create", "shop", "--table", keeping.table)
        keeping.start("a")
        self.commit(token(2), "1")
        keeping.file, sealed = self.plain, keeping.file
        keeping.start("c")
        keeping.file = sealed
        self.assertIn(
            "keeper c has not key", self.failed("create", "ship", "--table", keeping.table)
        )
        keeping.table.write_text(keeping.table.read_text().replace(token(3), "ab" * 16))
        self.assertIn(
            "keeper c has not key", self.failed("table", "shop", "--table", keeping.table)
        )
        keeping.kill("a")
        eventually(
            lambda: "key_file is named" in (keeping.folder / "c.log").read_text(), "what it lacks"
        )
        self.assertEqual(keeping.row().holder, "a")
        keeping.start("a")
        self.commit(token(2), "2")
        keeping.file = self.plain
        self.assertIn("and no [archive] key_file is named", self.failed("table", "shop", "--show"))

    def test_what_is_sealed_is_nothing_in_the_row_of_another_database(self) -> None:
        keeping = self.keeping
        for name in ("shop", "ship"):
            keeping.word("create", name, "--table", keeping.table)
        with psycopg.connect(keeping.url, autocommit=True) as session:
            session.execute(
                "UPDATE pagelog_table SET sealed = (SELECT sealed FROM pagelog_table t JOIN pagelog_log l ON l.id = t.log AND l.name = 'ship') "
                "WHERE log = (SELECT id FROM pagelog_log WHERE name = 'shop')"
            )
        referee = Referee(keeping.url, keys=Keys(self.keys))
        self.addCleanup(referee.close)
        with self.assertRaisesRegex(Sealed, "is not what was sealed"):
            referee.table(keeping.row("shop").id)
        self.assertEqual(referee.table(keeping.row("ship").id).text, keeping.table.read_text())


if __name__ == "__main__":
    unittest.main()
