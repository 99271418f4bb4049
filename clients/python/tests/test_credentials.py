"""Credentials come from a file that nobody else may read, or from the environment."""

from __future__ import annotations

import os
import tempfile
import unittest
from pathlib import Path

from pagelog import Address, Credentials, CredentialsError, Role, load
from pagelog.errors import TableError
from pagelog.tables import TableText
from service import token

GOOD = f'[primary]\nto = "127.0.0.1:7400"\nid = 2\ntoken = "{token(2)}"\n'


class Files(unittest.TestCase):
    def setUp(self) -> None:
        self.file = Path(self.enterContext(tempfile.TemporaryDirectory())) / "credentials.toml"

    def write(self, text: str, mode: int = 0o600) -> Path:
        self.file.write_text(text)
        self.file.chmod(mode)
        return self.file

    def test_a_file(self) -> None:
        accounts = load(
            self.write(GOOD + '[archive]\nurl = "sqlite://"\n[service]\naudit = 1000\n'), {}
        )
        account = accounts.account(Role.PRIMARY)
        self.assertEqual((account.to, account.credentials.id), (Address("127.0.0.1", 7400), 2))
        self.assertEqual(account.credentials.token, b"\x22" * 16)
        self.assertEqual((accounts.archive_url, accounts.audit_limit), ("sqlite://", 1000))
        self.assertNotIn("22222222", repr(accounts))
        with self.assertRaisesRegex(CredentialsError, "operator"):
            accounts.account(Role.OPERATOR)

    def test_keep_is_a_number_of_bases_also_in_quotes_or_a_time(self) -> None:
        for said, meant in (("3", 3), ('"3"', 3), ('"12h"', "12 hours"), ('"7 d"', "7 days")):
            with self.subTest(said):
                self.assertEqual(
                    load(self.write(f"[archive]\nkeep = {said}\n"), {}).archive_keep, meant
                )
        for said in ("0", '"0"', '"-1"', '"1.5"', '""', "true", '"1234567"'):
            with self.subTest(said), self.assertRaisesRegex(
                CredentialsError, "keep is a number of bases, or a time as 12h or 7d"
            ):
                load(self.write(f"[archive]\nkeep = {said}\n"), {})

    def test_a_file_that_others_may_read_is_refused(self) -> None:
        for mode in (0o640, 0o604, 0o622, 0o644, 0o660, 0o700 | 0o001):
            with self.subTest(oct(mode)), self.assertRaisesRegex(CredentialsError, "chmod 600"):
                load(self.write(GOOD, mode), {})
        for mode in (0o600, 0o400, 0o700):
            self.assertEqual(
                load(self.write(GOOD, mode), {}).account(Role.PRIMARY).credentials.id, 2
            )

    def test_what_is_wrong_with_a_file(self) -> None:
        cases = {
            "no TOML": "[primary",
            "a section too many": GOOD + "[other]\n",
            "no token": "\n".join(GOOD.splitlines()[:-1]),
            "a key too many": GOOD + "more = 1\n",
            "a short token": GOOD.replace("22", "2"),
            "an id that is a word": GOOD.replace("= 2", '= "2x"'),
            "no address": GOOD.replace(":7400", ""),
            "a token of other digits": GOOD.replace("22", "2g", 1),
            "no section": 'primary = "x"\n',
            "an audit list of nothing": GOOD + "[service]\naudit = 0\n",
            "a quorum that is no whole number": GOOD + "[service]\nquorum = 2.0\n",
            "a quorum that is a list": GOOD + "[service]\nquorum = [2]\n",
        }
        cases |= {
            "a number of many digits": "id = " + "9" * 5000,
            "brackets within brackets": "id = " + "[" * 5000,
        }
        for name, text in cases.items():
            with self.subTest(name), self.assertRaises(CredentialsError):
                load(self.write(text), {})
            if "id = " in text[:5]:
                self.assertRaises(TableError, TableText, text)
        for file in ("none", "a\0b"):
            with self.assertRaises(CredentialsError):
                load(self.file.parent / file, {})

    def test_the_environment(self) -> None:
        environment = {
            "PAGELOG_CREDENTIALS": str(self.write(GOOD)),
            "PAGELOG_PRIMARY_TOKEN": token(9),
            "PAGELOG_OPERATOR_TO": "h:1",
            "PAGELOG_OPERATOR_ID": "1",
            "PAGELOG_OPERATOR_TOKEN": token(1),
        }
        accounts = load(None, environment)
        self.assertEqual(accounts.account(Role.PRIMARY).credentials, Credentials.of(2, token(9)))
        self.assertEqual(accounts.account(Role.OPERATOR).to, Address("h", 1))
        del environment["PAGELOG_OPERATOR_ID"]
        with self.assertRaises(CredentialsError):
            load(None, environment)
        self.assertEqual(load(None, {}).of_role, {})

    def test_credentials(self) -> None:
        for id, digits in (
            (-1, token(1)),
            (1 << 32, token(1)),
            (True, token(1)),
            (1, token(1)[:-2]),
            (1, " " + token(1)[1:]),
        ):
            with self.assertRaises(CredentialsError):
                Credentials.of(id, digits)
        with self.assertRaises(CredentialsError):
            Credentials.of(1, None)  # type: ignore[arg-type]
        with self.assertRaises(CredentialsError):
            Credentials(1, "0123456789abcdef")  # type: ignore[arg-type]

    def test_a_file_that_is_not_there_is_named(self) -> None:
        with self.assertRaisesRegex(CredentialsError, "No such file"):
            load(os.path.join(self.file.parent, "none.toml"), {})


if __name__ == "__main__":
    unittest.main()
