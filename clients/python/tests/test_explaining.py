"""explain, and the help of every word."""

from __future__ import annotations

import os
import subprocess
import sys
import tempfile
import unittest
from pathlib import Path

import pagelog
from pagelog.cli.explain import ExplainError, RequestQuestion, Table, differences, explain
from pagelog.cli.explain_all import all_differences
from service import SOURCE, TABLE, Service, token
from test_archive import words
from test_looking import ends


class Explaining(unittest.TestCase):
    def setUp(self) -> None:
        self.folder = Path(self.enterContext(tempfile.TemporaryDirectory()))

    def table(self, text: str, name: str = "table.toml") -> Table:
        (self.folder / name).write_text(text)
        return Table(self.folder / name)

    def test_which_row_decides(self) -> None:
        table = Table(TABLE)
        cases = {
            "principal 1 tidy": "row 1",
            "principal 2 write 5": "row 2",
            "principal 3 get 458752": "B3",
            "principal 3 get 458751": "row 4",
            "principal 3 pull 0..3": "row 4",
            "principal 4 advance 3": "row 5",
            "principal 4 advance 4": "B0",
            "principal 4 as page_server pull": "B0",
            "principal 4 as page_server pull 1..3": "row 5",
            "principal 5 report": "row 6",
            "principal 9 status": "A1",
            "principal 2 tidy": "B0",
            "principal 2 as primary tidy": "A5",
            "principal 1 failover 9": "row 1",
            "principal 1 set_table": "row 1",
            "principal 1 audit": "row 1",
            "principal 5 offer 1,4": "row 6",
            "principal 3 as secondary status": "row 4",
            "principal 3 as secondary write": "A5",
        }
        for words_, place in cases.items():
            decision = explain(table, RequestQuestion.parse(words_))
            self.assertEqual(
                (decision.place, decision.is_allowed), (place, place.startswith("row")), words_
            )

    def test_it_is_what_a_service_decides(self) -> None:
        """The same requests, asked of a service with the table: the verdict and the row of a denial are the same."""
        text = (
            TABLE.read_text()
            + '\n[[row]]\nverdict = "deny"\nrole = "primary"\nop = ["get"]\nfrom = 2\nto = 9\n[[row]]\nverdict = "allow"\nwho = 3\n'
        )
        table = self.table(text)
        with Service(table=text) as service, service.connection() as connection:
            for principal in range(1, 6):
                for role, operation, argument in (
                    ("primary", "get", "200000"),
                    ("secondary", "get", "458752"),
                    ("page_server", "pull", "0..3"),
                    ("page_server", "pull", "0..4"),
                    ("operator", "status", ""),
                    ("operator", "audit", ""),
                ):
                    question = RequestQuestion.parse(
                        f"principal {principal} as {role} {operation} {argument}".strip()
                    )
                    head = pagelog.request.Head(
                        principal, table.token(principal), question.role, 0, 1
                    )
                    reply = connection.ask(pagelog.request.Request(head, question.act(b"")))
                    if role == "primary" and principal != 2:
                        continue  # explain takes the one who asks for the primary
                    decision = explain(table, question)
                    denied = (
                        isinstance(reply, pagelog.reply.Denied)
                        and reply.section is not pagelog.Section.C
                    )
                    self.assertEqual(decision.is_allowed, not denied, question)
                    if denied:
                        self.assertEqual(decision.place, f"{reply.section.name}{reply.row}", question)  # type: ignore[union-attr]

    def test_a_changed_token_is_shown_as_changed_and_no_token_is(self) -> None:
        old = self.table(TABLE.read_text(), "old.toml")
        self.table(TABLE.read_text().replace(token(2), "ab" * 16), "new.toml")
        arguments = [
            "explain",
            "--diff",
            str(self.folder / "old.toml"),
            str(self.folder / "new.toml"),
        ]
        self.assertEqual(
            ends(words(*arguments), 1),
            "principal 2\n  old.toml: a token\n  new.toml: another token\n",
        )
        self.table(old.text.decode().replace(token(2), token(2).upper()), "new.toml")
        self.assertEqual(ends(words(*arguments)), "")

    def test_a_single_principal_and_many_rows(self) -> None:
        one = f'[[principal]]\nid = 0\ntoken = "{"0a" * 16}"\n'
        rows = "".join(
            f'[[row]]\nverdict = "allow"\nop = ["advance"]\nfrom = {at}\nto = {at}\n'
            for at in range(60)
        )
        table = self.table(one + '[[row]]\nverdict = "allow"\nrole = "operator"\n' + rows)
        for partition in (0, 59):
            self.assertEqual(
                explain(table, RequestQuestion.parse(f"principal 0 advance {partition}")).place,
                f"row {partition + 2}",
            )
        self.assertEqual(
            explain(table, RequestQuestion.parse("principal 0 advance 60")).place, "B0"
        )

    def test_what_differs(self) -> None:
        new = self.table(
            TABLE.read_text()
            .replace("from = 7\nto = 7", "from = 6\nto = 7")
            .replace("to = 3", "to = 4"),
            "new.toml",
        )
        asked = [
            "principal 3 get 458752",
            "principal 3 get 393216",
            "principal 4 advance 4",
            "principal 2 write 1",
            "principal 9 tidy",
        ]
        found = differences(Table(TABLE), new, [RequestQuestion.parse(words_) for words_ in asked])
        self.assertEqual(
            [(one.question.words, one.old.place, one.new.place) for one in found],
            [("principal 3 get 393216", "row 4", "B3"), ("principal 4 advance 4", "B0", "row 5")],
        )
        (self.folder / "requests").write_text("# who may\n\n" + "\n".join(asked) + "\n")
        out = ends(
            words("explain", "--diff", TABLE, self.folder / "new.toml", self.folder / "requests"),
            status=1,
        )
        self.assertEqual(out.count("principal "), 2)
        self.assertIn("t0.toml: denied by B0 NoRowMatches", out)
        ends(words("explain", "--diff", TABLE, TABLE, self.folder / "requests"))

    def test_what_differs_among_all_requests(self) -> None:
        """Row 3 denies one partition more, row 5 allows one more, and principal 5 has gone."""
        text = (
            TABLE.read_text()
            .replace("from = 7\nto = 7", "from = 6\nto = 7")
            .replace("to = 3", "to = 4")
        )
        gone = text.replace(f'[[principal]]\nid = 5\ntoken = "{token(5)}"\n', "").replace(
            "who = 5\n", "who = 2\n"
        )
        new = self.table(gone, "new.toml")
        found = [
            (one.question.words, one.old.place, one.new.place)
            for one in all_differences(Table(TABLE), new)
        ]
        of_four = [
            (f"principal 4 as page_server {words_}", "B0", "row 5")
            for words_ in ("pull 4..4", "pull 0..4", "advance 4")
        ]
        self.assertEqual([one for one in found if one[0].startswith("principal 4")], of_four)
        self.assertEqual(
            [one for one in found if one[0].startswith("principal 3")],
            [("principal 3 as secondary get 393216", "row 4", "B3")],
        )
        of_five = [one for one in found if one[0].startswith("principal 5")]
        self.assertEqual({one[1:] for one in of_five}, {("row 6", "A1")})
        self.assertIn("principal 5 as primary status", [one[0] for one in of_five])
        self.assertEqual(
            {one[0][:11] for one in found}, {"principal 3", "principal 4", "principal 5"}
        )
        self.assertEqual(list(all_differences(new, new)), [])
        with self.assertRaisesRegex(ExplainError, "fault 11"):
            list(
                all_differences(
                    new,
                    self.table(TABLE.read_text().replace("to = 3", 'to = "x"'), "no_table.toml"),
                )
            )
        one_more = self.table(TABLE.read_text().replace("to = 3", "to = 4"), "one_more.toml")
        out = ends(words("explain", "--diff", TABLE, self.folder / one_more.name), status=1)
        self.assertEqual(out.count("one_more.toml: allowed by row 5"), 3)

    def test_what_cannot_be_asked(self) -> None:
        for words_ in (
            "",
            "principal x tidy",
            "principal 3 pulls",
            "principal 3 as king pull",
            "principal 3 get 4294967296",
        ):
            with self.subTest(words_), self.assertRaises(ExplainError):
                explain(Table(TABLE), RequestQuestion.parse(words_))
        with self.assertRaisesRegex(ExplainError, "fault 12, nobody may set the table"):
            explain(
                self.table(TABLE.read_text().replace('role = "operator"', 'role = "primary"', 1)),
                RequestQuestion.parse("principal 1 tidy"),
            )
        for text in ("[[principal", "principal = 1\n", "[[principal]]\nid = 'x'\n"):
            with self.assertRaises(ExplainError):
                explain(self.table(text), RequestQuestion.parse("principal 1 tidy"))
        out = ends(words("explain", TABLE, "principal 3 pull 0..3"))
        self.assertEqual(
            out,
            "principal 3 pull 0..3: allowed by row 4 of the table: verdict allow who 3 role secondary (then the log decides: here C1 "
            "AboveTheEnd, as it is empty)\n",
        )


class Help(unittest.TestCase):
    def test_every_word_has_help_with_an_example(self) -> None:
        from click.testing import CliRunner

        from pagelog.cli.words import WORDS, pagelogctl

        for word in WORDS:
            result = CliRunner().invoke(pagelogctl, [word, "--help"])
            self.assertEqual(result.exit_code, 0, result.output)
            self.assertIn(f"pagelogctl {word}", result.output)
            self.assertRegex(result.output, r"Examples?:")
        self.assertEqual(CliRunner().invoke(pagelogctl, ["completion", "bash"]).exit_code, 0)
        self.assertEqual(CliRunner().invoke(pagelogctl, ["nothing"]).exit_code, 2)

    def test_an_output_that_is_closed_or_full(self) -> None:
        """It has the status that it would have, and no line of the source is shown."""
        word = [sys.executable, "-B", "-m", "pagelog", "completion", "bash"]
        full = "pagelogctl: .*No space left on device\n"
        for output, status, error in (
            (">&- <&-", 0, ""),
            ("2>&- >&-", 0, ""),
            (">/dev/full", 1, full),
        ):
            with self.subTest(output):
                done = subprocess.run(
                    ["sh", "-c", f'exec "$@" {output}', "sh", *word],
                    env={**os.environ, "PYTHONPATH": str(SOURCE)},
                    capture_output=True,
                    text=True,
                )
                self.assertEqual(done.returncode, status)
                self.assertRegex(done.stderr, f"^{error}$")

    def test_what_is_not_installed_is_named(self) -> None:
        self.assertRegex(
            self.verified_without("click", "postgresql:///x"),
            r"\Apagelogctl needs click.*: apt-get install .*\n\Z",
        )
        self.assertRegex(
            self.verified_without("psycopg", "postgresql:///x"),
            r"\Apagelogctl: this needs psycopg.*: apt-get install .*\n\Z",
        )

    def test_an_archive_in_a_file_needs_no_driver(self) -> None:
        self.assertEqual(
            self.verified_without("psycopg", "sqlite:///none.db"),
            "pagelogctl: NoArchive: there is no archive at this URL\n",
        )

    def verified_without(self, module: str, url: str) -> str:
        """What `verify` says of an archive where a module is not installed."""
        code = (
            "import sys; sys.path.insert(0, sys.argv[1]); sys.modules[sys.argv[2]] = None; "
            "sys.argv[:] = ['', 'verify', '--offline', '--url', sys.argv[3]]; from pagelog.command import main; main()"
        )
        done = subprocess.run(
            [sys.executable, "-B", "-c", code, str(SOURCE), module, url],
            capture_output=True,
            text=True,
        )
        self.assertEqual(done.returncode, 1)
        return done.stderr

    def test_the_library_needs_nothing(self) -> None:
        code = (
            "import sys; sys.path.insert(0, sys.argv[1]); import pagelog; print(sorted(m for m in sys.modules if m.split('.')[0] in "
            "('click', 'rich', 'psycopg', 'prometheus_client')))"
        )
        out = subprocess.run(
            [sys.executable, "-B", "-c", code, str(SOURCE)],
            capture_output=True,
            text=True,
            check=True,
        ).stdout
        self.assertEqual(out.strip(), "[]")


if __name__ == "__main__":
    unittest.main()
