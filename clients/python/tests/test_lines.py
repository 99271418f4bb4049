"""The words of docs/LINES.md are those that keepers and both clients know."""

from __future__ import annotations

import ast
import re
import unittest
from dataclasses import replace
from pathlib import Path

from pagelog import place
from pagelog.following import NamedAccount
from pagelog.keeper import lines
from pagelog.run_tokens import proof_of
from service import SOURCE

ROOT = Path(__file__).resolve().parents[3]
PAGE = (ROOT / "docs" / "LINES.md").read_text()
PYTHON, C = SOURCE / "pagelog", ROOT / "clients" / "c"
KEEPER = (
    "lines",
    "fronted",
    "places",
    "waits",
    "turns",
    "fates",
    "database",
    "ending",
    "keeping",
    "shared",
    "page_servers",
    "confirmations",
)
CLIENT_C = (
    "pagelog_place.c",
    "pagelog_words.c",
    "pagelog_fate.c",
    "pagelog_page_servers.c",
    "pagelog_line.c",
    "pagelog_turn.c",
    "pagelog_proof.c",
)


def table(heading: str) -> list[list[str]]:
    """The rows of the table under a heading."""
    part = PAGE.partition(f"## {heading}\n")[2].partition("\n## ")[0]
    rows = [
        [cell.strip() for cell in row.strip("|").split("|")]
        for row in part.splitlines()
        if row.startswith("|")
    ]
    return rows[2:]


def spelt(cells: list[str]) -> set[str]:
    """The first words of the lines in these cells."""
    return {found.split()[0] for cell in cells for found in re.findall(r"`([a-z][^`]*)`", cell)}


ASKED = spelt([row[0] for row in table("Words")]) - {"now", "mine", "heartbeat", "slices", "of"}
TOLD = spelt([row[1] for row in table("Words")]) - {
    "where",
    "or",
    "other",
    "kept",
    "now",
    "heartbeat",
}
KEYS = {row[0] for row in table("Greeting, and how lines grow")}
REASONS = {row[0].strip("`") for row in table("Lost")}


def cases(file: Path, function: str) -> set[str]:
    """The words with which the patterns of a function begin."""
    [found] = [
        node
        for node in ast.walk(ast.parse(file.read_text()))
        if isinstance(node, ast.FunctionDef) and node.name == function
    ]
    patterns = [
        case.pattern.patterns[0]
        for node in ast.walk(found)
        if isinstance(node, ast.Match)
        for case in node.cases
        if isinstance(case.pattern, ast.MatchSequence)
    ]
    values = [
        each
        for pattern in patterns
        for each in (pattern.patterns if isinstance(pattern, ast.MatchOr) else [pattern])
    ]
    return {
        each.value.value
        for each in values
        if isinstance(each, ast.MatchValue) and isinstance(each.value, ast.Constant)
    }


def source(*files: Path) -> str:
    """Their text, in one line."""
    text = re.sub(r"\s+", " ", "\n".join(file.read_text() for file in files))
    return re.sub(r"(?<=[(\[{]) ", "", text)


def said_by_keepers() -> set[str]:
    """The first words of what a keeper's modules say, or return to be said."""
    text = source(*(PYTHON / "keeper" / f"{name}.py" for name in KEEPER))
    return (
        set(re.findall(r'\bsay\(\s*"([a-z]+)"', text))
        | set(re.findall(r'return \("([a-z]+)", name', text))
        | set(re.findall(r'return \("([a-z]+)" if', text))
        | set(re.findall(r'else "([a-z]+)", name\)', text))
    )


class Words(unittest.TestCase):
    def test_a_keeper_answers_what_the_page_has(self) -> None:
        self.assertEqual(cases(Path(lines.__file__), "answer"), ASKED)

    def test_a_keeper_says_what_the_page_has(self) -> None:
        self.assertEqual(said_by_keepers(), TOLD)

    def test_the_client_of_python_asks_and_reads_no_other_words(self) -> None:
        text = source(PYTHON / "place.py", PYTHON / "following.py")
        asked = set(re.findall(r'(?:\(\(?|return )"([a-z]+)", self\._?name', text)) | set(
            re.findall(r'f"(hello) ', text)
        )
        self.assertEqual(asked, ASKED - {"turn", "back", "hold", "confirmed"})
        bell = (PYTHON / "pages" / "bell.py").read_text()
        self.assertEqual(set(re.findall(r'f"([a-z]+) \{self\._name\}', bell)), {"confirmed"})
        self.assertEqual(set(re.findall(r'words\[:2\] != \["([a-z]+)"', bell)), {"confirmed"})
        read = (
            set(re.findall(r'case \["([a-z]+)"', text))
            | set(re.findall(r'words\[0\] == "([a-z]+)"', text))
            | set(re.findall(r'\[:1\] == \["([a-z]+)"\]', text))
        )
        self.assertEqual(
            read,
            TOLD - {"elsewhere", "denied", "what", "turn", "busy", "soon", "wanted", "confirmed"},
        )

    def test_the_client_of_c_asks_and_reads_no_other_words(self) -> None:
        text = "\n".join((C / name).read_text() for name in CLIENT_C)
        asked = set(re.findall(r'"(where|durable|hello|prove|pages) ', text)) | set(
            re.findall(r'say\(turn, "([a-z]+)"', text)
        )
        self.assertEqual(
            asked, {"hello", "prove", "where", "durable", "pages", "turn", "back", "hold"}
        )
        self.assertLessEqual(asked, ASKED)
        read = set(re.findall(r'strcmp\(words?(?:\[0\])?, "([a-z]+)"\)', text)) | set(
            re.findall(r'sscanf\(answer, "([a-z]+) ', text)
        )
        self.assertEqual(
            read,
            {
                "hello",
                "at",
                "unknown",
                "over",
                "durable",
                "lost",
                "pages",
                "turn",
                "busy",
                "soon",
                "wanted",
                "what",
            },
        )
        self.assertLessEqual(read, TOLD)

    def test_all_know_the_same_keys_and_reasons(self) -> None:
        keeper = source(*(PYTHON / "keeper" / f"{name}.py" for name in KEEPER))
        python, c = source(PYTHON / "place.py"), source(*(C / name for name in CLIENT_C))
        self.assertEqual(set(re.findall(r'Key\(f"([a-z]+)=', keeper)), KEYS)
        self.assertLessEqual(set(re.findall(r'keys(?:\.get\(|\[)"([a-z]+)"', python)), KEYS)
        self.assertLessEqual(set(re.findall(r'value_of\(words, count, "([a-z]+)"\)', c)), KEYS)
        reasons = (PYTHON / "referee" / "fate.py").read_text()
        self.assertEqual(set(re.findall(r'^    [A-Z]+ = "([a-z]+)"$', reasons, re.M)), REASONS)
        self.assertEqual(
            set(re.findall(r'"lost", _, _, "([a-z]+)"', python)) | {"superseded"}, REASONS
        )
        self.assertEqual(
            set(re.findall(r'strcmp\(words\[3\], "([a-z]+)"\)', c)) | {"superseded"}, REASONS
        )

    def test_keys_that_a_client_does_not_know_are_passed_over(self) -> None:
        """So `at` grows. What has its place does not, and lines of version 1 have no keys."""
        at, of = "at shop 7 run7 127.0.0.1:11 5 127.0.0.1:2 3 4 2", f"of={'0' * 8}/run7"
        known = place._place(f"{at} {of}".split())
        for told in (f"{at} color=red {of} taste=a=b later=", f"{at} {of} color=red"):
            self.assertEqual(place._place(told.split()), known, told)
        assert known is not None
        self.assertEqual((known.generation, known.run, known.database), (7, "run7", "0" * 8))
        self.assertEqual(place._place(at.split()), replace(known, database=""))

    def test_a_proof_is_that_of_the_page(self) -> None:
        """That of clients/c is compared with it too."""
        [nonce] = re.findall(r"hello 2 nonce=([0-9a-f]{32})", PAGE)
        [(key, proof)] = re.findall(r"token ([0-9a-f]{32})[^`]*`(prove [^`]*)`", PAGE)
        _, name, id, code, of = proof.split()
        self.assertEqual(
            proof_of(bytes.fromhex(key), nonce, name, int(id), of.removeprefix("of=")), code
        )
        self.assertEqual(
            NamedAccount(name, int(id), key).prove(nonce, of.removeprefix("of=")),
            ("prove", name, int(id), code, of),
        )

    def test_both_clients_and_keepers_are_of_the_version_of_the_page(self) -> None:
        [page] = set(re.findall(r"`hello (\d+)`", PAGE))
        [c] = re.findall(r"PAGELOG_LINES_VERSION = (\d+)", (C / "pagelog_line.h").read_text())
        [greeting] = re.findall(r'greeting\[\] = "hello (\d+)', (C / "pagelog_line.c").read_text())
        [python] = re.findall(r"^VERSION = (\d+)$", (PYTHON / "place.py").read_text(), re.M)
        self.assertEqual({page, c, greeting, python}, {str(lines.VERSION)})


if __name__ == "__main__":
    unittest.main()
