"""Trails are exported, and pagelog-verify says whether they are of a database; what was changed it names at its line."""

from __future__ import annotations

import os
import re
import subprocess
import tempfile
import unittest
from contextlib import AbstractContextManager, nullcontext
from dataclasses import dataclass, field, replace
from pathlib import Path
from typing import Callable
from unittest import mock

import pagelog
from keepers import eventually
from pagelog import Block
from pagelog.reply import LINE_SIZE
from pagelog.trail.export import NotExportable, export
from pagelog.trail.logs import ArchivedLog
from pagelog.trail.replay import ANNULLED_BLOCK, Difference, NotReplayable, TrailReplay
from pagelog.trail.store import Start, TrailList
from pagelog_model.lines import read_lines
from pagelog_model.table import read
from service import TOP, put
from test_archive import words
from test_kept_trails import Trailed
from test_looking import ends
from test_replay import BY_BLOCKS, Random, Written

VERIFY = os.environ.get("PAGELOG_VERIFY") or str(
    TOP / "crates" / "pagelog_verify" / "out" / "pagelog_verify"
)
LINES, BLOCK, TEXT = 0, 1, 2


@dataclass
class File:
    """A trail's file: what is kept, each with its kind before it, and lines, each with the number of what it brings."""

    kept: list[bytes] = field(default_factory=list)
    lines: list[tuple[int, bytes]] = field(default_factory=list)

    @classmethod
    def of(cls, path: Path) -> File:
        found = cls()
        for text in path.read_text().splitlines():
            item = bytes.fromhex(text)
            if item[0] != LINES:
                found.kept.append(item)
                continue
            lines, count = item[12:], int.from_bytes(item[10:12], "big")
            assert item[9] == 3 and len(lines) == count * LINE_SIZE
            for at in range(0, len(lines), LINE_SIZE):
                found.lines.append((int.from_bytes(item[1:9], "big"), lines[at : at + LINE_SIZE]))
        return found

    def write(self, path: Path) -> None:
        with path.open("w") as out:
            for item in self.kept:
                out.write(item.hex() + "\n")
            for brings, line in self.lines:
                out.write((b"\0" + brings.to_bytes(8, "big") + b"\3\0\1" + line).hex() + "\n")

    def number(self, op: int, **fields: int) -> int:
        """The number of the first line of this operation with these fields."""
        for line in read_lines(b"".join(line for _, line in self.lines)):
            if line.op == op and all(getattr(line, name) == to for name, to in fields.items()):
                return line.number
        raise AssertionError((op, fields))

    def change(self, at: int, /, **fields: int) -> int:
        """Gives a line these fields; `brings` is the number of what it brings."""
        brings, data = self.lines[at - 1]
        [line] = read_lines(data)
        brings = fields.pop("brings", brings)
        self.lines[at - 1] = brings, line._replace(**fields).spelled
        return at


def verify(table: Path, primary: int, trail: Path) -> subprocess.CompletedProcess[str]:
    return subprocess.run(
        [VERIFY, "--table", table, "--primary", str(primary), "--trail", trail],
        capture_output=True,
        text=True,
    )


class Verifies(unittest.TestCase):
    """What is exported by the words that are printed is verified by those."""

    @classmethod
    def setUpClass(cls) -> None:
        super().setUpClass()
        if not os.access(VERIFY, os.X_OK):
            raise AssertionError(
                f"there is no {VERIFY}: build crates/pagelog_verify, or name the program in PAGELOG_VERIFY"
            )

    def verified(self, said: str, agrees: int = 0) -> list[str]:
        """What pagelog-verify says of each list that was exported, which it has to end so."""
        found = []
        for command in re.findall(r"^  pagelog-verify (.*)$", said, flags=re.M):
            done = subprocess.run([VERIFY, *command.split()], capture_output=True, text=True)
            self.assertEqual(done.returncode, agrees, done.stdout + done.stderr)
            found.append(done.stdout)
        return found


# What was changed.


def dropped(file: File) -> int:
    del file.lines[9]
    return 10


def doubled(file: File) -> int:
    file.lines.insert(9, file.lines[8])
    return 10


def swapped(file: File) -> int:
    file.lines[4:6] = reversed(file.lines[4:6])
    return 5


def renumbered(file: File) -> int:
    """A report and the write before it change places, and get each other's numbers."""
    at = file.number(3, a=60)
    file.lines[at - 2 : at] = reversed(file.lines[at - 2 : at])
    file.change(at - 1, number=at - 1)
    file.change(at, number=at)
    return at - 1


def text_of_another(file: File) -> int:
    """The table that is set denies the partition of the next write."""
    at = file.number(9, section=0)
    brings = file.lines[at - 1][0]
    text = file.kept[brings - 1]
    written = file.number(1, epoch=2)
    block = Block.decode(file.kept[file.lines[written - 1][0] - 1][1:])
    number = b"%d" % (block.records[0].page >> 16)
    changed = text.replace(b"from = 5\nto = 6", b"from = " + number + b"\nto = " + number)
    assert len(changed) == len(text) and changed != text
    file.kept[brings - 1] = changed
    return written


def kept_changed(file: File, lsn: int, change: Callable[[Block], Block]) -> None:
    file.kept[lsn - 1] = bytes([BLOCK]) + change(Block.decode(file.kept[lsn - 1][1:])).data


def block_of_a_denied_partition(file: File) -> int:
    kept_changed(file, 30, lambda _: Block.of(30, (put(65536 * 4, b"x"),)))
    return file.number(1, a=30)


def block_of_another_lsn(file: File) -> int:
    kept_changed(file, 30, lambda block: Block.of(31, block.records))
    return file.number(1, a=30)


def block_of_one_copy(file: File) -> int:
    """A byte of the block that the second copy was given."""
    at = file.number(1, a=30, b=1)
    block = Block.decode(file.kept[29][1:])
    file.kept.append(bytes([BLOCK]) + Block.of(30, (*block.records, pagelog.Zero(3))).data)
    return file.change(at, brings=len(file.kept))


def text_of_another_length(file: File) -> int:
    at = file.number(9, section=0)
    brings = file.lines[at - 1][0]
    file.kept[brings - 1] += b"\n"
    return at


def block_left_out(file: File) -> int:
    """What was hardened is left out of all copies, so that there is no quorum."""
    for at, (brings, line) in enumerate(file.lines):
        if brings == 30:
            file.lines[at] = 0, line
    return next(
        line.number
        for line in read_lines(b"".join(line for _, line in file.lines))
        if line.op == 3 and line.a >= 30
    )


CHANGES: dict[str, Callable[[File], int]] = {
    "a line is dropped": dropped,
    "a line is there twice": doubled,
    "two lines change places": swapped,
    "two lines change places and numbers": renumbered,
    "another number": lambda file: file.change(7, number=8),
    "an unlisted principal": lambda file: file.change(7, who=9),
    "another principal": lambda file: file.change(file.number(1, a=20), who=3),
    "another role": lambda file: file.change(file.number(1, a=20), role=2),
    "a later epoch": lambda file: file.change(file.number(1, a=20), epoch=2),
    "an earlier epoch": lambda file: file.change(file.number(1, epoch=2), epoch=1),
    "another operation": lambda file: file.change(file.number(1, a=20, b=1), op=2),
    "another position": lambda file: file.change(file.number(1, a=20), a=21),
    "a position that is reported too far": lambda file: file.change(file.number(3, a=60), a=61),
    "a copy that there is not": lambda file: file.change(file.number(1, a=20, b=1), b=3),
    "an allowed line is denied": lambda file: file.change(file.number(1, a=20), section=2),
    "a denied line is allowed": lambda file: file.change(
        file.number(4, section=3), section=0, row=0, value=0
    ),
    "another section": lambda file: file.change(file.number(4, section=3), section=2),
    "another row": lambda file: file.change(file.number(4, section=3), row=2),
    "another value": lambda file: file.change(file.number(4, section=3), value=59),
    "a failover to nobody": lambda file: file.change(file.number(8), a=9),
    "a failover that is denied": lambda file: file.change(file.number(8), section=3, row=8),
    "the length of a table": lambda file: file.change(file.number(9, section=0), a=7),
    "the text of a table": text_of_another,
    "a longer text of a table": text_of_another_length,
    "the fault of a table": lambda file: file.change(file.number(9, section=3), value=2),
    "a block of a partition that is denied": block_of_a_denied_partition,
    "a block of another position": block_of_another_lsn,
    "a block of one copy": block_of_one_copy,
    "a block of another line": lambda file: file.change(file.number(1, a=20), brings=21),
    "a text for a block": lambda file: file.change(file.number(1, a=20), brings=len(file.kept)),
    "a block that is left out": block_left_out,
}


class Changed(Verifies, Written):
    """A trail of each kind of request, exported."""

    def setUp(self) -> None:
        super().setUp()
        self.keeper.give_table(b"nothing", self.number_of(9, section=3))
        self.out = self.folder / "out"
        self.said = ends(words("trail", "shop", "--url", self.url, "--export", self.out), 0)
        self.table, self.file = self.out / "list-1.toml", self.out / "list-1.trail"

    def replayed(self, file: File) -> int | None:
        """The line at which the reference model finds a changed trail to differ, if it does."""
        texts = [item[1:] for item in file.kept if item[0] == TEXT]
        blocks = ArchivedLog(self.trail, self.archive).blocks()
        given = {at for at, (brings, _) in enumerate(file.lines, 1) if brings > 80}
        again = TrailReplay(Start(BY_BLOCKS.encode(), 2), blocks, lambda _, __: texts, given)
        try:
            for line in read_lines(b"".join(line for _, line in file.lines)):
                again.take(line)
        except Difference as error:
            return error.line
        return None

    def test_what_was_exported_agrees(self) -> None:
        kept = self.trail.lists()[-1].kept
        self.assertIn(f"list 1: wrote {kept} lines, 80 blocks and 2 texts of tables", self.said)
        [answer] = self.verified(self.said)
        self.assertEqual(
            answer,
            f"agrees: {kept} lines, 80 hardened blocks\nleft out: 0 blocks of denied writes and offers, 2 other blocks, 0 texts of tables, all tokens\n",
        )
        self.assertEqual(self.replay().unchecked, {ANNULLED_BLOCK: 2})
        file = File.of(self.file)
        self.assertIsNone(self.replayed(file))
        self.assertEqual(sum(1 for brings, _ in file.lines if brings == 30), 2)

    def test_what_was_changed_is_named_at_its_line(self) -> None:
        changed, before, found = self.folder / "changed", File.of(self.file), 0
        lines = [line for _, line in before.lines]
        for name, change in CHANGES.items():
            with self.subTest(name):
                file = File.of(self.file)
                number = change(file)
                file.write(changed)
                done = verify(self.table, 2, changed)
                self.assertEqual(done.returncode, 1, done)
                first, second = done.stdout.splitlines()
                self.assertEqual(first, f"differs: line {number}")
                [line] = read_lines(file.lines[number - 1][1])
                self.assertTrue(second.startswith(f"{line.number} pass {line.under} "), second)
                # The reference model has no block before it is hardened: it finds the same line, or a later one.
                if file.kept == before.kept and [line for _, line in file.lines] != lines:
                    self.assertGreaterEqual(self.replayed(file) or number, number)
                    found += self.replayed(file) == number
        self.assertGreater(found, 15)

    def test_another_beginning_is_found(self) -> None:
        done = verify(self.table, 3, self.file)
        self.assertEqual(done.stdout.splitlines()[0], "differs: line 1")  # of a primary
        other = self.folder / "other.toml"
        other.write_text(self.table.read_text().replace("from = 4\nto = 4", "from = 0\nto = 0"))
        self.assertEqual(verify(other, 2, self.file).returncode, 1)

    def test_faults_of_the_files_have_names_and_numbers(self) -> None:
        text, table = self.file.read_text(), self.folder / "t"
        lines = text.splitlines()
        entries = next(at for at, line in enumerate(lines, 1) if line.startswith("00"))

        def with_line(number: int, line: str) -> str:
            return "\n".join([*lines[: number - 1], line, *lines[number:]])

        unlisted = BY_BLOCKS.replace("id = 2", "id = 12")
        unknown = f"trail line {entries} has fault"
        cases: list[tuple[str, str, int, str]] = [
            (with_line(3, "0"), "", 8, "trail line 3 is no hexadecimal text"),
            (with_line(3, "xy"), "", 8, "trail line 3 is no hexadecimal text"),
            (with_line(3, ""), "", 9, "trail line 3 has fault 4"),
            (with_line(3, "03"), "", 9, "trail line 3 has fault 3"),
            (with_line(3, "01" + 40 * "00"), "", 9, "trail line 3 has fault 8"),
            (with_line(3, "0100"), "", 9, "trail line 3 has fault 7"),
            (with_line(entries, "00" + 7 * "00"), "", 9, f"{unknown} 4"),
            (with_line(entries, "00" + 8 * "00"), "", 9, f"{unknown} 1"),
            (with_line(entries, "00" + 8 * "00" + "06"), "", 9, f"{unknown} 3"),
            (with_line(entries, "00" + 8 * "00" + "030001"), "", 9, f"{unknown} 4"),
            (with_line(entries, "00" + 8 * "00" + "03ffff"), "", 9, f"{unknown} 6"),
            (with_line(3, 131_073 * "0"), "", 7, "trail line 3 is too long"),
            (text, "x", 4, "table 1"),
            (text, "x" * 65_507, 3, "table file"),
            (text, unlisted, 4, f"table {read(unlisted.encode())}"),
        ]
        for trail, start, status, fault in cases:
            with self.subTest(fault):
                self.file.write_text(trail)
                table.write_text(start or BY_BLOCKS)
                done = verify(table, 2, self.file)
                self.assertEqual(
                    (done.returncode, done.stderr, done.stdout), (status, f"fault: {fault}\n", "")
                )
        self.file.write_text(text)
        done = verify(self.table, 9, self.file)
        self.assertEqual((done.returncode, done.stderr), (5, "fault: not listed\n"))
        done = verify(self.table, 2, self.folder / "none")
        self.assertEqual(done.returncode, 6)
        self.assertTrue(done.stderr.endswith("fault: trail file\n"), done.stderr)
        done = verify(self.folder / "none", 2, self.file)
        self.assertEqual(done.returncode, 3)
        done = verify(self.table, 2, self.folder)  # a folder is opened, and not read
        self.assertEqual((done.returncode, done.stderr), (6, "fault: trail file\n"))
        full = subprocess.run(
            [VERIFY, "--table", self.table, "--primary", "2", "--trail", self.file],
            stdout=open("/dev/full", "w"),
            stderr=subprocess.PIPE,
        )
        self.assertEqual((full.returncode, full.stderr), (11, b"fault: write\n"))

    def test_a_cut_or_a_byte_of_the_file_is_no_crash(self) -> None:
        data = self.file.read_bytes()
        for at in range(0, len(data), 997):
            for changed in (data[:at], data[:at] + b"7" + data[at + 1 :]):
                self.file.write_bytes(changed)
                status = verify(self.table, 2, self.file).returncode
                self.assertIn(status, (0, 1, 8, 9), at)
        self.file.write_bytes(data)

    def test_a_line_in_pieces_is_the_same(self) -> None:
        """Each line apart, and without the last line feed."""
        File.of(self.file).write(self.file)
        self.file.write_bytes(self.file.read_bytes().rstrip(b"\n"))
        self.verified(self.said)

    # The export.

    def exported(self, **more: str) -> str:
        return ends(words("trail", "shop", "--url", self.url, "--export", self.out), 1)

    def test_a_folder_that_is_there_is_left(self) -> None:
        before = self.file.read_bytes()
        self.assertIn("is there already", self.exported())
        self.assertEqual(self.file.read_bytes(), before)
        self.assertEqual(sorted(os.listdir(self.out)), ["list-1.toml", "list-1.trail"])

    def test_what_is_broken_off_leaves_nothing(self) -> None:
        there = sorted(os.listdir(self.folder))
        with mock.patch("pagelog.trail.export._entries", side_effect=OSError(28, "it is full")):
            self.assertRaises(
                OSError, export, self.trail, self.trail.lists(), self.log, self.folder / "b"
            )
        self.assertEqual(sorted(os.listdir(self.folder)), there)

    def log(self, _: TrailList) -> AbstractContextManager[ArchivedLog]:
        return nullcontext(ArchivedLog(self.trail, self.archive))

    def test_lines_that_harden_what_is_not_archived_are_left(self) -> None:
        self.run_sql("DELETE FROM pagelog_block WHERE lsn > 70")
        self.run_sql("UPDATE pagelog_log SET archived = 70")
        said = ends(words("trail", "shop", "--url", self.url, "--export", self.folder / "short"), 0)
        self.assertRegex(
            said, r"not written: lines (\d+) to \d+; the first of them hardens block 71"
        )
        [answer] = self.verified(said)
        self.assertNotIn("left out: 0 blocks of denied writes and offers, 0 other", answer)

    def test_what_cannot_be_exported_is_refused(self) -> None:
        lists = self.trail.lists()
        pruned = [replace(lists[0], pruned=3)]
        self.assertRaises(NotReplayable, export, self.trail, pruned, self.log, self.folder / "b")
        pruned_log = nullcontext(mock.Mock(blocks=lambda: iter([None])))
        self.assertRaises(
            NotExportable, export, self.trail, lists, lambda _: pruned_log, self.folder / "b"
        )
        self.run_sql("DELETE FROM pagelog_trail_text WHERE line <> 0")
        self.assertIn(
            "NotReplayable",
            ends(words("trail", "shop", "--url", self.url, "--export", self.folder / "b"), 1),
        )
        given = self.folder / "given.toml"
        given.write_bytes(self.text)
        said = ends(
            words(
                "trail",
                "shop",
                "--url",
                self.url,
                "--export",
                self.folder / "b",
                "--set-table",
                given,
            ),
            0,
        )
        self.verified(said)
        self.assertEqual(
            ends(words("trail", "shop", "--url", self.url, "--export", self.out, "--denied"), 2)[
                :5
            ],
            "Usage",
        )

    def test_what_was_changed_in_the_database_is_named_too(self) -> None:
        self.rewrite(lambda lines: lines[:4] + [lines[5], lines[4]] + lines[6:])
        said = ends(words("trail", "shop", "--url", self.url, "--export", self.folder / "b"), 0)
        self.assertIn("the reference model decides line 5 otherwise", said)
        [answer] = self.verified(said, agrees=1)
        self.assertTrue(answer.startswith("differs: line 5\n"))


class RandomRequests(Verifies, Random):
    """Requests of each kind, and denials of each row, as the test command asks them."""

    def check(self, seed: int) -> None:
        self.ask(5_000, seed)
        out = self.folder / "out"
        said = ends(words("trail", "shop", "--url", self.url, "--export", out), 0)
        [answer] = self.verified(said)
        self.assertNotIn(" 0 blocks of denied writes", answer)
        unchecked = self.replay().unchecked
        left = sum(map(int, re.findall(r"(\d+) (?:blocks|other|texts)", answer.partition("\n")[2])))
        self.assertGreaterEqual(left, sum(unchecked.values()))
        for line, text in self.texts.items():
            self.keeper.give_table(text, line)
        said = ends(words("trail", "shop", "--url", self.url, "--export", self.folder / "all"), 0)
        self.verified(said)

    def test_three_copies(self) -> None:
        self.check(1)

    def test_six_copies(self) -> None:
        self.check(3)


class Generations(Verifies, Trailed):
    """Lists of generations: the first was succeeded, the second switched over, and the keeper of the third was killed."""

    options = {**Trailed.options, "ttl": 5.0}

    def has_list_of(self, generation: int) -> bool:
        return generation in (of for of, _ in self.lists())

    def test_each_list_is_of_a_database(self) -> None:
        with self.keeping.primary() as primary:

            def goes_on(before: int) -> int:
                """The generation behind this one, in which something is durable, and which has a list."""
                place = self.keeping.place(least=before + 1)
                self.commit(primary, f"{place.generation}", durable=True)
                eventually(lambda: self.has_list_of(place.generation), "its list")
                return place.generation

            for number in range(1, 41):
                self.commit(primary, f"{number}", durable=number % 10 == 0)
            one = self.keeping.place().generation
            self.keeping.word("rollover", "shop")
            two = goes_on(one)
            eventually(lambda: len(self.keeping.standbys()) == 1, "a standby")
            self.keeping.word("switchover", "shop", "--to", *self.keeping.standbys())
            three = goes_on(two)
            self.keeping.kill(self.keeping.row().holder or "")
            four = goes_on(three)
        self.assertEqual([generation for generation, _ in self.lists()], [one, two, three, four])
        said = self.keeping.word(
            "trail",
            "shop",
            "--export",
            Path(self.enterContext(tempfile.TemporaryDirectory())) / "out",
        )
        answers = self.verified(said)
        hardened = [int(re.findall(r"(\d+) hardened", answer)[0]) for answer in answers]
        self.assertEqual((len(answers), hardened[0]), (4, 40))
        self.assertGreaterEqual(hardened[1], 2)  # one is made of images
        self.assertNotIn("not written", said)


if __name__ == "__main__":
    unittest.main()
