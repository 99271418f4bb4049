"""What a table may say besides its rows: how many copies there are, and rows that end at an LSN."""

from __future__ import annotations

import subprocess
import tempfile
import unittest
from pathlib import Path

import pagelog
from pagelog import Primary, Put, rules
from pagelog.archive import Archive
from pagelog.cli.explain import ExplainError, RequestQuestion, Table, explain
from pagelog.keeping import Archiver, all_blocks
from pagelog.request import Get, Write
from service import PATIENCE, PROGRAM, TABLE, WIDE_TABLE, Service, fill, put, token
from test_archive import words

SIX = "copies = 6\nquorum = 4\n"
ENDING = TABLE.read_text().replace(
    'who = 3\nrole = "secondary"\n', 'who = 3\nrole = "secondary"\nthrough = 40\n'
)


def takes(text: str) -> bool:
    """Whether the program takes a table with this text."""
    with tempfile.TemporaryDirectory() as folder:
        file = Path(folder) / "table.toml"
        file.write_text(text)
        command = [PROGRAM, "play", "--table", str(file), "--primary", "2"]
        done = subprocess.run(command, stdin=subprocess.DEVNULL, capture_output=True, text=True)
    if done.returncode != 0 and "fault: table" not in done.stderr:
        raise AssertionError(f"the program ended with {done.returncode}: {done.stderr}")
    return done.returncode == 0


KNOWS_SIX = takes(SIX + TABLE.read_text())
KNOWS_ENDS = takes(ENDING)


@unittest.skipUnless(KNOWS_SIX, "this program's tables have no keys copies and quorum")
class SixCopies(unittest.TestCase):
    def setUp(self) -> None:
        self.service = self.enterContext(Service(table=SIX + WIDE_TABLE))
        self.operator = self.enterContext(self.service.operator())
        self.reader = self.enterContext(self.service.reader())

    def copies_of_writes(self) -> list[int]:
        return [
            entry.b
            for entry in self.operator.entries(1)
            if entry.operation is pagelog.Operation.WRITE
        ]

    def test_a_commit_goes_to_four_copies(self) -> None:
        with self.service.primary(quorum=4) as primary:
            primary.append(put(0, b"a"))
            self.assertEqual(primary.commit(), 1)
            list(primary.stream([put(0, b"b")] for _ in range(100)))
        with self.service.primary(quorum=4, copies=(5, 4, 3, 2, 1, 0)) as primary:
            primary.append(put(0, b"c"))
            self.assertEqual(primary.commit(), 102)
        self.assertEqual(self.reader.page(0, 102).data[:1], b"c")
        self.assertEqual(self.copies_of_writes(), [0, 1, 2, 3] * 101 + [5, 4, 3, 2, 1, 0])

    def test_a_quorum_that_is_too_small_is_told(self) -> None:
        with self.service.primary() as primary:
            primary.append(put(0, b"a"))
            for _ in range(2):
                with self.assertRaises(pagelog.BelowQuorum):
                    primary.commit()
            self.assertEqual((primary.durable, self.reader.status().hard), (0, 0))
        with self.service.connection() as connection:
            taken = Primary.take_over(
                connection, pagelog.Credentials.of(2, token(2)), self.operator, quorum=4
            )
            taken.append(put(0, b"b"))
            self.assertEqual(taken.commit(), 1)

    def test_a_failover_keeps_what_stands_in_four_and_no_less(self) -> None:
        for stands, kept in ((4, 1), (3, 0)):
            with Service(
                table=SIX + WIDE_TABLE
            ) as service, service.operator() as operator, service.primary(quorum=4) as primary:
                requests = primary._requests

                def with_a_failover(*arguments):  # type: ignore[no-untyped-def]
                    for at, request in enumerate(requests(*arguments)):
                        if at == stands:
                            operator.failover(5)
                        yield request

                primary._requests = with_a_failover  # type: ignore[method-assign]
                primary.append(put(0, b"a"))
                primary._prepare()
                primary._close_block()
                harden = primary._harden(
                    [[sent.block for sent in primary._unhardened]], in_flight=1
                )
                if kept:
                    self.assertEqual(list(harden), [1])
                else:
                    # No write to copy 3 has shown that there are six: with three copies the block would be in the log.
                    with self.assertRaises(pagelog.InDoubt):
                        list(harden)
                self.assertEqual(operator.status().hard, kept)

    def test_a_new_table_counts_from_the_next_epoch_on(self) -> None:
        with Service(table=WIDE_TABLE) as service, service.operator() as operator:
            with service.primary() as primary:
                primary.append(put(0, b"a"))
                self.assertEqual(primary.commit(), 1)
                operator.set_table(SIX + WIDE_TABLE)
                primary.append(put(0, b"b"))
                self.assertEqual(primary.commit(), 2)
            with service.connection() as connection:
                taken = Primary.take_over(
                    connection, pagelog.Credentials.of(2, token(2)), operator, quorum=4
                )
                taken.append(put(0, b"c"))
                self.assertEqual(taken.commit(), 3)

    def test_a_table_of_other_numbers_is_none(self) -> None:
        for text in (
            "copies = 3\nquorum = 3\n",
            "copies = 6\n",
            "quorum = 2\n",
            "copies = 7\nquorum = 4\n",
            'copies = "6"\nquorum = 4\n',
        ):
            with self.subTest(text), self.assertRaises(pagelog.NoTable) as raised:
                self.operator.set_table(text + WIDE_TABLE)
            self.assertIs(raised.exception.fault, rules.TableFault.COPIES_AND_QUORUM)
        self.operator.set_table("copies = 3\nquorum = 2\n" + WIDE_TABLE)

    def test_an_archive_is_restored_into_six_copies(self) -> None:
        with Service() as source, source.primary() as primary, source.reader() as reader:
            fill(primary, 100)
            url = f"sqlite:///{self.service.folder}/archive.db"
            with Archive(url, create=True) as archive:
                Archiver(reader, archive).run(follow=False)
                wanted = list(archive.blocks())
        file = self.service.credentials_file()
        for more, status, text in (((), 1, "BelowQuorum"), (("--quorum", "4"), 0, "")):
            process = words("restore", "--credentials", file, "--url", url, *more)
            _, error = process.communicate(timeout=PATIENCE)
            self.assertEqual((process.returncode, text in error), (status, True), error)
        self.assertEqual(list(all_blocks(self.reader, 1, 100)), wanted)

    def test_explain_knows_the_keys(self) -> None:
        table = Table(self.service.table)
        self.assertEqual(
            explain(table, RequestQuestion.parse("principal 2 write 0")).place, "row 2"
        )
        self.assertIn("copies = 6", table.beginning(1, 2))


@unittest.skipUnless(KNOWS_ENDS, "this program's rows have no key through")
class RowsThatEnd(unittest.TestCase):
    """Principal 3 may read up to LSN 40."""

    def setUp(self) -> None:
        self.service = self.enterContext(Service(table=ENDING))
        self.primary = self.enterContext(self.service.primary())
        list(self.primary.stream([put(at % 5, bytes([at]))] for at in range(1, 101)))
        self.reader = self.enterContext(self.service.reader())

    def test_what_is_served_comes_before_the_denial(self) -> None:
        found = []
        with self.assertRaises((rules.NoRowMatches, rules.TableRow)):
            for block in self.reader.blocks(1, follow=False):
                found.append(block.lsn)
        self.assertEqual(found, list(range(1, 41)))
        self.assertEqual(self.reader.page(0, 40).at, 40)
        with self.assertRaises((rules.NoRowMatches, rules.TableRow)):
            self.reader.page(0, 41)

    def test_an_end_that_goes_between_two_pulls_leaves_nothing_out(self) -> None:
        """The pull from 33 is served up to 40, and the one from 49 comes under a table without an end."""
        ask_all = self.reader._ask_all

        def sets_a_table_amid(acts, *rest):  # type: ignore[no-untyped-def]
            replies = ask_all(acts[:2], *rest)
            if len(acts) > 2:
                with self.service.operator() as operator:
                    operator.set_table(TABLE.read_text())
                replies += ask_all(acts[2:], *rest)
            return replies

        self.reader._ask_all = sets_a_table_amid  # type: ignore[method-assign]
        with Archive(
            f"sqlite:///{self.service.folder}/archive.db", create=True
        ) as archive, self.service.reader() as reader:
            Archiver(self.reader, archive).run(follow=False)
            self.assertEqual(list(archive.blocks()), list(all_blocks(reader, 1, 100)))

    def test_an_archive_is_whole_up_to_there(self) -> None:
        url = f"sqlite:///{self.service.folder}/archive.db"
        process = words("archive", "--credentials", self.service.credentials_file(), "--url", url)
        _, error = process.communicate(timeout=PATIENCE)
        self.assertEqual(process.returncode, 1)
        self.assertRegex(error, "NoRowMatches|TableRow")
        with Archive(url) as archive:
            self.assertEqual([block.lsn for block in archive.blocks()], list(range(1, 41)))

    def test_explain_asks_at_an_lsn(self) -> None:
        table = Table(self.service.table)
        for question, place in {
            "get 0 at 40": "row 4",
            "get 0 at 41": "B0",
            "get 0": "row 4",
            "pull 0..3 at 41": "B0",
            "status": "row 4",
        }.items():
            decision = explain(
                table,
                RequestQuestion.parse(
                    f"principal 3 {'as secondary ' if question == 'status' else ''}{question}"
                ),
            )
            self.assertEqual(decision.place, place, question)
        self.assertIn(
            "through 40", str(explain(table, RequestQuestion.parse("principal 3 pull at 7")))
        )


class AtAnLsn(unittest.TestCase):
    """What explain asks of a program that knows nothing of rows that end."""

    def test_an_lsn_is_part_of_the_question(self) -> None:
        question = RequestQuestion.parse("principal 3 get 7 at 41")
        self.assertEqual(question.act(b""), Get(7, 41))
        act = RequestQuestion.parse("principal 2 write 1,4 at 9").act(b"")
        self.assertIsInstance(act, Write)
        self.assertEqual((act.block.lsn, act.block.partitions), (9, (1, 4)))  # type: ignore[union-attr]
        self.assertEqual(
            explain(Table(TABLE), RequestQuestion.parse("principal 3 pull 0..3 at 500")).place,
            "row 4",
        )
        for text in (
            "principal 1 tidy at 5",
            "principal 3 get 7 at x",
            "principal 3 pull at 0",
            "principal 3 get at 281474976710657",
        ):
            with self.subTest(text), self.assertRaises(ExplainError):
                RequestQuestion.parse(text).act(b"")

    def test_what_was_pulled_before_a_refusal_is_not_lost(self) -> None:
        """A table that denies from now on, set between two pulls of one span."""
        with Service() as service, service.primary() as primary, service.operator() as operator, service.reader() as reader:
            list(primary.stream([Put(0, 0, b"x")] for _ in range(100)))
            reader.status()
            ask_all = reader._ask_all

            def denies_from_the_second_batch_on(acts, *rest):  # type: ignore[no-untyped-def]
                replies = ask_all(acts[:2], *rest)
                operator.set_table(
                    TABLE.read_text().replace(
                        'who = 3\nrole = "secondary"\n', 'who = 3\nrole = "primary"\n'
                    )
                )
                return replies + ask_all(acts[2:], *rest)

            first = reader.span(1, pulls=1)
            self.assertEqual(first.last, 16)
            reader._ask_all = denies_from_the_second_batch_on  # type: ignore[method-assign]
            self.assertEqual(reader._span_of(range(17, 100, 16), (0, 65535)).last, 48)
            with self.assertRaises(rules.NoRowMatches):
                reader.span(49)


if __name__ == "__main__":
    unittest.main()
