"""Group commit: threads that share a writer of a named database."""

from __future__ import annotations

import os
import signal
import threading
from collections import Counter
from typing import Any, Iterator
from unittest.mock import patch

from keepers import Gate, Kept, eventually
from pagelog import Block, Group, HoldsSqlite, NamedPrimary, OlderEpoch, TimedOut, Unwritten
from service import PATIENCE, put


class Threads(Kept):
    keepers = "a"
    options = {"standby": False}

    def setUp(self) -> None:
        super().setUp()
        self.primary: NamedPrimary = self.enterContext(self.keeping.primary())
        self.group = Group(self.primary)
        self.threads: list[threading.Thread] = []
        self.told: dict[str, int | BaseException] = {}
        """What became of each text's commit: its position, or what was raised."""

    def begin(self, *texts: str, each: bytes = b"") -> None:
        """A thread commits these texts one after the other, with more of the same page."""

        def run() -> None:
            for text in texts:
                try:
                    self.told[text] = self.group.commit(
                        *([put(0, each)] if each else []), put(0, f"<{text}>".encode())
                    )
                except BaseException as error:
                    self.told[text] = error

        self.threads.append(threading.Thread(target=run))
        self.threads[-1].start()

    def end(self) -> None:
        for thread in self.threads:
            thread.join()
        self.threads.clear()

    def begin_behind(self, first: str, *others: str, each: bytes = b"") -> Gate:
        """The first one's commit is held up in PostgreSQL; the others wait for the next."""
        gate = Gate(self.keeping.url, "NEW.archived > OLD.archived")
        self.begin(first)
        gate.somebody_waits()
        for text in others:
            self.begin(text, each=each)
            eventually(lambda: any(text.encode() in commit.records[-1].data for commit in self.group._due), "its turn")  # type: ignore[union-attr]
        return gate

    def blocks(self) -> list[list[str]]:
        """The texts of each archived block."""
        found = [[record.data for record in Block.decode(block).records] for block in self.keeping.archive()]  # type: ignore[union-attr]
        return [
            [data.strip(b"<>").decode() for data in datas if data[:1] == b"<"] for datas in found
        ]

    def check(self) -> None:
        """What was told to be durable is in the archive, at its position, once."""
        blocks = self.blocks()
        self.assertLessEqual(
            max(Counter(text for block in blocks for text in block).values(), default=0), 1
        )
        for text, told in self.told.items():
            if isinstance(told, int):
                self.assertIn(text, blocks[told - 1])


class Groups(Threads):
    def test_what_waits_goes_together(self) -> None:
        gate = self.begin_behind("1", "2", "3", "4")
        self.assertEqual((self.told, self.primary.durable_end), ({}, 0))
        gate.open()
        self.end()
        self.assertEqual(self.told, {"1": 1, "2": 2, "3": 2, "4": 2})
        self.assertEqual(self.blocks(), [["1"], ["2", "3", "4"]])
        self.assertEqual((self.group.commit(put(0, b"<5>")), self.group.commit()), (3, 3))

    def test_a_commit_that_fits_into_a_block_is_in_one(self) -> None:
        gate = self.begin_behind("1", "2", "3", "4", "5", each=b"x" * 8000)
        gate.open()
        self.end()
        self.assertEqual(self.blocks(), [["1"], ["2", "3", "4", "5"]])
        ends = self.primary.pack(
            [
                [put(0, b"x" * 8000)] * 3,
                [put(0, b"y" * 8000)] * 2,
                [],
                [put(0, b"z" * 8000)] * 5,
                [put(0, b"<6>")],
            ]
        )
        self.assertEqual((ends, self.primary.commit(durable=True)), ([3, 4, 4, 6, 6], 6))
        self.assertEqual(
            [
                len(block.records)
                for block in self.enterContext(self.keeping.reader()).blocks(3, follow=False)
            ],
            [3, 2, 4, 2],
        )

    def test_many_threads_through_deaths_of_the_service(self) -> None:
        for number in range(16):
            self.begin(*(f"{number} {at}" for at in range(20)))
        for least in (20, 100, 200):
            eventually(lambda: len(self.told) >= least, "commits")
            before = self.keeping.place().generation
            os.kill(self.keeping.pid(), signal.SIGKILL)
            self.keeping.place(least=before + 1)
        self.end()
        self.check()
        self.assertTrue(all(isinstance(told, int) for told in self.told.values()), self.told)
        order = [text for block in self.blocks() for text in block]
        self.assertEqual(len(order), 320)
        for number in range(16):
            self.assertEqual(
                [text for text in order if text.split()[0] == f"{number}"],
                [f"{number} {at}" for at in range(20)],
            )


class OverSqlite(Threads):
    """A named database whose page 0 has the end mark of SQLite's VFS."""

    def test_nothing_is_written_unless_asked(self) -> None:
        """By a group, by its writer, and by one that has moved. Who has written, or was asked to, goes on in the next generation."""
        end_mark = (
            b"plfile01"
            + b"".join(number.to_bytes(8, "big") for number in (1, 8192, 7, 1))
            + b"\4shop"
        )
        for position in (1, 2):
            self.primary.append(put(0, end_mark))
            self.assertEqual(self.primary.commit(durable=True), position)
            self.succeed(position + 1)
        with self.keeping.primary() as primary:
            group = Group(primary)
            for kind in (HoldsSqlite, Unwritten):
                with self.assertRaises(kind):
                    group.commit(put(0, b"hello"))
            with self.assertRaisesRegex(HoldsSqlite, "'shop' at LSN 1.*overwrite_sqlite=True"):
                primary.commit()
            self.succeed(4)
            with self.assertRaises(HoldsSqlite):
                primary.commit()
        with self.keeping.primary(overwrite_sqlite=True) as primary:
            self.assertEqual(Group(primary).commit(put(0, end_mark)), 3)
            self.succeed(5)
            self.assertEqual(Group(primary).commit(put(0, b"hello")), 4)
        self.assertEqual(len(self.keeping.archive()), 4)

    def succeed(self, generation: int) -> None:
        self.keeping.word("rollover", "shop")
        self.keeping.place(least=generation)


class Ends(Threads):
    def raised(self) -> dict[str, str]:
        return {
            text: type(told).__name__
            for text, told in self.told.items()
            if not isinstance(told, int)
        }

    def test_where_another_writer_goes_on(self) -> None:
        gate = self.begin_behind("1", "2", "3")
        with self.keeping.primary(id=5) as other:
            self.commit(other, "other")
            gate.open()
            self.end()
            self.assertEqual((self.told["1"], self.raised()), (1, {"2": "Lost", "3": "Lost"}))
            self.assertRaises(Unwritten, self.group.commit, put(0, b"4"))
            with self.assertRaises(OlderEpoch):
                self.primary.commit()
            other.durable(2)
        self.check()
        self.assertEqual(self.blocks(), [["1"], ["other"]])

    def test_a_part_that_is_in_the_log_is_durable_where_the_rest_is_lost(self) -> None:
        self.group.commit(put(0, b"<0>"))
        assert self.primary._primary is not None
        whole = self.primary._primary.harden
        with self.keeping.primary(id=5) as other:

            def cut(blocks: list[Block]) -> Iterator[int]:
                """Another writer comes between two blocks of one commit."""
                yield from whole(blocks[:1])
                self.commit(other, "other")
                yield from whole(blocks[1:])

            gate = self.begin_behind("1", *"234567", each=b"x" * 8179)
            with patch.object(self.primary._primary, "harden", cut):
                gate.open()
                self.end()
        self.check()
        self.assertEqual([self.told[text] for text in "1234"], [2, 3, 3, 3])
        self.assertEqual(self.raised(), dict.fromkeys("567", "Lost"))

    def test_what_was_not_durable_as_the_service_died_is_lost_where_another_went_on(self) -> None:
        self.group.commit(put(0, b"<0>"))
        asks, fate = threading.Event(), self.primary.keepers.fate

        def late(*question: Any) -> Any:
            asks.wait(PATIENCE)
            return fate(*question)

        pid = self.keeping.pid()
        self.keeping.kill("a")
        with patch.object(self.primary.keepers, "fate", late), self.keeping.primary(id=5) as other:
            self.begin("1")
            eventually(lambda: self.primary.end == 2, "a block in the log")
            os.kill(pid, signal.SIGKILL)
            self.keeping.start("a")
            self.assertEqual(self.commit(other, "other", durable=True), 2)
            self.begin("2")
            asks.set()
            self.end()
        self.assertEqual(self.raised(), {"1": "Lost", "2": "Unwritten"})
        self.assertEqual(self.blocks(), [["0"], ["other"]])

    def test_where_no_keeper_answers(self) -> None:
        self.group.commit(put(0, b"<0>"))
        self.primary.keepers.patience = 0.3
        self.keeping.kill("a", signal.SIGSTOP)
        for text in "123":
            self.begin(text)
        self.end()
        self.assertLessEqual(set(self.raised().values()), {TimedOut.__name__, Unwritten.__name__})
        self.keeping.kill("a", signal.SIGCONT)
        self.primary.keepers.patience = PATIENCE
        self.assertGreater(self.primary.commit(durable=True), 1)
        began = {text for text, told in self.told.items() if isinstance(told, TimedOut)}
        self.assertEqual({text for block in self.blocks()[1:] for text in block}, began)

    def test_a_thread_that_is_interrupted_as_it_commits_for_all(self) -> None:
        gate = self.begin_behind("1", "2", "3")
        with patch.object(self.primary, "commit", side_effect=KeyboardInterrupt):
            gate.open()
            self.end()
        self.assertEqual(sorted(self.raised().values()), ["InDoubt", "KeyboardInterrupt"])
        self.assertRaises(Unwritten, self.group.commit, put(0, b"4"))
        self.assertEqual(self.primary.commit(durable=True), 2)
        self.assertEqual(self.blocks(), [["1"], ["2", "3"]])

    def test_one_that_has_left_as_a_wait_for_it_ends_was_not_interrupted(self) -> None:
        wait = self.group._changed.wait

        def late(_: float) -> bool:
            wait(PATIENCE)
            return False  # its time was up, and it had to wait for the lock

        with patch.object(self.group._changed, "wait", late):
            gate = self.begin_behind("1", "2")
            gate.open()
            self.end()
        self.assertEqual(self.told, {"1": 1, "2": 2})

    def test_one_that_is_fenced_as_it_begins_takes_nothing(self) -> None:
        self.group.commit(put(0, b"<1>"))
        with self.keeping.primary(id=5) as other:
            self.commit(other, "other", durable=True)
            self.primary._leave()  # as after a lost connection
            self.assertRaises(OlderEpoch, self.primary.pack, [[put(0, b"<2>")]])
            self.assertRaises(Unwritten, self.group.commit, put(0, b"<2>"))
        self.assertEqual(self.blocks(), [["1"], ["other"]])

    def test_a_faulty_record_ends_nothing(self) -> None:
        with self.assertRaises(TypeError):
            self.group.commit(put(0, b"<1>"), put(0, bytearray(b"may change")))  # type: ignore[arg-type]
        self.assertEqual(self.group.commit(put(0, b"<2>")), 1)
        self.assertEqual(self.blocks(), [["2"]])
