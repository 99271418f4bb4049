"""Writers and readers of named databases against services that the test starts, and keepers whose answers are the test's."""

from __future__ import annotations

import hashlib
import itertools
import select
import socket
import tempfile
import threading
import time
import unittest
from collections import deque
from contextlib import closing
from dataclasses import replace
from pathlib import Path
from typing import Any, Callable, Sequence
from unittest.mock import Mock, patch

import pagelog
from pagelog import Block, Credentials, Group, InDoubt, Lost, NamedPrimary, NamedReader, Unwritten
from pagelog.dialing import dial
from pagelog.following import CONFIRM
from pagelog.referee.referee import digest
from pagelog.keeper.run import Program
from pagelog.keeper.served import Served
from pagelog.keeper.table import Form, table_of_run
from pagelog.run_tokens import KEEPER, token_of
from pagelog.place import Dropped, GenerationFate, Keepers, OlderKeepers, Place, UnknownName, _Line
from service import PATIENCE, PROGRAM, WIDE_TABLE, Service, accept_each, interrupted, put, token

DATABASE = "11111111-2222-4333-8444-555555555555"
NARROW_TABLE = WIDE_TABLE.rpartition("[[row]]")[0]
"""By it a writer pulls nothing."""


class Named(unittest.TestCase):
    """A named database without keepers: `place` says where it is, as they would."""

    table = WIDE_TABLE

    def setUp(self) -> None:
        self.places: list[Place] = []
        self.keepers = Mock(Keepers, patience=PATIENCE)
        self.keepers.name = "shop"
        self.keepers.has_left.return_value = False
        self.keepers.place.side_effect = self.keepers.after.side_effect = lambda *_: self.places[-1]
        self.keepers.fate.side_effect = lambda place, position, *_: GenerationFate(
            position, place.generation != self.places[-1].generation
        )

    def begin(self, *, shift: int = 0, kept: int = 0) -> Service:
        """The next generation."""
        run = f"run{len(self.places)}"
        text = self.table
        for id in range(1, 6):
            text = text.replace(token(id), self.token(id, run).hex())
        service = self.enterContext(Service(table=text))
        self.places.append(
            Place(len(self.places) + 1, run, service.address, kept, "", kept, shift, kept, DATABASE)
        )
        return service

    def token(self, id: int, run: str) -> bytes:
        return token_of(bytes.fromhex(token(id)), "shop", run)

    def of_run(self, kind: type[Any], id: int) -> Any:
        """A client of the service of the last generation."""
        place = self.places[-1]
        made = kind(
            pagelog.Connection(place.address, timeout=PATIENCE),
            Credentials(id, self.token(id, place.run)),
        )
        return self.enterContext(made)

    def named(self, kind: type[Any], id: int, *options: Any, **more: Any) -> Any:
        made = kind("shop", ["127.0.0.1:1"], id, token(id), *options, timeout=PATIENCE, **more)
        made.keepers = self.keepers
        return self.enterContext(made)

    def writer(self) -> NamedPrimary:
        made = self.named(NamedPrimary, 2, (1, token(1)))
        assert isinstance(made, NamedPrimary)
        return made

    def reader(self) -> NamedReader:
        made = self.named(NamedReader, 3)
        assert isinstance(made, NamedReader)
        return made

    def texts(self) -> list[bytes]:
        """The records of the log of the last generation."""
        reader = self.of_run(pagelog.Reader, 3)
        return [record.data for block in reader.blocks(1, follow=False) for record in block.records]


class Writers(Named):
    def test_one_that_was_interrupted_as_it_looked_for_its_blocks_looks_again(self) -> None:
        self.begin()
        writer = self.writer()
        writer.append(put(0, b"1"))
        writer.commit()
        assert writer._primary is not None
        with patch.object(
            writer._primary, "harden", side_effect=pagelog.ConnectionLost
        ), patch.object(
            NamedPrimary, "_first_other", side_effect=[KeyboardInterrupt, pagelog.OutOfMemory]
        ):
            writer.append(put(0, b"2"))
            # It has the epoch no more, and another process of its principal goes on.
            self.of_run(pagelog.Operator, 1).failover(2)
            other = self.of_run(pagelog.Primary, 2)
            other.append(put(0, b"other"))
            other.commit()
            self.assertRaises(KeyboardInterrupt, writer.commit)
            self.assertRaises(pagelog.OutOfMemory, writer.commit)
        with self.assertRaises(Lost) as raised:
            writer.commit()
        self.assertEqual(raised.exception.position, 2)
        self.assertEqual(self.texts(), [b"1", b"other"])


class Continued(Named):
    """PostgreSQL went back, and has lost the generation; its run continues under a later number, and is archived again."""

    def ended(self) -> tuple[NamedPrimary, int]:
        """A writer that another has ended, and a position of it that is in the log, and not yet durable."""
        self.begin()
        writer = self.writer()
        writer.append(put(0, b"1"))
        position = writer.commit()
        self.of_run(pagelog.Operator, 1).failover(2)
        writer.append(put(0, b"2"))
        self.assertRaises(pagelog.OlderEpoch, writer.commit)
        return writer, position

    def test_what_a_writer_that_has_ended_left_in_the_log_becomes_durable(self) -> None:
        writer, position = self.ended()
        later = replace(self.places[0], generation=7)
        self.keepers.fate.side_effect = lambda place, position, *_: (
            GenerationFate(position, False)
            if place == later
            else GenerationFate(position - 1, True, continues=later)
        )
        writer.durable(position)
        self.assertEqual((writer.durable_end, self.texts()), (position, [b"1"]))

    def test_of_a_run_that_is_over_it_is_lost(self) -> None:
        writer, position = self.ended()
        self.keepers.fate.side_effect = lambda place, position, *_: GenerationFate(
            position - 1, True
        )
        with self.assertRaises(Lost) as raised:
            writer.durable(position)
        self.assertEqual(raised.exception.position, position)


class Overtaken(Named):
    """Its generation is over before what it has committed was durable, and it writes that again, until another writer comes."""

    def setUp(self) -> None:
        super().setUp()
        self.keepers.fate.side_effect = lambda place, position, *_: (
            GenerationFate(self.places[place.generation].kept, True)
            if place.generation < len(self.places)
            else GenerationFate(position, False)
        )
        self.begin()
        self.overtaken = self.writer()
        for text in (b"1", b"2"):
            self.overtaken.append(put(0, text))
            self.overtaken.commit()
        self.blocks = list(self.overtaken._tail)

    def come(self) -> None:
        """Another writer begins an epoch."""
        self.of_run(pagelog.Operator, 1).failover(2)

    def write_again(self, meanwhile: Callable[[], None], written: int) -> Any:
        """In the next generation. So many blocks come into its log, and then the writer is told nothing but what this raises."""
        harden = pagelog.Primary.harden

        def hardened(primary: pagelog.Primary, blocks: Sequence[Any], **options: Any) -> Any:
            list(harden(primary, list(blocks)[:written], **options))
            meanwhile()
            return iter(())

        self.begin()
        return patch.object(pagelog.Primary, "harden", hardened)

    def test_what_a_failover_has_kept_of_it_is_not_lost(self) -> None:
        def meanwhile() -> None:
            self.come()
            raise pagelog.OlderEpoch(pagelog.Section.A, 2, 3)

        with self.write_again(meanwhile, 1), self.assertRaises(Lost) as raised:
            self.overtaken.durable(2)
        self.assertEqual((raised.exception.position, self.texts()), (2, [b"1"]))

    def test_what_is_in_the_images_of_the_next_generation_is_not_lost(self) -> None:
        """Another writer was faster there, by a hair."""
        begun = NamedPrimary._begun

        def meanwhile() -> None:
            self.begin(kept=2)
            with self.of_run(pagelog.Primary, 2) as images:
                images.append(put(7, b"images"))
                images.commit()
                images.append(put(8, b"images"))
                images.commit()
            raise pagelog.ConnectionLost

        def overtaken(*arguments: Any) -> Any:
            if len(self.places) == 3:
                self.come()
            return begun(*arguments)

        self.keepers.block.side_effect = lambda position: hashlib.sha256(
            self.blocks[position - 1].data
        ).hexdigest()
        with self.write_again(meanwhile, 2), patch.object(NamedPrimary, "_begun", overtaken):
            self.overtaken.durable(2)
        self.assertEqual((self.overtaken.durable_end, self.texts()), (2, [b"images"] * 2))
        self.overtaken.append(put(0, b"3"))
        self.assertRaises(pagelog.OlderEpoch, self.overtaken.commit)


class UponOthers(Named):
    """Its commits stand upon another's, which were never archived, and are lost with their service."""

    def setUp(self) -> None:
        super().setUp()
        self.keepers.fate.side_effect = lambda place, position, *_: (
            GenerationFate(self.places[place.generation].kept, True)
            if place.generation < len(self.places)
            else GenerationFate(position, False)
        )
        self.begin()

    def of_another(self, *texts: bytes) -> None:
        self.of_run(pagelog.Operator, 1).failover(2)
        other = self.of_run(pagelog.Primary, 2)
        for text in texts:
            other.append(put(0, text))
            other.commit()

    def test_they_are_written_upon_nothing_else(self) -> None:
        for then in (
            [],
            [b"other"],
            [b"other", b"second"],
            [b"other", b"second", b"third"],
            [b"other", b"second", b"3"],
        ):
            with self.subTest(then=then):
                self.of_another(b"1", b"2")
                writer = self.writer()
                for text in (b"3", b"4"):
                    writer.append(put(0, text))
                    writer.commit()
                self.begin()  # with nothing of it
                if then:
                    self.of_another(*then)
                with self.assertRaises(Lost) as raised:
                    writer.durable(4)
                self.assertEqual((raised.exception.position, self.texts()), (1, then))
                writer.append(put(0, b"next"))
                writer.commit(durable=True)
                self.assertEqual(self.texts(), [*then, b"next"])
                self.begin()


class Tokens(Named):
    """A service that knows no such principal may be another's."""

    def test_one_that_is_over_may_have_lost_its_address(self) -> None:
        self.begin()
        right, gone = self.places[-1], replace(self.places[-1], run="gone")
        for make in (self.writer, self.reader):
            told = iter((gone, right))
            self.keepers.place.side_effect = self.keepers.after.side_effect = lambda *_: next(
                told, right
            )
            with make() as client:
                self.assertEqual(
                    client.commit() if isinstance(client, NamedPrimary) else client.end(), 0
                )

    def test_one_that_has_let_in_is_not_followed_by_a_wrong_token(self) -> None:
        """As long as it takes to see that it has ended."""
        service = self.begin()
        with self.writer() as writer, self.reader() as reader:
            writer.append(put(0, b"1"))
            self.assertEqual((writer.commit(), reader.end()), (1, 1))
            service.table.write_text(self.table)  # of no run
            service.restart()
            times = []

            def place(*_: object) -> Place:
                times.append(time.monotonic())
                if len(self.places) == 1 and times[-1] - times[0] > 2 * CONFIRM:
                    self.begin()
                return self.places[-1]

            self.keepers.place.side_effect = self.keepers.after.side_effect = place
            self.assertEqual(reader.end(), 0)
            self.assertGreater(times[-1] - times[0], CONFIRM)


class Closed(Named):
    def test_a_generation_that_its_keeper_closes_bars_nobody(self) -> None:
        """The rows of a keeper deny its writers, and not those of the database."""
        text = table_of_run(WIDE_TABLE, b"s" * 16, "shop", "closed", Form.READING)
        service = self.enterContext(Service(table=text, primary=KEEPER))
        self.places.append(Place(1, "closed", service.address, 0, "", 0, 0, 0, DATABASE))
        asked = itertools.count(1)

        def place(*_: object) -> Place:
            if next(asked) == 5:
                self.begin()
            return self.places[-1]

        self.keepers.place.side_effect = self.keepers.after.side_effect = place
        with self.writer() as writer:
            writer.append(put(0, b"1"))
            self.assertEqual((writer.commit(), self.texts()), (1, [b"1"]))


class Begun(Named):
    """What comes between a writer's failover and its first question in the epoch of that: the epoch is over then."""

    def setUp(self) -> None:
        super().setUp()
        self.services: list[Served] = []
        self.serve()

    def serve(self) -> None:
        """The first generation, or the next one with what the one before has, as a keeper makes it."""
        number = len(self.services) + 1
        served = Served("shop", f"run{number}", WIDE_TABLE, b"s" * 16, timeout=PATIENCE)
        folder = Path(self.enterContext(tempfile.TemporaryDirectory()))
        served.start(Program(PROGRAM, "127.0.0.1", folder))
        self.addCleanup(served.end)
        kept = [block for service in self.services[-1:] for block in service.pulled(0)]
        if kept:
            served.fill([kept], len(kept), digest(b"", kept))
        served.open()
        self.services.append(served)
        address = served.where.address
        self.places.append(
            Place(number, served.run, address, len(kept), "", 0, 0, len(kept), DATABASE)
        )

    def close_service(self) -> None:
        self.services[-1].close()

    def succeed(self) -> None:
        self.close_service()
        self.serve()

    def give_up(self) -> None:
        """A succession that was begun."""
        self.close_service()
        self.services[-1].open()

    def come(self) -> None:
        """Another writer, of the same principal."""
        self.of_run(pagelog.Operator, 1).failover(2)
        other = self.of_run(pagelog.Primary, 2)
        other.append(put(0, b"other"))
        other.commit()

    def commit(self, writer: NamedPrimary, text: bytes, *events: Callable[[], None]) -> int:
        """An event comes at each beginning, as long as there are any."""
        begin, left = pagelog.Primary.begin, iter(events)

        def begun(primary: pagelog.Primary) -> Any:
            next(left, lambda: None)()
            return begin(primary)

        writer.append(put(0, text))
        with patch.object(pagelog.Primary, "begin", begun):
            return writer.commit()

    def test_a_writer_goes_on_in_the_generation_that_its_keeper_makes(self) -> None:
        writer = self.writer()
        self.assertEqual(self.commit(writer, b"1", self.succeed, self.succeed), 1)
        self.assertEqual(self.commit(writer, b"2"), 2)
        self.succeed()
        self.assertEqual(self.commit(writer, b"3", self.succeed, self.succeed), 3)
        self.assertEqual((self.texts(), len(self.services)), ([b"1", b"2", b"3"], 6))

    def test_a_writer_goes_on_where_its_keeper_opens_the_generation_again(self) -> None:
        writer = self.writer()
        self.assertEqual(self.commit(writer, b"1", self.give_up, self.give_up), 1)
        self.give_up()
        self.assertEqual(self.commit(writer, b"2", self.give_up, self.give_up), 2)
        self.assertEqual(self.texts(), [b"1", b"2"])

    def test_it_waits_no_longer_than_it_has_patience_and_may_be_called_again(self) -> None:
        writer = self.writer()
        self.keepers.patience = 0.0
        self.assertRaises(pagelog.TimedOut, self.commit, writer, b"1", self.close_service)
        self.assertRaises(pagelog.TimedOut, writer.commit)
        self.services[-1].open()
        self.assertEqual((writer.commit(), self.texts()), (1, [b"1"]))
        self.close_service()
        self.assertRaises(pagelog.TimedOut, self.commit, writer, b"2")
        self.services[-1].open()
        self.keepers.patience = PATIENCE
        self.assertEqual((writer.commit(), self.texts()), (2, [b"1", b"2"]))

    def test_one_that_another_writer_has_overtaken_is_told_so_and_fences_nobody(self) -> None:
        for events in ([self.come], [self.give_up, self.come]):
            with self.subTest(events=len(events)), self.writer() as writer:
                operator, before = self.of_run(pagelog.Operator, 1), self.texts()
                epoch = operator.status().epoch
                self.assertRaises(pagelog.OlderEpoch, self.commit, writer, b"1", *events)
                self.assertRaises(pagelog.OlderEpoch, writer.commit)
                self.assertEqual(self.texts(), [*before, b"other"])
                self.assertEqual(operator.status().epoch, epoch + 2 * len(events))

    def test_nor_where_it_cannot_ask_at_first_who_has(self) -> None:
        for cuts in (2, 3):
            with self.subTest(cuts=cuts), self.writer() as writer:
                self.commit(writer, b"1")
                self.of_run(pagelog.Operator, 1).failover(2)
                other = self.of_run(pagelog.Primary, 2)
                other.status()
                left = iter([pagelog.ConnectionLost("nothing was sent")] * cuts)

                def cut(call: Callable[..., Any]) -> Callable[..., Any]:
                    def called(*arguments: Any, **named: Any) -> Any:
                        for error in left:
                            raise error
                        return call(*arguments, **named)

                    return called

                status, failover = pagelog.Operator.status, pagelog.Operator.failover
                with (
                    patch.object(pagelog.Operator, "status", cut(status)),
                    patch.object(pagelog.Operator, "failover", cut(failover)),
                ):
                    self.assertRaises(pagelog.OlderEpoch, self.commit, writer, b"2")
                self.assertIsNone(next(left, None))
                other.append(put(0, b"other"))
                other.commit()


class NarrowWriters(Named):
    table = NARROW_TABLE

    def test_what_is_in_doubt_stays_so(self) -> None:
        service = self.begin()
        writer = self.writer()
        writer.append(put(0, b"1"))
        self.assertEqual(writer.commit(), 1)
        self.begin()
        service.stop()
        other = self.of_run(pagelog.Primary, 2)
        for text in (b"other", b"of it"):
            other.append(put(0, text))
            other.commit()
        writer.append(put(0, b"2"))
        for _ in range(3):
            self.assertRaises(InDoubt, writer.commit)
        self.assertEqual(self.texts(), [b"other", b"of it"])

    def test_what_was_cut_off_is_not_called_lost(self) -> None:
        """Its replies do not come back. That the table denies a pull is no denial of the write."""
        self.begin()
        writer = self.writer()
        writer.append(put(0, b"1"))
        writer.commit()
        primary, cut = writer._primary, Block.of(2, [put(0, b"2")])
        assert primary is not None
        requests = list(primary._requests([[cut]], deque(), []))
        for sent in primary._unhardened:
            sent.attempts = 1
        with closing(pagelog.Connection(self.places[-1].address, timeout=PATIENCE)) as other:
            list(other.exchange(requests))
        writer.append(put(0, b"2"))
        self.assertRaises(InDoubt, writer.commit)
        self.assertEqual(self.texts(), [b"1", b"2"])


class Readers(Named):
    def test_blocks_that_are_lost_with_their_service_are_waited_for(self) -> None:
        """It dies once the reader knows where its log ends, and the next generation lacks the last blocks."""
        service = self.begin()
        with self.of_run(pagelog.Primary, 2) as primary:
            for _ in primary.stream([put(0, b"1")] for _ in range(5)):
                pass
        reader, deaths = self.named(NamedReader, 3), iter((True,))
        end = reader.end

        def ends() -> int:
            found = end()
            if next(deaths, False):
                self.begin()
                service.stop()
            return int(found)

        with patch.object(reader, "end", ends):
            self.assertEqual(list(reader.blocks(4, follow=False)), [])
        with self.of_run(pagelog.Primary, 2) as primary:
            for _ in primary.stream([put(0, b"2")] for _ in range(4)):
                pass
        self.assertEqual(
            [block.records[0].data for block in reader.blocks(4, follow=False)], [b"2"]
        )

    def test_keepers_that_name_another_run_each_time_are_not_asked_for_ever(self) -> None:
        self.begin()
        reader, runs = self.named(NamedReader, 3, durable_only=True), itertools.count()
        self.keepers.standby.return_value = None
        self.keepers.where.side_effect = lambda: replace(self.places[-1], run=f"other{next(runs)}")
        clock = itertools.count(step=PATIENCE / 9)
        with patch("pagelog.named_reader.time.monotonic", lambda: next(clock)):
            self.assertRaises(pagelog.TimedOut, reader.end)
        self.keepers.where.side_effect = lambda: self.places[-1]
        self.assertEqual(reader.end(), 0)


class Groups(unittest.TestCase):
    def told_another(self, group: Group) -> list[object]:
        """What another thread is told that commits."""
        told: list[object] = []

        def commit() -> None:
            try:
                told.append(group.commit(put(0, b"2")))
            except pagelog.PagelogError as error:
                told.append(error)

        thread = threading.Thread(target=commit, daemon=True)
        thread.start()
        thread.join(PATIENCE)
        return told

    def test_an_interrupt_anywhere_leaves_no_other_waiting(self) -> None:
        at, came = 1, True
        while came:
            group = Group(
                Mock(NamedPrimary, pack=lambda commits: [1] * len(commits), durable_end=0)
            )
            came = interrupted(lambda: group.commit(put(0, b"1")), "group.py", at)
            told = self.told_another(group)
            self.assertEqual((at, len(told)), (at, 1))
            at += 1
        self.assertGreater(at, 10)
        self.assertEqual(told, [1])

    def test_nor_does_one_in_the_middle_of_what_an_interrupt_leaves_to_be_done(self) -> None:
        for first, wanted in ((None, int), (KeyboardInterrupt, Unwritten)):
            group = Group(
                Mock(
                    NamedPrimary,
                    pack=lambda commits: [1] * len(commits),
                    durable_end=0,
                    commit=Mock(side_effect=first),
                )
            )
            with patch.object(Group, "_leave", side_effect=KeyboardInterrupt):  # each time
                self.assertRaises(KeyboardInterrupt, group.commit, put(0, b"1"))
            with patch("pagelog.group._GONE", 0.001):
                self.assertEqual(list(map(type, self.told_another(group))), [wanted])


class Saying(unittest.TestCase):
    """Keepers that say what the test says."""

    def setUp(self) -> None:
        self.said: Callable[[list[str]], bytes] = lambda _: b""

    def keeper(self, said: Callable[[list[str]], bytes] | None = None) -> str:
        def serve(client: socket.socket) -> None:
            with client, client.makefile("rb") as lines:
                try:
                    for line in lines:
                        client.sendall(self.answer(line.decode().split(), said or self.said))
                except OSError:
                    pass

        listener = self.enterContext(socket.create_server(("127.0.0.1", 0)))
        accept_each(listener, serve)
        return f"127.0.0.1:{listener.getsockname()[1]}"

    def answer(self, words: list[str], said: Callable[[list[str]], bytes]) -> bytes:
        """Of a keeper of version 2: each answer says of which database and run it is."""
        if words[0] == "hello":
            return b"hello 2\n"
        of = [word for word in words if word.startswith("of=")]
        told = said([word for word in words if word not in of])
        if told.startswith((b"at ", b"standby ")) and len(told.split()) > 6:
            of = [f"of={DATABASE}/{told.decode('latin-1').split()[3]}"]
        is_told = told.endswith(b"\n") and not told.startswith(b"what")
        return told[:-1] + b"".join(f" {word}".encode() for word in of) + b"\n" if is_told else told


class Unopened(Saying):
    """Another keeper sees a take, and tells the place, before the one that took has let anybody in."""

    def setUp(self) -> None:
        super().setUp()
        self.served = Served("shop", "run", WIDE_TABLE, b"s" * 16, timeout=PATIENCE)
        self.served.start(
            Program(PROGRAM, "127.0.0.1", Path(self.enterContext(tempfile.TemporaryDirectory())))
        )
        self.addCleanup(self.served.end)
        self.asked: list[int] = []
        self.own = self.keeper(self.holder)
        self.primary = NamedPrimary(
            "shop",
            [self.keeper(self.another), self.own],
            2,
            token(2),
            (1, token(1)),
            patience=PATIENCE,
            timeout=PATIENCE,
        )
        self.addCleanup(self.primary.close)

    def another(self, words: list[str]) -> bytes:
        return (
            f"at shop 1 run {self.served.where.address} 0 {self.own} 0 0 0\n".encode()
            if words[-1] in ("shop", "1")
            else b""
        )

    def holder(self, words: list[str]) -> bytes:
        if words[0] == "next":
            self.asked.append(int(words[2]))
            self.next_asked()
        return (
            self.another(words) if self.served.is_open or words[0] == "next" else b"nowhere shop\n"
        )

    def next_asked(self) -> None:
        self.served.open()

    def commit(self) -> None:
        self.primary.append(put(0, b"1"))
        self.assertEqual(self.primary.commit(), 1)

    def test_a_place_that_lets_nobody_in_yet_is_waited_for_at_its_own_keeper(self) -> None:
        self.commit()
        self.assertEqual(self.asked, [1])

    def test_one_that_lets_nobody_in_still_is_not_asked_for_again_and_again(self) -> None:
        self.next_asked = lambda: None if len(self.asked) == 1 else self.served.open()  # type: ignore[method-assign]
        with patch("pagelog.place._HELD", 0.01):
            self.commit()
        self.assertEqual(
            (self.asked.count(1), set(self.asked)), (1, {1, 2})
        )  # how often for the next one is a matter of time


class Left(Saying):
    """A service that its keeper has released, and is killing: it is silent until its memory is freed."""

    def started(self, run: str) -> Served:
        served = Served("shop", run, WIDE_TABLE, b"s" * 16, timeout=PATIENCE)
        served.start(
            Program(PROGRAM, "127.0.0.1", Path(self.enterContext(tempfile.TemporaryDirectory())))
        )
        self.addCleanup(served.end)
        served.open()
        return served

    def test_a_service_that_is_being_ended_is_not_asked_who_writes(self) -> None:
        services, known, asked = [self.started("run1"), self.started("run2")], [1], list[str]()

        def at(generation: int) -> bytes:
            served = services[generation - 1]
            return f"at shop {generation} {served.run} {served.where.address} 0 {own} 0 0 {generation - 1} after=run{generation - 1}\n".encode()

        def another(words: list[str]) -> bytes:
            """It has not heard of the release yet."""
            return at(2 if words[0] == "next" else 1)

        def holder(words: list[str]) -> bytes:
            """It has released it when it is asked for the next generation, and knows of that once this is waited for."""
            if words[0] == "next":
                known[:] = [2]
            elif words[-1] == "2" and known == [1]:
                known.clear()
            return at(known[0]) if known else b"nowhere shop\n"

        own = self.keeper(holder)
        primary = NamedPrimary(
            "shop",
            [self.keeper(another), own],
            2,
            token(2),
            (1, token(1)),
            patience=PATIENCE,
            timeout=PATIENCE,
        )
        self.addCleanup(primary.close)
        primary.append(put(0, b"1"))
        self.assertEqual(primary.commit(), 1)
        services[1].fill([services[0].pulled(0)], 1, digest(b"", services[0].pulled(0)))
        services[0].close()

        def operator(connection: pagelog.Connection, credentials: Credentials) -> pagelog.Operator:
            asked.append(str(connection.address))
            return pagelog.Operator(connection, credentials)

        with patch("pagelog.named.Operator", operator):
            primary.append(put(0, b"2"))
            self.assertEqual(primary.commit(), 2)
        self.assertEqual(set(asked), {services[1].where.address})


def of_generation(number: int, run: str = "r") -> Place:
    return Place(number, run, "127.0.0.1:1", 0, "127.0.0.1:1", 0, 0, 0, DATABASE)


class Words(Saying):
    """Clients of the keepers' lines."""

    def setUp(self) -> None:
        super().setUp()
        self.answered = (
            answer
        ) = (
            _Line.answer
        )  # where the machine stands still for a second, it is no silence of a keeper
        self.enterContext(
            patch.object(_Line, "answer", lambda line, timeout: answer(line, PATIENCE))
        )
        self.keepers = Keepers("shop", [self.keeper(), self.keeper()], 0.0)
        self.addCleanup(self.keepers.close)

    def test_an_interrupt_anywhere_leaves_no_answer_to_the_next_question(self) -> None:
        at_generation = "at shop {} r 127.0.0.1:1 5 127.0.0.1:2 0 0 0\n"
        answers = {
            "next": at_generation.format(1),
            "where": at_generation.format(2),
            "block": "block shop 1 digest\n",
        }
        self.said = lambda words: answers[words[0]].encode()
        calls: list[Callable[[], object]] = [
            lambda: self.keepers.wait_for(1, 0),
            lambda: self.keepers.wait_for(9, 0),
            self.keepers.where,
            lambda: self.keepers.block(1),
        ]
        for number, call in enumerate(calls):
            at = 1
            while interrupted(call, "place.py", at):
                found = self.keepers.where()
                self.assertEqual((number, at, found and found.generation), (number, at, 2))
                at += 1
            self.assertGreater(at, 10)

    def test_what_an_older_keeper_answers_to_a_word_that_has_no_answer_is_left_out(self) -> None:
        asked: list[str] = []

        def said(words: list[str]) -> bytes:
            asked.append(words[0])
            return (
                f"what {words[0]}\n".encode()
                if words[0] in ("ring", "full")
                else f"at shop 2 r 127.0.0.1:1 5 {lines} 0 0 0\n".encode()
            )

        lines = self.keeper(said)
        keepers = Keepers("shop", [lines], PATIENCE)
        self.addCleanup(keepers.close)
        place = keepers.place()
        for _ in range(2):
            keepers.full(place)
            keepers.ring(place)
            self.assertEqual(keepers.where(), place)
        self.assertEqual(asked, ["where", *["where", "full", "ring", "where"] * 2])
        keepers.full(replace(place, lines="127.0.0.1:1"))  # nobody is there

    def older(self, **answers: str) -> str:
        """A keeper of version 1."""

        def serve(client: socket.socket) -> None:
            with client, client.makefile("rb") as lines:
                for line in lines:
                    words = line.decode().split()
                    told = (
                        answers.get(words[0], "") if not any("=" in word for word in words) else ""
                    )
                    client.sendall((told or f"what {words[0]}").encode() + b"\n")

        listener = self.enterContext(socket.create_server(("127.0.0.1", 0)))
        accept_each(listener, serve)
        return f"127.0.0.1:{listener.getsockname()[1]}"

    def test_what_an_older_keeper_says_is_durable_is_of_its_present_run(self) -> None:
        at = "at shop 1 {} 127.0.0.1:1 5 127.0.0.1:2 0 0 0"
        for run, answer, told in (
            ("r", "durable shop 1 7", GenerationFate(7, False)),
            ("another", "durable shop 1 7", None),
            ("r", "over shop 1 7", None),
        ):
            keepers = Keepers("shop", [self.older(where=at.format(run), durable=answer)], 0.0)
            self.addCleanup(keepers.close)
            with self.subTest(run=run, answer=answer), patch.object(
                Keepers, "where", return_value=None
            ):
                if told is None:
                    self.assertRaises(pagelog.TimedOut, keepers.fate, of_generation(1), 5)
                else:
                    self.assertEqual(keepers.fate(of_generation(1), 5), told)

    def test_where_all_keepers_are_older_a_client_is_refused(self) -> None:
        older = self.older(where="at shop 1 r 127.0.0.1:1 5 127.0.0.1:2 0 0 0")
        for others, error in (
            ([], OlderKeepers),
            (["127.0.0.1:1"], pagelog.TimedOut),
        ):  # one that is away may be a newer one
            keepers = Keepers("shop", [older, *others], 0.0)
            self.addCleanup(keepers.close)
            self.assertRaises(error, keepers.place)
        keepers = Keepers(
            "shop",
            [older, self.keeper(lambda _: b"at shop 1 r 127.0.0.1:1 4 127.0.0.1:2 0 0 0\n")],
            PATIENCE,
        )
        self.addCleanup(keepers.close)
        self.assertEqual(keepers.place().database, DATABASE)

    def test_who_knows_most_of_the_newest_generation_is_believed(self) -> None:
        """The place of one that has not looked for a while may be of a service that was ended since."""
        answers = [
            b"at shop %d r 127.0.0.1:%d %d 127.0.0.1:2 0 0 0\n" % of
            for of in ((2, 11, 5), (2, 12, 9), (2, 13, 7), (1, 14, 99))
        ]
        for order in itertools.permutations(answers):
            keepers = Keepers("shop", [self.keeper(lambda _, answer=answer: answer) for answer in order], 0.0)  # type: ignore[misc]
            self.addCleanup(keepers.close)
            place = keepers.where()
            self.assertEqual(
                place and (place.generation, place.address, place.archived), (2, "127.0.0.1:12", 9)
            )

    def test_a_keeper_whose_machine_is_gone_is_asked_now_and_then(self) -> None:
        """To connect to it takes a second. It is asked at once where no other is left."""
        gone, tries = self.keepers._addresses[0], list[int]()

        def connect(host: str, port: int, timeout: float, trust: object) -> socket.socket:
            tries.append(port)
            if gone.endswith(f":{port}"):
                raise TimeoutError("timed out")
            return dial(host, port, timeout)

        self.said = (
            lambda words: b"at shop 1 r 127.0.0.1:1 5 127.0.0.1:2 0 0 0\n"
            if words[0] == "where"
            else b"nowhere shop\n"
        )
        clock = Mock(return_value=0.0)
        with patch("pagelog.place.dial", connect), patch("pagelog.place.time.monotonic", clock):
            for _ in range(3):
                self.assertIsNotNone(self.keepers.where())
                self.assertIsNone(self.keepers.standby())
            self.assertEqual(len(tries), 2)
            clock.return_value = 11.0
            self.assertIsNotNone(self.keepers.where())
            self.assertEqual(len(tries), 3)
            self.keepers._left_out = dict.fromkeys(self.keepers._addresses, 20.0)
            self.assertIsNotNone(self.keepers.where())

    def test_a_keeper_that_always_takes_longer_is_heard(self) -> None:
        """Its machine is busy, and there is no other."""

        def said(_: list[str]) -> bytes:
            time.sleep(0.15)
            return b"at shop 1 r 127.0.0.1:1 5 127.0.0.1:2 0 0 0\n"

        keepers = Keepers("shop", [self.keeper(said)], 5.0)
        self.addCleanup(keepers.close)
        with patch.object(_Line, "answer", self.answered), patch("pagelog.place._ANSWER", 0.1):
            self.assertEqual(keepers.place().generation, 1)

    def test_a_keeper_that_stands_still_is_asked_now_and_then(self) -> None:
        """Each question to it takes a second. What becomes durable later is no silence."""
        still, answer, asked = self.keepers._addresses[0], _Line.answer, list[int]()

        def answered(line: _Line, timeout: float) -> list[str]:
            if still.endswith(f":{line._socket.getpeername()[1]}"):
                asked.append(1)
                raise TimeoutError("no whole answer came")
            return answer(line, timeout)

        self.said = (
            lambda words: b"at shop 1 r 127.0.0.1:1 5 127.0.0.1:2 0 0 0\n"
            if words[0] == "where"
            else b"nowhere shop\n"
        )
        with patch.object(_Line, "answer", answered):
            self.assertRaises(pagelog.TimedOut, self.keepers.fate, of_generation(1), 9)
            self.assertEqual((len(asked), self.keepers._left_out), (1, {}))
            for _ in range(3):
                self.assertIsNotNone(self.keepers.where())
                self.assertIsNone(self.keepers.standby())
            self.assertEqual(len(asked), 2)
            self.keepers._left_out = dict.fromkeys(self.keepers._addresses, float("inf"))
            self.assertIsNotNone(self.keepers.where())

    def test_words_that_are_none_are_no_answer(self) -> None:
        for answer in (
            "at shop x r 127.0.0.1:1 5 127.0.0.1:2 0 0 0",
            "at shop 1 r nowhere 5 127.0.0.1:2 0 0 0",
            "at shop 1 r 127.0.0.1:1",
            "standby shop 127.0.0.1:1 r 5 x 0",
            "standby shop - - 5 0 0",
            "durable shop 1 x",
            "over",
            "",
            "\xff",
        ):
            self.said = lambda _, answer=answer: answer.encode("latin-1") + b"\n"  # type: ignore[misc]
            with self.subTest(answer):
                self.assertEqual((self.keepers.where(), self.keepers.standby()), (None, None))
                self.assertRaises(pagelog.TimedOut, self.keepers.fate, of_generation(1), 5)

    def test_a_run_that_continues_under_a_later_number_is_named_with_what_is_archived(self) -> None:
        lines = self.keeper(
            lambda words: b"elsewhere shop 1\n"
            if words[0] == "durable"
            else f"at shop 7 r 127.0.0.1:1 4 {lines} 0 0 0\n".encode()
        )
        keepers = Keepers("shop", [lines], PATIENCE)
        self.addCleanup(keepers.close)
        fate = keepers.fate(of_generation(1), 5)
        assert fate.continues is not None
        self.assertEqual(
            (fate.end, fate.is_over, fate.continues.generation, fate.continues.run),
            (4, True, 7, "r"),
        )

    def test_what_became_of_another_generation_is_no_answer(self) -> None:
        self.said = lambda _: b"over shop 1 5\n"
        self.assertRaises(pagelog.TimedOut, self.keepers.fate, of_generation(2), 5)
        self.assertEqual(self.keepers.fate(of_generation(1), 7), GenerationFate(5, True))

    def test_how_far_its_holder_has_archived_all_that_it_has(self) -> None:
        for told, archived in (
            ("durable shop 1 9", 9),
            ("above shop 1 7", 7),
            ("above shop 1 4", 5),
            ("above shop 2 7", None),
            ("elsewhere shop 1", None),
            ("over shop 1 6", 6),
            ("lost shop 1 superseded by=7", None),
        ):
            asked: list[list[str]] = []
            self.said = lambda words, told=told: (asked.append(words), f"{told}\n".encode())[1]  # type: ignore[misc]
            place = replace(of_generation(1), lines=self.keepers._addresses[0])
            self.assertEqual(self.keepers.archived_at_once(place, 5, PATIENCE), archived, told)
            self.assertEqual(asked, [["durable", "shop", "1", "6"]])

    def test_what_became_of_another_run_is_no_answer(self) -> None:
        """Of the same number; by a keeper whose answers say of what they are, or which knows no better."""
        for told in (
            f"over shop 1 5 of={DATABASE}/another",
            f"durable shop 1 9 of={DATABASE}/another",
            "durable shop 1 9",
            f"lost shop 1 dropped of={DATABASE}/another",
        ):
            with patch.object(
                Words,
                "answer",
                lambda _, words, said, told=told: b"hello 2\n"
                if words[0] == "hello"
                else f"{told}\n".encode(),
            ):
                self.assertRaises(pagelog.TimedOut, self.keepers.fate, of_generation(1), 5)
        self.said = lambda _: b"lost shop 1 superseded by=7\n"
        self.assertEqual(
            self.keepers.fate(of_generation(1), 5),
            GenerationFate(
                0,
                True,
                True,
                "PostgreSQL went back, and has gone on with generation 7 without this run",
            ),
        )
        self.said = lambda _: b"lost shop 1 another by=0\n"
        self.assertRaisesRegex(Dropped, "another database", self.keepers.fate, of_generation(1), 5)

    def test_who_had_a_database_that_nobody_knows_is_told_once_a_keeper_says_what_became_of_it(
        self,
    ) -> None:
        """PostgreSQL has to say that, and may take long: till then its place is waited for."""
        answers = {"where": b"unknown shop\n", "durable": b""}
        self.said = lambda words: answers[words[0]]
        keepers = Keepers("shop", [self.keeper()], PATIENCE)
        self.addCleanup(keepers.close)
        self.assertRaises(UnknownName, keepers.where)
        keepers.is_of(of_generation(1))
        with patch("pagelog.place._SILENCE", 0.1), patch.object(_Line, "answer", self.answered):
            self.assertIsNone(keepers.where())
        answers["durable"] = b"elsewhere shop 1\n"
        self.assertRaises(UnknownName, keepers.where)
        answers["durable"] = b"lost shop 1 dropped\n"
        self.assertRaisesRegex(Dropped, "was dropped", keepers.where)

    def test_an_answer_that_came_while_this_process_stood_still(self) -> None:
        """It is there, though the time for it is over."""
        self.said = lambda _: b"at shop 1 r 127.0.0.1:1 5 127.0.0.1:2 0 0 0\n"
        self.assertIsNotNone(self.keepers.where())
        send = _Line.send

        def sent(line: _Line, words: Sequence[object], timeout: float) -> None:
            send(line, words, timeout)
            select.select([line], [], [], PATIENCE)

        with patch.object(_Line, "send", sent), patch(
            "pagelog.place.time.monotonic", itertools.count(step=2 * PATIENCE).__next__
        ):
            self.assertIsNotNone(self.keepers.where())

    def test_an_answer_that_comes_byte_by_byte(self) -> None:
        """The time for a whole answer is over, though a byte came each time within the time-out for silence."""
        slow, goes_on = socket.create_server(("127.0.0.1", 0)), threading.Event()
        self.addCleanup(goes_on.set)
        self.enterContext(slow)
        sent: list[int] = []

        def serve(client: socket.socket) -> None:
            while not goes_on.wait(0.001):
                try:
                    client.sendall(b"x")
                    sent.append(1)
                except OSError:
                    return

        accept_each(slow, serve)
        keepers = Keepers("shop", [f"127.0.0.1:{slow.getsockname()[1]}"], 0.0)
        self.addCleanup(keepers.close)
        with patch("pagelog.place.time.monotonic", itertools.count(step=PATIENCE / 5).__next__):
            self.assertEqual(keepers._ask(keepers._addresses[0], ("where", "shop"), PATIENCE), [])
        self.assertLess(len(sent), 1000)


if __name__ == "__main__":
    unittest.main()
