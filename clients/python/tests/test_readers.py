"""How old what a reader sees may be: a plain one of a run that was superseded, and one of what is durable."""

from __future__ import annotations

import os
import signal
import threading
import time
import unittest
from dataclasses import replace
from typing import Any
from unittest.mock import Mock, patch

import pagelog
from keepers import Keeping, eventually, new_database
from pagelog import NamedReader
from pagelog.keeper.keeping import Keeper
from pagelog.keeper.served import seconds
from pagelog.place import Dropped, GenerationFate, Place, _Line
from pagelog.polling import EACH, HolderPoll
from service import PATIENCE, put, token
from test_named import Named, Saying

READERS = 8


class Superseded(Named):
    """A service that lives on without its keeper, which stands still; another keeper knows the generation that has superseded it."""

    def setUp(self) -> None:
        super().setUp()
        self.asked = 0
        saying = Saying()
        saying.enterContext = self.enterContext  # type: ignore[method-assign]
        self.stands_still, self.may_go_on = False, threading.Event()
        self.addCleanup(self.may_go_on.set)

        def holder(words: list[str]) -> bytes:
            if self.stands_still:
                self.may_go_on.wait()
            return self.told(words)

        self.addresses = [saying.keeper(holder), saying.keeper(self.told)]
        answer = _Line.answer

        def answered(line: _Line, timeout: float) -> list[str]:
            """Of the one that does not stand still, however slow this machine is."""
            is_still = self.addresses[0].endswith(f":{line._socket.getpeername()[1]}")
            return answer(line, timeout if is_still else PATIENCE)

        self.enterContext(patch.object(_Line, "answer", answered))

    def told(self, words: list[str]) -> bytes:
        place = self.places[-1]
        self.asked += words[0] == "where"
        if words[0] != "where":
            return b"what " + words[0].encode() + b"\n"
        return f"at shop {place.generation} {place.run} {place.address} {place.archived} {self.addresses[-1]} 0 0 {place.kept}\n".encode()

    def commit(self, count: int) -> None:
        with self.of_run(pagelog.Primary, 2) as primary:
            for _ in primary.stream([put(0, b"1")] for _ in range(count)):
                pass

    def reader(self) -> NamedReader:
        return self.enterContext(
            NamedReader("shop", self.addresses, 3, token(3), patience=PATIENCE, timeout=PATIENCE)
        )

    def superseded(self) -> None:
        self.stands_still = True
        self.begin()
        self.commit(7)

    def test_a_reader_that_goes_on_reading_moves(self) -> None:
        self.begin()
        self.commit(2)
        reader = self.reader()
        self.assertEqual(reader.end(), 2)
        self.superseded()
        eventually(lambda: reader.end() == 7, "the end of the next generation")
        self.assertEqual(len(list(reader.blocks(1, follow=False))), 7)

    def idle_reader(self) -> NamedReader:
        """One whose poll has ended."""
        self.begin()
        self.commit(2)
        reader = self.reader()
        self.assertEqual((reader.end(), reader.end()), (2, 2))
        eventually(
            lambda: reader._poll is not None and reader._poll._thread is None,
            "the end of the poll of an idle reader",
        )
        return reader

    def test_one_that_has_not_read_for_a_while_asks_before_it_reads(self) -> None:
        reader = self.idle_reader()
        self.superseded()
        with patch("pagelog.polling._ANSWER", PATIENCE):
            self.assertEqual(reader.end(), 7)

    def test_nor_does_one_of_a_process_that_stood_still_trust_what_was_said_before(self) -> None:
        """Its poll stood still with it, and its thread is there."""
        self.begin()
        self.commit(2)
        reader = self.reader()
        late = [0.0]
        with patch(
            "pagelog.polling.time.monotonic", lambda now=time.monotonic: now() + late[0]
        ), patch("pagelog.polling.EACH", PATIENCE):
            self.assertEqual((reader.end(), reader.end()), (2, 2))
            eventually(
                lambda: reader._poll is not None and reader._poll._asked > 0, "the first round"
            )
            self.superseded()
            late[0] = 60.0
            with patch("pagelog.polling._ANSWER", PATIENCE):
                self.assertEqual(reader.end(), 7)

    def test_a_drop_that_postgresql_has_undone_is_told_no_more(self) -> None:
        place = Place(1, "r", "127.0.0.1:1", 0, "127.0.0.1:2", 0, 0)
        poll = HolderPoll("shop", ["127.0.0.1:2"], place)
        poll._keepers = Mock(
            where=Mock(side_effect=[Dropped("shop", "the database was dropped"), *[place] * 1000])
        )

        def is_told() -> bool:
            try:
                return poll.superseding(place, 0.0) is not None
            except Dropped:
                return True

        with patch("pagelog.polling._ANSWER", PATIENCE):
            self.assertTrue(is_told())
            eventually(lambda: not is_told(), "a place after the drop")

    def test_a_poll_that_comes_late_to_its_first_round_asks(self) -> None:
        reader = self.idle_reader()
        self.superseded()
        start, late = threading.Thread.start, [0.0]

        def started(thread: threading.Thread) -> None:
            late[0] += 60.0 if thread.name == "pagelog-holder" else 0.0
            start(thread)

        with patch(
            "pagelog.polling.time.monotonic", lambda now=time.monotonic: now() + late[0]
        ), patch.object(threading.Thread, "start", started):
            with patch("pagelog.polling._ANSWER", 10.0):
                self.assertEqual(reader.end(), 7)

    def test_keepers_are_asked_for_all_readers_of_a_process_together(self) -> None:
        self.begin()
        self.commit(2)
        readers = [self.reader() for _ in range(READERS)]
        self.assertEqual({reader.end() for reader in readers}, {2})
        before, since = self.asked, time.monotonic()
        while time.monotonic() - since < 2 * EACH:
            self.assertEqual({reader.end() for reader in readers}, {2})
        rounds = (time.monotonic() - since) / EACH + 1
        self.assertLessEqual(self.asked - before, len(self.addresses) * rounds)


class Durable(Named):
    """One of what is durable, and keepers of which one knows less than another."""

    def setUp(self) -> None:
        super().setUp()
        self.keepers.standby.return_value = None
        self.archived = 0
        self.keepers.where.side_effect = lambda: replace(self.places[-1], archived=self.archived)
        self.keepers.fate_at_once.return_value = self.keepers.archived_at_once.return_value = None

    def reader(self) -> Any:
        return self.named(NamedReader, 3, durable_only=True)

    def test_an_end_never_falls(self) -> None:
        service = self.begin()
        self.commit(9)
        reader, self.archived = self.reader(), 9
        self.assertEqual(reader.end(), 9)
        self.begin()
        self.commit(9)
        service.stop()
        self.archived, looks = 5, iter(range(5, 10))
        self.keepers.where.side_effect = lambda: replace(self.places[-1], archived=next(looks, 9))
        self.assertEqual(reader.end(), 9)
        self.assertIsNone(next(looks, None), "it was answered before a keeper knew of as much")

    def test_nor_is_that_of_a_standby_taken_which_has_less(self) -> None:
        service = self.begin()
        self.commit(9)
        reader, self.archived = self.reader(), 9
        self.assertEqual(reader.end(), 9)
        standby = self.begin()
        self.commit(4)
        behind = replace(self.places.pop(), generation=0, archived=9)
        self.begin()
        self.commit(9)
        service.stop()
        self.keepers.standby.return_value = behind
        self.assertEqual(reader.end(), 9)
        self.assertNotEqual(reader.place.address, standby.address)

    def test_where_it_was_is_nowhere_any_more_it_says_so(self) -> None:
        self.begin()
        self.commit(9)
        reader, self.archived = self.reader(), 9
        self.assertEqual(reader.end(), 9)
        self.begin()
        self.archived, self.keepers.patience = 0, 0.0
        reader._leave()
        with self.assertRaisesRegex(pagelog.TimedOut, "position 9, which was durable"):
            reader.end()

    def test_what_is_in_the_log_is_archived_as_soon_as_it_looks(self) -> None:
        self.begin()
        self.commit(9)

        def archive(place: Place, position: int, _: float) -> GenerationFate:
            self.archived = position
            return GenerationFate(position, False)

        self.keepers.fate_at_once.side_effect = archive
        reader = self.reader()
        self.assertEqual((reader.end(), reader.page(0).at), (9, 9))

    def test_keepers_that_do_not_answer_are_not_asked_each_time(self) -> None:
        self.begin()
        self.commit(9)
        with patch("pagelog.named_reader._LEAST_PAUSE", PATIENCE), patch(
            "pagelog.named_reader._LONGEST_PAUSE", PATIENCE
        ):
            reader = self.reader()
        self.archived = 4
        self.assertEqual([reader.end() for _ in range(10)], [4] * 10)
        self.keepers.fate_at_once.assert_called_once()

    def at_standby(self) -> Any:
        """A reader at a standby that has 4 of 9 blocks, which are archived."""
        self.begin()
        self.commit(4)
        standby = replace(self.places[-1], generation=0, archived=4)
        self.begin()
        self.commit(9)
        self.archived, self.keepers.standby.return_value = 4, standby
        return self.reader()

    def test_a_standby_is_told_once_its_holder_has_archived(self) -> None:
        """What is archived meanwhile."""
        reader = self.at_standby()
        self.keepers.archived_at_once.side_effect = (
            lambda place, known, _: 4 if place.generation > 0 else None
        )
        self.assertEqual((reader.end(), reader.place.generation), (4, 0))
        self.keepers.follow.assert_not_called()
        self.keepers.archived_at_once.side_effect = lambda place, known, _: 5

        def follow(place: Place) -> None:
            with self.of_run_at(place) as primary:
                primary.append(put(0, b"5"))
                primary.commit()

        self.keepers.follow.side_effect = follow
        with patch("pagelog.named_reader._AT_ONCE", PATIENCE):
            eventually(lambda: bool(reader.end() == 5), "what is archived")
        self.keepers.follow.assert_called_once()

    def of_run_at(self, place: Place) -> Any:
        return self.enterContext(
            pagelog.Primary(
                pagelog.Connection(place.address, timeout=PATIENCE),
                pagelog.Credentials(2, self.token(2, place.run)),
            )
        )

    def test_a_standby_that_does_not_follow_is_not_waited_for_each_time(self) -> None:
        for archived in (9, None):  # nor a holder that does not answer
            with self.subTest(archived=archived), patch(
                "pagelog.named_reader._LEAST_PAUSE", PATIENCE
            ), patch("pagelog.named_reader._LONGEST_PAUSE", PATIENCE):
                reader = self.at_standby()
                self.keepers.archived_at_once.reset_mock()
                self.keepers.archived_at_once.return_value = archived
                self.assertEqual([reader.end() for _ in range(10)], [4] * 10)
                self.keepers.archived_at_once.assert_called_once()

    def commit(self, count: int) -> None:
        with self.of_run(pagelog.Primary, 2) as primary:
            for _ in primary.stream([put(0, b"1")] for _ in range(count)):
                pass


class Looks(unittest.TestCase):
    def test_however_often_a_keeper_is_told_it_looks_a_while_after_the_last_look(self) -> None:
        keeper, loop = Keeper.__new__(Keeper), Mock()
        keeper._next_look, keeper._looked, keeper._session = None, seconds() + PATIENCE, Mock()
        with patch("pagelog.keeper.keeping.asyncio.get_running_loop", lambda: loop):
            for _ in range(100):
                keeper._look_soon()
            [call] = loop.call_later.mock_calls
            self.assertGreater(call.args[0], 0)
            keeper._see_next_look()
            keeper._look_soon()
        self.assertEqual(loop.call_later.call_count, 2)


class Keepers(unittest.TestCase):
    """Real ones."""

    def test_a_reader_leaves_the_service_of_a_keeper_that_stands_still(self) -> None:
        keeping = self.enterContext(Keeping())
        new_database(keeping.referee, "shop")
        keeping.start("a", "b")
        with keeping.primary() as primary, keeping.reader() as reader:
            primary.append(put(0, b"1"))
            self.assertEqual((primary.commit(durable=True), reader.end()), (1, 1))
            place = keeping.place()
            holder = next(
                name for name, port in keeping.ports.items() if place.lines.endswith(f":{port}")
            )
            service = keeping.pid()
            keeping.kill(holder, signal.SIGSTOP)
            for number in (
                2,
                3,
            ):  # the first of them came into the log of the service that it has left, too
                primary.append(put(0, b"%d" % number))
                self.assertEqual(primary.commit(durable=True), number)
            eventually(lambda: reader.end() == 3, "the end of the next generation")
            os.kill(service, 0)  # the service that it has left lives
            keeping.kill(holder, signal.SIGCONT)

    def test_what_is_durable_is_seen_though_no_keeper_polls(self) -> None:
        """Beside a writer that does not wait until its commits are durable."""
        keeping = self.enterContext(Keeping(ttl=60.0, standby=False))
        new_database(keeping.referee, "shop")
        keeping.start("a")
        with keeping.primary() as primary, keeping.reader(durable_only=True) as reader:
            for number in range(1, 21):
                primary.append(put(0, b"%d" % number))
                self.assertEqual(primary.commit(), number)
                eventually(lambda: reader.end() == number, "the word that it is durable")

    def test_so_it_is_at_a_standby(self) -> None:
        """Where no keeper looks by itself as long as the test may take."""
        keeping = self.enterContext(Keeping(ttl=100 * PATIENCE))
        new_database(keeping.referee, "shop")
        keeping.start("a")
        keeping.place()
        keeping.start("b")
        with keeping.primary() as primary:
            primary.append(put(0, b"0"))
            self.assertEqual(primary.commit(durable=True), 1)
            eventually(lambda: self.has_standby(keeping), "a standby")
            with keeping.reader(durable_only=True) as reader:
                eventually(lambda: self.finds_standby(keeping, reader), "the standby's place")
                for number in range(2, 22):
                    primary.append(put(0, b"%d" % number))
                    self.assertEqual(primary.commit(), number)
                    eventually(lambda: reader.end() == number, "the word that it is durable")
                    self.assertTrue(self.is_at_standby(reader))

    def has_standby(self, keeping: Keeping) -> bool:
        keeping.ring()
        return keeping.standbys() == {"b": 1}

    def finds_standby(self, keeping: Keeping, reader: NamedReader) -> bool:
        keeping.ring()
        reader._leave()
        return reader.end() == 1 and self.is_at_standby(reader)

    def is_at_standby(self, reader: NamedReader) -> bool:
        assert reader.place is not None
        return reader.place.generation == 0


if __name__ == "__main__":
    unittest.main()
