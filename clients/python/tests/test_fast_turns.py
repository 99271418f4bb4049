"""Turns that the thread of the fast path gives: its rules beside those of turns.py, in conversations at random, and its lines at a keeper."""

from __future__ import annotations

import asyncio
import contextlib
import ctypes
import fcntl
import os
import random
import socket
import sys
import termios
import unittest
from typing import Any, Callable
from unittest import mock

from pagelog.keeper import fast_calls
from pagelog.keeper.fast_turns import FastTurns, How
from pagelog.keeper.lines import Line
from pagelog.keeper.turns import BEATS, MOST_WAITING, Turns
from service import PATIENCE
from test_fast_path import Client, Hot

TTL_MS = 3000
SAY = ctypes.CFUNCTYPE(None, ctypes.c_void_p, ctypes.c_uint64, ctypes.c_char_p)


class Heard:
    """A connection that keeps what was said."""

    def __init__(self, number: int, asker: int = 0) -> None:
        self.number, self.asker = number, asker
        self.lines: list[str] = []

    def say(self, *words: object) -> None:
        self.lines.append(" ".join(map(str, words)))


class Clock:
    """Of the rules in Python: in milliseconds, and as slow as the test likes."""

    RANKS = ("_begin", "_end_slice", "_beat", "_pass_on")
    """What comes first of what is due at the same time."""

    def __init__(self) -> None:
        self.now = 1000
        self.open: list[tuple[int, int, Callable[[], None]]] = []

    def __call__(self, seconds: float, what: Callable[[], None]) -> Any:
        entry = (self.now + round(1000 * seconds), self.RANKS.index(what.__name__), what)
        self.open.append(entry)
        clock = self

        class Handle:
            def cancel(self) -> None:
                if entry in clock.open:
                    clock.open.remove(entry)

        return Handle()

    def go_to(self, now: int) -> None:
        while self.open and (first := min(self.open, key=lambda each: each[:2]))[0] <= now:
            self.open.remove(first)
            self.now = first[0]
            first[2]()
        self.now = now


class OfC:
    """The rules of the thread, with a clock of the test's."""

    def __init__(self, generation: int, now: int) -> None:
        self.library = fast_calls.library()
        self.said: dict[int, list[str]] = {}
        self._callback = SAY(self._hear)
        number, turns = ctypes.c_uint64, ctypes.c_void_p
        for name, kinds in (
            ("turns_ask", [turns, number, number, ctypes.c_int, ctypes.c_int64]),
            ("turns_back", [turns, number, ctypes.c_int64, ctypes.c_int64]),
            ("turns_hold", [turns, number]),
            ("turns_gone", [turns, number, ctypes.c_int64]),
            ("turns_has", [turns, number]),
            ("turns_epoch", [turns, number]),
            ("turns_next", [turns, number, ctypes.c_int, ctypes.c_int64]),
            ("turns_expect", [turns, ctypes.c_int64]),
            ("turns_see_clock", [turns, ctypes.c_int64]),
            ("turns_free", [turns]),
        ):
            getattr(self.library, name).argtypes = kinds
        self.library.turns_see_clock.restype = self.library.turns_epoch.restype = ctypes.c_int64
        new = self.library.turns_new
        new.restype = turns
        new.argtypes = [
            ctypes.c_char_p,
            number,
            ctypes.c_int64,
            ctypes.c_int64,
            SAY,
            ctypes.c_void_p,
        ]
        self.turns = new(b"shop", generation, TTL_MS, now, self._callback, None)
        self.now = now
        self.see_clock()

    def _hear(self, _: object, line: int, text: bytes) -> None:
        if text:
            self.said.setdefault(line, []).append(text.decode())

    def see_clock(self) -> None:
        self.due = int(self.library.turns_see_clock(self.turns, self.now))

    def go_to(self, now: int) -> None:
        while self.due <= now:
            self.now = self.due
            self.see_clock()
            assert self.due > self.now, "what is due is not done"
        self.now = now

    def close(self) -> None:
        self.library.turns_free(self.turns)


class Both:
    """The same conversation with both. What each says to a line is the same, and who has or awaits the turn."""

    def __init__(self, test: unittest.TestCase, generation: int = 1, lines: int = 5) -> None:
        self.test = test
        self.clock = Clock()
        self.python = Turns("shop", generation, self.clock)
        self.c = OfC(generation, self.clock.now)
        self.lines = [Heard(number) for number in range(1, lines + 1)]
        self.gone_ones: list[Heard] = []
        self.told: list[str] = []
        """What was done, for who looks at a failure."""

    def ask(self, line: Heard, how: How) -> None:
        self.python.ask(
            line,  # type: ignore[arg-type]
            now=How.NOW in how,
            mine=How.MINE in how,
            heartbeat=How.HEARTBEAT in how,
            slices=How.SLICES in how,
        )
        self.c.library.turns_ask(self.c.turns, line.number, line.asker, how, self.c.now)

    def back(self, line: Heard, epoch: int | None) -> None:
        self.python.back(line, epoch)  # type: ignore[arg-type]
        self.c.library.turns_back(
            self.c.turns, line.number, -1 if epoch is None else epoch, self.c.now
        )

    def hold(self, line: Heard) -> None:
        self.python.hold(line)  # type: ignore[arg-type]
        self.c.library.turns_hold(self.c.turns, line.number)

    def gone(self, line: Heard) -> None:
        self.python.gone(line)  # type: ignore[arg-type]
        self.c.library.turns_gone(self.c.turns, line.number, self.c.now)
        self.lines.remove(line)
        self.gone_ones.append(line)
        last = max(each.number for each in (*self.lines, *self.gone_ones))
        self.lines.append(Heard(last + 1))

    def expect(self) -> None:
        self.python.expect()
        self.c.library.turns_expect(self.c.turns, self.c.now)

    def next(self, generation: int, is_whole: bool) -> None:
        after = self.python.next(generation, is_whole=is_whole)
        assert isinstance(after, Turns)
        self.python = after
        self.c.library.turns_next(self.c.turns, generation, is_whole, self.c.now)

    def wait(self, ms: int) -> None:
        now = self.clock.now + ms
        self.clock.go_to(now)
        self.c.go_to(now)

    def compare(self) -> None:
        self.c.see_clock()
        for line in (*self.lines, *self.gone_ones):
            self.test.assertEqual(
                (self.c.said.get(line.number, []), bool(self.c.library.turns_has(self.c.turns, line.number))),
                (line.lines, line in self.python),
                f"line {line.number} after {self.told}",
            )  # fmt: skip


class Rules(unittest.TestCase):
    def setUp(self) -> None:
        self.seconds = self.enterContext(mock.patch("pagelog.keeper.turns.time.monotonic"))

    def both(self, generation: int = 1, lines: int = 5) -> Both:
        self.seconds.side_effect = lambda: 1.0  # as a clock begins
        both = Both(self, generation, lines)
        self.seconds.side_effect = lambda: both.clock.now / 1000
        self.addCleanup(both.c.close)
        return both

    def play(self, chance: random.Random, both: Both, steps: int) -> None:
        """Most of the time it is about the one that has the turn."""
        for _ in range(steps):
            line = chance.choice(both.lines)
            if chance.random() < 0.5:
                line = next((each for each in both.lines if each is both.python._holder), line)
            match chance.choices(
                ("ask", "back", "hold", "wait", "gone", "expect", "next"),
                (40, 25, 10, 20, 2, 2, 1),
            ):
                case ["ask"]:
                    how = sum(each for each in How if chance.random() < 0.4)
                    both.told.append(f"{line.number} asks {How(how)!r}")
                    both.ask(line, How(how))
                case ["back"]:
                    epoch = chance.choice((None, 3, 4, 4_294_967_295))
                    both.told.append(f"{line.number} gives back {epoch}")
                    both.back(line, epoch)
                case ["hold"]:
                    both.told.append(f"{line.number} holds")
                    both.hold(line)
                case ["wait"]:
                    ms = chance.choice((1, 5, 10, 11, 250, 750, 751, 999, 1000, 3001, 13_000))
                    both.told.append(f"{ms} ms")
                    both.wait(ms)
                case ["gone"]:
                    both.told.append(f"{line.number} is gone")
                    both.gone(line)
                case ["expect"]:
                    both.told.append("expected")
                    both.expect()
                case ["next"]:
                    generation = both.python.generation + chance.choice((1, 1, 2))
                    is_whole = chance.random() < 0.5
                    both.told.append(f"generation {generation}, {is_whole=}")
                    both.next(generation, is_whole)
            both.compare()

    def test_in_any_conversation_they_say_what_the_rules_in_python_say(self) -> None:
        seen: set[str] = set()
        for seed in range(300):
            chance = random.Random(seed)
            both = self.both(chance.choice((1, 2)), chance.choice((2, 3, 5)))
            self.play(chance, both, 120)
            seen |= {text for each in (*both.lines, *both.gone_ones) for text in each.lines}
        for text in (
            "turn shop other",
            "turn shop same",
            "turn shop other epoch=4",
            "turn shop other kept slice=10",
            "turn shop other kept epoch=4294967295 slice=10",
            "wanted shop",
            "busy shop",
            "soon shop",
            "elsewhere shop",
        ):
            self.assertIn(text, seen)

    def test_one_that_has_the_turn_again_and_again_keeps_it(self) -> None:
        for heartbeat in (How(0), How.HEARTBEAT):
            both = self.both()
            for _ in range(20):
                both.ask(both.lines[0], heartbeat)
                both.compare()
                both.back(both.lines[0], None)
            both.ask(both.lines[0], heartbeat)
            both.compare()
            self.assertEqual(both.lines[0].lines[-1], "turn shop same kept")
            both.ask(both.lines[1], How.HEARTBEAT)
            for _ in range(BEATS + 2):
                both.wait(TTL_MS // BEATS)
                both.compare()
            self.assertEqual(both.lines[1].lines, ["turn shop other"])

    def test_it_is_early_for_so_long_at_most(self) -> None:
        both = self.both(generation=2)
        both.ask(both.lines[0], How(0))
        for _ in range(6):
            both.wait(900)
            both.expect()
            both.compare()
        self.assertEqual(both.lines[0].lines, ["turn shop other"])

    def test_the_epoch_that_a_writer_is_expected_in(self) -> None:
        both = self.both()
        one, other = both.lines[:2]

        def expected(generation: int = 1) -> int:
            return int(both.c.library.turns_epoch(both.c.turns, generation))

        def has_it(line: Heard, epoch: int | None) -> list[int]:
            both.ask(line, How(0))
            during = expected()
            both.back(line, epoch)
            return [during, expected()]

        self.assertEqual(expected(), -1)
        told = [
            has_it(*each) for each in ((one, 5), (other, 6), (other, None), (one, None), (other, 9))
        ]
        self.assertEqual(told, [[-1, 5], [6, 6], [6, 6], [7, 6], [7, 9]])
        self.assertEqual(expected(2), -1)
        both.next(2, is_whole=True)
        self.assertEqual((expected(1), expected(2)), (-1, -1))

    def test_one_principal_has_so_many_waits(self) -> None:
        both = self.both(lines=MOST_WAITING + 4)
        for line in both.lines[:-1]:
            line.asker = 1
        for line in both.lines:
            both.ask(line, How(0))
        both.compare()
        refused = [line for line in both.lines if line.lines == ["elsewhere shop"]]
        self.assertEqual(refused, both.lines[MOST_WAITING + 1 : -1])
        both.ask(both.lines[1], How.HEARTBEAT)
        both.compare()


class Writers(Hot):
    """Writers of a database that a keeper holds."""

    @property
    def of(self) -> str:
        return f"of={self.database.row.identity}/r1"

    def turn(self, how: str = " heartbeat") -> str:
        return f"turn shop{how} {self.of}"

    def back(self, epoch: int | None = None) -> str:
        return f"back shop{'' if epoch is None else f' epoch={epoch}'} {self.of}"

    @property
    def turns(self) -> FastTurns:
        turns = self.keeper._turns._turns["shop"]
        assert isinstance(turns, FastTurns)
        return turns

    async def greeted(self) -> Client:
        client = self.client()
        self.assertTrue((await client.ask("hello 2")).startswith("hello 2 nonce="))
        return client

    async def writer(self) -> Client:
        """One whose line the thread reads: it has had the turn, and given it back."""
        client = await self.greeted()
        while True:  # one that was answered from elsewhere is lent with its next question
            self.assertTrue((await client.ask(self.turn())).startswith("turn shop "))
            client.send(self.back())
            if self.is_read(client):
                return client

    def line_of(self, client: Client) -> Line:
        """The keeper's end of it."""
        name = client.socket.getsockname()
        for line in self.keeper._server._open._lines:
            if line._transport and line._transport.get_extra_info("peername") == name:
                return line
        raise AssertionError("it has no line")

    def is_read(self, client: Client) -> bool:
        """Whether the thread reads its line."""
        return self.turns._numbers.get(self.line_of(client)) in self.turns._lent

    def is_taken(self, client: Client) -> bool:
        """Whether the thread, or the keeper, has read all that it has sent."""
        transport = self.line_of(client)._transport
        assert transport is not None
        ends = (
            (client.socket, termios.TIOCOUTQ),  # first: what has not come to the other end
            (transport.get_extra_info("socket"), termios.FIONREAD),
        )
        return not any(
            int.from_bytes(fcntl.ioctl(end.fileno(), what, bytes(4)), sys.byteorder)
            for end, what in ends
        )

    def said_at_once(self, client: Client) -> str:
        """The next line, while nothing of the keeper's Python goes on."""
        client.socket.settimeout(PATIENCE)
        while b"\n" not in client._left:
            data = client.socket.recv(4096)
            self.assertTrue(data, "it was ended")
            client._left += data
        client.socket.setblocking(False)
        line, _, client._left = client._left.partition(b"\n")
        return line.decode()


class Lines(Writers):
    async def test_a_hand_over_waits_for_no_python(self) -> None:
        a, b = await self.writer(), await self.writer()
        for epoch in range(7, 20, 2):
            a.send(self.turn())
            self.assertTrue(self.said_at_once(a).startswith("turn shop other"))
            b.send(self.turn())
            a.send(self.back(epoch))
            self.assertEqual(self.said_at_once(b), f"turn shop other epoch={epoch}")
            b.send(self.back(epoch + 1))
            a.send(self.turn(" slices heartbeat"))
            self.assertEqual(
                self.said_at_once(a), f"turn shop other kept epoch={epoch + 1} slice=10"
            )
            self.assertEqual(self.said_at_once(a), "wanted shop")  # a slice ends, whoever waits
            a.send(self.back())
            b.send(self.turn(), self.back())
            self.assertTrue(self.said_at_once(b).startswith("turn shop other"))

    async def test_it_is_told_in_whatever_pieces_it_comes(self) -> None:
        a, b = await self.writer(), await self.writer()
        for byte in f"{self.turn()}\n{self.back(5)}\n":
            a.raw(byte.encode())
        self.assertTrue(self.said_at_once(a).startswith("turn shop "))
        b.send(self.turn())
        self.assertEqual(self.said_at_once(b), "turn shop other epoch=5")

    async def test_a_turn_ends_with_its_connection_at_once(self) -> None:
        a, b, c = [await self.writer() for _ in range(3)]
        a.send(self.turn())
        self.said_at_once(a)
        b.send(self.turn())
        line = self.line_of(b)
        b.socket.close()
        await self.until(lambda: line not in self.turns._numbers, "the end of who waits")
        c.send(self.turn())
        a.socket.close()
        self.assertEqual(self.said_at_once(c), "turn shop other")
        await self.until(lambda: len(self.turns._numbers) == 1, "the end of who had it")
        self.assertEqual((len(self.turns._lent), len(self.turns._lines)), (1, 1))
        self.line_of(c).close()  # as the keeper does
        await self.until(lambda: not self.turns._numbers, "the end of the last")
        self.assertEqual((self.turns._lent, self.turns._lines), ({}, {}))
        self.assertEqual(await (await self.greeted()).ask(self.turn(" now")), "turn shop other")

    async def test_other_words_are_answered_in_their_order_and_the_turn_stays(self) -> None:
        a, b = await self.writer(), await self.writer()
        await a.ask(self.turn())
        b.send(self.turn())
        a.send("where nobody", f"hold shop {self.of}", "nonsense", "standby shop")
        for told in ("nowhere nobody", "what nonsense", "standby shop - - - - -"):
            self.assertEqual(await a.answer(), told)
        self.assertFalse(self.is_read(a))
        self.assertTrue(self.keeper.awaits(self.line_of(a)))
        self.assertFalse(b.has_answer())
        a.send(self.back(9))
        self.assertEqual(await b.answer(), "turn shop other epoch=9")
        self.assertFalse(self.keeper.awaits(self.line_of(a)))
        a.send(
            self.turn(), "where nobody"
        )  # there is more to read: it is told what the thread says
        self.assertEqual(await a.answer(), "nowhere nobody")
        self.assertFalse(self.is_read(a))
        b.send(self.back(11))
        self.assertEqual(await a.answer(), "turn shop other epoch=11")
        self.assertEqual(await a.ask(self.turn()), "turn shop same")
        self.assertTrue(self.is_read(a))

    async def test_what_is_no_such_word_is_for_the_keeper(self) -> None:
        a, g = await self.writer(), self.served.generation
        other = f"of={self.database.row.identity}/r9"
        for words, told in (
            (f"turn shop heartbeat {other}", "elsewhere shop"),
            (f"turn ship heartbeat {self.of}", "elsewhere ship"),
            ("turn shop heartbeat", "turn shop same"),
            (f"turn shop  heartbeat {self.of}", "turn shop same"),
            (f"turn shop {self.of}\r", "turn shop same"),
            (f"turn shop epoch=7 {self.of}", "turn shop same"),
            (f"durable ship {g} 1 {self.of}", "unknown ship"),
            (f"turn {self.of} shop", "turn shop same"),
            (f"turn shop what=1 {self.of}", "turn shop same"),
            ("turn", "what turn"),
            ("", "what"),
            ("\0", "what \0"),
        ):
            self.assertIn(await a.ask(self.turn()), ("turn shop same", "turn shop same kept"))
            self.assertTrue(self.is_read(a), words)
            answer = await a.ask(words)
            self.assertEqual(answer.partition(" of=")[0].removesuffix(" kept"), told, words)
            self.assertEqual(self.is_read(a), told.startswith("turn ") and "of=" in words, words)
            a.send(self.back())
        for words in (f"back shop epoch=x {self.of}", f"back shop epoch= {self.of}", "x" * 1025):
            b = await self.writer()
            b.send(words)
            self.assertEqual(await b.answer(), "")  # a number that is none, and too much
        b = await self.writer()
        await b.ask(self.turn())
        b.send(f"back shop epoch=99999999999 {self.of}")  # it is no epoch
        self.assertEqual(await a.ask(self.turn()), "turn shop other")

    async def test_an_older_client_is_told_no_keys(self) -> None:
        a, old = await self.writer(), self.client()
        await a.ask(self.turn())
        await old.ask("where nobody")
        old.send("turn shop")
        await self.until(lambda: self.keeper.awaits(self.line_of(old)), "its question")
        a.send(self.back(7))
        self.assertEqual(await old.answer(), "turn shop other")
        self.assertFalse(self.is_read(old))
        self.assertEqual(await a.ask(self.turn(" now")), "busy shop")
        old.send("back shop")
        await self.until(lambda: not self.keeper.awaits(self.line_of(old)), "what it gave back")
        self.assertEqual(await a.ask(self.turn()), "turn shop other epoch=7")
        self.assertEqual(await old.ask("turn shop now"), "busy shop")
        self.assertFalse(self.keeper.awaits(self.line_of(old)))

    async def test_a_generation_that_is_over_gives_all_lines_back(self) -> None:
        for after in (self.served.generation + 1, None):
            a, b = await self.writer(), await self.writer()
            await a.ask(self.turn())
            b.send(self.turn())
            await self.until(lambda: self.is_taken(b), "its question")
            turns = self.turns
            self.keeper._turns.changed("shop", after)
            self.assertEqual(await b.answer(), "elsewhere shop")
            await self.until(lambda: not turns._lent, "the lines")
            self.assertEqual(await a.ask("where nobody"), "nowhere nobody")
            self.assertEqual(turns._is_over, after is None)
            self.assertEqual(await b.ask(self.turn()), "turn shop other")
            b.send(self.back())

    async def test_what_the_keeper_is_still_to_tell_comes_first(self) -> None:
        """Or the thread would tell what comes later."""
        a = await self.greeted()
        a.send(self.turn(), "where nobody")
        for _ in range(2):
            self.assertIn(await a.answer(), ("nowhere nobody", "turn shop other"))
        self.turns._heard -= 1
        self.assertEqual(await a.ask(self.turn()), "turn shop same")
        await self.until(lambda: not self.is_read(a), "its line")
        self.turns._heard += 1
        self.assertEqual(await a.ask(self.turn()), "turn shop same")
        self.assertTrue(self.is_read(a))

    async def test_who_does_not_read_holds_up_nobody(self) -> None:
        a, b = await self.writer(), await self.writer()
        transport = self.line_of(a)._transport
        assert transport is not None
        transport.get_extra_info("socket").setsockopt(socket.SOL_SOCKET, socket.SO_SNDBUF, 1)
        asked, left, count = f"{self.turn('')}\n{self.back()}\n".encode(), b"", 0
        with contextlib.suppress(BlockingIOError):
            for count in range(1, 8_001):
                left = asked
                left = left[a.socket.send(left) :]
        self.assertTrue((await b.ask(self.turn())).startswith("turn shop other"))
        b.send(self.back())
        left += b"where nobody\n"
        told = ["turn"]
        with contextlib.suppress(ConnectionError):
            while told[-1] not in ("nowhere nobody", ""):
                with contextlib.suppress(BlockingIOError):
                    left = left[a.socket.send(left) :] if left else b""
                told.append(await a.answer())
        if told[-1] == "nowhere nobody":
            self.assertLessEqual(len(told), count + 2)  # beside the other some are not answered
        else:
            told = [line for line in told if line]  # half a line was told, and it was ended
        self.assertEqual({line.split()[0] for line in told} - {"nowhere", "wanted"}, {"turn"})
        line = await self.writer()
        self.assertTrue((await line.ask(self.turn())).startswith("turn shop same"))

    async def test_where_the_thread_cannot_have_them_python_does(self) -> None:
        with mock.patch.object(self.plane, "turns_of", return_value=None):
            a, b = await self.greeted(), await self.greeted()
            self.assertEqual(await a.ask(self.turn()), "turn shop other")
            b.send(self.turn())
            a.send(self.back(3))
            self.assertEqual(await b.answer(), "turn shop other epoch=3")
        self.assertIsInstance(self.keeper._turns._turns["shop"], Turns)

    async def test_without_memory_it_has_none(self) -> None:
        with mock.patch.object(self.plane.library, "writers_new", return_value=None):
            self.assertIsNone(self.plane.turns_of("shop", 1, 1.0))
        self.assertEqual(self.plane._turns, {})

    async def test_what_it_was_given_as_it_ended_is_the_keepers(self) -> None:
        """The thread has never seen it."""
        plane, line = mock.Mock(), mock.Mock(version=2, asker=None, is_open=True)
        end, line.lend.return_value = os.pipe()
        self.addCleanup(os.close, end)
        os.set_blocking(end, False)
        turns = FastTurns(plane, 1, "shop", 1, 1.0)
        turns.take(line, ["turn", "shop"], None, mock.Mock())
        self.assertIn(line, turns)
        turns.hear(fast_calls.Event(1, fast_calls.WRITERS_ENDED))
        line.take_back.assert_called_once_with(b"")
        self.assertEqual(turns._lent, {})
        self.assertEqual(
            os.read(end, 1), b""
        )  # nobody has the other end: its number may be another's by now

    async def test_as_the_thread_ends_all_lines_are_the_keepers(self) -> None:
        a, b = await self.writer(), await self.writer()
        await a.ask(self.turn())
        b.send(self.turn())
        turns = self.turns
        self.plane.library.plane_stop(self.plane.address)
        self.assertEqual(await b.answer(), "elsewhere shop")
        await self.until(lambda: turns._is_over, "their end")
        self.assertEqual((turns._lent, self.plane._turns), ({}, {}))
        self.assertEqual(await a.ask(self.turn()), "elsewhere shop")


class Epochs(Writers):
    async def test_what_a_writer_says_of_its_epoch_saves_a_pull_and_what_is_wrong_costs_one(
        self,
    ) -> None:
        client, epochs = await self.hot(), list[int]()
        await self.relayed(lambda frame: epochs.append(int.from_bytes(frame[29:33], "big")))
        await self.hot(client)
        a, b = await self.writer(), await self.writer()

        async def pulled(said: int | None = None) -> list[int]:
            """The epochs of the pulls for a block that is not there, once another epoch has begun."""
            await asyncio.to_thread(self.served.close)
            await asyncio.to_thread(self.served.open)
            if said is not None:
                a.send(self.turn(), self.back(said), self.turn())
                while not self.said_at_once(a).endswith("same"):
                    pass
                a.send(self.back())
            epochs.clear()
            answer = await client.ask(self.durable(len(self.written) + 1))
            self.assertTrue(answer.startswith("above shop"), answer)
            return epochs[:]

        first, second = await pulled()
        self.assertLess(first, second)
        after = 2 * second - first  # as many begin each time
        self.assertEqual(await pulled(after), [after])
        last = 2 * after - second
        self.assertEqual(await pulled(last + 5), [last + 5, last])
        self.assertEqual(self.ends, [])
        del b


class Short(Writers):
    """With a short ttl, by the clock of the thread."""

    section = {"ttl": 0.6}

    async def test_one_that_stands_still_loses_the_turn_and_one_that_answers_keeps_it(self) -> None:
        a, b = await self.writer(), await self.writer()
        await a.ask(self.turn())
        b.send(self.turn())
        for _ in range(2 * BEATS):
            self.assertEqual(await a.answer(), "wanted shop")
            a.send(f"hold shop {self.of}")
        self.assertFalse(b.has_answer())
        self.assertEqual(await b.answer(), "turn shop other")
        self.assertTrue(self.is_read(a))

    async def test_a_line_that_nobody_uses_is_the_keepers(self) -> None:
        a, c = await self.writer(), await self.writer()
        await a.ask(self.turn())
        c.send(self.back())  # it was heard after the other
        await self.until(lambda: not self.is_read(c), "the line that nobody uses")
        self.assertTrue(self.is_read(a))  # it has the turn
        self.assertTrue(self.keeper._server._open.drop_idle())
        self.assertEqual(await c.answer(), "")

    async def test_who_loses_a_turn_over_a_line_of_the_keepers_awaits_nothing(self) -> None:
        a, b = await self.writer(), await self.writer()
        a.send(self.turn(), "where nobody")
        self.assertTrue((await a.answer()).startswith("turn shop"))
        self.assertEqual(await a.answer(), "nowhere nobody")
        self.assertTrue(self.keeper.awaits(self.line_of(a)))
        b.send(self.turn())
        self.assertEqual(await b.answer(), "turn shop other")
        await self.until(lambda: not self.keeper.awaits(self.line_of(a)), "its end")


def load_tests(loader: unittest.TestLoader, *_: object) -> unittest.TestSuite:
    return unittest.TestSuite(
        loader.loadTestsFromTestCase(case) for case in (Rules, Lines, Epochs, Short)
    )


if __name__ == "__main__":
    unittest.main()
