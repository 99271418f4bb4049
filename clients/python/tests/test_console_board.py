"""What the console makes of its looks: sentences, forecasts, rates, and what a browser that takes nothing costs."""

from __future__ import annotations

import asyncio
import json
import socket
import threading
import unittest
from dataclasses import replace
from unittest import mock

import psycopg
from aiohttp import web
from psycopg.conninfo import conninfo_to_dict

from consoles import Rows
from pagelog.console.board import Board, Limits
from pagelog.console.door import Door
from pagelog.console.events import Known, of_databases
from pagelog.console.history import SampleHistory, Sample
from pagelog.console.outlook import (
    Forecast,
    Scene,
    Spare,
    ClientState,
    Use,
    forecast_of,
    sentence,
    state_of,
)
from pagelog.console.running import begin
from pagelog.console.source import Look, NoLook, SourceLook, Source
from pagelog.console.watcher import Watcher
from pagelog.console.web import WebPages
from pagelog.keeper.aside import ASIDE
from pagelog.referee.rows import KeeperRow, Row
from service import PATIENCE

ROW = Row(1, "shop", 3, "run", "a", "127.0.0.1:1", archived=1000, base=600)
FREE = Row(1, "shop", 3, archived=1000)


class Watchers(unittest.TestCase):
    def test_a_look_that_fails_in_a_way_that_was_not_foreseen_is_told_and_is_not_the_last(
        self,
    ) -> None:
        seen, told = threading.Event(), []
        source = mock.Mock(
            Source,
            look=mock.Mock(
                side_effect=[
                    TypeError("of another version"),
                    NoLook("away"),
                    SourceLook(Look()),
                    SystemExit,
                ]
            ),
        )
        with mock.patch("pagelog.console.watcher.IDLE", 0.0), mock.patch(
            "pagelog.console.watcher.PACE", 0.0
        ):
            Watcher(source, lambda *_: seen.set(), lambda why, _: told.append(why)).start()
            self.assertTrue(seen.wait(PATIENCE))
        self.assertEqual(told, ["TypeError: of another version", "away"])


class Beginnings(unittest.TestCase):
    def test_a_host_that_is_silent_is_not_the_only_one_that_is_asked(self) -> None:
        source, hosts = Source("postgresql://a,b,c/shop?port=1,2,3"), list[tuple[str, str]]()

        def connect(words: str, **_: object) -> object:
            options = conninfo_to_dict(words)
            hosts.append((options["host"], options["port"]))
            if options["host"].startswith(("a", "b")):
                raise psycopg.errors.ConnectionTimeout("connection timeout expired")
            return made

        made = mock.Mock(psycopg.Connection, closed=False)
        with mock.patch("psycopg.connect", connect):
            source._connected()
            source.close()
            source._connected()
            self.assertEqual(
                hosts,
                [("a,b,c", "1,2,3"), ("b,c,a", "2,3,1"), ("c,a,b", "3,1,2"), ("c,a,b", "3,1,2")],
            )
            source.close()
            source._options["host"] = "a,b"
            self.assertRaises(psycopg.OperationalError, source._ask, "")

    def test_a_keeper_whose_console_cannot_listen_is_told_so(self) -> None:
        for host, error in (("a..b", UnicodeError), ("192.0.2.1", OSError)):
            self.assertRaises(error, begin, mock.Mock(Source), Limits(), Door(None), host, 0)


class Sentences(unittest.TestCase):
    def said(
        self,
        row: Row,
        state: ClientState = ClientState.SERVING,
        spares: tuple[Spare, ...] = (),
        living: str = "ab",
        forecast: Forecast = Forecast(),
    ) -> str:
        return sentence(Scene(row, state, spares, frozenset(living), forecast))

    def test_the_state(self) -> None:
        for row, report, is_silent, state in (
            (FREE, {}, True, ClientState.NOBODY),
            (ROW, {"state": "closing"}, True, ClientState.SILENT),
            (ROW, {"state": "closing"}, False, ClientState.CLOSING),
            (ROW, {}, False, ClientState.SERVING),
            (Row(1, "shop", 3, "run", "a"), {"state": "serving"}, False, ClientState.TAKING),
        ):
            self.assertEqual(state_of(row, report, is_silent), state)

    def test_what_comes_next_where_it_is_served(self) -> None:
        for seconds, by, words in (
            (11_000.0, "list", "A succession in about 3.1 h, by the list."),
            (0.0, "memory", "A succession now, by the memory."),
            (600.0, "list", "A succession in about 10 min, by the list."),
            (None, "", "No succession is foreseen."),
        ):
            self.assertEqual(self.said(ROW, forecast=Forecast(seconds, by)), words)
        under_way = (
            "A succession is under way: the service of the next generation is made beside this one."
        )
        self.assertEqual(sentence(Scene(ROW, ClientState.SERVING, is_succeeding=True)), under_way)
        self.assertEqual(self.said(replace(ROW, succeed=True)), under_way)
        self.assertEqual(
            self.said(ROW, forecast=Forecast(is_early=True)),
            "It is too early to foresee its next succession.",
        )
        paused = Row(1, "shop", 3, "run", "a", "127.0.0.1:1", paused=True)
        self.assertEqual(
            self.said(paused, forecast=Forecast(60.0, "list", 120.0)),
            "Nobody takes it over or rolls it until it is resumed. Its list is full in about 2 min.",
        )

    def test_what_comes_next_of_a_switchover(self) -> None:
        wished = Row(1, "shop", 3, "run", "a", "127.0.0.1:1", archived=5100, wanted="b")
        self.assertEqual(self.said(wished), "A switchover to b waits for its standby.")
        for reached, lives, words in (
            (5100, True, "A switchover to b begins."),
            (4076, True, "A switchover to b begins."),
            (4075, True, "A switchover to b waits: its standby lacks 1,025 blocks."),
            (5100, False, "A switchover to b waits for its standby."),
        ):
            self.assertEqual(
                self.said(wished, spares=(Spare("b", reached, lives), Spare("c", 5100, True))),
                words,
            )

    def test_what_comes_next_where_nobody_serves_it(self) -> None:
        spare = (Spare("b", 1000, True),)
        for row, spares, living, words in (
            (FREE, spare, "ab", "b takes it, from its standby."),
            (FREE, (), "ab", "A keeper takes it, and fills a fresh service."),
            (
                FREE,
                (Spare("b", 1000, False),),
                "a",
                "A keeper takes it, and fills a fresh service.",
            ),
            (FREE, (), "", "It waits for a keeper: none is up."),
            (Row(1, "shop", wanted="b"), (), "ab", "b takes it, as was asked."),
            (Row(1, "shop", paused=True), spare, "ab", "Nobody takes it until it is resumed."),
        ):
            self.assertEqual(self.said(row, ClientState.NOBODY, spares, living), words)
        self.assertEqual(
            self.said(ROW, ClientState.SILENT, spare, "b"),
            "The heartbeat of a stalled: b takes it over.",
        )
        self.assertEqual(
            self.said(ROW, ClientState.SILENT, (), "c"),
            "The heartbeat of a stalled: another keeper takes it over.",
        )
        self.assertEqual(
            self.said(ROW, ClientState.SILENT, spare, ""),
            "The heartbeat of a stalled, and no other keeper is up.",
        )
        self.assertEqual(
            self.said(ROW, ClientState.TAKING),
            "It serves once the service of a has all blocks up to 600.",
        )
        self.assertEqual(
            self.said(ROW, ClientState.CLOSING), "a archives what is left, and releases it."
        )

    def test_a_forecast(self) -> None:
        still = Use(None, 0, None)
        self.assertEqual(
            forecast_of(Use(768, 1024, 2.0), still, 0.5), Forecast(128.0, "list", 384.0)
        )
        self.assertEqual(
            forecast_of(Use(768, 1024, 2.0), still, 0.75), Forecast(256.0, "list", 384.0)
        )
        self.assertEqual(
            forecast_of(Use(768, 1024, 2.0), Use(30, 100, 1.0), 0.5),
            Forecast(20.0, "memory", 384.0),
        )
        self.assertEqual(forecast_of(Use(150, 1024, 2.0), still, 0.5), Forecast(0.0, "list", 75.0))
        self.assertEqual(forecast_of(Use(500, 1024, 0.0), Use(60, 100, -1.0), 0.5), Forecast())
        self.assertEqual(
            forecast_of(Use(500, 1024, None), Use(60, 0, 1.0), 0.5), Forecast(is_early=True)
        )


class Events(unittest.TestCase):
    def told(self, before: list[Row], now: list[Row], standbys: str = "") -> list[str]:
        looks = [
            {row.id: Known(row, ClientState.SERVING, frozenset(names)) for row in rows}
            for rows, names in ((before, ""), (now, standbys))
        ]
        return [
            f"{event.name or ''}: {event.text} ({event.level})"
            for event in of_databases(looks[0], looks[1], 1.0)
        ]

    def test_of_one(self) -> None:
        taken = Row(1, "shop", 4, "other", "b", "127.0.0.1:2", archived=1000, base=1000)
        for before, now, told in (
            (
                ROW,
                taken,
                "b took it from a, and serves it: generation 4 from position 1,000 (warning)",
            ),
            (
                FREE,
                replace(taken, address=None),
                "b took it: generation 4 from position 1,000 (warning)",
            ),
            (replace(taken, address=None), taken, "b serves it at 127.0.0.1:2 (good)"),
            (ROW, FREE, "a released it at position 1,000 (bad)"),
            (ROW, replace(ROW, paused=True), "was paused (warning)"),
            (replace(ROW, paused=True), ROW, "was resumed (plain)"),
            (ROW, replace(ROW, read_only=True), "may only be read now (warning)"),
            (ROW, replace(ROW, succeed=True), "a succession was asked for (plain)"),
            (
                ROW,
                replace(ROW, generation=4, base=1000, images=990),
                "a continues with generation 4 from position 1,000 (plain)",
            ),
            (ROW, replace(ROW, wanted="*"), "a switchover to another keeper was asked for (plain)"),
            (replace(ROW, wanted="b"), ROW, None),
        ):
            self.assertEqual(self.told([before], [now]), [f"shop: {told}"] if told else [])
        self.assertEqual(
            self.told([ROW], [ROW], "bc"),
            ["shop: b stands by (plain)", "shop: c stands by (plain)"],
        )
        self.assertEqual(
            (self.told([], [ROW]), self.told([ROW], [])),
            (["shop: was created (plain)"], ["shop: was dropped (warning)"]),
        )

    def test_what_is_so_of_many_is_told_once(self) -> None:
        before = [replace(ROW, id=number, name=f"db{number}") for number in range(300)]
        now = [
            replace(row, holder="b", generation=4 + row.id, address=None) for row in before[:297]
        ] + before[297:]
        self.assertEqual(self.told(before, now), [": b took 297 databases from a (warning)"])
        self.assertEqual(
            self.told(before, before, "c"), [": c stands by for 300 databases (plain)"]
        )
        self.assertEqual(len(self.told(before[:5], now[:5])), 5)


class Asides(unittest.TestCase):
    def test_what_postgresql_has_lost_is_told_also_of_a_database_that_it_lacks(self) -> None:
        board, shown = Board(Limits()), [
            {"name": name, "run": f"run of {name}", "address": "a:1", "pid": 7, "had": 3}
            for name in ("shop", "lost")
        ]

        def look(*asides: dict[str, object]) -> list[str]:
            before = len(board.state()["events"])
            report = {ASIDE: asides} if asides else {}
            board.take(
                SourceLook(Look((ROW,), (KeeperRow("a", "life", "a:2", board.number, report),))),
                1000.0 + board.number,
            )
            return [
                f"{event['name']}: {event['text']} ({event['level']})"
                for event in board.state()["events"][before:]
                if event["level"] == "bad" or "again" in event["text"]
            ]

        self.assertEqual(look(), [])
        self.assertEqual(
            look({**shown[0], "kept": False}),
            [
                "shop: run run of shop of keeper a has what PostgreSQL lacks, which went back: "
                "`pagelogctl rescue shop` says what it has (bad)"
            ],
        )
        self.assertEqual(
            look(*shown),
            [
                f"{name}: run run of {name} of keeper a is quarantined: `pagelogctl rescue {name}` says what it has (bad)"
                for name in ("shop", "lost")
            ],
        )
        self.assertEqual(look(*shown), [])
        self.assertEqual(
            [(each["name"], each["kept"], each["had"]) for each in board.state()["set_aside"]],
            [("shop", True, 3), ("lost", True, 3)],
        )
        self.assertTrue(
            board.state()["databases"][0]["next"].startswith(
                "PostgreSQL lacks something: `pagelogctl rescue shop` says what. "
            )
        )
        self.assertEqual(
            look(shown[0]),
            ["lost: PostgreSQL has all of run run of lost again, or it was ended (plain)"],
        )
        self.assertEqual(
            look(), ["shop: PostgreSQL has all of run run of shop again, or it was ended (plain)"]
        )
        self.assertFalse(board.state()["databases"][0]["next"].startswith("PostgreSQL lacks"))


class Histories(unittest.TestCase):
    def test_rates_lag_and_falls(self) -> None:
        history = SampleHistory()
        for second in range(41):
            history.add(
                Sample(
                    1000.0 + second,
                    "run",
                    10 * second,
                    10 * second + (30 if second > 37 else 0),
                    5000 - 7 * second,
                    100 + second,
                )
            )
        self.assertEqual(
            (history.commits, history.lag_seconds, history.fall(), history.growth()),
            (13.0, 2.0, 7.0, 1.0),
        )
        points = history.points()
        self.assertEqual(
            ([point.at for point in points], points[-1].commits),
            ([1005.0 + 5 * at for at in range(8)], 16.0),
        )
        history.add(Sample(1041.0, "other", 400, None, 9000, 1))
        self.assertEqual(
            (history.fall(), history.growth(), history.lag_seconds), (None, None, None)
        )  # it is another service

    def test_memory_does_not_grow_with_time(self) -> None:
        history = SampleHistory()
        for second in range(5000):
            history.add(Sample(float(second), "run", second, second, 1, 1))
        self.assertEqual((len(history.points()), len(history._recent) <= 12), (180, True))


class Unread(unittest.IsolatedAsyncioTestCase):
    """The application in this process, with looks that the test makes."""

    async def asyncSetUp(self) -> None:
        self.rows = self.enterContext(Rows(300))
        self.source, self.board, self.watched = Source(self.rows.url), Board(Limits()), []  # type: ignore[var-annotated]
        self.addCleanup(self.source.close)
        runner = web.AppRunner(
            WebPages(self.board, Door(None), self.watched.append).application(), access_log=None
        )
        await runner.setup()
        self.addAsyncCleanup(runner.cleanup)
        await web.TCPSite(runner, "127.0.0.1", 0).start()
        self.port = runner.addresses[0][1]
        self.at = 1000.0

    async def look(self) -> None:
        """A look at which each database is other than before."""
        self.at += 1
        await asyncio.to_thread(
            self.rows.session.execute, "UPDATE pagelog_log SET archived = archived + 1"
        )
        self.board.take(await asyncio.to_thread(self.source.look), self.at)

    async def follow(self) -> asyncio.StreamReader:
        reader, writer = await asyncio.open_connection("127.0.0.1", self.port, limit=1 << 22)
        self.addCleanup(writer.close)
        writer.write(b"GET /api/events HTTP/1.1\r\nHost: localhost\r\n\r\n")
        await reader.readuntil(b"\r\n\r\n")
        return reader

    async def next_number(self, reader: asyncio.StreamReader) -> int:
        """Of the next look that comes, once all of it is here."""
        text = await asyncio.wait_for(reader.readuntil(b"\n\n"), PATIENCE)
        return int(text.partition(b'"look": ')[2].partition(b",")[0])

    async def test_a_browser_that_never_reads_is_left_and_costs_others_nothing(self) -> None:
        await self.look()
        stuck = socket.socket()
        self.addCleanup(stuck.close)
        stuck.setsockopt(socket.SOL_SOCKET, socket.SO_RCVBUF, 4096)
        stuck.setblocking(False)
        await asyncio.get_running_loop().sock_connect(stuck, ("127.0.0.1", self.port))
        with mock.patch("pagelog.console.web.PATIENCE", 1.0):
            stuck.send(b"GET /api/events HTTP/1.1\r\nHost: localhost\r\n\r\n")
            reader = await self.follow()
            number = await self.next_number(reader)
            while len(self.watched) < 3:
                await self.look()
                number += 1
                while await self.next_number(reader) < number:
                    pass
        self.assertEqual(self.watched, [True, True, True])  # one has gone, and one is there

    async def test_one_message_is_made_for_all_that_have_the_same_look(self) -> None:
        await self.look()
        readers = [await self.follow() for _ in range(20)]
        for reader in readers:
            await self.next_number(reader)
        with mock.patch("pagelog.console.board.json.dumps", side_effect=json.dumps) as made:
            await self.look()
            for reader in readers:
                await self.next_number(reader)
        self.assertEqual(made.call_count, 1)

    async def test_there_is_a_most_of_followers(self) -> None:
        await self.look()
        with mock.patch("pagelog.console.web.LISTENERS", 1):
            await self.next_number(await self.follow())
            reader, writer = await asyncio.open_connection("127.0.0.1", self.port)
            writer.write(b"GET /api/events HTTP/1.1\r\nHost: localhost\r\n\r\n")
            self.assertIn(b" 503 ", await reader.readline())
            writer.close()


if __name__ == "__main__":
    unittest.main()
