"""The console: its JSON and its events, of a real PostgreSQL and real keepers; who may look; and what it costs."""

from __future__ import annotations

import json
import os
import re
import signal
import socket
import tempfile
import time
import unittest
from pathlib import Path

import psycopg
from click.testing import CliRunner

from consoles import HOSTILE, Console, Follower, Rows, page_of
from keepers import Kept, new_url
from pagelog.console.source import Source
from pagelog.console.watcher import PACE
from pagelog.cli.words import pagelogctl
from pagelog.referee.referee import Referee
from pagelog.trail import Trail, TrailKeeper
from postgres import SilentProxy, postgres
from pagelog.request import Get, Pull
from service import PATIENCE, Service, fill
from test_archive import words as words_of
from test_looking import ends

DATABASE = {
    "name": str,
    "state": str,
    "paused": bool,
    "read_only": bool,
    "wanted": (str, type(None)),
    "holder": (str, type(None)),
    "address": (str, type(None)),
    "generation": int,
    "began": (str, type(None)),
    "begins": list,
    "position": int,
    "lag": (int, type(None)),
    "stored": (int, type(None)),
    "lag_seconds": (float, type(None)),
    "commits": (float, type(None)),
    "reads": (float, type(None)),
    "entries_left": (int, type(None)),
    "entries": int,
    "due": int,
    "memory": (int, type(None)),
    "memory_limit": (int, type(None)),
    "standbys": list,
    "pages": list,
    "denials": (int, type(None)),
    "why": (str, type(None)),
    "next": str,
    "next_in": (float, type(None)),
}
DETAIL = {
    **DATABASE,
    "version": int,
    "at": str,
    "generations": list,
    "points": list,
    "has_trail": bool,
    "rules": dict,
    "trail_is_damaged": bool,
    "denied": list,
    "events": list,
}
HEAD = {
    "version": int,
    "look": int,
    "at": str,
    "keepers": list,
    "set_aside": list,
    "postgresql": dict,
    "databases": list,
    "events": list,
}
TIME = re.compile(r"\d{4}-\d\d-\d\dT\d\d:\d\d:\d\d\.\d{3}Z")
TOKEN = "a-token-of-more-than-sixteen-letters"


class OfAPage(unittest.TestCase):
    def check(self, found: dict[str, object], form: dict[str, object]) -> None:
        """Whether it has these keys and no other, each with a value of this type."""
        self.assertEqual(found.keys(), form.keys())
        for key, kind in form.items():
            self.assertIsInstance(found[key], kind, key)  # type: ignore[arg-type]
            if key in ("at", "began", "away_since") and found[key] is not None:
                self.assertRegex(str(found[key]), TIME)


class Lively(Kept):
    """Two real keepers with one database, and a console."""

    keepers = "ab"
    options = {"ttl": 4.0}

    def setUp(self) -> None:
        super().setUp()
        self.console = self.enterContext(
            Console(self.keeping.url, ttl=self.keeping.ttl, more="audit = 1000000\n")
        )
        self.follower: Follower = self.enterContext(self.console.follow())

    @property
    def shop(self) -> dict[str, object]:
        return self.follower.databases.get("shop", {})

    check = OfAPage.check

    def until(self, **wanted: object) -> None:
        self.follower.until(
            lambda: all(self.shop.get(key) == value for key, value in wanted.items())
        )

    def test_a_database_its_commits_and_its_standby(self) -> None:
        self.until(state="serving")
        with self.keeping.primary() as primary:
            for number in range(1, 6):
                self.commit(primary, f"{number}", durable=True)
        self.until(position=5, lag=0)
        holder = self.shop["holder"]
        self.follower.until(lambda: [each["reached"] for each in self.shop["standbys"]] == [5])  # type: ignore[attr-defined]
        [standby] = self.shop["standbys"]  # type: ignore[misc]
        self.assertEqual(
            (standby["keeper"], standby["lives"]), ("ab".replace(str(holder), ""), True)
        )
        self.follower.until(lambda: (self.shop["entries_left"] or 1_000_000) < 1_000_000)  # type: ignore[operator]
        self.assertEqual(
            (self.shop["address"], self.shop["entries"]), (self.keeping.place().address, 1_000_000)
        )
        self.check(self.console.state(), HEAD)
        self.check(self.shop, DATABASE)
        detail = self.console.detail("shop")
        self.check(detail, DETAIL)
        [generation] = [each for each in detail["generations"] if each["ended"] is None]
        self.assertEqual(
            (generation["holder"], generation["generation"]), (holder, self.shop["generation"])
        )
        self.assertEqual(self.console.ask("/api/databases/other")[0].status, 404)

    def test_a_takeover_is_seen_live(self) -> None:
        self.until(state="serving")
        self.follower.until(lambda: self.shop["standbys"])
        with self.keeping.primary() as primary:
            self.commit(primary, "1", durable=True)
            before = int(self.shop["generation"])  # type: ignore[call-overload]
            os.kill(self.keeping.pid(), signal.SIGKILL)
            self.follower.until(lambda: self.shop["generation"] > before and self.shop["state"] == "serving")  # type: ignore[operator]
            self.assertEqual(self.commit(primary, "2", durable=True), 2)
        took = f"shop: {self.shop['holder']} took it"
        self.assertTrue(
            [
                said
                for said in self.follower.said()
                if said.startswith(took) and "from position 1" in said
            ],
            self.follower.said(),
        )
        *_, old, now = self.console.detail("shop")["generations"]
        self.assertEqual(
            (old["end"], old["ended"], now["base"], now["end"]), (1, now["began"], 1, None)
        )

    def test_a_paused_database_that_nobody_has(self) -> None:
        self.until(state="serving")
        pid = self.keeping.pid()
        self.keeping.word("pause", "shop")
        self.until(state="serving", paused=True, next_in=None)
        os.kill(pid, signal.SIGKILL)
        why = "a says: nobody has it; paused; b says: nobody has it; paused"
        self.until(
            state="nobody", holder=None, next="Nobody takes it until it is resumed.", why=why
        )
        self.keeping.word("resume", "shop")
        self.until(state="serving", paused=False, why="serves")
        released = [said for said in self.follower.said() if "released it at position 0" in said]
        self.assertEqual((len(released), self.follower.said().count("shop: was paused")), (1, 1))

    def test_a_keeper_without_a_beat(self) -> None:
        self.until(state="serving")
        self.keeping.word("pause", "shop")
        holder = str(self.shop["holder"])
        self.until(paused=True)
        self.keeping.kill(holder)
        self.until(state="silent")
        self.assertIn(
            f"The heartbeat of {holder} stalled; nobody takes it over while it is paused.",
            str(self.shop["next"]),
        )
        self.assertIn(f": the heartbeat of keeper {holder} stalled", self.follower.said())
        lives = {
            each: each != holder for each in "ab"
        }  # a look may come between two late beats of the other
        self.follower.until(
            lambda: {each["name"]: each["lives"] for each in self.follower.head["keepers"]} == lives
        )
        self.keeping.start(holder)
        self.until(state="serving")

    def test_a_succession_keeps_its_positions(self) -> None:
        self.until(state="serving")
        with self.keeping.primary() as primary:
            for number in range(1, 4):
                self.commit(primary, f"{number}", durable=True)
            self.until(position=3, lag=0)
            before, holder = int(self.shop["generation"]), self.shop["holder"]  # type: ignore[call-overload]
            self.keeping.word("rollover", "shop")
            self.follower.until(lambda: self.shop["generation"] > before and self.shop["state"] == "serving")  # type: ignore[operator]
            self.assertEqual(self.commit(primary, "4", durable=True), 4)
        self.until(position=4, lag=0, holder=holder)
        told = f"shop: {holder} continues with generation {self.shop['generation']} from position 3"
        self.assertIn(told, self.follower.said())
        self.assertEqual(self.console.detail("shop")["generations"][-1]["base"], 3)
        self.follower.until(lambda: [each["reached"] for each in self.shop["standbys"]] == [4])  # type: ignore[attr-defined]

    def test_a_switchover_and_the_end_of_a_database(self) -> None:
        self.until(state="serving")
        before = self.shop["holder"]
        self.keeping.word("switchover", "shop")
        self.follower.until(
            lambda: self.shop["holder"] not in (None, before) and self.shop["state"] == "serving"
        )
        self.assertTrue(
            [
                said
                for said in self.follower.said()
                if said.startswith(f"shop: {self.shop['holder']} took it")
            ]
        )
        self.keeping.word("drop", "shop", "--yes")
        self.follower.until(lambda: "shop" not in self.follower.databases)
        self.assertIn("shop: was dropped", self.follower.said())
        self.assertEqual(self.console.ask("/api/databases/shop")[0].status, 404)


class OfAKeeper(Kept):
    """The page at a keeper's own port."""

    keepers = "a"
    options = {"more": 'console = "127.0.0.1:0"\nsucceed = 0.25\nmemory = 500000000\n'}

    def test_it_has_the_thresholds_of_the_keeper_and_ends_with_it(self) -> None:
        page = page_of(self.keeping)
        self.assertEqual(page.ask("/", Host="elsewhere.example")[0].status, 421)
        with page.follow() as follower:
            follower.until(lambda: follower.databases["shop"]["state"] == "serving")
            shop = follower.databases["shop"]
            self.assertEqual(
                (shop["entries"], shop["due"], shop["memory_limit"]),
                (1_000_000, 750_000, 500_000_000 >> 20),
            )
            self.keeping.word("rollover", "shop")
            follower.until(lambda: follower.databases["shop"]["generation"] > shop["generation"])
            self.keeping.kill("a", signal.SIGTERM)  # a browser that follows holds up no end
        self.assertEqual(self.keeping.processes["a"].returncode, 0)


class ByRows(OfAPage):
    def test_none_and_then_one(self) -> None:
        url = postgres().url("empty_of_consoles")
        with Console(url) as console, console.follow() as follower:
            self.assertEqual(
                (follower.look()["databases"], follower.head["postgresql"]["is_prepared"]),
                ([], False),
            )
            referee = Referee(url)
            self.addCleanup(referee.close)
            referee.prepare()
            follower.until(lambda: follower.head["postgresql"]["is_prepared"])
            self.assertTrue(referee.create("shop", "", b"s" * 16))
            follower.until(lambda: follower.databases)
            self.assertEqual(
                follower.databases["shop"]["next"], "It waits for a keeper: none is up."
            )
            self.assertIn("shop: was created", follower.said())

    def test_three_hundred_and_only_what_is_other_is_sent(self) -> None:
        with Rows(300, has_reports=False) as rows, Console(
            rows.url
        ) as console, console.follow() as follower:
            self.assertEqual(len(follower.look()["databases"]), 300)
            self.check(console.state(), HEAD)
            for database in console.state()["databases"]:
                self.check(database, DATABASE)
            follower.until(lambda: not follower.head["databases"])
            rows.session.execute("UPDATE pagelog_log SET paused = true WHERE name = 'db042'")
            look = follower.until(lambda: follower.head["databases"])
            self.assertEqual([database["name"] for database in look["databases"]], ["db042"])
            self.assertLess(len(json.dumps(look)), 2000)

    def test_a_hostile_name(self) -> None:
        with Rows(1, HOSTILE) as rows, Console(rows.url) as console, console.follow() as follower:
            follower.look()
            self.assertIn(HOSTILE, follower.databases)
            self.assertEqual(console.detail(HOSTILE)["name"], HOSTILE)
            for path in ("/api/state", "/api/databases/db001"):
                self.assertEqual(
                    console.ask(path)[0].getheader("Content-Type"),
                    "application/json; charset=utf-8",
                )
            rows.session.execute("UPDATE pagelog_log SET holder = %s", (HOSTILE,))
            follower.until(lambda: follower.databases["db001"]["holder"] == HOSTILE)

    def test_many_browsers_share_one_look_a_second(self) -> None:
        began = time.monotonic()
        with Rows(3) as rows, Console(rows.url) as console:
            followers = [self.enterContext(console.follow()) for _ in range(12)]
            first = [follower.look()["look"] for follower in followers]
            for follower in followers:
                follower.until(lambda: follower.head["look"] >= max(first) + 4)
            self.assertLessEqual(followers[-1].head["look"], 1 + (time.monotonic() - began) / PACE)
            sessions = "SELECT count(*) FROM pg_stat_activity WHERE application_name = 'pagelog console' AND datname = current_database()"
            self.assertEqual(rows.session.execute(sessions).fetchone(), (1,))

    def test_a_role_that_may_only_read(self) -> None:
        with Rows(1) as rows:
            tables = "pagelog_log, pagelog_keeper, pagelog_standby, pagelog_generation"
            rows.session.execute(f"CREATE ROLE looker LOGIN; GRANT SELECT ON {tables} TO looker")
            self.addCleanup(
                psycopg.connect(rows.url, autocommit=True).execute,
                "DROP OWNED BY looker; DROP ROLE looker",
            )
            with Console(
                rows.url.replace("pagelog@", "looker@")
            ) as console, console.follow() as follower:
                self.assertEqual(
                    [database["name"] for database in follower.look()["databases"]], ["db001"]
                )
                rows.session.execute("REVOKE SELECT ON pagelog_log FROM looker")
                follower.until(lambda: not follower.head["postgresql"]["answers"])
                self.assertIn(
                    "permission denied for table pagelog_log", follower.head["postgresql"]["why"]
                )
                rows.session.execute("GRANT SELECT ON pagelog_log TO looker")
                follower.until(lambda: follower.head["postgresql"]["answers"])

    def test_its_connection_may_not_write(self) -> None:
        source = Source(new_url() + "&options=-c%20default_transaction_read_only%3Doff")
        self.addCleanup(source.close)
        source.look()
        with self.assertRaises(psycopg.errors.ReadOnlySqlTransaction):
            source._ask("UPDATE pagelog_log SET paused = true")

    def test_denials_and_reads_of_a_trail(self) -> None:
        rows, service = self.enterContext(Rows(1)), self.enterContext(Service())
        trail, operator = self.enterContext(
            Trail(rows.url, "db001", create=True)
        ), self.enterContext(service.operator())
        reader = self.enterContext(service.reader())
        console = self.enterContext(Console(rows.url))
        follower = self.enterContext(console.follow())
        keeper = TrailKeeper(operator, trail)
        with service.primary() as primary:
            fill(primary, 3)
        keeper.step()
        reader.answers([Pull(99)] * 7 + [Get(0, 0)] * 20)
        operator.failover(2)
        keeper.step()
        follower.until(
            lambda: follower.databases["db001"]["denials"] == 7
            and follower.databases["db001"]["reads"]
        )
        detail = console.detail("db001")
        self.assertEqual(
            (detail["has_trail"], detail["rules"], detail["trail_is_damaged"]),
            (True, {"C1 AboveTheEnd": 7}, False),
        )
        self.assertEqual(
            [(each["principal"], each["operation"]) for each in detail["denied"]], [(3, "pull")] * 7
        )
        self.assertIn("db001: epoch 2 began: principal 2 is its primary", follower.said())
        follower.look()
        self.assertEqual(follower.databases["db001"]["denials"], 7)  # no piece is counted twice
        reader.answers([Pull(99)])
        keeper.step()
        with trail.engine.begin() as session:
            session.change(
                "UPDATE pagelog_trail_piece SET data = 'x' WHERE first = (SELECT max(first) FROM pagelog_trail_piece)"
            )
        follower.until(lambda: console.detail("db001")["trail_is_damaged"])


class Away(unittest.TestCase):
    def test_postgresql_is_away_and_comes_back(self) -> None:
        with Rows(2) as rows, Console(rows.url) as console, console.follow() as follower:
            follower.look()
            postgres().crash()
            try:
                follower.until(lambda: not follower.head["postgresql"]["answers"])
                self.assertRegex(follower.head["postgresql"]["away_since"], TIME)
                self.assertEqual(
                    len(console.state()["databases"]), 2
                )  # what was seen last is still shown
            finally:
                postgres().start()
            follower.until(lambda: follower.head["postgresql"]["answers"])
            self.assertTrue(
                [said for said in follower.said() if said.startswith(": PostgreSQL is away")],
                follower.said(),
            )
            self.assertTrue(
                [said for said in follower.said() if said.startswith(": PostgreSQL is back after")],
                follower.said(),
            )

    def test_postgresql_is_silent_and_speaks_again(self) -> None:
        with Rows(1) as rows, SilentProxy(postgres()) as proxy:
            console = self.enterContext(Console(proxy.url(rows.url)))
            with console.follow() as follower:
                follower.look()
                proxy.is_silent.set()
                follower.until(lambda: not follower.head["postgresql"]["answers"])
                proxy.is_silent.clear()
                follower.until(lambda: follower.head["postgresql"]["answers"])
                proxy.is_silent.set()
                began = time.monotonic()
                self.assertEqual(console.end(signal.SIGTERM), 0)
                self.assertLess(time.monotonic() - began, 60)
            self.assertEqual(console.said(), "")


class Doors(unittest.TestCase):
    def test_who_has_the_token_may_look(self) -> None:
        with Rows(1) as rows, Console(rows.url, token=TOKEN) as console:
            self.assertEqual(
                [
                    console.ask(path)[0].status
                    for path in (
                        "/api/state",
                        "/api/events",
                        "/api/databases/db001",
                        "/static/app.js",
                    )
                ],
                [401] * 4,
            )
            reply, _ = console.ask("/")
            self.assertEqual((reply.status, reply.getheader("Location")), (303, "/login"))
            for wrong in (
                "Bearer " + TOKEN[:-1],
                "Bearer " + TOKEN + "x",
                "Bearer",
                "Basic " + TOKEN,
                TOKEN,
                "Bearer é",
            ):
                self.assertEqual(
                    console.ask("/api/state", Authorization=wrong)[0].status, 401, wrong
                )
            self.assertEqual(
                len(console.json("/api/state", Authorization=f"Bearer {TOKEN}")["databases"]), 1
            )
            self.assertEqual(
                [console.ask(path)[0].status for path in ("/login", "/static/style.css")],
                [200, 200],
            )
            with console.follow(Authorization=f"Bearer {TOKEN}") as follower:
                follower.look()
            self.assertEqual((console.end(), TOKEN in console.said()), (0, False))

    def test_a_login_gives_a_cookie_for_a_time(self) -> None:
        with Rows(1) as rows, Console(rows.url, token=TOKEN) as console:
            form = {"Content_Type": "application/x-www-form-urlencoded"}
            reply, body = console.ask("/login", "POST", f"token={TOKEN}x", **form)
            self.assertEqual(
                (reply.status, reply.getheader("Set-Cookie"), "not the token" in body),
                (403, None, True),
            )
            reply, _ = console.ask("/login", "POST", f"token={TOKEN}", **form)
            cookie = reply.getheader("Set-Cookie") or ""
            self.assertEqual(
                (reply.status, reply.getheader("Location"), TOKEN in cookie), (303, "/", False)
            )
            for word in ("HttpOnly", "SameSite=Strict", "Max-Age=43200", "Path=/"):
                self.assertIn(word, cookie)
            value = cookie.partition(";")[0]
            self.assertEqual(len(console.json("/api/state", Cookie=value)["databases"]), 1)
            name, _, rest = value.partition("=")
            until, _, seal = rest.partition(".")
            for forged in (
                f"{int(until) + 1}.{seal}",
                f"{until}.{seal[:-1]}0x",
                f".{seal}",
                until,
                f"{int(time.time()) - 1}.{seal}",
            ):
                self.assertEqual(
                    console.ask("/api/state", Cookie=f"{name}={forged}")[0].status, 401, forged
                )
            again, _ = console.ask("/login", "POST", f"token={TOKEN}", **form)
            other = (again.getheader("Set-Cookie") or "").partition(";")[0]
            reply, _ = console.ask("/logout", "POST", Cookie=value)
            self.assertIn("Max-Age=0", reply.getheader("Set-Cookie") or "")
            self.assertEqual(
                [console.ask("/api/state", Cookie=each)[0].status for each in (value, other)],
                [401, 200],
            )

    def test_a_cookie_ends_with_its_console(self) -> None:
        from pagelog.console.door import Door

        self.assertFalse(Door(TOKEN)._is_good(Door(TOKEN).cookie()))

    def test_what_is_no_http_leaves_no_traceback(self) -> None:
        with Rows(1) as rows, Console(rows.url) as console:
            for sent in (
                b"\x16\x03\x01\x02\x00\r\n\r\n",
                b"GET / HTTP/1.1\r\nContent-Length: x\r\n\r\n",
                b"GET / HTTP/1.1\r\n" + b"x" * 70_000 + b"\r\n\r\n",
            ):
                with socket.create_connection(("127.0.0.1", console.port), PATIENCE) as line:
                    line.sendall(sent)
                    self.assertIn(b" 400 ", line.makefile("rb").readline())
            self.assertEqual(console.end(), 0)
            self.assertNotIn("Traceback", console.said())

    def test_a_cookie_ends(self) -> None:
        from pagelog.console.door import LASTS, Door

        seconds = [1000.0]
        door = Door(TOKEN, clock=lambda: seconds[0])
        cookie = door.cookie()
        seconds[0] += LASTS - 1
        self.assertTrue(door._is_good(cookie))
        seconds[0] += 1
        self.assertFalse(door._is_good(cookie))
        self.assertFalse(Door(TOKEN + "x", clock=lambda: 1000.0)._is_good(cookie))

    def test_without_a_token_only_this_machine_is_let_in(self) -> None:
        with Rows(1) as rows, Console(rows.url) as console:
            for host in ("127.0.0.1:7480", "localhost", "localhost:7480", "[::1]:7480"):
                self.assertEqual(console.ask("/api/state", Host=host)[0].status, 200, host)
            for host in (
                "evil.example",
                "evil.example:7480",
                "localhost.evil.example",
                "127.0.0.1.evil.example:80",
                "",
            ):
                self.assertEqual(console.ask("/api/state", Host=host)[0].status, 421, host)

    def test_what_it_does_not_start_with(self) -> None:
        folder = Path(self.enterContext(tempfile.TemporaryDirectory()))
        credentials, open_file, short = (
            folder / "credentials.toml",
            folder / "open",
            folder / "short",
        )
        credentials.touch(mode=0o600)
        credentials.write_text('[archive]\nurl = "postgresql://nobody@/nowhere"\n')
        open_file.write_text(TOKEN)
        short.touch(mode=0o600)
        short.write_text("short\n")
        for address, more, status, said in (
            ("0.0.0.0:0", (), 2, "--token-file"),
            ("[::]:0", (), 2, "--token-file"),
            ("nowhere", (), 2, "HOST:PORT"),
            ("0.0.0.0:0", ("--token-file", open_file), 1, "others may read"),
            ("0.0.0.0:0", ("--token-file", short), 1, "16 characters"),
            ("127.0.0.1:0", ("--token-file", folder / "none"), 1, "No such file"),
        ):
            words = ["console", "--listen", address, "--credentials", credentials, *more]
            done = CliRunner().invoke(pagelogctl, list(map(str, words)))
            self.assertEqual((done.exit_code, said in done.output), (status, True), done.output)
        keeper = words_of(
            "keep",
            "--name",
            "a",
            "--listen",
            "127.0.0.1:0",
            "--service-host",
            "127.0.0.1",
            "--folder",
            folder / "a",
            "--console",
            "0.0.0.0:0",
            "--credentials",
            credentials,
        )
        self.assertIn("others reach 0.0.0.0: say console_token too", ends(keeper, 2))


class Headers(unittest.TestCase):
    def test_each_reply_has_them_and_no_page_has_a_script_of_its_own(self) -> None:
        with Rows(1) as rows, Console(rows.url) as console:
            for path, status in (
                ("/", 200),
                ("/login", 200),
                ("/static/app.js", 200),
                ("/static/no.js", 404),
                ("/api/state", 200),
                ("/no", 404),
            ):
                reply, body = console.ask(path)
                self.check(reply, status, path)
                if reply.getheader("Content-Type", "").startswith("text/html"):
                    self.assertNotRegex(
                        body, r"(?i)<script(?![^>]* src=)|\son\w+=|\sstyle=|javascript:|https?://"
                    )
            for path in ("/api/state", "/api/events", "/static/app.js", "/"):
                self.check(console.ask(path, "POST")[0], 405, path)
            self.check(console.ask("/api/state", Host="evil.example")[0], 421, "host")
            for path in (
                "/static/..%2fboard.py",
                "/static/%2e%2e/board.py",
                "/static/",
                "/static/__init__.py",
            ):
                self.assertEqual(console.ask(path)[0].status, 404, path)
            with console.follow() as follower:
                self.check(follower._reply, 200, "events")
            tag = console.ask("/static/app.js")[0].getheader("ETag") or ""
            self.assertEqual(console.ask("/static/app.js", If_None_Match=tag)[0].status, 304)

    def check(self, reply: object, status: int, what: str) -> None:
        headers = dict(reply.getheaders())  # type: ignore[attr-defined]
        self.assertEqual(reply.status, status, what)  # type: ignore[attr-defined]
        policy = dict(
            part.strip().partition(" ")[::2]
            for part in headers["Content-Security-Policy"].split(";")
        )
        self.assertEqual(
            (policy["default-src"], policy["script-src"], policy["frame-ancestors"]),
            ("'none'", "'self'", "'none'"),
            what,
        )
        self.assertNotIn("unsafe", headers["Content-Security-Policy"])
        self.assertEqual(
            (headers["X-Content-Type-Options"], headers["Referrer-Policy"]),
            ("nosniff", "no-referrer"),
            what,
        )
        self.assertIn(headers["Cache-Control"], ("no-store", "no-cache"))


if __name__ == "__main__":
    unittest.main()
