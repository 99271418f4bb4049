"""Named databases under keepers: what was durable stays, wherever the database goes."""

from __future__ import annotations

import json
import os
import re
import signal
import socket

import psycopg

from keepers import Gate, Kept, Line, eventually
from pagelog import (
    Connection,
    Lost,
    NamedPrimary,
    NamedReader,
    NoKeeper,
    OlderEpoch,
    PagelogError,
    Reader,
    TableRow,
    UnknownName,
    WrongToken,
)
from pagelog.keeper.table import keeper_of
from service import PATIENCE, stand_still, token
from test_looking import check_alerts


LIMIT = 4000
"""MiB that a service may hold."""


class OneKeeper(Kept):
    keepers = "a"
    options = {"more": f"memory = {LIMIT << 20}\n"}

    def test_durable_commits(self) -> None:
        with self.keeping.primary() as primary, self.keeping.reader(durable_only=True) as reader:
            self.assertEqual(
                [self.commit(primary, f"{number}", durable=True) for number in range(1, 6)],
                [1, 2, 3, 4, 5],
            )
            self.assertEqual((self.texts(), reader.end()), ([b"1", b"2", b"3", b"4", b"5"], 5))
            position = self.commit(primary, "6")
            self.assertEqual((position, primary.durable_end), (6, 5))
            primary.durable(position)
            self.assertEqual((primary.durable_end, len(self.texts())), (6, 6))
            self.assertEqual(
                [block.lsn for block in reader.blocks(2, follow=False)], [2, 3, 4, 5, 6]
            )
            self.assertEqual(reader.page(0, 3).data[:3], b"<3>")

    def test_a_killed_service(self) -> None:
        with self.keeping.primary() as primary:
            self.commit(primary, "1", durable=True)
            for number in range(2, 5):
                os.kill(self.keeping.pid(), signal.SIGKILL)
                self.assertEqual(self.commit(primary, f"{number}", durable=True), number)
            self.assertEqual(self.texts(), [b"1", b"2", b"3", b"4"])
            self.assertGreaterEqual(self.keeping.place().generation, 4)

    def test_a_commit_whose_service_and_keeper_stood_still_is_made_by_the_next_one(self) -> None:
        with self.keeping.primary() as primary:
            self.commit(primary, "1", durable=True)
            pid, patience = self.keeping.pid(), primary.keepers.patience
            connection = primary._primary.connection  # type: ignore[union-attr]
            stand_still(pid)
            self.keeping.kill("a", signal.SIGSTOP)
            primary.keepers.patience = connection.timeout = 0.5
            self.assertRaises(PagelogError, self.commit, primary, "2")
            primary.keepers.patience, connection.timeout = patience, PATIENCE
            os.kill(pid, signal.SIGCONT)
            self.keeping.processes["a"].send_signal(signal.SIGCONT)
            self.assertEqual(self.commit(primary, "3", durable=True), 3)
            self.assertEqual(self.texts(), [b"1", b"2", b"3"])

    def test_a_keeper_that_was_killed_adopts_its_service(self) -> None:
        with self.keeping.primary() as primary:
            self.commit(primary, "1", durable=True)
            pid, place = self.keeping.pid(), self.keeping.place()
            self.keeping.kill("a")
            self.assertEqual(self.commit(primary, "2"), 2)
            self.keeping.start("a")
            primary.durable(2)
            self.assertEqual(
                (self.keeping.pid(), self.keeping.place().generation), (pid, place.generation)
            )
            self.assertEqual(self.texts(), [b"1", b"2"])

    def test_a_keeper_that_was_killed_and_finds_its_service_dead_takes_the_next_generation(
        self,
    ) -> None:
        with self.keeping.primary() as primary:
            self.commit(primary, "1", durable=True)
            pid, place = self.keeping.pid(), self.keeping.place()
            self.keeping.kill("a")
            self.commit(primary, "2")
            os.kill(pid, signal.SIGKILL)
            self.keeping.start("a")
            # The writer lives, so that not even what was not durable is lost.
            self.assertEqual(self.commit(primary, "3", durable=True), 3)
            self.assertGreater(self.keeping.place().generation, place.generation)
            self.assertEqual(self.texts(), [b"1", b"2", b"3"])

    def test_a_twin_of_its_name_ends_a_keeper_that_stands_still_and_adopts_its_services(
        self,
    ) -> None:
        with self.keeping.primary() as primary:
            self.commit(primary, "1", durable=True)
            first, place = self.keeping.processes["a"], self.keeping.place()
            self.addCleanup(first.kill)
            stand_still(first.pid)
            self.keeping.ports["a"] = 0
            self.keeping.launch("a")
            eventually(
                lambda: "an earlier keeper of this name has it still" in self.keeping.said(),
                "the name, after a ttl",
            )
            os.kill(first.pid, signal.SIGCONT)
            self.assertEqual(first.wait(PATIENCE), 3)
            self.assertTrue(self.keeping.processes["a"].stdout.readline().startswith("listening"))  # type: ignore[union-attr]
            first.stdout.close()  # type: ignore[union-attr]
            primary.keepers._addresses = self.keeping.addresses
            self.assertEqual(self.commit(primary, "2", durable=True), 2)
            self.assertEqual(self.keeping.place().generation, place.generation)

    def test_what_a_writer_did_not_have_durable_is_lost_where_another_went_on(self) -> None:
        with self.keeping.primary() as one, self.keeping.primary(id=5) as other:
            self.commit(one, "1", durable=True)
            pid = self.keeping.pid()
            self.keeping.kill("a")
            self.assertEqual((self.commit(one, "2"), self.commit(one, "3")), (2, 3))
            os.kill(pid, signal.SIGKILL)
            self.keeping.start("a")
            self.assertEqual(self.commit(other, "other", durable=True), 2)
            with self.assertRaises(Lost) as lost:
                one.durable(3)
            self.assertEqual(lost.exception.position, 2)
            self.assertEqual(self.texts(), [b"1", b"other"])
            self.assertEqual(self.commit(one, "4", durable=True), 3)
            with self.assertRaises(OlderEpoch):
                self.commit(other, "5")

    def test_a_writer_that_was_fenced_while_it_was_away_fences_nobody(self) -> None:
        with self.keeping.primary() as one, self.keeping.primary(id=5) as other:
            self.commit(one, "1", durable=True)
            self.assertEqual(self.commit(other, "2"), 2)
            one._leave()  # as after a lost connection
            with self.assertRaises(OlderEpoch):
                self.commit(one, "3")
            with self.assertRaises(OlderEpoch):
                self.commit(one, "4")
            one.durable(1)
            with self.assertRaises(Lost):
                one.durable(2)
            self.assertEqual(self.commit(other, "5", durable=True), 3)
            self.assertEqual(self.texts(), [b"1", b"2", b"5"])

    def test_words_that_no_client_says_leave_the_connection_to_postgresql_alone(self) -> None:
        generation = self.keeping.place().generation
        sessions = "SELECT pid FROM pg_stat_activity WHERE application_name = 'pagelog keeper a'"
        with psycopg.connect(
            self.keeping.url, autocommit=True
        ) as session, self.keeping.line() as line:
            before = set(session.execute(sessions).fetchall())
            for asked, told in (
                ("block sh\0op 1", "block sh\0op 1 -"),
                ("block shop 99999999999999999999", "block shop 99999999999999999999 -"),
                ("durable shop 99999999999999999999 1", "elsewhere shop 99999999999999999999"),
                ("durable sh\0op 1 1", "unknown sh\0op"),
                (f"durable shop {generation} 0", f"durable shop {generation} 0"),
                ("standby sh\0op", "standby sh\0op - - - - -"),
                ("", "what"),
            ):
                line.write(f"{asked}\n")
                line.flush()
                self.assertEqual(line.readline(), f"{told}\n")
                # A keeper may connect once more meanwhile.
                self.assertLessEqual(before, set(session.execute(sessions).fetchall()))

    def test_an_open_that_is_refused_says_why(self) -> None:
        """And at once: a call would wait for as long as a test may take."""
        with socket.socket() as held:
            held.bind(("127.0.0.1", 0))
            nobody = "127.0.0.1:%d" % held.getsockname()[1]
            for key, address, name, error, sentence in (
                (
                    "00" * 16,
                    self.keeping.addresses,
                    "shop",
                    WrongToken,
                    "the table does not list principal {} with this token",
                ),
                (
                    None,
                    self.keeping.addresses,
                    "blog",
                    UnknownName,
                    "the keepers know of no database blog",
                ),
                (
                    None,
                    [nobody],
                    "shop",
                    NoKeeper,
                    "no keeper answers: all connections are refused",
                ),
            ):
                writer = NamedPrimary(
                    name, address, 2, key or token(2), (1, token(1)), patience=PATIENCE
                )
                reader = NamedReader(name, address, 3, key or token(3), patience=PATIENCE)
                who = "principal 2 or operator 1" if key else "2"
                for client, call, told in (
                    (writer, writer.commit, sentence.format(who.removeprefix("principal "))),
                    (reader, reader.end, sentence.format(3)),
                ):
                    with self.subTest(sentence=told), client, self.assertRaises(error) as raised:
                        call()
                    self.assertEqual(str(raised.exception), told)
        operator = NamedPrimary(
            "shop", self.keeping.addresses, 2, token(2), (1, "00" * 16), patience=PATIENCE
        )
        with operator, self.assertRaisesRegex(WrongToken, "or operator 1 with this token"):
            operator.commit()

    def test_a_writer_that_its_table_bars_is_told_so(self) -> None:
        for row in ('op = ["failover"]', 'who = 5\nrole = "primary"'):
            denied = self.keeping.folder / "denied.toml"
            denied.write_text(
                self.keeping.table.read_text().replace(
                    "[[row]]", f'[[row]]\nverdict = "deny"\n{row}\n[[row]]', 1
                )
            )
            self.keeping.word("create", "barred", "--table", denied)
            eventually(lambda: (self.keeping.row("barred").address or "") != "", "its service")
            with self.keeping.primary("barred", id=5) as writer, self.assertRaises(TableRow):
                writer.commit()
            self.keeping.word("drop", "barred", "--force")

    def test_pause_drop_and_words(self) -> None:
        with self.keeping.primary() as primary:
            self.commit(primary, "1", durable=True)
        place = self.keeping.place()
        kept = json.loads(self.keeping.word("list", "--json"))
        self.assertEqual(
            (kept["holder"], kept["place"], kept["archived"], kept["generation"]),
            ("a", place.address, 1, place.generation),
        )
        self.assertEqual(self.keeping.word("where", "shop").strip(), place.address)
        self.assertIn("shop: take: nobody has it\n", self.keeping.said())
        self.until_shown("serving: serves")
        self.assertIn("paused 1", self.keeping.word("pause"))
        self.until_shown("serving, paused: serves; paused")
        pid = self.keeping.pid()
        os.kill(pid, signal.SIGKILL)
        eventually(lambda: self.keeping.row().holder is None, "the release")
        self.assertTrue(self.keeping.row().paused)
        self.until_shown("nobody, paused: a says: nobody has it; paused", has_service=False)
        self.keeping.word("resume", "shop")
        self.assertGreater(
            self.keeping.place(least=place.generation + 1).generation, place.generation
        )
        with self.assertRaisesRegex(AssertionError, "there is a database shop"):
            self.keeping.word("create", "shop", "--table", self.keeping.table)
        self.keeping.word("drop", "shop", "--force")
        eventually(lambda: not list(self.keeping.folder.glob("a/*.json")), "the end of its service")
        with self.assertRaises(UnknownName):
            self.keeping.place()

    def until_shown(self, state: str, *, has_service: bool = True) -> None:
        """Waits until `list` shows the state and the decision, and what is left of the limit of the memory, which is in MiB."""

        def is_shown() -> bool:
            [line] = [
                line
                for line in self.keeping.word("list", "--wide").splitlines()
                if line.startswith("shop ")
            ]
            kept = json.loads(self.keeping.word("list", "--json"))
            _, shown, *_, entries, left, why = re.split("  +", line)
            if f"{shown}: {why}" != state or not state.endswith(kept["why"].get("a", "?")):
                return False
            return (
                0 < int(left) < LIMIT and int(entries) > 0
                if has_service
                else left == entries == "-"
            )

        eventually(is_shown, state)

    def test_nothing_is_said_to_be_durable_before_its_commit(self) -> None:
        with self.keeping.primary() as primary:
            self.commit(primary, "1", durable=True)
            gate = Gate(self.keeping.url, "NEW.archived > OLD.archived")
            position, place = self.commit(primary, "2"), self.keeping.place()
            with self.keeping.line() as text:
                print(f"durable shop {place.generation} {position}", file=text, flush=True)
                gate.somebody_waits()
                print("where shop", file=text, flush=True)
                self.assertEqual(text.readline().split()[:6:5], ["at", "1"])
                gate.open()
                self.assertEqual(
                    text.readline().split(), ["durable", "shop", str(place.generation), "2"]
                )
                print(f"durable shop {place.generation} 9", file=text, flush=True)
                self.assertEqual(
                    text.readline().split(), ["above", "shop", str(place.generation), "2"]
                )
                for asked, answer in (
                    ("where none", "unknown none"),
                    ("standby shop", "standby shop - - - - -"),
                    ("x y", "what x"),
                    (
                        f"durable shop {place.generation + 1} 1",
                        f"elsewhere shop {place.generation + 1}",
                    ),
                ):
                    print(asked, file=text, flush=True)
                    self.assertEqual(text.readline().strip(), answer)
                print("x" * 2000, file=text, flush=True)
                self.assertEqual(text.readline(), "")

    def test_who_asks_for_the_next_place_is_told_as_soon_as_there_is_one(self) -> None:
        place = self.keeping.place()
        with self.keeping.line() as text:
            print(
                f"where shop {place.generation}\nwhere none 1\nwhere shop {place.generation + 1}\nwhere shop",
                file=text,
                flush=True,
            )
            self.assertEqual(
                [text.readline().split()[:3] for _ in range(3)],
                [
                    ["at", "shop", str(place.generation)],
                    ["unknown", "none"],
                    ["at", "shop", str(place.generation)],
                ],
            )
            # The third question is held back, and answered in the end with what there is.
            self.assertEqual(text.readline().split()[:3], ["at", "shop", str(place.generation)])
            gate = Gate(self.keeping.url, "NEW.address IS NOT NULL AND OLD.address IS NULL")
            os.kill(self.keeping.pid(), signal.SIGKILL)
            gate.somebody_waits()
            print(f"where shop {place.generation + 1}\nwhere shop", file=text, flush=True)
            self.assertEqual(text.readline().split(), ["nowhere", "shop"])
            gate.open()
            while (words := text.readline().split())[0] == "nowhere":
                print(f"where shop {place.generation + 1}", file=text, flush=True)
            self.assertEqual(words[:3], ["at", "shop", str(place.generation + 1)])

    def test_a_place_is_published_once_its_service_has_all_that_is_archived(self) -> None:
        with self.keeping.primary() as primary:
            for number in range(1, 41):
                self.commit(primary, f"{number}", durable=number == 40)
            gate = Gate(self.keeping.url, "NEW.address IS NOT NULL AND OLD.address IS NULL")
            os.kill(self.keeping.pid(), signal.SIGKILL)
            gate.somebody_waits()
            row = self.keeping.row()
            [note] = self.keeping.folder.glob(f"a/shop.{row.run}.json")
            self.assertEqual(
                (self.keeping.keepers().where(), row.address, row.base), (None, None, 40)
            )
            address = json.loads(note.read_text())["address"]
            with Reader(Connection(address), keeper_of(b"s" * 16, "shop", str(row.run))) as reader:
                self.assertEqual(reader.status().hard, 40)
            gate.open()
            self.assertEqual(self.commit(primary, "41", durable=True), 41)


WITH_MORE = {
    "pagelog_keeper_certificate_ends",
    "pagelog_keeper_pages_behind",
    "pagelog_keeper_store_behind",
    "pagelog_keeper_store_broken",
    "pagelog_keeper_store_foreign",
}
"""Metrics of keepers with `tls` or `store`: fronts and store have tests of them."""


class Watched(Kept):
    """By Prometheus and by systemd."""

    keepers = ""
    options = {"more": 'metrics = "127.0.0.1:0"\n'}

    def setUp(self) -> None:
        super().setUp()
        self.systemd = self.enterContext(socket.socket(socket.AF_UNIX, socket.SOCK_DGRAM))
        self.systemd.bind(
            str(self.keeping.folder / "notify")
        )  # what is not read fills its queue, and has to hold up nothing
        self.systemd.settimeout(PATIENCE)
        self.keeping.environment["NOTIFY_SOCKET"] = str(self.keeping.folder / "notify")

    def test_metrics(self) -> None:
        self.keeping.start("a")
        with self.keeping.primary() as primary:
            self.commit(primary, "1", durable=True)
            gate = Gate(self.keeping.url, "NEW.archived > OLD.archived")
            position, place = self.commit(primary, "2"), self.keeping.place()
            with self.keeping.line() as text:
                print(f"durable shop {place.generation} {position}", file=text, flush=True)
                gate.somebody_waits()
                eventually(
                    lambda: self.of_shop() == (1, place.generation, 1, 1, 1), "a look beside it"
                )
                gate.open()
                self.assertEqual(text.readline().split()[0], "durable")
                eventually(
                    lambda: self.of_shop() == (1, place.generation, 2, 0, 0), "a look after it"
                )
        found = self.keeping.metrics()
        shares = (
            found["pagelog_keeper_list_share", "shop"],
            found["pagelog_keeper_memory_share", "shop"],
        )
        self.assertTrue(all(0 < share < 0.1 for share in shares), shares)
        eventually(
            lambda: self.looks() > found["pagelog_keeper_looks_total", ""], "a look that is counted"
        )
        self.keeping.word("drop", "shop", "--force")
        eventually(
            lambda: not any(label == "shop" for _, label in self.keeping.metrics()),
            "the end of its metrics",
        )

    def looks(self) -> float:
        return self.keeping.metrics()["pagelog_keeper_looks_total", ""]

    def test_a_standby_that_is_lacking_is_in_the_metrics(self) -> None:
        self.keeping.start("a")
        self.keeping.place()
        self.keeping.start("b", program="/bin/false")
        eventually(lambda: self.standby("b") == 0, "a standby that is lacking")
        self.keeping.kill("b")
        self.keeping.start("b")
        eventually(lambda: self.standby("b") == 1, "a standby")
        self.assertEqual(self.standby("a"), None)
        names = {name for keeper in "ab" for name, _ in self.keeping.metrics(keeper)}
        check_alerts(self, names | WITH_MORE, of_keeper=True)
        self.keeping.word("pause", "shop")
        self.keeping.kill("a", signal.SIGTERM)
        eventually(lambda: self.keeping.row().address is None, "its release")
        eventually(lambda: self.standby("b") is None, "a look that shows it")

    def standby(self, keeper: str) -> float | None:
        return self.keeping.metrics(keeper).get(("pagelog_keeper_standby", "shop"))

    def of_shop(self) -> tuple[float | None, ...]:
        found = self.keeping.metrics()
        words = (
            ("state", "serving"),
            ("generation", "shop"),
            ("archived", "shop"),
            ("behind", "shop"),
            ("waits", "shop"),
        )
        return tuple(found.get((f"pagelog_keeper_{name}", label)) for name, label in words)

    def test_an_address_of_metrics_that_another_has_ends_a_keeper(self) -> None:
        with socket.create_server(("127.0.0.1", 0)) as other:
            address = f"127.0.0.1:{other.getsockname()[1]}"
            self.keeping.file.write_text(
                self.keeping.file.read_text().replace("127.0.0.1:0", address)
            )
            self.keeping.launch("a")
            self.assertEqual(self.keeping.processes["a"].wait(PATIENCE), 1)
        self.assertIn(f"[keeper] metrics: {address}: ", self.keeping.said())

    def test_systemd_hears_of_a_keeper_that_lives_while_postgresql_does_not_answer(self) -> None:
        line = Line(0, stalls=True)
        self.addCleanup(line.close)
        self.keeping.file.write_text(
            self.keeping.file.read_text().replace(self.keeping.url, line.url(self.keeping.url))
        )
        self.keeping.launch("a")
        self.assertEqual(
            [self.systemd.recv(100) for _ in range(4)],
            [b"READY=1", b"WATCHDOG=1", b"WATCHDOG=1", b"WATCHDOG=1"],
        )
        self.assertEqual((self.keeping.row().holder, self.looks()), (None, 0))
        line.count_from_now()
        eventually(
            lambda: self.keeping.row().holder == "a" and self.looks() > 0, "the keeper's first look"
        )
        line.count_from_now(0, 0)
        opened = len(line.open)
        eventually(
            lambda: len(line.open) >= opened + 4, "two connections more, as those before were cut"
        )
        looks = self.looks()
        eventually(lambda: len(line.open) >= opened + 6, "another look")
        self.forget()
        self.assertEqual([self.systemd.recv(100) for _ in range(4)], 4 * [b"WATCHDOG=1"])
        self.assertEqual(self.looks(), looks)
        self.keeping.kill("a", signal.SIGSTOP)
        self.forget()
        self.keeping.kill("a", signal.SIGCONT)
        self.assertEqual(self.systemd.recv(100), b"WATCHDOG=1")

    def forget(self) -> None:
        """What was said until now."""
        self.systemd.setblocking(False)
        with self.assertRaises(BlockingIOError):
            while True:
                self.systemd.recv(100)
        self.systemd.settimeout(PATIENCE)


class Hangs(Kept):
    keepers = "a"
    options = {"ttl": 5.0}
    """Longer than a slow machine stands still: what goes on after that does not hang."""

    def test_a_service_that_hangs_is_ended_and_one_that_goes_on_is_not(self) -> None:
        with self.keeping.primary() as primary:
            self.commit(primary, "1", durable=True)
            before = self.keeping.place()
            pid = self.keeping.pid()
            stand_still(pid)
            os.kill(pid, signal.SIGCONT)
            self.assertEqual(self.commit(primary, "2", durable=True), 2)
            self.assertEqual(self.keeping.place().generation, before.generation)
            stand_still(pid)
            self.keeping.place(least=before.generation + 1)
            primary._timeout = primary._primary.connection.timeout = 1.0  # type: ignore[union-attr]
            self.assertEqual(self.commit(primary, "3", durable=True), 3)
            self.assertEqual(self.texts(), [b"1", b"2", b"3"])


class SmallList(Kept):
    """An audit list that fills in no time."""

    keepers = "a"
    options = {"audit": 4000}

    def beat(self) -> int:
        return next(
            keeper.beat
            for keeper in self.keeping.referee.everything().keepers
            if keeper.name == "a"
        )

    def test_a_list_that_fills_is_rolled_and_nothing_is_lost(self) -> None:
        with self.keeping.primary() as primary:
            self.commit(primary, "1", durable=True)
            number, rolled = 1, re.compile(
                "its audit list or its memory is.*generation [0-9]+ begins at position", re.DOTALL
            )
            while not rolled.search(self.keeping.said()):
                number += 1
                self.assertEqual(self.commit(primary, f"{number}", durable=number % 8 == 0), number)
                if number % 100 == 0:  # the keeper has to look before the list is full
                    beat = self.beat()
                    eventually(lambda: self.beat() > beat + 1, "two looks of the keeper")
            self.assertEqual(self.commit(primary, "end", durable=True), number + 1)
            self.assertEqual(self.texts(), [b"%d" % at for at in range(1, number + 1)] + [b"end"])
