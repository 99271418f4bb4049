"""What durable means where PostgreSQL loses its standby, its leader, or the room on a disk, and has it again."""

from __future__ import annotations

import asyncio
import json
import os
import signal
import threading
import unittest
from dataclasses import replace
from typing import Any, Callable

import psycopg

from keepers import Kept, batch_of, eventually, new_database
from pagelog import Connection, Credentials, NamedPrimary, Operator, Put
from pagelog.keeper.quick import QuickReferee
from pagelog.referee.referee import Doubt, OneDisk, Referee, Superseded
from pagelog.referee.rows import Look, Synchronous
from pagelog.keeper.session import Session
from pagelog.keeper.table import token_of
from pagelog.keeper.switch import Switch, begun, number, succeed
from pagelog.place import GenerationFate
from pagelog.request import Operation
from replicated import Pair, Server
from service import PATIENCE, token
from small_disk import SmallDisks

_pairs: list[Pair] = []


def pair() -> Pair:
    """The one pair of this run, whose standby is synchronous again."""
    if not _pairs:
        _pairs.append(Pair())
        unittest.addModuleCleanup(_pairs[0].stop)
        referee = Referee(_pairs[0].url)
        referee.prepare()
        referee.close()
    wait_for("*")
    return _pairs[0]


def boss() -> psycopg.Connection[Any]:
    """A session at the leader that waits for no standby."""
    session = psycopg.connect(_pairs[0].url + "&target_session_attrs=read-write", autocommit=True)
    session.execute("SET synchronous_commit = local")
    return session


def wait_for(names: str) -> None:
    """Sets synchronous_standby_names, as Patroni does, and returns once it is so."""
    _pairs[0].leader.setting("synchronous_standby_names", names)
    count = "SELECT count(*) FROM pg_stat_replication WHERE sync_state IN ('sync', 'quorum')"
    with boss() as session:
        eventually(
            lambda: (session.execute(count).fetchone() == (1,)) == bool(names),
            f"standbys {names!r}",
        )


def end_standby(names: str) -> None:
    """The standby is gone, and what waits for it is told to wait for these."""
    _pairs[0].standby.crash()
    with boss() as session:
        gone = "SELECT count(*) FROM pg_stat_replication"
        eventually(lambda: session.execute(gone).fetchone() == (0,), "the end of the standby")
    _pairs[0].leader.setting("synchronous_standby_names", names)


def start_standby() -> None:
    """The standby is there again, unless it is, and synchronous."""
    standby = _pairs[0].standby
    if not (standby.data / "postmaster.pid").exists():
        standby.start()
    wait_for("*")


class Referees(unittest.TestCase):
    def setUp(self) -> None:
        self.pair = pair()
        self.careful, self.plain = self.new("careful", requires_standby=True), self.new("plain")
        for each in (self.careful, self.plain):
            each.register(f"{each.me}:1")
        self.row = new_database(self.plain, f"d{self.id().rpartition('.')[2][:50]}")
        self.addCleanup(self.plain.drop, self.row.name)

    def new(self, me: str, url: str | None = None, **options: bool) -> Referee:
        made = Referee(url or self.pair.url, me, f"life of {me}", **options)
        self.addCleanup(made.close)
        return made

    def go_to(self, server: Server, referee: Referee) -> None:
        """Its next statement is for this server, as after a doubt at the other one."""
        while str(referee._connected().info.host) != str(server.folder):
            referee.close()
            referee.turn_hosts()

    def cut_at(self, server: Server, referee: Referee, call: Callable[[], object]) -> object:
        """What a call there returns or raises, which is cut once its commit waits for a standby that the server has not."""
        self.go_to(server, referee)
        found: list[object] = []

        def ask() -> None:
            try:
                found.append(call())
            except Exception as error:
                found.append(error)

        asks = threading.Thread(target=ask, daemon=True)
        asks.start()
        waits = f"SELECT 1 FROM pg_stat_activity WHERE wait_event = 'SyncRep' AND application_name = 'pagelog keeper {referee.me}'"
        with psycopg.connect(
            f"postgresql://pagelog@/kept?host={server.folder}", autocommit=True
        ) as session:
            eventually(
                lambda: bool(found) or session.execute(waits).fetchone() is not None,
                "a commit that waits",
            )
        referee.cut()
        asks.join(PATIENCE)
        return found[0]

    def test_a_batch_that_is_on_one_disk_is_in_doubt_until_a_standby_has_it(self) -> None:
        kept = self.careful.take(self.row, "r1")
        assert kept is not None
        batch = batch_of(self.row, kept, "r1")
        self.assertEqual(self.careful.keep([batch]), {self.row.id})
        self.assertEqual(self.careful.look().synchronous.count, 1)
        wait_for("")

        def has_heard() -> bool:
            """Its session hears of a setting a while after that is in force."""
            try:
                self.careful.look()
            except OneDisk:
                return True
            return False

        eventually(has_heard, "that its session has heard of it")
        more = batch_of(self.row, replace(kept, archived=batch.new, chain=batch.chain), "r1")
        with self.assertRaises(OneDisk):
            self.careful.keep([more])
        for call in (
            self.careful.look,
            lambda: self.careful.kept(self.row.id, "r1"),
            lambda: self.careful.fate(self.row.name, 1),
        ):
            self.assertRaises(OneDisk, call)
        self.assertEqual(
            (self.plain.look().synchronous, self.plain.look().synchronous.meaning),
            (Synchronous("", 0), "durable means one disk: PostgreSQL has no synchronous standby"),
        )
        wait_for("*")
        found = self.careful.kept(self.row.id, "r1")
        self.assertEqual((found and found.archived, found and found.chain), (more.new, more.chain))

    def test_a_commit_whose_wait_is_given_up_is_in_doubt(self) -> None:
        kept = self.careful.take(self.row, "r1")
        assert kept is not None
        self.pair.standby.crash()
        self.addCleanup(start_standby)
        raised: list[BaseException] = []

        def keep() -> None:
            try:
                self.careful.keep([batch_of(self.row, kept, "r1")])
            except Doubt as error:
                raised.append(error)

        thread = threading.Thread(target=keep, daemon=True)
        thread.start()
        with boss() as session:
            waits = "SELECT 1 FROM pg_stat_activity WHERE wait_event = 'SyncRep'"
            eventually(lambda: session.execute(waits).fetchone() is not None, "a commit that waits")
            self.pair.leader.setting("synchronous_standby_names", "")
            thread.join(PATIENCE)
            self.assertEqual([type(error) for error in raised], [OneDisk])
            self.assertEqual(
                session.execute(
                    "SELECT count(*) FROM pagelog_block WHERE log = %s", (self.row.id,)
                ).fetchone(),
                (3,),
            )

    def test_a_line_that_is_cut_while_it_is_confirmed_is_in_doubt(self) -> None:
        through = self.new("through", requires_standby=True)
        through.register("through:1")
        through._connected().execute("SELECT 1")
        through.cut()
        with self.assertRaises(Doubt):
            through._confirm(through._connected())
        self.assertEqual(through.look().synchronous.count, 1)

    def test_a_batch_of_a_run_that_an_old_leader_does_not_know_goes_to_the_new_one(self) -> None:
        old = self.pair.leader

        def beside() -> None:
            new = self.pair.leader
            taker = self.new("taker", f"postgresql://pagelog@/kept?host={new.folder}")
            kept = taker.take(self.row, "r1")
            assert kept is not None
            for kind in (Referee, QuickReferee):
                writer = kind(
                    f"postgresql://pagelog@/kept?host={old.folder},{new.folder}",
                    "writer",
                    "life of writer",
                )
                self.addCleanup(writer.close)
                batch = batch_of(self.row, kept, "r1")

                async def keep() -> list[frozenset[int]]:
                    session = Session(writer, PATIENCE)
                    return [
                        await session.ask(writer.keep, found) for found in ((), [batch], [batch])
                    ]

                self.assertEqual(asyncio.run(keep()), [frozenset(), frozenset(), {self.row.id}])
                kept = replace(kept, archived=batch.new, chain=batch.chain)

        self.pair.fail_over_beside(beside)
        self.plain.close()

    def test_a_look_at_an_old_leader_that_does_not_know_a_life_goes_to_the_new_one(self) -> None:
        old = self.pair.leader
        earlier = self.new("again")
        earlier.register("again:1")

        def look_at_old(referee: Referee) -> Look:
            self.go_to(old, referee)
            return referee.look()

        def beside() -> None:
            new = self.pair.leader
            keepers = [
                Referee(f"postgresql://pagelog@/kept?host={new.folder},{old.folder}", name, "later")
                for name in ("again", "fresh")
            ]
            for each in keepers:
                self.addCleanup(each.close)
                each.register(f"{each.me}:2")
                beats = [
                    keeper.beat
                    for keeper in (each.look().keeper(each.me), look_at_old(each).keeper(each.me))
                    if keeper is not None
                ]
                self.assertEqual(
                    (beats[1] - beats[0], each._connected().info.host), (1, str(new.folder))
                )
            again, fresh = keepers
            with psycopg.connect(
                f"postgresql://pagelog@/kept?host={old.folder}", autocommit=True
            ) as session:
                session.execute("SET synchronous_commit = local")  # as where its wait was cut off
                session.execute(
                    "UPDATE pagelog_keeper SET run = 'latest', beat = beat + 100 WHERE name = 'again'"
                )
            self.assertIsInstance(self.cut_at(old, again, again.look), Doubt)
            self.assertIsNotNone(again.look())
            latest = Referee(f"postgresql://pagelog@/kept?host={new.folder}", "fresh", "latest")
            self.addCleanup(latest.close)
            latest.register("fresh:3")
            with self.assertRaises(Superseded):
                look_at_old(fresh)

        self.pair.fail_over_beside(beside)
        for each in (earlier, self.plain):
            each.close()

    def test_a_switch_of_which_an_old_leader_does_not_know_is_looked_up_at_the_new_one(
        self,
    ) -> None:
        old = self.pair.leader

        def beside() -> None:
            keeper = self.new(
                "fifth", f"postgresql://pagelog@/kept?host={self.pair.leader.folder},{old.folder}"
            )
            kept = keeper.take(self.row, "r1")
            assert kept is not None
            given = number(keeper, self.row.id, "r1", kept.generation)
            assert given is not None
            switch = Switch(
                self.row.id,
                "r1",
                kept.generation,
                kept.archived,
                (),
                kept.chain,
                given,
                "r2",
                "x:1",
                0,
                0,
            )
            self.assertTrue(succeed(keeper, switch))
            self.assertIsInstance(self.cut_at(old, keeper, lambda: begun(keeper, switch)), Doubt)
            self.assertIsNotNone(begun(keeper, switch))

        self.pair.fail_over_beside(beside)
        self.plain.close()

    def test_an_old_leader_is_left_where_a_standby_is_required(self) -> None:
        old = self.pair.leader

        def beside() -> None:
            new = self.pair.leader
            keeper = self.new(
                "fourth",
                f"postgresql://pagelog@/kept?host={new.folder},{old.folder}",
                requires_standby=True,
            )
            keeper.register("fourth:1")
            kept = keeper.take(self.row, "r1")
            assert kept is not None
            batch = batch_of(self.row, kept, "r1")
            self.go_to(
                old, keeper
            )  # which changes nothing of what it is asked then, and has no standby
            self.assertIsNotNone(keeper.look())
            self.go_to(old, keeper)
            self.assertEqual(
                [keeper.keep([batch]), keeper.keep([batch])], [frozenset(), {self.row.id}]
            )

        self.pair.fail_over_beside(beside)
        self.plain.close()

    def test_what_a_role_may_not_see_is_no_standby_to_it(self) -> None:
        with boss() as session:
            session.execute("CREATE ROLE limited LOGIN")
            session.execute("GRANT ALL ON ALL TABLES IN SCHEMA public TO limited")
        url = self.pair.url.replace("pagelog@", "limited@")
        limited, careful = self.new("limited", url), self.new("both", url, requires_standby=True)
        limited.register("limited:1")
        self.assertEqual(limited.look().synchronous, Synchronous("*", None))
        self.assertIn("grant it pg_read_all_stats", Synchronous("*", None).meaning)
        with self.assertRaises(OneDisk):
            careful.register("both:1")
        with boss() as session:
            session.execute("GRANT pg_read_all_stats TO limited")
        self.assertEqual(
            (limited.look().synchronous.count, careful.look().synchronous.count), (1, 1)
        )

    def test_what_durable_means_is_said(self) -> None:
        self.assertIn("nothing becomes durable", Synchronous("*", 0).meaning)
        self.assertIn("2 synchronous standbys", Synchronous("*", 2).meaning)


class Durable(Kept):
    keepers = "a"
    more, ttl = "", 1.5

    def setUp(self) -> None:
        self.options = {
            "url": pair().url,
            "ttl": self.ttl,
            "more": f'metrics = "127.0.0.1:0"\n{self.more}',
        }
        super().setUp()

    def standbys(self) -> float:
        """The metric."""
        self.keeping.ring()
        return self.keeping.metrics()["pagelog_keeper_synchronous_standbys", ""]

    def two_looks(self) -> None:
        """Waits for two more, which are committed at the leader even if no standby has them."""
        beat = self.beat()
        eventually(lambda: self.keeping.ring() or self.beat() > beat + 1, "two looks of the keeper")  # type: ignore[func-returns-value]

    def beat(self) -> int:
        with boss() as session:
            [beat] = session.execute(
                "SELECT beat FROM pagelog_keeper WHERE name = 'a'"
            ).fetchone() or [0]
        return int(beat)

    def waits(self, statement: str) -> None:
        """Waits for such a statement of the keeper that the leader has committed, and its standby has not."""
        waits = "SELECT 1 FROM pg_stat_activity WHERE wait_event = 'SyncRep' AND application_name = 'pagelog keeper a' AND query LIKE %s"
        with boss() as session:
            eventually(
                lambda: session.execute(waits, (f"%{statement}%",)).fetchone() is not None,
                f"a wait of {statement}",
            )


class OneDiskIsEnough(Durable):
    ttl = 120.0
    """A look that is cut would say something else between."""

    def test_that_durable_means_one_disk_is_said_once_and_shown(self) -> None:
        with self.keeping.primary() as primary:
            self.commit(primary, "1", durable=True)
            eventually(lambda: self.standbys() == 1, "the standby in the metric")
            end_standby("")
            self.addCleanup(start_standby)
            self.assertEqual(self.commit(primary, "2", durable=True), 2)
            eventually(lambda: self.standbys() == 0, "no standby in the metric")
            self.assertEqual(
                json.loads(self.keeping.word("list", "--json"))["synchronous_standbys"], 0
            )
            self.assertIn("durable means one disk", self.keeping.word("list"))
            self.two_looks()
            start_standby()
            eventually(lambda: self.standbys() == 1, "the standby in the metric")
            self.assertIn(
                "another disk too: PostgreSQL has 1 synchronous standby", self.keeping.word("list")
            )
        self.assertEqual(self.keeping.said().count("durable means one disk"), 1)


class AStandbyLeads(Durable):
    """The leader of PostgreSQL is killed while it waits for its standby, which leads then."""

    more, ttl = "require_standby = true\n", 20.0

    def setUp(self) -> None:
        pair().leader.setting(
            "synchronous_commit", "remote_apply"
        )  # so that a standby can have what nobody is told of yet
        self.addCleanup(lambda: _pairs[0].leader.setting("synchronous_commit", "on"))
        with psycopg.connect(
            _pairs[0].url + "&target_session_attrs=read-write", autocommit=True
        ) as session:
            eventually(
                lambda: session.execute("SHOW synchronous_commit").fetchone() == ("remote_apply",),
                "the setting",
            )
        super().setUp()

    def fail_over_amid(self, primary: NamedPrimary, position: int) -> None:
        """Makes a commit durable at this position; while it waits for the standby, that takes the leader's place."""
        told: list[int] = []
        writer = threading.Thread(
            target=lambda: told.append(self.commit(primary, f"{position}", durable=True)),
            daemon=True,
        )
        writer.start()
        self.waits("INSERT INTO pagelog_block")
        is_there = (_pairs[0].standby.data / "postmaster.pid").exists()
        if is_there:
            with boss() as session:
                has = "SELECT bool_and(flush_lsn >= pg_current_wal_flush_lsn()) FROM pg_stat_replication"
                eventually(
                    lambda: session.execute(has).fetchone() == (True,),
                    "all on the disk of the standby",
                )
        said = self.keeping.said().count("nothing is archived")
        others = _pairs[0].leader.kill()
        eventually(lambda: self.keeping.said().count("nothing is archived") > said, "the doubt")
        self.assertEqual((self.keeping.place().archived, told), (position - 1, []))
        if not is_there:
            _pairs[0].standby.start()
        _pairs[0].lead(others)
        writer.join(PATIENCE)
        self.assertEqual(told, [position])

    def test_commits_go_on_in_their_generation(self) -> None:
        with self.keeping.primary() as primary:
            self.commit(primary, "1", durable=True)
            first = self.keeping.place()
            os.kill(self.keeping.pid(), signal.SIGKILL)
            self.assertEqual(self.commit(primary, "2", durable=True), 2)
            keepers, second = self.keeping.keepers(), self.keeping.place()
            self.addCleanup(keepers.close)

            def fates() -> list[GenerationFate]:
                return [
                    keepers.fate(place, position)
                    for place, position in ((first, 1), (first, 2), (second, 2))
                ]

            told = fates()
            self.assertEqual([fate.is_over for fate in told], [True, True, False])
            with psycopg.connect(
                f"postgresql://pagelog@/kept?host={_pairs[0].standby.folder}", autocommit=True
            ) as session:
                session.execute(
                    "SELECT pg_wal_replay_pause()"
                )  # the standby takes what comes to its disk, and does no more with it
                eventually(
                    lambda: session.execute("SELECT pg_get_wal_replay_pause_state()").fetchone()
                    == ("paused",),
                    "the pause",
                )
            self.fail_over_amid(primary, 3)
            self.assertEqual(fates()[:2], told[:2])
            _pairs[0].standby.crash()  # it leads later without what it missed
            self.fail_over_amid(primary, 4)
            self.assertEqual(self.commit(primary, "5", durable=True), 5)
            self.assertEqual(
                [*fates()[:2], keepers.fate(second, 5)], [*told[:2], GenerationFate(5, False)]
            )
            self.assertEqual(
                (self.keeping.place().generation, self.texts()),
                (second.generation, [b"1", b"2", b"3", b"4", b"5"]),
            )


class AServerComesBack(Durable):
    ttl = 20.0

    def test_what_it_has_alone_is_told_once_its_standby_is_back(self) -> None:
        with self.keeping.primary() as primary, self.keeping.line() as text:
            self.commit(primary, "1", durable=True)
            generation = self.keeping.place().generation
            end_standby("*")
            self.addCleanup(start_standby)
            self.assertEqual(self.commit(primary, "2"), 2)
            print(f"durable shop {generation} 2", file=text, flush=True)
            self.waits("INSERT INTO pagelog_block")
            _pairs[0].leader.crash()
            _pairs[0].leader.start()
            with boss() as session:  # everybody sees it, and it is on one disk
                self.assertEqual(
                    session.execute(
                        "SELECT archived FROM pagelog_log WHERE name = 'shop'"
                    ).fetchone(),
                    (2,),
                )
            self.waits("UPDATE pagelog_log SET archived = archived")
            print("where shop", file=text, flush=True)
            self.assertEqual(text.readline().split()[:6:5], ["at", "1"])
            self.assertEqual(primary.durable_end, 1)
            start_standby()
            self.assertEqual(text.readline().split(), ["durable", "shop", str(generation), "2"])
            primary.durable(2)
            self.assertEqual(
                (self.keeping.place().generation, self.texts()), (generation, [b"1", b"2"])
            )


class AnOldLeaderGoesOn(Durable):
    keepers = ""
    ttl = 20.0

    def test_a_keeper_that_it_does_not_know_goes_on(self) -> None:
        keeping, old = self.keeping, _pairs[0].leader

        def beside() -> None:
            url = f"postgresql://pagelog@/kept?host={_pairs[0].leader.folder}"
            keeping.file.write_text(
                keeping.file.read_text().replace(keeping.url, f"{url},{old.folder}")
            )
            keeping.start("a")
            with keeping.primary() as primary, psycopg.connect(url, autocommit=True) as session:
                self.commit(primary, "1", durable=True)
                place, pid, keeper = keeping.place(), keeping.pid(), keeping.processes["a"]
                old.setting("log_statement", "all")
                with psycopg.connect(url) as other:
                    other.execute(
                        "SELECT 1 FROM pagelog_keeper FOR UPDATE"
                    )  # so that a look is under way as its session is ended
                    looks = "wait_event_type = 'Lock' AND application_name = 'pagelog keeper a'"
                    waits = f"SELECT pg_notify('pagelog_keeper', ''), count(*) FROM pg_stat_activity WHERE {looks}"
                    eventually(lambda: session.execute(waits).fetchone()[1] == 1, "a look that waits")  # type: ignore[index]
                    session.execute(
                        "SELECT pg_terminate_backend(pid) FROM pg_stat_activity WHERE application_name = 'pagelog keeper a'"
                    )
                    eventually(
                        lambda: "SET beat = beat + 1" in (old.folder / "log").read_text(),
                        "a look at the old leader",
                    )
                beat = "SELECT beat FROM pagelog_keeper WHERE name = 'a'"
                before = session.execute(beat).fetchone()

                def is_seen() -> bool:
                    session.execute("NOTIFY pagelog_keeper")
                    return keeper.poll() is not None or session.execute(beat).fetchone() != before

                eventually(is_seen, "a look at the new one")
                self.assertIsNone(keeper.poll())
                self.assertEqual(self.commit(primary, "2", durable=True), 2)
                self.assertEqual((keeping.place().run, keeping.pid()), (place.run, pid))

        _pairs[0].fail_over_beside(beside)
        keeping.referee.close()
        self.assertEqual(self.texts(), [b"1", b"2"])


class StandbyRequired(Durable):
    more = "require_standby = true\n"

    def test_nothing_is_durable_until_a_standby_has_it(self) -> None:
        with self.keeping.primary() as primary:
            self.commit(primary, "1", durable=True)
            generation = self.keeping.place().generation
            end_standby("")
            self.addCleanup(start_standby)
            position = self.commit(primary, "2")
            with self.keeping.line() as text:
                print(f"durable shop {generation} {position}", file=text, flush=True)
                eventually(lambda: self.keeping.row().archived == 2, "the batch on one disk")
                eventually(lambda: self.standbys() == 0, "no standby in the metric")
                self.two_looks()
                print("where shop", file=text, flush=True)
                self.assertEqual(text.readline().split()[:6:5], ["at", "1"])
                self.assertEqual(primary.durable_end, 1)
                self.assertEqual(
                    json.loads(self.keeping.word("list", "--json"))["synchronous_standbys"], 0
                )
                start_standby()
                self.assertEqual(text.readline().split(), ["durable", "shop", str(generation), "2"])
            primary.durable(2)
            eventually(lambda: self.standbys() == 1, "the standby in the metric")
            self.assertEqual(
                (self.keeping.place().generation, self.texts()), (generation, [b"1", b"2"])
            )
        self.assertEqual(
            self.keeping.said().count("a synchronous standby is required, and this role sees none"),
            1,
        )

    def is_quick(self) -> bool:
        return self.keeping.metrics()["pagelog_keeper_quick", "shop"] == 1

    def test_the_fast_path_waits_for_it_too(self) -> None:
        with self.keeping.primary() as primary, boss() as session:
            eventually(
                lambda: self.commit(primary, "x", durable=True) and self.is_quick(), "the fast path"
            )
            # What others write meanwhile a standby has not flushed yet where it is asked for.
            session.execute("CREATE TABLE IF NOT EXISTS others (text text)")
            for number in range(30):
                session.execute(
                    "INSERT INTO others SELECT repeat('x', 10000) FROM generate_series(1, 20)"
                )
                self.commit(primary, f"{number} beside", durable=True)
            self.assertTrue(self.is_quick())
            end_standby("")
            self.addCleanup(start_standby)
            position = self.commit(primary, "the last")
            with self.keeping.line() as text:
                print(
                    f"durable shop {self.keeping.place().generation} {position}",
                    file=text,
                    flush=True,
                )
                eventually(lambda: self.keeping.row().archived == position, "the batch on one disk")
                self.two_looks()
                self.assertEqual(primary.durable_end, position - 1)
                print("where nobody", file=text, flush=True)
                self.assertEqual(text.readline().split(), ["unknown", "nobody"])
                start_standby()
                self.assertEqual(text.readline().split()[::3], ["durable", f"{position}"])

    def test_nobody_takes_over_what_a_lost_disk_would_take_away(self) -> None:
        with self.keeping.primary() as primary:
            self.commit(primary, "1", durable=True)
            place = self.keeping.place()
            end_standby("")
            self.addCleanup(start_standby)
            eventually(lambda: self.standbys() == 0, "no standby in the metric")
            os.kill(self.keeping.pid(), signal.SIGKILL)
            self.two_looks()
            self.assertEqual(self.keeping.row().base, 0)
            start_standby()
            self.assertEqual(self.commit(primary, "2", durable=True), 2)
            self.assertGreater(self.keeping.place().generation, place.generation)
            self.assertEqual(self.texts(), [b"1", b"2"])


class FullDisks(Kept):
    keepers = "a"

    def setUp(self) -> None:
        self.disks = SmallDisks()
        self.addCleanup(self.disks.stop)
        self.options = {"url": self.disks.kept, "ttl": 20.0, "more": 'metrics = "127.0.0.1:0"\n'}
        referee = Referee(self.disks.kept)
        referee.prepare()
        referee.close()
        super().setUp()

    def commit_pages(self, primary: NamedPrimary, pages: int) -> int:
        """They take more room than is left in what PostgreSQL has."""
        for page in range(pages):
            primary.append(Put(page, 0, os.urandom(8192)))
        return primary.commit()

    def test_a_batch_for_which_there_is_no_room_is_kept_once_there_is(self) -> None:
        with psycopg.connect(self.disks.kept) as session:
            session.execute("ALTER TABLE pagelog_block SET TABLESPACE small")
        with self.keeping.primary() as primary, self.keeping.line() as text:
            self.commit(primary, "1", durable=True)
            generation = self.keeping.place().generation
            self.disks.fill("tables")
            last = self.commit_pages(primary, 20)
            print(f"durable shop {generation} {last}", file=text, flush=True)
            eventually(lambda: "No space left on device" in self.keeping.said(), "the refusal")
            print("where shop", file=text, flush=True)
            self.assertEqual(text.readline().split()[:6:5], ["at", "1"])
            self.assertEqual((self.commit(primary, "2"), primary.durable_end), (last + 1, 1))
            self.disks.free("tables")
            self.assertEqual(text.readline().split()[:3], ["durable", "shop", str(generation)])
            primary.durable(last + 1)
            self.assertEqual(
                (self.keeping.place().generation, len(self.keeping.archive())),
                (generation, last + 1),
            )

    def test_a_disk_that_stays_full_costs_the_service_no_entries_and_the_log_one_line(self) -> None:
        with psycopg.connect(self.disks.kept) as session:
            session.execute("ALTER TABLE pagelog_block SET TABLESPACE small")
        with self.keeping.primary() as primary, self.keeping.line() as text:
            self.commit(primary, "1", durable=True)
            generation, before = self.keeping.place().generation, self.entries()
            self.disks.fill("tables")
            last = self.commit_pages(primary, 20)
            for _ in range(20):  # who waits asks again, which makes no try of its own
                print(f"durable shop {generation} {last}", file=text, flush=True)
            eventually(
                lambda: self.disks.said().count("No space left on device") >= 8, "so many tries"
            )
            lines = self.keeping.said().count("nothing is archived")
            grown = self.entries() - before
            self.disks.free("tables")
            self.assertEqual(text.readline().split()[:3], ["durable", "shop", str(generation)])
        self.assertEqual(lines, 1)
        self.assertLess(
            grown, 30
        )  # 20 for the commit and its pull; where each of eight tries pulls there are 18 more
        self.assertEqual(len(self.keeping.archive()), last)

    def entries(self) -> int:
        """Those of the audit list, without the two of each look."""
        place = self.keeping.place()
        credentials = Credentials(1, token_of(bytes.fromhex(token(1)), "shop", place.run))
        with Operator(Connection(place.address, timeout=PATIENCE), credentials) as operator:
            of_looks = (Operation.STATUS, Operation.AUDIT)
            return sum(each.operation not in of_looks for each in operator.entries(1))

    def test_a_server_that_had_to_end_for_want_of_room_comes_back_with_what_was_told(self) -> None:
        with self.keeping.primary() as primary, self.keeping.line() as text:
            self.commit(primary, "1", durable=True)
            generation = self.keeping.place().generation
            self.disks.fill("log-of-writes")
            last = self.commit_pages(primary, 500)
            print(f"durable shop {generation} {last}", file=text, flush=True)
            eventually(lambda: not self.disks.is_up, "the end of PostgreSQL")
            self.assertRegex(self.disks.said(), "PANIC: .*No space left on device")
            print("where shop", file=text, flush=True)
            told = text.readline().split()
            self.assertEqual(
                (told[0], self.commit(primary, "2"), primary.durable_end), ("at", last + 1, 1)
            )
            self.disks.free("log-of-writes")
            self.disks.start()
            self.assertLessEqual(int(told[5]), self.keeping.row().archived)
            self.assertEqual(text.readline().split()[:3], ["durable", "shop", str(generation)])
            primary.durable(last + 1)
            self.assertEqual(
                (self.keeping.place().generation, len(self.keeping.archive())),
                (generation, last + 1),
            )


class TwoPrimaries(Kept):
    def setUp(self) -> None:
        self.pair = Pair()
        self.addCleanup(self.pair.stop)
        self.options = {"url": self.pair.url, "ttl": 3.0}
        referee = Referee(self.pair.url)
        referee.prepare()
        referee.close()
        super().setUp()

    def test_an_old_one_that_goes_on_beside_the_new_one_holds_up_nothing(self) -> None:
        texts = [str(number) for number in range(100)]
        with self.keeping.primary() as primary:
            for text in texts:
                self.commit(primary, text, durable=True)
                if text == "50":
                    self.pair.standby.run(
                        "pg_ctl", "-D", self.pair.standby.data, "-w", "-t", PATIENCE, "promote"
                    )
        self.pair.leader.kill()
        self.keeping.referee.close()
        self.assertEqual(self.texts(), [text.encode() for text in texts])
