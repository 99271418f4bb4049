"""Two keepers of one database: standbys, switchovers, and keepers that are dead or stood still."""

from __future__ import annotations

import json
import os
import signal
import socket
import zlib
from collections import Counter
from contextlib import closing
from dataclasses import replace
from typing import Callable
from unittest.mock import patch

import psycopg

from keepers import Gate, Kept, Tried, Trigger, blocks, end_left, eventually
from pagelog import Connection, Lost, Reader
from pagelog.keeper.keeping import LOOKS
from pagelog.keeper.loading import Loader
from pagelog.keeper.machine import NEAR
from pagelog.keeper.table import keeper_of
from pagelog.place import GenerationFate, Keepers
from postgres import Postgres, postgres
from service import PATIENCE, accept_each, stand_still


class Two(Kept):
    def standby(self, at: int = 0) -> None:
        """Waits until a standby has as much."""
        eventually(
            lambda: any(reached >= at for reached in self.keeping.standbys().values()),
            f"a standby at {at}",
        )

    def holder(self) -> str:
        place = self.keeping.place()
        return next(
            name for name, port in self.keeping.ports.items() if place.lines.endswith(f":{port}")
        )

    def is_known(self) -> None:
        """Waits until the holder has seen the standby: else it takes the database again itself, as where there is none."""
        holder = Keepers("shop", [f"127.0.0.1:{self.keeping.ports[self.holder()]}"], PATIENCE)
        with closing(holder):
            eventually(lambda: holder.standby() is not None, "a standby that the holder knows")

    def other(self) -> str:
        return "b" if self.holder() == "a" else "a"

    def beats(self) -> dict[str, int]:
        return {
            keeper.name: keeper.beat
            for keeper in self.keeping.referee.everything().keepers
            if keeper.name in self.keeping.ports
        }


class TwoKeepers(Two):
    def test_a_standby_has_what_is_durable_and_takes_over_without_a_restore(self) -> None:
        with self.keeping.primary() as primary, self.keeping.reader(durable_only=True) as reader:
            for number in range(1, 21):
                self.commit(primary, f"{number}")
            primary.durable(20)
            self.standby(20)
            self.is_known()
            standby = reader.keepers.standby()
            eventually(lambda: reader.end() == 20, "the word that the standby has it all")
            self.assertEqual(reader.place.run, standby.run)  # type: ignore[union-attr]
            os.kill(self.keeping.pid(), signal.SIGKILL)
            self.assertEqual(self.commit(primary, "21", durable=True), 21)
            place = self.keeping.place()
            self.assertEqual((place.run, place.address), (standby.run, standby.address))  # type: ignore[union-attr]
            eventually(lambda: reader.end() >= 21, "the word of the next generation")
            self.assertEqual(reader.page(0, 21).data[:4], b"<21>")
            # It reads on at the run that was a standby, and is the holder's now: no further than the archive.
            self.commit(primary, "22")
            self.assertEqual([block.lsn for block in reader.blocks(20, follow=False)][:2], [20, 21])

    def test_a_switchover_loses_nothing(self) -> None:
        with self.keeping.primary() as primary:
            self.commit(primary, "1", durable=True)
            self.standby(1)
            for number in range(2, 32):
                self.commit(primary, f"{number}")  # nobody asks that these be durable
            target, before = self.other(), self.keeping.place()
            self.keeping.word("switchover", "shop", "--to", target)
            after = self.keeping.place(least=before.generation + 1)
            self.assertEqual(
                (self.holder(), after.generation, self.keeping.row().base),
                (target, self.keeping.row().generation, 31),
            )
            with patch.object(Reader, "span", autospec=True, side_effect=Reader.span) as span:
                self.assertEqual(self.commit(primary, "32", durable=True), 32)
            self.assertLessEqual(span.call_count, 2)  # all that was not durable is compared at once
            self.assertEqual(self.texts(), [b"%d" % number for number in range(1, 33)])

    def test_a_release_that_was_never_made_is_believed_by_nobody(self) -> None:
        with self.keeping.primary() as primary, psycopg.connect(
            self.keeping.url, autocommit=True
        ) as session:
            self.commit(primary, "1", durable=True)
            self.standby(1)
            before, tries, beats = (
                self.keeping.place(),
                self.keeping.said().count("shop: take: "),
                self.beats(),
            )
            session.execute(
                f"NOTIFY pagelog_keeper, 'shop {before.generation} 1 {self.keeping.row().chain.hex()}'"
            )
            eventually(
                lambda: all(beat > beats[name] + 1 for name, beat in self.beats().items()),
                "a poll of each after it",
            )
            self.assertEqual(self.keeping.said().count("shop: take: "), tries)
            self.assertEqual(self.commit(primary, "2", durable=True), 2)
            self.standby(2)
            self.assertEqual(self.keeping.place(), replace(before, archived=2))

    def test_a_standby_whose_take_is_in_doubt_serves(self) -> None:
        with self.keeping.primary() as primary:
            self.commit(primary, "1", durable=True)
            self.standby(1)
            self.is_known()
            run = self.keeping.keepers().standby().run  # type: ignore[union-attr]
            trigger = Trigger(
                self.keeping.url,
                "pagelog_log",
                "UPDATE ON pagelog_log FOR EACH ROW WHEN (NEW.generation > OLD.generation)",
                "RAISE WARNING 'cancelled'",
            )
            self.addCleanup(trigger.close)
            os.kill(self.keeping.pid(), signal.SIGKILL)
            self.assertEqual(self.commit(primary, "2", durable=True), 2)
            self.assertIn("take: PostgreSQL: cancelled", self.keeping.said())
            self.assertEqual((self.keeping.place().run, self.texts()), (run, [b"1", b"2"]))

    def test_a_keeper_that_is_told_to_end_hands_over(self) -> None:
        with self.keeping.primary() as primary:
            self.commit(primary, "1", durable=True)
            self.standby(1)
            gate = Gate(self.keeping.url, "NEW.archived > OLD.archived")
            self.commit(primary, "2")
            gate.somebody_waits()
            for number in range(3, 32):
                self.commit(
                    primary, f"{number}"
                )  # none of these has been asked for, nor pulled, when the keeper is told to end
            first, before = self.holder(), self.keeping.place()
            self.keeping.processes[first].send_signal(signal.SIGTERM)
            eventually(lambda: "the keeper ends" in self.keeping.said(), "the end of the keeper")
            gate.open()
            self.assertEqual(self.keeping.processes[first].wait(), 0)
            self.keeping.place(least=before.generation + 1)
            self.assertEqual(self.keeping.row().base, 31)
            self.assertEqual(
                {file.name for file in (self.keeping.folder / first).iterdir()},
                {"lives", "memory.key", "numbers"},
            )
            self.assertEqual(self.commit(primary, "32", durable=True), 32)
            self.assertEqual(self.texts(), [b"%d" % number for number in range(1, 33)])

    def test_a_dead_keeper_s_database_is_taken_and_its_orphan_makes_nothing_durable(self) -> None:
        with self.keeping.primary() as primary, self.keeping.primary(id=5) as other:
            self.commit(primary, "1", durable=True)
            self.standby(1)
            first, pid, place = self.holder(), self.keeping.pid(), self.keeping.place()
            self.keeping.kill(first)
            self.assertEqual(
                self.commit(primary, "orphan"), 2
            )  # the orphan answers those who are connected
            self.keeping.place(least=place.generation + 1)
            self.assertEqual(self.commit(other, "2", durable=True), 2)
            self.assertEqual(self.commit(primary, "orphan too"), 3)
            with self.assertRaises(Lost):
                primary.durable(3)
            self.assertEqual(self.texts(), [b"1", b"2"])
            self.keeping.start(first)
            eventually(lambda: not os.path.exists(f"/proc/{pid}"), "the end of the orphan")

    def test_a_keeper_that_stood_still_finds_itself_fenced(self) -> None:
        with self.keeping.primary() as primary, self.keeping.primary(id=5) as other:
            self.commit(primary, "1", durable=True)
            self.standby(1)
            first, pid, place = self.holder(), self.keeping.pid(), self.keeping.place()
            zombie = Keepers("shop", [place.lines], PATIENCE)
            self.addCleanup(zombie.close)
            self.keeping.kill(first, signal.SIGSTOP)
            self.assertEqual(self.commit(primary, "zombie"), 2)
            self.keeping.place(least=place.generation + 1)
            self.assertEqual(self.commit(other, "2", durable=True), 2)
            self.keeping.kill(first, signal.SIGCONT)
            self.assertEqual(zombie.fate(place, 2), GenerationFate(1, True))
            eventually(
                lambda: not os.path.exists(f"/proc/{pid}"), "the end of the zombie's service"
            )
            self.assertEqual(self.texts(), [b"1", b"2"])

    def test_a_machine_that_stood_still_finds_its_generation_over(self) -> None:
        with self.keeping.primary() as primary, self.keeping.primary(id=5) as other:
            self.commit(primary, "1", durable=True)
            self.standby(1)
            first, pid, place = self.holder(), self.keeping.pid(), self.keeping.place()
            tried = Tried(self.keeping.url, f"pagelog keeper {first}")
            self.addCleanup(tried.close)
            self.keeping.kill(first, signal.SIGSTOP)
            self.assertEqual(self.commit(primary, "zombie"), 2)
            with self.keeping.line(first) as text:
                print(f"durable shop {place.generation} 2", file=text, flush=True)
                stand_still(pid)
                self.keeping.place(least=place.generation + 1)
                # It goes on, and looks later: the batch that it sends before has nothing against it but its run and generation.
                looking = Gate(
                    self.keeping.url,
                    f"NEW.name = '{first}' AND NEW.beat > OLD.beat",
                    "pagelog_keeper",
                    lock=43,
                )
                os.kill(pid, signal.SIGCONT)
                self.keeping.kill(first, signal.SIGCONT)
                eventually(
                    lambda: tried.count() > 1 or self.keeping.row().archived > 1,
                    "a batch, and how it is looked up",
                )
                looking.open()
                self.assertEqual(
                    text.readline().split(), ["over", "shop", str(place.generation), "1"]
                )
            self.assertEqual((self.keeping.row().base, self.keeping.row().archived), (1, 1))
            self.assertEqual(self.commit(other, "2", durable=True), 2)
            with self.assertRaises(Lost):
                primary.durable(2)
            eventually(
                lambda: not os.path.exists(f"/proc/{pid}"), "the end of the zombie's service"
            )
            self.assertEqual(self.texts(), [b"1", b"2"])

    def test_a_durable_reader_goes_to_the_holder_where_a_standby_is_gone(self) -> None:
        with self.keeping.primary() as primary, self.keeping.reader(durable_only=True) as reader:
            self.commit(primary, "1", durable=True)
            self.standby(1)
            eventually(lambda: self.keeping.keepers().standby() is not None, "a standby")
            eventually(lambda: reader.end() == 1, "the word of the standby")
            self.assertEqual(reader.page(0, 1).data[:3], b"<1>")
            other = self.other()
            self.keeping.kill(other)
            end_left(self.keeping.folder / other)
            self.assertEqual(self.commit(primary, "2", durable=True), 2)
            eventually(lambda: reader.end() == 2, "the word of the holder")
            self.assertEqual(reader.page(0, 2).data[:3], b"<2>")

    def test_a_standby_that_is_ahead_of_the_archive_is_thrown_away(self) -> None:
        with self.keeping.primary() as primary:
            self.commit(primary, "1", durable=True)
            self.standby(1)
            self.is_known()
            standby = self.keeping.keepers().standby()
            assert standby is not None
            with Loader(standby.address, keeper_of(b"s" * 16, "shop", standby.run)) as loader:
                loader.load(2, [blocks(2, 1, b"<never archived>")])
            os.kill(self.keeping.pid(), signal.SIGKILL)
            self.assertEqual(self.commit(primary, "2", durable=True), 2)
            self.assertEqual(self.texts(), [b"1", b"2"])
            self.assertIn("the service has 2 blocks where 1 are archived", self.keeping.said())
            self.assertNotEqual(self.keeping.place().run, standby.run)

    def test_a_standby_with_another_block_is_thrown_away(self) -> None:
        with self.keeping.primary() as primary:
            eventually(lambda: self.keeping.keepers().standby() is not None, "a standby")
            standby = self.keeping.keepers().standby()
            assert standby is not None
            with Loader(standby.address, keeper_of(b"s" * 16, "shop", standby.run)) as loader:
                loader.load(1, [blocks(1, 1, b"<another>")])
            self.commit(primary, "1", durable=True)
            self.commit(primary, "2", durable=True)
            # What it is to follow with is denied by what it has; a fresh one takes its place.
            eventually(
                lambda: (found := self.keeping.keepers().standby()) is not None
                and found.run != standby.run,
                "a fresh standby",
            )
            self.standby(2)
            os.kill(self.keeping.pid(), signal.SIGKILL)
            self.assertEqual(self.commit(primary, "3", durable=True), 3)
            self.assertEqual(self.texts(), [b"1", b"2", b"3"])

    def test_a_standby_follows_no_other_archive_than_the_one_that_is_confirmed(self) -> None:
        with self.keeping.primary() as primary, self.keeping.reader(durable_only=True) as reader:
            self.commit(primary, "1", durable=True)
            self.standby(1)
            # The blocks that a plain SELECT finds are others, as on a server that was cut off; the confirmed digest is not theirs.
            other = blocks(2, 1, b"<other>")[0]
            with psycopg.connect(self.keeping.url) as connection:
                connection.execute(
                    "CREATE FUNCTION other() RETURNS trigger LANGUAGE plpgsql AS $$ BEGIN NEW.data := "
                    f"decode('{other.hex()}', 'hex'); NEW.crc := {zlib.crc32(other)}; RETURN NEW; END $$"
                )
                connection.execute(
                    "CREATE TRIGGER other BEFORE INSERT ON pagelog_block FOR EACH ROW EXECUTE FUNCTION other()"
                )
            try:
                self.commit(primary, "2", durable=True)
                eventually(
                    lambda: "the standby was given up" in self.keeping.said(),
                    "the end of the standby",
                )
                self.assertTrue(all(reached < 2 for reached in self.keeping.standbys().values()))
                self.assertEqual([block.lsn for block in reader.blocks(2, follow=False)][:1], [2])
                self.assertEqual(reader.page(0, 2).data[:3], b"<2>")
            finally:
                with psycopg.connect(self.keeping.url) as connection:
                    connection.execute("DROP FUNCTION other CASCADE")


class Ending:
    """In the place of a server that is down: each connection is ended, and who has asked for it is counted."""

    def __init__(self, server: Postgres) -> None:
        self.asked: Counter[bytes] = Counter()
        self._path = server.folder / ".s.PGSQL.5432"
        self._listener = socket.socket(socket.AF_UNIX)
        self._listener.bind(str(self._path))
        self._listener.listen()
        accept_each(self._listener, self._end)

    def _end(self, client: socket.socket) -> None:
        with client:
            words = client.recv(4096)[8:].split(b"\0")
            self.asked[words[words.index(b"application_name") + 1]] += 1

    def close(self) -> None:
        self._path.unlink()
        self._listener.shutdown(socket.SHUT_RDWR)
        self._listener.close()


class ForLong(Two):
    options = {"ttl": 5.0}
    """So much later than the other a keeper may find PostgreSQL again."""

    def test_while_postgresql_is_away_nobody_takes_over_and_nothing_is_durable(self) -> None:
        with self.keeping.primary() as primary:
            self.commit(primary, "1", durable=True)
            self.standby(1)
            before, other = self.keeping.place(), f"pagelog keeper {self.other()}".encode()
            server = postgres()
            server.run("pg_ctl", "-D", server.data, "-m", "fast", "-w", "-t", PATIENCE, "stop")
            self.assertEqual(self.commit(primary, "2"), 2)
            ending = Ending(server)
            # It looks four times in a ttl: the beat stands still for longer than it may.
            eventually(lambda: ending.asked[other] > LOOKS, "looks of the other keeper")
            self.assertEqual(primary.durable_end, 1)
            ending.close()
            server.start()
            primary.durable(2)
            self.assertEqual(
                (self.keeping.place().generation, self.texts()), (before.generation, [b"1", b"2"])
            )


class Ringing(Two):
    """Keepers that do not look by themselves for long."""

    def seen(self, condition: Callable[[], bool], what: str) -> None:
        """Waits for what a look shows."""

        def is_so() -> bool:
            self.keeping.ring()
            return condition()

        eventually(is_so, what)


class Behind(Ringing):
    options = {"ttl": 8 * PATIENCE}

    def test_a_switchover_waits_for_no_usual_look_of_a_standby_that_lacks_much(self) -> None:
        """Else one whose writer adds more in a look than it may lack would wait for ever."""
        with self.keeping.primary() as primary:
            self.commit(primary, "1", durable=True)
            self.seen(lambda: 1 in self.keeping.standbys().values(), "a standby")
            target, before = self.other(), self.keeping.row().generation
            for number in range(2, NEAR + 3):
                self.commit(primary, f"{number}")
            primary.durable(NEAR + 2)
            self.keeping.referee.wish("shop", target)
            eventually(lambda: self.keeping.row().generation == before + 1, "the switchover")
            self.assertEqual(
                (self.commit(primary, "more", durable=True), self.holder()), (NEAR + 3, target)
            )


class Heard(Ringing):
    """A keeper that has heard of a release, and has not looked since."""

    options = {"ttl": 120.0}

    def answers(self, keeper: str, *questions: str) -> list[list[str]]:
        with self.keeping.line(keeper) as text:
            print(*questions, sep="\n", file=text, flush=True)
            return [text.readline().split() for _ in questions]

    def test_a_standby_is_told_as_it_is_taken_and_no_more_of_it_before(self) -> None:
        with self.keeping.primary() as primary:
            self.commit(primary, "1", durable=True)
            self.seen(lambda: 1 in self.keeping.standbys().values(), "a standby")
            target = self.other()
            self.seen(lambda: self.answers(target, "standby shop")[0][4] == "1", "its word")
            standby = self.keeping.keepers().standby()
            assert standby is not None
            [note] = self.keeping.folder.glob(f"{target}/shop.{standby.run}.json")
            pid = int(json.loads(note.read_text())["pid"])
            before = self.keeping.row().generation
            # It looks at what is before the release, and then hears of that.
            looking = Gate(self.keeping.url, f"NEW.name = '{target}'", "pagelog_keeper", lock=43)
            self.keeping.ring()
            looking.somebody_waits()
            for number in range(2, 32):
                self.commit(primary, f"{number}")
            gate = Gate(self.keeping.url, "NEW.generation > OLD.generation")
            self.keeping.referee.wish("shop", target)
            eventually(lambda: self.keeping.row().run is None, "the release")
            looking.open()
            gate.somebody_waits()
            with Reader(
                Connection(standby.address), keeper_of(b"s" * 16, "shop", standby.run)
            ) as reader:
                self.assertEqual(reader.status().hard, 31)
            # A look has shown the release, by a statement that wrote; that it will serve is not known before the take is.
            (*_, reached, _, _), where = self.answers(target, "standby shop", "where shop")
            self.assertEqual((reached, where), ("31", ["nowhere", "shop"]))
            stand_still(pid)
            gate.open()
            eventually(lambda: self.keeping.row().address == standby.address, "the take")
            self.assertEqual(
                self.answers(target, "where shop"), [["nowhere", "shop"]]
            )  # nobody is let in yet
            os.kill(pid, signal.SIGCONT)
            self.assertEqual(self.commit(primary, "32", durable=True), 32)
            self.assertEqual(
                (self.keeping.place().run, self.keeping.row().generation), (standby.run, before + 1)
            )
            self.assertEqual(self.texts(), [b"%d" % number for number in range(1, 33)])
