"""Lives of keepers: what one leaves that was killed, what the next one finds, and what is left where a statement is in doubt."""

from __future__ import annotations

import json
import os
import re
import shutil
import signal
import socket
import zlib
from contextlib import closing

import psycopg

from keepers import Kept, Line, Trigger, batch_of, end_services, eventually, services
from pagelog import Put, Reader
from pagelog.archive import Archive
from pagelog.block import Block
from pagelog.connection import Connection
from pagelog.credentials import Credentials
from pagelog.referee.referee import Referee, digest
from pagelog.referee.schema import FORMAT
from pagelog.run_tokens import token_of
from service import PATIENCE, stand_still, token
from sqlite_named import connected


KILLED = """
import os, psycopg, signal, socket, subprocess, sys
from pagelog.keeper.run import Run
line, start = socket.socket(socket.AF_UNIX), subprocess.Popen
line.connect(sys.argv.pop(1))

def started(*words, **how):
    made = start(*words, **how)
    socket.send_fds(line, [b"x"], [made.stdout.fileno()])
    return made

subprocess.Popen, Run._note = started, lambda *_, **__: os.kill(os.getpid(), signal.SIGKILL)
import pagelog.__main__
"""
"""A keeper that is killed as it is about to note its first service. What that says goes to who listens at the path that is its first
argument, so that it goes on as one that had said it before the kill."""


class Starts(Kept):
    keepers = ""

    def test_a_service_that_its_keeper_could_not_note_any_more_ends(self) -> None:
        keeping = self.keeping
        self.addCleanup(end_services, keeping.folder / "a")
        with socket.socket(socket.AF_UNIX) as listener:
            listener.bind(str(keeping.folder / "line"))
            listener.listen()
            keeping.keeper = ("-c", KILLED, keeping.folder / "line")
            keeping.launch("a")
            line, _ = listener.accept()
        with line:
            [said] = socket.recv_fds(line, 1, 1)[1]
        self.addCleanup(os.close, said)
        self.assertEqual(keeping.processes["a"].wait(PATIENCE), -signal.SIGKILL)
        keeping.processes["a"].stdout.close()  # type: ignore[union-attr]
        run = keeping.row().run
        keeping.keeper = ("-m", "pagelog")
        keeping.start("a")
        with keeping.primary() as primary:
            self.commit(primary, "1", durable=True)
        self.assertNotEqual(keeping.row().run, run)
        eventually(
            lambda: services(keeping.folder / "a") == [keeping.pid()],
            "the end of the service that nobody knows",
        )


class SetBack(Kept):
    """PostgreSQL, below what a run has archived that goes on."""

    keepers = "a"

    def test_a_run_that_nobody_writes_to_is_archived_again(self) -> None:
        with self.keeping.primary() as primary:
            for number in range(6):
                last = self.commit(primary, str(number), durable=True)
        archive, row = self.keeping.archive(), self.keeping.row()
        with psycopg.connect(self.keeping.url) as session:
            session.execute("DELETE FROM pagelog_block WHERE log = %s AND lsn > 2", (row.id,))
            session.execute(
                "UPDATE pagelog_log SET archived = 2, chain = %s WHERE id = %s",
                (digest(b"", archive[:2]), row.id),
            )
        eventually(lambda: self.keeping.row().archived == last, "all of it again")
        self.assertEqual((self.keeping.archive(), self.keeping.row().run), (archive, row.run))


class Ends(Kept):
    keepers = "a"

    def beat(self) -> int:
        return next(
            keeper.beat
            for keeper in self.keeping.referee.everything().keepers
            if keeper.name == "a"
        )

    def test_a_keeper_that_is_told_to_end_before_it_has_adopted_archives_the_rest(self) -> None:
        with self.keeping.primary() as primary:
            self.commit(primary, "1", durable=True)
            self.keeping.kill("a")
            self.commit(primary, "2")
        line, file = Line(0), self.keeping.file
        self.addCleanup(line.close)
        file.write_text(file.read_text().replace(self.keeping.url, line.url(self.keeping.url)))
        self.keeping.launch("a")
        eventually(lambda: "PostgreSQL: " in self.keeping.said(), "a try to reach PostgreSQL")
        self.keeping.processes["a"].send_signal(signal.SIGTERM)
        eventually(lambda: self.keeping.said().count("asked to end") == 1, "the word that it ends")
        trigger = Trigger(
            self.keeping.url,
            "pagelog_log",
            "UPDATE ON pagelog_log FOR EACH ROW WHEN (NEW IS NOT DISTINCT FROM OLD)",
            "RAISE WARNING 'cancelled'",
        )
        self.addCleanup(trigger.close)
        line.count_from_now()
        eventually(
            lambda: "adopt: PostgreSQL: cancelled" in self.keeping.said(), "an adoption in doubt"
        )
        keeper, looks = self.keeping.processes["a"], self.beat()
        eventually(lambda: self.beat() > looks + 3 or keeper.poll() is not None, "looks after it")
        trigger.close()
        self.assertEqual(self.keeping.processes["a"].wait(PATIENCE), 0)
        self.assertEqual((self.texts(), self.keeping.row().run), ([b"1", b"2"], None))


class Filled(Kept):
    keepers = ""
    options = {"ttl": 0.8, "standby": False}

    def test_one_that_gets_no_connection_to_fill_a_service_releases_it(self) -> None:
        """Its looks go through, so that nobody else would take the database over."""
        keeping, file = self.keeping, self.keeping.file
        row = keeping.row()
        kept = keeping.referee.take(row, "r0")
        assert kept is not None
        keeping.referee.keep([batch_of(row, kept, "r0")])
        keeping.referee.release(row.id, "r0")
        with psycopg.connect(keeping.url, autocommit=True) as session:
            session.execute(
                "CREATE ROLE few LOGIN CONNECTION LIMIT 1; GRANT ALL ON ALL TABLES IN SCHEMA public TO few"
            )
            session.execute("GRANT ALL ON ALL SEQUENCES IN SCHEMA public TO few")
            file.write_text(file.read_text().replace("//pagelog@", "//few@"))
            keeping.start("a")
            eventually(lambda: "fill: PostgreSQL: " in keeping.said(), "a refusal")
            eventually(
                lambda: "shop: it could not be filled: PostgreSQL: " in keeping.said(),
                "the word that it was given up",
            )
            eventually(
                lambda: "shop: nobody has it; it could not be filled here just now"
                in keeping.said(),
                "its release",
            )
            self.assertIn("too many connections", keeping.said())
            session.execute("ALTER ROLE few CONNECTION LIMIT 9")
            self.assertEqual(keeping.place().archived, 3)


class Folders(Kept):
    keepers = "a"

    def test_another_keeper_with_its_folder_is_refused(self) -> None:
        with self.keeping.primary() as primary:
            self.commit(primary, "1", durable=True)
            generation = self.keeping.row().generation
            (self.keeping.folder / "b").symlink_to(self.keeping.folder / "a")
            self.keeping.launch("b")
            self.assertEqual(self.keeping.processes["b"].wait(PATIENCE), 1)
            self.assertIn("KeeperError: keeper a has the folder", self.keeping.said())
            self.commit(primary, "2", durable=True)
            self.assertEqual(self.keeping.row().generation, generation)
            # It is free once the first one is killed.
            self.keeping.kill("a")
            self.keeping.start("b")
            primary.keepers._addresses = self.keeping.addresses
            self.assertEqual(self.commit(primary, "3", durable=True), 3)


class Names(Kept):
    keepers = "a"

    def setUp(self) -> None:
        super().setUp()
        self.keeping.names["b"] = "a"

    def refusal(self) -> str:
        """What `b` says as it is refused."""
        self.assertEqual(self.keeping.processes["b"].wait(PATIENCE), 3)
        self.keeping.processes["b"].stdout.close()  # type: ignore[union-attr]
        return (self.keeping.folder / "b.log").read_text()

    def test_a_name_that_lives_refuses_the_newcomer(self) -> None:
        keeping, a, b = self.keeping, self.keeping.folder / "a", self.keeping.folder / "b"
        with keeping.primary() as primary:
            self.commit(primary, "1", durable=True)
            run, living = keeping.row().run, services(a)
            for number, makes in enumerate(
                (
                    lambda: None,
                    lambda: (shutil.rmtree(b), shutil.copytree(a, b)),
                    lambda: (shutil.rmtree(b), b.symlink_to(a)),
                )
            ):
                with self.subTest(number):
                    makes()
                    keeping.launch("b")
                    self.assertRegex(
                        self.refusal(),
                        rf"the name a is in use: the keeper at 127.0.0.1:{keeping.ports['a']} has it "
                        r"since 2\d{3}-\d\d-\d\d \d\d:\d\d:\d\d UTC, and its heartbeat moves",
                    )
                    self.assertEqual(
                        (keeping.processes["a"].poll(), services(a), keeping.row().run),
                        (None, living, run),
                    )
            self.commit(primary, "2", durable=True)

    def test_of_two_that_start_with_a_name_one_has_it(self) -> None:
        self.keeping.kill("a", signal.SIGTERM)
        shutil.rmtree(self.keeping.folder / "a")  # so that both wait for a ttl
        self.keeping.processes["a"].stdout.close()  # type: ignore[union-attr]
        self.keeping.launch("a", "b")
        both = self.keeping.processes["a"], self.keeping.processes["b"]
        eventually(
            lambda: any(process.poll() is not None for process in both), "the refusal of one"
        )
        self.assertEqual({process.poll() for process in both}, {3, None})
        with self.keeping.primary() as primary:
            self.commit(primary, "1", durable=True)

    def test_one_of_another_folder_waits_for_a_ttl_and_the_services_of_the_first_end(self) -> None:
        keeping, a = self.keeping, self.keeping.folder / "a"
        self.addCleanup(end_services, a)
        with keeping.primary() as primary:
            self.commit(primary, "1", durable=True)
            for number, kind in ((1, signal.SIGKILL), (2, signal.SIGSTOP)):
                with self.subTest(kind):
                    run = keeping.row().run
                    keeping.kill("a", kind)
                    keeping.start("b")
                    primary.keepers._addresses = keeping.addresses
                    self.commit(primary, f"{number}", durable=True)
                    self.assertNotEqual(keeping.row().run, run)
                    self.assertIn(
                        "its heartbeat is watched for a ttl", (keeping.folder / "b.log").read_text()
                    )
                    if kind == signal.SIGKILL:
                        keeping.launch("a")
                    else:
                        os.kill(keeping.processes["a"].pid, signal.SIGCONT)
                    self.assertEqual(keeping.processes["a"].wait(PATIENCE), 3)
                    keeping.processes["a"].stdout.close()  # type: ignore[union-attr]
                    self.assertEqual(services(a), [])
                    keeping.kill("b", signal.SIGTERM)
                    keeping.start("a")
                    self.commit(primary, "between", durable=True)


class OwnFolder(Kept):
    keepers = "a"
    options = {"ttl": 120.0}

    def test_a_keeper_that_was_killed_has_its_name_and_its_services_at_once(self) -> None:
        with self.keeping.primary() as primary:
            self.commit(primary, "1", durable=True)
            run = self.keeping.row().run
            for _ in range(2):
                self.keeping.kill("a")
                self.keeping.start("a")
                self.commit(primary, "2", durable=True)
            self.assertEqual(self.keeping.row().run, run)


class Vanished(Kept):
    keepers = "a"
    options = {"ttl": 120.0}

    def test_who_waits_for_a_database_that_the_referee_has_lost_is_told(self) -> None:
        with self.keeping.primary() as primary, psycopg.connect(
            self.keeping.url, autocommit=True
        ) as session:
            self.commit(primary, "1", durable=True)
            place, pid = self.keeping.place(), self.keeping.pid()
            stand_still(pid)  # so that nothing is pulled
            with self.keeping.line() as text:
                print(f"durable shop {place.generation} 2\nwhere shop", file=text, flush=True)
                self.assertEqual(text.readline().split()[:3], ["at", "shop", str(place.generation)])
                session.execute(
                    "UPDATE pagelog_log SET format = 99 WHERE name = 'shop'"
                )  # as where PostgreSQL was restored to the past
                session.execute("NOTIFY pagelog_keeper")
                self.assertEqual(
                    text.readline().split(), ["elsewhere", "shop", str(place.generation)]
                )
                print(f"durable shop {place.generation} 2", file=text, flush=True)
                self.assertEqual(text.readline().split(), ["unknown", "shop"])
            self.assertIn("shop: the referee knows nothing of the database", self.keeping.said())
            os.kill(pid, signal.SIGCONT)
            session.execute(f"UPDATE pagelog_log SET format = {FORMAT} WHERE name = 'shop'")
            session.execute("NOTIFY pagelog_keeper")
            eventually(
                lambda: self.keeping.said().count("shop: serves\n") == 2,
                "the word that it is there again",
            )
            self.assertEqual(self.commit(primary, "2", durable=True), 2)
            self.assertEqual(
                (self.keeping.place().generation, self.keeping.pid()), (place.generation, pid)
            )


class WentBack(Kept):
    """PostgreSQL loses what it has acknowledged, as at a failover without a synchronous standby."""

    keepers = "a"

    def put_back(self, archived: int, more: str = "", *, other: bool = False) -> None:
        """It is as it was when so much was archived, and `more`, an assignment, is so. With `other` its last block is another one."""
        row, blocks = self.keeping.row(), self.keeping.archive()[:archived]
        if other:
            blocks[-1] = Block.of(archived, [Put(9, 0, b"another")]).data
        with psycopg.connect(self.keeping.url) as session:
            session.execute(
                "DELETE FROM pagelog_block WHERE log = %s AND lsn > %s", (row.id, archived)
            )
            if other:
                session.execute(
                    "UPDATE pagelog_block SET data = %s, crc = %s WHERE log = %s AND lsn = %s",
                    (blocks[-1], zlib.crc32(blocks[-1]), row.id, archived),
                )
            session.execute(
                f"UPDATE pagelog_log SET archived = %s, chain = %s{more} WHERE id = %s",
                (archived, digest(b"", blocks), row.id),
            )
            session.execute("NOTIFY pagelog_keeper")

    def test_what_it_has_lost_of_a_run_is_archived_again_by_that_run(self) -> None:
        with self.keeping.primary() as primary:
            for number in range(1, 6):
                self.commit(primary, f"{number}", durable=True)
            place, pid = self.keeping.place(), self.keeping.pid()
            self.put_back(2)
            self.assertEqual(self.commit(primary, "6", durable=True), 6)
            self.assertIn("archived again", self.keeping.said())
            # Back to before its address was known: the same service is published again.
            self.put_back(3, ", base = 0, address = NULL")
            eventually(lambda: self.keeping.row().address == place.address, "the address")
            self.assertEqual(self.commit(primary, "7", durable=True), 7)
            self.assertEqual(self.texts(), [b"%d" % number for number in range(1, 8)])
            self.assertEqual((self.keeping.place().run, self.keeping.pid()), (place.run, pid))

    def test_a_keeper_of_which_it_knows_an_earlier_life_alone_goes_on(self) -> None:
        with self.keeping.primary() as primary:
            for number in range(1, 4):
                self.commit(primary, f"{number}", durable=True)
            place, pid = self.keeping.place(), self.keeping.pid()
            with psycopg.connect(self.keeping.url) as session:
                session.execute(
                    "UPDATE pagelog_keeper SET run = 'a previous instance', beat = 0 WHERE name = 'a'"
                )
            self.put_back(1)
            eventually(
                lambda: "it went back, and this keeper is registered again" in self.keeping.said(),
                "the word that it went back",
            )
            keeper = self.keeping.referee.everything().keeper("a")
            self.assertNotIn("earlier", keeper.run)  # type: ignore[union-attr]
            self.assertEqual(self.commit(primary, "4", durable=True), 4)
            self.assertEqual(
                (self.keeping.place().run, self.keeping.pid(), self.texts()),
                (place.run, pid, [b"1", b"2", b"3", b"4"]),
            )

    RELEASED = ", generation = generation + 5, next_generation = next_generation + 5, run = NULL, holder = NULL, address = NULL"

    def test_a_run_that_nobody_holds_any_more_continues_and_is_archived_again(self) -> None:
        with self.keeping.primary() as primary:
            for number in range(1, 4):
                self.commit(primary, f"{number}", durable=True)
            place, pid = self.keeping.place(), self.keeping.pid()
            # It comes back without two of the blocks, as it was before this run had the database.
            self.put_back(1, ", generation = 0, run = NULL, holder = NULL, address = NULL")
            after = self.keeping.place(least=place.generation + 1)
            self.assertEqual((after.run, self.keeping.pid()), (place.run, pid))
            self.assertEqual(self.commit(primary, "4", durable=True), 4)
            self.assertEqual(self.texts(), [b"1", b"2", b"3", b"4"])

    def test_it_does_so_in_the_next_life_of_its_keeper_too(self) -> None:
        with self.keeping.primary() as primary:
            for number in range(1, 4):
                self.commit(primary, f"{number}", durable=True)
            place, pid = self.keeping.place(), self.keeping.pid()
            self.keeping.kill("a")
            # As where PostgreSQL lost a succession: it knows the run before alone, whose service is gone.
            with psycopg.connect(self.keeping.url) as session:
                session.execute(
                    "UPDATE pagelog_generation SET run = 'before' WHERE run = %s", (place.run,)
                )
            self.put_back(1, ", run = 'before', generation = 0")
            self.keeping.start("a")
            after = self.keeping.place(least=place.generation + 1)
            self.assertEqual((after.run, self.keeping.pid()), (place.run, pid))
            self.assertEqual(self.commit(primary, "4", durable=True), 4)
            self.assertEqual(self.texts(), [b"1", b"2", b"3", b"4"])

    def test_a_service_that_may_be_the_only_copy_outlives_its_keeper(self) -> None:
        with self.keeping.primary() as primary:
            for number in range(1, 4):
                self.commit(primary, f"{number}", durable=True)
        place, pid = self.keeping.place(), self.keeping.pid()
        self.addCleanup(os.kill, pid, signal.SIGKILL)
        # It comes back without two of the blocks, and another run has written since.
        self.put_back(1, self.RELEASED, other=True)
        after = self.keeping.place(least=place.generation + 6)
        self.assertEqual((after.archived, len(self.texts())), (1, 1))
        self.assertIn(
            f"process {pid} at {place.address}, may be the only copy of its log",
            self.keeping.said(),
        )
        for number in (signal.SIGKILL, signal.SIGTERM):
            self.keeping.kill("a", number)
            self.keeping.start("a")
            self.keeping.place()
        credentials = Credentials(3, token_of(bytes.fromhex(token(3)), "shop", place.run))
        with Reader(Connection(place.address), credentials) as reader:
            self.assertEqual([block.lsn for block in reader.blocks(1, follow=False)], [1, 2, 3])
        # Nor does a drop end it: only a person's word does.
        self.keeping.word("drop", "shop", "--force")
        self.keeping.kill("a")
        self.keeping.start("a")
        self.assertTrue(
            self.keeping.referee.create("next", self.keeping.table.read_text(), b"s" * 16)
        )
        eventually(lambda: self.keeping.knows("next"), "a place of the next one")
        with Reader(Connection(place.address), credentials) as reader:
            self.assertEqual([block.lsn for block in reader.blocks(1, follow=False)], [1, 2, 3])

    def test_what_was_saved_of_sqlite_opens_under_its_own_name(self) -> None:
        """Its page 0 has the name of what it is a copy of."""
        with closing(connected(self.keeping.addresses)) as writer:
            writer.execute("create table t(n integer primary key)")
            writer.execute("insert into t values(7)")
        place, pid = self.keeping.place(), self.keeping.pid()
        self.addCleanup(os.kill, pid, signal.SIGKILL)
        self.put_back(1, self.RELEASED, other=True)
        self.keeping.place(least=place.generation + 6)
        eventually(lambda: f"quarantined: run {place.run}" in self.keeping.word("list"), "its word")
        self.keeping.word("rescue", "shop", "--as", "saved")
        eventually(lambda: self.keeping.row("saved").address is not None, "its place")
        with closing(connected(self.keeping.addresses, id=3, name="saved", mode="ro")) as reader:
            self.assertEqual(reader.execute("select n from t").fetchone(), (7,))

    def test_a_service_that_was_set_aside_is_shown_saved_and_ended_by_a_word(self) -> None:
        with self.keeping.primary() as primary:
            for number in range(1, 4):
                self.commit(primary, f"{number}", durable=True)
        place, pid, identity = self.keeping.place(), self.keeping.pid(), self.keeping.row().identity
        self.addCleanup(lambda: os.path.exists(f"/proc/{pid}") and os.kill(pid, signal.SIGKILL))
        self.put_back(1, self.RELEASED, other=True)
        self.keeping.place(least=place.generation + 6)
        with self.keeping.primary() as primary:
            self.commit(primary, "another", durable=True)
        said = f"quarantined: run {place.run} of shop at {place.address}, process {pid} of keeper a"
        eventually(lambda: said in self.keeping.word("list"), "its word")
        self.keeping.kill("a")
        self.keeping.start("a")

        def asides() -> list[object]:
            lines = map(json.loads, self.keeping.word("list", "--json").splitlines())
            return [each for line in lines if line["name"] == "shop" for each in line["set_aside"]]

        eventually(
            lambda: asides()
            == [
                {
                    "keeper": "a",
                    "name": "shop",
                    "run": place.run,
                    "address": place.address,
                    "pid": pid,
                    "shift": 0,
                    "images": 0,
                    "had": 3,
                    "kept": True,
                    "database": identity,
                }
            ],
            "the word of the next instance",
        )
        stand_still(pid)
        with self.assertRaisesRegex(AssertionError, r"\): 3: "):
            self.keeping.word("--timeout", "0.5", "rescue", "shop")
        os.kill(pid, signal.SIGCONT)
        self.assertIn(
            "ends at position 3, which is LSN 3: PostgreSQL has it up to 0, and lacks 3 blocks",
            self.keeping.word("rescue", "shop"),
        )
        folder, url = self.keeping.folder / "a", f"sqlite:///{self.keeping.folder}/saved.db"
        with self.assertRaisesRegex(
            AssertionError, f"nobody else has 3 blocks of it: name it, by --run {place.run}"
        ):
            self.keeping.word("rescue", "shop", "--into", url, "--end", folder, "--yes")
        ending = ("rescue", "shop", "--run", place.run)
        with self.assertRaisesRegex(AssertionError, "its 3 blocks would be lost"):
            self.keeping.word(*ending, "--end", folder, "--yes")
        self.assertIn("no keeper says", self.keeping.refused("rescue", "shop", "--run", "other"))
        self.assertIn(
            "it is on the machine of its keeper",
            self.keeping.refused(*ending, "--into", url, "--end", self.keeping.folder, "--yes"),
        )
        goes = (
            f"to be ended: run {place.run} of shop, process {pid} of keeper a at {place.address}, up to position 3; nobody else has its positions "
            f"1 to 3, which are saved as log {place.run} before\nPostgreSQL has positions 0 to 2, from "
        )
        with self.assertRaisesRegex(
            AssertionError,
            f"(?s){re.escape(goes)}.*: nothing was done: there is no terminal to ask at",
        ):
            self.keeping.word(*ending, "--into", url, "--end", folder)
        other = Trigger(
            self.keeping.url,
            "pagelog_block",
            "INSERT ON pagelog_block FOR EACH ROW",
            "NEW.data := set_byte(NEW.data, length(NEW.data) - 1, 0)",
        )
        self.assertIn(
            "BrokenArchive", self.keeping.refused(*ending, "--as", "old", "--end", folder, "--yes")
        )
        other.close()
        os.kill(pid, 0)
        self.assertIn(
            "saved positions up to 3 as database old, and compared them",
            self.keeping.word("rescue", "shop", "--as", "old"),
        )
        eventually(lambda: self.keeping.row("old").address is not None, "a place of it")
        eventually(lambda: self.keeping.knows("old"), "what was saved")
        with self.keeping.reader("old") as reader:
            self.assertEqual(reader.end(), 3)
        self.assertIn(
            "there is a database old", self.keeping.refused("rescue", "shop", "--as", "old")
        )
        said = self.keeping.word(*ending, "--into", url, "--end", folder, "--yes")
        self.assertIn(goes, said)
        self.assertIn(f"saved 3 blocks as log {place.run}\nended process {pid}", said)
        with Archive(url, place.run) as archive:
            self.assertEqual([block.records[-1].data.strip(b"<>") for block in archive.blocks(1)], [b"1", b"2", b"3"])  # type: ignore[union-attr]
        eventually(lambda: not os.path.exists(f"/proc/{pid}") and not asides(), "its end")
        self.assertEqual(len(self.texts()), 2)

    def test_a_service_whose_address_it_has_lost_is_published_again_by_the_next_life(self) -> None:
        with self.keeping.primary() as primary:
            self.commit(primary, "1", durable=True)
            place, pid = self.keeping.place(), self.keeping.pid()
            self.keeping.kill("a")
            self.put_back(0, ", base = 0, address = NULL")
            self.keeping.start("a")
            eventually(lambda: self.keeping.row().address == place.address, "the address")
            self.assertEqual(self.commit(primary, "2", durable=True), 2)
            self.assertEqual(
                (self.keeping.place().run, self.keeping.pid(), self.texts()),
                (place.run, pid, [b"1", b"2"]),
            )


class LateNote(Kept):
    keepers = "a"
    options = {"ttl": 120.0}
    """So long there is no look, and nothing is noted."""
    put_back = WentBack.put_back

    def test_what_was_acknowledged_since_the_last_look_is_set_aside_too(self) -> None:
        with self.keeping.primary() as primary:
            for number in range(1, 4):
                self.commit(primary, f"{number}", durable=True)
        run, pid = self.keeping.place().run, self.keeping.pid()
        self.addCleanup(os.kill, pid, signal.SIGKILL)
        self.keeping.kill("a")
        self.put_back(1, ", run = NULL, holder = NULL, address = NULL")
        self.keeping.start("a")
        self.assertIn(
            f"the service of run {run}, which a previous instance left, is quarantined: PostgreSQL went back: it had the run up to position 3",
            self.keeping.said(),
        )
        os.kill(pid, 0)


class InDoubt(Kept):
    keepers = "a"
    options = {"ttl": 120.0}
    """For so long it leaves the others time."""

    def test_a_switchover_to_any_other_whose_release_was_in_doubt_leaves_the_others_time(
        self,
    ) -> None:
        with self.keeping.primary() as primary:
            self.commit(primary, "1", durable=True)
        row, other = self.keeping.row(), Referee(self.keeping.url, "b", "life")
        self.addCleanup(other.close)
        other.register("127.0.0.1:1")
        other.stand_by(row.id, "127.0.0.1:1", "s", 1)
        trigger = Trigger(
            self.keeping.url,
            "pagelog_log",
            "UPDATE ON pagelog_log FOR EACH ROW WHEN (NEW.run IS NULL AND OLD.run IS NOT NULL)",
            "RAISE WARNING 'cancelled'",
        )
        self.addCleanup(trigger.close)
        self.assertTrue(self.keeping.referee.wish("shop", "*"))

        def is_left_to_others() -> bool:
            self.keeping.ring()
            self.assertEqual(other.look().row("shop").generation, row.generation, self.keeping.said())  # type: ignore[union-attr]
            return "any other keeper is wanted" in self.keeping.said()

        eventually(is_left_to_others, "the word that it is left to others")
        self.assertIn("close: PostgreSQL: cancelled", self.keeping.said())


class Phantoms(Kept):
    options = {"standby": False}

    def test_a_standby_that_could_not_be_taken_back_is_taken_back_later(self) -> None:
        with self.keeping.primary() as primary:
            self.commit(primary, "1", durable=True)
        other = "b" if self.keeping.row().holder == "a" else "a"
        self.keeping.referee.pause("shop", True)  # so that its holder keeps it
        self.keeping.referee.wish("shop", other)
        eventually(lambda: other in self.keeping.standbys(), "the standby")
        self.keeping.referee.wish("shop", None)
        [note] = self.keeping.folder.glob(f"{other}/shop.*.json")
        # It is not deleted, and PostgreSQL warns, so that it is in doubt.
        trigger = Trigger(
            self.keeping.url,
            "pagelog_standby",
            "DELETE ON pagelog_standby FOR EACH ROW",
            "RAISE WARNING 'cancelled'",
        )
        self.addCleanup(trigger.close)
        os.kill(json.loads(note.read_text())["pid"], signal.SIGKILL)
        eventually(lambda: "end: PostgreSQL: cancelled" in self.keeping.said(), "the doubt")
        trigger.close()
        eventually(lambda: not self.keeping.standbys(), "the end of what is noted")
