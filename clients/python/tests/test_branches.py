"""Branches: named databases that may be written, and begin with a position of another one."""

from __future__ import annotations

import sqlite3
from contextlib import closing
from unittest.mock import patch

from click.testing import CliRunner

from keepers import Kept as KeptService
from keepers import eventually
from pagelog import Block, Put
from pagelog.cli.words import pagelogctl
from pagelog.referee.bases import Bases, make_base, transaction
from pagelog.keeper.branching import branch, chain_at
from pagelog.keeper.history import begin_again
from pagelog.referee.referee import digest
from pagelog.referee.rows import Batch, Row
from pagelog.place import WrongToken
from pagelog.store.mover import Mover
from pagelog.store.sweeping import sweep
from service import WIDE_TABLE, token
from sqlite_named import connected
from test_images import pages
from test_store import Old, pages_of


_LOOKS = "SELECT seq_scan + idx_scan FROM pg_stat_xact_user_tables WHERE relname = 'pagelog_log'"
"""How often this transaction has looked for a row of a database."""


class ByRows(Old):
    """Beside a store."""

    def row_of(self, name: str) -> Row:
        row = self.reader.everything().row(name)
        assert row is not None
        return row

    def write_to(self, row: Row, count: int) -> list[bytes]:
        """Takes it, and archives blocks behind what it has."""
        kept = self.referee.take(row, f"run of {row.name}")
        assert kept is not None
        made = [
            Block.of(kept.archived + 1 + at, [Put(at, 0, b"of the branch %d" % at)]).data
            for at in range(count)
        ]
        batch = Batch(
            row.id,
            f"run of {row.name}",
            kept.generation,
            kept.archived,
            digest(kept.chain, made),
            tuple(made),
        )
        self.assertEqual(self.referee.keep([batch]), {row.id})
        return made

    def move_of(self, row: Row) -> None:
        mover = Mover(self.reading(), self.store, row.id, row.name, row.identity, self.settings)
        while mover.step():
            pass

    def test_both_go_on_and_neither_knows_of_the_other(self) -> None:
        files = sorted(self.folder.rglob("*"))
        branches: dict[str, list[bytes]] = {}
        for position in (self.border - 1, self.border, self.border + 7, 600, 625):
            self.assertTrue(branch(self.reader, self.row_now(), position, f"b{position}"))
            self.assertFalse(branch(self.reader, self.row_now(), position, f"b{position}"))
            row = self.row_of(f"b{position}")
            self.assertEqual(
                (row.archived, row.chain, row.read_only, row.ancestor),
                (position, digest(b"", self.made[:position]), False, "shop"),
            )
            branches[row.name] = self.made[:position]
        self.assertEqual(sorted(self.folder.rglob("*")), files)  # no byte is copied
        self.assertEqual(
            len({self.row_of(name).identity for name in branches} | {self.row.identity}), 6
        )
        for name, known in branches.items():
            known += self.write_to(self.row_of(name), 250)
        self.write(200)
        for name in branches:
            self.move_of(self.row_of(name))
        self.move()
        self.check_all(branches)
        make_base(self.reader, self.row.id, self.kept.archived, self.kept.chain)
        Bases(self.reader, self.row.id).prune(self.kept.archived)
        self.assertTrue(self.reader.drop("b600"))
        del branches["b600"]
        sweep(self.reader, self.store, 0.0)
        self.check_all(branches)

    def test_images_are_shared_as_blocks_are(self) -> None:
        """By rows alone; what is pruned of one stays the other's, and the other has its own from there on."""
        base = make_base(self.reader, self.row.id, self.kept.archived, self.kept.chain)
        self.move()
        self.write(30)
        files = sorted(self.folder.rglob("*"))
        self.assertTrue(branch(self.reader, self.row_now(), 640, "trial"))
        trial = self.row_of("trial")
        [[here]] = self.reader._ask("SELECT count(*) FROM pagelog_image WHERE data <> ''")
        self.assertEqual((here, sorted(self.folder.rglob("*"))), (0, files))
        before, made = pages(self.made[:625]), self.made[:640]
        self.write(50)
        make_base(self.reader, self.row.id, self.kept.archived, self.kept.chain)
        self.move()
        Bases(self.reader, self.row.id).prune(self.kept.archived)
        sweep(self.reader, self.store, 0.0)
        self.assertEqual(pages_of(Bases(self.reading(), trial.id), base), before)
        made += self.write_to(trial, 40)
        self.move_of(trial)
        trial = self.row_of("trial")
        second = make_base(self.reader, trial.id, trial.archived, trial.chain)
        self.move_of(trial)
        self.assertEqual(pages_of(Bases(self.reading(), trial.id), second), pages(made))
        stored = self.reader._ask(
            "SELECT base, is_stored FROM pagelog_base WHERE log = %s ORDER BY base", (trial.id,)
        )
        self.assertEqual(stored, [(625, True), (680, True)])
        numbers = self.reader._ask(
            "SELECT number, count(*) FROM pagelog_pack WHERE log = %s GROUP BY number ORDER BY number",
            (trial.id,),
        )
        self.assertEqual(numbers, [(1, 1), (3, 1)])  # a manifest has one, too
        self.assertTrue(self.reader.drop("shop"))
        sweep(self.reader, self.store, 0.0)
        self.assertEqual(pages_of(Bases(self.reading(), trial.id), second), pages(made))
        self.assertTrue(self.reader.drop("trial"))
        sweep(self.reader, self.store, 0.0)
        self.assertEqual(list(self.store.list("")), [])

    def test_images_that_are_on_their_way_are_copied(self) -> None:
        make_base(self.reader, self.row.id, self.kept.archived, self.kept.chain)

        class Died(Exception):
            pass

        def die(point: str) -> None:
            if point == "pack named":
                raise Died

        with self.assertRaises(Died):
            self.move(passing=die)
        self.assertTrue(branch(self.reader, self.row_now(), 625, "trial"))
        trial = self.row_of("trial")
        self.reader.drop("shop")
        sweep(self.reader, self.store, 0.0)
        base = Bases(self.reading(), trial.id).newest(625)
        self.assertEqual(pages_of(Bases(self.reading(), trial.id), base), pages(self.made))
        self.move_of(trial)
        self.assertEqual(pages_of(Bases(self.reading(), trial.id), base), pages(self.made))

    def test_the_database_of_its_images_is_not_looked_for_by_each(self) -> None:
        """That takes a third of the time where there are many."""
        self.keep([Block.of(626 + at, [Put(64 * at, 0, b"x")]).data for at in range(100)])
        make_base(self.reader, self.row.id, self.kept.archived, self.kept.chain)
        self.move()
        row = self.row_now()
        with transaction(self.reader):
            [[before]] = self.reader._ask(_LOOKS)
            self.assertTrue(branch(self.reader, row, row.archived, "trial"))
            [[after]] = self.reader._ask(_LOOKS)
        [[images]] = self.reader._ask(
            "SELECT count(*) FROM pagelog_image WHERE log = %s", (self.row_of("trial").id,)
        )
        self.assertEqual(images, 100)
        self.assertLess(after - before, 30)

    def check_all(self, branches: dict[str, list[bytes]]) -> None:
        for name, wanted in branches.items():
            row = self.row_of(name)
            self.assertEqual(
                (self.read(row.id, row.archived), row.chain), (wanted, digest(b"", wanted)), name
            )

    def test_a_branch_reads_little_whatever_is_below_it(self) -> None:
        """One object at most, or what PostgreSQL has behind the last one."""
        asked: list[str] = []
        get = self.store.get
        with patch(
            "pagelog.objects.place.Folder.get",
            lambda _, key, *part: (asked.append(key), get(key, *part))[1],
        ):
            for position, most in ((625, 0), (600, 2), (self.border, 1), (self.border + 5, 1 + 2)):
                asked.clear()
                reader = self.reading()
                row = self.row_now()
                self.assertEqual(chain_at(reader, row, position), digest(b"", self.made[:position]))
                self.assertLessEqual(len(asked), most, position)
                reader.close()

    def test_the_name_in_its_pages_is_known(self) -> None:
        """SQLite writes the own name of a branch some time after it began: a branch or a copy of that one has either."""

        def named(position: int, name: bytes) -> bytes:
            return Block.of(
                position, [Put(0, 40, bytes((len(name),)) + name), Put(0, 0, b"mark")]
            ).data

        self.keep([named(626, b"shop"), Block.of(627, [Put(3, 0, b"x")]).data])
        self.assertTrue(branch(self.reader, self.row_now(), 627, "one"))
        one = self.row_of("one")
        kept = self.referee.take(one, "r")
        assert kept is not None
        made = [
            Block.of(628, [Put(4, 0, b"y")]).data,
            named(629, b"one"),
            Block.of(630, [Put(4, 0, b"z")]).data,
        ]
        self.assertEqual(
            self.referee.keep(
                [Batch(one.id, "r", kept.generation, 627, digest(kept.chain, made), tuple(made))]
            ),
            {one.id},
        )
        one = self.row_of("one")
        for position, name in ((628, "shop"), (629, "one"), (630, "one")):
            self.assertTrue(branch(self.reader, one, position, f"two-{position}"))
            self.assertTrue(begin_again(self.reader, one, position, f"copy-{position}"))
            self.assertEqual(
                [self.row_of(f"{kind}-{position}").ancestor for kind in ("two", "copy")],
                [name, name],
            )

    def test_the_name_in_its_pages_is_known_where_its_blocks_are_gone(self) -> None:
        """A branch of a branch reads no further back than to what that one began with, or to its own base."""

        def named(position: int, name: bytes) -> bytes:
            mark = b"plfile01" + position.to_bytes(8, "big") + bytes(24)
            return Block.of(
                position, [Put(0, 40, bytes((len(name),)) + name), Put(0, 0, mark)]
            ).data

        self.keep([named(626, b"shop")])
        make_base(self.reader, self.row.id, self.kept.archived, self.kept.chain)
        self.assertTrue(branch(self.reader, self.row_now(), 626, "one"))
        one = self.row_of("one")
        kept = self.referee.take(one, "r")
        assert kept is not None
        made = [Block.of(627, [Put(4, 0, b"z")]).data, named(628, b"one")]
        after = digest(kept.chain, made)
        batch = Batch(one.id, "r", kept.generation, 626, after, tuple(made))
        self.assertEqual(self.referee.keep([batch]), {one.id})
        make_base(self.reader, one.id, 628, after)
        Bases(self.reader, one.id).prune(628)
        one = self.row_of("one")
        self.assertTrue(branch(self.reader, self.row_now(), 626, "other"))
        for of, position, name in (("other", 626, "shop"), ("one", 628, "one")):
            self.assertTrue(branch(self.reader, self.row_of(of), position, f"two-{position}"))
            self.assertEqual(self.row_of(f"two-{position}").ancestor, name)


class Opened(KeptService):
    """Under keepers, without a store."""

    keepers = "a"
    options = {"standby": False}

    def test_a_branch_is_opened_and_written_under_its_own_name(self) -> None:
        with closing(connected(self.keeping.addresses)) as writer:
            writer.execute("create table t(n integer primary key)")
            writer.execute("insert into t values(7)")
            position = int(writer.execute("pragma pagelog_position").fetchone()[0])
            writer.execute("drop table t")
            writer.execute("pragma pagelog_position").fetchone()
        self.keeping.word("branch", "shop", "trial", "--at", position)
        other = self.keeping.folder / "other.toml"
        other.write_text(WIDE_TABLE.replace(token(2), "77" * 16))
        self.assertIn(
            "may be written", self.keeping.word("branch", "shop", "denied", "--table", other)
        )
        for name in ("trial", "denied"):
            eventually(
                lambda: self.keeping.row(name).address is not None, "its place"
            )  # noqa: B023
        with closing(connected(self.keeping.addresses, name="trial", file="trial")) as branch_of:
            self.assertEqual(
                branch_of.execute("select n from t").fetchone(), (7,)
            )  # a table that was dropped is there again
            for number in range(300):  # until it has written its own name
                branch_of.execute("insert or replace into t values(?)", (number % 9,))
        with closing(
            connected(self.keeping.addresses, id=3, name="trial", file="trial", mode="ro")
        ) as reader:
            self.assertEqual(reader.execute("select count(*) from t").fetchone(), (9,))
            self.assertEqual(reader.execute("pragma integrity_check").fetchone(), ("ok",))
        with closing(connected(self.keeping.addresses, id=3, mode="ro")) as reader:
            self.assertRaises(sqlite3.OperationalError, reader.execute, "select * from t")
        with self.keeping.primary("denied") as primary:
            primary.append(Put(0, 0, b"x"))
            self.assertRaises(WrongToken, primary.commit)
        result = CliRunner().invoke(
            pagelogctl, ["branch", "shop", "trial", "--credentials", str(self.keeping.file)]
        )
        self.assertIn("there is a database trial", result.output)
