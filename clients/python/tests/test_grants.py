"""PostgreSQL with least privilege: all that keepers and words do, by the roles that `pagelogctl grants` prints."""

from __future__ import annotations

import subprocess
import unittest
from pathlib import Path

import psycopg
from click.testing import CliRunner

from keepers import Keeping, eventually
from pagelog.console.source import Source
from pagelog.cli.words import pagelogctl
from pagelog.keeper.grants import RIGHTS, SEQUENCES, Roles, quoted
from postgres import postgres
from service import put, token

ROLES = Roles()


def printed(*options: str) -> str:
    done = CliRunner().invoke(pagelogctl, ["grants", *options])
    assert done.exit_code == 0, done.output
    return done.output


class Granted(unittest.TestCase):
    """A new database of PostgreSQL's, with what `grants` has printed, by the words of its help."""

    name = "granted"

    @classmethod
    def setUpClass(cls) -> None:
        cls.boss = postgres().url(cls.name)
        for _ in range(2):  # as after an upgrade
            subprocess.run(
                ["psql", "-q", "-v", "ON_ERROR_STOP=1", "-d", cls.boss],
                input=printed(),
                text=True,
                check=True,
                stdout=subprocess.DEVNULL,
                stderr=subprocess.DEVNULL,
            )

    @classmethod
    def by(cls, role: str) -> str:
        return cls.boss.replace("//pagelog@", f"//{role}@")


class Roled(Granted):
    name = "roled"

    def test_each_table_and_sequence_has_its_rights(self) -> None:
        with psycopg.connect(self.boss) as session:
            found = session.execute(
                "SELECT relname, relkind, relowner::regrole::text FROM pg_class WHERE relnamespace = 'public'::regnamespace "
                "AND relkind IN ('r', 'S', 'v')"
            ).fetchall()
        self.assertEqual({name for name, kind, _ in found if kind != "S"}, set(RIGHTS))
        self.assertEqual({name for name, kind, _ in found if kind == "S"}, set(SEQUENCES))
        self.assertEqual({owner for *_, owner in found}, {ROLES.creates})

    def test_nobody_else_may_connect_and_who_looks_sees_no_secret(self) -> None:
        with psycopg.connect(self.boss, autocommit=True) as session:
            session.execute(
                "DO $$ BEGIN CREATE ROLE nobody_at_all LOGIN; EXCEPTION WHEN duplicate_object THEN NULL; END $$"
            )
        with self.assertRaisesRegex(psycopg.OperationalError, "permission denied"):
            psycopg.connect(self.by("nobody_at_all"))
        with psycopg.connect(self.by(ROLES.looks), autocommit=True) as looks:
            for refused in (
                "SELECT text FROM pagelog_table",
                "SELECT secret FROM pagelog_table",
                "SELECT * FROM pagelog_table",
                "SELECT data FROM pagelog_block",
                "SELECT data FROM pagelog_image",
                "SELECT text FROM pagelog_trail_text",
                "UPDATE pagelog_keeper SET beat = 0",
                "DELETE FROM pagelog_log",
                "CREATE TABLE mine (a int)",
                "CREATE TEMP TABLE mine (a int)",
            ):
                with self.subTest(refused), self.assertRaises(psycopg.errors.InsufficientPrivilege):
                    looks.execute(refused)
        with psycopg.connect(self.by(ROLES.keeps), autocommit=True) as keeps:
            for refused in (
                "UPDATE pagelog_table SET log = 0",
                "INSERT INTO pagelog_log (name, format, archived, epoch) VALUES ('x', 3, 0, 1)",
                "DELETE FROM pagelog_log",
                "DROP TABLE pagelog_keeper",
                "ALTER TABLE pagelog_log ADD mine int",
            ):
                with self.subTest(refused), self.assertRaises(psycopg.errors.InsufficientPrivilege):
                    keeps.execute(refused)

    def test_names_of_roles_are_quoted_and_others_refused(self) -> None:
        self.assertEqual(quoted('a"b'), '"a""b"')
        self.assertIn('CREATE ROLE "my keeper" LOGIN', printed("--keeps", "my keeper"))
        for wrong in (
            ("--keeps", "pagelog_looks"),
            ("--looks", "a'b"),
            ("--creates", "$$"),
            ("--creates", ""),
        ):
            self.assertEqual(CliRunner().invoke(pagelogctl, ["grants", *wrong]).exit_code, 2)


class Lived(Granted):
    """A life of a database, in which each word and each keeper has its own role."""

    name = "lived"

    def setUp(self) -> None:
        self.keeping = self.enterContext(
            Keeping(ttl=1.0, url=self.by(ROLES.creates), more="trail = 3\n")
        )
        self.files = {
            role: self.keeping.folder / f"{role}.toml"
            for role in (ROLES.creates, ROLES.keeps, ROLES.looks)
        }
        text = self.keeping.file.read_text().replace("[keeper]", "keep = 1\n[keeper]")
        for role, file in self.files.items():
            file.touch(mode=0o600)
            file.write_text(text.replace(self.by(ROLES.creates), self.by(role)))
        self.keeping.file = self.files[ROLES.keeps]

    def word(self, role: str, *words: object) -> str:
        done = CliRunner().invoke(
            pagelogctl, [*map(str, words), "--credentials", str(self.files[role])]
        )
        self.assertEqual(done.exit_code, 0, f"{words}: {done.output}")
        return done.output

    def commit(self, text: str) -> int:
        with self.keeping.primary() as primary:
            primary.append(put(0, text.encode()))
            return primary.commit(durable=True)

    def succeed(self) -> None:
        before = self.keeping.place().generation
        self.word(ROLES.keeps, "rollover", "shop")
        self.keeping.place(least=before + 1)

    def test_a_life_of_a_database_by_three_roles(self) -> None:
        creates, keeps, looks = ROLES.creates, ROLES.keeps, ROLES.looks
        self.word(creates, "create", "shop", "--table", self.keeping.table)
        self.keeping.start("a", "b")
        self.assertEqual(self.commit("1"), 1)
        eventually(lambda: self.keeping.standbys() != {}, "a standby")
        self.word(keeps, "switchover", "shop")
        self.commit("2")
        for number in range(3, 6):
            self.succeed()
            self.commit(str(number))
        self.word(keeps, "prune", "shop", "--keep", "1", "--yes")
        self.word(keeps, "pause", "shop")
        self.word(keeps, "resume", "shop")
        out = self.keeping.folder / "new.toml"
        self.word(keeps, "token", "shop", 3, "--new", "--out", out)
        self.word(keeps, "table", "shop", "--show")
        self.commit("6")
        self.word(creates, "restore", "shop", "--at", self.keeping.row().archived, "--as", "copy")
        done = CliRunner().invoke(
            pagelogctl, ["rescue", "shop", "--credentials", str(self.files[keeps])]
        )
        self.assertIn(
            "no keeper says that it has a run of shop which PostgreSQL lacks", done.output
        )
        self.assertIn("shop", self.word(looks, "list", "--wide"))
        self.assertIn("copy", self.word(looks, "list", "--json"))
        source = Source(self.by(looks))
        self.addCleanup(source.close)
        eventually(lambda: bool(source.look().trails), "the trail of the database")
        self.word(creates, "drop", "copy", "--yes")
        self.keeping.kill("b")
        self.commit("7")
        self.keeping.start("b")
        self.word(creates, "drop", "shop", "--yes")
        for log in self.keeping.folder.glob("*.log"):
            self.assertNotIn("permission denied", log.read_text())
        self.assertNotIn(token(1), Path(self.files[looks]).read_text())


if __name__ == "__main__":
    unittest.main()
