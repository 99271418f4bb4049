"""A store in a bucket, and under keepers: what they do with it, and the subcommands for it."""

from __future__ import annotations

import hashlib
import json
import os
import signal
import subprocess
import sys
import tempfile
import threading
import unittest
from contextlib import closing
from dataclasses import replace
from functools import partial
from pathlib import Path
from types import SimpleNamespace
from typing import Any, Callable
from unittest.mock import patch

import psycopg
from click.testing import CliRunner

from keepers import Keeping, eventually, new_url
from pagelog import Lost
from pagelog.credentials import load
from pagelog.cli.words import pagelogctl
from pagelog.errors import CredentialsError
from pagelog.referee.bases import Bases, make_base
from pagelog.keeper.branching import branch
from pagelog.keeper.holding import held_since, hold
from pagelog.referee.referee import Referee
from pagelog.referee.rows import Row
from pagelog.keeper.storing import Storing
from pagelog.store import legal_holds
from pagelog.store.copying import part_of_day, verify
from pagelog.store.mover import Mover
from pagelog.store.moving import Moving, Wish
from pagelog.objects.place import Missing, Store, StoreAway, StoreError, Taken, store_of
from pagelog.objects.s3 import TRIES, Bucket
from pagelog.objects.settings import StoreSettings
from s3_stub import S3
from service import PATIENCE, SOURCE, WIDE_TABLE, put
from sqlite_named import connected
from test_images import pages
from test_store import SMALL, Stored, WithImages, pages_of

AWS = {
    "AWS_ACCESS_KEY_ID": "key",
    "AWS_SECRET_ACCESS_KEY": "secret",
    "AWS_DEFAULT_REGION": "us-east-1",
    "AWS_CONFIG_FILE": "/dev/null",
    "AWS_SHARED_CREDENTIALS_FILE": "/dev/null",
    "AWS_EC2_METADATA_DISABLED": "true",
}


class Settings(unittest.TestCase):
    def read(self, text: str) -> StoreSettings | None:
        file = Path(self.enterContext(tempfile.TemporaryDirectory())) / "c.toml"
        file.touch(mode=0o600)
        file.write_text(text)
        return load(file, {}).store

    def test_the_file_says_where_the_store_is_and_when_blocks_go_there(self) -> None:
        self.assertIsNone(self.read('[archive]\nurl = "x"\n'))
        self.assertEqual(
            self.read('[archive]\nstore = "file:///a/b"\n'), StoreSettings("file:///a/b")
        )
        found = self.read(
            '[archive]\nstore = "s3://bucket/a/b"\n[store]\nregion = "eu"\nseal = "1MiB"\nage = "5s"\ntail = "2min"\ngrace = "7d"\nbases = 8\n'
        )
        self.assertEqual(
            found,
            StoreSettings(
                "s3://bucket/a/b",
                region="eu",
                seal=1 << 20,
                age=5.0,
                tail=120.0,
                grace=604_800.0,
                bases=8,
            ),
        )
        for wrong in (
            'store = "a/b"',
            'store = "file://a/b"',
            'store = "file:///"',
            'store = "s3:///x"',
            'store = "s3://k:s@b"',
            "store = 1",
        ):
            self.assertRaisesRegex(
                CredentialsError, "store is file:///FOLDER", self.read, f"[archive]\n{wrong}\n"
            )
        for wrong in (
            'seal = "1GiB"',
            'seal = "x"',
            'age = "60"',
            "age = 60",
            "bases = 0",
            'secret = "x"',
            "region = 1",
            "tail = -1",
        ):
            self.assertRaisesRegex(
                CredentialsError,
                r"\[store\]",
                self.read,
                f'[archive]\nstore = "s3://b"\n[store]\n{wrong}\n',
            )
        self.assertRaisesRegex(CredentialsError, "of no use", self.read, '[store]\nage = "1s"\n')

    def test_the_library_of_s3_is_imported_for_s3_alone(self) -> None:
        """It takes a second of a processor, and is not installed everywhere."""
        code = (
            "import sys; sys.path.insert(0, sys.argv[1]); import pagelog.cli.words, pagelog.keeper.keeping, pagelog.store.moving; "
            "from pagelog.objects.place import store_of; from pagelog.objects.settings import StoreSettings; "
            "store_of(StoreSettings('file:///tmp')); print(sorted({m.split('.')[0] for m in sys.modules} & {'boto3', 'botocore'}))"
        )
        command = [sys.executable, "-B", "-c", code, str(SOURCE)]
        done = subprocess.run(command, capture_output=True, text=True, check=True)
        self.assertEqual(done.stdout.strip(), "[]")


def at_once() -> Any:
    """The library asks again without a wait."""
    return patch("botocore.endpoint.time", SimpleNamespace(sleep=lambda _: None))


class Buckets(unittest.TestCase):
    def setUp(self) -> None:
        self.enterContext(at_once())
        self.server = self.enterContext(S3())
        self.enterContext(patch.dict(os.environ, AWS))
        self.settings = StoreSettings("s3://b/prod", endpoint_url=self.server.url)
        self.store: Store = store_of(self.settings)

    def test_a_bucket_keeps_five_words(self) -> None:
        store = self.store
        for number in range(7):
            store.put(f"shop/blocks/{number}", b"%d!" % number)
        store.put("shop/blocks/3", b"3?")
        self.assertEqual(
            (
                store.get("shop/blocks/3"),
                store.get("shop/blocks/3", 1),
                store.get("shop/blocks/3", 0, 1),
            ),
            (b"3?", b"?", b"3"),
        )
        self.assertEqual(
            [store.get("shop/blocks/3", start, 5) for start in (1, 2, 7)], [b"?", b"", b""]
        )  # as of a file
        self.assertEqual(list(store.older("shop/blocks/3")), [b"3?", b"3!"])
        self.assertEqual(
            [key for key, _ in store.list("shop/")],
            [f"shop/blocks/{number}" for number in range(7)],
        )
        self.assertEqual(
            list(store.list("shop/", "shop/blocks/4")), [("shop/blocks/5", 2), ("shop/blocks/6", 2)]
        )
        store.delete("shop/blocks/3")
        self.assertRaises(Missing, store.get, "shop/blocks/3")
        self.assertEqual(list(store.older("shop/blocks/3")), [b"3?", b"3!"])
        self.assertIn("/b/prod/shop/blocks/3", self.server.objects)

    def test_what_a_server_says_amiss_is_named(self) -> None:
        self.server.answers[:] = [503]
        self.store.put("a", b"1")  # asked again by the library
        self.server.answers[:] = [503] * 9
        self.assertRaises(StoreAway, self.store.put, "a", b"1")
        self.server.answers[:] = [501]
        with self.assertRaises(StoreError) as caught:
            self.store.put("a", b"1")
        self.assertNotIsInstance(caught.exception, StoreAway)
        self.server.answers.clear()
        nobody = store_of(StoreSettings("s3://b", endpoint_url="http://127.0.0.1:9"))
        self.assertRaises(StoreAway, nobody.get, "a")

    def test_a_key_that_is_written_once_has_the_same_bytes_or_is_named(self) -> None:
        self.server.writes_once = True
        for _ in range(2):
            self.store.put("a", b"1")
        with self.assertRaisesRegex(Taken, "has a already, .*: its bytes are others"):
            self.store.put("a", b"2")
        self.assertEqual(self.server.objects["/b/prod/a"], [b"1"])
        self.store.delete("a")
        self.store.put("a", b"2")
        self.assertEqual(self.store.get("a"), b"2")

    def test_a_put_whose_reply_is_lost_is_repeated(self) -> None:
        for self.server.writes_once, versions in ((False, [b"1", b"1", b"1"]), (True, [b"1"])):
            self.server.objects.clear()
            self.server.loses = 2
            self.store.put("a", b"1")
            self.assertEqual(self.server.objects["/b/prod/a"], versions)
            self.assertEqual(self.store.get("a"), b"1")
        self.server.writes_once, self.server.loses = False, 1 << 60
        self.assertRaises(StoreAway, self.store.put, "b", b"2")
        self.assertEqual(self.store.get("b"), b"2")

    def test_encryption_that_is_not_confirmed_is_a_fault(self) -> None:
        store = store_of(StoreSettings("s3://b", endpoint_url=self.server.url, sse="AES256"))
        store.put("a", b"1")
        self.server.confirms = False
        self.assertRaisesRegex(StoreError, "does not confirm", store.put, "a", b"1")


class Moved(Stored):
    def test_blocks_go_to_a_bucket_and_come_back(self) -> None:
        server = self.enterContext(S3())
        self.enterContext(patch.dict(os.environ, AWS))
        self.settings = StoreSettings(
            "s3://b", endpoint_url=server.url, seal=20_000, age=0.0, tail=0.0
        )
        self.store = store_of(self.settings)  # type: ignore[assignment]
        self.write(400)
        base = make_base(self.reading(), self.row.id, self.kept.archived, self.kept.chain)
        self.move()
        self.check()
        self.assertEqual(self.in_postgres(), [])
        for versions in server.objects.values():
            versions.append(b"other bytes")
        self.assertEqual(self.read(), self.made)  # by the version before
        self.assertEqual(pages_of(Bases(self.reading(), self.row.id), base), pages(self.made))
        self.assertFalse([line for line in server.requests if not line.startswith(("PUT", "GET"))])
        self.check_days()

    def check_days(self) -> None:
        """On some days all objects are read, each on one of them, and of many about as many on each."""
        days, reader = 5, self.reading()
        counts = [sum(part_of_day(f"{key}", days, day) for key in range(1000)) for day in range(7)]
        self.assertEqual((sum(counts[:5]), counts[5:]), (1000, counts[:2]))
        self.assertTrue(all(100 < count < 300 for count in counts))

        def read(is_read: Callable[[str], bool]) -> list[int]:
            done = verify(reader, self.row.id, self.settings, lambda *_: None, is_read)
            return [done.objects, done.blocks, done.images]

        parts = [read(partial(part_of_day, days=days, day=day)) for day in range(days)]
        whole = read(lambda _: True)
        self.assertEqual([sum(some) for some in zip(*parts)], whole)


class Once(Stored):
    """A mover, and a bucket that writes each key once."""

    def setUp(self) -> None:
        super().setUp()
        self.server = self.enterContext(S3())
        self.enterContext(patch.dict(os.environ, AWS))
        self.settings = StoreSettings(
            "s3://b", endpoint_url=self.server.url, seal=20_000, age=0.0, tail=0.0
        )
        self.store = store_of(self.settings)  # type: ignore[assignment]
        self.server.writes_once = True
        self.enterContext(at_once())
        self.write(400)

    def versions(self) -> set[int]:
        return {len(versions) for versions in self.server.objects.values()}

    def test_what_another_has_put_just_now_is_kept(self) -> None:
        def put(point: str) -> None:
            if point == "before put":
                ready = mover._store
                self.assertIsInstance(ready, Bucket)
                key = next(each[2] for each in self.objects() if each[3] == 0)
                another = self.mover()
                row = another._open()
                assert row is not None and row.key == key
                another._put(row)

        mover = self.mover(passing=put)
        while mover.step():
            pass
        self.check()
        self.assertEqual((self.in_postgres(), self.versions()), ([], {1}))

    def test_other_bytes_there_are_named_and_nothing_is_written_over_or_cut(self) -> None:
        first: list[str] = []

        def other(point: str) -> None:
            if point == "sealed" and not first:
                first.append(f"/b/{self.objects()[0][2]}")
                self.server.objects[first[0]] = [b"other bytes"]

        mover = self.mover(passing=other)
        for _ in range(3):  # and again and again
            with self.assertRaisesRegex(Taken, "its bytes are others"):
                while mover.step():
                    pass
        self.assertEqual(self.server.objects[first[0]], [b"other bytes"])
        self.assertEqual(self.in_postgres(), [*range(1, 401)])
        self.assertEqual(self.read(), self.made)
        del self.server.objects[first[0]]
        while mover.step():
            pass
        self.check()
        self.assertEqual((self.in_postgres(), self.versions()), ([], {1}))

    def test_where_replies_are_lost_each_object_is_put_and_read_back_before_it_is_cut(self) -> None:
        for self.server.writes_once, is_away in ((True, False), (False, True)):
            mover, away = self.mover(), 0
            while True:
                self.server.loses = 7  # more than the library asks again
                try:
                    if not mover.step():
                        break
                except StoreAway:
                    away += 1
                    self.assertLess(away, 20, "it is put again and again")
                    self.assertEqual(self.read(), self.made)
                    self.assertEqual({each[3] for each in self.objects()} - {2}, {0})
            self.assertEqual(away > 0, is_away)
            self.check()
            self.assertEqual(self.in_postgres(), [])
            self.assertEqual(self.versions(), {1} if self.server.writes_once else {1, 1 + TRIES})
            self.write(200)


class LegalHolds(WithImages):
    """Of objects in a bucket with object lock."""

    def new_settings(self) -> StoreSettings:
        self.server = self.enterContext(S3())
        self.server.locks = True
        self.enterContext(patch.dict(os.environ, AWS))
        url = self.server.url
        return StoreSettings("s3://b/x", endpoint_url=url, seal=SMALL, age=0.0, tail=0.0, grace=0.0)

    def without_lock(self) -> str:
        """The URL of a bucket that has none."""
        self.server.locks = False
        return "s3://b/x"

    def setUp(self) -> None:
        super().setUp()
        self.write(300)
        self.base()
        self.move()
        self.file = self.folder.parent / f"{self.folder.name}.toml"
        self.addCleanup(self.file.unlink)
        self.file.touch(mode=0o600)
        self.at(self.settings.url)

    def at(self, url: str) -> None:
        """The file of credentials, with a store."""
        self.file.write_text(
            f'[archive]\nurl = "{self.url}"\nstore = "{url}"\n[store]\n'
            f'endpoint_url = "{self.settings.endpoint_url}"\n'
        )

    def said(self, *words: str) -> str:
        done = CliRunner().invoke(pagelogctl, [*words, "--credentials", str(self.file)])
        return done.output

    def row_now(self, name: str = "shop") -> Row:
        row = self.reader.everything().row(name)
        assert row is not None
        return row

    def keys(self) -> set[str]:
        return {key for key, _ in self.store.list("")}

    def deleted(self) -> set[str]:
        """The keys of which somebody who may do all else can delete a version for good; it is put again."""
        import boto3
        from botocore.exceptions import ClientError

        client: Any = boto3.client("s3", endpoint_url=self.settings.endpoint_url)
        bucket, _, prefix = self.settings.url.removeprefix("s3://").partition("/")
        found = set()
        for key in self.keys():
            data = self.store.get(key)
            said = client.list_object_versions(Bucket=bucket, Prefix=f"{prefix}/{key}")
            version = said["Versions"][0]["VersionId"]
            try:
                client.delete_object(Bucket=bucket, Key=f"{prefix}/{key}", VersionId=version)
            except ClientError as error:
                self.assertEqual(error.response["Error"]["Code"], "AccessDenied")
            else:
                found.add(key)
                self.store.put(key, data)
        return found

    def test_nobody_deletes_what_is_held_until_it_is_released(self) -> None:
        self.assertEqual(self.deleted(), self.keys())
        held = self.keys()
        with patch("pagelog.store.legal_holds._PAGE", 2):
            said = self.said("hold", "shop", "--legal")
            self.assertRegex(said, "^shop is held since 20.*: positions 0 to 300, from 20")
            self.assertIn(f"\n{len(held)} objects of it in the store have a legal hold\n", said)
            self.assertEqual(self.deleted(), set())
            self.assertEqual(self.read(), self.made)
            self.write(300)
            self.move()
            self.assertEqual(self.deleted(), self.keys() - held)
            self.assertIn(f"\n{len(self.keys())} objects", self.said("hold", "shop", "--legal"))
            self.assertEqual(self.deleted(), set())
            self.said("drop", "shop", "--yes")
            self.assertEqual(self.deleted(), set())
            said = self.said("hold", "shop", "--release")
            self.assertIn(f"took {len(self.keys())} legal holds off\nshop may be pruned", said)
            self.assertEqual(self.deleted(), self.keys())
        self.assertIn("shop may be pruned", self.said("hold", "shop", "--release"))

    def test_a_store_without_object_lock_is_refused_by_name_and_nothing_is_held(self) -> None:
        url = self.without_lock()
        bucket = url.removeprefix("s3://").partition("/")[0]
        self.at(url)
        wanted = f"the bucket {bucket} has no object lock, and so no legal holds"
        self.assertIn(wanted, self.said("hold", "shop", "--legal"))
        self.at(f"file://{self.folder}")
        self.assertIn("a folder has no legal holds", self.said("hold", "shop", "--legal"))
        self.assertIsNone(held_since(self.reader, self.row_now()))
        done = CliRunner().invoke(pagelogctl, ["hold", "shop", "--legal", "--release"])
        self.assertEqual(done.exit_code, 2)

    def shared(self) -> set[str]:
        """The keys that a branch, which is made, has too."""
        self.write(20)
        self.assertTrue(branch(self.reader, self.row_now(), 310, "trial"))
        rows = self.reader._ask(
            "SELECT key FROM pagelog_object WHERE log = %(log)s "
            "UNION SELECT key FROM pagelog_pack WHERE log = %(log)s",
            {"log": self.row_now("trial").id},
        )
        self.assertGreater(len(rows), 0)
        return {key for key, in rows}

    def test_what_a_branch_has_too_is_held_until_both_are_released(self) -> None:
        shared = self.shared()
        for name in ("shop", "trial"):
            self.said("hold", name, "--legal")
        count = len(self.keys() - shared)
        self.assertIn(f"took {count} legal holds off", self.said("hold", "shop", "--release"))
        self.assertEqual(self.deleted(), self.keys() - shared)
        self.assertIn(f"took {len(shared)} legal hold", self.said("hold", "trial", "--release"))
        self.assertEqual(self.deleted(), self.keys())

    def test_a_branch_that_is_held_while_the_other_is_released_stays_so(self) -> None:
        shared, store = self.shared(), legal_holds.holding(self.store)
        trial = self.row_now("trial")
        hold(self.reader, self.row_now())
        legal_holds.put_on(self.reader, self.row.id, store, lambda _: None)
        real, others, left = Bucket.hold, self.reading(), [True]

        def meanwhile(of: Bucket, key: str, is_on: bool) -> None:
            if not is_on and left:
                left.clear()
                hold(others, trial)
                legal_holds.put_on(others, trial.id, store, lambda _: None)
            real(of, key, is_on)

        with patch.object(Bucket, "hold", meanwhile), patch.object(legal_holds, "AT_ONCE", 1):
            legal_holds.take_off(self.reader, self.row.id, store, lambda _: None)
        self.assertEqual(self.deleted(), self.keys() - shared)

    def test_a_release_that_is_cut_off_is_gone_on_with(self) -> None:
        self.said("hold", "shop", "--legal")
        count, real = len(self.keys()), Bucket.hold

        def away(store: Bucket, key: str, is_on: bool) -> None:
            if "/images/" in key:
                raise StoreAway("gone")
            real(store, key, is_on)

        with patch.object(Bucket, "hold", away):
            self.assertIn("gone", self.said("hold", "shop", "--release"))
        self.assertIsNotNone(held_since(self.reader, self.row_now()))
        self.assertEqual(legal_holds.count_of(self.reader, self.row.id), count)
        self.assertIn("shop may be pruned", self.said("hold", "shop", "--release"))
        self.assertEqual(self.deleted(), self.keys())

    def test_a_store_that_does_not_confirm_a_legal_hold_is_refused(self) -> None:
        self.server.confirms = False
        said = self.said("hold", "shop", "--legal")
        self.assertIn("does not confirm the legal hold of shop.", said)

    def test_an_object_that_is_missing_is_named(self) -> None:
        [[pack]] = self.reader._ask("SELECT key FROM pagelog_pack")
        for versions in [v for path, v in self.server.objects.items() if path.endswith(pack)]:
            versions[:] = [None]
        wanted = f"1 of {len(self.keys()) + 1} objects are missing, as {pack}"
        self.assertIn(wanted, self.said("hold", "shop", "--legal"))
        self.assertEqual(self.deleted(), set())


class Silent(unittest.TestCase):
    """A bucket that accepts connections and never answers. Its mover goes step by step here, beside a keeper."""

    def setUp(self) -> None:
        self.server = self.enterContext(S3())
        self.enterContext(patch.dict(os.environ, AWS))
        self.enterContext(at_once())
        self.keeping = self.enterContext(Keeping(standby=False))
        self.keeping.referee.prepare()
        self.assertTrue(
            self.keeping.referee.create("shop", self.keeping.table.read_text(), b"s" * 16)
        )
        self.keeping.start("a")
        self.now, self.said = 1000.0, list[str]()
        self.enterContext(
            patch("pagelog.store.moving.time", SimpleNamespace(monotonic=lambda: self.now))
        )

    def moving(self, read: float) -> Moving:
        settings = StoreSettings(
            "s3://b", endpoint_url=self.server.url, seal=4096, age=0.0, tail=0.0
        )
        told = Storing(
            SimpleNamespace(url=self.keeping.url, name="a", store=settings, require_standby=False),  # type: ignore[arg-type]
            lambda name, said: self.said.append(f"{name}: {said}"),
        )
        made = Moving(
            Wish(self.keeping.url, "a", settings),
            lambda reports: told._take(json.dumps({"logs": reports}).encode()),
        )
        self.addCleanup(made.close)
        with patch("pagelog.objects.s3.READ", read), patch("pagelog.objects.s3.TRIES", 1):
            made._opened()
        return made

    def test_no_commit_waits_for_it(self) -> None:
        moving = self.moving(PATIENCE)
        with self.keeping.primary() as primary:
            primary.append(put(0, b"<0>"))
            primary.commit(durable=True)
            self.server.is_silent = True
            rounds = threading.Thread(target=self.until_away, args=(moving,))
            rounds.start()
            eventually(lambda: self.server.silent > 0, "a put")
            for number in range(20):
                primary.append(put(number, b"<%d>" % number))
                primary.commit(durable=True)
            self.assertTrue(rounds.is_alive(), "it has not answered")
            self.server.is_silent = False
            self.server.ends_silence.set()
            rounds.join(PATIENCE)
        self.now += 100
        while moving.round():
            pass
        self.assertEqual(self.keeping.referee._ask("SELECT count(*) FROM pagelog_block"), [(0,)])

    @staticmethod
    def until_away(moving: Moving) -> None:
        while moving.round() and not moving._last["shop"]["away"]:
            pass

    def test_it_is_asked_more_and_more_rarely_and_said_once(self) -> None:
        moving = self.moving(0.2)
        with self.keeping.primary() as primary:
            primary.append(put(0, b"<0>"))
            primary.commit(durable=True)
        self.server.is_silent = True
        for wait in (1, 2, 4, 8, 16, 32, 60, 60):
            asked = self.server.silent
            while self.server.silent == asked:
                moving.round()
            asked = self.server.silent
            for self.now in (self.now, self.now + wait - 0.1):  # nothing is asked so soon
                self.assertFalse(moving.round())
            self.assertEqual(self.server.silent, asked, wait)
            self.now += 0.2
        self.assertEqual(len(self.said), 1, self.said)
        self.assertIn(
            "shop: what goes to the store waits: the store does not answer: ", self.said[0]
        )
        self.server.is_silent = False
        while moving.round():
            pass
        self.assertIn("shop: blocks go to the store again: it has all up to ", self.said[-1])
        self.assertEqual(len(self.said), 2, self.said)


class Border(unittest.TestCase):
    """The first blocks of SQLite's database are in the store alone, and the last ones in PostgreSQL alone."""

    def setUp(self) -> None:
        self.folder = Path(self.enterContext(tempfile.TemporaryDirectory()))
        self.keeping = self.enterContext(Keeping(standby=False, more="trail = 1\n"))
        self.keeping.stores(self.folder, seal="4KiB", age="1h", tail="1h")
        self.assertTrue(self.keeping.referee.create("shop", WIDE_TABLE, b"s" * 16))
        self.keeping.start("a")

    def moved_by_half(self, half: int) -> int:
        """What is below this position goes, as far as objects end there. The last position that PostgreSQL has no more."""
        row, settings = self.keeping.row(), self.keeping.referee._store
        assert settings is not None
        mover = Mover(
            self.keeping.referee,
            store_of(settings),
            row.id,
            "shop",
            row.identity,
            replace(settings, tail=0.0),
        )
        ask, cuts = self.keeping.referee._ask, list[int]()

        def is_moved() -> bool:
            """Its keeper moves too: where that is amid a step there is none to be made here."""
            moved = ask("SELECT cut FROM pagelog_store WHERE log = %s", (row.id,))
            [[first]] = ask("SELECT min(lsn) FROM pagelog_block WHERE log = %s", (row.id,))
            cuts[:] = [int(cut) for (cut,) in moved]
            if cuts and cuts[0] >= half and first == cuts[0] + 1:
                return True
            mover.step()
            return False

        eventually(is_moved, "what is below the position to be in the store alone")
        return cuts[0]

    def look(self, name: str) -> tuple[list[str], list[int]]:
        """What SQLite says of it, and its rows."""
        with closing(
            connected(self.keeping.addresses, id=3, name=name, file=name, mode="ro")
        ) as reader:
            said = [row[0] for row in reader.execute("pragma integrity_check")]
            return said, [row[0] for row in reader.execute("select n from t order by n")]

    def test_sqlite_and_a_replay_read_over_it(self) -> None:
        ends = list[int]()
        with closing(connected(self.keeping.addresses)) as writer:
            writer.execute("create table t(n integer primary key, x blob unique)")
            for number in range(60):
                writer.execute("insert into t values(?, randomblob(400))", (number,))
                ends.append(int(writer.execute("pragma pagelog_position").fetchone()[0]))
            archived = self.keeping.row().archived
            cut = self.moved_by_half(ends[30])
            self.assertTrue(ends[30] <= cut < ends[-1] <= archived, (cut, ends))
            os.kill(self.keeping.pid(), signal.SIGKILL)  # the next one is filled from both
            writer.execute("insert into t values(60, randomblob(400))")
        self.assertEqual(self.look("shop"), (["ok"], [*range(61)]))
        said = self.keeping.word("replay", "shop")
        self.assertRegex(said, r"(?m)^list 1\b")
        below = [n for n, end in enumerate(ends) if end <= cut][-1]
        for n in (below - 1, below, below + 1):
            self.keeping.word("branch", "shop", f"b{n}", "--at", ends[n])
            eventually(
                lambda: self.keeping.row(f"b{n}").address is not None, "its place"
            )  # noqa: B023
            self.assertEqual(self.look(f"b{n}"), (["ok"], [*range(n + 1)]))


class Living(unittest.TestCase):
    """PostgreSQL is lost with its tokens, and a service lives, which has more than the store."""

    def setUp(self) -> None:
        self.folder = Path(self.enterContext(tempfile.TemporaryDirectory()))
        self.keeping = self.enterContext(Keeping(url=new_url(), standby=False))
        self.keeping.stores(self.folder, seal="4KiB", age="1h", tail="0s")
        self.assertTrue(
            self.keeping.referee.create("shop", self.keeping.table.read_text(), b"s" * 16)
        )
        self.keeping.start("a")

    def stored(self) -> int:
        found = self.keeping.referee._ask("SELECT moved FROM pagelog_store")
        return int(found[0][0]) if found else 0

    def lose(self) -> None:
        with psycopg.connect(self.keeping.url) as session:
            session.execute("LOCK TABLE pagelog_log, pagelog_store")  # a mover is at work
            for table in ("generation", "table", "object", "store", "block", "keeper", "log"):
                session.execute(f"DELETE FROM pagelog_{table}")

    def test_nothing_is_lost_and_its_writer_is_told_so(self) -> None:
        keeping = self.keeping
        with keeping.primary() as primary:
            for number in range(60):
                primary.append(put(number, b"<%d>" % number + bytes(300)))
                end = primary.commit(durable=True)
            eventually(lambda: self.stored() > 20, "some objects")
            self.lose()
            eventually(lambda: "knows nothing of the database" in keeping.said(), "a keeper")
            words = ("rescue", "shop", "--from", f"file://{self.folder}", "--table", keeping.table)
            self.assertRegex(keeping.word(*words), "shop: positions 1 to [2-5][0-9] in ")
            eventually(lambda: keeping.row().generation > 1001, "the next generation")
            primary.append(put(99, b"<99>"))
            with self.assertRaisesRegex(Lost, "PostgreSQL went back, and has gone on"):
                primary.commit(durable=True)
        self.assertLess(keeping.row().archived, end)
        self.assertIn("say --folder", keeping.refused("rescue", "shop"))
        said = keeping.word("rescue", "shop", "--folder", keeping.folder / "a", "--as", "saved")
        self.assertIn(f"saved positions up to {end} as database saved, and compared them", said)
        eventually(lambda: keeping.knows("saved"), "what was saved")
        with keeping.reader("saved") as reader:
            self.assertEqual(reader.page(59).data[:4], b"<59>")


class Kept(unittest.TestCase):
    """Keepers with a store."""

    def setUp(self) -> None:
        self.folder = Path(self.enterContext(tempfile.TemporaryDirectory()))
        self.keeping = self.enterContext(Keeping(more='metrics = "127.0.0.1:0"\n'))
        self.keeping.stores(self.folder, seal="4KiB", age="0s", tail="0s", grace="0s")
        self.assertTrue(
            self.keeping.referee.create("shop", self.keeping.table.read_text(), b"s" * 16)
        )

    def stored(self) -> int:
        [facts] = [
            json.loads(line)
            for line in self.keeping.word("list", "--json").splitlines()
            if '"shop"' in line
        ]
        return facts["stored"] or 0

    def in_postgres(self) -> int:
        [[count]] = self.keeping.referee._ask("SELECT count(*) FROM pagelog_block")
        return int(count)

    def images_here(self) -> int:
        [[count, stored]] = self.keeping.referee._ask(
            "SELECT count(*) FILTER (WHERE data <> ''), count(*) FILTER (WHERE pack IS NOT NULL) FROM pagelog_image"
        )
        return int(count) if stored else -1

    def holders(self) -> dict[tuple[str, str], float]:
        return self.keeping.metrics(self.keeping.row().holder or "a")

    def test_a_database_lives_on_from_the_store(self) -> None:
        self.keeping.start("a")
        with self.keeping.primary() as primary:
            for number in range(40):
                primary.append(put(number, f"<{number}>".encode()))
                end = primary.commit(durable=True)
            eventually(
                lambda: self.stored() >= end and self.in_postgres() == 0,
                "all in the store, and there alone",
            )
            os.kill(self.keeping.pid(), signal.SIGKILL)  # its keeper fills another from the store
            primary.append(put(50, b"<50>"))
            end = primary.commit(durable=True)
            self.keeping.start("b")  # makes a standby
            eventually(lambda: self.keeping.standbys().get("b", 0) >= end, "a standby")
            self.keeping.word("rollover", "shop")
            eventually(lambda: self.keeping.row().images > 0, "a succession")
            primary.append(put(51, b"<51>"))
            end = primary.commit(durable=True)
            eventually(lambda: self.images_here() == 0, "all images in the store, and there alone")
            os.kill(
                self.keeping.pid(), signal.SIGKILL
            )  # the standby takes over, or another is filled with images of the store
            primary.append(put(51, b"<51>"))
            end = primary.commit(durable=True)
            self.keeping.word("rollover", "shop")  # which begins with them
            generation = self.keeping.row().generation
            eventually(lambda: self.keeping.row().generation > generation, "another succession")
            primary.append(put(52, b"<52>"))
            end = primary.commit(durable=True)
        eventually(lambda: self.stored() >= end, "in the store")
        eventually(
            lambda: self.holders().get(("pagelog_keeper_stored", "shop"), 0) >= end,
            "what its mover says",
        )
        gauges = self.holders()
        self.assertEqual(
            (
                gauges["pagelog_keeper_store_broken", "shop"],
                gauges["pagelog_keeper_store_foreign", "shop"],
            ),
            (0, 0),
        )
        self.check_words(end)

    def check_words(self, end: int) -> None:
        keeping = self.keeping
        reader = Referee(keeping.url, store=StoreSettings(f"file://{self.folder}"))
        self.addCleanup(reader.close)
        [block] = reader._piece(keeping.row().id, 7, 7)
        self.assertEqual(
            keeping.keepers().block(7), hashlib.sha256(block).hexdigest()
        )  # as for a commit in doubt
        self.assertIn("sound: ", keeping.word("verify", "shop", "--store"))
        self.assertIn("sound: ", keeping.word("verify", "shop", "--store", "--days", 30))
        keeping.word("restore", "shop", "--at", end - 3, "--as", "past")
        eventually(lambda: keeping.row("past").address is not None, "a service of the past")
        with keeping.reader("past") as reader:
            self.assertEqual(reader.page(30).data[:4], b"<30>")
        other = Path(self.enterContext(tempfile.TemporaryDirectory()))
        self.assertRegex(
            keeping.word("store", "copy", "shop", "--to", f"file://{other}"),
            r"copied [1-9]\d* objects?, ",
        )
        self.assertRegex(
            keeping.word("store", "copy", "shop", "--to", f"file://{other}"),
            r"copied 0 objects, 0 bytes; [1-9]\d* were there",
        )
        self.assertNotIn("NO", keeping.word("store", "check"))
        self.assertIn(
            "no folder",
            CliRunner()
            .invoke(
                pagelogctl,
                ["store", "check", "file:///nowhere", "--credentials", str(keeping.file)],
            )
            .output,
        )
        for name in ("past", "shop"):
            keeping.word("drop", name, "--yes")
        asked = CliRunner().invoke(
            pagelogctl, ["store", "prune", "--credentials", str(keeping.file)]
        )
        self.assertRegex(
            asked.output,
            r"to be deleted: [1-9]\d* manifests? of [a-z]+\.[0-9a-f]{8}, named by nothing since 20",
        )
        for kind in ("object", "pack"):
            self.assertRegex(
                asked.output,
                rf"\n +[1-9]\d* {kind}s? of shop\.[0-9a-f]{{8}}, named by nothing since 20",
            )
        self.assertEqual(asked.exit_code, 2)
        self.assertRegex(keeping.word("store", "prune", "--yes"), r"deleted [1-9]\d* objects?")
        self.assertEqual([path for path in self.folder.rglob("*") if path.is_file()], [])
