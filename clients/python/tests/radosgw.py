"""Tries the store at a real server of S3: radosgw over a small Ceph, or Swift, as ordinary processes on loopback. Run by hand.

Usage: python3 -B clients/python/tests/radosgw.py [--swift] [PART [TEST]]     (PART is a class below, by default all)

It needs (for Swift see swift.py): apt-get install --no-install-recommends radosgw ceph-mon ceph-osd ceph-mgr ceph-common
"""

from __future__ import annotations

import json
import os
import shutil
import signal
import subprocess
import sys
import tempfile
import time
import unittest
import urllib.request
import uuid
from contextlib import suppress
from pathlib import Path
from typing import Any

sys.path.insert(0, str(Path(__file__).resolve().parent.parent / "src"))

from pagelog.referee.bases import Base, Bases, make_base
from pagelog.store.checking import checked
from pagelog.store.legal_holds import holding
from pagelog.objects.place import StoreError, store_of
from pagelog.objects.settings import StoreSettings
from service import Port
from swift import Swift
from test_branches import ByRows
from test_buckets import LegalHolds
from test_compacting import Compacted, Meanwhile
from test_compacting import Deaths as CompactingDeaths
from test_images import pages
from test_rescues import Rescues
from test_store import SMALL, Deaths, Held, ImageDeaths, Images, Moves, Past, pages_of

_CONF = """
[global]
fsid = {fsid}
mon host = [v2:127.0.0.1:{mon},v1:127.0.0.1:{old}]
osd pool default size = 1
osd pool default min size = 1
osd crush chooseleaf type = 0
osd pool default pg num = 8
osd pool default pgp num = 8
mon allow pool size one = true
mon max pg per osd = 1000
run dir = {dir}/run
admin socket = {dir}/run/$name.asok
pid file = {dir}/run/$name.pid
log file = {dir}/log/$name.log
public addr = 127.0.0.1
cluster addr = 127.0.0.1
mon data = {dir}/mon
mgr data = {dir}/mgr
osd data = {dir}/osd
osd objectstore = memstore
memstore device bytes = 2147483648
osd crush update on start = true
keyring = {dir}/keyring
auth_allow_insecure_global_id_reclaim = true
[client.rgw]
rgw frontends = beast endpoint=127.0.0.1:{port}
rgw data = {dir}/rgw
rgw_crypt_require_ssl = false
rgw_crypt_s3_kms_backend = testing
rgw_crypt_s3_kms_encryption_keys = testkey-1=YmluCmJvb3N0CmJvb3N0LWJ1aWxkCmNlcGguY29uZgo=
"""
PATIENCE = 300


class Radosgw:
    """The server, with a bucket that has versions, and one with object lock. All of it ends with the `with`."""

    def __init__(self) -> None:
        self.dir = Path(tempfile.mkdtemp(prefix="radosgw-"))
        self.ports = [Port() for _ in range(3)]
        self.url = f"http://127.0.0.1:{self.ports[0].number}"
        self.key = self.secret = ""

    def __enter__(self) -> Radosgw:
        for name in ("mon", "osd", "mgr", "run", "log", "rgw"):
            (self.dir / name).mkdir()
        fsid = str(uuid.uuid4())
        port, mon, old = (each.number for each in self.ports)
        conf = self.dir / "ceph.conf"
        conf.write_text(_CONF.format(fsid=fsid, mon=mon, old=old, dir=self.dir, port=port))
        self.words: tuple[object, ...] = ("-c", conf, "--keyring", self.dir / "keyring")
        self._keys()
        self.run(
            "monmaptool",
            "--create",
            "--fsid",
            fsid,
            "--addv",
            "a",
            f"[v2:127.0.0.1:{mon},v1:127.0.0.1:{old}]",
            self.dir / "monmap",
        )
        self.run("ceph-mon", *self.words, "--mkfs", "-i", "a", "--monmap", self.dir / "monmap")
        self.run("ceph-mon", *self.words, "-i", "a")
        self.run("ceph", *self.words, "osd", "new", fsid)
        self.run("ceph-mgr", *self.words, "-i", "x")
        self.run("ceph-osd", *self.words, "-i", "0", "--mkfs", "--osd-uuid", fsid)
        self.run("ceph-osd", *self.words, "-i", "0")
        self.run("radosgw", *self.words, "-n", "client.rgw")
        self._wait()
        made = self.run(
            "radosgw-admin",
            *self.words,
            "-n",
            "client.admin",
            "user",
            "create",
            "--uid=pagelog",
            "--display-name=pagelog",
        )
        [keys] = json.loads(made[made.index("{") :])["keys"]
        self.key, self.secret = keys["access_key"], keys["secret_key"]
        return self

    def _keys(self) -> None:
        caps = ("--cap", "mon", "allow *", "--cap", "osd", "allow *", "--cap", "mgr", "allow *")
        self.run(
            "ceph-authtool",
            "--create-keyring",
            self.dir / "keyring",
            "--gen-key",
            "-n",
            "mon.",
            "--cap",
            "mon",
            "allow *",
        )
        for name in ("client.admin", "client.rgw", "mgr.x", "osd.0"):
            self.run("ceph-authtool", self.dir / "keyring", "--gen-key", "-n", name, *caps)

    def run(self, *words: object) -> str:
        done = subprocess.run(
            list(map(str, words)),
            stdout=subprocess.PIPE,
            stderr=subprocess.STDOUT,
            text=True,
            timeout=PATIENCE,
        )
        if done.returncode:
            raise AssertionError(f"{words}: {done.stdout}")
        return done.stdout

    def _wait(self) -> None:
        ends = time.monotonic() + PATIENCE
        while True:
            try:
                urllib.request.urlopen(self.url, timeout=5).close()
                return
            except OSError:
                assert time.monotonic() < ends, "radosgw does not answer"
                time.sleep(0.2)

    def __exit__(self, *_: object) -> None:
        for file in (self.dir / "run").glob("*.pid"):
            with suppress(OSError, ValueError):
                os.kill(int(file.read_text()), signal.SIGKILL)
        for each in self.ports:
            each.close()
        shutil.rmtree(self.dir, ignore_errors=True)


IS_SWIFT = "--swift" in sys.argv
SERVER: Radosgw | Swift = Swift() if IS_SWIFT else Radosgw()


class AtRadosgw(unittest.TestCase):
    def new_settings(self) -> StoreSettings:
        return StoreSettings(
            f"s3://versions/{self.id()}",
            endpoint_url=SERVER.url,
            seal=SMALL,
            age=0.0,
            tail=0.0,
            grace=0.0,
        )


class MovesThere(AtRadosgw, Moves):
    pass


class DeathsThere(AtRadosgw, Deaths):
    pass


class PastThere(AtRadosgw, Past):
    pass


class RescuesThere(AtRadosgw, Rescues):
    test_what_is_not_whole_is_refused = None  # of files


class ImagesThere(AtRadosgw, Images):
    # Of files.
    test_images_go_to_packs_and_are_read_by_ranges = None
    test_an_image_that_is_damaged_is_named_and_an_older_version_found = None
    test_where_a_base_cannot_be_read_an_older_one_is_taken_and_it_is_made_anew = None
    test_the_next_one_is_made_of_an_older_one_if_need_be = None
    test_where_no_older_base_is_kept_the_newest_is_said_to_be_broken = None


class ImageDeathsThere(AtRadosgw, ImageDeaths):
    pass


class HeldThere(AtRadosgw, Held):
    pass


class BranchesThere(AtRadosgw, ByRows):
    # Of files.
    test_both_go_on_and_neither_knows_of_the_other = None
    test_a_branch_reads_little_whatever_is_below_it = None
    test_images_are_shared_as_blocks_are = None


class CompactedThere(AtRadosgw, Compacted):
    test_a_pack_that_cannot_be_read_is_left = None  # of files


class MeanwhileThere(AtRadosgw, Meanwhile):
    test_a_pack_that_is_lost_before_its_images_are_in_it_is_made_again = None  # of files


class CompactingDeathsThere(AtRadosgw, CompactingDeaths):
    pass


class LegalHoldsThere(LegalHolds):
    """A bucket with object lock, in which nothing is kept for a time of its own."""

    # Of the double.
    test_an_object_that_is_missing_is_named = None
    test_a_store_that_does_not_confirm_a_legal_hold_is_refused = None

    def new_settings(self) -> StoreSettings:
        url = f"s3://legal/{self.id()}"
        return StoreSettings(url, endpoint_url=SERVER.url, seal=SMALL, age=0.0, tail=0.0, grace=0.0)

    def without_lock(self) -> str:
        return f"s3://versions/{self.id()}"


class RefusedThere(unittest.TestCase):
    """A server that does not know object lock."""

    def test_legal_holds_are_refused_by_name(self) -> None:
        store = store_of(StoreSettings("s3://versions/x", endpoint_url=SERVER.url))
        wanted = "the bucket versions has no object lock, and so no legal holds"
        self.assertRaisesRegex(StoreError, wanted, holding, store)


class LockedThere(MovesThere):
    """A bucket whose objects nobody can delete or change."""

    def new_settings(self) -> StoreSettings:
        return StoreSettings(
            f"s3://locked/{self.id()}",
            endpoint_url=SERVER.url,
            seal=SMALL,
            age=0.0,
            tail=0.0,
            grace=0.0,
        )

    def test_what_was_deleted_or_changed_is_read_as_it_was(self) -> None:
        self.write(400)
        base = make_base(self.reader, self.row.id, self.kept.archived, self.kept.chain)
        self.move()
        [[pack]] = self.reader._ask("SELECT key FROM pagelog_pack")
        for key in (self.objects()[0][2], pack):
            self.store.put(key, b"other")
            self.check_all(base)
            self.store.delete(key)
            self.check_all(base)

    def check_all(self, base: Base) -> None:
        self.assertEqual(self.read(), self.made)
        self.assertEqual(pages_of(Bases(self.reading(), self.row.id), base), pages(self.made))


def prepare() -> None:
    """The buckets, and what the server says of itself."""
    import boto3

    os.environ.update(
        AWS_ACCESS_KEY_ID=SERVER.key,
        AWS_SECRET_ACCESS_KEY=SERVER.secret,
        AWS_DEFAULT_REGION="us-east-1",
        AWS_EC2_METADATA_DISABLED="true",
        AWS_CONFIG_FILE="/dev/null",
        AWS_SHARED_CREDENTIALS_FILE="/dev/null",
    )
    client: Any = boto3.client("s3", endpoint_url=SERVER.url)
    client.create_bucket(Bucket="versions")
    client.put_bucket_versioning(Bucket="versions", VersioningConfiguration={"Status": "Enabled"})
    said("versions")
    if IS_SWIFT:
        return
    for name in ("locked", "legal"):
        client.create_bucket(Bucket=name, ObjectLockEnabledForBucket=True)
    rule = {
        "ObjectLockEnabled": "Enabled",
        "Rule": {"DefaultRetention": {"Mode": "COMPLIANCE", "Days": 1}},
    }
    client.put_object_lock_configuration(Bucket="locked", ObjectLockConfiguration=rule)
    said("locked")
    for sse, key in (("AES256", None), ("aws:kms", "testkey-1")):
        settings = StoreSettings(
            "s3://versions/check", endpoint_url=SERVER.url, sse=sse, sse_key=key
        )
        try:
            store_of(settings).put("a", b"1")
            print(f"encryption {sse}: confirmed")
        except Exception as error:
            print(f"encryption {sse}: {error}")


def said(bucket: str) -> None:
    for found in checked(StoreSettings(f"s3://{bucket}/check", endpoint_url=SERVER.url)):
        print(f"{bucket}: {found.what}: {found.said}", flush=True)


def main(arguments: list[str]) -> int:
    arguments = [word for word in arguments if word != "--swift"]
    os.environ.setdefault("PAGELOG_TEST_FSYNC", "off")
    began = time.monotonic()
    signal.signal(signal.SIGTERM, lambda *_: sys.exit(1))  # its processes end with it
    with SERVER:
        print(f"{type(SERVER).__name__} is up after {time.monotonic() - began:.1f} s", flush=True)
        prepare()
        loader = unittest.TestLoader()
        if len(arguments) > 1:
            loader.testNamePatterns = [f"*{arguments[1]}*"]
        kinds = [
            MovesThere,
            DeathsThere,
            PastThere,
            RescuesThere,
            ImagesThere,
            ImageDeathsThere,
            HeldThere,
            BranchesThere,
            CompactedThere,
            MeanwhileThere,
            CompactingDeathsThere,
        ]
        kinds += [RefusedThere] if IS_SWIFT else [LegalHoldsThere, LockedThere]
        chosen = [kind for kind in kinds if not arguments or kind.__name__ == arguments[0]]
        done = unittest.TextTestRunner(verbosity=2).run(
            unittest.TestSuite(map(loader.loadTestsFromTestCase, chosen))
        )
    return 0 if done.wasSuccessful() else 1


if __name__ == "__main__":
    sys.exit(main(sys.argv[1:]))
