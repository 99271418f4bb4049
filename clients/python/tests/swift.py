"""A small Swift with its s3api, as ordinary processes on loopback, for tests/radosgw.py --swift.

It needs: apt-get install --no-install-recommends swift-proxy swift-object swift-container swift-account memcached
"""

from __future__ import annotations

import getpass
import shutil
import subprocess
import tempfile
import time
import urllib.error
import urllib.request
from pathlib import Path

from service import Port

KINDS = ("object", "container", "account")
_SERVER = """
[DEFAULT]
bind_ip = 127.0.0.1
bind_port = {port}
workers = 1
user = {user}
swift_dir = {dir}
devices = {dir}/dev
mount_check = false
log_level = WARNING
[pipeline:main]
pipeline = {kind}-server
[app:{kind}-server]
use = egg:swift#{kind}
"""
_PROXY = """
[DEFAULT]
bind_ip = 127.0.0.1
bind_port = {port}
workers = 2
user = {user}
swift_dir = {dir}
log_level = WARNING
[pipeline:main]
pipeline = catch_errors cache listing_formats bulk s3api tempauth copy slo dlo versioned_writes symlink proxy-server
[app:proxy-server]
use = egg:swift#proxy
allow_account_management = true
account_autocreate = true
[filter:catch_errors]
use = egg:swift#catch_errors
[filter:cache]
use = egg:swift#memcache
memcache_servers = 127.0.0.1:{cache}
[filter:listing_formats]
use = egg:swift#listing_formats
[filter:bulk]
use = egg:swift#bulk
[filter:s3api]
use = egg:swift#s3api
location = us-east-1
s3_acl = false
[filter:tempauth]
use = egg:swift#tempauth
user_pagelog_pagelog = {secret} .admin
[filter:copy]
use = egg:swift#copy
[filter:slo]
use = egg:swift#slo
[filter:symlink]
use = egg:swift#symlink
[filter:dlo]
use = egg:swift#dlo
[filter:versioned_writes]
use = egg:swift#versioned_writes
allow_object_versioning = true
"""
_SWIFT = """
[swift-hash]
swift_hash_path_prefix = tests
swift_hash_path_suffix = tests
"""
PATIENCE = 300


class Swift:
    """The server: one device, one replica. All of it ends with the `with`."""

    def __init__(self) -> None:
        self.dir = Path(tempfile.mkdtemp(prefix="swift-"))
        self.ports = [Port() for _ in range(5)]
        self.url = f"http://127.0.0.1:{self.ports[0].number}"
        self.key, self.secret = "pagelog:pagelog", "secret-of-tests"
        self.processes: list[subprocess.Popen[bytes]] = []

    def __enter__(self) -> Swift:
        (self.dir / "dev" / "d1").mkdir(parents=True)
        (self.dir / "swift.conf").write_text(_SWIFT)
        port, cache, *ports = (each.number for each in self.ports)
        words = {"user": getpass.getuser(), "dir": self.dir, "cache": cache, "secret": self.secret}
        for kind, number in zip(KINDS, ports):
            ring = f"{kind}.builder"
            self.build(ring, "create", "6", "1", "1")
            self.build(ring, "add", f"r1z1-127.0.0.1:{number}/d1", "1")
            self.build(ring, "rebalance")
            conf = self.dir / f"{kind}.conf"
            conf.write_text(_SERVER.format(kind=kind, port=number, **words))
            self.start(f"swift-{kind}-server", conf)
        self.start("memcached", "-l", "127.0.0.1", "-p", cache, "-u", words["user"])
        conf = self.dir / "proxy.conf"
        conf.write_text(_PROXY.format(port=port, **words))
        self.start("swift-proxy-server", conf)
        self._wait()
        return self

    def build(self, ring: str, *words: str) -> None:
        """A word of the ring builder; to rebalance a ring of one device ends with a warning, and status 1."""
        command = ["swift-ring-builder", ring, *words]
        done = subprocess.run(command, cwd=self.dir, capture_output=True, text=True)
        assert done.returncode < 2, done.stdout + done.stderr

    def start(self, *words: object) -> None:
        with (self.dir / f"{Path(str(words[0])).name}.log").open("w") as log:
            command = list(map(str, words))
            self.processes.append(subprocess.Popen(command, cwd=self.dir, stdout=log, stderr=log))

    def _wait(self) -> None:
        ends = time.monotonic() + PATIENCE
        while True:
            try:
                urllib.request.urlopen(self.url, timeout=5).close()
                return
            except urllib.error.HTTPError:
                return  # it answers
            except OSError:
                assert time.monotonic() < ends, "swift does not answer"
                time.sleep(0.2)

    def __exit__(self, *_: object) -> None:
        for process in self.processes:
            process.terminate()
        for process in self.processes:
            process.wait(PATIENCE)
        for each in self.ports:
            each.close()
        shutil.rmtree(self.dir, ignore_errors=True)
