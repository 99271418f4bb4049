"""What TLS costs: a service asked straight, by way of haproxy without TLS, and with it, in turns.

Usage: python3 -B bench/secured.py [ROUNDS] [keepers]      (5; with PAGELOG=PROGRAM another service than crates/pagelog's)

Statuses and pages by the client in C from one thread, over one connection and over 64; SQLite's inserts; commits of the library for
Python. Needs haproxy. Compare figures of one run alone: it prints the median of the rounds, the ratio to plain, and the load.

`keepers`: the same under a keeper with a front, with and without TLS in turns, where SQLite's FULL and Python's commits are durable; then
one front before 1,000 runs: its memory, when a run is served, and an idle connection without and with a client's certificate. It needs
Debian's packages of clients/python/test."""

from __future__ import annotations

import os
import socket
import sqlite3
import statistics
import subprocess
import sys
import tempfile
import time
from contextlib import closing
from pathlib import Path

ROOT = Path(__file__).resolve().parent.parent
sys.path[:0] = [
    str(ROOT / folder) for folder in ("scripts", "clients/python/src", "clients/python/tests")
]

import pagelog  # noqa: E402
import pagelog.place  # noqa: E402
from rounds import in_turn  # noqa: E402
from tls_peers import Authority  # noqa: E402

CLIENT = ROOT / "clients" / "c"
PROGRAM = os.environ.setdefault("PAGELOG", str(ROOT / "crates" / "pagelog" / "out" / "pagelog"))
CONFIGURATION = """global
  maxconn 1000
  nbthread 2
defaults
  mode tcp
  timeout connect 5s
  timeout client 1d
  timeout server 1d
listen relay
  bind 127.0.0.1:{relay}
  server one {service}
listen tls
  bind 127.0.0.1:{tls} ssl crt {folder}/both.pem ssl-min-ver TLSv1.3
  server one {service}
"""
CASES = {
    "status, 1 connection": ("status", 1),
    "status, 64 connections": ("status", 64),
    "pages, 64 in flight on 1": ("get", 1),
    "pages, on 64": ("get", 64),
}
INSERTS, MILLISECONDS = 400, 700


def free_port() -> int:
    with socket.create_server(("127.0.0.1", 0)) as made:
        return int(made.getsockname()[1])


def built(folder: Path) -> Path:
    subprocess.run(["make", "-s", "-C", CLIENT, "pagelog_vfs.so", "static"], check=True)
    program = folder / "secured"
    words = [
        "gcc",
        "-std=c11",
        "-D_GNU_SOURCE",
        "-O2",
        "-o",
        program,
        ROOT / "bench" / "secured.c",
        CLIENT / "out" / "libpagelog.a",
    ]
    subprocess.run([*words, "-lssl", "-lcrypto", "-lsqlite3"], check=True)
    return program


def requests(
    program: Path, address: str, kind: str, count: int, ca: str | None, token: str = "3" * 32
) -> float:
    """Seconds that a request took: the median of one connection, else one over the rate."""
    words = [program, address, kind, count, MILLISECONDS, ca or "-", token]
    said = subprocess.run(
        list(map(str, words)), check=True, capture_output=True, text=True
    ).stdout.split()
    return int(said[0]) / 1e9 if (kind, count) == ("status", 1) else 1 / float(said[1])


def inserts(address: str, level: str, ca: str | None) -> float:
    """The median of SQLite's inserts."""
    tls = f"&sslrootcert={ca}" if ca else ""
    uri = f"file:shop?vfs=pagelog&to={address}&id=2&token={'2' * 32}&op=1&optoken={'1' * 32}{tls}"
    with closing(sqlite3.connect(uri, uri=True, isolation_level=None)) as shop:
        shop.execute("create table if not exists t(x)")
        shop.execute(f"pragma synchronous = {level}")
        return timed(lambda: shop.execute("insert into t values (1)"))


def commits(address: str, ca: str | None) -> float:
    trust = pagelog.Trust(ca) if ca else None
    with pagelog.Operator.at(address, 1, "1" * 32, 1, trust=trust) as operator:
        writer = pagelog.Primary.take_over(
            pagelog.Connection(address, trust=trust), pagelog.Credentials.of(2, "2" * 32), operator
        )
        with writer:
            return timed(lambda: (writer.append(pagelog.Put(5, 0, b"hello")), writer.commit()))


def timed(call) -> float:  # type: ignore[no-untyped-def]
    took = []
    for _ in range(INSERTS):
        began = time.perf_counter()
        call()
        took.append(time.perf_counter() - began)
    return statistics.median(took)


def keepers(count: int) -> None:
    """Under a keeper, which serves both kinds of clients."""
    from keepers import eventually
    from pagelog.keeper.table import token_of
    from secured import Secured
    from service import token
    from sqlite_named import connected

    with tempfile.TemporaryDirectory() as folder, Secured(standby=False, audit=1 << 24) as kept:
        program = built(Path(folder))
        for name in ("lite", "notes"):
            kept.referee.create(name, kept.table.read_text(), b"s" * 16)
        kept.start("a")
        eventually(lambda: kept.knows("lite") and kept.knows("notes"))
        ca = str(kept.certificates.ca)
        ways = {"plain": kept.addresses, "TLS": kept.secure_addresses}

        def place(way: str) -> tuple[str, str]:
            """Where the service of notes is, and a reader's token of its run."""
            trust = pagelog.Trust(ca) if way == "TLS" else None
            found = pagelog.place.Keepers("notes", ways[way], trust=trust).place()
            return found.address, token_of(bytes.fromhex(token(3)), "notes", found.run).hex()

        def sqlite(way: str, level: str) -> float:
            more = {"sslrootcert": ca} if way == "TLS" else {}
            with closing(connected(ways[way], level, name="lite", **more)) as made:
                made.execute("create table if not exists t(x)")
                return timed(lambda: made.execute("insert into t values (1)"))

        def durable(way: str) -> float:
            trust = pagelog.Trust(ca) if way == "TLS" else None
            with kept.primary("notes", keepers=ways[way], trust=trust) as made:
                put = pagelog.Put(1, 0, b"hello")
                return timed(lambda: (made.append(put), made.commit(durable=True)))

        def asked(way: str, case: tuple[str, int]) -> float:
            address, secret = place(way)
            return requests(program, address, *case, ca if way == "TLS" else None, secret)

        durable("plain")  # there are pages
        kinds = {
            "Python, a durable commit": durable,
            "SQLite, a durable insert": lambda way: sqlite(way, "full"),
            "SQLite, an insert, normal": lambda way: sqlite(way, "normal"),
        }
        kinds |= {
            what: lambda way, case=case: asked(way, case)
            for what, case in CASES.items()
            if what != "pages, on 64"
        }
        print(f"load {os.getloadavg()[0]:.0f}, {count} rounds")
        print(f"{'under a keeper':28}{'plain, us':>10}{'TLS':>8}   (times plain's; its rate)")
        for what, run in kinds.items():
            found = in_turn(count, list(ways), run)
            plain, secure = (statistics.median(found[way]) for way in ways)
            print(
                f"{what:28}{1e6 * plain:10.1f}{secure / plain:8.2f}{plain / secure:8.2f}",
                flush=True,
            )
    print(f"load {os.getloadavg()[0]:.0f}")


def fronts() -> None:
    import many_fronts

    for have_certificates in (True, False):
        many_fronts.main(1000, have_certificates=have_certificates)


def main() -> None:
    numbers = [int(word) for word in sys.argv[1:] if word.isdecimal()]
    count = numbers[0] if numbers else 5
    if "keepers" in sys.argv:
        keepers(count)
        return fronts()
    with tempfile.TemporaryDirectory() as name:
        folder = Path(name)
        program, authority = built(folder), Authority(folder)
        good = authority.make("good")
        (folder / "both.pem").write_text(
            Path(f"{good}.pem").read_text() + Path(f"{good}.key").read_text()
        )
        loader = sqlite3.connect(":memory:")
        loader.enable_load_extension(True)
        loader.load_extension(str(CLIENT / "pagelog_vfs"))
        words = [
            PROGRAM,
            "serve",
            "--listen",
            "127.0.0.1:0",
            "--table",
            CLIENT / "table.toml",
            "--primary",
            2,
            "--dbs",
            2,
            "--workers",
            4,
            "--connections",
            1 << 30,
            "--audit",
            1 << 24,
        ]
        service = subprocess.Popen(list(map(str, words)), stdout=subprocess.PIPE, text=True)
        assert service.stdout is not None
        plain, ports = service.stdout.readline().split()[1], {
            "relay": free_port(),
            "tls": free_port(),
        }
        (folder / "haproxy.cfg").write_text(
            CONFIGURATION.format(service=plain, folder=folder, **ports)
        )
        front = subprocess.Popen(["haproxy", "-q", "-f", str(folder / "haproxy.cfg")])
        try:
            measure(
                count,
                program,
                {
                    "plain": (plain, None),
                    **{
                        way: (f"127.0.0.1:{port}", authority / "ca.pem" if way == "tls" else None)
                        for way, port in ports.items()
                    },
                },
            )
        finally:
            front.kill(), service.kill()
            front.wait(), service.wait()


def measure(count: int, program: Path, ways: dict[str, tuple[str, str | None]]) -> None:
    for address, _ in ways.values():  # each of them listens
        while True:
            try:
                socket.create_connection(
                    (address.rsplit(":", 1)[0], int(address.rsplit(":", 1)[1]))
                ).close()
                break
            except OSError:
                time.sleep(0.01)
    inserts(ways["plain"][0], "full", None)  # there are pages
    print(f"load {os.getloadavg()[0]:.0f}, {count} rounds")
    print(f"{'':28}{'plain, us':>10}{'relay':>8}{'TLS':>8}   (times plain's)")
    kinds = {
        what: lambda way, case=case: requests(program, ways[way][0], *case, ways[way][1])
        for what, case in CASES.items()
    }
    for level in ("normal", "full"):
        kinds[f"SQLite, an insert, {level}"] = lambda way, level=level: inserts(
            ways[way][0], level, ways[way][1]
        )
    kinds["Python, a commit"] = lambda way: commits(ways[way][0], ways[way][1])
    for what, run in kinds.items():
        found = {
            way: statistics.median(times) for way, times in in_turn(count, list(ways), run).items()
        }
        print(
            f"{what:28}{1e6 * found['plain']:10.1f}"
            + "".join(f"{found[way] / found['plain']:8.2f}" for way in ("relay", "tls")),
            flush=True,
        )
    print(f"load {os.getloadavg()[0]:.0f}")


if __name__ == "__main__":
    main()
