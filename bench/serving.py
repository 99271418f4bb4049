"""What the benches of a running service share: the program, its table, how much of the work is done, frames of requests, and a
service that takes them."""

import argparse
import os
import pathlib
import socket
import subprocess
import sys
import time

import programs

ROOT = programs.ROOT
sys.path.insert(0, str(ROOT / "scripts"))

import wire  # noqa: E402

PROGRAM = programs.pagelog()
TABLE = ROOT / "crates" / "pagelog" / "data" / "t0.toml"
# How many blocks are hardened with one report.
WINDOW = 64
# The first bytes of replies.
PAGE, BLOCKS = 2, 1


def words():
    parser = argparse.ArgumentParser()
    parser.add_argument(
        "share",
        nargs="?",
        type=float,
        default=1.0,
        metavar="SHARE",
        help="of the work of a whole run",
    )
    parser.add_argument(
        "--idle-polls",
        type=int,
        metavar="N",
        help="the option of pagelog serve, which has a default",
    )
    return parser.parse_args()


SHARE, IDLE_POLLS = words().share, words().idle_polls
# The option for the service, none where it is not given.
IDLE = [] if IDLE_POLLS is None else ["--idle-polls", IDLE_POLLS]


def idle_polls(number):
    return "idle polls as by default" if number is None else f"{number} idle polls"


def primary(op, rest):
    return wire.frame(wire.head(2, wire.PRIMARY, op) + rest)


def reader(op, rest):
    return wire.frame(wire.head(3, wire.SECONDARY, op) + rest)


def get(page, lsn, exact):
    return reader(wire.GET, wire.get(page, lsn, exact))


def pull(partition, lsn):
    """A pull of 16 blocks that touch the partition."""
    return reader(wire.PULL, wire.pull(partition, partition, lsn, 16))


def small_block(lsn):
    """Eight bytes at one of many places of one of 1,000 pages."""
    return wire.block(lsn, [(lsn % 1000, lsn * 8 % 8184, bytes([lsn % 256] * 8))])


def in_copies(block, lsn):
    """The frames by which a block gets into two copies."""
    return [primary(wire.WRITE, wire.write(copy, block(lsn))) for copy in (0, 1)]


def words_of_service(workers):
    """The words that start a service of one database."""
    return [
        PROGRAM,
        "serve",
        "--listen",
        "127.0.0.1:0",
        "--table",
        TABLE,
        "--primary",
        2,
        "--dbs",
        1,
        "--workers",
        workers,
        "--connections",
        4294967295,
        "--audit",
        16777216,
        *IDLE,
    ]


def port_of(process):
    """Where a service listens: its first line says so."""
    return int(process.stdout.readline().split()[1].rsplit(":", 1)[1])


class Service:
    """A service that is ended with this program's leave alone, and a connection to it."""

    def __init__(self, workers=64):
        self.process = subprocess.Popen(
            [str(word) for word in words_of_service(workers)],
            stdout=subprocess.PIPE,
            stderr=subprocess.DEVNULL,
            text=True,
        )
        self.port = port_of(self.process)
        self.socket = socket.create_connection(("127.0.0.1", self.port))
        self.socket.setsockopt(socket.IPPROTO_TCP, socket.TCP_NODELAY, 1)
        self.file = self.socket.makefile("rb")

    def __enter__(self):
        return self

    def __exit__(self, *_):
        self.hang_up()
        self.process.terminate()
        self.process.wait()

    def hang_up(self):
        """Ends the connection."""
        self.file.close()
        self.socket.close()

    def replies(self, frames):
        """Sends the frames together, and gives the bodies of the replies."""
        self.socket.sendall(b"".join(frames))
        return [self.file.read(int.from_bytes(self.file.read(4), "big")) for _ in frames]

    def harden(self, count, block, start=1):
        """Hardens the blocks from an LSN to `count`, a window with each report."""
        for first in range(start, count + 1, WINDOW):
            last = min(first + WINDOW - 1, count)
            frames = [frame for lsn in range(first, last + 1) for frame in in_copies(block, lsn)]
            assert set(self.replies([*frames, primary(wire.REPORT, wire.report(last))])) == {b"\0"}

    def delay(self, frame, kind=PAGE):
        """Microseconds until the reply has come, which has to be of this kind."""
        began = time.perf_counter()
        [reply] = self.replies([frame])
        took = (time.perf_counter() - began) * 1e6
        assert reply[0] == kind, reply[:20]
        return took


def build_frames(work):
    """The program that sends frames and times the replies, built in this folder."""
    return build(work, "frames")


def build(work, name):
    """A program of this folder's, built in that one."""
    program = pathlib.Path(work) / name
    source = ROOT / "bench" / f"{name}.c"
    subprocess.run(["gcc", "-O2", "-D_GNU_SOURCE", "-pthread", "-o", program, source], check=True)
    return program


def about():
    """What a run was made with, in a line."""
    return (
        f"{os.cpu_count()} processors, load {os.getloadavg()[0]:.1f}, {PROGRAM.name}, {idle_polls(IDLE_POLLS)}, "
        f"share {SHARE}"
    )
