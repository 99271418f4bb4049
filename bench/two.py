"""Times two programs of `pagelog` in turn: how many times as long the second takes as the first.

Usage: python3 bench/two.py FIRST SECOND [--rounds N] [--workers N]     (21 rounds, 4 workers)

Of a write, a report, a pull of one block and a get of a page, for 1, 8 and 64 connections with one request each at a time, and
for 64 requests in flight on one: the median over the rounds, and the half of the rounds around it.
"""

import argparse
import contextlib
import os
import pathlib
import subprocess
import sys
import tempfile

import rounds

SHAPES = ((1, 1, 3000), (8, 1, 1500), (64, 1, 300), (1, 64, 20000))


def parsed():
    parser = argparse.ArgumentParser()
    parser.add_argument("first")
    parser.add_argument("second")
    parser.add_argument("--rounds", type=int, default=21)
    parser.add_argument("--workers", type=int, default=4)
    return parser.parse_args()


ASKED = parsed()
sys.argv[1:] = []  # `serving` reads the words too
os.environ["PAGELOG"] = ASKED.first

from serving import build_frames, port_of, primary, reader, wire, words_of_service  # noqa: E402

BLOCK = wire.block(1, [(0, 0, bytes(100))])
CASES = (
    ("write", primary(wire.WRITE, wire.write(0, wire.block(2, [(0, 0, bytes(100))]))), 5),
    ("report", primary(wire.REPORT, wire.report(1)), 5),
    ("pull", reader(wire.PULL, wire.pull(0, 65535, 1, 1)), 4 + 1 + 8 + 2 + 4 + len(BLOCK)),
    ("get", reader(wire.GET, wire.get(0, 1, 1)), 4 + 1 + 8 + 8192),
)


@contextlib.contextmanager
def service(program, frames):
    """A service of this program with one hardened block. Gives its port."""
    words = [program, *words_of_service(ASKED.workers)[1:]]
    process = subprocess.Popen(
        [str(word) for word in words], stdout=subprocess.PIPE, stderr=subprocess.DEVNULL, text=True
    )
    try:
        port = port_of(process)
        for request in [primary(wire.WRITE, wire.write(copy, BLOCK)) for copy in (0, 1)] + [
            primary(wire.REPORT, wire.report(1))
        ]:
            seconds(frames, port, (1, 1, 1), request, 5)
        yield port
    finally:
        process.terminate()
        process.wait()


def seconds(frames, port, shape, request, reply):
    """How long all round trips take."""
    connections, flight, count = shape
    with tempfile.NamedTemporaryFile() as file:
        file.write(request)
        file.flush()
        words = (frames, "ask", port, connections, flight, count, reply, file.name)
        return float(
            subprocess.run(
                [str(word) for word in words], stdout=subprocess.PIPE, text=True, check=True
            ).stdout.split()[0]
        )


def main():
    with tempfile.TemporaryDirectory() as work, contextlib.ExitStack() as stack:
        frames = build_frames(work)
        ports = [
            stack.enter_context(service(pathlib.Path(program).resolve(), frames))
            for program in (ASKED.first, ASKED.second)
        ]
        for name, request, reply in CASES:
            for shape in SHAPES:
                took = rounds.in_turn(
                    ASKED.rounds, ports, lambda port: seconds(frames, port, shape, request, reply)
                )
                print(
                    f"{name:8} {shape[0]:3} x {shape[1]:2}  {rounds.ratio(took[ports[1]], took[ports[0]])}",
                    flush=True,
                )


main()
