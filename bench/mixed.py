"""The mixed load of one database, for bench/stalls.py and bench/serve.py.

64 connections have one request each at a time: a primary that writes two copies and reports, 20 that pull one block, 20 that
get a page as it is applied, 20 that get one at its end, exactly, 2 that ask for the status, and one that advances a partition.
Services of several numbers of workers take it in turns, three rounds each.

Delays are in microseconds, as bench/frames.c sees them: the 50th, 99th and 99.9th percentile and the longest, medians of the
rounds. Beside them are those of an echo with as many connections that send as much, in the same run: what the machine and the
loopback take without a database.
"""

import pathlib
import random
import statistics
import subprocess

from serving import SHARE, Service, get, in_copies, primary, reader, small_block, wire

ROUNDS = 3
# How many blocks are hardened before, and how many the primary writes.
HELD, WRITTEN = 10_000, int(20_000 * SHARE)


def kinds():
    """Each kind of request: its name, its connections, and the frames that each of them sends."""
    drawn = random.Random(2)
    writes = [
        frame
        for lsn in range(HELD + 1, HELD + 1 + WRITTEN)
        for frame in (*in_copies(small_block, lsn), primary(wire.REPORT, wire.report(lsn)))
    ]
    return (
        ("write", 1, writes),
        (
            "pull",
            20,
            [
                reader(wire.PULL, wire.pull(0, 65535, drawn.randrange(1, HELD), 1))
                for _ in range(1000)
            ],
        ),
        (
            "get_applied",
            20,
            [get(drawn.randrange(1000), drawn.randrange(1, HELD // 2), 0) for _ in range(1000)],
        ),
        ("get_exact", 20, [get(drawn.randrange(1000), HELD, 1) for _ in range(1000)]),
        ("status", 2, [reader(wire.STATUS, b"")]),
        (
            "advance",
            1,
            [wire.frame(wire.head(4, wire.PAGE_SERVER, wire.ADVANCE) + wire.advance(0, 64))],
        ),
    )


class Load:
    """The load, as the arguments of the client of bench/frames.c, whose requests are in files of a folder."""

    def __init__(self, frames, work):
        self.frames, self.words = frames, []
        for name, connections, sent in kinds():
            path = pathlib.Path(work) / name
            path.write_bytes(b"".join(sent))
            self.words += [name, connections, path]

    def delays(self, port):
        """A line of words for each kind of request, as the client prints it."""
        asked = [str(it) for it in (self.frames, "delays", port, 3 * WRITTEN, *self.words)]
        out = subprocess.run(asked, stdout=subprocess.PIPE, text=True, check=True).stdout
        return [line.split() for line in out.splitlines()]

    def of_service(self, workers):
        with Service(workers) as service:
            service.harden(HELD, small_block)
            service.hang_up()
            return self.delays(service.port)

    def of_echo(self):
        reply = 4 + 8
        bare = subprocess.Popen(
            [str(self.frames), "echo", str(reply)], stdout=subprocess.PIPE, text=True
        )
        try:
            return self.delays(int(bare.stdout.readline()))
        finally:
            bare.terminate()
            bare.wait()


def medians(rounds):
    """Of each kind of request its name, and the median of each of its numbers."""
    for lines in zip(*rounds):
        yield [
            lines[0][0],
            *(statistics.median(map(float, column)) for column in list(zip(*lines))[1:]),
        ]


def measure(frames, work, workers):
    """Prints a line for each kind of request, under a service of each of these numbers of workers."""
    load = Load(frames, work)
    rounds, plain = {count: [] for count in workers}, []
    for _ in range(ROUNDS):
        for count, found in rounds.items():
            found.append(load.of_service(count))
        plain.append(load.of_echo())
    heads = ("replies", "served", "50th", "99th", "99.9th", "longest", "99.9/50")
    for count, found in rounds.items():
        print(
            f"{f'mixed, {count} workers':18}"
            + "".join(f"{head:>10}" for head in heads)
            + "   echo: 50th, 99th, 99.9th, longest"
        )
        for own, other in zip(medians(found), medians(plain)):
            name, *numbers = own
            cells = (
                "".join(f"{cell:10.0f}" for cell in numbers) + f"{numbers[4] / numbers[2]:10.1f}"
            )
            print(f"{name:18}{cells}   " + " ".join(f"{it:9.0f}" for it in other[3:]), flush=True)
