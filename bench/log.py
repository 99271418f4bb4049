"""Times the calls of a log whose hardened blocks lie in two stores, beside a plain list of the same blocks.

Usage: python3 bench/log.py [BLOCKS..]                  (1000 100000 1000000 where none are given)
       python3 bench/log.py --sparse [BLOCKS..]         (1000 10000 100000 1000000 where none are given)
       python3 bench/log.py --zones [FOLDER]

Builds bench/log, a program that calls pl_log, and drives it. For each number of hardened blocks of 100 bytes, and for 10,000 of
16 KiB, it prints the time of
- a write to one copy, a report of one and of 64,
- a pull of 16 blocks: the newest, out of the broker, out of the segments where nothing is cached and where all is, and of a
  partition that one block in a thousand touches,
- a tidy, for each block that it moves,

beside the same pulls from a list, and the peak of memory for each hardened block, beside the bytes of its spelling.

Writes and reports are in nanoseconds of the processor, all else in those of a clock.

With --sparse it prints the time of a pull of 16 blocks from the first LSN on, of partitions that all, few and no blocks touch, for
logs of three mixes of partitions, beside one of the newest 16 blocks of the same log.

With --zones it prints the time of a write of a block of 100 bytes to the first copy, of one to another copy, which compares
it with what is there, and of a report of 64, in a zone of three copies and of six, the median of 15 rounds; and what a place
of an open window takes in both. FOLDER is another checkout, of an older commit say: the same program is built with its crates
and driven in the same rounds, and the ratios of the times of one round are beside it: the median, and in brackets the half of
the rounds around it. The crates before zones of six have three copies alone.
"""

import pathlib
import statistics
import subprocess
import sys

import programs
import rounds


def spelled(length):
    """The bytes of a block: an LSN, two counts and a partition, and of each record its kind, page, offset and length."""
    return 8 + 2 + 2 + 2 + (1 if length <= 8192 else 2) * (1 + 4 + 2 + 2) + length


class Program:
    """The program, asked line by line."""

    def __init__(self, path):
        self.child = subprocess.Popen(
            [path], stdin=subprocess.PIPE, stdout=subprocess.PIPE, text=True
        )

    def ask(self, *words):
        self.child.stdin.write(" ".join(map(str, words)) + "\n")
        self.child.stdin.flush()
        nanos, other = self.child.stdout.readline().split()
        return int(nanos), int(other)

    def end(self):
        """The peak of memory in bytes."""
        status = pathlib.Path(f"/proc/{self.child.pid}/status").read_text()
        self.child.stdin.close()
        self.child.wait()
        return int(status.split("VmHWM:")[1].split()[0]) * 1024


def pulls(program, case, first, step, lo, hi, laps):
    """Nanoseconds of a pull, and how many blocks it served."""
    program.ask(case, first, step, lo, hi, min(laps, 4))
    nanos, served = program.ask(case, first, step, lo, hi, laps)
    return nanos / laps, served / laps


def rows(program, case, blocks):
    """What is pulled, by name: nanoseconds, and how many blocks."""
    yield "pull of the newest 16", pulls(program, case, blocks - 15, 0, 0, 65535, 20000)
    if blocks >= 256:
        yield "pull of 16 out of the broker", pulls(program, case, blocks - 200, 0, 0, 65535, 20000)
    old = blocks - 300
    if old > 64:
        step = max(16, old // 1000)
        yield "pull of 16 out of the segments, cold", pulls(
            program, case, 1, step, 0, 65535, old // step
        )
        yield "pull of 16 out of the segments, cached", pulls(
            program, case, old // 2, 0, 0, 65535, 20000
        )
    yield "pull of a partition that one in 1,000 touches", pulls(
        program, case, 1, 0, 1, 1, max(20, 20_000_000 // blocks // 16)
    )


def empty(path):
    """The memory of a log without blocks."""
    program = Program(path)
    program.ask("tidy")
    return program.end()


def measure(path, blocks, length):
    print(f"{blocks} blocks of {length} bytes")
    program = Program(path)
    fill, _ = program.ask("fill", blocks, length)
    peak = program.end() - empty(path)
    print(
        f"  {'memory for each hardened block':<50} {peak / blocks:10.0f} bytes, spelled in {spelled(length)}"
    )
    print(f"  {'made, written twice and reported':<50} {fill / blocks:10.0f} ns")
    program, plain = Program(path), Program(path)
    program.ask("fill", blocks, length)
    plain.ask("plain-fill", blocks, length)
    beside = dict(rows(plain, "plain-pull", blocks))
    for name, (nanos, served) in rows(program, "pull", blocks):
        print(
            f"  {name:<50} {nanos:10.0f} ns   list {beside[name][0]:10.0f} ns   {served:.0f} blocks"
        )
    laps = 200 if length < 1000 else 20
    writes, reports = program.ask("windows", laps, length)
    print(
        f"  {'a write to one copy':<50} {writes / laps / 128:10.0f} ns   (with half of making the block)"
    )
    print(f"  {'a report of 64':<50} {reports / laps:10.0f} ns")
    _, reports = program.ask("reports", laps, length)
    print(f"  {'a report of one':<50} {reports / laps / 64:10.0f} ns")
    nanos, moved = program.ask("tidy")
    print(
        f"  {'a tidy, for each block that it moves':<50} {nanos / max(1, moved):10.0f} ns   {moved} blocks"
    )
    program.end()
    print(
        f"  {'memory of the list for each block':<50} {(plain.end() - empty(path)) / blocks:10.0f} bytes"
    )


# Of each mix: its number in the program, and the ranges of partitions that are pulled, by name.
MIXES = {
    "one block in 1,000 touches partition 1, all others 0": (
        0,
        {"common": (0, 0), "one in 1,000": (1, 1), "none": (9, 9), "none, wide": (2, 65535)},
    ),
    "each block touches another partition": (
        1,
        {
            "one in 65,536": (7, 7),
            "one in 1,024": (64, 127),
            "one in 16": (0, 4095),
            "all": (0, 65535),
        },
    ),
    "each block touches two far apart": (
        2,
        {"one in 50": (7, 7), "none": (30000, 30000), "none, wide": (50, 65485), "all": (0, 65535)},
    ),
}


def sparse(path, blocks):
    """The times of pulls of a log of each mix."""
    for name, (mix, ranges) in MIXES.items():
        program = Program(path)
        program.ask("mix", mix)
        program.ask("fill", blocks, 100)
        newest, _ = pulls(program, "pull", blocks - 15, 0, 0, 65535, 20000)
        print(f"{blocks} blocks, {name}: the newest 16 in {newest:.0f} ns")
        for what, (lo, hi) in ranges.items():
            nanos, served = pulls(program, "pull", 1, 0, lo, hi, 200)
            print(
                f"  {what:<20} {nanos:10.0f} ns   {nanos / newest:6.1f} times   {served:.0f} blocks",
                flush=True,
            )
        program.end()


ZONES = {"three copies, quorum two": (3, 2), "six copies, quorum four": (6, 4)}
TIMES = ("a write to the first copy", "to another", "a report of 64")
# Windows of a round, and rounds; logs whose windows are held at once.
LAPS, ROUNDS, LOGS = 1000, 15, 4000


def has_zone(path, copies, quorum):
    """Whether the program's crates have such a zone."""
    program = Program(path)
    _, found = program.ask("zone", copies, quorum)
    program.end()
    return found == copies


def times_of_zone(path, copies, quorum):
    """Nanoseconds of a write to the first copy, of one to another copy, and of a report of 64."""
    program = Program(path)
    program.ask("zone", copies, quorum)
    program.ask("windows", LAPS // 10, 100)
    program.ask("zone", copies, quorum)
    _, reports = program.ask("windows", LAPS, 100)
    program.ask("zone", copies, quorum)
    first, others = program.ask("copies", LAPS, 100)
    program.end()
    return first / LAPS / 64, others / LAPS / 64 / (quorum - 1), reports / LAPS


def bytes_of_place(path, copies, quorum, full):
    """The memory of a place of a window."""
    program = Program(path)
    program.ask("zone", copies, quorum)
    program.ask("more", LOGS, full)
    return (program.end() - empty(path)) / LOGS / 64


def compare_zones(paths):
    """The lines of both zones, for each program, and its times beside those of three copies in the last program."""
    keys = [
        (where, zone)
        for zone, numbers in ZONES.items()
        for where, path in paths.items()
        if has_zone(path, *numbers)
    ]
    times = rounds.in_turn(ROUNDS, keys, lambda key: times_of_zone(paths[key[0]], *ZONES[key[1]]))
    base = list(paths)[-1]
    beside = list(zip(*times[base, next(iter(ZONES))]))
    print(f"medians of {ROUNDS} rounds; ratios beside three copies {base}")
    for where, zone in keys:
        cells = (
            f"{name} {statistics.median(own):.1f} ns, {rounds.ratio(own, other)}"
            for name, own, other in zip(TIMES, zip(*times[where, zone]), beside)
        )
        room, held = (bytes_of_place(paths[where], *ZONES[zone], full) for full in (0, 1))
        print(
            f"{zone:<26}{where:<8}{'; '.join(cells)}; a place of a window {room:.1f} bytes, with a shared block {held:.1f}"
        )


def main():
    path = programs.program("log", "pl_block pl_log bytes")
    if sys.argv[1:2] == ["--sparse"]:
        for blocks in [int(word) for word in sys.argv[2:]] or [1000, 10_000, 100_000, 1_000_000]:
            sparse(path, blocks)
        return None
    if sys.argv[1:2] == ["--zones"]:
        paths = {"now": path}
        if sys.argv[2:]:
            folder = pathlib.Path(sys.argv[2])
            is_older = not any((folder / "crates" / "pl_table" / "src").rglob("zone.rt"))
            paths["before"] = programs.program("log", "pl_block pl_log bytes", folder, is_older)
        return compare_zones(paths)
    for blocks in [int(word) for word in sys.argv[1:]] or [1000, 100_000, 1_000_000]:
        measure(path, blocks, 100)
    measure(path, 10_000, 16_384)


if __name__ == "__main__":
    main()
