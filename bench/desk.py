"""Times a desk under threads beside a bare step and beside a mutex round the same database.

Usage: python3 bench/desk.py [CALLS]     (1,000,000 requests for the status in each case)

Prints calls a second, nanoseconds and processor nanoseconds a call, and ratios within this one run. The processor time is
that of a whole run, with the making of its database.
"""

import os
import subprocess
import sys

import programs

THREADS = (1, 2, 8, 64)
TIMES = 3


def run(binary, case):
    """Wall nanoseconds of the calls, and processor nanoseconds of the run."""
    child = subprocess.Popen([binary], stdin=subprocess.PIPE, stdout=subprocess.PIPE)
    child.stdin.write(case.encode() + b"\n")
    child.stdin.close()
    wall = int(child.stdout.read())
    _, status, usage = os.wait4(child.pid, 0)
    if status != 0:
        sys.exit(f"bench: {case} ended with status {status}")
    return wall, (usage.ru_utime + usage.ru_stime) * 1e9


def best(binary, case):
    return min(run(binary, case) for _ in range(TIMES))


def show(what, calls, figures, step, one):
    wall, processor = (figure / calls for figure in figures)
    beside = f"{wall / step[0]:5.2f} of a step, processor {processor / step[1]:5.2f}"
    if one:
        beside += f"; {one / wall:5.2f} of the calls a second of one thread"
    print(
        f"{what:<18} {1e9 / wall:>10.0f} calls/s, {wall:7.1f} ns a call, processor {processor:7.1f} ns: {beside}"
    )
    return wall


def main():
    calls = int(sys.argv[1]) if len(sys.argv) > 1 else 1_000_000
    binary = programs.program("desk", "pl_table pl_core pl_desk")
    figures = best(binary, f"step {calls}")
    step = tuple(figure / calls for figure in figures)
    show("step", calls, figures, step, None)
    for way in ("desk", "mutex"):
        one = None
        for threads in THREADS:
            wall = show(
                f"{way}, {threads} threads",
                calls,
                best(binary, f"{way} {calls} {threads}"),
                step,
                one,
            )
            one = one or wall


if __name__ == "__main__":
    main()
