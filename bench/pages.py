"""Times gets of pages beside the plain replay and a copy of 8 KiB, all in one run.

Usage: python3 bench/pages.py

Builds bench/pages, a program that calls pl_log and pl_pages, and runs it. It hardens 1,000 and then 1,000,000 blocks that
change 1, 1,000 and 100,000 pages in turn, and prints the time of a get
- of what is applied, without a version and then with one,
- one block above it, and sixteen,
- exact at an old LSN, with its version and without one,
the time of the first get, which makes the index, and the peak of memory.
"""

import os
import subprocess

import programs


def main():
    child = subprocess.Popen([programs.program("pages", "pl_block pl_log pl_pages bytes")])
    _, status, usage = os.wait4(child.pid, 0)
    print(f"peak of memory: {usage.ru_maxrss // 1024} MB")
    raise SystemExit(status != 0)


if __name__ == "__main__":
    main()
