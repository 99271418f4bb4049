"""Times the calls of an arena, frame by frame.

Usage: python3 bench/arena.py

Builds bench/arena, a program that calls pl_arena, and runs it. It prints the time of
- a look whether a frame is out, and of a frame that is lent, to be read and to be written,
- a copy of a frame within a chunk, between chunks, and over 12,800 frames,
- a frame that is taken and given back, and of each of 12,800 that are taken for the first time, given back and taken again,
- the end of an arena of 12,800 frames, for each frame,
- a thousand arenas of 640 frames, one after the other, for each arena,

and the peak of memory. It fails where that is above 250 MB: then an arena that ended has kept its memory.
"""

import os
import subprocess

import programs


def main():
    child = subprocess.Popen([programs.program("arena", "pl_arena")])
    _, status, usage = os.wait4(child.pid, 0)
    peak = usage.ru_maxrss // 1024
    print(f"peak of memory: {peak} MB")
    raise SystemExit(status != 0 or peak > 250)


if __name__ == "__main__":
    main()
