"""Times how long a request of one database waits for another one, over the loopback.

Usage: python3 bench/stalls.py [SHARE] [--idle-polls N]     (1; a tenth of the blocks and requests with 0.1)

Four cases, each on a service of its own with one database:

- first get: 1,000,000 blocks are hardened, 64 with a report, and then a page is got for the first time, and once more;
- old pages: 64,000 blocks change one page, which is got at LSNs drawn from a seed, exactly; once where each block changes a
  few bytes, and once where each 256th block makes the whole page (an image);
- sparse pulls: of 1,000 to 1,000,000 blocks, of which one in 1,000 changes partition 1 and all others partition 0, pulls of 16 from
  the first LSN on: of partition 0, of 1, and of 2, which none touches; beside a pull of the newest 16, the median of 200 each;
- mixed load: that of bench/mixed.py, 64 connections of six kinds of requests, on services of 64, 4 and 2 workers.

The service is crates/pagelog/out/pagelog, which scripts/pagelog proves and builds, or the program that PAGELOG names.

Delays are in microseconds. Of old pages they are the 50th, 99th and 99.9th percentile and the longest, as this program sees
them on one connection; bench/mixed.py says what those of the mixed load are.
"""

import os
import random
import statistics
import tempfile

import mixed
from serving import BLOCKS, SHARE, Service, about, build_frames, get, pull, small_block, wire

WORKERS = 64, 4, 2


def percentiles(delays):
    delays = sorted(delays)
    return " ".join(
        f"{delays[min(len(delays) - 1, int(len(delays) * part))]:10,.0f}"
        for part in (0.5, 0.99, 0.999, 1)
    )


def first_get():
    count = int(1_000_000 * SHARE)
    with Service() as service:
        service.harden(count, small_block)
        delays = [service.delay(get(7, count, 1)) for _ in range(3)]
    print(
        f"first get after {count:,} blocks: {delays[0]:,.0f}; once more: {delays[1]:,.0f}, {delays[2]:,.0f}",
        flush=True,
    )


def old_pages():
    count = int(64_000 * SHARE)
    for name, image in (("no image", 0), ("an image each 256 blocks", 256)):

        def block(lsn, image=image):
            return (
                wire.block(lsn, [(0, 0, bytes([lsn % 256] * 8192))])
                if image and lsn % image == 0
                else wire.block(lsn, [(0, lsn * 8 % 8184, bytes([lsn % 256] * 8))])
            )

        with Service() as service:
            service.harden(count, block)
            drawn = random.Random(1)
            delays = [
                service.delay(get(0, drawn.randrange(1, count + 1), 1))
                for _ in range(int(4000 * SHARE) or 1)
            ]
        print(f"old pages of {count:,} blocks, {name:25}{percentiles(delays)}", flush=True)


def sparse_pulls():
    """Each length goes on from the one before."""

    def block(lsn):
        return wire.block(
            lsn, [((lsn % 1000 == 0) * 65536, lsn * 8 % 8184, bytes([lsn % 256] * 8))]
        )

    with Service() as service:
        hardened = 0
        for count in [int(length * SHARE) for length in (1_000, 10_000, 100_000, 1_000_000)]:
            service.harden(count, block, hardened + 1)
            hardened = count
            asked = {"newest": (0, count - 15), "common": (0, 1), "rare": (1, 1), "none": (2, 1)}
            medians = {
                name: statistics.median(service.delay(pull(*what), BLOCKS) for _ in range(200))
                for name, what in asked.items()
            }
            cells = "".join(
                f"   {name} {delay:,.0f} ({delay / medians['newest']:.1f} times)"
                for name, delay in medians.items()
            )
            print(f"pulls of 16 out of {count:>9,} blocks{cells}", flush=True)


with tempfile.TemporaryDirectory() as work:
    frames = build_frames(work)
    print(about(), flush=True)
    mixed.measure(frames, work, WORKERS)
    old_pages()
    first_get()
    sparse_pulls()
    print(f"load at the end {os.getloadavg()[0]:.1f}")
