"""Times `pagelog play` on generated lines beside plain tools that decode, encode or copy the same bytes.

Usage: python3 bench/play.py [LINES] [BYTES ...]     (100000 lines; blocks of 100 and of 16384 bytes)

- blocks: for each block of BYTES bytes a write to copy 0, a write to copy 1, a report and a pull of that block; and
  the same with a failover after each twenty blocks, above which a window of eight numbers is in one copy each. A
  database of `play` holds 65,536 entries; the lines after them are answered `07`.
- pages: gets of four pages in turn, exact and at what is applied, with an advance before each sixteen, on logs of
  several lengths; beside a program that copies as many pages and writes them as lines, and `cat` of the same output.
- audit: the last 1,024 lines of an audit list, asked for again and again, beside the same two; and the memory of an entry. The
  list has as many entries as LINES, but at most 16,000, so that four times as many go into the list of `play`.

The input is generated under bench/work and removed at the end. Prints times, lines a second and the peak of memory of
each run (never less than this program's own), and ratios within this one run.
"""

import itertools
import os
import pathlib
import subprocess
import sys
import time

ROOT = pathlib.Path(__file__).resolve().parent.parent
sys.path.insert(0, str(ROOT / "scripts"))

import wire  # noqa: E402

WORK = ROOT / "bench" / "work"
CRATE = ROOT / "crates" / "pagelog"
PLAY = [CRATE / "out" / "pagelog", "play", "--table", CRATE / "data" / "t0.toml", "--primary", "2"]
HEX_LINES = (
    "import sys, binascii\n"
    "out = sys.stdout.buffer\n"
    "for line in sys.stdin.buffer:\n"
    "    out.write(binascii.hexlify(binascii.unhexlify(line.rstrip())) + b'\\n')\n"
)
# Writes `size` bytes of a longer list as a line, `count` times, each time as a copy.
COPIES = (
    "import sys, binascii\n"
    "size, count, out = int(sys.argv[1]), int(sys.argv[2]), sys.stdout.buffer\n"
    "held = bytearray(size * 4)\n"
    "for at in range(count):\n"
    "    out.write(binascii.hexlify(bytes(held[at % 3:at % 3 + size])) + b'\\n')\n"
)


def pull_of_all(lsn):
    return wire.pull(0, 65535, lsn, 16)


def hardened(lsn, records, epoch=1):
    """A block that is written to two copies and reported."""
    spelled = wire.block(lsn, records)
    yield wire.head(2, wire.PRIMARY, wire.WRITE, epoch) + wire.write(0, spelled)
    yield wire.head(2, wire.PRIMARY, wire.WRITE, epoch) + wire.write(1, spelled)
    yield wire.head(2, wire.PRIMARY, wire.REPORT, epoch) + wire.report(lsn)


def round_of(lsn, size, epoch):
    yield from hardened(lsn, wire.puts_of(size, lsn % 256), epoch)
    yield wire.head(3, wire.SECONDARY, wire.PULL, epoch) + pull_of_all(lsn)


def failover(lsn, size, epoch):
    for above in range(1, 9):
        spelled = wire.block(lsn + above, wire.puts_of(size, (lsn + above) % 256))
        yield wire.head(2, wire.PRIMARY, wire.WRITE, epoch) + wire.write(2, spelled)
    yield wire.head(1, wire.OPERATOR, wire.FAILOVER, epoch) + wire.failover(2)


def bodies(size, rounds):
    """Without end; a failover after each `rounds` rounds, if any."""
    number, epoch = 0, 1
    while True:
        number += 1
        yield from round_of(number, size, epoch)
        if rounds and number % rounds == 0:
            yield from failover(number, size, epoch)
            epoch += 1


def log_of(count):
    """`count` blocks, each of a Put of 100 bytes on one of four pages."""
    for lsn in range(1, count + 1):
        yield from hardened(lsn, [(lsn % 4, lsn % 80 * 100, bytes([lsn % 251]) * 100)])


def reads_of(count, hard):
    for at in range(count):
        if at % 16 == 0:
            yield wire.head(4, wire.PAGE_SERVER, wire.ADVANCE) + wire.advance(0, 1024)
        yield wire.head(3, wire.SECONDARY, wire.GET) + wire.get(at % 4, hard - at % 2, at % 2 == 0)


def written(source, some_bodies):
    with open(source, "wb") as file:
        file.writelines(body.hex().encode() + b"\n" for body in some_bodies)
    return source


def run(command, source, output=os.devnull):
    """Wall seconds, processor seconds and the peak of memory in MiB."""
    with open(source, "rb") as stdin, open(output, "wb") as stdout:
        start = time.perf_counter()
        child = subprocess.Popen(
            [str(word) for word in command] if isinstance(command, list) else command,
            stdin=stdin,
            stdout=stdout,
            shell=isinstance(command, str),
        )
        _, status, usage = os.wait4(child.pid, 0)
        wall = time.perf_counter() - start
    if status != 0:
        sys.exit(f"bench: {command} ended with status {status}")
    return wall, usage.ru_utime + usage.ru_stime, usage.ru_maxrss / 1024


def beside_copies(what, seconds, size, count, output):
    """Compares with a program that writes as many copies, and with `cat` of the same lines."""
    plain, _, _ = run([sys.executable, "-c", COPIES, size, count], os.devnull)
    copied, _, _ = run("cat | cat", output)
    copies = f"python3, {count} copies of {size} bytes as lines"
    for name, other in ((copies, plain), ("cat | cat of its output", copied)):
        print(f"  {name}: {other:7.3f} s; {what} took {seconds / other:.2f} times that")


def blocks(count, sizes):
    for size, rounds in ((size, rounds) for size in sizes for rounds in (0, 20)):
        source = WORK / f"lines-{size}"
        print(f"blocks of {size} bytes" + (f", a failover after each {rounds}" if rounds else ""))
        for part in (count // 8, count // 4, count // 2, count):
            written(source, itertools.islice(bodies(size, rounds), part))
            wall, _, peak = run(PLAY, source)
            print(
                f"  play, {part:>7} lines: {wall:7.3f} s, {part / wall:>9.0f} lines/s, "
                f"{wall / part * 1e6:6.2f} us a line, peak {peak:6.1f} MiB"
            )
        text = source.stat().st_size / 2**20
        for name, command in (
            ("python3 binascii, line by line", [sys.executable, "-c", HEX_LINES]),
            ("xxd -r -p | xxd -p", "xxd -r -p | xxd -p"),
        ):
            plain, _, peak = run(command, source)
            print(
                f"  {name}, {text:.0f} MiB of text: {plain:7.3f} s; play took {wall / plain:.2f} times that"
            )
        source.unlink()


def pages(count):
    source, output = WORK / "lines", WORK / "replies"
    for hard in (100, 1_000, 10_000):
        print(f"{count} gets of four pages, over a log of {hard} blocks")
        before, _, _ = run(PLAY, written(source, log_of(hard)))
        wall, _, peak = run(
            PLAY, written(source, itertools.chain(log_of(hard), reads_of(count, hard))), output
        )
        print(
            f"  play: {wall - before:7.3f} s after the {before:.3f} s of the log, "
            f"{(wall - before) / count * 1e6:7.2f} us a get, peak {peak:6.1f} MiB"
        )
        beside_copies("play", wall - before, wire.PAGE_BYTES, count, output)
    source.unlink()
    output.unlink()


def audits(count, asked=1_000):
    source, output = WORK / "lines", WORK / "replies"
    status = wire.head(2, wire.PRIMARY, wire.STATUS)
    audit = wire.head(1, wire.OPERATOR, wire.AUDIT) + wire.audit(max(1, count - 1023), 1024)
    print(f"{asked} audits of 1024 lines, of {count} entries")
    walls, peaks = [], []
    for entries in (count, 2 * count, 4 * count):
        wall, _, peak = run(PLAY, written(source, itertools.repeat(status, entries)))
        print(f"  {entries:>7} statuses: {wall:7.3f} s, peak {peak:6.1f} MiB")
        walls.append(wall)
        peaks.append(peak)
    print(
        f"  {(peaks[2] - peaks[1]) * 2**20 / (2 * count):.0f} bytes an entry, with the room that the list keeps"
    )
    lines = itertools.chain(itertools.repeat(status, count), itertools.repeat(audit, asked))
    wall, _, _ = run(PLAY, written(source, lines), output)
    print(f"  play: {wall - walls[0]:7.3f} s, {(wall - walls[0]) / asked * 1e6:7.2f} us an audit")
    beside_copies("play", wall - walls[0], 53 * 1024, asked, output)
    source.unlink()
    output.unlink()


def main():
    if not PLAY[0].exists():
        sys.exit(f"bench: no program yet: run `rt run` once in {CRATE.relative_to(ROOT)}")
    count = int(sys.argv[1]) if len(sys.argv) > 1 else 100_000
    WORK.mkdir(parents=True, exist_ok=True)
    blocks(count, [int(word) for word in sys.argv[2:]] or [100, 16_384])
    pages(min(max(1, count // 50), 20_000))
    audits(min(count, 16_000))


if __name__ == "__main__":
    main()
