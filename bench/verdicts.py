"""Times what a decision costs, with its verdict cached and not, beside a walk over all rows of the table.

Usage: python3 bench/verdicts.py [ROUNDS] [FOLDER]     (21 rounds)

Builds bench/verdicts, a program that calls pl_table and pl_decide. It times tables of 1, 16 and 256 rows for 64 principals,
where each row names a principal and where none does, for a request that the first row, the last or no row matches, and
a small table of six rows for five principals; each with rows that end at LSNs, and with rows that do not:

- walk: each row is looked at, up to the first that matches;
- index: `Table::first_match`;
- miss: `Decider::decide` after a `new_table`, so that no verdict is cached; a long walk's verdict is cached then;
- again: `Decider::decide` on the same request, whose verdict is cached where `kept` is 1;
- along: `Decider::decide` on pulls at 20,000 LSNs that follow one another, as a reader asks who follows the end of the log,
  with what it costs to make them; the rows that end do so at each thousandth LSN;
- reach: `Decider::reach`, where the rows allow the request and the hardened end is above the ends of all rows, after a decision
  on the request, whose verdict has it where that is cached;
- near: the same with a hardened end below the ends of all rows.

Prints nanoseconds of the processor, the median of the rounds, and ratios of times of one round: the median, and in brackets
the half of the rounds around it. `hits` is how many of 1,000 pulls of `along` find their verdict cached, by the LSNs at which
the rows say the same, where a verdict is kept at all. FOLDER is another checkout, of an older commit say: the same program is
built with its crates, is asked of each table in turn with this one, and its times are beside those of this checkout. Of the
crates before `Asking` no reach is timed, and those before rows had ends read no table whose rows end.
"""

import os
import pathlib
import statistics
import subprocess
import sys

import programs
import rounds

TIMES = ("walk", "index", "miss", "again", "along", "reach", "near")
SHARES = (
    "walk / index",
    "walk / again",
    "miss / again",
    "along / again",
    "reach / miss",
    "reach / walk",
    "near / miss",
)
PULLS = 20_000
# The tables: how many rows, whether each names a principal, and whether each ends. Six rows are the small table.
TABLES = [(6, True, ends) for ends in (False, True)] + [
    (rows, named, ends)
    for ends in (False, True)
    for named in (True, False)
    for rows in (1, 16, 256)
]


class Program:
    """The program, asked for one table after the other."""

    def __init__(self, path):
        self.child = subprocess.Popen(
            [path], stdin=subprocess.PIPE, stdout=subprocess.PIPE, text=True
        )

    def ask(self, table):
        """What it says of each request for a table: its times, whether a verdict was kept, and misses of pulls along the log."""
        rows, named, ends = table
        which = "small" if rows == 6 else f"{rows} {'named' if named else 'nobody'}"
        self.child.stdin.write(f"{which} {'ends' if ends else 'none'}\n")
        self.child.stdin.flush()
        lines = {}
        while (words := self.child.stdout.readline().split()) != ["end"]:
            if not words:
                sys.exit("bench: the program ended")
            if words[0] == "further":
                followed, far, near, misses = (int(word) for word in words[1:5])
                lines[asked].update(
                    along=followed / 10, reach=far / 10, near=near / 10, misses=misses
                )
            elif words[0] != "table":
                asked = words[0]
                if words[6] != "true":
                    sys.exit(f"bench: the walks of {rows} rows differ")
                lines[asked] = {name: int(word) / 10 for name, word in zip(TIMES, words[1:5])}
                lines[asked]["kept"] = int(words[5])
        return lines

    def end(self):
        self.child.stdin.close()
        self.child.wait()


def ratio(above, below):
    """The ratio of two times, where there is something to time."""
    return rounds.ratio(above, below) if min(below) > 0 and statistics.median(above) > 1 else None


def joined(pairs):
    return ", ".join(f"{name} {value}" for name, value in pairs if value is not None)


def print_line(table, asked, now, before):
    """The times of a request over all rounds, and their ratios."""
    rows, named, ends = table
    times = {name: [line[name] for line in now] for name in TIMES}
    title = f"{rows} rows {'of one of 64' if named else 'of nobody'}{' that end' if ends else ''}, {asked}"
    hits = 1000 * (1 - now[0]["misses"] / PULLS)
    kept = f"kept 1, hits {hits:.1f}" if now[0]["kept"] else "kept 0"
    print(
        f"{title:<40} "
        + ", ".join(f"{name} {statistics.median(times[name]):.1f}" for name in TIMES)
        + f"; {kept}"
    )
    shares = (share.split(" / ") for share in SHARES)
    print(
        f"{'':8}{joined((f'{above} / {below}', ratio(times[above], times[below])) for above, below in shares)}"
    )
    if before:
        others = ((name, ratio(times[name], [line[name] for line in before])) for name in TIMES[:5])
        print(f"{'':8}now / before: {joined(others)}")
        if before[0]["kept"]:
            print(f"{'':8}before: hits {1000 * (1 - before[0]['misses'] / PULLS):.1f}")


def main():
    count = int(sys.argv[1]) if len(sys.argv) > 1 else 21
    paths = {"now": programs.program("verdicts", "pl_table pl_decide")}
    if len(sys.argv) > 2:
        folder = pathlib.Path(sys.argv[2])
        is_older = "Asking" not in (folder / "crates" / "pl_table" / "src" / "lib.rt").read_text()
        paths["before"] = programs.program("verdicts", "pl_table pl_decide", folder, is_older)
    running = {where: Program(path) for where, path in paths.items()}
    cases = [(table, where) for table in TABLES for where in paths]
    said = rounds.in_turn(count, cases, lambda case: running[case[1]].ask(case[0]))
    for program in running.values():
        program.end()
    print(f"nanoseconds of the processor, medians of {count} rounds; load {os.getloadavg()[0]:.1f}")
    for table in TABLES:
        before = said.get((table, "before"), [])
        for asked in said[table, "now"][0]:
            print_line(
                table,
                asked,
                [lines[asked] for lines in said[table, "now"]],
                [lines[asked] for lines in before if asked in lines],
            )


if __name__ == "__main__":
    main()
