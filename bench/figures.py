"""The figures that README has: bench/sqlite.py --note writes them into bench/figures.toml, scripts/pages prints and compares them."""

import os
import pathlib
import statistics
import subprocess
import textwrap
import tomllib

ROOT = pathlib.Path(__file__).resolve().parent.parent
FILE = ROOT / "bench" / "figures.toml"
MEASURED = "clients/c", "crates"
HEAD = """# What README says of speed, by bench/sqlite.py --note: the last commit that changed {}, whether it ran before all else of the machine
# (chrt -r), and medians a second.
commit = "{}"
build = "{}"
processors = {}
load = {:.0f}
first = {}
"""


def git(*arguments):
    return subprocess.run(["git", *arguments], cwd=ROOT, capture_output=True, text=True)


def note(build, processors, load, systems):
    """Writes the medians of each system's rates, by its name; `build` says what the program is, as `quick build`."""
    commit = git("log", "-1", "--format=%H", "--", *MEASURED, ":!*.md").stdout.strip()
    was_first = os.sched_getscheduler(0) in (os.SCHED_RR, os.SCHED_FIFO)
    was_first = str(was_first).lower()
    lines = [HEAD.format(" or ".join(MEASURED), commit, build, processors, load, was_first)]
    for name, system in systems.items():
        medians = {
            column: statistics.median(found) for column, found in system.rates.items() if found
        }
        rows = "".join(
            f'"{column}" = {median:.0f}\n'
            for column, median in medians.items()
            if column in ("inserts", "warm", "cold")
        )
        lines.append(f"[{name}]\n{rows}")
    FILE.write_text("\n".join(lines))


def sentences():
    """What README says of them, in lines."""
    found = tomllib.loads(FILE.read_text())
    service, follower, synced, stock = (
        found[name] for name in ("service", "follower", "synced", "stock")
    )
    text = (
        f"Commit {found['commit'][:8]}, {found['build']}, {found['processors']} processors, load {found['load']}"
        f"{', run before all else (`chrt`)' if found['first'] else ''}; medians a second (`bench/sqlite.py`). SQLite's COMMITs of "
        f"one row over a service: {service['inserts']:,}; of stock SQLite in WAL with fsync: {synced['inserts']:,}, without: "
        f"{stock['inserts']:,}. Warm reads: {service['warm']:,}, stock {stock['warm']:,}. A reader's cold reads: {follower['cold']:,}, "
        f"stock {stock['cold']:,}. With keepers a durable COMMIT takes [PostgreSQL's and a round trip](bench/RESULTS.md#keepers-keptpy)."
    )
    return textwrap.fill(text, 140, break_long_words=False, break_on_hyphens=False)


def is_in_history():
    """Whether the commit is one that this one comes after; also where there is no history here, as in a package's sources."""
    commit = tomllib.loads(FILE.read_text())["commit"]
    is_here = git("rev-parse", "--is-inside-work-tree").returncode == 0
    return not is_here or git("merge-base", "--is-ancestor", commit, "HEAD").returncode == 0
