"""Builds the programs of bench/: each is a crate on top of those of crates/, whose files have the ending `.txt` here, so that
the gate does not take them for its own.

A program is proved before it runs, as `rt run` does, in a repository of its own under bench/work. What earlier checks of
the crates kept is used again.
"""

import os
import pathlib
import shutil
import subprocess
import sys

ROOT = pathlib.Path(__file__).resolve().parent.parent


def pagelog():
    """The program, as scripts/pagelog proves and builds it, or the one that PAGELOG names."""
    found = pathlib.Path(
        os.environ.get("PAGELOG") or ROOT / "crates" / "pagelog" / "out" / "pagelog"
    )
    if not found.exists():
        sys.exit(f"bench: no program {found}: `scripts/pagelog --help` proves and builds it")
    return found


def below(names, lines):
    """The crates of these names and those that they depend on."""
    found = set()
    wanted = [name for name in names if name in lines]
    while wanted:
        name = wanted.pop()
        if name not in found:
            found.add(name)
            wanted += [word for word in lines[name].split() if word in lines]
    return found


def files_of(folder, is_older):
    """The files of a program by their places, and for older crates those of its folder `older` in the place of the same ones."""
    older = folder / "older"
    files = {
        file.relative_to(folder): file
        for file in folder.rglob("*.txt")
        if older not in file.parents
    }
    if is_older:
        files |= {file.relative_to(older): file for file in older.rglob("*.txt")}
    return files


def program(name, libraries, root=ROOT, is_older=False):
    """The program of bench/NAME, built with these crates of a checkout, which may be one before they had all that it calls."""
    lines = {}
    work = ROOT / "bench" / "work" / ("" if root == ROOT else f"beside-{root.resolve().name}")
    work.mkdir(parents=True, exist_ok=True)
    for line in (root / "crates.txt").read_text().splitlines():
        if not line.startswith("#") and ":" in line:
            crate, _, words = line.partition(":")
            lines[crate] = words
    tree, crate = work / name, f"{name}_bench"
    kept = tree / "crates" / crate / "out"
    aside = work / f"{name}.out"
    shutil.rmtree(aside, ignore_errors=True)
    if kept.exists():
        kept.rename(aside)
    shutil.rmtree(tree, ignore_errors=True)
    used = [name for name in lines if name in below(libraries.split(), lines)]
    for one in used:
        shutil.copytree(
            root / "crates" / one,
            tree / "crates" / one,
            ignore=shutil.ignore_patterns("incremental"),
        )
    for place, file in files_of(ROOT / "bench" / name, is_older).items():
        to = tree / "crates" / crate / place.with_suffix("")
        to.parent.mkdir(parents=True, exist_ok=True)
        shutil.copy(file, to)
    if aside.exists():
        aside.rename(kept)
    shutil.copy(root / "HANDLES", tree)
    (tree / "crates.txt").write_text(
        "".join(f"{one}:{lines[one]}\n" for one in used) + f"{crate}: {libraries}\n"
    )
    subprocess.run(["git", "init", "-q", tree], check=True)
    built = subprocess.run(
        ["rt", "run", "--jobs", "2"],
        cwd=kept.parent,
        stdin=subprocess.DEVNULL,
        capture_output=True,
        text=True,
    )
    binary = kept / crate
    # What an earlier build left there is not what this one was asked for.
    if f"rt: running out/{crate};" not in built.stdout + built.stderr or not binary.exists():
        sys.exit(f"bench: {name} was not built:\n{built.stdout[-2000:]}{built.stderr[-2000:]}")
    return binary
