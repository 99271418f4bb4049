"""Builds the packages of a version that was released, of its own commit, by its own sources and scripts, into a folder: so that tests put
its clients, keepers and schemas beside those of today.

Usage: scripts/released VERSION --out FOLDER [--quick PROGRAM]

CHANGELOG.md says which commit a version is. The program is PROGRAM, a build of that commit, or is compiled of it without a proof, which
takes some two minutes and Rattle's kit, of any name. The packages say that it is not proved.
"""

import argparse
import os
import pathlib
import re
import shutil
import subprocess
import sys
import tempfile

ROOT = pathlib.Path(__file__).resolve().parent.parent


def fail(text):
    sys.exit(f"released: {text}")


def run(words, **how):
    done = subprocess.run([str(word) for word in words], **how)
    if done.returncode:
        fail(f"{' '.join(map(str, words))} failed with status {done.returncode}")


def commit_of(version):
    """The commit that CHANGELOG.md names under the version."""
    text = (ROOT / "CHANGELOG.md").read_text()
    found = re.search(rf"^## {re.escape(version)}\n\nCommit ([0-9a-f]{{40}})\.$", text, flags=re.M)
    if not found:
        fail(f"CHANGELOG.md has no commit of version {version}")
    return found[1]


def checkout(commit, folder):
    """The sources of the commit, with what git knows of it."""
    known = subprocess.run(
        ["git", "cat-file", "-e", f"{commit}^{{commit}}"], cwd=ROOT, stderr=subprocess.DEVNULL
    )
    if known.returncode:
        fail(f"there is no commit {commit} here: git fetch --unshallow")
    run(["git", "clone", "--quiet", "--shared", "--no-checkout", ROOT, folder])
    run(["git", "checkout", "--quiet", "--detach", commit], cwd=folder)


def built_quickly(folder):
    """The program of these sources, compiled without a proof."""
    run([sys.executable, "-B", folder / "scripts" / "build.py", "quick"])
    return folder / "crates" / "pagelog" / "out" / "pagelog-quick"


def path_without_rt(folder):
    """The system's programs, and no rt: that of 0.1.0 refuses a kit that has another name than the one in its sources, and asks no kit
    if there is none."""
    found = [pathlib.Path(each) for each in os.defpath.split(":")]
    if not any((each / "rt").exists() for each in found):
        return os.defpath
    programs = folder / "programs"
    programs.mkdir()
    for each in [file for place in found for file in place.iterdir() if file.name != "rt"]:
        if not (programs / each.name).is_symlink():
            (programs / each.name).symlink_to(each)
    return str(programs)


def main():
    parser = argparse.ArgumentParser(
        description=__doc__, formatter_class=argparse.RawDescriptionHelpFormatter
    )
    parser.add_argument("version", help="as in CHANGELOG.md")
    parser.add_argument(
        "--out", metavar="FOLDER", type=pathlib.Path, required=True, help="where the packages go"
    )
    parser.add_argument(
        "--quick",
        metavar="PROGRAM",
        type=pathlib.Path,
        help="the program of that version, which is not built then",
    )
    words = parser.parse_args()
    commit = commit_of(words.version)
    if not words.quick and not shutil.which("rt"):
        fail(
            "to compile its program, Rattle's command rt has to be on the PATH; --quick takes one that was built"
        )
    with tempfile.TemporaryDirectory() as name:
        sources = pathlib.Path(name) / "sources"
        checkout(commit, sources)
        program = words.quick.resolve() if words.quick else built_quickly(sources)
        environment = {**os.environ, "PATH": path_without_rt(pathlib.Path(name))}
        run(
            [sources / "scripts" / "package", "--quick", program, "--out", words.out.resolve()],
            env=environment,
        )


main()
