"""What is noted of a program by who builds it, in that moment: with which kit, of which commit, and whether it was proved. The note lies
beside the program, and is of these bytes alone: a program of another sum has none.

Usage: python3 scripts/build_note.py PROGRAM   says in one line what is noted of it
"""

import dataclasses
import hashlib
import os
import pathlib
import shutil
import subprocess
import sys

ROOT = pathlib.Path(__file__).resolve().parent.parent


@dataclasses.dataclass(frozen=True)
class Note:
    """What is noted of a program. The kit is the line of `rt version`."""

    sha256: str
    proved: str
    kit: str
    commit: str

    def line(self):
        how = "proved and compiled" if self.proved == "yes" else "not proved; compiled"
        return f"{how} with {self.kit}, commit {self.commit}, sha256 {self.sha256}"


def place(program):
    return program.with_name(f"{program.name}.built")


def sum_of(program):
    return hashlib.sha256(program.read_bytes()).hexdigest()


def kit_at_hand():
    """The kit whose rt is on the PATH, as it names itself; None if there is none, or if it does not say."""
    if not shutil.which("rt"):
        return None
    said = subprocess.run(["rt", "version"], stdout=subprocess.PIPE, text=True)
    return said.stdout.strip() or None if said.returncode == 0 else None


def commit_of_sources():
    """The commit of the crates, and whether they were changed since."""
    try:
        said = [
            subprocess.run(
                words,
                cwd=ROOT,
                check=True,
                stdout=subprocess.PIPE,
                stderr=subprocess.DEVNULL,
                text=True,
            ).stdout.strip()
            for words in (
                ["git", "rev-parse", "HEAD"],
                ["git", "status", "--porcelain", "crates", "crates.txt"],
            )
        ]
    except (OSError, subprocess.CalledProcessError):
        return "unknown"
    return said[0] + (" with changes" if said[1] else "")


def write_note(program, is_proved, kit, commit):
    """Notes of this program that it was just built so, in place of what was noted before."""
    note = Note(sum_of(program), "yes" if is_proved else "no", kit or "unknown", commit)
    written = place(program).with_suffix(".new")
    written.write_text(
        "".join(f"{name}: {text}\n" for name, text in dataclasses.asdict(note).items())
    )
    os.replace(written, place(program))


def note_of(program):
    """What was noted when this program was built, or None."""
    try:
        lines = place(program).read_text().splitlines()
        note = Note(**dict(line.split(": ", 1) for line in lines))
    except (OSError, TypeError, ValueError):
        return None
    return note if note.sha256 == sum_of(program) else None


def main():
    if len(sys.argv) != 2:
        sys.exit(__doc__)
    note = note_of(pathlib.Path(sys.argv[1]).resolve())
    print(note.line() if note else "with which kit it was built was not noted")


if __name__ == "__main__":
    main()
