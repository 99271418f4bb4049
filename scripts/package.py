"""Packs the program, its clients and their tools for Debian: pagelog, pagelog-sqlite, pagelog-tools and pagelog-pages.

Usage: scripts/package [--quick PROGRAM [--verify PROGRAM]] [--out FOLDER]

The program is the one that rt has proved and built, crates/pagelog/out/pagelog, byte for byte. It is refused if a source is newer.
pagelog-verify goes with it, from crates/pagelog_verify/out.
With --quick it is PROGRAM, and version and description say that it is not proved; pagelog-verify is that of --verify, or none. All else is what git has of this checkout, with
changes that are not committed yet, and then the version says so. The packages and SHA256SUMS go into FOLDER, by default
packaging/out/VERSION. The same commit, program and note give the same bytes.

With which kit the program was built is what was noted then (build_note.py). If nothing was, as after `rt ci`, the packages say so, and
which kit was at hand when they were built. No kit is refused for its name.
"""

import argparse
import hashlib
import os
import pathlib
import re
import shutil
import subprocess
import sys
import tempfile
import textwrap

from build_note import kit_at_hand, note_of, sum_of
from version import ROOT, version

PROVED = ROOT / "crates" / "pagelog" / "out" / "pagelog"
VERIFY = ROOT / "crates" / "pagelog_verify" / "out" / "pagelog_verify"
# The folders of a crate of which rt proves it anew where a file has changed.
PARTS = "src", "specs", "proofs"
MAINTAINER = "Kayakugli maintainers <maintainers@users.noreply.kayakugli.example>"
CHANGELOG = """pagelog ({version}) unstable; urgency=medium

  * Commit {commit}.
  * The program {words}. {noted}
{changes}

 -- {maintainer}  {date}
"""


def fail(text):
    sys.exit(f"package: {text}")


def output(words, **how):
    """What a command prints, without the last line feed."""
    try:
        return subprocess.run(
            words, check=True, stdout=subprocess.PIPE, text=True, cwd=ROOT, **how
        ).stdout.strip()
    except OSError as error:
        fail(error)
    except subprocess.CalledProcessError as error:
        fail(f"{' '.join(map(str, words))} failed with status {error.returncode}")


class Checkout:
    """What git has of this checkout: its commit, and a tree with the changes that are not committed."""

    def __init__(self):
        self.commit, self.minute, self.date = output(
            ["git", "log", "-1", "--format=%H%n%cd%n%cD", "--date=format:%Y%m%d%H%M"]
        ).split("\n")
        changed = output(["git", "-c", "user.name=package", "-c", "user.email=", "stash", "create"])
        self.tree, self.is_changed = changed or self.commit, bool(changed)

    def version(self, release, is_proved):
        """A later commit has a later version, and what is not proved an earlier one than the same that is."""
        changed, proved = ".changed" if self.is_changed else "", "" if is_proved else "~not.proved"
        return f"{release}+git{self.minute}.{self.commit[:8]}{changed}{proved}"

    def unpack(self, folder):
        with subprocess.Popen(
            ["git", "archive", self.tree], cwd=ROOT, stdout=subprocess.PIPE
        ) as archive:
            subprocess.run(["tar", "-x", "-C", folder], stdin=archive.stdout, check=True)
        if archive.returncode:
            fail("git archive failed")


def newer_source(program):
    """A source that is newer than the program, or None."""
    built = program.stat().st_mtime
    files = [file for part in PARTS for file in (ROOT / "crates").glob(f"*/{part}/**/*")]
    return next(
        (file for file in [ROOT / "crates.txt", *files] if file.stat().st_mtime > built), None
    )


def check_program(program, name, is_proved, release):
    """It runs, is of this version, and, if it was proved, of these sources."""
    if not os.access(program, os.X_OK):
        fail(f"there is no {program}: `rt ci` builds the proved program, and --quick takes another")
    said, wanted = output([program, "--version"]), f"{name} {release}"
    if said != wanted:
        fail(f"{program} is {said}, not {wanted}")
    newer = newer_source(program) if is_proved else None
    if newer:
        fail(f"{newer.relative_to(ROOT)} is newer than {program.relative_to(ROOT)}: prove it again")


def kit_of(program, is_proved):
    """The kit with which the program was built, as far as anybody knows: a short form, and a sentence."""
    note = note_of(program)
    if note and is_proved and note.proved != "yes":
        fail(f"it was noted of {program} that it is not proved: prove it, or say --quick {program}")
    if note:
        return note.kit, f"It was noted when it was built: with {note.kit}."
    kit = kit_at_hand()
    if kit:
        return (
            f"not noted; at packaging {kit}",
            f"Its kit was not noted when it was built; at packaging it was {kit}.",
        )
    if is_proved:
        fail(
            "its kit was not noted, and no rt is on the PATH: python3 -B scripts/build.py proved notes it"
        )
    return "not noted", "Its kit was not noted when it was built."


def changes_of(release, text):
    """What CHANGELOG.md, which has this text, says of the version, as the entries of a Debian changelog."""
    own = text.partition(f"\n## {release}\n")[2].partition("\n## ")[0]
    own = re.sub(r"\[([^]]*)\]\([^)]*\)", r"\1", own)
    parts = re.split(r"\n(?=- )|\n\n", re.sub(r"^(\w+)$", r"[ \1 ]", own.strip(), flags=re.M))
    return "\n".join(
        textwrap.fill(
            " ".join(part.removeprefix("- ").split()),
            width=78,
            initial_indent="  * " if part.startswith("- ") else "  ",
            subsequent_indent="    " if part.startswith("- ") else "  ",
            break_long_words=False,
            break_on_hyphens=False,
        )
        for part in parts
        if part.strip()
    )


def build(folder, checkout, program, verify, facts):
    """Has dpkg-buildpackage build the packages beside this folder, in which all is that belongs to them."""
    checkout.unpack(folder)
    shutil.copytree(folder / "packaging" / "debian", folder / "debian")
    rules = folder / "debian" / "rules"
    rules.write_text(
        f"#!{shutil.which('make')} -f\n" + (folder / "packaging" / "rules.mk").read_text()
    )
    rules.chmod(0o755)
    changes = changes_of(facts["release"], (folder / "CHANGELOG.md").read_text())
    (folder / "debian" / "changelog").write_text(
        CHANGELOG.format(**facts, changes=changes, maintainer=MAINTAINER, date=checkout.date)
    )
    (folder / "clients" / "python" / "src" / "pagelog" / "COMMIT").write_text(facts["commit"])
    # No Python of the user's own, and nothing else of the user.
    kept = {name: os.environ[name] for name in ("HOME", "TMPDIR") if name in os.environ}
    said = {name.upper(): text for name, text in facts.items()}
    programs = {"PROGRAM": str(program), "VERIFY": str(verify or "")}
    environment = {**kept, **said, **programs, "PATH": os.defpath, "LC_ALL": "C.UTF-8"}
    done = subprocess.run(
        ["dpkg-buildpackage", "--build=binary", "--no-sign", "--no-pre-clean"],
        cwd=folder,
        env=environment,
        stdout=subprocess.PIPE,
        stderr=subprocess.STDOUT,
        text=True,
    )
    if done.returncode:
        fail(
            "".join(done.stdout.splitlines(True)[-30:])
            + "package: not built: the last lines are above"
        )


def put(packages, folder):
    """The packages and their checksums, as the only ones in the folder."""
    folder.mkdir(parents=True, exist_ok=True)
    for old in [*folder.glob("*.deb"), *folder.glob("SHA256SUMS")]:
        old.unlink()
    for package in packages:
        shutil.copy(package, folder)
    sums = [
        f"{hashlib.sha256(package.read_bytes()).hexdigest()}  {package.name}\n"
        for package in packages
    ]
    (folder / "SHA256SUMS").write_text("".join(sums))


def main():
    parser = argparse.ArgumentParser(
        description=__doc__, formatter_class=argparse.RawDescriptionHelpFormatter
    )
    parser.add_argument(
        "--quick", metavar="PROGRAM", type=pathlib.Path, help="a program that is not proved"
    )
    parser.add_argument(
        "--verify",
        metavar="PROGRAM",
        type=pathlib.Path,
        help="pagelog-verify, beside --quick: without it the packages have none",
    )
    parser.add_argument("--out", metavar="FOLDER", type=pathlib.Path, help="where the packages go")
    words = parser.parse_args()
    program, is_proved = (words.quick or PROVED).resolve(), words.quick is None
    verify = VERIFY if is_proved else words.verify and words.verify.resolve()
    release = version()
    check_program(program, "pagelog", is_proved, release)
    if verify:
        check_program(verify, "pagelog-verify", is_proved, release)
    (kit, noted), checkout = kit_of(program, is_proved), Checkout()
    facts = {
        "version": checkout.version(release, is_proved),
        "release": release,
        "kit": kit,
        "noted": noted,
        "commit": checkout.commit + (" with changes" if checkout.is_changed else ""),
        "proved": "yes" if is_proved else "no",
        "words": "is proved" if is_proved else "is NOT PROVED",
        "mark": "" if is_proved else ", not proved",
        "sum": sum_of(program),
    }
    with tempfile.TemporaryDirectory() as name:
        folder = pathlib.Path(name) / "pagelog"
        folder.mkdir()
        build(folder, checkout, program, verify, facts)
        out = words.out or ROOT / "packaging" / "out" / facts["version"]
        put(sorted(folder.parent.glob("*.deb")), out)
    print(out)


main()
