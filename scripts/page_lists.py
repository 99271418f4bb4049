"""What scripts/pages prints into pages of the whole: the worked rows, the crates, and README's figures."""

import re
import sys
import textwrap

from crate_source import ROOT

sys.path.append(str(ROOT / "bench"))
import figures


def rows_of_file(file):
    """The tests of a module of a crate of rows, after the first words that it says of itself; nothing if it has none."""
    text = file.read_text()
    tests = re.findall(r"^#\[test\]\nfn (\w+)", text, flags=re.M)
    about = " ".join(line[3:].strip() for line in text.splitlines() if line.startswith("//!"))
    names = ", ".join(f"`{name}`" for name in tests)
    row = f"- [{file.stem}](../{file.relative_to(ROOT)}), {re.split('[.,:]', about)[0]}: {names}"
    return (
        textwrap.fill(
            row, 132, subsequent_indent="  ", break_long_words=False, break_on_hyphens=False
        )
        if tests
        else ""
    )


def printed_rows():
    """The part of docs/WORKED_ROWS.md that is printed: for each crate of rows its modules, and their tests."""
    parts = []
    for crate in sorted((ROOT / "crates").glob("rows_*")):
        lines = [line for line in map(rows_of_file, sorted((crate / "src").glob("*.rt"))) if line]
        parts.append(f"## {crate.name}\n\n" + "\n".join(lines) + "\n")
    return "\n".join(parts)


def with_printed_rows(page):
    return page[: page.index("## rows_")] + printed_rows()


def crate_rows():
    """A row for each crate of crates.txt, in its order, with the comment over it."""
    crates = re.findall(r"^# (.*)\n(\w+):", (ROOT / "crates.txt").read_text(), flags=re.M)
    return [f"| [{name}](../crates/{name}/README.md) | {about} |" for about, name in crates]


def with_printed_crates(page):
    """The page with these rows under the heading The crates."""
    lines = page.splitlines()
    start = lines.index("|---|---|", lines.index("## The crates")) + 1
    end = next(at for at in range(start, len(lines)) if not lines[at].startswith("|"))
    return "\n".join(lines[:start] + crate_rows() + lines[end:]) + "\n"


def with_printed_figures(page):
    """README with the figures of bench/figures.toml behind the heading How fast, up to the next empty line."""
    before, heading, after = page.partition("## How fast\n\n")
    return before + heading + figures.sentences() + after[after.index("\n\n") :]


# The pages of which a part is printed, beside those of crates.
PRINTED = {
    "README.md": with_printed_figures,
    "docs/WORKED_ROWS.md": with_printed_rows,
    "docs/ARCHITECTURE.md": with_printed_crates,
}
