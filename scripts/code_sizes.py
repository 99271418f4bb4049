"""How large functions, contracts and files are, for scripts/pages. `scripts/pages --sizes` prints what is larger than it should be."""

import re

from crate_source import ROOT, end_of, test_files, without_comments, without_tests

FUNCTION_LINES, PARAMETERS, CLAUSES, FILE_LINES, CLAUSE_COLUMNS = 40, 6, 6, 400, 100
# How many are larger than that. These numbers only fall: one that is higher than what there is has to be lowered.
MOST = {"functions": 0, "parameters": 0, "clauses": 0, "files": 0, "wide clause lines": 0}
# The same in the crates of rows, which are tests.
MOST_OF_ROWS = {
    "functions of rows": 1,
    "parameters of rows": 6,
    "clauses of rows": 0,
    "files of rows": 2,
    "wide clause lines of rows": 2,
}


def is_of_rows(place):
    """Whether this is in a crate of rows."""
    return place.startswith(("crates/rows_", "crates/transcripts/"))


class Sizes:
    """What is larger than it should be, by kind: a line for each, with its place."""

    def __init__(self):
        self.found = {kind: [] for kind in (*MOST, *MOST_OF_ROWS)}

    def note(self, kind, place, text):
        self.found[f"{kind} of rows" if is_of_rows(str(place)) else kind].append(f"{place}: {text}")

    def beyond(self):
        """The kinds of which there are more than there may be, or fewer."""
        for kind, most in (MOST | MOST_OF_ROWS).items():
            if len(self.found[kind]) > most:
                yield kind, f"{len(self.found[kind])} are too large in place of at most {most}: python3 -B scripts/pages --sizes"
            elif len(self.found[kind]) < most:
                yield kind, f"{len(self.found[kind])} are too large: lower the {most} of scripts/code_sizes.py"


def parameters_in(text):
    """How many parameters a list in parentheses has, self too."""
    depth, parts = 0, [""]
    for before, letter in zip(" " + text, text):
        if letter in "([{<":
            depth += 1
        elif letter in ")]}" or letter == ">" and before != "-":
            depth -= 1
        if letter == "," and depth == 0:
            parts.append("")
        else:
            parts[-1] += letter
    return sum(bool(part.strip()) for part in parts)


PART = re.compile(r"\b(?:requires|ensures)\*?(?:\s+[a-z_]\w*)?\s*\{|\bghost\s+\w+\s*:\s*\{|[;{\[]")


def body_of_function(text, at):
    """Where the body of a function begins and ends whose parameters end at `at`; both are after the `;` of one that has none."""
    while found := PART.search(text, at):
        if found.group() == ";":
            return found.end(), found.end()
        bracket = found.group()[-1]
        at = end_of(text, found.end() - 1, bracket, "]" if bracket == "[" else "}")
        if found.group() == "{":
            return found.start(), at
    return len(text), len(text)


CLAUSE = re.compile(r"\b(?:requires|ensures)\*?(?:\s+[a-z_]\w*)?\s*\{")
# Those of closures too, and what a ghost line says.
SAID = re.compile(CLAUSE.pattern + r"|\bghost\s+\w+\s*[:=]\s*\{")


def line_of(text, at):
    return text.count("\n", 0, at) + 1


def measure_function(sizes, file, text, name, at):
    """Notes what is large of the function whose name ends at `at`. `text` is the source without comments."""
    first = text.index("(", at)
    last = end_of(text, first, "(", ")")
    body, end = body_of_function(text, last)
    clauses = list(CLAUSE.finditer(text, last, body))
    place = f"{file}:{line_of(text, at)}"
    for kind, what, count, most in (
        ("functions", "lines", text.count("\n", at, end) + 1, FUNCTION_LINES),
        ("parameters", "parameters", parameters_in(text[first + 1 : last - 1]), PARAMETERS),
        ("clauses", "clauses", len(clauses), CLAUSES),
    ):
        if count > most:
            sizes.note(kind, place, f"{name} has {count} {what}")


def measure_lines(sizes, file, text):
    """Notes each line of a clause or of a ghost that is too wide."""
    lines = text.split("\n")
    for said in SAID.finditer(text):
        close = end_of(text, said.end() - 1, "{", "}")
        for line in range(line_of(text, said.start()), line_of(text, close) + 1):
            if len(lines[line - 1].rstrip()) > CLAUSE_COLUMNS:
                sizes.note(
                    "wide clause lines",
                    f"{file}:{line}",
                    f"{len(lines[line - 1].rstrip())} columns",
                )


def sizes_of(crates):
    """What is larger than it should be in these crates, outside of their tests. Those of rows are tests as a whole."""
    sizes = Sizes()
    for crate in crates:
        is_test = is_of_rows(f"crates/{crate.name}/")
        for file in sorted(
            set((crate / "src").rglob("*.rt")) - set(() if is_test else test_files(crate))
        ):
            name, text = file.relative_to(ROOT), without_comments(file.read_text())
            text = text if is_test else without_tests(text)
            count = text.count("\n")
            if count > FILE_LINES:
                sizes.note("files", name, f"{count} lines")
            for found in re.finditer(r"\bfn\s+(\w+)", text):
                measure_function(sizes, name, text, found.group(1), found.end())
            measure_lines(sizes, name, text)
    return sizes
