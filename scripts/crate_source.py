"""Reads what the crates define, for scripts/pages: functions with their clauses and the words of these, laws, edits, names."""

import functools
import pathlib
import re

ROOT = pathlib.Path(__file__).resolve().parent.parent


class Clause:
    """A clause: its kind, its label, '' for none, and its words, those of the comment right above it."""

    def __init__(self, kind, label, words):
        self.kind, self.label, self.words = kind, label, words


class Function:
    """A function with its clauses; of a method, `owner` is its type or its trait."""

    def __init__(self, file, owner, name, is_public, clauses):
        self.file, self.owner, self.name, self.is_public = file, owner, name, is_public
        self.clauses = clauses

    @property
    def requires(self):
        return [clause.label for clause in self.clauses if clause.kind == "requires"]

    @property
    def ensures(self):
        return [clause.label for clause in self.clauses if clause.kind == "ensures"]

    @property
    def is_law(self):
        return bool(self.file) and "laws" in self.file.with_suffix("").parts

    @property
    def has_contract(self):
        return bool(self.clauses)

    @property
    def path(self):
        if not self.file:
            return f"{self.name} for {self.owner}"
        return f"{self.owner}::{self.name}" if self.owner else self.name

    @property
    def labels(self):
        return [label for label in self.ensures if label]


def blank(found):
    """What was found, with each character but line feeds made a space."""
    return re.sub(r"[^\n]", " ", found.group())


def without_comments(text):
    """The text with comments and the insides of string literals blanked, at its length."""
    pattern = r"""//[^\n]*|/\*.*?\*/|r#".*?"#|"(?:\\.|[^"\\])*"|'(?:\\.|[^'\\])'"""
    return re.sub(pattern, blank, text, flags=re.S)


def end_of(text, at, opening, closing):
    """The place after the bracket that closes the one at `at`."""
    depth = 0
    for place in range(at, len(text)):
        if text[place] == opening:
            depth += 1
        elif text[place] == closing:
            depth -= 1
            if depth == 0:
                return place + 1
    return len(text)


CLAUSE = re.compile(r"\s*(requires|ensures)\*?(?:\s+([a-z_][A-Za-z0-9_]*))?\s*\{")
GHOST = re.compile(r"\s*ghost\s+\w+\s*:\s*\{")


def words_above(source, at):
    """The comment lines right above the line of this place, as one text."""
    words = []
    for line in reversed(source[:at].split("\n")[:-1]):
        found = re.fullmatch(r"\s*//(?![/!])\s*(.*?)\s*", line)
        if not found:
            break
        words.insert(0, found.group(1))
    return " ".join(words)


def clauses_at(source, text, at):
    """The clauses from here on. `text` is the source without comments."""
    clauses = []
    while True:
        clause, ghost = CLAUSE.match(text, at), GHOST.match(text, at)
        if clause:
            words = words_above(source, clause.start(1))
            clauses.append(Clause(clause.group(1), clause.group(2) or "", words))
        elif not ghost:
            return clauses
        at = end_of(text, (clause or ghost).end() - 1, "{", "}")


def traits_of(text):
    """Each public trait: its name, and where it begins and ends."""
    for found in re.finditer(r"^[ \t]*pub\s+trait\s+(\w+)[^{;]*\{", text, flags=re.M):
        yield found.group(1), found.end(), end_of(text, found.end() - 1, "{", "}")


def impls_of(text):
    """Each impl block: its type, the trait if it has one, and where it begins and ends."""
    for found in re.finditer(r"^\s*impl\b([^{;]*)\{", text, flags=re.M):
        head = re.sub(r"<[^<>]*>", "", re.sub(r"<[^<>]*>", "", found.group(1))).split(" where ")[0]
        trait, _, owner = head.rpartition(" for ")
        owner = owner.strip().split("::")[-1]
        yield owner, trait.strip(), found.end(), end_of(text, found.end() - 1, "{", "}")


def without_tests(text):
    """The text up to and without what is compiled for tests alone."""
    for found in reversed(list(re.finditer(r"#\[cfg\(test\)\]\s*(?:pub )?mod \w+\s*\{", text))):
        end = end_of(text, found.end() - 1, "{", "}")
        text = text[: found.start()] + re.sub(r"[^\n]", " ", text[found.start() : end]) + text[end:]
    return text


def test_files(crate):
    """The files that a crate compiles for tests alone: those of `#[cfg(test)] mod NAME;`."""
    for file in (crate / "src").rglob("*.rt"):
        for name in re.findall(r"#\[cfg\(test\)\]\s*mod (\w+);", file.read_text()):
            folder = file.parent if file.stem in ("lib", "main") else file.parent / file.stem
            yield folder / f"{name}.rt"
            yield from (folder / name).rglob("*.rt")


@functools.lru_cache(maxsize=None)
def functions_of(crate):
    """All functions of a crate outside its tests."""
    tests, functions = set(test_files(crate)), []
    for file in sorted(set((crate / "src").rglob("*.rt")) - tests):
        source = file.read_text()
        text = without_tests(without_comments(source))
        impls, traits = list(impls_of(text)), list(traits_of(text))
        for found in re.finditer(r"\b(pub(?:\([a-z]+\))?\s+)?fn\s+(\w+)", text):
            is_public, owner = (found.group(1) or "").strip() == "pub", ""
            for kind, trait, first, last in impls:
                if first <= found.start() < last:
                    owner, is_public = kind, is_public and not trait
            for trait, first, last in traits:
                if first <= found.start() < last:
                    owner, is_public = trait, True
            at = end_of(text, text.index("(", found.end()), "(", ")")
            # The `;` of a type such as [u8; 16] ends no signature.
            result = re.sub(r"\[[^\[\]]*\]", blank, text[at:])
            start = re.search(r"\b(?:requires|ensures|ghost)\b|[{;]", result)
            clauses = clauses_at(source, text, at + start.start()) if start else []
            functions.append(
                Function(file.relative_to(crate), owner, found.group(2), is_public, clauses)
            )
    return functions


@functools.lru_cache(maxsize=None)
def traits_in(crate):
    """The names of the crate's public traits."""
    return {
        trait
        for file in (crate / "src").rglob("*.rt")
        for trait, _, _ in traits_of(without_comments(file.read_text()))
    }


@functools.lru_cache(maxsize=None)
def impls_with_words(crate):
    """The crate's impls of public traits, its own and those of crates below, whose parts have words: the name, and the parts as clauses."""
    files = sorted(set((crate / "src").rglob("*.rt")) - set(test_files(crate)))
    texts = [
        (file.read_text(), without_tests(without_comments(file.read_text()))) for file in files
    ]
    public = {trait for each in crate.parent.iterdir() for trait in traits_in(each)}
    found = []
    for source, text in texts:
        for owner, trait, first, last in impls_of(text):
            parts = []
            for part in re.finditer(r"^[ \t]*(ghost (\w+)) =", text[first:last], flags=re.M):
                words = words_above(source, first + part.start(1))
                if words:
                    parts.append(Clause("ensures", part.group(2), words))
            if trait in public and parts:
                found.append(Function(None, owner, trait, True, parts))
    return found


CLOSURE = re.compile(
    r"\|[^|\n]*\|[^\n{]*\n(?:[ \t]*(?:requires|ensures)\b.*\n(?:(?![ \t]*(?:requires|ensures|\{)).*\n)*)+"
)


def count_of_clauses(crate):
    """How many lines outside the tests begin a clause of a function, and not of a closure."""
    files = set((crate / "src").rglob("*.rt")) - set(test_files(crate))
    texts = [CLOSURE.sub("", without_tests(without_comments(file.read_text()))) for file in files]
    return sum(len(re.findall(r"^\s*(?:requires|ensures)\b", text, flags=re.M)) for text in texts)


def edits_of(crate):
    return sorted(file.stem for file in (crate / "must-fail").glob("*.edit"))


def defines(text, name):
    """Whether a file of specs/ or src/ defines the name."""
    name = re.escape(name)
    in_specs = rf"^ *(?:(?:abbrev|unfoldable) )?pub (?:(?:record|data) )?{name}\b"
    in_source = rf"\b(?:struct|enum|trait|type|const|static|fn)\s+{name}\b"
    return bool(re.search(in_specs, text, flags=re.M) or re.search(in_source, text))


class Source:
    """What all crates define: functions by name, laws, names of functions in tests too, and all words."""

    def __init__(self, crates):
        self.functions, self.tests, self.words = {}, set(), set()
        for crate in crates:
            for f in functions_of(crate):
                self.functions.setdefault(f.name, []).append(f)
            self.words.update(edits_of(crate))
            for file in list((crate / "src").rglob("*.rt")) + list(
                (crate / "specs").rglob("*.antt")
            ):
                text = file.read_text()
                self.tests.update(re.findall(r"\bfn (\w+)", text))
                code = re.sub(r"^\s*(?://|--).*", "", text, flags=re.M)
                self.words.update(re.findall(r"\w+", code))
                self.words.add(file.stem)
            self.words.add(crate.name)
        clients = [
            file for file in (ROOT / "clients").rglob("*") if file.suffix in (".c", ".h", ".py")
        ]
        for file in [*(ROOT / "scripts").glob("*"), *clients]:
            if file.is_file() and file.name != "pages":
                self.words.update(re.findall(r"\w+", file.read_text()))

    def named(self, name):
        """The functions that a name such as `Db::step` may mean."""
        parts = name.split("::")
        found = self.functions.get(parts[-1], [])
        return [
            f
            for f in found
            if len(parts) == 1 or not parts[-2][:1].isupper() or f.owner == parts[-2]
        ]
