"""How long pages may be, for scripts/pages."""

# How many words a page may have, one of docs/ and one of a crate that is not named, and all pages together. These limits only fall.
WORDS = {
    "CHANGELOG.md": 1150,
    "README.md": 1250,
    "bench/RESULTS.md": 900,
    "clients/python/README.md": 1900,
    "crates/pl_conn/README.md": 1550,
    "crates/pl_core/README.md": 1250,
    "crates/pl_decide/README.md": 950,
    "crates/pl_desk/README.md": 1050,
    "crates/pl_log/README.md": 1500,
    "crates/pl_wire/README.md": 1450,
}
DOCS_WORDS, CRATE_WORDS, ALL_WORDS = 2500, 1150, 62000
# How many rows of a page's tables may have more characters than WIDTH. Tables that are printed are not counted. They only fall too.
WIDTH = 200
WIDE_ROWS = {
    "clients/c/README.md": 1,
    "crates/pl_arena/README.md": 1,
    "crates/pl_conn/README.md": 4,
    "crates/pl_core/README.md": 1,
    "crates/pl_decide/README.md": 1,
    "crates/pl_log/README.md": 2,
    "crates/pl_table/README.md": 1,
    "crates/pl_wire/README.md": 5,
    "crates/rows_connections/README.md": 1,
    "crates/rows_database/README.md": 1,
    "crates/rows_log/README.md": 3,
    "crates/rows_service/README.md": 3,
    "crates/rows_table/README.md": 1,
    "docs/CLIENT.md": 2,
    "docs/GUARANTEES.md": 5,
    "docs/SQLITE.md": 1,
}
# The tables that scripts/pages prints from the source.
PRINTED_TABLES = "Calls", "Laws"


def rows_by_hand(page):
    """The rows of a page's tables, but for those that are printed."""
    heading = ""
    for line in page.splitlines():
        heading = line[3:] if line.startswith("## ") else heading
        if line.startswith("|") and heading not in PRINTED_TABLES:
            yield line


def beyond_limits(pages):
    """Which of the pages, texts by their names, have more words or more wide rows than they may have, and whether all together have."""
    for name, page in pages.items():
        words, wide = len(page.split()), sum(len(row) > WIDTH for row in rows_by_hand(page))
        usual = DOCS_WORDS if name.startswith("docs/") else CRATE_WORDS
        most, most_wide = WORDS.get(name, usual), WIDE_ROWS.get(name, 0)
        if words > most:
            yield name, f"{words} words in place of at most {most}"
        if wide > most_wide:
            yield name, f"{wide} rows with more than {WIDTH} characters in place of at most {most_wide}"
    total = sum(len(page.split()) for page in pages.values())
    if total > ALL_WORDS:
        yield "all pages", f"{total} words in place of at most {ALL_WORDS}"
