"""list."""

from __future__ import annotations

import json
import sys
from typing import Any, Iterable, Sequence

import click

from pagelog.cli.history_words import columns_of
from pagelog.cli.keeper_words import facts_of, referee_word
from pagelog.keeper.aside import asides_of
from pagelog.pages.stores import sentence
from pagelog.referee.referee import Referee
from pagelog.referee.rows import told

_USUAL = ("name", "state", "generation", "holder", "position", "lag", "why")
_WIDE = (
    "name",
    "state",
    "generation",
    "holder",
    "position",
    "lag",
    "place",
    "oldest",
    "base",
    "stored",
    "standbys",
    "pages",
    "entries left",
    "memory left",
    "why",
)
_NUMBERS = ("generation", "position", "lag")


@click.command("list")
@click.option("--json", "as_json", is_flag=True, help="One line of JSON for each database.")
@click.option(
    "--wide",
    is_flag=True,
    help="More columns, none of them cut: place, oldest position that is kept and newest base, up to where "
    "it is in the store, standbys, page servers, entries and MiB of memory left.",
)
@referee_word
def list_word(referee: Referee, as_json: bool, wide: bool) -> None:
    """List the named databases: state, generation, holder, archived position, how many blocks are not archived yet, and what was
    decided, and why: by its holder, or by all where nobody has it; a switchover that was asked for; whether PostgreSQL has a
    synchronous standby; services and stores of page servers that were quarantined, and page servers that are gone.

    \b
    Example:
      pagelogctl list --credentials keeper.toml
    """
    look, columns = referee.everything(), columns_of(referee)
    found: list[dict[str, Any]] = [
        {**facts_of(look, row), **columns[row.id]} for row in look.rows if not row.dropped
    ]
    asides = asides_of(look)
    if as_json:
        unknown = {each["name"] for each in asides} - {facts["name"] for facts in found}
        for facts in (*found, *({"name": name} for name in sorted(unknown))):
            click.echo(
                json.dumps(
                    {
                        **facts,
                        "set_aside": [each for each in asides if each["name"] == facts["name"]],
                    }
                )
            )
        return
    words = _WIDE if wide else _USUAL
    rows = [[cells[word] for word in words] for cells in map(_cells, found)]
    if sys.stdout.isatty() and not wide:
        _print_table(words, rows)
    else:
        for line in aligned([words, *rows]):
            click.echo(line)
    click.echo(look.synchronous.meaning)
    for each in asides:
        how = "quarantined" if each.get("kept", True) else "PostgreSQL went back"
        click.echo(
            f"{how}: run {each['run']} of {each['name']} at {each['address']}, process {each['pid']} of keeper {each['keeper']}: "
            f"`pagelogctl rescue {each['name']}` says what it has"
        )
    for facts in found:
        for each in facts["page_servers"]:
            for aside in each["set_aside"]:
                click.echo(f"quarantined: {sentence(facts['name'], each['machine'], aside)}")
            if each["gone"]:
                click.echo(
                    f"gone: page server {each['run']} of {facts['name']} at {each['machine']}, not heard for {each['silent']:.0f} s: if for good, "
                    f"`pagelogctl forget {each['run']}`"
                )


def _cells(facts: dict[str, Any]) -> dict[str, str]:
    """What is shown of a database, by column: none is empty, and none has a line's end or two spaces."""
    standbys = ", ".join(
        f"{keeper} at {reached}" for keeper, reached in sorted(facts["standbys"].items())
    )
    pages = ", ".join(
        f"{each['machine']} {_state_of_pages(each)}" for each in facts["page_servers"]
    )
    values = {
        **facts,
        "pages": pages,
        "state": _state_of(facts),
        "position": facts["archived"],
        "standbys": standbys,
        "entries left": facts["entries_left"],
        "memory left": facts["memory_left"],
        "why": told(facts["holder"], facts["why"]),
    }
    return {
        word: "-" if values[word] in (None, "") else " ".join(str(values[word]).split())
        for word in _WIDE
    }


def _state_of(facts: dict[str, Any]) -> str:
    """As `serving, paused`."""
    said = {
        "paused": facts["paused"],
        f"switchover to {whom(facts['wanted'])}": facts["wanted"],
        "rolls over": facts["succeed"],
        "read-only": facts["read_only"],
        "held": facts["held"],
    }
    state = "nobody" if facts["holder"] is None else facts["state"] or "-"
    return ", ".join((state, *(word for word, holds in said.items() if holds)))


def _state_of_pages(found: dict[str, Any]) -> str:
    return "gone" if found["gone"] else f"at {found['position']}" if found["address"] else "ended"


def whom(keeper: str | None) -> str:
    """To whom a switchover goes."""
    return "another keeper" if keeper == "*" else str(keeper)


def aligned(rows: Sequence[Sequence[str]]) -> Iterable[str]:
    """Lines of columns, with two spaces between them at least. Nothing is cut."""
    widths = [max(map(len, column)) for column in zip(*rows)]
    for row in rows:
        yield "  ".join(cell.ljust(width) for cell, width in zip(row, widths)).rstrip()


def _print_table(words: Sequence[str], rows: Iterable[Sequence[str]]) -> None:
    """For a terminal: texts are folded within their columns, and numbers are not."""
    from rich.console import Console
    from rich.table import Table
    from rich.text import Text

    table = Table(box=None, pad_edge=False, padding=(0, 2, 0, 0))
    for word in words:
        table.add_column(word, overflow="fold", no_wrap=word in _NUMBERS)
    for row in rows:
        table.add_row(*map(Text, row))
    Console().print(table)
