"""Writes a man page of pagelogctl, and one of each of its words, into a folder.

Usage: python3 packaging/pages_of_words.py FOLDER
"""

from __future__ import annotations

import inspect
import pathlib
import sys

import click

import pagelog
from pagelog.cli.words import WORDS, pagelogctl

TOOL = "pagelogctl"


def roff(text: str) -> str:
    """The text as roff has it: no backslash, no dash that is broken, and no line that is a request."""
    lines = text.replace("\\", "\\e").replace("-", "\\-").splitlines()
    return "\n".join(f"\\&{line}" if line.startswith((".", "'")) else line for line in lines)


def paragraphs(text: str) -> str:
    """The paragraphs of a help text. One that begins with a line of click's own mark stays as it is."""
    made = []
    for part in inspect.cleandoc(text).split("\n\n"):
        mark, _, rest = part.partition("\n")
        made.append(f".PP\n.nf\n{roff(rest)}\n.fi" if mark == "\b" else f".PP\n{roff(part)}")
    return "\n".join(made)


def definitions(records: list[tuple[str, str]]) -> str:
    return "\n".join(f".TP\n\\fB{roff(name)}\\fR\n{roff(text)}" for name, text in records)


def page_of(context: click.Context, more: str = "") -> str:
    """The page of a command, with more sections before its last one."""
    command, name = context.command, context.command_path.replace(" ", "-")
    text = inspect.cleandoc(command.help or "")
    short = " ".join(text.split("\n\n")[0].split()).partition(". ")[0].rstrip(".")
    records = [
        record
        for option in command.get_params(context)
        if (record := option.get_help_record(context))
    ]
    usage = " ".join([context.command_path, *command.collect_usage_pieces(context)])
    return f""".TH {name.upper()} 1 "" "pagelog {pagelog.__version__}"
.SH NAME
{name} \\- {roff(short[:1].lower() + short[1:])}
.SH SYNOPSIS
\\fB{roff(usage)}\\fR
.SH DESCRIPTION
{paragraphs(text)}
.SH OPTIONS
{definitions(records)}
{more}"""


def main() -> None:
    folder, tool = pathlib.Path(sys.argv[1]), click.Context(pagelogctl, info_name=TOOL)
    records = []
    for word in WORDS:
        command = pagelogctl.get_command(tool, word)
        assert command is not None
        records.append((f"{TOOL}-{word}(1)", command.get_short_help_str(200)))
        page = page_of(click.Context(command, info_name=word, parent=tool))
        (folder / f"{TOOL}-{word}.1").write_text(f"{page}.SH SEE ALSO\n{TOOL}(1)\n")
    (folder / f"{TOOL}.1").write_text(page_of(tool, f".SH WORDS\n{definitions(records)}\n"))


main()
