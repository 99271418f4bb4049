"""The table of a page server's run: who may read, with tokens of that run, as lines for its program."""

from __future__ import annotations

import tomllib
from typing import Any, Iterator

from pagelog.keeper.table import Form, table_of_run
from pagelog.request import Operation, Role


def table_of_pages(text: str, secret: bytes, name: str, run: str) -> str:
    """The text of the table of a page server: that of a database, with the tokens of this run, and rows numbered as in its services."""
    return table_of_run(text, secret, name, run, Form.OPEN)


def lines_of(text: str) -> Iterator[str]:
    """The command that sets it."""
    table = tomllib.loads(text)
    principals, rows = table.get("principal", []), table.get("row", [])
    yield f"table {len(principals)} {len(rows)}\n"
    for principal in principals:
        yield f"principal {principal['id']} {principal['token'].lower()}\n"
    for row in rows:
        yield _line_of(row)


def _line_of(row: dict[str, Any]) -> str:
    ops = sum(
        1 << Operation[word.upper()]
        for word in set(row.get("op", [each.word for each in Operation]))
    )
    role = Role[row["role"].upper()].value if "role" in row else -1
    return (
        f"row {int(row['verdict'] == 'allow')} {row.get('who', -1)} {role} {ops:x} {row.get('from', -1)} {row.get('to', -1)} "
        f"{row.get('through', -1)}\n"
    )
