"""The table and the tokens of one run of a service.

A run has tokens of its own, made from those of the database's table, so that who knows the address of an earlier run is
denied at the one that has the address now. The keeper's own principal comes first and may do everything.
"""

from __future__ import annotations

import json
import tomllib
from enum import Enum
from typing import Any

from pagelog.credentials import Credentials
from pagelog.errors import TableError
from pagelog.request import COPIES_OF_QUORUM, QUORUM
from pagelog.run_tokens import KEEPER, token_of

_MOST_PRINCIPALS = 64 - 1
_MOST_ROWS = 256 - 4


class Form(Enum):
    """Whether a run serves all, or lets nobody but its keeper write: a standby, or one that is about to end."""

    OPEN = "open"
    READING = "reading"


def tokens_of(text: str) -> dict[int, bytes]:
    """The tokens of a table, by their principals. Raises `TableError`."""
    return {int(each["id"]): bytes.fromhex(each["token"]) for each in read_table(text)["principal"]}


def keeper_of(secret: bytes, name: str, run: str) -> Credentials:
    """The keeper's credentials in this run."""
    return Credentials(KEEPER, token_of(secret, name, run))


def read_table(text: str) -> dict[str, Any]:
    """The table of a database. Raises `TableError`, as far as it can be known before a service reads it."""
    try:
        table = tomllib.loads(text)
    except (tomllib.TOMLDecodeError, RecursionError) as error:
        raise TableError(f"no TOML document: {error}") from error
    principals, rows = table.get("principal", []), table.get("row", [])
    if set(table) - {"principal", "row", "copies", "quorum"}:
        raise TableError("a table has principals, rows, copies and quorum, and no other key")
    if not all(type(table.get(key, 0)) is int for key in ("copies", "quorum")):
        raise TableError("copies and quorum are whole numbers")
    if not isinstance(principals, list) or not 1 <= len(principals) <= _MOST_PRINCIPALS:
        raise TableError(f"a named database has 1 to {_MOST_PRINCIPALS} principals")
    if not isinstance(rows, list) or len(rows) > _MOST_ROWS:
        raise TableError(f"a named database has at most {_MOST_ROWS} rows")
    for principal in principals:
        if not isinstance(principal, dict) or set(principal) != {"id", "token"}:
            raise TableError("a principal has an id and a token")
        if Credentials.of(principal["id"], principal["token"]).id == KEEPER:
            raise TableError(f"principal {KEEPER} is the keepers'")
    for row in rows:
        if not isinstance(row, dict) or not all(map(_may_be_in_a_row, row.values())):
            raise TableError("a row has words, whole numbers, yes or no, and lists of them")
    return table


def _may_be_in_a_row(value: object) -> bool:
    """Whether a table that is written again has it as it was: TOML has times and infinite numbers too."""
    if isinstance(value, list):
        return all(isinstance(each, (str, int)) for each in value)
    return isinstance(value, (str, int))


def quorum_of(text: str) -> int:
    """How many copies harden a block: 2 or 4."""
    quorum = read_table(text).get("quorum", QUORUM)
    if quorum not in COPIES_OF_QUORUM:
        raise TableError("the quorum is 2 or 4")
    return int(quorum)


def table_of_run(text: str, secret: bytes, name: str, run: str, form: Form) -> str:
    """The text of the table that the service of this run gets."""
    table = read_table(text)
    principals = [{"id": KEEPER, "token": token_of(secret, name, run).hex()}]
    for each in table["principal"]:
        principals.append(
            {"id": each["id"], "token": token_of(bytes.fromhex(each["token"]), name, run).hex()}
        )
    rows: list[dict[str, Any]] = [{"verdict": "allow", "who": KEEPER}]
    if form is Form.OPEN:
        rows.append({"verdict": "deny", "op": ["set_table"]})
    else:
        rows += [
            {"verdict": "deny", "role": role} for role in ("primary", "page_server", "operator")
        ]
    rows += table.get("row", [])
    counts = [f"{key} = {table[key]}" for key in ("copies", "quorum") if key in table]
    return "\n".join([*counts, *_tables("principal", principals), *_tables("row", rows)]) + "\n"


def _tables(key: str, tables: list[dict[str, Any]]) -> list[str]:
    """An array of tables in TOML. Words and numbers are written as in JSON."""
    return [
        line
        for table in tables
        for line in (
            f"[[{key}]]",
            *(f"{name} = {json.dumps(value)}" for name, value in table.items()),
        )
    ]
