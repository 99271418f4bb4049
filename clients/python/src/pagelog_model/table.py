"""Reads the text of any table."""

from __future__ import annotations

import string
import tomllib
from typing import Any, Iterable, Mapping, Optional

from pagelog_model import wire
from pagelog_model.rules import SIX, THREE, Row, Zone, matches, numbered
from pagelog_model.wire import LAST_LSN, OPS, ROLES

LAST_ID, LAST_PARTITION = 2**32 - 1, 2**16 - 1
PRINCIPALS, ROWS = 64, 256
ROLE_NUMBERS = {word: at for at, word in ROLES.items()}
OP_NUMBERS = {word: at for at, word in OPS.items()}


class Read:
    """A table that was read: the tokens of its principals, its rows as the model has them, and its zone."""

    def __init__(self, tokens: dict[int, bytes], rows: list[Row], zone: Optional[Zone]) -> None:
        self.tokens, self.rows, self.zone = tokens, rows, zone


def read(text: bytes) -> Read | int:
    """The table of a text, or the code of the first of its faults."""
    try:
        document = tomllib.loads(text.decode())
    except (UnicodeDecodeError, tomllib.TOMLDecodeError):
        return 1
    if not has_small_integers(document):
        return 1
    principals, rows = document.get("principal", []), document.get("row", [])
    known = {"principal", "row", "copies", "quorum"}
    if not set(document) <= known or not is_tables(principals) or not is_tables(rows):
        return 2
    if not 1 <= len(principals) <= PRINCIPALS:
        return 3
    if len(rows) > ROWS:
        return 4
    fault = fault_of_principals(principals) or fault_of_rows(
        rows, [one.get("id") for one in principals]
    )
    if fault:
        return fault
    table = Read(
        {one["id"]: bytes.fromhex(one["token"]) for one in principals},
        [row_of(row) for row in rows],
        zone_of(document),
    )
    if not any(may_set(table, who) for who in table.tokens):
        return 12
    return table if table.zone else 13


def has_small_integers(value: Any) -> bool:
    """Whether all integers have 64 bits: others are none of a TOML document."""
    if isinstance(value, (dict, list)):
        return all(map(has_small_integers, value.values() if isinstance(value, dict) else value))
    return not isinstance(value, int) or -(2**63) <= value < 2**63


def is_tables(value: Any) -> bool:
    return isinstance(value, list) and all(isinstance(one, dict) for one in value)


def is_integer(value: Any, last: int) -> bool:
    return type(value) is int and 0 <= value <= last


def zone_of(document: Mapping[str, Any]) -> Optional[Zone]:
    """The zone of the two keys: three copies without them, and none where they are not a pair that there is."""
    if "copies" not in document and "quorum" not in document:
        return THREE
    said = [document.get("copies"), document.get("quorum")]
    return next(
        (
            zone
            for zone in (THREE, SIX)
            if list(zone) == said and all(type(one) is int for one in said)
        ),
        None,
    )


def fault_of_principals(principals: list[Any]) -> int:
    if any(set(one) != {"id", "token"} for one in principals):
        return 5
    if not all(is_integer(one["id"], LAST_ID) for one in principals):
        return 6
    if not all(is_token(one["token"]) for one in principals):
        return 7
    return 8 if len({one["id"] for one in principals}) < len(principals) else 0


def is_token(token: Any) -> bool:
    return isinstance(token, str) and len(token) == 32 and set(token) <= set(string.hexdigits)


def fault_of_rows(rows: list[Any], ids: list[Any]) -> int:
    if not all(
        "verdict" in row
        and set(row) <= {"verdict", "who", "role", "op", "from", "to", "through"}
        and ("from" in row) == ("to" in row)
        for row in rows
    ):
        return 9
    if not all(map(has_words, rows)):
        return 10
    return 0 if all(has_numbers(row, ids) for row in rows) else 11


def has_words(row: Row) -> bool:
    ops = row.get("op", ["write"])
    return (
        row["verdict"] in ("allow", "deny")
        and is_word(row.get("role", "primary"), ROLE_NUMBERS)
        and isinstance(ops, list)
        and bool(ops)
        and all(is_word(op, OP_NUMBERS) for op in ops)
    )


def is_word(value: Any, words: Iterable[str]) -> bool:
    return isinstance(value, str) and value in words


def has_numbers(row: Row, ids: list[Any]) -> bool:
    if "who" in row and not (type(row["who"]) is int and row["who"] in ids):
        return False
    if not is_integer(row.get("through", 0), LAST_LSN):
        return False
    ends = [row.get("from", 0), row.get("to", 0)]
    return all(is_integer(end, LAST_PARTITION) for end in ends) and ends[0] <= ends[1]


def row_of(row: Row) -> Row:
    found: dict[str, Any] = {"verdict": row["verdict"]}
    if "who" in row:
        found["who"] = row["who"]
    if "role" in row:
        found["role"] = ROLE_NUMBERS[row["role"]]
    if "op" in row:
        found["op"] = [OP_NUMBERS[op] for op in row["op"]]
    if "from" in row:
        found.update(lo=row["from"], hi=row["to"])
    if "through" in row:
        found["through"] = row["through"]
    return found


def may_set(table: Read, who: int) -> bool:
    q = {"who": who, "role": wire.OPERATOR, "op": wire.SET_TABLE}
    return next(matches(numbered(table.rows, q), q))[1]
