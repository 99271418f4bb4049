"""Edits of a table's text, of one principal each, which keep its comments where they can: the text that is made says what was wanted, or
the table is written again."""

from __future__ import annotations

import copy
import json
import re
import tomllib
from typing import Any

from pagelog.errors import TableError

SAME = "same"
"""In place of a token: the one that the principal has."""
_HEAD = re.compile(r"^[ \t]*\[\[[ \t]*(principal|row)[ \t]*\]\]", re.MULTILINE)


def document_of(text: str) -> dict[str, Any]:
    """What a text says. Raises `TableError`."""
    try:
        return tomllib.loads(text)
    except (tomllib.TOMLDecodeError, RecursionError) as error:
        raise TableError(f"no TOML document: {error}") from error


def text_of(document: dict[str, Any]) -> str:
    """A text that says this."""
    lines = [
        f"{key} = {json.dumps(value)}"
        for key, value in document.items()
        if key not in ("principal", "row")
    ]
    for kind in ("principal", "row"):
        for table in document.get(kind, []):
            lines += [
                f"[[{kind}]]",
                *(f"{key} = {json.dumps(value)}" for key, value in table.items()),
            ]
    return "\n".join(lines) + "\n"


def with_token(text: str, id: int, token: str) -> str:
    """The table in which a principal has this token. Raises `TableError`."""
    wanted = document_of(text)
    before = principal_of(wanted, id)["token"]
    principal_of(wanted, id)["token"] = token
    for found in re.finditer(re.escape(str(before)), text):
        made = text[: found.start()] + token + text[found.end() :]
        if _says(made, wanted):
            return made
    return text_of(wanted)


def with_beside(text: str, id: int, other: int, token: str) -> str:
    """The table in which `other` may do what `id` may: behind each row of the one comes the same row of the other. Raises `TableError`."""
    wanted = document_of(text)
    at = wanted["principal"].index(principal_of(wanted, id))
    wanted["principal"].insert(at + 1, {"id": other, "token": token})
    wanted["row"] = [
        each
        for row in wanted.get("row", [])
        for each in ([row, {**row, "who": other}] if row.get("who") == id else [row])
    ]
    pieces = []
    for kind, table, piece in _pieces(text):
        pieces.append(piece)
        if kind == "principal" and table.get("id") == id:
            pieces.append(f'{_ended(pieces)}[[principal]]\nid = {other}\ntoken = "{token}"\n')
        elif kind == "row" and table.get("who") == id:
            pieces.append(
                _ended(pieces)
                + re.sub(rf"(?m)^([ \t]*who[ \t]*=[ \t]*){id}\b", rf"\g<1>{other}", piece)
            )
    made = "".join(pieces)
    return made if _says(made, wanted) else text_of(wanted)


def without_principal(text: str, id: int) -> str:
    """The table without a principal, and without its rows. Raises `TableError`."""
    wanted = document_of(text)
    wanted["principal"].remove(principal_of(wanted, id))
    if "row" in wanted:
        wanted["row"] = [row for row in wanted["row"] if row.get("who") != id]
        if not wanted["row"]:
            del wanted["row"]
    gone = {"principal": "id", "row": "who"}
    made = "".join(
        piece for kind, table, piece in _pieces(text) if kind == "" or table.get(gone[kind]) != id
    )
    return made if _says(made, wanted) else text_of(wanted)


def without_tokens(text: str) -> str:
    """The table as it may be shown: each token is `same`. Put in force again, it changes none."""
    for principal in document_of(text).get("principal", []):
        text = with_token(text, principal["id"], SAME)
    return text


def with_tokens_of(text: str, present: str) -> str:
    """The table with the present one's tokens where it says `same`. Raises `TableError` where there is no such principal."""
    for principal in principals_of(document_of(text)):
        if principal.get("token") == SAME:
            text = with_token(
                text, principal["id"], principal_of(document_of(present), principal["id"])["token"]
            )
    return text


def principals_of(document: dict[str, Any]) -> list[dict[str, Any]]:
    """As far as it lists some."""
    found = document.get("principal", [])
    return [each for each in found if isinstance(each, dict)] if isinstance(found, list) else []


def principal_of(document: dict[str, Any], id: int) -> dict[str, Any]:
    """That of this id. Raises `TableError`."""
    found = next(
        (each for each in principals_of(document) if each.get("id") == id and "token" in each), None
    )
    if found is None:
        raise TableError(f"the table lists no principal {id}")
    return found


def unused_id(text: str) -> int:
    """An id above all that the table lists."""
    return 1 + max(int(each["id"]) for each in principals_of(document_of(text)))


def changed_tokens(old: str, new: str) -> list[int]:
    """The principals that both list, with different tokens."""
    before, now = (
        {
            each["id"]: str(each.get("token")).lower()
            for each in principals_of(document_of(text))
            if isinstance(each.get("id"), int)
        }
        for text in (old, new)
    )
    return sorted(id for id in before.keys() & now.keys() if before[id] != now[id])


def _pieces(text: str) -> list[tuple[str, dict[str, Any], str]]:
    """The text in pieces: what comes first, and each principal and row, with what it says."""
    starts = [found.start() for found in _HEAD.finditer(text)]
    kinds = [found[1] for found in _HEAD.finditer(text)]
    left = copy.deepcopy(document_of(text))
    pieces: list[tuple[str, dict[str, Any], str]] = [
        ("", {}, text[: starts[0]] if starts else text)
    ]
    for kind, start, end in zip(kinds, starts, [*starts[1:], len(text)]):
        tables = left.get(kind, [])
        pieces.append((kind, tables.pop(0) if tables else {}, text[start:end]))
    return pieces


def _ended(pieces: list[str]) -> str:
    """What is missing before another line."""
    return "" if pieces[-1].endswith("\n") else "\n"


def _says(text: str, wanted: dict[str, Any]) -> bool:
    try:
        return tomllib.loads(text) == wanted
    except tomllib.TOMLDecodeError:
        return False
