"""Tables that are made from another one: for a database that waits for its restore, and for one that is fenced."""

from __future__ import annotations

import json
import tomllib
from pathlib import Path
from typing import Any, Iterable, Mapping

from pagelog.errors import TableError
from pagelog.request import TEXT_SIZE, Operation, Role

MOST_ROWS = 256
"""The most rows of a table."""
_WRITES = [Operation.WRITE.word, Operation.OFFER.word, Operation.REPORT.word]


class TableText:
    """The text of a table, and what it says. It is read, not judged: the service does that when it is set."""

    def __init__(self, text: str) -> None:
        """Raises `TableError` where it is no TOML document with principals and rows."""
        try:
            self.document: dict[str, Any] = tomllib.loads(text)
        except (ValueError, RecursionError) as error:
            raise TableError(f"the table is no TOML document: {error}") from error
        self.text = text
        self.principals = self._listed("principal")
        self.rows = self._listed("row")
        if not self.principals:
            raise TableError("the table has no principal")

    def _listed(self, key: str) -> list[dict[str, Any]]:
        found = self.document.get(key, [])
        if not isinstance(found, list) or not all(isinstance(one, dict) for one in found):
            raise TableError(f"{key} of the table is no list of tables")
        return found

    @classmethod
    def read(cls, file: str | Path) -> TableText:
        """The table of a file. Raises `TableError`."""
        try:
            return cls(Path(file).read_text("utf-8"))
        except (OSError, UnicodeDecodeError) as error:
            raise TableError(f"{file}: {error}") from error
        except TableError as error:
            raise TableError(f"{file}: {error}") from error

    def without_writes(self) -> str:
        """The table with a first row by which nobody writes, whoever begins an epoch. All else is as it was."""
        return self._made(self.principals, [{"verdict": "deny", "op": _WRITES}, *self.rows])

    def only_for(self, operator: int, secondary: int) -> str:
        """The table for these two alone. All others are denied `UnknownPrincipal`, which makes no entry of the audit list."""
        kept = [one for one in self.principals if one.get("id") in (operator, secondary)]
        if {one["id"] for one in kept} != {operator, secondary}:
            raise TableError(
                f"the table does not list principal {operator} and principal {secondary}"
            )
        return self._made(
            kept, [_allow(operator, Role.OPERATOR), _allow(secondary, Role.SECONDARY)]
        )

    def waiting(self, ids: Mapping[Role, int], tokens: Mapping[int, str]) -> str:
        """The table of a database that waits: each role for one principal, with a token that nobody else has.

        Whoever comes with a token of the real table is denied `UnknownPrincipal`.
        """
        principals = [{"id": id, "token": tokens[id]} for id in sorted(set(ids.values()))]
        return self._made(principals, [_allow(id, role) for role, id in ids.items()])

    def _made(
        self, principals: Iterable[Mapping[str, Any]], rows: Iterable[Mapping[str, Any]]
    ) -> str:
        """The text of such a table, with this one's `copies` and `quorum`."""
        listed = list(rows)
        if len(listed) > MOST_ROWS:
            raise TableError(
                f"the table has {MOST_ROWS} rows, and one more is needed: leave one out"
            )
        lines = [
            f"{key} = {self.document[key]}" for key in ("copies", "quorum") if key in self.document
        ]
        for kind, tables in (("principal", principals), ("row", listed)):
            for table in tables:
                lines += [
                    f"[[{kind}]]",
                    *(f"{key} = {json.dumps(value)}" for key, value in table.items()),
                ]
        text = "\n".join(lines) + "\n"
        if len(text.encode()) > TEXT_SIZE:
            raise TableError(
                f"the table that is made has {len(text.encode())} bytes, above {TEXT_SIZE}"
            )
        return text


def _allow(who: int, role: Role) -> dict[str, Any]:
    return {"verdict": "allow", "who": who, "role": role.word}
