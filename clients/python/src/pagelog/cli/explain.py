"""Which row of a table decides a request, asked of the program itself: `pagelog play` with that table."""

from __future__ import annotations

import os
import re
import shutil
import subprocess
import tempfile
import tomllib
from dataclasses import dataclass
from pathlib import Path
from typing import Any, Sequence

from pagelog.block import PAGES_OF_PARTITION, Block, Zero
from pagelog.errors import Fault, PagelogError
from pagelog.reply import Denied, Reply, decode_reply
from pagelog.request import (
    ACTS,
    WITHOUT_ARGUMENTS,
    Act,
    Advance,
    Audit,
    Failover,
    Get,
    Head,
    Offer,
    Pull,
    Report,
    Request,
    Role,
    SetTable,
    Write,
)
from pagelog.rules import Section, TableFault, rule_of

PROGRAM_VARIABLE = "PAGELOG"
"""The variable of the environment that names the program."""
UNKNOWN_TOKEN = bytes(16)
_WITH_LSN = ("write", "offer", "report", "get", "pull")
_ZONE_KEYS = ("copies", "quorum")
_ROLES = {operation.word: act.roles[0] for operation, act in ACTS.items()}
_WITHOUT_ARGUMENTS = {operation.word: act for operation, act in WITHOUT_ARGUMENTS.items()}


class ExplainError(PagelogError):
    """A request that cannot be read, a file that is not a table, or no program to ask."""


@dataclass(frozen=True)
class RequestQuestion:
    """A request in words: `principal 3 pull 0..3`, or `principal 2 as secondary get 70000 at 500`, which is its LSN."""

    words: str
    principal: int
    role: Role
    operation: str
    argument: str
    lsn: int | None = None

    @classmethod
    def parse(cls, words: str) -> RequestQuestion:
        """From words. Raises `ExplainError`."""
        found = re.fullmatch(
            r"principal (\d{1,20})(?: as (\w+))? (\w+)(?: ([\d.,]{1,4000}))?(?: at (\d{1,20}))?",
            " ".join(words.split()),
        )
        if found is None or found[3] not in _ROLES:
            raise ExplainError(
                f"{words!r} is not of the form: principal N [as ROLE] OPERATION [ARGUMENT] [at LSN]"
            )
        if found[5] and found[3] not in _WITH_LSN:
            raise ExplainError(f"{words!r}: {found[3]} has no LSN")
        role = found[2] or _ROLES[found[3]].word
        if role.upper() not in Role.__members__:
            raise ExplainError(f"{role!r} is not primary, secondary, page_server or operator")
        return cls(
            words,
            int(found[1]),
            Role[role.upper()],
            found[3],
            found[4] or "",
            int(found[5]) if found[5] else None,
        )

    def act(self, text: bytes) -> Act:
        """What is asked for; a set_table sets this text. Raises `ExplainError`."""
        try:
            act = self._act(text)
            act.arguments()
            return act
        except (ValueError, Fault) as error:
            raise ExplainError(f"{self.words!r}: {error}") from error

    def _act(self, text: bytes) -> Act:
        number = int(self.argument) if self.argument.isdecimal() else None
        lo, hi = _range(self.argument or "0..65535")
        first, least = (1, 0) if self.lsn is None else (self.lsn, self.lsn)
        records = [Zero(at * PAGES_OF_PARTITION) for at in _partitions(self.argument)]
        block = Block.of(first if self.operation in ("write", "offer") else 1, records)
        acts: dict[str, Act] = {
            "write": Write(0, block),
            "offer": Offer(block),
            "report": Report(least),
            "get": Get(number or 0, least),
            "pull": Pull(first, 1, lo, hi),
            "advance": Advance(number or 0, 1),
            "failover": Failover(self.principal if number is None else number),
            "set_table": SetTable(text),
            "audit": Audit(1),
            **_WITHOUT_ARGUMENTS,
        }
        return acts[self.operation]


def _range(text: str) -> tuple[int, int]:
    first, _, last = text.partition("..")
    if "," in text or not first.isdecimal():
        return 0, 0
    return int(first), int(last or first)


def _partitions(text: str) -> list[int]:
    """Of `0..3`, `1,4` or nothing."""
    if "," in text:
        return sorted({int(part) for part in text.split(",")})
    if not text or int(text.partition("..")[0]) > 65535:
        return []
    lo, hi = _range(text)
    return list(range(lo, min(hi, lo + 4000) + 1))


@dataclass(frozen=True)
class Ruling:
    """How a request is decided: by a rule, or by the row of the table that allows it."""

    is_allowed: bool
    place: str
    text: str

    def __str__(self) -> str:
        return f"{'allowed' if self.is_allowed else 'denied'} by {self.text}"


class Table:
    """A table's file. Raises `ExplainError` where it cannot be read."""

    def __init__(self, file: Path) -> None:
        try:
            self.text = file.read_bytes()
            document = tomllib.loads(self.text.decode())
        except (OSError, UnicodeDecodeError, tomllib.TOMLDecodeError) as error:
            raise ExplainError(f"{file.name}: {error}") from error
        self.name = file.name
        self.principals = _tables(document.get("principal"))
        self.rows = _tables(document.get("row"))
        self.zone = {key: document[key] for key in _ZONE_KEYS if isinstance(document.get(key), int)}

    def token(self, principal: int) -> bytes:
        """The token of a principal; another's where it is not listed, which the program then denies."""
        found = next(
            (one.get("token") for one in self.principals if one.get("id") == principal), None
        )
        try:
            return (
                bytes.fromhex(found)
                if isinstance(found, str) and len(found) == 32
                else UNKNOWN_TOKEN
            )
        except ValueError:
            return UNKNOWN_TOKEN

    def lists(self, principal: int) -> bool:
        """Whether the principal is listed."""
        return any(one.get("id") == principal for one in self.principals)

    def beginning(self, rows: int, without: int) -> str:
        """The text of the first rows, and after them a row by which another principal than this may set the table."""
        other = next((one["id"] for one in self.principals if one["id"] != without), None)
        principals = list(self.principals)
        if other is None:
            other = (without + 1) % (1 << 32)
            principals.append({"id": other, "token": "00" * 16})
        last = {"verdict": "allow", "who": other, "role": "operator", "op": ["set_table"]}
        parts = [_toml("principal", one) for one in principals] + [
            _toml("row", row) for row in (*self.rows[:rows], last)
        ]
        return "\n".join([_fields(self.zone), *parts])

    def row(self, number: int) -> str:
        """A row in words, from 1."""
        return " ".join(f"{key} {_words(value)}" for key, value in self.rows[number - 1].items())


def _tables(found: Any) -> list[dict[str, Any]]:
    """An array of tables, as far as it is one: the program says what is wrong with it."""
    return [one for one in found if isinstance(one, dict)] if isinstance(found, list) else []


def _toml(name: str, fields: dict[str, Any]) -> str:
    return f"[[{name}]]\n" + _fields(fields)


def _fields(fields: dict[str, Any]) -> str:
    def value(found: Any) -> str:
        if isinstance(found, list):
            return "[" + ", ".join(map(value, found)) + "]"
        return str(found) if isinstance(found, int) else f'"{found}"'

    return "".join(f"{key} = {value(found)}\n" for key, found in fields.items())


def _words(value: Any) -> str:
    return ",".join(map(str, value)) if isinstance(value, list) else str(value)


def program() -> str:
    """The program to ask: of the environment, of the path, or the one that this checkout built. Raises `ExplainError`."""
    found = os.environ.get(PROGRAM_VARIABLE) or shutil.which("pagelog") or _built()
    if found is None:
        raise ExplainError(
            f"there is no program pagelog on the path; name one in {PROGRAM_VARIABLE}"
        )
    return found


def _built() -> str | None:
    """What this checkout built, where the package is in one."""
    above = Path(__file__).resolve().parents
    built = above[min(5, len(above) - 1)] / "crates" / "pagelog" / "out" / "pagelog"
    return str(built) if built.exists() else None


def explain(table: Table, question: RequestQuestion) -> Ruling:
    """How the table decides the request in the first epoch of an empty database, whose primary is the one who asks."""
    [decision] = explain_each(table, question.principal, [question])
    return decision


def explain_each(
    table: Table, principal: int, questions: Sequence[RequestQuestion]
) -> list[Ruling]:
    """As `explain`, of requests of one principal: all of them at once, of which only the last may be a failover."""
    replies = play(table, table.text.decode(), principal, questions)
    # For each that is allowed: with the first rows up to `low` it is not, with those up to `high` it is.
    open_ones = {at: (0, len(table.rows)) for at, reply in enumerate(replies) if is_allowed(reply)}
    while True:
        middles = {at: (low + high) // 2 for at, (low, high) in open_ones.items() if high - low > 1}
        if not middles:
            break
        for middle in set(middles.values()):
            group = [at for at, found in middles.items() if found == middle]
            asked = [questions[at] for at in group]
            for at, reply in zip(
                group,
                play(table, table.beginning(middle, principal), principal, asked),
                strict=True,
            ):
                low, high = open_ones[at]
                open_ones[at] = (low, middle) if is_allowed(reply) else (middle, high)
    rows = {at: high for at, (_, high) in open_ones.items()}
    return [
        _allowed(table, rows[at], reply) if at in rows else _denied(table, reply)
        for at, reply in enumerate(replies)
    ]


def is_allowed(reply: Reply) -> bool:
    """By sections A and B. What the log says after that is not a matter of the table."""
    return not isinstance(reply, Denied) or reply.section is Section.C


def _allowed(table: Table, row: int, reply: Reply) -> Ruling:
    return Ruling(
        True, f"row {row}", f"row {row} of the table: {table.row(row)}{_log_words(reply)}"
    )


def _denied(table: Table, reply: Reply) -> Ruling:
    assert isinstance(reply, Denied)
    rule = rule_of(reply.section, reply.row)
    place = f"{reply.section.name}{reply.row}"
    if reply.section is Section.B and reply.row:
        return Ruling(
            False,
            place,
            f"{place} {rule.rule}, row {reply.row} of the table: {table.row(reply.row)}",
        )
    return Ruling(False, place, f"{place} {rule.rule}: {rule.sentence}")


def _log_words(reply: Reply) -> str:
    if not isinstance(reply, Denied):
        return ""
    rule = rule_of(reply.section, reply.row)
    return (
        f" (then the log decides: here C{reply.row} {rule.rule}, as it is empty)"
        if reply.row == 1
        else f" (then C{reply.row} {rule.rule})"
    )


def play(
    table: Table, text: str, principal: int, questions: Sequence[RequestQuestion]
) -> list[Reply]:
    """The program's replies to requests of one principal, one after the other on one database, under this text."""
    primary = (
        principal
        if table.lists(principal)
        else next((one.get("id", 0) for one in table.principals), 0)
    )
    token = table.token(principal)
    bodies = (
        Request(Head(principal, token, one.role, 0, 1), one.act(text.encode())).encode()
        for one in questions
    )
    with tempfile.NamedTemporaryFile("w", suffix=".toml") as file:
        file.write(text)
        file.flush()
        command = [program(), "play", "--table", file.name, "--primary", str(primary)]
        done = subprocess.run(
            command,
            input="".join(f"{body.hex()}\n" for body in bodies),
            capture_output=True,
            text=True,
        )
    if done.returncode != 0:
        _, _, fault = done.stderr.strip().rpartition("\n")
        raise ExplainError(f"{table.name}: {_fault_words(fault)}")
    return [decode_reply(bytes.fromhex(line)) for line in done.stdout.split()]


def _fault_words(line: str) -> str:
    code = re.fullmatch(r"fault: table (\d+)", line)
    if code is None:
        return line
    return f"it is no table: fault {code[1]}, {TableFault(int(code[1])).name.lower().replace('_', ' ')}"


@dataclass(frozen=True)
class TableDifference:
    """A request that two tables decide otherwise."""

    question: RequestQuestion
    old: Ruling
    new: Ruling


def questions_of(file: Path) -> list[RequestQuestion]:
    """The requests of a file, a line each; empty lines and those that begin with # are left out."""
    try:
        lines = file.read_text().splitlines()
    except OSError as error:
        raise ExplainError(f"{file.name}: {error.strerror}") from error
    return [
        RequestQuestion.parse(line)
        for line in lines
        if line.strip() and not line.lstrip().startswith("#")
    ]


def differences(old: Table, new: Table, questions: list[RequestQuestion]) -> list[TableDifference]:
    """Those of the requests that one table allows and the other denies."""
    found = (
        TableDifference(question, explain(old, question), explain(new, question))
        for question in questions
    )
    return [
        difference for difference in found if difference.old.is_allowed != difference.new.is_allowed
    ]
