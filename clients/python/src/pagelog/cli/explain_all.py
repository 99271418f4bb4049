"""The requests that two tables may tell apart: every principal, role and operation, at each bound that a row names."""

from __future__ import annotations

from itertools import product
from typing import Iterator

from pagelog.block import HIGHEST_LSN, HIGHEST_PARTITION, PAGES_OF_PARTITION
from pagelog.cli.explain import (
    TableDifference,
    RequestQuestion,
    Table,
    explain_each,
    is_allowed,
    play,
)
from pagelog.request import ACTS, Role


def all_differences(old: Table, new: Table) -> Iterator[TableDifference]:
    """Those of these requests that one table allows and the other denies.

    The rows of a table name principals, roles, operations, ranges of partitions and LSNs, and so a request between
    two bounds is decided as one at a bound. Raises `ExplainError` where the program says that one of them is not a table.
    """
    for table in (old, new):
        play(table, table.text.decode(), 0, [])
    for principal in sorted({one.get("id", 0) for table in (old, new) for one in table.principals}):
        asked = [RequestQuestion.parse(words) for words in _words(principal, old, new)]
        verdicts = [
            map(is_allowed, play(table, table.text.decode(), principal, asked))
            for table in (old, new)
        ]
        others = [
            question
            for question, before, now in zip(asked, *verdicts, strict=True)
            if before != now
        ]
        decisions = (
            [explain_each(table, principal, others) for table in (old, new)] if others else [[], []]
        )
        yield from (TableDifference(*found) for found in zip(others, *decisions, strict=True))


def _words(principal: int, old: Table, new: Table) -> Iterator[str]:
    """The requests of one principal; a failover comes last, since it begins another epoch."""
    rows = [
        row for table in (old, new) for row in table.rows if row.get("who", principal) == principal
    ]
    ranges = {(row["from"], row["to"]) for row in rows if "from" in row and "to" in row}
    around = {0} | {at for lo, hi in ranges for at in (lo - 1, lo, hi, hi + 1)}
    partitions = sorted(at for at in around if 0 <= at <= HIGHEST_PARTITION)
    ends = sorted(
        {
            at
            for row in rows
            if "through" in row
            for at in (row["through"], row["through"] + 1)
            if 1 <= at <= HIGHEST_LSN
        }
    )
    lsns = ["", *(f" at {lsn}" for lsn in ends)]
    pulls = (
        [f"{at}..{at}" for at in partitions]
        + [f"{lo}..{hi}" for lo, hi in sorted(ranges)]
        + ["0..65535"]
    )
    arguments = {
        "write": product(partitions, lsns),
        "offer": product(partitions, lsns),
        "report": product([""], lsns),
        "get": product([at * PAGES_OF_PARTITION for at in partitions], lsns),
        "pull": product(pulls, lsns),
        "advance": product(partitions, [""]),
    }
    listed = {
        operation: [f" {at}{lsn}".rstrip() if at != "" else lsn for at, lsn in found]
        for operation, found in arguments.items()
    }
    for role in Role:
        for operation in _operations(role):
            yield from (
                f"principal {principal} as {role.word} {operation}{argument}"
                for argument in listed.get(operation, [""])
            )


def _operations(role: Role) -> list[str]:
    """The operations that a role has; any other is denied A5, whatever the table says. The failover is the last of all."""
    return sorted(
        (operation.word for operation, act in ACTS.items() if role in act.roles),
        key=lambda word: word == "failover",
    )
