"""Batches as the values of a statement."""

from __future__ import annotations

import zlib
from itertools import accumulate
from typing import Any, Iterable, Mapping, Sequence

from pagelog.referee import statements
from pagelog.referee.rows import Batch, Lines


def array_of(numbers: Iterable[int]) -> str:
    """An array of whole numbers as PostgreSQL reads it."""
    return "{" + ",".join(map(str, numbers)) + "}"


def statement_of(batches: Sequence[Batch]) -> str:
    """The statement that keeps these batches: with lines only where there are some, since trails have tables of their own."""
    return (
        statements.KEEP_WITH_LINES
        if any(batch.lines is not None for batch in batches)
        else statements.KEEP
    )


def values_of_one(batch: Batch) -> dict[str, Any]:
    """Those of one batch, which a statement has with something else."""
    return {
        "id": batch.log,
        "run": batch.run,
        "generation": batch.generation,
        "old": batch.old,
        "new": batch.new,
        "chain": batch.chain,
        **values_of_blocks(batch.blocks),
        **values_of_lines([(batch.log, batch.lines)]),
    }


def values_of(batches: Sequence[Batch]) -> dict[str, Any]:
    """The values of the statement that keeps these batches, column by column."""
    return {
        "logs": array_of(batch.log for batch in batches),
        "runs": [batch.run for batch in batches],
        "generations": array_of(batch.generation for batch in batches),
        "olds": array_of(batch.old for batch in batches),
        "news": array_of(batch.new for batch in batches),
        "chains": b"".join(batch.chain.rjust(16, b"\0") for batch in batches),
        "owners": array_of(batch.log for batch in batches for _ in batch.blocks),
        "lsns": array_of(
            batch.old + at for batch in batches for at in range(1, len(batch.blocks) + 1)
        ),
        **values_of_blocks([block for batch in batches for block in batch.blocks]),
        **values_of_lines([(batch.log, batch.lines) for batch in batches]),
    }


def values_of_blocks(blocks: Sequence[bytes]) -> dict[str, Any]:
    """A row for each block, column by column: numbers in arrays, and bytes one behind the other."""
    lengths = list(map(len, blocks))
    return {
        "crcs": array_of(map(zlib.crc32, blocks)),
        "starts": array_of(accumulate(lengths[:-1], initial=1) if lengths else ()),
        "lengths": array_of(lengths),
        "bytes": b"".join(blocks),
    }


def values_of_lines(found: Sequence[tuple[int, Lines | None]]) -> Mapping[str, Any]:
    """A row for each piece of a log, column by column; nothing where there are no lines at all."""
    lines = [(log, each) for log, each in found if each is not None]
    if not lines:
        return {}
    pieces = [piece.values for _, piece in lines]
    sizes = [len(piece["data"]) for piece in pieces]
    return {
        "line_logs": array_of(log for log, _ in lines),
        **{
            f"line_{name}s": array_of(piece[name] for piece in pieces)
            for name in ("list", "first", "count", "seen")
        },
        "line_days": [piece["day"] for piece in pieces],
        "line_ofs": [each.one.of for _, each in lines],
        "line_starts": array_of(accumulate(sizes[:-1], initial=1) if sizes else ()),
        "line_lengths": array_of(sizes),
        **{
            f"line_{name}": b"".join(piece[name] for piece in pieces)
            for name in ("before", "digest", "data")
        },
    }
