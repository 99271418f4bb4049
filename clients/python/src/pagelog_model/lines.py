"""Lines of the audit list: their 53 bytes, and the requests that they stand for."""

from __future__ import annotations

import struct
from typing import Iterator, NamedTuple, Optional

from pagelog_model import wire
from pagelog_model.bodies import Request, UnknownBlock

_LINE = struct.Struct(">QQIBIBQQBHQ")
LINE_BYTES = _LINE.size


class ModelLine(NamedTuple):
    """A line, field by field."""

    number: int
    under: int
    who: int
    role: int
    epoch: int
    op: int
    a: int
    b: int
    section: int
    row: int
    value: int

    @property
    def verdict(self) -> tuple[int, int, int]:
        """Section, row and value: three zeros where it was allowed."""
        return self.section, self.row, self.value

    @property
    def spelled(self) -> bytes:
        """Its 53 bytes."""
        return _LINE.pack(*self)


def read_lines(data: bytes) -> Iterator[ModelLine]:
    """The lines that these bytes are. Raises `struct.error` where they are no whole lines."""
    return map(ModelLine._make, _LINE.iter_unpack(data))


def request_of(line: ModelLine) -> Optional[Request]:
    """The request of a line, as far as the line has it, or None where no request has such a line.

    A line has neither the block of a write or an offer nor the text of a table: of the block the LSN is known, and the text is
    None. It has no token either.
    """
    if line.op not in wire.OPS or line.role not in wire.ROLES:
        return None
    rest = _READERS.get(line.op, _nothing)(line.a, line.b)
    return (
        None
        if rest is None
        else {"who": line.who, "role": line.role, "epoch": line.epoch, "op": line.op, **rest}
    )


def _write(a: int, b: int) -> Optional[Request]:
    return {"block": UnknownBlock(a), "copy": b} if 1 <= a <= wire.LAST_LSN and b <= 255 else None


def _offer(a: int, b: int) -> Optional[Request]:
    return {"block": UnknownBlock(a)} if 1 <= a <= wire.LAST_LSN and b == 0 else None


def _report(a: int, b: int) -> Optional[Request]:
    return {"lsn": a} if a <= wire.LAST_LSN and b == 0 else None


def _get(a: int, b: int) -> Optional[Request]:
    return {"lsn": a, "page": b} if a <= wire.LAST_LSN and b < 2**32 else None


def _pull(a: int, b: int) -> Optional[Request]:
    lo, hi = divmod(b, 65536)
    return {"lsn": a, "lo": lo, "hi": hi} if 1 <= a <= wire.LAST_LSN and lo <= hi else None


def _advance(a: int, b: int) -> Optional[Request]:
    return {"partition": a, "steps": b} if a < 65536 and 1 <= b <= wire.MOST_STEPS else None


def _failover(a: int, b: int) -> Optional[Request]:
    return {"primary": a} if a < 2**32 and b == 0 else None


def _set_table(a: int, b: int) -> Optional[Request]:
    return {"text": None} if a <= wire.LONGEST_TEXT and b == 0 else None


def _audit(a: int, b: int) -> Optional[Request]:
    return {"first": a, "most": b} if 1 <= a and 1 <= b <= wire.MOST_LINES else None


def _nothing(a: int, b: int) -> Optional[Request]:
    return {} if a == b == 0 else None


# The other operations have no arguments.
_READERS = {
    wire.WRITE: _write,
    wire.OFFER: _offer,
    wire.REPORT: _report,
    wire.GET: _get,
    wire.PULL: _pull,
    wire.ADVANCE: _advance,
    wire.FAILOVER: _failover,
    wire.SET_TABLE: _set_table,
    wire.AUDIT: _audit,
}
