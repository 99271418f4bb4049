"""Which name the pages of a database have: SQLite's have it in page 0, and a copy opens by the name of its ancestor too."""

from __future__ import annotations

from pagelog.block import Block, Put
from pagelog.images import MARK
from pagelog.referee.bases import Bases
from pagelog.referee.referee import Referee
from pagelog.referee.rows import Row

_NAME_AT = 40
"""Where page 0 of the VFS has the name, behind the mark: its length, and its bytes."""
_WITHIN = 16_384
"""Blocks among which it is looked for: the VFS writes it with each 256th transaction."""
_PIECE = 1024


def written_name(referee: Referee, row: Row, position: int) -> str | None:
    """The name that the pages of a branch have at a position: that of its ancestor until it has written its own. None of any other database,
    whose pages have but one."""
    if row.ancestor is None or row.read_only:
        return None
    bases = Bases(referee, row.id)
    base = bases.newest(position)
    last, least = position, max(base.position + 1, position - _WITHIN)
    while last >= least:
        first = max(least, last - _PIECE + 1)
        for block in reversed(referee._piece(row.id, first, last)):
            if (name := _name_in(block)) is not None:
                return name
        last = first - 1
    if least > base.position + 1:
        return None
    image = bases.image(0, base)
    if image is None or not (image.mask & 1 and image.data.startswith(MARK[-8:])):
        return None
    return _text(image.data[_NAME_AT:])


def _text(data: bytes) -> str:
    """What begins with its length."""
    return data[1 : 1 + data[0]].decode("utf-8", "replace")


def _name_in(data: bytes) -> str | None:
    for record in reversed(Block.decode(data).records):
        if (
            isinstance(record, Put)
            and (record.page, record.offset) == (0, _NAME_AT)
            and len(record.data) == 1 + record.data[0]
        ):
            return _text(record.data)
    return None
