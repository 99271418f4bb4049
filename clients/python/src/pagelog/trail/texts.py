"""Texts of tables as a trail keeps them: without their tokens, which decide no line."""

from __future__ import annotations

import re

from pagelog.errors import PagelogError
from pagelog_model.table import Read, read

_TOKEN = re.compile(rb"[0-9a-fA-F]{32}")
_ZEROS = b"0" * 32


class TrailError(PagelogError):
    """Something is wrong with a trail, or with what it is to be used for."""


def without_tokens(text: bytes) -> bytes:
    """The text with zeros in the place of each token. It has the same length, and is the same table but for them, or has the same
    fault. Raises `TrailError` where it cannot be written so, as where a token is written with escapes.
    """
    hidden = _TOKEN.sub(_ZEROS, text)
    one, other = read(text), read(hidden)
    if isinstance(one, Read) and isinstance(other, Read):
        is_like = one.tokens.keys() == other.tokens.keys() and (one.rows, one.zone) == (
            other.rows,
            other.zone,
        )
        is_like = is_like and set(other.tokens.values()) == {bytes(16)}
    else:
        is_like = one == other
    if not is_like:
        raise TrailError(
            "the text of a table cannot be kept without its tokens: write them as 32 digits"
        )
    return hidden
