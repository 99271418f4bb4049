"""The tokens of one run of a named database, which its clients and keepers make, and what proves who one is to a keeper."""

from __future__ import annotations

import hashlib
import hmac

KEEPER = (1 << 32) - 1
"""The principal of the keepers, which no table of a named database lists."""


def token_of(token: bytes, name: str, run: str) -> bytes:
    """The token that stands for `token` in this run of the database: 16 bytes."""
    return hmac.new(token, f"{name}/{run}".encode(), hashlib.sha256).digest()[:16]


def proof_of(token: bytes, nonce: str, name: str, principal: int, of: str) -> str:
    """What proves to the keeper that has said `nonce` over this connection that a client has the `token` of a principal of the table of a
    database: the HMAC-SHA256, by the token's 16 bytes, of `prove NONCE NAME PRINCIPAL DATABASE/RUN`, in 64 digits.

    The text has spaces, which that of `token_of` never has: whatever a keeper says as a nonce, no proof is a token of a run.
    """
    return hmac.new(
        token, f"prove {nonce} {name} {principal} {of}".encode(), hashlib.sha256
    ).hexdigest()
