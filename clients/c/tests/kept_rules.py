"""What holds of the torture's tables, for those who write them and those who look."""

import hashlib
import hmac

ACCOUNTS, TOTAL = 50, 100_000


def hash_of(before, text):
    """Of a row of the ledger: from the hash of the row before."""
    return hmac.new(b"ledger", (before + text).encode(), hashlib.sha256).hexdigest()
