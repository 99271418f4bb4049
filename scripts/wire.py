"""Blocks, requests and frames as bytes, written from docs/FORMATS.md; shared by the scripts and bench/play.py.

A script names an operation only if it has arguments, or if there is something to say of that very one. It goes through OPS and
WITHOUT_ARGUMENTS for the others, so that one which is new is asked for by all of them.
"""

import pathlib
import sys

# The numbers are those of the reference model, which is installed with pagelogctl and needs nothing else of its package.
sys.path.insert(
    0, str(pathlib.Path(__file__).resolve().parent.parent / "clients" / "python" / "src")
)
from pagelog_model.wire import (  # noqa: E402, F401
    ADVANCE,
    AUDIT,
    FAILOVER,
    GET,
    HAS,
    LONGEST_BLOCK,
    OFFER,
    OPERATOR,
    OPS,
    PAGE_BYTES,
    PAGE_SERVER,
    PAGES_OF_A_PARTITION,
    PRIMARY,
    PULL,
    REPORT,
    ROLES,
    SECONDARY,
    SET_TABLE,
    STATUS,
    TIDY,
    WRITE,
    number,
)


def token(principal):
    """The token of a principal of the start table: sixteen equal bytes."""
    return bytes([0x11 * principal % 256]) * 16


def partitions(records):
    """The partitions that records touch, in order."""
    return sorted({page // PAGES_OF_A_PARTITION for page, *_ in records})


def record(page, *put):
    """A Put of (offset, bytes), or a Zero if there is none."""
    if not put:
        return b"\2" + number(page, 4)
    offset, data = put
    return b"\1" + number(page, 4) + number(offset, 2) + number(len(data), 2) + data


def block(lsn, records):
    """A block of this LSN with Puts (page, offset, bytes) and Zeros (page,)."""
    annotations = partitions(records)
    out = number(lsn, 8) + number(len(annotations), 2)
    out += b"".join(number(partition, 2) for partition in annotations) + number(len(records), 2)
    return out + b"".join(record(*parts) for parts in records)


def frame(body):
    return number(len(body), 4) + body


def puts_of(size, byte):
    """Puts of about `size` bytes in all, each on a page of its own, from page 0 on."""
    lengths = [PAGE_BYTES] * (size // PAGE_BYTES) + (
        [size % PAGE_BYTES] if size % PAGE_BYTES else []
    )
    return [(page, 0, bytes([byte]) * length) for page, length in enumerate(lengths)]


def head(principal, role, op, epoch=1, database=0, key=None):
    """The head of a request; the token is the principal's own unless another is given."""
    key = token(principal) if key is None else key
    return (
        number(principal, 4)
        + key
        + bytes([role])
        + number(database, 4)
        + number(epoch, 4)
        + bytes([op])
    )


def to_database(body, database):
    """The body as one to this database; of a body that ends before the number or in it, no byte more."""
    return body[:21] + number(database, 4)[: len(body[21:25])] + body[25:]


def write(copy, spelled):
    return bytes([copy]) + spelled


def offer(spelled):
    return spelled


def report(lsn):
    return number(lsn, 8)


def get(page, lsn, exact):
    return number(page, 4) + number(lsn, 8) + bytes([exact])


def pull(lo, hi, lsn, most):
    return number(lo, 2) + number(hi, 2) + number(lsn, 8) + number(most, 2)


def advance(partition, steps):
    return number(partition, 2) + number(steps, 2)


def failover(primary):
    return number(primary, 4)


def set_table(text):
    return text


def audit(first, most):
    return number(first, 8) + number(most, 2)


# What writes the arguments of an operation, which are taken in the order of the wire.
WRITERS = {
    WRITE: write,
    OFFER: offer,
    REPORT: report,
    GET: get,
    PULL: pull,
    ADVANCE: advance,
    FAILOVER: failover,
    SET_TABLE: set_table,
    AUDIT: audit,
}
WITHOUT_ARGUMENTS = [op for op in OPS if op not in WRITERS]
# A number above those of the operations.
NO_OPERATION = max(OPS) + 1


def roles_of(op):
    """The roles that have an operation."""
    return [role for role in ROLES if op in HAS[role]]
