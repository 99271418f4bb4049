"""The numbers of the wire, and the operations that a role has."""

PRIMARY, SECONDARY, PAGE_SERVER, OPERATOR = 1, 2, 3, 4
WRITE, OFFER, REPORT, GET, PULL, ADVANCE, STATUS, FAILOVER, SET_TABLE, AUDIT, TIDY = range(1, 12)

ROLES = {1: "primary", 2: "secondary", 3: "page_server", 4: "operator"}
OPS = {
    1: "write",
    2: "offer",
    3: "report",
    4: "get",
    5: "pull",
    6: "advance",
    7: "status",
    8: "failover",
    9: "set_table",
    10: "audit",
    11: "tidy",
}
HAS = {
    PRIMARY: {WRITE, OFFER, REPORT, GET, STATUS},
    SECONDARY: {PULL, GET, STATUS},
    PAGE_SERVER: {PULL, ADVANCE, STATUS},
    OPERATOR: {FAILOVER, SET_TABLE, AUDIT, TIDY, STATUS},
}

PAGE_BYTES = 8192
PAGES_OF_A_PARTITION = 65536
LONGEST_BLOCK = 32768
LAST_LSN, LAST_EPOCH = 2**48, 2**32 - 1
MOST_PULLED, MOST_STEPS, MOST_LINES, LONGEST_TEXT = 16, 1024, 1024, 65506


def number(value: int, size: int) -> bytes:
    """The value in `size` bytes."""
    return value.to_bytes(size, "big")


def partition_of(page: int) -> int:
    """The partition of a page."""
    return page // PAGES_OF_A_PARTITION
