"""The scenarios of scripts/costs: for each a database, and the requests of which the cost is counted.

A database is made of blocks that change pages in a way of their own, hardened 64 at a time. Requests are those of `play`.

Which bugs this finds. Each was written into a program without a proof, which answered as before, and the check was run:

    a pull goes on to its reach after its last block        pull: one block from the beginning
    all blocks are spelled anew                             tidy: 192 blocks of a hundred records
    the index of pages does not follow a report             get: the first after many reports
    versions are made and never found                       get: a page whose version is kept
    images are not used                                     get: a little above an image, far above an older version
    an older version is used where an image is newer        get: a little above an image, far above an older version
    the oldest version is found, not the newest             get: the end of a page, after each block
    every block is noted as an image                        get: the end of a page, after each block
    the reach of a cached verdict is walked                 get: 200 rows that end at an LSN before the one that allows
    the wrong row is asked whether it ends                  pull: a row that ends before 200 others
    after 1,024 verdicts no more are cached                 decided: the last of 1,200 keys again
    the verdict that was cached first goes first            decided: keys that were used last, after others came
    each destaged block takes a segment of its own          memory: a small block, hardened
    the index of pages is kept twice                        addresses: a small block, hardened
    4,096 old blocks are kept decoded, not 64               memory: a block of eight thousand bytes, hardened and pulled
    a write keeps again what was offered                    memory: a block that is offered, then written
    an offer keeps again what was written                   memory: a block that is written, then offered
    memory for 65,535 records that are only announced       addresses: a program that was announced 65,535 records
    places of 65,536 blocks in the broker, not 256          addresses: a program and its database without a block
    places of all 1,024 verdicts from the start             memory: a program and its database without a block, but just
                                                            (1.14 to 1.17 times its figure)

Not found:

    a get copies its page twice, or asks for memory         `play` writes the page as digits, which takes 256,000 instructions;
    that it does not need                                   either takes some hundreds
    the verdict of row 16 is cached                         a lookup costs as much as sixteen rows
    1,024 versions of pages at most, whatever the limit     `play` has no more
    bytes that stay in a segment if memory was refused   nothing is refused here
"""

import tables
import wire
from wire import ADVANCE, AUDIT, FAILOVER, GET, OFFER, PULL, REPORT, SET_TABLE, STATUS, TIDY, WRITE
from wire import OPERATOR, PAGES_OF_A_PARTITION, PAGE_SERVER, PRIMARY, SECONDARY

WINDOW = 64


def ask(who, role, op, arguments=b"", epoch=1):
    return wire.head(who, role, op, epoch) + arguments


def write(copy, block, epoch=1):
    return ask(2, PRIMARY, WRITE, wire.write(copy, block), epoch)


def report(lsn):
    return ask(2, PRIMARY, REPORT, wire.report(lsn))


def offer(block):
    return ask(2, PRIMARY, OFFER, wire.offer(block))


def get(page, lsn, exact=True):
    return ask(3, SECONDARY, GET, wire.get(page, lsn, exact))


def pull(lsn, lo, hi, most=16):
    return ask(3, SECONDARY, PULL, wire.pull(lo, hi, lsn, most))


def operate(op, arguments=b"", epoch=1):
    return ask(1, OPERATOR, op, arguments, epoch)


# Blocks, by their LSN.


def small(lsn):
    """Eight bytes on one of sixteen pages of partition 0."""
    return wire.block(lsn, [(lsn % 16, lsn % 1000 * 8, wire.number(lsn, 8))])


def one_page(lsn):
    """Eight bytes on page 0."""
    return wire.block(lsn, [(0, lsn % 1000 * 8, wire.number(lsn, 8))])


def imaged(lsn):
    """Page 0, each 256th time the whole of it."""
    return (
        wire.block(lsn, [(0, 0, bytes([lsn % 256]) * wire.PAGE_BYTES)])
        if lsn % 256 == 0
        else one_page(lsn)
    )


def rare(lsn):
    """Partition 0, and each 500th time partition 9."""
    return (
        wire.block(lsn, [(9 * PAGES_OF_A_PARTITION, 0, b"rare")]) if lsn % 500 == 0 else small(lsn)
    )


def scattered(lsn):
    """Each block a partition of its own, of 4,096."""
    return wire.block(lsn, [(lsn * 2654435761 % 4096 * PAGES_OF_A_PARTITION, 0, b"far")])


def far_apart(lsn):
    """Each block the lowest and the highest partition, so that a range of both has all between them."""
    return wire.block(lsn, [(0, 0, b"low"), (65535 * PAGES_OF_A_PARTITION, 0, b"high")])


def eight_thousand(lsn):
    return wire.block(lsn, wire.puts_of(8000, lsn % 256))


def hundred_records(lsn):
    """A byte on each of a hundred pages."""
    return wire.block(lsn, [(page, 0, b"x") for page in range(100)])


def fresh(count, block, first=1):
    """Blocks in two copies of three."""
    return [write(copy, block(lsn)) for lsn in range(first, first + count) for copy in (0, 1)]


def log_of(block, first, last):
    bodies = []
    for begin in range(first, last + 1, WINDOW):
        count = min(WINDOW, last + 1 - begin)
        bodies += [*fresh(count, block, begin), report(begin + count - 1)]
    return bodies


def hardened(block):
    """A log of this many of these blocks."""
    return lambda size: log_of(block, 1, size)


def nothing(_):
    return []


# Tables.


def two_hundred_rows(who, role, before=(), **end):
    """200 rows that allow a principal partitions of its own, before those of the start table. They may end at an LSN."""
    rows = [tables.allow(who=who, role=role, lo=at, hi=at, **end) for at in range(1001, 1201)]
    return tables.Table([1, 2, 3, 4, 5], [*before, *rows, *tables.START.rows]).text


START = tables.START.text
OF_OTHERS = two_hundred_rows(5, PAGE_SERVER)
OF_PRIMARY, OF_PRIMARY_ENDING = two_hundred_rows(2, PRIMARY), two_hundred_rows(
    2, PRIMARY, through=2**40
)
OF_READER, OF_READER_ENDING = two_hundred_rows(3, SECONDARY), two_hundred_rows(
    3, SECONDARY, through=2**40
)
# Its first row allows partition 0 up to LSN 500. Whether LSNs above that are allowed is up to the rows after it.
OF_READER_AFTER_AN_END = two_hundred_rows(
    3, SECONDARY, [tables.allow(who=3, role=SECONDARY, lo=0, hi=0, through=500)]
)


class Scenario:
    """What is asked of which database. `growth` says how the cost of a request may grow with the log; `counts`, what is counted.

    `beyond` is another scenario, whose cost is taken off; `made` is, of bytes, how many of what is made there are at a size.
    """

    def __init__(self, name, before, asked, *, growth="flat", table=START, beyond=None):
        self.name, self.before, self.asked = name, before, asked
        self.growth, self.table, self.beyond = growth, table, beyond
        self.counts = "instructions"


class Room(Scenario):
    """The bytes of what requests make, of which there are `made(size)`; with nothing before them, those of the program too.

    `of` is what /proc calls them: those that the process has in memory of its own, or those that it has addresses of.
    """

    def __init__(self, name, asked, made, *, before=lambda _: [operate(STATUS)], of="RssAnon"):
        super().__init__(name, before, asked)
        self.counts, self.made, self.of = "bytes", made, of


def times(count, *bodies):
    return lambda _: list(bodies) * count


def after(block, *, then):
    """A log of these blocks with more requests after it."""
    return lambda size: hardened(block)(size) + then(size)


def writes(block=small, copy=0, count=WINDOW):
    return lambda size: [write(copy, block(lsn)) for lsn in range(size + 1, size + 1 + count)]


def reports(step):
    """Blocks in two copies, hardened this many at a time; only the reports are counted, since the writes are before them."""
    return lambda size: [report(lsn) for lsn in range(size + step, size + WINDOW + 1, step)]


def failovers(size):
    return [operate(FAILOVER, wire.failover(2), epoch) for epoch in range(1, 65)]


def beyond_the_end(partition):
    """A pull that is decided by the rows of the table, and then denied: a key of its own for each partition."""
    return pull(2**40, partition, partition, most=1)


def to_copy(copy):
    return lambda block: write(copy, block)


def in_turn(*asks):
    """A window of blocks for the first of these requests, then for the next one."""
    return lambda _: [it(eight_thousand(lsn)) for it in asks for lsn in range(1, WINDOW + 1)]


ALL = 0, 65535
# Keys of 64 partitions, of which no row is.
AGAIN = range(4000, 4064)
WRITES = [
    Scenario("write: a new block", hardened(small), writes()),
    Scenario("write: the same block to a second copy", after(small, then=writes()), writes(copy=1)),
    Scenario("write: a block that is in this copy already", after(small, then=writes()), writes()),
    Scenario(
        "write: a block of thirty-two thousand bytes",
        hardened(small),
        writes(lambda lsn: wire.block(lsn, wire.puts_of(32_000, lsn % 256))),
    ),
    Scenario(
        "write: a block of two thousand records",
        hardened(small),
        writes(lambda lsn: wire.block(lsn, [(page, 0, b"x") for page in range(2000)]), count=8),
    ),
    Scenario(
        "write: 200 rows of others before the one that allows",
        hardened(small),
        writes(),
        table=OF_OTHERS,
    ),
    Scenario(
        "write: 200 rows of its own before the one that allows",
        hardened(small),
        writes(),
        table=OF_PRIMARY,
    ),
    Scenario(
        "write: 200 rows that end at an LSN before the one that allows",
        hardened(small),
        writes(),
        table=OF_PRIMARY_ENDING,
    ),
    Scenario(
        "offer: a new block",
        hardened(small),
        lambda size: [offer(small(lsn)) for lsn in range(size + 1, size + 65)],
    ),
    Scenario(
        "offer: a block that was written",
        after(small, then=writes()),
        lambda size: [offer(small(lsn)) for lsn in range(size + 1, size + 65)],
    ),
    Scenario(
        "report: of one block",
        after(small, then=lambda size: fresh(WINDOW, small, size + 1)),
        reports(1),
    ),
    Scenario(
        "report: of sixteen blocks",
        after(small, then=lambda size: fresh(WINDOW, small, size + 1)),
        reports(16),
    ),
]
# A reply of `play` with a page has 16,384 digits, so the other gets are counted beyond this one.
KEPT = Scenario(
    "get: a page whose version is kept",
    after(small, then=lambda size: [get(3, size)]),
    lambda size: [get(3, size)] * 100,
)
GETS = [
    KEPT,
    Scenario(
        "get: sixteen pages at the end, for the first time",
        hardened(small),
        lambda size: [get(page, size) for page in range(16)],
        growth="linear",
        beyond=KEPT,
    ),
    Scenario(
        "get: the end of a page, after each block",
        after(one_page, then=lambda size: [get(0, 1), get(0, size)]),
        lambda size: [
            it
            for lsn in range(size + 1, size + 65)
            for it in (*fresh(1, one_page, lsn), report(lsn), get(0, lsn))
        ],
    ),
    Scenario(
        "get: old LSNs of a page with images",
        after(imaged, then=lambda size: [get(0, size)]),
        lambda _: [get(0, lsn) for lsn in range(256, 740, 13)],
        beyond=KEPT,
    ),
    Scenario(
        "get: a little above an image, far above an older version",
        lambda _: [*hardened(imaged)(1000), get(0, 1)],
        lambda _: [get(0, lsn) for lsn in (261, 517, 773)],
        beyond=KEPT,
    ),
    Scenario(
        "get: old LSNs of a page without images",
        after(one_page, then=lambda size: [get(0, size)]),
        lambda size: [get(0, lsn) for lsn in range(7, size, size // 20)],
        growth="linear",
        beyond=KEPT,
    ),
    Scenario(
        "get: a page that nothing changed",
        after(small, then=lambda size: [get(77, size)]),
        lambda size: [get(1000 + it, size) for it in range(64)],
        beyond=KEPT,
    ),
    Scenario(
        "get: the first after many reports",
        hardened(small),
        lambda size: [get(60_000, size)],
        beyond=KEPT,
    ),
    Scenario(
        "get: 200 rows that end at an LSN before the one that allows",
        after(small, then=lambda size: [get(3, size)]),
        lambda size: [get(3, size)] * 100,
        table=OF_READER_ENDING,
        beyond=KEPT,
    ),
]
PULLS = [
    Scenario(
        "pull: the newest sixteen blocks",
        hardened(small),
        lambda size: [pull(size - 15, *ALL)] * 100,
    ),
    Scenario(
        "pull: the oldest sixteen blocks", hardened(small), lambda size: [pull(1, *ALL)] * 100
    ),
    Scenario(
        "pull: one block from the beginning",
        hardened(small),
        lambda size: [pull(1, *ALL, most=1)] * 100,
    ),
    Scenario(
        "pull: a row that ends before 200 others",
        lambda _: hardened(small)(1000),
        times(100, pull(1, 0, 0, most=1)),
        table=OF_READER_AFTER_AN_END,
    ),
    Scenario(
        "pull: a partition that nothing touches",
        hardened(small),
        lambda size: [pull(1, 5, 5)] * 20,
        growth="logarithmic",
    ),
    Scenario(
        "pull: a partition that few blocks touch",
        hardened(rare),
        lambda size: [pull(501, 9, 9, most=1)] * 20,
        growth="logarithmic",
    ),
    Scenario(
        "pull: a partition that no block touches among many",
        hardened(scattered),
        lambda size: [pull(1, 5000, 5000)] * 20,
        growth="linear",
    ),
    Scenario(
        "pull: a partition between two that each block touches",
        hardened(far_apart),
        lambda size: [pull(1, 9, 9)] * 20,
        growth="linear",
    ),
]
OTHERS = [
    Scenario("status", hardened(small), times(500, operate(STATUS))),
    Scenario(
        "advance: by no step",
        hardened(small),
        times(100, ask(4, PAGE_SERVER, ADVANCE, wire.advance(0, 0))),
    ),
    Scenario(
        "advance: by sixteen blocks",
        hardened(small),
        times(20, ask(4, PAGE_SERVER, ADVANCE, wire.advance(0, 16))),
    ),
    Scenario("failover: nothing above the end", hardened(small), failovers),
    Scenario("set_table: the start table", hardened(small), times(20, operate(SET_TABLE, START))),
    Scenario(
        "set_table: a table of 206 rows", hardened(small), times(5, operate(SET_TABLE, OF_READER))
    ),
    Scenario(
        "audit: the newest line of a long list",
        hardened(small),
        lambda size: [operate(AUDIT, wire.audit(2 * size, 1))] * 100,
    ),
    Scenario(
        "audit: a thousand lines",
        hardened(small),
        lambda size: [operate(AUDIT, wire.audit(1, 1000))] * 10,
    ),
    Scenario(
        "tidy: nothing to do",
        after(small, then=lambda _: [operate(TIDY)] * 2),
        times(100, operate(TIDY)),
    ),
    Scenario(
        "tidy: 192 blocks of a hundred records",
        lambda _: hardened(hundred_records)(256),
        times(1, operate(TIDY)),
    ),
    Scenario(
        "denied: a wrong token",
        hardened(small),
        times(200, wire.head(3, SECONDARY, STATUS, key=bytes(16))),
    ),
    Scenario("denied: another epoch", hardened(small), times(200, operate(STATUS, epoch=7))),
    Scenario(
        "decided: one key again and again under 206 rows",
        hardened(small),
        times(200, beyond_the_end(3)),
        table=OF_READER,
    ),
    Scenario(
        "decided: 1,200 keys in turn under 206 rows",
        hardened(small),
        lambda _: [beyond_the_end(at) for at in range(1200)],
        table=OF_READER,
    ),
    Scenario(
        "decided: the last of 1,200 keys again",
        lambda _: [beyond_the_end(at) for at in range(1200)],
        times(200, beyond_the_end(1199)),
        table=OF_READER,
    ),
    Scenario(
        "decided: one key between 900 others, three times",
        nothing,
        lambda _: [it for at in range(900) for it in (beyond_the_end(5000), beyond_the_end(at))]
        * 3,
        table=OF_READER,
    ),
    Scenario(
        "decided: keys that were used last, after others came",
        lambda _: [
            beyond_the_end(at) for at in (*AGAIN, *range(2000, 2960), *AGAIN, *range(3000, 3064))
        ],
        lambda _: [beyond_the_end(at) for at in AGAIN],
        table=OF_READER,
    ),
    Scenario("a body that is no request", hardened(small), times(500, b"\0\0")),
    Scenario(
        "a block that announces 65,535 records",
        hardened(small),
        times(200, write(0, wire.number(1, 8) + wire.number(0, 2) + wire.number(65535, 2))),
    ),
]


def announcing(_):
    """A block without records that announces 65,535 of them."""
    return [write(0, wire.number(1, 8) + wire.number(0, 2) + wire.number(65535, 2))]


ROOMS = [
    Room(
        "memory: a program and its database without a block",
        announcing,
        lambda _: 1,
        before=nothing,
    ),
    Room("memory: a small block, hardened", hardened(small), lambda size: size),
    Room(
        "memory: a block of eight thousand bytes, hardened",
        lambda size: hardened(eight_thousand)(size // 10),
        lambda size: size // 10,
    ),
    Room(
        "memory: a block of another partition each, hardened",
        hardened(scattered),
        lambda size: size,
    ),
    Room(
        "memory: a block that was offered too, hardened",
        lambda size: [
            it
            for lsn in range(1, size // 4 + 1)
            for it in (offer(eight_thousand(lsn)), *fresh(1, eight_thousand, lsn), report(lsn))
        ],
        lambda size: size // 4,
    ),
    Room(
        "memory: a block that is offered, then written",
        in_turn(offer, to_copy(0)),
        lambda _: WINDOW,
    ),
    Room(
        "memory: a block that is written, then offered",
        in_turn(to_copy(0), offer),
        lambda _: WINDOW,
    ),
    Room(
        "memory: a block of eight thousand bytes, hardened and pulled",
        lambda size: [
            *log_of(eight_thousand, 1, size // 10 + 400),
            *(pull(lsn, *ALL, most=1) for lsn in range(1, size // 10)),
        ],
        lambda size: size // 10 + 400,
    ),
    Room(
        "memory: an entry of the audit list",
        lambda size: [operate(STATUS)] * 4 * size,
        lambda size: 4 * size,
    ),
    Room(
        "memory: a version of a page",
        lambda size: [get(at, size) for at in range(size // 10)],
        lambda size: size // 10,
        before=hardened(small),
    ),
    Room(
        "addresses: a program and its database without a block",
        times(1, operate(STATUS)),
        lambda _: 1,
        before=nothing,
        of="VmData",
    ),
    Room(
        "addresses: a program that was announced 65,535 records",
        times(3, *announcing(0)),
        lambda _: 1,
        before=nothing,
        of="VmData",
    ),
    Room("addresses: a small block, hardened", hardened(small), lambda size: size, of="VmData"),
]
SCENARIOS = WRITES + GETS + PULLS + OTHERS + ROOMS
