"""What a trial sends to databases, with the replies of the model, and what its blocks are; used by trial.py and trial_parts.py."""

import random
from collections import Counter

import tables
import wire
from model import Model
from wire import ADVANCE, AUDIT, FAILOVER, GET, OFFER, PULL, REPORT, SET_TABLE, STATUS, TIDY, WRITE
from wire import OPERATOR, PAGE_SERVER, PAGES_OF_A_PARTITION, PRIMARY, SECONDARY

# How many entries the audit list of `play` holds, and the pass of each of its requests.
ENTRIES_OF_PLAY, PASS_OF_PLAY = 65536, 1


class Database:
    """A database as it begins, and each body that it is sent with the reply of the model."""

    def __init__(self, name, table, primary, limit):
        self.name, self.table, self.primary, self.limit = name, table, primary, limit
        self.asked, self.replies = [], []


class Trial:
    """Databases one after the other, and the model of the last one, which is asked."""

    def __init__(self, seed, part):
        """The part names the databases that are opened from now on."""
        self.chance, self.part = random.Random(seed), part
        self.databases, self.met = [], Counter()

    def open(self, primary=2, limit=ENTRIES_OF_PLAY, table=tables.START):
        self.model, self.swept = Model(tables.TEXTS, table, primary, limit), 0
        self.databases.append(Database(self.part, table, primary, limit))

    def play(self, body):
        name, reply = self.model.reply(body, PASS_OF_PLAY)
        self.met[name] += 1
        self.databases[-1].asked.append(body)
        self.databases[-1].replies.append(reply)
        return name

    def body(self, who, role, op, arguments=b"", epoch=None, key=None):
        """A body of the present epoch; the number of the database decides nothing in `play`, and varies."""
        epoch = self.model.epoch if epoch is None else epoch
        return (
            wire.head(who, role, op, epoch, self.chance.choice([0, 0, 1, 7, 2**32 - 1]), key)
            + arguments
        )

    def write(self, copy, lsn, records):
        return self.play(
            self.body(
                self.model.primary, PRIMARY, WRITE, wire.write(copy, wire.block(lsn, records))
            )
        )

    def offer(self, lsn, records):
        return self.play(
            self.body(self.model.primary, PRIMARY, OFFER, wire.offer(wire.block(lsn, records)))
        )

    def write_quorum(self, lsn, records):
        """Writes the block to as many copies as harden it, from the last one down."""
        zone = self.model.zone
        for copy in range(zone.copies - zone.quorum, zone.copies):
            self.write(copy, lsn, records)

    def report(self, lsn):
        return self.play(self.body(self.model.primary, PRIMARY, REPORT, wire.report(lsn)))

    def get(self, page, lsn, exact, who=3, role=SECONDARY):
        return self.play(self.body(who, role, GET, wire.get(page, lsn, exact)))

    def advance(self, partition, steps):
        return self.play(self.body(4, PAGE_SERVER, ADVANCE, wire.advance(partition, steps)))

    def pull(self, lsn, lo=0, hi=65535, most=16):
        return self.play(self.body(3, SECONDARY, PULL, wire.pull(lo, hi, lsn, most)))

    def status(self):
        return self.play(self.body(1, OPERATOR, STATUS))

    def fail_over(self, primary):
        return self.play(self.body(1, OPERATOR, FAILOVER, wire.failover(primary)))

    def set_table(self, text):
        return self.play(self.body(1, OPERATOR, SET_TABLE, text))

    def audit(self, first, most):
        return self.play(self.body(1, OPERATOR, AUDIT, wire.audit(first, most)))

    def tidy(self):
        return self.play(self.body(1, OPERATOR, TIDY))

    def sweep(self):
        """Asks for the lines after those that were asked for last, as many as one reply may have."""
        there = len(self.model.lines)
        if self.audit(self.swept + 1, 1024) == "audit":
            self.swept = min(there, self.swept + 1024)


def put(lsn):
    """One byte on a page whose partition follows from the LSN; some blocks have none, or zeros, or two pages."""
    page = lsn % 5 * PAGES_OF_A_PARTITION
    if lsn % 9 == 4:
        return []
    if lsn % 11 == 8:
        return [(page,), (page, 8191, b"\xee")]
    if lsn % 13 == 7:
        return [
            (page, 5, bytes([lsn % 251]) * 3),
            ((page + PAGES_OF_A_PARTITION) % (5 * PAGES_OF_A_PARTITION),),
        ]
    return [(page, lsn % 4, bytes([lsn % 251]))]
