"""The parts of the trial, each against a database of its own: long runs, large sizes, and every fault.

No part reaches epoch 2^32 - 1 (C9) or a reply NoMemory.
"""

import itertools

import tables
import wire
from trial_lines import put
from wire import (
    ADVANCE,
    AUDIT,
    FAILOVER,
    GET,
    OFFER,
    OPS,
    PULL,
    REPORT,
    SET_TABLE,
    STATUS,
    WITHOUT_ARGUMENTS,
    WRITE,
)
from wire import OPERATOR, PAGE_SERVER, PAGES_OF_A_PARTITION, PRIMARY, SECONDARY


def full_windows(trial):
    """A window of 64 filled in any order and emptied, three times, and pulled sixteen blocks at a time."""
    trial.open()
    for turn in range(3):
        hard = 64 * turn
        wanted = [(copy, hard + 1 + at) for copy in (0, 2) for at in range(64)]
        trial.chance.shuffle(wanted)
        for copy, lsn in wanted:
            trial.write(copy, lsn, put(lsn))
        trial.write(1, hard + 65, put(hard + 65))
        trial.report(hard + 64)
        trial.write(1, hard + 64, put(hard + 64))
    for lsn in (1, 17, 33, 100, 161, 192, 193):
        trial.pull(lsn)
        trial.pull(lsn, lo=1, hi=2, most=7)


def three_hundred_blocks(trial):
    """Written to two of three copies, each third one offered, hardened ten at a time, pulled to the end by ranges of partitions,
    and pages of them."""
    trial.open(primary=5)
    for lsn in range(1, 301):
        if lsn % 3 == 0:
            trial.offer(lsn, put(lsn))
        for copy in sorted(trial.chance.sample(range(3), 2)):
            trial.write(copy, lsn, put(lsn))
        if lsn % 10 == 0:
            trial.report(lsn)
        if lsn % 100 == 0:
            trial.tidy()
    for lsn in range(1, 302, 15):
        trial.pull(lsn, lo=lsn % 5, hi=4)
        trial.get(lsn % 5 * PAGES_OF_A_PARTITION, lsn, lsn % 2)
    trial.status()
    trial.sweep()


def pages(trial):
    """Pages at each LSN, exactly and as far as their partition is applied, at the hardened end and above it."""
    trial.open()
    for lsn in range(1, 21):
        if lsn in (1, 6, 12, 20):
            ask_for_pages(trial, len(trial.model.log))
        trial.offer(lsn, put(lsn))
        trial.write(0, lsn, put(lsn))
        trial.write(1, lsn, put(lsn))
        if lsn % 5 == 0:
            trial.report(lsn)
    for steps in (0, 1, 2, 1024, 1025):
        trial.advance(3, steps)
        trial.get(3 * PAGES_OF_A_PARTITION, 0, False)
    # What was applied, and what was not hardened.
    trial.write(0, 21, [(0, 0, b"gone"), (PAGES_OF_A_PARTITION,)])
    trial.fail_over(2)
    ask_for_pages(trial, 20)
    trial.status()
    trial.audit(1, 1024)


def ask_for_pages(trial, hard):
    for partition in (0, 1, 4, 65535):
        trial.advance(partition, 2)
    for lsn in (0, 1, hard, hard + 1, 2**48):
        for page in (lsn % 5 * PAGES_OF_A_PARTITION, 0, 1):
            trial.get(page, lsn, True)
            trial.get(page, lsn, False)
    trial.get(2**32 - 1, hard, True)
    for page in (7 * PAGES_OF_A_PARTITION, 8 * PAGES_OF_A_PARTITION - 1, 8 * PAGES_OF_A_PARTITION):
        trial.get(page, hard + 1, True)


def offers(trial):
    """Before and after writes, of other contents, hardened by a report and by a failover, and offered alone."""
    trial.open()
    for turn in range(4):
        hard = len(trial.model.log)
        for lsn in range(hard + 1, hard + 9):
            kind = lsn % 4
            if kind in (0, 1):
                trial.offer(lsn, put(lsn))
            for copy in (0, 2):
                trial.write(copy, lsn, put(lsn))
            if kind in (1, 2):
                trial.offer(lsn, put(lsn))
            trial.offer(lsn, [(9, 9, b"other")])
        for lsn in (hard + 9, hard + 64, hard + 65, hard):
            trial.offer(max(lsn, 1), put(max(lsn, 1)))
        # An offer is in no copy, and fixes the content.
        trial.report(hard + 9)
        trial.write(1, hard + 9, [(9, 9, b"other")])
        trial.report(hard + 3)
        late = trial.body(trial.model.primary, PRIMARY, OFFER, wire.block(hard + 9, put(hard + 9)))
        trial.fail_over(5 if turn % 2 == 0 else 2)
        trial.play(late)
        trial.status()
        # What was only offered may be another now, whether that is offered or not.
        if turn == 2:
            trial.offer(hard + 9, [(9, 9, b"other")])
        if turn in (0, 2):
            for copy in (0, 1):
                trial.write(copy, hard + 9, [(9, 9, b"other")])
            trial.report(hard + 9)
            trial.status()
    trial.pull(1)
    trial.get(9, len(trial.model.log), True)
    trial.sweep()


def audits(trial):
    """Each operation in each role, allowed and denied, and its lines from each place on, at the end and past it."""
    trial.open()
    trial.audit(1, 1024)
    for who in (1, 2, 3, 4):
        ask_each_operation(trial, who)
    trial.audit(1, 1024)
    there = len(trial.model.lines)
    for first in (0, 1, 2, there - 1, there, there + 9, there + 99, 2**48, 2**64 - 1):
        for most in (1, 3):
            trial.audit(first, most)
    trial.audit(there, 1023)
    trial.audit(there, 1025)


def ask_each_operation(trial, who):
    """One request of each operation in each role, and of set_table two."""
    asked = {
        WRITE: [wire.write(2, wire.block(who, put(who)))],
        OFFER: [wire.offer(wire.block(who + 1, put(who + 1)))],
        REPORT: [wire.report(0)],
        GET: [wire.get(2**32 - who, 0, who % 2)],
        PULL: [wire.pull(2, 9, 1, 16)],
        ADVANCE: [wire.advance(who % 4, 1024)],
        FAILOVER: [wire.failover(2)],
        SET_TABLE: [wire.set_table(tables.START.text), wire.set_table(b"x")],
        AUDIT: [wire.audit(who, 2)],
    }
    asked.update((op, [b""]) for op in WITHOUT_ARGUMENTS)
    for role in (PRIMARY, SECONDARY, PAGE_SERVER, OPERATOR):
        for op in OPS:
            for rest in asked[op]:
                trial.play(trial.body(who, role, op, rest))


def failovers(trial):
    """Over thirty contents with a gap at the twenty-first, to each primary, with a late report of the old one; with six copies in
    between."""
    trial.open()
    for primary in (5, 2, 2, 9, 3, 5):
        hard, old, zone = len(trial.model.log), trial.model.primary, trial.model.zone
        for lsn in range(hard + 1, hard + 31):
            copies = range(zone.copies if lsn % 4 == 0 else zone.quorum)
            for copy in copies if lsn != hard + 21 else range(zone.quorum - 1, zone.copies)[1:]:
                trial.write(copy, lsn, put(lsn))
        trial.set_table(tables.SIX_COPIES.text if primary == 2 else tables.START.text)
        late = trial.body(old, PRIMARY, REPORT, wire.report(hard + 30))
        trial.fail_over(primary)
        trial.play(late)
        trial.status()
        trial.pull(max(1, hard), most=16)
        trial.write(0, len(trial.model.log) + 1, [(7, 8, b"again")])
        if trial.model.primary == 3:
            trial.fail_over(2)


def six_copies(trial):
    """Begins with six copies: blocks in none to six of them, reported, failed over, and copies that there are not."""
    trial.open(table=tables.SIX_COPIES)
    for lsn in range(1, 8):
        for copy in trial.chance.sample(range(6), lsn - 1):
            trial.write(copy, lsn, put(lsn))
            trial.report(lsn)
        for copy in (6, 7, 255):
            trial.write(copy, lsn, put(lsn))
        trial.offer(lsn, put(lsn))
        trial.write_quorum(lsn, put(lsn))
        trial.report(lsn)
    for lsn in range(8, 72):
        trial.write_quorum(lsn, put(lsn))
        if lsn % 9:
            trial.write(0, lsn, put(lsn))
    for lsn in (72, 73):
        trial.write(5, lsn, put(lsn))
    trial.report(40)
    for copy in (1, 3, 5):
        trial.write(copy, 72, put(72))
    trial.fail_over(2)
    trial.status()
    trial.write(0, 72, [(1, 1, b"another")])
    for lsn in range(1, 73, 16):
        trial.pull(lsn)
    trial.sweep()


def zones_change(trial):
    """Tables of three and six copies, set in the middle of a window: only a failover takes them up, and counts by the old one."""
    trial.open()
    asked = (
        tables.SIX_COPIES,
        tables.SIX_COPIES,
        tables.START,
        tables.SIX_AND_ENDS,
        tables.THREE_COPIES,
        tables.SIX_COPIES,
    )
    for at, table in enumerate(asked):
        hard = len(trial.model.log)
        trial.write_quorum(hard + 1, put(hard + 1))
        trial.set_table(table.text)
        for copy in range(7):
            trial.write(copy, hard + 2, put(hard + 2))
        trial.write_quorum(hard + 4, put(hard + 4))
        for copy in (0, 1, 2)[: at % 3 + 1]:
            trial.write(copy, hard + 3, put(hard + 3))
        if at % 2:
            trial.set_table(tables.FAULTY[13][at].encode())
            trial.report(hard + 3)
        trial.status()
        trial.fail_over(2 if at % 2 else 5)
        trial.status()
        trial.pull(max(1, hard))
    for lsn in (1, 9):
        trial.pull(lsn)
    trial.sweep()


def rows_that_end(trial):
    """Reads and writes at each LSN about the ends of a table's rows, as blocks are hardened and the table changes."""
    trial.open()
    for lsn in range(1, 51):
        trial.write_quorum(lsn, put(lsn))
    trial.report(50)
    trial.advance(0, 16)
    trial.advance(1, 1024)
    for table in (
        tables.ENDS_AT_2,
        tables.NO_PULL_ABOVE_3,
        tables.MANY_ENDS,
        tables.SIX_AND_ENDS,
        tables.START,
    ):
        trial.set_table(table.text)
        read_about_ends(trial)
        # The same once more: what was decided is cached by now.
        for lsn in (20, 3, 2, 51, 19, 21):
            trial.pull(lsn, hi=1, most=1)
        for lsn in (51, 52):
            trial.write(0, lsn, put(lsn))
            trial.offer(lsn, put(lsn))
    trial.sweep()


def read_about_ends(trial):
    for lsn in (1, 2, 3, 4, 19, 20, 21, 25, 26, 40, 41, 50, 51):
        trial.pull(lsn)
        trial.pull(lsn, lo=1, hi=1, most=2)
        trial.pull(lsn, lo=2, hi=4, most=16)
    for lsn in (0, 1, 2, 3, 17, 49, 50, 51):
        for page in (0, PAGES_OF_A_PARTITION):
            trial.get(page, lsn, False)
        trial.get(PAGES_OF_A_PARTITION, lsn, True)
        trial.get(0, lsn, False, 2, PRIMARY)
    trial.report(50)
    trial.status()


def large_blocks(trial):
    """Blocks of 20,000 bytes, of 2,700 records, of the most bytes that one has and of one byte more, and a text of the most."""
    trial.open()
    many = [(at % 4096, at % 8192, bytes([at % 256])) for at in range(2700)]
    most = wire.puts_of(wire.LONGEST_BLOCK - 14 - 4 * 9, 0xEE)
    for lsn, records in ((1, wire.puts_of(20000, 0xAB)), (2, many), (3, wire.puts_of(20000, 0xCD))):
        trial.write(0, lsn, records)
        trial.write(1, lsn, records)
        trial.report(lsn)
    trial.pull(1, most=2)
    trial.pull(3, hi=0)
    trial.write(2, 4, most)
    trial.write(2, 5, most + [(9, 0, b"\1")])
    trial.set_table(longest_text())
    trial.status()


def longest_text():
    text = tables.NO_PULL_OF_2.text
    text += b"#" * (65506 - len(text))
    tables.TEXTS[text] = tables.NO_PULL_OF_2
    return text


def texts_of_tables(trial):
    """Each fault of a table's text, which changes nothing but the audit list, and each table in force at once."""
    trial.open()
    for text, found in list(tables.TEXTS.items()):
        if len(text) < 10000:
            trial.set_table(text)
            trial.status() if isinstance(found, int) else ask_each(trial)
        trial.set_table(tables.START.text)


def ask_each(trial):
    for who in (1, 2, 3, 4, 5, 6, 64):
        for role in (PRIMARY, SECONDARY, PAGE_SERVER, OPERATOR):
            trial.play(trial.body(who, role, STATUS))
        trial.play(trial.body(who, SECONDARY, PULL, wire.pull(2, 2, 1, 1)))
        trial.play(
            trial.body(who, SECONDARY, GET, wire.get(who * PAGES_OF_A_PARTITION, 0, who % 2))
        )
        trial.play(trial.body(who, PAGE_SERVER, ADVANCE, wire.advance(who, 1)))
        for page in (2, 4 * PAGES_OF_A_PARTITION):
            block = wire.block(who, [(page, 0, b"\1")])
            trial.play(trial.body(who, PRIMARY, WRITE, wire.write(who % 3, block)))
            trial.play(trial.body(who, PRIMARY, OFFER, wire.offer(block)))
        trial.play(trial.body(who, OPERATOR, FAILOVER, wire.failover(2)))


def faults_of_bodies(trial):
    """Each code of a malformed body, and which is first: the least of those that hold."""
    trial.open()
    status, report = trial.body(1, OPERATOR, STATUS), trial.body(2, PRIMARY, REPORT, wire.report(1))
    pull = trial.body(3, SECONDARY, PULL, wire.pull(0, 1, 1, 1))
    others = [trial.body(1, OPERATOR, op) for op in WITHOUT_ARGUMENTS if op != STATUS]
    bodies = [status[:at] for at in (0, 1, 4, 20, 29)]
    bodies += [
        status + b"\0",
        report[:-1],
        report + b"\0",
        pull[:-2],
        pull + b"\1\1",
        *(body + b"\0" for body in others),
    ]
    bodies += faulty_arguments(trial)
    for role in (0, 1, 4, 5, 255):
        bodies += [
            status[:20] + bytes([role]) + status[21:29] + bytes([op])
            for op in (0, 1, 2, 7, 10, wire.NO_OPERATION, 255)
        ]
    bodies += [report[:30] + wire.report(lsn) for lsn in (2**48, 2**48 + 1, 2**64 - 1)]
    out_of_range = ((2, 1, 1, 1), (0, 0, 0, 1), (0, 0, 2**48 + 1, 1), (0, 0, 1, 0), (0, 0, 1, 17))
    bodies += [pull[:30] + wire.pull(*parts) for parts in out_of_range]
    for spelled in faulty_blocks():
        bodies.append(trial.body(2, PRIMARY, WRITE, wire.write(0, spelled)))
    for spelled in itertools.islice(faulty_blocks(), 0, None, 5):
        bodies.append(trial.body(2, PRIMARY, OFFER, wire.offer(spelled)))
    for body in bodies:
        trial.play(body)
    trial.status()


def faulty_arguments(trial):
    """Gets, advances and audits that are cut, too long, or at and past the ends of their ranges."""
    get = trial.body(3, SECONDARY, GET, wire.get(0, 0, 0))
    advance = trial.body(4, PAGE_SERVER, ADVANCE, wire.advance(0, 1))
    audit = trial.body(1, OPERATOR, AUDIT, wire.audit(1, 1))
    for body in (get, advance, audit):
        most = body[:30] + b"\xff" * (len(body) - 30)
        yield from (
            body[:-1],
            body[:30],
            body + b"\0",
            most,
            most + b"\xff",
            body[:30] + bytes(len(body) - 30),
        )
    yield from (
        get[:30] + wire.get(0, lsn, exact)
        for lsn, exact in ((0, 2), (0, 255), (2**48, 1), (2**48 + 1, 1))
    )
    yield from (advance[:30] + wire.advance(3, steps) for steps in (0, 1, 1024, 1025))
    yield from (
        audit[:30] + wire.audit(first, most)
        for first in (0, 1, 2**64 - 1)
        for most in (0, 1, 1024, 1025)
    )


def faulty_blocks():
    good = wire.block(1, [(0, 0, b"ab"), (65536, 8190, b"cd")])
    zeros = wire.block(2, [(0,), (65536,), (0, 1, b"e")])
    yield from (good[:at] for at in range(len(good)))
    yield from (zeros[:at] for at in range(16, len(zeros) + 1))
    yield good + b"\0"
    for lsn in (0, 2**48, 2**48 + 1):
        yield wire.number(lsn, 8) + good[8:]
    yield good[:10] + b"\0\1\0\0" + good[14:]
    yield good[:10] + b"\0\0\0\0" + good[14:]
    yield good[:10] + b"\0\0\0\2" + good[14:]
    for kind in (0, 2, 3, 255):
        yield good[:16] + bytes([kind]) + good[17:]
    yield zeros[:12] + zeros[14:]
    yield zeros + b"\0"
    for offset, length in ((0, 0), (8191, 2), (8192, 0), (65535, 65535)):
        yield good[:21] + wire.number(offset, 2) + wire.number(length, 2) + good[25:]


def full_audit_list(trial):
    """The list filled to its limit, of one entry and of 60; then each answer is that, before the token is looked at, and nothing
    changes."""
    for limit in (1, 60):
        trial.open(limit=limit)
        for lsn in range(1, 15):
            trial.write(0, lsn, put(lsn))
            trial.write(1, lsn, put(lsn))
            trial.play(trial.body(2, PRIMARY, STATUS, key=bytes(16)))
            trial.report(lsn)
            trial.pull(1, most=3)
            trial.get(0, 0, True)
            for op in WITHOUT_ARGUMENTS:
                trial.play(trial.body(1, OPERATOR, op))
            trial.audit(lsn, 2)
            trial.play(b"")


PARTS = (
    full_windows,
    three_hundred_blocks,
    pages,
    offers,
    audits,
    failovers,
    six_copies,
    zones_change,
    rows_that_end,
    large_blocks,
    texts_of_tables,
    faults_of_bodies,
    full_audit_list,
)
