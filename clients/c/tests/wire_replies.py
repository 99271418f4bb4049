"""What each reply means to each call of the wire: every row of a denial, every other kind, and a service that has no memory for
a while, or for good. The service carries out what it is asked; a proxy answers some requests in its place."""

import threading

from binding import (
    AUDIT_FULL,
    CONFLICT,
    DENIED,
    DONE,
    FENCED,
    IN_DOUBT,
    MALFORMED,
    NO_MEMORY,
    OPERATOR,
    PAGE_SERVER,
    PRIMARY,
    SECONDARY,
    Log,
    blocks_of,
    decode,
    numbered,
    outcome_of,
    request,
)
from check import run, same, true
from service import Answer, Peer, Proxy, Service, wire

# Blocks above the end of the log, at most.
WINDOW = 64

# By pagelog.h: each row, with a value that it may have; its outcome; what an object learns by the value, if anything.
ROWS = [
    ("A1", 0, DENIED, None),
    ("A2", 8, FENCED, "epoch"),
    ("A3", 8, FENCED, "epoch"),
    ("A4", 0, FENCED, None),
    ("A5", 0, DENIED, None),
    ("B0", 0, DENIED, None),
    ("B2", 0, DENIED, None),
    ("B6", 0, DENIED, None),
    ("B65535", 0, DENIED, None),
    ("C1", 12, DENIED, "end"),
    ("C2", 12, CONFLICT, "end"),
    ("C3", 1 << 48, CONFLICT, "end"),
    ("C4", 0, CONFLICT, None),
    ("C5", 0, DENIED, None),
    ("C6", 12, CONFLICT, "end"),
    ("C7", 13, DENIED, None),
    ("C8", 0, DENIED, None),
    ("C9", 0, DENIED, None),
]


def denial(row, value=0):
    """The body of a reply Denied."""
    return (
        b"\5"
        + wire.number("ABC".index(row[0]) + 1, 1)
        + wire.number(int(row[1:]), 2)
        + wire.number(value, 8)
    )


def status(epoch, end):
    """The body of a reply Status."""
    return b"\4" + wire.number(epoch, 4) + wire.number(2, 4) + wire.number(end, 8) + bytes(16)


def learn(log, peer, epoch, end):
    """The object learns the epoch by a denial, and the end of the log by a status in that epoch."""
    peer.body = denial("A3", epoch)
    same("an epoch", (FENCED, epoch), (log.ask(SECONDARY, wire.STATUS)[0], log.epoch))
    peer.body = status(epoch, end)
    same("an end", (DONE, epoch, end), (log.status(SECONDARY)[0], log.epoch, log.end))


LINE = (
    wire.number(1, 8)
    + wire.number(1, 8)
    + wire.number(2, 4)
    + b"\1"
    + bytes(4)
    + b"\7"
    + bytes(16)
    + b"\1"
    + wire.number(2, 2)
    + wire.number(1, 8)
)
BLOCK = wire.block(1, [(0, 0, b"a")])
NO_MEMORY_BODY = b"\6"

# Each kind by its number: a body, the outcome, and what the object says of it.
KINDS = [
    (b"\0", DONE, ""),
    (b"\1" + wire.number(2, 8) + wire.number(1, 2) + wire.frame(BLOCK), DONE, ""),
    (b"\2" + wire.number(1, 8) + bytes(8192), DONE, ""),
    (b"\3" + wire.number(1, 2) + LINE, DONE, ""),
    (status(7, 1), DONE, ""),
    (denial("B3"), DENIED, "denied: denied B3, value 0"),
    (NO_MEMORY_BODY, NO_MEMORY, "no memory"),
    (b"\7", AUDIT_FULL, "audit list full"),
    (b"\x08", DENIED, "denied: spent"),
    (b"\x09", DENIED, "denied: no database"),
    (b"\x0a\x08", MALFORMED, "malformed: fault 8 of the request"),
]

# The kind of the reply to an operation that is done.
KIND_OF = {wire.GET: 2, wire.PULL: 1, wire.AUDIT: 3, wire.STATUS: 4}


def each_request():
    """A request of each operation."""
    return [
        request(PRIMARY, wire.WRITE, BLOCK),
        request(PRIMARY, wire.OFFER, BLOCK),
        request(PRIMARY, wire.REPORT, lsn=1),
        request(SECONDARY, wire.GET, lsn=1, exact=1),
        request(SECONDARY, wire.PULL, hi=65535, lsn=1, max=16),
        request(PAGE_SERVER, wire.ADVANCE, steps=1),
        request(OPERATOR, wire.FAILOVER, to=2),
        request(OPERATOR, wire.SET_TABLE, b""),
        request(OPERATOR, wire.AUDIT, lsn=1, max=16),
        *(request(OPERATOR, op) for op in wire.WITHOUT_ARGUMENTS),
    ]


def test_each_row_of_a_denial_has_its_outcome_and_its_value():
    """Of the reply by itself, and whatever was asked. The object knows the epoch 7 and the end 9 before."""
    peer = Peer()
    with Service() as service, Proxy(service.address, between=peer) as proxy:
        for row, value, outcome, learns in ROWS:
            fault, reply = decode(denial(row, value))
            same(f"{row} by itself", (0, outcome), (fault, outcome_of(reply)))
            with Log(proxy.address, 3) as log:
                learn(log, peer, 7, 9)
                peer.body = denial(row, value)
                for asked in each_request():
                    same("send", DONE, log.send(asked))
                    found, reply = log.receive()
                    same(
                        f"{row} to operation {asked.operation}",
                        (outcome, (row, value)),
                        (found, log.row),
                    )
                    same(
                        "its parts",
                        (5, "ABC".index(row[0]) + 1, int(row[1:]), value),
                        (reply.kind, reply.section, reply.row, reply.value),
                    )
                    same("in words", f"{outcome}: denied {row}, value {value}", log.words)
                known = value if learns == "epoch" else 7, value if learns == "end" else 9
                same(
                    f"{row}: what is known",
                    (known, False),
                    ((log.epoch, log.end), log.is_restarted),
                )
                same(f"{row}: one connection", 1, log.counts.connects)


def test_a_denial_that_reports_less_than_before_is_of_a_service_that_was_restarted():
    """An epoch, or an end of the log, that has fallen. After it nothing is believed any more."""
    peer = Peer()
    with Service() as service, Proxy(service.address, between=peer) as proxy:
        for row, _, _, learns in ROWS:
            with Log(proxy.address, 3) as log:
                learn(log, peer, 7, 9)
                peer.body = denial(row, 6 if learns == "epoch" else 8)
                same(
                    row,
                    learns is not None,
                    log.ask(SECONDARY, wire.STATUS)[0] == FENCED and log.is_restarted,
                )
                if learns:
                    peer.body = status(log.epoch, 10)
                    same(
                        f"{row}: for good",
                        (FENCED, True),
                        (log.status(SECONDARY)[0], "restarted" in log.words),
                    )


def test_each_kind_of_reply_to_each_operation():
    """A refusal may come to every operation. Of the other kinds each operation has one: any other is MALFORMED, and ends the
    connection, so that what was asked after it has no reply."""
    peer, ended = Peer(), 0
    with Service() as service, Proxy(service.address, between=peer) as proxy, Log(
        proxy.address, 3
    ) as log:
        learn(log, peer, 7, 1)
        for kind, (body, outcome, words) in enumerate(KINDS):
            peer.body = body
            fault, reply = decode(body)
            same(f"kind {kind} by itself", (0, outcome), (fault, outcome_of(reply)))
            for asked in each_request():
                what = f"kind {kind} to operation {asked.operation}"
                same("send", (DONE, DONE), (log.send(asked), log.send(asked)))
                found, reply = log.receive()
                if kind < 5 and kind != KIND_OF.get(asked.operation, 0):
                    same(
                        what,
                        (MALFORMED, "malformed", 0, 0),
                        (found, log.words, log.refused.kind, log.in_flight()),
                    )
                    ended += 1
                    continue
                same(what, (outcome, kind, 1), (found, reply.kind, log.in_flight()))
                if outcome != DONE:
                    same(what, (words, kind), (log.words, log.refused.kind))
                found, reply = log.receive()
                same(f"{what}, once more", (outcome, kind, 0), (found, reply.kind, log.in_flight()))
        same("connections", 1 + ended, log.counts.connects)


class AnotherEpoch:
    """A proxy's rule: while it has a difference, a status is answered in an epoch that differs by it from the one asked in."""

    def __init__(self):
        self.differs = 0

    def __call__(self, frame):
        epoch = int.from_bytes(frame[29:33], "big") + self.differs
        return Answer(status(epoch, 1)) if self.differs and frame[33] == wire.STATUS else frame


def test_a_status_in_another_epoch_than_was_asked_in_is_no_reply():
    """The service answers it in its epoch or denies it, A2 or A3. Nothing is learned by it, and what was asked after it has no
    reply."""
    rule = AnotherEpoch()
    with Service() as service, Proxy(service.address, between=rule) as proxy, Log(
        proxy.address, 2
    ) as log:
        same("take over", DONE, log.take_over())
        same("append", DONE, log.append(numbered(1, 1)))
        for differs in (-1, 1, 1000):
            for role in (PRIMARY, SECONDARY, OPERATOR):
                what, known = f"{differs:+} to role {role}", (
                    log.epoch,
                    log.writing_epoch,
                    log.end,
                    False,
                )
                rule.differs = differs
                same(
                    "send",
                    (DONE, DONE),
                    (
                        log.send(request(role, wire.STATUS)),
                        log.send(request(PRIMARY, wire.REPORT, lsn=1)),
                    ),
                )
                found, reply = log.receive()
                same(
                    what,
                    (MALFORMED, "malformed", 0, 0),
                    (found, log.words, reply.epoch, log.in_flight()),
                )
                same(f"{what}: the call", MALFORMED, log.status(role)[0])
                rule.differs = 0
                same(
                    f"{what}: what is known",
                    known,
                    (log.epoch, log.writing_epoch, log.end, log.is_restarted),
                )
                same(f"{what}: then", DONE, log.status()[0])


def test_a_reply_to_another_question_is_no_reply():
    """A page at another LSN than an exact get has, or at an older one than a get that is not; blocks that come before the LSN of
    their pull, or more than were asked for, or whose next LSN is not beyond; entries of another number, or too many.
    """
    peer = Peer()
    page = lambda at: b"\2" + wire.number(at, 8) + bytes(8192)
    blocks = lambda next_, *lsns: (
        b"\1"
        + wire.number(next_, 8)
        + wire.number(len(lsns), 2)
        + b"".join(wire.frame(wire.block(lsn, [(0, 0, b"a")])) for lsn in lsns)
    )
    entries = (
        lambda first, count: b"\3"
        + wire.number(count, 2)
        + b"".join(wire.number(first + i, 8) + LINE[8:] for i in range(count))
    )
    exact, newer = request(SECONDARY, wire.GET, lsn=5, exact=1), request(
        SECONDARY, wire.GET, lsn=5, exact=0
    )
    pull, audit = request(SECONDARY, wire.PULL, hi=65535, lsn=5, max=2), request(
        OPERATOR, wire.AUDIT, lsn=5, max=2
    )
    with Service() as service, Proxy(service.address, between=peer) as proxy, Log(
        proxy.address, 3
    ) as log:
        for asked, good, bad in (
            (exact, [page(5)], [page(4), page(6)]),
            (newer, [page(5), page(6)], [page(4)]),
            (
                pull,
                [blocks(6), blocks(7, 5, 6)],
                [blocks(5), blocks(7, 4), blocks(9, 5, 6, 7), blocks(6, 6), blocks(8, 6, 5)],
            ),
            (audit, [entries(5, 0), entries(5, 2)], [entries(4, 1), entries(6, 1), entries(5, 3)]),
        ):
            for body in good + bad:
                peer.body = body
                same("send", (DONE, DONE), (log.send(asked), log.send(asked)))
                found, left = log.receive()[0], log.in_flight()
                same(
                    f"operation {asked.operation}: {body[:20].hex()}",
                    (DONE, 1) if body in good else (MALFORMED, 0),
                    (found, left),
                )
                log.disconnect()


def test_no_writer_goes_by_a_status_in_another_epoch():
    """Neither one that begins, nor an append whose connection was lost after two copies had taken its block."""
    rule, cuts = AnotherEpoch(), [False]

    def between(frame):
        is_cut, cuts[0] = cuts[0] and frame[33] == wire.REPORT, cuts[0] and frame[33] != wire.REPORT
        return None if is_cut else rule(frame)

    with Service() as service, Proxy(service.address, between=between) as proxy:
        for differs in (-1, 1):
            for call in (Log.join, Log.take_over):
                with Log(proxy.address, 2) as log:
                    rule.differs = 0
                    same("the epoch", DONE, log.join())
                    rule.differs = differs
                    same(
                        f"{differs:+}, {call.__name__}",
                        (MALFORMED, False),
                        (call(log), log.is_restarted),
                    )
                    same(
                        "no append",
                        True,
                        log.append(numbered(log.end + 1, 1)) in (MALFORMED, CONFLICT),
                    )
            with Log(proxy.address, 2) as log:
                rule.differs = 0
                same("take over", DONE, log.take_over())
                rule.differs, cuts[0], blocks = differs, True, numbered(log.end + 1, 1)
                same(
                    f"{differs:+}, append",
                    (IN_DOUBT, False),
                    (log.append(blocks), log.is_restarted),
                )
                rule.differs = 0
                same(
                    "take over, and look",
                    (DONE, blocks.all()),
                    (log.take_over(), blocks_of(log.pull(log.end)[1])),
                )


def refusals():
    """Each refusal: its body, its outcome, and what the object says of it. The service's log has no block."""
    rows = [
        (denial(row, value), outcome, f"{outcome}: denied {row}, value {value}")
        for row, value, outcome, *_ in ROWS
    ]
    return rows + [kind for kind in KINDS[5:] if kind[1] != MALFORMED]


def test_calls_that_are_repeated_report_each_refusal():
    """As it came. An epoch that the refusal reports is taken over by a secondary, which asks once more in it, and never by a
    primary."""
    peer = Peer()
    with Service() as service, Proxy(service.address, between=peer) as proxy:
        for body, outcome, words in refusals():
            peer.body = body
            twice = 2 if "A2" in words or "A3" in words else 1
            for what, requests, call in (
                ("status", twice, lambda log: log.status(SECONDARY)[0]),
                ("get", 3 * twice, lambda log: log.get(SECONDARY, 1, [4, 5, 6])[0]),
                ("pull", twice, lambda log: log.pull(1)[0]),
                ("status of a primary", 1, lambda log: log.status(PRIMARY)[0]),
                ("get of a primary", 3, lambda log: log.get(PRIMARY, 1, [4, 5, 6])[0]),
            ):
                with Log(proxy.address, 2) as log:
                    same(f"{what}, {words}", (outcome, words), (call(log), log.words))
                    same(
                        f"{what}, {words}: requests",
                        (requests, 0),
                        (log.counts.requests, log.in_flight()),
                    )
            for what, call in (
                ("join", lambda log: log.join()),
                ("take over", lambda log: log.take_over()),
            ):
                with Log(proxy.address, 2) as log:
                    same(
                        f"{what}, {words}",
                        (outcome, words, 0),
                        (call(log), log.words, log.writing_epoch),
                    )


class Refuses:
    """A proxy's rule: once it has a body, that answers the writes and reports which `picks` names by their number, from 1 on,
    their operation and their copy."""

    def __init__(self):
        self.body, self.picks, self.seen = None, None, 0

    def begin(self, body, picks):
        self.body, self.picks, self.seen = body, picks, 0

    def end(self):
        self.body = None

    def __call__(self, frame):
        if self.body is None or frame[33] not in (wire.WRITE, wire.REPORT):
            return frame
        self.seen += 1
        return Answer(self.body) if self.picks(self.seen, frame[33], frame[34]) else frame


def goes_on(what, log, blocks, taken):
    """What follows an append that was not done, once nothing is refused any more, by how many copies had taken its block. None:
    the same append is done. One: its LSN is taken in this epoch, and it never gets into the log. Two: it gets there when the
    epoch ends."""
    end = log.end
    if taken == 0:
        same(f"{what}: the same once more", (DONE, end + 1), (log.append(blocks), log.end))
    else:
        same(f"{what}: its LSN is taken", CONFLICT, log.append(blocks))
        same(f"{what}: take over", (DONE, end + taken // 2), (log.take_over(), log.end))
    same(f"{what}: and on", DONE, log.append(numbered(log.end + 1, 1)))


def test_what_an_append_makes_of_a_refusal():
    """A quorum of copies may have taken its block before: then it is in doubt, unless the database answers nothing any more."""
    rule = Refuses()
    with Service() as service, service.operator() as operator, Proxy(
        service.address, between=rule
    ) as proxy, Log(proxy.address, 2) as log:
        same("take over", DONE, log.take_over())
        cases = [
            (denial(row, value), outcome, f"denied {row}, value {value}", False)
            for row, value, outcome in (
                ("A1", 0, DENIED),
                ("A4", 0, FENCED),
                ("A5", 0, DENIED),
                ("B0", 0, DENIED),
                ("B7", 0, DENIED),
                ("C4", 0, CONFLICT),
                ("C5", 0, DENIED),
            )
        ]
        cases += [
            (b"\x09", DENIED, "no database", False),
            (b"\x08", DENIED, "spent", True),
            (b"\7", AUDIT_FULL, "audit list full", True),
        ]
        for body, outcome, words, is_final in cases:
            for taken in (0, 1, 2):
                what, end = f"{words}, taken by {taken}", log.end
                rule.begin(body, lambda number, operation, copy: number > taken)
                wanted = IN_DOUBT if taken == 2 and not is_final else outcome
                blocks = numbered(end + 1, 1)
                same(what, wanted, log.append(blocks))
                same(
                    f"{what}: in words",
                    words if wanted == words else f"{wanted}: {words}",
                    log.words,
                )
                same(f"{what}: not in the log yet", (end, end), (log.end, operator.status()[2]))
                rule.end()
                goes_on(what, log, blocks, taken)


def test_no_memory_that_passes_is_made_up_for():
    """Of three blocks, six writes and a report, some requests are answered NoMemory: the first two, each one in turn, or all of
    four tries. What was refused is asked again, with a report, and nothing else; the log has just these blocks.
    """
    rule = Refuses()
    cases = (
        [({1, 2}, 7 + 3)]
        + [({number}, 7 + 2) for number in range(1, 7)]
        + [({7}, 7 + 1), (set(range(1, 29)), 7 * 5)]
    )
    with Service() as service, Log(service.address, 3) as reader, Proxy(
        service.address, between=rule
    ) as proxy, Log(proxy.address, 2, patience_ms=600000) as log:
        same("take over", DONE, log.take_over())
        for refused, requests in cases:
            what, first, before = (
                f"NoMemory to {min(refused)} to {max(refused)}",
                log.end + 1,
                log.counts.requests,
            )
            rule.begin(NO_MEMORY_BODY, lambda number, operation, copy: number in refused)
            blocks = numbered(first, 3)
            same(what, (DONE, first + 2), (log.append(blocks), log.end))
            same(f"{what}: requests", requests, log.counts.requests - before)
            same(f"{what}: log", blocks.all(), blocks_of(reader.pull(first)[1]))


def test_no_memory_for_ever():
    """An append asks five times. It is NO_MEMORY where fewer copies than a quorum took the block, and in doubt where a quorum
    did, and the report alone was refused."""
    rule = Refuses()
    cases = [
        ("all", lambda number, operation, copy: True, NO_MEMORY, 5 * 3, 0),
        (
            "the writes",
            lambda number, operation, copy: operation == wire.WRITE,
            NO_MEMORY,
            5 * 3,
            0,
        ),
        (
            "one copy",
            lambda number, operation, copy: (operation, copy) == (wire.WRITE, 1),
            NO_MEMORY,
            1 + 5 * 2,
            1,
        ),
        (
            "the report",
            lambda number, operation, copy: operation == wire.REPORT,
            IN_DOUBT,
            2 + 5,
            2,
        ),
    ]
    with Service() as service, service.operator() as operator, Proxy(
        service.address, between=rule
    ) as proxy, Log(proxy.address, 2, patience_ms=600000) as log:
        same("take over", DONE, log.take_over())
        for what, picks, outcome, requests, taken in cases:
            end, before = log.end, log.counts.requests
            rule.begin(NO_MEMORY_BODY, picks)
            blocks = numbered(end + 1, 1)
            same(f"NoMemory to {what}", outcome, log.append(blocks))
            same(
                f"{what}: in words",
                "in doubt: no memory" if outcome == IN_DOUBT else "no memory",
                log.words,
            )
            same(f"{what}: requests", requests, log.counts.requests - before)
            same(f"{what}: not in the log yet", (end, end), (log.end, operator.status()[2]))
            rule.end()
            goes_on(what, log, blocks, taken)


def test_no_memory_once_in_each_group():
    """Seven groups of 64 blocks, of which each is refused memory once: what was made up for does not count any more."""
    rule = Refuses()
    with Service() as service, Proxy(service.address, between=rule) as proxy, Log(
        proxy.address, 2, patience_ms=600000
    ) as log:
        same("take over", DONE, log.take_over())
        refused = set()

        def picks(number, operation, copy):
            group = log.end // WINDOW
            if group in refused:
                return False
            refused.add(group)
            return True

        rule.begin(NO_MEMORY_BODY, picks)
        same("append", (DONE, 7 * WINDOW), (log.append(numbered(1, 7 * WINDOW)), log.end))
        same("groups that were refused", set(range(7)), refused)


def test_malformed_amid_a_group_leaves_nothing_in_flight():
    """The service takes a request for none, which no request of this client is. The next call is answered as ever."""
    peer = Peer()
    with Service() as service, Proxy(service.address, between=peer) as proxy, Log(
        proxy.address, 2
    ) as log:
        same("take over", DONE, log.take_over())
        same("append", DONE, log.append(numbered(1, 3)))
        for what, call in (
            ("gets", lambda: log.get(PRIMARY, 1, [1, 2, 3])[0]),
            ("append", lambda: log.append(numbered(4, 2))),
        ):
            peer.body = b"\x0a\x06"
            same(what, MALFORMED if what == "gets" else IN_DOUBT, call())
            same(f"{what}: in flight", 0, log.in_flight())
            peer.body = None
            same(f"{what}: then a status", DONE, log.status()[0])
            same(f"{what}: then a take-over", DONE, log.take_over())


class RefusesOne:
    """A proxy's rule: it answers the next request of an operation with a body."""

    def __init__(self):
        self.body, self.operation = None, None

    def begin(self, operation, body):
        self.operation, self.body = operation, body

    def __call__(self, frame):
        if frame[33] != self.operation:
            return frame
        self.operation = None
        return Answer(self.body)


def test_tidying_up_that_is_refused():
    """Nobody hears of it, and no more is asked until the next epoch."""
    rule = RefusesOne()
    with Service() as service, Proxy(service.address, between=rule) as proxy, Log(
        proxy.address, 2
    ) as log:
        for body, _, words in refusals():
            for operation in (wire.REPORT, wire.TIDY):
                what = f"{words} to operation {operation}"
                same("take over", DONE, log.take_over())
                same("append", DONE, log.append(numbered(log.end + 1, 1)))
                rule.begin(operation, body)
                known = log.end, log.epoch, log.is_restarted
                log.tidy_up()
                same(what, (DONE, 0, 0), (log.status()[0], log.in_flight(), log.refused.kind))
                same(f"{what}: what is known", known, (log.end, log.epoch, log.is_restarted))
                requests = log.counts.requests
                log.tidy_up()
                same(f"{what}: not again", requests, log.counts.requests)
                same(f"{what}: append", DONE, log.append(numbered(log.end + 1, 1)))
        same("one connection", 1, log.counts.connects)


def test_tidying_up_that_is_refused_before_an_append_that_nobody_waits_for():
    """The append is due then, meets the refusal, and is done. The replies are held back until the second block has come."""
    rule, is_held = RefusesOne(), [False]
    with Service() as service, Proxy(
        service.address, between=rule, holds=lambda: is_held[0]
    ) as proxy, Log(proxy.address, 2) as log:
        for operation in (None, wire.REPORT, wire.TIDY):
            same("take over", DONE, log.take_over())
            same("append", DONE, log.append(numbered(log.end + 1, 1)))
            rule.begin(operation, denial("B0"))
            is_held[0], end, blocks = True, log.end, numbered(log.end + 1, 1)
            log.tidy_up()
            same("sent", (True, 3), (log.append_unwaited(blocks), log.in_flight()))
            for _ in range(50):
                same(
                    "nothing has come",
                    (False, False, 3),
                    (log.is_due(), log.is_answered(), log.in_flight()),
                )
            is_held[0] = False
            same("put", (DONE, DONE), (blocks.put(5, 0, b"more"), blocks.end()))
            true("sent", log.append_unwaited(blocks))
            is_over = False
            while not is_over:
                is_due = log.is_due()
                true("no refusal", operation or not is_due)
                true("no answer", not operation or not log.is_answered())
                is_over = is_due if operation else log.is_answered()
            same("append", (DONE, end + 2, 0), (log.append(blocks), log.end, log.in_flight()))


def test_a_look_for_replies_does_not_wait_after_tidying_up():
    """What tidies up is answered, and the block that is sent after it is held up before the service."""
    has_come, may_go = threading.Event(), threading.Event()

    def between(frame):
        if frame[33] == wire.TIDY:
            has_come.set()
        if frame[33] == wire.WRITE:
            may_go.wait(60)
        return frame

    with Service() as service, Proxy(service.address, between=between) as proxy, Log(
        proxy.address, 2, reply_ms=2000
    ) as log:
        same("take over", DONE, log.take_over())
        log.tidy_up()
        true("it has come", has_come.wait(60))
        blocks = numbered(1, 1)
        same("sent", True, log.append_unwaited(blocks))
        before = log.counts.replies
        while log.counts.replies < before + 2:
            same("not due", (False, 3), (log.is_due(), log.in_flight()))
        for _ in range(5):
            same(
                "not due yet", (False, False, 3), (log.is_due(), log.is_answered(), log.in_flight())
            )
        may_go.set()
        same("append", (DONE, 1), (log.append(blocks), log.end))


def test_a_reply_to_tidying_up_that_is_none():
    """What came before the reply to a request is none of the service: so it is with the connection."""
    rule = RefusesOne()
    bodies = [body for body, *_ in KINDS[1:5]] + [b"", b"\x0b", b"\0\0", denial("B3")[:-1]]
    calls = [
        ("status", MALFORMED, lambda log: log.status()[0]),
        ("append", IN_DOUBT, lambda log: log.append(numbered(log.end + 1, 1))),
    ]
    with Service() as service, Proxy(service.address, between=rule) as proxy, Log(
        proxy.address, 2
    ) as log:
        for body in bodies:
            for operation in (wire.REPORT, wire.TIDY):
                for what, outcome, call in calls:
                    same("take over", DONE, log.take_over())
                    same("append", DONE, log.append(numbered(log.end + 1, 1)))
                    rule.begin(operation, body)
                    log.tidy_up()
                    same(
                        f"{body!r} to operation {operation}, {what}",
                        (outcome, 0),
                        (call(log), log.in_flight()),
                    )
                    same("then", DONE, log.status()[0])


if __name__ == "__main__":
    run("wire replies", globals())
