"""Landing zones of three copies and of six, with the right one and the wrong one in the options; rows of a table that end at an
LSN. What the service does not know of these is not tried, and said."""

from binding import (
    CONFLICT,
    DENIED,
    DONE,
    FENCED,
    MALFORMED,
    Blocks,
    Log,
    Options,
    blocks_of,
    byref,
    lib,
    numbered,
    token,
)
from check import run, same
from database import code_of, connect, one, reader
from service import Proxy, SIX_COPIES, Service, TABLE, failing_over, starts_with, wire

THREE, SIX = (3, 2), (6, 4)
KNOWS_SIX = starts_with(SIX_COPIES)
ZONES = {THREE: TABLE.read_text(), **({SIX: SIX_COPIES} if KNOWS_SIX else {})}
NOT_KNOWN = "not tried: this service's tables have no"


def same_log(follower, wanted):
    """The log has these blocks, from its first one on, and is pulled until all of them are there."""
    found = []
    while len(found) < len(wanted):
        found += blocks_of(follower.pull(len(found) + 1)[1])
    same("log", wanted, found)


def each_case():
    """Each zone that the service knows, with each that a client may be given."""
    return [(zone, told) for zone in ZONES for told in (THREE, SIX)]


def each_log():
    """Each case, with a follower, and a writer that has begun its epoch."""
    for zone, told in each_case():
        with Service(text=ZONES[zone]) as service, Log(service.address, 3) as follower, Log(
            service.address, 2, copies=told[0], quorum=told[1]
        ) as log:
            same("take over", DONE, log.take_over())
            yield zone, told, follower, log


def test_pairs_that_no_table_has():
    for copies, quorum in ((3, 3), (6, 2), (5, 3), (2, 2), (7, 4), (3, 4)):
        options = Options(b"127.0.0.1:1", 2, token(2), 0, 0, 0, 0, 0, copies, quorum)
        same(f"{copies} and {quorum}", None, lib.pagelog_new(byref(options)))
    for copies, quorum, zone in ((0, 0, THREE), (3, 0, THREE), (6, 0, SIX), (6, 4, SIX)):
        with Log("127.0.0.1:1", 2, copies=copies, quorum=quorum) as log:
            same("zone", (*zone, False), log.zone)


def test_appends():
    """They are in the log in every case, and the object knows the zone after the first one."""
    for zone, told, follower, log in each_log():
        wanted = []
        for count, copies in ((3, 0), (1, 0), (64, 0), (65, 3), (2, 6)):
            blocks, before = numbered(log.end + 1, count), log.counts
            wanted += blocks.all()
            same("append", (DONE, len(wanted)), (log.append(blocks, copies), log.end))
            after, each = log.counts, min(max(copies, zone[1]), zone[0])
            if wanted[0] != blocks.all()[0] or zone == told:
                same("requests", count * each + -(-count // 64), after.requests - before.requests)
            same("zone", (*zone, True), log.zone)
        same_log(follower, wanted)
        same(
            "arguments",
            (MALFORMED, MALFORMED),
            (log.append(numbered(log.end + 1, 1), 1), log.append(numbered(log.end + 1, 1), 7)),
        )


def test_failovers_before_each_request():
    """The epoch ends before each write and before the report of one block and of three: what the client says is what the log
    has."""
    seen = set()
    for zone, told in each_case():
        writes = [
            (many, wire.WRITE, count)
            for many in (1, 3)
            for count in range(1, many * max(zone[1], told[1]) + 1)
        ]
        for many, operation, count in writes + [
            (1, wire.REPORT, 1),
            (3, wire.REPORT, 1),
            (3, wire.REPORT, 2),
        ]:
            with Service(text=ZONES[zone]) as service, Log(service.address, 3) as follower, Proxy(
                service.address, between=failing_over(service, operation, count)
            ) as proxy, Log(proxy.address, 2, copies=told[0], quorum=told[1]) as log:
                same("take over", DONE, log.take_over())
                blocks = numbered(1, many)
                outcome = log.append(blocks)
                found = blocks_of(follower.pull(1)[1])
                what = f"zone {zone}, told {told}, {many} blocks, {operation} {count}"
                same(what, blocks.all()[: len(found)], found)
                same(what, DONE if len(found) == many else FENCED, outcome)
                seen.add((zone == told, outcome))
    same("of both kinds", {(True, DONE), (True, FENCED), (False, DONE), (False, FENCED)}, seen)


def send_one_by_one(log, count):
    """Blocks, each of which is sent with a report of its own, and nobody waits."""
    blocks = Blocks(log.end + 1)
    for page in range(count):
        blocks.put(page, 0, b"%d" % page), blocks.end()
        log.append_unwaited(blocks)
    return blocks


def test_appends_that_nobody_waits_for():
    for zone, _, follower, log in each_log():
        wanted = []
        for count in (3, 64):
            blocks = send_one_by_one(log, count)
            wanted += blocks.all()
            same("append", (DONE, len(wanted)), (log.append(blocks), log.end))
            same("zone", (*zone, True), log.zone)
        same_log(follower, wanted)


def test_failovers_before_each_request_of_what_nobody_waits_for():
    for zone, told in each_case():
        each = max(zone[1], told[1])
        for operation, count in [(wire.WRITE, n) for n in range(1, 3 * each + 1)] + [
            (wire.REPORT, n) for n in (1, 2, 3)
        ]:
            with Service(text=ZONES[zone]) as service, Log(service.address, 3) as follower, Proxy(
                service.address, between=failing_over(service, operation, count)
            ) as proxy, Log(proxy.address, 2, copies=told[0], quorum=told[1]) as log:
                same("take over", DONE, log.take_over())
                blocks = send_one_by_one(log, 3)
                outcome = log.append(blocks)
                found = blocks_of(follower.pull(1)[1])
                what = f"zone {zone}, told {told}, {operation} {count}"
                same(what, blocks.all()[: len(found)], found)
                same(what, DONE if len(found) == 3 else FENCED, outcome)


def test_a_report_of_what_another_has_hardened_shows_no_zone():
    """The other has joined the epoch of a writer that was given three copies, and there are six. The report of that one's own
    block is Done, since the LSN is in the log with the other's. Its next block is in two copies when the epoch ends.
    """
    if not KNOWS_SIX:
        return f"{NOT_KNOWN} copies and quorum"
    with Service(text=SIX_COPIES) as service, service.operator() as operator, Log(
        service.address, 3
    ) as follower, Log(service.address, 2, copies=6) as other:
        reports = []

        def between(frame):
            if frame[33] == wire.WRITE and not reports and other.end == 0:
                same(
                    "the other", (DONE, DONE), (other.join(), other.append(numbered(1, 1, page=7)))
                )
            if frame[33] == wire.REPORT:
                reports.append(frame)
                if len(reports) == 2:
                    operator.failover(5)
            return frame

        with Proxy(service.address, between=between) as proxy, Log(proxy.address, 2) as log:
            same("take over", DONE, log.take_over())
            same("another's", (CONFLICT, "C2"), (log.append(numbered(1, 1)), log.row[0]))
            same("the zone", (*THREE, False), log.zone)
            same("in too few copies", FENCED, log.append(numbered(2, 1)))
            same("the log", numbered(1, 1, page=7).all(), blocks_of(follower.pull(1)[1]))


def test_who_may_not_look():
    """Without the role of a secondary, who was given the right zone knows what a failover hardened."""
    for zone, text in ZONES.items():
        text = text.replace('who = 2\nrole = "secondary"', 'who = 2\nrole = "page_server"')
        with Service(text=text) as service, Log(service.address, 3) as follower, Proxy(
            service.address, between=failing_over(service, wire.REPORT, 1)
        ) as proxy, Log(proxy.address, 2, copies=zone[0]) as log:
            same("take over", DONE, log.take_over())
            blocks = numbered(1, 3)
            same("append", DONE, log.append(blocks))
            same("log", blocks.all(), blocks_of(follower.pull(1)[1]))


def test_a_zone_changes_with_the_epoch():
    if not KNOWS_SIX:
        return f"{NOT_KNOWN} copies and quorum"
    with Service() as service, service.operator() as operator, Log(service.address, 2) as log:
        same("take over", DONE, log.take_over())
        same("append", (DONE, (3, 2, True)), (log.append(numbered(1, 2)), log.zone))
        operator.set_table(SIX_COPIES)
        same("as before", (DONE, (3, 2, True)), (log.append(numbered(3, 2)), log.zone))
        same("take over", (DONE, (3, 2, False)), (log.take_over(), log.zone))
        same("learnt", (DONE, (6, 4, True)), (log.append(numbered(5, 2)), log.zone))
        operator.set_table(TABLE.read_text())
        same("take over", (DONE, (6, 4, False)), (log.take_over(), log.zone))
        same("and back", (DONE, (3, 2, True)), (log.append(numbered(7, 2)), log.zone))
        same("end", 8, operator.status()[2])


def test_sqlite():
    for zone, told in each_case():
        with Service(text=ZONES[zone]) as service:
            writer = connect(service.address, copies=told[0], quorum=told[1], check=3600000)
            writer.executescript("create table t(a); insert into t values (1);")
            same(
                "zone",
                zone,
                tuple(int(one(writer, f"pragma pagelog_{name}")) for name in ("copies", "quorum")),
            )
            before = int(one(writer, "pragma pagelog_requests"))
            writer.execute("insert into t values (2)")
            same("requests", zone[1] + 1, int(one(writer, "pragma pagelog_requests")) - before)
            same("rows", 2, one(reader(service.address), "select count(*) from t"))
    return None if KNOWS_SIX else f"zones of six copies {NOT_KNOWN} copies and quorum"


def test_rows_that_end_at_an_lsn():
    """A reader whose row ends reads the past up to there, and is told that it may not read on."""
    ending = TABLE.read_text().replace(
        'who = 3\nrole = "secondary"', 'who = 3\nrole = "secondary"\nthrough = 3'
    )
    if not starts_with(ending):
        return f"rows that end at an LSN {NOT_KNOWN} key through"
    with Service(text=ending) as service, Log(service.address, 3) as follower:
        writer = connect(service.address)
        writer.execute("create table t(a)")
        for i in range(5):
            writer.execute("insert into t values (?)", (i,))
        outcome, pulled = follower.pull(1)
        same("pull", (DONE, 4, 3), (outcome, pulled.next, len(blocks_of(pulled))))
        same("pull on", (DENIED, ("B0", 0)), (follower.pull(4)[0], follower.row))
        same("pages", [DONE, DENIED], [follower.get(2, lsn, [0])[0] for lsn in (3, 4)])
        same("the past", 2, one(connect(service.address, 3, None, at=3), "select count(*) from t"))
        same("after it", "SQLITE_PERM", code_of(lambda: connect(service.address, 3, None, at=4)))
        same("and now", "SQLITE_PERM", code_of(lambda: reader(service.address)))
        same("who may", 5, one(reader(service.address, 4), "select count(*) from t"))


if __name__ == "__main__":
    # A service for each request, and the model takes long to start.
    run(
        "zones",
        globals(),
        not_with_the_model=[
            "test_failovers_before_each_request",
            "test_failovers_before_each_request_of_what_nobody_waits_for",
        ],
    )
