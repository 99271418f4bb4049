"""The file with transactions, against the real service, beside a plain bytearray."""

import random
import subprocess
import time

from binding import (
    AUDIT_FULL,
    CONFLICT,
    DENIED,
    DONE,
    FENCED,
    IN_DOUBT,
    LOST,
    MALFORMED,
    File,
    Log,
    PRIMARY,
    SECONDARY,
    Blocks,
    numbered,
    records_of,
)
from check import LONG, MODEL, run, same, true
from service import (
    CLIENT,
    Answer,
    Asker,
    Proxy,
    Service,
    START_TABLE,
    TABLE,
    failing_over,
    plain_environment,
    random_plan,
    wire,
)


def opened(address, principal=2, **more):
    """An open file: of a writer with an operator, where `more` does not say otherwise."""
    if not more.get("reads_only"):
        more.setdefault("operator", 1)
    made = File(address, principal, **more)
    same("open", DONE, made.open())
    return made


def change(file, model, numbers, most):
    """A random change of both."""
    kind, size = numbers.random(), len(model)
    if kind < 0.8:
        offset = numbers.randrange(min(size + 20000, most))
        data = numbers.randbytes(numbers.choice([1, 8, 100, 8192, 20000]))
        same("write", DONE, file.write(offset, data))
        if offset > size:
            model.extend(bytes(offset - size))
        model[offset : offset + len(data)] = data
    else:
        new = numbers.randrange(most) if kind < 0.9 else size // 2
        same("resize", DONE, file.resize(new))
        del model[new:]
        model.extend(bytes(new - len(model)))


def test_transactions_beside_a_plain_file():
    """Random changes, undone or committed; a reader sees each commit as a whole, and what a new reader sees is the same."""
    rounds, most = (2000, 2200000) if LONG else (50, 120000)
    for seed, cache, written in ((1, 0, 0), (2, 16, 3)):
        numbers = random.Random(seed)
        with Service() as service, opened(
            service.address, cache_pages=cache, written=written
        ) as file, opened(service.address, 3, reads_only=True, cache_pages=cache) as reader:
            model, committed, lsns = bytearray(), bytearray(), {}
            for _ in range(rounds):
                same("begin", DONE, file.begin())
                for _ in range(numbers.randrange(5)):
                    change(file, model, numbers, most)
                same("size", len(model), file.size)
                at = numbers.randrange(len(model) + 100)
                same("read", (DONE, bytes(model[at : at + 30000])), file.read(at, 30000))
                if numbers.random() < 0.2:
                    file.undo()
                    model[:] = committed
                else:
                    same("commit", DONE, file.commit())
                    committed[:] = model
                lsns[file.state.lsn] = bytes(committed)
                if numbers.random() < 0.3:
                    same("begin", DONE, reader.begin())
                    same("reader", committed, reader.whole())
            same("begin", DONE, file.begin())
            same("writer", committed, file.whole())
            for lsn in random.Random(seed).sample(sorted(lsns), 5):
                with opened(service.address, 4, reads_only=True, at=lsn) as past:
                    same("begin", DONE, past.begin())
                    same(f"as of {lsn}", lsns[lsn], past.whole())


def test_a_reader_keeps_its_snapshot():
    with Service() as service, opened(service.address) as file, opened(
        service.address, 3, reads_only=True
    ) as reader:
        same(
            "write", (DONE, DONE, DONE), (file.begin(), file.write(0, b"one" * 9000), file.commit())
        )
        same("begin", DONE, reader.begin())
        same("first", (DONE, b"one"), reader.read(0, 3))
        same(
            "write", (DONE, DONE, DONE), (file.begin(), file.write(0, b"two" * 9000), file.commit())
        )
        same("the rest is fetched as of then", b"one" * 9000, reader.whole())
        same("begin", DONE, reader.begin())
        same("now", b"two" * 9000, reader.whole())
        same("a reader does not commit", (DONE, FENCED), (reader.write(0, b"x"), reader.commit()))


def test_a_reader_that_is_far_behind():
    """It leaps over many transactions, and over one that is too long to be kept aside."""
    with Service() as service, opened(service.address, check_ms=60000) as file, opened(
        service.address, 3, reads_only=True
    ) as reader:
        model = bytearray(b"a" * 100000)
        same(
            "first", (DONE, DONE, DONE), (file.begin(), file.write(0, bytes(model)), file.commit())
        )
        same("begin", DONE, reader.begin())
        same("first", model, reader.whole())
        for i in range(600):
            model[100 * i : 100 * i + 4] = b"%04d" % i
            same(
                "commit",
                (DONE, DONE, DONE),
                (file.begin(), file.write(100 * i, b"%04d" % i), file.commit()),
            )
        before = reader.state.wire.requests
        same("begin", DONE, reader.begin())
        true("in few requests", reader.state.wire.requests - before < 6)
        same("leapt", (model, 601), (reader.whole(), reader.state.transaction))
        if LONG:
            model[:] = random.Random(1).randbytes(12 << 20)
            same(
                "long",
                (DONE, DONE, DONE),
                (file.begin(), file.write(0, bytes(model)), file.commit()),
            )
            same("begin", DONE, reader.begin())
            same("long", model, reader.whole())


def test_what_an_update_costs():
    with Service() as service, opened(service.address, check_ms=10000) as file:
        file.begin(), file.write(0, bytes(range(256)) * 320), file.commit()
        before = file.state.wire
        for i in range(10):
            same(
                "update",
                (DONE, DONE, DONE),
                (file.begin(), file.write(5000, b"%08d" % i), file.commit()),
            )
        after = file.state.wire
        same("round trips", 10, after.round_trips - before.round_trips)
        same("requests", 30, after.requests - before.requests)
        true("bytes", after.bytes_sent - before.bytes_sent <= 303 * 10)
        same(
            "nothing",
            (DONE, DONE, DONE),
            (file.begin(), file.write(5000, b"%08d" % 9), file.commit()),
        )
        same("no request", after.requests, file.state.wire.requests)
        return f"{(after.bytes_sent - before.bytes_sent) // 10} bytes an update"


class Tidying:
    """A proxy's rule: it counts what is asked between two commits, and meets the report or the tidy there by `meets`."""

    def __init__(self, operation=None, meets=None):
        self.operation, self.meets, self.reports, self.tidies, self.is_after_report = (
            operation,
            meets,
            0,
            0,
            False,
        )

    def __call__(self, frame):
        is_second_report = frame[33] == wire.REPORT and self.is_after_report
        self.reports += is_second_report
        self.tidies += frame[33] == wire.TIDY
        self.is_after_report = frame[33] in (wire.REPORT, wire.TIDY)
        if (
            self.meets
            and frame[33] == self.operation
            and (is_second_report or frame[33] == wire.TIDY)
        ):
            meets, self.meets = self.meets, None
            return meets(frame)
        return frame


def longest_replays(blocks):
    """Of each page how many blocks have to be applied at most, from one that makes the whole page on."""
    since, most = {}, {}
    for block in blocks:
        _, records = records_of(block)
        touched = {page for page, *_ in records}
        whole = {page for page, *put in records if not put or len(put[1]) == 8192}
        for page in touched:
            since[page] = 1 if page in whole else since.get(page, 0) + 1
            most[page] = max(most.get(page, 0), since[page])
    return most


def test_no_page_has_a_long_replay():
    """Each page, and the one of the end mark, is written as a whole with one of 256 commits that change it."""
    numbers, commits = random.Random(7), 700
    with Service() as service:
        wanted = bytearray(numbers.randbytes(3 * 8192))
        with opened(service.address) as file:
            same(
                "commit",
                (DONE, DONE, DONE),
                (file.begin(), file.write(0, bytes(wanted)), file.commit()),
            )
            for number in range(commits):
                same("begin", DONE, file.begin())
                for at in (10, 8192 + number % 8000) if number % 2 else (10,):
                    wanted[at : at + 4] = number.to_bytes(4, "big")
                    same("write", DONE, file.write(at, bytes(wanted[at : at + 4])))
                same("commit", DONE, file.commit())
        with Asker(service.address, 3, wire.SECONDARY) as asker:
            most = longest_replays(asker.blocks())
        same("pages", [0, 1, 2, 3], sorted(most))
        true(
            f"at most 256 blocks, and not one: {most}",
            all(64 < most[page] <= 256 for page in (0, 1, 2)) and most[3] == 1,
        )
        with opened(service.address, 3, reads_only=True) as reader:
            same("reader", (DONE, bytes(wanted)), (reader.begin(), reader.whole()))


def test_the_page_of_the_end_mark_is_never_without_it():
    """Where it is written as a whole, zeros first, both are in one block, however few bytes that block has left."""
    with Service() as service:
        with opened(service.address) as file:
            same(
                "commit",
                (DONE, DONE, DONE),
                (file.begin(), file.write(0, bytes(4 * 8192)), file.commit()),
            )
            for left in range(46, 58):
                while file.state.transaction % 256 != 255:
                    data = bytes([file.state.transaction % 251])
                    same(
                        "commit",
                        (DONE, DONE, DONE),
                        (file.begin(), file.write(5 * 8192, data), file.commit()),
                    )
                # Three pages and the most of a fourth, which end the block's records so many bytes before its end.
                data = bytes([1 + left]) * (4 * 8192 - 83 - left)
                same(
                    "commit", (DONE, DONE, DONE), (file.begin(), file.write(0, data), file.commit())
                )
        with Asker(service.address, 3, wire.SECONDARY) as asker:
            cleared = [
                records
                for records in (records_of(block)[1] for block in asker.blocks())
                if (0,) in records
            ]
        same("times", 12, len(cleared))
        true(
            "and the mark last",
            all(records[-2] == (0,) and records[-1][:2] == (0, 0) for records in cleared),
        )
        lengths = {
            sum(5 if len(record) == 1 else 9 + len(record[2]) for record in records)
            for records in cleared
        }
        true(
            f"some began a block of their own: {sorted(lengths)}",
            54 in lengths and max(lengths) > 32000,
        )


def test_the_service_tidies_up_after_much_was_sent():
    """Once for each 256 KiB at most, after a commit that was waited for, in the name of the operator if there is one."""
    small, middle, large = 5000, 60000, 400000
    cases = [
        ("small", 1, 0, [small] * 20, 0, 0),
        ("middle", 1, 0, [middle] * 10, 3, 3),
        ("large", 1, 0, [large] * 4, 4, 4),
        ("longer than a window", 1, 0, [2500000], 1, 1),
        ("no operator", None, 0, [large] * 4, 4, 0),
        ("nobody waits", 1, 64, [middle] * 10, 0, 0),
    ]
    for what, operator, unwaited, sizes, reports, tidies in cases:
        rule, numbers = Tidying(), random.Random(12)
        with Service() as service, Proxy(service.address, between=rule) as proxy, opened(
            proxy.address, 2, operator=operator, unwaited=unwaited, check_ms=3600000
        ) as file:
            trips = file.state.wire.round_trips
            for size in sizes:
                wanted = numbers.randbytes(size)
                same(
                    "commit",
                    (DONE, DONE, DONE),
                    (file.begin(), file.write(0, wanted), file.commit()),
                )
                if unwaited == 0:
                    blocks = -(-size // 31000)
                    true("no wait for it", file.state.wire.round_trips - trips <= -(-blocks // 64))
                trips = file.state.wire.round_trips
            same("settled", DONE, file.settle())
            wanted = bytes([wanted[0] ^ 1]) + wanted[1:]
            same(
                "one more",
                (DONE, DONE, DONE, DONE),
                (file.begin(), file.write(0, wanted[:1]), file.commit(), file.settle()),
            )
            if unwaited == 0:
                same(what, (reports, tidies), (rule.reports, rule.tidies))
            same(f"{what}: tidies", tidies, rule.tidies)
            with opened(service.address, 3, reads_only=True) as new:
                true(f"{what}: a reader", new.begin() == DONE and new.whole()[:size] == wanted)


def test_faults_while_the_service_tidies_up():
    """At the report or the tidy after a commit the connection is cut, the request is refused, or the epoch ends. The commit is
    done, nothing is said of it, and what comes next is done too, or fenced."""
    first, second = random.Random(13).randbytes(400000), random.Random(14).randbytes(300000)
    bodies = [b"\5\2\0\0" + bytes(8), b"\6", b"\7", b"\x08"]
    for operation in (wire.REPORT, wire.TIDY):
        with Service(dbs=7) as service:
            ways = [("cut", lambda frame: None)]
            ways += [
                (f"answered {body!r}", lambda frame, body=body: Answer(body)) for body in bodies
            ]

            def fail_over(frame):
                with service.operator(6) as operator:
                    operator.failover(5)
                return frame

            for database, (what, meets) in enumerate(ways + [("the epoch ends", fail_over)]):
                rule = Tidying(operation, meets)
                what = f"{what} at operation {operation}"
                database = 6 if meets == fail_over else database
                with Proxy(service.address, between=rule) as proxy, opened(
                    proxy.address, 2, check_ms=3600000, database=database
                ) as file, opened(service.address, 3, reads_only=True, database=database) as reader:
                    same(
                        what,
                        (DONE, DONE, DONE),
                        (file.begin(), file.write(0, first), file.commit()),
                    )
                    same(f"{what}: as it was", (DONE, first), (reader.begin(), reader.whole()))
                    same(f"{what}: what it reads", (DONE, first), (file.begin(), file.whole()))
                    same("write", DONE, file.write(0, second))
                    wanted = FENCED if meets == fail_over else DONE
                    same(f"{what}: the next one", (wanted, None), (file.commit(), rule.meets))
                    same(
                        f"{what}: a reader",
                        (DONE, True),
                        (
                            reader.begin(),
                            reader.whole()
                            == (first if wanted == FENCED else second + first[300000:]),
                        ),
                    )
                    tidies = rule.tidies
                    if wanted == DONE:
                        same(
                            "large",
                            (DONE, DONE, DONE),
                            (file.begin(), file.write(0, first), file.commit()),
                        )
                        same(
                            "small",
                            (DONE, DONE, DONE),
                            (file.begin(), file.write(0, b"x"), file.commit()),
                        )
                        same(f"{what}: tidies again", what.startswith("cut"), rule.tidies > tidies)
                        same(
                            f"{what}: at last",
                            (DONE, b"x" + first[1:]),
                            (reader.begin(), reader.whole()),
                        )


class CutsOff:
    """A proxy's rule. Once it is armed it cuts the connection after the first two blocks, so that the group is halved, lets
    the next report pass, and then cuts all: the first half of a transaction is in the log, without an end mark, and no other
    block of it has come to the service."""

    def __init__(self):
        self.is_armed, self.writes, self.reports = False, 0, 0

    def __call__(self, frame):
        if not self.is_armed:
            return frame
        if self.reports == 1:
            return None
        self.writes += frame[33] == wire.WRITE
        self.reports += frame[33] == wire.REPORT
        return None if frame[33] == wire.WRITE and self.writes == 5 else frame


def cut_off(service, principal=2):
    """Leaves the first blocks of a transaction in the log, as a writer does that is killed in the midst of it."""
    rule = CutsOff()
    with Proxy(service.address, between=rule) as proxy, opened(
        proxy.address, principal, patience_ms=200
    ) as file:
        same("begin", DONE, file.begin())
        same("write", DONE, file.write(0, random.Random(5).randbytes(150000)))
        rule.is_armed = True
        true("not committed", file.commit() in (LOST, IN_DOUBT))


def test_a_transaction_that_was_cut_off_is_undone():
    for table in (TABLE, START_TABLE):
        with Service(table=table) as service, opened(
            service.address, 5 if table == TABLE else 2
        ) as old:
            wanted = random.Random(6).randbytes(200000)
            old.begin(), old.write(0, wanted)
            same("commit", DONE, old.commit())
            early = opened(service.address, 3, reads_only=True) if table == TABLE else None
            if early:
                same("all pages in memory", (DONE, wanted), (early.begin(), early.whole()))
            cut_off(service)
            with service.operator() as operator:
                hard = operator.status()[2]
            true("blocks without an end", hard > old.state.lsn)
            if table == TABLE:
                with early:
                    same(
                        "who was there before does not see them",
                        (DONE, wanted),
                        (early.begin(), early.whole()),
                    )
                with opened(service.address, 3, reads_only=True) as reader:
                    same("begin", DONE, reader.begin())
                    same("a reader does not see them", wanted, reader.whole())
                    with opened(service.address, 2) as file:
                        same("repaired", 1, file.state.repairs)
                        same("begin", DONE, reader.begin())
                        same("nor once they are undone", wanted, reader.whole())
                        same(
                            "a small change",
                            (DONE, DONE, DONE),
                            (file.begin(), file.write(7, b"small"), file.commit()),
                        )
                    same("begin", DONE, reader.begin())
                    same("nor after it", wanted[:7] + b"small" + wanted[12:], reader.whole())
                with opened(service.address, 4, reads_only=True) as new:
                    same("begin", DONE, new.begin())
                    same("a new reader", wanted[:7] + b"small" + wanted[12:], new.whole())
            else:
                with opened(service.address, 2) as file:
                    same("repaired", 1, file.state.repairs)
                    same("begin", DONE, file.begin())
                    same("all pages compared", wanted, file.whole())


def test_a_fenced_writer_follows():
    with Service() as service, opened(service.address, 2) as old:
        old.begin(), old.write(0, b"a" * 20000)
        same("commit", DONE, old.commit())
        same("begin", DONE, old.begin())
        same("write", DONE, old.write(0, b"b" * 20000))
        with opened(service.address, 5) as new:
            same("new", (DONE, DONE, DONE), (new.begin(), new.write(0, b"c" * 10), new.commit()))
            same("fenced", FENCED, old.commit())
            true("and says so", old.state.is_fenced and "A2" in old.words)
            same("begin", DONE, old.begin())
            same("it follows", b"c" * 10 + b"a" * 19990, old.whole())
            same("new", (DONE, DONE, DONE), (new.begin(), new.write(0, b"d" * 5), new.commit()))
            same("begin", DONE, old.begin())
            same("and goes on", b"d" * 5 + b"c" * 5 + b"a" * 19990, old.whole())
            same("for good", (DONE, FENCED), (old.write(0, b"x"), old.commit()))


def test_a_fenced_writer_fetches_on():
    """It is fenced in the midst of a transaction that has to fetch pages: it reads on at its snapshot."""
    with Service() as service, opened(service.address, 2, cache_pages=16) as old:
        wanted = random.Random(8).randbytes(250000)
        old.begin(), old.write(0, wanted)
        same("commit", DONE, old.commit())
        same("begin", DONE, old.begin())
        with opened(service.address, 5) as new:
            same("new", (DONE, DONE, DONE), (new.begin(), new.write(0, b"c" * 50000), new.commit()))
            same("its snapshot", wanted, old.whole())


def test_a_commit_whose_report_meets_a_failover_is_done():
    """An operator ends the epoch just before the last report of a commit of one block, and of more than a window. Each block is
    in two copies, so the failover has put it into the log, and the commit is done; the next one is not.
    """
    large = random.Random(9).randbytes(2200000)
    for unwaited, changed, reports in ((0, b"b" * 10, 1), (64, b"b" * 10, 1), (0, large, 2)):
        for to in (2, 5):
            with Service() as service, opened(service.address, 3, reads_only=True) as reader, Proxy(
                service.address, between=failing_over(service, wire.REPORT, 1 + reports, to)
            ) as proxy, opened(proxy.address, 2, unwaited=unwaited, check_ms=3600000) as file:
                wanted = changed + (b"a" * 20)[len(changed) :]
                same(
                    "before",
                    (DONE, DONE, DONE, DONE),
                    (file.begin(), file.write(0, b"a" * 20), file.commit(), file.settle()),
                )
                same("at the failover", (DONE, DONE), (file.begin(), file.write(0, changed)))
                same("done", (DONE, DONE, 0), (file.commit(), file.settle(), file.state.losses))
                same(
                    "in an epoch that is over", (2, 3), (file.state.writing_epoch, file.state.epoch)
                )
                same(
                    "a reader",
                    (DONE, True, 2),
                    (reader.begin(), reader.whole() == wanted, reader.state.transaction),
                )
                with opened(service.address, 4, reads_only=True) as new:
                    same("a new reader", (DONE, True), (new.begin(), new.whole() == wanted))
                same("the next one", (DONE, DONE), (file.begin(), file.write(0, b"c")))
                outcome = file.commit()
                same(
                    "is refused",
                    (FENCED, True),
                    (file.settle() if unwaited else outcome, file.state.is_fenced),
                )
                same("and not there", (DONE, True), (reader.begin(), reader.whole() == wanted))
                same("it follows", (DONE, True), (file.begin(), file.whole() == wanted))


def test_half_a_transaction_that_a_failover_puts_into_the_log_is_not_committed():
    """An operator ends the epoch before the report of the first 64 blocks: they are in the log, without an end mark."""
    with Service() as service, opened(service.address, 3, reads_only=True) as reader, Proxy(
        service.address, between=failing_over(service, wire.REPORT, 2)
    ) as proxy, opened(proxy.address, 2) as file:
        numbers = random.Random(10)
        wanted = numbers.randbytes(50000)
        same("before", (DONE, DONE, DONE), (file.begin(), file.write(0, wanted), file.commit()))
        before = file.state.end
        same("write", (DONE, DONE), (file.begin(), file.write(0, numbers.randbytes(2200000))))
        same("fenced", (FENCED, True), (file.commit(), "A2" in file.words))
        with service.operator() as operator:
            same("half of it is in the log", before + 64, operator.status()[2])
        same("a reader", (DONE, True), (reader.begin(), reader.whole() == wanted))
        same("it follows", (DONE, True), (file.begin(), file.whole() == wanted))
        with opened(service.address, 5) as new:
            same(
                "the next writer",
                (1, DONE, True),
                (new.state.repairs, new.begin(), new.whole() == wanted),
            )


def test_a_commit_in_doubt_is_settled():
    """The report is never answered, once since it was not carried and once since its reply was not."""
    for carried in (False, True):
        with Service() as service:
            cuts = [None]

            def between(frame):
                """Cuts at the first report, and at the nine requests after it."""
                if frame[33] == wire.REPORT and cuts[0] is None:
                    cuts[0] = 10
                    if carried:
                        with service.operator() as operator:
                            operator.carry(frame)
                if not cuts[0]:
                    return frame
                cuts[0] -= 1
                return None

            with Proxy(service.address, between=between) as proxy, opened(
                proxy.address, 2, patience_ms=600000
            ) as file:
                same(
                    "commit",
                    (DONE, DONE, DONE),
                    (file.begin(), file.write(0, b"x" * 100), file.commit()),
                )
                same(
                    "once more",
                    (DONE, DONE, DONE),
                    (file.begin(), file.write(0, b"y" * 50), file.commit()),
                )
                with opened(service.address, 3, reads_only=True) as reader:
                    same("begin", DONE, reader.begin())
                    same("reader", b"y" * 50 + b"x" * 50, reader.whole())


def test_a_commit_in_doubt_is_looked_for_later():
    """The service is away for longer than there is patience; the next begin reports what became of it."""
    for carried in (0, 1, 2):
        with Service() as service:
            away, seen = [False], [0]

            def between(frame):
                if frame[33] == wire.WRITE:
                    seen[0] += 1
                if (
                    frame[33] == wire.WRITE
                    and seen[0] > 2 + carried
                    or frame[33] == wire.REPORT
                    and seen[0] > 2
                ):
                    away[0] = True
                return None if away[0] else frame

            with Proxy(service.address, between=between) as proxy, opened(
                proxy.address, 2, patience_ms=1
            ) as file:
                same(
                    "first",
                    (DONE, DONE, DONE),
                    (file.begin(), file.write(0, b"a" * 100), file.commit()),
                )
                same("begin", DONE, file.begin())
                file.write(0, b"b" * 50)
                outcome = file.commit()
                true("not done", outcome in (IN_DOUBT, LOST))
                true("broken", file.state.is_broken)
                file.undo()
                away[0], seen[0] = False, -1000
                same("begin", DONE, file.begin())
                found = file.whole()
                true("one or the other", found in (b"a" * 100, b"b" * 50 + b"a" * 50))
                if outcome == LOST:
                    same("never", b"a" * 100, found)
                same("on", (DONE, DONE), (file.write(60, b"z"), file.commit()))
                with opened(service.address, 3, reads_only=True) as reader:
                    same("begin", DONE, reader.begin())
                    same("reader", found[:60] + b"z" + found[61:], reader.whole())


def test_a_broken_file_takes_no_commit_before_it_begins_again():
    """The first half of a transaction is in the log, the rest is not: nothing may be built upon it."""
    with Service() as service:
        rule, wanted = CutsOff(), b"a" * 150000
        with Proxy(service.address, between=rule) as proxy, opened(
            proxy.address, 2, patience_ms=200
        ) as file:
            same("commit", (DONE, DONE, DONE), (file.begin(), file.write(0, wanted), file.commit()))
            same("begin", DONE, file.begin())
            same("write", DONE, file.write(0, random.Random(5).randbytes(150000)))
            rule.is_armed = True
            true("not committed", file.commit() in (LOST, IN_DOUBT))
            true("broken", file.state.is_broken)
            true("blocks without an end", file.state.end > file.state.lsn)
            rule.is_armed = False
            file.undo()
            same("nothing differs", (DONE, DONE), (file.write(0, b"aaa"), file.commit()))
            same("something does", (DONE, CONFLICT), (file.write(0, b"b"), file.commit()))
            same("begin", DONE, file.begin())
            same("as before", wanted, file.whole())
            same("and on", (DONE, DONE), (file.write(0, b"b"), file.commit()))
        with opened(service.address, 3, reads_only=True) as reader:
            same("begin", DONE, reader.begin())
            same("reader", b"b" + wanted[1:], reader.whole())


class Ungot:
    """A rule: while it is armed no get is answered."""

    is_armed = False

    def __call__(self, frame):
        return None if self.is_armed and frame[33] == wire.GET else frame


def test_no_commit_is_built_on_what_a_begin_could_not_read():
    """Another session of the epoch has committed. The begin that learns so finds no end mark, and its writer goes on all the same."""
    with Service() as service:
        rule = Ungot()
        with Proxy(service.address, between=rule) as proxy, opened(
            proxy.address, 2, patience_ms=200
        ) as file, opened(service.address, 2, operator=None) as other:
            same("commit", (DONE, DONE, DONE), (file.begin(), file.write(0, b"aaa"), file.commit()))
            same(
                "the other",
                (DONE, DONE, DONE),
                (other.begin(), other.write(0, b"bbb"), other.commit()),
            )
            rule.is_armed = True
            same("begin", LOST, file.begin())
            rule.is_armed = False
            same("commit", (DONE, CONFLICT), (file.write(2, b"c"), file.commit()))
            same("begin", (DONE, b"bbb"), (file.begin(), file.whole()))
            same("commit", (DONE, DONE), (file.write(2, b"c"), file.commit()))
        with opened(service.address, 3, reads_only=True) as reader:
            same("begin", (DONE, b"bbc"), (reader.begin(), reader.whole()))


class GoesOnMeanwhile:
    """A rule: once it is armed, the connection is lost at the next report, and what is called then comes before the next one."""

    then = None

    def __call__(self, frame):
        then = self.then
        if then is None or frame[33] != wire.REPORT:
            return frame
        self.then = None
        then()
        return None


def test_no_commit_is_built_on_what_came_while_its_replies_were_lost():
    """The commit is found in the log, and another session has gone on from there. The next begin is not due to ask."""
    with Service() as service:
        rule = GoesOnMeanwhile()
        with Proxy(service.address, between=rule) as proxy, opened(
            proxy.address, 2, check_ms=3600000
        ) as file, opened(service.address, 2, operator=None) as other, Asker(
            service.address, 2, wire.PRIMARY, epoch=file.state.writing_epoch
        ) as by_hand:
            same("commit", (DONE, DONE, DONE), (file.begin(), file.write(0, b"aaa"), file.commit()))

            def go_on():
                same("report", b"\0", by_hand.once(wire.REPORT, wire.report(2)))
                same(
                    "the other",
                    (DONE, DONE, DONE),
                    (other.begin(), other.write(0, b"ccc"), other.commit()),
                )

            rule.then = go_on
            same("found", (DONE, DONE, DONE), (file.begin(), file.write(0, b"bbb"), file.commit()))
            same("what is read", (DONE, b"ccc"), (file.begin(), file.whole()))
            same("commit", (DONE, DONE), (file.write(2, b"d"), file.commit()))
        with opened(service.address, 3, reads_only=True) as reader:
            same("reader", (DONE, b"ccd"), (reader.begin(), reader.whole()))


class NoFailover:
    """A rule: while it is armed each connection is lost at its failover."""

    is_armed = False

    def __call__(self, frame):
        return None if self.is_armed and frame[33] == wire.FAILOVER else frame


def test_a_commit_in_doubt_that_came_in_part_is_undone_by_the_next_begin():
    """Another session of the epoch has the LSN of its first block, and the failover that would settle it gets no answer."""
    with Service() as service:
        rule = NoFailover()
        with Proxy(service.address, between=rule) as proxy, opened(
            proxy.address, 2, check_ms=3600000, patience_ms=200
        ) as file, opened(service.address, 2, operator=None) as other:
            wanted = random.Random(7).randbytes(150000)
            same("commit", (DONE, DONE, DONE), (file.begin(), file.write(0, wanted), file.commit()))
            same(
                "the other",
                (DONE, DONE, DONE),
                (other.begin(), other.write(0, b"ccc"), other.commit()),
            )
            same(
                "write",
                (DONE, DONE),
                (file.begin(), file.write(0, random.Random(8).randbytes(150000))),
            )
            rule.is_armed = True
            same("commit", IN_DOUBT, file.commit())
            rule.is_armed = False
            file.undo()
            same("undone", (DONE, b"ccc" + wanted[3:]), (file.begin(), file.whole()))
            same("and on", (DONE, DONE), (file.write(0, b"d"), file.commit()))
        with opened(service.address, 3, reads_only=True) as reader:
            same("reader", (DONE, b"dcc" + wanted[3:]), (reader.begin(), reader.whole()))


def test_nothing_is_built_upon_half_a_transaction():
    """The first half is in the log, and the table denies the rest: nothing is in the window, and still no commit may follow
    before the file has begun again."""
    denied = TABLE.read_text().replace(
        "[[row]]", '[[row]]\nverdict = "deny"\nwho = 2\nop = ["write"]\n\n[[row]]', 1
    )
    with Service() as service, service.operator() as operator:
        step, writes, wanted = ["rest"], [0], b"a" * 150000

        def between(frame):
            """Cuts after the first two blocks, lets the report of the halved group pass, and has the next write denied."""
            if step[0] == "cut" and frame[33] == wire.WRITE:
                writes[0] += 1
                if writes[0] == 5:
                    step[0] = "halve"
                    return None
            elif step[0] == "halve" and frame[33] == wire.REPORT:
                step[0] = "deny"
            elif step[0] == "deny" and frame[33] == wire.WRITE:
                step[0] = "rest"
                operator.set_table(denied)
            return frame

        with Proxy(service.address, between=between) as proxy, opened(proxy.address, 2) as file:
            same("commit", (DONE, DONE, DONE), (file.begin(), file.write(0, wanted), file.commit()))
            same("begin", DONE, file.begin())
            same("write", DONE, file.write(0, random.Random(5).randbytes(150000)))
            step[0] = "cut"
            same("denied", (DENIED, True), (file.commit(), file.state.is_broken))
            true("half of it is in the log", file.state.end > file.state.lsn)
            operator.set_table(TABLE.read_text())
            file.undo()
            same("no commit", (DONE, CONFLICT), (file.write(0, b"b"), file.commit()))
            same("begin", DONE, file.begin())
            same("as before", wanted, file.whole())
            same("and on", (DONE, DONE), (file.write(0, b"b"), file.commit()))
        with opened(service.address, 3, reads_only=True) as reader:
            same("begin", DONE, reader.begin())
            same("reader", b"b" + wanted[1:], reader.whole())


def test_a_database_of_something_else():
    with Service() as service:
        with Log(service.address, 2) as log:
            same("take over", DONE, log.take_over())
            blocks = Blocks(1)
            blocks.put(0, 0, b"something else"), blocks.end()
            same("append", DONE, log.append(blocks))
        with File(service.address, 2, operator=1) as file:
            same("open", MALFORMED, file.open())
            true("words", "page 0 was written by another client" in file.words)
            same("not open", MALFORMED, file.begin())


def test_a_peer_that_never_comes_to_the_end_of_the_log():
    """It answers each pull with no blocks, and says that the next one goes on at the same place."""
    with Service() as service:
        pulls = [0]

        def between(frame):
            if frame[33] != wire.PULL:
                return frame
            pulls[0] += 1
            return Answer(b"\1" + frame[38:46] + b"\0\0") if pulls[0] < 100 else None

        with Log(service.address, 2) as log:
            same(
                "a block without an end",
                (DONE, DONE),
                (log.take_over(), log.append(numbered(1, 1, page=1))),
            )
        with Proxy(service.address, between=between) as proxy:
            file = File(proxy.address, 2, operator=1, patience_ms=100)
            with file:
                same("no service", (MALFORMED, 1), (file.open(), pulls[0]))


def test_limits_of_a_file():
    with Service() as service, opened(service.address, 2) as file:
        same("begin", DONE, file.begin())
        most = 4294967295 * 8192
        same("too long", (MALFORMED, MALFORMED), (file.resize(most + 1), file.write(most, b"x")))
        same("resize", DONE, file.resize(3 * 8192 + 5))
        same("commit", DONE, file.commit())
        same("read", (DONE, bytes(3 * 8192 + 5)), file.read(0, 1 << 20))
        same("after the end", (DONE, b""), file.read(1 << 40, 100))
        same("shorter", (DONE, DONE, DONE), (file.begin(), file.resize(0), file.commit()))
        same("empty", 0, file.size)


def test_stale_readers():
    with Service() as service, opened(service.address, 2) as file:
        file.begin(), file.write(0, b"a" * 20000)
        same("commit", DONE, file.commit())
        with opened(service.address, 3, reads_only=True, patience_ms=1) as strict, opened(
            service.address, 3, reads_only=True, patience_ms=1, may_be_stale=True
        ) as lenient:
            for reader in (strict, lenient):
                same("begin", DONE, reader.begin())
                same("read", b"a" * 20000, reader.whole())
            service.end()
            same("strict", LOST, strict.begin())
            same("lenient", DONE, lenient.begin())
            true("stale", lenient.state.is_stale)
            same("its pages", b"a" * 20000, lenient.whole())


def test_a_service_that_was_restarted():
    with Service() as service, opened(service.address, 2) as file, opened(
        service.address, 3, reads_only=True
    ) as reader:
        file.begin(), file.write(0, b"a" * 20000)
        same("commit", DONE, file.commit())
        same("begin", DONE, reader.begin())
        service.end()
        with Service(listen=service.address):
            same("writer", (FENCED, True), (file.begin(), "restarted" in file.words))
            same("reader", (FENCED, True), (reader.begin(), "restarted" in reader.words))


def test_cut_connections():
    """Connections that are cut at any byte: each commit survives its cuts, and the file is what was committed."""
    wanted = 300 if LONG else 20
    with Service(workers=64) as service:
        with Proxy(service.address, plan=random_plan(3, 2000, 120000)) as proxy:
            with opened(proxy.address, 2, patience_ms=600000) as file:
                model, numbers, commits = bytearray(), random.Random(4), 0
                while commits < wanted or proxy.cuts < 5:
                    same("begin", DONE, file.begin())
                    for _ in range(3):
                        change(file, model, numbers, 300000)
                    same("commit", (DONE, file.words), (file.commit(), file.words))
                    commits += 1
            with opened(proxy.address, 3, reads_only=True) as reader:
                same("begin", DONE, reader.begin())
                same("what was committed", bytes(model), reader.whole())
            return f"{commits} commits over {proxy.cuts} cuts"


class Fault:
    """A proxy's rule: at a request that the seed picks, the connection is cut, or the epoch ends, or both."""

    KINDS = (
        "cut",
        "carried and cut",
        "failover",
        "failover and cut",
        "carried, failover and cut",
        "away",
        "carried and away",
    )

    def __init__(self, operator, numbers):
        self.operator, self.kind = operator, numbers.choice(self.KINDS)
        self.to, self.left, self.is_away = numbers.choice([2, 5]), numbers.randrange(1, 25), False

    def __call__(self, frame):
        self.left -= 1
        if self.is_away:
            return None
        if self.left != 0:
            return frame
        if self.kind.startswith("carried"):
            self.operator.carry(frame)
        if "failover" in self.kind:
            self.operator.failover(self.to)
        self.is_away = "away" in self.kind
        return frame if self.kind == "failover" else None


def write_until_refused(file, model, numbers):
    """Some commits of random changes to a model of the file; the last one's outcome, and what it would have made of it."""
    for _ in range(numbers.randrange(1, 4)):
        changed = bytearray(model)
        if file.begin() != DONE:
            return LOST, model
        for _ in range(numbers.randrange(1, 4)):
            offset = numbers.randrange(60000)
            data = numbers.randbytes(
                numbers.choice([1, 30, 3000, 60000 if numbers.random() < 0.3 else 100])
            )
            if file.write(offset, data) != DONE:
                return LOST, model
            changed.extend(bytes(max(offset - len(changed), 0)))
            changed[offset : offset + len(data)] = data
        outcome = file.commit()
        if outcome != DONE:
            return outcome, changed
        model[:] = changed
    return DONE, model


def test_faults_from_seeds():
    """Hundreds of writers, each of which meets a fault at some request and goes without a word: what was acknowledged is
    there, what was refused is not, and what was in doubt is there as a whole or not at all."""
    model, outcomes = bytearray(), {}
    with Service(workers=64) as service, service.operator() as operator:
        for seed in range(4000 if LONG else 20 if MODEL else 300):
            numbers = random.Random(seed)
            of_proxy = (
                service.operator()
            )  # which may go on with what the file has sent when it is gone
            rule, principal = Fault(of_proxy, numbers), numbers.choice([2, 5])
            with of_proxy, Proxy(service.address, between=rule) as proxy, File(
                proxy.address, principal, operator=1, patience_ms=1
            ) as file:
                outcome = file.open()
                outcome, changed = (
                    write_until_refused(file, model, numbers) if outcome == DONE else (LOST, model)
                )
                is_undone = file.state.is_restarted
            true(
                f"seed {seed}: {outcome}",
                outcome in (DONE, LOST, FENCED, IN_DOUBT) and not is_undone,
            )
            outcomes[outcome] = outcomes.get(outcome, 0) + 1
            if outcome == IN_DOUBT:
                operator.failover(5)
            with opened(service.address, 3, reads_only=True) as reader:
                same("begin", DONE, reader.begin())
                found = reader.whole()
            if outcome == IN_DOUBT and found == changed:
                model[:] = changed
            true(f"seed {seed}, {rule.kind}: what is there after {outcome}", found == model)
    return f"seeds: {outcomes}"


def write_unwaited(file, states, numbers):
    """Commits that nobody waits for; `states` gets what the file is after each. The last outcome, and from which state on it is
    not known whether they are in the log."""
    known = 0
    for _ in range(numbers.randrange(1, 12)):
        outcome = file.begin()
        if outcome != DONE:
            return outcome, known
        changed = bytearray(states[-1])
        for _ in range(numbers.randrange(1, 4)):
            offset = numbers.randrange(60000)
            data = numbers.randbytes(
                numbers.choice([1, 30, 3000, 60000 if numbers.random() < 0.1 else 100])
            )
            outcome = file.write(offset, data)
            if outcome != DONE:
                return outcome, known
            changed.extend(bytes(max(offset - len(changed), 0)))
            changed[offset : offset + len(data)] = data
        states.append(changed)
        outcome = file.commit()
        if outcome != DONE:
            return outcome, known
        if file.state.on_their_way == 0:
            known = len(states) - 1
    return (file.settle() if numbers.random() < 0.5 else DONE), known


def test_unwaited_commits_and_faults_from_seeds():
    """Hundreds of writers that wait for no commit, and meet a fault at some request. What is in the log afterwards is what the
    file was after some commit, and none that is known to be in it is lacking. A file that lost commits goes on from there.
    """
    model, told, kept = bytearray(), {}, [0, 0]
    with Service(workers=64) as service, service.operator() as operator:
        for seed in range(4000 if LONG else 20 if MODEL else 300):
            numbers = random.Random(seed)
            of_proxy = service.operator()
            rule, principal = Fault(of_proxy, numbers), numbers.choice([2, 5])
            with of_proxy, Proxy(service.address, between=rule) as proxy, File(
                proxy.address,
                principal,
                operator=1,
                patience_ms=1,
                unwaited=numbers.choice([1, 3, 64]),
                check_ms=numbers.choice([0, 3600000]),
            ) as file:
                states, known, outcome = [model], 0, file.open()
                if outcome == DONE:
                    outcome, known = write_unwaited(file, states, numbers)
                    if outcome == DONE and file.state.on_their_way == 0:
                        known = len(states) - 1
                is_over, lost = file.state.is_over, file.state.losses > 0
                if is_over:
                    same(
                        "over",
                        (CONFLICT, CONFLICT, CONFLICT, CONFLICT, CONFLICT),
                        (
                            file.read(0, 1)[0],
                            file.write(0, b"x"),
                            file.resize(1),
                            file.commit(),
                            file.settle(),
                        ),
                    )
                rule.is_away, rule.left = False, -1
                again = file.begin() if lost else None
                own = bytes(file.whole()) if again == DONE else None
            operator.failover(5)
            told[outcome] = told.get(outcome, 0) + 1
            with opened(service.address, 3, reads_only=True) as reader:
                same("begin", DONE, reader.begin())
                found = reader.whole()
            places = [place for place, state in enumerate(states) if state == found]
            true(f"seed {seed}, {rule.kind}, {outcome}: a state that was", places)
            true(
                f"seed {seed}, {rule.kind}, {outcome}: known {known}, found {places}",
                places[-1] >= known,
            )
            if again == DONE:
                same(f"seed {seed}: as the file itself has it", found, own)
            kept = [kept[0] + places[-1], kept[1] + len(states) - 1]
            model = bytearray(found)
    return f"{kept[0]} of {kept[1]} commits that nobody waited for are there, {told}"


def test_unwaited_commits():
    """They need no round trip, are seen by readers soon, and a wait for all of them is one call."""
    with Service() as service, opened(
        service.address, 2, unwaited=40, check_ms=3600000
    ) as file, opened(service.address, 3, reads_only=True) as reader:
        before = file.state.wire.round_trips
        for number in range(100):
            same(
                "commit",
                (DONE, DONE, DONE),
                (file.begin(), file.write(0, b"%08d" % number), file.commit()),
            )
        true("not each one waits", file.state.wire.round_trips - before <= 3)
        while reader.state.transaction < 100:
            same("begin", DONE, reader.begin())
        same("seen", (DONE, b"00000099"), reader.read(0, 8))
        same("settled", (DONE, 0, 100), (file.settle(), file.state.on_their_way, file.state.end))
        same(
            "large",
            (DONE, DONE, DONE),
            (file.begin(), file.write(0, b"x" * 5000000), file.commit()),
        )
        same("then small", (DONE, DONE, DONE), (file.begin(), file.write(0, b"y"), file.commit()))
        same("settled", (DONE, 0), (file.settle(), file.state.on_their_way))
        same("reader", (DONE, b"y" + b"x" * 4999999), (reader.begin(), reader.whole()))
        before, blocks = file.state.wire.round_trips, file.state.blocks_written
        for number in range(20):
            same(
                "some blocks",
                (DONE, DONE, DONE),
                (file.begin(), file.write(0, b"%02d" % number * 100000), file.commit()),
            )
            while file.state.wire.replies < file.state.wire.requests:
                same("its replies", DONE, file.begin())
        same(
            "more than a window, and no wait",
            (True, before),
            (file.state.blocks_written - blocks > 64, file.state.wire.round_trips),
        )
    with Service() as service:
        wanted = random.Random(3).randbytes(800000)
        with opened(service.address) as file:
            same(
                "more than is in memory",
                (DONE, DONE, DONE),
                (file.begin(), file.write(0, wanted), file.commit()),
            )
        with opened(service.address, unwaited=64, check_ms=3600000, cache_pages=16) as file:
            for number in range(40):
                at, data = number * (20000 if number % 3 else 2 * 8192), b"%d" % number * (
                    300 if number % 2 else 8192
                )
                same("begin", DONE, file.begin())
                same("write", DONE, file.write(at, data[:8192]))
                same("commit", DONE, file.commit())
                wanted = wanted[:at] + data[:8192] + wanted[at + len(data[:8192]) :]
                time.sleep(0.002 if number % 5 == 0 else 0)
            same(
                "what is fetched",
                (DONE, wanted, 0),
                (file.begin(), file.whole(), file.state.losses),
            )


def test_lost_commits_are_told_by_the_next_begin():
    """It asks whether the epoch goes on, or looks whether a refusal has come."""
    lost = random.Random(4).randbytes(100000)
    for check in (0, 3600000):
        with Service() as service, opened(
            service.address, 2, unwaited=64, check_ms=check
        ) as old, opened(service.address, 2, reads_only=True) as reader:
            same(
                "commit",
                (DONE, DONE, DONE, DONE),
                (old.begin(), old.write(0, b"a" * 10), old.commit(), old.settle()),
            )
            same("begin", DONE, old.begin())
            with opened(service.address, 5) as new:
                same("new", (DONE, DONE, DONE), (new.begin(), new.write(0, b"n"), new.commit()))
                same(
                    "of an epoch that is over",
                    (DONE, DONE),
                    (old.write(0, b"bb"), old.write(50, lost)),
                )
                same("nobody waits", DONE, old.commit())
                outcome = old.begin()
                while check > 0 and outcome == DONE:
                    outcome = old.begin()
                same(
                    "reported",
                    (FENCED, True, True, 1),
                    (outcome, old.state.is_over, old.state.is_fenced, old.state.losses),
                )
                true("in words", "nobody waited for" in old.words)
                same("until a begin", (CONFLICT, CONFLICT), (old.read(0, 1)[0], old.commit()))
                same("it follows", (DONE, b"n" + b"a" * 9), (old.begin(), old.whole()))
                same("and writes nothing", (DONE, FENCED), (old.write(0, b"x"), old.commit()))
            same("as a reader", (DONE, b"n" + b"a" * 9), (reader.begin(), reader.whole()))


def test_refused_allocations():
    """Of commits that nobody waits for: what was answered before one is refused is not taken for what comes after."""
    with Service() as service:
        ran = subprocess.run(
            [CLIENT / "out" / "checked" / "refused", service.address],
            capture_output=True,
            text=True,
            env=plain_environment(),
        )
        same("refused", (0, ""), (ran.returncode, ran.stderr[-2000:]))
        return ran.stdout.strip()


if __name__ == "__main__":
    run("file", globals())
