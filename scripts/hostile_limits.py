"""Parts of scripts/hostile: more connections, workers, descriptors or memory than there are."""

import os
import pathlib
import resource
import shutil
import socket
import subprocess
import tempfile
import time
from collections import Counter

import wire
from clients import asked, read_reply, same
from hostile_service import (
    DONE,
    EMPTY,
    NO_MEMORY,
    NO_REQUEST,
    PROGRAM,
    SPINNING,
    STATUS,
    TABLE,
    WRITE,
    Serve,
    answered,
    asked_beside,
    at_most,
    grows,
    has_sanitizer,
    sleeps,
    until,
)
from wire import frame

# The address space of a service that is to run out of memory.
ADDRESSES = 200 << 20
# For how many connections a worker has memory from its start, and a user of which nothing else runs.
LINES, NOBODY = 1024, 64999


def closes_at_once(count):
    """Connections that are closed before a byte is sent."""
    service = Serve(count + 1, 2)
    honest = service.connect()
    for _ in range(count):
        service.connect().close()
    same("the honest client's", EMPTY, asked(honest, STATUS))
    honest.close()
    service.ends(count + 1, 0)


def many_at_once(connections, workers):
    """This many connections at once of few workers: half of them are silent, the others ask in turn, and all at once."""
    service = Serve(connections, workers)
    clients = [service.connect() for _ in range(connections)]
    speaking = clients[::2]
    for client in speaking:
        same("one of many", EMPTY, asked(client, STATUS))
    held = service.memory()
    for client in speaking:
        client.sendall(frame(STATUS) * 3)
    for client in reversed(speaking):
        for _ in range(3):
            same("one of many at once", EMPTY, read_reply(client))
    # Half a frame waits for its rest, and holds up no other.
    data = frame(STATUS)
    for client in clients:
        client.sendall(data[:9])
    for client in clients:
        client.sendall(data[9:])
        same("a frame in two pieces", EMPTY, read_reply(client))
    told = grows(f"{connections} connections", held, service.memory(), 512)
    for client in clients:
        client.close()
    service.ends(connections, 0)
    return told


def with_descriptors(count):
    """This script, and services that it starts from now on, may have this many files open."""
    soft, hard = resource.getrlimit(resource.RLIMIT_NOFILE)
    if soft < count:
        try:
            resource.setrlimit(resource.RLIMIT_NOFILE, (count, max(hard, count)))
        except ValueError:
            raise SystemExit(
                f"hostile: it needs {count} open files; run: ulimit -n {count}"
            ) from None


def sets_limit(what, count):
    """How a service is started that has this limit."""
    return {"preexec_fn": lambda: resource.setrlimit(what, (count, count))}


def workers_of(service, clients):
    """The threads that serve these: the one that goes to sleep again each time that a client has asked."""
    found = set()
    for client in clients:
        woken = Counter()
        for _ in range(5):
            before = {thread: sleeps(thread) for thread in service.threads()}
            same("a connection of a worker", EMPTY, asked(client, STATUS))
            until(
                "a worker that sleeps again",
                lambda: any(sleeps(thread) > count for thread, count in before.items()),
            )
            woken.update(thread for thread, count in before.items() if sleeps(thread) > count)
        found.add(woken.most_common(1)[0][0])
    return sorted(found)


def beyond_its_room(more):
    """Two workers with more connections than they have memory for from their start: each is answered, and both take new ones."""
    with_descriptors(2 * LINES + 3 * more)
    service = Serve(2 * LINES + 2 * more, 2, "--idle-polls", 0)
    clients = [service.connect() for _ in range(2 * LINES + 2 * more)]
    for number, client in enumerate(clients, 1):
        answered(f"connection {number} of {len(clients)}", NO_REQUEST, client, b"")
    same("workers of the last ones", 2, len(workers_of(service, clients[-2:])))
    for client in clients:
        client.close()
    service.ends(len(clients), 0)


def breaks_off(client):
    """Closes inside a frame."""
    client.sendall(frame(STATUS)[:9])
    client.close()


def resets(client):
    """Closes without a word to its peer but that it is gone."""
    client.setsockopt(socket.SOL_SOCKET, socket.SO_LINGER, b"\1\0\0\0\0\0\0\0")
    client.close()


def shared_out(closing, faults):
    """Two workers with four connections each. Three of the second one's end in this way: it gets the next three."""
    service = Serve(11, 2, "--idle-polls", 0)
    clients = [service.connect() for _ in range(8)]
    for client in clients:
        same("a new connection", EMPTY, asked(client, STATUS))
    of_first = workers_of(service, clients[:1])
    others = [client for client in clients[1:] if workers_of(service, [client]) != of_first]
    same("connections of the second worker", 4, len(others))
    before = service.descriptors()
    for client in others[1:]:
        closing(client)
    until("the end of three connections", lambda: service.descriptors() == before - 3)
    # Its worker goes on once it has counted them.
    same("the one that is left", EMPTY, asked(others[0], STATUS))
    new = [service.connect() for _ in range(3)]
    for client in new:
        same("a new connection", EMPTY, asked(client, STATUS))
    same(
        "new connections of the second worker, after three that ended",
        workers_of(service, others[:1]),
        workers_of(service, new),
    )
    for client in clients + new:
        client.close()
    service.ends(11, faults)


def counts_connections():
    """A worker's count of connections falls with each, however that ends."""
    for closing, faults in ((socket.socket.close, 0), (breaks_off, 3), (resets, 3)):
        shared_out(closing, faults)


def more_than_descriptors():
    """More connections at once than the service may have open files, twice: those that it cannot accept yet wait, and not long. It
    rests meanwhile."""
    few, many = 40, 60
    service = Serve(
        2 * many + 1, 4, stderr=subprocess.PIPE, **sets_limit(resource.RLIMIT_NOFILE, few)
    )
    honest = service.connect()
    same("the first one", EMPTY, asked(honest, STATUS))
    spent = []
    for _ in range(2):
        clients = [service.connect() for _ in range(many)]
        until("a full table of files", lambda: service.descriptors() >= few - 1)
        spent.append(service.spends())
        for client in clients:
            same(
                "one of more than it has descriptors for",
                EMPTY,
                asked_beside("one of those that wait", honest, client, STATUS),
            )
            client.close()
    at_most("processor seconds with a full table of files", SPINNING / 5, max(spent))
    honest.close()
    service.ends(2 * many + 1, 0)
    same(
        "reported once",
        "accept: Too many open files (os error 24)\n",
        service.process.stderr.read(),
    )
    return f"{max(spent):.2f} processor seconds while another process used {SPINNING}"


def few_descriptors(asked_for):
    """A low limit of open files: fewer workers start, which is reported, and each client is answered."""
    started = []
    for limit in (40, 41, 42, 64, 130, 132):
        service = Serve(
            3, asked_for, stderr=subprocess.PIPE, **sets_limit(resource.RLIMIT_NOFILE, limit)
        )
        for _ in range(3):
            client = service.connect()
            answered(
                f"a client of {asked_for} workers with {limit} open files", EMPTY, client, STATUS
            )
            client.close()
        service.ends(3, 0)
        started.append(told_workers(service, asked_for))
    return f"{', '.join(map(str, started))} of {asked_for}"


def told_workers(service, asked_for):
    """How many workers a service said that it started, of more."""
    told = service.process.stderr.read()
    started = next(
        (count for count in range(1, asked_for) if told == f"workers: {count} of {asked_for}\n"),
        None,
    )
    if started is None:
        raise SystemExit(f"with fewer workers: printed {told!r}")
    return started


def threads_of(user):
    """How many threads this user has."""
    count = 0
    for status in pathlib.Path("/proc").glob("[0-9]*/status"):
        try:
            told = dict(line.partition(":")[::2] for line in status.read_text().splitlines())
        except OSError:
            continue
        count += int(told["Threads"]) * (int(told["Uid"].split()[0]) == user)
    return count


def fewer_workers(asked_for, lacking):
    """If the system starts no more threads, the service says how many workers there are. With as many connections at once as
    workers were asked for, each is answered: none is given to a worker that did not start. The system never refuses a thread to
    root, so the service is another user's then, which has a copy of the program."""
    with tempfile.TemporaryDirectory() as folder:
        os.chmod(folder, 0o755)
        program, table = shutil.copy(PROGRAM, folder), shutil.copy(TABLE, folder)
        os.chmod(program, 0o755)
        user = os.getuid() or NOBODY
        # Its first thread accepts.
        most = threads_of(user) + 1 + asked_for - lacking
        how = sets_limit(resource.RLIMIT_NPROC, most)
        if not os.getuid():
            how |= {"user": NOBODY, "group": NOBODY, "extra_groups": []}
        service = Serve(
            asked_for, asked_for, program=program, table=table, stderr=subprocess.PIPE, **how
        )
        clients = [service.connect() for _ in range(asked_for)]
        for number, client in enumerate(clients, 1):
            answered(
                f"connection {number} of {asked_for - lacking} of {asked_for} workers",
                EMPTY,
                client,
                STATUS,
            )
        for client in clients:
            client.close()
        service.ends(asked_for, 0)
    return f"{told_workers(service, asked_for)} of {asked_for}"


# A service that has no memory left.


def little_memory():
    """How a service is started that has little memory."""
    if has_sanitizer():
        return {
            "env": {
                **os.environ,
                "ASAN_OPTIONS": "allocator_may_return_null=1:soft_rss_limit_mb=64",
            }
        }
    return sets_limit(resource.RLIMIT_AS, ADDRESSES)


def one_of(what, wanted, found):
    """Of these replies one came; which."""
    if found not in wanted:
        raise SystemExit(f"{what}: found {found!r}")
    return found


def block_of_8000(lsn):
    return wire.block(lsn, [(0, 0, bytes(8000))])


def filled(client):
    """Writes blocks of 8,000 bytes, and reports each 16, until there is no memory. Gives their number."""
    for lsn in range(1, 1 << 20, 16):
        bodies = [
            wire.head(2, wire.PRIMARY, wire.WRITE) + wire.write(copy, block_of_8000(number))
            for number in range(lsn, lsn + 16)
            for copy in (0, 1)
        ]
        bodies.append(wire.head(2, wire.PRIMARY, wire.REPORT) + wire.report(lsn + 15))
        client.sendall(b"".join(map(frame, bodies)))
        replies = [
            one_of(f"block {lsn}", (DONE, NO_MEMORY), read_reply(client)) for _ in bodies[1:]
        ]
        # If a copy is missing the report is denied.
        last = read_reply(client)
        if NO_MEMORY in replies + [last]:
            return lsn
        same(f"report of block {lsn + 15}", DONE, last)


def asks_without_memory(what, client, tally):
    """Each request is replied, as ever or NoMemory, and the connection goes on."""
    status = wire.head(1, wire.OPERATOR, wire.STATUS)
    pull = wire.head(3, wire.SECONDARY, wire.PULL) + wire.pull(0, 65535, 1, 1)
    first = block_of_8000(1)
    served = b"\x01" + wire.number(2, 8) + wire.number(1, 2) + wire.number(len(first), 4) + first
    audit = wire.head(1, wire.OPERATOR, wire.AUDIT) + wire.audit(1, 3)
    failover = wire.head(1, wire.OPERATOR, wire.FAILOVER) + wire.failover(99)
    write = wire.head(2, wire.PRIMARY, wire.WRITE) + wire.write(0, block_of_8000(1 << 40))
    for word, body, is_answer in (
        ("status", status, lambda reply: len(reply) == 33 and reply[0] == 4),
        ("pull", pull, lambda reply: reply == served),
        ("audit", audit, lambda reply: len(reply) == 3 + 3 * 53 and reply[:3] == b"\x03\x00\x03"),
        ("failover", failover, lambda reply: len(reply) == 12 and reply[0] == 5),
        ("write", write, lambda reply: len(reply) == 12 and reply[0] == 5),
        ("no request", b"", lambda reply: reply == NO_REQUEST),
    ):
        reply = asked(client, body)
        if reply is None or reply != NO_MEMORY and not is_answer(reply):
            raise SystemExit(f"{what}: {word} is replied {reply!r}")
        if word == "no request":
            same(f"{what}: {word}", NO_REQUEST, reply)
        tally[word] = tally.get(word, 0) + (reply != NO_MEMORY)


def out_of_memory():
    """A service whose memory is full goes on: each request is replied, on old connections and on new ones."""
    service = Serve(24, 4, **little_memory())
    writer, old, older = service.connect(), service.connect(), service.connect()
    for client in (old, older):
        same("before", EMPTY, asked(client, STATUS))
    blocks = filled(writer)
    tally = {}
    for client in (old, writer, older):
        asks_without_memory("an old connection", client, tally)
    for turn in range(20):
        client = service.connect()
        asks_without_memory(f"new connection {turn}", client, tally)
        client.close()
    # A frame in pieces, and many at once.
    data = frame(WRITE)
    for cut in (1, 4, 30, len(data) - 1):
        old.sendall(data[:cut])
        time.sleep(0.02)
        old.sendall(data[cut:])
        reply = read_reply(old)
        # Its block is in the log by now, or another one is; if nothing was hardened, it may be written.
        if reply not in (DONE, NO_MEMORY) and reply[:4] not in (
            b"\x05\x03\x00\x02",
            b"\x05\x03\x00\x04",
        ):
            raise SystemExit(f"a frame in pieces: found {reply!r}")
    older.sendall(frame(b"") * 10000)
    for _ in range(10000):
        same("one of many", NO_REQUEST, read_reply(older))
    for client in (writer, old, older):
        client.close()
    service.connect().close()
    service.ends(24, 0)
    return f"{blocks} blocks; of 23 answered: " + ", ".join(
        f"{word} {count}" for word, count in tally.items()
    )


def is_refused(honest, client, part):
    """Whether a connection that sends a part of a frame is closed, since there is no memory for it."""
    client.sendall(part)
    # One worker reads what was sent before it replies to what was sent after it.
    for _ in range(2):
        same("the honest client's", NO_REQUEST, asked(honest, b""))
    client.setblocking(False)
    try:
        return not client.recv(1)
    except BlockingIOError:
        return False
    except ConnectionResetError:
        return True


def filled_to_the_brim(service, honest):
    """Parts of frames, shorter and shorter ones, until there is memory for none. The connections that keep one, and how many were
    closed."""
    keeping, closed, size = [], 0, 60 << 10
    while size >= 1024:
        client = service.connect()
        if is_refused(honest, client, frame(bytes(65536))[:size]):
            size, closed = size // 2, closed + 1
        else:
            keeping.append(client)
    return keeping, closed


def room_without_memory():
    """A worker has room for 1,024 connections from its start: with full memory each of these is answered."""
    most = 2 * LINES
    with_descriptors(LINES + 100)
    service = Serve(most, 1, **little_memory())
    honest = service.connect()
    filled(honest)
    clients, closed = filled_to_the_brim(service, honest)
    parts = len(clients)
    for number in range(parts + 2, LINES + 1):
        clients.append(service.connect())
        answered(f"connection {number} with full memory", NO_REQUEST, clients[-1], b"")
    for client in clients:
        client.close()
    for _ in range(most - 1 - len(clients) - closed):
        service.connect().close()
    honest.close()
    service.ends(most, parts + closed)
    return f"{parts} parts of frames are kept, and {closed} connections closed"
