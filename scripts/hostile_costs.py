"""Parts of scripts/hostile: what a service takes of processors, memory and descriptors. Each bound is some five times what was
measured."""

import contextlib
import os
import pathlib
import statistics
import subprocess
import sys
import tempfile

from clients import asked, read_reply, same
from hostile_limits import with_descriptors
from hostile_service import (
    EMPTY,
    NO_REQUEST,
    ROOT,
    SPINNING,
    STATUS,
    Serve,
    at_most,
    grows,
    is_asleep,
    until,
    used,
)
from wire import frame

# How many KiB more a service may hold with the parts of a second hundred connections than with those of a first, which are silent
# by then. It keeps no buffer of these, and most often it holds some 10 or 70 KiB more. If a part is read in two pieces its
# buffer grows, and leaves a hole in the heap: up to 440 KiB in 200 runs. A hundred buffers that are kept have 3,000 or 6,000.
KEPT = 1024
# A worker that polled awake this often has run 230 to 400 times as long as most, which answered a request; others up to 15 times.
IDLE_POLLS, AWAKE = 10000, 60
# How often a worker polls awake without --idle-polls, and how many processors the service may use then at least.
DEFAULT_POLLS, PROCESSORS = 300, 3


def with_parts(service, honest, count, data, part):
    """This many connections that send so much of a long frame; what the service holds then. After it they send the rest, are
    replied, and stay silent."""
    clients = [service.connect() for _ in range(count)]
    for client in clients:
        same("before a part", NO_REQUEST, asked(client, b""))
    before = service.memory()
    for client in clients:
        client.sendall(data[:part])
    # One worker reads what was sent before it replies to what was sent after it.
    for _ in range(2):
        same("the honest client's", EMPTY, asked(honest, STATUS))
    held = service.memory()
    for client in clients:
        client.sendall(data[part:])
        same("a long frame in two parts", b"\x0a\x02", read_reply(client))
    return clients, before, held


def gives_back(count, length, part):
    """Connections that each sent a frame of this length in two parts keep nothing of it: as many others find what these gave
    back."""
    data = frame(bytes(length))
    service = Serve(2 * count + 1, 1)
    honest = service.connect()
    first, before, held = with_parts(service, honest, count, data, part)
    if held - before < count * part // 2048:
        raise SystemExit(f"{count} parts of a frame: the service holds {held - before} KiB of them")
    second, _, again = with_parts(service, honest, count, data, part)
    grown = grows(f"{count} more connections", held, again, KEPT)
    for client in (*first, *second, honest):
        client.close()
    service.ends(2 * count + 1, 0)
    return f"{held - before} KiB of parts; {grown}"


def one_after_the_other(count):
    """This many connections, each with a request; the memory of the first half is all that is taken, and no descriptor is kept."""
    service = Serve(count + 1, 2)
    honest = service.connect()
    same("the honest client's", EMPTY, asked(honest, STATUS))
    descriptors, held = service.descriptors(), 0
    for turn in range(count):
        client = service.connect()
        same(f"connection {turn}", NO_REQUEST, asked(client, b""))
        client.close()
        if turn == count // 2:
            held = service.memory()
    told = grows(f"{count} connections", held, service.memory(), 512)
    until("the end of the last connection", lambda: service.descriptors() <= descriptors)
    honest.close()
    service.ends(count + 1, 0)
    return told


def silent(count):
    """Connections that asked once and are silent use no processor."""
    with_descriptors(count + 100)
    service = Serve(count, 4)
    clients = [service.connect() for _ in range(count)]
    for client in clients:
        same("a connection that is silent from now on", EMPTY, asked(client, STATUS))
    spent = service.spends()
    at_most(f"processor seconds of {count} silent connections", SPINNING / 5, spent)
    for client in clients:
        client.close()
    service.ends(count, 0)
    return f"{spent:.2f} processor seconds while another process used {SPINNING}"


def idle(workers, rounds):
    """Of the workers that have nothing to do any more one polls awake, and the others sleep. If one ends late, it may do so too."""
    service = Serve(workers, workers, "--idle-polls", IDLE_POLLS)
    clients = [service.connect() for _ in range(workers)]
    for client in clients:
        same("a connection of each worker", EMPTY, asked(client, STATUS))
    awake = []
    for _ in range(rounds):
        until("workers that sleep", lambda: all(map(is_asleep, service.threads())))
        before = {thread: used(thread) for thread in service.threads()}
        for client in clients:
            client.sendall(frame(STATUS))
        for client in clients:
            same("one of each worker", EMPTY, read_reply(client))
        until("workers that sleep", lambda: all(map(is_asleep, service.threads())))
        ran = [used(thread) - earlier for thread, earlier in before.items()]
        awake.append(sum(each > AWAKE * statistics.median(ran) for each in ran))
    if not rounds // 2 <= sum(awake) <= rounds * workers // 3:
        raise SystemExit(f"of {workers} idle workers polled awake: {awake}")
    for client in clients:
        client.close()
    service.ends(workers, 0)
    return f"{sum(awake)} of {workers * rounds} polled awake"


def processors():
    """Those that this process may use; of a cgroup that has less of their time, fewer."""
    allowed = sorted(os.sched_getaffinity(0))
    with contextlib.suppress(OSError, ValueError):
        time, period = pathlib.Path("/sys/fs/cgroup/cpu.max").read_text().split()
        return allowed[: max(1, int(time) // int(period))]
    return allowed


def polls_of(counter, allowed, words):
    """How often the worker of a service that may use these processors polled awake, until it slept after a request."""
    told = counter.with_suffix(".polls")
    preload = {**os.environ, "LD_PRELOAD": str(counter), "COUNT_POLLS": str(told)}
    service = Serve(1, 1, *words, env=preload, preexec_fn=lambda: os.sched_setaffinity(0, allowed))
    client = service.connect()
    same("before the worker sleeps", EMPTY, asked(client, STATUS))
    until("a worker that sleeps", lambda: all(map(is_asleep, service.threads())))
    client.close()
    service.ends(1, 0)
    return int.from_bytes(told.read_bytes(), sys.byteorder)


def default_polls():
    """Without --idle-polls a worker polls awake where the service may use three processors, and not where it may use fewer; with it,
    as often as it says."""
    own = processors()
    with tempfile.TemporaryDirectory() as folder:
        counter = pathlib.Path(folder) / "count_polls.so"
        subprocess.run(
            ["gcc", "-O2", "-shared", "-fPIC", "-o", counter, ROOT / "scripts" / "count_polls.c"],
            check=True,
        )
        for count in range(1, min(len(own), PROCESSORS) + 1):
            allowed = own[:count]
            found = polls_of(counter, allowed, [])
            same(
                f"whether it polls awake with {count} processors",
                count >= PROCESSORS,
                found >= DEFAULT_POLLS,
            )
            same(
                f"whether it sleeps at once with {count} processors", count < PROCESSORS, found == 0
            )
            same(
                "whether it polls awake if that is said",
                True,
                polls_of(counter, allowed, ["--idle-polls", 40]) >= 40,
            )
            same("how often if none is said", 0, polls_of(counter, allowed, ["--idle-polls", 0]))
    return f"with 1 to {min(len(own), PROCESSORS)} processors"
