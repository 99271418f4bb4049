"""What the parts of scripts/hostile share: the service that they ask, what they send it, and what they see of its process."""

import os
import pathlib
import re
import select
import socket
import subprocess
import sys
import time

import wire
from clients import PATIENCE, Service, all_replies, asked, read_reply, same
from wire import frame

ROOT = pathlib.Path(__file__).resolve().parent.parent
TABLE = ROOT / "crates" / "pagelog" / "data" / "t0.toml"
PROGRAM = os.environ.get("PAGELOG") or str(ROOT / "crates" / "pagelog" / "out" / "pagelog")

STATUS = wire.head(2, wire.PRIMARY, wire.STATUS)
EMPTY = b"\x04" + wire.number(1, 4) + wire.number(2, 4) + bytes(24)
WRITE = wire.head(2, wire.PRIMARY, wire.WRITE) + wire.write(0, wire.block(1, [(0, 0, b"\xaa")]))
DONE, NO_MEMORY, NO_REQUEST, DENIED_A1 = (
    b"\x00",
    b"\x06",
    b"\x0a\x01",
    b"\x05\x01\x00\x01" + bytes(8),
)

# How often an honest client asks while another one waits, before that one counts as forgotten. A request takes some 50
# microseconds, and longer on a busy machine, on which all takes longer.
ASKS = 20000
# How many processor seconds another process uses while a service is looked at, so that it shows what the service would use.
SPINNING = 0.5
SPIN = "import sys, time\nwhile time.process_time() < float(sys.argv[1]): pass"


class Serve(Service):
    """A `serve` of one database that ends by itself after this many connections."""

    def __init__(self, connections, workers, *words, program=PROGRAM, table=TABLE, **how):
        super().__init__(
            [
                program,
                "serve",
                "--listen",
                "127.0.0.1:0",
                "--table",
                table,
                "--primary",
                2,
                "--dbs",
                1,
                "--workers",
                workers,
                "--connections",
                connections,
                "--audit",
                65536,
                *words,
            ],
            **how,
        )

    def threads(self):
        """The folders of its threads in /proc: of the workers, and not of the one that accepts."""
        folder = pathlib.Path(f"/proc/{self.process.pid}/task")
        return [
            folder / name
            for name in sorted(os.listdir(folder), key=int)
            if name != str(self.process.pid)
        ]

    def descriptors(self):
        return len(os.listdir(f"/proc/{self.process.pid}/fd"))

    def spent(self):
        """The processor seconds that it has used."""
        fields = (
            pathlib.Path(f"/proc/{self.process.pid}/stat").read_text().rpartition(")")[2].split()
        )
        return (int(fields[11]) + int(fields[12])) / os.sysconf("SC_CLK_TCK")

    def spends(self):
        """The processor seconds that it uses while another process uses SPINNING of them."""
        before = self.spent()
        subprocess.run([sys.executable, "-c", SPIN, str(SPINNING)], check=True)
        return self.spent() - before


def is_asleep(thread):
    return (thread / "stat").read_text().rpartition(")")[2].split()[0] == "S"


def used(thread):
    """The nanoseconds that it ran."""
    return int((thread / "schedstat").read_text().split()[0])


def sleeps(thread):
    """How often it has gone to sleep by itself."""
    return int(
        re.search(r"^voluntary_ctxt_switches:\s*(\d+)$", (thread / "status").read_text(), re.M)[1]
    )


def has_sanitizer():
    """Whether the program has an address sanitizer, as one that is built without a proof: that takes addresses without end, and
    memory too."""
    return b"AddressSanitizer: " in pathlib.Path(PROGRAM).read_bytes()


def grows(what, before, now, most):
    """Memory, in KiB. A program that has a sanitizer keeps what it gave back, so of that one it is only reported."""
    if now - before > most and not has_sanitizer():
        raise SystemExit(f"{what}: memory grows by {now - before} KiB")
    return f"memory {before} KiB, and {now - before} more at the end"


def at_most(what, most, found):
    if found > most:
        raise SystemExit(f"{what}: wanted at most {most}, found {round(found, 2)}")


def until(what, holds):
    """Waits for it. It is soon, whatever the machine does besides."""
    end = time.monotonic() + PATIENCE
    while not holds():
        if time.monotonic() > end:
            raise SystemExit(f"{what}: not after {PATIENCE:.0f} s")
        time.sleep(0.001)


def answered(what, wanted, client, body):
    """The client has this reply, and no other end."""
    try:
        found = asked(client, body)
    except OSError as fault:
        raise SystemExit(f"{what}: {fault!r}") from None
    same(what, wanted, found)


def asked_beside(what, honest, client, body):
    """The reply, which comes before another client has asked for the status ASKS times."""
    client.sendall(frame(body))
    for _ in range(ASKS):
        if select.select([client], [], [], 0)[0]:
            return read_reply(client)
        same("the honest client's", EMPTY, asked(honest, STATUS))
    raise SystemExit(f"{what}: no reply, though another client had {ASKS}")


def sent_and_closed(service, data):
    """What is received for these bytes, after which nothing is sent."""
    client = service.connect()
    try:
        client.sendall(data)
        client.shutdown(socket.SHUT_WR)
    except (BrokenPipeError, ConnectionResetError, OSError):
        pass  # given up already: what was replied is compared all the same
    return all_replies(client)
