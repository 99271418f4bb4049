"""A keeper in this process, with an archive in a list: it makes successions, with and without images, and lets services die.
Its lines are those of docs/KEEPERS.md, and its turns are the keepers' own."""

import contextlib
import hashlib
import hmac
import json
import secrets
import socket
import socketserver
import threading
import tomllib
import weakref

from service import Asker, Proxy, TABLE, Service, framed, wire

from pagelog.keeper.turns import Turns  # its folder is where wire.py has found the model

KEEPER = (1 << 32) - 1
SECRET = b"s" * 16
EMPTY_HEAD = bytes(4)  # of a block without records: no partitions, no records


def token_of(token, name, run):
    return hmac.new(token, f"{name}/{run}".encode(), hashlib.sha256).digest()[:16]


def table_of(name, run, is_open=True, text=None):
    """The table of a run, as the keepers make it of that of the database."""
    table = tomllib.loads(text or TABLE.read_text())
    principals = [(KEEPER, token_of(SECRET, name, run))]
    principals += [
        (each["id"], token_of(bytes.fromhex(each["token"]), name, run))
        for each in table["principal"]
    ]
    rows = [{"verdict": "allow", "who": KEEPER}]
    rows += (
        [{"verdict": "deny", "op": ["set_table"]}]
        if is_open
        else [{"verdict": "deny", "role": role} for role in ("primary", "page_server", "operator")]
    )
    lines = [
        f'[[principal]]\nid = {number}\ntoken = "{token.hex()}"\n' for number, token in principals
    ]
    for row in rows + table["row"]:
        lines.append(
            "[[row]]\n" + "".join(f"{key} = {json.dumps(value)}\n" for key, value in row.items())
        )
    return "\n".join(lines)


class Keyed(Asker):
    """An asker with the token of a run."""

    def __init__(self, address, principal, role, key):
        super().__init__(address, principal, role)
        self.key = key

    def once(self, op, rest=b"", epoch=None):
        epoch = self.epoch if epoch is None else epoch
        return self.carry(
            framed(wire.head(self.principal, self.role, op, epoch, 0, self.key) + rest)
        )[4:]


class Generation:
    """One run of a service, with the archive's first blocks in it, or images of them and the rest."""

    def __init__(self, keeper, number, base=0, shift=0):
        self.keeper, self.number, self.base, self.shift = keeper, number, base, shift
        self.run = f"run{number}"
        self.key = token_of(SECRET, keeper.name, self.run)
        self.service = Service(text=table_of(keeper.name, self.run), primary=KEEPER)
        self.proxy = Proxy(self.service.address, between=keeper.watch)
        self.address = self.proxy.address

    def asker(self, role):
        return Keyed(self.service.address, KEEPER, role, self.key)

    def fill(self, blocks):
        """Puts blocks at the end, each under the LSN that is next. Of each all bytes behind its LSN are given."""
        with self.asker(wire.PRIMARY) as writer:
            hard = writer.status()[2]
            for number, rest in enumerate(blocks, hard + 1):
                block = number.to_bytes(8, "big") + rest
                for copy in (0, 1):
                    assert writer.ask(wire.WRITE, wire.write(copy, block)) == b"\0"
                assert writer.ask(wire.REPORT, wire.report(number)) == b"\0"

    def blocks(self, position):
        """What follows this position: without their LSNs."""
        with self.asker(wire.SECONDARY) as asker:
            hard = asker.status()[2]
            found = {
                int.from_bytes(block[:8], "big"): block[8:]
                for block in asker.blocks(position - self.shift + 1)
            }
            return [
                found.get(lsn, EMPTY_HEAD) for lsn in range(position - self.shift + 1, hard + 1)
            ]

    def images(self, position):
        """The records of all pages at a position, page 0 last; of one without an end mark none."""
        with self.asker(wire.SECONDARY) as asker:
            lsn = position - self.shift
            mark = asker.page(0, lsn)
            pages = -(-int.from_bytes(mark[16:24], "big") // wire.PAGE_BYTES)
            return [(page, asker.page(page, lsn)) for page in range(1, pages + 1)] + [(0, mark)]

    def newest_mark(self):
        """The position of the newest end mark."""
        with self.asker(wire.SECONDARY) as asker:
            return int.from_bytes(asker.page(0, asker.status()[2])[8:16], "big")

    def close(self):
        """Lets nobody write any more."""
        with self.asker(wire.OPERATOR) as operator:
            operator.set_table(table_of(self.keeper.name, self.run, is_open=False))
            operator.failover(KEEPER)

    def give_up(self):
        """Closes it, and opens it again, as where no succession comes of it."""
        self.close()
        with self.asker(wire.OPERATOR) as operator:
            operator.set_table(table_of(self.keeper.name, self.run))

    def end(self):
        self.service.end()
        self.proxy.cut()


class Before:
    """A rule: before the `number`-th request of a client something happens."""

    def __init__(self, number, event):
        self.left, self.event = number, event

    def __call__(self, frame):
        self.left -= 1
        if self.left == 0:
            self.event()
        return frame


class Line:
    """A connection of a client."""

    def __init__(self, file):
        self.file, self.nonce, self.is_proved, self.asker = file, secrets.token_hex(16), False, None

    def say(self, *words):
        with contextlib.suppress(OSError, ValueError):
            self.file.write(" ".join(map(str, words)).encode() + b"\n" if words else b"")


def later(seconds, action):
    timer = threading.Timer(seconds, action)
    timer.daemon = True
    timer.start()
    return timer


class StubKeeper:
    """Of one database. `watch` is called with each request that a client sends, before the service has it."""

    def __init__(self, name="shop", database="00000000-0000-4000-8000-000000000001"):
        self.database = database
        self.name, self.archive, self.ends = name, [], {}
        self.more = ()  # keys of `at`
        self.changed = threading.Condition(threading.RLock())
        self.is_archiving, self.is_published, self.asked = True, True, 0
        self.archives_what_is_asked = False  # and no more
        self.rings = 0  # of the present run
        self.rule = None
        self.clients = weakref.WeakSet()  # connections of this process
        self.now = Generation(self, 1)
        self.turns = Turns(name, 1, self.after)
        self.old, self.lines = [], []
        self.proofs, self.unproved = (
            [],
            [],
        )  # what was proved; and what was asked without, which is refused
        self.says_nonce = True
        keeper = self

        class Lines(socketserver.StreamRequestHandler):
            def handle(self):
                line = Line(self.wfile)
                keeper.lines.append(self.connection)
                try:
                    for text in self.rfile:
                        keeper.hear(line, text.decode().split())
                except OSError:
                    pass
                finally:
                    with keeper.changed:
                        keeper.turns.gone(line)

        class Server(socketserver.ThreadingTCPServer):
            allow_reuse_address = daemon_threads = True

        self.server = Server(("127.0.0.1", 0), Lines)
        self.address = self.told_lines = (
            "127.0.0.1:%d" % self.server.server_address[1]
        )  # and what clients are told
        threading.Thread(target=self.server.serve_forever, args=(0.02,), daemon=True).start()

    def __enter__(self):
        return self

    def __exit__(self, *_):
        self.rule, self.is_archiving, self.is_published = None, True, True
        for client in list(self.clients):
            client.close()
        self.server.shutdown()
        self.server.server_close()
        for generation in [*self.old, self.now]:
            generation.proxy.__exit__()
            generation.end()

    def watch(self, frame):
        return frame if self.rule is None else self.rule(frame)

    # The lines.

    def cut_lines(self):
        """Ends the connections of all clients to this keeper."""
        for each in self.lines:
            with contextlib.suppress(OSError):
                each.shutdown(socket.SHUT_RDWR)

    def after(self, seconds, action):
        def act():
            with self.changed:
                action()

        return later(seconds, act)

    def hear(self, line, words):
        """What a client with a token asks of its run is asked by who has proved that. One that has none is refused no answer here."""
        costs = words[0] in ("turn", "hold", "ring", "full", "durable")
        if costs and self.says_nonce and not line.is_proved:
            self.unproved.append(words[0])
        if words[0] == "hello":
            line.say(*self.answer(words), *([f"nonce={line.nonce}"] if self.says_nonce else []))
        elif words[0] == "prove":
            self.prove(line, *words[1:])
        elif words[0] in ("turn", "hold") and costs and self.says_nonce and not line.is_proved:
            line.say("denied", self.name, "unproved")
        elif words[0] in ("turn", "back", "hold"):
            self.turn(line, words)
        else:
            line.say(*self.answer(words))

    def prove(self, line, name, principal, code, of):
        tokens = {
            each["id"]: bytes.fromhex(each["token"])
            for each in tomllib.loads(TABLE.read_text())["principal"]
        }
        text = f"prove {line.nonce} {name} {principal} {of.removeprefix('of=')}"
        wanted = hmac.new(tokens[int(principal)], text.encode(), hashlib.sha256).hexdigest()
        line.is_proved = (name, code, of.split("/")[0]) == (
            self.name,
            wanted,
            self.of().split("/")[0],
        )
        self.proofs.append((int(principal), line.is_proved))

    def turn(self, line, words):
        with self.changed:
            match words:
                case ["turn", _, *_, of] if of.startswith("of=") and of != self.of():
                    line.say("elsewhere", self.name, of)
                case ["turn", _, *how]:
                    self.turns.ask(
                        line,
                        now="now" in how,
                        mine="mine" in how,
                        heartbeat="heartbeat" in how,
                        slices="slices" in how,
                    )
                case ["back", _, *_]:
                    self.turns.back(
                        line,
                        next(
                            (
                                int(word.removeprefix("epoch="))
                                for word in words
                                if word.startswith("epoch=")
                            ),
                            None,
                        ),
                    )
                case ["hold", _, *_]:
                    self.turns.hold(line)

    def of(self, run=None):
        return f"of={self.database}/{run or self.now.run}"

    def answer(self, words):
        with self.changed:
            self.asked += 1
            match words:
                case ["hello", _]:
                    return "hello", 2
                case ["ring", _, _, of]:
                    self.rings += of == self.of()
                    self.changed.notify_all()
                    return ()
                case ["full", *_]:
                    return ()
                case ["where", name] if name != self.name:
                    return "unknown", name
                case ["where", name]:
                    now = self.now
                    if not self.is_published:
                        return "nowhere", name
                    return (
                        "at",
                        name,
                        now.number,
                        now.run,
                        now.address,
                        len(self.archive),
                        self.told_lines,
                        now.base,
                        now.shift,
                        self.ends.get(now.number - 1, 0),
                        self.of(),
                        *self.more,
                    )
                case ["durable", name, generation, position, of] if of == self.of(
                    f"run{generation}"
                ):
                    return *self.durable(name, int(generation), int(position)), of
        return ("what",)

    def durable(self, name, generation, position):
        while generation == self.now.number and len(self.archive) < position:
            if self.is_archiving:
                self.archive_now()
                if self.archives_what_is_asked:
                    del self.archive[position:]
            if len(self.archive) < position and generation == self.now.number:
                self.changed.wait(0.05)
        if generation in self.ends:
            return "over", name, generation, self.ends[generation]
        return "durable", name, generation, len(self.archive)

    # The archive.

    def archive_now(self):
        with self.changed:
            try:
                self.archive += self.now.blocks(len(self.archive))
            except (OSError, AssertionError):
                pass  # the service has died
            self.changed.notify_all()

    # Generations.

    def next(self, images=True, in_pieces=1, empty=0):
        """Another generation, with what is archived. Its images take as many blocks as there are pages, times `in_pieces`, and
        `empty` ones before, so that its shift is anything."""
        old = self.now
        base = old.newest_mark() if images else len(self.archive)
        records = old.images(base) if images and base else []
        made = [EMPTY_HEAD] * empty if records else []
        for page, data in records:
            step = wire.PAGE_BYTES // (in_pieces if page else 1)
            for at in range(0, len(data), step):
                if page == 0 or data[at : at + step].strip(b"\0"):
                    made.append(wire.block(1, [(page, at, data[at : at + step])])[8:])
        new = Generation(self, old.number + 1, base, base - len(made) if records else 0)
        new.fill(made + self.archive[base if records else 0 :])
        return new

    def switch(self, new):
        with self.changed:
            self.ends[self.now.number] = len(self.archive)
            self.old.append(self.now)
            self.now, self.is_published = new, True
            self.turns = self.turns.next(new.number)
            self.changed.notify_all()

    def succeed(self, **how):
        """A planned succession: nothing of the log is lost."""
        with self.changed:
            self.now.close()
            self.archive_now()
            self.switch(self.next(**how))

    def copy(self, database):
        """What is archived goes on as another database."""
        self.archive_now()
        new = self.next(images=False)
        self.now.end()
        self.database = database
        self.switch(new)

    def die(self, lost=0, others=None, **how):
        """The service dies, once all but the last `lost` blocks of its log are archived. `others` is called before the
        next generation is published, with it."""
        with self.changed:
            kept = len(self.archive) + max(0, len(self.now.blocks(len(self.archive))) - lost)
            self.archive_now()
            assert len(self.archive) - lost <= kept
            del self.archive[kept:]
            new = self.next(images=False)
            self.now.end()
            if others:
                others(new)
            self.switch(new)
