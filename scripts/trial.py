"""Sends request bodies to databases of pagelog, and compares each reply, byte for byte, with that of a model.

Usage: python3 scripts/trial.py                  plays the parts of trial_parts.py and 2,600 random lines
       python3 scripts/trial.py LINES [SEED]     plays this many random lines (seed 1); if the seed is a multiple of three, the
                                                 database begins with six copies

The model (model.py) is written from docs/RULES.md and docs/FORMATS.md alone. Nothing is stored: bodies and replies are made each
time. They depend on the seed alone, and the first N lines of a longer run are those of a run of N lines. A database is played by
`play`, each line under pass 1. If its audit list has another limit than that of `play`, it is asked over one connection to a
`serve` of one worker, which has pass 1 too. With PAGELOG=PROGRAM that program is asked. At the first reply that differs the bodies
up to that one are left in crates/pagelog/out, in a file trial-failed-NAME, with the table of their database beside it.
"""

import itertools
import pathlib
import subprocess
import sys
import tempfile

sys.dont_write_bytecode = True
import tables
import wire
from clients import Service, asked
from trial_lines import ENTRIES_OF_PLAY, Trial, put
from trial_parts import PARTS
from wire import (
    ADVANCE,
    AUDIT,
    FAILOVER,
    GET,
    OFFER,
    OPS,
    PULL,
    REPORT,
    SET_TABLE,
    STATUS,
    WITHOUT_ARGUMENTS,
    WRITE,
)
from wire import OPERATOR, PAGE_SERVER, PAGES_OF_A_PARTITION, PRIMARY, SECONDARY

ROOT = pathlib.Path(__file__).resolve().parent.parent
PAGELOG = ROOT / "scripts" / "pagelog"
TABLE = ROOT / "crates" / "pagelog" / "data" / "t0.toml"
OUT = ROOT / "crates" / "pagelog" / "out"
SEED, RANDOM_LINES = 20, 2600


# Random lines: for each operation with arguments who asks for it, as what, and with which ones.


def near(chance, hard):
    return chance.choice(
        [hard + 1] * 8 + [hard + 2] * 6 + [hard + 3] * 2 + [max(hard, 1), hard + 64, hard + 65]
    )


def block(chance, model):
    lsn = near(chance, len(model.log))
    return wire.block(lsn, [(0, 0, b"\xab")] if chance.random() < 0.04 else put(lsn))


def write(chance, model):
    copy = chance.randrange(model.zone.copies + (chance.random() < 0.1))
    return model.primary, PRIMARY, wire.write(copy, block(chance, model))


def offer(chance, model):
    return model.primary, PRIMARY, wire.offer(block(chance, model))


def report(chance, model):
    lsn = chance.choice([near(chance, len(model.log))] * 9 + [0, 2**48])
    return model.primary, PRIMARY, wire.report(lsn)


def get(chance, model):
    hard = len(model.log)
    page = chance.choice([0, 0, 1, 1, 2, 3, 4, 7]) * PAGES_OF_A_PARTITION + chance.choice(
        [0] * 7 + [1]
    )
    lsn = chance.choice([chance.randrange(hard + 1)] * 8 + [0, hard, hard + 1])
    who, role = (model.primary, PRIMARY) if chance.random() < 0.3 else (3, SECONDARY)
    return who, role, wire.get(page, lsn, chance.random() < 0.5)


def pull(chance, model):
    lo, lsn = chance.randrange(6), 1 + chance.randrange(len(model.log) + 2)
    who, role = (4, PAGE_SERVER) if chance.random() < 0.3 else (3, SECONDARY)
    return who, role, wire.pull(lo, lo + chance.randrange(4), lsn, chance.choice([1, 2, 5, 16]))


def advance(chance, model):
    steps = chance.choice([1, 2, 5, 16, 1024] if chance.random() < 0.9 else [0, 1025])
    return 4, PAGE_SERVER, wire.advance(chance.randrange(5), steps)


def failover(chance, model):
    return 1, OPERATOR, wire.failover(chance.choice([2, 2, 5, 5, 9]))


def set_table(chance, model):
    table = chance.choice(tables.TABLES).text
    text = (
        table
        if chance.random() < 0.6
        else chance.choice(tables.FAULTY[1 + chance.randrange(13)]).encode()
    )
    return 1, OPERATOR, text if len(text) < 2000 else table


def audit(chance, model):
    there = len(model.lines)
    first = chance.choice(
        [1 + chance.randrange(there + 1)] * 6 + [max(1, there), there + 1, there + 2, 0]
    )
    return 1, OPERATOR, wire.audit(first, chance.choice([1, 2, 5, 20]))


ASKED = {
    WRITE: write,
    OFFER: offer,
    REPORT: report,
    GET: get,
    PULL: pull,
    ADVANCE: advance,
    FAILOVER: failover,
    SET_TABLE: set_table,
    AUDIT: audit,
}
# How often these are asked for, for once that any other is: pages and audit lists make long replies.
OFTEN = {WRITE: 64, OFFER: 12, REPORT: 18, PULL: 10, ADVANCE: 3, STATUS: 3, FAILOVER: 2, AUDIT: 2}


def request(chance, model):
    """An operation, who asks for it, as what, and the bytes of its arguments."""
    op = chance.choices(list(OPS), [OFTEN.get(op, 1) for op in OPS])[0]
    return op, *(
        without_arguments(op, model) if op in WITHOUT_ARGUMENTS else ASKED[op](chance, model)
    )


def without_arguments(op, model):
    """As the first role that has the operation."""
    role = wire.roles_of(op)[0]
    return {PRIMARY: model.primary, SECONDARY: 3, PAGE_SERVER: 4, OPERATOR: 1}[role], role, b""


def random_line(trial):
    """Most lines are what may be asked; some are another's, of another epoch or token, or broken."""
    chance = trial.chance
    if chance.random() < 0.002:
        trial.sweep()
        return
    op, who, role, rest = request(chance, trial.model)
    epoch, key, strange = None, None, chance.random()
    if strange < 0.03:
        who = chance.randrange(1, 7)
    elif strange < 0.06:
        role = chance.randrange(1, 5)
    elif strange < 0.10:
        epoch = max(0, trial.model.epoch + chance.choice([-2, -1, 1]))
    elif strange < 0.12:
        key = bytes([chance.randrange(256)]) * 16
    body = trial.body(who, role, op, rest, epoch, key)
    if op != SET_TABLE and chance.random() < 0.03:
        at = chance.randrange(len(body))
        body = chance.choice(
            [body[:at], body + b"\0", body[:at] + bytes([chance.randrange(256)]) + body[at + 1 :]]
        )
        if len(body) > 29 and body[29] == SET_TABLE:
            body = body[:29]
    trial.play(body)


# The trials.


def random_lines(count, seed, table=tables.START):
    trial = Trial(seed, f"seed-{seed}")
    trial.open(table=table)
    for _ in range(count):
        random_line(trial)
    return trial


def parts():
    """Each part, and random lines; at the end of these the whole audit list."""
    trial = Trial(SEED, "")
    for part in PARTS:
        trial.part = part.__name__
        part(trial)
    trial.part = "random_lines"
    trial.open()
    for _ in range(RANDOM_LINES):
        random_line(trial)
    trial.audit(1, 1024)
    for _ in range(3):
        trial.sweep()
    return trial


# A run of pagelog.


def lines_of(bodies):
    return "".join(body.hex() + "\n" for body in bodies)


def played(database, table):
    """What `play` answers, line by line, and if it does not end well a line that says how."""
    words = [PAGELOG, "play", "--table", table, "--primary", str(database.primary)]
    run = subprocess.run(words, input=lines_of(database.asked), capture_output=True, text=True)
    ending = (
        [f"status {run.returncode}: {run.stderr.strip()}"] if run.returncode or run.stderr else []
    )
    return run.stdout.splitlines() + ending


def served(database, table):
    """The same of `serve`: one request after the other, each to the only database that there is."""
    service = Service(
        [
            PAGELOG,
            "serve",
            "--listen",
            "127.0.0.1:0",
            "--table",
            table,
            "--primary",
            database.primary,
            "--dbs",
            1,
            "--workers",
            1,
            "--connections",
            1,
            "--audit",
            database.limit,
        ]
    )
    client = service.connect()
    replies = [asked(client, wire.to_database(body, 0)) for body in database.asked]
    client.close()
    service.ends(1, 0)
    return [reply.hex() if reply is not None else "nothing" for reply in replies]


def check(database):
    """Each reply is the model's, and there are no more."""
    with tempfile.NamedTemporaryFile(suffix=".toml") as table:
        table.write(database.table.text)
        table.flush()
        found = (played if database.limit == ENTRIES_OF_PLAY else served)(database, table.name)
    wanted = [reply.hex() for reply in database.replies]
    for at, (one, other) in enumerate(itertools.zip_longest(wanted, found, fillvalue="nothing")):
        if one != other:
            fail(database, at, one, other)


def fail(database, at, wanted, found):
    OUT.mkdir(exist_ok=True)
    left = OUT / f"trial-failed-{database.name}"
    left.write_text(lines_of(database.asked[: at + 1]))
    left.with_suffix(".toml").write_bytes(database.table.text)
    body = lines_of(database.asked[at : at + 1]).strip() or "nothing"
    sys.exit(
        f"{database.name}, primary {database.primary}, audit list of {database.limit}, line {at + 1}: {body}\n"
        f"the model: {wanted}\npagelog:   {found}\n"
        f"The shortest prefix that fails is left in {left.relative_to(ROOT)}, and its table beside it"
    )


def summary(trial):
    return ", ".join(f"{name} {trial.met[name]}" for name in sorted(trial.met))


def play_parts():
    if TABLE.read_bytes() != tables.START.text:
        sys.exit("crates/pagelog/data/t0.toml is not the start table of scripts/tables.py")
    trial = parts()
    for database in trial.databases:
        check(database)
    count = sum(len(database.asked) for database in trial.databases)
    print(
        f"{count} lines to {len(trial.databases)} databases: each reply is the model's\n  {summary(trial)}"
    )


def play_random_lines(count, seed):
    trial = random_lines(count, seed, tables.START if seed % 3 else tables.SIX_COPIES)
    check(trial.databases[0])
    model = trial.model
    print(
        f"{count} lines, seed {seed}: each reply is the model's. Epoch {model.epoch}, {len(model.log)} blocks "
        f"hardened, {len(model.lines)} entries, of which the first {trial.swept} were asked for\n  {summary(trial)}"
    )


def main():
    words = sys.argv[1:]
    if len(words) > 2 or not all(word.isdigit() for word in words):
        sys.exit(__doc__)
    if words:
        play_random_lines(int(words[0]), int(words[1]) if words[1:] else 1)
    else:
        play_parts()


if __name__ == "__main__":
    main()
