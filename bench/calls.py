"""Counts what a request of `pagelog serve` calls in the crates, by callgrind: how many calls, of functions in how many files,
and how many of them go from one crate to another.

Usage: python3 -B bench/calls.py      after `python3 scripts/build.py plain`, or with PAGELOG=PROGRAM, another that is not optimised

One request comes alone on the one connection of one worker, which sleeps at once. Each figure is the difference of two runs, with
and without some requests of the kind, for each of these. What fewer than half of them call is left out, and so are drops, which the
compiler writes: a get has one for each byte of its page."""

import os
import pathlib
import re
import subprocess
import sys
import tempfile
from collections import Counter
from concurrent.futures import ThreadPoolExecutor

ROOT = pathlib.Path(__file__).resolve().parent.parent
sys.path.insert(0, str(ROOT / "scripts"))

import cost_cases  # noqa: E402
from clients import Service, read_reply  # noqa: E402
from wire import failover, frame  # noqa: E402

CRATE = ROOT / "crates" / "pagelog"
PROGRAM = os.environ.get("PAGELOG", CRATE / "out" / "pagelog-plain")
BLOCKS, ASKED = 64, 32
GET, PULL = cost_cases.get(3, BLOCKS), cost_cases.pull(BLOCKS, *cost_cases.ALL, most=1)
KINDS = {
    "nothing": [],
    "write": [cost_cases.write(0, cost_cases.small(BLOCKS + at)) for at in range(1, ASKED + 1)],
    "get": [GET] * ASKED,
    "pull": [PULL] * ASKED,
    "failover": [
        cost_cases.operate(cost_cases.FAILOVER, failover(2), epoch) for epoch in range(1, ASKED + 1)
    ],
}
BEFORE = [*cost_cases.hardened(cost_cases.small)(BLOCKS), GET, PULL]


def counted(asked):
    """How often each function calls which, while a service answers these requests on a log of some blocks."""
    with tempfile.NamedTemporaryFile() as out:
        words = [
            "valgrind",
            "--tool=callgrind",
            f"--callgrind-out-file={out.name}",
            "--compress-strings=no",
            PROGRAM,
            "serve",
            "--listen",
            "127.0.0.1:0",
            "--table",
            CRATE / "data" / "t0.toml",
            "--primary",
            2,
            "--dbs",
            1,
            "--audit",
            4096,
            "--workers",
            1,
            "--idle-polls",
            0,
            "--connections",
            1,
        ]
        service = Service(words, stderr=subprocess.DEVNULL)
        with service.connect() as client:
            for body in [*BEFORE, *asked]:
                client.sendall(frame(body))
                read_reply(client)
        service.ends(1, 0)
        calls, names = Counter(), {}
        for line in open(out.name):
            word, _, rest = line.rstrip().partition("=")
            if word in ("fn", "cfn"):
                names[word] = rest
            elif word == "calls":
                calls[names["fn"], names["cfn"]] += int(rest.split()[0])
        return calls


def place(name):
    """The crate and the file of a function, by its name; nothing of a drop and of what is not of the crates."""
    parts = re.sub(r"::<.*|'\d+$", "", name).split("::")
    if parts[0].startswith("pl_") and "++" not in name:
        return parts[0], "/".join([parts[0], *(part for part in parts[1:-1] if part.islower())])


with ThreadPoolExecutor() as runs:
    nothing, *counts = runs.map(counted, KINDS.values())
for kind, count in zip([*KINDS][1:], counts):
    calls = {
        each: (count[each] - nothing[each]) / ASKED
        for each in count
        if count[each] >= nothing[each] + ASKED / 2
    }
    calls = [
        (place(one), place(other), count) for (one, other), count in calls.items() if place(other)
    ]
    files, crossing = {other[1] for _, other, _ in calls}, sum(
        count for one, other, count in calls if one and one[0] != other[0]
    )
    print(
        f"{kind:9} {sum(count for *_, count in calls):7.0f} calls {len(files):4} files {crossing:7.0f} crossings"
    )
