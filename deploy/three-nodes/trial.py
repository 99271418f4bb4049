"""The trial of three machines, see the script `trial`, which calls it in namespaces of its own."""

from __future__ import annotations

import argparse
import json
import os
import shutil
import signal
import subprocess
import sys
import time
from collections import Counter
from dataclasses import dataclass
from pathlib import Path
from typing import Callable

HERE = Path(__file__).resolve().parent
TOP = HERE.parent.parent
sys.path.insert(0, str(TOP / "clients" / "python" / "src"))

from pagelog import Block  # noqa: E402
from pagelog.keeper import fast_calls  # noqa: E402

from clients import NAME, text_of  # noqa: E402
from cluster import KEEPERS, PATIENCE, Cluster, eventually  # noqa: E402
from nodes import ADDRESSES, Node, make_bridge  # noqa: E402

SOURCE = TOP / "clients" / "python" / "src"
UNITS = [
    TOP / "packaging" / "units" / f"pagelog-{name}.service"
    for name in ("keeper", "runner", "pages")
]
TABLE = TOP / "clients" / "c" / "table.toml"
DEFAULT = ("kill:holder", "kill:leader", "kill:both", "cut:both", "stop:both", "alone:both")
CLIENTS = {"write": "durable", "read": "read", "pages": "page"}
"""Each with what it is told again and again."""
GO_ON = 50
"""How many commits have to be acknowledged after a fault, once others have taken over."""
ALONE = 2.0
"""For how many seconds a machine works without the other two, before it is killed."""


def leave_alone(node: Node, others: list[Node]) -> None:
    """What it alone has, nobody may have been told. Longer, and it would have no quorum of etcd and stop by itself."""
    for each in others:
        each.cut()
    time.sleep(ALONE)
    node.kill()
    for each in others:
        each.join()


FAULTS: dict[str, tuple[Callable[[Node, list[Node]], None], Callable[[Node], None]]] = {
    "kill": (lambda node, _: node.kill(), Node.start),
    "cut": (lambda node, _: node.cut(), Node.join),
    "stop": (lambda node, _: node.stop(), Node.go_on),
    "alone": (leave_alone, Node.start),
}


@dataclass(frozen=True)
class Books:
    """What the clients were told."""

    folder: Path

    def lines(self, who: str) -> list[dict[str, object]]:
        file = self.folder / who
        text = file.read_text() if file.exists() else ""
        return [json.loads(line) for line in text.splitlines() if line.endswith("}")]

    def times(self, who: str, what: str) -> list[float]:
        return [float(line["at"]) for line in self.lines(who) if line["what"] == what]  # type: ignore[arg-type]

    def last_position(self, who: str) -> int:
        return next((int(line["position"]) for line in reversed(self.lines(who)) if line["what"] in CLIENTS.values()), 0)  # type: ignore[call-overload]

    def longest_pause(self, who: str, what: str, since: float) -> float:
        """The longest time between two things that it was told, of which the later came after `since`."""
        times = self.times(who, what)
        return max(
            (later - earlier for earlier, later in zip(times, times[1:]) if later > since),
            default=0.0,
        )


class Trial:
    def __init__(self, folder: Path, program: str) -> None:
        subprocess.run(
            ["mount", "-t", "tmpfs", "tmpfs", "/run"], check=True
        )  # the names of network namespaces stand in it
        self.folder, self.began = folder, time.monotonic()
        self.books, self.clients = Books(folder), dict[str, subprocess.Popen[bytes]]()
        self.why = ""
        install(folder, program)
        make_bridge()
        machines = [f"{name}={address}" for name, address in ADDRESSES.items()]
        subprocess.run(
            [sys.executable, "-B", HERE / "configure", folder / "machines", *machines],
            check=True,
            stdout=subprocess.DEVNULL,
        )
        (folder / "machines").chmod(0o711)
        for name in ADDRESSES:
            for unit in UNITS:
                shutil.copy(unit, folder / "machines" / name / "etc" / "systemd" / "system")
        self.nodes = {name: Node(name, folder / "machines" / name) for name in ADDRESSES}
        self.keeper_file = (
            folder / "keeper.toml"
        )  # outside of the machines the CA has another place
        self.keeper_file.touch(mode=0o600)
        text = (folder / "machines" / "a" / "etc" / "pagelog" / "keeper.toml").read_text()
        self.keeper_file.write_text(
            text.replace("/etc/patroni/ca.pem", str(folder / "machines" / "ca.pem"))
        )
        self.cluster = Cluster(self.keeper_file)

    def say(self, text: str) -> None:
        print(f"{time.monotonic() - self.began:6.1f} s  {text}", flush=True)

    def word(self, *words: object) -> bool:
        """Whether a word of pagelogctl succeeds."""
        done = subprocess.run(
            ["pagelogctl", *map(str, words), "--credentials", self.keeper_file],
            capture_output=True,
            text=True,
        )
        self.why = done.stderr.strip()
        return done.returncode == 0

    def start(self) -> None:
        for node in self.nodes.values():
            node.start()
        eventually(lambda: self.word("list"), "PostgreSQL with a synchronous standby, and a keeper")
        if not self.word("create", NAME, "--table", TABLE):
            raise SystemExit(f"trial: the database was not made: {self.why}")
        eventually(self.cluster.is_well, "three machines that are well")
        for what in CLIENTS:
            words = [
                sys.executable,
                "-B",
                HERE / "clients.py",
                what,
                self.folder / what,
                self.folder / f"{what}.stop",
                ",".join(KEEPERS),
            ]
            self.clients[what] = subprocess.Popen(words)
        for what, told in CLIENTS.items():
            eventually(lambda: len(self.books.times(what, told)) > GO_ON, f"a client for {what}")
        eventually(self.cluster.has_fast_path, "the fast path")
        self.say(f"three machines are up; {self.holder_and_leader()}")

    def holder_and_leader(self) -> str:
        return f"{self.cluster.holder()} holds {NAME}, {self.cluster.leader()} leads PostgreSQL"

    def node_for(self, word: str) -> Node:
        """The machine that is meant; the database is switched over before where it has to be."""
        if word in self.nodes:
            return self.nodes[word]
        leader, holder = self.cluster.leader(), self.cluster.holder()
        assert leader is not None
        if word == "both" and holder != leader:
            self.cluster.switch_over(leader)
        elif word != "both" and holder == leader:
            self.cluster.switch_over(next(name for name in self.nodes if name != leader))
        return self.nodes[self.cluster.holder() if word == "holder" else leader]

    def show(self, fault: str, word: str) -> None:
        """One fault: others take over, commits go on, and the machine comes back."""
        node = self.node_for(word)
        eventually(self.cluster.is_well, "three machines that are well")
        do, undo = FAULTS[fault]
        generation, leads, holds = (
            self.cluster.generation(),
            self.cluster.leader() == node.name,
            self.cluster.holder() == node.name,
        )
        others = [each for each in self.nodes.values() if each is not node]
        self.say(f"{fault} {node.name}; {self.holder_and_leader()}")
        began = time.monotonic()
        do(node, others)
        names = [each.name for each in others]
        if leads:
            eventually(lambda: self.cluster.leader(names) in names, "another leader of PostgreSQL")
        if holds:
            eventually(lambda: self.cluster.generation() > generation, "another holder")
        went_on, before = time.monotonic(), len(self.books.times("write", "durable"))
        eventually(lambda: len(self.books.times("write", "durable")) > before + GO_ON, "commits")
        undo(node)
        eventually(self.cluster.is_well, "three machines that are well")
        eventually(self.cluster.has_fast_path, "the fast path")
        self.say(f"  {self.pauses(began)}; others had taken over after {went_on - began:.1f} s")

    def pauses(self, since: float) -> str:
        writer, reader, pages = (self.books.longest_pause(*what, since) for what in CLIENTS.items())
        return f"longest pause: writer {writer:.1f} s, reader {reader:.1f} s, reader of pages {pages:.1f} s"

    def stop(self, what: str) -> None:
        """Ends a client, which has written its books then."""
        (self.folder / f"{what}.stop").touch()
        if self.clients[what].wait(PATIENCE) != 0:
            raise SystemExit(f"trial: the client for {what} failed")

    def end(self) -> int:
        """The check: it knows nothing but the books of the clients, and the archive."""
        self.stop("write")
        last = self.books.last_position("write")
        for what in ("read", "pages"):
            eventually(lambda: self.books.last_position(what) >= last, f"{what} to the end")
            self.stop(what)
        texts = [text_of(Block.decode(block)) for block in self.cluster.archive()]
        found = violations(texts, self.books.lines("write"), self.books.lines("read"))
        found += pages_that_differ(texts, self.books.lines("pages"))
        for violation in found[:20]:
            print(f"violation: {violation}")
        counts = Counter(line["what"] for line in self.books.lines("write"))
        self.say(
            f"{counts['durable']} commits durable, {counts['lost']} lost before they were, {counts['doubt']} in doubt; {self.pauses(0)}"
        )
        self.say(f"{len(self.books.times('pages', 'page'))} pages read of page servers alone")
        self.say(
            f"{len(texts)} blocks in the database, of generation {self.cluster.generation()}: {len(found)} violations"
        )
        return 1 if found or not counts["durable"] else 0


def violations(
    texts: list[str], written: list[dict[str, object]], read: list[dict[str, object]]
) -> list[str]:
    """What was told to a client and is not so in the database, whose texts these are, in order."""
    there = dict(enumerate(texts, 1))
    found = [
        f"{text!r} is there {count} times" for text, count in Counter(texts).items() if count > 1
    ]
    for line in [line for line in (*written, *read) if line["what"] in ("durable", "read")]:
        if there.get(line["position"]) != line["text"]:  # type: ignore[call-overload]
            found.append(f"{line}, and the database has {there.get(line['position'])!r}")  # type: ignore[call-overload]
    found += [
        f"{line}, and it is there"
        for line in written
        if line["what"] == "lost" and line["text"] in set(texts)
    ]
    for who, lines in (("writer", written), ("reader", read)):
        positions = [int(line["position"]) for line in lines if line["what"] in ("durable", "read")]  # type: ignore[call-overload]
        found += [
            f"the {who} was told position {after} after {before}"
            for before, after in zip(positions, positions[1:])
            if after <= before
        ]
    return found


def pages_that_differ(texts: list[str], read: list[dict[str, object]]) -> list[str]:
    """What page servers have shown that is not so, or is older than what they had shown before."""
    found, before = [], 0
    for line in read:
        if line["what"] != "page":
            continue
        position = int(line["position"])  # type: ignore[call-overload]
        wanted = texts[position - 1] if 0 < position <= len(texts) else ""
        if line["text"] != wanted:
            found.append(f"{line}, and the database has {wanted!r}")
        if position < before:
            found.append(f"{line}, after position {before}")
        before = position
    return found


def install(folder: Path, program: str) -> None:
    """The programs and `pagelogctl`, where every user may run them."""
    programs = folder / "programs"
    programs.mkdir()
    shutil.copy(program, programs / "pagelog")
    shutil.copy(os.environ["PAGELOG_PAGES"], programs / "pagelog-pages")
    shutil.copytree(SOURCE, folder / "python", ignore=shutil.ignore_patterns("__pycache__"))
    (programs / "pagelogctl").write_text(f'#!/bin/sh\nexec {sys.executable} -B -m pagelog "$@"\n')
    for file in programs.iterdir():
        file.chmod(0o755)
    os.environ |= {"PATH": f"{programs}:{os.environ['PATH']}", "PYTHONPATH": str(folder / "python")}


def step(word: str) -> tuple[str, str]:
    """FAULT:NODE."""
    fault, _, node = word.partition(":")
    if fault not in FAULTS or node not in (*ADDRESSES, "holder", "leader", "both"):
        raise argparse.ArgumentTypeError(
            f"{word!r} is none of kill, cut, stop and alone, with :a, :b, :c, :holder, :leader or :both"
        )
    return fault, node


def main() -> int:
    parser = argparse.ArgumentParser(prog="trial")
    parser.add_argument("folder", type=Path)
    parser.add_argument("steps", nargs="*", type=step)
    parser.add_argument("--logs", type=Path)
    told = parser.parse_intermixed_args()
    if fast_calls.library() is None:
        sys.exit("trial: the fast path is not built")
    signal.signal(
        signal.SIGTERM, lambda *_: sys.exit("trial: it was ended")
    )  # with this first process all others end
    trial = Trial(told.folder, os.environ["PAGELOG"])
    try:
        trial.start()
        for fault, node in told.steps or map(step, DEFAULT):
            trial.show(fault, node)
        return trial.end()
    finally:
        if told.logs is not None:
            keep_logs(told.folder, told.logs)


def keep_logs(folder: Path, target: Path) -> None:
    target.mkdir(parents=True, exist_ok=True)
    for file in (*folder.glob("machines/*/*.log"), *(folder / what for what in CLIENTS)):
        if file.exists():
            shutil.copy(file, target / f"{file.parent.name}-{file.name}")


if __name__ == "__main__":
    sys.exit(main())
