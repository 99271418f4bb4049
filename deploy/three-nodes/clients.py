"""The clients of the trial, each a process with books of its own: a line of JSON for each thing that it was told.

Called by trial.py with `write`, `read` or `pages`, the file of its books, and a file whose coming ends it.
"""

from __future__ import annotations

import json
import sys
import time
from pathlib import Path

from pagelog import Block, Lost, NamedPrimary, PagelogError, Primary, Put, Reader

NAME = "shop"
PATIENCE, TIMEOUT = 300.0, 3.0
BETWEEN = 0.01
"""Seconds from one commit to the next."""


class Books:
    def __init__(self, file: Path) -> None:
        self._file = file.open("a", buffering=1)

    def note(self, what: str, **facts: object) -> None:
        self._file.write(json.dumps({"what": what, "at": time.monotonic(), **facts}) + "\n")


def token(principal: int) -> str:
    """As clients/c/table.toml has it."""
    return str(principal) * 32


def writer(keepers: list[str]) -> NamedPrimary:
    return Primary.named(
        NAME,
        keepers=keepers,
        principal=2,
        token=token(2),
        operator=(1, token(1)),
        patience=PATIENCE,
        timeout=TIMEOUT,
    )


def write(books: Books, keepers: list[str], stop: Path) -> None:
    """Commits one text after the other, each durable before the next."""
    number, primary = 0, writer(keepers)
    while not stop.exists():
        number += 1
        text = f"commit {number}"
        books.note("try", text=text)
        try:
            primary.append(Put(0, 0, text.encode()))
            position = primary.commit(durable=True)
            books.note("durable", text=text, position=position)
        except Lost as lost:
            books.note("lost", text=text, position=lost.position)
        except PagelogError as error:
            books.note("doubt", text=text, why=f"{type(error).__name__}: {error}")
            primary.close()
            primary = writer(keepers)
        time.sleep(BETWEEN)


def read(books: Books, keepers: list[str], stop: Path) -> None:
    """Follows what is durable."""
    position = 1
    while not stop.exists():
        with Reader.named(
            NAME,
            keepers=keepers,
            principal=3,
            token=token(3),
            durable_only=True,
            patience=PATIENCE,
            timeout=TIMEOUT,
        ) as reader:
            try:
                for block in reader.blocks(position, idle=0.05, stop=stop.exists):
                    books.note("read", position=block.lsn, text=text_of(block))
                    position = block.lsn + 1
            except PagelogError as error:
                books.note("ended", why=f"{type(error).__name__}: {error}")


def pages(books: Books, keepers: list[str], stop: Path) -> None:
    """Reads the page that each commit writes, of page servers alone: what they have is durable."""
    while not stop.exists():
        with Reader.named(
            NAME,
            keepers=keepers,
            principal=3,
            token=token(3),
            pages="only",
            patience=PATIENCE,
            timeout=TIMEOUT,
        ) as reader:
            try:
                while not stop.exists():
                    page = reader.page(0)
                    text = page.data.rstrip(b"\0").decode()
                    books.note("page", position=page.at, text=text)
                    time.sleep(BETWEEN)
            except PagelogError as error:
                books.note("ended", why=f"{type(error).__name__}: {error}")


def text_of(block: Block) -> str:
    return block.records[-1].data.decode()  # type: ignore[union-attr]


if __name__ == "__main__":
    what, books, stop, addresses = sys.argv[1:]
    {"write": write, "read": read, "pages": pages}[what](
        Books(Path(books)), addresses.split(","), Path(stop)
    )
