"""Looks for each secret that a run of keepers has made where nobody is to find one: logs, notes and outputs, services' arguments,
environments and open files, and the rows of PostgreSQL."""

from __future__ import annotations

import json
import os
import secrets
import stat
import sys
import zlib
from contextlib import suppress
from pathlib import Path
from typing import Any, Iterable, Iterator

import psycopg

from keepers import Keeping
from pagelog.referee.referee import KeeperError, Referee
from pagelog.referee.sealed import Keys
from pagelog.keeper.table import keeper_of, tokens_of
from pagelog.run_tokens import token_of


_PIECES = "pagelog_trail_piece"
_PIECE = 8


class Secrets:
    """Of a run that has not begun: its tables are sealed from now on, and its keepers' environment has a password."""

    def __init__(self, keeping: Keeping) -> None:
        self._keeping, self._key = keeping, secrets.token_hex(32)
        self.keys = keeping.folder / "keys"
        self.keys.touch(mode=0o600)
        self.keys.write_text(f"{self._key}\n")
        keeping.file.write_text(
            keeping.file.read_text().replace("[keeper]", f'key_file = "{self.keys}"\n[keeper]')
        )
        self._known = {
            self._key: "the key",
            secrets.token_hex(16): "the password of the keepers' environment",
        }
        keeping.environment["PGPASSWORD"] = list(self._known)[1]

    def learn(self) -> None:
        """Those of the databases and runs that there are now."""
        keeping = self._keeping
        referee = Referee(keeping.url, keys=Keys(self.keys))
        try:
            for row in referee.everything().rows:
                runs = [
                    run
                    for run, in referee._ask(
                        "SELECT run FROM pagelog_generation WHERE log = %s", (row.id,)
                    )
                ]
                if not row.dropped:
                    self._learn_of(
                        row.name, runs, referee.table(row.id).text, referee.table(row.id).secret
                    )
        except KeeperError:
            pass  # PostgreSQL is away: what is known is looked for
        finally:
            referee.close()

    def _learn_of(self, name: str, runs: list[str], text: str, secret: bytes) -> None:
        self._known[secret.hex()] = f"the secret of {name}"
        for id, token in tokens_of(text).items():
            self._known[token.hex()] = f"the token of principal {id} of {name}"
            self._known.update(
                {
                    token_of(token, name, run).hex(): f"the token of principal {id} in run {run}"
                    for run in runs
                }
            )
        self._known.update(
            {
                keeper_of(secret, name, run).token.hex(): f"the keeper's token in run {run}"
                for run in runs
            }
        )

    def found(self) -> list[str]:
        """What was found, and where."""
        self.learn()
        sought = Sought(self._known)
        return [
            f"{self._known[secret]} is in {where}"
            for where, there in self._places()
            for secret in sought.in_text(there)
        ]

    @property
    def count(self) -> int:
        """How many are looked for."""
        return len(self._known)

    def _places(self) -> Iterator[tuple[str, bytes]]:
        keeping = self._keeping
        own = {self.keys, keeping.file, keeping.table}
        for file in keeping.folder.rglob("*"):
            if file.is_file() and file not in own:
                yield str(file.relative_to(keeping.folder)), file.read_bytes()
        for note in keeping.folder.glob("*/*.json"):
            with suppress(OSError, ValueError):  # it has ended
                yield from _of_process(Path(f"/proc/{json.loads(note.read_text())['pid']}"))
        for process in keeping.processes.values():
            if process.poll() is None:
                yield "cmdline of a keeper", Path(f"/proc/{process.pid}/cmdline").read_bytes()
        yield from self._rows()

    def _rows(self) -> Iterator[tuple[str, bytes]]:
        with psycopg.connect(self._keeping.url, target_session_attrs="read-write") as session:
            tables = session.execute(
                "SELECT relname FROM pg_class WHERE relnamespace = 'public'::regnamespace AND relkind = 'r'"
            ).fetchall()
            for (table,) in tables:
                if table == _PIECES:
                    yield from _of_pieces(session)
                    continue
                for (row,) in session.execute(f"SELECT t::text FROM {table} t"):
                    yield f"a row of {table}", str(row).encode()


class Sought:
    """Secrets, each a text of hexadecimal digits that may be there as such or as bytes. What has none is passed over quickly: of all
    secrets there may be thousands, and of rows a million."""

    def __init__(self, secrets: Iterable[str]) -> None:
        self._forms = {secret: (secret.encode(), bytes.fromhex(secret)) for secret in secrets}
        self._pieces = {
            int.from_bytes(form[at : at + _PIECE], sys.byteorder)
            for forms in self._forms.values()
            for form in forms
            for at in range(_PIECE)
        }
        """One of each form is wherever it is, at a place that is divided by the length of a piece."""
        assert all(len(form) >= 2 * _PIECE - 1 for forms in self._forms.values() for form in forms)

    def in_text(self, there: bytes) -> list[str]:
        whole = memoryview(there)[: len(there) // _PIECE * _PIECE]
        if self._pieces.isdisjoint(whole.cast("Q")):
            return []
        return [
            secret for secret, forms in self._forms.items() if any(form in there for form in forms)
        ]


def _of_pieces(session: psycopg.Connection[Any]) -> Iterator[tuple[str, bytes]]:
    """Lines of audit lists, as they were before they were compressed: what is compressed may look like a token of one digit."""
    for row, data in session.execute(f"SELECT (to_jsonb(t) - 'data')::text, data FROM {_PIECES} t"):
        yield f"a row of {_PIECES}", str(row).encode() + zlib.decompress(data)


def _of_process(process: Path) -> Iterator[tuple[str, bytes]]:
    """What a service was given: arguments, environment, and what its descriptors lead to, its shared memory too."""
    for name in ("cmdline", "environ"):
        yield f"{name} of a service", (process / name).read_bytes()
    for opened in (process / "fd").iterdir():
        if stat.S_ISREG(os.stat(opened).st_mode):
            yield f"{os.readlink(opened)} of a service", opened.read_bytes()
