"""Who asks: address, id and token of each role, from a TOML file that nobody else may read, or from the environment.

    [primary]
    to = "127.0.0.1:7400"
    id = 2
    token = "22222222222222222222222222222222"

The sections are `primary`, `secondary`, `page_server` and `operator`; each command says which it needs. In the
environment PAGELOG_PRIMARY_TO, PAGELOG_PRIMARY_ID and PAGELOG_PRIMARY_TOKEN stand for such a section, and
PAGELOG_CREDENTIALS names the file. The section `tls` has sslrootcert, sslcert, sslkey and sslmode, as PAGELOG_SSLROOTCERT and the like.
"""

from __future__ import annotations

import os
import re
import stat
import tomllib
from dataclasses import dataclass, field
from pathlib import Path
from typing import Any, Mapping, Sequence

from pagelog.connection import Address
from pagelog.errors import CredentialsError
from pagelog.objects.settings import StoreSettings
from pagelog.request import COPIES_OF_QUORUM, QUORUM, Role
from pagelog.secure import WORDS, Trust, of_environment, trust_of

FILE_VARIABLE = "PAGELOG_CREDENTIALS"
"""The variable of the environment that names the file."""
_KEYS = ("to", "id", "token")
_COUNT = re.compile(r"[1-9][0-9]{0,5}")
_TIME = re.compile(r"([1-9][0-9]{0,5}) ?([smhdw])")
_UNITS = {"s": "seconds", "m": "minutes", "h": "hours", "d": "days", "w": "weeks"}


@dataclass(frozen=True)
class Credentials:
    """A principal, 0 to 2^32 - 1, and its token of 16 bytes, which no debug text shows."""

    id: int
    token: bytes = field(repr=False)

    def __post_init__(self) -> None:
        if isinstance(self.id, bool) or not isinstance(self.id, int) or not 0 <= self.id < 1 << 32:
            raise CredentialsError("an id is a number from 0 to 4294967295")
        if not isinstance(self.token, bytes) or len(self.token) != 16:
            raise CredentialsError("a token has 32 hexadecimal digits")

    @classmethod
    def of(cls, id: int, token: str) -> Credentials:
        """From the token's 32 hexadecimal digits. Raises `CredentialsError`."""
        try:
            digits = bytes.fromhex(token) if len(token) == 32 else b""
        except (TypeError, ValueError):
            digits = b""
        return cls(id, digits)


@dataclass(frozen=True)
class Account:
    """Credentials, and the address at which they are good."""

    to: Address
    credentials: Credentials
    trust: Trust | None = None
    """By which TLS it is reached; None: by none."""


@dataclass(frozen=True)
class Accounts:
    """The accounts of a file and of the environment, by role, and what else the file says.

    `archive_url` is the `url` of the section `archive`, and `archive_keep` its `keep`. The section `service` says what no reply
    of a service reports: `audit_limit` is its `audit`, how many entries an audit list holds, `quorum` its `quorum`, 2 or 4, and `memory` its
    `memory`, how many bytes of memory the service may take.
    """

    of_role: Mapping[Role, Account]
    archive_url: str | None = None
    archive_keep: str | int | None = None
    audit_limit: int | None = None
    quorum: int = QUORUM
    memory: int | None = None
    keeper: Mapping[str, Any] = field(default_factory=dict)
    """The section `keeper`, which `pagelogctl keep` reads."""
    key_file: Path | None = None
    """The file of the keys by which tables of principals are sealed in PostgreSQL: `[archive] key_file`, beside this file."""
    store: StoreSettings | None = None
    """Where blocks lie that PostgreSQL has no more: `store` of [archive], and the section [store]."""
    trust: Trust | None = None
    """By which TLS all of them are reached; None: by none."""

    def account(self, role: Role) -> Account:
        """The account of this role. Raises `CredentialsError` where there is none."""
        found = self.of_role.get(role)
        if found is None:
            raise CredentialsError(
                f"the credentials have no section [{role.word}], which this needs"
            )
        return found


def load(
    file: str | Path | None = None,
    environment: Mapping[str, str] | None = None,
    words: Mapping[str, str] | None = None,
) -> Accounts:
    """The accounts of the file, or of the one that the environment names. Those of the environment override them, and `words` of TLS both.

    Raises `CredentialsError` where the file cannot be read, is malformed, or others may read it.
    """
    environment = os.environ if environment is None else environment
    name = file if file is not None else environment.get(FILE_VARIABLE)
    document = _read(Path(name)) if name else {}
    unknown = (
        set(document)
        - {role.word for role in Role}
        - {"archive", "service", "keeper", "store", "tls"}
    )
    if unknown:
        raise CredentialsError(f"{name}: there is no section [{sorted(unknown)[0]}]")
    sections = {
        role: {**_section(document, role.word), **_variables(environment, role)} for role in Role
    }
    trust = trust_of(words or {}, of_environment(environment), _section(document, "tls", WORDS))
    accounts = {
        role: _account(role, section, trust) for role, section in sections.items() if section
    }
    archive, service = _section(
        document, "archive", ("url", "keep", "key_file", "store")
    ), _section(document, "service", ("audit", "quorum", "memory"))
    keys = archive.get("key_file")
    url, limit, quorum, memory = (
        archive.get("url"),
        service.get("audit"),
        service.get("quorum", QUORUM),
        service.get("memory"),
    )
    if url is not None and not isinstance(url, str):
        raise CredentialsError("[archive]: url is a text")
    if keys is not None and not isinstance(keys, str):
        raise CredentialsError("[archive]: key_file is a text")
    if limit is not None and (type(limit) is not int or not 1 <= limit <= 1 << 24):
        raise CredentialsError("[service]: audit is a number from 1 to 16777216")
    if type(quorum) is not int or quorum not in COPIES_OF_QUORUM:
        raise CredentialsError("[service]: quorum is 2 or 4")
    if memory is not None and (type(memory) is not int or memory < 1):
        raise CredentialsError("[service]: memory is a number of bytes, 1 or more")
    return Accounts(
        of_role=accounts,
        archive_url=url,
        archive_keep=keep_of(archive.get("keep")),
        audit_limit=limit,
        quorum=quorum,
        memory=memory,
        keeper=_section(document, "keeper"),
        key_file=None if keys is None else Path(name or ".").absolute().parent / keys,
        store=StoreSettings.of(archive.get("store"), _section(document, "store")),
        trust=trust,
    )


def keep_of(value: object) -> str | int | None:
    """How much of the archive of a named database is kept: so many bases, also in quotes, or a time, as PostgreSQL reads it; None: all."""
    if isinstance(value, str) and _COUNT.fullmatch(value):
        return int(value)
    if value is None or (type(value) is int and value >= 1):
        return value
    found = _TIME.fullmatch(value) if isinstance(value, str) else None
    if found is None:
        raise CredentialsError("[archive]: keep is a number of bases, or a time as 12h or 7d")
    return f"{found[1]} {_UNITS[found[2]]}"


def _read(file: Path) -> dict[str, Any]:
    try:
        with file.open("rb") as opened:
            told = os.fstat(opened.fileno())
            if stat.S_ISREG(told.st_mode) and told.st_mode & 0o077:
                raise CredentialsError(f"others may read {file.name}: chmod 600 {file.name}")
            return tomllib.load(opened)
    except OSError as error:
        raise CredentialsError(f"{file}: {error.strerror}") from error
    except (
        ValueError,
        RecursionError,
    ) as error:  # also of a number of thousands of digits, and of brackets within brackets
        raise CredentialsError(f"{file.name}: {error}") from error


def _section(
    document: Mapping[str, Any], name: str, keys: Sequence[str] | None = None
) -> dict[str, Any]:
    """The section of this name, which has no other keys than these."""
    section = document.get(name, {})
    if not isinstance(section, dict):
        raise CredentialsError(f"{name} is no section")
    unknown = set(section) - set(section if keys is None else keys)
    if unknown:
        raise CredentialsError(
            f"[{name}] has no key {min(unknown)!r}: it may have {', '.join(keys or ())}"
        )
    return dict(section)


def _variables(environment: Mapping[str, str], role: Role) -> dict[str, Any]:
    found: dict[str, Any] = {}
    for key in _KEYS:
        value = environment.get(f"PAGELOG_{role.name}_{key.upper()}")
        if value is not None:
            # A number of more digits than an id may have stays a text, which is no id.
            found[key] = (
                int(value) if key == "id" and value.isdecimal() and len(value) <= 10 else value
            )
    return found


def _account(role: Role, section: Mapping[str, Any], trust: Trust | None) -> Account:
    place = f"[{role.word}]"
    for key in _KEYS:
        if key not in section:
            raise CredentialsError(f"{place} has no {key}")
    if set(section) - set(_KEYS):
        raise CredentialsError(f"{place} has more than to, id and token")
    try:
        return Account(
            Address.parse(str(section["to"])),
            Credentials.of(section["id"], str(section["token"])),
            trust,
        )
    except (CredentialsError, ValueError) as error:
        raise CredentialsError(f"{place}: {error}") from error
