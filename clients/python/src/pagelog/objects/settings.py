"""What the credentials file says of the store: `store` of [archive], and the section [store]."""

from __future__ import annotations

import re
from dataclasses import asdict, dataclass
from typing import Any, Mapping
from urllib.parse import urlsplit

from pagelog.errors import CredentialsError

_SIZE = re.compile(r"([1-9][0-9]{0,8}) ?(B|KiB|MiB)?")
_TIME = re.compile(r"([0-9]{1,6}) ?(s|min|m|h|d|w)")
_BYTES = {"": 1, "B": 1, "KiB": 1 << 10, "MiB": 1 << 20}
_SECONDS = {"s": 1, "min": 60, "m": 60, "h": 3600, "d": 86_400, "w": 604_800}
_TEXTS = ("endpoint_url", "region", "profile", "sse", "sse_key")
_LEAST, _MOST = 1 << 10, 64 << 20


@dataclass(frozen=True)
class StoreSettings:
    """Where the store is, and when blocks go there: a run of them is sealed at `seal` bytes, or once its first block is `age` seconds
    old, and leaves PostgreSQL once it is `tail` seconds old. What nothing names any more is deleted after `grace` seconds. `bases` is how
    many times as many blocks lie between two bases as without a store."""

    url: str
    endpoint_url: str | None = None
    region: str | None = None
    profile: str | None = None
    sse: str | None = None
    sse_key: str | None = None
    seal: int = 8 << 20
    age: float = 60.0
    tail: float = 120.0
    grace: float = 86_400.0
    bases: int = 1

    @classmethod
    def of(cls, url: object, section: Mapping[str, Any]) -> StoreSettings | None:
        """From `store` and the section; None where there is no store. Raises `CredentialsError`."""
        if url is None:
            if section:
                raise CredentialsError("[store] is of no use without `store` in [archive]")
            return None
        check_url(url)
        values: dict[str, Any] = {}
        for key, value in section.items():
            if key in _TEXTS:
                values[key] = _text(key, value)
            elif key == "seal":
                values[key] = _size(value)
            elif key in ("age", "tail", "grace"):
                values[key] = _time(key, value)
            elif key == "bases" and type(value) is int and 1 <= value <= 1000:
                values[key] = value
            else:
                raise CredentialsError(
                    f"[store]: {key} is {value!r}; it may have {', '.join(_TEXTS)}, seal, age, tail, grace and bases (1 to 1000)"
                )
        return cls(str(url), **values)

    @property
    def json(self) -> dict[str, Any]:
        """All of it, for another process. No secret is among it: the library finds these by itself."""
        return asdict(self)


def check_url(url: object) -> None:
    """Raises `CredentialsError` unless it is one of a folder or of a bucket, in which no secret may stand."""
    parts = urlsplit(url) if isinstance(url, str) else None
    is_folder = (
        parts is not None
        and parts.scheme == "file"
        and not parts.netloc
        and parts.path.startswith("/")
        and parts.path != "/"
    )
    is_bucket = (
        parts is not None
        and parts.scheme == "s3"
        and bool(parts.netloc)
        and "@" not in parts.netloc
    )
    if parts is None or parts.query or parts.fragment or not (is_folder or is_bucket):
        raise CredentialsError("[archive]: store is file:///FOLDER or s3://BUCKET/PREFIX")


def _text(key: str, value: object) -> str:
    if not isinstance(value, str) or not value:
        raise CredentialsError(f"[store]: {key} is a text")
    return value


def _size(value: object) -> int:
    found = _SIZE.fullmatch(value) if isinstance(value, str) else None
    size = value if type(value) is int else int(found[1]) * _BYTES[found[2] or ""] if found else 0
    if not _LEAST <= size <= _MOST:
        raise CredentialsError("[store]: seal is a size from 1KiB to 64MiB, as 8MiB")
    return size


def _time(key: str, value: object) -> float:
    found = _TIME.fullmatch(value) if isinstance(value, str) else None
    if found is None:
        raise CredentialsError(f"[store]: {key} is a time as 60s, 2min, 24h or 7d")
    return float(int(found[1]) * _SECONDS[found[2]])
