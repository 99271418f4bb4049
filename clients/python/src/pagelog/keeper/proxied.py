"""The head that a front puts before a connection, in PROXY's version 2: who the client is."""

from __future__ import annotations

from typing import Iterator, NamedTuple

SIGNATURE = b"\r\n\r\n\0\r\nQUIT\n"
LONGEST = 4096
"""Bytes of a head at most, behind its first 16."""
_PROXY, _LOCAL = 0x21, 0x20
_LENGTHS = {0x11: 12, 0x21: 36}
"""The bytes of both addresses: of TCP over IPv4 and over IPv6. Fronts speak no other."""
_TLS, _COMMON_NAME = 0x20, 0x22
_HAS_TLS, _HAS_CERTIFICATE = 0x01, 0x06
"""A certificate of this connection, or of the session that it has taken up again."""


class ProxyHead(NamedTuple):
    """What it says: the name in the client's certificate, if that was verified."""

    client: str | None


def taken(data: bytes) -> tuple[ProxyHead, bytes] | None:
    """The head, and what comes behind it. None where it is not whole yet. Raises `ValueError` where it is none."""
    if not data[:12] == SIGNATURE[: len(data)]:
        raise ValueError("it has no head of a front")
    if len(data) < 16:
        return None
    length = int.from_bytes(data[14:16], "big")
    if length > LONGEST:
        raise ValueError(f"its head has {length} bytes")
    if len(data) < 16 + length:
        return None
    return _head(data[12], data[13], data[16 : 16 + length]), data[16 + length :]


def _head(command: int, family: int, body: bytes) -> ProxyHead:
    if command == _LOCAL:
        return ProxyHead(None)  # of the front itself
    if command != _PROXY or family not in _LENGTHS or len(body) < _LENGTHS[family]:
        raise ValueError("its head is of another form")
    for kind, value in _parts(body[_LENGTHS[family] :]):
        if kind == _TLS:
            return ProxyHead(_client_of(value))
    return ProxyHead(None)


def _client_of(value: bytes) -> str | None:
    if len(value) < 5:
        raise ValueError("its head is cut")
    is_verified = value[0] & _HAS_TLS and value[0] & _HAS_CERTIFICATE and not any(value[1:5])
    names = [part.decode() for kind, part in _parts(value[5:]) if kind == _COMMON_NAME]
    return names[0] if is_verified and len(names) == 1 else None


def _parts(data: bytes) -> Iterator[tuple[int, bytes]]:
    while data:
        length = int.from_bytes(data[1:3], "big")
        if len(data) < 3 + length:
            raise ValueError("its head is cut")
        yield data[0], data[3 : 3 + length]
        data = data[3 + length :]
