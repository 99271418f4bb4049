"""What a store does of what is needed, and of what is good to have: said, and tried."""

from __future__ import annotations

import secrets
from dataclasses import dataclass
from typing import Callable, Iterator

from pagelog.objects.place import Missing, Store, StoreError, store_of
from pagelog.objects.settings import StoreSettings


@dataclass(frozen=True)
class Found:
    """One thing, what it does of it, and whether that is enough."""

    what: str
    said: str
    is_good: bool = True


def checked(settings: StoreSettings) -> Iterator[Found]:
    """All of it, one after the other. A store that is away is the last thing that is found."""
    try:
        store = store_of(settings)
        yield from _needed(store)
        if settings.url.startswith("s3:"):
            from pagelog.objects.s3 import Bucket

            assert isinstance(store, Bucket)
            yield from (
                Found(what, said, is_good)
                for what, said, is_good in store.features(f"pagelog-check/{secrets.token_hex(8)}")
            )
        if settings.sse:
            yield Found("encryption", f"{settings.sse}, confirmed")
    except StoreError as error:
        yield Found("the store", str(error), False)


def _needed(store: Store) -> Iterator[Found]:
    key, data = f"pagelog-check/{secrets.token_hex(8)}", secrets.token_bytes(1000)
    store.put(key, data)
    store.put(key, data)
    yield Found("put, and put again", "yes")
    yield _is("read", store.get(key) == data)
    yield _is("read a part", store.get(key, 10, 20) == data[10:30])
    yield _is(
        "list",
        (key, 1000) in list(store.list("pagelog-check/"))
        and list(store.list("pagelog-check/", key + "~")) == [],
    )
    yield Found("delete", _deleted(store, key))
    yield _is("say what is missing", _is_missing(lambda: store.get(f"{key}x")))


def _is(what: str, is_so: bool) -> Found:
    return Found(what, "yes" if is_so else "NO", is_so)


def _is_missing(call: Callable[[], object]) -> bool:
    try:
        call()
    except Missing:
        return True
    return False


def _deleted(store: Store, key: str) -> str:
    """Keepers need no key that may."""
    try:
        store.delete(key)
    except StoreError as error:
        return f"no: {error}"
    return "yes" if _is_missing(lambda: store.get(key)) else "no: it is still there"
