"""Where objects lie: a folder or a bucket, by five words. Keys are written once: other bytes have another key, so that a put may be
repeated, doubled or late, and no server has to support conditions."""

from __future__ import annotations

import os
import secrets
from contextlib import suppress
from pathlib import Path
from typing import Iterator, Protocol
from urllib.parse import unquote, urlsplit

from pagelog.objects.errors import (
    Missing as Missing,
    StoreAway as StoreAway,
    StoreError as StoreError,
    Taken as Taken,
)
from pagelog.objects.settings import StoreSettings


class Store(Protocol):
    """The five words."""

    def put(self, key: str, data: bytes) -> None:
        """Keeps the bytes under the key. What may be there already has the same bytes. Raises `Taken` where a store that writes each key once
        has others."""

    def get(self, key: str, start: int = 0, length: int | None = None) -> bytes:
        """The bytes of an object, or a part of them. Raises `Missing`."""

    def older(self, key: str) -> Iterator[bytes]:
        """The bytes of its earlier versions, also of one that was deleted, the newest first; nothing where the store has none."""

    def list(self, prefix: str, after: str = "") -> Iterator[tuple[str, int]]:
        """Keys that begin so, in order, those behind `after`, and their sizes."""

    def delete(self, key: str) -> None:
        """Deletes an object, which may be gone already."""


def store_of(settings: StoreSettings) -> Store:
    """The store at the URL."""
    if settings.url.startswith("s3:"):
        from pagelog.objects.s3 import Bucket  # its library takes a second of a processor

        return Bucket(settings)
    return Folder(Path(unquote(urlsplit(settings.url).path)))


class Folder:
    """Objects as files. The folder has to be there: where a disk is not mounted nothing is written in its place."""

    def __init__(self, root: Path) -> None:
        self._root = root

    def _file(self, key: str) -> Path:
        if not key or any(
            part in ("", ".", "..") or part.startswith(".") for part in key.split("/")
        ):
            raise StoreError(f"{key!r} is no key of an object")
        if not self._root.is_dir():
            raise StoreAway(f"the store has no folder {self._root}")
        return self._root / key

    def put(self, key: str, data: bytes) -> None:
        """As of any store. It is on the disk, with its name, when this returns."""
        file = self._file(key)
        fresh = file.with_name(f".{secrets.token_hex(8)}")
        try:
            self._make(file.parent)
            with fresh.open("xb") as opened:
                opened.write(data)
                opened.flush()
                os.fsync(opened.fileno())
            fresh.replace(file)
            sync_folder(file.parent)
        except OSError as error:
            raise StoreAway(f"{file}: {error.strerror}") from error
        finally:
            with suppress(OSError):
                fresh.unlink()

    def _make(self, folder: Path) -> None:
        made = []
        while not folder.is_dir():
            made.append(folder)
            folder = folder.parent
        for each in reversed(made):
            each.mkdir(exist_ok=True)
            sync_folder(each.parent)

    def get(self, key: str, start: int = 0, length: int | None = None) -> bytes:
        """As of any store."""
        file = self._file(key)
        try:
            with file.open("rb") as opened:
                opened.seek(start)
                return opened.read(-1 if length is None else length)
        except (FileNotFoundError, NotADirectoryError, IsADirectoryError) as error:
            raise Missing(f"the store has no object {key}") from error
        except OSError as error:
            raise StoreAway(f"{file}: {error.strerror}") from error

    def older(self, key: str) -> Iterator[bytes]:
        """A folder has no versions."""
        return iter(())

    def list(self, prefix: str, after: str = "") -> Iterator[tuple[str, int]]:
        """As of any store."""
        if not self._root.is_dir():
            raise StoreAway(f"the store has no folder {self._root}")
        found = []
        for folder, folders, names in os.walk(self._root):
            folders[:] = [name for name in folders if not name.startswith(".")]
            for name in names:
                file = Path(folder, name)
                key = file.relative_to(self._root).as_posix()
                if key.startswith(prefix) and key > after and not name.startswith("."):
                    with suppress(FileNotFoundError):
                        found.append((key, file.stat().st_size))
        return iter(sorted(found))

    def delete(self, key: str) -> None:
        """As of any store."""
        try:
            self._file(key).unlink(missing_ok=True)
        except OSError as error:
            raise StoreAway(f"{key}: {error.strerror}") from error


def sync_folder(folder: Path) -> None:
    """Its names are on the disk."""
    descriptor = os.open(folder, os.O_RDONLY | os.O_DIRECTORY)
    try:
        os.fsync(descriptor)
    finally:
        os.close(descriptor)
