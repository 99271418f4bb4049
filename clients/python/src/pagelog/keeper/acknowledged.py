"""Up to which position a run was acknowledged as archived: a number in memory that the process of its service has open, without
knowing of it. So it lives as long as what it is about, and needs no disk; a later instance of the keeper finds it at the process, also where
PostgreSQL went back meanwhile, and knows whether the service has what was acknowledged and PostgreSQL lacks."""

from __future__ import annotations

import ctypes
import mmap
import os
import weakref
from contextlib import suppress
from pathlib import Path

_NAME = "pagelog-acknowledged"
_SIZE = mmap.PAGESIZE
_FAILED = ctypes.c_void_p(-1).value
_libc = ctypes.CDLL(None, use_errno=True)
_libc.mmap.restype = ctypes.c_void_p
_libc.mmap.argtypes = [
    ctypes.c_void_p,
    ctypes.c_size_t,
    ctypes.c_int,
    ctypes.c_int,
    ctypes.c_int,
    ctypes.c_long,
]
_libc.munmap.argtypes = [ctypes.c_void_p, ctypes.c_size_t]


class Acknowledged:
    """The number of one service. It keeps no descriptor of its keeper's, as an `mmap` of Python's would."""

    def __init__(self, descriptor: int) -> None:
        """Of an open file of the size. Raises `OSError`."""
        place = _libc.mmap(
            None, _SIZE, mmap.PROT_READ | mmap.PROT_WRITE, mmap.MAP_SHARED, descriptor, 0
        )
        if place == _FAILED:
            raise OSError(ctypes.get_errno(), "the memory of a service could not be mapped")
        weakref.finalize(self, _libc.munmap, place, _SIZE)
        self.address = int(place)
        """Where it is: a thread that acknowledges writes it there, as long as this object is."""
        self._number = ctypes.c_uint64.from_address(self.address)

    @property
    def position(self) -> int:
        """The highest one."""
        return int(self._number.value)

    def note(self, position: int) -> None:
        """So far it may be acknowledged from now on."""
        if position > self._number.value:
            self._number.value = position


def new_memory() -> int:
    """A descriptor of the memory for a process that is about to be started. Raises `OSError`."""
    descriptor = os.memfd_create(_NAME)
    os.ftruncate(descriptor, _SIZE)
    return descriptor


def memory_of(pid: int) -> int | None:
    """A descriptor of the memory of a process that runs; None where it has none, as one that an older keeper has started."""
    folder = Path(f"/proc/{pid}/fd")
    with suppress(OSError, ValueError):  # it has ended, or is not of this user
        for name in sorted(os.listdir(folder), key=int):
            if _leads_to(folder / name).startswith(f"/memfd:{_NAME} "):
                return os.open(folder / name, os.O_RDWR | os.O_CLOEXEC)
    return None


def _leads_to(descriptor: Path) -> str:
    """Nowhere where the process has closed it since, as that of a client."""
    with suppress(FileNotFoundError):
        return os.readlink(descriptor)
    return ""


def acknowledged_of(memory: int | None) -> Acknowledged | None:
    """The number in the memory of a process; None where it has none."""
    try:
        return None if memory is None else Acknowledged(memory)
    except OSError:
        return None
