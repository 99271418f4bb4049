"""What pyproject.toml cannot say: the library of a keeper's fast path, which it loads by ctypes. A machine without a compiler, libpq,
libb2, libcrypto or zlib gets the package without it."""

from __future__ import annotations

import glob
import subprocess

from setuptools import Extension, setup


def folder_of_libpq() -> list[str]:
    """Where its headers are, if it says so."""
    for words in (["pg_config", "--includedir"], ["pkg-config", "--variable=includedir", "libpq"]):
        try:
            return [
                subprocess.run(words, check=True, capture_output=True, text=True).stdout.strip()
            ]
        except (OSError, subprocess.CalledProcessError):
            continue
    return []


# It is of no Python's own interface, so one serves each version.
fast_path = Extension(
    "pagelog.keeper._fast_path",
    sorted(glob.glob("src/pagelog/keeper/fast_path*.c")),
    depends=glob.glob("src/pagelog/keeper/fast_path*.h"),
    include_dirs=folder_of_libpq(),
    libraries=["pq", "b2", "z", "crypto"],
    extra_link_args=["-pthread"],
    extra_compile_args=[
        "-std=c11",
        "-D_GNU_SOURCE",
        "-Wall",
        "-Wextra",
        "-O2",
        "-pthread",
        "-fvisibility=hidden",
    ],
    py_limited_api=True,
    optional=True,
)
setup(ext_modules=[fast_path], options={"build": {"build_base": "out"}})
