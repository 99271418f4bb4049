"""`pagelogctl`, or `python3 -m pagelog`: the words, and what a fault of one looks like."""

from __future__ import annotations

import os
import sys

LACKS = "apt-get install python3-click python3-rich python3-psycopg python3-prometheus-client python3-aiohttp python3-cryptography"
"""The line that installs all that the words need."""


def main() -> None:
    """Runs a word. `pagelogctl --help` has the exit statuses."""
    _open_closed()
    try:
        from pagelog.cli.words import pagelogctl

        pagelogctl(prog_name="pagelogctl")
    except ModuleNotFoundError as error:
        print(f"pagelogctl needs {error.name}: {LACKS}", file=sys.stderr)
        sys.exit(1)
    except OSError as error:
        os.dup2(
            os.open(os.devnull, os.O_WRONLY), 1
        )  # where the output is full, what is left of it goes nowhere
        print(f"pagelogctl: {error}", file=sys.stderr)
        sys.exit(1)
    except KeyboardInterrupt:
        sys.exit(130)


def _open_closed() -> None:
    """What was closed as this program began goes nowhere: no file or socket gets the number of an output."""
    while (opened := os.open(os.devnull, os.O_RDWR)) <= 2:
        pass
    os.close(opened)
    sys.stdin = sys.stdin or open(0)
    sys.stdout = sys.stdout or open(1, "w")
    sys.stderr = sys.stderr or open(2, "w")
