"""runner: starts the services of keepers, as its own user."""

from __future__ import annotations

import os
import signal
from pathlib import Path

import click

from pagelog.cli.options import fail, faults


@click.command("runner")
@click.option(
    "--for",
    "users",
    required=True,
    multiple=True,
    metavar="USER",
    help="Who may ask it: the user of a keeper.",
)
@click.option(
    "--socket",
    "path",
    metavar="SOCKET",
    type=click.Path(path_type=Path, readable=False),
    help="Where it is asked, unless systemd has made that; its own user need not be allowed to ask.",
)
@faults
def runner_word(users: tuple[str, ...], path: Path | None) -> None:
    """Start services as the user of this process, and end them, for keepers of other users on this machine (`keep --runner SOCKET`). So
    a service can read nothing of its keeper's.

    It has no right besides, and holds nothing: services stay up when it ends, and the next one serves them.

    \b
    Example:
      setpriv --reuid pagelog-run --regid pagelog-run --clear-groups pagelogctl runner --for pagelog --socket /run/pagelog-runner/socket
    """
    from pagelog.keeper.runner_process import RunnerProcess, listener, users_of

    if os.geteuid() == 0:
        fail("services are not to run as root: start the runner as a user of its own")
    try:
        found = listener(path)
        if found is None:
            fail("--socket says where it is asked")
        process = RunnerProcess(found, users_of(users))
    except KeyError as error:
        fail(f"--for: {error.args[0]}")
    except OSError as error:
        fail(f"{path}: {error.strerror}")
    click.echo(f"listening {'at the socket of systemd' if path is None else path}")
    signal.signal(signal.SIGTERM, signal.SIG_DFL)  # nothing is to be done at its end
    process.serve()
