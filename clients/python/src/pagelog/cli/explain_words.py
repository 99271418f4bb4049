"""explain, and completion."""

from __future__ import annotations

import sys
from pathlib import Path

import click

from pagelog.cli.explain import RequestQuestion, Table, differences, explain, questions_of
from pagelog.cli.explain_all import all_differences
from pagelog.cli.options import fail, faults
from pagelog.errors import PagelogError
from pagelog.table_editing import changed_tokens


@click.command("explain")
@click.option(
    "--diff",
    "is_diff",
    is_flag=True,
    help="Compare two tables: by the requests on the lines of FILE, or by all kinds of requests.",
)
@click.argument(
    "arguments",
    nargs=-1,
    required=True,
    type=click.Path(),
    metavar="TABLE REQUEST... | --diff OLD NEW [FILE]",
)
@faults
def explain_word(is_diff: bool, arguments: tuple[str, ...]) -> None:
    """Say which row of a table decides a request, before the table is set.

    The program itself is asked: `pagelog play`, on an empty database in epoch 1 whose primary is the one who asks. PAGELOG
    names it where it is not on the path. A request is `principal N [as ROLE] OPERATION [ARGUMENT] [at LSN]`; the argument is
    the partitions of a write, an offer or a pull (0..3 or 1,4), the page of a get, the partition of an advance, and the
    principal of a failover. The LSN, by default the lowest, matters for rows that end at one (`through`).

    With --diff the principals with another token, and the requests that are decided otherwise, are listed, and the exit status is as of diff(1): 0 if there are none, 1 if
    there are, and 2 for a fault. Without a FILE
    of requests they are those of each principal, role and operation, at the first and last partition of each row's range, at
    the ones beside it, and at each LSN that a row ends at and the next.

    \b
    Examples:
      pagelogctl explain t0.toml "principal 3 pull 0..3"
      pagelogctl explain t0.toml "principal 2 as secondary get 458752"
      pagelogctl explain --diff old.toml new.toml
      pagelogctl explain --diff old.toml new.toml requests.txt
    """
    if is_diff:
        if len(arguments) not in (2, 3):
            raise click.UsageError("--diff takes OLD NEW, and FILE if need be")
        try:
            count = show_differences(*map(Path, arguments))
        except PagelogError as error:
            fail(f"{type(error).__name__}: {error}", 2)
        sys.exit(1 if count else 0)
    if len(arguments) < 2:
        raise click.UsageError("which request? As: principal 3 pull 0..3")
    table = Table(Path(arguments[0]))
    for words in arguments[1:]:
        click.echo(f"{words}: {explain(table, RequestQuestion.parse(words))}")


def show_differences(old_file: Path, new_file: Path, requests: Path | None = None) -> int:
    """Shows which principals have another token, and what two tables decide otherwise, and returns how many principals and requests
    that are. No token is shown."""
    old, new = Table(old_file), Table(new_file)
    changed = changed_tokens(old.text.decode(), new.text.decode())
    for principal in changed:
        click.echo(f"principal {principal}\n  {old.name}: a token\n  {new.name}: another token")
    found = differences(old, new, questions_of(requests)) if requests else all_differences(old, new)
    count = 0
    for count, difference in enumerate(found, 1):
        click.echo(
            f"{difference.question.words}\n  {old.name}: {difference.old}\n  {new.name}: {difference.new}"
        )
    return len(changed) + count


@click.command("completion")
@click.argument("shell", type=click.Choice(["bash", "zsh", "fish"]))
def completion_word(shell: str) -> None:
    """Print a script that completes words and options, for a shell to read.

    \b
    Example:
      pagelogctl completion bash > ~/.local/share/bash-completion/completions/pagelogctl
    """
    from click.shell_completion import get_completion_class

    from pagelog.cli.words import pagelogctl

    kind = get_completion_class(shell)
    assert kind is not None
    click.echo(kind(pagelogctl, {}, "pagelogctl", "_PAGELOGCTL_COMPLETE").source())
