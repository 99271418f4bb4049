"""The words of `pagelogctl`, each loaded when it is asked for."""

from __future__ import annotations

import logging
from importlib import import_module

import click

import pagelog
from pagelog.cli import version

WORDS = {
    "status": "looking_words",
    "top": "top_words",
    "audit": "audit_words",
    "metrics": "metrics_words",
    "archive": "archive_words",
    "restore": "restore_words",
    "branch": "branch_words",
    "waiting-table": "waiting_words",
    "verify": "restore_words",
    "move": "move_words",
    "logs": "logs_words",
    "mend": "logs_words",
    "grants": "grants_words",
    "keep": "keeper_words",
    "runner": "runner_words",
    "pages": "pages_words",
    "reads": "reads_words",
    "create": "keeper_words",
    "table": "table_words",
    "token": "token_words",
    "seal": "seal_words",
    "pause": "keeper_words",
    "resume": "keeper_words",
    "list": "list_words",
    "console": "console_words",
    "where": "keeper_words",
    "switchover": "switchover_words",
    "rollover": "history_words",
    "prune": "history_words",
    "hold": "hold_words",
    "drop": "drop_words",
    "forget": "forget_words",
    "rescue": "rescue_words",
    "store": "store_words",
    "record": "trail_words",
    "trail": "trail_words",
    "replay": "trail_words",
    "explain": "explain_words",
    "completion": "explain_words",
}
"""In which module of this package each word is, as `WORD_word`."""
OLDER = {"kept": "list", "succeed": "rollover"}
"""Names of words in 0.1.0, which are read for one version more, and are nowhere shown."""


class Words(click.Group):
    """Loads the module of a word, and what that needs, when the word is asked for."""

    def list_commands(self, ctx: click.Context) -> list[str]:
        """All words, in the order of their use."""
        return list(WORDS)

    def get_command(self, ctx: click.Context, cmd_name: str) -> click.Command | None:
        """The word of this name, or of this older one."""
        cmd_name = OLDER.get(cmd_name, cmd_name)
        if cmd_name not in WORDS:
            return None
        found = getattr(
            import_module(f"pagelog.cli.{WORDS[cmd_name]}"), f"{cmd_name.replace('-', '_')}_word"
        )
        assert isinstance(found, click.Command)
        return found


@click.group(
    cls=Words, context_settings={"help_option_names": ["-h", "--help"], "max_content_width": 100}
)
@click.version_option(pagelog.__version__, message=version.message())
@click.option(
    "--timeout",
    default=10.0,
    show_default=True,
    type=click.FloatRange(0.1),
    metavar="SECONDS",
    help="How long a service may be silent before a request ends.",
)
@click.option(
    "--sslmode",
    metavar="MODE",
    help="disable, or verify-full: TLS 1.3, and who answers has to show that it is the host that is "
    "asked for. [default: verify-full where a file is named] [env: PAGELOG_SSLMODE, and the like]",
)
@click.option("--sslrootcert", metavar="FILE", help="Certificates of CAs, PEM.")
@click.option("--sslcert", metavar="FILE", help="The certificate of this client.")
@click.option("--sslkey", metavar="FILE", help="Its key, which nobody else may read.")
@click.option(
    "--verbose", is_flag=True, help="Report each connection that is made again, on standard error."
)
def pagelogctl(timeout: float, verbose: bool, **tls: str | None) -> None:
    """Looks at the databases of a service, keeps what they hold, and moves them.

    Credentials are in a TOML file of mode 600, named by --credentials or PAGELOG_CREDENTIALS, with a section for each role
    that a word needs: [primary], [secondary], [page_server], [operator], each with to, id and token. [tls] has the names of
    --sslrootcert and the like.

    Exit status: 0 done; 1 a person has to look, as where two logs differ; 2 wrong arguments; 3 it may be tried again as it is,
    as where a service is away; 4 the audit list is full, or so near to it that the database was fenced; 130 interrupted.
    """
    if verbose:
        logging.basicConfig(level=logging.INFO, format="%(asctime)s %(message)s")
