"""What an error of PostgreSQL means for the statement."""

from __future__ import annotations

import psycopg


def is_refusal(error: psycopg.Error) -> bool:
    """Whether the statement was rolled back, as the server has said in going on. One that ends the session, or itself, may have
    committed before; so may one whose completion is unknown, or that a lost line ended."""
    is_ended = error.diag.severity_nonlocalized in ("FATAL", "PANIC")
    return (
        error.sqlstate is not None
        and not is_ended
        and not error.sqlstate.startswith(("57P", "08", "40003"))
    )


def line_of(error: Exception) -> str:
    """Its first line; with its type, where it is one of Python's own, which nobody expected."""
    text = (str(error).strip() or type(error).__name__).splitlines()[0]
    return f"{type(error).__name__}: {text}" if type(error).__module__ == "builtins" else text
