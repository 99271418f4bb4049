"""The roles of PostgreSQL by which keepers run, and what each may do: no more than the statements of its words need."""

from __future__ import annotations

from dataclasses import dataclass

from pagelog.archive.postgres import PostgresEngine
from pagelog.archive.session import statements_of
from pagelog.referee.schema import script
from pagelog.trail.statements import TABLES

SECRETS = "pagelog_table"
"""The table that has tokens, and what those of keepers are made from."""


@dataclass(frozen=True)
class Rights:
    """To a table. `looks` may be of some columns, in parentheses; empty: none."""

    keeps: str
    looks: str = ""


RIGHTS = {
    "pagelog_schema": Rights("SELECT", "SELECT"),
    "pagelog_log": Rights("SELECT, UPDATE", "SELECT"),
    "pagelog_generation": Rights("SELECT, INSERT, UPDATE", "SELECT"),
    "pagelog_keeper": Rights("SELECT, INSERT, UPDATE", "SELECT"),
    "pagelog_standby": Rights("SELECT, INSERT, UPDATE, DELETE", "SELECT"),
    "pagelog_pages": Rights("SELECT, INSERT, UPDATE, DELETE", "SELECT"),
    "pagelog_block": Rights("SELECT, INSERT, DELETE", "SELECT (log, lsn, came)"),
    "pagelog_base": Rights("SELECT, INSERT, UPDATE, DELETE", "SELECT (log, base, pages, came)"),
    "pagelog_image": Rights("SELECT, INSERT, UPDATE, DELETE"),
    "pagelog_store": Rights("SELECT, INSERT, UPDATE", "SELECT"),
    "pagelog_object": Rights("SELECT, INSERT, UPDATE, DELETE", "SELECT"),
    "pagelog_pack": Rights("SELECT, INSERT, UPDATE, DELETE", "SELECT"),
    "pagelog_gone": Rights("SELECT, INSERT, UPDATE, DELETE", "SELECT"),
    "pagelog_legal_hold": Rights("SELECT, INSERT, UPDATE, DELETE", "SELECT"),
    SECRETS: Rights("SELECT, UPDATE (text, secret, sealed, key)"),
    "pagelog_trail_list": Rights("SELECT, INSERT, UPDATE, DELETE", "SELECT"),
    "pagelog_trail_piece": Rights("SELECT, INSERT, UPDATE, DELETE", "SELECT"),
    "pagelog_trail_text": Rights("SELECT, INSERT, UPDATE, DELETE"),
    "pagelog_trail_seal": Rights("SELECT, INSERT, UPDATE, DELETE"),
}
"""Who `creates` owns the tables, and may do everything to them."""
SEQUENCES = {"pagelog_log_id_seq": "", "pagelog_trail_list_id_seq": "USAGE"}
"""What who keeps may do to them."""


@dataclass(frozen=True)
class Roles:
    """Their names. `creates` owns the tables, and makes, drops and restores databases; by `keeps` keepers run, and the words that change
    what they do; `looks` is the console's, and of `list`."""

    creates: str = "pagelog_creates"
    keeps: str = "pagelog_keeps"
    looks: str = "pagelog_looks"


def quoted(name: str) -> str:
    """As SQL has a name."""
    return '"' + name.replace('"', '""') + '"'


def grants(roles: Roles) -> str:
    """The script that makes the roles and the tables, where they are not there, and gives each role what it needs, and nothing besides. It
    may be repeated, as after each upgrade."""
    creates, keeps, looks = map(quoted, (roles.creates, roles.keeps, roles.looks))
    everyone = f"{creates}, {keeps}, {looks}"
    return "\n".join(
        (
            *map(_role, (creates, keeps, looks)),
            _of_database("REVOKE ALL ON DATABASE %I FROM PUBLIC", f"{keeps}, {looks}"),
            _of_database(f"GRANT CONNECT ON DATABASE %I TO {everyone}"),
            "REVOKE CREATE ON SCHEMA public FROM PUBLIC;",
            f"GRANT USAGE, CREATE ON SCHEMA public TO {creates};",
            f"GRANT USAGE ON SCHEMA public TO {keeps}, {looks};",
            f"SET ROLE {creates};",
            f"{script(0)};",
            *_trails(),
            "RESET ROLE;",
            *(
                line
                for table, rights in RIGHTS.items()
                for line in _to_table(table, rights, keeps, looks)
            ),
            *(
                f"GRANT {right} ON SEQUENCE {name} TO {keeps};"
                for name, right in SEQUENCES.items()
                if right
            ),
            "-- So that they see whether PostgreSQL has a synchronous standby.",
            f"GRANT pg_read_all_stats TO {keeps}, {looks};",
        )
    )


def _role(name: str) -> str:
    return (
        f"DO $$ BEGIN CREATE ROLE {name} LOGIN; EXCEPTION WHEN duplicate_object THEN NULL; END $$;"
    )


def _of_database(statement: str, revoked: str = "") -> str:
    more = (
        f" EXECUTE format('REVOKE ALL ON DATABASE %I FROM {revoked}', current_database());"
        if revoked
        else ""
    )
    return f"DO $$ BEGIN EXECUTE format('{statement}', current_database());{more} END $$;"


def _trails() -> list[str]:
    """The tables of audit lists, which else who keeps one makes with it."""
    return [f"{each};" for each in statements_of(list(TABLES.values()), PostgresEngine.types)]


def _to_table(table: str, rights: Rights, keeps: str, looks: str) -> list[str]:
    to_looks = [f"GRANT {rights.looks} ON {table} TO {looks};"] if rights.looks else []
    return [
        f"REVOKE ALL ON {table} FROM PUBLIC, {keeps}, {looks};",
        f"GRANT {rights.keeps} ON {table} TO {keeps};",
        *to_looks,
    ]
