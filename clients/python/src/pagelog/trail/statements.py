"""The tables of trails, and what is asked of them."""

from __future__ import annotations

LISTS = "pagelog_trail_list"
OF_RUN = "of_run"
"""The column of a list that older versions have not made: of a named database the identity of that, and the run whose list it is, as
DATABASE/RUN. Names and numbers come again."""
TABLES = {
    LISTS: """
        CREATE TABLE IF NOT EXISTS pagelog_trail_list (
            id {serial} NOT NULL, log VARCHAR(200) NOT NULL, run INTEGER NOT NULL, format INTEGER NOT NULL, generation BIGINT NOT NULL,
            start_primary BIGINT, kept BIGINT NOT NULL, seen BIGINT NOT NULL, pruned BIGINT NOT NULL, digest {bytes} NOT NULL,
            ended VARCHAR(100), ended_seen BIGINT, of_run VARCHAR(120), PRIMARY KEY (id), UNIQUE (log, run))""",
    "pagelog_trail_seal": """
        CREATE TABLE IF NOT EXISTS pagelog_trail_seal (
            log VARCHAR(200) NOT NULL, lsn BIGINT NOT NULL, digest {bytes} NOT NULL, PRIMARY KEY (log, lsn))""",
    "pagelog_trail_piece": """
        CREATE TABLE IF NOT EXISTS pagelog_trail_piece (
            list INTEGER NOT NULL, first BIGINT NOT NULL, count INTEGER NOT NULL, seen BIGINT NOT NULL, day VARCHAR(10) NOT NULL,
            before {bytes} NOT NULL, digest {bytes} NOT NULL, data {bytes} NOT NULL, PRIMARY KEY (list, first),
            FOREIGN KEY (list) REFERENCES pagelog_trail_list (id));
        CREATE INDEX IF NOT EXISTS ix_pagelog_trail_piece_day ON pagelog_trail_piece (day)""",
    "pagelog_trail_text": """
        CREATE TABLE IF NOT EXISTS pagelog_trail_text (
            list INTEGER NOT NULL, digest VARCHAR(64) NOT NULL, line BIGINT NOT NULL, text {bytes} NOT NULL, PRIMARY KEY (list, digest, line),
            FOREIGN KEY (list) REFERENCES pagelog_trail_list (id))""",
}
"""How each is made: as older versions have made them, whose trails are read and written as they are."""
ADD_OF_RUN = "ALTER TABLE pagelog_trail_list ADD COLUMN of_run VARCHAR(120)"

# Lists. Whose a list is the statements that change one say too: a PostgreSQL that went back gives the number of a row again.

_COLUMNS = "format, id, run, generation, kept, seen, pruned, digest, ended, ended_seen"
LISTS_OF_LOG = f"SELECT {_COLUMNS}, of_run FROM pagelog_trail_list WHERE log = %(log)s ORDER BY run"
LISTS_OF_DATABASE = f"""
SELECT {_COLUMNS}, of_run FROM pagelog_trail_list WHERE of_run LIKE %(of)s OR log = %(log)s AND of_run IS NULL ORDER BY run
"""
LISTS_OF_OLDER = f"SELECT {_COLUMNS}, NULL FROM pagelog_trail_list WHERE log = %(log)s ORDER BY run"
_IS_ITS = "id = %(list)s AND COALESCE(of_run, '') = %(of)s"
LAST_RUN = "SELECT COALESCE(MAX(run), 0) FROM pagelog_trail_list WHERE log = %(log)s"
NEW_LIST = """
INSERT INTO pagelog_trail_list (log, run, format, generation, start_primary, kept, seen, pruned, digest, of_run)
VALUES (%(log)s, %(run)s, %(format)s, %(generation)s, %(primary)s, 0, %(seen)s, 0, %(digest)s, %(of)s) RETURNING id
"""
CLAIM = f"UPDATE pagelog_trail_list SET of_run = %(claimed)s WHERE {_IS_ITS} AND kept = %(kept)s"
END = f"""
UPDATE pagelog_trail_list SET ended = %(why)s, ended_seen = CASE WHEN seen > %(seen)s THEN seen ELSE %(seen)s END
WHERE {_IS_ITS} AND ended IS NULL
"""
MOVE = f"""
UPDATE pagelog_trail_list SET kept = %(kept)s, seen = %(seen)s, digest = %(digest)s WHERE {_IS_ITS} AND kept = %(before)s AND ended IS NULL
"""
"""It changes no row where another keeper has added lines, and else keeps others from that until its transaction ends."""
PRUNED = "SELECT pruned FROM pagelog_trail_list WHERE id = %(list)s"
SET_PRUNED = "UPDATE pagelog_trail_list SET pruned = %(last)s WHERE id = %(list)s"
PRIMARY = "SELECT start_primary FROM pagelog_trail_list WHERE id = %(list)s"
SET_PRIMARY = "UPDATE pagelog_trail_list SET start_primary = %(primary)s WHERE id = %(list)s"

# Texts of tables.

TEXTS = "SELECT digest, text FROM pagelog_trail_text WHERE list = %(list)s AND line = %(line)s ORDER BY digest"
NEW_TEXT = "INSERT INTO pagelog_trail_text (list, line, digest, text) VALUES (%(list)s, %(line)s, %(digest)s, %(text)s)"
HAS_TEXT = "SELECT line FROM pagelog_trail_text WHERE list = %(list)s AND line = %(line)s AND digest = %(digest)s"
DROP_TEXTS = "DELETE FROM pagelog_trail_text WHERE list = %(list)s AND line = %(line)s"
LINES_OF_TEXTS = (
    "SELECT DISTINCT line FROM pagelog_trail_text WHERE list = %(list)s AND line > %(line)s"
)

# Pieces.

NEW_PIECE = """
INSERT INTO pagelog_trail_piece (list, first, count, seen, day, before, digest, data)
VALUES (%(list)s, %(first)s, %(count)s, %(seen)s, %(day)s, %(before)s, %(digest)s, %(data)s)
"""
PIECES = """
SELECT first, count, seen, before, digest, data FROM pagelog_trail_piece
WHERE list = %(list)s AND first >= %(first)s AND first <= %(last)s ORDER BY first LIMIT %(count)s
"""
FIRST_TO = "SELECT COALESCE(MAX(first), 0) FROM pagelog_trail_piece WHERE list = %(list)s AND first <= %(line)s"
FIRST_BEFORE = "SELECT COALESCE(MAX(first), 0) FROM pagelog_trail_piece WHERE list = %(list)s AND seen < %(seen)s"
LAST_OLDER = """
SELECT MAX(first + count - 1) FROM pagelog_trail_piece WHERE list = %(list)s AND day < %(day)s AND first + count <= %(kept)s
"""
DROP_PIECES = "DELETE FROM pagelog_trail_piece WHERE list = %(list)s AND first <= %(last)s"

# Seals.

SEALS = "SELECT lsn, digest FROM pagelog_trail_seal WHERE log = %(log)s"
NEW_SEAL = "INSERT INTO pagelog_trail_seal (log, lsn, digest) VALUES (%(log)s, %(lsn)s, %(digest)s)"

# Of PostgreSQL alone.

MAY_LOOK = "SELECT COALESCE(has_table_privilege(to_regclass('pagelog_log'), 'SELECT'), false)"
IDENTITY = "SELECT to_jsonb(l) ->> 'identity' FROM pagelog_log l WHERE name = %(log)s"
