"""The two tables of an archive, a row for each log and a row for each block, and what is asked of them."""

from __future__ import annotations

from pagelog.archive.session import BulkInsert

LOGS = "pagelog_log"
TABLES = {
    LOGS: """
        CREATE TABLE IF NOT EXISTS pagelog_log (
            id {serial} NOT NULL, name VARCHAR(200) NOT NULL, format INTEGER NOT NULL, archived BIGINT NOT NULL, epoch BIGINT NOT NULL,
            PRIMARY KEY (id), UNIQUE (name))""",
    "pagelog_block": """
        CREATE TABLE IF NOT EXISTS pagelog_block (
            log INTEGER NOT NULL, lsn BIGINT NOT NULL, crc BIGINT NOT NULL, data {bytes} NOT NULL,
            PRIMARY KEY (log, lsn), FOREIGN KEY (log) REFERENCES pagelog_log (id))""",
}
"""How each is made: as older versions have made them, whose archives are read and written as they are."""

NEW_LOG = (
    "INSERT INTO pagelog_log (name, format, archived, epoch) VALUES (%(name)s, %(format)s, 0, 0)"
)
LOG = "SELECT id, format FROM pagelog_log WHERE name = %(name)s"
NAMES = "SELECT name FROM pagelog_log ORDER BY name"
ARCHIVED = "SELECT archived FROM pagelog_log WHERE id = %(log)s"
EPOCH = "SELECT epoch FROM pagelog_log WHERE id = %(log)s"
NOTE_EPOCH = "UPDATE pagelog_log SET epoch = %(epoch)s WHERE id = %(log)s AND epoch < %(epoch)s"
MOVE = """
UPDATE pagelog_log SET archived = %(last)s, epoch = CASE WHEN epoch < %(epoch)s THEN %(epoch)s ELSE epoch END
WHERE id = %(log)s AND archived = %(before)s
"""
"""It changes no row where another archiver has moved the archived LSN, and else keeps others from that until its transaction ends."""

KEEP = BulkInsert(
    "pagelog_block", {"log": "integer", "lsn": "bigint", "crc": "bigint", "data": "bytea"}
)
_WHERE = "FROM pagelog_block WHERE log = %(log)s AND lsn >= %(first)s AND lsn <= %(last)s"
BLOCKS = f"SELECT crc, data {_WHERE} ORDER BY lsn"
"""Without their LSNs, which a batch that is whole need not bring: psycopg takes 7 microseconds for each value."""
LSNS = f"SELECT lsn {_WHERE} ORDER BY lsn"
SIZE = "SELECT COALESCE(SUM(LENGTH(data)), 0) FROM pagelog_block WHERE log = %(log)s"
FIRST_ABOVE = "SELECT MIN(b.lsn) FROM pagelog_block b JOIN pagelog_log l ON b.log = l.id WHERE l.id = %(log)s AND b.lsn > l.archived"

SUMS = """
SELECT l.name, l.archived, l.epoch, COUNT(b.lsn), COALESCE(SUM(LENGTH(b.data)), 0)
FROM pagelog_log l LEFT JOIN pagelog_block b ON b.log = l.id GROUP BY l.name, l.archived, l.epoch ORDER BY l.name
"""
HIGHEST = "SELECT COALESCE(MAX(lsn), 0) FROM pagelog_block WHERE log = %(log)s"
BEGIN_DROP = "UPDATE pagelog_log SET archived = 0 WHERE id = %(log)s"
DROP_BLOCKS = f"DELETE {_WHERE}"
DROP_LOG = "DELETE FROM pagelog_log WHERE id = %(log)s"
SEALS = "pagelog_trail_seal"
"""The table of a trail that has digests of archived blocks."""
DROP_SEALS = "DELETE FROM pagelog_trail_seal WHERE log = %(name)s"
