"""What the console asks PostgreSQL. No statement writes, and none reads a table of principals or a block."""

from pagelog.referee.schema import FORMAT
from pagelog.referee.statements import PAGES_COLUMNS

LOOK = f"""
SELECT
  (SELECT COALESCE(json_agg(l), '[]') FROM (
    SELECT id, name, generation, run, holder, address, archived, base, images, wanted, succeed, read_only, paused
    FROM pagelog_log WHERE format = {FORMAT} AND NOT dropped ORDER BY name) l) AS databases,
  (SELECT COALESCE(json_agg(k), '[]') FROM (SELECT name, run, lines, beat, report FROM pagelog_keeper ORDER BY name) k) AS keepers,
  (SELECT COALESCE(json_agg(s), '[]') FROM (
    SELECT log, keeper, address, run, reached FROM pagelog_standby ORDER BY keeper) s) AS standbys,
  current_setting('synchronous_standby_names') AS names,
  CASE WHEN pg_has_role('pg_read_all_stats', 'USAGE')
    THEN (SELECT count(*) FROM pg_stat_replication WHERE sync_state IN ('sync', 'quorum')) END AS standbys_of_postgresql,
  COALESCE(has_table_privilege(to_regclass('pagelog_trail_list'), 'SELECT')
    AND has_table_privilege(to_regclass('pagelog_trail_piece'), 'SELECT'), false) AS has_trail,
  EXISTS (SELECT 1 FROM pg_attribute WHERE attrelid = to_regclass('pagelog_trail_list') AND attname = 'of_run') AS has_runs,
  COALESCE(has_table_privilege(to_regclass('pagelog_pages'), 'SELECT'), false)
    AND EXISTS (SELECT 1 FROM pg_attribute WHERE attrelid = to_regclass('pagelog_pages') AND attname = 'secure') AS has_pages
"""

PAGES = f"SELECT {PAGES_COLUMNS} FROM pagelog_pages ORDER BY machine, run"
"""The page servers, of tables that have them."""

GENERATIONS = """
SELECT g.log, g.generation, g.holder, g.base, g.began
FROM unnest(%(logs)s::integer[]) AS w(log) CROSS JOIN LATERAL (
  SELECT * FROM pagelog_generation p WHERE p.log = w.log ORDER BY p.generation DESC LIMIT %(most)s) g
ORDER BY g.log, g.generation
"""

LISTS = f"""
SELECT DISTINCT ON (l.id) t.id, l.id AS log, l.name, t.of_run, COALESCE(split_part(t.of_run, '/', 1), t.log) AS whose, t.kept, t.ended
FROM pagelog_trail_list t JOIN pagelog_log l ON l.format = {FORMAT} AND NOT l.dropped
  AND CASE WHEN t.of_run IS NULL THEN l.name = t.log ELSE l.identity::text = split_part(t.of_run, '/', 1) END
WHERE t.format = %(format)s
ORDER BY l.id, t.run DESC
"""
"""The last list of each database. `whose` it is, its identity says, or where an older keeper began it a name alone."""

LISTS_BY_NAME = f"""
SELECT DISTINCT ON (t.log) t.id, l.id AS log, t.log AS name, NULL AS of_run, t.log AS whose, t.kept, t.ended
FROM pagelog_trail_list t JOIN pagelog_log l ON l.name = t.log AND l.format = {FORMAT} AND NOT l.dropped
WHERE t.format = %(format)s
ORDER BY t.log, t.run DESC
"""
"""The same of tables of an older version."""

PIECES = """
SELECT p.list, p.first, p.count, p.seen, p.data
FROM unnest(%(lists)s::integer[], %(firsts)s::bigint[]) AS w(list, first)
JOIN pagelog_trail_piece p ON p.list = w.list AND p.first >= w.first
WHERE p.seen >= %(since)s
ORDER BY p.seen, p.list, p.first LIMIT %(most)s
"""
