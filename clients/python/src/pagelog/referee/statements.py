"""The longer statements of the referee. Each is committed by itself, under the conditions that it has."""

from pagelog.referee.schema import CHANNEL, FORMAT

PAGES_COLUMNS = (
    "run, log, machine, address, position, oldest, table_number, beat, aside, secure, "
    "EXTRACT(epoch FROM now() - seen)::float AS silent"
)
_COLUMNS = (
    "id, name, generation, run, holder, address, archived, base, shift, images, encode(chain, 'hex') AS chain, wanted, succeed, "
    "read_only, paused, dropped, identity, next_generation, doubted, ancestor, table_number, secure"
)


def _rows(of: str, *, begun: bool = False) -> str:
    """Selects databases as `Row` has them. What is `begun` are their generations, by the same statement, which does not see them yet."""
    of_run = "(SELECT g.table_number FROM pagelog_generation g WHERE g.log = o.id AND g.generation = o.generation AND g.run = o.run)"
    first = (
        "(SELECT g.base FROM pagelog_generation g WHERE g.log = o.id ORDER BY g.generation LIMIT 1)"
    )
    run_table = "%(table_number)s::bigint" if begun else f"COALESCE({of_run}, 1)"
    return f"SELECT {_COLUMNS}, {run_table} AS run_table, COALESCE({first}, {'base' if begun else 0}) AS copied FROM {of} o"


def _row(of: str, *, begun: bool = False) -> str:
    """Returns the row of the database that a statement has changed, on one line."""
    return f"SELECT to_json(r) FROM ({_rows(of, begun=begun)}) r"


_ALL = f"""  (SELECT COALESCE(json_agg(k), '[]') FROM (SELECT name, run, lines, beat, report, secure FROM pagelog_keeper) k),
  (SELECT COALESCE(json_agg(l), '[]') FROM ({_rows("pagelog_log")} WHERE format = {FORMAT} ORDER BY name) l),
  (SELECT COALESCE(json_agg(s), '[]') FROM (SELECT log, keeper, address, run, reached, shift, images, table_number, secure FROM pagelog_standby) s),
  current_setting('synchronous_standby_names'),
  CASE WHEN pg_has_role('pg_read_all_stats', 'USAGE')
    THEN (SELECT count(*) FROM pg_stat_replication WHERE sync_state IN ('sync', 'quorum')) END,
  (SELECT COALESCE(json_agg(p), '[]') FROM (SELECT {PAGES_COLUMNS} FROM pagelog_pages ORDER BY machine, run) p)"""
LOOK = f"""
WITH me AS (
  UPDATE pagelog_keeper SET beat = beat + 1, report = COALESCE(%(report)s::jsonb, report), secure = %(secure)s
  WHERE name = %(me)s AND run = %(run)s RETURNING name, beat),
later AS (
  UPDATE pagelog_keeper SET beat = beat WHERE name = %(me)s AND run <> %(run)s AND beat > %(beat)s RETURNING name),
stood AS (
  UPDATE pagelog_standby s SET reached = v.reached
  FROM unnest(%(logs)s::integer[], %(reached)s::bigint[]) AS v(log, reached)
  WHERE s.log = v.log AND s.keeper IN (SELECT name FROM me) AND s.reached <> v.reached RETURNING 1)
SELECT (SELECT beat FROM me),
{_ALL}
WHERE %(me)s = '' OR EXISTS (SELECT 1 FROM me) OR EXISTS (SELECT 1 FROM later)
"""
EVERYTHING = f"SELECT NULL::bigint,\n{_ALL}"
"""What a look returns, of a role that may write nothing."""

CLAIM = """
INSERT INTO pagelog_keeper (name, run, lines, began) VALUES (%(me)s, %(run)s, %(lines)s, now()) ON CONFLICT (name) DO UPDATE
  SET run = excluded.run, lines = excluded.lines, began = excluded.began, beat = pagelog_keeper.beat + 1
  WHERE pagelog_keeper.run = ANY(%(over)s::text[]) OR (pagelog_keeper.run = %(seen_run)s AND pagelog_keeper.beat <= %(seen_beat)s)
RETURNING beat
"""

NAMED = """
UPDATE pagelog_keeper SET beat = beat WHERE name = %(me)s
RETURNING run, lines, beat, to_char(began AT TIME ZONE 'UTC', 'YYYY-MM-DD HH24:MI:SS "UTC"')
"""

STRANGERS = """
SELECT EXISTS (SELECT 1 FROM aclexplode(COALESCE(d.datacl, acldefault('d', d.datdba))) a
    WHERE a.grantee = 0 AND a.privilege_type = 'CONNECT'),
  pg_has_role(d.datdba, 'USAGE'),
  EXISTS (SELECT 1 FROM pg_class c LEFT JOIN pg_attribute t ON t.attrelid = c.oid AND t.attacl IS NOT NULL
      LEFT JOIN LATERAL (SELECT grantee FROM aclexplode(c.relacl) UNION ALL SELECT grantee FROM aclexplode(t.attacl)) a ON true
    WHERE c.relnamespace NOT IN ('pg_catalog'::regnamespace, 'information_schema'::regnamespace, 'pg_toast'::regnamespace)
      AND (c.relowner <> current_user::regrole OR a.grantee <> c.relowner))
FROM pg_database d WHERE d.datname = current_database()
"""
"""Whether anybody may connect, whether this role may change that, and whether another role has a right to a table."""

_RELEASED = f"SELECT to_json(r), pg_notify('{CHANNEL}', concat_ws(' ', name, generation, archived, chain)) FROM ({_rows('ended')}) r"
"""As `_row`, of one that nobody holds any more, which all keepers hear of."""

REACHED = """
SELECT (pg_current_wal_flush_lsn() - '0/0')::bigint, (SELECT (max(flush_lsn) - '0/0')::bigint FROM pg_stat_replication
  WHERE sync_state IN ('sync', 'quorum'))
"""

WAITS_FOR_STANDBY = """
SELECT set_config('synchronous_commit', 'on', false) WHERE current_setting('synchronous_commit') NOT IN ('on', 'remote_apply')
"""

TAKE = f"""
WITH taken AS (
  UPDATE pagelog_log SET generation = GREATEST(next_generation, %(least)s),
    next_generation = GREATEST(next_generation, %(least)s) + 1, run = %(run)s, holder = %(me)s,
    address = %(address)s, secure = %(secure)s, shift = COALESCE(%(shift)s::bigint, shift), images = COALESCE(%(images)s::bigint, images), base = archived,
    wanted = NULL, succeed = false
  WHERE id = %(id)s AND generation = %(generation)s AND archived = %(archived)s AND run IS NOT DISTINCT FROM %(seen_run)s::text
    AND (%(address)s::text IS NULL OR chain = %(chain)s) AND NOT paused AND NOT dropped
    AND table_number <= %(table_number)s
    AND (%(beat)s::bigint IS NULL OR NOT EXISTS (SELECT 1 FROM pagelog_keeper k WHERE k.name = holder AND k.beat > %(beat)s::bigint))
  RETURNING *),
begun AS (
  INSERT INTO pagelog_generation (log, generation, run, holder, base, shift, images, table_number)
  SELECT id, generation, %(run)s, %(me)s, archived, shift, COALESCE(%(images)s::bigint, 0), %(table_number)s FROM taken),
gone AS (DELETE FROM pagelog_standby WHERE log IN (SELECT id FROM taken) AND keeper = %(me)s)
{_row('taken', begun=True)}
"""

KNOWS = """
WITH me AS (UPDATE pagelog_keeper SET beat = beat WHERE name = %(me)s AND run = %(life)s RETURNING 1)
SELECT EXISTS (SELECT 1 FROM pagelog_generation WHERE log = %(id)s AND run = %(run)s) FROM me
"""
"""Whether a run is known as a generation of a database: by a write, which an old leader of PostgreSQL cannot make of this life."""

ORIGIN = """
WITH me AS (UPDATE pagelog_keeper SET beat = beat WHERE name = %(me)s AND run = %(life)s RETURNING 1)
SELECT l.id, l.dropped, COALESCE(
  (SELECT n.base FROM pagelog_generation n WHERE n.log = g.log AND n.generation > g.generation ORDER BY n.generation LIMIT 1),
  CASE WHEN l.run IS NULL THEN l.archived END)
FROM pagelog_generation g JOIN pagelog_log l ON l.id = g.log WHERE g.run = %(run)s AND (NOT %(has_name)s OR EXISTS (SELECT 1 FROM me))
"""
"""Which database a run is a generation of, whether that was dropped, and where the generation ended; by a write, as `KNOWS`."""

CONTINUE = f"""
WITH taken AS (
  UPDATE pagelog_log SET generation = GREATEST(next_generation, %(least)s::bigint),
    next_generation = GREATEST(next_generation, %(least)s::bigint) + 1, run = %(run)s, holder = %(me)s,
    address = %(address)s, secure = %(secure)s, shift = %(shift)s, images = %(images)s, base = %(start)s, archived = %(start)s, chain = %(start_chain)b::bytea,
    wanted = NULL, succeed = false
  WHERE id = %(id)s AND generation = %(generation)s AND archived = %(archived)s AND run IS NOT DISTINCT FROM %(seen_run)s::text
    AND chain = %(chain)b::bytea AND NOT paused AND NOT dropped AND table_number <= %(table_number)s
    AND (%(beat)s::bigint IS NULL OR NOT EXISTS (SELECT 1 FROM pagelog_keeper k WHERE k.name = holder AND k.beat > %(beat)s::bigint))
  RETURNING *),
begun AS (
  INSERT INTO pagelog_generation (log, generation, run, holder, base, shift, images, table_number)
  SELECT id, generation, %(run)s, %(me)s, archived, shift, images, %(table_number)s FROM taken),
gone AS (DELETE FROM pagelog_standby WHERE log IN (SELECT id FROM taken) AND keeper = %(me)s)
{_row('taken', begun=True)}
"""
"""As `TAKE`, with a service that has all that is archived, and more, which PostgreSQL has lost. Its generation is above each number that
its keeper knows. It starts at the archived position, or where it began with images, at these."""

KEEP = """
WITH due AS (
  SELECT d.log, d.run, d.generation, d.old, d.new, d.n, substring(%(chains)b::bytea FROM (16 * d.n - 15)::integer FOR 16) AS chain
  FROM unnest(%(logs)s::integer[], %(runs)s::text[], %(generations)s::bigint[], %(olds)s::bigint[], %(news)s::bigint[])
    WITH ORDINALITY AS d(log, run, generation, old, new, n)),
fence AS (
  UPDATE pagelog_log l SET archived = due.new, chain = due.chain FROM due
  WHERE l.id = due.log AND l.run = due.run AND l.generation = due.generation AND l.archived = due.old RETURNING l.id, due.n),
kept AS (
  INSERT INTO pagelog_block (log, lsn, crc, data)
  SELECT b.log, b.lsn, b.crc, substring(%(bytes)b::bytea FROM b.start FOR b.length)
  FROM unnest(%(owners)s::integer[], %(lsns)s::bigint[], %(crcs)s::bigint[], %(starts)s::integer[], %(lengths)s::integer[])
    AS b(log, lsn, crc, start, length)
  WHERE b.log IN (SELECT id FROM fence))
SELECT id, n FROM fence
"""
"""Batches of any databases, each under its own condition. Returned is which, and the place of each among them."""

KEEP_BLOCK = """
WITH fence AS (
  UPDATE pagelog_log SET archived = %(new)s, chain = %(chain)b
  WHERE id = %(id)s AND run = %(run)s AND generation = %(generation)s AND archived = %(old)s RETURNING id)
INSERT INTO pagelog_block (log, lsn, crc, data) SELECT id, %(new)s, %(crc)s, %(bytes)b FROM fence RETURNING log, 1
"""
"""The same of one batch with one block, which is the usual case, and takes two thirds of the time."""

KEEP_EACH = """
WITH fence AS (
  UPDATE pagelog_log l SET archived = d.new, chain = substring(%(chains)b::bytea FROM (16 * d.n - 15)::integer FOR 16)
  FROM unnest(%(logs)s::integer[], %(runs)s::text[], %(generations)s::bigint[], %(olds)s::bigint[], %(news)s::bigint[], %(crcs)s::bigint[],
    %(starts)s::integer[], %(lengths)s::integer[]) WITH ORDINALITY AS d(log, run, generation, old, new, crc, start, length, n)
  WHERE l.id = d.log AND l.run = d.run AND l.generation = d.generation AND l.archived = d.old
  RETURNING l.id, d.n, d.new, d.crc, d.start, d.length),
kept AS (
  INSERT INTO pagelog_block (log, lsn, crc, data)
  SELECT id, new, crc, substring(%(bytes)b::bytea FROM start FOR length) FROM fence)
SELECT id, n FROM fence
"""
"""The same of batches with one block each, which takes three quarters of the time."""

_LINES = """
lined AS (
  UPDATE pagelog_trail_list t SET kept = v.first + v.count - 1, seen = v.seen,
    digest = substring(%(line_digest)b::bytea FROM (32 * v.n - 31)::integer FOR 32)
  FROM unnest(%(line_logs)s::integer[], %(line_lists)s::integer[], %(line_firsts)s::bigint[], %(line_counts)s::integer[],
    %(line_seens)s::bigint[], %(line_days)s::text[], %(line_ofs)s::text[], %(line_starts)s::integer[], %(line_lengths)s::integer[])
    WITH ORDINALITY AS v(log, list, first, count, seen, day, of_run, start, length, n)
  WHERE v.log IN (SELECT id FROM {held}) AND t.id = v.list AND t.of_run = v.of_run AND t.kept = v.first - 1 AND t.ended IS NULL
  RETURNING v.*),
told AS (
  INSERT INTO pagelog_trail_piece (list, first, count, seen, day, before, digest, data)
  SELECT list, first, count, seen, day, substring(%(line_before)b::bytea FROM (32 * n - 31)::integer FOR 32),
    substring(%(line_digest)b::bytea FROM (32 * n - 31)::integer FOR 32), substring(%(line_data)b::bytea FROM start FOR length)
  FROM lined)
"""


def with_lines(statement: str, held: str) -> str:
    """The statement, which keeps lines of audit lists too, of the logs that it has in `held`. Its last line is what it returns."""
    parts, returned = statement.rstrip().rsplit("\n", 1)
    return f"{parts},{_LINES.format(held=held)}{returned}\n"


KEEP_WITH_LINES = with_lines(KEEP, "fence")

NUMBER = """
UPDATE pagelog_log SET next_generation = GREATEST(next_generation, %(least)s) + 1
WHERE id = %(id)s AND run = %(run)s AND generation = %(generation)s AND NOT dropped RETURNING next_generation - 1
"""

SUCCEED = f"""
WITH begun AS (
  UPDATE pagelog_log SET generation = %(next)s, run = %(next_run)s, holder = %(me)s, address = %(address)s, secure = %(secure)s, shift = %(shift)s,
    images = %(images)s, base = %(new)s, archived = %(new)s, chain = %(chain)b, succeed = false
  WHERE id = %(id)s AND run = %(run)s AND generation = %(generation)s AND archived = %(old)s AND next_generation > %(next)s AND NOT dropped
    AND table_number <= %(table_number)s
  RETURNING *),
noted AS (
  INSERT INTO pagelog_generation (log, generation, run, holder, base, shift, images, table_number)
  SELECT id, generation, %(next_run)s, %(me)s, %(new)s, %(shift)s, %(images)s, %(table_number)s FROM begun),
kept AS (
  INSERT INTO pagelog_block (log, lsn, crc, data)
  SELECT begun.id, %(old)s + b.n, b.crc, substring(%(bytes)b::bytea FROM b.start FOR b.length)
  FROM begun, unnest(%(crcs)s::bigint[], %(starts)s::integer[], %(lengths)s::integer[]) WITH ORDINALITY AS b(crc, start, length, n))
{_row('begun', begun=True)}
"""
SUCCEED_WITH_LINES = with_lines(SUCCEED, "begun")

RELEASE = f"""
WITH ended AS (
  UPDATE pagelog_log SET run = NULL, holder = NULL, address = NULL, archived = %(new)s, chain = %(chain)b
  WHERE id = %(id)s AND run = %(run)s AND generation = %(generation)s AND archived = %(old)s RETURNING *),
kept AS (
  INSERT INTO pagelog_block (log, lsn, crc, data)
  SELECT ended.id, %(old)s + b.n, b.crc, substring(%(bytes)b::bytea FROM b.start FOR b.length)
  FROM ended, unnest(%(crcs)s::bigint[], %(starts)s::integer[], %(lengths)s::integer[]) WITH ORDINALITY AS b(crc, start, length, n))
{_RELEASED}
"""
RELEASE_WITH_LINES = with_lines(RELEASE, "ended")

HELD = f"""
WITH held AS (UPDATE pagelog_log SET archived = archived WHERE id = %(id)s AND run = %(run)s RETURNING *)
{_row('held')}
"""

END_RUN = f"""
WITH ended AS (
  UPDATE pagelog_log SET run = NULL, holder = NULL, address = NULL WHERE id = %(id)s AND run = %(run)s RETURNING *)
{_RELEASED}
"""

FATE = f"""
WITH me AS (UPDATE pagelog_keeper SET beat = beat WHERE name = %(me)s RETURNING 1)
SELECT COALESCE(
  (SELECT g.base FROM pagelog_generation g WHERE g.log = l.id AND g.generation > %(generation)s ORDER BY g.generation LIMIT 1),
  CASE WHEN l.run IS NULL AND l.generation = %(generation)s THEN l.archived END)
FROM pagelog_log l
WHERE l.name = %(name)s AND l.format = {FORMAT} AND EXISTS (SELECT 1 FROM me)
  AND EXISTS (SELECT 1 FROM pagelog_generation g WHERE g.log = l.id AND g.generation = %(generation)s)
  AND l.doubted < %(generation)s
  AND NOT EXISTS (SELECT 1 FROM pagelog_log d JOIN pagelog_generation g ON g.log = d.id
    WHERE d.dropped AND d.name = l.name || '!' || d.id AND g.generation = %(generation)s)
"""
"""By the number alone, as an older client asks: where two runs may have had it nothing is said."""

FATE_OF = f"""
WITH me AS (UPDATE pagelog_keeper SET beat = beat WHERE name = %(me)s RETURNING 1)
SELECT l.identity, l.dropped, l.generation, known.run,
  COALESCE(
    (SELECT g.base FROM pagelog_generation g WHERE g.log = l.id AND g.generation > known.generation ORDER BY g.generation LIMIT 1),
    CASE WHEN l.run IS NULL AND l.generation = known.generation THEN l.archived END)
FROM pagelog_log l LEFT JOIN LATERAL (
  SELECT generation, run FROM pagelog_generation WHERE log = l.id AND (run = %(run)s OR generation = %(generation)s)
  ORDER BY (run = %(run)s) DESC, generation DESC LIMIT 1) known ON true
WHERE (l.identity = %(database)s::uuid OR l.name = %(name)s) AND l.format = {FORMAT} AND EXISTS (SELECT 1 FROM me)
"""
"""A run that PostgreSQL had lost, and that continues, has a later number than the one that is asked for."""

BLOCK = f"""
WITH me AS (UPDATE pagelog_keeper SET beat = beat WHERE name = %(me)s RETURNING 1)
SELECT encode(sha256(b.data), 'hex') FROM pagelog_block b JOIN pagelog_log l ON l.id = b.log
WHERE l.name = %(name)s AND l.identity = COALESCE(%(database)s::uuid, l.identity) AND l.format = {FORMAT}
  AND b.lsn = %(position)s AND b.lsn <= l.archived AND EXISTS (SELECT 1 FROM me)
"""

STORED_BLOCK = f"""
SELECT l.id FROM pagelog_log l JOIN pagelog_object o ON o.log = l.id
WHERE l.name = %(name)s AND l.identity = COALESCE(%(database)s::uuid, l.identity) AND l.format = {FORMAT}
  AND o.first <= %(position)s AND o.last >= %(position)s AND o.state = 2 AND %(position)s <= l.archived
"""
"""The database whose block at a position is in the store alone."""

_DROP = f"""
WITH gone AS (
  UPDATE pagelog_log SET dropped = true, name = name || '!' || id, run = NULL, holder = NULL, address = NULL
  WHERE name = %(name)s AND format = {FORMAT} AND NOT dropped AND held IS NULL RETURNING id, name){{trail}}
SELECT id, pg_notify('{CHANNEL}', '') FROM gone
"""
DROP = _DROP.format(trail="")
DROP_WITH_TRAIL = _DROP.format(
    trail=""",
renamed AS (UPDATE pagelog_trail_list t SET log = gone.name FROM gone WHERE t.log = %(name)s)"""
)

PUBLISH = f"""
WITH told AS (
  UPDATE pagelog_log SET address = %(address)s, secure = %(secure)s, shift = %(shift)s, images = %(images)s
  WHERE id = %(id)s AND run = %(run)s RETURNING *),
noted AS (
  UPDATE pagelog_generation g SET shift = %(shift)s, images = %(images)s FROM told
  WHERE g.log = told.id AND g.generation = told.generation RETURNING g.log)
{_row('told')} WHERE EXISTS (SELECT 1 FROM noted)
"""

TABLE = """
SELECT l.identity, l.table_number, t.text, t.secret, t.sealed, t.key FROM pagelog_table t JOIN pagelog_log l ON l.id = t.log WHERE t.log = %s
"""
_STORED = (
    "text = %(text)s, secret = %(secret)s::bytea, sealed = %(sealed)s::bytea, key = %(key)s::text"
)

CREATE = f"""
WITH made AS (
  INSERT INTO pagelog_log (name, format, archived, epoch, identity, next_generation)
  VALUES (%(name)s::text, {FORMAT}, 0, 1, %(identity)s::uuid,
    COALESCE((SELECT max(d.next_generation) + 1 FROM pagelog_log d WHERE d.dropped AND d.name = %(name)s::text || '!' || d.id), 1))
  ON CONFLICT (name) DO NOTHING RETURNING id, name)
INSERT INTO pagelog_table (log, text, secret, sealed, key)
SELECT id, %(text)s, %(secret)s::bytea, %(sealed)s::bytea, %(key)s::text FROM made RETURNING log, pg_notify('{CHANNEL}', '')
"""

SEAL = f"""
UPDATE pagelog_table SET {_STORED} WHERE log = %(id)s AND key IS NOT DISTINCT FROM %(seen_key)s::text
  AND EXISTS (SELECT 1 FROM pagelog_log l WHERE l.id = %(id)s AND l.table_number = %(number)s AND l.identity = %(identity)s::uuid) RETURNING log
"""
"""The same table, by another key, if it is the newest still."""

SET_TABLE = f"""
WITH told AS (
  UPDATE pagelog_log SET table_number = table_number + 1
  WHERE id = %(id)s AND identity = %(identity)s::uuid AND table_number = %(seen)s AND NOT dropped RETURNING id, table_number),
noted AS (UPDATE pagelog_table SET {_STORED} FROM told WHERE log = told.id RETURNING log)
SELECT table_number, pg_notify('{CHANNEL}', '') FROM told JOIN noted ON noted.log = told.id
"""
"""Another table, and its number, if the one that it was made from is the newest still. From its commit on no run and no standby with an
older one can take the database, or follow on another run."""

PUT_TABLE_BACK = f"""
WITH told AS (
  UPDATE pagelog_log SET table_number = %(number)s
  WHERE id = %(id)s AND identity = %(identity)s::uuid AND table_number < %(number)s AND NOT dropped RETURNING id)
UPDATE pagelog_table SET {_STORED} FROM told WHERE log = told.id RETURNING log
"""

STORED = "SELECT 1 FROM pagelog_object WHERE log = %s AND last >= %s AND state = 2 LIMIT 1"
"""Whether the store has blocks from this position on that PostgreSQL may have no more."""

PRUNED = """
SELECT 1 FROM pagelog_base WHERE log = %(log)s
  AND NOT EXISTS (SELECT 1 FROM pagelog_block WHERE log = %(log)s AND lsn <= %(first)s)
  AND NOT EXISTS (SELECT 1 FROM pagelog_object WHERE log = %(log)s AND first <= %(first)s) HAVING min(base) >= %(first)s
"""
"""Whether a block that is missing was pruned: nothing is kept from there down, and a base above it is."""

DROP_OBJECTS = """
WITH gone AS (DELETE FROM {table} WHERE log IN ({old}) RETURNING {key} AS key),
noted AS (INSERT INTO pagelog_gone (key) SELECT DISTINCT key FROM gone WHERE key IS NOT NULL ON CONFLICT (key) DO UPDATE SET since = now())
SELECT key FROM gone
"""
"""No row of them names its object any more. Another's may: it is deleted where none has for a while."""

PIECE = """
SELECT count(*)::integer, COALESCE(string_agg(data, ''::bytea ORDER BY lsn), ''),
  COALESCE(string_agg(int4send(length(data)) || int8send(crc), ''::bytea ORDER BY lsn), '')
FROM pagelog_block WHERE log = %s AND lsn BETWEEN %s AND %s
"""
