"""What PostgreSQL says of the store. The statements that keep blocks are as before, and know nothing of it.

A row of pagelog_object has state 0 once it says which bytes are to be put, 1 once these were read back from the store, and 2 once the blocks
are in the store alone. All blocks above `cut` are in pagelog_block; each position up to it is in a row of state 2. What pagelog_block has
at or below `cut` is the same still, and may be deleted by anybody.
"""

BEGIN = """
INSERT INTO pagelog_store (log, folder) SELECT id, %(folder)s FROM pagelog_log
WHERE id = %(log)s AND identity = %(identity)s::uuid AND NOT dropped ON CONFLICT DO NOTHING RETURNING log
"""

_OF_IT = "l.id = s.log AND s.log = %(log)s AND l.identity = %(identity)s::uuid AND NOT l.dropped"
_HOW_FAR = """s.folder, s.moved, s.cut, s.chain, l.archived, l.chain, l.generation,
  (SELECT b.came IS NULL OR b.came < now() - make_interval(secs => %(age)s) FROM pagelog_block b WHERE b.log = s.log AND b.lsn = s.moved + 1)"""
"""How far a database is moved. The last column is whether the next block is old enough; NULL where it is missing."""
SEEN = f"SELECT {_HOW_FAR} FROM pagelog_store s, pagelog_log l WHERE {_OF_IT}"
MOVED = f"UPDATE pagelog_store s SET moved = s.moved FROM pagelog_log l WHERE {_OF_IT} RETURNING {_HOW_FAR}"
"""The same by a statement that writes: what a server says that was cut off is not believed."""

SKIP = """
UPDATE pagelog_store s SET moved = b.base, cut = b.base, chain = b.chain
FROM (SELECT base, chain FROM pagelog_base WHERE log = %(log)s AND base > %(moved)s ORDER BY base LIMIT 1) b
WHERE s.log = %(log)s AND s.moved = %(moved)s AND s.cut = s.moved
  AND EXISTS (SELECT 1 FROM pagelog_log WHERE id = s.log AND identity = %(identity)s::uuid AND NOT dropped)
  AND NOT EXISTS (SELECT 1 FROM pagelog_block WHERE log = s.log AND lsn = s.moved + 1)
RETURNING s.moved
"""
"""The blocks up to the next base are gone, as by pruning, or as PostgreSQL went back: what is kept begins with that."""

# What PostgreSQL has of these positions has to be what was sealed, to the byte: who stood still meanwhile may hold blocks that are none.
_SAME = """(SELECT count(*) = %(count)s AND sha256(string_agg(data, ''::bytea ORDER BY lsn)) = %(raw_digest)s
  FROM pagelog_block WHERE log = %(log)s AND lsn BETWEEN %(first)s AND %(last)s)"""

SEAL = f"""
WITH fence AS (
  UPDATE pagelog_store SET moved = %(last)s, chain = %(after)s
  WHERE log = %(log)s AND moved = %(first)s - 1 AND chain = %(before)s
    AND EXISTS (SELECT 1 FROM pagelog_log WHERE id = %(log)s AND identity = %(identity)s::uuid AND NOT dropped AND archived >= %(last)s)
    AND {_SAME} RETURNING log)
INSERT INTO pagelog_object (log, first, last, key, size, digest, raw, raw_digest, after, came, until)
SELECT log, %(first)s, %(last)s, %(key)s, %(size)s, %(digest)s, %(raw)s, %(raw_digest)s, %(after)s, %(came)s::timestamptz, %(until)s::timestamptz FROM fence
RETURNING log
"""

OPEN = """
SELECT first, last, key, digest, raw_digest, after, state, COALESCE(until < now() - make_interval(secs => %(tail)s), true)
FROM pagelog_object WHERE log = %(log)s AND state < 2 ORDER BY state, first LIMIT 1
"""
"""What is to be put comes first, and then what is to be cut."""

KEPT = "UPDATE pagelog_object SET state = 1 WHERE log = %(log)s AND first = %(first)s AND key = %(key)s AND state = 0 RETURNING log"

RENAME = """
WITH renamed AS (
  UPDATE pagelog_object SET key = %(key)s, size = %(size)s, digest = %(digest)s
  WHERE log = %(log)s AND first = %(first)s AND key = %(old)s AND state = 0 RETURNING log)
INSERT INTO pagelog_gone (key) SELECT %(old)s FROM renamed ON CONFLICT DO NOTHING RETURNING key
"""
"""Another zstd makes other bytes of the same blocks, which have another key."""

CUT = f"""
WITH kept AS (
  UPDATE pagelog_object SET state = 2 WHERE log = %(log)s AND first = %(first)s AND key = %(key)s AND state = 1 AND {_SAME}
    AND EXISTS (SELECT 1 FROM pagelog_store WHERE log = %(log)s AND cut = %(first)s - 1) RETURNING log, last)
UPDATE pagelog_store s SET cut = kept.last FROM kept WHERE s.log = kept.log RETURNING s.cut
"""

LEFT = """
SELECT min(b.lsn) FROM pagelog_block b WHERE b.log = %(log)s AND b.lsn <= (SELECT cut FROM pagelog_store WHERE log = %(log)s)
"""
CLEAR = """
DELETE FROM pagelog_block WHERE log = %(log)s AND lsn BETWEEN %(first)s AND %(last)s
  AND lsn <= (SELECT cut FROM pagelog_store WHERE log = %(log)s) RETURNING 1
"""
"""What is at or below the cut is nobody's: it goes a few rows at a time, and who comes late takes nothing else."""

FIND = """
SELECT first, last, key, digest FROM pagelog_object WHERE log = %(log)s AND last >= %(position)s AND state = 2 ORDER BY last LIMIT %(count)s
"""
"""The object that has a position which PostgreSQL has no more, if the first has it, and the next ones."""
SINCE = """
SELECT first, last, key, digest FROM pagelog_object WHERE log = %(log)s AND until > %(time)s AND state = 2 ORDER BY last LIMIT 1
"""
"""The first object with a block that was archived later."""
BEFORE = """
SELECT first, last, key, digest FROM pagelog_object WHERE log = %(log)s AND last >= %(first)s AND first <= %(last)s AND state = 2 ORDER BY last DESC
"""

# Images: what a base names goes in packs, by the same four steps. What is here of an image has a pack of state 0 or 1, or none.

_NAMED = """EXISTS (SELECT 1 FROM pagelog_base b WHERE b.log = i.log AND b.base >= i.base AND NOT EXISTS (
    SELECT 1 FROM pagelog_image j WHERE j.log = i.log AND j.range = i.range AND j.base > i.base AND j.base <= b.base))"""

PLACE = """
UPDATE pagelog_store s SET packs = s.packs FROM pagelog_log l
WHERE s.log = %(log)s AND l.id = s.log AND l.identity = %(identity)s::uuid AND NOT l.dropped RETURNING s.folder, s.packs
"""
"""How many packs it has, by a statement that writes."""
UNPACKED = f"""
SELECT i.base FROM pagelog_image i WHERE i.log = %(log)s AND i.pack IS NULL AND i.pages <> '\\x0000000000000000' AND {_NAMED} ORDER BY i.base LIMIT 1
"""
"""The oldest position of images that no pack has, and a base names."""
IMAGES = f"""
SELECT i.range, i.pages, i.crc, i.data FROM pagelog_image i
WHERE i.log = %(log)s AND i.base = %(base)s AND i.range > %(range)s AND i.pack IS NULL AND i.pages <> '\\x0000000000000000' AND {_NAMED}
ORDER BY i.range LIMIT %(count)s
"""
PACKED = """
SELECT i.range, i.pages, i.crc, i.data FROM pagelog_image i JOIN pagelog_pack p ON p.log = i.log AND p.number = i.pack
WHERE i.log = %(log)s AND i.pack = %(number)s AND p.state = 0 AND i.range > %(range)s ORDER BY i.range LIMIT %(count)s
"""
"""Those of a pack that is to be put: once another mover has cut it, no data is left in its rows."""

PACK = """
WITH given AS (
  SELECT * FROM unnest(%(ranges)s::integer[], %(raw_digests)s::bytea[], %(ats)s::integer[], %(lengths)s::integer[], %(digests)s::bytea[])
    AS v(range, raw_digest, at, length, digest)),
same AS (
  SELECT count(*) AS count FROM given v JOIN pagelog_image i ON i.log = %(log)s AND i.base = %(base)s AND i.range = v.range
  WHERE i.pack IS NULL AND sha256(i.data) = v.raw_digest),
fence AS (
  UPDATE pagelog_store SET packs = packs + 1 WHERE log = %(log)s AND packs = %(packs)s AND (SELECT count FROM same) = %(count)s
    AND EXISTS (SELECT 1 FROM pagelog_log WHERE id = %(log)s AND identity = %(identity)s::uuid AND NOT dropped) RETURNING log, packs),
made AS (
  INSERT INTO pagelog_pack (log, number, key, size, digest, raw) SELECT log, packs, %(key)s, %(size)s, %(digest)s, %(raw)s FROM fence RETURNING log, number)
UPDATE pagelog_image i SET pack = made.number, at = v.at, length = v.length, digest = v.digest FROM made, given v
WHERE i.log = made.log AND i.base = %(base)s AND i.range = v.range RETURNING i.range
"""
"""A row names the pack, if PostgreSQL's own SHA-256 of each image is that of what is to be put."""
OPEN_PACK = "SELECT number, key, digest, state, instead FROM pagelog_pack WHERE log = %(log)s AND state < 2 ORDER BY state, number LIMIT 1"
KEPT_PACK = "UPDATE pagelog_pack SET state = 1 WHERE log = %(log)s AND number = %(number)s AND key = %(key)s AND state = 0 RETURNING log"
TAKE_BACK = """
WITH gone AS (DELETE FROM pagelog_pack WHERE log = %(log)s AND number = %(number)s AND key = %(key)s AND state = 0 RETURNING log, number, key),
noted AS (INSERT INTO pagelog_gone (key) SELECT key FROM gone ON CONFLICT (key) DO UPDATE SET since = now())
UPDATE pagelog_image i SET pack = NULL, at = NULL, length = NULL, digest = NULL FROM gone WHERE i.log = gone.log AND i.pack = gone.number RETURNING i.range
"""
"""What a pack was to have is not there any more, or another zstd makes other bytes of it: its images are to be packed again."""
CUT_PACK = """
WITH kept AS (
  UPDATE pagelog_pack SET state = 2 WHERE log = %(log)s AND number = %(number)s AND key = %(key)s AND state = 1 RETURNING log, number),
emptied AS (UPDATE pagelog_image i SET data = '' FROM kept WHERE i.log = kept.log AND i.pack = kept.number)
SELECT number FROM kept
"""

NO_MANIFEST = """
SELECT b.base FROM pagelog_base b JOIN pagelog_store s ON s.log = b.log
WHERE b.log = %(log)s AND b.manifest IS NULL AND b.broken IS NULL AND s.moved >= b.base
  AND NOT EXISTS (SELECT 1 FROM pagelog_object o WHERE o.log = b.log AND o.state = 0 AND o.first <= b.base) AND NOT EXISTS (
  SELECT 1 FROM (SELECT DISTINCT ON (i.range) i.pages, i.pack FROM pagelog_image i WHERE i.log = b.log AND i.base <= b.base ORDER BY i.range, i.base DESC) n
  LEFT JOIN pagelog_pack p ON p.log = b.log AND p.number = n.pack WHERE n.pages <> '\\x0000000000000000' AND COALESCE(p.state, 0) < 2)
ORDER BY b.base LIMIT 1
"""
"""The oldest base whose images are all in the store, and all blocks up to it that are kept, and whose manifest is not: who has the store alone
finds no base that is later than the blocks. One that could not be read is made again first."""
OF_BASE = """
SELECT b.chain, b.digest, b.pages, COALESCE((extract(epoch FROM b.came) * 1000000)::bigint, 0), l.generation,
  i.range, i.base, i.pages, i.crc, i.at, i.length, i.digest, p.key, p.digest, p.size
FROM pagelog_base b JOIN pagelog_log l ON l.id = b.log LEFT JOIN (
  SELECT DISTINCT ON (range) * FROM pagelog_image WHERE log = %(log)s AND base <= %(base)s ORDER BY range, base DESC) i
  ON i.pages <> '\\x0000000000000000'
LEFT JOIN pagelog_pack p ON p.log = i.log AND p.number = i.pack AND p.state = 2
WHERE b.log = %(log)s AND b.base = %(base)s ORDER BY i.range
"""
"""A base and its images, all of one moment: it may be made again, or its packs, at any other."""
MANIFEST = """
WITH fence AS (
  UPDATE pagelog_store SET packs = packs + 1 WHERE log = %(log)s AND packs = %(packs)s
    AND EXISTS (SELECT 1 FROM pagelog_log WHERE id = %(log)s AND identity = %(identity)s::uuid AND NOT dropped) RETURNING log)
UPDATE pagelog_base b SET manifest = %(key)s, manifest_digest = %(digest)s FROM fence WHERE b.log = fence.log AND b.base = %(base)s
  AND b.manifest IS NULL AND b.broken IS NULL AND b.chain = %(chain)s AND b.digest = %(heads)s RETURNING b.base
"""
"""It takes a number of the packs: who makes packs again at the same time is refused, or this is."""
OPEN_MANIFEST = """
SELECT base, manifest, manifest_digest FROM pagelog_base WHERE log = %(log)s AND manifest IS NOT NULL AND NOT is_stored ORDER BY base LIMIT 1
"""
KEPT_MANIFEST = """
UPDATE pagelog_base SET is_stored = true WHERE log = %(log)s AND base = %(base)s AND manifest = %(key)s AND NOT is_stored RETURNING base
"""
NO_MANIFEST_OF = """
WITH gone AS (
  UPDATE pagelog_base b SET manifest = NULL, manifest_digest = NULL FROM pagelog_base o
  WHERE b.log = %(log)s AND b.base = %(base)s AND b.manifest = %(key)s AND NOT b.is_stored AND o.log = b.log AND o.base = b.base RETURNING o.manifest)
INSERT INTO pagelog_gone (key) SELECT manifest FROM gone ON CONFLICT (key) DO UPDATE SET since = now() RETURNING key
"""
"""It is made again: another zstd makes other bytes of it."""

HELD = """
SELECT l.id, l.name, l.identity::text, l.generation, COALESCE(s.cut, 0),
  COALESCE(o.first - 1, s.moved, 0), COALESCE(extract(epoch FROM now() - LEAST(COALESCE(o.came,
    (SELECT b.came FROM pagelog_block b WHERE b.log = l.id AND b.lsn = COALESCE(s.moved, 0) + 1)),
    (SELECT min(b.came) FROM pagelog_base b WHERE b.log = l.id AND NOT b.is_stored))), 0)::float8
FROM pagelog_log l LEFT JOIN pagelog_store s ON s.log = l.id
LEFT JOIN LATERAL (SELECT first, came FROM pagelog_object WHERE log = l.id AND state = 0 ORDER BY first LIMIT 1) o ON true
WHERE l.holder = %(me)s AND NOT l.dropped AND l.format = 3 ORDER BY l.id
"""
"""The databases that a keeper holds, up to which position each is in the store, and for how many seconds the oldest block waits that is not, or
that of the oldest base which cannot be read by the store alone."""

OF_LOG = """
SELECT o.key, o.first, o.last, o.size, o.digest FROM pagelog_object o WHERE o.log = %(log)s AND o.state > 0 AND o.first > %(first)s
ORDER BY o.first LIMIT %(count)s
"""
PACKS_OF_LOG = """
SELECT key, digest FROM pagelog_pack WHERE log = %(log)s AND state > 0
UNION ALL SELECT manifest, manifest_digest FROM pagelog_base WHERE log = %(log)s AND is_stored ORDER BY 1
"""
"""Packs and manifests that were read back."""

_SWEPT = """g.since < now() - make_interval(secs => %(grace)s)
  AND NOT EXISTS (SELECT 1 FROM pagelog_object o WHERE o.key = g.key) AND NOT EXISTS (SELECT 1 FROM pagelog_pack p WHERE p.key = g.key)
  AND NOT EXISTS (SELECT 1 FROM pagelog_base b WHERE b.manifest = g.key)
  AND NOT EXISTS (SELECT 1 FROM pagelog_store s JOIN pagelog_log l ON l.id = s.log WHERE l.held IS NOT NULL AND starts_with(g.key, s.folder || '/'))
  AND NOT EXISTS (SELECT 1 FROM pagelog_store s JOIN pagelog_base b ON b.log = s.log WHERE s.folder = split_part(g.key, '/', 1) AND NOT b.is_stored
    AND lpad(to_hex(b.base), 16, '0') COLLATE "C" >= substr(split_part(g.key, '/', 3), 1, 16))"""
GONE = f"SELECT g.key FROM pagelog_gone g WHERE g.key > %(after)s AND {_SWEPT} ORDER BY g.key LIMIT %(count)s"
"""Keys that no row names, and since so long, of databases that nobody holds, and no base of it at or above them waits for its manifest: what comes
in their place is in the store. Of a folder manifests come first, and packs last."""
GOES = f"""
SELECT split_part(g.key, '/', 1), split_part(g.key, '/', 2), count(*), max(g.since) FROM pagelog_gone g WHERE {_SWEPT} GROUP BY 1, 2 ORDER BY 1, 2
"""
"""The same by folder and kind, how many, and since when at the latest."""
FORGET = """
DELETE FROM pagelog_gone g WHERE g.key = %(key)s RETURNING g.key
"""
NAMED_AGAIN = """
DELETE FROM pagelog_gone g WHERE EXISTS (SELECT 1 FROM pagelog_object o WHERE o.key = g.key)
  OR EXISTS (SELECT 1 FROM pagelog_pack p WHERE p.key = g.key) OR EXISTS (SELECT 1 FROM pagelog_base b WHERE b.manifest = g.key) RETURNING g.key
"""
