"""The tables of the referee: those of an archive, with the columns that say who may write it.

`format` 3 keeps archivers away that know nothing of runs, and keepers that know nothing of shifts and images. Beside it the tables
have a version, which `STEPS` raise one by one: a step only adds, or asks for less, so that older keepers go on with newer tables. What
they could not go on with gets another `format`. Each statement may be repeated: it makes what is not there.
"""

FORMAT = 3
"""The number of the form of these tables, which each named database carries."""
NUMBERS = "numbers of tables"
"""In the report of each keeper that takes nothing with a table which is not the newest. No name of a database has a space."""
CHANNEL = "pagelog_keeper"
"""The channel of the notifications that a release, a wish and a new database send."""

_FIRST = (
    """CREATE TABLE IF NOT EXISTS pagelog_log (
        id serial PRIMARY KEY, name varchar(200) NOT NULL UNIQUE, format integer NOT NULL,
        archived bigint NOT NULL, epoch bigint NOT NULL)""",
    """CREATE TABLE IF NOT EXISTS pagelog_block (
        log integer NOT NULL, lsn bigint NOT NULL, crc bigint NOT NULL, data bytea NOT NULL, PRIMARY KEY (log, lsn))""",
    # To look for the log of each block again takes a fifth of a commit: the statement that inserts blocks has changed its row.
    "ALTER TABLE pagelog_block DROP CONSTRAINT IF EXISTS pagelog_block_log_fkey",
    # run: of this generation, NULL where it was released. address: NULL until clients may come. base: the archived position
    # when the generation began. shift: a position less its LSN in the service of the address, which began with the images at
    # position `images`; 0: with the first block. chain: a digest of all blocks up to the archived position. wanted: the keeper
    # that is to take over, '*' for any other one. succeed: a succession was asked for. read_only: clients may only read.
    """ALTER TABLE pagelog_log
        ADD COLUMN IF NOT EXISTS generation bigint NOT NULL DEFAULT 0,
        ADD COLUMN IF NOT EXISTS next_generation bigint NOT NULL DEFAULT 1,
        ADD COLUMN IF NOT EXISTS run text,
        ADD COLUMN IF NOT EXISTS holder text,
        ADD COLUMN IF NOT EXISTS address text,
        ADD COLUMN IF NOT EXISTS base bigint NOT NULL DEFAULT 0,
        ADD COLUMN IF NOT EXISTS shift bigint NOT NULL DEFAULT 0,
        ADD COLUMN IF NOT EXISTS images bigint NOT NULL DEFAULT 0,
        ADD COLUMN IF NOT EXISTS chain bytea NOT NULL DEFAULT '',
        ADD COLUMN IF NOT EXISTS wanted text,
        ADD COLUMN IF NOT EXISTS succeed boolean NOT NULL DEFAULT false,
        ADD COLUMN IF NOT EXISTS read_only boolean NOT NULL DEFAULT false,
        ADD COLUMN IF NOT EXISTS paused boolean NOT NULL DEFAULT false,
        ADD COLUMN IF NOT EXISTS dropped boolean NOT NULL DEFAULT false""",
    "UPDATE pagelog_log SET format = 3 WHERE format = 2",
    # Each batch rewrites the row of its log.
    "ALTER TABLE pagelog_log SET (fillfactor = 20)",
    "ALTER TABLE pagelog_block ALTER data SET STORAGE EXTERNAL",
    # When the batch of a block was archived, by PostgreSQL's clock; NULL of one that is older than this column.
    "ALTER TABLE pagelog_block ADD COLUMN IF NOT EXISTS came timestamptz",
    "ALTER TABLE pagelog_block ALTER came SET DEFAULT now()",
    # The pages of a range that are not all zeros, at position `base`: those whose bits are set, the first in the highest one. A
    # range that has not changed since an older base has its row there.
    """CREATE TABLE IF NOT EXISTS pagelog_image (
        log integer NOT NULL REFERENCES pagelog_log, range integer NOT NULL, base bigint NOT NULL, pages bytea NOT NULL,
        crc bigint NOT NULL, data bytea NOT NULL, PRIMARY KEY (log, range, base))""",
    "ALTER TABLE pagelog_image ALTER data SET STORAGE EXTERNAL",
    # A base whose images are complete. chain: of the blocks up to it. digest: of the heads of all its images.
    """CREATE TABLE IF NOT EXISTS pagelog_base (
        log integer NOT NULL REFERENCES pagelog_log, base bigint NOT NULL, chain bytea NOT NULL, digest bytea NOT NULL,
        pages bigint NOT NULL, came timestamptz, PRIMARY KEY (log, base))""",
    """CREATE TABLE IF NOT EXISTS pagelog_generation (
        log integer NOT NULL REFERENCES pagelog_log, generation bigint NOT NULL, run text NOT NULL, holder text NOT NULL,
        base bigint NOT NULL, shift bigint NOT NULL, began timestamptz NOT NULL DEFAULT clock_timestamp(),
        PRIMARY KEY (log, generation))""",
    "ALTER TABLE pagelog_generation ADD COLUMN IF NOT EXISTS images bigint NOT NULL DEFAULT 0",
    """CREATE TABLE IF NOT EXISTS pagelog_table (
        log integer PRIMARY KEY REFERENCES pagelog_log, text text NOT NULL, secret bytea NOT NULL)""",
    """CREATE TABLE IF NOT EXISTS pagelog_keeper (
        name text PRIMARY KEY, run text NOT NULL, lines text NOT NULL, beat bigint NOT NULL DEFAULT 0,
        report jsonb NOT NULL DEFAULT '{}')""",
    """CREATE TABLE IF NOT EXISTS pagelog_standby (
        log integer NOT NULL REFERENCES pagelog_log, keeper text NOT NULL, address text NOT NULL, run text NOT NULL,
        reached bigint NOT NULL, PRIMARY KEY (log, keeper))""",
    """ALTER TABLE pagelog_standby
        ADD COLUMN IF NOT EXISTS shift bigint NOT NULL DEFAULT 0,
        ADD COLUMN IF NOT EXISTS images bigint NOT NULL DEFAULT 0""",
)

_LIVES = (
    # began: when the keeper of this run took the name, by PostgreSQL's clock.
    "ALTER TABLE pagelog_keeper ADD COLUMN IF NOT EXISTS began timestamptz",
)

_IDENTITY = (
    # identity: what no other database ever has, also one of the same name. doubted: the numbers up to it may have been given to two
    # runs, as PostgreSQL went back, so that a number alone says nothing. ancestor: of a copy the name of what it is of, which its pages
    # may have. An older keeper, and an older `create`, say none of it.
    """ALTER TABLE pagelog_log
        ADD COLUMN IF NOT EXISTS identity uuid NOT NULL DEFAULT gen_random_uuid(),
        ADD COLUMN IF NOT EXISTS doubted bigint NOT NULL DEFAULT 0,
        ADD COLUMN IF NOT EXISTS ancestor varchar(200)""",
    "CREATE UNIQUE INDEX IF NOT EXISTS pagelog_log_identity ON pagelog_log (identity)",
)

_TRAILS = (
    # of_run: whose audit list it is, DATABASE/RUN. Where there are no trails yet, who keeps one makes the tables with it.
    "ALTER TABLE IF EXISTS pagelog_trail_list ADD COLUMN IF NOT EXISTS of_run varchar(120)",
)

_TABLE_NUMBERS = (
    # table_number: of a database the number of its newest table, from 1 on, of a generation and of a standby that of the table that its
    # service was started with. An older keeper does not say it: 1, so that what it has counts as old once the table was changed.
    "ALTER TABLE pagelog_log ADD COLUMN IF NOT EXISTS table_number bigint NOT NULL DEFAULT 1",
    "ALTER TABLE pagelog_generation ADD COLUMN IF NOT EXISTS table_number bigint NOT NULL DEFAULT 1",
    "ALTER TABLE pagelog_standby ADD COLUMN IF NOT EXISTS table_number bigint NOT NULL DEFAULT 1",
)

_SEALED = (
    # sealed: text and secret, encrypted by the key of this id, which keepers have in a file; NULL: they are plain. An older keeper, and
    # one without the key, finds no table in the text.
    "ALTER TABLE pagelog_table ADD COLUMN IF NOT EXISTS sealed bytea, ADD COLUMN IF NOT EXISTS key text",
)

_PAGES = (
    # A page server of a database, as it says of itself: its run, where it is, up to which position it has pages, what of that a crash
    # leaves, and from which position on.
    """CREATE TABLE IF NOT EXISTS pagelog_pages (
        run text PRIMARY KEY, log integer NOT NULL REFERENCES pagelog_log, machine text NOT NULL, address text NOT NULL,
        position bigint NOT NULL, persisted bigint NOT NULL, oldest bigint NOT NULL, table_number bigint NOT NULL,
        beat bigint NOT NULL DEFAULT 0)""",
)

_STORE = (
    # folder: under which the objects of a database are. moved: all up to there is in a row of pagelog_object. cut: all up to there is in the
    # store alone. chain: a digest of all blocks up to `moved`. In a row of their own: each commit rewrites that of pagelog_log.
    """CREATE TABLE IF NOT EXISTS pagelog_store (
        log integer PRIMARY KEY REFERENCES pagelog_log, folder text NOT NULL, moved bigint NOT NULL DEFAULT 0,
        cut bigint NOT NULL DEFAULT 0, chain bytea NOT NULL DEFAULT '')""",
    # The object `key` has the blocks of these positions, and perhaps more. size, digest: its bytes, and their SHA-256. raw, raw_digest: the
    # same of its blocks. after: the digest of all blocks up to `last`. came, until: when the first and the latest of its blocks was archived.
    # state 0: its bytes are to be put. 1: they were read back from the store. 2: the blocks are in the store alone.
    """CREATE TABLE IF NOT EXISTS pagelog_object (
        log integer NOT NULL REFERENCES pagelog_log, first bigint NOT NULL, last bigint NOT NULL, key text NOT NULL, size bigint NOT NULL,
        digest bytea NOT NULL, raw bigint NOT NULL, raw_digest bytea NOT NULL, after bytea NOT NULL, came timestamptz, until timestamptz,
        state smallint NOT NULL DEFAULT 0, PRIMARY KEY (log, first))""",
    "CREATE INDEX IF NOT EXISTS pagelog_object_last ON pagelog_object (log, last)",
    "CREATE INDEX IF NOT EXISTS pagelog_object_open ON pagelog_object (log, first) WHERE state < 2",
    "CREATE INDEX IF NOT EXISTS pagelog_object_key ON pagelog_object (key)",
    # Keys that may be deleted once no row has named them for a while. What is in no row and not here is nobody's to delete.
    "CREATE TABLE IF NOT EXISTS pagelog_gone (key text PRIMARY KEY, since timestamptz NOT NULL DEFAULT now())",
    # Who may do something with the blocks may do the same with these.
    """DO $$ DECLARE one record; made text; BEGIN
      FOR one IN SELECT CASE a.grantee WHEN 0 THEN 'PUBLIC' ELSE a.grantee::regrole::text END AS name, a.privilege_type AS kind
        FROM pg_class c, aclexplode(c.relacl) a WHERE c.oid = 'pagelog_block'::regclass AND a.grantee <> c.relowner
      LOOP FOREACH made IN ARRAY ARRAY['pagelog_store', 'pagelog_object', 'pagelog_gone']
        LOOP EXECUTE format('GRANT %s ON %I TO %s', one.kind, made, one.name); END LOOP; END LOOP;
    END $$""",
)

_SECURE = (
    # secure: the run, or a keeper's life, and its address by TLS, as `RUN HOST:PORT`, with ` only` where there is no other way to it. It
    # names its run: an older keeper begins another and leaves the column as it is.
    "ALTER TABLE pagelog_log ADD COLUMN IF NOT EXISTS secure text",
    "ALTER TABLE pagelog_standby ADD COLUMN IF NOT EXISTS secure text",
    "ALTER TABLE pagelog_keeper ADD COLUMN IF NOT EXISTS secure text",
)

_ASIDE = (
    # aside: the stores of the page server's database that were quarantined there, each with its run, positions and folder. seen: when it was
    # heard of last, by PostgreSQL's clock.
    """ALTER TABLE pagelog_pages
        ADD COLUMN IF NOT EXISTS aside jsonb NOT NULL DEFAULT '[]',
        ADD COLUMN IF NOT EXISTS seen timestamptz NOT NULL DEFAULT now()""",
)

_PACKS = (
    # The object `key` has images of a database: their bytes, and their SHA-256. state 0: its bytes are to be put. 1: they were read back from
    # the store. 2: the images are in the store alone. A branch has rows of its own for the same objects, under the same numbers.
    """CREATE TABLE IF NOT EXISTS pagelog_pack (
        log integer NOT NULL REFERENCES pagelog_log, number bigint NOT NULL, key text NOT NULL, size bigint NOT NULL, digest bytea NOT NULL,
        raw bigint NOT NULL, state smallint NOT NULL DEFAULT 0, PRIMARY KEY (log, number))""",
    "CREATE INDEX IF NOT EXISTS pagelog_pack_key ON pagelog_pack (key)",
    "CREATE INDEX IF NOT EXISTS pagelog_pack_open ON pagelog_pack (log, number) WHERE state < 2",
    # packs: so many numbers were given to packs of the database, to manifests, and to what is done to packs.
    "ALTER TABLE pagelog_store ADD COLUMN IF NOT EXISTS packs bigint NOT NULL DEFAULT 0",
    # pack: the number of the pack that has the image, at this place, with so many bytes; digest: how their SHA-256 begins. Its data is empty
    # once the pack has state 2.
    """ALTER TABLE pagelog_image
        ADD COLUMN IF NOT EXISTS pack bigint,
        ADD COLUMN IF NOT EXISTS at integer,
        ADD COLUMN IF NOT EXISTS length integer,
        ADD COLUMN IF NOT EXISTS digest bytea""",
    "CREATE INDEX IF NOT EXISTS pagelog_image_here ON pagelog_image (log, base, range) WHERE pack IS NULL",
    "CREATE INDEX IF NOT EXISTS pagelog_image_pack ON pagelog_image (log, pack) WHERE pack IS NOT NULL",
    # manifest: the object by which the base can be read without PostgreSQL, and the SHA-256 of its bytes; is_stored: it was read back.
    # broken: when its images could not be read last.
    """ALTER TABLE pagelog_base
        ADD COLUMN IF NOT EXISTS broken timestamptz,
        ADD COLUMN IF NOT EXISTS manifest text,
        ADD COLUMN IF NOT EXISTS manifest_digest bytea,
        ADD COLUMN IF NOT EXISTS is_stored boolean NOT NULL DEFAULT false""",
    "CREATE INDEX IF NOT EXISTS pagelog_base_manifest ON pagelog_base (manifest) WHERE manifest IS NOT NULL",
    # Who may do something with objects may do the same with packs.
    """DO $$ DECLARE one record; BEGIN
      FOR one IN SELECT CASE a.grantee WHEN 0 THEN 'PUBLIC' ELSE a.grantee::regrole::text END AS name, a.privilege_type AS kind
        FROM pg_class c, aclexplode(c.relacl) a WHERE c.oid = 'pagelog_object'::regclass AND a.grantee <> c.relowner
      LOOP EXECUTE format('GRANT %s ON pagelog_pack TO %s', one.kind, one.name); END LOOP;
    END $$""",
)

_HELD = (
    # held: since when nothing of the database may be pruned or dropped; NULL: it may.
    "ALTER TABLE pagelog_log ADD COLUMN IF NOT EXISTS held timestamptz",
)

_INSTEAD = (
    # instead: the pack comes in the place of some of which little is needed still; its images are in these.
    "ALTER TABLE pagelog_pack ADD COLUMN IF NOT EXISTS instead boolean NOT NULL DEFAULT false",
)

_LEGAL_HOLDS = (
    # The object `key` has a legal hold in the store, or is about to get one, since the database is held.
    """CREATE TABLE IF NOT EXISTS pagelog_legal_hold (
        log integer NOT NULL REFERENCES pagelog_log, key text NOT NULL, PRIMARY KEY (log, key))""",
    "CREATE INDEX IF NOT EXISTS pagelog_legal_hold_key ON pagelog_legal_hold (key)",
    # Who may do something with objects may do the same with these.
    """DO $$ DECLARE one record; BEGIN
      FOR one IN SELECT CASE a.grantee WHEN 0 THEN 'PUBLIC' ELSE a.grantee::regrole::text END AS name, a.privilege_type AS kind
        FROM pg_class c, aclexplode(c.relacl) a WHERE c.oid = 'pagelog_object'::regclass AND a.grantee <> c.relowner
      LOOP EXECUTE format('GRANT %s ON pagelog_legal_hold TO %s', one.kind, one.name); END LOOP;
    END $$""",
)

_PAGES_SECURE = (
    # secure: as in the tables above, of the page server's run.
    "ALTER TABLE pagelog_pages ADD COLUMN IF NOT EXISTS secure text",
)

_AUDITED = (
    # audited: since when page servers of the database answer nobody, as what they answer is in no audit list; NULL: they may.
    "ALTER TABLE pagelog_log ADD COLUMN IF NOT EXISTS audited timestamptz",
)

_IMAGES_AT_ONCE = (
    # To look for the log of each image again takes a third of a branch: what inserts images has locked its row once, or made it. No keeper
    # deletes that row, not even of a dropped database; the keys of the tables around it, as of pagelog_table, refuse it to others.
    "ALTER TABLE pagelog_image DROP CONSTRAINT IF EXISTS pagelog_image_log_fkey",
)

STEPS = (
    _FIRST,
    _LIVES,
    _IDENTITY,
    _TRAILS,
    _TABLE_NUMBERS,
    _SEALED,
    _SECURE,
    _PAGES,
    _STORE,
    _ASIDE,
    _PACKS,
    _HELD,
    _PAGES_SECURE,
    _INSTEAD,
    _LEGAL_HOLDS,
    _AUDITED,
    _IMAGES_AT_ONCE,
)
"""What brings the tables from each version to the next one. Tables of version 1 have no number: they are older than it."""
VERSION = len(STEPS)

FOUND = """
SELECT CASE WHEN to_regclass('pagelog_schema') IS NOT NULL THEN -1
  WHEN EXISTS (SELECT 1 FROM pg_attribute WHERE attrelid = to_regclass('pagelog_standby') AND attname = 'images') THEN 1 ELSE 0 END
"""
"""The version of tables that have no number; -1 where they have one, which is asked for then."""
NUMBERED = "SELECT COALESCE(max(version), 0) FROM pagelog_schema"

_GRANTED = """
DO $$ DECLARE one record; BEGIN
  FOR one IN SELECT DISTINCT CASE a.grantee WHEN 0 THEN 'PUBLIC' ELSE a.grantee::regrole::text END AS name
    FROM pg_class c, aclexplode(c.relacl) a WHERE c.oid = 'pagelog_log'::regclass AND a.privilege_type = 'SELECT' AND a.grantee <> c.relowner
  LOOP EXECUTE 'GRANT SELECT ON pagelog_schema TO ' || one.name; END LOOP;
END $$"""
"""Who may read the databases may read the version."""

_LOCK = 7_074_611_203_551
"""The number of the advisory lock under which they are made: two that create at once would disturb each other."""


def script(version: int) -> str:
    """The steps from a version on, as one transaction. It waits for no long reader, as pg_dump: all commits would wait behind it."""
    made = [statement for step in STEPS[version:] for statement in step]
    numbers = (
        "CREATE TABLE IF NOT EXISTS pagelog_schema (version integer PRIMARY KEY, came timestamptz NOT NULL DEFAULT now())",
        f"INSERT INTO pagelog_schema (version) VALUES ({VERSION}) ON CONFLICT DO NOTHING",
    )
    return ";\n".join(
        (
            f"BEGIN; SET LOCAL lock_timeout = '3s'; SELECT pg_advisory_xact_lock({_LOCK})",
            *made,
            *numbers,
            _GRANTED,
            "COMMIT",
        )
    )
