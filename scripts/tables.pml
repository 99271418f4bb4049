/*
 * How the table of a named database is changed, so that tokens of an older one are good for nothing that lasts, in every interleaving,
 * as a model for the checker spin. scripts/waiting runs it. It is about safety, and says nothing of waiting.
 *
 * The referee has the newest table with its number, and the run that holds the database; each statement of it is one step. A keeper reads
 * the table, starts a service with it, as a standby or as the next run beside its own, and takes or switches, at any moment and however
 * long after it has read; it dies, and its services go on. Clients write at any service that is there with tokens of its table. The
 * subcommand gives the table another number, waits, may end the run that holds the database, and returns.
 *
 * What holds: once it has returned, nothing becomes durable that was written with an older token.
 *
 * Under the name of a function or a statement of clients/python come its decisive lines, as in primary.pml.
 *
 * Left out: what is in the blocks (keeping.pml), and when keepers and standbys end their services: these make nothing durable.
 */
#ifndef RUNS
#define RUNS 4
#endif
#ifndef CHANGES
#define CHANGES 1
#endif
#define KEEPERS 2

/* The newest table, and what it says: a number that rises with each change. */
byte number = 1, text = 1;
/* The run that holds the database. Of a service the number and the text of its table, and the oldest text by whose tokens something was
 * written that is not archived yet. */
byte holder, runs, number_of[RUNS + 1], text_of[RUNS + 1], written[RUNS + 1];
/* What the subcommand has returned of. */
byte returned = 1;

#define ME (_pid)

/* Reads the table, and starts a service with it. It is read without a write: an old leader of PostgreSQL has the one before. */
// referee/statements.py: TABLE
                    // ..
                    // SELECT l.identity, l.table_number, t.text, t.secret, t.sealed, t.key FROM pagelog_table t JOIN pagelog_log l ON l.id = t.log WHERE t.log = %s
                    // ..
// keeper/database.py: new_served
                    // ..
                    // text, secret, number, _ = await self.shared.ask(self.shared.referee.table, self.row.id)
                    // return Served(self.row.name, run, text, secret, timeout=self.shared.settings.ttl, is_read_only=self.row.read_only, table_number=number,
                    // ..
inline start(r, before) {
    runs++; r = runs;
    number_of[r] = number - before; text_of[r] = text - before
}
#define HAS_OLDER (number > 1 && number == text)

inline archive(r) {
    assert(written[r] == 0 || written[r] >= returned);
    written[r] = 0
}

// referee/statements.py: TAKE
                    // ..
                    // AND table_number <= %(table_number)s
                    // ..
                    // INSERT INTO pagelog_generation (log, generation, run, holder, base, shift, images, table_number)
                    // SELECT id, generation, %(run)s, %(me)s, archived, shift, COALESCE(%(images)s::bigint, 0), %(table_number)s FROM taken),
                    // ..
#ifdef TAKES_WITH_ANY_TABLE
#define MAY_TAKE(r) true
#else
#define MAY_TAKE(r) (number <= number_of[r])
#endif

// referee/statements.py: SUCCEED
                    // ..
                    // AND table_number <= %(table_number)s
                    // ..
                    // SELECT id, generation, %(next_run)s, %(me)s, %(new)s, %(shift)s, %(images)s, %(table_number)s FROM begun),
                    // ..
#ifdef SWITCHES_WITH_ANY_TABLE
#define MAY_SWITCH(r, n) (holder == (r))
#else
#define MAY_SWITCH(r, n) (holder == (r) && number <= number_of[n])
#endif

active [KEEPERS] proctype Keeper() {
    byte mine, standby, next;
end:
    do
    :: d_step { standby == 0 && mine == 0 && runs < RUNS -> start(standby, 0) }
    :: d_step { standby == 0 && mine == 0 && runs < RUNS && HAS_OLDER -> start(standby, 1) }
    :: d_step { standby != 0 && MAY_TAKE(standby) -> mine = standby; standby = 0; holder = mine }
    :: d_step { mine != 0 && next == 0 && runs < RUNS -> start(next, 0) }
    :: d_step { mine != 0 && next == 0 && runs < RUNS && HAS_OLDER -> start(next, 1) }
    :: d_step { mine != 0 && next != 0 && MAY_SWITCH(mine, next) -> archive(mine); mine = next; next = 0; holder = mine }
    /* A batch of a run that holds it. Of one that does not its statement keeps nothing. */
    :: d_step { mine != 0 && holder == mine && written[mine] != 0 -> archive(mine) }
    /* It dies, or finds that its run is over; another life may adopt that as long as it holds the database. */
    :: d_step { mine != 0 && holder != mine -> mine = 0; next = 0 }
    :: d_step { standby != 0 || next != 0 -> standby = 0; next = 0 }
    :: runs == RUNS && mine == 0 && standby == 0 -> break
    od
}

/* Clients with the tokens of a service's table. */
active proctype Clients() {
    byte r;
end:
    do
    :: d_step { r < runs -> r++ }
    :: d_step { r > 0 -> r-- }
    :: d_step { r > 0 && written[r] == 0 -> written[r] = text_of[r] }
    :: runs == RUNS -> break
    od
}

active proctype Subcommand() {
    byte left = CHANGES;
end:
    do
    :: left > 0 -> left--;
// referee/statements.py: SET_TABLE
                    // ..
                    // UPDATE pagelog_log SET table_number = table_number + 1
                    // WHERE id = %(id)s AND identity = %(identity)s::uuid AND table_number = %(seen)s AND NOT dropped RETURNING id, table_number),
                    // noted AS (UPDATE pagelog_table SET {_STORED} FROM told WHERE log = told.id RETURNING log)
                    // ..
#ifdef NUMBERS_BEFORE_THE_TEXT
       number++;
       text++;
#else
       d_step { number++; text++ }
#endif
#ifndef RETURNS_AT_ONCE
       do
       :: holder == 0 || number_of[holder] >= number -> break
       /* A holder that is not alive, or takes too long. */
       :: d_step { holder != 0 && number_of[holder] < number -> holder = 0 }
       od;
#endif
       returned = text
    :: left == 0 -> break
    od
}
