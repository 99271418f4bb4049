/*
 * Which database and which run is meant, in every interleaving, as a model for the checker spin: PostgreSQL goes back by one statement,
 * and a name is used again. scripts/waiting runs it. It is about safety, and says nothing of waiting.
 *
 * The referee has one row under the name, and what it has of generations. Two keepers take it from each other at any moment; each has a
 * service of its last run, which goes on when PostgreSQL knows nothing of that run any more. A batch archives one block. The
 * database may be dropped, and another of its name created. Once PostgreSQL goes back by its last statement, whatever that was.
 *
 * A writer commits into the run that it is in, and asks any keeper what became of its block. One that is told `over` goes to the next
 * generation, and sends its blocks again where nobody has written. Another writer commits wherever the database is.
 *
 * What holds:
 *   - What was told durable was archived at its position, in that database.
 *   - What was told lost is in no archive of its database, now or later, but for what PostgreSQL had and lost.
 *   - A block is sent again into its own database alone, upon the block that it was made upon.
 *
 * With OLD_CLIENT the writer is one of version 1, which says a number alone.
 *
 * Left out: how batches and switches come late, images and standbys (keeping.pml); what moves (moves.pml).
 */
#ifndef RUNS
#define RUNS 4
#endif
#ifndef LAST
#define LAST 3 /* position */
#endif
#ifndef BACK
#define BACK 1 /* how often PostgreSQL goes back */
#endif
#ifndef OWN
#define OWN 2 /* blocks of the writer, which are the first ones */
#endif
#ifndef OTHERS
#define OTHERS 2
#endif
#define KEEPERS 2

/* Services, by run. */
#define AT(r, p) content[(r) * (LAST + 1) + (p)]
byte content[(RUNS + 1) * (LAST + 1)], hard[RUNS + 1], number_of[RUNS + 1], database_of[RUNS + 1], reached[RUNS + 1];
byte runs, mine[KEEPERS], known[KEEPERS]; /* of each keeper its run, and the highest number that it knows */

/* The row, what is archived, and where each generation began: by run. */
byte database = 1, number, present, next_number = 1, archived, archive[LAST + 1], base[RUNS + 1];
bit is_there[RUNS + 1]; /* PostgreSQL has this generation */
byte backs;

/* Its last statement: a batch, a take, and what the row was before. */
#define NOTHING 0
#define BATCH 1
#define TAKE 2
byte last, old_number, old_run, old_next;

/* Blocks. */
bit was_archived[OWN + OTHERS + 1], is_lost[OWN + OTHERS + 1];
byte place_of[OWN + OTHERS + 1], made_upon[OWN + OTHERS + 1], made_in[OWN + OTHERS + 1], others;

#define UPON(r) (hard[r] == 0 -> 0 : AT(r, hard[r]))

inline add(r, b) {
    hard[r]++;
    AT(r, hard[r]) = b; place_of[b] = hard[r]
}

/* ---- The referee ---- */

// referee/statements.py: TAKE
                    // ..
                    // UPDATE pagelog_log SET generation = GREATEST(next_generation, %(least)s), next_generation = GREATEST(next_generation, %(least)s) + 1, run = %(run)s, holder = %(me)s,
                    // ..
#ifdef NUMBERS_COME_AGAIN
#define LEAST(k) next_number
#else
#define LEAST(k) (known[k] + 1 > next_number -> known[k] + 1 : next_number)
#endif
inline take(k) {
    last = TAKE; old_number = number; old_run = present; old_next = next_number;
    runs++;
    number = LEAST(k); next_number = number + 1; known[k] = (number > known[k] -> number : known[k]);
    present = runs; mine[k] = runs; is_there[runs] = 1;
    number_of[runs] = number; database_of[runs] = database; base[runs] = archived;
    i = 0;
    do
    :: i < archived -> i++; AT(runs, i) = archive[i]
    :: else -> break
    od;
    i = 0;
    hard[runs] = archived; reached[runs] = archived
}

inline keep(k) {
    last = BATCH;
    archived++;
    archive[archived] = AT(present, archived); reached[present] = archived;
    assert(!is_lost[archive[archived]] || backs > 0);
    was_archived[archive[archived]] = 1
}

inline go_back() {
    backs++;
    if
    :: last == BATCH -> archive[archived] = 0; archived--
    :: last == TAKE -> is_there[present] = 0; number = old_number; present = old_run; next_number = old_next
    fi;
    last = NOTHING
}

// referee/statements.py: CREATE
                    // ..
                    // COALESCE((SELECT max(d.next_generation) + 1 FROM pagelog_log d WHERE d.dropped AND d.name = %(name)s
                    // ..
inline drop_and_create() {
#ifndef NAMES_GO_ON_AT_ONCE
    next_number++; /* a gap */
#endif
    database = 2; present = 0; number = 0; archived = 0; last = NOTHING;
    i = 0;
    do
    :: i < LAST -> i++; archive[i] = 0
    :: else -> break
    od;
    i = 0;
#ifdef NAMES_BEGIN_AGAIN
    next_number = 1;
#endif
}

active proctype Referee() {
    byte i;
end:
    do
    :: d_step { runs < RUNS -> take(0) }
    :: d_step { runs < RUNS -> take(1) }
    :: d_step { present != 0 && hard[present] > archived && reached[present] == archived -> keep(0) }
    :: d_step { backs < BACK && last != NOTHING -> go_back() }
    :: d_step { database == 1 -> drop_and_create() }
// keeper/numbers.py: see
                    // ..
                    // self.note(row.identity, max(row.next_generation - 1, row.generation))
                    // ..
    :: d_step { known[0] < next_number - 1 -> known[0] = next_number - 1 }
    :: d_step { known[1] < next_number - 1 -> known[1] = next_number - 1 }
    :: d_step { present != 0 && others < OTHERS && hard[present] < LAST ->
          others++;
          made_upon[OWN + others] = UPON(present); made_in[OWN + others] = database;
          add(present, OWN + others) }
    :: runs == RUNS && others == OTHERS -> break
    od
}

/* ---- A client ---- */

/* Whether the question is about this run, as a keeper sees it. */
// keeper/keeping.py: _is_of
                    // ..
                    // return of is None or (database.served is not None and of == database.of(database.served))
#if defined(OLD_CLIENT) || defined(ASKS_A_NUMBER)
#define IS_OF(r) (number_of[r] == number_of[at])
#else
#define IS_OF(r) ((r) == at)
#endif

/* What the run of a keeper has archived, if it is that which is asked for. */
#define IS_TOLD_BY(k, b) (mine[k] != 0 && IS_OF(mine[k]) && place_of[b] <= reached[mine[k]])

/* What PostgreSQL has: a later generation than that of the run, which has it or not. */
// referee/fate.py: fate_of_rows
                    // ..
                    // if own is None:
                    // return Fate(loss=Loss.ANOTHER) if rows else Fate()
                    // if own.dropped:
                    // return Fate(loss=Loss.DROPPED)
                    // if own.run == of.run:
                    // return Fate(end=own.end)
                    // return Fate(loss=Loss.SUPERSEDED, by=own.generation) if own.generation >= generation else Fate()
#ifdef OLD_CLIENT
#define IS_GONE false
#define IS_SUPERSEDED false
/* The number after its own is enough. */
#define IS_OVER (present != 0 && present != at && (number == number_of[at] + 1 || number > number_of[at] && database_of[at] == database))
#else
#define IS_GONE (database_of[at] != database)
#ifdef LOST_IS_OVER
#define IS_SUPERSEDED false
#define IS_OVER (present != 0 && present != at && number >= number_of[at])
#else
#define IS_SUPERSEDED (!IS_GONE && !is_there[at] && present != 0 && number >= number_of[at])
#define IS_OVER (!IS_GONE && is_there[at] && present != 0 && present != at && number > number_of[at])
#endif
#endif

inline tell_durable(b) {
    assert(was_archived[b] && made_in[b] == database_of[at]);
    safe = (place_of[b] > safe -> place_of[b] : safe)
}

#ifdef FORGETS_WHAT_WAS_DURABLE
#define IS_NOT_LOST true
#else
#define IS_NOT_LOST (end >= safe)
#endif

/* What it holds, and does not know to be durable, is compared. */
#define MAY_SEND(b) (hard[present] == place_of[b] - 1 && (place_of[b] - 1 <= safe || made_upon[b] == UPON(present)))

/* The end of a run: where the next generation that PostgreSQL has began. */
inline learn_end() {
    n = RUNS; end = archived;
    do
    :: n > 0 ->
       if
       :: n != at && is_there[n] && database_of[n] == database && number_of[n] > number_of[at] -> end = base[n]
       :: else
       fi;
       n--
    :: else -> break
    od
}

inline send_again(r, b) {
    assert(made_in[b] == database_of[r] && made_upon[b] == UPON(r));
    add(r, b)
}

/* A commit of the writer that is not told durable yet: of one block. */
active proctype Writer() {
    byte at, made, tried, end, safe, n;
endless:
    do
    :: d_step { at == 0 && present != 0 -> at = present; safe = archived }
    :: d_step { at != 0 && made == 0 && tried < OWN && hard[at] < LAST ->
          tried++; made = tried;
          made_upon[made] = UPON(at); made_in[made] = database_of[at];
          add(at, made) }
    :: d_step { made != 0 && (IS_TOLD_BY(0, made) || IS_TOLD_BY(1, made)) -> tell_durable(made); made = 0 }
    /* A statement that writes says that all of its run is lost: it opens again. */
    :: d_step { at != 0 && (IS_SUPERSEDED || IS_GONE) ->
#ifdef SENDS_INTO_ANOTHER
          if
          :: made != 0 && present != 0 && MAY_SEND(made) -> send_again(present, made)
          :: else
          fi;
#else
          if
          :: made != 0 && !was_archived[made] -> is_lost[made] = 1
          :: else
          fi;
#endif
          at = 0; made = 0 }
    /* Where that is below what was durable, PostgreSQL has lost some. */
    :: d_step { at != 0 && IS_OVER ->
          learn_end();
          if
#ifdef FORGETS_WHAT_WAS_DURABLE
          :: false
#else
          :: end < safe && made != 0 -> is_lost[made] = !was_archived[made]; made = 0
#endif
          :: IS_NOT_LOST && made != 0 && place_of[made] <= end -> tell_durable(made); made = 0
          :: made != 0 && place_of[made] > end && MAY_SEND(made) && IS_NOT_LOST -> send_again(present, made)
          :: made != 0 && place_of[made] > end && !MAY_SEND(made) && IS_NOT_LOST -> is_lost[made] = 1; made = 0
          :: made == 0
          fi;
          at = present; end = 0 }
    :: tried == OWN && made == 0 -> break
    od
}
