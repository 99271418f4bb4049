/*
 * What a reader of a named database believes of a page server, in every interleaving: as a model for the checker spin. scripts/waiting
 * runs it. The reader is in a run, and has followed it to a transaction; the page server has what PostgreSQL has archived, or had: it may
 * lag, die with what it has not persisted, and go on from there, while PostgreSQL goes back, and another run goes on without the one that
 * the reader is in.
 *
 * Each position has one transaction, of one block, which names the run that has made it and its position: no two runs make the same one,
 * as an end mark has a session of its own.
 *
 * What holds: pages that are believed, with what came after laid over them, are those of the transaction that is read, as its run has
 * them.
 *
 * Under the name of a function of clients/c come its decisive lines, as in primary.pml.
 *
 * Left out: several page servers, and who is asked when; images, bases and what is forgotten; blocks without an end mark.
 */
#ifndef RUNS
#define RUNS 3
#endif
#ifndef LAST
#define LAST 3 /* position */
#endif

/* Runs, and their logs: AT is the block of a run at a position. */
#define AT(r, p) content[(r) * (LAST + 1) + (p)]
#define MADE(r, p) ((r) * (LAST + 1) + (p))
byte content[(RUNS + 1) * (LAST + 1)];
byte hard[RUNS + 1];
byte now = 1;

/* PostgreSQL. */
byte archived, archive[LAST + 1];

/* The page server: up to `confirmed` its blocks are served, up to `persisted` a crash leaves them. `life` says over which of its lives a
 * connection leads to it. */
byte store[LAST + 1];
byte confirmed, persisted;
bit life;

/* The reader, and its connection. */
byte gen = 1, mark, base;
byte held[LAST + 1]; /* from the base to the mark: what the reader has followed */
byte proved;
bit is_open, over;

byte i;
bit is_same;

/* Whether the page server has what the archive has, up to what it has: as the digests say that PostgreSQL gives. */
inline compare_with_archive() {
    is_same = confirmed <= archived;
    i = 1;
    do
    :: i <= confirmed && i <= archived -> is_same = is_same && store[i] == archive[i]; i++
    :: else -> break
    od;
    i = 0
}

/* All connections end. */
inline begin_life() {
    life = 1 - life;
    is_open = 0
}

active proctype World() {
    do
    :: d_step { hard[now] < LAST -> hard[now]++; AT(now, hard[now]) = MADE(now, hard[now]) }
    :: d_step { archived < hard[now] -> archived++; archive[archived] = AT(now, archived) }
    /* Another run begins with what is archived. The one before goes on, for all that the reader knows. */
    :: d_step { now < RUNS ->
          now++;
          hard[now] = archived;
          i = 1;
          do
          :: i <= archived -> AT(now, i) = archive[i]; i++
          :: else -> break
          od;
          i = 0 }
    /* PostgreSQL loses what it had acknowledged. Its holder's run archives that again, unless another one goes on. */
    :: d_step { archived > 0 -> archive[archived] = 0; archived-- }
    /* A look of the page server: the next block, or another store in place of one of another history. */
    :: d_step {
#ifndef CHAIN_NOT_COMPARED
          compare_with_archive();
#else
          is_same = confirmed <= archived;
#endif
          if
          :: is_same && confirmed < archived -> confirmed++; store[confirmed] = archive[confirmed]
          :: is_same && confirmed == archived -> persisted = confirmed
          :: !is_same ->
             do
             :: confirmed > 0 -> store[confirmed] = 0; confirmed--
             :: else -> break
             od;
             persisted = 0;
             begin_life()
          fi;
          is_same = 0 }
    /* It dies, and goes on from what was persisted. */
    :: d_step { true ->
          do
          :: confirmed > persisted -> store[confirmed] = 0; confirmed--
          :: else -> break
          od;
          begin_life() }
    :: true -> break
    od
}

/* ---- The reader ---- */

// pagelog_paged.c: is_held
                    // ..
                    // return last && strcmp(named->held_run, named->place.run) == 0 && is_at(last->position, mark->position) && last->session == mark->session && last->transaction == mark->transaction;
// pagelog_paged.c: pagelog_hold_transaction
                    // ..
                    // if (is_held(file, &before))
                    // pagelog_held_add(&file->source.named->held, &next, file->pending.bytes, file->pending.length);
inline follow() { mark++; held[mark] = AT(gen, mark) }

// pagelog_paged.c: hold_read
                    // ..
                    // if (is_held(file, &mark)) return;
                    // if (strcmp(named->held_run, named->place.run) != 0) pagelog_copies_doubt(named->copies);
                    // strcpy(named->held_run, named->place.run);
                    // pagelog_held_begin(&named->held, &mark);
/* It goes to the present run: the transaction stays, if that has it, and else it is the newest one. */
inline enter() {
    mark = (mark <= hard[now] && held[mark] == AT(now, mark) -> mark : hard[now]);
    gen = now;
#ifndef PROVED_IN_ANOTHER_RUN
    proved = 0;
#endif
#ifdef TAIL_OF_TWO_RUNS
    base = (base < mark -> base : mark);
#else
    base = mark;
#endif
    held[mark] = AT(gen, mark)
}

// pagelog_copy.c: connect_anew
                    // ..
                    // copy->was_open = copy->connects == copy->line.connects;
                    // if (!copy->was_open) copy->proved.number = 0;
                    // ..
inline connect() {
    is_open = 1; over = life;
#ifndef PROVED_BEFORE_A_CRASH
    proved = 0
#endif
}

// pagelog_copies.c: ask
                    // ..
                    // = pagelog_held_until(question->held, copy->server.position);
                    // ..
// pagelog_copies.c: take_pages
                    // ..
                    // if (!is_same_mark(reply.bytes, base)) return WRONG;
                    // copy->proved = base->position;
                    // ..
                    // pagelog_held_lay(question->held, base, question->pages, question->count, question->bytes);
                    // ..
#define NEWEST (confirmed < mark -> confirmed : mark)
#ifdef NOTHING_PROVED
#define IS_PROVED true
#else
#define IS_PROVED (NEWEST <= proved || store[NEWEST] == held[NEWEST])
#endif
inline get() {
    if
    :: NEWEST >= base && NEWEST > 0 && IS_PROVED ->
       proved = (NEWEST > proved -> NEWEST : proved);
       i = 1;
       do
       :: i <= mark -> assert((i <= NEWEST -> store[i] : held[i]) == AT(gen, i)); i++
       :: else -> break
       od;
       i = 0
    :: else
    fi
}

active proctype Reader() {
    do
    :: d_step { mark < hard[gen] -> follow() }
    :: d_step { mark > 0 -> base = mark } /* as after a leap */
    :: d_step { gen < now -> enter() }
    :: d_step { !is_open -> connect() }
    :: d_step { is_open && over == life && mark > 0 -> get() }
    :: true -> break
    od
}
