/*
 * How keepers hand a named database from one run of a service to the next, in every interleaving, as a model for the checker spin.
 * scripts/waiting runs it. It is about safety, and says nothing of waiting.
 *
 * The referee has one row, and each statement of it is one step: the run that holds the database, its generation, how far it is
 * archived. A reply may be lost, and a statement may come late. A keeper archives what its service has hardened; it makes the next
 * run beside it, from images and the blocks after them, closes the present one, brings the rest over and switches. The other keeper
 * has a standby, which follows the archive and may be behind, or none. It may take the database at any moment, from the standby or
 * from images: no clock is believed. The keeper from which it was taken goes on, and so do its service and those who write there,
 * until it is told. Services die.
 *
 * What holds:
 *   - What is archived stays, and is what the service of the run that holds the database has there.
 *   - What a keeper tells as durable is archived.
 *   - A service is published with all that is archived, but for what is below its images, and with no more.
 *   - A succession loses nothing that the service before has hardened.
 *
 * Under the name of a function or a statement of clients/python come its decisive lines, as in primary.pml.
 *
 * Left out: what writers do (moves.pml); releases, which a take-over shows as well; the lives of keepers; a PostgreSQL that goes back (identity.pml).
 */
#ifndef RUNS
#define RUNS 3
#endif
#ifndef LAST
#define LAST 2 /* position */
#endif
#ifndef BLOCKS
#define BLOCKS 2
#endif
#ifndef DEATHS
#define DEATHS 1
#endif
#define KEEPERS 2

/* The services, by run; all is by position. A log that has ended stays, as what its keeper has read of it. */
#define AT(r, p) content[(r) * (LAST + 1) + (p)]
byte content[(RUNS + 1) * (LAST + 1)];
byte hard[RUNS + 1], base[RUNS + 1], generation_of[RUNS + 1];
byte reached[RUNS + 1]; /* what of it is archived, as its keeper knows */
bit alive[RUNS + 1], closed[RUNS + 1], published[RUNS + 1];
byte runs = 1, deaths, made;

/* The row, the blocks and the newest images. */
byte holder = 1, generation = 1, next_generation = 2, archived, newest, archive[LAST + 1];

/* Statements that are still on their way, one of each keeper: of a batch, or with a next run of a switch. */
byte late_run[KEEPERS], late_old[KEEPERS], late_next[KEEPERS], late_number[KEEPERS];

/* ---- Statements ---- */

// referee/statements.py: KEEP
                    // ..
                    // UPDATE pagelog_log l SET archived = due.new, chain = due.chain FROM due
                    // WHERE l.id = due.log AND l.run = due.run AND l.generation = due.generation AND l.archived = due.old
                    // ..
                    // WHERE b.log IN (SELECT id FROM fence))
                    // ..
#ifdef ARCHIVES_WHOEVER_HOLDS_IT
#define HOLDS(r) true
#else
#define HOLDS(r) (holder == (r) && generation == generation_of[r])
#endif
#ifdef ARCHIVES_ANYWHERE
#define FOLLOWS(p) true
#else
#define FOLLOWS(p) (archived == (p))
#endif
inline archive_next(r, p) {
    assert(archive[p + 1] == 0);
    assert(!alive[holder] || AT(holder, p + 1) == AT(r, p + 1));
    archive[p + 1] = AT(r, p + 1); archived = p + 1
}

inline keep(r, p) {
    is_done = HOLDS(r) && FOLLOWS(p);
    if
    :: is_done -> archive_next(r, p)
    :: else
    fi
}

// referee/statements.py: SUCCEED
                    // ..
                    // UPDATE pagelog_log SET generation = %(next)s, run = %(next_run)s, holder = %(me)s, address = %(address)s, secure = %(secure)s, shift = %(shift)s,
                    // ..
                    // WHERE id = %(id)s AND run = %(run)s AND generation = %(generation)s AND archived = %(old)s AND next_generation > %(next)s AND NOT dropped
                    // ..
#ifdef SWITCHES_WHOEVER_HOLDS_IT
#define MAY_SWITCH(r, p) true
#else
#define MAY_SWITCH(r, p) (holder == (r) && generation == generation_of[r] && archived == (p))
#endif
inline succeed(r, p, n, number) {
    is_done = MAY_SWITCH(r, p);
    if
    :: is_done ->
       i = p;
       do
       :: i < reached[n] -> archive_next(n, i); i++
       :: else -> break
       od;
       i = 0;
       assert(!alive[r] || hard[r] == reached[n]);
       holder = n; generation = number; generation_of[n] = number;
       publish(n)
    :: else
    fi
}

/* Nobody has written there before. */
inline publish(r) {
    assert(hard[r] == archived && base[r] <= archived);
    i = (base[r] > 1 -> base[r] : 1);
    do
    :: i <= archived -> assert(AT(r, i) == archive[i]); i++
    :: else -> break
    od;
    i = 0;
    published[r] = 1
}

/* ---- A service ---- */

/* Fills it with what the archive has, up to p. One that breaks off goes on behind what is loaded: the digest of all is compared. */
// keeper/served.py: follow
                    // if archived <= self.reached:
                    // return
                    // is_fresh = self.loaded == 0
                    // ..
                    // self._begin(Bases(referee, log), archived, loader)
                    // with ahead(pieces_of(referee, log, self.loaded + 1, archived), referee.cut) as pieces:
                    // self.load(loader, pieces, archived, wanted)
                    // ..
inline fill(r, p) {
    if
    :: reached[r] == 0 && newest <= p -> base[r] = newest; i = (newest > 0 -> newest - 1 : 0)
    :: else -> i = reached[r]
    fi;
    do
    :: i < p -> i++; AT(r, i) = archive[i]
    :: else -> break
    od;
    i = 0;
    reached[r] = p; hard[r] = p
}

/* The same from the present service, whose log has all that is archived of it. */
// keeper/succession.py: _bring
                    // ..
                    // successor.begin(self._referee, self._database.row.id, reached)
                    // if successor.reached < reached:
                    // successor.fill(served.logged(successor.loaded, reached), reached, chain)
                    // ..
inline bring(n, r, p) {
    i = reached[n];
    do
    :: i < p -> i++; AT(n, i) = AT(r, i)
    :: else -> break
    od;
    i = 0;
    reached[n] = p; hard[n] = p
}

inline start(r) {
    runs++;
    r = runs; alive[r] = 1
}

inline kill(r) { alive[r] = 0; published[r] = 0 }

/* ---- A keeper ---- */

#define ME _pid

inline hold(r) {
    generation = next_generation; next_generation++;
    holder = r; generation_of[r] = generation
}

#ifdef TELLS_BEFORE_IT_IS_FILLED
#define HAS_ALL true
#else
#define HAS_ALL (reached[standby] == archived)
#endif

/* How far a succession or a take-over is. */
#define NONE 0
#define MAKING 1
#define CLOSED 2
#define LOADED 3
#define IN_DOUBT 4
#define TAKEN 5
#define FILLED 6

// keeper/switch.py: begun
                    // if referee.kept(switch.log, switch.next_run) is None:
                    // return None
                    // return referee.held(switch.log, switch.next_run)
// keeper/switch.py: may_begin
                    // kept = referee.kept(switch.log, switch.run)
                    // return kept is not None and kept.archived == switch.old and has_newest_table(referee, switch)
#ifdef DOUBT_IS_NO
#define MAY_BEGIN_STILL false
#else
#define MAY_BEGIN_STILL (holder == mine && archived == reached[mine])
#endif

inline give_up() {
    kill(next);
    next = 0; number = 0; stage = NONE;
    closed[mine] = 0
}

inline go_on() {
    kill(mine);
    mine = next;
    next = 0; number = 0; stage = NONE
}

inline tell() { assert(reached[mine] <= archived && (reached[mine] == 0 || archive[reached[mine]] == AT(mine, reached[mine]))) }

active [KEEPERS] proctype Keeper() {
    byte mine, standby, next, number, stage, upto, seen_generation, seen_archived, i;
    bit is_done, doubts;
    d_step {
        if
        :: ME == 0 -> mine = 1; alive[1] = 1; published[1] = 1; generation_of[1] = 1
        :: ME == 1 && generation_of[1] == 1
        fi
    };
end:
    do
    /* A batch: done or refused, and the reply comes or is lost; or it comes late. */
// keeper/fast_path_referee.c: take_answer
                    // ..
                    // if (result == NULL)
                    // *is_whole = true;
                    // return session->has_row && !session->warned;
                    // ..
// keeper/fast_path_referee.c: finish
                    // ..
                    // if (session->kept[at]) enter(session->ways[at]);
                    // else end_way(session->ways[at], WAY_NOT_KEPT);
                    // ..
// keeper/fast_path_referee.c: enter
                    // ..
                    // way->reached = way->batch.reached;
                    // ..
                    // way->tells = true;
                    // ..
// keeper/fast_path_lines.c: tell_archived
                    // if (way->tells) {
                    // way->tells = false;
                    // tell_all(way);
                    // ..
// keeper/fast_path_lines.c: tell_all
                    // ..
                    // bool is_due = line->position != 0 && line->position <= way->reached;
                    // if (is_due && !tell(way, line
                    // ..
    :: d_step { mine != 0 && (stage == NONE || stage == MAKING) && !doubts && alive[mine] && hard[mine] > reached[mine] ->
          keep(mine, reached[mine]);
#ifdef TOLD_BEFORE_THE_REPLY
          reached[mine]++; tell()
#else
          doubts = !is_done;
          reached[mine] = (is_done -> reached[mine] + 1 : reached[mine]); tell()
#endif
       }
// keeper/fast_path_referee.c: lose
                    // ..
                    // end_way(session->ways[at], WAY_DOUBT);
                    // ..
// keeper/fast_path.c: advance
                    // tell_archived(way);
                    // if (way->is_over && way->phase != KEEPING)
                    // end_way(way, WAY_STOPPED);
                    // ..
    :: d_step { mine != 0 && (stage == NONE || stage == MAKING) && !doubts && alive[mine] && hard[mine] > reached[mine] -> keep(mine, reached[mine]);
#ifdef A_DOUBT_IS_TOLD
          reached[mine]++; tell()
#else
          doubts = 1
#endif
       }
    :: d_step { mine != 0 && (stage == NONE || stage == MAKING) && !doubts && alive[mine] && hard[mine] > reached[mine] && late_run[ME] == 0 ->
          late_run[ME] = mine; late_old[ME] = reached[mine]; doubts = 1 }
    :: d_step { late_run[ME] != 0 ->
          if
          :: late_next[ME] == 0 -> keep(late_run[ME], late_old[ME])
          :: else -> succeed(late_run[ME], late_old[ME], late_next[ME], late_number[ME])
          fi;
          late_run[ME] = 0; late_old[ME] = 0; late_next[ME] = 0; late_number[ME] = 0 }
    /* A batch in doubt is looked up, and what of it is not archived is tried again behind what is. Who holds it no more ends its service. */
// keeper/fast_path.c: take_batch
                    // ..
                    // bool follows = before->batch.blocks > 0 && before->reached == way->reached && before->chain_len == way->chain_len &&
                    // memcmp(before->chain, way->chain, way->chain_len) == 0;
                    // ..
                    // if (!follows || !fits)
                    // return;
                    // ..
// referee/referee.py: kept
                    // found = self._ask("UPDATE pagelog_log SET archived = archived WHERE id = %s
                    // RETURNING archived, chain, generation, run", (log,))
                    // return (Kept(found[0][0], bytes(found[0][1]), found[0][2]) if found and found[0][3] == run else None)
    :: d_step { doubts ->
          doubts = 0;
          if
          :: holder == mine -> reached[mine] = archived; tell()
          :: else ->
             kill(mine);
             if
             :: next != 0 -> give_up()
             :: else
             fi;
             mine = 0
          fi }

    /* The next run. */
// referee/statements.py: NUMBER
                    // ..
                    // UPDATE pagelog_log SET next_generation = GREATEST(next_generation, %(least)s) + 1
                    // WHERE id = %(id)s AND run = %(run)s AND generation = %(generation)s AND NOT dropped RETURNING next_generation - 1
                    // ..
    :: d_step { mine != 0 && stage == NONE && !doubts && alive[mine] && runs < RUNS && HOLDS(mine) ->
          number = next_generation; next_generation++;
          newest = reached[mine];
          start(next);
          fill(next, reached[mine]);
          stage = MAKING }
    :: d_step { stage == MAKING && !doubts && alive[next] && reached[next] < reached[mine] -> fill(next, reached[mine]) }
    :: d_step { stage == MAKING && !doubts && alive[next] && alive[mine] && reached[next] < reached[mine] -> bring(next, mine, reached[mine]) }
// keeper/succession.py: _closed
                    // ..
                    // end = patiently(served, served.close)
                    // ..
                    // blocks = _pulled(served, successor.reached, end)
                    // ..
                    // successor.load(loader, [blocks], end, chain)
                    // ..
    :: d_step { stage == MAKING && !doubts && alive[mine] ->
#ifdef END_BEFORE_THE_FENCE
          upto = hard[mine]
       };
       d_step {
#endif
#ifndef NEVER_CLOSES
          closed[mine] = 1;
#endif
          stage = CLOSED }
    :: d_step { stage == CLOSED && alive[mine] && alive[next] ->
#ifndef END_BEFORE_THE_FENCE
          upto = hard[mine];
#endif
#ifdef BRINGS_WHAT_IS_NOT_ARCHIVED
          i = reached[mine];
#else
          i = reached[next];
#endif
          do
          :: i < upto -> i++; AT(next, i) = AT(mine, i)
          :: else -> break
          od;
          i = 0;
          hard[next] = upto; reached[next] = upto; upto = 0;
          stage = LOADED }
    :: d_step { stage == MAKING && !alive[next] || stage == CLOSED && (!alive[mine] || !alive[next]) -> give_up(); upto = 0 }
    /* The switch, as a batch. */
    :: d_step { stage == LOADED ->
          succeed(mine, reached[mine], next, number);
          if
          :: is_done -> go_on()
          :: else -> stage = IN_DOUBT
          fi }
    :: d_step { stage == LOADED -> succeed(mine, reached[mine], next, number); stage = IN_DOUBT }
    :: d_step { stage == LOADED && late_run[ME] == 0 ->
          late_run[ME] = mine; late_old[ME] = reached[mine]; late_next[ME] = next; late_number[ME] = number;
          stage = IN_DOUBT }
// keeper/succession.py: _switched
                    // ..
                    // row = await self._ask(begun, switch)
                    // if row is not None or not await self._ask(may_begin, switch):
                    // return row
                    // if (row := await self._ask(succeed, switch)) is not None:
                    // return row
                    // ..
    :: d_step { stage == IN_DOUBT ->
          if
          :: holder == next -> go_on()
          :: holder != next && MAY_BEGIN_STILL -> stage = LOADED
          :: else -> give_up()
          fi }

    /* A standby, as far as a look has shown the archive. */
    :: d_step { mine == 0 && standby == 0 && stage == NONE && runs < RUNS && ME == 1 ->
          start(standby);
          fill(standby, archived) }
    :: d_step { mine == 0 && standby != 0 && stage == NONE && alive[standby] && reached[standby] < archived -> fill(standby, archived) }
    :: d_step { standby != 0 && !alive[standby] && stage == NONE -> standby = 0 }
#ifdef STANDBY_FOLLOWS_THE_SERVICE
    :: d_step { mine == 0 && standby != 0 && stage == NONE && alive[standby] && alive[holder] && reached[standby] == archived && hard[holder] > archived ->
          hard[standby] = archived + 1; AT(standby, archived + 1) = AT(holder, archived + 1); reached[standby] = archived + 1 }
#endif

    /* It takes the database, if all is as it was seen. */
    :: d_step { mine == 0 && stage == NONE && seen_generation == 0 && (standby != 0 || runs < RUNS) && (ME == 1 || !alive[holder]) ->
          seen_generation = generation; seen_archived = archived }
// referee/statements.py: TAKE
                    // ..
                    // UPDATE pagelog_log SET generation = GREATEST(next_generation, %(least)s), next_generation = GREATEST(next_generation, %(least)s) + 1, run = %(run)s, holder = %(me)s,
                    // address = %(address)s, secure = %(secure)s, shift = COALESCE(%(shift)s::bigint, shift), images = COALESCE(%(images)s::bigint, images), base = archived,
                    // wanted = NULL, succeed = false
                    // WHERE id = %(id)s AND generation = %(generation)s AND archived = %(archived)s AND run IS NOT DISTINCT FROM %(seen_run)s::text
                    // AND (%(address)s::text IS NULL OR chain = %(chain)s) AND NOT paused AND NOT dropped
                    // ..
    :: d_step { seen_generation != 0 ->
          if
#ifdef TAKES_IT_AS_SEEN
          :: standby != 0 || runs < RUNS ->
             upto = seen_archived;
#else
          :: seen_generation == generation && seen_archived == archived && (standby != 0 || runs < RUNS) ->
             upto = archived;
#endif
             if
             :: standby == 0 -> start(mine)
             :: else -> mine = standby; standby = 0
             fi;
             hold(mine);
             stage = TAKEN
          :: else
          fi;
          seen_generation = 0; seen_archived = 0 }
    /* With a standby that has all, its place is told by the same statement. */
// keeper/beginning.py: _ready
                    // ..
                    // await self._database.filled(served, row.archived, row.chain)
                    // await asyncio.to_thread(served.check, row.archived, row.chain)
                    // return served.where
    :: d_step { seen_generation != 0 && seen_generation == generation && seen_archived == archived && standby != 0 && alive[standby] && HAS_ALL ->
          mine = standby; standby = 0;
          hold(mine);
          publish(mine);
          seen_generation = 0; seen_archived = 0 }
// keeper/beginning.py: fill
                    // ..
                    // await database.filled(served, row.base, row.chain)
                    // await asyncio.to_thread(served.check, row.base, row.chain)
                    // await asyncio.to_thread(served.open)
                    // ..
    :: d_step { stage == TAKEN ->
#ifdef STANDBY_IS_ENOUGH
          if
          :: reached[mine] == 0 -> fill(mine, upto)
          :: else
          fi;
#else
          if
          :: reached[mine] < upto -> fill(mine, upto)
          :: else
          fi;
#endif
          upto = 0; stage = FILLED }
// referee/statements.py: PUBLISH
                    // ..
                    // WHERE id = %(id)s AND run = %(run)s
                    // ..
    :: d_step { stage == FILLED ->
          if
          :: holder == mine -> publish(mine)
          :: else -> kill(mine); mine = 0
          fi;
          stage = NONE }
    :: made == BLOCKS && mine == 0 && standby == 0 && stage == NONE && seen_generation == 0 -> break
    od
}

/* ---- Those who write, and deaths ---- */

#define HAPPENS_TO(r) \
    :: d_step { made < BLOCKS && alive[r] && published[r] && !closed[r] && hard[r] < LAST -> \
          made++; hard[r]++; AT(r, hard[r]) = made } \
    :: d_step { deaths < DEATHS && alive[r] -> deaths++; kill(r) }

active proctype Others() {
end:
    do
    HAPPENS_TO(1)
    HAPPENS_TO(2)
#if RUNS > 2
    HAPPENS_TO(3)
#endif
#if RUNS > 3
    HAPPENS_TO(4)
#endif
    :: made == BLOCKS && deaths == DEATHS -> break
    od
}
