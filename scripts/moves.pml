/*
 * How a file of a named database goes from one generation to the next, in every interleaving: what clients/c carries over, sends again
 * and tells, as a model for the checker spin. scripts/waiting runs it. It is about safety, and says nothing of waiting.
 *
 * A generation is one run of one service. Positions go on from one to the next: an LSN plus the shift of the generation. The keepers
 * are what docs/KEEPERS.md says of them: the archive takes the blocks of the present generation, one after the other. A planned
 * succession closes the log, archives all of it, and begins the next generation with an image, so that nothing below its base can be
 * read there. A takeover begins the next one with what is archived, while the service before may go on, for some time or for ever, or
 * dies. A service may die at any moment, too.
 *
 * A writer commits blocks, one each, and each is acknowledged once the service has it, and durable once the archive has. It holds
 * what is not known to be durable, its own blocks and those that it has pulled. A connection may be lost at each append: then the
 * block is in the log, or comes later, or never. A writer that gets no answer moves, to a place that may be an old one, but never to
 * a lower generation than its own. It may be interrupted, which ends the move. While a commit waits for the archive another
 * connection of its process may move the file.
 *
 * With TURNS a writer begins a transaction that writes with the turn alone, and gives it back once the service has the commit: the next
 * one builds upon that before it is durable. A keeper that hears nothing passes the turn on.
 *
 * What holds:
 *   - A commit that was told durable is in the archive, at its position. What is archived stays.
 *   - A commit that was told as failed is in no log of the present generation and never in the archive, now or later.
 *   - An acknowledged commit is in the log of each generation that its writer has come to, or the writer has told the loss.
 *   - A block stands at one position, upon the block that it was made upon.
 *   - The transaction that is read is the same one in the next generation, if that has it.
 *   - A reader of what is durable sees what the archive has, all up to there, and no more.
 *   - What a commit was made upon is durable before it is told so.
 *   - Where no turn is passed on, and one generation is there, no commit meets another writer's epoch.
 *
 * Under the name of a function of clients/c come its decisive lines, as in primary.pml.
 *
 * Left out: commits of several blocks; epochs within a generation, but for who has begun the last one, and whether another has since
 * (primary.pml has them); commits that nobody waits for; the keepers' own steps; an archive that goes back, and a name that is used again (identity.pml).
 */
#ifndef GENS
#define GENS 3
#endif
#ifndef LAST
#define LAST 3 /* position */
#endif
#ifndef WRITERS
#define WRITERS 2
#endif
#ifndef COMMITS
#define COMMITS 1 /* that a writer tries */
#endif

/* Outcomes. */
#define DONE 0
#define LOST 1
#define FENCED 2
#define IN_DOUBT 3
#define CONFLICT 4

/* The services, by generation; all is by position. A writer is 1, 2, ..; the keeper, or nobody, is 0. */
#define AT(g, p) content[(g) * (LAST + 1) + (p)]
byte content[(GENS + 1) * (LAST + 1)];
byte hard[GENS + 1], owner[GENS + 1], base[GENS + 1], shift[GENS + 1];
bit alive[GENS + 1], closed[GENS + 1];

/* The keepers: the present generation, where the ones before have ended, and the archive. */
byte now = 1, ends[GENS + 1];
byte archived, archive[LAST + 1];

/* Blocks, the first of which is one of the first writer. */
#define ME _pid
#define FIRST_BLOCK ((ME - 1) * COMMITS + 1)
#define BLOCKS (WRITERS * COMMITS)
byte place_of[BLOCKS + 1], made_upon[BLOCKS + 1];
bit failed[BLOCKS + 1], acknowledged[BLOCKS + 1];

/* Of a lost connection: a block that may still come, in the epoch of its writer. And whether nobody has begun an epoch since a writer
 * asked for the status. */
byte late_generation[WRITERS + 1], late_block[WRITERS + 1];
bit is_same_epoch[WRITERS + 1];
byte stopped; /* how many writers have ended */
#ifdef TURNS
byte turn_of; /* who has the turn; 0: nobody */
#endif

inline harden(g, b) {
    assert(place_of[b] == hard[g] + 1);
    assert(hard[g] < base[g] || hard[g] == 0 || AT(g, hard[g]) == made_upon[b]);
    assert(g != now || !failed[b]);
    hard[g]++;
    AT(g, hard[g]) = b
}

inline keep_next() {
#ifdef KEEPS_THE_NEWEST_FIRST
    archived = hard[now];
#else
    archived++;
#endif
    assert(!failed[AT(now, archived)]);
    archive[archived] = AT(now, archived)
}

/* Nothing of an epoch comes once another has begun. */
inline begin_epoch(g, w) {
    owner[g] = w;
    i = 1;
    do
    :: i <= WRITERS ->
       is_same_epoch[i] = is_same_epoch[i] && i == w;
       if
       :: late_generation[i] == g -> late_generation[i] = 0; late_block[i] = 0
       :: else
       fi;
       i++
    :: else -> break
    od;
    i = 0
}

active proctype Keepers() {
    byte i;
    alive[1] = 1;
end:
    do
    :: d_step { alive[now] && hard[now] > archived -> keep_next() }
    /* A planned succession. Of the state at its base there is an image, in one block. */
    :: d_step { now < GENS && alive[now] && hard[now] > 0 ->
          closed[now] = 1;
          begin_epoch(now, 0);
          do
          :: archived < hard[now] -> keep_next()
          :: else -> break
          od;
          ends[now] = archived;
          now++;
          alive[now] = 1; hard[now] = archived; base[now] = archived; shift[now] = archived - 1;
          AT(now, archived) = archive[archived] }
    /* A takeover. What the archive has from the base on is there. */
    :: d_step { now < GENS ->
          ends[now] = archived;
          now++;
          alive[now] = 1; hard[now] = archived; base[now] = base[now - 1]; shift[now] = shift[now - 1];
          i = 1;
          do
          :: i <= archived ->
             AT(now, i) = (i < base[now] -> 0 : archive[i]);
             i++
          :: else -> break
          od;
          i = 0 }
    :: d_step { alive[1] -> alive[1] = 0; begin_epoch(1, 0) }
#if GENS > 2
    :: d_step { alive[2] -> alive[2] = 0; begin_epoch(2, 0) }
#endif
#ifdef TURNS
#ifndef NO_LOSS
    :: turn_of != 0 -> turn_of = 0
#endif
#endif
    :: stopped == WRITERS -> break
    od
}

/* ---- Positions ---- */

// pagelog_move.c: enter
                    // ..
                    // pagelog_blocks_shift(file->blocks, named->place.shift - place->shift);
                    // ..
                    // named->place = *place;
                    // file->source.shift = place->shift;
                    // ..
                    // pagelog_go(file, ARRIVING);
                    // ..
                    // pagelog_become_follower(file);
                    // ..
inline enter(p) {
#ifdef FORGETS_THE_TAIL
    first = next;
#endif
    gen = p; is_between = 1;
    is_writer = 0
}

/* The position of the transaction that is read, and what is kept of it. */
#ifdef FORGETS_THE_SHIFT
#define READ (mark + shift[gen])
#define KEPT(p) ((p) - shift[gen])
#else
#define READ mark
#define KEPT(p) (p)
#endif
#define IS_READABLE(g, p) ((p) > 0 && (p) <= hard[g] && ((p) >= base[g] || shift[g] == 0))

/* ---- The tail: blocks at positions from `first` on, and before `next` ---- */

#define IS_EMPTY (first == next)

// pagelog_tail.c: pagelog_tail_add
                    // if (!is_at(position, tail->next))
                    // tail->next = position;
                    // forget(tail);
                    // ..
                    // tail->next = next_of(tail->next);
                    // return true;
inline tail_add(p, b) {
    if
    :: p != next -> first = p
    :: else
    fi;
    tail[p] = b; next = p + 1
}

inline tail_drop(p) { first = (p + 1 > first -> (p + 1 > next -> next : p + 1) : first) }

inline tail_cut(p) {
    if
    :: p < next -> next = (p > first -> p : first)
    :: else
    fi
}

/* ---- What is told ---- */

inline tell_failed(b) {
    assert(place_of[b] > archived || archive[place_of[b]] != b);
    assert(hard[now] < place_of[b] || AT(now, place_of[b]) != b);
    failed[b] = 1
}

inline tell_durable(b) {
    assert(archived >= place_of[b] && archive[place_of[b]] == b);
    assert(archive[place_of[b] - 1] == made_upon[b])
}

/* ---- A move ---- */

// pagelog_settle.c: pagelog_give_up_transaction
                    // pagelog_cache_clear(file->cache);
                    // if (file->reading != OVER) pagelog_have(file, GONE);
                    // file->given_up++;
// pagelog_settle.c: lose_to
                    // ..
                    // bool was_told = !is_before(named->own, position);
                    // pagelog_tail_cut(&named->tail, position);
                    // named->durable = lower_of(named->durable, last_before(position));
                    // named->settled = named->place;
                    // pagelog_go(file, HERE);
                    // named->told = lower_of(named->told, last_before(position));
                    // pagelog_become_follower(file);
                    // pagelog_give_up_transaction(file);
                    // pagelog_begin_session(file);
                    // if (!was_told)
                    // ..
                    // named->own = last_before(position);
                    // ..
                    // pagelog_have(file, OVER);
                    // ..
inline lose_from(p, told_as) {
    is_over = is_over || p <= own;
    tail_cut(p);
    safe = (safe >= p -> p - 1 : safe);
    settled = gen; is_between = 0;
    told = (told >= p -> p - 1 : told);
    is_writer = 0; is_gone = 1;
    i = FIRST_BLOCK;
    do
    :: i < FIRST_BLOCK + COMMITS ->
       if
       :: acknowledged[i] && place_of[i] >= p ->
          acknowledged[i] = 0;
          if
          :: told_as == FENCED -> tell_failed(i)
          :: else
          fi
       :: else
       fi;
       i++
    :: else -> break
    od;
    i = 0;
    own = (p <= own -> p - 1 : own);
    outcome = told_as
}

// pagelog_settle.c: pagelog_learn_end
                    // ..
                    // struct pagelog_position last = is_empty ? named->own : last_before(named->tail.next);
                    // if (is_settled_here(named) || is_none(last)) return PAGELOG_DONE;
                    // enum pagelog_outcome outcome = pagelog_fate_of(named->keepers, named->place.lines, &named->settled, last, &fate);
                    // ..
                    // bool is_lost = is_before(fate.end, named->durable) || (is_empty && fate.is_over && is_before(fate.end, last));
                    // if (is_lost) fate.loss = PAGELOG_SUPERSEDED;
                    // ..
                    // struct pagelog_position told = lower_of(fate.end, named->told);
                    // named->durable = higher_of(named->durable, told);
                    // pagelog_tail_drop(&named->tail, told);
                    // ..
/* This archive never goes back, so nothing that was durable is lost. A planted fault is to be found by what its user meets. */
#ifdef PLANTED
#define IS_LOST false
#else
#define IS_LOST (ends[settled] < safe || (IS_EMPTY && ends[settled] < own))
#endif
inline learn_end() {
    if
    :: settled != gen && (IS_EMPTY -> own : next - 1) > 0 ->
       assert(settled < now);
       assert(!IS_LOST);
       i = (ends[settled] < told -> ends[settled] : told);
       safe = (i > safe -> i : safe);
       tail_drop(i);
       i = 0
    :: else
    fi
}

/* The first position of the tail that the log lacks or has another block at. */
// pagelog_settle.c: compare_with_base
                    // ..
                    // return !is_none(own.position) && pagelog_is_same_mark(&own, &found) ? PAGELOG_DONE : PAGELOG_IN_DOUBT;
// pagelog_settle.c: compare_tail
                    // ..
                    // *differs = first;
                    // if (is_before(base, first) || named->place.shift == 0) outcome = compare(file, first, hard, differs);
                    // if (outcome != PAGELOG_DONE || is_before(base, *differs)) return outcome;
                    // outcome = compare_with_base(file);
                    // return outcome == PAGELOG_DONE ? compare(file, next_of(base), hard, differs) : outcome;
inline compare(p) {
    differs = p;
    do
    :: differs < next && differs <= log_end && AT(gen, differs) == tail[differs] -> differs++
    :: else -> break
    od
}

inline compare_tail() {
#ifdef TAKES_IMAGES_FOR_BLOCKS
    compare(first);
#else
    differs = first;
    if
    :: first > base[gen] || shift[gen] == 0 -> compare(first)
    :: else
    fi;
    if
    :: differs > base[gen]
    :: differs <= base[gen] && base[gen] < next && tail[base[gen]] == AT(gen, base[gen]) -> n = base[gen] + 1; compare(n); n = 0
    :: differs <= base[gen] && !(base[gen] < next && tail[base[gen]] == AT(gen, base[gen])) -> outcome = IN_DOUBT
    fi
#endif
}

// pagelog_settle.c: send_rest
                    // ..
                    // named->is_sent_again = true;
                    // ..
                    // if (outcome == PAGELOG_DONE) outcome = pagelog_append(file->log, blocks, file->options.written);
                    // ..
#ifdef SENDS_AGAIN_ANYWHERE
#define HAS_REST (outcome == DONE && alive[gen] && owner[gen] == ME)
#define NEXT_ONE tail[next - 1]
#else
#define HAS_REST (outcome == DONE && alive[gen] && owner[gen] == ME && hard[gen] < next - 1)
#define NEXT_ONE tail[hard[gen] + 1]
#endif
inline send_one() {
    is_sent_again = 1;
    n = NEXT_ONE;
    harden(gen, n);
    n = 0
}

inline send_all() {
    do
    :: hard[gen] < next - 1 -> send_one()
    :: else -> break
    od
}

/* What was acknowledged is in the log, but for what can be read there no more. */
inline look_after_own() {
    i = FIRST_BLOCK;
    do
    :: i < FIRST_BLOCK + COMMITS ->
       assert(!acknowledged[i] || !alive[gen] || (place_of[i] < base[gen] && archive[place_of[i]] == i)
              || (hard[gen] >= place_of[i] && AT(gen, place_of[i]) == i));
       i++
    :: else -> break
    od;
    i = 0
}

// pagelog_settle.c: pagelog_find_transaction
                    // ..
                    // bool is_below = is_before(file->mark.position, named->place.base) && named->place.shift != 0;
                    // bool is_none_here = is_none(lsn_of(file, file->mark.position)) || is_below;
                    // if (is_none_here || is_before(hard, file->mark.position))
                    // pagelog_give_up_transaction(file);
                    // return PAGELOG_DONE;
                    // enum pagelog_outcome outcome = mark_at(file, file->mark.position, &found);
                    // if (outcome == PAGELOG_DONE && !pagelog_is_same_mark(&found, &file->mark)) pagelog_give_up_transaction(file);
                    // return outcome;
inline find_transaction() {
    if
    :: is_gone || read == 0
    :: else ->
       is_gone = !(mark > 0 && IS_READABLE(gen, READ) && AT(gen, READ) == read);
       assert(!is_gone || !IS_READABLE(gen, place_of[read]) || AT(gen, place_of[read]) != read)
    fi
}

// pagelog_settle.c: send_again
                    // ..
                    // pagelog_take_over(file->log, options->operator_principal, options->operator_token, status->epoch);
                    // if (outcome == PAGELOG_DONE && !is_at(end_of(file), hard_of(file, status))) outcome = PAGELOG_LOST;
                    // if (outcome == PAGELOG_DONE) outcome = send_rest(file);
                    // if (outcome != PAGELOG_DONE) return outcome;
                    // if (!is_writer(file)) pagelog_stand(file, WRITING);
                    // return PAGELOG_DONE;
#ifdef SENDS_AGAIN_ANYWHERE
#define MAY_TAKE_OVER (alive[gen] && !closed[gen])
#define IS_STILL_THE_END true
#else
#define MAY_TAKE_OVER (alive[gen] && !closed[gen] && is_same_epoch[ME])
#define IS_STILL_THE_END (hard[gen] == log_end)
#endif
inline take_over() {
    begin_epoch(gen, ME);
    outcome = (IS_STILL_THE_END -> DONE : LOST)
}

// pagelog_settle.c: pagelog_settle_tail
                    // ..
                    // if (pagelog_tail_is_empty(&named->tail)) return PAGELOG_DONE;
                    // ..
                    // enum pagelog_outcome outcome = compare_tail(file, hard, &differs);
                    // if (outcome == PAGELOG_IN_DOUBT) return lose_from(file, differs, outcome);
                    // if (outcome != PAGELOG_DONE || is_at(differs, named->tail.next)) return outcome;
                    // return is_before(differs, next) ? lose_from(file, differs, PAGELOG_FENCED) : send_again(file, status);
inline settle_tail() {
    if
    :: IS_EMPTY
    :: else ->
       assert(log_end + 1 >= first);
       compare_tail();
       if
       :: outcome == IN_DOUBT -> lose_from(differs, IN_DOUBT)
       :: outcome == DONE && differs < next && differs <= log_end -> lose_from(differs, FENCED)
       :: outcome == DONE && differs < next && differs > log_end -> lacks = 1
       :: else
       fi;
       differs = 0
    fi
}

// pagelog_move.c: go_on
                    // ..
                    // enum pagelog_outcome outcome = pagelog_status(file->log, PAGELOG_SECONDARY, &status);
                    // ..
                    // if (outcome == PAGELOG_DONE) outcome = pagelog_learn_end(file);
                    // if (outcome == PAGELOG_DONE) outcome = pagelog_settle_tail(file, &status);
                    // if (outcome != PAGELOG_DONE) return outcome;
                    // named->settled = named->place;
                    // ..
                    // outcome = pagelog_find_transaction(file, end_of(file));
                    // if (outcome == PAGELOG_DONE) pagelog_go(file, HERE);
                    // return outcome;
inline arrive() {
    settled = gen;
    find_transaction();
    is_between = 0;
    look_after_own()
}

/* One step up to where something has to be sent: what is in a log does not change. */
inline look() {
    log_end = hard[gen];
    learn_end();
    settle_tail();
    is_same_epoch[ME] = lacks;
    log_end = (lacks -> log_end : 0);
    if
    :: outcome == DONE && !lacks -> arrive()
    :: else
    fi
}

inline send_again() {
    if
    :: d_step { MAY_TAKE_OVER -> take_over() }
    :: d_step { !MAY_TAKE_OVER -> outcome = LOST }
    fi;
    if
    :: d_step { HAS_REST -> send_all(); arrive(); is_writer = 1 }
#ifndef NO_LOSS
    :: d_step { HAS_REST -> send_all(); settled = gen; outcome = LOST } /* and no more is heard of it */
    :: d_step { HAS_REST -> send_one(); outcome = LOST }
#endif
    :: d_step { !HAS_REST -> outcome = LOST }
    fi;
    lacks = 0; log_end = 0; is_same_epoch[ME] = 0
}

// pagelog_move.c: try_to_move
                    // ..
                    // uint64_t least = named->place.generation;
                    // ..
                    // enum pagelog_outcome outcome = pagelog_where_later(named->keepers, least, least + is_later, &place);
                    // ..
                    // bool is_other = named->where == NOWHERE || place.generation > least || (is_superseded(named) && !is_same);
                    // ..
                    // if (is_other) outcome = enter(file, &place);
                    // return outcome == PAGELOG_DONE ? go_on(file) : outcome;
#ifdef GOES_BACK
#define IS_A_PLACE(p) ((p) <= now && alive[p])
#else
#define IS_A_PLACE(p) ((p) <= now && (p) >= gen)
#endif
#define GOES(p) \
    :: d_step { IS_A_PLACE(p) && gen != p -> enter(p); outcome = LOST } \
    :: d_step { IS_A_PLACE(p) && gen != p && alive[p] -> enter(p); outcome = DONE; look() }

inline try_to_move() {
    if
    GOES(1)
    GOES(2)
#if GENS > 2
    GOES(3)
#endif
    :: d_step { gen > 0 && alive[gen] -> outcome = DONE; look() } /* it stays */
    fi;
    if
    :: lacks -> send_again()
    :: !lacks
    fi
}

// pagelog_move.c: may_be_there
                    // return named->is_sent_again && !pagelog_tail_is_empty(&named->tail) && is_before(next_of(named->told), named->tail.next);
// pagelog_move.c: give_up_move
                    // ..
                    // return pagelog_file_fail(file, may_be_there(file->source.named) ? PAGELOG_IN_DOUBT : leaving->cause, why);
// pagelog_move.c: move
                    // ..
                    // file->source.named->is_sent_again = false;
                    // for (;;)
                    // bool is_over = leaving.is_over && file->source.named->place.generation == leaving.generation;
                    // enum pagelog_outcome outcome = try_to_move(file, is_over);
                    // if (outcome == PAGELOG_DONE || !is_passing(file, outcome)) return outcome;
                    // ..
                    // if (!pagelog_file_may_wait(file, &patience)) return give_up_move(file, &leaving);
#ifdef GIVES_UP_AS_LOST
#define MAY_BE_THERE false
#else
#define MAY_BE_THERE (is_sent_again && !IS_EMPTY && next - 1 > told)
#endif
inline move(why) {
    is_sent_again = 0;
    cause = why;
    do
    :: try_to_move();
       if
       :: outcome == LOST
       :: outcome != LOST -> break
       fi
#ifndef NO_LOSS
    :: gen > 0 -> outcome = (MAY_BE_THERE -> IN_DOUBT : cause); break /* no longer */
#endif
    od;
    is_sent_again = 0;
    cause = 0
}

/* ---- A writer ---- */

/* What the keepers say of a generation: how far it is archived. */
#define IS_TOLD(g) ((g) < now -> ends[g] : archived)

// pagelog_move.c: pagelog_arrive
                    // ..
                    // return is_between(file->source.named) ? pagelog_move(file, PAGELOG_LOST) : PAGELOG_DONE;
#ifdef READS_ON_BEFORE_IT_HAS_LOOKED
#define HAS_ARRIVED true
#else
#define HAS_ARRIVED (!is_between)
#endif

/* It pulls what others have committed, and holds it. */
// pagelog_durable.c: hold
                    // ..
                    // if (!pagelog_tail_add(&named->tail, position, block, length)) return false;
                    // named->told = position;
                    // return true;
// pagelog_durable.c: pagelog_hold_pulled
                    // ..
                    // bool is_held = !pagelog_tail_is_empty(tail) && is_before(now, tail->next);
                    // bool is_good = is_held || hold(
                    // ..
inline follow() {
    assert(is_gone || read == 0 || AT(gen, READ) == read);
    i = (is_gone || mark == 0 -> (IS_TOLD(gen) < hard[gen] -> IS_TOLD(gen) : hard[gen]) : READ);
    do
    :: i < hard[gen] ->
       i++;
       if
       :: IS_EMPTY || i >= next -> n = AT(gen, i); tail_add(i, n); n = 0; told = i
       :: else
       fi
    :: else -> break
    od;
    i = 0;
    is_writer = is_writer && owner[gen] == ME && hard[gen] == READ;
    mark = KEPT(hard[gen]); read = AT(gen, hard[gen]);
    is_gone = 0; is_over = 0
}

/* It looks at the end once more when it has begun the epoch. */
// pagelog_named.c: become_writer
                    // ..
                    // if (outcome == PAGELOG_DONE) outcome = compare_newest(file, PAGELOG_SECONDARY, hard_of(file, &status));
                    // bool is_let_in = outcome == PAGELOG_DONE;
                    // if (outcome == PAGELOG_DONE)
                    // outcome = pagelog_take_over(file->log, options->operator_principal, options->operator_token, 0);
                    // ..
                    // if (outcome == PAGELOG_DONE) outcome = compare_newest(file, PAGELOG_PRIMARY, end_of(file));
                    // if (outcome != PAGELOG_DONE) return outcome;
                    // ..
#define MAY_BECOME_WRITER (alive[gen] && !closed[gen] && hard[gen] == READ)

// pagelog_named.c: take_hand_over
                    // ..
                    // pagelog_become_follower(file);
                    // struct pagelog_position from = begin_of_pull(file, file->next);
                    // enum pagelog_outcome outcome = pagelog_hand_over(
                    // ..
                    // if (outcome == PAGELOG_DONE) outcome = pagelog_take_pulled(file, &pulled);
                    // if (outcome != PAGELOG_DONE || !is_at(file->mark.position, end_of(file))) return false;
                    // pagelog_stand(file, WRITING);
                    // ..
#ifdef TAKES_OVER_UNREAD
#define READS_AT_THE_HAND_OVER skip
#else
#define READS_AT_THE_HAND_OVER follow()
#endif

// pagelog_vfs_file.c: file_sync
                    // ..
                    // if (code == SQLITE_OK) give_turn_before_wait(connection);
                    // if (code == SQLITE_OK) code = pagelog_wait_until_durable(connection);
                    // ..
#ifdef TURNS
#define HAS_TURN (turn_of == ME)
#define GIVE_TURN turn_of = (turn_of == ME -> 0 : turn_of)
#else
#define HAS_TURN true
#define GIVE_TURN skip
#endif
#ifdef GIVES_THE_TURN_BEFORE_THE_REPORT
#define GIVE_TURN_EARLY GIVE_TURN
#else
#define GIVE_TURN_EARLY skip
#endif

/* The block takes its place in the tail before it is sent. The keeper is told as soon as it is, and may have it archived before it is
 * acknowledged: it archives what is in the log, whoever knows that. */
// pagelog_named.c: append
                    // enum pagelog_outcome outcome = pagelog_hold_blocks(file);
                    // return outcome == PAGELOG_DONE ? pagelog_end_append(file, pagelog_append_here(file)) : outcome;
// pagelog_mark.c: pagelog_append_here
                    // if (file->tell_sent && pagelog_append_unwaited(file->log, file->blocks, file->options.written))
                    //     file->tell_sent(file->told_sent);
                    // return pagelog_append(file->log, file->blocks, file->options.written);
inline append() {
    if
    :: d_step { alive[gen] && owner[gen] == ME -> harden(gen, made) }
#ifndef NO_LOSS
    :: d_step { alive[gen] && owner[gen] == ME -> harden(gen, made); outcome = IN_DOUBT }
    :: d_step { alive[gen] && owner[gen] == ME && late_block[ME] == 0 -> late_generation[ME] = gen; late_block[ME] = made; outcome = IN_DOUBT }
#endif
    :: !alive[gen] -> outcome = IN_DOUBT
    :: alive[gen] && owner[gen] != ME ->
#ifdef TURNS
#ifdef NO_LOSS
       assert(gen > 1 || owner[gen] == 0);
#endif
#endif
       outcome = FENCED
    fi
}

// pagelog_durable.c: let_go
                    // pagelog_tail_cut(&file->source.named->tail, next_of(file->source.named->told));
                    // pagelog_begin_session(file);
                    // return outcome;
// pagelog_durable.c: pagelog_end_append
                    // ..
                    // if (outcome != PAGELOG_DONE && pagelog_may_move(file, outcome)) outcome = pagelog_move(file, outcome);
                    // if (outcome != PAGELOG_DONE) return let_go(file, outcome);
                    // named->settled = named->place;
                    // if (!pagelog_tail_is_empty(&named->tail)) named->told = named->own = last_before(named->tail.next);
                    // return PAGELOG_DONE;
// pagelog_move.c: pagelog_move
                    // bool is_kept = cause == PAGELOG_IN_DOUBT || cause == PAGELOG_AUDIT_FULL || cause == PAGELOG_NO_MEMORY;
                    // return move(file, (struct leaving){.cause = is_kept ? cause : PAGELOG_LOST});
inline end_append() {
    if
    :: outcome == IN_DOUBT -> move(IN_DOUBT)
    :: outcome != DONE && outcome != IN_DOUBT -> move(LOST)
    :: outcome == DONE
    fi;
    d_step {
        if
        :: outcome == DONE ->
           settled = gen;
           told = (IS_EMPTY -> told : next - 1); own = (IS_EMPTY -> own : next - 1);
           acknowledged[made] = 1;
           mark = KEPT(place_of[made]); read = made; is_gone = 0
        :: outcome != DONE ->
#ifndef KEEPS_WHAT_FAILED
           n = told + 1; tail_cut(n); n = 0;
#endif
           is_writer = 0;
           if
           :: outcome == FENCED || outcome == LOST -> tell_failed(made)
           :: outcome == IN_DOUBT
           fi;
           made = 0
        fi
    }
}

/* The tail is full, and the archive stands still: nothing is sent. */
// pagelog_durable.c: pagelog_hold_blocks
                    // ..
                    // return outcome == PAGELOG_DONE ? outcome : let_go(file, outcome);
inline hold_nothing() {
#ifdef MOVES_WHAT_WAS_NOT_HELD
    n = told + 1; tail_cut(n); n = 0; outcome = LOST;
    end_append()
#else
    d_step { n = told + 1; tail_cut(n); n = 0; is_writer = 0; tell_failed(made); made = 0 }
#endif
}

/* It waits for the archive: asks the keepers of its generation, and then takes the answer, wherever it is by then. */
// pagelog_durable.c: pagelog_file_is_durable
                    // ..
                    // if (awaited->position <= named->durable.number) return true;
                    // awaited->place = named->place;
                    // ..
// pagelog_durable.c: note_durable
                    // ..
                    // if (!is_settled_here(named)) return;
                    // named->durable = higher_of(named->durable, position);
                    // pagelog_tail_drop(&named->tail, lower_of(position, named->told));
// pagelog_durable.c: pagelog_note_fate
                    // bool is_here = strcmp(place->run, file->source.named->place.run) == 0;
                    // ..
                    // if (is_here) note_durable(file, fate->end);
                    // bool is_cut = is_here && fate->is_over && is_before(fate->end, position);
                    // return is_cut ? pagelog_move_on(file) : PAGELOG_DONE;
#ifdef TAKES_ANY_ANSWER
#define IS_SETTLED true
#define IS_HERE true
#define ANSWER archived
#else
#define IS_HERE (asked == gen)
#define ANSWER IS_TOLD(asked)
#endif
#ifdef TAKES_AN_ANSWER_UNSETTLED
#define IS_SETTLED true
#endif
#ifndef IS_SETTLED
#define IS_SETTLED (settled == gen)
#endif
inline note_durable(p) {
    if
    :: IS_SETTLED -> safe = (p > safe -> p : safe); n = (p < told -> p : told); tail_drop(n)
    :: else
    fi
}

// pagelog_durable.c: take_of_writer
                    // ..
                    // if (is_before(named->told, position) && is_before(named->durable, position))
                    // return pagelog_file_fail(file, PAGELOG_CONFLICT
                    // ..
                    // if (outcome == PAGELOG_DONE) return pagelog_note_fate(file, &awaited->place, fate, position);
                    // ..
inline wait_until_durable() {
    do
    :: d_step { made != 0 && place_of[made] <= safe -> tell_durable(made); made = 0; asked = 0 }
       break
#ifdef TOLD_AT_ONCE
    :: d_step { made != 0 -> tell_durable(made); made = 0; asked = 0 }
       break
#endif
#ifdef TOLD_WITH_WHAT_IT_WAS_MADE_UPON
    :: d_step { made != 0 && place_of[made] <= safe + 1 -> tell_durable(made); made = 0; asked = 0 }
       break
#endif
    :: made != 0 && place_of[made] > safe && asked == 0 -> asked = gen
    :: d_step { asked != 0 && told < place_of[made] && safe < place_of[made] -> outcome = CONFLICT; made = 0; asked = 0 }
       break
    :: d_step { asked != 0 && (told >= place_of[made] || safe >= place_of[made]) && (asked < now || archived >= place_of[made]) ->
          if
          :: IS_HERE -> m = ANSWER; note_durable(m); m = 0; n = 0; is_over_there = (asked < now && ends[asked] < place_of[made])
          :: else
          fi;
          asked = 0 }
       if
       :: is_over_there -> is_over_there = 0; move(LOST)
       :: !is_over_there
       fi;
       if
       :: outcome == FENCED || outcome == IN_DOUBT || outcome == LOST -> made = 0; break
       :: outcome == DONE
       fi
    /* Another connection of the process reads, and its service does not answer, or the next generation is known. */
    :: made != 0 && gen < now && !is_over -> move(LOST);
       outcome = DONE
#ifndef NO_LOSS
    :: made != 0 -> made = 0; asked = 0; break /* it is interrupted, and in doubt */
#endif
    od
}

active [WRITERS] proctype Writer() {
    byte gen, mark, read, first, next, settled, told, own, safe, made, tried, asked, log_end, differs, outcome, cause, i, n, m;
    byte tail[LAST + 2];
    bit is_writer, lacks, is_between, is_gone, is_over, is_sent_again, is_over_there;
    next = 1; first = 1;
end:
    do
    /* It opens, or a begin moves. */
    :: gen == 0 && alive[now] || gen != 0 && (gen < now || is_between) -> move(LOST); is_over = 0
    /* A begin, where the service answers. A move that was cut off is ended before. A log that was closed makes it ask where the database is. */
    :: d_step { gen != 0 && alive[gen] && HAS_ARRIVED && (!closed[gen] || is_gone) && (is_gone || is_over || read == 0 || hard[gen] != READ) -> follow() }
#ifdef TURNS
    :: d_step { gen != 0 && turn_of == 0 -> turn_of = ME }
    /* The one before has said its epoch: what it wrote is read by the message that begins the next one. */
    :: d_step { gen != 0 && alive[gen] && !closed[gen] && HAS_ARRIVED && !is_gone && !is_over && HAS_TURN && hard[gen] != READ ->
          begin_epoch(gen, ME);
          READS_AT_THE_HAND_OVER;
          is_writer = 1 }
#endif
    /* A commit. */
    :: d_step { gen != 0 && HAS_ARRIVED && !is_gone && !is_over && HAS_TURN && (is_writer || MAY_BECOME_WRITER) && READ < LAST ->
          if
          :: !is_writer -> begin_epoch(gen, ME); is_writer = 1
          :: is_writer
          fi;
          made = FIRST_BLOCK + tried; tried++;
          n = READ + 1; place_of[made] = n; made_upon[made] = read;
          tail_add(n, made);
          GIVE_TURN_EARLY;
          n = 0; outcome = DONE }
       if
       :: append(); end_append()
#ifdef LIMIT
       :: hold_nothing()
#endif
       fi;
       GIVE_TURN;
       if
       :: made != 0 -> wait_until_durable()
       :: made == 0
       fi;
       outcome = DONE;
       if
       :: tried < COMMITS
       :: tried == COMMITS -> break
       fi
    od;
    atomic { /* it ends */
        i = 0;
        do
        :: i < LAST + 2 -> tail[i] = 0; i++
        :: else -> break
        od;
        i = FIRST_BLOCK;
        do
        :: i < FIRST_BLOCK + COMMITS -> acknowledged[i] = 0; i++
        :: else -> break
        od;
        gen = 0; mark = 0; read = 0; first = 0; next = 0; settled = 0; told = 0; own = 0; safe = 0; made = 0; tried = 0; asked = 0;
        log_end = 0; differs = 0; cause = 0; i = 0; n = 0; m = 0;
        is_writer = 0; is_between = 0; is_gone = 0; is_over = 0; stopped++;
        GIVE_TURN
    }
}

/* What is on its way. */
#define COMES(w) \
    :: d_step { late_block[w] != 0 -> \
          if \
          :: alive[late_generation[w]] && owner[late_generation[w]] == w && hard[late_generation[w]] == place_of[late_block[w]] - 1 -> \
             harden(late_generation[w], late_block[w]) \
          :: else \
          fi; \
          late_generation[w] = 0; late_block[w] = 0 }

active proctype Late() {
end:
    do
    COMES(1)
#if WRITERS > 1
    COMES(2)
#endif
    :: stopped == WRITERS -> break
    od
}

/* A reader of what is durable: it asks the keepers where the database is, and up to where that is archived. */
#ifdef READERS
// pagelog_durable.c: pagelog_glance
                    // ..
                    // if (place.generation > named->place.generation)
                    // return was_suspect && has_lost_run(file, place.lines, &fate) ? PAGELOG_DONE : pagelog_move_on(file);
                    // if (strcmp(place.run, named->place.run) != 0) return leave_if_lost(file);
                    // note_durable(file, place.archived);
                    // return file->options.durable_only && !file->options.at ? hurry(file) : PAGELOG_DONE;
// pagelog_named.c: limit
                    // ..
                    // return file->options.durable_only ? file->source.named->durable : no_limit;
#ifdef SEES_WHAT_IS_NOT_DURABLE
#define LIMIT LAST
#else
#define LIMIT safe
#endif
#define GLANCES(p) \
    :: d_step { (p) <= now && (p) >= gen -> gen = p; safe = (IS_TOLD(p) > safe -> IS_TOLD(p) : safe) }

active proctype Reader() {
    byte gen, safe, seen, i;
end:
    do
    GLANCES(1)
    GLANCES(2)
#if GENS > 2
    GLANCES(3)
#endif
#ifdef NOTES_WHAT_IS_ELSEWHERE
    :: d_step { gen != 0 && gen < now -> safe = (archived > safe -> archived : safe) }
#endif
    :: d_step { gen != 0 && alive[gen] ->
          seen = (hard[gen] < LIMIT -> hard[gen] : LIMIT);
          assert(seen <= archived);
          i = base[gen];
          do
          :: i <= seen -> assert(i == 0 || AT(gen, i) == archive[i]); i++
          :: else -> break
          od;
          i = 0; seen = 0 }
    :: stopped == WRITERS -> break
    od
}
#endif
