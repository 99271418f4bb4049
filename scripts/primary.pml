/*
 * What writers do against the rules of the service, in every interleaving of their requests: the epochs, appends and commits of
 * clients/c, and how a writer that has lost its connection learns what has become of a commit, as a model for the checker spin.
 * scripts/waiting runs it. It is about safety, and says nothing of waiting.
 *
 * The service is one database by docs/RULES.md, and each of its requests one step. A writer is one object with one session. It
 * opens, commits, and checks its epoch as often as it likes; it takes over, or joins the epoch. One that is fenced stops, and so
 * does one that gets no answer when it opens; one that is killed is one that never goes on. A connection may be lost at each
 * request. Then no reply is read, and what was sent may still come: in its order, at any time, or never.
 *
 * What holds:
 *   - A commit that was reported done is in the log at its LSN, with each of its blocks. No step changes what is in the log. So two
 *     writers never have done for one LSN, and what an old primary sends after a failover is never done.
 *   - A commit that was reported as failed is not in the log, and never gets into it. What is in doubt may be there or not.
 *   - A commit is built where the log is known to end, upon what was read up to there, its own last commit included.
 *   - Of a commit of two blocks the second one is right after the first, and only a repair is after a first one without it.
 *     If another's may be between them (SHORT_WHERE_JOINED), a writer that has seen that undoes its own before it goes on.
 *   - A failover that names the epoch that it ends never ends one of another principal.
 *   - No request is made in an epoch that has not begun.
 *
 * Under the name of a function of clients/c come its decisive lines, conditions and calls, in their order; two dots stand for what
 * is left out. scripts/waiting compares these lines with the source, so that a change of such a function needs a look at
 * this model. They are not quoted line by line, as the model has no bytes, memory or time.
 *
 * Left out: commits of more than two blocks; a repair of two, and a second one of the same writer; more than one commit on its way, and
 * any of the second writer; six copies, and a third one, which is never written; an object that does not know the zone: so a block that
 * both copies have taken may be looked for or not. NoMemory, but for one that ends a commit before it is sent; AuditFull; rows of the
 * table, but for a pull's; a service that was restarted; the follower, since it writes nothing; two blocks that have the same bytes.
 * Of several lost connections in one epoch the requests come once.
 *
 * Known, and not so:
 *   - Two writers in one epoch may mix commits of two blocks, as docs/CLIENT.md says. So where writers of one principal join, they have
 *     one block each, or with SHORT_WHERE_JOINED the one that joins has, and the other one has two.
 *   - Another reader of the end of a commit that is there in part takes it for a whole one, until its writer has undone it.
 */

#ifndef WRITERS
#define WRITERS 2
#endif
#ifndef EPOCHS
#define EPOCHS 4 /* the last one, in which the service allows no failover */
#endif
#ifndef LSNS
#define LSNS 2 /* a writer stops if the log has as many blocks */
#endif
#ifndef COMMITS
#define COMMITS 2 /* how many a writer tries */
#endif
#ifndef PARTS
#define PARTS 1 /* how many blocks a commit has, 1 or 2; the last one has the end mark */
#endif
#define TRIES (COMMITS + PARTS - 1) /* of a writer: with two blocks it may repair once, and stops if it has to repair more */
#define COPIES 2                    /* to how many copies a block is written: a quorum */

#define BIT(place) (1 << (place))
#define ALL (BIT(COPIES) - 1)
#define COUNT(bits) (((bits) & 1) + ((bits) >> 1 & 1))

/* Replies: done, none since the connection is lost, and the rows that deny. */
#define ALLOWED 0
#define NONE 1
#define A2 2
#define A4 3
#define C2 4
#define C4 5
#define C6 6
#define C9 7

/* Outcomes; the last one within a call alone. */
#define DONE 0
#define LOST 1
#define FENCED 2
#define IN_DOUBT 3
#define CONFLICT 4
#define DENIED 5
#define GOES_ON 6

/* The service. */

byte epoch = 1, primary, hard;
byte content[LSNS + 1]; /* of an LSN: a block, or 0 */
byte copies[LSNS + 1];  /* of an LSN above the end: the copies that hold it */

#ifdef ONE_PRINCIPAL
#define PRINCIPAL(w) 0
#else
#define PRINCIPAL(w) (w)
#endif
/* A block: the number of its commit, and whether it is the first or the second of two, or the only one. */
#define FIRST 0
#define SECOND 1
#define ONLY 2
#define A_BLOCK(commit, kind) (3 * (commit) + (kind))
#define COMMIT_OF(block) ((block) / 3)
#define KIND_OF(block) ((block) % 3)
#define HAS_MARK(block) (KIND_OF(block) != FIRST)
#define WRITER_OF(block) ((COMMIT_OF(block) - 1) / TRIES)

/* The requests of a lost connection that are on their way, of this epoch: those of an older one are denied. */
byte late_next[WRITERS];     /* the one that comes next, and the last one, which is a report */
byte late_report[WRITERS];
byte late_lsn[WRITERS];      /* of the last block; 0: none are */
byte late_block[WRITERS];    /* the first one */
byte late_failover[WRITERS]; /* 1: one is; 2: of an epoch that it takes for its own */

bit failed[WRITERS * TRIES + 1]; /* the commits of this epoch that were reported as failed */
byte stopped;                    /* how many writers have stopped */

/* Rows A2 to A4 for a primary. */
inline decide(w, e) {
    assert(e <= epoch);
    reply = (e < epoch -> A2 : (primary != PRINCIPAL(w) -> A4 : ALLOWED))
}

inline forget_late(w) {
    late_next[w] = 0; late_report[w] = 0; late_lsn[w] = 0; late_block[w] = 0
}

/* What is on its way to this LSN changes nothing any more. */
inline harden(n) {
    assert(content[n] != 0 && !(HAS_MARK(content[n]) && failed[COMMIT_OF(content[n])]));
#ifndef SHORT_WHERE_JOINED
    assert(KIND_OF(content[n]) != SECOND || content[n - 1] == content[n] - SECOND);
#endif
    assert(KIND_OF(content[n]) != FIRST || n == 1 || HAS_MARK(content[n - 1]));
    hard = n;
    copies[n] = 0;
    other = 0;
    do
    :: other < WRITERS && late_lsn[other] == n -> forget_late(other)
    :: other < WRITERS && late_lsn[other] != n -> other++
    :: else -> other = 0; break
    od
}

inline write(w, e, n, b, c) {
    decide(w, e);
    if
    :: reply == ALLOWED && n <= hard -> reply = C2
    :: reply == ALLOWED && n > hard && content[n] != 0 && content[n] != b -> reply = C4
    :: reply == ALLOWED && n > hard && (content[n] == 0 || content[n] == b) ->
       content[n] = b; copies[n] = copies[n] | BIT(c)
    :: else
    fi
}

inline report(w, e, n) {
    decide(w, e);
    at = hard + 1;
    do
    :: at <= n && copies[at] == ALL -> at++
    :: else -> break
    od;
    if
    :: reply == ALLOWED && at <= n -> reply = C6
    :: reply == ALLOWED && at > n && n > hard ->
       at = hard + 1;
       do
       :: at <= n -> harden(at); at++
       :: else -> break
       od
    :: else
    fi;
    at = 0
}

inline failover(w, e, names_its_own) {
    assert(e <= epoch);
    if
    :: e < epoch -> reply = A2
    :: e == EPOCHS -> reply = C9
    :: else ->
       assert(!(names_its_own) || primary == PRINCIPAL(w));
       at = hard + 1;
       do
       :: at <= LSNS && copies[at] == ALL -> harden(at); at++
       :: else -> break
       od;
       do
       :: at <= LSNS -> content[at] = 0; copies[at] = 0; at++
       :: else -> at = 0; break
       od;
       do
       :: at < WRITERS -> forget_late(at); late_failover[at] = 0; at++
       :: else -> at = 0; break
       od;
       do
       :: at <= WRITERS * TRIES -> failed[at] = 0; at++
       :: else -> break
       od;
       epoch++; primary = PRINCIPAL(w); reply = ALLOWED
    fi;
    at = 0
}

/* The append. */

/* The last block has the LSN `lsn`, and place 1; the one before it, if there is one, has place 0. Of the writes that at PLACE goes to a
 * copy of block PLACE / 2. */
#define COMMIT (_pid * TRIES + tried)
#ifdef SHORT_WHERE_JOINED
#define IS_ALONE (joins || is_repair)
#else
#define IS_ALONE (PARTS == 1 || is_repair)
#endif
#define SIZE (IS_ALONE -> 1 : PARTS) /* of the commit */
#define BLOCK_AT(place) (A_BLOCK(COMMIT, place) + IS_ALONE)
#define LSN_AT(place) (lsn + (place) - 1)
#define BITS(from, to) (BIT(COPIES * (to)) - BIT(COPIES * (from)))
#define GROUP BITS(first, last + 1) /* the writes of the group */
#define LEFT BITS(first, 2)         /* of all blocks that are not in the log yet */
#define IS_CUT (refused == NONE)

// pagelog_append.c: is_epoch_over
                    // return refused->kind == PAGELOG_REPLY_DENIED && refused->section == SECTION_A && refused->row == 2;
#define IS_EPOCH_OVER (refused == A2)

// pagelog_append.c: note
                    // ..
                    // if (outcome == PAGELOG_CONFLICT && is_row(refused, 2)) append->is_ahead = true;
                    // bool decides = is_epoch_over(refused) && !is_epoch_over(&append->refused);
                    // if (outcome != PAGELOG_DONE && (append->refusal == PAGELOG_DONE || decides)) {
                    // append->refusal = outcome; append->refused = *refused; }
                    // ..
inline note() {
    if
    :: reply == C2 -> is_ahead = true
    :: else
    fi;
    if
    :: reply != ALLOWED && (refused == ALLOWED || reply == A2) -> refused = reply
    :: else
    fi
}

// pagelog_append.c: receive_writes
                    // ..
                    // if (marks->done >> copy & 1) continue;
                    // enum pagelog_outcome outcome = receive(append, connected);
                    // if (connected) connected = note(append, outcome);
                    // if (outcome == PAGELOG_DONE) marks->done |= (uint8_t)(1u << copy);
                    // ..
                    // if (!connected && outcome != PAGELOG_DONE) marks->unsure |= (uint8_t)(1u << copy);
                    // ..
inline receive_write() {
    n = LSN_AT(next / COPIES); block = BLOCK_AT(next / COPIES); copy = next % COPIES;
    write(_pid, mine, n, block, copy);
    note();
    if
    :: reply == ALLOWED -> done = done | BIT(next)
    :: else
    fi;
    reply = ALLOWED; n = 0; block = 0; copy = 0
}

// pagelog_append.c: receive_report
                    // enum pagelog_outcome outcome = receive(append, connected);
                    // append->is_reported = outcome == PAGELOG_DONE;
                    // return connected && note(append, outcome);
inline receive_report() {
    n = LSN_AT(last);
    report(_pid, mine, n);
    note();
    is_reported = (reply == ALLOWED);
    reply = ALLOWED; n = 0
}

/* The connection is lost before the reply to the next request. */
inline cut() {
    unsure = unsure | (GROUP & ~done & ~(BIT(next) - 1));
    if
    :: refused == ALLOWED -> refused = NONE
    :: else
    fi;
#ifdef LOST_REPORT_IS_DONE
    is_reported = (next == COPIES * (last + 1));
#endif
    if
    :: mine == epoch && hard < LSN_AT(last) ->
       late_next[_pid] = (late_lsn[_pid] == lsn && late_next[_pid] < next -> late_next[_pid] : next);
       late_report[_pid] = (late_lsn[_pid] == lsn && late_report[_pid] > last -> late_report[_pid] : last);
       late_lsn[_pid] = lsn; late_block[_pid] = BLOCK_AT(0)
    :: else
    fi
}

/* DONE: it is there. CONFLICT: another is there, or the log ends before. LOST, DENIED: it could not be learned. */
// pagelog_append.c: look
                    // ..
                    // if (outcome != PAGELOG_DONE) return outcome;
                    // ..
                    // if (length != own_length || memcmp(block, own, length) != 0) return PAGELOG_CONFLICT;
                    // ..
                    // if (at == 0) return PAGELOG_CONFLICT;
                    // ..
#ifdef COMPARES_THE_LSN
#define IS_AT(place) (hard >= LSN_AT(place))
#else
#define IS_AT(place) (hard >= LSN_AT(place) && content[LSN_AT(place)] == BLOCK_AT(place))
#endif
inline look(are_there) {
    if
#ifndef NO_LOSS
    :: outcome = LOST
#endif
#ifdef NO_PULL
    :: outcome = DENIED
#endif
    :: outcome = (are_there -> DONE : CONFLICT)
    fi
}

#define WERE_SENT (ALL_COUNTED(done | unsure))
#define IS_COUNTED(place) (first <= (place) && LSN_AT(place) <= hard)
#define ALL_COUNTED(writes) ((!IS_COUNTED(0) || ((writes) & BITS(0, 1)) != 0) && (!IS_COUNTED(1) || ((writes) & BITS(1, 2)) != 0))
#define ARE_THERE ((!IS_COUNTED(0) || IS_AT(0)) && (!IS_COUNTED(1) || IS_AT(1)))

/* The same for a writer that may not pull, by the pages. The bytes of each block are its own, so that they say which blocks are there. */
// pagelog_append.c: look_at_pages
                    // ..
                    // if (outcome != PAGELOG_DONE) return outcome;
                    // if (!has_records(block, record.page, bytes)) return PAGELOG_CONFLICT; }
                    // return PAGELOG_DONE;
#if defined OWNS_ITS_EPOCH
#define ARE_FOUND_THERE (ARE_THERE || WERE_SENT && !joins)
#elif defined OWNS_WHAT_IT_NEVER_SENT
#define ARE_FOUND_THERE (ARE_THERE || !joins)
#else
#define ARE_FOUND_THERE ARE_THERE
#endif
inline look_as_primary() {
    assert(refused == NONE || refused == C2 || refused == C4);
    if
#ifndef NO_LOSS
    :: outcome = LOST
#endif
    :: outcome = (ARE_FOUND_THERE -> DONE : CONFLICT)
    fi
}

// pagelog_append.c: catch_up
                    // ..
                    // enum pagelog_outcome outcome = pagelog_status(append->log, PAGELOG_PRIMARY, &status);
                    // if (outcome != PAGELOG_DONE) return outcome;
                    // ..
                    // if (status.hard < next) return PAGELOG_DONE;
                    // ..
                    // outcome = look(append, append->first, count);
                    // if (outcome == PAGELOG_DENIED) outcome = look_as_primary(append, append->first, count);
                    // if (outcome == PAGELOG_DONE) advance(append, count);
                    // ..
inline catch_up() {
    if
#ifndef NO_LOSS
    :: reply = NONE
#endif
    :: decide(_pid, mine)
    fi;
    if
    :: reply != ALLOWED -> refused = reply; outcome = (reply == NONE -> LOST : FENCED)
    :: reply == ALLOWED && hard < LSN_AT(first) -> outcome = GOES_ON /* the rest may be asked again */
    :: reply == ALLOWED && hard >= LSN_AT(first) ->
       end = hard;
       look(ARE_THERE);
#ifdef NO_PULL
       if
       :: outcome == DENIED -> look_as_primary()
       :: outcome != DENIED
       fi;
#endif
       if
       :: outcome == LOST -> refused = NONE
       :: outcome == DONE || outcome == CONFLICT
       fi;
       first = (outcome == DONE -> (hard == LSN_AT(first) -> first + 1 : 2) : first)
    fi;
    reply = ALLOWED
}

// pagelog_append.c: give_up
                    // ..
                    // if (append->marks[i].done | append->marks[i].unsure) accepted = true;
                    // if (accepted) append->log->stuck = true;
                    // return pagelog_restore(append->log, outcome, &append->refused);
inline give_up(cause) {
    is_stuck = ((done | unsure) & LEFT) != 0;
    outcome = cause
}

// pagelog_append.c: copies_of_last
                    // ..
                    // return count_of(marks->done | marks->unsure);
#ifdef LOST_REPLIES_ARE_REFUSALS
#define COPIES_OF_LAST COUNT(done >> COPIES)
#else
#define COPIES_OF_LAST COUNT((done | unsure) >> COPIES)
#endif

// pagelog_append.c: conclude_after_epoch
                    // ..
                    // if (copies_of_last(append) < least_quorum(append)) return give_up(append, PAGELOG_FENCED);
                    // if (!are_done(append, left, most_quorum(append))) {
                    // outcome = look(append, append->count - 1, 1);
                    // if (outcome == PAGELOG_CONFLICT || append->log->is_restarted) return give_up(append, PAGELOG_FENCED);
                    // if (outcome == PAGELOG_DONE) outcome = look(append, append->first, left);
                    // if (outcome != PAGELOG_CONFLICT && are_done(append, left, append->log->zone.quorum))
                    // outcome = PAGELOG_DONE; }
                    // if (outcome != PAGELOG_DONE) return give_up(append, PAGELOG_IN_DOUBT);
                    // advance(append, left); return PAGELOG_DONE;
inline conclude_after_epoch() {
    if
    :: COPIES_OF_LAST < COPIES -> give_up(FENCED)
    :: COPIES_OF_LAST == COPIES && (done & LEFT) == LEFT -> outcome = DONE
    :: COPIES_OF_LAST == COPIES ->
       look(IS_AT(1));
       if
       :: outcome == CONFLICT -> give_up(FENCED)
       :: (outcome == LOST || outcome == DENIED) && (done & LEFT) == LEFT -> outcome = DONE
       :: (outcome == LOST || outcome == DENIED) && (done & LEFT) != LEFT -> give_up(IN_DOUBT)
       :: outcome == DONE -> assert(first == 1 || IS_AT(0)) /* so a look at the others says the same */
       fi
    fi
}

// pagelog_append.c: conclude
                    // ..
                    // if (is_epoch_over(&append->refused)) return conclude_after_epoch(append);
                    // ..
                    // return give_up(append, copies_of_last(append) < least_quorum(append) ? cause : PAGELOG_IN_DOUBT);
inline conclude() {
    if
    :: IS_EPOCH_OVER -> conclude_after_epoch()
#ifdef DOUBT_IS_LOST
    :: !IS_EPOCH_OVER -> give_up(outcome)
#else
    :: !IS_EPOCH_OVER && COPIES_OF_LAST < COPIES -> give_up(outcome)
    :: !IS_EPOCH_OVER && COPIES_OF_LAST == COPIES -> give_up(IN_DOUBT)
#endif
    fi
}

// pagelog_append.c: is_in_log
                    // return append->is_reported && are_done(append, count, 1);
#ifdef REPORT_IS_ENOUGH
#define IS_IN_LOG is_reported
#else
#define IS_IN_LOG (is_reported && (first > 0 || (done & BITS(0, 1)) != 0) && (last < 1 || (done & BITS(1, 2)) != 0))
#endif

/* What has become of a group: GOES_ON before it is looked for. */
// pagelog_append.c: run
                    // ..
                    // enum pagelog_outcome outcome = exchange_group(append, count);
                    // ..
                    // if (is_in_log(append, count)) { advance(append, count);
                    // ..
                    // if (append->log->socket < 0 && !is_epoch_over(&append->refused)) forget_answers(append);
                    // if (outcome == PAGELOG_LOST && pagelog_may_try_again(&patience)) {
                    // ..
                    // most = count > 1 ? count / 2 : 1;
                    // outcome = taken_from_log(append, catch_up(append)); } else if (append->is_ahead) {
                    // outcome = taken_from_log(append, catch_up(append));
                    // if (outcome == PAGELOG_DONE && append->first == before) outcome = PAGELOG_CONFLICT; }
                    // ..
                    // if (outcome != PAGELOG_DONE) return conclude(append, outcome);
                    // ..
inline weigh() {
    if
    :: !IS_IN_LOG && IS_CUT -> unsure = unsure | done; done = 0
    :: else
    fi;
    if
    :: IS_IN_LOG -> first = last + 1; last = 1; outcome = GOES_ON
    :: !IS_IN_LOG && IS_CUT -> outcome = LOST
    :: !IS_IN_LOG && (IS_CUT || is_ahead) ->
       last = (IS_CUT -> 0 : last);
       catch_up();
       if
       :: outcome == GOES_ON && is_ahead -> outcome = CONFLICT
       :: outcome == DONE -> outcome = GOES_ON
       :: else
       fi
    :: !IS_IN_LOG && !IS_CUT && !is_ahead -> outcome = (refused == A2 || refused == A4 -> FENCED : CONFLICT)
    fi;
    done = done & LEFT; unsure = unsure & LEFT;
    if
    :: outcome == GOES_ON && first < 2 ->
       last = (last < first -> first : last); next = COPIES * first; refused = ALLOWED
    :: outcome == GOES_ON && first == 2 -> outcome = DONE
    :: outcome != GOES_ON -> conclude()
    fi;
    is_reported = false; is_ahead = false
}

#define IS_OVER (next > COPIES * 2) /* all requests of the group are */

inline run_append() {
    outcome = GOES_ON;
#ifdef UNWAITED
    if
    :: d_step { answered -> is_reported = true; done = LEFT; answered = false; next = COPIES * 2 + 1 }
    :: !answered
    fi;
#endif
    do
    :: outcome == GOES_ON && next < COPIES * (last + 1) && (done >> next & 1) -> next++
    :: d_step { outcome == GOES_ON && next < COPIES * (last + 1) && !(done >> next & 1) -> receive_write(); next++ }
    :: d_step { outcome == GOES_ON && next == COPIES * (last + 1) -> receive_report(); next = COPIES * 2 + 1 }
#ifndef NO_LOSS
    :: d_step { outcome == GOES_ON && next <= COPIES * (last + 1) && !(done >> next & 1) -> cut(); next = COPIES * 2 + 1 }
#endif
    :: atomic { outcome == GOES_ON && IS_OVER -> weigh() }
    :: outcome != GOES_ON -> break
    od;
    atomic {
        end = (outcome == DONE && end < lsn -> lsn : end);
        next = 0; first = 0; last = 0; refused = ALLOWED; done = 0; unsure = 0
    }
}

/* Epochs. */

/* One of an older epoch is denied, and changes nothing. So a take-over of any epoch names the present one. */
// pagelog_calls.c: fail_over
                    // ..
                    // if (outcome == PAGELOG_LOST && log->counts.bytes_sent > sent) log->lost_failovers++;
                    // ..
inline fail_over(names_its_own) {
    if
    :: failover(_pid, from, names_its_own)
#ifndef NO_LOSS
    :: reply = NONE;
       lost = (lost < EPOCHS - mine -> lost + 1 : lost);
       late_failover[_pid] = (from < epoch -> 0 : 1 + names_its_own)
    :: reply = NONE /* nothing was sent */
#endif
    fi
}

// pagelog_calls.c: may_be_ours
                    // return log->epoch > expected && log->epoch - expected <= log->lost_failovers;
#define MAY_BE_OURS (epoch - mine <= lost)

/* DONE: nothing of this epoch is in the window. */
// pagelog_calls.c: enter_epoch
                    // log->writing_epoch = epoch; log->owns_epoch = owns;
                    // ..
// pagelog_calls.c: begin_epoch
                    // ..
                    // enter_epoch(log, epoch, owns);
                    // ..
                    // enum pagelog_outcome outcome = pagelog_status(log, PAGELOG_PRIMARY, &status);
                    // ..
inline begin_epoch(e) {
    mine = e;
    if
#ifndef NO_LOSS
    :: outcome = LOST
#endif
    :: decide(_pid, mine);
       outcome = (reply == ALLOWED -> DONE : FENCED);
       end = (reply == ALLOWED -> hard : end);
       reply = ALLOWED
    fi
}

inline begin_after_failover() {
    if
    :: atomic { outcome == DONE -> lost = 0; begin_epoch(from + 1) }
    :: outcome != DONE
    fi;
    from = 0
}

/* If it names one it is the epoch in which it writes. */
// pagelog_calls.c: pagelog_take_over
                    // ..
                    // uint32_t epoch = expected ? expected : log->epoch ? log->epoch : 1;
                    // ..
                    // enum pagelog_outcome outcome = fail_over(log, operator_principal, operator_token, epoch);
                    // if (outcome == PAGELOG_DONE) break;
                    // if (outcome == PAGELOG_LOST && pagelog_may_try_again(&patience)) continue;
                    // if (outcome != PAGELOG_FENCED || !is_epoch_told(log) || !pagelog_may_change_epoch(&patience)) return outcome;
                    // if (expected) { if (!may_be_ours(log, expected)) return outcome;
                    // outcome = ask_as_primary(log);
                    // if (outcome == PAGELOG_LOST && pagelog_may_try_again(&patience)) continue;
                    // if (outcome == PAGELOG_FENCED && is_epoch_told(log)) continue;
                    // if (outcome != PAGELOG_DONE) return outcome; }
                    // epoch = log->epoch; }
                    // log->lost_failovers = 0;
                    // return begin_epoch(log, epoch + 1, true);
inline take_over() {
    from = mine; outcome = GOES_ON;
    do
    :: atomic { outcome == GOES_ON && told == 0 ->
#ifdef NAMES_THE_NEWEST_EPOCH
          from = epoch;
#endif
          fail_over(true);
          if
          :: reply == ALLOWED -> outcome = DONE
#ifdef LOST_FAILOVER_IS_DONE
          :: reply == NONE -> outcome = DONE
#else
          :: reply == NONE
#endif
          :: reply == NONE -> outcome = LOST
          :: reply == C9 -> outcome = DENIED
          :: reply == A2 && !MAY_BE_OURS -> outcome = FENCED
#ifdef TAKES_ANOTHERS_EPOCH
          :: reply == A2 && MAY_BE_OURS -> from = epoch
#else
          :: reply == A2 && MAY_BE_OURS -> told = epoch
#endif
          fi;
          reply = ALLOWED
       }
    :: atomic { outcome == GOES_ON && told != 0 ->
          if
          :: reply = NONE
          :: decide(_pid, told)
          fi;
          if
          :: reply == NONE
          :: reply == NONE -> outcome = LOST
          :: reply == A2
          :: reply == A4 -> outcome = FENCED
          :: reply == ALLOWED -> from = told
          fi;
          reply = ALLOWED; told = 0
       }
    :: outcome != GOES_ON -> break
    od;
    begin_after_failover()
}

/* If it names none. */
inline take_over_any() {
    outcome = GOES_ON;
    do
    :: atomic { outcome == GOES_ON ->
          from = epoch;
          fail_over(false);
          if
          :: reply == ALLOWED -> outcome = DONE
#ifndef NO_LOSS
          :: reply == NONE
          :: reply == NONE -> outcome = LOST
#endif
          :: reply == C9 -> outcome = DENIED
          fi;
          reply = ALLOWED
       }
    :: outcome != GOES_ON -> break
    od;
    begin_after_failover()
}

/* The file. */

/* Whether a commit of this writer that is there by half is the last one: its second block comes after another's. */
#define IS_TORN (KIND_OF(content[end]) == SECOND && WRITER_OF(content[end]) == _pid && content[end - 1] != content[end] - SECOND)
#if PARTS > 1
#define STAYS_TORN (end > 0 && IS_TORN)
#else
#define STAYS_TORN false
#endif

// pagelog_repair.c: pagelog_take_whole
                    // ..
                    // enum pagelog_outcome outcome = pagelog_take_mark(file, end_of(file));
                    // if (outcome == PAGELOG_DONE && !is_none(file->doubted)) outcome = look_for_doubted(file);
                    // while (outcome == PAGELOG_DONE && !is_none(file->torn) && !is_before(file->mark.position, file->torn) &&
                    // file->mark.session == file->session)
                    // ..
                    // outcome = pagelog_take_mark(file, last_before(file->mark.position));
                    // ..
#ifdef FORGETS_WHAT_IS_TORN
#define IS_NOT_WHOLE (!HAS_MARK(content[mark]))
#elif defined FORGETS_ITS_DOUBT
#define IS_NOT_WHOLE (!HAS_MARK(content[mark]) || is_torn && IS_TORN)
#else
#define IS_NOT_WHOLE (!HAS_MARK(content[mark]) || (is_torn || doubts) && IS_TORN)
#endif

/* A page at an LSN of the log stays what it is. A writer that is fenced by this read goes on as a follower. */
// pagelog_repair.c: pagelog_recover
                    // enum pagelog_outcome outcome = pagelog_take_whole(file);
                    // if (outcome == PAGELOG_DONE && is_writer(file) && is_before(file->mark.position, end_of(file)))
                    // outcome = pagelog_repair(file);
                    // if (outcome == PAGELOG_DONE) file->torn = file->doubted = (struct pagelog_position){0};
                    // ..
inline recover() {
    decide(_pid, mine);
    if
    :: reply == ALLOWED ->
       mark = end;
#if PARTS > 1
       if
       :: mark > 0 && IS_NOT_WHOLE ->
#ifdef BUILDS_ON_HALF
          skip
#else
          is_torn = is_torn || HAS_MARK(content[mark]); mark--; is_repair = true
#endif
       :: else -> is_torn = is_torn && IS_TORN
       fi;
       doubts = false
#endif
    :: reply != ALLOWED -> is_fenced = true
    fi;
    reply = ALLOWED
}

// pagelog_addressed.c: begin_to_write
                    // ..
                    // options->has_operator
                    // ? pagelog_take_over(file->log, options->operator_principal, options->operator_token, 0)
                    // : pagelog_join(file->log);
                    // if (outcome != PAGELOG_DONE) return outcome;
                    // ..
                    // return pagelog_recover(file);
inline open_writer() {
    if
#ifdef SHORT_WHERE_JOINED
    :: _pid != JOINS - 1 -> take_over_any()
#else
    :: take_over_any()
#endif
#ifdef JOINS
    :: atomic { _pid == JOINS - 1 -> joins = true; begin_epoch(epoch) }
#endif
    fi;
    if
    :: atomic { outcome == DONE -> recover() }
    :: outcome != DONE
    fi
}

// pagelog_file.c: renew
                    // ..
                    // if (!options->has_operator)
                    // ..
                    // pagelog_take_over(
                    // file->log, options->operator_principal, options->operator_token, pagelog_writing_epoch(file->log));
                    // if (outcome == PAGELOG_DONE) outcome = pagelog_recover(file);
                    // if (outcome == PAGELOG_DONE && file->standing == BROKEN) pagelog_stand(file, WRITING);
                    // ..
inline renew() {
    if
    :: joins -> outcome = CONFLICT
    :: !joins ->
       take_over();
       if
#ifdef GOES_ON_FROM_ITS_OWN
       :: outcome == DONE -> is_broken = false
#else
       :: atomic { outcome == DONE -> recover(); is_broken = is_repair }
       :: outcome == DONE -> outcome = LOST
#endif
       :: outcome != DONE
       fi
    fi
}

/* Without an answer it goes on only if the log is not known to have it. */
// pagelog_file.c: check_epoch
                    // ..
                    // enum pagelog_outcome outcome = pagelog_status(file->log, PAGELOG_PRIMARY, &status);
                    // if (outcome != PAGELOG_DONE || is_at(hard_of(file, &status), file->mark.position)) return outcome;
                    // outcome = pagelog_recover(file);
                    // bool is_ended = !pagelog_is_stuck(file->log);
                    // if (!is_ended && is_writer(file)) pagelog_stand(file, BROKEN);
                    // ..
inline check_epoch() {
    decide(_pid, mine);
    outcome = (reply == ALLOWED -> DONE : FENCED);
    reply = ALLOWED;
    if
    :: outcome == DONE && hard != mark ->
       end = hard;
#ifndef SEES_THE_END_ALONE
       recover()
#endif
    :: else
    fi
}

/* The session is the writer's, and the number of a transaction is that of its LSN. */
// pagelog_addressed.c: find_mark
                    // ..
                    // if (ends_before) return PAGELOG_CONFLICT;
                    // if (outcome != PAGELOG_DONE) return outcome;
                    // bool is_ours = pagelog_read_mark(file, page, &found) && pagelog_is_same_mark(&found, mark);
                    // return is_ours ? PAGELOG_DONE : PAGELOG_CONFLICT;
#ifdef FINDS_ANY_MARK
#define IS_OURS (lsn <= hard)
#else
#define IS_OURS (lsn <= hard && HAS_MARK(content[lsn]) && WRITER_OF(content[lsn]) == _pid)
#endif
inline find_mark() {
    if
    :: outcome = LOST
    :: outcome = (IS_OURS -> DONE : CONFLICT)
    fi
}

/* The bytes of each block are its own, so that the pages say which blocks are there. */
// pagelog_repair.c: pagelog_find_blocks
                    // ..
                    // size_t blocks = pagelog_blocks_count(file->blocks), length;
                    // ..
                    // for (size_t i = 0; i < blocks && blocks > 1 && outcome == PAGELOG_DONE; i++)
                    // ..
                    // outcome = compare_pages(file, role, position, pages.numbers + i, count);
                    // ..
                    // if (outcome == PAGELOG_CONFLICT) file->torn = first_of_blocks(file);
                    // return outcome;
// pagelog_addressed.c: settle_by_blocks
                    // enum pagelog_outcome outcome = pagelog_find_blocks(file, role_of(file), mark->position);
                    // if (outcome == PAGELOG_DONE) return outcome;
                    // if (outcome == PAGELOG_CONFLICT)
                    // return pagelog_file_fail(file, PAGELOG_IN_DOUBT
                    // ..
                    // return pagelog_restore(file->log, PAGELOG_IN_DOUBT, refused);
#ifdef END_MARK_IS_ENOUGH
#define ARE_FOUND true
#else
#define ARE_FOUND (IS_ALONE || content[lsn - 1] == BLOCK_AT(0))
#endif
inline settle_by_blocks() {
#ifdef SHORT_WHERE_JOINED
    if
    :: ARE_FOUND
    :: !ARE_FOUND -> is_torn = true; outcome = IN_DOUBT
    fi
#else
    assert(ARE_FOUND)
#endif
}

// pagelog_addressed.c: settle_doubt
                    // ..
                    // if (!options->has_operator) return PAGELOG_IN_DOUBT;
                    // file->doubted = mark->position;
                    // enum pagelog_outcome outcome = pagelog_take_over(
                    // file->log, options->operator_principal, options->operator_token, pagelog_writing_epoch(file->log));
                    // bool is_fenced = outcome == PAGELOG_FENCED && !pagelog_is_restarted(file->log);
                    // if (outcome != PAGELOG_DONE && !is_fenced)
                    // return pagelog_restore(file->log, PAGELOG_IN_DOUBT, &refused);
                    // if (is_fenced) pagelog_become_follower(file);
                    // outcome = find_mark(file, role_of(file), mark);
                    // if (outcome == PAGELOG_DONE) outcome = settle_by_blocks(file, mark, &refused);
                    // if (outcome == PAGELOG_IN_DOUBT) return outcome;
                    // if (outcome == PAGELOG_DONE || outcome == PAGELOG_CONFLICT) file->doubted.number = 0;
                    // bool has_gone_on = outcome == PAGELOG_DONE && !is_fenced && !is_at(end_of(file), mark->position);
                    // if (has_gone_on && is_writer(file)) pagelog_stand(file, BROKEN);
                    // if (outcome == PAGELOG_DONE) return PAGELOG_DONE;
                    // if (outcome != PAGELOG_CONFLICT) return pagelog_restore(file->log, PAGELOG_IN_DOUBT, &refused);
                    // if (is_fenced) return PAGELOG_FENCED;
                    // return pagelog_restore(file->log, cause == PAGELOG_DONE ? PAGELOG_LOST : cause, &refused);
inline settle_doubt() {
    if
    :: joins
    :: !joins ->
       doubts = (PARTS > 1);
       take_over();
       atomic {
           if
           :: outcome != DONE && outcome != FENCED -> outcome = IN_DOUBT
           :: outcome == DONE || outcome == FENCED ->
              is_fenced = (outcome == FENCED);
              find_mark();
#if PARTS > 1
              if
              :: outcome == DONE -> settle_by_blocks()
              :: outcome != DONE
              fi;
              doubts = (doubts && outcome != DONE && outcome != CONFLICT && !is_torn);
#endif
              if
#ifdef BUILDS_ON_WHAT_IT_FOUND
              :: outcome == DONE && !is_fenced
#else
              :: outcome == DONE && !is_fenced -> is_broken = (end != lsn)
#endif
              :: outcome == DONE && is_fenced
              :: outcome == LOST || outcome == IN_DOUBT -> outcome = IN_DOUBT
              :: outcome == CONFLICT && is_fenced -> outcome = FENCED
              :: outcome == CONFLICT && !is_fenced -> outcome = LOST
              fi
           fi
       }
    fi
}

// pagelog_commit.c: note_failure
                    // ..
                    // bool is_untouched = is_at(end_of(file), end) && !pagelog_is_stuck(file->log);
                    // file->source.calls->fall_back(file, outcome, !is_untouched || outcome == PAGELOG_IN_DOUBT);
// pagelog_addressed.c: fall_back
                    // bool is_fenced = outcome == PAGELOG_FENCED && !pagelog_is_restarted(file->log);
                    // if (is_fenced || !is_writer(file)) pagelog_become_follower(file);
                    // else if (may_be_there) pagelog_stand(file, BROKEN);
inline note_failure() {
    if
    :: outcome == FENCED -> is_fenced = true
    :: outcome != FENCED && (end != lsn - SIZE || is_stuck || outcome == IN_DOUBT) -> is_broken = true
    :: else
    fi
}

/* An asynchronous commit may be in the log: it was reported neither as done nor as failed. */
// pagelog_commit.c: lose
                    // pagelog_disconnect(file->log);
                    // ..
                    // file->mark = file->settled;
                    // ..
                    // file->on_their_way = 0;
                    // ..
                    // file->source.calls->fall_back(file, outcome, true);
                    // ..
inline lose() {
#ifndef KEEPS_REPLIES
    answered = false;
#endif
    mark = lsn - SIZE;
    if
    :: is_fenced || outcome == FENCED -> is_fenced = true
    :: else -> is_broken = true
    fi
}

/* What has become of the commit. */
// pagelog_commit.c: commit_changes
                    // ..
                    // if (outcome == PAGELOG_IN_DOUBT) outcome = file->source.calls->settle_doubt(file, &mark);
                    // if (outcome != PAGELOG_DONE && file->on_their_way > 0) return lose(file, outcome);
                    // if (outcome == PAGELOG_DONE && fate != NOTHING_DIFFERS) keep(file, &mark, fate == ON_ITS_WAY);
                    // ..
                    // else note_failure(file, outcome, end);
                    // ..
// pagelog_commit.c: pagelog_file_settle
                    // ..
                    // enum pagelog_outcome outcome = pagelog_append_ended(file);
                    // if (outcome == PAGELOG_IN_DOUBT) outcome = file->source.calls->settle_doubt(file, &file->mark);
                    // if (outcome != PAGELOG_DONE) return file->reading == OVER ? outcome : lose(file, outcome);
                    // ..
inline tell() {
    if
    :: outcome == DONE ->
       assert(hard >= lsn && content[lsn] == BLOCK_AT(1));
       assert(IS_ALONE || content[lsn - 1] == BLOCK_AT(0));
       mark = lsn
    :: outcome != DONE && outcome != IN_DOUBT && !on_its_way ->
       assert(!(hard >= lsn && content[lsn] == BLOCK_AT(1)));
       failed[COMMIT] = true
    :: else
    fi
}

inline end_commit() {
    tell();
    if
    :: outcome == DONE
#ifdef UNWAITED
    :: outcome != DONE && on_its_way -> lose()
#endif
    :: outcome != DONE && !on_its_way -> note_failure()
    fi;
    lsn = 0; on_its_way = false; is_stuck = false; outcome = DONE
}

/* Undoes the block that has no end mark after it. If a begin has failed it begins again; if an open has, it stops. */
// pagelog_repair.c: pagelog_repair
                    // ..
                    // struct pagelog_position end = end_of(file);
                    // ..
                    // restart_at(file, file->blocks, next_of(end));
                    // ..
                    // if (outcome == PAGELOG_DONE) outcome = pagelog_append_ended(file);
                    // if (outcome != PAGELOG_DONE) return outcome;
                    // ..
                    // file->mark = mark;
                    // ..
#if PARTS > 1
inline repair() {
    atomic { tried++; lsn = end + 1; first = 1; last = 1; next = COPIES };
    run_append();
    atomic {
        tell();
        is_torn = is_torn && outcome != DONE;
        is_broken = (is_broken && outcome != DONE) || is_stuck;
        is_fenced = (outcome == FENCED || (is_opening && outcome != DONE));

        lsn = 0; is_stuck = false; is_repair = false; outcome = DONE
    }
}
#endif

// pagelog_commit.c: commit_if_allowed
                    // ..
                    // if (!is_writer(file))
                    // ..
                    // if (file->standing == BROKEN)
                    // ..
                    // if (pagelog_has_gone_on(file))
                    // ..
/* It would hide the other faults of what a commit is built on. */
#if defined BUILDS_ON_UNREAD || defined BUILDS_ON_WHAT_IT_FOUND || defined GOES_ON_FROM_ITS_OWN || defined SEES_THE_END_ALONE
#define HAS_GONE_ON false
#else
#define HAS_GONE_ON (end != mark)
#endif
#define MAY_COMMIT (!is_fenced && !is_broken && !HAS_GONE_ON && tried < COMMITS && end + SIZE <= LSNS)

active [WRITERS] proctype Writer() {
    byte mine, end, mark, lsn, tried, lost, told, from, first, last, next, done, unsure, reply, refused, outcome, n, block, copy, at, other;
    bit joins, is_torn, doubts, is_opening, is_broken, is_repair, is_reported, is_ahead, is_stuck, is_fenced, on_its_way, answered;
end_opens:
    _pid == 0 || epoch > 1; /* of two writers of which either comes first, this one does */
    is_opening = (PARTS > 1);
    open_writer();
    do
#if PARTS > 1
    :: outcome == DONE && is_repair && tried < TRIES && end < LSNS -> repair()
    :: outcome == DONE && is_repair && (tried == TRIES || end == LSNS) -> break
#endif
    :: d_step { outcome == DONE && lsn == 0 && !is_repair && MAY_COMMIT ->
          assert(mark == end);
          tried++; lsn = end + SIZE; first = 2 - SIZE; last = 1; next = COPIES * first;
          is_opening = false
       };
#ifdef UNWAITED
       if
       :: _pid == 0 -> on_its_way = true; mark = lsn
       :: skip
       fi
#endif
    :: outcome == DONE && lsn != 0 ->
       run_append();
       if
       :: outcome == IN_DOUBT -> settle_doubt()
       :: outcome != IN_DOUBT
       fi;
       atomic { end_commit() }
#ifdef UNWAITED
    /* All replies are there, each of them Done, before anybody waits for them. */
    :: d_step { outcome == DONE && on_its_way && !answered && mine == epoch && hard == lsn - PARTS && content[hard + 1] == 0 ->
          content[lsn - 1] = (PARTS > 1 -> BLOCK_AT(0) : content[lsn - 1]);
          content[lsn] = BLOCK_AT(1);
          do
          :: hard < lsn -> n = hard + 1; harden(n)
          :: else -> break
          od;
          n = 0; answered = true
       }
    /* The next commit finds no memory. */
    :: outcome == DONE && on_its_way ->
       atomic {
           if
           :: !answered -> cut()
           :: answered
           fi;
           lose();
           lsn = 0; on_its_way = false; refused = ALLOWED; unsure = 0; first = 0; last = 0; next = 0
       }
#endif
    :: d_step { outcome == DONE && lsn == 0 && !is_repair && !is_fenced && !is_broken ->
          assert(!is_torn && (joins || !STAYS_TORN));
          check_epoch(); is_opening = false
       }
    :: outcome == DONE && lsn == 0 && !is_repair && !is_fenced && is_broken ->
       is_opening = false;
      
       renew();
       outcome = (outcome == LOST -> DONE : outcome)
    :: outcome != DONE || is_fenced && lsn == 0 -> break
    od;
    atomic {
        mine = 0; end = 0; mark = 0; tried = 0; lost = 0; outcome = DONE;
        joins = false; is_torn = false; doubts = false; is_opening = false; is_broken = false; is_repair = false; is_fenced = false; stopped++
    }
}

/* What is on its way. */

#define COMES(w) \
    :: d_step { late_lsn[w] > 0 && late_next[w] < COPIES * (late_report[w] + 1) -> \
          n = late_lsn[w] - 1 + late_next[w] / COPIES; \
          block = late_block[w] + late_next[w] / COPIES; copy = late_next[w] % COPIES; \
          write(w, epoch, n, block, copy); late_next[w]++; \
          reply = ALLOWED; n = 0; block = 0; copy = 0 } \
    :: d_step { late_lsn[w] > 0 && late_next[w] == COPIES * (late_report[w] + 1) -> \
          n = late_lsn[w] - 1 + late_report[w]; \
          report(w, epoch, n); forget_late(w); reply = ALLOWED; n = 0 } \
    :: d_step { late_failover[w] > 0 -> failover(w, epoch, late_failover[w] == 2); reply = ALLOWED }

active proctype Late() {
    byte reply, n, block, copy, at, other;
end:
    do
    COMES(0)
    COMES(1)
#if WRITERS > 2
    COMES(2)
#endif
    :: stopped == WRITERS -> break
    od
}
