/*
 * How blocks of a named database go to the store, where two movers stand still anywhere and PostgreSQL goes back, in every interleaving,
 * as a model for the checker spin. scripts/waiting runs it. It is about safety, and says nothing of waiting.
 *
 * An object has one position. What is archived there is told apart by the run that did it: after PostgreSQL went back another run archives
 * others. Each statement is one step, and so is each request; a mover holds what it has read between two, however long, and its sessions
 * are not told that PostgreSQL went back. The store forgets nothing: a key has the digest of its bytes, so other bytes are beside it.
 *
 * What holds: each archived position is in PostgreSQL, or in the object of its row, and as it was archived; what PostgreSQL still has
 * below the cut is the same; and no row names other bytes than those that were archived.
 *
 * Under the name of a statement of clients/python come its decisive lines, as in primary.pml.
 *
 * Left out: what the digests between blocks find (that the seal begins with the digest of all blocks below it), and pruning.
 */
#ifndef POSITIONS
#define POSITIONS 2
#endif
#ifndef BACKS
#define BACKS 1
#endif
#define MOVERS 2
#define RUNS (BACKS + 2)
#define OF(p, r) ((p) * RUNS + (r))

/* What PostgreSQL has: of each position who archived it, the block, what its row names, and the state of that: 1 open, 2 read back, 3 cut. */
typedef Referee {
    byte archived, moved, cut;
    byte truth[POSITIONS + 1], block[POSITIONS + 1], row[POSITIONS + 1], state[POSITIONS + 1]
};
Referee now, before;
bool has_before;
byte history = 1;
/* The objects: of each position those of each run. */
bool object[(POSITIONS + 1) * RUNS];

inline all_is_there() {
    p = 1;
    do
    :: p > POSITIONS -> break
    :: else ->
       if
       :: p > now.archived -> skip
       :: else ->
          assert(now.block[p] == 0 || now.block[p] == now.truth[p]);
          assert(now.state[p] == 0 || now.row[p] == now.truth[p]);
          assert(p <= now.cut || now.block[p] == now.truth[p]);
          assert(p > now.cut || (now.state[p] == 3 && object[OF(p, now.row[p])]))
       fi;
       p++
    od;
    p = 0
}

inline copied(to, from) {
    to.archived = from.archived; to.moved = from.moved; to.cut = from.cut;
    p = 1;
    do
    :: p > POSITIONS -> break
    :: else -> to.truth[p] = from.truth[p]; to.block[p] = from.block[p]; to.row[p] = from.row[p]; to.state[p] = from.state[p]; p++
    od;
    p = 0
}

active proctype PostgreSQL() {
    byte p, backs;
end:
    do
    :: d_step { now.archived < POSITIONS -> now.archived++; now.truth[now.archived] = history; now.block[now.archived] = history; all_is_there() }
    :: d_step { !has_before && backs < BACKS -> has_before = true; copied(before, now) }
    :: d_step { has_before && backs < BACKS -> backs++; has_before = false; history++; copied(now, before); all_is_there() }
    :: now.archived == POSITIONS && backs == BACKS -> break
    od
}

active [MOVERS] proctype Mover() {
    byte p, at, bytes;
end:
    do
    /* It reads the next block, and seals it: the fence, then what PostgreSQL has of it. */
    :: d_step { at == 0 && now.moved < now.archived -> at = now.moved + 1; bytes = now.block[at] }
       if
// referee/object_statements.py: _SAME
                    // _SAME = """(SELECT count(*) = %(count)s AND sha256(string_agg(data, ''::bytea ORDER BY lsn)) = %(raw_digest)s
                    // FROM pagelog_block WHERE log = %(log)s AND lsn BETWEEN %(first)s AND %(last)s)"""
// referee/object_statements.py: SEAL
                    // ..
                    // WHERE log = %(log)s AND moved = %(first)s - 1 AND chain = %(before)s
                    // AND EXISTS (SELECT 1 FROM pagelog_log WHERE id = %(log)s AND identity = %(identity)s::uuid AND NOT dropped AND archived >= %(last)s)
                    // AND {_SAME} RETURNING log)
                    // ..
#ifdef SEALS_WITHOUT_DIGEST
#define SAME(p, b) true
#else
#define SAME(p, b) (now.block[p] == (b))
#endif
       :: d_step { now.moved == at - 1 && now.archived >= at && SAME(at, bytes) ->
             now.moved = at; now.row[at] = bytes; now.state[at] = 1; all_is_there(); at = 0 }
       :: d_step { !(now.moved == at - 1 && now.archived >= at && SAME(at, bytes)) -> at = 0 }
       fi
    /* It puts what a row names, which it has encoded, or encodes again; and reads it back. */
    :: d_step { at == 0 && now.moved > 0 -> at = 1; bytes = 0 }
       do
       :: at < POSITIONS -> at++
       :: break
       od;
       if
       :: d_step { now.state[at] == 1 -> bytes = now.row[at] }
          if
#ifndef KEEPS_WHAT_IT_HAS_PUT
          :: object[OF(at, bytes)] = true
          :: skip
          fi;
          if
          :: object[OF(at, bytes)] ->
#else
          :: skip ->
#endif
// referee/object_statements.py: KEPT
                    // KEPT = "UPDATE pagelog_object SET state = 1 WHERE log = %(log)s AND first = %(first)s AND key = %(key)s AND state = 0 RETURNING log"
#ifdef KEEPS_ANOTHER_KEY
#define KEEPS(p, b) (now.state[p] == 1)
#else
#define KEEPS(p, b) (now.state[p] == 1 && now.row[p] == (b))
#endif
             if
             :: d_step { KEEPS(at, bytes) -> now.state[at] = 2; all_is_there() }
             :: d_step { !KEEPS(at, bytes) -> skip }
             fi
#ifndef KEEPS_WHAT_IT_HAS_PUT
          :: !object[OF(at, bytes)] -> skip
#endif
          fi
#ifdef CUTS_WHAT_IS_NOT_KEPT
       :: d_step { now.state[at] == 1 || now.state[at] == 2 -> bytes = now.row[at] }
#else
       :: d_step { now.state[at] == 2 -> bytes = now.row[at] }
#endif
// referee/object_statements.py: CUT
                    // ..
                    // UPDATE pagelog_object SET state = 2 WHERE log = %(log)s AND first = %(first)s AND key = %(key)s AND state = 1 AND {_SAME}
                    // AND EXISTS (SELECT 1 FROM pagelog_store WHERE log = %(log)s AND cut = %(first)s - 1) RETURNING log, last)
                    // ..
#ifdef CUTS_WHAT_IS_NOT_KEPT
#define CUTS(p, b) ((now.state[p] == 1 || now.state[p] == 2) && now.row[p] == (b) && now.cut == (p) - 1 && now.block[p] == (b))
#else
#define CUTS(p, b) (now.state[p] == 2 && now.row[p] == (b) && now.cut == (p) - 1 && now.block[p] == (b))
#endif
          if
          :: d_step { CUTS(at, bytes) -> now.state[at] = 3; now.cut = at; all_is_there() }
          :: d_step { !CUTS(at, bytes) -> skip }
          fi
       :: d_step { now.cut >= at && now.block[at] != 0 -> bytes = 0 }
// referee/object_statements.py: CLEAR
                    // ..
                    // AND lsn <= (SELECT cut FROM pagelog_store WHERE log = %(log)s) RETURNING 1
                    // ..
#ifdef CLEARS_WHAT_WAS_CUT
#define CLEARS(p) true
#else
#define CLEARS(p) ((p) <= now.cut)
#endif
          if
          :: d_step { CLEARS(at) -> now.block[at] = 0; all_is_there() }
          :: d_step { !CLEARS(at) -> skip }
          fi
       :: else -> skip
       fi;
       d_step { at = 0; bytes = 0 }
    :: now.cut == POSITIONS && now.block[POSITIONS] == 0 -> break
    od
}
