/*
 * How the images of a base go to the store, where two movers stand still anywhere, PostgreSQL goes back, and images are kept anew, in every
 * interleaving, as a model for the checker spin. scripts/waiting runs it. It is about safety, and says nothing of waiting; store.pml is the
 * same of blocks, and says how to read this.
 *
 * There is one image, and a pack has one. It is told apart by who made it: after PostgreSQL went back another run may make another at the same
 * position, and a run that goes on keeps its own in the place of what is there. A pack that was made anew, of one that is the only place of its
 * image, has another key; what has no image any more loses its row, and the object goes once no row names it.
 *
 * What holds: PostgreSQL has the image that its base names, or the object of its pack does.
 *
 * Left out: pruning, which takes rows alone, and manifests, which nobody believes who has rows: a branch without them believes one by its
 * SHA-256, and its packs have rows. Taken for granted: an object goes only
 * when nobody stands amid a step, and no state that PostgreSQL may go back to names it, since `grace` is longer than either.
 */
#ifndef MADE
#define MADE 2
#endif
#ifndef BACKS
#define BACKS 1
#endif
#ifndef PACKS
#define PACKS 2
#endif
#define MOVERS 2
#define OF(made, anew) (2 * (made) + (anew))
#define KEYS (2 * MADE + 2)

/* What PostgreSQL has: the image that the base names, by who made it; its data, 0 where that is empty; and its pack. Of each pack which image
 * its key is of, and whether it was made anew, and its state: 0 none, 1 open, 2 read back, 3 the only place. Of each key whether it may go. */
typedef Referee {
    byte truth, data, pack, packs;
    byte row[PACKS + 1], state[PACKS + 1];
    bool anew[PACKS + 1], gone[KEYS]
};
Referee now, before;
bool has_before;
byte made, amid;
bool object[KEYS];

inline it_is_there() {
    assert(now.truth == 0 || now.data == now.truth ||
           (now.data == 0 && now.pack > 0 && now.state[now.pack] == 3 && now.row[now.pack] == now.truth &&
            object[OF(now.truth, now.anew[now.pack])]))
}

inline copied(to, from) {
    to.truth = from.truth; to.data = from.data; to.pack = from.pack; to.packs = from.packs;
    n = 0;
    do
    :: n > PACKS -> break
    :: else -> to.row[n] = from.row[n]; to.state[n] = from.state[n]; to.anew[n] = from.anew[n]; n++
    od;
    n = 0;
    do
    :: n == KEYS -> break
    :: else -> to.gone[n] = from.gone[n]; n++
    od;
    n = 0
}

/* Whether a row of what PostgreSQL has names a key. */
inline look_in(referee) {
    n = 1;
    do
    :: n > PACKS -> break
    :: else -> is_named = is_named || (referee.state[n] > 0 && OF(referee.row[n], referee.anew[n]) == key); n++
    od;
    n = 0
}

active proctype PostgreSQL() {
    byte n, backs, key;
    bool is_named;
end:
    do
/* _KEEP of referee/bases.py: an image that is kept anew is in no pack. */
#ifdef KEEPS_ANEW_IN_ITS_PACK
#define KEPT_ANEW skip
#else
#define KEPT_ANEW now.pack = 0
#endif
    :: d_step { made < MADE -> made++; now.truth = made; now.data = made; KEPT_ANEW; it_is_there() }
    :: d_step { !has_before && backs < BACKS -> has_before = true; copied(before, now) }
    :: d_step { has_before && backs < BACKS -> backs++; has_before = false; copied(now, before); it_is_there() }
    /* What nothing names goes from the store: _SWEPT of object_statements.py. */
    :: amid == 0 ->
       key = 2;
       do
       :: key < KEYS - 1 -> key++
       :: break
       od;
       skip;
       d_step {
          is_named = false;
          look_in(now);
          if
          :: has_before -> look_in(before)
          :: else -> skip
          fi;
#ifdef SWEEPS_WHAT_IS_NAMED
          is_named = false;
#endif
          if
          :: amid == 0 && now.gone[key] && !is_named -> object[key] = false; now.gone[key] = false; it_is_there()
          :: else -> skip
          fi;
          key = 0; is_named = false
       }
    :: made == MADE && backs == BACKS -> break
    od
}

active [MOVERS] proctype Mover() {
    byte bytes, seen, from, n;
    bool anew;
end:
    do
    /* It reads what no pack has, and packs it: PostgreSQL's digest of it, then the fence. */
    :: d_step { now.pack == 0 && now.data != 0 && now.packs < PACKS -> bytes = now.data; seen = now.packs; amid++ }
       if
// referee/object_statements.py: PACK
                    // ..
                    // WHERE i.pack IS NULL AND sha256(i.data) = v.raw_digest),
                    // ..
                    // UPDATE pagelog_store SET packs = packs + 1 WHERE log = %(log)s AND packs = %(packs)s AND (SELECT count FROM same) = %(count)s
                    // ..
#ifdef PACKS_WITHOUT_DIGEST
#define SAME(b) (now.data != 0)
#else
#define SAME(b) (now.data == (b))
#endif
       :: d_step { now.pack == 0 && SAME(bytes) && now.packs == seen ->
             now.packs++; now.pack = now.packs; now.row[now.packs] = bytes; now.anew[now.packs] = false; now.state[now.packs] = 1; it_is_there() }
       :: d_step { !(now.pack == 0 && SAME(bytes) && now.packs == seen) -> skip }
       fi;
       d_step { bytes = 0; seen = 0; amid-- }
    /* It reads the image from the pack that is the only place of it, and names one that comes instead. */
    :: d_step { now.pack > 0 && now.state[now.pack] == 3 && !now.anew[now.pack] && now.packs < PACKS ->
          from = now.pack; bytes = now.row[from]; seen = now.packs; amid++ }
       if
       :: object[OF(bytes, 0)] ->
          if
// store/compacting.py: COMPACT
                    // ..
                    // JOIN pagelog_image i ON i.log = %(log)s AND i.base = %(base)s AND i.range = v.range
                    // JOIN pagelog_pack p ON p.log = i.log AND p.number = i.pack AND p.state = 2
                    // WHERE i.pack = v.number AND i.length = v.length AND i.digest = v.digest),
                    // ..
                    // WHERE log = %(log)s AND packs = %(packs)s AND (SELECT count FROM same) = %(count)s AND {_FREE}
                    // ..
          :: d_step { now.pack == from && now.state[from] == 3 && now.row[from] == bytes && now.packs == seen ->
                now.packs++; now.row[now.packs] = bytes; now.anew[now.packs] = true; now.state[now.packs] = 1; it_is_there() }
          :: d_step { !(now.pack == from && now.state[from] == 3 && now.row[from] == bytes && now.packs == seen) -> skip }
          fi
       :: !object[OF(bytes, 0)] -> skip
       fi;
       d_step { bytes = 0; seen = 0; from = 0; amid-- }
    /* It puts what a pack names, and reads it back; or takes the pack back, as where another zstd makes other bytes. */
    :: d_step { now.packs > 0 -> seen = 1; amid++ }
       do
       :: seen < PACKS -> seen++
       :: break
       od;
       if
       :: d_step { now.state[seen] == 1 -> bytes = now.row[seen]; anew = now.anew[seen] }
          if
#ifndef KEEPS_WHAT_IT_HAS_PUT
          :: object[OF(bytes, anew)] = true
          :: skip
          fi;
          if
          :: object[OF(bytes, anew)] ->
#else
          :: skip ->
#endif
// referee/object_statements.py: KEPT_PACK
                    // KEPT_PACK = "UPDATE pagelog_pack SET state = 1 WHERE log = %(log)s AND number = %(number)s AND key = %(key)s AND state = 0 RETURNING log"
#ifdef KEEPS_ANOTHER_KEY
#define KEEPS(n, b, a) (now.state[n] == 1)
#else
#define KEEPS(n, b, a) (now.state[n] == 1 && now.row[n] == (b) && now.anew[n] == (a))
#endif
             if
             :: d_step { KEEPS(seen, bytes, anew) -> now.state[seen] = 2; it_is_there() }
             :: d_step { !KEEPS(seen, bytes, anew) -> skip }
             fi
// referee/object_statements.py: TAKE_BACK
                    // ..
                    // WITH gone AS (DELETE FROM pagelog_pack WHERE log = %(log)s AND number = %(number)s AND key = %(key)s AND state = 0 RETURNING log, number, key),
                    // ..
                    // WHERE i.log = gone.log AND i.pack = gone.number RETURNING i.range
                    // ..
#ifdef TAKES_BACK_WHAT_IS_KEPT
#define TAKES(n, b, a) (now.state[n] != 0 && now.row[n] == (b) && now.anew[n] == (a))
#else
#define TAKES(n, b, a) (now.state[n] == 1 && now.row[n] == (b) && now.anew[n] == (a))
#endif
          :: d_step { TAKES(seen, bytes, anew) ->
                now.state[seen] = 0; now.gone[OF(bytes, anew)] = true; now.pack = (now.pack == seen -> 0 : now.pack); it_is_there() }
          :: d_step { !TAKES(seen, bytes, anew) -> skip }
#ifndef KEEPS_WHAT_IT_HAS_PUT
          :: !object[OF(bytes, anew)] -> skip
#endif
          fi
#ifdef CUTS_WHAT_IS_NOT_KEPT
       :: d_step { !now.anew[seen] && (now.state[seen] == 1 || now.state[seen] == 2) -> bytes = now.row[seen] }
#else
       :: d_step { !now.anew[seen] && now.state[seen] == 2 -> bytes = now.row[seen] }
#endif
// referee/object_statements.py: CUT_PACK
                    // ..
                    // UPDATE pagelog_pack SET state = 2 WHERE log = %(log)s AND number = %(number)s AND key = %(key)s AND state = 1 RETURNING log, number),
                    // emptied AS (UPDATE pagelog_image i SET data = '' FROM kept WHERE i.log = kept.log AND i.pack = kept.number)
                    // ..
#ifdef CUTS_WHAT_IS_NOT_KEPT
#define CUTS(n, b) ((now.state[n] == 1 || now.state[n] == 2) && now.row[n] == (b) && !now.anew[n])
#else
#define CUTS(n, b) (now.state[n] == 2 && now.row[n] == (b) && !now.anew[n])
#endif
          if
          :: d_step { CUTS(seen, bytes) -> now.state[seen] = 3; now.data = (now.pack == seen -> 0 : now.data); it_is_there() }
          :: d_step { !CUTS(seen, bytes) -> skip }
          fi
       /* Its image is in the pack that came instead, from where it is the same still. */
#ifdef SWITCHES_TO_WHAT_IS_NOT_KEPT
#define IS_KEPT(n) (now.state[n] == 1 || now.state[n] == 2)
#else
#define IS_KEPT(n) (now.state[n] == 2)
#endif
       :: d_step { now.anew[seen] && IS_KEPT(seen) -> bytes = now.row[seen] }
// store/compacting.py: SWITCH
                    // ..
                    // WHERE log = %(log)s AND number = %(number)s AND key = %(key)s AND state = 1 AND instead)
                    // ..
                    // AND i.length = v.length AND i.digest = v.digest
                    // AND p.log = i.log AND p.number = i.pack AND p.state = 2 RETURNING i.range),
                    // ..
#ifdef SWITCHES_ANOTHER_IMAGE
#define IS_IT(b) (now.pack > 0 && now.state[now.pack] == 3)
#else
#define IS_IT(b) (now.pack > 0 && now.state[now.pack] == 3 && now.row[now.pack] == (b))
#endif
          if
          :: d_step { IS_KEPT(seen) && now.row[seen] == bytes && now.anew[seen] ->
                now.pack = (IS_IT(bytes) -> seen : now.pack); now.state[seen] = 3; it_is_there() }
          :: d_step { !(IS_KEPT(seen) && now.row[seen] == bytes && now.anew[seen]) -> skip }
          fi
// store/compacting.py: EMPTY
                    // ..
                    // AND NOT EXISTS (SELECT 1 FROM pagelog_image i WHERE i.log = p.log AND i.pack = p.number)
                    // ..
#ifdef FORGETS_WHAT_IS_NEEDED
#define IS_EMPTY(n) (now.state[n] == 3)
#else
#define IS_EMPTY(n) (now.state[n] == 3 && now.pack != (n))
#endif
       :: d_step { IS_EMPTY(seen) -> now.state[seen] = 0; now.gone[OF(now.row[seen], now.anew[seen])] = true; it_is_there() }
       :: else -> skip
       fi;
       d_step { seen = 0; bytes = 0; anew = false; amid-- }
    :: made == MADE && now.pack > 0 && now.state[now.pack] == 3 -> break
    od
}
