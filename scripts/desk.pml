/*
 * How the calls of a desk wait, in every interleaving: the queue, the tickets and the parkers of crates/pl_desk as a model for
 * the checker spin. scripts/waiting runs it.
 *
 * Each thread calls as often as it likes, and stops when it likes; each ticket may be the last one. Each load, store and swap
 * of a word is a step by itself, and all are sequentially consistent in the code too. A park sleeps only where the word is
 * the mark at that moment, and nothing but a wake ends it. A thread that sleeps for ever shows as a state in which nobody can
 * go on, though not all have stopped.
 *
 * After each step comes the line of the code that it is for, under the name of its function. scripts/waiting compares these
 * lines with the source, so that whoever changes such a function has to look at this model.
 *
 * Left out: the step of the database, as who has the turn neither waits nor touches these words meanwhile; and all spins
 * before the last, as one that finds nothing changes nothing.
 *
 * Tickets are counted round, and so are marks. No two tickets that are out at the same moment are equal, and while a ticket
 * is out nobody but its thread writes its mark. So the words are compared as they are where numbers go on and on.
 */

#ifndef THREADS
#define THREADS 3
#endif
#ifndef PARKERS
#define PARKERS 1
#endif
#ifndef TICKETS
#define TICKETS 4 /* more than THREADS, and a multiple of PARKERS */
#endif

// queue.rt: VACANT
#define VACANT 0   // const VACANT: u64 = 0;
// queue.rt: TAKEN
#define TAKEN 1    // const TAKEN: u32 = 1;
// parkers.rt: UNMARKED
#define UNMARKED 0 // const UNMARKED: u64 = 0;
// queue.rt: QUEUED
#define QUEUED 1   // const QUEUED: u32 = 1;

/* The parkers are fewer here, and all spins but the last have no step. The head of the queue may come back at any time. */
// parkers.rt: PARKERS
                 // const PARKERS: u64 = 64;
// queue.rt: SPINS
                 // const SPINS: u32 = 230;
// queue.rt: YIELDS_FROM
                 // const YIELDS_FROM: u32 = 30;
// queue.rt: PAUSES
                 // const PAUSES: u32 = 4;
// queue.rt: PARK_MICROS
                 // const PARK_MICROS: u64 = 50;

/* Where a thread sleeps: nowhere, in the queue, as its head, or at a parker of tickets. */
#define AWAKE 0
#define IN_QUEUE 1
#define AS_HEAD 2
#define AT_PARKER(ticket) (3 + (ticket) % PARKERS)

byte next, serving;    /* the words NEXT and SERVING of the table */
bit spent;             /* whether NEXT is `turns` or more */
bit inside, head;      /* the words of the queue */
bit others;            /* the parker of those behind the head */
byte tickets[PARKERS]; /* the parkers of tickets */
byte sleeps[THREADS];
byte stopped;          /* how many threads have stopped */

/* What the system does. */

inline system_park(word, mark, place) {
    d_step {
        if
        :: word == mark -> sleeps[_pid] = place
        :: else
        fi
    }
    sleeps[_pid] == AWAKE
}

/* It ends at any time, by a wake or by itself. */
inline system_park_timeout(word, mark, place) {
    d_step {
        if
        :: word == mark -> sleeps[_pid] = place
        :: else
        fi
    }
    sleeps[_pid] = AWAKE
}

inline system_wake_one(place) {
    if
    :: sleeps[0] == place -> sleeps[0] = AWAKE
    :: sleeps[1] == place -> sleeps[1] = AWAKE
#if THREADS > 2
    :: sleeps[2] == place -> sleeps[2] = AWAKE
#endif
#if THREADS > 3
    :: sleeps[3] == place -> sleeps[3] = AWAKE
#endif
    :: else
    fi
}

inline system_wake_all(place) {
    d_step {
        do
        :: at < THREADS && sleeps[at] == place -> sleeps[at] = AWAKE; at++
        :: at < THREADS && sleeps[at] != place -> at++
        :: else -> break
        od;
        at = 0
    }
}

/* The parkers. */

// parkers.rt: mark_of
#ifdef NO_MARK
#define MARK_OF(ticket) ((ticket) / PARKERS)
#elif defined SAME_MARK
#define MARK_OF(ticket) 1
#else
#define MARK_OF(ticket) ((ticket) / PARKERS + 1) // (ticket / PARKERS % u64::from(u32::MAX)) as u32 + 1
#endif

// parkers.rt: Parker::announce
inline announce(word, mark) {
    word = mark // self.word.store(u64::from(mark), SeqCst);
}

// parkers.rt: Parker::park
inline park(word, mark, place) {
    system_park(word, mark, place) // self.word.park(rt, mark);
}

// parkers.rt: Parker::take
inline take(word) {
    if
    :: word != UNMARKED ->                                          // self.word.load(SeqCst) != UNMARKED
       if
       :: atomic { word != UNMARKED -> word = UNMARKED; ok = true } // && self.word.swap(UNMARKED, SeqCst) != UNMARKED
       :: word == UNMARKED
       fi
    :: word == UNMARKED
    fi
}

// parkers.rt: Parker::wake_all
inline wake_all(word, place) {
    take(word);
    if
    :: ok -> ok = false;      // if self.take()
       system_wake_all(place) // self.word.wake_all();
    :: !ok
    fi
}

// parkers.rt: Parker::wake_one
inline wake_one(word, place) {
    take(word);
    if
    :: ok -> ok = false;      // if self.take()
       system_wake_one(place) // self.word.wake_one();
    :: !ok
    fi
}

// parkers.rt: Parkers::of
#define OF(ticket) tickets[(ticket) % PARKERS] // &self.tickets[(ticket % PARKERS) as usize]

// parkers.rt: Parkers::announce
inline announce_ticket() {
    announce(OF(ticket), MARK_OF(ticket)) // self.of(ticket).announce(mark_of(ticket));
}

// parkers.rt: Parkers::park
inline park_for_ticket() {
    park(OF(ticket), MARK_OF(ticket), AT_PARKER(ticket)) // self.of(ticket).park(rt, mark_of(ticket));
}

// parkers.rt: Parkers::wake
inline wake(ticket) {
#ifdef WAKES_ONE
    wake_one(OF(ticket), AT_PARKER(ticket))
#else
    wake_all(OF(ticket), AT_PARKER(ticket)) // self.of(ticket).wake_all();
#endif
}

/* The queue. */

// queue.rt: is_free
inline is_free() {
    seen = next;                                         // shared.peek(NEXT)
    if
    :: atomic { seen == serving -> seen = 0; ok = true } // == shared.peek(SERVING)
    :: atomic { seen != serving -> seen = 0 }
    fi
}

// queue.rt: Queue::try_enter
inline try_enter() {
    if
    :: inside == VACANT ->                                    // self.inside.load(SeqCst) == VACANT
       is_free();                                             // && is_free(shared)
       if
       :: atomic { ok && inside == VACANT -> inside = TAKEN } // && self.inside.swap(u64::from(TAKEN), SeqCst) == VACANT
       :: atomic { ok && inside == TAKEN -> ok = false }
       :: !ok
       fi
    :: inside == TAKEN
    fi
}

/* The model has no step for these spins: the last one is that of try_enter. */
// queue.rt: pause
                    // for _ in 0..PAUSES { hint::spin_loop(); }
// queue.rt: Queue::spin
                    // for spin in 0..SPINS { if spin < YIELDS_FROM { pause(); } else { thread::yield_now(); }
                    // if self.try_enter(shared) { return true; } } false

// queue.rt: Queue::wait
inline wait_in_queue() {
#ifdef ANNOUNCES_ONCE
    announce(others, QUEUED);
#endif
    do
    ::                                                  // for _ in rt.forever()
#ifndef ANNOUNCES_ONCE
       announce(others, QUEUED);                        // self.others.announce(QUEUED);
#endif
       if
       :: atomic { head == VACANT -> head = TAKEN };    // if self.head.swap(u64::from(TAKEN), SeqCst) == VACANT
          try_enter();                                  // if !self.try_enter(shared)
          if
          :: !ok ->                                     // let most = Duration::from_micros(PARK_MICROS);
#ifdef HEAD_WAITS
             system_park(head, TAKEN, AS_HEAD);
#else
             system_park_timeout(head, TAKEN, AS_HEAD); // self.head.park_timeout(rt, TAKEN, most);
#endif
             inside = TAKEN                             // self.inside.store(u64::from(TAKEN), SeqCst);
          :: ok -> ok = false
          fi;
#ifndef WAKES_FIRST
          head = VACANT;                                // self.head.store(VACANT, SeqCst);
#endif
#ifndef NO_WAKE
          wake_one(others, IN_QUEUE);                   // return self.others.wake_one();
#endif
#ifdef WAKES_FIRST
          head = VACANT;
#endif
          break
       :: head == TAKEN
       fi;
       park(others, QUEUED, IN_QUEUE)                   // self.others.park(rt, QUEUED);
    od
}

// queue.rt: Queue::enter
inline enter() {
    try_enter();       // if !self.try_enter(shared) && !self.spin(shared)
    if
    :: ok -> ok = false
    :: !ok ->
       wait_in_queue() // self.wait(rt, shared);
    fi
}

// queue.rt: Queue::leave
inline leave() {
    inside = VACANT;            // self.inside.store(VACANT, SeqCst);
    if
    :: head != VACANT ->        // if self.head.load(SeqCst) != VACANT
       system_wake_one(AS_HEAD) // self.head.wake_one();
    :: head == VACANT
    fi
}

/* A turn. */

// steps.rt: look
#define LOOK serving // shared.load::<Looks>(seat, SERVING)

// turn.rt: wait
inline wait() {
                                  // let backoff = Backoff::new();
    do                            // for _ in rt.forever()
    :: LOOK == ticket -> break    /* while it spins */
    ::                            // let has_spun = backoff.is_completed(); if has_spun
#ifndef LATE
       announce_ticket();         // parkers.announce(ticket);
#endif
       if
       :: LOOK == ticket -> break // if look(shared, seat, ticket) == ticket { return; }
       :: LOOK != ticket
       fi;
#ifdef LATE
       announce_ticket();
#endif
       park_for_ticket()          // if has_spun { parkers.park(rt, ticket); } else { backoff.snooze(); }
    od                            // unreachable!()
}

// steps.rt: serve
inline serve() {
    d_step {
        assert(serving == ticket);
        serving = (serving + 1) % TICKETS // shared.fetch_add::<Serves>(seat, SERVING, 1);
    }
}

// turn.rt: take_turn
inline take_turn() {
            // let (answer, made, db) = step(shared, seat, number, request, page);
            // count_made(shared, seat, &db, made); put_back(shared, seat, db);
    serve() // serve(shared, seat); answer
}

// steps.rt: ask
#define IS_SPENT spent // shared.load::<Asks>(seat, NEXT)

// steps.rt: draw
inline draw() {
    atomic {
        ticket = next; next = (next + 1) % TICKETS; // shared.fetch_add::<Draws>(seat, NEXT, 1)
#ifndef TURNS_FOR_EVER
        if
        :: spent = true
        :: skip
        fi
#endif
    }
}

// desk.rt: Desk::call_onto
inline call() {
                                     // let shared = &self.table.shared;
    enter();                         // self.queue.enter(rt, shared);
    if
    :: IS_SPENT ->                   // if ask(shared, &mut pass.seat) >= self.turns
#ifndef SPENT_STAYS
       leave()                       // self.queue.leave();
#else
       skip
#endif
                                     // return Answer::Whole(Reply::Spent);
    :: !IS_SPENT ->
       draw();                       // let ticket = draw(shared, &mut pass.seat);
       wait();                       // wait(rt, shared, &self.parkers, &mut pass.seat, ticket);
#ifdef WAKES_EARLY
       wake((ticket + 1) % TICKETS);
#endif
       take_turn();                  // let answer = take_turn(shared, &mut pass.seat, pass.number, request, page);
       leave();                      // self.queue.leave();
#ifdef WAKES_ITSELF
       wake(ticket);
#elif !defined WAKES_EARLY
       wake((ticket + 1) % TICKETS); // self.parkers.wake(ticket.wrapping_add(1));
#endif
       ticket = 0                    // answer
    fi
}

active [THREADS] proctype Thread() {
    byte ticket, seen, at;
    bit ok;
    do
    :: call()
    :: break
    od;
    stopped++
}

/* Once all have stopped nobody is inside or the head of the queue, and each ticket was served. */
active proctype Stopped() {
    stopped == THREADS;
    assert(inside == VACANT && head == VACANT && next == serving)
}
