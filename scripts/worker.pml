/*
 * How accepted sockets reach the workers, how the workers end, and which one polls awake, in every interleaving: the
 * channels, the wakers, the lookout and the rounds of crates/pl_conn as a model for the checker spin. scripts/waiting runs it.
 *
 * The accepting thread hands over as many sockets as it likes, and rests for ever when it likes, as a listener does at which
 * none arrives, or ends. The peers of a worker's connections act as often as they like, and may be silent for ever. A turn of
 * a connection leaves it at rest, or due, or closed: turns.pml has what happens in one. Each step of a channel, of a waker and
 * of a poll is a step by itself. A poll with no time returns at once, and another one sleeps until there is something to report.
 * Before a worker sleeps it polls with no time, up to IDLE_POLLS times, until one reports something, unless another worker does
 * so: that one has the lookout's place. No two workers ever do so at the same time. Once none can go on, none is there, no
 * socket lies in a channel, and no connection has an event, not even a reported one, or a turn due; a worker whose channel is
 * closed, and that has no connection, has ended; and as many connections count as open as a worker has.
 *
 * After each step is the line of the code that it is for, under the name of its function. scripts/waiting compares these
 * lines with the source.
 *
 * Left out: which worker has the fewest connections, since any of them is taken; memory that is refused; an error of a poll,
 * or of an accept. Of what has no step here the lines are compared all the same.
 */

#ifndef WORKERS
#define WORKERS 2
#endif
#ifndef SOCKETS
#define SOCKETS 3
#endif
#ifndef ROOM
#define ROOM 1 /* how many sockets a channel holds, WAITING */
#endif
#ifndef EVENTS
#define EVENTS 2 /* how many events a poll gives at most */
#endif
#ifndef IDLE_POLLS
#define IDLE_POLLS 1 /* how often a worker polls with no time before it sleeps, idle_polls */
#endif

byte given[WORKERS];   /* the connections that a worker was given */
byte took[WORKERS];    /* those that it took from its channel */
byte closed[WORKERS];  /* those that it has closed, as it says */
byte lying[WORKERS];   /* the sockets in the channel of a worker */
bit dropped[WORKERS];  /* whether its sender is dropped */
bit woken[WORKERS];    /* whether it was woken since a poll reported it */
byte resting[WORKERS]; /* its connections that have nothing to report */
byte ready[WORKERS];   /* those that the next poll reports */
byte due[WORKERS];     /* those whose turn is due */
byte events[WORKERS];  /* those that its last poll reported, and that had no turn since */
bit ended[WORKERS];
bit taken;             /* whether a worker has the lookout's place */
byte awake;            /* how many workers poll awake */

#define IS_EMPTY (resting[me] == 0 && ready[me] == 0 && due[me] == 0)
#define OPEN_LINES (resting[me] + ready[me] + due[me] + events[me])

/* Constants without a step: how long a listener rests does not matter, nor how much room there is from the start. */
// worker.rt: WAKE
                                                           // const WAKE: Token = Token(usize::MAX);
// lines.rt: LINES
                                                           // const LINES: usize = 1_024;
// lookout.rt: AT_ONCE
                                                           // const AT_ONCE: Duration = Duration::ZERO;
// acceptor.rt: PASSING
                                                           // const PASSING: [i32; 14] = [1, 4, 12, 23, 24, 64, 71, 92,
                                                           // 100, 101, 103, 105, 112, 113];
// acceptor.rt: REST
                                                           // const REST: u64 = 20;
/* EVENTS and ROOM are smaller here. */
// worker.rt: EVENTS
                                                           // const EVENTS: usize = 256;
// worker.rt: WAITING
                                                           // const WAITING: usize = 64;

/* How many connections a worker has. What it was given and has in its channel is one step: nobody else sees the first. */

// post.rt: LEFT
                                                           // const LEFT: u64 = u64::MAX;
// post.rt: open_of
#define OPEN_OF(given, closed) (given - closed)            // if closed == LEFT { return u64::MAX; }
                                                           // given.saturating_sub(closed)
// post.rt: Post::open
#define OPEN(post) OPEN_OF(given[post], closed[post])      // open_of(self.given, self.shared.closed.load(SeqCst))

// lines.rt: Lines::closed
#define CLOSED (took[me] - OPEN_LINES)                          // self.taken.saturating_sub(self.items.len() as u64)

// post.rt: Shared::closes
inline closes() {
#ifdef NEVER_CLOSES
    skip
#else
    closed[me] = CLOSED                                    // self.closed.store(count, SeqCst);
#endif
}

/* An error of a poll. */
// post.rt: Shared::leaves
                                                           // self.closed.store(LEFT, SeqCst);

/* The accepting thread. */

// post.rt: Shared::wake
inline wake(post) {
    woken[post] = true // let _woken = self.waker.wake();
}

// post.rt: Post::gives
#define GIVES given[post]++                                // self.given = self.given.saturating_add(1);
                                                           // self.shared.wake();

/* A channel may say that it is full while its worker takes a socket. */
// post.rt: Post::offer
inline offer(post) {
#ifdef WAKES_FIRST
    wake(post);
#endif
    if
    :: atomic { lying[post] < ROOM -> lying[post]++; GIVES }; // match self.channel.try_send(rt, socket) { Ok(()) => {
#ifndef WAKES_FIRST
       wake(post);                                         // self.gives();
#endif
       is_left = false                                     // None }
    ::                                                     // Err(TrySendError::Full(socket))
                                                           // | Err(TrySendError::Disconnected(socket))
                                                           // | Err(TrySendError::OutOfMemory(socket)) =>
                                                           // Some(socket), }
#ifdef FULL_IS_COUNTED
       GIVES
#else
       skip
#endif
    fi
}

// post.rt: Post::send
inline send(post) {
    atomic { lying[post] < ROOM -> lying[post]++; GIVES }  // if self.channel.send(rt, socket).is_ok() {
#ifndef SENDS_SILENTLY
    ; wake(post)                                           // self.gives(); }
#endif
}

// acceptor.rt: offer
                                                           // match posts.get_mut(place) {
                                                           // Some(post) => post.offer(rt, socket),
                                                           // None => Some(socket), }

/* Any worker may be the one. */
// acceptor.rt: fewest
                                                           // let mut place = 0; let mut least = u64::MAX;
                                                           // for (at, post) in posts.iter().enumerate() {
                                                           // let open = post.open();
                                                           // if open < least { least = open; place = at; } } place

// acceptor.rt: hand_over
inline hand_over() {
    if                                                     // let place = fewest(posts);
    :: place = 0
    :: place = WORKERS - 1
    fi;
    is_left = true;
    offer(place);                                          // let mut left = offer(rt, posts, place, socket);
    do                                                     // for other in 0..posts.len() {
    :: is_left && other < WORKERS ->                       // left = match left {
       offer(other); other++                               // Some(socket) => offer(rt, posts, other, socket),
    :: else -> break                                       // None => None, }; }
    od;
    other = 0;
    if                                                     // if let (Some(socket), Some(post)) =
                                                           // (left, posts.get_mut(place)) {
    :: is_left -> send(place)                              // post.send(rt, socket);
    :: !is_left                                            // }
    fi
}

/* A listener that rests, or an error, is a rest of the accepting thread. */
// acceptor.rt: passes
                                                           // match error.raw_os_error() {
                                                           // Some(code) => PASSING.contains(&code), None => false, }
// acceptor.rt: accept
                                                           // let rest = AtomicU64::new(0); for _ in rt.forever() {
                                                           // match terms.listener.accept() {
                                                           // Ok((socket, _)) => return Ok(socket),
                                                           // Err(error) if passes(&error) => { if !*is_reported {
                                                           // terms.watch.accept_rests(&error); *is_reported = true; }
                                                           // rest.park_timeout(rt, 0, Duration::from_millis(REST)); }
                                                           // Err(error) => return Err(error), } } unreachable!()

// acceptor.rt: accept_all
inline accept_all() {
                                                           // let mut is_reported = false;
    do                                                     // for accepted in 0..terms.connections {
    :: accepted < SOCKETS -> accepted++;                   // let Ok(socket) = accept(rt, terms, &mut is_reported)
       hand_over()
    :: break                                               // else { return (accepted, Stop::Accept); };
    :: goto rests                                          /* nobody comes any more */
                                                           // hand_over(rt, posts, socket); }
    od                                                     // (terms.connections, Stop::Limit)
}

// post.rt: Post::close
inline close(post) {
#ifdef WAKES_BEFORE_IT_DROPS
    wake(post);
#endif
                                                           // let Post { channel, shared, .. } = self;
    dropped[post] = true                                   // drop(channel);
#if !defined WAKES_BEFORE_IT_DROPS && !defined DROPS_SILENTLY
    ; wake(post)                                           // shared.wake();
#endif
}

// service.rt: accept_for
inline accept_for() {
                                                           // let mut posts = posts;
    accept_all();                                          // let accepted = accept_all(rt, terms, posts.as_mut_slice());
    do                                                     // for post in posts {
    :: other < WORKERS -> close(other); other++            // post.close();
    :: else -> other = 0; break                            // }
    od                                                     // accepted
}

/* Each worker has a thread here. */
// service.rt: started_of
                                                           // let mut posts = posts; posts.truncate(workers); posts

// service.rt: serve_in
inline serve_in() {
                                                           // let asked = passes.len();
                                                           // let (Ok(workers), Ok(ended)) = (
                                                           // Vec::with_capacity(terms.alloc, asked),
                                                           // Vec::with_capacity(terms.alloc, asked),) else {
                                                           // return stopped(terms.alloc, Stop::NoMemory); };
                                                           // let workers = start_all(scope, rt, staff.workers, gate,
                                                           // passes, workers);
                                                           // if workers.is_empty() {
                                                           // return stopped(terms.alloc, Stop::Start); }
                                                           // if workers.len() < asked {
                                                           // terms.watch.few_workers(workers.len(), asked); }
                                                           // let posts = started_of(staff.posts, workers.len());
    accept_for();                                          // let (accepted, stop) = accept_for(rt, terms, posts);
end_joins:
    (ended[0] && ended[WORKERS - 1])                       // let (passes, faults) = join_all(rt, gate, workers, ended);
                                                           // Served { accepted, faults, stop, passes, }
}

/* No clause says what is served: the databases and the page server of the table that was read once, by as many workers as were
 * asked for. */
// pl_program/src/serve_command.rt: serve_with
                                                           // let text = text_of_file(rt, , table)?; match
                                                           // opening_of(rt.alloc(), text.as_slice(), numbers) { Ok(opening)
                                                           // => serve_all(rt, listen, opening, numbers), Err(fault) => {
                                                           // let primary = token_of(rt.alloc(), text.as_slice(),
                                                           // numbers.primary); let unlisted = if primary.is_ok() { } else {
                                                           // }; note_start(rt, table, text.as_slice(), unlisted, fault);
                                                           // Err(Failure::from(fault)) } }
// pl_program/src/serve_command.rt: serve_all
                                                           // match listen_at(rt, listen) { Ok(listener) => serve_at(rt,
                                                           // &listener, opening, numbers), Err(fault) =>
                                                           // Err(Failure::from(fault)), }
// pl_program/src/serve_command.rt: serve_at
                                                           // let Opening { dbs, pager } = opening; let terms = Terms {
                                                           // alloc: rt.alloc(), listener, connections: numbers.connections,
                                                           // idle_polls: idle_polls_of(rt, numbers.idle_polls), watch:
                                                           // &Teller { rt }, }; match serve_databases(rt, &terms, dbs,
                                                           // numbers.workers, pager) { Ok(served) => { let tally =
                                                           // tally_of(&served); note_stopped(rt, numbers.workers, &tally);
                                                           // tell(rt, tally) } Err(fault) => Err(Failure::from(fault)), }

active proctype Accepting() {
    byte accepted, place, other;
    bit is_left;
    serve_in();
rests:
    skip
}

/* The peers of all connections. */

active [WORKERS] proctype Peers() {
    byte me = _pid - 1;
    do
    :: atomic { resting[me] > 0 -> resting[me]--; ready[me]++ }
    :: break
    od
}

/* A worker. */

inline turn() {
    if
    :: resting[me]++
    :: due[me]++
    :: skip /* it is closed */
    fi
}

#ifdef SLEEPS_ON_WHAT_IS_DUE
#define NOTHING_IS_DUE true
#else
#define NOTHING_IS_DUE (due[me] == 0)
#endif

/* A poll with no time. */
inline poll() {
    do
    :: atomic { woken[me] && told < EVENTS -> woken[me] = false; told++ }
    :: atomic { ready[me] > 0 && told < EVENTS -> ready[me]--; events[me]++; told++ }
    :: else -> break
    od
}

#ifdef SLEEPS_ON_WHAT_WAS_TOLD
#define NOTHING_WAS_TOLD true
#elif defined SLEEPS_ON_ITS_WAKER
#define NOTHING_WAS_TOLD (events[me] == 0)
#else
#define NOTHING_WAS_TOLD (told == 0)
#endif

// lookout.rt: Lookout::takes
inline takes() {
    atomic { ok = !taken; taken = true }                   // self.taken.swap(1, SeqCst) == 0
}

// lookout.rt: Lookout::leaves
inline leaves() {
    taken = false                                          // self.taken.store(0, SeqCst);
}

// lookout.rt: poll_awake
inline poll_awake() {
    atomic { awake++; assert(awake == 1) };
    do                                                     // for _ in 0..idle_polls {
    :: polls < IDLE_POLLS -> polls++;
       poll();                                             // poll.poll(events, Some(AT_ONCE))?;
       if                                                  // if !events.is_empty() {
       :: !NOTHING_WAS_TOLD -> break                       // return Ok(()); }
       :: NOTHING_WAS_TOLD                                 // yield_now(); }
       fi
    :: polls == IDLE_POLLS -> break                        // Ok(())
    od;
    atomic { polls = 0; awake-- }
}

// lookout.rt: wait
inline wait() {
    takes();                                               // if idle_polls > 0 && lookout.takes() {
    if
    :: ok -> ok = false;
       poll_awake();                                       // let polled = poll_awake(poll, events, idle_polls);
#ifndef STAYS_AT_THE_LOOKOUT
       leaves()                                            // lookout.leaves();
#else
       skip
#endif
    :: !ok ->
#ifdef LEAVES_ANOTHERS
       leaves()
#elif defined POLLS_WITHOUT_THE_PLACE
       poll_awake()
#else
       skip
#endif
    fi;
    if                                                     // if polled.is_err() || !events.is_empty() {
    :: !NOTHING_WAS_TOLD                                   // return polled; } }
    :: NOTHING_WAS_TOLD ->
end_sleeps:
       woken[me] || ready[me] > 0;
       poll()                                              // poll.poll(events, None)
    fi
}

inline turn_ready() {
    do
    :: atomic { events[me] > 0 -> events[me]--; turn() }
    :: events[me] == 0 -> break
    od
}

inline turn_due() {
    count = due[me];
    do
    :: atomic { count > 0 -> count--; due[me]--; turn() }
    :: count == 0 -> break
    od
}

/* A poll reports at once what is registered. */
// lines.rt: line_of
                                                           // let _is_set = socket.set_nodelay(true).is_ok();
                                                           // if socket.set_nonblocking(true).is_err() {
                                                           // return None; }
                                                           // Some(Line {
                                                           // socket: mio::net::TcpStream::from_std(socket),
                                                           // talk: Conversation::new(alloc),
                                                           // is_due: false, is_closing: false, })
// lines.rt: Lines::add
                                                           // let Ok(place) = self.items.insert(line)
                                                           // else { return None; }; Some(place)
// lines.rt: register
                                                           // let Some(line) = items.get_mut(place)
                                                           // else { return false; };
                                                           // let interest = Interest::READABLE | Interest::WRITABLE;
                                                           // poll.registry()
                                                           // .register(&mut line.socket, Token(place), interest).is_ok()
// lines.rt: Lines::take
#define TAKES ready[me]++                                  // self.taken = self.taken.saturating_add(1);
                                                           // let Some(line) = line_of(self.alloc, socket)
                                                           // else { return; };
                                                           // let Some(place) = self.add(line) else { return; };
                                                           // if !register(&mut self.items, poll, place) {
                                                           // self.close(place); }

// worker.rt: take_new
inline take_new() {
    do                                                     // for _ in rt.forever() {
    ::
#ifdef COUNTS_SENDERS_LAST
       skip
#else
       is_closed = dropped[me];                            // match place.sockets.try_recv(rt) {
#endif
       if
       :: atomic { lying[me] > 0 -> lying[me]--; took[me]++; TAKES } // Ok(socket) => lines.take(poll, socket),
       :: atomic { lying[me] > 0 -> lying[me]--; took[me]++ } /* it is closed at once */
#ifdef LOOKS_ONCE
          more = true; break
#endif
       :: lying[me] == 0 ->
#ifdef COUNTS_SENDERS_LAST
          is_closed = dropped[me];
#endif
#ifdef CLOSED_IS_EMPTY
          more = true;
#else
          more = !is_closed;
#endif
          break                                            // Err(TryRecvError::Empty) => return true,
                                                           // Err(TryRecvError::Disconnected) => return false, } }
       fi
    od;                                                    // unreachable!()
    is_closed = false
}

// lines.rt: Lines::has_due
                                                           // !self.due.is_empty()

// worker.rt: Worker::round
inline round() {
                                                           // let Worker { poll, events, lines, room, place } = self;
#ifdef TAKES_BEFORE_IT_WAITS
    take_new();
#endif
    if                                                     // let polled = if lines.has_due() {
    :: !NOTHING_IS_DUE -> poll()                           // poll.poll(events, Some(AT_ONCE)) } else {
    :: NOTHING_IS_DUE -> wait()                            // wait(poll, events, &place.lookout, place.idle_polls) };
    fi;
    told = 0;                                              // if polled.is_err() { place.shared.leaves(); return false; }
    turn_ready();                                          // lines.turn_ready(events, gate, pass, room);
    turn_due();                                            // lines.turn_due(gate, pass, room);
#ifdef CLOSES_TOO_SOON
    closes();
#endif
#ifndef TAKES_BEFORE_IT_WAITS
    take_new();                                            // let is_open = take_new(rt, place, poll, lines);
#endif
#ifndef CLOSES_TOO_SOON
    closes();                                              // place.shared.closes(lines.closed());
#endif
#ifdef LEAVES_CONNECTIONS
    skip
#elif defined LEAVES_ITS_CHANNEL
    more = !IS_EMPTY
#else
    more = more || !IS_EMPTY                               // is_open || !lines.is_empty()
#endif
}

// worker.rt: Worker::rounds
inline rounds() {
    do                                                     // for _ in rt.forever() {
    :: round();                                            // if !self.round(rt, gate, pass) {
       if
       :: more
       :: !more -> break                                   // return; } }
       fi
    od
}

active [WORKERS] proctype Worker() {
    byte me = _pid - 1 - WORKERS;
    byte told, polls, count;
    bit is_closed, more, ok;
    rounds();
    assert(lying[me] == 0 && IS_EMPTY);
    ended[me] = true
}

#define SLEEPS_WELL(me) (OPEN(me) == resting[me] && lying[me] == 0 && ready[me] == 0 && events[me] == 0 && due[me] == 0 && \
    (ended[me] || !dropped[me] || resting[me] > 0))

/* None can go on. */
active proctype Watch() {
    timeout;
    assert(SLEEPS_WELL(0) && SLEEPS_WELL(WORKERS - 1) && !taken)
}
