/*
 * The turns of a worker's connections, in every interleaving: what a turn reads and writes, what it waits for, and which turns
 * are due, of crates/pl_conn, as a model for the checker spin. scripts/waiting runs it.
 *
 * A peer sends the frames of requests part by part, as many as it likes, and stops inside a frame if it likes. Then it is
 * silent for ever, or says that it sends no more, or is gone. It reads the replies when it likes, late or soon. The system
 * reports a connection where something changed (an edge), once, with all that is so at that moment; it reports that there is
 * room to write only after a write that found none, and only once there is enough. Each read, each write and each poll is a
 * step by itself. What a turn does besides concerns the worker alone.
 *
 * Once none can go on, each whole request has its reply, which the peer has, unless it is gone; a connection whose peer
 * sends no more is closed; and no turn is due. In each state, the places that are due are those of the connections which say
 * so, once each; no more than GATHERS replies wait; a connection is closed only if its peer sends no more, and not before
 * its last reply is written; and a turn that found nothing to do leaves none due, so that no worker runs in circles.
 *
 * After each step is the line of the code that it is for, under the name of its function; two dots stand for lines that
 * the model leaves out. scripts/waiting compares these lines with the source.
 *
 * Left out: memory that is refused, and frames that are too long. New sockets are last in a round, so no event and no due
 * place is of an earlier connection of the same place. worker.pml has how they arrive.
 */

#ifndef LINES
#define LINES 1
#endif
#ifndef FRAMES
#define FRAMES 3  /* how many a peer sends at most */
#endif
#ifndef WRITES
#define WRITES 1  /* how often a turn writes replies, WRITES_A_TURN */
#endif
#ifndef GATHERS
#define GATHERS 1 /* how many replies may wait together */
#endif
#ifndef ROOM
#define ROOM 3    /* how many parts of frames a worker's inbox holds */
#endif
#ifndef INS
#define INS 3     /* how many parts a socket holds */
#endif
#ifndef OUTS
#define OUTS 2    /* how many replies a socket holds */
#endif

/* These numbers are smaller here. A room holds no more frames than MOST_FRAMES. */
// conversation.rt: WRITES_A_TURN
                             // const WRITES_A_TURN: u32 = 4;
// conversation.rt: MOST_WRITES
                             // const MOST_WRITES: u32 = 16_385;
// conversation.rt: MOST_FRAMES
                             // const MOST_FRAMES: u64 = 16_385;
// inbox.rt: LONGEST_FRAME
                             // const LONGEST_FRAME: usize = 65_540;
// outbox.rt: MANY_BYTES
                             // const MANY_BYTES: usize = 262_144;
// outbox.rt: MANY_REPLIES
                             // const MANY_REPLIES: usize = 4_096;
/* Of memory alone. */
// conversation.rt: MOST_KEPT
                             // const MOST_KEPT: usize = 4_096;

#define PARTS 2              /* the parts of a frame */
#define ENOUGH (OUTS / 2)    /* with this many replies or fewer in it, a socket is reported to have room */

/* Of the sockets. */
byte in[LINES];              /* the parts that wait to be read */
byte out[LINES];             /* the replies that wait for the peer */
byte sent[LINES], got[LINES]; /* what the peer has sent and got in all */
bit shut[LINES], gone[LINES];
bit edge[LINES] = true;      /* whether something changed since a poll reported it: at first, that it is registered */
bit no_room[LINES];          /* whether a write found no room */

/* Of the worker. */
bit is_open[LINES] = true;
bit is_due[LINES], is_closing[LINES];
byte unread[LINES], waiting[LINES];
byte due[2 * LINES], dues;   /* the list of places, and how long it is: those of this round, and of the next */

/* Whose turn it is, what it came to, and whether it did anything. */
byte at, rest;
bit moved;

mtype = { begins, ends };
chan turns = [0] of { mtype };

/* What a turn ends in, and what a read gives. */
#define INPUT 1
#define OUTPUT 2
#define AGAIN 3
#define OVER 4
#define FAILED 5
#define SOME 1
#define ALL 2
#define END 3

/* What the system does. */

#define IS_READY(at) (in[at] > 0 || shut[at] || gone[at] || out[at] <= ENOUGH)

/* Reports a connection, if something changed and it is ready for something now. */
inline tell_of(at) {
    if
    :: is_open[at] && edge[at] ->
       edge[at] = false;
       if
       :: IS_READY(at) -> event[at] = true; says_closed[at] = shut[at]; told = true
       :: else
       fi
    :: else
    fi
}

#if LINES == 1
#define ARE_OPEN is_open[0]
#define HAS_EDGE (is_open[0] && edge[0])
#define TELL_OF_ALL tell_of(0)
#else
#define ARE_OPEN (is_open[0] || is_open[1])
#define HAS_EDGE (is_open[0] && edge[0] || is_open[1] && edge[1])
#define TELL_OF_ALL tell_of(0); tell_of(1)
#endif

#ifdef SLEEPS_ON_WHAT_IS_DUE
#define HAS_TIME true
#else
#define HAS_TIME (dues == 0)
#endif

inline poll() {
end_sleeps:
    do
    :: atomic { HAS_EDGE -> TELL_OF_ALL };
       if
       :: told || !HAS_TIME -> told = false; break
       :: else
       fi
    :: !HAS_EDGE && !HAS_TIME -> break
    od
}

active [LINES] proctype Peer() {
    byte me = _pid;
    do
    :: atomic { sent[me] < FRAMES * PARTS && in[me] < INS && is_open[me] -> in[me]++; sent[me]++; edge[me] = true }
    :: break
    od;
    if
    :: skip
    :: atomic { shut[me] = true; edge[me] = true };
       if
       :: skip
       :: atomic { gone[me] = true; edge[me] = true }
       fi
    fi
}

active [LINES] proctype Reader() {
    byte me = _pid - LINES;
end_reads:
    do
    :: !is_open[me] && out[me] == 0 -> break
    :: atomic {
           out[me] > 0 && !gone[me] -> out[me]--; got[me]++;
           if
           :: no_room[me] && out[me] <= ENOUGH -> no_room[me] = false; edge[me] = true
           :: else
           fi
       }
    od
}

/* A turn. */

// answers.rt: write_ready
inline write_ready(count) {
    do                                                     // match write_bytes(writer, bytes) {
    :: atomic {                                            /* it writes again until all is written, or a write is refused */
           count > 0 && !gone[at] && out[at] < OUTS ->
           out[at]++; count--; moved = true
       }
#ifdef WRITES_ONCE
       break
#endif
    :: count == 0 -> break                                 // Ok(()) => (bytes.len(), Ok(())),
    :: atomic { count > 0 && !gone[at] && out[at] == OUTS -> no_room[at] = true; break }
                                                           // Err(stop) if stop.error.kind() == ErrorKind::WouldBlock
                                                           // => (stop.count, Ok(())),
    :: atomic { count > 0 && gone[at] -> failed = true; break }
                                                           // Err(stop) => (stop.count, Err(Cause::Write)), }
    od
}

// conversation.rt: Conversation::tell
inline tell() {
    write_ready(waiting[at])                               // let (count, end) = write_ready(writer,
                                                           // &self.waiting[self.sent..]); self.sent += count;
                                                           // if self.sent == self.waiting.len() {
                                                           // self.waiting = Vec::new(alloc); self.sent = 0; } end
}

// inbox.rt: Inbox::is_full
#define IS_FULL (held == ROOM)                             // self.len == self.room.len()

// inbox.rt: Inbox::fill
#define FILLS (in[at] < ROOM - held -> in[at] : ROOM - held) // let more = read_after(from, self.room.as_mut_slice(), self.len)?;
                                                           // self.len += more; Ok(more)

// inbox.rt: read_after
                                                           // from.read(&mut room[count..])

// inbox.rt: Inbox::load
#define LOAD(count) held = count                           // put_front(self.room.as_mut_slice(), bytes);
                                                           // self.len = bytes.len();

// outbox.rt: Outbox::may_gather
#define MAY_GATHER (replies < GATHERS)                     // self.text.len() < MANY_BYTES && self.lens.len() < MANY_REPLIES

// conversation.rt: hear
inline hear() {
    if
    :: held >= PARTS -> heard = SOME                       // if !is_cut(inbox.as_slice()) { return Ok(Heard::Some); }
    :: held < PARTS ->
       d_step {                                            // match inbox.fill(reader) {
           taken = FILLS;
           in[at] = in[at] - taken; held = held + taken;
           if
           :: taken == 0 && gone[at] -> failed = true; moved = true
           :: taken == 0 && !gone[at] && shut[at] -> heard = END; moved = true // Ok(0) => Ok(Heard::End),
#ifndef FULL_IS_ALL
           :: taken > 0 && IS_FULL -> heard = SOME; moved = true // Ok(_) if inbox.is_full() => Ok(Heard::Some),
           :: taken > 0 && !IS_FULL -> heard = ALL; moved = true // Ok(_) => Ok(Heard::All),
#else
           :: taken > 0 -> heard = ALL; moved = true
#endif
           :: taken == 0 && !gone[at] && !shut[at] -> heard = ALL
                                                           // Err(error) if error.kind() == ErrorKind::WouldBlock
                                                           // => Ok(Heard::All),
                                                           // Err(_) => Err(Cause::Read), }
           fi;
           taken = 0
       }
    fi
}

// answers.rt: answer_first
inline answer_first() {
                                                           // let body = body_in(bytes)?;
                                                           // let read = outbox.request_of(body);
    replies++;                                             // outbox.put_answer(read, gate, pass);
    held = held - PARTS;                                   // Some(LENGTH_BYTES + body.len())
    moved = true
}

/* A room holds no more frames than this loop answers. */
// answers.rt: answer_whole
inline answer_whole() {
    d_step {
                                                           // let mut taken = 0;
        do                                                 // for _ in 0..most {
        :: held == 0 || !MAY_GATHER -> break               // if taken == bytes.len() || !outbox.may_gather() { break; }
        :: held > 0 && MAY_GATHER && held < PARTS -> break // let Some(count) = answer_first(&bytes[taken..],
                                                           // gate, pass, outbox) else { break; };
        :: MAY_GATHER && held >= PARTS -> answer_first()
                                                           // taken += count; }
        od                                                 // taken
    }
}

// conversation.rt: speak
inline speak() {
                                                           // let mut taken = 0;
    do                                                     // for _ in 0..writes {
    :: writes < WRITES ->
                                                           // outbox.restart();
       if
       :: held < PARTS -> break                            // let Some(first) = answer_first(&bytes[taken..],
                                                           // gate, pass, outbox) else { return (taken, 0, Ok(())); };
       :: held >= PARTS -> d_step { answer_first() }
       fi;
       answer_whole();                                     // let more = answer_whole(&bytes[taken + first..],
                                                           // MOST_FRAMES, gate, pass, outbox);
                                                           // let text = outbox.text();
#ifndef ANSWERS_ARE_KEPT
       write_ready(replies);                               // let (sent, end) = write_ready(writer, text);
#endif
       writes++;                                           // taken += first + more;
       if
       :: failed || replies > 0 -> break                   // if end.is_err() || sent < text.len() {
                                                           // return (taken, sent, end); }
       :: !failed && replies == 0 && held == 0 -> break    // if taken == bytes.len() { return (taken, sent, Ok(())); }
       :: !failed && replies == 0 && held > 0
       fi
    :: writes == WRITES -> break                           // }
    od                                                     // (taken, outbox.text().len(), Ok(()))
}

/* If memory is refused, all frames are answered. */
// conversation.rt: end_of
// ..

// conversation.rt: Conversation::keep_unread
inline keep_unread() {
                                                           // let is_long = self.unread.capacity() > MOST_KEPT;
                                                           // if unread.is_empty() &&
                                                           // (is_long || self.unread.is_empty()) {
                                                           // if self.unread.capacity() > spare.capacity() {
                                                           // mem::swap(&mut self.unread, spare); }
                                                           // self.unread = Vec::new(alloc); return Ok(()); }
    unread[at] = held                                      // if put_all(&mut self.unread, unread).is_ok() {
                                                           // return Ok(()); }
                                                           // mem::swap(&mut self.unread, spare);
                                                           // let end = put_all(&mut self.unread, unread);
                                                           // if end.is_err() { self.unread.clear(); } end
}

// conversation.rt: Conversation::keep
inline keep() {
    atomic {
#ifdef READS_WHILE_REPLIES_WAIT
        waiting[at] = waiting[at] + replies;
#else
        waiting[at] = replies;                             // self.sent = 0;
                                                           // let end = put_all(&mut self.waiting, text);
                                                           // if end.is_err() { self.waiting.clear(); return end; }
#endif
        unread[at] = held;                                 // self.keep_unread(alloc, unread, spare)
        assert(waiting[at] <= GATHERS)
    }
}

// conversation.rt: rest_after
inline rest_after() {
    if
    :: waiting[at] > 0 -> rest = OUTPUT                    // if waiting > 0 { return Ok(Rest::Output); }
    :: waiting[at] == 0 ->
       if
#ifdef FULL_TURN_WAITS
       :: heard == ALL && unread[at] >= PARTS -> rest = INPUT
       :: heard == SOME -> rest = AGAIN
#elif defined UNREAD_INPUT_WAITS
       :: heard == SOME && unread[at] < PARTS -> rest = INPUT
       :: unread[at] >= PARTS -> rest = AGAIN
#else
                                                           // if !is_cut(unread) { return match body_in(unread) {
       :: unread[at] >= PARTS || heard == SOME -> rest = AGAIN // Some(_frame) => Ok(Rest::Again),
                                                           // None => Err(Cause::TooLong), }; }
#endif
                                                           // match heard { Heard::Some => Ok(Rest::Again),
       :: heard == ALL && unread[at] < PARTS -> rest = INPUT // Heard::All => Ok(Rest::Input),
       :: heard == END && unread[at] == 0 -> rest = OVER   // Heard::End if unread.is_empty() => Ok(Rest::Over),
       :: heard == END && unread[at] > 0 -> rest = FAILED  // Heard::End => Err(Cause::Short), }
       fi
    fi
}

// conversation.rt: Conversation::resume
inline resume() {
    tell();                                                // self.tell(room.alloc, writer)?;
    if
    :: failed -> rest = FAILED
#ifndef READS_WHILE_REPLIES_WAIT
    :: !failed && waiting[at] > 0 -> rest = OUTPUT         // if self.left() > 0 { return Ok(Rest::Output); }
    :: !failed && waiting[at] == 0 ->
#else
    :: !failed ->
#endif
       LOAD(unread[at]);                                   // room.inbox.load(self.unread());
       hear();                                             // let heard = hear(reader, &mut room.inbox)?;
       if
       :: failed -> rest = FAILED
       :: !failed ->
                                                           // let (bytes, outbox) =
                                                           // (room.inbox.as_slice(), &mut room.outbox);
          speak();                                         // let (taken, sent, end) = speak(bytes,
                                                           // WRITES_A_TURN, writer, gate, pass, outbox);
          if                                               // if end.is_err() {
          :: failed -> rest = FAILED                       // return Err(Cause::Write); }
          :: !failed ->
                                                           // let (unread, left) =
                                                           // (&bytes[taken..], &outbox.text()[sent..]);
             keep();                                       // if self.keep(room.alloc, left, unread,
                                                           // &mut room.spare).is_ok() {
             rest_after()                                  // return rest_after(heard, self.unread(), self.left()); }
          fi                                               // ..
       fi
    fi
}

/* A process of its own, so that the steps of a turn are here once. The worker waits until it has ended. */
active proctype Turn() {
    byte held, replies, writes, taken, heard;
    bit failed;
end_rests:
    do
    :: turns?begins -> resume();
       atomic { heard = 0; held = 0; replies = 0; writes = 0; failed = false; turns!ends }
    :: !ARE_OPEN -> break
    od
}

/* The turns of a worker. */

// lines.rt: turn
inline turn() {
                                                           // let mut reader = &line.socket;
                                                           // let mut writer = &line.socket;
    turns!begins; turns?ends                               // line.talk.resume(&mut reader, &mut writer,
                                                           // gate, pass, room)
}

// lines.rt: turn_of
#define TURN_OF turn()                                     // let Some(line) = items.get_mut(place)
                                                           // else { return Ok(Rest::Over); };
                                                           // turn(line, gate, pass, room)

// lines.rt: mark
#define MARK(at, value) is_due[at] = value                 // if let Some(line) = items.get_mut(place) {
                                                           // line.is_due = is_due; }

// lines.rt: Lines::list
inline list(at) {
    assert(dues < 2 * LINES);
    due[dues] = at; dues++;                                // if self.due.push_back(place).is_err() { return false; }
    MARK(at, true)                                         // mark(&mut self.items, place, true); true
}

// lines.rt: Lines::close
#define CLOSE is_open[at] = false                          // self.items.try_remove(place);

// lines.rt: Lines::is_closing
#define IS_CLOSING is_closing[at]                          // match self.items.get(place) {
                                                           // Some(line) => line.is_closing, None => false, }

#define IS_RIGHTLY_OVER(at) (gone[at] || shut[at] && in[at] == 0 && waiting[at] == 0 && unread[at] < PARTS)

// lines.rt: Lines::settle
inline settle() {
    d_step {
        if                                                 // match end {
        :: rest == OUTPUT                                  // Ok(Rest::Output) => {}
        :: rest == INPUT && !IS_CLOSING                    // Ok(Rest::Input) if !self.is_closing(place) => {}
        :: rest == INPUT && IS_CLOSING -> list(at)
                                                           // Ok(Rest::Input) | Ok(Rest::Again) => {
        :: rest == AGAIN -> list(at)                       // if !self.list(place) { self.close(place); } }
        :: rest == OVER || rest == FAILED -> CLOSE         // Ok(Rest::Over) => self.close(place), Err(_) => {
                                                           // self.faults = self.faults.saturating_add(1);
                                                           // self.close(place); } }
        fi;
        assert(moved || !is_due[at]);
        assert(is_open[at] || IS_RIGHTLY_OVER(at));
        rest = 0; moved = false
    }
}

// lines.rt: Lines::turn_at
inline turn_at() {
    TURN_OF;                                               // let end = turn_of(&mut self.items, place,
                                                           // gate, pass, room);
    settle()                                               // self.settle(place, end);
}

// lines.rt: is_for_turn
inline is_for_turn() {
    d_step {
                                                           // let Some(line) = items.get_mut(place)
                                                           // else { return false; };
#ifdef CLOSING_IS_NOT_TOLD
        skip;
#else
        is_closing[at] = is_closing[at] || says_closed[at]; // line.is_closing |= is_closed;
#endif
        event[at] = false; says_closed[at] = false;
        is_for_now = is_open[at] && !is_due[at]            // !line.is_due
    }
}

// lines.rt: Lines::turn_event
inline turn_event() {
                                                           // let place = event.token().0;
    is_for_turn();                                         // if is_for_turn(&mut self.items, place,
                                                           // event.is_read_closed()) {
    if
    :: is_for_now -> is_for_now = false; turn_at()         // self.turn_at(place, gate, pass, room); }
    :: !is_for_now
    fi
}

// lines.rt: Lines::turn_ready
inline turn_ready() {
    do                                                     // for event in events.iter() {
    :: atomic {
           place < LINES && event[place] ->
           at = place;
           turn_event();                                   // self.turn_event(event, gate, pass, room); }
           at = 0
       }
    :: atomic { place < LINES && !event[place] -> place++ }
    :: atomic { place == LINES -> place = 0; break }
    od
}

// lines.rt: Lines::next_due
inline next_due() {
    d_step {
        at = due[0];                                       // let place = self.due.pop_front()?;
        dues--;
        do
        :: place < dues -> due[place] = due[place + 1]; place++
        :: else -> due[place] = 0; place = 0; break
        od;
        MARK(at, false)                                    // mark(&mut self.items, place, false); Some(place)
    }
}

// lines.rt: Lines::turn_due
inline turn_due() {
    count = dues;                                          // for _ in 0..self.due.len() {
    do
    :: atomic {
           count > 0 -> count--;
           next_due();                                     // let Some(place) = self.next_due() else { return; };
           turn_at();                                      // self.turn_at(place, gate, pass, room); }
           at = 0
       }
    :: atomic { count == 0 -> break }
    od
}

/* The places that are due are those of the connections that say so, each once. */
#define IS_DUE(at) (is_open[at] && is_due[at])
#if LINES == 1
#define ARE_LISTED (dues == IS_DUE(0))
#else
#define IS_LISTED(at) (dues > 0 && due[0] == at || dues > 1 && due[1] == at)
#define ARE_LISTED (dues == IS_DUE(0) + IS_DUE(1) && IS_LISTED(0) == IS_DUE(0) && IS_LISTED(1) == IS_DUE(1))
#endif

active proctype Worker() {
    bit event[LINES], says_closed[LINES];
    byte place, count;
    bit told, is_for_now;
end_works:
    do
    :: !ARE_OPEN -> break
    :: poll();
       turn_ready();
       turn_due();
       assert(ARE_LISTED)
    od
}

#define IS_SERVED(at) ((gone[at] || got[at] == sent[at] / PARTS) && (is_open[at] == !(shut[at] || gone[at])) && !is_due[at])

/* None can go on. */
active proctype Watch() {
    timeout;
    assert(IS_SERVED(0));
#if LINES > 1
    assert(IS_SERVED(1))
#endif
}
