/* What is durable: the tail is held until then, and who has to know waits for it. */
#include "pagelog_move.h"

#include <string.h>

enum { MOST_TAIL = 16 << 20, A_PART = MOST_TAIL / 8, GLANCE_MS = 1000, AT_ONCE_MS = 100 };
enum { QUICKEST_MS = 5, SLOWEST_MS = 200 };

/* A block without records. */
enum { HEAD_BYTES = 12 };

/* All up to a position of this generation is durable. Where its log is not known to have the tail that says
 * nothing of the tail's blocks. */
static void note_durable(struct pagelog_file *file, struct pagelog_position position) {
    struct named *named = file->source.named;
    if (!is_settled_here(named)) return;
    named->durable = higher_of(named->durable, position);
    pagelog_tail_drop(&named->tail, lower_of(position, named->told));
}

enum pagelog_outcome pagelog_note_fate(struct pagelog_file *file, const struct pagelog_place *place,
                                       const struct pagelog_fate *fate, struct pagelog_position position) {
    bool is_here = strcmp(place->run, file->source.named->place.run) == 0;
    if (is_here && fate->loss) return pagelog_lose_run(file, place, fate->loss);
    if (is_here) note_durable(file, fate->end);
    bool is_cut = is_here && fate->is_over && is_before(fate->end, position);
    return is_cut ? pagelog_move_on(file) : PAGELOG_DONE;
}

bool pagelog_file_is_durable(const struct pagelog_file *file, struct pagelog_awaited *awaited) {
    const struct named *named = file->source.named;
    if (awaited->position <= named->durable.number) return true;
    awaited->place = named->place;
    return false;
}

/* DONE: it may be asked whether it is durable. LOST: no keeper has said it, and it may be asked again.
 * CONFLICT: it is not in the database, and never will be. Else as of a begin that finds commits lost. */
static enum pagelog_outcome take_of_writer(struct pagelog_file *file, const struct pagelog_awaited *awaited,
                                           enum pagelog_outcome outcome, const struct pagelog_fate *fate) {
    struct named *named = file->source.named;
    struct pagelog_position position = {awaited->position};
    struct pagelog_place place;
    file->reason = NULL;
    if (is_before(named->told, position) && is_before(named->durable, position))
        return pagelog_file_fail(file, PAGELOG_CONFLICT, "it was lost before it was durable");
    if (is_between(named)) return pagelog_arrive(file); /* till then nothing here is known to be its own */
    if (outcome == PAGELOG_DONE) return pagelog_note_fate(file, &awaited->place, fate, position);
    outcome = pagelog_where(named->keepers, named->place.generation, &place);
    if (outcome == PAGELOG_DENIED && pagelog_keepers_reason(named->keepers)) return pagelog_take_denial(file);
    if (outcome == PAGELOG_DONE && place.generation > named->place.generation) return pagelog_move_on(file);
    return pagelog_file_fail(file, PAGELOG_LOST, "no keeper says what is durable");
}

struct pagelog_file_patience pagelog_file_patience(const struct pagelog_file *file) {
    return (struct pagelog_file_patience){.until = pagelog_after(file->options.move_ms),
                                          .wait_ms = QUICKEST_MS};
}

bool pagelog_file_may_wait(struct pagelog_file *file, struct pagelog_file_patience *patience) {
    if (pagelog_now() >= patience->until || !pagelog_may_pause(file)) return false;
    pagelog_back_off(&patience->wait_ms, SLOWEST_MS);
    return true;
}

/* One question, while which others may use the file, where they are let in. */
static enum pagelog_outcome ask(const struct pagelog_asking *asking, const struct pagelog_awaited *awaited,
                                struct pagelog_fate *fate) {
    struct pagelog_position position = {awaited->position};
    if (asking->let_in) asking->let_in(asking->argument);
    enum pagelog_outcome outcome =
        pagelog_fate_of(asking->keepers, awaited->place.lines, &awaited->place, position, fate);
    if (asking->go_on) asking->go_on(asking->argument);
    return outcome;
}

/* What the answer to a question says. */
typedef enum pagelog_outcome take_fate(struct pagelog_file *file, const struct pagelog_awaited *awaited,
                                       enum pagelog_outcome outcome, const struct pagelog_fate *fate);

/* The one wait for what becomes durable. LOST: it is asked again, as long as whoever waits goes on. */
static enum pagelog_outcome await(struct pagelog_file *file, uint64_t position,
                                  const struct pagelog_asking *asking, take_fate *take) {
    struct pagelog_awaited awaited = {.position = position};
    struct pagelog_file_patience patience = pagelog_file_patience(file);
    while (!pagelog_file_is_durable(file, &awaited)) {
        struct pagelog_fate fate;
        enum pagelog_outcome outcome = ask(asking, &awaited, &fate);
        outcome = take(file, &awaited, outcome, &fate);
        if (outcome == PAGELOG_DONE) continue;
        bool goes_on = outcome == PAGELOG_LOST && pagelog_keepers_wait_on(asking->keepers);
        if (!goes_on || !pagelog_file_may_wait(file, &patience)) return outcome;
    }
    return PAGELOG_DONE;
}

enum pagelog_outcome pagelog_file_await(struct pagelog_file *file, uint64_t position,
                                        const struct pagelog_asking *asking) {
    return await(file, position, asking, take_of_writer);
}

/* How many bytes the tail gets more. */
static size_t bytes_of(const struct pagelog_blocks *blocks) {
    size_t bytes = 0, length;
    for (size_t i = 0; i < pagelog_blocks_count(blocks); i++) {
        pagelog_blocks_at(blocks, i, &length);
        bytes += length;
    }
    return bytes;
}

/* What was to be appended is in the tail no more. */
static enum pagelog_outcome let_go(struct pagelog_file *file, enum pagelog_outcome outcome) {
    pagelog_tail_cut(&file->source.named->tail, next_of(file->source.named->told));
    pagelog_begin_session(file);
    return outcome;
}

/* What the next block is made upon, where that may be lost yet and is not held, as after a leap: a log that
 * has another block there is not to get the next one. */
static enum pagelog_outcome hold_before(struct pagelog_file *file) {
    const struct named *named = file->source.named;
    struct pagelog_position known = higher_of(named->durable, named->place.archived);
    size_t length;
    if (pagelog_blocks_count(file->blocks) == 0) return PAGELOG_DONE;
    struct pagelog_position position = position_of_block(file, pagelog_blocks_at(file->blocks, 0, &length));
    known = higher_of(known, named->place.base);
    if (is_at(position, named->tail.next) || !is_before(next_of(known), position)) return PAGELOG_DONE;
    struct pagelog_reply pulled;
    enum pagelog_outcome outcome = pull_from(file, last_before(position), 1, &pulled);
    if (outcome == PAGELOG_DONE) pagelog_hold_pulled(file, last_before(position), &pulled);
    return outcome;
}

enum pagelog_outcome pagelog_hold_blocks(struct pagelog_file *file) {
    struct named *named = file->source.named;
    enum pagelog_outcome outcome = PAGELOG_DONE;
    size_t length, more = bytes_of(file->blocks), part = more > A_PART ? more : A_PART;
    if (pagelog_tail_bytes(&named->tail) + more > MOST_TAIL)
        outcome = pagelog_file_await(file, pagelog_tail_after(&named->tail, part).number,
                                     &(struct pagelog_asking){.keepers = named->keepers});
    if (outcome == PAGELOG_DONE && !is_writer(file)) outcome = pagelog_write_on(file);
    if (outcome == PAGELOG_DONE) outcome = hold_before(file);
    for (size_t i = 0; i < pagelog_blocks_count(file->blocks) && outcome == PAGELOG_DONE; i++) {
        const uint8_t *block = pagelog_blocks_at(file->blocks, i, &length);
        struct pagelog_position position = position_of_block(file, block);
        if (!pagelog_tail_add(&named->tail, position, block, length))
            outcome = pagelog_file_fail(file, PAGELOG_NO_MEMORY, "this process has no memory left");
    }
    return outcome == PAGELOG_DONE ? outcome : let_go(file, outcome);
}

/* Takes a block that is in the log; false where memory runs out, or where the tail is as long as it may be.
 */
static bool hold(struct pagelog_file *file, struct pagelog_position position, const uint8_t *block,
                 size_t length) {
    struct named *named = file->source.named;
    if (pagelog_tail_bytes(&named->tail) + length > MOST_TAIL) return false;
    if (!pagelog_tail_add(&named->tail, position, block, length)) return false;
    named->told = position;
    return true;
}

/* What no pull has served is a block without records. What was not held before, and is not held now, is sent
 * again by nobody, or by its writer. */
void pagelog_hold_pulled(struct pagelog_file *file, struct pagelog_position from,
                         const struct pagelog_reply *pulled) {
    struct pagelog_tail *tail = &file->source.named->tail;
    size_t at = 0, length = 0;
    const uint8_t *block = pagelog_next_block(pulled, &at, &length);
    if (file->options.reads_only) return;
    for (struct pagelog_position now = from; is_before(now, next_in(file, pulled)); now = next_of(now)) {
        static const uint8_t none[HEAD_BYTES];
        bool is_served = block && is_at(position_of_block(file, block), now);
        bool is_held = !pagelog_tail_is_empty(tail) && is_before(now, tail->next);
        bool is_good = is_held || hold(file, now, is_served ? block : none, is_served ? length : HEAD_BYTES);
        if (!is_good) pagelog_tail_drop(tail, tail->next);
        if (is_served) block = pagelog_next_block(pulled, &at, &length);
    }
}

enum pagelog_outcome pagelog_end_append(struct pagelog_file *file, enum pagelog_outcome outcome) {
    struct named *named = file->source.named;
    if (outcome != PAGELOG_DONE && pagelog_may_move(file, outcome)) outcome = pagelog_move(file, outcome);
    if (outcome != PAGELOG_DONE) return let_go(file, outcome);
    named->settled = named->place;
    if (!pagelog_tail_is_empty(&named->tail)) named->told = named->own = last_before(named->tail.next);
    return PAGELOG_DONE;
}

void pagelog_file_suspect(struct pagelog_file *file) {
    file->source.named->is_suspect = true;
}

/* A reader of what is durable has the keeper archive what it sees in the log, as a commit does that waits. If
 * that takes long it reads what is durable now, and asks for nothing for a while. */
static enum pagelog_outcome hurry(struct pagelog_file *file) {
    struct named *named = file->source.named;
    struct pagelog_place place = named->place;
    struct pagelog_reply status;
    struct pagelog_fate fate;
    if (pagelog_now() < named->hurried || !is_settled_here(named)) return PAGELOG_DONE;
    if (pagelog_status(file->log, PAGELOG_SECONDARY, &status) != PAGELOG_DONE) return PAGELOG_DONE;
    struct pagelog_position end = hard_of(file, &status);
    if (!is_before(named->durable, end)) return PAGELOG_DONE;
    enum pagelog_outcome outcome = pagelog_fate_at_once(named->keepers, &place, end, AT_ONCE_MS, &fate);
    if (outcome == PAGELOG_DONE) {
        named->hurry_ms = 0;
        return pagelog_note_fate(file, &place, &fate, end);
    }
    named->hurry_ms = named->hurry_ms == 0 ? AT_ONCE_MS : 2 * named->hurry_ms;
    if (named->hurry_ms > GLANCE_MS) named->hurry_ms = GLANCE_MS;
    named->hurried = pagelog_after(named->hurry_ms);
    return PAGELOG_DONE;
}

/* The same of one that reads what is durable alone. */
static enum pagelog_outcome take_of_reader(struct pagelog_file *file, const struct pagelog_awaited *awaited,
                                           enum pagelog_outcome outcome, const struct pagelog_fate *fate) {
    struct pagelog_position position = {awaited->position};
    outcome = outcome == PAGELOG_DONE ? pagelog_note_fate(file, &awaited->place, fate, position)
                                      : pagelog_glance(file);
    bool is_awaited = outcome == PAGELOG_DONE && is_before(file->source.named->durable, position);
    return is_awaited ? PAGELOG_LOST : outcome;
}

enum pagelog_outcome pagelog_file_reach(struct pagelog_file *file, uint64_t position) {
    struct named *named = file->source.named;
    file->reason = NULL;
    if (position <= named->durable.number) return PAGELOG_DONE;
    if (named->place.is_page_server)
        return pagelog_reach_at_page_server(file, (struct pagelog_position){position});
    struct pagelog_asking asking = {.keepers = named->keepers};
    enum pagelog_outcome outcome = await(file, position, &asking, take_of_reader);
    if (outcome == PAGELOG_LOST && !file->reason)
        return pagelog_file_fail(file, outcome, "no keeper says that what was read before is durable");
    if (outcome == PAGELOG_DONE) file->checked = 0;
    return outcome;
}

/* Whether PostgreSQL went back, and has lost the run with what this file has committed there. Its next write
 * is told so; a move would hide it. Who has these lines is asked first. */
static bool has_lost_run(struct pagelog_file *file, const char *lines, struct pagelog_fate *fate) {
    struct named *named = file->source.named;
    bool is_told = !is_none(named->own) && pagelog_tail_is_empty(&named->tail) &&
                   pagelog_fate_of(named->keepers, lines, &named->place, named->own, fate) == PAGELOG_DONE;
    return is_told && (fate->loss || (fate->is_over && is_before(fate->end, named->own)));
}

/* Asked is who has the later generation, as the next begin does: another may be silent, or know less. */
enum pagelog_outcome pagelog_file_leave(struct pagelog_file *file) {
    struct named *named = file->source.named;
    struct pagelog_place place;
    struct pagelog_fate fate;
    file->reason = NULL;
    named->is_suspect = true;
    if (is_between(named)) return PAGELOG_DONE; /* till then nothing here is known to be its own */
    if (pagelog_where(named->keepers, named->place.generation + 1, &place) != PAGELOG_DONE)
        return PAGELOG_DONE;
    if (!has_lost_run(file, place.lines, &fate)) return PAGELOG_DONE;
    return pagelog_lose_run(file, &named->place, fate.loss ? fate.loss : PAGELOG_SUPERSEDED);
}

/* Another run has the number of this one: PostgreSQL may have lost this one. Who has committed here is told
 * that by its next commit. */
static enum pagelog_outcome leave_if_lost(struct pagelog_file *file) {
    struct named *named = file->source.named;
    struct pagelog_fate fate = {0};
    const struct pagelog_position any = {0};
    bool has_own = !is_none(named->own) || !pagelog_tail_is_empty(&named->tail);
    bool is_told =
        !has_own && pagelog_fate_of(named->keepers, NULL, &named->place, any, &fate) == PAGELOG_DONE;
    if (!is_told || fate.loss != PAGELOG_SUPERSEDED) return PAGELOG_DONE;
    pagelog_go(file, is_between(named) ? OUT : LEFT_BEHIND);
    named->durable = any;
    return pagelog_move_on(file);
}

enum pagelog_outcome pagelog_glance(struct pagelog_file *file) {
    struct named *named = file->source.named;
    struct pagelog_place place;
    struct pagelog_fate fate;
    uint64_t now = pagelog_now();
    if (named->place.is_page_server) return pagelog_look_at_page_server(file);
    bool was_suspect = named->is_suspect, has_tail = !pagelog_tail_is_empty(&named->tail);
    bool is_wanted = was_suspect || (has_tail && now - named->glanced >= GLANCE_MS);
    if (!is_wanted && !file->options.durable_only && !is_closing(named)) return PAGELOG_DONE;
    named->glanced = now;
    named->is_suspect = false;
    uint64_t own = named->place.generation;
    enum pagelog_outcome outcome = pagelog_where_later(named->keepers, own, own + was_suspect, &place);
    if (outcome == PAGELOG_DENIED && pagelog_keepers_reason(named->keepers)) return pagelog_take_denial(file);
    if (outcome != PAGELOG_DONE) return PAGELOG_DONE;
    named->place.pages = place.pages;
    if (place.generation > named->place.generation)
        return was_suspect && has_lost_run(file, place.lines, &fate) ? PAGELOG_DONE : pagelog_move_on(file);
    if (strcmp(place.run, named->place.run) != 0) return leave_if_lost(file);
    note_durable(file, place.archived);
    return file->options.durable_only && !file->options.at ? hurry(file) : PAGELOG_DONE;
}
