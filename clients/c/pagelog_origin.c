/* The origin of an end mark: for which database, and which run of it, it was made.
 *
 * Page 0 has it behind the room of the name, as the text DATABASE/RUN after the seed of a session. That is
 * the code of the text by the seed, and stands in each mark: so no two runs have the same mark, and a mark
 * with another session is of an older client, which says nothing. */
#include "pagelog_file_inside.h"
#include "pagelog_sha256.h"

#include <ctype.h>
#include <stdio.h>
#include <string.h>
#include <sys/random.h>

enum { TEXT_BYTES = PAGELOG_IDENTITY_BYTES + PAGELOG_RUN_BYTES, NUMBER_BYTES = 8 };

/* Both, as texts. */
struct origin {
    char database[PAGELOG_IDENTITY_BYTES], run[PAGELOG_RUN_BYTES];
};

static uint64_t session_of(const uint8_t *seed, const char *text, size_t length) {
    uint8_t code[PAGELOG_SHA256_BYTES];
    pagelog_hmac_sha256(seed, SEED_BYTES, text, length, code);
    return pagelog_read_number(code, NUMBER_BYTES);
}

/* What is written of the run that the file is in: nothing where it is in none. */
static size_t text_of(const struct pagelog_file *file, char text[TEXT_BYTES]) {
    const struct pagelog_place *place = pagelog_file_place(file);
    *text = 0;
    return place ? (size_t)snprintf(text, TEXT_BYTES, "%s/%s", place->database, place->run) : 0;
}

void pagelog_renew_session(struct pagelog_file *file) {
    char text[TEXT_BYTES];
    size_t length = text_of(file, text);
    file->session = session_of(file->seed, text, length);
}

bool pagelog_begin_session(struct pagelog_file *file) {
    bool is_random = getrandom(file->seed, sizeof file->seed, 0) == sizeof file->seed;
    pagelog_renew_session(file);
    return is_random;
}

enum pagelog_outcome pagelog_add_origin(struct pagelog_file *file) {
    uint8_t bytes[ORIGIN_BYTES];
    memcpy(bytes, file->seed, SEED_BYTES);
    size_t length = text_of(file, (char *)bytes + SEED_BYTES + 1);
    bytes[SEED_BYTES] = (uint8_t)length;
    return pagelog_blocks_put(file->blocks, MARK_PAGE, ORIGIN_PLACE, bytes,
                              (uint16_t)(SEED_BYTES + 1 + length));
}

/* Whether the session is the code of an origin of so many bytes. */
static bool is_session_of(struct pagelog_file *file, uint64_t session, const uint8_t *bytes, size_t length) {
    const struct known_origin *known = file->known;
    for (size_t i = 0; i < MOST_KNOWN; i++)
        if (known[i].session == session && known[i].length == length &&
            memcmp(known[i].bytes, bytes, length) == 0)
            return true;
    size_t text = SEED_BYTES + 1;
    if (session_of(bytes, (const char *)bytes + text, length - text) != session) return false;
    struct known_origin *one = &file->known[file->next_known++ % MOST_KNOWN];
    *one = (struct known_origin){.session = session, .length = length};
    memcpy(one->bytes, bytes, length);
    return true;
}

/* Reads it; false where it is not that of the mark. */
static bool read_origin(struct pagelog_file *file, const uint8_t *bytes, const struct mark *mark,
                        struct origin *origin) {
    size_t length = bytes[SEED_BYTES];
    char text[TEXT_BYTES] = "";
    if (length == 0 || length >= TEXT_BYTES) return false;
    memcpy(text, bytes + SEED_BYTES + 1, length);
    const char *slash = strchr(text, '/');
    for (size_t i = 0; i < length; i++)
        if (!isgraph((unsigned char)text[i])) return false; /* it is shown */
    if (!slash || slash - text >= PAGELOG_IDENTITY_BYTES || strlen(slash + 1) >= PAGELOG_RUN_BYTES)
        return false;
    snprintf(origin->database, sizeof origin->database, "%.*s", (int)(slash - text), text);
    snprintf(origin->run, sizeof origin->run, "%s", slash + 1);
    return is_session_of(file, mark->session, bytes, SEED_BYTES + 1 + length);
}

bool pagelog_has_origin(struct pagelog_file *file, const uint8_t *page, const struct mark *mark) {
    struct origin origin;
    return read_origin(file, page + ORIGIN_PLACE, mark, &origin);
}

/* A mark of another run is there because the archive had it, or because its writer has sent it again, mostly
 * from the run before. One that was away meanwhile may have sent it from an earlier one: so it is said, and
 * refused by nobody. */
static void note_run(struct pagelog_file *file, const struct origin *origin,
                     struct pagelog_position position) {
    const struct pagelog_place *place = pagelog_file_place(file);
    bool is_explained = strcmp(origin->run, place->run) == 0 || !is_before(place->kept, position) ||
                        strcmp(origin->run, place->after) == 0;
    if (!*place->after || is_explained || strcmp(origin->run, file->noted) == 0) return;
    snprintf(file->noted, sizeof file->noted, "%s", origin->run);
    file->has_note = true;
}

static enum pagelog_outcome check(struct pagelog_file *file, const uint8_t *bytes, const struct mark *mark) {
    const struct pagelog_place *place = pagelog_file_place(file);
    struct pagelog_position position = mark->position;
    struct origin origin;
    if (!place || !read_origin(file, bytes, mark, &origin)) return PAGELOG_DONE;
    if (strcmp(origin.database, place->database) == 0) {
        note_run(file, &origin, position);
        return PAGELOG_DONE;
    }
    if (!is_before(place->copied, position)) return PAGELOG_DONE;
    file->is_misnamed = true;
    snprintf(file->words, sizeof file->words,
             "page 0 was written for the database %s, and not for this one, %s", origin.database,
             place->database);
    return pagelog_file_fail(file, PAGELOG_MALFORMED, file->words);
}

enum pagelog_outcome pagelog_check_origin(struct pagelog_file *file, const uint8_t *page,
                                          const struct mark *mark) {
    return check(file, page + ORIGIN_PLACE, mark);
}

/* The origin that blocks put into page 0 last; NULL: none. */
static const uint8_t *origin_in(const struct pending *pending) {
    const uint8_t *found = NULL;
    struct pagelog_records records;
    struct pagelog_record record;
    for (size_t at = 0; at < pending->length;) {
        size_t length = (size_t)pagelog_read_number(pending->bytes + at, 4);
        pagelog_records_begin(&records, pending->bytes + at + 4);
        while (pagelog_records_next(&records, &record))
            if (record.page == MARK_PAGE && record.offset == ORIGIN_PLACE && record.length > SEED_BYTES &&
                record.length > SEED_BYTES + record.bytes[SEED_BYTES])
                found = record.bytes;
        at += 4 + length;
    }
    return found;
}

enum pagelog_outcome pagelog_check_pending(struct pagelog_file *file, const struct mark *mark) {
    const uint8_t *found = mark->session != file->mark.session ? origin_in(&file->pending) : NULL;
    enum pagelog_outcome outcome = found ? check(file, found, mark) : PAGELOG_DONE;
    if (outcome == PAGELOG_DONE) return outcome;
    file->pending.length = 0; /* the next begin pulls it again, and is told again */
    file->next = next_of(file->mark.position);
    return outcome;
}

bool pagelog_file_take_note(struct pagelog_file *file, char *text, size_t room) {
    bool has_note = file->has_note;
    file->has_note = false;
    if (has_note)
        snprintf(
            text, room,
            "the newest transaction was made for run %s, which is neither this run, %s, nor the one before",
            file->noted, pagelog_file_place(file)->run);
    return has_note;
}

enum pagelog_outcome pagelog_file_origin(struct pagelog_file *file, char *text, size_t room) {
    uint8_t page[PAGELOG_PAGE_BYTES];
    const uint32_t number = MARK_PAGE;
    struct mark mark = file->mark;
    struct origin origin;
    *text = 0;
    struct wanted wanted = {.pages = &number, .count = 1};
    bool has_one = !is_none(lsn_of(file, mark.position));
    enum pagelog_outcome outcome = has_one ? pagelog_fetch(file, mark.position, wanted, page) : PAGELOG_DONE;
    if (has_one && outcome == PAGELOG_DONE && read_origin(file, page + ORIGIN_PLACE, &mark, &origin))
        snprintf(text, room, "%s/%s", origin.database, origin.run);
    return outcome;
}
