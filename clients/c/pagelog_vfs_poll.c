/* A poll of the keepers of a named database, for all connections of this process: which run is the holder's
 * now. A service that lives on without its keeper serves its log for ever, and says nothing of the run that
 * has superseded it.
 *
 * The question is sent by one begin, and its answers are taken by later ones: none waits, unless there was no
 * begin for a while. A write that no turn allows waits for them too. Readers of what is durable ask at each
 * begin by themselves; what they have seen is kept here, so that those that are opened later see as much. */
#include "pagelog_vfs_inside.h"

#include <string.h>
#include <time.h>

enum {
    EACH_MS = 1000,    /* between two questions, as long as there are begins */
    OFTEN_MS = 500,    /* the same, where a commit waits until it is durable */
    SLOWEST_MS = 8000, /* the same, where no keeper answers: each pause is twice the one before */
    IDLE_MS = 2000,    /* after so long without a begin one waits for the answers, */
    ANSWER_MS = 1000,  /* at most so long */
    LIVELY_MS = 200,   /* the same before a write without a turn */
};

struct holder_poll {
    struct holder_poll *next;
    unsigned references;
    char *addresses;
    struct pagelog_tls *tls; /* by which they are asked: what others say is no answer */
    char name[PAGELOG_PLACE_BYTES], identity[PAGELOG_IDENTITY_BYTES]; /* of the database */
    sqlite3_mutex *mutex;
    struct pagelog_keepers *keepers;
    struct pagelog_told told; /* the last answers */
    uint64_t begun;           /* when there was a begin last, */
    uint64_t ended;           /* and when the last question has ended: the next one comes that pause later */
    uint64_t look_again;      /* before that no write without a turn waits for answers */
    unsigned pause_ms;
    bool is_asked;     /* a question is on its way */
    uint64_t rounds;   /* answers that have come, and questions that none came to */
    uint64_t position; /* the highest that a reader of what is durable has seen */
};

static struct holder_poll *polls;

/* The one of vfs_database.c: no thread is amid a change of the list while this process forks. */
static sqlite3_mutex *list_mutex(void) {
    return sqlite3_mutex_alloc(SQLITE_MUTEX_STATIC_VFS1);
}

static uint64_t now_ms(void) {
    struct timespec now;
    clock_gettime(CLOCK_MONOTONIC, &now);
    return (uint64_t)now.tv_sec * 1000 + (uint64_t)now.tv_nsec / 1000000;
}

static void free_poll(struct holder_poll *poll) {
    if (!poll) return;
    pagelog_keepers_free(poll->keepers);
    sqlite3_mutex_free(poll->mutex);
    sqlite3_free(poll->addresses);
    sqlite3_free(poll);
}

/* One that is in no list yet; NULL where memory runs out. */
static struct holder_poll *make_poll(const struct database *database, const struct pagelog_place *place) {
    struct holder_poll *poll = sqlite3_malloc(sizeof *poll);
    if (!poll) return NULL;
    memset(poll, 0, sizeof *poll);
    poll->references = 1;
    poll->addresses = sqlite3_mprintf("%s", database->address);
    poll->mutex = sqlite3_mutex_alloc(SQLITE_MUTEX_FAST);
    poll->tls = database->tls;
    poll->keepers = pagelog_keepers_new(database->address, database->kept_name, database->tls);
    if (!poll->addresses || !poll->mutex || !poll->keepers) {
        free_poll(poll);
        return NULL;
    }
    strcpy(poll->name, database->kept_name);
    strcpy(poll->identity, place->database);
    pagelog_keepers_are_of(poll->keepers, place);
    poll->begun = now_ms();
    return poll;
}

/* The poll in the list, with one reference more; NULL where there is none. */
static struct holder_poll *find(const struct database *database, const struct pagelog_place *place) {
    struct holder_poll *poll = polls;
    while (poll &&
           (poll->tls != database->tls || strcmp(poll->addresses, database->address) != 0 ||
            strcmp(poll->name, database->kept_name) != 0 || strcmp(poll->identity, place->database) != 0))
        poll = poll->next;
    if (poll) poll->references++;
    return poll;
}

/* That of a database which was opened; NULL where memory runs out, or it is none of keepers. */
static struct holder_poll *poll_of(struct database *database) {
    const struct pagelog_place *place = pagelog_file_place(database->file);
    if (database->poll || !place) return database->poll;
    struct holder_poll *made = make_poll(database, place);
    if (!made) return NULL;
    sqlite3_mutex_enter(list_mutex());
    struct holder_poll *found = find(database, place);
    if (!found) {
        made->next = polls;
        polls = made;
    }
    sqlite3_mutex_leave(list_mutex());
    if (found) free_poll(made);
    return database->poll = found ? found : made;
}

void pagelog_leave_poll(struct database *database) {
    struct holder_poll *poll = database->poll, **at = &polls;
    if (!poll) return;
    sqlite3_mutex_enter(list_mutex());
    bool is_last = --poll->references == 0;
    while (is_last && *at != poll)
        at = &(*at)->next;
    if (is_last) *at = poll->next;
    sqlite3_mutex_leave(list_mutex());
    if (is_last) free_poll(poll);
}

void pagelog_abandon_polls(void) {
    for (struct holder_poll *poll = polls; poll; poll = poll->next)
        pagelog_keepers_abandon(poll->keepers);
    polls = NULL;
}

/* Takes answers, or waits for them, and asks so long after the last question; `wanted` is as of a place. */
static void ask(struct holder_poll *poll, unsigned pause_ms, uint64_t wait_ms, uint64_t wanted) {
    if (wait_ms == 0 && !poll->is_asked && now_ms() - poll->ended < pause_ms) return;
    if (wait_ms > 0 || !poll->is_asked) pagelog_where_begin(poll->keepers, wanted);
    struct pagelog_told told;
    poll->is_asked = !pagelog_where_take(poll->keepers, wait_ms, &told);
    bool is_said = told.generation > 0 || told.is_doubtful;
    if (is_said) poll->told = told;
    if (poll->is_asked) return;
    poll->rounds++;
    poll->pause_ms = is_said || poll->pause_ms == 0 ? EACH_MS : 2 * poll->pause_ms;
    if (poll->pause_ms > SLOWEST_MS) poll->pause_ms = SLOWEST_MS;
    poll->ended = now_ms();
}

/* At a begin. */
static void ask_at_begin(struct holder_poll *poll) {
    uint64_t now = now_ms();
    bool was_idle = now - poll->begun > IDLE_MS;
    poll->begun = now;
    ask(poll, poll->pause_ms, was_idle ? ANSWER_MS : 0, 0);
}

/* Whether the run is a later one than that of the file, or another one of its number. */
static bool is_another(const struct pagelog_told *told, const struct pagelog_place *place) {
    bool has_its_number = told->generation == place->generation;
    return told->generation > place->generation || (has_its_number && strcmp(told->run, place->run) != 0);
}

void pagelog_poll_holder(struct database *database) {
    struct holder_poll *poll = database->follows_holder ? poll_of(database) : NULL;
    if (!poll) return;
    sqlite3_mutex_enter(poll->mutex);
    ask_at_begin(poll);
    bool is_left = is_another(&poll->told, pagelog_file_place(database->file)) || poll->told.is_doubtful;
    bool is_told = is_left && database->polled != poll->rounds;
    if (is_told) database->polled = poll->rounds;
    if (poll->told.generation > 0) pagelog_file_hear_of_page_servers(database->file, poll->told.pages);
    sqlite3_mutex_leave(poll->mutex);
    if (is_told) pagelog_file_suspect(database->file);
}

bool pagelog_poll_is_past(struct database *database, uint64_t generation) {
    struct holder_poll *poll = database->poll; /* which a begin has made, before a commit waits */
    if (!poll || !database->follows_holder) return false;
    sqlite3_mutex_enter(poll->mutex);
    ask(poll, OFTEN_MS, 0, generation + 1);
    bool is_past = poll->told.generation > generation;
    sqlite3_mutex_leave(poll->mutex);
    return is_past;
}

bool pagelog_poll_looks_past(struct database *database, uint64_t generation) {
    struct holder_poll *poll = database->follows_holder ? poll_of(database) : NULL;
    if (!poll) return false;
    sqlite3_mutex_enter(poll->mutex);
    bool are_silent = poll->pause_ms > EACH_MS; /* nobody answered the last question */
    uint64_t began = now_ms();
    ask(poll, OFTEN_MS, are_silent || began < poll->look_again ? 0 : LIVELY_MS, generation + 1);
    uint64_t now = now_ms();
    if (now > began) poll->look_again = now + (now - began);
    bool is_past = poll->told.generation > generation;
    sqlite3_mutex_leave(poll->mutex);
    return is_past;
}

void pagelog_note_durable_read(struct database *database) {
    struct holder_poll *poll = database->is_durable_only ? poll_of(database) : NULL;
    uint64_t position = pagelog_file_state_of(database->file).position;
    if (!poll) return;
    sqlite3_mutex_enter(poll->mutex);
    if (position > poll->position) poll->position = position;
    sqlite3_mutex_leave(poll->mutex);
}

enum pagelog_outcome pagelog_reach_durable(struct database *database) {
    struct holder_poll *poll = database->is_durable_only ? poll_of(database) : NULL;
    if (!poll) return PAGELOG_DONE;
    sqlite3_mutex_enter(poll->mutex);
    uint64_t position = poll->position;
    sqlite3_mutex_leave(poll->mutex);
    enum pagelog_outcome outcome = pagelog_file_reach(database->file, position);
    if (outcome == PAGELOG_DONE) return outcome;
    sqlite3_mutex_enter(poll->mutex);
    poll->position = 0; /* it was told once: PostgreSQL may have gone back */
    sqlite3_mutex_leave(poll->mutex);
    return outcome;
}
