/* The steps from one state of a file to the next, which pagelog_file_inside.h draws. */
#include "pagelog_file_inside.h"

/* To which others each state may go: a bit for each of them. */
static const uint8_t standings[] = {
    [FOLLOWING] = 1 << FOLLOWING | 1 << WRITING,
    [WRITING] = 1 << FOLLOWING | 1 << WRITING | 1 << BROKEN,
    [BROKEN] = 1 << FOLLOWING | 1 << WRITING,
};
static const uint8_t readings[] = {
    [CLOSED] = 1 << CLOSED | 1 << OPEN | 1 << GONE,
    [OPEN] = 1 << CLOSED | 1 << OPEN | 1 << GONE | 1 << OVER,
    [GONE] = 1 << CLOSED | 1 << OPEN | 1 << GONE | 1 << OVER,
    [OVER] = 1 << CLOSED | 1 << OPEN | 1 << GONE | 1 << OVER,
};

void pagelog_stand(struct pagelog_file *file, enum standing to) {
    pagelog_assert(standings[file->standing] >> to & 1);
    pagelog_assert(to == FOLLOWING || !file->options.reads_only);
    file->standing = to;
}

void pagelog_have(struct pagelog_file *file, enum reading to) {
    pagelog_assert(readings[file->reading] >> to & 1);
    pagelog_assert(to != GONE || file->source.calls->is_gone_after_loss);
    file->reading = to;
}

enum pagelog_outcome pagelog_refuse_to_go_on(struct pagelog_file *file) {
    if (file->reading == GONE) return pagelog_refuse_gone(file);
    if (file->reading != OVER) return PAGELOG_DONE;
    return pagelog_file_fail(file, PAGELOG_CONFLICT,
                             file->lost ? file->lost
                                        : "commits that nobody waited for were lost: begin again");
}

enum pagelog_outcome pagelog_refuse_gone(struct pagelog_file *file) {
    return pagelog_file_fail(file, PAGELOG_LOST,
                             "the transaction that is read is not in this generation: begin again");
}
