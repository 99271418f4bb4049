"""Of the states of a file and the steps between them, and of its waits: edits of clients/c."""

from plant import Plant

_STEPS, _NAMED, _COMMIT, _FILE, _SETTLE = (
    "c/pagelog_steps.c",
    "c/pagelog_named_steps.c",
    "c/pagelog_commit.c",
    "c/pagelog_file.c",
    "c/pagelog_settle.c",
)
_NONE, _STATES, _LOSES, _MOVES = (
    "steps_that_are_none",
    "goes_through_its_states",
    "loses_commits",
    "a_named_database_moves",
)

PLANTS = {
    "steps, one that is none": Plant(_STEPS, "    pagelog_assert(standings[file->standing] >> to & 1);\n", "", "c/steps", _NONE),
    "steps, one more": Plant(_STEPS, "    [FOLLOWING] = 1 << FOLLOWING | 1 << WRITING,\n", "    [FOLLOWING] = 1 << FOLLOWING | 1 << WRITING | 1 << BROKEN,\n", "c/steps", _NONE),
    "steps, one is left out": Plant(_STEPS, "    [BROKEN] = 1 << FOLLOWING | 1 << WRITING,\n", "    [BROKEN] = 1 << FOLLOWING,\n", "c/steps", _NONE),
    "steps, what was lost is there": Plant(_STEPS, "    [CLOSED] = 1 << CLOSED | 1 << OPEN | 1 << GONE,\n", "    [CLOSED] = 1 << CLOSED | 1 << OPEN | 1 << GONE | 1 << OVER,\n", "c/steps", _NONE),
    "steps, a reader writes": Plant(_STEPS, "    pagelog_assert(to == FOLLOWING || !file->options.reads_only);\n", "", "c/steps", _NONE),
    "steps, gone without a name": Plant(_STEPS, "    pagelog_assert(to != GONE || file->source.calls->is_gone_after_loss);\n", "", "c/steps", _NONE),
    "places, one that is none": Plant(_NAMED, "    pagelog_assert(whereabouts[named->where] >> to & 1);\n", "", "c/steps", _NONE),
    "places, one more": Plant(_NAMED, "    [NOWHERE] = 1 << ARRIVING,\n", "    [NOWHERE] = 1 << ARRIVING | 1 << HERE,\n", "c/steps", _NONE),
    "places, out for good": Plant(_NAMED, "    [OUT] = 1 << ARRIVING | 1 << HERE | 1 << OUT,\n", "    [OUT] = 1 << OUT,\n", "c/steps", _NONE),
    "listed, a step that is none": Plant(_NAMED, "    pagelog_assert(listings[named->listing] >> to & 1);\n", "", "c/steps", _NONE),
    "listed, refused after an answer": Plant(_NAMED, "    [LISTED] = 1 << UNHEARD | 1 << LISTED,\n", "    [LISTED] = 1 << UNHEARD | 1 << UNLISTED | 1 << LISTED,\n", "c/steps", _NONE),
    "steps, not broken": Plant("c/pagelog_addressed.c", "    else if (may_be_there)\n        pagelog_stand(file, BROKEN);\n", "", "c/steps", _STATES),
    "steps, broken for good": Plant(_FILE, "    if (outcome == PAGELOG_DONE && file->standing == BROKEN) pagelog_stand(file, WRITING);\n", "", "c/steps", _STATES),
    "steps, not over": Plant(_COMMIT, "    pagelog_have(file, OVER);\n", "", "c/steps", _LOSES),
    "steps, over for good": Plant(_FILE, "    if (file->reading == OVER) pagelog_have(file, file->source.calls->is_gone_after_loss ? GONE : OPEN);\n", "", "c/steps", _LOSES),
    "steps, not gone": Plant(_SETTLE, "    if (file->reading != OVER) pagelog_have(file, GONE);\n", "", "c/steps", _MOVES),
    "steps, gone for good": Plant("c/pagelog_mark.c", "    if (file->reading == GONE) pagelog_have(file, OPEN);\n", "", "c/steps", _MOVES),
    "shift, of the run before": Plant("c/pagelog_move.c", "    file->source.shift = place->shift;\n", "", "c/generations", "that_reads_goes_on"),
    "shift, before the first block": Plant("c/pagelog_file_inside.h", "return is_none(lsn_of(file, from)) ? position_of(file, (struct pagelog_lsn){1}) : from;", "return is_none(lsn_of(file, from)) ? from : from;", "c/generations", "in_a_run_of_another_shift"),
    "shift, of no position": Plant("c/pagelog_position.h", "position.number > 0 && lsn > 0", "lsn > 0", "c/generations", "in_a_run_of_another_shift"),
    "steps, no doubt": Plant("c/pagelog_vfs_durable.c", "    pagelog_end_with(connection, IN_DOUBT);\n", "", "c/generations", "wait_for_the_archive_ends"),
    "steps, words of a rollback": Plant("c/pagelog_vfs_file.c", "    if (connection->last == REFUSED) memcpy(database->error, error, sizeof error);\n", "", "c/generations", "a_commit_that_is_overtaken"),
    "waits, without a pause": Plant("c/pagelog_durable.c", "        if (!goes_on || !pagelog_file_may_wait(file, &patience)) return outcome;\n", "        if (!goes_on) return outcome;\n", "c/generations", "asks_more_and_more"),
    "waits, on a line that has ended": Plant("c/pagelog_line.c", "    if (!was_refused && !was_believed) return;\n", "    (void)was_believed;\n    if (!was_refused) return;\n", "c/generations", "right_after_an_answer"),
    "waits, asked for ever": Plant("c/pagelog_line.c", " = line->awaits_shake = line->is_believed = false;\n", " = line->awaits_shake = false;\n", "c/generations", "right_after_an_answer"),
}  # fmt: skip
