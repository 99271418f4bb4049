"""Of what writers of SQLite are told in many orders of events: edits of clients/c."""

from plant import Plant

_SETTLE, _ORDERS, _TEST = "c/pagelog_settle.c", "c/orders", "holds_in_every_order"

PLANTS = {
    "orders, any block is the same": Plant(_SETTLE, "    return one_length == other_length &&\n           memcmp(one + LSN_BYTES, other + LSN_BYTES, one_length - LSN_BYTES) == 0;\n",
                                           "    return one_length > 0 || memcmp(one, other, 0) == (int)other_length;\n", _ORDERS, _TEST),
    "orders, a loss is not told": Plant(_SETTLE, "    bool was_told = !is_before(named->own, position);\n    pagelog_tail_cut", "    bool was_told = false;\n    pagelog_tail_cut", _ORDERS, _TEST),
    "orders, durable beyond the end": Plant(_SETTLE, "    struct pagelog_position told = lower_of(fate.end, named->told);\n", "    struct pagelog_position told = last_before(named->tail.next);\n", _ORDERS, _TEST),
    "orders, a loss is told as busy": Plant("c/pagelog_vfs_turn.c", "    if (moved != PAGELOG_DONE && pagelog_file_state_of(database->file).is_over) {\n", "    if (false) {\n", _ORDERS, _TEST),
    "orders, what is lost is not sent again": Plant(_SETTLE, "        if (outcome == PAGELOG_DONE) outcome = pagelog_append(file->log, blocks, file->options.written);\n        if (outcome == PAGELOG_DONE) named->resent",
                                                    "        if (outcome == PAGELOG_DONE) named->resent", _ORDERS, _TEST),
}  # fmt: skip
