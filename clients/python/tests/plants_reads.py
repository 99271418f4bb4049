"""Of pages that are asked for before they are read: edits of clients/c."""

from plant import Plant

_CALLS, _REQUESTS, _FILE = "c/pagelog_calls.c", "c/pagelog_requests.c", "c/pagelog_ahead.c"
_KEPT = "c/pagelog_kept.c"

PLANTS = {
    "ahead, of an epoch that was over": Plant("c/pagelog_calls.c", "bool is_refused_ahead = was_ahead && log->socket >= 0;", "bool is_refused_ahead = was_ahead && log->socket < 0;",
                                              "c/ahead", "asked_for_again_by_who_follows"),
    "ahead, at another LSN": Plant(_FILE, "if (lsn != lsn_of(file, file->mark.position).number || page >", "if (page >", "c/ahead", "after_a_commit_is_none_of_that"),
    "ahead, of a file that is shorter": Plant(_FILE, "if (lsn != lsn_of(file, file->mark.position).number || page > pages_of(file->least)) return;",
                                              "if (lsn != lsn_of(file, file->mark.position).number) return;", "c/ahead", "when_the_file_is_shorter"),
    "ahead, of another page": Plant(_REQUESTS, "        log->take(log->taker, asked.lsn, asked.page, reply.bytes);\n",
                                    "        log->take(log->taker, asked.lsn, asked.page + 1, reply.bytes);\n", "c/ahead", "beside_a_writer"),
    "ahead, not compared": Plant(_REQUESTS, "    struct asked asked = take_asked(log);\n    if (pagelog_decode_reply(body, length, &reply) != 0 || !pagelog_answers(asked, &reply))\n        return pagelog_distrust(log);\n    log->counts.replies++;\n    if",
                                 "    struct asked asked = take_asked(log);\n    if (pagelog_decode_reply(body, length, &reply) != 0) return pagelog_distrust(log);\n    log->counts.replies++;\n    if",
                                 "c/ahead", "of_a_liar"),
    "ahead, asked again": Plant(_CALLS, "size_t sent = pagelog_await_ahead(log, lsn, pages[0]) ? 1 : 0;", "size_t sent = 0;", "c/ahead", "not_asked_for_again"),
    "ahead, kept without a connection": Plant("c/pagelog_connection.c", "    log->asked_count = log->unheard = 0;\n    memset", "    log->asked_count = 0;\n    memset", "c/ahead",
                                              "go_with_their_connection"),
    "ahead, before a reply that is waited for": Plant(_REQUESTS, "    while (outcome == PAGELOG_DONE && is_next_unheard(log))\n        outcome = pass_over_one(log);\n",
                                                      "", "c/ahead", "come_to_who_takes_them"),
    "ahead, before one that nobody waits for": Plant(_REQUESTS, "    pagelog_take_ahead(log);\n    if (is_next_ahead(log)) return 0;",
                                                     "    if (is_next_ahead(log)) return 0;", "c/ahead", "beside_pages_that_are_on_their_way"),
    "ahead, nothing": Plant(_FILE, "    wanted.ahead = choose_pages(file, page, began, pages) - 1;\n", "    choose_pages(file, page, began, pages);\n", "c/readers",
                            "many_pages_at_a_time"),
    "ahead, all at once": Plant(_FILE, "has_room(file) ? UINT32_C(1) << file->misses : 1", "has_room(file) ? MOST_AHEAD : 1", "c/ahead", "of_one_key"),
    "ahead, of a scan": Plant(_FILE, "follows || (is_ahead && fill == 1)", "false", "c/ahead", "waits_for_few_pages"),
    "ahead, over what was written": Plant(_FILE, "    if (!frame || frame->has_base) return;\n", "    if (!frame) return;\n    if (frame->changed) memcpy(frame->changed, bytes, PAGELOG_PAGE_BYTES);\n",
                                          "c/ahead", "is_written_before_it_comes"),
    "ahead, of an index": Plant("c/pagelog_vfs_file.c", "        expect_children(database->file, bytes,", "        (void)expect_children, (void)(database->file, bytes,", "c/ahead",
                                "what_its_tree_refers_to"),
    "kept, none": Plant("c/pagelog_vfs_database.c", "    pagelog_keep_pages(database);\n", "", "c/readers", "with_the_pages_of_the_last"),
    "kept, of any mark": Plant(_KEPT, "(pagelog_is_same_mark(mark, &file->mark) || goes_back(file, mark))", "(goes_back(file, mark) || true)", "c/restarts",
                               "follower_has_left"),
    "kept, of any mark before": Plant(_KEPT, " || !pagelog_is_same_mark(&found, wanted)) return false;", ") return false;", "c/restarts", "follower_has_left"),
    "kept, not followed": Plant(_KEPT, "    file->checked = 0;\n", "", "c/readers", "with_the_pages_of_the_last"),
    "kept, by another principal": Plant("c/pagelog_vfs_kept.c", "strcmp(kept->key, database->key) == 0 && ", "", "c/readers", "with_the_pages_of_the_last"),
    "kept, of all databases": Plant("c/pagelog_vfs_kept.c", "count == MOST_DATABASES || ", "", "c/readers", "of_four_databases"),
    "kept, at another shift": Plant(_KEPT, "    strcpy(kept->database, database_of(file));\n", "    strcpy(kept->database, database_of(file));\n    kept->mark.position.number = lsn_of(file, file->mark.position).number;\n", "c/readers", "outlive_its_service"),
    "kept, of what was lost": Plant(_KEPT, "(pagelog_is_same_mark(mark, &file->mark) || goes_back(file, mark))", "(is_at(mark->position, file->mark.position) || goes_back(file, mark))", "c/readers",
                                    "outlive_its_service"),
}  # fmt: skip
