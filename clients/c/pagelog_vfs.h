/* SPDX-License-Identifier: MIT OR Apache-2.0 */
/* The VFS of a program that is linked with it, and with SQLite: see the head of pagelog_vfs.c. A program that
 * loads the extension needs none of this. */
#ifndef PAGELOG_VFS_H
#define PAGELOG_VFS_H

#ifdef __cplusplus
extern "C" {
#endif

/* Registers the VFS `pagelog`, for the whole process, and returns SQLite's code. SQLite has to be initialized
 * before. */
int pagelog_register_vfs(void);

/* What sqlite3_errmsg says of a connection, `message`, with why a call of this VFS has failed, where that is
 * known and the message is the text of its code alone: "disk I/O error: pagelog: denied: ..". It stays until
 * the connection is used again. SQLite has no way in which a VFS could say it. */
struct sqlite3;
const char *pagelog_explain_message(struct sqlite3 *db, const char *message);

/* What goes wrong is written to standard error, too, where the setting `errors` does not say otherwise. */
void pagelog_show_errors(void);

#ifdef __cplusplus
}
#endif

#endif
