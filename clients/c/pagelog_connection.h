/* What the files of the connection share, and no other does. */
#ifndef PAGELOG_CONNECTION_H
#define PAGELOG_CONNECTION_H

#include "pagelog_inside.h"

/* Bytes that are read ahead, at most, while requests are still being sent or nobody waits for a reply. */
enum { MOST_INPUT = 16 << 20 };

static inline size_t held(const struct buffer *buffer) {
    return buffer->end - buffer->start;
}

static inline void empty(struct buffer *buffer) {
    buffer->start = buffer->end = 0;
}

/* Makes room for `wanted` bytes after what is held. */
bool pagelog_reserve(struct buffer *buffer, size_t wanted);

/* How many bytes are lent. */
size_t pagelog_lent_bytes(const struct pagelog *log);

/* Closes the connection, and returns LOST. */
enum pagelog_outcome pagelog_lose(struct pagelog *log);

/* Opens a connection, if there is none, with one try, and looks whether the service has the same history. */
enum pagelog_outcome pagelog_ensure_connected(struct pagelog *log);

/* Waits until a socket can be read, or written where that is asked for too; false at the deadline, or once
 * who waits has ended it. */
bool pagelog_wait_for(struct pagelog *log, int socket, short events, uint64_t deadline, short *ready);

/* As send(), with MSG_NOSIGNAL and MSG_DONTWAIT. */
ssize_t pagelog_put(struct pagelog *log, const void *bytes, size_t length);

/* Reads what is there; without MSG_DONTWAIT it waits for that first, for `reply_ms` at most. False where the
 * connection has ended. */
bool pagelog_read_some(struct pagelog *log, int flags);

/* Sends all that is queued. It reads meanwhile, so that neither side waits for the other to read. */
enum pagelog_outcome pagelog_flush(struct pagelog *log);

#endif
