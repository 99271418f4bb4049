/* SPDX-License-Identifier: MIT OR Apache-2.0 */
/* Whom a client believes, and who it is: TLS 1.3 for the connections that are given one of these.
 *
 * The peer has to show a certificate of the CA that was named, for the very host that was asked for, a DNS
 * name or an IP address among its subjectAltName. Nothing that comes over a connection takes that away, and
 * there is no way to have less. */
#ifndef PAGELOG_TLS_H
#define PAGELOG_TLS_H

#include <stdbool.h>
#include <stddef.h>

#ifdef __cplusplus
extern "C" {
#endif

/* It may be used by objects of several threads, and outlives them. It is for the process that has made it: a
 * child of fork() makes its own. */
struct pagelog_tls;

/* PEM files, each path shorter than 256 bytes. They are read now, and again at a connect where one of them
 * has changed since; where what has changed cannot be used, what was read before stays in force. */
struct pagelog_tls_files {
    const char *sslrootcert;      /* certificates of CAs */
    const char *sslcert, *sslkey; /* of this client, with the chain above it, and its key, which nobody else
                                   * may read; or both NULL */
};

/* NULL: `why` has a sentence that begins with the name of the field that is wrong; of a build without TLS
 * too. */
struct pagelog_tls *pagelog_tls_new(const struct pagelog_tls_files *files, char *why, size_t room);
void pagelog_tls_free(struct pagelog_tls *tls);

#ifdef __cplusplus
}
#endif
#endif
