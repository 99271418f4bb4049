/* HMAC-SHA-256, of FIPS 180-4 and RFC 2104: by it the tokens of a run are made. It is written out here
 * because an extension is loaded into any program: a library of its own would come along, and might meet
 * another version there. */
#ifndef PAGELOG_SHA256_H
#define PAGELOG_SHA256_H

#include <stddef.h>
#include <stdint.h>

enum { PAGELOG_SHA256_BYTES = 32, PAGELOG_SHA256_CHUNK = 64 };

/* The code of a text, by a key of at most 64 bytes. */
void pagelog_hmac_sha256(const uint8_t *key, size_t key_length, const void *text, size_t length,
                         uint8_t code[PAGELOG_SHA256_BYTES]);

#endif
