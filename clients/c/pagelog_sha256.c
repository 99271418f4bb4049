/* HMAC-SHA-256. The tests compare it with Python's, at each length around that of a chunk. */
#include "pagelog_sha256.h"

#include "pagelog_common.h"

enum { CHUNK = PAGELOG_SHA256_CHUNK, ROUNDS = 64, LENGTH_BYTES = 8 };

/* What was taken so far. */
struct hash {
    uint32_t words[8];
    uint8_t chunk[CHUNK]; /* of which the first `length` % 64 bytes are taken */
    uint64_t length;
};

/* The first 32 bits of the fractional parts of the cube roots of the first 64 primes. */
static const uint32_t constants[ROUNDS] = {
    0x428a2f98, 0x71374491, 0xb5c0fbcf, 0xe9b5dba5, 0x3956c25b, 0x59f111f1, 0x923f82a4, 0xab1c5ed5,
    0xd807aa98, 0x12835b01, 0x243185be, 0x550c7dc3, 0x72be5d74, 0x80deb1fe, 0x9bdc06a7, 0xc19bf174,
    0xe49b69c1, 0xefbe4786, 0x0fc19dc6, 0x240ca1cc, 0x2de92c6f, 0x4a7484aa, 0x5cb0a9dc, 0x76f988da,
    0x983e5152, 0xa831c66d, 0xb00327c8, 0xbf597fc7, 0xc6e00bf3, 0xd5a79147, 0x06ca6351, 0x14292967,
    0x27b70a85, 0x2e1b2138, 0x4d2c6dfc, 0x53380d13, 0x650a7354, 0x766a0abb, 0x81c2c92e, 0x92722c85,
    0xa2bfe8a1, 0xa81a664b, 0xc24b8b70, 0xc76c51a3, 0xd192e819, 0xd6990624, 0xf40e3585, 0x106aa070,
    0x19a4c116, 0x1e376c08, 0x2748774c, 0x34b0bcb5, 0x391c0cb3, 0x4ed8aa4a, 0x5b9cca4f, 0x682e6ff3,
    0x748f82ee, 0x78a5636f, 0x84c87814, 0x8cc70208, 0x90befffa, 0xa4506ceb, 0xbef9a3f7, 0xc67178f2};

static uint32_t turned(uint32_t word, unsigned bits) {
    return word >> bits | word << (32 - bits);
}

/* The 64 words that a chunk is drawn out to. */
static void draw_out(const uint8_t chunk[CHUNK], uint32_t drawn[ROUNDS]) {
    for (size_t i = 0; i < 16; i++)
        drawn[i] = (uint32_t)pagelog_read_number(chunk + 4 * i, 4);
    for (size_t i = 16; i < ROUNDS; i++) {
        uint32_t two = drawn[i - 2], fifteen = drawn[i - 15];
        drawn[i] = drawn[i - 16] + drawn[i - 7] + (turned(fifteen, 7) ^ turned(fifteen, 18) ^ fifteen >> 3) +
                   (turned(two, 17) ^ turned(two, 19) ^ two >> 10);
    }
}

static void take_chunk(struct hash *hash) {
    uint32_t drawn[ROUNDS], w[8];
    draw_out(hash->chunk, drawn);
    memcpy(w, hash->words, sizeof w);
    for (size_t i = 0; i < ROUNDS; i++) {
        uint32_t choice = (w[4] & w[5]) ^ (~w[4] & w[6]);
        uint32_t majority = (w[0] & w[1]) ^ (w[0] & w[2]) ^ (w[1] & w[2]);
        uint32_t one =
            w[7] + (turned(w[4], 6) ^ turned(w[4], 11) ^ turned(w[4], 25)) + choice + constants[i] + drawn[i];
        uint32_t two = (turned(w[0], 2) ^ turned(w[0], 13) ^ turned(w[0], 22)) + majority;
        memmove(w + 1, w, 7 * sizeof *w);
        w[4] += one;
        w[0] = one + two;
    }
    for (size_t i = 0; i < 8; i++)
        hash->words[i] += w[i];
}

static void take(struct hash *hash, const uint8_t *bytes, size_t length) {
    for (size_t i = 0; i < length; i++) {
        hash->chunk[hash->length++ % CHUNK] = bytes[i];
        if (hash->length % CHUNK == 0) take_chunk(hash);
    }
}

/* Begins with a chunk of the key, each byte of which is changed by `pad`. */
static struct hash begin(const uint8_t *key, size_t length, uint8_t pad) {
    struct hash hash = {.words = {0x6a09e667, 0xbb67ae85, 0x3c6ef372, 0xa54ff53a, 0x510e527f, 0x9b05688c,
                                  0x1f83d9ab, 0x5be0cd19}};
    for (size_t i = 0; i < CHUNK; i++) {
        uint8_t byte = (uint8_t)((i < length ? key[i] : 0) ^ pad);
        take(&hash, &byte, 1);
    }
    return hash;
}

static void end(struct hash *hash, uint8_t code[PAGELOG_SHA256_BYTES]) {
    static const uint8_t padding[CHUNK] = {0x80};
    uint8_t bits[LENGTH_BYTES];
    size_t taken = (size_t)(hash->length % CHUNK), room = CHUNK - LENGTH_BYTES;
    pagelog_write_number(bits, 8 * hash->length, LENGTH_BYTES);
    take(hash, padding, taken < room ? room - taken : CHUNK + room - taken);
    take(hash, bits, LENGTH_BYTES);
    for (size_t i = 0; i < 8; i++)
        pagelog_write_number(code + 4 * i, hash->words[i], 4);
}

void pagelog_hmac_sha256(const uint8_t *key, size_t key_length, const void *text, size_t length,
                         uint8_t code[PAGELOG_SHA256_BYTES]) {
    struct hash inner = begin(key, key_length, 0x36), outer = begin(key, key_length, 0x5c);
    take(&inner, text, length);
    end(&inner, code);
    take(&outer, code, PAGELOG_SHA256_BYTES);
    end(&outer, code);
}
