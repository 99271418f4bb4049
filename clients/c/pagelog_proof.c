/* HMAC-SHA-256 by a token, of `prove NONCE NAME PRINCIPAL DATABASE/RUN`. The text has spaces, which that of a
 * run's token never has: whatever a keeper says as a nonce, no proof is a token of a run. */
#include "pagelog_proof.h"

#include "pagelog_sha256.h"

#include <stdio.h>
#include <string.h>

void pagelog_read_nonce(const char *answer, char nonce[PAGELOG_NONCE_BYTES]) {
    const char *key = strstr(answer, " nonce=");
    const char *value = key ? key + strlen(" nonce=") : "";
    size_t length = strspn(value, "0123456789abcdef");
    bool is_one = length == PAGELOG_NONCE_BYTES - 1 && (value[length] == 0 || value[length] == ' ');
    snprintf(nonce, PAGELOG_NONCE_BYTES, "%.*s", is_one ? (int)length : 0, value);
}

size_t pagelog_write_proof(const struct pagelog_proof *proof, const char *nonce,
                           char line[PAGELOG_PROOF_BYTES]) {
    char text[PAGELOG_PROOF_BYTES];
    uint8_t code[PAGELOG_SHA256_BYTES];
    int length = snprintf(text, sizeof text, "prove %s %s %u %s", nonce, proof->name,
                          (unsigned)proof->principal, proof->of);
    pagelog_hmac_sha256(proof->token, PAGELOG_TOKEN_BYTES, text, (size_t)length, code);
    size_t end =
        (size_t)snprintf(line, PAGELOG_PROOF_BYTES, "prove %s %u ", proof->name, (unsigned)proof->principal);
    for (size_t i = 0; i < sizeof code; i++, end += 2)
        snprintf(line + end, 3, "%02x", code[i]);
    return end + (size_t)snprintf(line + end, PAGELOG_PROOF_BYTES - end, " of=%s\n", proof->of);
}

bool pagelog_was_proved(const struct pagelog_proof *proof, const char *proved) {
    size_t length = strcspn(proof->of, "/");
    return *proved && strcspn(proved, "/") == length && strncmp(proved, proof->of, length) == 0;
}
