/* The reading's ciphers where a target has no OpenSSL: what OpenSSL gives on the host is written down there, call after call, and read on the
 * target. The same test with the same seed asks for the same ciphers on every machine. An answer goes with a digest of what was asked, so
 * that a run which asks for something else ends with a sentence.
 *
 * dictating.c, on the host, is linked with --wrap for each of the functions of independent/ciphers.h; dictated.c, on the target, stands in
 * the place of independent/ciphers.c. DICTATION names the file. */
#ifndef DICTATION_H
#define DICTATION_H

#include <stddef.h>
#include <stdint.h>
#include <stdio.h>
#include <stdlib.h>

/* The file, opened at the first call. */
static inline FILE *dictation(const char *mode)
{
    static FILE *file;
    const char *name = getenv("DICTATION");
    if (file == NULL && name != NULL) {
        file = fopen(name, mode);
    }
    if (file == NULL) {
        fputs("DICTATION names no file that can be opened\n", stderr);
        exit(2);
    }
    return file;
}

/* What is asked: FNV-1a over 64 bits, least octet first. */
struct question {
    uint8_t octets[8];
};

static inline uint64_t digest(uint64_t so_far, const uint8_t *octets, size_t length)
{
    for (size_t i = 0; i < length; i++) {
        so_far = (so_far ^ octets[i]) * UINT64_C(0x100000001B3);
    }
    return so_far;
}

static inline struct question question_of(uint64_t digest)
{
    struct question question;
    for (unsigned i = 0; i < sizeof question.octets; i++) {
        question.octets[i] = (uint8_t)(digest >> (8 * i));
    }
    return question;
}

static inline struct question ask_mac(const uint8_t key[32], const uint8_t *message, size_t length)
{
    return question_of(digest(digest(UINT64_C(0xCBF29CE484222325), key, 32), message, length));
}

static inline struct question ask_gcm(const uint8_t key[32], const uint8_t iv[12], const uint8_t *additional, size_t additional_length,
                                      const uint8_t *text, size_t length)
{
    uint64_t value = digest(digest(UINT64_C(0xCBF29CE484222325), key, 32), iv, 12);
    return question_of(digest(digest(value, additional, additional_length), text, length));
}

#endif
