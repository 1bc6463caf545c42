/* The published vectors through OpenSSL, by the functions that the reading uses. It reads the files that the proved programs aes_vectors,
 * cmac_vectors and gcm_vectors read, and writes what they have to write, one behind the other, the file stdout of each: both data and
 * expectation then have a second implementation behind them. Ends with 1 where a vector differs.
 *
 *   vectors AES CMAC GCM     (crates/aes_vectors/data crates/cmac_vectors/data crates/gcm_vectors/data) */
#include "independent/ciphers.h"

#include <stdio.h>
#include <stdlib.h>
#include <string.h>

enum { MOST_FIELDS = 6, FIELD_ROOM = 128, LINE_ROOM = 2048 };

/* A vector: the octets of a line's fields, and the line's number in its file, counted from 0. */
struct vector {
    size_t number;
    size_t count;
    struct field {
        uint8_t octets[FIELD_ROOM];
        size_t length;
    } fields[MOST_FIELDS];
};

enum outcome { RIGHT, DIFFERS, SKIPPED };

static void fail(const char *file, const char *sentence)
{
    fprintf(stderr, "vectors: %s: %s\n", file, sentence);
    exit(1);
}

static unsigned digit(const char *file, char c)
{
    const char *digits = "0123456789abcdef";
    const char *at = c == '\0' ? NULL : strchr(digits, c);
    if (at == NULL) {
        fail(file, "a field is not octets in hex");
    }
    return (unsigned)(at - digits);
}

/* Fields are one space apart; a field may be empty. */
static void read_fields(const char *file, const char *line, struct vector *vector)
{
    const char *at = line;
    vector->count = 0;
    do {
        if (vector->count == MOST_FIELDS) {
            fail(file, "a line has more fields than any vector");
        }
        struct field *field = &vector->fields[vector->count++];
        for (field->length = 0; *at != ' ' && *at != '\n'; at += 2) {
            if (field->length == FIELD_ROOM) {
                fail(file, "a field is longer than any of a vector");
            }
            field->octets[field->length++] = (uint8_t)(16 * digit(file, at[0]) + digit(file, at[1]));
        }
    } while (*at++ == ' ');
}

static bool has_lengths(const struct vector *vector, size_t count, size_t first, size_t second, size_t last)
{
    return vector->count == count && vector->fields[0].length == first && (second == SIZE_MAX || vector->fields[1].length == second) &&
           vector->fields[count - 1].length == last;
}

static enum outcome right_if(bool is_right) { return is_right ? RIGHT : DIFFERS; }

/* KEY WORD: the words of an expanded key, in their order. */
static enum outcome try_word(const struct vector *vector)
{
    uint8_t words[60][4];
    if (!has_lengths(vector, 2, 32, 4, 4) || vector->number >= 60) {
        return DIFFERS;
    }
    expand_key(vector->fields[0].octets, words);
    return right_if(memcmp(words[vector->number], vector->fields[1].octets, 4) == 0);
}

/* KEY BLOCK RESULT */
static enum outcome try_encryption(const struct vector *vector)
{
    uint8_t result[16];
    if (!has_lengths(vector, 3, 32, 16, 16)) {
        return DIFFERS;
    }
    encrypt_block(vector->fields[0].octets, vector->fields[1].octets, result);
    return right_if(memcmp(result, vector->fields[2].octets, 16) == 0);
}

/* KEY MESSAGE MAC */
static enum outcome try_mac(const struct vector *vector)
{
    uint8_t mac[16];
    if (!has_lengths(vector, 3, 32, SIZE_MAX, 16)) {
        return DIFFERS;
    }
    cmac(vector->fields[0].octets, vector->fields[1].octets, vector->fields[1].length, mac);
    return right_if(memcmp(mac, vector->fields[2].octets, 16) == 0);
}

/* KEY IV PLAINTEXT ADDITIONAL CIPHERTEXT TAG */
enum gcm_field { KEY, IV, PLAINTEXT, ADDITIONAL, CIPHERTEXT, TAG };

static bool is_gcm_vector(const struct vector *vector)
{
    return has_lengths(vector, 6, 32, 12, 16) && vector->fields[PLAINTEXT].length == vector->fields[CIPHERTEXT].length;
}

static enum outcome try_seal(const struct vector *vector)
{
    const struct field *fields = vector->fields;
    uint8_t cipher[FIELD_ROOM], tag[16];
    if (!is_gcm_vector(vector)) {
        return DIFFERS;
    }
    gcm_seal(fields[KEY].octets, fields[IV].octets, fields[ADDITIONAL].octets, fields[ADDITIONAL].length, fields[PLAINTEXT].octets,
             fields[PLAINTEXT].length, cipher, tag);
    return right_if(memcmp(cipher, fields[CIPHERTEXT].octets, fields[CIPHERTEXT].length) == 0 && memcmp(tag, fields[TAG].octets, 16) == 0);
}

static bool is_opened(const struct field *fields, uint8_t *plain)
{
    return gcm_open(fields[KEY].octets, fields[IV].octets, fields[ADDITIONAL].octets, fields[ADDITIONAL].length,
                    fields[CIPHERTEXT].octets, fields[CIPHERTEXT].length, fields[TAG].octets, plain);
}

static enum outcome try_opening(const struct vector *vector)
{
    uint8_t plain[FIELD_ROOM];
    return right_if(is_gcm_vector(vector) && is_opened(vector->fields, plain) &&
                    memcmp(plain, vector->fields[PLAINTEXT].octets, vector->fields[PLAINTEXT].length) == 0);
}

/* With one bit of a field changed, by turns another one. */
static enum outcome try_refusal(const struct vector *vector, enum gcm_field which)
{
    struct vector changed = *vector;
    struct field *field = &changed.fields[which];
    uint8_t plain[FIELD_ROOM];
    if (!is_gcm_vector(vector)) {
        return DIFFERS;
    }
    if (field->length == 0) {
        return SKIPPED;
    }
    field->octets[vector->number % field->length] ^= (uint8_t)(1 << vector->number % 8);
    return right_if(!is_opened(changed.fields, plain));
}

static enum outcome try_changed_tag(const struct vector *vector) { return try_refusal(vector, TAG); }
static enum outcome try_changed_ciphertext(const struct vector *vector) { return try_refusal(vector, CIPHERTEXT); }
static enum outcome try_changed_additional(const struct vector *vector) { return try_refusal(vector, ADDITIONAL); }

/* Runs each line of a file, and says how many it ran and how many differ; gives the latter. */
static size_t run_file(const char *folder, const char *file, const char *name, const char *what, enum outcome (*try)(const struct vector *))
{
    static struct vector vector;
    char path[4096], line[LINE_ROOM];
    size_t ran = 0, differ = 0;
    snprintf(path, sizeof path, "%s/%s", folder, file);
    FILE *lines = fopen(path, "r");
    if (lines == NULL) {
        fail(path, "cannot be read");
    }
    for (vector.number = 0; fgets(line, sizeof line, lines) != NULL; vector.number++) {
        if (strchr(line, '\n') == NULL) {
            fail(path, "a line has no end, or is longer than any vector");
        }
        read_fields(path, line, &vector);
        enum outcome outcome = try(&vector);
        ran += outcome != SKIPPED;
        differ += outcome == DIFFERS;
    }
    fclose(lines);
    printf("%s: %zu %s, %zu differ\n", name, ran, what, differ);
    return differ;
}

static size_t run_gcm_file(const char *folder, const char *file, const char *name)
{
    return run_file(folder, file, name, "seals", try_seal) + run_file(folder, file, name, "openings", try_opening) +
           run_file(folder, file, name, "refusals of a changed tag", try_changed_tag) +
           run_file(folder, file, name, "refusals of a changed ciphertext", try_changed_ciphertext) +
           run_file(folder, file, name, "refusals of changed additional data", try_changed_additional);
}

int main(int argument_count, char **arguments)
{
    static const char *const ecb[] = {"ECBGFSbox256", "ECBKeySbox256", "ECBVarTxt256", "ECBVarKey256", "ECBMMT256"};
    if (argument_count != 4) {
        fprintf(stderr, "usage: %s AES CMAC GCM\n", arguments[0]);
        return 2;
    }
    const char *of_aes = arguments[1], *of_cmac = arguments[2], *of_gcm = arguments[3];
    size_t differ = run_file(of_aes, "FIPS197A3.txt", "FIPS 197 A.3", "words", try_word);
    differ += run_file(of_aes, "FIPS197C3.txt", "FIPS 197 C.3", "encryptions", try_encryption);
    for (size_t i = 0; i < sizeof ecb / sizeof ecb[0]; i++) {
        char file[32];
        snprintf(file, sizeof file, "%s.txt", ecb[i]);
        differ += run_file(of_aes, file, ecb[i], "encryptions", try_encryption);
    }
    differ += run_file(of_cmac, "SP80038B.txt", "SP 800-38B", "MACs", try_mac);
    differ += run_gcm_file(of_gcm, "GCM13to16.txt", "GCM test cases 13 to 16");
    differ += run_gcm_file(of_gcm, "gcmEncryptExtIV256.txt", "gcmEncryptExtIV256");
    return differ != 0;
}
