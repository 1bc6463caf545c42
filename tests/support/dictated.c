#include "../independent/ciphers.h"
#include "dictation.h"

#include <string.h>

static void read_back(void *octets, size_t length)
{
    if (fread(octets, 1, length, dictation("rb")) != length) {
        fputs("the dictation ends early: this run asks for more than the host's did\n", stderr);
        exit(1);
    }
}

static void expect_question(struct question question)
{
    struct question there;
    read_back(there.octets, sizeof there.octets);
    if (memcmp(there.octets, question.octets, sizeof there.octets) != 0) {
        fputs("this run asks for another cipher than the host's did at the same place\n", stderr);
        exit(1);
    }
}

void cmac(const uint8_t key[32], const uint8_t *message, size_t length, uint8_t mac[16])
{
    expect_question(ask_mac(key, message, length));
    read_back(mac, 16);
}

void gcm_seal(const uint8_t key[32], const uint8_t iv[12], const uint8_t *additional, size_t additional_length, const uint8_t *plain,
              size_t length, uint8_t *cipher, uint8_t tag[16])
{
    expect_question(ask_gcm(key, iv, additional, additional_length, plain, length));
    read_back(cipher, length);
    read_back(tag, 16);
}

bool gcm_open(const uint8_t key[32], const uint8_t iv[12], const uint8_t *additional, size_t additional_length, const uint8_t *cipher,
              size_t length, const uint8_t tag[16], uint8_t *plain)
{
    uint8_t is_right;
    expect_question(ask_gcm(key, iv, additional, additional_length, cipher, length));
    expect_question(question_of(digest(0, tag, 16)));
    read_back(&is_right, 1);
    read_back(plain, length);
    return is_right != 0;
}
