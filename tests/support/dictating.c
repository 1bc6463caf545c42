#include "dictation.h"

#include <stdbool.h>

void __real_cmac(const uint8_t key[32], const uint8_t *message, size_t length, uint8_t mac[16]);
void __wrap_cmac(const uint8_t key[32], const uint8_t *message, size_t length, uint8_t mac[16]);
void __real_gcm_seal(const uint8_t key[32], const uint8_t iv[12], const uint8_t *additional, size_t additional_length, const uint8_t *plain,
                     size_t length, uint8_t *cipher, uint8_t tag[16]);
void __wrap_gcm_seal(const uint8_t key[32], const uint8_t iv[12], const uint8_t *additional, size_t additional_length, const uint8_t *plain,
                     size_t length, uint8_t *cipher, uint8_t tag[16]);
bool __real_gcm_open(const uint8_t key[32], const uint8_t iv[12], const uint8_t *additional, size_t additional_length,
                     const uint8_t *cipher, size_t length, const uint8_t tag[16], uint8_t *plain);
bool __wrap_gcm_open(const uint8_t key[32], const uint8_t iv[12], const uint8_t *additional, size_t additional_length,
                     const uint8_t *cipher, size_t length, const uint8_t tag[16], uint8_t *plain);

static void write_down(const void *octets, size_t length)
{
    if (fwrite(octets, 1, length, dictation("wb")) != length) {
        fputs("the dictation could not be written\n", stderr);
        exit(2);
    }
}

static void write_question(struct question question)
{
    write_down(question.octets, sizeof question.octets);
}

void __wrap_cmac(const uint8_t key[32], const uint8_t *message, size_t length, uint8_t mac[16])
{
    write_question(ask_mac(key, message, length));
    __real_cmac(key, message, length, mac);
    write_down(mac, 16);
}

void __wrap_gcm_seal(const uint8_t key[32], const uint8_t iv[12], const uint8_t *additional, size_t additional_length, const uint8_t *plain,
                     size_t length, uint8_t *cipher, uint8_t tag[16])
{
    write_question(ask_gcm(key, iv, additional, additional_length, plain, length));
    __real_gcm_seal(key, iv, additional, additional_length, plain, length, cipher, tag);
    write_down(cipher, length);
    write_down(tag, 16);
}

bool __wrap_gcm_open(const uint8_t key[32], const uint8_t iv[12], const uint8_t *additional, size_t additional_length,
                     const uint8_t *cipher, size_t length, const uint8_t tag[16], uint8_t *plain)
{
    write_question(ask_gcm(key, iv, additional, additional_length, cipher, length));
    write_question(question_of(digest(0, tag, 16)));
    uint8_t is_right = __real_gcm_open(key, iv, additional, additional_length, cipher, length, tag, plain);
    write_down(&is_right, 1);
    write_down(plain, length);
    return is_right != 0;
}
