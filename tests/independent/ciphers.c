/* The expanded key is shown by no function of today's interface, so that of 1.1 is asked for. */
#define OPENSSL_API_COMPAT 0x10100000L

#include "ciphers.h"

#include <openssl/aes.h>
#include <openssl/core_names.h>
#include <openssl/evp.h>
#include <openssl/params.h>
#include <stdio.h>
#include <stdlib.h>
#include <string.h>

static void need(bool is_done)
{
    if (!is_done) {
        fputs("OpenSSL's library failed\n", stderr);
        exit(2);
    }
}

/* The contexts are made once; each call sets its key anew. */
static EVP_MAC_CTX *mac_context(void)
{
    static EVP_MAC_CTX *context;
    if (context == NULL) {
        EVP_MAC *algorithm = EVP_MAC_fetch(NULL, "CMAC", NULL);
        need(algorithm != NULL);
        context = EVP_MAC_CTX_new(algorithm);
        need(context != NULL);
        EVP_MAC_free(algorithm);
    }
    return context;
}

static EVP_CIPHER_CTX *cipher_context(void)
{
    static EVP_CIPHER_CTX *context;
    if (context == NULL) {
        context = EVP_CIPHER_CTX_new();
        need(context != NULL);
    }
    return context;
}

/* By the engine that it was built with, OpenSSL holds a word in the standard's order of octets or in the machine's. The first word is the
 * key's own, and tells which. */
void expand_key(const uint8_t key[32], uint8_t words[60][4])
{
    AES_KEY expanded;
    need(AES_set_encrypt_key(key, 256, &expanded) == 0 && expanded.rounds == 14 && sizeof expanded.rd_key >= 240);
    memcpy(words, expanded.rd_key, 240);
    bool is_turned = memcmp(words[0], key, 4) != 0;
    for (size_t i = 0; is_turned && i < 60; i++) {
        uint8_t word[] = {words[i][3], words[i][2], words[i][1], words[i][0]};
        memcpy(words[i], word, sizeof word);
    }
    need(memcmp(words, key, 32) == 0);
}

void encrypt_block(const uint8_t key[32], const uint8_t block[16], uint8_t result[16])
{
    EVP_CIPHER_CTX *context = cipher_context();
    int written = 0;
    need(EVP_EncryptInit_ex(context, EVP_aes_256_ecb(), NULL, key, NULL) == 1);
    need(EVP_CIPHER_CTX_set_padding(context, 0) == 1);
    need(EVP_EncryptUpdate(context, result, &written, block, 16) == 1 && written == 16);
}

void cmac(const uint8_t key[32], const uint8_t *message, size_t length, uint8_t mac[16])
{
    char name[] = "AES-256-CBC";
    OSSL_PARAM parameters[] = {OSSL_PARAM_construct_utf8_string(OSSL_MAC_PARAM_CIPHER, name, 0), OSSL_PARAM_construct_end()};
    EVP_MAC_CTX *context = mac_context();
    size_t written = 0;
    need(EVP_MAC_init(context, key, 32, parameters) == 1);
    need(EVP_MAC_update(context, message, length) == 1);
    need(EVP_MAC_final(context, mac, &written, 16) == 1 && written == 16);
}

void gcm_seal(const uint8_t key[32], const uint8_t iv[12], const uint8_t *additional, size_t additional_length, const uint8_t *plain,
              size_t length, uint8_t *cipher, uint8_t tag[16])
{
    EVP_CIPHER_CTX *context = cipher_context();
    uint8_t rest[16];
    int written = 0;
    need(EVP_EncryptInit_ex(context, EVP_aes_256_gcm(), NULL, key, iv) == 1);
    need(EVP_EncryptUpdate(context, NULL, &written, additional, (int)additional_length) == 1);
    need(EVP_EncryptUpdate(context, cipher, &written, plain, (int)length) == 1 && written == (int)length);
    need(EVP_EncryptFinal_ex(context, rest, &written) == 1 && written == 0);
    need(EVP_CIPHER_CTX_ctrl(context, EVP_CTRL_GCM_GET_TAG, 16, tag) == 1);
}

bool gcm_open(const uint8_t key[32], const uint8_t iv[12], const uint8_t *additional, size_t additional_length, const uint8_t *cipher,
              size_t length, const uint8_t tag[16], uint8_t *plain)
{
    EVP_CIPHER_CTX *context = cipher_context();
    uint8_t expected[16];
    uint8_t rest[16];
    int written = 0;
    memcpy(expected, tag, sizeof expected);
    need(EVP_DecryptInit_ex(context, EVP_aes_256_gcm(), NULL, key, iv) == 1);
    need(EVP_DecryptUpdate(context, NULL, &written, additional, (int)additional_length) == 1);
    need(EVP_DecryptUpdate(context, plain, &written, cipher, (int)length) == 1 && written == (int)length);
    need(EVP_CIPHER_CTX_ctrl(context, EVP_CTRL_GCM_SET_TAG, 16, expected) == 1);
    return EVP_DecryptFinal_ex(context, rest, &written) == 1;
}
