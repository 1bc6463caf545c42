/* AES-256, CMAC and GCM, from OpenSSL's libcrypto (3.0 or later). Where the library itself fails, the program ends with a sentence. */
#ifndef CIPHERS_H
#define CIPHERS_H

#include <stdbool.h>
#include <stddef.h>
#include <stdint.h>

/* FIPS 197: the words of the expanded key, and a block under a key. */
void expand_key(const uint8_t key[32], uint8_t words[60][4]);
void encrypt_block(const uint8_t key[32], const uint8_t block[16], uint8_t result[16]);

/* NIST SP 800-38B, with a MAC of 16 octets. */
void cmac(const uint8_t key[32], const uint8_t *message, size_t length, uint8_t mac[16]);

/* NIST SP 800-38D, with an IV of 12 octets and a tag of 16. */
void gcm_seal(const uint8_t key[32], const uint8_t iv[12], const uint8_t *additional, size_t additional_length, const uint8_t *plain,
              size_t length, uint8_t *cipher, uint8_t tag[16]);

/* False where the tag differs; the plain text counts only where it does not. */
bool gcm_open(const uint8_t key[32], const uint8_t iv[12], const uint8_t *additional, size_t additional_length, const uint8_t *cipher,
              size_t length, const uint8_t tag[16], uint8_t *plain);

#endif
