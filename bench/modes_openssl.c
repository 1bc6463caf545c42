// The chains `mac` and `seal` of crates/cipher_bench over OpenSSL's EVP, with the key set up in each call. Arguments and output are those of
// cipher_bench. What does not depend on the key (the algorithm's lookup and the context) is made once.
// With the argument `instructions` it says which instructions of the processor OpenSSL takes.
#include <openssl/core_names.h>
#include <openssl/crypto.h>
#include <openssl/evp.h>
#include <openssl/params.h>
#include <stdbool.h>
#include <stdio.h>
#include <stdlib.h>
#include <string.h>

enum { MOST = 2048, HEAD = 12, BLOCK = 16 };

static unsigned char key[32], message[MOST];

static void need(int ok) {
    if (!ok) {
        fprintf(stderr, "a call of OpenSSL failed\n");
        exit(1);
    }
}

static size_t lesser(size_t a, size_t b) {
    return a < b ? a : b;
}

static void print_line(const unsigned char *octets, size_t n) {
    for (size_t i = 0; i < n; i++)
        printf("%02x", octets[i]);
    printf("\n");
}

static void chain_macs(size_t size, unsigned long long count) {
    EVP_MAC *algorithm = EVP_MAC_fetch(NULL, "CMAC", NULL);
    EVP_MAC_CTX *context = EVP_MAC_CTX_new(algorithm);
    const OSSL_PARAM cipher[] = {OSSL_PARAM_construct_utf8_string(OSSL_MAC_PARAM_CIPHER, "AES-256-CBC", 0), OSSL_PARAM_construct_end()};
    const size_t head = lesser(size, HEAD);
    unsigned char last[BLOCK] = {0};
    need(EVP_MAC_CTX_set_params(context, cipher));
    for (; count > 0; count--) {
        size_t n;
        need(EVP_MAC_init(context, key, sizeof key, NULL));
        need(EVP_MAC_update(context, message, head));
        need(EVP_MAC_update(context, message + head, size - head));
        need(EVP_MAC_final(context, last, &n, BLOCK));
        memcpy(message, last, lesser(size, BLOCK));
    }
    print_line(last, sizeof last);
}

static void chain_seals(size_t size, unsigned long long count) {
    EVP_CIPHER *algorithm = EVP_CIPHER_fetch(NULL, "AES-256-GCM", NULL);
    EVP_CIPHER_CTX *context = EVP_CIPHER_CTX_new();
    static const unsigned char iv[12];
    unsigned char additional[20], out[MOST], last[BLOCK] = {0};
    for (int i = 0; i < 20; i++)
        additional[i] = i;
    need(EVP_EncryptInit_ex(context, algorithm, NULL, NULL, NULL));
    for (; count > 0; count--) {
        int n;
        need(EVP_EncryptInit_ex(context, NULL, NULL, key, iv));
        need(EVP_EncryptUpdate(context, NULL, &n, additional, sizeof additional));
        need(EVP_EncryptUpdate(context, out, &n, message, size));
        need(EVP_EncryptFinal_ex(context, out + n, &n));
        need(EVP_CIPHER_CTX_ctrl(context, EVP_CTRL_AEAD_GET_TAG, BLOCK, last));
        memcpy(message, out, size);
        for (size_t i = 0; i < lesser(size, BLOCK); i++)
            message[i] ^= last[i];
    }
    print_line(last, sizeof last);
}

// The first word of OpenSSL's capability vector, as it is after OPENSSL_ia32cap: OpenSSL chooses its code by it.
static void print_instructions(void) {
    const char *settings = OPENSSL_info(OPENSSL_INFO_CPU_SETTINGS);
    need(settings != NULL && strncmp(settings, "OPENSSL_ia32cap=", 16) == 0);
    const unsigned long long vector = strtoull(settings + 16, NULL, 16);
    printf("AES-NI %s, PCLMULQDQ %s\n", vector >> 57 & 1 ? "on" : "off", vector >> 33 & 1 ? "on" : "off");
}

int main(int argc, char **argv) {
    const size_t size = argc == 4 ? strtoull(argv[2], NULL, 10) : 0;
    const bool chain = argc == 4 && size <= MOST;
    for (int i = 0; i < 32; i++)
        key[i] = i;
    if (chain && strcmp(argv[1], "mac") == 0)
        chain_macs(size, strtoull(argv[3], NULL, 10));
    else if (chain && strcmp(argv[1], "seal") == 0)
        chain_seals(size, strtoull(argv[3], NULL, 10));
    else if (argc == 2 && strcmp(argv[1], "instructions") == 0)
        print_instructions();
    else
        printf("usage: modes_openssl mac|seal SIZE COUNT (a SIZE of at most 2048)\n       modes_openssl instructions\n");
}
