// The chains of crates/cipher_bench over OpenSSL's AES_set_encrypt_key and AES_encrypt, which use no AES instructions of the processor.
// Arguments and output are those of cipher_bench.
#define OPENSSL_SUPPRESS_DEPRECATED
#include <openssl/aes.h>
#include <stdio.h>
#include <stdlib.h>
#include <string.h>

static void print_line(const unsigned char *octets, size_t n) {
    for (size_t i = 0; i < n; i++)
        printf("%02x", octets[i]);
    printf("\n");
}

static void chain_blocks(const unsigned char *key, unsigned long long count) {
    AES_KEY expanded;
    unsigned char block[16] = {0};
    AES_set_encrypt_key(key, 256, &expanded);
    for (; count > 0; count--)
        AES_encrypt(block, block, &expanded);
    print_line(block, sizeof block);
}

static void chain_keys(unsigned char *key, unsigned long long count) {
    AES_KEY expanded;
    // How the octets of a word lie in memory is the implementation's choice. The first word is the key's own, which tells.
    AES_set_encrypt_key(key, 256, &expanded);
    const int flip = memcmp(expanded.rd_key, key, 4) == 0 ? 0 : 3;
    for (; count > 0; count--) {
        AES_set_encrypt_key(key, 256, &expanded);
        const unsigned char *last = (const unsigned char *)(expanded.rd_key + 52);
        for (int i = 0; i < 32; i++)
            key[i] = last[i ^ flip];
    }
    print_line(key, 32);
}

int main(int argc, char **argv) {
    unsigned char key[32];
    for (int i = 0; i < 32; i++)
        key[i] = i;
    if (argc == 3 && strcmp(argv[1], "blocks") == 0)
        chain_blocks(key, strtoull(argv[2], NULL, 10));
    else if (argc == 3 && strcmp(argv[1], "keys") == 0)
        chain_keys(key, strtoull(argv[2], NULL, 10));
    else
        printf("usage: aes_openssl blocks|keys COUNT\n");
}
