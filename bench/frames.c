// What a frame costs: `xistalvo_secure` and `xistalvo_check` on whole frames, and beside them the cipher work of the same frames by OpenSSL's
// EVP, by libgcrypt and by mbedTLS, with the key set up for each frame. What the libraries make is compared with what the module made, for
// each line. It prints a line for each kind, service, size and number of entries, and for frames with a check field, as TC+ and TM+:
// microseconds a frame, and the ratios of the module's time to each library's. The module and the libraries take turns; a ratio is of two times
// of the same turn, and what is printed is the median of all turns, of each time and of each ratio. Run with WITHOUT_AES set, no library uses
// the processor's instructions for AES and GHASH.
#include "../include/xistalvo.h"

#include <gcrypt.h>
#include <mbedtls/aesni.h>
#include <mbedtls/cmac.h>
#include <mbedtls/gcm.h>
#include <openssl/core_names.h>
#include <openssl/evp.h>
#include <openssl/params.h>
#include <stdbool.h>
#include <stdio.h>
#include <stdlib.h>
#include <string.h>
#include <time.h>

enum { MOST = XISTALVO_LARGEST_FRAME, MAC = 16, KEY = 32, TURNS = 51 };

static const uint8_t mask[6] = {0xff, 0xff, 0xfc, 0x00, 0xff, 0x00};

// One association for sending and one for receiving, in two images of `entries` entries; the last entry is the one that serves.
struct link {
    uint8_t kind, service, check_field;
    size_t entries, header, security, data, clear_length, secured_length;
    uint16_t spi;
    uint8_t key[KEY];
    uint8_t here[XISTALVO_LARGEST_IMAGE], there[XISTALVO_LARGEST_IMAGE];
    uint8_t clear[MOST], secured[MOST], released[MOST];
};

static void need(bool ok, const char *what)
{
    if (!ok) {
        fprintf(stderr, "%s\n", what);
        exit(1);
    }
}

static double now(void)
{
    struct timespec t;
    clock_gettime(CLOCK_MONOTONIC, &t);
    return (double)t.tv_sec * 1e6 + (double)t.tv_nsec / 1e3;
}

static void put_two(uint8_t *at, size_t n)
{
    at[0] = (uint8_t)(n >> 8);
    at[1] = (uint8_t)n;
}

static void make_image(uint8_t *image, const struct link *l, uint8_t direction)
{
    memset(image, 0, XISTALVO_LARGEST_IMAGE);
    image[0] = 1;
    image[1] = (uint8_t)l->entries;
    for (size_t i = 0; i < l->entries; i++) {
        uint8_t *entry = image + 2 + 4 * i, *body = image + 2 + 4 * l->entries + 52 * i;
        put_two(entry, l->spi - (l->entries - 1) + i);
        put_two(entry + 2, (size_t)(body - image));
        body[0] = l->service;
        body[1] = l->kind;
        body[2] = direction;
        body[3] = 2;
        put_two(body + 4, 27);
        body[6] = 5;
        put_two(body + 8, 1024);
        memcpy(body + 10, mask, sizeof mask);
        memcpy(body + 16, l->key, KEY);
    }
}

// The check field, bit by bit.
static size_t field_of(const uint8_t *octets, size_t length)
{
    uint16_t field = 0xffff;
    for (size_t i = 0; i < 8 * length; i++) {
        bool bit = (field >> 15 ^ octets[i / 8] >> (7 - i % 8)) & 1;
        field = (uint16_t)(field << 1 ^ (bit ? 0x1021 : 0));
    }
    return field;
}

static void make_frame(struct link *l)
{
    uint8_t *f = l->clear;
    for (size_t i = 0; i < MOST; i++)
        f[i] = (uint8_t)(i * 7);
    if (l->kind == XISTALVO_TM) {
        put_two(f, 27 << 4 | 5 << 1);
        f[4] = 0;
    } else {
        put_two(f, 27);
        put_two(f + 2, 5 << 10 | (l->clear_length - 1));
    }
    if (l->check_field)
        put_two(f + l->clear_length - 2, field_of(f, l->clear_length - 2));
}

static struct link *make_link(uint8_t kind, uint8_t check_field, uint8_t service, size_t data, size_t entries)
{
    static struct link l;
    memset(&l, 0, sizeof l);
    l.kind = kind;
    l.check_field = check_field;
    l.service = service;
    l.entries = entries;
    l.data = data;
    l.header = kind == XISTALVO_TC ? 5 : 6;
    l.security = service == 2 ? 14 : 6;
    l.clear_length = l.header + data + (check_field ? 2 : 0);
    l.secured_length = l.clear_length + l.security + MAC;
    l.spi = 1000;
    for (size_t i = 0; i < KEY; i++)
        l.key[i] = (uint8_t)(i * 11 + 3);
    make_frame(&l);
    make_image(l.here, &l, 1);
    make_image(l.there, &l, 2);
    return &l;
}

// ---- the module

// The calls that are measured: those for on board, or with GROUND set those for a ground station.
static bool is_on_ground;

static uint64_t secure(struct link *l, uint32_t *numbers)
{
    return (is_on_ground ? xistalvo_ground_secure : xistalvo_secure)(l->here, XISTALVO_IMAGE_LENGTH(l->entries), numbers, XISTALVO_NUMBERS,
                                                                     XISTALVO_KEY_OFFICE, l->kind, l->check_field, l->spi, l->clear, l->clear_length,
                                                                     l->secured, MOST);
}

static uint64_t check(struct link *l, uint32_t *numbers)
{
    static xistalvo_notes notes;
    static uint8_t events[XISTALVO_EVENTS_LENGTH];
    return (is_on_ground ? xistalvo_ground_check : xistalvo_check)(&notes, events, sizeof events, l->there, XISTALVO_IMAGE_LENGTH(l->entries), numbers,
                                                                   XISTALVO_NUMBERS, XISTALVO_KEY_OFFICE, l->kind, l->check_field, l->secured,
                                                                   l->secured_length, l->released, MOST);
}

static double secure_frames(struct link *l, size_t count)
{
    size_t size = XISTALVO_IMAGE_LENGTH(l->entries);
    uint32_t numbers[XISTALVO_NUMBERS];
    need(XISTALVO_ANSWER(xistalvo_load(l->here, size, numbers, XISTALVO_NUMBERS)) == 0, "a load was refused");
    double began = now();
    for (size_t i = 0; i < count; i++)
        need(XISTALVO_ANSWER(secure(l, numbers)) == 0, "a sending was refused");
    return (now() - began) / (double)count;
}

// Each turn secures a frame and checks it; the time is that of the checks alone.
static double check_frames(struct link *l, size_t count)
{
    size_t size = XISTALVO_IMAGE_LENGTH(l->entries);
    uint32_t sender[XISTALVO_NUMBERS], receiver[XISTALVO_NUMBERS];
    double spent = 0;
    make_image(l->there, l, 2);
    make_image(l->here, l, 1);
    need(XISTALVO_ANSWER(xistalvo_load(l->here, size, sender, XISTALVO_NUMBERS)) == 0, "a load was refused");
    need(XISTALVO_ANSWER(xistalvo_load(l->there, size, receiver, XISTALVO_NUMBERS)) == 0, "a load was refused");
    for (size_t i = 0; i < count; i++) {
        secure(l, sender);
        double began = now();
        uint64_t r = check(l, receiver);
        spent += now() - began;
        need(XISTALVO_ANSWER(r) == 0 && XISTALVO_LENGTH(r) == l->data, "a check was refused");
    }
    need(memcmp(l->released, l->clear + l->header, l->data) == 0, "what was released is not what was sent");
    return spent / (double)count;
}

// ---- the same cipher work by a library: what the MAC covers before the data, the data, the MAC

struct work {
    uint8_t before[20], iv[12], text[MOST], mac[MAC];
    size_t before_length;
};

static void prepare(const struct link *l, struct work *w)
{
    for (size_t i = 0; i < l->header; i++)
        w->before[i] = l->secured[i] & mask[i];
    memcpy(w->before + l->header, l->secured + l->header, l->security);
    w->before_length = l->header + l->security;
    if (l->service == 2)
        memcpy(w->iv, l->secured + l->header + 2, sizeof w->iv);
}

static void compare(const struct link *l, const struct work *w)
{
    const uint8_t *text = l->secured + l->header + l->security;
    need(memcmp(w->mac, text + l->data, MAC) == 0, "a library's MAC differs");
    need(l->service == 1 || memcmp(w->text, text, l->data) == 0, "a library's text differs");
}

static double by_openssl(const struct link *l, size_t count)
{
    struct work w;
    int n;
    prepare(l, &w);
    EVP_MAC *algorithm = EVP_MAC_fetch(NULL, "CMAC", NULL);
    EVP_MAC_CTX *macs = EVP_MAC_CTX_new(algorithm);
    EVP_CIPHER *gcm = EVP_CIPHER_fetch(NULL, "AES-256-GCM", NULL);
    EVP_CIPHER_CTX *seals = EVP_CIPHER_CTX_new();
    const OSSL_PARAM cipher[] = {OSSL_PARAM_construct_utf8_string(OSSL_MAC_PARAM_CIPHER, "AES-256-CBC", 0), OSSL_PARAM_construct_end()};
    need(EVP_MAC_CTX_set_params(macs, cipher) && EVP_EncryptInit_ex(seals, gcm, NULL, NULL, NULL), "OpenSSL cannot begin");
    double began = now();
    for (size_t i = 0; i < count; i++) {
        size_t m;
        bool ok;
        if (l->service == 1)
            ok = EVP_MAC_init(macs, l->key, KEY, NULL) && EVP_MAC_update(macs, w.before, w.before_length)
                 && EVP_MAC_update(macs, l->clear + l->header, l->data) && EVP_MAC_final(macs, w.mac, &m, MAC);
        else
            ok = EVP_EncryptInit_ex(seals, NULL, NULL, l->key, w.iv) && EVP_EncryptUpdate(seals, NULL, &n, w.before, (int)w.before_length)
                 && EVP_EncryptUpdate(seals, w.text, &n, l->clear + l->header, (int)l->data) && EVP_EncryptFinal_ex(seals, w.text, &n)
                 && EVP_CIPHER_CTX_ctrl(seals, EVP_CTRL_AEAD_GET_TAG, MAC, w.mac);
        need(ok, "a call of OpenSSL failed");
    }
    double spent = (now() - began) / (double)count;
    compare(l, &w);
    EVP_MAC_CTX_free(macs);
    EVP_MAC_free(algorithm);
    EVP_CIPHER_CTX_free(seals);
    EVP_CIPHER_free(gcm);
    return spent;
}

static double by_gcrypt(const struct link *l, size_t count)
{
    struct work w;
    gcry_mac_hd_t macs;
    gcry_cipher_hd_t seals;
    prepare(l, &w);
    need(!gcry_mac_open(&macs, GCRY_MAC_CMAC_AES, 0, NULL) && !gcry_cipher_open(&seals, GCRY_CIPHER_AES256, GCRY_CIPHER_MODE_GCM, 0),
         "libgcrypt cannot begin");
    double began = now();
    for (size_t i = 0; i < count; i++) {
        size_t m = MAC;
        bool ok;
        if (l->service == 1)
            ok = !gcry_mac_reset(macs) && !gcry_mac_setkey(macs, l->key, KEY) && !gcry_mac_write(macs, w.before, w.before_length)
                 && !gcry_mac_write(macs, l->clear + l->header, l->data) && !gcry_mac_read(macs, w.mac, &m);
        else
            ok = !gcry_cipher_setkey(seals, l->key, KEY) && !gcry_cipher_setiv(seals, w.iv, sizeof w.iv)
                 && !gcry_cipher_authenticate(seals, w.before, w.before_length)
                 && !gcry_cipher_encrypt(seals, w.text, l->data, l->clear + l->header, l->data) && !gcry_cipher_gettag(seals, w.mac, MAC);
        need(ok, "a call of libgcrypt failed");
    }
    double spent = (now() - began) / (double)count;
    compare(l, &w);
    gcry_mac_close(macs);
    gcry_cipher_close(seals);
    return spent;
}

#if defined(MBEDTLS_AESNI_C) && defined(MBEDTLS_HAVE_X86_64)
// mbedTLS has no switch; it is linked so that it asks here whether the processor has the instructions.
int __real_mbedtls_aesni_has_support(unsigned what);
int __wrap_mbedtls_aesni_has_support(unsigned what);
int __wrap_mbedtls_aesni_has_support(unsigned what)
{
    return getenv("WITHOUT_AES") ? 0 : __real_mbedtls_aesni_has_support(what);
}
#endif

static double by_mbedtls(const struct link *l, size_t count)
{
    struct work w;
    mbedtls_gcm_context seals;
    const mbedtls_cipher_info_t *aes = mbedtls_cipher_info_from_type(MBEDTLS_CIPHER_AES_256_ECB);
    prepare(l, &w);
    mbedtls_gcm_init(&seals);
    double began = now();
    for (size_t i = 0; i < count; i++) {
        bool ok;
        if (l->service == 1) {
            mbedtls_cipher_context_t macs;
            mbedtls_cipher_init(&macs);
            ok = !mbedtls_cipher_setup(&macs, aes) && !mbedtls_cipher_cmac_starts(&macs, l->key, 8 * KEY)
                 && !mbedtls_cipher_cmac_update(&macs, w.before, w.before_length)
                 && !mbedtls_cipher_cmac_update(&macs, l->clear + l->header, l->data) && !mbedtls_cipher_cmac_finish(&macs, w.mac);
            mbedtls_cipher_free(&macs);
        } else {
            ok = !mbedtls_gcm_setkey(&seals, MBEDTLS_CIPHER_ID_AES, l->key, 8 * KEY)
                 && !mbedtls_gcm_crypt_and_tag(&seals, MBEDTLS_GCM_ENCRYPT, l->data, w.iv, sizeof w.iv, w.before, w.before_length,
                                               l->clear + l->header, w.text, MAC, w.mac);
        }
        need(ok, "a call of mbedTLS failed");
    }
    double spent = (now() - began) / (double)count;
    compare(l, &w);
    mbedtls_gcm_free(&seals);
    return spent;
}

// ---- lines

enum { SECURE, CHECK, OPENSSL, GCRYPT, MBEDTLS, TIMES };

static int order(const void *a, const void *b)
{
    double x = *(const double *)a, y = *(const double *)b;
    return (x > y) - (x < y);
}

static double median(double values[TURNS])
{
    qsort(values, TURNS, sizeof *values, order);
    return values[TURNS / 2];
}

// The median, over the turns, of one time, or of its ratio to another of the same turn.
static double over_turns(double times[TURNS][TIMES], int time, int to)
{
    double values[TURNS];
    for (int i = 0; i < TURNS; i++)
        values[i] = to == TIMES ? times[i][time] : times[i][time] / times[i][to];
    return median(values);
}

static void measure(uint8_t kind, uint8_t check_field, uint8_t service, size_t data, size_t entries, size_t octets)
{
    double times[TURNS][TIMES];
    size_t count = octets / (data + 256) / TURNS + 1;
    for (int i = 0; i < TURNS; i++) {
        struct link *l = make_link(kind, check_field, service, data, entries);
        times[i][SECURE] = secure_frames(l, count);
        times[i][CHECK] = check_frames(l, count);
        times[i][OPENSSL] = by_openssl(l, count);
        times[i][GCRYPT] = by_gcrypt(l, count);
        times[i][MBEDTLS] = by_mbedtls(l, count);
    }
    printf("%s%-2s %7u %6zu %7zu", kind == XISTALVO_TM ? "TM" : "TC", check_field ? "+" : "", service, data, entries);
    for (int time = SECURE; time < TIMES; time++)
        printf(" %8.2f", over_turns(times, time, TIMES));
    for (int time = SECURE; time <= CHECK; time++)
        for (int to = OPENSSL; to < TIMES; to++)
            printf(" %6.2f", over_turns(times, time, to));
    printf("\n");
}

int main(int count, char **arguments)
{
    static const size_t sizes[2][5] = {{16, 64, 256, 986, 0}, {16, 64, 256, 994, 2000}};
    size_t octets = count > 1 ? strtoul(arguments[1], NULL, 10) : 5000000;
    is_on_ground = getenv("GROUND") != NULL;
    if (getenv("WITHOUT_AES")) {
        static const char *const features[] = {"intel-aesni", "intel-pclmul", "intel-vaes-vpclmul", "arm-aes", "arm-pmull"};
        for (size_t i = 0; i < sizeof features / sizeof *features; i++)
            gcry_control(GCRYCTL_DISABLE_HWF, features[i], NULL);
    }
    need(gcry_check_version(GCRYPT_VERSION) != NULL, "another libgcrypt than the header's");
    gcry_control(GCRYCTL_INITIALIZATION_FINISHED, 0);
    printf("%-4s %7s %6s %7s %8s %8s %8s %8s %8s %6s %6s %6s %6s %6s %6s\n", "kind", "service", "octets", "entries", "secure", "check",
           "OpenSSL", "gcrypt", "mbedTLS", "s / O", "s / g", "s / m", "c / O", "c / g", "c / m");
    for (uint8_t service = 1; service <= 2; service++)
        for (int k = 0; k < 2; k++)
            for (size_t s = 0; s < 5 && sizes[k][s]; s++)
                for (size_t entries = 1; entries <= 32; entries += 31)
                    for (uint8_t field = 0; field <= 1; field++)
                        measure(k == 0 ? XISTALVO_TC : XISTALVO_TM, field, service, sizes[k][s], entries, octets);
    return 0;
}
