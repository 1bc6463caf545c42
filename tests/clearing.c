/* What is left on the stack after a call, and after include/xistalvo_stack.h has cleared it.
 *
 * A call runs on a stack of its own that was filled with a pattern. Done twice with two keys and all else the same, and cleared, it must leave
 * the same octets on that stack, whichever key it was: so no octet is left that depends on the key. Without the clearing the key itself is
 * found there, which shows that the test can see it. */
#include "../include/xistalvo_stack.h"
#include "../include/xistalvo.h"
#include "independent/reading.h"

#include <stdio.h>
#include <stdlib.h>
#include <string.h>
#include <ucontext.h>

enum { ROOM = 1 << 16, PATTERN = 0x5A, PIECE = 4, DATA = 100, SPI = 9 };

static uint8_t stack[ROOM] __attribute__((aligned(64)));
static ucontext_t here, there;

static uint8_t images[2][LARGEST_IMAGE], clear[LARGEST_FRAME], secured[LARGEST_FRAME], opened[LARGEST_FRAME];
static uint32_t numbers[2][NUMBER_COUNT];
static xistalvo_notes notes;
static uint8_t events[XISTALVO_EVENTS_LENGTH];
static size_t image_length, clear_length;
static uint64_t result;
static bool is_cleared;

static void call_secure(void)
{
    result = xistalvo_secure(images[0], image_length, numbers[0], NUMBER_COUNT, XISTALVO_KEY_OFFICE, XISTALVO_TC, XISTALVO_NO_CHECK_FIELD, SPI, clear,
                             clear_length, secured, sizeof secured);
    if (is_cleared) {
        xistalvo_clear_stack();
    }
}

static void call_check(void)
{
    result = xistalvo_check(&notes, events, sizeof events, images[1], image_length, numbers[1], NUMBER_COUNT, XISTALVO_KEY_OFFICE, XISTALVO_TC,
                            XISTALVO_NO_CHECK_FIELD, secured, XISTALVO_LENGTH(result), opened, sizeof opened);
    if (is_cleared) {
        xistalvo_clear_stack();
    }
}

static void call_ground_secure(void)
{
    result = xistalvo_ground_secure(images[0], image_length, numbers[0], NUMBER_COUNT, XISTALVO_KEY_OFFICE, XISTALVO_TC, XISTALVO_NO_CHECK_FIELD, SPI,
                                    clear, clear_length, secured, sizeof secured);
    if (is_cleared) {
        xistalvo_clear_ground_stack();
    }
}

static void call_ground_check(void)
{
    result = xistalvo_ground_check(&notes, events, sizeof events, images[1], image_length, numbers[1], NUMBER_COUNT, XISTALVO_KEY_OFFICE,
                                   XISTALVO_TC, XISTALVO_NO_CHECK_FIELD, secured, XISTALVO_LENGTH(result), opened, sizeof opened);
    if (is_cleared) {
        xistalvo_clear_ground_stack();
    }
}

static void run_on_own_stack(void (*call)(void))
{
    memset(stack, PATTERN, sizeof stack);
    getcontext(&there);
    there.uc_stack.ss_sp = stack;
    there.uc_stack.ss_size = sizeof stack;
    there.uc_link = &here;
    makecontext(&there, call, 0);
    swapcontext(&here, &there);
    if (XISTALVO_ANSWER(result) != XISTALVO_DONE) {
        fprintf(stderr, "clearing: a call was refused by %u\n", XISTALVO_ANSWER(result));
        exit(1);
    }
}

/* Both ends with one association, and a clear frame; the key's octets follow from one number. */
static void key_of(unsigned number, uint8_t key[KEY_LENGTH])
{
    for (unsigned i = 0; i < KEY_LENGTH; i++) {
        key[i] = (uint8_t)(7 * i * i + 11 * i + 31 * number + 1);
    }
}

static void prepare(unsigned version, unsigned service, unsigned key)
{
    static const uint8_t header[] = {0x00, 27, 5 << 2, 0, 0};
    for (unsigned end = 0; end < 2; end++) {
        struct table table = {.version = version, .count = 1, .key_count = 1};
        table.entries[0] = (struct association){.spi = SPI, .service = service, .kind = 1, .direction = end + 1, .state = 2,
                                                .spacecraft = 27, .channel = 5, .window = 100, .key_id = 7, .mark = 0, .owner = 1};
        table.keys[0] = (struct key){.id = 7, .state = ACTIVE};
        key_of(key, has_key_part(version) ? table.keys[0].octets : table.entries[0].key);
        image_length = write_image(&table, images[end]);
        xistalvo_load(images[end], image_length, numbers[end], NUMBER_COUNT);
    }
    clear_length = sizeof header + DATA;
    memset(clear, 0xAA, clear_length);
    memcpy(clear, header, sizeof header);
    write_tc_length(clear, clear_length);
}

/* A call with this key, and for a check the sending before it; the stack then is as the last call left it. */
static void run(void (*call)(void), unsigned version, unsigned service, unsigned key)
{
    prepare(version, service, key);
    if (call == call_check || call == call_ground_check) {
        run_on_own_stack(call_secure);
    }
    run_on_own_stack(call);
}

/* How many pieces of the key are on the stack. */
static size_t pieces_found(unsigned number)
{
    uint8_t key[KEY_LENGTH];
    size_t found = 0;
    key_of(number, key);
    for (size_t at = 0; at + PIECE <= KEY_LENGTH; at++) {
        for (size_t i = 0; i + PIECE <= sizeof stack; i++) {
            found += memcmp(stack + i, key + at, PIECE) == 0;
        }
    }
    return found;
}

static void need(bool is_so, const char *call, unsigned version, unsigned service, const char *sentence)
{
    if (!is_so) {
        fprintf(stderr, "clearing: %s, version %u, service %u: %s\n", call, version, service, sentence);
        exit(1);
    }
}

/* Gives how many pieces of the key a call leaves that is not followed by a clearing. */
static size_t try_call(const char *name, void (*call)(void), unsigned version, unsigned service)
{
    static uint8_t left[ROOM];
    is_cleared = false;
    run(call, version, service, 1);
    size_t before = pieces_found(1);
    need(before != 0, name, version, service, "the key is not on the stack after a call, so this test can see nothing");
    is_cleared = true;
    run(call, version, service, 1);
    need(pieces_found(1) == 0, name, version, service, "a piece of the key is on the stack after the clearing");
    memcpy(left, stack, sizeof left);
    run(call, version, service, 2);
    need(memcmp(left, stack, sizeof left) == 0, name, version, service, "what is left on the stack depends on the key");
    return before;
}

int main(void)
{
    static const struct {
        const char *name;
        void (*call)(void);
    } calls[] = {{"secure", call_secure},
                 {"check", call_check},
                 {"ground_secure", call_ground_secure},
                 {"ground_check", call_ground_check}};
    size_t before = 0;
    for (size_t i = 0; i < sizeof calls / sizeof calls[0]; i++) {
        for (unsigned version = 1; version <= 4; version += 3) { /* a key in its body, and one in the key part */
            for (unsigned service = 1; service <= 2; service++) {
                before += try_call(calls[i].name, calls[i].call, version, service);
            }
        }
    }
    printf("clearing: %zu pieces of keys before, none after; no octet that is left depends on the key\n", before);
    return 0;
}
