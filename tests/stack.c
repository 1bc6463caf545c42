/* How much stack each entry point takes. A call runs on a stack of its own that was filled with a pattern before; the octets below the
 * caller's frame that are no longer the pattern are those that the call took. Every call is done once over each of two patterns, so that an
 * octet that is written with the pattern itself does not count as unused. */
#include "../include/xistalvo_stack.h"
#include "../include/xistalvo_command.h"
#include "independent/reading.h"

#include <stdio.h>
#include <stdlib.h>
#include <string.h>
#include <ucontext.h>

enum { ROOM = 1 << 16 }; /* the calls run on this many octets, and may take XISTALVO_STACK, or XISTALVO_GROUND_STACK */

static uint8_t stack[ROOM] __attribute__((aligned(64)));
static uintptr_t frame_of_caller;
static ucontext_t here, there;

/* What the calls are lent, and what they return. */
static uint8_t images[2][LARGEST_IMAGE], clear[LARGEST_FRAME], secured[LARGEST_FRAME], opened[LARGEST_FRAME];
static uint32_t numbers[2][NUMBER_COUNT];
static xistalvo_notes notes;
static uint8_t events[XISTALVO_EVENTS_LENGTH];
static size_t image_length, clear_length, secured_length;
static uint8_t kind, check_field;
static uint64_t result;

static void call_load(void) { result = xistalvo_load(images[0], image_length, numbers[0], NUMBER_COUNT); }

static void call_secure(void)
{
    result = xistalvo_secure(images[0], image_length, numbers[0], NUMBER_COUNT, XISTALVO_KEY_OFFICE, kind, check_field, MOST_ENTRIES, clear,
                             clear_length, secured, sizeof secured);
}

static void call_check(void)
{
    result = xistalvo_check(&notes, events, sizeof events, images[1], image_length, numbers[1], NUMBER_COUNT, XISTALVO_KEY_OFFICE, kind, check_field,
                            secured, secured_length, opened, sizeof opened);
}

static void call_ground_secure(void)
{
    result = xistalvo_ground_secure(images[0], image_length, numbers[0], NUMBER_COUNT, XISTALVO_KEY_OFFICE, kind, check_field, MOST_ENTRIES, clear,
                                    clear_length, secured, sizeof secured);
}

static void call_ground_check(void)
{
    result = xistalvo_ground_check(&notes, events, sizeof events, images[1], image_length, numbers[1], NUMBER_COUNT, XISTALVO_KEY_OFFICE, kind,
                                   check_field, secured, secured_length, opened, sizeof opened);
}

static void call_raise(void)
{
    result = xistalvo_raise(images[0], image_length, MOST_ENTRIES - 1, 64 * 1000, 1000) == 1000 - 15 ? 0 : UINT64_MAX;
}

/* Set number, which stores 16 octets. */
static void call_command(void)
{
    static uint8_t command[XISTALVO_SET_NUMBER_LENGTH];
    xistalvo_make_set_number(MOST_ENTRIES, numbers[0][MOST_ENTRIES - 1] + XISTALVO_LARGEST_STEP, command, sizeof command);
    result = xistalvo_command(&notes, events, sizeof events, images[0], image_length, numbers[0], NUMBER_COUNT, XISTALVO_KEY_OFFICE, command,
                              sizeof command, opened, sizeof opened);
}

static void call_command_cut(void)
{
    static uint8_t command[XISTALVO_SET_NUMBER_LENGTH];
    xistalvo_make_set_number(MOST_ENTRIES, numbers[0][MOST_ENTRIES - 1] + XISTALVO_LARGEST_STEP, command, sizeof command);
    uint32_t made = xistalvo_command_cut(images[0], image_length, numbers[0], NUMBER_COUNT, XISTALVO_KEY_OFFICE, command, sizeof command,
                                         sizeof opened, 1);
    result = made == 1 ? 0 : UINT64_MAX;
}

/* Of all keys, which version 4 has; the reply is the longest but for a dump's. */
static void call_inventory(void)
{
    static uint8_t command[XISTALVO_INVENTORY_LENGTH];
    xistalvo_make_inventory(0, 65535, command, sizeof command);
    result = xistalvo_command(&notes, events, sizeof events, images[0], image_length, numbers[0], NUMBER_COUNT, XISTALVO_KEY_OFFICE, command,
                              sizeof command, opened, sizeof opened);
}

/* Of 256 events: the longest reply there is. */
static void call_dump(void)
{
    static uint8_t command[XISTALVO_NOTE_COMMAND_LENGTH];
    notes.kept = XISTALVO_MOST_EVENTS;
    xistalvo_make_dump(command, sizeof command);
    result = xistalvo_command(&notes, events, sizeof events, images[0], image_length, numbers[0], NUMBER_COUNT, XISTALVO_KEY_OFFICE, command,
                              sizeof command, opened, sizeof opened);
    if (XISTALVO_LENGTH(result) != XISTALVO_LARGEST_REPLY) {
        result = UINT64_MAX;
    }
}

static void call_fresh_notes(void)
{
    xistalvo_fresh_notes(&notes);
    result = 0;
}

static void (*current_call)(void);

static void run_call(void)
{
    frame_of_caller = (uintptr_t)__builtin_frame_address(0);
    current_call();
}

static void run_on_own_stack(void)
{
    getcontext(&there);
    there.uc_stack.ss_sp = stack;
    there.uc_stack.ss_size = sizeof stack;
    there.uc_link = &here;
    makecontext(&there, run_call, 0);
    swapcontext(&here, &there);
}

static size_t taken_over(int pattern, void (*call)(void))
{
    size_t unused = 0;
    memset(stack, pattern, sizeof stack);
    current_call = call;
    run_on_own_stack();
    while (unused < sizeof stack && stack[unused] == pattern) {
        unused++;
    }
    if (result >> 40 != 0) {
        fprintf(stderr, "stack: a call was refused by %u\n", XISTALVO_ANSWER(result));
        exit(1);
    }
    return (size_t)(frame_of_caller - (uintptr_t)stack) - unused;
}

/* Two ends with 32 associations of one kind and service, of which the last is used, in version 4 with 64 keys and the last of them; at the
 * receiving end its mark is 15 lower. */
static void make_ends(unsigned version, unsigned service)
{
    for (unsigned end = 0; end < 2; end++) {
        static struct table table;
        table = (struct table){.version = version, .count = MOST_ENTRIES, .key_count = MOST_KEYS};
        for (unsigned i = 0; i < MOST_ENTRIES; i++) {
            table.entries[i] = (struct association){.spi = i + 1, .service = service, .kind = kind, .direction = end + 1, .state = 2,
                                                    .spacecraft = 27, .channel = version >= 2 && kind == 3 ? 1 << 5 : 5, .window = 1024,
                                                    .key_id = 2 * i + 1, .key = {(uint8_t)i}, .mark = end == 0 ? 15 : 0, .owner = 1 + i % 2};
        }
        for (unsigned i = 0; i < MOST_KEYS; i++) {
            table.keys[i] = (struct key){.id = i, .state = ACTIVE, .octets = {(uint8_t)i}};
        }
        image_length = write_image(&table, images[end]);
        if (XISTALVO_ANSWER(xistalvo_load(images[end], image_length, numbers[end], NUMBER_COUNT)) != 0) {
            fprintf(stderr, "stack: an image was refused\n");
            exit(1);
        }
    }
}

/* The largest clear frame that can be secured. A TM frame has the longest secondary header and an operational control field, and all but AOS
 * end in a check field. */
static void make_frame(unsigned service)
{
    static const uint8_t headers[4][6] = {{0x00, 0x1B, 0x14}, {0x00, 0x1B, 0x14}, {0x01, 0xBB, 0x00, 0x00, 0x80}, {0x46, 0xC5}};
    clear_length = (has_length_field(kind) ? 1024 : 2048) - security_header_length(service) - MAC_LENGTH;
    memset(clear, 0x3F, clear_length); /* so that octet 6 of a TM frame counts 64 octets less one */
    memcpy(clear, headers[kind - 1], 6);
    if (has_length_field(kind)) {
        write_tc_length(clear, clear_length);
    }
    if (check_field != 0) {
        write_check_field(clear, clear_length);
    }
}

static size_t larger(size_t a, size_t b) { return a > b ? a : b; }

/* The most that a call takes with a frame of any kind and an image of version 1 or 4. */
static size_t taken_by(void (*call)(void), unsigned service)
{
    static const int patterns[] = {0x5A, 0xA5};
    size_t most = 0;
    for (unsigned round = 0; round < 8; round++) {
        kind = (uint8_t)(1 + round / 2);
        check_field = kind != 4;
        for (size_t i = 0; i < sizeof patterns / sizeof patterns[0]; i++) {
            make_ends(round % 2 == 0 ? 1 : 4, service);
            make_frame(service);
            if (call == call_check || call == call_ground_check) {
                call_secure();
                secured_length = XISTALVO_LENGTH(result);
            }
            most = larger(most, taken_over(patterns[i], call));
        }
    }
    return most;
}

int main(void)
{
    static const struct {
        const char *name;
        void (*call)(void);
        size_t limit;
    } calls[] = {{"load", call_load, XISTALVO_STACK},
                 {"secure", call_secure, XISTALVO_STACK},
                 {"check", call_check, XISTALVO_STACK},
                 {"command", call_command, XISTALVO_STACK},
                 {"inventory", call_inventory, XISTALVO_STACK},
                 {"dump", call_dump, XISTALVO_STACK},
                 {"fresh_notes", call_fresh_notes, XISTALVO_STACK},
                 {"raise", call_raise, XISTALVO_STACK},
                 {"command_cut", call_command_cut, XISTALVO_STACK},
                 {"ground_secure", call_ground_secure, XISTALVO_GROUND_STACK},
                 {"ground_check", call_ground_check, XISTALVO_GROUND_STACK}};
    bool is_within = true;
    printf("octets of stack  service 1  service 2\n");
    for (size_t i = 0; i < sizeof calls / sizeof calls[0]; i++) {
        size_t taken[] = {taken_by(calls[i].call, 1), taken_by(calls[i].call, 2)};
        printf("%-15s %10zu %10zu\n", calls[i].name, taken[0], taken[1]);
        is_within = is_within && larger(taken[0], taken[1]) <= calls[i].limit;
    }
    printf("stack: %s\n", is_within ? "no call takes more than its limit" : "a call takes more than its limit");
    return !is_within;
}
