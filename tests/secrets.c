/* Calls whose keys and data are secret, for valgrind: each octet of a key, in its body or in the key part, and of a frame's data is marked as
 * undefined, so that memcheck names every place at which the compiled module branches on something made of them, or reads memory where something
 * made of them says. tests/secrets runs it and holds what is named to a list. Of an inventory, of the notes and of the events it asks itself that no octet
 * is made of a key or of data.
 *
 * What goes out is no secret: a secured frame is marked as defined before it is checked, but for its data and MAC, and so is a result. A check
 * field is made of what it covers and is no secret either: it is written before the octets are hidden. */
#include "../include/xistalvo.h"
#include "independent/reading.h"

#include <stdio.h>
#include <stdlib.h>
#include <string.h>
#include <valgrind/memcheck.h>

enum { HEADER = 5, SPI = 9, FIELD = 2, KEYS = 3 };

static uint8_t images[2][LARGEST_IMAGE], clear[LARGEST_FRAME], secured[LARGEST_FRAME], opened[LARGEST_FRAME];
static uint32_t numbers[2][NUMBER_COUNT];
static xistalvo_notes notes;
static uint8_t events[XISTALVO_EVENTS_LENGTH];
static size_t image_length;
static bool is_on_ground; /* which engine's calls are made */
static bool has_field;    /* whether frames end in a check field */

static void hide(void *from, size_t octets) { VALGRIND_MAKE_MEM_UNDEFINED(from, octets); }

static void show(void *from, size_t octets) { VALGRIND_MAKE_MEM_DEFINED(from, octets); }

static void need(uint64_t result, unsigned answer, const char *call)
{
    show(&result, sizeof result);
    if (XISTALVO_ANSWER(result) != answer) {
        fprintf(stderr, "secrets: a %s was answered by %u and not by %u\n", call, XISTALVO_ANSWER(result), answer);
        exit(1);
    }
}

/* Both ends with one association, whose key is hidden; in version 3 between two others, which are hidden too. */
static void prepare(unsigned version, unsigned service)
{
    for (unsigned end = 0; end < 2; end++) {
        struct table table = {.version = version, .count = 1, .key_count = KEYS};
        table.entries[0] = (struct association){.spi = SPI, .service = service, .kind = XISTALVO_TC, .direction = end + 1, .state = 2,
                                                .spacecraft = 27, .channel = 5, .window = 100, .key_id = 7, .mark = 0, .owner = 1};
        memset(table.entries[0].key, 0xA5, KEY_LENGTH);
        for (unsigned j = 0; j < KEYS; j++) {
            table.keys[j] = (struct key){.id = 6 + j, .state = ACTIVE};
            memset(table.keys[j].octets, 0xA4 + (int)j, KEY_LENGTH);
        }
        image_length = write_image(&table, images[end]);
        if (version == 1) {
            hide(images[end] + XISTALVO_AT_BODY(1, 0) + XISTALVO_IN_KEY, KEY_LENGTH);
        }
        for (unsigned j = 0; j < KEYS && version == 3; j++) {
            hide(images[end] + XISTALVO_AT_KEY_3(1, j) + XISTALVO_IN_KEY_OCTETS, KEY_LENGTH);
        }
        need(xistalvo_load(images[end], image_length, numbers[end], NUMBER_COUNT), XISTALVO_DONE, "load");
    }
}

/* A check of the secured frame with a bit of its MAC's last octet changed, or none, and of its check field, or none. */
static void check(size_t data, size_t before, uint8_t change, uint8_t change_of_field, unsigned answer)
{
    size_t end = before + data + MAC_LENGTH, length = end + (has_field ? FIELD : 0);
    secured[end - 1] ^= change;
    if (has_field) {
        write_check_field(secured, length);
        secured[length - 1] ^= change_of_field;
    }
    hide(secured + before, data + MAC_LENGTH);
    need((is_on_ground ? xistalvo_ground_check : xistalvo_check)(&notes, events, sizeof events, images[1], image_length, numbers[1], NUMBER_COUNT,
                                                                 XISTALVO_KEY_OFFICE, XISTALVO_TC, has_field, secured, length, opened,
                                                                 sizeof opened),
         answer, "check");
    show(secured, length);
    secured[end - 1] ^= change;
}

/* A frame of so much data, sent, checked with another check field if it has one, with another MAC, and checked. */
static void round_trip(unsigned service, size_t data)
{
    static const uint8_t header[HEADER] = {0x00, 27, 5 << 2, 0, 0};
    size_t before = HEADER + (service == XISTALVO_AUTHENTICATED_ENCRYPTION ? 14 : 6), length = HEADER + data + (has_field ? FIELD : 0);
    show(clear, length);
    memset(clear, 0xAA, HEADER + data);
    memcpy(clear, header, HEADER);
    write_tc_length(clear, length);
    if (has_field)
        write_check_field(clear, length);
    hide(clear + HEADER, data);
    need((is_on_ground ? xistalvo_ground_secure : xistalvo_secure)(images[0], image_length, numbers[0], NUMBER_COUNT, XISTALVO_KEY_OFFICE,
                                                                   XISTALVO_TC, has_field, SPI, clear, length, secured, sizeof secured),
         XISTALVO_DONE, "sending");
    show(secured, before + data + MAC_LENGTH + FIELD);
    if (has_field)
        check(data, before, 0, 1, XISTALVO_CHECK_FIELD_DIFFERS);
    check(data, before, 1, 0, XISTALVO_MAC_DIFFERS);
    check(data, before, 0, 0, XISTALVO_DONE);
}

/* The reply lists all keys, and no octet of it depends on what they are. */
static void list_keys(void)
{
    static const uint8_t inventory[XISTALVO_INVENTORY_LENGTH] = {XISTALVO_TAG_INVENTORY, 0, 4, 0, 0, 0xFF, 0xFF};
    uint64_t result = xistalvo_command(&notes, events, sizeof events, images[0], image_length, numbers[0], NUMBER_COUNT, XISTALVO_KEY_OFFICE,
                                       inventory, sizeof inventory, opened, sizeof opened);
    need(result, XISTALVO_DONE, "command");
    if (XISTALVO_LENGTH(result) != XISTALVO_INVENTORY_REPLY_LENGTH(KEYS)
        || VALGRIND_CHECK_MEM_IS_DEFINED(opened, XISTALVO_INVENTORY_REPLY_LENGTH(KEYS)) != 0) {
        fputs("secrets: an inventory does not list the keys, or tells something of their octets\n", stderr);
        exit(1);
    }
}

int main(void)
{
    static const size_t sizes[] = {1, 16, 100, 984};
    for (unsigned run = 0; run < 16; run++) {
        unsigned service = run % 2 + 1;
        unsigned version = run < 8 ? 1 : 3;
        is_on_ground = run / 2 % 2 == 1;
        has_field = run / 4 % 2 == 1;
        prepare(version, service);
        for (size_t i = 0; i < sizeof sizes / sizeof sizes[0]; i++) {
            round_trip(service, sizes[i]);
        }
        if (version == 3) {
            list_keys();
        }
    }
    if (VALGRIND_CHECK_MEM_IS_DEFINED(&notes, sizeof notes) != 0 || VALGRIND_CHECK_MEM_IS_DEFINED(events, sizeof events) != 0) {
        fputs("secrets: a report or the log is made of keys or of data\n", stderr);
        exit(1);
    }
    return 0;
}
