/* Management commands (document 02, request 5) through the C interface, with figures of its own: the sentences of the request as a table; every
 * tag with every length; every step of set number and every window, around all limits; a way through all states; the longest start. Each call is
 * also compared with the independent reading (support/both.h). And what include/xistalvo_command.h lays out and reads, beside the tests' own.
 * Keys and their commands have more in keys.c.
 *
 *   commands [--seed S] [--count N] [--from W] */
#include "../include/xistalvo_command.h"
#include "support/both.h"
#include "support/commands.h"
#include "support/hexadecimal.h"
#include "support/options.h"
#include "support/worlds.h"

#include <inttypes.h>
#include <stdio.h>
#include <stdlib.h>
#include <string.h>

enum { UNTOUCHED = 0x5A, LONGEST_TRIED = 40, LONG_ROOM = 70000 };

static struct random test_random;
static uint64_t calls;

static void expect(bool is_right, const char *sentence)
{
    if (!is_right) {
        both_fail(sentence);
    }
}

/* ---- the association of the table: SPI 9, spacecraft 27, channel 5, and what varies ---- */

struct setting {
    unsigned version, kind, direction, state, window;
    uint32_t last;
};

static void lay_out(const struct setting *setting, struct input *input)
{
    struct table table;
    struct association *entry = &table.entries[0];
    memset(&table, 0, sizeof table);
    memset(input, 0, sizeof *input);
    table.version = setting->version;
    table.count = 1;
    entry->spi = 9;
    entry->service = 1;
    entry->kind = setting->kind;
    entry->direction = setting->direction;
    entry->state = setting->state;
    entry->spacecraft = 27;
    entry->channel = setting->version >= 2 && setting->kind == 3 ? 0x22 : 5; /* the set of channels 1 and 5 */
    entry->map = setting->kind == 2 ? 9 : 0;
    entry->window = setting->window;
    entry->mark = setting->last / 64;
    table.key_count = has_key_part(setting->version) ? 1 : 0; /* with ID 0, which the association names */
    entry->owner = 1;
    table.keys[0].state = ACTIVE;
    input->which = CALL_COMMAND;
    input->image_length = write_image(&table, input->image);
    input->numbers_length = NUMBER_COUNT;
    input->numbers[0] = setting->last;
    input->output_length = XISTALVO_LARGEST_REPLY;
    memset(input->output, UNTOUCHED, input->output_length);
}

static struct outcome run(struct input *input)
{
    calls++;
    return both_run(&test_random, input);
}

/* ---- the request's sentences ---- */

#define TC_IN(state) {1, 1, 1, state, 100, 63}
#define LAST_BUT(n) {1, 1, 2, 0, 100, 4294967295u - (n)}

static const struct {
    const char *name;
    struct setting setting;
    const char *command;
    unsigned answer, stores;
    const char *changed; /* octets of the body from 3 on: state, spacecraft, channel, MAP, window; empty where all stay */
    const char *reply;
} cases[] = {
    {"start: keyed to operational", TC_IN(1), "1B 0006 0009 000006C5", 0, 1, "02 001B 05 00 0064", ""},
    {"start: unkeyed", TC_IN(0), "1B 0006 0009 000006C5", 15, 0, "", ""},
    {"start: operational", TC_IN(2), "1B 0006 0009 000006C5", 15, 0, "", ""},
    {"start: another channel", TC_IN(1), "1B 0006 0009 000006C4", 16, 0, "", ""},
    {"start: another spacecraft", TC_IN(1), "1B 0006 0009 00000705", 16, 0, "", ""},
    {"start: another version", TC_IN(1), "1B 0006 0009 000106C5", 16, 0, "", ""},
    {"start: a bit in the first octet", TC_IN(1), "1B 0006 0009 800006C5", 16, 0, "", ""},
    {"start: the same channel twice", TC_IN(1), "1B 000A 0009 000006C5 000006C5", 0, 1, "02 001B 05 00 0064", ""},
    {"start: the second channel is another", TC_IN(1), "1B 000A 0009 000006C5 000006C6", 16, 0, "", ""},
    {"start: no channel", TC_IN(1), "1B 0002 0009", 13, 0, "", ""},
    {"start: half a channel", TC_IN(1), "1B 0004 0009 06C5", 13, 0, "", ""},
    {"start: AOS, with version 01", {1, 4, 1, 1, 100, 63}, "1B 0006 0009 000046C5", 0, 1, "02 001B 05 00 0064", ""},
    {"start: AOS, without its version", {1, 4, 1, 1, 100, 63}, "1B 0006 0009 000006C5", 16, 0, "", ""},
    {"start: TC with segment header, by MAP", {1, 2, 2, 1, 100, 63}, "1B 0006 0009 0001B149", 0, 1, "02 001B 05 09 0064", ""},
    {"start: TC with segment header, without MAP", {1, 2, 2, 1, 100, 63}, "1B 0006 0009 000006C5", 16, 0, "", ""},
    {"start: TC with segment header, another MAP", {1, 2, 2, 1, 100, 63}, "1B 0006 0009 0001B14A", 16, 0, "", ""},
    {"start: TM, channel of 3 bits", {1, 3, 1, 1, 100, 63}, "1B 0006 0009 000000DD", 0, 1, "02 001B 05 00 0064", ""},
    {"start: TM, channel of 6 bits", {1, 3, 1, 1, 100, 63}, "1B 0006 0009 000006C5", 16, 0, "", ""},
    {"start: TM, one of a set", {2, 3, 1, 1, 100, 63}, "1B 0006 0009 000000D9", 0, 1, "02 001B 22 00 0064", ""},
    {"start: TM, all of a set", {2, 3, 1, 1, 100, 63}, "1B 000A 0009 000000DD 000000D9", 0, 1, "02 001B 22 00 0064", ""},
    {"start: TM, not in the set", {2, 3, 1, 1, 100, 63}, "1B 0006 0009 000000DA", 16, 0, "", ""},
    {"start: TM, one in the set and one not", {2, 3, 1, 1, 100, 63}, "1B 000A 0009 000000D9 000000DB", 16, 0, "", ""},
    {"start: window 0", {1, 1, 1, 1, 0, 63}, "1B 0006 0009 000006C5", 16, 0, "", ""},
    {"start: window 1", {1, 1, 1, 1, 1, 63}, "1B 0006 0009 000006C5", 0, 1, "02 001B 05 00 0001", ""},
    {"start: window 1,024", {1, 1, 1, 1, 1024, 63}, "1B 0006 0009 000006C5", 0, 1, "02 001B 05 00 0400", ""},
    {"start: window 1,025", {1, 1, 1, 1, 1025, 63}, "1B 0006 0009 000006C5", 16, 0, "", ""},
    {"start: unkeyed and window 0: 15 before 16", {1, 1, 1, 0, 0, 63}, "1B 0006 0009 000006C5", 15, 0, "", ""},
    {"start: operational and another channel: 15 before 16", TC_IN(2), "1B 0006 0009 FFFFFFFF", 15, 0, "", ""},
    {"start: unknown SPI and unkeyed: 14 before 15", TC_IN(0), "1B 0006 000A 000006C5", 14, 0, "", ""},
    {"stop: operational to keyed", TC_IN(2), "1E 0002 0009", 0, 1, "01 001B 05 00 0064", ""},
    {"stop: keyed", TC_IN(1), "1E 0002 0009", 15, 0, "", ""},
    {"stop: unkeyed", TC_IN(0), "1E 0002 0009", 15, 0, "", ""},
    {"stop: unknown SPI", TC_IN(2), "1E 0002 0109", 14, 0, "", ""},
    {"stop: an octet too few", TC_IN(2), "1E 0002 00", 13, 0, "", ""},
    {"stop: an octet too many", TC_IN(2), "1E 0002 0009 00", 13, 0, "", ""},
    {"stop: an octet too many, counted", TC_IN(2), "1E 0003 0009 00", 13, 0, "", ""},
    {"stop: its length in bits", TC_IN(2), "1E 0010 0009", 13, 0, "", ""},
    {"expire: keyed to unkeyed", TC_IN(1), "19 0002 0009", 0, 1, "00 001B 05 00 0064", ""},
    {"expire: operational", TC_IN(2), "19 0002 0009", 15, 0, "", ""},
    {"expire: unkeyed", TC_IN(0), "19 0002 0009", 15, 0, "", ""},
    {"rekey: unkeyed to keyed", TC_IN(0), "16 0010 0009 0000 000000000000000000000000", 0, 1, "01 001B 05 00 0064", ""},
    {"rekey: keyed", TC_IN(1), "16 0010 0009 0000 000000000000000000000000", 15, 0, "", ""},
    {"rekey: operational", TC_IN(2), "16 0010 0009 0000 000000000000000000000000", 15, 0, "", ""},
    {"rekey: a key ID", TC_IN(0), "16 0010 0009 0001 000000000000000000000000", 16, 0, "", ""},
    {"rekey: a key ID, keyed: 15 before 16", TC_IN(1), "16 0010 0009 0001 000000000000000000000000", 15, 0, "", ""},
    {"rekey: a number", TC_IN(0), "16 0010 0009 0000 000000000000000000000001", 16, 0, "", ""},
    {"rekey: a number in the first octet", TC_IN(0), "16 0010 0009 0000 800000000000000000000000", 16, 0, "", ""},
    {"rekey: no number", TC_IN(0), "16 0004 0009 0000", 13, 0, "", ""},
    {"set window: keyed", TC_IN(1), "15 0004 0009 0400", 0, 2, "01 001B 05 00 0400", ""},
    {"set window: unkeyed", TC_IN(0), "15 0004 0009 0001", 0, 2, "00 001B 05 00 0001", ""},
    {"set window: the same is stored too", TC_IN(1), "15 0004 0009 0064", 0, 2, "01 001B 05 00 0064", ""},
    {"set window: mends one that a cut left", {1, 1, 1, 1, 1124, 63}, "15 0004 0009 0400", 0, 2, "01 001B 05 00 0400", ""},
    {"set window: operational", TC_IN(2), "15 0004 0009 0400", 15, 0, "", ""},
    {"set window: operational, 0: 15 before 16", TC_IN(2), "15 0004 0009 0000", 15, 0, "", ""},
    {"set window: 0", TC_IN(1), "15 0004 0009 0000", 16, 0, "", ""},
    {"set window: 1,025", TC_IN(1), "15 0004 0009 0401", 16, 0, "", ""},
    {"set number: 63 to 64", TC_IN(0), "1A 000E 0009 000000000000000000000040", 0, 1, "00 001B 05 00 0064", ""},
    {"set number: operational, by 1,024", TC_IN(2), "1A 000E 0009 00000000000000000000043F", 0, 16, "02 001B 05 00 0064", ""},
    {"set number: by 1,025", TC_IN(2), "1A 000E 0009 000000000000000000000440", 16, 0, "", ""},
    {"set number: the last again", TC_IN(2), "1A 000E 0009 00000000000000000000003F", 16, 0, "", ""},
    {"set number: lower", TC_IN(2), "1A 000E 0009 00000000000000000000003E", 16, 0, "", ""},
    {"set number: a bit above the number", TC_IN(2), "1A 000E 0009 000000000000000100000040", 16, 0, "", ""},
    {"set number: a bit in the first octet", TC_IN(2), "1A 000E 0009 010000000000000000000040", 16, 0, "", ""},
    {"set number: to the greatest", LAST_BUT(1), "1A 000E 0009 0000000000000000FFFFFFFF", 0, 0, "00 001B 05 00 0064", ""},
    {"set number: past the greatest", LAST_BUT(1), "1A 000E 0009 000000000000000100000000", 16, 0, "", ""},
    {"set number: none is left", LAST_BUT(0), "1A 000E 0009 0000000000000000FFFFFFFF", 16, 0, "", ""},
    {"set number: in 4 octets", TC_IN(2), "1A 0006 0009 00000040", 13, 0, "", ""},
    {"status: unkeyed", TC_IN(0), "1F 0002 0009", 0, 0, "", "9F 0003 0009 00"},
    {"status: keyed", TC_IN(1), "1F 0002 0009", 0, 0, "", "9F 0003 0009 01"},
    {"status: operational", TC_IN(2), "1F 0002 0009", 0, 0, "", "9F 0003 0009 02"},
    {"status: unknown SPI", TC_IN(2), "1F 0002 0008", 14, 0, "", ""},
    {"read number", TC_IN(2), "10 0002 0009", 0, 0, "", "90 000E 0009 00000000000000000000003F"},
    {"read number: unkeyed, the greatest", LAST_BUT(0), "10 0002 0009", 0, 0, "", "90 000E 0009 0000000000000000FFFFFFFF"},
    {"ping", TC_IN(2), "31 0000", 0, 0, "", "B1 0000"},
    {"ping: with an SPI", TC_IN(2), "31 0002 0009", 13, 0, "", ""},
    {"a reply is no command", TC_IN(2), "B1 0000", 13, 0, "", ""},
    {"another tag", TC_IN(2), "32 0000", 13, 0, "", ""},
    {"dump: no event", TC_IN(2), "33 0000", 0, 0, "", "B3 0000"},
    {"dump: an octet too many", TC_IN(2), "33 0001 00", 13, 0, "", ""},
    {"erase: no room in the list", TC_IN(2), "34 0000", 0, 0, "", "B4 0004 0000 0000"},
    {"erase: its tag alone", TC_IN(2), "34", 13, 0, "", ""},
    {"alarm reset", TC_IN(2), "37 0000", 0, 0, "", ""},
    {"alarm reset: with a desk", TC_IN(2), "37 0001 01", 13, 0, "", ""},
    {"unknown tag and unknown SPI: 13 before 14", TC_IN(2), "1D 0002 0008", 13, 0, "", ""},
    {"no octet", TC_IN(2), "", 13, 0, "", ""},
    {"a tag alone", TC_IN(2), "31", 13, 0, "", ""},
    {"a tag and half a length", TC_IN(2), "31 00", 13, 0, "", ""},
};

static void judge_case(size_t number)
{
    static struct input input, before;
    uint8_t expected[64];
    lay_out(&cases[number].setting, &input);
    input.frame_length = octets_of(cases[number].command, input.frame);
    before = input;
    struct outcome outcome = run(&input);
    expect(outcome.answer == cases[number].answer && outcome.stores == cases[number].stores, cases[number].name);
    memcpy(expected, before.image + 9, 7);
    octets_of(cases[number].changed, expected);
    expect(memcmp(input.image + 9, expected, 7) == 0, cases[number].name);
    size_t length = octets_of(cases[number].reply, expected);
    expect(outcome.length == length && memcmp(input.output, expected, length) == 0, cases[number].name);

    /* 6 comes last: an output that is too short for the reply gives it where nothing else is wrong, and nothing then. */
    input = before;
    input.output_length = length == 0 ? 0 : length - 1;
    expect(run(&input).answer == (length == 0 ? cases[number].answer : 6), cases[number].name);
    /* 2 and 1 come before everything else, and 1 before 2. */
    input = before;
    input.numbers[0] ^= 64;
    expect(run(&input).answer == 2, cases[number].name);
    input.image[6] = 0;
    expect(run(&input).answer == 1, cases[number].name);
}

/* ---- every tag and every length; every step and every window ---- */

static bool has_form(unsigned tag, size_t value)
{
    switch (tag) {
    case TAG_START: return value >= 6 && value % 4 == 2;
    case TAG_REKEY: return value == 16;
    case TAG_SET_NUMBER: return value == 14;
    case TAG_SET_WINDOW: case TAG_INVENTORY: return value == 4;
    case TAG_PING: case TAG_DUMP: case TAG_ERASE: case TAG_ALARM_RESET: return value == 0;
    default: return index_of_tag(tag) < TAG_COUNT && value == 2;
    }
}

static void try_every_form(unsigned version)
{
    static struct input input;
    for (unsigned tag = 0; tag < 256; tag++) {
        for (size_t length = 0; length <= LONGEST_TRIED; length++) {
            for (size_t field = length < 4 ? 0 : length - 4; field <= length; field++) {
                const struct setting setting = {version, 1, 1, tag % 3, 100, 63};
                lay_out(&setting, &input);
                input.frame_length = length;
                input.frame[0] = (uint8_t)tag;
                input.frame[2] = (uint8_t)field;
                input.frame[4] = 9;
                bool is_formed = length >= 3 && field == length - 3 && has_form(tag, field);
                expect((run(&input).answer != 13) == is_formed, "13 is given for a right form, or not for a wrong one");
                input.desk = (uint8_t)(1 + field % 2); /* a laboratory's: 19 for the first octet alone */
                bool is_refused = length != 0 && is_office_only(tag);
                unsigned answer = run(&input).answer;
                expect((answer == 19) == is_refused, "19 is not given for a key command, a dump or an erase of a laboratory, or for another");
                expect(is_refused || (answer != 13) == is_formed, "13 is given otherwise to a laboratory than to the key office");
                input.desk = (uint8_t)(3 + tag % 253);
                expect(run(&input).answer == 19, "a desk that there is not is answered otherwise than by 19");
            }
        }
    }
}

static void try_every_step(void)
{
    static const uint32_t lasts[] = {0, 63, 64, 127, 16383, 4294966270u, 4294966271u, 4294966272u, 4294967231u, 4294967294u, 4294967295u};
    static struct input input;
    for (size_t i = 0; i < sizeof lasts / sizeof lasts[0]; i++) {
        for (int64_t step = -70; step <= 1100; step++) {
            const struct setting setting = {1, 1, 1, 2, 100, lasts[i]};
            int64_t number = lasts[i] + step;
            if (number < 0) {
                continue;
            }
            lay_out(&setting, &input);
            put_set_number(&input, 9, (uint64_t)number);
            struct outcome outcome = run(&input);
            bool is_allowed = 1 <= step && step <= 1024 && number <= 4294967295;
            expect(outcome.answer == (is_allowed ? 0 : 16), "set number goes otherwise than up by 1 to 1,024, or not so");
            expect(!is_allowed || (outcome.stores == number / 64 - lasts[i] / 64 && input.numbers[0] == number), "set number did not set it");
        }
    }
}

static void try_window(unsigned window)
{
    static struct input input;
    bool is_allowed = 1 <= window && window <= 1024;
    for (unsigned state = 0; state < 3; state++) {
        const struct setting setting = {1, 1, 1, state, 100, 63};
        lay_out(&setting, &input);
        put_set_window(&input, 9, window);
        expect(run(&input).answer == (state == 2 ? 15 : is_allowed ? 0 : 16), "a window is set otherwise than the state and 1 to 1,024 say");
        const struct setting held = {1, 1, 1, state, window, 63};
        lay_out(&held, &input);
        put_start(&input, 9, 0x6C5);
        expect(run(&input).answer == (state == 2 && !is_allowed ? 1 : state != 1 ? 15 : is_allowed ? 0 : 16),
               "a start is done otherwise than state and window say");
    }
}

/* ---- runs ---- */

static void ask(struct input *input, unsigned answer)
{
    input->output_length = XISTALVO_LARGEST_REPLY;
    expect(run(input).answer == answer, "a way through the states is answered otherwise");
}

/* Stop, expire, rekey and start bring the association back as it was: the same image, the same numbers. */
static void try_way_through(void)
{
    static struct input input;
    const struct setting setting = {1, 1, 1, 2, 100, 700};
    uint8_t image[LARGEST_IMAGE];
    lay_out(&setting, &input);
    memcpy(image, input.image, input.image_length);
    put_spi_alone(&input, TAG_STOP, 9), ask(&input, 0);
    put_spi_alone(&input, TAG_STOP, 9), ask(&input, 15);
    put_spi_alone(&input, TAG_EXPIRE, 9), ask(&input, 0);
    put_start(&input, 9, 0x6C5), ask(&input, 15);
    put_rekey(&input, 9, 0), ask(&input, 0);
    put_rekey(&input, 9, 0), ask(&input, 15);
    put_start(&input, 9, 0x6C5), ask(&input, 0);
    expect(memcmp(input.image, image, input.image_length) == 0 && input.numbers[0] == 700, "the way through all states changed something");
    put_set_number(&input, 9, 1000), ask(&input, 0);
    put_spi_alone(&input, TAG_READ_NUMBER, 9), ask(&input, 0);
    expect(input.output[15] == 0x03 && input.output[16] == 0xE8, "a number that was set is not read back");
}

/* The longest start there is, and one channel more, for which its length field has no room. */
static void try_longest_start(void)
{
    static uint8_t command[LONG_ROOM];
    static uint32_t names[XISTALVO_MOST_CHANNELS + 1];
    static struct input input;
    const struct setting setting = {1, 1, 1, 1, 100, 63};
    for (size_t i = 0; i <= XISTALVO_MOST_CHANNELS; i++) {
        names[i] = xistalvo_channel_name(XISTALVO_TC, 27, 5, 0);
    }
    size_t length = xistalvo_make_start(9, names, XISTALVO_MOST_CHANNELS, command, sizeof command);
    expect(length == 65537 && xistalvo_make_start(9, names, XISTALVO_MOST_CHANNELS + 1, command, sizeof command) == 0, "the longest start");
    for (unsigned wrong = 0; wrong < 2; wrong++) {
        lay_out(&setting, &input);
        command[length - 1] ^= (uint8_t)(1 - wrong); /* the last name is wrong the first time */
        xistalvo_notes notes;
        xistalvo_fresh_notes(&notes);
        uint64_t result = xistalvo_command(&notes, input.record.events, XISTALVO_EVENTS_LENGTH, input.image, input.image_length, input.numbers,
                                           NUMBER_COUNT, XISTALVO_KEY_OFFICE, command, length, input.output, 0);
        expect(XISTALVO_ANSWER(result) == (wrong == 0 ? 16 : 0), "the longest start is answered otherwise");
        command[length - 1] ^= (uint8_t)(1 - wrong);
    }
}

/* ---- what the header lays out ---- */

static bool is_untouched(const uint8_t *octets, size_t length)
{
    for (size_t i = 0; i < length; i++) {
        if (octets[i] != UNTOUCHED) {
            return false;
        }
    }
    return true;
}

/* Lays out the command of this tag by the header. */
static size_t lay_out_by_header(unsigned tag, unsigned spi, uint32_t value, uint8_t *command, size_t room)
{
    switch (tag) {
    case TAG_START: return xistalvo_make_start((uint16_t)spi, &value, 1, command, room);
    case TAG_REKEY:
        return value % 2 == 0 ? xistalvo_make_rekey((uint16_t)spi, command, room)
                              : xistalvo_make_rekey_to((uint16_t)spi, (uint16_t)value, command, room);
    case TAG_ACTIVATION: case TAG_DEACTIVATION: return xistalvo_make_key_alone((uint8_t)tag, (uint16_t)value, command, room);
    case TAG_INVENTORY: return xistalvo_make_inventory((uint16_t)(value >> 16), (uint16_t)value, command, room);
    case TAG_SET_NUMBER: return xistalvo_make_set_number((uint16_t)spi, value, command, room);
    case TAG_SET_WINDOW: return xistalvo_make_set_window((uint16_t)spi, (uint16_t)value, command, room);
    case TAG_PING: return xistalvo_make_ping(command, room);
    case TAG_DUMP: return xistalvo_make_dump(command, room);
    case TAG_ERASE: return xistalvo_make_erase(command, room);
    case TAG_ALARM_RESET: return xistalvo_make_alarm_reset(command, room);
    default: return xistalvo_make_spi_alone((uint8_t)tag, (uint16_t)spi, command, room);
    }
}

static void lay_out_by_test(struct input *input, unsigned tag, unsigned spi, uint32_t value)
{
    switch (tag) {
    case TAG_START: put_start(input, spi, value); break;
    case TAG_REKEY: put_rekey(input, spi, value % 2 == 0 ? 0 : value & 0xFFFF); break;
    case TAG_ACTIVATION: case TAG_DEACTIVATION: put_spi_alone(input, tag, value & 0xFFFF); break;
    case TAG_INVENTORY: put_inventory(input, value >> 16, value & 0xFFFF); break;
    case TAG_SET_NUMBER: put_set_number(input, spi, value); break;
    case TAG_SET_WINDOW: put_set_window(input, spi, value & 0xFFFF); break;
    case TAG_PING: case TAG_DUMP: case TAG_ERASE: case TAG_ALARM_RESET: put_command(input, tag, NULL, 0); break;
    default: put_spi_alone(input, tag, spi); break;
    }
}

/* The keys of a table from one ID to another, beside what the header reads from a reply. */
static void try_inventory(const uint8_t *reply, const struct table *table, uint32_t first, uint32_t last)
{
    size_t listed = 0;
    for (size_t i = 0; i < table->key_count; i++) {
        const struct key *key = &table->keys[i];
        if (first <= key->id && key->id <= last) {
            expect(listed < xistalvo_keys_in(reply) && xistalvo_key_id_in(reply, listed) == key->id
                       && xistalvo_key_state_in(reply, listed) == key->state,
                   "a key is misread, or not listed");
            listed++;
        }
    }
    expect(listed == xistalvo_keys_in(reply), "keys are listed that are not asked for");
}

static void try_reply(const struct input *input, unsigned tag, size_t length, const struct association *association, uint32_t last)
{
    for (size_t i = 0; i < TAG_COUNT; i++) {
        expect(xistalvo_is_reply((uint8_t)every_tag[i], input->output, length) == (every_tag[i] == tag && length != 0),
               "a reply is not known, or taken for another's");
    }
    if (tag == TAG_STATUS) {
        expect(xistalvo_spi_in(input->output) == association->spi && xistalvo_state_in(input->output) == association->state, "a state is misread");
    }
    if (tag == TAG_READ_NUMBER) {
        expect(xistalvo_spi_in(input->output) == association->spi && xistalvo_number_in(input->output) == last, "a number is misread");
    }
}

static void try_header(struct options options, uint64_t number)
{
    static struct input input;
    uint8_t command[64];
    struct world world;
    struct table table;
    test_random = random_stream(options.seed, number);
    both_at(options.seed, number, 0);
    make_world(&test_random, &world, 1);
    table_of(&world.ends[0], &table);
    const struct association *association = &table.entries[0];
    unsigned tag = every_tag[random_below(&test_random, TAG_COUNT)];
    uint32_t value = (uint32_t)random_any(&test_random);
    if (tag == TAG_INVENTORY && random_percent(&test_random, 50)) {
        value &= 0xFFFF; /* from ID 0 on */
    }
    if (tag == TAG_START) {
        unsigned channel = any_channel(&test_random, association);
        value = xistalvo_channel_name((uint8_t)association->kind, (uint16_t)association->spacecraft, (uint8_t)channel, (uint8_t)association->map);
        expect(value == name_of_channel(association, channel), "the header names a channel otherwise than the reading");
    }
    input_of_end(&input, CALL_COMMAND, &world.ends[0]);
    lay_out_by_test(&input, tag, association->spi, value);
    memset(command, UNTOUCHED, sizeof command);
    expect(lay_out_by_header(tag, association->spi, value, command, input.frame_length - 1) == 0 && is_untouched(command, sizeof command),
           "a command is laid out in a buffer that is too short for it");
    size_t length = lay_out_by_header(tag, association->spi, value, command, sizeof command);
    expect(length == input.frame_length && memcmp(command, input.frame, length) == 0, "the header lays a command out otherwise");
    expect(is_untouched(command + length, sizeof command - length), "octets are written beside a command");
    input.output_length = XISTALVO_LARGEST_REPLY;
    memset(input.output, 0, input.output_length);
    uint32_t last = input.numbers[0];
    struct outcome outcome = run(&input);
    expect(outcome.answer != 13 && outcome.answer != 14, "what the header lays out has a wrong form");
    try_reply(&input, tag, outcome.length, association, last);
    if (tag == TAG_INVENTORY) {
        try_inventory(input.output, &table, value >> 16, value & 0xFFFF);
    }
}

int main(int argument_count, char **arguments)
{
    struct options options = options_of(argument_count, arguments, 20000);
    both_prepare("commands");
    test_random = random_stream(options.seed, options.from);
    for (size_t i = 0; i < sizeof cases / sizeof cases[0]; i++) {
        both_at(options.seed, options.from, i);
        judge_case(i);
    }
    try_way_through();
    try_every_form(1);
    try_every_form(3);
    try_every_form(4);
    try_every_step();
    for (unsigned window = 0; window <= 65535; window += window < 1100 || window >= 65500 ? 1 : 50) {
        try_window(window);
    }
    try_longest_start();
    for (uint64_t i = 0; i < options.count; i++) {
        try_header(options, options.from + i);
    }
    printf("commands: seed %" PRIu64 ", %zu cases, %" PRIu64
           " calls: every tag and length, every step and window as the request says; the header lays out the same octets\n",
           options.seed, sizeof cases / sizeof cases[0], calls);
    return 0;
}
