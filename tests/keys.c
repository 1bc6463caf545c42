/* Keys in one place (document 02, request 9) through the C interface, with figures of its own: images of version 3 octet by octet, and the counts
 * of versions 3 and 4; the IV and its prefix, in version 4 too; the sentences on keys as a table over every state of key and association;
 * inventories of every range into outputs of every length; power that fails after each store of a rekey, an activation and a deactivation; a
 * shared key changed in one place. Each call is also compared with the independent reading (support/both.h).
 *
 *   keys [--seed S] [--count N] [--from W] */
#include "support/both.h"
#include "support/commands.h"
#include "support/hexadecimal.h"
#include "support/options.h"
#include "support/worlds.h"

#include <inttypes.h>
#include <stdio.h>
#include <stdlib.h>
#include <string.h>

enum { UNTOUCHED = 0x5A, SENDS = 1, RECEIVES = 2, UNKEYED = 0, KEYED = 1, OPERATIONAL = 2, ROOM = 256, NOT_THERE = 3 };

static struct random test_random;
static uint64_t calls;

static void expect(bool is_right, const char *sentence)
{
    if (!is_right) {
        both_fail(sentence);
    }
}

static struct outcome run(struct input *input)
{
    calls++;
    return both_run(&test_random, input);
}

/* ---- images, octet by octet ---- */

#define KEY_OCTETS "000102030405060708090A0B0C0D0E0F101112131415161718191A1B1C1D1E1F"
/* Two associations, SPIs 9 and 20, that share key 7, and one of telemetry, SPI 30, at rest, that names none there is; keys 7 and 263. */
#define THREE \
    "03 03 0009 0012 0014 0028 001E 003E FFFF 0054" \
    " 01 01 01 02 001B 05 00 0064 FFFFFFFFFF00 0007 00000000" \
    " 02 01 01 02 001B 06 00 0064 FFFFFFFFFF00 0007 00000001" \
    " 02 03 02 00 001B 22 00 0000 FFFFFFFFFFFF 0000 00000003" \
    " 02 0007 01 " KEY_OCTETS " 0107 00 " KEY_OCTETS

static const struct {
    const char *name;
    size_t at;
    const char *octets; /* in place of those that stand there */
    int longer;         /* by so many octets of zero */
    unsigned answer;
} images[] = {
    {"three associations and two keys", 0, "", 0, 0},
    {"version 4", 0, "04", 0, 1},
    {"version 2", 0, "02", 0, 1},
    {"an octet less", 0, "", -1, 1},
    {"an octet more", 0, "", 1, 1},
    {"a key more than are counted", 0, "", 35, 1},
    {"the last entry's SPI is 65,534", 14, "FFFE", 0, 1},
    {"the last entry's SPI is 0", 14, "0000", 0, 1},
    {"the key part one octet early", 16, "0053", 0, 1},
    {"the key part one octet late", 16, "0055", 0, 1},
    {"the key part at the first body", 16, "0012", 0, 1},
    {"the last entry is counted", 1, "04", 0, 1},
    {"a body at its place in version 2", 4, "000E", 0, 1},
    {"a key more is counted", 84, "03", 0, 1},
    {"a key less is counted", 84, "01", 0, 1},
    {"none is counted", 84, "00", 0, 1},
    {"65 are counted", 84, "41", 0, 1},
    {"key 7 is pre-active", 87, "00", 0, 1},
    {"key 7 is deactivated", 87, "02", 0, 1},
    {"key 7 has state 3", 87, "03", 0, 1},
    {"key 263 is active", 122, "01", 0, 0},
    {"key 263 is deactivated", 122, "02", 0, 0},
    {"key 263 has state 3", 122, "03", 0, 1},
    {"key 263 becomes 65,535", 120, "FFFF", 0, 0},
    {"key 263 becomes 8", 120, "0008", 0, 0},
    {"both keys have ID 7", 120, "0007", 0, 1},
    {"IDs fall", 120, "0006", 0, 1},
    {"key 7 becomes 0, and nobody has 7", 85, "0000", 0, 1},
    {"SPI 9 names 263, which is pre-active", 34, "0107", 0, 1},
    {"SPI 9 names 6, and there is none", 34, "0006", 0, 1},
    {"SPI 9 names 0, the place of its key", 34, "0000", 0, 1},
    {"SPI 9 is at rest and names 6", 21, "01 001B 05 00 0064 FFFFFFFFFF00 0006", 0, 0},
    {"SPI 9 is at rest and names 263", 21, "00 001B 05 00 0064 FFFFFFFFFF00 0107", 0, 0},
    {"telemetry serves no channel", 68, "00", 0, 1},
    {"telemetry serves all", 68, "FF", 0, 0},
    {"telemetry starts without a key", 65, "02 001B 22 00 0064", 0, 1},
    {"telemetry has window 65,535 at rest", 70, "FFFF", 0, 0},
    {"SPI 9 has window 0", 26, "0000", 0, 1},
    {"a mark of 2^26", 36, "06000000", 0, 1},
    {"the greatest mark", 36, "02000000", 0, 0},
};

static void try_image(size_t number)
{
    static struct input input;
    memset(&input, 0, sizeof input);
    input.which = CALL_LOAD;
    input.image_length = octets_of(THREE, input.image);
    expect(input.image_length == 7 + 26 * 3 + 35 * 2, "the image of the test has another length");
    octets_of(images[number].octets, input.image + images[number].at);
    input.image_length = (size_t)((int)input.image_length + images[number].longer);
    input.numbers_length = NUMBER_COUNT;
    expect(run(&input).answer == images[number].answer, images[number].name);
    if (number == 0) {
        expect(input.numbers[0] == 63 && input.numbers[1] == 127 && input.numbers[2] == 64 * 2 + 63 && input.numbers[3] == 0,
               "a load of version 3 gives other numbers");
    }
}

/* The smallest image, cut and lengthened. */
static void try_smallest(unsigned version)
{
    static struct input input;
    for (size_t length = 0; length <= 12; length++) {
        memset(&input, 0, sizeof input);
        input.which = CALL_LOAD;
        octets_of("03 00 FFFF 0006 00", input.image);
        input.image[0] = (uint8_t)version;
        input.image_length = length;
        input.numbers_length = NUMBER_COUNT;
        expect(run(&input).answer == (length == 7 ? 0 : 1), "another image than one of 7 octets is the smallest");
    }
}

/* All counts of keys with no association, one and 32. The largest image has 3,079 or 3,111 octets, and the sixty-fifth key is one too many, for a
 * load; a cut tests no such rule (xistalvo.h). */
static void try_every_count(unsigned version)
{
    size_t of_body = version == 3 ? 26 : 27; /* and its entry of the contents */
    static const size_t counts[] = {0, 1, 32};
    static struct input input;
    for (size_t c = 0; c < 3; c++) {
        for (size_t keys = 0; keys <= MOST_KEYS + 1; keys++) {
            struct table table;
            memset(&table, 0, sizeof table);
            memset(&input, 0, sizeof input);
            table.version = version;
            table.count = counts[c];
            table.key_count = keys > MOST_KEYS ? MOST_KEYS : keys;
            for (size_t i = 0; i < table.count; i++) {
                struct association entry = {(unsigned)i + 1, 2, 1, 1, keys == 0 ? 1 : 2, 27, 5, false, 0, 100, {0}, true, 0, {0}, 7, 1};
                entry.key_id = 1000 * (unsigned)(keys / 2);
                table.entries[i] = entry;
            }
            for (size_t j = 0; j < table.key_count; j++) {
                table.keys[j].id = 1000 * (unsigned)j;
                table.keys[j].state = ACTIVE;
            }
            input.which = CALL_LOAD;
            input.image_length = write_image(&table, input.image);
            if (keys > MOST_KEYS) {
                uint8_t *last = input.image + input.image_length;
                octets_of("FA00 01", last); /* 64,000 */
                input.image_length += 35;
                input.image[6 + of_body * table.count] = MOST_KEYS + 1;
            }
            input.numbers_length = NUMBER_COUNT;
            expect(input.image_length == 7 + of_body * table.count + 35 * keys, "an image has another length");
            expect(run(&input).answer == (keys > MOST_KEYS ? 1 : 0), "0 to 64 keys are to load, and 65 are not");
            uint32_t made = both_raise(&test_random, input.image, input.image_length, MOST_ENTRIES - 1, 64 * 9, 5);
            expect(made == (table.count == MOST_ENTRIES ? 2 : 0), "a cut asks for no more than that the length fits the counts");
            made = both_raise(&test_random, input.image, input.image_length - 1, 0, 64 * 9, 5);
            expect(made == 0, "a cut raises a mark in an image that lacks an octet");
        }
    }
}

/* ---- the IV ---- */

static const uint8_t frame_of_c[] = {0x00, 0x1B, 0x14, 0x05, 0x00, 0xAA};

/* One association, of either service, at either end and in any version, with key 7; and key 9 of other octets. */
static void lay_out_one(struct input *input, enum which_call which, unsigned version, unsigned service, unsigned direction, unsigned spi)
{
    struct table table;
    memset(&table, 0, sizeof table);
    memset(input, 0, sizeof *input);
    table.version = version;
    table.count = 1;
    struct association entry = {spi, service, 1, direction, 2, 27, 5, false, 0, 100, {255, 255, 255, 255, 255, 0}, has_key_part(version), 7, {0},
                                0, 1};
    memset(entry.key, 0x77, KEY_LENGTH);
    table.entries[0] = entry;
    table.key_count = 2;
    table.keys[0].id = 7;
    table.keys[0].state = ACTIVE;
    memset(table.keys[0].octets, 0x77, KEY_LENGTH);
    table.keys[1].id = 9;
    table.keys[1].state = ACTIVE;
    memset(table.keys[1].octets, 0x99, KEY_LENGTH);
    input->which = which;
    input->kind = 1;
    input->spi = (uint16_t)spi;
    input->image_length = write_image(&table, input->image);
    input->numbers_length = NUMBER_COUNT;
    input->numbers[0] = 63;
    input->output_length = ROOM;
    memset(input->output, UNTOUCHED, ROOM);
}

/* What goes out of an image of each version, under SPIs that have an octet of zeros or none, begins so. */
static void try_sent_iv(void)
{
    static const struct {
        unsigned spi;
        const char *of_service_1, *of_service_2, *of_version_3;
    } sent[] = {
        {0x0001, "001B141B00 0001 00000040 AA", "001B142300 0001 0000000000000000 00000040", "001B142300 0001 00000001 00000000 00000040"},
        {0x00FF, "001B141B00 00FF 00000040 AA", "001B142300 00FF 0000000000000000 00000040", "001B142300 00FF 000000FF 00000000 00000040"},
        {0x0100, "001B141B00 0100 00000040 AA", "001B142300 0100 0000000000000000 00000040", "001B142300 0100 00000100 00000000 00000040"},
        {0x1234, "001B141B00 1234 00000040 AA", "001B142300 1234 0000000000000000 00000040", "001B142300 1234 00001234 00000000 00000040"},
        {0xFFFE, "001B141B00 FFFE 00000040 AA", "001B142300 FFFE 0000000000000000 00000040", "001B142300 FFFE 0000FFFE 00000000 00000040"},
    };
    static struct input input;
    uint8_t expected[64];
    for (size_t i = 0; i < sizeof sent / sizeof sent[0]; i++) {
        for (unsigned service = 1; service <= 2; service++) {
            for (unsigned version = 1; version <= 4; version++) {
                const char *head = service == 1 ? sent[i].of_service_1 : version < 3 ? sent[i].of_service_2 : sent[i].of_version_3;
                lay_out_one(&input, CALL_SECURE, version, service, SENDS, sent[i].spi);
                input.frame_length = sizeof frame_of_c;
                memcpy(input.frame, frame_of_c, sizeof frame_of_c);
                expect(run(&input).answer == 0, "a frame is not secured");
                size_t length = octets_of(head, expected);
                expect(memcmp(input.output, expected, length) == 0, "another security header goes out");
            }
        }
    }
}

static unsigned answer_to(unsigned version, unsigned service, const uint8_t iv[SEQUENCE_LENGTH], bool is_forged)
{
    static struct input input;
    struct table table;
    struct header header;
    lay_out_one(&input, CALL_CHECK, version, service, RECEIVES, 0x1234);
    expect(read_image(input.image, input.image_length, &table) && read_clear_frame(1, false, frame_of_c, sizeof frame_of_c, &header),
           "the test's own frame or image");
    input.frame_length = protect_frame(&table.entries[0], &header, iv, frame_of_c, sizeof frame_of_c, input.frame);
    input.frame[input.frame_length - 1] ^= is_forged ? 1 : 0;
    return run(&input).answer;
}

/* Each octet in front of the number with each bit changed, a right MAC and a wrong one; and the IV of the other versions. */
static void try_prefix(unsigned version)
{
    uint8_t iv[SEQUENCE_LENGTH], changed[SEQUENCE_LENGTH];
    octets_of("00001234 00000000 00000040", iv);
    expect(answer_to(version, 2, iv, false) == 0 && answer_to(version, 2, iv, true) == 7, "a right IV is not taken, or with a wrong MAC");
    for (unsigned bit = 0; bit < 64; bit++) {
        memcpy(changed, iv, sizeof iv);
        changed[bit / 8] ^= (uint8_t)(1u << bit % 8);
        expect(answer_to(version, 2, changed, false) == 8, "another prefix is not refused by 8");
        expect(answer_to(version, 2, changed, true) == 7, "another prefix with a wrong MAC is not refused by 7");
    }
    expect(answer_to(2, 2, iv, false) == 8 && answer_to(1, 2, iv, false) == 8, "an IV of version 3 is taken below it");
    octets_of("00000000 00000000 00000040", iv);
    expect(answer_to(version, 2, iv, false) == 8, "an IV of version 2 is taken in version 3");
    expect(answer_to(2, 2, iv, false) == 0 && answer_to(1, 2, iv, false) == 0, "an IV of versions 1 and 2 is not taken there");
    expect(answer_to(version, 1, iv, false) == 0 && answer_to(2, 1, iv, false) == 0, "a number of service 1 is not the same in all versions");
    octets_of("00001234 00000000 0000003F", iv);
    expect(answer_to(version, 2, iv, false) == 8, "the last number is taken again");
    octets_of("00001234 00000000 000000A3", iv);
    expect(answer_to(version, 2, iv, false) == 0, "the end of the window is not taken");
    octets_of("00001234 00000000 000000A4", iv);
    expect(answer_to(version, 2, iv, false) == 8, "a number beyond the window is taken");
    octets_of("00001234 00000001 00000040", iv);
    expect(answer_to(version, 2, iv, false) == 8, "a number above 4,294,967,295 is taken");
}

/* ---- commands ---- */

static struct outcome command(struct input *input, const char *octets)
{
    input->which = CALL_COMMAND;
    input->frame_length = octets_of(octets, input->frame);
    input->output_length = ROOM;
    return run(input);
}

/* The association of SPI 9 in a state, with a window, naming key 513; and a second, SPI 20, at rest or operational under the same key or key 1. */
static void lay_out_pair(struct input *input, unsigned state, unsigned window, unsigned key_state, unsigned other_state, unsigned other_key)
{
    struct table table;
    memset(&table, 0, sizeof table);
    memset(input, 0, sizeof *input);
    table.version = 3;
    table.count = 2;
    struct association first = {9, 2, 1, 1, state, 27, 5, false, 0, window, {0}, true, 0x0201, {0}, 3, 1};
    struct association second = {20, 1, 1, 2, other_state, 27, 6, false, 0, 100, {0}, true, other_key, {0}, 0, 1};
    table.entries[0] = first;
    table.entries[1] = second;
    const struct key keys[] = {
        {0x0001, ACTIVE, {1}}, {0x0102, PRE_ACTIVE, {2}}, {0x0201, key_state, {3}}, {0x0301, DEACTIVATED, {4}}, {0xFFFF, ACTIVE, {5}}};
    for (size_t i = 0; i < 5; i++) {
        if (i != 2 || key_state != NOT_THERE) {
            table.keys[table.key_count++] = keys[i];
        }
    }
    input->which = CALL_COMMAND;
    input->image_length = write_image(&table, input->image);
    input->numbers_length = NUMBER_COUNT;
    input->numbers[0] = 255;
    input->numbers[1] = 63;
    memset(input->output, UNTOUCHED, ROOM);
}

enum { AT_FIRST = 6 + 4 * 2, AT_KEYS = 7 + 26 * 2 };

static const struct {
    const char *name, *octets;
    unsigned state;          /* that the command asks of SPI 9; 3 where it asks for none */
    unsigned wrong_state;    /* the answer in another */
    unsigned by_key[4];      /* in the state that it asks for: pre-active, active, deactivated, not there */
    unsigned by_key_running; /* the key is active, and SPI 20 operational under it */
    unsigned stores;
} commands[] = {
    {"start", "1B 0006 0009 000006C5", KEYED, 15, {18, 0, 18, 17}, 0, 1},
    {"start, another channel: 16 before 17 and 18", "1B 0006 0009 000006C6", KEYED, 15, {16, 16, 16, 16}, 16, 0},
    {"rekey to 513", "16 0010 0009 0201 000000000000000000000000", UNKEYED, 15, {18, 0, 18, 17}, 0, 3},
    {"rekey to 258, pre-active", "16 0010 0009 0102 000000000000000000000000", UNKEYED, 15, {18, 18, 18, 18}, 18, 0},
    {"rekey to 769, deactivated", "16 0010 0009 0301 000000000000000000000000", UNKEYED, 15, {18, 18, 18, 18}, 18, 0},
    {"rekey to 0, not there", "16 0010 0009 0000 000000000000000000000000", UNKEYED, 15, {17, 17, 17, 17}, 17, 0},
    {"rekey to 65,535", "16 0010 0009 FFFF 000000000000000000000000", UNKEYED, 15, {0, 0, 0, 0}, 0, 3},
    {"rekey to 1", "16 0010 0009 0001 000000000000000000000000", UNKEYED, 15, {0, 0, 0, 0}, 0, 3},
    {"rekey with a number: 16 before 17", "16 0010 0009 0000 000000000000000000000001", UNKEYED, 15, {16, 16, 16, 16}, 16, 0},
    {"rekey with a number: 16 before 18", "16 0010 0009 0102 800000000000000000000000", UNKEYED, 15, {16, 16, 16, 16}, 16, 0},
    {"activation of 513", "02 0002 0201", 3, 0, {0, 18, 18, 17}, 18, 1},
    {"deactivation of 513", "03 0002 0201", 3, 0, {18, 0, 18, 17}, 18, 1},
    {"activation of 258", "02 0002 0102", 3, 0, {0, 0, 0, 0}, 0, 1},
    {"activation of 769, deactivated", "02 0002 0301", 3, 0, {18, 18, 18, 18}, 18, 0},
    {"activation of 2, not there", "02 0002 0002", 3, 0, {17, 17, 17, 17}, 17, 0},
    {"activation of 9, an SPI and no key", "02 0002 0009", 3, 0, {17, 17, 17, 17}, 17, 0},
    {"deactivation of 65,535", "03 0002 FFFF", 3, 0, {0, 0, 0, 0}, 0, 1},
    {"deactivation of 258, pre-active", "03 0002 0102", 3, 0, {18, 18, 18, 18}, 18, 0},
    {"deactivation of 65,534, not there", "03 0002 FFFE", 3, 0, {17, 17, 17, 17}, 17, 0},
    {"activation without an ID", "02 0000", 3, 0, {13, 13, 13, 13}, 13, 0},
    {"activation of two", "02 0004 0201 0102", 3, 0, {13, 13, 13, 13}, 13, 0},
    {"inventory from one ID alone", "07 0002 0201", 3, 0, {13, 13, 13, 13}, 13, 0},
    {"stop", "1E 0002 0009", OPERATIONAL, 15, {1, 0, 1, 1}, 0, 1},
    {"expire", "19 0002 0009", KEYED, 15, {0, 0, 0, 0}, 0, 1},
    {"set window", "15 0004 0009 0400", KEYED, 0, {0, 0, 0, 0}, 0, 2},
};

/* What a command that is done changes in the image, in its own order of stores. */
static void change(uint8_t *image, const struct input *asked, size_t keys_before)
{
    switch (asked->frame[0]) {
    case TAG_START: image[AT_FIRST + 3] = OPERATIONAL; break;
    case TAG_STOP: image[AT_FIRST + 3] = KEYED; break;
    case TAG_EXPIRE: image[AT_FIRST + 3] = UNKEYED; break;
    case TAG_SET_WINDOW: memcpy(image + AT_FIRST + 8, asked->frame + 5, 2); break;
    case TAG_REKEY:
        memcpy(image + AT_FIRST + 16, asked->frame + 5, 2);
        image[AT_FIRST + 3] = KEYED;
        break;
    default:
        image[AT_KEYS + 35 * keys_before + 2] = asked->frame[0] == TAG_ACTIVATION ? ACTIVE : DEACTIVATED;
        break;
    }
}

static void judge_command(struct input *input, const char *name, const char *octets, unsigned answer, unsigned stores)
{
    uint8_t image[LARGEST_IMAGE];
    memcpy(image, input->image, input->image_length);
    struct outcome outcome = command(input, octets);
    expect(outcome.answer == answer && outcome.stores == (answer == 0 ? stores : 0) && outcome.length == 0, name);
    if (answer == 0) {
        size_t before = 0;
        unsigned id = input->frame[3] * 256u + input->frame[4];
        while (before < image[AT_KEYS - 1] && image[AT_KEYS + 35 * before] * 256u + image[AT_KEYS + 35 * before + 1] != id) {
            before++;
        }
        change(image, input, before);
    }
    expect(memcmp(input->image, image, input->image_length) == 0, name);
    expect(input->output[0] == UNTOUCHED, name);
}

static void try_command(size_t number)
{
    static struct input input;
    const char *name = commands[number].name;
    for (unsigned state = 0; state < 3; state++) {
        for (unsigned key_state = 0; key_state < 4; key_state++) {
            bool is_broken = state == OPERATIONAL && key_state != ACTIVE;
            bool is_asked = commands[number].state == 3 || commands[number].state == state;
            bool is_named_by_first = commands[number].octets[1] == '3' && strncmp(commands[number].octets + 8, "0201", 4) == 0;
            unsigned answer = is_asked ? commands[number].by_key[key_state] : commands[number].wrong_state;
            if (strcmp(name, "set window") == 0) {
                answer = state == OPERATIONAL ? 15 : 0;
            }
            if (state == OPERATIONAL && is_named_by_first && key_state == ACTIVE) {
                answer = 18; /* SPI 9 itself is operational under it */
            }
            lay_out_pair(&input, state, 100, key_state, KEYED, 1);
            judge_command(&input, name, commands[number].octets, is_broken ? 1 : answer, commands[number].stores);
            if (key_state == ACTIVE && is_asked && strcmp(name, "set window") != 0) {
                lay_out_pair(&input, state, 100, key_state, OPERATIONAL, 0x0201);
                judge_command(&input, name, commands[number].octets, answer == 0 || answer == 18 ? (commands[number].by_key_running) : answer,
                              commands[number].stores);
            }
        }
    }
}

/* Versions 1 and 2 have no keys of this sort. */
static void try_below(void)
{
    static struct input input;
    for (unsigned version = 1; version <= 2; version++) {
        for (unsigned id = 0; id < 70; id++) {
            lay_out_one(&input, CALL_COMMAND, version, 2, SENDS, 0x1234);
            put_spi_alone(&input, TAG_ACTIVATION, id);
            expect(run(&input).answer == 17, "a key is activated below version 3");
            put_spi_alone(&input, TAG_DEACTIVATION, id);
            expect(run(&input).answer == 17, "a key is deactivated below version 3");
        }
        put_inventory(&input, 0, 65535);
        expect(run(&input).length == 5 && memcmp(input.output, "\x87\0\2\0\0", 5) == 0, "an inventory below version 3 is not empty");
    }
}

/* ---- inventories ---- */

/* Every range of the IDs there are, and of those beside them, into an output of each length from none to two more than the reply has. */
static void try_inventories(void)
{
    static const unsigned ends[] = {0, 1, 2, 0x0101, 0x0102, 0x0103, 0x0200, 0x0201, 0x0202, 0x0301, 0x0302, 0xFFFE, 0xFFFF};
    static const unsigned ids[] = {0x0001, 0x0102, 0x0201, 0x0301, 0xFFFF}, states[] = {1, 0, 1, 2, 1};
    enum { ENDS = sizeof ends / sizeof ends[0], IDS = 5 };
    static struct input input;
    for (size_t a = 0; a < ENDS; a++) {
        for (size_t b = 0; b < ENDS; b++) {
            uint8_t expected[ROOM] = {0x87};
            size_t length = 5;
            for (size_t i = 0; i < IDS; i++) {
                if (ends[a] <= ids[i] && ids[i] <= ends[b]) {
                    expected[length++] = (uint8_t)(ids[i] >> 8);
                    expected[length++] = (uint8_t)ids[i];
                    expected[length++] = (uint8_t)states[i];
                    expected[4]++;
                }
            }
            expected[2] = (uint8_t)(length - 3);
            memset(expected + length, UNTOUCHED, 2);
            for (size_t room = 0; room <= length + 2; room++) {
                lay_out_pair(&input, KEYED, 100, ACTIVE, KEYED, 1);
                put_inventory(&input, ends[a], ends[b]);
                input.output_length = room;
                struct outcome outcome = run(&input);
                bool is_done = room >= length;
                expect(outcome.answer == (is_done ? 0 : 6) && outcome.length == (is_done ? length : 0) && outcome.stores == 0,
                       "an inventory has another length, or room where there is none");
                expect(!is_done || memcmp(input.output, expected, room) == 0, "an inventory lists other keys, or writes behind its end");
            }
        }
    }
}

/* 64 keys, from ID 0 on: the longest reply, 197 octets. */
static void try_longest_inventory(void)
{
    static struct input input;
    struct table table;
    memset(&table, 0, sizeof table);
    table.version = 3;
    table.key_count = MOST_KEYS;
    for (unsigned i = 0; i < MOST_KEYS; i++) {
        table.keys[i].id = 1023 * i + 10 * i;
        table.keys[i].state = i % 3;
    }
    for (size_t room = 0; room <= 200; room++) {
        memset(&input, 0, sizeof input);
        input.which = CALL_COMMAND;
        input.image_length = write_image(&table, input.image);
        input.numbers_length = NUMBER_COUNT;
        put_inventory(&input, 0, 65535);
        input.output_length = room;
        struct outcome outcome = run(&input);
        expect(outcome.answer == (room < 197 ? 6 : 0), "196 octets hold an inventory of 64 keys, or 197 do not");
        expect(room < 197 || (outcome.length == 197 && input.output[2] == 194 && input.output[4] == 64),
               "an inventory of 64 keys has not 197 octets");
    }
}

/* ---- the first and the last ID ---- */

static void ask(struct input *input, const char *octets, unsigned answer)
{
    expect(command(input, octets).answer == answer, octets);
}

/* IDs 0 and 65,535 are IDs as others are: activated, named by a rekey, in use, listed, given up. */
static void try_extreme_ids(void)
{
    static struct input input;
    memset(&input, 0, sizeof input);
    input.which = CALL_LOAD;
    input.image_length = octets_of("03 01 0009 000A FFFF 0020 02 01 01 00 001B 05 00 0064 FFFFFFFFFF00 0007 00000000"
                                   " 02 0000 00 " KEY_OCTETS " FFFF 00 " KEY_OCTETS, input.image);
    input.numbers_length = NUMBER_COUNT;
    expect(run(&input).answer == 0, "an image with keys 0 and 65,535 does not load");
    for (unsigned i = 0; i < 2; i++) {
        ask(&input, i == 0 ? "16 0010 0009 0000 000000000000000000000000" : "16 0010 0009 FFFF 000000000000000000000000", 18);
        ask(&input, i == 0 ? "02 0002 0000" : "02 0002 FFFF", 0);
        ask(&input, i == 0 ? "16 0010 0009 0000 000000000000000000000000" : "16 0010 0009 FFFF 000000000000000000000000", 0);
        ask(&input, "1B 0006 0009 000006C5", 0);
        ask(&input, i == 0 ? "03 0002 0000" : "03 0002 FFFF", 18);
        ask(&input, "1E 0002 0009", 0);
        ask(&input, i == 0 ? "03 0002 0000" : "03 0002 FFFF", 0);
        ask(&input, "1B 0006 0009 000006C5", 18);
        ask(&input, "19 0002 0009", 0);
    }
    ask(&input, "07 0004 0000 FFFF", 0);
    expect(memcmp(input.output, "\x87\x00\x08\x00\x02\x00\x00\x02\xFF\xFF\x02", 11) == 0, "keys 0 and 65,535 are not listed");
}

/* ---- power fails ---- */

/* The stores of a command, in their order, as places and values; -1 ends them. What is left after the first j of them loads, and the command
 * given again is done; after all of them it is answered as the last column says. */
static const struct {
    const char *name, *octets;
    unsigned state, key_state;
    int stores[4][2];
    unsigned again;
} cuts[] = {
    {"rekey to 65,535, cut", "16 0010 0009 FFFF 000000000000000000000000", UNKEYED, ACTIVE,
     {{AT_FIRST + 16, 0xFF}, {AT_FIRST + 17, 0xFF}, {AT_FIRST + 3, KEYED}, {-1, 0}}, 15},
    {"rekey to 1, cut", "16 0010 0009 0001 000000000000000000000000", UNKEYED, DEACTIVATED,
     {{AT_FIRST + 16, 0x00}, {AT_FIRST + 17, 0x01}, {AT_FIRST + 3, KEYED}, {-1, 0}}, 15},
    {"rekey to the key that is named already, cut", "16 0010 0009 0201 000000000000000000000000", UNKEYED, ACTIVE,
     {{AT_FIRST + 16, 0x02}, {AT_FIRST + 17, 0x01}, {AT_FIRST + 3, KEYED}, {-1, 0}}, 15},
    {"activation, cut", "02 0002 0201", KEYED, PRE_ACTIVE, {{AT_KEYS + 35 * 2 + 2, ACTIVE}, {-1, 0}}, 18},
    {"deactivation, cut", "03 0002 0201", KEYED, ACTIVE, {{AT_KEYS + 35 * 2 + 2, DEACTIVATED}, {-1, 0}}, 18},
    {"deactivation of a key in use, cut", "03 0002 0201", OPERATIONAL, ACTIVE, {{-1, 0}}, 18},
    {"start, cut", "1B 0006 0009 000006C5", KEYED, ACTIVE, {{AT_FIRST + 3, OPERATIONAL}, {-1, 0}}, 15},
    {"start without an active key, cut", "1B 0006 0009 000006C5", KEYED, PRE_ACTIVE, {{-1, 0}}, 18},
    {"inventory, cut", "07 0004 0000 FFFF", KEYED, ACTIVE, {{-1, 0}}, 0},
};

static void try_cut(size_t number)
{
    static struct input input;
    static const uint32_t cut_after[] = {0, 1, 2, 3, 4, UINT32_MAX};
    for (size_t c = 0; c < sizeof cut_after / sizeof cut_after[0]; c++) {
        uint8_t image[LARGEST_IMAGE];
        uint32_t made = 0;
        lay_out_pair(&input, cuts[number].state, 100, cuts[number].key_state, KEYED, 1);
        memcpy(image, input.image, input.image_length);
        for (; made < cut_after[c] && cuts[number].stores[made][0] >= 0; made++) {
            image[cuts[number].stores[made][0]] = (uint8_t)cuts[number].stores[made][1];
        }
        input.frame_length = octets_of(cuts[number].octets, input.frame);
        input.output_length = ROOM;
        calls++;
        expect(both_cut_command(&test_random, &input, cut_after[c]) == made, cuts[number].name);
        expect(memcmp(input.image, image, input.image_length) == 0, cuts[number].name);
        input.which = CALL_LOAD;
        expect(run(&input).answer == 0, "what a cut left does not load");
        bool is_all = cuts[number].stores[made][0] < 0;
        ask(&input, cuts[number].octets, is_all ? cuts[number].again : 0);
    }
}

/* ---- a shared key is changed in one place ---- */

static void send(struct input *input, unsigned spi, uint8_t channel, const char *head)
{
    uint8_t expected[32];
    input->which = CALL_SECURE;
    input->kind = 1;
    input->spi = (uint16_t)spi;
    input->frame_length = sizeof frame_of_c;
    memcpy(input->frame, frame_of_c, sizeof frame_of_c);
    input->frame[2] = (uint8_t)(channel << 2);
    input->output_length = ROOM;
    expect(run(input).answer == 0, "a frame under a shared key is not secured");
    size_t length = octets_of(head, expected);
    expect(memcmp(input->output + 5, expected, length) == 0, "a frame under a shared key goes out with another IV");
}

static void try_shared_key(void)
{
    static struct input input;
    memset(&input, 0, sizeof input);
    input.which = CALL_LOAD;
    input.image_length = octets_of(THREE, input.image);
    input.image[18] = 2; /* SPI 9 under service 2 too */
    input.numbers_length = NUMBER_COUNT;
    expect(run(&input).answer == 0, "the image does not load");
    send(&input, 9, 5, "0009 00000009 00000000 00000040");
    send(&input, 20, 6, "0014 00000014 00000000 00000080");
    send(&input, 9, 5, "0009 00000009 00000000 00000041");
    ask(&input, "02 0002 0107", 0);                                   /* the new key, 263 */
    ask(&input, "03 0002 0007", 18);                                  /* the old one is in use */
    ask(&input, "1E 0002 0009", 0);
    ask(&input, "19 0002 0009", 0);
    ask(&input, "16 0010 0009 0107 000000000000000000000000", 0);
    ask(&input, "1B 0006 0009 000006C5", 0);
    send(&input, 9, 5, "0009 00000009 00000000 00000042");
    ask(&input, "03 0002 0007", 18);                                  /* still, by SPI 20 */
    ask(&input, "1E 0002 0014", 0);
    ask(&input, "03 0002 0007", 0);                                   /* SPI 20 is keyed with it, which does not count */
    ask(&input, "1B 0006 0014 000006C6", 18);
    ask(&input, "19 0002 0014", 0);
    ask(&input, "16 0010 0014 0007 000000000000000000000000", 18);
    ask(&input, "16 0010 0014 0107 000000000000000000000000", 0);
    ask(&input, "1B 0006 0014 000006C6", 0);
    send(&input, 20, 6, "0014 00000014 00000000 00000081");
    ask(&input, "02 0002 0007", 18);                                  /* a key that was given up does not come back */
    ask(&input, "07 0004 0000 FFFF", 0);
    expect(memcmp(input.output, "\x87\x00\x08\x00\x02\x00\x07\x02\x01\x07\x01", 11) == 0, "the inventory afterwards");
}

int main(int argument_count, char **arguments)
{
    struct options options = options_of(argument_count, arguments, 1);
    both_prepare("keys");
    for (uint64_t i = 0; i < options.count; i++) {
        test_random = random_stream(options.seed, options.from + i);
        for (size_t number = 0; number < sizeof images / sizeof images[0]; number++) {
            both_at(options.seed, options.from + i, number);
            try_image(number);
        }
        for (unsigned version = 3; version <= 4; version++) {
            try_smallest(version);
            try_every_count(version);
            try_prefix(version);
        }
        try_sent_iv();
        for (size_t number = 0; number < sizeof commands / sizeof commands[0]; number++) {
            both_at(options.seed, options.from + i, number);
            try_command(number);
        }
        try_below();
        try_inventories();
        try_longest_inventory();
        try_extreme_ids();
        for (size_t number = 0; number < sizeof cuts / sizeof cuts[0]; number++) {
            both_at(options.seed, options.from + i, number);
            try_cut(number);
        }
        try_shared_key();
    }
    printf("keys: %zu images, %zu commands and %zu that are cut, %" PRIu64 " calls: version 3, its IVs, its key commands and a shared key as the "
           "request says\n",
           sizeof images / sizeof images[0], sizeof commands / sizeof commands[0], sizeof cuts / sizeof cuts[0], calls);
    return 0;
}
