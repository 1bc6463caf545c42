/* The module and the independent reading of the papers on the same inputs: answer, length, stores, image, numbers, output, notes and events are
 * compared after every call, refused ones too, with guards around every range (support/both.h).
 *
 *   differential [--seed S] [--count N] [--from W]
 *
 * An input is one call. Inputs come in worlds: two ends of a link with random associations, and about forty calls on them. The generator of world
 * W is made from the seed and W alone, so --from W takes a run up there. At the end the answers are counted by call, kind and service of the
 * association that the input was made for, TM associations with a set of channels and TM frames with a secondary header apart; those to commands
 * by tag, and what they asked for at limits; what was met of key parts and owners, and broken in them; what each desk was answered, and what its report
 * and the log were told; a long run
 * that misses an answer or a limit that can be reached fails, and a longer one that misses a length of a secondary header, with a check field or
 * without, or changed no frame with both in each bit. */
#include "support/both.h"
#include "support/commands.h"
#include "support/options.h"
#include "support/worlds.h"

#include <inttypes.h>
#include <stdio.h>
#include <string.h>

enum { CALLS_PER_WORLD = 40, KINDS = 4, SET_ROW = KINDS + 1, STAMP_ROW, ROWS, VERSIONS = 4, ANSWERS = 20 };
enum { ENOUGH_FOR_EVERY_ANSWER = 100000, ENOUGH_FOR_EVERY_LIMIT = 150000 };
enum { MOST_SECONDARY = 64, ENOUGH_FOR_EVERY_LENGTH = 200000 }; /* octets of a secondary header */

/* Windows and numbers of commands, at their limits: the window that a body has or a command asks for, and the step that set number asks for. */
enum { LIMITS = 5 };
static const uint32_t window_limits[LIMITS] = {0, 1, 1024, 1025, 65535};
static const uint32_t step_limits[LIMITS] = {0, 1, 1024, 1025, 1088};

/* What is broken in an image of version 3 or 4 that keeps every other rule; an owner in version 4 alone. */
enum key_fault {
    KEYS_65, IDS_EQUAL, IDS_FALL, KEY_STATE, KEY_PART_POSITION, KEY_PART_SPI, KEY_NOT_THERE, KEY_PRE_ACTIVE, KEY_DEACTIVATED, OWNER_0, OWNER_3,
    OWNER_255, ENTRIES_33, KEY_FAULTS
};
static const char *const key_fault_names[KEY_FAULTS] = {
    "65 keys", "equal IDs", "IDs that fall", "a key's state", "position of the key part", "SPI of the last entry", "operational and no key there",
    "a key pre-active", "a key deactivated", "owner 0", "owner 3", "owner 255", "33 entries"};

/* What a key part has that was loaded. */
enum key_sight { NO_KEYS, ONE_KEY, ALL_KEYS, ID_0, ID_65535, SHARED, STRAY, VERSION_3, VERSION_4, ONE_OWNER, TWO_OWNERS, KEY_SIGHTS };
static const char *const key_sight_names[KEY_SIGHTS] = {
    "no key", "one", "64", "ID 0", "ID 65,535", "a key that two operational bodies name", "a body that names no key there is",
    "version 3", "version 4", "all bodies of one owner", "bodies of both"};

/* What calls of each desk come to, and which desks call. SEEN_BY_OFFICE: refused by 4 or 14 where desk 0 is answered otherwise. */
enum desk_sight { DONE_TO_DESK, UNKNOWN_TO_DESK, SEEN_BY_OFFICE, NOT_A_DESK, NOT_ITS_COMMAND, SHORT_OR_LONG, DESK_SIGHTS };
static const char *const desk_sight_names[DESK_SIGHTS] = {
    "done", "refused by 4 or 14", "where desk 0 is not", "refused by 19 for the desk", "for a command of the key office's",
    "of another length than it has"};
enum { DESKS = 5 };
static const unsigned desks[DESKS] = {0, 1, 2, 3, 255};

/* What calls find of the log, and what they do to it. */
enum log_sight { ENTERED, ENTERED_LAST, COUNTED, COUNTED_NO_MORE, ABOVE_ROOM, NO_ROOM, ODD_LIST, DUMPED_NONE, DUMPED_SOME, DUMPED_ALL, ERASED, LOG_SIGHTS };
static const char *const log_sight_names[LOG_SIGHTS] = {
    "kept", "kept as the last there is room for", "dropped", "dropped where no more are counted", "in a log that counts more than it has room for",
    "in a list without room", "in a list of another length", "dumps of none", "of some", "of 256", "erased"};

/* The commands that ask for a key's state. */
enum { ABOUT_KEYS = 4, KEY_STATES = 3, PREFIX = SEQUENCE_LENGTH - 4 };
static const unsigned tags_about_keys[ABOUT_KEYS] = {TAG_START, TAG_REKEY, TAG_ACTIVATION, TAG_DEACTIVATION};

struct run {
    struct options options;
    struct random random;
    uint64_t inputs;
    uint64_t raises;
    uint64_t round_trips;
    uint64_t isolations;
    uint64_t flips;         /* frames with a right check field, each of whose bits was changed */
    uint64_t stamped_flips; /* those of them that have a secondary header */
    uint64_t stores[MOST_STORES + 1];          /* checks that were done, by their stores */
    uint64_t secondary[2][MOST_SECONDARY + 1]; /* those of TM frames, by whether they end in a check field and the octets of the secondary header */
    /* call; kind, or 0 for a number that names none, SET_ROW for a TM association with a set, or STAMP_ROW for a TM frame whose header flag is
     * 1; service, or 0 for an empty image; answer */
    uint64_t tally[3][ROWS][3][ANSWERS];
    uint64_t commands[TAG_COUNT + 1][ANSWERS];       /* tag, or any that names none; answer */
    uint64_t command_cuts;
    uint64_t starts[VERSIONS + 1][SET_ROW + 1][5];   /* version; kind; done, refused by 15, 16, 17, 18 */
    uint64_t key_faults[KEY_FAULTS];                 /* loads refused for it alone */
    uint64_t key_sights[KEY_SIGHTS];                 /* loads done */
    uint64_t keys_asked[ABOUT_KEYS][KEY_STATES + 1]; /* from version 3 on: command; state of the key, or none; done, 17 or 18 */
    uint64_t in_use;                                 /* deactivations of an active key, refused */
    size_t changed_octet;                            /* of the IV's prefix in the frame that was just made, whose number would do; or PREFIX */
    uint64_t prefixes[PREFIX];                       /* checks refused by 8 for it, from version 3 on */
    uint64_t other_ivs;                              /* round trips between versions whose IVs differ, refused by 8 */
    uint64_t windows_held[3][LIMITS];                /* state; window of the body, of starts */
    uint64_t windows_asked[3][LIMITS];               /* state; window of set window */
    uint64_t steps[2][LIMITS];                       /* well below the last number of all, or close to it; step of set number */
    uint64_t raises_set[MOST_STORES + 1];            /* set number, done, by its stores */
    uint64_t desks[4][DESKS][DESK_SIGHTS];           /* call, desk */
    uint64_t unseen;                                 /* calls of a desk tried again with all that it does not see made anew */
    uint64_t blind_trips;                            /* round trips to a desk that does not see the association */
    uint64_t reports[DESK_COUNT][ANSWERS][2];        /* checks by desk and answer, with an alarm before and without */
    uint64_t log[LOG_SIGHTS];
};

/* The entry that an input is made for. An empty image has none, and gets an association that it does not hold. */
struct target {
    bool is_held;
    size_t entry;
    struct association association;
};

/* ---- choosing ---- */

static size_t any_count(struct random *random)
{
    uint32_t chance = random_below(random, 100);
    if (chance < 2) {
        return 0;
    }
    if (chance < 8) {
        return 32;
    }
    return chance < 80 ? random_between(random, 1, 4) : random_between(random, 5, 31);
}

/* Most inputs are made for an entry of the direction that the call needs. */
static struct target any_target(struct run *run, const struct end *end, unsigned direction)
{
    struct target target;
    struct table table;
    table_of(end, &table);
    target.is_held = table.count != 0;
    target.entry = 0;
    memset(&target.association, 0, sizeof target.association);
    target.association.service = 1;
    target.association.kind = 1;
    target.association.owner = 1;
    for (unsigned tries = 0; target.is_held && tries < 8; tries++) {
        target.entry = random_below(&run->random, (uint32_t)table.count);
        target.association = table.entries[target.entry];
        if (target.association.direction == direction && target.association.state == 2) {
            break;
        }
    }
    return target;
}

/* Whether frames end in a check field; on AOS, which may not, seldom. Any number but 0 says so. */
static uint8_t any_field(struct random *random, const struct association *association)
{
    return random_percent(random, association->kind == 4 ? 5 : 40) ? (uint8_t)RANDOM_OF(random, 1, 1, 2, 128, 255) : 0;
}

static void any_output(struct random *random, struct input *input, size_t needed)
{
    uint32_t chance = random_below(random, 100);
    size_t length = 2048;
    if (chance < 40) {
        length = needed;
    } else if (chance < 50) {
        length = needed - 1;
    } else if (chance < 60) {
        length = needed + 1;
    } else if (chance < 63) {
        length = random_below(random, (uint32_t)needed);
    } else if (chance < 65) {
        length = 0;
    } else if (chance < 80) {
        length = random_below(random, 2300);
    }
    input->output_length = length;
    memset(input->output, (int)random_below(random, 256), length);
}

/* ---- breaking ---- */

static void flip_bit(struct random *random, uint8_t *octets, size_t length)
{
    if (length != 0) {
        octets[random_below(random, (uint32_t)length)] ^= (uint8_t)(1u << random_below(random, 8));
    }
}

/* A field of one body or of the contents goes to a value at or beyond its limit. */
static void strain_field(struct random *random, struct input *input)
{
    struct table table;
    if (!read_image(input->image, input->image_length, &table) || table.count == 0) {
        return;
    }
    struct association *entry = &table.entries[random_below(random, (uint32_t)table.count)];
    switch (random_below(random, 13)) {
    case 0: entry->service = RANDOM_OF(random, 0, 3, 255); break;
    case 1: entry->kind = RANDOM_OF(random, 0, 1, 2, 3, 4, 5, 255); break;
    case 2: entry->direction = RANDOM_OF(random, 0, 1, 2, 3, 255); break;
    case 3: entry->state = RANDOM_OF(random, 0, 1, 2, 3, 255); break;
    case 4: entry->spacecraft = RANDOM_OF(random, 255, 256, 1023, 1024, 65535); break;
    case 5: entry->channel = RANDOM_OF(random, 0, 7, 8, 63, 64, 255); break;
    case 6: entry->map = RANDOM_OF(random, 0, 1, 63, 64, 255); break;
    case 7: entry->window = RANDOM_OF(random, 0, 1, 1024, 1025, 65535); break;
    case 8: entry->mask[5] = (uint8_t)RANDOM_OF(random, 0, 1, 128, 255); break;
    case 9: entry->mark = RANDOM_OF(random, (1u << 26) - 1, 1u << 26, (1u << 26) + 1, UINT32_MAX); break;
    case 10: entry->key_id = RANDOM_OF(random, 0, 1, 65534, 65535); break;
    case 11: entry->owner = RANDOM_OF(random, 0, 1, 2, 3, 255); break;
    default: entry->spi = RANDOM_OF(random, 0, 1, 65534, 65535); break;
    }
    write_image(&table, input->image);
}

/* An octet of the contents is changed by one: an SPI equal to its neighbour, a position beside its body. */
static void strain_contents(struct random *random, struct input *input)
{
    uint32_t contents = 4u * input->image[1] + (has_key_part(input->image[0]) ? 4 : 0);
    if (contents != 0 && contents + 2 <= input->image_length) {
        input->image[2 + random_below(random, contents)] += (uint8_t)RANDOM_OF(random, 1, 255);
    }
}

static void put_entry(uint8_t *image, size_t i, unsigned spi, size_t position)
{
    const uint8_t entry[] = {(uint8_t)(spi >> 8), (uint8_t)spi, (uint8_t)(position >> 8), (uint8_t)position};
    memcpy(image + 2 + 4 * i, entry, sizeof entry);
}

/* An image that would be right if 33 entries were allowed: every SPI rises, every position fits, every body is one that is allowed. */
static enum key_fault lay_out_33(struct input *input)
{
    enum { COUNT = 33 };
    static uint8_t image[IMAGE_ROOM];
    struct table table;
    if (!read_image(input->image, input->image_length, &table) || table.count == 0) {
        return KEY_FAULTS;
    }
    size_t first = body_position(table.version, table.count, 0), body = body_position(table.version, table.count, 1) - first;
    size_t end = body_position(table.version, table.count, table.count), end_33 = body_position(table.version, COUNT, COUNT);
    image[0] = (uint8_t)table.version;
    image[1] = COUNT;
    for (size_t i = 0; i < COUNT; i++) {
        put_entry(image, i, (unsigned)i + 1, body_position(table.version, COUNT, i));
        memcpy(image + body_position(table.version, COUNT, i), input->image + first, body);
    }
    if (has_key_part(table.version)) {
        put_entry(image, COUNT, 65535, end_33);
    }
    memcpy(image + end_33, input->image + end, input->image_length - end); /* the key part, if there is one */
    input->image_length += end_33 - end;
    memcpy(input->image, image, input->image_length);
    return has_key_part(table.version) ? ENTRIES_33 : KEY_FAULTS;
}

/* An image that would be right if 65 keys were allowed. */
static void lay_out_65(struct table *table, struct input *input)
{
    enum { STORED = 35, STEP = 1000 };
    table->key_count = MOST_KEYS;
    for (size_t i = 0; i < MOST_KEYS; i++) {
        table->keys[i].id = STEP * (unsigned)i;
        table->keys[i].state = ACTIVE;
        memset(table->keys[i].octets, (int)i, KEY_LENGTH);
    }
    for (size_t i = 0; i < table->count; i++) {
        table->entries[i].key_id = STEP * (unsigned)i;
    }
    input->image_length = write_image(table, input->image) + STORED;
    uint8_t *last = input->image + key_position(table->version, table->count, MOST_KEYS);
    memcpy(last, last - STORED, STORED);
    last[0] = (uint8_t)(STEP * MOST_KEYS >> 8);
    last[1] = (uint8_t)(STEP * MOST_KEYS & 0xFF);
    input->image[key_position(table->version, table->count, 0) - 1] = MOST_KEYS + 1;
}

/* Gives a key and the IDs of two neighbours a state or an order that breaks a rule; an operational body, a key that does. */
static bool strain_named_key(struct random *random, struct table *table, enum key_fault fault)
{
    size_t entry = random_below(random, (uint32_t)table->count);
    struct association *body = &table->entries[entry];
    size_t named = find_key(table, body->key_id);
    if (body->state != 2) {
        return false;
    }
    if (fault == KEY_NOT_THERE) {
        while (find_key(table, body->key_id) < table->key_count) {
            body->key_id = (body->key_id + RANDOM_OF(random, 1, 255, 256)) & 0xFFFF;
        }
    } else {
        table->keys[named].state = fault == KEY_PRE_ACTIVE ? PRE_ACTIVE : DEACTIVATED;
    }
    return true;
}

static bool strain_key(struct random *random, struct table *table, enum key_fault fault)
{
    size_t at = table->key_count == 0 ? 0 : random_below(random, (uint32_t)table->key_count);
    struct key *key = &table->keys[at], *other = &table->keys[at == 0 ? 1 : at - 1];
    unsigned id = key->id;
    if (fault == KEY_STATE) {
        key->state = RANDOM_OF(random, 3, 4, 128, 255);
        return table->key_count != 0;
    }
    if (table->key_count < 2) {
        return false;
    }
    for (size_t i = 0; i < table->count; i++) { /* so that no operational body loses its key by the change alone */
        table->entries[i].state = table->entries[i].state == 2 ? 1 : table->entries[i].state;
    }
    key->id = fault == IDS_EQUAL ? other->id : key->id;
    if (fault == IDS_FALL) {
        key->id = other->id;
        other->id = id;
    }
    return true;
}

/* Breaks one rule of version 3 or 4, or none where the image does not lend itself to it. */
static enum key_fault break_keys(struct random *random, struct input *input)
{
    struct table table;
    enum key_fault fault = (enum key_fault)random_below(random, ENTRIES_33);
    bool is_broken = true;
    if (!read_image(input->image, input->image_length, &table) || !has_key_part(table.version)) {
        return KEY_FAULTS;
    }
    size_t last = 2 + 4 * table.count;
    switch (fault) {
    case KEYS_65:
        lay_out_65(&table, input);
        return fault;
    case KEY_PART_SPI:
        input->image[last + random_below(random, 2)] ^= (uint8_t)RANDOM_OF(random, 1, 128, 255);
        return fault;
    case KEY_PART_POSITION:
        input->image[last + 2 + random_below(random, 2)] += (uint8_t)RANDOM_OF(random, 1, 255);
        return fault;
    case OWNER_0: case OWNER_3: case OWNER_255:
        is_broken = table.version == 4 && table.count != 0;
        if (is_broken) {
            table.entries[random_below(random, (uint32_t)table.count)].owner = fault == OWNER_0 ? 0 : fault == OWNER_3 ? 3 : 255;
        }
        break;
    case KEY_NOT_THERE: case KEY_PRE_ACTIVE: case KEY_DEACTIVATED:
        is_broken = table.count != 0 && strain_named_key(random, &table, fault);
        break;
    default:
        is_broken = strain_key(random, &table, fault);
        break;
    }
    write_image(&table, input->image);
    return is_broken ? fault : KEY_FAULTS;
}

/* Gives what was broken, where it is a rule of version 3 or 4 and no other. */
static enum key_fault break_image(struct random *random, struct input *input)
{
    if (input->image_length != 0 && has_key_part(input->image[0]) && random_percent(random, 40)) {
        return break_keys(random, input);
    }
    switch (random_below(random, 8)) {
    case 0:
    case 1:
        strain_field(random, input);
        break;
    case 2:
        strain_contents(random, input);
        break;
    case 3:
        flip_bit(random, input->image, input->image_length);
        break;
    case 4: /* too short, down to nothing */
        input->image_length -= random_between(random, 1, (uint32_t)input->image_length);
        break;
    case 5: /* too long */
        input->image_length += RANDOM_OF(random, 1, 4, 22, 23, 26, 27, 35, 52, 56);
        break;
    case 6:
        return lay_out_33(input);
    default: /* version, count, or the count of keys */
        input->image[random_below(random, 2)] = (uint8_t)RANDOM_OF(random, 0, 1, 2, 3, 4, 5, 31, 32, 33, 255);
        if (random_percent(random, 50) && has_key_part(input->image[0]) && input->image[1] <= MOST_ENTRIES) {
            input->image[key_position(input->image[0], input->image[1], 0) - 1] += (uint8_t)RANDOM_OF(random, 1, 255);
        }
        break;
    }
    return KEY_FAULTS;
}

static void break_numbers(struct random *random, struct input *input)
{
    uint32_t count = input->image[1]; /* which may be broken already */
    uint32_t index = random_below(random, random_percent(random, 80) && 1 <= count && count <= 32 ? count : 32);
    switch (random_below(random, 4)) {
    case 0:
        input->numbers[index] += 64;
        break;
    case 1:
        input->numbers[index] -= 64;
        break;
    case 2:
        input->numbers[index] = (uint32_t)random_any(random);
        break;
    default:
        input->numbers_length = RANDOM_OF(random, 0, 1, 31, 33, 40);
        break;
    }
}

static void set_frame_length(struct input *input, size_t length, bool fixes_field)
{
    input->frame_length = length;
    if (fixes_field && has_length_field(input->kind) && length >= 4 && length <= 1024) {
        write_tc_length(input->frame, length);
    }
}

/* Another length, around the limits of answers 3 and 5, with the TC length field put right or not. */
static void change_length(struct random *random, struct input *input)
{
    size_t length = input->frame_length;
    switch (random_below(random, 6)) {
    case 0:
        length = random_below(random, 12);
        break;
    case 1:
        length = random_between(random, 22, 42);
        break;
    case 2:
        length = length == 0 ? 0 : length - 1;
        break;
    case 3:
        length = length + RANDOM_OF(random, 1, 4, 16);
        break;
    case 4:
        length = RANDOM_OF(random, 1023, 1024, 1025, 2047, 2048, 2049, 2300);
        break;
    default:
        length = random_below(random, (uint32_t)length + 1);
        break;
    }
    if (length > input->frame_length) {
        random_octets(random, input->frame + input->frame_length, length - input->frame_length);
    }
    set_frame_length(input, length, random_percent(random, 75));
}

/* The part from one place to another comes from a second frame of the same association. */
static void splice(struct random *random, struct input *input, const uint8_t *other, size_t other_length)
{
    size_t shorter = input->frame_length < other_length ? input->frame_length : other_length;
    size_t from = random_below(random, (uint32_t)shorter + 1);
    size_t to = from + random_below(random, (uint32_t)(shorter - from) + 1);
    switch (random_below(random, 3)) {
    case 0: /* the front of one and the rest of the other */
        memcpy(input->frame + from, other + from, other_length - from);
        set_frame_length(input, other_length, random_percent(random, 50));
        break;
    case 1: /* a part in the middle */
        memcpy(input->frame + from, other + from, to - from);
        break;
    default: /* the last 16 octets: another MAC, or a part of it and the OCF */
        if (shorter >= 16) {
            memcpy(input->frame + input->frame_length - 16, other + other_length - 16, 16);
        }
        break;
    }
}

/* A frame that was changed before its field was made: it fails, if at all, behind 12. */
static void close_again(struct random *random, struct input *input)
{
    if (input->check_field != 0 && input->frame_length >= CHECK_FIELD_LENGTH && random_percent(random, 60)) {
        write_check_field(input->frame, input->frame_length);
    }
}

/* Random octets; some begin like a frame of their kind. */
static void junk(struct random *random, struct input *input)
{
    size_t kept = random_percent(random, 60) ? random_below(random, 9) : 0;
    size_t length = random_percent(random, 80) ? random_below(random, 120) : random_below(random, 2300);
    if (length > kept) {
        random_octets(random, input->frame + kept, length - kept);
    }
    set_frame_length(input, length, random_percent(random, 60));
}

/* The header flag or the first octet of a secondary header is another, or the frame ends near its end. */
static void strain_secondary_header(struct random *random, struct input *input)
{
    uint8_t *frame = input->frame;
    switch (random_below(random, 4)) {
    case 0:
        frame[4] ^= 0x80;
        break;
    case 1:
        frame[6] = (uint8_t)RANDOM_OF(random, 0, 1, 2, 62, 63, 64, 65, 127, 128, 191, 192, 255);
        break;
    case 2:
        frame[6] = (uint8_t)random_below(random, 256);
        break;
    default:
        input->frame_length = 6 + (random_percent(random, 20) ? 0 : (frame[6] & 63u)) + random_below(random, 30);
        break;
    }
}

static void break_octets(struct random *random, struct input *input, const uint8_t *other, size_t other_length)
{
    size_t length = input->frame_length;
    switch (random_below(random, 8)) {
    case 0:
        flip_bit(random, input->frame, length);
        break;
    case 1: /* header and security header */
        flip_bit(random, input->frame, length < 20 ? length : 20);
        break;
    case 2: /* MAC and OCF */
        flip_bit(random, input->frame + (length < 20 ? 0 : length - 20), length < 20 ? length : 20);
        break;
    case 3:
    case 4:
        change_length(random, input);
        break;
    case 5:
    case 6:
        splice(random, input, other, other_length);
        break;
    default:
        junk(random, input);
        break;
    }
}

static void break_frame(struct random *random, struct input *input, const uint8_t *other, size_t other_length)
{
    if (input->kind == 3 && input->frame_length > 6 && random_percent(random, 30)) {
        strain_secondary_header(random, input);
    } else {
        break_octets(random, input, other, other_length);
    }
    close_again(random, input);
}

/* What can be wrong beside the frame. */
static void break_rest(struct random *random, struct input *input)
{
    if (random_percent(random, 4)) {
        break_image(random, input);
    }
    if (random_percent(random, 4)) {
        break_numbers(random, input);
    }
    if (random_percent(random, 4)) {
        input->kind = (uint8_t)random_below(random, 256);
    } else if (random_percent(random, 3)) {
        input->kind = (uint8_t)random_between(random, 1, KINDS);
    }
    if (random_percent(random, 3)) {
        input->check_field = input->check_field != 0 ? 0 : 1;
    }
    if (random_percent(random, 2)) {
        input->desk = (uint8_t)desks[random_below(random, DESKS)];
    }
}

/* ---- running ---- */

/* Whether it is a TM frame whose header flag is 1. */
static bool is_stamped(const struct input *input)
{
    return input->kind == 3 && input->frame_length > 4 && (input->frame[4] & 0x80) != 0;
}

static void count_limit(uint64_t counts[LIMITS], const uint32_t limits[LIMITS], uint64_t value)
{
    for (size_t i = 0; i < LIMITS; i++) {
        counts[i] += limits[i] == value;
    }
}

static uint64_t octets_as_number(const uint8_t *octets, size_t count)
{
    uint64_t number = 0;
    for (size_t i = 0; i < count; i++) {
        number = number << 8 | octets[i];
    }
    return number;
}

/* What was asked for, of the commands of the right form that were about the target. */
static void count_limits(struct run *run, const struct input *input, const struct target *target, const struct outcome *outcome, uint32_t last)
{
    const struct association *association = &target->association;
    const uint8_t *rest = input->frame + 5;
    unsigned row = association->has_set ? SET_ROW : association->kind;
    if (outcome->answer != 0 && (outcome->answer < 15 || outcome->answer > 18)) {
        return;
    }
    switch (input->frame[0]) {
    case TAG_START:
        run->starts[input->image[0]][row][outcome->answer == 0 ? 0 : outcome->answer - 14]++;
        count_limit(run->windows_held[association->state], window_limits, association->window);
        break;
    case TAG_SET_WINDOW:
        count_limit(run->windows_asked[association->state], window_limits, octets_as_number(rest, 2));
        break;
    case TAG_SET_NUMBER:
        count_limit(run->steps[last > UINT32_MAX - 1024], step_limits, octets_as_number(rest + 4, 8) - last);
        if (outcome->answer == 0) {
            run->raises_set[outcome->stores]++;
        }
        break;
    default:
        break;
    }
}

/* From version 3 on, the state of the key that the command asks for, where the answer turns on it. */
static void count_key(struct run *run, const struct input *before, const struct target *target, const struct outcome *outcome)
{
    struct table table;
    unsigned tag = before->frame_length < 5 ? 0 : before->frame[0];
    if (!read_image(before->image, before->image_length, &table) || !has_key_part(table.version)
        || (outcome->answer != 0 && outcome->answer != 17 && outcome->answer != 18)) {
        return;
    }
    for (size_t i = 0; i < ABOUT_KEYS; i++) {
        unsigned id = (unsigned)octets_as_number(before->frame + (tag == TAG_REKEY ? 5 : 3), 2);
        if (tag == TAG_START && target->is_held) {
            id = table.entries[target->entry].key_id;
        }
        size_t named = find_key(&table, id);
        if (tags_about_keys[i] == tag) {
            run->keys_asked[i][named == table.key_count ? KEY_STATES : table.keys[named].state]++;
            run->in_use += tag == TAG_DEACTIVATION && outcome->answer == 18 && table.keys[named].state == ACTIVE;
        }
    }
}

/* What the reading answers to the key office's desk. */
static unsigned answer_to_office(const struct input *input)
{
    static struct effect effect;
    const struct call call = {input->image, input->image_length, input->numbers, input->numbers_length, KEY_OFFICE, input->kind,
                              input->check_field != 0, input->spi, input->frame, input->frame_length, input->output_length,
                              &input->record.notes, input->record.events, input->record.events_length};
    if (input->which == CALL_SECURE) {
        reading_secure(&call, &effect);
    } else if (input->which == CALL_CHECK) {
        reading_check(&call, &effect);
    } else {
        reading_command(&call, &effect);
    }
    return effect.answer;
}

static void count_desk(struct run *run, const struct input *before, const struct outcome *outcome)
{
    size_t desk = 0;
    while (desk < DESKS && desks[desk] != before->desk) {
        desk++;
    }
    if (before->which == CALL_LOAD || desk == DESKS) {
        return;
    }
    uint64_t *sights = run->desks[before->which][desk];
    bool is_unknown = outcome->answer == 4 || outcome->answer == 14;
    unsigned tag = before->which == CALL_COMMAND && before->frame_length != 0 ? before->frame[0] : TAG_PING;
    sights[DONE_TO_DESK] += outcome->answer == 0;
    sights[UNKNOWN_TO_DESK] += is_unknown;
    sights[SEEN_BY_OFFICE] += is_unknown && answer_to_office(before) != outcome->answer;
    sights[NOT_A_DESK] += outcome->answer == 19 && before->desk > 2;
    sights[NOT_ITS_COMMAND] += outcome->answer == 19 && is_office_only(tag);
    sights[SHORT_OR_LONG] += outcome->answer == 19 && is_office_only(tag) && answer_to_office(before) == 13;
}

/* What was told the notes, and in which state they were. */
static void count_notes(struct run *run, const struct input *before, const struct outcome *outcome)
{
    const struct notes *notes = &before->record.notes;
    size_t room = room_for_events(before->record.events_length), kept = kept_in(&before->record);
    if (before->which == CALL_CHECK && before->desk < DESK_COUNT) {
        run->reports[before->desk][outcome->answer][(notes->reports[before->desk][0] & 8) != 0]++;
    }
    if (is_event(before)) {
        run->log[ENTERED] += kept < room;
        run->log[ENTERED_LAST] += kept + 1 == room;
        run->log[COUNTED] += kept == room && notes->dropped != UINT32_MAX;
        run->log[COUNTED_NO_MORE] += kept == room && notes->dropped == UINT32_MAX;
        run->log[ABOVE_ROOM] += notes->kept > room;
        run->log[NO_ROOM] += room == 0;
        run->log[ODD_LIST] += before->record.events_length != 768;
    } else if (before->which == CALL_COMMAND && outcome->answer == 0) {
        bool is_dump = before->frame[0] == TAG_DUMP;
        run->log[DUMPED_NONE] += is_dump && kept == 0;
        run->log[DUMPED_SOME] += is_dump && kept != 0;
        run->log[DUMPED_ALL] += is_dump && kept == MOST_EVENTS;
        run->log[ERASED] += !is_dump && notes->kept != 0;
    }
}

static void count_command(struct run *run, const struct input *before, const struct target *target, const struct outcome *outcome)
{
    count_key(run, before, target, outcome);
    size_t row = before->frame_length == 0 ? TAG_COUNT : index_of_tag(before->frame[0]);
    run->inputs++;
    run->commands[row][outcome->answer]++;
    if (target->is_held && before->frame_length >= 5 && octets_as_number(before->frame + 3, 2) == target->association.spi) {
        count_limits(run, before, target, outcome, before->numbers[target->entry]);
    }
}

static void count_outcome(struct run *run, const struct input *input, const struct target *target, const struct outcome *outcome)
{
    unsigned kind = input->which == CALL_LOAD ? target->association.kind : input->kind;
    unsigned service = target->is_held ? target->association.service : 0;
    unsigned row = kind <= KINDS ? kind : 0;
    bool has_stamp = input->which != CALL_LOAD && is_stamped(input);
    run->inputs++;
    if (has_stamp) {
        row = STAMP_ROW;
    } else if (kind == 3 && target->association.has_set) {
        row = SET_ROW;
    }
    run->tally[input->which][row][service][outcome->answer]++;
    if (input->which == CALL_CHECK && outcome->answer == 0) {
        run->stores[outcome->stores]++;
        run->secondary[input->check_field != 0][has_stamp ? input->frame[6] + 1 : 0]++;
    }
}

/* The SPI that a call goes by: the argument, or the frame's; 0 where a frame does not obey its kind. */
static unsigned spi_of(const struct input *input)
{
    struct header header;
    if (input->which == CALL_SECURE) {
        return input->spi;
    }
    if (input->which == CALL_COMMAND) {
        return input->frame_length < 5 || !names_spi(input->frame[0]) ? 0 : (unsigned)octets_as_number(input->frame + 3, 2);
    }
    if (!read_secured_frame(input->kind, input->check_field != 0, input->frame, input->frame_length, &header)) {
        return 0;
    }
    return input->frame[header.length] * 256u + input->frame[header.length + 1];
}

/* 'other projects' bodies change nothing': the same call on an image in which every other association is another one. */
static void try_isolation(struct run *run, const struct input *before, const struct target *target, const struct outcome *outcome,
                          const struct input *after)
{
    static struct input input;
    if (outcome->answer == 1 || outcome->answer == 2 || !target->is_held || spi_of(before) != target->association.spi) {
        return;
    }
    input = *before;
    change_others(&run->random, &input, target->entry);
    struct outcome other = both_run(&run->random, &input);
    if (other.answer != outcome->answer || other.length != outcome->length || other.stores != outcome->stores
        || memcmp(input.output, after->output, input.output_length) != 0
        || memcmp(input.record.notes.reports, after->record.notes.reports, sizeof input.record.notes.reports) != 0
        || input.numbers[target->entry] != after->numbers[target->entry]) {
        both_fail("another association's body changed what came back");
    }
    run->isolations++;
    run->inputs++;
}

/* 'A desk sees only its own associations': the same call on an image in which every association that the desk does not see is another one, with the
 * same owners, SPIs and key part. */
static void try_unseen(struct run *run, const struct input *before, const struct outcome *outcome, const struct input *after)
{
    static struct input input;
    if (outcome->answer == 1 || outcome->answer == 2 || before->desk == 0 || before->image[0] != 4) {
        return;
    }
    input = *before;
    change_unseen(&run->random, &input);
    struct outcome other = both_run(&run->random, &input);
    if (other.answer != outcome->answer || other.length != outcome->length || other.stores != outcome->stores
        || memcmp(input.output, after->output, input.output_length) != 0
        || memcmp(input.record.notes.reports, after->record.notes.reports, sizeof input.record.notes.reports) != 0) {
        both_fail("an association that the desk does not see changed what came back");
    }
    run->unseen++;
    run->inputs++;
}

/* The end keeps what a call leaves, except where the input was broken beyond it. */
static struct outcome run_input(struct run *run, struct input *input, const struct target *target, struct end *end)
{
    bool is_own = input->image_length == end->image_length && memcmp(input->image, end->image, end->image_length) == 0
        && input->numbers_length == NUMBER_COUNT && memcmp(input->numbers, end->numbers, sizeof end->numbers) == 0;
    static struct input before;
    before = *input;
    struct outcome outcome = both_run(&run->random, input);
    if (input->which == CALL_COMMAND) {
        count_command(run, &before, target, &outcome);
    } else {
        count_outcome(run, input, target, &outcome);
    }
    count_desk(run, &before, &outcome);
    count_notes(run, &before, &outcome);
    if (input->which != CALL_LOAD && random_percent(&run->random, 5)) {
        try_isolation(run, &before, target, &outcome, input);
    }
    if (input->which != CALL_LOAD && random_percent(&run->random, 20)) {
        try_unseen(run, &before, &outcome, input);
    }
    if (is_own) {
        end_of_input(end, input);
    }
    notes_of_input(end, input);
    return outcome;
}

/* What a key part that was loaded has. */
static void see_keys(struct run *run, const struct input *input)
{
    struct table table;
    if (!read_image(input->image, input->image_length, &table) || !has_key_part(table.version)) {
        return;
    }
    bool is_shared = false, is_stray = false, has_owner[3] = {false, false, false};
    for (size_t i = 0; i < table.count; i++) {
        is_stray = is_stray || find_key(&table, table.entries[i].key_id) == table.key_count;
        has_owner[table.entries[i].owner] = true;
        for (size_t j = 0; j < i; j++) {
            bool are_serving = table.entries[i].state == 2 && table.entries[j].state == 2;
            is_shared = is_shared || (are_serving && table.entries[i].key_id == table.entries[j].key_id);
        }
    }
    run->key_sights[NO_KEYS] += table.key_count == 0;
    run->key_sights[ONE_KEY] += table.key_count == 1;
    run->key_sights[ALL_KEYS] += table.key_count == MOST_KEYS;
    run->key_sights[ID_0] += table.key_count != 0 && table.keys[0].id == 0;
    run->key_sights[ID_65535] += table.key_count != 0 && table.keys[table.key_count - 1].id == 65535;
    run->key_sights[SHARED] += is_shared;
    run->key_sights[STRAY] += is_stray;
    run->key_sights[table.version == 3 ? VERSION_3 : VERSION_4]++;
    run->key_sights[ONE_OWNER] += table.version == 4 && has_owner[1] != has_owner[2];
    run->key_sights[TWO_OWNERS] += has_owner[1] && has_owner[2];
}

static void try_load(struct run *run, struct end *end)
{
    static struct input input;
    struct target target = any_target(run, end, 1);
    enum key_fault fault = KEY_FAULTS;
    input_of_end(&input, CALL_LOAD, end);
    if (random_percent(&run->random, 50)) {
        fault = break_image(&run->random, &input);
    }
    if (random_percent(&run->random, 15)) {
        break_numbers(&run->random, &input);
    }
    if (random_percent(&run->random, 12)) { /* of a load, numbers are wrong by their count alone */
        input.numbers_length = RANDOM_OF(&run->random, 0, 1, 31, 33, 40);
    }
    struct outcome outcome = run_input(run, &input, &target, end);
    if (outcome.answer == 0) {
        see_keys(run, &input);
    }
    if (fault < KEY_FAULTS) {
        run->key_faults[fault]++;
        if (outcome.answer != 1) {
            both_fail("an image that breaks a rule of version 3 or 4 loads");
        }
    }
}

/* Demand 2: what one end secures the other releases. Then the same frame again is a replay. */
static void try_round_trip(struct run *run, const struct input *sent, const struct outcome *securing, const struct target *target,
                           uint32_t number, struct end *other)
{
    static struct input input;
    struct random *random = &run->random;
    struct table table;
    struct header clear;
    table_of(other, &table);
    if (!read_clear_frame(sent->kind, sent->check_field != 0, sent->frame, sent->frame_length, &clear)) {
        both_fail("a frame was secured that does not obey its kind");
    }
    if (!serves_channel(&table.entries[target->entry], clear.channel)) {
        return;
    }
    if (!bring_to_service(random, &table, target->entry, target->association.key)) {
        return;
    }
    set_table(other, &table);
    bool is_alike = make_iv_alike(&target->association, &table.entries[target->entry]);
    uint32_t window = table.entries[target->entry].window;
    set_number(other, target->entry, number - random_between(random, 1, number < window ? number : window));

    size_t data_length = sent->frame_length - clear.length - clear.trailer;
    const struct association *there = &table.entries[target->entry];
    input_of_end(&input, CALL_CHECK, other);
    input.desk = (uint8_t)(random_percent(random, 50) ? KEY_OFFICE : there->owner);
    input.kind = sent->kind;
    input.check_field = sent->check_field != 0 ? (uint8_t)random_between(random, 1, 255) : 0;
    input.frame_length = securing->length;
    memcpy(input.frame, sent->output, securing->length);
    any_output(random, &input, data_length);
    if (input.output_length < data_length) {
        input.output_length = data_length;
    }
    if (random_percent(random, 20)) { /* 'demand 2 where each end's desk sees the entry' */
        static struct input blind;
        blind = input;
        blind.desk = (uint8_t)(3 - there->owner);
        if (run_input(run, &blind, target, other).answer != 4) {
            both_fail("a frame of another desk's association was not refused by 4");
        }
        run->blind_trips++;
    }
    struct outcome checking = run_input(run, &input, target, other);
    if (!is_alike) { /* 'demand 2 then supposes that both ends' images make the IV alike' */
        if (checking.answer != 8) {
            both_fail("an IV that the other end's image makes otherwise was not refused by 8");
        }
        run->other_ivs++;
        return;
    }
    if (checking.answer != 0 || checking.length != data_length || memcmp(input.output, sent->frame + clear.length, data_length) != 0) {
        both_fail("what one end secured was not released at the other");
    }
    if (run_input(run, &input, target, other).answer != 8) {
        both_fail("a frame was not refused the second time");
    }
    run->round_trips++;
}

static void make_sending(struct random *random, const struct association *association, struct input *input)
{
    uint8_t other_frame[FRAME_ROOM];
    input->kind = (uint8_t)association->kind;
    input->check_field = any_field(random, association);
    input->spi = (uint16_t)association->spi;
    bool has_field = input->check_field != 0;
    input->frame_length = make_clear_frame(random, association, has_field, any_data_length(random, association), input->frame);
    if (random_percent(random, 25)) {
        size_t other_length = make_clear_frame(random, association, has_field, any_data_length(random, association), other_frame);
        break_frame(random, input, other_frame, other_length);
    }
    if (random_percent(random, 4)) {
        input->spi = (uint16_t)RANDOM_OF(random, 0, 1, 65534, 65535, association->spi + 1, association->spi ^ 0x100);
    }
    any_output(random, input, input->frame_length + security_header_length(association->service) + MAC_LENGTH);
}

/* 'A frame with a right field and then one bit changed is shown to be refused by 3 or 12', whichever bit it is. */
static void try_flips(struct run *run, const struct input *input)
{
    static struct input changed;
    struct table table;
    if (input->check_field == 0 || input->frame_length > 60 || !check_field_is_right(input->frame, input->frame_length)
        || !read_image(input->image, input->image_length, &table) || !random_percent(&run->random, 1)) {
        return;
    }
    changed = *input;
    unsigned answer = both_run(&run->random, &changed).answer;
    for (size_t bit = 0; answer != 2 && answer != 19 && bit < 8 * input->frame_length; bit++) {
        changed = *input;
        changed.frame[bit / 8] ^= (uint8_t)(1u << bit % 8);
        answer = both_run(&run->random, &changed).answer;
        if (answer != 3 && answer != 12) {
            both_fail("a frame with a right field and then one bit changed was not refused by 3 or 12");
        }
        run->inputs++;
    }
    run->flips++;
    run->stamped_flips += is_stamped(input);
}

static void try_secure(struct run *run, struct world *world, size_t side)
{
    static struct input input;
    struct random *random = &run->random;
    struct end *end = &world->ends[side];
    struct target target = any_target(run, end, 1);
    const struct association *association = &target.association;

    input_of_end(&input, CALL_SECURE, end);
    input.desk = any_desk(random, association);
    make_sending(random, association, &input);
    if (random_percent(random, 3) && target.is_held) { /* the last numbers there are */
        set_number(end, target.entry, UINT32_MAX - random_below(random, 2));
        memcpy(input.image, end->image, end->image_length);
        memcpy(input.numbers, end->numbers, sizeof end->numbers);
    }
    break_rest(random, &input);

    try_flips(run, &input);
    struct outcome outcome = run_input(run, &input, &target, end);
    /* A broken input may have been secured too, perhaps under another entry; the reading has been compared, and that is all. */
    bool is_targets = outcome.answer == 0 && input.kind == association->kind && input.spi == association->spi
        && memcmp(input.image, end->image, end->image_length) == 0;
    if (is_targets && random_percent(random, 50)) {
        try_round_trip(run, &input, &outcome, &target, input.numbers[target.entry], &world->ends[1 - side]);
    }
}

/* A sequence number on either side of every limit, with the last number accepted as it stands; as the association makes its IV, or with an octet
 * in front of the number that is another, which is given, or as another version makes it. */
static size_t any_sequence(struct random *random, const struct association *association, uint32_t last, uint8_t sequence[SEQUENCE_LENGTH])
{
    struct association other = *association;
    unsigned window = association->window;
    uint64_t number = (uint64_t)last + 1;
    uint32_t chance = random_below(random, 100);
    if (chance < 30) {
        number = (uint64_t)last + random_between(random, 1, window);
    } else if (chance < 42) {
        number = (uint64_t)last + window;
    } else if (chance < 50) {
        number = (uint64_t)last + window + 1;
    } else if (chance < 58) {
        number = last;
    } else if (chance < 66) {
        number = last - random_below(random, last < 2000 ? last + 1 : 2000);
    } else if (chance < 70) {
        number = RANDOM_OF(random, 0, UINT32_MAX, UINT32_MAX - 1, (uint32_t)random_any(random));
    } else if (chance < 74) {
        number = 4294967296u + random_below(random, 200);
    } else if (chance < 78) {
        number = 4294967296u + last + 1; /* its last 4 octets are in the window */
    }
    if (chance < 80 || chance >= 83) {
        iv_of_number(association, number, sequence);
    } else {
        other.names_key = !other.names_key;
        iv_of_number(&other, number, sequence);
    }
    if (chance < 94) {
        return PREFIX;
    }
    size_t octet = random_below(random, PREFIX);
    sequence[octet] ^= (uint8_t)RANDOM_OF(random, 1, 128, 255);
    return octet;
}

/* A secured frame made by the reading, with any number, and its length; 0 where no such clear frame can be secured. */
static size_t make_secured_frame(struct run *run, const struct association *association, bool has_field, uint32_t last, uint8_t *secured)
{
    uint8_t clear[FRAME_ROOM];
    uint8_t sequence[SEQUENCE_LENGTH];
    struct header header;
    size_t length = make_clear_frame(&run->random, association, has_field, any_data_length(&run->random, association), clear);
    run->changed_octet = any_sequence(&run->random, association, last, sequence);
    if (!read_clear_frame(association->kind, has_field, clear, length, &header)
        || length + security_header_length(association->service) + MAC_LENGTH > header.largest) {
        return 0;
    }
    return protect_frame(association, &header, sequence, clear, length, secured);
}

static void try_check(struct run *run, struct end *end)
{
    static struct input input;
    uint8_t other_frame[FRAME_ROOM];
    struct random *random = &run->random;
    struct target target = any_target(run, end, 2);
    struct association *association = &target.association;
    if (!target.is_held) {
        association->window = 1;
    }
    if (random_percent(random, 4) && target.is_held) { /* close to the last numbers there are */
        set_number(end, target.entry, UINT32_MAX - random_below(random, 1100));
    }
    input_of_end(&input, CALL_CHECK, end);
    input.desk = any_desk(random, association);
    input.kind = (uint8_t)association->kind;
    input.check_field = association->kind == 4 ? 0 : any_field(random, association);
    bool has_field = input.check_field != 0;
    uint32_t last = end->numbers[target.entry];
    do {
        input.frame_length = make_secured_frame(run, association, has_field, last, input.frame);
    } while (input.frame_length == 0);
    if (random_percent(random, 30)) {
        size_t other_length = make_secured_frame(run, association, has_field, last, other_frame);
        break_frame(random, &input, other_frame, other_length);
        run->changed_octet = PREFIX;
    }
    struct header header;
    size_t added = security_header_length(association->service) + MAC_LENGTH;
    if (read_secured_frame(association->kind, has_field, input.frame, input.frame_length, &header)) {
        added += header.length + header.trailer;
    }
    any_output(random, &input, input.frame_length > added ? input.frame_length - added : 1);
    break_rest(random, &input);
    try_flips(run, &input);
    struct outcome outcome = run_input(run, &input, &target, end);
    if (outcome.answer == 8 && run->changed_octet < PREFIX && association->service == 2 && association->names_key && last != UINT32_MAX) {
        run->prefixes[run->changed_octet]++;
    }
}

/* The octets of the reply that the input's command would have, or 1 where it has none. */
static size_t octets_of_reply(const struct input *input)
{
    static struct effect effect;
    const struct call call = {input->image, input->image_length, input->numbers, input->numbers_length, input->desk, 0, false, 0, input->frame,
                              input->frame_length, FRAME_ROOM, &input->record.notes, input->record.events, input->record.events_length};
    reading_command(&call, &effect);
    return effect.length == 0 ? 1 : effect.length;
}

/* Mostly on a copy of the end, so that not all associations come to rest. */
static void try_command(struct run *run, struct end *own)
{
    static struct input input;
    struct random *random = &run->random;
    struct end copy = *own;
    struct end *end = random_percent(random, 75) ? &copy : own;
    struct target target = any_target(run, end, random_between(random, 1, 2));
    unsigned tag = random_percent(random, 12) ? TAG_START : every_tag[random_below(random, TAG_COUNT)];
    if (target.is_held) {
        suit_command(random, end, target.entry, tag, &target.association);
    }
    input_of_end(&input, CALL_COMMAND, end);
    input.desk = any_desk(random, &target.association);
    make_command(random, &input, tag, &target.association, end->numbers[target.entry]);
    if (random_percent(random, 15)) {
        break_command(random, &input);
    }
    any_output(random, &input, octets_of_reply(&input));
    break_rest(random, &input);
    if (random_percent(random, 20)) {
        static struct input cut;
        cut = input;
        both_cut_command(random, &cut, random_percent(random, 90) ? random_below(random, 18) : (uint32_t)random_any(random));
        run->inputs++;
        run->command_cuts++;
    }
    run_input(run, &input, &target, end);
    if (end != own) { /* what is noted of a call on the copy is kept */
        own->record = end->record;
    }
}

static void try_raise(struct run *run, const struct end *end)
{
    static struct input input;
    struct random *random = &run->random;
    struct target target = any_target(run, end, 2);
    input_of_end(&input, CALL_LOAD, end);
    if (random_percent(random, 20)) {
        break_image(random, &input);
    }
    uint8_t entry = random_percent(random, 85) ? (uint8_t)target.entry : (uint8_t)random_below(random, 256);
    uint32_t last = end->numbers[target.entry];
    uint32_t number = last + random_between(random, 0, random_percent(random, 80) ? 1100 : 200000);
    if (random_percent(random, 10)) {
        number = (uint32_t)random_any(random);
    }
    uint32_t stores = random_percent(random, 80) ? random_below(random, 18) : random_below(random, 3000);
    both_raise(random, input.image, input.image_length, entry, number, stores);
    run->inputs++;
    run->raises++;
}

static void run_world(struct run *run, uint64_t number)
{
    struct world world;
    run->random = random_stream(run->options.seed, number);
    make_world(&run->random, &world, any_count(&run->random));
    for (unsigned call = 0; call < CALLS_PER_WORLD && run->inputs < run->options.count; call++) {
        size_t side = random_below(&run->random, 2);
        uint32_t chance = random_below(&run->random, 100);
        both_at(run->options.seed, number, call);
        if (chance < 8) {
            try_load(run, &world.ends[side]);
        } else if (chance < 16) {
            try_raise(run, &world.ends[side]);
        } else if (chance < 36) {
            try_command(run, &world.ends[side]);
        } else if (chance < 65) {
            try_secure(run, &world, side);
        } else {
            try_check(run, &world.ends[side]);
        }
    }
}

/* ---- counting ---- */

static unsigned print_limits(const char *name, size_t rows, const uint64_t (*counts)[LIMITS], const uint32_t limits[LIMITS])
{
    unsigned faults = 0;
    printf("%s", name);
    for (size_t row = 0; row < rows; row++) {
        for (size_t i = 0; i < LIMITS; i++) {
            printf("%s%" PRIu32 ": %" PRIu64, i == 0 ? "; " : ", ", limits[i], counts[row][i]);
            faults += counts[row][i] == 0;
        }
    }
    putchar('\n');
    return faults;
}

/* 14 needs a command with an SPI; 15 and 16 are for those that ask for a state and a value, 17 and 18 for those that need a key, and 6 for those
 * that have a reply. */
static bool command_can_give(size_t tag, unsigned answer)
{
    if (tag == TAG_COUNT) {
        return answer == 1 || answer == 2 || answer == 13 || answer == 19;
    }
    switch (answer) {
    case 0: case 1: case 2: case 13: case 19:
        return true;
    case 6:
        return has_reply(every_tag[tag]);
    case 14:
        return names_spi(every_tag[tag]);
    case 15:
        return names_spi(every_tag[tag]) && every_tag[tag] != TAG_SET_NUMBER && !has_reply(every_tag[tag]);
    case 16:
        return every_tag[tag] == TAG_START || every_tag[tag] == TAG_REKEY || every_tag[tag] == TAG_SET_WINDOW || every_tag[tag] == TAG_SET_NUMBER;
    case 17: case 18:
        return every_tag[tag] == TAG_START || every_tag[tag] == TAG_REKEY || every_tag[tag] == TAG_ACTIVATION || every_tag[tag] == TAG_DEACTIVATION;
    default:
        return false;
    }
}

static unsigned print_starts(const struct run *run)
{
    static const char *const names[SET_ROW + 1] = {"-", "1", "2", "3", "4", "set"};
    unsigned faults = 0;
    printf("starts done, refused by 15 and by 16, from version 3 on by 17 and 18, by version and kind:");
    for (unsigned version = 1; version <= VERSIONS; version++) {
        for (unsigned row = 1; row <= SET_ROW; row++) {
            bool can_be = row == SET_ROW ? version >= 2 : row != 3 || version == 1;
            const uint64_t *counts = run->starts[version][row];
            for (unsigned i = 0; can_be && i < (has_key_part(version) ? 5 : 3); i++) {
                if (i == 0) {
                    printf(" %u/%s", version, names[row]);
                }
                printf(" %" PRIu64, counts[i]);
                faults += counts[i] == 0;
            }
        }
    }
    putchar('\n');
    return faults;
}

static unsigned print_counts(const char *what, size_t count, const char *const *names, const uint64_t *counts)
{
    unsigned faults = 0;
    printf("%s", what);
    for (size_t i = 0; i < count; i++) {
        printf("%s%s%s%" PRIu64, i == 0 ? ": " : ", ", names == NULL ? "" : names[i], names == NULL ? "" : " ", counts[i]);
        faults += counts[i] == 0;
    }
    putchar('\n');
    return faults;
}

/* What was met of keys from version 3 on, and of owners in version 4. */
static unsigned print_keys(const struct run *run)
{
    static const char *const states[KEY_STATES + 1] = {"pre-active", "active", "deactivated", "not there"};
    unsigned faults = print_counts("loads of versions 3 and 4 refused for one fault", KEY_FAULTS, key_fault_names, run->key_faults);
    faults += print_counts("loads of versions 3 and 4 done", KEY_SIGHTS, key_sight_names, run->key_sights);
    for (size_t i = 0; i < ABOUT_KEYS; i++) {
        char what[64];
        snprintf(what, sizeof what, "keys that %s was about", tag_names[index_of_tag(tags_about_keys[i])]);
        faults += print_counts(what, KEY_STATES + 1, states, run->keys_asked[i]);
    }
    printf("deactivations refused for a key in use: %" PRIu64 "; round trips between IVs that differ: %" PRIu64 "\n", run->in_use, run->other_ivs);
    faults += print_counts("checks refused for one octet of the IV's prefix", PREFIX, NULL, run->prefixes);
    return faults + (run->in_use == 0) + (run->other_ivs == 0);
}

/* Desk 0 is never refused for what it may see or do; a laboratory's may be; any other number gives 19 alone. */
static bool desk_can_come_to(unsigned which, unsigned desk, enum desk_sight sight)
{
    switch (sight) {
    case DONE_TO_DESK: case UNKNOWN_TO_DESK: return desk <= 2;
    case SEEN_BY_OFFICE: return desk == 1 || desk == 2;
    case NOT_A_DESK: return desk > 2;
    default: return which == CALL_COMMAND && desk != 0;
    }
}

static unsigned print_desks(const struct run *run)
{
    static const char *const calls[] = {"load", "secure", "check", "command"};
    unsigned faults = 0;
    for (unsigned which = CALL_SECURE; which <= CALL_COMMAND; which++) {
        for (size_t i = 0; i < DESKS; i++) {
            char what[32];
            snprintf(what, sizeof what, "%s of desk %u", calls[which], desks[i]);
            print_counts(what, DESK_SIGHTS, desk_sight_names, run->desks[which][i]);
            for (unsigned sight = 0; sight < DESK_SIGHTS; sight++) {
                faults += (run->desks[which][i][sight] != 0) != desk_can_come_to(which, desks[i], (enum desk_sight)sight);
            }
        }
    }
    printf("calls tried again with all that the desk does not see made anew: %" PRIu64
           "; frames refused at a desk that does not see the association: %" PRIu64 "\n", run->unseen, run->blind_trips);
    return faults + (run->unseen == 0) + (run->blind_trips == 0);
}

/* Every answer to a check reached the report of every desk, whether or not it had an alarm; 19 is no desk's. */
static unsigned print_notes(const struct run *run)
{
    unsigned faults = print_counts("log", LOG_SIGHTS, log_sight_names, run->log);
    for (unsigned desk = 0; desk < DESK_COUNT; desk++) {
        printf("reports of desk %u, without an alarm before and with one, by answer:", desk);
        for (unsigned answer = 0; answer < ANSWERS; answer++) {
            bool can_be = answer <= 8 || answer == 12;
            const uint64_t *counts = run->reports[desk][answer];
            if (can_be) {
                printf(" %u: %" PRIu64 " %" PRIu64, answer, counts[0], counts[1]);
            }
            faults += (counts[0] != 0) != can_be;
            faults += (counts[1] != 0) != can_be;
        }
        putchar('\n');
    }
    return faults;
}

static unsigned print_commands(const struct run *run)
{
    static const unsigned answers[] = {0, 1, 2, 19, 13, 14, 15, 16, 17, 18, 6};
    unsigned faults = 0;
    printf("%-14s", "command");
    for (size_t i = 0; i < sizeof answers / sizeof answers[0]; i++) {
        printf(" %8u", answers[i]);
    }
    putchar('\n');
    for (size_t tag = 0; tag <= TAG_COUNT; tag++) {
        printf("%-14s", tag == TAG_COUNT ? "no such tag" : tag_names[tag]);
        for (size_t i = 0; i < sizeof answers / sizeof answers[0]; i++) {
            printf(" %8" PRIu64, run->commands[tag][answers[i]]);
        }
        putchar('\n');
        for (unsigned answer = 0; answer < ANSWERS; answer++) {
            faults += (run->commands[tag][answer] != 0) != command_can_give(tag, answer);
        }
    }
    return faults;
}

/* What commands asked for, at limits. An operational body has no window outside 1 to 1,024. */
static unsigned print_asked(const struct run *run)
{
    unsigned faults = print_starts(run) + print_keys(run);
    faults += print_limits("windows of bodies that were to start, by state 0, 1", 2, run->windows_held, window_limits);
    faults += print_limits("windows asked for, by state 0, 1, 2", 3, run->windows_asked, window_limits);
    faults += print_limits("steps asked for, and close to the last number", 2, run->steps, step_limits);
    printf("numbers set, by their stores, 0 to %d:", MOST_STORES);
    for (unsigned stores = 0; stores <= MOST_STORES; stores++) {
        printf(" %" PRIu64, run->raises_set[stores]);
        faults += run->raises_set[stores] == 0;
    }
    putchar('\n');
    return faults;
}

static bool is_empty(const uint64_t answers[ANSWERS])
{
    uint64_t sum = 0;
    for (unsigned answer = 0; answer < ANSWERS; answer++) {
        sum += answers[answer];
    }
    return sum == 0;
}

static void print_row(const char *call, const char *kind, const char *service, const uint64_t answers[ANSWERS])
{
    if (is_empty(answers)) {
        return;
    }
    printf("%-6s %4s %7s", call, kind, service);
    for (unsigned answer = 0; answer < ANSWERS; answer++) {
        printf(" %8" PRIu64, answers[answer]);
    }
    putchar('\n');
}

static bool can_be_reached(unsigned which, unsigned kind, unsigned answer)
{
    bool may_end_in_field = kind != 4;
    switch (which) {
    case CALL_LOAD:
        return answer <= 2;
    case CALL_SECURE:
        return answer <= 4 || answer == 6 || answer == 10 || answer == 11 || (answer == 12 && may_end_in_field) || answer == 19;
    default:
        return answer <= 8 || (answer == 12 && may_end_in_field) || answer == 19;
    }
}

/* The answers that a row lacks or must not have. */
static unsigned faults_of_row(unsigned which, unsigned kind, const uint64_t answers[ANSWERS])
{
    unsigned faults = 0;
    for (unsigned answer = 0; answer < ANSWERS; answer++) {
        faults += (answers[answer] != 0) != can_be_reached(which, kind, answer);
    }
    return faults;
}

/* Whether a length of a secondary header was never released. */
static unsigned print_secondary(const struct run *run, unsigned has_field)
{
    uint64_t fewest = UINT64_MAX;
    for (unsigned octets = 2; octets <= MOST_SECONDARY; octets++) {
        fewest = run->secondary[has_field][octets] < fewest ? run->secondary[has_field][octets] : fewest;
    }
    printf("checks done of frames with a secondary header and %s check field, for each of its lengths, 2 to %d: at least %" PRIu64 "\n",
           has_field ? "a" : "no", MOST_SECONDARY, fewest);
    return fewest == 0;
}

static unsigned print_tally(const struct run *run)
{
    static const char *const calls[] = {"load", "secure", "check"};
    static const char *const names[ROWS] = {"-", "1", "2", "3", "4", "set", "3+"};
    unsigned faults = 0;
    printf("%-6s %4s %7s", "call", "kind", "service");
    for (unsigned answer = 0; answer < ANSWERS; answer++) {
        printf(" %8u", answer);
    }
    putchar('\n');
    for (unsigned which = 0; which < 3; which++) {
        for (unsigned kind = 0; kind < ROWS; kind++) {
            for (unsigned service = 0; service < 3; service++) {
                bool is_whole = kind != 0 && service != 0 && (kind != STAMP_ROW || which != CALL_LOAD);
                print_row(calls[which], names[kind], names[service], run->tally[which][kind][service]);
                faults += is_whole ? faults_of_row(which, kind, run->tally[which][kind][service]) : 0;
            }
        }
    }
    printf("checks done, by their stores, 0 to %d:", MOST_STORES);
    for (unsigned stores = 0; stores <= MOST_STORES; stores++) {
        printf(" %" PRIu64, run->stores[stores]);
        faults += run->stores[stores] == 0;
    }
    putchar('\n');
    return faults;
}

int main(int argument_count, char **arguments)
{
    static struct run run;
    run.options = options_of(argument_count, arguments, 200000);
    both_prepare("differential");
    uint64_t world = run.options.from;
    while (run.inputs < run.options.count) {
        run_world(&run, world++);
    }
    unsigned faults = print_tally(&run) + print_commands(&run);
    unsigned never_asked = print_asked(&run) + print_desks(&run) + print_notes(&run);
    unsigned missing = print_secondary(&run, 0) + print_secondary(&run, 1) + (run.stamped_flips == 0);
    faults += run.options.count >= ENOUGH_FOR_EVERY_LENGTH ? missing : 0;
    printf("differential: seed %" PRIu64 ", %" PRIu64 " inputs in %" PRIu64 " worlds, of them %" PRIu64 " cuts, %" PRIu64 " cuts of commands and %" PRIu64
           " with every other association changed; %" PRIu64 " round trips, %" PRIu64 " frames changed in each bit, of them %" PRIu64
           " with a secondary header; no difference\n",
           run.options.seed, run.inputs, world - run.options.from, run.raises, run.command_cuts, run.isolations, run.round_trips, run.flips, run.stamped_flips);
    if (faults != 0 && run.options.count >= ENOUGH_FOR_EVERY_ANSWER) {
        printf("differential: %u of the counts above are 0 and should not be, or the other way round\n", faults);
        return 1;
    }
    if (never_asked != 0 && run.options.count >= ENOUGH_FOR_EVERY_LIMIT) {
        printf("differential: %u of the counts of what commands asked for are 0\n", never_asked);
        return 1;
    }
    return 0;
}
