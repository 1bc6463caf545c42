#include "worlds.h"

#include <string.h>

enum { GREATEST_MARK = (1 << 26) - 1 };

/* Small marks, marks around a power of two (where the code's changed bit lies high), the last ones, and any. */
static uint32_t any_mark(struct random *random)
{
    uint32_t mark;
    switch (random_below(random, 5)) {
    case 0:
        mark = random_below(random, 20);
        break;
    case 1:
        mark = (1u << random_below(random, 27)) + random_below(random, 4) - 2;
        break;
    case 2:
        mark = GREATEST_MARK - random_below(random, 20);
        break;
    case 3:
        mark = random_percent(random, 20) ? GREATEST_MARK : 255;
        break;
    default:
        mark = random_below(random, GREATEST_MARK);
        break;
    }
    return mark & GREATEST_MARK;
}

static void any_key_and_mask(struct random *random, struct association *association)
{
    random_octets(random, association->key, KEY_LENGTH);
    if (random_percent(random, 5)) {
        memset(association->key, RANDOM_OF(random, 0x00, 0xFF) & 0xFF, KEY_LENGTH);
    }
    random_octets(random, association->mask, MASK_LENGTH);
    if (random_percent(random, 40)) {
        memset(association->mask, RANDOM_OF(random, 0x00, 0xFF) & 0xFF, MASK_LENGTH);
    }
    if (association->kind == 1) {
        association->mask[MASK_LENGTH - 1] = 0;
    }
}

/* A window that the state allows: outside 1 to 1,024 only where the association is not operational. */
void any_window(struct random *random, struct association *association)
{
    association->window = random_percent(random, 70) ? RANDOM_OF(random, 1, 2, 63, 64, 65, 100, 1023, 1024, 1024)
                                                     : random_between(random, 1, 1024);
    if (association->state != 2 && random_percent(random, 50)) {
        association->window = random_percent(random, 80) ? RANDOM_OF(random, 0, 1025, 65535) : random_below(random, 65536);
    }
}

/* What one end alone decides. */
static void any_own_fields(struct random *random, struct association *association)
{
    association->state = random_percent(random, 90) ? 2 : random_below(random, 2);
    any_window(random, association);
    association->mark = any_mark(random);
    association->owner = random_between(random, 1, 2); /* laid out in version 4 alone */
}

uint8_t any_desk(struct random *random, const struct association *association)
{
    uint32_t chance = random_below(random, 100);
    if (chance < 45) {
        return KEY_OFFICE;
    }
    if (chance < 85) {
        return (uint8_t)association->owner;
    }
    if (chance < 96) {
        return (uint8_t)(3 - association->owner);
    }
    return (uint8_t)RANDOM_OF(random, 3, 3, 4, 128, 255);
}

unsigned any_channel(struct random *random, const struct association *association)
{
    unsigned channel = association->has_set ? random_below(random, 8) : association->channel;
    while (!serves_channel(association, channel)) {
        channel = (channel + 1) % 8;
    }
    return channel;
}

/* The channel octet of a body of this version; a TM body from version 2 on has a set: one channel, all, or any. */
static void any_channels(struct random *random, unsigned version, struct association *association)
{
    unsigned greatest = association->kind == 3 ? 7 : 63;
    association->has_set = version >= 2 && association->kind == 3;
    if (association->has_set) {
        association->channel = random_percent(random, 40) ? RANDOM_OF(random, 1, 2, 128, 129, 255) : random_between(random, 1, 255);
    } else {
        association->channel = random_percent(random, 40) ? greatest : random_below(random, greatest + 1);
    }
}

/* The same association at the other end, whose image may have another version: a TM body there serves a channel of this one's. */
static void meet_channels(struct random *random, unsigned version, struct association *association)
{
    if (association->kind != 3 || (association->has_set == (version >= 2) && random_percent(random, 75))) {
        return;
    }
    unsigned channel = any_channel(random, association);
    association->has_set = version >= 2;
    association->channel = association->has_set ? random_below(random, 256) | (1u << channel) : channel;
}

static void any_association(struct random *random, unsigned version, struct association *association)
{
    association->service = random_between(random, 1, 2);
    association->kind = random_between(random, 1, 4);
    association->direction = random_between(random, 1, 2);
    unsigned greatest_spacecraft = association->kind == 4 ? 255 : 1023;
    association->spacecraft = random_percent(random, 50) ? RANDOM_OF(random, 0, 1, 255, 256, 511, 512, 1022, 1023)
                                                         : random_below(random, 1024);
    association->spacecraft &= greatest_spacecraft;
    any_channels(random, version, association);
    association->names_key = has_key_part(version);
    association->key_id = 0;
    association->map = association->kind == 2 ? (random_percent(random, 40) ? 63 : random_below(random, 64)) : 0;
    any_key_and_mask(random, association);
    any_own_fields(random, association);
}

/* SPIs that rise from near 1, or end near 65,534, in small or great steps. */
static void any_spis(struct random *random, struct table *table)
{
    unsigned step = RANDOM_OF(random, 1, 2, 300, 2000);
    unsigned spi = 0;
    for (size_t i = 0; i < table->count; i++) {
        spi += random_between(random, 1, step);
        table->entries[i].spi = spi;
    }
    unsigned shift = random_percent(random, 50) ? 0 : 65534 - spi;
    for (size_t i = 0; i < table->count; i++) {
        table->entries[i].spi += shift;
    }
}

void set_table(struct end *end, const struct table *table)
{
    end->image_length = write_image(table, end->image);
}

void table_of(const struct end *end, struct table *table)
{
    if (!read_image(end->image, end->image_length, table)) {
        both_fail("an end of the test holds an image that breaks a rule");
    }
}

static void any_numbers(struct random *random, struct end *end, const struct table *table)
{
    for (size_t i = 0; i < NUMBER_COUNT; i++) {
        end->numbers[i] = (uint32_t)random_any(random);
        if (i < table->count) {
            uint32_t within = random_percent(random, 60) ? RANDOM_OF(random, 0, 1, 62, 63, 63, 63) : random_below(random, 64);
            end->numbers[i] = 64 * table->entries[i].mark + within;
        }
    }
}

/* ---- keys in one place ---- */

/* What both ends know of keys: octets, of which the first are the associations' own. */
struct pool {
    size_t count;
    uint8_t octets[MOST_KEYS][KEY_LENGTH];
};

/* The keys of the associations, and others up to a count that is often 1, 64 or just enough; some have the octets of another. */
static void make_pool(struct random *random, const struct table *table, struct pool *pool)
{
    size_t least = table->count;
    size_t count = random_percent(random, 60) ? RANDOM_OF(random, 0, 1, (uint32_t)least, (uint32_t)least + 1, MOST_KEYS, MOST_KEYS)
                                              : random_below(random, MOST_KEYS + 1);
    pool->count = count < least ? least : count;
    for (size_t i = 0; i < pool->count; i++) {
        random_octets(random, pool->octets[i], KEY_LENGTH);
        if (i < least) {
            memcpy(pool->octets[i], table->entries[i].key, KEY_LENGTH);
        } else if (i > 0 && random_percent(random, 5)) {
            memcpy(pool->octets[i], pool->octets[random_below(random, (uint32_t)i)], KEY_LENGTH);
        }
    }
}

/* IDs that rise from near 0, or end near 65,535, in small or great steps. */
static void any_key_ids(struct random *random, struct table *table)
{
    unsigned step = RANDOM_OF(random, 1, 2, 300, 1000);
    unsigned id = random_percent(random, 60) ? 0 : random_below(random, 300);
    for (size_t i = 0; i < table->key_count; i++) {
        id += i == 0 ? 0 : random_between(random, 1, step);
        table->keys[i].id = id;
    }
    unsigned shift = random_percent(random, 50) ? 0 : 65535 - id;
    for (size_t i = 0; i < table->key_count; i++) {
        table->keys[i].id += shift;
    }
}

static size_t find_octets(const struct table *table, const uint8_t octets[KEY_LENGTH])
{
    size_t i = 0;
    while (i < table->key_count && memcmp(table->keys[i].octets, octets, KEY_LENGTH) != 0) {
        i++;
    }
    return i;
}

/* Names a key that a body which is not operational may name: any, or one that is not there. */
static void name_any_key(struct random *random, const struct table *table, struct association *association)
{
    if (table->key_count != 0 && random_percent(random, 60)) {
        association->key_id = table->keys[random_below(random, (uint32_t)table->key_count)].id;
    } else {
        association->key_id = random_percent(random, 60) ? RANDOM_OF(random, 0, 1, 65534, 65535) : random_below(random, 65536);
    }
}

/* The key part of an end of version 3 or 4: the pool in an order, with IDs and states of the end's own. Each association names the key that has its
 * octets, which is active if the association is operational; one that is not may name another. */
static void lay_out_keys(struct random *random, struct table *table, const struct pool *pool)
{
    size_t shift = pool->count == 0 ? 0 : random_below(random, (uint32_t)pool->count);
    table->key_count = has_key_part(table->version) ? pool->count : 0;
    for (size_t i = 0; i < table->key_count; i++) {
        memcpy(table->keys[i].octets, pool->octets[(i + shift) % pool->count], KEY_LENGTH);
        table->keys[i].state = random_percent(random, 50) ? ACTIVE : random_below(random, 3);
    }
    any_key_ids(random, table);
    for (size_t i = 0; i < table->count; i++) {
        struct association *entry = &table->entries[i];
        entry->names_key = has_key_part(table->version);
        if (!entry->names_key) {
            continue;
        }
        struct key *named = &table->keys[find_octets(table, entry->key)];
        entry->key_id = named->id;
        if (entry->state == 2) {
            named->state = ACTIVE;
        } else if (random_percent(random, 30)) {
            name_any_key(random, table, entry);
        }
    }
}

/* Some associations take the key of another. */
static void share_keys(struct random *random, struct table *table)
{
    unsigned chance = RANDOM_OF(random, 0, 50, 100);
    for (size_t i = 1; i < table->count; i++) {
        if (random_percent(random, chance)) {
            memcpy(table->entries[i].key, table->entries[random_below(random, (uint32_t)i)].key, KEY_LENGTH);
        }
    }
}

bool bring_to_service(struct random *random, struct table *table, size_t entry, const uint8_t key[KEY_LENGTH])
{
    struct association *association = &table->entries[entry];
    if (association->names_key) {
        size_t named = find_octets(table, key);
        if (named == table->key_count) {
            return false;
        }
        table->keys[named].state = ACTIVE;
        association->key_id = table->keys[named].id;
    }
    memcpy(association->key, key, KEY_LENGTH);
    if (association->state != 2) {
        association->state = 2;
        any_window(random, association);
    }
    return true;
}

bool make_iv_alike(const struct association *one, const struct association *other)
{
    return one->service == 1 || one->names_key == other->names_key;
}

/* ---- worlds ---- */

void make_world(struct random *random, struct world *world, size_t count)
{
    struct table table;
    struct pool pool;
    unsigned versions[2];
    versions[0] = random_percent(random, 70) ? random_between(random, 3, 4) : random_between(random, 1, 2);
    versions[1] = random_percent(random, 75) ? versions[0] : random_between(random, 1, 4);
    table.version = versions[0];
    table.count = count;
    for (size_t i = 0; i < count; i++) {
        any_association(random, table.version, &table.entries[i]);
    }
    any_spis(random, &table);
    if (has_key_part(versions[0]) && has_key_part(versions[1])) {
        share_keys(random, &table);
    }
    make_pool(random, &table, &pool);
    lay_out_keys(random, &table, &pool);
    set_table(&world->ends[0], &table);
    any_numbers(random, &world->ends[0], &table);
    table.version = versions[1];
    for (size_t i = 0; i < count; i++) {
        any_own_fields(random, &table.entries[i]);
        meet_channels(random, table.version, &table.entries[i]);
        table.entries[i].direction = 3 - table.entries[i].direction;
    }
    lay_out_keys(random, &table, &pool);
    set_table(&world->ends[1], &table);
    any_numbers(random, &world->ends[1], &table);
    any_record(random, &world->ends[0].record);
    any_record(random, &world->ends[1].record);
}

void any_record(struct random *random, struct record *record)
{
    struct notes *notes = &record->notes;
    uint32_t chance = random_below(random, 100);
    bool is_whole = random_percent(random, 70);
    record->events_length = is_whole ? 768 : RANDOM_OF(random, 0, 1, 2, 3, 5, 6, 767, 769, 770, 771, 800, random_below(random, LONGEST_LIST + 1));
    size_t room = room_for_events(record->events_length);
    random_octets(random, record->events, record->events_length);
    fresh_notes(notes);
    if (chance < 20) {
        notes->kept = (uint32_t)room - random_below(random, (uint32_t)(room < 12 ? room : 12) + 1);
    } else if (chance < 30) {
        notes->kept = RANDOM_OF(random, (uint32_t)room + 1, 255, 256, 257, 258, 512, 65536, UINT32_MAX);
    } else if (chance < 45) {
        notes->kept = (uint32_t)room + random_below(random, 2);
        notes->dropped = UINT32_MAX - random_below(random, 8);
    }
    if (random_percent(random, 25)) {
        random_octets(random, notes->reports[0], sizeof notes->reports);
    }
}

void set_number(struct end *end, size_t entry, uint32_t number)
{
    struct table table;
    table_of(end, &table);
    table.entries[entry].mark = number / 64;
    set_table(end, &table);
    end->numbers[entry] = number;
}

/* An association that is to be anew names a key that is there, an active one where it is operational; where none is, it is at rest. */
static void name_key_anew(struct random *random, const struct table *table, struct association *association)
{
    name_any_key(random, table, association);
    for (size_t i = 0; association->state == 2 && i <= table->key_count; i++) {
        size_t named = find_key(table, association->key_id);
        if (named < table->key_count && table->keys[named].state == ACTIVE) {
            return;
        }
        if (i < table->key_count) {
            association->key_id = table->keys[i].id;
        }
    }
    association->state = association->state == 2 ? 1 : association->state;
}

static void change_other_keys(struct random *random, struct table *table, unsigned kept_id)
{
    for (size_t i = 0; i < table->key_count; i++) {
        if (table->keys[i].id != kept_id) {
            random_octets(random, table->keys[i].octets, KEY_LENGTH);
        }
    }
}

static void change_one(struct random *random, struct input *input, struct table *table, size_t entry)
{
    any_association(random, table->version, &table->entries[entry]);
    if (has_key_part(table->version)) {
        name_key_anew(random, table, &table->entries[entry]);
    }
    input->numbers[entry] = 64 * table->entries[entry].mark + random_below(random, 64);
}

void change_others(struct random *random, struct input *input, size_t kept)
{
    struct table table;
    if (!read_image(input->image, input->image_length, &table)) {
        both_fail("a test changes bodies of an image that breaks a rule");
    }
    for (size_t i = 0; i < table.count; i++) {
        if (i != kept) {
            change_one(random, input, &table, i);
        }
    }
    if (input->which != CALL_COMMAND) {
        change_other_keys(random, &table, table.entries[kept].key_id);
    }
    write_image(&table, input->image);
}

void change_unseen(struct random *random, struct input *input)
{
    struct table table;
    if (!read_image(input->image, input->image_length, &table)) {
        both_fail("a test changes bodies of an image that breaks a rule");
    }
    for (size_t i = 0; i < table.count; i++) {
        unsigned owner = table.entries[i].owner;
        if (!is_seen(&table.entries[i], input->desk)) {
            change_one(random, input, &table, i);
            table.entries[i].owner = owner;
        }
    }
    write_image(&table, input->image);
}

static size_t make_tc_header(struct random *random, const struct association *association, uint8_t *frame)
{
    frame[0] = (uint8_t)((random_below(random, 2) << 5) | (association->spacecraft >> 8)); /* bypass is free */
    frame[1] = (uint8_t)association->spacecraft;
    frame[2] = (uint8_t)(association->channel << 2);
    frame[3] = 0;
    frame[4] = (uint8_t)random_below(random, 256);
    if (association->kind == 2) {
        frame[5] = (uint8_t)((random_below(random, 4) << 6) | association->map);
        return 6;
    }
    return 5;
}

/* Half of the frames have a secondary header, of any length, the shortest and the longest more often. */
static size_t make_tm_header(struct random *random, const struct association *association, bool has_ocf, uint8_t *frame)
{
    random_octets(random, frame, 6 + 64);
    frame[0] = (uint8_t)(association->spacecraft >> 4);
    frame[1] = (uint8_t)((association->spacecraft << 4) | (any_channel(random, association) << 1) | (has_ocf ? 1u : 0u));
    if (random_percent(random, 50)) {
        frame[4] &= 0x7F;
        return 6;
    }
    frame[4] |= 0x80;
    frame[6] = (uint8_t)(random_percent(random, 30) ? RANDOM_OF(random, 1, 63) : random_between(random, 1, 63));
    return 6 + frame[6] + 1u;
}

static size_t make_aos_header(struct random *random, const struct association *association, uint8_t *frame)
{
    random_octets(random, frame, 6); /* frame count and signalling are free */
    frame[0] = (uint8_t)(0x40 | (association->spacecraft >> 2));
    frame[1] = (uint8_t)((association->spacecraft << 6) | association->channel);
    return 6;
}

static size_t make_header(struct random *random, const struct association *association, bool has_ocf, uint8_t *frame)
{
    switch (association->kind) {
    case 3:
        return make_tm_header(random, association, has_ocf, frame);
    case 4:
        return make_aos_header(random, association, frame);
    default:
        return make_tc_header(random, association, frame);
    }
}

size_t make_clear_frame(struct random *random, const struct association *association, bool has_field, size_t data_length, uint8_t *frame)
{
    bool has_ocf = association->kind == 3 && random_percent(random, 50);
    size_t header = make_header(random, association, has_ocf, frame);
    if (data_length > 256 && header > 6) {
        data_length -= header - 6; /* a long frame stays as long as it would be without a secondary header */
    }
    size_t length = header + data_length + (has_ocf ? 4 : 0) + (has_field ? CHECK_FIELD_LENGTH : 0);
    random_octets(random, frame + header, length - header);
    if (has_length_field(association->kind)) {
        write_tc_length(frame, length);
    }
    if (has_field) {
        write_check_field(frame, length);
    }
    return length;
}

size_t any_data_length(struct random *random, const struct association *association)
{
    uint32_t largest = has_length_field(association->kind) ? 1024 : 2048;
    uint32_t added = association->service == 1 ? 22 : 30;
    uint32_t chance = random_below(random, 100);
    if (chance < 50) {
        return random_between(random, 1, 40);
    }
    if (chance < 75) {
        return 16 * random_between(random, 1, 12) + random_below(random, 3) - 1;
    }
    if (chance < 90) {
        return largest - added - 6 - 4 - 4 + random_below(random, 13); /* around the largest that can be secured */
    }
    if (chance < 94) {
        return largest - 12 + random_below(random, 9); /* around the largest clear frame */
    }
    return random_between(random, 1, largest - added - 10);
}

void input_of_end(struct input *input, enum which_call which, const struct end *end)
{
    input->which = which;
    input->image_length = end->image_length;
    memcpy(input->image, end->image, end->image_length);
    input->numbers_length = NUMBER_COUNT;
    memcpy(input->numbers, end->numbers, sizeof end->numbers);
    input->desk = KEY_OFFICE;
    input->kind = 0;
    input->check_field = 0;
    input->spi = 0;
    input->frame_length = 0;
    input->output_length = 0;
    input->record = end->record;
}

void end_of_input(struct end *end, const struct input *input)
{
    memcpy(end->image, input->image, end->image_length);
    memcpy(end->numbers, input->numbers, sizeof end->numbers);
    notes_of_input(end, input);
}

void notes_of_input(struct end *end, const struct input *input)
{
    end->record = input->record;
}
