#include "commands.h"

#include <string.h>

enum { FORM = 3, SPI = 2, ID = 2, NAME = 4, MOST_NAMES = 900 };

const unsigned every_tag[TAG_COUNT] = {TAG_START, TAG_STOP, TAG_REKEY, TAG_EXPIRE, TAG_SET_NUMBER, TAG_SET_WINDOW, TAG_STATUS, TAG_READ_NUMBER,
                                       TAG_PING, TAG_ACTIVATION, TAG_DEACTIVATION, TAG_INVENTORY, TAG_DUMP, TAG_ERASE, TAG_ALARM_RESET};
const char *const tag_names[TAG_COUNT] = {"start", "stop", "rekey", "expire", "set number", "set window", "status", "read number", "ping",
                                          "activation", "deactivation", "inventory", "dump", "erase", "alarm reset"};

size_t index_of_tag(unsigned tag)
{
    size_t i = 0;
    while (i < TAG_COUNT && every_tag[i] != tag) {
        i++;
    }
    return i;
}

size_t reply_length(unsigned tag)
{
    switch (tag) {
    case TAG_STATUS: return FORM + SPI + 1;
    case TAG_READ_NUMBER: return FORM + SPI + SEQUENCE_LENGTH;
    case TAG_PING: return FORM;
    case TAG_ERASE: return FORM + 4;
    default: return 0;
    }
}

bool has_reply(unsigned tag)
{
    return reply_length(tag) != 0 || tag == TAG_INVENTORY || tag == TAG_DUMP;
}

bool names_spi(unsigned tag)
{
    return tag != TAG_PING && !is_about_keys(tag) && !is_about_notes(tag);
}

bool is_about_keys(unsigned tag)
{
    return tag == TAG_ACTIVATION || tag == TAG_DEACTIVATION || tag == TAG_INVENTORY;
}

bool is_about_notes(unsigned tag)
{
    return tag == TAG_DUMP || tag == TAG_ERASE || tag == TAG_ALARM_RESET;
}

bool is_office_only(unsigned tag)
{
    return is_about_keys(tag) || tag == TAG_DUMP || tag == TAG_ERASE;
}

static uint8_t *put(uint8_t *to, uint64_t value, size_t octets)
{
    for (size_t i = octets; i > 0; i--, value /= 256) {
        to[i - 1] = (uint8_t)(value % 256);
    }
    return to + octets;
}

/* Whether an operational association names a key. */
static bool is_in_use(const struct table *table, unsigned id)
{
    bool is = false;
    for (size_t i = 0; i < table->count; i++) {
        is = is || (table->entries[i].state == 2 && table->entries[i].key_id == id);
    }
    return is;
}

/* The key that a command is about, in a state of which most allow the command; one that an operational association names stays active. */
static unsigned suit_key(struct random *random, struct table *table, const struct association *association, unsigned tag)
{
    size_t named = find_key(table, association->key_id);
    unsigned stray = random_below(random, 65536);
    if (tag == TAG_START && random_percent(random, 20) && find_key(table, stray) == table->key_count) {
        return stray;
    }
    if (table->key_count == 0) {
        return association->key_id;
    }
    if (tag != TAG_START || random_percent(random, 40)) {
        named = random_below(random, (uint32_t)table->key_count);
    }
    for (unsigned tries = 0; tag == TAG_DEACTIVATION && tries < 8 && is_in_use(table, table->keys[named].id); tries++) {
        named = random_below(random, (uint32_t)table->key_count);
    }
    if (named == table->key_count) {
        return association->key_id;
    }
    struct key *key = &table->keys[named];
    if (!is_in_use(table, key->id)) {
        unsigned asked = tag == TAG_ACTIVATION ? PRE_ACTIVE : ACTIVE;
        key->state = random_percent(random, 60) ? asked : random_below(random, 3);
    }
    return key->id;
}

void suit_command(struct random *random, struct end *end, size_t entry, unsigned tag, struct association *association)
{
    struct table table;
    unsigned key_id;
    table_of(end, &table);
    struct association *suited = &table.entries[entry];
    if (random_percent(random, 80) && names_spi(tag)) {
        unsigned asked = tag == TAG_STOP ? 2 : tag == TAG_REKEY ? 0 : 1;
        unsigned state = random_percent(random, 60) ? asked : random_below(random, 3);
        size_t named = find_key(&table, suited->key_id);
        bool may_serve = !suited->names_key || (named < table.key_count && table.keys[named].state == ACTIVE);
        suited->state = state == 2 && !may_serve ? 1 : state;
        any_window(random, suited);
    }
    key_id = suit_key(random, &table, suited, tag);
    if (tag == TAG_START && suited->state != 2) {
        suited->key_id = key_id;
    }
    set_table(end, &table);
    if (random_percent(random, 8)) {
        set_number(end, entry, UINT32_MAX - RANDOM_OF(random, 0, 1, 1023, 1024, 1025, random_below(random, 1100)));
    }
    if (tag == TAG_SET_NUMBER && random_percent(random, 30)) { /* the raises change two octets of the code */
        set_number(end, entry, 64 * 256 * random_between(random, 1, 1000) - random_between(random, 1, 1024));
    }
    table_of(end, &table);
    *association = table.entries[entry];
    association->key_id = key_id;
}

/* ---- commands of the right form ---- */

void put_command(struct input *input, unsigned tag, const uint8_t *value, size_t length)
{
    put(put(input->frame, tag, 1), length, 2);
    if (length != 0) {
        memcpy(input->frame + FORM, value, length);
    }
    input->frame_length = FORM + length;
}

void put_spi_alone(struct input *input, unsigned tag, unsigned spi)
{
    uint8_t value[SPI];
    put(value, spi, SPI);
    put_command(input, tag, value, sizeof value);
}

void put_set_window(struct input *input, unsigned spi, unsigned window)
{
    uint8_t value[SPI + 2];
    put(put(value, spi, SPI), window, 2);
    put_command(input, TAG_SET_WINDOW, value, sizeof value);
}

void put_set_number(struct input *input, unsigned spi, uint64_t number)
{
    uint8_t value[SPI + SEQUENCE_LENGTH];
    put(put(value, spi, SPI), number, SEQUENCE_LENGTH);
    put_command(input, TAG_SET_NUMBER, value, sizeof value);
}

void put_inventory(struct input *input, unsigned first, unsigned last)
{
    uint8_t value[2 * ID];
    put(put(value, first, ID), last, ID);
    put_command(input, TAG_INVENTORY, value, sizeof value);
}

void put_rekey(struct input *input, unsigned spi, unsigned key_id)
{
    uint8_t value[SPI + ID + SEQUENCE_LENGTH];
    put(put(put(value, spi, SPI), key_id, ID), 0, SEQUENCE_LENGTH);
    put_command(input, TAG_REKEY, value, sizeof value);
}

void put_start(struct input *input, unsigned spi, uint32_t name)
{
    uint8_t value[SPI + NAME];
    put(put(value, spi, SPI), name, NAME);
    put_command(input, TAG_START, value, sizeof value);
}

/* ---- values on either side of every limit ---- */

static unsigned any_window_asked(struct random *random)
{
    return random_percent(random, 80) ? RANDOM_OF(random, 0, 1, 1, 2, 255, 256, 1023, 1024, 1024, 1025, 65535) : random_below(random, 65536);
}

/* Most are around the last number; some have more than 32 bits, and then 32 that would do. */
static uint64_t any_number_asked(struct random *random, uint32_t last)
{
    uint32_t chance = random_below(random, 100);
    uint64_t step = RANDOM_OF(random, 0, 1, 1, 2, 63, 64, 65, 1023, 1024, 1024, 1025, 1088);
    if (chance < 45) {
        return last + step;
    }
    if (chance < 75) {
        return (uint64_t)last + random_between(random, 1, 1024);
    }
    if (chance < 80) {
        return last - (step < last ? step : last);
    }
    if (chance < 85) {
        return RANDOM_OF(random, 0, 1, UINT32_MAX - 1, UINT32_MAX);
    }
    if (chance < 90) {
        return (uint64_t)UINT32_MAX + random_between(random, 1, 1024);
    }
    if (chance < 95) {
        return (uint64_t)last + 1 + ((uint64_t)RANDOM_OF(random, 1, 2, 0x80000000u) << 32);
    }
    return random_any(random) >> random_below(random, 64);
}

static void make_set_number(struct random *random, struct input *input, unsigned spi, uint32_t last)
{
    put_set_number(input, spi, any_number_asked(random, last));
    if (random_percent(random, 5)) { /* octets that no number of 64 bits reaches */
        input->frame[FORM + SPI + random_below(random, 4)] = (uint8_t)RANDOM_OF(random, 1, 128, 255);
    }
}

/* The ID of a key that a command is about, or one beside it. */
static unsigned near_id(struct random *random, unsigned id)
{
    if (random_percent(random, 85)) {
        return id;
    }
    return RANDOM_OF(random, 0, 1, 65534, 65535, id + 1, id - 1, id ^ 0x100, id ^ 0x8000, id >> 8 | id << 8) & 0xFFFF;
}

static void make_rekey(struct random *random, struct input *input, unsigned spi, const struct association *association)
{
    put_rekey(input, spi, association->names_key ? near_id(random, association->key_id) : 0);
    if (random_percent(random, 25)) {
        input->frame[FORM + SPI + random_below(random, ID + SEQUENCE_LENGTH)] = (uint8_t)RANDOM_OF(random, 1, 128, 255);
    }
}

/* A name that is near one of the association's: another channel, spacecraft, MAP or version, or its identifiers cut or laid out otherwise. */
static uint32_t near_name(struct random *random, const struct association *association)
{
    struct association other = *association;
    uint32_t own = name_of_channel(association, any_channel(random, association));
    switch (random_below(random, 9)) {
    case 0: return own ^ (1u << random_below(random, 32));
    case 1: return own ^ (1u << random_below(random, 8));
    case 2: return own ^ 0x4000;
    case 3: return own / 64;
    case 4: return own * 64;
    case 5: return own & 0xFFFF;
    case 6: return name_of_channel(association, random_below(random, association->kind == 3 ? 8 : 64));
    case 7: return 0;
    default:
        other.kind = random_between(random, 1, 4);
        return name_of_channel(&other, association->channel);
    }
}

/* All keys, a few, one, or none: also from an ID to one below it. */
static void make_inventory(struct random *random, struct input *input, unsigned id)
{
    unsigned other = random_percent(random, 50) ? RANDOM_OF(random, 0, 1, 65534, 65535) : random_below(random, 65536);
    switch (random_below(random, 5)) {
    case 0: put_inventory(input, 0, 65535); break;
    case 1: put_inventory(input, id, id); break;
    case 2: put_inventory(input, near_id(random, id), other); break;
    case 3: put_inventory(input, other, near_id(random, id)); break;
    default: put_inventory(input, 0, near_id(random, id)); break;
    }
}

static void make_start(struct random *random, struct input *input, unsigned spi, const struct association *association)
{
    static uint8_t value[SPI + NAME * MOST_NAMES];
    size_t many = random_percent(random, 90) ? random_between(random, 2, 9) : random_between(random, 10, MOST_NAMES);
    size_t count = random_percent(random, 60) ? 1 : many;
    size_t wrong = random_percent(random, 35) ? RANDOM_OF(random, 0, (uint32_t)count - 1, random_below(random, (uint32_t)count)) : count;
    uint8_t *to = put(value, spi, SPI);
    for (size_t i = 0; i < count; i++) {
        to = put(to, i == wrong ? near_name(random, association) : name_of_channel(association, any_channel(random, association)), NAME);
    }
    put_command(input, TAG_START, value, (size_t)(to - value));
}

void make_command(struct random *random, struct input *input, unsigned tag, const struct association *association, uint32_t last)
{
    unsigned spi = association->spi;
    if (random_percent(random, 6)) {
        spi = RANDOM_OF(random, 0, 1, 65534, 65535, (spi + 1) & 0xFFFF, spi ^ 0x100);
    }
    switch (tag) {
    case TAG_START:
        make_start(random, input, spi, association);
        break;
    case TAG_REKEY:
        make_rekey(random, input, spi, association);
        break;
    case TAG_SET_NUMBER:
        make_set_number(random, input, spi, last);
        break;
    case TAG_SET_WINDOW:
        put_set_window(input, spi, any_window_asked(random));
        break;
    case TAG_PING:
    case TAG_DUMP:
    case TAG_ERASE:
    case TAG_ALARM_RESET:
        put_command(input, tag, NULL, 0);
        break;
    case TAG_ACTIVATION:
    case TAG_DEACTIVATION:
        put_spi_alone(input, tag, near_id(random, association->key_id));
        break;
    case TAG_INVENTORY:
        make_inventory(random, input, association->key_id);
        break;
    default:
        put_spi_alone(input, tag, spi);
        break;
    }
}

/* ---- commands of a wrong form, or of another ---- */

static void change_length(struct random *random, struct input *input)
{
    size_t length = input->frame_length;
    switch (random_below(random, 4)) {
    case 0:
        length -= 1;
        break;
    case 1:
        length += RANDOM_OF(random, 1, 1, 2, 4);
        break;
    case 2:
        length = random_below(random, (uint32_t)length);
        break;
    default:
        length = random_below(random, 40);
        break;
    }
    if (length > input->frame_length) {
        random_octets(random, input->frame + input->frame_length, length - input->frame_length);
    }
    input->frame_length = length;
    if (length >= FORM && random_percent(random, 60)) {
        put(input->frame + 1, length - FORM, 2);
    }
}

void break_command(struct random *random, struct input *input)
{
    switch (random_below(random, 6)) {
    case 0:
    case 1:
        change_length(random, input);
        break;
    case 2: /* the length field alone */
        input->frame[1 + random_below(random, 2)] += (uint8_t)RANDOM_OF(random, 1, 255, 128);
        break;
    case 3: /* another tag, known or not */
        input->frame[0] = (uint8_t)(random_percent(random, 50) ? every_tag[random_below(random, TAG_COUNT)] : random_below(random, 256));
        break;
    case 4: /* a reply's tag, and neighbours */
        input->frame[0] ^= (uint8_t)(1u << random_below(random, 8));
        break;
    default:
        input->frame[random_below(random, (uint32_t)input->frame_length)] ^= (uint8_t)(1u << random_below(random, 8));
        break;
    }
}
