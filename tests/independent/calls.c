/* Document 01: 'Frames' (from 'A secured frame is'), 'Managed numbers' and 'What comes back'; document 02, request 4: answer 12, request 9:
 * the IV of version 3, request 10: desks, and answer 19, and request 11: what a check tells the notes. */
#include "ciphers.h"
#include "reading.h"

#include <string.h>

enum { SPI_LENGTH = 2, NUMBER_LENGTH = 4 };

static const uint64_t GREATEST_NUMBER = 4294967295u;

/* ---- the parts of a secured frame ---- */

/* 'service 1: a 4-octet sequence number, 6 octets in all; service 2: a 12-octet IV, 14 in all' */
size_t security_header_length(unsigned service)
{
    return SPI_LENGTH + (service == 1 ? NUMBER_LENGTH : SEQUENCE_LENGTH);
}

void sequence_of_number(uint64_t number, uint8_t sequence[SEQUENCE_LENGTH])
{
    memset(sequence, 0, SEQUENCE_LENGTH);
    for (size_t i = 0; i < 8; i++) {
        sequence[SEQUENCE_LENGTH - 1 - i] = (uint8_t)(number >> (8 * i));
    }
}

/* 'a version 3 IV is the SPI in four octets, four zero octets and the number': the octets in front of the number's four. */
static void prefix_of_iv(const struct association *association, uint8_t prefix[SEQUENCE_LENGTH - NUMBER_LENGTH])
{
    memset(prefix, 0, SEQUENCE_LENGTH - NUMBER_LENGTH);
    if (association->names_key) {
        prefix[2] = (uint8_t)(association->spi / 256);
        prefix[3] = (uint8_t)(association->spi % 256);
    }
}

/* A number of more than 32 bits, which no end sends, runs into the prefix. */
void iv_of_number(const struct association *association, uint64_t number, uint8_t sequence[SEQUENCE_LENGTH])
{
    uint8_t prefix[SEQUENCE_LENGTH - NUMBER_LENGTH];
    sequence_of_number(number, sequence);
    if (association->service == 2) {
        prefix_of_iv(association, prefix);
        for (size_t i = 0; i < sizeof prefix; i++) {
            sequence[i] |= prefix[i];
        }
    }
}

/* 'The MAC covers the header (each octet ANDed with the mask), the security header and the data': what stands before the data. A secondary
 * header 'is covered by the MAC with an all-ones mask'. */
static size_t covered_head(const struct association *association, const struct header *header, const uint8_t *secured, uint8_t *head)
{
    size_t security_header = security_header_length(association->service);
    for (size_t i = 0; i < header->length; i++) {
        head[i] = secured[i] & (i < MASK_LENGTH ? association->mask[i] : 0xFF);
    }
    memcpy(head + header->length, secured + header->length, security_header);
    return header->length + security_header;
}

/* Service 1: 'CMAC over these'. */
static void authentication_mac(const struct association *association, const uint8_t *head, size_t head_length, const uint8_t *data,
                               size_t data_length, uint8_t mac[MAC_LENGTH])
{
    uint8_t covered[LARGEST_FRAME];
    memcpy(covered, head, head_length);
    memcpy(covered + head_length, data, data_length);
    cmac(association->key, covered, head_length + data_length, mac);
}

/* 'header, security header, data, 16-octet MAC, and the OCF if any'; a check field 'after the OCF', 'made last when sending' */
size_t protect_frame(const struct association *association, const struct header *header, const uint8_t sequence[SEQUENCE_LENGTH],
                     const uint8_t *clear, size_t clear_length, uint8_t *secured)
{
    size_t security_header = security_header_length(association->service);
    size_t number_length = security_header - SPI_LENGTH;
    size_t data_length = clear_length - header->length - header->trailer;
    size_t secured_length = clear_length + security_header + MAC_LENGTH;
    const uint8_t *data = clear + header->length;
    uint8_t *place = secured;
    uint8_t head[LARGEST_FRAME];

    memcpy(place, clear, header->length);
    if (has_length_field(association->kind)) {
        write_tc_length(secured, secured_length); /* 'for the longer frame before the MAC' */
    }
    place += header->length;
    *place++ = (uint8_t)(association->spi >> 8);
    *place++ = (uint8_t)association->spi;
    memcpy(place, sequence + SEQUENCE_LENGTH - number_length, number_length);
    place += number_length;

    size_t head_length = covered_head(association, header, secured, head);
    uint8_t *mac = place + data_length;
    if (association->service == 1) {
        memcpy(place, data, data_length);
        authentication_mac(association, head, head_length, data, data_length, mac);
    } else {
        gcm_seal(association->key, sequence, head, head_length, data, data_length, place, mac);
    }
    memcpy(mac + MAC_LENGTH, data + data_length, header->trailer); /* 'and the OCF are copied' */
    if (header->has_field) {
        write_check_field(secured, secured_length);
    }
    return secured_length;
}

/* ---- what both directions ask first ---- */

/* 'for some entry, last/64 rounded down is not its mark'. Numbers that are not 32 agree with no image. */
bool numbers_agree(const struct call *call, const struct table *table)
{
    if (call->numbers_length != NUMBER_COUNT) {
        return false;
    }
    for (size_t i = 0; i < table->count; i++) {
        if (call->numbers[i] / 64 != table->entries[i].mark) {
            return false;
        }
    }
    return true;
}

/* 'no entry has that SPI, is operational, and matches direction, kind, spacecraft, channel and (kind 2) MAP'; to a desk 'another's SPI gives 4 ..
 * as an unknown one does' */
static bool matches(const struct association *association, unsigned desk, unsigned spi, unsigned direction, unsigned kind,
                    const struct header *header)
{
    return association->spi == spi
        && is_seen(association, desk)
        && association->state == 2
        && association->direction == direction
        && association->kind == kind
        && association->spacecraft == header->spacecraft
        && serves_channel(association, header->channel)
        && (kind != 2 || association->map == header->map);
}

static bool find(const struct table *table, const struct call *call, unsigned spi, unsigned direction, const struct header *header,
                 size_t *entry)
{
    for (size_t i = 0; i < table->count; i++) {
        if (matches(&table->entries[i], call->desk, spi, direction, call->kind, header)) {
            *entry = i;
            return true;
        }
    }
    return false;
}

/* ---- the mark ---- */

static uint8_t octet_of_code(uint32_t mark, size_t place)
{
    return (uint8_t)(code_of_mark(mark) >> (8 * (3 - place)));
}

/* 'Raising m by one changes one bit, so one octet': the one of the four, of the mark, in which the two codes differ. */
struct store store_of_raise(unsigned version, size_t count, size_t entry, uint32_t mark)
{
    size_t place = 0;
    while (octet_of_code(mark, place) == octet_of_code(mark + 1, place)) {
        place++;
    }
    struct store store = {mark_position(version, count, entry) + place, octet_of_code(mark + 1, place)};
    return store;
}

/* 'the mark is raised one at a time from its old value to n/64 rounded down, one octet stored per raise'; 'Then last becomes n' */
void take_number(struct effect *effect, const struct table *table, size_t entry, uint32_t number)
{
    for (uint32_t mark = table->entries[entry].mark; mark < number / 64; mark++) {
        effect->stores[effect->store_count++] = store_of_raise(table->version, table->count, entry, mark);
    }
    effect->sets_number = true;
    effect->entry = entry;
    effect->number = number;
}

void carry_out_stores(const struct effect *effect, size_t j, uint8_t *image)
{
    for (size_t i = 0; i < j && i < effect->store_count; i++) {
        image[effect->stores[i].position] = effect->stores[i].octet;
    }
}

/* Whether version, count, length and, where there is one, the count of keys fit one another; no other rule is asked for, also not that there are
 * at most 64 keys. */
static bool has_shape(const uint8_t *image, size_t length)
{
    if (length < 2 || image[0] < 1 || image[0] > 4 || image[1] > MOST_ENTRIES) {
        return false;
    }
    size_t end = body_position(image[0], image[1], image[1]);
    if (!has_key_part(image[0])) {
        return length == end;
    }
    return length > end && length == key_position(image[0], image[1], image[end]);
}

uint32_t reading_raise(uint8_t *image, size_t length, unsigned entry, uint32_t number, uint32_t stores)
{
    if (!has_shape(image, length) || entry >= image[1]) {
        return 0;
    }
    size_t count = image[1];
    uint32_t code = 0;
    for (size_t i = 0; i < 4; i++) {
        code = code * 256 + image[mark_position(image[0], count, entry) + i];
    }
    uint32_t mark = mark_of_code(code);
    uint32_t made = 0;
    for (; made < stores && mark < number / 64; made++, mark++) {
        struct store store = store_of_raise(image[0], count, entry, mark);
        image[store.position] = store.octet;
    }
    return made;
}

/* ---- load: 1 ---- */

/* 'A refusal reports length 0 and 0 stores, leaves image, output and numbers alone' */
void nothing_happens(struct effect *effect)
{
    effect->answer = 0;
    effect->length = 0;
    effect->store_count = 0;
    effect->gives_numbers = false;
    effect->sets_number = false;
    effect->changes_notes = false;
    effect->enters_event = false;
}

/* 'gives 64m + 63 for each entry, 0 elsewhere' */
void reading_load(const struct call *call, struct effect *effect)
{
    struct table table;
    nothing_happens(effect);
    if (!read_image(call->image, call->image_length, &table)) {
        effect->answer = 1;
        return;
    }
    if (call->numbers_length != NUMBER_COUNT) {
        effect->answer = 2;
        return;
    }
    effect->gives_numbers = true;
    for (size_t i = 0; i < NUMBER_COUNT; i++) {
        effect->numbers[i] = i < table.count ? 64 * table.entries[i].mark + 63 : 0;
    }
}

/* ---- securing: 1, 2, 19, 3, 12, 4, 11, 6, 10 ---- */

/* What the tests find on their way. */
struct found {
    struct table table;
    struct header header;
    unsigned spi; /* of a secured frame */
    size_t entry;
};

static unsigned answer_of_securing(const struct call *call, struct found *found)
{
    if (!read_image(call->image, call->image_length, &found->table)) {
        return 1;
    }
    if (!numbers_agree(call, &found->table)) {
        return 2;
    }
    if (call->desk > GREATEST_DESK) { /* '19, desk number above 2 .. given after 2' */
        return 19;
    }
    if (!read_clear_frame(call->kind, call->has_field, call->frame, call->frame_length, &found->header)) {
        return 3;
    }
    if (call->has_field && !check_field_is_right(call->frame, call->frame_length)) {
        return 12;
    }
    if (!find(&found->table, call, call->spi, 1, &found->header, &found->entry)) {
        return 4;
    }
    size_t result = call->frame_length + security_header_length(found->table.entries[found->entry].service) + MAC_LENGTH;
    if (result > found->header.largest) {
        return 11;
    }
    if (call->output_length < result) {
        return 6;
    }
    if (call->numbers[found->entry] == GREATEST_NUMBER) {
        return 10;
    }
    return 0;
}

/* 'Sending uses last + 1.' */
void reading_secure(const struct call *call, struct effect *effect)
{
    struct found found;
    nothing_happens(effect);
    effect->answer = answer_of_securing(call, &found);
    if (effect->answer != 0) {
        return;
    }
    uint32_t number = call->numbers[found.entry] + 1;
    uint8_t sequence[SEQUENCE_LENGTH];
    iv_of_number(&found.table.entries[found.entry], number, sequence);
    take_number(effect, &found.table, found.entry, number);
    effect->length = protect_frame(&found.table.entries[found.entry], &found.header, sequence, call->frame, call->frame_length,
                                   effect->result);
}

/* ---- checking: 1, 2, 19, 3, 12, 4, 5, 9, 6, 7, 8 ---- */

/* Where the parts of a secured frame lie, once an association is found. */
struct parts {
    const uint8_t *number;
    size_t number_length;
    const uint8_t *data;
    size_t data_length;
    const uint8_t *mac;
};

static struct parts parts_of(const struct call *call, const struct association *association, const struct header *header)
{
    struct parts parts;
    size_t security_header = security_header_length(association->service);
    parts.number = call->frame + header->length + SPI_LENGTH;
    parts.number_length = security_header - SPI_LENGTH;
    parts.data = call->frame + header->length + security_header;
    parts.data_length = call->frame_length - header->length - security_header - MAC_LENGTH - header->trailer;
    parts.mac = parts.data + parts.data_length;
    return parts;
}

/* Leaves the clear data in the result, which counts only where the MAC is right. */
static bool mac_is_right(const struct association *association, const struct header *header, const uint8_t *frame,
                         const struct parts *parts, uint8_t *result)
{
    uint8_t head[LARGEST_FRAME];
    size_t head_length = covered_head(association, header, frame, head);
    if (association->service == 2) {
        return gcm_open(association->key, parts->number, head, head_length, parts->data, parts->data_length, parts->mac, result);
    }
    uint8_t mac[MAC_LENGTH];
    authentication_mac(association, head, head_length, parts->data, parts->data_length, mac);
    memcpy(result, parts->data, parts->data_length);
    return memcmp(mac, parts->mac, MAC_LENGTH) == 0;
}

/* 'last < n, n at most last + window and n at most 4,294,967,295, over whole numbers with no wrap (an IV can hold more)'; of a version 3 IV,
 * 'any other prefix gives 8', and the number stands behind it. */
static bool number_is_accepted(const struct association *association, const struct parts *parts, uint32_t last, uint32_t *number)
{
    uint8_t prefix[SEQUENCE_LENGTH - NUMBER_LENGTH];
    bool has_prefix = association->service == 2 && association->names_key;
    prefix_of_iv(association, prefix);
    if (has_prefix && memcmp(parts->number, prefix, sizeof prefix) != 0) {
        return false;
    }
    uint64_t n = 0;
    for (size_t i = has_prefix ? sizeof prefix : 0; i < parts->number_length; i++) {
        n = n * 256 + parts->number[i];
        if (n > GREATEST_NUMBER) {
            return false; /* more octets only make it greater */
        }
    }
    *number = (uint32_t)n;
    return last < n && n <= (uint64_t)last + association->window;
}

static unsigned answer_of_checking(const struct call *call, struct found *found, uint8_t *result, size_t *length, uint32_t *number)
{
    if (!read_image(call->image, call->image_length, &found->table)) {
        return 1;
    }
    if (!numbers_agree(call, &found->table)) {
        return 2;
    }
    if (call->desk > GREATEST_DESK) {
        return 19;
    }
    if (!read_secured_frame(call->kind, call->has_field, call->frame, call->frame_length, &found->header)) {
        return 3;
    }
    if (call->has_field && !check_field_is_right(call->frame, call->frame_length)) {
        return 12;
    }
    found->spi = call->frame[found->header.length] * 256u + call->frame[found->header.length + 1];
    if (!find(&found->table, call, found->spi, 2, &found->header, &found->entry)) {
        return 4;
    }
    const struct association *association = &found->table.entries[found->entry];
    size_t least = found->header.length + security_header_length(association->service) + 1 + MAC_LENGTH + found->header.trailer;
    if (call->frame_length < least) {
        return 5;
    }
    /* 9: no security header here states any fill octets. */
    struct parts parts = parts_of(call, association, &found->header);
    if (call->output_length < parts.data_length) {
        return 6;
    }
    if (!mac_is_right(association, &found->header, call->frame, &parts, result)) {
        return 7;
    }
    if (!number_is_accepted(association, &parts, call->numbers[found->entry], number)) {
        return 8;
    }
    *length = parts.data_length;
    return 0;
}

/* 'the entry's number afterwards', which no refusal changes; answers before 5 match no entry. */
static uint32_t number_afterwards(const struct call *call, const struct found *found, const struct effect *effect)
{
    switch (effect->answer) {
    case 0: return effect->number;
    case 5: case 6: case 7: case 8: return call->numbers[found->entry];
    default: return 0;
    }
}

/* 'checking in the clear data alone' */
void reading_check(const struct call *call, struct effect *effect)
{
    struct found found;
    size_t length = 0;
    uint32_t number = 0;
    found.spi = 0;
    nothing_happens(effect);
    effect->answer = answer_of_checking(call, &found, effect->result, &length, &number);
    if (effect->answer == 0) {
        take_number(effect, &found.table, found.entry, number);
        effect->length = length;
    }
    notes_after_check(call, found.spi, number_afterwards(call, &found, effect), effect);
}
