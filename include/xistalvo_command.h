/* Lays out management commands of the link security module, and reads the replies, in buffers of the caller's.
 *
 * Each function that lays out gives the octets of the command, tag and length counted, or 0 where the buffer is shorter, and then writes nothing.
 * What it lays out has the right form: no answer to it is 13. Whether the association and its values allow it is the module's to say. */
#ifndef XISTALVO_COMMAND_H
#define XISTALVO_COMMAND_H

#include "xistalvo.h"

#ifdef __cplusplus
extern "C" {
#endif

/* The most channels that one start can name: its length field has 2 octets. */
#define XISTALVO_MOST_CHANNELS 16383

/* The name of a channel in a start: the channels of a set have one each. MAP counts for TC with segment header alone. */
static inline uint32_t xistalvo_channel_name(uint8_t kind, uint16_t spacecraft, uint8_t channel, uint8_t map)
{
    switch (kind) {
    case XISTALVO_TC_SEGMENT: return ((uint32_t)spacecraft << 6 | channel) << 6 | map;
    case XISTALVO_TM: return (uint32_t)spacecraft << 3 | channel;
    case XISTALVO_AOS: return UINT32_C(1) << 14 | (uint32_t)spacecraft << 6 | channel;
    default: return (uint32_t)spacecraft << 6 | channel;
    }
}

/* Writes a number into so many octets, the most significant first. */
static inline void xistalvo_put_number(uint8_t *place, size_t octets, uint32_t number)
{
    while (octets != 0) {
        octets--;
        place[octets] = (uint8_t)(number & 0xFFu);
        number >>= 8;
    }
}

/* Tag and length, and for all that have a value its first field, an SPI or a key ID; the rest of the value is 0. */
static inline size_t xistalvo_begin_command(uint8_t tag, uint16_t first, uint8_t *command, size_t length, size_t room)
{
    size_t i;
    if (room < length) {
        return 0;
    }
    for (i = 0; i < length; i++) {
        command[i] = 0;
    }
    command[0] = tag;
    xistalvo_put_number(command + 1, 2, (uint32_t)(length - 3));
    if (length > 3) {
        xistalvo_put_number(command + 3, 2, first);
    }
    return length;
}

/* Stop, expire, status or read number: XISTALVO_SPI_ALONE_LENGTH octets. */
static inline size_t xistalvo_make_spi_alone(uint8_t tag, uint16_t spi, uint8_t *command, size_t room)
{
    return xistalvo_begin_command(tag, spi, command, XISTALVO_SPI_ALONE_LENGTH, room);
}

/* Start, naming these channels: XISTALVO_START_LENGTH(count) octets. A start that names none, or too many, has no form: 0. */
static inline size_t xistalvo_make_start(uint16_t spi, const uint32_t *names, size_t count, uint8_t *command, size_t room)
{
    size_t length, i;
    if (count == 0 || count > XISTALVO_MOST_CHANNELS) {
        return 0;
    }
    length = xistalvo_begin_command(XISTALVO_TAG_START, spi, command, XISTALVO_START_LENGTH(count), room);
    for (i = 0; length != 0 && i < count; i++) {
        xistalvo_put_number(command + XISTALVO_START_LENGTH(i), 4, names[i]);
    }
    return length;
}

/* Rekey, with number 0: XISTALVO_REKEY_LENGTH octets. For an image of version 3 or 4, with the ID of the key that is to be used. */
static inline size_t xistalvo_make_rekey_to(uint16_t spi, uint16_t key_id, uint8_t *command, size_t room)
{
    size_t length = xistalvo_begin_command(XISTALVO_TAG_REKEY, spi, command, XISTALVO_REKEY_LENGTH, room);
    if (length != 0) {
        xistalvo_put_number(command + 5, 2, key_id);
    }
    return length;
}

/* The same for an image of version 1 or 2, with key ID 0. */
static inline size_t xistalvo_make_rekey(uint16_t spi, uint8_t *command, size_t room)
{
    return xistalvo_make_rekey_to(spi, 0, command, room);
}

/* Activation or deactivation: XISTALVO_KEY_ALONE_LENGTH octets. For the key office's desk, 0, alone, and so is inventory. */
static inline size_t xistalvo_make_key_alone(uint8_t tag, uint16_t key_id, uint8_t *command, size_t room)
{
    return xistalvo_begin_command(tag, key_id, command, XISTALVO_KEY_ALONE_LENGTH, room);
}

/* Inventory of the keys from one ID to another, both included; 0 and 65,535 for all: XISTALVO_INVENTORY_LENGTH octets. */
static inline size_t xistalvo_make_inventory(uint16_t first, uint16_t last, uint8_t *command, size_t room)
{
    size_t length = xistalvo_begin_command(XISTALVO_TAG_INVENTORY, first, command, XISTALVO_INVENTORY_LENGTH, room);
    if (length != 0) {
        xistalvo_put_number(command + 5, 2, last);
    }
    return length;
}

/* Set number: XISTALVO_SET_NUMBER_LENGTH octets. */
static inline size_t xistalvo_make_set_number(uint16_t spi, uint32_t number, uint8_t *command, size_t room)
{
    size_t length = xistalvo_begin_command(XISTALVO_TAG_SET_NUMBER, spi, command, XISTALVO_SET_NUMBER_LENGTH, room);
    if (length != 0) {
        xistalvo_put_number(command + 5, 12, number);
    }
    return length;
}

/* Set window: XISTALVO_SET_WINDOW_LENGTH octets. */
static inline size_t xistalvo_make_set_window(uint16_t spi, uint16_t window, uint8_t *command, size_t room)
{
    size_t length = xistalvo_begin_command(XISTALVO_TAG_SET_WINDOW, spi, command, XISTALVO_SET_WINDOW_LENGTH, room);
    if (length != 0) {
        xistalvo_put_number(command + 5, 2, window);
    }
    return length;
}

/* Ping: XISTALVO_PING_LENGTH octets. */
static inline size_t xistalvo_make_ping(uint8_t *command, size_t room)
{
    return xistalvo_begin_command(XISTALVO_TAG_PING, 0, command, XISTALVO_PING_LENGTH, room);
}

/* Dump, erase or alarm reset, which are about the notes (xistalvo_notes.h): XISTALVO_NOTE_COMMAND_LENGTH octets. Dump and erase are for desk 0 alone;
 * an alarm reset is every desk's, for its own report. */
static inline size_t xistalvo_make_dump(uint8_t *command, size_t room)
{
    return xistalvo_begin_command(XISTALVO_TAG_DUMP, 0, command, XISTALVO_NOTE_COMMAND_LENGTH, room);
}

static inline size_t xistalvo_make_erase(uint8_t *command, size_t room)
{
    return xistalvo_begin_command(XISTALVO_TAG_ERASE, 0, command, XISTALVO_NOTE_COMMAND_LENGTH, room);
}

static inline size_t xistalvo_make_alarm_reset(uint8_t *command, size_t room)
{
    return xistalvo_begin_command(XISTALVO_TAG_ALARM_RESET, 0, command, XISTALVO_NOTE_COMMAND_LENGTH, room);
}

/* What a command is called, by its first octet; 'check' for 0, as the log has it, which is no command's. */
static inline const char *xistalvo_command_name(uint8_t tag)
{
    switch (tag) {
    case 0: return "check";
    case XISTALVO_TAG_ACTIVATION: return "activation";
    case XISTALVO_TAG_DEACTIVATION: return "deactivation";
    case XISTALVO_TAG_INVENTORY: return "inventory";
    case XISTALVO_TAG_READ_NUMBER: return "read number";
    case XISTALVO_TAG_SET_WINDOW: return "set window";
    case XISTALVO_TAG_REKEY: return "rekey";
    case XISTALVO_TAG_EXPIRE: return "expire";
    case XISTALVO_TAG_SET_NUMBER: return "set number";
    case XISTALVO_TAG_START: return "start";
    case XISTALVO_TAG_STOP: return "stop";
    case XISTALVO_TAG_STATUS: return "status";
    case XISTALVO_TAG_PING: return "ping";
    case XISTALVO_TAG_DUMP: return "dump";
    case XISTALVO_TAG_ERASE: return "erase";
    case XISTALVO_TAG_ALARM_RESET: return "alarm reset";
    default: return "no command of the module";
    }
}

/* The octets that a reply to a command with this tag has; of an inventory, by the count that it holds, and of a dump, by its length field, where whole
 * events fit it. 0 where there is none. */
static inline size_t xistalvo_reply_length(uint8_t tag, const uint8_t *reply, size_t length)
{
    switch (tag) {
    case XISTALVO_TAG_DUMP: return length < 3 || (reply[1] << 8 | reply[2]) % 5 != 0 ? 0 : (size_t)(3 + (reply[1] << 8 | reply[2]));
    case XISTALVO_TAG_ERASE: return XISTALVO_ERASE_REPLY_LENGTH;
    case XISTALVO_TAG_STATUS: return XISTALVO_STATUS_REPLY_LENGTH;
    case XISTALVO_TAG_READ_NUMBER: return XISTALVO_READ_NUMBER_REPLY_LENGTH;
    case XISTALVO_TAG_PING: return XISTALVO_PING_REPLY_LENGTH;
    case XISTALVO_TAG_INVENTORY: return length < 5 ? 0 : (size_t)XISTALVO_INVENTORY_REPLY_LENGTH((size_t)(reply[3] << 8 | reply[4]));
    default: return 0;
    }
}

/* Whether so many octets are a reply to a command with this tag, by their tag and length. */
static inline int xistalvo_is_reply(uint8_t tag, const uint8_t *reply, size_t length)
{
    size_t whole = xistalvo_reply_length(tag, reply, length);
    return whole != 0 && length == whole && reply[0] == XISTALVO_TAG_OF_REPLY(tag) && (size_t)(reply[1] << 8 | reply[2]) == whole - 3;
}

/* The SPI of a reply to status or read number, the state in one to status, and the number in one to read number. */
static inline uint16_t xistalvo_spi_in(const uint8_t *reply)
{
    return (uint16_t)(reply[3] << 8 | reply[4]);
}

static inline uint8_t xistalvo_state_in(const uint8_t *reply)
{
    return reply[5];
}

static inline uint32_t xistalvo_number_in(const uint8_t *reply)
{
    return (uint32_t)reply[13] << 24 | (uint32_t)reply[14] << 16 | (uint32_t)reply[15] << 8 | reply[16];
}

/* How many events are kept after an erase, by its reply, and in how many octets there is room for events. */
static inline size_t xistalvo_events_left_in(const uint8_t *reply)
{
    return (size_t)(reply[3] << 8 | reply[4]);
}

static inline size_t xistalvo_free_space_in(const uint8_t *reply)
{
    return (size_t)(reply[5] << 8 | reply[6]);
}

/* How many keys a reply to inventory lists, and ID and state of the i-th of them, from 0. */
static inline size_t xistalvo_keys_in(const uint8_t *reply)
{
    return (size_t)(reply[3] << 8 | reply[4]);
}

static inline uint16_t xistalvo_key_id_in(const uint8_t *reply, size_t i)
{
    return (uint16_t)(reply[XISTALVO_INVENTORY_REPLY_LENGTH(i)] << 8 | reply[XISTALVO_INVENTORY_REPLY_LENGTH(i) + 1]);
}

static inline uint8_t xistalvo_key_state_in(const uint8_t *reply, size_t i)
{
    return reply[XISTALVO_INVENTORY_REPLY_LENGTH(i) + 2];
}

#ifdef __cplusplus
}
#endif

#endif
