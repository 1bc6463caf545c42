/* Document 02, request 5: management commands; request 9: key activation, deactivation and inventory, and rekey that names a key; request 10:
 * whose they are; request 11: dump, erase and alarm reset. */
#include "reading.h"

#include <string.h>

enum { TAG_LENGTH = 1, LENGTH_LENGTH = 2, FORM_LENGTH = TAG_LENGTH + LENGTH_LENGTH };
enum { SPI_LENGTH = 2, ID_LENGTH = 2, WINDOW_LENGTH = 2, NAME_LENGTH = 4, AMOUNT_LENGTH = 2, LISTED_LENGTH = ID_LENGTH + 1 };
enum { DUMPED_LENGTH = FORM_LENGTH + 2 }; /* an event as it is dumped: tag, length, and of the value desk and answer */
enum { UNKEYED = 0, KEYED = 1, OPERATIONAL = 2 };
enum { AT_STATE = 3, AT_WINDOW = 8, AT_KEY_ID = 16 }; /* of a body */
enum { AT_KEY_STATE = 2 };                            /* of a key */
enum { LEAST_WINDOW = 1, MOST_WINDOW = 1024, MOST_STEP = 1024 };

static const uint64_t GREATEST_NUMBER = 4294967295u;

/* What is known of each command before an image is: its tag, as the request writes it; the value's octets, where start has one name or more;
 * whether it has a reply, and of how many octets of value. */
enum what { START, STOP, REKEY, EXPIRE, SET_NUMBER, SET_WINDOW, STATUS, READ_NUMBER, PING, ACTIVATION, DEACTIVATION, INVENTORY,
            DUMP, ERASE, ALARM_RESET, COMMANDS };

static const struct {
    const char *tag;
    size_t value_length;
    bool has_reply;
    size_t reply_length;
} known[COMMANDS] = {
    [START] = {"00011011", SPI_LENGTH + NAME_LENGTH, false, 0},
    [STOP] = {"00011110", SPI_LENGTH, false, 0},
    [REKEY] = {"00010110", SPI_LENGTH + ID_LENGTH + SEQUENCE_LENGTH, false, 0},
    [EXPIRE] = {"00011001", SPI_LENGTH, false, 0},
    [SET_NUMBER] = {"00011010", SPI_LENGTH + SEQUENCE_LENGTH, false, 0},
    [SET_WINDOW] = {"00010101", SPI_LENGTH + WINDOW_LENGTH, false, 0},
    [STATUS] = {"00011111", SPI_LENGTH, true, SPI_LENGTH + 1},
    [READ_NUMBER] = {"00010000", SPI_LENGTH, true, SPI_LENGTH + SEQUENCE_LENGTH},
    [PING] = {"00110001", 0, true, 0},
    [ACTIVATION] = {"00000010", ID_LENGTH, false, 0},
    [DEACTIVATION] = {"00000011", ID_LENGTH, false, 0},
    [INVENTORY] = {"00000111", 2 * ID_LENGTH, true, AMOUNT_LENGTH}, /* and each key that it lists */
    [DUMP] = {"00110011", 0, true, 0},                              /* and each event */
    [ERASE] = {"00110100", 0, true, 2 * AMOUNT_LENGTH},             /* events, and free space */
    [ALARM_RESET] = {"00110111", 0, false, 0},
};

/* A command taken apart, and the entry or the key that it is about. */
struct command {
    enum what what;
    const uint8_t *value;
    size_t value_length;
    struct table table;
    size_t entry;
    size_t key;
    size_t events; /* that are kept */
};

static unsigned number_of_digits(const char *digits)
{
    unsigned number = 0;
    for (; *digits != '\0'; digits++) {
        number = number * 2 + (*digits == '1');
    }
    return number;
}

static uint64_t number_of_octets(const uint8_t *octets, size_t count)
{
    uint64_t number = 0;
    for (size_t i = 0; i < count; i++) {
        number = number * 256 + octets[i];
    }
    return number;
}

/* ---- 13 ---- */

static bool find_tag(unsigned tag, enum what *what)
{
    for (unsigned i = 0; i < COMMANDS; i++) {
        if (number_of_digits(known[i].tag) == tag) {
            *what = (enum what)i;
            return true;
        }
    }
    return false;
}

/* 'one tag octet each'; a length of 2 octets that counts the octets behind it; and the value, whose length is the command's own. */
static bool has_form(const struct call *call, struct command *command)
{
    if (call->frame_length < FORM_LENGTH || !find_tag(call->frame[0], &command->what)) {
        return false;
    }
    command->value = call->frame + FORM_LENGTH;
    command->value_length = call->frame_length - FORM_LENGTH;
    if (number_of_octets(call->frame + TAG_LENGTH, LENGTH_LENGTH) != command->value_length) {
        return false;
    }
    size_t least = known[command->what].value_length;
    if (command->what == START) {
        return command->value_length >= least && (command->value_length - least) % NAME_LENGTH == 0;
    }
    return command->value_length == least;
}

/* ---- 14 ---- */

/* 'SPI not in the table': whatever direction, kind and state the entry has; 'another's SPI gives .. 14 as an unknown one does'. */
static bool find_spi(const struct call *call, struct command *command)
{
    uint64_t spi = number_of_octets(command->value, SPI_LENGTH);
    for (size_t i = 0; i < command->table.count; i++) {
        if (command->table.entries[i].spi == spi && is_seen(&command->table.entries[i], call->desk)) {
            command->entry = i;
            return true;
        }
    }
    return false;
}

/* ---- 15 ---- */

/* 'Start goes from keyed to operational, stop back, expire to unkeyed, rekey from unkeyed to keyed'; expire from keyed alone. */
static bool is_in_state(const struct command *command)
{
    unsigned state = command->table.entries[command->entry].state;
    switch (command->what) {
    case START:
    case EXPIRE:
        return state == KEYED;
    case STOP:
        return state == OPERATIONAL;
    case REKEY:
        return state == UNKEYED;
    case SET_WINDOW: /* 'A window change needs an association not operational' */
        return state != OPERATIONAL;
    default:
        return true;
    }
}

/* ---- 16 ---- */

/* The identifiers one behind the other, version of two bits first: 'version + spacecraft + channel', for kind 2 '+ MAP'. */
uint32_t name_of_channel(const struct association *association, unsigned channel)
{
    const struct {
        unsigned value, width;
    } parts[] = {
        {association->kind == 4 ? 1 : 0, 2},
        {association->spacecraft, association->kind == 4 ? 8 : 10},
        {channel, association->kind == 3 ? 3 : 6},
        {association->map, association->kind == 2 ? 6 : 0},
    };
    uint32_t name = 0;
    for (size_t i = 0; i < sizeof parts / sizeof parts[0]; i++) {
        name = (name << parts[i].width) + parts[i].value;
    }
    return name;
}

/* 'a channel it names must be one of the body's' */
static bool is_own_channel(const struct association *association, uint64_t name)
{
    for (unsigned channel = 0; channel < 64; channel++) {
        if (serves_channel(association, channel) && name == name_of_channel(association, channel)) {
            return true;
        }
    }
    return false;
}

static bool channels_are_own(const struct command *command)
{
    for (size_t at = SPI_LENGTH; at < command->value_length; at += NAME_LENGTH) {
        if (!is_own_channel(&command->table.entries[command->entry], number_of_octets(command->value + at, NAME_LENGTH))) {
            return false;
        }
    }
    return true;
}

static bool window_is_allowed(uint64_t window)
{
    return LEAST_WINDOW <= window && window <= MOST_WINDOW;
}

/* 'Set number only raises, by 1 to 1,024, never past 4,294,967,295': over whole numbers, of which 12 octets can hold greater ones. */
static bool number_is_allowed(const uint8_t sequence[SEQUENCE_LENGTH], uint32_t last)
{
    enum { HIGH = SEQUENCE_LENGTH - 8 };
    uint64_t low = number_of_octets(sequence + HIGH, 8);
    return number_of_octets(sequence, HIGH) == 0 && low <= GREATEST_NUMBER && last < low && low - last <= MOST_STEP;
}

static bool value_is_allowed(const struct call *call, const struct command *command)
{
    const struct association *association = &command->table.entries[command->entry];
    const uint8_t *rest = command->value + SPI_LENGTH;
    switch (command->what) {
    case START: /* 'start refuses (16) one outside 1 to 1,024' */
        return channels_are_own(command) && window_is_allowed(association->window);
    case REKEY: /* 'its key ID is 0', and from version 3 on any; 'keeping .. mark', so that no number can be asked for */
        return (association->names_key || number_of_octets(rest, ID_LENGTH) == 0) && number_of_octets(rest + ID_LENGTH, 4) == 0
            && number_of_octets(rest + ID_LENGTH + 4, 8) == 0;
    case SET_WINDOW:
        return window_is_allowed(number_of_octets(rest, WINDOW_LENGTH));
    case SET_NUMBER:
        return number_is_allowed(rest, call->numbers[command->entry]);
    default:
        return true;
    }
}

/* ---- 17 and 18 ---- */

/* 'Rekey then names a key ID; rekey and start need it active': for start the ID is the body's. */
static bool needs_key(const struct command *command, unsigned *id)
{
    const struct association *association = &command->table.entries[command->entry];
    switch (command->what) {
    case ACTIVATION:
    case DEACTIVATION:
        *id = (unsigned)number_of_octets(command->value, ID_LENGTH);
        return true;
    case REKEY:
        *id = (unsigned)number_of_octets(command->value + SPI_LENGTH, ID_LENGTH);
        return association->names_key;
    case START:
        *id = association->key_id;
        return association->names_key;
    default:
        return false;
    }
}

/* 'named by an operational body' */
static bool is_in_use(const struct table *table, unsigned id)
{
    for (size_t i = 0; i < table->count; i++) {
        if (table->entries[i].state == OPERATIONAL && table->entries[i].key_id == id) {
            return true;
        }
    }
    return false;
}

/* '18 key in the wrong state or, for deactivation, named by an operational body' */
static bool key_is_in_state(const struct command *command)
{
    const struct key *key = &command->table.keys[command->key];
    switch (command->what) {
    case ACTIVATION:
        return key->state == PRE_ACTIVE;
    case DEACTIVATION:
        return key->state == ACTIVE && !is_in_use(&command->table, key->id);
    default:
        return key->state == ACTIVE;
    }
}

/* ---- 19 ---- */

/* '19, desk number above 2, or a key command from desk 1 or 2, given after 2': before 13, so that a key command is known by its tag alone. '19 also for a
 * dump or erase from desk 1 or 2.' */
static bool is_refused_to_desk(const struct call *call)
{
    enum what what;
    if (call->desk > GREATEST_DESK) {
        return true;
    }
    return call->desk != KEY_OFFICE && call->frame_length != 0 && find_tag(call->frame[0], &what)
        && (what == ACTIVATION || what == DEACTIVATION || what == INVENTORY || what == DUMP || what == ERASE);
}

/* ---- the order: 1, 2, 19, 13, 14, 15, 16, 17, 18, 6 ---- */

static bool names_spi(enum what what)
{
    switch (what) {
    case PING: case ACTIVATION: case DEACTIVATION: case INVENTORY: case DUMP: case ERASE: case ALARM_RESET:
        return false;
    default:
        return true;
    }
}

/* The keys that an inventory lists, from the first ID to the last, both included; none where the first is above the last. */
static bool is_listed(const struct command *command, const struct key *key)
{
    return number_of_octets(command->value, ID_LENGTH) <= key->id && key->id <= number_of_octets(command->value + ID_LENGTH, ID_LENGTH);
}

static size_t reply_value_length(const struct command *command)
{
    size_t length = known[command->what].reply_length;
    for (size_t i = 0; command->what == INVENTORY && i < command->table.key_count; i++) {
        length += is_listed(command, &command->table.keys[i]) ? LISTED_LENGTH : 0;
    }
    return command->what == DUMP ? DUMPED_LENGTH * command->events : length;
}

static unsigned answer_of_command(const struct call *call, struct command *command)
{
    unsigned id;
    if (!read_image(call->image, call->image_length, &command->table)) {
        return 1;
    }
    if (!numbers_agree(call, &command->table)) {
        return 2;
    }
    if (is_refused_to_desk(call)) {
        return 19;
    }
    if (!has_form(call, command)) {
        return 13;
    }
    if (names_spi(command->what)) { /* 'One SPI a command', but for those that have none */
        if (!find_spi(call, command)) {
            return 14;
        }
        if (!is_in_state(command)) {
            return 15;
        }
        if (!value_is_allowed(call, command)) {
            return 16;
        }
    }
    if (needs_key(command, &id)) {
        command->key = find_key(&command->table, id);
        if (command->key == command->table.key_count) {
            return 17;
        }
        if (!key_is_in_state(command)) {
            return 18;
        }
    }
    if (known[command->what].has_reply && call->output_length < FORM_LENGTH + reply_value_length(command)) {
        return 6;
    }
    return 0;
}

/* ---- what is done ---- */

static void store(struct effect *effect, const struct command *command, size_t place, uint8_t octet)
{
    size_t body = body_position(command->table.version, command->table.count, command->entry);
    struct store made = {body + place, octet};
    effect->stores[effect->store_count++] = made;
}

static void store_key_state(struct effect *effect, const struct command *command, uint8_t state)
{
    struct store made = {key_position(command->table.version, command->table.count, command->key) + AT_KEY_STATE, state};
    effect->stores[effect->store_count++] = made;
}

/* Tag with its first bit set, and length; gives where the value goes. */
static uint8_t *begin_reply(struct effect *effect, const struct command *command)
{
    size_t value_length = reply_value_length(command);
    effect->result[0] = (uint8_t)(number_of_digits(known[command->what].tag) + 128);
    effect->result[1] = (uint8_t)(value_length / 256);
    effect->result[2] = (uint8_t)(value_length % 256);
    effect->length = FORM_LENGTH + value_length;
    return effect->result + FORM_LENGTH;
}

/* How many keys are listed, in 2 octets, and of each its ID and its state, in their order. */
static void list_keys(const struct command *command, uint8_t *value)
{
    size_t listed = (reply_value_length(command) - AMOUNT_LENGTH) / LISTED_LENGTH;
    *value++ = (uint8_t)(listed / 256);
    *value++ = (uint8_t)(listed % 256);
    for (size_t i = 0; i < command->table.key_count; i++) {
        const struct key *key = &command->table.keys[i];
        if (is_listed(command, key)) {
            *value++ = (uint8_t)(key->id / 256);
            *value++ = (uint8_t)(key->id % 256);
            *value++ = (uint8_t)key->state;
        }
    }
}

/* Each event in its order, laid out as commands and replies are: its tag, a length of 2, desk and answer. */
static void list_events(const struct call *call, const struct command *command, uint8_t *value)
{
    for (size_t i = 0; i < command->events; i++) {
        const uint8_t *event = call->events + EVENT_LENGTH * i;
        *value++ = event[1];
        *value++ = 0;
        *value++ = 2;
        *value++ = event[0];
        *value++ = event[2];
    }
}

/* No event is left, and all of the list is free, so far as whole events fit it. */
static void tell_free_space(const struct call *call, uint8_t *value)
{
    size_t octets = EVENT_LENGTH * room_for_events(call->events_length);
    value[0] = 0;
    value[1] = 0;
    value[2] = (uint8_t)(octets / 256);
    value[3] = (uint8_t)(octets % 256);
}

static void reply(const struct call *call, const struct command *command, struct effect *effect)
{
    uint8_t *value = begin_reply(effect, command);
    if (names_spi(command->what)) {
        memcpy(value, command->value, SPI_LENGTH);
    }
    switch (command->what) {
    case STATUS:
        value[SPI_LENGTH] = (uint8_t)command->table.entries[command->entry].state;
        break;
    case READ_NUMBER:
        sequence_of_number(call->numbers[command->entry], value + SPI_LENGTH);
        break;
    case INVENTORY:
        list_keys(command, value);
        break;
    case DUMP:
        list_events(call, command, value);
        break;
    case ERASE:
        tell_free_space(call, value);
        break;
    default: /* ping */
        break;
    }
}

static void carry_out(const struct call *call, const struct command *command, struct effect *effect)
{
    switch (command->what) {
    case START:
        store(effect, command, AT_STATE, OPERATIONAL);
        break;
    case STOP:
        store(effect, command, AT_STATE, KEYED);
        break;
    case REKEY: /* 'state octet stored last' */
        if (command->table.entries[command->entry].names_key) {
            store(effect, command, AT_KEY_ID, command->value[SPI_LENGTH]);
            store(effect, command, AT_KEY_ID + 1, command->value[SPI_LENGTH + 1]);
        }
        store(effect, command, AT_STATE, KEYED);
        break;
    case ACTIVATION:
        store_key_state(effect, command, ACTIVE);
        break;
    case DEACTIVATION:
        store_key_state(effect, command, DEACTIVATED);
        break;
    case EXPIRE:
        store(effect, command, AT_STATE, UNKEYED);
        break;
    case SET_WINDOW: /* 'a cut may leave either octet new': the first is stored first */
        store(effect, command, AT_WINDOW, command->value[SPI_LENGTH]);
        store(effect, command, AT_WINDOW + 1, command->value[SPI_LENGTH + 1]);
        break;
    case SET_NUMBER: /* 'raises marks one at a time first' */
        take_number(effect, &command->table, command->entry, (uint32_t)number_of_octets(command->value + command->value_length - 4, 4));
        break;
    case ALARM_RESET:
        break;
    default:
        reply(call, command, effect);
        break;
    }
}

/* What the first octet says, whatever follows it, so far as notes go by it. */
static bool begins_as(const struct call *call, enum what which)
{
    enum what what;
    return call->frame_length != 0 && find_tag(call->frame[0], &what) && what == which;
}

void reading_command(const struct call *call, struct effect *effect)
{
    struct command command;
    command.entry = 0;
    command.key = 0;
    command.events = events_kept(call);
    nothing_happens(effect);
    effect->answer = answer_of_command(call, &command);
    if (effect->answer == 0) {
        carry_out(call, &command, effect);
    }
    bool is_about_log = begins_as(call, DUMP) || begins_as(call, ERASE);
    notes_after_command(call, begins_as(call, ERASE) ? ERASES_LOG : begins_as(call, ALARM_RESET) ? RESETS_ALARM : NOTES_NOTHING, is_about_log, effect);
}
