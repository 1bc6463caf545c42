/* The functions of include/xistalvo.h by the independent reading, in place of the module: to try a test before the module does what it tests, and to
 * show that a test can fail. STAND_IN_FAULT names what is then done wrong, by its number; without it nothing is. tests/faults has which test
 * refuses which of them. */
#include "../../include/xistalvo.h"
#include "../independent/reading.h"

#include <stdlib.h>
#include <string.h>

enum fault {
    NONE,
    SEES_ALL,          /* every desk sees every association */
    SEES_BY_COMMAND,   /* commands see every association, frames do not */
    TELLS_OF_ANOTHER,  /* another's SPI gives 15 and not 14 */
    NEEDS_KEY_FREE,    /* a start needs a key that no body of another desk names */
    STEP_OF_ALL,       /* set number is refused where another desk's number is higher */
    COUNTS_OF_ALL,     /* read number gives the sum of all numbers */
    OTHERS_NUMBER,     /* a sent frame depends on the number of the entry before, where that is another desk's */
    KEY_COMMANDS,      /* a laboratory gives key commands */
    LATE_REFUSAL,      /* 19 comes after 13 */
    DESK_3,            /* a desk above 2 is as desk 0 */
    OWNER_OF_4_ALONE,  /* below version 4 desk 1 sees nothing */
    GUEST_BELOW_4,     /* below version 4 desk 2 sees all */
    ALARM_CLEARED,     /* a check that is done clears the alarm */
    FLAGS_KEPT,        /* flags of the frame before stay */
    FRAME_WITHOUT_SPI, /* a frame that breaks a rule clears flags, SPI and number */
    CARRIED_NUMBER,    /* a number outside the window is told as the frame carries it */
    ONE_REPORT,        /* every check renews the report of desk 0 too */
    NO_DESKS_REPORT,   /* a check from a desk above 2 sets the alarm of desk 2 */
    RESET_OF_ALL,      /* an alarm reset clears every alarm */
    REFUSED_RESET,     /* an alarm reset of a wrong form clears the alarm too */
    DUMP_LOGGED,       /* a dump that is refused is an event */
    RING,              /* event 257 takes the place of the first */
    UNCOUNTED,         /* events that find no room are not counted */
    WRAPS,             /* the count of dropped events wraps */
    HALF_ERASED,       /* an erase leaves the count of dropped events */
    REFUSED_ERASE,     /* an erase whose reply has no room erases */
    LABORATORY_DUMPS,  /* a laboratory dumps the log */
    BEYOND_THE_LIST,   /* events that are counted beyond the room of the list are dumped */
    NEWEST_FIRST,      /* a dump has the last event first */
    EARLY_EVENT,       /* an event is written before the stores */
    /* what a check tells of secrets */
    STORES_TELL,       /* where the data begins with an odd octet, one octet of the image is stored once more */
    ANSWER_TELLS,      /* a wrong MAC gives 8 where the key begins with an even octet */
    LENGTH_TELLS,      /* a zero at the end of the data is not counted */
    NUMBER_TELLS,      /* where the data begins with an odd octet, the number is one higher, under the same mark */
    REPORT_TELLS       /* a wrong MAC is reported with its first octet for the number */
};

static enum fault fault(void)
{
    const char *number = getenv("STAND_IN_FAULT");
    return number == NULL ? NONE : (enum fault)atoi(number);
}

static bool is_foreign(const struct association *entry, unsigned desk)
{
    return entry->owner != desk;
}

/* The desk that the reading is told in place of the caller's. */
static unsigned desk_told(const struct call *call, bool is_command)
{
    bool is_key_command = is_command && call->frame_length != 0 && (call->frame[0] == 2 || call->frame[0] == 3 || call->frame[0] == 7);
    bool is_below_4 = call->image_length != 0 && call->image[0] < 4;
    bool is_laboratory = call->desk == 1 || call->desk == 2;
    switch (fault()) {
    case SEES_ALL: return is_laboratory && !is_key_command ? KEY_OFFICE : call->desk;
    case SEES_BY_COMMAND: return is_laboratory && is_command && !is_key_command ? KEY_OFFICE : call->desk;
    case KEY_COMMANDS: return is_laboratory && is_key_command ? KEY_OFFICE : call->desk;
    case LABORATORY_DUMPS: return is_laboratory && is_command && call->frame_length != 0 && call->frame[0] == 0x33 ? KEY_OFFICE : call->desk;
    case DESK_3: return call->desk > 2 ? KEY_OFFICE : call->desk;
    case OWNER_OF_4_ALONE: return is_below_4 && call->desk == 1 ? 2 : call->desk;
    case GUEST_BELOW_4: return is_below_4 && call->desk == 2 && !is_key_command ? KEY_OFFICE : call->desk;
    default: return call->desk;
    }
}

static void refuse(struct effect *effect, unsigned answer)
{
    nothing_happens(effect);
    effect->answer = answer;
}

/* What another desk's bodies and numbers say too much of, once the command is right but for that. */
static void tell_too_much(const struct call *call, const struct table *table, struct effect *effect)
{
    uint32_t sum = 0, greatest = 0;
    bool is_named = false;
    unsigned id = 0;
    for (size_t i = 0; i < table->count; i++) {
        bool is_target = call->frame_length >= 5 && table->entries[i].spi == call->frame[3] * 256u + call->frame[4];
        sum += call->numbers[i];
        greatest = is_foreign(&table->entries[i], call->desk) && call->numbers[i] > greatest ? call->numbers[i] : greatest;
        id = is_target ? table->entries[i].key_id : id;
        if (is_target && is_foreign(&table->entries[i], call->desk) && effect->answer == 14 && fault() == TELLS_OF_ANOTHER) {
            effect->answer = 15;
        }
    }
    for (size_t i = 0; i < table->count; i++) {
        is_named = is_named || (is_foreign(&table->entries[i], call->desk) && table->entries[i].key_id == id);
    }
    if (fault() == NEEDS_KEY_FREE && effect->answer == 0 && call->frame[0] == 0x1B && is_named) {
        refuse(effect, 18);
    } else if (fault() == STEP_OF_ALL && effect->answer == 0 && call->frame[0] == 0x1A && greatest > effect->number) {
        refuse(effect, 16);
    } else if (fault() == COUNTS_OF_ALL && effect->answer == 0 && call->frame[0] == 0x10) {
        for (unsigned i = 0; i < 4; i++) {
            effect->result[effect->length - 1 - i] = (uint8_t)(sum >> (8 * i));
        }
    } else if (fault() == LATE_REFUSAL && effect->answer == 19 && call->frame_length != 5 && call->frame_length != 7) {
        effect->answer = 13;
    }
}

/* The last octet of the frame tells a bit of that number. */
static void take_others_number(const struct call *call, const struct table *table, struct effect *effect)
{
    if (effect->answer == 0 && effect->entry != 0 && is_foreign(&table->entries[effect->entry - 1], call->desk)
        && (call->numbers[effect->entry] ^ call->numbers[effect->entry - 1]) / 64 % 2 == 1) {
        effect->result[effect->length - 1] ^= 1;
    }
}

enum { DUMP = 0x33, ERASE = 0x34, ALARM_RESET = 0x37, ALARM = 8, FLAGS = 7 };

static unsigned first_octet(const struct call *call) { return call->frame_length == 0 ? 0 : call->frame[0]; }

/* What a wrong check tells its report. */
static void misreport(const struct call *call, struct effect *effect)
{
    uint8_t *report = effect->notes.reports[call->desk % DESK_COUNT];
    const uint8_t *before = call->notes->reports[call->desk % DESK_COUNT];
    bool is_desk = call->desk < DESK_COUNT;
    if (fault() == ALARM_CLEARED && is_desk && effect->answer == 0) {
        report[0] &= (uint8_t)~ALARM;
    } else if (fault() == FLAGS_KEPT && is_desk) {
        report[0] |= before[0] & FLAGS;
    } else if (fault() == FRAME_WITHOUT_SPI && is_desk && effect->answer == 3) {
        memcpy(report, (const uint8_t[]){0xC8, 0, 0, 0}, REPORT_LENGTH);
    } else if (fault() == CARRIED_NUMBER && is_desk && effect->answer == 8) {
        report[3]++;
    } else if (fault() == ONE_REPORT && is_desk) {
        memcpy(effect->notes.reports[0], report, REPORT_LENGTH);
    } else if (fault() == NO_DESKS_REPORT && !is_desk) {
        effect->notes.reports[2][0] |= ALARM;
    }
}

/* What a wrong alarm reset, dump or erase does. */
static void misdo(const struct call *call, struct effect *effect)
{
    unsigned tag = first_octet(call);
    if (fault() == RESET_OF_ALL && tag == ALARM_RESET && effect->answer == 0) {
        for (size_t desk = 0; desk < DESK_COUNT; desk++) {
            effect->notes.reports[desk][0] &= (uint8_t)~ALARM;
        }
    } else if (fault() == REFUSED_RESET && tag == ALARM_RESET && effect->answer == 13) {
        effect->notes.reports[call->desk][0] &= (uint8_t)~ALARM;
    } else if (fault() == HALF_ERASED && tag == ERASE && effect->answer == 0) {
        effect->notes.dropped = call->notes->dropped;
    } else if (fault() == REFUSED_ERASE && tag == ERASE && effect->answer == 6) {
        effect->notes.kept = effect->notes.dropped = 0;
    } else if (fault() == DUMP_LOGGED && tag == DUMP && effect->answer != 0 && effect->notes.dropped != UINT32_MAX) {
        effect->notes.dropped++;
    } else if (fault() == NEWEST_FIRST && tag == DUMP && effect->length > 8) {
        memcpy(effect->result + 3, effect->result + effect->length - 5, 5);
    } else if (fault() == BEYOND_THE_LIST && tag == DUMP && effect->answer == 0 && call->notes->kept > room_for_events(call->events_length)) {
        effect->answer = call->output_length < effect->length + 5 ? 6 : 0;
        memset(effect->result + effect->length, 0, 5);
        effect->length = effect->answer == 0 ? effect->length + 5 : 0;
    }
}

/* What a wrong log makes of an event that it has no room for. */
static void miscount(const struct call *call, struct effect *effect)
{
    bool is_about_log = first_octet(call) == DUMP || first_octet(call) == ERASE;
    size_t room = room_for_events(call->events_length);
    if (is_about_log || events_kept(call) < room) {
        return;
    }
    if (fault() == RING && room == MOST_EVENTS) {
        const uint8_t event[] = {(uint8_t)call->desk, (uint8_t)first_octet(call), (uint8_t)effect->answer};
        effect->enters_event = true;
        effect->event_at = 0;
        memcpy(effect->event, event, EVENT_LENGTH);
    } else if (fault() == UNCOUNTED) {
        effect->notes.dropped = call->notes->dropped;
    } else if (fault() == WRAPS && call->notes->dropped == UINT32_MAX) {
        effect->notes.dropped = 0;
    }
}

/* What a check tells of key and data, beyond how the MAC compared. */
static void tell_secrets(const struct call *call, const struct table *table, struct effect *effect)
{
    struct header header;
    if (!read_secured_frame(call->kind, call->has_field, call->frame, call->frame_length, &header)) {
        return;
    }
    unsigned spi = call->frame[header.length] * 256u + call->frame[header.length + 1];
    bool is_odd = effect->answer == 0 && effect->result[0] % 2 == 1;
    for (size_t i = 0; i < table->count; i++) {
        if (fault() == ANSWER_TELLS && effect->answer == 7 && table->entries[i].spi == spi && table->entries[i].key[0] % 2 == 0) {
            effect->answer = 8;
        }
    }
    if (fault() == STORES_TELL && is_odd && effect->store_count < MOST_STORES) {
        effect->stores[effect->store_count++] = (struct store){1, call->image[1]};
    } else if (fault() == LENGTH_TELLS && effect->answer == 0 && effect->result[effect->length - 1] == 0) {
        effect->length--;
    } else if (fault() == NUMBER_TELLS && is_odd && effect->number % 64 != 63) {
        effect->number++;
    } else if (fault() == REPORT_TELLS && effect->answer == 7) {
        effect->notes.reports[call->desk][3] = call->frame[call->frame_length - header.trailer - MAC_LENGTH];
    }
}

enum which { LOAD, SECURE, CHECK, COMMAND };

/* The report of one desk in place of another's, and back: where the reading is told another desk, the report is that of the caller's all the same. */
static void exchange(struct notes *notes, unsigned one, unsigned other)
{
    uint8_t report[REPORT_LENGTH];
    if (one < DESK_COUNT && other < DESK_COUNT) {
        memcpy(report, notes->reports[one], sizeof report);
        memcpy(notes->reports[one], notes->reports[other], sizeof report);
        memcpy(notes->reports[other], report, sizeof report);
    }
}

static void read_with_fault(struct call *call, enum which which, struct effect *effect)
{
    struct table table;
    struct notes notes;
    struct call told = *call;
    told.desk = desk_told(call, which == COMMAND);
    if (call->notes != NULL) {
        notes = *call->notes;
        exchange(&notes, call->desk, told.desk);
        told.notes = &notes;
    }
    switch (which) {
    case LOAD: reading_load(&told, effect); return;
    case SECURE: reading_secure(&told, effect); break;
    case CHECK: reading_check(&told, effect); break;
    default: reading_command(&told, effect); break;
    }
    exchange(&effect->notes, call->desk, told.desk);
    if (fault() != NONE && read_image(call->image, call->image_length, &table) && call->numbers_length == NUMBER_COUNT) {
        if (which == COMMAND) {
            tell_too_much(call, &table, effect);
        } else if (which == SECURE && fault() == OTHERS_NUMBER) {
            take_others_number(call, &table, effect);
        } else if (which == CHECK) {
            tell_secrets(call, &table, effect);
        }
    }
    if (which == CHECK) {
        misreport(call, effect);
    } else if (which == COMMAND) {
        misdo(call, effect);
    }
    if (which == CHECK || which == COMMAND) {
        miscount(call, effect);
    }
    /* whatever was told wrong above, the event is that of the answer and of the caller's desk */
    effect->event[0] = (uint8_t)call->desk;
    effect->event[2] = (uint8_t)effect->answer;
}

/* What a caller lends of notes; NULL where there are none. */
struct lent {
    xistalvo_notes *notes;
    uint8_t *events;
};

static void put_notes(const struct notes *notes, xistalvo_notes *lent)
{
    memcpy(lent->reports, notes->reports, sizeof lent->reports);
    lent->kept = notes->kept;
    lent->dropped = notes->dropped;
}

static struct notes notes_of(const xistalvo_notes *lent)
{
    struct notes notes;
    memcpy(notes.reports, lent->reports, sizeof notes.reports);
    notes.kept = lent->kept;
    notes.dropped = lent->dropped;
    return notes;
}

static void carry_out_record(const struct effect *effect, const struct call *call, const struct lent *lent)
{
    struct notes notes;
    if (lent != NULL) {
        notes = *call->notes;
        carry_out_notes(effect, &notes, lent->events);
        put_notes(&notes, lent->notes);
    }
}

static uint64_t carry_out(struct call *call, enum which which, uint8_t *image, uint32_t *numbers, uint8_t *output, const struct lent *lent)
{
    static struct effect effect;
    read_with_fault(call, which, &effect);
    if (fault() == EARLY_EVENT) {
        carry_out_record(&effect, call, lent);
    }
    carry_out_stores(&effect, effect.store_count, image);
    if (effect.length != 0) {
        memcpy(output, effect.result, effect.length);
    }
    if (effect.gives_numbers) {
        memcpy(numbers, effect.numbers, sizeof effect.numbers);
    }
    if (effect.sets_number) {
        numbers[effect.entry] = effect.number;
    }
    carry_out_record(&effect, call, lent);
    return effect.length | (uint64_t)effect.store_count << 32 | (uint64_t)effect.answer << 40;
}

void xistalvo_fresh_notes(xistalvo_notes *notes)
{
    struct notes fresh;
    fresh_notes(&fresh);
    put_notes(&fresh, notes);
}

uint64_t xistalvo_load(const uint8_t *image, size_t image_length, uint32_t *numbers, size_t numbers_length)
{
    struct call call = {image, image_length, numbers, numbers_length, 0, 0, false, 0, NULL, 0, 0, NULL, NULL, 0};
    return carry_out(&call, LOAD, NULL, numbers, NULL, NULL);
}

uint64_t xistalvo_secure(uint8_t *image, size_t image_length, uint32_t *numbers, size_t numbers_length, uint8_t desk, uint8_t kind,
                         uint8_t check_field, uint16_t spi, const uint8_t *frame, size_t frame_length, uint8_t *output, size_t output_length)
{
    struct call call = {image, image_length, numbers, numbers_length, desk, kind, check_field != 0, spi, frame, frame_length, output_length, NULL,
                        NULL, 0};
    return carry_out(&call, SECURE, image, numbers, output, NULL);
}

uint64_t xistalvo_check(xistalvo_notes *notes, uint8_t *events, size_t events_length, uint8_t *image, size_t image_length, uint32_t *numbers,
                        size_t numbers_length, uint8_t desk, uint8_t kind, uint8_t check_field, const uint8_t *frame, size_t frame_length,
                        uint8_t *output, size_t output_length)
{
    const struct notes read = notes_of(notes);
    const struct lent lent = {notes, events};
    struct call call = {image, image_length, numbers, numbers_length, desk, kind, check_field != 0, 0, frame, frame_length, output_length, &read,
                        events, events_length};
    return carry_out(&call, CHECK, image, numbers, output, &lent);
}

uint64_t xistalvo_ground_secure(uint8_t *image, size_t image_length, uint32_t *numbers, size_t numbers_length, uint8_t desk, uint8_t kind,
                                uint8_t check_field, uint16_t spi, const uint8_t *frame, size_t frame_length, uint8_t *output,
                                size_t output_length)
{
    return xistalvo_secure(image, image_length, numbers, numbers_length, desk, kind, check_field, spi, frame, frame_length, output, output_length);
}

uint64_t xistalvo_ground_check(xistalvo_notes *notes, uint8_t *events, size_t events_length, uint8_t *image, size_t image_length,
                               uint32_t *numbers, size_t numbers_length, uint8_t desk, uint8_t kind, uint8_t check_field, const uint8_t *frame,
                               size_t frame_length, uint8_t *output, size_t output_length)
{
    return xistalvo_check(notes, events, events_length, image, image_length, numbers, numbers_length, desk, kind, check_field, frame, frame_length,
                          output, output_length);
}

uint64_t xistalvo_command(xistalvo_notes *notes, uint8_t *events, size_t events_length, uint8_t *image, size_t image_length, uint32_t *numbers,
                          size_t numbers_length, uint8_t desk, const uint8_t *command, size_t command_length, uint8_t *output,
                          size_t output_length)
{
    const struct notes read = notes_of(notes);
    const struct lent lent = {notes, events};
    struct call call = {image, image_length, numbers, numbers_length, desk, 0, false, 0, command, command_length, output_length, &read, events,
                        events_length};
    return carry_out(&call, COMMAND, image, numbers, output, &lent);
}

/* A cut has no notes, and no command about them stores anything. */
uint32_t xistalvo_command_cut(uint8_t *image, size_t image_length, const uint32_t *numbers, size_t numbers_length, uint8_t desk,
                              const uint8_t *command, size_t command_length, size_t output_length, uint32_t stores)
{
    static struct effect effect;
    struct notes fresh;
    fresh_notes(&fresh);
    struct call call = {image, image_length, numbers, numbers_length, desk, 0, false, 0, command, command_length, output_length, &fresh, NULL, 0};
    read_with_fault(&call, COMMAND, &effect);
    carry_out_stores(&effect, stores, image);
    return stores < effect.store_count ? stores : (uint32_t)effect.store_count;
}

uint32_t xistalvo_raise(uint8_t *image, size_t image_length, uint8_t entry, uint32_t number, uint32_t stores)
{
    return reading_raise(image, image_length, entry, number, stores);
}
