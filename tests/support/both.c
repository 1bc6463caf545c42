#include "both.h"

#include "../../include/xistalvo.h"
#include "guarded.h"

#include <inttypes.h>
#include <signal.h>
#include <stdio.h>
#include <stdlib.h>
#include <string.h>
#include <unistd.h>

static const char *program_name = "test";
static bool is_comparing = true;
static struct guarded image_area, numbers_area, frame_area, output_area, notes_area, events_area;

static struct {
    uint64_t seed, stream, call;
    const struct input *input; /* the call under way, if any */
} place;

static const char *const call_names[] = {"load", "secure", "check", "command"};

/* Loads and sendings have none. */
static bool has_notes(const struct input *input) { return input->which == CALL_CHECK || input->which == CALL_COMMAND; }

/* ---- what is printed when something differs ---- */

static void print_octets(const char *name, const uint8_t *octets, size_t length)
{
    fprintf(stderr, "  %s, %zu octets:", name, length);
    for (size_t i = 0; i < length; i++) {
        fprintf(stderr, "%s%02X", i % 32 == 0 ? "\n    " : " ", octets[i]);
    }
    fputc('\n', stderr);
}

static void print_record(const struct record *record)
{
    print_octets("reports", record->notes.reports[0], sizeof record->notes.reports);
    fprintf(stderr, "  events: %" PRIu32 " kept, %" PRIu32 " dropped\n", record->notes.kept, record->notes.dropped);
    print_octets("list of events", record->events, record->events_length);
}

static void print_input(const struct input *input)
{
    fprintf(stderr, "  call %s, desk %u, kind %u, check field %u, spi %u, output of %zu octets\n", call_names[input->which], input->desk,
            input->kind, input->check_field, input->spi, input->output_length);
    print_octets("image", input->image, input->image_length);
    fprintf(stderr, "  numbers, %zu:", input->numbers_length);
    for (size_t i = 0; i < input->numbers_length; i++) {
        fprintf(stderr, " %" PRIu32, input->numbers[i]);
    }
    fputc('\n', stderr);
    print_octets(input->which == CALL_COMMAND ? "command" : "frame", input->frame, input->frame_length);
    if (has_notes(input)) {
        print_record(&input->record);
    }
}

void both_fail(const char *sentence)
{
    fprintf(stderr, "%s: seed %" PRIu64 ", from %" PRIu64 ", call %" PRIu64 ": %s\n", program_name, place.seed, place.stream, place.call,
            sentence);
    if (place.input != NULL) {
        print_input(place.input);
    }
    fflush(stderr);
    _exit(1);
}

/* A touch outside the lent ranges, or a write where none may be. Printing here is safe: the module does not print. */
static void on_fault(int signal_number)
{
    (void)signal_number;
    both_fail("the module touched memory that it was not lent, or wrote where nothing may change");
}

void both_prepare(const char *program)
{
    program_name = program;
    image_area = guarded_new();
    numbers_area = guarded_new();
    frame_area = guarded_new();
    output_area = guarded_new();
    notes_area = guarded_new();
    events_area = guarded_new();
    struct sigaction action;
    memset(&action, 0, sizeof action);
    action.sa_handler = on_fault;
    sigaction(SIGSEGV, &action, NULL);
    sigaction(SIGBUS, &action, NULL);
}

void both_at(uint64_t seed, uint64_t stream, uint64_t call)
{
    place.seed = seed;
    place.stream = stream;
    place.call = call;
}

void both_compare(bool is_on)
{
    is_comparing = is_on;
}

/* ---- one call ---- */

static enum lend_end any_end(struct random *random)
{
    return random_percent(random, 50) ? LEND_AT_START : LEND_AT_END;
}

/* The struct of the interface, beside that of the reading. */
static xistalvo_notes notes_for_module(const struct notes *notes)
{
    xistalvo_notes lent;
    memcpy(lent.reports, notes->reports, sizeof lent.reports);
    lent.kept = notes->kept;
    lent.dropped = notes->dropped;
    return lent;
}

static void notes_of_module(struct notes *notes)
{
    const xistalvo_notes *lent = (const xistalvo_notes *)(const void *)notes_area.range;
    memcpy(notes->reports, lent->reports, sizeof notes->reports);
    notes->kept = lent->kept;
    notes->dropped = lent->dropped;
}

static void lend_record(struct random *random, const struct record *record, enum lend_access events)
{
    const xistalvo_notes lent = notes_for_module(&record->notes);
    _Static_assert(sizeof lent == 20, "the notes have 20 octets on every processor");
    guarded_lend(&notes_area, &lent, sizeof lent, any_end(random), LEND_WRITABLE);
    guarded_lend(&events_area, record->events, record->events_length, any_end(random), events);
}

static bool take_record_back(void)
{
    bool notes = guarded_take_back(&notes_area);
    return guarded_take_back(&events_area) && notes;
}

/* What may not be written comes from read-only pages, in one call of four: changing the pages takes time. */
static void lend_all(struct random *random, const struct input *input, bool is_refused)
{
    bool is_watched = random_percent(random, 25);
    enum lend_access constant = is_watched ? LEND_READ_ONLY : LEND_WRITABLE;
    enum lend_access changing = is_watched && is_refused ? LEND_READ_ONLY : LEND_WRITABLE;
    enum lend_access image = input->which == CALL_LOAD ? constant : changing;
    guarded_lend(&image_area, input->image, input->image_length, any_end(random), image);
    guarded_lend(&numbers_area, input->numbers, input->numbers_length * sizeof(uint32_t), any_end(random), changing);
    guarded_lend(&frame_area, input->frame, input->frame_length, any_end(random), constant);
    guarded_lend(&output_area, input->output, input->output_length, any_end(random), changing);
    guarded_forget(&output_area);
    if (has_notes(input)) {
        bool is_written = is_event(input) && kept_in(&input->record) < room_for_events(input->record.events_length);
        lend_record(random, &input->record, is_watched && !is_written ? LEND_READ_ONLY : LEND_WRITABLE);
    }
}

/* Securing and checking go by either engine, one call in two each: what they leave must be the same. */
static bool is_on_ground(void) { return (place.stream + place.call / 3) % 2 == 1; }

static uint64_t call_module(const struct input *input)
{
    uint32_t *numbers = (uint32_t *)(void *)numbers_area.range;
    xistalvo_notes *notes = (xistalvo_notes *)(void *)notes_area.range;
    switch (input->which) {
    case CALL_LOAD:
        return xistalvo_load(image_area.range, input->image_length, numbers, input->numbers_length);
    case CALL_SECURE:
        return (is_on_ground() ? xistalvo_ground_secure : xistalvo_secure)(image_area.range, input->image_length, numbers,
                                                                           input->numbers_length, input->desk, input->kind,
                                                                           input->check_field, input->spi, frame_area.range,
                                                                           input->frame_length, output_area.range, input->output_length);
    case CALL_COMMAND:
        return xistalvo_command(notes, events_area.range, input->record.events_length, image_area.range, input->image_length, numbers,
                                input->numbers_length, input->desk, frame_area.range, input->frame_length, output_area.range,
                                input->output_length);
    default:
        return (is_on_ground() ? xistalvo_ground_check : xistalvo_check)(notes, events_area.range, input->record.events_length, image_area.range,
                                                                         input->image_length, numbers, input->numbers_length, input->desk,
                                                                         input->kind, input->check_field, frame_area.range,
                                                                         input->frame_length, output_area.range, input->output_length);
    }
}

static void take_all_back(void)
{
    bool image = guarded_take_back(&image_area);
    bool numbers = guarded_take_back(&numbers_area);
    bool frame = guarded_take_back(&frame_area);
    bool output = guarded_take_back(&output_area);
    if (!image || !numbers || !frame || !output) {
        both_fail("a guard octet beside a lent range was changed");
    }
}

static void read_document(const struct input *input, struct effect *effect)
{
    struct call call = {input->image, input->image_length, input->numbers, input->numbers_length, input->desk, input->kind,
                        input->check_field != 0, input->spi, input->frame, input->frame_length, input->output_length,
                        &input->record.notes, input->record.events, input->record.events_length};
    switch (input->which) {
    case CALL_LOAD:
        reading_load(&call, effect);
        break;
    case CALL_SECURE:
        reading_secure(&call, effect);
        break;
    case CALL_COMMAND:
        reading_command(&call, effect);
        break;
    default:
        reading_check(&call, effect);
        break;
    }
}

/* Changes the input to what is to be there after the call. */
static void carry_out(const struct effect *effect, struct input *input)
{
    carry_out_stores(effect, effect->store_count, input->image);
    if (effect->gives_numbers) {
        memcpy(input->numbers, effect->numbers, sizeof effect->numbers);
    }
    if (effect->sets_number) {
        input->numbers[effect->entry] = effect->number;
    }
    memcpy(input->output, effect->result, effect->length);
    carry_out_notes(effect, &input->record.notes, input->record.events);
}

static void compare_result(uint64_t result, const struct effect *effect)
{
    uint64_t expected = effect->length | (uint64_t)effect->store_count << 32 | (uint64_t)effect->answer << 40;
    if (result != expected) {
        char sentence[200];
        snprintf(sentence, sizeof sentence,
                 "the module answers %u, length %zu, stores %u (result %016" PRIX64 "); the reading %u, length %zu, stores %zu",
                 XISTALVO_ANSWER(result), XISTALVO_LENGTH(result), XISTALVO_STORES(result), result, effect->answer, effect->length,
                 effect->store_count);
        both_fail(sentence);
    }
}

/* Brings into the input what the module left in the lent ranges. */
static void fetch(struct input *input)
{
    memcpy(input->image, image_area.range, image_area.length);
    memcpy(input->numbers, numbers_area.range, numbers_area.length);
    memcpy(input->frame, frame_area.range, frame_area.length);
    memcpy(input->output, output_area.range, output_area.length);
}

static void fetch_record(struct record *record)
{
    notes_of_module(&record->notes);
    memcpy(record->events, events_area.range, events_area.length);
}

static void compare_ranges(const struct input *after, const struct input *expected)
{
    if (memcmp(after->image, expected->image, after->image_length) != 0) {
        both_fail("the image afterwards is not what it should be");
    }
    if (memcmp(after->numbers, expected->numbers, after->numbers_length * sizeof(uint32_t)) != 0) {
        both_fail("the numbers afterwards are not what they should be");
    }
    if (memcmp(after->output, expected->output, after->output_length) != 0) {
        both_fail("the output afterwards is not what it should be");
    }
    if (memcmp(after->frame, expected->frame, after->frame_length) != 0) {
        both_fail("the frame, or the command, was changed");
    }
}

static bool are_same_notes(const struct notes *one, const struct notes *other)
{
    return memcmp(one->reports, other->reports, sizeof one->reports) == 0 && one->kept == other->kept && one->dropped == other->dropped;
}

static void compare_records(const struct record *after, const struct record *expected)
{
    if (!are_same_notes(&after->notes, &expected->notes)) {
        fputs("the module's notes:\n", stderr);
        print_record(after);
        fputs("as they should be:\n", stderr);
        print_record(expected);
        both_fail("the notes afterwards are not what they should be");
    }
    if (memcmp(after->events, expected->events, after->events_length) != 0) {
        both_fail("the list of events afterwards is not what it should be");
    }
}

/* ---- notes, seen without the reading ---- */

bool is_event(const struct input *input)
{
    bool is_about_log = input->which == CALL_COMMAND && input->frame_length != 0 && (input->frame[0] == 0x33 || input->frame[0] == 0x34);
    return has_notes(input) && !is_about_log;
}

size_t kept_in(const struct record *record)
{
    size_t room = record->events_length / 3 < 256 ? record->events_length / 3 : 256;
    return record->notes.kept < room ? record->notes.kept : room;
}

/* 'Kept plus dropped equals the events since the last erase .. until dropped reaches 4,294,967,295 and stays': by this call, one more, or none. */
static void judge_count(const struct input *before, const struct input *after, unsigned answer)
{
    const struct notes *was = &before->record.notes, *is = &after->record.notes;
    size_t room = before->record.events_length / 3 < 256 ? before->record.events_length / 3 : 256;
    bool is_full = kept_in(&before->record) == room;
    uint32_t kept = was->kept, dropped = was->dropped;
    if (is_event(before) && is_full) {
        dropped += dropped < 4294967295u;
    } else if (is_event(before)) {
        kept++;
    } else if (before->frame[0] == 0x34 && answer == 0) {
        kept = dropped = 0;
    }
    if (is->kept != kept || is->dropped != dropped) {
        both_fail("a call was not counted once as an event that is kept or dropped, or what is none was counted");
    }
    size_t at = 3 * kept_in(&before->record), written = is_event(before) && !is_full ? 3 : 0;
    const uint8_t event[] = {before->desk, before->which == CALL_COMMAND && before->frame_length != 0 ? before->frame[0] : 0, (uint8_t)answer};
    if (memcmp(before->record.events, after->record.events, at) != 0 || memcmp(after->record.events + at, event, written) != 0
        || memcmp(before->record.events + at + written, after->record.events + at + written, before->record.events_length - at - written) != 0) {
        both_fail("an event was not entered behind the others, or other octets of the list were written");
    }
}

/* A check renews the report of its desk, an alarm reset that is done clears a bit of it, and nothing else touches one. A refused check sets the alarm. */
static void judge_reports(const struct input *before, const struct input *after, unsigned answer)
{
    bool resets = before->which == CALL_COMMAND && before->frame_length != 0 && before->frame[0] == 0x37 && answer == 0;
    for (size_t desk = 0; desk < DESK_COUNT; desk++) {
        const uint8_t *was = before->record.notes.reports[desk], *is = after->record.notes.reports[desk];
        bool is_own = desk == before->desk && (before->which == CALL_CHECK || resets);
        if (!is_own && memcmp(was, is, REPORT_LENGTH) != 0) {
            both_fail("a report was changed that is another desk's, or by a call that changes none");
        }
        bool has_alarm = (is[0] & 8) != 0, had_alarm = (was[0] & 8) != 0;
        if (is_own && (is[0] >> 4 != 0xC || has_alarm != (!resets && (answer != 0 || had_alarm)))) {
            both_fail("a report has another form, or an alarm that was not set or not cleared as it is to be");
        }
        if (resets && is_own && ((was[0] ^ is[0]) & 7) != 0) {
            both_fail("an alarm reset changed a flag");
        }
    }
}

/* 'A refusal reports length 0 and 0 stores, leaves image, output and numbers alone': seen without the reading. */
static void judge_refusal(uint64_t result, const struct input *after, const struct input *before)
{
    if (XISTALVO_LENGTH(result) != 0 || XISTALVO_STORES(result) != 0) {
        both_fail("a refusal reports a length or stores");
    }
    compare_ranges(after, before);
}

struct outcome both_run(struct random *random, struct input *input)
{
    static struct input before, expected;
    struct effect effect;
    before = *input;
    place.input = &before;
    if (is_comparing) {
        read_document(input, &effect);
    }
    lend_all(random, input, is_comparing && effect.answer != 0);
    uint64_t result = call_module(input);
    take_all_back();
    fetch(input);
    if (has_notes(input)) {
        if (!take_record_back()) {
            both_fail("a guard octet beside the notes or the list of events was changed");
        }
        fetch_record(&input->record);
    }

    if (is_comparing) {
        compare_result(result, &effect);
        expected = before;
        carry_out(&effect, &expected);
        compare_ranges(input, &expected);
        compare_records(&input->record, &expected.record);
    }
    if (XISTALVO_ANSWER(result) != 0) {
        judge_refusal(result, input, &before);
    }
    if (has_notes(input)) {
        judge_count(&before, input, XISTALVO_ANSWER(result));
        judge_reports(&before, input, XISTALVO_ANSWER(result));
    }
    place.input = NULL;
    struct outcome outcome = {XISTALVO_ANSWER(result), XISTALVO_LENGTH(result), XISTALVO_STORES(result)};
    return outcome;
}

void both_freshen(struct random *random, struct record *record)
{
    struct notes fresh;
    lend_record(random, record, LEND_READ_ONLY);
    xistalvo_fresh_notes((xistalvo_notes *)(void *)notes_area.range);
    if (!take_record_back()) {
        both_fail("a guard octet beside the notes was changed");
    }
    fetch_record(record);
    fresh_notes(&fresh);
    if (!are_same_notes(&record->notes, &fresh)) {
        both_fail("fresh notes are not what they should be");
    }
}

/* ---- the cut ---- */

uint32_t both_raise(struct random *random, uint8_t *image, size_t image_length, uint8_t entry, uint32_t number, uint32_t stores)
{
    static uint8_t expected[IMAGE_ROOM];
    memcpy(expected, image, image_length);
    guarded_lend(&image_area, image, image_length, any_end(random), LEND_WRITABLE);
    uint32_t made = xistalvo_raise(image_area.range, image_length, entry, number, stores);
    if (!guarded_take_back(&image_area)) {
        both_fail("a guard octet beside the image was changed by a cut");
    }
    memcpy(image, image_area.range, image_length);
    if (is_comparing) {
        uint32_t to_make = reading_raise(expected, image_length, entry, number, stores);
        if (made != to_make || memcmp(image, expected, image_length) != 0) {
            fprintf(stderr, "raise of entry %u to %" PRIu32 "/64 by %" PRIu32 " stores: made %" PRIu32 ", the reading %" PRIu32 "\n", entry,
                    number, stores, made, to_make);
            print_octets("image of the module", image, image_length);
            print_octets("image of the reading", expected, image_length);
            both_fail("a cut differs from the reading");
        }
    }
    return made;
}

uint32_t both_cut_command(struct random *random, struct input *input, uint32_t stores)
{
    static struct input expected;
    struct effect effect;
    expected = *input;
    place.input = &expected;
    guarded_lend(&image_area, input->image, input->image_length, any_end(random), LEND_WRITABLE);
    guarded_lend(&numbers_area, input->numbers, input->numbers_length * sizeof(uint32_t), any_end(random), LEND_READ_ONLY);
    guarded_lend(&frame_area, input->frame, input->frame_length, any_end(random), LEND_READ_ONLY);
    guarded_lend(&output_area, input->output, input->output_length, any_end(random), LEND_READ_ONLY);
    uint32_t made = xistalvo_command_cut(image_area.range, input->image_length, (const uint32_t *)(const void *)numbers_area.range,
                                         input->numbers_length, input->desk, frame_area.range, input->frame_length, input->output_length,
                                         stores);
    take_all_back();
    fetch(input);
    if (is_comparing) {
        read_document(&expected, &effect);
        if (made != (stores < effect.store_count ? stores : effect.store_count)) {
            both_fail("a cut command made another number of stores than the reading");
        }
        carry_out_stores(&effect, stores, expected.image);
        compare_ranges(input, &expected);
    }
    place.input = NULL;
    return made;
}
