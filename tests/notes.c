/* Frame report and event log (document 02, request 11) through the C interface. First, with figures of its own and beside the independent reading
 * (support/both.h): what a report becomes, by every answer to a check and for every desk; dump, erase and alarm reset from all 256 desks, in every form
 * and into outputs of every length; lists of events of every length; logs that are full, that count more than they hold, and that count no further.
 *
 * Then runs of checks, commands, sendings, loads and cuts, in which the test keeps its own list of what it called and was answered: 'Kept plus dropped
 * equals the events since the last erase, counted from the calls themselves', and each report is what the calls of its desk alone make of it. Every
 * second run looks at the module alone, without the reading. And what include/xistalvo_notes.h reads and says in words, beside the test's own.
 *
 *   notes [--seed S] [--count N] [--from W]
 *
 * The count is of runs. The figures are tried only where W is 0. tests/faults shows on broken readings that either part can fail. */
#include "../include/xistalvo_notes.h"
#include "support/both.h"
#include "support/commands.h"
#include "support/hexadecimal.h"
#include "support/options.h"
#include "support/worlds.h"

#include <inttypes.h>
#include <stdio.h>
#include <stdlib.h>
#include <string.h>

enum { UNTOUCHED = 0x5A, ROOM = 2048, LONGEST_DUMP = 1283, STEPS = 600, ENOUGH_RUNS = 20, ALARM = 8 };

static struct random test_random;
static uint64_t calls;

static void expect(bool is_right, const char *sentence)
{
    if (!is_right) {
        both_fail(sentence);
    }
}

static struct outcome run(struct input *input)
{
    calls++;
    return both_run(&test_random, input);
}

/* ---- the image of the figures ---- */

/* SPI 9 receives telecommands of channel 5, is desk 1's, and took 511 last; SPI 20 is the same for channel 6, desk 2's, and at rest. */
#define TWO \
    "04 02 0009 000E 0014 0025 FFFF 003C" \
    " 01 01 02 02 001B 05 00 0064 FFFFFFFFFF00 0007 00000004 01" \
    " 01 01 02 01 001B 06 00 0064 FFFFFFFFFF00 0007 00000000 02" \
    " 01 0007 01 000102030405060708090A0B0C0D0E0F101112131415161718191A1B1C1D1E1F"

enum { LAST = 511 };

static void lay_out(struct input *input)
{
    memset(input, 0, sizeof *input);
    input->image_length = octets_of(TWO, input->image);
    input->numbers_length = NUMBER_COUNT;
    input->numbers[0] = LAST;
    input->numbers[1] = 63;
    input->output_length = ROOM;
    memset(input->output, UNTOUCHED, ROOM);
    input->record.events_length = 768;
    memset(input->record.events, UNTOUCHED, EVENTS_ROOM);
    fresh_notes(&input->record.notes);
}

/* A frame of SPI 9 with this number, as the reading protects it, with a check field or none. */
static void put_frame(struct input *input, uint32_t number, bool has_field)
{
    struct table table;
    struct header header;
    uint8_t clear[64], sequence[SEQUENCE_LENGTH];
    size_t length = octets_of("001B1400 00 AABBCC", clear) + (has_field ? 2 : 0);
    write_tc_length(clear, length);
    if (has_field) {
        write_check_field(clear, length);
    }
    expect(read_image(input->image, input->image_length, &table) && read_clear_frame(1, has_field, clear, length, &header), "the test's own frame");
    iv_of_number(&table.entries[0], number, sequence);
    input->which = CALL_CHECK;
    input->kind = 1;
    input->check_field = has_field;
    input->frame_length = protect_frame(&table.entries[0], &header, sequence, clear, length, input->frame);
}

static void put_octets(struct input *input, const char *octets)
{
    input->which = CALL_COMMAND;
    input->frame_length = octets_of(octets, input->frame);
}

/* ---- what a report becomes ---- */

/* A check that is answered so: a frame of number 512, whose low octet is 0, or of 511 where the number is to be refused; 511 ends in 255. */
static void put_check(struct input *input, unsigned answer)
{
    enum { SPI_AT = 5, MAC_AT = 5 + 6 + 3 };
    put_frame(input, answer == 8 ? LAST : LAST + 1, answer == 12);
    switch (answer) {
    case 1: input->image[0] = 5; break;
    case 2: input->numbers[0] += 64; break;
    case 3: input->frame[0] ^= 0x40; break;
    case 4: input->frame[SPI_AT + 1] = 10; break;
    case 5: input->frame_length -= 3; write_tc_length(input->frame, input->frame_length); break;
    case 6: input->output_length = 2; break;
    case 7: input->frame[MAC_AT] ^= 1; break;
    case 12: input->frame[input->frame_length - 1] ^= 1; break;
    case 19: input->desk = 3; break;
    default: break;
    }
}

/* What was there: nothing; every flag, and the alarm; octets that are no report. What is there then. */
enum { STARTS = 4 };
static const char *const started[STARTS] = {"C0 0000 00", "CF ABCD EF", "C5 1234 56", "37 5A5A A5"};

static const struct {
    unsigned answer;
    const char *becomes[STARTS];
} renewals[] = {
    {0, {"C0 0009 00", "C8 0009 00", "C0 0009 00", "C0 0009 00"}},
    {1, {"C8 0000 00", "CF ABCD EF", "CD 1234 56", "CF 5A5A A5"}},
    {2, {"C8 0000 00", "CF ABCD EF", "CD 1234 56", "CF 5A5A A5"}},
    {3, {"C8 0000 00", "CF ABCD EF", "CD 1234 56", "CF 5A5A A5"}},
    {4, {"C9 000A 00", "C9 000A 00", "C9 000A 00", "C9 000A 00"}},
    {5, {"C8 0009 FF", "C8 0009 FF", "C8 0009 FF", "C8 0009 FF"}},
    {6, {"C8 0009 FF", "C8 0009 FF", "C8 0009 FF", "C8 0009 FF"}},
    {7, {"CA 0009 FF", "CA 0009 FF", "CA 0009 FF", "CA 0009 FF"}},
    {8, {"CC 0009 FF", "CC 0009 FF", "CC 0009 FF", "CC 0009 FF"}},
    {12, {"C8 0000 00", "CF ABCD EF", "CD 1234 56", "CF 5A5A A5"}},
};

enum { RENEWALS = sizeof renewals / sizeof renewals[0] };

/* Whether a frame is answered so by its association, which desk 2 does not see. */
static bool is_of_entry(unsigned answer)
{
    return answer == 0 || (answer >= 5 && answer <= 8);
}

/* What a check that the key office is answered so is answered to another desk. */
static unsigned answer_to(unsigned desk, unsigned answer)
{
    if (desk > 2) {
        return answer == 1 || answer == 2 ? answer : 19;
    }
    return desk == 2 && is_of_entry(answer) ? 4 : answer;
}

/* Every report starts as the others do; the desk's own becomes what the table says, and the two others stay. */
static void try_report(unsigned answer, unsigned desk, size_t start, const char *becomes)
{
    static struct input input;
    lay_out(&input);
    for (size_t i = 0; i < DESK_COUNT; i++) {
        octets_of(started[start], input.record.notes.reports[i]);
    }
    input.desk = (uint8_t)desk;
    put_check(&input, answer);
    unsigned given = run(&input).answer;
    expect(given == answer_to(desk, answer), "a check of the figures is answered otherwise");
    for (size_t i = 0; i < DESK_COUNT; i++) {
        uint8_t expected[REPORT_LENGTH];
        octets_of(i == desk ? becomes : started[start], expected);
        expect(memcmp(input.record.notes.reports[i], expected, REPORT_LENGTH) == 0, "a report is not what the request's table makes of it");
    }
    const uint8_t event[] = {(uint8_t)desk, 0, (uint8_t)given};
    expect(input.record.notes.kept == 1 && memcmp(input.record.events, event, sizeof event) == 0, "a check is not the event that it is to be");
}

static void try_reports(void)
{
    for (size_t start = 0; start < STARTS; start++) {
        for (size_t row = 0; row < RENEWALS; row++) {
            unsigned answer = renewals[row].answer;
            try_report(answer, 0, start, renewals[row].becomes[start]);
            try_report(answer, 1, start, renewals[row].becomes[start]);
            /* desk 2 does not see SPI 9: another's association is a bad one, with its SPI, whatever else is wrong with the frame */
            try_report(answer, 2, start, is_of_entry(answer) ? "C9 0009 00" : renewals[row].becomes[start]);
            for (unsigned desk = 3; desk < 256; desk += 63) {
                try_report(answer, desk, start, "");
            }
        }
    }
}

/* A bad MAC and a stale number told apart, an alarm that stays through good frames, and its reset: one way through. */
static void try_way(void)
{
    static const struct {
        unsigned desk, answer;
        const char *command; /* or NULL: a frame */
        const char *reports;
    } way[] = {
        {1, 0, NULL, "C0000000 C0000900 C0000000"}, {1, 7, NULL, "C0000000 CA000900 C0000000"}, {1, 8, NULL, "C0000000 CC000900 C0000000"},
        {0, 0, NULL, "C0000901 CC000900 C0000000"}, {1, 0, NULL, "C0000901 C8000902 C0000000"}, {2, 0, "37 0000", "C0000901 C8000902 C0000000"},
        {0, 0, "37 0000", "C0000901 C8000902 C0000000"}, {1, 13, "37 0001 00", "C0000901 C8000902 C0000000"},
        {3, 19, "37 0000", "C0000901 C8000902 C0000000"}, {1, 0, "37 0000", "C0000901 C0000902 C0000000"},
        {1, 8, NULL, "C0000901 CC000902 C0000000"}, {1, 0, "37 0000", "C0000901 C4000902 C0000000"},
    };
    static struct input input;
    uint8_t expected[DESK_COUNT * REPORT_LENGTH];
    lay_out(&input);
    for (size_t i = 0; i < sizeof way / sizeof way[0]; i++) {
        input.desk = (uint8_t)way[i].desk;
        if (way[i].command != NULL) {
            put_octets(&input, way[i].command);
        } else {
            put_frame(&input, input.numbers[0] + (way[i].answer == 8 ? 0 : 1), false);
            input.frame[input.frame_length - 1] ^= way[i].answer == 7;
        }
        expect(run(&input).answer == way[i].answer, "a call of the way is answered otherwise");
        octets_of(way[i].reports, expected);
        expect(memcmp(input.record.notes.reports, expected, sizeof expected) == 0, "a report on the way is another");
    }
    expect(input.record.notes.kept == sizeof way / sizeof way[0] && input.record.notes.dropped == 0, "the way has other events than calls");
}

/* ---- dump, erase and alarm reset ---- */

/* A log of three events and five dropped ones, and every flag and alarm in every report. */
static void lay_out_command(struct input *input, unsigned tag, unsigned desk, size_t length)
{
    lay_out(input);
    input->which = CALL_COMMAND;
    input->desk = (uint8_t)desk;
    input->frame[0] = (uint8_t)tag;
    input->frame[2] = (uint8_t)(length > 3 && desk % 2 == 1 ? length - 3 : 0);
    input->frame_length = length;
    input->record.notes.kept = 3;
    input->record.notes.dropped = 5;
    memset(input->record.notes.reports, 0xCF, sizeof input->record.notes.reports);
}

static void judge_command(const struct input *after, unsigned tag, unsigned desk, unsigned answer)
{
    const struct notes *notes = &after->record.notes;
    bool is_erased = answer == 0 && tag == TAG_ERASE, is_reset = answer == 0 && tag == TAG_ALARM_RESET;
    expect(notes->kept == (is_erased ? 0u : tag == TAG_ALARM_RESET ? 4u : 3u) && notes->dropped == (is_erased ? 0u : 5u),
           "a command about the notes leaves other counts");
    for (unsigned i = 0; i < DESK_COUNT; i++) {
        expect(notes->reports[i][0] == (is_reset && i == desk ? 0xC7 : 0xCF), "a command about the notes leaves another alarm");
    }
}

/* As it is; with a wrong image, wrong numbers, 31 of them, and 33 and a wrong image; and with an output one octet too short. */
static void try_command(unsigned tag, unsigned desk, size_t length)
{
    static const unsigned first[] = {0, 1, 2, 2, 1};
    static const size_t counts[] = {NUMBER_COUNT, NUMBER_COUNT, NUMBER_COUNT, 31, 33};
    static struct input input, prepared;
    unsigned due = desk > 2 || (tag != TAG_ALARM_RESET && desk != 0) ? 19 : length != 3 ? 13 : 0;
    lay_out_command(&prepared, tag, desk, length);
    for (unsigned wrong = 0; wrong < 5; wrong++) {
        unsigned answer = wrong == 0 ? due : first[wrong];
        input = prepared;
        input.image[0] = answer == 1 ? 0 : 4;
        input.numbers[0] ^= wrong == 2 ? 64 : 0;
        input.numbers_length = counts[wrong];
        expect(run(&input).answer == answer, "a command about the notes is answered otherwise");
        judge_command(&input, tag, desk, answer);
    }
    input = prepared;
    input.output_length = tag == TAG_DUMP ? 17 : 6;
    unsigned answer = due != 0 || tag == TAG_ALARM_RESET ? due : 6;
    expect(run(&input).answer == answer, "6 does not come last, or not at all");
    judge_command(&input, tag, desk, answer);
}

/* From every desk, in every form of up to nine octets. */
static void try_commands(void)
{
    for (size_t length = 1; length <= 9; length++) {
        for (unsigned desk = 0; desk < 256; desk++) {
            try_command(TAG_DUMP, desk, length);
            try_command(TAG_ERASE, desk, length);
            try_command(TAG_ALARM_RESET, desk, length);
        }
    }
}

/* An event for each place, so that no two of a log are the same for a desk. */
static void put_events(struct record *record)
{
    for (size_t i = 0; i < record->events_length / 3; i++) {
        record->events[3 * i] = (uint8_t)(i % 5);
        record->events[3 * i + 1] = (uint8_t)(i * 7 + 1);
        record->events[3 * i + 2] = (uint8_t)(i * 3 + 2);
    }
}

/* The reply that the test itself makes of the first so many. */
static size_t dump_of(const struct record *record, size_t count, uint8_t *reply)
{
    const uint8_t form[] = {0xB3, (uint8_t)(5 * count >> 8), (uint8_t)(5 * count & 0xFF)};
    memcpy(reply, form, sizeof form);
    for (size_t i = 0; i < count; i++) {
        const uint8_t line[] = {record->events[3 * i + 1], 0, 2, record->events[3 * i], record->events[3 * i + 2]};
        memcpy(reply + 3 + 5 * i, line, sizeof line);
    }
    return 3 + 5 * count;
}

/* Logs of few, of all and of more events than there is room for, dumped into an output of every length, and every rest of it. */
static void try_dumps(void)
{
    static const uint32_t kept[] = {0, 1, 2, 127, 255, 256, 257, 4294967295u};
    static struct input input;
    static uint8_t expected[ROOM];
    for (size_t i = 0; i < sizeof kept / sizeof kept[0]; i++) {
        size_t count = kept[i] > 256 ? 256 : kept[i];
        for (size_t room = 0; room <= LONGEST_DUMP + 7; room++) {
            lay_out(&input);
            put_octets(&input, "33 0000");
            put_events(&input.record);
            input.record.notes.kept = kept[i];
            input.output_length = room;
            size_t length = dump_of(&input.record, count, expected);
            memset(expected + length, UNTOUCHED, sizeof expected - length);
            struct outcome outcome = run(&input);
            expect(outcome.answer == (room < length ? 6 : 0) && outcome.length == (room < length ? 0 : length), "a dump is answered otherwise");
            expect(room < length || memcmp(input.output, expected, room) == 0, "a dump has other octets than the log");
            expect(input.record.notes.kept == kept[i], "a dump changed the log");
        }
    }
}

/* ---- lists of every length ---- */

static void ping(struct input *input)
{
    put_octets(input, "31 0000");
    input->desk = (uint8_t)(calls % 3);
    expect(run(input).answer == 0, "a ping is refused");
}

/* From a log that is two short of full to one that dropped, and an erase with its free space; a log filled from nothing where the list is short. */
static void try_lists(void)
{
    static struct input input;
    for (size_t length = 0; length <= LONGEST_LIST; length++) {
        size_t room = length / 3 > 256 ? 256 : length / 3;
        uint32_t there = length < 40 || length % 97 == 0 || room < 2 ? 0 : (uint32_t)room - 2;
        lay_out(&input);
        input.record.events_length = length;
        input.record.notes.kept = there;
        uint32_t events = (uint32_t)room - there + 3;
        for (uint32_t i = 0; i < events; i++) {
            ping(&input);
        }
        expect(input.record.notes.kept == room && input.record.notes.dropped == 3, "a list keeps other than as many whole events as fit, at most 256");
        expect(memcmp(input.record.events + 3 * room, input.record.events + 3 * room + 1, length - 3 * room > 1 ? length - 3 * room - 1 : 0) == 0,
               "octets behind the room of a list were written");
        static struct record full;
        full = input.record;
        input.desk = 0;
        put_octets(&input, "34 0000");
        struct outcome outcome = run(&input);
        const uint8_t reply[] = {0xB4, 0, 4, 0, 0, (uint8_t)(3 * room >> 8), (uint8_t)(3 * room & 0xFF)};
        expect(outcome.answer == 0 && outcome.length == sizeof reply && memcmp(input.output, reply, sizeof reply) == 0, "an erase has another reply");
        expect(input.record.notes.kept == 0 && input.record.notes.dropped == 0, "an erase leaves events");
        expect(memcmp(input.record.events, full.events, length) == 0, "an erase writes into the list");
    }
}

/* ---- logs that are full ---- */

static void try_full(void)
{
    static const uint32_t dropped[] = {0, 1, 4294967290u, 4294967293u, 4294967294u, 4294967295u};
    static const uint32_t kept[] = {256, 257, 300, 65536, 4294967295u};
    static struct input input;
    for (size_t i = 0; i < sizeof dropped / sizeof dropped[0]; i++) {
        for (size_t j = 0; j < sizeof kept / sizeof kept[0]; j++) {
            lay_out(&input);
            put_events(&input.record);
            struct record before = input.record;
            input.record.notes.kept = kept[j];
            input.record.notes.dropped = dropped[i];
            for (uint64_t count = 1; count <= 8; count++) {
                ping(&input);
                uint64_t due = dropped[i] + count > 4294967295u ? 4294967295u : dropped[i] + count;
                expect(input.record.notes.dropped == due && input.record.notes.kept == kept[j], "a full log does not count one more, or does not stay");
            }
            expect(memcmp(input.record.events, before.events, 768) == 0, "an event was written over those that a full log keeps");
        }
    }
}

/* A log from nothing past its end, by every kind of call: the first 256 stay, and the rest is counted. */
static void try_long_log(void)
{
    enum { EVENTS = 3000 };
    static struct input input;
    static uint8_t events[3 * EVENTS], expected[ROOM];
    lay_out(&input);
    for (size_t i = 0; i < EVENTS; i++) {
        unsigned answer = renewals[i % RENEWALS].answer;
        struct record record = input.record;
        if (i % 3 != 0) {
            lay_out(&input);
            put_check(&input, answer);
            input.record = record;
        } else {
            input.record = record;
            put_octets(&input, i % 2 == 0 ? "1F 0002 0009" : i % 5 == 0 ? "" : "77 0000");
            input.numbers[0] = LAST;
            octets_of(TWO, input.image);
            input.image_length = octets_of(TWO, input.image);
        }
        input.desk = (uint8_t)(i * 11 % 256 < 200 ? i % 3 : i % 256);
        struct outcome outcome = run(&input);
        events[3 * i] = input.desk;
        events[3 * i + 1] = input.which == CALL_COMMAND && input.frame_length != 0 ? input.frame[0] : 0;
        events[3 * i + 2] = (uint8_t)outcome.answer;
        size_t told = i + 1 < 256 ? i + 1 : 256;
        expect(input.record.notes.kept == told && input.record.notes.dropped == i + 1 - told, "events are counted otherwise than they were made");
        expect(memcmp(input.record.events, events, 3 * told) == 0, "the log is not the events that were made");
    }
    lay_out(&input);
    input.record.notes.kept = 256;
    memcpy(input.record.events, events, 768);
    put_octets(&input, "33 0000");
    size_t length = dump_of(&input.record, 256, expected);
    expect(run(&input).length == length && length == LONGEST_DUMP && memcmp(input.output, expected, length) == 0, "the longest dump is another");
}

/* ---- what the header reads and says ---- */

static void try_header_reports(void)
{
    static const struct {
        uint32_t report;
        const char *words;
    } said[] = {
        {UINT32_C(0xC0000000), "SPI 0, number ends in 0: no alarm"},
        {UINT32_C(0xCA000941), "SPI 9, number ends in 65: bad MAC, alarm"},
        {UINT32_C(0xCC000941), "SPI 9, number ends in 65: bad number, alarm"},
        {UINT32_C(0xC9FFFE00), "SPI 65534, number ends in 0: bad association, alarm"},
        {UINT32_C(0xCFFFFFFF), "SPI 65535, number ends in 255: bad number, bad MAC, bad association, alarm"},
        {UINT32_C(0xC8ABCDEF), "SPI 43981, number ends in 239: alarm"},
        {UINT32_C(0x01000000), "no report"},
        {UINT32_C(0), "no report"},
    };
    char text[XISTALVO_WORDS];
    for (size_t i = 0; i < sizeof said / sizeof said[0]; i++) {
        size_t length = strlen(said[i].words);
        for (size_t room = 0; room <= sizeof text; room++) {
            memset(text, UNTOUCHED, sizeof text);
            expect(xistalvo_say_report(said[i].report, text, room) == length, "a report is said in a text of another length");
            size_t put = room == 0 ? 0 : length < room ? length : room - 1;
            expect(memcmp(text, said[i].words, put) == 0 && (room == 0 || text[put] == '\0'), "a report is said otherwise");
            expect(put + (room != 0) == sizeof text || text[put + (room != 0)] == UNTOUCHED, "octets are written beside a text");
        }
    }
}

static void try_header_fields(void)
{
    xistalvo_notes notes;
    for (unsigned number = 0; number < 20000; number++) {
        random_octets(&test_random, notes.reports, sizeof notes.reports);
        unsigned desk = number % 3;
        const uint8_t *octets = notes.reports + 4 * desk;
        uint32_t report = xistalvo_report_of(&notes, (uint8_t)desk);
        uint8_t ocf[4];
        expect(report == xistalvo_report_in(octets) && xistalvo_put_report(&notes, (uint8_t)desk, ocf) == 4 && memcmp(ocf, octets, 4) == 0
                   && report == (((uint32_t)octets[0] * 256 + octets[1]) * 256 + octets[2]) * 256 + octets[3],
               "a report is misread");
        expect(xistalvo_is_report(report) == (octets[0] / 16 == 12) && xistalvo_has_alarm(report) == octets[0] / 8 % 2
                   && xistalvo_has_bad_number(report) == octets[0] / 4 % 2 && xistalvo_has_bad_mac(report) == octets[0] / 2 % 2
                   && xistalvo_has_bad_association(report) == octets[0] % 2 && xistalvo_spi_of_report(report) == octets[1] * 256 + octets[2]
                   && xistalvo_number_of_report(report) == octets[3],
               "a field of a report is misread");
        expect(xistalvo_report_of(&notes, (uint8_t)(3 + number % 253)) == 0 && xistalvo_put_report(&notes, (uint8_t)(3 + number % 253), ocf) == 0
                   && memcmp(ocf, octets, 4) == 0,
               "there is a report of no desk");
    }
}

static void try_header_words(void)
{
    static const struct {
        struct xistalvo_event event;
        const char *words;
    } said[] = {
        {{1, 0, 7}, "desk 1, check: MAC differs"},
        {{0, 0x31, 0}, "desk 0, ping: done"},
        {{255, 0x37, 19}, "desk 255, alarm reset: no such desk, or not a command of that desk"},
        {{2, 0x77, 13}, "desk 2, no command of the module: no such command, or of another length"},
    };
    char text[XISTALVO_WORDS];
    for (size_t i = 0; i < sizeof said / sizeof said[0]; i++) {
        expect(xistalvo_say_event(said[i].event, text, sizeof text) == strlen(said[i].words) && strcmp(text, said[i].words) == 0,
               "an event is said otherwise");
    }
    for (unsigned tag = 0; tag < 256; tag++) {
        for (unsigned answer = 0; answer < 256; answer++) {
            const struct xistalvo_event event = {255, (uint8_t)tag, (uint8_t)answer};
            expect(xistalvo_say_event(event, text, sizeof text) < XISTALVO_WORDS, "an event needs more words than there is room for");
        }
        size_t known = index_of_tag(tag);
        const char *name = xistalvo_command_name((uint8_t)tag);
        expect(strcmp(name, tag == 0 ? "check" : known < TAG_COUNT ? tag_names[known] : "no command of the module") == 0, "a command has another name");
    }
}

/* A log in a list of this length, dumped by the module and read by the header, and erased. */
static void try_header_list(size_t length)
{
    static struct input input;
    lay_out(&input);
    input.record.events_length = length;
    put_events(&input.record);
    input.record.notes.kept = random_below(&test_random, 300);
    size_t kept = kept_in(&input.record);
    xistalvo_notes notes;
    notes.kept = input.record.notes.kept;
    expect(xistalvo_events_kept(&notes, length) == kept && xistalvo_room_for_events(length) == room_for_events(length), "the header counts otherwise");
    put_octets(&input, "33 0000");
    struct outcome outcome = run(&input);
    expect(xistalvo_is_reply(TAG_DUMP, input.output, outcome.length) && xistalvo_events_in(input.output) == kept
               && outcome.length == XISTALVO_DUMP_REPLY_LENGTH(kept) && outcome.length <= XISTALVO_LARGEST_REPLY,
           "a dump's reply is not known for one");
    expect(!xistalvo_is_reply(TAG_DUMP, input.output, outcome.length - 1) && !xistalvo_is_reply(TAG_ERASE, input.output, outcome.length),
           "what is no reply is known for one");
    for (size_t i = 0; i < kept; i++) {
        struct xistalvo_event one = xistalvo_event_at(input.record.events, i), other = xistalvo_event_in(input.output, i);
        const uint8_t *event = input.record.events + 3 * i;
        expect(one.desk == event[0] && one.tag == event[1] && one.answer == event[2], "an event in a list is misread");
        expect(other.desk == event[0] && other.tag == event[1] && other.answer == event[2], "an event in a dump is misread");
    }
    put_octets(&input, "34 0000");
    outcome = run(&input);
    expect(xistalvo_is_reply(TAG_ERASE, input.output, outcome.length) && xistalvo_events_left_in(input.output) == 0
               && xistalvo_free_space_in(input.output) == 3 * room_for_events(length),
           "an erase's reply is misread");
}

static void try_header_lists(void)
{
    for (size_t length = 0; length <= LONGEST_LIST; length++) {
        try_header_list(length);
    }
}

/* ---- runs ---- */

/* What the test itself knows of an end: every event since the last erase, and the reports, as it makes them of the calls. */
enum { MOST_KNOWN = STEPS + 8 };

struct known {
    uint64_t dropped_at_start;
    size_t kept_at_start;
    size_t count;
    uint8_t events[3 * (256 + MOST_KNOWN)];
    uint8_t reports[DESK_COUNT][REPORT_LENGTH];
};

struct totals {
    uint64_t steps, checks, commands, others, events, full, dumps, erases, stuck, loads, cuts, alarms, resets, short_lists;
    uint64_t told[DESK_COUNT][20]; /* checks, by desk and answer */
};

static struct totals totals;

static void start_run(struct random *random, struct end *end, struct known *known)
{
    const struct record *record = &end->record;
    if (random_percent(random, 40)) {
        both_freshen(random, &end->record);
    }
    known->kept_at_start = kept_in(record);
    known->dropped_at_start = record->notes.dropped;
    known->count = 0;
    memcpy(known->events, record->events, 3 * known->kept_at_start);
    memcpy(known->reports, record->notes.reports, sizeof known->reports);
    totals.short_lists += record->events_length < 768;
}

/* The SPI of a frame that obeys its kind, and the number of its association afterwards. */
static void learn_report(struct known *known, const struct input *input, unsigned answer)
{
    struct table table;
    struct header header;
    if (input->desk > 2) {
        return;
    }
    uint8_t *report = known->reports[input->desk];
    totals.told[input->desk][answer]++;
    report[0] = (uint8_t)(0xC0 + report[0] % 16);
    if (answer != 0) {
        report[0] |= ALARM;
    }
    if (answer == 1 || answer == 2 || answer == 3 || answer == 12) {
        return;
    }
    expect(read_secured_frame(input->kind, input->check_field != 0, input->frame, input->frame_length, &header), "a frame has no SPI to report");
    expect(read_image(input->image, input->image_length, &table), "an image breaks a rule, and a frame was looked at");
    report[0] = (uint8_t)((report[0] & 0xF8) + (answer == 8 ? 4 : answer == 7 ? 2 : answer == 4 ? 1 : 0));
    report[1] = input->frame[header.length];
    report[2] = input->frame[header.length + 1];
    report[3] = 0;
    for (size_t i = 0; answer != 4 && i < table.count; i++) {
        if (table.entries[i].spi == report[1] * 256u + report[2]) {
            report[3] = (uint8_t)(input->numbers[i] & 0xFF);
        }
    }
}

/* What the notes say is what the test knows: as many events as the list has room for, the first that there were, and the others counted. */
static void judge_notes(const struct known *known, const struct record *record, bool is_entered)
{
    size_t room = record->events_length / 3 > 256 ? 256 : record->events_length / 3;
    size_t all = known->kept_at_start + known->count, kept = all < room ? all : room;
    uint64_t dropped = known->dropped_at_start + (all - kept);
    expect(kept_in(record) == kept, "not as many events are kept as there were, or as there is room for");
    expect(record->notes.dropped == (dropped > 4294967295u ? 4294967295u : dropped), "not as many events are dropped as found no room");
    expect(memcmp(record->events, known->events, 3 * kept) == 0, "the events that are kept are not the first that there were");
    expect(memcmp(record->notes.reports, known->reports, sizeof known->reports) == 0, "a report is not what the calls of its desk make of it");
    totals.full += is_entered && all > room;
    totals.stuck += dropped > 4294967295u;
    for (size_t desk = 0; desk < DESK_COUNT; desk++) {
        totals.alarms += (known->reports[desk][0] & ALARM) != 0;
    }
}

static void judge_dump(const struct known *known, const struct input *input)
{
    static uint8_t expected[ROOM];
    static struct record dumped;
    size_t kept = kept_in(&input->record);
    memcpy(dumped.events, known->events, 3 * kept);
    size_t length = dump_of(&dumped, kept, expected);
    expect(memcmp(input->output, expected, length) == 0, "a dump is not what the test knows of the log");
    totals.dumps++;
}

/* One call was made: what the test knows then, and that the notes say it. */
static void learn(struct known *known, const struct input *input, unsigned answer)
{
    unsigned tag = input->which == CALL_CHECK || input->frame_length == 0 ? 0 : input->frame[0];
    bool is_entered = tag != 0x33 && tag != 0x34;
    totals.checks += input->which == CALL_CHECK;
    totals.commands += input->which == CALL_COMMAND;
    if (input->which == CALL_CHECK) {
        learn_report(known, input, answer);
    }
    if (tag == 0x37 && answer == 0) {
        totals.resets += known->reports[input->desk][0] / 8 % 2;
        known->reports[input->desk][0] = (uint8_t)(0xC0 + known->reports[input->desk][0] % 8);
    }
    if (tag == 0x34 && answer == 0) {
        known->count = known->kept_at_start = 0;
        known->dropped_at_start = 0;
        totals.erases++;
    }
    if (is_entered) {
        const uint8_t event[] = {input->desk, (uint8_t)tag, (uint8_t)answer};
        memcpy(known->events + 3 * (known->kept_at_start + known->count), event, sizeof event);
        known->count++;
        totals.events++;
    }
    judge_notes(known, &input->record, is_entered);
    if (tag == 0x33 && answer == 0) {
        judge_dump(known, input);
    }
}

/* A check of a frame that the reading protected: as it is to be, of an old number, of one beyond the window, with a bit changed, cut short, or for too
 * short an output. */
static void make_check(struct random *random, const struct table *table, size_t entry, struct input *input)
{
    struct header header;
    uint8_t clear[FRAME_ROOM], sequence[SEQUENCE_LENGTH];
    const struct association *association = &table->entries[entry];
    bool has_field = association->kind != 4 && random_percent(random, 40);
    input->which = CALL_CHECK;
    input->kind = (uint8_t)association->kind;
    input->check_field = has_field;
    input->frame_length = make_clear_frame(random, association, has_field, random_between(random, 1, 24), input->frame);
    expect(read_clear_frame(association->kind, has_field, input->frame, input->frame_length, &header), "the test's own frame");
    memcpy(clear, input->frame, input->frame_length);
    iv_of_number(association, (uint64_t)input->numbers[entry] + random_below(random, association->window + 3), sequence);
    input->frame_length = protect_frame(association, &header, sequence, clear, input->frame_length, input->frame);
    uint32_t chance = random_below(random, 100);
    if (chance < 30) {
        input->frame[random_below(random, (uint32_t)input->frame_length)] ^= (uint8_t)(1u << random_below(random, 8));
        if (has_field && random_percent(random, 60)) {
            write_check_field(input->frame, input->frame_length);
        }
    } else if (chance < 40) {
        input->frame_length -= random_between(random, 1, (uint32_t)input->frame_length - 1);
        if (has_length_field(association->kind) && input->frame_length >= 5) {
            write_tc_length(input->frame, input->frame_length);
        }
        if (has_field && input->frame_length >= 7) {
            write_check_field(input->frame, input->frame_length);
        }
    } else if (chance < 46) {
        input->output_length = 0;
    }
}

static void make_run_command(struct random *random, struct end *end, const struct table *table, size_t entry, struct input *input)
{
    struct association association = table->entries[entry];
    unsigned tag = random_percent(random, 35) ? RANDOM_OF(random, TAG_DUMP, TAG_ERASE, TAG_ALARM_RESET) : every_tag[random_below(random, TAG_COUNT)];
    if (tag == TAG_ERASE && random_percent(random, 85)) {
        tag = TAG_STATUS;
    }
    input->which = CALL_COMMAND;
    make_command(random, input, tag, &association, end->numbers[entry]);
    if (random_percent(random, 12)) {
        break_command(random, input);
    } else if (random_percent(random, 3)) {
        input->frame_length = 0;
    }
    input->output_length = random_percent(random, 90) ? ROOM : random_below(random, ROOM);
}

/* A check or a command, which counts; now and then with an image or numbers that are wrong, for this call alone. */
static void step_call(struct random *random, struct end *end, struct known *known)
{
    static struct input input;
    struct table table;
    table_of(end, &table);
    size_t entry = random_below(random, (uint32_t)table.count);
    input_of_end(&input, CALL_CHECK, end);
    input.output_length = ROOM;
    memset(input.output, UNTOUCHED, ROOM);
    if (random_percent(random, 65)) {
        make_check(random, &table, entry, &input);
    } else {
        make_run_command(random, end, &table, entry, &input);
    }
    input.desk = any_desk(random, &table.entries[entry]);
    bool is_broken = random_percent(random, 6);
    if (is_broken && random_percent(random, 50)) {
        input.image[0] = 9;
    } else if (is_broken) {
        input.numbers_length = RANDOM_OF(random, 0, 31, 33);
    }
    unsigned answer = run(&input).answer;
    learn(known, &input, answer);
    if (is_broken) {
        notes_of_input(end, &input);
    } else {
        end_of_input(end, &input);
    }
}

/* A load, a sending or a cut, which do not. */
static void step_other(struct random *random, struct end *end)
{
    static struct input input;
    struct table table;
    struct record before = end->record;
    table_of(end, &table);
    size_t entry = random_below(random, (uint32_t)table.count);
    const struct association *association = &table.entries[entry];
    input_of_end(&input, CALL_LOAD, end);
    switch (random_below(random, 3)) {
    case 0:
        totals.loads++;
        run(&input);
        end_of_input(end, &input);
        break;
    case 1:
        input.which = CALL_SECURE;
        input.kind = (uint8_t)association->kind;
        input.spi = (uint16_t)association->spi;
        input.desk = any_desk(random, association);
        input.output_length = ROOM;
        input.frame_length = make_clear_frame(random, association, false, random_between(random, 1, 24), input.frame);
        run(&input);
        end_of_input(end, &input);
        break;
    default:
        totals.cuts++;
        make_run_command(random, end, &table, entry, &input);
        both_cut_command(random, &input, random_below(random, 18));
        memcpy(end->image, input.image, end->image_length);
        input_of_end(&input, CALL_LOAD, end);
        expect(run(&input).answer == 0, "an image does not load after a cut");
        end_of_input(end, &input);
        break;
    }
    expect(memcmp(&before, &end->record, sizeof before) == 0, "a load, a sending or a cut changed the notes");
    totals.others++;
}

static void run_once(struct options options, uint64_t number)
{
    static struct world world;
    static struct known known;
    struct random random = random_stream(options.seed, number);
    both_compare(number % 2 == 1);
    make_world(&random, &world, random_between(&random, 1, 5));
    struct table table;
    table_of(&world.ends[0], &table);
    for (size_t i = 0; i < table.count; i++) { /* so that frames are checked more than refused */
        table.entries[i].direction = 2;
        bring_to_service(&random, &table, i, table.entries[i].key);
    }
    set_table(&world.ends[0], &table);
    start_run(&random, &world.ends[0], &known);
    test_random = random_stream(options.seed, ~number);
    for (unsigned step = 0; step < STEPS; step++) {
        both_at(options.seed, number, step);
        if (random_percent(&random, 90)) {
            step_call(&random, &world.ends[0], &known);
        } else {
            step_other(&random, &world.ends[0]);
        }
        totals.steps++;
    }
    both_compare(true);
}

static bool runs_are_enough(void)
{
    bool is_enough = totals.full > 0 && totals.stuck > 0 && totals.dumps > 0 && totals.erases > 0 && totals.resets > 0 && totals.alarms > 0
        && totals.short_lists > 0 && totals.loads > 0 && totals.cuts > 0;
    for (size_t desk = 0; desk < DESK_COUNT; desk++) {
        for (unsigned answer = 0; answer < 20; answer++) {
            is_enough = is_enough && (totals.told[desk][answer] > 0) == (answer <= 8 || answer == 12);
        }
    }
    return is_enough;
}

static void try_figures(struct options options)
{
    void (*const parts[])(void) = {try_reports, try_way, try_commands, try_dumps, try_lists, try_full, try_long_log, try_header_reports,
                                   try_header_fields, try_header_words, try_header_lists};
    test_random = random_stream(options.seed, 0);
    for (size_t i = 0; i < sizeof parts / sizeof parts[0]; i++) {
        both_at(options.seed, 0, i);
        parts[i]();
    }
    printf("notes: %" PRIu64
           " calls: every report, every form and desk of dump, erase and alarm reset, every length of output and of list as the request says\n",
           calls);
}

int main(int argument_count, char **arguments)
{
    struct options options = options_of(argument_count, arguments, 200);
    both_prepare("notes");
    if (options.from == 0) {
        try_figures(options);
    }
    for (uint64_t i = 0; i < options.count; i++) {
        run_once(options, options.from + i);
    }
    printf("notes: seed %" PRIu64 ", %" PRIu64 " runs of %d steps: %" PRIu64 " checks, %" PRIu64 " commands, %" PRIu64 " loads, sendings and cuts; %" PRIu64
           " events, counted from the calls themselves, %" PRIu64 " of them where the log was full; %" PRIu64 " dumps and %" PRIu64
           " erases; %" PRIu64 " alarms reset; kept and dropped were the events of the calls, and each report its desk's\n",
           options.seed, options.count, STEPS, totals.checks, totals.commands, totals.others, totals.events, totals.full, totals.dumps, totals.erases,
           totals.resets);
    if (options.count >= ENOUGH_RUNS && !runs_are_enough()) {
        puts("notes: too few of the calls that runs are to show");
        return 1;
    }
    return 0;
}
