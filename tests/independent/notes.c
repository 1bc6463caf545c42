/* Document 02, request 11: 'Each desk has its own frame security report', and 'one running log record of 256 events'. Both are the caller's, lent to each
 * check and each command: three reports, two counts, and beside them the list of the events. */
#include "reading.h"

#include <string.h>

static const uint32_t MOST_DROPPED = 4294967295u;

/* ---- the report ---- */

/* CCSDS 355.1-B-1, 32 bits: control word type 1, version 100, alarm, bad number, bad MAC, bad association, SPI 16, number 8. */
struct report {
    bool has_alarm, has_bad_number, has_bad_mac, has_bad_association;
    unsigned spi, number;
};

/* Type and version are not read: they are what they are. */
static struct report read_report(const uint8_t octets[REPORT_LENGTH])
{
    struct report report = {octets[0] / 8 % 2 == 1, octets[0] / 4 % 2 == 1, octets[0] / 2 % 2 == 1, octets[0] % 2 == 1, octets[1] * 256u + octets[2],
                            octets[3]};
    return report;
}

static void write_report(const struct report *report, uint8_t octets[REPORT_LENGTH])
{
    const unsigned bits[] = {1, 1, 0, 0, report->has_alarm, report->has_bad_number, report->has_bad_mac, report->has_bad_association};
    unsigned first = 0;
    for (size_t i = 0; i < sizeof bits / sizeof bits[0]; i++) {
        first = 2 * first + bits[i];
    }
    octets[0] = (uint8_t)first;
    octets[1] = (uint8_t)(report->spi / 256);
    octets[2] = (uint8_t)(report->spi % 256);
    octets[3] = (uint8_t)report->number;
}

void fresh_notes(struct notes *notes)
{
    const struct report nothing = {false, false, false, false, 0, 0};
    for (size_t desk = 0; desk < DESK_COUNT; desk++) {
        write_report(&nothing, notes->reports[desk]);
    }
    notes->kept = 0;
    notes->dropped = 0;
}

/* 'flags bad number (8), bad MAC (7), bad association (4), the frame's SPI, low octet of the entry's number afterwards or 0 without a match, and an
 * alarm that any refused check sets'; 'after 1, 2, 3 or 12 only the alarm changes' */
static void renew_report(uint8_t octets[REPORT_LENGTH], unsigned answer, unsigned spi, uint32_t number)
{
    struct report report = read_report(octets);
    report.has_alarm = report.has_alarm || answer != 0;
    if (answer != 1 && answer != 2 && answer != 3 && answer != 12) {
        report.has_bad_number = answer == 8;
        report.has_bad_mac = answer == 7;
        report.has_bad_association = answer == 4;
        report.spi = spi;
        report.number = answer == 4 ? 0 : number % 256;
    }
    write_report(&report, octets);
}

/* ---- the log ---- */

/* Whole events, and no more than 256 of them. */
size_t room_for_events(size_t list_length)
{
    size_t whole = list_length / EVENT_LENGTH;
    return whole > MOST_EVENTS ? MOST_EVENTS : whole;
}

/* A count above the room says that the room is taken. */
size_t events_kept(const struct call *call)
{
    size_t room = room_for_events(call->events_length);
    return call->notes->kept > room ? room : call->notes->kept;
}

/* 'one event (desk, tag or 0, answer) for each check or command'; 'When it is full, new events are counted as dropped .. until dropped reaches
 * 4,294,967,295 and stays' */
static void enter(const struct call *call, unsigned tag, struct effect *effect)
{
    if (events_kept(call) < room_for_events(call->events_length)) {
        effect->enters_event = true;
        effect->event_at = EVENT_LENGTH * events_kept(call);
        effect->event[0] = (uint8_t)call->desk;
        effect->event[1] = (uint8_t)tag;
        effect->event[2] = (uint8_t)effect->answer;
        effect->notes.kept++;
    } else if (effect->notes.dropped != MOST_DROPPED) {
        effect->notes.dropped++;
    }
}

/* ---- what a call leaves of the notes, once its answer stands ---- */

/* 'Each desk has its own'; a desk above 2 is none, and has none. */
void notes_after_check(const struct call *call, unsigned spi, uint32_t number, struct effect *effect)
{
    effect->changes_notes = true;
    effect->notes = *call->notes;
    if (call->desk <= GREATEST_DESK) {
        renew_report(effect->notes.reports[call->desk], effect->answer, spi, number);
    }
    enter(call, 0, effect);
}

/* 'dump 00110011 and erase 00110100 .. themselves no events', by the first octet, whatever comes of them. */
void notes_after_command(const struct call *call, enum note_act act, bool is_about_log, struct effect *effect)
{
    effect->changes_notes = true;
    effect->notes = *call->notes;
    if (effect->answer == 0 && act == RESETS_ALARM) { /* 'that desk resets' */
        struct report report = read_report(effect->notes.reports[call->desk]);
        report.has_alarm = false;
        write_report(&report, effect->notes.reports[call->desk]);
    }
    if (effect->answer == 0 && act == ERASES_LOG) {
        effect->notes.kept = 0;
        effect->notes.dropped = 0;
    }
    if (!is_about_log) {
        enter(call, call->frame_length == 0 ? 0 : call->frame[0], effect);
    }
}

void carry_out_notes(const struct effect *effect, struct notes *notes, uint8_t *events)
{
    if (effect->changes_notes) {
        *notes = effect->notes;
    }
    if (effect->enters_event) {
        memcpy(events + effect->event_at, effect->event, EVENT_LENGTH);
    }
}
