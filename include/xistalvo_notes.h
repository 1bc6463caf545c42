/* Reads the notes of the link security module, the reports and the log of events, in words if they are wanted; and the reply to a dump. What notes are
 * and how calls change them stands in xistalvo.h; xistalvo_command.h lays out dump, erase and alarm reset.
 *
 * Nothing here writes to the notes, and nothing calls the module or the C library. */
#ifndef XISTALVO_NOTES_H
#define XISTALVO_NOTES_H

#include "xistalvo_command.h"

#ifdef __cplusplus
extern "C" {
#endif

/* ---- a report ----
 *
 * As one number of 32 bits, octet 0 the most significant: as it rides in an operational control field (OCF), its first bit first. */

/* Its bits: that it is no link control word, but a report of this form; the alarm; the flags. The SPI and the number are what is left. */
#define XISTALVO_REPORT_FORM UINT32_C(0xC0000000)
#define XISTALVO_REPORT_FORM_MASK UINT32_C(0xF0000000)
#define XISTALVO_REPORT_ALARM UINT32_C(0x08000000)
#define XISTALVO_REPORT_BAD_NUMBER UINT32_C(0x04000000)
#define XISTALVO_REPORT_BAD_MAC UINT32_C(0x02000000)
#define XISTALVO_REPORT_BAD_ASSOCIATION UINT32_C(0x01000000)

/* The report of four octets, as they stand in the notes or in an OCF. */
static inline uint32_t xistalvo_report_in(const uint8_t octets[XISTALVO_REPORT_LENGTH])
{
    return (uint32_t)octets[0] << 24 | (uint32_t)octets[1] << 16 | (uint32_t)octets[2] << 8 | octets[3];
}

/* The report of a desk; 0, which is none, where there is no such desk. */
static inline uint32_t xistalvo_report_of(const xistalvo_notes *notes, uint8_t desk)
{
    return desk < XISTALVO_DESKS ? xistalvo_report_in(notes->reports + XISTALVO_REPORT_LENGTH * desk) : 0;
}

/* Copies the report of a desk into an OCF, four octets; 0 where there is no such desk, and then nothing is written. */
static inline size_t xistalvo_put_report(const xistalvo_notes *notes, uint8_t desk, uint8_t ocf[XISTALVO_REPORT_LENGTH])
{
    size_t i;
    if (desk >= XISTALVO_DESKS) {
        return 0;
    }
    for (i = 0; i < XISTALVO_REPORT_LENGTH; i++) {
        ocf[i] = notes->reports[XISTALVO_REPORT_LENGTH * desk + i];
    }
    return XISTALVO_REPORT_LENGTH;
}

/* Whether 32 bits that came in an OCF are a report, and not a link control word or another; and what a report says. */
static inline int xistalvo_is_report(uint32_t report) { return (report & XISTALVO_REPORT_FORM_MASK) == XISTALVO_REPORT_FORM; }

static inline int xistalvo_has_alarm(uint32_t report) { return (report & XISTALVO_REPORT_ALARM) != 0; }

static inline int xistalvo_has_bad_number(uint32_t report) { return (report & XISTALVO_REPORT_BAD_NUMBER) != 0; }

static inline int xistalvo_has_bad_mac(uint32_t report) { return (report & XISTALVO_REPORT_BAD_MAC) != 0; }

static inline int xistalvo_has_bad_association(uint32_t report) { return (report & XISTALVO_REPORT_BAD_ASSOCIATION) != 0; }

static inline uint16_t xistalvo_spi_of_report(uint32_t report) { return (uint16_t)(report >> 8 & 0xFFFFu); }

static inline uint8_t xistalvo_number_of_report(uint32_t report) { return (uint8_t)(report & 0xFFu); }

/* ---- the log ---- */

struct xistalvo_event {
    uint8_t desk;   /* as the caller named it */
    uint8_t tag;    /* of the command; 0 for a check, and for a command without octets */
    uint8_t answer; /* enum xistalvo_answer */
};

/* How many events a list of so many octets has room for; and how many of them are kept. */
static inline size_t xistalvo_room_for_events(size_t events_length)
{
    size_t whole = events_length / XISTALVO_EVENT_LENGTH;
    return whole < XISTALVO_MOST_EVENTS ? whole : XISTALVO_MOST_EVENTS;
}

static inline size_t xistalvo_events_kept(const xistalvo_notes *notes, size_t events_length)
{
    size_t room = xistalvo_room_for_events(events_length);
    return notes->kept < room ? (size_t)notes->kept : room;
}

/* The i-th event that is kept, from 0, the oldest first. */
static inline struct xistalvo_event xistalvo_event_at(const uint8_t *events, size_t i)
{
    struct xistalvo_event event;
    event.desk = events[XISTALVO_EVENT_LENGTH * i];
    event.tag = events[XISTALVO_EVENT_LENGTH * i + 1];
    event.answer = events[XISTALVO_EVENT_LENGTH * i + 2];
    return event;
}

/* How many events the reply to a dump has (xistalvo_is_reply says whether it is one), and the i-th of them. */
static inline size_t xistalvo_events_in(const uint8_t *reply)
{
    return (size_t)(reply[1] << 8 | reply[2]) / 5;
}

static inline struct xistalvo_event xistalvo_event_in(const uint8_t *reply, size_t i)
{
    struct xistalvo_event event;
    event.tag = reply[XISTALVO_DUMP_REPLY_LENGTH(i)];
    event.desk = reply[XISTALVO_DUMP_REPLY_LENGTH(i) + 3];
    event.answer = reply[XISTALVO_DUMP_REPLY_LENGTH(i) + 4];
    return event;
}

/* ---- in words ----
 *
 * Text into a buffer of the caller's, ended by a zero octet, and cut short where the buffer is; the length of the whole text comes back, without its
 * end, so that a buffer that is longer than it was long enough. XISTALVO_WORDS octets are enough for every event and every report. */
#define XISTALVO_WORDS 128

/* Puts text behind what a buffer has, and a number in decimal. */
static inline size_t xistalvo_put_words(char *text, size_t room, size_t at, const char *words)
{
    for (; *words != '\0'; words++, at++) {
        if (at + 1 < room) {
            text[at] = *words;
        }
    }
    if (room != 0) {
        text[at < room ? at : room - 1] = '\0';
    }
    return at;
}

static inline size_t xistalvo_put_decimal(char *text, size_t room, size_t at, uint32_t number)
{
    char digits[11];
    size_t first = sizeof digits - 1;
    digits[first] = '\0';
    do {
        digits[--first] = (char)('0' + (int)(number % 10u));
        number /= 10u;
    } while (number != 0);
    return xistalvo_put_words(text, room, at, digits + first);
}

/* As in 'desk 1, check: MAC differs'. */
static inline size_t xistalvo_say_event(struct xistalvo_event event, char *text, size_t room)
{
    size_t at = xistalvo_put_words(text, room, 0, "desk ");
    at = xistalvo_put_decimal(text, room, at, event.desk);
    at = xistalvo_put_words(text, room, at, ", ");
    at = xistalvo_put_words(text, room, at, xistalvo_command_name(event.tag));
    at = xistalvo_put_words(text, room, at, ": ");
    return xistalvo_put_words(text, room, at, xistalvo_answer_name(event.answer));
}

/* As in 'SPI 9, number ends in 65: bad MAC, alarm', or 'SPI 9, number ends in 66: no alarm'. */
static inline size_t xistalvo_say_report(uint32_t report, char *text, size_t room)
{
    size_t at;
    if (!xistalvo_is_report(report)) {
        return xistalvo_put_words(text, room, 0, "no report");
    }
    at = xistalvo_put_words(text, room, 0, "SPI ");
    at = xistalvo_put_decimal(text, room, at, xistalvo_spi_of_report(report));
    at = xistalvo_put_words(text, room, at, ", number ends in ");
    at = xistalvo_put_decimal(text, room, at, xistalvo_number_of_report(report));
    at = xistalvo_put_words(text, room, at, ": ");
    at = xistalvo_put_words(text, room, at, xistalvo_has_bad_number(report) ? "bad number, " : "");
    at = xistalvo_put_words(text, room, at, xistalvo_has_bad_mac(report) ? "bad MAC, " : "");
    at = xistalvo_put_words(text, room, at, xistalvo_has_bad_association(report) ? "bad association, " : "");
    return xistalvo_put_words(text, room, at, xistalvo_has_alarm(report) ? "alarm" : "no alarm");
}

#ifdef __cplusplus
}
#endif

#endif
