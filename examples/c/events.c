/* A controller's afternoon: frames are refused, and the report of the spacecraft says which was a bad MAC and which a stale number, with no dump; it
 * rides down in the operational control field (OCF) of a telemetry frame. Then the key office dumps the log of events, erases it, and the laboratory
 * resets its alarm. Commands go in as octets, here without the frames that would carry them (management.c has those). */
#include "xistalvo_image.h"
#include "xistalvo_notes.h"

#include <stdio.h>
#include <string.h>

enum { SPI = 9, IMAGE_LENGTH = XISTALVO_IMAGE_LENGTH(1), HEADER = 5, ROOM = 64, TM_HEADER = 6, TM_LENGTH = TM_HEADER + 4 + XISTALVO_REPORT_LENGTH };

/* One end of the link; the ground keeps no notes, as it checks nothing here. */
struct end {
    uint8_t image[IMAGE_LENGTH];
    uint32_t numbers[XISTALVO_NUMBERS];
};

static struct end ground, space;
static xistalvo_notes notes;
static uint8_t events[XISTALVO_EVENTS_LENGTH];

static void make_end(struct end *end, uint8_t direction)
{
    const struct xistalvo_association association = {SPI, XISTALVO_AUTHENTICATION, XISTALVO_TC, direction, XISTALVO_OPERATIONAL, 27, 5, 0, 100,
                                                     {0xFF, 0xFF, 0xFF, 0xFF, 0xFF, 0x00}, {1, 2, 3}, 0};
    xistalvo_make_image(XISTALVO_IMAGE_VERSION, &association, 1, end->image, IMAGE_LENGTH);
    xistalvo_load(end->image, IMAGE_LENGTH, end->numbers, XISTALVO_NUMBERS);
}

/* The ground secures a telecommand. */
static size_t secure(const char *words, uint8_t secured[ROOM])
{
    uint8_t frame[ROOM] = {0x00, 27, 5 << 2, (uint8_t)(HEADER - 1 + strlen(words)), 0};
    memcpy(frame + HEADER, words, strlen(words));
    uint64_t result = xistalvo_secure(ground.image, IMAGE_LENGTH, ground.numbers, XISTALVO_NUMBERS, XISTALVO_DESK_1, XISTALVO_TC,
                                      XISTALVO_NO_CHECK_FIELD, SPI, frame, HEADER + strlen(words), secured, ROOM);
    return XISTALVO_LENGTH(result);
}

/* A telemetry frame of the spacecraft, with the report of desk 1 as its OCF, and what the controller reads there. */
static void send_down(void)
{
    uint8_t frame[TM_LENGTH] = {0x01, 0xB1, 0, 0, 0, 0, 'i', 'd', 'l', 'e'}; /* the last bit of octet 1 says that there is an OCF */
    char words[XISTALVO_WORDS];
    xistalvo_put_report(&notes, XISTALVO_DESK_1, frame + TM_LENGTH - XISTALVO_REPORT_LENGTH);

    uint32_t report = xistalvo_report_in(frame + TM_LENGTH - XISTALVO_REPORT_LENGTH); /* on the ground */
    if (xistalvo_is_report(report)) {                                                   /* and no link control word */
        xistalvo_say_report(report, words, sizeof words);
        printf("  the OCF is %08lX: %s\n", (unsigned long)report, words);
    }
}

static void check(const char *what, const uint8_t *frame, size_t length)
{
    uint8_t data[ROOM];
    uint64_t result = xistalvo_check(&notes, events, sizeof events, space.image, IMAGE_LENGTH, space.numbers, XISTALVO_NUMBERS, XISTALVO_DESK_1,
                                     XISTALVO_TC, XISTALVO_NO_CHECK_FIELD, frame, length, data, sizeof data);
    printf("%s: %u\n", what, XISTALVO_ANSWER(result));
    send_down();
}

static void say_log(const uint8_t *reply, size_t length)
{
    char words[XISTALVO_WORDS];
    if (xistalvo_is_reply(XISTALVO_TAG_DUMP, reply, length)) {
        for (size_t i = 0; i < xistalvo_events_in(reply); i++) {
            xistalvo_say_event(xistalvo_event_in(reply, i), words, sizeof words);
            printf("  %u. %s\n", (unsigned)i + 1, words);
        }
    } else if (xistalvo_is_reply(XISTALVO_TAG_ERASE, reply, length)) {
        printf("  %u events are left, and there are %u octets for new ones\n", (unsigned)xistalvo_events_left_in(reply),
               (unsigned)xistalvo_free_space_in(reply));
    }
}

static void command(uint8_t desk, const char *what, const uint8_t *octets, size_t length)
{
    uint8_t reply[XISTALVO_LARGEST_REPLY];
    uint64_t result = xistalvo_command(&notes, events, sizeof events, space.image, IMAGE_LENGTH, space.numbers, XISTALVO_NUMBERS, desk, octets, length,
                                       reply, sizeof reply);
    printf("%s, by desk %u: %u, %s\n", what, desk, XISTALVO_ANSWER(result), xistalvo_answer_name(XISTALVO_ANSWER(result)));
    say_log(reply, XISTALVO_LENGTH(result));
}

int main(void)
{
    uint8_t frame[ROOM], next[ROOM], octets[XISTALVO_NOTE_COMMAND_LENGTH];
    make_end(&ground, XISTALVO_SEND);
    make_end(&space, XISTALVO_RECEIVE);
    xistalvo_fresh_notes(&notes);

    size_t length = secure("HEAT 1200", frame), next_length = secure("HEAT 1250", next);
    check("a frame as it was sent", frame, length);
    next[next_length - 1] ^= 1; /* on its way a bit changes */
    check("the next one, with a bit changed", next, next_length);
    check("the first one again", frame, length);
    next[next_length - 1] ^= 1;
    check("the next one, as it was sent", next, next_length);
    puts("- The frames go through again, and the alarm stays until the laboratory has seen it.");
    command(XISTALVO_DESK_1, "alarm reset", octets, xistalvo_make_alarm_reset(octets, sizeof octets));
    send_down();
    puts("- The log is the key office's.");
    command(XISTALVO_DESK_1, "dump", octets, xistalvo_make_dump(octets, sizeof octets));
    command(XISTALVO_KEY_OFFICE, "dump", octets, xistalvo_make_dump(octets, sizeof octets));
    command(XISTALVO_KEY_OFFICE, "erase", octets, xistalvo_make_erase(octets, sizeof octets));
    command(XISTALVO_KEY_OFFICE, "dump", octets, xistalvo_make_dump(octets, sizeof octets));
    return 0;
}
