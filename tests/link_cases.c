/* The paper's cases, a line each, through the C interface: document 01's cases A to O, its slips, refusals and limits, and document 02's fields,
 * channel sets, check field, secondary headers, management commands, keys and desks. It reads calls and writes for each what came back and what it
 * changed. tools/link_cases.py makes the calls, tests/link_cases/calls.txt, and the text that has to be written, tests/link_cases/answers.txt, from
 * the papers alone and over OpenSSL's AES, so that each line can be laid beside the paper.
 *
 *   link_cases [ground] <tests/link_cases/calls.txt     ground: secure and check are the calls for a ground station
 *
 * A line is a word and its fields, one space apart, octets in hexadecimal:
 *
 *   # NAME                                  names a case, and is written as it stands
 *   image OCTETS                            the image from here on
 *   number ENTRY NUMBER                     the number of an entry from here on
 *   load                                    a restart from the image as it stands
 *   raise ENTRY NUMBER J                    the stores of a call that was cut after the first J of them
 *   secure DESK KIND FIELD SPI ROOM FRAME   FIELD is 00 for no check field; ROOM is the length of the output
 *   check DESK KIND FIELD ROOM FRAME        the SPI stands in the frame
 *   manage DESK ROOM COMMAND                a command without octets may have no field
 *
 * Each call is lent its ranges at one end of an area (support/guarded.h), in the runs by the two engines at either end, and frame, command and the
 * image of a load from read-only pages. Checks and commands are lent fresh notes; what these tell afterwards is not in the text, and tests/notes looks
 * at it. Ends with 1, and the line's number, at a line that cannot be read, at a call that touches what it may not, and at a result of no right form. */
#include "../include/xistalvo.h"
#include "support/guarded.h"
#include "support/hexadecimal.h"

#include <inttypes.h>
#include <signal.h>
#include <stdio.h>
#include <string.h>
#include <unistd.h>

/* FILL is what an octet of the output is before a call. */
enum { OCTETS_ROOM = 4096, LINE_ROOM = 2 * OCTETS_ROOM + 64, MOST_VALUES = 5, FILL = 165 };

/* What a line says: the numbers in its fields of fixed lengths, and the octets of the last one where that may have any. */
static struct {
    size_t number; /* of the line, counted from 1 */
    uint32_t values[MOST_VALUES];
    uint8_t octets[OCTETS_ROOM];
    size_t length;
} line;

/* What stands between two lines. */
static struct {
    uint8_t image[OCTETS_ROOM];
    size_t image_length;
    uint32_t numbers[XISTALVO_NUMBERS];
} state;

static bool is_on_ground;

static void fail(const char *sentence)
{
    fprintf(stderr, "link_cases: line %zu: %s\n", line.number, sentence);
    fflush(NULL);
    _exit(1);
}

/* ---- what a call is lent ---- */

enum area { IMAGE, NUMBERS, FRAME, OUTPUT, NOTES, EVENTS, AREAS };
static struct guarded areas[AREAS];

/* A touch outside the lent ranges, or a write where none may be. Printing here is safe: the module does not print. */
static void on_fault(int signal_number)
{
    (void)signal_number;
    fail("the module touched memory that it was not lent, or wrote where nothing may change");
}

static void prepare(void)
{
    struct sigaction action;
    for (size_t i = 0; i < AREAS; i++) {
        areas[i] = guarded_new();
    }
    memset(&action, 0, sizeof action);
    action.sa_handler = on_fault;
    sigaction(SIGSEGV, &action, NULL);
    sigaction(SIGBUS, &action, NULL);
}

/* By turns at either end; the run by the other engine has the other turn. */
static void lend(enum area area, const void *content, size_t length, enum lend_access access)
{
    guarded_lend(&areas[area], content, length, (line.number + is_on_ground) % 2 == 0 ? LEND_AT_START : LEND_AT_END, access);
}

/* State, the line's octets, an output of this length and fresh notes. */
static void lend_all(size_t room, enum lend_access image)
{
    static uint8_t output[OCTETS_ROOM];
    static const uint8_t events[XISTALVO_EVENTS_LENGTH];
    xistalvo_notes notes;
    if (room > sizeof output) {
        fail("an output is longer than any");
    }
    memset(output, FILL, sizeof output);
    xistalvo_fresh_notes(&notes);
    lend(IMAGE, state.image, state.image_length, image);
    lend(NUMBERS, state.numbers, sizeof state.numbers, LEND_WRITABLE);
    lend(FRAME, line.octets, line.length, LEND_READ_ONLY);
    lend(OUTPUT, output, room, LEND_WRITABLE);
    lend(NOTES, &notes, sizeof notes, LEND_WRITABLE);
    lend(EVENTS, events, sizeof events, LEND_WRITABLE);
}

static uint32_t *lent_numbers(void) { return (uint32_t *)(void *)areas[NUMBERS].range; }
static xistalvo_notes *lent_notes(void) { return (xistalvo_notes *)(void *)areas[NOTES].range; }

static void take_all_back(void)
{
    for (size_t i = 0; i < AREAS; i++) {
        if (!guarded_take_back(&areas[i])) {
            fail("a guard octet beside a lent range was changed");
        }
    }
}

/* ---- what is written ---- */

/* The answer as document 01's 'What comes back' numbers it, the result at the front of the output, and each octet behind that which is no longer as
 * it was before the call: there should be none. */
static void print_answer(uint64_t result)
{
    const struct guarded *output = &areas[OUTPUT];
    size_t length = XISTALVO_LENGTH(result);
    printf("answer %u", XISTALVO_ANSWER(result));
    if (XISTALVO_ANSWER(result) == XISTALVO_DONE) {
        printf(" length %zu stores %u result", length, XISTALVO_STORES(result));
    } else if (length != 0 || XISTALVO_STORES(result) != 0) {
        fail("a refusal has a length or stores");
    }
    if (result >> 48 != 0 || length > output->length) {
        fail("a result has bits above its answer, or is longer than its output");
    }
    for (size_t i = 0; i < length; i++) {
        printf(" %02x", output->range[i]);
    }
    for (size_t i = length; i < output->length; i++) {
        if (output->range[i] != FILL) {
            printf(" touched %zu", i);
        }
    }
}

/* What the call changed of image and numbers, which stand so from here on. */
static void print_changes(void)
{
    const uint8_t *image = areas[IMAGE].range;
    const uint32_t *numbers = lent_numbers();
    for (size_t i = 0; i < state.image_length; i++) {
        if (state.image[i] != image[i]) {
            printf(", image %zu: %02x to %02x", i, state.image[i], image[i]);
        }
    }
    for (size_t i = 0; i < XISTALVO_NUMBERS; i++) {
        if (state.numbers[i] != numbers[i]) {
            printf(", number %zu: %" PRIu32 " to %" PRIu32, i, state.numbers[i], numbers[i]);
        }
    }
    putchar('\n');
    memcpy(state.image, image, state.image_length);
    memcpy(state.numbers, numbers, sizeof state.numbers);
}

static void finish(uint64_t result)
{
    take_all_back();
    print_answer(result);
    print_changes();
}

/* ---- the words of a line ---- */

static void run_image(void)
{
    memcpy(state.image, line.octets, line.length);
    state.image_length = line.length;
}

static void run_number(void)
{
    if (line.values[0] >= XISTALVO_NUMBERS) {
        fail("no number has this entry");
    }
    state.numbers[line.values[0]] = line.values[1];
}

static void run_load(void)
{
    lend_all(0, LEND_READ_ONLY);
    finish(xistalvo_load(areas[IMAGE].range, state.image_length, lent_numbers(), XISTALVO_NUMBERS));
}

static void run_raise(void)
{
    lend_all(0, LEND_WRITABLE);
    uint32_t made = xistalvo_raise(areas[IMAGE].range, state.image_length, (uint8_t)line.values[0], line.values[1], line.values[2]);
    take_all_back();
    printf("stores %" PRIu32, made);
    print_changes();
}

static void run_secure(void)
{
    size_t room = line.values[4];
    lend_all(room, LEND_WRITABLE);
    finish((is_on_ground ? xistalvo_ground_secure : xistalvo_secure)(
        areas[IMAGE].range, state.image_length, lent_numbers(), XISTALVO_NUMBERS, (uint8_t)line.values[0], (uint8_t)line.values[1],
        (uint8_t)line.values[2], (uint16_t)line.values[3], areas[FRAME].range, line.length, areas[OUTPUT].range, room));
}

static void run_check(void)
{
    size_t room = line.values[3];
    lend_all(room, LEND_WRITABLE);
    finish((is_on_ground ? xistalvo_ground_check : xistalvo_check)(
        lent_notes(), areas[EVENTS].range, XISTALVO_EVENTS_LENGTH, areas[IMAGE].range, state.image_length, lent_numbers(), XISTALVO_NUMBERS,
        (uint8_t)line.values[0], (uint8_t)line.values[1], (uint8_t)line.values[2], areas[FRAME].range, line.length, areas[OUTPUT].range, room));
}

static void run_manage(void)
{
    size_t room = line.values[1];
    lend_all(room, LEND_WRITABLE);
    finish(xistalvo_command(lent_notes(), areas[EVENTS].range, XISTALVO_EVENTS_LENGTH, areas[IMAGE].range, state.image_length, lent_numbers(),
                            XISTALVO_NUMBERS, (uint8_t)line.values[0], areas[FRAME].range, line.length, areas[OUTPUT].range, room));
}

/* How many octets each field has: so many; any number, *; or any number, and no field where there are none, ?. */
static const struct word {
    const char *name, *lengths;
    void (*run)(void);
} words[] = {
    {"image", "*", run_image},
    {"number", "14", run_number},
    {"load", "", run_load},
    {"raise", "144", run_raise},
    {"secure", "11122*", run_secure},
    {"check", "1112*", run_check},
    {"manage", "12?", run_manage},
};

/* ---- reading ---- */

static void read_octets(const char *field)
{
    size_t digits = strspn(field, "0123456789abcdef");
    if (field[digits] != '\0' || digits % 2 != 0) {
        fail("a field is not octets in hexadecimal");
    }
    if (digits / 2 > OCTETS_ROOM) {
        fail("a field has more octets than any");
    }
    line.length = octets_of(field, line.octets);
}

static uint32_t number_in_octets(void)
{
    uint32_t number = 0;
    for (size_t i = 0; i < line.length; i++) {
        number = number << 8 | line.octets[i];
    }
    line.length = 0;
    return number;
}

static void read_fields(char *rest, const char *lengths)
{
    line.length = 0;
    for (size_t i = 0; lengths[i] != '\0'; i++) {
        const char *field = strsep(&rest, " ");
        if (field == NULL && lengths[i] == '?') {
            return;
        }
        if (field == NULL) {
            fail("a field is missing");
        }
        read_octets(field);
        if (lengths[i] != '*' && lengths[i] != '?') {
            if (line.length != (size_t)(lengths[i] - '0')) {
                fail("a field has more octets or fewer than it is to have");
            }
            line.values[i] = number_in_octets();
        }
    }
    if (rest != NULL) {
        fail("a field is too many");
    }
}

static void run_line(char *text)
{
    char *end = strchr(text, '\n');
    if (end == NULL) {
        fail("it has no end, or is longer than any");
    }
    *end = '\0';
    if (text[0] == '#') {
        puts(text);
        return;
    }
    const char *name = strsep(&text, " ");
    for (size_t i = 0; i < sizeof words / sizeof words[0]; i++) {
        if (strcmp(name, words[i].name) == 0) {
            read_fields(text, words[i].lengths);
            words[i].run();
            return;
        }
    }
    fail("it begins with no word that is known");
}

int main(int argument_count, char **arguments)
{
    static char text[LINE_ROOM];
    is_on_ground = argument_count == 2 && strcmp(arguments[1], "ground") == 0;
    if (argument_count != (is_on_ground ? 2 : 1)) {
        fprintf(stderr, "usage: %s [ground]\n", arguments[0]);
        return 2;
    }
    prepare();
    for (line.number = 1; fgets(text, sizeof text, stdin) != NULL; line.number++) {
        run_line(text);
    }
    if (ferror(stdin) || fflush(stdout) != 0 || ferror(stdout)) {
        fputs("link_cases: a call could not be read, or an answer not be written\n", stderr);
        return 1;
    }
    return 0;
}
