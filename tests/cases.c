/* The cases A to O of document 01 through the C interface, with the paper's own figures, and its slips; and of document 02 the fields
 * and limits of AOS (request 1), sets of channels (2), the check field (4) and secondary headers (6). All of it holds under desk 0 and under desk 1;
 * and under desk 2, which owns nothing in an image of version 1, each case is answered as with an SPI that is not there (10). Each call is also
 * compared with the independent reading (support/both.h). */
#include "support/both.h"
#include "support/hexadecimal.h"

#include <stdio.h>
#include <stdlib.h>
#include <string.h>

static struct random test_random;
static unsigned passed;
static uint8_t test_desk;

static void expect(bool is_right, const char *name, const char *what)
{
    if (!is_right) {
        fprintf(stderr, "cases: %s: %s\n", name, what);
        exit(1);
    }
}

static bool starts_with(const uint8_t *octets, const char *hex)
{
    uint8_t expected[FRAME_ROOM];
    return memcmp(octets, expected, octets_of(hex, expected)) == 0;
}

/* ---- the association of case B, and what varies in the others ---- */

struct setting {
    unsigned service, kind, direction, window;
    uint32_t mark;
    bool has_field; /* frames end in a check field */
};

static size_t image_of(const struct setting *setting, uint8_t *image)
{
    struct table table;
    struct association *entry = &table.entries[0];
    memset(&table, 0, sizeof table);
    table.version = 1;
    table.count = 1;
    entry->spi = 9;
    entry->service = setting->service;
    entry->kind = setting->kind;
    entry->direction = setting->direction;
    entry->state = 2;
    entry->spacecraft = 27;
    entry->channel = 5;
    entry->map = 0;
    entry->window = setting->window;
    octets_of(setting->kind == 1 ? "3F FF FC 03 00 00" : "3F FF FC 03 00 3F", entry->mask); /* so that masking shows in every MAC */
    for (size_t i = 0; i < KEY_LENGTH; i++) {
        entry->key[i] = (uint8_t)i;
    }
    entry->mark = setting->mark;
    return write_image(&table, image);
}

static uint32_t code_in(const uint8_t *image)
{
    return (uint32_t)image[54] << 24 | (uint32_t)image[55] << 16 | (uint32_t)image[56] << 8 | image[57];
}

static void start_input(struct input *input, enum which_call which, const struct setting *setting)
{
    memset(input, 0, sizeof *input);
    input->which = which;
    input->image_length = image_of(setting, input->image);
    input->numbers_length = NUMBER_COUNT;
    input->desk = test_desk;
    input->kind = (uint8_t)setting->kind;
    input->check_field = setting->has_field ? 1 : 0;
    input->spi = 9;
    input->output_length = LARGEST_FRAME;
    memset(input->output, 0x5A, input->output_length);
}

/* A clear frame of spacecraft 27 and channel 5, of this length, all of its data AA; of kind 1 and length 6 it is that of case C. A TM frame
 * has an operational control field. A check field is the last of the octets. */
static size_t clear_frame(unsigned kind, bool has_field, size_t length, uint8_t *frame)
{
    memset(frame, 0xAA, length);
    octets_of(kind == 4   ? "46 C5 00 00 00 00"
              : kind == 3 ? "01 BB 00 00 00 00"
              : kind == 2 ? "00 1B 14 00 00 C0"
                          : "00 1B 14 00 00",
              frame);
    if (has_length_field(kind)) {
        write_tc_length(frame, length);
    }
    if (has_field) {
        write_check_field(frame, length);
    }
    return length;
}

/* ---- calls, as a table ---- */

struct a_case {
    const char *name;
    enum which_call which;
    struct setting setting;
    uint32_t last;
    size_t clear_length;       /* of the frame to secure, or of the one that the other end secured */
    uint64_t number;           /* that the other end gave it */
    uint8_t first_octet;       /* added into its IV */
    bool is_spoiled;           /* its MAC has a wrong bit */
    unsigned answer;
    size_t length;
    unsigned stores;
    uint32_t last_after;
    uint32_t code_after;
};

#define SEND(service, kind, mark) {service, kind, 1, 100, mark, false}
#define RECEIVE(service, kind, window, mark) {service, kind, 2, window, mark, false}
#define SEND_WITH_FIELD(service, kind, mark) {service, kind, 1, 100, mark, true}
#define RECEIVE_WITH_FIELD(service, kind, window, mark) {service, kind, 2, window, mark, true}
#define LAST_NUMBER 4294967295u
#define LAST_MARK 67108863u
#define LAST_CODE 0x02000000u

static const struct a_case cases[] = {
    {"B: load gives 63", CALL_LOAD, SEND(1, 1, 0), 0, 6, 0, 0, false, 0, 0, 0, 63, 0},
    {"C: well formed; D: 28 octets, one store", CALL_SECURE, SEND(1, 1, 0), 63, 6, 0, 0, false, 0, 28, 1, 64, 1},
    {"E: 63 gives 8", CALL_CHECK, RECEIVE(1, 1, 100, 0), 63, 6, 63, 0, false, 8, 0, 0, 63, 0},
    {"E: 64 passes", CALL_CHECK, RECEIVE(1, 1, 100, 0), 63, 6, 64, 0, false, 0, 1, 1, 64, 1},
    {"F: 163 passes", CALL_CHECK, RECEIVE(1, 1, 100, 0), 63, 6, 163, 0, false, 0, 1, 2, 163, 3},
    {"F: 164 gives 8", CALL_CHECK, RECEIVE(1, 1, 100, 0), 63, 6, 164, 0, false, 8, 0, 0, 63, 0},
    {"H: after G's cut 163 passes with one store", CALL_CHECK, RECEIVE(1, 1, 100, 1), 127, 6, 163, 0, false, 0, 1, 1, 163, 3},
    {"I: 1,087 takes 16 stores", CALL_CHECK, RECEIVE(1, 1, 1024, 0), 63, 6, 1087, 0, false, 0, 1, 16, 1087, 24},
    {"J: mark 255 to 256", CALL_SECURE, SEND(1, 1, 255), 16383, 6, 0, 0, false, 0, 28, 1, 16384, 0x180},
    {"K: load gives 4,294,967,295", CALL_LOAD, SEND(1, 1, LAST_MARK), 0, 6, 0, 0, false, 0, 0, 0, LAST_NUMBER, LAST_CODE},
    {"K: sending gives 10", CALL_SECURE, SEND(1, 1, LAST_MARK), LAST_NUMBER, 6, 0, 0, false, 10, 0, 0, LAST_NUMBER, LAST_CODE},
    {"L: 1,002 gives 1,024", CALL_SECURE, SEND(1, 1, 0), 63, 1002, 0, 0, false, 0, 1024, 1, 64, 1},
    {"L: 1,003 gives 11", CALL_SECURE, SEND(1, 1, 0), 63, 1003, 0, 0, false, 11, 0, 0, 63, 0},
    {"L: 1,002 with segment header", CALL_SECURE, SEND(1, 2, 0), 63, 1002, 0, 0, false, 0, 1024, 1, 64, 1},
    {"L: 1,003 with segment header", CALL_SECURE, SEND(1, 2, 0), 63, 1003, 0, 0, false, 11, 0, 0, 63, 0},
    {"M: 994 gives 1,024", CALL_SECURE, SEND(2, 1, 0), 63, 994, 0, 0, false, 0, 1024, 1, 64, 1},
    {"M: 995 gives 11", CALL_SECURE, SEND(2, 1, 0), 63, 995, 0, 0, false, 11, 0, 0, 63, 0},
    {"N: IV with a first octet 01", CALL_CHECK, RECEIVE(2, 1, 100, 0), 63, 6, 64, 1, false, 8, 0, 0, 63, 0},
    {"N: the same IV without it", CALL_CHECK, RECEIVE(2, 1, 100, 0), 63, 6, 64, 0, false, 0, 1, 1, 64, 1},
    {"O: IV number 4,294,967,296", CALL_CHECK, RECEIVE(2, 1, 100, LAST_MARK), 4294967290u, 6, 4294967296u, 0, false, 8, 0, 0,
     4294967290u, LAST_CODE},
    {"O: IV number 4,294,967,295", CALL_CHECK, RECEIVE(2, 1, 100, LAST_MARK), 4294967290u, 6, LAST_NUMBER, 0, false, 0, 1, 0, LAST_NUMBER,
     LAST_CODE},
    /* TM with OCF, at its own limits */
    {"TM: an octet of data and the OCF", CALL_SECURE, SEND(1, 3, 0), 63, 11, 0, 0, false, 0, 33, 1, 64, 1},
    {"TM: without data", CALL_SECURE, SEND(1, 3, 0), 63, 10, 0, 0, false, 3, 0, 0, 63, 0},
    {"TM: the OCF is not released", CALL_CHECK, RECEIVE(1, 3, 100, 0), 63, 20, 64, 0, false, 0, 10, 1, 64, 1},
    {"TM: the OCF is not released, service 2", CALL_CHECK, RECEIVE(2, 3, 100, 0), 63, 20, 64, 0, false, 0, 10, 1, 64, 1},
    {"TM: 2,026 gives 2,048", CALL_SECURE, SEND(1, 3, 0), 63, 2026, 0, 0, false, 0, 2048, 1, 64, 1},
    {"TM: 2,027 gives 11", CALL_SECURE, SEND(1, 3, 0), 63, 2027, 0, 0, false, 11, 0, 0, 63, 0},
    {"TM: 2,018 gives 2,048, service 2", CALL_SECURE, SEND(2, 3, 0), 63, 2018, 0, 0, false, 0, 2048, 1, 64, 1},
    {"TM: 2,019 gives 11, service 2", CALL_SECURE, SEND(2, 3, 0), 63, 2019, 0, 0, false, 11, 0, 0, 63, 0},
    {"TM: 2,049 gives 3", CALL_SECURE, SEND(1, 3, 0), 63, 2049, 0, 0, false, 3, 0, 0, 63, 0},
    /* AOS, at its own limits */
    {"AOS: an octet of data", CALL_SECURE, SEND(1, 4, 0), 63, 7, 0, 0, false, 0, 29, 1, 64, 1},
    {"AOS: without data", CALL_SECURE, SEND(1, 4, 0), 63, 6, 0, 0, false, 3, 0, 0, 63, 0},
    {"AOS: an octet of data released", CALL_CHECK, RECEIVE(1, 4, 100, 0), 63, 7, 64, 0, false, 0, 1, 1, 64, 1},
    {"AOS: ten octets released, service 2", CALL_CHECK, RECEIVE(2, 4, 100, 0), 63, 16, 64, 0, false, 0, 10, 1, 64, 1},
    {"AOS: 2,026 gives 2,048", CALL_SECURE, SEND(1, 4, 0), 63, 2026, 0, 0, false, 0, 2048, 1, 64, 1},
    {"AOS: 2,048 released", CALL_CHECK, RECEIVE(1, 4, 100, 0), 63, 2026, 64, 0, false, 0, 2020, 1, 64, 1},
    {"AOS: 2,027 gives 11", CALL_SECURE, SEND(1, 4, 0), 63, 2027, 0, 0, false, 11, 0, 0, 63, 0},
    {"AOS: 2,018 gives 2,048, service 2", CALL_SECURE, SEND(2, 4, 0), 63, 2018, 0, 0, false, 0, 2048, 1, 64, 1},
    {"AOS: 2,019 gives 11, service 2", CALL_SECURE, SEND(2, 4, 0), 63, 2019, 0, 0, false, 11, 0, 0, 63, 0},
    {"AOS: 2,048 gives 11", CALL_SECURE, SEND(1, 4, 0), 63, 2048, 0, 0, false, 11, 0, 0, 63, 0},
    {"AOS: 2,049 gives 3", CALL_SECURE, SEND(1, 4, 0), 63, 2049, 0, 0, false, 3, 0, 0, 63, 0},
    /* with a check field, which is counted in */
    {"field: L, 1,002 gives 1,024", CALL_SECURE, SEND_WITH_FIELD(1, 1, 0), 63, 1002, 0, 0, false, 0, 1024, 1, 64, 1},
    {"field: L, 1,003 gives 11", CALL_SECURE, SEND_WITH_FIELD(1, 1, 0), 63, 1003, 0, 0, false, 11, 0, 0, 63, 0},
    {"field: M, 994 gives 1,024", CALL_SECURE, SEND_WITH_FIELD(2, 1, 0), 63, 994, 0, 0, false, 0, 1024, 1, 64, 1},
    {"field: M, 995 gives 11", CALL_SECURE, SEND_WITH_FIELD(2, 1, 0), 63, 995, 0, 0, false, 11, 0, 0, 63, 0},
    {"field: TC, an octet of data", CALL_SECURE, SEND_WITH_FIELD(1, 1, 0), 63, 8, 0, 0, false, 0, 30, 1, 64, 1},
    {"field: TC, without data", CALL_SECURE, SEND_WITH_FIELD(1, 1, 0), 63, 7, 0, 0, false, 3, 0, 0, 63, 0},
    {"field: TM, an octet of data and the OCF", CALL_SECURE, SEND_WITH_FIELD(1, 3, 0), 63, 13, 0, 0, false, 0, 35, 1, 64, 1},
    {"field: TM, without data", CALL_SECURE, SEND_WITH_FIELD(1, 3, 0), 63, 12, 0, 0, false, 3, 0, 0, 63, 0},
    {"field: TM, 2,026 gives 2,048", CALL_SECURE, SEND_WITH_FIELD(1, 3, 0), 63, 2026, 0, 0, false, 0, 2048, 1, 64, 1},
    {"field: TM, neither OCF nor field is released", CALL_CHECK, RECEIVE_WITH_FIELD(1, 3, 100, 0), 63, 22, 64, 0, false, 0, 10, 1, 64, 1},
    {"field: segment header, service 2", CALL_CHECK, RECEIVE_WITH_FIELD(2, 2, 100, 0), 63, 18, 64, 0, false, 0, 10, 1, 64, 1},
    {"field: AOS may not have one", CALL_SECURE, SEND_WITH_FIELD(1, 4, 0), 63, 40, 0, 0, false, 3, 0, 0, 63, 0},
    {"field: a wrong MAC under a right field", CALL_CHECK, RECEIVE_WITH_FIELD(1, 1, 100, 0), 63, 9, 64, 0, true, 7, 0, 0, 63, 0},
    /* the slips that can be seen from outside */
    {"slip: the window before the MAC", CALL_CHECK, RECEIVE(1, 1, 100, 0), 63, 6, 164, 0, true, 7, 0, 0, 63, 0},
    {"slip: the window before the MAC, service 2", CALL_CHECK, RECEIVE(2, 1, 100, 0), 63, 6, 164, 0, true, 7, 0, 0, 63, 0},
    {"slip: n - last modulo 2^32", CALL_CHECK, RECEIVE(1, 1, 100, LAST_MARK), 4294967290u, 6, 3, 0, false, 8, 0, 0, 4294967290u,
     LAST_CODE},
    {"slip: an output that is cleared on a bad MAC", CALL_CHECK, RECEIVE(2, 1, 100, 0), 63, 40, 64, 0, true, 7, 0, 0, 63, 0},
};

/* The frame that the other end secured, made by the reading. */
static void make_received(const struct a_case *a_case, struct input *input)
{
    struct table table;
    struct header header;
    uint8_t clear[FRAME_ROOM], sequence[SEQUENCE_LENGTH];
    size_t length = clear_frame(a_case->setting.kind, a_case->setting.has_field, a_case->clear_length, clear);
    expect(read_image(input->image, input->image_length, &table), a_case->name, "the image breaks a rule");
    expect(read_clear_frame(a_case->setting.kind, a_case->setting.has_field, clear, length, &header), a_case->name, "the frame breaks a rule");
    sequence_of_number(a_case->number, sequence);
    sequence[0] = (uint8_t)(sequence[0] + a_case->first_octet);
    input->frame_length = protect_frame(&table.entries[0], &header, sequence, clear, length, input->frame);
    if (a_case->is_spoiled) {
        input->frame[input->frame_length - header.trailer - 1] ^= 1;
        if (header.has_field) {
            write_check_field(input->frame, input->frame_length); /* so that the MAC is all that is wrong */
        }
    }
}

/* The same input from a desk that owns nothing there, with an SPI that nothing has, and from desks that there are not. */
static void try_other_desks(const struct a_case *a_case, const struct input *prepared)
{
    static struct input input;
    unsigned due = a_case->answer == 1 || a_case->answer == 2 || a_case->answer == 3 || a_case->answer == 12 ? a_case->answer : 4;
    input = *prepared;
    input.desk = 2;
    expect(both_run(&test_random, &input).answer == due, a_case->name, "desk 2 sees an association of desk 1's");
    for (unsigned desk = 3; desk < 256; desk++) {
        input.desk = (uint8_t)desk;
        expect(both_run(&test_random, &input).answer == (due <= 2 ? due : 19), a_case->name, "19 does not come after 2 and before 3");
    }
    passed++;
}

static void try_case(const struct a_case *a_case)
{
    static struct input input;
    start_input(&input, a_case->which, &a_case->setting);
    input.numbers[0] = a_case->last;
    if (a_case->which == CALL_CHECK) {
        make_received(a_case, &input);
    } else {
        input.frame_length = clear_frame(a_case->setting.kind, a_case->setting.has_field, a_case->clear_length, input.frame);
    }
    if (a_case->which != CALL_LOAD) {
        try_other_desks(a_case, &input);
    }
    struct outcome outcome = both_run(&test_random, &input);
    expect(outcome.answer == a_case->answer, a_case->name, "another answer");
    expect(outcome.length == a_case->length, a_case->name, "another length");
    expect(outcome.stores == a_case->stores, a_case->name, "another number of stores");
    expect(input.numbers[0] == a_case->last_after, a_case->name, "another number afterwards");
    expect(code_in(input.image) == a_case->code_after, a_case->name, "another mark afterwards");
    passed++;
}

/* ---- AOS: its fields in an image and in a frame ---- */

struct aos_image {
    const char *name;
    unsigned kind, spacecraft, channel, map;
    unsigned answer;
};

static const struct aos_image aos_images[] = {
    {"AOS image: spacecraft 255, channel 63", 4, 255, 63, 0, 0},
    {"AOS image: spacecraft 256", 4, 256, 63, 0, 1},
    {"AOS image: spacecraft 1,023", 4, 1023, 63, 0, 1},
    {"AOS image: channel 64", 4, 255, 64, 0, 1},
    {"AOS image: MAP 1", 4, 255, 63, 1, 1},
    {"AOS image: kind 5", 5, 255, 63, 0, 1},
};

/* A header before 14 octets that begin with SPI 9, for an association of this spacecraft and channel. */
struct aos_frame {
    const char *name;
    unsigned spacecraft, channel;
    const char *header;
    unsigned secured, checked; /* the answers; no MAC is there to be right, and the frame is too short for one */
};

static const struct aos_frame aos_frames[] = {
    {"AOS: version 01", 27, 5, "46 C5 00 00 00 00", 0, 5},
    {"AOS: version 00", 27, 5, "06 C5 00 00 00 00", 3, 3},
    {"AOS: version 10", 27, 5, "86 C5 00 00 00 00", 3, 3},
    {"AOS: version 11", 27, 5, "C6 C5 00 00 00 00", 3, 3},
    {"AOS: frame count and signalling are free", 27, 5, "46 C5 FF FF FF FF", 0, 5},
    {"AOS: all bits of spacecraft and channel", 255, 63, "7F FF 00 00 00 00", 0, 5},
    {"slip: channel bits of AOS read as TM's", 27, 5, "46 CA 00 00 00 00", 4, 4},
    {"slip: channel bits of AOS read as TC's", 27, 5, "46 C6 14 00 00 00", 4, 4},
    {"slip: spacecraft of AOS with 10 bits", 104, 5, "46 85 00 00 00 00", 4, 4},
    {"slip: spacecraft of AOS without its last bits", 24, 5, "46 C5 00 00 00 00", 4, 4},
};

static void place_association(struct input *input, unsigned kind, unsigned spacecraft, unsigned channel, unsigned map)
{
    struct table table;
    expect(read_image(input->image, input->image_length, &table), "AOS", "the image breaks a rule");
    table.entries[0].kind = kind;
    table.entries[0].spacecraft = spacecraft;
    table.entries[0].channel = channel;
    table.entries[0].map = map;
    write_image(&table, input->image);
}

static void try_aos_image(const struct aos_image *aos)
{
    static const struct setting setting = SEND(1, 4, 0);
    static struct input input;
    start_input(&input, CALL_LOAD, &setting);
    place_association(&input, aos->kind, aos->spacecraft, aos->channel, aos->map);
    expect(both_run(&test_random, &input).answer == aos->answer, aos->name, "another answer");
    passed++;
}

static void try_aos_frame(const struct aos_frame *aos)
{
    static const struct setting settings[] = {SEND(1, 4, 0), RECEIVE(1, 4, 100, 0)};
    static struct input input;
    for (unsigned side = 0; side < 2; side++) {
        start_input(&input, side == 0 ? CALL_SECURE : CALL_CHECK, &settings[side]);
        place_association(&input, 4, aos->spacecraft, aos->channel, 0);
        input.numbers[0] = 63;
        input.frame_length = octets_of(aos->header, input.frame) + 14;
        input.frame[6] = 0;
        input.frame[7] = 9;
        expect(both_run(&test_random, &input).answer == (side == 0 ? aos->secured : aos->checked), aos->name, "another answer");
    }
    passed++;
}

/* ---- the check field ---- */

/* The published value: 0x29B1 for the nine octets '1' to '9'. */
static void try_published_field(void)
{
    expect(check_field_of((const uint8_t *)"123456789", 9) == 0x29B1, "field", "the nine digits have another field");
    passed++;
}

/* The field of a secured frame is over all before it, the rewritten length and the MAC among them; 12 comes before 4 and after 3. */
static void try_field_order(void)
{
    static struct input input;
    const struct setting setting = SEND_WITH_FIELD(1, 1, 0);
    start_input(&input, CALL_SECURE, &setting);
    input.numbers[0] = 63;
    input.frame_length = clear_frame(1, true, 20, input.frame);
    struct outcome outcome = both_run(&test_random, &input);
    expect(outcome.answer == 0 && check_field_is_right(input.output, outcome.length), "field", "it is not that of the whole secured frame");
    input.frame[10] ^= 1;
    input.spi = 8;
    expect(both_run(&test_random, &input).answer == 12, "field", "12 does not come before 4");
    input.frame[0] ^= 0x80;
    expect(both_run(&test_random, &input).answer == 3, "field", "3 does not come before 12");
    input.frame[0] ^= 0x80;
    input.check_field = 0;
    expect(both_run(&test_random, &input).answer == 4, "field", "it is looked at where it is said to be absent");
    passed += 4;
}

/* 'A frame with a right field and then one bit changed is shown to be refused by 3 or 12': every bit of a frame. */
static void expect_every_bit(const struct input *input)
{
    static const char name[] = "field: a bit";
    static struct input changed;
    changed = *input;
    expect(both_run(&test_random, &changed).answer == 0, name, "the frame is refused as it is");
    for (size_t bit = 0; bit < 8 * input->frame_length; bit++) {
        changed = *input;
        changed.frame[bit / 8] ^= (uint8_t)(1u << bit % 8);
        unsigned answer = both_run(&test_random, &changed).answer;
        expect(answer == 3 || answer == 12, name, "it is not refused by 3 or 12");
    }
    passed++;
}

/* Of clear and secured frames of this kind. */
static void try_every_bit(enum which_call which, unsigned kind, unsigned service)
{
    static struct input input;
    const struct a_case a_case = {"field: a bit", which, {service, kind, which == CALL_SECURE ? 1 : 2, 100, 0, true}, 63, 20, 64, 0,
                                  false, 0, 0, 0, 0, 0};
    start_input(&input, which, &a_case.setting);
    input.numbers[0] = 63;
    if (which == CALL_CHECK) {
        make_received(&a_case, &input);
    } else {
        input.frame_length = clear_frame(kind, true, a_case.clear_length, input.frame);
    }
    expect_every_bit(&input);
}

/* ---- sets of channels, version 2 ---- */

struct set_image {
    const char *name;
    unsigned version, kind, channel;
    unsigned answer;
};

static const struct set_image set_images[] = {
    {"sets: version 0", 0, 3, 5, 1},
    {"sets: version 3, without its key part", 3, 3, 5, 1},
    {"sets: version 4, without its key part", 4, 3, 5, 1},
    {"sets: version 5", 5, 3, 5, 1},
    {"sets: version 1, TM, channel 0", 1, 3, 0, 0},
    {"sets: version 1, TM, channel 8", 1, 3, 8, 1},
    {"sets: version 2, TM, the empty set", 2, 3, 0, 1},
    {"sets: version 2, TM, channel 0 alone", 2, 3, 1, 0},
    {"sets: version 2, TM, all channels", 2, 3, 255, 0},
    {"sets: version 2, TC, channel 0", 2, 1, 0, 0},
    {"sets: version 2, TC, channel 64", 2, 1, 64, 1},
    {"sets: version 2, TC with segment header, channel 64", 2, 2, 64, 1},
    {"sets: version 2, AOS, channel 64", 2, 4, 64, 1},
};

/* A TM frame of this channel, in an image of this version whose body holds that channel octet. */
struct set_frame {
    const char *name;
    unsigned version, held, channel;
    unsigned secured, checked; /* the answers; no MAC is there to be right, and the frame is too short for one */
};

static const struct set_frame set_frames[] = {
    {"sets: the lowest bit, channel 0", 2, 0x01, 0, 0, 5},
    {"sets: the highest bit, channel 7", 2, 0x80, 7, 0, 5},
    {"slip: the highest bit for channel 0", 2, 0x80, 0, 4, 4},
    {"slip: the lowest bit for channel 7", 2, 0x01, 7, 4, 4},
    {"sets: two channels, the one", 2, 0x22, 1, 0, 5},
    {"sets: two channels, the other", 2, 0x22, 5, 0, 5},
    {"sets: two channels, neither", 2, 0x22, 2, 4, 4},
    {"slip: a set read as a channel", 2, 0x05, 5, 4, 4},
    {"slip: version 1 read as a set", 1, 0x05, 2, 4, 4},
    {"sets: version 1, its channel", 1, 0x05, 5, 0, 5},
};

static void place_channels(struct input *input, unsigned version, unsigned kind, unsigned channel)
{
    struct table table;
    expect(read_image(input->image, input->image_length, &table), "sets", "the image breaks a rule");
    table.version = version;
    table.entries[0].kind = kind;
    table.entries[0].channel = channel;
    table.entries[0].mask[MASK_LENGTH - 1] = 0;
    write_image(&table, input->image);
}

static void try_set_image(const struct set_image *set)
{
    static const struct setting setting = SEND(1, 3, 0);
    static struct input input;
    start_input(&input, CALL_LOAD, &setting);
    place_channels(&input, set->version, set->kind, set->channel);
    expect(both_run(&test_random, &input).answer == set->answer, set->name, "another answer");
    passed++;
}

static void try_set_frame(const struct set_frame *set)
{
    static const struct setting settings[] = {SEND(1, 3, 0), RECEIVE(1, 3, 100, 0)};
    static struct input input;
    for (unsigned side = 0; side < 2; side++) {
        start_input(&input, side == 0 ? CALL_SECURE : CALL_CHECK, &settings[side]);
        place_channels(&input, set->version, 3, set->held);
        input.numbers[0] = 63;
        input.frame_length = octets_of("01 B0 00 00 00 00", input.frame) + 14;
        input.frame[1] |= (uint8_t)(set->channel << 1);
        input.frame[6] = 0;
        input.frame[7] = 9;
        expect(both_run(&test_random, &input).answer == (side == 0 ? set->secured : set->checked), set->name, "another answer");
    }
    passed++;
}

/* ---- secondary headers of TM ---- */

/* A frame of kind 3: a primary header whose header flag is 1, a first octet of the secondary header (none where the frame ends before it), and
 * octets of AA up to a length. */
struct stamped_frame {
    const char *name;
    bool has_ocf, has_field; /* a check field is right */
    uint8_t first;
    size_t length;
    unsigned secured, checked; /* the answers; as a secured frame it has the SPI 9 behind its header, if it reaches so far, and no right MAC */
};

static const struct stamped_frame stamped_frames[] = {
    {"secondary header: the frame ends before it", false, false, 0x01, 6, 3, 3},
    {"secondary header: its first octet alone", false, false, 0x01, 7, 3, 3},
    {"secondary header: the shortest, and no data", false, false, 0x01, 8, 3, 3},
    {"secondary header: the shortest, an octet of data", false, false, 0x01, 9, 0, 3},
    {"secondary header: the shortest, an SPI", false, false, 0x01, 10, 0, 5},
    {"secondary header: the shortest, no octet of secured data", false, false, 0x01, 30, 0, 5},
    {"secondary header: the shortest, an octet of secured data", false, false, 0x01, 31, 0, 7},
    {"secondary header: the shortest and the OCF, no data", true, false, 0x01, 12, 3, 3},
    {"secondary header: the shortest and the OCF, an octet of data", true, false, 0x01, 13, 0, 3},
    {"secondary header: the longest, cut", false, false, 0x3F, 69, 3, 3},
    {"secondary header: the longest, and no data", false, false, 0x3F, 70, 3, 3},
    {"secondary header: the longest, an octet of data", false, false, 0x3F, 71, 0, 3},
    {"secondary header: the longest, no octet of secured data", false, false, 0x3F, 92, 0, 5},
    {"secondary header: the longest, an octet of secured data", false, false, 0x3F, 93, 0, 7},
    {"secondary header: the longest and the OCF, no octet of secured data", true, false, 0x3F, 96, 0, 5},
    {"secondary header: the longest and the OCF, an octet of secured data", true, false, 0x3F, 97, 0, 7},
    {"secondary header: the longest, 2,026 gives 2,048", false, false, 0x3F, 2026, 0, 7},
    {"secondary header: the longest, 2,027 gives 11", false, false, 0x3F, 2027, 11, 7},
    {"secondary header: length field 0", false, false, 0x00, 100, 3, 3},
    {"secondary header: version 01", false, false, 0x41, 100, 3, 3},
    {"secondary header: version 10", false, false, 0x81, 100, 3, 3},
    {"secondary header: version 11", false, false, 0xFF, 100, 3, 3},
    {"slip: the length field is the length", false, false, 0x3E, 70, 0, 3},
    {"secondary header: the shortest and a check field, no data", false, true, 0x01, 10, 3, 3},
    {"secondary header: the shortest and a check field, an octet of data", false, true, 0x01, 11, 0, 3},
    {"secondary header: the shortest and a check field, an SPI", false, true, 0x01, 12, 0, 5},
    {"secondary header: the shortest and a check field, no octet of secured data", false, true, 0x01, 32, 0, 5},
    {"secondary header: the shortest and a check field, an octet of secured data", false, true, 0x01, 33, 0, 7},
    {"secondary header: the longest, the OCF and a check field, no data", true, true, 0x3F, 76, 3, 3},
    {"secondary header: the longest, the OCF and a check field, an octet of data", true, true, 0x3F, 77, 0, 3},
    {"secondary header: the longest, the OCF and a check field, no octet of secured data", true, true, 0x3F, 98, 0, 5},
    {"secondary header: the longest, the OCF and a check field, an octet of secured data", true, true, 0x3F, 99, 0, 7},
    {"secondary header: the longest and a check field, 2,026 gives 2,048", false, true, 0x3F, 2026, 0, 7},
    {"secondary header: the longest and a check field, 2,027 gives 11", false, true, 0x3F, 2027, 11, 7},
    {"secondary header: length field 0, before a check field", false, true, 0x00, 100, 3, 3},
};

static void try_stamped_frame(const struct stamped_frame *stamped)
{
    static struct input input;
    for (unsigned side = 0; side < 2; side++) {
        const struct setting setting = {1, 3, side + 1, 100, 0, stamped->has_field};
        start_input(&input, side == 0 ? CALL_SECURE : CALL_CHECK, &setting);
        input.numbers[0] = 63;
        input.frame_length = stamped->length;
        memset(input.frame, 0xAA, stamped->length);
        octets_of(stamped->has_ocf ? "01 BB 00 00 80 00" : "01 BA 00 00 80 00", input.frame);
        input.frame[6] = stamped->first;
        if (side == 1) {
            uint8_t *security_header = input.frame + 7 + (stamped->first & 63);
            security_header[0] = 0;
            security_header[1] = 9;
        }
        if (stamped->has_field) {
            write_check_field(input.frame, input.frame_length);
        }
        expect(both_run(&test_random, &input).answer == (side == 0 ? stamped->secured : stamped->checked), stamped->name, "another answer");
    }
    passed++;
}

/* A clear frame of TM with a secondary header of so many octets, and an operational control field. */
static size_t stamped_clear_frame(size_t octets, bool has_field, size_t length, uint8_t *frame)
{
    clear_frame(3, false, length, frame);
    frame[4] = 0x80;
    frame[6] = (uint8_t)(octets - 1);
    if (has_field) {
        write_check_field(frame, length);
    }
    return length;
}

/* Every bit of a frame with a check field and a secondary header of so many octets, clear and secured: the header flag and the length of the
 * secondary header are among them. */
static void try_every_bit_of_stamp(size_t octets, unsigned service)
{
    static struct input sent, received;
    const struct setting here = SEND_WITH_FIELD(service, 3, 0), there = RECEIVE_WITH_FIELD(service, 3, 100, 0);
    start_input(&sent, CALL_SECURE, &here);
    sent.numbers[0] = 63;
    sent.frame_length = stamped_clear_frame(octets, true, 6 + octets + 10 + 4 + CHECK_FIELD_LENGTH, sent.frame);
    expect_every_bit(&sent);
    struct outcome securing = both_run(&test_random, &sent);
    start_input(&received, CALL_CHECK, &there);
    received.numbers[0] = 63;
    received.frame_length = securing.length;
    memcpy(received.frame, sent.output, securing.length);
    expect_every_bit(&received);
}

/* Frames with every secondary header: what goes out has it octet for octet, a bit of it changed is refused, and the data alone comes back.
 * The mask has bits that are 0 in every octet, so a secondary header under the mask, or not under the MAC, would be seen here. */
static void try_every_stamp(unsigned service, bool has_field)
{
    static const char name[] = "every secondary header";
    static struct input sent, received;
    const struct setting here = {service, 3, 1, 100, 0, has_field}, there = {service, 3, 2, 100, 0, has_field};
    for (size_t octets = 2; octets <= 64; octets++) {
        size_t header = 6 + octets, clear_length = header + 10 + 4 + (has_field ? CHECK_FIELD_LENGTH : 0);
        start_input(&sent, CALL_SECURE, &here);
        sent.numbers[0] = 63;
        sent.frame_length = stamped_clear_frame(octets, has_field, clear_length, sent.frame);
        uint8_t clear[FRAME_ROOM];
        memcpy(clear, sent.frame, clear_length);
        struct outcome securing = both_run(&test_random, &sent);
        expect(securing.answer == 0 && memcmp(sent.output, clear, header) == 0, name, "it is not copied");
        for (size_t at = 7; at <= header; at++) { /* each of its octets but the first, then none */
            start_input(&received, CALL_CHECK, &there);
            received.numbers[0] = 63;
            received.frame_length = securing.length;
            memcpy(received.frame, sent.output, securing.length);
            received.frame[at] ^= at < header ? 0x10 : 0;
            if (has_field) { /* or it would be 12 */
                write_check_field(received.frame, received.frame_length);
            }
            unsigned answer = both_run(&test_random, &received).answer;
            expect(answer == (at < header ? 7u : 0u), name, "a changed octet of it is not refused by 7, or none is");
        }
        expect(memcmp(received.output, clear + header, 10) == 0 && received.output[10] == 0x5A, name, "not the data alone was released");
        passed++;
    }
}

/* ---- cuts, as a table ---- */

struct a_cut {
    const char *name;
    uint32_t mark;
    uint32_t number;
    uint32_t stores;
    uint32_t made;
    uint32_t code_after;
    uint32_t load_after;
};

static const struct a_cut cuts[] = {
    {"G: 163, cut before the first", 0, 163, 0, 0, 0, 63},
    {"G: 163 stores 01; load gives 127", 0, 163, 1, 1, 1, 127},
    {"G: 163 then stores 03", 0, 163, 2, 2, 3, 191},
    {"G: 163 has no third store", 0, 163, 3, 2, 3, 191},
    {"I: 1,087 has 16 stores", 0, 1087, 100, 16, 24, 1087},
    {"J: 255 to 256 is one octet", 255, 16384, 1, 1, 0x180, 16447},
    {"K: the last raise", LAST_MARK - 1, LAST_NUMBER, 16, 1, LAST_CODE, LAST_NUMBER},
    {"a mark is never lowered", 7, 63, 16, 0, 4, 511},
};

static void try_cut(const struct a_cut *cut)
{
    static struct input input;
    struct setting setting = RECEIVE(1, 1, 1024, cut->mark);
    start_input(&input, CALL_LOAD, &setting);
    uint32_t made = both_raise(&test_random, input.image, input.image_length, 0, cut->number, cut->stores);
    expect(made == cut->made, cut->name, "another number of stores");
    expect(code_in(input.image) == cut->code_after, cut->name, "another mark afterwards");
    expect(both_run(&test_random, &input).answer == 0, cut->name, "the image does not load");
    expect(input.numbers[0] == cut->load_after, cut->name, "the load gives another number");
    passed++;
}

/* ---- octets that the paper writes out ---- */

static void try_case_a(void)
{
    static struct input input;
    memset(&input, 0, sizeof input);
    memset(input.numbers, 0xFF, sizeof input.numbers);
    input.which = CALL_LOAD;
    input.image_length = octets_of("01 00", input.image);
    input.numbers_length = NUMBER_COUNT;
    expect(both_run(&test_random, &input).answer == 0, "A", "it does not load");
    for (size_t i = 0; i < NUMBER_COUNT; i++) {
        expect(input.numbers[i] == 0, "A", "a number is not 0");
    }
    passed++;
}

static void try_case_b_layout(void)
{
    uint8_t image[LARGEST_IMAGE];
    struct setting setting = SEND(1, 1, 0);
    expect(image_of(&setting, image) == 58, "B", "the image has not 58 octets");
    expect(starts_with(image, "01 01 00 09 00 06 01 01 01 02 00 1B 05 00 00 64"), "B", "the image is laid out otherwise");
    passed++;
}

static void try_cases_c_and_d(void)
{
    static struct input input;
    struct setting setting = SEND(1, 1, 0);
    start_input(&input, CALL_SECURE, &setting);
    input.numbers[0] = 63;
    input.frame_length = octets_of("00 1B 14 06 00 AA", input.frame);
    expect(both_run(&test_random, &input).answer == 3, "C", "fourth octet 06 is not refused by 3");
    octets_of("00 1B 14 05 00 AA", input.frame);
    expect(both_run(&test_random, &input).length == 28, "D", "the secured frame has not 28 octets");
    expect(starts_with(input.output, "00 1B 14 1B 00 00 09 00 00 00 40 AA"), "D", "the secured frame starts otherwise");
    expect(input.image[57] == 1, "D", "octet 57 is not 01");
    passed += 2;
}

static void try_listing(const char *name, const struct setting *setting, size_t octets_more, const char *expected)
{
    uint8_t image[LARGEST_IMAGE + 2] = {0};
    char text[LISTING_ROOM];
    listing_text(image, image_of(setting, image) + octets_more, text);
    expect(strcmp(text, expected) == 0, name, "the reading lists it otherwise");
    passed++;
}

static void try_all(void)
{
    const struct setting new_image = SEND(1, 1, 0);
    const struct setting last_image = SEND(1, 1, LAST_MARK);
    try_case_a();
    try_case_b_layout();
    try_cases_c_and_d();
    for (size_t i = 0; i < sizeof cases / sizeof cases[0]; i++) {
        both_at(1, 0, i);
        try_case(&cases[i]);
    }
    for (size_t i = 0; i < sizeof cuts / sizeof cuts[0]; i++) {
        try_cut(&cuts[i]);
    }
    for (size_t i = 0; i < sizeof aos_images / sizeof aos_images[0]; i++) {
        try_aos_image(&aos_images[i]);
    }
    for (size_t i = 0; i < sizeof aos_frames / sizeof aos_frames[0]; i++) {
        try_aos_frame(&aos_frames[i]);
    }
    for (size_t i = 0; i < sizeof set_images / sizeof set_images[0]; i++) {
        try_set_image(&set_images[i]);
    }
    for (size_t i = 0; i < sizeof set_frames / sizeof set_frames[0]; i++) {
        try_set_frame(&set_frames[i]);
    }
    try_published_field();
    try_field_order();
    for (unsigned kind = 1; kind <= 3; kind++) {
        for (unsigned service = 1; service <= 2; service++) {
            try_every_bit(CALL_SECURE, kind, service);
            try_every_bit(CALL_CHECK, kind, service);
        }
    }
    for (size_t i = 0; i < sizeof stamped_frames / sizeof stamped_frames[0]; i++) {
        try_stamped_frame(&stamped_frames[i]);
    }
    for (unsigned service = 1; service <= 2; service++) {
        try_every_stamp(service, false);
        try_every_stamp(service, true);
        try_every_bit_of_stamp(2, service);
        try_every_bit_of_stamp(64, service);
    }
    try_listing("listing of B", &new_image, 0, "spi service kind direction state window next\n9 1 1 1 2 100 64\n");
    try_listing("listing of K", &last_image, 0, "spi service kind direction state window next\n9 1 1 1 2 100 none\n");
    try_listing("listing of B with an octet more", &new_image, 1, "refused 1\n");
}

int main(void)
{
    test_random = random_stream(1, 0);
    both_prepare("cases");
    for (test_desk = 0; test_desk <= 1; test_desk++) {
        try_all();
    }
    printf("cases: %u passed under desks 0 and 1, A to O among them\n", passed);
    return 0;
}
