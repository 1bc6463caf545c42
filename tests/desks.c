/* A guest laboratory's desk (document 02, request 10) through the C interface. First, with figures of its own and beside the independent reading
 * (support/both.h): images of version 4 octet by octet; which desk sees which association, over all 256 desks and all versions; where 19 comes.
 *
 * Then the request's sentence on two runs, on the module alone: 'answers to desk 2 are the same in two runs that differ only in desk 1's bodies,
 * numbers and calls, if key part, contents, validity, agreement of numbers with marks and places of loads and cuts are the same'. A pair of runs
 * has two images of version 4 with the same contents, owners, key part and bodies of the watched desk; the other desk's bodies, numbers and
 * calls are each run's own. The watched desk is a client, one in each run, that is told nothing but the answers to its own calls, and makes of
 * them what it asks next. Octet by octet, both clients must ask and be answered the same to the end, so that neither can tell which run it is in; and
 * so must the report of the watched desk be (request 11), whatever the log and the other desk's report hold.
 * Every second pair watches desk 1 in place of desk 2.
 *
 *   desks [--seed S] [--count N] [--from W]
 *
 * The count is of pairs. The figures are tried only where W is 0. tests/faults shows on broken readings that either part can fail. */
#include "support/both.h"
#include "support/commands.h"
#include "support/hexadecimal.h"
#include "support/options.h"
#include "support/worlds.h"

#include <inttypes.h>
#include <stdio.h>
#include <stdlib.h>
#include <string.h>

enum { UNTOUCHED = 0x5A, ROOM = 256, SMALL_DATA = 30, STEPS = 60, MOST_ASSOCIATIONS = 7, ENOUGH_PAIRS = 500 };

static struct random test_random;
static uint64_t calls;

static void expect(bool is_right, const char *sentence)
{
    if (!is_right) {
        both_fail(sentence);
    }
}

/* ---- images, octet by octet ---- */

#define KEY_OCTETS "000102030405060708090A0B0C0D0E0F101112131415161718191A1B1C1D1E1F"
/* SPI 9 is desk 1's and sends, SPI 20 is desk 2's and sends, SPI 30 is desk 2's, receives and has telemetry of channels 1 and 5; all three are
 * operational under key 7. */
#define THREE \
    "04 03 0009 0012 0014 0029 001E 0040 FFFF 0057" \
    " 01 01 01 02 001B 05 00 0064 FFFFFFFFFF00 0007 00000000 01" \
    " 02 01 01 02 001B 06 00 0064 FFFFFFFFFF00 0007 00000001 02" \
    " 02 03 02 02 001B 22 00 0064 FFFFFFFFFFFF 0007 00000003 02" \
    " 02 0007 01 " KEY_OCTETS " 0107 00 " KEY_OCTETS

static const struct {
    const char *name;
    size_t at;
    const char *octets; /* in place of those that stand there */
    int longer;         /* by so many octets of zero */
    unsigned answer;
} images[] = {
    {"three associations of two owners", 0, "", 0, 0},
    {"version 3", 0, "03", 0, 1},
    {"version 5", 0, "05", 0, 1},
    {"an octet less", 0, "", -1, 1},
    {"an octet more", 0, "", 1, 1},
    {"owner 0", 40, "00", 0, 1},
    {"owner 2 for 1", 40, "02", 0, 0},
    {"owner 3", 40, "03", 0, 1},
    {"owner 255", 40, "FF", 0, 1},
    {"the second's owner is 0", 63, "00", 0, 1},
    {"the second's owner is 1", 63, "01", 0, 0},
    {"the last's owner is 0", 86, "00", 0, 1},
    {"the last's owner is 3", 86, "03", 0, 1},
    {"a body at its place in version 3", 8, "0028", 0, 1},
    {"the key part at its place in version 3", 16, "0054", 0, 1},
    {"the key part one octet late", 16, "0058", 0, 1},
    {"the last entry's SPI is 65,534", 14, "FFFE", 0, 1},
    {"the last entry is counted", 1, "04", 0, 1},
    {"a key more is counted", 87, "03", 0, 1},
    {"65 are counted", 87, "41", 0, 1},
    {"key 7 is pre-active", 90, "00", 0, 1},
    {"key 263 is active", 125, "01", 0, 0},
    {"IDs fall", 123, "0006", 0, 1},
    {"SPI 9 names 263, which is pre-active", 34, "0107", 0, 1},
    {"SPI 9 is at rest and names 6", 21, "01 001B 05 00 0000 FFFFFFFFFF00 0006", 0, 0},
    {"telemetry serves no channel", 70, "00", 0, 1},
    {"a mark of 2^26", 36, "06000000", 0, 1},
    {"the greatest mark", 36, "02000000", 0, 0},
};

static struct outcome run(struct input *input)
{
    calls++;
    return both_run(&test_random, input);
}

static void lay_out_three(struct input *input)
{
    memset(input, 0, sizeof *input);
    input->image_length = octets_of(THREE, input->image);
    input->numbers_length = NUMBER_COUNT;
    input->numbers[0] = 63;
    input->numbers[1] = 127;
    input->numbers[2] = 2 * 64 + 63;
    input->output_length = ROOM;
    memset(input->output, UNTOUCHED, ROOM);
}

static void try_image(size_t number)
{
    static struct input input;
    lay_out_three(&input);
    input.which = CALL_LOAD;
    expect(input.image_length == 7 + 27 * 3 + 35 * 2, "the image of the test has another length");
    octets_of(images[number].octets, input.image + images[number].at);
    input.image_length = (size_t)((int)input.image_length + images[number].longer);
    memset(input.numbers, 0, sizeof input.numbers);
    expect(run(&input).answer == images[number].answer, images[number].name);
    if (number == 0) {
        expect(input.numbers[0] == 63 && input.numbers[1] == 127 && input.numbers[2] == 2 * 64 + 63 && input.numbers[3] == 0,
               "a load of version 4 gives other numbers");
    }
}

/* ---- who sees what ---- */

static const char clear_frame[] = "001B140500AA"; /* of channel 5; octet 2 has the channel in its first six bits */

static void put_clear_frame(struct input *input, unsigned spi, unsigned channel)
{
    input->which = CALL_SECURE;
    input->kind = 1;
    input->spi = (uint16_t)spi;
    input->frame_length = octets_of(clear_frame, input->frame);
    input->frame[2] = (uint8_t)(channel << 2);
}

/* A frame of SPI 30 with the next number, as the reading protects it. */
static void put_secured_frame(struct input *input)
{
    struct table table;
    struct header header;
    uint8_t clear[ROOM], sequence[SEQUENCE_LENGTH];
    size_t length = octets_of("01BA 0000 0000 AABBCC", clear); /* channel 5 */
    expect(read_image(input->image, input->image_length, &table) && read_clear_frame(3, false, clear, length, &header), "the test's own frame");
    iv_of_number(&table.entries[2], input->numbers[2] + 1, sequence);
    input->which = CALL_CHECK;
    input->kind = 3;
    input->frame_length = protect_frame(&table.entries[2], &header, sequence, clear, length, input->frame);
}

static void put_octets(struct input *input, const char *octets)
{
    input->which = CALL_COMMAND;
    input->frame_length = octets_of(octets, input->frame);
}

/* What is asked, whose it is, and what it is answered by where the desk sees it and where it does not. */
static const struct {
    const char *name;
    unsigned owner; /* 0: the key office's alone; 3: everybody's */
    const char *command; /* or NULL: a frame */
    unsigned seen, unseen;
} asked[] = {
    {"a frame of SPI 9", 1, NULL, 0, 4},
    {"a frame of SPI 20", 2, NULL, 0, 4},
    {"a frame for SPI 30", 2, NULL, 0, 4},
    {"status of SPI 9", 1, "1F 0002 0009", 0, 14},
    {"status of SPI 20", 2, "1F 0002 0014", 0, 14},
    {"status of SPI 30", 2, "1F 0002 001E", 0, 14},
    {"read number of SPI 20", 2, "10 0002 0014", 0, 14},
    {"start of SPI 20", 2, "1B 0006 0014 000006C6", 15, 14},
    {"stop of SPI 20", 2, "1E 0002 0014", 0, 14},
    {"expire of SPI 9", 1, "19 0002 0009", 15, 14},
    {"rekey of SPI 9", 1, "16 0010 0009 0007 000000000000000000000000", 15, 14},
    {"set number of SPI 20", 2, "1A 000E 0014 000000000000000000000080", 0, 14},
    {"set number of SPI 20 too far", 2, "1A 000E 0014 000000000000000000010080", 16, 14},
    {"set window of SPI 9", 1, "15 0004 0009 0010", 15, 14},
    {"an SPI that is not there", 3, "1F 0002 0008", 14, 14},
    {"status of SPI 9 with an octet more", 3, "1F 0003 0009 00", 13, 13},
    {"ping", 3, "31 0000", 0, 0},
    {"another tag", 3, "32 0000", 13, 13},
    {"no octet", 3, "", 13, 13},
    {"activation of key 263", 0, "02 0002 0107", 0, 19},
    {"activation without an ID", 0, "02 0000", 13, 19},
    {"activation, its tag alone", 0, "02", 13, 19},
    {"deactivation of key 7, which is in use", 0, "03 0002 0007", 18, 19},
    {"deactivation of no key", 0, "03 0002 0008", 17, 19},
    {"deactivation with an octet more", 0, "03 0003 000700", 13, 19},
    {"inventory", 0, "07 0004 0000 FFFF", 0, 19},
    {"inventory of one octet", 0, "07 0001 00", 13, 19},
    {"dump", 0, "33 0000", 0, 19},
    {"dump with an octet more", 0, "33 0001 00", 13, 19},
    {"dump, its tag alone", 0, "33", 13, 19},
    {"erase", 0, "34 0000", 0, 19},
    {"erase with an octet less", 0, "34 00", 13, 19},
    {"alarm reset", 3, "37 0000", 0, 0},
    {"alarm reset with an octet more", 3, "37 0001 00", 13, 13},
    {"inventory's tag and 64 octets", 0, "07 0000 00000000000000000000000000000000000000000000000000000000000000", 13, 19},
};

enum { ASKED = sizeof asked / sizeof asked[0] };

static void prepare_asked(struct input *input, size_t number)
{
    lay_out_three(input);
    if (asked[number].command != NULL) {
        put_octets(input, asked[number].command);
    } else if (number == 2) {
        put_secured_frame(input);
    } else {
        put_clear_frame(input, number == 0 ? 9 : 20, number == 0 ? 5 : 6);
    }
}

static unsigned answer_due(size_t number, unsigned desk)
{
    if (desk > 2) {
        return 19;
    }
    return desk == 0 || asked[number].owner == 3 || asked[number].owner == desk ? asked[number].seen : asked[number].unseen;
}

/* From every desk; and with numbers that disagree, or an image that breaks a rule, 2 and 1 come first, to whichever desk. */
static void try_asked(size_t number)
{
    static struct input input, prepared;
    for (unsigned desk = 0; desk < 256; desk++) {
        prepare_asked(&prepared, number);
        prepared.desk = (uint8_t)desk;
        input = prepared;
        expect(run(&input).answer == answer_due(number, desk), asked[number].name);
        input = prepared;
        input.numbers[desk % 3] ^= 64;
        expect(run(&input).answer == 2, "2 does not come before 19 and what a desk sees");
        input.image[40] = (uint8_t)(desk % 3 == 1 ? 0 : 3);
        expect(run(&input).answer == 1, "1 does not come first");
    }
}

/* Another's SPI and one that is not in the table are answered the same, also where the frame or the command has other faults. */
static void try_as_unknown(void)
{
    static struct input input, unknown;
    for (size_t number = 0; number < ASKED; number++) {
        for (unsigned fault = 0; fault < 64; fault++) {
            prepare_asked(&input, number);
            input.desk = (uint8_t)(asked[number].owner == 1 ? 2 : 1);
            if (asked[number].owner == 0 || asked[number].owner == 3) {
                continue;
            }
            input.frame[fault % (input.frame_length < 20 ? input.frame_length : 20)] ^= (uint8_t)(fault % 5 == 0 ? 0 : 1u << fault % 8);
            unknown = input;
            unknown.image[3] = 8, unknown.image[7] = 19, unknown.image[11] = 29; /* the SPIs, each one less */
            struct outcome foreign = run(&input), none = run(&unknown);
            expect(foreign.answer == none.answer, "another's SPI is answered otherwise than one that is not there");
        }
    }
}

/* 'older bodies are desk 1's': in versions 1 to 3 desks 0 and 1 see what there is, and desk 2 nothing. */
static void try_older(void)
{
    static const unsigned due[] = {0, 0, 4};
    static struct input input;
    for (unsigned version = 1; version <= 3; version++) {
        for (unsigned desk = 0; desk < 3; desk++) {
            struct table table;
            lay_out_three(&input);
            expect(read_image(input.image, input.image_length, &table), "the test's own image");
            table.version = version;
            table.entries[2].channel = version == 1 ? 5 : 0x22;
            input.image_length = write_image(&table, input.image);
            input.desk = (uint8_t)desk;
            put_clear_frame(&input, 20, 6);
            expect(run(&input).answer == due[desk], "a frame of an older image is answered otherwise");
            put_octets(&input, "1F 0002 0014");
            expect(run(&input).answer == (desk == 2 ? 14 : 0), "a command about an older image is answered otherwise");
            put_octets(&input, "07 0004 0000 FFFF");
            expect(run(&input).answer == (desk == 0 ? 0 : 19), "an inventory of an older image is answered otherwise");
            put_octets(&input, "31 0000");
            expect(run(&input).answer == 0, "a ping is answered otherwise");
        }
    }
}

/* Each association given to each desk in turn: what is seen changes with the last octet of its body and with nothing else. */
static void try_owners(void)
{
    static const unsigned at[] = {40, 63, 86}, spis[] = {9, 20, 30};
    static struct input input;
    for (unsigned owners = 0; owners < 8; owners++) {
        for (unsigned desk = 0; desk < 3; desk++) {
            for (unsigned i = 0; i < 3; i++) {
                lay_out_three(&input);
                for (unsigned j = 0; j < 3; j++) {
                    input.image[at[j]] = (uint8_t)(1 + (owners >> j) % 2);
                }
                bool is_seen_there = desk == 0 || desk == 1 + (owners >> i) % 2;
                input.desk = (uint8_t)desk;
                put_octets(&input, "10 0002 0000");
                input.frame[4] = (uint8_t)spis[i];
                struct outcome outcome = run(&input);
                expect(outcome.answer == (is_seen_there ? 0 : 14), "an association is seen by another than its owner and the key office");
            }
        }
    }
}

/* ---- pairs of runs ---- */

/* One of the two runs: an end, and what is its own: the generator of the other desk's calls. */
struct side {
    struct end end;
    struct random random;
    uint64_t told; /* a digest of what the client asked and was answered */
};

struct pair {
    struct random random; /* of what both runs share: places of calls, loads and cuts, and the key office's calls */
    unsigned watched;
    struct table guess;   /* what the client takes the other desk's associations to be: those of the first run, as they were */
    uint32_t guess_numbers[NUMBER_COUNT];
    struct side sides[2];
};

struct totals {
    uint64_t pairs[3], steps, answers, done, refused, of_foreign, loads, cuts, others, parted, broken, disagreeing, alarms, quiet;
    uint64_t commands[TAG_COUNT];
};

static struct totals totals;

/* What a desk goes by: its own associations as they are, and in place of the others' what it takes them to be. */
static void view_of(const struct pair *pair, const struct side *side, unsigned desk, struct table *view, uint32_t numbers[NUMBER_COUNT])
{
    table_of(&side->end, view);
    memcpy(numbers, side->end.numbers, sizeof side->end.numbers);
    for (size_t i = 0; i < view->count; i++) {
        if (view->entries[i].owner != desk) {
            view->entries[i] = pair->guess.entries[i];
            numbers[i] = pair->guess_numbers[i];
        }
    }
}

static unsigned any_active_key(struct random *random, const struct table *view)
{
    size_t from = view->key_count == 0 ? 0 : random_below(random, (uint32_t)view->key_count);
    for (size_t i = 0; i < view->key_count; i++) {
        const struct key *key = &view->keys[(from + i) % view->key_count];
        if (key->state == ACTIVE) {
            return key->id;
        }
    }
    return random_below(random, 65536);
}

/* The command that brings an association nearer to serving, as far as its desk knows. */
static void put_way_back(struct random *random, struct input *input, const struct table *view, const struct association *association)
{
    size_t named = find_key(view, association->key_id);
    bool has_key = named < view->key_count && view->keys[named].state == ACTIVE;
    if (association->state == 0) {
        put_rekey(input, association->spi, any_active_key(random, view));
    } else if (!has_key) {
        put_spi_alone(input, TAG_EXPIRE, association->spi);
    } else if (association->window < 1 || association->window > 1024) {
        put_set_window(input, association->spi, random_between(random, 1, 1024));
    } else {
        put_start(input, association->spi, name_of_channel(association, any_channel(random, association)));
    }
}

static void put_frame(struct random *random, struct input *input, const struct association *association, uint32_t last)
{
    struct header header;
    uint8_t clear[FRAME_ROOM], sequence[SEQUENCE_LENGTH];
    bool has_field = association->kind != 4 && random_percent(random, 30);
    input->which = association->direction == 1 ? CALL_SECURE : CALL_CHECK;
    input->kind = (uint8_t)association->kind;
    input->check_field = has_field ? 1 : 0;
    input->spi = (uint16_t)association->spi;
    input->frame_length = make_clear_frame(random, association, has_field, random_between(random, 1, SMALL_DATA), input->frame);
    if (input->which == CALL_CHECK && read_clear_frame(association->kind, has_field, input->frame, input->frame_length, &header)) {
        memcpy(clear, input->frame, input->frame_length);
        iv_of_number(association, (uint64_t)last + random_between(random, 0, 3), sequence);
        input->frame_length = protect_frame(association, &header, sequence, clear, input->frame_length, input->frame);
    }
    if (random_percent(random, 8)) {
        input->frame[random_below(random, (uint32_t)input->frame_length)] ^= (uint8_t)(1u << random_below(random, 8));
    }
}

/* A call of a desk, from its view alone: mostly about an association of its own, else about another's SPI; a frame or a command. */
static void make_call(struct random *random, const struct pair *pair, const struct side *side, unsigned desk, struct input *input)
{
    struct table view;
    uint32_t numbers[NUMBER_COUNT];
    view_of(pair, side, desk, &view, numbers);
    size_t entry = random_below(random, (uint32_t)view.count);
    for (unsigned tries = 0; tries < 3 && view.entries[entry].owner != desk && random_percent(random, 80); tries++) {
        entry = random_below(random, (uint32_t)view.count);
    }
    struct association association = view.entries[entry];
    input->which = CALL_COMMAND;
    input->kind = 0;
    input->check_field = 0;
    input->spi = 0;
    uint32_t chance = random_below(random, 100);
    if (association.state == 2 ? chance < 65 : chance < 10) {
        put_frame(random, input, &association, numbers[entry]);
    } else if (association.state != 2 && chance < 75) {
        put_way_back(random, input, &view, &association);
    } else {
        if (view.key_count != 0) {
            association.key_id = view.keys[random_below(random, (uint32_t)view.key_count)].id;
        }
        make_command(random, input, every_tag[random_below(random, TAG_COUNT)], &association, numbers[entry]);
        if (random_percent(random, 10)) {
            break_command(random, input);
        }
    }
    input->desk = (uint8_t)desk;
    input->output_length = random_percent(random, 92) ? ROOM : random_below(random, 40);
    memset(input->output, (int)random_below(random, 256), input->output_length);
}

static void put_end(struct input *input, const struct end *end)
{
    input->image_length = end->image_length;
    memcpy(input->image, end->image, end->image_length);
    input->numbers_length = NUMBER_COUNT;
    memcpy(input->numbers, end->numbers, sizeof end->numbers);
    input->record = end->record;
}

static struct outcome carry_out(struct pair *pair, struct side *side, struct input *input)
{
    put_end(input, &side->end);
    struct outcome outcome = both_run(&pair->random, input);
    end_of_input(&side->end, input);
    return outcome;
}

static uint64_t digest(uint64_t so_far, const void *octets, size_t length)
{
    for (size_t i = 0; i < length; i++) {
        so_far = (so_far ^ ((const uint8_t *)octets)[i]) * UINT64_C(0x100000001B3);
    }
    return so_far;
}

/* What the request supposes of two runs at every moment, and what it says of the watched desk's own part. */
static void judge_states(const struct pair *pair)
{
    struct table tables[2];
    const struct end *ends[2] = {&pair->sides[0].end, &pair->sides[1].end};
    table_of(ends[0], &tables[0]);
    table_of(ends[1], &tables[1]);
    size_t keys = key_position(4, tables[0].count, 0) - 1;
    if (ends[0]->image_length != ends[1]->image_length || memcmp(ends[0]->image + keys, ends[1]->image + keys, ends[0]->image_length - keys) != 0) {
        both_fail("the test let the key parts of two runs part");
    }
    for (size_t i = 0; i < tables[0].count; i++) {
        size_t at = body_position(4, tables[0].count, i);
        bool is_own = tables[0].entries[i].owner == pair->watched;
        if (is_own && (memcmp(ends[0]->image + at, ends[1]->image + at, 23) != 0 || ends[0]->numbers[i] != ends[1]->numbers[i])) {
            both_fail("an association of the watched desk is another in the other run");
        }
    }
    const uint8_t *report = ends[0]->record.notes.reports[pair->watched];
    if (memcmp(report, ends[1]->record.notes.reports[pair->watched], REPORT_LENGTH) != 0) {
        both_fail("the report of the watched desk is another in the other run");
    }
    totals.alarms += (report[0] & 8) != 0;
    totals.quiet += (report[0] & 8) == 0;
}

/* One call of each client, made of what it was told. */
static void client_calls(struct pair *pair, uint64_t seed, struct input inputs[2], struct outcome outcomes[2], bool is_cut)
{
    for (size_t s = 0; s < 2; s++) {
        struct side *side = &pair->sides[s];
        struct random own = random_stream(seed, side->told);
        make_call(&own, pair, side, pair->watched, &inputs[s]);
    }
    const struct input *one = &inputs[0], *other = &inputs[1];
    if (one->which != other->which || one->kind != other->kind || one->check_field != other->check_field || one->spi != other->spi
        || one->frame_length != other->frame_length || memcmp(one->frame, other->frame, one->frame_length) != 0
        || one->output_length != other->output_length) {
        both_fail("the client asks otherwise in the other run: it has told the runs apart");
    }
    for (size_t s = 0; s < 2; s++) {
        struct end kept = pair->sides[s].end;
        outcomes[s] = carry_out(pair, &pair->sides[s], &inputs[s]);
        if (is_cut) { /* of its notes, too */
            pair->sides[s].end = kept;
        }
    }
}

static bool is_about_foreign(const struct pair *pair, const struct input *input)
{
    for (size_t i = 0; i < pair->guess.count; i++) {
        unsigned spi = input->which == CALL_SECURE ? input->spi : input->frame_length < 5 ? 0 : input->frame[3] * 256u + input->frame[4];
        if (input->which != CALL_CHECK && pair->guess.entries[i].spi == spi && pair->guess.entries[i].owner != pair->watched) {
            return true;
        }
    }
    return false;
}

static void judge_answers(struct pair *pair, const struct input inputs[2], const struct outcome outcomes[2])
{
    if (outcomes[0].answer != outcomes[1].answer || outcomes[0].length != outcomes[1].length || outcomes[0].stores != outcomes[1].stores) {
        both_fail("the watched desk is answered otherwise in the other run");
    }
    if (memcmp(inputs[0].output, inputs[1].output, inputs[0].output_length) != 0) {
        both_fail("the watched desk gets other octets in the other run");
    }
    for (size_t s = 0; s < 2; s++) {
        uint64_t told = digest(pair->sides[s].told, inputs[s].frame, inputs[s].frame_length);
        const uint8_t answered[] = {(uint8_t)outcomes[s].answer, (uint8_t)outcomes[s].stores}; /* the same on every processor */
        told = digest(told, answered, sizeof answered);
        pair->sides[s].told = digest(told, inputs[s].output, inputs[s].output_length);
    }
    totals.answers++;
    totals.done += outcomes[0].answer == 0;
    totals.refused += outcomes[0].answer != 0;
    totals.of_foreign += is_about_foreign(pair, &inputs[0]);
    if (inputs[0].which == CALL_COMMAND && outcomes[0].answer == 0) {
        totals.commands[index_of_tag(inputs[0].frame[0])]++;
    }
}

static void load_both(struct pair *pair)
{
    static struct input input;
    for (size_t s = 0; s < 2; s++) {
        input_of_end(&input, CALL_LOAD, &pair->sides[s].end);
        if (carry_out(pair, &pair->sides[s], &input).answer != 0) {
            both_fail("an image that calls and cuts left does not load");
        }
    }
    totals.loads++;
}

/* The first j stores of a call that would be done, in the image as it was before it. */
static void make_cut(struct pair *pair, struct side *side, const struct input *done, const struct end *before, uint32_t j)
{
    static struct input input;
    struct table table;
    input = *done;
    put_end(&input, before);
    if (done->which == CALL_COMMAND) {
        both_cut_command(&pair->random, &input, j);
    } else {
        table_of(before, &table);
        for (size_t i = 0; i < table.count; i++) {
            if (done->numbers[i] != before->numbers[i]) {
                both_raise(&pair->random, input.image, input.image_length, (uint8_t)i, done->numbers[i], j);
            }
        }
    }
    memcpy(side->end.image, input.image, input.image_length);
}

/* The other desk's calls, each run's own, and not as many in one as in the other. */
static void others_call(struct pair *pair)
{
    static struct input input;
    for (size_t s = 0; s < 2; s++) {
        struct side *side = &pair->sides[s];
        for (uint32_t i = random_below(&side->random, 4); i > 0; i--) {
            make_call(&side->random, pair, side, 3 - pair->watched, &input);
            carry_out(pair, side, &input);
            totals.others++;
        }
    }
}

/* Power fails in a call of the other desk, at the same place in both runs: which call it is, and after how many stores, is each run's own. */
static void cut_others(struct pair *pair)
{
    static struct input input;
    for (size_t s = 0; s < 2; s++) {
        struct side *side = &pair->sides[s];
        struct end before = side->end;
        make_call(&side->random, pair, side, 3 - pair->watched, &input);
        struct outcome outcome = carry_out(pair, side, &input);
        side->end = before;
        make_cut(pair, side, &input, &before, random_between(&side->random, 0, outcome.stores));
    }
    load_both(pair);
    totals.cuts++;
}

/* Power fails in a call of the client, after the same store in both runs. It is told nothing. */
static void cut_client(struct pair *pair, uint64_t seed)
{
    static struct input inputs[2];
    struct outcome outcomes[2];
    struct end before[2] = {pair->sides[0].end, pair->sides[1].end};
    client_calls(pair, seed, inputs, outcomes, true);
    uint32_t j = random_between(&pair->random, 0, outcomes[0].stores);
    for (size_t s = 0; s < 2; s++) {
        make_cut(pair, &pair->sides[s], &inputs[s], &before[s], j);
        pair->sides[s].told = digest(pair->sides[s].told, "cut", 3);
    }
    load_both(pair);
    totals.cuts++;
}

static bool key_parts_agree(const struct end *one, const struct end *other, size_t count)
{
    size_t keys = key_position(4, count, 0) - 1;
    return memcmp(one->image + keys, other->image + keys, one->image_length - keys) == 0;
}

/* The key office's call, the same in both runs; what it is answered may differ. Where it would let the key parts part, as a deactivation can that
 * one of the other desk's associations stands against in one run only, the request supposes that it does not happen. */
static void office_calls(struct pair *pair)
{
    static struct input input, again;
    struct end before[2] = {pair->sides[0].end, pair->sides[1].end};
    make_call(&pair->random, pair, &pair->sides[0], pair->watched, &input);
    if (random_percent(&pair->random, 50)) {
        struct table table;
        table_of(&pair->sides[0].end, &table);
        unsigned id = table.key_count == 0 ? 0 : table.keys[random_below(&pair->random, (uint32_t)table.key_count)].id;
        input.which = CALL_COMMAND;
        put_spi_alone(&input, random_percent(&pair->random, 70) ? TAG_ACTIVATION : TAG_DEACTIVATION, id);
    }
    input.desk = KEY_OFFICE;
    again = input;
    carry_out(pair, &pair->sides[0], &input);
    carry_out(pair, &pair->sides[1], &again);
    if (!key_parts_agree(&pair->sides[0].end, &pair->sides[1].end, pair->guess.count)) {
        pair->sides[0].end = before[0];
        pair->sides[1].end = before[1];
        totals.parted++;
    }
}

/* One call of each client while the images break a rule, or numbers disagree, by an association of the other desk's: each run by its own. */
static void client_is_refused(struct pair *pair, uint64_t seed)
{
    static struct input inputs[2];
    struct outcome outcomes[2];
    struct end kept[2] = {pair->sides[0].end, pair->sides[1].end};
    bool breaks_rule = random_percent(&pair->random, 50);
    for (size_t s = 0; s < 2; s++) {
        struct side *side = &pair->sides[s];
        size_t entry = random_below(&side->random, (uint32_t)pair->guess.count);
        while (pair->guess.entries[entry].owner == pair->watched) {
            entry = (entry + 1) % pair->guess.count;
        }
        struct random own = random_stream(seed, side->told);
        make_call(&own, pair, side, pair->watched, &inputs[s]);
        put_end(&inputs[s], &side->end);
        if (breaks_rule) {
            inputs[s].image[body_position(4, pair->guess.count, entry) + RANDOM_OF(&side->random, 0, 1, 2, 3, 22)] = 7;
        } else {
            inputs[s].numbers[entry] ^= 64u << random_below(&side->random, 26);
        }
        outcomes[s] = both_run(&pair->random, &inputs[s]);
    }
    if (outcomes[0].answer != (breaks_rule ? 1 : 2)) {
        both_fail("a broken rule or numbers that disagree are not refused by 1 or 2");
    }
    judge_answers(pair, inputs, outcomes);
    for (size_t s = 0; s < 2; s++) { /* but for the alarm, which stays */
        pair->sides[s].end = kept[s];
        notes_of_input(&pair->sides[s].end, &inputs[s]);
    }
    totals.broken += breaks_rule;
    totals.disagreeing += !breaks_rule;
}

/* The other desk's association in the second run: another altogether, or with another number, or in another state. */
static void change_other(struct pair *pair, struct input *input)
{
    static struct input anew;
    struct table table, other;
    anew = *input;
    anew.desk = (uint8_t)pair->watched;
    change_unseen(&pair->random, &anew);
    if (!read_image(input->image, input->image_length, &table) || !read_image(anew.image, anew.image_length, &other)) {
        both_fail("the test's own image");
    }
    for (size_t i = 0; i < table.count; i++) {
        uint32_t chance = random_below(&pair->random, 100);
        if (table.entries[i].owner == pair->watched || chance < 10) {
            continue;
        }
        if (chance < 60) {
            table.entries[i] = other.entries[i];
            input->numbers[i] = anew.numbers[i];
        } else if (chance < 80) {
            table.entries[i].mark = other.entries[i].mark;
            input->numbers[i] = anew.numbers[i];
        } else {
            table.entries[i].state = table.entries[i].state == 2 ? random_below(&pair->random, 2) : table.entries[i].state;
        }
    }
    write_image(&table, input->image);
}

/* Two images of version 4 with associations of both desks. */
static void start_pair(struct pair *pair, struct options options, uint64_t number)
{
    struct world world;
    static struct input input;
    bool has_owner[3];
    pair->random = random_stream(options.seed, number);
    pair->watched = number % 2 == 0 ? 2 : 1;
    do {
        memset(has_owner, 0, sizeof has_owner);
        make_world(&pair->random, &world, random_between(&pair->random, 2, MOST_ASSOCIATIONS));
        table_of(&world.ends[0], &pair->guess);
        for (size_t i = 0; i < pair->guess.count; i++) {
            has_owner[pair->guess.entries[i].owner] = true;
        }
    } while (pair->guess.version != 4 || !has_owner[1] || !has_owner[2]);
    memcpy(pair->guess_numbers, world.ends[0].numbers, sizeof pair->guess_numbers);
    input_of_end(&input, CALL_COMMAND, &world.ends[0]);
    change_other(pair, &input);
    for (size_t s = 0; s < 2; s++) {
        pair->sides[s].end = world.ends[0];
        pair->sides[s].random = random_stream(options.seed, (number << 2) + (uint64_t)s + UINT64_C(0x9E3779B97F4A7C15));
        pair->sides[s].told = number;
    }
    end_of_input(&pair->sides[1].end, &input);
    for (size_t desk = 0; desk < DESK_COUNT; desk++) { /* 'their own part' of the notes: another report, and another log */
        if (desk != pair->watched && desk != KEY_OFFICE) {
            random_octets(&pair->random, pair->sides[1].end.record.notes.reports[desk], REPORT_LENGTH);
        }
    }
    pair->sides[1].end.record.notes.kept = random_below(&pair->random, 300);
    pair->sides[1].end.record.notes.dropped = random_below(&pair->random, 3);
    random_octets(&pair->random, pair->sides[1].end.record.events, pair->sides[1].end.record.events_length);
}

static void run_pair(struct options options, uint64_t number)
{
    static struct pair pair;
    static struct input inputs[2];
    struct outcome outcomes[2];
    both_compare(false);
    start_pair(&pair, options, number);
    for (unsigned step = 0; step < STEPS; step++) {
        uint32_t chance = random_below(&pair.random, 100);
        both_at(options.seed, number, step);
        judge_states(&pair);
        if (chance < 50) {
            client_calls(&pair, options.seed, inputs, outcomes, false);
            judge_answers(&pair, inputs, outcomes);
        } else if (chance < 72) {
            others_call(&pair);
        } else if (chance < 82) {
            office_calls(&pair);
        } else if (chance < 87) {
            load_both(&pair);
        } else if (chance < 91) {
            cut_others(&pair);
        } else if (chance < 95) {
            cut_client(&pair, options.seed);
        } else {
            client_is_refused(&pair, options.seed);
        }
        totals.steps++;
    }
    both_compare(true);
    totals.pairs[pair.watched]++;
}

/* The watched desk was answered by every command that is its own, about its own and another's associations, and the key parts could have parted. */
static bool pairs_are_enough(void)
{
    bool is_enough = totals.pairs[1] > 0 && totals.pairs[2] > 0 && totals.of_foreign > 0 && totals.loads > 0 && totals.cuts > 0 && totals.others > 0
        && totals.parted > 0 && totals.broken > 0 && totals.disagreeing > 0 && totals.alarms > 0 && totals.quiet > 0;
    for (size_t tag = 0; tag < TAG_COUNT; tag++) {
        is_enough = is_enough && (totals.commands[tag] > 0) != is_office_only(every_tag[tag]);
    }
    return is_enough;
}

static void try_figures(struct options options)
{
    test_random = random_stream(options.seed, 0);
    for (size_t number = 0; number < sizeof images / sizeof images[0]; number++) {
        both_at(options.seed, 0, number);
        try_image(number);
    }
    for (size_t number = 0; number < ASKED; number++) {
        both_at(options.seed, 0, number);
        try_asked(number);
    }
    try_as_unknown();
    try_older();
    try_owners();
    printf("desks: %zu images and %d calls from each of 256 desks, %" PRIu64
           " calls in all: version 4, what a desk sees and 19 as the request says\n",
           sizeof images / sizeof images[0], ASKED, calls);
}

int main(int argument_count, char **arguments)
{
    struct options options = options_of(argument_count, arguments, 2000);
    both_prepare("desks");
    if (options.from == 0) {
        try_figures(options);
    }
    for (uint64_t i = 0; i < options.count; i++) {
        run_pair(options, options.from + i);
    }
    printf("desks: seed %" PRIu64 ", %" PRIu64 " pairs of runs that watch desk 1 and %" PRIu64 " that watch desk 2, %" PRIu64 " steps: %" PRIu64
           " calls of a client, %" PRIu64 " done and %" PRIu64 " refused, %" PRIu64 " about another's association; %" PRIu64
           " calls of the other desk, %" PRIu64 " loads, %" PRIu64 " cuts, %" PRIu64 " images broken and %" PRIu64
           " numbers that disagree by the other desk's part; %" PRIu64
           " calls of the key office taken back because the key parts would have parted; no client could tell its run, and its report was the "
           "same in both, %" PRIu64 " times with an alarm and %" PRIu64 " times with none\n",
           options.seed, totals.pairs[1], totals.pairs[2], totals.steps, totals.answers, totals.done, totals.refused, totals.of_foreign,
           totals.others, totals.loads, totals.cuts, totals.broken, totals.disagreeing, totals.parted, totals.alarms, totals.quiet);
    if (options.count >= ENOUGH_PAIRS && !pairs_are_enough()) {
        puts("desks: too few of the calls that pairs are to show");
        return 1;
    }
    return 0;
}
