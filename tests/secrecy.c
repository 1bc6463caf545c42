/* What a check tells (document 02, request 14), through the C interface and on the module alone: two runs beside each other that differ in keys,
 * data, MACs, operational control fields and check fields. At each check the frames are of one length and agree in headers, SPI and number or IV;
 * both MACs are right, or both are wrong, and so are both check fields. After each call all that can be seen is compared: answer, length, stores,
 * numbers, reports, log, every octet of the image but those of keys. Only released data may differ.
 *
 *   secrecy [--seed S] [--count N] [--from W]
 *
 * A pair of calls counts as one. Pairs come in worlds, about thirty in each. At the end the answers to checks are counted, by version, kind and
 * service, by check field, and by desk; a long run that misses one which can be given fails, or one whose released data never differed. tests/faults
 * shows on broken readings that it can fail. */
#include "support/both.h"
#include "support/options.h"
#include "support/worlds.h"

#include <inttypes.h>
#include <stdio.h>
#include <string.h>

enum { PAIRS_PER_WORLD = 30, KINDS = 4, SERVICES = 2, VERSIONS = 4, DESKS = 4, ANSWERS = 20, ENOUGH_FOR_EVERY_ANSWER = 40000, HERE = 0, THERE = 1 };

static const unsigned answers_of_checks[] = {0, 1, 2, 3, 4, 5, 6, 7, 8, 12, 19};

enum { ANSWERS_OF_CHECKS = sizeof answers_of_checks / sizeof answers_of_checks[0] };

struct run {
    struct options options;
    struct random random;
    struct end ends[2];             /* of the one run, and of the other */
    struct table tables[2];         /* as the world was made: keys and layout stay */
    bool is_secret[LARGEST_IMAGE];  /* octets of keys */
    uint64_t pairs;
    uint64_t loads;
    uint64_t released;              /* done, and the data was not the same */
    /* checks, by version, kind and service of what the frame was made for; by kind and check field; by desk, of which those above 2 are one */
    uint64_t by_entry[VERSIONS + 1][KINDS + 1][SERVICES + 1][ANSWERS];
    uint64_t by_field[KINDS + 1][2][ANSWERS];
    uint64_t by_desk[DESKS][ANSWERS];
};

/* ---- two images ---- */

/* The octets that are keys: those that differ where every key is all zeros and where it is all ones. */
static void find_secrets(struct run *run, const struct table *table)
{
    static uint8_t images[2][LARGEST_IMAGE];
    struct table blank = *table;
    size_t length = 0;
    for (unsigned i = 0; i < 2; i++) {
        for (size_t entry = 0; entry < blank.count; entry++) {
            memset(blank.entries[entry].key, i == 0 ? 0x00 : 0xFF, KEY_LENGTH);
        }
        for (size_t key = 0; key < blank.key_count; key++) {
            memset(blank.keys[key].octets, i == 0 ? 0x00 : 0xFF, KEY_LENGTH);
        }
        length = write_image(&blank, images[i]);
    }
    memset(run->is_secret, 0, sizeof run->is_secret);
    for (size_t at = 0; at < length; at++) {
        run->is_secret[at] = images[0][at] != images[1][at];
    }
}

/* The same table with other keys; from version 3 on those that shared one share one again. */
static void change_keys(struct random *random, struct table *table)
{
    for (size_t entry = 0; entry < table->count; entry++) {
        random_octets(random, table->entries[entry].key, KEY_LENGTH);
    }
    for (size_t key = 0; key < table->key_count; key++) {
        random_octets(random, table->keys[key].octets, KEY_LENGTH);
    }
    resolve_keys(table);
}

static void make_pair(struct run *run)
{
    static struct world world;
    struct random *random = &run->random;
    make_world(random, &world, random_percent(random, 3) ? 0 : random_between(random, 1, random_percent(random, 90) ? 6 : 32));
    run->ends[HERE] = world.ends[0];
    run->ends[THERE] = world.ends[0];
    table_of(&world.ends[0], &run->tables[HERE]);
    run->tables[THERE] = run->tables[HERE];
    change_keys(random, &run->tables[THERE]);
    find_secrets(run, &run->tables[HERE]);
    set_table(&run->ends[THERE], &run->tables[THERE]);
}

/* ---- a call in both ---- */

static void compare_records(const struct record *here, const struct record *there)
{
    if (memcmp(here->notes.reports, there->notes.reports, sizeof here->notes.reports) != 0) {
        both_fail("the reports of the two runs differ");
    }
    if (here->notes.kept != there->notes.kept || here->notes.dropped != there->notes.dropped
        || memcmp(here->events, there->events, here->events_length) != 0) {
        both_fail("the logs of the two runs differ");
    }
}

static void compare(const struct run *run, const struct outcome outcomes[2], const struct input inputs[2])
{
    const struct input *here = &inputs[HERE], *there = &inputs[THERE];
    if (outcomes[HERE].answer != outcomes[THERE].answer) {
        both_fail("the answers of the two runs differ");
    }
    if (outcomes[HERE].length != outcomes[THERE].length || outcomes[HERE].stores != outcomes[THERE].stores) {
        both_fail("length or stores of the two runs differ");
    }
    if (memcmp(here->numbers, there->numbers, here->numbers_length * sizeof(uint32_t)) != 0) {
        both_fail("the numbers of the two runs differ");
    }
    compare_records(&here->record, &there->record);
    for (size_t at = 0; at < here->image_length; at++) {
        bool is_secret = at < LARGEST_IMAGE && run->is_secret[at];
        if (!is_secret && here->image[at] != there->image[at]) {
            both_fail("the images of the two runs differ, and not in a key");
        }
    }
}

/* The only place where the module is called. Both keep what the calls left, if they are to, and the notes in any case. */
static struct outcome run_pair(struct run *run, struct input inputs[2], bool keeps)
{
    struct outcome outcomes[2];
    for (unsigned i = 0; i < 2; i++) {
        outcomes[i] = both_run(&run->random, &inputs[i]);
    }
    compare(run, outcomes, inputs);
    for (unsigned i = 0; i < 2; i++) {
        (keeps ? end_of_input : notes_of_input)(&run->ends[i], &inputs[i]);
    }
    run->pairs++;
    return outcomes[HERE];
}

static void load_both(struct run *run)
{
    static struct input inputs[2];
    uint32_t any = (uint32_t)random_any(&run->random);
    for (unsigned i = 0; i < 2; i++) {
        input_of_end(&inputs[i], CALL_LOAD, &run->ends[i]);
        for (size_t n = 0; n < NUMBER_COUNT; n++) {
            inputs[i].numbers[n] = any + (uint32_t)n;
        }
    }
    run_pair(run, inputs, true);
    run->loads++;
}

/* ---- two frames ---- */

/* A number on either side of the window's limits. */
static uint64_t any_number(struct random *random, const struct association *association, uint32_t last)
{
    uint32_t chance = random_below(random, 100);
    if (chance < 60) {
        return (uint64_t)last + random_between(random, 1, association->window == 0 ? 1 : association->window);
    }
    if (chance < 80) {
        return (uint64_t)last + 1;
    }
    return chance < 90 ? last - random_below(random, last < 100 ? last + 1 : 100) : (uint64_t)last + association->window + 1;
}

/* Frames for an entry: one header, SPI and number or IV, and in each run its own data, operational control field and MAC. */
static bool make_frames(struct run *run, const struct association *const associations[2], uint32_t last, struct input inputs[2])
{
    struct random *random = &run->random;
    uint8_t clear[FRAME_ROOM], sequence[SEQUENCE_LENGTH];
    struct header header;
    unsigned kind = associations[HERE]->kind;
    bool has_field = inputs[HERE].check_field != 0;
    size_t length = make_clear_frame(random, associations[HERE], has_field, any_data_length(random, associations[HERE]), clear);
    if (!read_clear_frame(kind, has_field, clear, length, &header)
        || length + security_header_length(associations[HERE]->service) + MAC_LENGTH > header.largest) {
        return false;
    }
    iv_of_number(associations[HERE], any_number(random, associations[HERE], last), sequence);
    for (unsigned i = 0; i < 2; i++) {
        random_octets(random, clear + header.length, length - header.length);
        if (has_field) {
            write_check_field(clear, length);
        }
        inputs[i].frame_length = protect_frame(associations[i], &header, sequence, clear, length, inputs[i].frame);
    }
    return true;
}

/* What can be broken of a frame: its MAC; its check field, or that one is said to end an AOS frame; a public octet; its length. */
enum breaking { NOTHING, MAC, FIELD, PUBLIC, LENGTH, BREAKINGS };

/* What is broken alike in both: a bit of the public octets, and the length. */
struct crack {
    size_t at;
    uint8_t bit;
    size_t length;
};

static struct crack any_crack(struct random *random, const struct association *association, const struct header *header, size_t length)
{
    size_t public = header->length + security_header_length(association->service);
    struct crack crack = {random_below(random, (uint32_t)public), (uint8_t)(1u << random_below(random, 8)), length};
    crack.length = random_percent(random, 50) ? random_below(random, (uint32_t)length + 1)
                                              : length - random_below(random, (uint32_t)(length - public) + 1);
    return crack;
}

static void break_frame(struct random *random, const struct association *association, const struct header *header, enum breaking breaking,
                        const struct crack *crack, struct input *input)
{
    uint8_t *end = input->frame + input->frame_length;
    switch (breaking) {
    case MAC:
        *(end - header->trailer - MAC_LENGTH + random_below(random, MAC_LENGTH)) ^= (uint8_t)random_between(random, 1, 255);
        break;
    case FIELD:
        input->check_field = 1;
        *(end - 1 - random_below(random, CHECK_FIELD_LENGTH)) ^= (uint8_t)random_between(random, 1, 255);
        break;
    case PUBLIC:
        input->frame[crack->at] ^= crack->bit;
        break;
    case LENGTH:
        input->frame_length = crack->length;
        if (has_length_field(association->kind) && crack->length >= 4) {
            write_tc_length(input->frame, crack->length);
        }
        break;
    default:
        break;
    }
}

/* A bit that changed may make header or IV of what was data. What is public then is the same in both again. */
static void agree_in_public(const struct run *run, struct input inputs[2])
{
    struct header header;
    const struct input *here = &inputs[HERE];
    if (!read_secured_frame(here->kind, here->check_field != 0, here->frame, here->frame_length, &header)) {
        return;
    }
    size_t public = header.length + 2;
    unsigned spi = here->frame[header.length] * 256u + here->frame[header.length + 1];
    for (size_t i = 0; i < run->tables[HERE].count; i++) {
        if (run->tables[HERE].entries[i].spi == spi) {
            public = header.length + security_header_length(run->tables[HERE].entries[i].service);
        }
    }
    memcpy(inputs[THERE].frame, here->frame, public < here->frame_length ? public : here->frame_length);
}

static void break_frames(struct run *run, const struct association *association, enum breaking breaking, struct input inputs[2])
{
    struct header header;
    bool has_field = inputs[HERE].check_field != 0;
    read_secured_frame(association->kind, has_field, inputs[HERE].frame, inputs[HERE].frame_length, &header);
    struct crack crack = any_crack(&run->random, association, &header, inputs[HERE].frame_length);
    for (unsigned i = 0; i < 2; i++) {
        break_frame(&run->random, association, &header, breaking, &crack, &inputs[i]);
    }
    if (breaking == PUBLIC) {
        agree_in_public(run, inputs);
    }
    for (unsigned i = 0; i < 2; i++) {
        if (has_field && breaking != FIELD && inputs[i].frame_length >= CHECK_FIELD_LENGTH) {
            write_check_field(inputs[i].frame, inputs[i].frame_length);
        }
    }
}

/* ---- a check in both ---- */

/* A public octet of both images, or a number of both, is changed for one call. */
static bool break_rest(struct run *run, struct input inputs[2])
{
    struct random *random = &run->random;
    uint32_t chance = random_below(random, 100);
    size_t at = random_below(random, (uint32_t)inputs[HERE].image_length);
    uint8_t octet = (uint8_t)random_between(random, 1, 255);
    size_t number = random_below(random, run->tables[HERE].count == 0 ? 1 : (uint32_t)run->tables[HERE].count);
    if (chance >= 12 || (chance < 8 && run->is_secret[at])) {
        return false;
    }
    for (unsigned i = 0; i < 2; i++) {
        if (chance < 8) {
            inputs[i].image[at] ^= octet;
        } else {
            inputs[i].numbers[number] += 64;
        }
    }
    return true;
}

/* Outputs of one length, at the limit of the data more often than not, and of other content. */
static void lend_outputs(struct run *run, const struct association *association, struct input inputs[2])
{
    struct random *random = &run->random;
    struct header header;
    size_t added = security_header_length(association->service) + MAC_LENGTH;
    size_t room = 1;
    if (read_secured_frame(association->kind, inputs[HERE].check_field != 0, inputs[HERE].frame, inputs[HERE].frame_length, &header)
        && inputs[HERE].frame_length > added + header.length + header.trailer) {
        room = inputs[HERE].frame_length - added - header.length - header.trailer;
    }
    uint32_t chance = random_below(random, 100);
    size_t length = chance < 50 ? room : chance < 60 ? room - 1 : chance < 80 ? LARGEST_FRAME : random_below(random, LARGEST_FRAME);
    for (unsigned i = 0; i < 2; i++) {
        inputs[i].output_length = length;
        memset(inputs[i].output, (int)random_below(random, 256), length);
    }
}

/* Mostly one that receives. */
static size_t any_entry(struct run *run)
{
    struct random *random = &run->random;
    uint32_t count = (uint32_t)run->tables[HERE].count;
    size_t entry = random_below(random, count == 0 ? 1 : count);
    for (unsigned tries = 0; count != 0 && tries < 8 && run->tables[HERE].entries[entry].direction != 2; tries++) {
        entry = random_below(random, count);
    }
    return entry;
}

static void count_check(struct run *run, const struct association *association, const struct input *input, unsigned answer)
{
    run->by_entry[run->tables[HERE].version][association->kind][association->service][answer]++;
    run->by_field[association->kind][input->check_field != 0][answer]++;
    run->by_desk[input->desk > GREATEST_DESK ? DESKS - 1 : input->desk][answer]++;
}

static void check_both(struct run *run)
{
    static struct input inputs[2];
    struct random *random = &run->random;
    size_t entry = any_entry(run);
    struct association none = {.spi = 1, .service = 1, .kind = 1, .window = 1, .owner = 1};
    bool is_there = run->tables[HERE].count != 0;
    const struct association *const associations[2] = {is_there ? &run->tables[HERE].entries[entry] : &none,
                                                       is_there ? &run->tables[THERE].entries[entry] : &none};
    const struct association *association = associations[HERE];
    uint8_t desk = any_desk(random, association);
    uint8_t field = association->kind != 4 && random_percent(random, 50) ? 1 : 0;
    for (unsigned i = 0; i < 2; i++) {
        input_of_end(&inputs[i], CALL_CHECK, &run->ends[i]);
        inputs[i].desk = desk;
        inputs[i].kind = (uint8_t)association->kind;
        inputs[i].check_field = field;
    }
    while (!make_frames(run, associations, run->ends[HERE].numbers[entry], inputs)) {
    }
    enum breaking breaking = random_percent(random, 45) ? NOTHING : random_below(random, BREAKINGS);
    break_frames(run, association, breaking == FIELD && field == 0 && association->kind != 4 ? MAC : breaking, inputs);
    lend_outputs(run, association, inputs);
    bool is_broken = break_rest(run, inputs);
    struct outcome outcome = run_pair(run, inputs, !is_broken);
    count_check(run, association, &inputs[HERE], outcome.answer);
    if (outcome.answer == 0 && memcmp(inputs[HERE].output, inputs[THERE].output, outcome.length) != 0) {
        run->released++;
    }
}

static void run_world(struct run *run, uint64_t number)
{
    run->random = random_stream(run->options.seed, number);
    both_at(run->options.seed, number, 0);
    make_pair(run);
    for (unsigned pair = 0; pair < PAIRS_PER_WORLD && run->pairs < run->options.count; pair++) {
        both_at(run->options.seed, number, pair);
        if (random_percent(&run->random, 8)) {
            load_both(run);
        } else {
            check_both(run);
        }
    }
}

/* ---- counting ---- */

enum desks { ANY_DESK, A_DESK, NO_DESK };

/* Prints how often each answer was given, and gives how many were not that can be: 12 to a frame with a check field, 19 to no desk, and to no desk
 * nothing that comes behind 19. */
static unsigned print_counts(const uint64_t counts[ANSWERS], bool has_field, enum desks desks)
{
    unsigned missing = 0;
    for (size_t i = 0; i < ANSWERS_OF_CHECKS; i++) {
        unsigned answer = answers_of_checks[i];
        bool is_before = answer == 1 || answer == 2;
        bool can_be = answer == 19 ? desks != A_DESK : (is_before || desks != NO_DESK) && (answer != 12 || has_field);
        printf(" %u:%" PRIu64, answer, counts[answer]);
        missing += can_be && counts[answer] == 0;
    }
    printf("\n");
    return missing;
}

static unsigned print_tally(const struct run *run)
{
    unsigned missing = 0;
    for (unsigned version = 1; version <= VERSIONS; version++) {
        for (unsigned kind = 1; kind <= KINDS; kind++) {
            for (unsigned service = 1; service <= SERVICES; service++) {
                printf("version %u kind %u service %u:", version, kind, service);
                missing += print_counts(run->by_entry[version][kind][service], kind != 4, ANY_DESK);
            }
        }
    }
    for (unsigned kind = 1; kind < KINDS; kind++) { /* AOS has no check field */
        for (unsigned field = 0; field < 2; field++) {
            printf("kind %u %s:", kind, field == 0 ? "without a check field" : "with a check field");
            missing += print_counts(run->by_field[kind][field], field == 1, ANY_DESK);
        }
    }
    for (unsigned desk = 0; desk < DESKS; desk++) {
        printf("desk %u%s:", desk, desk == DESKS - 1 ? " and above" : "");
        missing += print_counts(run->by_desk[desk], true, desk == DESKS - 1 ? NO_DESK : A_DESK);
    }
    return missing;
}

int main(int argument_count, char **arguments)
{
    static struct run run;
    run.options = options_of(argument_count, arguments, 60000);
    both_prepare("secrecy");
    both_compare(false);
    uint64_t world = run.options.from;
    while (run.pairs < run.options.count) {
        run_world(&run, world++);
    }
    unsigned missing = print_tally(&run) + (run.released == 0);
    printf("secrecy: seed %" PRIu64 ", %" PRIu64 " pairs of calls in %" PRIu64 " worlds, of them %" PRIu64 " loads; %" PRIu64
           " released other data; nothing else differed\n",
           run.options.seed, run.pairs, world - run.options.from, run.loads, run.released);
    if (missing != 0 && run.options.count >= ENOUGH_FOR_EVERY_ANSWER) {
        printf("secrecy: %u of the counts above are 0 and should not be\n", missing);
        return 1;
    }
    return 0;
}
