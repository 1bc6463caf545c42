/* Runs of sendings with power failing in them, then damage to the image, salvage, a load of what came of it, and sendings again; and demand 3
 * of document 01 held over all of it, as document 02, request 12, asks: under a kept entry whose contents entry and body were not damaged,
 *
 *   numbers only rise, so none goes out twice;
 *   a sent number exceeds the one before by at most 1 plus 64 for each load between them.
 *
 * And of salvage itself: what it makes loads, with 64m + 63 for the mark that the entry had; an image that is not damaged comes back as it was,
 * with no line; and of an image damaged in one bit, each bit once, no entry is changed that is kept, but for that bit.
 *
 *   salvage [--seed S] [--count N] [--from W]
 *
 * The count is of runs. Loads and sendings are the module's, each compared with the independent reading; salvage is the reading's, which is
 * held to the proved program on the cases of crates/salvage_cases (tests/run). */
#include "support/both.h"
#include "support/options.h"
#include "support/worlds.h"

#include <inttypes.h>
#include <stdio.h>
#include <string.h>

enum { ASSOCIATIONS = 4, ROUNDS = 4, STEPS = 12, SMALL_FRAME = 128, CONTENTS = 4, BODY = 52 };

/* What went out under an association since the run began. */
struct history {
    bool has_sent;
    uint32_t sent;
    uint64_t loads_since;
};

struct run {
    struct random random;
    struct end end;
    size_t count;
    struct history histories[MOST_ENTRIES];
    struct input input;
};

static uint64_t sent, cuts, loads, kept, dropped, refused, damaged_bits;

static void load(struct run *run)
{
    struct table table;
    input_of_end(&run->input, CALL_LOAD, &run->end);
    if (both_run(&run->random, &run->input).answer != 0) {
        both_fail("an image that breaks no rule does not load");
    }
    end_of_input(&run->end, &run->input);
    table_of(&run->end, &table);
    for (size_t i = 0; i < table.count; i++) {
        if (run->end.numbers[i] != 64 * table.entries[i].mark + 63) {
            both_fail("a load does not give 64m + 63");
        }
        run->histories[i].loads_since++;
    }
    loads++;
}

static void note_sent(struct history *history, uint32_t number)
{
    if (history->has_sent && number <= history->sent) {
        both_fail("demand 3: a number went out that does not exceed the one before");
    }
    if (history->has_sent && (uint64_t)number - history->sent > 1 + 64 * history->loads_since) {
        both_fail("demand 3: a number went out that exceeds the one before by more than 1 plus 64 for each load");
    }
    *history = (struct history){true, number, 0};
    sent++;
}

/* A sending under an entry; one in five is cut after some of its stores, and a load follows. */
static void send(struct run *run, size_t entry)
{
    struct table table;
    struct input *input = &run->input;
    table_of(&run->end, &table);
    const struct association *association = &table.entries[entry];
    if (association->direction != 1 || association->state != 2 || run->end.numbers[entry] == UINT32_MAX) {
        return;
    }
    input_of_end(input, CALL_SECURE, &run->end);
    input->kind = (uint8_t)association->kind;
    input->spi = (uint16_t)association->spi;
    input->check_field = association->kind != 4 && association->spi % 2 == 1; /* it is the same for all frames of an association */
    input->frame_length = make_clear_frame(&run->random, association, input->check_field != 0, random_between(&run->random, 1, 20),
                                           input->frame);
    input->output_length = SMALL_FRAME;
    struct outcome outcome = both_run(&run->random, input);
    if (outcome.answer != 0) {
        both_fail("a frame was not secured");
    }
    uint32_t number = input->numbers[entry];
    if (random_percent(&run->random, 20)) {
        uint32_t j = random_between(&run->random, 0, outcome.stores);
        both_raise(&run->random, run->end.image, run->end.image_length, (uint8_t)entry, number, j);
        cuts++;
        load(run);
        return;
    }
    end_of_input(&run->end, input);
    note_sent(&run->histories[entry], number);
}

/* ---- damage ---- */

static void flip(uint8_t *octets, size_t bit)
{
    octets[bit / 8] ^= (uint8_t)(0x80u >> bit % 8);
}

/* Bits of the contents, or of the whole; contents exchanged; the end cut off, or more behind it. */
static size_t damage(struct run *run, uint8_t *octets, size_t length)
{
    struct random *random = &run->random;
    uint32_t bits = random_between(random, 1, random_percent(random, 50) ? 2 : 32);
    size_t among = random_percent(random, 70) ? 2 + CONTENTS * run->count : length;
    for (uint32_t i = 0; i < bits; i++) {
        size_t from = random_percent(random, 90) ? 16 : 0; /* version and count are hit too, but seldom: with them all else is lost */
        flip(octets, from + random_below(random, (uint32_t)(8 * among - 16)));
    }
    damaged_bits += bits;
    if (random_percent(random, 20)) {
        uint8_t held[CONTENTS];
        uint8_t *one = octets + 2 + CONTENTS * random_below(random, (uint32_t)run->count);
        uint8_t *other = octets + 2 + CONTENTS * random_below(random, (uint32_t)run->count);
        memcpy(held, one, CONTENTS);
        memmove(one, other, CONTENTS);
        memcpy(other, held, CONTENTS);
    }
    if (random_percent(random, 10)) {
        return random_below(random, (uint32_t)length + 1);
    }
    if (random_percent(random, 10)) {
        memset(octets + length, 0xAA, 100);
        return length + 100;
    }
    return length;
}

static bool is_undamaged(const struct end *end, const uint8_t *octets, size_t length, size_t entry)
{
    size_t contents = 2 + CONTENTS * entry;
    size_t body = 2 + CONTENTS * (size_t)end->image[1] + BODY * entry;
    return body + BODY <= length && memcmp(octets + contents, end->image + contents, CONTENTS) == 0
        && memcmp(octets + body, end->image + body, BODY) == 0;
}

/* What was sent under an entry is remembered under its new index, where the entry is kept and was not damaged. */
static void take_over(struct run *run, const uint8_t *octets, size_t length, const struct salvage *salvage)
{
    struct history before[MOST_ENTRIES];
    memcpy(before, run->histories, sizeof before);
    memset(run->histories, 0, sizeof run->histories);
    size_t counted = octets[1] < run->count ? octets[1] : run->count;
    for (size_t i = 0; i < counted; i++) {
        if (salvage->became[i] == DROPPED) {
            dropped++;
        } else if (is_undamaged(&run->end, octets, length, i)) {
            run->histories[salvage->became[i]] = before[i];
            kept++;
        }
    }
    memcpy(run->end.image, salvage->image, salvage->length);
    run->end.image_length = salvage->length;
    run->count = salvage->image[1];
}

/* Damages the image and salvages it; false where nothing is left to send under. */
static bool damage_and_salvage(struct run *run)
{
    static struct salvage salvage;
    uint8_t octets[LARGEST_IMAGE + 100];
    memcpy(octets, run->end.image, run->end.image_length);
    size_t length = damage(run, octets, run->end.image_length);
    salvage_of(octets, length, &salvage);
    refused += salvage.is_refused;
    if (salvage.is_refused) {
        return false;
    }
    take_over(run, octets, length, &salvage);
    return run->count != 0;
}

/* ---- salvage by itself ---- */

static void try_undamaged(const struct end *end)
{
    static struct salvage salvage;
    salvage_of(end->image, end->image_length, &salvage);
    if (salvage.is_refused || salvage.lines[0] != 0 || salvage.length != end->image_length
        || memcmp(salvage.image, end->image, end->image_length) != 0) {
        both_fail("an image that is not damaged does not come back as it was");
    }
}

static void try_each_bit(const struct end *end)
{
    static struct salvage salvage;
    struct table table;
    uint8_t octets[LARGEST_IMAGE];
    for (size_t bit = 0; bit < 8 * end->image_length; bit++) {
        memcpy(octets, end->image, end->image_length);
        flip(octets, bit);
        salvage_of(octets, end->image_length, &salvage);
        if (salvage.is_refused) {
            continue;
        }
        if (!read_image(salvage.image, salvage.length, &table)) {
            both_fail("salvage makes an image that breaks a rule");
        }
        size_t first = 2 + CONTENTS * (size_t)salvage.image[1];
        for (size_t i = 0; i < octets[1]; i++) {
            size_t old = 2 + CONTENTS * (size_t)octets[1] + BODY * i;
            if (salvage.became[i] != DROPPED && is_undamaged(end, octets, end->image_length, i)
                && memcmp(salvage.image + first + BODY * (size_t)salvage.became[i], octets + old, BODY) != 0) {
                both_fail("salvage changed the body of an entry");
            }
        }
    }
}

/* ---- runs ---- */

static void start(struct run *run)
{
    struct world world;
    struct table table;
    run->count = random_between(&run->random, 1, ASSOCIATIONS);
    do {
        make_world(&run->random, &world, run->count);
    } while (world.ends[0].image[0] > 2); /* salvage takes versions 1 and 2 */
    run->end = world.ends[0];
    table_of(&run->end, &table);
    for (size_t i = 0; i < run->count; i++) {
        table.entries[i].state = 2;
        table.entries[i].direction = 1;
        any_window(&run->random, &table.entries[i]);
    }
    set_table(&run->end, &table);
    memset(run->histories, 0, sizeof run->histories);
    load(run);
}

static void run_once(struct run *run)
{
    start(run);
    try_undamaged(&run->end);
    for (int round = 0; round < ROUNDS; round++) {
        for (int i = 0; i < STEPS; i++) {
            send(run, random_below(&run->random, (uint32_t)run->count));
        }
        if (!damage_and_salvage(run)) {
            return;
        }
        load(run);
    }
}

int main(int argument_count, char **arguments)
{
    static struct run run;
    struct options options = options_of(argument_count, arguments, 5000);
    both_prepare("salvage");
    for (uint64_t i = 0; i < options.count; i++) {
        both_at(options.seed, options.from + i, 0);
        run.random = random_stream(options.seed, options.from + i);
        run_once(&run);
        if (i % 500 == 0) {
            start(&run);
            try_each_bit(&run.end);
        }
    }
    if (kept == 0 || dropped == 0 || refused == 0 || cuts == 0) {
        both_fail("no entry was kept, none dropped, no input refused or no call cut");
    }
    printf("salvage: %" PRIu64 " runs, %" PRIu64 " frames sent, %" PRIu64 " cuts, %" PRIu64 " loads, %" PRIu64 " bits damaged, %" PRIu64
           " entries kept undamaged, %" PRIu64 " dropped, %" PRIu64 " inputs refused\n",
           options.count, sent, cuts, loads, damaged_bits, kept, dropped, refused);
    return 0;
}
