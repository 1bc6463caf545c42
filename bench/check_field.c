// What a check field costs a frame: TM frames of 994 octets of data, with a field and without, secured and checked by the calls for on board and
// by those for a ground station. Frames with and without take turns; a ratio is of two times of the same turn, and what is printed is the median
// of the turns, of each time and of the ratios.
#include "../include/xistalvo.h"
#include "../include/xistalvo_image.h"

#include <stdbool.h>
#include <stdio.h>
#include <stdlib.h>
#include <string.h>
#include <time.h>

enum { DATA = 994, HEADER = 6, FIELD = 2, FRAMES = 40, TURNS = 401, ROOM = XISTALVO_LARGEST_FRAME, SPI = 9 };

struct end {
    uint8_t image[XISTALVO_LARGEST_IMAGE];
    size_t image_length;
    uint32_t numbers[XISTALVO_NUMBERS];
};

struct run {
    bool is_on_ground;
    uint8_t check_field;
    size_t clear_length;
    uint8_t clear[ROOM], secured[ROOM], released[ROOM];
    struct end here, there;
};

static void need(bool is_so, const char *what)
{
    if (!is_so) {
        fprintf(stderr, "check_field: %s\n", what);
        exit(1);
    }
}

static double now(void)
{
    struct timespec t;
    clock_gettime(CLOCK_MONOTONIC, &t);
    return (double)t.tv_sec * 1e6 + (double)t.tv_nsec / 1e3;
}

static void make_end(struct end *end, uint8_t service, uint8_t direction)
{
    struct xistalvo_association association = {.spi = SPI, .service = service, .kind = XISTALVO_TM, .direction = direction,
                                               .state = XISTALVO_OPERATIONAL, .spacecraft = 27, .channel = 5, .window = 1024,
                                               .mask = {0xff, 0xff, 0xff, 0xff, 0xff, 0xff}};
    end->image_length = xistalvo_make_image(1, &association, 1, end->image, sizeof end->image);
    need(XISTALVO_ANSWER(xistalvo_load(end->image, end->image_length, end->numbers, XISTALVO_NUMBERS)) == 0, "an image was refused");
}

// The field by the standards' formula, bit after bit.
static unsigned field_of(const uint8_t *octets, size_t length)
{
    unsigned field = 0xffff;
    for (size_t i = 0; i < 8 * length; i++) {
        bool is_odd = (field >> 15 ^ octets[i / 8] >> (7 - i % 8)) & 1;
        field = (field << 1 & 0xffff) ^ (is_odd ? 0x1021 : 0);
    }
    return field;
}

static void make_run(struct run *run, bool is_on_ground, uint8_t service, uint8_t check_field)
{
    run->is_on_ground = is_on_ground;
    run->check_field = check_field;
    run->clear_length = HEADER + DATA + (check_field ? FIELD : 0);
    for (size_t i = 0; i < ROOM; i++) {
        run->clear[i] = (uint8_t)(i * 7);
    }
    memcpy(run->clear, (const uint8_t[HEADER]){0x01, 0xba}, HEADER);
    if (check_field) {
        xistalvo_put_two(run->clear + HEADER + DATA, field_of(run->clear, HEADER + DATA));
    }
    make_end(&run->here, service, 1);
    make_end(&run->there, service, 2);
}

// The microseconds of a frame secured and of one checked.
static void take_turn(struct run *run, double times[2])
{
    static xistalvo_notes notes;
    static uint8_t events[XISTALVO_EVENTS_LENGTH];
    times[0] = times[1] = 0;
    for (int i = 0; i < FRAMES; i++) {
        double before = now();
        uint64_t sent = (run->is_on_ground ? xistalvo_ground_secure : xistalvo_secure)(
            run->here.image, run->here.image_length, run->here.numbers, XISTALVO_NUMBERS, XISTALVO_KEY_OFFICE, XISTALVO_TM, run->check_field,
            SPI, run->clear, run->clear_length, run->secured, ROOM);
        double between = now();
        uint64_t received = (run->is_on_ground ? xistalvo_ground_check : xistalvo_check)(
            &notes, events, sizeof events, run->there.image, run->there.image_length, run->there.numbers, XISTALVO_NUMBERS, XISTALVO_KEY_OFFICE, XISTALVO_TM, run->check_field,
            run->secured, XISTALVO_LENGTH(sent), run->released, ROOM);
        times[0] += (between - before) / FRAMES;
        times[1] += (now() - between) / FRAMES;
        need(XISTALVO_ANSWER(sent) == 0 && XISTALVO_ANSWER(received) == 0, "a frame was refused");
    }
}

static int by_size(const void *a, const void *b)
{
    double x = *(const double *)a, y = *(const double *)b;
    return x < y ? -1 : x > y;
}

static double median(double times[TURNS])
{
    qsort(times, TURNS, sizeof times[0], by_size);
    return times[TURNS / 2];
}

static void measure(bool is_on_ground, uint8_t service)
{
    static struct run runs[2];
    static double without[2][TURNS], with[2][TURNS], ratios[2][TURNS];
    for (uint8_t field = 0; field < 2; field++) {
        make_run(&runs[field], is_on_ground, service, field);
    }
    for (size_t turn = 0; turn < TURNS; turn++) {
        double times[2][2];
        for (size_t i = 0; i < 2; i++) {
            take_turn(&runs[(i + turn) % 2], times[(i + turn) % 2]);
        }
        for (size_t call = 0; call < 2; call++) {
            without[call][turn] = times[0][call];
            with[call][turn] = times[1][call];
            ratios[call][turn] = times[1][call] / times[0][call];
        }
    }
    for (size_t call = 0; call < 2; call++) {
        printf("%-14s %s, service %d: %6.2f us without, %6.2f with, %+.1f %%\n", is_on_ground ? "ground station" : "on board",
               call == 0 ? "secured" : "checked", service, median(without[call]), median(with[call]), (median(ratios[call]) - 1) * 100);
    }
}

int main(void)
{
    for (int i = 0; i < 4; i++) {
        measure(i / 2 == 1, (uint8_t)(1 + i % 2));
    }
    return 0;
}
