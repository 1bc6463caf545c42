/* What each end sees when the other restarts: the spacecraft restarts first, and then a ground station that starts anew for every command
 * runs ahead of it. docs/USING.md, 'Restarts', has the same as a picture. */
#include "xistalvo_image.h"

#include <stdio.h>
#include <string.h>

enum { SPI = 9, ENTRY = 0, IMAGE_LENGTH = XISTALVO_IMAGE_LENGTH(1), WINDOW = 100 };

struct end {
    const char *name;
    uint8_t image[IMAGE_LENGTH];
    uint32_t numbers[XISTALVO_NUMBERS];
    xistalvo_notes notes;
    uint8_t events[XISTALVO_EVENTS_LENGTH];
};

static struct end ground = {.name = "the ground"};
static struct end space = {.name = "the spacecraft"};

static void build_image(struct end *end, uint8_t direction)
{
    struct xistalvo_association association = {SPI, XISTALVO_AUTHENTICATION, XISTALVO_TC, direction, XISTALVO_OPERATIONAL, 27, 5, 0,
                                               WINDOW, {0xFF, 0xFF, 0xFF, 0xFF, 0xFF, 0x00}, {1, 2, 3}, 0};
    xistalvo_make_image(XISTALVO_IMAGE_VERSION, &association, 1, end->image, IMAGE_LENGTH);
}

/* After a start, whatever the reason: the image is there, the numbers and the notes are not. */
static void start(struct end *end)
{
    xistalvo_fresh_notes(&end->notes);
    xistalvo_load(end->image, IMAGE_LENGTH, end->numbers, XISTALVO_NUMBERS);
    printf("%s starts: the last number is %u\n", end->name, (unsigned)end->numbers[ENTRY]);
}

/* The ground sends a command; the spacecraft gets it, or not. */
static void command(const char *words, int arrives)
{
    uint8_t frame[64] = {0x00, 27, 5 << 2, (uint8_t)(4 + strlen(words)), 0}, secured[96], data[64];
    memcpy(frame + 5, words, strlen(words));
    uint64_t result = xistalvo_secure(ground.image, IMAGE_LENGTH, ground.numbers, XISTALVO_NUMBERS, XISTALVO_DESK_1, XISTALVO_TC,
                                      XISTALVO_NO_CHECK_FIELD, SPI, frame, 5 + strlen(words), secured, sizeof secured);
    printf("'%s' goes out as number %u", words, (unsigned)ground.numbers[ENTRY]);
    if (!arrives) {
        puts(" and is lost");
        return;
    }
    result = xistalvo_check(&space.notes, space.events, sizeof space.events, space.image, IMAGE_LENGTH, space.numbers, XISTALVO_NUMBERS,
                            XISTALVO_DESK_1, XISTALVO_TC, XISTALVO_NO_CHECK_FIELD, secured, XISTALVO_LENGTH(result), data, sizeof data);
    printf(": %u, %s\n", XISTALVO_ANSWER(result), xistalvo_answer_name(XISTALVO_ANSWER(result)));
}

int main(void)
{
    build_image(&ground, XISTALVO_SEND);
    build_image(&space, XISTALVO_RECEIVE);
    start(&ground);
    start(&space);
    command("HEAT 1200", 1);

    puts("- The spacecraft restarts first: it takes no more of the numbers up to 127.");
    start(&space);
    command("HEAT 1210", 1);
    puts("- So the ground starts anew too, and the link goes on.");
    start(&ground);
    command("HEAT 1210", 1);

    puts("- A ground station that starts for every command skips 64 numbers each time; two lost frames, and it is beyond the window of 100.");
    start(&ground);
    command("HEAT 1220", 0);
    start(&ground);
    command("HEAT 1220", 0);
    start(&ground);
    command("HEAT 1220", 1);
    puts("- Nothing that the ground sends helps now: its numbers only rise. The spacecraft's mark is raised to the ground's, and both start.");
    xistalvo_raise(space.image, IMAGE_LENGTH, ENTRY, ground.numbers[ENTRY], UINT32_MAX);
    start(&space);
    start(&ground);
    command("HEAT 1220", 1);
    return 0;
}
