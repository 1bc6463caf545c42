/* The ground secures a telecommand frame and the spacecraft checks it; a replay is refused; both restart and go on. */
#include "xistalvo_command.h"
#include "xistalvo_image.h"
#include "xistalvo_notes.h"
#include "xistalvo_stack.h"

#include <stdio.h>
#include <string.h>

enum { SPI = 9, IMAGE_LENGTH = XISTALVO_IMAGE_LENGTH(1) };

/* One end of the link. The image has to outlive a loss of power; the numbers and the notes need not. */
struct end {
    const char *name;
    uint8_t image[IMAGE_LENGTH];
    uint32_t numbers[XISTALVO_NUMBERS];
    xistalvo_notes notes;
    uint8_t events[XISTALVO_EVENTS_LENGTH];
};

/* An image with one association: authenticated encryption for TC frames of spacecraft 27, virtual channel 5. The mask puts all five octets
 * of the header under the MAC. */
static void build_image(uint8_t image[IMAGE_LENGTH], uint8_t direction)
{
    struct xistalvo_association association = {SPI, XISTALVO_AUTHENTICATED_ENCRYPTION, XISTALVO_TC, direction, XISTALVO_OPERATIONAL, 27, 5, 0,
                                               100, {0xFF, 0xFF, 0xFF, 0xFF, 0xFF, 0x00}, {0}, 0};
    for (uint8_t i = 0; i < sizeof association.key; i++) {
        association.key[i] = i; /* a real one comes from the key office */
    }
    if (xistalvo_make_image(XISTALVO_IMAGE_VERSION, &association, 1, image, IMAGE_LENGTH) == 0) {
        puts(xistalvo_association_fault(XISTALVO_IMAGE_VERSION, &association));
    }
}

static void say(const char *what, uint64_t result)
{
    printf("%s: %u, %s", what, XISTALVO_ANSWER(result), xistalvo_answer_name(XISTALVO_ANSWER(result)));
}

static void load(struct end *end)
{
    uint64_t result = xistalvo_load(end->image, IMAGE_LENGTH, end->numbers, XISTALVO_NUMBERS);
    say(end->name, result);
    printf("; the last number is %u\n", (unsigned)end->numbers[0]);
}

static size_t secure(struct end *ground, const char *data, uint8_t *output)
{
    size_t length = 5 + strlen(data);
    uint8_t frame[XISTALVO_LARGEST_FRAME] = {0x00, 27, 5 << 2, (uint8_t)(length - 1), 0}; /* the length field is the length less one */
    memcpy(frame + 5, data, strlen(data));
    uint64_t result = xistalvo_secure(ground->image, IMAGE_LENGTH, ground->numbers, XISTALVO_NUMBERS, XISTALVO_DESK_1, XISTALVO_TC,
                                      XISTALVO_NO_CHECK_FIELD, SPI, frame, length, output, XISTALVO_LARGEST_FRAME);
    say("secure", result);
    printf("; number %u, stores %u, frame", (unsigned)ground->numbers[0], XISTALVO_STORES(result));
    for (size_t i = 0; i < XISTALVO_LENGTH(result); i++) {
        printf(" %02X", output[i]);
    }
    putchar('\n');
    return XISTALVO_LENGTH(result);
}

static void check(struct end *space, const char *what, const uint8_t *frame, size_t length)
{
    uint8_t data[XISTALVO_LARGEST_FRAME];
    uint64_t result = xistalvo_check(&space->notes, space->events, sizeof space->events, space->image, IMAGE_LENGTH, space->numbers,
                                     XISTALVO_NUMBERS, XISTALVO_DESK_1, XISTALVO_TC, XISTALVO_NO_CHECK_FIELD, frame, length, data, sizeof data);
    say(what, result);
    printf("; stores %u, data '%.*s'\n", XISTALVO_STORES(result), (int)XISTALVO_LENGTH(result), (const char *)data);
}

/* A management command, here one that changes nothing. Over a link, its octets are what a check released. */
static void read_number(struct end *space)
{
    uint8_t command[XISTALVO_SPI_ALONE_LENGTH], reply[XISTALVO_LARGEST_REPLY];
    size_t length = xistalvo_make_spi_alone(XISTALVO_TAG_READ_NUMBER, SPI, command, sizeof command);
    uint64_t result = xistalvo_command(&space->notes, space->events, sizeof space->events, space->image, IMAGE_LENGTH, space->numbers,
                                       XISTALVO_NUMBERS, XISTALVO_DESK_1, command, length, reply, sizeof reply);
    say("read number", result);
    printf("; reply");
    for (size_t i = 0; i < XISTALVO_LENGTH(result); i++) {
        printf(" %02X", reply[i]);
    }
    putchar('\n');
}

/* What the spacecraft would send down in an operational control field: the last frame's number was refused, and the alarm waits for its reset. */
static void tell_report(const struct end *space)
{
    uint8_t ocf[XISTALVO_REPORT_LENGTH];
    xistalvo_put_report(&space->notes, XISTALVO_DESK_1, ocf);
    printf("report of desk 1: %02X %02X %02X %02X; events kept %u\n", ocf[0], ocf[1], ocf[2], ocf[3], (unsigned)space->notes.kept);
}

int main(void)
{
    static struct end ground = {.name = "load on the ground"};
    static struct end space = {.name = "load on the spacecraft"};
    static uint8_t frame[XISTALVO_LARGEST_FRAME];

    build_image(ground.image, XISTALVO_SEND);
    build_image(space.image, XISTALVO_RECEIVE);
    xistalvo_fresh_notes(&space.notes);
    load(&ground);
    load(&space);

    size_t length = secure(&ground, "HEAT 1200", frame);
    check(&space, "check", frame, length);
    check(&space, "the same frame again", frame, length);

    load(&ground); /* a restart: the numbers were lost, the image was not */
    length = secure(&ground, "HEAT 1250", frame);
    check(&space, "check", frame, length);

    load(&space); /* the spacecraft restarts too, and still knows the frame */
    check(&space, "the same frame again", frame, length);
    read_number(&space);
    tell_report(&space);

    xistalvo_clear_stack(); /* the calls have left key octets there */
    return 0;
}
