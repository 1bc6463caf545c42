/* An operator's session: the desk manages the camera association of the spacecraft over the link. Each command rides as the data of a TC frame,
 * and the spacecraft carries out only what its check released; replies would go down in telemetry, and are printed here. */
#include "xistalvo_command.h"
#include "xistalvo_image.h"

#include <stdio.h>
#include <string.h>

enum { LINK = 9, CAMERA = 20, CAMERA_ENTRY = 1, SPACECRAFT = 27, COUNT = 2, IMAGE_LENGTH = XISTALVO_IMAGE_LENGTH(COUNT), ROOM = 128 };

/* One end: SPI 9, by which commands go up, and SPI 20, by which camera frames come down. */
struct end {
    uint8_t image[IMAGE_LENGTH];
    uint32_t numbers[XISTALVO_NUMBERS];
    xistalvo_notes notes;
    uint8_t events[XISTALVO_EVENTS_LENGTH];
};

static struct end ground, space;

static void make_end(struct end *end, uint8_t link_direction, uint8_t camera_direction, uint8_t camera_state)
{
    const struct xistalvo_association associations[COUNT] = {
        {LINK, XISTALVO_AUTHENTICATION, XISTALVO_TC, link_direction, XISTALVO_OPERATIONAL, SPACECRAFT, 5, 0, 1024,
         {0xFF, 0xFF, 0xFF, 0xFF, 0xFF, 0x00}, {1}, 0},
        {CAMERA, XISTALVO_AUTHENTICATED_ENCRYPTION, XISTALVO_AOS, camera_direction, camera_state, SPACECRAFT, 12, 0, 100,
         {0xFF, 0xFF, 0, 0, 0, 0}, {2}, 0},
    };
    xistalvo_make_image(XISTALVO_IMAGE_VERSION, associations, COUNT, end->image, IMAGE_LENGTH);
    xistalvo_fresh_notes(&end->notes);
    xistalvo_load(end->image, IMAGE_LENGTH, end->numbers, XISTALVO_NUMBERS);
}

static void say(const char *what, uint64_t result)
{
    printf("%s: %u, %s", what, XISTALVO_ANSWER(result), xistalvo_answer_name(XISTALVO_ANSWER(result)));
}

/* On the spacecraft: what a frame released is carried out, and the reply printed. */
static void carry_out(const char *what, const uint8_t *command, size_t length)
{
    uint8_t reply[XISTALVO_LARGEST_REPLY];
    uint64_t result = xistalvo_command(&space.notes, space.events, sizeof space.events, space.image, IMAGE_LENGTH, space.numbers, XISTALVO_NUMBERS,
                                       XISTALVO_DESK_1, command, length, reply, sizeof reply);
    size_t reply_length = XISTALVO_LENGTH(result);
    say(what, result);
    printf("; stores %u", XISTALVO_STORES(result));
    if (xistalvo_is_reply(XISTALVO_TAG_PING, reply, reply_length)) {
        printf("; the spacecraft is there");
    } else if (xistalvo_is_reply(XISTALVO_TAG_STATUS, reply, reply_length)) {
        printf("; SPI %u is in state %u", xistalvo_spi_in(reply), xistalvo_state_in(reply));
    } else if (xistalvo_is_reply(XISTALVO_TAG_READ_NUMBER, reply, reply_length)) {
        printf("; the last number of SPI %u is %u", xistalvo_spi_in(reply), (unsigned)xistalvo_number_in(reply));
    }
    putchar('\n');
}

/* On the ground: the command goes up in a TC frame, under SPI 9. */
static void command(const char *what, const uint8_t *octets, size_t length)
{
    uint8_t frame[ROOM] = {0x00, SPACECRAFT, 5 << 2, (uint8_t)(4 + length), 0}, secured[ROOM], released[ROOM];
    memcpy(frame + 5, octets, length);
    uint64_t result = xistalvo_secure(ground.image, IMAGE_LENGTH, ground.numbers, XISTALVO_NUMBERS, XISTALVO_DESK_1, XISTALVO_TC,
                                      XISTALVO_NO_CHECK_FIELD, LINK, frame, 5 + length, secured, sizeof secured);
    result = xistalvo_check(&space.notes, space.events, sizeof space.events, space.image, IMAGE_LENGTH, space.numbers, XISTALVO_NUMBERS,
                            XISTALVO_DESK_1, XISTALVO_TC, XISTALVO_NO_CHECK_FIELD, secured, XISTALVO_LENGTH(result), released, sizeof released);
    if (XISTALVO_ANSWER(result) == XISTALVO_DONE) {
        carry_out(what, released, XISTALVO_LENGTH(result));
    }
}

/* The camera's next frame, under SPI 20, down to the ground. */
static void send_picture(void)
{
    uint8_t frame[] = {0x40 | SPACECRAFT >> 2, (uint8_t)((SPACECRAFT << 6 & 0xC0) | 12), 0, 0, 0, 0, 'p', 'i', 'c'}, secured[ROOM], released[ROOM];
    uint64_t result = xistalvo_secure(space.image, IMAGE_LENGTH, space.numbers, XISTALVO_NUMBERS, XISTALVO_DESK_1, XISTALVO_AOS,
                                      XISTALVO_NO_CHECK_FIELD, CAMERA, frame, sizeof frame, secured, sizeof secured);
    say("  a picture is sent", result);
    if (XISTALVO_ANSWER(result) == XISTALVO_DONE) {
        printf(", number %u;", (unsigned)space.numbers[CAMERA_ENTRY]);
        say(" on the ground", xistalvo_check(&ground.notes, ground.events, sizeof ground.events, ground.image, IMAGE_LENGTH, ground.numbers,
                                             XISTALVO_NUMBERS, XISTALVO_DESK_1, XISTALVO_AOS, XISTALVO_NO_CHECK_FIELD, secured,
                                             XISTALVO_LENGTH(result), released, sizeof released));
    }
    putchar('\n');
}

int main(void)
{
    uint8_t octets[32], none[1];
    const uint32_t channel = xistalvo_channel_name(XISTALVO_AOS, SPACECRAFT, 12, 0), another = xistalvo_channel_name(XISTALVO_AOS, SPACECRAFT, 13, 0);
    make_end(&ground, XISTALVO_SEND, XISTALVO_RECEIVE, XISTALVO_OPERATIONAL);
    make_end(&space, XISTALVO_RECEIVE, XISTALVO_SEND, XISTALVO_KEYED);

    command("ping", octets, xistalvo_make_ping(octets, sizeof octets));
    command("status", octets, xistalvo_make_spi_alone(XISTALVO_TAG_STATUS, CAMERA, octets, sizeof octets));
    send_picture();
    command("start, naming channel 13", octets, xistalvo_make_start(CAMERA, &another, 1, octets, sizeof octets));
    command("start, naming channel 12", octets, xistalvo_make_start(CAMERA, &channel, 1, octets, sizeof octets));
    send_picture();
    command("read number", octets, xistalvo_make_spi_alone(XISTALVO_TAG_READ_NUMBER, CAMERA, octets, sizeof octets));

    puts("- The numbers of both ends are raised to 1,000, and the next one sent suits every window.");
    command("set number to 1,000", octets, xistalvo_make_set_number(CAMERA, 1000, octets, sizeof octets));
    size_t length = xistalvo_make_set_number(CAMERA, 1000, octets, sizeof octets);
    say("set number on the ground", xistalvo_command(&ground.notes, ground.events, sizeof ground.events, ground.image, IMAGE_LENGTH, ground.numbers,
                                                     XISTALVO_NUMBERS, XISTALVO_DESK_1, octets, length, none, 0));
    putchar('\n');
    send_picture();

    puts("- A window is changed while the association is stopped.");
    command("set window to 1,024", octets, xistalvo_make_set_window(CAMERA, 1024, octets, sizeof octets));
    command("stop", octets, xistalvo_make_spi_alone(XISTALVO_TAG_STOP, CAMERA, octets, sizeof octets));
    send_picture();
    command("set window to 1,024", octets, xistalvo_make_set_window(CAMERA, 1024, octets, sizeof octets));
    command("start, naming channel 12", octets, xistalvo_make_start(CAMERA, &channel, 1, octets, sizeof octets));
    send_picture();
    command("stop", octets, xistalvo_make_spi_alone(XISTALVO_TAG_STOP, CAMERA, octets, sizeof octets));
    return 0;
}
