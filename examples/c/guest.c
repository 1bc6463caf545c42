/* A guest laboratory gets a desk on a spacecraft's image: the key office brings the image to version 4, and then three desks ask the same of it.
 * Commands go in as octets, here without the frames that would carry them (management.c has those). */
#include "xistalvo_command.h"
#include "xistalvo_image.h"

#include <stdio.h>
#include <string.h>

enum { COUNT = 2, KEYS = 2, FURNACE = 20, CAMERA = 21, OWN_KEY = 1, GUEST_KEY = 2, SPACECRAFT = 27, FURNACE_CHANNEL = 12, CAMERA_CHANNEL = 13 };

static uint8_t image[XISTALVO_IMAGE_LENGTH_4(COUNT, KEYS)];
static size_t image_length;
static uint32_t numbers[XISTALVO_NUMBERS];
static xistalvo_notes notes; /* of all desks: each has a report of its own in them, and the key office alone reads the log */
static uint8_t events[XISTALVO_EVENTS_LENGTH];

static const char *const desks[] = {"the key office", "the laboratory", "the guest", "nobody"};

static void say(unsigned desk, const char *what, uint64_t result)
{
    printf("%s: %s: %u, %s\n", desks[desk], what, XISTALVO_ANSWER(result), xistalvo_answer_name(XISTALVO_ANSWER(result)));
}

/* Version 3, of one laboratory: a furnace and a camera that send, under a key each. */
static void make_old_image(void)
{
    static const uint16_t key_ids[COUNT] = {OWN_KEY, GUEST_KEY};
    static const struct xistalvo_key keys[KEYS] = {{OWN_KEY, XISTALVO_KEY_ACTIVE, {1}}, {GUEST_KEY, XISTALVO_KEY_PRE_ACTIVE, {2}}};
    static const struct xistalvo_association both[COUNT] = {
        {FURNACE, XISTALVO_AUTHENTICATED_ENCRYPTION, XISTALVO_AOS, XISTALVO_SEND, XISTALVO_OPERATIONAL, SPACECRAFT, FURNACE_CHANNEL, 0, 100,
         {0xFF, 0xFF, 0, 0, 0, 0}, {0}, 0},
        {CAMERA, XISTALVO_AUTHENTICATED_ENCRYPTION, XISTALVO_AOS, XISTALVO_SEND, XISTALVO_UNKEYED, SPACECRAFT, CAMERA_CHANNEL, 0, 100,
         {0xFF, 0xFF, 0, 0, 0, 0}, {0}, 0}};
    image_length = xistalvo_make_image_3(both, key_ids, COUNT, keys, KEYS, image, sizeof image);
}

/* The office's step: the same associations, keys and marks, with an owner each. The numbers still agree. */
static void bring_to_version_4(void)
{
    static const uint8_t owners[COUNT] = {XISTALVO_DESK_1, XISTALVO_DESK_2};
    struct xistalvo_association both[COUNT];
    struct xistalvo_key keys[KEYS];
    uint16_t key_ids[COUNT];
    for (size_t i = 0; i < COUNT; i++) {
        const uint8_t *key = image + xistalvo_place_of_key(image, i);
        xistalvo_read_association(image, i, &both[i]);
        key_ids[i] = (uint16_t)xistalvo_get_two(image + xistalvo_place_of_body(image, i) + XISTALVO_IN_KEY_ID_3);
        keys[i].id = (uint16_t)xistalvo_get_two(key + XISTALVO_IN_KEY_OWN_ID);
        keys[i].state = key[XISTALVO_IN_KEY_STATE];
        memcpy(keys[i].octets, key + XISTALVO_IN_KEY_OCTETS, sizeof keys[i].octets);
    }
    image_length = xistalvo_make_image_4(both, key_ids, owners, COUNT, keys, KEYS, image, sizeof image);
    for (size_t i = 0; i < COUNT; i++) {
        printf("SPI %u belongs to desk %u\n", both[i].spi, xistalvo_owner_of(image, i));
    }
}

static void command(uint8_t desk, const char *what, const uint8_t *octets, size_t length)
{
    uint8_t reply[XISTALVO_LARGEST_REPLY];
    say(desk, what, xistalvo_command(&notes, events, sizeof events, image, image_length, numbers, XISTALVO_NUMBERS, desk, octets, length, reply,
                                     sizeof reply));
}

static void send(uint8_t desk, const char *what, uint16_t spi, uint8_t channel)
{
    const uint8_t frame[] = {0x40 | SPACECRAFT >> 2, (uint8_t)((SPACECRAFT & 3) << 6 | channel), 0, 0, 0, 0, 'd', 'a', 't', 'a'};
    uint8_t secured[sizeof frame + 30];
    say(desk, what, xistalvo_secure(image, image_length, numbers, XISTALVO_NUMBERS, desk, XISTALVO_AOS, XISTALVO_NO_CHECK_FIELD, spi, frame,
                                    sizeof frame, secured, sizeof secured));
}

int main(void)
{
    uint8_t octets[XISTALVO_REKEY_LENGTH];
    uint32_t channel = xistalvo_channel_name(XISTALVO_AOS, SPACECRAFT, CAMERA_CHANNEL, 0);
    make_old_image();
    xistalvo_fresh_notes(&notes);
    printf("load: %s\n", xistalvo_answer_name(XISTALVO_ANSWER(xistalvo_load(image, image_length, numbers, XISTALVO_NUMBERS))));
    send(XISTALVO_DESK_1, "a frame of the furnace, version 3", FURNACE, FURNACE_CHANNEL);
    bring_to_version_4();
    send(XISTALVO_DESK_1, "a frame of the furnace, version 4", FURNACE, FURNACE_CHANNEL);

    /* The guest brings its camera into service; the key is the office's to activate. */
    command(XISTALVO_DESK_2, "activation of its key", octets, xistalvo_make_key_alone(XISTALVO_TAG_ACTIVATION, GUEST_KEY, octets, sizeof octets));
    command(XISTALVO_DESK_2, "rekey of the camera", octets, xistalvo_make_rekey_to(CAMERA, GUEST_KEY, octets, sizeof octets));
    command(XISTALVO_KEY_OFFICE, "activation of the guest's key", octets,
            xistalvo_make_key_alone(XISTALVO_TAG_ACTIVATION, GUEST_KEY, octets, sizeof octets));
    command(XISTALVO_DESK_2, "rekey of the camera", octets, xistalvo_make_rekey_to(CAMERA, GUEST_KEY, octets, sizeof octets));
    command(XISTALVO_DESK_2, "start of the camera", octets, xistalvo_make_start(CAMERA, &channel, 1, octets, sizeof octets));
    send(XISTALVO_DESK_2, "a frame of the camera", CAMERA, CAMERA_CHANNEL);

    /* What is not its own is to it as what is not there. */
    send(XISTALVO_DESK_2, "a frame of the furnace", FURNACE, FURNACE_CHANNEL);
    send(XISTALVO_DESK_2, "a frame of SPI 99, which nobody has", 99, FURNACE_CHANNEL);
    command(XISTALVO_DESK_2, "status of the furnace", octets, xistalvo_make_spi_alone(XISTALVO_TAG_STATUS, FURNACE, octets, sizeof octets));
    command(XISTALVO_DESK_2, "status of SPI 99", octets, xistalvo_make_spi_alone(XISTALVO_TAG_STATUS, 99, octets, sizeof octets));
    command(XISTALVO_DESK_2, "inventory of all keys", octets, xistalvo_make_inventory(0, 65535, octets, sizeof octets));
    command(XISTALVO_DESK_2, "dump of the log", octets, xistalvo_make_dump(octets, sizeof octets));
    command(XISTALVO_DESK_1, "stop of the camera", octets, xistalvo_make_spi_alone(XISTALVO_TAG_STOP, CAMERA, octets, sizeof octets));
    command(XISTALVO_KEY_OFFICE, "status of the furnace", octets, xistalvo_make_spi_alone(XISTALVO_TAG_STATUS, FURNACE, octets, sizeof octets));
    command(XISTALVO_KEY_OFFICE, "inventory of all keys", octets, xistalvo_make_inventory(0, 65535, octets, sizeof octets));
    command(XISTALVO_KEY_OFFICE, "dump of the log", octets, xistalvo_make_dump(octets, sizeof octets));
    command(3, "ping", octets, xistalvo_make_ping(octets, sizeof octets));
    return 0;
}
