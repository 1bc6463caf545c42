/* The key office brings two images from version 2 to version 3, and then a key that two cameras share is changed in one place. Commands go to each
 * end as octets, here without the frames that would carry them (management.c has those). */
#include "xistalvo_command.h"
#include "xistalvo_image.h"

#include <stdio.h>
#include <string.h>

enum { COUNT = 2, KEYS = 3, SPACECRAFT = 27, OLD_KEY = 1, OTHER_OLD_KEY = 2, NEW_KEY = 300, ROOM = 128 };

static const uint16_t spis[COUNT] = {20, 21};
static const uint8_t channels[COUNT] = {12, 13};

struct end {
    const char *name;
    uint8_t image[XISTALVO_IMAGE_LENGTH_3(COUNT, KEYS)];
    size_t length;
    uint32_t numbers[XISTALVO_NUMBERS];
    xistalvo_notes notes;
    uint8_t events[XISTALVO_EVENTS_LENGTH];
};

static struct end ground = {.name = "ground"}, space = {.name = "spacecraft"};

static void load(struct end *end)
{
    uint64_t result = xistalvo_load(end->image, end->length, end->numbers, XISTALVO_NUMBERS);
    xistalvo_fresh_notes(&end->notes);
    printf("%s: load: %u, %s; %u octets, last numbers %u and %u\n", end->name, XISTALVO_ANSWER(result), xistalvo_answer_name(XISTALVO_ANSWER(result)),
           (unsigned)end->length, (unsigned)end->numbers[0], (unsigned)end->numbers[1]);
}

/* Version 2: each camera has a key of its own, as two service 2 entries must have there. */
static void make_old_image(struct end *end, uint8_t direction)
{
    struct xistalvo_association cameras[COUNT];
    for (uint8_t i = 0; i < COUNT; i++) {
        const struct xistalvo_association camera = {spis[i], XISTALVO_AUTHENTICATED_ENCRYPTION, XISTALVO_AOS, direction, XISTALVO_OPERATIONAL,
                                                    SPACECRAFT, channels[i], 0, 100, {0xFF, 0xFF, 0, 0, 0, 0}, {i}, 0};
        cameras[i] = camera;
    }
    end->length = xistalvo_make_image(XISTALVO_IMAGE_VERSION_SETS, cameras, COUNT, end->image, sizeof end->image);
}

/* The office's step: the same associations with their marks, their keys moved to the key part, and a new key that waits. Both ends load the new
 * image before either sends again, as they make the IV otherwise from then on. */
static void bring_to_version_3(struct end *end)
{
    struct xistalvo_association cameras[COUNT];
    static const uint16_t key_ids[COUNT] = {OLD_KEY, OTHER_OLD_KEY};
    struct xistalvo_key keys[KEYS] = {
        {OLD_KEY, XISTALVO_KEY_ACTIVE, {0}}, {OTHER_OLD_KEY, XISTALVO_KEY_ACTIVE, {0}}, {NEW_KEY, XISTALVO_KEY_PRE_ACTIVE, {9}}};
    for (size_t i = 0; i < COUNT; i++) {
        xistalvo_read_association(end->image, i, &cameras[i]);
        memcpy(keys[i].octets, cameras[i].key, sizeof keys[i].octets);
    }
    end->length = xistalvo_make_image_3(cameras, key_ids, COUNT, keys, KEYS, end->image, sizeof end->image);
}

static void command(struct end *end, const char *what, const uint8_t *octets, size_t length)
{
    uint8_t reply[XISTALVO_LARGEST_REPLY];
    uint64_t result = xistalvo_command(&end->notes, end->events, sizeof end->events, end->image, end->length, end->numbers, XISTALVO_NUMBERS,
                                       XISTALVO_KEY_OFFICE, octets, length, reply, sizeof reply);
    printf("%s: %s: %u, %s; stores %u", end->name, what, XISTALVO_ANSWER(result), xistalvo_answer_name(XISTALVO_ANSWER(result)),
           XISTALVO_STORES(result));
    if (xistalvo_is_reply(XISTALVO_TAG_INVENTORY, reply, XISTALVO_LENGTH(result))) {
        for (size_t i = 0; i < xistalvo_keys_in(reply); i++) {
            printf("%s key %u in state %u", i == 0 ? ";" : ",", xistalvo_key_id_in(reply, i), xistalvo_key_state_in(reply, i));
        }
    }
    putchar('\n');
}

static void key_alone(struct end *end, const char *what, uint8_t tag, uint16_t key_id)
{
    uint8_t octets[XISTALVO_KEY_ALONE_LENGTH];
    command(end, what, octets, xistalvo_make_key_alone(tag, key_id, octets, sizeof octets));
}

static void spi_alone(struct end *end, const char *what, uint8_t tag, size_t camera)
{
    uint8_t octets[XISTALVO_SPI_ALONE_LENGTH];
    command(end, what, octets, xistalvo_make_spi_alone(tag, spis[camera], octets, sizeof octets));
}

static void rekey(struct end *end, const char *what, size_t camera, uint16_t key_id)
{
    uint8_t octets[XISTALVO_REKEY_LENGTH];
    command(end, what, octets, xistalvo_make_rekey_to(spis[camera], key_id, octets, sizeof octets));
}

static void start(struct end *end, size_t camera)
{
    uint8_t octets[XISTALVO_START_LENGTH(1)];
    const uint32_t name = xistalvo_channel_name(XISTALVO_AOS, SPACECRAFT, channels[camera], 0);
    command(end, "start", octets, xistalvo_make_start(spis[camera], &name, 1, octets, sizeof octets));
}

/* A picture of a camera, down to the ground; the first octets of its IV are printed. */
static void send_picture(size_t camera)
{
    uint8_t frame[] = {0x40 | SPACECRAFT >> 2, (uint8_t)((SPACECRAFT << 6 & 0xC0) | channels[camera]), 0, 0, 0, 0, 'p', 'i', 'c'};
    uint8_t secured[ROOM], released[ROOM];
    uint64_t result = xistalvo_secure(space.image, space.length, space.numbers, XISTALVO_NUMBERS, XISTALVO_DESK_1, XISTALVO_AOS,
                                      XISTALVO_NO_CHECK_FIELD, spis[camera], frame, sizeof frame, secured, sizeof secured);
    printf("  a picture under SPI %u: %u", spis[camera], XISTALVO_ANSWER(result));
    if (XISTALVO_ANSWER(result) == XISTALVO_DONE) {
        printf(", IV");
        for (size_t i = 8; i < 20; i++) {
            printf(" %02X", secured[i]);
        }
        result = xistalvo_check(&ground.notes, ground.events, sizeof ground.events, ground.image, ground.length, ground.numbers, XISTALVO_NUMBERS,
                                XISTALVO_DESK_1, XISTALVO_AOS, XISTALVO_NO_CHECK_FIELD, secured, XISTALVO_LENGTH(result), released,
                                sizeof released);
        printf("; on the ground: %u, %s", XISTALVO_ANSWER(result), xistalvo_answer_name(XISTALVO_ANSWER(result)));
    }
    putchar('\n');
}

/* One camera goes over to the new key: the sender rests first, and starts last, so that every frame that leaves is one that the ground takes. */
static void change_key_of(size_t camera)
{
    spi_alone(&space, "stop", XISTALVO_TAG_STOP, camera);
    spi_alone(&ground, "stop", XISTALVO_TAG_STOP, camera);
    spi_alone(&ground, "expire", XISTALVO_TAG_EXPIRE, camera);
    rekey(&ground, "rekey to 300", camera, NEW_KEY);
    start(&ground, camera);
    spi_alone(&space, "expire", XISTALVO_TAG_EXPIRE, camera);
    rekey(&space, "rekey to 300", camera, NEW_KEY);
    start(&space, camera);
}

/* Power fails on the spacecraft after the first store of a rekey: it loads, is unkeyed as before, and the rekey is given again. */
static void lose_power_in_rekey(size_t camera)
{
    uint8_t octets[XISTALVO_REKEY_LENGTH];
    size_t length = xistalvo_make_rekey_to(spis[camera], NEW_KEY, octets, sizeof octets);
    uint32_t made = xistalvo_command_cut(space.image, space.length, space.numbers, XISTALVO_NUMBERS, XISTALVO_KEY_OFFICE, octets, length, 0, 1);
    const uint8_t *body = space.image + xistalvo_place_of_body(space.image, camera);
    printf("spacecraft: power fails in a rekey after %u store; the body names key %u and is in state %u\n", (unsigned)made,
           xistalvo_get_two(body + XISTALVO_IN_KEY_ID_3), body[XISTALVO_IN_STATE]);
    load(&space);
}

static void bring_both_to_version_3(void)
{
    make_old_image(&ground, XISTALVO_RECEIVE);
    make_old_image(&space, XISTALVO_SEND);
    load(&ground);
    load(&space);
    send_picture(0);
    send_picture(1);
    puts("- The office makes images of version 3; the marks go with the associations, and so the numbers go on.");
    bring_to_version_3(&ground);
    bring_to_version_3(&space);
    load(&ground);
    load(&space);
    send_picture(0);
    send_picture(1);
}

/* The second camera, with the spacecraft first, as a loss of power there is to be seen. */
static void change_second_key(void)
{
    spi_alone(&space, "stop", XISTALVO_TAG_STOP, 1);
    spi_alone(&space, "expire", XISTALVO_TAG_EXPIRE, 1);
    lose_power_in_rekey(1);
    rekey(&space, "rekey to 300", 1, NEW_KEY);
    spi_alone(&ground, "stop", XISTALVO_TAG_STOP, 1);
    spi_alone(&ground, "expire", XISTALVO_TAG_EXPIRE, 1);
    rekey(&ground, "rekey to 300", 1, NEW_KEY);
    start(&ground, 1);
    start(&space, 1);
}

int main(void)
{
    uint8_t octets[XISTALVO_INVENTORY_LENGTH];
    bring_both_to_version_3();
    puts("- The new key is activated at both ends; the old ones are in use, and there is no key 301.");
    key_alone(&ground, "activation of 300", XISTALVO_TAG_ACTIVATION, NEW_KEY);
    key_alone(&space, "activation of 300", XISTALVO_TAG_ACTIVATION, NEW_KEY);
    key_alone(&space, "deactivation of 1", XISTALVO_TAG_DEACTIVATION, OLD_KEY);
    key_alone(&space, "activation of 301", XISTALVO_TAG_ACTIVATION, NEW_KEY + 1);
    puts("- The first camera goes over to it, then the second, in whose rekey power fails. From now on they share a key.");
    change_key_of(0);
    send_picture(0);
    change_second_key();
    send_picture(1);
    send_picture(0);
    puts("- The old keys are given up, and do not come back.");
    key_alone(&space, "deactivation of 1", XISTALVO_TAG_DEACTIVATION, OLD_KEY);
    key_alone(&space, "deactivation of 2", XISTALVO_TAG_DEACTIVATION, OTHER_OLD_KEY);
    key_alone(&space, "activation of 1", XISTALVO_TAG_ACTIVATION, OLD_KEY);
    command(&space, "inventory", octets, xistalvo_make_inventory(0, 65535, octets, sizeof octets));
    return 0;
}
