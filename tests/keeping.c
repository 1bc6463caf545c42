/* Both ends of a link keep their images as examples/c/keeping.h does, and are killed at random points.
 *
 *   keeping [--seed S] [--count N] [--from W]
 *
 * A run is a process that sends frames, or checks frames that were sent, and between them stops, changes and starts its association by
 * management commands, in images of versions 3 and 4 with another key, and is killed: between any two of its system calls or in the middle
 * of a write, as a number of the run says, or from outside at a random moment; one in ten is left alone. Three ways are tried: a file; memory behind a driver, one octet
 * at a time; and memory that is lent to the module itself. A process that is killed hands its files and its shared memory on, and nothing
 * else. Over all runs of an end, demand 3: each number that went out exceeds those before, and so does each that was released, with the data
 * that were sent under it. A kill does not lose what the system has not flushed; so the file's calls are watched too: a new file is flushed
 * before it takes its name, and the folder before a frame leaves. */
#include "support/both.h"
#include "support/options.h"

#include "../include/xistalvo_command.h"
#include "../include/xistalvo_image.h"

#include <fcntl.h>
#include <inttypes.h>
#include <signal.h>
#include <stdio.h>
#include <stdlib.h>
#include <string.h>
#include <sys/mman.h>
#include <sys/wait.h>
#include <unistd.h>

/* ---- the system's calls, watched ---- */

static struct {
    struct random random;
    uint32_t until_kill;  /* this many more steps; 0: none */
    bool is_file_flushed; /* since the last write */
    bool is_name_flushed; /* since the last rename */
} watch;

static void step(void)
{
    if (watch.until_kill != 0 && --watch.until_kill == 0) {
        raise(SIGKILL);
    }
}

static ssize_t watched_write(int file, const void *octets, size_t length)
{
    step();
    if (watch.until_kill == 1) { /* a part of it, and then the end */
        length = random_below(&watch.random, (uint32_t)length + 1);
    }
    ssize_t written = write(file, octets, length);
    watch.is_file_flushed = false;
    step();
    return written;
}

static int watched_fsync(int file)
{
    step();
    int status = fsync(file);
    watch.is_file_flushed = true;
    watch.is_name_flushed = true;
    step();
    return status;
}

static int watched_rename(const char *from, const char *to)
{
    if (!watch.is_file_flushed) {
        both_fail("a file takes its name before it is flushed");
    }
    step();
    int status = rename(from, to);
    watch.is_name_flushed = false;
    step();
    return status;
}

#define write watched_write
#define fsync watched_fsync
#define rename watched_rename
#include "../examples/c/keeping.c"
#undef write
#undef fsync
#undef rename

/* ---- the two ends, each in three ways ---- */

enum way { IN_FILE, BEHIND_DRIVER, LENT_ITSELF, WAYS };
static const char *const paths[] = {"sender", "receiver"}; /* in a folder of the test's own */
static const char *const way_names[] = {"a file", "memory behind a driver", "memory lent itself"};

enum { KEYS = 64, NO_KEY = KEYS };
enum { MOST_LENGTH = XISTALVO_IMAGE_LENGTH_4(1, KEYS), SPI = 9, MOST_FRAMES = 200, DATA_LENGTH = 8, FRAME_LENGTH = 5 + DATA_LENGTH + 22, RUNS_OF_LINK = 10 };

struct frame {
    uint8_t octets[FRAME_LENGTH];
};

struct link {
    enum way way;
    bool has_keys; /* both images are of version 3 or 4 */
    uint8_t desk;  /* whose the association is: in version 4 the guest's */
    size_t length;
    uint8_t *memory[2];             /* shared: it outlives a process */
    struct frame sent[MOST_FRAMES]; /* the last ones */
    size_t sent_count;
    uint32_t last_sent, last_released;
};

struct totals {
    uint64_t frames, releases, kills, stopped /* associations that a kill left so */, rekeyed /* that it left with another key ID */;
};
static struct totals totals;
static size_t length_of_link; /* for the driver */
static xistalvo_notes notes;  /* in memory alone, and not kept */
static uint8_t events[XISTALVO_EVENTS_LENGTH];

static uint32_t number_in(const uint8_t *frame)
{
    return (uint32_t)frame[7] << 24 | (uint32_t)frame[8] << 16 | (uint32_t)frame[9] << 8 | frame[10];
}

static uint32_t number_after_load(const uint8_t *image)
{
    uint32_t numbers[XISTALVO_NUMBERS];
    if (XISTALVO_ANSWER(xistalvo_load(image, length_of_link, numbers, XISTALVO_NUMBERS)) != XISTALVO_DONE) {
        both_fail("between two octets the memory holds no image");
    }
    return numbers[0];
}

/* The memory's driver. A loss of power after this octet leaves an image whose mark has risen by one, or stays where another field is stored. */
static bool drive(void *driver, size_t address, uint8_t octet)
{
    uint32_t before = number_after_load(driver);
    size_t mark = xistalvo_place_of_mark(driver, 0);
    uint32_t raise = mark <= address && address < mark + 4 ? 64 : 0;
    step();
    *((volatile uint8_t *)driver + address) = octet;
    if (number_after_load(driver) != before + raise) {
        both_fail("an octet was written that does not raise the mark by one, or another field's that moves it");
    }
    step();
    return true;
}

static void start(struct link *link, unsigned end, struct kept *kept)
{
    bool is_started = link->way == IN_FILE ? kept_start_from_file(kept, paths[end]) : kept_start(kept, link->memory[end], link->length);
    if (!is_started) {
        both_fail("an image does not load after a kill");
    }
}

static bool keep(struct link *link, unsigned end, struct kept *kept)
{
    switch (link->way) {
    case IN_FILE:
        return kept_in_file(kept, paths[end]) && watch.is_name_flushed;
    case BEHIND_DRIVER:
        return kept_in_memory(kept, drive, link->memory[end]);
    default:
        return true;
    }
}

static uint8_t *lent(struct link *link, unsigned end, struct kept *kept) { return link->way == LENT_ITSELF ? link->memory[end] : kept->image; }

static void tell(int pipe_end, const void *octets, size_t length)
{
    if (write(pipe_end, octets, length) != (ssize_t)length) {
        _exit(1);
    }
}

/* ---- management between frames ---- */

/* Carries out a command; it is kept at once, or with the next one. */
static void manage(struct link *link, unsigned end, struct kept *kept, const uint8_t *command, size_t length, unsigned answer)
{
    uint8_t none[1];
    bool is_about_keys = command[0] == XISTALVO_TAG_ACTIVATION || command[0] == XISTALVO_TAG_DEACTIVATION;
    uint64_t result = xistalvo_command(&notes, events, sizeof events, lent(link, end, kept), link->length, kept->numbers, XISTALVO_NUMBERS,
                                       is_about_keys ? XISTALVO_KEY_OFFICE : link->desk, command, length, none, 0);
    if (XISTALVO_ANSWER(result) != answer) {
        both_fail("a command is answered otherwise than the state that was kept says");
    }
    step();
    if (random_percent(&watch.random, 60) && !keep(link, end, kept)) {
        both_fail("an image could not be kept after a command");
    }
}

static void start_association(struct link *link, unsigned end, struct kept *kept)
{
    uint8_t command[32];
    const uint32_t name = xistalvo_channel_name(XISTALVO_TC, 27, 5, 0);
    manage(link, end, kept, command, xistalvo_make_start(SPI, &name, 1, command, sizeof command), XISTALVO_DONE);
}

/* A window from those that differ in both octets, of which one new and one old are outside 1 to 1,024. */
static void set_window(struct link *link, unsigned end, struct kept *kept)
{
    uint8_t command[32];
    uint16_t window = (uint16_t)RANDOM_OF(&watch.random, 1024, 999, 768, 1023);
    manage(link, end, kept, command, xistalvo_make_set_window(SPI, window, command, sizeof command), XISTALVO_DONE);
}

static uint8_t field_of(struct link *link, unsigned end, struct kept *kept, size_t field)
{
    const uint8_t *image = lent(link, end, kept);
    return image[xistalvo_place_of_body(image, 0) + field];
}

static uint16_t id_named(struct link *link, unsigned end, struct kept *kept)
{
    return (uint16_t)(field_of(link, end, kept, XISTALVO_IN_KEY_ID_3) << 8 | field_of(link, end, kept, XISTALVO_IN_KEY_ID_3 + 1));
}

/* The ID of key j. Neighbours differ in both octets. */
static uint16_t id_of(size_t j) { return (uint16_t)(0x0101 * j + 7); }

static uint8_t state_of(struct link *link, unsigned end, struct kept *kept, size_t j)
{
    const uint8_t *image = lent(link, end, kept);
    return image[xistalvo_place_of_key(image, j) + XISTALVO_IN_KEY_STATE];
}

/* Any key in this state, but for that of one ID, or NO_KEY. */
static size_t any_key(struct link *link, unsigned end, struct kept *kept, uint8_t state, uint16_t but)
{
    size_t first = random_below(&watch.random, KEYS);
    for (size_t i = 0; i < KEYS; i++) {
        size_t j = (first + i) % KEYS;
        if (state_of(link, end, kept, j) == state && id_of(j) != but) {
            return j;
        }
    }
    return NO_KEY;
}

static void manage_key(struct link *link, unsigned end, struct kept *kept, uint8_t tag, uint16_t id, unsigned answer)
{
    uint8_t command[32];
    manage(link, end, kept, command, xistalvo_make_key_alone(tag, id, command, sizeof command), answer);
}

/* To a key that is active. All have the same octets, so that the ends need not change together. */
static void rekey_association(struct link *link, unsigned end, struct kept *kept, size_t j)
{
    uint8_t command[32];
    manage(link, end, kept, command, xistalvo_make_rekey_to(SPI, id_of(j), command, sizeof command), XISTALVO_DONE);
}

static void expire(struct link *link, unsigned end, struct kept *kept)
{
    uint8_t command[32];
    manage(link, end, kept, command, xistalvo_make_spi_alone(XISTALVO_TAG_EXPIRE, SPI, command, sizeof command), XISTALVO_DONE);
}

/* What a process that was killed may have left: an association that is stopped, with any window, with a key that is given up, or unkeyed, with any
 * key ID. */
static void reopen(struct link *link, unsigned end, struct kept *kept)
{
    uint8_t state = field_of(link, end, kept, XISTALVO_IN_STATE);
    if (state == XISTALVO_OPERATIONAL) {
        return;
    }
    if (link->has_keys) {
        if (state == XISTALVO_KEYED) {
            expire(link, end, kept);
        }
        rekey_association(link, end, kept, any_key(link, end, kept, XISTALVO_KEY_ACTIVE, 0));
    }
    set_window(link, end, kept);
    start_association(link, end, kept);
}

/* A new key is activated, the association goes over to it or to another, and the one that it used is given up, which it cannot be before. */
static void change_key(struct link *link, unsigned end, struct kept *kept, uint16_t old)
{
    size_t next = any_key(link, end, kept, XISTALVO_KEY_PRE_ACTIVE, old);
    if (next != NO_KEY) {
        manage_key(link, end, kept, XISTALVO_TAG_ACTIVATION, id_of(next), XISTALVO_DONE);
    }
    if (next == NO_KEY || random_percent(&watch.random, 30)) {
        next = any_key(link, end, kept, XISTALVO_KEY_ACTIVE, 0);
    }
    expire(link, end, kept);
    rekey_association(link, end, kept, next);
    if (id_named(link, end, kept) != old && random_percent(&watch.random, 50)) {
        manage_key(link, end, kept, XISTALVO_TAG_DEACTIVATION, old, XISTALVO_DONE);
    }
}

/* Stops the association and starts it again with another window, and perhaps another key; now and then the sender's number is set. */
static void manage_association(struct link *link, unsigned end, struct kept *kept)
{
    uint8_t command[32];
    if (link->has_keys) {
        manage_key(link, end, kept, XISTALVO_TAG_DEACTIVATION, id_named(link, end, kept), XISTALVO_WRONG_KEY_STATE);
    }
    manage(link, end, kept, command, xistalvo_make_spi_alone(XISTALVO_TAG_STOP, SPI, command, sizeof command), XISTALVO_DONE);
    if (link->has_keys) {
        change_key(link, end, kept, id_named(link, end, kept));
    }
    set_window(link, end, kept);
    if (end == 0 && random_percent(&watch.random, 30)) {
        uint32_t number = kept->numbers[0] + random_between(&watch.random, 1, 200);
        manage(link, end, kept, command, xistalvo_make_set_number(SPI, number, command, sizeof command), XISTALVO_DONE);
    }
    start_association(link, end, kept);
}

/* Sends until it is killed or has sent enough. The data are the number of the frame's random stream. */
static void send_frames(struct link *link, int pipe_end)
{
    static struct kept kept;
    uint8_t clear[5 + DATA_LENGTH] = {0x00, 27, 5 << 2, sizeof clear - 1, 0}, output[FRAME_LENGTH];
    start(link, 0, &kept);
    reopen(link, 0, &kept);
    for (unsigned i = 0; i < MOST_FRAMES; i++) {
        if (random_percent(&watch.random, 3)) {
            manage_association(link, 0, &kept);
        }
        random_octets(&watch.random, clear + 5, DATA_LENGTH);
        uint64_t result = xistalvo_secure(lent(link, 0, &kept), link->length, kept.numbers, XISTALVO_NUMBERS, link->desk, XISTALVO_TC,
                                          XISTALVO_NO_CHECK_FIELD, SPI, clear, sizeof clear, output, sizeof output);
        if (XISTALVO_ANSWER(result) == XISTALVO_DONE && keep(link, 0, &kept)) {
            tell(pipe_end, output, sizeof output);
        }
        step();
    }
}

/* Checks frames that were sent, in their order with gaps and repetitions, until it is killed or has tried enough. */
static void check_frames(struct link *link, int pipe_end)
{
    static struct kept kept;
    struct frame released;
    start(link, 1, &kept);
    reopen(link, 1, &kept);
    for (size_t i = 0; i < link->sent_count; i += random_between(&watch.random, 0, 3)) {
        if (random_percent(&watch.random, 10) && i >= 5) {
            i -= 5;
        }
        if (random_percent(&watch.random, 3)) {
            manage_association(link, 1, &kept);
        }
        memcpy(&released, &link->sent[i], sizeof released);
        uint64_t result = xistalvo_check(&notes, events, sizeof events, lent(link, 1, &kept), link->length, kept.numbers, XISTALVO_NUMBERS,
                                         link->desk, XISTALVO_TC, XISTALVO_NO_CHECK_FIELD, link->sent[i].octets, FRAME_LENGTH,
                                         released.octets + 11, DATA_LENGTH);
        if (XISTALVO_ANSWER(result) == XISTALVO_DONE && keep(link, 1, &kept)) {
            tell(pipe_end, &released, sizeof released);
        }
        step();
    }
}

/* ---- what went out, and what was released ---- */

static void note_sent(struct link *link, const struct frame *frame)
{
    if (number_in(frame->octets) <= link->last_sent) {
        both_fail("a number went out that is not above all before it");
    }
    link->last_sent = number_in(frame->octets);
    totals.frames++;
    if (link->sent_count == MOST_FRAMES) {
        memmove(link->sent, link->sent + 1, sizeof link->sent - sizeof link->sent[0]);
        link->sent_count--;
    }
    link->sent[link->sent_count++] = *frame;
}

static void note_released(struct link *link, const struct frame *frame)
{
    bool is_one_sent = false;
    for (size_t i = 0; i < link->sent_count; i++) {
        is_one_sent = is_one_sent || memcmp(frame, &link->sent[i], sizeof *frame) == 0;
    }
    if (number_in(frame->octets) <= link->last_released || !is_one_sent) {
        both_fail("a number was released that is not above all before it, or with other data than were sent");
    }
    link->last_released = number_in(frame->octets);
    totals.releases++;
}

/* ---- runs ---- */

/* Counts what the end was left with: an association at rest, a key ID other than the first. */
static void note_left(struct link *link, unsigned end)
{
    static struct kept kept;
    start(link, end, &kept);
    const uint8_t *body = kept.image + xistalvo_place_of_body(kept.image, 0);
    totals.stopped += body[XISTALVO_IN_STATE] != XISTALVO_OPERATIONAL;
    totals.rekeyed += link->has_keys && (body[XISTALVO_IN_KEY_ID_3] << 8 | body[XISTALVO_IN_KEY_ID_3 + 1]) != id_of(0);
}

static void run_end(struct link *link, unsigned end, struct random *random)
{
    int ends[2];
    struct frame frame;
    uint32_t moment = random_below(random, 1500);
    bool is_left_alone = random_percent(random, 10);
    bool is_from_outside = !is_left_alone && random_percent(random, 50);
    uint32_t steps = random_between(random, 1, 60);
    watch.random = random_stream(random_any(random), 0);
    if (pipe(ends) != 0) {
        both_fail("no pipe");
    }
    pid_t child = fork();
    if (child == 0) {
        close(ends[0]);
        watch.until_kill = is_from_outside || is_left_alone ? 0 : steps;
        (end == 0 ? send_frames : check_frames)(link, ends[1]);
        _exit(0);
    }
    close(ends[1]);
    if (is_from_outside) {
        usleep(moment);
        kill(child, SIGKILL);
    }
    while (read(ends[0], &frame, sizeof frame) == (ssize_t)sizeof frame) {
        (end == 0 ? note_sent : note_released)(link, &frame);
    }
    close(ends[0]);
    int status = 0;
    if (child < 0 || waitpid(child, &status, 0) != child || (WIFEXITED(status) && WEXITSTATUS(status) != 0)) {
        both_fail("an end of the link failed by itself");
    }
    totals.kills += WIFSIGNALED(status) != 0;
    note_left(link, end);
}

/* Some keys are active, and the others wait. */
static void make_keys(struct xistalvo_key keys[KEYS])
{
    for (size_t j = 0; j < KEYS; j++) {
        keys[j].id = id_of(j);
        keys[j].state = (uint8_t)(j % 4 == 0 ? XISTALVO_KEY_ACTIVE : XISTALVO_KEY_PRE_ACTIVE);
        memset(keys[j].octets, 0x33, sizeof keys[j].octets);
    }
}

/* A new link, of version 1, 3 or 4. Its marks are a little below a multiple of 256, where a raise changes another octet than the last. */
static void make_link(struct link *link, struct random *random)
{
    uint32_t mark = 256 * random_between(random, 1, 1000) - random_between(random, 1, 4);
    struct xistalvo_key keys[KEYS];
    const uint16_t key_id = id_of(0);
    link->has_keys = random_percent(random, 60);
    link->desk = link->has_keys && random_percent(random, 50) ? XISTALVO_DESK_2 : XISTALVO_DESK_1;
    link->sent_count = 0;
    link->last_sent = 0;
    link->last_released = 0;
    make_keys(keys);
    for (unsigned end = 0; end < 2; end++) {
        struct xistalvo_association association = {SPI, XISTALVO_AUTHENTICATION, XISTALVO_TC, (uint8_t)(end + 1), XISTALVO_OPERATIONAL,
                                                   27, 5, 0, 1024, {0}, {1, 2, 3}, mark};
        if (link->desk == XISTALVO_DESK_2) {
            link->length = xistalvo_make_image_4(&association, &key_id, &link->desk, 1, keys, KEYS, link->memory[end], MOST_LENGTH);
        } else if (link->has_keys) {
            link->length = xistalvo_make_image_3(&association, &key_id, 1, keys, KEYS, link->memory[end], MOST_LENGTH);
        } else {
            link->length = xistalvo_make_image(XISTALVO_IMAGE_VERSION, &association, 1, link->memory[end], MOST_LENGTH);
        }
        length_of_link = link->length;
        if (link->length == 0 || !write_new_file(paths[end], link->memory[end], link->length)) {
            both_fail("an image cannot be made");
        }
    }
}

static void *shared_memory(void)
{
    void *memory = mmap(NULL, MOST_LENGTH, PROT_READ | PROT_WRITE, MAP_SHARED | MAP_ANONYMOUS, -1, 0);
    if (memory == MAP_FAILED) {
        both_fail("no shared memory");
    }
    return memory;
}

static void try_way(enum way way, struct options options)
{
    static struct link link;
    char folder[] = "/tmp/keeping.XXXXXX";
    if (mkdtemp(folder) == NULL || chdir(folder) != 0) {
        both_fail("no folder");
    }
    link.way = way;
    link.memory[0] = shared_memory();
    link.memory[1] = shared_memory();
    totals = (struct totals){0, 0, 0, 0, 0};
    for (uint64_t i = 0; i < options.count; i++) {
        struct random random = random_stream(options.seed, options.from + i);
        both_at(options.seed, options.from + i, (uint64_t)way);
        if (i % RUNS_OF_LINK == 0) {
            make_link(&link, &random);
        }
        run_end(&link, 0, &random);
        run_end(&link, 1, &random);
    }
    unlink("sender");
    unlink("sender.new");
    unlink("receiver");
    unlink("receiver.new");
    rmdir(folder);
    if (totals.releases == 0 || totals.kills == 0 || ((totals.stopped == 0 || totals.rekeyed == 0) && options.count >= 200)) {
        both_fail("nothing was released, nothing killed, or no association left stopped or with another key");
    }
    printf("%s: %" PRIu64 " kills in %" PRIu64 " runs, %" PRIu64 " frames sent, %" PRIu64 " released; %" PRIu64
           " times an association was left stopped, %" PRIu64 " times with another key\n",
           way_names[way], totals.kills, 2 * options.count, totals.frames, totals.releases, totals.stopped, totals.rekeyed);
}

int main(int argument_count, char **arguments)
{
    struct options options = options_of(argument_count, arguments, 200);
    both_prepare("keeping");
    for (enum way way = IN_FILE; way < WAYS; way++) {
        try_way(way, options);
    }
    printf("keeping: seed %" PRIu64 ", no number went out twice, and none was released twice\n", options.seed);
    return 0;
}
