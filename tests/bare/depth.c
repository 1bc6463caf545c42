/* How much stack securing and checking take, where the C library gives no second stack to run them on (tests/stack.c): the stack below this
 * program's own frame is filled with a pattern, and what is no longer the pattern after a call is what the call took. For Arm and SPARC, with
 * no interrupts. */
#include "xistalvo_image.h"
#include "xistalvo_stack.h"

#include <stdio.h>
#include <string.h>

enum { ROOM = 2 * XISTALVO_STACK, COUNT = XISTALVO_MOST_ASSOCIATIONS, PATTERN = 0x5A, LENGTH = 1024, HEADER = 5 };

static uint8_t images[2][XISTALVO_LARGEST_IMAGE], clear[LENGTH], secured[LENGTH], opened[LENGTH];
static uint32_t numbers[2][XISTALVO_NUMBERS];
static xistalvo_notes notes;
static uint8_t events[XISTALVO_EVENTS_LENGTH];
static size_t clear_length;
static uint64_t result;

static void call_secure(void)
{
    result = xistalvo_secure(images[0], sizeof images[0], numbers[0], XISTALVO_NUMBERS, XISTALVO_KEY_OFFICE, XISTALVO_TC, XISTALVO_NO_CHECK_FIELD,
                             COUNT, clear, clear_length, secured, sizeof secured);
}

static void call_check(void)
{
    result = xistalvo_check(&notes, events, sizeof events, images[1], sizeof images[1], numbers[1], XISTALVO_NUMBERS, XISTALVO_KEY_OFFICE,
                            XISTALVO_TC, XISTALVO_NO_CHECK_FIELD, secured, sizeof secured, opened, sizeof opened);
}

/* 32 associations, of which the last is used, with the largest frame; the receiving end's mark is 15 lower. */
static void prepare(uint8_t service)
{
    static struct xistalvo_association associations[COUNT];
    for (unsigned end = 0; end < 2; end++) {
        for (unsigned i = 0; i < COUNT; i++) {
            struct xistalvo_association association = {(uint16_t)(i + 1), service, XISTALVO_TC, (uint8_t)(end + 1), XISTALVO_OPERATIONAL,
                                                       27, 5, 0, 1024, {0}, {(uint8_t)i}, end == 0 ? 15 : 0};
            associations[i] = association;
        }
        xistalvo_make_image(XISTALVO_IMAGE_VERSION, associations, COUNT, images[end], sizeof images[end]);
        xistalvo_load(images[end], sizeof images[end], numbers[end], XISTALVO_NUMBERS);
    }
    clear_length = LENGTH - (service == XISTALVO_AUTHENTICATION ? 22 : 30);
    memset(clear, 0xAA, sizeof clear);
    memcpy(clear, (const uint8_t[HEADER]){0x00, 27, 5 << 2 | (uint8_t)((clear_length - 1) >> 8), (uint8_t)((clear_length - 1) & 0xFF), 0}, HEADER);
}

static inline __attribute__((always_inline)) uintptr_t stack_pointer(void)
{
    uintptr_t pointer;
#if defined(__sparc__)
    __asm__ volatile("mov %%sp, %0" : "=r"(pointer));
#else
    __asm__ volatile("mov %0, sp" : "=r"(pointer));
#endif
    return pointer;
}

/* From the stack pointer here, so that a wrapper's frame counts too. */
static size_t taken_by(void (*volatile call)(void))
{
    uintptr_t top = stack_pointer();
    volatile uint8_t *bottom = (volatile uint8_t *)(top - ROOM);
    size_t unused = 0;
    for (size_t i = 0; i < ROOM; i++) {
        bottom[i] = PATTERN;
    }
    call();
    while (unused < ROOM && bottom[unused] == PATTERN) {
        unused++;
    }
    return ROOM - unused;
}

int main(void)
{
    size_t most = 0;
    for (uint8_t service = XISTALVO_AUTHENTICATION; service <= XISTALVO_AUTHENTICATED_ENCRYPTION; service++) {
        void (*const calls[])(void) = {call_secure, call_check};
        prepare(service);
        for (size_t i = 0; i < 2; i++) {
            size_t taken = taken_by(calls[i]);
            if (XISTALVO_ANSWER(result) != XISTALVO_DONE) {
                printf("depth: a call was refused by %u\n", XISTALVO_ANSWER(result));
                return 1;
            }
            most = taken > most ? taken : most;
        }
    }
    printf("depth: at most %u octets of stack\n", (unsigned)most);
    return most > XISTALVO_STACK;
}
