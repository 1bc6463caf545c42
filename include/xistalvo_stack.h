/* How much stack the module takes, and how to clear it.
 *
 * A call leaves on the stack, below its caller's frame, what it worked with: the key, the expanded key and data. They stay there until other
 * calls overwrite them. */
#ifndef XISTALVO_STACK_H
#define XISTALVO_STACK_H

#include <stddef.h>
#include <stdint.h>

#ifdef __cplusplus
extern "C" {
#endif

/* No call but those for a ground station takes more octets of stack than this, on any processor that was measured (docs/ON_BOARD.md). Where the stack is small, define the
 * figure of your processor, with some to spare, before this file is included. */
#ifndef XISTALVO_STACK
#define XISTALVO_STACK 4096
#endif

/* The calls for a ground station take this many at most. */
#ifndef XISTALVO_GROUND_STACK
#define XISTALVO_GROUND_STACK 8192
#endif

static inline void xistalvo_fill_stack(void)
{
    volatile uint8_t below[XISTALVO_STACK];
    size_t i;
    for (i = 0; i < sizeof below; i++) {
        below[i] = 0;
    }
}

/* Clears the stack that a call has used: XISTALVO_STACK octets below the frame of its caller, and it takes as much stack as that. Run it from
 * the function that made the calls, after the last of them. Registers are not cleared, and neither is what an interrupt saved of them on the
 * same stack, where that lay deeper. */
static inline void xistalvo_clear_stack(void)
{
    void (*volatile fill)(void) = xistalvo_fill_stack; /* so that the fill has a frame of its own, where the module's frames were */
    fill();
}

static inline void xistalvo_fill_ground_stack(void)
{
    volatile uint8_t below[XISTALVO_GROUND_STACK];
    size_t i;
    for (i = 0; i < sizeof below; i++) {
        below[i] = 0;
    }
}

/* The same after calls for a ground station: XISTALVO_GROUND_STACK octets. */
static inline void xistalvo_clear_ground_stack(void)
{
    void (*volatile fill)(void) = xistalvo_fill_ground_stack;
    fill();
}

#ifdef __cplusplus
}
#endif

#endif
