/* The start of a program on a bare Cortex-M3 (QEMU's board mps2-an385): the vectors, and C's main with the C library's semihosting. */
#include <stdint.h>
#include <stdlib.h>

extern uint8_t end_of_stack[]; /* of memory.ld */
void initialise_monitor_handles(void);
int main(void);
void reset(void);
void _fini(void); /* which the library calls at the end */

void _fini(void) {}

void reset(void)
{
    initialise_monitor_handles();
    exit(main());
}

struct vectors {
    void *stack;
    void (*reset)(void);
};

__attribute__((section(".vectors"), used)) static const struct vectors vectors = {end_of_stack, reset};
