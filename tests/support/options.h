/* The command line of a test: --seed S, --count N, --from W. */
#ifndef OPTIONS_H
#define OPTIONS_H

#include <stdint.h>

struct options {
    uint64_t seed;
    uint64_t count;
    uint64_t from;
};

/* Ends the program with 2 and a sentence where the words cannot be read. */
struct options options_of(int argument_count, char **arguments, uint64_t default_count);

#endif
