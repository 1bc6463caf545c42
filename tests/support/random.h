/* A small generator of numbers (splitmix64): the same seed gives the same run on every machine. */
#ifndef RANDOM_H
#define RANDOM_H

#include <stdbool.h>
#include <stddef.h>
#include <stdint.h>

struct random {
    uint64_t state;
};

/* A generator for the stream of this number under this seed, so that a run can be taken up at any stream. */
struct random random_stream(uint64_t seed, uint64_t stream);

uint64_t random_any(struct random *random);

/* 0 to bound - 1; bound is at least 1. */
uint32_t random_below(struct random *random, uint32_t bound);

/* least to most, both included. */
uint32_t random_between(struct random *random, uint32_t least, uint32_t most);

bool random_percent(struct random *random, unsigned percent);

void random_octets(struct random *random, uint8_t *to, size_t length);

/* One of the values. */
uint32_t random_of(struct random *random, const uint32_t *values, size_t count);
#define RANDOM_OF(random, ...) \
    random_of((random), (const uint32_t[]){__VA_ARGS__}, sizeof((const uint32_t[]){__VA_ARGS__}) / sizeof(uint32_t))

#endif
