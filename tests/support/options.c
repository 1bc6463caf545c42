#include "options.h"

#include <errno.h>
#include <stdio.h>
#include <stdlib.h>
#include <string.h>

static void usage(const char *program)
{
    fprintf(stderr, "usage: %s [--seed S] [--count N] [--from W]\n", program);
    exit(2);
}

static uint64_t number_of(const char *program, const char *word)
{
    char *end = NULL;
    errno = 0;
    unsigned long long value = word == NULL ? 0 : strtoull(word, &end, 10);
    if (word == NULL || end == word || *end != '\0' || errno != 0) {
        usage(program);
    }
    return value;
}

struct options options_of(int argument_count, char **arguments, uint64_t default_count)
{
    struct options options = {1, default_count, 0};
    for (int i = 1; i < argument_count; i += 2) {
        uint64_t value = number_of(arguments[0], arguments[i + 1]);
        if (strcmp(arguments[i], "--seed") == 0) {
            options.seed = value;
        } else if (strcmp(arguments[i], "--count") == 0) {
            options.count = value;
        } else if (strcmp(arguments[i], "--from") == 0) {
            options.from = value;
        } else {
            usage(arguments[0]);
        }
    }
    return options;
}
