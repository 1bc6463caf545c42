/* The module through its C interface, and the independent reading of the papers, on the same input. */
#ifndef BOTH_H
#define BOTH_H

#include "../independent/reading.h"
#include "random.h"

enum { IMAGE_ROOM = 4096, NUMBER_ROOM = 48, FRAME_ROOM = 4096, EVENTS_ROOM = 1024 };

/* What a caller has of notes: the struct, and the list of the log's events. */
struct record {
    struct notes notes;
    uint8_t events[EVENTS_ROOM];
    size_t events_length;
};

enum which_call { CALL_LOAD, CALL_SECURE, CALL_CHECK, CALL_COMMAND };

/* All that a call is lent, and, after it, what the module left there. */
struct input {
    enum which_call which;
    uint8_t image[IMAGE_ROOM];
    size_t image_length;
    uint32_t numbers[NUMBER_ROOM];
    size_t numbers_length;
    uint8_t desk; /* no load has one */
    uint8_t kind;
    uint8_t check_field; /* 0 says that there is none, any other number that there is one */
    uint16_t spi;
    uint8_t frame[FRAME_ROOM]; /* or the command */
    size_t frame_length;
    uint8_t output[FRAME_ROOM];
    size_t output_length;
    struct record record; /* of checks and commands */
};

struct outcome {
    unsigned answer;
    size_t length;
    unsigned stores;
};

/* To be called once, with the program's name for what it prints. */
void both_prepare(const char *program);

/* Where a run stands, for what is printed when something differs. */
void both_at(uint64_t seed, uint64_t stream, uint64_t call);

/* Switches the comparison with the reading off or on again; it starts switched on. Guards, refusals, and what a call leaves of the notes are looked at
 * in any case. */
void both_compare(bool is_on);

/* Runs the module on the input and compares answer, length, stores, image, numbers, output, notes and events with the reading; looks at every guard
 * octet, that a refused call changed nothing but the notes, and that these changed by what one call may; and leaves in the input what the module left.
 * Where anything is wrong it prints the input and ends the program with 1. */
struct outcome both_run(struct random *random, struct input *input);

/* Lets the module make fresh notes of those in a record, in place. */
void both_freshen(struct random *random, struct record *record);

/* Whether a call enters an event: a check does, and a command that does not begin as dump and erase do. */
bool is_event(const struct input *input);

/* How many events a record keeps: those that are counted, so far as its list has room. */
size_t kept_in(const struct record *record);

/* The same for the cuts, of a call that takes a number and of a command; gives how many stores were made. */
uint32_t both_raise(struct random *random, uint8_t *image, size_t image_length, uint8_t entry, uint32_t number, uint32_t stores);
uint32_t both_cut_command(struct random *random, struct input *input, uint32_t stores);

/* Ends the program with 1 and a sentence, and where the run stands. */
void both_fail(const char *sentence);

#endif
