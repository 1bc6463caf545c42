/* Random associations, images and frames, with a liking for limits. */
#ifndef WORLDS_H
#define WORLDS_H

#include "both.h"

/* One end of a link: an image that breaks no rule, numbers that agree with it, and notes. */
struct end {
    uint8_t image[LARGEST_IMAGE];
    size_t image_length;
    uint32_t numbers[NUMBER_COUNT];
    struct record record;
};

/* Two ends with the same associations, direction 2 for 1; windows, states, marks and owners are each end's own. Each image is of version 1 to 4;
 * where the versions differ, and sometimes where they do not, TM associations have other channels there, one of them the same. From version 3 on
 * both ends have the same key octets, under IDs of their own and in states of their own, more of them than are named in some worlds; where
 * both are of version 3 or 4, associations may share a key. A body that is not operational may name any key, or one that is not there. */
struct world {
    struct end ends[2];
};

void make_world(struct random *random, struct world *world, size_t count);

/* Notes and a list of events: mostly fresh ones with a list for 256; some with a list of any length from 0 to 800, with a log that is nearly full, or
 * full and more, or close to where it counts no further, or with any octets at all. */
enum { LONGEST_LIST = 800 };
void any_record(struct random *random, struct record *record);

/* The table of an end's image. */
void table_of(const struct end *end, struct table *table);

/* Writes a table into an end. */
void set_table(struct end *end, const struct table *table);

/* Sets one entry's number, and its mark to agree. */
void set_number(struct end *end, size_t entry, uint32_t number);

/* A window that the association's state allows, at limits more often than not. */
void any_window(struct random *random, struct association *association);

/* A channel that an association serves. */
unsigned any_channel(struct random *random, const struct association *association);

/* A desk: mostly one that sees the association, else the other one, or one that there is not. */
uint8_t any_desk(struct random *random, const struct association *association);

/* Lets an association serve, with this key: its state, a window, and from version 3 on the ID of a key with these octets, which becomes active.
 * False, with nothing changed, where a key part holds no such key. */
bool bring_to_service(struct random *random, struct table *table, size_t entry, const uint8_t key[KEY_LENGTH]);

/* Makes every association but one anew, with the same SPIs and with numbers that agree; from version 3 on, for sending and checking, also the octets
 * of every key but that association's. The image breaks no rule, before and after. */
void change_others(struct random *random, struct input *input, size_t kept);

/* The same of every association that the input's desk does not see, with the same owners, and the key part as it is. */
void change_unseen(struct random *random, struct input *input);

/* Whether two associations make the IV of a number alike, if their service has one. */
bool make_iv_alike(const struct association *one, const struct association *other);

/* A clear frame that matches the association, of any of its channels, with this many octets of data, and its length; a check field at its end
 * if it is to have one, which is then right. Where a secondary header takes room in a long frame, there are fewer octets of data. */
size_t make_clear_frame(struct random *random, const struct association *association, bool has_field, size_t data_length, uint8_t *frame);

/* A number of data octets from 1, such that most secured frames are small and some are around the largest. */
size_t any_data_length(struct random *random, const struct association *association);

/* Sets the input's image, numbers and notes to an end's; the desk is the key office's, which sees all. */
void input_of_end(struct input *input, enum which_call which, const struct end *end);

/* Keeps for the end what the module left in the input; of a call that was refused, or made with another image, its notes alone. */
void end_of_input(struct end *end, const struct input *input);
void notes_of_input(struct end *end, const struct input *input);

#endif
