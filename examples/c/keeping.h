/* One end of a link whose image is kept where it outlives a loss of power, in one of two ways: in a file, or in memory that is written one
 * octet at a time and lasts at once (FRAM, MRAM), behind a driver.
 *
 * A third way needs no code: where such memory can be addressed as it is, lend the module that memory itself.
 *
 *     kept_start_from_file(&kept, "image")                       once, after every start: reads the image and loads it
 *     result = xistalvo_secure(kept.image, kept.length, kept.numbers, ..)
 *     if (XISTALVO_ANSWER(result) == XISTALVO_DONE && kept_in_file(&kept, "image"))
 *         send(..)                                               or, after a check: use the data; after a command: send the reply
 *
 * Where keeping fails, nothing may be sent or used: the number is lost, and no harm done. The next call keeps what this one could not. */
#ifndef KEEPING_H
#define KEEPING_H

#include "xistalvo.h"

#include <stdbool.h>

struct kept {
    uint8_t image[XISTALVO_LARGEST_IMAGE];   /* what the module is lent */
    uint8_t lasting[XISTALVO_LARGEST_IMAGE]; /* what the storage holds */
    size_t length;
    uint32_t numbers[XISTALVO_NUMBERS];      /* in memory alone */
};

/* Reads the image from the file, or takes it from what was read out of the memory, and loads it. False where that fails. */
bool kept_start_from_file(struct kept *kept, const char *path);
bool kept_start(struct kept *kept, const uint8_t *image, size_t length);

/* Brings the file up to the image, and returns when that lasts: a new file beside it, flushed, takes its name, and the folder is flushed. A
 * loss of power leaves the old image, which is the cut before the first store, or the new one. Where no octet was stored since the last
 * time, nothing is written. False where it could not be done. */
bool kept_in_file(struct kept *kept, const char *path);

/* The same for memory behind a driver, which writes one octet and returns when it lasts. The stores are made in the module's own order, one
 * by one, so that a loss of power leaves the image after the first j of them. Where several commands could not be kept before, an association
 * whose window or key changed, or that left operation, is stored as such first, then the states of keys, then the rest, so that each octet
 * leaves an image that loads. */
typedef bool store_octet(void *driver, size_t address, uint8_t octet);
bool kept_in_memory(struct kept *kept, store_octet *store, void *driver);

#endif
