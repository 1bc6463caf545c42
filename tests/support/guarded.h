/* Memory to lend to the module, watched on both sides.
 *
 * A range lies at one end of an area of whole pages. On that side the next octet belongs to a page that cannot be touched, so that a read
 * or a write there ends the program at once; on the other side stand guard octets, which are compared after the call. Runs choose the end
 * at random, so each side gets both. Under valgrind the guard octets may not be read either, and AddressSanitizer forbids them to code that
 * is built with it. A range that must not be written can be lent from read-only pages. */
#ifndef GUARDED_H
#define GUARDED_H

#include <stdbool.h>
#include <stddef.h>
#include <stdint.h>

struct guarded {
    uint8_t *area;
    size_t room;
    uint8_t *range;
    size_t length;
    bool is_read_only;
};

/* Maps an area with room for ranges of up to 4,096 octets. Ends the program where that fails. */
struct guarded guarded_new(void);

/* Lends a copy of the content. Before the next call the range is to be taken back. */
enum lend_end { LEND_AT_START, LEND_AT_END };
enum lend_access { LEND_WRITABLE, LEND_READ_ONLY };
uint8_t *guarded_lend(struct guarded *guarded, const void *content, size_t length, enum lend_end end, enum lend_access access);

/* Ends the loan; false where a guard octet was changed. The range can then be read until the next loan. */
bool guarded_take_back(struct guarded *guarded);

/* Tells valgrind that the range's octets are not to be relied on: an answer that depends on them is then reported. */
void guarded_forget(struct guarded *guarded);

/* Makes the range's pages read-only, or writable again. */
void guarded_protect(struct guarded *guarded, enum lend_access access);

#endif
