/* Document 01, 'The listing program'. */
#include "reading.h"

#include <inttypes.h>
#include <stdio.h>
#include <string.h>

/* 'SPI, service, kind, direction, state, window in decimal, and next = 64m + 64, or `none` where that exceeds 4,294,967,295' */
static int entry_line(const struct association *entry, char *to, size_t room)
{
    uint64_t next = 64 * (uint64_t)entry->mark + 64;
    char next_text[24] = "none";
    if (next <= UINT32_MAX) {
        snprintf(next_text, sizeof next_text, "%" PRIu64, next);
    }
    return snprintf(to, room, "%u %u %u %u %u %u %s\n", entry->spi, entry->service, entry->kind, entry->direction, entry->state,
                    entry->window, next_text);
}

void listing_text(const uint8_t *image, size_t length, char text[LISTING_ROOM])
{
    struct table table;
    if (!read_image(image, length, &table)) {
        strcpy(text, "refused 1\n");
        return;
    }
    strcpy(text, "spi service kind direction state window next\n");
    size_t at = strlen(text);
    for (size_t i = 0; i < table.count; i++) {
        at += (size_t)entry_line(&table.entries[i], text + at, LISTING_ROOM - at);
    }
}
