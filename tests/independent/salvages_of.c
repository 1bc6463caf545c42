/* Writes what crates/salvage_cases has to write for the cases on standard input, by the independent reading: of each case its name, the lines
 * for standard error, and the image in hexadecimal. */
#include "reading.h"

#include <stdio.h>
#include <string.h>

enum { INPUT_ROOM = 1850, LINE_ROOM = 2 * INPUT_ROOM + 2 };

static size_t octets_in(const char *line, uint8_t *octets)
{
    size_t count = 0;
    unsigned value;
    while (count < INPUT_ROOM && sscanf(line + 2 * count, "%2x", &value) == 1) {
        octets[count++] = (uint8_t)value;
    }
    return count;
}

int main(void)
{
    char line[LINE_ROOM];
    uint8_t octets[INPUT_ROOM];
    struct salvage salvage;
    while (fgets(line, sizeof line, stdin) != NULL) {
        if (line[0] == '#') {
            fputs(line, stdout);
            continue;
        }
        salvage_of(octets, octets_in(line, octets), &salvage);
        fputs(salvage.lines, stdout);
        for (size_t i = 0; i < salvage.length; i++) {
            printf("%02x", salvage.image[i]);
        }
        putchar('\n');
    }
    return ferror(stdin) || fflush(stdout) == EOF ? 2 : 0;
}
