#include "hexadecimal.h"

#include <stdlib.h>

size_t octets_of(const char *hex, uint8_t *octets)
{
    size_t length = 0;
    for (; hex[0] != '\0'; hex += hex[0] == ' ' ? 1 : 2) {
        if (hex[0] != ' ') {
            char pair[] = {hex[0], hex[1], '\0'};
            octets[length++] = (uint8_t)strtoul(pair, NULL, 16);
        }
    }
    return length;
}
