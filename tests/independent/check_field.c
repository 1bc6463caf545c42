/* Document 02, request 4: 'a 16-bit CRC at the end of TC and TM frames, .. generator x^16 + x^12 + x^5 + 1, register preset to all ones, as
 * CCSDS 232.0 and 132.0 give it'. The register of the standards' figure, bit after bit: no table. */
#include "reading.h"

/* 'the first bit is the most significant': it meets the cell of x^15, and what leaves there comes back at x^12, x^5 and x^0. */
uint16_t check_field_of(const uint8_t *octets, size_t length)
{
    bool cells[16];
    for (unsigned power = 0; power < 16; power++) {
        cells[power] = true;
    }
    for (size_t bit = 0; bit < 8 * length; bit++) {
        bool enters = ((octets[bit / 8] >> (7 - bit % 8)) & 1) != 0;
        bool returns = cells[15] != enters;
        for (unsigned power = 15; power > 0; power--) {
            cells[power] = cells[power - 1];
        }
        cells[0] = returns;
        cells[5] = cells[5] != returns;
        cells[12] = cells[12] != returns;
    }
    unsigned field = 0;
    for (unsigned power = 0; power < 16; power++) {
        field += cells[power] ? 1u << power : 0u;
    }
    return (uint16_t)field;
}

bool check_field_is_right(const uint8_t *frame, size_t length)
{
    return length >= CHECK_FIELD_LENGTH
        && check_field_of(frame, length - CHECK_FIELD_LENGTH) == frame[length - 2] * 256u + frame[length - 1];
}

void write_check_field(uint8_t *frame, size_t length)
{
    unsigned field = check_field_of(frame, length - CHECK_FIELD_LENGTH);
    frame[length - 2] = (uint8_t)(field >> 8);
    frame[length - 1] = (uint8_t)field;
}
