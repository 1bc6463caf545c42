/* Document 01, 'Frames', and document 02, requests 1, 4 and 6: the three headers, bit after bit, and the rules of answer 3. */
#include "reading.h"

/* 'the first bit is the most significant' */
struct bits {
    const uint8_t *octets;
    size_t next;
};

static unsigned take(struct bits *bits, unsigned width)
{
    unsigned value = 0;
    for (unsigned i = 0; i < width; i++, bits->next++) {
        unsigned octet = bits->octets[bits->next / 8];
        unsigned bit = (octet >> (7 - bits->next % 8)) & 1u;
        value = value * 2 + bit;
    }
    return value;
}

/* 'version 2 bits (0), bypass 1, control 1 (0 here), spare 2 (0), spacecraft 10, virtual channel 6, length 10 (all octets of the frame less
 * one), frame sequence 8. With segment header: one octet more, flags 2 and MAP 6.' */
static bool read_tc_header(bool has_segment_header, const uint8_t *frame, size_t length, struct header *header)
{
    struct bits bits = {frame, 0};
    unsigned version = take(&bits, 2);
    take(&bits, 1); /* bypass may hold anything */
    unsigned control = take(&bits, 1);
    unsigned spare = take(&bits, 2);
    header->spacecraft = take(&bits, 10);
    header->channel = take(&bits, 6);
    unsigned length_field = take(&bits, 10);
    take(&bits, 8); /* frame sequence may hold anything */
    header->map = 0;
    if (has_segment_header) {
        take(&bits, 2); /* flags may hold anything */
        header->map = take(&bits, 6);
    }
    header->trailer = 0;
    return version == 0 && control == 0 && spare == 0 && length_field == length - 1;
}

/* Document 02, request 6: 'the first octet after the primary header then has version 2 bits 0 and 6 bits holding the header's length less
 * one, 1 to 63. It lies between primary and security header', so it is counted in h. */
static bool read_secondary_header(struct bits *bits, size_t length, struct header *header)
{
    if (bits->next / 8 == length) {
        return false;
    }
    unsigned version = take(bits, 2);
    unsigned less_one = take(bits, 6);
    header->length += less_one + 1;
    return version == 0 && less_one >= 1;
}

/* 'version 2 (0), spacecraft 10, virtual channel 3, OCF flag 1, two counts of 8, data field status 16, whose first bit' is the header flag */
static bool read_tm_header(const uint8_t *frame, size_t length, struct header *header)
{
    struct bits bits = {frame, 0};
    unsigned version = take(&bits, 2);
    header->spacecraft = take(&bits, 10);
    header->channel = take(&bits, 3);
    unsigned ocf_flag = take(&bits, 1);
    take(&bits, 8); /* the two counts */
    take(&bits, 8);
    unsigned header_flag = take(&bits, 1);
    take(&bits, 15); /* the rest of the status */
    header->map = 0;
    header->trailer = ocf_flag == 1 ? 4 : 0;
    return version == 0 && (header_flag == 0 || read_secondary_header(&bits, length, header));
}

/* Document 02, request 1: 'version bits 01, spacecraft 8 bits, channel 6, frame count 24, signalling 8, the last two free', 'no OCF' */
static bool read_aos_header(const uint8_t *frame, struct header *header)
{
    struct bits bits = {frame, 0};
    unsigned version = take(&bits, 2);
    header->spacecraft = take(&bits, 8);
    header->channel = take(&bits, 6);
    header->map = 0;
    header->trailer = 0;
    return version == 1;
}

static bool read_fields(unsigned kind, const uint8_t *frame, size_t length, struct header *header)
{
    switch (kind) {
    case 3:
        return read_tm_header(frame, length, header);
    case 4:
        return read_aos_header(frame, header);
    default:
        return read_tc_header(kind == 2, frame, length, header);
    }
}

/* The header rules, the length field, and 'above largest'. A frame too short to hold its header is below every size that is asked for. A
 * check field: 'for kind 4 that gives 3. Then f grows by 2'. */
static bool read_header(unsigned kind, bool has_field, const uint8_t *frame, size_t length, struct header *header)
{
    switch (kind) {
    case 1:
        header->length = 5;
        header->largest = 1024;
        break;
    case 2:
        header->length = 6;
        header->largest = 1024;
        break;
    case 3:
    case 4:
        header->length = 6;
        header->largest = 2048;
        break;
    default:
        return false;
    }
    if (length < header->length || length > header->largest || !read_fields(kind, frame, length, header)) {
        return false;
    }
    header->has_field = has_field;
    header->trailer += has_field ? CHECK_FIELD_LENGTH : 0;
    return !(kind == 4 && has_field);
}

/* 'length 10 (all octets of the frame less one)' is a field of TC alone. */
bool has_length_field(unsigned kind)
{
    return kind == 1 || kind == 2;
}

/* 'clear below h+1+f' */
bool read_clear_frame(unsigned kind, bool has_field, const uint8_t *frame, size_t length, struct header *header)
{
    return read_header(kind, has_field, frame, length, header) && length >= header->length + 1 + header->trailer;
}

/* 'secured below h+2+f' */
bool read_secured_frame(unsigned kind, bool has_field, const uint8_t *frame, size_t length, struct header *header)
{
    return read_header(kind, has_field, frame, length, header) && length >= header->length + 2 + header->trailer;
}

void write_tc_length(uint8_t *frame, size_t length)
{
    size_t field = length - 1;
    frame[2] = (uint8_t)((frame[2] & 0xFC) | ((field >> 8) & 0x03));
    frame[3] = (uint8_t)(field & 0xFF);
}
