/* For processors of 32 bits: the module takes every length as 64 bits, and C callers pass a size_t. tools/port gives the module's own
 * functions the names that are declared here, so that a program which leaves this file out does not link. */
#include "xistalvo.h"

uint64_t xistalvo64_load(const uint8_t *image, uint64_t image_length, uint32_t *numbers, uint64_t numbers_length);
uint64_t xistalvo64_secure(uint8_t *image, uint64_t image_length, uint32_t *numbers, uint64_t numbers_length, uint8_t desk, uint8_t kind,
                           uint8_t check_field, uint16_t spi, const uint8_t *frame, uint64_t frame_length, uint8_t *output,
                           uint64_t output_length);
uint64_t xistalvo64_check(xistalvo_notes *notes, uint8_t *events, uint64_t events_length, uint8_t *image, uint64_t image_length, uint32_t *numbers,
                          uint64_t numbers_length, uint8_t desk, uint8_t kind, uint8_t check_field, const uint8_t *frame, uint64_t frame_length,
                          uint8_t *output, uint64_t output_length);
uint64_t xistalvo64_ground_secure(uint8_t *image, uint64_t image_length, uint32_t *numbers, uint64_t numbers_length, uint8_t desk, uint8_t kind,
                                  uint8_t check_field, uint16_t spi, const uint8_t *frame, uint64_t frame_length, uint8_t *output,
                                  uint64_t output_length);
uint64_t xistalvo64_ground_check(xistalvo_notes *notes, uint8_t *events, uint64_t events_length, uint8_t *image, uint64_t image_length,
                                 uint32_t *numbers, uint64_t numbers_length, uint8_t desk, uint8_t kind, uint8_t check_field, const uint8_t *frame,
                                 uint64_t frame_length, uint8_t *output, uint64_t output_length);
uint64_t xistalvo64_command(xistalvo_notes *notes, uint8_t *events, uint64_t events_length, uint8_t *image, uint64_t image_length,
                            uint32_t *numbers, uint64_t numbers_length, uint8_t desk, const uint8_t *command, uint64_t command_length,
                            uint8_t *output, uint64_t output_length);
void xistalvo64_fresh_notes(xistalvo_notes *notes);
uint32_t xistalvo64_raise(uint8_t *image, uint64_t image_length, uint8_t entry, uint32_t number, uint32_t stores);
uint32_t xistalvo64_command_cut(uint8_t *image, uint64_t image_length, const uint32_t *numbers, uint64_t numbers_length, uint8_t desk,
                                const uint8_t *command, uint64_t command_length, uint64_t output_length, uint32_t stores);

_Static_assert(sizeof(size_t) == 4, "where a size_t has 64 bits, the module's functions are the header's");

uint64_t xistalvo_load(const uint8_t *image, size_t image_length, uint32_t *numbers, size_t numbers_length)
{
    return xistalvo64_load(image, image_length, numbers, numbers_length);
}

uint64_t xistalvo_secure(uint8_t *image, size_t image_length, uint32_t *numbers, size_t numbers_length, uint8_t desk, uint8_t kind,
                         uint8_t check_field, uint16_t spi, const uint8_t *frame, size_t frame_length, uint8_t *output, size_t output_length)
{
    return xistalvo64_secure(image, image_length, numbers, numbers_length, desk, kind, check_field, spi, frame, frame_length, output,
                             output_length);
}

uint64_t xistalvo_check(xistalvo_notes *notes, uint8_t *events, size_t events_length, uint8_t *image, size_t image_length, uint32_t *numbers,
                        size_t numbers_length, uint8_t desk, uint8_t kind, uint8_t check_field, const uint8_t *frame, size_t frame_length,
                        uint8_t *output, size_t output_length)
{
    return xistalvo64_check(notes, events, events_length, image, image_length, numbers, numbers_length, desk, kind, check_field, frame, frame_length,
                            output, output_length);
}

uint64_t xistalvo_ground_secure(uint8_t *image, size_t image_length, uint32_t *numbers, size_t numbers_length, uint8_t desk, uint8_t kind,
                                uint8_t check_field, uint16_t spi, const uint8_t *frame, size_t frame_length, uint8_t *output,
                                size_t output_length)
{
    return xistalvo64_ground_secure(image, image_length, numbers, numbers_length, desk, kind, check_field, spi, frame, frame_length, output,
                                    output_length);
}

uint64_t xistalvo_ground_check(xistalvo_notes *notes, uint8_t *events, size_t events_length, uint8_t *image, size_t image_length,
                               uint32_t *numbers, size_t numbers_length, uint8_t desk, uint8_t kind, uint8_t check_field, const uint8_t *frame,
                               size_t frame_length, uint8_t *output, size_t output_length)
{
    return xistalvo64_ground_check(notes, events, events_length, image, image_length, numbers, numbers_length, desk, kind, check_field, frame,
                                   frame_length, output, output_length);
}

uint64_t xistalvo_command(xistalvo_notes *notes, uint8_t *events, size_t events_length, uint8_t *image, size_t image_length, uint32_t *numbers,
                          size_t numbers_length, uint8_t desk, const uint8_t *command, size_t command_length, uint8_t *output,
                          size_t output_length)
{
    return xistalvo64_command(notes, events, events_length, image, image_length, numbers, numbers_length, desk, command, command_length, output,
                              output_length);
}

void xistalvo_fresh_notes(xistalvo_notes *notes)
{
    xistalvo64_fresh_notes(notes);
}

uint32_t xistalvo_raise(uint8_t *image, size_t image_length, uint8_t entry, uint32_t number, uint32_t stores)
{
    return xistalvo64_raise(image, image_length, entry, number, stores);
}

uint32_t xistalvo_command_cut(uint8_t *image, size_t image_length, const uint32_t *numbers, size_t numbers_length, uint8_t desk,
                              const uint8_t *command, size_t command_length, size_t output_length, uint32_t stores)
{
    return xistalvo64_command_cut(image, image_length, numbers, numbers_length, desk, command, command_length, output_length, stores);
}
