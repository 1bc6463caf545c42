/* Octets that a test states in hexadecimal, as the papers write them. */
#ifndef HEXADECIMAL_H
#define HEXADECIMAL_H

#include <stddef.h>
#include <stdint.h>

/* The octets that two digits each spell; spaces may stand between them. How many there are. */
size_t octets_of(const char *hex, uint8_t *octets);

#endif
