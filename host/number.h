/* Numbers as a person writes them, in a listing and on the command line. */
#ifndef HOST_NUMBER_H
#define HOST_NUMBER_H

#include <stdbool.h>
#include <stddef.h>
#include <stdint.h>

#define NUMBER_MOST 0xFFFFFFFFu

/* Decimal, or hexadecimal behind 0x; a leading 0 changes nothing. What is over NUMBER_MOST comes out as NUMBER_MOST + 1, however
 * long it is. False where the characters are no number. */
bool read_number(const char *at, size_t len, uint64_t *value);

#endif
