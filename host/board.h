/* What makes a board sound, rule by rule: the run says only that one of them is broken. */
#ifndef HOST_BOARD_H
#define HOST_BOARD_H

#include <stddef.h>
#include <stdint.h>

/* The first rule that the board breaks, as a sentence without its full stop; NULL where the board is sound. */
const char *board_fault(const uint8_t *board, size_t len);

#endif
