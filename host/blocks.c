/* A block taken apart. */
#include "blocks.h"

#include <string.h>

bool is_block(const uint8_t *record) {
    return record[0] == BTS_BLOCK_READ || record[0] == BTS_BLOCK_WRITE;
}

uint32_t parts_of(const uint8_t *record) {
    return is_block(record) ? bts_get32(record + 8) : 1;
}

/* The addresses rise modulo 2^32, as the sum of two numbers of 32 bits does by itself. */
void part_at(const uint8_t *record, uint32_t i, uint8_t part[BTS_RECORD_SIZE]) {
    memcpy(part, record, BTS_RECORD_SIZE);
    if (!is_block(record)) {
        return;
    }
    part[0] = record[0] == BTS_BLOCK_READ ? BTS_READ : BTS_WRITE;
    bts_put32(part + 4, (bts_get32(record + 4) & ~3u) + 4 * i);
    bts_put32(part + 8, 0);
}
