/* A block taken apart: the READ or WRITE steps of a word each that it stands for. What is told of a step beyond its answer is told
 * of these, so that nothing else here knows of blocks. */
#ifndef HOST_BLOCKS_H
#define HOST_BLOCKS_H

#include <stdbool.h>
#include <stdint.h>

#include "bts.h"

bool is_block(const uint8_t *record);

/* How many steps the record of an accepted sheet stands for: the words of a block, and itself alone if it is none. */
uint32_t parts_of(const uint8_t *record);

/* The record of part i, from 0. */
void part_at(const uint8_t *record, uint32_t i, uint8_t part[BTS_RECORD_SIZE]);

#endif
