/* Records that break no rule, from the seed of trial.h: they lean on each other, so that the prefetch is hit and rows of accesses
 * come about, and lie in every area and at the ends of areas. */
#ifndef TESTS_RECORDS_H
#define TESTS_RECORDS_H

#include "bts.h"
#include "trial.h"

/* Where opcodes and fetches go on, and data accesses too. */
static uint32_t trail = 0x08000100;

static inline uint32_t any_address(uint8_t size) {
    static const uint32_t ends[] = {0x4000, 0x02040000, 0x04000204, 0x04000800, 0x06010000, 0x06014000, 0x08020000, 0x0A000000,
                                    0x0E000000, 0x10000000, 0};
    switch (below(9)) {
    case 0:
        return below(17) << 24 | below(0x300);
    case 1:
        return ends[below(sizeof ends / sizeof ends[0])] - 4 + below(8);
    case 2:
        trail = 0x08000000 + (below(6) << 24) + 0x20 * below(8);
        break;
    case 3:
        return trail - 2; /* an ARM opcode there has its second half where the prefetch stands */
    default:
        break;
    }
    trail += size;
    return trail - size;
}

/* Record k of a sheet. */
static inline void put_any_record(uint8_t *sheet, size_t k) {
    static const uint8_t kinds[] = {BTS_READ,  BTS_READ,  BTS_WRITE,       BTS_WRITE,       BTS_WAITCNT,     BTS_IDLE, BTS_IDLE,
                                    BTS_FETCH, BTS_FETCH, BTS_INSTRUCTION, BTS_INSTRUCTION, BTS_INSTRUCTION, BTS_PC,   BTS_LATCH,
                                    BTS_RESTART};
    uint8_t kind = kinds[below(sizeof kinds)], size = 0;
    bool data = kind == BTS_READ || kind == BTS_WRITE, opcode = kind == BTS_INSTRUCTION;
    bool placed = data || opcode || kind == BTS_FETCH || kind == BTS_RESTART || kind == BTS_PC;
    uint32_t value = opcode || kind == BTS_WRITE || kind == BTS_LATCH ? any_number() : kind == BTS_IDLE ? below(30) : 0;
    if (data || opcode) {
        size = opcode ? (uint8_t)(2 << below(2)) : (uint8_t)(1 << below(3));
    }
    if (kind == BTS_WAITCNT) {
        value = below(0x10000) | below(2) << 14; /* with the prefetch on more often than not */
    }
    uint32_t address = placed ? any_address(kind == BTS_FETCH ? 2 : size) : 0;
    bts_put_record(sheet, k, kind, size, opcode ? (uint8_t)below(2) : 0, address, value);
}

#endif
