/* The memory map: the area that an address lies in, and the byte of the lent memories that stands there. Alignment is the
 * caller's: an address is taken as it is. */
#ifndef HOST_MAP_H
#define HOST_MAP_H

#include <stdbool.h>
#include <stddef.h>
#include <stdint.h>

enum area { AT_BIOS, AT_UNUSED, AT_EWRAM, AT_IWRAM, AT_IO, AT_PALETTE, AT_VRAM, AT_OAM, AT_ROM, AT_SRAM };

enum area area_of(uint32_t address);

/* The ROM window of an address, from 0; -1 outside. */
int window_of(uint32_t address);

/* Whether a block of 128 KiB begins at an address: in ROM nothing is sequential there. */
bool begins_block(uint32_t address);

/* A byte of a memory at its physical size; a memory that is lent short may end before it. */
struct place {
    size_t memory; /* as store.h numbers them */
    size_t offset;
};

/* The byte that stands at an address, mirrors included. False where a store has no memory: BIOS, ROM, unused areas, and the gaps
 * of I/O. */
bool place_of(uint32_t address, struct place *place);

#endif
