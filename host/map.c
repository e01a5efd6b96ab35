/* The memory map. */
#include "map.h"

#include "bts.h"
#include "store.h"

enum area area_of(uint32_t address) {
    static const enum area by_page[16] = {AT_UNUSED, AT_UNUSED, AT_EWRAM, AT_IWRAM, AT_IO,  AT_PALETTE, AT_VRAM, AT_OAM,
                                          AT_ROM,    AT_ROM,    AT_ROM,   AT_ROM,   AT_ROM, AT_ROM,     AT_SRAM, AT_SRAM};
    if (address < BTS_BIOS_SIZE) {
        return AT_BIOS;
    }
    return address >> 24 < 16 ? by_page[address >> 24] : AT_UNUSED;
}

int window_of(uint32_t address) {
    return area_of(address) == AT_ROM ? (int)(address >> 25) - 4 : -1;
}

bool begins_block(uint32_t address) {
    return address % 0x20000 == 0;
}

/* The registers, and the memory control word, which alone is there again every 64 KiB. */
static bool has_io(uint32_t address) {
    uint32_t offset = address & 0xFFFF;
    return address < 0x04000400 || (offset >= 0x800 && offset < BTS_IO_SIZE);
}

/* VRAM is mirrored in blocks of 128 KiB, whose last quarter is the third once more. */
static size_t offset_in(size_t memory, uint32_t address) {
    uint32_t block = address & 0x1FFFF;
    switch (memory) {
    case IO:
        return address & 0xFFFF;
    case VRAM:
        return block < BTS_VRAM_SIZE ? block : block - 0x8000;
    default:
        return address % memory_at(memory)->physical;
    }
}

bool place_of(uint32_t address, struct place *place) {
    static const int memories[] = {[AT_BIOS] = -1,    [AT_UNUSED] = -1,       [AT_EWRAM] = EWRAM, [AT_IWRAM] = IWRAM,
                                   [AT_IO] = IO,      [AT_PALETTE] = PALETTE, [AT_VRAM] = VRAM,   [AT_OAM] = OAM,
                                   [AT_ROM] = -1,     [AT_SRAM] = SRAM};
    int memory = memories[area_of(address)];
    if (memory < 0 || (memory == IO && !has_io(address))) {
        return false;
    }
    *place = (struct place){(size_t)memory, offset_in((size_t)memory, address)};
    return true;
}
