/* The lines of docs/DIFFERENCES.md that touch READ and WRITE. The words of a block are seen as these. */
#include "departs.h"

#define IO_AT(offset) (0x04000000u + (offset))

static bool reads(const struct seen *s) {
    return s->kind == BTS_READ;
}

static bool writes(const struct seen *s) {
    return s->kind == BTS_WRITE;
}

static bool accesses(const struct seen *s) {
    return reads(s) || writes(s);
}

static uint32_t last_byte(const struct seen *s) {
    return s->first + s->size - 1u;
}

/* ---- unused areas and I/O */

bool open_bus(const struct seen *s) {
    return reads(s) && s->area == AT_UNUSED;
}

bool unused_io(const struct seen *s) {
    return reads(s) && s->area == AT_IO && s->first >= IO_AT(0x400) && !meets_control(s);
}

struct range {
    uint32_t first, last;
};

static bool within(const struct range *ranges, size_t count, uint32_t offset) {
    for (size_t i = 0; i < count; i++) {
        if (offset >= ranges[i].first && offset <= ranges[i].last) {
            return true;
        }
    }
    return false;
}

/* The halfwords of I/O that can be read, by GBATEK as remembered. */
static bool readable(uint32_t offset) {
    static const struct range ranges[] = {
        {0x000, 0x00F}, {0x048, 0x04B}, {0x050, 0x053}, {0x060, 0x065}, {0x068, 0x069}, {0x06C, 0x06D}, {0x070, 0x075},
        {0x078, 0x079}, {0x07C, 0x07D}, {0x080, 0x085}, {0x088, 0x089}, {0x090, 0x09F}, {0x0BA, 0x0BB}, {0x0C6, 0x0C7},
        {0x0D2, 0x0D3}, {0x0DE, 0x0DF}, {0x100, 0x10F}, {0x120, 0x12B}, {0x130, 0x135}, {0x140, 0x141}, {0x150, 0x159},
        {0x200, 0x205}, {0x208, 0x209}, {0x300, 0x301},
    };
    return within(ranges, sizeof ranges / sizeof ranges[0], offset);
}

/* A load that lies in the registers; it may begin at an odd address. */
static bool reads_registers(const struct seen *s) {
    return reads(s) && s->first >= IO_AT(0) && s->first < IO_AT(0x400);
}

bool dead_io_word(const struct seen *s) {
    uint32_t word = s->first & 0x3FC;
    return reads_registers(s) && !readable(word) && !readable(word + 2);
}

/* A word load meets both halves, so it meets the dead one. */
bool dead_io_half(const struct seen *s) {
    uint32_t word = s->first & 0x3FC;
    uint32_t half = s->first & 0x3FE;
    bool one = readable(word) != readable(word + 2);
    return reads_registers(s) && one && (s->size == 4 || !readable(half));
}

/* Registers with bits that can't be stored, or that the hardware moves. */
bool live_io(const struct seen *s) {
    static const struct range ranges[] = {
        {0x004, 0x007}, {0x060, 0x085}, {0x100, 0x10F}, {0x120, 0x12B}, {0x130, 0x131}, {0x134, 0x135}, {0x150, 0x159},
    };
    size_t count = sizeof ranges / sizeof ranges[0];
    bool here = accesses(s) && s->first >= IO_AT(0) && s->first < IO_AT(0x400);
    return here && (within(ranges, count, s->first & 0x3FF) || within(ranges, count, last_byte(s) & 0x3FF));
}

/* But for 0x204 and 0x301, which have lines of their own. */
bool io_store(const struct seen *s) {
    return writes(s) && (meets(s, IO_AT(0), IO_AT(0x203)) || meets(s, IO_AT(0x206), IO_AT(0x300)) ||
                         meets(s, IO_AT(0x302), IO_AT(0x3FF)));
}

bool halt(const struct seen *s) {
    return meets(s, IO_AT(0x301), IO_AT(0x301));
}

bool unnamed_port(const struct seen *s) {
    return meets(s, IO_AT(0x410), IO_AT(0x410));
}

/* ---- the memory control word */

/* As the hardware has it: its start value, until it is stored. */
static uint32_t control(const struct seen *s) {
    return s->past.control_stored ? s->before.control : 0x0D000020;
}

static bool in_ram(const struct seen *s, enum area area) {
    return s->area == area && (accesses(s) || s->kind == BTS_INSTRUCTION);
}

bool control_start(const struct seen *s) {
    return reads(s) && meets_control(s) && !s->past.control_stored;
}

bool control_waits(const struct seen *s) {
    bool stored = writes(s) && meets_control(s) && (s->after.control >> 24 & 0xF) != 0xD;
    return stored || (in_ram(s, AT_EWRAM) && (control(s) >> 24 & 0xF) != 0xD);
}

bool control_map(const struct seen *s) {
    uint32_t word = writes(s) && meets_control(s) ? s->after.control : control(s);
    bool away = (word & 1) != 0;
    bool moved = (word & 0x20) == 0;
    bool ewram = in_ram(s, AT_EWRAM) && (away || moved);
    return ewram || (in_ram(s, AT_IWRAM) && away) || (writes(s) && meets_control(s) && (away || moved));
}

bool control_bits(const struct seen *s) {
    return accesses(s) && meets_control(s) && (s->after.control & 0x00FFFFD0) != 0;
}

/* ---- 0x04000204 */

/* A step whose price, or whose fill, the waits decide. */
static bool by_waits(const struct seen *s) {
    bool cartridge = s->area == AT_ROM || s->area == AT_SRAM;
    return s->kind == BTS_INSTRUCTION ? s->area == AT_ROM || s->before.filling
                                      : (accesses(s) && cartridge) || (s->kind == BTS_IDLE && s->before.on);
}

/* The store itself, and what comes behind it as long as no WAITCNT step has said the same. */
bool waits_by_store(const struct seen *s) {
    bool stored = writes(s) && meets(s, IO_AT(0x204), IO_AT(0x205));
    bool other = s->past.waits_stored && ((s->before.stored_waits ^ s->before.waitcnt) & 0x5FFF) != 0;
    return stored || (other && by_waits(s));
}

bool waits_by_load(const struct seen *s) {
    return reads(s) && meets(s, IO_AT(0x204), IO_AT(0x205));
}

/* ---- the cartridge */

bool empty_cartridge(const struct seen *s) {
    bool load = reads(s) && (s->area == AT_ROM || area_of(last_byte(s)) == AT_ROM);
    return s->lengths.rom == 0 && (load || (s->kind == BTS_FETCH && s->answer.hits > 0));
}

/* A byte from `address` on to `size` behind it lies behind the image. */
static bool behind_image(const struct seen *s, uint32_t address, uint32_t size) {
    return (address & (BTS_ROM_SIZE - 1)) + size > s->lengths.rom;
}

bool past_rom(const struct seen *s) {
    bool load = reads(s) && s->area == AT_ROM && behind_image(s, s->first, s->size);
    bool fetch = s->kind == BTS_FETCH && s->answer.hits > 0 && behind_image(s, s->address & ~1u, 2);
    return s->lengths.rom > 0 && (load || fetch);
}

/* Flash by the places of its commands, EEPROM by its place in window 2, pins by their addresses, and any store to ROM. */
bool other_chips(const struct seen *s) {
    uint32_t offset = s->address & 0xFFFF;
    bool flash = accesses(s) && s->area == AT_SRAM && (offset == 0x5555 || offset == 0x2AAA);
    bool eeprom = accesses(s) && s->address >> 24 == 0x0D;
    return flash || eeprom || (writes(s) && s->area == AT_ROM) || meets(s, 0x080000C4, 0x080000C9);
}

/* ---- BIOS */

static bool reads_bios(const struct seen *s) {
    return reads(s) && meets(s, 0, BTS_BIOS_SIZE - 1);
}

static bool is_closed(const struct seen *s) {
    return s->before.pc >= BTS_BIOS_SIZE;
}

bool closed_bios(const struct seen *s) {
    return reads_bios(s) && is_closed(s);
}

bool closed_at_start(const struct seen *s) {
    return closed_bios(s) && s->before.latch == 0;
}

/* The opcode that ran last, and the board's pc, lie on different sides of the gate. */
bool bios_gate(const struct seen *s) {
    return reads_bios(s) && s->past.any_opcode && (s->past.opcode_address >= BTS_BIOS_SIZE) != is_closed(s);
}

/* ---- alignment */

/* An SRAM load repeats its byte, which no rotation changes. */
bool unaligned_word(const struct seen *s) {
    return reads(s) && s->size == 4 && s->address % 4 != 0 && s->area != AT_SRAM;
}

bool unaligned_half(const struct seen *s) {
    return reads(s) && s->size == 2 && s->address % 2 != 0;
}

bool two_areas(const struct seen *s) {
    uint32_t last = last_byte(s);
    return reads(s) && (s->area != area_of(last) || window_of(s->first) != window_of(last));
}

/* ---- video and SRAM */

bool video_conflict(const struct seen *s) {
    bool video = s->area == AT_PALETTE || s->area == AT_VRAM || s->area == AT_OAM;
    return video && (accesses(s) || s->kind == BTS_INSTRUCTION);
}

static bool past_sram(const struct seen *s) {
    size_t sram = s->lengths.memories[SRAM];
    return s->area == AT_SRAM && sram > 0 && (s->address & 0xFFFF) >= sram;
}

bool store_past_sram(const struct seen *s) {
    return writes(s) && past_sram(s);
}

/* At 32 KiB the chip repeats as GBATEK has it. */
bool load_past_sram(const struct seen *s) {
    return reads(s) && past_sram(s) && s->lengths.memories[SRAM] != 32768;
}

bool no_sram(const struct seen *s) {
    return reads(s) && s->lengths.memories[SRAM] == 0 && meets(s, 0x0E000000, 0x0FFFFFFF);
}

bool wide_sram(const struct seen *s) {
    return accesses(s) && s->area == AT_SRAM && s->size > 1;
}

/* A byte store to what may be object VRAM. */
static bool object_byte(const struct seen *s) {
    return writes(s) && s->size == 1 && s->area == AT_VRAM && (s->address & 0x1FFFF) >= 0x10000;
}

bool mode_6_or_7(const struct seen *s) {
    return object_byte(s) && s->before.mode >= 6;
}

bool no_mode(const struct seen *s) {
    return object_byte(s) && s->lengths.memories[IO] == 0;
}

/* ---- prices, and the prefetch beside them */

/* It goes on where the previous access ended, and begins no block. Only in ROM is that another price. Within a BLOCK READ or BLOCK
 * WRITE there is nothing to mark: what one LDM or STM accesses behind its first word is sequential by the data sheet too. */
bool sequential_data(const struct seen *s) {
    uint32_t lowered = s->address & ~(uint32_t)(s->size - 1);
    bool follows = s->before.previous_size > 0 && s->before.previous_address + s->before.previous_size == lowered;
    return accesses(s) && !s->inside && s->area == AT_ROM && follows && !begins_block(lowered);
}

/* A step that is no access stands between the two; or what stood there isn't seen, since the first is the lent board's. Where a
 * step clears the previous access there is nothing to mark: the next one is nonsequential by the data sheet too. */
bool row_goes_on(const struct seen *s) {
    return sequential_data(s) && s->past.kind != BTS_READ && s->past.kind != BTS_WRITE;
}

bool buffered_data(const struct seen *s) {
    uint32_t distance = s->first - s->before.head_address;
    return reads(s) && s->area == AT_ROM && distance < 2 * s->before.count;
}

bool data_fills_nothing(const struct seen *s) {
    return accesses(s) && s->area != AT_ROM && s->area != AT_SRAM && can_fill(&s->before);
}

bool data_beside_fill(const struct seen *s) {
    return accesses(s) && s->area == AT_ROM && s->before.filling;
}

bool price_of_nothing(const struct seen *s) {
    return (accesses(s) && s->area == AT_UNUSED) || (writes(s) && (s->area == AT_ROM || s->area == AT_BIOS));
}

/* ---- memories that are lent short */

/* ROM and SRAM have lines of their own. */
static bool is_past(const struct seen *s, uint32_t address) {
    struct place place;
    if (area_of(address) == AT_BIOS) {
        return reads(s) && !is_closed(s) && address >= s->lengths.bios;
    }
    return place_of(address, &place) && place.memory != SRAM && place.offset >= s->lengths.memories[place.memory];
}

bool past_memory(const struct seen *s) {
    return accesses(s) && (is_past(s, s->first) || is_past(s, last_byte(s)));
}
