/* The lines of docs/DIFFERENCES.md that touch INSTRUCTION by its address and its opcode. Opcodes are told by the data sheet, not
 * by the model's tests: what the model makes of one is seen in its answer. */
#include "departs.h"

static bool is_arm(const struct seen *s) {
    return s->kind == BTS_INSTRUCTION && s->size == 4;
}

static bool is_thumb(const struct seen *s) {
    return s->kind == BTS_INSTRUCTION && s->size == 2;
}

/* ---- opcodes by their bits */

struct pattern {
    uint32_t mask, bits;
};

static bool matches(const struct pattern *patterns, size_t count, uint32_t opcode) {
    for (size_t i = 0; i < count; i++) {
        if ((opcode & patterns[i].mask) == patterns[i].bits) {
            return true;
        }
    }
    return false;
}

#define MATCHES(patterns, opcode) matches(patterns, sizeof patterns / sizeof patterns[0], opcode)

/* ---- addresses */

bool odd_opcode_address(const struct seen *s) {
    return s->kind == BTS_INSTRUCTION && s->address % s->size != 0;
}

/* That an opcode pays for its own fetch, and not for that of the opcode two further on, is seen where one of the two begins a
 * block of ROM. */
bool own_fetch(const struct seen *s) {
    return code_in_rom(s) && begins_block(s->address) != begins_block(s->address + 2u * s->size);
}

/* Outside ROM a nonsequential fetch costs the same. */
bool jump_target(const struct seen *s) {
    return code_in_rom(s) && s->past.any_opcode && s->past.opcode_jumped && !begins_block(s->address);
}

bool wide_video_code(const struct seen *s) {
    return is_arm(s) && (s->area == AT_PALETTE || s->area == AT_VRAM);
}

bool sram_code(const struct seen *s) {
    return s->kind == BTS_INSTRUCTION && s->area == AT_SRAM;
}

bool two_windows(const struct seen *s) {
    int second = window_of(s->address + 2);
    return is_arm(s) && code_in_rom(s) && second >= 0 && second != window_of(s->address);
}

bool block_at_second_half(const struct seen *s) {
    return is_arm(s) && code_in_rom(s) && begins_block(s->address + 2);
}

bool unused_code(const struct seen *s) {
    return s->kind == BTS_INSTRUCTION && s->area == AT_UNUSED;
}

/* ---- internal cycles that the model prices otherwise */

bool short_multiply(const struct seen *s) {
    return is_arm(s) && (s->value & 0x0FC000F0) == 0x00000090;
}

bool long_multiply(const struct seen *s) {
    return is_arm(s) && (s->value & 0x0F8000F0) == 0x00800090;
}

bool undefined(const struct seen *s) {
    return is_arm(s) && (s->value & 0x0E000010) == 0x06000010;
}

/* LDRB; LDRH, LDRSB and LDRSH. */
bool narrow_load(const struct seen *s) {
    static const struct pattern loads[] = {
        {0x0C500000, 0x04500000}, {0x0E1000F0, 0x001000B0}, {0x0E1000F0, 0x001000D0}, {0x0E1000F0, 0x001000F0}};
    return is_arm(s) && MATCHES(loads, s->value) && !undefined(s);
}

bool arm_bx(const struct seen *s) {
    return is_arm(s) && (s->value & 0x0FFFFFF0) == 0x012FFF10;
}

bool coprocessor(const struct seen *s) {
    static const struct pattern opcodes[] = {{0x0E000000, 0x0C000000}, {0x0F000000, 0x0E000000}};
    return is_arm(s) && MATCHES(opcodes, s->value);
}

/* POP under version 1, which looks for it elsewhere. Version 2 finds it. */
static bool unfound_pop(const struct seen *s) {
    return s->version == BTS_VERSION_1 && is_thumb(s) && (s->value & 0xFE00) == 0xBC00;
}

/* POP, and what is taken for it. */
bool pop(const struct seen *s) {
    return unfound_pop(s) || (s->version == BTS_VERSION_1 && is_thumb(s) && (s->value & 0xFE00) == 0xBA00);
}

/* MUL; LDSB, and LDR, LDRH, LDRB and LDSH by register; LDRB and LDRH by immediate. */
bool thumb_loads(const struct seen *s) {
    static const struct pattern opcodes[] = {
        {0xFFC0, 0x4340}, {0xFE00, 0x5600}, {0xF800, 0x5800}, {0xF800, 0x7800}, {0xF800, 0x8800}};
    return is_thumb(s) && MATCHES(opcodes, s->value);
}

bool thumb_shifts(const struct seen *s) {
    static const struct pattern opcodes[] = {{0xFFC0, 0x4080}, {0xFFC0, 0x40C0}, {0xFFC0, 0x4100}, {0xFFC0, 0x41C0}};
    return is_thumb(s) && MATCHES(opcodes, s->value);
}

/* Condition 14 is "always". */
bool condition(const struct seen *s) {
    return is_arm(s) && s->value >> 28 != 14 && s->internal > 0;
}

/* ---- jumps and stores */

/* Opcodes that always change the pc. In ARM: B and BL, SWI, BX, LDR and LDM to the pc, and data processing to it but for the
 * compares, by immediate and by register. */
static bool always_jumps(const struct seen *s) {
    static const struct pattern arm[] = {{0xFE000000, 0xEA000000}, {0xFF000000, 0xEF000000}, {0xFFFFFFF0, 0xE12FFF10},
                                         {0xFC50F000, 0xE410F000}, {0xFE108000, 0xE8108000}, {0xFF00F000, 0xE200F000},
                                         {0xFF80F000, 0xE380F000}, {0xFF00F010, 0xE000F000}, {0xFF80F010, 0xE180F000},
                                         {0xFF00F090, 0xE000F010}, {0xFF80F090, 0xE180F010}};
    /* B, BX, SWI, the second half of BL, POP of the pc, ADD and MOV to it */
    static const struct pattern thumb[] = {{0xF800, 0xE000}, {0xFF80, 0x4700}, {0xFF00, 0xDF00}, {0xF800, 0xF800},
                                           {0xFF00, 0xBD00}, {0xFF87, 0x4487}, {0xFF87, 0x4687}};
    return is_arm(s) ? MATCHES(arm, s->value) && !undefined(s) : is_thumb(s) && MATCHES(thumb, s->value);
}

bool jump(const struct seen *s) {
    return s->jumps || always_jumps(s);
}

/* Outside ROM a nonsequential fetch costs the same. */
bool store_opcode(const struct seen *s) {
    /* STR and STRB, STRH, STM */
    static const struct pattern arm[] = {{0x0C100000, 0x04000000}, {0x0E1000F0, 0x000000B0}, {0x0E100000, 0x08000000}};
    /* STR, STRH and STRB by register; STR, STRB, STRH by immediate; STR by SP; PUSH; STMIA */
    static const struct pattern thumb[] = {{0xFC00, 0x5000}, {0xFE00, 0x5400}, {0xF800, 0x6000}, {0xF800, 0x7000},
                                           {0xF800, 0x8000}, {0xF800, 0x9000}, {0xFE00, 0xB400}, {0xF800, 0xC000}};
    bool store = is_arm(s) ? MATCHES(arm, s->value) && !undefined(s) : MATCHES(thumb, s->value);
    return code_in_rom(s) && store;
}

/* ---- the force flag */

bool force_set_or_paid(const struct seen *s) {
    return code_in_rom(s) && (s->before.force || s->answer.force == 1);
}

bool force_kept(const struct seen *s) {
    return code_in_rom(s) && s->before.force && s->before.on;
}

bool force_not_set(const struct seen *s) {
    bool unfound = long_multiply(s) || narrow_load(s) || unfound_pop(s) || thumb_loads(s) || thumb_shifts(s);
    return code_in_rom(s) && !s->before.on && !s->jumps && unfound;
}

bool force_lost(const struct seen *s) {
    return s->kind == BTS_INSTRUCTION && s->area != AT_ROM && s->before.force;
}
