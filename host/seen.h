/* What is seen of a step, for the marks: the record, its answer, and the machine before and after it.
 *
 * An answer doesn't say where the prefetch stands. So the steps are done a second time, one by one and a block word by word, on a
 * copy of the board and of the I/O memory: the library itself gives the board between two steps, and there is no second model
 * here. Nothing else is lent, since no cycle and nothing of the prefetch but its halfwords depends on what the memories hold, or
 * on how long they are. */
#ifndef HOST_SEEN_H
#define HOST_SEEN_H

#include <stdbool.h>
#include <stddef.h>
#include <stdint.h>

#include "bts.h"
#include "map.h"
#include "runs.h"

/* How long the memories are. */
struct lengths {
    size_t memories[MEMORIES];
    size_t bios, rom;
};

/* The parts of a board that the marks look at, and two words of I/O. */
struct state {
    uint32_t waitcnt;
    bool on; /* the prefetch switch */
    bool force, filling, first_beat;
    uint32_t count, wait_left, next_address, head_address, pc, latch, previous_address, previous_size;
    uint32_t mode;         /* the display mode */
    uint32_t stored_waits; /* what stands at 0x04000204 */
    uint32_t control;      /* what stands at 0x04000800 */
};

/* What went before a step in this run. */
struct past {
    uint8_t kind;    /* of the step before this one; 0 where there is none */
    bool any_opcode; /* an INSTRUCTION stands somewhere before this one; the last: */
    bool opcode_jumped;
    uint32_t opcode_address;
    bool kept;           /* that one was outside ROM, and the prefetch has not been restarted since */
    bool missed;         /* the prefetch was last started by an INSTRUCTION that missed */
    bool waits_stored;   /* 0x04000204 holds what was stored there, and not the zeros of memory never written */
    bool control_stored; /* the same of 0x04000800 */
};

struct seen {
    uint8_t kind, size;
    bool jumps; /* the flag: the instruction changed the pc */
    uint32_t address;
    uint32_t value; /* of a Thumb opcode the low 16 bits */
    bts_answer answer;
    uint32_t version;  /* of the sheet */
    bool inside;       /* a word of a block behind its first, which the same opcode made */
    enum area area;    /* of the address */
    uint32_t first;    /* READ, WRITE: the first of the `size` bytes; a store begins at a multiple of its size */
    uint32_t idle;     /* cycles in which the cartridge bus is free */
    uint32_t internal; /* INSTRUCTION: its internal cycles */
    struct state before, after;
    struct past past;
    struct lengths lengths;
};

/* A run as far as it has been seen. */
struct trace {
    uint32_t version; /* of the sheet */
    uint8_t board[BTS_BOARD_SIZE];
    uint8_t io[BTS_IO_SIZE];
    struct lengths lengths;
    struct past past;
};

/* Before the run of a sheet of the version: what it starts from. What the run will refuse may be here too; then there is nothing
 * to be seen. */
void trace_begin(struct trace *trace, const struct machine *machine, uint32_t version);

/* The next step of an accepted run: part i of the record, as blocks.h has the parts. They are all to be seen, one behind the
 * other; the answer is the record's. */
void trace_step(struct trace *trace, const uint8_t *record, uint32_t i, bts_answer answer, struct seen *seen);

/* A READ or WRITE of which a byte lies from `low` to `high`. */
bool meets(const struct seen *seen, uint32_t low, uint32_t high);

/* The memory control word, at 0x04000800 and every 64 KiB from there. */
bool meets_control(const struct seen *seen);

/* An INSTRUCTION in a ROM window. */
bool code_in_rom(const struct seen *seen);

/* The prefetch has a halfword on its way, or would have one with the next free cycle. */
bool can_fill(const struct state *state);

#endif
