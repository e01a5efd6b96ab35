/* What is seen of a step: the record taken apart, and the machine before and after it. */
#include "seen.h"

#include <string.h>

#include "blocks.h"

enum { OPCODE_BYTES_THUMB = 2, STORED_WAITS = 0x204, CONTROL = 0x800 };

static const uint32_t io_page = 0x04000000;

static bool is_data(const struct seen *seen) {
    return seen->kind == BTS_READ || seen->kind == BTS_WRITE;
}

/* By the distance from `low`, so that an access over the end of the address space is met on both sides. */
bool meets(const struct seen *seen, uint32_t low, uint32_t high) {
    return is_data(seen) && ((uint32_t)(seen->first - low) <= high - low || (uint32_t)(low - seen->first) < seen->size);
}

bool meets_control(const struct seen *seen) {
    uint32_t at = (seen->first & 0xFFFF0000) + CONTROL;
    return is_data(seen) && seen->area == AT_IO && meets(seen, at, at + 3);
}

bool code_in_rom(const struct seen *seen) {
    return seen->kind == BTS_INSTRUCTION && seen->area == AT_ROM;
}

bool can_fill(const struct state *state) {
    return state->filling || (state->on && state->count < 8 && window_of(state->next_address) >= 0);
}

/* ---- the state */

/* The number of `size` bytes in I/O; 0 where the memory is too short. */
static uint32_t io_number(const struct trace *trace, size_t at, size_t size) {
    uint8_t bytes[4] = {0, 0, 0, 0};
    if (at + size <= trace->lengths.memories[IO]) {
        memcpy(bytes, trace->io + at, size);
    }
    return bts_get32(bytes);
}

static struct state state_of(const struct trace *trace) {
    const uint8_t *board = trace->board;
    return (struct state){
        .waitcnt = bts_board_waitcnt(board),
        .on = (bts_board_waitcnt(board) & 0x4000) != 0,
        .force = bts_board_force(board) == 1,
        .filling = bts_board_filling(board) == 1,
        .first_beat = bts_board_first_beat(board) == 1,
        .count = bts_board_count(board),
        .wait_left = bts_board_wait_left(board),
        .next_address = bts_board_next_address(board),
        .head_address = bts_board_head_address(board),
        .pc = bts_board_pc(board),
        .latch = bts_board_latch(board),
        .previous_address = bts_board_previous_address(board),
        .previous_size = bts_board_previous_size(board),
        .mode = io_number(trace, 0, 1) & 7,
        .stored_waits = io_number(trace, STORED_WAITS, 2),
        .control = io_number(trace, CONTROL, 4),
    };
}

void trace_begin(struct trace *trace, const struct machine *machine, uint32_t version) {
    const size_t *n = machine->lengths;
    *trace = (struct trace){.version = version, .lengths = {.bios = machine->bios.len, .rom = machine->rom.len}};
    if (machine->board.len != BTS_BOARD_SIZE || n[IO] > BTS_IO_SIZE || n[EWRAM] > BTS_EWRAM_SIZE || n[IWRAM] > BTS_IWRAM_SIZE) {
        return; /* it will be refused */
    }
    memcpy(trace->lengths.memories, n, sizeof trace->lengths.memories);
    memcpy(trace->board, machine->board.at, BTS_BOARD_SIZE);
    memcpy(trace->io, machine->store.at + n[EWRAM] + n[IWRAM], n[IO]);
    trace->past.waits_stored = io_number(trace, STORED_WAITS, 2) != 0;
    trace->past.control_stored = io_number(trace, CONTROL, 4) != 0;
}

/* The record by itself, over the I/O memory alone. It is accepted, as it was in the run. */
static void do_step(struct trace *trace, const uint8_t *record) {
    uint8_t sheet[BTS_HEADER_SIZE + BTS_RECORD_SIZE];
    uint8_t answer[BTS_ANSWER_SIZE];
    size_t io = trace->lengths.memories[IO];
    bts_put_header_of(sheet, trace->version, 1);
    memcpy(sheet + BTS_HEADER_SIZE, record, BTS_RECORD_SIZE);
    bts_run(sheet, sizeof sheet, trace->board, sizeof trace->board, trace->io, io, bts_bytes(NULL), 0, bts_bytes(NULL), 0,
            answer, sizeof answer, 0, 0, io, 0, 0, 0, 0);
}

/* ---- the step */

/* A fetch outside ROM leaves the cartridge bus free, so what is free there is more than the internal cycles. */
static uint32_t internal_cycles(const struct seen *seen) {
    if (seen->kind != BTS_INSTRUCTION) {
        return 0;
    }
    uint32_t fetch = seen->area != AT_EWRAM ? 1 : seen->size == OPCODE_BYTES_THUMB ? 3 : 6;
    return seen->area == AT_ROM ? seen->answer.value : seen->answer.cycles - fetch;
}

static void take_record(struct seen *seen, const uint8_t *record, bts_answer answer) {
    seen->kind = record[0];
    seen->size = record[1];
    seen->jumps = record[2] == 1;
    seen->address = bts_get32(record + 4);
    seen->value = bts_get32(record + 8);
    seen->answer = answer;
    seen->area = area_of(seen->address);
    seen->first = seen->address;
    if (seen->kind == BTS_INSTRUCTION && seen->size == OPCODE_BYTES_THUMB) {
        seen->value &= 0xFFFF;
    } else if (seen->kind == BTS_WRITE && seen->area != AT_SRAM) {
        seen->first &= ~(uint32_t)(seen->size - 1);
    }
    seen->idle = seen->kind == BTS_IDLE ? seen->value : seen->kind == BTS_INSTRUCTION ? answer.value : 0;
    seen->internal = internal_cycles(seen);
}

/* What the next step has behind it. */
static void go_on(struct past *past, const struct seen *seen) {
    past->kind = seen->kind;
    if (seen->kind == BTS_INSTRUCTION) {
        past->any_opcode = true;
        past->opcode_jumped = seen->jumps;
        past->opcode_address = seen->address;
    }
    past->kept = seen->kind == BTS_INSTRUCTION ? seen->area != AT_ROM : past->kept && seen->kind != BTS_RESTART;
    bool missed = code_in_rom(seen) && seen->answer.hits < seen->size / 2;
    past->missed = seen->kind != BTS_RESTART && (past->missed || missed);
    bool write = seen->kind == BTS_WRITE;
    past->waits_stored = past->waits_stored || (write && meets(seen, io_page + STORED_WAITS, io_page + STORED_WAITS + 1));
    past->control_stored = past->control_stored || (write && meets_control(seen));
}

void trace_step(struct trace *trace, const uint8_t *record, uint32_t i, bts_answer answer, struct seen *seen) {
    uint8_t part[BTS_RECORD_SIZE];
    part_at(record, i, part);
    *seen = (struct seen){.version = trace->version, .inside = i > 0, .before = state_of(trace), .past = trace->past,
                          .lengths = trace->lengths};
    take_record(seen, part, answer);
    do_step(trace, part);
    seen->after = state_of(trace);
    go_on(&trace->past, seen);
}
