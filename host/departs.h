/* Whether a line of docs/DIFFERENCES.md touches a step: a function for each line that marks.c has in its table.
 *
 * A line touches a step when, by the public document, its cycles or its value might be others, or the prefetch might be left
 * otherwise than the model leaves it. Where that hangs on what isn't seen (an operand, a condition, the display), the step is
 * marked. */
#ifndef HOST_DEPARTS_H
#define HOST_DEPARTS_H

#include "seen.h"

typedef bool departs(const struct seen *seen);

/* departs_data.c: READ and WRITE, and the words of blocks: what they give and what they cost */
departs open_bus, unused_io, dead_io_word, dead_io_half, live_io, io_store, halt, control_start, control_waits, control_map;
departs control_bits, waits_by_store, waits_by_load, empty_cartridge, other_chips, closed_bios, closed_at_start, bios_gate;
departs unaligned_word, unaligned_half, two_areas, video_conflict, store_past_sram, sequential_data, row_goes_on, buffered_data;
departs data_fills_nothing, past_rom, unnamed_port, mode_6_or_7, load_past_sram, no_sram, wide_sram, price_of_nothing;
departs data_beside_fill, past_memory, no_mode;

/* departs_code.c: INSTRUCTION, by its address and its opcode */
departs odd_opcode_address, own_fetch, jump_target, wide_video_code, sram_code, two_windows, block_at_second_half;
departs force_set_or_paid, force_kept, force_not_set, force_lost, jump, store_opcode, short_multiply, condition, long_multiply;
departs narrow_load, arm_bx, undefined, coprocessor, pop, thumb_loads, thumb_shifts, unused_code;

/* departs_prefetch.c: the buffer, and WAITCNT steps */
departs two_first_beats, half_a_hit, thrown_hit, code_elsewhere_fills, jump_fills, waitcnt_bit_13, waitcnt_bit_15;
departs fetch_under_way, hit_fills_nothing, full_after_hit, waits_in_a_beat, switched, fetch_elsewhere, fetch_misses;
departs next_window, restart_elsewhere, return_hits, jump_leaves_buffer, miss_restarts;

#endif
