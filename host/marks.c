/* The table of the marks: the lines of docs/DIFFERENCES.md that can be told from what is seen of a step. host/README.md has the
 * lines that can't, or that would touch every step, with the reason. A line's own words stand in docs/DIFFERENCES.md; here are as
 * many as tell a person what to look for there. */
#include "marks.h"

#include <inttypes.h>
#include <stdio.h>

#include "departs.h"

struct mark {
    unsigned line;
    departs *touches;
    const char *says; /* what the model does */
};

static const struct mark marks[] = {
    {1, open_bus, "a load from unused memory gives 0"},
    {2, unused_io, "a load from unused I/O gives 0"},
    {3, dead_io_word, "an I/O word that can't be read gives what was stored"},
    {4, dead_io_half, "an I/O halfword that can't be read gives what was stored"},
    {5, live_io, "I/O registers are plain bytes, which nothing but a store moves"},
    {6, io_store, "a store to I/O has no effect but its bytes"},
    {7, halt, "HALTCNT stops nothing"},
    {8, control_start, "the memory control word starts as it is lent"},
    {9, control_waits, "EWRAM has 2 waits whatever the memory control word says"},
    {10, control_map, "the RAMs stay in place whatever the memory control word says"},
    {11, control_bits, "the memory control word keeps every bit"},
    {12, waits_by_store, "a store to 0x04000204 changes no wait; a WAITCNT step does"},
    {13, waits_by_load, "a load from 0x04000204 gives what was stored there, not WAITCNT"},
    {14, empty_cartridge, "without a ROM its halfwords are 0"},
    {15, other_chips, "no Flash, no EEPROM, no pins: SRAM is plain bytes, ROM takes no store"},
    {16, closed_bios, "the closed BIOS gives the latch, which LATCH alone sets"},
    {17, closed_at_start, "the latch is 0 until LATCH sets it"},
    {18, bios_gate, "PC steps open and close the BIOS, not where the code is"},
    {19, unaligned_word, "an unaligned word is four bytes, not rotated"},
    {20, unaligned_half, "an unaligned halfword is two bytes, not rotated"},
    {21, two_areas, "each part of a load is taken from the area where it lies"},
    {22, odd_opcode_address, "a misaligned opcode address is priced as given"},
    {23, video_conflict, "the display never delays an access"},
    {24, store_past_sram, "a store past the SRAM is dropped, not mirrored"},
    {25, sequential_data, "a data access to ROM that goes on where the one before it ended is sequential, whatever the opcodes"},
    {26, buffered_data, "a data access never looks into the prefetch"},
    {27, data_fills_nothing, "the prefetch gains nothing while data are loaded or stored"},
    {28, own_fetch, "an opcode pays for its own fetch, not for the one two further on"},
    {29, jump_target, "the fetch at a jump's target is sequential"},
    {30, wide_video_code, "ARM code in palette or VRAM is fetched in 1 cycle"},
    {31, sram_code, "code in SRAM is fetched in 1 cycle"},
    {32, two_windows, "both halves of an ARM fetch have the first one's waits"},
    {33, block_at_second_half, "the second half of an ARM fetch is nonsequential where a block begins"},
    {34, two_first_beats, "the second halfword since a restart is nonsequential too"},
    {35, half_a_hit, "of an ARM fetch with both halves in the prefetch, one pays its waits"},
    {36, thrown_hit, "the second half of an ARM fetch is priced from a prefetch that the first has thrown away"},
    {37, code_elsewhere_fills, "code outside ROM fills the prefetch"},
    {38, jump_fills, "internal cycles of a jump fill the prefetch"},
    {39, force_set_or_paid, "with the prefetch off, the opcode behind one with internal cycles pays for the disable bug"},
    {40, force_kept, "a force flag outlives the switching on of the prefetch"},
    {41, force_not_set, "this opcode's internal cycles don't set the force flag"},
    {42, jump, "a branch, or any other change of the pc, is one fetch"},
    {43, store_opcode, "a store's fetch is sequential"},
    {44, short_multiply, "a multiply has 1 internal cycle whatever its operand"},
    {45, condition, "the internal cycle counts though the condition may fail"},
    {46, long_multiply, "a long multiply has no internal cycle"},
    {47, narrow_load, "an ARM load of a byte or halfword has no internal cycle"},
    {48, arm_bx, "ARM BX has an internal cycle"},
    {49, undefined, "an undefined opcode is priced as an ordinary one"},
    {50, coprocessor, "a coprocessor opcode is one fetch"},
    {51, pop, "POP is looked for at 0xBA and 0xBB, so at 0xBC and 0xBD it has no internal cycle"},
    {52, thumb_loads, "a Thumb multiply, byte or halfword load, or load by register has no internal cycle"},
    {53, thumb_shifts, "a Thumb shift by register has no internal cycle"},
    {54, past_rom, "ROM past the image is 0"},
    {55, unnamed_port, "0x04000410 takes no store"},
    {56, waitcnt_bit_13, "WAITCNT bit 13 is cleared"},
    {57, mode_6_or_7, "display modes 6 and 7 have object VRAM from 0x14000 on"},
    {58, load_past_sram, "SRAM of an odd length repeats at that length"},
    {59, no_sram, "without an SRAM its window gives 0xFF"},
    {60, wide_sram, "a wide SRAM access costs as much as a byte"},
    {61, price_of_nothing, "a store to ROM or BIOS costs as a load, and an access to unused memory 1"},
    {62, unused_code, "code in unused memory is fetched in 1 cycle"},
    {63, data_beside_fill, "a data access to ROM leaves a running fill alone"},
    {64, fetch_under_way, "a halfword that is on its way to the prefetch isn't waited for"},
    {65, hit_fills_nothing, "the cycle of a hit fills nothing"},
    {66, full_after_hit, "a full prefetch begins its next halfword with the next free cycle"},
    {67, waits_in_a_beat, "a halfword that is on its way keeps its old waits"},
    {68, switched, "switched off, the prefetch is thrown away; on, it fills nothing before a restart"},
    {69, fetch_elsewhere, "a FETCH elsewhere throws away a prefetch with content, and only that"},
    {70, next_window, "a fill goes on into the next window, and ends behind the last"},
    {71, restart_elsewhere, "a restart outside ROM leaves the prefetch empty and idle"},
    {72, return_hits, "the prefetch is kept while code runs elsewhere"},
    {76, jump_leaves_buffer, "a jump leaves the prefetch as it is, and the force flag clear"},
    {77, miss_restarts, "behind a miss the prefetch starts anew, with a nonsequential halfword"},
    {79, force_lost, "a force flag is spent by the next opcode, outside ROM too"},
    {80, fetch_misses, "a FETCH that misses gives 0 and reads nothing"},
    {81, past_memory, "past the end of a memory that is lent short loads give 0, and stores are dropped"},
    {82, no_mode, "without I/O the display mode is 0"},
    {83, waitcnt_bit_15, "WAITCNT bit 15 stays as the board has it"},
    {86, row_goes_on, "a row of data accesses goes on over IDLE, PC and LATCH, and from the lent board"},
};

enum { MARKS = sizeof marks / sizeof marks[0] };

_Static_assert(sizeof marks / sizeof marks[0] <= MARKS_MOST, "struct met has a place for each row");

/* The lines that hang on how long the memories are, or on what the I/O memory holds. Those of the memory control word and of
 * 0x04000204 (8 to 12) are among them: what stands there is lent, and whether a store gets there follows from the length. All
 * other functions of the table look at the record, the board, and what is the same of an answer over any memories. */
static bool hangs_on_memories(size_t row) {
    static const unsigned lines[] = {8, 9, 10, 11, 12, 14, 24, 54, 57, 58, 59, 81, 82};
    for (size_t i = 0; i < sizeof lines / sizeof lines[0]; i++) {
        if (lines[i] == marks[row].line) {
            return true;
        }
    }
    return false;
}

void add_marks(const struct seen *seen, struct met *met) {
    for (size_t i = 0; i < MARKS; i++) {
        bool can_tell = !met->preview || !hangs_on_memories(i);
        met->row[i] = met->row[i] || (can_tell && marks[i].touches(seen));
    }
}

void print_marks(const struct met *step, struct met *run) {
    for (size_t i = 0; i < MARKS; i++) {
        if (step->row[i]) {
            printf(" D-%u", marks[i].line);
            run->row[i] = true;
        }
    }
}

/* The words of each mark that was met; how many there are. */
static unsigned print_words(const struct met *met) {
    unsigned count = 0;
    for (size_t i = 0; i < MARKS; i++) {
        if (met->row[i]) {
            printf("D-%-3u %s\n", marks[i].line, marks[i].says);
            count++;
        }
    }
    return count;
}

/* As in a sentence: D-27, D-42 and D-52. */
static void print_names(const struct met *met, unsigned count) {
    unsigned left = count;
    for (size_t i = 0; i < MARKS; i++) {
        if (met->row[i]) {
            left--;
            printf("D-%u%s", marks[i].line, left > 1 ? ", " : left == 1 ? " and " : "");
        }
    }
}

/* The lines of which a preview says nothing: they may touch a step, or not. */
static void print_untold(void) {
    struct met untold = {{false}, true};
    unsigned count = 0;
    for (size_t i = 0; i < MARKS; i++) {
        untold.row[i] = hangs_on_memories(i);
        count += untold.row[i];
    }
    fputs("a preview can't tell ", stdout);
    print_names(&untold, count);
    puts(": they hang on the memories");
}

void print_met(const struct met *met, uint64_t total) {
    unsigned count = print_words(met);
    const char *none = met->preview ? "no departure that a preview can tell applies" : "no listed departure applies";
    printf("%" PRIu64 " by the model; ", total);
    print_names(met, count);
    puts(count == 0 ? none : count == 1 ? " applies" : " apply");
    if (met->preview) {
        print_untold();
    }
}
