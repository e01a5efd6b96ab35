/* The rules of a sound board, in the order of include/bts.h. The tests hold them against the run. */
#include "board.h"

#include <stdbool.h>

#include "bts.h"

enum { OLD_SIZE = 72 }; /* of a board that has no previous access: one that was saved before version 2.0 */

static bool in_rom_window(uint32_t address) {
    return address >= 0x08000000 && address <= 0x0DFFFFFF;
}

static bool all_zero(const uint8_t *board, size_t first, size_t last) {
    uint8_t seen = 0;
    for (size_t i = first; i <= last; i++) {
        seen |= board[i];
    }
    return seen == 0;
}

/* With prefetch off nothing may be left in it. */
static bool prefetch_empty(const uint8_t *board) {
    return all_zero(board, BTS_BOARD_HEAD, BTS_BOARD_FIRST_BEAT) && all_zero(board, BTS_BOARD_WAIT_LEFT, BTS_BOARD_HALFWORDS - 1);
}

static bool is_previous_size(uint32_t size) {
    return size <= 2 || size == 4;
}

/* A board of the right length. */
static const char *broken_rule(const uint8_t *board) {
    uint32_t waitcnt = bts_board_waitcnt(board), count = bts_board_count(board), wait_left = bts_board_wait_left(board);
    uint32_t next = bts_board_next_address(board), first = bts_board_head_address(board);
    uint32_t previous = bts_board_previous_address(board), size = bts_board_previous_size(board);
    bool filling = bts_board_filling(board) == 1;
    const struct { bool kept; const char *rule; } rules[] = {
        {board[7] == 0 && all_zero(board, BTS_BOARD_PREVIOUS_SIZE + 1, BTS_BOARD_SIZE - 1), "bytes 7 and 73 to 79 must be 0"},
        {bts_board_force(board) <= 1, "force (byte 2) must be 0 or 1"},
        {bts_board_filling(board) <= 1, "filling (byte 5) must be 0 or 1"},
        {bts_board_first_beat(board) <= 1, "first beat (byte 6) must be 0 or 1"},
        {(waitcnt & 0x2000) == 0, "WAITCNT (bytes 0 and 1) must have bit 13 clear"},
        {is_previous_size(size), "previous size (byte 72) must be 0, 1, 2 or 4"},
        {size > 0 || previous == 0, "with previous size 0, previous address (bytes 68 to 71) must be 0"},
        {size == 0 || previous % size == 0, "previous address (bytes 68 to 71) must be a multiple of previous size"},
        {bts_board_head(board) <= 7, "head (byte 3) must be at most 7"},
        {count <= 8, "count (byte 4) must be at most 8"},
        {wait_left <= 9, "wait left (bytes 8 to 11) must be at most 9"},
        {next % 2 == 0, "next address (bytes 12 to 15) must be even"},
        {filling == (wait_left >= 1), "filling must be 1 exactly when wait left is at least 1"},
        {!filling || count <= 7, "with filling 1, count must be at most 7"},
        {!filling || in_rom_window(next), "with filling 1, next address must lie in a ROM window"},
        {count > 0 || first == 0, "with count 0, head address (bytes 16 to 19) must be 0"},
        {count == 0 || in_rom_window(first), "with count over 0, head address must lie in a ROM window"},
        {count == 0 || in_rom_window(next - 2), "with count over 0, next address - 2 must lie in a ROM window"},
        {count == 0 || first + 2 * count == next, "with count over 0, head address + 2 * count must be next address"},
        {(waitcnt & 0x4000) != 0 || prefetch_empty(board),
         "with prefetch off (WAITCNT bit 14 clear), bytes 3 to 6 and 8 to 19 must be 0"},
    };
    for (size_t i = 0; i < sizeof rules / sizeof rules[0]; i++) {
        if (!rules[i].kept) {
            return rules[i].rule;
        }
    }
    return NULL;
}

const char *board_fault(const uint8_t *board, size_t len) {
    if (len == OLD_SIZE) {
        return "a board is 80 bytes long; this one has the 72 of older boards: append eight zero bytes";
    }
    return len == BTS_BOARD_SIZE ? broken_rule(board) : "a board is 80 bytes long";
}
