/* host/board.c beside the run: is board_fault NULL for just those boards that bts_run takes? 200,000 boards from a fixed seed,
 * most of them a field or two away from a sound one; it prints how often each answer came, and exits with 1 if the two ever
 * differ. */
#include "board.h"

#include <string.h>

#include "bts.h"
#include "trial.h"

enum { BOARDS = 200000, ANSWERS = 32 };

/* Near an edge of the ROM windows, or one of their halfwords, or anything. */
static uint32_t some_address(void) {
    const uint32_t edges[] = {0, 0x08000000, 0x0A000000, 0x0C000000, 0x0E000000, 0x10000000};
    uint32_t near = edges[below(6)] + below(40) - 20;
    const uint32_t choices[] = {near, 0x08000000 + 2 * below(0x3000000), below(0x7FFFFFFF) * 2 + below(2)};
    return choices[below(3)];
}

/* A previous access, at a multiple of its size; or none, on a board that has none. */
static void put_previous(uint8_t *board) {
    uint32_t size = 1u << below(3);
    if (below(4) > 0) {
        bts_put32(board + BTS_BOARD_PREVIOUS_ADDRESS, some_address() & ~(size - 1));
        board[BTS_BOARD_PREVIOUS_SIZE] = (uint8_t)size;
    }
}

/* A sound board, all kinds of them. */
static void make_sound(uint8_t *board) {
    memset(board, 0, BTS_BOARD_SIZE);
    for (size_t i = BTS_BOARD_HALFWORDS; i < BTS_BOARD_PREVIOUS_ADDRESS; i++) {
        board[i] = (uint8_t)below(256);
    }
    put_previous(board);
    board[0] = (uint8_t)below(256);
    board[1] = (uint8_t)(below(256) & 0x9F);
    board[BTS_BOARD_FORCE] = (uint8_t)below(2);
    if (below(8) == 0) {
        return; /* prefetch off */
    }
    uint32_t count = below(9), filling = count < 8 ? below(2) : 0, next = 0x08000000 + 2 * (8 + below(0x3000000 - 8));
    board[1] |= 0x40;
    board[BTS_BOARD_HEAD] = (uint8_t)below(8);
    board[BTS_BOARD_COUNT] = (uint8_t)count;
    board[BTS_BOARD_FILLING] = (uint8_t)filling;
    board[BTS_BOARD_FIRST_BEAT] = (uint8_t)below(2);
    bts_put32(board + BTS_BOARD_WAIT_LEFT, filling * (1 + below(9)));
    bts_put32(board + BTS_BOARD_NEXT_ADDRESS, next);
    bts_put32(board + BTS_BOARD_HEAD_ADDRESS, count > 0 ? next - 2 * count : 0);
}

/* One thing of the board changed, to a value that may break a rule or not. */
static void change(uint8_t *board) {
    uint32_t next = some_address();
    switch (below(9)) {
    case 0: board[below(BTS_BOARD_HALFWORDS)] ^= (uint8_t)(1u << below(8)); break;
    case 1: board[below(2) == 0 ? 7 : 73 + below(7)] = (uint8_t)below(2); break;
    case 2: board[2 + below(5)] = (uint8_t)below(11); break;
    case 3: bts_put32(board + BTS_BOARD_WAIT_LEFT, below(12)); break;
    case 4: bts_put32(board + BTS_BOARD_NEXT_ADDRESS + 4 * below(2), next); break;
    case 5: board[BTS_BOARD_PREVIOUS_SIZE] = (uint8_t)below(below(2) == 0 ? 256 : 6); break;
    case 6: bts_put32(board + BTS_BOARD_PREVIOUS_ADDRESS, below(4) == 0 ? below(5) : next); break;
    case 7: board[68 + below(12)] ^= (uint8_t)(1u << below(8)); break;
    default: /* both addresses, in step */
        bts_put32(board + BTS_BOARD_NEXT_ADDRESS, next);
        bts_put32(board + BTS_BOARD_HEAD_ADDRESS, next - 2u * bts_board_count(board));
    }
}

/* What the run says of the board: the sheet is empty and nothing else is lent. */
static bool taken(const uint8_t *board, size_t len) {
    uint8_t sheet[BTS_HEADER_SIZE], copy[BTS_BOARD_SIZE + 1];
    bts_put_header(sheet, 0);
    memcpy(copy, board, len);
    return bts_run(sheet, sizeof sheet, copy, len, bts_room(NULL), 0, bts_bytes(NULL), 0, bts_bytes(NULL), 0, bts_room(NULL), 0,
                   0, 0, 0, 0, 0, 0, 0).number != BTS_UNSOUND_BOARD;
}

/* How often each answer came, by its text. */
static struct { const char *text; unsigned long times; } seen[ANSWERS];

static void count_answer(const char *text) {
    size_t i = 0;
    while (i < ANSWERS - 1 && seen[i].text != NULL && strcmp(seen[i].text, text) != 0) {
        i++;
    }
    seen[i].text = text;
    seen[i].times++;
}

static void print_answers(void) {
    for (size_t i = 0; i < ANSWERS && seen[i].text != NULL; i++) {
        printf("%6lu %s\n", seen[i].times, seen[i].text);
    }
}

/* Mostly the right one; else any up to a byte more, or that of older boards. */
static size_t some_length(void) {
    return below(1000) > 0 ? BTS_BOARD_SIZE : below(4) == 0 ? 72 : below(BTS_BOARD_SIZE + 2);
}

int main(void) {
    unsigned long differ = 0;
    for (unsigned long i = 0; i < BOARDS; i++) {
        uint8_t board[BTS_BOARD_SIZE + 1] = {0};
        size_t len = some_length();
        make_sound(board);
        if (below(5) > 0) {
            change(board);
        }
        if (below(3) == 0) {
            change(board);
        }
        const char *fault = board_fault(board, len);
        differ += (fault == NULL) != taken(board, len);
        count_answer(fault != NULL ? fault : "sound");
    }
    print_answers();
    printf("%lu boards, %lu differences\n", (unsigned long)BOARDS, differ);
    return differ != 0;
}
