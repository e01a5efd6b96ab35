/* A refusal in a later piece, of a run and of a preview: a listing can't bring one about, since what would be refused is no line
 * of a listing. */
#include <stdio.h>
#include <string.h>

#include "runs.h"

enum { COUNT = 10000, FAULTY = 9000 };

static uint8_t sheet[BTS_HEADER_SIZE + BTS_RECORD_SIZE * COUNT];
static uint8_t answers[BTS_ANSWER_SIZE * COUNT], grounds[BTS_GROUNDS_SIZE * COUNT];

typedef bts_report in_pieces(const uint8_t *sheet, size_t count, struct machine *machine, const struct room *room);

/* Steps of a cycle each, where record `faulty` has a kind that there is none of. In version 2 a block is such a step too, so that
 * each piece must be of the version. */
static bts_report done_with(uint32_t version, size_t faulty, in_pieces *all) {
    uint8_t board[BTS_BOARD_SIZE] = {0};
    struct machine machine = {.board = {board, sizeof board}};
    struct room room = {.answers = answers, .grounds = grounds};
    bts_put_header_of(sheet, version, 0);
    for (size_t k = 0; k < COUNT; k++) {
        bool block = version == BTS_VERSION_2 && k % 2 == 1;
        bts_put_record(sheet, k, k == faulty ? 99 : block ? BTS_BLOCK_READ : BTS_IDLE, block ? 4 : 0, 0, 0, 1);
    }
    return all(sheet, COUNT, &machine, &room);
}

static void print_both(uint32_t version, in_pieces *all) {
    bts_report good = done_with(version, COUNT, all);
    bts_report bad = done_with(version, FAULTY, all);
    printf("%u %u %u\n", (unsigned)good.number, (unsigned)good.index, (unsigned)good.total);
    printf("%u %u %u\n", (unsigned)bad.number, (unsigned)bad.index, (unsigned)bad.total);
}

int main(void) {
    for (uint32_t version = BTS_VERSION_1; version <= BTS_VERSION_2; version++) {
        print_both(version, run_records);
        print_both(version, preview_records);
    }
    return 0;
}
