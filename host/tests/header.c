/* include/bts.h by itself, as C and as C++: the README's small sheet made with the header's helpers, over no BIOS and no ROM; the
 * same billed, with its grounds, and priced before it is run; the names of the refusals and of the grounds; the readers of a
 * board and of grounds; what lands of stores; a row of accesses over two runs; the length of a board; the versions of a sheet, and
 * a block. The exit status is the number of the first thing that is wrong. */
#include "bts.h"

#include <string.h>

#define TEXT_OF(number) #number
#define TEXT(number) TEXT_OF(number)
#define NAMED(refusal) (strcmp(bts_refusal_name(refusal), #refusal) == 0 && bts_refusal_text(refusal)[0] != 0)

/* The sheet by hand: WAITCNT 0x4000, then READ 2 at 0x02000000. */
static const uint8_t by_hand[] = {
    'B', 'T', 'S', 1, 0, 0, 2, 0,
    3, 0, 0, 0, 0, 0, 0, 0, 0, 0x40, 0, 0,
    1, 2, 0, 0, 0, 0, 0, 2, 0, 0, 0, 0,
};

static void make_sheet(uint8_t *sheet) {
    bts_put_header(sheet, 2);
    bts_put_record(sheet, 0, BTS_WAITCNT, 0, 0, 0, 0x4000);
    bts_put_record(sheet, 1, BTS_READ, 2, 0, 0x02000000, 0);
}

/* Over no memory and without room for answers: refused, and nothing is touched. */
static int refused_run(void) {
    uint8_t sheet[sizeof by_hand], board[BTS_BOARD_SIZE] = {0};
    make_sheet(sheet);
    if (memcmp(sheet, by_hand, sizeof sheet) != 0) {
        return 1;
    }
    bts_report none = bts_run(sheet, sizeof sheet, board, sizeof board, bts_room(NULL), 0, bts_bytes(NULL), 0, bts_bytes(NULL), 0,
                              bts_room(NULL), 0, 0, 0, 0, 0, 0, 0, 0);
    return none.number == BTS_SHORT_ANSWERS && none.index == 0 && none.total == 0 && bts_board_waitcnt(board) == 0 ? 0 : 2;
}

static int accepted_run(void) {
    uint8_t sheet[sizeof by_hand], board[BTS_BOARD_SIZE] = {0}, store[256] = {0x34, 0x12}, answers[2 * BTS_ANSWER_SIZE + 1] = {0};
    make_sheet(sheet);
    answers[2 * BTS_ANSWER_SIZE] = 0xEE;
    bts_report report = bts_run(sheet, sizeof sheet, board, sizeof board, store, sizeof store, bts_bytes(NULL), 0,
                                bts_bytes(NULL), 0, answers, sizeof answers, 256, 0, 0, 0, 0, 0, 0);
    bts_answer answer = bts_answer_at(answers, 1);
    if (report.number != BTS_OK || report.index != 2 || report.total != 3) {
        return 3;
    }
    if (answer.value != 0x1234 || answer.cycles != 3 || answer.hits != 0 || answer.count != 0 || answer.force != 0) {
        return 4;
    }
    return answers[2 * BTS_ANSWER_SIZE] == 0xEE && bts_board_waitcnt(board) == 0x4000 ? 0 : 5;
}

static bts_bill bill(uint32_t rate, uint8_t *shares, size_t shares_len) {
    uint8_t sheet[sizeof by_hand], board[BTS_BOARD_SIZE] = {0}, store[256] = {0}, answers[2 * BTS_ANSWER_SIZE];
    make_sheet(sheet);
    return bts_run_tariff(sheet, sizeof sheet, board, sizeof board, store, sizeof store, bts_bytes(NULL), 0, bts_bytes(NULL), 0,
                          answers, sizeof answers, shares, shares_len, 256, 0, 0, 0, 0, 0, 0, rate);
}

/* The 3 cycles of the second step at half a cent each, rounded up; then a rate that is none, and no room for the shares. */
static int billed_run(void) {
    uint8_t shares[2 * BTS_SHARE_SIZE + 1];
    memset(shares, 0xEE, sizeof shares);
    bts_bill none = bill(BTS_MOST_RATE + 1, shares, sizeof shares), no_room = bill(500000, bts_room(NULL), 0);
    if (none.number != BTS_BAD_RATE || none.index != 0 || none.total != 0 || none.charge != 0 || shares[0] != 0xEE) {
        return 13;
    }
    if (no_room.number != BTS_SHORT_ANSWERS || no_room.index != 0 || no_room.total != 0 || no_room.charge != 0) {
        return 14;
    }
    bts_bill some = bill(500000, shares, sizeof shares);
    if (some.number != BTS_OK || some.index != 2 || some.total != 3 || some.charge != 2) {
        return 15;
    }
    return bts_share_at(shares, 0) == 0 && bts_share_at(shares, 1) == 2 && shares[2 * BTS_SHARE_SIZE] == 0xEE ? 0 : 16;
}

/* The small sheet before it is run: the cycles of accepted_run without its value, and a board that stays. Then a board that is no
 * board, and no room for the answers. */
static int previewed_run(void) {
    uint8_t sheet[sizeof by_hand], answers[2 * BTS_ANSWER_SIZE + 1];
    const uint8_t board[BTS_BOARD_SIZE] = {0};
    make_sheet(sheet);
    memset(answers, 0xEE, sizeof answers);
    bts_report none = bts_preview(sheet, sizeof sheet, bts_bytes(NULL), 0, answers, sizeof answers);
    if (none.number != BTS_UNSOUND_BOARD || none.index != 0 || none.total != 0 || answers[0] != 0xEE) {
        return 24;
    }
    none = bts_preview(sheet, sizeof sheet, board, sizeof board, bts_room(NULL), 0);
    if (none.number != BTS_SHORT_ANSWERS || none.index != 0 || none.total != 0) {
        return 25;
    }
    bts_report report = bts_preview(sheet, sizeof sheet, board, sizeof board, answers, sizeof answers);
    bts_answer answer = bts_answer_at(answers, 1);
    if (report.number != BTS_OK || report.index != 2 || report.total != 3 || memcmp(sheet, by_hand, sizeof sheet) != 0) {
        return 26;
    }
    int kept = answers[2 * BTS_ANSWER_SIZE] == 0xEE && bts_board_waitcnt(board) == 0;
    return kept && answer.value == 0 && answer.cycles == 3 ? 0 : 27;
}

static bts_report with_grounds(uint8_t *grounds, size_t grounds_len) {
    uint8_t sheet[sizeof by_hand], board[BTS_BOARD_SIZE] = {0}, store[256] = {0}, answers[2 * BTS_ANSWER_SIZE];
    make_sheet(sheet);
    return bts_run_grounds(sheet, sizeof sheet, board, sizeof board, store, sizeof store, bts_bytes(NULL), 0, bts_bytes(NULL), 0,
                           answers, sizeof answers, grounds, grounds_len, 256, 0, 0, 0, 0, 0, 0);
}

/* The second step is a beat in EWRAM, the first has none; then a byte too little, and no room at all. */
static int grounded_run(void) {
    uint8_t grounds[2 * BTS_GROUNDS_SIZE + 1];
    memset(grounds, 0xEE, sizeof grounds);
    bts_report none = with_grounds(grounds, 2 * BTS_GROUNDS_SIZE - 1), no_room = with_grounds(bts_room(NULL), 0);
    if (none.number != BTS_SHORT_ANSWERS || none.index != 0 || none.total != 0 || grounds[0] != 0xEE) {
        return 28;
    }
    if (no_room.number != BTS_SHORT_ANSWERS || no_room.index != 0 || no_room.total != 0) {
        return 29;
    }
    bts_report some = with_grounds(grounds, sizeof grounds);
    if (some.number != BTS_OK || some.index != 2 || some.total != 3 || grounds[2 * BTS_GROUNDS_SIZE] != 0xEE) {
        return 30;
    }
    if (bts_ground_beats(grounds, 0) != 0 || bts_ground_beats(grounds, 1) != 1) {
        return 31;
    }
    return bts_ground_at(grounds, 1, 0) == BTS_GROUND_EWRAM && bts_ground_at(grounds, 1, 1) == BTS_GROUND_NONE ? 0 : 32;
}

/* The grounds by their words (docs/RULES.md, "The ground of a beat"), in the order of their numbers; and what are no grounds. */
static int names_of_grounds(void) {
    static const char *const words[] = {"hit", "seq", "flag", "block", "address", "ewram", "sram", "video", "fast"};
    static const int numbers[] = {BTS_GROUND_HIT,   BTS_GROUND_SEQ,  BTS_GROUND_FLAG,  BTS_GROUND_BLOCK, BTS_GROUND_ADDRESS,
                                  BTS_GROUND_EWRAM, BTS_GROUND_SRAM, BTS_GROUND_VIDEO, BTS_GROUND_FAST};
    for (uint32_t i = 0; i < 9; i++) {
        if (numbers[i] != BTS_CAST(int, i + 1) || strcmp(bts_ground_name(i + 1), words[i]) != 0) {
            return 33;
        }
    }
    return BTS_GROUNDS == 10 && strcmp(bts_ground_name(BTS_GROUND_NONE), "none") == 0 &&
                   strcmp(bts_ground_name(10), "unknown") == 0 && bts_ground_name(0xFFFFFFFF) == bts_ground_name(10)
               ? 0
               : 34;
}

/* Steps of no beat, of one, of 31 and of 32, which a block of 16 words can have. */
static int beats_of_grounds(void) {
    static const size_t beats[] = {0, 1, 31, 32};
    uint8_t grounds[4 * BTS_GROUNDS_SIZE] = {0};
    for (size_t k = 0; k < 4; k++) {
        memset(grounds + BTS_GROUNDS_SIZE * k, BTS_GROUND_SEQ, beats[k]);
    }
    for (size_t k = 0; k < 4; k++) {
        if (bts_ground_beats(grounds, k) != beats[k]) {
            return 35;
        }
    }
    return bts_ground_at(grounds, 2, 30) == BTS_GROUND_SEQ && bts_ground_at(grounds, 2, 31) == BTS_GROUND_NONE &&
                   bts_ground_at(grounds, 3, 31) == BTS_GROUND_SEQ
               ? 0
               : 36;
}

/* As the library lays it out. */
static int layout_of_bill(void) {
    if (offsetof(bts_bill, number) != 0 || offsetof(bts_bill, index) != 4) {
        return 17;
    }
    return offsetof(bts_bill, total) == 8 && offsetof(bts_bill, charge) == 16 && sizeof(bts_bill) == 24 ? 0 : 18;
}

/* Stores to EWRAM, a palette of 3 bytes, OAM and an SRAM: their hits are the bytes that landed. */
static int stores(void) {
    static const uint32_t writes[][3] = {
        {4, 0x02000000, 4}, {1, 0x05000001, 2}, {1, 0x05000003, 1}, {1, 0x07000000, 0}, {2, 0x07000000, 2}, {4, 0x0E000000, 1},
    };
    enum { COUNT = sizeof writes / sizeof writes[0] };
    uint8_t sheet[BTS_HEADER_SIZE + COUNT * BTS_RECORD_SIZE], board[BTS_BOARD_SIZE] = {0}, store[15] = {0};
    uint8_t answers[COUNT * BTS_ANSWER_SIZE];
    bts_put_header(sheet, COUNT);
    for (size_t k = 0; k < COUNT; k++) {
        bts_put_record(sheet, k, BTS_WRITE, BTS_CAST(uint8_t, writes[k][0]), 0, writes[k][1], 0x5A);
    }
    bts_report report = bts_run(sheet, sizeof sheet, board, sizeof board, store, sizeof store, bts_bytes(NULL), 0,
                                bts_bytes(NULL), 0, answers, sizeof answers, 4, 0, 0, 3, 0, 4, 4);
    size_t agreed = 0;
    while (agreed < COUNT && bts_answer_at(answers, agreed).hits == writes[agreed][2]) {
        agreed++;
    }
    return report.number == BTS_OK && agreed == COUNT ? 0 : 12;
}

/* Two words of ROM, N + S and S + S, and a third by a run of its own on the board that they left: S + S too. */
static int row_of_accesses(void) {
    static const uint64_t totals[] = {8 + 6, 6};
    uint8_t sheet[BTS_HEADER_SIZE + 2 * BTS_RECORD_SIZE], board[BTS_BOARD_SIZE] = {0}, answers[2 * BTS_ANSWER_SIZE];
    for (uint32_t i = 0; i < 2; i++) {
        uint32_t records = 2 - i;
        bts_put_header(sheet, records);
        for (uint32_t k = 0; k < records; k++) {
            bts_put_record(sheet, k, BTS_READ, 4, 0, 0x08000100 + 8 * i + 4 * k, 0);
        }
        bts_report report = bts_run(sheet, BTS_HEADER_SIZE + BTS_RECORD_SIZE * BTS_CAST(size_t, records), board, sizeof board,
                                    bts_room(NULL), 0, bts_bytes(NULL), 0, bts_bytes(NULL), 0, answers, sizeof answers, 0, 0, 0,
                                    0, 0, 0, 0);
        if (report.number != BTS_OK || report.total != totals[i]) {
            return 20;
        }
    }
    return bts_board_previous_address(board) == 0x08000108 && bts_board_previous_size(board) == 4 ? 0 : 21;
}

/* What is said of a board of so many zero bytes. */
static uint32_t number_for(size_t board_len) {
    uint8_t sheet[BTS_HEADER_SIZE], board[BTS_BOARD_SIZE] = {0};
    bts_put_header(sheet, 0);
    return bts_run(sheet, sizeof sheet, board, board_len, bts_room(NULL), 0, bts_bytes(NULL), 0, bts_bytes(NULL), 0,
                   bts_room(NULL), 0, 0, 0, 0, 0, 0, 0, 0).number;
}

/* A board as it was before version 2.0, and the same with eight zero bytes behind it. */
static int board_lengths(void) {
    if (number_for(72) != BTS_UNSOUND_BOARD || number_for(72 + 8) != BTS_OK || BTS_BOARD_SIZE != 72 + 8) {
        return 22;
    }
    return strstr(bts_refusal_text(BTS_UNSOUND_BOARD), " 80 bytes ") != NULL ? 0 : 23;
}

/* The headers of 3 records by hand: version 1, which bts_put_header goes on writing, and version 2; and one of a version that there
 * is none of, with both its bytes. */
static int headers(void) {
    static const uint8_t first[] = {'B', 'T', 'S', 1, 0, 0, 3, 0}, second[] = {'B', 'T', 'S', 2, 0, 0, 3, 0};
    static const uint8_t other[] = {'B', 'T', 'S', 0xFE, 0xCA, 0, 0, 0x10};
    uint8_t old[BTS_HEADER_SIZE], one[BTS_HEADER_SIZE], two[BTS_HEADER_SIZE], none[BTS_HEADER_SIZE];
    bts_put_header(old, 3);
    bts_put_header_of(one, BTS_VERSION_1, 3);
    bts_put_header_of(two, BTS_VERSION_2, 3);
    bts_put_header_of(none, 0xCAFE, BTS_MOST_RECORDS);
    if (memcmp(old, first, 8) != 0 || memcmp(one, first, 8) != 0 || memcmp(two, second, 8) != 0 || memcmp(none, other, 8) != 0) {
        return 37;
    }
    if (bts_sheet_version(old) != 1 || bts_sheet_version(two) != 2 || bts_sheet_version(none) != 0xCAFE) {
        return 38;
    }
    int numbers = BTS_VERSION == 1 && BTS_VERSION_1 == 1 && BTS_VERSION_2 == 2 && BTS_MOST_WORDS == 16;
    return numbers && BTS_BLOCK_READ == 10 && BTS_BLOCK_WRITE == 11 ? 0 : 39;
}

/* Two blocks of two words from 0x01FFFFFC on, over 5 bytes of EWRAM; `version` is that of the sheet. */
static bts_report with_blocks(uint32_t version, uint8_t *answers, uint8_t *grounds) {
    uint8_t sheet[BTS_HEADER_SIZE + 2 * BTS_RECORD_SIZE], board[BTS_BOARD_SIZE] = {0}, store[5] = {0x78, 0x56, 0x34, 0x12, 0x99};
    bts_put_header_of(sheet, version, 2);
    bts_put_record(sheet, 0, BTS_BLOCK_READ, 4, 0, 0x01FFFFFE, 2);
    bts_put_record(sheet, 1, BTS_BLOCK_WRITE, 4, 0, 0x02000000, 2);
    return bts_run_grounds(sheet, sizeof sheet, board, sizeof board, store, sizeof store, bts_bytes(NULL), 0, bts_bytes(NULL), 0,
                           answers, 2 * BTS_ANSWER_SIZE, grounds, 2 * BTS_GROUNDS_SIZE, 5, 0, 0, 0, 0, 0, 0);
}

/* The first has a word of no memory, 1 cycle, and one of EWRAM, 6; of the second, 5 of 8 bytes land. In version 1 the first is
 * faulty, and version 3 is none. */
static int blocks(void) {
    uint8_t answers[2 * BTS_ANSWER_SIZE], grounds[2 * BTS_GROUNDS_SIZE];
    bts_report old = with_blocks(BTS_VERSION_1, answers, grounds), none = with_blocks(3, answers, grounds);
    if (old.number != BTS_FAULTY_RECORD || old.index != 0 || none.number != BTS_BAD_VERSION || none.index != 0) {
        return 40;
    }
    bts_report report = with_blocks(BTS_VERSION_2, answers, grounds);
    bts_answer read = bts_answer_at(answers, 0), write = bts_answer_at(answers, 1);
    if (report.number != BTS_OK || report.index != 2 || report.total != 7 + 12) {
        return 41;
    }
    if (read.value != 0x12345678 || read.cycles != 7 || read.hits != 0 || write.value != 0 || write.cycles != 12) {
        return 42;
    }
    if (write.hits != 5 || bts_ground_beats(grounds, 0) != 3 || bts_ground_beats(grounds, 1) != 4) {
        return 43;
    }
    return bts_ground_at(grounds, 0, 0) == BTS_GROUND_FAST && bts_ground_at(grounds, 0, 2) == BTS_GROUND_EWRAM ? 0 : 44;
}

static int names(void) {
    if (strcmp(BTS_LIBRARY_VERSION, TEXT(BTS_LIBRARY_MAJOR) "." TEXT(BTS_LIBRARY_MINOR)) != 0) {
        return 6;
    }
    if (!NAMED(BTS_OK) || !NAMED(BTS_BAD_MARK) || !NAMED(BTS_BAD_VERSION) || !NAMED(BTS_BAD_SHAPE) || !NAMED(BTS_BAD_LENGTHS) ||
        !NAMED(BTS_UNSOUND_BOARD) || !NAMED(BTS_SHORT_ANSWERS) || !NAMED(BTS_FAULTY_RECORD) || !NAMED(BTS_BAD_RATE)) {
        return 7;
    }
    return BTS_REFUSALS == 9 && strcmp(bts_refusal_name(9), "unknown") == 0 &&
                   bts_refusal_text(0xFFFFFFFF) == bts_refusal_text(9)
               ? 0
               : 8;
}

/* Byte i of the board is i + 0x80, so that each field has its own value and no sign gets in. */
static int readers(void) {
    uint8_t b[BTS_BOARD_SIZE];
    for (size_t i = 0; i < sizeof b; i++) {
        b[i] = BTS_CAST(uint8_t, i + 0x80);
    }
    if (bts_board_waitcnt(b) != 0x8180 || bts_board_force(b) != 0x82 || bts_board_head(b) != 0x83 || bts_board_count(b) != 0x84 ||
        bts_board_filling(b) != 0x85 || bts_board_first_beat(b) != 0x86) {
        return 9;
    }
    if (bts_board_wait_left(b) != 0x8B8A8988 || bts_board_next_address(b) != 0x8F8E8D8C ||
        bts_board_head_address(b) != 0x93929190 || bts_board_halfword(b, 0) != 0x9594 || bts_board_halfword(b, 7) != 0xA3A2) {
        return 10;
    }
    if (bts_board_previous_address(b) != 0xC7C6C5C4 || bts_board_previous_size(b) != 0xC8) {
        return 19;
    }
    return bts_board_pc(b) == 0xA7A6A5A4 && bts_board_latch(b) == 0xABAAA9A8 && bts_board_vram_stores(b) == 0xB3B2B1B0AFAEADAC &&
                   bts_board_oam_stores(b) == 0xBBBAB9B8B7B6B5B4 && bts_board_palette_stores(b) == 0xC3C2C1C0BFBEBDBC
               ? 0
               : 11;
}

int main(void) {
    int results[] = {refused_run(),    accepted_run(),    names(),         readers(),       stores(),       billed_run(),
                     layout_of_bill(), row_of_accesses(), board_lengths(), previewed_run(), grounded_run(), names_of_grounds(),
                     beats_of_grounds(), headers(),       blocks()};
    int first = 0;
    for (size_t i = 0; i < sizeof results / sizeof results[0]; i++) {
        first = first != 0 ? first : results[i];
    }
    return first;
}
