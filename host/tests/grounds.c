/* bts_run_grounds beside bts_run, and its grounds beside a second reading of the rule (docs/RULES.md, "The ground of a beat"):
 * sheets and boards from a fixed seed, the largest sheet, runs that are alike and runs over no memories, and every refusal,
 * alone and with each that comes behind it; then grounds_text. Each buffer ends at a page that isn't there, and sheet, BIOS and
 * ROM can't be written. Each thing that is wrong is printed, and the last line says how many there were; the exit status is 1 if
 * there was one. */
#define _DEFAULT_SOURCE /* for anonymous pages */

#include "grounds.h"

#include <string.h>

#include "bts.h"
#include "pages.h"
#include "records.h"
#include "trial.h"

enum { SHEETS = 1500, STEPS = 60, BEYOND = 5, FAULTY = 2, STORE = 1000 };

/* All that a call is lent. What stands in one of these behind a length must stay as everything else must. */
struct lent {
    size_t steps, sheet_len, answers_len, grounds_len;
    size_t lengths[7];
    uint8_t sheet[BTS_MOST_SHEET], board[BTS_BOARD_SIZE], store[STORE], bios[64], rom[512];
    uint8_t answers[BTS_ANSWER_SIZE * BTS_MOST_RECORDS + BEYOND], grounds[BTS_GROUNDS_SIZE * BTS_MOST_RECORDS + BEYOND];
};

static struct lent lent, before, plain;

/* ---- what is lent */

/* `steps` records over short memories; answers and grounds have room for them and at most BEYOND bytes more. The board is left as
 * the caller has it. */
static void lend(size_t steps) {
    const size_t lengths[7] = {300, 200, 260, 40, 100, 40, 60};
    lent.steps = steps;
    lent.sheet_len = BTS_HEADER_SIZE + BTS_RECORD_SIZE * steps;
    lent.answers_len = BTS_ANSWER_SIZE * steps + below(BEYOND + 1);
    lent.grounds_len = BTS_GROUNDS_SIZE * steps + below(BEYOND + 1);
    memcpy(lent.lengths, lengths, sizeof lengths);
    fill(lent.store, sizeof lent.store);
    fill(lent.bios, sizeof lent.bios);
    fill(lent.rom, sizeof lent.rom);
    memset(lent.answers, 0xA5, sizeof lent.answers);
    memset(lent.grounds, 0x5A, sizeof lent.grounds);
    bts_put_header(lent.sheet, (uint32_t)steps);
    for (size_t k = 0; k < steps; k++) {
        put_any_record(lent.sheet, k);
    }
}

static const uint8_t *record_of(const struct lent *l, size_t k) {
    return l->sheet + BTS_HEADER_SIZE + BTS_RECORD_SIZE * k;
}

static bts_report run(struct lent *l) {
    const size_t *n = l->lengths;
    return bts_run(l->sheet, l->sheet_len, l->board, sizeof l->board, l->store, sizeof l->store, l->bios, sizeof l->bios, l->rom,
                   sizeof l->rom, l->answers, l->answers_len, n[0], n[1], n[2], n[3], n[4], n[5], n[6]);
}

/* A buffer that is written: it goes to its pages before the call, and comes back behind it. */
struct written {
    struct pages pages;
    uint8_t *from, *there;
    size_t len;
};

static uint8_t *take_there(struct written *w, uint8_t *from, size_t len) {
    w->from = from;
    w->len = len;
    w->there = copy_there(w->pages, from, len);
    return w->there;
}

static bts_report run_grounds(struct lent *l) {
    static struct pages only_read[3];
    static struct written w[4];
    const size_t *n = l->lengths;
    for (size_t i = 0; i < 4 && w[i].pages.at == NULL; i++) {
        w[i].pages = make_pages(sizeof l->grounds);
        only_read[i % 3] = make_pages(sizeof l->sheet);
    }
    bts_report report = bts_run_grounds(
        lend_there(only_read[0], l->sheet, l->sheet_len), l->sheet_len, take_there(&w[0], l->board, sizeof l->board),
        sizeof l->board, take_there(&w[1], l->store, sizeof l->store), sizeof l->store,
        lend_there(only_read[1], l->bios, sizeof l->bios), sizeof l->bios, lend_there(only_read[2], l->rom, sizeof l->rom),
        sizeof l->rom, take_there(&w[2], l->answers, l->answers_len), l->answers_len,
        take_there(&w[3], l->grounds, l->grounds_len), l->grounds_len, n[0], n[1], n[2], n[3], n[4], n[5], n[6]);
    for (size_t i = 0; i < 4; i++) {
        expect(guarded(w[i].pages, w[i].len), "what stands before a buffer", i);
        memcpy(w[i].from, w[i].there, w[i].len);
    }
    return report;
}

/* One record on a board, over no memories; its cycles. */
static uint32_t do_step(uint8_t *board, const uint8_t *record) {
    uint8_t sheet[BTS_HEADER_SIZE + BTS_RECORD_SIZE], answer[BTS_ANSWER_SIZE];
    bts_put_header(sheet, 1);
    memcpy(sheet + BTS_HEADER_SIZE, record, BTS_RECORD_SIZE);
    bts_report report = bts_run(sheet, sizeof sheet, board, BTS_BOARD_SIZE, bts_room(NULL), 0, bts_bytes(NULL), 0,
                                bts_bytes(NULL), 0, answer, sizeof answer, 0, 0, 0, 0, 0, 0, 0);
    expect(report.number == BTS_OK, "a step by itself", report.number);
    return bts_answer_at(answer, 0).cycles;
}

/* ---- a second reading */

static bool is_data(const uint8_t *record) {
    return record[0] == BTS_READ || record[0] == BTS_WRITE;
}

static bool in_rom(uint32_t address) {
    return address >= 0x08000000 && address < 0x0E000000;
}

static bool begins_block(uint32_t address) {
    return address % 0x20000 == 0;
}

/* A half fetched from ROM: what stands first in the prefetch, then the block, then the flag, which is the first half's. */
static uint8_t half_ground(const uint8_t *board, uint32_t address, bool first) {
    bool on = (bts_board_waitcnt(board) & 0x4000) != 0;
    if (on && bts_board_count(board) > 0 && bts_board_head_address(board) == (address & ~1u)) {
        return BTS_GROUND_HIT;
    }
    if (begins_block(address)) {
        return BTS_GROUND_BLOCK;
    }
    return first && bts_board_force(board) == 1 ? BTS_GROUND_FLAG : BTS_GROUND_SEQ;
}

static void fetch_grounds(const uint8_t *board, uint8_t size, uint32_t address, uint8_t *row) {
    if (!in_rom(address)) {
        row[0] = address >> 24 == 0x02 ? BTS_GROUND_EWRAM : BTS_GROUND_FAST;
        return;
    }
    row[0] = half_ground(board, address, true);
    if (size == 4) {
        row[1] = half_ground(board, address + 2, false);
    }
}

/* The first beat in ROM: the block, then whether it goes on where the previous access ended; both by the lowered address. */
static uint8_t rom_ground(const uint8_t *board, uint32_t lowered) {
    uint32_t previous = bts_board_previous_size(board), end = bts_board_previous_address(board) + previous;
    if (begins_block(lowered)) {
        return BTS_GROUND_BLOCK;
    }
    return previous != 0 && end == lowered ? BTS_GROUND_SEQ : BTS_GROUND_ADDRESS;
}

static void data_grounds(const uint8_t *board, uint8_t size, uint32_t address, uint8_t *row) {
    uint32_t page = address >> 24;
    if (in_rom(address)) {
        row[0] = rom_ground(board, address - address % size);
        row[1] = size == 4 ? BTS_GROUND_SEQ : BTS_GROUND_NONE;
    } else if (page == 0x02 || page == 0x05 || page == 0x06) {
        row[0] = page == 0x02 ? BTS_GROUND_EWRAM : BTS_GROUND_VIDEO;
        row[1] = size == 4 ? row[0] : BTS_GROUND_NONE;
    } else {
        row[0] = page == 0x0E || page == 0x0F ? BTS_GROUND_SRAM : BTS_GROUND_FAST;
    }
}

/* ---- what the grounds add up to */

/* 1 + the waits of a window's halfword, by RULES, "WAITCNT". */
static uint32_t rom_cycles(uint32_t waitcnt, uint32_t window, bool nonsequential) {
    static const uint32_t n_waits[] = {4, 3, 2, 8}, s_waits[] = {2, 4, 8};
    uint32_t at = 2 + 3 * window;
    if (nonsequential) {
        return 1 + n_waits[waitcnt >> at & 3];
    }
    return 1 + (waitcnt >> (at + 2) & 1 ? 1 : s_waits[window]);
}

static uint32_t beat_cycles(uint8_t ground, const uint8_t *board, const uint8_t *record) {
    static const uint32_t sram_waits[] = {4, 3, 2, 8};
    uint32_t waitcnt = bts_board_waitcnt(board), window = (bts_get32(record + 4) >> 25) - 4;
    switch (ground) {
    case BTS_GROUND_SEQ:
        return rom_cycles(waitcnt, window, false);
    case BTS_GROUND_FLAG:
    case BTS_GROUND_BLOCK:
    case BTS_GROUND_ADDRESS:
        return rom_cycles(waitcnt, window, true);
    case BTS_GROUND_EWRAM:
        return record[0] == BTS_INSTRUCTION && record[1] == 4 ? 6 : 3;
    case BTS_GROUND_SRAM:
        return 1 + sram_waits[waitcnt & 3];
    default:
        return 1; /* hit, video, fast */
    }
}

/* What an opcode costs beyond its fetch: what it costs in IWRAM, where the fetch is 1. */
static uint32_t internal_cycle(const uint8_t *record) {
    uint8_t board[BTS_BOARD_SIZE] = {0}, elsewhere[BTS_RECORD_SIZE];
    memcpy(elsewhere, record, BTS_RECORD_SIZE);
    bts_put32(elsewhere + 4, 0x03000000);
    return do_step(board, elsewhere) - 1;
}

/* The beats that step k was given, on the board before it, and the internal cycle. */
static uint32_t cycles_told(const struct lent *l, size_t k, const uint8_t *board) {
    const uint8_t *record = record_of(l, k);
    uint32_t sum = record[0] == BTS_INSTRUCTION ? internal_cycle(record) : 0;
    for (size_t beat = 0; beat < bts_ground_beats(l->grounds, k); beat++) {
        sum += beat_cycles(bts_ground_at(l->grounds, k, beat), board, record);
    }
    return sum;
}

/* ---- accepted */

/* How often each ground was met, of opcodes and of data; and ARM opcodes with a hit where the hits would tell otherwise. */
static unsigned long of_opcodes[BTS_GROUNDS], of_data[BTS_GROUNDS], two_hits, no_hits;

static void count_step(size_t k) {
    bool data = is_data(record_of(&lent, k));
    uint8_t first = bts_ground_at(lent.grounds, k, 0), second = bts_ground_at(lent.grounds, k, 1);
    uint8_t hits = bts_answer_at(lent.answers, k).hits;
    (data ? of_data : of_opcodes)[first < BTS_GROUNDS ? first : 0]++;
    (data ? of_data : of_opcodes)[second < BTS_GROUNDS ? second : 0]++;
    two_hits += !data && first == BTS_GROUND_HIT && second == BTS_GROUND_SEQ && hits == 2;
    no_hits += !data && first == BTS_GROUND_SEQ && second == BTS_GROUND_HIT && hits == 0;
}

/* Each step has the grounds of the second reading, on the board before it, and nothing behind them; they make its cycles. */
static void check_grounds(const uint8_t *board_before, unsigned long which) {
    uint8_t board[BTS_BOARD_SIZE];
    memcpy(board, board_before, sizeof board);
    for (size_t k = 0; k < lent.steps; k++) {
        const uint8_t *record = record_of(&lent, k);
        uint8_t row[BTS_GROUNDS_SIZE] = {0};
        bool told = is_data(record) || record[0] == BTS_INSTRUCTION;
        if (told) {
            (is_data(record) ? data_grounds : fetch_grounds)(board, record[1], bts_get32(record + 4), row);
            expect(cycles_told(&lent, k, board) == bts_answer_at(lent.answers, k).cycles, "what they add up to", which);
            count_step(k);
        }
        expect(memcmp(row, lent.grounds + BTS_GROUNDS_SIZE * k, sizeof row) == 0, "the grounds", which);
        do_step(board, record);
    }
}

static bool same_report(bts_report a, bts_report b) {
    return a.number == b.number && a.index == b.index && a.total == b.total;
}

/* What was lent is run as bts_run does it, and has its grounds besides. */
static void check_run(unsigned long which) {
    size_t used = BTS_GROUNDS_SIZE * lent.steps;
    memcpy(&before, &lent, sizeof before);
    memcpy(&plain, &lent, sizeof plain);
    bts_report r = run(&plain), g = run_grounds(&lent);
    expect(g.number == BTS_OK && g.index == lent.steps, "accepted", which);
    expect(same_report(g, r), "the report of bts_run", which);
    expect(memcmp(lent.grounds + used, before.grounds + used, sizeof lent.grounds - used) == 0, "bytes behind them", which);
    check_grounds(before.board, which);
    memcpy(plain.grounds, lent.grounds, sizeof lent.grounds);
    expect(memcmp(&lent, &plain, sizeof lent) == 0, "board, store and answers of bts_run", which);
}

static void check_sheets(void) {
    for (unsigned long i = 0; i < SHEETS; i++) {
        if (i % 16 == 0) {
            memset(lent.board, 0, sizeof lent.board);
        } /* else it is warm from the sheet before */
        lend(below(STEPS + 1));
        check_run(i);
    }
    lend(BTS_MOST_RECORDS);
    check_run(SHEETS);
    lend(0);
    lent.answers_len = lent.grounds_len = 0;
    check_run(SHEETS + 1);
}

/* Every ground was met where it can be, and nowhere else. */
static void check_met(void) {
    for (unsigned long ground = BTS_GROUND_HIT; ground < BTS_GROUNDS; ground++) {
        bool data_alone = ground == BTS_GROUND_ADDRESS || ground == BTS_GROUND_SRAM || ground == BTS_GROUND_VIDEO;
        bool opcodes_alone = ground == BTS_GROUND_HIT || ground == BTS_GROUND_FLAG;
        expect(data_alone ? of_opcodes[ground] == 0 : of_opcodes[ground] > 20, "how often of opcodes", ground);
        expect(opcodes_alone ? of_data[ground] == 0 : of_data[ground] > 20, "how often of data", ground);
    }
    expect(two_hits > 20, "hit seq with hits 2", two_hits);
    expect(no_hits > 5, "seq hit with hits 0", no_hits);
}

/* Another run that is alike: other memories, stored values and latches, and a board with other halfwords, latch and counters. */
static void change_alike(void) {
    fill(lent.store, sizeof lent.store);
    fill(lent.rom, sizeof lent.rom);
    fill(lent.board + BTS_BOARD_HALFWORDS, BTS_BOARD_PC - BTS_BOARD_HALFWORDS);
    fill(lent.board + BTS_BOARD_LATCH, BTS_BOARD_PREVIOUS_ADDRESS - BTS_BOARD_LATCH);
    for (size_t k = 0; k < lent.steps; k++) {
        uint8_t *record = lent.sheet + BTS_HEADER_SIZE + BTS_RECORD_SIZE * k;
        if (record[0] == BTS_WRITE || record[0] == BTS_LATCH) {
            bts_put32(record + 8, any_number());
        }
    }
}

/* It has the same grounds, and so has the run over no memories, from which a preview has them. */
static void check_alike(void) {
    uint8_t bare[BTS_GROUNDS_SIZE * STEPS], unread[BTS_ANSWER_SIZE * STEPS];
    for (unsigned long i = 0; i < SHEETS; i++) {
        lend(STEPS);
        memcpy(&plain, &lent, sizeof plain);
        memcpy(&before, &lent, sizeof before);
        bts_report one = run_grounds(&plain);
        change_alike();
        bts_report other = run_grounds(&lent);
        expect(one.number == BTS_OK && same_report(one, other), "the report of an alike run", i);
        expect(memcmp(lent.grounds, plain.grounds, sizeof bare) == 0, "the grounds of an alike run", i);
        bts_report none = bts_run_grounds(before.sheet, before.sheet_len, before.board, sizeof before.board, bts_room(NULL), 0,
                                          bts_bytes(NULL), 0, bts_bytes(NULL), 0, unread, sizeof unread, bare, sizeof bare, 0, 0,
                                          0, 0, 0, 0, 0);
        expect(same_report(one, none), "the report over no memories", i);
        expect(memcmp(bare, plain.grounds, sizeof bare) == 0, "the grounds over no memories", i);
    }
}

/* ---- refused */

static void bad_mark(void) { lent.sheet[0] = 'X'; }
static void bad_version(void) { lent.sheet[3] = 3; }
static void bad_shape(void) { lent.sheet[5] = 1; }
static void bad_lengths(void) { lent.lengths[0]++; }
static void unsound_board(void) { lent.board[7] = 1; }
static void short_answers(void) { lent.answers_len = BTS_ANSWER_SIZE * STEPS - 1; }
static void short_grounds(void) { lent.grounds_len = BTS_GROUNDS_SIZE * STEPS - 1; }
static void few_grounds(void) { lent.grounds_len = BTS_GROUNDS_SIZE * (STEPS - 1); }
static void no_grounds(void) { lent.grounds_len = 0; }
static void faulty_record(void) { lent.sheet[BTS_HEADER_SIZE + BTS_RECORD_SIZE * FAULTY] = 99; }

/* What can be wrong, in the order in which it is refused. */
static const struct {
    void (*spoil)(void);
    uint32_t number, index;
} faults[] = {
    {bad_mark, BTS_BAD_MARK, 0},           {bad_version, BTS_BAD_VERSION, 0},     {bad_shape, BTS_BAD_SHAPE, 0},
    {bad_lengths, BTS_BAD_LENGTHS, 0},     {unsound_board, BTS_UNSOUND_BOARD, 0}, {short_answers, BTS_SHORT_ANSWERS, 0},
    {short_grounds, BTS_SHORT_ANSWERS, 0}, {few_grounds, BTS_SHORT_ANSWERS, 0},   {no_grounds, BTS_SHORT_ANSWERS, 0},
    {faulty_record, BTS_FAULTY_RECORD, FAULTY},
};

enum { FAULTS = sizeof faults / sizeof faults[0] };

/* Fault i with fault j, or alone where they are one; `which` is a hundred times i, and j. No byte of what was lent is another. */
static void check_fault(size_t i, size_t j) {
    unsigned long which = 100 * i + j;
    memset(lent.board, 0, sizeof lent.board);
    lend(STEPS);
    faults[j].spoil();
    faults[i].spoil();
    memcpy(&before, &lent, sizeof before);
    bts_report g = run_grounds(&lent);
    expect(g.number == faults[i].number && g.index == faults[i].index && g.total == 0, "the refusal", which);
    expect(memcmp(&lent, &before, sizeof lent) == 0, "a refusal changes nothing", which);
}

static void check_refusals(void) {
    for (size_t i = 0; i < FAULTS; i++) {
        for (size_t j = i; j < FAULTS; j++) {
            check_fault(i, j);
        }
    }
}

/* ---- text */

/* No beat, one, two, and as many of the longest word as there is room for. */
static void check_text(void) {
    uint8_t grounds[4 * BTS_GROUNDS_SIZE] = {0};
    char text[GROUNDS_TEXT_ROOM];
    grounds[BTS_GROUNDS_SIZE] = grounds[2 * BTS_GROUNDS_SIZE] = BTS_GROUND_HIT;
    grounds[2 * BTS_GROUNDS_SIZE + 1] = BTS_GROUND_SEQ;
    memset(grounds + 3 * BTS_GROUNDS_SIZE, BTS_GROUND_ADDRESS, BTS_GROUNDS_SIZE);
    grounds_text(grounds, 0, text);
    expect(strcmp(text, "") == 0, text, 0);
    grounds_text(grounds, 1, text);
    expect(strcmp(text, "hit") == 0, text, 1);
    grounds_text(grounds, 2, text);
    expect(strcmp(text, "hit seq") == 0, text, 2);
    grounds_text(grounds, 3, text);
    expect(strlen(text) == 32 * 8 - 1 && strcmp(text + 30 * 8, "address address") == 0, text, 3);
}

int main(void) {
    check_sheets();
    check_met();
    check_alike();
    check_refusals();
    check_text();
    printf("%lu wrong\n", wrongs);
    return wrongs != 0;
}
