/* bts_preview beside bts_run: sheets and boards from a fixed seed, over memories of several lengths and contents; the largest
 * sheet; every refusal, alone and with each that comes behind it; sheets and boards with bytes changed at random. Sheet and board
 * lie in pages that can't be written, with one behind them that can't be read. Each thing that is wrong is printed, and the last
 * line says how many there were; the exit status is 1 if there was one. */
#define _DEFAULT_SOURCE /* for anonymous pages */

#include <string.h>

#include "bts.h"
#include "pages.h"
#include "records.h"
#include "trial.h"

enum { SHEETS = 1500, STEPS = 60, BEYOND = 5, FAULTY = 2, CHANGED = 20000 };

/* What a call is lent, as it should be seen: the pages have a copy of it. */
static struct {
    size_t steps, sheet_len, board_len, answers_len;
    uint8_t sheet[BTS_MOST_SHEET], board[BTS_BOARD_SIZE + 1], answers[BTS_ANSWER_SIZE * BTS_MOST_RECORDS + BEYOND];
} lent;

/* ---- memories */

enum {
    STORE_MOST = BTS_EWRAM_SIZE + BTS_IWRAM_SIZE + BTS_IO_SIZE + BTS_PALETTE_SIZE + BTS_VRAM_SIZE + BTS_OAM_SIZE + BTS_SRAM_SIZE,
    ROM_MOST = 0x40000
};

/* Lengths that the run accepts: none at all, short and odd ones, the physical ones, and some of each. */
static const struct memories {
    size_t bios, rom, lengths[7];
} all_memories[] = {
    {0, 0, {0, 0, 0, 0, 0, 0, 0}},
    {64, 511, {300, 201, 260, 40, 99, 40, 61}},
    {BTS_BIOS_SIZE, ROM_MOST, {BTS_EWRAM_SIZE, BTS_IWRAM_SIZE, BTS_IO_SIZE, BTS_PALETTE_SIZE, BTS_VRAM_SIZE, BTS_OAM_SIZE,
                               BTS_SRAM_SIZE}},
    {0, 3, {BTS_EWRAM_SIZE, 0, BTS_IO_SIZE, 1, BTS_VRAM_SIZE, 0, 32768}},
};

enum { MEMORIES = sizeof all_memories / sizeof all_memories[0] };

/* What they hold is what the runs before left there: any contents will do. */
static uint8_t store[STORE_MOST], bios[BTS_BIOS_SIZE], rom[ROM_MOST];

/* The run of what is lent, on a copy of its board, over memories m; `more` is added to the first length. */
static bts_report run(const struct memories *m, size_t more, uint8_t *board, uint8_t *answers) {
    const size_t *n = m->lengths;
    memcpy(board, lent.board, lent.board_len);
    return bts_run(lent.sheet, lent.sheet_len, board, lent.board_len, store, n[0] + n[1] + n[2] + n[3] + n[4] + n[5] + n[6], bios,
                   m->bios, rom, m->rom, answers, lent.answers_len, n[0] + more, n[1], n[2], n[3], n[4], n[5], n[6]);
}

/* ---- what is lent */

/* `steps` records; answers has room for them and at most BEYOND bytes more. The board is left as the caller has it. */
static void lend(size_t steps) {
    lent.steps = steps;
    lent.sheet_len = BTS_HEADER_SIZE + BTS_RECORD_SIZE * steps;
    lent.board_len = BTS_BOARD_SIZE;
    lent.answers_len = BTS_ANSWER_SIZE * steps + below(BEYOND + 1);
    memset(lent.answers, GUARD, sizeof lent.answers);
    bts_put_header(lent.sheet, (uint32_t)steps);
    for (size_t k = 0; k < steps; k++) {
        put_any_record(lent.sheet, k);
    }
}

/* ---- the preview of it */

/* A write to sheet or board would end the program. */
static bts_report preview(uint8_t *answers) {
    static struct pages sheet_pages, board_pages, answer_pages;
    if (sheet_pages.at == NULL) {
        sheet_pages = make_pages(sizeof lent.sheet);
        board_pages = make_pages(sizeof lent.board);
        answer_pages = make_pages(sizeof lent.answers);
    }
    const uint8_t *sheet = lend_there(sheet_pages, lent.sheet, lent.sheet_len);
    const uint8_t *board = lend_there(board_pages, lent.board, lent.board_len);
    uint8_t *written = copy_there(answer_pages, lent.answers, lent.answers_len);
    bts_report report = bts_preview(sheet, lent.sheet_len, board, lent.board_len, written, lent.answers_len);
    expect(memcmp(sheet, lent.sheet, lent.sheet_len) == 0, "the sheet stays", 0);
    expect(memcmp(board, lent.board, lent.board_len) == 0, "the board stays", 0);
    expect(guarded(answer_pages, lent.answers_len), "what is before the answers stays", 0);
    memset(answers, GUARD, sizeof lent.answers);
    memcpy(answers, written, lent.answers_len);
    return report;
}

static uint8_t previewed[sizeof lent.answers], answered[sizeof lent.answers], board_after[sizeof lent.board];

/* ---- accepted */

/* How often it was met: what is left out, and what is kept though its like is left out. */
static struct {
    unsigned long values, hits, idle, fetched, taken;
} met;

/* The answers of a run without what hangs on the memories. */
static void leave_out(uint8_t *answers) {
    for (size_t k = 0; k < lent.steps; k++) {
        uint8_t kind = lent.sheet[BTS_HEADER_SIZE + BTS_RECORD_SIZE * k], *answer = answers + BTS_ANSWER_SIZE * k;
        bts_answer a = bts_answer_at(answers, k);
        if (kind == BTS_READ || kind == BTS_FETCH) {
            met.values += a.value != 0;
            memset(answer, 0, 4);
        }
        if (kind == BTS_WRITE) {
            met.hits += a.hits != 0;
            answer[8] = 0;
        }
        met.idle += kind == BTS_INSTRUCTION && a.value != 0;
        met.taken += kind == BTS_INSTRUCTION && a.hits != 0;
        met.fetched += kind == BTS_FETCH && a.hits != 0;
    }
}

static bool same_report(bts_report a, bts_report b) {
    return a.number == b.number && a.index == b.index && a.total == b.total;
}

/* What is lent is priced as the run does it over each of the memories; what stands behind the answers is compared too. */
static void check_preview(unsigned long which) {
    bts_report p = preview(previewed);
    expect(p.number == BTS_OK && p.index == lent.steps, "accepted", which);
    for (size_t m = 0; m < MEMORIES; m++) {
        memset(answered, GUARD, sizeof answered);
        bts_report r = run(&all_memories[m], 0, board_after, answered);
        leave_out(answered);
        expect(same_report(p, r), "the report of bts_run", which);
        expect(memcmp(previewed, answered, sizeof previewed) == 0, "the answers of bts_run", which);
    }
}

static void check_sheets(void) {
    for (unsigned long i = 0; i < SHEETS; i++) {
        if (i % 16 == 0) {
            memset(lent.board, 0, sizeof lent.board);
        }
        lend(below(STEPS + 1));
        check_preview(i);
        memcpy(lent.board, board_after, BTS_BOARD_SIZE); /* warm for the next */
    }
    expect(met.values > 1000 && met.hits > 1000, "something is left out", met.values);
    expect(met.idle > 1000 && met.fetched > 200 && met.taken > 200, "something is kept", met.fetched);
}

/* The longest sheet, with the largest total; an empty one, which needs no room at all. */
static void check_ends(void) {
    memset(lent.board, 0, sizeof lent.board);
    lend(BTS_MOST_RECORDS);
    check_preview(SHEETS);
    for (size_t k = 0; k < BTS_MOST_RECORDS; k++) {
        bts_put_record(lent.sheet, k, BTS_IDLE, 0, 0, 0, 0xFFFFFFFF);
    }
    check_preview(SHEETS + 1);
    expect(preview(previewed).total == 0xFFFFFFFFull * BTS_MOST_RECORDS, "the largest total", 0);
    lend(0);
    lent.answers_len = 0;
    check_preview(SHEETS + 2);
    bts_report none = bts_preview(lent.sheet, lent.sheet_len, lent.board, lent.board_len, bts_room(NULL), 0);
    expect(none.number == BTS_OK && none.index == 0 && none.total == 0, "no answers", 0);
}

/* ---- refused */

static void short_sheet(void) { lent.sheet_len = 7; }
static void bad_mark(void) { lent.sheet[0] = 'X'; }
static void bad_version(void) { lent.sheet[3] = 3; }
static void bad_shape(void) { lent.sheet[5] = 1; }
static void bad_count(void) { bts_put_header(lent.sheet, STEPS + 1); }
static void long_sheet(void) { lent.sheet_len++; }
static void short_board(void) { lent.board_len = BTS_BOARD_SIZE - 1; }
static void old_board(void) { lent.board_len = 72; }
static void long_board(void) { lent.board_len = BTS_BOARD_SIZE + 1; }
static void unsound_board(void) { lent.board[7] = 1; }
static void short_answers(void) { lent.answers_len = BTS_ANSWER_SIZE * STEPS - 1; }
static void no_answers(void) { lent.answers_len = 0; }
static void faulty_record(void) { lent.sheet[BTS_HEADER_SIZE + BTS_RECORD_SIZE * FAULTY] = 99; }

/* What can be wrong, in the order in which it is refused. */
static const struct {
    void (*spoil)(void);
    uint32_t number, index;
} faults[] = {
    {short_sheet, BTS_BAD_MARK, 0},        {bad_mark, BTS_BAD_MARK, 0},          {bad_version, BTS_BAD_VERSION, 0},
    {bad_shape, BTS_BAD_SHAPE, 0},         {bad_count, BTS_BAD_SHAPE, 0},        {long_sheet, BTS_BAD_SHAPE, 0},
    {short_board, BTS_UNSOUND_BOARD, 0},   {old_board, BTS_UNSOUND_BOARD, 0},    {long_board, BTS_UNSOUND_BOARD, 0},
    {unsound_board, BTS_UNSOUND_BOARD, 0}, {short_answers, BTS_SHORT_ANSWERS, 0}, {no_answers, BTS_SHORT_ANSWERS, 0},
    {faulty_record, BTS_FAULTY_RECORD, FAULTY},
};

enum { FAULTS = sizeof faults / sizeof faults[0] };

static bool untouched(const uint8_t *answers) {
    for (size_t i = 0; i < sizeof lent.answers; i++) {
        if (answers[i] != GUARD) {
            return false;
        }
    }
    return true;
}

/* Fault i with fault j, or alone where they are one; `which` is a hundred times i, and j. The run is refused alike; and over
 * lengths that don't add up it is refused with 4 where the preview looks further. */
static void check_fault(size_t i, size_t j) {
    unsigned long which = 100 * i + j;
    memset(lent.board, 0, sizeof lent.board);
    lend(STEPS);
    faults[j].spoil();
    faults[i].spoil();
    bts_report p = preview(previewed);
    expect(p.number == faults[i].number && p.index == faults[i].index && p.total == 0, "the refusal", which);
    expect(untouched(previewed), "a refusal changes nothing", which);
    expect(same_report(p, run(&all_memories[1], 0, board_after, answered)), "the refusal of bts_run", which);
    bts_report bad = run(&all_memories[1], 1, board_after, answered);
    expect(bad.number == (p.number < BTS_BAD_LENGTHS ? p.number : BTS_BAD_LENGTHS), "the lengths are not looked at", which);
}

static void check_refusals(void) {
    for (size_t i = 0; i < FAULTS; i++) {
        for (size_t j = i; j < FAULTS; j++) {
            check_fault(i, j);
        }
    }
    lend(STEPS);
    memset(lent.board, 0, sizeof lent.board);
    expect(run(&all_memories[1], 1, board_after, answered).number == BTS_BAD_LENGTHS, "bad lengths", 0);
    check_preview(SHEETS + 3);
}

/* ---- bytes changed at random */

/* A few bytes of the header, of a record or of the board are others: the preview and the run say the same of it, whatever that
 * is. All the numbers but 4 and 8 are met. */
static void check_changed(void) {
    unsigned long times[BTS_REFUSALS + 1] = {0};
    for (unsigned long i = 0; i < CHANGED; i++) {
        memset(lent.board, 0, sizeof lent.board);
        lend(4);
        lent.answers_len = BTS_ANSWER_SIZE * 4 - (below(16) == 0);
        for (uint32_t change = below(3); change > 0; change--) {
            uint8_t value = (uint8_t)(below(2) == 0 ? below(256) : below(5));
            if (below(2) == 0) {
                lent.board[below(BTS_BOARD_SIZE)] = value;
            } else {
                lent.sheet[below(4) == 0 ? below(BTS_HEADER_SIZE) : below((uint32_t)lent.sheet_len)] = value;
            }
        }
        bts_report p = preview(previewed);
        memset(answered, GUARD, sizeof answered);
        expect(same_report(p, run(&all_memories[2], 0, board_after, answered)), "the report of bts_run, changed", i);
        times[p.number < BTS_REFUSALS ? p.number : BTS_REFUSALS]++;
        if (p.number == BTS_OK) {
            leave_out(answered);
        }
        expect(memcmp(previewed, answered, sizeof previewed) == 0, "the answers of bts_run, changed", i);
    }
    for (unsigned long number = 0; number <= BTS_REFUSALS; number++) {
        bool never = number == BTS_BAD_LENGTHS || number == BTS_BAD_RATE || number == BTS_REFUSALS;
        expect(never == (times[number] == 0), "how often a number is given", number);
    }
}

int main(void) {
    fill(store, sizeof store);
    fill(bios, sizeof bios);
    fill(rom, sizeof rom);
    check_sheets();
    check_ends();
    check_refusals();
    check_changed();
    printf("%lu wrong\n", wrongs);
    return wrongs != 0;
}
