/* bts_run_tariff beside bts_run: sheets from a fixed seed at many rates, the largest sheet, runs that are alike, and every
 * refusal, alone and with each that comes behind it; then money_text. Each thing that is wrong is printed, and the last line says
 * how many there were; the exit status is 1 if there was one. */
#include "money.h"

#include <string.h>

#include "bts.h"
#include "trial.h"

enum { SHEETS = 2000, STEPS = 40, BEYOND = 5, FAULTY = 2, STORE = 1000 };

static const uint32_t good_rates[] = {1, 307, 999999, BTS_MOST_RATE};
static const uint32_t bad_rates[] = {0, BTS_MOST_RATE + 1, 0xFFFFFFFF};

enum { GOOD_RATES = sizeof good_rates / sizeof good_rates[0], BAD_RATES = sizeof bad_rates / sizeof bad_rates[0] };

/* All that a call is lent. What stands in one of these behind a length must stay as everything else must. */
struct lent {
    size_t steps, sheet_len, answers_len, shares_len;
    size_t lengths[7];
    uint8_t sheet[BTS_MOST_SHEET], board[BTS_BOARD_SIZE], store[STORE], bios[64], rom[512];
    uint8_t answers[BTS_ANSWER_SIZE * BTS_MOST_RECORDS + BEYOND], shares[BTS_SHARE_SIZE * BTS_MOST_RECORDS + BEYOND];
};

static struct lent lent, before, plain;

/* ---- what is lent */

/* A record that breaks no rule, with an address in any area. */
static void put_any_record(size_t k) {
    uint8_t kind = (uint8_t)(1 + below(9)), size = 0;
    bool data = kind == BTS_READ || kind == BTS_WRITE, opcode = kind == BTS_INSTRUCTION;
    bool placed = data || opcode || kind == BTS_FETCH || kind == BTS_RESTART || kind == BTS_PC;
    bool valued = opcode || kind == BTS_WRITE || kind == BTS_IDLE || kind == BTS_LATCH;
    if (data || opcode) {
        size = opcode ? (uint8_t)(2 << below(2)) : (uint8_t)(1 << below(3));
    }
    uint32_t value = kind == BTS_WAITCNT ? below(0x10000) : kind == BTS_IDLE && below(2) == 0 ? below(50) : any_number();
    bts_put_record(lent.sheet, k, kind, size, opcode ? (uint8_t)below(2) : 0, placed ? below(16) << 24 | below(0x300) : 0,
                   valued || kind == BTS_WAITCNT ? value : 0);
}

/* A fresh board, or one with a word of ROM as its previous access. */
static void make_board(void) {
    memset(lent.board, 0, sizeof lent.board);
    if (below(2) == 0) {
        bts_put32(lent.board + BTS_BOARD_PREVIOUS_ADDRESS, 0x08000000 + 4 * below(0x300 / 4));
        lent.board[BTS_BOARD_PREVIOUS_SIZE] = 4;
    }
}

/* `steps` records and a board, over short memories; answers and shares have room for them and at most BEYOND bytes more. */
static void lend(size_t steps) {
    const size_t lengths[7] = {300, 200, 260, 40, 100, 40, 60};
    lent.steps = steps;
    lent.sheet_len = BTS_HEADER_SIZE + BTS_RECORD_SIZE * steps;
    lent.answers_len = BTS_ANSWER_SIZE * steps + below(BEYOND + 1);
    lent.shares_len = BTS_SHARE_SIZE * steps + below(BEYOND + 1);
    memcpy(lent.lengths, lengths, sizeof lengths);
    make_board();
    fill(lent.store, sizeof lent.store);
    fill(lent.bios, sizeof lent.bios);
    fill(lent.rom, sizeof lent.rom);
    memset(lent.answers, 0xA5, sizeof lent.answers);
    memset(lent.shares, 0x5A, sizeof lent.shares);
    bts_put_header(lent.sheet, (uint32_t)steps);
    for (size_t k = 0; k < steps; k++) {
        put_any_record(k);
    }
}

static bts_report run(struct lent *l) {
    const size_t *n = l->lengths;
    return bts_run(l->sheet, l->sheet_len, l->board, sizeof l->board, l->store, sizeof l->store, l->bios, sizeof l->bios, l->rom,
                   sizeof l->rom, l->answers, l->answers_len, n[0], n[1], n[2], n[3], n[4], n[5], n[6]);
}

static bts_bill bill(struct lent *l, uint32_t rate) {
    const size_t *n = l->lengths;
    return bts_run_tariff(l->sheet, l->sheet_len, l->board, sizeof l->board, l->store, sizeof l->store, l->bios, sizeof l->bios,
                          l->rom, sizeof l->rom, l->answers, l->answers_len, l->shares, l->shares_len, n[0], n[1], n[2], n[3],
                          n[4], n[5], n[6], rate);
}

/* ---- accepted */

/* docs/RULES.md, "The charge and the shares". A sheet's total is at most 4,096 times 2^32 - 1, so the product has 64 bits. */
static uint64_t charge_of(uint64_t total, uint32_t rate) {
    return (total * rate + 999999) / 1000000;
}

/* Whether each share is the difference of two charges, and they add up. */
static bool shares_fit(uint32_t rate, uint64_t charge) {
    uint64_t total = 0, sum = 0;
    for (size_t k = 0; k < lent.steps; k++) {
        uint64_t so_far = charge_of(total, rate);
        total += bts_answer_at(lent.answers, k).cycles;
        if (bts_share_at(lent.shares, k) != charge_of(total, rate) - so_far) {
            return false;
        }
        sum += bts_share_at(lent.shares, k);
    }
    return sum == charge && charge == charge_of(total, rate);
}

/* What was lent is billed as it must be, and is otherwise run as bts_run does it. */
static void check_bill(uint32_t rate, unsigned long which) {
    size_t used = BTS_SHARE_SIZE * lent.steps;
    memcpy(&plain, &lent, sizeof plain);
    bts_report r = run(&plain);
    bts_bill b = bill(&lent, rate);
    expect(b.number == BTS_OK && b.index == lent.steps, "accepted", which);
    expect(b.number == r.number && b.index == r.index && b.total == r.total, "the report of bts_run", which);
    expect(shares_fit(rate, b.charge), "shares and charge", which);
    expect(memcmp(lent.shares + used, plain.shares + used, sizeof lent.shares - used) == 0, "bytes behind the shares", which);
    memcpy(plain.shares, lent.shares, sizeof lent.shares);
    expect(memcmp(&lent, &plain, sizeof lent) == 0, "board, store and answers of bts_run", which);
}

static void check_sheets(void) {
    for (unsigned long i = 0; i < SHEETS; i++) {
        lend(below(STEPS + 1));
        check_bill(i % 2 == 0 ? good_rates[i / 2 % GOOD_RATES] : 1 + below(BTS_MOST_RATE), i);
    }
    for (unsigned long i = 0; i < GOOD_RATES; i++) {
        lend(BTS_MOST_RECORDS);
        for (size_t k = 0; k < BTS_MOST_RECORDS; k++) {
            bts_put_record(lent.sheet, k, BTS_IDLE, 0, 0, 0, 0xFFFFFFFF);
        }
        check_bill(good_rates[i], SHEETS + i);
    }
}

/* An empty sheet needs no room at all. */
static void check_empty(void) {
    lend(0);
    lent.answers_len = lent.shares_len = 0;
    check_bill(307, 0);
}

/* Another run that is alike: other memories, stored values and latches, and a board with other halfwords, latch and counters. */
static void check_alike(void) {
    for (unsigned long i = 0; i < SHEETS; i++) {
        lend(STEPS);
        memcpy(&plain, &lent, sizeof plain);
        bts_bill one = bill(&plain, 307);
        fill(lent.store, sizeof lent.store);
        fill(lent.rom, sizeof lent.rom);
        fill(lent.board + BTS_BOARD_HALFWORDS, BTS_BOARD_PC - BTS_BOARD_HALFWORDS);
        fill(lent.board + BTS_BOARD_LATCH, BTS_BOARD_PREVIOUS_ADDRESS - BTS_BOARD_LATCH);
        for (size_t k = 0; k < STEPS; k++) {
            uint8_t *record = lent.sheet + BTS_HEADER_SIZE + BTS_RECORD_SIZE * k;
            if (record[0] == BTS_WRITE || record[0] == BTS_LATCH) {
                bts_put32(record + 8, any_number());
            }
        }
        bts_bill other = bill(&lent, 307);
        expect(one.number == BTS_OK && other.number == BTS_OK && one.charge == other.charge, "the charge of an alike run", i);
        expect(memcmp(lent.shares, plain.shares, BTS_SHARE_SIZE * STEPS) == 0, "the shares of an alike run", i);
    }
}

/* ---- refused */

static void bad_mark(void) { lent.sheet[0] = 'X'; }
static void bad_version(void) { lent.sheet[3] = 3; }
static void bad_shape(void) { lent.sheet[5] = 1; }
static void bad_lengths(void) { lent.lengths[0]++; }
static void unsound_board(void) { lent.board[7] = 1; }
static void short_answers(void) { lent.answers_len = BTS_ANSWER_SIZE * STEPS - 1; }
static void short_shares(void) { lent.shares_len = BTS_SHARE_SIZE * STEPS - 1; }
static void no_shares(void) { lent.shares_len = 0; }
static void faulty_record(void) { lent.sheet[BTS_HEADER_SIZE + BTS_RECORD_SIZE * FAULTY] = 99; }

/* What can be wrong beside the rate, in the order in which it is refused. */
static const struct {
    void (*spoil)(void);
    uint32_t number, index;
} faults[] = {
    {bad_mark, BTS_BAD_MARK, 0},
    {bad_version, BTS_BAD_VERSION, 0},
    {bad_shape, BTS_BAD_SHAPE, 0},
    {bad_lengths, BTS_BAD_LENGTHS, 0},
    {unsound_board, BTS_UNSOUND_BOARD, 0},
    {short_answers, BTS_SHORT_ANSWERS, 0},
    {short_shares, BTS_SHORT_ANSWERS, 0},
    {no_shares, BTS_SHORT_ANSWERS, 0},
    {faulty_record, BTS_FAULTY_RECORD, FAULTY},
};

enum { FAULTS = sizeof faults / sizeof faults[0] };

/* What is lent is refused so, and no byte of it is another. */
static void check_refusal(uint32_t rate, uint32_t number, uint32_t index, unsigned long which) {
    memcpy(&before, &lent, sizeof before);
    bts_bill b = bill(&lent, rate);
    expect(b.number == number && b.index == index, "the refusal", which);
    expect(b.total == 0 && b.charge == 0, "a refusal's total and charge", which);
    expect(memcmp(&lent, &before, sizeof lent) == 0, "a refusal changes nothing", which);
}

/* Fault i with fault j, or alone where they are one, under good rates and bad ones; `which` is ten times i, and j. */
static void check_faults(size_t i, size_t j) {
    for (size_t r = 0; r < GOOD_RATES + BAD_RATES; r++) {
        uint32_t rate = r < GOOD_RATES ? good_rates[r] : bad_rates[r - GOOD_RATES];
        lend(STEPS);
        faults[i].spoil();
        faults[j].spoil();
        check_refusal(rate, faults[i].number, faults[i].index, 10 * i + j);
    }
}

static void check_refusals(void) {
    for (size_t i = 0; i < FAULTS; i++) {
        for (size_t j = i; j < FAULTS; j++) {
            check_faults(i, j);
        }
    }
    for (size_t r = 0; r < BAD_RATES; r++) {
        lend(STEPS);
        check_refusal(bad_rates[r], BTS_BAD_RATE, 0, bad_rates[r]);
        lend(0);
        check_refusal(bad_rates[r], BTS_BAD_RATE, 0, bad_rates[r]);
    }
}

/* ---- money */

static void check_money(void) {
    static const struct {
        uint64_t cents;
        const char *text;
    } rows[] = {
        {0, "0.00"}, {5, "0.05"}, {10, "0.10"}, {99, "0.99"}, {100, "1.00"}, {307, "3.07"}, {100000, "1000.00"},
        {17592186040320, "175921860403.20"}, {9007199254740993, "90071992547409.93"}, {UINT64_MAX, "184467440737095516.15"},
    };
    for (size_t i = 0; i < sizeof rows / sizeof rows[0]; i++) {
        char text[MONEY_TEXT_ROOM];
        money_text(rows[i].cents, text);
        expect(strcmp(text, rows[i].text) == 0, rows[i].text, i);
    }
}

int main(void) {
    check_sheets();
    check_empty();
    check_alike();
    check_refusals();
    check_money();
    printf("%lu wrong\n", wrongs);
    return wrongs != 0;
}
