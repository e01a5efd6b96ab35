/* Sheets of version 2 through the library: a block beside the READ or WRITE steps of its words, in a run, under a tariff, with its
 * grounds and before a run; POP of version 2 beside what version 1 takes for it; sheets that mean the same in both versions; and
 * what is refused, by each of the four functions. Sheets and boards are from a fixed seed. Each thing that is wrong is printed, and
 * the last line says how many there were; the exit status is 1 if there was one. */
#include <string.h>

#include "bts.h"
#include "records.h"
#include "trial.h"

enum { SHEETS = 1500, STEPS = 24, SPREAD = STEPS * BTS_MOST_WORDS, STORE = 1000, RATE = 307000, GUARD = 0xA5 };

static const size_t lengths[7] = {300, 200, 260, 40, 100, 40, 60};
static uint8_t bios[64], rom[512];

/* All that a call is lent, and what it gives. */
struct lent {
    size_t steps;
    uint8_t sheet[BTS_HEADER_SIZE + BTS_RECORD_SIZE * SPREAD], board[BTS_BOARD_SIZE], store[STORE];
    uint8_t answers[BTS_ANSWER_SIZE * SPREAD], grounds[BTS_GROUNDS_SIZE * SPREAD], shares[BTS_SHARE_SIZE * SPREAD];
};

static struct lent whole, spread, before;

static const uint8_t *record_of(const struct lent *l, size_t k) {
    return l->sheet + BTS_HEADER_SIZE + BTS_RECORD_SIZE * k;
}

/* ---- the four functions */

static size_t sheet_len(const struct lent *l) {
    return BTS_HEADER_SIZE + BTS_RECORD_SIZE * l->steps;
}

static bts_report run(struct lent *l) {
    const size_t *n = lengths;
    return bts_run(l->sheet, sheet_len(l), l->board, sizeof l->board, l->store, sizeof l->store, bios, sizeof bios, rom,
                   sizeof rom, l->answers, sizeof l->answers, n[0], n[1], n[2], n[3], n[4], n[5], n[6]);
}

static bts_report run_grounds(struct lent *l) {
    const size_t *n = lengths;
    return bts_run_grounds(l->sheet, sheet_len(l), l->board, sizeof l->board, l->store, sizeof l->store, bios, sizeof bios, rom,
                           sizeof rom, l->answers, sizeof l->answers, l->grounds, sizeof l->grounds, n[0], n[1], n[2], n[3],
                           n[4], n[5], n[6]);
}

static bts_report run_tariff(struct lent *l) {
    const size_t *n = lengths;
    bts_bill bill = bts_run_tariff(l->sheet, sheet_len(l), l->board, sizeof l->board, l->store, sizeof l->store, bios,
                                   sizeof bios, rom, sizeof rom, l->answers, sizeof l->answers, l->shares, sizeof l->shares,
                                   n[0], n[1], n[2], n[3], n[4], n[5], n[6], RATE);
    return (bts_report){bill.number, bill.index, bill.total};
}

static bts_report preview(struct lent *l) {
    return bts_preview(l->sheet, sheet_len(l), l->board, sizeof l->board, l->answers, sizeof l->answers);
}

typedef bts_report call(struct lent *l);
static call *const calls[] = {run, run_grounds, run_tariff, preview};
enum { CALLS = sizeof calls / sizeof calls[0] };

/* ---- sheets */

/* A block or, as often, another record. */
static void put_some_record(uint8_t *sheet, size_t k) {
    if (below(2) == 0) {
        put_any_record(sheet, k);
        return;
    }
    uint32_t words = 1 + below(BTS_MOST_WORDS);
    uint32_t address = below(8) == 0 ? 0u - below(80) : any_address((uint8_t)(4 * words));
    bts_put_record(sheet, k, (uint8_t)(BTS_BLOCK_READ + below(2)), 4, 0, address, words);
}

/* On the board that the run before left, or on a fresh one. */
static void lend(unsigned long which) {
    memcpy(whole.board, spread.board, sizeof whole.board);
    if (which % 16 == 0) {
        memset(whole.board, 0, sizeof whole.board);
    }
    whole.steps = 1 + below(STEPS);
    fill(whole.store, sizeof whole.store);
    bts_put_header_of(whole.sheet, BTS_VERSION_2, (uint32_t)whole.steps);
    for (size_t k = 0; k < whole.steps; k++) {
        put_some_record(whole.sheet, k);
    }
    memset(whole.answers, GUARD, sizeof whole.answers);
    memset(whole.grounds, GUARD, sizeof whole.grounds);
    memset(whole.shares, GUARD, sizeof whole.shares);
    memcpy(&before, &whole, sizeof before);
}

static bool is_block(const uint8_t *record) {
    return record[0] == BTS_BLOCK_READ || record[0] == BTS_BLOCK_WRITE;
}

/* The steps that record k of the whole sheet stands for. */
static size_t parts_of(size_t k) {
    return is_block(record_of(&whole, k)) ? bts_get32(record_of(&whole, k) + 8) : 1;
}

/* The same with each block as the accesses of its words (docs/RULES.md, "Blocks"). */
static void lend_spread(void) {
    memcpy(&spread, &before, sizeof spread);
    spread.steps = 0;
    for (size_t k = 0; k < whole.steps; k++) {
        const uint8_t *record = record_of(&whole, k);
        for (uint32_t i = 0; i < parts_of(k); i++) {
            uint32_t address = bts_get32(record + 4);
            if (is_block(record)) {
                bts_put_record(spread.sheet, spread.steps++, record[0] == BTS_BLOCK_READ ? BTS_READ : BTS_WRITE, 4, 0,
                               address - address % 4 + 4 * i, 0);
            } else {
                bts_put_record(spread.sheet, spread.steps++, record[0], record[1], record[2], address, bts_get32(record + 8));
            }
        }
    }
    bts_put_header_of(spread.sheet, BTS_VERSION_2, (uint32_t)spread.steps);
}

/* ---- a block beside its words */

/* The answer of record k is that of its parts, which begin at `first`: the last one's, but for the sums of cycles and hits. */
static void check_answer(size_t k, size_t first, unsigned long which) {
    bts_answer one = bts_answer_at(whole.answers, k), last = bts_answer_at(spread.answers, first + parts_of(k) - 1);
    uint32_t cycles = 0, hits = 0;
    for (size_t i = 0; i < parts_of(k); i++) {
        cycles += bts_answer_at(spread.answers, first + i).cycles;
        hits += bts_answer_at(spread.answers, first + i).hits;
    }
    expect(one.cycles == cycles && (!is_block(record_of(&whole, k)) || cycles <= 288), "the cycles of a block", which);
    expect(one.hits == hits, "the hits of a block", which);
    expect(one.value == last.value && one.count == last.count && one.force == last.force, "what a block leaves", which);
}

/* Its grounds are theirs, one behind the other, and nothing behind them. */
static void check_grounds(size_t k, size_t first, unsigned long which) {
    uint8_t row[BTS_GROUNDS_SIZE] = {0};
    size_t beats = 0;
    for (size_t i = 0; i < parts_of(k); i++) {
        for (size_t beat = 0; beat < bts_ground_beats(spread.grounds, first + i); beat++) {
            row[beats++ % BTS_GROUNDS_SIZE] = bts_ground_at(spread.grounds, first + i, beat);
        }
    }
    expect(beats <= BTS_GROUNDS_SIZE, "how many beats a block has", which);
    expect(memcmp(row, whole.grounds + BTS_GROUNDS_SIZE * k, sizeof row) == 0, "the grounds of a block", which);
}

static void check_share(size_t k, size_t first, unsigned long which) {
    uint64_t share = 0;
    for (size_t i = 0; i < parts_of(k); i++) {
        share += bts_share_at(spread.shares, first + i);
    }
    expect(bts_share_at(whole.shares, k) == share, "the share of a block", which);
}

typedef void check_record(size_t k, size_t first, unsigned long which);

/* The call of the sheet, and of the one that is spread, from the same board and store. */
static void check_call(call *each, check_record *more, unsigned long which) {
    memcpy(&whole, &before, sizeof whole);
    lend_spread();
    bts_report one = each(&whole), other = each(&spread);
    expect(one.number == BTS_OK && one.index == whole.steps, "accepted", which);
    expect(other.number == BTS_OK && one.total == other.total, "the total", which);
    expect(memcmp(whole.board, spread.board, sizeof whole.board) == 0, "the board", which);
    expect(memcmp(whole.store, spread.store, sizeof whole.store) == 0, "the store", which);
    for (size_t k = 0, first = 0; k < whole.steps; first += parts_of(k), k++) {
        check_answer(k, first, which);
        if (more != NULL) {
            more(k, first, which);
        }
    }
}

/* How many blocks there were, of how many words, and those with the most beats. */
static unsigned long blocks[BTS_MOST_WORDS + 1], most_beats, landed_some;

static void count_blocks(void) {
    for (size_t k = 0; k < whole.steps; k++) {
        uint8_t hits = bts_answer_at(whole.answers, k).hits;
        if (is_block(record_of(&whole, k))) {
            blocks[parts_of(k)]++;
            most_beats += bts_ground_beats(whole.grounds, k) == BTS_GROUNDS_SIZE;
            landed_some += record_of(&whole, k)[0] == BTS_BLOCK_WRITE && hits > 0 && hits < 4 * parts_of(k);
        }
    }
}

static void check_sheets(void) {
    for (unsigned long i = 0; i < SHEETS; i++) {
        lend(i);
        check_call(run, NULL, i);
        check_call(run_tariff, check_share, i);
        check_call(run_grounds, check_grounds, i);
        count_blocks();
    }
    for (unsigned long words = 1; words <= BTS_MOST_WORDS; words++) {
        expect(blocks[words] > 100, "how many blocks of these words", words);
    }
    expect(most_beats > 20, "blocks of 32 beats", most_beats);
    expect(landed_some > 20, "blocks of which a part landed", landed_some);
}

/* The preview has the answers of the run, but for values and hits that hang on the memories, and leaves the board. */
static void check_previews(void) {
    for (unsigned long i = 0; i < SHEETS; i++) {
        lend(i);
        bts_report priced = preview(&before), done = run(&whole);
        expect(priced.number == BTS_OK && priced.total == done.total, "the total of a preview", i);
        expect(priced.index == done.index, "the index of a preview", i);
        for (size_t k = 0; k < whole.steps; k++) {
            uint8_t kind = record_of(&whole, k)[0], *answer = whole.answers + BTS_ANSWER_SIZE * k;
            if (kind == BTS_READ || kind == BTS_FETCH || kind == BTS_BLOCK_READ) {
                bts_put32(answer, 0);
            }
            answer[8] = kind == BTS_WRITE || kind == BTS_BLOCK_WRITE ? 0 : answer[8];
        }
        expect(memcmp(before.answers, whole.answers, sizeof whole.answers) == 0, "the answers of a preview", i);
        memcpy(spread.board, whole.board, sizeof spread.board);
    }
}

/* ---- the versions */

/* 0xBA and 0xBC change places in a Thumb opcode, and 0xBB and 0xBD. */
static uint32_t swapped(uint32_t opcode) {
    uint32_t high = opcode >> 8 & 0xFF;
    return high >= 0xBA && high <= 0xBD ? opcode ^ 0x0600 : opcode;
}

static bool is_thumb(const uint8_t *record) {
    return record[0] == BTS_INSTRUCTION && record[1] == 2;
}

/* Every fourth Thumb opcode is POP, or what version 1 takes for it. Without blocks, a sheet of version 1 is one of version 2 in
 * which these have changed places; and so a sheet that has none of them means the same in both. */
static void check_versions(void) {
    unsigned long pops = 0;
    for (unsigned long i = 0; i < SHEETS; i++) {
        lend(i);
        for (size_t k = 0; k < whole.steps; k++) {
            uint8_t *record = before.sheet + BTS_HEADER_SIZE + BTS_RECORD_SIZE * k;
            put_any_record(before.sheet, k);
            if (is_thumb(record) && below(4) == 0) {
                bts_put32(record + 8, 0xBA00 + below(0x400));
                pops++;
            }
        }
        memcpy(&whole, &before, sizeof whole);
        memcpy(&spread, &before, sizeof spread);
        bts_put_header_of(spread.sheet, BTS_VERSION_1, (uint32_t)spread.steps);
        for (size_t k = 0; k < spread.steps; k++) {
            uint8_t *record = spread.sheet + BTS_HEADER_SIZE + BTS_RECORD_SIZE * k;
            bts_put32(record + 8, is_thumb(record) ? swapped(bts_get32(record + 8)) : bts_get32(record + 8));
        }
        bts_report one = run_grounds(&whole), other = run_grounds(&spread);
        expect(one.number == BTS_OK && other.number == BTS_OK && one.total == other.total, "a total of two versions", i);
        memcpy(spread.sheet, whole.sheet, sizeof whole.sheet);
        expect(memcmp(&whole, &spread, sizeof whole) == 0, "answers, grounds, board and store of two versions", i);
    }
    expect(pops > 200, "POP, and what is taken for it", pops);
}

/* ---- refused */

/* What each of the four says of one record, behind an IDLE, in a sheet of the version; refused, it changes nothing. */
static void check_record_says(uint32_t version, const uint8_t *record, uint32_t number, unsigned long which) {
    for (size_t i = 0; i < CALLS; i++) {
        lend(0);
        whole.steps = 2;
        bts_put_header_of(whole.sheet, version, 2);
        bts_put_record(whole.sheet, 0, BTS_IDLE, 0, 0, 0, 1);
        memcpy(whole.sheet + BTS_HEADER_SIZE + BTS_RECORD_SIZE, record, BTS_RECORD_SIZE);
        memcpy(&before, &whole, sizeof before);
        bts_report report = calls[i](&whole);
        uint32_t index = number == BTS_OK ? 2 : number == BTS_FAULTY_RECORD ? 1 : 0;
        expect(report.number == number && report.index == index, "what is said", which);
        expect(number == BTS_OK || (report.total == 0 && memcmp(&whole, &before, sizeof whole) == 0), "nothing is changed", which);
    }
}

/* A block with one field changed: kind, size, flag, the zero byte, address, words. */
static void check_block_says(uint32_t version, uint32_t number, const uint32_t fields[6], unsigned long which) {
    uint8_t record[BTS_RECORD_SIZE] = {(uint8_t)fields[0], (uint8_t)fields[1], (uint8_t)fields[2], (uint8_t)fields[3]};
    bts_put32(record + 4, fields[4]);
    bts_put32(record + 8, fields[5]);
    check_record_says(version, record, number, which);
}

static void check_versions_said(void) {
    static const uint32_t none[] = {0, 3, 4, 10, 255, 0x0100, 0x0101, 0x0102, 0x0200, 0x0201, 0x8001, 0xFFFF};
    static const uint32_t idle[6] = {BTS_IDLE, 0, 0, 0, 0, 1}, block[6] = {BTS_BLOCK_READ, 4, 0, 0, 0x02000000, 1};
    for (size_t i = 0; i < sizeof none / sizeof none[0]; i++) {
        check_block_says(none[i], BTS_BAD_VERSION, idle, none[i]);
        check_block_says(none[i], BTS_BAD_VERSION, block, none[i]);
    }
    check_block_says(BTS_VERSION_1, BTS_OK, idle, 1);
    check_block_says(BTS_VERSION_2, BTS_OK, idle, 2);
    check_block_says(BTS_VERSION_1, BTS_FAULTY_RECORD, block, 1);
    check_block_says(BTS_VERSION_2, BTS_OK, block, 2);
}

static void check_blocks_said(void) {
    static const uint32_t bad_words[] = {0, 17, 32, 0x100, 0x101, 0x10001, 0x80000001, 0xFFFFFFFF};
    static const uint32_t addresses[] = {0, 1, 2, 3, 0x08000101, 0xFFFFFFFC, 0xFFFFFFFF};
    for (uint32_t kind = BTS_BLOCK_READ; kind <= BTS_BLOCK_WRITE; kind++) {
        for (uint32_t words = 1; words <= BTS_MOST_WORDS; words++) {
            check_block_says(BTS_VERSION_2, BTS_OK, (uint32_t[6]){kind, 4, 0, 0, 0x02000000, words}, 100 + words);
            check_block_says(BTS_VERSION_1, BTS_FAULTY_RECORD, (uint32_t[6]){kind, 4, 0, 0, 0x02000000, words}, 200 + words);
        }
        for (uint32_t i = 0; i < sizeof bad_words / sizeof bad_words[0]; i++) {
            check_block_says(BTS_VERSION_2, BTS_FAULTY_RECORD, (uint32_t[6]){kind, 4, 0, 0, 0, bad_words[i]}, 300 + i);
        }
        for (uint32_t i = 0; i < sizeof addresses / sizeof addresses[0]; i++) {
            check_block_says(BTS_VERSION_2, BTS_OK, (uint32_t[6]){kind, 4, 0, 0, addresses[i], 16}, 400 + i);
        }
        for (uint32_t value = 0; value < 256; value++) {
            uint32_t by_size = value == 4 ? BTS_OK : BTS_FAULTY_RECORD, by_zero = value == 0 ? BTS_OK : BTS_FAULTY_RECORD;
            check_block_says(BTS_VERSION_2, by_size, (uint32_t[6]){kind, value, 0, 0, 0, 1}, 1000 + value);
            check_block_says(BTS_VERSION_2, by_zero, (uint32_t[6]){kind, 4, value, 0, 0, 1}, 2000 + value);
            check_block_says(BTS_VERSION_2, by_zero, (uint32_t[6]){kind, 4, 0, value, 0, 1}, 3000 + value);
        }
    }
}

/* No other kinds are there in version 2, whatever their fields. */
static void check_kinds_said(void) {
    for (uint32_t kind = 0; kind < 256; kind++) {
        if (kind == 0 || kind > BTS_BLOCK_WRITE) {
            check_block_says(BTS_VERSION_2, BTS_FAULTY_RECORD, (uint32_t[6]){kind, 0, 0, 0, 0, 0}, 4000 + kind);
            check_block_says(BTS_VERSION_2, BTS_FAULTY_RECORD, (uint32_t[6]){kind, 4, 0, 0, 0, 1}, 5000 + kind);
        }
    }
}

int main(void) {
    fill(bios, sizeof bios);
    fill(rom, sizeof rom);
    check_sheets();
    check_previews();
    check_versions();
    check_versions_said();
    check_blocks_said();
    check_kinds_said();
    printf("%lu wrong\n", wrongs);
    return wrongs != 0;
}
