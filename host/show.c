/* What a run or a preview gave, as text. */
#include "show.h"

#include <stdio.h>
#include <string.h>

#include "blocks.h"
#include "grounds.h"
#include "kinds.h"
#include "marks.h"
#include "money.h"
#include "say.h"

static bool is_billed(const struct account *account) {
    return account->shares != NULL;
}

static void print_total(const struct account *account) {
    char charge[MONEY_TEXT_ROOM];
    printf("total %llu\n", (unsigned long long)account->total);
    if (is_billed(account)) {
        money_text(account->charge, charge);
        printf("charge %s\n", charge);
    }
}

void print_lines(const struct account *account) {
    for (size_t k = 0; k < account->count; k++) {
        bts_answer a = bts_answer_at(account->answers, k);
        char grounds[GROUNDS_TEXT_ROOM];
        grounds_text(account->grounds, k, grounds);
        printf("%zu %lu %lu %u %u %u%s%s\n", k, (unsigned long)a.cycles, (unsigned long)a.value, (unsigned)a.hits,
               (unsigned)a.count, (unsigned)a.force, grounds[0] != '\0' ? " " : "", grounds);
    }
    print_total(account);
}

/* ---- what a preview leaves out */

/* What that is, of the steps that the sheet's version has. Behind it goes how they are shown. */
static const char *left_out(const struct account *account) {
    return account->version == BTS_VERSION_1
               ? "a preview leaves out the values of READ and FETCH and the hits of WRITE, which hang on the memories: they "
                 "stand as"
               : "a preview leaves out the values of READ, BLOCKREAD and FETCH and the hits of WRITE and BLOCKWRITE, which hang on "
                 "the memories: they stand as";
}

void tell_left_out(const struct account *account) {
    complain("%s 0", left_out(account));
}

static bool has_value(const struct account *account, const uint8_t *record) {
    return !account->preview || (record[0] != BTS_READ && record[0] != BTS_BLOCK_READ && record[0] != BTS_FETCH);
}

static bool has_hits(const struct account *account, const uint8_t *record) {
    return !account->preview || (record[0] != BTS_WRITE && record[0] != BTS_BLOCK_WRITE);
}

/* ---- the table */

/* The longest that two beats have: "address seq". */
enum { GROUNDS_WIDTH = 11 };

/* The width of the grounds' column: as much as the longest grounds take, which are those of a block if there is one. */
static int grounds_width(const struct account *account) {
    size_t width = GROUNDS_WIDTH;
    for (size_t k = 0; k < account->count; k++) {
        char text[GROUNDS_TEXT_ROOM];
        grounds_short_text(account->grounds, k, text);
        width = strlen(text) > width ? strlen(text) : width;
    }
    return (int)width;
}

/* The marks stand behind the last column, so that a step without any ends where the sum or its share does. */
static void print_row(const struct account *account, size_t k, int width, unsigned long long sum) {
    bts_answer a = bts_answer_at(account->answers, k);
    const uint8_t *record = account->records + BTS_RECORD_SIZE * k;
    char text[STEP_TEXT_ROOM], grounds[GROUNDS_TEXT_ROOM], value[16] = "-", hits[4] = "-";
    step_text(record, text);
    grounds_short_text(account->grounds, k, grounds);
    if (has_value(account, record)) {
        snprintf(value, sizeof value, "0x%08lX", (unsigned long)a.value);
    }
    if (has_hits(account, record)) {
        snprintf(hits, sizeof hits, "%u", (unsigned)a.hits);
    }
    printf("%5zu  %-29s %10lu  %-10s %4s %5u %5u  %-*s %14llu", k, text, (unsigned long)a.cycles, value, hits,
           (unsigned)a.count, (unsigned)a.force, width, grounds, sum);
}

/* The largest share, of 2^32 - 1 cycles at a cent each, has 11 characters. */
enum { SHARE_WIDTH = 11 };

static void print_share(const struct account *account, size_t k) {
    char share[MONEY_TEXT_ROOM];
    if (is_billed(account)) {
        money_text(bts_share_at(account->shares, k), share);
        printf(" %*s", SHARE_WIDTH, share);
    }
}

/* The lines that touch step k: of a block, those that touch a word of it. */
static void print_departs(const struct account *account, size_t k, struct met *met) {
    const uint8_t *record = account->records + BTS_RECORD_SIZE * k;
    struct met step = {.preview = met->preview};
    for (uint32_t i = 0; i < parts_of(record); i++) {
        struct seen seen;
        trace_step(account->trace, record, i, bts_answer_at(account->answers, k), &seen);
        add_marks(&seen, &step);
    }
    print_marks(&step, met);
}

static void print_heading(const struct account *account, int width) {
    printf("%5s  %-29s %10s  %-10s %4s %5s %5s  %-*s %14s", "index", "step", "cycles", "value", "hits", "count", "force",
           width, "grounds", "sum");
    if (is_billed(account)) {
        printf(" %*s", SHARE_WIDTH, "share");
    }
    puts(" departs");
}

void print_table(const struct account *account) {
    unsigned long long sum = 0;
    struct met met = {.preview = account->preview};
    int width = grounds_width(account);
    print_heading(account, width);
    for (size_t k = 0; k < account->count; k++) {
        sum += bts_answer_at(account->answers, k).cycles;
        print_row(account, k, width, sum);
        print_share(account, k);
        print_departs(account, k, &met);
        putchar('\n');
    }
    print_total(account);
    if (account->preview) {
        printf("%s -\n", left_out(account));
    }
    print_met(&met, account->total);
}

void tell_refusal(const uint8_t *records, uint32_t number, uint32_t index) {
    complain("refused %lu (%s) at record %lu: %s", (unsigned long)number, bts_refusal_name(number), (unsigned long)index,
             bts_refusal_text(number));
    if (number != BTS_FAULTY_RECORD) {
        return;
    }
    fprintf(stderr, "btsrun: the bytes of record %lu:", (unsigned long)index);
    for (size_t i = 0; i < BTS_RECORD_SIZE; i++) {
        fprintf(stderr, " %02X", (unsigned)records[BTS_RECORD_SIZE * (size_t)index + i]);
    }
    fputc('\n', stderr);
}
