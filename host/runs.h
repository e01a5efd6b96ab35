/* The run of any number of steps, and its preview: a sheet holds at most 4,096, so a longer listing is run in pieces, one behind
 * the other on the same board and store. What they give is what one run would. */
#ifndef HOST_RUNS_H
#define HOST_RUNS_H

#include "bts.h"
#include "files.h"
#include "store.h"

/* What the steps are run on. The store is that of bts_run: the bytes of the memories alone. */
struct machine {
    struct bytes board, store, bios, rom;
    size_t lengths[MEMORIES];
};

/* Where a run or a preview writes: room for as many of each as there are records. */
struct room {
    uint8_t *answers; /* BTS_ANSWER_SIZE bytes each */
    uint8_t *grounds; /* BTS_GROUNDS_SIZE bytes each */
    uint8_t *shares;  /* BTS_SHARE_SIZE bytes each; NULL where nothing is billed */
};

struct trace;

/* A run or a preview that was accepted: a record, an answer and its grounds for each step, whatever number of pieces it was run
 * in. */
struct account {
    const uint8_t *records; /* BTS_RECORD_SIZE bytes each */
    const uint8_t *answers; /* BTS_ANSWER_SIZE bytes each */
    const uint8_t *grounds; /* BTS_GROUNDS_SIZE bytes each */
    const uint8_t *shares;  /* BTS_SHARE_SIZE bytes each; NULL where the run was not billed */
    size_t count;
    uint64_t total;
    uint64_t charge;     /* in cents */
    uint32_t version;    /* of the sheet */
    struct trace *trace; /* what the first step started from */
    bool preview;        /* values of READ, BLOCK READ and FETCH and hits of WRITE and BLOCK WRITE are left out, and are 0 */
};

/* How many records a sheet of `len` bytes has, if it is one that is accepted. */
size_t records_in(size_t len);

/* Runs a sheet as it is; there is room for as many records as records_in gives. */
bts_report run_sheet(const uint8_t *sheet, size_t len, struct machine *machine, const struct room *room);

/* The same under a tariff, with the shares. There is no such run in pieces: the charge of each would be rounded up by itself, so
 * that their sum might be too much. */
bts_bill bill_sheet(const uint8_t *sheet, size_t len, struct machine *machine, const struct room *room, uint32_t rate);

/* Runs `count` records in pieces. They stand behind a header of which the version alone is looked at: each piece is a sheet of it.
 * The report is as if a sheet had no limit: the index runs on through the pieces, and the total is that of all. Behind a refusal,
 * board and store are those of the pieces before it. */
bts_report run_records(const uint8_t *sheet, size_t count, struct machine *machine, const struct room *room);

/* ---- previews: of the machine they take the board alone, whatever memories it has, and the board is then another */

/* The preview of a sheet as it is. */
bts_report preview_sheet(const uint8_t *sheet, size_t len, struct machine *machine, const struct room *room);

/* The same with the shares and the charge of a run. */
bts_bill preview_bill(const uint8_t *sheet, size_t len, struct machine *machine, const struct room *room, uint32_t rate);

/* The preview of `count` records in pieces; sheet and report are as for run_records. */
bts_report preview_records(const uint8_t *sheet, size_t count, struct machine *machine, const struct room *room);

#endif
