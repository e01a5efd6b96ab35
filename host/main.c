/* btsrun: prices a listing of steps with libbts.a, over the memories and the board that a person names.
 *
 * Everything is read, then run, then written, then printed: so a bad line, a file that can't be read and a refusal leave no file
 * and no line of output. host/README.md says how it is used. */
#include <errno.h>
#include <stdio.h>
#include <stdlib.h>
#include <string.h>

#include "board.h"
#include "bts.h"
#include "files.h"
#include "landed.h"
#include "listing.h"
#include "options.h"
#include "runs.h"
#include "say.h"
#include "seen.h"
#include "show.h"
#include "store.h"

enum { DONE = 0, REFUSED = 1, FAILED = 2 };

/* The files that may be read. */
enum { IN_STEPS, IN_BOARD, IN_BIOS, IN_ROM, IN_SRAM, IN_STORE, INPUTS };

/* All that a run takes, and what it gives. */
struct job {
    struct input inputs[INPUTS]; /* a board and a store that no file gives are made in their places */
    struct bytes sheet;          /* from a listing; it may have more records than a sheet holds */
    struct room room;            /* the answers, the grounds and the shares */
    struct machine machine;
};

/* ---- in */

/* The sheet itself is read up to one byte more than the longest; the run sees what is wrong with it. */
static bool read_steps(const struct options *options, struct job *job) {
    struct input *input = &job->inputs[IN_STEPS];
    if (options->sheet != NULL) {
        bool is_stdin = strcmp(options->sheet, "-") == 0;
        return read_input(is_stdin ? NULL : options->sheet, BTS_MOST_SHEET + 1, input);
    }
    return read_input(options->listing, LISTING_MOST + 1, input) &&
           assemble(options->listing != NULL ? options->listing : "stdin", input->bytes.at, input->bytes.len, &job->sheet);
}

/* A file that may be absent. One byte over its size is enough for the run to refuse it. */
static bool read_image(const char *path, size_t size, struct input *input) {
    return path == NULL || read_input(path, size + 1, input);
}

static bool read_board(const char *path, struct input *input) {
    if (path != NULL) {
        return read_input(path, BTS_BOARD_SIZE + 1, input);
    }
    input->bytes = (struct bytes){calloc(BTS_BOARD_SIZE, 1), BTS_BOARD_SIZE};
    if (input->bytes.at == NULL) {
        complain("out of memory");
    }
    return input->bytes.at != NULL;
}

/* Whether the listing is a sheet, if something is asked for that only a sheet has: its bytes, or a charge, which is rounded once
 * and isn't the sum of what its pieces would be charged. */
static bool fits_sheet(const struct options *options, const struct job *job) {
    size_t steps = records_in(job->sheet.len);
    if (steps <= BTS_MOST_RECORDS) {
        return true;
    }
    if (options->sheet_out != NULL) {
        complain("-o can't write %zu steps: a sheet holds at most %d", steps, BTS_MOST_RECORDS);
    }
    if (options->rate.given) {
        complain("--rate can't bill %zu steps: a charge is a sheet's, and a sheet holds at most %d", steps, BTS_MOST_RECORDS);
    }
    return options->sheet_out == NULL && !options->rate.given;
}

static bool read_inputs(const struct options *options, struct job *job) {
    struct input *in = job->inputs;
    return read_steps(options, job) && fits_sheet(options, job) && read_board(options->board, &in[IN_BOARD]) &&
           read_image(options->bios, BTS_BIOS_SIZE, &in[IN_BIOS]) && read_image(options->rom, BTS_ROM_SIZE, &in[IN_ROM]) &&
           read_image(options->sram, BTS_SRAM_SIZE, &in[IN_SRAM]) && read_image(options->store, STORE_MOST, &in[IN_STORE]);
}

/* The machine, out of what was read. That of a preview has no memories. */
static bool make_machine(const struct options *options, struct job *job) {
    struct input *in = job->inputs;
    struct bytes *store = &in[IN_STORE].bytes;
    enum sizes sizes = options->preview ? SIZES_NONE : options->bench ? SIZES_BENCH : SIZES_PHYSICAL;
    if (options->store == NULL && !make_store(sizes, options->sram != NULL ? &in[IN_SRAM].bytes : NULL, store)) {
        return false;
    }
    job->machine.board = in[IN_BOARD].bytes;
    job->machine.bios = in[IN_BIOS].bytes;
    job->machine.rom = in[IN_ROM].bytes;
    if (!store_lengths(options->store, store, job->machine.lengths)) {
        return false;
    }
    job->machine.store = (struct bytes){store->at + STORE_HEADER, store->len - STORE_HEADER};
    return true;
}

/* ---- the run */

/* The sheet: as it was read, or made of the listing. */
static struct bytes sheet_of(const struct options *options, const struct job *job) {
    return options->sheet != NULL ? job->inputs[IN_STEPS].bytes : job->sheet;
}

/* The version of the sheet. What is too short to have one is refused. */
static uint32_t version_of(struct bytes sheet) {
    return sheet.len >= BTS_HEADER_SIZE ? bts_sheet_version(sheet.at) : BTS_VERSION;
}

/* The steps of a listing, which may be more than a sheet holds. */
static bts_report run_listing(const struct options *options, struct job *job) {
    size_t steps = records_in(job->sheet.len);
    return (options->preview ? preview_records : run_records)(job->sheet.at, steps, &job->machine, &job->room);
}

/* A sheet as it was read. */
static bts_report run_read_sheet(const struct options *options, struct job *job) {
    struct bytes sheet = sheet_of(options, job);
    return (options->preview ? preview_sheet : run_sheet)(sheet.at, sheet.len, &job->machine, &job->room);
}

/* The run, or its preview. Where it isn't billed the charge is 0. */
static bts_bill run(const struct options *options, struct job *job) {
    struct bytes sheet = sheet_of(options, job);
    if (options->rate.given) {
        return (options->preview ? preview_bill : bill_sheet)(sheet.at, sheet.len, &job->machine, &job->room,
                                                              options->rate.cents);
    }
    bts_report report = (options->sheet != NULL ? run_read_sheet : run_listing)(options, job);
    return (bts_bill){report.number, report.index, report.total, 0};
}

/* Of no records it is no NULL either: NULL shares are those of a run not billed. */
static bool make_room(size_t count, size_t size, uint8_t **at) {
    *at = malloc(count > 0 ? count * size : 1);
    if (*at == NULL) {
        complain("out of memory");
    }
    return *at != NULL;
}

/* Room for what the run writes for each record. */
static bool make_rooms(const struct options *options, struct job *job) {
    size_t count = records_in(sheet_of(options, job).len);
    return make_room(count, BTS_ANSWER_SIZE, &job->room.answers) && make_room(count, BTS_GROUNDS_SIZE, &job->room.grounds) &&
           (!options->rate.given || make_room(count, BTS_SHARE_SIZE, &job->room.shares));
}

static void tell_too_long(const char *file, const char *memory, size_t len, size_t size) {
    if (len > size) {
        complain("%s%s is longer than %zu bytes", file, memory, size);
    }
}

/* Which image, or which memory of a store, a refusal of the lengths is about. */
static void tell_lengths(const struct options *options, const struct job *job) {
    tell_too_long(options->rom, "", job->machine.rom.len, BTS_ROM_SIZE);
    tell_too_long(options->bios, "", job->machine.bios.len, BTS_BIOS_SIZE);
    for (size_t i = 0; i < MEMORIES; i++) {
        char memory[32];
        snprintf(memory, sizeof memory, ": %s", memory_at(i)->name);
        tell_too_long(options->store != NULL ? options->store : options->sram, options->store != NULL ? memory : "",
                      job->machine.lengths[i], memory_at(i)->physical);
    }
}

/* What a refusal leaves open: which file it is about, and what is wrong with it. */
static void tell_cause(const struct options *options, const struct job *job, uint32_t number) {
    if (number == BTS_BAD_LENGTHS) {
        tell_lengths(options, job);
    }
    const char *fault = number == BTS_UNSOUND_BOARD ? board_fault(job->machine.board.at, job->machine.board.len) : NULL;
    if (fault != NULL) {
        complain("%s: %s", options->board, fault);
    }
}

/* ---- out */

static bool write_files(const struct options *options, const struct job *job) {
    const struct input *in = job->inputs;
    const struct bytes *store = &in[IN_STORE].bytes;
    size_t sram = job->machine.lengths[SRAM];
    struct output outputs[] = {
        {options->sheet_out, sheet_of(options, job), NULL, NULL},
        {options->board_out, in[IN_BOARD].bytes, &in[IN_BOARD], NULL},
        {options->sram_out, {store->at + (store->len - sram), sram}, &in[IN_SRAM], NULL},
        {options->store_out, *store, &in[IN_STORE], NULL},
    };
    return write_outputs(in, INPUTS, outputs, sizeof outputs / sizeof outputs[0]);
}

/* The files are in place by now. A pipe that is closed too early may end the program here, and leaves nothing half done. */
static int end_output(const char *written) {
    if (fflush(stdout) == 0 && !ferror(stdout)) {
        return DONE;
    }
    complain("can't write standard output: %s%s", strerror(errno), written);
    return FAILED;
}

static int print(const struct options *o, const struct account *account) {
    if (o->table) {
        print_table(account);
    } else {
        print_lines(account);
    }
    bool files = o->sheet_out != NULL || o->board_out != NULL || o->sram_out != NULL || o->store_out != NULL;
    return end_output(files ? " (the files that were asked for are written)" : "");
}

/* What the lines don't say, on standard error behind them: which stores landed short, and of a preview, of which that can't be
 * known, what is left out. The table of a preview has that itself. */
static void tell_rest(const struct options *options, const struct job *job, const struct account *account) {
    if (!options->preview) {
        tell_short(account, job->machine.lengths, options->table);
    } else if (!options->table) {
        tell_left_out(account);
    }
}

static int price(const struct options *options, struct job *job) {
    struct trace trace;
    if (!read_inputs(options, job) || !make_machine(options, job) || !make_rooms(options, job)) {
        return FAILED;
    }
    struct bytes sheet = sheet_of(options, job);
    trace_begin(&trace, &job->machine, version_of(sheet));
    bts_bill bill = run(options, job);
    const uint8_t *records = sheet.at + BTS_HEADER_SIZE;
    if (bill.number != BTS_OK) {
        tell_refusal(records, bill.number, bill.index);
        tell_cause(options, job, bill.number);
        return REFUSED;
    }
    if (!write_files(options, job)) {
        return FAILED;
    }
    struct account account = {
        .records = records,
        .answers = job->room.answers,
        .grounds = job->room.grounds,
        .shares = job->room.shares,
        .count = bill.index,
        .total = bill.total,
        .charge = bill.charge,
        .version = version_of(sheet),
        .trace = &trace,
        .preview = options->preview,
    };
    int status = print(options, &account);
    if (status == DONE) {
        tell_rest(options, job, &account);
    }
    return status;
}

int main(int argc, char **argv) {
    struct job job = {0};
    struct options options;
    if (!read_options(argc, argv, &options)) {
        return FAILED;
    }
    if (options.help || options.version) {
        (options.help ? print_help : print_version)();
        return end_output("");
    }
    int status = price(&options, &job);
    for (size_t i = 0; i < INPUTS; i++) {
        free(job.inputs[i].bytes.at);
    }
    free(job.sheet.at);
    free(job.room.answers);
    free(job.room.grounds);
    free(job.room.shares);
    return status;
}
