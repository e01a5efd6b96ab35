/* The run of any number of steps, and its preview. */
#include "runs.h"

#include <string.h>

size_t records_in(size_t len) {
    return len > BTS_HEADER_SIZE ? (len - BTS_HEADER_SIZE) / BTS_RECORD_SIZE : 0;
}

bts_report run_sheet(const uint8_t *sheet, size_t len, struct machine *machine, const struct room *room) {
    const size_t *n = machine->lengths;
    return bts_run_grounds(bts_bytes(sheet), len, bts_room(machine->board.at), machine->board.len, bts_room(machine->store.at),
                           machine->store.len, bts_bytes(machine->bios.at), machine->bios.len, bts_bytes(machine->rom.at),
                           machine->rom.len, bts_room(room->answers), BTS_ANSWER_SIZE * records_in(len),
                           bts_room(room->grounds), BTS_GROUNDS_SIZE * records_in(len), n[EWRAM], n[IWRAM], n[IO], n[PALETTE],
                           n[VRAM], n[OAM], n[SRAM]);
}

/* ---- over no memories */

/* The answers of runs over no memories, which are made for something else and looked at by nobody. Such a run is made of a sheet
 * that was accepted, so it has no more records than this has room for. */
static uint8_t unread[BTS_ANSWER_SIZE * BTS_MOST_RECORDS];

/* The run of an accepted sheet on its board, without the memories: for its grounds, which neither the tariff nor the preview
 * writes, and for the board behind a preview, which leaves none. The grounds are the same over any memories (docs/RULES.md,
 * "What two runs have in common"), and so is all of that board that a cycle, a count, a flag or a ground follows from (theorem
 * `run_clock`, docs/PROVED.md). The rest of it (halfwords and counters) may be another, and nothing that a preview gives shows
 * it. */
static void run_bare(const uint8_t *sheet, size_t len, uint8_t *board, uint8_t *grounds) {
    struct machine bare = {.board = {board, BTS_BOARD_SIZE}};
    struct room room = {.answers = unread, .grounds = grounds};
    run_sheet(sheet, len, &bare, &room);
}

/* ---- under a tariff */

/* A copy of the board as it is now. What has another length is refused, and needs none. */
static void keep_board(const struct machine *machine, uint8_t kept[BTS_BOARD_SIZE]) {
    if (machine->board.len == BTS_BOARD_SIZE) {
        memcpy(kept, machine->board.at, BTS_BOARD_SIZE);
    }
}

bts_bill bill_sheet(const uint8_t *sheet, size_t len, struct machine *machine, const struct room *room, uint32_t rate) {
    const size_t *n = machine->lengths;
    uint8_t before[BTS_BOARD_SIZE] = {0};
    keep_board(machine, before);
    bts_bill bill = bts_run_tariff(
        bts_bytes(sheet), len, bts_room(machine->board.at), machine->board.len, bts_room(machine->store.at), machine->store.len,
        bts_bytes(machine->bios.at), machine->bios.len, bts_bytes(machine->rom.at), machine->rom.len, bts_room(room->answers),
        BTS_ANSWER_SIZE * records_in(len), bts_room(room->shares), BTS_SHARE_SIZE * records_in(len), n[EWRAM], n[IWRAM], n[IO],
        n[PALETTE], n[VRAM], n[OAM], n[SRAM], rate);
    if (bill.number == BTS_OK) {
        run_bare(sheet, len, before, room->grounds);
    }
    return bill;
}

/* ---- in pieces */

/* What is done with each piece, which is a sheet; the machine is then ready for the next. */
typedef bts_report do_piece(const uint8_t *sheet, size_t len, struct machine *machine, const struct room *room);

/* The sum can't wrap: a piece's total is under 4,096 times 2^32, so 2^64 would take a million pieces, and a listing of 4 MiB has
 * some 200. No steps at all are one piece of none, so that what is lent is examined then too. */
static bts_report in_pieces(do_piece *each, const uint8_t *all, size_t count, struct machine *machine, const struct room *room) {
    static uint8_t sheet[BTS_MOST_SHEET]; /* too large for some stacks */
    const uint8_t *records = all + BTS_HEADER_SIZE;
    bts_report whole = {BTS_OK, 0, 0};
    do {
        size_t done = whole.index;
        size_t piece = count - done < BTS_MOST_RECORDS ? count - done : BTS_MOST_RECORDS;
        struct room rest = {room->answers + BTS_ANSWER_SIZE * done, room->grounds + BTS_GROUNDS_SIZE * done, NULL};
        bts_put_header_of(sheet, bts_sheet_version(all), (uint32_t)piece);
        memcpy(sheet + BTS_HEADER_SIZE, records + BTS_RECORD_SIZE * done, BTS_RECORD_SIZE * piece);
        bts_report part = each(sheet, BTS_HEADER_SIZE + BTS_RECORD_SIZE * piece, machine, &rest);
        whole.index += part.index;
        if (part.number != BTS_OK) {
            return (bts_report){part.number, part.number == BTS_FAULTY_RECORD ? whole.index : 0, 0};
        }
        whole.total += part.total;
    } while (whole.index < count);
    return whole;
}

bts_report run_records(const uint8_t *sheet, size_t count, struct machine *machine, const struct room *room) {
    return in_pieces(run_sheet, sheet, count, machine, room);
}

/* ---- previews */

static bts_report preview_answers(const uint8_t *sheet, size_t len, const struct machine *machine, uint8_t *answers) {
    return bts_preview(bts_bytes(sheet), len, bts_bytes(machine->board.at), machine->board.len, bts_room(answers),
                       BTS_ANSWER_SIZE * records_in(len));
}

bts_report preview_sheet(const uint8_t *sheet, size_t len, struct machine *machine, const struct room *room) {
    bts_report report = preview_answers(sheet, len, machine, room->answers);
    if (report.number == BTS_OK) {
        run_bare(sheet, len, machine->board.at, room->grounds);
    }
    return report;
}

bts_report preview_records(const uint8_t *sheet, size_t count, struct machine *machine, const struct room *room) {
    return in_pieces(preview_sheet, sheet, count, machine, room);
}

/* Shares and charge follow from the cycles alone, so those of a run over no memories are those of any run, as its grounds are. It
 * is made behind the preview, so that what it can still be refused for is the rate. */
bts_bill preview_bill(const uint8_t *sheet, size_t len, struct machine *machine, const struct room *room, uint32_t rate) {
    struct machine bare = {.board = machine->board};
    struct room beside = {.answers = unread, .grounds = room->grounds, .shares = room->shares};
    bts_report report = preview_answers(sheet, len, machine, room->answers);
    if (report.number != BTS_OK) {
        return (bts_bill){report.number, report.index, report.total, 0};
    }
    return bill_sheet(sheet, len, &bare, &beside, rate);
}
