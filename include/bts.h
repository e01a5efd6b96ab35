/* The Game Boy Advance bus-and-timing model for C: the run of a sheet, from libbts.a (host/build makes it).
 *
 * A sheet is a list of steps as bytes. bts_run examines it, does its steps in order on a board (the machine's state outside its
 * memories) and over memories that the caller lends, and writes an answer for each step. bts_run_tariff does the same and bills
 * it: it also writes what each step's share of the charge is. bts_run_grounds does the same and says why a step costs what it
 * does: it also writes the ground of each beat's price. bts_preview prices a sheet before it is run: it takes no memories, leaves
 * the board as it is, and writes the answers without what hangs on the memories. host/ is a program over all four.
 *
 * All numbers are little endian. "ROM window" is an address from 0x08000000 to 0x0DFFFFFF.
 *
 * What the caller sees to, for the time of the call:
 *   - every pointer is valid and not null, even where its length is 0 (bts_bytes and bts_room below take NULL for "no memory");
 *   - each length is the number of bytes at its pointer; no alignment is asked for;
 *   - no two of the buffers overlap, which are six, seven with the shares or with the grounds, and three of a preview (one of
 *     length 0 overlaps nothing);
 *   - nobody else writes any of them, and nobody else reads store, answers, shares, grounds and the board of a run. A preview
 *     only reads its board, so others may read it too;
 *   - `store` is EWRAM, IWRAM, I/O, palette, VRAM, OAM and SRAM behind one another, in this order and with nothing between them;
 *     the seven lengths at the end are theirs. A length may be 0, odd, or short of the physical size.
 * These are the only rules: with them kept, a call ends and is safe whatever the buffers, the seven lengths and the rate hold,
 * and what is wrong with them is refused.
 *
 * Who owns what: the caller, everything. The library allocates nothing, keeps no pointer and no state from call to call, reads
 * and writes no file, and never writes sheet, BIOS or ROM, nor the board of a preview. Threads may call it at once on different
 * boards, stores, answers, shares and grounds; they may share a sheet, a BIOS and a ROM, and previews a board while nobody runs
 * on it.
 *
 * The library is machine code for Linux on x86-64 (System V, ELF, 64-bit pointers); elsewhere this header is an error. With
 * BTS_NO_LIBRARY defined, none of the four is declared, and the rest (layouts, names, helpers) is plain C99 or C++11 for any
 * machine: enough to make sheets and to read boards, answers, shares and grounds there. */
#ifndef BTS_H
#define BTS_H

#if !defined(BTS_NO_LIBRARY) && !(defined(__x86_64__) && defined(__linux__) && defined(__ELF__) && !defined(__ILP32__))
#error "libbts.a is for Linux on x86-64 (System V, ELF, 64-bit pointers); BTS_NO_LIBRARY gives this header without its functions"
#endif

/* The version of this header with its library: MAJOR rises when a caller must change, MINOR when something is added. (A sheet has
 * a version of its own, see "the sheet" below.) With 2.3 sheets of version 2 were added, with their blocks; with 2.2
 * bts_run_grounds, with the numbers, names and readers of its grounds; and with 2.1 bts_preview. A caller of 2.0, 2.1 or 2.2 need
 * change nothing: its sheets are of version 1, and mean what they did. With 2.0 a board grew from 72 bytes to 80: build anew what
 * lends one, and see "the board" below for those that were saved before. */
#define BTS_LIBRARY_MAJOR 2
#define BTS_LIBRARY_MINOR 3
#define BTS_LIBRARY_VERSION "2.3"

#include <stddef.h>
#include <stdint.h>

#ifdef __cplusplus
#define BTS_CAST(type, number) static_cast<type>(number)
#define BTS_FUNCTION extern "C"
#else
#define BTS_CAST(type, number) ((type)(number))
#define BTS_FUNCTION extern
#endif

/* ---- what a run gives back */

/* number is BTS_OK or a refusal.
 *
 * BTS_OK: index is the number of records, total the sum of their cycles. Board and store are as the last record left them, and
 * answers has an answer for each record; its bytes behind them are untouched. The board is sound, so it can be lent again.
 *
 * A refusal: total is 0, index is the faulty record (from 0) for BTS_FAULTY_RECORD and else 0, and every byte of board, store
 * and answers is as it was. Where several conditions are met, the lowest number is given; every record is examined before the
 * first is done.
 *
 * A run with grounds gives back the same; accepted, it has written the grounds of each record, and no byte behind them; refused,
 * no byte of them at all.
 *
 * A preview gives back the same, but the answers are all that it writes: accepted or refused, it leaves the board as it was. */
typedef struct {
    uint32_t number;
    uint32_t index;
    uint64_t total;
} bts_report;

/* The same of a run under a tariff, of which all holds that is said above, and besides:
 *
 * BTS_OK: charge is in cents, and shares has a share for each record; its bytes behind them are untouched. What they are stands
 * at the shares below.
 *
 * A refusal: charge is 0 like total, and every byte of shares is as it was. */
typedef struct {
    uint32_t number;
    uint32_t index;
    uint64_t total;
    uint64_t charge;
} bts_bill;

enum {
    BTS_OK = 0,
    BTS_BAD_MARK = 1,
    BTS_BAD_VERSION = 2,
    BTS_BAD_SHAPE = 3,
    BTS_BAD_LENGTHS = 4, /* not by bts_preview, which is lent no memories */
    BTS_UNSOUND_BOARD = 5,
    BTS_SHORT_ANSWERS = 6,
    BTS_FAULTY_RECORD = 7,
    BTS_BAD_RATE = 8, /* by bts_run_tariff alone */
    BTS_REFUSALS = 9  /* how many numbers there are, BTS_OK among them */
};

/* The name of each number and what it says. */
static inline const char *const *bts_refusal_row(uint32_t number) {
    static const char *const rows[BTS_REFUSALS + 1][2] = {
        {"BTS_OK", "accepted"},
        {"BTS_BAD_MARK", "the sheet is under 8 bytes or doesn't begin with BTS"},
        {"BTS_BAD_VERSION", "the sheet's version is neither 1 nor 2"},
        {"BTS_BAD_SHAPE", "the sheet's byte 5 is not 0, it has over 4096 records, or its length is not 8 + 12 a record"},
        {"BTS_BAD_LENGTHS", "a memory is longer than its physical size, or the seven lengths don't add up to the store's"},
        {"BTS_UNSOUND_BOARD", "the board is not 80 bytes or not sound"},
        {"BTS_SHORT_ANSWERS", "the answers are shorter than 12 bytes a record, the shares than 8, or the grounds than 32"},
        {"BTS_FAULTY_RECORD", "the record breaks the layout of a record or the table of kinds of the sheet's version"},
        {"BTS_BAD_RATE", "the rate is 0 or over 1000000 cents per million cycles"},
        {"unknown", "this number is none that the library gives"},
    };
    return rows[number < BTS_REFUSALS ? number : BTS_CAST(uint32_t, BTS_REFUSALS)];
}

/* For any number: "BTS_BAD_MARK" for 1, and so on. */
static inline const char *bts_refusal_name(uint32_t number) {
    return bts_refusal_row(number)[0];
}

/* For any number: a sentence without its full stop. */
static inline const char *bts_refusal_text(uint32_t number) {
    return bts_refusal_row(number)[1];
}

/* ---- lengths, in bytes */

enum {
    BTS_HEADER_SIZE = 8,
    BTS_RECORD_SIZE = 12,
    BTS_MOST_RECORDS = 4096,
    BTS_MOST_SHEET = BTS_HEADER_SIZE + BTS_RECORD_SIZE * BTS_MOST_RECORDS, /* the longest sheet */
    BTS_BOARD_SIZE = 80,
    BTS_ANSWER_SIZE = 12,
    BTS_SHARE_SIZE = 8,
    BTS_GROUNDS_SIZE = 32
};

/* The physical sizes: a memory may be shorter, not longer. */
enum {
    BTS_BIOS_SIZE = 16384,
    BTS_ROM_SIZE = 33554432,
    BTS_EWRAM_SIZE = 262144,
    BTS_IWRAM_SIZE = 32768,
    BTS_IO_SIZE = 2052,
    BTS_PALETTE_SIZE = 1024,
    BTS_VRAM_SIZE = 98304,
    BTS_OAM_SIZE = 1024,
    BTS_SRAM_SIZE = 65536
};

/* ---- the sheet
 *
 * Header: bytes 0-2 "BTS", 3-4 version, 5 zero, 6-7 number of records; the records stand behind it.
 * Record: byte 0 kind, 1 size, 2 flag, 3 zero, 4-7 address, 8-11 value. Any address is legal. A field that the kind doesn't use
 * is 0.
 *
 * The version says what the records mean, and is 1 or 2; any other is refused with BTS_BAD_VERSION. Version 2 differs in two
 * things, and in nothing else:
 *   - it has kinds 10 and 11, the blocks; in version 1 they are faulty records like any kind that there is none of;
 *   - Thumb POP is found where it is, at the opcodes 0xBC00-0xBDFF, and has its internal cycle there (cycles, value, force flag).
 *     Version 1 looks for it at 0xBA00-0xBBFF, as the ported Rust does: these have that cycle in it, and POP has none.
 * A library before 2.3 refuses version 2 with BTS_BAD_VERSION. So ask for it where you need it (bts_put_header_of), and else stay
 * with version 1 (bts_put_header): what was priced under it keeps its figure. */

enum {
    BTS_VERSION_1 = 1,
    BTS_VERSION_2 = 2,
    BTS_VERSION = BTS_VERSION_1 /* what bts_put_header writes */
};

enum {
    BTS_READ = 1,        /* size 1, 2 or 4; address */
    BTS_WRITE = 2,       /* size 1, 2 or 4; address; value, of which the low bits by size count and the rest are ignored */
    BTS_WAITCNT = 3,     /* value up to 65,535: written to WAITCNT and applied */
    BTS_IDLE = 4,        /* value: so many cycles in which the cartridge bus is free */
    BTS_FETCH = 5,       /* address: a halfword asked of the prefetch */
    BTS_RESTART = 6,     /* address: the prefetch starts anew there */
    BTS_INSTRUCTION = 7, /* size 2 Thumb, 4 ARM; address; value: opcode (Thumb: low 16 bits, rest ignored); flag 1: pc changed */
    BTS_PC = 8,          /* address: the pc, which opens the BIOS to loads below 0x4000 */
    BTS_LATCH = 9,       /* value: what BIOS loads give while it is closed */
    BTS_BLOCK_READ = 10, /* in version 2; size 4; address; value: number of words, 1 to BTS_MOST_WORDS */
    BTS_BLOCK_WRITE = 11 /* the same, stored: 0 in each word */
};

enum { BTS_MOST_WORDS = 16 }; /* of a block */

/* A block stands for as many word accesses as it has words, at rising addresses: the first at its address lowered to a multiple of
 * 4, and each other 4 behind the one before it, from 0xFFFFFFFC on to 0. Each word lies in the memory that its own address decodes
 * to, and costs what a READ or WRITE of size 4 would cost there, behind the word before it; the first stands behind the access
 * before the block, and the last is the previous access afterwards. But it is one step: it has one answer, one share and one row
 * of grounds, and its cycles, at most 288, are the sum of its words'.
 *
 * BLOCK READ answers the last word. BLOCK WRITE takes no value to store: no cycle depends on what is stored, and it is 0 in each
 * word. Where the stored values matter, use WRITE. */

/* ---- the board
 *
 * A fresh board is BTS_BOARD_SIZE zero bytes.
 *
 * A board that was saved before version 2.0 has 72 bytes, and is refused (BTS_UNSOUND_BOARD). Append eight zero bytes: it is then
 * the same board, without a previous data access.
 *
 * The places of its fields, each of which has a reader among the helpers below: */

enum {
    BTS_BOARD_WAITCNT = 0,           /* 2 bytes */
    BTS_BOARD_FORCE = 2,             /* 1: the next opcode fetch is nonsequential */
    BTS_BOARD_HEAD = 3,              /* the prefetch: place of its first halfword among the eight */
    BTS_BOARD_COUNT = 4,             /* how many stand */
    BTS_BOARD_FILLING = 5,           /* 1: another is on its way */
    BTS_BOARD_FIRST_BEAT = 6,        /* 1: the next to be started is priced as the first since a restart */
    /* 7 is zero */
    BTS_BOARD_WAIT_LEFT = 8,         /* 4 bytes: idle cycles until the one on its way is there, else 0 */
    BTS_BOARD_NEXT_ADDRESS = 12,     /* 4 bytes: of the one on its way, or the next to be started */
    BTS_BOARD_HEAD_ADDRESS = 16,     /* 4 bytes: of the first that stands */
    BTS_BOARD_HALFWORDS = 20,        /* 8 times 2 bytes */
    BTS_BOARD_PC = 36,               /* 4 bytes */
    BTS_BOARD_LATCH = 40,            /* 4 bytes */
    BTS_BOARD_VRAM_STORES = 44,      /* 8 bytes each: the store counters, which stop at 2^64 - 1 */
    BTS_BOARD_OAM_STORES = 52,
    BTS_BOARD_PALETTE_STORES = 60,
    BTS_BOARD_PREVIOUS_ADDRESS = 68, /* 4 bytes: of the previous data access, lowered to a multiple of its size; 0 for none */
    BTS_BOARD_PREVIOUS_SIZE = 72     /* its size, 1, 2 or 4; 0 for none */
    /* 73-79 are zero */
};

/* What a READ or WRITE in a ROM window costs follows from the previous data access. One that goes on where the previous one ended
 * is sequential from its first halfword on, unless its address is a multiple of 0x20000; any other is nonsequential in its first
 * halfword. The second halfword of a word is always sequential. Both addresses are lowered to a multiple of their size for this,
 * and it makes no difference which of the two reads and which writes. Each word of a block is such an access.
 *
 * The previous access is the last READ or WRITE, or the last word of a block, wherever it went and whatever of it landed. IDLE, PC
 * and LATCH leave it alone; INSTRUCTION, FETCH, RESTART and WAITCNT clear it. It stands on the board, so a sheet goes on with it
 * where another ended. */

/* A board is sound when all of these hold:
 *   - bytes 7 and 73-79 are 0; force, filling and first beat are 0 or 1; WAITCNT bit 13 is clear;
 *   - previous size is 0, 1, 2 or 4; with 0, previous address is 0; else it is a multiple of previous size;
 *   - head is at most 7, count at most 8, wait left at most 9, and next address is even;
 *   - filling is 1 exactly when wait left is at least 1, and then count is at most 7 and next address lies in a ROM window;
 *   - with count 0, head address is 0; else head address and next address - 2 lie in ROM windows, and
 *     head address + 2 * count = next address;
 *   - with prefetch off (WAITCNT bit 14 clear), bytes 3-6 and 8-19 are 0.
 * Halfwords, pc, latch and counters may hold anything. A board that an accepted run left is sound. */

/* ---- the answers
 *
 * Answer: bytes 0-3 value, 4-7 cycles, 8 hits, 9 prefetch count, 10 force flag, 11 zero; the count and the flag are those after
 * the step.
 *
 * The hits of a WRITE, 0 to 4, are the bytes that landed in a memory, whatever stood there before. Nothing is refused for the
 * others, so look: a WRITE whose hits are fewer than its bytes lost some. Its bytes are its size, and 2 for a byte to palette or
 * VRAM (0x05 or 0x06 at the top of the address), which fills its halfword. What is lost:
 *   - all that goes to BIOS, ROM, an unused area, a gap of I/O, or past the length of its memory; of a store across a memory's
 *     end, the bytes behind the end;
 *   - a byte to OAM, and a byte to object VRAM: from 0x10000 on, or from 0x14000 on in display modes 3 to 7 (I/O byte 0);
 *   - all but one byte of a wide store to SRAM.
 * The hits of a BLOCK WRITE, 0 to 64, are the bytes of all its words that landed, and its bytes are 4 a word. What it loses is
 * what a WRITE of size 4 loses at the address of each word, so to SRAM one byte a word lands at most.
 *
 * So the hits of these two depend on the memories' lengths, and those of a WRITE on the display mode too, as no other hits and no
 * cycles do: leave them out where runs over different memories are to agree. */

typedef struct {
    uint32_t value;  /* READ: data; BLOCK READ: the last word; FETCH: halfword, 0 on a miss; INSTRUCTION: its cycles with the
                        cartridge bus free; else 0 */
    uint32_t cycles;
    uint8_t hits;    /* FETCH, INSTRUCTION: halfwords taken from the prefetch; WRITE, BLOCK WRITE: bytes that landed in a memory;
                        else 0 */
    uint8_t count;   /* halfwords that stand in the prefetch */
    uint8_t force;   /* 1: the next opcode fetch is nonsequential */
} bts_answer;

/* ---- the shares, which a run under a tariff gives besides
 *
 * Share: 8 bytes, in cents.
 *
 * The rate is in cents per million cycles, from 1 to BTS_MOST_RATE. The charge is total * rate / 1,000,000, rounded up to the
 * cent. A step's share is the charge up to and with that step less the charge up to the step before. So the shares add up to the
 * charge, and a step that costs cycles may have a share of 0: the cent that it falls into was begun by a step before it.
 *
 * A charge is a sheet's, and is rounded once. So don't add up the charges of sheets, and don't round what steps cost by
 * themselves: either may come to more than the charge. What is billed as one must be run as one sheet.
 *
 * Two accepted runs under one rate have the same shares and the same charge, whatever the memories hold and however long they
 * are, if they are alike: the sheets are the same but for the values of WRITE and LATCH, and the boards but for halfwords, latch
 * and counters. (The value of a block is its number of words, so it must be the same.) */

enum { BTS_MOST_RATE = 1000000 }; /* cents per million cycles */

/* ---- the grounds, which bts_run_grounds gives besides: why a step costs what it does
 *
 * Grounds: 32 bytes a step, one for each beat in the order of the beats, and 0 behind the last beat. A step of version 1 has at
 * most two beats; a block of 16 words can fill all 32, so look at each of them.
 *
 * READ, WRITE, the blocks and INSTRUCTION have grounds. All other kinds have none, FETCH too, though it takes from the prefetch.
 * An opcode in a ROM window has a beat for each of its halfwords, Thumb one and ARM two; any other opcode is one beat as a whole.
 * A READ or WRITE of a word has two beats in ROM, EWRAM, palette and VRAM; any other access is one beat. A block has the beats of
 * its words, one word's behind the other's.
 *
 * What the beats cost adds up to the step's cycles, together with the internal cycle of an INSTRUCTION that has one. N and S are
 * the cycles of a nonsequential and of a sequential halfword of ROM, 1 + the waits that WAITCNT sets for the window of the step's
 * address, and in a block for that of the word's. The prefetch, the force flag and the previous data access are those of the board
 * before the step; that of a further word of a block is the word before it.
 *
 *   ground   cycles  where it is told
 *   hit      1       a halfword of an opcode in ROM, if the prefetch is on and that halfword is the first that stands in it
 *   seq      S       a halfword of ROM of which none of hit, flag, block and address is told: one of an opcode, the first of data
 *                    that go on where the previous access ended, or the second of a word
 *   flag     N       the first halfword of an opcode in ROM, if the force flag is set
 *   block    N       a halfword of ROM at a multiple of 0x20000, where a block begins
 *   address  N       the first halfword of data in ROM that don't go on where the previous access ended, or have none before them
 *   ewram    3       a beat of data in EWRAM, or an opcode there as a whole; that of an ARM opcode costs 6
 *   sram     1 + W   data in SRAM, of any size, at the W waits that WAITCNT sets for it
 *   video    1       a beat of data in palette or VRAM
 *   fast     1       any other data, and any other opcode outside ROM: in palette, VRAM and SRAM too
 *
 * A hit comes before the block, and the block before the flag and the address. A ground goes by its condition and not by the
 * price, so it is told where N and S are the same too. The multiple of 0x20000 goes by an opcode's address as it is given, and by
 * that of data lowered to a multiple of their size. The second halfword of an ARM opcode has the window of the first, so behind
 * the last window it still is one of ROM: of an opcode at 0x0DFFFFFE it is block, and of one at 0x0DFFFFFF seq.
 *
 * A hit is what stood first in the prefetch before the step, and isn't the hits of the answer: an ARM opcode whose halfwords both
 * stand there has the grounds hit and seq, and hits 2; one whose second halfword stands first has seq and hit, and hits 0.
 *
 * Two accepted runs that are alike (see the shares) have the same grounds, whatever the memories hold and however long they are.
 * So bts_run_grounds over no memories (all lengths 0), on a copy of the board, gives the grounds of a preview, and those of a run
 * under a tariff. */

enum {
    BTS_GROUND_NONE = 0, /* no beat */
    BTS_GROUND_HIT = 1,
    BTS_GROUND_SEQ = 2,
    BTS_GROUND_FLAG = 3,
    BTS_GROUND_BLOCK = 4,
    BTS_GROUND_ADDRESS = 5,
    BTS_GROUND_EWRAM = 6,
    BTS_GROUND_SRAM = 7,
    BTS_GROUND_VIDEO = 8,
    BTS_GROUND_FAST = 9,
    BTS_GROUNDS = 10     /* how many numbers there are, BTS_GROUND_NONE among them */
};

/* For any number: "hit" for 1, and so on, as the printed lines have it; "none" for 0, and "unknown" from BTS_GROUNDS on. */
static inline const char *bts_ground_name(uint32_t number) {
    static const char *const names[BTS_GROUNDS + 1] = {"none",  "hit",  "seq",   "flag", "block",  "address",
                                                       "ewram", "sram", "video", "fast", "unknown"};
    return names[number < BTS_GROUNDS ? number : BTS_CAST(uint32_t, BTS_GROUNDS)];
}

/* ---- the preview
 *
 * bts_preview takes a sheet and a board, and no memories. Its report and its answers are those of bts_run on a copy of the board,
 * whatever memories that is lent, if only it accepts them. This is proved, and holds of every byte but for these, which hang on
 * the memories and are 0:
 *   - bytes 0-3 of the answer of a READ or a FETCH, and of a BLOCK READ: the value;
 *   - byte 8 of the answer of a WRITE or a BLOCK WRITE: the hits.
 * So the total is the run's, and so are the cycles, the prefetch count and the force flag of each step, the value of INSTRUCTION,
 * and the hits of FETCH and INSTRUCTION.
 *
 * It is refused as the run is, with 1, 2, 3, 5, 6 or 7, and the lowest is given where several conditions are met. It is never
 * refused with BTS_BAD_LENGTHS or BTS_BAD_RATE: it takes neither lengths nor a rate.
 *
 * It leaves no board that the preview of a further sheet could go on from. That board is had by bts_run of the first sheet on a
 * copy, over no memories (all lengths 0): no cycle depends on them. bts_run_tariff over no memories, on a copy of the board too,
 * gives the shares and the charge of a run over any, and bts_run_grounds its grounds. */

/* ---- the runs */

#ifndef BTS_NO_LIBRARY
BTS_FUNCTION
bts_report bts_run(const uint8_t *sheet, size_t sheet_len,
                   uint8_t *board, size_t board_len,
                   uint8_t *store, size_t store_len,
                   const uint8_t *bios, size_t bios_len,
                   const uint8_t *rom, size_t rom_len,
                   uint8_t *answers, size_t answers_len,
                   size_t ewram, size_t iwram, size_t io, size_t palette, size_t vram, size_t oam, size_t sram);

/* The same run, billed. */
BTS_FUNCTION
bts_bill bts_run_tariff(const uint8_t *sheet, size_t sheet_len,
                        uint8_t *board, size_t board_len,
                        uint8_t *store, size_t store_len,
                        const uint8_t *bios, size_t bios_len,
                        const uint8_t *rom, size_t rom_len,
                        uint8_t *answers, size_t answers_len,
                        uint8_t *shares, size_t shares_len,
                        size_t ewram, size_t iwram, size_t io, size_t palette, size_t vram, size_t oam, size_t sram,
                        uint32_t rate);

/* The same run, with the grounds of its prices. */
BTS_FUNCTION
bts_report bts_run_grounds(const uint8_t *sheet, size_t sheet_len,
                           uint8_t *board, size_t board_len,
                           uint8_t *store, size_t store_len,
                           const uint8_t *bios, size_t bios_len,
                           const uint8_t *rom, size_t rom_len,
                           uint8_t *answers, size_t answers_len,
                           uint8_t *grounds, size_t grounds_len,
                           size_t ewram, size_t iwram, size_t io, size_t palette, size_t vram, size_t oam, size_t sram);

/* The same priced, and not run: sheet and board are only read, and answers is written. */
BTS_FUNCTION
bts_report bts_preview(const uint8_t *sheet, size_t sheet_len,
                       const uint8_t *board, size_t board_len,
                       uint8_t *answers, size_t answers_len);
#endif

/* ---- helpers, which need no library */

/* A pointer that a run may be given: NULL, which stands for "no memory" and goes with length 0, becomes a valid address. */
static inline const uint8_t *bts_bytes(const uint8_t *bytes) {
    static const uint8_t none[1] = {0};
    return bytes != NULL ? bytes : none;
}

/* The same for a buffer that is written. With length 0 nothing is written, so all callers may share the one byte. */
static inline uint8_t *bts_room(uint8_t *bytes) {
    static uint8_t none[1] = {0};
    return bytes != NULL ? bytes : none;
}

/* A number's 4 bytes, written. */
static inline void bts_put32(uint8_t *at, uint32_t number) {
    at[0] = BTS_CAST(uint8_t, number & 0xFF);
    at[1] = BTS_CAST(uint8_t, number >> 8 & 0xFF);
    at[2] = BTS_CAST(uint8_t, number >> 16 & 0xFF);
    at[3] = BTS_CAST(uint8_t, number >> 24);
}

/* A number's 2, 4 or 8 bytes, read. */
static inline uint16_t bts_get16(const uint8_t *at) {
    return BTS_CAST(uint16_t, at[0] | at[1] << 8);
}
static inline uint32_t bts_get32(const uint8_t *at) {
    return bts_get16(at) | BTS_CAST(uint32_t, bts_get16(at + 2)) << 16;
}
static inline uint64_t bts_get64(const uint8_t *at) {
    return bts_get32(at) | BTS_CAST(uint64_t, bts_get32(at + 4)) << 32;
}

/* The BTS_HEADER_SIZE bytes in front of `records` records, at most BTS_MOST_RECORDS, of a sheet of the version. What is none is
 * written all the same (16 bits of it), and refused by the run. */
static inline void bts_put_header_of(uint8_t *sheet, uint32_t version, uint32_t records) {
    bts_put32(sheet, 0x00535442 | version << 24);
    bts_put32(sheet + 4, (version >> 8 & 0xFF) | records << 16);
}

/* The same of a sheet of version 1, which has no blocks. */
static inline void bts_put_header(uint8_t *sheet, uint32_t records) {
    bts_put_header_of(sheet, BTS_CAST(uint32_t, BTS_VERSION), records);
}

/* The version that a sheet of at least BTS_HEADER_SIZE bytes says it is of. */
static inline uint16_t bts_sheet_version(const uint8_t *sheet) {
    return bts_get16(sheet + 3);
}

/* Record k, from 0, of a sheet that has room for it. What is no legal record is written all the same, and refused by the run. */
static inline void bts_put_record(uint8_t *sheet, size_t k, uint8_t kind, uint8_t size, uint8_t flag, uint32_t address,
                                  uint32_t value) {
    uint8_t *record = sheet + BTS_HEADER_SIZE + BTS_RECORD_SIZE * k;
    record[0] = kind;
    record[1] = size;
    record[2] = flag;
    record[3] = 0;
    bts_put32(record + 4, address);
    bts_put32(record + 8, value);
}

/* Answer k, from 0, of an accepted run or preview. */
static inline bts_answer bts_answer_at(const uint8_t *answers, size_t k) {
    const uint8_t *at = answers + BTS_ANSWER_SIZE * k;
    bts_answer answer;
    answer.value = bts_get32(at);
    answer.cycles = bts_get32(at + 4);
    answer.hits = at[8];
    answer.count = at[9];
    answer.force = at[10];
    return answer;
}

/* Share k, from 0, of an accepted run under a tariff: cents. */
static inline uint64_t bts_share_at(const uint8_t *shares, size_t k) {
    return bts_get64(shares + BTS_SHARE_SIZE * k);
}

/* The ground of beat `beat`, from 0 and below BTS_GROUNDS_SIZE, of step k, from 0, of an accepted run with grounds: one of the
 * numbers above, and BTS_GROUND_NONE behind the last beat. */
static inline uint8_t bts_ground_at(const uint8_t *grounds, size_t k, size_t beat) {
    return grounds[BTS_GROUNDS_SIZE * k + beat];
}

/* How many beats step k has: 0 to BTS_GROUNDS_SIZE. */
static inline size_t bts_ground_beats(const uint8_t *grounds, size_t k) {
    size_t beats = 0;
    while (beats < BTS_GROUNDS_SIZE && bts_ground_at(grounds, k, beats) != BTS_GROUND_NONE) {
        beats++;
    }
    return beats;
}

/* The fields of a board of BTS_BOARD_SIZE bytes; what they mean stands at their places above. */
static inline uint16_t bts_board_waitcnt(const uint8_t *board) { return bts_get16(board + BTS_BOARD_WAITCNT); }
static inline uint8_t bts_board_force(const uint8_t *board) { return board[BTS_BOARD_FORCE]; }
static inline uint8_t bts_board_head(const uint8_t *board) { return board[BTS_BOARD_HEAD]; }
static inline uint8_t bts_board_count(const uint8_t *board) { return board[BTS_BOARD_COUNT]; }
static inline uint8_t bts_board_filling(const uint8_t *board) { return board[BTS_BOARD_FILLING]; }
static inline uint8_t bts_board_first_beat(const uint8_t *board) { return board[BTS_BOARD_FIRST_BEAT]; }
static inline uint32_t bts_board_wait_left(const uint8_t *board) { return bts_get32(board + BTS_BOARD_WAIT_LEFT); }
static inline uint32_t bts_board_next_address(const uint8_t *board) { return bts_get32(board + BTS_BOARD_NEXT_ADDRESS); }
static inline uint32_t bts_board_head_address(const uint8_t *board) { return bts_get32(board + BTS_BOARD_HEAD_ADDRESS); }
static inline uint32_t bts_board_pc(const uint8_t *board) { return bts_get32(board + BTS_BOARD_PC); }
static inline uint32_t bts_board_latch(const uint8_t *board) { return bts_get32(board + BTS_BOARD_LATCH); }
static inline uint64_t bts_board_vram_stores(const uint8_t *board) { return bts_get64(board + BTS_BOARD_VRAM_STORES); }
static inline uint64_t bts_board_oam_stores(const uint8_t *board) { return bts_get64(board + BTS_BOARD_OAM_STORES); }
static inline uint64_t bts_board_palette_stores(const uint8_t *board) { return bts_get64(board + BTS_BOARD_PALETTE_STORES); }
static inline uint32_t bts_board_previous_address(const uint8_t *board) { return bts_get32(board + BTS_BOARD_PREVIOUS_ADDRESS); }
static inline uint8_t bts_board_previous_size(const uint8_t *board) { return board[BTS_BOARD_PREVIOUS_SIZE]; }

/* Place k, from 0 to 7, of the prefetch. Those that stand are the `count` places from `head` on, and from 7 on to 0. */
static inline uint16_t bts_board_halfword(const uint8_t *board, size_t k) {
    return bts_get16(board + BTS_BOARD_HALFWORDS + 2 * k);
}

#endif
