//! Previews beside runs, worked out by hand from the rules (docs/RULES.md, "What a preview gives" first of all), apart from the
//! library and from preview.rs.

/// A list of steps, what is claimed of its run and what of its preview, in the notation of docs/DIFFERENCES.md. Besides, in a
/// list `board buffer at 0x08000100 0x1234` is a board in whose prefetch these halfwords stand, from that address on.
/// `sheet byte 3 3` and `board byte 2 2` set a byte of what is lent, and `sheet of 7 bytes` cuts it off there or puts zeros
/// behind it, as with board, answers and store. In a claim `bytes` are the answer of the last step, in hexadecimal, and
/// `refused 7 at 1` is a refusal with its index.
pub const PREVIEWS: &[(&str, &str, &str)] = &[
    // READ: the value is 0 whatever the run finds, a chip or none; the price is the run's
    (
        "no SRAM, READ 1 at 0x0E000000",
        "bytes FF 00 00 00 05 00 00 00 00 00 00 00",
        "bytes 00 00 00 00 05 00 00 00 00 00 00 00",
    ),
    (
        "no SRAM, READ 4 at 0x0E000000",
        "bytes FF FF FF FF 05 00 00 00 00 00 00 00",
        "bytes 00 00 00 00 05 00 00 00 00 00 00 00",
    ),
    (
        "SRAM of bytes A5, READ 2 at 0x0E000000",
        "bytes A5 A5 00 00 05 00 00 00 00 00 00 00",
        "bytes 00 00 00 00 05 00 00 00 00 00 00 00",
    ),
    (
        "EWRAM of bytes 11 22 33 44, READ 4 at 0x02000000",
        "bytes 11 22 33 44 06 00 00 00 00 00 00 00",
        "bytes 00 00 00 00 06 00 00 00 00 00 00 00",
    ),
    (
        "IWRAM of bytes 11 22 33 44, READ 2 at 0x03000002",
        "bytes 33 44 00 00 01 00 00 00 00 00 00 00",
        "bytes 00 00 00 00 01 00 00 00 00 00 00 00",
    ),
    (
        "WRITE 4 of 0x12345678 at 0x06000000, READ 4 at 0x06000000",
        "bytes 78 56 34 12 02 00 00 00 00 00 00 00, hits 4, 0, total 4",
        "bytes 00 00 00 00 02 00 00 00 00 00 00 00, hits 0, 0, total 4",
    ),
    (
        "BIOS of bytes 01 02 03 04, READ 2 at 0x00000002",
        "bytes 03 04 00 00 01 00 00 00 00 00 00 00",
        "bytes 00 00 00 00 01 00 00 00 00 00 00 00",
    ),
    (
        "PC 0x08000000, LATCH 0x44332211, READ 4 at 0x00000000",
        "bytes 11 22 33 44 01 00 00 00 00 00 00 00",
        "bytes 00 00 00 00 01 00 00 00 00 00 00 00",
    ),
    (
        "ROM of bytes 11 22 33 44, READ 2 at 0x08000002",
        "bytes 33 44 00 00 05 00 00 00 00 00 00 00",
        "bytes 00 00 00 00 05 00 00 00 00 00 00 00",
    ),
    (
        "ROM of bytes 11 22 33 44 55 66 77 88, READ 4 at 0x08000000, READ 4 at 0x08000004",
        "bytes 55 66 77 88 06 00 00 00 00 00 00 00, cycles 8, 6, total 14",
        "bytes 00 00 00 00 06 00 00 00 00 00 00 00, cycles 8, 6, total 14",
    ),
    (
        "READ 4 at 0x10000000",
        "bytes 00 00 00 00 01 00 00 00 00 00 00 00",
        "bytes 00 00 00 00 01 00 00 00 00 00 00 00",
    ),
    // WRITE: the hits are 0 whatever lands
    (
        "WRITE 4 of 0x12345678 at 0x02000000",
        "bytes 00 00 00 00 06 00 00 00 04 00 00 00, changed 4",
        "bytes 00 00 00 00 06 00 00 00 00 00 00 00",
    ),
    (
        "EWRAM of 3 bytes, WRITE 4 of 0x12345678 at 0x02000000",
        "bytes 00 00 00 00 06 00 00 00 03 00 00 00, changed 3",
        "bytes 00 00 00 00 06 00 00 00 00 00 00 00",
    ),
    (
        "no EWRAM, WRITE 2 of 0x1234 at 0x02000000",
        "bytes 00 00 00 00 03 00 00 00 00 00 00 00",
        "bytes 00 00 00 00 03 00 00 00 00 00 00 00",
    ),
    (
        "WRITE 2 of 0x1234 at 0x0E000000",
        "bytes 00 00 00 00 05 00 00 00 01 00 00 00, changed 1",
        "bytes 00 00 00 00 05 00 00 00 00 00 00 00",
    ),
    (
        "WRITE 1 of 0x5A at 0x05000001",
        "bytes 00 00 00 00 01 00 00 00 02 00 00 00, palette counter 1",
        "bytes 00 00 00 00 01 00 00 00 00 00 00 00, palette counter 0",
    ),
    (
        "WRITE 1 of 0x5A at 0x07000000",
        "bytes 00 00 00 00 01 00 00 00 00 00 00 00",
        "bytes 00 00 00 00 01 00 00 00 00 00 00 00",
    ),
    (
        "WRITE 2 of 0x1234 at 0x08000100",
        "bytes 00 00 00 00 05 00 00 00 00 00 00 00",
        "bytes 00 00 00 00 05 00 00 00 00 00 00 00",
    ),
    // what is stored decides no price: a display mode decides what lands, and waits nothing at all
    (
        "VRAM of 98,304 bytes, WRITE 1 of 0x5A at 0x06010000, WRITE 1 of 3 at 0x04000000, WRITE 1 of 0x5A at 0x06010000",
        "hits 0, 1, 2, cycles 1, 1, 1, VRAM counter 1",
        "hits 0, 0, 0, cycles 1, 1, 1, VRAM counter 0",
    ),
    (
        "WRITE 2 of 0x4317 at 0x04000204, READ 2 at 0x08000100",
        "hits 2, 0, cycles 1, 5, board WAITCNT 0",
        "hits 0, 0, cycles 1, 5, board WAITCNT 0",
    ),
    // WAITCNT sets the waits of the steps behind it, and the board is as lent all the same
    (
        "WAITCNT 0x4317",
        "bytes 00 00 00 00 00 00 00 00 00 00 00 00, board WAITCNT 0x4317",
        "bytes 00 00 00 00 00 00 00 00 00 00 00 00, board WAITCNT 0",
    ),
    (
        "WAITCNT 0x4317, READ 2 at 0x08000000, READ 1 at 0x0E000000",
        "cycles 0, 4, 9, board WAITCNT 0x4317, previous 1 at 0x0E000000",
        "cycles 0, 4, 9, board WAITCNT 0, previous none",
    ),
    // IDLE: cycles and count
    (
        "WAITCNT 0x4000, RESTART 0x08000100, IDLE 27",
        "bytes 00 00 00 00 1B 00 00 00 00 07 00 00, total 27",
        "bytes 00 00 00 00 1B 00 00 00 00 07 00 00, total 27",
    ),
    (
        "IDLE 4,294,967,295",
        "bytes 00 00 00 00 FF FF FF FF 00 00 00 00, total 4,294,967,295",
        "bytes 00 00 00 00 FF FF FF FF 00 00 00 00, total 4,294,967,295",
    ),
    // FETCH: a hit is told and its halfword isn't, be it the board's own or filled from ROM; a miss is all zeros
    (
        "board WAITCNT 0x4000, board buffer at 0x08000100 0x1234 0x5678, FETCH 0x08000100",
        "bytes 34 12 00 00 00 00 00 00 01 01 00 00",
        "bytes 00 00 00 00 00 00 00 00 01 01 00 00",
    ),
    (
        "board WAITCNT 0x4000, board buffer at 0x08000100 0x1234 0x5678, FETCH 0x08000100, FETCH 0x08000102, FETCH 0x08000104",
        "hits 1, 1, 0, bytes 00 00 00 00 00 00 00 00 00 00 00 00",
        "hits 1, 1, 0, bytes 00 00 00 00 00 00 00 00 00 00 00 00",
    ),
    (
        "ROM of bytes 34 12 78 56, WAITCNT 0x4000, RESTART 0x08000000, IDLE 28, FETCH 0x08000000, FETCH 0x08000002",
        "bytes 78 56 00 00 00 00 00 00 01 06 00 00, hits 1, 1, total 28",
        "bytes 00 00 00 00 00 00 00 00 01 06 00 00, hits 1, 1, total 28",
    ),
    (
        "FETCH 0x08000100",
        "bytes 00 00 00 00 00 00 00 00 00 00 00 00",
        "bytes 00 00 00 00 00 00 00 00 00 00 00 00",
    ),
    (
        "board WAITCNT 0x4000, board buffer at 0x08000100 0x1234 0x5678, FETCH 0x08000200",
        "bytes 00 00 00 00 00 00 00 00 00 00 00 00",
        "bytes 00 00 00 00 00 00 00 00 00 00 00 00",
    ),
    // RESTART: the count
    (
        "board WAITCNT 0x4000, board buffer at 0x08000100 0x1234 0x5678, RESTART 0x08000200",
        "bytes 00 00 00 00 00 00 00 00 00 00 00 00",
        "bytes 00 00 00 00 00 00 00 00 00 00 00 00",
    ),
    // INSTRUCTION: its value, the cycles in which the cartridge is idle, is the run's; so are its hits
    (
        "Thumb 0x1C00 at 0x03000000",
        "bytes 01 00 00 00 01 00 00 00 00 00 00 00",
        "bytes 01 00 00 00 01 00 00 00 00 00 00 00",
    ),
    (
        "ARM 0xE1A00000 at 0x02000000",
        "bytes 06 00 00 00 06 00 00 00 00 00 00 00",
        "bytes 06 00 00 00 06 00 00 00 00 00 00 00",
    ),
    (
        "Thumb 0x6808 at 0x08000100",
        "bytes 01 00 00 00 04 00 00 00 00 00 01 00",
        "bytes 01 00 00 00 04 00 00 00 00 00 01 00",
    ),
    (
        "ARM 0xE5910000 at 0x08000100, ARM 0xE5910000 at 0x08000104",
        "bytes 01 00 00 00 09 00 00 00 00 00 01 00, cycles 7, 9",
        "bytes 01 00 00 00 09 00 00 00 00 00 01 00, cycles 7, 9",
    ),
    (
        "board WAITCNT 0x4000, board buffer at 0x08000100 0x6808, Thumb 0x6808 at 0x08000100",
        "bytes 01 00 00 00 02 00 00 00 01 00 00 00",
        "bytes 01 00 00 00 02 00 00 00 01 00 00 00",
    ),
    (
        "board WAITCNT 0x4000, board buffer at 0x08000100 0x0000 0xE1A0, ARM 0xE1A00000 at 0x08000100",
        "bytes 00 00 00 00 04 00 00 00 02 00 00 00",
        "bytes 00 00 00 00 04 00 00 00 02 00 00 00",
    ),
    (
        "board WAITCNT 0x4000, board buffer at 0x08000100 0x0000 0xE591 0x0000, ARM 0xE5910000 at 0x08000100",
        "bytes 01 00 00 00 05 00 00 00 02 01 00 00",
        "bytes 01 00 00 00 05 00 00 00 02 01 00 00",
    ),
    (
        "board WAITCNT 0x4000, board buffer at 0x08000100 0x0000, ARM 0xE1A00000 at 0x08000100",
        "bytes 00 00 00 00 04 00 00 00 01 00 00 00",
        "bytes 00 00 00 00 04 00 00 00 01 00 00 00",
    ),
    // PC and LATCH: nothing but count and flag, which each kind of step shows
    (
        "PC 0x08000000",
        "bytes 00 00 00 00 00 00 00 00 00 00 00 00",
        "bytes 00 00 00 00 00 00 00 00 00 00 00 00",
    ),
    (
        "LATCH 0x44332211",
        "bytes 00 00 00 00 00 00 00 00 00 00 00 00",
        "bytes 00 00 00 00 00 00 00 00 00 00 00 00",
    ),
    (
        "Thumb 0x6808 at 0x08000100, PC 0x08000000",
        "bytes 00 00 00 00 00 00 00 00 00 00 01 00",
        "bytes 00 00 00 00 00 00 00 00 00 00 01 00",
    ),
    (
        "board WAITCNT 0x4000, board buffer at 0x08000100 0x1234 0x5678, LATCH 5",
        "bytes 00 00 00 00 00 00 00 00 00 02 00 00",
        "bytes 00 00 00 00 00 00 00 00 00 02 00 00",
    ),
    (
        "no SRAM, Thumb 0x6808 at 0x08000100, READ 1 at 0x0E000000",
        "bytes FF 00 00 00 05 00 00 00 00 00 01 00",
        "bytes 00 00 00 00 05 00 00 00 00 00 01 00",
    ),
    (
        "board WAITCNT 0x4000, board buffer at 0x08000100 0x1234 0x5678, WRITE 4 of 1 at 0x03000000",
        "bytes 00 00 00 00 01 00 00 00 04 02 00 00",
        "bytes 00 00 00 00 01 00 00 00 00 02 00 00",
    ),
    // the example of `bench`
    (
        "WAITCNT 0x4000, RESTART 0x08000100, IDLE 27, Thumb 0x1C00 at 0x08000100, READ 2 at 0x02000000",
        "cycles 0, 0, 27, 1, 3, hits 0, 0, 0, 1, 0, bytes 00 00 00 00 03 00 00 00 00 06 00 00, total 31",
        "cycles 0, 0, 27, 1, 3, hits 0, 0, 0, 1, 0, bytes 00 00 00 00 03 00 00 00 00 06 00 00, total 31",
    ),
    // the board brings a previous access, by which the first price goes, and keeps it
    (
        "board previous 4 at 0x08000100, READ 2 at 0x08000104, READ 2 at 0x08000106",
        "cycles 3, 3, previous 2 at 0x08000106",
        "cycles 3, 3, previous 4 at 0x08000100",
    ),
    // no step; answers longer than they need; the longest sheet
    ("answers of 0 bytes", "total 0", "total 0"),
    ("answers of 5 bytes", "total 0", "total 0"),
    ("answers of 25 bytes, IDLE 1", "bytes 00 00 00 00 01 00 00 00 00 00 00 00", "bytes 00 00 00 00 01 00 00 00 00 00 00 00"),
    ("4,096 × IDLE 4,294,967,295", "total 17,592,186,040,320", "total 17,592,186,040,320"),
    // each refusal alone: 1, 2 and 3 by the sheet's head and length, 5 by the board, 6 by the answers, 7 by a record
    ("sheet byte 0 0x43, IDLE 1", "refused 1", "refused 1"),
    ("sheet of 7 bytes, IDLE 1", "refused 1", "refused 1"),
    ("sheet of 0 bytes", "refused 1", "refused 1"),
    ("sheet byte 3 3, IDLE 1", "refused 2", "refused 2"),
    ("sheet byte 4 1, IDLE 1", "refused 2", "refused 2"),
    ("sheet byte 5 1, IDLE 1", "refused 3", "refused 3"),
    ("sheet byte 6 2, IDLE 1", "refused 3", "refused 3"),
    ("sheet of 21 bytes, IDLE 1", "refused 3", "refused 3"),
    ("4,097 × IDLE 1", "refused 3", "refused 3"),
    ("board byte 2 2, IDLE 1", "refused 5", "refused 5"),
    ("board byte 79 1, IDLE 1", "refused 5", "refused 5"),
    ("board of 79 bytes, IDLE 1", "refused 5", "refused 5"),
    ("board of 0 bytes, IDLE 1", "refused 5", "refused 5"),
    ("answers of 11 bytes, IDLE 1", "refused 6", "refused 6"),
    ("answers of 0 bytes, IDLE 1", "refused 6", "refused 6"),
    ("IDLE 1, READ 3 at 0x02000000", "refused 7 at 1", "refused 7 at 1"),
    ("sheet byte 11 1, IDLE 1, READ 3 at 0x02000000", "refused 7", "refused 7"),
    // each two of them: the lower number
    ("sheet byte 0 0x43, sheet byte 3 3, IDLE 1", "refused 1", "refused 1"),
    ("sheet byte 0 0x43, sheet byte 5 1, IDLE 1", "refused 1", "refused 1"),
    ("sheet byte 0 0x43, board byte 2 2, IDLE 1", "refused 1", "refused 1"),
    ("sheet byte 0 0x43, answers of 11 bytes, IDLE 1", "refused 1", "refused 1"),
    ("sheet byte 0 0x43, READ 3 at 0x02000000", "refused 1", "refused 1"),
    ("sheet byte 3 3, sheet byte 5 1, IDLE 1", "refused 2", "refused 2"),
    ("sheet byte 3 3, board byte 2 2, IDLE 1", "refused 2", "refused 2"),
    ("sheet byte 3 3, answers of 11 bytes, IDLE 1", "refused 2", "refused 2"),
    ("sheet byte 3 3, READ 3 at 0x02000000", "refused 2", "refused 2"),
    ("sheet byte 5 1, board byte 2 2, IDLE 1", "refused 3", "refused 3"),
    ("sheet byte 5 1, answers of 11 bytes, IDLE 1", "refused 3", "refused 3"),
    ("sheet byte 5 1, READ 3 at 0x02000000", "refused 3", "refused 3"),
    ("board byte 2 2, answers of 11 bytes, IDLE 1", "refused 5", "refused 5"),
    ("board byte 2 2, IDLE 1, READ 3 at 0x02000000", "refused 5", "refused 5"),
    ("answers of 23 bytes, IDLE 1, READ 3 at 0x02000000", "refused 6", "refused 6"),
    // lengths that don't add up: only the run is refused for them, and the preview for what stands behind
    ("store of 5 bytes, IDLE 1", "refused 4", "bytes 00 00 00 00 01 00 00 00 00 00 00 00, total 1"),
    (
        "store of 5 bytes, READ 4 at 0x02000000, WRITE 4 of 1 at 0x02000004",
        "refused 4",
        "cycles 6, 6, value 0, hits 0, 0, count 0, flag 0, total 12, previous none",
    ),
    ("store of 5 bytes, sheet byte 0 0x43, IDLE 1", "refused 1", "refused 1"),
    ("store of 5 bytes, sheet byte 3 3, IDLE 1", "refused 2", "refused 2"),
    ("store of 5 bytes, sheet byte 5 1, IDLE 1", "refused 3", "refused 3"),
    ("store of 5 bytes, board byte 2 2, IDLE 1", "refused 4", "refused 5"),
    ("store of 5 bytes, answers of 11 bytes, IDLE 1", "refused 4", "refused 6"),
    ("store of 5 bytes, IDLE 1, READ 3 at 0x02000000", "refused 4", "refused 7 at 1"),
    ("store of 5 bytes, board byte 2 2, answers of 11 bytes, READ 3 at 0x02000000", "refused 4", "refused 5"),
];
