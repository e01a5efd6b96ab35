//! Prices of data accesses in a row, worked out by hand from the rule (docs/RULES.md, "Sequential accesses"), apart from the
//! library and from the Rust. A halfword costs N or S: 5 or 3 in window 0, 5 or 5 in window 1, 5 or 9 in window 2; after WAITCNT
//! 0x0240 they are 5 or 3, 3 or 5, 3 or 9, and after 0x0490 all are 5 or 2.

/// A list of steps, and what is claimed, in the notation of docs/DIFFERENCES.md; besides, `board previous 4 at 0x08000100` is a
/// board whose previous access was of that size at that lowered address, and `previous` is the one that the run leaves.
pub const ROWS: &[(&str, &str)] = &[
    // with no previous access: N first in ROM, and elsewhere the region's price
    ("READ 1 at 0x08000103", "5 cycles, previous 1 at 0x08000103"),
    ("READ 2 at 0x08000102", "5 cycles, previous 2 at 0x08000102"),
    ("READ 4 at 0x08000104", "8 cycles, previous 4 at 0x08000104"),
    (
        "READ 1 at 0x0A000101, RESTART 0x00000000, READ 2 at 0x0A000102, RESTART 0x00000000, READ 4 at 0x0A000104",
        "cycles 5, 0, 5, 0, 10",
    ),
    (
        "READ 1 at 0x0C000101, RESTART 0x00000000, READ 2 at 0x0C000102, RESTART 0x00000000, READ 4 at 0x0C000104",
        "cycles 5, 0, 5, 0, 14",
    ),
    ("WAITCNT 0x0240, READ 4 at 0x0A000104, WAITCNT 0x0240, READ 4 at 0x0C000104", "cycles 8, 0, 12"),
    ("WAITCNT 0x0490, READ 4 at 0x0A000104, WAITCNT 0x0490, READ 4 at 0x0C000104", "cycles 7, 0, 7"),
    (
        "READ 4 at 0x02000000, RESTART 0x00000000, READ 4 at 0x05000000, RESTART 0x00000000, READ 4 at 0x06000000",
        "cycles 6, 0, 2, 0, 2",
    ),
    (
        "READ 4 at 0x0E000000, RESTART 0x00000000, READ 4 at 0x03000000, RESTART 0x00000000, READ 4 at 0x00000000",
        "cycles 5, 0, 1, 0, 1",
    ),
    // two words in a row within a block cost N + 3 S in all, four N + 7 S
    ("READ 4 at 0x08000100, READ 4 at 0x08000104", "cycles 8, 6, total 14"),
    ("READ 4 at 0x08000100, READ 4 at 0x08000104, READ 4 at 0x08000108, READ 4 at 0x0800010C", "cycles 8, 6, 6, 6, total 26"),
    ("WAITCNT 0x0240, READ 4 at 0x0A000100, READ 4 at 0x0A000104", "cycles 8, 10, total 18"),
    ("WAITCNT 0x0240, READ 4 at 0x0C000100, READ 4 at 0x0C000104", "cycles 12, 18, total 30"),
    ("WAITCNT 0x0490, READ 4 at 0x0C000100, READ 4 at 0x0C000104", "cycles 7, 4, total 11"),
    // a row goes on in any size, each after each
    (
        "READ 1 at 0x08000103, READ 4 at 0x08000104, READ 2 at 0x08000108, READ 1 at 0x0800010A, READ 1 at 0x0800010B",
        "cycles 5, 6, 3, 3, 3, previous 1 at 0x0800010B",
    ),
    ("READ 2 at 0x08000100, READ 1 at 0x08000102, READ 1 at 0x08000103, READ 2 at 0x08000104", "cycles 5, 3, 3, 3"),
    ("READ 2 at 0x08000102, READ 4 at 0x08000104, READ 1 at 0x08000108", "cycles 5, 6, 3"),
    // whatever was read or written
    ("READ 2 at 0x08000100, WRITE 2 of 0x1234 at 0x08000102, READ 2 at 0x08000104", "cycles 5, 3, 3"),
    ("WRITE 2 of 0x1234 at 0x08000100, WRITE 2 of 0x5678 at 0x08000102, WRITE 4 of 0 at 0x08000104", "cycles 5, 3, 6, changed 0"),
    ("WAITCNT 0x0240, WRITE 1 of 0 at 0x0C000100, READ 1 at 0x0C000101, WRITE 2 of 0 at 0x0C000102", "cycles 3, 9, 9"),
    // it doesn't where the place is the same again, before, inside or behind a gap
    ("2 × READ 2 at 0x08000100", "cycles 5, 5"),
    ("2 × READ 4 at 0x08000100", "cycles 8, 8"),
    ("READ 2 at 0x08000102, READ 2 at 0x08000100", "cycles 5, 5"),
    ("READ 4 at 0x08000100, READ 2 at 0x08000102", "cycles 8, 5"),
    ("READ 2 at 0x08000100, READ 2 at 0x08000104", "cycles 5, 5"),
    ("READ 1 at 0x08000100, READ 1 at 0x08000102", "cycles 5, 5"),
    ("READ 1 at 0x08000101, READ 4 at 0x08000102", "cycles 5, 8"),
    // both addresses count as lowered: a word at 0x08000103 ends at 0x08000104
    ("READ 4 at 0x08000103, READ 4 at 0x08000107", "cycles 8, 6, previous 4 at 0x08000104"),
    ("READ 4 at 0x08000103, READ 1 at 0x08000104", "cycles 8, 3"),
    ("READ 4 at 0x08000103, READ 1 at 0x08000107", "cycles 8, 5"),
    ("READ 2 at 0x08000101, READ 2 at 0x08000103", "cycles 5, 3, previous 2 at 0x08000102"),
    ("READ 1 at 0x08000101, READ 2 at 0x08000103", "cycles 5, 3"),
    ("READ 2 at 0x08000102, READ 4 at 0x08000106", "cycles 5, 6"),
    ("READ 4 at 0x08001FFE, READ 2 at 0x08002000", "cycles 8, 3"),
    // what is read isn't lowered
    ("ROM of bytes 11 22 33 44 55 66 77 88, READ 4 at 0x08000001", "8 cycles, value 0x55443322, previous 4 at 0x08000000"),
    ("ROM of bytes 11 22 33 44 55 66 77 88, READ 4 at 0x08000001, READ 2 at 0x08000005", "cycles 8, 3, value 0x7766"),
    // a lowered address that is a multiple of 0x20000 is N, an odd byte behind it isn't
    ("READ 4 at 0x0801FFFC, READ 4 at 0x08020000, READ 4 at 0x08020004", "cycles 8, 8, 6"),
    ("READ 4 at 0x0801FFFE, READ 4 at 0x08020003, READ 4 at 0x08020007", "cycles 8, 8, 6"),
    ("READ 2 at 0x0801FFFE, READ 2 at 0x08020001, READ 2 at 0x08020002", "cycles 5, 5, 3"),
    ("READ 1 at 0x08020000, READ 1 at 0x08020001", "cycles 5, 3"),
    ("READ 1 at 0x0801FFFF, READ 1 at 0x08020000, READ 1 at 0x08020001, READ 2 at 0x08020003", "cycles 5, 5, 3, 3"),
    ("READ 1 at 0x08020000, READ 2 at 0x08020001", "cycles 5, 5"),
    ("READ 2 at 0x08FFFFFE, READ 2 at 0x09000000, READ 2 at 0x09000002", "cycles 5, 5, 3"),
    ("WAITCNT 0x0240, READ 4 at 0x0A01FFFC, READ 4 at 0x0A020000, READ 4 at 0x0A020004", "cycles 8, 8, 10"),
    ("WAITCNT 0x0240, READ 1 at 0x0C01FFFF, READ 1 at 0x0C020000, READ 1 at 0x0C020001", "cycles 3, 3, 9"),
    // another region: from window to window, into the first, out of the last, over the end of all addresses
    ("WAITCNT 0x0240, READ 4 at 0x09FFFFFC, READ 4 at 0x0A000000, READ 4 at 0x0A000004", "cycles 8, 8, 10"),
    ("WAITCNT 0x0240, READ 2 at 0x0BFFFFFE, READ 2 at 0x0C000000, READ 2 at 0x0C000002", "cycles 3, 3, 9"),
    ("WAITCNT 0x0240, READ 2 at 0x0DFFFFFC, READ 2 at 0x0DFFFFFE, READ 2 at 0x0E000000", "cycles 3, 9, 5"),
    ("READ 4 at 0x07FFFFFC, READ 4 at 0x08000000, READ 4 at 0x08000004", "cycles 1, 8, 6"),
    ("READ 1 at 0x0FFFFFFF, READ 1 at 0x10000000", "cycles 5, 1"),
    ("READ 4 at 0xFFFFFFFF", "1 cycle, previous 4 at 0xFFFFFFFC"),
    ("READ 4 at 0xFFFFFFFC, READ 4 at 0x00000000", "cycles 1, 1, previous 4 at 0x00000000"),
    ("WAITCNT 0x0490, READ 2 at 0x08000100, READ 2 at 0x0A000102, READ 2 at 0x0C000104", "cycles 5, 5, 5"),
    // no other region has a price for it
    ("READ 4 at 0x02000000, READ 4 at 0x02000004, READ 2 at 0x02000008, READ 1 at 0x0200000A", "cycles 6, 6, 3, 3"),
    ("WRITE 4 of 0 at 0x06000000, WRITE 4 of 0 at 0x06000004, READ 1 at 0x06000008", "cycles 2, 2, 1"),
    ("READ 4 at 0x05000000, READ 4 at 0x05000004, READ 4 at 0x07000000, READ 4 at 0x07000004", "cycles 2, 2, 1, 1"),
    ("READ 1 at 0x0E000000, READ 1 at 0x0E000001, READ 2 at 0x0E000002", "cycles 5, 5, 5"),
    ("READ 4 at 0x03000000, READ 4 at 0x03000004, READ 4 at 0x04000000, READ 4 at 0x04000004", "cycles 1, 1, 1, 1"),
    // every access is the previous one: outside ROM, in no memory, a store that is dropped
    ("READ 2 at 0x08000100, READ 2 at 0x02000000, READ 2 at 0x08000102", "cycles 5, 3, 5"),
    ("READ 2 at 0x08000100, READ 1 at 0x10000000, READ 2 at 0x08000102", "cycles 5, 1, 5"),
    ("READ 2 at 0x08000100, WRITE 1 of 1 at 0x00000000, READ 2 at 0x08000102", "cycles 5, 1, 5, changed 0"),
    ("READ 2 at 0x08000100, WRITE 1 of 1 at 0x07000000, READ 2 at 0x08000102", "cycles 5, 1, 5, hits 0, 0, 0"),
    ("no EWRAM, READ 2 at 0x08000100, WRITE 4 of 1 at 0x02000000, READ 2 at 0x08000102", "cycles 5, 6, 5"),
    ("READ 2 at 0x08000100, READ 2 at 0x08000200, READ 2 at 0x08000102", "cycles 5, 5, 5"),
    // the one before it has no part in the price
    ("READ 2 at 0x08000104, READ 2 at 0x08000106", "cycles 5, 3"),
    ("READ 2 at 0x08000102, READ 2 at 0x08000104, READ 2 at 0x08000106", "cycles 5, 3, 3"),
    ("READ 4 at 0x02000000, READ 2 at 0x08000104, READ 2 at 0x08000106", "cycles 6, 5, 3"),
    ("board previous 4 at 0x08000100, READ 2 at 0x08000104, READ 2 at 0x08000106", "cycles 3, 3"),
    ("board previous 2 at 0x08000106, READ 2 at 0x08000104, READ 2 at 0x08000106", "cycles 5, 3"),
    // IDLE, PC and LATCH keep it, whatever the prefetch does meanwhile
    ("READ 2 at 0x08000100, IDLE 0, READ 2 at 0x08000102", "cycles 5, 0, 3"),
    ("WAITCNT 0x4000, RESTART 0x08000100, READ 2 at 0x08000100, IDLE 28, READ 2 at 0x08000102", "cycles 5, 28, 3, count 8"),
    ("READ 2 at 0x08000100, PC 0x08000000, READ 2 at 0x08000102", "cycles 5, 0, 3"),
    ("READ 2 at 0x08000100, LATCH 0x12345678, READ 2 at 0x08000102", "cycles 5, 0, 3"),
    ("READ 2 at 0x08000100, IDLE 1, PC 0x08000000, LATCH 5, READ 2 at 0x08000102", "cycles 5, 1, 0, 0, 3"),
    ("READ 2 at 0x08000101, IDLE 1, PC 0x08000000, LATCH 5", "cycles 5, 1, 0, 0, previous 2 at 0x08000100"),
    // INSTRUCTION clears it in ROM and elsewhere, FETCH by a hit and by a miss, RESTART anywhere, WAITCNT though nothing changes
    ("READ 2 at 0x08000100, Thumb 0x1C00 at 0x08000200, READ 2 at 0x08000102", "cycles 5, 3, 5"),
    ("READ 2 at 0x08000100, ARM 0xE1A00000 at 0x03000000, READ 2 at 0x08000102", "cycles 5, 1, 5"),
    ("READ 2 at 0x08000100, Thumb 0x1C00 at 0x03000000", "cycles 5, 1, previous none"),
    (
        "WAITCNT 0x4000, RESTART 0x08000100, IDLE 28, READ 2 at 0x08000200, Thumb 0x1C00 at 0x08000100, READ 2 at 0x08000202",
        "cycles 5, 1, 5, hits 0, 1, 0",
    ),
    (
        "WAITCNT 0x4000, RESTART 0x08000100, IDLE 28, READ 2 at 0x08000200, FETCH 0x08000100, READ 2 at 0x08000202",
        "cycles 5, 0, 5, hits 0, 1, 0",
    ),
    ("READ 2 at 0x08000100, FETCH 0x08000100, READ 2 at 0x08000102", "cycles 5, 0, 5, hits 0, 0, 0"),
    ("READ 2 at 0x08000100, FETCH 0x08000100", "cycles 5, 0, previous none"),
    ("READ 2 at 0x08000100, RESTART 0x08000200, READ 2 at 0x08000102", "cycles 5, 0, 5"),
    ("READ 2 at 0x08000100, RESTART 0x00000000", "cycles 5, 0, previous none"),
    ("READ 2 at 0x08000100, WAITCNT 0x0000, READ 2 at 0x08000102", "cycles 5, 0, 5"),
    ("READ 2 at 0x08000100, WAITCNT 0x0000, IDLE 1, READ 2 at 0x08000102", "cycles 5, 0, 1, 5"),
    ("READ 2 at 0x08000100, WAITCNT 0x0000", "cycles 5, 0, previous none"),
    // a board brings it
    ("board previous 4 at 0x08000100", "total 0, previous 4 at 0x08000100"),
    ("board previous 1 at 0x080000FF, READ 4 at 0x08000100", "6 cycles, previous 4 at 0x08000100"),
    ("board previous 2 at 0x080000FE, READ 2 at 0x08000101", "3 cycles, previous 2 at 0x08000100"),
    ("board previous 4 at 0x080000FC, WRITE 1 of 0 at 0x08000100", "3 cycles, previous 1 at 0x08000100"),
    ("board previous 4 at 0x080000FC, IDLE 7, READ 4 at 0x08000103", "cycles 7, 6"),
    ("board previous 4 at 0x080000FC, WAITCNT 0x0000, READ 4 at 0x08000100", "cycles 0, 8"),
    ("board previous 1 at 0x080000FC, READ 4 at 0x08000100", "8 cycles"),
    ("board WAITCNT 0x0240, board previous 4 at 0x0A0000FC, READ 4 at 0x0A000100", "10 cycles"),
    ("board WAITCNT 0x0240, board previous 2 at 0x0C01FFFE, READ 2 at 0x0C020001", "3 cycles"),
    ("board WAITCNT 0x0240, board previous 2 at 0x09FFFFFE, READ 2 at 0x0A000000", "3 cycles"),
    ("board previous 4 at 0xFFFFFFFC, READ 4 at 0x00000000", "1 cycle, previous 4 at 0x00000000"),
];
