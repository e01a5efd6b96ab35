//! Version 2 sheets, worked out by hand from the rules (docs/RULES.md, "The two versions", "Blocks", "Did a store land" and "The
//! ground of a beat" first of all), apart from the library, from the Rust and from the second readings here. A word in ROM costs,
//! after none or elsewhere, and going on: 8 or 6 in window 0, 10 or 10 in window 1, 14 or 18 in window 2. In EWRAM it costs 6, in
//! palette and VRAM 2, in SRAM 5, elsewhere 1. An internal cycle costs 1, and a Thumb fetch 1 in IWRAM, 3 in EWRAM and in ROM.

/// The input of a list, in the notation of docs/DIFFERENCES.md: its sheet is of version 2, and it lends a buffer for the grounds.
pub fn input(list: &str) -> String {
    format!("version 2, with grounds, {list}")
}

/// A list of steps, what is claimed of its run with grounds, and what of its preview, in the notation of docs/DIFFERENCES.md, of
/// previews.rs and of ground_lists.rs. `sheet byte 3 1` makes it a version 1 sheet; the first record's kind is byte 8, its size 9,
/// its flag 10 and its zero byte 11.
pub const LISTS: &[(&str, &str, &str)] = &[
    // as many words as it says, each after the one before it
    (
        "BLOCK READ of 1 word at 0x08000100",
        "8 cycles, value 0, hits 0, grounds address+seq, previous 4 at 0x08000100",
        "8 cycles, value 0, hits 0",
    ),
    (
        "BLOCK READ of 2 words at 0x08000100",
        "14 cycles, grounds address+seq+seq+seq, previous 4 at 0x08000104",
        "14 cycles",
    ),
    ("BLOCK READ of 16 words at 0x08000100", "98 cycles, total 98, previous 4 at 0x0800013C", "98 cycles, total 98"),
    ("BLOCK READ of 16 words at 0x0A000100", "160 cycles, previous 4 at 0x0A00013C", "160 cycles"),
    ("BLOCK READ of 16 words at 0x0C000100", "284 cycles, previous 4 at 0x0C00013C", "284 cycles"),
    ("BLOCK WRITE of 16 words at 0x0C000100", "284 cycles, hits 0, changed 0", "284 cycles, hits 0"),
    // the most that there is
    ("READ 4 at 0x0C0000FC, BLOCK READ of 16 words at 0x0C000100", "cycles 14, 288, total 302", "cycles 14, 288"),
    ("READ 4 at 0x0C0000FC, BLOCK WRITE of 16 words at 0x0C000100", "cycles 14, 288, total 302", "cycles 14, 288"),
    ("4,096 × BLOCK READ of 16 words at 0x0C000100", "cycles 284, 284, total 1,163,264", "cycles 284, 284, total 1,163,264"),
    // the last word is the answer
    (
        "EWRAM of bytes 11 22 33 44 55 66 77 88, BLOCK READ of 2 words at 0x02000000",
        "value 0x88776655, 12 cycles, hits 0, grounds ewram+ewram+ewram+ewram",
        "value 0, 12 cycles, hits 0",
    ),
    ("EWRAM of bytes 11 22 33 44 55 66 77 88, BLOCK READ of 1 word at 0x02000000", "value 0x44332211", "value 0"),
    ("EWRAM of bytes 11 22 33 44 55 66 77 88, BLOCK READ of 3 words at 0x02000000", "value 0, 18 cycles", "value 0"),
    ("EWRAM of bytes 11 22 33 44 55 66, BLOCK READ of 2 words at 0x02000000", "value 0x6655", "value 0"),
    ("ROM of bytes 11 22 33 44 55 66 77 88, BLOCK READ of 2 words at 0x08000000", "value 0x88776655, 14 cycles", "value 0"),
    // its address is lowered, where a READ's isn't
    (
        "EWRAM of bytes 11 22 33 44 55 66 77 88, READ 4 at 0x02000003, BLOCK READ of 1 word at 0x02000003",
        "value 0x44332211, cycles 6, 6, previous 4 at 0x02000000",
        "value 0",
    ),
    ("EWRAM of bytes 11 22 33 44 55 66 77 88, READ 4 at 0x02000003", "value 0x77665544", "value 0"),
    ("EWRAM of bytes 11 22 33 44 55 66 77 88, BLOCK READ of 2 words at 0x02000002", "value 0x88776655", "value 0"),
    ("SRAM of bytes 11 22 33 44 55 66 77 88, BLOCK READ of 1 word at 0x0E000003", "value 0x11111111, 5 cycles", "value 0"),
    ("SRAM of bytes 11 22 33 44 55 66 77 88, BLOCK READ of 2 words at 0x0E000001", "value 0x55555555, 10 cycles", "value 0"),
    (
        "SRAM of bytes 11 22 33 44 55 66 77 88, BLOCK WRITE of 1 word at 0x0E000003",
        "hits 1, SRAM byte 0 0, SRAM byte 3 0x44, changed 1",
        "hits 0",
    ),
    ("BLOCK READ of 2 words at 0x0801FFFF", "16 cycles, grounds address+seq+block+seq, previous 4 at 0x08020000", "16 cycles"),
    // 0 is stored in each word; what lands counts, 4 a word at most, and in SRAM one byte a word
    (
        "EWRAM of bytes 11 22 33 44 55 66 77 88 99, BLOCK WRITE of 2 words at 0x02000000",
        "12 cycles, hits 8, value 0, changed 8, EWRAM byte 7 0, EWRAM byte 8 0x99",
        "12 cycles, hits 0, value 0",
    ),
    (
        "EWRAM of bytes 11 22 33 44 55 66 77 88 99, BLOCK WRITE of 3 words at 0x02000001",
        "18 cycles, hits 9, changed 9",
        "18 cycles, hits 0",
    ),
    ("EWRAM of bytes 11 22 33 44 55 66 77, BLOCK WRITE of 16 words at 0x02000000", "96 cycles, hits 7, changed 7", "hits 0"),
    ("EWRAM of bytes 11 22 33 44 55, BLOCK WRITE of 1 word at 0x02000004", "hits 1, EWRAM byte 4 0, changed 1", "hits 0"),
    ("EWRAM of 4 bytes, BLOCK WRITE of 16 words at 0x02000004", "96 cycles, hits 0", "96 cycles, hits 0"),
    ("BLOCK WRITE of 16 words at 0x02000000", "96 cycles, hits 64, changed 0", "96 cycles, hits 0"),
    ("BLOCK WRITE of 16 words at 0x03000000", "16 cycles, hits 64", "16 cycles, hits 0"),
    (
        "SRAM of bytes 11 22 33 44 55 66 77 88, BLOCK WRITE of 2 words at 0x0E000000",
        "10 cycles, hits 2, grounds sram+sram, SRAM byte 0 0, SRAM byte 4 0, changed 2",
        "10 cycles, hits 0",
    ),
    ("SRAM of bytes 11 22 33 44 55, BLOCK WRITE of 16 words at 0x0E000000", "80 cycles, hits 2, changed 2", "hits 0"),
    ("no SRAM, BLOCK WRITE of 2 words at 0x0E000000", "10 cycles, hits 0", "hits 0"),
    ("no SRAM, BLOCK READ of 2 words at 0x0E000000", "value 0xFFFFFFFF, 10 cycles", "value 0"),
    ("BLOCK WRITE of 2 words at 0x08000100", "14 cycles, hits 0, changed 0", "14 cycles, hits 0"),
    (
        "BIOS of bytes 11 22 33 44, BLOCK WRITE of 2 words at 0x00000000, READ 4 at 0x00000000",
        "hits 0, 0, value 0x44332211",
        "value 0",
    ),
    ("BLOCK WRITE of 2 words at 0x04000204, WAITCNT 0x4000", "hits 8, 0, board WAITCNT 0x4000", "hits 0, 0"),
    // each word is decoded by itself: across the end of each region
    ("BLOCK READ of 2 words at 0x00003FFC", "2 cycles, grounds fast+fast", "2 cycles"),
    ("BLOCK READ of 2 words at 0x01FFFFFC", "7 cycles, grounds fast+ewram+ewram", "7 cycles"),
    ("BLOCK READ of 2 words at 0x02FFFFFC", "7 cycles, grounds ewram+ewram+fast", "7 cycles"),
    ("BLOCK WRITE of 2 words at 0x03FFFFFC", "2 cycles, grounds fast+fast, hits 4", "2 cycles, hits 0"),
    ("BLOCK READ of 2 words at 0x04FFFFFC", "3 cycles, grounds fast+video+video", "3 cycles"),
    (
        "BLOCK WRITE of 2 words at 0x05FFFFFC",
        "4 cycles, grounds video+video+video+video, hits 8, palette counter 2, VRAM counter 2",
        "4 cycles, hits 0",
    ),
    ("BLOCK WRITE of 2 words at 0x06FFFFFC", "3 cycles, grounds video+video+fast, VRAM counter 2, OAM counter 2", "3 cycles"),
    ("BLOCK READ of 2 words at 0x07FFFFFC", "9 cycles, grounds fast+block+seq", "9 cycles"),
    ("BLOCK READ of 2 words at 0x09FFFFFC", "18 cycles, grounds address+seq+block+seq", "18 cycles"),
    ("BLOCK READ of 2 words at 0x0BFFFFFC", "24 cycles, grounds address+seq+block+seq", "24 cycles"),
    ("BLOCK READ of 2 words at 0x0DFFFFFC", "19 cycles, grounds address+seq+sram, previous 4 at 0x0E000000", "19 cycles"),
    ("BLOCK READ of 2 words at 0x0FFFFFFC", "6 cycles, grounds sram+fast", "6 cycles"),
    ("BLOCK READ of 2 words at 0x08FFFFFC", "16 cycles, grounds address+seq+block+seq", "16 cycles"),
    ("BLOCK READ of 2 words at 0x08FFFFF8", "14 cycles, grounds address+seq+seq+seq", "14 cycles"),
    (
        "BLOCK READ of 4 words at 0x0801FFF8",
        "28 cycles, grounds address+seq+seq+seq+block+seq+seq+seq, previous 4 at 0x08020004",
        "28 cycles",
    ),
    // and addresses wrap
    (
        "BIOS of bytes 11 22 33 44, BLOCK READ of 2 words at 0xFFFFFFFC",
        "value 0x44332211, 2 cycles, grounds fast+fast, previous 4 at 0x00000000",
        "value 0, 2 cycles",
    ),
    ("BIOS of bytes 11 22 33 44, BLOCK READ of 2 words at 0xFFFFFFFF", "value 0x44332211, previous 4 at 0x00000000", "value 0"),
    ("BIOS of bytes 11 22 33 44, BLOCK READ of 1 word at 0xFFFFFFFF", "value 0, previous 4 at 0xFFFFFFFC", "value 0"),
    ("BLOCK WRITE of 16 words at 0xFFFFFFE0", "16 cycles, hits 0, previous 4 at 0x0000001C", "16 cycles, hits 0"),
    // the BIOS latch, by the pc
    ("PC 0x4000, LATCH 0x44332211, BLOCK READ of 3 words at 0x00000000", "value 0x44332211, 3 cycles", "value 0"),
    ("PC 0x3FFF, LATCH 0x44332211, BLOCK READ of 3 words at 0x00000000", "value 0, 3 cycles", "value 0"),
    // the display mode is what the block has stored
    (
        "VRAM of 98,304 bytes, WRITE 1 of 3 at 0x04000000, BLOCK WRITE of 1 word at 0x04000000, WRITE 1 of 0x5A at 0x06010000",
        "hits 1, 4, 0, VRAM counter 0",
        "hits 0, 0, 0",
    ),
    (
        "VRAM of 98,304 bytes, WRITE 1 of 3 at 0x04000000, BLOCK WRITE of 2 words at 0x03FFFFFC, WRITE 1 of 0x5A at 0x06010000",
        "hits 1, 4, 0, VRAM counter 0",
        "hits 0, 0, 0",
    ),
    (
        "VRAM of 98,304 bytes, WRITE 1 of 3 at 0x04000000, BLOCK WRITE of 1 word at 0x04000004, WRITE 1 of 0x5A at 0x06010000",
        "hits 1, 4, 2, VRAM counter 1",
        "hits 0, 0, 0",
    ),
    (
        "VRAM of 98,304 bytes, WRITE 1 of 3 at 0x04000000, BLOCK READ of 1 word at 0x04000000, WRITE 1 of 0x5A at 0x06010000",
        "hits 1, 0, 2",
        "hits 0, 0, 0",
    ),
    // counters: 2 a word, past the end too, up to their own; a load counts nothing
    ("BLOCK WRITE of 16 words at 0x06000000", "VRAM counter 32, 32 cycles, hits 64", "32 cycles, hits 0"),
    ("VRAM of 5 bytes, BLOCK WRITE of 3 words at 0x06000000", "VRAM counter 6, hits 5", "hits 0"),
    ("no OAM, BLOCK WRITE of 3 words at 0x07000000", "OAM counter 6, 3 cycles, hits 0", "hits 0"),
    ("no palette, BLOCK WRITE of 3 words at 0x05000000", "palette counter 6, 6 cycles, hits 0", "hits 0"),
    ("board VRAM counter 0xFFFFFFFFFFFFFFFA, BLOCK WRITE of 3 words at 0x06000000", "VRAM counter 0xFFFFFFFFFFFFFFFF", "hits 0"),
    ("board VRAM counter 0xFFFFFFFFFFFFFFF8, BLOCK WRITE of 3 words at 0x06000000", "VRAM counter 0xFFFFFFFFFFFFFFFE", "hits 0"),
    ("board VRAM counter 0xFFFFFFFFFFFFFFFE, BLOCK WRITE of 16 words at 0x06000000", "VRAM counter 0xFFFFFFFFFFFFFFFF", "hits 0"),
    ("BLOCK READ of 16 words at 0x06000000", "VRAM counter 0, 32 cycles", "32 cycles"),
    // the first word goes on from the access before the block, and what is behind it from its last word
    (
        "READ 4 at 0x080000FC, BLOCK READ of 2 words at 0x08000100, READ 4 at 0x08000108",
        "cycles 8, 12, 6, grounds address+seq, seq+seq+seq+seq, seq+seq",
        "cycles 8, 12, 6",
    ),
    ("READ 4 at 0x080000F8, BLOCK READ of 2 words at 0x08000100", "cycles 8, 14", "cycles 8, 14"),
    ("READ 4 at 0x08000100, BLOCK READ of 2 words at 0x08000100", "cycles 8, 14", "cycles 8, 14"),
    ("READ 1 at 0x080000FF, BLOCK READ of 2 words at 0x08000103", "cycles 5, 12", "cycles 5, 12"),
    ("READ 2 at 0x080000FE, BLOCK WRITE of 2 words at 0x08000100", "cycles 5, 12", "cycles 5, 12"),
    ("board previous 4 at 0x080000FC, BLOCK READ of 2 words at 0x08000100", "12 cycles", "12 cycles"),
    ("board previous 4 at 0x0801FFFC, BLOCK READ of 2 words at 0x08020000", "14 cycles, grounds block+seq+seq+seq", "14 cycles"),
    ("BLOCK READ of 3 words at 0x08000100, READ 4 at 0x08000104", "cycles 20, 8, grounds address+seq", "cycles 20, 8"),
    ("BLOCK READ of 3 words at 0x08000100, READ 4 at 0x0800010C", "cycles 20, 6, grounds seq+seq", "cycles 20, 6"),
    ("BLOCK READ of 2 words at 0x08000103, READ 2 at 0x08000108", "cycles 14, 3", "cycles 14, 3"),
    ("BLOCK READ of 2 words at 0x08000103, READ 2 at 0x0800010B", "cycles 14, 5", "cycles 14, 5"),
    ("BLOCK READ of 2 words at 0x08000100, BLOCK WRITE of 2 words at 0x08000108", "cycles 14, 12", "cycles 14, 12"),
    ("BLOCK READ of 2 words at 0x08000100, BLOCK READ of 2 words at 0x0800010B", "cycles 14, 12", "cycles 14, 12"),
    ("2 × BLOCK READ of 2 words at 0x08000100", "cycles 14, 14", "cycles 14, 14"),
    // what keeps it and what doesn't
    (
        "BLOCK READ of 2 words at 0x08000100, IDLE 3, PC 0, LATCH 0, READ 4 at 0x08000108",
        "cycles 14, 3, 0, 0, 6",
        "cycles 14, 3, 0, 0, 6",
    ),
    ("BLOCK READ of 2 words at 0x08000100, WAITCNT 0, READ 4 at 0x08000108", "cycles 14, 0, 8", "cycles 14, 0, 8"),
    ("BLOCK READ of 2 words at 0x08000100, FETCH 0x08000000, READ 4 at 0x08000108", "cycles 14, 0, 8", "cycles 14, 0, 8"),
    (
        "BLOCK READ of 2 words at 0x08000100, Thumb 0x1C00 at 0x03000000, READ 4 at 0x08000108",
        "cycles 14, 1, 8",
        "cycles 14, 1, 8",
    ),
    // neither the prefetch nor the force flag is a block's
    (
        "board WAITCNT 0x4000, board buffer at 0x08000100 0x1C00, BLOCK READ of 16 words at 0x08000100",
        "98 cycles, hits 0, count 1",
        "98 cycles, hits 0, count 1",
    ),
    ("WAITCNT 0x4000, RESTART 0x08000100, BLOCK READ of 16 words at 0x02000000", "96 cycles, count 0", "96 cycles, count 0"),
    (
        "board flag 1, BLOCK WRITE of 1 word at 0x08000100, Thumb 0x1C00 at 0x08000100",
        "cycles 8, 5, flag 0, grounds address+seq, flag",
        "cycles 8, 5, flag 0",
    ),
    ("board flag 1, BLOCK READ of 1 word at 0x08000100", "flag 1", "flag 1"),
    // Thumb POP is at 0xBC and 0xBD, and no longer at 0xBA and 0xBB
    ("Thumb 0xBC01 at 0x03000000", "2 cycles, value 2, grounds fast", "2 cycles, value 2"),
    ("Thumb 0xBCFF at 0x03000000", "2 cycles, value 2", "2 cycles, value 2"),
    ("Thumb 0xBD00 at 0x03000000", "2 cycles, value 2", "2 cycles, value 2"),
    ("Thumb 0xBDFF at 0x03000000", "2 cycles, value 2", "2 cycles, value 2"),
    ("Thumb 0xBA01 at 0x03000000", "1 cycle, value 1", "1 cycle, value 1"),
    ("Thumb 0xBAFF at 0x03000000", "1 cycle, value 1", "1 cycle, value 1"),
    ("Thumb 0xBB00 at 0x03000000", "1 cycle, value 1", "1 cycle, value 1"),
    ("Thumb 0xBBFF at 0x03000000", "1 cycle, value 1", "1 cycle, value 1"),
    ("Thumb 0xB9FF at 0x03000000, Thumb 0xBE00 at 0x03000000", "cycles 1, 1", "cycles 1, 1"),
    ("Thumb 0x1234BC01 at 0x03000000, Thumb 0xBC01BA01 at 0x03000000", "cycles 2, 1", "cycles 2, 1"),
    ("Thumb 0xBC01 at 0x02000000, Thumb 0xBA01 at 0x02000000", "cycles 4, 3", "cycles 4, 3"),
    (
        "Thumb 0xBC01 at 0x08000100, Thumb 0x1C00 at 0x08000102",
        "cycles 4, 5, flag 0, grounds seq, flag",
        "cycles 4, 5, flag 0",
    ),
    ("Thumb 0xBC01 at 0x08000100", "4 cycles, value 1, flag 1", "4 cycles, value 1, flag 1"),
    ("Thumb 0xBD01 at 0x08000100 with flag 1", "4 cycles, value 1, flag 0", "4 cycles, value 1, flag 0"),
    ("Thumb 0xBA01 at 0x08000100", "3 cycles, value 0, flag 0", "3 cycles, value 0, flag 0"),
    ("Thumb 0xBA01 at 0x08000100, Thumb 0x1C00 at 0x08000102", "cycles 3, 3, grounds seq, seq", "cycles 3, 3"),
    ("WAITCNT 0x4000, Thumb 0xBD01 at 0x08000100", "4 cycles, value 1, flag 0", "4 cycles, value 1, flag 0"),
    ("WAITCNT 0x4000, Thumb 0xBB01 at 0x08000100", "3 cycles, value 0, flag 0", "3 cycles, value 0, flag 0"),
    // the internal cycle is the prefetch's: the beat that the miss has started needs 5
    ("WAITCNT 0x4000, Thumb 0xBC01 at 0x08000100, IDLE 3", "count 0", "count 0"),
    ("WAITCNT 0x4000, Thumb 0xBC01 at 0x08000100, IDLE 4", "count 1", "count 1"),
    ("WAITCNT 0x4000, Thumb 0xBA01 at 0x08000100, IDLE 4", "count 0", "count 0"),
    // ARM opcodes and all other Thumb ones are as they were
    ("ARM 0x0000BC00 at 0x03000000, ARM 0x0000BA00 at 0x03000000", "cycles 1, 1", "cycles 1, 1"),
    ("ARM 0xE8BD0001 at 0x03000000, Thumb 0x6808 at 0x03000000, Thumb 0x1C00 at 0x03000000", "cycles 2, 2, 1", "cycles 2, 2, 1"),
    // version 1 as it was
    ("sheet byte 3 1, Thumb 0xBC01 at 0x03000000, Thumb 0xBA01 at 0x03000000", "cycles 1, 2", "cycles 1, 2"),
    ("sheet byte 3 1, Thumb 0xBD01 at 0x03000000, Thumb 0xBB01 at 0x03000000", "cycles 1, 2", "cycles 1, 2"),
    ("sheet byte 3 1, Thumb 0xBB01 at 0x08000100", "4 cycles, value 1, flag 1", "4 cycles, value 1, flag 1"),
    // no record
    ("grounds of 0 bytes", "total 0", "total 0"),
    // every version but 1 and 2 is refused with 2
    ("sheet byte 3 0, IDLE 1", "refused 2", "refused 2"),
    ("sheet byte 3 3, IDLE 1", "refused 2", "refused 2"),
    ("sheet byte 3 255, IDLE 1", "refused 2", "refused 2"),
    ("sheet byte 4 1, IDLE 1", "refused 2", "refused 2"),
    ("sheet byte 4 2, IDLE 1", "refused 2", "refused 2"),
    ("sheet byte 3 1, sheet byte 4 1, IDLE 1", "refused 2", "refused 2"),
    ("sheet byte 3 0, sheet byte 4 2, IDLE 1", "refused 2", "refused 2"),
    ("sheet byte 3 3, BLOCK READ of 1 word at 0x02000000", "refused 2", "refused 2"),
    // in version 1 a block is a faulty record
    ("sheet byte 3 1, BLOCK READ of 1 word at 0x02000000", "refused 7", "refused 7"),
    ("sheet byte 3 1, BLOCK WRITE of 1 word at 0x02000000", "refused 7", "refused 7"),
    ("sheet byte 3 1, IDLE 1, BLOCK READ of 16 words at 0x02000000", "refused 7 at 1", "refused 7 at 1"),
    // in version 2 by its number of words, its size, its flag and its zero byte
    ("BLOCK READ of 0 words at 0x02000000", "refused 7", "refused 7"),
    ("BLOCK WRITE of 0 words at 0x02000000", "refused 7", "refused 7"),
    ("BLOCK READ of 17 words at 0x02000000", "refused 7", "refused 7"),
    ("BLOCK WRITE of 17 words at 0x02000000", "refused 7", "refused 7"),
    ("BLOCK READ of 4,294,967,295 words at 0x02000000", "refused 7", "refused 7"),
    ("BLOCK READ of 0x00010001 words at 0x02000000", "refused 7", "refused 7"),
    ("BLOCK WRITE of 0x01000001 words at 0x02000000", "refused 7", "refused 7"),
    ("sheet byte 9 0, BLOCK READ of 1 word at 0x02000000", "refused 7", "refused 7"),
    ("sheet byte 9 1, BLOCK READ of 1 word at 0x02000000", "refused 7", "refused 7"),
    ("sheet byte 9 2, BLOCK READ of 1 word at 0x02000000", "refused 7", "refused 7"),
    ("sheet byte 9 2, BLOCK WRITE of 1 word at 0x02000000", "refused 7", "refused 7"),
    ("sheet byte 9 8, BLOCK WRITE of 1 word at 0x02000000", "refused 7", "refused 7"),
    ("sheet byte 10 1, BLOCK READ of 1 word at 0x02000000", "refused 7", "refused 7"),
    ("sheet byte 10 1, BLOCK WRITE of 1 word at 0x02000000", "refused 7", "refused 7"),
    ("sheet byte 11 1, BLOCK READ of 1 word at 0x02000000", "refused 7", "refused 7"),
    // no other kinds
    ("sheet byte 8 12, BLOCK READ of 1 word at 0x02000000", "refused 7", "refused 7"),
    ("sheet byte 8 0, BLOCK READ of 1 word at 0x02000000", "refused 7", "refused 7"),
    ("sheet byte 8 255, BLOCK READ of 1 word at 0x02000000", "refused 7", "refused 7"),
    ("IDLE 1, READ 3 at 0x02000000, BLOCK READ of 0 words at 0x02000000", "refused 7 at 1", "refused 7 at 1"),
    ("IDLE 1, BLOCK READ of 0 words at 0x02000000, READ 3 at 0x02000000", "refused 7 at 1", "refused 7 at 1"),
    // the others before it
    ("sheet byte 5 1, BLOCK READ of 17 words at 0x02000000", "refused 3", "refused 3"),
    ("store of 5 bytes, BLOCK READ of 17 words at 0x02000000", "refused 4", "refused 7"),
    ("board byte 2 2, BLOCK READ of 17 words at 0x02000000", "refused 5", "refused 5"),
    ("answers of 11 bytes, BLOCK READ of 17 words at 0x02000000", "refused 6", "refused 6"),
    ("answers of 11 bytes, BLOCK READ of 16 words at 0x02000000", "refused 6", "refused 6"),
    ("grounds of 31 bytes, BLOCK READ of 17 words at 0x02000000", "refused 6", "refused 7"),
    ("grounds of 31 bytes, BLOCK READ of 16 words at 0x02000000", "refused 6", "96 cycles"),
    // one answer a block: what is lent beyond stays
    ("answers of 13 bytes, BLOCK READ of 16 words at 0x02000000", "96 cycles", "96 cycles"),
];
