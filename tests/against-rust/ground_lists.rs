//! Grounds of prices, worked out by hand from the rules (docs/RULES.md, "The ground of a beat" first of all), apart from the
//! library, from the Rust and from grounds.rs. A halfword costs N or S: 5 or 3 in window 0, 5 or 5 in window 1, 5 or 9 in window
//! 2; after WAITCNT 0x0240 they are 5 or 3, 3 or 5, 3 or 9. Neither 0xE1A00000 nor 0x1C00 has an internal cycle.

/// The input of a list, in the notation of docs/DIFFERENCES.md: it lends a buffer for the grounds.
pub fn input(list: &str) -> String {
    format!("with grounds, {list}")
}

/// A list of steps, and what is claimed of its run with grounds, in the notation of docs/DIFFERENCES.md and of previews.rs.
/// Besides, `board flag 1` is a board with the force flag; `board next 0x08000100` is one whose empty prefetch goes on there, and
/// with `in 4` it has begun to and needs 4 cycles more; `grounds of 31 bytes` is the length of what is lent for the grounds. In a
/// claim `grounds` are those of the last steps, `hit+seq` for two beats and `none` for a step that has none.
pub const LISTS: &[(&str, &str)] = &[
    // each word
    ("board WAITCNT 0x4000, board buffer at 0x08000100 0x1C00, Thumb 0x1C00 at 0x08000100", "grounds hit, 1 cycle, hits 1"),
    ("Thumb 0x1C00 at 0x08000100", "grounds seq, 3 cycles"),
    ("board flag 1, Thumb 0x1C00 at 0x08000100", "grounds flag, 5 cycles"),
    ("Thumb 0x1C00 at 0x08020000", "grounds block, 5 cycles"),
    ("READ 2 at 0x08000100", "grounds address, 5 cycles"),
    ("READ 2 at 0x02000000", "grounds ewram, 3 cycles"),
    ("READ 1 at 0x0E000000", "grounds sram, 5 cycles"),
    ("READ 2 at 0x06000000", "grounds video, 1 cycle"),
    ("READ 2 at 0x03000000", "grounds fast, 1 cycle"),
    // the example of `bench`
    (
        "WAITCNT 0x4000, RESTART 0x08000100, IDLE 27, Thumb 0x1C00 at 0x08000100, READ 2 at 0x02000000",
        "grounds none, none, none, hit, ewram, cycles 0, 0, 27, 1, 3, total 31",
    ),
    // a hit comes before the block and before the flag
    ("board WAITCNT 0x4000, board buffer at 0x08020000 0x1C00, Thumb 0x1C00 at 0x08020000", "grounds hit, 1 cycle"),
    (
        "board WAITCNT 0x4000, board flag 1, board buffer at 0x08000100 0x1C00, Thumb 0x1C00 at 0x08000100",
        "grounds hit, 1 cycle",
    ),
    (
        "board WAITCNT 0x4000, board flag 1, board buffer at 0x08020000 0x1C00, Thumb 0x1C00 at 0x08020000",
        "grounds hit, 1 cycle",
    ),
    // the block before the flag
    ("board flag 1, Thumb 0x1C00 at 0x08020000", "grounds block, 5 cycles"),
    ("board flag 1, Thumb 0x1C00 at 0x0A020000", "grounds block, 5 cycles"),
    ("board flag 1, ARM 0xE1A00000 at 0x0C020000", "grounds block+seq, 14 cycles"),
    ("Thumb 0x6808 at 0x08000100, Thumb 0x1C00 at 0x08020000", "grounds seq, block, cycles 4, 5"),
    // the flag before the address, which no fetch has, wherever it lies
    ("Thumb 0x6808 at 0x08000100, Thumb 0x1C00 at 0x08000500", "grounds seq, flag, cycles 4, 5"),
    ("Thumb 0x1C00 at 0x08000100, Thumb 0x1C00 at 0x08000500", "grounds seq, seq, cycles 3, 3"),
    ("READ 2 at 0x08000100, Thumb 0x1C00 at 0x08000500", "grounds address, seq, cycles 5, 3"),
    ("READ 2 at 0x08000100, Thumb 0x1C00 at 0x08000102", "grounds address, seq, cycles 5, 3"),
    // both halves of an ARM fetch: the flag is the first one's alone
    ("ARM 0xE1A00000 at 0x08000100", "grounds seq+seq, 6 cycles"),
    ("board flag 1, ARM 0xE1A00000 at 0x08000100", "grounds flag+seq, 8 cycles"),
    ("ARM 0xE1A00000 at 0x08020000", "grounds block+seq, 8 cycles"),
    ("board flag 1, ARM 0xE1A00000 at 0x08020000", "grounds block+seq, 8 cycles"),
    ("ARM 0xE1A00000 at 0x0801FFFE", "grounds seq+block, 8 cycles"),
    ("board flag 1, ARM 0xE1A00000 at 0x0801FFFE", "grounds flag+block, 10 cycles"),
    // a hit is the head's, which stands for each half: two taken from the buffer are "hit seq", none may be "seq hit"
    (
        "board WAITCNT 0x4000, board buffer at 0x08000100 0x0000 0xE1A0, ARM 0xE1A00000 at 0x08000100",
        "grounds hit+seq, 4 cycles, hits 2",
    ),
    (
        "board WAITCNT 0x4000, board buffer at 0x08000100 0x0000, ARM 0xE1A00000 at 0x08000100",
        "grounds hit+seq, 4 cycles, hits 1",
    ),
    (
        "board WAITCNT 0x4000, board buffer at 0x08000102 0xE1A0, ARM 0xE1A00000 at 0x08000100",
        "grounds seq+hit, 4 cycles, hits 0",
    ),
    (
        "board WAITCNT 0x4000, board flag 1, board buffer at 0x08000102 0xE1A0, ARM 0xE1A00000 at 0x08000100",
        "grounds flag+hit, 6 cycles, hits 0",
    ),
    (
        "board WAITCNT 0x4000, board flag 1, board buffer at 0x08000100 0x0000 0xE1A0, ARM 0xE1A00000 at 0x08000100",
        "grounds hit+seq, 4 cycles, hits 2",
    ),
    (
        "board WAITCNT 0x4000, board buffer at 0x08020002 0xE1A0, ARM 0xE1A00000 at 0x08020000",
        "grounds block+hit, 6 cycles, hits 0",
    ),
    (
        "board WAITCNT 0x4000, board buffer at 0x0801FFFE 0x0000 0xE1A0, ARM 0xE1A00000 at 0x0801FFFE",
        "grounds hit+block, 6 cycles, hits 2",
    ),
    (
        "board WAITCNT 0x4000, board buffer at 0x08020000 0xE1A0, ARM 0xE1A00000 at 0x0801FFFE",
        "grounds seq+hit, 4 cycles, hits 0",
    ),
    (
        "board WAITCNT 0x4000, board buffer at 0x080000FE 0x1C00 0x0000 0xE1A0, ARM 0xE1A00000 at 0x08000100",
        "grounds seq+seq, 6 cycles, hits 0",
    ),
    (
        "board WAITCNT 0x4000, board buffer at 0x08000104 0x0000 0xE1A0, ARM 0xE1A00000 at 0x08000100",
        "grounds seq+seq, 6 cycles, hits 0",
    ),
    // odd addresses: the block test of a fetch takes them as given, the buffer lowers them
    ("Thumb 0x1C00 at 0x08020001", "grounds seq, 3 cycles"),
    ("board flag 1, Thumb 0x1C00 at 0x08020001", "grounds flag, 5 cycles"),
    ("ARM 0xE1A00000 at 0x08020001", "grounds seq+seq, 6 cycles"),
    ("ARM 0xE1A00000 at 0x0801FFFF", "grounds seq+seq, 6 cycles"),
    ("board flag 1, ARM 0xE1A00000 at 0x0801FFFF", "grounds flag+seq, 8 cycles"),
    ("board WAITCNT 0x4000, board buffer at 0x08000100 0x1C00, Thumb 0x1C00 at 0x08000101", "grounds hit, 1 cycle, hits 1"),
    ("board WAITCNT 0x4000, board buffer at 0x08020000 0x1C00, Thumb 0x1C00 at 0x08020001", "grounds hit, 1 cycle, hits 1"),
    (
        "board WAITCNT 0x4000, board buffer at 0x08000100 0x0000 0xE1A0, ARM 0xE1A00000 at 0x08000101",
        "grounds hit+seq, 4 cycles, hits 2",
    ),
    (
        "board WAITCNT 0x4000, board buffer at 0x08000102 0xE1A0, ARM 0xE1A00000 at 0x08000101",
        "grounds seq+hit, 4 cycles, hits 0",
    ),
    // the end of the last window: the second half lies past it, and is priced as a half of it
    ("ARM 0xE1A00000 at 0x0DFFFFFE", "grounds seq+block, 14 cycles"),
    ("ARM 0xE1A00000 at 0x0DFFFFFF", "grounds seq+seq, 18 cycles"),
    ("board flag 1, ARM 0xE1A00000 at 0x0DFFFFFE", "grounds flag+block, 10 cycles"),
    ("board flag 1, ARM 0xE1A00000 at 0x0DFFFFFF", "grounds flag+seq, 14 cycles"),
    (
        "board WAITCNT 0x4000, board buffer at 0x0DFFFFFE 0x0000, ARM 0xE1A00000 at 0x0DFFFFFE",
        "grounds hit+block, 6 cycles, hits 1",
    ),
    (
        "board WAITCNT 0x4000, board buffer at 0x0DFFFFFE 0x0000, ARM 0xE1A00000 at 0x0DFFFFFF",
        "grounds hit+seq, 10 cycles, hits 1",
    ),
    ("Thumb 0x1C00 at 0x0DFFFFFE, Thumb 0x1C00 at 0x0DFFFFFF", "grounds seq, seq, cycles 9, 9"),
    // the other windows' ends: the second half is priced in the first one's
    ("WAITCNT 0x0240, ARM 0xE1A00000 at 0x09FFFFFE", "grounds none, seq+block, cycles 0, 8"),
    ("WAITCNT 0x0040, ARM 0xE1A00000 at 0x0BFFFFFE", "grounds none, seq+block, cycles 0, 8"),
    ("ARM 0xE1A00000 at 0x07FFFFFE", "grounds fast, 1 cycle"),
    // code outside ROM, as a whole: EWRAM by its page, else fast, in VRAM and SRAM too
    ("Thumb 0x1C00 at 0x02000000", "grounds ewram, 3 cycles"),
    ("ARM 0xE1A00000 at 0x02000000", "grounds ewram, 6 cycles"),
    ("ARM 0xE1A00000 at 0x02FFFFFE, Thumb 0x1C00 at 0x02020000", "grounds ewram, ewram, cycles 6, 3"),
    ("Thumb 0x1C00 at 0x06000000, ARM 0xE1A00000 at 0x06000000", "grounds fast, fast, cycles 1, 1"),
    ("Thumb 0x1C00 at 0x05000000, ARM 0xE1A00000 at 0x05000000", "grounds fast, fast, cycles 1, 1"),
    ("Thumb 0x1C00 at 0x0E000000, ARM 0xE1A00000 at 0x0FFFFFFE", "grounds fast, fast, cycles 1, 1"),
    (
        "ARM 0xE1A00000 at 0x00000000, ARM 0xE1A00000 at 0x03000000, ARM 0xE1A00000 at 0x04000000, ARM 0xE1A00000 at 0x07000000",
        "grounds fast, fast, fast, fast, cycles 1, 1, 1, 1",
    ),
    (
        "Thumb 0x1C00 at 0x00004000, ARM 0xE1A00000 at 0x01FFFFFE, ARM 0xE1A00000 at 0x10000000, ARM 0xE1A00000 at 0xFFFFFFFE",
        "grounds fast, fast, fast, fast, cycles 1, 1, 1, 1",
    ),
    ("ARM 0xE1A00000 at 0x82000000, Thumb 0x1C00 at 0x88020000", "grounds fast, fast, cycles 1, 1"),
    ("board flag 1, Thumb 0x1C00 at 0x03000000", "grounds fast, 1 cycle, flag 0"),
    ("board flag 1, ARM 0xE1A00000 at 0x02020000", "grounds ewram, 6 cycles, flag 0"),
    (
        "board WAITCNT 0x4000, board buffer at 0x08000100 0x1C00, Thumb 0x1C00 at 0x03000000, Thumb 0x1C00 at 0x08000100",
        "grounds fast, hit, cycles 1, 1, hits 0, 1",
    ),
    // the internal cycle has no ground
    ("ARM 0xE5910000 at 0x03000000", "grounds fast, 2 cycles"),
    ("Thumb 0x6808 at 0x02000000, ARM 0xE5910000 at 0x02000000", "grounds ewram, ewram, cycles 4, 7"),
    ("ARM 0xE5910000 at 0x08000100", "grounds seq+seq, 7 cycles"),
    ("WAITCNT 0x0300, ARM 0xE5910000 at 0x0C000100", "grounds none, seq+seq, cycles 0, 19"),
    ("board WAITCNT 0x4000, board buffer at 0x08000100 0x6808, Thumb 0x6808 at 0x08000100", "grounds hit, 2 cycles"),
    ("board flag 1, Thumb 0x6808 at 0x08000100", "grounds flag, 6 cycles"),
    // an access to ROM with none before it: the block or the address
    (
        "READ 1 at 0x08000103, RESTART 0x00000000, READ 2 at 0x08000102, RESTART 0x00000000, READ 4 at 0x08000104",
        "grounds address, none, address, none, address+seq, cycles 5, 0, 5, 0, 8",
    ),
    (
        "READ 1 at 0x08000000, RESTART 0x00000000, READ 2 at 0x08020000, RESTART 0x00000000, READ 4 at 0x09FE0000",
        "grounds block, none, block, none, block+seq, cycles 5, 0, 5, 0, 8",
    ),
    (
        "READ 4 at 0x0A000104, RESTART 0x00000000, READ 4 at 0x0C000104",
        "grounds address+seq, none, address+seq, cycles 10, 0, 14",
    ),
    ("READ 4 at 0x0A020000, RESTART 0x00000000, READ 4 at 0x0DFE0000", "grounds block+seq, none, block+seq, cycles 10, 0, 14"),
    (
        "WRITE 4 of 0 at 0x08000100, RESTART 0x00000000, WRITE 1 of 0 at 0x08020000",
        "grounds address+seq, none, block, cycles 8, 0, 5",
    ),
    // the block test of an access takes its lowered address
    ("READ 2 at 0x08020001", "grounds block, 5 cycles"),
    ("READ 4 at 0x08020003", "grounds block+seq, 8 cycles"),
    ("READ 4 at 0x08020001, READ 4 at 0x08020005", "grounds block+seq, seq+seq, cycles 8, 6"),
    ("WRITE 2 of 0 at 0x0A020001", "grounds block, 5 cycles"),
    ("READ 1 at 0x08020001", "grounds address, 5 cycles"),
    ("READ 1 at 0x08020000, READ 1 at 0x08020001", "grounds block, seq, cycles 5, 3"),
    ("READ 1 at 0x08020000, READ 2 at 0x08020001", "grounds block, block, cycles 5, 5"),
    // the second beat of a word is sequential, wherever what is read lies
    ("READ 4 at 0x0801FFFE", "grounds address+seq, 8 cycles"),
    ("READ 4 at 0x0DFFFFFE", "grounds address+seq, 14 cycles"),
    ("READ 4 at 0x09FFFFFF", "grounds address+seq, 8 cycles"),
    // rows, in all sizes, loads and stores
    ("READ 4 at 0x08000100, READ 4 at 0x08000104", "grounds address+seq, seq+seq, cycles 8, 6"),
    (
        "READ 1 at 0x08000103, READ 4 at 0x08000104, READ 2 at 0x08000108, READ 1 at 0x0800010A",
        "grounds address, seq+seq, seq, seq, cycles 5, 6, 3, 3",
    ),
    ("READ 4 at 0x08000103, READ 4 at 0x08000107", "grounds address+seq, seq+seq, cycles 8, 6"),
    (
        "READ 2 at 0x08000100, WRITE 2 of 0x1234 at 0x08000102, WRITE 4 of 0 at 0x08000104",
        "grounds address, seq, seq+seq, cycles 5, 3, 6",
    ),
    // across the edge of a block the row goes on, and the block comes before that
    (
        "READ 4 at 0x0801FFFC, READ 4 at 0x08020000, READ 4 at 0x08020004",
        "grounds address+seq, block+seq, seq+seq, cycles 8, 8, 6",
    ),
    ("READ 2 at 0x0801FFFE, READ 2 at 0x08020001, READ 2 at 0x08020002", "grounds address, block, seq, cycles 5, 5, 3"),
    ("READ 1 at 0x0801FFFF, READ 1 at 0x08020000, READ 1 at 0x08020001", "grounds address, block, seq, cycles 5, 5, 3"),
    ("READ 2 at 0x0801FFFE, RESTART 0x00000000, READ 2 at 0x08020000", "grounds address, none, block, cycles 5, 0, 5"),
    // from window to window, into the first, out of the last
    (
        "WAITCNT 0x0240, READ 2 at 0x09FFFFFE, READ 2 at 0x0A000000, READ 2 at 0x0A000002",
        "grounds none, address, block, seq, cycles 0, 5, 3, 5",
    ),
    (
        "READ 4 at 0x0BFFFFFC, READ 4 at 0x0C000000, READ 4 at 0x0C000004",
        "grounds address+seq, block+seq, seq+seq, cycles 10, 14, 18",
    ),
    ("READ 2 at 0x0DFFFFFC, READ 2 at 0x0DFFFFFE, READ 2 at 0x0E000000", "grounds address, seq, sram, cycles 5, 9, 5"),
    ("READ 4 at 0x07FFFFFC, READ 4 at 0x08000000", "grounds fast, block+seq, cycles 1, 8"),
    // what is no row: the same place again, one before, a gap, inside, another window, another access between
    ("2 × READ 2 at 0x08000100", "grounds address, address, cycles 5, 5"),
    ("READ 2 at 0x08000102, READ 2 at 0x08000100", "grounds address, address, cycles 5, 5"),
    ("READ 2 at 0x08000100, READ 2 at 0x08000104", "grounds address, address, cycles 5, 5"),
    ("READ 4 at 0x08000100, READ 2 at 0x08000102", "grounds address+seq, address, cycles 8, 5"),
    ("READ 2 at 0x08000100, READ 2 at 0x0A000102", "grounds address, address, cycles 5, 5"),
    ("READ 2 at 0x08000100, READ 2 at 0x02000000, READ 2 at 0x08000102", "grounds address, ewram, address, cycles 5, 3, 5"),
    // IDLE, PC and LATCH keep the previous access; FETCH, RESTART, WAITCNT and INSTRUCTION don't
    (
        "READ 2 at 0x08000100, IDLE 1, PC 0x08000000, LATCH 5, READ 2 at 0x08000102",
        "grounds address, none, none, none, seq, cycles 5, 1, 0, 0, 3",
    ),
    ("READ 2 at 0x08000100, FETCH 0x08000100, READ 2 at 0x08000102", "grounds address, none, address, cycles 5, 0, 5"),
    ("READ 2 at 0x08000100, RESTART 0x08000200, READ 2 at 0x08000102", "grounds address, none, address, cycles 5, 0, 5"),
    ("READ 2 at 0x08000100, WAITCNT 0x0000, READ 2 at 0x08000102", "grounds address, none, address, cycles 5, 0, 5"),
    ("READ 2 at 0x08000100, Thumb 0x1C00 at 0x03000000, READ 2 at 0x08000102", "grounds address, fast, address, cycles 5, 1, 5"),
    // other regions, by the address as given; a word of EWRAM, palette or VRAM has two beats, any other access one
    ("READ 1 at 0x02000001, READ 2 at 0x02000002, READ 4 at 0x02000004", "grounds ewram, ewram, ewram+ewram, cycles 3, 3, 6"),
    ("READ 1 at 0x05000001, READ 2 at 0x05000002, READ 4 at 0x05000004", "grounds video, video, video+video, cycles 1, 1, 2"),
    (
        "WRITE 1 of 1 at 0x06000001, WRITE 2 of 1 at 0x06000002, WRITE 4 of 1 at 0x06000004",
        "grounds video, video, video+video, cycles 1, 1, 2",
    ),
    ("READ 1 at 0x07000001, READ 2 at 0x07000002, READ 4 at 0x07000004", "grounds fast, fast, fast, cycles 1, 1, 1"),
    ("READ 1 at 0x0E000001, READ 2 at 0x0E000002, READ 4 at 0x0E000004", "grounds sram, sram, sram, cycles 5, 5, 5"),
    ("WAITCNT 0x0003, WRITE 4 of 1 at 0x0FFFFFFF", "grounds none, sram, cycles 0, 9"),
    (
        "READ 4 at 0x00000000, READ 4 at 0x00004000, READ 4 at 0x01FFFFFF, READ 4 at 0x03000000, READ 4 at 0x04000000",
        "grounds fast, fast, fast, fast, fast, cycles 1, 1, 1, 1, 1",
    ),
    ("READ 4 at 0x10000000, READ 4 at 0x82000000, READ 4 at 0xFFFFFFFF", "grounds fast, fast, fast, cycles 1, 1, 1"),
    (
        "READ 4 at 0x02FFFFFF, READ 4 at 0x06FFFFFE, READ 4 at 0x07FFFFFF",
        "grounds ewram+ewram, video+video, fast, cycles 6, 2, 1",
    ),
    (
        "READ 4 at 0x02020000, READ 4 at 0x02020004, READ 2 at 0x06020000",
        "grounds ewram+ewram, ewram+ewram, video, cycles 6, 6, 1",
    ),
    (
        "no EWRAM, no VRAM, no SRAM, WRITE 4 of 1 at 0x02000000, READ 4 at 0x06000000, READ 4 at 0x0E000000",
        "grounds ewram+ewram, video+video, sram, cycles 6, 2, 5",
    ),
    ("WRITE 1 of 1 at 0x07000000, WRITE 4 of 1 at 0x0C000100", "grounds fast, address+seq, cycles 1, 14, hits 0, 0"),
    ("WRITE 2 of 1 at 0x02000000, WRITE 4 of 1 at 0x03000000", "grounds ewram, fast, cycles 3, 1, hits 2, 4"),
    // neither the flag nor the buffer is an access's
    (
        "board flag 1, READ 2 at 0x08000100, READ 2 at 0x08000102, Thumb 0x1C00 at 0x08000200",
        "grounds address, seq, flag, cycles 5, 3, 5",
    ),
    (
        "board WAITCNT 0x4000, board buffer at 0x08000100 0x1C00, READ 2 at 0x08000100, Thumb 0x1C00 at 0x08000100",
        "grounds address, hit, cycles 5, 1",
    ),
    // a ground goes by its condition where N and S cost the same
    ("READ 2 at 0x0A000100, READ 2 at 0x0A000102, READ 2 at 0x0A020000", "grounds address, seq, block, cycles 5, 5, 5"),
    ("Thumb 0x6808 at 0x0A000100, Thumb 0x1C00 at 0x0A000102", "grounds seq, flag, cycles 6, 5"),
    (
        "WAITCNT 0x0008, READ 4 at 0x08000100, READ 4 at 0x08000104, READ 4 at 0x08020000",
        "grounds none, address+seq, seq+seq, block+seq, cycles 0, 6, 6, 6",
    ),
    (
        "board WAITCNT 0x0008, Thumb 0x6808 at 0x08000100, Thumb 0x1C00 at 0x08000102, ARM 0xE1A00000 at 0x0801FFFE",
        "grounds seq, flag, seq+block, cycles 4, 3, 6",
    ),
    ("WAITCNT 0x0300, READ 2 at 0x0C000100, READ 2 at 0x0C000102", "grounds none, address, seq, cycles 0, 9, 9"),
    // and where S is the dearer
    ("WAITCNT 0x0240, READ 4 at 0x0C000100, READ 4 at 0x0C000104", "grounds none, address+seq, seq+seq, cycles 0, 12, 18"),
    ("WAITCNT 0x0240, Thumb 0x6808 at 0x0C000100, ARM 0xE1A00000 at 0x0C000102", "grounds none, seq, flag+seq, cycles 0, 10, 12"),
    // a board brings a previous access, which is no matter to a fetch
    ("board previous 2 at 0x080000FE, READ 2 at 0x08000100", "grounds seq, 3 cycles"),
    ("board previous 4 at 0x080000FC, READ 4 at 0x08000103", "grounds seq+seq, 6 cycles"),
    ("board previous 4 at 0x0801FFFC, READ 4 at 0x08020000", "grounds block+seq, 8 cycles"),
    ("board previous 2 at 0x09FFFFFE, READ 2 at 0x0A000000", "grounds block, 5 cycles"),
    ("board previous 2 at 0x02000000, READ 2 at 0x08000100", "grounds address, 5 cycles"),
    ("board previous 2 at 0x0DFFFFFE, READ 2 at 0x0E000000", "grounds sram, 5 cycles"),
    ("board previous 2 at 0x080000FE, Thumb 0x1C00 at 0x08000100", "grounds seq, 3 cycles"),
    ("board previous 2 at 0x080000FE, board flag 1, ARM 0xE1A00000 at 0x08000100", "grounds flag+seq, 8 cycles"),
    // a full buffer
    (
        "board WAITCNT 0x4000, board buffer at 0x08000100 1 2 3 4 5 6 7 8, ARM 0xE1A00000 at 0x08000100, \
         ARM 0xE1A00000 at 0x08000104, ARM 0xE1A00000 at 0x08000108, ARM 0xE1A00000 at 0x0800010C, ARM 0xE1A00000 at 0x08000110",
        "grounds hit+seq, hit+seq, hit+seq, hit+seq, seq+seq, cycles 4, 4, 4, 4, 6, hits 2, 2, 2, 2, 0",
    ),
    (
        "board WAITCNT 0x4000, board buffer at 0x0801FFFC 1 2 3 4 5 6 7 8, ARM 0xE1A00000 at 0x0801FFFC, \
         Thumb 0x1C00 at 0x08020000, Thumb 0x1C00 at 0x08020002, ARM 0xE1A00000 at 0x08020002",
        "grounds hit+seq, hit, hit, seq+hit, cycles 4, 1, 1, 4, hits 2, 1, 1, 0",
    ),
    // grounds are those of the step's own moment: a flag that it sets is the next one's
    ("2 × Thumb 0x6808 at 0x08000100", "grounds seq, flag, cycles 4, 6"),
    (
        "Thumb 0x6808 at 0x08000100, Thumb 0x1C00 at 0x08000102, Thumb 0x1C00 at 0x08000104",
        "grounds seq, flag, seq, cycles 4, 5, 3",
    ),
    ("Thumb 0x6808 at 0x08000100 with flag 1, Thumb 0x1C00 at 0x08000102", "grounds seq, seq, cycles 4, 3"),
    ("WAITCNT 0x4000, Thumb 0x6808 at 0x08000100, Thumb 0x1C00 at 0x08000200", "grounds none, seq, seq, cycles 0, 4, 3"),
    (
        "Thumb 0x6808 at 0x08000100, Thumb 0x1C00 at 0x03000000, Thumb 0x1C00 at 0x08000102",
        "grounds seq, fast, seq, cycles 4, 1, 3",
    ),
    ("Thumb 0x6808 at 0x03000000, Thumb 0x1C00 at 0x08000100", "grounds fast, seq, cycles 2, 3"),
    (
        "Thumb 0x6808 at 0x08000100, WAITCNT 0x4000, IDLE 5, FETCH 0x08000102, RESTART 0x08000200, READ 2 at 0x08000300, \
         Thumb 0x1C00 at 0x08000102",
        "grounds seq, none, none, none, none, address, flag, cycles 4, 0, 5, 0, 0, 5, 5",
    ),
    // so is a buffer that it fills or takes from
    (
        "board WAITCNT 0x4000, board buffer at 0x08000100 0x1C00 0x1C00, Thumb 0x1C00 at 0x08000100, \
         Thumb 0x1C00 at 0x08000102, Thumb 0x1C00 at 0x08000104",
        "grounds hit, hit, seq, cycles 1, 1, 3, hits 1, 1, 0",
    ),
    (
        "WAITCNT 0x4000, Thumb 0x1C00 at 0x08000100, IDLE 4, Thumb 0x1C00 at 0x08000102",
        "grounds none, seq, none, seq, cycles 3, 4, 3",
    ),
    (
        "WAITCNT 0x4000, Thumb 0x1C00 at 0x08000100, IDLE 5, Thumb 0x1C00 at 0x08000102",
        "grounds none, seq, none, hit, cycles 3, 5, 1",
    ),
    ("board WAITCNT 0x4000, board next 0x08000100, IDLE 2, Thumb 0x1C00 at 0x08000100", "grounds none, seq, cycles 2, 3"),
    ("board WAITCNT 0x4000, board next 0x08000100, IDLE 3, Thumb 0x1C00 at 0x08000100", "grounds none, hit, cycles 3, 1"),
    ("board WAITCNT 0x4000, board next 0x08020000, IDLE 4, Thumb 0x1C00 at 0x08020000", "grounds none, block, cycles 4, 5"),
    ("board WAITCNT 0x4000, board next 0x08020000, IDLE 5, Thumb 0x1C00 at 0x08020000", "grounds none, hit, cycles 5, 1"),
    (
        "board WAITCNT 0x4000, board next 0x08000100 in 1, IDLE 1, ARM 0xE1A00000 at 0x08000100",
        "grounds none, hit+seq, cycles 1, 4, hits 0, 1",
    ),
    (
        "board WAITCNT 0x4000, board flag 1, board next 0x08000102 in 9, IDLE 9, ARM 0xE1A00000 at 0x08000100",
        "grounds none, flag+hit, cycles 9, 6, hits 0, 0",
    ),
    (
        "board WAITCNT 0x4000, board next 0x08000100 in 2, Thumb 0x6808 at 0x03000000, Thumb 0x1C00 at 0x08000100",
        "grounds fast, hit, cycles 2, 1, hits 0, 1",
    ),
    (
        "board WAITCNT 0x4000, board buffer at 0x08000100 0x1C00, Thumb 0x1C00 at 0x08000100, IDLE 3, Thumb 0x1C00 at 0x08000102",
        "grounds hit, none, hit, cycles 1, 3, 1, hits 1, 0, 1",
    ),
    (
        "board WAITCNT 0x4000, board buffer at 0x08000100 0x1C00, FETCH 0x08000100, IDLE 6, ARM 0xE1A00000 at 0x08000102",
        "grounds none, none, hit+seq, cycles 0, 6, 4, hits 1, 0, 2",
    ),
    (
        "WAITCNT 0x4000, RESTART 0x0801FFFE, IDLE 10, Thumb 0x1C00 at 0x0801FFFE, Thumb 0x1C00 at 0x08020000",
        "grounds none, none, none, hit, hit, cycles 10, 1, 1, hits 1, 1",
    ),
    (
        "board WAITCNT 0x4000, board buffer at 0x08000100 0x1C00, FETCH 0x08000100, Thumb 0x1C00 at 0x08000100",
        "grounds none, seq, cycles 0, 3, hits 1, 0",
    ),
    (
        "board WAITCNT 0x4000, board buffer at 0x08000100 0x1C00, FETCH 0x08000200, Thumb 0x1C00 at 0x08000100",
        "grounds none, seq, cycles 0, 3, hits 0, 0",
    ),
    (
        "board WAITCNT 0x4000, board buffer at 0x08000100 0x1C00, RESTART 0x08000100, Thumb 0x1C00 at 0x08000100",
        "grounds none, seq, cycles 0, 3",
    ),
    (
        "board WAITCNT 0x4000, board buffer at 0x08000100 0x1C00, WAITCNT 0x0000, Thumb 0x1C00 at 0x08000100",
        "grounds none, seq, cycles 0, 3",
    ),
    // what the waits are is no matter to the ground, and what they are worth is by those of the moment
    (
        "WAITCNT 0x0490, Thumb 0x1C00 at 0x0C000100, WAITCNT 0x0000, Thumb 0x1C00 at 0x0C000100",
        "grounds none, seq, none, seq, cycles 0, 2, 0, 9",
    ),
    // steps that have none, a FETCH that hits among them
    (
        "WAITCNT 0x4317, IDLE 5, RESTART 0x08000100, FETCH 0x08020000, FETCH 0x02000000, PC 0x08000000, LATCH 1",
        "grounds none, none, none, none, none, none, none",
    ),
    ("board WAITCNT 0x4000, board buffer at 0x08000100 0x1234, FETCH 0x08000100", "grounds none, 0 cycles, hits 1"),
    ("board flag 1, FETCH 0x08000100, IDLE 4,294,967,295", "grounds none, none, cycles 0, 4,294,967,295"),
    // no step; what is lent beyond; the longest sheet
    ("grounds of 0 bytes", "total 0"),
    ("grounds of 5 bytes", "total 0"),
    ("grounds of 33 bytes, READ 2 at 0x02000000", "grounds ewram"),
    ("grounds of 100 bytes, READ 4 at 0x02000000, Thumb 0x1C00 at 0x08000100", "grounds ewram+ewram, seq"),
    ("4,096 × ARM 0xE1A00000 at 0x0801FFFE", "grounds seq+block, seq+block, total 32,768"),
    // 6 by the grounds, by the answers and by both
    ("grounds of 31 bytes, IDLE 1", "refused 6"),
    ("grounds of 0 bytes, READ 4 at 0x02000000", "refused 6"),
    ("grounds of 63 bytes, 2 × READ 4 at 0x02000000", "refused 6"),
    ("grounds of 131,071 bytes, 4,096 × IDLE 1", "refused 6"),
    ("answers of 11 bytes, IDLE 1", "refused 6"),
    ("answers of 11 bytes, grounds of 31 bytes, IDLE 1", "refused 6"),
    // the others before it, and 7 behind it
    ("sheet byte 0 0x43, grounds of 31 bytes, IDLE 1", "refused 1"),
    ("sheet of 7 bytes, grounds of 0 bytes", "refused 1"),
    ("sheet byte 3 3, grounds of 31 bytes, IDLE 1", "refused 2"),
    ("sheet byte 5 1, grounds of 31 bytes, IDLE 1", "refused 3"),
    ("store of 5 bytes, grounds of 31 bytes, IDLE 1", "refused 4"),
    ("board byte 2 2, grounds of 31 bytes, IDLE 1", "refused 5"),
    ("grounds of 63 bytes, IDLE 1, READ 3 at 0x02000000", "refused 6"),
    ("IDLE 1, READ 3 at 0x02000000", "refused 7 at 1"),
    ("grounds of 65 bytes, IDLE 1, READ 3 at 0x02000000", "refused 7 at 1"),
];
