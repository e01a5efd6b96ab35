//! Figures of docs/RULES.md and of the comments of the Rust, in the notation of docs/DIFFERENCES.md.

pub const FIGURES: &[(&str, &str)] = &[
    // RULES, "Figures"
    ("EWRAM of 262,144 bytes, WRITE 1 of 0x5A at 0x02040005", "EWRAM byte 5 0x5A, changed 1"),
    ("VRAM of 98,304 bytes, WRITE 2 of 0x1234 at 0x06018000", "VRAM byte 0x10000 0x34, VRAM byte 0x10001 0x12, changed 2"),
    ("WAITCNT 0xFFFF", "board WAITCNT 0x5FFF"),
    ("WAITCNT 0x4000, RESTART 0x08000100, IDLE 27", "count 7"),
    ("WAITCNT 0x4000, RESTART 0x08000100, IDLE 28", "count 8"),
    ("ARM 0xE1A00000 at 0x08000100", "6 cycles"),
    ("ARM 0xE1A00000 at 0x08000000", "8 cycles"),
    ("WAITCNT 0x0300, ARM 0xE5910000 at 0x0C000100", "19 cycles"),
    ("Thumb 0xBC01 at 0x03000000", "1 cycle"),
    ("Thumb 0xBA01 at 0x03000000", "2 cycles"),
    ("ARM 0xE12FFF1E at 0x03000000", "2 cycles"),
    ("SRAM of 8,192 bytes, WRITE 2 of 0x1234 at 0x0E000001", "SRAM byte 1 0x12, changed 1"),
    ("no ROM, no SRAM, READ 4 at 0x0DFFFFFE", "value 0xFFFF0000"),
    ("VRAM of 98,304 bytes, WRITE 1 of 0x5A at 0x06010000", "changed 0, VRAM counter 0"),
    ("VRAM of 98,304 bytes, WRITE 1 of 3 at 0x04000000, WRITE 1 of 0x5A at 0x06010000, READ 2 at 0x06010000", "value 0x5A5A, VRAM counter 1, changed 3"),
    ("VRAM of 98,304 bytes, WRITE 1 of 3 at 0x04000000, WRITE 1 of 0x5A at 0x06014000", "VRAM counter 0, changed 1"),
    ("SRAM of 32,768 bytes, WRITE 1 of 0x11 at 0x0E000000, WRITE 1 of 0x5A at 0x0E008000, READ 1 at 0x0E008000", "value 0x11, changed 1"),
    // RULES, "What a data access costs"
    ("READ 1 at 0x02000000, READ 2 at 0x02000000, READ 4 at 0x02000000", "cycles 3, 3, 6"),
    ("READ 1 at 0x06000000, READ 2 at 0x05000000, READ 4 at 0x06000000", "cycles 1, 1, 2"),
    ("READ 4 at 0x07000000, READ 4 at 0x03000000, READ 4 at 0x04000000, READ 4 at 0x00000000", "cycles 1, 1, 1, 1"),
    // the Rust: ROM 5/5/8 and SRAM 5 at power on
    ("READ 1 at 0x08000000, READ 2 at 0x08000000, READ 4 at 0x08000000, READ 1 at 0x0E000000", "cycles 5, 5, 8, 5"),
    // the Rust: the common commercial setting is WS0 3,1; SRAM 8; WS2 8,8; prefetch on
    ("WAITCNT 0x4317, READ 2 at 0x08000000, READ 4 at 0x08000000, READ 1 at 0x0E000000, READ 2 at 0x0C000000, READ 4 at 0x0C000000", "cycles 4, 6, 9, 9, 18"),
    ("WAITCNT 0x4317", "board WAITCNT 0x4317"),
    // the Rust: first accesses wait 4, 3, 2 or 8, second ones 2, 4 or 8 by window, or 1
    ("WAITCNT 0x0125, READ 1 at 0x0E000000, READ 2 at 0x0A000000", "cycles 0, 4, 4"),
    ("WAITCNT 0x024A, READ 1 at 0x0E000000, READ 2 at 0x0A000000", "cycles 0, 3, 3"),
    ("WAITCNT 0x036F, READ 1 at 0x0E000000, READ 2 at 0x0A000000", "cycles 0, 9, 9"),
    ("READ 4 at 0x08000000, WAITCNT 0x0010, READ 4 at 0x08000000", "cycles 8, 0, 7"),
    ("READ 4 at 0x0A000000, WAITCNT 0x0080, READ 4 at 0x0A000000", "cycles 10, 0, 7"),
    ("READ 4 at 0x0C000000, WAITCNT 0x0400, READ 4 at 0x0C000000", "cycles 14, 0, 7"),
    // the Rust: mirrors
    ("WRITE 4 of 0x12345678 at 0x02000000, READ 4 at 0x02FC0000", "value 0x12345678"),
    ("WRITE 4 of 0x12345678 at 0x03000000, READ 4 at 0x03FF8000", "value 0x12345678"),
    ("WRITE 2 of 0x1234 at 0x05000000, READ 2 at 0x05FFFC00", "value 0x1234"),
    ("WRITE 2 of 0x1234 at 0x07000000, READ 2 at 0x07FFFC00", "value 0x1234"),
    ("WRITE 2 of 3 at 0x04000000, READ 2 at 0x04010000", "value 0"),
    // the Rust: a closed BIOS gives the latch's bytes; byte stores to video memory
    ("PC 0x08000000, LATCH 0x44332211, READ 4 at 0x00000000", "cycles 0, 0, 1, value 0x44332211"),
    ("PC 0x08000000, LATCH 0x44332211, READ 2 at 0x00000001", "value 0x3322"),
    ("WRITE 1 of 0x5A at 0x05000001, READ 2 at 0x05000000", "value 0x5A5A"),
    ("WRITE 1 of 0x5A at 0x07000000, READ 2 at 0x07000000", "value 0"),
    // the Rust: the disable bug
    ("ARM 0xE5910000 at 0x08000100, ARM 0xE1A00000 at 0x08000104, ARM 0xE1A00000 at 0x08000108", "cycles 7, 8, 6"),
    // the Rust: both 32 KiB halves from 0x10000 are one; the word at 0x800 repeats every 64 KiB
    ("VRAM of 98,304 bytes, WRITE 2 of 0x1234 at 0x06010000, READ 2 at 0x06018000", "value 0x1234"),
    ("WRITE 4 of 0x12345678 at 0x04FF0800, READ 4 at 0x04000800", "value 0x12345678"),
    // the Rust: SWP, MUL, LDM, LDR and shifts by register have an internal cycle
    ("ARM 0xE1010092 at 0x03000000, ARM 0xE0010392 at 0x03000000, ARM 0xE8B10001 at 0x03000000, ARM 0xE5910000 at 0x03000000, ARM 0xE1A00211 at 0x03000000", "cycles 2, 2, 2, 2, 2"),
    // the example of `bench`, step by step
    ("WAITCNT 0x4000", "cycles 0, value 0, hits 0, count 0, flag 0, total 0"),
    ("WAITCNT 0x4000, RESTART 0x08000100", "cycles 0, value 0, hits 0, count 0, flag 0, total 0"),
    ("WAITCNT 0x4000, RESTART 0x08000100, IDLE 27", "27 cycles, value 0, hits 0, count 7, flag 0, total 27"),
    ("WAITCNT 0x4000, RESTART 0x08000100, IDLE 27, Thumb 0x1C00 at 0x08000100", "1 cycle, value 0, hits 1, count 6, flag 0, total 28"),
    ("WAITCNT 0x4000, RESTART 0x08000100, IDLE 27, Thumb 0x1C00 at 0x08000100, READ 2 at 0x02000000", "cycles 0, 0, 27, 1, 3, value 0, hits 0, count 6, flag 0, total 31"),
    // edges: the block rule takes the address as given, the second half the first half's window
    ("Thumb 0x1C00 at 0x08020000, Thumb 0x1C00 at 0x08020001", "cycles 5, 3"),
    ("ARM 0xE1A00000 at 0x0801FFFE, ARM 0xE1A00000 at 0x0801FFFF", "cycles 8, 6"),
    ("ARM 0xE1A00000 at 0x09FFFFFE, ARM 0xE1A00000 at 0x09FFFFFF", "cycles 8, 6"),
    ("ARM 0xE1A00000 at 0x0DFFFFFE, ARM 0xE1A00000 at 0x0DFFFFFF, ARM 0xE1A00000 at 0x07FFFFFE", "cycles 14, 18, 1"),
    // edges: each byte or half of a load is decoded by itself
    ("SRAM of bytes A0 A1 A2, READ 2 at 0x0DFFFFFF", "value 0xA000"),
    ("SRAM of bytes A0 A1 A2, READ 4 at 0x0DFFFFFE", "value 0xA0A00000"),
    ("SRAM of bytes A0 A1 A2, READ 4 at 0x0DFFFFFF", "value 0xA1A1A000"),
    ("PC 0x00004000, LATCH 0x44332211, READ 4 at 0xFFFFFFFF", "value 0x33221100"),
    // edges: a fill ends at the last window's end; a fetch from an empty buffer changes nothing
    ("WAITCNT 0x4000, RESTART 0x0DFFFFFE, IDLE 100, FETCH 0x0DFFFFFF", "hits 1, count 0"),
    ("WAITCNT 0x4000, RESTART 0x08000100, FETCH 0x08000200, IDLE 27", "count 7"),
    ("WAITCNT 0x4000, FETCH 0x00000000", "value 0, hits 0, count 0"),
];
