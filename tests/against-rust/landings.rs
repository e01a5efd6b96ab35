//! How many bytes of a store land, worked out by hand from the rules (docs/RULES.md, "Did a store land" and "Stores"), apart
//! from the library and from the Rust's store.

/// The value that is stored, by its low bits: none of its bytes is 0, as those of the memories are.
const VALUE: &str = "0x12345678";

/// The input of a row, in the notation of docs/DIFFERENCES.md.
pub fn input(before: &str, stores: &str) -> String {
    let store = |text: &str| match text.split_once(" at ") {
        Some((size, address)) => format!("WRITE {size} of {VALUE} at {address}"),
        None => String::new(),
    };
    let items = before.split(", ").map(str::to_string).chain(stores.split(", ").map(store));
    items.filter(|item| !item.is_empty()).collect::<Vec<_>>().join(", ")
}

/// What comes before, stores as size and address, and what is claimed, in the notation of docs/DIFFERENCES.md; `hits` are those
/// of the last steps.
pub const LANDINGS: &[(&str, &str, &str)] = &[
    // inside a memory: as many as the store has; a byte fills its halfword in palette and VRAM, OAM takes none, SRAM takes one
    ("", "1 at 0x02000001, 2 at 0x02000002, 4 at 0x02000004", "hits 1, 2, 4, changed 7"),
    ("", "1 at 0x03000001, 2 at 0x03000002, 4 at 0x03000004", "hits 1, 2, 4, changed 7"),
    ("", "1 at 0x04000011, 2 at 0x04000012, 4 at 0x04000014", "hits 1, 2, 4, changed 7"),
    ("", "1 at 0x05000001, 2 at 0x05000002, 4 at 0x05000004", "hits 2, 2, 4, changed 8"),
    ("", "1 at 0x06000001, 2 at 0x06000002, 4 at 0x06000004", "hits 2, 2, 4, changed 8"),
    ("", "1 at 0x07000001, 2 at 0x07000002, 4 at 0x07000004", "hits 0, 2, 4, changed 6"),
    ("", "1 at 0x0E000001, 2 at 0x0E000002, 4 at 0x0E000004", "hits 1, 1, 1, changed 3"),
    // a word with 0 to 4 bytes inside, a half with 0 to 2
    ("EWRAM of 4 bytes", "4 at 0x02000004, 2 at 0x02000004", "hits 0, 0, changed 0"),
    ("EWRAM of 5 bytes", "4 at 0x02000004, 2 at 0x02000004", "hits 1, 1, changed 1"),
    ("EWRAM of 6 bytes", "4 at 0x02000004, 2 at 0x02000004", "hits 2, 2, changed 2"),
    ("EWRAM of 7 bytes", "4 at 0x02000004, 2 at 0x02000006", "hits 3, 1, changed 3"),
    ("EWRAM of 8 bytes", "4 at 0x02000004, 2 at 0x02000006", "hits 4, 2, changed 4"),
    ("IWRAM of 5 bytes", "4 at 0x03000004, 2 at 0x03000004", "hits 1, 1"),
    ("IWRAM of 6 bytes", "4 at 0x03000004, 2 at 0x03000006", "hits 2, 0"),
    ("IWRAM of 7 bytes", "4 at 0x03000004, 2 at 0x03000006", "hits 3, 1"),
    ("I/O of 5 bytes", "4 at 0x04000004, 2 at 0x04000004", "hits 1, 1"),
    ("I/O of 6 bytes", "4 at 0x04000004, 2 at 0x04000006", "hits 2, 0"),
    ("I/O of 2,051 bytes", "4 at 0x04000800, 2 at 0x04000802", "hits 3, 1"),
    ("palette of 5 bytes", "4 at 0x05000004, 2 at 0x05000004", "hits 1, 1"),
    ("palette of 6 bytes", "4 at 0x05000004, 2 at 0x05000006", "hits 2, 0"),
    ("palette of 7 bytes", "4 at 0x05000004, 2 at 0x05000006", "hits 3, 1"),
    ("VRAM of 5 bytes", "4 at 0x06000004, 2 at 0x06000004", "hits 1, 1"),
    ("VRAM of 6 bytes", "4 at 0x06000004, 2 at 0x06000006", "hits 2, 0"),
    ("VRAM of 7 bytes", "4 at 0x06000004, 2 at 0x06000006", "hits 3, 1"),
    ("OAM of 5 bytes", "4 at 0x07000004, 2 at 0x07000004", "hits 1, 1"),
    ("OAM of 6 bytes", "4 at 0x07000004, 2 at 0x07000006", "hits 2, 0"),
    ("OAM of 7 bytes", "4 at 0x07000004, 2 at 0x07000006", "hits 3, 1"),
    // a byte at the last place and one past it
    ("EWRAM of 5 bytes", "1 at 0x02000004, 1 at 0x02000005", "hits 1, 0, changed 1"),
    ("IWRAM of 5 bytes", "1 at 0x03000004, 1 at 0x03000005", "hits 1, 0, changed 1"),
    ("I/O of 5 bytes", "1 at 0x04000004, 1 at 0x04000005", "hits 1, 0, changed 1"),
    ("SRAM of 5 bytes", "1 at 0x0E000004, 1 at 0x0E000005", "hits 1, 0, changed 1"),
    // a byte that fills its halfword: both of its bytes inside, one of them, though the byte's own address is past it, none
    ("palette of 5 bytes", "1 at 0x05000002, 1 at 0x05000003", "hits 2, 2, changed 2"),
    ("palette of 5 bytes", "1 at 0x05000004, 1 at 0x05000005", "hits 1, 1, palette byte 4 0x78"),
    ("palette of 5 bytes", "1 at 0x05000006, 1 at 0x05000007", "hits 0, 0, changed 0"),
    ("VRAM of 5 bytes", "1 at 0x06000002, 1 at 0x06000003", "hits 2, 2, changed 2"),
    ("VRAM of 5 bytes", "1 at 0x06000004, 1 at 0x06000005", "hits 1, 1, VRAM byte 4 0x78"),
    ("VRAM of 5 bytes", "1 at 0x06000006, 1 at 0x06000007", "hits 0, 0, changed 0"),
    // object VRAM: from 0x10000 in modes 0 to 2, from 0x14000 in the others; wide stores land there
    ("VRAM of 98,304 bytes", "1 at 0x0600FFFF, 1 at 0x06010000, 2 at 0x06010000, 4 at 0x06010000", "hits 2, 0, 2, 4"),
    ("VRAM of 98,304 bytes, WRITE 1 of 2 at 0x04000000", "1 at 0x06010000, 1 at 0x06014000", "hits 1, 0, 0"),
    ("VRAM of 98,304 bytes, WRITE 1 of 3 at 0x04000000", "1 at 0x06010000, 1 at 0x06013FFF, 1 at 0x06014000", "hits 1, 2, 2, 0"),
    ("VRAM of 98,304 bytes, WRITE 2 of 0xFFFF at 0x04000000", "1 at 0x0601BFFF, 1 at 0x0601C000", "hits 2, 2, 0"),
    ("VRAM of 65,537 bytes, WRITE 1 of 3 at 0x04000000", "1 at 0x06010001, 1 at 0x06010002", "hits 1, 1, 0"),
    ("VRAM of 65,537 bytes", "1 at 0x06010000, 4 at 0x06010000", "hits 0, 1"),
    ("no I/O, VRAM of 98,304 bytes, WRITE 1 of 3 at 0x04000000", "1 at 0x06010000", "hits 0, 0, changed 0"),
    // SRAM: the addressed byte alone, which isn't lowered; past the chip and with no chip none
    ("SRAM of 3 bytes", "1 at 0x0E000002, 2 at 0x0E000002, 4 at 0x0E000002", "hits 1, 1, 1"),
    ("SRAM of 3 bytes", "1 at 0x0E000003, 2 at 0x0E000003, 4 at 0x0E000003", "hits 0, 0, 0, changed 0"),
    ("SRAM of 32,768 bytes", "1 at 0x0E007FFF, 1 at 0x0E008000, 4 at 0x0E00FFFF", "hits 1, 0, 0"),
    ("no SRAM", "1 at 0x0E000000, 2 at 0x0E000000, 4 at 0x0E000000", "hits 0, 0, 0"),
    // dropped: ROM in each window and up to its end, BIOS, unused areas, the gaps of I/O
    ("ROM of 256 bytes", "1 at 0x08000000, 2 at 0x0A000000, 4 at 0x0C000000, 4 at 0x0DFFFFFF", "hits 0, 0, 0, 0, changed 0"),
    ("BIOS of 256 bytes", "1 at 0x00000000, 2 at 0x00000010, 4 at 0x00003FFC", "hits 0, 0, 0, changed 0"),
    ("", "1 at 0x00004000, 2 at 0x01000000, 4 at 0x01FFFFFF", "hits 0, 0, 0, changed 0"),
    ("", "1 at 0x10000000, 2 at 0x82000000, 4 at 0xFFFFFFFF", "hits 0, 0, 0, changed 0"),
    ("", "1 at 0x04000400, 2 at 0x040007FE, 4 at 0x04000804, 4 at 0x04010000", "hits 0, 0, 0, 0, changed 0"),
    ("", "4 at 0x040003FC, 4 at 0x04000800", "hits 4, 4, changed 8"),
    // other wide stores are lowered first, so that one at a memory's last byte lands whole
    ("EWRAM of 8 bytes", "4 at 0x02000007, 2 at 0x02000007", "hits 4, 2"),
    ("IWRAM of 8 bytes", "4 at 0x03000005, 2 at 0x03000005", "hits 4, 2"),
    ("I/O of 8 bytes", "4 at 0x04000006, 2 at 0x04000007", "hits 4, 2"),
    ("palette of 8 bytes", "4 at 0x05000007, 2 at 0x05000007", "hits 4, 2"),
    ("VRAM of 8 bytes", "4 at 0x06000005, 2 at 0x06000005", "hits 4, 2"),
    ("OAM of 8 bytes", "4 at 0x07000006, 2 at 0x07000007", "hits 4, 2"),
    ("EWRAM of 7 bytes", "4 at 0x02000007, 2 at 0x02000007", "hits 3, 1"),
    // mirrors, and the last places of the full sizes
    ("EWRAM of 262,144 bytes", "4 at 0x0203FFFF, 4 at 0x02FFFFFC", "hits 4, 4, changed 4"),
    ("IWRAM of 32,768 bytes", "4 at 0x03007FFC, 4 at 0x03FFFFFF", "hits 4, 4, changed 4"),
    ("EWRAM of 5 bytes", "4 at 0x02FC0004, 1 at 0x02FFFFFF", "hits 1, 0"),
    ("", "4 at 0x04FF0800, 4 at 0x04010804", "hits 4, 0, changed 4"),
    ("", "1 at 0x05FFFFFF, 2 at 0x050007FE", "hits 2, 2, changed 2"),
    ("VRAM of 98,304 bytes", "2 at 0x0601FFFF, 4 at 0x06FFFFFC", "hits 2, 4, changed 4"),
    ("", "1 at 0x07FFFFFF, 4 at 0x07FFFFFF", "hits 0, 4, changed 4"),
    ("SRAM of 65,536 bytes", "2 at 0x0E00FFFF, 4 at 0x0FFF0000", "hits 1, 1, changed 2"),
    // what lands counts, changed or not
    ("WRITE 1 of 0 at 0x02000000, WRITE 2 of 0 at 0x03000000, WRITE 4 of 0 at 0x04000000", "", "hits 1, 2, 4, changed 0"),
    ("WRITE 1 of 0 at 0x05000000, WRITE 4 of 0 at 0x07000000, WRITE 1 of 0 at 0x0E000000", "", "hits 2, 4, 1, changed 0"),
    ("", "4 at 0x02000000, 4 at 0x02000000", "hits 4, 4, changed 4"),
    // the counters go by their own rule, past the end too
    ("no VRAM", "1 at 0x06000000, 2 at 0x06000000, 4 at 0x06000000", "hits 0, 0, 0, VRAM counter 4"),
    ("no palette", "1 at 0x05000000, 2 at 0x05000000, 4 at 0x05000000", "hits 0, 0, 0, palette counter 4"),
    ("no OAM", "1 at 0x07000000, 2 at 0x07000000, 4 at 0x07000000", "hits 0, 0, 0, OAM counter 3"),
    ("VRAM of 1 byte", "4 at 0x06000000, 1 at 0x06010000", "hits 1, 0, VRAM counter 2"),
    // no other step has it: the hits of a READ stay 0
    ("WRITE 4 of 0x12345678 at 0x02000000, READ 4 at 0x02000000", "", "hits 4, 0, value 0x12345678"),
];
