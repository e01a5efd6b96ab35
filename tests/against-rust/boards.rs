//! Boards: fresh ones, sound ones (many of which no list of steps leads to), and unsound ones.

use crate::bytes::*;
use crate::gen::Rng;

/// Even places near every window edge and block edge.
pub const CODE_EDGES: [u32; 14] = [
    0x0800_0000, 0x0800_0010, 0x0800_0100, 0x0802_0000, 0x0804_0000, 0x09FE_0000, 0x0A00_0000,
    0x0A02_0000, 0x0BFF_FFF0, 0x0C00_0000, 0x0C02_0000, 0x0DFE_0000, 0x0DFF_FFF0, 0x0E00_0000,
];

/// Where a row of data accesses may break off or go on (docs/RULES.md, "Sequential accesses"): inside a block of each window, at
/// the edges of blocks and of windows, at the ends of SRAM and of all addresses, and where EWRAM begins.
pub const ROW_EDGES: [u32; 16] = [
    0x0800_0000, 0x0800_0100, 0x0802_0000, 0x0900_0000, 0x09FE_0000, 0x0A00_0000, 0x0A00_0100, 0x0A02_0000,
    0x0C00_0000, 0x0C00_0100, 0x0C02_0000, 0x0DFE_0000, 0x0E00_0000, 0x1000_0000, 0x0000_0000, 0x0200_0000,
];

/// Anything a board's next address may be when nothing stands and nothing fills.
const LOOSE_NEXT: [u32; 8] = [
    0, 2, 0x07FF_FFFE, 0x0800_0000, 0x0DFF_FFFE, 0x0E00_0000, 0x0300_0000, 0xFFFF_FFFE,
];

pub fn any_sound(rng: &mut Rng) -> Board {
    let board = match rng.below(10) {
        0 => Board::default(),
        1 | 2 => off(rng),
        _ => on(rng),
    };
    assert!(board.sound());
    board
}

/// What soundness says nothing about, and WAITCNT with bit 14 clear.
fn off(rng: &mut Rng) -> Board {
    let (prev_addr, prev_size) = if rng.percent(35) { (0, 0) } else { previous(rng) };
    Board {
        waitcnt: rng.u32() as u16 & 0x9FFF & if rng.percent(75) { 0x7FFF } else { 0xFFFF },
        force: rng.below(2) as u8,
        halfwords: std::array::from_fn(|_| rng.u32() as u16),
        pc: program_counter(rng),
        latch: rng.u32(),
        vram: counter(rng),
        oam: counter(rng),
        palette: counter(rng),
        prev_addr,
        prev_size,
        ..Board::default()
    }
}

/// A previous data access: its address as lowered, and its size.
fn previous(rng: &mut Rng) -> (u32, u8) {
    let size = rng.pick(&[1, 2, 4]);
    let address = if rng.percent(85) { row_place(rng) } else { rng.u32() };
    (lowered(address, size), size)
}

/// Near a place where a row of accesses may break off, more often below it than above.
pub fn row_place(rng: &mut Rng) -> u32 {
    let edge = rng.pick(&ROW_EDGES);
    rng.near(edge, 12, 8)
}

fn on(rng: &mut Rng) -> Board {
    let count = rng.below(9) as u8;
    let filling = count < 8 && rng.percent(55);
    let next = next_address(rng, count, filling);
    let board = off(rng);
    Board {
        waitcnt: board.waitcnt | 0x4000,
        head: rng.below(8) as u8,
        count,
        filling: u8::from(filling),
        first_beat: rng.below(2) as u8,
        wait_left: if filling { 1 + rng.below(9) as u32 } else { 0 },
        next,
        head_addr: if count == 0 { 0 } else { next - 2 * u32::from(count) },
        ..board
    }
}

/// Where the filler may stand: what is buffered behind it and what it reads lie in windows.
fn next_address(rng: &mut Rng, count: u8, filling: bool) -> u32 {
    if count == 0 && !filling && rng.percent(50) {
        return rng.pick(&LOOSE_NEXT);
    }
    let lowest = 0x0800_0000 + 2 * u32::from(count);
    let highest = if filling { 0x0DFF_FFFE } else { 0x0E00_0000 };
    let place = if rng.percent(70) {
        let edge = rng.pick(&CODE_EDGES);
        rng.near(edge, 12, 12)
    } else {
        0x0800_0000 + rng.u32() % 0x0600_0000
    };
    (place & !1).clamp(lowest, highest)
}

pub fn program_counter(rng: &mut Rng) -> u32 {
    let places = [0, 0x3FFE, 0x3FFF, 0x4000, 0x4001, 0x0800_0000, 0xFFFF_FFFF];
    if rng.percent(70) { rng.pick(&places) } else { rng.u32() }
}

fn counter(rng: &mut Rng) -> u64 {
    match rng.below(3) {
        0 => rng.below(5) as u64,
        1 => u64::MAX - rng.below(4) as u64,
        _ => rng.next(),
    }
}

/// Sound boards that no list of steps leads to from a fresh one, each for one reason.
pub fn unreached() -> Vec<Board> {
    let on = Board { waitcnt: 0x4000, ..Board::default() };
    let standing = Board { count: 5, head_addr: 0x0800_0100, next: 0x0800_010A, ..on };
    let boards = vec![
        // the first beat still to come with halfwords standing, nothing filling and filling
        Board { first_beat: 1, ..standing },
        Board { first_beat: 1, filling: 1, wait_left: 2, ..standing },
        // nothing stands, nothing fills, and the next address lies in no window, or at an edge
        Board { next: 0xFFFF_FFFE, ..on },
        Board { next: 0x07FF_FFFE, ..on },
        Board { next: 0x0E00_0000, first_beat: 1, ..on },
        Board { next: 0x0800_0000, head: 7, ..on },
        Board { next: 0x0DFF_FFFE, first_beat: 1, ..on },
        // full up to the end of the last window; full across a window's edge
        Board { count: 8, head: 3, head_addr: 0x0DFF_FFF0, next: 0x0E00_0000, first_beat: 1, ..on },
        Board { count: 8, head: 6, head_addr: 0x09FF_FFF8, next: 0x0A00_0008, ..on },
        // a beat longer than any wait of this WAITCNT
        Board { waitcnt: 0x46F6, filling: 1, wait_left: 9, next: 0x0A00_0000, ..on },
        // bit 15, the force flag with the prefetch on, counters at their end
        Board { waitcnt: 0xC000, force: 1, vram: u64::MAX, oam: u64::MAX - 1, palette: u64::MAX, ..standing },
        Board { waitcnt: 0x8000, force: 1, vram: u64::MAX - 1, halfwords: [0xABCD; 8], ..Board::default() },
    ];
    assert!(boards.iter().all(Board::sound));
    boards
}

/// Sound boards with a previous data access of each size: inside a block, before and at its edge, and before addresses wrap.
pub fn accessed() -> Vec<Board> {
    let filling = Board { waitcnt: 0x4240, filling: 1, wait_left: 4, next: 0x0A00_0000, ..Board::default() };
    let boards = vec![
        Board { prev_size: 1, prev_addr: 0x0800_0103, ..Board::default() },
        Board { prev_size: 2, prev_addr: 0x0A01_FFFE, ..filling },
        Board { prev_size: 4, prev_addr: 0x0C02_0000, ..filling },
        Board { prev_size: 4, prev_addr: 0xFFFF_FFFC, waitcnt: 0x8000, ..Board::default() },
    ];
    assert!(boards.iter().all(Board::sound));
    boards
}

/// Boards that are sound but for the previous access or the zero bytes behind it, each by one field: a size that none has, an
/// address that is no multiple of the size, an address without an access, and each of the bytes 73 to 79.
pub fn previous_wrong() -> Vec<Board> {
    let board = Board { prev_addr: 0x0800_0100, prev_size: 4, ..Board::default() };
    let mut boards = Vec::new();
    boards.extend([3, 5, 6, 7, 8, 16, 128, 252, 255].map(|prev_size| Board { prev_size, ..board }));
    boards.extend([3, 5, 8, 255].map(|prev_size| Board { prev_size, prev_addr: 0, ..board }));
    boards.extend([(2, 1), (2, 3), (4, 1), (4, 2), (4, 3)].map(|(prev_size, by)| {
        Board { prev_size, prev_addr: board.prev_addr + by, ..board }
    }));
    boards.extend([1, 2, 4, 0x0800_0100, 0x8000_0000, 0xFFFF_FFFC].map(|prev_addr| {
        Board { prev_size: 0, prev_addr, ..board }
    }));
    for i in 0..7 {
        boards.extend([board, Board::default()].map(|board| Board { zeros_73: one_set(i, 1 << i), ..board }));
    }
    assert!(!boards.iter().any(Board::sound));
    boards
}

/// The bytes 73 to 79 with one of them set.
fn one_set(which: usize, byte: u8) -> [u8; 7] {
    std::array::from_fn(|i| if i == which { byte } else { 0 })
}

/// A board that isn't sound, by one field or a few that belong together.
pub fn unsound(rng: &mut Rng) -> Board {
    let way = rng.below(WAYS_TO_BREAK);
    broken(rng, way)
}

pub const WAYS_TO_BREAK: usize = 20;

/// A sound board broken in one of the ways.
pub fn broken(rng: &mut Rng, way: usize) -> Board {
    let b = any_sound(rng);
    let broken = match way {
        0 => Board { zero_7: nonzero(rng), ..b },
        1 => Board { zeros_73: one_set(rng.below(7), nonzero(rng)), ..b },
        2 => Board { force: 2 + rng.below(254) as u8, ..b },
        3 => Board { filling: b.filling ^ 1, ..b },
        4 => Board { filling: 2 + rng.below(254) as u8, ..b },
        5 => Board { first_beat: 2 + rng.below(254) as u8, ..b },
        6 => Board { waitcnt: b.waitcnt | 0x2000, ..b },
        7 => Board { head: 8 + rng.below(248) as u8, ..b },
        8 => Board { count: 9 + rng.below(247) as u8, ..b },
        9 => wait_wrong(rng, b),
        10 => odd_next(b),
        11 => Board { head_addr: b.head_addr ^ (1 << rng.below(32)), ..b },
        12 => full_and_filling(b),
        13 => filling_outside(rng, b),
        14 => span_outside(rng, b),
        15 => switched_off(rng, b),
        16 => Board { prev_size: rng.pick(&[3, 5, 6, 7, 8, 9, 254, 255]), ..b },
        17 => no_multiple(rng, b),
        18 => Board { prev_size: 0, prev_addr: 1 << rng.below(32), ..b },
        _ => Board { count: (b.count + 1 + rng.below(7) as u8) % 9, ..b },
    };
    assert!(!broken.sound());
    broken
}

fn nonzero(rng: &mut Rng) -> u8 {
    1 + rng.below(255) as u8
}

/// A previous access of 2 or 4 bytes at an address that is no multiple of that.
fn no_multiple(rng: &mut Rng, b: Board) -> Board {
    let prev_size = rng.pick(&[2, 4]);
    let by = 1 + rng.below(usize::from(prev_size) - 1) as u32;
    Board { prev_size, prev_addr: lowered(row_place(rng), prev_size) + by, ..b }
}

fn wait_wrong(rng: &mut Rng, b: Board) -> Board {
    let wait_left = rng.pick(&[10, 11, 256, 0x0100_0000, u32::MAX]);
    Board { wait_left, ..b }
}

/// Odd addresses that are right in all else.
fn odd_next(b: Board) -> Board {
    let head_addr = if b.count == 0 { 0 } else { b.head_addr | 1 };
    Board { waitcnt: b.waitcnt | 0x4000, next: b.next | 1, head_addr, ..b }
}

fn full_and_filling(b: Board) -> Board {
    Board {
        waitcnt: b.waitcnt | 0x4000,
        count: 8,
        filling: 1,
        wait_left: 3,
        head_addr: 0x0800_0100,
        next: 0x0800_0110,
        ..b
    }
}

fn filling_outside(rng: &mut Rng, b: Board) -> Board {
    let next = rng.pick(&[0, 0x07FF_FFFE, 0x0E00_0000, 0x0300_0000, 0xFFFF_FFFE]);
    Board {
        waitcnt: b.waitcnt | 0x4000,
        count: 0,
        filling: 1,
        wait_left: 1 + rng.below(9) as u32,
        head_addr: 0,
        next,
        ..b
    }
}

/// Buffered halfwords of which the first or the last lies in no window; sums that wrap at 2^32 too.
fn span_outside(rng: &mut Rng, b: Board) -> Board {
    let (head_addr, count): (u32, u8) = rng.pick(&[
        (0x07FF_FFFE, 1), (0x07FF_FFFE, 2), (0x07FF_FFF2, 8), (0x0DFF_FFFE, 2), (0x0E00_0000, 1),
        (0x0DFF_FFF4, 7), (0xFFFF_FFFE, 1), (0xFFFF_FFFC, 4), (0, 1), (0, 8), (0x0200_0000, 3),
    ]);
    let next = head_addr.wrapping_add(2 * u32::from(count));
    let waitcnt = b.waitcnt | 0x4000;
    Board { waitcnt, count, filling: 0, wait_left: 0, head_addr, next, ..b }
}

/// The prefetch off with one field left.
fn switched_off(rng: &mut Rng, b: Board) -> Board {
    let clear = Board {
        waitcnt: b.waitcnt & !0x4000,
        head: 0,
        count: 0,
        filling: 0,
        first_beat: 0,
        wait_left: 0,
        next: 0,
        head_addr: 0,
        ..b
    };
    let (head_addr, next) = (0x0800_0100, 0x0800_0104);
    match rng.below(6) {
        0 => Board { head: 1 + rng.below(7) as u8, ..clear },
        1 => Board { first_beat: 1, ..clear },
        2 => Board { next, ..clear },
        3 => Board { next: 2 << rng.below(31), ..clear },
        4 => Board { count: 2, head_addr, next, ..clear },
        _ => Board { filling: 1, wait_left: 5, next, ..clear },
    }
}
