//! The byte layouts of docs/RULES.md: sheet, record, answer, board; when a board is sound; and the library's C functions.

/// What is lent to one run. `lengths` are the seven lengths as given, in the store's order:
/// EWRAM, IWRAM, I/O, palette, VRAM, OAM, SRAM. Nothing here need be well formed.
#[derive(Clone)]
pub struct Case {
    pub sheet: Vec<u8>,
    pub board: Vec<u8>,
    pub store: Vec<u8>,
    pub bios: Vec<u8>,
    pub rom: Vec<u8>,
    pub answers: Vec<u8>,
    pub lengths: [usize; 7],
    /// What a run under a tariff has besides, where the case is made for one.
    pub tariff: Option<Tariff>,
    /// What is lent for the grounds, where the case is made for them. It need not be long enough.
    pub grounds: Option<Vec<u8>>,
}

/// A tariff (RULES, "The charge and the shares"): the lent shares, and the rate in cents per million cycles. Neither need be
/// good.
#[derive(Clone)]
pub struct Tariff {
    pub shares: Vec<u8>,
    pub rate: u32,
}

/// The run's result as it crosses the C boundary.
#[repr(C)]
#[derive(Clone, Copy, Debug, PartialEq, Eq)]
pub struct Report {
    pub number: u32,
    pub index: u32,
    pub total: u64,
}

/// The result of a run under a tariff as it crosses the C boundary.
#[repr(C)]
#[derive(Clone, Copy, Debug, PartialEq, Eq)]
pub struct Bill {
    pub number: u32,
    pub index: u32,
    pub total: u64,
    /// In cents.
    pub charge: u64,
}

impl From<Report> for Bill {
    /// A run without a tariff charges nothing.
    fn from(r: Report) -> Bill {
        Bill { number: r.number, index: r.index, total: r.total, charge: 0 }
    }
}

// The library: include/bts.h.
extern "C" {
    pub fn bts_run(
        sheet: *const u8, sheet_len: usize, board: *mut u8, board_len: usize,
        store: *mut u8, store_len: usize, bios: *const u8, bios_len: usize,
        rom: *const u8, rom_len: usize, answers: *mut u8, answers_len: usize,
        ewram: usize, iwram: usize, io: usize, palette: usize, vram: usize, oam: usize, sram: usize,
    ) -> Report;

    pub fn bts_run_tariff(
        sheet: *const u8, sheet_len: usize, board: *mut u8, board_len: usize,
        store: *mut u8, store_len: usize, bios: *const u8, bios_len: usize,
        rom: *const u8, rom_len: usize, answers: *mut u8, answers_len: usize,
        shares: *mut u8, shares_len: usize,
        ewram: usize, iwram: usize, io: usize, palette: usize, vram: usize, oam: usize, sram: usize,
        rate: u32,
    ) -> Bill;

    pub fn bts_run_grounds(
        sheet: *const u8, sheet_len: usize, board: *mut u8, board_len: usize,
        store: *mut u8, store_len: usize, bios: *const u8, bios_len: usize,
        rom: *const u8, rom_len: usize, answers: *mut u8, answers_len: usize,
        grounds: *mut u8, grounds_len: usize,
        ewram: usize, iwram: usize, io: usize, palette: usize, vram: usize, oam: usize, sram: usize,
    ) -> Report;

    pub fn bts_preview(
        sheet: *const u8, sheet_len: usize, board: *const u8, board_len: usize, answers: *mut u8, answers_len: usize,
    ) -> Report;
}

/// Everything that a run gives back or may have changed. Without a tariff the charge is 0.
#[derive(Clone)]
pub struct Outcome {
    pub report: Bill,
    pub board: Vec<u8>,
    pub store: Vec<u8>,
    pub answers: Vec<u8>,
    /// The second buffer for what is told of each step: the shares of a tariff or the grounds. Where there is neither, empty.
    pub second: Vec<u8>,
}

pub const HEADER: usize = 8;
pub const RECORD: usize = 12;
pub const ANSWER: usize = 12;
pub const SHARE: usize = 8;
/// The grounds of a step, one byte a beat (RULES, "The ground of a beat").
pub const GROUNDS: usize = 32;
pub const BOARD: usize = 80;
pub const MOST_RECORDS: usize = 4096;

pub const READ: u8 = 1;
pub const WRITE: u8 = 2;
pub const WAITCNT: u8 = 3;
pub const IDLE: u8 = 4;
pub const FETCH: u8 = 5;
pub const RESTART: u8 = 6;
pub const INSTRUCTION: u8 = 7;
pub const PC: u8 = 8;
pub const LATCH: u8 = 9;
/// These two in version 2 alone.
pub const BLOCK_READ: u8 = 10;
pub const BLOCK_WRITE: u8 = 11;

/// The most words of a block.
pub const MOST_WORDS: u32 = 16;

pub fn u16_at(b: &[u8], at: usize) -> u16 {
    u16::from_le_bytes([b[at], b[at + 1]])
}

pub fn u32_at(b: &[u8], at: usize) -> u32 {
    u32::from_le_bytes([b[at], b[at + 1], b[at + 2], b[at + 3]])
}

pub fn u64_at(b: &[u8], at: usize) -> u64 {
    u64::from(u32_at(b, at)) | u64::from(u32_at(b, at + 4)) << 32
}

/// An address lowered to a multiple of a size, which is 1, 2 or 4.
pub fn lowered(address: u32, size: u8) -> u32 {
    address & !(u32::from(size) - 1)
}

// ---- store ----

/// The place of I/O among the seven memories.
pub const IO: usize = 2;

/// The seven memories of a store, in its order; the lengths add up to its own.
pub fn parts_of(store: &[u8], lengths: [usize; 7]) -> [&[u8]; 7] {
    let mut rest = store;
    lengths.map(|length| {
        let (part, after) = rest.split_at(length);
        rest = after;
        part
    })
}

// ---- sheet ----

/// The number of records that the header names.
pub fn record_count(sheet: &[u8]) -> usize {
    usize::from(u16_at(sheet, 6))
}

/// The versions of a sheet.
#[derive(Clone, Copy, Debug, PartialEq, Eq)]
#[repr(u16)]
pub enum Version {
    One = 1,
    Two = 2,
}

pub const VERSIONS: [Version; 2] = [Version::One, Version::Two];

impl Version {
    /// The one that the header names, if it is one of them.
    pub fn of(sheet: &[u8]) -> Option<Version> {
        let number = u16_at(sheet, 3);
        VERSIONS.into_iter().find(|&version| version as u16 == number)
    }
}

/// A version 1 sheet of these records, for tests/speed, which has this file too.
#[allow(dead_code)]
pub fn sheet_of(records: &[Record]) -> Vec<u8> {
    sheet_in(Version::One, records)
}

pub fn sheet_in(version: Version, records: &[Record]) -> Vec<u8> {
    let mut bytes = b"BTS".to_vec();
    bytes.extend((version as u16).to_le_bytes());
    bytes.push(0);
    bytes.extend((records.len() as u16).to_le_bytes());
    for r in records {
        bytes.extend(r.bytes());
    }
    bytes
}

/// The records that fit whole into the sheet, whatever its header says.
pub fn records_of(sheet: &[u8]) -> Vec<Record> {
    sheet.get(HEADER..).unwrap_or(&[]).chunks_exact(RECORD).map(Record::of).collect()
}

// ---- record ----

#[derive(Clone, Copy, Debug, PartialEq, Eq)]
pub struct Record {
    pub kind: u8,
    pub size: u8,
    pub flag: u8,
    pub zero: u8,
    pub address: u32,
    pub value: u32,
}

impl Record {
    /// A record whose flag and zero byte are 0.
    pub fn new(kind: u8, size: u8, address: u32, value: u32) -> Record {
        Record { kind, size, flag: 0, zero: 0, address, value }
    }

    pub fn of(b: &[u8]) -> Record {
        Record {
            kind: b[0],
            size: b[1],
            flag: b[2],
            zero: b[3],
            address: u32_at(b, 4),
            value: u32_at(b, 8),
        }
    }

    pub fn bytes(&self) -> [u8; RECORD] {
        let mut b = [0; RECORD];
        b[0] = self.kind;
        b[1] = self.size;
        b[2] = self.flag;
        b[3] = self.zero;
        b[4..8].copy_from_slice(&self.address.to_le_bytes());
        b[8..12].copy_from_slice(&self.value.to_le_bytes());
        b
    }

    pub fn is_block(&self) -> bool {
        matches!(self.kind, BLOCK_READ | BLOCK_WRITE)
    }

    /// The addresses of a block's words (RULES, "Blocks"): upwards from its own lowered to a multiple of 4, modulo 2^32.
    pub fn words(&self) -> impl Iterator<Item = u32> {
        let first = lowered(self.address, 4);
        (0..self.value).map(move |i| first.wrapping_add(4 * i))
    }

    /// Outside the version's table of kinds, or a size that its kind doesn't have (the first pass).
    pub fn kind_or_size_faulty(&self, version: Version) -> bool {
        match self.kind {
            READ | WRITE => ![1, 2, 4].contains(&self.size),
            INSTRUCTION => ![2, 4].contains(&self.size),
            WAITCNT | IDLE | FETCH | RESTART | PC | LATCH => self.size != 0,
            BLOCK_READ | BLOCK_WRITE => version == Version::One || self.size != 4,
            _ => true,
        }
    }

    /// A field that the kind doesn't use and that isn't 0, or one out of its range (the second pass).
    pub fn fields_faulty(&self) -> bool {
        let flag_wrong = if self.kind == INSTRUCTION { self.flag > 1 } else { self.flag != 0 };
        let address_wrong = matches!(self.kind, WAITCNT | IDLE | LATCH) && self.address != 0;
        let value_wrong = match self.kind {
            READ | FETCH | RESTART | PC => self.value != 0,
            WAITCNT => self.value > 65_535,
            BLOCK_READ | BLOCK_WRITE => !(1..=MOST_WORDS).contains(&self.value),
            _ => false,
        };
        self.zero != 0 || flag_wrong || address_wrong || value_wrong
    }

    /// In a version 1 sheet.
    pub fn faulty(&self) -> bool {
        self.faulty_in(Version::One)
    }

    pub fn faulty_in(&self, version: Version) -> bool {
        self.kind_or_size_faulty(version) || self.fields_faulty()
    }
}

// ---- answer ----

#[derive(Clone, Copy, Debug, PartialEq, Eq)]
pub struct Answer {
    pub value: u32,
    pub cycles: u32,
    pub hits: u8,
    pub count: u8,
    pub force: u8,
}

impl Answer {
    pub fn of(b: &[u8]) -> Answer {
        Answer { value: u32_at(b, 0), cycles: u32_at(b, 4), hits: b[8], count: b[9], force: b[10] }
    }

    pub fn bytes(&self) -> [u8; ANSWER] {
        let mut b = [0; ANSWER];
        b[0..4].copy_from_slice(&self.value.to_le_bytes());
        b[4..8].copy_from_slice(&self.cycles.to_le_bytes());
        b[8] = self.hits;
        b[9] = self.count;
        b[10] = self.force;
        b
    }
}

// ---- board ----

#[derive(Clone, Copy, Debug, Default, PartialEq, Eq)]
pub struct Board {
    pub waitcnt: u16,
    pub force: u8,
    pub head: u8,
    pub count: u8,
    pub filling: u8,
    pub first_beat: u8,
    pub zero_7: u8,
    pub wait_left: u32,
    pub next: u32,
    pub head_addr: u32,
    pub halfwords: [u16; 8],
    pub pc: u32,
    pub latch: u32,
    pub vram: u64,
    pub oam: u64,
    pub palette: u64,
    /// The previous data access (RULES, "Sequential accesses"): its address as lowered, and its size, 0 for none.
    pub prev_addr: u32,
    pub prev_size: u8,
    pub zeros_73: [u8; 7],
}

impl Board {
    /// The fields of 80 bytes.
    pub fn of(b: &[u8]) -> Board {
        let mut halfwords = [0; 8];
        for (i, h) in halfwords.iter_mut().enumerate() {
            *h = u16_at(b, 20 + 2 * i);
        }
        Board {
            waitcnt: u16_at(b, 0),
            force: b[2],
            head: b[3],
            count: b[4],
            filling: b[5],
            first_beat: b[6],
            zero_7: b[7],
            wait_left: u32_at(b, 8),
            next: u32_at(b, 12),
            head_addr: u32_at(b, 16),
            halfwords,
            pc: u32_at(b, 36),
            latch: u32_at(b, 40),
            vram: u64_at(b, 44),
            oam: u64_at(b, 52),
            palette: u64_at(b, 60),
            prev_addr: u32_at(b, 68),
            prev_size: b[72],
            zeros_73: std::array::from_fn(|i| b[73 + i]),
        }
    }

    pub fn bytes(&self) -> Vec<u8> {
        let mut b = Vec::with_capacity(BOARD);
        b.extend(self.waitcnt.to_le_bytes());
        b.extend([self.force, self.head, self.count, self.filling, self.first_beat, self.zero_7]);
        b.extend(self.wait_left.to_le_bytes());
        b.extend(self.next.to_le_bytes());
        b.extend(self.head_addr.to_le_bytes());
        for h in self.halfwords {
            b.extend(h.to_le_bytes());
        }
        b.extend(self.pc.to_le_bytes());
        b.extend(self.latch.to_le_bytes());
        b.extend(self.vram.to_le_bytes());
        b.extend(self.oam.to_le_bytes());
        b.extend(self.palette.to_le_bytes());
        b.extend(self.prev_addr.to_le_bytes());
        b.push(self.prev_size);
        b.extend(self.zeros_73);
        assert_eq!(b.len(), BOARD);
        b
    }

    pub fn prefetch_on(&self) -> bool {
        self.waitcnt & 0x4000 != 0
    }

    /// RULES, "A sound board", clause by clause. Addresses are widened, so nothing here wraps.
    pub fn sound(&self) -> bool {
        let next = i64::from(self.next);
        let head_addr = i64::from(self.head_addr);
        let filling = self.filling == 1;
        let zeros = self.zero_7 == 0 && self.zeros_73 == [0; 7];
        let flags = self.force <= 1 && self.filling <= 1 && self.first_beat <= 1;
        let bit_13 = self.waitcnt & 0x2000 == 0;
        let ranges = self.head <= 7 && self.count <= 8 && self.wait_left <= 9;
        let beat = filling == (self.wait_left >= 1);
        let even = next % 2 == 0;
        let room = !filling || (self.count <= 7 && in_rom_window(next));
        let span = if self.count == 0 {
            head_addr == 0
        } else {
            in_rom_window(head_addr)
                && in_rom_window(next - 2)
                && head_addr + 2 * i64::from(self.count) == next
        };
        let nothing = [self.head, self.count, self.filling, self.first_beat] == [0; 4]
            && [self.wait_left, self.next, self.head_addr] == [0; 3];
        let switch = self.prefetch_on() || nothing;
        zeros && flags && bit_13 && ranges && beat && even && room && span && switch && self.previous_sound()
    }

    /// With size 0 there is none, and the address is 0; a size of 1, 2 or 4 divides the address; there is no other.
    fn previous_sound(&self) -> bool {
        match self.prev_size {
            0 => self.prev_addr == 0,
            1 | 2 | 4 => self.prev_addr % u32::from(self.prev_size) == 0,
            _ => false,
        }
    }

    /// Where the previous access ended, if there was one.
    pub fn prev_end(&self) -> Option<u32> {
        (self.prev_size > 0).then(|| self.prev_addr.wrapping_add(self.prev_size.into()))
    }
}

/// Windows by top byte: 0x08–0x09, 0x0A–0x0B, 0x0C–0x0D.
pub fn in_rom_window(address: i64) -> bool {
    (0x0800_0000..=0x0DFF_FFFF).contains(&address)
}
