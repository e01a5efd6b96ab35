//! How many memory bytes a store writes (docs/RULES.md, "Did a store land"), told by the Rust's own store and by no rule of ours.
//!
//! The Rust doesn't report it, and a look at the memories before and after doesn't show it: a byte may be stored over its
//! like. So the store is also done on two probes, memories of the same lengths in which every byte is the complement of the
//! other's. What a store writes doesn't depend on what stood there, but for the display mode: hence a byte that agrees
//! afterwards was written, and one that wasn't still differs.
//!
//! After a store only the bytes around its place are looked at, since whole memories take too long. At the end of a run all
//! are: a byte that was written anywhere else still agrees then, and stops the comparison.

use graycart::bus::mirror::{
    ewram_offset, io_offset, iwram_offset, oam_offset, palette_offset, sram_window_offset, vram_offset,
};
use graycart::bus::region::{decode, Region};
use graycart::bus::{Bus, CpuMem};

/// The bytes around a place: so many, from a multiple of it on. They have all that a store there can write, aligned or not.
const AROUND: usize = 8;

/// So many bytes of BIOS and ROM do: no store writes them, and one that did would show.
const READ_ONLY: usize = 64;

/// The bits of I/O byte 0 that are the display mode, by which a byte store to VRAM goes.
const MODE: u8 = 7;

/// The two probes: memories of zeros and memories of ones.
pub struct Probes {
    zeros: Bus,
    ones: Bus,
}

impl Probes {
    /// With memories as long as those of the bus.
    pub fn of(bus: &Bus) -> Probes {
        Probes { zeros: filled(bus, 0x00), ones: filled(bus, 0xFF) }
    }

    /// Does the store on the bus, and on the probes in its display mode. The number of bytes that landed.
    pub fn store(&mut self, bus: &mut Bus, size: u8, address: u32, value: u32) -> u8 {
        if let Some(&byte) = bus.io.first() {
            // the other five bits tell whether this byte lands
            self.set_mode_byte(byte & MODE, byte | !MODE);
        }
        for on in [&mut self.zeros, &mut self.ones, bus] {
            write(on, size, address, value);
        }
        let Some((which, at)) = place(address) else { return 0 };
        let [zeros, ones, memory] = [&mut self.zeros, &mut self.ones, bus].map(|on| around(on, which, at));
        zeros.iter_mut().zip(ones).zip(memory).map(|((zero, one), byte)| put_back(zero, one, *byte)).sum()
    }

    /// Stops if a byte was written that no store counted.
    pub fn check_rest(mut self) {
        if !self.zeros.io.is_empty() {
            self.set_mode_byte(0x00, 0xFF);
        }
        for (zeros, ones) in memories(&mut self.zeros).into_iter().zip(memories(&mut self.ones)) {
            // without a way out before the end, so that it is done many bytes at a time
            let differ = zeros.iter().zip(ones.iter()).fold(0xFF, |all, (zero, one)| all & (zero ^ one));
            assert_eq!(differ, 0xFF, "a byte was stored where nothing looked for it");
        }
    }

    /// I/O byte 0 of both, which is still untouched.
    fn set_mode_byte(&mut self, zero: u8, one: u8) {
        assert_ne!(self.zeros.io[0], self.ones.io[0], "a store wrote I/O byte 0 unseen");
        self.zeros.io[0] = zero;
        self.ones.io[0] = one;
    }
}

/// The bytes around a place, as far as the memory goes.
fn around(bus: &mut Bus, which: usize, at: usize) -> &mut [u8] {
    let memory = memories(bus).into_iter().nth(which).unwrap();
    let start = at - at % AROUND;
    let end = memory.len().min(start + AROUND);
    &mut memory[start.min(end)..end]
}

/// 1 if the probes agree in a byte, which must then be the one that the store left in the memory itself; it is made as before.
fn put_back(zero: &mut u8, one: &mut u8, byte: u8) -> u8 {
    if zero != one {
        return 0;
    }
    assert_eq!(*zero, byte, "the probes got another byte than the memory");
    (*zero, *one) = (0x00, 0xFF);
    1
}

fn write(bus: &mut Bus, size: u8, address: u32, value: u32) {
    match size {
        1 => bus.write8(address, value as u8),
        2 => bus.write16(address, value as u16),
        _ => bus.write32(address, value),
    }
}

/// Where to look after a store: the memory by its place in `memories`, and the offset there.
fn place(address: u32) -> Option<(usize, usize)> {
    match decode(address) {
        Region::Ewram => Some((0, ewram_offset(address))),
        Region::Iwram => Some((1, iwram_offset(address))),
        Region::Io => Some((2, io_offset(address)?)),
        Region::Palette => Some((3, palette_offset(address))),
        Region::Vram => Some((4, vram_offset(address))),
        Region::Oam => Some((5, oam_offset(address))),
        Region::GamePakSram => Some((6, sram_window_offset(address))),
        _ => None,
    }
}

/// All memories of a bus.
fn memories(bus: &mut Bus) -> [&mut [u8]; 9] {
    let b = bus;
    [
        &mut b.ewram, &mut b.iwram, &mut b.io, &mut b.palette, &mut b.vram, &mut b.oam, &mut b.sram,
        &mut b.bios, &mut b.rom,
    ]
}

/// The bus as it is, but with memories full of one byte.
fn filled(like: &Bus, byte: u8) -> Bus {
    let full = |memory: &Vec<u8>| vec![byte; memory.len()];
    let start = |memory: &Vec<u8>| vec![byte; memory.len().min(READ_ONLY)];
    Bus {
        ewram: full(&like.ewram),
        iwram: full(&like.iwram),
        io: full(&like.io),
        palette: full(&like.palette),
        vram: full(&like.vram),
        oam: full(&like.oam),
        sram: full(&like.sram),
        bios: start(&like.bios),
        rom: start(&like.rom),
        open_bus: like.open_bus,
        cpu_pc: like.cpu_pc,
        prefetch: like.prefetch.clone(),
        wait_tables: like.wait_tables,
        force_next_fetch_n: like.force_next_fetch_n,
        vram_write_count: 0,
        oam_write_count: 0,
        palette_write_count: 0,
    }
}
