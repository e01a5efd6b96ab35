//! The memories that both sides get a copy of, and the library's runs over them.

use crate::bus::region::{
    EWRAM_SIZE, IO_SIZE, IWRAM_SIZE, OAM_SIZE, PALETTE_SIZE, SRAM_WINDOW_SIZE, VRAM_SIZE,
};
use crate::bytes::*;
use crate::rng::Rng;

/// The sizes of the seven memories of the store, in its order.
pub const SIZES: [usize; 7] =
    [EWRAM_SIZE, IWRAM_SIZE, IO_SIZE, PALETTE_SIZE, VRAM_SIZE, OAM_SIZE, SRAM_WINDOW_SIZE];

#[derive(Clone)]
pub struct Memories {
    pub store: Vec<u8>,
    pub bios: Vec<u8>,
    pub rom: Vec<u8>,
    pub lengths: [usize; 7],
}

impl Memories {
    pub fn random(seed: u64, lengths: [usize; 7], bios: usize, rom: usize) -> Memories {
        let mut rng = Rng::new(seed);
        Memories {
            store: rng.bytes(lengths.iter().sum()),
            bios: rng.bytes(bios),
            rom: rng.bytes(rom),
            lengths,
        }
    }

    /// The library's run over these memories.
    #[inline(never)]
    pub fn run(&mut self, sheet: &[u8], board: &mut [u8], answers: &mut [u8]) -> Report {
        let [ewram, iwram, io, palette, vram, oam, sram] = self.lengths;
        // each pointer is to so many bytes of a buffer of its own, which nothing else uses meanwhile
        unsafe {
            bts_run(
                sheet.as_ptr(), sheet.len(), board.as_mut_ptr(), board.len(),
                self.store.as_mut_ptr(), self.store.len(), self.bios.as_ptr(), self.bios.len(),
                self.rom.as_ptr(), self.rom.len(), answers.as_mut_ptr(), answers.len(),
                ewram, iwram, io, palette, vram, oam, sram,
            )
        }
    }

    /// The library's run under a tariff over these memories.
    #[inline(never)]
    pub fn run_tariff(
        &mut self,
        sheet: &[u8],
        board: &mut [u8],
        answers: &mut [u8],
        shares: &mut [u8],
        rate: u32,
    ) -> Bill {
        let [ewram, iwram, io, palette, vram, oam, sram] = self.lengths;
        // as above
        unsafe {
            bts_run_tariff(
                sheet.as_ptr(), sheet.len(), board.as_mut_ptr(), board.len(),
                self.store.as_mut_ptr(), self.store.len(), self.bios.as_ptr(), self.bios.len(),
                self.rom.as_ptr(), self.rom.len(), answers.as_mut_ptr(), answers.len(),
                shares.as_mut_ptr(), shares.len(),
                ewram, iwram, io, palette, vram, oam, sram,
                rate,
            )
        }
    }

    /// The library's run with the grounds of each step over these memories.
    #[inline(never)]
    pub fn run_grounds(&mut self, sheet: &[u8], board: &mut [u8], answers: &mut [u8], grounds: &mut [u8]) -> Report {
        let [ewram, iwram, io, palette, vram, oam, sram] = self.lengths;
        // as above
        unsafe {
            bts_run_grounds(
                sheet.as_ptr(), sheet.len(), board.as_mut_ptr(), board.len(),
                self.store.as_mut_ptr(), self.store.len(), self.bios.as_ptr(), self.bios.len(),
                self.rom.as_ptr(), self.rom.len(), answers.as_mut_ptr(), answers.len(),
                grounds.as_mut_ptr(), grounds.len(),
                ewram, iwram, io, palette, vram, oam, sram,
            )
        }
    }

    /// The seven memories of the store, in its order.
    pub fn parts(&self) -> [&[u8]; 7] {
        parts_of(&self.store, self.lengths)
    }
}
