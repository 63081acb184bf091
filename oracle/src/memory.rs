//! Stand-in for the original's `memory`: three lent memories and a bank, and nothing else of the machine.
//!
//! The original's own `memory/constants.rs` can't be compiled: it includes ROM images that are not
//! part of the text. Only the two regions that the chip's fetches can meet are kept.

use crate::reads::{Trace, LINES};

pub mod constants {
    #[derive(Debug, Clone, Copy, PartialEq, Eq)]
    pub enum MapRegion {
        Ram,
        Char,
    }
}

pub const RAM: usize = 16_384;
pub const ROM: usize = 4_096;
pub const COLOUR: usize = 1_024;

/// The original asks for a cartridge's mode when it maps an address. There are no cartridges here.
#[derive(Clone, Copy)]
pub struct Phi1Mode;

#[derive(Clone, Copy)]
pub struct Configuration {
    pub phi1_mode: Phi1Mode,
}

#[derive(Clone, Copy)]
pub struct Cartridge {
    pub configuration: Configuration,
}

#[derive(Clone)]
pub struct Memory {
    pub ram: Box<[u8; RAM]>,
    pub rom: Box<[u8; ROM]>,
    pub colour: Box<[u8; COLOUR]>,
    pub bank: u8,
    pub cartridge: Cartridge,
    /// What was read since a tick's begin (02 (viii)).
    pub trace: Trace,
}

impl Memory {
    pub fn new() -> Self {
        Self {
            ram: Box::new([0; RAM]),
            rom: Box::new([0; ROM]),
            colour: Box::new([0; COLOUR]),
            bank: 0,
            cartridge: Cartridge { configuration: Configuration { phi1_mode: Phi1Mode } },
            trace: Trace::default(),
        }
    }

    pub fn get_vic_bank(&self) -> u8 {
        self.bank
    }

    /// docs/SCOPE.md, "Memory". The clock is for a bus latch that is not kept.
    pub fn vic_read(&mut self, address: u16, bank: u8, _clock: u64) -> u8 {
        // The chip has fourteen address lines; one caller does not mask them itself.
        let address = address & LINES;
        // The build for a clock traces nothing.
        if cfg!(debug_assertions) {
            self.trace.note(address);
        }
        match crate::pla::map_vic_addr(address, bank as usize, Phi1Mode) {
            constants::MapRegion::Char => self.rom[address as usize & 0x0FFF],
            constants::MapRegion::Ram => self.ram[address as usize],
        }
    }

    /// Both clock phases read alike.
    pub fn vic_read_phi2(&mut self, address: u16, bank: u8, clock: u64) -> u8 {
        self.vic_read(address, bank, clock)
    }

    /// The caller gives the CPU's address, from 0xD800 on.
    pub fn read_color_ram(&self, address: u16) -> u8 {
        self.colour[address as usize & 0x03FF]
    }
}
