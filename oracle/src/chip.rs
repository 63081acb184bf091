//! A chip behind the port's calls. The original is one, the model another; which of them judges goes by the kind.

use crate::kind::MOS6569;
use crate::late::Met;
use crate::memory::Memory;
use crate::model::Model;
use crate::reads::Reads;
use crate::scene::State;
use crate::vic::glue::Machine;

/// A refusal's number in docs/FORMATS.md.
pub type Refusal = u8;
pub const WRONG_LENGTH: Refusal = 1;
pub const BANK_ABOVE_3: Refusal = 2;
pub const NOT_ACCEPTED: Refusal = 3;
pub const CLOCK_AT_END: Refusal = 4;
pub const COMPARE_ABOVE_511: Refusal = 5;
pub const NOT_AT_LINE_END: Refusal = 11;
pub const UNKNOWN_KIND: Refusal = 12;

/// What was found of the original where it says more than an answer, or less. It says twice that a sprite fetches, and a state says it
/// once: after how many calls the two were looked at, and apart. It does not say why it reads: in how many ticks its reads were traced,
/// and were not those of the table that has the reasons.
#[derive(Clone, Copy, Default)]
pub struct Records {
    pub looked: u64,
    pub apart: u64,
    pub traced: u64,
    pub other: u64,
}

impl Records {
    /// False where the two were apart after a call, and where reads were not the table's: what the original has then, no answer says. A
    /// line on standard error tells of it.
    pub fn agree(self) -> bool {
        if self.apart > 0 {
            eprintln!("the original's DMA mask and flags are apart after {} of {} calls", self.apart, self.looked);
        }
        if self.other > 0 {
            eprintln!("the original's reads are not the table's in {} of {} ticks", self.other, self.traced);
        }
        self.apart == 0 && self.other == 0
    }
}

pub trait Chip {
    /// The scene that it is in.
    fn state(&self) -> State;
    fn load(&mut self, state: &State);
    /// The bank that it sees of the memory lent to it.
    fn see(&mut self, bank: u8);

    fn power_up(&mut self, kind: u8);
    fn tick(&mut self) -> Result<(), Refusal>;
    /// What the last tick that was taken read (02 (viii)).
    fn reads(&self) -> Reads;
    /// A register by any address, as the chip's own file takes it; Y-expand is not among them.
    fn write_file(&mut self, address: u16, value: u8);
    fn write_y_expand(&mut self, value: u8);
    /// $D011 and $D016 with what they do at once (02 (vi)). The original's text has neither: the rule is ours on every chip.
    fn write_control_1(&mut self, value: u8);
    fn write_control_2(&mut self, value: u8);
    fn place_controls(&mut self, ctrl1: u8, ctrl2: u8, compare: u16) -> Result<(), Refusal>;
    fn late_byte(&mut self, value: u8) -> Result<(), Refusal>;
    fn border_compares(&mut self);
    fn read(&self, address: u16, light_pen_x: u8, light_pen_y: u8) -> u8;
    fn ba_high_at_phi1(&self) -> bool;
    fn sprites_with_dma(&self) -> u8;
    /// How many cycles of its line the CPU has lost so far (02 (xi)).
    fn cycles_lost(&self) -> u8;

    /// The one door for register writes, Y-expand's too (02 (v)): the original has two.
    fn write(&mut self, address: u16, value: u8) {
        if address % 64 == 0x17 {
            self.write_y_expand(value);
        } else {
            self.write_file(address, value);
        }
    }

    /// How many ticks found DEN late, where that is another's rule than the chip's own.
    fn late(&self) -> u64 {
        0
    }

    /// After how many calls the chip was looked at for two records of sprite DMA (02 (ix)), and in how many ticks its reads were traced. A
    /// chip of ours has one record, and its own reasons.
    fn records(&self) -> Records {
        Records::default()
    }

    /// Ticks and nothing else, as far as they are taken.
    fn run(&mut self, ticks: u16, met: &mut Met) {
        for _ in 0..ticks {
            if self.tick().is_err() {
                return;
            }
            met.tick(self.late());
        }
    }
}

/// Both judges: the original for the 6569, the model for every other kind.
pub struct Judges {
    pub original: Machine,
    pub model: Model,
}

impl Judges {
    pub fn new(memory: Memory, alone: bool) -> Self {
        Self { model: Model::new(memory.clone(), MOS6569), original: Machine::judging(memory, alone) }
    }

    pub fn of(&mut self, kind: u8) -> &mut dyn Chip {
        if kind == MOS6569 {
            &mut self.original
        } else {
            &mut self.model
        }
    }
}
