//! DEN that comes late on line 0x30 (docs/DIFFERENCES.md, 2). The original takes DEN in the line's first cycle alone, the port in
//! each of its cycles: here the original is no judge by itself, and a stand-in of ours sets its latch before the tick.

use crate::chip::Records;
use crate::kind::{MOS6569, PAL};
use crate::scene::State;

const LINE: u16 = 0x30;
const DEN: u8 = 0x10;

/// Whether the tick after these is on line 0x30, not its first, and finds DEN set and the latch clear. On every other tick the
/// two rules are one: the latch is stored, or a set one stays.
pub fn comes_late(cycle: u16, raster: u16, ctrl1: u8, latch: bool) -> bool {
    raster == LINE && cycle != PAL.last_cycle && ctrl1 & DEN != 0 && !latch
}

/// The same of a scene. Of another kind the original is no judge at all.
pub fn is_late(s: &State) -> bool {
    s.kind == MOS6569 && comes_late(s.cycle, s.raster, s.ctrl1, s.den_latch)
}

/// What a late DEN can move in one tick: the latch, the bad line and BA, who has the bus, the rows, and the matrix and graphics
/// bytes that go by them, with the reads that they are. `compare-replay` takes any other field that differs for a fault.
pub const MOVED: &[&str] = &[
    "DEN latch",
    "bad line",
    "rising edge",
    "BA output",
    "BA low",
    "AEC low",
    "AEC counter",
    "lost cycles",
    "clock of BA's fall",
    "clock of BA's rise",
    "display",
    "character access",
    "RC",
    "VC",
    "VMLI",
    "pending place",
    "matrix entry",
    "character fetched",
    "carry",
    "graphics byte",
    "first read's reason",
    "first read's address",
    "second read's reason",
    "second read's address",
];

/// What a run met: its ticks, those that found DEN late, and the first of them, counted from 0; and what was found of its chip's records
/// of sprite DMA and its reads.
#[derive(Default)]
pub struct Met {
    pub ticks: u64,
    pub late: u64,
    pub first: Option<u64>,
    pub records: Records,
}

impl Met {
    /// One tick more; the machine's count of late ones says whether it is one.
    pub fn tick(&mut self, late: u64) {
        if late > self.late {
            self.late = late;
            self.first.get_or_insert(self.ticks);
        }
        self.ticks += 1;
    }

    /// A line on standard error where there was one. False where the records of sprite DMA were apart, or reads not the table's.
    pub fn tell(&self) -> bool {
        if let Some(first) = self.first {
            eprintln!("{} ticks, DEN late in {}, first in {first}", self.ticks, self.late);
        }
        self.records.agree()
    }
}
