//! States as runs have them: a host that ticks a chip from power-up and calls it at random.

use crate::chip::{Chip, Records};
use crate::kind::{column, Column};
use crate::rng::Rng;
use crate::scene::State;
use crate::states::{control_1, control_2};

pub struct Walker<C> {
    chip: C,
    kind: u8,
    column: Column,
    /// How many ticks lie between two calls, about: from a busy host to a quiet one.
    quiet: u64,
    /// Ticks left until the next power-up.
    left: u64,
}

impl<C: Chip> Walker<C> {
    pub fn new(chip: C, kind: u8) -> Self {
        Self { chip, kind, column: column(kind), quiet: 1, left: 0 }
    }

    /// What was found of the chip's records of sprite DMA and its reads so far.
    pub fn records(&self) -> Records {
        self.chip.records()
    }

    /// Ticks on to the next time at this cycle, by way of at least a few lines at times.
    pub fn state_at(&mut self, r: &mut Rng, cycle: u16) -> State {
        if r.chance(1, 4) {
            for _ in 0..r.below(4 * u64::from(self.column.last_cycle)) {
                self.advance(r);
            }
        }
        self.advance(r);
        while self.chip.state().cycle != cycle {
            self.advance(r);
        }
        // Some hosts have called since the tick.
        if r.chance(1, 3) {
            self.call(r);
        }
        self.chip.state()
    }

    fn advance(&mut self, r: &mut Rng) {
        if self.left == 0 {
            let frame = self.column.frame();
            self.chip.power_up(self.kind);
            self.chip.see(r.below(4) as u8);
            self.quiet = r.pick(&[3, 20, 120, 1000]);
            self.left = frame + r.below(3 * frame);
            self.set_up(r);
        }
        self.left -= 1;
        if r.chance(1, self.quiet) {
            self.call(r);
        }
        self.chip.tick().expect("runs from power-up stay accepted");
        // A board hands over its byte after every cycle; some hosts forget it at times.
        if r.chance(3, 4) {
            self.chip.late_byte(r.byte()).expect("runs from power-up stay accepted");
        }
    }

    /// What a program does first, so that a quiet host has something on its screen too.
    fn set_up(&mut self, r: &mut Rng) {
        // Placed, or written as a program does it.
        if r.flag() {
            self.controls(r);
            self.chip.border_compares();
        } else {
            self.chip.write(0x12, r.byte());
            self.control_1(r);
            self.chip.write_control_2(r.byte());
        }
        self.chip.write(0x15, r.mask());
        self.chip.write(0x18, r.byte());
        self.chip.write(0x1A, r.byte());
        self.chip.write_y_expand(r.mask());
        for k in 0..8 {
            self.chip.write(2 * k + 1, r.byte());
        }
    }

    fn controls(&mut self, r: &mut Rng) {
        let raster = self.chip.state().raster;
        let mut ctrl1 = r.byte();
        if r.chance(4, 5) {
            ctrl1 |= 0x10;
        }
        if r.chance(1, 2) {
            ctrl1 = (ctrl1 & 0xF8) | (raster as u8 & 7);
        }
        let compare = if r.flag() { r.below(512) as u16 } else { (raster + r.below(3) as u16) % (self.column.last_line + 1) };
        self.chip.place_controls(ctrl1, r.byte(), compare).expect("the line is below 512");
    }

    /// $D011, with a line that is compared near the present one at times, and a bad line that is forced at times.
    fn control_1(&mut self, r: &mut Rng) {
        let s = self.chip.state();
        let line = if r.flag() { s.raster } else { r.below(512) as u16 };
        if r.flag() {
            self.chip.write(0x12, line.wrapping_add(r.below(2) as u16) as u8);
        }
        self.chip.write_control_1(control_1(r, s.ctrl1, s.raster, line));
    }

    /// A scene that goes on, with what no call can place: an access that begins or ends at any time, the forced clock at once.
    fn saved(&mut self, r: &mut Rng) {
        let s = self.chip.state();
        let (displaying, entering, accessing) = (r.chance(3, 4), r.flag(), r.flag());
        self.chip.load(&State { displaying, entering, accessing, mode_changing: r.flag(), forced_clock: s.clock, ..s });
    }

    fn call(&mut self, r: &mut Rng) {
        let raster = self.chip.state().raster as u8;
        match r.below(14) {
            0 | 1 => self.controls(r),
            2 => self.chip.write(r.byte().into(), r.byte()),
            // A sprite on this line or the next.
            3 => self.chip.write(2 * r.below(8) as u16 + 1, raster.wrapping_add(r.below(3) as u8)),
            4 => self.chip.write(0x15, r.mask()),
            5 => self.chip.write_y_expand(r.mask()),
            6 => self.chip.border_compares(),
            7 => {
                self.controls(r);
                self.saved(r);
            }
            8 => self.saved(r),
            9 | 10 => self.control_1(r),
            11 => {
                let value = control_2(r, self.chip.state().ctrl2);
                self.chip.write_control_2(value);
            }
            // Off and on again, within a cycle.
            12 => {
                let value = self.chip.state().ctrl1;
                self.chip.write_control_1(value ^ r.pick(&[0x80, 0x40, 0x20, 0x10, 0x08]));
                self.chip.write_control_1(value);
            }
            _ => self.chip.see(r.below(4) as u8),
        }
    }
}
