//! A small chip of our own, by the column of its kind. It judges the 6567R8, of which there is no original; `check-model` has
//! the original judge it on the 6569.
//!
//! It is written from the article's rules with the departures that docs/DIFFERENCES.md lists; what that page only calls the
//! original's own, as the merge, is the original's rule. A number such as 3.8.1 is a section of the article, "departure 4" an entry of
//! that page. A rule without a kind in it has the same cycles on both.

use crate::accept::{takes, CLOCK_LIMIT};
use crate::chip::{Chip, Refusal, BANK_ABOVE_3, CLOCK_AT_END, COMPARE_ABOVE_511};
use crate::kind::{column, Column, Slot};
use crate::memory::constants::MapRegion;
use crate::memory::{Memory, Phi1Mode};
use crate::pla::map_vic_addr;
use crate::reads::{Reads, Reason, REFRESH};
use crate::scene::{State, FIRST_REFRESH};

const DEN: u8 = 0x10;
const RSEL: u8 = 0x08;
const CSEL: u8 = 0x08;
/// The mode's bits in each control register: ECM and BMM, MCM.
const MODE_1: u8 = 0x60;
const MODE_2: u8 = 0x10;
/// The raster interrupt's flag.
const RASTER: u8 = 1;
/// The bits of a mode.
const ECM: u8 = 4;
const BMM: u8 = 2;
const MCM: u8 = 1;
/// Address bits 9 and 10, which ECM forces to 0 (3.7.3).
const ECM_FORCES: u16 = 0x0600;
const IDLE: u16 = 0x3FFF;

pub struct Model {
    s: State,
    memory: Memory,
    /// What the last tick read.
    reads: Reads,
}

impl Model {
    /// A chip at power-up, with this memory.
    pub fn new(memory: Memory, kind: u8) -> Self {
        Self { s: powered(kind), memory, reads: Reads::default() }
    }

    /// One accepted tick.
    fn turn(&mut self, column: Column) {
        self.reads = Reads::default();
        let s = &mut self.s;
        s.clock += 2;
        s.den = s.ctrl1 & DEN != 0;
        s.rsel = s.ctrl1 & RSEL != 0;
        s.yscroll = s.ctrl1 & 7;
        s.cycle = column.next(s.cycle);
        if s.cycle == 1 {
            line_begins(s, column);
        }
        bad_line(s);
        if s.cycle == 2 {
            frame_ends(s);
        }
        // A slot comes before its cycle's arbitration, but in cycles 1 and 2 and in sprite 0's pointer slot.
        let after = s.cycle <= 2 || s.cycle == column.first_pointer;
        if !after {
            self.slot(column);
        }
        let s = &mut self.s;
        s.mode = (s.ctrl1 >> 4 & ECM) | (s.ctrl1 >> 4 & BMM) | (s.ctrl2 >> 4 & MCM);
        border(s);
        sprite_dma(s, column);
        arbitrate(s, column);
        if s.cycle == column.first_pointer {
            load_mc(s);
        }
        if after {
            self.slot(column);
        }
        self.refresh();
        self.rows();
        self.hole();
        let s = &mut self.s;
        // 3.9, rules 2 and 3, number 63 for the 6569.
        if s.cycle == column.last_cycle {
            vertical_border(s);
        }
        // Departure 23: the mode before moves with the flag alone.
        if s.mode_changing {
            s.previous_mode = s.mode;
            s.mode_changing = false;
        }
        s.irq_changed = s.irq_line;
    }

    fn read(&mut self, reason: Reason, address: u16) -> u8 {
        self.reads.add((reason, address));
        let bank = self.memory.bank;
        self.memory.vic_read(address, bank, 0)
    }

    fn in_rom(&self, address: u16) -> bool {
        map_vic_addr(address, self.memory.bank.into(), Phi1Mode) == MapRegion::Char
    }

    /// 3.6: a sprite's accesses. The word is put together with its last byte.
    fn slot(&mut self, column: Column) {
        match column.slot(self.s.cycle) {
            Some(Slot::Pointer(k)) => {
                self.s.sprites[k].pointer = self.read(Reason::Pointer, matrix(&self.s) + 0x3F8 + k as u16);
                self.sprite_byte(k, 2);
            }
            Some(Slot::Data(k)) => {
                self.sprite_byte(k, 1);
                self.sprite_byte(k, 0);
                let [low, middle, high] = self.s.sprites[k].bytes;
                self.s.sprites[k].word = u32::from_be_bytes([0, high, middle, low]);
            }
            None => {}
        }
    }

    /// 3.8.1, rule 5, by departure 10: byte 1 is phase 1's, the others are phase 2's.
    fn sprite_byte(&mut self, k: usize, n: usize) {
        let on = self.s.dma >> k & 1 == 1;
        let sprite = self.s.sprites[k];
        // With DMA only sprite 0's first byte wants AEC; without, phase 1 is the chip's own.
        let wants_aec = if on { (k, n) == (0, 2) } else { n != 1 };
        let (reason, address) = if on { (Reason::Sprite, u16::from(sprite.pointer) * 64 + u16::from(sprite.mc)) } else { (Reason::Idle, IDLE) };
        self.s.sprites[k].bytes[n] = if wants_aec && !self.s.aec_low { 0xFF } else { self.read(reason, address) };
        if on {
            self.s.sprites[k].mc = (sprite.mc + 1) % 64;
        }
    }

    /// 02 (xiv), and 3.13: five accesses a line, in phase 1, before the matrix access of 15. The byte goes nowhere.
    fn refresh(&mut self) {
        if (11..=15).contains(&self.s.cycle) {
            self.read(Reason::Refresh, REFRESH + u16::from(self.s.refresh));
            self.s.refresh = self.s.refresh.wrapping_sub(1);
        }
    }

    /// 02 (viii): phase 1 is the chip's own in every cycle. Where no other access has it, it reads for nothing. A slot always reads.
    fn hole(&mut self) {
        if self.reads.is_empty() {
            self.read(Reason::Idle, IDLE);
        }
    }

    /// 3.7.2, and the accesses of the display.
    fn rows(&mut self) {
        let s = &mut self.s;
        match s.cycle {
            // Rule 2.
            14 => {
                s.vc = s.vc_base;
                s.vmli = 0;
                if s.bad_line {
                    s.rc = 0;
                }
            }
            // Departure 1: decided once for the line.
            15 => {
                s.accessing = s.bad_line;
                s.entering = false;
            }
            55 => s.accessing = false,
            56 => s.graphics = 0,
            // Rule 5; departure 27 for the display state.
            58 => {
                if s.rc == 7 {
                    s.displaying = false;
                    s.vc_base = s.vc;
                }
                if s.displaying || s.bad_line {
                    s.rc = (s.rc + 1) % 8;
                    s.displaying = true;
                }
            }
            _ => {}
        }
        if (16..=55).contains(&self.s.cycle) {
            self.graphics_access();
        }
        if (15..=54).contains(&self.s.cycle) && self.s.accessing {
            self.character_access();
        }
    }

    /// Rule 3; without the bus the place waits for the CPU's byte (departure 25).
    fn character_access(&mut self) {
        let (place, vc) = (self.s.vmli, self.s.vc);
        if self.s.aec_counter < 0 {
            let colour = self.memory.colour[usize::from(vc)] & 0x0F;
            let code = self.read(Reason::Matrix, matrix(&self.s) + vc);
            self.s.matrix.0[usize::from(place)] = u16::from_be_bytes([colour, code]);
        } else {
            self.s.pending = Some(place);
        }
    }

    /// Rules 3 and 4.
    fn graphics_access(&mut self) {
        if !self.s.displaying || self.s.entering {
            return self.idle_access();
        }
        if !self.s.output_disabled {
            latch(&mut self.s);
        }
        let address = self.graphics_address();
        self.s.graphics = self.read(Reason::Graphics, address);
        self.s.vc = (self.s.vc + 1) % 1024;
        self.s.vmli += 1;
    }

    /// 3.7.3.9, by departures 11, 23 and 24.
    fn idle_access(&mut self) {
        let s = &mut self.s;
        if !s.output_disabled {
            s.character = 0;
        }
        let forced = s.entering && s.cycle >= 18 && s.clock == s.forced_clock;
        let address = if forced {
            0x38FF
        } else if s.previous_mode & ECM != 0 {
            0x39FF
        } else {
            IDLE
        };
        s.entering = false;
        self.s.graphics = self.read(Reason::Idle, address);
    }

    /// 3.7.3; where BMM or ECM has just fallen, departure 11.
    fn graphics_address(&self) -> u16 {
        let s = &self.s;
        let characters = u16::from(s.memory_pointers & 0x0E) << 10;
        let row = u16::from(s.rc);
        let bitmap = (characters & 0x2000) | s.vc * 8 | row;
        let text = characters | (s.character & 0xFF) * 8 | row;
        let (on, fell) = (s.mode, s.previous_mode & !s.mode);
        let mut address = if on & BMM != 0 { bitmap } else { text };
        if on & ECM != 0 {
            address &= !ECM_FORCES;
        }
        if fell & BMM != 0 {
            address = if self.in_rom(address) { (address & 0x3F00) | (bitmap & 0x00FF) } else { bitmap };
        }
        let bitmap_begins = on & BMM != 0 && (s.previous_mode & BMM == 0 || on & MCM != 0);
        if fell & ECM != 0 && (bitmap_begins || self.in_rom(address)) {
            address &= !ECM_FORCES;
        }
        address
    }
}

/// docs/SCOPE.md, "Power-up"; an unknown kind is kept, and is else a 6569 (02 (iv)).
pub fn powered(kind: u8) -> State {
    let column = column(kind);
    let mut s = State { kind, cycle: column.last_cycle, raster: column.last_line, ..State::default() };
    s.ba_output_high = true;
    (s.vertical_border, s.main_border, s.main_remembered, s.output_disabled) = (true, true, true, true);
    (s.top, s.bottom) = compares(0);
    s.flip = 0xFF;
    s.aec_counter = 3;
    s.refresh = FIRST_REFRESH;
    for (k, sprite) in s.sprites.iter_mut().enumerate() {
        sprite.number = k as u8;
    }
    s
}

/// 3.12: the last line stays for a cycle more and ends the frame; a match raises once while it lasts (departures 8 and 26).
fn line_begins(s: &mut State, column: Column) {
    if s.raster == column.last_line {
        s.frame_flag = true;
        s.raster_match = false;
    } else {
        s.raster += 1;
        compare_line(s);
    }
    // Departure 6.
    vertical_border(s);
}

/// A match is the line's own, and raises as it begins.
fn compare_line(s: &mut State) {
    let matched = s.raster == s.compare;
    if matched && !s.raster_match {
        raise(s);
    }
    s.raster_match = matched;
}

/// Departure 8: line 0 comes in cycle 2.
fn frame_ends(s: &mut State) {
    if s.frame_flag {
        s.frame_flag = false;
        s.raster = 0;
        s.den_latch = false;
        s.vc_base = 0;
        s.refresh = FIRST_REFRESH;
        if s.compare == 0 {
            raise(s);
        }
    }
}

/// 3.5, with the latch of 02 (ii); a rise enters the display state (departure 27), and BA's window is 3.6's.
fn bad_line(s: &mut State) {
    if s.raster == 0x30 {
        s.den_latch = s.den || (s.den_latch && s.cycle != 1);
    }
    let bad = (0x30..=0xF7).contains(&s.raster) && s.raster % 8 == s.yscroll.into() && s.den_latch;
    s.rising_edge = bad && !s.bad_line;
    s.bad_line = bad;
    s.displaying |= s.rising_edge;
    s.ba_output_high = !(bad && (12..=54).contains(&s.cycle));
}

/// 3.6: BA falls with a request; AEC follows after three cycles of it.
fn arbitrate(s: &mut State, column: Column) {
    let asked = !s.ba_output_high || s.dma & column.mask(s.cycle) != 0;
    if asked && !s.ba_low {
        s.clock_fall = s.clock;
    }
    if !asked && s.ba_low {
        s.clock_rise = s.clock;
    }
    s.ba_low = asked;
    s.aec_counter = if asked { (s.aec_counter - 1).max(-1) } else { 3 };
    s.aec_low = s.aec_counter < 0;
    // 02 (xi): the cycles of this line that the CPU has not had.
    if s.cycle == 1 {
        s.lost = 0;
    }
    s.lost += u8::from(s.aec_low);
}

/// 3.8.1 up to the comparisons. What was on before each of these steps is kept.
fn sprite_dma(s: &mut State, column: Column) {
    if s.cycle == 16 {
        s.previous_dma = s.dma;
        step_mcbase(s);
    }
    if s.cycle == column.first_comparison() {
        s.previous_dma = s.dma;
        s.vertical_match = 0;
        // Rule 2.
        s.flip ^= s.y_expand;
        compare(s);
    }
    if s.cycle == column.second_comparison() {
        s.previous_dma = s.dma;
        compare(s);
    }
}

/// The sprites that are enabled and on this line; Y has the line's low eight bits.
fn on_line(s: &State) -> u8 {
    (0..8).filter(|k| s.y[*k] == s.raster as u8).fold(0, |mask, k| mask | 1 << k) & s.enable
}

/// Rule 3.
fn compare(s: &mut State) {
    let starting = on_line(s) & !s.dma;
    for (k, sprite) in s.sprites.iter_mut().enumerate().filter(|(k, _)| starting >> k & 1 == 1) {
        sprite.base = 0;
        s.flip &= !(s.y_expand & 1 << k);
    }
    s.dma |= starting;
}

/// Rules 7 and 8, by departure 3.
fn step_mcbase(s: &mut State) {
    for (k, sprite) in s.sprites.iter_mut().enumerate() {
        if s.flip >> k & 1 == 1 {
            let crunched = (0x2A & sprite.base & sprite.mc) | (0x15 & (sprite.base | sprite.mc));
            sprite.base = if s.clear_pending >> k & 1 == 1 { crunched } else { sprite.mc };
        }
        if sprite.base == 63 {
            s.dma &= !(1 << k);
        }
    }
    s.clear_pending = 0;
}

/// Rule 4, by departure 4. The article numbers 58 for the 6569, sprite 0's pointer slot.
fn load_mc(s: &mut State) {
    for sprite in &mut s.sprites {
        sprite.mc = sprite.base;
    }
    s.sprite_display = s.dma & (s.sprite_display | on_line(s));
}

/// 3.9, by departure 7.
fn border(s: &mut State) {
    let wide = s.ctrl2 & CSEL != 0;
    match s.cycle {
        17 => s.part_40 = left_border(s, wide),
        18 => s.part_38 = left_border(s, !wide),
        // Rule 1.
        56 => s.main_border |= !wide,
        57 => s.main_border |= wide,
        _ => {}
    }
    if s.cycle == 16 || s.cycle == 17 {
        s.main_remembered = s.main_border;
    }
}

/// Rules 4 to 6, where the compare is that of the width; answers the main border before it and after it.
fn left_border(s: &mut State, compares: bool) -> u8 {
    let before = s.main_border;
    if compares {
        vertical_border(s);
        s.main_border &= s.vertical_border;
    }
    u8::from(before) | u8::from(s.main_border) << 1
}

/// Rules 2 and 3, and 4 and 5, which compare alike: the bottom line goes before the top line.
fn vertical_border(s: &mut State) {
    if s.raster == s.bottom || (s.raster == s.top && s.den) {
        s.vertical_border = s.raster == s.bottom;
        s.output_disabled = s.vertical_border;
    }
}

/// The character of a graphics access (3.7.2, rule 3); in row 0 of a line that is not bad, the merge of departure 11.
fn latch(s: &mut State) {
    let here = usize::from(s.vmli);
    let forced = (s.clock - s.forced_clock - 2).max(0) as usize;
    if s.bad_line || s.rc != 0 || forced >= 40 {
        s.character = s.matrix.0[here];
        return;
    }
    // docs/DECISIONS.md, 26.
    let before = match forced {
        _ if forced == here => 0,
        0 => here - 1,
        _ if forced < here => forced - 1,
        _ => (forced - 1) % (forced - here),
    };
    let (old, near, far) = (s.matrix.0[before], s.matrix.0[here], s.matrix.0[forced]);
    let kept = if s.cycle % 4 == 3 { 0 } else { s.carry };
    s.carry = 0x08A6 & (kept | old);
    let either = s.carry | (far & 0x013F);
    s.character = (either & (near | far)) | (!s.carry & near & far);
    s.matrix.0[here] = s.character;
    s.matrix.0[forced] = s.character;
}

/// 3.12: the line is up while a source is both latched and enabled, and bit 7 says so.
fn settle(s: &mut State) {
    s.irq_line = s.irq_flags & s.irq_enable & 0x0F != 0;
    s.irq_flags = (s.irq_flags & 0x7F) | u8::from(s.irq_line) << 7;
}

fn raise(s: &mut State) {
    s.irq_flags |= RASTER;
    settle(s);
}

/// 3.9: top and bottom by RSEL.
fn compares(ctrl1: u8) -> (u16, u16) {
    if ctrl1 & RSEL != 0 {
        (0x33, 0xFB)
    } else {
        (0x37, 0xF7)
    }
}

/// Where the video matrix begins (3.7.3).
fn matrix(s: &State) -> u16 {
    u16::from(s.memory_pointers & 0xF0) << 6
}

/// 3.2: the registers that are a byte of their own, read and written alike.
fn register(s: &mut State, place: u16) -> Option<&mut u8> {
    let k = usize::from(place);
    Some(match place {
        0x00..=0x0F if place % 2 == 0 => &mut s.x[k / 2],
        0x00..=0x0F => &mut s.y[k / 2],
        0x10 => &mut s.x_high,
        0x15 => &mut s.enable,
        0x18 => &mut s.memory_pointers,
        0x1B => &mut s.priority,
        0x1C => &mut s.multicolour,
        0x1D => &mut s.x_expand,
        0x20 => &mut s.border_colour,
        0x21..=0x24 => &mut s.backgrounds[k - 0x21],
        0x25 => &mut s.multicolour_0,
        0x26 => &mut s.multicolour_1,
        0x27..=0x2E => &mut s.sprite_colours[k - 0x27],
        _ => return None,
    })
}

/// The bits of a register that are not there; they read as 1.
fn missing(place: u16) -> u8 {
    match place {
        0x16 => 0xC0,
        0x18 => 0x01,
        0x19 => 0x70,
        0x1A | 0x20..=0x2E => 0xF0,
        _ => 0,
    }
}

impl Chip for Model {
    fn state(&self) -> State {
        self.s.clone()
    }

    fn load(&mut self, state: &State) {
        self.s = state.clone();
    }

    fn see(&mut self, bank: u8) {
        self.memory.bank = bank;
    }

    fn power_up(&mut self, kind: u8) {
        self.s = powered(kind);
    }

    fn tick(&mut self) -> Result<(), Refusal> {
        if self.memory.bank > 3 {
            return Err(BANK_ABOVE_3);
        }
        takes(&self.s)?;
        if self.s.clock > CLOCK_LIMIT - 2 {
            return Err(CLOCK_AT_END);
        }
        self.turn(column(self.s.kind));
        Ok(())
    }

    fn reads(&self) -> Reads {
        self.reads
    }

    fn write_file(&mut self, address: u16, value: u8) {
        let (s, place) = (&mut self.s, address % 64);
        match place {
            0x12 => s.compare = (s.compare & 0x100) | u16::from(value),
            0x19 => {
                s.irq_flags &= !(value & 0x0F);
                settle(s);
            }
            0x1A => {
                s.irq_enable = value & 0x0F;
                settle(s);
            }
            _ => {
                // A colour has no upper half to be stored.
                let stored = if place < 0x20 { value } else { value & 0x0F };
                if let Some(byte) = register(s, place) {
                    *byte = stored;
                }
            }
        }
    }

    /// Departure 5; the special cycle is that of the first comparison.
    fn write_y_expand(&mut self, value: u8) {
        let s = &mut self.s;
        if s.cycle == 15 {
            s.clear_pending = !(value | s.flip);
        }
        if s.cycle == column(s.kind).first_comparison() {
            s.flip &= s.y_expand | !value;
        }
        s.flip |= !value;
        s.y_expand = value;
    }

    /// 02 (vi): the line is compared at once, and on the last line too.
    fn write_control_1(&mut self, value: u8) {
        let s = &mut self.s;
        s.mode_changing |= (s.ctrl1 ^ value) & MODE_1 != 0;
        s.ctrl1 = value;
        s.compare = u16::from(value >> 7) * 256 + s.compare % 256;
        (s.top, s.bottom) = compares(value);
        compare_line(s);
    }

    fn write_control_2(&mut self, value: u8) {
        let s = &mut self.s;
        s.mode_changing |= (s.ctrl2 ^ value) & MODE_2 != 0;
        s.ctrl2 = value;
    }

    fn place_controls(&mut self, ctrl1: u8, ctrl2: u8, compare: u16) -> Result<(), Refusal> {
        if compare > 511 {
            return Err(COMPARE_ABOVE_511);
        }
        (self.s.ctrl1, self.s.ctrl2, self.s.compare) = (ctrl1, ctrl2, compare);
        Ok(())
    }

    /// 3.14.6, by departure 25.
    fn late_byte(&mut self, value: u8) -> Result<(), Refusal> {
        takes(&self.s)?;
        if let Some(place) = self.s.pending.take() {
            self.s.matrix.0[usize::from(place)] = u16::from_be_bytes([value & 0x0F, 0xFF]);
        }
        Ok(())
    }

    fn border_compares(&mut self) {
        (self.s.top, self.s.bottom) = compares(self.s.ctrl1);
    }

    fn read(&self, address: u16, light_pen_x: u8, light_pen_y: u8) -> u8 {
        let (s, place) = (&self.s, address % 64);
        let bits = match place {
            0x11 => (s.ctrl1 & 0x7F) | ((s.raster & 0x100) >> 1) as u8,
            0x12 => s.raster as u8,
            0x13 => light_pen_x,
            0x14 => light_pen_y,
            0x16 => s.ctrl2,
            0x17 => s.y_expand,
            0x19 => (s.irq_flags & 0x0F) | u8::from(s.irq_line) << 7,
            0x1A => s.irq_enable,
            _ => register(&mut s.clone(), place).map_or(0xFF, |byte| *byte),
        };
        bits | missing(place)
    }

    /// Departure 12; the two cycles are those of the comparisons.
    fn ba_high_at_phi1(&self) -> bool {
        let (s, column) = (&self.s, column(self.s.kind));
        let starting = s.cycle == column.first_comparison() || s.cycle == column.second_comparison();
        let dma = if starting { s.previous_dma } else { s.dma };
        s.ba_output_high && dma & column.mask(s.cycle) == 0
    }

    fn sprites_with_dma(&self) -> u8 {
        self.s.dma.count_ones() as u8
    }

    fn cycles_lost(&self) -> u8 {
        self.s.lost
    }
}
