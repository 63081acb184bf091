//! The original chip behind the port's calls: states in and out, the calls, and their refusals.

use super::constants::IRQ_RASTER;
use super::fsm::{CharacterAccessState, DisplayState, DisplayTransition, GraphicsMode};
use super::state::VicII;
use crate::accept::{takes, CLOCK_LIMIT};
use crate::chip::{Chip, Records, Refusal, BANK_ABOVE_3, CLOCK_AT_END, COMPARE_ABOVE_511};
use crate::clockchip::signals::LineLevel;
use crate::kind::MOS6569;
use crate::late::{comes_late, Met};
use crate::memory::Memory;
use crate::reads::{told, Before, Reads};
use crate::scene::State;

/// The fields that the original and a scene hold alike, each pair said once: `set` copies one way or the other.
macro_rules! alike {
    ($chip:ident, $state:ident, $set:ident) => {
        $set!($chip.timing.cycle, $state.cycle);
        $set!($chip.timing.raster_line, $state.raster);
        $set!($chip.timing.den, $state.den);
        $set!($chip.timing.rsel, $state.rsel);
        $set!($chip.timing.y_scroll, $state.yscroll);
        $set!($chip.timing.is_badline, $state.bad_line);
        $set!($chip.timing.badline_rising_edge, $state.rising_edge);

        $set!($chip.regs.mx, $state.x);
        $set!($chip.regs.my, $state.y);
        $set!($chip.regs.sprite_cols, $state.sprite_colours);
        $set!($chip.regs.bg_cols, $state.backgrounds);
        $set!($chip.regs.msb_x, $state.x_high);
        $set!($chip.regs.sprite_en, $state.enable);
        $set!($chip.regs.sprite_y_exp, $state.y_expand);
        $set!($chip.regs.sprite_x_exp, $state.x_expand);
        $set!($chip.regs.sprite_prio, $state.priority);
        $set!($chip.regs.sprite_mc, $state.multicolour);
        $set!($chip.regs.sprite_mc_0, $state.multicolour_0);
        $set!($chip.regs.sprite_mc_1, $state.multicolour_1);
        $set!($chip.regs.ctrl1, $state.ctrl1);
        $set!($chip.regs.ctrl2, $state.ctrl2);
        $set!($chip.regs.raster_irq, $state.compare);
        $set!($chip.regs.mem_ptrs, $state.memory_pointers);
        $set!($chip.regs.border_col, $state.border_colour);

        $set!($chip.irq.flags, $state.irq_flags);
        $set!($chip.irq.enable, $state.irq_enable);
        $set!($chip.irq.line_active, $state.irq_line);

        $set!($chip.border.vertical_border, $state.vertical_border);
        $set!($chip.border.main_border, $state.main_border);
        $set!($chip.border.main_border_old, $state.main_remembered);
        $set!($chip.border.char_data_output_disabled, $state.output_disabled);
        $set!($chip.border.border_part_40, $state.part_40);
        $set!($chip.border.border_part_38, $state.part_38);
        $set!($chip.border.top_compare, $state.top);
        $set!($chip.border.bottom_compare, $state.bottom);

        $set!($chip.sprites.vertical_expand_flip, $state.flip);
        $set!($chip.sprites.vertical_expand_clear_pending, $state.clear_pending);
        $set!($chip.sprites.sprite_dma, $state.dma);
        $set!($chip.sprites.sprite_dma_previous, $state.previous_dma);
        $set!($chip.sprites.sprite_display, $state.sprite_display);
        $set!($chip.sprites.vertical_match_mask, $state.vertical_match);

        $set!($chip.matrix_line, $state.matrix.0);

        $set!($chip.vc, $state.vc);
        $set!($chip.vc_base, $state.vc_base);
        $set!($chip.rc, $state.rc);
        $set!($chip.vmli, $state.vmli);
        $set!($chip.ba_low, $state.ba_low);
        $set!($chip.aec_low, $state.aec_low);
        $set!($chip.irq_changed, $state.irq_changed);
        $set!($chip.mode_changing, $state.mode_changing);
        $set!($chip.char_data_fetched, $state.character);
        $set!($chip.char_data_carry, $state.carry);
        $set!($chip.graphics_data_fetched, $state.graphics);
        $set!($chip.latch_den, $state.den_latch);
        $set!($chip.check_irq_in_cycle2, $state.frame_flag);
        $set!($chip.raster_match, $state.raster_match);
        $set!($chip.aec_counter, $state.aec_counter);
        $set!($chip.clock_ba_low, $state.clock_fall);
        $set!($chip.clock_ba_high, $state.clock_rise);
        $set!($chip.forced_badline_c_access_clock, $state.forced_clock);
        $set!($chip.current_clock, $state.clock);
        $set!($chip.dram_refresh_counter, $state.refresh);
    };
}

/// The chip and the memory lent to it.
pub struct Machine {
    chip: VicII,
    memory: Memory,
    /// Whether a late DEN sets the latch, which is ours beside the original.
    stands_in: bool,
    /// How many ticks found DEN late.
    late: u64,
    /// What was found of its two records of sprite DMA, and of its reads.
    records: Records,
    /// What the last tick read.
    reads: Reads,
    /// The AEC flags that its ticks left on this line, low in bit n for cycle n, and the lost cycles that a state brought with it.
    line: u128,
    brought: u8,
}

impl Machine {
    /// The chip at power-up, to judge the port by: alone, or with the stand-in of a late DEN.
    pub fn judging(memory: Memory, alone: bool) -> Self {
        Self { stands_in: !alone, ..Self::new(memory) }
    }

    /// The original alone, at power-up.
    pub fn new(memory: Memory) -> Self {
        let mut machine = Self::with(memory);
        // Drawing costs time and feeds nothing back; `check` compares both arms.
        machine.draw(false);
        machine.power_up(MOS6569);
        machine
    }

    /// The original's own power-up, with nothing put right.
    pub fn original_power_up() -> State {
        Self::with(Memory::new()).state()
    }

    fn with(memory: Memory) -> Self {
        Self { chip: VicII::new(), memory, stands_in: false, late: 0, records: Records::default(), reads: Reads::default(), line: 0, brought: 0 }
    }

    /// Chooses the arm of the original's `render_live`.
    pub fn draw(&mut self, enabled: bool) {
        self.chip.screen.set_compose_video(enabled);
    }

    /// The build for a clock runs the original alone, with nothing of ours beside it.
    fn watches(&self) -> bool {
        cfg!(debug_assertions) || self.stands_in
    }

    /// Before a tick: a DEN that comes late is counted, and sets the latch where it is stood in for. The tick's own work is the original's.
    fn late_den(&mut self) {
        if self.watches() && comes_late(self.chip.timing.cycle, self.chip.timing.raster_line, self.chip.regs.ctrl1, self.chip.latch_den) {
            self.late += 1;
            self.chip.latch_den |= self.stands_in;
        }
    }

    /// The sprites' own flags, as a mask.
    pub fn flags(&self) -> u8 {
        self.chip.sprites.sprites.iter().enumerate().fold(0, |flags, (k, sprite)| flags | u8::from(sprite.dma_active) << k)
    }

    /// What no state says: flags apart from the mask, as a scene up to version 2 could bring them in.
    pub fn set_flags(&mut self, flags: u8) {
        for (k, sprite) in self.chip.sprites.sprites.iter_mut().enumerate() {
            sprite.dma_active = flags >> k & 1 == 1;
        }
    }

    /// After a call: a mask and flags that are apart are counted.
    fn look(&mut self) {
        if self.watches() {
            self.records.looked += 1;
            self.records.apart += u64::from(self.flags() != self.chip.sprites.sprite_dma);
        }
    }

    /// One tick of the original, with what is ours beside it.
    fn step(&mut self) {
        self.late_den();
        let before = Before { aec_low: self.chip.aec_low, entering: self.chip.display_transition == transition(true) };
        // The build for a clock traces nothing.
        if cfg!(debug_assertions) {
            self.memory.trace.clear();
        }
        // The clock given here is the emulator's own, for the bus latch that is not kept.
        self.chip.tick_sequencer(&mut self.memory, 0);
        self.note_aec();
        self.look();
        if cfg!(debug_assertions) {
            self.trace(before);
        }
    }

    /// After a tick: the AEC flag that it left, beside those of its line (02 (xi)). The original counts nothing of the kind.
    fn note_aec(&mut self) {
        if self.watches() {
            let cycle = self.chip.timing.cycle;
            if cycle == 1 {
                (self.line, self.brought) = (0, 0);
            }
            self.line |= u128::from(self.chip.aec_low) << cycle;
        }
    }

    /// After a tick: what it read, where the trace is the table's.
    fn trace(&mut self, before: Before) {
        let read = told(&self.memory.trace, before, &self.state());
        self.records.traced += 1;
        self.records.other += u64::from(read.is_none());
        self.reads = read.unwrap_or_default();
    }

    /// The bytes that a sprite of this pointer fetches, one after another, by the original's own data slot.
    pub fn sprite_bytes(&mut self, pointer: u8, bank: u8) -> [u8; 64] {
        let mut sprite = self.chip.sprites.sprites[0];
        sprite.pointer = pointer.into();
        sprite.dma_active = true;
        sprite.mc = 0;
        std::array::from_fn(|n| {
            let column = n % 3;
            sprite.slot_access_data(column, &mut self.memory, bank, 0, true, false);
            sprite.fetch_buf[column]
        })
    }
}

impl Chip for Machine {
    fn see(&mut self, bank: u8) {
        self.memory.bank = bank;
    }

    /// docs/SCOPE.md's power-up: the parts' own values, but the forced clock is 0 and not -40.
    fn power_up(&mut self, kind: u8) {
        assert_eq!(kind, MOS6569, "the original is a 6569");
        let draw = self.chip.screen.compose_video();
        self.chip = VicII::new();
        self.draw(draw);
        self.chip.forced_badline_c_access_clock = 0;
        (self.line, self.brought) = (0, 0);
        self.look();
    }

    fn tick(&mut self) -> Result<(), Refusal> {
        if self.memory.bank > 3 {
            return Err(BANK_ABOVE_3);
        }
        // The build for a clock leaves the judge's own test out: a run from power-up keeps accepted states.
        if cfg!(debug_assertions) {
            takes(&self.state())?;
        }
        if self.chip.current_clock > CLOCK_LIMIT - 2 {
            return Err(CLOCK_AT_END);
        }
        self.step();
        Ok(())
    }

    fn reads(&self) -> Reads {
        self.reads
    }

    /// For a clock: the state is one that a tick takes.
    fn run(&mut self, ticks: u16, met: &mut Met) {
        for _ in 0..ticks {
            self.step();
            if self.watches() {
                met.tick(self.late);
            }
        }
    }

    fn write_file(&mut self, address: u16, value: u8) {
        self.chip.regs.write(address, value, &mut self.chip.irq);
        self.look();
    }

    fn write_y_expand(&mut self, value: u8) {
        self.chip.sprites.write_y_expand(value, self.chip.timing.cycle, &mut self.chip.regs);
        self.look();
    }

    /// The rule is ours, the fields and what they are set by the original's.
    fn write_control_1(&mut self, value: u8) {
        let c = &mut self.chip;
        let before = (c.regs.ecm(), c.regs.bmm());
        c.regs.ctrl1 = value;
        // Nothing above bit 8 stays.
        c.regs.raster_irq = (c.regs.raster_irq & 0x00FF) | (u16::from(value & 0x80) << 1);
        c.border.recompute_compare(c.regs.rsel());
        if (c.regs.ecm(), c.regs.bmm()) != before {
            c.mode_changing = true;
        }
        if c.timing.raster_line != c.regs.raster_irq {
            c.raster_match = false;
        } else if !c.raster_match {
            c.raster_match = true;
            c.irq.trigger(IRQ_RASTER);
        }
        self.look();
    }

    fn write_control_2(&mut self, value: u8) {
        let c = &mut self.chip;
        let before = c.regs.mcm();
        c.regs.ctrl2 = value;
        if c.regs.mcm() != before {
            c.mode_changing = true;
        }
        self.look();
    }

    fn place_controls(&mut self, ctrl1: u8, ctrl2: u8, compare: u16) -> Result<(), Refusal> {
        if compare > 511 {
            return Err(COMPARE_ABOVE_511);
        }
        self.chip.regs.ctrl1 = ctrl1;
        self.chip.regs.ctrl2 = ctrl2;
        self.chip.regs.raster_irq = compare;
        self.look();
        Ok(())
    }

    fn late_byte(&mut self, value: u8) -> Result<(), Refusal> {
        takes(&self.state())?;
        self.chip.complete_character_access(value);
        self.look();
        Ok(())
    }

    fn border_compares(&mut self) {
        self.chip.border.recompute_compare(self.chip.regs.rsel());
        self.look();
    }

    fn read(&self, address: u16, light_pen_x: u8, light_pen_y: u8) -> u8 {
        self.chip.regs.read(address, &self.chip.irq, self.chip.timing.raster_line, light_pen_x, light_pen_y)
    }

    fn ba_high_at_phi1(&self) -> bool {
        self.chip.ba_high_at_phi1()
    }

    fn sprites_with_dma(&self) -> u8 {
        self.chip.sprites.sprite_dma.count_ones() as u8
    }

    /// Counted over the original's own AEC flags.
    fn cycles_lost(&self) -> u8 {
        self.brought + self.line.count_ones() as u8
    }

    fn late(&self) -> u64 {
        self.late
    }

    fn records(&self) -> Records {
        self.records
    }

    fn load(&mut self, s: &State) {
        assert_eq!(s.kind, MOS6569, "the original is a 6569");
        let c = &mut self.chip;
        macro_rules! take {
            ($theirs:expr, $ours:expr) => {
                $theirs = $ours
            };
        }
        alike!(c, s, take);
        c.timing.ba_out = if s.ba_output_high { LineLevel::High } else { LineLevel::Low };
        for (theirs, ours) in c.sprites.sprites.iter_mut().zip(&s.sprites) {
            theirs.index = usize::from(ours.number);
            theirs.pointer = u16::from(ours.pointer);
            theirs.mc = u16::from(ours.mc);
            theirs.mc_base = u16::from(ours.base);
            theirs.data_buffer = ours.word;
            theirs.fetch_buf = ours.bytes;
        }
        c.display_state = display(s.displaying);
        c.display_transition = transition(s.entering);
        c.character_access_state = access(s.accessing);
        c.graphics_mode = GraphicsMode::from_code(s.mode);
        c.previous_graphics_mode = GraphicsMode::from_code(s.previous_mode);
        c.pending_character_access = s.pending.map(usize::from);
        // A state says it once (02 (ix)).
        self.set_flags(s.dma);
        (self.line, self.brought) = (0, s.lost);
    }

    fn state(&self) -> State {
        let c = &self.chip;
        let mut s = State::default();
        macro_rules! give {
            ($theirs:expr, $ours:expr) => {
                $ours = $theirs
            };
        }
        alike!(c, s, give);
        s.ba_output_high = c.timing.ba_out == LineLevel::High;
        for (theirs, ours) in c.sprites.sprites.iter().zip(&mut s.sprites) {
            ours.number = narrow(theirs.index);
            ours.pointer = narrow(theirs.pointer.into());
            ours.mc = narrow(theirs.mc.into());
            ours.base = narrow(theirs.mc_base.into());
            ours.word = theirs.data_buffer;
            ours.bytes = theirs.fetch_buf;
        }
        s.displaying = c.display_state == DisplayState::Display;
        s.entering = c.display_transition == DisplayTransition::EnterDisplayAfterCharacterAccess;
        s.accessing = c.character_access_state == CharacterAccessState::Enabled;
        s.mode = c.graphics_mode.code();
        s.previous_mode = c.previous_graphics_mode.code();
        s.pending = c.pending_character_access.map(narrow);
        s.lost = self.cycles_lost();
        s
    }
}

/// The original keeps these in wider numbers; no byte of a scene may be cut off silently.
fn narrow(number: usize) -> u8 {
    u8::try_from(number).expect("the field fits a byte")
}

fn display(on: bool) -> DisplayState {
    if on {
        DisplayState::Display
    } else {
        DisplayState::Idle
    }
}

fn transition(entering: bool) -> DisplayTransition {
    if entering {
        DisplayTransition::EnterDisplayAfterCharacterAccess
    } else {
        DisplayTransition::Stable
    }
}

fn access(on: bool) -> CharacterAccessState {
    if on {
        CharacterAccessState::Enabled
    } else {
        CharacterAccessState::Disabled
    }
}
