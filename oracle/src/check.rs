//! Checks the judges themselves: the original, and by it the model.

use crate::accept::accepted;
use crate::ask::mask_at;
use crate::cases::Maker;
use crate::chip::{Chip, Judges, Records, Refusal, CLOCK_AT_END};
use crate::kind::{MOS6567R8, MOS6569, NTSC, PAL};
use crate::late::Met;
use crate::memory::Memory;
use crate::play::play;
use crate::reads::{Reads, Reason};
use crate::replay::{answer_case, called, perform, Case, AFTER, OTHERS, READS, TICK, TICKING};
use crate::runs::{late, plain, Files};
use crate::scene::{fields, State};
use crate::vic::glue::Machine;
use std::cell::Cell;
use std::panic::{catch_unwind, AssertUnwindSafe};

/// The original on accepted states of a 6569: it never panics, and every tick's result is accepted.
pub fn check(seed: u64, count: u64) -> bool {
    let mut maker = Maker::new(seed, Some(MOS6569));
    let mut machine = Machine::new(maker.memory().clone());
    // This one takes the other arm of `render_live`, and keeps other left-overs between cases.
    let mut drawing = Machine::new(maker.memory().clone());
    drawing.draw(true);
    let (mut ticks, mut at_end) = (0u64, 0u64);
    for number in 0..count {
        let cycle = 1 + (number % 63) as u16;
        let case = Case { call: TICK, bank: (number / 63 % 4) as u8, arguments: [0; 4], state: maker.accepted(MOS6569, cycle) };
        if !accepted(&case.state) {
            return fault(number, &case.state, "the maker's state is not accepted");
        }
        let outcome = catch_unwind(AssertUnwindSafe(|| (perform(&mut machine, &case), answer_case(&mut drawing, &case))));
        let Ok((result, drawn)) = outcome else {
            return fault(number, &case.state, "the original panicked");
        };
        match result {
            Ok(_) => ticks += 1,
            Err(CLOCK_AT_END) => at_end += 1,
            Err(_) => return fault(number, &case.state, "an accepted state was refused"),
        }
        let after = machine.state();
        if !accepted(&after) {
            return fault(number, &case.state, "the result is not accepted");
        }
        if machine.flags() != after.dma {
            return fault(number, &case.state, "the mask and the flags are apart");
        }
        if drawn[AFTER..] != after.encode() {
            return fault(number, &case.state, "the two arms of render_live differ");
        }
        // The calls that take any state must not panic either, nor lose a byte of it.
        let case = maker.next();
        if catch_unwind(AssertUnwindSafe(|| answer_case(&mut machine, &case))).is_err() {
            return fault(number, &case.state, &format!("call {} panicked", case.call));
        }
    }
    println!("{count} accepted states: {ticks} ticked, {at_end} at the end of the clock, no panic, every result accepted, both arms alike");
    machine.records().agree() && drawing.records().agree()
}

fn fault(number: u64, state: &State, what: &str) -> bool {
    println!("state {number}: {what}\n{state:?}");
    false
}

/// The model by the original. On the 6569: whole answers of every call, and run files with the whole state after each step. On the
/// 6567R8: the cycles that do what a cycle of the 6569 does. The rest of it is its column of numbers.
pub fn check_model(seed: u64, count: u64) -> bool {
    let runs = (count / 2000).max(100);
    masks() && calls(seed, count) && run_files(seed, runs, plain) && run_files(seed, runs / 4, late) && shifted(seed, count / 2)
}

/// Every number's mask.
fn masks() -> bool {
    let mut machine = Machine::new(Memory::new());
    let apart = (0..=u16::MAX).find(|cycle| mask_at(&mut machine, *cycle) != PAL.mask(*cycle));
    match apart {
        Some(cycle) => println!("the masks of cycle {cycle} differ"),
        None => println!("65,536 masks, none differs"),
    }
    apart.is_none()
}

fn calls(seed: u64, count: u64) -> bool {
    let mut maker = Maker::new(seed, Some(MOS6569));
    let mut judges = Judges::new(maker.memory().clone(), false);
    let mut counts = [0u64; 256];
    for number in 0..count {
        let case = maker.next();
        let (theirs, ours) = (answer_case(&mut judges.original, &case), answer_case(&mut judges.model, &case));
        if theirs != ours {
            println!("case {number}, {}: original and model differ{}", called(case.call).unwrap_or_default(), apart(&theirs, &ours));
            return fault(number, &case.state, "before the call");
        }
        counts[usize::from(case.call)] += 1;
    }
    let told: Vec<String> = TICKING.iter().chain(&OTHERS).map(|call| format!("{} {}", called(*call).unwrap_or_default(), counts[usize::from(*call)])).collect();
    println!("{count} answers, none differs: {}; {} ticks with DEN late", told.join(", "), judges.original.late());
    judges.original.records().agree()
}

/// The fields in which two answers differ.
fn apart(a: &[u8], b: &[u8]) -> String {
    let differ = |place: usize, size: usize| a[place..place + size] != b[place..place + size];
    let reads = if differ(READS, AFTER - READS) { ", the reads" } else { "" };
    let scene: String = fields().iter().filter(|field| differ(AFTER + field.offset, field.size)).map(|field| format!(", {}", field.name)).collect();
    format!("{reads}{scene}")
}

/// The original and the model at once, every call done by both; it says where they part.
struct Beside<'a> {
    judges: Judges,
    parted: &'a Cell<bool>,
}

impl Beside<'_> {
    fn both<T: PartialEq>(&mut self, act: impl Fn(&mut dyn Chip) -> T) -> T {
        let (theirs, ours) = (act(&mut self.judges.original), act(&mut self.judges.model));
        if theirs != ours || self.judges.original.state() != self.judges.model.state() {
            self.parted.set(true);
        }
        theirs
    }
}

impl Chip for Beside<'_> {
    fn state(&self) -> State {
        self.judges.original.state()
    }
    fn load(&mut self, state: &State) {
        self.both(|chip| chip.load(state));
    }
    fn see(&mut self, bank: u8) {
        self.both(|chip| chip.see(bank));
    }
    fn power_up(&mut self, kind: u8) {
        self.both(|chip| chip.power_up(kind));
    }
    fn tick(&mut self) -> Result<(), Refusal> {
        self.both(|chip| chip.tick().map(|()| chip.reads())).map(|_| ())
    }
    fn reads(&self) -> Reads {
        self.judges.original.reads()
    }
    fn write_file(&mut self, address: u16, value: u8) {
        self.both(|chip| chip.write_file(address, value));
    }
    fn write_y_expand(&mut self, value: u8) {
        self.both(|chip| chip.write_y_expand(value));
    }
    fn write_control_1(&mut self, value: u8) {
        self.both(|chip| chip.write_control_1(value));
    }
    fn write_control_2(&mut self, value: u8) {
        self.both(|chip| chip.write_control_2(value));
    }
    fn place_controls(&mut self, ctrl1: u8, ctrl2: u8, compare: u16) -> Result<(), Refusal> {
        self.both(|chip| chip.place_controls(ctrl1, ctrl2, compare))
    }
    fn late_byte(&mut self, value: u8) -> Result<(), Refusal> {
        self.both(|chip| chip.late_byte(value))
    }
    fn border_compares(&mut self) {
        self.both(|chip| chip.border_compares());
    }
    // The calls that change nothing: run files have none of them.
    fn read(&self, address: u16, light_pen_x: u8, light_pen_y: u8) -> u8 {
        self.judges.original.read(address, light_pen_x, light_pen_y)
    }
    fn ba_high_at_phi1(&self) -> bool {
        self.judges.original.ba_high_at_phi1()
    }
    fn sprites_with_dma(&self) -> u8 {
        self.judges.original.sprites_with_dma()
    }
    fn cycles_lost(&self) -> u8 {
        self.judges.original.cycles_lost()
    }
    fn late(&self) -> u64 {
        self.judges.original.late()
    }
    fn records(&self) -> Records {
        self.judges.original.records()
    }
}

fn run_files(seed: u64, count: u64, files: Files) -> bool {
    let mut whole = Met::default();
    for number in 0..count {
        let parted = Cell::new(false);
        let met = play(&files(seed, number, PAL), |memory| Beside { judges: Judges::new(memory, false), parted: &parted }, |_| Ok(()));
        let met = met.expect("nothing is written");
        if parted.get() {
            println!("run file {number} of seed {seed}: original and model differ");
            return false;
        }
        if !met.records.agree() {
            return false;
        }
        whole.ticks += met.ticks;
        whole.late += met.late;
    }
    println!("{count} run files of {} ticks, none differs; {} ticks with DEN late", whole.ticks, whole.late);
    true
}

/// A cycle of the 6567R8, and one of the 6569 that does the same: what comes with no slot and no comparison has one number on both,
/// and the slots of sprites 0 to 2 and 4 to 7 follow each other alike. Cycle 64 is the 6569's last but for the border's test there.
fn alike(cycle: u16) -> Option<u16> {
    match cycle {
        3..=9 => Some(cycle + 1),
        10 => Some(11),
        11..=54 => Some(cycle),
        60..=64 => Some(cycle - 1),
        _ => None,
    }
}

/// Ticks of the model on a 6567R8 into the cycles that the original has too, under another number.
fn shifted(seed: u64, count: u64) -> bool {
    let mut maker = Maker::new(seed, Some(MOS6567R8));
    let mut judges = Judges::new(maker.memory().clone(), false);
    let (mut compared, mut others) = (0u64, 0u64);
    for number in 0..count {
        let cycle = 1 + (number % u64::from(NTSC.last_cycle)) as u16;
        let state = maker.accepted(MOS6567R8, cycle);
        let bank = (number / u64::from(NTSC.last_cycle) % 4) as u8;
        let ours = answer(&mut judges.model, &state, bank);
        if ours.0.is_ok() && (ours.1.kind, ours.1.cycle, accepted(&ours.1)) != (MOS6567R8, NTSC.next(cycle), true) {
            return fault(number, &state, "the model's tick leaves the kind, the line or what is accepted");
        }
        let Some(theirs) = alike(NTSC.next(cycle)) else {
            others += 1;
            continue;
        };
        let mut as_6569 = State { kind: MOS6569, cycle: theirs - 1, ..state.clone() };
        // No line of the border is met, so that its test changes nothing.
        if theirs == PAL.last_cycle {
            (as_6569.top, as_6569.bottom) = (0xFFFF, 0xFFFF);
        }
        // An earlier cycle takes fewer lost ones; no line begins here, so that the rest is added again.
        as_6569.lost = state.lost.min(as_6569.cycle as u8);
        let (mut told, mut after) = answer(&mut judges.original, &as_6569, bank);
        after.lost += state.lost - as_6569.lost;
        // The refresh of a 6569 in 11; here a cycle that has nothing to do.
        if NTSC.next(cycle) == 10 {
            told = told.map(|_| Reads::of(&[(Reason::Idle, 0x3FFF)]));
            after.refresh = state.refresh;
        }
        (after.kind, after.top, after.bottom) = (state.kind, state.top, state.bottom);
        after.cycle = if told.is_ok() { NTSC.next(cycle) } else { cycle };
        if ours != (told, after) {
            return fault(number, &state, "the model on a 6567R8 differs from the original in the same cycle of a 6569");
        }
        compared += 1;
    }
    println!("{compared} ticks of a 6567R8 by the same cycle of the original, none differs; {others} more have no such cycle");
    judges.original.records().agree()
}

/// A tick's refusal or reads, and the state afterwards.
fn answer(chip: &mut dyn Chip, state: &State, bank: u8) -> (Result<Reads, Refusal>, State) {
    chip.load(state);
    chip.see(bank);
    (chip.tick().map(|()| chip.reads()), chip.state())
}
