//! Makes cases for replay.

use crate::accept::CLOCK_LIMIT;
use crate::kind::{column, MOS6567R8, MOS6569, UNKNOWN};
use crate::memory::Memory;
use crate::model::Model;
use crate::replay::*;
use crate::rng::Rng;
use crate::scene::{fields, flag_at, Sort, State, HEAD, SCENE, WITHOUT_KIND, WITHOUT_LOST, WITHOUT_REFRESH};
use crate::states::*;
use crate::vic::glue::Machine;
use crate::walk::Walker;
use std::fs;
use std::io::{self, Write};
use std::path::Path;

/// Makes one case after another; ticks, and writes of the control registers, go through the cycles of their kind in turn, so that each
/// is met alike.
pub struct Maker {
    pub random: Rng,
    /// One kind alone; else one case in three is of a 6567R8, and a few are of no kind.
    only: Option<u8>,
    memory: Memory,
    /// Runs of a 6569 are the original's alone, without the stand-in of a late DEN.
    original: Walker<Machine>,
    model: Walker<Model>,
    /// Of each kind, for ticks and for writes of each control register.
    turns: [[u64; 3]; 2],
    change: u64,
    /// The flags that were drawn beside the last state's mask, and in how many cases they are apart from it.
    flags: u8,
    apart: u64,
}

impl Maker {
    pub fn new(seed: u64, only: Option<u8>) -> Self {
        let mut random = Rng::new(seed);
        let memory = memory(&mut random);
        let original = Walker::new(Machine::new(memory.clone()), MOS6569);
        let model = Walker::new(Model::new(memory.clone(), MOS6567R8), MOS6567R8);
        Self { random, only, memory, original, model, turns: [[0; 3]; 2], change: 0, flags: 0, apart: 0 }
    }

    pub fn memory(&self) -> &Memory {
        &self.memory
    }

    /// A kind for the next case.
    fn next_kind(&mut self) -> u8 {
        self.only.unwrap_or_else(|| if self.random.chance(1, 3) { MOS6567R8 } else { MOS6569 })
    }

    /// The state's cycle of the next call of this sort.
    fn next_cycle(&mut self, kind: u8, sort: usize) -> u16 {
        let turn = &mut self.turns[usize::from(kind)][sort];
        *turn += 1;
        1 + ((*turn - 1) % u64::from(column(kind).last_cycle)) as u16
    }

    /// An accepted state at this cycle, from a run or made up.
    pub fn accepted(&mut self, kind: u8, cycle: u16) -> State {
        let r = &mut self.random;
        if r.chance(1, 3) {
            let mut s = if kind == MOS6569 { self.original.state_at(r, cycle) } else { self.model.state_at(r, cycle) };
            // A clock far from power-up makes no other difference to a run.
            if r.chance(1, 8) {
                let later = r.within(0, CLOCK_LIMIT - (1 << 40));
                s.clock += later;
                s.forced_clock += later;
            }
            self.flags = s.dma;
            return s;
        }
        let (mut s, flags) = accepted_state(r, kind, cycle);
        self.flags = flags;
        match r.below(8) {
            0..=2 if (15..=54).contains(&cycle) => bend_to_merge(r, &mut s),
            3 | 4 if (15..=54).contains(&cycle) => {
                // All 64 changes, one after another.
                let (from, to) = (self.change / 8 % 8, self.change % 8);
                self.change += 1;
                bend_to_mode_change(r, &mut s, from as u8, to as u8);
                if r.chance(1, 8) {
                    bend_to_merge(r, &mut s);
                }
            }
            5 if (15..=54).contains(&cycle) => bend_to_idle(r, &mut s),
            6 => bend_to_edge(r, &mut s, false),
            _ => {}
        }
        s
    }

    /// A state for a call that asks for acceptance: mostly accepted, at times just past an edge.
    fn nearly_accepted(&mut self, kind: u8, cycle: u16) -> State {
        let mut s = self.accepted(kind, cycle);
        if self.random.chance(1, 16) {
            bend_to_edge(&mut self.random, &mut s, true);
            // Two faults at once are refused as one.
            if self.random.chance(1, 4) {
                bend_to_edge(&mut self.random, &mut s, true);
            }
        } else if self.random.chance(1, 64) {
            s = self.wild(kind);
        }
        s
    }

    fn wild(&mut self, kind: u8) -> State {
        let (s, flags) = wild_state(&mut self.random, kind);
        self.flags = flags;
        s
    }

    /// A state for a call that takes any.
    fn any(&mut self, kind: u8, cycle: u16) -> State {
        if self.random.chance(1, 3) {
            self.wild(kind)
        } else {
            self.nearly_accepted(kind, cycle)
        }
    }

    /// The same, of any kind at any cycle of it.
    pub fn anything(&mut self) -> State {
        let kind = self.next_kind();
        let cycle = self.random.within(1, column(kind).last_cycle.into()) as u16;
        let mut state = self.any(kind, cycle);
        self.lose_kind(&mut state, 12);
        state
    }

    /// One state of so many is of an unknown kind.
    fn lose_kind(&mut self, state: &mut State, whole: u64) {
        let r = &mut self.random;
        if self.only.is_none() && r.chance(1, whole) {
            state.kind = if r.flag() { r.pick(&UNKNOWN) } else { r.within(2, 255) as u8 };
        }
    }

    pub fn next(&mut self) -> Case {
        let call = match self.random.below(20) {
            0..=9 => TICK,
            10 | 11 => LINE,
            12 => TICKS,
            _ => self.random.pick(&OTHERS),
        };
        let ticks = TICKING.contains(&call);
        let kind = self.next_kind();
        let last = column(kind).last_cycle;
        let mut arguments = [0; 4];
        self.random.fill(&mut arguments);
        let mut bank = self.random.below(4) as u8;
        let cycle = match call {
            TICK => self.next_cycle(kind, 0),
            // A line begins at the last cycle alone, and a run of ticks has whole lines from there on.
            LINE if self.random.chance(15, 16) => last,
            TICKS if self.random.flag() => last,
            WRITE_CONTROL_1 => self.next_cycle(kind, 1),
            WRITE_CONTROL_2 => self.next_cycle(kind, 2),
            // The cycles with rules of their own, of both kinds, and their neighbours.
            WRITE_Y_EXPAND if self.random.flag() => self.random.pick(&[14, 15, 15, 16, 54, 55, 55, 56, 56, 57]),
            BA_HIGH_AT_PHI1 if self.random.chance(1, 3) => self.random.pick(&[54, 55, 56, 57, 58]),
            _ => self.random.within(1, last.into()) as u16,
        };
        let takes = ticks || call == LATE_BYTE;
        let mut state = if takes { self.nearly_accepted(kind, cycle) } else { self.any(kind, cycle) };
        // It is refused before anything else that is wrong with the state; what refuses nothing goes on with it.
        self.lose_kind(&mut state, if takes { 40 } else { 12 });
        let r = &mut self.random;
        match call {
            // The scene's own kind may be another: it is not looked at.
            POWER_UP => arguments[0] = self.only.unwrap_or_else(|| if r.flag() { kind } else { arguments[0] }),
            // The masks share a bit with the request at times, and at times not.
            BA_HIGH_AT_PHI1 => {
                state.ba_output_high |= r.chance(3, 4);
                state.dma = r.mask();
                state.previous_dma = r.mask();
            }
            // Registers with rules of their own, and any; some by a mirrored address.
            WRITE | READ if r.chance(1, 3) => {
                arguments[0] = r.pick(&[0x11, 0x12, 0x16, 0x17, 0x18, 0x19, 0x1A, 0x1E, 0x1F, 0x2E, 0x2F]) | (arguments[0] & 0xC0)
            }
            WRITE | READ if r.flag() => arguments[0] &= 0x3F,
            WRITE_CONTROL_1 if r.chance(7, 8) => arguments[0] = bend_to_compare(r, &mut state),
            WRITE_CONTROL_2 => arguments[0] = control_2(r, state.ctrl2),
            LINE => bend_to_line(r, &mut state),
            TICKS => {
                if cycle == last {
                    bend_to_line(r, &mut state);
                }
                arguments[..2].copy_from_slice(&run_of(r, last).to_le_bytes());
            }
            PLACE_CONTROLS if r.chance(3, 4) => arguments[3] &= 1,
            PLACE_CONTROLS if r.flag() => arguments[3] = 2,
            _ => {}
        }
        // Only what ticks minds the bank.
        if (ticks && r.chance(1, 64)) || (!ticks && r.chance(1, 8)) {
            bank = r.pick(&[4, 5, 128, 255]);
        }
        self.apart += u64::from(self.flags != state.dma);
        Case { call, bank, arguments, state }
    }
}

/// Random bytes, but the three idle addresses can be told apart, and from a byte that nobody drives.
fn memory(r: &mut Rng) -> Memory {
    let mut memory = Memory::new();
    r.fill(&mut memory.ram[..]);
    r.fill(&mut memory.rom[..]);
    r.fill(&mut memory.colour[..]);
    memory.ram[0x3FFF] = 0x5A;
    memory.ram[0x39FF] = 0xC3;
    memory.ram[0x38FF] = 0x3C;
    memory
}

pub fn lend(memory: &Memory, output: &mut impl Write) -> io::Result<()> {
    output.write_all(&memory.ram[..])?;
    output.write_all(&memory.rom[..])?;
    output.write_all(&memory.colour[..])
}

/// Makes a file of cases. Answers how many of them were drawn with a mask and flags that are apart.
pub fn make(seed: u64, count: u64, output: &str, only: Option<u8>) -> io::Result<u64> {
    let mut output = create(output)?;
    let mut maker = Maker::new(seed, only);
    lend(maker.memory(), &mut output)?;
    for _ in 0..count {
        output.write_all(&maker.next().encode())?;
    }
    output.flush()?;
    if !maker.original.records().agree() {
        return Err(io::Error::other("a run from power-up left the original's DMA mask and flags apart, or read what the table of reads has not"));
    }
    Ok(maker.apart)
}

/// What makes a case none.
#[derive(Clone, Copy)]
enum End {
    /// A byte past its values: place, and the first and the last of these.
    Past(usize, u8, u8),
    /// Another byte in the head.
    Head(usize),
    /// Another version of the scene, with its length: an old one, which `replay` does not take, or one to come.
    Version(u8, usize),
    /// Version 2, with flags.
    Flagged,
    Cut,
}

/// Every end, so that each comes in its turn.
fn all_ends() -> Vec<End> {
    let mut all = vec![End::Past(0, TICKS + 1, 255), End::Past(0, RETIRED, RETIRED)];
    all.extend(fields().into_iter().filter_map(|field| match field.sort {
        Sort::Number | Sort::Signed => None,
        Sort::Flag => Some(End::Past(6 + field.offset, 2, 255)),
        Sort::Mode => Some(End::Past(6 + field.offset, 8, 255)),
        Sort::Place => Some(End::Past(6 + field.offset, 40, 254)),
        Sort::Zero => Some(End::Past(6 + field.offset, 1, 255)),
    }));
    all.extend((0..HEAD.len()).map(End::Head));
    let own = [(1, WITHOUT_KIND), (2, WITHOUT_LOST), (3, WITHOUT_LOST), (4, WITHOUT_REFRESH)];
    all.extend(own.map(|(version, length)| End::Version(version, length)));
    all.extend([1, 2, 3, 4, 6].map(|version| End::Version(version, SCENE)));
    all.extend([End::Flagged, End::Cut]);
    all
}

/// Makes a case that is none. The first two rounds try the edges.
fn spoil(r: &mut Rng, end: End, round: usize, case: &mut Vec<u8>) {
    match end {
        End::Past(place, low, high) => {
            case[place] = match round {
                0 => low,
                1 => high,
                _ => r.within(low.into(), high.into()) as u8,
            };
        }
        End::Head(place) => case[6 + place] ^= r.within(1, 255) as u8,
        End::Version(version, length) => {
            case[6 + HEAD.len() - 1] = version;
            case.truncate(6 + length);
        }
        End::Flagged => {
            case[6 + HEAD.len() - 1] = 2;
            let flags = r.within(1, 255) as u8;
            (0..8).for_each(|k| case[6 + flag_at(k)] = flags >> k & 1);
            case.truncate(6 + WITHOUT_LOST);
        }
        End::Cut => case.truncate(r.within(1, CASE as i64 - 1) as usize),
    }
}

/// Replay inputs that end the run early: a few cases, one that is none, and one more that nobody answers. Answers how many
/// ends there are.
pub fn make_ends(seed: u64, count: u64, folder: &str, only: Option<u8>) -> io::Result<usize> {
    fs::create_dir_all(folder)?;
    let mut maker = Maker::new(seed, only);
    let ends = all_ends();
    for number in 0..count as usize {
        let mut bytes = Vec::new();
        lend(maker.memory(), &mut bytes)?;
        for _ in 0..maker.random.below(3) {
            bytes.extend(maker.next().encode());
        }
        let mut case = maker.next().encode().to_vec();
        let end = ends[number % ends.len()];
        spoil(&mut maker.random, end, number / ends.len(), &mut case);
        bytes.extend(case);
        // A cut is one only where the input ends; what is shorter by its version is no case either way.
        if !matches!(end, End::Cut) {
            bytes.extend(maker.next().encode());
        }
        fs::write(Path::new(folder).join(format!("{number:05}.bin")), bytes)?;
    }
    Ok(ends.len())
}
